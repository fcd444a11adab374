"""Calls that move a store to version 2, for each sentence of docs/RULES.md, 18.7, stores of which one byte is changed, and calls one after
another on one store, with what each must get and leave. Records and stores stand here as in cases_stores.py."""
import itertools

from calls import refuses, writes
from cases_settings import WRITTEN, found, written_digits
from cases_stores import DAMAGED, EMPTY, FULL, OTHER_LENGTHS, UNUSED, gets, of_length, putting, puts, store_of
from damage import Dice
from model_settings import Found
from settings import Case

# A record, and what a move makes of it or refuses.
SECONDS = [
    ("10000000", "20000000"), ("13000000", "23000000"), ("14000001", "240003e8"), ("1000003c", "2000ea60"), ("11004188", "21fffb40"),
    ("12004189", "22ffff28"), ("1200418a", 11), ("1400418b", 11), ("10010000", 11), ("13418937", 11), ("13418938", 11), ("11fffffe", 11),
    ("11ffffff", 11), ("10800000", 11), ("1083126f", 11),
]
MILLISECONDS = ["20000000", "23000001", "2400418a", "21ffff28", "22ffff29", "23800000", "24ffffff"]
UNKNOWN = [
    "00000001", "00000100", "00010000", "01000000", "0400418a", "0fffffff", "30000000", "31000001", "54000001", "91000001", "a1000001",
    "f0000000", "15000000", "1f000001", "1500418a", "25000000", "2f000001", "18000001", "28000001", "ffffffff",
]
MOVED_FULL = {d: f"2{d % 5}{255 * (d + 1) * (1 if d % 2 else 1000):06x}" for d in range(32)}


def moves(title, places, after):
    return Case(title, "store_move", store_of(places), writes(128), store_of(after))


def unmoved(title, places, number):
    return Case(title, "store_move", store_of(places), refuses(number))


def moving(title, places, others_moved, device, outcome):
    """A store of which one place is looked at: the outcome is its record after the move, or the number with which it is refused."""
    if outcome in (4, 11):
        return unmoved(title, places, outcome)
    return moves(title, places, {**others_moved, device: outcome})


# ---- whole stores


def whole_cases():
    yield moves("an empty store", EMPTY, EMPTY)
    yield moves("a full store", FULL, MOVED_FULL)
    yield moves("a full store moved again", MOVED_FULL, MOVED_FULL)
    for kind in range(5):
        seconds, moved = {d: f"1{kind}0000{d:02x}" for d in range(32)}, {d: f"2{kind}{d * 1000:06x}" for d in range(32)}
        yield moves("all in version 1", seconds, moved)
        yield moves("all in version 2", moved, moved)
    for device in range(32):
        yield moves("the only used place", {device: FULL[device]}, {device: MOVED_FULL[device]})
        yield moves("the only unused place", {**FULL, device: UNUSED}, {**MOVED_FULL, device: UNUSED})
    for places, length in itertools.product((EMPTY, FULL, DAMAGED, {0: "1200418a"}), OTHER_LENGTHS):
        yield Case("another length", "store_move", of_length(places, length), refuses(1))


def record_cases():
    """One place of each form, the others unused, and among others."""
    for device, (record, outcome) in enumerate([*SECONDS, *zip(MILLISECONDS, MILLISECONDS)]):
        yield moving("one place", {device: record}, EMPTY, device, outcome)
        yield moving("one place among others", {**FULL, device: record}, MOVED_FULL, device, outcome)
    for device, record in enumerate(UNKNOWN):
        yield unmoved("one place of another version or kind", {device: record}, 4)
        yield unmoved("one place among others", {**FULL, 31 - device: record}, 4)


def refused_cases():
    """Each device's place by itself keeps a store from being moved."""
    for device in range(32):
        for record, outcome in (("31000001", 4), ("25000001", 4), ("00000001", 4), ("1300418a", 11), ("12004189", "22ffff28")):
            yield moving("one of 32", {**FULL, device: record}, MOVED_FULL, device, outcome)


def order_cases():
    """4 is over all places before 11 is, whichever of them comes first."""
    pairs = [pair for d in range(31) for pair in ((d, d + 1), (d + 1, d))]
    for too_large, unknown in [*pairs, (0, 31), (31, 0), (3, 20), (20, 3)]:
        record = UNKNOWN[unknown % len(UNKNOWN)]
        yield unmoved("4 and 11", {**FULL, too_large: "1200418a", unknown: record}, 4)
    yield unmoved("4 and 11 everywhere", {**{d: "14ffffff" for d in range(31)}, 31: "2500418a"}, 4)
    yield unmoved("11 everywhere", {d: "14ffffff" for d in range(32)}, 11)
    yield unmoved("4 everywhere", DAMAGED, 4)


# ---- one byte changed

ALTERNATING = {d: "23fedcba" if d % 2 else "11000102" for d in range(32)}
MOVED_ALTERNATING = {d: "23fedcba" if d % 2 else "2103efd0" for d in range(32)}
# The two records of ALTERNATING with a byte changed, the first byte in ten ways: what a get must say, and what a move makes of it or
# refuses.
CHANGED_SECONDS = [
    ("00000102", Found(4), 4), ("01000102", Found(4), 4), ("10000102", found(0, 258000), "2003efd0"), ("15000102", Found(4), 4),
    ("14000102", found(4, 258000), "2403efd0"), ("19000102", Found(4), 4), ("21000102", found(1, 258), "21000102"),
    ("31000102", Found(4), 4), ("51000102", Found(4), 4), ("91000102", Found(4), 4),
    ("11010102", found(1, 65794000), 11), ("11ff0102", found(1, 16711938000), 11),
    ("11000002", found(1, 2000), "210007d0"), ("11004102", found(1, 16642000), "21fdefd0"), ("11004202", found(1, 16898000), 11),
    ("11000100", found(1, 256000), "2103e800"), ("110001ff", found(1, 511000), "2107cc18"),
]
CHANGED_MILLISECONDS = [
    ("00fedcba", Found(4), 4), ("03fedcba", Found(4), 4), ("20fedcba", found(0, 16702650), "20fedcba"), ("25fedcba", Found(4), 4),
    ("24fedcba", found(4, 16702650), "24fedcba"), ("2bfedcba", Found(4), 4), ("13fedcba", found(3, 16702650000), 11),
    ("33fedcba", Found(4), 4), ("63fedcba", Found(4), 4), ("a3fedcba", Found(4), 4),
    ("2300dcba", found(3, 56506), "2300dcba"), ("23ffdcba", found(3, 16768186), "23ffdcba"),
    ("23fe00ba", found(3, 16646330), "23fe00ba"), ("23feffba", found(3, 16711610), "23feffba"),
    ("23fedc00", found(3, 16702464), "23fedc00"), ("23fedcff", found(3, 16702719), "23fedcff"),
]


def changed_cases():
    """Each byte of a store changed: its own device, a neighbour and a move. Of the first byte each device has every other change."""
    for device in range(32):
        changed, neighbour = (CHANGED_MILLISECONDS, found(1, 258000)) if device % 2 else (CHANGED_SECONDS, found(3, 16702650))
        for turn, (record, reply, outcome) in enumerate(changed):
            places = {**ALTERNATING, device: record}
            if turn >= 10 or turn % 2 == device // 2 % 2:
                yield gets("a byte changed", places, device, reply)
                yield moving("a byte changed", places, MOVED_ALTERNATING, device, outcome)
            if turn % 4 == device % 4:
                yield gets("a byte of a neighbour changed", places, device ^ 1, neighbour)


# ---- one call after another


def spoken_sequence():
    """A device is set, moved, set again in seconds, too large to be moved, mended and moved again."""
    yield puts("first", EMPTY, 5, 1, 2, 60000, "1200003c")
    yield gets("got", {5: "1200003c"}, 5, found(2, 60000))
    yield gets("not set", {5: "1200003c"}, 4, Found())
    yield puts("second", {5: "1200003c"}, 31, 1, 4, 20000000, "14004e20")
    yield unmoved("too large", {5: "1200003c", 31: "14004e20"}, 11)
    yield putting("in milliseconds too", {5: "1200003c", 31: "14004e20"}, 31, 2, 4, 20000000, refuses(11))
    yield puts("mended", {5: "1200003c", 31: "14004e20"}, 31, 1, 4, 16000000, "14003e80")
    yield moves("moved", {5: "1200003c", 31: "14003e80"}, {5: "2200ea60", 31: "24f42400"})
    yield gets("the same after it", {5: "2200ea60", 31: "24f42400"}, 5, found(2, 60000))
    yield gets("the same after it", {5: "2200ea60", 31: "24f42400"}, 31, found(4, 16000000))
    yield moves("moved again", {5: "2200ea60", 31: "24f42400"}, {5: "2200ea60", 31: "24f42400"})
    yield puts("in seconds once more", {5: "2200ea60", 31: "24f42400"}, 5, 1, 0, 0, "10000000")
    yield gets("used, though all is 0", {5: "10000000", 31: "24f42400"}, 5, found(0, 0))
    yield moves("moved once more", {5: "10000000", 31: "24f42400"}, {5: "20000000", 31: "24f42400"})


class Held:
    """A store in the making: the records, and of those that aren't damaged what they must be got as."""

    def __init__(self, damaged):
        self.records, self.found = dict(damaged), {}

    def get(self, device):
        unset = Found(4) if device in self.records else Found()
        return gets("at random", self.records, device, self.found.get(device, unset))

    def put(self, device, version, kind, row):
        before, digits = dict(self.records), written_digits(version, kind, row)
        if digits is None:
            return putting("at random", before, device, version, kind, row[0], refuses(11))
        self.records[device], self.found[device] = digits, found(kind, row[0])
        return puts("at random", before, device, version, kind, row[0], digits)

    def move(self):
        if self.records.keys() != self.found.keys():
            return unmoved("at random", self.records, 4)
        if any(setting.milliseconds > 16777215 for setting in self.found.values()):
            return unmoved("at random", self.records, 11)
        before = self.records
        self.records = {device: f"2{setting.kind}{setting.milliseconds:06x}" for device, setting in self.found.items()}
        return moves("at random", before, self.records)


def random_sequence(dice, steps):
    """Calls on six devices, of which two are damaged at first; most delays can be written, and a few of these can't be moved."""
    held, rows = Held({1: "ff35050f", 30: "00000009"}), WRITTEN[:20]
    for _ in range(steps):
        step, device = dice.below(9), (0, 1, 15, 16, 30, 31)[dice.below(6)]
        if step < 3:
            yield held.get(device)
        elif step < 7:
            yield held.put(device, 1 + dice.below(2), dice.below(5), rows[dice.below(len(rows))])
        else:
            yield held.move()


def move_cases():
    yield from whole_cases()
    yield from record_cases()
    yield from refused_cases()
    yield from order_cases()
    yield from changed_cases()
    yield from spoken_sequence()
    yield from random_sequence(Dice("moves"), 160)
