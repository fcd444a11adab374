"""Calls that get a device's setting from a store or put one there, for each sentence of docs/RULES.md, 18.4 to 18.6, with what each
must get and leave. Records stand here as in cases_settings.py, and a store as a dict of those of its used places."""
import itertools

from calls import refuses, writes
from cases_settings import KINDS, READ, VERSIONS, WRITTEN, found, written_digits
from model_settings import Found
from settings import Case

UNUSED = "00000000"
# Every place used, in both versions and all kinds: device d's delay is 255 * (d + 1), in seconds where d is even.
FULL = {d: f"{1 + d % 2}{d % 5}{255 * (d + 1):06x}" for d in range(32)}
DAMAGED = {d: "ff35050f" for d in range(32)}
EMPTY = {}
OTHER_DEVICES = [
    32, 33, 63, 64, 127, 128, 255, 256, 256 + 5, 2**16 + 5, 2**30, 2**31 + 5, 2**32, 2**32 + 3, 2**32 + 31, 2**61 + 3, 2**62, 2**62 + 31,
    2**63, 2**63 + 3, 2**64 - 32, 2**64 - 1,
]
OTHER_LENGTHS = [0, 4, 124, 127, 129, 132, 256]


def store_of(places):
    return bytes.fromhex("".join(places.get(device, UNUSED) for device in range(32)))


def of_length(places, length):
    """The bytes of a store, cut or gone on with."""
    return (store_of(places) * 2)[:length]


def in_full(device):
    """The setting that FULL has of a device."""
    return found(device % 5, 255 * (device + 1) * (1 if device % 2 else 1000))


# ---- get


def gets(title, places, device, reply):
    return Case(title, "store_get", store_of(places), reply, device=device)


def device_cases():
    """Each device's own place, and no other: those are unused, used or damaged."""
    for device in range(32):
        yield gets("a full store", FULL, device, in_full(device))
        yield gets("an empty store", EMPTY, device, Found())
        yield gets("the only used place", {device: FULL[device]}, device, in_full(device))
        yield gets("the only unused place", {**FULL, device: UNUSED}, device, Found())
        yield gets("the only good place", {**DAMAGED, device: FULL[device]}, device, in_full(device))
        yield gets("unused among damaged ones", {**DAMAGED, device: UNUSED}, device, Found())
        yield gets("the only damaged place", {**FULL, device: DAMAGED[device]}, device, Found(4))


def form_cases():
    """Each form of a place; a single bit makes it used."""
    for bit in range(32):
        reply = found(0, 0) if bit in (28, 29) else Found(4)
        yield gets("one bit is set", {7: f"{2**bit:08x}"}, 7, reply)
    for version, kind in [*itertools.product("0123456789abcdef", "045f"), *itertools.product("12", "0123456789abcdef")]:
        for digits, *milliseconds in READ:
            known = version in "12" and kind in "01234"
            if version + kind + digits != UNUSED:
                reply = found(int(kind), milliseconds["12".index(version)]) if known else Found(4)
                yield gets("a place", {30: version + kind + digits}, 30, reply)


def get_length_cases():
    for device in OTHER_DEVICES:
        yield gets("another device", FULL, device, Found(1))
        yield gets("another device of an empty store", EMPTY, device, Found(1))
    for places, length, device in itertools.product((FULL, EMPTY, DAMAGED), OTHER_LENGTHS, (0, 1, 31, 32, 2**64 - 1)):
        yield Case("another length", "store_get", of_length(places, length), Found(1), device=device)


# ---- put


def putting(title, places, device, version, kind, milliseconds, reply, after=None):
    after = None if after is None else store_of(after)
    return Case(title, "store_put", store_of(places), reply, after, device, version, kind, milliseconds)


def puts(title, places, device, version, kind, milliseconds, digits):
    """An accepted put: this place has the digits, and all others what they had."""
    return putting(title, places, device, version, kind, milliseconds, writes(128), {**places, device: digits})


def put_device_cases():
    """Each device, over what is unused, used or damaged, and beside it."""
    for device in range(32):
        kind = device % 5
        yield puts("into an empty store", EMPTY, device, 1, kind, 60000, f"1{kind}00003c")
        yield puts("into a full store", FULL, device, 2, kind, 16777215, f"2{kind}ffffff")
        yield puts("over a damaged place", {device: "0000000f"}, device, 2, kind, 60000, f"2{kind}00ea60")
        yield puts("among damaged places", DAMAGED, device, 1, 4 - kind, 0, f"1{4 - kind}000000")
        yield puts("beside damaged places", {**DAMAGED, device: UNUSED}, device, 2, kind, 1, f"2{kind}000001")
        yield puts("what stands there", FULL, device, 1 + device % 2, kind, in_full(device).milliseconds, FULL[device])
        yield putting("refused", FULL, device, 3, kind, 1000, refuses(4))
        yield putting("refused", DAMAGED, device, 1, kind, 1, refuses(11))


def put_delay_cases():
    """Every delay of WRITTEN in both versions."""
    for version, row in itertools.product((1, 2), WRITTEN):
        digits = written_digits(version, 3, row)
        if digits:
            yield puts("a delay", {11: "24000001", 13: "1f000000"}, 12, version, 3, row[0], digits)
        else:
            yield putting("a delay", {11: "24000001", 12: "14000001"}, 12, version, 3, row[0], refuses(11))


def put_unknown_cases():
    """Another version or kind is 4, whatever the delay and what stood in the place."""
    for version, kind in itertools.product(VERSIONS, KINDS):
        if version not in (1, 2) or kind not in (0, 1, 2, 3, 4):
            milliseconds = (0, 1, 2**64 - 1)[(version + kind) % 3]
            yield putting("another version or kind", {9: "12000001"}, 9, version, kind, milliseconds, refuses(4))


def put_order_cases():
    """Another device or length is 1, whatever else could be refused."""
    for device, setting in itertools.product(OTHER_DEVICES, ((1, 4, 1000), (0, 4, 1000), (2, 5, 1), (1, 0, 2**64 - 1))):
        yield putting("another device", FULL, device, *setting, refuses(1))
    settings = [(0, 1, 4, 1000), (31, 2, 0, 16777215), (5, 0, 0, 1), (5, 2, 255, 1), (5, 1, 1, 1), (32, 1, 1, 1000), (2**64 - 1, 9, 9, 1)]
    for length, setting in itertools.product(OTHER_LENGTHS, settings):
        yield Case("another length", "store_put", of_length(FULL, length), refuses(1), None, *setting)
    for length in OTHER_LENGTHS:
        yield Case("another length", "store_put", bytes(length), refuses(1), None, 0, 2, 0, 0)


def store_cases():
    yield from device_cases()
    yield from form_cases()
    yield from get_length_cases()
    yield from put_device_cases()
    yield from put_delay_cases()
    yield from put_unknown_cases()
    yield from put_order_cases()
