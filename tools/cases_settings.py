"""Calls that read or write one record of a reconnect setting, for each sentence of docs/RULES.md, 18.1 to 18.3, with what each must get.

A record stands here as eight hexadecimal digits: version, kind, and six of the delay. So it is said without any of the model's
arithmetic."""
import itertools

from calls import filled, refuses, writes
from model_settings import Found
from settings import Case

# Six digits of a delay, and how many milliseconds they are in version 1 and in version 2.
READ = [("000000", 0, 0), ("000001", 1000, 1), ("ffffff", 16777215000, 16777215)]
MORE_READ = [("000100", 256000, 256), ("010000", 65536000, 65536), ("012345", 74565000, 74565), ("800000", 8388608000, 8388608)]

# Milliseconds, and their digits in version 1 and in version 2, None where they can't be written.
WRITTEN = [
    (0, "000000", "000000"), (1, None, "000001"), (255, None, "0000ff"), (256, None, "000100"), (999, None, "0003e7"),
    (1000, "000001", "0003e8"), (1001, None, "0003e9"), (1999, None, "0007cf"), (2000, "000002", "0007d0"), (65536, None, "010000"),
    (256000, "000100", "03e800"), (16776999, None, "ffff27"), (16777000, "004189", "ffff28"), (16777001, None, "ffff29"),
    (16777214, None, "fffffe"), (16777215, None, "ffffff"), (16777216, None, None), (16777217, None, None), (16778000, "00418a", None),
    (65536000, "010000", None), (16777213999, None, None), (16777214000, "fffffe", None), (16777214001, None, None),
    (16777214999, None, None), (16777215000, "ffffff", None), (16777215001, None, None), (16777215999, None, None),
    (16777216000, None, None), (16777216001, None, None), (16777217000, None, None), (16777221000, None, None),
    (4294967000, "418937", None), (4294968000, "418938", None),
    # Their lowest 32, 48 or 63 bits alone could be written; then the largest, whole seconds and not.
    *((number, None, None) for number in (
        2**32, 2**32 + 1, 2**32 + 5, 2**32 + 1000, 2**32 * 125, 2**32 * 125 + 1000, 2**32 * 1000, (2**32 + 5) * 1000, 2**48, 2**48 * 1000,
        2**63 - 1, 2**63, 2**63 + 1, 2**63 + 1000, 9223372036854775000, 9223372036854776000, 2**64 - 1000, 2**64 - 1,
        18446744073709551000, 18446744073709550000, 18446744073709549000,
    )),
]
VERSIONS = [0, 1, 2, 3, 4, 15, 16, 17, 18, 33, 129, 255]
KINDS = [0, 1, 2, 3, 4, 5, 6, 8, 15, 16, 17, 20, 128, 132, 255]
WITH_UNKNOWN = [0, 1, 1000, 16777215, 16777216, 16777215000, 2**32, 2**64 - 1]  # milliseconds beside a version or kind that is refused
LENGTHS = [length for length in range(10) if length != 4]


def found(kind, milliseconds):
    return Found(0, 1, kind, milliseconds)


def written_digits(version, kind, row):
    """The record of a row of WRITTEN, as digits; None where its delay can't be written in this version."""
    _, *delays = row
    digits = delays[version - 1]
    return digits and f"{version}{kind}{digits}"


# ---- read


def reads(title, record, reply):
    return Case(title, "read_setting", record, reply)


def read_cases():
    """Every version with every kind: the first byte has all of its values."""
    for version, kind, delay in itertools.product("0123456789abcdef", "0123456789abcdef", READ + MORE_READ):
        digits, *milliseconds = delay
        if version in "12" and kind in "01234":
            yield reads("a record", bytes.fromhex(version + kind + digits), found(int(kind), milliseconds["12".index(version)]))
        elif delay in READ:
            yield reads("another version or kind", bytes.fromhex(version + kind + digits), Found(4))
    for record in ("00000000", "00000100", "00010000", "0f000000", "0000ffff"):
        yield reads("version 0", bytes.fromhex(record), Found(4))


def read_length_cases():
    """Another length is 1, whatever the bytes are."""
    for length, record in itertools.product([*LENGTHS, 128, 256], ("11000001", "24ffffff", "00000000", "35000000", "15000001", "ffffffff")):
        yield reads("another length", (bytes.fromhex(record) * 64)[:length], Found(1))


# ---- written


def writing(title, version, kind, milliseconds, lent, reply, after=None):
    return Case(title, "write_setting", lent, reply, after, version=version, kind=kind, milliseconds=milliseconds)


def write_cases():
    """Every delay of WRITTEN in both versions with every kind."""
    for version, kind, row in itertools.product((1, 2), range(5), WRITTEN):
        digits = written_digits(version, kind, row)
        reply, after = (writes(4), bytes.fromhex(digits)) if digits else (refuses(11), None)
        yield writing("a record", version, kind, row[0], filled(4), reply, after)


def unknown_cases():
    """Another version or kind is 4 whatever the delay."""
    for version, kind, milliseconds in itertools.product(VERSIONS, KINDS, WITH_UNKNOWN):
        if version not in (1, 2) or kind not in (0, 1, 2, 3, 4):
            yield writing("another version or kind", version, kind, milliseconds, filled(4), refuses(4))


def write_over_cases():
    """What stood in the lent bytes doesn't matter."""
    for before in ("00000000", "ffffffff", "1200003c", "2200ea60", "05000001"):
        lent = bytes.fromhex(before)
        yield writing("over other bytes", 1, 2, 60000, lent, writes(4), bytes.fromhex("1200003c"))
        yield writing("over other bytes", 2, 2, 60000, lent, writes(4), bytes.fromhex("2200ea60"))
        yield writing("over other bytes", 2, 0, 0, lent, writes(4), bytes.fromhex("20000000"))
        for version, kind, milliseconds, number in ((3, 2, 60000, 4), (1, 5, 60000, 4), (1, 2, 60001, 11), (2, 2, 16777216, 11)):
            yield writing("over other bytes, refused", version, kind, milliseconds, lent, refuses(number))


def write_length_cases():
    """Another length is 1, whatever else could be refused."""
    wrong = itertools.product([*LENGTHS, 128, 256], (1, 2, 0, 255), (0, 4, 5), (0, 1000, 1, 2**64 - 1))
    for length, version, kind, milliseconds in wrong:
        if length in (0, 3, 5) or (version, kind, milliseconds) in ((1, 4, 1000), (2, 0, 1), (0, 5, 1)):
            yield writing("another length", version, kind, milliseconds, filled(length), refuses(1))


def setting_cases():
    yield from read_cases()
    yield from read_length_cases()
    yield from write_cases()
    yield from unknown_cases()
    yield from write_over_cases()
    yield from write_length_cases()
