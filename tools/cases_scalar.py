"""ECDSA scalars by docs/RULES.md, 6.5, for each curve: strings of every length and first byte, every number of leading
zeros, zeros alone, a second fault beside the scalar, a section that ends in it, and images of the writer as it was before.

P-256 has every combination; the larger curves have all of them at the borders, and between these one first byte in turn for each
length, and every third number of zeros."""
import itertools

import model
from fields import ALGORITHMS, SIZES
from images import Field, accepted, by_old_writer, changed, inner, join, keypair_fields, place, plain, point_of, put
from images import refused, scalar_of, spot, stream

FIRST = [0, 1, 0x7F, 0x80, 0xFF]
SIDES = [0x7F, 0x80]  # on each side of the byte that needs a zero before it
P256 = 1
READ = (0, 0, 0)
FIELD = "section.scalar"


def number(first, length):
    """So many bytes that begin with this one."""
    return (bytes([first]) + stream("number", length))[:length]


def thinned(algorithm, turn, borders, choices):
    """All choices for P-256 and at a border, else one of them in turn."""
    return choices if algorithm == P256 or turn in borders else [choices[turn % len(choices)]]


# ---- zeros and then a number


def zeros_before(algorithm, zeros, rest):
    """The case of so many zeros and then bytes of which the first isn't 0: what it must get, and its scalar's place."""
    size, length = SIZES[algorithm], zeros + len(rest)
    fields = plain(algorithm, scalar=bytes(zeros) + rest)
    title = f"scalar of {length}: {zeros} zeros, then {rest[:1].hex()}"
    if length > size + 1:
        return refused(title, fields, 6, FIELD, 4 + size, length - size)
    if length == size + 1 and zeros == 0:
        return refused(title, fields, 2, FIELD)
    image, needed = join(fields), 1 if rest[0] >= 0x80 else 0
    assert model.read(image).scalar == (place(fields, FIELD) + 4 + zeros, len(rest)), title
    return accepted(title, fields, zeros == needed)


def of_length(algorithm, length, first):
    """A scalar's string of this length that begins so; where it begins with 0, a number follows."""
    if first == 0:
        return zeros_before(algorithm, 1, number((0x5A, 0xA5)[length % 2], length - 1))
    return zeros_before(algorithm, 0, number(first, length))


def length_cases(algorithm):
    size = SIZES[algorithm]
    for first in FIRST[1:]:
        yield of_length(algorithm, 1, first)
    for length in range(2, size + 4):
        for first in thinned(algorithm, length, (size - 1, size, size + 1), FIRST):
            yield of_length(algorithm, length, first)


def leading_cases(algorithm):
    """Any number of zeros, before a number that fills the string and, in turn, before a single byte."""
    size = SIZES[algorithm]
    borders = (0, 1, 2, size - 1, size, size + 1)
    for zeros in range(size + 2):
        if algorithm == P256 or zeros in borders or zeros % 3 == 0:
            alone = zeros % 2 == 1 or zeros > size
            for first in thinned(algorithm, zeros, borders, SIDES):
                yield zeros_before(algorithm, zeros, number(first, 1 if alone else size + (zeros > 0) - zeros))


# ---- no number


def zero_cases(algorithm):
    """Zeros alone, and no bytes at all."""
    size = SIZES[algorithm]
    yield refused("empty scalar", plain(algorithm, scalar=b""), 1, FIELD)
    few = [1, 2, 3, 4, 5, 8, 9, 16, 31, 32, 33, size - 1, size, size + 1]
    for length in range(1, size + 2) if algorithm == P256 else few:
        yield refused(f"{length} zeros", plain(algorithm, scalar=bytes(length)), 2, FIELD)
    for extra in (2, 3, 8):
        yield refused(f"SIZE + {extra} zeros", plain(algorithm, scalar=bytes(size + extra)), 6, FIELD, 4 + size, extra)


# ---- two faults at once


def second_faults(algorithm, scalar):
    """Images with this scalar and a fault after it: number, field, offset and count, and the fields."""
    other = algorithm % 3 + 1
    fields = plain(algorithm, scalar=scalar)
    padding = inner(spot(fields, "section.padding").field)
    unlike = plain(algorithm, keypair=keypair_fields(other, scalar=scalar))
    yield (4, "section.curve"), changed(unlike, {"section.name": ALGORITHMS[algorithm]})
    yield (5, "section.name"), unlike
    yield (5, "section.name"), plain(algorithm, keypair=keypair_fields(algorithm, point_of(algorithm, "other"), scalar))
    yield (7, "section.comment"), plain(algorithm, b"s\xfcd", scalar)
    yield (1, "section.padding"), put(fields, "section.padding", bytes(range(1, len(padding) + 9)))
    yield (6, "left", 0, 2), [*fields, Field("left", b"\0\0", counted=False)]
    if padding:
        yield (2, "section.padding"), put(fields, "section.padding", padding[:-1] + b"\0")


def fault_cases(algorithm):
    """A scalar that is refused comes first; a short one, or one with needless zeros, is read, and then comes the other fault."""
    scalars = [(bytes(32), 2), (b"\0\x5a", None), (bytes(3), 2), (b"", 1), (number(0x80, 27), None)]
    for scalar, reply in scalars if algorithm == P256 else scalars[:2]:
        for fault, fields in second_faults(algorithm, scalar):
            title = f"scalar of {len(scalar)}, then {fault[0]} at {fault[1]}"
            yield refused(title, fields, *(fault if reply is None else (reply, FIELD)))


# ---- a section that ends in the scalar


def ending_cases(algorithm):
    """The section ends with the scalar's bytes, whose length says as many, or one more than there are."""
    size = SIZES[algorithm]
    whole = plain(algorithm)
    before = place(whole, FIELD) + 4 - (place(whole, "section") + 4)
    for there in range(-before % 8, size + 17, 16):
        for scalar in (bytes(there), number(0x21, there)):
            short = Field("scalar", scalar, length=there + 1)
            yield refused(f"{there} of {there + 1} bytes", ending_with(whole, short), 1, FIELD)
            if 0 < there <= size:
                fields = ending_with(whole, Field("scalar", scalar))
                reply = (1, FIELD, 4 + there) if any(scalar) else (2, FIELD)
                yield refused(f"{there} bytes, and no comment", fields, *reply)


def ending_with(fields, scalar):
    section = [field for field in spot(fields, "section").field.content if field.name not in ("comment", "padding")]
    return put(fields, "section", [*section[:-1], scalar])


# ---- paddings, and the writer as it was


def padding_cases(algorithm):
    """Each padding after a short scalar."""
    scalar = scalar_of(algorithm)[: SIZES[algorithm] - 1]
    cases = [accepted("a short scalar", plain(algorithm, b"c" * c, scalar)) for c in range(8)]
    assert sorted(model.read(case.image).padding for case in cases) == list(range(8))
    yield from cases


def old_privates(algorithm):
    """Private bytes of which the writer before request Five stored all, with how many zeros they begin."""
    size = SIZES[algorithm]
    for zeros, first in itertools.product((1, 2, size - 1), SIDES):
        yield zeros, bytes(zeros) + number(first, size - zeros)


def old_cases(algorithm):
    """Only where a single zero stands before a byte of 0x80 or more was it needed, and the image is still in the form."""
    for zeros, private in old_privates(algorithm):
        title = f"the old writer's image, {zeros} zeros, then {private[zeros]:02x}"
        form = zeros == 1 and private[zeros] >= 0x80
        yield accepted(title, plain(algorithm, b"of the old writer", by_old_writer(private)), form)
    for first in SIDES:
        private = number(first, SIZES[algorithm])
        title = f"the old writer's image, {first:02x} first"
        yield accepted(title, plain(algorithm, b"of the old writer", by_old_writer(private)))


def scalar_image_cases():
    """The header read accepts them all."""
    families = [length_cases, leading_cases, zero_cases, fault_cases, ending_cases, padding_cases, old_cases]
    for family, algorithm in itertools.product(families, SIZES):
        for case in family(algorithm):
            yield case._replace(header=READ)
