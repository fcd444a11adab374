"""Records handed in by hand: right ones, ones that are wrong in a single number, those of another image, and those of none."""
import functools
import itertools

import model
from calls import LARGE, refuses, writes
from cases_marked import encrypted_of_size, marked_examples
from cases_plain import more_than_size, size_of
from cases_rewrite import damaged
from cases_scalar_writing import short_privates, slips
from fields import ED25519, LIMIT, SIZES, content
from images import bcrypt_options, corpus, encrypted, join, minimal, plain, scalar_of, stream
from records import CODES, NAMES, OTHERS, PARTS, WIDTHS, Handed, half_of, index_of, numbers_of, record_of

READ, UNLIKE = (0, 0, 0), (1, 0, 0)  # the section read's replies to a right half of an accepted image and to another
EMPTY = model.Answer(kind=model.PLAIN)  # the record of a refusal; its kind is the first, since an enum always has one
REAL = ["keygen-ed25519-utf8", "keygen-p521-aes128-gcm"]
CLOSELY = ["plain 1", "bcrypt aes256-gcm", "plain 0", "a missing zero", "none aes128-cbc"]  # more of their places are tried


class Base:
    """An accepted image, its record, and how long it is once written again."""

    def __init__(self, title, fields, size=None):
        self.title, self.image = title, fields if isinstance(fields, bytes) else join(fields)
        self.record = model.read_image(self.image)
        self.size = len(self.image) if size is None else size
        self.room = max(self.size + 9, 257)  # enough, so that a wrong record is refused for itself

    def handed(self, record, title, room=None):
        """Another record than its own with this image, which is refused; the section read looks at its header half alone."""
        assert record != self.record, (self.title, title)
        section = READ if half_of(record) == half_of(self.record) else UNLIKE
        room = self.room if room is None else room
        return Handed(f"{self.title}: {title}", self.image, record, room, refuses(1), section)


def plain_bases():
    for algorithm in range(4):
        yield Base(f"plain {algorithm}", plain(algorithm))
    yield Base("no comment", plain(ED25519, b""))
    yield Base("a long comment", plain(1, "Bäckerei Süd – Ofen 7 – 炉 🥖".encode() * 9))
    yield Base("a zero before the scalar", plain(1, b"oven", scalar=b"\0" + scalar_of(1, 0x80)))
    yield Base("a needless zero", plain(2, scalar=b"\0" + scalar_of(2, 0x7F)), size_of(2, 0, 7))
    yield Base("a missing zero", plain(3, scalar=scalar_of(3, 0x80)), size_of(3, 1, 7))
    yield Base("a short scalar", plain(3, scalar=scalar_of(3)[:-1]))


def encrypted_bases():
    yield Base("bcrypt aes256-ctr", encrypted(ED25519, b"aes256-ctr"))
    yield Base("bcrypt aes256-gcm", encrypted(1, b"aes256-gcm@openssh.com"))
    yield Base("bcrypt 3des-cbc", encrypted(2, b"3des-cbc"))
    yield Base("none aes128-cbc", encrypted(ED25519, b"aes128-cbc", b"none"))
    yield Base("none aes128-gcm", encrypted(3, b"aes128-gcm@openssh.com", b"none"))
    bare = encrypted(ED25519, b"aes192-ctr", options=bcrypt_options(b"", 0), blocks=0)
    yield Base("neither salt, rounds nor ciphertext", bare)


@functools.cache
def bases():
    real = [Base(case.title, case.image) for case in corpus() if case.title in REAL]
    return [*plain_bases(), *encrypted_bases(), *real]


def room_of(image):
    return max(len(image) + 9, 257)


# ---- right records


def right_cases(base):
    """The right record, with room that is just enough, more, and too little."""
    for room in (base.size, base.size + 1, base.room):
        yield Handed(base.title, base.image, base.record, room, writes(base.size), READ)
    for room in (0, base.size // 2, base.size - 1):
        yield Handed(base.title, base.image, base.record, room, refuses(9), READ)


def same_record_cases():
    """Another image that has the very same record: the key, the comment's letters and the salt aren't in it."""
    pairs = [
        (plain(ED25519, b"oven-12"), plain(ED25519, b"oven-13")),
        (plain(1, b"oven"), plain(1, b"cake", scalar=scalar_of(1, 0x11))),
        (encrypted(0, b"aes256-ctr"), encrypted(0, b"aes256-ctr", options=bcrypt_options(stream("other", 16)))),
    ]
    for one, other in pairs:
        image = join(other)
        assert image != join(one)
        yield Handed("the same record", image, model.read_image(join(one)), len(image), writes(len(image)), READ)


# ---- one number wrong


def wrong_values(i, number):
    """Values other than the right one for the i-th number."""
    if i < len(CODES):
        values = CODES[i]
    else:
        width = WIDTHS[i - len(CODES)]
        flips = [number ^ 2**8, number ^ width // 2, number ^ 2**32]
        values = [number + 1, number - 1, 0, width - 1, *flips]
        values = [value % width for value in values]
    return [value for value in dict.fromkeys(values) if value != number]


def put(record, i, number):
    numbers = numbers_of(record)
    numbers[i] = number
    return record_of(numbers)


def single_cases(base):
    """All but RSA's numbers, of which cases_rsa_records.py has the cases."""
    for i, number in enumerate(numbers_of(base.record)[:OTHERS]):
        for value in wrong_values(i, number):
            yield base.handed(put(base.record, i, value), f"number {i} is {value}")


def flipped_cases(base):
    """Each bit of the rounds and of the checkint."""
    for i in (NAMES.index("rounds"), NAMES.index("checkint")):
        for bit in range(32):
            flipped = numbers_of(base.record)[i] ^ 2**bit
            yield base.handed(put(base.record, i, flipped), f"bit {bit} of number {i}")


def little_room_cases(base):
    """A wrong record is refused before the room is looked at."""
    for name in ("rounds", "checkint", "padding"):
        i = NAMES.index(name)
        wrong = put(base.record, i, numbers_of(base.record)[i] + 1)
        for room in (0, base.size):
            yield base.handed(wrong, name, room)


# ---- a place wrong


def wrong_places(start, length, end):
    """Places whose start and length are wrong together: moved, absent, past the end, or with a sum about 2**64."""
    yield from ((start + 1, length - 1), (start - 1, length + 1), (start - 4, length + 4), (0, 0))
    yield from ((0, end), (end, 0), (end, 1), (end - 1, 1), (end + 1, 0), (0, end + 1))
    yield from ((2**64 - length, length), (2**64 - 1, length + 1), (start, 2**64 - start), (2**64 - 1, 2**64 - 1))
    yield from ((2**63, 2**63), (2**64 - 1, 1), (1, 2**64 - 1), (start + 2**32, length + 2**32))


def place_cases(base, parts=PARTS):
    for part in parts:
        own = getattr(base.record, part)
        for start, length in wrong_places(*own, len(base.image)):
            place = (start % 2**64, length % 2**64)
            if place != own:
                yield base.handed(with_part(base.record, part, place), f"{part} is {place}")


def with_part(record, part, place):
    i = index_of(part)
    return put(put(record, i, place[0]), i + 1, place[1])


def swapped_cases(base, pairs):
    """Two parts in each other's place."""
    for one, other in pairs:
        places = getattr(base.record, one), getattr(base.record, other)
        if places[0] != places[1]:
            numbers = numbers_of(base.record)
            i, j = map(index_of, (one, other))
            numbers[i : i + 2], numbers[j : j + 2] = places[1], places[0]
            yield base.handed(record_of(numbers), f"{one} for {other}")


# ---- short scalars, and zeros before them


def scalar_bases(algorithm):
    """Short scalars in the form and not, each with its size once written again."""
    minimal_ones = [(private, minimal(algorithm, private)) for private in short_privates(algorithm)]
    for private, scalar in [*minimal_ones, *slips(algorithm)][algorithm::4]:
        size = size_of(algorithm, more_than_size(algorithm, private), 7)
        yield Base(f"scalar {scalar[:2].hex()}, {len(scalar)} bytes", plain(algorithm, scalar=scalar), size)


def scalar_cases():
    """The scalar's place is that without the zeros, and no other."""
    for base in itertools.chain.from_iterable(map(scalar_bases, SIZES)):
        yield from list(right_cases(base))[::2]
        start, length = base.record.scalar
        zeros = [(start - more, length + more) for more in (1, 2)] + [(start + 1, length - 1), (start, length - 1)]
        for place in zeros:
            yield base.handed(with_part(base.record, "scalar", place), f"scalar is {place}")


# ---- the record of another image, or of none


def other_cases(base):
    for other in bases():
        if other.record != base.record:
            yield base.handed(other.record, f"the record of {other.title}")
    yield base.handed(EMPTY, "the empty record")


def damaged_cases(base):
    """Its own record, but the image is refused or no longer what it was."""
    image = base.image
    for other in (b"", image[:15], image[:-1], image[1:], image + b"\0", b"O" + image[1:], image + image):
        for record, section in ((base.record, None), (EMPTY, UNLIKE)):
            yield Handed(f"{base.title}: damaged", other, record, room_of(other), refuses(1), section)


def refused_cases():
    """Refused images of every kind."""
    images = [case.image for case in (*marked_examples(), *damaged(40))]
    for turn, image in enumerate(image for image in images if model.read(image).number != 0):
        good = bases()[turn % len(bases())]
        for record, section in ((EMPTY, UNLIKE), (good.record, None)):
            yield Handed("a refused image", image, record, room_of(image), refuses(1), section)


# ---- as large as the limit, and above it


def above(image, record):
    """The record that an encrypted image would have without the limit, given that of the one with a salt byte less."""
    numbers = numbers_of(record)
    numbers[index_of("salt") + 1] += 1
    for i in (NAMES.index("section"), *map(index_of, ("blob", "point", "ciphertext", "tag"))):
        numbers[i] += 1
    shifted = record_of(numbers)
    assert content(image, shifted.tag) == stream("tag", 16) and sum(shifted.tag) == len(image)
    return shifted


def large_cases():
    """The right record of a plain image that lacks its zero, written again, would be above the limit: 11."""
    whole, sealed, over = (join(f) for f in (plain(1, b"c" * 65232), encrypted_of_size(LIMIT), encrypted_of_size(LIMIT + 1)))
    missing = join(plain(1, b"c" * 65232, scalar=scalar_of(1, 0x80)))
    for image in (whole, sealed):
        yield Handed("the largest", image, model.read_image(image), LARGE, writes(LIMIT), READ)
    yield Handed("the largest, a byte too short", sealed, model.read_image(sealed), LIMIT - 1, refuses(9), READ)
    for room in (LARGE, 40):
        yield Handed("above the limit once written", missing, model.read_image(missing), room, refuses(11), READ)
    wrong = put(model.read_image(missing), NAMES.index("checkint"), 0)
    yield Handed("the same, its checkint wrong", missing, wrong, 40, refuses(1), READ)
    for record in (above(over, model.read_image(sealed)), EMPTY):
        yield Handed("above the limit", over, record, LARGE, refuses(1), UNLIKE)


def record_cases():
    for base in bases():
        yield from right_cases(base)
        yield from single_cases(base)
        yield from little_room_cases(base)
        yield from other_cases(base)
        yield from damaged_cases(base)
        if base.title in CLOSELY[:2]:
            yield from flipped_cases(base)
        if base.title in CLOSELY:
            yield from place_cases(base)
            yield from swapped_cases(base, itertools.combinations(PARTS, 2))
    yield from scalar_cases()
    yield from same_record_cases()
    yield from refused_cases()
    yield from large_cases()
