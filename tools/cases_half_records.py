"""Header halves that are handed in, each within a record: right ones over sections that are damaged, short, missing or others,
the same with a single number wrong, and those of other headers."""
import itertools

from calls import refuses
from cases_halves import Base, above_pairs, bases, cipherless_bases, cipherless_cases, damaged_cases
from cases_halves import damaged_headers, largest_pairs, other_sections, sections
from cases_records import READ, UNLIKE, put, room_of, wrong_values
from fields import ED25519
from images import bcrypt_options, encrypted, join, keypair_fields, plain, point_of, stream
from images import place as place_of
from images import put as put_field
from model import PLAIN, Answer, read_image
from records import HEADER_NAMES, HEADER_PARTS, KEYS, NAMES, Handed, index_of, numbers_of

CLOSELY = ["plain 0", "plain 3", "bcrypt aes256-gcm", "none aes128-cbc"]  # each single number of these is set wrong
HALF = [NAMES.index(name) for name in HEADER_NAMES]  # the places of a half's numbers among a record's
HALF += [index_of(part) + end for part in HEADER_PARTS for end in (0, 1)] + [KEYS]


def half_alone(half):
    """A record of this half and an empty section. No image has it, so writing it again is refused."""
    return Answer(**vars(half), kind=PLAIN)


def handed(title, image, record, section):
    return Handed(title, image, record, room_of(image), refuses(1), section)


# ---- right halves


def right_cases(base, cases):
    """The section read says what the full read of the image says."""
    for case in cases:
        yield handed(case.title, case.image, half_alone(base.half), case.reply)


def family_cases(base):
    """Images with the same header bytes and sections of different lengths, each with the record of another."""
    images = [base.image, *(case.image for case in sections(base))]
    for one, other in itertools.permutations(images, 2):
        yield handed(f"{base.title}: another's half", other, read_image(one), READ)


def same_places_cases():
    """The half of another key or salt, of the same lengths, is the same half."""
    for algorithm in range(4):
        half, other = half_alone(Base("", plain(algorithm)).half), point_of(algorithm, "other")
        unlike = put_field(plain(algorithm), "blob.point", other)
        yield handed("another key in the header", join(unlike), half, (5, 0, place_of(unlike, "section.name")))
        both = plain(algorithm, keypair=keypair_fields(algorithm, other))
        yield handed("another key", join(put_field(both, "blob.point", other)), half, READ)
    half = half_alone(Base("", encrypted(ED25519, b"aes256-ctr")).half)
    salted = encrypted(ED25519, b"aes256-ctr", options=bcrypt_options(stream("other", 16)))
    yield handed("another salt", join(salted), half, READ)


# ---- wrong halves


def single_cases(base, image):
    """Each number of the right half set wrong, one at a time."""
    record = half_alone(base.half)
    for i in HALF:
        for value in wrong_values(i, numbers_of(record)[i]):
            yield handed(f"{base.title}: number {i} is {value}", image, put(record, i, value), UNLIKE)


def close_cases(base):
    """Over an image without a section, and over one whose section is wrong in its first byte."""
    yield from single_cases(base, base.ends(0))
    yield from single_cases(base, base.with_length(1))


def other_header_cases(base):
    """The half of another header, and this one's where the image's header is refused."""
    for other in bases():
        if other.half != base.half:
            yield handed(f"{base.title}: the half of {other.title}", base.ends(0), half_alone(other.half), UNLIKE)
    for case in damaged_headers(base):
        yield handed(f"{base.title}: {case.title}", case.image, half_alone(base.half), UNLIKE)


# ---- as large as the limit, and above it


def large_cases():
    for base, case in largest_pairs():
        yield from right_cases(base, [case])
    for base, case in above_pairs():
        yield handed(f"{base.title}: {case.title}", case.image, half_alone(base.half), UNLIKE)


def half_record_cases():
    for base in bases():
        yield from right_cases(base, damaged_cases(base))
        yield from right_cases(base, other_sections(base))
        yield from family_cases(base)
        if base.title in CLOSELY:
            yield from close_cases(base)
            yield from other_header_cases(base)
    yield from same_places_cases()
    for base in cipherless_bases():
        yield from right_cases(base, cipherless_cases(base))
        if base.half.algorithm == ED25519:
            yield from single_cases(base, base.ends(0))
    yield from large_cases()
