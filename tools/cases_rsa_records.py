"""Records of RSA keys handed in by hand, as in cases_records.py and cases_half_records.py: right ones, with each of RSA's numbers
and places wrong, of other images, over damaged sections; and records of other kinds that have something of RSA's."""
import functools
import itertools

import model
from calls import LARGE, refuses, writes
from cases_half_records import half_alone, handed
from cases_records import EMPTY, READ, UNLIKE, Base, damaged_cases, place_cases, put, right_cases, swapped_cases
from cases_records import wrong_values
from cases_rsa import form_and_size, modulus_cases
from cases_rsa_images import of_size
from fields import LIMIT
from images import corpus, encrypted, join, place, plain
from images_rsa import high, in_blob, in_section, low, number, numbers, rsa_encrypted, rsa_plain
from records import CODES, HEADER_RSA_PARTS, KEYS, NAMES, OTHERS, PARTS, RSA_PARTS, SECTION_RSA_PARTS, Handed, index_of, numbers_of
from rsa import NUMBERS

REAL = ["keygen-rsa1024-3des-cbc", "keygen-rsa2048-ascii"]
RSA_NUMBERS = range(OTHERS, KEYS)
ABSENT_PLACES = [(1, 0), (0, 1), (2**64 - 1, 1), (2**63, 2**63)]


@functools.cache
def bases():
    real = [Base(case.title, case.image) for case in corpus() if case.title in REAL]
    return [
        Base("RSA plain", rsa_plain()),
        Base("RSA sealed", rsa_encrypted(b"aes256-gcm@openssh.com")),
        Base("RSA plain, d with a zero", rsa_plain(numbers(d=b"\0" + high(127), e=low(5)), b"")),
        *real,
    ]


def other_bases():
    for algorithm in range(4):
        yield Base(f"plain {algorithm}", plain(algorithm))
    yield Base("bcrypt aes256-ctr", encrypted(1, b"aes256-ctr"))


# ---- one number wrong


def close_cases(base):
    """Each of RSA's numbers wrong in each way."""
    for i in RSA_NUMBERS:
        for value in wrong_values(i, numbers_of(base.record)[i]):
            yield base.handed(put(base.record, i, value), f"number {i} is {value}")


def altered_cases(base, indices):
    """Numbers altered by one; a code becomes another one."""
    for i in indices:
        right = numbers_of(base.record)[i]
        for value in wrong_values(i, right)[: 1 if i < len(CODES) else 2]:
            yield base.handed(put(base.record, i, value), f"number {i} is {value}")


def little_room_cases(base):
    """A wrong record is refused before the room is looked at."""
    for i in RSA_NUMBERS:
        yield base.handed(put(base.record, i, numbers_of(base.record)[i] + 1), f"number {i}", 0)


# ---- places wrong


def rsa_pairs():
    """Two parts of which one at least is RSA's."""
    return (pair for pair in itertools.combinations([*PARTS, *RSA_PARTS], 2) if pair[1] in RSA_PARTS)


def zero_cases(base):
    """A place that leaves a leading zero off, has the length bytes in it, or has one byte more or less."""
    for part in RSA_PARTS:
        start, length = getattr(base.record, part)
        if length:
            i = index_of(part)
            for place_of in ((start + 1, length - 1), (start - 4, length + 4), (start, length - 1), (0, 0)):
                yield base.handed(put(put(base.record, i, place_of[0]), i + 1, place_of[1]), f"{part} is {place_of}")


def absent_cases(base):
    """Something of RSA's in a record that has nothing of it."""
    for part in RSA_PARTS:
        if getattr(base.record, part) == (0, 0):
            for start, length in ABSENT_PLACES + [base.record.blob]:
                i = index_of(part)
                yield base.handed(put(put(base.record, i, start), i + 1, length), f"{part} is {start}, {length}")


# ---- records of other images


def other_cases(base):
    others = [*bases(), *itertools.islice(other_bases(), 0, None, 2)]
    for other in others:
        if other.record != base.record:
            yield base.handed(other.record, f"the record of {other.title}")
    yield base.handed(EMPTY, "the empty record")


def same_record_cases():
    """Another key whose numbers have the same lengths has the very same record; one bit less in n, and it hasn't."""
    one = model.read_image(join(rsa_plain()))
    alike = {name: content[:2] + low(len(content) - 2) for name, content in numbers().items()}
    image = join(rsa_plain(alike))
    yield Handed("the same record", image, one, len(image), writes(len(image)), READ)
    fewer = join(rsa_plain(dict(numbers(), n=b"\x7f" + low(128))))
    yield Handed("a modulus of another size", fewer, one, len(fewer) + 9, refuses(1), UNLIKE)


def large_cases():
    whole = join(of_size(LIMIT))
    yield Handed("the largest", whole, model.read_image(whole), LARGE, writes(LIMIT), READ)
    yield Handed("the largest, a byte too short", whole, model.read_image(whole), LIMIT - 1, refuses(9), READ)
    over = join(of_size(LIMIT + 1))
    yield Handed("above the limit", over, EMPTY, LARGE, refuses(1), UNLIKE)


# ---- header halves


def section_cases(half):
    """The right half over sections that are refused: the section read says what the full read says."""
    fields = rsa_plain()
    for name in NUMBERS:
        for content, number_of in zip(form_and_size(name), (2, 1)):
            wrong = in_section(fields, {name: content})
            yield handed(f"{name} is wrong", join(wrong), half, (number_of, 0, place(wrong, f"section.{name}")))
    for changes in (dict(n=number(1024, "other")), dict(e=b"\3"), dict(n=number(1025))):
        wrong = in_section(fields, changes)
        yield handed("another key", join(wrong), half, (5, 0, place(wrong, "section.name")))
    image, section = join(fields), place(fields, "section")
    for more in (0, 3, 4, 60):
        yield handed("cut", image[: section + more], half, (1, 0, section))


def half_cases():
    base = bases()[0]
    header = model.read_header(base.image)
    half = half_alone(header)
    yield from section_cases(half)
    for i in (NAMES.index("algorithm"), OTHERS, *(index_of(part) + end for part in HEADER_RSA_PARTS for end in (0, 1))):
        for value in wrong_values(i, numbers_of(half)[i]):
            yield handed(f"number {i} is {value}", base.image[: header.section], put(half, i, value), UNLIKE)
    other = in_blob(rsa_plain(), {"n": number(1024, "other")})
    yield handed("another key in the header", join(other), half, (5, 0, place(other, "section.name")))
    fewer = in_blob(rsa_plain(), {"n": b"\x7f" + low(128)})
    yield handed("a modulus of 1,031 bits in the header", join(fewer), half, UNLIKE)
    refused_headers = [case for case in modulus_cases() if case.header not in (None, READ)]
    for case in refused_headers:
        yield handed(case.title, case.image, half, UNLIKE)
    for part in SECTION_RSA_PARTS:  # what the half doesn't hold isn't judged by the section read
        yield handed(f"{part} in the record", base.image, put(half, index_of(part), 9), READ)


def rsa_record_cases():
    plain_one, sealed, *others = bases()
    for base in (plain_one, sealed, *others):
        yield from right_cases(base)
        yield from other_cases(base)
    for base in (plain_one, sealed):
        yield from close_cases(base)
        yield from altered_cases(base, range(OTHERS))
        yield from little_room_cases(base)
        yield from damaged_cases(base)
    for base in others:
        yield from altered_cases(base, RSA_NUMBERS)
    yield from zero_cases(plain_one)
    yield from place_cases(plain_one, ["modulus", "q"])
    yield from swapped_cases(plain_one, rsa_pairs())
    yield from absent_cases(sealed)
    for base in other_bases():
        yield from altered_cases(base, RSA_NUMBERS)
    for base in itertools.islice(other_bases(), 0, None, 4):
        yield from absent_cases(base)
    yield from same_record_cases()
    yield from large_cases()
    yield from half_cases()
