"""Records that are handed in by hand with an image: how they are stored for crates/replay_records and
replay_halves, and what these must print.

In the file of records every number is big-endian. A vector is the image's length and the lent buffer's, 4 bytes each, the
record's 52 numbers, 8 bytes each, so that places near 2**64 can be tried, and the image's bytes. The numbers are kind (1 plain,
2 encrypted), algorithm, cipher, KDF, rounds, checkint, padding and section, then start and length of blob, point, scalar,
comment, salt, ciphertext and tag, then RSA's: bits, and start and length of modulus, exponent, d, iqmp, p and q, and then the
key count and the sixteen places where keypairs begin. The lent buffer is filled with calls.py's bytes, in which every change shows.

For each vector there are in stdout
  - the line of a call as calls.py has it, with the entry `record`,
  - `views` and for each part its length and, where that isn't 0, what remains of it modulo the same prime. The views do not
    judge: a part goes by its place alone, and is empty where that isn't within the image,
  - `views-rsa` and the same of RSA's six parts, where one of them isn't empty,
  - `section` and 15 numbers, what the section read says of the image and of the record's header half alone: number, count,
    at, kind, checkint, padding, then start and length of scalar, comment, ciphertext and tag, and where the first keypair
    begins; after these the other fifteen places, where one of them isn't 0; where it is refused only number, count, at and 0.
    The half itself, which the answer hands back, isn't printed again,
  - `section-rsa` and 8 numbers, start and length of its d, iqmp, p and q, where one of them isn't 0.
"""
from typing import NamedTuple

import calls
import model
import model_writing
from calls import LARGE, PRIME, filled
from fields import ALGORITHMS, CIPHERS, KDFS
from model import KEY_ROOM, Answer, Half
from model_writing import Reply

PARTS = ["blob", "point", "scalar", "comment", "salt", "ciphertext", "tag"]
NAMES = ["kind", "algorithm", "cipher", "kdf", "rounds", "checkint", "padding", "section"]
RSA_NAMES = ["bits"]
RSA_PARTS = ["modulus", "exponent", "d", "iqmp", "p", "q"]
HEADER_NAMES = ["algorithm", "cipher", "kdf", "rounds", "section"]  # of these the header half is made
HEADER_PARTS = ["blob", "point", "salt"]
HEADER_RSA_PARTS = ["modulus", "exponent"]
SECTION_NAMES = ["kind", "checkint", "padding"]
SECTION_PARTS = ["scalar", "comment", "ciphertext", "tag"]
SECTION_RSA_PARTS = ["d", "iqmp", "p", "q"]
CODES = [range(1, 3), range(len(ALGORITHMS)), range(len(CIPHERS)), range(len(KDFS))]  # what the first four may be
OTHERS = len(NAMES) + 2 * len(PARTS)  # so many numbers stand before RSA's
KEYS = OTHERS + len(RSA_NAMES) + 2 * len(RSA_PARTS)  # and so many before the key count
PLACES = range(KEYS + 1, KEYS + 1 + KEY_ROOM)
WIDTHS = [2**32, 2**32] + [2**64] * (PLACES.stop - len(CODES) - 2)  # what all but the first four are below


class Handed(NamedTuple):
    """A record with an image, and how much room is lent. Where it is said: the reply that is meant, and the section read's
    (number, count, at)."""

    title: str
    image: bytes
    record: Answer
    room: int
    reply: Reply = None
    section: tuple = None


# ---- a record and its numbers


def chosen(record, names, parts):
    places = [number for part in parts for number in getattr(record, part)]
    return [getattr(record, name) for name in names] + places


def numbers_of(record):
    return chosen(record, NAMES, PARTS) + chosen(record, RSA_NAMES, RSA_PARTS) + [record.keys, *record.places]


def named(numbers, names, parts):
    places = numbers[len(names) :]
    return dict(zip(names, numbers)) | dict(zip(parts, zip(places[::2], places[1::2])))


def record_of(numbers):
    others, rsa = named(numbers[:OTHERS], NAMES, PARTS), named(numbers[OTHERS:KEYS], RSA_NAMES, RSA_PARTS)
    return Answer(**others, **rsa, keys=numbers[KEYS], places=tuple(numbers[KEYS + 1 :]))


def index_of(part):
    """The place of a part's start among a record's numbers; its length follows."""
    if part in PARTS:
        return len(NAMES) + 2 * PARTS.index(part)
    return OTHERS + len(RSA_NAMES) + 2 * RSA_PARTS.index(part)


def half_of(record):
    names = HEADER_NAMES + HEADER_PARTS + RSA_NAMES + HEADER_RSA_PARTS
    return Half(**{name: getattr(record, name) for name in names}, keys=record.keys)


def places_told(record):
    """Where the keypairs begin: the first key's, and the others' only where one of these isn't 0."""
    return record.places if any(record.places[1:]) else record.places[:1]


def can_be(numbers):
    """A struct's own fields: codes that name something, and numbers of 32 or 64 bits."""
    known = all(code in codes for code, codes in zip(numbers, CODES))
    return known and all(0 <= number < width for number, width in zip(numbers[len(CODES) :], WIDTHS))


# ---- what the model says


def answer(handed):
    """The reply, and the buffer afterwards."""
    return model_writing.record(handed.record, handed.image, buffer=filled(handed.room))


def section_answer(handed):
    """The section read's answer to the record's header half."""
    return model.read_section(handed.image, half_of(handed.record))


def line(word, numbers):
    return " ".join([word, *map(str, numbers)]) + "\n"


def line_if_any(word, numbers):
    """A line that is left out where all of its numbers are 0."""
    return line(word, numbers) if any(numbers) else ""


def section_lines(answer):
    reply = [answer.number, answer.count, answer.at]
    if answer.number != 0:
        return line("section", [*reply, 0])
    numbers = [*reply, *chosen(answer, SECTION_NAMES, SECTION_PARTS), *places_told(answer)]
    return line("section", numbers) + line_if_any("section-rsa", chosen(answer, [], SECTION_RSA_PARTS))


def view(image, part):
    start, length = part
    return image[start : start + length] if start + length <= len(image) else b""


def views(handed, parts):
    seen = [view(handed.image, getattr(handed.record, part)) for part in parts]
    return [number for v in seen for number in ([len(v), int.from_bytes(v, "big") % PRIME] if v else [0])]


def lines(handed):
    """What is printed of a record."""
    seen = line("views", views(handed, PARTS)) + line_if_any("views-rsa", views(handed, RSA_PARTS))
    return calls.line("record", *answer(handed)) + seen + section_lines(section_answer(handed))


# ---- how it is stored


def stored(handed):
    numbers = numbers_of(handed.record)
    assert can_be(numbers), handed.title
    assert max(len(handed.image), handed.room) <= LARGE
    head = calls.numbers(len(handed.image), handed.room)
    return head + b"".join(number.to_bytes(8, "big") for number in numbers) + handed.image
