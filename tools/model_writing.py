"""The writing rules of docs/RULES.md, 9.3 and 10, once more, in plain Python: a second opinion on the writers, and on records
that are handed in. Of the edits in one buffer, rule 12's comment change among them, model_edits.py has the rules.

Like model.py, this was written from the rules and the readings recorded in docs/DECISIONS.md, and from no other code of
this project. Each entry is handed the lent buffer's bytes and answers its reply and the buffer as it must be afterwards.

    plain(algorithm, public, private, checkint, comment, buffer=..)    checkint None: the derived one
    rsa(n, e, d, iqmp, p, q, checkint, comment, buffer=..)             the same of an RSA key
    keys(given, checkint, buffer=..)                                   the same of 1 to 16 keys, each a Given
    write_keys(table, text, checkint, buffer=..)                       the same of keys that are places in one text
    encrypted(cipher, kdf, salt, rounds, blob, ciphertext, tag, buffer=..)
    rewrite(image, buffer=..)
    record(fields, image, buffer=..)                                   fields is a model.Answer that was made by hand
"""
from typing import NamedTuple

import model
from fields import ALGORITHMS, CIPHERS, ED25519, KDFS, LIMIT, MAGIC, NONE, RSA, SIZES, Reader, Refused, content, string, uint32
from model import KEY_ROOM, PLAIN
from model_keys import curve_key, filled_scalar, read_blob, rsa_key
from rsa import NUMBERS, first_outside, is_mpint


class Reply(NamedTuple):
    """The refusal's number, count and place, or the length that was written."""

    number: int = 0
    count: int = 0
    at: int = 0
    length: int = 0


class Given(NamedTuple):
    """A key as a writer is handed it. RSA has its six numbers, n, e, d, iqmp, p and q, and the other kinds the bytes before them."""

    algorithm: int
    public: bytes = b""
    private: bytes = b""
    comment: bytes = b""
    numbers: tuple = (b"",) * len(NUMBERS)


def replying(entry):
    """An entry whose refusals are raised: they are its reply, and the buffer keeps every byte."""

    def replies(*arguments, buffer):
        try:
            length, after = entry(*arguments, buffer=buffer)
        except Refused as refused:
            return Reply(refused.number, refused.count, refused.at), buffer
        return Reply(length=length), after

    return replies


def placed(image, buffer):
    """Size, then room; then the image at the buffer's start. What stands past it stays."""
    if len(image) > LIMIT:
        raise Refused(11, 0)
    if len(image) > len(buffer):
        raise Refused(9, 0)
    return len(image), image + buffer[len(image) :]


def hold_to_utf8(comment, at):
    try:
        comment.decode("utf-8", "strict")
    except UnicodeDecodeError:
        raise Refused(7, at) from None


# ---- the plain writers


def derived_checkint(private):
    """The xor of the big-endian groups of 4 bytes; a shorter rest is ignored."""
    checkint = 0
    for start in range(0, len(private) - 3, 4):
        checkint ^= int.from_bytes(private[start : start + 4], "big")
    return checkint


def lengths_of(algorithm):
    """How many public and how many private bytes a kind has."""
    if algorithm == ED25519:
        return 32, 32
    size = SIZES[algorithm]
    return 1 + 2 * size, size


def hold_curve(key):
    if (len(key.public), len(key.private)) != lengths_of(key.algorithm):
        raise Refused(1, 0)
    if key.algorithm != ED25519 and (key.public[0] != 4 or not any(key.private)):
        raise Refused(2, 0)


def hold_rsa(key):
    if not all(map(is_mpint, key.numbers)):
        raise Refused(2, 0)
    if first_outside(dict(zip(NUMBERS, key.numbers))) is not None:
        raise Refused(1, 0)


def hold_key(key):
    """A key's own refusals, up to its comment's."""
    (hold_rsa if key.algorithm == RSA else hold_curve)(key)
    hold_to_utf8(key.comment, 0)


def derived_from(key):
    return derived_checkint(key.numbers[NUMBERS.index("d")] if key.algorithm == RSA else key.private)


def blob_and_keypair(key):
    return rsa_key(key.numbers) if key.algorithm == RSA else curve_key(key.algorithm, key.public, key.private)


def written(given, checkint):
    """The image of these keys, of whatever size, once each is right, in their order. A derived checkint is the first key's."""
    for key in given:
        hold_key(key)
    own = derived_from(given[0]) if checkint is None else checkint
    return model.plain_image([(*blob_and_keypair(key), key.comment) for key in given], own)


@replying
def plain(algorithm, public, private, checkint, comment, buffer):
    return placed(written([Given(algorithm, public, private, comment)], checkint), buffer)


@replying
def rsa(n, e, d, iqmp, p, q, checkint, comment, buffer):
    return placed(written([Given(RSA, comment=comment, numbers=(n, e, d, iqmp, p, q))], checkint), buffer)


@replying
def keys(given, checkint, buffer):
    hold_to_count(len(given))
    return placed(written(given, checkint), buffer)


def hold_to_count(count):
    if not 1 <= count <= KEY_ROOM:
        raise Refused(1, 0)


# ---- keys that are places in one text


ROW = 1 + 2 * (3 + len(NUMBERS))  # so many numbers has a key: its algorithm, and start and length of each of its nine parts


@replying
def write_keys(table, text, checkint, buffer):
    """First 1: a table that isn't of 1 to 16 keys, or a part that isn't within the text, used or not. Then 4: a code that names
    nothing, whichever key's. Then as keys."""
    if len(table) % ROW != 0:
        raise Refused(1, 0)
    hold_to_count(len(table) // ROW)
    rows = [table[start : start + ROW] for start in range(0, len(table), ROW)]
    given = [given_in(text, row) for row in rows]
    if any(key.algorithm >= len(ALGORITHMS) for key in given):
        raise Refused(4, 0)
    return placed(written(given, checkint), buffer)


def given_in(text, row):
    algorithm, *places = row
    parts = list(zip(places[::2], places[1::2]))
    if any(start + length > len(text) for start, length in parts):
        raise Refused(1, 0)
    public, private, comment, *numbers = (content(text, part) for part in parts)
    return Given(algorithm, public, private, comment, tuple(numbers))


# ---- the encrypted writer


@replying
def encrypted(cipher, kdf, salt, rounds, blob, ciphertext, tag, buffer):
    _, block, tag_length = CIPHERS[cipher]
    if cipher == NONE:
        raise Refused(3, 0)
    if kdf == NONE and (salt != b"" or rounds != 0):
        raise Refused(3, 0)
    hold_to_step_5(blob)
    if len(ciphertext) % block != 0:
        raise Refused(3, 0)
    if len(tag) != tag_length:
        raise Refused(1, 0)
    return placed(encrypted_image(cipher, kdf, salt, rounds, blob, ciphertext, tag), buffer)


def hold_to_step_5(blob):
    """The reader's refusals within a blob, number and count; the place of a writer's refusal is 0."""
    try:
        read_blob(Reader(blob, 0, len(blob)))
    except Refused as refused:
        raise Refused(refused.number, 0, refused.count) from None


def encrypted_image(cipher, kdf, salt, rounds, blob, ciphertext, tag):
    options = b"" if kdf == NONE else string(salt) + uint32(rounds)
    header = MAGIC + string(CIPHERS[cipher][0]) + string(KDFS[kdf]) + string(options) + uint32(1)
    return header + string(blob) + string(ciphertext) + tag


# ---- writing an image's record again


@replying
def rewrite(image, buffer):
    record = model.read_image(image)
    return placed(written_again(image, record), buffer)


def written_again(image, record):
    """The record by the writer of its kind, with its own checkint."""
    if record.kind == PLAIN:
        return model.write_again(image, record)
    blob, salt, ciphertext, tag = (content(image, p) for p in (record.blob, record.salt, record.ciphertext, record.tag))
    return encrypted_image(record.cipher, record.kdf, salt, record.rounds, blob, ciphertext, tag)


def anew(image, record, comment):
    """The new image of a plain record's first key alone with the derived checkint and this comment."""
    private = content(image, record.d) if record.algorithm == RSA else filled_scalar(image, record)
    return model.write_key(image, record, derived_checkint(private), comment)


# ---- a record that is handed in


@replying
def record(fields, image, buffer):
    """Unless every field is what an accepted read of the image gives, 1 before all else; then as rewrite."""
    own = model.read(image)
    if own.number != 0 or fields != own:
        raise Refused(1, 0)
    return placed(written_again(image, fields), buffer)
