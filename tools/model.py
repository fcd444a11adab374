"""The reading rules of docs/RULES.md, 2 to 9, 11 and 13, once more, in plain Python: a second opinion.

This file was written from these and from the readings recorded in docs/DECISIONS.md, and from no other code of
this project. Nothing is proved here. It says what the reader, the form and the inspection program should answer, so
that the two can be held against each other (make_vectors.py stores its answers).

    read(image)                  the reply and, where it is accepted, the record: an Answer
    read_header(image)           the same of the header alone, up to and with the public blob: a Half
    read_section(image, half)    the full read's Answer, from a half that is handed in and judged first
    read_key(image, k)           the reply and what is found of key k, which count from 1: a Key
    write_plain(...)             a plain image by the writer's rules; write_rsa(...) of an RSA key
    form(image)                  whether writing the record again, with its own checkint, gives the image back
    report(image)                what the inspection program prints
    keys_report(image)           what the program `keys` prints

The full read is the header read and then the section read. The rules on keys are in model_keys.py and rsa.py.

It holds nothing back, compares in no constant time, and is for test keys only.
"""
from dataclasses import dataclass, replace

from fields import ABSENT, ALGORITHMS, CIPHER_NAMES, CIPHERS, KDFS, LIMIT, MAGIC, NONE, RSA
from fields import Reader, Refused, content, string, uint32
from model_keys import RSA_PARTS, compared, curve_key, filled_scalar, read_blob, read_keypair, read_name, rsa_key

PLAIN, ENCRYPTED = 1, 2
MOST_KEYS = 16  # so many keys rule 4.5 lets a plain image have
KEY_ROOM = 16  # a record has room for so many places, and a writer takes so many keys


@dataclass(frozen=True)
class Half:
    """The reply (number, count, at) and the header's half of the record. A part is its start in the image and its length."""

    number: int = 0
    count: int = 0
    at: int = 0  # the byte of the image at which the failing field began
    algorithm: int = 0
    cipher: int = 0
    kdf: int = 0
    rounds: int = 0
    section: int = 0  # where the length of the section, or of the ciphertext, begins
    blob: tuple = ABSENT
    point: tuple = ABSENT
    salt: tuple = ABSENT
    bits: int = 0  # of an RSA key's modulus
    modulus: tuple = ABSENT
    exponent: tuple = ABSENT
    keys: int = 0  # the key count


@dataclass(frozen=True)
class Answer(Half):
    """The reply and the whole record."""

    kind: int = 0
    checkint: int = 0
    padding: int = 0
    scalar: tuple = ABSENT
    comment: tuple = ABSENT
    ciphertext: tuple = ABSENT
    tag: tuple = ABSENT
    d: tuple = ABSENT
    iqmp: tuple = ABSENT
    p: tuple = ABSENT
    q: tuple = ABSENT
    places: tuple = (0,) * KEY_ROOM  # where each key's keypair begins in the image; 0 where there is none, or it is encrypted


@dataclass(frozen=True)
class Key:
    """The reply, and one key of an image."""

    number: int = 0
    count: int = 0
    at: int = 0
    algorithm: int = 0
    bits: int = 0
    blob: tuple = ABSENT
    point: tuple = ABSENT
    scalar: tuple = ABSENT
    comment: tuple = ABSENT
    modulus: tuple = ABSENT
    exponent: tuple = ABSENT
    d: tuple = ABSENT
    iqmp: tuple = ABSENT
    p: tuple = ABSENT
    q: tuple = ABSENT


# ---- the reads


def read(image):
    """The reply to an image, with the record where it is accepted."""
    return answer_of(Answer, read_image, image)


def read_header(image):
    """The reply to an image's header, with the half where it is accepted. What comes after the blob isn't looked at."""
    return answer_of(Half, half_of_image, image)


def read_section(image, half):
    """The reply to an image and a half that is handed in, with the record where both are accepted."""
    return answer_of(Answer, record_from, image, half)


def read_key(image, k):
    """The reader's refusal; 1 at 0 where the image has no key k; else that key, of an encrypted image what its header has."""
    return answer_of(Key, key_of_image, image, k)


def answer_of(answer, reading, *arguments):
    """What the reading gives, or an answer that has only its refusal."""
    try:
        return reading(*arguments)
    except Refused as refused:
        return answer(refused.number, refused.count, refused.at)


def read_image(image):
    """The full read: the header read, then the section read."""
    return record_from(image, half_of_image(image))


def key_of_image(image, k):
    keys = keys_of(image, read_image(image))
    if not 1 <= k <= len(keys):
        raise Refused(1, 0)
    return keys[k - 1]


# ---- the header, rules 4.2 to 4.6


def half_of_image(image):
    if len(image) > LIMIT:
        raise Refused(11, 0)
    reader = Reader(image, 0, len(image))
    read_magic(reader)  # 4.2
    cipher = read_name(reader, CIPHER_NAMES)  # 4.3
    kdf = read_name(reader, KDFS)  # 4.4
    salt, rounds = read_options(reader, kdf)
    keys = read_blobs(reader, read_key_count(reader, cipher))  # 4.5, 4.6
    first = {name: getattr(keys[0], name) for name in ("algorithm", "bits", "blob", "point", "modulus", "exponent")}
    return Half(cipher=cipher, kdf=kdf, rounds=rounds, section=reader.place, salt=salt, keys=len(keys), **first)


def read_magic(reader):
    if reader.left() < len(MAGIC):
        raise Refused(1, 0)
    if reader.image[: len(MAGIC)] != MAGIC:
        raise Refused(2, 0)
    reader.place += len(MAGIC)


def read_options(reader, kdf):
    """The KDF's options; answers salt and rounds."""
    field = reader.place
    options = reader.string()
    if kdf == NONE:
        if options[1] != 0:
            raise Refused(3, field)
        return ABSENT, 0
    inner = reader.inside(options)
    salt = inner.string()
    rounds = inner.uint32()
    inner.finish()
    return salt, rounds


def read_key_count(reader, cipher):
    field = reader.place
    keys = reader.uint32()
    if not 1 <= keys <= (MOST_KEYS if cipher == NONE else 1):
        raise Refused(1, field)
    return keys


def read_blobs(reader, count):
    """So many blobs, each whole, its end too, before the next. Answers the public half of each key."""
    return [read_public(reader) for _ in range(count)]


def read_public(reader):
    blob = reader.string()
    algorithm, public = read_blob(reader.inside(blob))
    return Key(algorithm=algorithm, blob=blob, **public)


def places_of(begins):
    """Where the keypairs begin, the rest filled up with 0."""
    return (*begins, *[0] * (KEY_ROOM - len(begins)))


# ---- the section, rules 4.7 and 4.8


def record_from(image, half):
    """Unless every field of the half is what an accepted header read of the image gives, 1 before all else."""
    own = read_header(image)
    if own.number != 0 or half != own:
        raise Refused(1, 0)
    reader = Reader(image, half.section, len(image))
    if half.cipher != NONE:  # 4.7
        return Answer(**vars(half), kind=ENCRYPTED, **read_ciphertext(reader, half.cipher))
    if half.kdf != NONE:  # 4.8
        raise Refused(3, len(MAGIC + string(b"none")))  # where the KDF's name begins
    rest = read_plain_section(reader.inside(reader.string()), publics_of(image, half))
    reader.finish()
    return Answer(**vars(half), kind=PLAIN, **rest)


def publics_of(image, half):
    """The public half of each key once more: the blobs stand one after another, and the half has the first one's place."""
    return read_blobs(Reader(image, half.blob[0] - 4, len(image)), half.keys)


def keys_of(image, record):
    """Every key of a record's image; of a plain one each is looked up at its place."""
    publics = publics_of(image, record)
    if record.kind == ENCRYPTED:
        return publics
    found = [read_entry(Reader(image, place, len(image)), public) for place, public in zip(record.places, publics)]
    return [replace(public, **private) for public, private in zip(publics, found)]


def read_ciphertext(reader, cipher):
    """Rule 4.7: the ciphertext, then the tag outside the string if the cipher has one, then the end."""
    _, block, tag_length = CIPHERS[cipher]
    field = reader.place
    ciphertext = reader.string()
    if ciphertext[1] % block != 0:
        raise Refused(3, field)
    tag = ABSENT
    if tag_length > 0:
        if reader.left() < tag_length:
            raise Refused(1, reader.place)
        tag = (reader.place, tag_length)
        reader.place += tag_length
    reader.finish()
    return dict(ciphertext=ciphertext, tag=tag)


# ---- the plain section


def read_plain_section(reader, publics):
    """The plain section; the public keys are the header's. Of the keys the record has the first, and the others' places."""
    if reader.left() % 8 != 0:
        raise Refused(1, reader.place)
    checkint = read_checkints(reader)
    begins, found = [], []
    for public in publics:
        begins.append(reader.place)
        found.append(read_entry(reader, public))
    padding = read_padding(reader)
    return dict(checkint=checkint, padding=padding, places=places_of(begins), **found[0])


def read_entry(reader, public):
    """A keypair, which is read whole and then held to the blob of its number, and its comment. Answers the private half."""
    key_name = reader.place
    own_algorithm, own_public, private = read_keypair(reader)
    if own_algorithm != public.algorithm or own_public != compared(reader.image, public):
        raise Refused(5, key_name)
    return dict(comment=read_comment(reader), **private)


def read_checkints(reader):
    first = reader.uint32()
    second_field = reader.place
    if reader.uint32() != first:
        raise Refused(3, second_field)
    return first


def read_comment(reader):
    field = reader.place
    comment = reader.string()
    try:
        content(reader.image, comment).decode("utf-8", "strict")
    except UnicodeDecodeError:
        raise Refused(7, field) from None
    return comment


def read_padding(reader):
    padding = reader.image[reader.place : reader.end]
    if len(padding) >= 8:
        raise Refused(1, reader.place)
    if padding != bytes(range(1, len(padding) + 1)):
        raise Refused(2, reader.place)
    return len(padding)


# ---- writing, the form


def write_plain(algorithm, point, scalar, checkint, comment):
    """The plain image of these fields, of whatever size. Point and scalar have the lengths of the algorithm, which isn't RSA,
    and an ECDSA scalar isn't zeros alone."""
    return plain_image([(*curve_key(algorithm, point, scalar), comment)], checkint)


def write_rsa(numbers, checkint, comment):
    """The plain image of n, e, d, iqmp, p and q, of whatever size."""
    return plain_image([(*rsa_key(numbers), comment)], checkint)


def plain_image(keys, checkint):
    """The plain image of keys that are handed in as blob, keypair and comment, of whatever size."""
    section = uint32(checkint) * 2 + b"".join(keypair + string(comment) for _, keypair, comment in keys)
    padding = bytes(range(1, -len(section) % 8 + 1))
    header = MAGIC + string(b"none") + string(b"none") + string(b"") + uint32(len(keys))
    return header + b"".join(string(blob) for blob, _, _ in keys) + string(section, padding)


def numbers_of(image, key):
    """The six numbers of an RSA key, or of a record's first."""
    return [content(image, getattr(key, part)) for part in RSA_PARTS.values()]


def fields_of(image, key):
    """The blob and the keypair of a plain image's key as the writer makes them."""
    if key.algorithm == RSA:
        return rsa_key(numbers_of(image, key))
    return curve_key(key.algorithm, content(image, key.point), filled_scalar(image, key))


def write_key(image, record, checkint, comment):
    """The plain image of a plain record's first key alone with this checkint and comment."""
    return plain_image([(*fields_of(image, record), comment)], checkint)


def write_again(image, record):
    """The plain image of all keys of a plain record, with their own comments and its checkint."""
    keys = [(*fields_of(image, key), content(image, key.comment)) for key in keys_of(image, record)]
    return plain_image(keys, record.checkint)


def form(image):
    """Whether the image is accepted and in the writer's form. Every accepted encrypted one is."""
    answer = read(image)
    if answer.kind != PLAIN:
        return answer.kind == ENCRYPTED
    return write_again(image, answer) == image


# ---- the programs' lines, rule 13


def refused_line(answer):
    return f"refused {answer.number} {answer.count} {answer.at}\n"


def report(image):
    """The inspection program's whole output."""
    answer = read(image)
    if answer.number != 0:
        return refused_line(answer)
    lines = [
        "kind " + ("plain" if answer.kind == PLAIN else "encrypted"),
        "algorithm " + ALGORITHMS[answer.algorithm].decode(),
        *([f"bits {answer.bits}"] if answer.algorithm == RSA else []),
        "cipher " + CIPHER_NAMES[answer.cipher].decode(),
        "kdf " + KDFS[answer.kdf].decode(),
    ]
    if answer.kind == PLAIN:
        lines += [f"comment {answer.comment[1]}", f"padding {answer.padding}", f"image {len(image)}"]
        lines += ["form " + ("yes" if form(image) else "no")]
    else:
        lines += [f"ciphertext {answer.ciphertext[1]}", f"tag {answer.tag[1]}", f"image {len(image)}"]
    return "".join(line + "\n" for line in lines)


def keys_report(image):
    """The whole output of the program `keys`: a line for each key."""
    answer = read(image)
    if answer.number != 0:
        return refused_line(answer)
    keys = keys_of(image, answer)
    return "".join(f"{k} {key_words(key, answer.kind)}\n" for k, key in enumerate(keys, 1))


def key_words(key, kind):
    words = [ALGORITHMS[key.algorithm].decode()]
    if key.algorithm == RSA:
        words.append(f"bits {key.bits}")
    words.append(f"comment {key.comment[1]}" if kind == PLAIN else "encrypted")
    return " ".join(words)
