"""Images of several keys as lists of named fields, in the manner of images.py. Keys count from 1, and their fields have the number
at the end of their names: 'blob2.point', 'section.scalar2', 'section.comment2'.

A key is what a writer is handed, so that one list of keys gives the image, the calls and the answers that are meant.
"""
from dataclasses import replace

import model
from fields import ALGORITHMS, ED25519, RSA, SIZES, uint32
from images import Field, header_fields, inner, keypair_fields, minimal, padded, point_of, public_fields, put, section_fields
from images import spots, stream
from images_rsa import blob_fields as rsa_blob_fields
from images_rsa import keypair_fields as rsa_keypair_fields
from images_rsa import low, number, small_numbers
from model_writing import Given
from rsa import NUMBERS, bits_of

KINDS = range(len(ALGORITHMS))
CHECKINT = 0x6B1DFACE  # that of images.py
COMMENTS = [b"oven-12", b"", "Bäckerei Süd".encode(), b"line 3, left", b"c" * 33, "炉 🥖".encode(), b"7"]


# ---- keys


def key(algorithm, label="", comment=b"oven-12", first=0x5A):
    """A key whose bytes are its label's. A scalar, or a seed, begins with the first byte that is said."""
    if algorithm == RSA:
        others = dict(small_numbers(1024), n=number(1024, f"n {label}"), d=low(9, f"d {label}"), e=b"\1\0\1")
        return Given(RSA, comment=comment, numbers=tuple(others[name] for name in NUMBERS))
    private = bytes([first]) + stream(f"scalar {algorithm} {label}", SIZES.get(algorithm, 32) - 1)
    return Given(algorithm, point_of(algorithm, f"point {label}"), private, comment)


def mixed(count, shift=0):
    """So many keys of all kinds in turn, from the one that is said, no two alike."""
    turns = range(shift, shift + count)
    return [key(turn % len(KINDS), f"of {turn}", COMMENTS[turn % len(COMMENTS)]) for turn in turns]


def alike(algorithm, count):
    """So many keys of one kind, no two alike."""
    return [key(algorithm, f"of {turn}", COMMENTS[turn % len(COMMENTS)]) for turn in range(count)]


def numbers_of(given):
    return dict(zip(NUMBERS, given.numbers))


# ---- fields


def numbered(fields, k):
    return [replace(field, name=f"{field.name}{k}") for field in fields]


def blob_of(given):
    if given.algorithm == RSA:
        return rsa_blob_fields(numbers_of(given))
    return public_fields(given.algorithm, given.public)


def keypair_of(given):
    if given.algorithm == RSA:
        return rsa_keypair_fields(numbers_of(given))
    return keypair_fields(given.algorithm, given.public, minimal(given.algorithm, given.private))


def ring(keys, blobs=None, checkint=CHECKINT):
    """The fields of a plain image of these keys, in the form. Its blobs are theirs, unless those of others are said."""
    blobs = keys if blobs is None else blobs
    header = put(header_fields(ED25519, b"none", b"none", [])[:5], "count", uint32(len(blobs)))
    header += [Field(f"blob{k}", blob_of(one)) for k, one in enumerate(blobs, 1)]
    first, second, *_, padding = section_fields([], b"")
    checkints = [replace(field, content=uint32(checkint)) for field in (first, second)]
    entries = [numbered([*keypair_of(one), Field("comment", one.comment)], k) for k, one in enumerate(keys, 1)]
    return padded([*header, Field("section", [*checkints, *sum(entries, []), padding])])


# ---- sizes, counted field by field


def public_size(given):
    """Name, curve and public key, or name, e and n."""
    if given.algorithm == RSA:
        return (4 + 7) + sum(4 + len(numbers_of(given)[name]) for name in ("e", "n"))
    if given.algorithm == ED25519:
        return (4 + 11) + (4 + 32)
    return (4 + 19) + (4 + 8) + (4 + 1 + 2 * SIZES[given.algorithm])


def entry_size(given):
    """A keypair and its comment."""
    if given.algorithm == RSA:
        private = sum(4 + len(numbers_of(given)[name]) for name in ("d", "iqmp", "p", "q"))
    elif given.algorithm == ED25519:
        private = 4 + 64
    else:
        private = 4 + len(minimal(given.algorithm, given.private))
    return public_size(given) + private + 4 + len(given.comment)


def section_start(keys):
    """Where the section's content begins: after the header, and its length."""
    return 15 + (4 + 4) + (4 + 4) + 4 + 4 + sum(4 + public_size(one) for one in keys) + 4


def comment_field(keys, k):
    """Where the length of key k's comment stands."""
    return section_start(keys) + 8 + sum(map(entry_size, keys[:k])) - 4 - len(keys[k - 1].comment)


def size_of(keys):
    """An image's size: the section is a multiple of 8."""
    return section_start(keys) + (8 + sum(map(entry_size, keys)) + 7) // 8 * 8


# ---- what a read must find, from the fields


def part(where, path):
    """A string's content; `where` has each field's spot by its path."""
    return (where[path].start + 4, len(inner(where[path].field)))


def public_meant(where, k, given):
    """What the header has of key k."""
    key_found = model.Key(algorithm=given.algorithm, blob=part(where, f"blob{k}"))
    if given.algorithm == RSA:
        modulus, exponent = (part(where, f"blob{k}.{name}") for name in ("n", "e"))
        return replace(key_found, modulus=modulus, exponent=exponent, bits=bits_of(given.numbers[0]))
    return replace(key_found, point=part(where, f"blob{k}.point"))


def key_meant(where, k, given):
    key_found = replace(public_meant(where, k, given), comment=part(where, f"section.comment{k}"))
    if given.algorithm == RSA:
        return replace(key_found, **{name: part(where, f"section.{name}{k}") for name in ("d", "iqmp", "p", "q")})
    start, length = part(where, f"section.scalar{k}")
    if given.algorithm == ED25519:
        return replace(key_found, scalar=(start, 32))
    stored = inner(where[f"section.scalar{k}"].field)
    zeros = len(stored) - len(stored.lstrip(b"\0"))
    return replace(key_found, scalar=(start + zeros, length - zeros))


def placed(fields):
    return {spot.path: spot for spot in spots(fields)}


def keys_meant(fields, keys):
    """Each key of an image; of an encrypted one what the header has."""
    where = placed(fields)
    meant = key_meant if "section" in where else public_meant
    return [meant(where, k, given) for k, given in enumerate(keys, 1)]


def record_meant(fields, keys):
    """The whole record of a plain image: the first key's fields, and the image's."""
    where = placed(fields)
    first = dict(vars(key_meant(where, 1, keys[0])))
    places = [where[f"section.name{k}"].start for k in range(1, len(keys) + 1)]
    return model.Answer(
        **first,
        section=where["section"].start,
        keys=len(keys),
        kind=model.PLAIN,
        checkint=int.from_bytes(inner(where["section.checkint1"].field), "big"),
        padding=len(inner(where["section.padding"].field)),
        places=(*places, *[0] * (16 - len(places))),
    )
