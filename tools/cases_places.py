#!/usr/bin/env python3
"""One image for each condition of the reader's rules, made from a good image but for the first, with the field to which the
condition belongs and the place that this gives: the rows P1 and so on of docs/REFUSALS.md, in the order of reading.
check_places.py holds the document to them.

    python3 tools/cases_places.py P17 >example.bin    writes that row's image; the keys are made up

A field is 'cut' where fewer bytes remain in the part that encloses it than its length says, or than its length bytes need; a
number or a tag where they are fewer than it has. For the Rust tests each row is stored as

    ID|number|count|at|the field in words|the image in hex, or `N zeros`
"""
import functools
import itertools
import sys
from typing import NamedTuple

import model
from cases_rsa import form_and_size
from fields import ALGORITHMS, ED25519, LIMIT, MAGIC, uint32
from images import Case, Field, bcrypt_options, changed, curve_name, encrypted, inner, keypair_fields, longer, padded, plain
from images import point_of, put, put_all, put_length, refused, scalar_of, spot, stream
from images_rsa import in_blob, in_section, number, rsa_plain
from rsa import BLOB_NUMBERS, NUMBERS

P256, P384 = 1, 2
IMAGE = "the image"
KDF_NAME = "the KDF name's string"
OPTIONS = "the KDF options' string"
SECTION_NAME = "the key name's string in the section"


class Row(NamedTuple):
    condition: str
    field: str
    case: Case
    id: str = None


# ---- what the rows are made of


def row(condition, field, fields, number_of, path, offset=0, count=0):
    return Row(condition, field, refused(condition, fields, number_of, path, offset, count))


def with_content(fields, path, content):
    """The same fields, but with this content in that one; a section is padded again."""
    fields = put(fields, path, content)
    return padded(fields) if path.startswith("section.") else fields


def cut(what, field, fields, path):
    """The length of a string is a byte more than the enclosing part has left."""
    found = spot(fields, path)
    return row(f"{what} is cut", field, put_length(fields, path, found.end - found.start - 3), 1, path)


def name_rows(what, field, fields, path, unknown):
    yield cut(what, field, fields, path)
    yield row(f"{what} is unknown", field, with_content(fields, path, unknown), 4, path)


def fixed_rows(what, field, fields, path, length):
    """A string of a fixed length, in words: cut, shorter, and longer by two bytes."""
    content = inner(spot(fields, path).field)
    short, long = (with_content(fields, path, other) for other in (content[:-1], content + b"\0\0"))
    yield cut(what, field, fields, path)
    yield row(f"{what} has fewer than {length} bytes", field, short, 1, path)
    yield row(f"{what} has more than {length} bytes", field, long, 6, path, 4 + len(content), 2)


# ---- the header, rules 4.1 to 4.6


def first_rows():
    fields = plain(ED25519)
    yield Row("the image has more than 65,535 bytes", IMAGE, Case("too long", bytes(LIMIT + 1), (11, 0, 0)))
    yield Row("the image has fewer than 15 bytes", IMAGE, Case("too short", MAGIC[:-1], (1, 0, 0)))
    yield row("the image doesn't begin with the magic", IMAGE, put(fields, "magic", b"openssh-key-v2\0"), 2, "magic")
    yield from name_rows("the cipher name", "the cipher name's string", fields, "cipher", b"aes512-ctr")
    yield from name_rows("the KDF name", KDF_NAME, fields, "kdf", b"scrypt")


def options_rows():
    fields, sealed = plain(ED25519), encrypted(ED25519, b"aes256-ctr")
    yield cut("the options string", OPTIONS, fields, "options")
    yield row("KDF `none` has options", OPTIONS, put(fields, "options", bcrypt_options()), 3, "options")
    yield cut("the salt of `bcrypt`", "the salt's string", sealed, "options.salt")
    yield row("the rounds of `bcrypt` are cut", "the rounds", put(sealed, "options.rounds", bytes(3)), 1, "options.rounds")
    left = longer(sealed, "options", b"\0\0")
    yield row("bytes are left in the options of `bcrypt`", OPTIONS, left, 6, "options.extra", 0, 2)


def count_rows():
    fields = plain(ED25519)
    last = put(fields[:5], "count", bytes(3))  # nothing after it
    yield row("the key count is cut", "the key count", last, 1, "count")
    condition = "the key count is 0, above 16, or other than 1 with a cipher"
    yield row(condition, "the key count", put(fields, "count", uint32(model.MOST_KEYS + 1)), 1, "count")


def blob_rows():
    fields = plain(ED25519)
    yield cut("the public blob", "the blob's string", fields, "blob")
    yield from public_rows("blob")
    other = put_all(plain(P256), {"blob.curve": curve_name(P384), "blob.point": point_of(P384)})
    yield unlike_curve("blob", other)
    yield from number_rows("blob", BLOB_NUMBERS, in_blob)
    yield row("bytes are left in the blob", "the blob's string", longer(fields, "blob", b"\0\0"), 6, "blob.extra", 0, 2)


# ---- keys: those of the blob and of the section


def public_rows(part):
    """Key name, Ed25519's public key, and ECDSA's curve and point: the blob and the section have them alike."""
    edwards, curve = plain(ED25519), plain(P256)
    point, wrong_tag = f"the point's string in the {part}", b"\2" + point_of(P256)[1:]
    yield from name_rows(f"the {part}'s key name", f"the key name's string in the {part}", edwards, f"{part}.name", b"ssh-dss")
    public = f"the public key's string in the {part}"
    yield from fixed_rows(f"the {part}'s Ed25519 public key", public, edwards, f"{part}.point", "32")
    yield from name_rows(f"the {part}'s curve", f"the curve's string in the {part}", curve, f"{part}.curve", b"nistp224")
    yield from fixed_rows(f"the {part}'s point", point, curve, f"{part}.point", "1 + 2·SIZE")
    tagged = put(curve, f"{part}.point", wrong_tag)
    yield row(f"the {part}'s point, of the right length, doesn't begin with 4", point, tagged, 2, f"{part}.point")


def unlike_curve(part, fields):
    return row(f"the {part}'s curve is unlike its algorithm", f"the curve's string in the {part}", fields, 4, f"{part}.curve")


def number_rows(part, names, put_in):
    """RSA's numbers: all are read, their strings and forms, before a size is looked at."""
    fields = rsa_plain()
    field = {name: f"{name}'s string in the {part}" if name in BLOB_NUMBERS else f"{name}'s string" for name in names}
    for name in names:
        what, wrong = f"the {part}'s {name}", put_in(fields, {name: form_and_size(name)[0]})
        yield cut(what, field[name], fields, f"{part}.{name}")
        yield row(f"{what} is empty, negative or not minimal", field[name], wrong, 2, f"{part}.{name}")
    for name in names:
        for outside, bits in sizes_outside(name):
            wrong = put_in(fields, {name: number(bits)})
            yield row(f"the {part}'s {name} has {outside}", field[name], wrong, 1, f"{part}.{name}")


def sizes_outside(name):
    """Sizes, in words and in bits, that a number mustn't have beside a modulus of 1,024 bits."""
    if name == "n":
        return [("fewer than 1,024 bits", 1023), ("more than 8,192 bits", 8193)]
    return [("more bits than n", 1025)]


# ---- the plain section, rule 4.8


def section_rows():
    fields = plain(ED25519)
    cipherless = put_all(fields, {"kdf": b"bcrypt", "options": bcrypt_options()})
    yield row("the cipher is `none` and the KDF isn't", KDF_NAME, cipherless, 3, "kdf")
    yield cut("the section", "the section's string", fields, "section")
    odd = longer(fields, "section", b"\0")
    yield row("the section's length isn't a multiple of 8", "the section", odd, 1, "section", 4)
    yield row("the section is empty: no checkint", "the first checkint", put(fields, "section", b""), 1, "section", 4)
    unequal = put(fields, "section.checkint2", bytes(4))
    yield row("the checkints are unequal", "the second checkint", unequal, 3, "section.checkint2")


def pair_rows():
    yield from public_rows("section")
    yield from fixed_rows("Ed25519's string of 64", "the seed's string", plain(ED25519), "section.scalar", "64")
    halves = put(plain(ED25519), "section.scalar", scalar_of(ED25519) + point_of(ED25519, "other"))
    yield row("the half after the seed is unlike the public key", "the seed's string", halves, 3, "section.scalar")
    yield from scalar_rows()
    yield unlike_curve("section", changed(plain(P256, keypair=keypair_fields(P384)), {"section.name": ALGORITHMS[P256]}))
    yield from number_rows("section", NUMBERS, in_section)


def scalar_rows():
    field, fields, path = "the scalar's string", plain(P256), "section.scalar"
    size = len(scalar_of(P256))
    empty, long, leading, zeros = (
        with_content(fields, path, scalar) for scalar in (b"", bytes(size + 2), b"\1" + bytes(size), bytes(size + 1))
    )
    yield cut("the scalar", field, fields, path)
    yield row("the scalar is empty", field, empty, 1, path)
    yield row("the scalar has more than SIZE + 1 bytes", field, long, 6, path, 4 + size, 2)
    yield row("the scalar has SIZE + 1 bytes and no zero first", field, leading, 2, path)
    yield row("the scalar is zeros alone", field, zeros, 2, path)


def unlike_rows():
    """The section's public key isn't the header's, in each way."""
    other = keypair_fields(ED25519, point_of(ED25519, "other"))
    for condition, fields in {
        "the section's key is of another kind than the header's": plain(ED25519, keypair=keypair_fields(P256)),
        "the section's public key or point isn't the header's": plain(ED25519, keypair=other),
        "the section's n isn't the header's": in_section(rsa_plain(), {"n": number(1024, "other")}),
        "the section's e isn't the header's": in_section(rsa_plain(), {"e": b"\3"}),
    }.items():
        yield row(condition, SECTION_NAME, fields, 5, "section.name")


def last_rows():
    """What comes after the keypair. Of the wrong padding only the last byte is wrong: the place is the first one's."""
    fields = plain(ED25519)
    padding = inner(spot(fields, "section.padding").field)
    more = put(fields, "section.padding", bytes(range(1, len(padding) + 9)))
    wrong = put(fields, "section.padding", padding[:-1] + b"\0")
    encoded = with_content(fields, "section.comment", b"s\xfcd")
    yield cut("the comment", "the comment's string", fields, "section.comment")
    yield row("the comment isn't UTF-8", "the comment's string", encoded, 7, "section.comment")
    yield row("the padding has 8 bytes or more", "the padding", more, 1, "section.padding")
    yield row("the padding isn't 1, 2, 3 and so on", "the padding", wrong, 2, "section.padding")
    left = [*fields, Field("left", b"\0\0", counted=False)]
    yield row("bytes are left after a plain section", IMAGE, left, 6, "left", 0, 2)


# ---- the encrypted section, rule 4.7


def encrypted_rows():
    fields = encrypted(ED25519, b"aes256-gcm@openssh.com")
    tag = inner(spot(fields, "tag").field)
    odd = put(fields, "ciphertext", stream("ciphertext", 17))
    yield cut("the ciphertext", "the ciphertext's string", fields, "ciphertext")
    yield row("the ciphertext isn't whole blocks", "the ciphertext's string", odd, 3, "ciphertext")
    yield row("the tag is cut", "the tag", put(fields, "tag", tag[:-1]), 1, "tag")
    left = longer(fields, "tag", b"\0\0")
    yield row("bytes are left after an encrypted section", IMAGE, left, 6, "tag", len(tag), 2)


# ---- all of them


@functools.cache
def rows():
    """Every row with its id. The header read refuses alike what stands in the header, and reads past all the others."""
    header = itertools.chain(first_rows(), options_rows(), count_rows(), blob_rows())
    section = itertools.chain(section_rows(), pair_rows(), unlike_rows(), last_rows(), encrypted_rows())
    alike = [one._replace(case=one.case._replace(header=one.case.reply)) for one in header]
    past = [one._replace(case=one.case._replace(header=(0, 0, 0))) for one in section]
    return [one._replace(id=f"P{turn}") for turn, one in enumerate(alike + past, 1)]


def place_cases():
    for one in rows():
        yield one.case._replace(title=f"{one.id}: {one.condition}")


def stored(one):
    """A row's line in the file for the Rust tests."""
    image = one.case.image
    text = image.hex() if any(image) else f"{len(image)} zeros"
    return "|".join([one.id, *map(str, one.case.reply), one.field, text]) + "\n"


def main():
    if len(sys.argv) != 2:
        sys.exit("usage: python3 tools/cases_places.py ROW >example.bin")
    images = {one.id: one.case.image for one in rows()}
    if sys.argv[1] not in images:
        sys.exit(f"cases_places.py: there is no row {sys.argv[1]!r} with an image: they are P1 to P{len(images)}")
    sys.stdout.buffer.write(images[sys.argv[1]])


if __name__ == "__main__":
    main()
