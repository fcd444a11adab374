"""Images as lists of named fields, to be changed in one place and joined again.

A field's content is its bytes, or the list of the fields within it. A field within another is named with a point
between: 'section.scalar', 'options.salt'. The lengths follow the contents, unless a field is given a length of its own.
"""
import hashlib
import pathlib
from dataclasses import dataclass, replace
from typing import NamedTuple

from fields import ALGORITHMS, CIPHERS, ED25519, MAGIC, SIZES

CORPUS = pathlib.Path(__file__).resolve().parent / "corpus"


@dataclass
class Field:
    name: str
    content: object  # bytes, or a list of fields
    counted: bool = True  # a string: its length stands in front
    length: int = None  # a length in front that isn't the content's


class Case(NamedTuple):
    """An image, and what it was made to get where that is said: the full read's reply (number, count, at), the form, and
    the header read's reply."""

    title: str
    image: bytes
    reply: tuple = None
    form: bool = None
    header: tuple = None


class Spot(NamedTuple):
    path: str
    field: Field
    start: int  # the place of the field's first byte in the image
    end: int  # where the enclosing part ends


# ---- lists of fields


def inner(field):
    return join(field.content) if isinstance(field.content, list) else field.content


def encoded(field):
    content = inner(field)
    if not field.counted:
        return content
    length = len(content) if field.length is None else field.length
    return length.to_bytes(4, "big") + content


def join(fields):
    return b"".join(encoded(field) for field in fields)


def spots(fields, start=0, path=""):
    """Every field with its place, in the order of the image."""
    end = start + len(join(fields))
    for field in fields:
        yield Spot(path + field.name, field, start, end)
        if isinstance(field.content, list):
            yield from spots(field.content, start + 4 * field.counted, path + field.name + ".")
        start += len(encoded(field))


def spot(fields, path):
    return next(s for s in spots(fields) if s.path == path)


def place(fields, path):
    return spot(fields, path).start


def copied(fields):
    """New fields, at every depth, with the same contents."""
    return [replace(field, content=copied(field.content) if isinstance(field.content, list) else field.content) for field in fields]


def put(fields, path, content):
    """The same fields, but with this content in that one."""
    fields = copied(fields)
    spot(fields, path).field.content = content
    return fields


def put_all(fields, contents):
    for path, content in contents.items():
        fields = put(fields, path, content)
    return fields


def put_length(fields, path, length):
    """The same fields, but with this length in front of that one."""
    fields = copied(fields)
    spot(fields, path).field.length = length
    return fields


def longer(fields, path, extra):
    """The same fields, but with the extra bytes at the end of that one, within it."""
    fields = copied(fields)
    field = spot(fields, path).field
    if isinstance(field.content, list):
        field.content.append(Field("extra", extra, counted=False))
    else:
        field.content += extra
    return fields


def shorter(fields, path):
    """The same fields, but without the last byte of that one."""
    return put(fields, path, inner(spot(fields, path).field)[:-1])


def padded(fields):
    """The same fields, but with the fewest padding bytes that reach a multiple of 8."""
    unpadded = put(fields, "section.padding", b"")
    size = len(inner(spot(unpadded, "section").field))
    return put(fields, "section.padding", bytes(range(1, -size % 8 + 1)))


def changed(fields, contents):
    """The same plain fields, but with these contents, and padded again."""
    return padded(put_all(fields, contents))


def refused(title, fields, number, path, offset=0, count=0):
    """A case that must be refused, at that field or so many bytes after its start."""
    return Case(title, join(fields), (number, count, place(fields, path) + offset))


def accepted(title, fields, form=True):
    return Case(title, join(fields), (0, 0, 0), form)


# ---- what the images are made of


def stream(label, count):
    """Bytes that look random and are the same each time."""
    blocks = (hashlib.sha256(f"{label} {turn}".encode()).digest() for turn in range(count // 32 + 1))
    return b"".join(blocks)[:count]


def other_kinds(algorithm):
    return [kind for kind in range(4) if kind != algorithm]


def other_curves(algorithm):
    return [kind for kind in other_kinds(algorithm) if kind != ED25519]


def curve_name(algorithm):
    return ALGORITHMS[algorithm][len(b"ecdsa-sha2-") :]


def point_of(algorithm, label="point"):
    if algorithm == ED25519:
        return stream(f"{label} {algorithm}", 32)
    return b"\4" + stream(f"{label} {algorithm}", 2 * SIZES[algorithm])


def scalar_of(algorithm, first=0x5A):
    size = SIZES.get(algorithm, 32)
    return bytes([first]) + stream(f"scalar {algorithm}", size - 1)


def mpint(value):
    """A number above 0 in as few bytes as can be, with room for a sign."""
    return value.to_bytes(value.bit_length() // 8 + 1, "big")


def minimal(algorithm, private):
    """What the writer stores of a key's private bytes: of a scalar the mpint. Ed25519's seed stays as it is."""
    return private if algorithm == ED25519 else mpint(int.from_bytes(private, "big"))


def by_old_writer(private):
    """A scalar's string as the writer made it before request Five: all SIZE bytes, and a zero before a byte of 0x80 or more."""
    return b"\0" * (private[0] >= 0x80) + private


def public_fields(algorithm, point):
    curve = [] if algorithm == ED25519 else [Field("curve", curve_name(algorithm))]
    return [Field("name", ALGORITHMS[algorithm]), *curve, Field("point", point)]


def keypair_fields(algorithm, point=None, scalar=None):
    point = point_of(algorithm) if point is None else point
    scalar = scalar_of(algorithm) if scalar is None else scalar
    private = scalar + point if algorithm == ED25519 else scalar
    return [*public_fields(algorithm, point), Field("scalar", private)]


def header_fields(algorithm, cipher, kdf, options):
    return [
        Field("magic", MAGIC, counted=False),
        Field("cipher", cipher),
        Field("kdf", kdf),
        Field("options", options),
        Field("count", b"\0\0\0\1", counted=False),
        Field("blob", public_fields(algorithm, point_of(algorithm))),
    ]


def section_fields(keypair, comment):
    return [
        Field("checkint1", b"\x6b\x1d\xfa\xce", counted=False),
        Field("checkint2", b"\x6b\x1d\xfa\xce", counted=False),
        *keypair,
        Field("comment", comment),
        Field("padding", b"", counted=False),
    ]


def plain(algorithm, comment=b"oven-12", scalar=None, keypair=None):
    """The fields of a plain image. The scalar is the string as it stands in the image."""
    keypair = keypair_fields(algorithm, scalar=scalar) if keypair is None else keypair
    header = header_fields(algorithm, b"none", b"none", [])
    return padded([*header, Field("section", section_fields(keypair, comment))])


def bcrypt_options(salt=None, rounds=16):
    salt = stream("salt", 16) if salt is None else salt
    return [Field("salt", salt), Field("rounds", rounds.to_bytes(4, "big"), counted=False)]


def encrypted(algorithm, cipher, kdf=b"bcrypt", options=None, blocks=3):
    """The fields of an encrypted image."""
    if options is None:
        options = bcrypt_options() if kdf == b"bcrypt" else []
    _, block, tag_length = next(c for c in CIPHERS if c[0] == cipher)
    return [
        *header_fields(algorithm, cipher, kdf, options),
        Field("ciphertext", stream("ciphertext", blocks * block)),
        Field("tag", stream("tag", tag_length), counted=False),
    ]


ALL_PLAIN = {f"plain {ALGORITHMS[a].decode()}": plain(a) for a in range(4)}
ALL_ENCRYPTED = {
    "bcrypt aes256-ctr": encrypted(0, b"aes256-ctr"),
    "bcrypt aes256-gcm": encrypted(1, b"aes256-gcm@openssh.com"),
    "bcrypt 3des-cbc": encrypted(0, b"3des-cbc"),
    "none aes128-cbc": encrypted(0, b"aes128-cbc", kdf=b"none"),
}
GOOD = {**ALL_PLAIN, **ALL_ENCRYPTED}


def corpus():
    """Real files without their armour."""
    for path in sorted(CORPUS.glob("*.bin")):
        yield Case(path.stem, path.read_bytes())
