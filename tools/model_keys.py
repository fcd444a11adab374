"""The rules on keys, docs/RULES.md, 6: how a blob's key and a section's keypair
are read, and how they are written. Like model.py, whose part this is, it was written from the rules alone."""
from fields import ALGORITHMS, CURVES, ED25519, RSA, SIZES, Refused, content, string
from rsa import BLOB_NUMBERS, NUMBERS, bits_of, read_numbers

# What a record calls the numbers of an RSA key; modulus and exponent are the blob's, the others the section's.
RSA_PARTS = {"n": "modulus", "e": "exponent", "d": "d", "iqmp": "iqmp", "p": "p", "q": "q"}


def read_name(reader, names):
    """A string that must be one of the names; answers its place among them."""
    field = reader.place
    name = content(reader.image, reader.string())
    if name not in names:
        raise Refused(4, field)
    return names.index(name)


# ---- the blob's key


def read_blob(reader):
    """Rule 4.6, within the blob: name, key fields, end. Answers the algorithm and the public fields of a record."""
    algorithm = read_name(reader, ALGORITHMS)
    if algorithm == ED25519:
        public = dict(point=reader.fixed(32))
    elif algorithm == RSA:
        public = read_rsa_public(reader)
    else:
        public = dict(point=read_ecdsa_public(reader, algorithm))
    reader.finish()
    return algorithm, public


def read_ecdsa_public(reader, algorithm):
    curve, curve_field = read_curve(reader)
    point = read_point(reader, curve)
    hold_to_name(curve, algorithm, curve_field)
    return point


def read_rsa_public(reader):
    parts = read_numbers(reader, BLOB_NUMBERS)
    return dict(modulus=parts["n"], exponent=parts["e"], bits=bits_of(content(reader.image, parts["n"])))


# ---- the section's keypair


def read_keypair(reader):
    """A section's keypair, by its own name. Answers the algorithm, the bytes by which public keys of that kind are compared,
    and the private fields of a record."""
    algorithm = read_name(reader, ALGORITHMS)
    if algorithm == ED25519:
        return (algorithm, *read_ed25519_pair(reader))
    if algorithm == RSA:
        return (algorithm, *read_rsa_pair(reader))
    curve, curve_field = read_curve(reader)
    point = content(reader.image, read_point(reader, curve))
    scalar = read_scalar(reader, SIZES[curve])
    hold_to_name(curve, algorithm, curve_field)
    return algorithm, (point,), dict(scalar=scalar)


def read_ed25519_pair(reader):
    public = content(reader.image, reader.fixed(32))
    field = reader.place
    start, _ = reader.fixed(64)
    if reader.image[start + 32 : start + 64] != public:
        raise Refused(3, field)
    return (public,), dict(scalar=(start, 32))


def read_rsa_pair(reader):
    parts = read_numbers(reader, NUMBERS)
    public = tuple(content(reader.image, parts[name]) for name in ("n", "e"))
    return public, {name: parts[name] for name in ("d", "iqmp", "p", "q")}


def compared(image, key):
    """Of a blob's public key, the bytes that the section's must have too."""
    parts = (key.modulus, key.exponent) if key.algorithm == RSA else (key.point,)
    return tuple(content(image, part) for part in parts)


# ---- curve, point and scalar


def read_curve(reader):
    """The curve string; answers the algorithm that it belongs to, and where the string began."""
    field = reader.place
    name = content(reader.image, reader.string())
    if name not in CURVES:
        raise Refused(4, field)
    return CURVES[name], field


def read_point(reader, curve):
    field = reader.place
    start, length = reader.fixed(1 + 2 * SIZES[curve])
    if reader.image[start] != 4:
        raise Refused(2, field)
    return (start, length)


def hold_to_name(curve, algorithm, curve_field):
    if curve != algorithm:
        raise Refused(4, curve_field)


def read_scalar(reader, size):
    """1 to SIZE bytes, or SIZE + 1 with a zero first, and not zeros alone. The part is without the leading zeros."""
    field = reader.place
    start, length = reader.string()
    if length == 0:
        raise Refused(1, field)
    if length > size + 1:
        raise Refused(6, field + 4 + size, length - size)
    if length == size + 1 and reader.image[start] != 0:
        raise Refused(2, field)
    number = without_zeros(content(reader.image, (start, length)))
    if number == b"":
        raise Refused(2, field)
    return (start + length - len(number), len(number))


def without_zeros(scalar):
    return scalar.lstrip(b"\0")


def filled_scalar(image, key):
    """A key's seed, or its scalar with zeros filled in front to SIZE bytes: what a writer is handed."""
    return content(image, key.scalar).rjust(SIZES.get(key.algorithm, 32), b"\0")


# ---- what is written: the key fields of the blob, and those of the section


def public_fields(algorithm, point):
    """Name and public fields, as they stand in the blob and again in the section."""
    name = ALGORITHMS[algorithm]
    if algorithm == ED25519:
        return string(name) + string(point)
    return string(name) + string(name[len(b"ecdsa-sha2-") :]) + string(point)


def private_field(algorithm, point, scalar):
    """Ed25519's two halves, or the scalar as RFC 4251's mpint in as few bytes as can be."""
    if algorithm == ED25519:
        return string(scalar, point)
    number = without_zeros(scalar)
    sign = b"\0" if number[0] >= 0x80 else b""
    return string(sign, number)


def curve_key(algorithm, point, scalar):
    """Blob and keypair of a key that isn't RSA's."""
    public = public_fields(algorithm, point)
    return public, public + private_field(algorithm, point, scalar)


def rsa_key(numbers):
    """Blob and keypair of n, e, d, iqmp, p and q; the blob has e and n, in this order."""
    n, e, *_ = numbers
    name = string(ALGORITHMS[RSA])
    return name + string(e) + string(n), name + b"".join(map(string, numbers))
