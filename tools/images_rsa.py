"""Images of RSA keys as lists of named fields, in the manner of images.py: 'blob.e', 'section.iqmp'.

The numbers look random and have the sizes that are asked for. They are no keys: nothing here multiplies them. Real keys are
in the corpus.
"""
from fields import ALGORITHMS, ED25519, RSA
from images import Field, encrypted, mpint, padded, plain, put, put_all, stream
from rsa import BLOB_NUMBERS, NUMBERS

E = b"\1\0\1"  # 65,537, as ssh-keygen has it


# ---- numbers


def number(bits, label="number"):
    """A number of exactly so many bits."""
    rest = int.from_bytes(stream(label, bits // 8 + 1), "big") % 2 ** (bits - 1)
    return mpint(2 ** (bits - 1) + rest)


def low(length, label="low"):
    """So many bytes that begin with 5a."""
    return b"\x5a" + stream(label, length - 1)


def high(length, label="high"):
    """So many bytes that begin with a5: a number that lacks its zero."""
    return b"\xa5" + stream(label, length - 1)


def numbers(bits=1024, **others):
    """A key's six numbers, with sizes as ssh-keygen has them, but for those that are said. d has no zero in front."""
    half = bits // 2
    key = dict(n=number(bits, "n"), e=E, d=number(bits - 1, "d"), iqmp=number(half - 1, "iqmp"))
    return {**key, "p": number(half, "p"), "q": number(half, "q"), **others}


def small_numbers(bits):
    """A modulus of so many bits, and beside it numbers that are small enough for any."""
    return dict(n=number(bits, "n"), e=b"\3", d=b"\5", iqmp=b"\7", p=b"\x0b", q=b"\x0d")


# ---- fields


def blob_fields(key):
    return [Field("name", ALGORITHMS[RSA]), *(Field(name, key[name]) for name in BLOB_NUMBERS)]


def keypair_fields(key):
    return [Field("name", ALGORITHMS[RSA]), *(Field(name, key[name]) for name in NUMBERS)]


def rsa_plain(key=None, comment=b"oven-12", public=None):
    """The fields of a plain image. The blob's key is the section's, unless another one is said."""
    key = numbers() if key is None else key
    fields = plain(ED25519, comment, keypair=keypair_fields(key))
    return put(fields, "blob", blob_fields(key if public is None else public))


def rsa_encrypted(cipher, kdf=b"bcrypt", options=None, blocks=3, key=None):
    key = numbers() if key is None else key
    return put(encrypted(ED25519, cipher, kdf, options, blocks), "blob", blob_fields(key))


def in_blob(fields, changes):
    return put_all(fields, {f"blob.{name}": content for name, content in changes.items()})


def in_section(fields, changes):
    """The same plain fields, but with these numbers in the section, and padded again."""
    return padded(put_all(fields, {f"section.{name}": content for name, content in changes.items()}))


def in_both(fields, changes):
    public = {name: content for name, content in changes.items() if name in BLOB_NUMBERS}
    return in_section(in_blob(fields, public), changes)


RSA_GOOD = {
    "plain ssh-rsa": rsa_plain(),
    "bcrypt aes256-ctr, RSA": rsa_encrypted(b"aes256-ctr"),
    "none aes128-gcm, RSA": rsa_encrypted(b"aes128-gcm@openssh.com", b"none"),
}
