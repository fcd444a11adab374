"""The inputs of docs/DIFFERENCES.md that are RSA keys. differences.py numbers them and holds them against the document.

Where a single number is changed, the key is the corpus's of 1,024 bits; where the size matters, the numbers are made up, and the
modulus is odd, since OpenSSH refuses an even one.
"""
import model
from images import CORPUS, changed, mpint, put
from images_rsa import in_both, in_section, number, numbers, rsa_plain
from rsa import NUMBERS


def real_key():
    """The six numbers of a key of ssh-keygen."""
    image = (CORPUS / "keygen-rsa1024-ascii.bin").read_bytes()
    return dict(zip(NUMBERS, model.numbers_of(image, model.read(image))))


def odd(content):
    return content[:-1] + bytes([content[-1] | 1])


def made_up(bits):
    key = numbers(bits)
    return rsa_plain(dict(key, n=odd(key["n"])))


def renamed(fields, name):
    return changed(fields, {"section.name": name})


def form_differences(key):
    fields = rsa_plain(key)
    n, d = key["n"], key["d"]
    yield "RSA, needless zero before n", in_both(fields, {"n": b"\0" + n}), "2 at 61", "reads"
    yield "RSA, the same in the section alone", in_section(fields, {"n": b"\0" + n}), "2 at 217", "reads"
    yield "RSA, needless zero before d", in_section(fields, {"d": b"\0" + d}), "2 at 357", "reads"
    yield "RSA, n without its zero", in_both(fields, {"n": n[1:]}), "2 at 61", "refuses"
    yield "RSA, e is an empty string", in_both(fields, {"e": b""}), "2 at 54", "reads"
    yield "RSA, d is an empty string", in_section(fields, {"d": b""}), "2 at 357", "reads"
    yield "RSA, d is a single zero byte", in_section(fields, {"d": b"\0"}), "2 at 357", "reads"


def size_differences(key):
    fields = rsa_plain(key)
    yield "RSA, 1,023 bits", made_up(1023), "1 at 61", "refuses"
    yield "RSA, 8,193 bits", made_up(8193), "1 at 61", "reads"
    yield "RSA, 16,384 bits", made_up(16384), "1 at 61", "reads"
    yield "RSA, 16,385 bits", made_up(16385), "1 at 61", "refuses"
    yield "RSA, e a bit longer than n", in_both(fields, {"e": odd(number(1025))}), "1 at 54", "reads"
    yield "RSA, d a bit longer than n", in_section(fields, {"d": odd(number(1025))}), "1 at 357", "reads"
    yield "RSA, d larger than n, of as many bits", in_section(fields, {"d": mpint(2**1024 - 1)}), "read", "reads"


def value_differences(key):
    fields = rsa_plain(key)
    even = key["n"][:-1] + bytes([key["n"][-1] & 0xFE])
    yield "RSA, p times q unlike n", in_section(fields, {"p": odd(number(512))}), "read", "reads"
    yield "RSA, iqmp unlike the inverse", in_section(fields, {"iqmp": number(500)}), "read", "reads"
    yield "RSA, an even modulus", in_both(fields, {"n": even}), "read", "refuses"
    yield "RSA, p is 1", in_section(fields, {"p": b"\1"}), "read", "refuses"
    yield "RSA, e is 1", in_both(fields, {"e": b"\1"}), "read", "reads"
    name = b"rsa-sha2-512"
    yield "RSA by the name rsa-sha2-512", renamed(put(fields, "blob.name", name), name), "4 at 43", "reads"
    yield "RSA by that name in the section alone", renamed(fields, name), "4 at 206", "reads"


def rsa_differences():
    key = real_key()
    yield from form_differences(key)
    yield from size_differences(key)
    yield from value_differences(key)
