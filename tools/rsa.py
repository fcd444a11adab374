"""RSA keys by docs/RULES.md, 3.5 and 6.6 to 6.8: the mpint of RFC 4251, section 5, the sizes, and how a key is read.

Like model.py, this was written from the rules and from no other code of this project. The six numbers of a key are
called as there: modulus n, exponent e, and d, iqmp, p and q.
"""
from fields import Refused, content

NUMBERS = ["n", "e", "d", "iqmp", "p", "q"]  # in the order of a section and of the writer's arguments
BLOB_NUMBERS = ["e", "n"]
LEAST_BITS, MOST_BITS = 1024, 8192  # of a modulus


def is_mpint(number):
    """Positive and in as few bytes as can be: a zero stands first exactly if the top bit of the next byte is set."""
    if number == b"" or number[0] >= 0x80:
        return False
    return number[0] != 0 or (len(number) > 1 and number[1] >= 0x80)


def bits_of(number):
    return int.from_bytes(number, "big").bit_length()


def outside(name, number, modulus):
    """Whether a number has a size that it mustn't have beside this modulus."""
    if name == "n":
        return not LEAST_BITS <= bits_of(number) <= MOST_BITS
    return bits_of(number) > bits_of(modulus)


def first_outside(numbers):
    """The first of the numbers, a dict in their order, whose size is outside; None if there is none."""
    return next((name for name in numbers if outside(name, numbers[name], numbers["n"])), None)


# ---- reading


def read_mpint(reader):
    field = reader.place
    part = reader.string()
    if not is_mpint(content(reader.image, part)):
        raise Refused(2, field)
    return part


def read_numbers(reader, names):
    """All these numbers, one after another, and only then their sizes. Answers their parts."""
    parts = {name: read_mpint(reader) for name in names}
    wrong = first_outside({name: content(reader.image, part) for name, part in parts.items()})
    if wrong is not None:
        raise Refused(1, parts[wrong][0] - 4)
    return parts
