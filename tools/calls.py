"""Calls of the writers and of the edits, in rows: each row has a lent buffer and the calls that are made on it one
after another. How they are stored for crates/replay_writing, and what it must print; how those of a list of keys are stored for
replay_lists says listed.py.

In the file of calls every number is 4 bytes, big-endian. A row is how many calls it has, the buffer that is lent to them, the
length of the image in it, and the calls. A call is its code, three numbers, the place and the length of each of seven texts, and a
text in which these stand one after another; the last are empty where fewer are named:
  0 plain      algorithm, 1 to derive the checkint or 0, checkint; public, private, comment
  1 encrypted  cipher, KDF, rounds; salt, blob, ciphertext, tag
  2 rewrite    0, 0, 0; image
  3 change     0 for the length that the last accepted call answered, the lent image's until one was, or 1 for the number
               that follows, its upper half and its lower half; comment
  4 rsa        0, 1 to derive the checkint or 0, checkint; n, e, d, iqmp, p, q, comment
A text is how many pieces it has, and each piece is the length of a unit, the length of the piece, and the unit, which is
repeated over the piece. So 65,301 times one byte take 13 bytes.

For each call a line is printed: the entry, which may be shortened, number, count, at, the length that was written, the buffer's length and all of
the buffer: `hex:` and its bytes if it has up to 256, else `mod:` and what remains if the buffer, as one big-endian number,
is divided by a prime just below 2**56. A change of any single byte always shows there.
"""
import itertools
import re
from typing import NamedTuple

import model_edits
import model_writing
from images import point_of, scalar_of
from model_writing import Reply
from rsa import NUMBERS

WRITERS = {"plain": 0, "encrypted": 1, "rewrite": 2, "rsa": 4, "write_keys": 5}
EDITS = {"change": 3, "change_comment_of": 6, "add_key": 7, "add_rsa": 8, "remove_key": 9}  # their first argument is n
SHORTENED = {
    "write_keys": "keys", "change_comment_of": "change_of", "add_key": "add", "remove_key": "remove",
    "read_setting": "read", "write_setting": "write", "store_get": "get", "store_put": "put", "store_move": "move",
}
PRIME = 2**56 - 5
SHORT = 256
LARGE = 66000  # the longest buffer that the program takes: it has room for an image above the limit
TEXTS = 70000  # what the texts of a call may have together
MOST_TEXTS = 7
FILL = b"\xa1\xb2\xc3\xd4\xe5\xf6\x97"  # no zeros, and no run of one byte
REPEATED = re.compile(rb"(.{1,13}?)\1{11,}", re.DOTALL)


class Call(NamedTuple):
    """An entry and its arguments, without the buffer. Where it is said: the reply that is meant, and the buffer after it."""

    entry: str
    arguments: tuple
    reply: Reply = None
    after: bytes = None


class Row(NamedTuple):
    title: str
    buffer: bytes
    calls: list
    n: int = 0  # the length of the image that the buffer begins with


# ---- what the cases are made of


def refuses(number, count=0, at=0):
    return Reply(number, count, at, 0)


def writes(length):
    return Reply(0, 0, 0, length)


def filled(length):
    """A buffer in which every change shows."""
    return (FILL * (length // len(FILL) + 1))[:length]


def lent(image, extra=0):
    """A buffer that begins with an image and goes on with so many other bytes."""
    return image + filled(extra)


def plain(algorithm, public=None, private=None, checkint=0x01020304, comment=b"oven-12", reply=None, after=None):
    """A call of the plain writer. The checkint None is the derived one."""
    public = point_of(algorithm) if public is None else public
    private = scalar_of(algorithm) if private is None else private
    return Call("plain", (algorithm, public, private, checkint, comment), reply, after)


def rsa(key, checkint=0x01020304, comment=b"oven-12", reply=None, after=None):
    """A call of the writer for RSA keys; the key is a dict of its six numbers. The checkint None is the derived one."""
    return Call("rsa", (*(key[name] for name in NUMBERS), checkint, comment), reply, after)


def encrypted(cipher, kdf, salt, rounds, blob, ciphertext, tag, reply=None, after=None):
    return Call("encrypted", (cipher, kdf, salt, rounds, blob, ciphertext, tag), reply, after)


def rewrite(image, reply=None, after=None):
    return Call("rewrite", (image,), reply, after)


def change(comment, reply=None, n=None, after=None):
    """A comment change; without an n it is given the length that the last accepted call answered, and so are the other edits."""
    return Call("change", (n, comment), reply, after)


def write_keys(table, text, checkint=0x01020304, reply=None, after=None):
    """A call of the writer of several keys, each of which is a row of the table. The checkint None is the derived one."""
    return Call("write_keys", (tuple(table), text, checkint), reply, after)


def change_of(k, comment, reply=None, n=None, after=None):
    return Call("change_comment_of", (n, k, comment), reply, after)


def add(algorithm, public, private, comment, reply=None, n=None, after=None):
    return Call("add_key", (n, algorithm, public, private, comment), reply, after)


def add_rsa(numbers, comment, reply=None, n=None, after=None):
    """The numbers are n, e, d, iqmp, p and q."""
    return Call("add_rsa", (n, *numbers, comment), reply, after)


def remove(k, reply=None, n=None, after=None):
    return Call("remove_key", (n, k), reply, after)


# ---- what the model says


def answers(row):
    """Each call of a row with its reply and the buffer after it."""
    buffer, n = row.buffer, row.n
    for call in row.calls:
        arguments, rules = call.arguments, model_edits if call.entry in EDITS else model_writing
        if call.entry in EDITS and arguments[0] is None:
            arguments = (n, *arguments[1:])
        reply, buffer = getattr(rules, call.entry)(*arguments, buffer=buffer)
        n = reply.length if reply.number == 0 else n
        yield call, reply, buffer


def line(entry, reply, buffer):
    """What is printed of a call."""
    if len(buffer) <= SHORT:
        whole = "hex:" + buffer.hex()
    else:
        whole = f"mod:{int.from_bytes(buffer, 'big') % PRIME}"
    return " ".join([f"{SHORTENED.get(entry, entry):<9}", *map(str, reply), str(len(buffer)), whole]) + "\n"


# ---- how it is stored


def numbers(*values):
    return b"".join(value.to_bytes(4, "big") for value in values)


def piece(unit, length):
    return numbers(len(unit), length) + unit


def text(whole):
    pieces, place = [], 0
    for run in REPEATED.finditer(whole):
        if run.start() > place:
            pieces.append(piece(whole[place : run.start()], run.start() - place))
        pieces.append(piece(run.group(1), run.end() - run.start()))
        place = run.end()
    if place < len(whole):
        pieces.append(piece(whole[place:], len(whole) - place))
    return numbers(len(pieces)) + b"".join(pieces)


def stored_arguments(entry, arguments):
    """The three numbers and the texts of a call. k and each number of a table are 8 bytes of a text."""
    if entry == "plain":
        algorithm, public, private, checkint, comment = arguments
        return numbers(algorithm, checkint is None, checkint or 0), [public, private, comment]
    if entry == "rsa":
        *six, checkint, comment = arguments
        return numbers(0, checkint is None, checkint or 0), [*six, comment]
    if entry == "encrypted":
        cipher, kdf, salt, rounds, *texts = arguments
        return numbers(cipher, kdf, rounds), [salt, *texts]
    if entry == "rewrite":
        return numbers(0, 0, 0), [*arguments]
    if entry == "write_keys":
        table, whole, checkint = arguments
        return numbers(0, checkint is None, checkint or 0), [b"".join(map(wide, table)), whole]
    n, *rest = arguments
    return numbers(n is not None, *divmod(n or 0, 2**32)), stored_rest(entry, rest)


def wide(number):
    return number.to_bytes(8, "big")


def stored_rest(entry, rest):
    """The texts of an edit, of whose arguments the first may be a number."""
    first_of = {"change_comment_of": wide, "remove_key": wide, "add_key": numbers}
    return [first_of[entry](rest[0]), *rest[1:]] if entry in first_of else rest


def stored_call(call):
    head, texts = stored_arguments(call.entry, call.arguments)
    return numbers(code(call)) + head + numbers(*places(texts)) + text(b"".join(texts))


def code(call):
    return {**WRITERS, **EDITS}[call.entry]


def places(texts):
    """Place and length of each of seven texts that stand one after another; of those that there aren't, 0."""
    starts = itertools.accumulate(map(len, texts), initial=0)
    found = [number for start, one in zip(starts, texts) for number in (start, len(one))]
    assert sum(found[-2:]) <= TEXTS and len(texts) <= MOST_TEXTS
    return found + [0] * (2 * MOST_TEXTS - len(found))


def stored(row):
    assert len(row.buffer) <= LARGE
    head = numbers(len(row.calls)) + text(row.buffer) + numbers(row.n)
    return head + b"".join(map(stored_call, row.calls))
