"""Calls over several keys, in the rows of calls.py: how they are stored for crates/replay_lists. What it must print of each is the
line of calls.py.

In the file every number is 4 bytes, big-endian. Two buffers go from call to call, the texts and the lent bytes; at first they are
zeros. A vector is how many bytes it has, and these: 25 numbers, and the bytes that are new in the two buffers. The numbers are the
code and three more, the place and the length of each of seven texts among the texts, those of the new texts and of the new lent
bytes in the vector, where each of these two goes in its buffer, and how many of the lent bytes the call gets. The last texts are
empty where fewer are named, k and each number of a table are 8 bytes:
  3 change             0, and the upper and the lower half of the image's length; comment
  5 write_keys         0, 1 to derive the checkint or 0, checkint; the table, its text
  6 change_comment_of  as 3; k, comment
  7 add_key            as 3; the algorithm in 4 bytes, public, private, comment
  8 add_rsa            as 3; n, e, d, iqmp, p, q, comment
  9 remove_key         as 3; k
Not replayed are an addition of a code that no kind over a curve has, since in Rattle it takes the kind, and an image written again, which
replay_writing has.
"""
import calls
from armoured import Buffer, new_bytes
from fields import RSA

NUMBERS = 25


def replayed(call):
    return call.entry != "rewrite" and (call.entry != "add_key" or 0 <= call.arguments[1] < RSA)


def with_length(call, n):
    """The call, an edit with the length of the image that the last accepted one left."""
    given = call.entry in calls.EDITS and call.arguments[0] is None
    return call._replace(arguments=(n, *call.arguments[1:])) if given else call


def three(call):
    """An edit's first number only says that a length follows, as one always does here."""
    numbers, texts = calls.stored_arguments(call.entry, call.arguments)
    return calls.numbers(0) + numbers[4:], texts


def vector(call, texts, lent, before):
    numbers, own = three(call)
    place, new = new_bytes(texts.bytes, b"".join(own))
    lent_place, lent_new = new_bytes(lent.bytes, before)
    start = 4 * NUMBERS
    ends = calls.numbers(start, len(new), start + len(new), len(lent_new), place, lent_place, len(before))
    whole = calls.numbers(calls.code(call)) + numbers + calls.numbers(*calls.places(own)) + ends + new + lent_new
    texts.put(b"".join(own))
    return calls.numbers(len(whole)) + whole


def stored(rows):
    """All vectors of rows that are given with their answers."""
    texts, lent = Buffer(), Buffer()
    for row, answers in rows:
        before, n = row.buffer, row.n
        for call, reply, after in answers:
            if replayed(call):
                yield vector(with_length(call, n), texts, lent, before)
                lent.put(after)
            before, n = after, reply.length if reply.number == 0 else n
