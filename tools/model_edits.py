"""The edits of an image in one lent buffer, once more, in plain Python: docs/RULES.md, 12, and request Eight of several keys.

Like model.py, this was written from the rules and the readings of them, and from no other code of this project. Each edit reads
the image's keys into a list, edits the list, and writes it afresh under the old checkint. n is the length of the image in the
buffer; keys count from 1. Each answers its reply and the buffer as it must be afterwards.

    change(n, comment, buffer=..)                                    the first key's comment
    change_comment_of(n, k, comment, buffer=..)
    add_key(n, algorithm, public, private, comment, buffer=..)       the new key goes last
    add_rsa(n, m, e, d, iqmp, p, q, comment, buffer=..)              the same; m is the modulus
    remove_key(n, k, buffer=..)
"""
import model
from fields import LIMIT, RSA, Refused, content
from model import KEY_ROOM, PLAIN
from model_keys import filled_scalar
from model_writing import Given, hold_to_utf8, placed, replying, written


class Opened:
    """The keys of the image in a buffer, as found and as a writer takes them, once all that comes before an edit's own refusals is
    right."""

    def __init__(self, n, buffer):
        if n > LIMIT:
            raise Refused(11, 0)
        if n > len(buffer):
            raise Refused(1, 0)
        self.n, self.buffer, image = n, buffer, buffer[:n]
        record = model.read_image(image)
        if record.kind != PLAIN:
            raise Refused(8, 0)
        if model.write_again(image, record) != image:
            raise Refused(10, 0)
        self.checkint, self.found = record.checkint, model.keys_of(image, record)
        self.keys = [given(image, key) for key in self.found]

    def hold_to_key(self, k):
        if not 1 <= k <= len(self.keys):
            raise Refused(1, 0)

    def closed(self, keys):
        """The image of these keys; then zeros up to the old end. What is past both ends stays."""
        length, after = placed(written(keys, self.checkint), self.buffer)
        end = max(self.n, length)
        return length, after[:length] + bytes(end - length) + after[end:]


def given(image, key):
    """A key of an image as a writer is handed it."""
    comment = content(image, key.comment)
    if key.algorithm == RSA:
        return Given(RSA, comment=comment, numbers=tuple(model.numbers_of(image, key)))
    return Given(key.algorithm, content(image, key.point), filled_scalar(image, key), comment)


# ---- the edits


@replying
def change_comment_of(n, k, comment, buffer):
    opened = Opened(n, buffer)
    opened.hold_to_key(k)
    hold_to_utf8(comment, opened.found[k - 1].comment[0] - 4)  # at the old comment's field
    before, old, after = opened.keys[: k - 1], opened.keys[k - 1], opened.keys[k:]
    return opened.closed([*before, old._replace(comment=comment), *after])


def change(n, comment, buffer):
    return change_comment_of(n, 1, comment, buffer=buffer)


def added(n, key, buffer):
    opened = Opened(n, buffer)
    if len(opened.keys) == KEY_ROOM:
        raise Refused(1, 0)
    return opened.closed([*opened.keys, key])  # of these only the new one can be refused


@replying
def add_key(n, algorithm, public, private, comment, buffer):
    """A code that names none of the four kinds over a curve is 4 before all else: RSA has an addition of its own."""
    if not 0 <= algorithm < RSA:
        raise Refused(4, 0)
    return added(n, Given(algorithm, public, private, comment), buffer)


@replying
def add_rsa(n, m, e, d, iqmp, p, q, comment, buffer):
    return added(n, Given(RSA, comment=comment, numbers=(m, e, d, iqmp, p, q)), buffer)


@replying
def remove_key(n, k, buffer):
    opened = Opened(n, buffer)
    opened.hold_to_key(k)
    if len(opened.keys) == 1:
        raise Refused(1, 0)
    return opened.closed([*opened.keys[: k - 1], *opened.keys[k:]])
