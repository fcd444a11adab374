"""What a sequence of edits in one lent buffer must leave, said without the model: the image of the keys now in it, put together of its
fields; zeros from its end to the furthest end that an image had; and past that the bytes as they were lent."""
import calls
from calls import Row, filled, refuses, writes
from fields import RSA
from images import join
from images_several import CHECKINT, ring


def add(given, **others):
    """The call that adds a key: RSA has one of its own."""
    if given.algorithm == RSA:
        return calls.add_rsa(given.numbers, given.comment, **others)
    return calls.add(given.algorithm, given.public, given.private, given.comment, **others)


class Sequence:
    """A row of calls in the making: the keys now in the buffer, and each call with its reply and the buffer after it."""

    def __init__(self, title, keys, extra=0, checkint=CHECKINT):
        self.title, self.checkint, self.calls = title, checkint, []
        self.keys, self.image = keys, self.afresh(keys)
        self.start, self.n = self.image + filled(extra), len(self.image)
        self.furthest = self.n

    def afresh(self, keys):
        return join(ring(keys, checkint=self.checkint))

    def buffer(self):
        """All of the buffer as it must be now."""
        end = len(self.image)
        return self.image + bytes(self.furthest - end) + self.start[self.furthest :]

    def refused(self, call, number, at=0, count=0):
        self.calls.append(call._replace(reply=refuses(number, count, at), after=self.buffer()))

    def accepted(self, call, keys):
        self.keys, self.image = keys, self.afresh(keys)
        self.furthest = max(self.furthest, len(self.image))
        self.calls.append(call._replace(reply=writes(len(self.image)), after=self.buffer()))

    def change(self, k, comment):
        keys = [*self.keys[: k - 1], self.keys[k - 1]._replace(comment=comment), *self.keys[k:]]
        self.accepted(calls.change_of(k, comment), keys)

    def add(self, given):
        self.accepted(add(given), [*self.keys, given])

    def remove(self, k):
        self.accepted(calls.remove(k), [*self.keys[: k - 1], *self.keys[k:]])

    def row(self):
        return Row(self.title, self.start, self.calls, self.n)
