"""Calls of export and of import: how they are stored for crates/replay_armour, and what it must print of each.

In the file every number is 4 bytes, big-endian. Two buffers go from call to call, the given bytes and the lent ones; at first they are
zeros. A call is its code, 1 for export and 2 for import, and then for each of the two buffers: how many of its bytes the call gets, a
place, how many bytes are new there, and these. So a text that differs from the last one in a single byte takes 29 bytes.

The lent bytes are stale ones anew before each call, all of them or, of a long buffer, the first FRESH: whatever a call writes shows.
The line that is printed of a call is that of calls.py.
"""
from typing import NamedTuple

import calls
import model_armour
from model_writing import Reply

CODES = {"export": 1, "import": 2}
ENTRIES = {"export": model_armour.export, "import": model_armour.import_}
MOST = 90000  # bytes of each buffer: a text of 65,535 bytes has 88,699, and 89,950 with carriage returns
FRESH = 400


class Case(NamedTuple):
    """A call; where it is said, the reply that is meant and the bytes that the lent buffer must begin with."""

    title: str
    entry: str
    given: bytes
    room: int
    reply: Reply = None
    begins: bytes = b""


def new_bytes(before, wanted):
    """A place and what must be put there, so that the bytes before are the wanted ones."""
    differing = [at for at, (old, new) in enumerate(zip(before, wanted)) if old != new] or [0]
    return differing[0], wanted[differing[0] : differing[-1] + 1]


class Buffer:
    """One of the two buffers, as the program has it."""

    def __init__(self):
        self.bytes = bytes(MOST)

    def renewed(self, wanted, length):
        """The bytes from its start become the wanted ones; how that is stored, for a call that gets `length`."""
        assert length <= MOST
        place, new = new_bytes(self.bytes, wanted)
        self.put(wanted)
        return calls.numbers(length, place, len(new)) + new

    def put(self, start):
        self.bytes = start + self.bytes[len(start) :]


def answered(cases):
    """Each case with how it is stored, its reply, and the lent buffer before and after it."""
    given, lent = Buffer(), Buffer()
    for case in cases:
        stored = calls.numbers(CODES[case.entry]) + given.renewed(case.given, len(case.given))
        stored += lent.renewed(calls.filled(min(case.room, FRESH)), case.room)
        before = lent.bytes[: case.room]
        reply, after = ENTRIES[case.entry](case.given, buffer=before)
        lent.put(after)
        yield case, stored, reply, before, after
