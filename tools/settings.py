"""Calls over reconnect settings: how they are stored for crates/replay_settings, and what it must print of each.

In the file every number is 4 bytes, big-endian. A call is eight numbers and the lent bytes. The numbers are the code, the version,
the kind, the upper and the lower half of the milliseconds and of the device, and how many bytes are lent; what an entry doesn't take
is 0.

The line that is printed of a call is that of calls.py. Of a read and of a get its four numbers are the refusal's, whether there is a
setting, its kind and its milliseconds.
"""
from typing import NamedTuple

import calls
import model_settings

ENTRIES = {  # the code, the model's function, and what that takes beside the lent bytes
    "read_setting": (1, model_settings.read, []),
    "write_setting": (2, model_settings.write, ["version", "kind", "milliseconds"]),
    "store_get": (3, model_settings.get, ["device"]),
    "store_put": (4, model_settings.put, ["device", "version", "kind", "milliseconds"]),
    "store_move": (5, model_settings.move, []),
}
MOST = 256  # bytes that are lent: the program takes no more


class Case(NamedTuple):
    """A call, the reply that is meant, and the lent bytes that it must leave; None where they stay as they are."""

    title: str
    entry: str
    lent: bytes
    reply: tuple
    after: bytes = None
    device: int = 0
    version: int = 0
    kind: int = 0
    milliseconds: int = 0


def stored(case):
    assert len(case.lent) <= MOST
    wide = (*divmod(case.milliseconds, 2**32), *divmod(case.device, 2**32))
    return calls.numbers(ENTRIES[case.entry][0], case.version, case.kind, *wide, len(case.lent)) + case.lent


def answer(case):
    """The model's reply, and the lent bytes after the call."""
    _, entry, taken = ENTRIES[case.entry]
    return entry(*(getattr(case, name) for name in taken), buffer=case.lent)
