"""The rules of docs/RULES.md, 18, once more, in plain Python: a second opinion on reconnect settings.

Like model.py, this was written from the document and from no other code of this project. A record is taken as one number, and its
bits by division and remainder. Each entry is handed the lent bytes and answers its reply and these bytes as they must be afterwards.

    read(buffer=..)                                       one record
    write(version, kind, milliseconds, buffer=..)
    get(device, buffer=..)                                a store
    put(device, version, kind, milliseconds, buffer=..)
    move(buffer=..)                                       to version 2
"""
from typing import NamedTuple

from fields import ALGORITHMS, Refused
from model_writing import replying

RECORD, DEVICES = 4, 32
STORE = RECORD * DEVICES
DELAYS = 2**24
UNITS = {1: 1000, 2: 1}  # by the version, how many milliseconds one of the delay is
MOVED = 2  # the version that a move leaves


class Found(NamedTuple):
    """The refusal's number; or whether there is a setting, its kind and its milliseconds."""

    number: int = 0
    used: int = 0
    kind: int = 0
    milliseconds: int = 0


def finding(entry):
    """An entry that answers a setting: its refusals are raised, and the lent bytes stay."""

    def finds(*arguments, buffer):
        try:
            return entry(*arguments, buffer=buffer), buffer
        except Refused as refused:
            return Found(refused.number), buffer

    return finds


# ---- one record


def hold_length(buffer, length):
    if len(buffer) != length:
        raise Refused(1, 0)


def hold_known(version, kind):
    if version not in UNITS:
        raise Refused(4, 0)
    if kind not in range(len(ALGORITHMS)):
        raise Refused(4, 0)


def setting_of(record):
    """The kind and the milliseconds."""
    number = 0
    for byte in record:
        number = number * 256 + byte
    version, kind, delay = number // 2**28, number // 2**24 % 2**4, number % 2**24
    hold_known(version, kind)
    return kind, delay * UNITS[version]


def record_of(version, kind, milliseconds):
    hold_known(version, kind)
    delay, rest = divmod(milliseconds, UNITS[version])
    if rest != 0 or delay >= DELAYS:
        raise Refused(11, 0)
    number = version * 2**28 + kind * 2**24 + delay
    return bytes(number // 256**place % 256 for place in (3, 2, 1, 0))


@finding
def read(buffer):
    hold_length(buffer, RECORD)
    return Found(0, 1, *setting_of(buffer))


@replying
def write(version, kind, milliseconds, buffer):
    hold_length(buffer, RECORD)
    return RECORD, record_of(version, kind, milliseconds)


# ---- a store


def hold_device(device, buffer):
    if device >= DEVICES:
        raise Refused(1, 0)
    hold_length(buffer, STORE)


def is_used(record):
    return any(record)


@finding
def get(device, buffer):
    hold_device(device, buffer)
    record = buffer[RECORD * device : RECORD * device + RECORD]
    return Found(0, 1, *setting_of(record)) if is_used(record) else Found()


@replying
def put(device, version, kind, milliseconds, buffer):
    hold_device(device, buffer)
    record = record_of(version, kind, milliseconds)
    return STORE, buffer[: RECORD * device] + record + buffer[RECORD * device + RECORD :]


@replying
def move(buffer):
    hold_length(buffer, STORE)
    records = [buffer[at : at + RECORD] for at in range(0, STORE, RECORD)]
    settings = [setting_of(record) if is_used(record) else None for record in records]
    # Only now is any delay looked at: 4 is over all places before 11 is.
    moved = [bytes(RECORD) if setting is None else record_of(MOVED, *setting) for setting in settings]
    return STORE, b"".join(moved)
