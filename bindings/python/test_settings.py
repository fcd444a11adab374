#!/usr/bin/env python3
"""Holds the reconnect settings of saltorchard.py to the independent model in tools/: records, stores, moves, and what is handed in that no
setting has."""
import random
import unittest

from trial import answer, need_library as setUpModule  # noqa: F401

import model_settings
import saltorchard
from fields import ALGORITHMS
from model_settings import DELAYS

NAMES = [name.decode() for name in ALGORITHMS]
BORDERS = sorted({abs(middle + by) for middle in (0, 1000, DELAYS, DELAYS * 1000, 2**32, 2**32 * 1000, 2**64, 2**65)
                  for by in (-1000, -999, -1, 0, 1, 1000)})
LENGTHS = [*range(10), 127, 128, 129, 256]
NO_DEVICES = [-1, -2**70, 32, 33, 255, 256, 2**32, 2**64, 2**64 + 7, 2**100]


def refused(number):
    return number, 0, 0


def record(version, kind, delay):
    return ((version * 16 + kind) * DELAYS + delay).to_bytes(4, "big")


# ---- the model's answers as the module gives them


def code_of(kind):
    """A kind that there isn't, where the name is no algorithm's."""
    return NAMES.index(kind) if kind in NAMES else len(NAMES)


def device_of(device):
    """The model takes what C takes, and a number below 0 is no device to the module."""
    return device if device >= 0 else model_settings.DEVICES


def found(reply):
    if reply.number != 0:
        return refused(reply.number)
    return (NAMES[reply.kind], reply.milliseconds) if reply.used else None


def left(reply, after):
    return after if reply.number == 0 else refused(reply.number)


def read(given):
    return found(model_settings.read(buffer=given)[0])


def written(version, kind, milliseconds):
    return left(*model_settings.write(version, code_of(kind), milliseconds, buffer=bytes(4)))


def got(store, device):
    return found(model_settings.get(device_of(device), buffer=store)[0])


def put(store, device, version, kind, milliseconds):
    return left(*model_settings.put(device_of(device), version, code_of(kind), milliseconds, buffer=store))


def moved(store):
    return left(*model_settings.move(buffer=store))


def good(chance):
    """A place that can be moved, or an unused one."""
    places = [bytes(4), record(1, chance.randrange(5), chance.randrange(16_778)), record(2, chance.randrange(5), chance.randrange(DELAYS))]
    return chance.choice(places)


def store(chance):
    """Good places, and often one or two that aren't."""
    places = [good(chance) for _ in range(32)]
    for _ in range(chance.randrange(3)):
        any_bytes, long = chance.getrandbits(32).to_bytes(4, "big"), record(1, chance.randrange(5), chance.randrange(16_778, DELAYS))
        places[chance.randrange(32)] = chance.choice([any_bytes, long])
    return b"".join(places)


class Records(unittest.TestCase):
    def test_reads(self):
        for top in range(2**16):
            given = (top * 2**16 + top % 3).to_bytes(4, "big")
            self.assertEqual(answer(saltorchard.read_setting, given), read(given))
        for length in LENGTHS:
            self.assertEqual(answer(saltorchard.read_setting, b"\x24" * length), read(b"\x24" * length))

    def test_writes(self):
        for version in [*range(-2, 20), 254, 255, 256, 257, 258, 513, 2**32 + 1, 2**64 + 2]:
            for kind in [*NAMES, "ssh-dss", ""]:
                for milliseconds in BORDERS:
                    said = answer(saltorchard.write_setting, version, kind, milliseconds)
                    self.assertEqual(said, written(version, kind, milliseconds), (version, kind, milliseconds))


class Stores(unittest.TestCase):
    def test_at_random(self):
        chance, numbers = random.Random("settings"), set()
        for _ in range(3_000):
            given, device = store(chance), chance.choice([*range(32), *NO_DEVICES])
            setting = chance.choice([0, 1, 2, 2, 1, 3]), chance.choice([*NAMES, "none"]), chance.choice(BORDERS)
            for function, right, arguments in ((saltorchard.store_get, got, [device]), (saltorchard.store_put, put, [device, *setting]),
                                               (saltorchard.store_move, moved, [])):
                said = answer(function, given, *arguments)
                self.assertEqual(said, right(given, *arguments), (function.__name__, given, arguments))
                numbers.add(said[0] if isinstance(said, tuple) else 0)
        self.assertLessEqual({0, 1, 4, 11}, numbers)

    def test_lengths(self):
        for length in LENGTHS:
            given = bytes(length)
            for device in (0, 31, 32):
                self.assertEqual(answer(saltorchard.store_get, given, device), got(given, device))
                for setting in ((2, "ssh-rsa", 5), (3, "ssh-rsa", 5), (1, "none", 5), (1, "ssh-rsa", 5)):
                    self.assertEqual(answer(saltorchard.store_put, given, device, *setting), put(given, device, *setting))
            self.assertEqual(answer(saltorchard.store_move, given), moved(given))

    def test_one_bad_place(self):
        for device in range(32):
            for bad, number in ((record(3, 0, 0), 4), (record(1, 5, 0), 4), (record(0, 0, 1), 4), (record(1, 4, 16_778), 11)):
                given = put(bytes(128), 31 - device, 1, "ssh-ed25519", 5000)
                given = given[: 4 * device] + bad + given[4 * device + 4 :]
                self.assertEqual(answer(saltorchard.store_move, given), refused(number))

    def test_one_place(self):
        for device in range(32):
            for one in (record(0, 0, 1), record(0, 1, 0), record(2, 0, 0), record(2, 4, DELAYS - 1), record(1, 4, 16_777)):
                given = bytes(4 * device) + one + bytes(124 - 4 * device)
                self.assertEqual(answer(saltorchard.store_get, given, device), got(given, device))
                self.assertEqual(answer(saltorchard.store_move, given), moved(given))


class HandedIn(unittest.TestCase):
    def test_bytes_like(self):
        given = bytearray(put(bytes(128), 7, 1, "ssh-rsa", 90_000))
        before = bytes(given)
        for like in (given, memoryview(given), before):
            self.assertEqual(saltorchard.store_get(like, 7), saltorchard.Setting("ssh-rsa", 90_000))
            self.assertEqual(saltorchard.store_move(like), moved(before))
            self.assertEqual(saltorchard.store_put(like, 7, 2, "ssh-rsa", 5), put(before, 7, 2, "ssh-rsa", 5))
        self.assertEqual(given, before, "what is handed in stays as it is")
        self.assertEqual(saltorchard.read_setting(memoryview(given)[28:32]).milliseconds, 90_000)

    def test_others(self):
        for given in (None, 7, "text", [1, 2], object()):
            for function in (saltorchard.read_setting, saltorchard.store_move, lambda given: saltorchard.store_get(given, 0),
                             lambda given: saltorchard.store_put(given, 0, 2, "ssh-rsa", 5)):
                self.assertRaises(TypeError, function, given)
        for given in (None, 7.0, "7", b"7"):
            self.assertRaises(TypeError, saltorchard.store_get, bytes(128), given)
            self.assertRaises(TypeError, saltorchard.write_setting, given, "ssh-rsa", 5)
            self.assertRaises(TypeError, saltorchard.write_setting, 2, "ssh-rsa", given)
            self.assertRaises(TypeError, saltorchard.store_put, bytes(128), given, 2, "ssh-rsa", 5)
        for function in (saltorchard.write_setting, lambda *setting: saltorchard.store_put(bytes(128), 0, *setting)):
            self.assertRaises(ValueError, function, 2, "ssh-rsa", -1)
            self.assertEqual(answer(function, 2, None, 5), refused(4))

    def test_shown(self):
        self.assertEqual(repr(saltorchard.read_setting(b"\x20\0\0\5")), "Setting(kind='ssh-ed25519', milliseconds=5)")
        with self.assertRaisesRegex(saltorchard.Refusal, "Refused with 11, .* a setting's delay can't be written in its version"):
            saltorchard.write_setting(1, "ssh-rsa", 1)


if __name__ == "__main__":
    unittest.main()
