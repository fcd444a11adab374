#!/usr/bin/env python3
"""Edits in one buffer at random, by model_edits.py, against what edits_meant.py says without it: the image of the keys now in the buffer,
zeros up to the furthest end that an image had, and past that the bytes as they were lent. Refused edits are among them, and what a
step's reply must be is said from the keys alone.

    python3 tools/try_edits.py [STEPS [SEED]]

As if rule 4.5 took 16 keys. It prints how many steps got which reply, and exits with 1 at the first that is otherwise."""
import collections
import random
import sys

import model
import model_edits
import model_writing
from calls import EDITS, filled
from cases_edits import step
from edits_meant import Sequence
from images_several import CHECKINT, mixed, size_of

STEPS, SEED = 4000, 8
ROW = 80  # so many edits are made on one buffer


class Dice:
    """As damage.Dice, of which it has the one method that a step needs."""

    def __init__(self, seed):
        self.random = random.Random(seed)

    def below(self, bound):
        return self.random.randrange(bound)


def started(dice):
    """A buffer with an image of some keys, and room for some more."""
    keys = mixed(1 + dice.below(16), dice.below(70))
    row = Sequence("random", keys, 300 * dice.below(12) + dice.below(9))
    reply, after = model_writing.keys(keys, CHECKINT, buffer=filled(row.n))
    if (reply.length, after) != (size_of(keys), row.image):
        sys.exit(f"{len(keys)} keys are written otherwise than is meant")
    return row


def followed(row, dice, count):
    """So many steps on one buffer; answers how often each entry gave each reply number."""
    buffer, n, found = row.start, row.n, collections.Counter()
    for turn in range(count):
        step(row, dice)
        call = row.calls[-1]
        assert call.entry in EDITS
        reply, buffer = getattr(model_edits, call.entry)(n, *call.arguments[1:], buffer=buffer)
        if (reply, buffer) != (call.reply, call.after):
            sys.exit(f"step {turn}, {call.entry}: meant {call.reply}; the model says {reply}, or leaves other bytes")
        n = reply.length or n
        found[call.entry, reply.number] += 1
    return found


def main():
    given = [int(word) for word in sys.argv[1:3]]
    steps, seed = given + [STEPS, SEED][len(given) :]
    dice, found = Dice(seed), collections.Counter()
    for _ in range(steps // ROW):
        found += followed(started(dice), dice, ROW)
    for (entry, number), times in sorted(found.items()):
        print(f"{entry} {number}: {times}")
    print(f"edits: {sum(found.values())} steps as meant")


if __name__ == "__main__":
    main()
