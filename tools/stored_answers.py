#!/usr/bin/env python3
"""The stored answers of the crate ssh-key, oracle/answers.txt: how they are read, and our half of them held against the model.

    python3 tools/stored_answers.py     exit 1 if the model says otherwise of an input than is stored as ours

The values of an accepted image aren't compared here but in oracle/replay, which holds them against the library.
"""
import pathlib
import sys
from typing import NamedTuple

import model
import model_edits
import model_writing
from fetch_corpus import CORPUS
from fields import LIMIT

FILE = pathlib.Path(__file__).resolve().parent.parent / "oracle" / "answers.txt"
COMMENT = "Ofen 12, Süd".encode()


class Stored(NamedTuple):
    name: str
    image: bytes
    ours: list  # the answer, and of an accepted image the sums: values, written again, comment changed, new
    theirs: list
    causes: str


def put(image, edit, base):
    """The image with one more edit, see oracle/README.md."""
    for sign, source in (("+", base), ("<", image)):
        if sign in edit:
            start, length = map(int, edit.split(sign))
            return image + source[start : start + length]
    if "*" in edit:
        byte, times = edit.split("*")
        return image + bytes.fromhex(byte) * int(times)
    return image + bytes.fromhex(edit)


def image_of(base, edits):
    image, base = b"", (CORPUS / f"{base}.bin").read_bytes()
    for edit in edits.split():
        image = put(image, edit, base)
    return image


def answers():
    for line in FILE.read_text(encoding="utf-8").splitlines():
        if not line.startswith("#"):
            name, base, edits, ours, theirs, causes = line.split("|")
            yield Stored(name, image_of(base, edits), ours.split(), theirs.split(), causes)


def sum_of(text):
    """FNV-1a, 64 bits."""
    total = 0xCBF29CE484222325
    for byte in text:
        total = (total ^ byte) * 0x100000001B3 % 2**64
    return f"{total:016x}"


def written(reply, buffer):
    return f"refused-{reply.number}" if reply.number else sum_of(buffer[: reply.length])


def by_model(image):
    """Our answer as it is stored, but for the values' sum."""
    answer = model.read(image)
    if answer.number:
        count = f"+{answer.count}" if answer.count else ""
        return [f"{answer.number}{count}@{answer.at}"]
    again = model_writing.rewrite(image, buffer=bytes(LIMIT))
    changed = model_edits.change(len(image), COMMENT, buffer=image.ljust(LIMIT, b"\0"))
    new = model_writing.anew(image, answer, COMMENT) if answer.kind == model.PLAIN else b""
    return ["read", written(*again), written(*changed), sum_of(new)]


def main():
    all_answers = list(answers())
    wrong = [answer.name for answer in all_answers if by_model(answer.image) != answer.ours[:1] + answer.ours[2:]]
    for name in wrong:
        print("DIFFERS from the model:", name)
    print(f"{len(all_answers)} stored answers of ours held against the model, {len(wrong)} differ")
    sys.exit(1 if wrong or not all_answers else 0)


if __name__ == "__main__":
    main()
