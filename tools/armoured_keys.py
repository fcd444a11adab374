#!/usr/bin/env python3
"""Has the programs `dearmour` and `armour` take and give back what ssh-keygen writes.

    python3 tools/armoured_keys.py [KEYS]

Of each of the five kinds ssh-keygen makes KEYS new keys (2 if none is said) and writes each into 20 files: plain with eleven comments,
and encrypted with each of the nine ciphers. Of every file `dearmour` must give the bytes that Python's base64 finds in it, and
`armour` of these the file, to the byte. The first and the last file of each key are also given with other line ends, in lines of 64
columns, cut and changed: then the programs must answer as the independent model does.
It exits with 1 at the first difference. ssh-keygen and the two built programs are needed (`bash tools/build.sh armour dearmour`).
"""
import base64
import shutil
import subprocess
import sys

import model_armour
from fetch_corpus import COMMENTS, KINDS, RSA_KINDS, armour_off, one_key_in_files
from fields import CIPHERS, LIMIT
from written_keys import RUN

LENGTHS = [1, 2, 3, 6, 7, 70, 300, 1000]
ALL_COMMENTS = [*COMMENTS, *((f"comment of {length}", "c" * length) for length in LENGTHS)]
CIPHER_NAMES = [name.decode() for name, _, _ in CIPHERS[1:]]
PROGRAMS = {"armour": model_armour.export, "dearmour": model_armour.import_}
MOST = 100000  # bytes of room for any text


def by_program(name, given):
    """What a program writes, and what it says on standard error, where a loader may say something too."""
    done = subprocess.run(["sh", RUN, name], input=given, capture_output=True)
    lines = done.stderr.decode().splitlines(keepends=True)
    return done.stdout, "".join(line for line in lines if line.startswith(("refused ", f"{name}: ")))


def by_model(name, given):
    """The same by the model: the bytes, or a refusal in a line."""
    room = LIMIT if name == "dearmour" else MOST
    reply, after = PROGRAMS[name](given, buffer=bytes(room))
    if reply.number:
        return b"", f"refused {reply.number} {reply.count} {reply.at}\n"
    return after[: reply.length], ""


def differs(name, given):
    """In words, what the program answers otherwise than the model; empty where they agree. No byte of a key is shown."""
    (wrote, said), (wanted, meant) = by_program(name, given), by_model(name, given)
    if said != meant:
        return f"{name} says {said!r}, the model {meant!r}"
    return "" if wrote == wanted else f"{name} writes {len(wrote)} bytes that are not the model's {len(wanted)}"


def hold(title, fault):
    if fault:
        sys.exit(f"{title}: {fault}")


def hold_given_back(title, text):
    """A file is taken, and given back to the byte."""
    carried = armour_off(text)
    for name, given, wanted in (("dearmour", text, carried), ("armour", carried, text)):
        hold(title, differs(name, given))
        hold(title, "" if by_model(name, given) == (wanted, "") else f"it isn't what {name} must give")


def other_spellings(text):
    """Texts that carry the same bytes or nearly so, of which import takes the first two alone."""
    carried = base64.b64encode(armour_off(text))
    lines = [carried[at : at + 64] for at in range(0, len(carried), 64)]
    yield text.replace(b"\n", b"\r\n")
    yield text[:-1] + b"\r\n"
    yield b"\n".join([model_armour.BEGIN, *lines, model_armour.END, b""])
    yield from (text[:-1], text + b"\n", text.replace(b"\n", b"\n\n", 1), text[:100] + b" " + text[101:])


def hold_other_spellings(title, text):
    for turn, other in enumerate(other_spellings(text)):
        hold(f"{title}, otherwise spelled", differs("dearmour", other))
        taken = model_armour.accepted(other) == armour_off(text)
        hold(f"{title}, otherwise spelled", "" if taken == (turn < 2) else f"number {turn} isn't answered as it must be")


def hold_key(kind, texts):
    for title, text in texts.items():
        hold_given_back(f"{kind}, {title}", text)
    titles = list(texts)
    for title in (titles[0], titles[-1]):
        hold_other_spellings(f"{kind}, {title}", texts[title])
    return len(texts)


def main():
    if shutil.which("ssh-keygen") is None:
        sys.exit("ssh-keygen is missing")
    times = int(sys.argv[1]) if len(sys.argv) > 1 else 2
    total = 0
    for kind, words in [*KINDS, RSA_KINDS[1]]:
        files = sum(hold_key(kind, one_key_in_files(words, ALL_COMMENTS, CIPHER_NAMES)) for _ in range(times))
        print(f"{kind}: {files} files of ssh-keygen taken and given back to the byte")
        total += files
    print(f"{total} files in all")


if __name__ == "__main__":
    main()
