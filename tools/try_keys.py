#!/usr/bin/env python3
"""Runs ./keys as a user and a script would, on files of 1 to 16 keys of all kinds, encrypted and refused ones, binary and in their armour,
and holds lines, statuses and sentences to what they must be. The lines of good files are those that their keys say by themselves, and the
model's; of the others the model's. What it shares with ./inspect, reads that fail and signals among it, try_inspect.py tries. The gate
runs it once all is built."""
import itertools
import os
import secrets
import tempfile

import cases_places
import model
from cases_several import COUNTS, equal_rings
from fields import ALGORITHMS, ED25519, LIMIT, RSA
from images import CORPUS, join, plain
from images_several import KINDS, key, mixed, ring
from model_armour import BEGIN
from rsa import bits_of
from trying import IMAGE, ROOT, checked_already, failing_reads, hold, lines_of, program, run, text_of, without, written

KEYS = ROOT / "keys"
SEALED = ("keygen-ed25519-aes128-ctr", "keygen-p521-aes128-gcm", "keygen-rsa3072-aes128-gcm")


def ask(*arguments, **others):
    """Status, standard output and standard error."""
    status, out, err = run(KEYS, *arguments, **others)
    return status, out.decode(), err


def line_meant(k, given):
    """What is to be printed of a key that was written as key k."""
    bits = f" bits {bits_of(given.numbers[0])}" if given.algorithm == RSA else ""
    return f"{k} {ALGORITHMS[given.algorithm].decode()}{bits} comment {len(given.comment)}\n"


def lines_meant(keys):
    return "".join(line_meant(k, given) for k, given in enumerate(keys, 1))


# ---- files of 1 to 16 keys


def rings():
    """Title, keys and image."""
    for count, shift in itertools.product(COUNTS, KINDS):
        keys = mixed(count, shift)
        yield f"{count} keys from kind {shift}", keys, join(ring(keys))
    for case in equal_rings():
        yield case.title, case.keys, join(case.fields)
    keys = [key(ED25519, "long", b"c" * 40_000), key(RSA, "short", b"")]
    yield "a long comment and none", keys, join(ring(keys))


def good_files(folder):
    """In one call, each after its name; by the model too."""
    files = list(rings())
    names = [written(folder, f"ring-{i}", image) for i, (_, _, image) in enumerate(files)]
    status, out, err = ask(*names)
    hold(f"{len(names)} files", (status, err), (0, ""))
    told = out.split("file ")[1:]
    hold("each after its name", [text.split("\n", 1)[0] for text in told], names)
    for text, (title, keys, image) in zip(told, files):
        hold(title, (text.split("\n", 1)[1], model.keys_report(image)), (lines_meant(keys),) * 2)


def one_by_one(folder):
    for count in (1, 3, 16):
        keys = mixed(count)
        image, wanted = join(ring(keys)), (0, lines_meant(keys), "")
        hold(f"{count} keys, a file", ask(written(folder, "one", image)), wanted)
        hold(f"{count} keys, standard input", ask("-", given=image), wanted)
        hold(f"{count} keys in their armour", ask(written(folder, "text", text_of(lines_of(image)))), wanted)
        hold(f"{count} keys in their armour, CR LF", ask(given=text_of(lines_of(image), b"\r\n")), wanted)
        hold(f"{count} keys in lines of 64", ask(given=text_of(lines_of(image, 64)))[:2], (1, "refused 2 0 0\n"))
        hold("the same with --any-armour", ask("--any-armour", given=text_of(lines_of(image, 64)))[:2], wanted[:2])
    begun = join(plain(ED25519, BEGIN + b"\n"))
    hold("a comment that is a BEGIN line", ask(given=begun)[:2], (0, f"1 ssh-ed25519 comment {len(BEGIN) + 1}\n"))


def sealed_files():
    for name in SEALED:
        image = (CORPUS / f"{name}.bin").read_bytes()
        status, out, err = ask(str(CORPUS / f"{name}.bin"))
        hold(name, (status, out, err), (0, model.keys_report(image), ""))
        hold(f"{name}: one line, that ends in `encrypted`", (out.count("\n"), out.endswith(" encrypted\n")), (1, True))


# ---- refused files


def refused_files(folder):
    """All conditions of the reader, a file each, and good ones among them; each refusal as ./inspect has it."""
    rows = list(cases_places.rows())
    images = [*(row.case.image for row in rows), IMAGE + b"xx", bytes(LIMIT + 1), b"", join(ring(mixed(17))), join(ring(mixed(16)))]
    names = [written(folder, f"refused-{i}", image) for i, image in enumerate(images)]
    status, out, err = ask(*names)
    hold("refused files", (status, out), (1, "".join(f"file {n}\n{model.keys_report(i)}" for n, i in zip(names, images))))
    hold("the same refusals as the report's", [model.keys_report(i) for i in images[:-1]], [model.report(i) for i in images[:-1]])
    sentences = [sum(s.startswith(f"keys: {name}: refused with ") for s in err.splitlines()) for name in names]
    hold("a sentence for each refusal", sentences, [1] * (len(names) - 1) + [0])
    where = "keys: docs/REFUSALS.md has the likely causes, and what to do."
    hold("where to read on, once and last", [err.splitlines()[-1], err.count(where)], [where, 1])
    hold("refused and missing", ask(names[0], os.path.join(folder, "missing"))[0], 2)


def advice():
    """What is said of a text of other columns names this script."""
    told = ask(given=text_of(lines_of(IMAGE, 64)))[2]
    hold("lines of 64 columns", "`./keys --any-armour` takes such a text" in " ".join(told.splitlines()), True)


# ---- no byte of the file


def no_byte():
    """Files that differ in every byte of their keys and comments, and in no kind or length, have the same lines."""
    marks = [secrets.token_hex(8).encode() for _ in range(16)]
    kinds = [k % len(KINDS) for k in range(16)]
    one = [key(kind, f"one {k}", mark) for k, (kind, mark) in enumerate(zip(kinds, marks))]
    other = [key(kind, f"other {k}", b"x" * 16) for k, kind in enumerate(kinds)]
    told = [ask(given=join(ring(keys))) for keys in (one, other)]
    hold("two files that are alike", told[0], told[1])
    hold("no comment is printed", [mark.decode() in told[0][1] + told[0][2] for mark in marks], [False] * 16)
    wrong = join(ring(one, blobs=[*one[:-1], other[-1]]))
    status, out, err = ask(given=wrong)
    shown = [mark.decode() in out + err for mark in marks]
    hold("of a refused one neither", (status, out, shown), (1, model.keys_report(wrong), [False] * 16))


# ---- the script itself


def usage(folder):
    status, out, _ = ask("--help")
    hold("--help", (status, out.startswith("usage: ./keys ")), (0, True))
    for what, argument in (("an unknown option", "-x"), ("a folder", folder)):
        status, out, err = ask(argument)
        hold(what, (status, out, argument in err), (2, "", True))
    hold("awk isn't there", ask(given=IMAGE, env=without(folder, "awk"))[:2], (2, ""))


def read_errors():
    for what, command in (("the program", program("keys")), ("./keys", [KEYS])):
        for when, descriptor in failing_reads():
            status, out, err = run(*command, given=None, stdin=descriptor)
            hold(f"a read that fails {when}: {what}", (out, "standard input" in err), (b"", True))
            if command == [KEYS]:
                hold("and its status", status, 2)


def main():
    hold("an empty input", ask()[:2], (1, "refused 1 0 0\n"))
    with tempfile.TemporaryDirectory() as folder:
        os.environ["PATH"] = checked_already(folder)
        good_files(folder)
        one_by_one(folder)
        sealed_files()
        refused_files(folder)
        advice()
        no_byte()
        usage(folder)
        read_errors()


if __name__ == "__main__":
    main()
