#!/usr/bin/env python3
"""Tries the cures of docs/REFUSALS.md. Each command that the document has for a cause is taken out of its text and run as a technician
would run it, on copies of the files of cases_cures.py: the model must refuse such a file as its row says, and after the cure accept it,
in the form and with the same public key. What ssh-keygen doesn't mend is tried too. No byte of a file is printed. The gate runs it.

    python3 tools/try_cures.py

Without ssh-keygen it says so and succeeds, and so of a command whose program isn't built.
"""
import functools
import os
import pathlib
import re
import shutil
import subprocess
import sys
import tempfile

import cases_places
import model
import model_armour
import model_edits
from cases_cures import IMAGE, WRONG, blob_in, trials, unmended
from check_places import REFUSALS, rows_of
from differences import has_openssh
from fields import LIMIT
from trying import ROOT, checked_already

DOCUMENT = (ROOT / REFUSALS).read_text(encoding="utf-8")
COMMENT = "-C 'oven 7'"


def hold(what, right):
    if not right:
        sys.exit(f"try_cures.py: {what}")


# ---- what the model says of a file


def image_of(given):
    """A file's image, None where it is a misspelled text."""
    return model_armour.accepted(given) if given.startswith(b"-----BEGIN") else given


def reply_to(given, row):
    """The reply to a file: the reader's or import's, or for W30 and W31 the comment change's."""
    image = image_of(given)
    if image is None:
        return 2, 0, 0
    changing = row in ("W30", "W31")
    reply = model_edits.change(len(image), b"oven 7", buffer=image.ljust(LIMIT))[0] if changing else model.read(image)
    return reply.number, reply.count, reply.at


@functools.cache
def replies():
    """The reply that each row of the document speaks of."""
    said = {row[0]: re.fullmatch(r"(\d+) at 0", row[2]) for row in rows_of(DOCUMENT, "W")}
    told = {name: (int(found[1]), 0, 0) for name, found in said.items() if found}
    return {**told, **{row.id: row.case.reply for row in cases_places.rows()}}


def accepted(given, blob):
    """Whether a file is accepted, in the form, and has this public key."""
    image = image_of(given)
    return image is not None and model.form(image) and blob_in(image) == blob


# ---- the document's commands


def blocks(text):
    """The commands that stand apart in a text, several lines of one together."""
    return [found.replace("\n    ", "\n").strip() for found in re.findall(r"(?:^ {4}\S.*\n)+", text, re.M)]


def commands():
    """Those of the causes by their headings, and those before the first cause."""
    first, *parts = DOCUMENT.partition("\n## The causes\n")[2].partition("\n## ")[0].split("\n### ")
    return blocks(first), {part.split("\n")[0]: blocks(part) for part in parts}


(PREPARE, TO_TEXT, FINGERPRINT, TO_IMAGE, REMOVE), CURES = commands()


def tries_all(tried):
    """Every command of the document is tried, and every row of the reader that has a cause with a command."""
    ours = {(trial.cause, trial.turn) for trial in tried} | {("a new key", 0)}
    theirs = {(cause, turn) for cause, found in CURES.items() for turn in range(len(found))}
    hold(f"these commands aren't tried, or aren't in {REFUSALS}: {ours ^ theirs}", ours == theirs)
    for row in rows_of(DOCUMENT, "P"):
        causes = {cause for cause in row[-1].split(", ") if CURES[cause]}
        hold(f"no cure of {row[0]} is tried", not causes or any(trial.row == row[0] and trial.cause in causes for trial in tried))


def run(folder, given, cure, passphrase="", place=0, binary=False):
    """Status, the folder of the copy, and the two fingerprints, before the cure and after it. The scripts at the root don't ask rt again."""
    file, ask = pathlib.Path(folder) / "sent in", pathlib.Path(folder) / "ask"
    file.write_bytes(given)
    ask.write_text('#!/bin/sh\necho "$PASSPHRASE"\n')
    ask.chmod(0o700)
    asking = dict(SSH_ASKPASS=str(ask), SSH_ASKPASS_REQUIRE="force", DISPLAY="none", PASSPHRASE=passphrase)
    commands_folder = pathlib.Path(folder) / "commands"
    commands_folder.mkdir()
    env = {**os.environ, **asking, "PATH": checked_already(commands_folder), "TMPDIR": folder, "file": str(file), "P": str(place)}
    looks = [f"{FINGERPRINT} >../{name} || true" for name in ("before", "after")]
    first, last = ([TO_TEXT], [TO_IMAGE]) if binary else ([], [])
    script = "\n".join(["set -e", PREPARE, *first, looks[0], cure, looks[1], *last])
    done = subprocess.run(["sh", "-c", script], cwd=ROOT, env=env, capture_output=True, stdin=subprocess.DEVNULL, start_new_session=True)
    desk = next(path for path in pathlib.Path(folder).glob("tmp.*") if path.is_dir())
    return done.returncode, desk, [path.read_bytes().split() for path in (desk.parent / "before", desk.parent / "after") if path.exists()]


# ---- trying


def mended(trial, key, cure):
    """Whether what the row is about is over: there is the new comment, or no refusal any more."""
    if COMMENT in cure:
        words = ["ssh-keygen", "-y", "-P", trial.passphrase, "-f", key]
        done = subprocess.run(words, capture_output=True, stdin=subprocess.DEVNULL)
        return f"-C '{done.stdout.decode().strip().split(' ', 2)[-1]}'" == COMMENT
    return reply_to(key.read_bytes(), trial.row) == (0, 0, 0)


def mends(trial):
    what = f"{trial.cause}, {trial.row}, {trial.title}"
    reply = reply_to(trial.given, trial.row)
    hold(f"{what}: the row has another reply than {reply}", reply == (trial.reply or replies()[trial.row]))
    hold(f"{what}: the row has another number", reply[0] == replies()[trial.row][0])
    cure = "\n".join([CURES[trial.cause][trial.turn], *(CURES[trial.then][:1] if trial.then else [])])
    with tempfile.TemporaryDirectory() as folder:
        status, desk, seen = run(folder, trial.given, cure, trial.passphrase, reply[2], trial.binary)
        hold(f"{what}: the cure failed", status == 0)
        key = desk / "key"
        hold(f"{what}: the cure doesn't mend it", accepted(key.read_bytes(), trial.blob) and mended(trial, key, cure))
        hold(f"{what}: the mended file has mode {key.stat().st_mode:o}", key.stat().st_mode & 0o77 == 0)
        hold(f"{what}: another fingerprint", not seen[0] or seen[0][1] == seen[1][1])
        hold(f"{what}: no image is handed back", not trial.binary or (desk / "image").read_bytes() == image_of(key.read_bytes()))
    print(f"ok: {what}")


def spares(cause, cure):
    """No file that the cure isn't for is emptied, or changed where the cure fails."""
    for title, given in WRONG.items():
        with tempfile.TemporaryDirectory() as folder:
            status, desk, _ = run(folder, given, cure, place=100)
            left = (desk / "key").read_bytes()
            hold(f"{cause}: its cure changes {title}, and fails", status == 0 or left == given)
            hold(f"{cause}: its cure empties {title}", left or not given)


def leaves(title, given, reads, word):
    with tempfile.TemporaryDirectory() as folder:
        status, desk, seen = run(folder, given, CURES["lax"][0])
        image = image_of((desk / "key").read_bytes())
        hold(f"{title}: `ssh-keygen -p` mends it", image is None or not model.form(image))
        hold(f"{title}: `ssh-keygen -p` has status {status}", (status == 0) == reads)
        hold(f"{title}: `ssh-keygen -l` shows something else", word is None or word in seen[0])
    print(f"ok: not mended by ssh-keygen -p, which {'reads' if reads else 'refuses'} it: {title}")


def begins_and_ends():
    """A new key, and the copy removed."""
    with tempfile.TemporaryDirectory() as folder:
        _, desk, _ = run(folder, IMAGE, CURES["a new key"][0])
        new = image_of((desk / "new").read_bytes())
        hold("a new key: it isn't in the form", new is not None and model.form(new))
    with tempfile.TemporaryDirectory() as folder:
        script = "\n".join([PREPARE, REMOVE])
        env = {**os.environ, "TMPDIR": folder, "file": str(ROOT / "tools" / "corpus" / "keygen-ed25519-ascii.bin")}
        done = subprocess.run(["sh", "-ec", script], cwd=ROOT, env=env, capture_output=True)
        hold("the copy isn't removed", (done.returncode, os.listdir(folder)) == (0, []))
    print("ok: a new key; the copy made and removed")


def built(trial):
    """Whether the programs that a command runs are built."""
    command = CURES[trial.cause][trial.turn] + (TO_TEXT + TO_IMAGE if trial.binary else "")
    programs = set(re.findall(r"saltorchard/(?:tools/run_program\.sh\" )?(\w+)", command)) - {"tools"}
    missing = sorted(name for name in programs if not (ROOT / "target" / "bin" / name).exists())
    if missing:
        print(f"not tried, since {', '.join(missing)} isn't built: {trial.cause}, {trial.row}, {trial.title}")
    return not missing


def main():
    if shutil.which("ssh-keygen") is None:
        print("skipped: no ssh-keygen here")
        return
    with tempfile.TemporaryDirectory() as folder:
        tried = trials(folder)
    tries_all(tried)
    ours = list(filter(built, tried))
    for trial in ours:
        mends(trial)
    for cause, turn in sorted({(trial.cause, trial.turn) for trial in ours}):
        spares(cause, CURES[cause][turn])
    print("ok: no cure empties a file that it isn't for")
    begins_and_ends()
    if not has_openssh():
        print("another OpenSSH than the document's: what it doesn't mend was not tried")
        return
    for case in unmended():
        leaves(*case)


if __name__ == "__main__":
    main()
