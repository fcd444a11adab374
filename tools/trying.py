"""What try_inspect.py, try_keys.py and try_armour.py have in common: they run the scripts at the root as a user would."""
import base64
import os
import pathlib
import pty
import shutil
import subprocess
import sys
import tempfile
import time
import tty

from images import CORPUS
from model_armour import BEGIN, END

ROOT = pathlib.Path(__file__).resolve().parent.parent
IMAGE = (CORPUS / "keygen-ed25519-ascii.bin").read_bytes()
# What the scripts run, beside rt and what rt itself needs.
COMMANDS = "env bash sh readlink dirname uname tr sed head base64 grep awk flock mkdir cmp cat python3".split()


def hold(what, got, wanted):
    if got != wanted:
        sys.exit(f"{what}: got\n{got}\nwanted\n{wanted}")
    print(f"ok: {what}")


def run(command, *arguments, given=b"", **others):
    """Status, standard output as bytes, and standard error."""
    done = subprocess.run([command, *arguments], input=given, capture_output=True, timeout=600, **others)
    return done.returncode, done.stdout, done.stderr.decode()


def program(name):
    """The words that run a built program."""
    return ["sh", str(ROOT / "tools" / "run_program.sh"), name]


def lines_of(image, columns=70):
    """A text's lines, without their ends."""
    signs = base64.b64encode(image)
    return [BEGIN, *(signs[i : i + columns] for i in range(0, len(signs), columns)), END]


def text_of(lines, end=b"\n"):
    return b"".join(line + end for line in lines)


def written(folder, name, content):
    path = pathlib.Path(folder) / name
    path.write_bytes(content)
    return str(path)


def failing_input(content):
    """A descriptor that gives these bytes and then fails: a terminal whose other end is closed."""
    ours, theirs = pty.openpty()
    tty.setraw(theirs)
    os.write(theirs, content)
    time.sleep(0.1)
    os.close(theirs)
    return ours


def with_script(folder, name, body):
    """A PATH on which this script stands before the command of that name."""
    path = pathlib.Path(tempfile.mkdtemp(dir=folder))
    (path / name).write_text(f"#!/bin/sh\n{body}\n")
    (path / name).chmod(0o755)
    return {**os.environ, "PATH": f"{path}:{os.environ['PATH']}"}


def checked_already(folder):
    """A PATH whose rt answers at once that it runs a crate's program: all is built, and the first calls have asked it."""
    answer = 'echo "rt: running out/${PWD##*/}; as it was built" >&2'
    return with_script(folder, "rt", f'[ "$1" != run ] || {{ {answer}; exit; }}\nexec {shutil.which("rt")} "$@"')["PATH"]


def without(folder, missing):
    """A PATH with what the scripts need, but for one command."""
    path = pathlib.Path(tempfile.mkdtemp(dir=folder))
    for tool in {"rt", *COMMANDS} - {missing}:
        (path / tool).symlink_to(shutil.which(tool))
    return {**os.environ, "PATH": str(path)}


def failing_reads():
    """Descriptors whose read fails, with when it does."""
    for when, descriptor in (("at once", os.open("/", os.O_RDONLY)), ("halfway", failing_input(IMAGE[:200]))):
        yield when, descriptor
        os.close(descriptor)
