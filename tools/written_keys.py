#!/usr/bin/env python3
"""Has ssh-keygen read what the plain writer writes from real key material.

    python3 tools/written_keys.py [TIMES]

For each of the four kinds, and for RSA of two sizes, ssh-keygen makes TIMES new keys (3 if none is said) with each of some
comments. The program `afresh` reads each file and writes its key anew: the same material and comment, with the derived
checkint. Then `ssh-keygen -y` must find in the new file the public key and the comment of the old one, and the bytes must be
those of the independent model. Every new key must be written; those whose scalar is short are counted, and the corpus has some.
The stored corpus is written too; it has RSA keys of up to 8,192 bits.
It exits with 1 at the first difference. ssh-keygen and the built program are needed (`bash tools/build.sh afresh`).
"""
import base64
import pathlib
import shutil
import subprocess
import sys
import tempfile

import model
import model_writing
from against_ssh_keygen import armour
from fetch_corpus import COMMENTS, CORPUS, KINDS, RSA_KINDS, has_short_scalar, new_key
from fields import content

RUN = pathlib.Path(__file__).resolve().parent / "run_program.sh"


def afresh(image):
    """What the program writes of an image, or None where it refuses."""
    run = subprocess.run(["sh", RUN, "afresh"], input=image, capture_output=True, check=True)
    return run.stdout or None


def public_key(image):
    """The public blob and the comment that ssh-keygen finds in an image."""
    with tempfile.TemporaryDirectory() as folder:
        path = pathlib.Path(folder) / "key"
        path.touch(mode=0o600)
        path.write_bytes(armour(image))
        run = subprocess.run(["ssh-keygen", "-y", "-P", "", "-f", path], stdin=subprocess.DEVNULL, capture_output=True)
    if run.returncode != 0:
        return None
    words = run.stdout.rstrip(b"\n").split(b" ", 2)
    return base64.b64decode(words[1]), b" ".join(words[2:])


def by_model(image):
    """The model's image of the same material and comment, with the derived checkint."""
    answer = model.read(image)
    return model_writing.anew(image, answer, content(image, answer.comment))


def hold(title, image):
    """Whether the key was written; ends the script where anything differs."""
    written = afresh(image)
    if model.read(image).number != 0 or model.read(image).kind != model.PLAIN:
        if written is not None:
            sys.exit(f"{title}: written, though the reader refuses it or it is encrypted")
        return False
    if written != by_model(image):
        sys.exit(f"{title}: not the model's bytes")
    if public_key(written) is None or public_key(written) != public_key(image):
        sys.exit(f"{title}: ssh-keygen doesn't find the same public key and comment")
    return True


def main():
    if shutil.which("ssh-keygen") is None:
        sys.exit("ssh-keygen is missing")
    times = int(sys.argv[1]) if len(sys.argv) > 1 else 3
    for kind, words in KINDS + RSA_KINDS[:2]:
        images = [new_key(words, comment, ["-N", ""]) for _, comment in COMMENTS for _ in range(times)]
        if not all([hold(f"new {kind}", image) for image in images]):
            sys.exit(f"new {kind}: a key was not written")
        short = sum(map(has_short_scalar, images))
        print(f"{kind}: {len(images)} new keys written and read again, {short} with a short scalar")
    stored = sorted(CORPUS.glob("*.bin"))
    kept = sum(hold(path.name, path.read_bytes()) for path in stored)
    print(f"corpus: {len(stored)} files, {kept} written and read again")


if __name__ == "__main__":
    main()
