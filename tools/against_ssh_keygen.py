#!/usr/bin/env python3
"""Holds model.py against ssh-keygen, where there is one: each must read what the other writes.

    python3 tools/against_ssh_keygen.py

Nothing is stored. Without ssh-keygen it says so and succeeds.
"""
import base64
import hashlib
import pathlib
import shutil
import subprocess
import sys
import tempfile

import model
from fetch_corpus import BEGIN, COMMENTS, CORPUS, END, KINDS, PASSPHRASE, RSA_KINDS, new_key
from fields import content

PASSPHRASES = {"keygen": PASSPHRASE, "openssh": "mekmitasdigoat", "cryptography": "password"}


def armour(image):
    text = base64.b64encode(image)
    lines = [text[at : at + 70] for at in range(0, len(text), 70)]
    return b"\n".join([BEGIN, *lines, END, b""])


def word_in_text(text, options):
    """The second word that ssh-keygen prints of an armoured text, None where it refuses it."""
    with tempfile.TemporaryDirectory() as folder:
        path = pathlib.Path(folder) / "key"
        path.touch(mode=0o600)
        path.write_bytes(text)
        words = ["ssh-keygen", *options, "-f", path]
        run = subprocess.run(words, stdin=subprocess.DEVNULL, capture_output=True)
    return run.stdout.split()[1] if run.returncode == 0 else None


def word_by_ssh_keygen(image, options):
    return word_in_text(armour(image), options)


def blob_by_ssh_keygen(image, passphrase=""):
    """The public blob that ssh-keygen finds in an image, which it decrypts with the passphrase."""
    word = word_by_ssh_keygen(image, ["-y", "-P", passphrase])
    return None if word is None else base64.b64decode(word)


def fingerprint(blob):
    return b"SHA256:" + base64.b64encode(hashlib.sha256(blob).digest()).rstrip(b"=")


def hold(title, good):
    if not good:
        sys.exit(f"differs: {title}")


def written_again(image, comment):
    """The image's key, written by the model with another comment and checkint."""
    return model.write_key(image, model.read(image), 0xFEDCBA98, comment.encode())


def hold_corpus():
    """Every stored file that the model accepts: ssh-keygen finds the same blob, and reads what the model writes."""
    for path in sorted(CORPUS.glob("*.bin")):
        image = path.read_bytes()
        answer = model.read(image)
        if answer.number == 0:
            blob = content(image, answer.blob)
            passphrase = PASSPHRASES[path.name.split("-")[0]] if answer.kind == model.ENCRYPTED else ""
            hold(path.name, blob_by_ssh_keygen(image, passphrase) == blob)
            if answer.kind == model.PLAIN:
                for _, comment in COMMENTS:
                    hold(f"{path.name} written", blob_by_ssh_keygen(written_again(image, comment)) == blob)


def with_sections(image, at):
    """The image whole, and with its section, which begins at that place, missing, short, damaged and too long."""
    yield from (image, image[:at], image[: at + 1], image[: (at + len(image)) // 2])
    yield from (image[:at] + bytes(len(image) - at), image + b"xx")


def hold_headers():
    """ssh-keygen -l goes by the header alone: every accepted header, whatever its section, gives the same public key."""
    for path in sorted(CORPUS.glob("*.bin")):
        image = path.read_bytes()
        half = model.read_header(image)
        if half.number == 0:
            for other in with_sections(image, half.section):
                hold(f"{path.name} by its header", model.read_header(other) == half)
                hold(f"{path.name} by -l", word_by_ssh_keygen(other, ["-l"]) == fingerprint(content(image, half.blob)))


def hold_new_keys(times):
    """New keys of ssh-keygen: accepted and in the form. Larger RSA keys take it long; the corpus has some."""
    for kind, words in KINDS * times:
        hold(f"new {kind}", model.form(new_key(words, "oven-7", ["-N", ""])))
    for kind, words in RSA_KINDS[:2] * times:
        image = new_key(words, "oven-7", ["-N", ""])
        hold(f"new {kind}", model.form(image) and f"bits {words[-1]}\n" in model.report(image))


def main():
    if shutil.which("ssh-keygen") is None:
        print("skipped: no ssh-keygen here")
        return
    hold_corpus()
    hold_headers()
    hold_new_keys(5)
    print("the model and ssh-keygen agree")


if __name__ == "__main__":
    main()
