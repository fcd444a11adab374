#!/usr/bin/env python3
"""Fetches the real key files of tools/corpus anew and takes their armour off.

    python3 tools/fetch_corpus.py             the files of the Debian packages; they come out the same each time
    python3 tools/fetch_corpus.py --keygen    also new keys of ssh-keygen, which are other ones each time

The first needs apt-get and dpkg-deb, the second ssh-keygen. Afterwards run make_vectors.py.
tools/corpus/SOURCES.md names sources and licences. All are throw-away test keys.
"""
import base64
import itertools
import pathlib
import shutil
import subprocess
import sys
import tempfile

import model
from fields import CIPHERS, SIZES, Reader, content
from model_armour import BEGIN, END

CORPUS = pathlib.Path(__file__).resolve().parent / "corpus"

# Package, folder within it, and what the stored name begins with. Every armoured file there is taken.
PACKAGES = [
    ("openssh-tests", "usr/lib/openssh/regress", "openssh-regress-"),
    ("openssh-tests", "usr/lib/openssh/regress/unittests/sshkey/testdata", "openssh-sshkey-"),
    ("openssh-tests", "usr/lib/openssh/regress/unittests/sshsig/testdata", "openssh-sshsig-"),
    ("openssh-tests", "usr/lib/openssh/regress/misc/fuzz-harness/testdata", "openssh-fuzz-"),
    ("python3-cryptography-vectors", "usr/lib/python3/dist-packages/cryptography_vectors/asymmetric/OpenSSH",
     "cryptography-"),
]

KINDS = [("ed25519", ["-t", "ed25519"]), ("p256", ["-t", "ecdsa", "-b", "256"]),
         ("p384", ["-t", "ecdsa", "-b", "384"]), ("p521", ["-t", "ecdsa", "-b", "521"])]
RSA_SIZES = [1024, 2048, 3072, 4096, 8192]
RSA_KINDS = [(f"rsa{bits}", ["-t", "rsa", "-b", str(bits)]) for bits in RSA_SIZES]
COMMENTS = [("empty", ""), ("ascii", "oven-7 line 3"), ("utf8", "Bäckerei Süd, Ofen 7 – 炉 🥖")]
PASSPHRASE = "throw-away"


def armour_off(text):
    """The image in an armoured text."""
    body = text.split(BEGIN, 1)[1].split(END, 1)[0]
    return base64.b64decode(b"".join(body.split()), validate=True)


def store(name, image):
    path = CORPUS / (name + ".bin")
    if not path.exists():
        print("new      ", path.name)
    elif path.read_bytes() != image:
        print("different", path.name)
    else:
        print("same     ", path.name)
    path.write_bytes(image)


def unpack(package, folder):
    """Downloads a Debian package by its name and unpacks it below the folder."""
    subprocess.run(["apt-get", "download", package], cwd=folder, check=True, stdout=subprocess.DEVNULL)
    archive = next(pathlib.Path(folder).glob(package + "_*.deb"))
    tree = pathlib.Path(folder) / package
    subprocess.run(["dpkg-deb", "-x", archive, tree], check=True)
    return tree


def fetch_packages():
    with tempfile.TemporaryDirectory() as folder:
        trees = {package: unpack(package, folder) for package in dict.fromkeys(p for p, _, _ in PACKAGES)}
        for package, place, prefix in PACKAGES:
            for path in sorted((trees[package] / place).iterdir()):
                if path.is_file() and path.read_bytes().startswith(BEGIN):
                    store(prefix + path.name.split(".")[0], armour_off(path.read_bytes()))


def ssh_keygen(*words):
    subprocess.run(["ssh-keygen", "-q", *words], check=True, stdout=subprocess.DEVNULL)


def new_key(words, comment, protect):
    with tempfile.TemporaryDirectory() as folder:
        path = pathlib.Path(folder) / "key"
        ssh_keygen(*words, "-C", comment, *protect, "-f", path)
        return armour_off(path.read_bytes())


def locked(cipher):
    """What ssh-keygen is told for a file that is encrypted."""
    return ["-N", PASSPHRASE, "-Z", cipher, "-a", "1"]


def one_key_in_files(words, comments, ciphers):
    """One new key in several armoured files by their titles: plain with each of the comments, and encrypted with each of the
    ciphers. An RSA key of 8192 bits takes half a minute."""
    texts = {}
    with tempfile.TemporaryDirectory() as folder:
        path, other = pathlib.Path(folder) / "key", pathlib.Path(folder) / "locked"
        ssh_keygen(*words, "-C", "", "-N", "", "-f", path)
        for title, comment in comments:
            ssh_keygen("-c", "-C", comment, "-P", "", "-f", path)
            texts[title] = path.read_bytes()
        for name in ciphers:
            shutil.copy2(path, other)
            ssh_keygen("-p", "-P", "", *locked(name), "-f", other)
            texts[name.split("@")[0]] = other.read_bytes()
    return texts


def new_rsa_keys(words, comments, ciphers):
    return {title: armour_off(text) for title, text in one_key_in_files(words, comments, ciphers).items()}


def scalar_string(image):
    """The scalar's string as it stands in a plain ECDSA image, leading zeros included."""
    section = Reader(image, model.read_header(image).section + 4, len(image))
    section.place += 8  # the checkints
    for _ in ("name", "curve", "point"):
        section.string()
    return content(image, section.string())


def has_short_scalar(image):
    """Whether a plain image has an ECDSA scalar whose string is of fewer than SIZE bytes."""
    size = SIZES.get(model.read_header(image).algorithm)
    return size is not None and len(scalar_string(image)) < size


def new_plain_key(words, comment="", short=False):
    """A plain key whose scalar's string is short, or isn't."""
    while True:
        image = new_key(words, comment, ["-N", ""])
        if has_short_scalar(image) == short:
            return image


def make_keygen():
    kinds = dict(KINDS)
    for (kind, words), (title, comment) in itertools.product(KINDS, COMMENTS):
        store(f"keygen-{kind}-{title}", new_plain_key(words, comment))
    for (name, _, _), (kind, words) in zip(CIPHERS[1:], itertools.cycle(KINDS)):
        store(f"keygen-{kind}-{name.decode().split('@')[0]}", new_key(words, "oven-7", locked(name.decode())))
    for kind, turn in [("p256", 1), ("p521", 1), ("p521", 2), ("p521", 3)]:
        store(f"keygen-{kind}-short-{turn}", new_plain_key(kinds[kind], short=True))


def make_keygen_rsa():
    """A key of each size: a comment for each of the three in turn, and each of the nine ciphers once."""
    ciphers = [name.decode() for name, _, _ in CIPHERS[1:]]
    for turn, (kind, words) in enumerate(RSA_KINDS):
        comments = COMMENTS if turn == 0 else [COMMENTS[turn % 3]]
        for title, image in new_rsa_keys(words, comments, ciphers[turn::len(RSA_KINDS)]).items():
            store(f"keygen-{kind}-{title}", image)


def main():
    fetch_packages()
    if "--keygen" in sys.argv[1:]:
        make_keygen()
        make_keygen_rsa()


if __name__ == "__main__":
    main()
