#!/usr/bin/env python3
"""Real key files out of Debian's source packages: fetched, read, written again and changed, and none of them kept.

    python3 tools/package_keys.py [PACKAGE..]       those of PACKAGES below where none is named
    python3 tools/package_keys.py --crate [..]      also hands them to the crate ssh-key (oracle/run.sh)

The packages come through private roots of apt (tools/private_apt.sh), each from the first of the suites that has it; a mirror may lack
some. Every text between the two lines of the armour that is an openssh-key-v1 image is taken, in source code too. Each distinct one
goes through the program `inspect`, whose whole output must be the model's; an accepted one is written again by the library, a plain
one's comment is changed three times and back, and what results must be the first bytes. Of the keys that are files of their own it
says how many import takes, by the model. Keys stay in memory or in a private temporary folder that is removed; they are published test
keys. Status 1 if anything differs, 3 if the packages can't be had here. The archive and the program are needed
(`bash tools/archive.sh`, `bash tools/build.sh inspect`), and gcc.
"""
import base64
import binascii
import collections
import ctypes
import pathlib
import re
import subprocess
import sys
import tarfile
import tempfile

import model
import model_armour
from fetch_corpus import BEGIN, END
from fields import LIMIT, MAGIC, content
from real_files import ROOT, RUN, said

PACKAGES = [
    "libmina-sshd-java", "libssh", "jsch", "bouncycastle", "golang-go.crypto", "keepassxc", "erlang", "openssh", "paramiko",
    "python-asyncssh", "ruby-net-ssh", "libssh2", "twisted", "rust-ssh-key", "node-sshpk", "php-phpseclib3",
]
SUITES = ["sid", "trixie", "bookworm"]
ARCHIVE = ROOT / "target" / "staticlib" / "libsaltorchard.a"
COMMENTS = [b"", "Bäckerei Süd, Ofen 7 – 炉 🥖".encode(), b"c" * 300]
ARMOURED = re.compile(re.escape(BEGIN) + b"(.*?)" + re.escape(END), re.S)
ALONE = re.compile(rb"\s*" + re.escape(BEGIN) + rb"[A-Za-z0-9+/=\s]*" + re.escape(END) + rb"\s*")
QUOTED = re.compile(rb'"([^"]*)"|\'([^\']*)\'')


class Reply(ctypes.Structure):
    _fields_ = [(name, ctypes.c_uint64) for name in ("number", "count", "at", "length")]


# ---- the keys of a package


def in_base64(body):
    """The image, or None where the text isn't one. In source code its lines may be strings of their own, with escapes at their ends."""
    quoted = b"".join(one or other for one, other in QUOTED.findall(body.partition(b"\n")[2]))
    for text in (body, quoted):
        try:
            image = base64.b64decode(re.sub(rb"\\+[nr]|\s", b"", text), validate=True)
        except binascii.Error:
            continue
        if image.startswith(MAGIC):
            return image
    return None


def keys_in(archive):
    """The images in every file of a packed source, each with the file's bytes where they are nothing but its text."""
    with tarfile.open(archive) as packed:
        for member in packed:
            text = packed.extractfile(member).read() if member.isfile() else b""
            alone = ALONE.fullmatch(text) is not None
            found = map(in_base64, ARMOURED.findall(text))
            yield from ((image, text if alone else None) for image in found if image)


def roots(folder):
    """A private root of apt for each suite that can be had."""
    for suite in SUITES:
        root = pathlib.Path(folder) / suite
        if subprocess.run(["bash", ROOT / "tools" / "private_apt.sh", root, suite, "deb-src"]).returncode == 0:
            yield root


def fetched(package, all_roots):
    """The first suite whose packed source of the package comes, and that source. Mirrors were seen that lack a package's other files, so
    apt's status isn't asked."""
    for root in all_roots:
        place = root / package
        place.mkdir()
        words = ["apt-get", "-c", root / "apt.conf", "-q", "source", "--download-only", package]
        subprocess.run(words, cwd=place, stdout=subprocess.DEVNULL, stderr=subprocess.DEVNULL)
        sources = [path for path in place.iterdir() if re.search(r"\.orig.*\.tar\.(xz|gz|bz2)$", path.name)]
        if sources:
            return root.name, sources
    return "no suite", []


# ---- the library


def library(folder):
    """The archive as a shared library, for ctypes."""
    path = pathlib.Path(folder) / "saltorchard.so"
    subprocess.run(["gcc", "-shared", "-o", path, "-Wl,--whole-archive", ARCHIVE, "-Wl,--no-whole-archive"], check=True)
    loaded = ctypes.CDLL(str(path))
    loaded.saltorchard_rewrite.restype = loaded.saltorchard_change_comment.restype = Reply
    return loaded


def rewritten(loaded, image):
    """The bytes, or the refusal's number."""
    out = (ctypes.c_uint8 * LIMIT)()
    reply = loaded.saltorchard_rewrite(image, ctypes.c_size_t(len(image)), out, ctypes.c_size_t(LIMIT))
    return reply.number or bytes(out[: reply.length])


def changed(loaded, image, comments):
    """The image after these changes of its comment, one after another in one buffer, or the first refusal's number."""
    lent, length = (ctypes.c_uint8 * LIMIT)(*image), len(image)
    for comment in comments:
        words = [ctypes.c_size_t(word) for word in (LIMIT, length, len(comment))]
        reply = loaded.saltorchard_change_comment(lent, words[0], words[1], comment, words[2])
        if reply.number:
            return reply.number
        length = reply.length
    return bytes(lent[:length])


# ---- what must hold of an image


def faults(loaded, image):
    answer, wanted = said(["sh", RUN, "inspect"], image), model.report(image)
    if answer != wanted:
        yield f"inspect says {answer!r}, the model {wanted!r}"
    read = model.read(image)
    if read.number:
        return
    formed = rewritten(loaded, image)
    if (formed == image) != model.form(image):
        yield "written again it isn't what its form says"
    if read.kind != model.PLAIN:
        if changed(loaded, image, COMMENTS) != 8:
            yield "the comment of an encrypted image was changed"
    elif changed(loaded, formed, [*COMMENTS, content(image, read.comment)]) != formed:
        yield "three comments and back don't give the first bytes"


def title(image):
    """How an image is counted: by its kind, or refused, with the name that isn't known or the place."""
    read = model.read(image)
    if read.number == 4:
        length = int.from_bytes(image[read.at : read.at + 4], "big")
        return f"refused 4, {image[read.at + 4 : read.at + 4 + length].decode(errors='replace')}"
    if read.number:
        return f"refused {read.number} at {read.at} of {len(image)} bytes"
    words = dict(line.split(" ", 1) for line in model.report(image).splitlines())
    form = "" if words.get("form", "yes") == "yes" else ", not in the form"
    return f"read, {words['kind']}, {words['algorithm']}{form}"


def with_crate(images, folder):
    """Every image handed to the library and to the crate; answers the comparison's status."""
    place = pathlib.Path(folder) / "images"
    place.mkdir()
    for number, image in enumerate(images):
        (place / f"{number:04}.bin").write_bytes(image)
    return subprocess.run(["bash", ROOT / "oracle" / "run.sh", "--alone", place]).returncode


def package_faults(package, all_roots, loaded, seen):
    """Prints what a package has that wasn't seen before, and answers how many faults there are."""
    suite, sources = fetched(package, all_roots)
    keys = [key for source in sources for key in keys_in(source)]
    found = {image for image, _ in keys} - seen
    seen |= found
    texts = {text for image, text in keys if text and image in found}
    taken = sum(model_armour.accepted(text) is not None for text in texts)
    print(f"{package}, {suite}: {len(found)} keys; {len(texts)} files hold nothing else, of which import takes {taken}")
    for line, count in sorted(collections.Counter(map(title, found)).items()):
        print(f"    {count:4} {line}")
    wrong = [fault for image in sorted(found) for fault in faults(loaded, image)]
    for fault in wrong:
        print("DIFFERS:", fault)
    return len(wrong)


def main():
    words = sys.argv[1:]
    crate = words[:1] == ["--crate"]
    packages = words[crate:] or PACKAGES
    with tempfile.TemporaryDirectory() as folder:
        all_roots = list(roots(folder))
        if not all_roots:
            sys.exit(3)
        loaded, seen = library(folder), set()
        differing = sum(package_faults(package, all_roots, loaded, seen) for package in packages)
        if crate:
            differing += with_crate(sorted(seen), folder) != 0
    print(f"{len(seen)} distinct keys of {len(packages)} packages, {differing} faults")
    sys.exit(1 if differing or not seen else 0)


if __name__ == "__main__":
    main()
