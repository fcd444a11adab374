#!/usr/bin/env python3
"""Runs the program `inspect` on new files of real writers and holds each answer against the model.

    python3 tools/real_files.py [TIMES] [--need-all]

Each writer that is here makes, of each kind, TIMES plain files (1 if none is said) with each of ten comments, and TIMES
encrypted ones with each of its ciphers. RSA keys have 2,048 bits. Of every file the program's whole output must be the
model's, and what it says of an accepted one must be what the writer was asked for. The first file of each row goes in the writer's
own armour through `dearmour`, which must answer as the model, and through ./inspect, which must report on it with --any-armour and,
without, where import takes it. A second table says how each writer armours, and how many of its files import takes. It exits with 1
if anything differs. A writer that isn't here is named with its Debian package and left out; with --need-all that, or a file that a
writer could not make, is a failure too.

The keys are new and random each time, so the counts differ from run to run. Python's libraries are those of the Python that
runs this or, where it lacks one, of Debian's. The built programs are needed (`bash tools/build.sh inspect dearmour`). TIMES 1 makes some 570
files, and with 470 took a minute and a half where the program ran under an emulator.
"""
import os
import pathlib
import shutil
import subprocess
import sys
import tempfile
from collections import Counter, defaultdict
from typing import NamedTuple

import model
import model_armour
from armoured_keys import differs
from fetch_corpus import BEGIN, COMMENTS, END, KINDS, PASSPHRASE, armour_off
from fields import ALGORITHMS, CIPHER_NAMES, ED25519, MAGIC, NONE, RSA, Reader, Refused, content
from rsa import NUMBERS
from written_keys import RUN

ROOT = pathlib.Path(__file__).resolve().parent.parent
BITS = 2048  # of RSA keys; scripts have the same number in their text
KIND_WORDS = {**dict(KINDS), "rsa": ["-t", "rsa", "-b", str(BITS)]}
ALL_KINDS = list(KIND_WORDS)
ALGORITHM = {kind: name.decode() for kind, name in zip(ALL_KINDS, ALGORITHMS)}
CURVE = {"ed25519": "ed25519", "p256": "secp256r1", "p384": "secp384r1", "p521": "secp521r1", "rsa": "rsa"}

NO_CIPHER, OWN_CIPHER = "none", "own"  # plain, or whichever cipher the writer takes
ALL_CIPHERS = [name.decode() for name in CIPHER_NAMES if name.decode() != NO_CIPHER]
# Lengths 0 to 8, so that every padding occurs, and one that is not ASCII.
TEN_COMMENTS = ["oven-7-8"[:length] for length in range(9)] + [dict(COMMENTS)["utf8"]]
ENCRYPTED_COMMENT = "oven-7"

# Comments are UTF-8 on every command line; Debian's node modules are found by any node; no dump is left behind.
SURROUNDINGS = {**os.environ, "LC_ALL": "C.UTF-8", "NODE_PATH": "/usr/share/nodejs", "ERL_CRASH_DUMP": "/dev/null"}


class Writer(NamedTuple):
    name: str
    package: str  # Debian's
    version: list  # the words of a command that tells the version, and fails where the writer isn't here
    make: object  # (kind, cipher, comments): the armoured files, one for each comment
    ciphers: list = []
    kinds: list = ALL_KINDS
    takes_comments: bool = True


class File(NamedTuple):
    kind: str
    cipher: str
    comment: str
    text: bytes

    def image(self):
        return armour_off(self.text)


def run(words, given=b"", folder=None):
    """What a writer writes, given these bytes. Some tell their version on standard error."""
    done = subprocess.run(words, input=given, cwd=folder, env=SURROUNDINGS, capture_output=True, check=True)
    return done.stdout or done.stderr


# ---- writers that are programs


def left_by(commands, given=b""):
    """The file `key` that the commands leave in an empty folder."""
    with tempfile.TemporaryDirectory() as folder:
        for words in commands:
            run(words, given, folder)
        return (pathlib.Path(folder) / "key").read_bytes()


def by_ssh_keygen(kind, cipher, comment):
    lock = ["-N", ""] if cipher == NO_CIPHER else ["-N", PASSPHRASE, "-Z", cipher, "-a", "1"]
    return left_by([["ssh-keygen", "-q", *KIND_WORDS[kind], "-C", comment, *lock, "-f", "key"]])


def by_puttygen(kind, cipher, comment):
    """The kinds are named as for ssh-keygen. The passphrase comes from standard input, which is empty for none."""
    words = ["puttygen", "-q", *KIND_WORDS[kind], "-C", comment, "--random-device", "/dev/urandom"]
    words += ["--new-passphrase", "/dev/stdin", "-O", "private-openssh-new", "-o", "key"]
    return left_by([words], b"" if cipher == NO_CIPHER else PASSPHRASE.encode() + b"\n")


def by_dropbear(kind, _cipher, _comment):
    size = ["-s" if word == "-b" else word for word in KIND_WORDS[kind]]
    new = ["dropbearkey", *size, "-f", "own"]
    return left_by([new, ["dropbearconvert", "dropbear", "openssh", "own", "key"]])


def one_by_one(make):
    return lambda kind, cipher, comments: [make(kind, cipher, comment) for comment in comments]


# ---- writers that are libraries: a script is given algorithm, curve, cipher, passphrase and comments

CRYPTOGRAPHY = """
import sys
from cryptography.hazmat.primitives import serialization
from cryptography.hazmat.primitives.asymmetric import ec, ed25519, rsa
_, curve, cipher, passphrase, *comments = sys.argv[1:]
lock = serialization.NoEncryption()
if cipher != "none":
    lock = serialization.BestAvailableEncryption(passphrase.encode())
for _ in comments:
    if curve == "ed25519":
        key = ed25519.Ed25519PrivateKey.generate()
    elif curve == "rsa":
        key = rsa.generate_private_key(65537, 2048)
    else:
        key = ec.generate_private_key(getattr(ec, curve.upper())())
    form = serialization.Encoding.PEM, serialization.PrivateFormat.OpenSSH
    sys.stdout.buffer.write(key.private_bytes(*form, lock))
"""

ASYNCSSH = """
import sys, asyncssh
algorithm, curve, cipher, passphrase, *comments = sys.argv[1:]
size = dict(key_size=2048) if curve == "rsa" else {}
lock = {}
if cipher != "none":
    lock = dict(passphrase=passphrase, cipher_name=cipher, rounds=1, ignore_few_rounds=True)
for comment in comments:
    key = asyncssh.generate_private_key(algorithm, comment=comment, **size)
    sys.stdout.buffer.write(key.export_private_key("openssh", **lock))
"""

TWISTED = """
import sys
from cryptography.hazmat.primitives.asymmetric import ec, ed25519, rsa
from twisted.conch.ssh.keys import Key
_, curve, cipher, passphrase, *comments = sys.argv[1:]
lock = None if cipher == "none" else passphrase
for comment in comments:
    if curve == "ed25519":
        key = Key(ed25519.Ed25519PrivateKey.generate())
    elif curve == "rsa":
        key = Key(rsa.generate_private_key(65537, 2048))
    else:
        key = Key(ec.generate_private_key(getattr(ec, curve.upper())()))
    sys.stdout.buffer.write(key.toString("openssh", subtype="v1", comment=comment.encode(), passphrase=lock))
"""

LIBSSH_VERSION = """
import ctypes
version = ctypes.CDLL("libssh.so.4").ssh_version
version.restype = ctypes.c_char_p
print(version(0).decode())
"""

# 5 is SSH_KEYTYPE_ED25519; libssh 0.10 writes the other kinds as PKCS 8.
LIBSSH = """
import ctypes, sys
_, _, cipher, passphrase, *comments = sys.argv[1:]
libssh = ctypes.CDLL("libssh.so.4")
for _ in comments:
    key = ctypes.c_void_p()
    lock = None if cipher == "none" else passphrase.encode()
    refused = libssh.ssh_pki_generate(5, 0, ctypes.byref(key))
    if refused or libssh.ssh_pki_export_privkey_file(key, lock, None, None, b"/dev/stdout"):
        sys.exit("libssh refused")
"""

# Its default, and one whose tag it leaves off, so that OpenSSH refuses the file too. Each takes most of a second. It makes no RSA
# keys.
SSHPK_CIPHERS = ["aes128-ctr", "aes128-gcm@openssh.com"]
SSHPK = """
const sshpk = require("sshpk");
const [algorithm, curve, cipher, passphrase, ...comments] = process.argv.slice(1);
const lock = cipher == "none" ? undefined : {passphrase, cipher};
for (const comment of comments) {
    const key = curve == "ed25519" ? sshpk.generatePrivateKey(curve)
        : sshpk.generatePrivateKey("ecdsa", {curve: algorithm.slice("ecdsa-sha2-".length)});
    key.comment = comment;
    process.stdout.write(key.toString("ssh-private", lock));
}
"""

# phpseclib takes most of a second to make a P-521 or an RSA key, so OpenSSL makes it.
PHPSECLIB = """
require "phpseclib3/autoload.php";
use phpseclib3\\Crypt\\EC;
use phpseclib3\\Crypt\\RSA;
[, , $curve, $cipher, $passphrase] = $argv;
$named = ["private_key_type" => OPENSSL_KEYTYPE_EC, "curve_name" => str_replace("secp256r1", "prime256v1", $curve)];
$sized = ["private_key_type" => OPENSSL_KEYTYPE_RSA, "private_key_bits" => 2048];
foreach (array_slice($argv, 5) as $comment) {
    if ($curve == "ed25519") {
        $key = EC::createKey("Ed25519");
    } elseif ($curve == "rsa") {
        openssl_pkey_export(openssl_pkey_new($sized), $text);
        $key = RSA::load($text);
    } else {
        openssl_pkey_export(openssl_pkey_new($named), $text);
        $key = EC::load($text);
    }
    $key = $cipher == "none" ? $key : $key->withPassword($passphrase);
    echo $key->toString("OpenSSH", ["comment" => $comment]);
}
"""

# OTP 25 writes Ed25519's seed alone, and the algorithm's name for the curve: OpenSSH refuses all these files too.
ERLANG_VERSION = 'application:load(ssh), {ok, V} = application:get_key(ssh, vsn), io:put_chars(V), halt().'
ERLANG = """
[_, Curve, _, _ | Comments] = init:get_plain_arguments(),
Kind = case Curve of "rsa" -> {rsa, 2048, 65537}; _ -> {namedCurve, list_to_atom(Curve)} end,
Key = fun() -> public_key:generate_key(Kind) end,
Write = fun(C) -> ssh_file:encode([{[{Key(), unicode:characters_to_binary(C)}], []}], openssh_key_v1) end,
[io:put_chars(Write(C)) || C <- Comments], halt().
"""


def by_script(*words):
    """A writer that a script calls: it writes all its files in a row."""

    def make(kind, cipher, comments):
        written = run([*words, ALGORITHM[kind], CURVE[kind], cipher, PASSPHRASE, *comments])
        return [BEGIN + text for text in written.split(BEGIN)[1:]]

    return make


def python_with(module):
    """A Python that has the module: this one, or Debian's."""
    pythons = [sys.executable, "/usr/bin/python3"]
    return next((python for python in pythons if told([python, "-c", f"import {module}"]) is not None), pythons[0])


def python_library(name, package, module, script, **more):
    python = python_with(module)
    version = [python, "-c", f"import {module}; print({module}.__version__)"]
    return Writer(name, package, version, by_script(python, "-c", script), **more)


def programs():
    own = dict(ciphers=[OWN_CIPHER])
    return [
        Writer("OpenSSH", "openssh-client", ["ssh", "-V"], one_by_one(by_ssh_keygen), ALL_CIPHERS),
        Writer("PuTTY", "putty-tools", ["puttygen", "-V"], one_by_one(by_puttygen), **own),
        Writer("dropbear", "dropbear-bin", ["dbclient", "-V"], one_by_one(by_dropbear), takes_comments=False),
    ]


def libraries():
    own = dict(ciphers=[OWN_CIPHER])
    silent = dict(own, takes_comments=False)
    libssh = [sys.executable, "-c"]
    node, php, erlang = ["node", "-e"], ["php", "-r"], ["erl", "-noshell", "-eval"]
    sshpk = [*node, 'console.log(require("sshpk/package.json").version)']
    phpseclib = ["dpkg-query", "-W", "-f", "${Version}", "php-phpseclib3"]
    return [
        python_library("cryptography", "python3-cryptography, python3-bcrypt", "cryptography", CRYPTOGRAPHY, **silent),
        python_library("asyncssh", "python3-asyncssh", "asyncssh", ASYNCSSH, ciphers=ALL_CIPHERS),
        python_library("Twisted", "python3-twisted", "twisted", TWISTED, **own),
        Writer("libssh", "libssh-4", [*libssh, LIBSSH_VERSION], by_script(*libssh, LIBSSH), kinds=["ed25519"], **silent),
        Writer("sshpk", "node-sshpk", sshpk, by_script(*node, SSHPK, "--"), SSHPK_CIPHERS, ALL_KINDS[:4]),
        Writer("phpseclib", "php-phpseclib3", phpseclib, by_script(*php, PHPSECLIB, "--"), **own),
        Writer("Erlang ssh", "erlang-ssh", [*erlang, ERLANG_VERSION], by_script(*erlang, ERLANG, "-extra")),
    ]


def told(words):
    """The first line that a command writes, or None where it isn't here or fails."""
    if shutil.which(words[0]) is None:
        return None
    try:
        return (run(words).decode().splitlines() or [""])[0]
    except subprocess.CalledProcessError:
        return None


# ---- what the program says of a file


def faults_of(writer, file, answer):
    """What is wrong with the program's answer to a file."""
    wanted = model.report(file.image())
    if answer != wanted:
        return [f"the program says {answer!r}, the model {wanted!r}"]
    if answer.startswith("refused"):
        return []
    asked = [f"algorithm {ALGORITHM[file.kind]}", *([f"bits {BITS}"] if file.kind == "rsa" else [])]
    if file.cipher != OWN_CIPHER:
        asked.append(f"cipher {file.cipher}")
    if file.cipher == NO_CIPHER and writer.takes_comments:
        asked.append(f"comment {len(file.comment.encode())}")
    return [f"asked for {line!r}, the program says {answer!r}" for line in asked if line not in answer.splitlines()]


def said(words, given):
    """What the program writes, or how it ended. ./inspect ends with 1 where it refuses."""
    done = subprocess.run(words, input=given, capture_output=True)
    answered = done.returncode == 0 or done.stdout.startswith(b"refused ")
    return done.stdout.decode() if answered else f"exit {done.returncode}: {done.stderr!r}"


def armour_faults(file):
    """What is wrong with the answers to a file in its own armour."""
    yield from filter(None, [differs("dearmour", file.text)])
    report = model.report(file.image())
    strictly = "refused 2 0 0\n" if model_armour.accepted(file.text) is None else report
    for options, wanted in [((), strictly), (("--any-armour",), report)]:
        answer = said([ROOT / "inspect", *options], file.text)
        if answer != wanted:
            yield f"./inspect {' '.join(options)} says {answer!r}, but {wanted!r} is meant"


def all_faults(writer, files):
    """The lines on whatever differs. The keys are throw-away ones, so an image is shown whole."""
    for turn, file in enumerate(files):
        faults = faults_of(writer, file, said(["sh", RUN, "inspect"], file.image()))
        for fault in [*faults, *(armour_faults(file) if turn == 0 else [])]:
            yield f"DIFFERS: {writer.name}, {file.kind}, {file.cipher}: {fault}: {file.image().hex()}"


def refused_field(image, at):
    """The field at which a file was refused, and its length; the file is only walked through here, not judged."""
    reader = Reader(image, len(MAGIC), len(image))
    cipher = content(image, reader.string())
    for step in (reader.string, reader.string, reader.uint32, reader.string):
        step()
    if at < reader.place:
        return "header", reader.place
    section = reader.inside(reader.string())
    if cipher != CIPHER_NAMES[NONE]:
        return "tag", reader.left()
    section.place += 8  # the checkints
    own_name = content(image, Reader(image, section.place, section.end).string())
    keys = {ALGORITHMS[ED25519]: ["public key", "private key"], ALGORITHMS[RSA]: NUMBERS}
    for name in ["name", *keys.get(own_name, ["curve", "point", "scalar"]), "comment"]:
        field = section.place
        _, length = section.string()
        if field <= at < section.place:
            return name, length
    return "padding", section.left()


def refusals(images):
    """The refusals in words: number, field, its shortest and longest length, and how many."""
    found = defaultdict(list)
    for image in images:
        answer = model.read(image)
        if answer.number != 0:
            try:
                name, length = refused_field(image, answer.at)
            except Refused:
                name, length = "image", len(image)
            found[answer.number, name].append(length)
    for (number, name), lengths in sorted(found.items()):
        yield f"{number}, {name} of {span(lengths)}: {len(lengths)}"


def span(numbers):
    return " to ".join(str(number) for number in sorted({min(numbers), max(numbers)})) if numbers else ""


# ---- the table

COLUMNS = "{:13}{:9}{:11}{:>6}{:>6}{:>6}{:>8}{:>9}{:>9}  {}"
TITLES = "writer", "kind", "section", "files", "read", "form", "no form", "padding", "refused", "number, field, bytes: files"


def print_row(writer, kind, title, files):
    """The model's counts, which the program's answers were held to."""
    images = [file.image() for file in files]
    answers = [answer for answer in map(model.read, images) if answer.number == 0]
    form = sum(model.form(image) for image in images)
    padding = span([answer.padding for answer in answers if answer.kind == model.PLAIN])
    counts = len(files), len(answers), form, len(answers) - form, padding, len(files) - len(answers)
    print(COLUMNS.format(writer.name, kind, title, *counts, "; ".join(refusals(images))).rstrip(), flush=True)


ARMOUR_COLUMNS = "{:13}{:>8}  {:10}{:10}{:>6}{:>6}"
ARMOUR_TITLES = "writer", "columns", "ends", "after END", "files", "taken"
END_NAMES = {b"\n": "LF", b"\r\n": "CR LF", b"": "nothing"}


def armour_words(text):
    """How a text is armoured: the columns of its longest line, the lines' ends, and what stands after the END line."""
    before, _, after = text.partition(END)
    lines = before.splitlines(keepends=True)
    ends = {END_NAMES.get(line[len(line.rstrip(b"\r\n")) :], "other") for line in lines}
    columns = max((len(line.rstrip(b"\r\n")) for line in lines[1:]), default=0)
    return columns, " and ".join(sorted(ends)), END_NAMES.get(after, repr(after))


def print_armours(armours):
    """How often each writer armours its files how, and how many of these import takes, by the model."""
    print("\n" + ARMOUR_COLUMNS.format(*ARMOUR_TITLES))
    for words in sorted({words for words, _ in armours}):
        taken = armours[words, True]
        print(ARMOUR_COLUMNS.format(*words, taken + armours[words, False], taken))


def made(writer, kind, ciphers, comments):
    files = []
    for cipher in ciphers:
        texts = writer.make(kind, cipher, comments)
        if len(texts) != len(comments) or not all(BEGIN in text for text in texts):
            raise ValueError("not as many files of this format as were asked for")
        files += [File(kind, cipher, comment, text) for comment, text in zip(comments, texts)]
    return files


def reason(failure):
    """Why a writer made no files: the last line that it wrote, or Python's own words."""
    lines = (getattr(failure, "stderr", None) or b"").decode(errors="replace").split("\n")
    return next((line for line in reversed(lines) if line.strip()), str(failure))


def rows(writer, times, armours):
    """Prints the writer's rows and counts its armours; answers how many answers differ and how many rows could not be made."""
    differing = failed = 0
    plain = "plain", [NO_CIPHER], TEN_COMMENTS * times
    encrypted = "encrypted", writer.ciphers, [ENCRYPTED_COMMENT] * times
    for title, ciphers, comments in [plain, encrypted] if writer.ciphers else [plain]:
        for kind in writer.kinds:
            try:
                files = made(writer, kind, ciphers, comments)
            except (subprocess.CalledProcessError, OSError, ValueError) as failure:
                print(f"{writer.name} could not write {kind}, {title}: {reason(failure)}")
                failed += 1
                continue
            faults = list(all_faults(writer, files))
            differing += len(faults)
            print_row(writer, kind, title, files)
            texts = [file.text for file in files]
            armours.update(((writer.name, *armour_words(text)), model_armour.accepted(text) is not None) for text in texts)
            print("\n".join(faults), end="\n" if faults else "")
    return differing, failed


def writers_here():
    """Names every writer with its version or as missing; answers those that are here and how many are not."""
    here, missing = [], 0
    for writer in programs() + libraries():
        version = told(writer.version)
        if version is None:
            print(f"not here: package {writer.package}")
            missing += 1
        else:
            print(f"{writer.name}: {version}")
            here.append(writer)
    return here, missing


def main():
    words = [word for word in sys.argv[1:] if word != "--need-all"]
    if len(words) > 1 or not all(word.isdigit() and int(word) > 0 for word in words):
        sys.exit(__doc__)
    times = int(words[0]) if words else 1
    for name in ("inspect", "dearmour"):
        if not (ROOT / "target" / "bin" / name).exists():
            sys.exit(f"the program {name} isn't built: bash tools/build.sh {name}")
    here, missing = writers_here()
    print("\nThe keys are random: the counts differ from run to run.\n")
    print(COLUMNS.format(*TITLES), flush=True)
    armours = Counter()
    results = [rows(writer, times, armours) for writer in here]
    print_armours(armours)
    differing, failed = sum(result[0] for result in results), sum(result[1] for result in results)
    print(f"\n{differing} answers differ, {missing} writers are not here, {failed} rows could not be made")
    sys.exit(1 if differing or ("--need-all" in sys.argv[1:] and (missing or failed)) else 0)


if __name__ == "__main__":
    main()
