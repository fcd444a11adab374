#!/usr/bin/env python3
"""The inputs of docs/DIFFERENCES.md: an image for each id, held against the model, OpenSSH and the document's own rows; and one image's
text in other spellings (differences_armour.py).

    python3 tools/differences.py                a line for each id; exit 1 if one is not as the document says
    python3 tools/differences.py --write DIR    also writes each as DIR/D1.bin and, with its armour on, DIR/D1.key, and DIR/A1.key..

Without OpenSSH 9.2 its half is left out, and the script says so: the document speaks of no other version. The crate's
half is what it answered when oracle/answers.txt was made (stored_answers.py). The images are the same each time.
Their keys are throw-away ones: the Ed25519 pair is RFC 8032's first test, the ECDSA scalars come from images.py, and
what OpenSSH must have written itself is the corpus's, but for the one file below that has a cipher of OpenSSH's which
the rules lack. Those of RSA keys are in differences_rsa.py.
"""
import base64
import itertools
import pathlib
import shutil
import subprocess
import sys
from typing import NamedTuple

import model
import model_writing
from against_ssh_keygen import armour, blob_by_ssh_keygen
from differences_armour import compare as compare_spellings
from differences_armour import spellings
from differences_rsa import rsa_differences
from fetch_corpus import CORPUS, PASSPHRASE
from fields import ED25519, LIMIT, SIZES
from images import Field, bcrypt_options, changed, encrypted, join, keypair_fields, padded, plain, put
from images import put_all, put_length, scalar_of, spot, stream
from images_several import ring
from model_writing import Given
from stored_answers import answers, sum_of

DOCUMENT = pathlib.Path(__file__).resolve().parent.parent / "docs" / "DIFFERENCES.md"
OPENSSH = "OpenSSH_9.2"
P256, P521 = 1, 3

# The field's prime and the base point of FIPS 186-4's curves, y² = x³ - 3x + b.
CURVES = {
    P256: (
        2**256 - 2**224 + 2**192 + 2**96 - 1,
        0x6B17D1F2E12C4247F8BCE6E563A440F277037D812DEB33A0F4A13945D898C296,
        0x4FE342E2FE1A7F9B8EE7EB4A7C0F9E162BCE33576B315ECECBB6406837BF51F5,
    ),
    P521: (
        2**521 - 1,
        int("00c6858e06b70404e9cd9e3ecb662395b4429c648139053fb521f828af606b4d3d"
            "baa14b5e77efe75928fe1dc127a2ffa8de3348b3c1856a429bf97e7e31c2e5bd66", 16),
        int("011839296a789a3bc0045c8a5fb42c7d1bd998f54449579b446817afbd17273e66"
            "2c97ee72995ef42640c550b9013fad0761353c7086a272c24088be94769fd16650", 16),
    ),
}
P256_ORDER = 0xFFFFFFFF00000000FFFFFFFFFFFFFFFFBCE6FAADA7179E84F3B9CAC2FC632551

SEED = bytes.fromhex("9d61b19deffd5a60ba844af492ec2cc44449c5697b326919703bac031cae7f60")
PUBLIC = bytes.fromhex("d75a980182b10ab7d54bfed3c964073a0ee172f3daa62325af021a68f707511a")

# What `ssh-keygen -t ed25519 -Z chacha20-poly1305@openssh.com -a 1` wrote, with the corpus's passphrase.
CHACHA = base64.b64decode(
    "b3BlbnNzaC1rZXktdjEAAAAAHWNoYWNoYTIwLXBvbHkxMzA1QG9wZW5zc2guY29tAAAABmJjcnlwdAAAABgAAAAQO9QeCa27yoydJ5Cts16Z"
    "YgAAAAEAAAABAAAAMwAAAAtzc2gtZWQyNTUxOQAAACBYq4mKuZVpEBUe3PzvEzyA0BnmYyc9TdmSwCRf7uXpKAAAAJAUHTIntuyUpHf5cU+S"
    "EJiLutw31YQLVZ+dvMQBnjDmf3bO6tZ58wCH6nWg2VEbkcy0drcgbXe8Vx3qZPhf2FOVDWl8TRoxgeJIo+tSk9/6dlaMXWM5WPL8CmYb+jkk"
    "pBrIi1HKEegt0TtkZLmvCHJebBb3CttQMEjtYQbhOUN6HDscMtQhb37XoPvtfSoY/2NaWKX4lVtkwk2/xpslUP1t"
)


class Difference(NamedTuple):
    id: str
    title: str
    image: bytes
    here: str  # as the document writes it
    openssh: str  # 'reads' or 'refuses'
    passphrase: str = ""


# ---- keys that OpenSSH accepts


def added(one, other, prime):
    """The sum of two points, of which none is the other's negative; None is the point at infinity."""
    if one is None:
        return other
    (x, y), (u, v) = one, other
    rise, run = (3 * x * x - 3, 2 * y) if one == other else (v - y, u - x)
    slope = rise * pow(run, -1, prime)
    sum_x = (slope * slope - x - u) % prime
    return sum_x, (slope * (x - sum_x) - y) % prime


def point_for(algorithm, scalar):
    """The point that belongs to a scalar, uncompressed."""
    prime, *base = CURVES[algorithm]
    point = None
    for bit in f"{int.from_bytes(scalar, 'big'):b}":
        point = point and added(point, point, prime)
        point = added(point, tuple(base), prime) if bit == "1" else point
    return b"\4" + b"".join(number.to_bytes(SIZES[algorithm], "big") for number in point)


def with_key(algorithm, point, scalar, comment=b"oven-12"):
    """The fields of a plain image with this public key and this scalar string."""
    fields = plain(algorithm, comment, keypair=keypair_fields(algorithm, point, scalar))
    return put(fields, "blob.point", point)


def ed25519(comment=b"oven-12"):
    return with_key(ED25519, PUBLIC, SEED, comment)


def ecdsa(scalar, written=None, algorithm=P256):
    """A plain ECDSA image. The scalar's string is `written` where it isn't the scalar itself."""
    return with_key(algorithm, point_for(algorithm, scalar), scalar if written is None else written)


def two_keys_in_the_section():
    """Two keys by the count and in the section, and one blob."""
    fields = put(ed25519(), "count", b"\0\0\0\2")
    *first, padding = spot(fields, "section").field.content
    second = [*keypair_fields(ED25519, PUBLIC, SEED), Field("comment", b"oven-13")]
    return padded(put(fields, "section", [*first, *second, padding]))


def stored(name):
    return (CORPUS / f"{name}.bin").read_bytes()


def with_options_left():
    """A file of ssh-keygen with one byte more at the end of bcrypt's options."""
    image = stored("keygen-ed25519-aes128-ctr")
    at = image.index(b"bcrypt") + len(b"bcrypt")
    return image[:at] + (25).to_bytes(4, "big") + image[at + 4 : at + 28] + b"\0" + image[at + 28 :]


def with_damaged_ciphertext():
    image = stored("keygen-ed25519-aes128-ctr")
    return image[:-1] + bytes([image[-1] ^ 1])


# ---- the differences, in the document's order


def crate_differences():
    fields = ed25519()
    yield "KDF none with options that fit", put(fields, "options", bytes(4)), "3 at 31", "reads"
    yield "KDF none with options that don't fit", put_length(fields, "options", 2**32 - 1), "1 at 31", "refuses"
    yield "RSA", stored("openssh-sshkey-rsa_n"), "read", "reads"
    yield "DSA", stored("openssh-sshkey-dsa_n"), "4 at 43", "reads"
    yield "security key, ECDSA", stored("openssh-sshkey-ecdsa_sk1"), "4 at 43", "reads"
    yield "security key, Ed25519", stored("openssh-sshkey-ed25519_sk1"), "4 at 43", "reads"
    yield "another name", renamed(fields, b"oven@example.com"), "4 at 43", "refuses"
    yield "65,538 bytes", ed25519(b"c" * 65302), "11 at 0", "reads"
    wrong_seed = put(fields, "section.scalar", bytes(32) + PUBLIC)
    yield "seed that doesn't yield the public key", wrong_seed, "read", "reads"
    yield "a byte after the section", [*fields, Field("left", b"\0", counted=False)], "6, count 1, at 242", "refuses"
    yield "key count 2 and one blob", two_keys_in_the_section(), "1 at 98", "refuses"
    low, high = scalar_of(P256, 0x7F), scalar_of(P256, 0x80)
    yield "needless zero", ecdsa(low, b"\0" + low), "read, form no", "reads"
    yield "missing zero", ecdsa(high), "read, form no", "refuses"


def scalar_differences():
    low = scalar_of(P256, 0x7F)
    small, small_521 = b"\0\x5a" + stream("small", 30), b"\0\x5a" + stream("small", 64)
    yield "short, P-256, 31 bytes", ecdsa(small, small[1:]), "read", "reads"
    yield "short, P-521, 65 bytes", ecdsa(small_521, small_521[1:], P521), "read", "reads"
    yield "the same P-256 scalar in full width", ecdsa(small), "read, form no", "reads"
    yield "the same P-521 scalar in full width", ecdsa(small_521, algorithm=P521), "read, form no", "reads"
    yield "two needless zeros, 34 bytes", ecdsa(low, b"\0\0" + low), "6, count 2, at 299", "reads"
    yield "32 zeros", ecdsa(low, bytes(32)), "2 at 263", "refuses"
    yield "scalar of the group's order", ecdsa(low, b"\0" + P256_ORDER.to_bytes(32, "big")), "read", "refuses"
    yield "another point's scalar", ecdsa(low, scalar_of(P256)), "read", "reads"
    yield "point off the curve", plain(P256), "read", "refuses"


def short_scalar_differences():
    low = scalar_of(P256, 0x7F)
    small, high = b"\0\x5a" + stream("small", 30), b"\0\xa5" + stream("small", 30)
    yield "short, 31 bytes, a5 first: a missing zero", ecdsa(high, high[1:]), "read, form no", "refuses"
    yield "the same in 32 bytes, its zero needed", ecdsa(high), "read", "reads"
    yield "two needless zeros, 33 bytes", ecdsa(small, b"\0" + small), "read, form no", "reads"
    yield "short, 24 bytes", ecdsa(small[1:25]), "read", "reads"
    yield "129 bits", ecdsa(b"\1" + stream("half", 16)), "read", "reads"
    yield "128 bits", ecdsa(b"\0\x80" + stream("half", 15)), "read", "refuses"
    yield "a single byte", ecdsa(b"\5"), "read", "refuses"
    yield "the same in 32 bytes", ecdsa(b"\5", b"\5".rjust(32, b"\0")), "read, form no", "refuses"
    yield "no bytes", ecdsa(low, b""), "1 at 263", "refuses"
    yield "a single zero", ecdsa(low, b"\0"), "2 at 263", "refuses"
    yield "31 zeros", ecdsa(low, bytes(31)), "2 at 263", "refuses"
    yield "33 zeros", ecdsa(low, bytes(33)), "2 at 263", "refuses"
    yield "34 zeros", ecdsa(low, bytes(34)), "6, count 2, at 299", "refuses"
    yield "33 bytes, 01 first", ecdsa(low, b"\1" + low), "2 at 263", "refuses"
    small_521 = b"\0\0\x5a" + stream("small", 63)
    yield "P-521, two needless zeros, 66 bytes", ecdsa(small_521, algorithm=P521), "read, form no", "reads"


def strange_differences():
    fields, key = ed25519(), ecdsa(scalar_of(P256))
    point = spot(key, "blob.point").field.content
    compressed = b"\2" + point[1:33]
    yield "Ed448", renamed(fields, b"ssh-ed448"), "4 at 43", "refuses"
    yield "ML-DSA-44 with Ed25519", renamed(fields, b"ssh-mldsa44-ed25519"), "4 at 43", "refuses"
    yield "key name not UTF-8", renamed(fields, b"ofen-\xff"), "4 at 43", "refuses"
    yield "cipher name of 49 bytes", put(fields, "cipher", b"o" * 49), "4 at 15", "refuses"
    tagged = {"blob.point": b"\2" + point[1:], "section.point": b"\2" + point[1:]}
    yield "point tag 2, 65 bytes", changed(key, tagged), "2 at 78", "refuses"
    yield "compressed point", changed(key, {"blob.point": compressed, "section.point": compressed}), "1 at 78", "refuses"
    yield "public key's length one too many", put_length(fields, "blob.point", 33), "1 at 58", "refuses"
    yield "blob's length far too many", put_length(fields, "blob", 0xFFFF), "1 at 39", "refuses"


def several_differences():
    low = scalar_of(P256, 0x7F)
    pair = [Given(ED25519, PUBLIC, SEED, b"oven-12"), Given(P256, point_for(P256, low), low, b"oven-13")]
    yield "two keys", ring(pair), "read", "refuses"
    yield "one key twice", ring(pair[:1] * 2), "read", "refuses"
    yield "16 keys", ring(pair * 8), "read", "refuses"
    yield "17 keys", ring([*pair * 8, pair[0]]), "1 at 35", "refuses"
    yield "two keys, their keypairs in the other order", ring(pair[::-1], blobs=pair), "5 at 214", "refuses"
    yield "two keys, one with a needless zero", ring_with_zero(pair), "read, form no", "refuses"
    sealed = put(encrypted(ED25519, b"aes256-ctr"), "count", b"\0\0\0\2")
    yield "two keys beside a cipher", sealed, "1 at 67", "refuses", PASSPHRASE


def ring_with_zero(keys):
    return padded(put(ring(keys), "section.scalar2", b"\0" + keys[1].private))


def renamed(fields, name):
    return changed(fields, {"blob.name": name, "section.name": name})


# What the writer makes of the scalars that aren't in the form: the image of another row.
WRITTEN = {"D16": "D14", "D17": "D15", "D59": "D60", "D61": "D14", "D66": "D65"}


def section_differences():
    fields = ed25519()
    yield "Ed25519 halves differ", put(fields, "section.scalar", SEED + stream("half", 32)), "3 at 157", "reads"
    yield "padding of 8", put(ed25519(b"oven7"), "section.padding", bytes(range(1, 9))), "1 at 234", "reads"
    yield "comment not UTF-8", ed25519(b"caf\xe9"), "7 at 225", "reads"
    yield "zero byte within the comment", ed25519(b"a\0b"), "read", "refuses"
    yield "zero byte at the comment's end", ed25519(b"ab\0"), "read", "reads"
    yield "zero byte after the cipher's name", put(fields, "cipher", b"none\0"), "4 at 15", "reads"
    yield "zero byte after the KDF's name", put(fields, "kdf", b"none\0"), "4 at 23", "reads"
    yield "zero byte after the key's name", changed(fields, {"section.name": b"ssh-ed25519\0"}), "4 at 106", "reads"
    curve = changed(ecdsa(scalar_of(P256)), {"section.curve": b"nistp256\0"})
    yield "zero byte after the curve", curve, "4 at 182", "reads"


def encryption_differences():
    bcrypt = {"kdf": b"bcrypt", "options": bcrypt_options(rounds=1)}
    yield "cipher with KDF none", encrypted(ED25519, b"aes256-ctr", kdf=b"none"), "read", "refuses", PASSPHRASE
    yield "KDF bcrypt without a cipher", put_all(ed25519(), bcrypt), "3 at 23", "reads", PASSPHRASE
    yield "chacha20-poly1305", CHACHA, "4 at 15", "reads", PASSPHRASE
    yield "a byte left in bcrypt's options", with_options_left(), "6, count 1, at 67", "reads", PASSPHRASE
    yield "damaged ciphertext", with_damaged_ciphertext(), "read", "refuses", PASSPHRASE
    empty = put(encrypted(ED25519, b"aes256-ctr", options=bcrypt["options"]), "ciphertext", b"")
    yield "empty ciphertext", empty, "read", "refuses", PASSPHRASE


def differences():
    groups = [crate_differences(), scalar_differences(), section_differences(), encryption_differences(), rsa_differences()]
    groups += [short_scalar_differences(), strange_differences(), several_differences()]
    rows = [row for group in groups for row in group]
    for number, (title, fields, *rest) in enumerate(rows, 1):
        image = fields if isinstance(fields, bytes) else join(fields)
        yield Difference(f"D{number}", title, image, *rest)


# ---- comparing


def said_here(image):
    """The model's answer in the document's words."""
    answer = model.read(image)
    if answer.number == 0:
        return "read" if model.form(image) else "read, form no"
    if answer.number == 6:
        return f"6, count {answer.count}, at {answer.at}"
    return f"{answer.number} at {answer.at}"


def has_openssh():
    """Whether the OpenSSH here is the document's. ssh-keygen doesn't tell its version, ssh does."""
    if shutil.which("ssh-keygen") is None or shutil.which("ssh") is None:
        return False
    return OPENSSH in subprocess.run(["ssh", "-V"], capture_output=True, text=True).stderr


def said_by_openssh(image, passphrase):
    return "refuses" if blob_by_ssh_keygen(image, passphrase) is None else "reads"


# The crate's errors by the numbers of docs/RULES.md, 2.1; it has others, which that table hasn't.
ERRORS = {"1": "Length", "2": "FormatEncoding", "3": "Crypto", "4": "AlgorithmUnknown", "5": "PublicKey", "7": "CharacterEncoding"}


def said_by_crate(answer):
    """What the crate answered, in the document's words."""
    told, *sums = answer.theirs
    if told == "read":
        same = answer.ours[2] if sums[1] == "=" else sums[1]
        return "reads" if same == sum_of(answer.image) else "reads, writes otherwise"
    number, _, count = told.partition("+")
    return f"`TrailingData`, {count}" if number == "6" else f"`{ERRORS.get(told, told)}`"


def crate_answers():
    """The crate's stored answers to the rows, by their ids."""
    return {answer.name: answer for answer in answers() if answer.name.startswith("D")}


def row_of(case, crate):
    """What the document's row must say; nothing of the crate where no answer to that very image is stored."""
    stored_answer = crate.get(case.id)
    known = stored_answer is not None and stored_answer.image == case.image
    return case.id, case.here, case.openssh, said_by_crate(stored_answer) if known else ""


def said_by_document():
    """What the document's rows say of each id, by their numbers: this reader, OpenSSH and the crate, the third to fifth columns."""
    rows = [line.split("|") for line in DOCUMENT.read_text(encoding="utf-8").splitlines() if line.startswith("| D")]
    said = [tuple(cell.strip() for cell in (row[1], *row[3:6])) for row in rows]
    return sorted(said, key=lambda row: int(row[0][1:]))


def compare(cases, with_openssh):
    """Prints a line for each and answers how many differ."""
    differing = 0
    for case in cases:
        here = said_here(case.image)
        openssh = said_by_openssh(case.image, case.passphrase) if with_openssh else case.openssh
        same = (here, openssh) == (case.here, case.openssh)
        differing += not same
        verdict = "" if same else f"  DIFFERS: {case.here}; OpenSSH {case.openssh}"
        print(f"{case.id:4}{case.title}: {here}" + (f"; OpenSSH {openssh}" if with_openssh else "") + verdict)
    return differing


def compare_written(cases):
    """Answers how many of the images that WRITTEN names aren't written again as it says."""
    images = {case.id: case.image for case in cases}
    differing = 0
    for read, meant in WRITTEN.items():
        reply, after = model_writing.rewrite(images[read], buffer=bytes(LIMIT))
        if after[: reply.length] != images[meant]:
            print(f"DIFFERS: {read} written again isn't {meant}")
            differing += 1
    return differing


def write_key(path, text):
    path.touch(mode=0o600)
    path.write_bytes(text)


def write(cases, folder):
    folder.mkdir(parents=True, exist_ok=True)
    for case in cases:
        (folder / f"{case.id}.bin").write_bytes(case.image)
        write_key(folder / f"{case.id}.key", armour(case.image))
    for case in spellings(join(ed25519())):
        write_key(folder / f"{case.id}.key", case.text)


def main():
    words = sys.argv[1:]
    if words and (words[0] != "--write" or len(words) != 2):
        sys.exit(__doc__)
    cases = list(differences())
    if words:
        write(cases, pathlib.Path(words[1]))
    with_openssh = has_openssh()
    differing = compare(cases, with_openssh) + compare_written(cases)
    differing += compare_spellings(join(ed25519()), with_openssh, DOCUMENT.read_text(encoding="utf-8"))
    if not with_openssh:
        print(f"no ssh-keygen of {OPENSSH} here: OpenSSH's half was left out")
    crate = crate_answers()
    for said, right in itertools.zip_longest(said_by_document(), [row_of(case, crate) for case in cases]):
        if said != right:
            print("DIFFERS: docs/DIFFERENCES.md has", said, "for", right)
            differing += 1
    sys.exit(1 if differing else 0)


if __name__ == "__main__":
    main()
