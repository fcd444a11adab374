#!/usr/bin/env python3
"""ECDSA keys of ssh-keygen, many of them with scalars shorter than SIZE: all must be read, and all in the form. And which forms of
a scalar other programs read.

    python3 tools/short_scalars.py                          400 P-521 keys and 2,000 P-256 keys
    python3 tools/short_scalars.py --p521 40 --p256 200     fewer, for a quick look
    python3 tools/short_scalars.py --model                  by the model alone, without the program `inspect`

First, of every new key the model must say that it is in the form, and the program's whole output must be the model's. Then keys
are taken whose scalar has SIZE bytes or one fewer, with the top bit of its first byte set and not, on each curve; where the first
part has none, ssh-keygen makes more. Scalars shorter than that are too rare: theirs are made up, and the points computed, for
P-256 and P-521. The model makes an image of each key with every number of zeros before the scalar, from none to one more than
fits. `puttygen` must read exactly those that are in the form here, `ssh-keygen` exactly those whose scalar's first byte is below
0x80, each with the right public key, and the program must print what the model says.

It exits with 1 if anything differs. ssh-keygen is needed, and the built program (`bash tools/build.sh inspect`) unless --model is said.
Without puttygen, Debian's package putty-tools, its part is left out, and the script says so. The keys are new each time.
"""
import argparse
import base64
import itertools
import pathlib
import shutil
import subprocess
import sys
import tempfile

import model
from against_ssh_keygen import armour, blob_by_ssh_keygen
from cases_scalar import number
from differences import P256, P521, ecdsa
from fetch_corpus import KINDS, has_short_scalar, new_key
from fields import SIZES, content
from images import join, keypair_fields, minimal, plain, put
from real_files import ROOT, RUN, said

CURVES = dict(KINDS[1:])
ALGORITHMS = dict(zip(CURVES, SIZES))
COMMENT = "oven-7"
MODEL_ALONE = "--model: the program inspect was not run, all answers are the model's"


# ---- new keys of ssh-keygen


def new_ecdsa_key(kind):
    return new_key(CURVES[kind], COMMENT, ["-N", ""])


def digits_of(image):
    """The scalar without leading zeros."""
    return content(image, model.read(image).scalar)


def report_faults(image, with_program):
    """What is wrong with the program's output. The keys are throw-away ones, so an image is shown whole."""
    wanted = model.report(image)
    got = said(["sh", RUN, "inspect"], image) if with_program else wanted
    return [] if got == wanted else [f"the program says {got!r}, the model {wanted!r}: {image.hex()}"]


def key_faults(image, with_program):
    if not model.form(image):
        return [f"not in the form: {model.report(image)!r}: {image.hex()}"]
    return report_faults(image, with_program)


def new_keys(kind, count, with_program):
    """So many new keys of a kind, and what is wrong with them."""
    images = [new_ecdsa_key(kind) for _ in range(count)]
    faults = [fault for image in images for fault in key_faults(image, with_program)]
    size = SIZES[ALGORITHMS[kind]]
    fewer = sum(len(digits_of(image)) < size for image in images)
    short = sum(map(has_short_scalar, images))
    print(f"{kind}: {count} new keys, {fewer} with a scalar below {size} bytes, {short} with a string below;", end=" ")
    print(f"{count - len(faults)} read and in the form", flush=True)
    return images, faults


# ---- keys with a scalar of each class


def class_of(image):
    """Curve, how many bytes the scalar has fewer than SIZE, and whether its top bit is set."""
    record = model.read(image)
    return record.algorithm, SIZES[record.algorithm] - record.scalar[1], digits_of(image)[0] >= 0x80


def classes(kind):
    """A P-521 scalar of 66 bytes begins with 1."""
    wanted = itertools.product([ALGORITHMS[kind]], (0, 1), (False, True))
    return [one for one in wanted if one != (3, 0, True)]


def one_of_each(images):
    """An image of each class of each curve, from these and where they have none from new keys."""
    found = {class_of(image): image for image in images}
    for kind in CURVES:
        while not set(classes(kind)) <= set(found):
            image = new_ecdsa_key(kind)
            found.setdefault(class_of(image), image)
    return [found[one] for kind in CURVES for one in classes(kind)]


def made_up():
    """Keys with shorter scalars, of more than half the bits that the curve has: OpenSSH refuses those with fewer."""
    for algorithm, first in itertools.product((P256, P521), (0x7F, 0x80)):
        for length in (SIZES[algorithm] // 2 + 1, SIZES[algorithm] - 2):
            scalar = number(first, length).rjust(SIZES[algorithm], b"\0")
            yield join(ecdsa(scalar, minimal(algorithm, scalar), algorithm))


# ---- every number of zeros before a scalar


def with_scalar(image, scalar):
    """The image of the same public key with this string for a scalar, padded as it must be."""
    record = model.read(image)
    point = content(image, record.point)
    fields = plain(record.algorithm, COMMENT.encode(), keypair=keypair_fields(record.algorithm, point, scalar))
    return join(put(fields, "blob.point", point))


def variants(image):
    """The image's key with no zeros before its scalar, and with each number of them up to SIZE + 2 bytes in all."""
    digits = digits_of(image)
    for length in range(len(digits), SIZES[model.read(image).algorithm] + 3):
        yield digits.rjust(length, b"\0")


def blob_by_puttygen(image):
    """The public blob that puttygen finds in an image, None where it refuses it."""
    with tempfile.TemporaryDirectory() as folder:
        path = pathlib.Path(folder) / "key"
        path.write_bytes(armour(image))
        run = subprocess.run(["puttygen", path, "-L"], stdin=subprocess.DEVNULL, capture_output=True)
    return base64.b64decode(run.stdout.split()[1]) if run.returncode == 0 else None


def variants_of(keys):
    """Each image with its scalar's string and the public blob that is to be found in it."""
    return [(with_scalar(key, scalar), scalar, content(key, model.read(key).blob)) for key in keys for scalar in variants(key)]


def program_faults(name, blob_by, must_read, made):
    """What a program does with the images, against which of them it must read, and with which public key."""
    if shutil.which(name) is None:
        print(f"{name} isn't here: which scalars it reads was not compared")
        return []
    found = [(image, blob if must_read(image, scalar) else None, blob_by(image)) for image, scalar, blob in made]
    read = sum(blob is not None for _, _, blob in found)
    print(f"{name}: {read} read, {len(made) - read} refused", flush=True)
    return [f"{name}: {'refused' if got is None else 'read'}, unlike expected: {image.hex()}"
            for image, wanted, got in found if got != wanted]


def compared(keys, with_program):
    """Prints how many images of the keys each program reads; answers what differs."""
    made = variants_of(keys)
    images = [image for image, _, _ in made]
    read, form = sum(map(is_read, images)), sum(map(model.form, images))
    print(f"\n{len(made)} images of {len(keys)} keys with other zeros before the scalar: {read} read here, {form} in the form")
    faults = [fault for image in images for fault in report_faults(image, with_program)]
    faults += program_faults("ssh-keygen", blob_by_ssh_keygen, lambda _, scalar: scalar[0] < 0x80, made)
    return faults + program_faults("puttygen", blob_by_puttygen, lambda image, _: model.form(image), made)


def is_read(image):
    return model.read(image).number == 0


def main():
    parser = argparse.ArgumentParser(description=__doc__, formatter_class=argparse.RawDescriptionHelpFormatter)
    parser.add_argument("--p521", type=int, default=400)
    parser.add_argument("--p256", type=int, default=2000)
    parser.add_argument("--model", action="store_true")
    words = parser.parse_args()
    if shutil.which("ssh-keygen") is None:
        sys.exit("ssh-keygen is missing: nothing was compared")
    if not words.model and not (ROOT / "target" / "bin" / "inspect").exists():
        sys.exit("the program inspect isn't built (bash tools/build.sh inspect): nothing was compared; --model goes without it")
    results = [new_keys(kind, count, not words.model) for kind, count in (("p521", words.p521), ("p256", words.p256))]
    images = [image for found, _ in results for image in found]
    faults = [fault for _, found in results for fault in found]
    faults += compared([*one_of_each(images), *made_up()], not words.model)
    print(*faults, sep="\n", end="\n" if faults else "")
    print(f"{len(faults)} answers differ" + (f"\n{MODEL_ALONE}" if words.model else ""))
    sys.exit(1 if faults else 0)


if __name__ == "__main__":
    main()
