"""What the tests of saltorchard.py have in common: where things are, the library, and what a function answers."""
import os
import pathlib
import platform
import subprocess
import sys
import tempfile
import unittest

HERE = pathlib.Path(__file__).resolve().parent
ROOT = HERE.parent.parent
MODULE = HERE / "saltorchard.py"
sys.path[:0] = [str(HERE), str(ROOT / "tools")]

import saltorchard  # noqa: E402
from images import CORPUS  # noqa: E402


IMAGE = (CORPUS / "keygen-ed25519-ascii.bin").read_bytes()


def need_library():
    """Sees to it that SALTORCHARD_LIBRARY names one, if need be by install.sh, until the tests of a file are done."""
    if platform.machine() != "x86_64":
        raise unittest.SkipTest("the library is for x86-64, and this Python isn't")
    if "SALTORCHARD_LIBRARY" not in os.environ:
        folder = tempfile.TemporaryDirectory()
        unittest.addModuleCleanup(folder.cleanup)
        subprocess.run([ROOT / "bindings" / "install.sh", folder.name], check=True, stdout=subprocess.DEVNULL)
        os.environ["SALTORCHARD_LIBRARY"] = f"{folder.name}/lib/{saltorchard._NAME}"
        unittest.addModuleCleanup(os.environ.pop, "SALTORCHARD_LIBRARY")


def answer(function, *arguments):
    """What a function answers, or its refusal as number, count and place."""
    try:
        return function(*arguments)
    except saltorchard.Refusal as refusal:
        return refusal.number, refusal.count, refusal.place
