#!/usr/bin/env python3
"""Holds the declarations of saltorchard.py to the C header's, and tries which library it takes, what it says where there is none, its
program, and the lines of README.md."""
import ast
import ctypes
import doctest
import importlib.util
import os
import pathlib
import re
import shutil
import subprocess
import sys
import tempfile
import unittest
from unittest import mock

from trial import CORPUS, HERE, IMAGE, MODULE, ROOT, need_library as setUpModule  # noqa: F401

import model
import model_armour
import saltorchard

HEADER = ROOT / "bindings" / "c" / "saltorchard.h"
C_TYPES = {"uint8_t": ctypes.c_uint8, "uint32_t": ctypes.c_uint32, "uint64_t": ctypes.c_uint64, "size_t": ctypes.c_size_t,
           "const uint8_t *": ctypes.c_char_p, "const uint64_t *": ctypes.POINTER(ctypes.c_uint64), "uint8_t *": ctypes.c_void_p,
           "saltorchard_image": saltorchard._Image, "saltorchard_key": saltorchard._Key, "saltorchard_reply": saltorchard._Reply,
           "saltorchard_setting": saltorchard._Setting}


def compile_c(folder, *words):
    subprocess.run([os.environ.get("SALTORCHARD_CC", "gcc"), *words], check=True, cwd=folder)


# ---- the header's declarations


def printed_by_c(body):
    """The lines that a C program prints which includes the header."""
    with tempfile.TemporaryDirectory() as folder:
        source = pathlib.Path(folder) / "program.c"
        source.write_text(f'#include "saltorchard.h"\n#include <stdio.h>\nint main(void)\n{{\n{body}    return 0;\n}}\n')
        library = os.environ["SALTORCHARD_LIBRARY"]
        found_there = f"-Wl,-rpath,{os.path.dirname(os.path.abspath(library))}"
        compile_c(folder, "-std=c11", f"-I{HEADER.parent}", str(source), os.path.abspath(library), found_there, "-o", "program")
        return subprocess.run([f"{folder}/program"], check=True, capture_output=True, text=True).stdout.splitlines()


class Declarations(unittest.TestCase):
    def test_structs(self):
        structs = {"saltorchard_part": saltorchard._Part, "saltorchard_image": saltorchard._Image, "saltorchard_key": saltorchard._Key,
                   "saltorchard_reply": saltorchard._Reply, "saltorchard_setting": saltorchard._Setting}
        rows = [(f"sizeof({name})", ctypes.sizeof(struct)) for name, struct in structs.items()]
        for name, struct in structs.items():
            for field, _ in struct._fields_:
                at = getattr(struct, field)
                rows += [(f"offsetof({name}, {field})", at.offset), (f"sizeof((({name} *)0)->{field})", at.size)]
        lines = printed_by_c("".join(f'    printf("%zu\\n", {expression});\n' for expression, _ in rows))
        self.assertEqual(lines, [str(number) for _, number in rows])

    def test_reasons(self):
        lines = printed_by_c("    for (unsigned number = 0; number < 13; number++)\n        puts(saltorchard_reason(number));\n")
        self.assertEqual(lines[:-1], list(saltorchard._REASONS))
        self.assertEqual(lines[-1].replace("header", "module"), saltorchard.Refusal(12, 0, 0).reason)

    def test_functions(self):
        text = re.sub(r"/\*.*?\*/", "", HEADER.read_text(encoding="utf-8"), flags=re.S)
        for name, (restype, argtypes) in saltorchard._FUNCTIONS.items():
            kind, listed = re.search(rf"^(\w+) {name}\(([^)]*)\);", text, re.M).groups()
            types = [re.sub(r"\w+$", "", one.strip()).strip() for one in listed.split(",") if one != "void"]
            self.assertEqual((C_TYPES[kind], [C_TYPES[one] for one in types]), (restype, argtypes), name)

    def test_numbers(self):
        text = HEADER.read_text(encoding="utf-8")
        self.assertIn(f"#define SALTORCHARD_INTERFACE {saltorchard.INTERFACE}\n", text)
        self.assertIn(f"enum {{ SALTORCHARD_LIMIT = {saltorchard.LIMIT} }};", text)
        self.assertIn(f"enum {{ SALTORCHARD_MOST_KEYS = {saltorchard.MOST_KEYS} }};", text)
        for name in ("SETTING_LEN", "STORE_LEN", "DEVICES"):
            self.assertRegex(text, rf"\bSALTORCHARD_{name} = {getattr(saltorchard, name)}\b")


# ---- the library, the program and the texts


def module_at(path):
    """The module once more, from there, with a library of its own to find."""
    path.parent.mkdir(parents=True, exist_ok=True)
    shutil.copy(MODULE, path)
    spec = importlib.util.spec_from_file_location("another", path)
    module = importlib.util.module_from_spec(spec)
    spec.loader.exec_module(module)
    return module


class Library(unittest.TestCase):
    def setUp(self):
        self.library = os.environ["SALTORCHARD_LIBRARY"]
        folder = tempfile.TemporaryDirectory()
        self.addCleanup(folder.cleanup)
        self.folder = pathlib.Path(folder.name).resolve()
        for patch in (mock.patch.dict(os.environ), mock.patch("ctypes.util.find_library", return_value=None)):
            patch.start()
            self.addCleanup(patch.stop)
        del os.environ["SALTORCHARD_LIBRARY"]

    def found_at(self, module, *parts):
        path = self.folder.joinpath(*parts)
        path.parent.mkdir(parents=True, exist_ok=True)
        shutil.copy(self.library, path)
        self.assertEqual(module.read(IMAGE).algorithm, "ssh-ed25519")
        self.assertEqual(module._library()._name, str(path))

    def test_found(self):
        self.found_at(module_at(self.folder / "beside" / "saltorchard.py"), "beside", saltorchard._NAME)
        repository = module_at(self.folder / "bindings" / "python" / "saltorchard.py")
        self.found_at(repository, "target", "installed", "lib", saltorchard._NAME)
        named = module_at(self.folder / "beside" / "saltorchard.py")
        os.environ["SALTORCHARD_LIBRARY"] = str(self.folder / "named.so")
        self.found_at(named, "named.so")
        del os.environ["SALTORCHARD_LIBRARY"]
        installed = module_at(self.folder / "elsewhere" / "saltorchard.py")
        with mock.patch("ctypes.util.find_library", return_value=str(self.folder / "installed.so")):
            self.found_at(installed, "installed.so")

    def test_missing(self):
        module = module_at(self.folder / "alone" / "saltorchard.py")
        self.assertRaisesRegex(OSError, "there is no .*: install it by `bindings/install.sh PREFIX`", module.read, IMAGE)
        self.found_at(module, "alone", saltorchard._NAME)

    def test_refused(self):
        (self.folder / "text.so").write_text("not a library")
        own, other = saltorchard.INTERFACE, saltorchard.INTERFACE + 1
        for name, number in (("other", other), ("number", own)):
            (self.folder / f"{name}.c").write_text(f"unsigned long saltorchard_interface_{number}(void) {{ return {other}; }}\n")
            compile_c(self.folder, "-shared", "-fPIC", f"{name}.c", "-o", f"{name}.so")
        for name, words in (("text", "can't be loaded"), ("nowhere", "can't be loaded"), ("other", f"isn't of interface {own}"),
                            ("number", f"isn't of interface {own}")):
            os.environ["SALTORCHARD_LIBRARY"] = str(self.folder / f"{name}.so")
            self.assertRaisesRegex(OSError, words, module_at(self.folder / "saltorchard.py").read, IMAGE)


class Program(unittest.TestCase):
    def run_on(self, *arguments):
        done = subprocess.run([sys.executable, MODULE, *arguments], capture_output=True, text=True, timeout=60)
        return done.returncode, done.stdout, done.stderr

    def test_program(self):
        with tempfile.TemporaryDirectory() as name:
            folder = pathlib.Path(name)
            (folder / "text").write_bytes(model_armour.text_of(IMAGE))
            (folder / "longer").write_bytes(IMAGE + b"xx")
            (folder / "long").write_bytes(model_armour.BEGIN * 50_000)
            self.assertEqual(self.run_on(CORPUS / "keygen-ed25519-ascii.bin"), (0, model.report(IMAGE), ""))
            self.assertEqual(self.run_on(folder / "text"), (0, model.report(IMAGE), ""))
            status, out, err = self.run_on(folder / "longer")
            self.assertEqual((status, out, "at byte 242" in err), (1, "refused 6 2 242\n", True))
            self.assertEqual(self.run_on(folder / "long")[:2], (1, "refused 11 0 0\n"))
            for arguments in ([], [folder / "nowhere"], [folder], [folder / "text", folder / "text"]):
                status, out, err = self.run_on(*arguments)
                self.assertEqual((status, out, "Traceback" in err), (2, "", False))

    def test_python_3_8(self):
        ast.parse(MODULE.read_text(encoding="utf-8"), feature_version=(3, 8))

    def test_readme(self):
        """Its lines at the prompt, run in the repository's root."""
        before = os.getcwd()
        os.chdir(ROOT)
        self.addCleanup(os.chdir, before)
        failed, tried = doctest.testfile(str(HERE / "README.md"), module_relative=False, verbose=False)
        self.assertEqual(failed, 0)
        self.assertGreater(tried, 5)


if __name__ == "__main__":
    unittest.main()
