#!/usr/bin/env python3
"""Holds the C interface's number to what it numbers. bindings/c/interface.txt has a line for each interface: its number and the
sha256 of the header's declarations, which are the header without comments, white space and the functions that it defines itself,
`static inline`: these aren't the archive's. The last line is the present one: the digest must be the header's, and the number that of
the header, of the Rust crate, of the Python module and of the function that the archive exports. Where git knows the file's earlier versions, their
lines must stand. With --digest it prints the header's digest, for a new line."""
import hashlib
import re
import subprocess
import sys

HEADER = "bindings/c/saltorchard.h"
LINES = "bindings/c/interface.txt"
CRATE = "bindings/rust/src/c.rs"
BUILD = "bindings/rust/build.rs"
PYTHON = "bindings/python/saltorchard.py"
SOURCE = "crates/c_interface_c/src/lib.rt"
NAME = r"saltorchard_interface_(\d+)"
# A function that the header defines: its head is a line, its braces stand at the margin, and all between them is indented and no
# directive. What is laid out otherwise stays among the declarations.
DEFINED = re.compile(r"^static inline [^\n;{}=()]+\([^\n;{}=()]*\)\n\{\n(?:[ \t]+[^\s#][^\n]*\n|[ \t]*\n)*\}\n", re.M)


def text(path):
    with open(path, encoding="utf-8") as file:
        return file.read()


def digest(header):
    declared = DEFINED.sub("", re.sub(r"/\*.*?\*/", "", header, flags=re.S))
    return hashlib.sha256(re.sub(r"\s", "", declared).encode()).hexdigest()


def lines(listed):
    """Number and digest of each interface, the first one first."""
    found = re.findall(r"^(\d+) ([0-9a-f]{64})\b", listed, re.M)
    return [(int(number), digest) for number, digest in found]


def git(*words):
    try:
        return subprocess.run(["git", *words], capture_output=True, text=True).stdout
    except FileNotFoundError:
        return ""


def earlier():
    """The lines of each version that was committed; none without git, or outside a checkout."""
    return [lines(git("show", f"{commit}:{LINES}")) for commit in git("log", "--format=%H", "--", LINES).split()]


def numbers():
    """Each place that says the present number, with what it says."""
    for path, pattern in [
        (HEADER, r"#define SALTORCHARD_INTERFACE (\d+)"),
        (HEADER, NAME + r"\(void\);"),
        (HEADER, r"= " + NAME + ";"),
        (CRATE, r"fn " + NAME + r"\("),
        (CRATE, r"= " + NAME + ";"),
        (BUILD, r'const INTERFACE: &str = "(\d+)";'),
        (PYTHON, r"\nINTERFACE = (\d+) "),
        (SOURCE, r'pub extern "C" fn ' + NAME + r"\("),
    ]:
        yield path, pattern, [int(number) for number in re.findall(pattern, text(path))]


def faults():
    interfaces = lines(text(LINES))
    if not interfaces:
        yield f"{LINES} has no line"
        return
    last, known = interfaces[-1]
    risen = [number for number, _ in interfaces]
    if risen != sorted(set(risen)):
        yield f"the numbers in {LINES} don't rise"
    if any(interfaces[:len(old)] != old for old in earlier()):
        yield f"{LINES} has lost or changed a line that was committed"
    for path, pattern, said in numbers():
        if said != [last]:
            yield f"{path} should say {last} once, the last number of {LINES}, at {pattern}, and says {said}"
    now = digest(text(HEADER))
    if now != known:
        yield f"the declarations of {HEADER} aren't those of interface {last}: raise the number and add a line to {LINES} ({now})"
    crate = text(CRATE)
    if len(re.findall(r"^pub fn ", crate, re.M)) != crate.count("    links();\n"):
        yield f"{CRATE} has a function that doesn't refer to the interface's number by links()"


def main():
    if sys.argv[1:] == ["--digest"]:
        print(digest(text(HEADER)))
        return 0
    wrong = list(faults())
    for line in wrong:
        print(line)
    print("interface: %s" % ("%d faults" % len(wrong) if wrong else "ok"))
    return 1 if wrong else 0


if __name__ == "__main__":
    sys.exit(main())
