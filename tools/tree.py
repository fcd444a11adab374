"""The project's files, without those that are made: rt makes crates/NAME/out, and all else is made below a target/. And what crates.txt
lists."""
import fnmatch
import functools
import os
import re

MADE = (".git", "target", "out", "__pycache__")


def text(path):
    with open(path, encoding="utf-8") as file:
        return file.read()


def walk():
    """As os.walk of the project."""
    for base, folders, names in os.walk("."):
        folders[:] = sorted(folder for folder in folders if folder not in MADE)
        yield base, folders, sorted(names)


@functools.cache
def paths():
    return [os.path.join(base, name)[2:] for base, _, names in walk() for name in names]


def files(*patterns):
    """The files whose path is like one of the patterns, in which a star goes over slashes too."""
    return [path for path in paths() if any(fnmatch.fnmatchcase(path, pattern) for pattern in patterns)]


def crates():
    """Each crate that crates.txt lists: whether it is a static library, and what it uses."""
    listed = re.sub(r"#[^\n]*", "", text("crates.txt"))
    return {name: (bool(kind), uses.split()) for name, kind, uses in re.findall(r"^(\w+)( +staticlib)?\b[^:\n]*:([^\n]*)$", listed, re.M)}


def static_libraries():
    return [name for name, (is_static, _) in crates().items() if is_static]
