"""Holds what C calls to what is proved of it: of each static library c_NAME_c of crates.txt every item is an export, which has the name, the
parameters, the answer and the clauses of a public function of the library c_NAME, word for word and with the same imports, and only calls
it; each such function is exported, but for the number of an earlier interface; and the archive is made of these static libraries. So what is proved of the function is said of the
export. check_texts.py runs it."""
import re

import tree

ARCHIVE = "tools/archive.sh"
HEADER = "bindings/c/saltorchard.h"
EXPORT = '#[unsafe(no_mangle)]\npub extern "C" fn '
# A function's name, what stands before its body, and the body.
FUNCTION = r"(\w+)(\(.*?)\n\{\n(.*?)^\}\n"
IMPORT = re.compile(r"^(?:ghost )?use (.+?)(?:\.|::)(?:\{([^}]*)\}|(\w+));$", re.M)


def source(crate):
    return re.sub(r"^ *//[^\n]*\n", "", tree.text(f"crates/{crate}/src/lib.rt"), flags=re.M)


def plain(words):
    """Without line breaks, which are laid out by the line's length."""
    return re.sub(r",?\s+\)", ")", re.sub(r"\(\s+", "(", " ".join(words.split())))


def functions(text, head):
    """Each function that begins with these words: its name, with what stands before its body, and the body."""
    for name, before, body in re.findall(f"^{re.escape(head)}{FUNCTION}", text, re.M | re.S):
        yield name, plain(before), plain(body)


def imports(text):
    """Each name that is imported, with whence."""
    return {(path, name.strip()) for path, several, one in IMPORT.findall(text) for name in (several or one).split(",")}


def call(library, name, before):
    arguments = re.findall(r"(\w+): ", before[: before.index(")")])
    return f"{library}::{name}({', '.join(arguments)})"


def is_earlier(name):
    """The number of an interface that the header no longer has."""
    number = re.fullmatch(r"saltorchard_interface_(\d+)", name)
    return number and int(number.group(1)) < int(re.search(r"#define SALTORCHARD_INTERFACE (\d+)", tree.text(HEADER)).group(1))


def leftover(text):
    """What else stands in the file."""
    rest = IMPORT.sub("", text.replace("#![tactic(auto)]\n", "", 1))
    return re.sub(f"^{re.escape(EXPORT)}{FUNCTION}", "", rest, flags=re.M | re.S).strip()


def faults_of(crate, uses):
    library = crate[:-2]
    if not crate.endswith("_c") or library not in uses:
        yield f"crates.txt: the static library {crate} isn't over a library of its name without _c"
        return
    text, below = source(crate), source(library)
    promised = {name: before for name, before, _ in functions(below, "pub fn ")}
    exported = list(functions(text, EXPORT))
    if leftover(text):
        yield f"crates/{crate} has more than exports: {leftover(text).splitlines()[0]}"
    for name, before, body in exported:
        if promised.get(name) != before:
            yield f"{crate}::{name} doesn't say what {library}::{name} says"
        if body != call(library, name, before):
            yield f"{crate}::{name} does more than call {library}::{name}, or less"
    if sorted(name for name, _, _ in exported) != sorted(name for name in promised if not is_earlier(name)):
        yield f"crates/{crate} doesn't export each public function of {library} once"
    for path, name in sorted(imports(text) - imports(below) - {(library, name) for name in re.findall(r"^pub struct (\w+)", below, re.M)}):
        yield f"crates/{crate} imports {name} of {path}, and {library} doesn't"


def archived():
    words = re.search(r"^crates=\((c_[^)]*)\)$", tree.text(ARCHIVE), re.M).group(1)
    return [f"{word}_c" for word in words.split()]


def faults():
    listed = tree.crates()
    for crate in tree.static_libraries():
        yield from faults_of(crate, listed[crate][1])
    if sorted(archived()) != sorted(tree.static_libraries()):
        yield f"{ARCHIVE} doesn't put together the static libraries of crates.txt"
