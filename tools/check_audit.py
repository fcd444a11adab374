#!/usr/bin/env python3
"""Holds docs/AUDIT.md and docs/PROVED.md to what they speak of: the lines of each file that is to be read, and that each theorem or definition
that is linked stands in the file that the link names. check_texts.py runs it.

    python3 tools/check_audit.py --archive    the sha256 of the built archive is the document's, where the kit is the one that it names
"""
import hashlib
import os
import re
import subprocess
import sys

ARCHIVE = "target/staticlib/libsaltorchard.a"
# What a file that is to be read defines for its own laws alone, after the part that is to be read, rests on these: where keys stand, by the
# lengths of what stands before them (edit_shells/Keys), and what a law says of an accepted edit (laws_edits/Steps).
FOR_LAWS = {("edit_shells/Keys", "format/Lengths"), ("laws_edits/Steps", "laws_edits/File")}


def text(path):
    with open(path, encoding="utf-8") as file:
        return file.read()


def lines(path):
    """How many lines there are to read: without empty ones, and those that bring names in."""
    read = re.sub(r"^(?:ghost )?use [^\n{]*(?:\{[^}]*\}[^\n]*)?$", "", text(path), flags=re.M)
    return sum(1 for line in read.splitlines() if line.strip())


def counted():
    document = text("docs/AUDIT.md")
    rows = re.findall(r"^\| \[[^]]+\]\(([^)]+)\) \| (\d+) \|", document, re.M)
    for link, said in rows:
        path = os.path.normpath(os.path.join("docs", link))
        if os.path.exists(path) and lines(path) != int(said):
            yield f"docs/AUDIT.md says that {path} has {said} lines to read, and it has {lines(path)}"
    if f"they are {sum(int(said) for _, said in rows):,} together" not in document:
        yield "docs/AUDIT.md doesn't say how many lines these are together"


def linked():
    for name, link in re.findall(r"\[`([^`]+)`\]\(([^)#]+\.antt)\)", text("docs/PROVED.md")):
        path = os.path.normpath(os.path.join("docs", link))
        if os.path.exists(path) and not re.search(rf"^ *(?:\w+ )*pub {re.escape(name)}(?: :| *\{{|$)", text(path), re.M):
            yield f"docs/PROVED.md links {name} to {path}, which doesn't state it"


def listed():
    """The specification files that are to be read, as crate/File."""
    return set(re.findall(r"^\| \[(\w+/\w+)\]", text("docs/AUDIT.md"), re.M))


def definitions(source):
    """What is defined in a file, without its laws: a law's statement and proof name what needn't be read, since they are checked."""
    return "\n".join(part for part in re.split(r"\n\s*\n", source) if re.search(r"^ *(?:pub )?(?:(?:abbrev|unfoldable) |record \w|data \w)", part, re.M))


def whole():
    """A definition that is to be read rests on none that isn't, and cites the rules that it states. Claims are over laws, too."""
    for name in sorted(listed()):
        crate, file = name.split("/")
        source = text(f"crates/{crate}/specs/{file}.antt")
        if "docs/RULES.md, " not in source.partition("\nuse ")[0]:
            yield f"{name} is to be read, and doesn't begin with the rules that it states"
        words = set(re.split(r"[\s(){}.,;]+", definitions(source)))
        used = re.findall(r"^(?:(?:pub|unfoldable) )*use Rattle\.(\w+)\.specs\.([A-Z]\w+)\.\{([^}]*)\}", source, re.M)
        for below, module, names in used:
            other = f"{below}/{module}"
            resting = sorted(words & {name.split()[-1] for name in names.split(",") if name.strip()})
            is_ours = os.path.isdir(f"crates/{below}")
            if is_ours and resting and other not in listed() and (name, other) not in FOR_LAWS and crate != "claims":
                yield f"docs/AUDIT.md has {name} read, which rests on {', '.join(resting)} of {other}, and not that"


def faults():
    return [*counted(), *linked(), *whole()]


def archive():
    document = text("docs/AUDIT.md")
    kit = re.search(r"`(rattle-kit-\S+ logic [0-9a-f]+)`", document).group(1)
    said = re.search(r"^    ([0-9a-f]{64})$", document, re.M).group(1)
    here = subprocess.run(["rt", "version"], capture_output=True, text=True, check=True).stdout.strip()
    with open(ARCHIVE, "rb") as file:
        found = hashlib.sha256(file.read()).hexdigest()
    if here != kit:
        print(f"the archive's sha256 isn't compared: docs/AUDIT.md has that of {kit}, and this is {here}")
        return 0
    print(f"the archive's sha256 is {'what docs/AUDIT.md says' if found == said else found + ', and docs/AUDIT.md says ' + said}")
    return 0 if found == said else 1


if __name__ == "__main__":
    sys.exit(archive() if sys.argv[1:] == ["--archive"] else 2)
