"""Gives the repository's definitions, facts, lemmas, fields and constructors the names of tools/port_names.txt, a line `old new` for each.

Run once, at the top of the repository, after the kit's own port script. Names are replaced as whole tokens:

  - in crates/*/specs and crates/*/proofs, in code and in comments. In the proof of one function (proofs/NAME) only a name that the file
    imports, a field, and what is reached through a module; a call's place in a walk, as `c.before.key-of.ensures`, stays, and so does a
    name that the file declares;
  - in crates/*/src, in `ghost` items, clauses and attributes, and in comments between backquotes; code and strings stay;
  - in README.md, CONTRIBUTING.md, docs and the README.md of oracle, tools and bindings, between backquotes. CHANGELOG.md and docs/changes
    speak of names as they were.

A name that a file imports from the kit stays in that file. A plain word (`answers`) is replaced only where it can't be prose or a local
name: between backquotes in a comment, and in the code of a file that imports or declares it; never in a page.
must-fail/*.edit and tools/*.py are not touched."""
import pathlib
import re

TOKEN = re.compile(r"[^\s(){};,.@\"«»\[\]`]+")
COMMENT = re.compile(r"(?m)(?:^|(?<=\s))--(?=[\s-]|$).*$")
OPAQUE = re.compile(r"//[^\n]*|\"(?:\\[\s\S]|[^\"\\])*\"|'(?:\\.|[^'\\])'")
CLAUSE = re.compile(r"\b(?:requires|ensures|invariants?|measure|decreases|ghost)\b[^{;]*[{;]|#!?\[")
CLOSES = {"{": "}", "[": "]"}
# what a walk has of a call or a test, after its place
WALKED = re.compile(r"\.(?:ensures|requires|result|given|args|true|false|now|Pre|Post)\b")


def table():
    lines = pathlib.Path("tools/port_names.txt").read_text().splitlines()
    names = dict(line.split() for line in lines if line and not line.startswith("#"))
    again = set(names) & set(names.values())
    assert not again, f"both old and new: {again}"
    return names


NAMES = table()


def plain(name):
    return re.fullmatch(r"[a-z0-9]+", name) is not None


def marked(name):
    """Can't be a word of prose or a name of the code."""
    return re.search(r"-|[A-Z]", name) is not None


def turn(text, wanted):
    """TEXT with each token that is in the table and that `wanted(match)` lets through replaced."""
    return TOKEN.sub(lambda m: NAMES[m.group()] if m.group() in NAMES and wanted(m) else m.group(), text)


def turn_quoted(text, wanted):
    return re.sub(r"`[^`\n]+`", lambda m: turn(m.group(), wanted), text)


def turn_comment(text):
    return turn_quoted(turn(text, lambda m: marked(m.group())), lambda m: True)


def imports(code):
    """The names that the file imports from the repository, and those that it imports from the kit under the kit's names."""
    own, given, kit = set(), set(), set()
    for module, words in re.findall(r"\buse\s+([^\s{;]+?)\.\{([^}]*)\}", code):
        crate = re.match(r"Rattle\.([a-z0-9_]+)\.", module)
        home = own if crate and pathlib.Path("crates", crate.group(1)).is_dir() else kit
        for word in words.split(","):
            name = word.split()
            if name:
                home.add(name[0])
            if len(name) > 2:
                home.add(name[2])
                given.add(name[2])
    return own, kit - given


def fields():
    """The fields of the repository's records."""
    found = set()
    for path in pathlib.Path("crates").glob("*/*/*.antt"):
        for body in re.findall(r"(?m)^ *(?:pub )?record [^{][^\n]*\n((?: +[^\n]*\n)*)", path.read_text()):
            found.update(re.findall(r"(?m)^ +(?:pub )?(\S+) :(?=\s)", body))
    return found


def turn_antt(text, of_function):
    code = COMMENT.sub("", text)
    own, kit = imports(code)
    declared = set(re.findall(r"(?m)^\s*(?:(?:abbrev|unfoldable|pub) )*(\S+) :(?=\s)", code))
    aliases = set(re.findall(r"(?m)^use [^\s{]+ as (\S+)$", code))

    def wanted(m):
        name = m.group()
        if name in kit:
            return False
        if plain(name):
            return name in own or name in declared and not of_function
        if not of_function:
            return True
        if m.string[m.start() - 1 : m.start()] == ".":
            return not WALKED.match(m.string, m.end())
        return name in own or name in FIELDS and name not in declared and name not in aliases

    out, at = [], 0
    for comment in COMMENT.finditer(text):
        out += [turn(text[at : comment.start()], wanted), turn_comment(comment.group())]
        at = comment.end()
    return "".join(out) + turn(text[at:], wanted)


def turn_source(text):
    hidden = OPAQUE.sub(lambda m: " " * len(m.group()), text)
    clauses, at = [], 0
    while head := CLAUSE.search(hidden, at):
        at = head.end()
        opens = head.group()[-1]
        depth = 1 if opens in CLOSES else 0
        while depth:
            depth += (hidden[at] == opens) - (hidden[at] == CLOSES[opens])
            at += 1
        # what follows `ghost use ..` up to its `;`
        if head.group().startswith("ghost use") and opens == "{":
            at = hidden.index(";", at)
        clauses.append((head.start(), at))

    def within(m):
        return any(a <= m.start() < b for a, b in clauses) and not hidden[m.start()].isspace()

    out, at = [], 0
    for m in TOKEN.finditer(text):
        if m.group() in NAMES and within(m):
            out += [text[at : m.start()], NAMES[m.group()]]
            at = m.end()
    text = "".join(out) + text[at:]
    return OPAQUE.sub(lambda m: turn_quoted(m.group(), lambda n: True) if m.group().startswith("//") else m.group(), text)


def turn_page(text):
    """A quoted piece may go over the end of a line."""
    return re.sub(r"`[^`\n]+(?:\n[^`\n]+)?`", lambda m: turn(m.group(), lambda n: marked(n.group())), text)


def change(paths, turned):
    for path in sorted(paths):
        old = path.read_text()
        new = turned(path, old)
        if new != old:
            path.write_text(new)


FIELDS = fields()

if __name__ == "__main__":
    here = pathlib.Path(".")
    change(
        [*here.glob("crates/*/specs/**/*.antt"), *here.glob("crates/*/proofs/**/*.antt")],
        lambda path, text: turn_antt(text, len(path.parts) > 4),
    )
    change(here.glob("crates/*/src/**/*.rt"), lambda path, text: turn_source(text))
    pages = [here / "README.md", here / "CONTRIBUTING.md", *here.glob("docs/*.md"), *here.glob("bindings/**/README.md")]
    pages += [path for path in (here / "oracle/README.md", here / "tools/README.md") if path.exists()]
    change(pages, lambda path, text: turn_page(text))
