"""Holds what the documents name to the tree: each path, script, switch, function, theorem, definition and type that stands in
backquotes is there, and so is the heading that a link points at. A name is there if it is a word of a source, and of antt outside its
comments, where names that are gone may be spoken of. Names of one small word, as `value`, say too little to be looked for. The change
pages, docs/DESIGN-PASS.md, docs/LOOK-BACK.md, docs/PORT.md and CHANGELOG.md speak of names as they were: there only headings are looked for.
check_texts.py runs it."""
import fnmatch
import os
import re

import tree as project

CODE = (".rt", ".rs", ".py", ".c", ".h", ".sh", ".awk")
SUFFIXES = (*CODE, ".md", ".txt", ".antt", ".edit", ".toml")
SCRIPTS = ("inspect", "keys", "armour", "dearmour", ".ci/run")
FORMER = ("docs/changes/", "docs/DESIGN-PASS.md", "docs/LOOK-BACK.md", "docs/PORT.md", "CHANGELOG.md")
RT = "all check ci doc expand fmt help lemma lib must-fail names new plant run seed selftest test tidy try verdict version".split()
# Which of them take names of crates.
OF_CRATES = "ci must-fail".split()

# Names that aren't the project's own, by whose they are; with `::` at its end whatever such a type or module has.
OTHERS = {
    "the crate ssh-key's and those that it uses": "ConstantTimeEq Dsa EcdsaPrivateKey EcdsaPrivateKey:: Ed25519Keypair:: Error::Crypto "
    "Kdf::decode KeypairData:: LineEnding:: PrivateKey:: RsaPrivateKey Zeroizing ct_eq decode_as private_key_bytes public_key_bytes",
    "Rust's, the kit's and bash's": "BASH_ENV OpenOptions:: io:: std:: str:: u8::",
    "other programs' and their files'": "decode_privatekey_comment_pair encrypted_issue_369_rsa_opensshv1 ssh-keygen",
    "crates' names before, in docs/ARCHITECTURE.md": "key_laws plain_rsa",
    "a word of oracle/answers.txt": "refused-10",
}
NOT_OURS = {name for names in OTHERS.values() for name in names.split()}

# A name's letters say among which words of the tree it has to be.
SHAPES = (
    (r"[a-z0-9]+(-[a-z0-9]+)+", ("antt", "quoted", "code")),
    (r"[a-z0-9]+([A-Z][a-z0-9]*)+", ("antt",)),
    (r"\w+_\w+", ("antt", "code")),
    (r"[A-Z]\w*[a-z]\w*", ("antt", "code")),
)

SPAN = re.compile(r"`([^`\n]+(?:\n[^`\n]+)?)`")
COMMAND = re.compile(r"^ {4}(?:\$ )?((?:bash|python3|rt|\./\w+) [^#\n]*)", re.M)
PLAIN_PATH = re.compile(r"(?<![\w./-])((?:\.ci|bench|bindings|crates|docs|oracle|tools)/[\w./-]*\w)")
LINK = re.compile(r"\]\(([^)#\s]*)#([^)\s]+)\)")


def text_of(path):
    with open(path, encoding="utf-8") as file:
        return file.read()


def without_fences(text):
    return re.sub(r"^```.*?^```", lambda fenced: "\n" * fenced.group().count("\n"), text, flags=re.M | re.S)


class Tree:
    """The project's paths and documents, and the words of its sources; each file is read once."""

    def __init__(self):
        self.paths, self.ends, self.documents = set(), set(), {}
        self.antt, self.code, self.quoted = set(), set(), set()
        self.folders, self.homes = {}, {}
        for base, folders, files in project.walk():
            for name in folders + files:
                self.enter(os.path.join(base, name)[2:])
            for name in files:
                self.read(os.path.join(base, name)[2:])

    def enter(self, path):
        """A path may be named by its end, a specification as crate/File, an edit as crate/edit, a file by its stem."""
        parts = path.split("/")
        stem = parts[-1].partition(".")[0]
        self.paths.add(path)
        self.ends.update("/".join(parts[i:]) for i in range(len(parts)))
        self.ends.add(f"{parts[1]}/{stem}" if parts[0] == "crates" and path.endswith((".antt", ".edit")) else path)
        self.code.add(stem)

    def read(self, path):
        if path.endswith(".md"):
            self.documents[path] = without_fences(text_of(path))
        elif path.endswith(".antt"):
            self.antt.update(re.findall(r"[\w-]+", re.sub(r"--(?: .*)?$", "", text_of(path), flags=re.M)))
        elif path.endswith(CODE) or path in SCRIPTS:
            self.read_code(path, text_of(path))

    def read_code(self, path, text):
        """Words, with their hyphens in strings and switches; and of a crate's sources which types and modules they declare."""
        found = set(re.findall(r"\w+", text))
        self.code |= found
        self.quoted.update(word for string in re.findall(r'"([^"\n]*)"', text) for word in re.findall(r"[\w-]+", string))
        self.quoted.update(re.findall(r"--[a-z][a-z-]*", text))
        home = re.match(r"(?:crates/(\w+)|bindings/rust)/src/", path)
        if home:
            functions, owners = set(re.findall(r"\bfn (\w+)", text)), set(re.findall(r"\b(?:struct|enum|trait|mod|type) (\w+)", text))
            self.folders.setdefault(home.group(), set()).update(functions, owners, (word for word in found if word[0].isupper()))
            for name in owners | {home.group(1)}:
                self.homes.setdefault(name, set()).add(home.group())

    def has_path(self, name):
        name = name.rstrip("/")
        return name in self.ends or "*" in name and bool(fnmatch.filter(self.ends, name))

    def has_member(self, owner, names):
        """Whether a crate, type or module has the names, one within the other; None where there is no such owner."""
        homes = self.homes.get(owner)
        return homes and any(self.folders[home].issuperset(names) for home in homes)


def is_path(word):
    """Whether a word is a path of this tree's: not one of another system's, nor with a part that the reader is to fill in."""
    if not re.fullmatch(r"[\w./*-]+", word) or re.match(r"/|usr/|target/|out/|\.\./", word) or re.search(r"(^|/)[A-Z]+(/|$)", word):
        return False
    return "/" in word or word.endswith(SUFFIXES)


def commands_faults(tree, span):
    """Each command of a line of the shell's, or a span that is a path."""
    for command in re.split(r"&&|[|;]", span):
        yield from command_faults(tree, [part.rstrip(",:)") for part in command.split()] or [""])


def command_faults(tree, parts):
    """Paths, the switches of a script of the project, rt's commands and the crates that they are given."""
    if parts[0].startswith("./"):
        parts[0] = parts[0][2:]
        yield from ([] if parts[0] in tree.paths else [parts[0]])
    paths = [part for part in parts if is_path(part) and not part.startswith("./")]
    yield from (path for path in paths if not tree.has_path(path))
    if paths or parts[0].startswith("--") or parts[0] in SCRIPTS:
        yield from (part for part in parts if re.fullmatch(r"--[a-z][a-z-]*", part) and part not in tree.quoted)
    if parts[0] == "rt" and len(parts) > 1:
        yield from ([] if parts[1] in RT else [f"rt {parts[1]}"])
        crates = parts[2:] if parts[1] in OF_CRATES else []
        yield from (part for part in crates if re.fullmatch(r"[a-z]\w*", part) and f"crates/{part}" not in tree.paths)


def member_faults(tree, span):
    """`crate::function`, `Type::method` and the like, and methods of what the Rust crate calls an image, a header, an error."""
    for whole in re.findall(r"(?<![\w:])\w+(?:::\w+)+", span):
        owner, *names = whole.split("::")
        if not tree.has_member(owner, names) and not NOT_OURS & {whole, f"{owner}::"}:
            yield whole
    for name in re.findall(r"(?<![\w.])(?:image|header|error|lent)\.(\w+)\(", span):
        if name not in tree.folders["bindings/rust/src/"]:
            yield name


def name_faults(tree, span):
    """A span that is one name, or a call."""
    name = re.match(r"[\w-]+(?=$|\(| \{)|", span).group()
    among = next((among for shape, among in SHAPES if re.fullmatch(shape, name)), None)
    if among and name not in NOT_OURS and not any(name in getattr(tree, words) for words in among):
        yield name


def plain_path_faults(tree, path):
    if is_path(path) and not {"target", "out"} & set(path.split("/")) and path not in tree.paths:
        yield path


LOOKS = (
    (SPAN, (commands_faults, member_faults, name_faults)),
    (COMMAND, (commands_faults,)),
    (PLAIN_PATH, (plain_path_faults,)),
)


def named_faults(tree, path, text):
    for pattern, checks in LOOKS:
        for found in pattern.finditer(text):
            named, line = " ".join(found.group(1).split()), text.count("\n", 0, found.start()) + 1
            for fault in (fault for check in checks for fault in check(tree, named)):
                yield f"{path}:{line} names {fault}, which isn't there"


def anchors(text):
    """What a link can point at: `<a id=..>`, and headings as GitHub names them, in small letters, with hyphens for blanks and without
    other signs; the second of one name has a number."""
    yield from re.findall(r'<a (?:id|name)="([^"]*)"', text)
    seen = {}
    for heading in re.findall(r"^#{1,6} +(.*?)[ #]*$", text, re.M):
        plain = re.sub(r"\[([^]]*)\]\([^)]*\)", r"\1", heading).lower()
        name = re.sub(r"[^\w\- ]", "", plain).replace(" ", "-")
        seen[name] = seen.get(name, -1) + 1
        yield f"{name}-{seen[name]}" if seen[name] else name


def link_faults(tree, path, text):
    for file, anchor in LINK.findall(text):
        target = os.path.normpath(os.path.join(os.path.dirname(path), file)) if file else path
        if target in tree.documents and anchor not in anchors(tree.documents[target]):
            yield f"{path} links to {file}#{anchor}, which is no heading there"


def faults():
    tree = Tree()
    found = []
    for path, text in sorted(tree.documents.items()):
        found += link_faults(tree, path, text)
        if not path.startswith(FORMER):
            found += named_faults(tree, path, text)
    return list(dict.fromkeys(found))
