#!/usr/bin/env python3
"""What the gate holds the texts to, beside the proofs: every public function of a library has a contract that asks nothing,
a theorem NAME_determined and a place in docs/CONTRACTS.md, every proof and specification file says at its top what it is, nothing
names a place outside the project, what a document names and links to is there, the rows of docs/REFUSALS.md are those of cases_places.py,
the claims' list of entries is whole, what C calls says what is proved of it, the rules' numbers that are cited are there, what docs/AUDIT.md
and docs/PROVED.md count and link is so, the counts of docs/ARCHITECTURE.md are the tree's, and no merge is left half done. It reads text
and proves nothing."""
import glob
import os
import re
import sys

import check_audit
import check_entries
import check_exports
import check_names
import check_places
import check_rules
import tree

OUTSIDE = re.compile(r"\.\./shared|/work/|/opt/rattle|https?://[^\s)]*(debian|pypi|crates\.io)")
CODE = (".rt", ".antt", ".py", ".sh", ".md", ".edit", ".txt", ".rs", ".c", ".h", ".toml", ".awk")


def without_comments(text):
    return re.sub(r"//[^\n]*", "", text)


def public_functions(text):
    """The name of each `pub fn`, with what stands between its name and its body: parameters, answer and clauses."""
    for m in re.finditer(r'\bpub (?:extern "C" )?fn (\w+)', text):
        head = text[m.end():text.index("\n{", m.end()) if "\n{" in text[m.end():] else len(text)]
        body = re.search(r"(?:\n\s*| )\{\n", text[m.end():])
        yield m.group(1), text[m.end():m.end() + body.start()] if body else head


def libraries():
    """The source of each library, by its name; those of the static libraries are check_exports.py's."""
    static = set(tree.static_libraries())
    for path in tree.files("crates/*/src/lib.rt"):
        crate = path.split("/")[1]
        if crate not in static:
            yield crate, without_comments(tree.text(path))


def reads_stream(clauses):
    """Whether a function reads from a stream or a file, which give what no contract can say: then no reply is the only one. Of a function
    that answers an open file a contract can say nothing at all. `Read<T>`, what a reader answers, is none of these."""
    return re.search(r"\b(?:Read\b(?!<)|Files\b)", re.split(r"\n\s*(?:requires|ensures)\b", clauses)[0])


def contracts():
    for crate, source in libraries():
        if re.search(r"\bpub (?:mod|use)\b", source):
            yield f"{crate} has public functions outside its lib.rt, which is all that is read here"
        proofs = all_text(f"crates/{crate}/proofs/*.antt")
        for name, clauses in public_functions(source):
            if not re.search(r"\bensures\b", clauses) and "R::File" not in clauses:
                yield f"{crate}::{name} has no ensures"
            if re.search(r"\brequires\b", clauses):
                yield f"{crate}::{name} asks its caller"
            if not reads_stream(clauses) and not re.search(r"(?m)^ *(?:pub )?%s_determined :" % name, proofs):
                yield f"{crate}::{name} has no theorem {name}_determined"


def texts():
    for base, _, files in tree.walk():
        for name in files:
            path = os.path.join(base, name)
            if not name.endswith(CODE) and name not in ("inspect", "keys", "armour", "dearmour", "run", "NOTICE"):
                continue
            text = open(path, encoding="utf-8").read()
            if OUTSIDE.search(text) and not path.endswith("check_texts.py"):
                yield f"{path} names a place outside the project"
            if re.search(r"^(<{7}|>{7}) ", text, re.M):
                yield f"{path} has the marks of a merge that isn't done"
            if name.endswith(".antt") and not name == "Lib.antt" and not text.startswith("-- "):
                yield f"{path} does not say at its top what it is"


def all_text(*patterns):
    return "\n".join(map(tree.text, tree.files(*patterns)))


def named_edits(document):
    """The edits that the table's last column names after E, as CRATE/EDIT, where EDIT may end in a star."""
    for cell in re.findall(r"\| E ([^|;]*)", document):
        for crate, edit in re.findall(r"(\w+)/([\w-]*(?:\\\*)?)", cell):
            yield crate, edit.replace("\\*", "*")


def contracts_document():
    """What docs/CONTRACTS.md names is there: edits, files of specs/ and proofs/, functions and definitions."""
    document = open("docs/CONTRACTS.md", encoding="utf-8").read()
    for crate, edit in named_edits(document):
        if not glob.glob(f"crates/{crate}/must-fail/{edit}.edit"):
            yield f"docs/CONTRACTS.md names the edit {crate}/{edit}, which isn't there"
    if re.search(r"\bno edit\b", document, re.I):
        yield "docs/CONTRACTS.md says that there is no edit: leave it at the edits that are named"
    for crate, name in re.findall(r"\((\w+)/([A-Z]\w+)\)", document):
        if not glob.glob(f"crates/{crate}/specs/{name}.antt") + glob.glob(f"crates/{crate}/proofs/{name}.antt"):
            yield f"docs/CONTRACTS.md names {crate}/{name}, which isn't there"
    for name in re.findall(r"^\| [^|]*\(([A-Z]\w+)\)", document, re.M):
        if not os.path.exists(f"crates/claims/specs/{name}.antt"):
            yield f"docs/CONTRACTS.md names claims/{name}, which isn't there"
    words = set(re.findall(r"[\w-]+", all_text("crates/*.antt", "crates/*.rt", "tools/*.py")))
    for name in sorted(set(re.findall(r"`([\w-]+)`", document))):
        if name not in words and not os.path.isdir(f"crates/{name}"):
            yield f"docs/CONTRACTS.md names {name}, which isn't there"
    for crate, source in libraries():
        for name, _ in public_functions(source):
            if not re.search(r"(`|::)%s`" % name, document):
                yield f"{crate}::{name} isn't in docs/CONTRACTS.md"


def named_functions():
    """Each `crate::name` of a library that a document names is a function or a type there."""
    for path in documents():
        for crate, name in re.findall(r"`(\w+)::(?:\w+::)?(\w+)", open(path, encoding="utf-8").read()):
            if os.path.isfile(f"crates/{crate}/src/lib.rt") and not re.search(r"\b%s\b" % name, all_text(f"crates/{crate}/src/*.rt")):
                yield f"{path} names {crate}::{name}, which isn't there"


def documents():
    return tree.files("*.md")


def cited_files():
    """Each file that a document links to, each path below crates/, and each specification or proof cited as crate/File is there."""
    for path in documents():
        here, text = os.path.dirname(path), open(path, encoding="utf-8").read()
        for link in set(re.findall(r"\]\((?!https?:)([^)#\s]+)", text)):
            if not os.path.exists(os.path.join(here, link)):
                yield f"{path} links to {link}, which isn't there"
        within = re.findall(r"(?<![\w./(-])[a-z]\w*/(?:specs|proofs|src|must-fail)/[\w/.-]*\w", text)
        below = [f"crates/{name}" for name in within if not os.path.exists(os.path.join(here, name))]
        for named in {*re.findall(r"(?<![\w/])crates/\w[\w/.-]*\w", text), *below}:
            if not os.path.exists(named):
                yield f"{path} names {named}, which isn't there"
        for crate, name in set(re.findall(r"(?<![\w./-])([a-z]\w*)/([A-Z]\w+)(?![\w.-])", text)):
            if not any(os.path.exists(f"crates/{crate}/{folder}/{name}.antt") for folder in ("specs", "proofs")):
                yield f"{path} names {crate}/{name}, which isn't there"


def counts():
    """docs/ARCHITECTURE.md says how many crates, public functions, exports and must-fail edits there are; crates.txt lists each crate."""
    said = tree.text("docs/ARCHITECTURE.md")
    exports = [tree.text(f"crates/{crate}/src/lib.rt").count(check_exports.EXPORT) for crate in tree.static_libraries()]
    if set(tree.crates()) != set(os.listdir("crates")):
        yield "crates.txt doesn't list the folders of crates/"
    for row in (
        f"lines of Rattle in {len(tree.crates())} crates",
        f"| public functions | {sum(len(list(public_functions(source))) for _, source in libraries())}, ",
        f"| exports for C | {sum(exports)}, ",
        f"| must-fail edits | {len(glob.glob('crates/*/must-fail/*.edit'))}, ",
    ):
        if row not in said:
            yield f"docs/ARCHITECTURE.md doesn't say: {row}"


def licences():
    """The two licences are there, and every Cargo.toml names them."""
    for name in ("LICENSE-APACHE", "LICENSE-MIT", "NOTICE"):
        if not os.path.exists(name):
            yield f"{name} isn't there"
    for path in tree.files("*/Cargo.toml"):
        if 'license = "Apache-2.0 OR MIT"' not in tree.text(path):
            yield f"{path} doesn't name the licences"


def main():
    checks = (licences, counts, cited_files, contracts, texts, contracts_document, named_functions)
    wrong = [line for check in checks for line in check()]
    for part in (check_places, check_entries, check_exports, check_names, check_rules, check_audit):
        wrong += part.faults()
    for line in wrong:
        print(line)
    print("texts: %s" % ("%d faults" % len(wrong) if wrong else "ok"))
    return 1 if wrong else 0


if __name__ == "__main__":
    sys.exit(main())
