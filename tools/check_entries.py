"""Holds the entries of claims/Refusals, `Entry` and `EntryC`, over which `refused-keeps` and `place-said` go, to the sources: they are
exactly the public functions that take a lent buffer and can refuse, and claims/Entries has a theorem for each, from the contract that
the checker made of that function to its line. An export for C is the function that it calls (check_exports.py). That a theorem holds is
the checker's to say; this reads text and proves nothing. check_texts.py runs it."""
import re

import tree

LIST = "crates/claims/specs/Refusals.antt"
THEOREMS = "crates/claims/specs/Entries.antt"
# A struct that holds a reference: the checker makes no plain form of the contract, which cites the definition that the line has.
BY_HAND = {"recorded_rewrite": (("record_writing", "rewrite"), "IsHanded")}
# Their functions put bytes where they fit and answer a place: they refuse nothing.
PUTS = ("buffer", "names_spelling", "report_parts", "writer_curve", "writer_numbers", "writer_plain", "writer_rows", "edit_shells")

LENT = re.compile(r"&(?:'\w+ )?mut \[u8[\];]")
# What reads from a stream or a file fills a buffer with what that gives, and is a program's, which hands it on.
STREAM = re.compile(r"\b(?:Read|Files)\b")
FUNCTION = re.compile(r"\bpub fn (\w+)(<[^>]*>)?\(([^)]*)\)(?:\s*->\s*(\w+)[^\n{]*)?(?:\s*ensures(?: \w+)? \{\s*(\w+))?")
THEOREM = re.compile(
    r"^pub (\S+)_listed :\s+Listed \d+ (\S+)_kinds\.ps (\S+)_kinds\.r (\S+)_reads\.Post\s+\(λ κs a r s\.\s+PromiseC? \(?(\S+) ", re.M
)


def lent_functions():
    """Each public function that takes a lent buffer: its crate and name, its answer, and the definition that its contract begins with."""
    for path in tree.files("crates/*/src/*.rt"):
        source = re.sub(r"//[^\n]*", "", tree.text(path))
        for name, types, parameters, answer, definition in FUNCTION.findall(source):
            if LENT.search(parameters) and not STREAM.search(types + parameters):
                yield (path.split("/")[1], name), answer, definition


def is_put(function, answer):
    """It answers nothing, or where what was put ends."""
    return not answer or function[0] in PUTS and function[1].startswith("put") and answer == "usize"


def lines():
    """The constructors of the two lists."""
    for block in re.findall(r"^pub data EntryC? : Type 0 where\n((?:  .*\n)+)", tree.text(LIST), re.M):
        yield from re.findall(r"^  (\S+) :", block, re.M)


def tied():
    """The function whose contract a line's theorem begins with."""
    text = tree.text(THEOREMS)
    uses = re.findall(r"^use Rattle\.(\w+)\.proofs\.(\w+)\.Reads as (\S+)_reads$", text, re.M)
    functions = {line: (crate, name) for crate, name, line in uses}
    for names in THEOREM.findall(text):
        if len(set(names)) == 1 and names[0] in functions:
            yield names[0], functions[names[0]]


def cited_faults(functions):
    for function, definition in BY_HAND.values():
        if functions.get(function) != definition:
            yield f"{'::'.join(function)} has no contract over {definition}"


def faults():
    functions = {function: definition for function, answer, definition in lent_functions() if not is_put(function, answer)}
    ties = {**dict(tied()), **{line: function for line, (function, _) in BY_HAND.items()}}
    named, listed = set(ties.values()), set(lines())
    return [
        *(f"claims/Entries has no theorem for the entry {line}" for line in sorted(listed - set(ties))),
        *(f"claims/Refusals has no entry {line}" for line in sorted(set(ties) - listed)),
        *(f"{crate}::{name} takes a lent buffer and is no entry of claims/Refusals" for crate, name in sorted(set(functions) - named)),
        *(f"{crate}::{name} is an entry of claims/Refusals and takes no lent buffer" for crate, name in sorted(named - set(functions))),
        *cited_faults(functions),
    ]
