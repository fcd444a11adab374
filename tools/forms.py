#!/usr/bin/env python3
"""Counts places of crates/*/src that could have another form: python3 tools/forms.py [-v] lists them too. It judges nothing: what is
found is read, and docs/DESIGN-PASS.md says what became of it.

  enums       each enum, with its cases: those that say one thing or nothing, or one thing or why not, could be Option and Result
  flags       a bool, or a number named as a code, kind or number, among the fields of a struct or what a function answers
  twins       functions whose text is the same but for names and literals, of WORDS words or more, and types of such a shape
  turns       each while and loop, and each function that calls itself
  alike       functions that compare two values of one type, and impls of comparing, copying, converting and printing
  together    three or more parameters, by name and type, that three or more functions have
  facts       a clause of a requires or ensures that three or more functions have, with the same names
  rooms       fields and parameters `x` beside an `x_length`, locals that are arrays of zeros, arrays of a written length
  steps       a match each of whose three or more arms calls a function, with the same arguments; function pointers, closures, dyn
"""
import collections
import itertools
import re
import sys

import tree

WORDS = 30
KEYWORDS = set("as break const continue dyn else enum fn for if impl in let loop match mod move mut pub ref return self Self struct trait "
               "type use where while true false Some None Ok Err u8 u16 u32 u64 usize bool".split())
TOKEN = re.compile(r'b?"(?:\\.|[^"\\])*"|\w+|[^\w\s]')
FUNCTION = re.compile(r"^ *(?:pub )?(?:unsafe )?(?:extern \"C\" )?fn (\w+)", re.M)


def sources():
    return {path: re.sub(r"^ *//[^\n]*", "", tree.text(path), flags=re.M) for path in tree.files("crates/*/src/*.rt")}


def closed(text, at, opening, closing):
    """The place past the bracket that closes the one at the place."""
    depth = 0
    for i in range(at, len(text)):
        depth += (text[i] == opening) - (text[i] == closing)
        if depth == 0:
            return i + 1
    raise ValueError("a bracket is open")


def functions():
    """Of each function: its file, name, parameters, clauses and body."""
    for path, text in sources().items():
        for found in FUNCTION.finditer(text):
            start = text.index("(", found.end())
            past = closed(text, start, "(", ")")
            head, at = [], past
            while not re.match(r"\s*(?:->[^{;]*)?$", text[past:at]) or text[at] not in "{;":
                clause = re.compile(r"\b(requires|ensures)\b[^{]*\{").search(text, past if not head else head[-1][1])
                body = re.compile(r"[{;]").search(text, head[-1][1] if head else past)
                if clause is None or body.start() < clause.end() - 1:
                    at = body.start()
                    break
                end = closed(text, clause.end() - 1, "{", "}")
                head.append((clause.group(1), end, " ".join(text[clause.end():end - 1].split())))
                at = end
            body = text[at:closed(text, at, "{", "}")] if text[at] == "{" else ""
            yield path, found.group(1), text[start + 1:past - 1], [(kind, clause) for kind, _, clause in head], body


def shape(text):
    names = {}
    return tuple(word if word in KEYWORDS or not re.match(r"\w|b?\"", word) else names.setdefault(word, len(names)) if word[0].isalpha()
                 else "0" for word in TOKEN.findall(text))


def enums():
    found = []
    for path, text in sources().items():
        for enum in re.finditer(r"^(?:pub )?enum (\w+)[^{;]*\{", text, re.M):
            cases = re.findall(r"^ {4}(\w+)", text[enum.end():closed(text, enum.end() - 1, "{", "}")], re.M)
            found.append([f"{path} {enum.group(1)}: {', '.join(cases)}"])
    return found


def flags():
    return lines(r"^ +(?:pub )?\w+: bool,$|^ +(?:pub )?(?:code|kind|number|version|algorithm|cipher|kdf|form): (?:u8|u32|u64|usize),$"
                 r"|fn \w*(?:code|coded|kind|number|version)\w*\([^)]*\) -> u\w+")


def turns():
    calls = [[f"{path} {name}, which calls itself"] for path, name, _, _, body in functions()
             if re.search(rf"(?<![\w:.]){name}\(", body)]
    return lines(r"^ *(?:\w+ = )?(?:'\w+: )?(?:while\b|loop \{)") + calls


def alike():
    pairs = [[f"{path} {name}"] for path, name, parameters, *_ in functions()
             if (two := [" ".join(part.split(":")[-1].split()) for part in re.split(r",(?![^(]*\))", parameters) if part.strip()])
             and len(two) == 2 and (two[0] == two[1] or two[0] == "self" and name in ("same", "eq", "cmp")) and name.startswith(("same", "is_same", "eq", "cmp", "unlike"))]
    return pairs + lines(r"^impl(?:<[^>]*>)? (?:PartialEq|Eq|PartialOrd|Ord|Clone|Copy|From|TryFrom|Display|Debug|Default)\b")


def twins():
    groups = collections.defaultdict(list)
    for path, name, parameters, _, body in functions():
        words = shape(parameters + body)
        if WORDS <= len(words):
            groups[words].append(f"{path} {name}")
    for path, text in sources().items():
        for found in re.finditer(r"^pub (?:struct|enum) (\w+)[^{;]*\{", text, re.M):
            words = shape(text[found.end():closed(text, found.end() - 1, "{", "}")])
            if 12 <= len(words):
                groups[words].append(f"{path} {found.group(1)}")
    return [group for group in groups.values() if 1 < len(group)]


def together():
    has = collections.defaultdict(list)
    for path, name, parameters, *_ in functions():
        pairs = sorted({" ".join(pair.split()) for pair in re.findall(r"\w+: *[^,()]+(?:\([^)]*\))?", parameters)})
        for three in itertools.combinations(pairs, 3):
            has[three].append(f"{path} {name}")
    wide = collections.defaultdict(set)
    for three, users in has.items():
        if 3 <= len(users):
            wide[tuple(users)].update(three)
    return [[", ".join(sorted(group)), *users] for users, group in wide.items()]


def facts():
    has = collections.defaultdict(set)
    for path, name, _, clauses, _ in functions():
        for kind, clause in clauses:
            has[path.split("/")[1], kind, clause].add(name)
    return [[f"{crate} {kind} {{ {clause} }}", *sorted(users)] for (crate, kind, clause), users in has.items() if 3 <= len(users)]


def lines(pattern):
    return [[f"{path}:{number} {line.strip()}"] for path, text in sources().items()
            for number, line in enumerate(text.split("\n"), 1) if re.search(pattern, line)]


def steps():
    found = []
    for path, name, _, _, body in functions():
        for match in re.finditer(r"\bmatch [^{]*\{", body):
            arms = re.findall(r"=> (?:return )?[\w:.]+(\([^()]*\)),", body[match.end():closed(body, match.end() - 1, "{", "}")])
            if 3 <= len(arms) and len(set(arms)) == 1:
                found.append([f"{path} {name}"])
    return found + lines(r"\bfn ?\(|\bdyn\b|impl Fn|: Fn")


KINDS = {
    "enums": enums,
    "flags": flags,
    "turns": turns,
    "alike": alike,
    "twins": twins,
    "together": together,
    "facts": facts,
    "rooms": lambda: lines(r"\w+_length: *usize|\[0(u\d+)?; *\w+\]|\[u\d+; *\w+\]"),
    "steps": steps,
}


def main():
    for kind, of in KINDS.items():
        found = of()
        print(f"{kind}: {len(found)}")
        if "-v" in sys.argv[1:]:
            for group in found:
                print("  " + "\n      ".join(group))


if __name__ == "__main__":
    main()
