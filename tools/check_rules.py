"""Holds the rules' numbers together: what a text cites of docs/RULES.md is there, every rule from 2 on has a row in docs/CONTRACTS.md, and no
text speaks of rules that stand elsewhere. A definition cites `docs/RULES.md, 4.1 to 4.6 and 8.1`, a document `rule 4.4` or
`rules 3.3 and 3.4`. check_texts.py runs it."""
import re

import tree

RULES = "docs/RULES.md"
NUMBER = r"\d+(?:\.\d+)?"
LIST = rf"{NUMBER}(?:(?:, | and | to |, and ){NUMBER})*"
CITED = re.compile(rf"(?:docs/RULES\.md,|\b[Rr]ules?) ({LIST})(?![\w.]*\d)")
PLACES = ("crates/*.antt", "crates/*.rt", "crates/*.edit", "docs/*.md", "[!/]*.md", "tools/*.py", "tools/*.md", "oracle/*.rs", "oracle/*.md", "bindings/*.[ch]")
ELSEWHERE = re.compile(r"\b[Dd]ocuments?\s+0[12]\b|\bthe\s+paper\b|\bsteps?\s+[1-7]\b")


def known(rules):
    """The numbers of the rules, and of their chapters."""
    return {*re.findall(r"^## (\d+) ", rules, re.M), *re.findall(r"^(\d+\.\d+) ", rules, re.M)}


def cited(said):
    """Each number that a text cites, those between two that are joined by `to` left out."""
    flat = re.sub(r"\n(?:-- |//+!? ?|\s*\* )?\s*", " ", said)
    for found in CITED.findall(flat):
        yield from re.findall(NUMBER, found)


def files():
    return [path for path in tree.files(*PLACES) if not path.endswith("check_rules.py")]


def faults():
    numbers = known(tree.text(RULES))
    wrong = []
    for path in files():
        said = tree.text(path)
        wrong += [f"{path} cites the rule {number}, which isn't there" for number in set(cited(said)) - numbers]
        if ELSEWHERE.search(said):
            wrong.append(f"{path} speaks of rules that stand elsewhere")
    rows = {number for cell in re.findall(r"^\| ([\d., ]+) \|", tree.text("docs/CONTRACTS.md"), re.M) for number in re.findall(NUMBER, cell)}
    stated = {number for number in numbers if "." in number and not number.startswith("1.")}
    wrong += [f"docs/CONTRACTS.md has no row for the rule {number}" for number in sorted(stated - rows)]
    wrong += [f"docs/CONTRACTS.md has a row for the rule {number}, which isn't there" for number in sorted(rows - numbers)]
    return wrong
