"""The texts of docs/DIFFERENCES.md: one image in other spellings than export's, held against the model of import, OpenSSH and the
document's own rows, whose ids begin with A. differences.py runs it."""
import itertools
from typing import NamedTuple

import model_armour
from against_ssh_keygen import word_in_text
from model_armour import BEGIN, END


class Spelling(NamedTuple):
    id: str
    title: str
    text: bytes
    here: str
    openssh: str


def in_columns(signs, columns):
    lines = [signs[at : at + columns] for at in range(0, len(signs), columns)]
    return b"".join(line + b"\n" for line in [BEGIN, *lines, END])


def line_differences(text, signs):
    within = text[len(BEGIN) + 1 :]
    yield "ssh-keygen's own spelling", text, "taken", "reads"
    yield "CR LF at every line's end", text.replace(b"\n", b"\r\n"), "taken", "refuses"
    yield "CR LF after the lines of signs alone", BEGIN + b"\n" + within.replace(b"\n", b"\r\n")[:-2] + b"\n", "taken", "reads"
    yield "lines of 64 columns", in_columns(signs, 64), "2", "reads"
    yield "lines of 76 columns", in_columns(signs, 76), "2", "reads"
    yield "lines of 68 columns", in_columns(signs, 68), "2", "reads"
    yield "all signs in one line", in_columns(signs, len(signs)), "2", "reads"
    yield "no line feed at the end", text[:-1], "2", "refuses"


def other_differences(text, signs):
    lines = text.splitlines(keepends=True)
    yield "a blank line at the end", text + b"\n", "2", "reads"
    yield "other text after the END line", text + b"oven-7\n", "2", "reads"
    yield "a second key after the END line", text + text, "2", "reads"
    yield "a blank line before the BEGIN line", b"\n" + text, "2", "refuses"
    yield "other text before the BEGIN line", b"oven-7\n" + text, "2", "refuses"
    yield "a blank line after the BEGIN line", text.replace(b"\n", b"\n\n", 1), "2", "reads"
    yield "a space at the start of a line of signs", b"".join([lines[0], b" ", *lines[1:]]), "2", "reads"
    yield "a lone CR at every line's end", text.replace(b"\n", b"\r"), "2", "refuses"
    yield "bits left over in the last group", in_columns(signs[:-2] + b"Z=", 70), "2", "refuses"
    yield "without the `=` at the end", in_columns(signs[:-1], 70), "2", "refuses"


def spellings(image):
    text, signs = model_armour.text_of(image), model_armour.signs_of(image)
    assert signs.endswith(b"BQY="), "of the image's 242 bytes the last two stand in three signs and a `=`"
    rows = itertools.chain(line_differences(text, signs), other_differences(text, signs))
    return [Spelling(f"A{number}", *row) for number, row in enumerate(rows, 1)]


def said_here(text):
    return "2" if model_armour.accepted(text) is None else "taken"


def said_by_openssh(text):
    return "refuses" if word_in_text(text, ["-y", "-P", ""]) is None else "reads"


def compare(image, with_openssh, document):
    """Prints a line for each and answers how many differ, from what is meant or from the document's rows."""
    cases, differing = spellings(image), 0
    for case in cases:
        said = said_here(case.text), said_by_openssh(case.text) if with_openssh else case.openssh
        differing += said != (case.here, case.openssh)
        print(f"{case.id:4}{case.title}: {said[0]}; OpenSSH {said[1]}" + ("" if said == (case.here, case.openssh) else "  DIFFERS"))
    rows = [[cell.strip() for cell in line.split("|")] for line in document.splitlines() if line.startswith("| A")]
    for row, case in itertools.zip_longest(rows, cases):
        right = case and [case.id, case.title, case.here, case.openssh]
        if not row or row[1:5] != right:
            print("DIFFERS: docs/DIFFERENCES.md has", row and row[1:5], "for", right)
            differing += 1
    return differing
