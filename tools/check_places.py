"""Holds docs/REFUSALS.md to the images of cases_places.py: the same rows P1 and so on, each with the same condition and field, and the
line that the model prints for its image; a cause for each that is there; the places at which it says that fields begin; and the rows that
it has by their numbers. Each image is one of the stored vectors. In docs/CONTRACTS.md every row, the writers' W1 and so on too, has its
definition exactly once. check_texts.py runs it."""
import re
from collections import Counter

import model
from cases_places import rows
from images import encrypted, place, plain, spots
from images_rsa import numbers, rsa_plain

REFUSALS, CONTRACTS = "docs/REFUSALS.md", "docs/CONTRACTS.md"
DEFINITIONS = "### Which definition states each refusal"
# The fields of the sentence and of the table that say where they begin, by their names in images.py.
FIRST = {"cipher name": "cipher", "KDF name": "kdf", "KDF options": "options", "key count": "count", "blob": "blob", "in it": "blob.name"}
FIELDS = {
    "curve": "curve", "public key or point": "point", "e": "e", "n": "n", "key name": "name",
    "section": "section", "first checkint": "section.checkint1", "second checkint": "section.checkint2",
    "seed or scalar": "section.scalar", "d": "section.d", "comment": "section.comment",
}
PLAIN = {
    "Ed25519": plain(0), "P-256": plain(1), "P-384": plain(2), "P-521": plain(3),
    **{f"RSA {bits:,}": rsa_plain(numbers(bits)) for bits in (1024, 2048, 3072, 4096)},
}
CIPHERS = {"3des-cbc": "3des-cbc", "aes..-cbc": "aes128-cbc", "aes..-gcm@openssh.com": "aes256-gcm@openssh.com"}
ENCRYPTED = ["cipher", "kdf", "options", "options.salt", "options.rounds", "count", "blob"]


def cells(line):
    return [cell.strip() for cell in line.split("|")[1:-1]]


def rows_of(document, letter):
    """The cells of each row of the document whose id begins with this letter."""
    return [cells(line) for line in document.splitlines() if re.match(rf"\| {letter}\d+ \|", line)]


def causes(document):
    return set(re.findall(r"^### ([a-z]+)$", document.partition("\n## The causes\n")[2].partition("\n## ")[0], re.M))


# ---- the reader's rows


def wanted(row):
    return [row.id, row.condition, row.field, f"`{model.report(row.case.image).strip()}`"]


def row_faults(document):
    found, right = rows_of(document, "P"), [wanted(row) for row in rows()]
    said = [row[:-1] for row in found]
    if said != right:
        yield from (f"{REFUSALS} doesn't say: {' | '.join(row)}" for row in right if row not in said)
        yield f"{REFUSALS}: its rows P1 and so on aren't those of cases_places.py, each once and in their order"
    known = causes(document)
    for row in found:
        yield from (f"{row[0]}: {REFUSALS} has no cause {word!r}" for word in row[-1].split(", ") if word not in known)


def image_faults(vectors):
    for row in rows():
        image = row.case.image
        if len(image).to_bytes(4, "big") + image not in vectors:
            yield f"{row.id}: its image isn't in crates/replay_images/data/vectors"


# ---- where a field begins


def path_of(words):
    """The field's name in images.py: 'n in the blob' is 'blob.n'."""
    name, _, part = words.partition(" in the ")
    return f"{part}.{FIELDS[name]}" if part else FIELDS[name]


def table_under(document, head):
    """The rows of the table that begins with these cells."""
    lines = document.partition(f"\n| {' | '.join(head)} |\n")[2].split("\n\n")[0].splitlines()
    return [cells(line) for line in lines[1:]]


def plain_faults(document):
    table = table_under(document, ["Field", *PLAIN])
    if len(table) < len(FIELDS):
        yield f"{REFUSALS} has no table of the places of {', '.join(PLAIN)}"
    for words, *said in table:
        starts = [{spot.path: str(spot.start) for spot in spots(fields)} for fields in PLAIN.values()]
        right = ["" if words == "comment" and "section.n" in found else found.get(path_of(words), "") for found in starts]
        if said != right:
            yield f"{REFUSALS}: {words} begins at {right}"
    for words, path in FIRST.items():
        if f"{words} at {place(PLAIN['Ed25519'], path)}" not in " ".join(document.split()):
            yield f"{REFUSALS} doesn't say where the {words} begins"


def encrypted_faults(document):
    lines = {cells(line)[0].split("`")[1]: cells(line)[1:] for line in document.splitlines() if "more than above" in line}
    for name, cipher in CIPHERS.items():
        fields = encrypted(0, cipher.encode())
        more = place(fields, "blob") - place(PLAIN["Ed25519"], "blob")
        right = [*(str(place(fields, path)) for path in ENCRYPTED), f"{more} more than above"]
        if lines.get(name) != right:
            yield f"{REFUSALS}: under {name} fields begin at {right}"


# ---- where to begin, and the definitions


def ids_in(cell):
    """P4 to P6, P9: the ids that a cell names."""
    for letter, first, last in re.findall(r"([PW])(\d+)(?: to [PW](\d+))?", cell):
        yield from (f"{letter}{number}" for number in range(int(first), int(last or first) + 1))


def start_faults(document):
    """Every row that a line of 'Start here' names has that number, and every writer's row stands at its own, or the highest of them."""
    told = {row[0]: {int(number) for number in re.findall(r"\d+", row[2].split(" at ")[0])} for row in rows_of(document, "W")}
    told.update({row.id: {row.case.reply[0]} for row in rows()})
    table = table_under(document, ["N", "Look at", "What it mostly is"])
    named = {(row_id, int(row[0])) for row in table for row_id in ids_in(row[1])}
    for row_id, number in sorted(named):
        if number not in told.get(row_id, ()):
            yield f"{REFUSALS}: 'Start here' has {row_id} at {number}"
    for row_id, numbers_of in told.items():
        if row_id.startswith("W") and numbers_of and (row_id, max(numbers_of)) not in named:
            yield f"{REFUSALS}: 'Start here' lacks {row_id} at {max(numbers_of)}"


def definition_faults(refusals, contracts):
    part = contracts.partition(f"\n{DEFINITIONS}\n")[2].partition("\n#")[0]
    table = [cells(line) for line in part.splitlines() if re.match(r"\| [PW]\d", line)]
    stated = Counter(row_id for row in table for row_id in ids_in(row[0]))
    known = Counter(row[0] for letter in "PW" for row in rows_of(refusals, letter))
    for row_id in sorted({*stated, *known}):
        if (stated[row_id], known[row_id]) != (1, 1):
            yield f"{row_id}: {stated[row_id]} times in {CONTRACTS}'s table of definitions, {known[row_id]} times in {REFUSALS}"
    for ids, definition, calls in table:
        if "`" not in definition or ids.startswith("W") and not calls:
            yield f"{ids}: {CONTRACTS} names no definition or no stored calls"


def faults():
    with open(REFUSALS, encoding="utf-8") as document, open(CONTRACTS, encoding="utf-8") as contracts:
        refusals, definitions = document.read(), contracts.read()
    with open("crates/replay_images/data/vectors", "rb") as vectors:
        found = [*row_faults(refusals), *image_faults(vectors.read())]
    found += [*plain_faults(refusals), *encrypted_faults(refusals), *start_faults(refusals)]
    return [*found, *definition_faults(refusals, definitions)]
