#!/usr/bin/env python3
"""Makes the stored vectors of crates/replay_images, replay_several, replay_writing, replay_lists, replay_records, replay_halves,
replay_armour and replay_settings anew: the images, the calls and the records handed in, and what must be answered to each; and for the
Rust tests the images of cases_places.py once more, each with its place and its field.

    python3 tools/make_vectors.py            writes data/ and stdout of the eight crates, and the file for the Rust tests
    python3 tools/make_vectors.py --check    only compares them with what would be written; exit status 1 if they differ

It comes out the same each time: the images are made here or stored in tools/corpus, and the answers are those of model.py,
model_writing.py, model_edits.py, model_armour.py and model_settings.py. Of the calls of the writers and of the edits calls.py says how
they are stored and printed, with listed.py for those over several keys, of the records handed in records.py, of export and import
armoured.py, of those over reconnect settings settings.py.
In the file of images each is its length, 4 bytes big-endian, and its bytes. For each image there are in stdout
  - `read` and 27 numbers: number, count, at, kind, algorithm, cipher, KDF, rounds, checkint, padding, section (where
    its length, or the ciphertext's, begins), then start and length of blob, point, scalar, comment, salt, ciphertext
    and tag, the key count, and where the first keypair begins; 0 for what is absent; after these the other fifteen places,
    where one of them isn't 0; where the image is refused only number, count, at and 0,
  - where it is accepted, `views` and 7 numbers: the sum of the bytes of each of these parts,
  - `rsa` and 19 numbers: bits, start and length of modulus, exponent, d, iqmp, p and q, and the sums of their bytes; only where
    one of them isn't 0,
  - `header` and 15 numbers, what the header read alone says: number, count, at, algorithm, cipher, KDF, rounds, section,
    then start and length of blob, point and salt, and the key count; where the header is refused only number, count, at and 0,
  - `header-rsa` and 5 numbers: its bits, start and length of modulus and exponent; only where one of them isn't 0,
  - the inspection program's lines,
  - of an accepted image of several keys for each number k from 0 to 17 `key`, k and, where there is such a key, 24 numbers:
    algorithm, start and length of blob, bits, start and length of point, modulus and exponent, where the keypair begins, then
    start and length of scalar, d, iqmp, p, q and comment.
"""
import binascii
import collections
import itertools
import pathlib
import sys

import armoured
import calls
import cases_places
import listed
import model
import records
import settings
from against_ssh_keygen import armour
from cases_armour import armour_cases
from cases_change import change_rows
from cases_edits import edit_rows
from cases_encrypted import encrypted_rows
from cases_half_records import half_record_cases
from cases_halves import half_cases
from cases_header import header_cases
from cases_key_records import key_half_cases, key_record_cases
from cases_keys_writing import keys_writing_rows
from cases_marked import marked_cases
from cases_moves import move_cases
from cases_plain import plain_rows
from cases_records import record_cases
from cases_rewrite import rewrite_rows
from cases_rsa import rsa_cases
from cases_rsa_change import rsa_change_rows
from cases_rsa_images import rsa_image_cases
from cases_rsa_records import rsa_record_cases
from cases_rsa_writing import rsa_rows
from cases_scalar import scalar_image_cases
from cases_scalar_writing import scalar_rows
from cases_section import section_cases, slipped_cases
from cases_settings import setting_cases
from cases_several import good_rings, sealed_ones, several_cases
from cases_several_damage import several_damage_cases
from cases_several_records import several_record_cases
from cases_stores import store_cases
from damage import damages
from fetch_corpus import armour_off
from fields import content
from images import corpus, join
from images_several import keys_meant, record_meant

ROOT = pathlib.Path(__file__).resolve().parent.parent
CRATES = ROOT / "crates"
REPLAY = CRATES / "replay_images"
WRITING = CRATES / "replay_writing"
RECORDS = CRATES / "replay_records"
HALVES = CRATES / "replay_halves"
ARMOUR = CRATES / "replay_armour"
SEVERAL = CRATES / "replay_several"
LISTS = CRATES / "replay_lists"
SETTINGS = CRATES / "replay_settings"
PLACES = ROOT / "bindings" / "rust" / "tests" / "data" / "places"
MOST_PRINTED = 2**20
MUST_OCCUR = {
    "read": [0, 1, 2, 3, 4, 5, 6, 7, 11],
    "header": [0, 1, 2, 3, 4, 6, 11],
    "plain": [0, 1, 2, 7, 9, 11],
    "rsa": [0, 1, 2, 7, 9, 11],
    "encrypted": [0, 1, 2, 3, 4, 6, 9, 11],
    "rewrite": [0, 1, 2, 3, 4, 5, 6, 7, 9, 11],
    "change": [0, 1, 2, 3, 4, 5, 6, 7, 8, 9, 10, 11],
    "record": [0, 1, 9, 11],
    "section": [0, 1, 2, 3, 4, 5, 6, 7],
    "export": [0, 9, 11],
    "import": [0, 2, 9, 11],
    "key": [0, 1, 2, 3, 4, 5, 6, 7, 11],
    "write_keys": [0, 1, 2, 4, 7, 9, 11],
    "change_comment_of": list(range(12)),
    "add_key": list(range(12)),
    "add_rsa": list(range(12)),
    "remove_key": [0, 1, 2, 3, 4, 5, 6, 7, 8, 10, 11],
    "read_setting": [0, 1, 4],
    "write_setting": [0, 1, 4, 11],
    "store_get": [0, 1, 4],
    "store_put": [0, 1, 4, 11],
    "store_move": [0, 1, 4, 11],
}
KEY_PUBLIC = ["point", "modulus", "exponent"]
KEY_PRIVATE = ["scalar", "d", "iqmp", "p", "q", "comment"]


# ---- images


def all_cases():
    yield from marked_cases()
    yield from corpus()
    yield from header_cases()
    yield from section_cases()
    yield from slipped_cases()
    yield from scalar_image_cases()
    yield from damages()
    yield from half_cases()
    yield from rsa_cases()
    yield from rsa_image_cases()
    yield from cases_places.place_cases()


def hold_reply(title, meant, image, answer):
    """Where a reply was meant for a read of an image, it must be the model's; and no place is past the image's end."""
    reply = (answer.number, answer.count, answer.at)
    if meant not in (None, reply):
        sys.exit(f"{title}: meant {meant}, but the model says {reply}")
    if answer.at > len(image):
        sys.exit(f"{title}: the model says {reply} of an image of {len(image)} bytes")


def hold(case):
    """The model's answers must be what the maker of the image meant."""
    hold_reply(case.title, case.reply, case.image, model.read(case.image))
    hold_reply(f"{case.title}, its header", case.header, case.image, model.read_header(case.image))
    if case.form is not None and case.form != model.form(case.image):
        sys.exit(f"{case.title}: the form was meant to be {case.form}")


def images(cases):
    """Every image once, in the order in which they were made."""
    once = {}
    for case in cases:
        hold(case)
        once.setdefault(case.image)
    return list(once)


def expected(image):
    """What the replay prints for an image."""
    answer = model.read(image)
    return read_lines(image, answer) + header_lines(model.read_header(image)) + model.report(image) + keys_lines(image, answer)


def reply_line(word, answer, numbers):
    """The reply, and where it isn't a refusal what follows."""
    return records.line(word, [answer.number, answer.count, answer.at, *(numbers if answer.number == 0 else [0])])


def sums(image, answer, parts):
    return [sum(content(image, getattr(answer, part))) for part in parts]


def read_lines(image, answer):
    numbers = records.chosen(answer, records.NAMES, records.PARTS)
    line = reply_line("read", answer, [*numbers, answer.keys, *records.places_told(answer)])
    if answer.number != 0:
        return line
    rsa = records.chosen(answer, records.RSA_NAMES, records.RSA_PARTS) + sums(image, answer, records.RSA_PARTS)
    return line + records.line("views", sums(image, answer, records.PARTS)) + records.line_if_any("rsa", rsa)


def header_lines(half):
    line = reply_line("header", half, [*records.chosen(half, records.HEADER_NAMES, records.HEADER_PARTS), half.keys])
    return line + records.line_if_any("header-rsa", records.chosen(half, records.RSA_NAMES, records.HEADER_RSA_PARTS))


def keys_lines(image, answer):
    """Of an accepted image of several keys each number from 0 to one more than there can be."""
    return "".join(key_line(image, answer, k) for k in range(model.KEY_ROOM + 2)) if answer.keys > 1 else ""


def key_line(image, answer, k):
    key = model.read_key(image, k)
    if key.number != 0:
        return records.line("key", [k])
    public, private = records.chosen(key, ["bits"], KEY_PUBLIC), records.chosen(key, [], KEY_PRIVATE)
    return records.line("key", [k, key.algorithm, *key.blob, *public, answer.places[k - 1], *private])


# ---- calls


def all_rows():
    yield from plain_rows()
    yield from encrypted_rows()
    yield from rewrite_rows()
    yield from change_rows()
    yield from scalar_rows()
    yield from rsa_rows()
    yield from rsa_change_rows()


def hold_meant(title, meant, reply, before, after):
    """The model's reply must be what the maker of the call meant, and a refused call changes nothing."""
    if meant not in (None, reply):
        sys.exit(f"{title}: meant {meant}, but the model says {reply}")
    if reply.number != 0 and after != before:
        sys.exit(f"{title}: refused, but the buffer is changed")


def hold_call(title, meant, reply, before, after):
    """The same, and what was written must be read back."""
    hold_meant(title, meant, reply, before, after)
    if reply.number == 0 and not model.form(after[: reply.length]):
        sys.exit(f"{title}: what was written isn't read back as in the form")


def rows(made_rows):
    """By how it is stored every row once, with its answers, in the order in which they were made."""
    once = {}
    for row in made_rows:
        answers = list(calls.answers(row))
        befores = [row.buffer, *(after for _, _, after in answers)]
        for before, (call, reply, after) in zip(befores, answers):
            hold_call(row.title, call.reply, reply, before, after)
            if call.after not in (None, after):
                sys.exit(f"{row.title}: the model leaves another buffer than was meant")
        once.setdefault(calls.stored(row), (row, answers))
    return once


# ---- records handed in


def handed(cases):
    """Every record with its image once, in the order in which they were made."""
    once = {}
    for case in cases:
        reply, after = records.answer(case)
        hold_call(case.title, case.reply, reply, calls.filled(case.room), after)
        hold_reply(f"{case.title}, its section", case.section, case.image, records.section_answer(case))
        once.setdefault(records.stored(case), case)
    return once


# ---- export and import


def by_base64(text):
    """The bytes that Python's base64 finds in a text, if this is their one spelling but for carriage returns; else None."""
    try:
        carried = armour_off(text)
    except (IndexError, binascii.Error):
        return None
    return carried if armour(carried) == text.replace(b"\r\n", b"\n") else None


def hold_armour(case, reply, before, after):
    """The model's answer must be what the maker of the call meant, and what Python's base64 gives."""
    hold_meant(case.title, case.reply, reply, before, after)
    expected_bytes = armour(case.given) if case.entry == "export" else by_base64(case.given)
    if (expected_bytes is None) != (reply.number == 2):
        sys.exit(f"{case.title}: by Python's base64 it is otherwise than the model's {reply}")
    if reply.number == 0 and not (after[: reply.length] == expected_bytes and after.startswith(case.begins)):
        sys.exit(f"{case.title}: other bytes than were meant, or than Python's base64 gives")


def armour_calls():
    """Each call of export and import as it is stored, with its entry, its reply and the buffer after it."""
    for case, stored, reply, before, after in armoured.answered(armour_cases()):
        hold_armour(case, reply, before, after)
        yield stored, case.entry, reply, after


# ---- reconnect settings


def settings_calls():
    """By how it is stored each call over settings once, with its entry, its reply and the lent bytes after it."""
    once = {}
    for case in itertools.chain(setting_cases(), store_cases(), move_cases()):
        title, (reply, after) = f"{case.title}, {settings.stored(case).hex()}", settings.answer(case)
        hold_meant(title, case.reply, reply, case.lent, after)
        if after != (case.lent if case.after is None else case.after):
            sys.exit(f"{title}: the model leaves other bytes than were meant")
        once[settings.stored(case)] = (case.entry, reply, after)
    return once


# ---- several keys


def hold_rings():
    """All that a read finds in a good image of several keys must be what its maker meant, and so must each key of any image."""
    for ring in good_rings():
        if model.read(join(ring.fields)) != record_meant(ring.fields, ring.keys):
            sys.exit(f"{ring.title}: another record than was meant")
    for ring in [*good_rings(), *sealed_ones()]:
        image, meant = join(ring.fields), keys_meant(ring.fields, ring.keys)
        if [model.read_key(image, k) for k in range(1, len(meant) + 1)] != meant:
            sys.exit(f"{ring.title}: other keys than were meant")
        for k in (0, len(meant) + 1, 17, 2**32 + 1, 2**64 - 1):
            hold_reply(f"{ring.title}, key {k}", (1, 0, 0), image, model.read_key(image, k))


def key_answers(image):
    """Each key, and one more than there are; of a refused image the first."""
    answer = model.read(image)
    numbers = range(1, answer.keys + 2)
    for k in numbers:
        key = model.read_key(image, k)
        if answer.number != 0:
            hold_reply(f"key {k}", (answer.number, answer.count, answer.at), image, key)
        yield k, key


# ---- all of them


def stored_images(vectors):
    return b"".join(len(image).to_bytes(4, "big") + image for image in vectors)


def counted(vectors, answers, by_hand):
    """How often each entry gives each reply number."""
    count = collections.Counter(("read", model.read(image).number) for image in vectors)
    count.update(("header", model.read_header(image).number) for image in vectors)
    count.update((entry, reply.number) for entry, reply, _ in answers)
    count.update(("record", records.answer(case)[0].number) for case in by_hand)
    count.update(("section", records.section_answer(case).number) for case in by_hand)
    return count


def several_rows():
    yield from keys_writing_rows()
    yield from edit_rows()


def written_again(made_rows):
    """Each call of a row that writes an image again, in a row of its own."""
    for row in made_rows:
        answers = list(calls.answers(row))
        for before, (call, _, _) in zip([row.buffer, *(after for _, _, after in answers)], answers):
            if call.entry == "rewrite":
                yield calls.Row(row.title, before, [call])


def answers_in(written, replayed=lambda call: True):
    return [(call.entry, reply, after) for _, answers in written.values() for call, reply, after in answers if replayed(call)]


def made():
    """The files by their paths, and how often each entry gives each reply number."""
    hold_rings()
    vectors = {REPLAY: images(all_cases()), SEVERAL: images(itertools.chain(several_cases(), several_damage_cases()))}
    written, lists = rows(itertools.chain(all_rows(), written_again(several_rows()))), rows(several_rows())
    by_hand = {
        RECORDS: handed(itertools.chain(record_cases(), key_record_cases())),
        HALVES: handed(itertools.chain(half_record_cases(), rsa_record_cases(), key_half_cases(), several_record_cases())),
    }
    stored, armours = zip(*((stored, answer) for stored, *answer in armour_calls()))
    set_calls = settings_calls()
    answers = {WRITING: answers_in(written), LISTS: answers_in(lists, listed.replayed), ARMOUR: armours, SETTINGS: list(set_calls.values())}
    all_vectors, all_answers = list(itertools.chain(*vectors.values())), itertools.chain(*answers.values())
    count = counted(all_vectors, all_answers, [case for once in by_hand.values() for case in once.values()])
    count.update(("key", key.number) for image in vectors[SEVERAL] for _, key in key_answers(image))
    files = {
        **{crate / "data" / "vectors": stored_images(once) for crate, once in vectors.items()},
        **{crate / "stdout": "".join(map(expected, once)).encode() for crate, once in vectors.items()},
        WRITING / "data" / "calls": b"".join(written),
        LISTS / "data" / "calls": b"".join(listed.stored(lists.values())),
        ARMOUR / "data" / "calls": b"".join(stored),
        SETTINGS / "data" / "calls": b"".join(set_calls),
        **{crate / "stdout": "".join(itertools.starmap(calls.line, said)).encode() for crate, said in answers.items()},
        **{crate / "data" / "records": b"".join(once) for crate, once in by_hand.items()},
        **{crate / "stdout": "".join(map(records.lines, once.values())).encode() for crate, once in by_hand.items()},
        PLACES: "".join(map(cases_places.stored, cases_places.rows())).encode(),
    }
    return files, count, all_vectors


def summary(files, count, vectors):
    for entry, must_occur in MUST_OCCUR.items():
        found = {number: times for (of, number), times in sorted(count.items()) if of == entry}
        replies = ", ".join(f"{number}: {times}" for number, times in found.items())
        print(f"{entry}: {sum(found.values())} (reply {replies})")
        if sorted(found) != must_occur:
            sys.exit(f"{entry}: the reply numbers should be {must_occur}")
    not_in_form = sum(model.read(image).number == 0 and not model.form(image) for image in vectors)
    print(f"read, accepted but not in the form: {not_in_form}")
    for path, content_of in files.items():
        print(f"{path.relative_to(ROOT)}: {len(content_of)} bytes")
        if path.name == "stdout" and len(content_of) > MOST_PRINTED:
            sys.exit(f"{path.relative_to(ROOT)}: a program's output that is compared has at most {MOST_PRINTED} bytes")


def check(files):
    different = [path for path, wanted in files.items() if not path.exists() or path.read_bytes() != wanted]
    for path in different:
        print(f"different: {path.relative_to(ROOT)}")
    return 1 if different else 0


def store(files):
    for path, wanted in files.items():
        path.parent.mkdir(parents=True, exist_ok=True)
        path.write_bytes(wanted)
    return 0


def main():
    files, count, vectors = made()
    summary(files, count, vectors)
    return check(files) if "--check" in sys.argv[1:] else store(files)


if __name__ == "__main__":
    sys.exit(main())
