"""Records and header halves handed in with a wrong key count, or with a wrong place of some key's keypair. Each record is refused with
1, count 0, at 0, and nothing is written; the section read, which looks at the half alone, refuses a wrong count and knows no places."""
import model
from cases_half_records import half_alone, handed
from cases_plain import size_of
from cases_records import READ, UNLIKE, Base, put
from fields import ED25519, uint32
from images import encrypted, plain, scalar_of
from images_rsa import rsa_encrypted, rsa_plain
from model import KEY_ROOM, places_of
from records import KEYS, PLACES, numbers_of, record_of

WRONG_COUNTS = [0, 2, KEY_ROOM, KEY_ROOM + 1, 2**63]
STEPS = [1, -1, 2**15]
PLACE_LIMIT = 2**16  # a record's place has 16 bits
CLOSELY = ["plain 0", "bcrypt aes256-gcm", "RSA plain"]  # each single place of these is changed by each step


def bases():
    yield Base("plain 0", plain(ED25519))
    yield Base("plain 3, a missing zero", plain(3, scalar=scalar_of(3, 0x80)), size_of(3, 1, 7))
    yield Base("bcrypt aes256-gcm", encrypted(1, b"aes256-gcm@openssh.com"))
    yield Base("RSA plain", rsa_plain())
    yield Base("RSA sealed", rsa_encrypted(b"aes256-ctr"))


def first_keypair(base):
    """Where the first keypair would begin if the section were plain: after its length and its two checkints."""
    return base.record.section + 4 + 8


def places_meant(base):
    """Those of one key; an encrypted image shows none."""
    return places_of([first_keypair(base)] if base.record.kind == model.PLAIN else [])


def placed(record, places):
    return record_of([*numbers_of(record)[: PLACES.start], *places])


def count_cases(base):
    for count in WRONG_COUNTS:
        wrong = put(base.record, KEYS, count)
        yield base.handed(wrong, f"{count} keys")
        yield base.handed(wrong, f"{count} keys, no room", 0)


def place_cases(base):
    """Each place changed by one, both ways, and by a large number."""
    for i in PLACES:
        own = numbers_of(base.record)[i]
        for step in STEPS:
            yield base.handed(put(base.record, i, (own + step) % PLACE_LIMIT), f"place {i - KEYS} changed by {step}")


def misplaced_cases(base):
    """No first place, or that of a plain section in an encrypted one; others where the first is, or would be."""
    first = first_keypair(base)
    for i in PLACES:
        value = 0 if numbers_of(base.record)[i] == first else first
        yield base.handed(put(base.record, i, value), f"place {i - KEYS} is {value}", 0 if i % 2 else None)
    for title, places in [
        ("all where the first is", [first] * KEY_ROOM),
        ("the first is the second", places_of([0, first])),
        ("each key a byte on", range(first, first + KEY_ROOM)),
        ("each at the section's length", [base.record.section] * KEY_ROOM),
        ("each at the image's end", [len(base.image)] * KEY_ROOM),
    ]:
        yield base.handed(placed(base.record, places), title)


def together_cases(base):
    """A count and places that fit each other, and not the image."""
    first = first_keypair(base)
    for count, places in [(2, [first, first]), (2, [first, len(base.image)]), (KEY_ROOM, [first] * KEY_ROOM)]:
        wrong = placed(put(base.record, KEYS, count), places_of(places))
        yield base.handed(wrong, f"{count} keys and as many places")
    if base.record.kind == model.PLAIN:
        yield base.handed(placed(put(base.record, KEYS, 0), places_of([])), "no key and no place")


def counted(base, count):
    """The image with another key count, which stands before the blob's length."""
    end = base.record.blob[0] - 4
    return base.image[: end - 4] + uint32(count) + base.image[end:]


def counted_cases(base):
    """An image with a wrong key count is refused, so the record and the half that have that count are no accepted read's of it."""
    for count in (0, 2, KEY_ROOM, KEY_ROOM + 1):
        image, record = counted(base, count), put(base.record, KEYS, count)
        yield handed(f"{base.title}: {count} keys, in the image too", image, record, UNLIKE)
        yield handed(f"{base.title}: {count} keys, in the image alone", image, base.record, UNLIKE)


def half_cases(base):
    """Over the whole image and over its header alone. The places are the section's, and the section read isn't handed them."""
    half = half_alone(model.read_header(base.image))
    for image in (base.image, base.image[: base.record.section]):
        for count in WRONG_COUNTS:
            yield handed(f"{base.title}: a half with {count} keys", image, put(half, KEYS, count), UNLIKE)
    for i in (PLACES[0], PLACES[1], PLACES[-1]):
        yield handed(f"{base.title}: a half, place {i - KEYS} is 9", base.image, put(half, i, 9), READ)


def key_record_cases():
    for base in bases():
        assert (base.record.keys, base.record.places) == (1, places_meant(base)), base.title
        yield from count_cases(base)
        yield from misplaced_cases(base)
        yield from together_cases(base)
        if base.title in CLOSELY:
            yield from place_cases(base)


def key_half_cases():
    for base in bases():
        yield from half_cases(base)
        yield from counted_cases(base)
