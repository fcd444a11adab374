"""Records and header halves of images of several keys, request Eight, handed in: right ones with room and without, over damaged sections
and reordered keypairs, with a wrong count, with wrong places, and those of another image."""
import itertools

import model
from cases_half_records import half_alone, handed
from cases_key_records import STEPS, placed
from cases_records import READ, UNLIKE, Base, put, right_cases
from cases_several import order_cases, out_of_form, with_scalars
from cases_several_damage import field_cases
from images_several import alike, key, mixed, ring, size_of
from model import KEY_ROOM, places_of
from records import KEYS, PLACES, numbers_of


def bases():
    for count, shift in ((2, 0), (3, 2), (15, 1), (16, 4)):
        yield Base(f"{count} keys", ring(mixed(count, shift)))
    slipped = with_scalars("a slip", [key(2, "one"), key(1, "other")], {2: next(out_of_form(1))}, False)
    yield Base("out of the form", slipped.fields, size_of(slipped.keys))


def own_places(base):
    return list(base.record.places[: base.record.keys])


def count_cases(base):
    """Another count, and a count that fits the places that are handed in with it."""
    keys, places = base.record.keys, own_places(base)
    for count in sorted({0, 1, keys - 1, keys + 1, KEY_ROOM + 1, 2**63} - {keys}):
        yield base.handed(put(base.record, KEYS, count), f"{count} keys")
    fewer = placed(put(base.record, KEYS, keys - 1), places_of(places[:-1]))
    yield base.handed(fewer, "a key fewer, its place too")
    if keys < KEY_ROOM:
        more = placed(put(base.record, KEYS, keys + 1), places_of([*places, places[-1] + 8]))
        yield base.handed(more, "a key more, a place too")


def place_cases(base):
    """Each key's place changed, left out, or another's."""
    places = own_places(base)
    for k, own in enumerate(places):
        for step in STEPS[: 3 if k in (0, len(places) - 1) else 1]:
            yield base.handed(put(base.record, PLACES[k], own + step), f"place {k + 1} changed by {step}")
        yield base.handed(put(base.record, PLACES[k], 0), f"no place {k + 1}", 0)
    for title, others in [
        ("all where the first is", [places[0]] * len(places)),
        ("in another order", places[::-1]),
        ("the first left out", places[1:]),
        ("the last left out", places[:-1]),
        ("each at its comment", [place - 4 for place in places[1:]]),
    ]:
        yield base.handed(placed(base.record, places_of(others)), title)
    if len(places) < KEY_ROOM:
        after = [*places, *[places[-1]] * (KEY_ROOM - len(places))]
        yield base.handed(placed(base.record, after), "places past the last key")


def half_cases():
    """The section read says what the full read of the image says, and looks at no place."""
    cases = itertools.chain(itertools.islice(order_cases(), 0, None, 2), itertools.islice(field_cases(), 0, None, 3))
    for case in cases:
        half = model.read_header(case.image)
        if half.number == 0:
            yield handed(case.title, case.image, half_alone(half), case.reply or READ)
    for base in bases():
        half = half_alone(model.read_header(base.image))
        for count in sorted({0, 1, half.keys - 1, half.keys + 1} - {half.keys}):
            yield handed(f"{base.title}: a half with {count} keys", base.image, put(half, KEYS, count), UNLIKE)
        yield handed(f"{base.title}: a half with a place", base.image, put(half, PLACES[1], 9), READ)


def same_record_cases():
    """The record of another image of as many keys of the same kinds and lengths is the same; of the keys in another order it isn't."""
    one, other = alike(1, 3), [key(1, "another", given.comment) for given in alike(1, 3)]
    base, like = Base("one", ring(one)), Base("other", ring(other))
    assert base.record == like.record and numbers_of(base.record)[KEYS] == 3
    yield from right_cases(like)
    turned = Base("turned", ring(one[::-1]))
    yield turned.handed(base.record, "that of another order")


def several_record_cases():
    for base in bases():
        yield from right_cases(base)
        yield from count_cases(base)
        yield from place_cases(base)
    yield from half_cases()
    yield from same_record_cases()
