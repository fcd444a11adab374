"""Calls of the writer of several keys, request Eight, which are handed in as one text and a table of 19 numbers a key: each condition at
the first, a middle and the last key, several at once, tables that aren't right, and the limit; with the reply meant for each. And
images of several keys that are written again."""
import itertools

from calls import LARGE, Row, filled, refuses, rewrite, writes
from calls import write_keys as call
from cases_rsa import form_and_size
from cases_several import COUNTS, good_rings, of_limit, slipped_largest, up_to, with_comment
from fields import ED25519, LIMIT, RSA
from images import inner, join, spot
from images_several import KINDS, key, mixed, ring, size_of
from rsa import NUMBERS

CHECKINT = 0x01020304
PARTS = 3 + len(NUMBERS)  # public, private, comment and RSA's six
ROW = 1 + 2 * PARTS


def parts_of(given):
    return [given.public, given.private, given.comment, *given.numbers]


def tabled(keys):
    """A text with all parts of the keys, one after another, and the table of their places."""
    table, text = [], b""
    for given in keys:
        table.append(given.algorithm)
        for part in parts_of(given):
            table += [len(text), len(part)]
            text += part
    return table, text


def alone(title, room, one):
    return Row(title, filled(room), [one])


def written(title, keys, extra=0, checkint=CHECKINT, derived=False, handed=None):
    """A call that must write the image of these keys, and leave the so many bytes past it."""
    size = size_of(keys)
    after = join(ring(keys, checkint=checkint)) + filled(size + extra)[size:]
    table, text = tabled(keys) if handed is None else handed
    return alone(title, size + extra, call(table, text, None if derived else checkint, writes(size), after))


def refused(title, keys, number, room=60):
    return alone(title, room, call(*tabled(keys), reply=refuses(number)))


# ---- keys that are written


def good_calls():
    """Of all kinds, with room that is just enough, more, and a byte too little."""
    for count, shift in itertools.product(COUNTS, KINDS):
        keys = mixed(count, shift)
        yield written(f"{count} keys", keys)
        yield written(f"{count} keys, more room", keys, 9)
        yield refused(f"{count} keys, a byte too short", keys, 9, size_of(keys) - 1)
        yield refused(f"{count} keys, no room", keys, 9, 0)
    for algorithm in KINDS:
        for count in (2, 16):
            yield written("equal keys", [key(algorithm)] * count, 3)
    for first, at in itertools.product((0, 1, 0x7F, 0x80, 0xFF), range(3)):
        keys = mixed(3)
        keys[at] = key(1 + at, "scalar", first=first)
        yield written(f"scalar begins {first} at key {at + 1}", keys, 5)


def derived(given):
    """The xor of the groups of 4 bytes of the seed, of all SIZE bytes of the scalar, or of d."""
    private = given.numbers[NUMBERS.index("d")] if given.algorithm == RSA else given.private
    checkint = 0
    for at in range(0, len(private) // 4 * 4, 4):
        checkint ^= int.from_bytes(private[at : at + 4], "big")
    return checkint


def checkint_calls():
    """A derived one is the first key's, whatever comes after it."""
    for checkint in (0, 1, 0x7FFFFFFF, 0xFFFFFFFF):
        yield written("a given checkint", mixed(3), checkint=checkint)
    for count, shift in itertools.product((1, 2, 3, 16), KINDS):
        keys = mixed(count, shift)
        yield written(f"derived, {count} keys", keys, 2, derived(keys[0]), derived=True)
    short = key(1, "short", first=0)
    for keys in ([short, key(3)], [key(3), short], [key(ED25519), short, key(RSA)]):
        yield written("derived from all SIZE bytes", keys, 0, derived(keys[0]), derived=True)


# ---- tables


def elsewhere_calls():
    """Parts anywhere within the text: in another order, over each other, with bytes between; those that a kind doesn't use too."""
    keys = mixed(5)
    table, text = tabled(keys)
    shifted = [number + 7 if turn % ROW % 2 else number for turn, number in enumerate(table)]
    yield written("bytes around", keys, handed=(shifted, filled(7) + text + filled(9)))
    backwards, tail = tabled(keys[::-1])
    rows = [backwards[start : start + ROW] for start in range(0, len(backwards), ROW)]
    yield written("in another order", keys, handed=(sum(rows[::-1], []), tail))
    one, whole = tabled([key(1, "one")])
    yield written("one key's places twice", [key(1, "one")] * 2, handed=(one * 2, whole))
    for algorithm in KINDS:
        given = key(algorithm, "one")
        table, text = tabled([given])
        unused = [1, 3] if algorithm == RSA else range(7, ROW, 2)
        for at in unused:
            table[at : at + 2] = [len(text) // 2, len(text) - len(text) // 2]
        yield written("unused parts", [given], handed=(table, text))
        for at in unused:
            table[at : at + 2] = [len(text), 0]
        yield written("unused parts at the end", [given], handed=(table, text))
    three = mixed(3)
    yield written("a comment shared", with_comment(three, 1, three[0].comment), handed=with_first_comment(three, [2]))


def with_first_comment(keys, others):
    """The text and table of these keys, with the place of the first one's comment for some others too."""
    table, text = tabled(keys)
    for k in others:
        at = (k - 1) * ROW + 5
        table[at : at + 2] = table[5:7]
    return table, text


def count_calls():
    """No key, more than sixteen, and tables that aren't whole rows: 1, before anything in them is looked at."""
    yield refused("no key", [], 1)
    for count in (17, 18, 32):
        yield refused(f"{count} keys", mixed(count), 1, 9000)
    yield refused("17 keys, no room", mixed(17), 1, 0)
    table, text = tabled(mixed(17))
    table[0] = 99
    yield alone("17 keys, an unknown code", 60, call(table, text, reply=refuses(1)))
    whole, text = tabled(mixed(16))
    for length in (1, 2, 18, 20, 37, 16 * ROW - 1):
        yield alone(f"{length} numbers", 9000, call(whole[:length], text, reply=refuses(1)))
    for more in (1, 18):
        yield alone("16 keys and more", 9000, call(whole + [0] * more, text, reply=refuses(1)))


def outside(text):
    """Places that aren't within a text; none wraps around."""
    end = len(text)
    yield from ((end, 1), (end + 1, 0), (0, end + 1), (1, end), (end - 1, 2))
    yield from ((2**64 - 1, 0), (2**64 - 1, 1), (1, 2**64 - 1), (2**63, 2**63), (2**64 - 1, 2**64 - 1), (2**32, 0))


def outside_calls():
    """A part that isn't within the text, used or not, at each key: 1, before a code that names nothing and all else."""
    keys = [key(ED25519, "one"), key(1, "two"), key(RSA, "three")]
    table, text = tabled(keys)
    wrong = list(outside(text))
    for turn, (k, part) in enumerate(itertools.product(range(3), range(PARTS))):
        at = k * ROW + 1 + 2 * part
        for place in (wrong[turn % len(wrong)], wrong[(turn + 4) % len(wrong)]):
            put = [*table[:at], *place, *table[at + 2 :]]
            yield alone(f"part {part} of key {k + 1} outside", 900, call(put, text, reply=refuses(1)))
            put[0 if k else 2 * ROW] = 5
            yield alone("outside, and an unknown code", 900, call(put, text, reply=refuses(1)))
    yield alone("no text", 900, call(table, b"", reply=refuses(1)))
    yield alone("a byte less of text", 900, call(table, text[:-1], reply=refuses(1)))


def code_calls():
    """A code that names nothing, whichever key's: 4, before any key's own refusals."""
    keys = mixed(3)
    bad = [keys[0]._replace(public=b"", numbers=(b"",) * 6), *keys[1:]]
    for k, code in itertools.product(range(3), (5, 6, 255, 256, 2**32, 2**32 + 1, 2**64 - 1)):
        for some in (keys, bad):
            table, text = tabled(some)
            table[k * ROW] = code
            yield alone(f"code {code} at key {k + 1}", 900, call(table, text, reply=refuses(4)))


# ---- keys that are refused


def wrong_keys(algorithm):
    """A key of the kind wrong in each way, with the number that it must get."""
    good = key(algorithm, "wrong")
    if algorithm == RSA:
        for at, name in enumerate(NUMBERS):
            form, size = form_and_size(name)
            yield good._replace(numbers=(*good.numbers[:at], form, *good.numbers[at + 1 :])), 2
            yield good._replace(numbers=(*good.numbers[:at], size, *good.numbers[at + 1 :])), 1
        yield good._replace(numbers=(form_and_size("n")[1], *good.numbers[1:5], b"")), 2
    else:
        yield good._replace(public=good.public[:-1]), 1
        yield good._replace(private=good.private + b"\0"), 1
        yield good._replace(public=b"", private=b""), 1
    if algorithm not in (ED25519, RSA):
        yield good._replace(public=b"\3" + good.public[1:]), 2
        yield good._replace(private=bytes(len(good.private))), 2
        yield good._replace(public=b"\3" + good.public[1:], private=good.private[:-1]), 1
    yield good._replace(comment=b"S\xfcd"), 7


def key_calls():
    """At the first, a middle and the last key; and each key's before a later one's, whatever these are."""
    for algorithm, at in itertools.product(KINDS, range(3)):
        for wrong, number in wrong_keys(algorithm):
            keys = mixed(3)
            keys[at] = wrong
            yield refused(f"key {at + 1} wrong", keys, number)
    some = [wrong for algorithm in (ED25519, 2, RSA) for wrong in list(wrong_keys(algorithm))[-4:]]
    for (one, number), (other, _) in itertools.permutations(some, 2):
        yield refused("two keys wrong", [one, other], number)
    for k in (0, 7, 15):
        for wrong, number in some:
            keys = mixed(16)
            keys[k] = wrong
            yield refused(f"key {k + 1} of 16 wrong", keys, number)


# ---- the limit


def limit_calls():
    for count, at in ((2, 0), (2, 1), (16, 8)):
        keys = of_limit(count)
        most, over = up_to(keys, at, LIMIT), up_to(keys, at, LIMIT + 8)
        yield written("65,535 bytes", most)
        yield refused("a byte too short", most, 9, LIMIT - 1)
        yield refused("above the limit", over, 11, LARGE)
        yield refused("above, little room", over, 11, 40)
        last = over[-1]._replace(comment=b"\xff") if at != count - 1 else over[-1]._replace(public=b"")
        yield refused("above, a wrong key", [*over[:-1], last], 7 if at != count - 1 else 1, 40)
    for count, c in ((2, 40000), (16, 4096), (16, 65000)):
        handed = with_first_comment(with_comment(mixed(count), 0, b"c" * c), range(2, count + 1))
        yield alone("comments of one place, above together", 300, call(*handed, reply=refuses(11)))


def following_calls():
    """One image over another in the same buffer: of a longer one before it the end stays."""
    calls, buffer = [], filled(6000)
    for count, shift in ((16, 0), (2, 1), (5, 2), (1, 3), (3, 4)):
        keys = mixed(count, shift)
        size = size_of(keys)
        buffer = join(ring(keys, checkint=CHECKINT)) + buffer[size:]
        calls.append(call(*tabled(keys), reply=writes(size), after=buffer))
        calls.append(call(*tabled([*keys[:-1], keys[-1]._replace(comment=b"\xff")]), reply=refuses(7), after=buffer))
        calls.append(call(*tabled(with_comment(keys, 0, b"c" * 6000)), reply=refuses(9), after=buffer))
    yield Row("one image over another", filled(6000), calls)


# ---- written again


def again_rows():
    """All keys as the writer has them, under the image's own checkint; in the form it is the image itself."""
    rings = good_rings()
    for one in [*rings[::9], *[slipped for slipped in rings if not slipped.form][::5]]:
        image, size = join(one.fields), size_of(one.keys)
        if size > LIMIT:
            continue
        checkint = int.from_bytes(inner(spot(one.fields, "section.checkint1").field), "big")
        after = join(ring(one.keys, checkint=checkint))
        assert (after == image) == one.form, one.title
        for extra in (0, 9):
            room = filled(size + extra)
            yield Row(one.title, room, [rewrite(image, writes(size), after + room[size:])])
        yield alone(one.title, size - 1, rewrite(image, refuses(9)))
    for at, room in itertools.product((1, 2), (LARGE, 40)):
        yield alone("above the limit once written", room, rewrite(join(slipped_largest(at).fields), refuses(11)))


def keys_writing_rows():
    yield from good_calls()
    yield from checkint_calls()
    yield from elsewhere_calls()
    yield from count_calls()
    yield from outside_calls()
    yield from code_calls()
    yield from key_calls()
    yield from limit_calls()
    yield from following_calls()
    yield from again_rows()
