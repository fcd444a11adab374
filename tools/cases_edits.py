"""Edits of images of several keys in rows on one buffer, request Eight: comments changed, keys added and removed at the first, a middle
and the last place, with the whole buffer that each must leave; rooms that are exact and a byte short, sizes at the limit, every
refusal between accepted edits, and which of several is said. Keys count from 1."""
import itertools

from calls import LARGE, Row, change, change_of, lent, refuses, remove, rewrite, writes
from calls import add as add_call
from cases_keys_writing import wrong_keys
from cases_several import READ, of_limit, out_of_form, slipped_largest, up_to, with_comment, with_scalar
from cases_several_damage import several_damage_cases
from damage import Dice
from edits_meant import Sequence, add
from fields import CIPHERS, ED25519, LIMIT, RSA
from images import changed, encrypted, join
from images_several import COMMENTS, KINDS, comment_field, key, mixed, ring, size_of

MISSING = [0, 17, 2**32, 2**32 + 1, 2**63, 2**64 - 1]  # numbers that no key has
LONG = b"the end of a longer old comment must not stay behind the new image"


def middle(count):
    """The first, a middle and the last number of so many keys."""
    return sorted({1, (count + 1) // 2, count})


# ---- accepted ones


def change_rows():
    """Each comment shorter, longer, as long, empty and long again; what follows moves, and what was more is cleared."""
    for count, shift in itertools.product((1, 2, 3, 16), (0, 3)):
        row = Sequence(f"comments of {count} keys", mixed(count, shift), 90)
        for k, comment in itertools.product(middle(count), (LONG, b"", b"oven-12", b"oven-13", LONG[:-9], b"7")):
            row.change(k, comment)
        yield row.row()
    for k in (1, 2, 3):
        row = Sequence(f"every length at key {k}", mixed(3), 30)
        for c in range(19):
            row.change(k, b"c" * c)
            row.change(k, b"oven")
        yield row.row()


def first_rows():
    """The comment change without a number is the first key's."""
    for count in (2, 16):
        row = Sequence("the first key's", mixed(count), 70)
        for comment in (LONG, b"", b"oven"):
            row.accepted(change(comment), with_comment(row.keys, 0, comment))
        row.refused(change(b"\xff"), 7, comment_field(row.keys, 1))
        yield row.row()


def add_rows():
    """From one key to sixteen; a seventeenth is refused, and has room once another is removed."""
    for shift in KINDS:
        keys = mixed(17, shift)
        row = Sequence("up to sixteen", keys[:1], size_of(keys) + 11 - size_of(keys[:1]))
        for given in keys[1:16]:
            row.add(given)
        row.refused(add(keys[16]), 1)
        row.remove(1 + shift * 3)
        row.add(keys[16])
        row.refused(add(keys[0]), 1)
        yield row.row()
    one = key(1, "one")
    row = Sequence("equal keys", [one], 900)
    for given in (one, one._replace(comment=b""), one):
        row.add(given)
    row.remove(2)
    row.change(3, LONG)
    yield row.row()


def remove_rows():
    """Down to one key, which stays: always the first, the last, a middle one."""
    for title, which in (("first", lambda n: 1), ("last", lambda n: n), ("middle", lambda n: (n + 1) // 2)):
        for count, extra in ((16, 5), (3, 0), (2, 0)):
            row = Sequence(f"the {title} of {count}", mixed(count, count), extra)
            for left in range(count, 1, -1):
                row.remove(which(left))
            row.refused(remove(1), 1)
            row.refused(remove(2), 1)
            row.change(1, b"")
            yield row.row()


def freed_rows():
    """What a removal freed serves an addition, to the byte; a byte more than the buffer has is refused."""
    for k, shift in itertools.product((1, 2, 3), KINDS):
        keys = mixed(3, shift)
        row = Sequence("freed and used", keys)
        row.refused(add(keys[0]), 9)
        row.remove(k)
        row.add(keys[k - 1])
        row.refused(add(keys[k - 1]), 9)
        row.remove(3)
        row.refused(add(keys[k - 1]._replace(comment=b"c" * 300)), 9)
        row.add(keys[k - 1])
        yield row.row()


# ---- rooms


def room_rows():
    """An addition and a longer comment with a buffer that is exact, a byte short, and longer."""
    for count, shift in itertools.product((1, 2, 15), KINDS):
        keys = mixed(count + 1, shift)
        need = size_of(keys) - size_of(keys[:-1])
        for extra in (need - 1, need, need + 9):
            row = Sequence(f"room of {extra} for a key", keys[:-1], extra)
            if extra < need:
                row.refused(add(keys[-1]), 9)
            else:
                row.add(keys[-1])
            yield row.row()
    for count, shift in ((2, 0), (3, 1), (16, 2)):
        for k in middle(count):
            yield from comment_room_rows(mixed(count, shift), k)


def comment_room_rows(keys, k):
    longer = with_comment(keys, k - 1, LONG)
    need = size_of(longer) - size_of(keys)
    most = next(c for c in range(len(LONG), 99) if size_of(with_comment(keys, k - 1, b"c" * (c + 1))) > size_of(longer))
    for extra in (need - 1, need, need + 1):
        row = Sequence(f"room of {extra} for a comment", keys, extra)
        if extra < need:
            row.refused(change_of(k, LONG), 9)
        else:
            row.change(k, LONG)
            row.change(k, b"c" * most)
            row.refused(change_of(k, b"c" * (most + 1)), 9)
        yield row.row()


# ---- refusals among accepted ones


def refused_rows():
    """Each refusal between two that are accepted. Nothing of it may be left."""
    for count, shift in itertools.product((1, 2, 3, 16), KINDS):
        row = Sequence(f"refused between, {count} keys", mixed(count, shift), 60)
        for turn, missing in enumerate([count + 1, *MISSING]):
            row.refused(remove(missing), 1)
            row.refused(change_of(missing, (b"oven", b"\xff", b"c" * LIMIT)[turn % 3]), 1)
        for k in middle(count):
            field = comment_field(row.keys, k)
            row.refused(change_of(k, b"S\xfcd"), 7, field)
            row.refused(change_of(k, b"\xff" + b"c" * LIMIT), 7, field)
            row.refused(change_of(k, b"c" * LIMIT), 11)
            row.refused(change_of(k, b"c" * 900), 9)
            row.change(k, b"oven-13")
        yield row.row()


def wrong_add_rows():
    """The new key's own refusals, at 0: after the seventeenth's, before size and room. A code that names nothing is before all else."""
    for count, algorithm in itertools.product((1, 3, 16), KINDS):
        row = Sequence(f"a wrong key for {count}", mixed(count), 20)
        for turn, (wrong, number) in enumerate(wrong_keys(algorithm)):
            wrong = wrong._replace(comment=wrong.comment + b"c" * (LIMIT if turn % 3 == 0 else 0))
            row.refused(add(wrong), 1 if count == 16 else number)
        row.refused(add(key(algorithm, "long", b"c" * LIMIT)), 1 if count == 16 else 11)
        row.refused(add(key(algorithm, "room", b"c" * 200)), 1 if count == 16 else 9)
        for code, n in itertools.product((RSA, 5, 255), (None, LIMIT + 1)):
            row.refused(add_call(code, b"", b"", b"\xff", n=n), 4)
        row.change(1, b"oven-13")
        yield row.row()


def length_rows():
    """Lengths that aren't the image's; they come before the key's number and all else."""
    for count in (2, 16):
        keys = mixed(count)
        row = Sequence("wrong lengths", keys, 20)
        size, section = size_of(keys), len(join(ring(keys)[:-1]))
        replies = {0: (1,), 14: (1,), 15: (1, 15), size - 1: (1, section), size + 1: (6, size, 1), size + 20: (6, size, 20)}
        replies |= {size + 21: (1,), LIMIT: (1,), LIMIT + 1: (11,), 2**32: (11,), 2**64 - 1: (11,)}
        for n, reply in replies.items():
            for call in edits(n):
                row.refused(call, *reply)
        row.remove(1)
        row.refused(remove(1, n=size), 6, len(row.image), size - len(row.image))
        yield row.row()


def edits(n=None):
    """A call of each edit, all but the last wrong in what comes after the image."""
    wrong = key(ED25519)._replace(public=b"")
    return [change(b"\xff", n=n), change_of(99, b"\xff", n=n), remove(0, n=n), add(wrong, n=n), add(key(RSA), n=n)]


# ---- images that no edit takes


def sealed_rows():
    for code in range(1, len(CIPHERS)):
        image = join(encrypted(code % 4, CIPHERS[code][0]))
        calls = [call._replace(reply=refuses(8)) for call in edits()]
        yield Row("encrypted", lent(image, 9), calls, len(image))


def form_rows():
    """A scalar out of the form at one key: refused whatever key is edited; written again, the image can be edited."""
    for order, at in itertools.product(((1, 2, 3), (3, 0, 1), (4, 2, 1)), range(3)):
        if order[at] in (1, 2, 3):
            keys = [key(algorithm, "form") for algorithm in order]
            for slip in itertools.islice(out_of_form(order[at]), 0, None, 3):
                yield form_row(keys, at + 1, slip)
    image = join(slipped_largest(2).fields)
    yield Row("above the limit once written", lent(image, 9), [call._replace(reply=refuses(10)) for call in edits()], LIMIT)


def form_row(keys, k, slip):
    image = join(changed(ring(keys), {f"section.scalar{k}": slip}))
    calls = [*edits(), *(change_of(j, b"oven-13") for j in (1, 2, 3)), *map(remove, (1, 2, 3))]
    row = Sequence("written again", [*keys[: k - 1], with_scalar(keys[k - 1], slip), *keys[k:]])
    row.start = row.image + lent(image, 400)[len(row.image) :]
    again = rewrite(image, writes(len(row.image)), row.start)
    row.remove(k)
    row.change(2, LONG)
    row.add(keys[k - 1])
    refused = [call._replace(reply=refuses(10)) for call in calls]
    return Row("not in the form", lent(image, 400), [*refused, again, *row.calls], len(image))


def damaged_rows():
    """The reader's refusals, with their places, before an edit's own: some of each number."""
    cases = [case for case in several_damage_cases() if case.reply not in (None, READ)]
    for number in sorted({case.reply[0] for case in cases}):
        some = [case for case in cases if case.reply[0] == number]
        for turn, case in enumerate(some[:: len(some) // 4]):
            calls = [call._replace(reply=refuses(*case.reply)) for call in edits()]
            yield Row(case.title, lent(case.image, turn), calls, len(case.image))


# ---- the limit


def limit_rows():
    """Up to 65,535 bytes and back, by the comment of the first, a middle and the last key. There is room above the limit."""
    for count, k in ((2, 1), (2, 2), (3, 2), (16, 16)):
        keys = of_limit(count)
        row = Sequence("up to the limit", keys, LARGE - size_of(keys))
        most = up_to(keys, k - 1, LIMIT)[k - 1].comment
        for more in (8, 9, 16):
            row.refused(change_of(k, most + b"c" * more), 11)
        row.change(k, most)
        row.refused(add(key(ED25519)), 1 if count == 16 else 11)
        row.refused(change_of(3 - k if count == 2 else 1, LONG), 11)
        row.change(k, most[:-1])
        row.change(k, b"")
        yield row.row()


def limit_add_rows():
    """A key that takes the image to 65,535 bytes, and one that would take it above."""
    for count, algorithm in ((2, ED25519), (2, 1), (3, RSA), (16, 3)):
        *keys, last = of_limit(count)
        room = up_to([*keys, last], 0, LIMIT)
        row = Sequence("added up to the limit", room[:-1], LARGE - size_of(room[:-1]))
        above = last._replace(comment=b"c" * 8)
        row.refused(add(above), 11)
        row.refused(add(key(algorithm, "long", b"c" * LIMIT)), 11)
        row.add(last)
        row.remove(count)
        row.add(last)
        row.remove(1)
        yield row.row()


# ---- sequences


def random_rows():
    """Edits of every kind one after another, refused ones among them."""
    for turn in range(12):
        dice = Dice(f"edits {turn}")
        row = Sequence("random", mixed(1 + dice.below(5), turn), 200 * dice.below(8) + dice.below(9))
        for _ in range(25):
            step(row, dice)
        yield row.row()


def step(row, dice):
    """One edit: accepted if the key is there, the number of keys allows it, the new part is right, and the image fits."""
    k = dice.below(len(row.keys) + 2)
    which = dice.below(7)
    if which < 3:
        change_step(row, k, (b"", LONG, b"\xff", COMMENTS[2], b"c" * dice.below(60))[dice.below(5)])
    elif which < 5:
        add_step(row, mixed(1, dice.below(70))[0])
    elif 1 <= k <= len(row.keys) and len(row.keys) > 1:
        row.remove(k)
    else:
        row.refused(remove(k), 1)


def change_step(row, k, comment):
    if not 1 <= k <= len(row.keys):
        row.refused(change_of(k, comment), 1)
    elif comment == b"\xff":
        row.refused(change_of(k, comment), 7, comment_field(row.keys, k))
    elif size_of(with_comment(row.keys, k - 1, comment)) > len(row.start):
        row.refused(change_of(k, comment), 9)
    else:
        row.change(k, comment)


def add_step(row, given):
    if len(row.keys) == 16:
        row.refused(add(given), 1)
    elif size_of([*row.keys, given]) > len(row.start):
        row.refused(add(given), 9)
    else:
        row.add(given)


def edit_rows():
    yield from change_rows()
    yield from first_rows()
    yield from add_rows()
    yield from remove_rows()
    yield from freed_rows()
    yield from room_rows()
    yield from refused_rows()
    yield from wrong_add_rows()
    yield from length_rows()
    yield from sealed_rows()
    yield from form_rows()
    yield from damaged_rows()
    yield from limit_rows()
    yield from limit_add_rows()
    yield from random_rows()
