"""Images of RSA keys whose record is written again, and whose comment is changed: in rows on one buffer, with refusals among
them, as in cases_rewrite.py and cases_change.py."""
import functools
import itertools

import model
from calls import LARGE, Row, change, filled, lent, refuses, rewrite, rsa, writes
from cases_change import WORDS
from cases_rewrite import in_form, meant
from cases_rsa import rsa_cases
from cases_rsa_images import of_size, rsa_image_cases
from cases_rsa_writing import comment_field, exact, largest_comment, section_field, size_of
from damage import Dice
from fields import CIPHERS, LIMIT
from images import join
from images_rsa import RSA_GOOD, high, low, numbers, rsa_encrypted, rsa_plain, small_numbers

LONG = b"the end of a longer old comment must not stay behind the new image"
KEYS = {  # numbers with and without zeros in front, the smallest and the largest
    "1,024 bits": numbers(),
    "2,048 bits": numbers(2048),
    "8,192 bits": numbers(8192),
    "small numbers": small_numbers(1024),
    "d with a zero": numbers(d=b"\0" + high(127), iqmp=low(60)),
}


@functools.cache
def damaged_cases():
    """Each damaged image once."""
    cases = itertools.chain(rsa_cases(), rsa_image_cases())
    return list({case.image: case for case in cases}.values())


# ---- written again


def rewrite_rows():
    for title, key in KEYS.items():
        for comment in (b"", b"oven-12", "Süd 炉".encode()):
            yield from in_form(title, join(rsa_plain(key, comment)))
    for fields in RSA_GOOD.values():
        yield from in_form("good", join(fields))
    for cipher, _, _ in CIPHERS[1:]:
        yield from in_form("sealed", join(rsa_encrypted(cipher, blocks=2)))
    for room, reply in ((LARGE, writes(LIMIT)), (LIMIT - 1, refuses(9))):
        yield Row("the largest", filled(room), [rewrite(join(of_size(LIMIT)), reply)])
    yield Row("above the limit", filled(LARGE), [rewrite(join(of_size(LIMIT + 1)), refuses(11))])


def damaged_rewrite_rows():
    """The reader's refusals, with their places, and a buffer that keeps every byte."""
    for turn, case in enumerate(damaged_cases()[::6]):
        room = 40 + turn % 9 if case.reply is None or case.reply[0] else len(case.image) + 9
        yield Row(case.title, filled(room), [rewrite(case.image, meant(case))])


# ---- one comment after another


def after_change(key, before, old, new):
    """The buffer that is meant: the new image, zeros up to the old end, and all past both as it was."""
    image = join(rsa_plain(key, new))
    old_size, size = size_of(key, len(old)), size_of(key, len(new))
    assert len(image) == size
    if size < old_size:
        return image + bytes(old_size - size) + before[old_size:]
    return image + before[size:]


def sequence(title, key, texts, room):
    """Accepted changes from each comment to the next, each with the buffer that it must leave."""
    image = join(rsa_plain(key, texts[0]))
    buffer = start = lent(image, room - len(image))
    calls = []
    for old, new in zip(texts, texts[1:]):
        buffer = after_change(key, buffer, old, new)
        calls.append(change(new, writes(size_of(key, len(new))), after=buffer))
    return Row(title, start, calls, len(image))


def length_rows():
    """From some lengths to each other, over every remainder of 8; and a long comment before shorter ones."""
    for old in (0, 5, 16):
        lengths = itertools.chain.from_iterable((new, old) for new in range(19))
        texts = [b"o" * old, *(bytes([97 + turn % 26]) * length for turn, length in enumerate(lengths))]
        yield sequence(f"from {old}", numbers(), texts, size_of(numbers(), 24))
    for (title, key), extra in itertools.product(KEYS.items(), (0, 11)):
        texts = [b"oven-12", LONG, b"", LONG, b"oven", LONG[:-1], LONG[:-9], b"oven-12"]
        yield sequence(title, key, texts, size_of(key, len(LONG)) + extra)


def random_rows():
    """Comments of random lengths, of characters of 1 to 4 bytes, with refusals among them."""
    for title, key in KEYS.items():
        dice = Dice(f"comments of {title}")
        room = size_of(key, 30) + dice.below(8)
        image = join(rsa_plain(key))
        calls = []
        for _ in range(25):
            comment = b"".join(WORDS[dice.below(7)] for _ in range(dice.below(25)))
            size = size_of(key, len(comment))
            calls.append(change(comment, writes(size) if size <= room else refuses(9)))
            if dice.below(3) == 0:
                calls.append(change(comment + b"\xe7\x82", refuses(7, 0, comment_field(key))))
        yield Row("random", lent(image, room - len(image)), calls, len(image))


# ---- refusals among accepted ones


def refused_rows():
    """Each refusal of a comment, and of a length, between two that are accepted. Nothing of it may be left."""
    for title, key in KEYS.items():
        size, field = size_of(key, 7), comment_field(key)
        image = join(rsa_plain(key))
        accepted = change(b"oven-13", writes(size))
        calls = [accepted]
        for call in (
            change(b"s\xfcd", refuses(7, 0, field)),
            change(b"c" * (largest_comment(key) + 1), refuses(11)),
            change(b"c" * LIMIT, refuses(11)),
            change(b"c" * 40, refuses(9)),
            change(b"\xff" + b"c" * LIMIT, refuses(7, 0, field)),
            *wrong_lengths(key, size, size + 20),
        ):
            calls += [call, accepted]
        yield Row(title, lent(image, 20), calls, size)


def wrong_lengths(key, size, room):
    comment = b"oven-14"
    for n in (0, 14):
        yield change(comment, refuses(1), n=n)
    for n in (size - 1, size - 8, comment_field(key)):
        yield change(comment, refuses(1, 0, section_field(key)), n=n)
    for n in (size + 1, room):
        yield change(comment, refuses(6, n - size, size), n=n)
    yield change(comment, refuses(1), n=room + 1)
    for n in (LIMIT + 1, 2**64 - 1):
        yield change(comment, refuses(11), n=n)


def sealed_rows():
    for cipher, _, _ in CIPHERS[1:]:
        for kdf in (b"bcrypt", b"none"):
            image = join(rsa_encrypted(cipher, kdf))
            calls = [change(comment, refuses(8)) for comment in (b"", b"oven-12", b"\xff", b"c" * LIMIT)]
            yield Row("encrypted", lent(image, 9), calls, len(image))


def damaged_rows():
    """The reader's refusals come before the comment's."""
    for turn, case in enumerate(damaged_cases()[::13]):
        comment = (b"oven", b"\xff", b"c" * LIMIT)[turn % 3]
        if meant(case) is not None:
            yield Row(case.title, lent(case.image, turn % 9), [change(comment, meant(case))], len(case.image))


# ---- size and room


def room_rows():
    """As much room as the image has: the padding may be filled, and a byte more needs 8 more."""
    for title, key in KEYS.items():
        size = size_of(key, 7)
        most = max(c for c in range(7, 16) if size_of(key, c) == size)
        for extra in (0, 7, 8):
            over = writes(size + 8) if extra == 8 else refuses(9)
            calls = [change(b"c" * most, writes(size)), change(b"c" * (most + 1), over), change(b"", writes(size_of(key, 0)))]
            yield Row(f"{title}, {extra} bytes more", lent(join(rsa_plain(key)), extra), calls, size)


def limit_rows():
    """Up to the limit and back. The buffer has room above it, so that the size is refused and not the room."""
    for key in (numbers(8192), exact(1024), exact(8192)):
        c = largest_comment(key)
        size, image = size_of(key, c), join(rsa_plain(key))
        start = lent(image, LARGE - len(image))
        cleared = join(rsa_plain(key, b""))
        cleared += bytes(size - len(cleared)) + start[size:]
        calls = [
            change(b"c" * c, writes(size)),
            change(b"c" * (c + 1), refuses(11)),
            change(b"d" * (c - 1), writes(size_of(key, c - 1))),
            change(b"c" * (c + 8), refuses(11)),
            change(b"c" * c, writes(size)),
            change(b"oven", refuses(11), n=LIMIT + 1),
            change(b"", writes(size_of(key, 0)), after=cleared),
            change(b"c" * (c + 1), refuses(11)),
            change(b"oven-12", writes(len(image))),
        ]
        yield Row("up to the limit and back", start, calls, len(image))


# ---- with the writer


def chain_rows():
    """An image is written, its comment changed, and the result is what the writer makes of the new comment at once."""
    for title, key in KEYS.items():
        size = size_of(key, 21)
        room = size + 5
        direct = model.write_rsa(list(key.values()), 0x01020304, b"oven")
        after = direct + bytes(size - len(direct)) + filled(room)[size:]
        calls = [
            change(b"oven", refuses(2), n=room),
            rsa(key, comment=b"a comment of 21 bytes", reply=writes(size)),
            change(b"oven", writes(len(direct)), after=after),
            rewrite(direct, writes(len(direct)), after=after),
            rsa(key, comment=b"oven", reply=writes(len(direct)), after=after),
            rsa(dict(key, q=b""), comment=b"oven", reply=refuses(2), after=after),
        ]
        yield Row(title, filled(room), calls)


def rsa_change_rows():
    yield from rewrite_rows()
    yield from damaged_rewrite_rows()
    yield from length_rows()
    yield from random_rows()
    yield from refused_rows()
    yield from sealed_rows()
    yield from damaged_rows()
    yield from room_rows()
    yield from limit_rows()
    yield from chain_rows()
