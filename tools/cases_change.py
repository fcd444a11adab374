"""Comment changes in rows on one buffer: each is given the buffer as the one before left it, and the length that the last
accepted one answered. The buffers go on past the image with bytes that aren't zero, so that whatever is cleared or left
standing shows."""
import itertools

import model
from calls import LARGE, Row, change, filled, lent, plain, refuses, rewrite, writes
from cases_marked import marked_examples
from cases_plain import CURVES, KINDS, comment_field, largest_comment, long_comments, section_field, size_of
from cases_plain import more_than_size
from cases_rewrite import damaged, meant
from comments import comments
from damage import Dice
from fields import CIPHERS, ED25519, LIMIT, content
from images import corpus, encrypted, join, minimal, point_of, scalar_of
from images import plain as plain_fields

WORDS = [b"o", b"v", b"e", b"n", "ü".encode(), "炉".encode(), "🥖".encode()]


def image_of(algorithm, comment, private=None):
    """An image in the writer's form, put together of its fields."""
    scalar = None if private is None else minimal(algorithm, private)
    return join(plain_fields(algorithm, comment, scalar=scalar))


def after_change(algorithm, before, old, new, private):
    """The buffer that is meant: the new image, zeros up to the old end, and all past both as it was."""
    image = image_of(algorithm, new, private)
    more = more_than_size(algorithm, private)
    old_size, size = size_of(algorithm, more, len(old)), size_of(algorithm, more, len(new))
    assert len(image) == size
    if size < old_size:
        return image + bytes(old_size - size) + before[old_size:]
    return image + before[size:]


# ---- one comment after another


def sequence(title, algorithm, texts, room, private=None):
    """Accepted changes from each comment to the next, each with the buffer that it must leave."""
    private = scalar_of(algorithm) if private is None else private
    more = more_than_size(algorithm, private)
    image = image_of(algorithm, texts[0], private)
    buffer = start = lent(image, room - len(image))
    calls = []
    for old, new in zip(texts, texts[1:]):
        buffer = after_change(algorithm, buffer, old, new, private)
        calls.append(change(new, writes(size_of(algorithm, more, len(new))), after=buffer))
    return Row(title, start, calls, len(image))


def length_rows(algorithm):
    """From some lengths to each other: longer, shorter and as long, over every remainder of 8."""
    for old in (0, 5, 16) if algorithm < 2 else (5,):
        lengths = itertools.chain.from_iterable((new, old) for new in range(19))
        texts = [b"o" * old, *(bytes([97 + turn % 26]) * length for turn, length in enumerate(lengths))]
        yield sequence(f"from {old}", algorithm, texts, size_of(algorithm, 1, 24))


def end_rows(algorithm):
    """A long comment, then shorter ones: its end is cleared, and what is past it stays."""
    long = b"the end of a longer old comment must not stay behind the new image"
    for short in (b"", b"oven", long[:-1], long[:-8], long[:-9]):
        texts = [b"oven-12", long, short, long, short, b"oven-12"]
        yield sequence("a longer one before", algorithm, texts, size_of(algorithm, 0, len(long)) + 11)
        yield sequence("a longer one before, exact", algorithm, texts, size_of(algorithm, 0, len(long)))


def high_rows():
    """A zero stands before the scalar, and stays."""
    for algorithm in KINDS:
        texts, private = [b"oven-12", b"", b"oven", b"a longer comment", b"oven-13", b""], scalar_of(algorithm, 0x80)
        row = sequence("scalar begins 80", algorithm, texts, 505, private)
        field = comment_field(algorithm, more_than_size(algorithm, private))
        yield row._replace(calls=[*row.calls, change(b"\xff", refuses(7, 0, field))])


def random_rows(algorithm):
    """Comments of random lengths, of characters of 1 to 4 bytes, with refusals among them."""
    dice = Dice(f"comments {algorithm}")
    room = size_of(algorithm, 0, 30) + dice.below(8)
    image = image_of(algorithm, b"oven-12")
    calls = []
    for _ in range(40):
        comment = b"".join(WORDS[dice.below(7)] for _ in range(dice.below(25)))
        size = size_of(algorithm, 0, len(comment))
        calls.append(change(comment, writes(size) if size <= room else refuses(9)))
        if dice.below(3) == 0:
            calls.append(change(comment + b"\xe7\x82", refuses(7, 0, comment_field(algorithm, 0))))
    yield Row("random", lent(image, room - len(image)), calls, len(image))


def utf8_rows():
    """Every comment at a border of UTF-8, one after another."""
    for algorithm, part in zip((ED25519, 1), (0, 1)):
        image = image_of(algorithm, b"oven-12")
        calls = []
        for comment, right in itertools.islice(comments(), part, None, 2):
            size = size_of(algorithm, 0, len(comment))
            reply = writes(size) if right else refuses(7, 0, comment_field(algorithm, 0))
            calls.append(change(comment, reply))
        yield Row("UTF-8 or not", lent(image, 60), calls, len(image))


# ---- refusals among accepted ones


def refused_rows(algorithm):
    """Each refusal of a comment, and of a length, between two that are accepted. Nothing of it may be left."""
    image = image_of(algorithm, b"oven-12")
    size, field = len(image), comment_field(algorithm, 0)
    accepted = change(b"oven-13", writes(size))
    calls = [accepted]
    for call in (
        change(b"s\xfcd", refuses(7, 0, field)),
        change(b"\xff" * 9, refuses(7, 0, field)),
        change(b"c" * (largest_comment(algorithm, 0) + 1), refuses(11)),
        change(b"c" * LIMIT, refuses(11)),
        change(b"c" * (LIMIT + 1), refuses(11)),
        change(b"c" * 40, refuses(9)),
        change(b"\xff" + b"c" * LIMIT, refuses(7, 0, field)),
        *wrong_lengths(algorithm, size, size + 20),
    ):
        calls += [call, accepted]
    yield Row("refused between", lent(image, 20), calls, size)


def old_length_rows(algorithm):
    """The length that an earlier call answered is refused: what it had more is left over."""
    image = image_of(algorithm, b"a comment of 21 bytes")
    size, small = len(image), size_of(algorithm, 0, 0)
    shorter = change(b"", writes(small))
    old = change(b"oven-12", refuses(6, size - small, small), n=size)
    yield Row("the length before", lent(image, 20), [shorter, old, change(b"oven-12")], size)


def wrong_lengths(algorithm, size, room):
    """Lengths that aren't the image's, whose last field is the section."""
    comment = b"oven-14"
    section = section_field(algorithm)
    for n in (0, 1, 14):
        yield change(comment, refuses(1), n=n)
    yield change(comment, refuses(1, 0, 15), n=15)
    for n in (size - 1, size - 8, comment_field(algorithm, 0)):
        yield change(comment, refuses(1, 0, section), n=n)
    for n in (size + 1, size + 8, room):
        yield change(comment, refuses(6, n - size, size), n=n)
    for n in (room + 1, room + 1000, LIMIT):
        yield change(comment, refuses(1), n=n)
    for n in (LIMIT + 1, 2**31, 2**32 - 1, 2**32, 2**63, 2**64 - 1):
        yield change(comment, refuses(11), n=n)


# ---- encrypted, not in the form, damaged


def encrypted_rows():
    for code in range(1, len(CIPHERS)):
        for kdf in (b"bcrypt", b"none"):
            image = join(encrypted(code % 4, CIPHERS[code][0], kdf))
            texts = (b"", b"oven-12", b"\xff", b"c" * LIMIT)
            calls = [change(comment, refuses(8)) for comment in texts]
            yield Row("encrypted", lent(image, 9), calls, len(image))


def form_rows(algorithm):
    """The two slips: refused as not in the form, whatever the comment; written again, they can be changed."""
    for scalar, more in ((b"\0" + scalar_of(algorithm, 0x7F), 0), (scalar_of(algorithm, 0x80), 1)):
        image = join(plain_fields(algorithm, scalar=scalar))
        calls = [change(comment, refuses(10)) for comment in (b"", b"oven-12", b"\xff", b"c" * LIMIT, b"c" * 99)]
        size = size_of(algorithm, more, 7)
        calls += [rewrite(image, writes(size)), change(b"", writes(size_of(algorithm, more, 0)))]
        yield Row("not in the form", lent(image, size + 9 - len(image)), calls, len(image))


def marked_rows():
    kinds = dict.fromkeys(["M5", "M6", "M7", "M15"], (ED25519, 0)) | {"M8": (1, 0), "M9": (1, 1), "M14": (1, -1)}
    for case in marked_examples():
        first = second = meant(case)
        if case.form is False:
            first = second = refuses(10)
        elif case.title in kinds:
            kind = kinds[case.title]
            first, second = writes(size_of(*kind, 7)), refuses(7, 0, comment_field(*kind))
        calls = [change(b"oven-12", first), change(b"\xff", second)]
        yield Row(case.title, lent(case.image, 40), calls, len(case.image))


def damaged_rows():
    """The reader's refusals come before the comment's."""
    for turn, case in enumerate(damaged(19)):
        comment = (b"oven", b"\xff", b"c" * LIMIT)[turn % 3]
        calls = [change(comment, meant(case))]
        yield Row(case.title, lent(case.image, turn % 9), calls, len(case.image))


def size_with(record, c):
    """The size of a plain record's image once its comment has c bytes: the section is a multiple of 8."""
    start = record.section + 4
    return start + (record.comment[0] + c - start + 7) // 8 * 8


def corpus_rows():
    """Real files, their comments changed and changed back: then only what the longest had past the image is cleared."""
    for case in corpus():
        record, size = model.read(case.image), len(case.image)
        own = content(case.image, record.comment)
        calls = [change(b"oven"), change(own + b"!" * 9), change(b""), change(own)]
        buffer = lent(case.image, 30)
        if case.title.startswith("keygen-") and record.kind == model.PLAIN:
            longest = size_with(record, len(own) + 9)
            back = case.image + bytes(longest - size) + buffer[longest:]
            calls[-1] = change(own, writes(size), after=back)
        yield Row(case.title, buffer, calls, size)


# ---- size and room


def room_rows(algorithm):
    """As much room as the image has: the padding may be filled, and a byte more needs 8 more."""
    image = image_of(algorithm, b"oven-12")
    size = len(image)
    most = max(c for c in range(7, 16) if size_of(algorithm, 0, c) == size)
    full = change(b"c" * most, writes(size))
    around = [
        full,
        change(b"oven-12", writes(size)),
        change(b"c" * 8000, refuses(9)),
        change(b"", writes(size_of(algorithm, 0, 0))),
        full,
    ]
    for extra in (0, 1, 7):
        over = change(b"c" * (most + 1), refuses(9))
        yield Row(f"{extra} bytes more", lent(image, extra), [full, over, *around], size)
    over = change(b"c" * (most + 1), writes(size + 8))
    yield Row("8 bytes more", lent(image, 8), [full, over, *around], size)


def limit_rows(algorithm, first=0x5A):
    """Up to the limit and back. The buffer has room above it, so that the size is refused and not the room."""
    private = scalar_of(algorithm, first)
    more = more_than_size(algorithm, private)
    c = largest_comment(algorithm, more)
    size = size_of(algorithm, more, c)
    image = image_of(algorithm, b"oven-12", private)
    start = lent(image, LARGE - len(image))
    cleared = image_of(algorithm, b"", private)
    cleared += bytes(size - len(cleared)) + start[size:]
    calls = [
        change(b"c" * c, writes(size)),
        change(b"c" * (c + 1), refuses(11)),
        change(b"d" * (c - 1), writes(size_of(algorithm, more, c - 1))),
        change(b"c" * (c + 8), refuses(11)),
        change(b"c" * c, writes(size)),
        change(b"", writes(size_of(algorithm, more, 0)), after=cleared),
        change(b"c" * (c + 1), refuses(11)),
        change(b"oven-12", writes(len(image))),
    ]
    yield Row("up to the limit and back", start, calls, len(image))


def large_rows():
    whole = image_of(1, b"c" * 65232)
    missing = join(plain_fields(1, b"c" * 65232, scalar=scalar_of(1, 0x80)))
    assert len(whole) == len(missing) == LIMIT
    calls = [
        change(b"c" * 65233, refuses(11)),
        change(b"d" * 65232, writes(LIMIT)),
        change(b"oven", refuses(11), n=LIMIT + 1),
        change(b"", writes(303)),
    ]
    yield Row("65,535 bytes", lent(whole, 9), calls, LIMIT)
    yield Row("65,535 bytes, exact", whole, calls, LIMIT)
    calls = [change(b"c" * 65232, refuses(10)), change(b"", refuses(10)), change(b"\xff", refuses(10))]
    yield Row("not in the form, above the limit once written", lent(missing, 20), calls, LIMIT)
    image = image_of(ED25519, b"oven-12")
    calls = [change(comment, writes(65530)) for comment in long_comments(65301)]
    calls += [change(comment, refuses(11)) for comment in long_comments(65302)]
    yield Row("in UTF-8 up to the limit", lent(image, LARGE - len(image)), calls, len(image))


def nothing_rows():
    """Buffers that hold no image: the length is looked at before the bytes."""
    yield Row("no bytes", b"", [change(b"oven", refuses(1), n=n) for n in (0, 1, LIMIT)])
    lengths = [(0, 1), (14, 1), (15, 2), (50, 2), (51, 1), (LIMIT, 1), (LIMIT + 1, 11)]
    yield Row("other bytes", filled(50), [change(b"oven", refuses(number), n=n) for n, number in lengths])
    lengths = [(LIMIT, 2), (LIMIT + 1, 11), (LARGE, 11)]
    yield Row("as many", filled(LARGE), [change(b"\xff", refuses(number), n=n) for n, number in lengths])


# ---- with the writers


def chain_rows(algorithm):
    """An image is written, its comment changed, and the result is what the writer makes of the new comment at once."""
    first = plain(algorithm, comment=b"a comment of 21 bytes", reply=writes(size_of(algorithm, 0, 21)))
    room = size_of(algorithm, 0, 21) + 5
    direct = model.write_plain(algorithm, point_of(algorithm), scalar_of(algorithm), 0x01020304, b"oven")
    whole = direct + bytes(size_of(algorithm, 0, 21) - len(direct)) + filled(room)[room - 5 :]
    calls = [
        change(b"oven", refuses(2), n=room),
        first,
        change(b"oven", writes(len(direct)), after=whole),
        rewrite(direct, writes(len(direct)), after=whole),
        first,
    ]
    yield Row("written and changed", filled(room), calls)


def change_rows():
    for algorithm in KINDS:
        yield from length_rows(algorithm)
        yield from end_rows(algorithm)
        yield from random_rows(algorithm)
        yield from refused_rows(algorithm)
        yield from old_length_rows(algorithm)
        yield from room_rows(algorithm)
        yield from chain_rows(algorithm)
        yield from limit_rows(algorithm)
    for algorithm in CURVES:
        yield from form_rows(algorithm)
        yield from limit_rows(algorithm, 0x80)
    yield from high_rows()
    yield from utf8_rows()
    yield from encrypted_rows()
    yield from marked_rows()
    yield from corpus_rows()
    yield from large_rows()
    yield from nothing_rows()
    yield from damaged_rows()
