"""ECDSA scalars by docs/RULES.md, 10.2 and 11.2: images with short ones, with needless zeros and with a missing zero written again,
and their comments changed one after another, refusals among them; images of the writer as it was before."""
from calls import LARGE, Row, change, filled, lent, refuses, rewrite, writes
from cases_change import image_of, limit_rows, sequence
from cases_plain import comment_field, largest_comment, more_than_size, size_of
from cases_rewrite import rooms
from cases_scalar import SIDES, number, old_privates
from fields import LIMIT, SIZES
from images import by_old_writer, join, plain

OLD = b"of the old writer"


def short_privates(algorithm):
    """SIZE bytes with zeros in front: a number a byte shorter than SIZE, some bytes shorter, and of a single byte."""
    size = SIZES[algorithm]
    for length in (size - 1, size - 9, 1):
        for first in SIDES:
            yield bytes(size - length) + number(first, length)


def slips(algorithm):
    """Scalar strings that are read and aren't minimal, with the private bytes: a needless zero, as many as there may be, and a
    missing one."""
    for private in short_privates(algorithm):
        digits = private.lstrip(b"\0")
        needed = digits[0] >= 0x80
        yield private, bytes(1 + needed) + digits
        yield private, bytes(SIZES[algorithm] + 1 - len(digits)) + digits
        if needed:
            yield private, digits


# ---- written again


def short_rows(algorithm):
    """In the form: back byte for byte."""
    for turn, private in enumerate(short_privates(algorithm)):
        comment = b"oven-12"[turn:]
        size = size_of(algorithm, more_than_size(algorithm, private), len(comment))
        yield from list(rooms("a short scalar", image_of(algorithm, comment, private), size))[turn % 2 :: 2]


def slip_rows(algorithm):
    """Written again, the scalar is minimal."""
    for turn, (private, scalar) in enumerate(slips(algorithm)):
        comment = b"oven-12"[turn % 8 :]
        size = size_of(algorithm, more_than_size(algorithm, private), len(comment))
        image = join(plain(algorithm, comment, scalar))
        after = image_of(algorithm, comment, private) + filled(size + 3)[size:]
        yield Row("a short slip", filled(size + 3), [rewrite(image, writes(size), after)])
        yield Row("a short slip, too little room", filled(size - 1), [rewrite(image, refuses(9))])


def refused_rewrite_rows(algorithm):
    size = SIZES[algorithm]
    for scalar, number_of in ((b"", 1), (b"\0", 2), (bytes(size), 2), (bytes(size + 1), 2)):
        image = join(plain(algorithm, scalar=scalar))
        calls = [rewrite(image, refuses(number_of, 0, scalar_field(algorithm)))]
        yield Row("no scalar to write again", filled(60), calls)
        calls = [change(b"oven", refuses(number_of, 0, scalar_field(algorithm))) for _ in range(2)]
        yield Row("no scalar, and a new comment", lent(image, 9), calls, len(image))


def scalar_field(algorithm):
    """Where the scalar's length bytes stand."""
    return comment_field(algorithm, 0) - 4 - SIZES[algorithm]


# ---- the comment changed


def refusals(algorithm, more, size):
    """Changes of an image with room for 20 bytes more that are refused, whatever the buffer holds."""
    field = comment_field(algorithm, more)
    yield change(b"s\xfcd", refuses(7, 0, field))
    yield change(b"\xff" * 99, refuses(7, 0, field))
    yield change(b"c" * (largest_comment(algorithm, more) + 1), refuses(11))
    yield change(b"c" * 40, refuses(9))
    yield change(b"oven", refuses(1), n=size + 21)
    yield change(b"oven", refuses(11), n=LIMIT + 1)


def short_change_rows(algorithm):
    """One comment after another on short scalars; the same with a refusal before each."""
    texts = [b"oven-12", b"", b"oven", b"a longer comment", b"oven-13", b"ovens", b"oven-12"]
    for private in [*short_privates(algorithm)][algorithm % 2 :: 2]:
        more = more_than_size(algorithm, private)
        size = size_of(algorithm, more, 7)
        row = sequence("a short scalar", algorithm, texts, size + 20, private)
        between = refusals(algorithm, more, size)
        calls = [call for accepted, refused in zip(row.calls, between) for call in (refused, accepted)]
        yield row._replace(calls=calls)


def old_rows(algorithm):
    """Images of the old writer: with needless zeros 10, whatever the comment, until written again; else changed at once."""
    for zeros, private in old_privates(algorithm):
        image = join(plain(algorithm, OLD, by_old_writer(private)))
        sizes = [size_of(algorithm, more_than_size(algorithm, private), c) for c in (len(OLD), 4)]
        field = comment_field(algorithm, more_than_size(algorithm, private))  # once the image is in the form
        calls = [change(b"oven", writes(sizes[1])), change(b"\xff", refuses(7, 0, field)), change(OLD, writes(sizes[0]))]
        if zeros > 1 or private[zeros] < 0x80:
            refused = [change(comment, refuses(10)) for comment in (OLD, b"", b"\xff", b"c" * LIMIT)]
            calls = [*refused, rewrite(image, writes(sizes[0])), *calls]
        yield Row("the old writer's image", lent(image, 9), calls, len(image))


def slip_change_rows(algorithm):
    for turn, (_, scalar) in enumerate(slips(algorithm)):
        image = join(plain(algorithm, scalar=scalar))
        yield Row("a short slip", lent(image, 9), [change((b"oven", b"\xff")[turn % 2], refuses(10))], len(image))


# ---- about as large as the limit


def largest_rows():
    """Of 65,535 bytes, with needless zeros: smaller once written again. And one that lacks its zero, and would
    be above the limit with it."""
    private = bytes(31) + b"\x7f"
    old = join(plain(1, b"c" * 65232, by_old_writer(private)))
    assert len(old) == LIMIT
    size = size_of(1, -31, 65232)
    calls = [change(b"", refuses(10)), rewrite(old, writes(size)), change(b"c" * 65233, writes(size))]
    yield Row("65,535 bytes by the old writer", lent(old, 20), calls, LIMIT)
    missing = join(plain(1, b"c" * 65263, b"\x80"))
    assert len(missing) == LIMIT
    for room in (LARGE, 40):
        yield Row("short, above the limit once written", filled(room), [rewrite(missing, refuses(11))])
    for algorithm in SIZES:
        yield from limit_rows(algorithm, 0)


def scalar_rows():
    for algorithm in SIZES:
        yield from short_rows(algorithm)
        yield from slip_rows(algorithm)
        yield from refused_rewrite_rows(algorithm)
        yield from short_change_rows(algorithm)
        yield from old_rows(algorithm)
        yield from slip_change_rows(algorithm)
    yield from largest_rows()
