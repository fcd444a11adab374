"""Images whose record is written again: the marked ones, real files, both slips of the scalar, the largest, damaged ones."""
import functools
import itertools

from calls import LARGE, Row, filled, refuses, rewrite, writes
from cases_header import header_cases
from cases_marked import encrypted_of_size, marked_examples
from cases_plain import CURVES, size_of
from cases_section import section_cases
from comments import comments
from damage import damages
from fields import CIPHERS, LIMIT
from images import corpus, encrypted, join, plain, scalar_of


@functools.cache
def damaged_cases():
    """Each damaged image once."""
    cases = itertools.chain(header_cases(), section_cases(), damages())
    return list({case.image: case for case in cases}.values())


def damaged(every):
    """Every so many-th of them."""
    return damaged_cases()[::every]


def meant(case):
    """The reply that the maker of an image said: a refusal is handed up as it is."""
    if case.reply is None:
        return None
    return refuses(*case.reply) if case.reply[0] else None


# ---- rooms


def rooms(title, image, size):
    """An accepted image, written again with this size, into buffers too short, exact and longer."""
    for room in (size, size + 1, size + 9):
        after = image + filled(room)[size:] if len(image) == size else None
        yield Row(title, filled(room), [rewrite(image, writes(size), after)])
    for room in (0, size // 2, size - 1):
        yield Row(title, filled(room), [rewrite(image, refuses(9))])


def in_form(title, image):
    """An image in the writer's form comes back byte for byte."""
    yield from rooms(title, image, len(image))


def marked_rows():
    unlike = {"M10": 303, "M11": 311}
    for case in marked_examples():
        if case.title in unlike:
            yield from rooms(case.title, case.image, unlike[case.title])
        elif case.reply[0] == 0:
            yield from in_form(case.title, case.image)
        else:
            yield Row(case.title, filled(350), [rewrite(case.image, meant(case))])
            yield Row(case.title, b"", [rewrite(case.image, meant(case))])


def corpus_rows():
    """Real files: what ssh-keygen writes is in the form."""
    for case in corpus():
        if case.title.startswith("keygen-"):
            yield from in_form(case.title, case.image)
        else:
            for room in (len(case.image) + 2, 60):
                yield Row(case.title, filled(room), [rewrite(case.image)])


def scalar_rows(algorithm):
    """The two slips, a needless zero and a missing one, and how each is written again."""
    for c in range(9):
        comment = b"c" * c
        needless = join(plain(algorithm, comment, scalar=b"\0" + scalar_of(algorithm, 0x7F)))
        missing = join(plain(algorithm, comment, scalar=scalar_of(algorithm, 0x80)))
        for image, more in ((needless, 0), (missing, 1)):
            size = size_of(algorithm, more, c)
            yield Row("a slip", filled(size + 3), [rewrite(image, writes(size))])
            yield Row("a slip, exact", filled(size), [rewrite(image, writes(size))])
            yield Row("a slip, too little room", filled(size - 1), [rewrite(image, refuses(9))])


def encrypted_rows():
    for code in range(1, len(CIPHERS)):
        for kdf in (b"bcrypt", b"none"):
            image = join(encrypted(code % 4, CIPHERS[code][0], kdf, blocks=code % 3))
            yield from in_form("encrypted", image)


def comment_rows():
    for comment, right in itertools.islice(comments(), 0, None, 5):
        if right:
            yield from in_form("comment", join(plain(len(comment) % 4, comment)))


def largest_rows():
    """About as large as the limit; the one that lacks its zero would be above it."""
    whole = join(plain(1, b"c" * 65232))
    missing = join(plain(1, b"c" * 65232, scalar=scalar_of(1, 0x80)))
    assert len(whole) == len(missing) == LIMIT
    sealed, over = join(encrypted_of_size(LIMIT)), join(encrypted_of_size(LIMIT + 1))
    for image in (whole, sealed):
        yield Row("the largest", filled(LARGE), [rewrite(image, writes(LIMIT))])
        yield Row("the largest, a byte too short", filled(LIMIT - 1), [rewrite(image, refuses(9))])
    for room in (LARGE, 40):
        yield Row("above the limit once written", filled(room), [rewrite(missing, refuses(11))])
        yield Row("above the limit", filled(room), [rewrite(over, refuses(11))])
        yield Row("above the limit, no magic", filled(room), [rewrite(b"\0" * (LIMIT + 1), refuses(11))])


def damaged_rows():
    """The reader's refusals, with their places, and a buffer that keeps every byte."""
    for turn, case in enumerate(damaged(8)):
        room = len(case.image) + 9 if turn % 4 == 0 else 40 + turn % 9
        if case.reply is not None and case.reply[0] == 0:
            room = len(case.image) + 9
        yield Row(case.title, filled(room), [rewrite(case.image, meant(case))])


def following_rows():
    """One image over another in the same buffer, with refusals between."""
    images = [case.image for case in corpus()]
    yield Row("one image over another", filled(512), [rewrite(image) for image in images])


def rewrite_rows():
    yield from marked_rows()
    yield from corpus_rows()
    for algorithm in CURVES:
        yield from scalar_rows(algorithm)
    yield from encrypted_rows()
    yield from comment_rows()
    yield from largest_rows()
    yield from damaged_rows()
    yield from following_rows()
