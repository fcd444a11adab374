"""Calls of the plain writer for RSA keys, for each condition of docs/RULES.md, 10.6, with the reply meant for each,
and of the encrypted writer with RSA blobs."""
import itertools

from calls import LARGE, Row, filled, plain, refuses, rsa, writes
from cases_encrypted import blob_in, good, row
from cases_rsa import OTHERS, blob_cases, form_and_size, right_forms, wrong_forms
from comments import comments
from damage import length_edits
from fields import CIPHERS, ED25519, LIMIT
from images import join, mpint, put_all, stream
from images_rsa import blob_fields, high, low, number, numbers, rsa_encrypted, rsa_plain, small_numbers
from rsa import NUMBERS

SIZES = [1024, 2048, 3072, 4096, 8192]


# ---- sizes of images, counted field by field


def section_field(key):
    """Where the section's length bytes stand in a plain image."""
    blob = (4 + 7) + (4 + len(key["e"])) + (4 + len(key["n"]))
    return 15 + (4 + 4) + (4 + 4) + 4 + 4 + (4 + blob)


def comment_field(key):
    return section_field(key) + 4 + 8 + (4 + 7) + sum(4 + len(key[name]) for name in NUMBERS)


def size_of(key, c):
    """A plain image's size with a comment of c bytes: the section is a multiple of 8."""
    start = section_field(key) + 4
    return start + (comment_field(key) + 4 + c - start + 7) // 8 * 8


def largest_comment(key):
    return next(c for c in range(LIMIT, 0, -1) if size_of(key, c) <= LIMIT)


def image_of(key, checkint, comment):
    """The image that is meant, put together of its fields."""
    checkints = dict.fromkeys(["section.checkint1", "section.checkint2"], checkint.to_bytes(4, "big"))
    return join(put_all(rsa_plain(key, comment), checkints))


def alone(title, room, call):
    return Row(title, filled(room), [call])


def whole(title, extra, key, comment=b"oven-12", checkint=0x01020304, derived=False):
    """A call that must write this image, and leave the so many bytes past it."""
    size = size_of(key, len(comment))
    after = image_of(key, checkint, comment) + filled(size + extra)[size:]
    given = None if derived else checkint
    return alone(title, size + extra, rsa(key, given, comment, writes(size), after))


def refused_call(title, key, number_of, room=60, comment=b"oven-12"):
    return alone(title, room, rsa(key, comment=comment, reply=refuses(number_of)))


# ---- keys that are written


def size_calls():
    for bits in (*SIZES, 1025, 1031, 8191):
        for extra in (0, 9):
            yield whole(f"{bits} bits", extra, numbers(bits))
        yield refused_call(f"{bits} bits, a byte too short", numbers(bits), 9, size_of(numbers(bits), 7) - 1)
    for name in OTHERS:
        for content in (*right_forms(), number(1023), number(1024)):
            yield whole(f"{name} is {content[:2].hex()}", 3, numbers(**{name: content}))
    for value in (2**1023, 2**1024 - 1, 2**8191, 2**8192 - 1):
        yield whole("n at a border", 0, dict(small_numbers(1024), n=mpint(value)))


def checkint_calls():
    """Derived from d as it is stored: a leading zero is one of its bytes, and a shorter rest isn't looked at."""
    for checkint in (0, 1, 0x7FFFFFFF, 0x80000000, 0xFFFFFFFF):
        yield whole("a given checkint", 0, numbers(), checkint=checkint)
    for d, checkint in (
        (b"\x5a", 0),
        (b"\x5a\1\2", 0),
        (b"\x5a\1\2\3", 0x5A010203),
        (b"\x5a\1\2\3\4\5\6", 0x5A010203),
        (b"\x5a\1\2\3\4\5\6\7", 0x5E040404),
        (b"\0\x80", 0),
        (b"\0\x80\1", 0),
        (b"\0\x80\1\2", 0x00800102),
        (b"\0\xa5\1\2\3\4\5\6", 0x03A10404),
        (b"\0\xa5\1\2\3\4\5\6\7", 0x03A10404),
        (b"\x7f\xff\xff\xff" + b"\x7f\xff\xff\xff" + b"\xff\xff", 0),
    ):
        yield whole(f"derived from {d.hex()}", 0, numbers(d=d), checkint=checkint, derived=True)
    for at in range(1, 14):
        one = b"\1" + bytes(at - 1) + b"\xc3" + bytes(13 - at)
        checkint = 0x01000000 ^ (0xC3 << 8 * (3 - at % 4) if at < 12 else 0)
        yield whole(f"derived, byte {at} of d", 0, numbers(d=one), checkint=checkint, derived=True)
    for d in (low(128), b"\0" + high(127), b"\0" + high(128)):
        key = numbers(d=d)
        groups = [int.from_bytes(d[at : at + 4], "big") for at in range(0, len(d) // 4 * 4, 4)]
        checkint = 0
        for group in groups:
            checkint ^= group
        yield whole("derived from a long d", 0, key, checkint=checkint, derived=True)


def comment_calls():
    key = numbers()
    for c in range(17):
        for extra in (0, 9):
            yield whole(f"{c} bytes of comment", extra, key, stream("ascii", c).hex()[:c].encode())
        yield refused_call("a byte too short", key, 9, size_of(key, c) - 1, b"c" * c)
    for room in (0, 15, 47, 300):
        yield refused_call(f"room {room}", key, 9, room)
    for comment, right in itertools.islice(comments(), 3, None, 7):
        if right:
            yield whole("in UTF-8", 0, key, comment)
        else:
            yield refused_call("not UTF-8", key, 7, comment=comment)


# ---- keys that are refused


def wrong_calls():
    """Each of the six wrong in each way: its form with 2, its size with 1."""
    for name in NUMBERS:
        for title, content in wrong_forms(64):
            yield refused_call(f"{name}: {title}", numbers(**{name: content}), 2)
    for bits in (8, 1016, 1023, 8193, 8200, 16384):
        yield refused_call(f"n of {bits} bits", small_numbers(bits), 1)
    for name in NUMBERS:
        yield refused_call(f"a huge {name}", numbers(**{name: b"\1" + bytes(60000)}), 1)
    for name, bits in itertools.product(OTHERS, (1024, 2048, 8192)):
        for more in (1, 8):
            yield refused_call(f"{name} of {bits + more} bits", numbers(bits, **{name: number(bits + more)}), 1)


def pair_calls():
    """Two of the six wrong: a form is said before a size, whichever comes first."""
    for one, other in itertools.permutations(NUMBERS, 2):
        form, size = form_and_size(one)[0], form_and_size(other)[1]
        yield refused_call(f"form of {one}, size of {other}", numbers(**{one: form, other: size}), 2)
    for one, other in itertools.combinations(NUMBERS, 2):
        sizes = {name: form_and_size(name)[1] for name in (one, other)}
        yield refused_call(f"sizes of {one} and {other}", numbers(**sizes), 1)
    yield refused_call("all empty", dict.fromkeys(NUMBERS, b""), 2)
    yield refused_call("all are 1", dict.fromkeys(NUMBERS, b"\1"), 1)


def ordered_calls():
    """Every set of conditions at once: the first of them in the order 2, 1, 7, 11, 9 is the reply."""
    for count in range(6):
        for chosen in itertools.combinations((2, 1, 7, 11, 9), count):
            for wrong in (("q", "n"), ("n", "q"), ("e", "d")):
                yield ordered_call(chosen, *wrong)


def ordered_call(chosen, form_of, size_of_one):
    changes = {}
    if 1 in chosen:
        changes[size_of_one] = form_and_size(size_of_one)[1]
    if 2 in chosen:
        changes[form_of] = form_and_size(form_of)[0]
    key = numbers(**changes)
    comment = (b"\xff" if 7 in chosen else b"c") + b"c" * (largest_comment(key) if 11 in chosen else 6)
    size = size_of(key, len(comment))
    reply = refuses(chosen[0]) if chosen else writes(size)
    room = 120 if 9 in chosen else min(size, LARGE)
    return alone(f"conditions {chosen}", room, rsa(key, comment=comment, reply=reply))


# ---- the limit


def exact(bits):
    """A key whose largest image has 65,535 bytes."""
    keys = (numbers(bits, e=low(length)) for length in range(1, 9))
    return next(key for key in keys if size_of(key, largest_comment(key)) == LIMIT)


def limit_calls():
    for key in (numbers(8192), exact(1024), exact(8192)):
        c = largest_comment(key)
        size = size_of(key, c)
        most, over = (rsa(key, comment=b"c" * length) for length in (c, c + 1))
        yield alone("the largest", LARGE, most._replace(reply=writes(size)))
        yield alone("the largest, exact", size, most._replace(reply=writes(size)))
        yield alone("the largest, a byte too short", size - 1, most._replace(reply=refuses(9)))
        yield alone("a byte above", LARGE, over._replace(reply=refuses(11)))
        yield alone("a byte above, little room", 40, over._replace(reply=refuses(11)))
        for more in (8, 9, 16):
            yield refused_call("above", key, 11, 40, b"c" * (c + more))


def following_calls():
    """One image over another in the same buffer, with refusals between."""
    calls = []
    for bits in (2048, 1024, 1536):
        key = numbers(bits)
        calls.append(rsa(key, reply=writes(size_of(key, 7))))
        calls.append(rsa(dict(key, p=b""), reply=refuses(2)))
        calls.append(rsa(dict(key, p=number(bits + 1)), reply=refuses(1)))
        calls.append(rsa(key, comment=b"\xff", reply=refuses(7)))
        calls.append(rsa(key, comment=b"c" * 900, reply=refuses(9)))
        calls.append(plain(ED25519, reply=writes(242)))
    yield Row("one image over another", filled(1400), calls)


# ---- the encrypted writer with RSA blobs


def blob_calls():
    for case in blob_cases(rsa_plain()):
        arguments, _ = good(8, blocks=1)
        yield row("an RSA blob", 70, dict(arguments, blob=blob_in(case.image)), refuses(*case.reply[:2]))
    for bits in (1022, 1023, 8193):
        arguments, _ = good(8, blocks=1)
        yield row("an RSA blob", 70, dict(arguments, blob=join(blob_fields(small_numbers(bits)))), refuses(1))
    for case in length_edits("blob", blob_fields(numbers())):
        arguments, _ = good(8, blocks=1)
        yield row("an RSA blob, a length", 70, dict(arguments, blob=case.image), None)


def sealed_calls():
    """Every cipher over keys of each size; the image that is meant is put together of its fields."""
    for code, kdf in itertools.product(range(1, len(CIPHERS)), range(2)):
        key = numbers(SIZES[code % 5])
        arguments, small = good(code, kdf)
        blob = join(blob_fields(key))
        size = small + len(blob) - len(arguments["blob"])
        image = join(rsa_encrypted(CIPHERS[code][0], (b"none", b"bcrypt")[kdf], key=key))
        call = row("sealed", size + 9, dict(arguments, blob=blob), writes(size))
        yield call._replace(calls=[call.calls[0]._replace(after=image + filled(size + 9)[size:])])
        yield row("sealed, a byte too short", size - 1, dict(arguments, blob=blob), refuses(9))
    largest = dict(small_numbers(8192), e=number(8192))
    arguments, small = good(9)
    blob = join(blob_fields(largest))
    yield row("the largest blob", 2600, dict(arguments, blob=blob), writes(small + len(blob) - len(arguments["blob"])))


def rsa_rows():
    yield from size_calls()
    yield from checkint_calls()
    yield from comment_calls()
    yield from wrong_calls()
    yield from pair_calls()
    yield from ordered_calls()
    yield from limit_calls()
    yield from following_calls()
    yield from blob_calls()
    yield from sealed_calls()
