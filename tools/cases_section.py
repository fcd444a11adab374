"""One image or more for each sentence of docs/RULES.md, 5 and 6, with the reply meant for it; of scalars, as
6.5 has them, cases_scalar.py has more."""
import itertools

from cases_header import FOREIGN_CURVES, FOREIGN_NAMES, near_misses, wrong_lengths
from comments import comments
from fields import ALGORITHMS, CURVES, ED25519, SIZES
from images import Case, Field, accepted, changed, curve_name, inner, join, keypair_fields, longer, other_curves, other_kinds, padded
from images import place, plain, point_of, put, put_all, refused, scalar_of, spot, stream


def length_cases(algorithm):
    """A section's length: a multiple of 8, and that is looked at before anything within."""
    fields = plain(algorithm)
    whole = inner(spot(fields, "section").field)
    for length in (1, 4, 7, 9, len(whole) - 1, len(whole) - 7, len(whole) - 12):
        yield refused(f"section of {length}", put(fields, "section", whole[:length]), 1, "section", 4)
    for extra in range(1, 8):
        yield refused("section with more", longer(fields, "section", bytes(extra)), 1, "section", 4)
    unequal = longer(put(fields, "section.checkint2", bytes(4)), "section", b"\0")
    yield refused("length before checkints", unequal, 1, "section", 4)
    yield refused("empty section", put(fields, "section", b""), 1, "section", 4)
    yield refused("checkints alone", put(fields, "section", whole[:8]), 1, "section", 12)
    yield refused("unequal checkints alone", put(fields, "section", bytes(7) + b"\1"), 3, "section", 8)


def checkint_cases(algorithm):
    fields = plain(algorithm)
    for second in (bytes(4), b"\x6b\x1d\xfa\xcf", b"\xeb\x1d\xfa\xce", b"\xce\xfa\x1d\x6b"):
        unequal = put(fields, "section.checkint2", second)
        yield refused("unequal checkints", unequal, 3, "section.checkint2")
        bad = changed(unequal, {"section.name": b"ssh-dss", "section.comment": b"\xff"})
        yield refused("unequal checkints before all else", bad, 3, "section.checkint2")
    for equal in (bytes(4), b"\xff\xff\xff\xff", b"\0\0\0\1", b"\x80\0\0\0"):
        yield accepted("equal checkints", put_all(fields, {"section.checkint1": equal, "section.checkint2": equal}))


def key_name_cases(algorithm):
    fields = plain(algorithm)
    for name in FOREIGN_NAMES + list(near_misses(ALGORITHMS[algorithm])):
        if name not in ALGORITHMS:
            yield refused(f"section name {name}", changed(fields, {"section.name": name}), 4, "section.name")
    for other in other_kinds(algorithm):
        name = changed(fields, {"section.name": ALGORITHMS[other]})
        if other == ED25519:
            yield refused("name of Ed25519, fields of ECDSA", name, 1, "section.curve")
        elif algorithm == ED25519:
            yield refused("name of ECDSA, fields of Ed25519", name, 4, "section.point")
        else:
            yield refused("name of another curve", name, 4, "section.curve")


def other_kind_cases(algorithm, other):
    """The section's keypair is of another kind than the blob: read whole, by its own name, before that is said."""
    fields = plain(algorithm, keypair=keypair_fields(other))
    yield refused("another kind", fields, 5, "section.name")
    yield refused("another kind, bad comment", changed(fields, {"section.comment": b"\xff"}), 5, "section.name")
    empty = changed(fields, {"section.scalar": b""})
    yield refused("another kind, empty scalar", empty, 1, "section.scalar")
    if other == ED25519:
        halves = changed(fields, {"section.scalar": stream("halves", 64)})
        yield refused("another kind, halves differ", halves, 3, "section.scalar")
    else:
        leading = changed(fields, {"section.scalar": b"\1" + scalar_of(other)})
        yield refused("another kind, leading byte", leading, 2, "section.scalar")
        zeros = changed(fields, {"section.scalar": bytes(8)})
        yield refused("another kind, zeros for a scalar", zeros, 2, "section.scalar")


def other_key_cases(algorithm):
    """The section's public key is of the same kind but of other bytes."""
    other = point_of(algorithm, "other")
    fields = plain(algorithm, keypair=keypair_fields(algorithm, point=other))
    yield refused("another key", fields, 5, "section.name")
    yield refused("another key, bad comment", changed(fields, {"section.comment": b"\xff"}), 5, "section.name")
    yield refused("another key, bad padding", longer(fields, "section", bytes(8)), 5, "section.name")
    yield refused("another key, empty scalar", changed(fields, {"section.scalar": b""}), 1, "section.scalar")
    for at in (1, len(other) - 1):
        near = bytearray(point_of(algorithm))
        near[at] ^= 1
        fields = plain(algorithm, keypair=keypair_fields(algorithm, point=bytes(near)))
        yield refused("one byte of the key differs", fields, 5, "section.name")
    yield from wrong_lengths(fields, "section.point", len(other), mend=padded)


def ed25519_cases():
    fields = plain(ED25519)
    yield from wrong_lengths(fields, "section.scalar", 64, mend=padded)
    seed, public = scalar_of(ED25519), point_of(ED25519)
    for at in (0, 31):
        half = bytearray(public)
        half[at] ^= 0x80
        yield refused("halves differ", put(fields, "section.scalar", seed + bytes(half)), 3, "section.scalar")
    both = put_all(fields, {"section.scalar": seed + public, "section.point": point_of(ED25519, "other")})
    yield refused("halves differ before another key", both, 3, "section.scalar")
    yield refused("seed after public", put(fields, "section.scalar", public + seed), 3, "section.scalar")
    for seed in (bytes(32), b"\xff" * 32, public):
        yield accepted("any seed", put(fields, "section.scalar", seed + public))


def scalar_cases(algorithm):
    """1 to SIZE bytes, or SIZE + 1 with a zero first, and not zeros alone."""
    size = SIZES[algorithm]
    fields = plain(algorithm)
    for scalar, form in scalars(algorithm):
        title = f"scalar {scalar[:2].hex()}, {len(scalar)} bytes"
        yield accepted(title, changed(fields, {"section.scalar": scalar}), form)
    for first in (1, 0x7F, 0x80, 0xFF):
        leading = changed(fields, {"section.scalar": bytes([first]) + scalar_of(algorithm)})
        yield refused(f"leading byte {first}", leading, 2, "section.scalar")
    yield refused("empty scalar", changed(fields, {"section.scalar": b""}), 1, "section.scalar")
    for length in (1, size // 2, size - 1, size, size + 1):
        zeros = changed(fields, {"section.scalar": bytes(length)})
        yield refused(f"scalar of {length} zeros", zeros, 2, "section.scalar")
    for extra in (2, 3, 9, size):
        for zeros in (0, extra):
            long = changed(fields, {"section.scalar": bytes(zeros) + stream("long", size + extra - zeros)})
            yield refused(f"scalar of SIZE + {extra}", long, 6, "section.scalar", 4 + size, extra)


def scalars(algorithm):
    """Scalar strings that are read, and whether they are as the writer makes them."""
    size = SIZES[algorithm]
    for first in (1, 0x7F):
        yield scalar_of(algorithm, first), True
        yield b"\0" + scalar_of(algorithm, first), False
    for first in (0x80, 0xFF):
        yield scalar_of(algorithm, first), False
        yield b"\0" + scalar_of(algorithm, first), True
    for length in (1, size // 2, size - 1):
        yield scalar_of(algorithm)[:length], True
    yield b"\0" + scalar_of(algorithm, 0x7F)[:-1], False
    yield b"\0" + scalar_of(algorithm, 0x80)[:-1], True  # SIZE bytes, and the zero is needed
    yield b"\0\0" + scalar_of(algorithm, 0x80)[:-1], False
    yield b"\xff" * size, False


def point_cases(algorithm):
    fields = plain(algorithm)
    rest = point_of(algorithm)[1:]
    for tag in (0, 2, 3, 5, 0x84):
        point = bytes([tag]) + rest
        yield refused(f"section's point tag {tag}", put(fields, "section.point", point), 2, "section.point")
        bad = changed(fields, {"section.point": point, "section.scalar": b""})
        yield refused("point tag before the scalar", bad, 2, "section.point")
    long = changed(fields, {"section.point": b"\5" + rest + b"\0"})
    yield refused("point's length before its tag", long, 6, "section.point", 4 + len(rest) + 1, 1)


def curve_cases(algorithm):
    fields = plain(algorithm)
    for curve in FOREIGN_CURVES + list(near_misses(curve_name(algorithm))):
        if curve not in CURVES:
            yield refused(f"section curve {curve}", changed(fields, {"section.curve": curve}), 4, "section.curve")
    unknown = changed(fields, {"section.curve": b"nistp224", "section.point": b"", "section.scalar": b""})
    yield refused("unknown curve before the point", unknown, 4, "section.curve")
    for other in other_curves(algorithm):
        yield from unlike_curve_cases(algorithm, other)


def unlike_curve_cases(algorithm, other):
    """The section's curve isn't the name's: that is said after the scalar. The curve string sets SIZE."""
    size = SIZES[other]
    fields = plain(algorithm, keypair=keypair_fields(other))
    fields = changed(fields, {"section.name": ALGORITHMS[algorithm]})
    title = f"name {algorithm}, curve {other}"
    yield refused(title, fields, 4, "section.curve")
    yield refused(title + ", bad comment", changed(fields, {"section.comment": b"\xff"}), 4, "section.curve")
    for scalar in (scalar_of(other)[:-1], b"\0\0\1"):
        yield refused(title + ", short scalar", changed(fields, {"section.scalar": scalar}), 4, "section.curve")
    for scalar, number in ((b"", 1), (bytes(size), 2)):
        yield refused(title + ", no number", changed(fields, {"section.scalar": scalar}), number, "section.scalar")
    leading = changed(fields, {"section.scalar": b"\1" + scalar_of(other)})
    yield refused(title + ", leading byte", leading, 2, "section.scalar")
    long = changed(fields, {"section.scalar": b"\0\0" + scalar_of(other)})
    yield refused(title + ", long scalar", long, 6, "section.scalar", 4 + size, 2)
    tag = changed(fields, {"section.point": b"\2" + point_of(other)[1:]})
    yield refused(title + ", point tag", tag, 2, "section.point")
    own = changed(plain(algorithm), {"section.curve": curve_name(other)})
    k, length = 1 + 2 * size, 1 + 2 * SIZES[algorithm]
    reply = (1, "section.point") if length < k else (6, "section.point", 4 + k, length - k)
    yield refused(title + ", point of the name's length", own, *reply)
    mixed = changed(fields, {"section.scalar": scalar_of(algorithm)})
    length = SIZES[algorithm]
    reply = (4, "section.curve") if length < size else (6, "section.scalar", 4 + size, length - size)
    yield refused(title + ", scalar of the name's length", mixed, *reply)


def slipped_cases():
    """A byte of the section's public key is lost and one stands at the section's end: the next length is read a byte late, so that its
    last byte is the first private one. The count of 6 is what that length says, so it tells that byte."""
    for algorithm, fixed in ((ED25519, 64), (1, SIZES[1])):
        fields = plain(algorithm, b"c" * 20_000)
        lost = place(fields, "section.point") + 4 + 1
        image = join(fields)
        length = (len(keypair_fields(algorithm)[-1].content) << 8) + scalar_of(algorithm)[0]
        reply = (6, length - fixed, place(fields, "section.scalar") + 4 + fixed)
        yield Case("a byte of the public key lost", image[:lost] + image[lost + 1 :] + b"\1", reply)


def comment_cases():
    for comment, good in comments():
        fields = plain(ED25519, comment)
        if good:
            yield accepted(f"comment {comment[:8]}", fields)
        else:
            yield refused(f"comment {comment[:8]}", fields, 7, "section.comment")
    for algorithm in range(4):
        for comment in (b"\xc3", b"\xed\xa0\x80", "Süd".encode()[:2]):
            fields = plain(algorithm, comment)
            yield refused("not UTF-8", fields, 7, "section.comment")
            bad = put(fields, "section.padding", b"\0" * len(inner(spot(fields, "section.padding").field)))
            yield refused("not UTF-8 before the padding", bad, 7, "section.comment")
        for length in range(17):
            yield accepted(f"comment of {length}", plain(algorithm, b"oven-7 line three"[:length]))


def padding_cases(algorithm, lengths):
    for length in lengths:
        fields = plain(algorithm, b"c" * length)
        right = inner(spot(fields, "section.padding").field)
        for wrong in wrong_paddings(right):
            yield refused("padding wrong", put(fields, "section.padding", wrong), 2, "section.padding")
        for extra in (8, 16):
            more = bytes(range(1, len(right) + extra + 1))
            yield refused("8 bytes or more, right ones", put(fields, "section.padding", more), 1, "section.padding")
        zeros = bytes(len(right) + 8)
        yield refused("8 bytes or more, wrong ones", put(fields, "section.padding", zeros), 1, "section.padding")


def wrong_paddings(right):
    """Each byte wrong alone, and some that are wrong together."""
    length = len(right)
    for at in range(length):
        yield right[:at] + bytes([right[at] ^ 0x10]) + right[at + 1 :]
    for wrong in (bytes(length), bytes(range(length)), bytes([length]) * length):
        if wrong != right:
            yield wrong


def left_over_cases(algorithm):
    fields = plain(algorithm)
    for extra in (1, 2, 7, 8, 300):
        left = [*fields, Field("left", bytes(extra), counted=False)]
        yield refused("bytes left", left, 6, "left", 0, extra)


def with_bytes_left(cases):
    """The same cases with bytes after the image. What is wrong within the section comes first."""
    for case in cases:
        if case.reply[0] != 0:
            yield Case(case.title + ", bytes left", case.image + b"\1\2\3", case.reply)


def key_cases(algorithm):
    yield from key_name_cases(algorithm)
    yield from other_key_cases(algorithm)
    for other in other_kinds(algorithm):
        yield from other_kind_cases(algorithm, other)
    if algorithm == ED25519:
        yield from ed25519_cases()
    else:
        yield from point_cases(algorithm)
        yield from scalar_cases(algorithm)
        yield from curve_cases(algorithm)


def section_cases():
    for algorithm in range(4):
        yield from key_cases(algorithm)
        yield from left_over_cases(algorithm)
        yield from padding_cases(algorithm, range(8) if algorithm == ED25519 else (7,))
    for algorithm in (ED25519, 1):
        yield from length_cases(algorithm)
        yield from checkint_cases(algorithm)
    first = [length_cases(1), checkint_cases(1), key_cases(1), padding_cases(ED25519, (1, 6))]
    yield from with_bytes_left(itertools.chain(*first))
    yield from comment_cases()
