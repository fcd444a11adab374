"""Calls of the plain writer for each condition of docs/RULES.md, 10.5, with the reply meant for
each."""
import itertools

from calls import LARGE, Row, filled, plain, refuses, writes
from comments import comments
from fields import ED25519, LIMIT, SIZES
from images import join, minimal, other_kinds, point_of, put_all, scalar_of, stream
from images import plain as plain_fields

KINDS = range(4)
CURVES = range(1, 4)
LENGTHS = [(32, 32), (65, 32), (97, 48), (133, 66)]  # of each kind's public and private bytes
PUBLIC_LENGTHS = [0, 1, 31, 32, 33, 64, 65, 66, 96, 97, 98, 132, 133, 134, 135, 200, 265, 389, 512]
PRIVATE_LENGTHS = [0, 1, 31, 32, 33, 34, 47, 48, 49, 64, 65, 66, 67, 68, 98, 133, 322, 512]


def public_size(algorithm):
    """Name, curve and public key, counted field by field."""
    if algorithm == ED25519:
        return (4 + 11) + (4 + 32)
    return (4 + 19) + (4 + 8) + (4 + 1 + 2 * SIZES[algorithm])


def section_field(algorithm):
    """Where the section's length bytes stand in a plain image."""
    return 15 + (4 + 4) + (4 + 4) + 4 + 4 + (4 + public_size(algorithm))


def comment_field(algorithm, more):
    """Where the comment's length bytes stand; the scalar's string has so many bytes more than SIZE, or fewer, below 0."""
    private = 4 + 64 if algorithm == ED25519 else 4 + more + SIZES[algorithm]
    return section_field(algorithm) + 4 + 8 + public_size(algorithm) + private


def size_of(algorithm, more, c):
    """A plain image's size with a comment of c bytes: the section is a multiple of 8."""
    start = section_field(algorithm) + 4
    section = comment_field(algorithm, more) + 4 + c - start
    return start + (section + 7) // 8 * 8


def more_than_size(algorithm, private):
    """How many bytes more than these private ones the writer stores: 1 with a zero in front, below 0 with zeros dropped."""
    return len(minimal(algorithm, private)) - len(private)


def largest_comment(algorithm, more):
    """The longest comment that a plain image may have."""
    return max(c for c in range(LIMIT - 600, LIMIT) if size_of(algorithm, more, c) <= LIMIT)


def image_of(algorithm, private, checkint, comment):
    """The image that is meant, put together of its fields."""
    fields = plain_fields(algorithm, comment, scalar=minimal(algorithm, private))
    return join(put_all(fields, dict.fromkeys(["section.checkint1", "section.checkint2"], checkint.to_bytes(4, "big"))))


def alone(title, room, call):
    return Row(title, filled(room), [call])


def whole(title, room, algorithm, private, comment=b"oven-12", checkint=0x01020304, derived=False):
    """A call that must write this image, and leave what is past it."""
    size = size_of(algorithm, more_than_size(algorithm, private), len(comment))
    after = image_of(algorithm, private, checkint, comment) + filled(room)[size:]
    given = None if derived else checkint
    return alone(title, room, plain(algorithm, None, private, given, comment, writes(size), after))


# ---- the marked examples


def marked(title, algorithm, first, comment, size, padding):
    """An image that must have this size and end in this padding, in a buffer that goes on for 9 bytes."""
    row = whole(title, size + 9, algorithm, scalar_of(algorithm, first), comment)
    end = comment + bytes(range(1, padding + 1)) + filled(size + 9)[size:]
    assert row.calls[0].reply == writes(size) and row.calls[0].after.endswith(end), title
    return row


def marked_calls():
    yield marked("M5", ED25519, 0x5A, b"", 234, 5)
    yield marked("M6", ED25519, 0x5A, b"oven7", 234, 0)
    yield marked("M7", ED25519, 0x5A, b"oven-7", 242, 7)
    yield marked("M8", 1, 0x7F, b"", 303, 0)
    yield marked("M9", 1, 0x80, b"", 311, 7)
    yield alone("M15", LARGE, plain(ED25519, comment=b"c" * 65301, reply=writes(65530)))
    yield alone("M15", LARGE, plain(ED25519, comment=b"c" * 65302, reply=refuses(11)))
    yield whole("M16", 500, 3, bytes(64) + b"\x12\x34", checkint=0, derived=True)


# ---- lengths and tags


def length_calls(algorithm):
    """Every length but the kind's own is refused, however much the value has room for."""
    public, private = LENGTHS[algorithm]
    for k in PUBLIC_LENGTHS:
        call = plain(algorithm, public=(b"\4" + stream("public", 600))[:k])
        yield alone(f"{k} public bytes", 500, right_only(call, k == public))
    for k in PRIVATE_LENGTHS:
        call = plain(algorithm, private=(b"\0" + stream("private", 600))[:k])
        yield alone(f"{k} private bytes", 500, right_only(call, k == private))
    for other in other_kinds(algorithm):
        call = plain(algorithm, public=point_of(other), private=scalar_of(other), reply=refuses(1))
        yield alone("another kind's key", 60, call)
    both = plain(algorithm, public=point_of(algorithm)[:-1], private=scalar_of(algorithm) + b"\0", reply=refuses(1))
    yield alone("both lengths wrong", 60, both)


def right_only(call, right):
    algorithm, _, private, _, comment = call.arguments
    size = size_of(algorithm, more_than_size(algorithm, private), len(comment)) if right else 0
    return call._replace(reply=writes(size) if right else refuses(1))


def tag_calls(algorithm):
    """Only 4 begins a point; an Ed25519 key may begin with anything."""
    rest = point_of(algorithm)[1:]
    for tag in (0, 2, 3, 4, 5, 0x44, 0x84, 0xFF):
        right = tag == 4 or algorithm == ED25519
        reply = writes(size_of(algorithm, 0, 7)) if right else refuses(2)
        yield alone(f"tag {tag}", 500 if right else 60, plain(algorithm, public=bytes([tag]) + rest, reply=reply))


# ---- scalars and checkints


def scalar_calls(algorithm):
    """Leading zeros are dropped, and one stands before a byte of 0x80 or more; zeros alone are no scalar. A seed may be any."""
    for first in (0, 1, 0x7F, 0x80, 0x81, 0xFF):
        for c in (0, 7):
            yield whole(f"scalar begins {first}", 500, algorithm, scalar_of(algorithm, first), b"c" * c)
    zeros = bytes(LENGTHS[algorithm][1])
    if algorithm == ED25519:
        yield whole("seed of zeros", 500, algorithm, zeros)
    else:
        yield from (alone("scalar 0", 500, plain(algorithm, None, zeros, given, reply=refuses(2))) for given in (7, None))
        yield from zero_calls(algorithm)


def zero_calls(algorithm):
    """Scalars of SIZE bytes with zeros in front, up to all but one, before a byte on each side of 0x80."""
    size = SIZES[algorithm]
    for zeros in (1, 2, 3, size // 2, size - 2, size - 1):
        for first in (1, 0x7F, 0x80, 0xFF):
            private = bytes(zeros) + scalar_of(algorithm, first)[: size - zeros]
            yield whole(f"{zeros} zeros before {first}", 500, algorithm, private, b"c" * (zeros % 8))
    for private in (bytes(size - 1) + b"\x80", bytes(size - 2) + b"\x7f\0"):
        written = size_of(algorithm, more_than_size(algorithm, private), 7)
        for room in (written - 1, written):
            reply = writes(written) if room == written else refuses(9)
            yield alone(f"short, room {room}", room, plain(algorithm, None, private, reply=reply))


def checkint_calls(algorithm):
    private, length = scalar_of(algorithm), LENGTHS[algorithm][1]
    for checkint in (0, 1, 0xFF, 0x100, 0x7FFFFFFF, 0x80000000, 0xFFFFFFFF):
        yield whole("given checkint", 500, algorithm, private, checkint=checkint)
    yield alone("derived checkint", 500, plain(algorithm, checkint=None, reply=writes(size_of(algorithm, 0, 7))))
    for at in range(length):
        one = bytes(at) + b"\xc3" + bytes(length - at - 1)
        in_a_group = at < length // 4 * 4
        checkint = 0xC3 << 8 * (3 - at % 4) if in_a_group else 0  # a group's first byte is its highest
        yield whole(f"derived from byte {at} alone", 500, algorithm, one, checkint=checkint, derived=True)


# ---- comments and room


def residue_calls(algorithm):
    """Comments of each length up to 24, with a buffer too short by a byte, exact and longer."""
    for c in range(25):
        size = size_of(algorithm, 0, c)
        comment = stream("ascii", c).hex()[:c].encode()
        for room in (size + 9, size + 1, size) if c < 9 else (size + 9,):
            yield whole(f"{c} bytes of comment", room, algorithm, scalar_of(algorithm), comment)
        yield alone(f"{c} bytes, a byte too short", size - 1, plain(algorithm, comment=comment, reply=refuses(9)))
    for room in (0, 1, 14, 15, 47, size_of(algorithm, 0, 7) // 2):
        yield alone(f"room {room}", room, plain(algorithm, reply=refuses(9)))


def utf8_calls():
    kinds = itertools.cycle(KINDS)
    for comment, right in comments():
        kind = next(kinds)
        size = size_of(kind, 0, len(comment))
        reply = writes(size) if right else refuses(7)
        yield alone("comment in UTF-8 or not", size if right else 80, plain(kind, comment=comment, reply=reply))


def long_comments(c):
    """Comments of this length, of characters of 1 to 4 bytes."""
    for character in ("c", "ü", "炉", "🥖"):
        unit = character.encode()
        yield b"." * (c % len(unit)) + unit * (c // len(unit))


def limit_calls(algorithm, first):
    private = scalar_of(algorithm, first)
    more = more_than_size(algorithm, private)
    c = largest_comment(algorithm, more)
    size = size_of(algorithm, more, c)
    most = plain(algorithm, private=private, comment=b"c" * c, reply=writes(size))
    over = plain(algorithm, private=private, comment=b"c" * (c + 1), reply=refuses(11))
    yield alone("the largest", LARGE, most)
    yield alone("the largest, exact", size, most)
    yield alone("the largest, a byte too short", size - 1, most._replace(reply=refuses(9)))
    yield alone("a byte above", LARGE, over)
    yield alone("a byte above, exact", size + 8, over)
    yield alone("a byte above, little room", 40, over)


def long_calls():
    c = largest_comment(ED25519, 0)
    assert (c, size_of(ED25519, 0, c), size_of(ED25519, 0, c + 1)) == (65301, 65530, 65538)
    for comment in long_comments(c):
        yield alone("the largest in UTF-8", 65530, plain(ED25519, comment=comment, reply=writes(65530)))
    for comment in long_comments(c + 1):
        yield alone("a byte above in UTF-8", 40, plain(ED25519, comment=comment, reply=refuses(11)))
    for c in (65302, 65400, LIMIT, LIMIT + 1):
        yield alone(f"{c} bytes of comment", 40, plain(1, comment=b"c" * c, reply=refuses(11)))
        bad = plain(1, comment=b"c" * (c - 1) + b"\xff", reply=refuses(7))
        yield alone(f"{c} bytes of comment, not UTF-8", 40, bad)


# ---- the order of the refusals


def ordered_calls(algorithm):
    """Every set of conditions at once: the first of them in the order is the reply."""
    conditions = {"length": 1, "tag": 2, "zeros": 2, "comment": 7, "size": 11, "room": 9}
    if algorithm == ED25519:
        del conditions["tag"], conditions["zeros"]
    for count in range(len(conditions) + 1):
        for chosen in itertools.combinations(conditions, count):
            reply = refuses(conditions[chosen[0]]) if chosen else None
            yield ordered_call(algorithm, chosen, reply)


def ordered_call(algorithm, chosen, reply):
    public, private = point_of(algorithm), scalar_of(algorithm)
    if "tag" in chosen:
        public = b"\3" + public[1:]
    if "zeros" in chosen:
        private = bytes(len(private))
    if "length" in chosen:
        private = private[:-1]
    comment = (b"\xff" if "comment" in chosen else b"c") + b"c" * (largest_comment(algorithm, 0) if "size" in chosen else 6)
    size = size_of(algorithm, 0, len(comment))
    reply = writes(size) if reply is None else reply
    room = min(size - 1, 120) if "room" in chosen else size
    return alone(f"conditions {chosen}", room, plain(algorithm, public, private, comment=comment, reply=reply))


def following_calls():
    """One image over another in the same buffer: of a longer one before it the end stays."""
    sizes = [(algorithm, size_of(algorithm, 0, 7)) for algorithm in (3, ED25519, 2, 1, ED25519)]
    calls = []
    for algorithm, size in sizes:
        calls.append(plain(algorithm, reply=writes(size)))
        calls.append(plain(algorithm, comment=b"\xff", reply=refuses(7)))
        calls.append(plain(algorithm, comment=b"c" * 300, reply=refuses(9)))
    yield Row("one image over another", filled(500), calls)


def plain_rows():
    yield from marked_calls()
    yield from following_calls()
    for algorithm in KINDS:
        yield from length_calls(algorithm)
        yield from tag_calls(algorithm)
        yield from scalar_calls(algorithm)
        yield from checkint_calls(algorithm)
        yield from residue_calls(algorithm)
        yield from ordered_calls(algorithm)
    yield from utf8_calls()
    yield from limit_calls(ED25519, 0xFF)
    for algorithm in CURVES:
        yield from limit_calls(algorithm, 0x7F)
        yield from limit_calls(algorithm, 0x80)
    yield from long_calls()
