"""Images of several keys, request Eight: rings of 1 to 16 keys of all kinds, equal ones among them, scalars out of the form, key
counts that aren't taken, and counts, blobs and keypairs that don't go together; with the reply meant for each, and of good ones all
that a read must find. Damage at a single key is in cases_several_damage.py."""
import functools
import itertools
from typing import NamedTuple

from fields import CIPHER_NAMES, ED25519, LIMIT, RSA, SIZES, uint32
from images import Case, Field, accepted, bcrypt_options, changed, encrypted, inner, join, put, put_all, refused, scalar_of, spot
from images_several import COMMENTS, KINDS, alike, blob_of, key, mixed, ring, size_of

READ = (0, 0, 0)
COUNTS = [1, 2, 3, 15, 16]


class Ring(NamedTuple):
    """Keys that must all be read, and the fields of their image; whether it is in the form, in which `images_several.ring` has them."""

    title: str
    keys: list
    fields: list
    form: bool = True

    def case(self):
        return Case(self.title, join(self.fields), READ, self.form, READ)


def whole(title, keys, checkint=0x6B1DFACE):
    assert len(join(ring(keys))) == size_of(keys), title
    return Ring(title, keys, ring(keys, checkint=checkint))


# ---- rings that are read


def mixed_rings():
    """Each kind at each place; the borders of the count."""
    for count, shift in itertools.product(COUNTS, KINDS):
        yield whole(f"{count} keys from kind {shift}", mixed(count, shift))
    for one, other in itertools.product(KINDS, KINDS):
        yield whole(f"kinds {one} and {other}", [key(one, "one"), key(other, "other", b"oven-13")])
    for checkint in (0, 11, 0x01020304, 0xFFFFFFFF):
        yield whole(f"checkint {checkint:08x}", mixed(3), checkint)


def equal_rings():
    """Equal keys may stand in one file, with equal comments or others, and equal public keys with other private parts."""
    for algorithm in KINDS:
        one = key(algorithm, "one")
        for count in (2, 3, 16):
            yield whole(f"{count} times kind {algorithm}", [one] * count)
        yield whole("equal keys, other comments", [one, one._replace(comment=b""), one._replace(comment=b"oven-13")])
        yield whole("equal but for the private part", [one, other_private(one)])
    five = mixed(5)
    yield whole("the first again, last", [*five, five[0]])
    yield whole("each twice", [one for one in five for _ in range(2)])


def other_private(one):
    if one.algorithm == RSA:
        n, e, _, *rest = one.numbers
        return one._replace(numbers=(n, e, b"\x2b\1", *rest))
    return one._replace(private=b"\x21" + one.private[1:])


def comment_rings():
    """Every padding, by the first key's comment and by the last one's; comments of all lengths of characters at each key."""
    three = mixed(3)
    for at, c in itertools.product((0, 2), range(9)):
        yield whole(f"{c} bytes of comment at key {at + 1}", with_comment(three, at, b"c" * c))
    for at, comment in itertools.product(range(3), (*COMMENTS[2:6], b"c" * 300)):
        yield whole(f"comment at key {at + 1}", with_comment(three, at, comment))


def with_comment(keys, at, comment):
    return [*keys[:at], keys[at]._replace(comment=comment), *keys[at + 1 :]]


# ---- scalars out of the form


def out_of_form(algorithm):
    """A needless zero, a missing one, zeros before a short scalar, and a short one that lacks its zero."""
    size = SIZES[algorithm]
    yield b"\0" + scalar_of(algorithm, 0x7F)
    yield scalar_of(algorithm, 0x80)
    yield b"\0\0" + scalar_of(algorithm, 0x5A)[: size - 2]
    yield scalar_of(algorithm, 0xA5)[: size - 1]


def in_form(algorithm):
    yield b"\0" + scalar_of(algorithm, 0x80)
    yield scalar_of(algorithm)[:-1]
    yield b"\1"


def with_scalars(title, keys, scalars, form):
    """The ring with these strings for the scalars of some keys, which count from 1."""
    fields = changed(ring(keys), {f"section.scalar{k}": scalar for k, scalar in scalars.items()})
    return Ring(title, [with_scalar(one, scalars.get(k)) for k, one in enumerate(keys, 1)], fields, form)


def with_scalar(one, scalar):
    """The key with a string's number for its scalar, in SIZE bytes."""
    return one if scalar is None else one._replace(private=scalar.lstrip(b"\0").rjust(SIZES[one.algorithm], b"\0"))


def scalar_rings():
    """Each key's scalar by itself, and several: one that isn't as the writer has it is enough."""
    for order in ((1, 2, 3), (3, 1, 2), (2, 3, 1)):
        keys = [key(algorithm, "curve") for algorithm in order]
        for k, algorithm in enumerate(order, 1):
            yield from (with_scalars(f"slip at key {k}", keys, {k: s}, False) for s in out_of_form(algorithm))
            yield from (with_scalars(f"short at key {k}", keys, {k: s}, True) for s in in_form(algorithm))
    keys = [key(1 + turn % 3, f"of {turn}") for turn in range(16)]
    for k, one in enumerate(keys, 1):
        slip = list(out_of_form(one.algorithm))[k % 4]
        yield with_scalars(f"slip at key {k} of 16", keys, {k: slip}, False)
    for some in ((1, 16), (1, 2), (8, 9, 10), range(1, 17)):
        slips = {k: next(out_of_form(keys[k - 1].algorithm)) for k in some}
        yield with_scalars("several slips", keys, slips, False)
    among = [key(ED25519, "one"), key(2, "two"), key(RSA, "three")]
    yield from (with_scalars("a slip among other kinds", among, {2: slip}, False) for slip in out_of_form(2))


# ---- the limit


def up_to(keys, at, size):
    """The keys with a comment at one of them that gives the image this size, which it can have."""
    bare = with_comment(keys, at, b"")
    grown = with_comment(keys, at, b"c" * (size - size_of(bare)))
    assert size_of(grown) == size
    return grown


def of_limit(count):
    """So many keys whose image can have 65,535 bytes."""
    kinds = itertools.combinations_with_replacement((ED25519, 1, 3), count)
    rings = ([key(algorithm, f"of {turn}", b"") for turn, algorithm in enumerate(some)] for some in kinds)
    return next(keys for keys in rings if size_of(keys) % 8 == LIMIT % 8)


def largest_rings():
    for count, at in ((2, 0), (2, 1), (3, 1), (16, 15)):
        keys = of_limit(count)
        yield whole(f"{count} keys, 65,535 bytes", up_to(keys, at, LIMIT))


def above_cases():
    for count, at in ((2, 0), (16, 15)):
        image = join(ring(up_to(of_limit(count), at, LIMIT + 8)))
        yield Case(f"{count} keys, above the limit", image, (11, 0, 0), header=(11, 0, 0))
        yield Case("the same, no magic", b"\0" + image[1:], (11, 0, 0), header=(11, 0, 0))


def slipped_largest(at):
    """65,535 bytes, and above the limit once written: the scalar of one of two keys lacks its zero."""
    keys = [key(1, "one", first=0x80), key(3, "other", first=0x80)]
    bare = size_of(with_comment(keys, 0, b""))
    over = next(some for some in (with_comment(keys, 0, b"c" * c) for c in range(LIMIT - bare, LIMIT)) if size_of(some) > LIMIT)
    return with_scalars("65,535 bytes, out of the form", over, {at: over[at - 1].private}, False)


@functools.cache
def good_rings():
    rings = itertools.chain(mixed_rings(), equal_rings(), comment_rings(), scalar_rings(), largest_rings())
    return [*rings, slipped_largest(1), slipped_largest(2)]


# ---- the key count


def alike_case(title, fields, number, path, offset=0, count=0):
    """Refused by the header read as by the full read."""
    case = refused(title, fields, number, path, offset, count)
    return case._replace(header=case.reply)


def past(title, fields, number, path, offset=0, count=0):
    """Refused in the section: the header is read."""
    return refused(title, fields, number, path, offset, count)._replace(header=READ)


def count_cases():
    """0, above 16, and more than 1 with a cipher, whatever blobs there are."""
    for keys in ([], mixed(1), mixed(17)):
        for count in (0, 17, 18, 256, 2**16 + 1, 2**24 + 2, 2**31, 2**32 - 1):
            fields = put(ring(keys), "count", uint32(count))
            yield alike_case(f"count {count} with {len(keys)} blobs", fields, 1, "count")
    bad = put(ring(mixed(17)), "blob1", b"")
    yield alike_case("17 keys, before the blobs", bad, 1, "count")
    for turn, (cipher, kdf) in enumerate(itertools.product(CIPHER_NAMES[1:], (b"none", b"bcrypt"))):
        for count in ((0, 2), (3, 16), (2, 17))[turn % 3]:
            yield alike_case(f"{count} keys with a cipher", sealed(cipher, kdf, mixed(count)), 1, "count")


def sealed(cipher, kdf, keys):
    fields = put(encrypted(ED25519, cipher, kdf), "count", uint32(len(keys)))
    blobs = [Field(f"blob{k}", blob_of(one)) for k, one in enumerate(keys, 1)]
    return [*fields[:5], *blobs, *fields[6:]]


def sealed_ones():
    """A key of each kind with a cipher: of it a read finds what the header has."""
    for turn, cipher in enumerate(CIPHER_NAMES[1:]):
        keys = mixed(1, turn)
        yield Ring("one key with a cipher", keys, sealed(cipher, (b"none", b"bcrypt")[turn % 2], keys))


def cipherless_cases():
    """`bcrypt` without a cipher: the header of several keys is read, and the section refused at the KDF's name."""
    for count in (2, 16):
        fields = put_all(ring(mixed(count)), {"kdf": b"bcrypt", "options": bcrypt_options()})
        yield past(f"bcrypt, {count} keys", fields, 3, "kdf")
        yield past("bcrypt, no section", fields[:-1], 3, "kdf")
        yield alike_case("bcrypt, a bad last blob", put(fields, f"blob{count}.name", b"ssh-dss"), 4, f"blob{count}.name")


# ---- count, blobs and keypairs that don't go together


def fewer_cases():
    """A count of one less than the blobs: the last blob is read as the section. Its first number is the length of the key's name, its
    second the name's first letters."""
    for count, last in itertools.product((2, 3, 16), KINDS):
        fields = ring([*mixed(count - 1), key(last, "last")])
        length = len(inner(spot(fields, f"blob{count}").field))
        reply = (1, f"blob{count}", 4) if length % 8 else (3, f"blob{count}", 8)
        yield past(f"{count} blobs, a count of 1 less", put(fields, "count", uint32(count - 1)), *reply)
    yield past("17 blobs, a count of 16", put(ring([*mixed(16), key(1)]), "count", uint32(16)), 3, "blob17", 8)


def more_cases():
    """A count of one more than the blobs: the section is read as a blob, whose name's length is the checkint."""
    for count in (1, 2, 3, 15):
        more = put(ring(mixed(count)), "count", uint32(count + 1))
        yield alike_case(f"{count} blobs, a count of 1 more", more, 1, "section", 4)
        named = put(ring(mixed(count), checkint=11), "count", uint32(count + 1))
        yield alike_case("the same, a checkint of 11", named, 4, "section", 4)
        without = ring(mixed(count))[:-1]
        yield Case(f"{count} blobs, no section", join(without), (1, 0, len(join(without))), header=READ)
        fewer = join(put(without, "count", uint32(count + 1)))
        yield Case("a count of 1 more, no section", fewer, (1, 0, len(fewer)), header=(1, 0, len(fewer)))


def entry_cases():
    """Fewer keypairs than blobs: the next one is missing where the padding stands. More: they are too much padding."""
    for count, c in itertools.product((2, 3, 16), range(8)):
        keys = with_comment(mixed(count), count - 2, b"c" * c)
        yield past(f"the last of {count} keypairs missing", ring(keys[:-1], blobs=keys), 1, "section.padding")
    for count in (1, 2, 15):
        keys = mixed(count + 1)
        yield past(f"{count} blobs, a keypair more", ring(keys, blobs=keys[:-1]), 1, f"section.name{count + 1}")
    yield past("no keypair at all", ring([], blobs=mixed(2)), 1, "section.padding")


# ---- another order


def order_cases():
    """Keypairs in another order than the blobs: refused at the first that isn't its blob's, by its name."""
    for keys in (mixed(3), alike(ED25519, 3), alike(1, 3), alike(RSA, 3)):
        for order in list(itertools.permutations(range(3)))[1:]:
            yield reordered(keys, [keys[at] for at in order])
    for keys in (mixed(16), alike(2, 16)):
        for at in (0, 7, 14):
            yield reordered(keys, [*keys[:at], keys[at + 1], keys[at], *keys[at + 2 :]])
        yield reordered(keys, keys[::-1])
        yield reordered(keys, [*keys[1:], keys[0]])
        yield reordered(keys, [*keys[:15], keys[14]])
    one, other = key(1, "one"), key(3, "other")
    again = one._replace(comment=b"the same key")
    yield accepted("equal keys in another order", ring([again, other, one], blobs=[one, other, again]))
    yield reordered([one, other, again], [one, again, other])


def reordered(keys, entries):
    k = next(k for k, (one, other) in enumerate(zip(keys, entries), 1) if one[:2] + one.numbers != other[:2] + other.numbers)
    return past("in another order", ring(entries, blobs=keys), 5, f"section.name{k}")


def several_cases():
    yield from (one.case() for one in [*good_rings(), *sealed_ones()])
    yield from above_cases()
    yield from count_cases()
    yield from cipherless_cases()
    yield from fewer_cases()
    yield from more_cases()
    yield from entry_cases()
    yield from order_cases()
