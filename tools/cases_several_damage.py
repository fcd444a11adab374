"""Images of several keys that are damaged at one key or at two: every field of each key's blob and keypair, which of two faults is
said, images cut at every field's border, lengths set wrong, bytes changed at random. As in cases_several.py each has the reply that is
meant, but where damage.py says none."""
import itertools
from typing import NamedTuple

from cases_rsa import form_and_size
from cases_several import READ, alike_case, past, with_comment
from damage import length_edits, one_byte, part_truncations, resized, several_bytes, truncations
from fields import ED25519, RSA, SIZES
from images import Field, curve_name, inner, join, longer, minimal, other_curves, padded, place, point_of, put, put_all, put_length
from images import scalar_of, spot, spots
from images_several import alike, key, keypair_of, mixed, numbered, ring
from rsa import BLOB_NUMBERS, NUMBERS

CUT = 2**32 - 1  # a length that no image has


class Fault(NamedTuple):
    """Damaged fields, and where this fault is said: number, the field's path, so many bytes after its start, and the count."""

    title: str
    fields: list
    number: int
    path: str
    offset: int = 0
    count: int = 0


def said(fault, case=past):
    return case(fault.title, *fault[1:])


# ---- the blob of key k


def blob_faults(fields, k, algorithm):
    blob = f"blob{k}"
    yield Fault("empty blob", put(fields, blob, b""), 1, blob, 4)
    yield Fault("blob cut", put_length(fields, blob, CUT), 1, blob)
    yield Fault("blob's name unknown", put(fields, f"{blob}.name", b"ssh-dss"), 4, f"{blob}.name")
    yield Fault("blob left over", longer(fields, blob, b"\0\0"), 6, f"{blob}.extra", 0, 2)
    if algorithm == RSA:
        for name in BLOB_NUMBERS:
            form, size = form_and_size(name)
            yield Fault(f"blob's {name}, its form", put(fields, f"{blob}.{name}", form), 2, f"{blob}.{name}")
            yield Fault(f"blob's {name}, its size", put(fields, f"{blob}.{name}", size), 1, f"{blob}.{name}")
    else:
        yield from public_faults(fields, f"{blob}.point", f"{blob}.curve", algorithm)
    if algorithm in SIZES:
        other = other_curves(algorithm)[0]
        unlike = put_all(fields, {f"{blob}.curve": curve_name(other), f"{blob}.point": point_of(other)})
        yield Fault("blob's curve unlike its name", unlike, 4, f"{blob}.curve")


def public_faults(fields, point, curve, algorithm):
    """In a blob or in a section: the public key or point, and the curve."""
    own = inner(spot(fields, point).field)
    yield Fault("point short", put(fields, point, own[:-1]), 1, point)
    yield Fault("point long", put(fields, point, own + b"\0\0"), 6, point, 4 + len(own), 2)
    if algorithm != ED25519:
        yield Fault("point's tag", put(fields, point, b"\2" + own[1:]), 2, point)
        yield Fault("curve unknown", put(fields, curve, b"nistp224"), 4, curve)


# ---- the keypair and the comment of key k


def section_faults(fields, k, given):
    """The section is padded again, so that nothing else is wrong in it."""
    name, scalar, comment = (f"section.{field}{k}" for field in ("name", "scalar", "comment"))
    yield Fault("name cut", put_length(fields, name, CUT), 1, name)
    yield Fault("name unknown", put(fields, name, b"ssh-dss"), 4, name)
    yield Fault("comment cut", put_length(fields, comment, CUT), 1, comment)
    yield Fault("comment not UTF-8", put(fields, comment, b"S\xfcd"), 7, comment)
    if given.algorithm == RSA:
        for number in NUMBERS:
            form, size = form_and_size(number)
            path = f"section.{number}{k}"
            yield Fault(f"{number}, its form", put(fields, path, form), 2, path)
            yield Fault(f"{number}, its size", put(fields, path, size), 1, path)
        return
    yield from public_faults(fields, f"section.point{k}", f"section.curve{k}", given.algorithm)
    if given.algorithm == ED25519:
        both = given.private + given.public
        yield Fault("64 bytes short", put(fields, scalar, both[:-1]), 1, scalar)
        yield Fault("64 bytes long", put(fields, scalar, both + b"\0\0"), 6, scalar, 4 + 64, 2)
        yield Fault("halves differ", put(fields, scalar, both[:-1] + bytes([both[-1] ^ 1])), 3, scalar)
    else:
        yield from scalar_faults(fields, k, given.algorithm)


def scalar_faults(fields, k, algorithm):
    scalar, size = f"section.scalar{k}", SIZES[algorithm]
    yield Fault("scalar empty", put(fields, scalar, b""), 1, scalar)
    yield Fault("scalar long", put(fields, scalar, bytes(size + 2)), 6, scalar, 4 + size, 2)
    yield Fault("scalar without its zero", put(fields, scalar, b"\1" + bytes(size)), 2, scalar)
    yield Fault("scalar of zeros", put(fields, scalar, bytes(size)), 2, scalar)
    other = other_curves(algorithm)[0]
    unlike = {"curve": curve_name(other), "point": point_of(other), "scalar": minimal(other, scalar_of(other))}
    fields = put_all(fields, {f"section.{field}{k}": content for field, content in unlike.items()})
    yield Fault("curve unlike the name", fields, 4, f"section.curve{k}")


def padded_again(fault):
    return fault._replace(fields=padded(fault.fields))


def field_cases():
    """Every key of a ring of all kinds, each kind first and last; and the first, a middle and the last of sixteen."""
    for keys, places in ((mixed(5), range(1, 6)), (mixed(5, 1), (1, 5)), (mixed(5, 3), (1, 5)), (mixed(16), (1, 9, 16))):
        for k in places:
            fields, one = ring(keys), keys[k - 1]
            yield from (said(fault, alike_case) for fault in blob_faults(fields, k, one.algorithm))
            yield from (said(padded_again(fault)) for fault in section_faults(fields, k, one))


# ---- a key unlike its blob


def unlike(keys, k, other):
    """The ring with another key in the section for key k: its keypair is read whole, and refused at its name."""
    entries = [*keys[: k - 1], other, *keys[k:]]
    return ring(entries, blobs=keys)


def unlike_cases():
    for keys in (mixed(5), mixed(16, 2)):
        for k in (1, 3, len(keys)):
            for kind in range(5):
                fields = unlike(keys, k, key(kind, "another"))
                yield past(f"kind {kind} for key {k}", fields, 5, f"section.name{k}")
                both = padded(put(fields, f"section.comment{k}", b"\xff"))
                yield past("before its comment", both, 5, f"section.name{k}")
    three = alike(1, 3)
    for k in (1, 2, 3):
        fields = padded(put(unlike(three, k, key(1, "another")), f"section.scalar{k}", b""))
        yield past("its own refusals come first", fields, 1, f"section.scalar{k}")
        n, e, *rest = key(RSA, "one").numbers
        keys = [*three[: k - 1], key(RSA, "one"), *three[k:]]
        for numbers in ((n, b"\3", *rest), (key(RSA, "other").numbers[0], e, *rest)):
            yield past("another n or e", unlike(keys, k, keys[k - 1]._replace(numbers=numbers)), 5, f"section.name{k}")


# ---- which of two faults is said


def two_blob_faults(fields, k):
    point = inner(spot(fields, f"blob{k}.point").field)
    yield Fault("cut", put_length(fields, f"blob{k}", CUT), 1, f"blob{k}")
    yield Fault("name", put(fields, f"blob{k}.name", b"ssh-dss"), 4, f"blob{k}.name")
    yield Fault("point", put(fields, f"blob{k}.point", point[:-1]), 1, f"blob{k}.point")
    yield Fault("left over", longer(fields, f"blob{k}", b"\0\0\0"), 6, f"blob{k}.extra", 0, 3)


def two_section_faults(fields, k):
    other = numbered(keypair_of(key(ED25519, "another")), k)
    yield Fault("another key", put_all(fields, {f"section.{f.name}": f.content for f in other}), 5, f"section.name{k}")
    yield Fault("scalar", put(fields, f"section.scalar{k}", bytes(63)), 1, f"section.scalar{k}")
    yield Fault("comment", put(fields, f"section.comment{k}", b"\xff"), 7, f"section.comment{k}")


def pair_cases():
    """Of two keys' faults the earlier key's is said, whichever come first within a key; and a blob's before any of the section."""
    three = ring(alike(ED25519, 3))
    for one, other in ((1, 2), (2, 3), (1, 3)):
        for first in two_blob_faults(three, one):
            yield from (said(first._replace(fields=both.fields), alike_case) for both in two_blob_faults(first.fields, other))
        for first in two_section_faults(three, one):
            for both in two_section_faults(first.fields, other):
                yield said(padded_again(first._replace(fields=both.fields)))
        for last in two_blob_faults(three, other):
            for both in two_section_faults(last.fields, one):
                yield said(padded_again(last._replace(fields=both.fields)), alike_case)


def end_cases():
    """Padding, and what is after the image, once all keys are read; a comment's fault comes before them."""
    for count, c in itertools.product((2, 16), range(8)):
        fields = ring(with_comment(mixed(count), count - 1, b"c" * c))
        padding = inner(spot(fields, "section.padding").field)
        more = put(fields, "section.padding", bytes(range(1, len(padding) + 9)))
        yield past("padding of 8 more", more, 1, "section.padding")
        if padding:
            wrong = put(fields, "section.padding", padding[:-1] + b"\0")
            yield past("wrong padding", wrong, 2, "section.padding")
    three = ring(mixed(3))
    for k in (1, 2, 3):
        comment = f"section.comment{k}"
        bad = padded(put(three, comment, b"\xff"))
        yield past("a comment before the padding", longer(bad, "section", bytes(8)), 7, comment)
        yield past("a comment before what is left", [*bad, Field("left", b"\0\0")], 7, comment)
    for extra in (1, 8, 300):
        left = [*three, Field("left", bytes(extra), counted=False)]
        yield past(f"{extra} bytes after three keys", left, 6, "left", 0, extra)


# ---- cut, with wrong lengths, and changed at random


def cut_cases():
    """Cut at the border of every field, before it and after it; and the section cut at every eighth byte, its length right."""
    for keys in (mixed(2), mixed(3, 3)):
        fields = ring(keys)
        borders = {spot_of.start + step for spot_of in spots(fields) for step in (-1, 0, 1)}
        header = place(fields, "section")
        for case in truncations(f"{len(keys)} keys", fields):
            if len(case.image) in borders:
                yield case._replace(header=READ if len(case.image) >= header else case.reply)
        for case in part_truncations(f"{len(keys)} keys", fields, "section", 8):
            yield case._replace(header=READ)


def random_cases():
    """No reply is said for these."""
    for shift in (0, 2, 4):
        title, fields = f"three keys from kind {shift}", ring(mixed(3, shift))
        yield from itertools.islice(length_edits(title, fields), shift % 3, None, 6)
        yield from itertools.islice(resized(title, fields), shift % 3, None, 5)
        yield from several_bytes(title, join(fields), 20)
        yield from one_byte(title, join(fields), 20)
    image = join(ring(mixed(16)))
    yield from one_byte("sixteen keys", image, 15)


def several_damage_cases():
    yield from field_cases()
    yield from unlike_cases()
    yield from pair_cases()
    yield from end_cases()
    yield from cut_cases()
    yield from random_cases()
