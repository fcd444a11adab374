"""Images of RSA keys beside those on mpints and sizes: names, public keys that differ, other kinds, what comes after the
keypair, ciphers, comments, the largest, and damaged ones."""
import itertools

from cases_halves import KDF_NAME, READ, answered_alike
from cases_header import FOREIGN_NAMES, near_misses
from cases_rsa import form_and_size, with_header_read
from comments import comments
from damage import length_edits, one_byte, part_truncations, resized, several_bytes
from fields import ALGORITHMS, CIPHERS, ED25519, LIMIT, RSA
from images import Case, Field, accepted, bcrypt_options, changed, encoded, inner, join, longer, padded, place, plain
from images import point_of, public_fields, put, put_all, refused, spot, spots, stream
from images_rsa import RSA_GOOD, blob_fields, high, in_section, keypair_fields, low, number, numbers, rsa_encrypted
from images_rsa import rsa_plain
from rsa import NUMBERS

ELLIPTIC = range(4)


# ---- names, and the fields of other kinds


def name_cases(fields, part):
    mend = padded if part == "section" else lambda same: same
    for name in FOREIGN_NAMES + list(near_misses(ALGORITHMS[RSA])):
        if name not in ALGORITHMS:
            yield refused(f"{part} name {name}", mend(put(fields, f"{part}.name", name)), 4, f"{part}.name")


def mixed_blob_cases():
    """A name with the key fields of another kind."""
    for kind in ELLIPTIC:
        fields = put(rsa_plain(), "blob.name", ALGORITHMS[kind])
        yield refused(f"name {kind}, RSA's fields", fields, 1 if kind == ED25519 else 4, "blob.e")
        own = put(rsa_plain(), "blob", [*public_fields(kind, low(32) if kind == ED25519 else point_of(kind))])
        named = put(own, "blob.name", ALGORITHMS[RSA])
        if kind == ED25519:
            yield refused("RSA's name, fields of Ed25519", named, 1, "blob.point", 4 + 32)
        else:  # the curve and the point are taken for e and n: 04 begins a number of 515 bits or more
            bits = 8 * len(point_of(kind)) - 5
            yield refused("RSA's name, fields of ECDSA", named, *((1, "blob.point") if bits < 1024 else (5, "section.name")))


def mixed_section_cases():
    for kind in ELLIPTIC:
        fields = changed(rsa_plain(), {"section.name": ALGORITHMS[kind]})
        if kind == ED25519:
            yield refused("name of Ed25519, RSA's numbers", fields, 6, "section.n", 4 + 32, len(numbers()["n"]) - 32)
        else:
            yield refused("name of ECDSA, RSA's numbers", fields, 4, "section.n")
        named = changed(plain(kind), {"section.name": ALGORITHMS[RSA]})
        if kind == ED25519:
            point = changed(named, {"section.point": high(32)})
            yield refused("RSA's name, a point that lacks a zero", point, 2, "section.point")


# ---- public keys that differ


def unlike_cases():
    """The section's n or e isn't the blob's. Whatever is wrong in the keypair itself is said first."""
    key = numbers()
    near = [key["n"][:-1] + bytes([key["n"][-1] ^ 1]), key["n"][:1] + bytes([key["n"][1] ^ 1]) + key["n"][2:]]
    others = [dict(n=n) for n in (*near, number(1024, "other"), number(1025), number(2048), number(8192))]
    others += [dict(e=e) for e in (b"\3", b"\1\0\0", b"\1\0\2", b"\1\0\1\0", b"\2\0\1", number(1024))]
    others += [dict(n=near[0], e=b"\3")]
    for changes in others:
        fields = in_section(rsa_plain(), changes)
        names = " and ".join(changes)
        yield refused(f"another {names}", fields, 5, "section.name")
        yield refused(f"another {names}, bad comment", changed(fields, {"section.comment": b"\xff"}), 5, "section.name")
        yield refused(f"another {names}, bad padding", longer(fields, "section", bytes(8)), 5, "section.name")
    for name in NUMBERS:
        form, size = form_and_size(name)
        unlike = in_section(rsa_plain(), dict(e=b"\3"))
        yield refused(f"another e, size of {name}", in_section(unlike, {name: size}), 1, f"section.{name}")
        yield refused(f"another e, form of {name}", in_section(unlike, {name: form}), 2, f"section.{name}")


def swapped_cases():
    """e and n in each other's place, and d for e."""
    key = numbers()
    swapped = dict(key, n=key["e"], e=key["n"])
    yield refused("e for n in the blob", rsa_plain(key, public=swapped), 1, "blob.e")
    yield refused("e for n in the section", rsa_plain(swapped, public=key), 1, "section.n")
    yield refused("d for e", rsa_plain(dict(key, e=key["d"], d=key["e"]), public=key), 5, "section.name")
    yield accepted("p for q", rsa_plain(dict(key, p=key["q"], q=key["p"])))


def other_kind_cases():
    """The section's key is of another kind than the blob's: read whole, by its own name, before that is said."""
    for kind in ELLIPTIC:
        fields = put(plain(kind), "blob", blob_fields(numbers()))
        yield refused("RSA in the blob alone", fields, 5, "section.name")
        empty = changed(fields, {"section.scalar": b""})
        yield refused("RSA in the blob alone, empty scalar", empty, 1, "section.scalar")
        fields = plain(kind, keypair=keypair_fields(numbers()))
        yield refused("RSA in the section alone", fields, 5, "section.name")
        yield refused("RSA in the section alone, bad comment", changed(fields, {"section.comment": b"\xff"}), 5, "section.name")
        for name in NUMBERS:
            form, size = form_and_size(name)
            yield refused("RSA in the section alone, a form", in_section(fields, {name: form}), 2, f"section.{name}")
            yield refused("RSA in the section alone, a size", in_section(fields, {name: size}), 1, f"section.{name}")


# ---- what comes after the keypair


def after_cases():
    fields = rsa_plain()
    unequal = put(in_section(fields, {"n": b""}), "section.checkint2", bytes(4))
    yield refused("checkints before the numbers", unequal, 3, "section.checkint2")
    bad = changed(in_section(fields, {"q": number(1025)}), {"section.comment": b"\xff"})
    yield refused("a size before the comment", bad, 1, "section.q")
    bad = changed(in_section(fields, {"q": b""}), {"section.comment": b"\xff"})
    yield refused("a form before the comment", bad, 2, "section.q")
    for comment in (b"\xff", b"\xc3", b"s\xfcd"):
        yield refused("not UTF-8", rsa_plain(comment=comment), 7, "section.comment")
    for length in range(9):
        good = rsa_plain(comment=b"c" * length)
        right = inner(spot(good, "section.padding").field)
        yield accepted(f"a comment of {length}", good)
        more = bytes(range(1, len(right) + 9))
        yield refused("padding of 8 or more", put(good, "section.padding", more), 1, "section.padding")
        if right:
            yield refused("wrong padding", put(good, "section.padding", right[:-1] + b"\x80"), 2, "section.padding")
    for extra in (1, 8):
        left = [*fields, Field("left", bytes(extra), counted=False)]
        yield refused("bytes after the image", left, 6, "left", 0, extra)
        yield refused("bytes after the image, a form", in_section(left, {"p": b""}), 2, "section.p")
        yield refused("bytes after the image, a size", in_section(left, {"p": number(1025)}), 1, "section.p")


def comment_cases():
    for comment, right in itertools.islice(comments(), 0, None, 7):
        fields = rsa_plain(comment=comment)
        yield accepted("a comment", fields) if right else refused("a comment", fields, 7, "section.comment")


# ---- ciphers


def sealed_cases():
    """Every cipher with each KDF, and what is refused after an RSA blob."""
    for cipher, block, tag_length in CIPHERS[1:]:
        for kdf, blocks in itertools.product((b"bcrypt", b"none"), (0, 4)):
            yield accepted("sealed", rsa_encrypted(cipher, kdf, blocks=blocks))
        odd = put(rsa_encrypted(cipher), "ciphertext", stream("odd", block + 1))
        yield refused("sealed, odd", odd, 3, "ciphertext")
        yield refused("sealed, bytes left", longer(rsa_encrypted(cipher), "tag", b"\0"), 6, "tag", tag_length, 1)
        if tag_length:
            yield refused("sealed, a short tag", put(rsa_encrypted(cipher), "tag", bytes(15)), 1, "tag")


def cipherless_cases():
    fields = put_all(rsa_plain(), {"kdf": b"bcrypt", "options": bcrypt_options()})
    yield refused("bcrypt without a cipher", fields, 3, "kdf")
    yield refused("bcrypt without a cipher, a bad section", put(fields, "section", b"\0"), 3, "kdf")
    assert place(fields, "kdf") == KDF_NAME


# ---- as large as the limit


def of_size(size, bits=8192):
    """A plain image of a key of so many bits that has exactly this size: the blob's exponent takes what the section's
    multiple of 8 leaves, and the comment the rest."""
    for length in range(1, 9):
        fields = rsa_plain(numbers(bits, e=low(length)), b"")
        rest = size - len(join(fields))
        if rest % 8 == 0:
            room = len(inner(spot(fields, "section.padding").field)) + rest
            return changed(fields, {"section.comment": b"c" * room})


def largest_cases():
    for bits in (1024, 8192):
        whole = of_size(LIMIT, bits)
        assert len(join(whole)) == LIMIT
        yield accepted(f"{bits} bits, 65,535 bytes", whole)
        bad = put(whole, "section.comment", inner(spot(whole, "section.comment").field)[:-1] + b"\xff")
        yield refused(f"{bits} bits, 65,535 bytes, not UTF-8", bad, 7, "section.comment")
    above = join(of_size(LIMIT + 1))
    yield Case("8,192 bits, 65,536 bytes", above, (11, 0, 0), header=(11, 0, 0))


# ---- damaged


def border_truncations(title, fields):
    """The image ends at each field's border, a byte before it and a byte after it."""
    image = join(fields)
    top = [s for s in spots(fields) if "." not in s.path]
    borders = {border for s in spots(fields) for border in (s.start, s.start + 4, s.start + len(encoded(s.field)))}
    for length in sorted({near for border in borders for near in (border - 1, border, border + 1)}):
        if 0 <= length < len(image):
            cut = next(s.start for s in top if s.start + len(encoded(s.field)) > length)
            header = READ if length >= top[6].start else (1, 0, cut)
            yield Case(f"{title}, first {length}", image[:length], (1, 0, cut), header=header)


def truncation_cases():
    for title, fields in RSA_GOOD.items():
        yield from border_truncations(title, fields)
    yield from with_header_read(part_truncations("RSA", RSA_GOOD["plain ssh-rsa"], "section", 8))
    small = rsa_encrypted(b"3des-cbc", b"none", blocks=1)
    yield from answered_alike(part_truncations("RSA", small, "blob"))


def damaged_cases():
    for title, fields in RSA_GOOD.items():
        yield from length_edits(title, fields)
        yield from resized(title, fields)
        yield from several_bytes(title, join(fields), 25)
        yield from one_byte(title, join(fields), 25)


def rsa_image_cases():
    fields = rsa_plain()
    yield from answered_alike(name_cases(fields, "blob"))
    yield from mixed_blob_cases()
    sections = [name_cases(fields, "section"), mixed_section_cases(), unlike_cases(), other_kind_cases(), after_cases()]
    sections += [comment_cases(), sealed_cases(), cipherless_cases()]
    yield from with_header_read(itertools.chain(*sections))
    yield from swapped_cases()
    yield from largest_cases()
    yield from truncation_cases()
    yield from damaged_cases()
