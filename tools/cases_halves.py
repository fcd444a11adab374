"""Images for the header read: good headers whose section is damaged, short, missing or another one, and damaged headers. Each
is said with the full read's reply and the header read's, and a good header with all that its read must give."""
import functools
import itertools

import model
from cases_header import bcrypt_options_cases, blob_cases, key_count_cases, magic_cases, mixed_blob_cases, name_cases
from cases_header import ciphertext_cases, none_options_cases
from cases_marked import encrypted_of_size
from cases_section import section_cases
from damage import truncations
from fields import ABSENT, ALGORITHMS, CIPHER_NAMES, CIPHERS, ED25519, KDFS, LIMIT, NONE, uint32
from images import GOOD, Case, accepted, bcrypt_options, changed, encrypted, inner, join, keypair_fields, longer
from images import padded, place, plain, point_of, put, put_all, put_length, refused, scalar_of, spot, spots, stream

READ = (0, 0, 0)
KDF_NAME = 23  # where it begins after the cipher `none`
HEADER = 6  # so many fields has a header


class Base:
    """A good image, and what its header read must give, counted from its fields."""

    def __init__(self, title, fields):
        self.title, self.fields, self.image = title, fields, join(fields)
        self.half = half_meant(fields)
        self.section = self.half.section
        self.last = fields[HEADER].name  # the section or the ciphertext
        self.length = len(inner(fields[HEADER]))
        self.tag = CIPHERS[self.half.cipher][2]

    def ends(self, more):
        """The image up to so many bytes after the header."""
        return self.image[: self.section + more]

    def with_length(self, length):
        """The image with another length before its section."""
        return join(put_length(self.fields, self.last, length))

    def holding(self, content):
        """The image with another content in its section."""
        return join(put(self.fields, self.last, content))


def half_meant(fields):
    """Each name's code, and where the parts stand."""
    parts = {s.path: (s.start + 4, len(inner(s.field))) for s in spots(fields)}
    name, cipher, kdf = (inner(spot(fields, path).field) for path in ("blob.name", "cipher", "kdf"))
    rounds = inner(spot(fields, "options.rounds").field) if kdf == b"bcrypt" else b""
    return model.Half(
        algorithm=ALGORITHMS.index(name),
        cipher=CIPHER_NAMES.index(cipher),
        kdf=KDFS.index(kdf),
        rounds=int.from_bytes(rounds, "big"),
        section=sum(parts["blob"]),
        blob=parts["blob"],
        point=parts["blob.point"],
        salt=parts.get("options.salt", ABSENT),
        keys=1,
    )


@functools.cache
def bases():
    no_salt, long_salt = bcrypt_options(b"", 0), bcrypt_options(stream("salt", 255), 2**32 - 1)
    sealed = {
        "bcrypt aes256-ctr": encrypted(ED25519, b"aes256-ctr"),
        "bcrypt aes256-gcm": encrypted(1, b"aes256-gcm@openssh.com"),
        "bcrypt 3des-cbc": encrypted(2, b"3des-cbc"),
        "bcrypt aes192-cbc, no salt": encrypted(3, b"aes192-cbc", options=no_salt),
        "bcrypt aes128-gcm, a long salt": encrypted(ED25519, b"aes128-gcm@openssh.com", options=long_salt),
        "none aes128-cbc": encrypted(ED25519, b"aes128-cbc", b"none"),
        "none aes192-ctr": encrypted(1, b"aes192-ctr", b"none"),
        "none aes256-gcm": encrypted(3, b"aes256-gcm@openssh.com", b"none"),
    }
    open_ones = {f"plain {algorithm}": plain(algorithm) for algorithm in range(4)}
    return [Base(title, fields) for title, fields in {**open_ones, **sealed}.items()]


def with_header_of(base, cases):
    """Cases whose header is the base's, whatever comes after it."""
    for case in cases:
        assert model.read_header(case.image) == base.half, (base.title, case.title)
        yield case._replace(title=f"{base.title}: {case.title}", header=READ)


# ---- the section missing, cut, or after it more


def short_cases(base):
    """The image ends with the header, within the section's length, after it, and within what it counts."""
    for more in (0, 1, 2, 3, 4, 5, 4 + base.length // 2, 3 + base.length):
        yield Case(f"{more} bytes after the header", base.ends(more), (1, 0, base.section))
    for more in range(0, base.tag, 5):
        after = base.section + 4 + base.length
        yield Case(f"a tag of {more}", base.image[: after + more], (1, 0, after))


def longer_cases(base):
    for extra in (1, 8, 300):
        yield Case(f"{extra} bytes after the section", base.image + bytes(extra), (6, extra, len(base.image)))
    yield Case("twice", base.image * 2, (6, len(base.image), len(base.image)))


# ---- the section's length and content


def length_cases(base):
    """The length before the section says something else, and all that follows is as it was."""
    rest = len(base.image) - base.section - 4
    for length in (rest + 1, 2**31, 2**32 - 1):
        yield Case(f"a section of {length}", base.with_length(length), (1, 0, base.section))
    if base.half.cipher == NONE:
        for length in (0, 1):
            yield Case(f"a section of {length}", base.with_length(length), (1, 0, base.section + 4))
    else:
        left = (6, base.length, base.section + 4 + base.tag)
        yield Case("a ciphertext of 0", base.with_length(0), left)
        yield Case("a ciphertext of 1", base.with_length(1), (3, 0, base.section))


def content_cases(base):
    """Other bytes for the section. A ciphertext may be any."""
    others = {
        "other bytes": (stream("other", base.length), (3, 0, base.section + 8)),
        "zeros": (bytes(base.length), (4, 0, base.section + 12)),
        "all bits": (b"\xff" * base.length, (1, 0, base.section + 12)),
        "nothing": (b"", (1, 0, base.section + 4)),
    }
    for title, (content, reply) in others.items():
        yield Case(title, base.holding(content), reply if base.half.cipher == NONE else READ)


def plain_cases(base):
    """What only a plain section has."""
    fields, algorithm = base.fields, base.half.algorithm
    other = plain(algorithm, keypair=keypair_fields(algorithm, point_of(algorithm, "other")))
    zeros = bytes(len(inner(spot(fields, "section.padding").field)))
    yield refused("wrong checkints", put(fields, "section.checkint2", bytes(4)), 3, "section.checkint2")
    yield refused("an unknown key", changed(fields, {"section.name": b"ssh-dss"}), 4, "section.name")
    yield refused("another key", other, 5, "section.name")
    yield refused("a long point", padded(longer(fields, "section.point", b"\0")), 6, "section.scalar", -1, 1)
    yield refused("a comment that isn't UTF-8", changed(fields, {"section.comment": b"\xff"}), 7, "section.comment")
    yield refused("wrong padding", put(fields, "section.padding", zeros), 2, "section.padding")
    yield refused("an empty scalar", changed(fields, {"section.scalar": b""}), 1, "section.scalar")
    if algorithm != ED25519:
        yield refused("zeros for a scalar", changed(fields, {"section.scalar": bytes(8)}), 2, "section.scalar")


def damaged_cases(base):
    """The base's header, and a section that is damaged, short or missing; where it is a ciphertext, also another one."""
    kinds = [short_cases(base), longer_cases(base), length_cases(base), content_cases(base)]
    if base.half.cipher == NONE:
        kinds.append(plain_cases(base))
    yield from with_header_of(base, itertools.chain(*kinds))


# ---- one header, several sections


def sections(base):
    """Images that have the base's header and a good section of another length."""
    if base.half.cipher == NONE:
        for comment in (b"", b"oven", "Bäckerei Süd".encode()):
            yield accepted(f"comment of {len(comment)}", changed(base.fields, {"section.comment": comment}))
    else:
        for blocks in (0, 1, 7):
            ciphertext = stream("another", 16 * blocks)
            yield accepted(f"{blocks} blocks", put(base.fields, base.last, ciphertext))


def other_sections(base):
    """Also those of the base's own lengths."""
    yield from sections(base)
    if base.half.cipher == NONE:
        for checkint in (bytes(4), b"\xff\xff\xff\xff"):
            both = dict.fromkeys(("section.checkint1", "section.checkint2"), checkint)
            yield accepted("another checkint", put_all(base.fields, both))
        algorithm = base.half.algorithm
        yield accepted("another scalar", plain(algorithm, scalar=scalar_of(algorithm, 0x21)))
        if algorithm != ED25519:
            yield accepted("a short scalar", plain(algorithm, scalar=scalar_of(algorithm)[:-1]))
            yield accepted("zeros before a scalar", plain(algorithm, scalar=b"\0\0" + scalar_of(algorithm)[:-2]), form=False)


# ---- `bcrypt` without a cipher


def cipherless_bases():
    for algorithm in range(4):
        fields = put_all(plain(algorithm), {"kdf": b"bcrypt", "options": bcrypt_options()})
        yield Base(f"bcrypt without a cipher {algorithm}", fields)


def cipherless_cases(base):
    """The header is accepted, and every section is refused at the KDF's name."""
    images = [base.image, *map(base.ends, (0, 2, 4, 40)), base.with_length(0), base.with_length(2**32 - 1)]
    images += [base.holding(bytes(8)), base.image + b"\0"]
    yield from with_header_of(base, (Case("refused at the KDF", image, (3, 0, KDF_NAME)) for image in images))


# ---- as large as the limit, and above it


def header_of_size(size):
    """An encrypted image whose header has exactly this size: the salt takes what is left."""
    fields = encrypted(ED25519, b"aes256-ctr")
    rest = size - place(fields, "ciphertext")
    return put(fields, "options.salt", stream("salt", 16 + rest))


def largest_pairs():
    """Good headers, each with an image of 65,535 bytes that begins with it and whose section is damaged or missing."""
    whole = Base("plain, 65,535 bytes", plain(1, b"c" * 65232))
    comment = put(whole.fields, "section.comment", b"c" * 65231 + b"\xff")
    yield whole, refused("a comment that isn't UTF-8", comment, 7, "section.comment")
    sealed = Base("encrypted, 65,535 bytes", encrypted_of_size(LIMIT))
    yield sealed, Case("a longer ciphertext", sealed.with_length(LIMIT), (1, 0, sealed.section))
    alone = Base("a header of 65,535 bytes", header_of_size(LIMIT))
    yield alone, Case("no section", alone.ends(0), (1, 0, LIMIT))


def above_pairs():
    """Good headers, each with an image of 65,536 bytes that begins with it."""
    whole, _ = next(largest_pairs())
    yield whole, Case("a byte after it", whole.image + b"\0", (11, 0, 0))
    above = Base("a header of 65,536 bytes", header_of_size(LIMIT + 1))
    yield above, Case("no section", above.ends(0), (11, 0, 0))


# ---- damaged headers


def damaged_headers(base):
    """Refused alike by both reads, whether there is a section or none."""
    for fields in (base.fields, base.fields[:HEADER]):
        yield refused("magic", put(fields, "magic", b"openssh-key-v2\0"), 2, "magic")
        yield refused("cipher", put(fields, "cipher", b"aes512-ctr"), 4, "cipher")
        yield refused("kdf", put(fields, "kdf", b"scrypt"), 4, "kdf")
        yield refused("count", put(fields, "count", uint32(model.MOST_KEYS + 1)), 1, "count")
        yield refused("blob name", put(fields, "blob.name", b"ssh-dss"), 4, "blob.name")
        yield refused("blob left over", longer(fields, "blob", b"\0\0"), 6, "blob.extra", 0, 2)
        if base.half.kdf == NONE:
            yield refused("options", put(fields, "options", b"\0"), 3, "options")
    yield Case("cut within the blob", base.ends(-1), (1, 0, place(base.fields, "blob")))


def answered_alike(cases):
    """Cases to which the header read replies as the full read does."""
    for case in cases:
        yield case._replace(header=case.reply)


# ---- the images of the other files again


def cut_cases():
    """A cut image: both reads refuse it alike until the header is whole."""
    for title, fields in GOOD.items():
        section = half_meant(fields).section
        for case in truncations(title, fields):
            yield case._replace(header=READ if len(case.image) >= section else case.reply)


def known_cases():
    """No new images: what the header read must say of those that were made for the full read."""
    yield from answered_alike(itertools.chain(magic_cases(), name_cases(), none_options_cases(), key_count_cases()))
    yield from answered_alike(itertools.chain(bcrypt_options_cases(), mixed_blob_cases()))
    for algorithm in range(4):
        yield from answered_alike(blob_cases(algorithm, plain(algorithm)))
    ciphertexts = (ciphertext_cases(code) for code in range(1, len(CIPHERS)))
    for case in itertools.chain(section_cases(), *ciphertexts):
        yield case._replace(header=READ)
    yield from cut_cases()


def half_cases():
    for base in bases():
        yield from with_header_of(base, [Case("good", base.image, READ, True)])
        yield from damaged_cases(base)
        yield from with_header_of(base, other_sections(base))
        yield from answered_alike(damaged_headers(base))
    for base in cipherless_bases():
        yield from cipherless_cases(base)
    for base, case in largest_pairs():
        yield from with_header_of(base, [case])
    yield from answered_alike(case for _, case in above_pairs())
    yield from known_cases()
