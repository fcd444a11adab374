"""Calls of the encrypted writer for each condition of docs/RULES.md, 10.7, with the reply meant for each."""
import itertools

from calls import LARGE, Row, encrypted, filled, refuses, writes
from cases_header import blob_cases, mixed_blob_cases
from damage import length_edits
from fields import CIPHERS, ED25519, KDFS, LIMIT, MAGIC, NONE, Reader, content
from images import encrypted as encrypted_fields
from images import join, point_of, public_fields, stream
from images import plain as plain_fields

BCRYPT = 1
REAL_CIPHERS = range(1, len(CIPHERS))
SALT = stream("salt", 16)


def blob_of(algorithm):
    return join(public_fields(algorithm, point_of(algorithm)))


def size_of(cipher, kdf, salt, blob, ciphertext, tag):
    """An encrypted image's size, counted field by field, of the lengths of its parts."""
    options = 0 if kdf == NONE else 4 + salt + 4
    names = (4 + len(CIPHERS[cipher][0])) + (4 + len(KDFS[kdf]))
    return 15 + names + (4 + options) + 4 + (4 + blob) + (4 + ciphertext) + tag


def good(cipher, kdf=BCRYPT, algorithm=ED25519, salt=SALT, rounds=16, blocks=3):
    """The arguments of a call that is accepted, and the size that it must have."""
    _, block, tag_length = CIPHERS[cipher]
    if kdf == NONE:
        salt, rounds = b"", 0
    blob = blob_of(algorithm)
    size = size_of(cipher, kdf, len(salt), len(blob), blocks * block, tag_length)
    ciphertext, tag = stream("ciphertext", blocks * block), stream("tag", tag_length)
    return dict(cipher=cipher, kdf=kdf, salt=salt, rounds=rounds, blob=blob, ciphertext=ciphertext, tag=tag), size


def row(title, room, arguments, reply):
    return Row(title, filled(room), [encrypted(**arguments, reply=reply)])


def refused_row(title, arguments, number, count=0, room=100):
    return row(title, room, arguments, refuses(number, count))


# ---- ciphers, KDFs, salt and rounds


def cipher_calls():
    """Each cipher with each KDF; the image that is meant is put together of its fields."""
    for cipher, kdf, blocks in itertools.product(REAL_CIPHERS, range(2), (0, 1, 5)):
        algorithm = (cipher + blocks) % 4
        arguments, size = good(cipher, kdf, algorithm, blocks=blocks)
        image = join(encrypted_fields(algorithm, CIPHERS[cipher][0], KDFS[kdf], blocks=blocks))
        after = image + filled(size + 9)[size:]
        yield Row("a cipher", filled(size + 9), [encrypted(**arguments, reply=writes(size), after=after)])
    for kdf in range(2):
        arguments, size = good(NONE, kdf)
        yield refused_row("cipher none", arguments, 3, room=size + 9)


def kdf_calls():
    """Any salt and rounds with bcrypt; none with KDF `none`."""
    for salt in (b"", b"\0", stream("salt", 8), stream("salt", 16), stream("salt", 190)):
        for rounds in (0, 1, 16, 256, 2**31, 2**32 - 1):
            arguments, size = good(7, salt=salt, rounds=rounds, blocks=1)
            yield row("salt and rounds", size + 1, arguments, writes(size))
            none = dict(arguments, kdf=NONE)
            if salt != b"" or rounds != 0:
                yield refused_row("KDF none with salt or rounds", none, 3)
            else:
                yield row("KDF none without", size, none, writes(size - 10))


# ---- blobs


def blob_in(image):
    """The blob of an image whose fields before it can be read."""
    reader = Reader(image, len(MAGIC), len(image))
    for _ in range(3):
        reader.string()
    reader.uint32()
    return content(image, reader.string())


def damaged_blobs():
    """The blobs of the images that are refused for them, with number and count."""
    for algorithm in range(4):
        for case in blob_cases(algorithm, plain_fields(algorithm)):
            yield blob_in(case.image), case.reply
    for case in mixed_blob_cases():
        yield blob_in(case.image), case.reply


def cut_blobs():
    for algorithm in range(4):
        blob = blob_of(algorithm)
        for length in range(0, len(blob), 1 if algorithm < 2 else 9):
            yield blob[:length], (1, 0, 0)


def edited_blobs():
    """Every length within a blob set wrong; the model alone says what that is."""
    for algorithm in (ED25519, 1):
        fields = public_fields(algorithm, point_of(algorithm))
        for case in length_edits("blob", fields):
            yield case.image, None


def longer_blobs():
    """A key with more after it: 6 and how much, before the size is looked at."""
    for extra in (1, 2, 255, 256, 65000):
        yield blob_of(ED25519) + b"\0" * extra, (6, extra, 0)


def blob_calls():
    for blob, reply in itertools.chain(damaged_blobs(), cut_blobs(), longer_blobs(), edited_blobs()):
        arguments, _ = good(8, blocks=1)
        meant = None if reply is None else refuses(reply[0], reply[1])
        yield row("a damaged blob", 70, dict(arguments, blob=blob), meant)


# ---- ciphertext and tag


def ciphertext_calls(cipher):
    _, block, _ = CIPHERS[cipher]
    for length in (1, 7, 8, 9, 15, 16, 17, 24, 31, 32, 33, 40, 255):
        arguments, size = good(cipher, blocks=0)
        arguments["ciphertext"] = stream("ciphertext", length)
        reply = refuses(3) if length % block else writes(size + length)
        yield row(f"ciphertext of {length}", size + length + 1, arguments, reply)


def tag_calls(cipher):
    _, _, tag_length = CIPHERS[cipher]
    for length in (0, 1, 4, 15, 16, 17, 32):
        arguments, size = good(cipher, blocks=1)
        arguments["tag"] = stream("tag", length)
        reply = writes(size) if length == tag_length else refuses(1)
        yield row(f"tag of {length}", size, arguments, reply)


# ---- size and room


def room_calls(cipher):
    arguments, size = good(cipher, kdf=cipher % 2, algorithm=cipher % 4)
    for room in (size, size + 1, size + 30):
        yield row("room", room, arguments, writes(size))
    for room in (0, 15, size // 2, size - 1):
        yield row("too little room", room, arguments, refuses(9))


def salted(cipher, size):
    """The arguments of an image of this size, with a salt that takes what is left."""
    arguments, small = good(cipher, salt=b"", blocks=2)
    return dict(arguments, salt=b"s" * (size - small))


def sealed(cipher, size):
    """The same with a long ciphertext, and a salt for the odd bytes."""
    arguments, small = good(cipher, salt=b"", blocks=0)
    rest = (size - small) % 16
    return dict(arguments, salt=b"s" * rest, ciphertext=b"\x5e" * (size - small - rest))


def limit_calls():
    for make, cipher in itertools.product((salted, sealed), (1, 6, 9)):
        most, over = make(cipher, LIMIT), make(cipher, LIMIT + 1)
        yield row("the largest", LARGE, most, writes(LIMIT))
        yield row("the largest, exact", LIMIT, most, writes(LIMIT))
        yield row("the largest, a byte too short", LIMIT - 1, most, refuses(9))
        yield row("a byte above", LARGE, over, refuses(11))
        yield row("a byte above, little room", 30, over, refuses(11))
    for name, length in itertools.product(("salt", "ciphertext"), (65520, 65536, 65552)):
        arguments, _ = good(6)
        yield row(f"{name} of {length}", LARGE, dict(arguments, **{name: b"\x5e" * length}), refuses(11))


# ---- the order of the refusals


def conditions():
    """The conditions in the rules' order: a name, the reply, and what brings it about."""
    yield "cipher none", refuses(3), lambda a: a.update(cipher=NONE)
    yield "KDF none with rounds", refuses(3), lambda a: a.update(kdf=NONE)
    yield "blob", refuses(6, 2), lambda a: a.update(blob=a["blob"] + b"\0\0")
    yield "ciphertext", refuses(3), lambda a: a.update(ciphertext=a["ciphertext"] + b"\0")
    yield "tag", refuses(1), lambda a: a.update(tag=a["tag"] + b"\0")
    yield "size", refuses(11), lambda a: a.update(ciphertext=b"\0" * 65504 + a["ciphertext"])
    yield "room", refuses(9), None


def ordered_calls():
    """Every set of conditions at once: the first of them in the order is the reply."""
    table = list(conditions())
    for count in range(len(table) + 1):
        for chosen in itertools.combinations(table, count):
            yield ordered_call(chosen)


def ordered_call(chosen):
    arguments, size = good(9, blocks=1)
    names = [name for name, _, _ in chosen]
    for _, _, bring in chosen:
        if bring is not None:
            bring(arguments)
    room = size + 30 if "size" not in names else LARGE
    reply = chosen[0][1] if chosen else writes(size)
    return row(" and ".join(names) or "no condition", 50 if "room" in names else room, arguments, reply)


def following_calls():
    """One image over another in the same buffer."""
    longer, long_size = good(9, algorithm=3)
    shorter, short_size = good(1, kdf=NONE, blocks=1)
    calls = [
        encrypted(**longer, reply=writes(long_size)),
        encrypted(**shorter, reply=writes(short_size)),
        encrypted(**dict(longer, tag=b""), reply=refuses(1)),
        encrypted(**longer, reply=writes(long_size)),
    ]
    yield Row("one image over another", filled(long_size + 9), calls)


def encrypted_rows():
    yield from cipher_calls()
    yield from kdf_calls()
    yield from blob_calls()
    for cipher in REAL_CIPHERS:
        yield from ciphertext_calls(cipher)
        yield from tag_calls(cipher)
        yield from room_calls(cipher)
    yield from limit_calls()
    yield from ordered_calls()
    yield from following_calls()
