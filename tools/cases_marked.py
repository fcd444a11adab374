"""The marked examples of docs/RULES.md, 17, that are images, M1 to M15, and images
about as large as the limit."""
import model
from fields import ED25519, LIMIT, MAGIC
from images import Case, accepted, encrypted, join, plain, point_of, put, refused, scalar_of, stream


def sized(title, fields, size, padding):
    """An accepted image that must have this size and this padding."""
    image = join(fields)
    assert (len(image), model.read(image).padding) == (size, padding), title
    return accepted(title, fields)


def marked_examples():
    yield Case("M1", b"", (1, 0, 0))
    yield Case("M2", MAGIC[:14], (1, 0, 0))
    yield Case("M3", b"openssh-key-v2\0", (2, 0, 0))
    yield Case("M4", MAGIC, (1, 0, 15))
    yield sized("M5", plain(ED25519, b""), 234, 5)
    yield sized("M6", plain(ED25519, b"oven7"), 234, 0)
    yield sized("M7", plain(ED25519, b"oven-7"), 242, 7)
    yield sized("M8", plain(1, b"", scalar=scalar_of(1, 0x7F)), 303, 0)
    yield sized("M9", plain(1, b"", scalar=b"\0" + scalar_of(1, 0x80)), 311, 7)
    yield accepted("M10", plain(1, b"", scalar=b"\0" + scalar_of(1, 0x7F)), form=False)
    yield accepted("M11", plain(1, b"", scalar=scalar_of(1, 0x80)), form=False)
    yield refused("M12", plain(1, b"", scalar=b"\1" + scalar_of(1)), 2, "section.scalar")
    yield refused("M13", plain(1, b"", scalar=stream("M13", 34)), 6, "section.scalar", 4 + 32, 2)
    yield accepted("M14", plain(1, b"", scalar=scalar_of(1)[:31]))
    yield refused("M14, zeros", plain(1, b"", scalar=bytes(31)), 2, "section.scalar")
    yield sized("M15", plain(ED25519, b"c" * 65301), 65530, 0)


def encrypted_of_size(size):
    """An encrypted image of exactly this size: the salt takes what the blocks leave."""
    fields = encrypted(ED25519, b"aes128-gcm@openssh.com", blocks=0)
    blocks, rest = divmod(size - len(join(fields)), 16)
    fields = put(fields, "ciphertext", bytes(16 * blocks))
    return put(fields, "options.salt", stream("salt", 16 + rest))


def largest_images():
    """The largest that is accepted, and the smallest that is too large. The first lacks the zero before its scalar, so
    that written again it would have 65,543 bytes."""
    largest = plain(1, b"c" * 65232, scalar=scalar_of(1, 0x80))
    assert len(join(largest)) == LIMIT
    yield accepted("plain, 65,535 bytes, not in the form", largest, form=False)
    yield Case("encrypted, 65,536 bytes", join(encrypted_of_size(LIMIT + 1)), (11, 0, 0))
    yield Case("65,536 bytes without the magic", bytes(LIMIT + 1), (11, 0, 0))


def written_images():
    """What the model's writer writes is read back and is in the form."""
    for algorithm in range(4):
        for first in (0, 0x7F, 0x80, 0xFF):
            for comment in (b"", b"oven-7", "Süd 炉".encode()):
                scalar = scalar_of(algorithm, first)
                image = model.write_plain(algorithm, point_of(algorithm), scalar, 0x01020304, comment)
                yield Case("written", image, (0, 0, 0), True)


def marked_cases():
    yield from marked_examples()
    yield from largest_images()
    yield from written_images()
