"""Good images damaged: cut off, their lengths set wrong, a byte more or less in each part, bytes changed at random."""
import hashlib

from images import ALL_ENCRYPTED, ALL_PLAIN, GOOD, Case, encoded, encrypted, inner, join, longer, padded, place
from images import put, put_length, shorter, spot, spots


# ---- cut off


def truncations(title, fields):
    """The image ends too early, at every byte: refused where the outermost field that is cut begins."""
    image = join(fields)
    top = [s for s in spots(fields) if "." not in s.path]
    for length in range(len(image)):
        cut = next(s.start for s in top if s.start + len(encoded(s.field)) > length)
        yield Case(f"{title}, first {length}", image[:length], (1, 0, cut))


def part_truncations(title, fields, part, step=1):
    """One part ends too early, its length says so: refused where the field within that is cut begins."""
    whole = inner(spot(fields, part).field)
    start = place(fields, part) + 4
    within = [s for s in spots(fields) if s.path.startswith(part + ".")]
    for length in range(0, len(whole), step):
        cut = next(s.start for s in within if s.start + len(encoded(s.field)) > start + length)
        yield Case(f"{title}, {part} of {length}", join(put(fields, part, whole[:length])), (1, 0, cut))


def all_truncations():
    for title, fields in GOOD.items():
        yield from truncations(title, fields)
    for title, fields in ALL_PLAIN.items():
        yield from part_truncations(title, fields, "section", 8)
    for title, fields in ALL_ENCRYPTED.items():
        if "bcrypt" in title:
            yield from part_truncations(title, fields, "options")
    for algorithm in (0, 1):
        small = encrypted(algorithm, b"3des-cbc", kdf=b"none", blocks=1)
        yield from part_truncations(f"small {algorithm}", small, "blob")


# ---- lengths set wrong


def length_edits(title, fields):
    """Every length of the image set to other numbers, all else as it was."""
    for path, field, start, end in spots(fields):
        if field.counted:
            length = len(inner(field))
            rest = end - start - 4  # up to the end of the enclosing part
            for wrong in (0, 1, length - 1, length + 1, rest, rest + 1, 2**31, 2**32 - 1):
                if wrong not in (-1, length):
                    yield Case(f"{title}, {path} says {wrong}", join(put_length(fields, path, wrong)))


# ---- a byte more or less in a part


def resized(title, fields):
    """A byte more at the end of each part, and a byte less, all lengths right; in the section also padded again."""
    for path, field, _, _ in spots(fields):
        for changed in resized_part(fields, path, field):
            yield Case(f"{title}, {path} resized", join(changed))
            if path.startswith("section."):
                yield Case(f"{title}, {path} resized and padded", join(padded(changed)))
    yield Case(f"{title}, a byte after the image", join(fields) + b"\0")


def resized_part(fields, path, field):
    yield longer(fields, path, b"\0")
    if len(inner(field)) > 0 and not isinstance(field.content, list):
        yield shorter(fields, path)


# ---- bytes changed


class Dice:
    """Numbers that look random and are the same each time, on every Python."""

    def __init__(self, label):
        self.label, self.turn = label, 0

    def below(self, bound):
        self.turn += 1
        digest = hashlib.sha256(f"{self.label} {self.turn}".encode()).digest()
        return int.from_bytes(digest[:8], "big") % bound


def one_byte(title, image, times):
    dice = Dice(title + " one")
    for _ in range(times):
        at = dice.below(len(image))
        yield Case(f"{title}, byte {at}", flipped(image, at, 1 + dice.below(255)))


def flipped(image, at, bits):
    return image[:at] + bytes([image[at] ^ bits]) + image[at + 1 :]


def several_bytes(title, image, times):
    """Some bytes overwritten, taken out or put in."""
    dice = Dice(title + " several")
    for turn in range(times):
        damaged = image
        for _ in range(1 + dice.below(4)):
            damaged = edited(damaged, dice)
        yield Case(f"{title}, damage {turn}", damaged)


def edited(image, dice):
    at = dice.below(len(image) - 8)
    length = 1 + dice.below(8)
    new = bytes(dice.below(256) for _ in range(length))
    return [
        flipped(image, at, 1 + dice.below(255)),
        image[:at] + new + image[at + length :],
        image[:at] + image[at + length :],
        image[:at] + new + image[at:],
    ][dice.below(4)]


def damages():
    yield from all_truncations()
    for title, fields in GOOD.items():
        yield from length_edits(title, fields)
        yield from resized(title, fields)
        yield from several_bytes(title, join(fields), 25)
        yield from one_byte(title, join(fields), 25)
