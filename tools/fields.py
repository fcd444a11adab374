"""Names, and how a field is read and written: the ground that model.py stands on, from docs/RULES.md, 3 and 4.9."""

LIMIT = 65535
MAGIC = b"openssh-key-v1\0"

# Names in the order of their codes: the code is the place in the list.
ALGORITHMS = [b"ssh-ed25519", b"ecdsa-sha2-nistp256", b"ecdsa-sha2-nistp384", b"ecdsa-sha2-nistp521", b"ssh-rsa"]
CURVES = {b"nistp256": 1, b"nistp384": 2, b"nistp521": 3}  # the algorithm that the curve belongs to
SIZES = {1: 32, 2: 48, 3: 66}
KDFS = [b"none", b"bcrypt"]
CIPHERS = [  # name, block size, tag length
    (b"none", 8, 0),
    (b"3des-cbc", 8, 0),
    (b"aes128-cbc", 16, 0),
    (b"aes192-cbc", 16, 0),
    (b"aes256-cbc", 16, 0),
    (b"aes128-ctr", 16, 0),
    (b"aes192-ctr", 16, 0),
    (b"aes256-ctr", 16, 0),
    (b"aes128-gcm@openssh.com", 16, 16),
    (b"aes256-gcm@openssh.com", 16, 16),
]
CIPHER_NAMES = [name for name, _, _ in CIPHERS]
ED25519, RSA, NONE = 0, 4, 0
ABSENT = (0, 0)


class Refused(Exception):
    """A refusal: its number, the byte at which the failing field began, and the count (number 6 only)."""

    def __init__(self, number, at, count=0):
        super().__init__(number, at, count)
        self.number, self.at, self.count = number, at, count


class Reader:
    """A reading place in one part of the image, the bytes from `place` up to `end`."""

    def __init__(self, image, place, end):
        self.image, self.place, self.end = image, place, end

    def left(self):
        return self.end - self.place

    def uint32(self):
        if self.left() < 4:
            raise Refused(1, self.place)
        self.place += 4
        return int.from_bytes(self.image[self.place - 4 : self.place], "big")

    def string(self):
        """A uint32 length and that many bytes; answers them as a part."""
        field = self.place
        length = self.uint32()
        if length > self.left():
            raise Refused(1, field)
        self.place += length
        return (field + 4, length)

    def fixed(self, k):
        """A string that must be of length k."""
        field = self.place
        start, length = self.string()
        if length < k:
            raise Refused(1, field)
        if length > k:
            raise Refused(6, field + 4 + k, length - k)
        return (start, length)

    def inside(self, part):
        start, length = part
        return Reader(self.image, start, start + length)

    def finish(self):
        if self.left() > 0:
            raise Refused(6, self.place, self.left())


def content(image, part):
    start, length = part
    return image[start : start + length]


# ---- what is written


def uint32(number):
    return number.to_bytes(4, "big")


def string(*parts):
    joined = b"".join(parts)
    return uint32(len(joined)) + joined
