"""Comments that are UTF-8 by RFC 3629 and comments that aren't, with every border of its grammar."""

# Each row: the bytes before the last one or two, then those that may follow and those that may not.
BORDERS = [
    (b"", [0x00, 0x01, 0x7F], [0x80, 0xBF, 0xC0, 0xC1, 0xC2, 0xDF, 0xE0, 0xEF, 0xF0, 0xF4, 0xF5, 0xF8, 0xFC, 0xFF]),
    (b"\xc0", [], [0x80, 0xAF, 0xBF]),  # overlong
    (b"\xc1", [], [0x80, 0xBF]),  # overlong
    (b"\xc2", [0x80, 0xBF], [0x00, 0x41, 0x7F, 0xC0, 0xFF]),
    (b"\xdf", [0x80, 0xBF], [0x7F, 0xC0]),
    (b"\xe0\xa0", [0x80, 0xBF], [0x7F, 0xC0]),
    (b"\xe2\x82", [0x80, 0xAC, 0xBF], [0x20, 0x7F, 0xC0, 0xE2]),
    (b"\xed\x9f", [0x80, 0xBF], [0x7F, 0xC0]),
    (b"\xef\xbf", [0xBD, 0xBF], [0x7F, 0xC0]),
    (b"\xf0\x90\x80", [0x80, 0xBF], [0x7F, 0xC0]),
    (b"\xf3\xa0\x80", [0x80, 0xBF], [0x7F, 0xC0]),
    (b"\xf4\x8f\xbf", [0x80, 0xBF], [0x7F, 0xC0]),
]
SECOND_OF_THREE = [
    (b"\xe0", [0xA0, 0xBF], [0x7F, 0x80, 0x9F, 0xC0]),  # below a0: overlong
    (b"\xe1", [0x80, 0xBF], [0x7F, 0xC0]),
    (b"\xec", [0x80, 0xBF], [0x7F, 0xC0]),
    (b"\xed", [0x80, 0x9F], [0x7F, 0xA0, 0xAF, 0xB0, 0xBF, 0xC0]),  # from a0: surrogates
    (b"\xee", [0x80, 0xBF], [0x7F, 0xC0]),
    (b"\xef", [0x80, 0xBF], [0x7F, 0xC0]),
]
SECOND_OF_FOUR = [
    (b"\xf0", [0x90, 0xBF], [0x7F, 0x80, 0x8F, 0xC0]),  # below 90: overlong
    (b"\xf1", [0x80, 0xBF], [0x7F, 0xC0]),
    (b"\xf3", [0x80, 0xBF], [0x7F, 0xC0]),
    (b"\xf4", [0x80, 0x8F], [0x7F, 0x90, 0xBF, 0xC0]),  # from 90: above U+10FFFF
    (b"\xf5", [], [0x80, 0x8F]),
    (b"\xf7", [], [0xBF]),
]
THIRD_OF_FOUR = [
    (b"\xf0\x90", [0x80, 0xBF], [0x7F, 0xC0]),
    (b"\xf2\x80", [0x80, 0xBF], [0x7F, 0xC0]),
    (b"\xf4\x8f", [0x80, 0xBF], [0x7F, 0xC0]),
]
LONGER_FORMS = [b"\xf8\x88\x80\x80\x80", b"\xfc\x84\x80\x80\x80\x80", b"\xed\xa0\xbd\xed\xb2\x96", b"\xff\xfe"]
CHARACTERS = ["é", "ß", "炉", "–", "🥖", "\ufeff", "\0", "\U0010ffff", "\ud7ff", "\ue000"]


def bordered():
    """Each border's bytes with whether they are UTF-8."""
    rows = [(BORDERS, b""), (SECOND_OF_THREE, b"\x80"), (SECOND_OF_FOUR, b"\x80\x80"), (THIRD_OF_FOUR, b"\x80")]
    for table, after in rows:
        for before, good, bad in table:
            yield from ((before + bytes([byte]) + after, True) for byte in good)
            yield from ((before + bytes([byte]) + after, False) for byte in bad)


def cut_short():
    """Characters that end too early, at the end of the comment and before another character."""
    for character in ("é", "炉", "🥖"):
        whole = character.encode()
        for length in range(1, len(whole)):
            yield whole[:length]
            yield whole[:length] + b"oven"
            yield whole[:length] + whole


def placed():
    """One character that isn't ASCII at each place of a text, right and damaged."""
    for before in range(18):
        text = b"a" * before
        yield text + "ü".encode() + b"b" * 9, True
        yield text + b"\xfc" + b"b" * 9, False


def comments():
    """Every comment here, and whether it is UTF-8."""
    yield from bordered()
    yield from ((comment, False) for comment in [*cut_short(), *LONGER_FORMS])
    yield from ((character.encode(), True) for character in CHARACTERS)
    yield "Bäckerei Süd – Ofen 7 – 炉 🥖".encode(), True
    yield b"Ofen s\xfcd", False  # ISO 8859-1
    yield from placed()
