"""One image or more for each sentence of docs/RULES.md, 3.5 and 6.7, on mpints and sizes, with the replies meant for it."""
import itertools

from cases_halves import READ, answered_alike
from images import accepted, longer, mpint, put, put_length, refused
from images_rsa import E, high, in_blob, in_both, in_section, low, number, numbers, rsa_encrypted, rsa_plain
from images_rsa import small_numbers
from rsa import BLOB_NUMBERS, NUMBERS

OTHERS = [name for name in NUMBERS if name != "n"]
TOO_SMALL, TOO_LARGE = [8, 512, 1016, 1022, 1023], [8193, 8194, 8200, 16384]
BORDERS = {  # moduli at both ends
    "2**1023 - 1": (2**1023 - 1, False),
    "2**1023": (2**1023, True),
    "2**1024 - 1": (2**1024 - 1, True),
    "2**1024": (2**1024, True),
    "2**8191": (2**8191, True),
    "2**8192 - 1": (2**8192 - 1, True),
    "2**8192": (2**8192, False),
}


def with_header_read(cases):
    """Cases whose header is good, whatever the section holds."""
    for case in cases:
        yield case._replace(header=READ)


# ---- the mpint


def wrong_forms(length):
    """Contents that are no positive number in as few bytes as can be."""
    yield "empty", b""
    yield "a single zero", b"\0"
    yield "two zeros", b"\0\0"
    yield "a needless zero", b"\0" + low(length)
    yield "a needless zero before 7f", b"\0\x7f" + low(length)
    yield "a needless zero before 01", b"\0\1"
    yield "a zero too many", b"\0\0" + high(length)
    yield "a missing zero", high(length)
    yield "a missing zero before 80", b"\x80" + bytes(length)
    yield "80 alone", b"\x80"
    yield "ff alone", b"\xff"
    yield "all zeros", bytes(length)


def right_forms():
    """Small contents that are right."""
    yield from (b"\1", b"\x7f", b"\0\x80", b"\0\xff", b"\1\0", b"\x7f\xff", b"\0\x80\0")


def blob_form_cases(fields):
    for name in BLOB_NUMBERS:
        for title, content in wrong_forms(129 if name == "n" else 3):
            yield refused(f"blob {name}: {title}", in_blob(fields, {name: content}), 2, f"blob.{name}")


def section_form_cases(fields):
    lengths = dict(n=128, e=3, d=128, iqmp=64, p=64, q=64)
    for name in NUMBERS:
        for title, content in wrong_forms(lengths[name]):
            yield refused(f"{name}: {title}", in_section(fields, {name: content}), 2, f"section.{name}")


def right_form_cases(fields):
    for name, content in itertools.product(OTHERS, right_forms()):
        yield accepted(f"{name} is {content.hex()}", in_both(fields, {name: content}))
    for name in ("d", "iqmp", "p", "q"):
        for content in (low(64), b"\0" + high(64)):
            yield accepted(f"{name} begins {content[:2].hex()}", in_section(fields, {name: content}))
    for content in (low(129), b"\0" + high(128)):
        yield accepted(f"n begins {content[:2].hex()}", in_both(fields, {"n": content}))


# ---- sizes


def modulus_cases():
    """The modulus in the blob and in the section, its blob being read first; and in the section alone."""
    for bits in TOO_SMALL + TOO_LARGE:
        key = small_numbers(bits)
        yield from answered_alike([refused(f"a modulus of {bits} bits", rsa_plain(key), 1, "blob.n")])
        alone = rsa_plain(key, public=numbers())
        yield from with_header_read([refused(f"the section's modulus of {bits} bits", alone, 1, "section.n")])
    for title, (value, right) in BORDERS.items():
        fields = rsa_plain(dict(small_numbers(1024), n=mpint(value)))
        yield accepted(title, fields) if right else refused(title, fields, 1, "blob.n")
    for bits in (1024, 1025, 1031, 1032, 1033, 1536, 2047, 2048, 8184, 8185, 8191, 8192):
        yield accepted(f"a modulus of {bits} bits", rsa_plain(small_numbers(bits)))


def sealed_modulus_cases():
    """The same in encrypted images, which have the blob's numbers alone."""
    for bits in TOO_SMALL[1:] + TOO_LARGE:
        fields = rsa_encrypted(b"aes256-ctr", blocks=1, key=small_numbers(bits))
        yield refused(f"a sealed modulus of {bits} bits", fields, 1, "blob.n")
    for bits in (1024, 1025, 8191, 8192):
        yield accepted(f"a sealed modulus of {bits} bits", rsa_encrypted(b"aes256-ctr", blocks=1, key=small_numbers(bits)))


def blob_size_cases(fields):
    """The exponent beside a modulus of 1,024 bits."""
    huge = b"\1" + bytes(20000)
    yield refused("a huge n", in_blob(fields, {"n": huge}), 1, "blob.n")
    yield refused("a huge e", in_blob(fields, {"e": huge}), 1, "blob.e")
    for bits in (1025, 1026, 1032, 2048, 8193):
        yield refused(f"e of {bits} bits", in_blob(fields, {"e": number(bits)}), 1, "blob.e")
    for title, e, n, first in (
        ("e longer than n, which is too small", 1023, 1022, "e"),
        ("e as long as n, which is too small", 1022, 1022, "n"),
        ("e shorter than n, which is too small", 1021, 1022, "n"),
        ("e longer than n, which is too large", 8194, 8193, "e"),
        ("e as long as n, which is too large", 8193, 8193, "n"),
    ):
        changes = {"e": number(e, "e"), "n": number(n)}
        yield refused(title, in_blob(fields, changes), 1, f"blob.{first}")


def section_size_cases(bits):
    """Every other number, of as many bits as the modulus, of one more, and of many more."""
    fields = rsa_plain(numbers(bits))
    for name in OTHERS:
        for size in (bits - 1, bits):
            yield accepted(f"{name} of {size} bits", in_both(fields, {name: number(size)}))
        for size in (bits + 1, bits + 8) if bits > 1024 else (bits + 1, bits + 7, bits + 8, bits + 9, 2 * bits, 8193):
            yield refused(f"{name} of {size} bits", in_section(fields, {name: number(size)}), 1, f"section.{name}")


def border_size_cases():
    """A modulus of all ones, and others of as many bits that are larger or smaller: sizes count, not values."""
    for n, value in ((2**1023, 2**1024 - 1), (2**1024 - 1, 2**1023)):
        fields = rsa_plain(numbers(n=mpint(n)))
        for name in OTHERS:
            yield accepted(f"{name} beside n", in_both(fields, {name: mpint(value)}))
            yield refused(f"{name} is 2**1024", in_section(fields, {name: mpint(2**1024)}), 1, f"section.{name}")


def own_modulus_cases():
    """The sizes are held to the modulus of that blob or keypair, not to the other one's."""
    for name in OTHERS:
        wide = in_section(rsa_plain(numbers(2048)), dict(numbers(), **{name: number(1500)}))
        yield refused(f"{name} longer than its own n, not than the blob's", wide, 1, f"section.{name}")
        narrow = in_section(rsa_plain(), dict(numbers(2048), **{name: number(1500)}))
        yield refused(f"{name} longer than the blob's n, not than its own", narrow, 5, "section.name")


def extreme_cases():
    huge = b"\1" + bytes(20000)
    yield refused("a huge d", in_section(rsa_plain(), {"d": huge}), 1, "section.d")
    yield refused("a huge n in the section", in_section(rsa_plain(), {"n": huge, "q": huge}), 1, "section.n")
    for bits in (1024, 8192):
        most = {name: number(bits, name) for name in NUMBERS}
        yield accepted(f"all of {bits} bits", rsa_plain(most))
    yield refused("all are 1", rsa_plain(dict.fromkeys(NUMBERS, b"\1"), public=numbers()), 1, "section.n")
    yield accepted("all but n are 1", rsa_plain(dict(dict.fromkeys(OTHERS, b"\1"), n=number(1024))))


# ---- several at once


def form_and_size(name):
    """A wrong form for a number and a size outside for it, beside a modulus of 1,024 bits."""
    return b"\0" + low(20), number(1023) if name == "n" else number(1025)


def pair_cases(fields, names, put_in, part):
    """Two numbers are wrong. All are read before a size is looked at: a wrong form is said first, wherever it stands."""
    for one, other in itertools.combinations(names, 2):
        (form, size), (other_form, other_size) = form_and_size(one), form_and_size(other)
        for contents, number_of, at in (
            ({one: form, other: other_form}, 2, one),
            ({one: form, other: other_size}, 2, one),
            ({one: size, other: other_form}, 2, other),
            ({one: size, other: other_size}, 1, one),
        ):
            title = f"{part}: {one} and {other} are wrong"
            yield refused(title, put_in(fields, contents), number_of, f"{part}.{at}")


def cut_cases(fields):
    """A later number runs past the section: that is said before a size, and after a wrong form."""
    for one, other in itertools.combinations(NUMBERS, 2):
        form, size = form_and_size(one)
        for content, number_of, at in ((size, 1, other), (form, 2, one)):
            wrong = put_length(in_section(fields, {one: content}), f"section.{other}", 60000)
            yield refused(f"{one} is wrong and {other} runs past the section", wrong, number_of, f"section.{at}")


def blob_order_cases(fields):
    """Sizes come before the blob's end, and the numbers' strings before their forms."""
    form, size = form_and_size("n")
    for extra in (1, 4, 8):
        yield refused("bytes left", longer(fields, "blob", bytes(extra)), 6, "blob.extra", 0, extra)
        left = longer(in_blob(fields, {"n": size}), "blob", bytes(extra))
        yield refused("n too small, bytes left", left, 1, "blob.n")
        left = longer(in_blob(fields, {"e": number(1025)}), "blob", bytes(extra))
        yield refused("e too large, bytes left", left, 1, "blob.e")
        left = longer(in_blob(fields, {"n": form}), "blob", bytes(extra))
        yield refused("n of a wrong form, bytes left", left, 2, "blob.n")
    for length in (130, 2**16, 2**32 - 1):
        for e, number_of, at in ((E, 1, "n"), (number(1025), 1, "n"), (b"", 2, "e")):
            past = put_length(in_blob(fields, {"e": e}), "blob.n", length)
            yield refused("n runs past the blob", past, number_of, f"blob.{at}")
    for length in (2**16, 2**32 - 1):
        yield refused("e runs past the blob", put_length(fields, "blob.e", length), 1, "blob.e")
    yield refused("no n", put(fields, "blob", fields_without(fields, "n")), 1, "blob.e", 4 + len(E))


def fields_without(fields, name):
    blob = next(field for field in fields if field.name == "blob")
    return [field for field in blob.content if field.name != name]


def all_at_once_cases(fields):
    sizes = {name: form_and_size(name)[1] for name in NUMBERS}
    forms = {name: form_and_size(name)[0] for name in NUMBERS}
    yield refused("all sizes outside", in_section(fields, sizes), 1, "section.n")
    yield refused("all forms wrong", in_section(fields, forms), 2, "section.n")
    yield refused("all sizes outside, the last form wrong", in_section(fields, dict(sizes, q=forms["q"])), 2, "section.q")


def blob_cases(fields):
    yield from blob_form_cases(fields)
    yield from blob_size_cases(fields)
    yield from blob_order_cases(fields)
    yield from pair_cases(fields, BLOB_NUMBERS, in_blob, "blob")


def rsa_cases():
    fields = rsa_plain()
    for header in (fields, rsa_encrypted(b"aes256-ctr", blocks=1)):
        yield from answered_alike(blob_cases(header))
    yield from modulus_cases()
    yield from answered_alike(sealed_modulus_cases())
    sections = [section_form_cases(fields), right_form_cases(fields), section_size_cases(1024), section_size_cases(2048)]
    sections += [border_size_cases(), own_modulus_cases(), extreme_cases(), pair_cases(fields, NUMBERS, in_section, "section")]
    sections += [cut_cases(fields), all_at_once_cases(fields)]
    yield from with_header_read(itertools.chain(*sections))
