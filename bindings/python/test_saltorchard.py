#!/usr/bin/env python3
"""Holds saltorchard.py to the independent model in tools/, over all stored images, comment changes and texts, and to what it says of
itself: what it shows, and what it takes. What fails is named by its title, without a byte of an image. The library is the one in
SALTORCHARD_LIBRARY, or else one that bindings/install.sh puts into a temporary folder."""
import array
import copy
import functools
import pickle
import unittest

from trial import CORPUS, IMAGE, answer, need_library as setUpModule  # noqa: F401

import calls
import make_vectors
import model
import model_armour
import model_edits
import model_writing
import saltorchard
from fields import ALGORITHMS, CIPHER_NAMES, ED25519, KDFS, LIMIT, content
from images import join, plain, point_of, put_all, scalar_of

KINDS = {model.PLAIN: "plain", model.ENCRYPTED: "encrypted"}
PARTS = ["blob", "point", "salt", "ciphertext", "tag", "modulus", "exponent"]
PRIVATE = ["scalar", "d", "iqmp", "p", "q"]
CHECKINTS = ["section.checkint1", "section.checkint2"]


# ---- against the model


@functools.lru_cache(maxsize=None)
def cases():
    """Every stored image once."""
    return list({case.image: case for case in make_vectors.all_cases()}.values())


def refused(reply):
    return reply.number, reply.count, reply.at


def told(reply, after):
    """What a function must answer where the model gives this reply and this buffer."""
    return after[: reply.length] if reply.number == 0 else refused(reply)


def found(key):
    """What an image says of itself."""
    names = [key.kind, key.algorithm, key.cipher, key.kdf, key.rounds, key.bits, key.padding, key.form, key._found.keys, key.comment]
    return names + [getattr(key, part) for part in PARTS] + [getattr(key, f"private_{part}") for part in PRIVATE]


def wanted(image, said):
    """The same by the model, of a read's answer or of a header's, which has no kind."""
    if said.number != 0:
        return refused(said)
    whole = isinstance(said, model.Answer)
    names = [KINDS[said.kind] if whole else "header", ALGORITHMS[said.algorithm].decode(), CIPHER_NAMES[said.cipher].decode()]
    names += [KDFS[said.kdf].decode(), said.rounds, said.bits, said.padding if whole else 0, whole and model.form(image), said.keys]
    parts = [content(image, getattr(said, part, (0, 0))) for part in ["comment", *PARTS, *PRIVATE]]
    return names + [parts[0].decode()] + parts[1:]


def got(function, *arguments):
    key = answer(function, *arguments)
    return found(key) if isinstance(key, saltorchard.Image) else key


class AgainstTheModel(unittest.TestCase):
    def same(self, what, one, other):
        """Equal, and said without a byte of either."""
        self.assertTrue(one == other, what)

    def test_reads(self):
        self.assertGreater(len(cases()), 8_000)
        for case in cases():
            full = wanted(case.image, model.read(case.image))
            self.same(case.title, got(saltorchard.read, case.image), full)
            header = answer(saltorchard.read_header, case.image)
            self.same(f"{case.title}, its header", got(lambda: header), wanted(case.image, model.read_header(case.image)))
            if isinstance(header, saltorchard.Image):
                self.same(f"{case.title}, its section", got(saltorchard.read_section, case.image, header), full)

    def test_reports(self):
        for case in cases():
            said = answer(saltorchard._report, case.image)
            self.same(case.title, said if isinstance(said, list) else ["refused %d %d %d" % said], model.report(case.image).splitlines())

    def test_headers_of_others(self):
        headers = {name: saltorchard.read_header((CORPUS / f"{name}.bin").read_bytes())
                   for name in ("keygen-ed25519-ascii", "keygen-p256-ascii", "keygen-ed25519-aes128-ctr")}
        for name, header in headers.items():
            for other in headers.keys() - {name}:
                image = (CORPUS / f"{other}.bin").read_bytes()
                self.assertEqual(answer(saltorchard.read_section, image, header), (1, 0, 0))
        self.assertEqual(answer(saltorchard.read_section, IMAGE, saltorchard.read(IMAGE)), (1, 0, 0))

    def test_other_key_counts(self):
        for count in (0, 2, 16, 17, 2**32 + 1, 2**63):
            header = saltorchard.read_header(IMAGE)
            header._found.keys = count
            self.assertEqual(answer(saltorchard.read_section, IMAGE, header), (1, 0, 0))

    def test_changes_in_place(self):
        """Each row on one buffer, compared whole after each change; what other entries do to it is the model's."""
        changes = 0
        for row in make_vectors.all_rows():
            buffer, n = bytearray(row.buffer), row.n
            for call, reply, after in calls.answers(row):
                if call.entry == "change":
                    length = n if call.arguments[0] is None else call.arguments[0]
                    said = answer(saltorchard.change_comment_in_place, buffer, length, call.arguments[1])
                    self.same(row.title, said, reply.length if reply.number == 0 else refused(reply))
                    self.same(f"{row.title}, the buffer", buffer, after)
                    changes += 1
                buffer, n = bytearray(after), reply.length if reply.number == 0 else n
        self.assertGreater(changes, 3_000)

    def test_changes(self):
        comments = ["", "oven 7, line 2", "four à pain, 炉 🥖", "c" * 300, "c" * 65_535, b"\xff", "half \ud83e"]
        for case, comment in ((case, comment) for case in make_vectors.corpus() for comment in comments):
            new = comment.encode("utf-8", "surrogatepass") if isinstance(comment, str) else comment
            reply, after = model_edits.change(len(case.image), new, buffer=case.image + bytes(LIMIT))
            self.same(case.title, answer(saltorchard.change_comment, case.image, comment), told(reply, after))

    def test_rewrites(self):
        for case in cases():
            reply, after = model_writing.rewrite(case.image, buffer=bytes(LIMIT))
            self.same(case.title, answer(saltorchard.rewrite, case.image), told(reply, after))

    def test_armour(self):
        """The room is the module's own, so no text is refused with 9."""
        for case in make_vectors.armour_cases():
            entry, function = {"export": (model_armour.export, saltorchard.export),
                               "import": (model_armour.import_, saltorchard.import_)}[case.entry]
            reply, after = entry(case.given, buffer=bytes(90_000))
            self.same(case.title, answer(function, case.given), told(reply, after))


# ---- what is handed in, and what is shown


class Shown(unittest.TestCase):
    def test_refusal(self):
        refusal = saltorchard.Refusal(6, 2, 242)
        self.assertEqual(answer(saltorchard.read, IMAGE + b"xx"), (6, 2, 242))
        self.assertEqual(str(refusal), "Refused with 6, count 2, at byte 242: bytes are left over; the count says how many.")
        self.assertEqual(str(saltorchard.Refusal(8, 0, 0)),
                         "Refused with 8, about the whole: the section is encrypted, and a plain one is needed.")
        for number in (-1, 12, 2**64 - 1):
            self.assertEqual(saltorchard.Refusal(number, 0, 0).reason, "this module doesn't know the number")
        for other in (copy.copy(refusal), pickle.loads(pickle.dumps(refusal))):
            self.assertEqual((type(other), str(other)), (saltorchard.Refusal, str(refusal)))

    def test_repr(self):
        """With another seed and other checkints it is the same: it is made of none of them."""
        fields = plain(ED25519)
        others = {"section.scalar": scalar_of(ED25519, 0x11) + point_of(ED25519), **dict.fromkeys(CHECKINTS, b"abcd")}
        keys = [saltorchard.read(join(one)) for one in (fields, put_all(fields, others))]
        self.assertFalse(keys[0].private_scalar == keys[1].private_scalar)
        self.assertEqual(repr(keys[0]), repr(keys[1]))
        self.assertEqual(repr(saltorchard.read(IMAGE)), "<saltorchard.Image plain ssh-ed25519, cipher none, kdf none, 242 bytes>")
        self.assertFalse(hasattr(keys[0], "__dict__"))


class HandedIn(unittest.TestCase):
    def test_bytes_like(self):
        for given in (bytearray(IMAGE), memoryview(IMAGE), array.array("B", IMAGE), memoryview(IMAGE + IMAGE)[: len(IMAGE)]):
            self.assertEqual(found(saltorchard.read(given)), found(saltorchard.read(IMAGE)))
            self.assertEqual(saltorchard.import_(saltorchard.export(given)), IMAGE)
        buffer = bytearray(IMAGE)
        key = saltorchard.read(buffer)
        buffer[:] = bytes(len(buffer))
        self.assertEqual(key.comment, saltorchard.read(IMAGE).comment)

    def test_others(self):
        header = saltorchard.read_header(IMAGE)
        functions = [saltorchard.read, saltorchard.read_header, saltorchard.rewrite, saltorchard.export, saltorchard.import_,
                     lambda given: saltorchard.read_section(given, header), lambda given: saltorchard.change_comment(given, "")]
        for function in functions:
            for given in (None, 7, 7.5, "openssh-key-v1", [1, 2], object(), bytes, {}):
                self.assertRaises(TypeError, function, given)
        for given in (None, 7, [1], object()):
            self.assertRaises(TypeError, saltorchard.change_comment, IMAGE, given)
            self.assertRaises(TypeError, saltorchard.read_section, IMAGE, given)
            self.assertRaises(TypeError, saltorchard.change_comment_in_place, bytearray(IMAGE), len(IMAGE), given)
        for given in (IMAGE, memoryview(bytearray(IMAGE)), None, "text"):
            self.assertRaises(TypeError, saltorchard.change_comment_in_place, given, len(IMAGE), "")
        for length, error in ((None, TypeError), (1.0, TypeError), ("1", TypeError), (-1, ValueError)):
            self.assertRaises(error, saltorchard.change_comment_in_place, bytearray(IMAGE), length, "")

    def test_lengths(self):
        for length in (LIMIT + 1, 2**32, 2**64 - 1, 2**64, 2**64 + len(IMAGE), 2**200):
            self.assertEqual(answer(saltorchard.change_comment_in_place, bytearray(IMAGE), length, ""), (11, 0, 0))
        self.assertEqual(answer(saltorchard.change_comment_in_place, bytearray(), 0, ""), (1, 0, 0))

        class Liar(bytes):
            def __len__(self):
                return 2**40

        self.assertEqual(found(saltorchard.read(Liar(IMAGE))), found(saltorchard.read(IMAGE)))

    def test_lent_buffer(self):
        """It is the caller's again after a call, also while the refusal is handled; and a comment may be a view of it."""
        buffer = bytearray(IMAGE)
        try:
            saltorchard.change_comment_in_place(buffer, len(IMAGE), b"\xff")
        except saltorchard.Refusal:
            buffer.extend(bytes(40))
        with memoryview(buffer) as view:
            length = saltorchard.change_comment_in_place(buffer, len(IMAGE), view[:14])
        self.assertEqual(saltorchard.read(buffer[:length]).comment, "openssh-key-v1")


if __name__ == "__main__":
    unittest.main()
