#!/usr/bin/env python3
"""Holds saltorchard.py to the independent model in tools/ on images of several keys: read whole and key by key, written, and edited in
place in rows on one buffer. What fails is named by its title, without a byte of an image."""
import itertools
import unittest

from trial import IMAGE, answer, need_library as setUpModule  # noqa: F401

import calls
import model
import model_edits
import model_writing
import saltorchard
from cases_edits import edit_rows
from cases_keys_writing import keys_writing_rows
from cases_several import good_rings, sealed_ones, several_cases
from cases_several_damage import several_damage_cases
from fields import ALGORITHMS, LIMIT, RSA, Refused, content
from images import join
from images_several import key, mixed, ring
from model_edits import given as given_of
from test_saltorchard import found, refused, told, wanted

KEY_PARTS = ["blob", "point", "modulus", "exponent"]
PRIVATE = ["scalar", "d", "iqmp", "p", "q"]
NAMES = [name.decode() for name in ALGORITHMS]
EDITS = {
    "change": saltorchard.change_comment_in_place,
    "change_comment_of": saltorchard.change_comment_of_in_place,
    "add_key": lambda buffer, n, code, *parts: saltorchard.add_key_in_place(buffer, n, name_of(code), *parts),
    "add_rsa": saltorchard.add_rsa_in_place,
    "remove_key": saltorchard.remove_key_in_place,
}


def name_of(code):
    return NAMES[code] if 0 <= code < len(NAMES) else "of no known kind"


def told_of(one):
    """What a key says of itself."""
    return [one.algorithm, one.bits, one.comment, *(getattr(one, part) for part in KEY_PARTS),
            *(getattr(one, f"private_{part}") for part in PRIVATE)]


def wanted_of(image, one):
    """The same by the model."""
    if one.number != 0:
        return refused(one)
    parts = [content(image, getattr(one, part)) for part in [*KEY_PARTS, *PRIVATE]]
    return [NAMES[one.algorithm], one.bits, content(image, one.comment).decode(), *parts]


def got(function, *arguments):
    said = answer(function, *arguments)
    if isinstance(said, saltorchard.Key):
        return told_of(said)
    return found(said) if isinstance(said, saltorchard.Image) else said


def new(one):
    """A key of the model's as the module takes it."""
    if one.algorithm == RSA:
        return saltorchard.new_rsa_key(*one.numbers, one.comment)
    return saltorchard.new_key(name_of(one.algorithm), one.public, one.private, one.comment)


class Same(unittest.TestCase):
    def same(self, what, one, other):
        """Equal, and said without a byte of either."""
        self.assertTrue(one == other, what)


class Reading(Same):
    def test_reads(self):
        images = 0
        for case in {case.image: case for case in itertools.chain(several_cases(), several_damage_cases())}.values():
            image = case.image
            full = wanted(image, model.read(image))
            self.same(case.title, got(saltorchard.read, image), full)
            header = answer(saltorchard.read_header, image)
            self.same(f"{case.title}, its header", got(lambda: header), wanted(image, model.read_header(image)))
            if isinstance(header, saltorchard.Image):
                self.same(f"{case.title}, its section", got(saltorchard.read_section, image, header), full)
            for k in (0, 1, 2, 3, 16, 17):
                self.same(f"{case.title}, key {k}", got(saltorchard.read_key, image, k), wanted_of(image, model.read_key(image, k)))
            images += 1
        self.assertGreater(images, 1_000)

    def test_keys(self):
        for one in itertools.chain(good_rings(), sealed_ones()):
            image = join(one.fields)
            keys = saltorchard.keys(image)
            self.assertEqual((len(keys), saltorchard.read(image).key_count), (len(one.keys), len(one.keys)))
            for k, each in enumerate(keys, 1):
                self.same(f"{one.title}, key {k}", told_of(each), wanted_of(image, model.read_key(image, k)))
            reply, after = model_writing.rewrite(image, buffer=bytes(LIMIT))
            self.same(f"{one.title}, rewritten", answer(saltorchard.rewrite, image), told(reply, after))

    def test_numbers(self):
        for k in (-1, 0, 2, 2**64, 2**64 + 1, -(2**70), 10**30):
            self.assertEqual(answer(saltorchard.read_key, IMAGE, k), (1, 0, 0))
            self.assertEqual(answer(saltorchard.remove_key, IMAGE, k), (1, 0, 0))
            self.assertEqual(answer(saltorchard.change_comment_of, IMAGE, k, ""), (1, 0, 0))
        for k in (None, "1", 1.0):
            self.assertRaises(TypeError, saltorchard.read_key, IMAGE, k)
            self.assertRaises(TypeError, saltorchard.remove_key, IMAGE, k)


class Writing(Same):
    def test_rows(self):
        """The calls of the writer whose table is one: the module makes its own. The room is its own too, so 9 isn't refused."""
        written = 0
        for row in keys_writing_rows():
            for call in row.calls:
                if call.entry != "write_keys":
                    continue
                table, text, checkint = call.arguments
                rows = [table[start : start + model_writing.ROW] for start in range(0, len(table), model_writing.ROW)]
                if len(table) % model_writing.ROW != 0 or any(one[0] >= len(ALGORITHMS) for one in rows):
                    continue
                try:
                    given = [model_writing.given_in(text, one) for one in rows]
                except Refused:
                    continue
                reply, after = model_writing.keys(given, checkint, buffer=bytes(LIMIT))
                self.same(row.title, answer(saltorchard.write_keys, [new(one) for one in given], checkint), told(reply, after))
                written += 1
        self.assertGreater(written, 300)

    def test_joined(self):
        """The keys of several images in one, and each taken out again."""
        images = [join(ring([one])) for one in mixed(16)]
        both = saltorchard.write_keys([one for image in images for one in saltorchard.keys(image)], 7)
        self.same("joined", both, join(ring(mixed(16), checkint=7)))
        for k, one in enumerate(mixed(16), 1):
            self.same(f"taken out {k}", saltorchard.write_keys([saltorchard.read_key(both, k)], 7), join(ring([one], checkint=7)))
        self.assertEqual(answer(saltorchard.write_keys, [*saltorchard.keys(both), *saltorchard.keys(IMAGE)]), (1, 0, 0))
        self.assertEqual(answer(saltorchard.write_keys, []), (1, 0, 0))

    def test_derived(self):
        for keys in (mixed(3), mixed(2, 4), [key(1, "short", first=0), key(3)]):
            reply, after = model_writing.keys(keys, None, buffer=bytes(LIMIT))
            self.same("derived", saltorchard.write_keys(map(new, keys)), after[: reply.length])

    def test_handed_in(self):
        good = new(key(0))
        for checkint in (-1, 2**32):
            self.assertRaises(ValueError, saltorchard.write_keys, [good], checkint)
        for other in (None, IMAGE, saltorchard.read(IMAGE), "key"):
            self.assertRaises(TypeError, saltorchard.write_keys, [other])
        self.assertRaises(TypeError, saltorchard.write_keys, [good], 7.5)
        for name in ("ssh-rsa", "ssh-dss", ""):
            self.assertEqual(answer(saltorchard.write_keys, [good, saltorchard.new_key(name, b"", b"", b"\xff")]), (4, 0, 0))
            self.assertEqual(answer(saltorchard.add_key, IMAGE, name, b"", b"", b"\xff"), (4, 0, 0))

    def test_repr(self):
        """With other private bytes it is the same: it is made of none of them."""
        keys = [saltorchard.read_key(join(ring([one])), 1) for one in (key(0, "a"), key(0, "b"))]
        self.assertFalse(keys[0].private_scalar == keys[1].private_scalar)
        self.assertEqual([repr(one) for one in keys], ["<saltorchard.Key ssh-ed25519>"] * 2)
        self.assertEqual(repr(new(key(4))), "<saltorchard.NewKey ssh-rsa>")
        self.assertEqual(repr(saltorchard.new_key("x", b"", b"")), "<saltorchard.NewKey of no known kind>")
        self.assertIn(", 3 keys,", repr(saltorchard.read(join(ring(mixed(3))))))
        for one in (keys[0], new(key(0))):
            self.assertFalse(hasattr(one, "__dict__"))


class Editing(Same):
    def test_rows(self):
        """Each row on one buffer, compared whole after each edit; what other entries do to it is the model's."""
        edits = 0
        for row in edit_rows():
            buffer, n = bytearray(row.buffer), row.n
            for call, reply, after in calls.answers(row):
                if call.entry in EDITS:
                    length, *rest = call.arguments
                    said = answer(EDITS[call.entry], buffer, n if length is None else length, *rest)
                    self.same(row.title, said, reply.length if reply.number == 0 else refused(reply))
                    self.same(f"{row.title}, the buffer", buffer, after)
                    edits += 1
                buffer, n = bytearray(after), reply.length if reply.number == 0 else n
        self.assertGreater(edits, 1_500)

    def test_copies(self):
        """The same of a copy, whose room is the module's own: so 9 isn't refused."""
        for count, shift in itertools.product((1, 2, 3, 15, 16), (0, 1, 4)):
            image = join(ring(mixed(count, shift)))
            room = image + bytes(LIMIT)
            for k in (0, 1, count, count + 1):
                reply, after = model_edits.remove_key(len(image), k, buffer=room)
                self.same("removed", answer(saltorchard.remove_key, image, k), told(reply, after))
                for comment in (b"", b"oven 7, line 2", b"\xff", b"c" * 300):
                    reply, after = model_edits.change_comment_of(len(image), k, comment, buffer=room)
                    self.same("changed", answer(saltorchard.change_comment_of, image, k, comment), told(reply, after))
            for one in [*mixed(5), key(2)._replace(comment=b"\xff"), key(3)._replace(private=b"")]:
                if one.algorithm == RSA:
                    reply, after = model_edits.add_rsa(len(image), *one.numbers, one.comment, buffer=room)
                    said = answer(saltorchard.add_rsa, image, *one.numbers, one.comment)
                else:
                    parts = one.public, one.private, one.comment
                    reply, after = model_edits.add_key(len(image), one.algorithm, *parts, buffer=room)
                    said = answer(saltorchard.add_key, image, name_of(one.algorithm), *parts)
                self.same("added", said, told(reply, after))

    def test_keys_of_images(self):
        """What the model says of an image's keys is what the writer is handed of them."""
        for one in good_rings():
            image = join(one.fields)
            record = model.read(image)
            given = [given_of(image, each) for each in model.keys_of(image, record)]
            self.same(one.title, answer(saltorchard.write_keys, saltorchard.keys(image), record.checkint),
                      answer(saltorchard.write_keys, map(new, given), record.checkint))


if __name__ == "__main__":
    unittest.main()
