#!/usr/bin/env python3
"""Saltorchard for Python: reads SSH private-key images (the binary openssh-key-v1 container), of one key or of up to 16, changes their
comments, joins keys to one image, adds and removes them, and takes images from and to the text form that key files have. Beside that it
keeps the settings by which machines reconnect. One file over Saltorchard's shared library, for Python 3.8 or later on x86-64 Linux.

    image = saltorchard.import_(text)                  # the text armour off
    key = saltorchard.read(image)
    print(key.algorithm, key.comment)
    text = saltorchard.export(saltorchard.change_comment(image, "oven 7, line 2"))
    both = saltorchard.write_keys([*saltorchard.keys(image), *saltorchard.keys(other)])

Every function takes any bytes-like object, and raises a Refusal for what the library refuses. Python makes copies of private bytes where
it likes, and none is wiped. As a program, `python3 saltorchard.py FILE`, it prints of a key file what Saltorchard's ./inspect does.

The library is sought at the path in SALTORCHARD_LIBRARY, beside this file, below target/installed of the repository that this file is in,
and where the system's libraries are."""
from __future__ import annotations

import ctypes
import ctypes.util
import functools
import operator
import os
import pathlib
import sys
from typing import Any, Iterable, Iterator, List, NamedTuple, Optional, Sequence, Tuple, Union, overload

__all__ = ["Image", "Key", "NewKey", "Refusal", "Setting", "add_key", "add_key_in_place", "add_rsa", "add_rsa_in_place", "change_comment",
           "change_comment_in_place", "change_comment_of", "change_comment_of_in_place", "export", "import_", "keys", "new_key",
           "new_rsa_key", "read", "read_header", "read_key", "read_section", "read_setting", "remove_key", "remove_key_in_place", "rewrite",
           "store_get", "store_move", "store_put", "write_keys", "write_setting", "DEVICES", "INTERFACE", "LIMIT", "MOST_KEYS",
           "SETTING_LEN", "STORE_LEN"]

INTERFACE = 10  # the number of the C interface that is declared here
LIMIT = 65535  # the most bytes of an image
MOST_KEYS = 16  # and its most keys
SETTING_LEN = 4  # the bytes of a setting's record
STORE_LEN = 128  # and of a store, which has a record for each device
DEVICES = 32  # how many there are: 0 to 31

Bytes = Union[bytes, bytearray, memoryview]

_NAME = f"libsaltorchard.so.{INTERFACE}"
_KINDS = ("refused", "plain", "encrypted", "header")
_ALGORITHMS = ("ssh-ed25519", "ecdsa-sha2-nistp256", "ecdsa-sha2-nistp384", "ecdsa-sha2-nistp521", "ssh-rsa")
_KDFS = ("none", "bcrypt")
_CIPHERS = ("none", "3des-cbc", "aes128-cbc", "aes192-cbc", "aes256-cbc", "aes128-ctr", "aes192-ctr", "aes256-ctr",
            "aes128-gcm@openssh.com", "aes256-gcm@openssh.com")
_SPARE = 8 + MOST_KEYS  # what a new image may have more than the old one, its comments aside: a scalar's zeros, and padding
_BESIDE = 256  # more than a key has in an image beside its parts: names, lengths, a scalar's zero, padding
_SIZES = {"ecdsa-sha2-nistp256": 32, "ecdsa-sha2-nistp384": 48, "ecdsa-sha2-nistp521": 66}  # of scalars with their leading zeros
_LONGEST_FILE = 1 << 20  # as much of a file as is looked at

# The words of saltorchard_reason in saltorchard.h.
_REASONS = (
    "accepted",
    "a field is cut short or has a wrong length, the number of keys isn't 1 to 16 or, with a cipher, isn't 1, an RSA number has too few "
    "or too many bits, there is no key of that number, the header that was handed in isn't this image's, a setting or a store has a wrong "
    "length, or the device's number is above 31",
    "the image doesn't begin with openssh-key-v1 (of a text the armour comes off first), the text isn't spelled as ssh-keygen spells it, or "
    "the padding, a point, a scalar or an RSA number isn't written as it must be",
    "fields don't fit each other: two check numbers (checkints) that differ, misused passphrase settings (KDF), a ciphertext that isn't "
    "whole blocks, or halves of an Ed25519 key that differ",
    "a cipher, KDF, algorithm or curve is unknown here, the curve isn't its algorithm's, or a setting's version or kind is unknown",
    "the private section has another public key than the header",
    "bytes are left over; the count says how many",
    "the comment isn't UTF-8",
    "the section is encrypted, and a plain one is needed",
    "the buffer that was lent is too short",
    "the image isn't as the writer would write it; once rewritten, it is",
    "the image, or what a text carries, is or would be above 65,535 bytes, or a setting's delay can't be written in its version",
)


class Refusal(Exception):
    """Why the library refused: its number, how many bytes are left over where that is the reason, and the byte of the image at which the
    failing field began, 0 where it is about the whole. Printed it is a sentence, without a byte of the image. But count and place are what
    the image's length fields say: in a damaged image such a field may lie where a private byte was, so treat them as you treat the key."""

    def __init__(self, number: int, count: int, place: int) -> None:
        super().__init__(number, count, place)
        self.number, self.count, self.place = number, count, place

    @property
    def reason(self) -> str:
        """The number in words."""
        return _REASONS[self.number] if 0 <= self.number < len(_REASONS) else "this module doesn't know the number"

    def __str__(self) -> str:
        count = f", count {self.count}" if self.count else ""
        place = f"at byte {self.place}" if self.place else "about the whole"
        return f"Refused with {self.number}{count}, {place}: {self.reason}."


# ---- the library: its structs, its functions, and where it is


class _Part(ctypes.Structure):
    _fields_ = [("start", ctypes.c_uint64), ("length", ctypes.c_uint64)]


def _fields(kind: Any, names: str) -> List[Any]:
    return [(name, kind) for name in names.split()]


class _Image(ctypes.Structure):
    _fields_ = [
        *_fields(ctypes.c_uint64, "number count at kind algorithm cipher kdf rounds checkint padding form"),
        *_fields(_Part, "blob point scalar comment salt ciphertext tag"),
        *_fields(ctypes.c_uint64, "section bits"),
        *_fields(_Part, "modulus exponent d iqmp p q"),
        *_fields(ctypes.c_uint64, "keys"),
    ]


class _Key(ctypes.Structure):
    _fields_ = [
        *_fields(ctypes.c_uint64, "number count at algorithm bits"),
        *_fields(_Part, "blob point scalar comment modulus exponent d iqmp p q"),
    ]


class _Setting(ctypes.Structure):
    _fields_ = _fields(ctypes.c_uint64, "number used kind milliseconds")


class _Reply(ctypes.Structure):
    _fields_ = _fields(ctypes.c_uint64, "number count at length")


_READ = [ctypes.c_char_p, ctypes.c_size_t]
_WRITTEN = [ctypes.c_void_p, ctypes.c_size_t]
_EDITED = [*_WRITTEN, ctypes.c_size_t]
_TABLE = [ctypes.POINTER(ctypes.c_uint64), ctypes.c_size_t]
_SET = [ctypes.c_uint8, ctypes.c_uint8, ctypes.c_uint64]
_FUNCTIONS = {
    f"saltorchard_interface_{INTERFACE}": (ctypes.c_uint64, []),
    "saltorchard_read": (_Image, _READ),
    "saltorchard_read_header": (_Image, _READ),
    "saltorchard_read_section": (_Image, [*_READ, _Image]),
    "saltorchard_read_key": (_Key, [*_READ, ctypes.c_uint64]),
    "saltorchard_write_keys": (_Reply, [*_TABLE, *_READ, ctypes.c_uint8, ctypes.c_uint32, *_WRITTEN]),
    "saltorchard_rewrite": (_Reply, _READ + _WRITTEN),
    "saltorchard_change_comment": (_Reply, _EDITED + _READ),
    "saltorchard_change_comment_of": (_Reply, [*_EDITED, ctypes.c_uint64, *_READ]),
    "saltorchard_add_key": (_Reply, [*_EDITED, ctypes.c_uint8, *_READ * 3]),
    "saltorchard_add_rsa": (_Reply, _EDITED + _READ * 7),
    "saltorchard_remove_key": (_Reply, [*_EDITED, ctypes.c_uint64]),
    "saltorchard_export": (_Reply, _READ + _WRITTEN),
    "saltorchard_import": (_Reply, _READ + _WRITTEN),
    "saltorchard_read_setting": (_Setting, _READ),
    "saltorchard_write_setting": (_Reply, _SET + _WRITTEN),
    "saltorchard_store_get": (_Setting, [*_READ, ctypes.c_uint64]),
    "saltorchard_store_put": (_Reply, [*_WRITTEN, ctypes.c_uint64, *_SET]),
    "saltorchard_store_move": (_Reply, _WRITTEN),
}


def _libraries() -> Iterator[str]:
    """The libraries that are here, the first to be taken first."""
    here = pathlib.Path(__file__).resolve().parent
    folders = [here]
    if here.parts[-2:] == ("bindings", "python"):
        folders.append(here.parent.parent / "target" / "installed" / "lib")
    yield from (str(folder / _NAME) for folder in folders if (folder / _NAME).is_file())
    installed = ctypes.util.find_library("saltorchard")
    if installed is not None:
        yield installed


@functools.lru_cache(maxsize=None)
def _library() -> Any:
    path = os.environ.get("SALTORCHARD_LIBRARY") or next(_libraries(), None)
    if path is None:
        raise OSError(f"there is no {_NAME}: install it by `bindings/install.sh PREFIX` in Saltorchard's repository, and set "
                      f"SALTORCHARD_LIBRARY to PREFIX/lib/{_NAME}")
    try:
        # The interpreter's lock is kept during a call: no other thread writes to a lent bytearray meanwhile.
        library = ctypes.PyDLL(path)
    except OSError as why:
        raise OSError(f"{path} can't be loaded ({why}); it must be the {_NAME} that bindings/install.sh makes, for x86-64 Linux") from None
    try:
        for name, (answer, arguments) in _FUNCTIONS.items():
            function = getattr(library, name)
            function.restype, function.argtypes = answer, arguments
        number = getattr(library, f"saltorchard_interface_{INTERFACE}")()
    except AttributeError:
        number = None
    if number != INTERFACE:
        raise OSError(f"{path} isn't of interface {INTERFACE}, as this module is: take both from the same version of Saltorchard")
    return library


# ---- what is handed over, and what comes back


def _bytes(given: Bytes) -> bytes:
    """The bytes themselves, or a copy of what is bytes-like."""
    if type(given) is bytes:
        return given
    try:
        return memoryview(given).tobytes()
    except TypeError:
        raise TypeError(f"a bytes-like object is needed, not {type(given).__name__}") from None


def _comment(comment: Union[str, Bytes]) -> bytes:
    """A str's UTF-8; of half a surrogate pair bytes that are none, for the library to refuse."""
    return str.encode(comment, "utf-8", "surrogatepass") if isinstance(comment, str) else _bytes(comment)


def _lent(*parts: bytes) -> List[Any]:
    """Each part and its length."""
    return [one for part in parts for one in (part, len(part))]


def _number(k: int) -> int:
    """A key's number. Those that no key has are refused alike, and a longer int wouldn't fit."""
    return k if 0 <= operator.index(k) < 2**64 else 0


def _code(algorithm: str) -> int:
    """The code of an algorithm's name; of another one that names nothing, for the library to refuse."""
    return _ALGORITHMS.index(algorithm) if algorithm in _ALGORITHMS else 255


def _accepted(answer: Any) -> Any:
    if answer.number != 0:
        raise Refusal(answer.number, answer.count, answer.at)
    return answer


def _taken(buffer: Any, reply: _Reply) -> bytes:
    """A copy of what was written to the start of the buffer."""
    return memoryview(buffer)[: _accepted(reply).length].tobytes()


def _written(function: Any, given: bytes, room: int) -> bytes:
    out = ctypes.create_string_buffer(room)
    return _taken(out, function(given, len(given), out, room))


# ---- reading


class _Copied:
    """A part of an image, as an attribute of what was read of it."""

    def __init__(self, name: str, doc: str) -> None:
        self.name, self.__doc__ = name, doc

    @overload
    def __get__(self, image: None, owner: Any = None) -> _Copied: ...

    @overload
    def __get__(self, image: _Found, owner: Any = None) -> bytes: ...

    def __get__(self, image: Optional[_Found], owner: Any = None) -> Union[_Copied, bytes]:
        if image is None:
            return self
        part = getattr(image._found, self.name)
        return image._image[part.start : part.start + part.length]


class _Found:
    """What was read of an image, and what it says of a key."""

    __slots__ = ("_image", "_found")

    def __init__(self, image: bytes, found: Any) -> None:
        self._image, self._found = image, found

    blob = _Copied("blob", "The public key as the header has it, without the length before it.")
    point = _Copied("point", "The public point; for Ed25519 the 32 public bytes. Empty for RSA.")
    modulus = _Copied("modulus", "RSA's n as stored: big-endian, with a zero before a first byte of 0x80 or more.")
    exponent = _Copied("exponent", "RSA's e, stored like the modulus.")
    private_scalar = _Copied("scalar", "Private: the ECDSA scalar without leading zeros, or Ed25519's seed. Empty for RSA.")
    private_d = _Copied("d", "Private: RSA's private exponent, stored like the modulus.")
    private_iqmp = _Copied("iqmp", "Private: RSA's inverse of q modulo p, stored like the modulus.")
    private_p = _Copied("p", "Private: RSA's first prime, stored like the modulus.")
    private_q = _Copied("q", "Private: RSA's second prime, stored like the modulus.")

    @property
    def algorithm(self) -> str:
        return _ALGORITHMS[self._found.algorithm]

    @property
    def bits(self) -> int:
        """The bits of an RSA key's modulus; 0 for another key."""
        return self._found.bits

    @property
    def comment(self) -> str:
        """The comment. A header and an encrypted image show none: it is in the section."""
        part = self._found.comment
        return self._image[part.start : part.start + part.length].decode("utf-8")


class Key(_Found):
    """One key of an image, with its own comment. It keeps the image's bytes as Image does. Its parts are copies, and empty where the key
    has none; those named private_ are of the private key. Printed it shows its algorithm alone."""

    __slots__ = ()

    def __repr__(self) -> str:
        return f"<saltorchard.Key {self.algorithm}>"


class Image(_Found):
    """An image that was read, whole or by its header. It keeps the image's bytes: those that were handed in or, where these weren't
    `bytes`, a copy, private ones included. Its parts are copies, and empty where the image has none; those named private_ are of the
    private key. Of several keys what it says of a key is the first one's. Printed it shows names and lengths alone."""

    __slots__ = ()

    salt = _Copied("salt", "The KDF's salt.")
    ciphertext = _Copied("ciphertext", "The encrypted section.")
    tag = _Copied("tag", "The tag after a ciphertext of AES-GCM.")

    @property
    def kind(self) -> str:
        """plain, encrypted, or header where the header alone was read."""
        return _KINDS[self._found.kind]

    @property
    def cipher(self) -> str:
        return _CIPHERS[self._found.cipher]

    @property
    def kdf(self) -> str:
        return _KDFS[self._found.kdf]

    @property
    def rounds(self) -> int:
        """The KDF's rounds; 0 for KDF none."""
        return self._found.rounds

    @property
    def key_count(self) -> int:
        """How many keys the image has: 1 to 16, and 1 where it is encrypted."""
        return self._found.keys

    @property
    def padding(self) -> int:
        """How many padding bytes a plain section has."""
        return self._found.padding

    @property
    def form(self) -> bool:
        """Whether the image is what the writer makes of its keys. A header alone doesn't say, and has False."""
        return self._found.form == 1

    def __repr__(self) -> str:
        keys = f", {self.key_count} keys" if self.key_count > 1 else ""
        return f"<saltorchard.Image {self.kind} {self.algorithm}{keys}, cipher {self.cipher}, kdf {self.kdf}, {len(self._image)} bytes>"


def read(image: Bytes) -> Image:
    """Reads an image, all of it. The text that most key files are goes through import_ first."""
    given = _bytes(image)
    return Image(given, _accepted(_library().saltorchard_read(given, len(given))))


def read_header(image: Bytes) -> Image:
    """Reads an image up to its public key's end: its cipher and KDF before a passphrase is asked for. What comes after isn't looked at."""
    given = _bytes(image)
    return Image(given, _accepted(_library().saltorchard_read_header(given, len(given))))


def read_section(image: Bytes, header: Image) -> Image:
    """Goes on from what read_header of this image answered, and answers what read does. Another header is refused with 1."""
    if not isinstance(header, Image):
        raise TypeError(f"the header must be what read_header answers, not {type(header).__name__}")
    given = _bytes(image)
    return Image(given, _accepted(_library().saltorchard_read_section(given, len(given), header._found)))


def read_key(image: Bytes, k: int) -> Key:
    """Reads an image and answers its key k; keys count from 1. A key that the image doesn't have is refused with 1."""
    given = _bytes(image)
    return Key(given, _accepted(_library().saltorchard_read_key(given, len(given), _number(k))))


def keys(image: Bytes) -> List[Key]:
    """Every key of an image, in their order."""
    given = _bytes(image)
    return [read_key(given, k) for k in range(1, read(given).key_count + 1)]


# ---- writing several keys


class NewKey:
    """A key that is to be written, as new_key and new_rsa_key make it. Printed it shows its algorithm alone."""

    __slots__ = ("_code", "_parts")

    def __init__(self, code: int, parts: Sequence[bytes]) -> None:
        self._code, self._parts = code, tuple(parts)

    def __repr__(self) -> str:
        return f"<saltorchard.NewKey {_ALGORITHMS[self._code] if self._code < len(_ALGORITHMS) else 'of no known kind'}>"


def new_key(algorithm: str, public: Bytes, private: Bytes, comment: Union[str, Bytes] = "") -> NewKey:
    """An Ed25519 or ECDSA key: the public bytes or the point, and the seed or the scalar with all its leading zeros."""
    code = 255 if algorithm == "ssh-rsa" else _code(algorithm)  # RSA has no such halves: refused with 4
    return NewKey(code, [_bytes(public), _bytes(private), _comment(comment), *[b""] * 6])


def new_rsa_key(n: Bytes, e: Bytes, d: Bytes, iqmp: Bytes, p: Bytes, q: Bytes, comment: Union[str, Bytes] = "") -> NewKey:
    """An RSA key of six numbers: big-endian, in the fewest bytes, a zero before a first byte of 0x80 or more."""
    return NewKey(_code("ssh-rsa"), [b"", b"", _comment(comment), *map(_bytes, (n, e, d, iqmp, p, q))])


def _again(key: Key) -> NewKey:
    """A key that was read, to be written. A scalar gets its leading zeros."""
    private = key.private_scalar.rjust(_SIZES.get(key.algorithm, 0), b"\0")
    numbers = [key.modulus, key.exponent, key.private_d, key.private_iqmp, key.private_p, key.private_q]
    return NewKey(_code(key.algorithm), [key.point, private, _comment(key.comment), *numbers])


def _new(key: Union[Key, NewKey]) -> NewKey:
    if isinstance(key, Key):
        return _again(key)
    if not isinstance(key, NewKey):
        raise TypeError(f"a Key or a NewKey is needed, not {type(key).__name__}")
    return key


def _tabled(given: Sequence[NewKey]) -> Tuple[List[int], bytes]:
    """The table of places that the library takes, 19 numbers a key, and the text that they are in."""
    table: List[int] = []
    end = 0
    for key in given:
        table.append(key._code)
        for part in key._parts:
            table += [end, len(part)]
            end += len(part)
    return table, b"".join(part for key in given for part in key._parts)


def write_keys(keys: Iterable[Union[Key, NewKey]], checkint: Optional[int] = None) -> bytes:
    """A plain image of 1 to 16 keys in this order, read from other images or new, each with its comment. Without a checkint it gets the
    first key's derived one."""
    if checkint is not None and not 0 <= operator.index(checkint) < 2**32:
        raise ValueError("a checkint has 32 bits")
    given = [_new(key) for key in keys]
    table, text = _tabled(given)
    room = min(3 * len(text) + _BESIDE * (1 + len(given)), LIMIT)
    out = ctypes.create_string_buffer(room)
    numbers = (ctypes.c_uint64 * len(table))(*table)
    write = _library().saltorchard_write_keys
    return _taken(out, write(numbers, len(table), text, len(text), checkint is None, checkint or 0, out, room))


# ---- edits: of a copy, and in place


def _edited(edit: Any, image: Bytes, more: int, *arguments: Any) -> bytes:
    """What an edit makes of a copy of the image that has so many bytes more."""
    given = _bytes(image)
    room = len(given) + more + _SPARE
    buffer = ctypes.create_string_buffer(given, room)
    return _taken(buffer, edit(buffer, room, len(given), *arguments))


def _edited_in_place(edit: Any, buffer: bytearray, length: int, *arguments: Any) -> int:
    if not isinstance(buffer, bytearray):
        raise TypeError(f"a bytearray is needed, not {type(buffer).__name__}")
    if operator.index(length) < 0:
        raise ValueError("a length can't be negative")
    lent = (ctypes.c_char * len(buffer)).from_buffer(buffer)
    # All lengths above the limit are refused alike, and a longer int wouldn't fit.
    reply = edit(lent, len(lent), min(length, LIMIT + 1), *arguments)
    del lent  # or the caller couldn't resize the buffer while a refusal is handled
    return _accepted(reply).length


def change_comment(image: Bytes, comment: Union[str, Bytes]) -> bytes:
    """A new image with this comment, of several keys the first one's. It is a copy of the old one, private bytes included; the old one
    stays as it is."""
    new = _comment(comment)
    return _edited(_library().saltorchard_change_comment, image, len(new), *_lent(new))


def change_comment_in_place(buffer: bytearray, length: int, comment: Union[str, Bytes]) -> int:
    """Changes the comment of the image that the buffer's first `length` bytes are, without a copy, and answers the new length. Where it is
    shorter, the old image's bytes past it become 0. The buffer doesn't grow, and a refusal leaves it as it was."""
    return _edited_in_place(_library().saltorchard_change_comment, buffer, length, *_lent(_comment(comment)))


def change_comment_of(image: Bytes, k: int, comment: Union[str, Bytes]) -> bytes:
    """A new image with this comment of key k; keys count from 1."""
    new = _comment(comment)
    return _edited(_library().saltorchard_change_comment_of, image, len(new), _number(k), *_lent(new))


def change_comment_of_in_place(buffer: bytearray, length: int, k: int, comment: Union[str, Bytes]) -> int:
    """The same in place, as change_comment_in_place."""
    return _edited_in_place(_library().saltorchard_change_comment_of, buffer, length, _number(k), *_lent(_comment(comment)))


def add_key(image: Bytes, algorithm: str, public: Bytes, private: Bytes, comment: Union[str, Bytes] = "") -> bytes:
    """A new image with an Ed25519 or ECDSA key after the last, under the old checkint: the public bytes or the point, and the seed or the
    scalar with all its leading zeros."""
    parts = [_bytes(public), _bytes(private), _comment(comment)]
    more = 3 * sum(map(len, parts)) + _BESIDE  # Ed25519's public bytes stand in it three times
    return _edited(_library().saltorchard_add_key, image, more, _code(algorithm), *_lent(*parts))


def add_key_in_place(buffer: bytearray, length: int, algorithm: str, public: Bytes, private: Bytes, comment: Union[str, Bytes] = "") -> int:
    """The same in place, as change_comment_in_place."""
    parts = [_bytes(public), _bytes(private), _comment(comment)]
    return _edited_in_place(_library().saltorchard_add_key, buffer, length, _code(algorithm), *_lent(*parts))


def add_rsa(image: Bytes, n: Bytes, e: Bytes, d: Bytes, iqmp: Bytes, p: Bytes, q: Bytes, comment: Union[str, Bytes] = "") -> bytes:
    """A new image with an RSA key after the last, under the old checkint, of six numbers as new_rsa_key takes them."""
    parts = [*map(_bytes, (n, e, d, iqmp, p, q)), _comment(comment)]
    return _edited(_library().saltorchard_add_rsa, image, 2 * sum(map(len, parts)) + _BESIDE, *_lent(*parts))


def add_rsa_in_place(buffer: bytearray, length: int, n: Bytes, e: Bytes, d: Bytes, iqmp: Bytes, p: Bytes, q: Bytes,
                     comment: Union[str, Bytes] = "") -> int:
    """The same in place, as change_comment_in_place."""
    parts = [*map(_bytes, (n, e, d, iqmp, p, q)), _comment(comment)]
    return _edited_in_place(_library().saltorchard_add_rsa, buffer, length, *_lent(*parts))


def remove_key(image: Bytes, k: int) -> bytes:
    """A new image without key k; keys count from 1. A missing key and the only one are refused with 1."""
    return _edited(_library().saltorchard_remove_key, image, 0, _number(k))


def remove_key_in_place(buffer: bytearray, length: int, k: int) -> int:
    """The same in place, as change_comment_in_place."""
    return _edited_in_place(_library().saltorchard_remove_key, buffer, length, _number(k))


# ---- writing anew, and the text form


def rewrite(image: Bytes) -> bytes:
    """The image in the writer's form, with its own checkint: a copy of its keys, private bytes included."""
    given = _bytes(image)
    return _written(_library().saltorchard_rewrite, given, len(given) + _SPARE)


def export(image: Bytes) -> bytes:
    """The text form of an image, or of any bytes: a copy of them, private ones included."""
    given = _bytes(image)
    signs = (len(given) + 2) // 3 * 4
    return _written(_library().saltorchard_export, given, 36 + signs + (signs + 69) // 70 + 34)


def import_(text: Bytes) -> bytes:
    """The bytes that a text carries, a copy, private ones included. Any other spelling than export's, but for CR LF, is refused with 2."""
    given = _bytes(text)
    return _written(_library().saltorchard_import, given, min(len(given), LIMIT))


# ---- reconnect settings


class Setting(NamedTuple):
    """How a controller reconnects: the kind of key, by its algorithm's name, and the delay in milliseconds."""

    kind: str
    milliseconds: int


def _setting(answer: Any) -> Setting:
    if answer.number != 0:
        raise Refusal(answer.number, 0, 0)
    return Setting(_ALGORITHMS[answer.kind], answer.milliseconds)


def _set(version: int, kind: str, milliseconds: int) -> List[int]:
    """What is to be written. Of an int that wouldn't fit one that is refused alike."""
    if operator.index(milliseconds) < 0:
        raise ValueError("a delay can't be negative")
    return [version if 0 <= operator.index(version) < 2**8 else 0, _code(kind), min(milliseconds, 2**64 - 1)]


def _device(device: int) -> int:
    """A device's number. Those that no device has are refused alike, and a longer int wouldn't fit."""
    return device if 0 <= operator.index(device) < DEVICES else DEVICES


def _stored(call: Any, store: Bytes, *arguments: Any) -> bytes:
    """What a call makes of a copy of the store."""
    given = _bytes(store)
    buffer = ctypes.create_string_buffer(given, len(given))
    return _taken(buffer, call(buffer, len(given), *arguments))


def read_setting(record: Bytes) -> Setting:
    """Reads a record of 4 bytes by itself: version, kind and delay, which version 1 has in seconds and version 2 in milliseconds."""
    given = _bytes(record)
    return _setting(_library().saltorchard_read_setting(given, len(given)))


def write_setting(version: int, kind: str, milliseconds: int) -> bytes:
    """A setting's record. A delay that the version can't hold exactly is refused with 11: version 1 takes whole seconds, and each at most
    16,777,215 of its unit."""
    out = ctypes.create_string_buffer(SETTING_LEN)
    return _taken(out, _library().saltorchard_write_setting(*_set(version, kind, milliseconds), out, SETTING_LEN))


def store_get(store: Bytes, device: int) -> Optional[Setting]:
    """A device's setting in a store of 128 bytes; None where its place is unused. Other places aren't looked at."""
    given = _bytes(store)
    answer = _library().saltorchard_store_get(given, len(given), _device(device))
    return _setting(answer) if answer.used or answer.number != 0 else None


def store_put(store: Bytes, device: int, version: int, kind: str, milliseconds: int) -> bytes:
    """A new store with this setting in the device's place, whatever stood there. Other places aren't looked at."""
    return _stored(_library().saltorchard_store_put, store, _device(device), *_set(version, kind, milliseconds))


def store_move(store: Bytes) -> bytes:
    """A new store with each setting in version 2, and unused places as they are. Where one place can't be read it is refused with 4, and
    else where one's milliseconds are too many with 11."""
    return _stored(_library().saltorchard_store_move, store)


# ---- as a program


def _report(given: bytes) -> List[str]:
    """The lines that ./inspect prints of an accepted file: kind, names, lengths, bits and form."""
    if given.startswith(b"-----BEGIN"):
        if len(given) == _LONGEST_FILE:
            raise Refusal(11, 0, 0)
        given = import_(given)
    key, size = read(given), f"image {len(given)}"
    bits = [f"bits {key.bits}"] if key.bits else []
    lines = [f"kind {key.kind}", f"algorithm {key.algorithm}", *bits, f"cipher {key.cipher}", f"kdf {key.kdf}"]
    if key.kind == "encrypted":
        return [*lines, f"ciphertext {len(key.ciphertext)}", f"tag {len(key.tag)}", size]
    return [*lines, f"comment {len(key.comment.encode())}", f"padding {key.padding}", size, f"form {'yes' if key.form else 'no'}"]


def _main(arguments: List[str]) -> int:
    if len(arguments) != 1:
        print("usage: python3 saltorchard.py FILE", file=sys.stderr)
        return 2
    try:
        with open(arguments[0], "rb") as file:
            print(*_report(file.read(_LONGEST_FILE)), sep="\n")
    except Refusal as refusal:
        print(f"refused {refusal.number} {refusal.count} {refusal.place}")
        print(f"saltorchard.py: {refusal}", file=sys.stderr)
        return 1
    except OSError as why:
        print(f"saltorchard.py: {why}", file=sys.stderr)
        return 2
    return 0


if __name__ == "__main__":
    sys.exit(_main(sys.argv[1:]))
