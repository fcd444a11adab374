#!/usr/bin/env python3
"""Files of several keys, read by another program: Erlang's ssh (Debian's package erlang-ssh) is the one that was found to take them.

    python3 tools/erlang_keys.py

The keys are the corpus's plain ones of ssh-keygen, in lists of 1, 2, 3, 5 and 16: each list is written by the model, put into its
armour, and decoded by `ssh_file:decode`, which must hand out the same keys, the last first, every number of them. It exits with 1 if one
differs; without Erlang it says so and ends. Nothing is printed of a key.
"""
import pathlib
import shutil
import subprocess
import sys
import tempfile

import model
import model_writing
from against_ssh_keygen import armour
from fetch_corpus import CORPUS
from fields import LIMIT, RSA, content
from images import minimal
from model_writing import Given

CHECKINT = 0x0B5E55ED
LISTS = (1, 2, 3, 5, 16)

# A line for each private key of each file: its numbers in the order of the records of public_key.
DECODE = """
Hex = fun(Bytes) -> binary_to_list(binary:encode_hex(iolist_to_binary(Bytes))) end,
Line = fun({K, _}) when element(1, K) == 'ECPrivateKey' -> ["ec ", Hex(element(3, K)), " ", Hex(element(5, K)), "\\n"];
          ({K, _}) when element(1, K) == 'RSAPrivateKey' ->
              ["rsa", [[" ", integer_to_list(element(I, K))] || I <- [3, 4, 5, 10, 6, 7]], "\\n"];
          (_) -> "" end,
[begin
     {ok, Text} = file:read_file(File),
     io:put_chars(["file\\n", case ssh_file:decode(Text, openssh_key_v1) of {error, _} -> "refused\\n"; Keys -> lists:map(Line, Keys) end])
 end || File <- init:get_plain_arguments()], halt().
"""


def corpus_keys():
    for path in sorted(CORPUS.glob("keygen-*.bin")):
        image = path.read_bytes()
        key = model.read(image)
        if key.kind == model.PLAIN:
            public, private, comment = (content(image, part) for part in (key.point, key.scalar, key.comment))
            numbers = tuple(content(image, part) for part in (key.modulus, key.exponent, key.d, key.iqmp, key.p, key.q))
            yield Given(key.algorithm, public, private, comment, numbers)


def filled(given):
    """As the writer takes it: a scalar of SIZE bytes."""
    if given.algorithm == RSA:
        return given
    return given._replace(private=given.private.rjust(model_writing.lengths_of(given.algorithm)[1], b"\0"))


def meant(given):
    """The line that Erlang must print: a scalar as it is stored."""
    if given.algorithm == RSA:
        return " ".join(["rsa", *(str(int.from_bytes(number, "big")) for number in given.numbers)])
    return f"ec {minimal(given.algorithm, given.private).hex().upper()} {given.public.hex().upper()}"


def lists(keys):
    """Each run of so many keys that fits into one image, beginning at every key."""
    ring = keys * 2
    for count in LISTS:
        for first in range(len(keys)):
            chosen = [filled(key) for key in ring[first : first + count]]
            reply, buffer = model_writing.keys(chosen, CHECKINT, buffer=bytes(LIMIT))
            if reply.number == 0:
                yield chosen, buffer[: reply.length]


def decoded(texts):
    with tempfile.TemporaryDirectory() as folder:
        paths = [pathlib.Path(folder) / str(number) for number in range(len(texts))]
        for path, text in zip(paths, texts):
            path.write_bytes(text)
        words = ["erl", "-noshell", "-eval", DECODE, "-extra", *map(str, paths)]
        said = subprocess.run(words, capture_output=True, text=True, check=True).stdout
    return [file.splitlines() for file in said.split("file\n")[1:]]


def main():
    if shutil.which("erl") is None:
        print("erlang_keys: there is no Erlang here (Debian's package erlang-ssh), so nothing was compared")
        return 0
    model.MOST_KEYS = model.KEY_ROOM
    made = list(lists(list(corpus_keys())))
    answers = decoded([armour(image) for _, image in made])
    wrong = [number for number, ((keys, _), lines) in enumerate(zip(made, answers)) if lines != [meant(key) for key in reversed(keys)]]
    print(f"Erlang's ssh read {len(made) - len(wrong)} of {len(made)} files, of 1 to 16 keys, {sum(len(keys) for keys, _ in made)} keys")
    return 1 if wrong or len(answers) != len(made) else 0


if __name__ == "__main__":
    sys.exit(main())
