#!/usr/bin/env python3
"""Runs ./armour and ./dearmour as a user and a script would, and ./inspect on texts, and holds what they write, their statuses and their
sentences to what they must be. The texts are the model's. The gate runs it once all is built."""
import os
import random
import subprocess
import sys
import tempfile

import model
from fields import ED25519, LIMIT
from images import join, plain
from model_armour import BEGIN, END, accepted
from model_armour import text_of as armoured
from trying import IMAGE, ROOT, checked_already, failing_reads, hold, lines_of, run, text_of, with_script, without, written

ARMOUR, DEARMOUR, INSPECT = (ROOT / name for name in ("armour", "dearmour", "inspect"))
MEBIBYTE = 1 << 20
EVERY_BYTE = bytes(range(256)) + bytes(40)
REFUSED = "refused 2 0 0\n"
LENIENT = "--any-armour"


def refusal(number, name, what="standard input"):
    """How standard error begins where a script refuses."""
    return f"refused {number} 0 0\n{name}: {what}: refused with {number}: "


def hold_refused(what, script, given, number):
    status, out, err = run(script, given=given)
    hold(what, (status, out, err.startswith(refusal(number, script.name))), (1, b"", True))


# ---- ./armour and ./dearmour


def first_calls():
    """By the real rt, which in a pipe both scripts ask at once."""
    both = f"{ARMOUR} | {DEARMOUR}"
    for _ in range(3):
        status, out, err = run("bash", "-o", "pipefail", "-c", both, given=EVERY_BYTE)
        said = [line for line in err.splitlines() if "another script is building" not in line]
        hold("one into the other", (status, out, said), (0, EVERY_BYTE, []))
    hold("a text in ./inspect", run(INSPECT, given=armoured(IMAGE)), (0, model.report(IMAGE).encode(), ""))


def round_trips(folder):
    for what, content in (("no bytes", b""), ("every byte", EVERY_BYTE), ("the most bytes", random.Random(11).randbytes(LIMIT))):
        text = armoured(content)
        hold(f"{what} armoured", run(ARMOUR, given=content), (0, text, ""))
        hold(f"{what} given back", run(DEARMOUR, "-", given=text), (0, content, ""))
        hold(f"{what} armoured, from a file", run(ARMOUR, written(folder, "bytes", content)), (0, text, ""))
        hold(f"{what} given back, from a file", run(DEARMOUR, written(folder, "text", text)), (0, content, ""))
    preloaded = {**os.environ, "LD_PRELOAD": "/missing.so"}
    hold("a loader that says something", run(ARMOUR, given=IMAGE, env=preloaded)[:2], (0, armoured(IMAGE)))
    hold("and on a text", run(INSPECT, given=armoured(IMAGE), env=preloaded)[:2], (0, model.report(IMAGE).encode()))
    hold("line ends of both kinds", run(DEARMOUR, given=armoured(IMAGE).replace(b"\n", b"\r\n", 3)), (0, IMAGE, ""))


def refusals(folder):
    hold_refused("a byte too many", ARMOUR, bytes(LIMIT + 1), 11)
    hold_refused("many bytes too many", ARMOUR, bytes(3 * LIMIT), 11)
    hold_refused("no text at all", DEARMOUR, b"", 2)
    hold_refused("lines of 64", DEARMOUR, text_of(lines_of(IMAGE, 64)), 2)
    above = text_of(lines_of(bytes(LIMIT + 1)))
    hold_refused("a text that carries a byte too many", DEARMOUR, above, 11)
    hold_refused("one that is misspelled after them", DEARMOUR, above + b"\n", 2)
    hold_refused("the longest that is judged", DEARMOUR, above + bytes(MEBIBYTE - 1 - len(above)), 2)
    hold_refused("one that is longer", DEARMOUR, above + bytes(MEBIBYTE - len(above)), 11)
    strange = written(folder, "a\n\x1b[2J", b"")
    hold("a name that holds a line", run(DEARMOUR, strange)[2].startswith(refusal(2, "dearmour", f"{folder}/a??[2J")), True)


def usage(folder, script):
    name, content, result = script.name, *((IMAGE, armoured(IMAGE)) if script == ARMOUR else (armoured(IMAGE), IMAGE))
    link = os.path.join(folder, f"link-{name}")
    os.symlink(script, link)
    hold(f"{name} through a symbolic link", run(link, given=content, cwd="/"), (0, result, ""))
    dashed = written(folder, f"-{name}", content)
    hold(f"{name}: a name that begins with a dash", run(script, "--", f"-{name}", cwd=os.path.dirname(dashed)), (0, result, ""))
    status, out, _ = run(script, "--help")
    hold(f"{name} --help", (status, out.startswith(f"usage: ./{name} ".encode())), (0, True))
    missing = os.path.join(folder, "mis\nsing")
    for what, arguments, named in (("an unknown option", ["-x"], "-x"), ("two files", [dashed, dashed], "one file"),
                                   ("a folder", [folder], "is a folder"), ("a missing file", [missing], "mis?sing")):
        status, out, err = run(script, *arguments)
        hold(f"{name}: {what}", (status, out, named in err), (2, b"", True))
    closed_streams(script, dashed)
    stale(folder, script, content)


def closed_streams(script, path):
    for what, redirected, named in (
        ("a closed standard input", "<&-", "standard input is closed"),
        ("a closed standard output", f"<{path} >&-", "standard output is closed"),
        ("a full standard output", f"<{path} >/dev/full", "standard output: No space"),
    ):
        status, out, err = run("bash", "-c", f"{script} {redirected}")
        hold(f"{script.name}: {what}", (status, out, named in err), (2, b"", True))
    unread, pipe = os.pipe()
    os.close(unread)
    done = subprocess.run([script, path], stdout=pipe, stderr=subprocess.PIPE, timeout=60)
    os.close(pipe)
    hold(f"{script.name}: a pipe that nobody reads", (done.returncode, b"not done" in done.stderr), (2, True))
    for when, descriptor in failing_reads():
        done = subprocess.run([script], stdin=descriptor, capture_output=True, timeout=60)
        told = f"{script.name}: standard input: ".encode() in done.stderr
        hold(f"{script.name}: a read that fails {when}", (done.returncode, done.stdout, told), (2, b"", True))


def stale(folder, script, content):
    """What isn't proved, or isn't all there, doesn't answer."""
    refusing = with_script(folder, "rt", 'echo "rt: not proved"; exit 1')
    status, out, err = run(script, given=content, env=refusing)
    hold(f"{script.name}: what isn't proved doesn't answer", (status, out, "it was not built" in err), (2, b"", True))
    hold(f"{script.name}: sed isn't there", run(script, given=content, env=without(folder, "sed"))[:2], (2, b""))


# ---- ./inspect on texts


def departures():
    """Texts that are in no spelling that is taken, with the number of the line that is named, and a word of what is said of it."""
    lines = lines_of(IMAGE)
    good = text_of(lines)
    last = len(lines)
    yield "END line missing", text_of(lines[:-1]), last, "ends before"
    yield "cut in the middle", good[:200], 4, "cut short"
    yield "words after END", good + b"words\n", last + 1, "follows the END line"
    yield "a dot after END", good + b".\n", last + 1, "follows the END line"
    yield "a blank line after END", good + b"\n", last + 1, "follows the END line"
    yield "no line end after END", good[:-1], last, "no line end"
    yield "a bad character", text_of([*lines[:2], b"!" + lines[2][1:], *lines[3:]]), 3, "isn't base64"
    yield "a zero byte", text_of([*lines[:2], b"\0" + lines[2][1:], *lines[3:]]), 3, "isn't base64"
    yield "a space", text_of([*lines[:2], lines[2] + b" ", *lines[3:]]), 3, "isn't base64"
    yield "all on one line", b"".join(lines) + b"\n", 1, "alone"
    yield "CR alone", good.replace(b"\n", b"\r"), 1, "alone"
    yield "a blank line within", text_of([*lines[:3], b"", *lines[3:]]), 4, "is empty"
    yield "END on the last line of base64", text_of([*lines[:-2], lines[-2] + END]), last - 1, "isn't base64"
    yield "words on the END line", text_of([*lines[:-1], END + b" words"]), last, "alone"
    yield "a sign too few", text_of([*lines[:-2], lines[-2][:-2], END]), last, "groups of four"
    yield "base64 after an equals sign", text_of([BEGIN, b"QUI=", b"QUJD", END]), 3, "has ended"
    yield "an equals sign within", text_of([BEGIN, b"QU=JQUJD", END]), 2, "equals sign"
    yield "an equals sign too many", text_of([BEGIN, b"Q===", END]), 2, "equals sign"
    yield "stray bits before one equals sign", text_of([BEGIN, b"QUJ=", END]), 3, "stray bits"
    yield "stray bits before two", text_of([BEGIN, b"QR==", END]), 3, "stray bits"
    for what, before in (("a BOM", b"\xef\xbb\xbf"), ("a blank line", b"\n"), ("words", b"words\n")):
        yield f"{what} before BEGIN", before + good, 1, "stands before the line -----BEGIN"


def looked_at(folder, texts, *arguments):
    """./inspect on several texts in one call: of each its report, and what is said of it on standard error."""
    names = [written(folder, f"text-{number}", text) for number, text in enumerate(texts)]
    status, out, err = run(INSPECT, *arguments, *names)
    reports = [part.split("\n", 1) for part in out.decode().split("file ")[1:]]
    hold(f"a report on each of {len(names)} texts", [name for name, _ in reports], names)
    return status, [(report, [line for line in err.splitlines() if line.startswith(f"inspect: {name}: ")]) for name, report in reports]


def refused_texts(folder):
    """Each names its line once, and none is sent to --any-armour, which doesn't take it either."""
    cases = list(departures())
    for arguments in ([], [LENIENT]):
        status, answers = looked_at(folder, [text for _, text, _, _ in cases], *arguments)
        hold("all refused", status, 1)
        for (what, _, line, words), (report, sentences) in zip(cases, answers):
            said = "\n".join(sentences)
            told = [said.count(f": line {line} of the text "), said.count(" of the text "), words in said, LENIENT in said]
            hold(f"text {arguments}: {what}", (report, told), (REFUSED, [1, 1, True, False]))


def other_columns():
    """Texts whose lines alone are wrong, with the line that is named and its columns."""
    lines = lines_of(IMAGE)
    yield "lines of 64", text_of(lines_of(IMAGE, 64)), 2, 64
    yield "lines of 64, CR LF", text_of(lines_of(IMAGE, 64), b"\r\n"), 2, 64
    yield "lines of 76", text_of(lines_of(IMAGE, 76)), 2, 76
    yield "one line of 69", text_of([*lines[:2], lines[2][:-1], lines[2][-1:] + lines[3], *lines[4:]]), 3, 69
    yield "one line of 71", text_of([*lines[:2], lines[2] + lines[3][:1], lines[3][1:], *lines[4:]]), 3, 71


def lenient(folder):
    """Without --any-armour the desk is told the line and where to go; with it the key is looked at, and that is told."""
    cases = list(other_columns())
    texts = [text for _, text, _, _ in cases]
    status, strictly = looked_at(folder, texts)
    lenient_status, leniently = looked_at(folder, texts, LENIENT)
    hold("refused, and accepted", (status, lenient_status), (1, 0))
    for (what, _, line, columns), (refused, sentences), (report, told) in zip(cases, strictly, leniently):
        names = f": line {line} of the text has {columns} columns; "
        helps = [names in sentences[1], f"`./inspect {LENIENT}` takes such a text" in sentences[2]]
        hold(what, (refused, helps, len(sentences)), (REFUSED, [True, True], 3))
        hold(f"{what}, {LENIENT}", (report, len(told), names in told[0], "taken off all the same" in told[0]),
             (model.report(IMAGE), 1, True, True))
    for what, given in (("an image", IMAGE), ("the one spelling", armoured(IMAGE)), ("CR LF", text_of(lines_of(IMAGE), b"\r\n"))):
        hold(f"{what}, {LENIENT}: nothing to tell", run(INSPECT, LENIENT, given=given), (0, model.report(IMAGE).encode(), ""))


def limits():
    large = join(plain(ED25519, b"c" * 65_301))
    slim = text_of(lines_of(large, 1), b"\r\n")
    hold("the longest image in the longest text", run(INSPECT, LENIENT, given=slim)[:2], (0, model.report(large).encode()))
    above = text_of(lines_of(bytes(LIMIT + 1)))
    for what, text, arguments, wanted in (
        ("a byte too many", above, [], "refused 11 0 0\n"),
        ("a byte too many, misspelled after it", above + b"\n", [], REFUSED),
        ("a byte too many in lines of 64", text_of(lines_of(bytes(LIMIT + 1), 64)), [LENIENT], "refused 11 0 0\n"),
        ("four times too many", text_of(lines_of(bytes(4 * LIMIT))), [], "refused 11 0 0\n"),
        ("more than is judged in lines of 64", text_of(lines_of(bytes(4 * LIMIT), 64)) + b"\n", [LENIENT], "refused 11 0 0\n"),
        ("a mebibyte", text_of(lines_of(bytes(MEBIBYTE))), [], "refused 11 0 0\n"),
    ):
        hold(f"a text that carries {what}", run(INSPECT, *arguments, given=text)[:2], (1, wanted.encode()))


def changed_texts():
    """A short text, and changed at each place in several ways; none carries a key."""
    for length in (1, 2, 3, 52, 53, 54):
        text = armoured(bytes(range(200, 200 + length)))
        yield text
        yield text.replace(b"\n", b"\r\n")
        for at in range(30, len(text)):
            yield text[:at] + random.Random(at).choice([b"", b"=", b"A", b"\n", b"\r", b"\r\n", b"-"]) + text[at + at % 2 :]


def lines_found():
    """The script that finds the line finds one exactly where the model refuses the text, and what it lets pass is what the text carries."""
    script = ["awk", "-v", "columns=70", "-f", str(ROOT / "tools" / "unarmour.awk")]
    counts = {True: 0, False: 0}
    for text in changed_texts():
        done = subprocess.run(script, input=text + b".\n", capture_output=True, env={**os.environ, "LC_ALL": "C"})
        carried = accepted(text)
        wanted = (1, b"") if carried is None else (0, b"".join(lines_of(carried)[1:-1]))
        if (done.returncode, done.stdout) != wanted or (carried is None) != done.stderr.startswith(b"line "):
            sys.exit(f"of {text!r} it is said: {done}")
        counts[carried is None] += 1
    hold("changed texts, some of them taken", min(counts.values()) > 20, True)


def main():
    first_calls()
    with tempfile.TemporaryDirectory() as folder:
        os.environ["PATH"] = checked_already(folder)
        round_trips(folder)
        refusals(folder)
        usage(folder, ARMOUR)
        usage(folder, DEARMOUR)
        refused_texts(folder)
        lenient(folder)
        limits()
    lines_found()


if __name__ == "__main__":
    main()
