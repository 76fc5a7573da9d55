"""Rows of `jsonnorm`: the normal form of a text.

Answers of the original crate are replayed from crate-answers.json, which `tests/beside-the-crate` wrote.
"""

import errno
import functools
import json
import os
import resource
import subprocess
import tempfile

import texts
from checks import shared
from crate_words import port_message
from faults import CALLED_AGAIN, FAILED, Faults, each_failed, run
from padding import normal, padded, tree_of
from places import HERE
from running import program, reported, run_of, small_stack
from values import DEEP
from whole import EOF, LEVELS, NESTED, Reader, as_items, inputs, inside_others, large, wide

TEXT_READER = Reader("jsonnorm", [], 1)
FAULTS = Faults("jsonnorm", is_stopping=True, is_freeing=False)

USAGE = (2, b"", b"usage: jsonnorm [-i] [-d N]\n")
NOT_UTF8 = reported(3, "jsonnorm", "input is not UTF-8")
OUT_OF_MEMORY = reported(4, "jsonnorm", "out of memory")
READING = reported(4, "jsonnorm", "reading failed")
WRITING = reported(4, "jsonnorm", "writing failed")

written = TEXT_READER.written
refused_as = TEXT_READER.refused
EMPTY = refused_as(*EOF)


def too_deep(column, bracket):
    """The answer of a run whose text is nested too deep."""
    return refused_as(1, column, "TooDeep", bracket)


def limited(expected):
    """The answer of a run with a limit: a compact text, or a refusal."""
    return written(expected.encode()) if isinstance(expected, str) else refused_as(*expected)


TEXT = b' {"b":[1], "a":null} '
COMPACT = b'{"a":null,"b":[1]}'
INDENTED = b'{\n  "a": null,\n  "b": [\n    1\n  ]\n}'

# The words, the input, and the answer.
WORDS = [
    ([], TEXT, written(COMPACT)),
    (["-i"], TEXT, written(INDENTED)),
    (["-d", "0"], b"7", written(b"7")),
    (["-d", "0"], b"[]", too_deep(0, "[")),
    (["-d", "1"], b"[1]", written(b"[1]")),
    (["-d", "1"], b'{"a":{}}', too_deep(5, "{")),
    (["-d", "3"], b"[[[1]]]", written(b"[[[1]]]")),
    (["-d", "3"], b"[[[[1]]]]", too_deep(3, "[")),
    (["-d", "003"], b"[[[[1]]]]", too_deep(3, "[")),
    (["-d", "000000000"], b"[]", too_deep(0, "[")),
    (["-d", "999999999"], TEXT, written(COMPACT)),
    (["-i", "-d", "2"], TEXT, written(INDENTED)),
    (["-d", "2", "-i"], TEXT, written(INDENTED)),
    (["-i", "-d", "1"], TEXT, too_deep(6, "[")),
    (["-d", "1", "-i"], TEXT, too_deep(6, "[")),
    *((["-d", str(limit)], text.encode(), limited(expected)) for text, limit, expected in texts.LIMITS),
    *((["-i"], text.encode(), written(lines.encode())) for text, lines in texts.INDENTED),
]

# Deep values in what fails, and where memory is refused.
DEEP_FAILURES = [([], b"[" * 100_000 + b"]" * 100_000, (4, "writing failed")), (["-i"], DEEP, (4, "writing failed"))]
DEEP_MEMORY = [([], DEEP), ([], b'{"b":1,"a":%s}' % DEEP), (["-i"], DEEP[15_000:-15_000])]

# Words that are not understood.
UNKNOWN = [
    ["-d"],
    ["-d", "x"],
    ["-d", "-1"],
    ["-d", "+1"],
    ["-d", " 1"],
    ["-d", "1 "],
    ["-d", ""],
    ["-d", "1.0"],
    ["-d", "\u0661"],
    ["-d", "1000000000"],
    ["-d", "0000000000"],
    ["-d", "18446744073709551615"],
    ["-d", "18446744073709551616"],
    ["-d", "1", "-d", "1"],
    ["-d", "-i"],
    ["-d", "-d"],
    ["-d", "1", "2"],
    ["-d1"],
    ["-i", "-i"],
    ["-i", "-d"],
    ["-i", "-d", "x"],
    ["-i", "-d", "1", "-i"],
    ["-d", "x", "-i"],
    ["-i", "x"],
    ["-I"],
    ["-i "],
    ["-id", "3"],
    ["--indent"],
    ["--help"],
    ["--"],
    ["-"],
    ["-x"],
    ["1"],
    ["[]"],
    [""],
    ["", "-i"],
    ["-i", ""],
    [b"\xff"],
    [b"-i\xff"],
    ["-i", b"\xff"],
    ["-d", b"\xff"],
]

# Bytes that are not UTF-8 (RFC 3629, section 4).
NO_UTF8 = [
    b"\x80",  # a continuation byte alone
    b"\xbf",
    b"\xc0\x80",  # longer forms than the shortest
    b"\xc0\xaf",
    b"\xc1\xbf",
    b"\xe0\x80\x80",
    b"\xe0\x9f\xbf",
    b"\xf0\x80\x80\x80",
    b"\xf0\x8f\xbf\xbf",
    b"\xed\xa0\x80",  # surrogates
    b"\xed\xbf\xbf",
    b"\xed\xa0\xbd\xed\xb8\x80",
    b"\xf4\x90\x80\x80",  # beyond U+10FFFF
    b"\xf5\x80\x80\x80",
    b"\xf8\x88\x80\x80\x80",
    b"\xfe",
    b"\xff",
    b"\xc2",  # cut off
    b"\xe2\x9d",
    b"\xf0\x9f\x98",
    b"\xc2A",  # no continuation byte
    b"\xe2\x9dA",
    b"\xf0\x9f\x98A",
    b"\xe2A\xa4",
]

# The first and last characters of each length, and the neighbours of the surrogates.
UTF8 = ["\u0080", "\u07ff", "\u0800", "\ud7ff", "\ue000", "\ufeff", "\uffff", "\U00010000", "\U0010ffff"]

# The call that fails, its error (0: it takes nothing), and the answer where it does.
FAILURES = [
    ("FAILED_READ", errno.EIO, READING),
    ("FAILED_READ", errno.EINTR, READING),
    ("FAILED_WRITE", errno.EIO, WRITING),
    ("FAILED_WRITE", errno.ENOSPC, WRITING),
    ("FAILED_WRITE", 0, WRITING),
    ("FAILED_WRITE", errno.ENOMEM, OUT_OF_MEMORY),
]

# How many members a text has whose reads and writes fail in turn.
SOME = 12_000

# Arguments and texts of which each request for memory is refused.
OPTIONS = [[], ["-i"], ["-d", "2", "-i"], ["-d", "1", "-i"]]
REFUSED_MEMORY = [(words, given) for words in OPTIONS for given in texts.SMALL]


def answer_of(words, given=b"", **how):
    """The status, standard output and standard error of a run."""
    return run_of(program("jsonnorm"), words, given, **how)


def indented_of(given):
    return answer_of(["-i"], given)


def check_words(checks):
    """Arguments, those that are not understood among them: then nothing is read."""
    for row in WORDS:
        words, given, expected = row
        checks.row(f"jsonnorm: words {words}", expected, answer_of, words, given, at=row)
    for words in UNKNOWN:
        checks.row(f"jsonnorm: unknown words {words}", (*USAGE, 0), unread, words)


def unread(words):
    """The answer of a run, and how many bytes it has read."""
    with tempfile.TemporaryFile() as file:
        file.write(TEXT)
        file.seek(0)
        answer = answer_of(words, stdin=file)
        return *answer, os.lseek(file.fileno(), 0, os.SEEK_CUR)


def check_inputs(checks):
    """Refusals of an indented form, and bytes that are not UTF-8."""
    for row in inputs():
        given, expected = row
        if not isinstance(expected, bytes):
            checks.row(f"jsonnorm: input {given[:40]} indented", refused_as(*expected), indented_of, given, at=row)
    for piece in NO_UTF8:
        for given in (piece, b'"' + piece + b'"', b"[1] " + piece, b"x" + piece):
            checks.row(f"jsonnorm: input {given}", NOT_UTF8, answer_of, [], given)
    for character in UTF8:
        given = f'"{character}"'.encode(errors="surrogatepass")
        checks.row(f"jsonnorm: input {given}", written(given), answer_of, [], given)


def check_cut_off(checks):
    """The texts that are read, cut off at each place: a prefix is accepted, or refused where it ends as one that goes on."""
    kinds = ("UnexpectedEof", "EmptyInteger", "EmptyFraction", "EmptyExponent")
    for row in texts.cut_off():
        prefix, line, column = row
        name = f"jsonnorm: input {prefix!r}, cut off"
        if checks.wants(name):
            answer = answer_of([], prefix.encode())
            is_well = answer[0] == 0 or answer in [refused_as(line, column, kind) for kind in kinds]
            checks.check(name, (*answer, is_well), (*answer, True), at=row)


def check_indented(checks):
    """The indented form of what grows, of 3,000 levels, of objects of many members and of a large text."""
    for size in texts.SIZES:
        if size <= texts.LARGEST_INSIDE:
            text, compact = as_items(inside_others(size))
            lines = texts.laid_out(compact.decode()).encode()
            checks.row(f"jsonnorm: things of size {size} indented", written(lines), indented_of, text)
    for text in texts.nested_of_size(3_000):
        lines = texts.laid_out(text).encode()
        checks.row("jsonnorm: 3,000 levels indented", written(lines), indented_of, text.encode())
    for name, text, _, indented in wide():
        checks.row(f"jsonnorm: {name} indented", written(indented), indented_of, text)
    text, _, indented = large()
    checks.row("jsonnorm: a large input indented", written(indented), indented_of, text)
    cut_off = refused_as(1, len(text.decode()) - 1, "UnexpectedEof")
    checks.row("jsonnorm: a large input cut off", cut_off, answer_of, [], text[:-1])


def check_depth(checks):
    """Containers inside one another, as many as the arguments allow, and one more, on a small stack."""
    for row in NESTED:
        (opening, inside, closing), (begun, within, ended), bracket, _ = row
        for levels in LEVELS:
            text = opening * levels + inside + closing * levels
            for limit, expected in (
                (levels, written(begun * levels + within + ended * levels)),
                (levels - 1, too_deep(len(opening) * (levels - 1), bracket)),
            ):
                name = f"jsonnorm: {levels} levels of {opening}, -d {limit}"
                checks.row(name, expected, answer_of, ["-d", str(limit)], text, at=row, preexec_fn=small_stack)


def ordered(text):
    """A text's value in a form in which the order of members doesn't show."""
    return json.dumps(json.loads(text), sort_keys=True).encode() if text else b""


def check_crate(checks):
    """Texts that the original crate read or refused."""
    with open(f"{HERE}/crate-answers.json", encoding="utf-8") as file:
        rows = json.load(file)["rows"]
    for row in rows:
        text = row["text"]
        name = f"jsonnorm: the crate's answer to {text!r}"
        if not checks.wants(name):
            continue
        status, output, errors = answer_of([], text.encode())
        if "refused" in row:
            _, message = port_message(text, row["refused"])
            expected = 1, b"", f"jsonnorm: {message}\n".encode()
        elif "compact" in row:
            expected = written(row["compact"].encode())
        else:
            output, expected = ordered(output), (0, ordered(json.dumps(row["value"])), b"")
        checks.check(name, (status, output, errors), expected)


def check_streams(checks):
    """Standard input and output that are no plain files."""
    folder = os.open("/", os.O_RDONLY)
    checks.row("jsonnorm: a directory as input", READING, answer_of, [], stdin=folder)
    os.close(folder)
    closing = lambda file: {"preexec_fn": lambda: os.close(file)}
    checks.row("jsonnorm: a closed input", READING, answer_of, [], stdin=subprocess.DEVNULL, **closing(0))
    for words, given in (([], TEXT), (["-i"], TEXT), ([], large()[0])):
        name = f"{words} over {len(given)} bytes"
        with open("/dev/full", "wb") as full:
            checks.row(f"jsonnorm: a full output of {name}", WRITING, answer_of, words, given, stdout=full)
        checks.row(f"jsonnorm: a closed output of {name}", WRITING, answer_of, words, given, **closing(1))
        unread_end, pipe = os.pipe()
        os.close(unread_end)
        checks.row(f"jsonnorm: a pipe that nobody reads, of {name}", WRITING, answer_of, words, given, stdout=pipe)
        os.close(pipe)
    with open("/dev/full", "wb") as full:
        checks.row("jsonnorm: a refused text to a full output", EMPTY, answer_of, [], b"", stdout=full)
        untold = {"stderr": full}
        checks.row("jsonnorm: unknown words to a full standard error", (2, b"", b""), answer_of, ["-x"], TEXT, **untold)
        checks.row("jsonnorm: a refused text to a full standard error", (1, b"", b""), answer_of, [], b"", **untold)


def check_padded_indented(checks):
    """Indented texts with more members in each object, and more items in each array."""
    for row in texts.INDENTED:
        tree = padded(tree_of(row[0]))
        given, lines = row[0].replace("\n", " "), texts.laid_out(normal(tree).decode())
        checks.row(f"jsonnorm: padded -i {given[:60]}", written(lines.encode()), answer_of, ["-i"], normal(tree), at=row)


def check_deep(checks):
    FAULTS.deep(checks, DEEP_FAILURES)
    FAULTS.refusing_deep(checks, DEEP_MEMORY)


def check_failing(checks):
    """Each read and each write fails once: then nothing is read or written after it."""
    text, compact, _ = large(SOME)
    for given, output in ((TEXT, COMPACT + b"\n"), (text, compact + b"\n")):
        for row in FAILURES:
            variable, error, _ = row
            name = f"jsonnorm: {variable} over {len(given)} bytes, {errno.errorcode.get(error, 'nothing taken')}"
            if checks.wants(name, given):
                check_each_failing(checks, name, row, given, output)


def check_each_failing(checks, name, row, given, output):
    """Each call of a kind fails once."""
    variable, error, (status, _, words) = row
    calls = 0
    for call, ended in each_failed([program("jsonnorm")], given, variable, error):
        if ended.reports[FAILED] > 0:
            is_prefix = output.startswith(ended.output) and (variable == "FAILED_WRITE" or ended.output == b"")
            answer = (ended.status, is_prefix, ended.errors, ended.reports[CALLED_AGAIN])
            checks.check(f"{name}, call {call}", answer, (status, True, words, 0), at=row)
            calls = call
    least = 2 if variable == "FAILED_READ" else 1
    checks.check(f"{name}, the number of calls", calls >= least, True, at=row)


def check_interrupted(checks):
    """An interrupted write ends the run. A compact text and its line feed are one write, those of a long string too."""
    text, _, _ = large(SOME)
    string = b'"' + b"a" * 100_000 + b'"'
    for given in (text, string):
        name, writes = f"jsonnorm: interrupted writes of {len(given)} bytes", 0
        if checks.wants(name, given):
            for call, ended in each_failed([program("jsonnorm")], given, "FAILED_WRITE", errno.EINTR):
                if ended.reports[FAILED] > 0:
                    checks.check(f"{name}, write {call}", ended.answer(), (4, b"", b"jsonnorm: writing failed\n"))
                    writes = call
            checks.check(f"{name}, the number of writes", writes, 1)


def check_pieces(checks):
    """Reads that give and writes that take few bytes, and a short line, which is one write."""
    shown = lambda words, given, **variables: run([program("jsonnorm"), *words], given, **variables).answer()
    text, compact, _ = large(SOME)
    for given, output in ((TEXT, COMPACT), (text, compact)):
        for count in (1, 4_095):
            pieces = {"SHORT_READS": count, "SHORT_WRITES": count}
            checks.row(f"jsonnorm: {count} bytes a call, of {len(given)}", written(output), shown, [], given, **pieces)
    for words, output in (([], COMPACT), (["-i"], INDENTED)):
        second = {"FAILED_WRITE": 2, "ERRNO": errno.EIO}
        checks.row(f"jsonnorm: one write of {words}", written(output), shown, words, TEXT, **second)


def check_memory(checks):
    """Limits on the address space, from one that is too small for the large text on."""
    text, compact, _ = large()
    statuses = set()
    for megabytes in (24, 32, 48, 64, 96, 128, 256, 4096):
        limit = megabytes * 1_048_576
        least = functools.partial(resource.setrlimit, resource.RLIMIT_AS, (limit, limit))
        name = f"jsonnorm: {megabytes} MB of memory"
        if checks.needs_memory(name):
            status, output, errors = answer_of([], text, preexec_fn=least)
            statuses.add(status)
            wanted = (0, True, b"") if (status, output) == written(compact)[:2] else (4, True, OUT_OF_MEMORY[2])
            checks.check(name, (status, (compact + b"\n").startswith(output), errors), wanted)
        name = f"{name} for a small text"
        if checks.needs_memory(name):
            checks.check(name, answer_of([], TEXT, preexec_fn=least), written(COMPACT))
    name = "jsonnorm: both answers under limits on memory"
    if checks.needs_memory(name):
        checks.check(name, tuple(sorted(statuses)), (0, 4))


def check_refused_memory(checks):
    FAULTS.refusing(checks, REFUSED_MEMORY)


PARTS = (
    check_words,
    *shared(check_inputs),
    *shared(TEXT_READER.check_inputs),
    TEXT_READER.check_padded,
    check_padded_indented,
    check_deep,
    *shared(check_cut_off),
    check_indented,
    check_depth,
    check_crate,
    check_streams,
    check_failing,
    check_interrupted,
    check_pieces,
    check_memory,
    *shared(check_refused_memory),
    TEXT_READER.check_sizes,
    TEXT_READER.check_wide,
    TEXT_READER.check_large,
    TEXT_READER.check_nested,
    TEXT_READER.check_deep_members,
    TEXT_READER.check_deep_memory,
)
