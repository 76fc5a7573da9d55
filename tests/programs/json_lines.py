"""Rows of `json_lines`: the normal form of each line.

Many texts of one line each are given to it at once, which it reads and writes as `jsonnorm` does.
"""

import resource

import texts
import whole
from checks import shared
from faults import BROKEN, FOLDER, FULL, Faults
from long_lines import LENGTH, MEMORY, LongLines
from padding import padded_lines, padded_rows
from pages import Page, misused
from running import program, printed, reported, run_of
from values import CONTROLS, DEEP, LONG, NESTED, QUOTED

FAULTS = Faults("json_lines", is_stopping=True)


def told(output, *lines):
    """The answer of `json_lines -k`, which prints this and tells of these lines."""
    return 1, output, b"".join(b"json_lines: line %s\n" % line for line in lines)


MANY = 70_000

# The lines, and the answer.
LINES = [
    (b"", printed()),
    (b'{"b":1, "a":[1.0]}\r\n"x"', printed(b'{"a":[1],"b":1}', b'"x"')),
    (b"1\n[1,]\n2\n", reported(3, "json_lines", "line 2, col 3: Invalid character: ]", b"1\n")),
    (b"1\n\n", reported(3, "json_lines", "line 2, col 0: Unexpected EOF", b"1\n")),
    (b"[1\n", reported(3, "json_lines", "line 1, col 2: Unexpected EOF")),
    (b"1\n \r", reported(3, "json_lines", "line 2, col 2: Unexpected EOF", b"1\n")),
    (b'1\n"\xff"\n[', reported(3, "json_lines", "line 2: not UTF-8", b"1\n")),
    (NESTED, printed(NESTED)),
    # More lines than 16 bits count.
    (b"[1.0]\n" * MANY, printed(*[b"[1]"] * MANY)),
    (b"1 \n" * MANY + b"x", reported(3, "json_lines", f"line {MANY + 1}, col 0: Invalid character: x", b"1\n" * MANY)),
    (LONG + b"\n2", printed(LONG, b"2")),
]

# The words, the lines, and the answer.
ALL_LINES = [
    (["-k"], b"", printed()),
    (["-k"], b"1\n 2.0", printed(b"1", b"2")),
    (["-k"], b"1\n[1,]\n2\n", told(b"1\n2\n", b"2, col 3: Invalid character: ]")),
    (["-k"], b"\n\n1\n\n", told(b"1\n", *(b"%d, col 0: Unexpected EOF" % n for n in (1, 2, 4)))),
    (["-k"], b'[\n"\xc3\n1\n\xff', told(b"1\n", b"1, col 1: Unexpected EOF", b"2: not UTF-8", b"4: not UTF-8")),
    (["-k"], b"x\n" * MANY, told(b"", *(b"%d, col 0: Invalid character: x" % (n + 1) for n in range(MANY)))),
    (["-k"], b"x\n1\n" * (MANY // 2), told(b"1\n" * (MANY // 2), *(b"%d, col 0: Invalid character: x" % n for n in range(1, MANY, 2)))),
    (["-d", "1"], b"[]\n[[]]\n[]", reported(3, "json_lines", "line 2, col 1: Nesting is too deep at '['", b"[]\n")),
    (["-d", "0"], b"1\n{}", reported(3, "json_lines", "line 2, col 0: Nesting is too deep at '{'", b"1\n")),
    (["-k", "-d", "1"], b"[[]]\n[]\n", told(b"[]\n", b"1, col 1: Nesting is too deep at '['")),
    (["-d", "1", "-k"], b"[[]]\n[]\n", told(b"[]\n", b"1, col 1: Nesting is too deep at '['")),
    (["-kd1"], b"[[]]\n[]\n", told(b"[]\n", b"1, col 1: Nesting is too deep at '['")),
    (["-kd", "1"], b"[[]]\n[]\n", told(b"[]\n", b"1, col 1: Nesting is too deep at '['")),
    (["--depth=1", "--keep-going"], b"[[]]\n[]\n", told(b"[]\n", b"1, col 1: Nesting is too deep at '['")),
    (["-d5", "--depth", "1", "-k", "-k"], b"[[]]\n[]\n", told(b"[]\n", b"1, col 1: Nesting is too deep at '['")),
    *[
        (words, b"1", misused("json_lines", "no number of 1 to 9 digits after -d"))
        for words in (["-d"], ["-d", "+1"], ["-d", "1234567890"], ["-d", ""], ["--depth="], ["-dk"])
    ],
    (["-km"], b"1", misused("json_lines", "no number of 1 to 9 digits after -m")),
]

# Lines that are refused by their length, not padded.
BY_LENGTH = [
    (["-d", "1", "-m", "4", "-k"], b"[[]]\n[[] ]\n[ ]\n", told(b"[]\n", b"1, col 1: Nesting is too deep at '['", b"2: longer than 4 bytes")),
    (["-km0"], b"\n1\n", told(b"", b"1, col 0: Unexpected EOF", b"2: longer than 0 bytes")),
]

# Control characters are shown by their code points.
CLEAN = [
    ([], b'"' + CONTROLS + b'"', printed(b'"' + QUOTED + b'"')),
    ([], b"1\x1b[2J", reported(3, "json_lines", "line 1, col 2: Expected EOF but got character 'U+001B'")),
    (["-k"], b'"\r', reported(1, "json_lines", "line 1, col 2: String cannot contain control character U+000D")),
    ([], b"[\xc2\x9b", reported(3, "json_lines", "line 1, col 1: Invalid character: U+009B")),
]

# How many rows are not padded, and why.
UNPADDED = {"a large text": 6}

# Deep lines in what fails, and where memory is refused.
DEEP_FAILURES = [
    ([], b"1\n" + NESTED + b"x\n2", reported(3, "json_lines", "line 2, col 200001: Expected EOF but got character 'x'", b"1\n")),
    (["-k"], NESTED + b"x\n" + NESTED[:-1] + b"\n2\n", told(b"2\n", b"1, col 200001: Expected EOF but got character 'x'", b"2, col 199999: Unexpected EOF")),
    (["-k", "-d", "99999"], NESTED + b"\n1", told(b"1\n", b"1, col 99999: Nesting is too deep at '['")),
    ([], b'{"b":1,"a":%s}' % NESTED, (4, FULL)),
]
DEEP_MEMORY = [(["-k"], b'{"b":1,"a":%s}\n%sx\n%s' % (DEEP, DEEP, DEEP))]

# The arguments, an input, and the statuses and words where the input is not UTF-8, can't be read, and where the output can't be written.
STREAMS = [([], b"1", (3, "line 1: not UTF-8"), (4, FOLDER), (4, FULL))]

# The arguments, an input, what is printed of it, and the statuses and words where a read and where a write fails.
FAILING = [([], b"[1.0]\n" * 5_000, b"[1]\n" * 5_000, (4, BROKEN), (4, BROKEN))]

# Where each read is interrupted.
INTERRUPTED = [([], b"[1.0]\n" * 15_000, b"[1]\n" * 15_000)]

# Where each request for memory is refused: small texts as lines, an object of many members, and a limit that refuses the first line.
LINE = texts.SMALL[0].replace(b"\n", b" ")
WIDE = b"{" + b",".join(b'"k%d":[0]' % (i * 7 % 66) for i in range(66)) + b"}"
REFUSED_MEMORY = [
    ([], b'{"b":[1.5],"a":"x"}\n[1,]\n'),
    ([], LINE),
    (["-d", "1"], LINE),
    *(([], text) for text in texts.SMALL[1:]),
    ([], WIDE),
]


def limited(is_going):
    """The answer for lines, of which some are longer than a limit."""
    def answer(lines):
        output = b"".join(line + b"\n" for line in lines if not isinstance(line, int))
        errors = [b"json_lines: line %d: longer than %d bytes\n" % (at, line) for at, line in enumerate(lines, 1) if isinstance(line, int)]
        return (0 if not errors else 1 if is_going else 3), output, b"".join(errors)

    return answer


def check_long_lines(checks):
    for words, is_going in (([], False), (["-k"], True)):
        LongLines("json_lines", words, limited(is_going), is_going).check(checks)


# The length at which the beginning of a line is first checked, and what follows beyond the next check.
BORDER, MORE = 65_536, b"x" * 400_000
CLEF = "\U0001d11e".encode()
TOO_DEEP, NO_UTF8 = b", col %d: Nesting is too deep at '['", b": not UTF-8"

# The limit of nesting, a line, and what is printed for it, or why it is refused.
BEGINNINGS = [
    (64, b"[" * 500_000, None, TOO_DEEP % 64),
    (1, b"[[" + MORE, None, TOO_DEEP % 1),
    (1, b"[[" + MORE + b"\r", None, TOO_DEEP % 1),
    (9, b"[1,}" + MORE, None, b", col 3: Invalid character: }"),
    # The error of the whole line counts: it may not be UTF-8 behind the beginning.
    (1, b"[[" + MORE + b"\xff", None, NO_UTF8),
    (1, b"[[" + MORE + b"\xff" + MORE, None, NO_UTF8),
    (1, b"[[" + MORE + b"\xc3", None, NO_UTF8),
    (1, b"[[" + b"\x80" * 400_000, None, NO_UTF8),
    (1, b"\xff" + MORE, None, NO_UTF8),
    # Characters that the ends of what is read cut.
    *[(1, b"[[" + b"x" * n + CLEF * 100_000, None, TOO_DEEP % 1) for n in range(4)],
    *[(1, b"[[" + b"x" * n + CLEF * 100_000 + CLEF[:3], None, NO_UTF8) for n in range(4)],
    *[(9, b'"' + b"x" * n + CLEF * 100_000 + b'"', b'"' + b"x" * n + CLEF * 100_000 + b'"', None) for n in range(4)],
    # Errors about the first check's last characters, and texts that it cuts.
    *[(9, b"1" + b" " * n + b"2" + b" " * 400_000, None, b", col %d: Expected EOF but got character '2'" % (n + 2)) for n in range(BORDER - 4, BORDER + 2)],
    *[(9, b"1" + b" " * n + b"," + MORE, None, b", col %d: Expected EOF but got character ','" % (n + 2)) for n in range(BORDER - 4, BORDER + 2)],
    (9, b"[1." + b"1" * 400_000 + b"]", b"[1." + b"1" * 400_000 + b"]", None),
    (9, b"[" + b"1," * 200_000 + b"x", None, b", col 400001: Invalid character: x"),
    *[(9, b'"' + b"x" * n + rb"\ud834\udd1e" + MORE + b'"', b'"' + b"x" * n + CLEF + MORE + b'"', None) for n in range(BORDER - 14, BORDER)],
]


def check_beginnings(checks):
    """Long lines whose beginning is refused under -d, the second of three and the last of two."""
    for row in BEGINNINGS:
        limit, line, output, words = row
        for given, after in ((b"0\n" + line + b"\n1\n", b"1\n"), (b"0\n" + line, b"")):
            expected = printed(b"0", output) if words is None else told(b"0\n", b"2" + words)
            expected = (expected[0], expected[1] + after, expected[2])
            name = f"json_lines: -k -d {limit}, {line[:8]} .. {line[-8:]}, {len(given)} bytes"
            checks.row(name, expected, run_of, program("json_lines"), ["-k", "-d", str(limit)], given, at=row)
    limited = lambda: resource.setrlimit(resource.RLIMIT_AS, (MEMORY, MEMORY))
    brackets, refused = b"[" * LENGTH, TOO_DEEP % 64
    for given, expected in ((brackets + b"\n1\n", told(b"1\n", b"1" + refused)), (b"1\n" + brackets, told(b"1\n", b"2" + refused))):
        name = f"json_lines: -k -d 64, a line of {LENGTH} brackets, {given[:2]}"
        if checks.needs_memory(name):
            checks.check(name, run_of(program("json_lines"), ["-k", "-d", "64"], given, preexec_fn=limited), expected)


def check_rows(checks):
    for row in LINES:
        given, expected = row
        checks.row(f"json_lines: {given[:60]}", expected, run_of, program("json_lines"), [], given, at=row)
    for row in (*ALL_LINES, *BY_LENGTH, *CLEAN):
        words, given, expected = row
        checks.row(f"json_lines: {words} {given[:60]}", expected, run_of, program("json_lines"), words, given, at=row)


def check_padded(checks):
    """The same lines with more members in each object, and more items in each array."""
    rows = [(row, [], *row) for row in LINES] + [(row, *row) for row in (*ALL_LINES, *CLEAN) if row[2][0] != 2]
    pad = lambda words, given, expected: (words, *padded_lines(given, expected, is_limited=any("d" in word for word in words)))
    for row, (words, given, expected) in padded_rows(checks, "json_lines", rows, pad, UNPADDED):
        checks.row(f"json_lines: padded {words} {row[-2][:60]}", expected, run_of, program("json_lines"), words, given, at=row)


def check_deep(checks):
    FAULTS.deep(checks, DEEP_FAILURES)
    FAULTS.refusing_deep(checks, DEEP_MEMORY)


def check_group(checks, name, rows):
    """Texts of a line each, up to the first wrong answer, each with the line that is written or told."""
    name, rows = f"json_lines: {name}", list(rows)
    if not checks.wants(name):
        return
    every, rows = len(rows), checks.some(rows)
    checks.skipped += every - len(rows)
    status, output, errors = run_of(program("json_lines"), ["-k"], "".join(f"{row[0]}\n" for row in rows).encode())
    outputs, refusals = iter(output.split(b"\n")), iter(errors.split(b"\n"))
    for number, row in enumerate(rows, 1):
        text, *expected = row
        if len(expected) == 1:
            answer, wanted = next(outputs, None), expected[0].encode()
        else:
            answer, (_, column, *why) = next(refusals, None), expected
            wanted = f"json_lines: line {number}, col {column}: {texts.words_of(*why)}".encode()
        checks.check(f"{name}: {text[:40]!r} .. {text[-20:]!r}", (answer,), (wanted,), at=row)
        if answer != wanted:
            return
    is_refused = any(len(row) > 2 for row in rows)
    checks.check(f"{name}: the end", (status, *outputs, *refusals), (int(is_refused), b"", b""))


def check_groups(checks):
    for name, rows in whole.groups():
        check_group(checks, name, rows)


def check_faults(checks):
    FAULTS.streams(checks, STREAMS)
    FAULTS.failing(checks, FAILING)
    FAULTS.interrupted(checks, INTERRUPTED)


def check_memory(checks):
    FAULTS.refusing(checks, REFUSED_MEMORY)


PAGE = Page("json_lines", [], is_lines=True)


PARTS = (PAGE.check, check_groups, check_rows, check_long_lines, check_beginnings, check_padded, check_deep, check_faults, *shared(check_memory))
