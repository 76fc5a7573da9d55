"""Rows of `json_store`: for each line, how often its value was counted so far."""

from faults import BROKEN, FOLDER, FULL, Faults
from long_lines import LongLines
from padding import padded_lines, padded_rows
from pages import Page
from running import printed, program, reported, run_of
from values import CONTROLS, DEEP, LONG, NESTED, QUOTED

FAULTS = Faults("json_store")

# More lines than 16 bits count.
MANY = 70_000

# The lines, and the answer.
LINES = [
    (b"", printed()),
    (b'{"a": 1, "b": [2.0]}\n[]\r\n{"b": [20e-1], "a": 1}', printed(b'1 {"a":1,"b":[2]}', b"1 []", b'2 {"a":1,"b":[2]}')),
    (b"1\n[1,]\n2\n", reported(3, "json_store", "line 2, col 3: Invalid character: ]", b"1 1\n")),
    (b"1.0\n1\n\n", reported(3, "json_store", "line 3, col 0: Unexpected EOF", b"1 1\n2 1\n")),
    (b'1\n"\xff"\n[', reported(3, "json_store", "line 2: not UTF-8", b"1 1\n")),
    (NESTED, printed(b"1 " + NESTED)),
    (b"".join(b"%d.0\n" % i for i in range(MANY)), printed(*[b"1 %d" % i for i in range(MANY)])),
    (b'{"a":[]}\n' * MANY, printed(*[b'%d {"a":[]}' % (i + 1) for i in range(MANY)])),
    (LONG + b"\n" + LONG, printed(b"1 " + LONG, b"2 " + LONG)),
]

# Control characters are shown by their code points.
CLEAN = [
    (b'"' + CONTROLS + b'"', printed(b'1 "' + QUOTED + b'"')),
    (b"[\x1b]", reported(3, "json_store", "line 1, col 1: Invalid character: U+001B")),
]

# How many rows are not padded, and why.
UNPADDED = {"a large text": 4}

# Deep lines in what fails, and where memory is refused.
DEEP_FAILURES = [
    ([], b"1\n" + NESTED + b"x\n2", reported(3, "json_store", "line 2, col 200001: Expected EOF but got character 'x'", b"1 1\n")),
    ([], b"[1,]\n" + NESTED, reported(3, "json_store", "line 1, col 3: Invalid character: ]")),
    ([], NESTED, (4, FULL)),
]
DEEP_MEMORY = [([], b'%s\n{"b":1,"a":%s}\n%s' % (DEEP, DEEP, DEEP))]

# The arguments, an input, and the statuses and words where the input is not UTF-8, can't be read, and where the output can't be written.
STREAMS = [([], b"1", (3, "line 1: not UTF-8"), (4, FOLDER), (4, FULL))]

# The arguments, an input, what is printed of it, and the statuses and words where a read and where a write fails.
FAILING = [([], LONG, b"1 " + LONG + b"\n", (4, BROKEN), (4, BROKEN))]

# Where each read is interrupted.
INTERRUPTED = [([], LONG, b"1 " + LONG + b"\n")]

# Where each request for memory is refused.
REFUSED_MEMORY = [([], b'{"a":[1,"x"]}\n[]\n{"a":[1.0,"x"]}\n[1,]')]


def limited(lines):
    """The answer for lines, of which the last may be longer than a limit."""
    texts = [line for line in lines if not isinstance(line, int)]
    output = b"".join(b"%d %s\n" % (texts[:at].count(line) + 1, line) for at, line in enumerate(texts))
    long = [b"json_store: line %d: longer than %d bytes\n" % (at, line) for at, line in enumerate(lines, 1) if isinstance(line, int)]
    return 3 * bool(long), output, b"".join(long)


def check_rows(checks):
    for row in (*LINES, *CLEAN):
        given, expected = row
        checks.row(f"json_store: {given[:60]}", expected, run_of, program("json_store"), [], given, at=row)


def check_padded(checks):
    """The same lines with more members in each object, and more items in each array."""
    rows = [(row, *row) for row in (*LINES, *CLEAN)]
    pad = lambda given, expected: padded_lines(given, expected, prefix=rb"\d+ ")
    for row, (given, expected) in padded_rows(checks, "json_store", rows, pad, UNPADDED):
        checks.row(f"json_store: padded {row[0][:60]}", expected, run_of, program("json_store"), [], given, at=row)


def check_deep(checks):
    FAULTS.deep(checks, DEEP_FAILURES)
    FAULTS.refusing_deep(checks, DEEP_MEMORY)


def check_faults(checks):
    FAULTS.streams(checks, STREAMS)
    FAULTS.failing(checks, FAILING)
    FAULTS.interrupted(checks, INTERRUPTED)
    FAULTS.refusing(checks, REFUSED_MEMORY)


PAGE = Page("json_store", [], is_lines=True)

LONG_LINES = LongLines("json_store", [], limited, is_going=False)


PARTS = (PAGE.check, LONG_LINES.check, check_rows, check_padded, check_deep, check_faults)
