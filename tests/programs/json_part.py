"""Rows of `json_part`: the part of a text at a pointer (RFC 6901).

With the pointer to all of it, it reads a document and writes all of it: so the texts of `jsonnorm` and of `json_lines` are read by it too.
"""

import json

import whole
from checks import shared
from faults import BROKEN, FOLDER, FULL, NO_TEXT, Faults
from long_lines import LongLines, reports_each
from padding import padded_part, padded_rows
from pages import Page, misused
from running import printed, program, reported, run_of
from values import CONTROLS, DEEP, LONG, NESTED, NOT_UTF8, QUOTED, WIDE, normal

DOCUMENT_READER = whole.Reader("json_part", [""], 3)
FAULTS = Faults("json_part", is_stopping=True)


def said(status, words):
    return reported(status, "json_part", words)


# RFC 6901, section 5.
DOCUMENT = {"foo": ["bar", "baz"], "": 0, "a/b": 1, "c%d": 2, "e^f": 3, "g|h": 4, "i\\j": 5, 'k"l': 6, " ": 7, "m~n": 8}
POINTERS = [
    ("", DOCUMENT),
    ("/foo", ["bar", "baz"]),
    ("/foo/0", "bar"),
    ("/", 0),
    ("/a~1b", 1),
    ("/c%d", 2),
    ("/e^f", 3),
    ("/g|h", 4),
    ("/i\\j", 5),
    ('/k"l', 6),
    ("/ ", 7),
    ("/m~0n", 8),
]
NO_PART = ["/foo/00", "/foo/01", "/foo/-", "/foo/2", "/foo/+1", "/x", "/foo/0/a", "//"]
NO_SLASH = ["foo", "~2"]
BAD_ESCAPE = ["/~", "/~2", "/a/~~0", "/~/"]
NO_POINTER = [
    (NO_PART, said(1, "the pointer names no part")),
    (NO_SLASH, said(2, "the pointer begins with no '/'")),
    (BAD_ESCAPE, said(2, "a '~' is followed by neither '0' nor '1'")),
]
TEXT = json.dumps(DOCUMENT, indent=4).encode()

# The arguments, the input, and the answer.
ROWS = [
    ([""], NESTED, printed(NESTED)),
    (["/12"], json.dumps(list(range(100, 120))).encode(), printed(b"112")),
    (["/0" * 1_000], b"[" * 1_000 + b"7" + b"]" * 1_000, printed(b"7")),
    (["/" + "x" * 100_000], b'{"%s": [1.0]}' % (b"x" * 100_000), printed(b"[1]")),
    ([""], LONG, printed(LONG)),
    # The pointer is read first.
    (["x"], b"[1,]", said(2, "the pointer begins with no '/'")),
    ([], TEXT, misused("json_part", "POINTER is missing")),
    ([NOT_UTF8], TEXT, misused("json_part", "an argument is not UTF-8")),
    ([""], b"[1,]", said(3, "Parse error at line:1, col:3: Invalid character: ]")),
    # Control characters are shown by their code points.
    (["/a"], b'{"a":"' + CONTROLS + b'"}', printed(b'"' + QUOTED + b'"')),
    (["/\n\x1b[2J"], b"{}", said(1, "the pointer names no part")),
    (["\n\x1b[2J"], b"{}", said(2, "the pointer begins with no '/'")),
    ([""], b"\x1b", said(3, "Parse error at line:1, col:0: Invalid character: U+001B")),
]

# The same with options.
PLAIN = b'{"b":[],"a":{"c":[1,{}],"d":"x"}}'
INDENTED = json.dumps(json.loads(PLAIN), indent=2, sort_keys=True).encode()
OPTIONS = [
    (["-n", "/x"], TEXT, printed(b"null")),
    (["--null", "/foo/2"], TEXT, printed(b"null")),
    (["-n", "/foo/0"], TEXT, printed(b'"bar"')),
    (["-n", "x"], TEXT, said(2, "the pointer begins with no '/'")),
    (["-n", "/x"], b"[1,]", said(3, "Parse error at line:1, col:3: Invalid character: ]")),
    (["-r", "/foo/0"], TEXT, printed(b"bar")),
    (["--raw", "/foo"], TEXT, printed(b'["bar","baz"]')),
    (["-r", ""], rb'"a\"\\\/\u00e9\ud834\udd1e\n\t"', printed('a"\\/\u00e9\U0001d11e\n\t'.encode())),
    (["-r", ""], b'""', printed(b"")),
    (["-r", ""], b'"' + b"x" * 100_000 + b'"', printed(b"x" * 100_000)),
    (["-rn", "/x"], TEXT, printed(b"null")),
    (["-r", "/x"], TEXT, said(1, "the pointer names no part")),
    (["-i", "/foo"], TEXT, printed(b"[", b'  "bar",', b'  "baz"', b"]")),
    (["--indent", ""], PLAIN, printed(INDENTED)),
    (["-ir", "/foo/1"], TEXT, printed(b"baz")),
    (["-ir", ""], PLAIN, printed(INDENTED)),
    (["/foo/0", "-r"], TEXT, printed(b"bar")),
]


def told(output, *lines):
    """The answer of `json_part -l` that prints this, and reports these lines."""
    return 1, output, b"".join(b"json_part: line %s\n" % line for line in lines)


# Lines, each a text: the arguments, the input, and the answer.
NO_PART_AT = b"%d: the pointer names no part"
MANY = 70_000
LINES = [
    (["-l", "/a"], b"", printed()),
    (["-l", "/a"], b'{"a":1.0}\n{"a":"x"}', printed(b"1", b'"x"')),
    (["--lines", "/a"], b'{"a":1.0}\r\n{"a":[]}\n', printed(b"1", b"[]")),
    (["-l", "/a"], b'{"a":1}\n{}\n{"a":2}', told(b"1\n2\n", NO_PART_AT % 2)),
    (["-ln", "/a"], b'{"a":1}\n{}\n{"a":2}', printed(b"1", b"null", b"2")),
    (["-ln", "/a"], b"{}\n[1,]\n[]\n", told(b"null\nnull\n", b"2, col 3: Invalid character: ]")),
    (["-l", "/a"], b'[1,]\n\n"\xff"\n{"a":3}\n[\n', told(b"3\n", b"1, col 3: Invalid character: ]",
        b"2, col 0: Unexpected EOF", b"3: not UTF-8", b"5, col 1: Unexpected EOF")),
    (["-lr", "/a"], b'{"a":"x\\ny"}\n{"a":"z"}\n', printed(b"x\ny", b"z")),
    (["-li", "/a"], b'{"a":[1]}\n{"a":2}\n', printed(b"[", b"  1", b"]", b"2")),
    (["-l", "x"], b"{}\n", said(2, "the pointer begins with no '/'")),
    (["-l", "/0"], b"[1.0]\n[]\n" * (MANY // 2), told(b"1\n" * (MANY // 2), *(NO_PART_AT % n for n in range(2, MANY + 1, 2)))),
    (["-l", ""], NESTED + b"\n" + LONG, printed(NESTED, LONG)),
]

# How many rows are not padded, and why.
UNPADDED = {"a large text": 4, "no pointer, but one with tokens before it": 4}

# Deep values in what fails, and where memory is refused.
NO_SUCH_PART = said(1, "the pointer names no part")
DEEP_FAILURES = [
    (["/1"], NESTED, NO_SUCH_PART),
    (["/0" * 60_000 + "/1"], NESTED, NO_SUCH_PART),
    (["/0" * 60_000 + "/~2"], NESTED, said(2, "a '~' is followed by neither '0' nor '1'")),
    (["/b/0/x"], b'{"a":%s,"b":[%s]}' % (NESTED, NESTED), NO_SUCH_PART),
    (["/a"], b'{"a":%s,"b":[%s]}' % (NESTED, NESTED), (4, FULL)),
]
DEEP_MEMORY = [(["/a"], b'{"a":[1.5,"x",%s],"b":%s}' % (DEEP, DEEP))]

# Deep lines among others.
DEEP_LINES = [
    (["-l", "/1"], NESTED + b"\n[0,7]\n" + NESTED + b"x\n", told(b"7\n", NO_PART_AT % 1, b"3, col 200001: Expected EOF but got character 'x'")),
    (["-ln", "/b"], b'{"a":%s}\n{"b":%s}\n' % (NESTED, NESTED), printed(b"null", NESTED)),
]
DEEP_LINES_MEMORY = [(["-l", "/a"], b'{"a":[1.5,"x",%s],"b":%s}\n{"b":%s}\n' % (DEEP, DEEP, DEEP))]

# The arguments, an input, and the statuses and words where the input is not UTF-8, can't be read, and where the output can't be written.
STREAMS = [([""], b"1", (3, NO_TEXT), (4, FOLDER), (4, FULL))]

# The arguments, an input, what is printed of it, and the statuses and words where a read and where a write fails.
FAILING = [([""], b"[" + LONG + b", 1.0]", b"[" + LONG + b",1]\n", (4, BROKEN), (4, BROKEN))]

# The same where each line is a text.
MANY_LINES, MANY_PARTS = b'{"a":[1.0]}\n' * 5_000, b"[1]\n" * 5_000
STREAMS_OF_LINES = [(["-l", "/a"], MANY_LINES, (1, "line 1: not UTF-8"), (4, FOLDER), (4, FULL))]
FAILING_LINES = [(["-l", "/a"], MANY_LINES, MANY_PARTS, (4, BROKEN), (4, BROKEN))]
INTERRUPTED_LINES = [(["-l", "/a"], MANY_LINES * 3, MANY_PARTS * 3)]

# Where each request for memory is refused.
REFUSED_MEMORY = [
    (["/a~1b/0"], b'{"a/b":[[1.5,"x"]]}'),
    (["-rn", "/a"], b'{"b":"x"}'),
    (["-i", "/b"], b'{"b":[{"x":1}]}'),
    (["-l", "/a/0"], b'{"a":[[1.5,"x"]]}\n{}\n[1,]\n{"a":[2]}\n'),
    (["-lnri", "/a/0"], b'{"a":["x"]}\n{}\n\xff\n{"a":[[2]]}\n'),
]


def check_rows(checks):
    for row in POINTERS:
        pointer, part = row
        checks.row(f"json_part: {pointer}", printed(normal(part)), run_of, program("json_part"), [pointer], TEXT, at=row)
    for row in NO_POINTER:
        pointers, expected = row
        for pointer in pointers:
            checks.row(f"json_part: {pointer}", expected, run_of, program("json_part"), [pointer], TEXT, at=row)
    for row in (*ROWS, *OPTIONS, *LINES):
        words, given, expected = row
        name = f"json_part: {[word[:60] for word in words]} {given[:60]}"
        checks.row(name, expected, run_of, program("json_part"), words, given, at=row)


LONG_LINES = LongLines("json_part", ["-l", ""], reports_each("json_part"), is_going=True)


def in_files(checks):
    """The answer for files of lines: one with lines that are refused, one that is not there, and a good one."""
    words = ["-l", "/a", "bad", "none", "good"]
    for name, text in (("bad", b'{"a":1}\n{}\n[,]\n\xff\n'), ("good", b'{"a":2}\n')):
        with open(f"{checks.folder}/{name}", "wb") as file:
            file.write(text)
    return run_of(program("json_part"), words, cwd=checks.folder)


def in_many_files(folder, names):
    """The answer for a file by all these names, which are one."""
    with open(f"{folder}/{names[0]}", "wb") as file:
        file.write(b'{"a":2}')
    return run_of(program("json_part"), ["/a", *names], cwd=folder)


def check_lines(checks):
    """Each pointer of the RFC, in lines of which the second has no part, as they are and padded."""
    for row in POINTERS[1:]:
        pointer, part = row
        line, answer = json.dumps(DOCUMENT).encode(), normal(part)
        wide, text, (_, output, _) = padded_part(pointer, line, printed(answer))
        for pointer, line, answer in ((pointer, line, answer), (wide, text, output[:-1])):
            given = line + b"\n{}\n" + line + b"\n"
            name = f"json_part -l: {pointer[-60:]} {len(given)}"
            checks.row(name, told(answer + b"\n" + answer + b"\n", NO_PART_AT % 2), run_of, program("json_part"), ["-l", pointer], given, at=row)
            name = f"json_part -ln: {pointer[-60:]} {len(given)}"
            checks.row(name, printed(answer, b"null", answer), run_of, program("json_part"), ["-ln", pointer], given, at=row)
    words = b"bad:2: the pointer names no part\nbad:3:1: Invalid character: ,\nbad:4: not UTF-8\n"
    answer = (4, b"1\n2\n", words + b"none: No such file or directory (os error 2)\n")
    checks.row("json_part -l: files", answer, in_files, checks)
    checks.row("json_part: many files", printed(*[b"2"] * WIDE), in_many_files, checks.folder, ["often"] * WIDE)
    checks.row("json_part: --max-line without -l", printed(b"[1,2]"), run_of, program("json_part"), ["-m2", ""], b"[1,\n2]")
    checks.row("json_part: -l, --max-line without a number", misused("json_part", "no number of 1 to 9 digits after -m"), run_of,
        program("json_part"), ["-lm", ""], b"1")


def check_groups(checks):
    """The texts that `json_lines` accepts, those of a group as the items of one value."""
    for name, rows in whole.groups():
        accepted = [row for row in checks.some(list(rows)) if len(row) == 2]
        text, compact = whole.as_items(accepted) if accepted else (b"[]", b"[]")
        DOCUMENT_READER.check(checks, f"{name}, as the items of a value", text, compact)


def check_padded(checks):
    """The same with more members in each object, and more items in each array, under many levels."""
    rows = [(row, pointer, TEXT, printed(normal(part))) for row in POINTERS for pointer, part in [row]]
    rows += [(row, pointer, TEXT, row[1]) for row in NO_POINTER for pointer in row[0]]
    rows += [(row, words[0], *rest) for row in ROWS for words, *rest in [row] if rest[-1][0] != 2 or words not in ([], [NOT_UTF8])]
    for row, (pointer, given, expected) in padded_rows(checks, "json_part", rows, padded_part, UNPADDED):
        checks.row(f"json_part: padded {pointer[-60:]}", expected, run_of, program("json_part"), [pointer], given, at=row)


def check_deep(checks):
    FAULTS.deep(checks, DEEP_FAILURES + DEEP_LINES)
    FAULTS.refusing_deep(checks, DEEP_MEMORY + DEEP_LINES_MEMORY)


def check_faults(checks):
    FAULTS.streams(checks, STREAMS)
    FAULTS.failing(checks, FAILING)
    FAULTS.streams(checks, STREAMS_OF_LINES)
    FAULTS.failing(checks, FAILING_LINES)
    FAULTS.interrupted(checks, INTERRUPTED_LINES)
    FAULTS.refusing(checks, REFUSED_MEMORY)


PAGE = Page("json_part", [""])


def check_pipes(checks):
    Page("json_part", ["-l", ""], is_lines=True).check_pipes(checks)


PARTS = (
    PAGE.check,
    check_groups,
    check_rows,
    check_lines,
    LONG_LINES.check,
    check_pipes,
    check_padded,
    check_deep,
    check_faults,
    *shared(DOCUMENT_READER.check_inputs),
    DOCUMENT_READER.check_padded,
    DOCUMENT_READER.check_sizes,
    DOCUMENT_READER.check_wide,
    DOCUMENT_READER.check_large,
    DOCUMENT_READER.check_nested,
    DOCUMENT_READER.check_deep_members,
)
