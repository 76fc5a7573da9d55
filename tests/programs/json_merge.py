"""Rows of `json_merge`: a text with a merge patch applied (RFC 7396)."""

import json
import os

from faults import BROKEN, FOLDER, FULL, NO_TEXT, Faults
from long_lines import LongLines, reports_each
from padding import padded_merge, padded_rows
from pages import Page, misused
from places import TOP
from replaced import InPlace
from document_rows import MERGES
from running import printed, program, reported, run_of
from values import DEEP, LONG, NESTED, NOT_UTF8, normal, wide

FAULTS = Faults("json_merge")

# A file of a merge patch, and the members that it adds.
PATCH = f"{TOP}/crates/json_merge/data/patch.json"
ADDED = b'"author":{},"phoneNumber":"+01-123-456-7890","tags":["example"],"title":"Hello!"'

# RFC 7396, appendix A: the value, the patch, and the result.
MERGED = [*MERGES]

# Its section 2: the kinds of the value, nulls, members that are missing, and of equal members the last.
MERGED += [
    ("[1]", "{}", "{}"),
    ("null", '{"a":{"b":null}}', '{"a":{}}'),
    ('{"a":1}', '{"b":null}', '{"a":1}'),
    ('{"a":null,"b":null}', '{"b":null}', '{"a":null}'),
    ('{"a":1}', '{"a":[null,{"b":null}]}', '{"a":[null,{"b":null}]}'),
    ('{"a":"x"}', '{"a":{"b":1,"c":null}}', '{"a":{"b":1}}'),
    ('{"a":{"b":1}}', '{"a":1,"a":{"c":2}}', '{"a":{"b":1,"c":2}}'),
    ('{"a":{"b":1}}', '{"a":{"c":2},"a":null}', "{}"),
    ('{"a":1,"a":{"b":2}}', '{"a":{}}', '{"a":{"b":2}}'),
    ('{"":1}', '{"":{"":null}}', '{"":{}}'),
]


def nested(depth, inner):
    """This many objects, each in the member `a` of the one around it, and the text that is innermost."""
    return b'{"a":' * depth + inner + b"}" * depth


# How many containers are nested in a patch, and in a deep one.
DEPTH, DEEPEST = 1_000, 300_000

# The value, the patch, and the answer.
LONG_MERGES = [
    (NESTED, b"{}", printed(b"{}")),
    (NESTED, b"1.0", printed(b"1")),
    (b'{"a":%s,"b":%s,"c":{"d":%s}}' % ((NESTED,) * 3), b'{"a":null,"c":{"d":0}}', printed(b'{"b":%s,"c":{"d":0}}' % NESTED)),
    (b"[]", nested(DEPTH, b"null"), printed(nested(DEPTH - 1, b"{}"))),
    (b"[]", nested(DEEPEST, b"null"), printed(nested(DEEPEST - 1, b"{}"))),
    (nested(DEEPEST, b"1"), nested(DEEPEST, b"[null]"), printed(nested(DEEPEST, b"[null]"))),
    (b"{}", nested(DEEPEST, b"1]"), reported(2, "json_merge", "the patch: Parse error at line:1, col:1500002: ',' or '}' is expected for object but actually found ']'")),
    (b'{"a":1}', b'{"b":%s}' % LONG, printed(b'{"a":1,"b":%s}' % LONG)),
    (b'{"a":%s}' % LONG, b'{"b":1}', printed(b'{"a":%s,"b":1}' % LONG)),
    # Members that are replaced, and that are removed.
    (wide(0).encode(), wide(1).encode(), printed(wide(1).encode())),
    (wide(0).encode(), wide("null").encode(), printed(b"{}")),
    # The patch is read first.
    (b"{", b"[1,]", reported(2, "json_merge", "the patch: Parse error at line:1, col:3: Invalid character: ]")),
    (b"[1,]", b"{}", reported(3, "json_merge", "Parse error at line:1, col:3: Invalid character: ]")),
    (b"1", b"", reported(2, "json_merge", "the patch: Parse error at line:1, col:0: Unexpected EOF")),
    (b"1", NOT_UTF8, reported(2, "json_merge", "patch:1:0: not UTF-8")),
]

# How many rows are not padded, and why.
UNPADDED = {"a large text": 10}

# The arguments, the input, and the answer.
ROWS = [
    ([], b"1", misused("json_merge", "PATCH is missing")),
    ([NOT_UTF8], b"1", misused("json_merge", "an argument is not UTF-8")),
    (["/none"], b"1", reported(2, "json_merge", "/none: No such file or directory (os error 2)")),
    (["/"], b"1", reported(2, "json_merge", "/: Is a directory (os error 21)")),
    # Control characters are shown by their code points.
    ([PATCH], b"\x1b", reported(3, "json_merge", "Parse error at line:1, col:0: Invalid character: U+001B")),
]

# The arguments, an input, and the statuses and words where the input is not UTF-8, can't be read, and where the output can't be written.
STREAMS = [([PATCH], b"1", (3, NO_TEXT), (4, FOLDER), (4, FULL))]

# The arguments, an input, what is printed of it, and the statuses and words where a read and where a write fails.
FAILING = [([PATCH], b'{"a":%s}' % LONG, b'{"a":%s,%s}\n' % (LONG, ADDED), (4, BROKEN), (4, BROKEN))]

# Where each request for memory is refused: a patch that replaces, removes, adds and merges.
CHANGED = b'{"title":"","author":{"familyName":[[{"a":1.5}]],"b":"x"},"tags":{"a":[1]},"c":[{"d":[]}]}'
REFUSED_MEMORY = [
    ([PATCH], CHANGED),
    (["-i", "-p2", PATCH, PATCH], CHANGED),
    (["-l", PATCH], b'{"a":[1.5]}\n[1,]\n\xff\n[{"b":"x"}]\n'),
]

# The same where each line is a text.
MANY, MANY_MERGED = b'{"zz":[1.0]}\n' * 5_000, b'{%s,"zz":[1]}\n' % ADDED * 5_000
STREAMS_OF_LINES = [(["-l", PATCH], MANY, (1, "line 1: not UTF-8"), (4, FOLDER), (4, FULL))]
FAILING_LINES = [(["-l", PATCH], MANY, MANY_MERGED, (4, BROKEN), (4, BROKEN))]
INTERRUPTED_LINES = [(["-l", PATCH], MANY * 3, MANY_MERGED * 3)]


# Deep values in what fails, and where memory is refused: members that the patch merges into, replaces, and leaves.
DEEP_FAILURES = [
    ([PATCH], NESTED + b"x", reported(3, "json_merge", "Parse error at line:1, col:200001: Expected EOF but got character 'x'")),
    ([PATCH], b'{"a":%s,"author":{"b":%s}}' % (NESTED, NESTED), (4, FULL)),
]
DEEP_MEMORY = [([PATCH], b'{"title":%s,"author":{"familyName":%s,"b":%s},"c":%s}' % ((DEEP,) * 4))]


def merged(folder, patch, given):
    """The answer to a patch, from a file."""
    return merged_by(folder, [], [patch], given)


def merged_by(folder, words, patches, given):
    """The answer to some patches, each from a file."""
    names = [f"patch{place or ''}" for place in range(len(patches))]
    for name, patch in zip(names, patches):
        with open(os.path.join(folder, name), "wb") as file:
            file.write(patch)
    return run_of(program("json_merge"), [*words, *names], given, cwd=folder)


def told(output, *lines):
    """The answer of `json_merge -l` that prints this, and reports these lines."""
    return 1, output, b"".join(b"json_merge: line %s\n" % line for line in lines)


# The arguments, the patches, the input, and the answer. Patches in order: RFC 7396 applies one to the result of another.
SET, NULL, NEST = b'{"a":1}', b'{"a":null}', b'{"a":{"b":2}}'
OPTIONS = [
    (["-i"], [SET], b'{"b":[]}', printed(b"{", b'  "a": 1,', b'  "b": []', b"}")),
    (["--indent"], [b"[1.0]"], b"{}", printed(b"[", b"  1", b"]")),
    (["-p2"], [SET, NULL], b'{"b":2}', printed(b'{"b":2}')),
    (["-p2"], [NULL, SET], b'{"b":2}', printed(b'{"a":1,"b":2}')),
    (["--patches=2"], [NEST, b'{"a":{"c":3}}'], b"[]", printed(b'{"a":{"b":2,"c":3}}')),
    (["-p", "3"], [SET, b'"x"', b'{"c":[null]}'], b"{}", printed(b'{"c":[null]}')),
    (["-p1"], [SET], b"{}", printed(SET)),
    (["-p2"], [SET, b"[1,]"], b"{}", reported(2, "json_merge", "the patch: Parse error at line:1, col:3: Invalid character: ]")),
    (["-p2"], [SET], b"{}", misused("json_merge", "PATCH is missing")),
    (["-p"], [], b"{}", misused("json_merge", "no number of 1 to 9 digits after -p")),
    (["-l"], [SET], b"", printed()),
    (["-l"], [SET], b'{"b":2}\n[]\n1', printed(b'{"a":1,"b":2}', SET, SET)),
    (["--lines"], [NULL], b'{"a":[1]}\n[1,]\n\n"\xff"\n{"a":1,"b":2.0}\n', told(b'{}\n{"b":2}\n', b"2, col 3: Invalid character: ]",
        b"3, col 0: Unexpected EOF", b"4: not UTF-8")),
    (["-lp2"], [SET, NEST], b"{}\n{}\n", printed(NEST, NEST)),
    (["-li"], [SET], b"{}\n{}", printed(*[b"{", b'  "a": 1', b"}"] * 2)),
    (["-l"], [b"[1,]"], b"{}\n", reported(2, "json_merge", "the patch: Parse error at line:1, col:3: Invalid character: ]")),
    (["-l"], [NULL], b'{"a":1}\nx\n' * 35_000, told(b"{}\n" * 35_000, *(b"%d, col 0: Invalid character: x" % n for n in range(2, 70_001, 2)))),
    (["-l"], [SET], NESTED + b"\n" + b'{"b":%s}' % NESTED, printed(SET, b'{"a":1,"b":%s}' % NESTED)),
]


def check_rows(checks):
    for row in MERGED:
        given, patch, result = (it.encode() for it in row)
        name = f"json_merge: {patch[:60]} {given[:60]}"
        checks.row(name, printed(result), merged, checks.folder, patch, given, at=row)
    for row in LONG_MERGES:
        given, patch, expected = row
        checks.row(f"json_merge: {patch[:60]} {given[:60]}", expected, merged, checks.folder, patch, given, at=row)
    for row in ROWS:
        words, given, expected = row
        checks.row(f"json_merge: {words} {given}", expected, run_of, program("json_merge"), words, given, at=row)
    for row in OPTIONS:
        words, patches, given, expected = row
        name = f"json_merge: {words} {patches} {given[:60]}"
        checks.row(name, expected, merged_by, checks.folder, words, patches, given, at=row)


def check_lines(checks):
    """Each row of the RFC, in lines of which the second is refused, as it is and padded."""
    for row in MERGED:
        given, patch, result = (it.encode() for it in row)
        for given, patch, result in ((given, patch, result), padded_merge(given, patch, result)):
            lines = given + b"\n[,]\n" + given + b"\n"
            answer = told(result + b"\n" + result + b"\n", b"2, col 1: Invalid character: ,")
            name = f"json_merge -l: {patch[-60:]} {given[:60]} {len(given)}"
            checks.row(name, answer, merged_by, checks.folder, ["-l"], [patch], lines, at=row)
    answer = printed(b"{%s}" % ADDED)
    checks.row("json_merge: --max-line without -l", answer, run_of, program("json_merge"), ["-m2", PATCH], b"[1,\n2]")


def check_padded(checks):
    """The rows of a value and its result with more members in each object, also of the patch, and more items in each array."""
    rows = [(row, *(it.encode() for it in row)) for row in MERGED]
    rows += [(row, given, patch, expected[1][:-1]) for row in LONG_MERGES for given, patch, expected in [row] if expected[0] == 0]
    for row, (given, patch, result) in padded_rows(checks, "json_merge", rows, padded_merge, UNPADDED):
        name = f"json_merge: padded {row[1][:60]} {row[0][:60]}"
        checks.row(name, printed(result), merged, checks.folder, patch, given, at=row)


def check_faults(checks):
    FAULTS.streams(checks, STREAMS)
    FAULTS.failing(checks, FAILING)
    FAULTS.streams(checks, STREAMS_OF_LINES)
    FAULTS.failing(checks, FAILING_LINES)
    FAULTS.interrupted(checks, INTERRUPTED_LINES)
    FAULTS.refusing(checks, REFUSED_MEMORY)


def check_deep(checks):
    lines = NESTED + b"x\n1\n" + NESTED
    answer = told(b"{%s}\n" % ADDED * 2, b"1, col 200001: Expected EOF but got character 'x'")
    with open(PATCH, "rb") as file:
        kept = normal(json.loads(file.read()))
    added = printed(b'{"a":%s,%s' % (nested(DEEPEST - 2, b"{}"), kept[1:]))
    FAULTS.deep(checks, [*DEEP_FAILURES, (["-l", PATCH], lines, answer), (["-", PATCH], nested(DEEPEST, b"null"), added)])
    FAULTS.refusing_deep(checks, DEEP_MEMORY)


PAGE = Page("json_merge", [PATCH])

IN_PLACE = InPlace("json_merge", [PATCH], b'{"b":1.0}', b'{%s}\n' % ADDED.replace(b'"phone', b'"b":1,"phone'))

LONG_LINES = LongLines("json_merge", ["-l", PATCH], reports_each("json_merge", lambda line: b"{%s}" % ADDED), is_going=True)


PARTS = (PAGE.check, check_rows, check_lines, IN_PLACE.check, LONG_LINES.check, check_padded, check_deep, check_faults)
