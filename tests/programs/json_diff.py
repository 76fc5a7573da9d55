"""Rows of `json_diff`: the patch (RFC 6902) or the merge patch (RFC 7396) that leads from one text to another."""

import json
import os
import random

from faults import BROKEN, FOLDER, FULL, NO_TEXT, Faults
from json_merge import MERGED
from json_patch import APPLIED, operation, patched
from pages import Page, misused
from places import TOP
from running import printed, program, reported, run_of
from values import LONG, NESTED, NOT_UTF8, WIDE_KEYS, normal, wide

FAULTS = Faults("json_diff")

# The programs that are run: what a patch leads to is what json_patch prints.
PROGRAMS = ("json_diff", "json_patch")

# A file of an old text, and the members that lead away from it.
OLD = f"{TOP}/crates/json_diff/data/old.json"
REMOVED = b'"author":null,"content":null,"tags":null,"title":null'

NO_PATCH = "no merge patch sets a member to null: "

# The old text, the new one, and the operations, by section 4 of RFC 6902: the members that one object has alone are removed or added,
# and the items at the end of one array; of both the parts that differ are replaced. Removals come first.
OPERATIONS = [
    ("1", "1.0", []),
    ('{"a":1,"b":[2]}', '{"b":[2.0],"a":1}', []),
    ("1", "2", [("replace", "", "2")]),
    ("[1]", '{"0":1}', [("replace", "", '{"0":1}')]),
    ("null", "false", [("replace", "", "false")]),
    ('{"a":1}', "null", [("replace", "", "null")]),
    # RFC 6902, appendix A: 1, 3, 5, 10 and 16.
    ('{"foo":"bar"}', '{"baz":"qux","foo":"bar"}', [("add", "/baz", '"qux"')]),
    ('{"baz":"qux","foo":"bar"}', '{"foo":"bar"}', [("remove", "/baz")]),
    ('{"baz":"qux","foo":"bar"}', '{"baz":"boo","foo":"bar"}', [("replace", "/baz", '"boo"')]),
    ('{"foo":"bar"}', '{"child":{"grandchild":{}},"foo":"bar"}', [("add", "/child", '{"grandchild":{}}')]),
    ('{"foo":["bar"]}', '{"foo":["bar",["abc","def"]]}', [("add", "/foo/1", '["abc","def"]')]),
    # Members, in the order of their keys.
    ('{"c":1,"a":2}', '{"d":3,"b":4}', [("remove", "/a"), ("remove", "/c"), ("add", "/b", "4"), ("add", "/d", "3")]),
    ('{"a":null}', "{}", [("remove", "/a")]),
    ("{}", '{"a":null}', [("add", "/a", "null")]),
    ('{"a":null}', '{"a":1}', [("replace", "/a", "1")]),
    ('{"a":{"b":1,"c":2}}', '{"a":{"b":1,"d":2}}', [("remove", "/a/c"), ("add", "/a/d", "2")]),
    ('{"a":{}}', '{"a":[]}', [("replace", "/a", "[]")]),
    ('{"a":{"b":1}}', '{"a":{}}', [("remove", "/a/b")]),
    # Keys that are escaped, empty ones, and those that look like indices.
    ('{"a/b":1,"m~n":2}', '{"a/b":3}', [("remove", "/m~0n"), ("replace", "/a~1b", "3")]),
    ('{"~1":{"/":1}}', '{"~1":{"/":1,"~":2}}', [("add", "/~01/~0", "2")]),
    ('{"":{"":1}}', '{"":{"":2}}', [("replace", "//", "2")]),
    ("{}", '{"":1}', [("add", "/", "1")]),
    ('{"0":[1],"-":2}', '{"0":[1,2]}', [("remove", "/-"), ("add", "/0/1", "2")]),
    ('{"\\u0000":1}', '{"\\u0000":2}', [("replace", "/\0", "2")]),
    # Items.
    ("[1,2,3]", "[1]", [("remove", "/2"), ("remove", "/1")]),
    ("[1]", "[1,2,3]", [("add", "/1", "2"), ("add", "/2", "3")]),
    ("[1,2,3]", "[4,2]", [("remove", "/2"), ("replace", "/0", "4")]),
    ("[]", "[[]]", [("add", "/0", "[]")]),
    ("[1]", "[]", [("remove", "/0")]),
    ("[[1,2],[3]]", "[[1],[3,4]]", [("remove", "/0/1"), ("add", "/1/1", "4")]),
    ('[{"a":1}]', '[{"a":2},5]', [("replace", "/0/a", "2"), ("add", "/1", "5")]),
    (f"[{'0,' * 11}1]", f"[{'0,' * 11}2,3]", [("replace", "/11", "2"), ("add", "/12", "3")]),
]

# The old text, the new one, and the merge patch, by section 2 of RFC 7396: null removes a member, an object is merged member by member,
# and any other value replaces what is there.
PATCHES = [
    ('{"a":"b"}', '{"a":"c"}', '{"a":"c"}'),
    ('{"a":"b"}', '{"a":"b","b":"c"}', '{"b":"c"}'),
    ('{"a":"b","b":"c"}', '{"b":"c"}', '{"a":null}'),
    ('{"a":{"b":"c","d":1}}', '{"a":{"b":"d","d":1}}', '{"a":{"b":"d"}}'),
    ('{"a":{"b":{"c":1}},"d":[1]}', '{"a":{"b":{}},"d":[1]}', '{"a":{"b":{"c":null}}}'),
    ('{"a":1.0,"b":2}', '{"b":2.0,"a":1}', "{}"),
    ('{"a":null}', '{"a":null,"b":1}', '{"b":1}'),
    ('{"a":null}', '{"a":1}', '{"a":1}'),
    ('{"a":null}', "{}", '{"a":null}'),
    ('{"a":[1,2]}', '{"a":[1,null]}', '{"a":[1,null]}'),
    ('{"a":[1]}', '{"a":[{"b":null}]}', '{"a":[{"b":null}]}'),
    ('{"a":1}', '{"a":{}}', '{"a":{}}'),
    ('{"a":[]}', '{"a":{}}', '{"a":{}}'),
    ('{"a":{}}', '{"a":[]}', '{"a":[]}'),
    ('{"a":{"b":1}}', '{"a":true}', '{"a":true}'),
    ("{}", '{"a":{"b":{}}}', '{"a":{"b":{}}}'),
    ("[1]", '{"a":{"b":1}}', '{"a":{"b":1}}'),
    ("null", "{}", "{}"),
    ("{}", "null", "null"),
    ("[1,2]", "[1]", "[1]"),
    ("1", "1.0", "1"),
    ("[]", "[]", "[]"),
    ("{}", "{}", "{}"),
    ('{"":{"":1}}', '{"":{}}', '{"":{"":null}}'),
]

# The old text, the new one, and the place of the null to which no patch leads.
NONE = [
    ("{}", '{"a":null}', "/a"),
    ('{"a":1}', '{"a":null}', "/a"),
    ('{"a":{"b":1,"c":2}}', '{"a":{"b":null,"c":2}}', "/a/b"),
    ("[null]", '{"a":{"b/c":null}}', "/a/b~1c"),
    ('{"x":{"a":null}}', '{"y":{"a":null}}', "/y/a"),
    ('{"a":null}', '{"a":{"\\u001b":null}}', "/a/U+001B"),
    ("1", '{"":null}', "/"),
]

# How many containers of a text may be nested.
DEPTH = 1_000


def nested(middle, depth=DEPTH):
    return b'{"a":' * depth + middle + b"}" * depth


# The old text, the new one, and the answer.
LONG_ROWS = [
    (nested(b"1"), nested(b"2"), printed(nested(b"2"))),
    (nested(b'1,"b":3'), nested(b"1"), printed(nested(b'{"b":null}', DEPTH - 1))),
    (b"1", nested(b"2"), printed(nested(b"2"))),
    (b"1", nested(b"null"), reported(1, "json_diff", NO_PATCH + "/a" * DEPTH)),
    (b"1", nested(b"{}"), reported(3, "json_diff", "Parse error at line:1, col:5000: Nesting is too deep at '{'")),
    (nested(b"{}"), b"1", reported(2, "json_diff", "the old text: Parse error at line:1, col:5000: Nesting is too deep at '{'")),
    (b'{"a":%s}' % LONG, b'{"a":%s,"b":1}' % LONG, printed(b'{"b":1}')),
    (b'{"b":1}', b'{"a":%s}' % LONG, printed(b'{"a":%s,"b":null}' % LONG)),
    # Members that are replaced, and that are removed.
    (wide(0).encode(), wide(1).encode(), printed(wide(1).encode())),
    (wide(0).encode(), b"{}", printed(wide("null").encode())),
    # The old text is read first.
    (b"[1,]", b"{", reported(2, "json_diff", "the old text: Parse error at line:1, col:3: Invalid character: ]")),
    (b"{}", b"[1,]", reported(3, "json_diff", "Parse error at line:1, col:3: Invalid character: ]")),
    (b"", b"1", reported(2, "json_diff", "the old text: Parse error at line:1, col:0: Unexpected EOF")),
    (NOT_UTF8, b"1", reported(2, "json_diff", "old:1:0: not UTF-8")),
    (NESTED, b"1", reported(2, "json_diff", "the old text: Parse error at line:1, col:1000: Nesting is too deep at '['")),
]


def at_each_key(operation):
    """The text of a patch with an operation for each key."""
    return ("[" + ",".join(operation % key for key in WIDE_KEYS) + "]").encode()


# The same of operations.
LONG_OPERATIONS = [
    (nested(b"1"), nested(b"2"), printed(b'[{"op":"replace","path":"%s","value":2}]' % (b"/a" * DEPTH))),
    (nested(b"{}", DEPTH - 1), nested(b'{"b":1}', DEPTH - 1), printed(b'[{"op":"add","path":"%s/b","value":1}]' % (b"/a" * (DEPTH - 1)))),
    (b"[" * DEPTH + b"]" * DEPTH, b"[" * DEPTH + b"1" + b"]" * DEPTH,
        printed(b'[{"op":"add","path":"%s","value":1}]' % (b"/0" * DEPTH))),
    (b"1", nested(b"null"), printed(b'[{"op":"replace","path":"","value":%s}]' % nested(b"null"))),
    (b"1", nested(b"{}"), reported(3, "json_diff", "Parse error at line:1, col:5000: Nesting is too deep at '{'")),
    (b'{"a":%s}' % LONG, b'{"a":%s,"b":1}' % LONG, printed(b'[{"op":"add","path":"/b","value":1}]')),
    (wide(0).encode(), wide(1).encode(), printed(at_each_key('{"op":"replace","path":"/%s","value":1}'))),
    (wide(0).encode(), b"{}", printed(at_each_key('{"op":"remove","path":"/%s"}'))),
    (b"[1,]", b"{", reported(2, "json_diff", "the old text: Parse error at line:1, col:3: Invalid character: ]")),
    (b"{}", b"[1,]", reported(3, "json_diff", "Parse error at line:1, col:3: Invalid character: ]")),
]

# The arguments, the input, and the answer.
ROWS = [
    ([], b"1", misused("json_diff", "OLD is missing")),
    (["-m"], b"1", misused("json_diff", "OLD is missing")),
    ([OLD], b"1", printed(b'[{"op":"replace","path":"","value":1}]')),
    ([OLD, OLD, "-"], b"[]", printed(b"[]", b'[{"op":"replace","path":"","value":[]}]')),
    (["-i", OLD, OLD], b"", printed(b"[]")),
    (["-i", OLD], b"1", printed(b"[", b"  {", b'    "op": "replace",', b'    "path": "",', b'    "value": 1', b"  }", b"]")),
    (["/none"], b"1", reported(2, "json_diff", "/none: No such file or directory (os error 2)")),
    (["-m", NOT_UTF8], b"1", misused("json_diff", "an argument is not UTF-8")),
    (["-m", "/none"], b"1", reported(2, "json_diff", "/none: No such file or directory (os error 2)")),
    (["-m", "/"], b"1", reported(2, "json_diff", "/: Is a directory (os error 21)")),
    (["--merge", OLD], b"{}", printed(b"{%s}" % REMOVED)),
    (["-m", OLD, OLD], b"", printed(b"{}")),
    (["-m", OLD, OLD, "-"], b"[]", printed(b"{}", b"[]")),
    (["-mi", OLD], b'{"title":[1.0],"tags":["example","sample"]}',
        printed(b"{", b'  "author": null,', b'  "content": null,', b'  "title": [', b"    1", b"  ]", b"}")),
    (["-m", OLD], b"\x1b", reported(3, "json_diff", "Parse error at line:1, col:0: Invalid character: U+001B")),
]

# The arguments, an input, and the statuses and words where the input is not UTF-8, can't be read, and where the output can't be written.
STREAMS = [(words, b"1", (3, NO_TEXT), (4, FOLDER), (4, FULL)) for words in ([OLD], ["-m", OLD])]

# The arguments, an input, what is printed of it, and the statuses and words where a read and where a write fails.
FAILING = [(["-m", OLD], b'{"a":%s}' % LONG, b'{"a":%s,%s}\n' % (LONG, REMOVED), (4, BROKEN), (4, BROKEN))]

# Where each request for memory is refused: members that are removed, added, replaced, equal and merged, and a null.
CHANGED = b'{"title":"","author":{"familyName":[[{"a":1.5}]],"b":"x"},"tags":["example","sample"],"c":{"d":[]}}'
REFUSED_MEMORY = [(["-m", OLD], CHANGED), (["-mi", OLD], CHANGED), (["-m", OLD], b'{"title":{"a":{"b":null}}}'), ([OLD], CHANGED)]


def compared(folder, old, new, words=("-m",)):
    """The answer for two texts, the old one from a file."""
    with open(os.path.join(folder, "old"), "wb") as file:
        file.write(old)
    return run_of(program("json_diff"), [*words, "old"], new, cwd=folder)


def merge(target, patch):
    """`MergePatch(Target, Patch)` of RFC 7396, section 2."""
    if not isinstance(patch, dict):
        return patch
    target = dict(target) if isinstance(target, dict) else {}
    for name, value in patch.items():
        if value is None:
            target.pop(name, None)
        else:
            target[name] = merge(target.get(name), value)
    return target


def thinner(patch):
    """The patch without one of its members, for each of them at any depth of objects."""
    for name, value in patch.items() if isinstance(patch, dict) else ():
        yield {key: it for key, it in patch.items() if key != name}
        yield from ({**patch, name: it} for it in thinner(value))


def led(folder, old, new):
    """Where the printed patch leads, and whether it leads there without one of its members."""
    status, output, errors = compared(folder, normal(old), normal(new))
    if status != 0 or errors:
        return status, output, errors
    patch = json.loads(output)
    return normal(merge(old, patch)), any(normal(merge(old, it)) == normal(new) for it in thinner(patch))


def part_of(value, path):
    """The part of the value at the keys and indices of a path; a list of it, which is empty where there is none."""
    for token in path.split("/")[1:]:
        token = token.replace("~1", "/").replace("~0", "~")
        if isinstance(value, dict) and token in value:
            value = value[token]
        elif isinstance(value, list) and token.isdecimal() and int(token) < len(value):
            value = value[int(token)]
        else:
            return []
    return [value]


def led_by_operations(folder, old, new):
    """Where `json_patch` gets by the printed operations, and whether each is at a place of its own, where the values differ."""
    status, output, errors = compared(folder, normal(old), normal(new), ())
    if status != 0 or errors:
        return status, output, errors
    paths = [it["path"] for it in json.loads(output)]
    differ = all(normal(part_of(old, path)) != normal(part_of(new, path)) for path in paths)
    return patched(folder, normal(old), output), differ and len(set(paths)) == len(paths)


def random_value(chance, depth, nulls):
    kind = chance.randrange(7 if depth else 4)
    if kind > 4:
        return {chance.choice("abc"): random_value(chance, depth - 1, nulls) for _ in range(chance.randrange(4))}
    if kind == 4:
        return [random_value(chance, depth - 1, True) for _ in range(chance.randrange(3))]
    return chance.choice([1, 2, True, "x", None] if nulls else [1, 2, True, "x", "y"])


def changed_value(chance, value, depth):
    """The value with some members changed, added and removed."""
    if not isinstance(value, dict) or depth == 0 or chance.random() < 0.1:
        return random_value(chance, depth, False)
    changed = {}
    for key, it in value.items():
        if chance.random() < 0.3:
            continue
        changed[key] = changed_value(chance, it, depth - 1) if chance.random() < 0.5 else it
    if chance.random() < 0.4:
        changed[chance.choice("abcd")] = random_value(chance, depth - 1, False)
    return changed


def changed_part(chance, value, depth):
    """The value with some parts changed, added and removed, of objects and of arrays."""
    if depth == 0 or chance.random() < 0.1:
        return random_value(chance, depth, True)
    if isinstance(value, dict):
        changed = {key: changed_part(chance, it, depth - 1) for key, it in value.items() if chance.random() < 0.7}
        return changed | ({chance.choice(["", "/", "~", "~1", "0"]): 1} if chance.random() < 0.4 else {})
    if isinstance(value, list):
        changed = [changed_part(chance, it, depth - 1) if chance.random() < 0.5 else it for it in value]
        return changed[: chance.randrange(len(changed) + 1)] if chance.random() < 0.3 else changed + [1] * chance.randrange(3)
    return value if chance.random() < 0.5 else random_value(chance, depth, True)


def check_operations(checks):
    """Operations, and that they lead to the new value: the rows of both RFCs read backwards, and random values."""
    for row in OPERATIONS:
        old, new, operations = row
        text = "[%s]" % ",".join(json.dumps(json.loads(operation(*words)), separators=(",", ":")) for words in operations)
        checks.row(f"json_diff: operations {old} {new}", printed(text.encode()), compared, checks.folder, old.encode(), new.encode(), (), at=row)
    for row in LONG_OPERATIONS:
        old, new, answer = row
        checks.row(f"json_diff: operations {old[:60]} {new[:60]}", answer, compared, checks.folder, old, new, (), at=row)
    for row in APPLIED + MERGED:
        if "e400" in row[0]:
            continue  # no number of Python
        old, new = json.loads(row[0]), json.loads(row[2])
        checks.row(f"json_diff: operations led {row[0][:60]} {row[2][:60]}", (printed(normal(new)), True), led_by_operations, checks.folder, old, new, at=row)
    for old, new, _ in PATCHES + OPERATIONS:
        for ends in ((old, new), (new, old)):
            before, after = map(json.loads, ends)
            wanted = printed(normal(after).replace(b"1.0", b"1").replace(b"2.0", b"2")), True
            checks.row(f"json_diff: operations led {ends[0]} {ends[1]}", wanted, led_by_operations, checks.folder, before, after)
    for seed in range(200):
        chance = random.Random(seed)
        old = random_value(chance, 4, True)
        new = changed_part(chance, old, 4)
        checks.row(f"json_diff: operations, random {seed}", (printed(normal(new)), True), led_by_operations, checks.folder, old, new)


def check_rows(checks):
    for row in PATCHES:
        old, new, patch = (it.encode() for it in row)
        checks.row(f"json_diff: {old} {new}", printed(patch), compared, checks.folder, old, new, at=row)
    for row in NONE:
        old, new, place = row
        answer = reported(1, "json_diff", NO_PATCH + place)
        checks.row(f"json_diff: {old} {new}", answer, compared, checks.folder, old.encode(), new.encode(), at=row)
    for row in LONG_ROWS:
        old, new, answer = row
        checks.row(f"json_diff: {old[:60]} {new[:60]}", answer, compared, checks.folder, old, new, at=row)
    for row in ROWS:
        words, given, answer = row
        checks.row(f"json_diff: {words} {given}", answer, run_of, program("json_diff"), words, given, at=row)


def check_led(checks):
    """The rows of RFC 7396 read backwards, and random values: the patch leads to the new value, and none of its members is spare."""
    for row in MERGED:
        old, _, new = map(json.loads, row)
        checks.row(f"json_diff: led {row[0]} {row[2]}", (normal(new), False), led, checks.folder, old, new, at=row)
    for seed in range(200):
        chance = random.Random(seed)
        old = random_value(chance, 4, True)
        new = changed_value(chance, old, 4)
        checks.row(f"json_diff: random {seed}", (normal(new), False), led, checks.folder, old, new)


def check_faults(checks):
    FAULTS.streams(checks, STREAMS)
    FAULTS.failing(checks, FAILING)
    FAULTS.refusing(checks, REFUSED_MEMORY)


PAGE = Page("json_diff", ["-m", OLD])

PARTS = (PAGE.check, check_operations, check_rows, check_led, check_faults)
