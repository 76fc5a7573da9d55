"""Rows of `json_patch`: a text with a patch applied (RFC 6902)."""

import json
import os
import resource
import tempfile

from checks import shared
from faults import BROKEN, FOLDER, FULL, NO_TEXT, Faults
from long_lines import LongLines, reports_each
from pages import Page, misused
from places import TOP
from padding import padded_failure, padded_mistake, padded_patch, padded_rows
from replaced import Folder, InPlace
from running import printed, program, reported, run_of, small_stack
from values import DEEP, LONG, NESTED, NOT_UTF8

FAULTS = Faults("json_patch")

# A file of operations, a value that they change, and that one then.
OPERATIONS = f"{TOP}/crates/json_patch/data/patch.json"
PATCHED = b'{"author":{"givenName":"John"},"tags":["example"],"title":"Goodbye!"}'
CHANGED = b'{"name":"John","tags":["example",1],"title":"Hello!"}'

# The memory and the seconds of processor that a patch of many operations has.
MEMORY = 1 << 30
SECONDS = 3

NO_PLACE = "'path' names no place for a value"
NO_TARGET = "'path' names no value"
NO_SOURCE = "'from' names no value"
WHOLE_REMOVED = "the whole value can't be removed"
INTO_ITSELF = "a value can't be moved into itself"
DIFFERENT = "the value at 'path' is another one"


def operation(name, path, *more):
    """The text of an operation, with a value's text or a `from`."""
    members = {"op": name, "path": path}
    if name in ("move", "copy"):
        members["from"] = more[0]
        more = ()
    text = json.dumps(members)[:-1]
    return text + "".join(f',"value":{value}' for value in more) + "}"


def patch(*operations):
    return "[%s]" % ",".join(operation(*words) for words in operations)


# RFC 6902, appendix A, where a result is given: the value, the patch, and the result.
APPLIED = [
    ('{"foo":"bar"}', '[{"op":"add","path":"/baz","value":"qux"}]', '{"baz":"qux","foo":"bar"}'),
    ('{"foo":["bar","baz"]}', '[{"op":"add","path":"/foo/1","value":"qux"}]', '{"foo":["bar","qux","baz"]}'),
    ('{"baz":"qux","foo":"bar"}', '[{"op":"remove","path":"/baz"}]', '{"foo":"bar"}'),
    ('{"foo":["bar","qux","baz"]}', '[{"op":"remove","path":"/foo/1"}]', '{"foo":["bar","baz"]}'),
    ('{"baz":"qux","foo":"bar"}', '[{"op":"replace","path":"/baz","value":"boo"}]', '{"baz":"boo","foo":"bar"}'),
    (
        '{"foo":{"bar":"baz","waldo":"fred"},"qux":{"corge":"grault"}}',
        '[{"op":"move","from":"/foo/waldo","path":"/qux/thud"}]',
        '{"foo":{"bar":"baz"},"qux":{"corge":"grault","thud":"fred"}}',
    ),
    (
        '{"foo":["all","grass","cows","eat"]}',
        '[{"op":"move","from":"/foo/1","path":"/foo/3"}]',
        '{"foo":["all","cows","eat","grass"]}',
    ),
    (
        '{"baz":"qux","foo":["a",2,"c"]}',
        '[{"op":"test","path":"/baz","value":"qux"},{"op":"test","path":"/foo/1","value":2}]',
        '{"baz":"qux","foo":["a",2,"c"]}',
    ),
    ('{"foo":"bar"}', '[{"op":"add","path":"/child","value":{"grandchild":{}}}]', '{"child":{"grandchild":{}},"foo":"bar"}'),
    ('{"foo":"bar"}', '[{"op":"add","path":"/baz","value":"qux","xyz":123}]', '{"baz":"qux","foo":"bar"}'),
    ('{"/":9,"~1":10}', '[{"op":"test","path":"/~01","value":10}]', '{"/":9,"~1":10}'),
    ('{"foo":["bar"]}', '[{"op":"add","path":"/foo/-","value":["abc","def"]}]', '{"foo":["bar",["abc","def"]]}'),
]

# The others of appendix A: the value, the patch, the number of the operation, and the reason. Of two members `op`
# the last one counts.
FAILED = [
    ('{"baz":"qux"}', '[{"op":"test","path":"/baz","value":"bar"}]', 0, DIFFERENT),
    ('{"foo":"bar"}', '[{"op":"add","path":"/baz/bat","value":"qux"}]', 0, NO_PLACE),
    ('{"foo":"bar"}', '[{"op":"add","path":"/baz","value":"qux","op":"remove"}]', 0, NO_TARGET),
    ('{"/":9,"~1":10}', '[{"op":"test","path":"/~01","value":"10"}]', 0, DIFFERENT),
]

# Sections 3 and 4: no operation; members that an operation does not have; `null` as a value.
APPLIED += [
    ("[1.0]", "[]", "[1]"),
    ('{"a":1}', '[{"op":"remove","path":"/a","from":1,"value":[]}]', "{}"),
    ('{"a":1}', '[{"op":"copy","path":"/b","from":"/a","value":2}]', '{"a":1,"b":1}'),
    ('{"a":1}', '[{"op":"add","path":"/a","value":null}]', '{"a":null}'),
    ('{"a":null}', '[{"op":"test","path":"/a","value":null}]', '{"a":null}'),
    ("[1,2]", '[{"op":"remove","path":"/0","path":"/1"}]', "[1]"),
]

# 4.1: a member is replaced, an item put before that of its index, or at the end.
APPLIED += [
    ('{"a":{"b":1}}', patch(("add", "/a", "2")), '{"a":2}'),
    ("[1,2]", patch(("add", "/0", "0")), "[0,1,2]"),
    ("[1,2]", patch(("add", "/2", "3")), "[1,2,3]"),
    ("[1,2]", patch(("add", "/-", "3")), "[1,2,3]"),
    ("[]", patch(("add", "/0", "1"), ("add", "/-", "2")), "[1,2]"),
    ("{}", patch(("add", "/-", "1")), '{"-":1}'),
    ("[1]", patch(("add", "", '{"a":1.0}')), '{"a":1}'),
    ("null", patch(("add", "", "false")), "false"),
    ('{"a":[{}]}', patch(("add", "/a/0/b", "1")), '{"a":[{"b":1}]}'),
]
FAILED += [
    ("[1,2]", patch(("add", "/3", "3")), 0, NO_PLACE),
    ("[[1]]", patch(("add", "/-/0", "3")), 0, NO_PLACE),
    ("[1]", patch(("add", "/a", "3")), 0, NO_PLACE),
    ('{"a":"x"}', patch(("add", "/a/0", "3")), 0, NO_PLACE),
    ("1", patch(("add", "/a", "3")), 0, NO_PLACE),
]

# 4.2 and 4.3: the target has to be there, and the whole is not removed.
APPLIED += [
    ('{"a":1,"":2}', patch(("remove", "/")), '{"a":1}'),
    ("[1,2,3]", patch(("remove", "/0"), ("remove", "/0")), "[3]"),
    ('{"-":1}', patch(("remove", "/-")), "{}"),
    ('{"-":1}', patch(("replace", "/-", "2")), '{"-":2}'),
    ("[1,2]", patch(("replace", "/1", "[2.0]")), "[1,[2]]"),
    ('{"a":1}', patch(("replace", "/a", "null")), '{"a":null}'),
    ("[1]", patch(("replace", "", "2")), "2"),
]
FAILED += [
    ("[1]", patch(("remove", "")), 0, WHOLE_REMOVED),
    ("[1]", patch(("remove", "/1")), 0, NO_TARGET),
    ("[1]", patch(("remove", "/-")), 0, NO_TARGET),
    ('{"a":{}}', patch(("remove", "/a/b")), 0, NO_TARGET),
    ("[1]", patch(("replace", "/1", "2")), 0, NO_TARGET),
    ("[1]", patch(("replace", "/-", "2")), 0, NO_TARGET),
    ("{}", patch(("replace", "/a", "2")), 0, NO_TARGET),
]

# 4.4: what is proper is so by tokens; the place is looked for after the removal; the same place changes nothing.
APPLIED += [
    ('{"a":1}', patch(("move", "/ab", "/a")), '{"ab":1}'),
    ('{"a~":1}', patch(("move", "/a~01", "/a~0")), '{"a~1":1}'),
    ("[1,2,3]", patch(("move", "/2", "/0")), "[2,3,1]"),
    ("[1,2,3]", patch(("move", "/-", "/0")), "[2,3,1]"),
    ("[[1],2]", patch(("move", "/0/0", "/1")), "[[2,1]]"),
    ("[1,2,3]", patch(("move", "/0", "/2")), "[3,1,2]"),
    ('{"a":{"b":1}}', patch(("move", "/a", "/a/b")), '{"a":1}'),
    ('{"a":{"b":1}}', patch(("move", "", "/a/b")), "1"),
    ('{"a":1,"b":2}', patch(("move", "/b", "/a")), '{"b":1}'),
    ("[1,2]", patch(("move", "/1", "/1")), "[1,2]"),
    ("[1.0]", patch(("move", "", "")), "[1]"),
]
FAILED += [
    ('{"a":{}}', patch(("move", "/a/b", "/a")), 0, INTO_ITSELF),
    ("[[1],[2]]", patch(("move", "/0/0", "/0")), 0, INTO_ITSELF),
    ('{"a":1}', patch(("move", "/a", "")), 0, INTO_ITSELF),
    ("[1,[2]]", patch(("move", "/0/0", "/0")), 0, INTO_ITSELF),
    ("[1,[2]]", patch(("move", "/1/0", "/0")), 0, NO_PLACE),
    ("[1,2,3]", patch(("move", "/3", "/0")), 0, NO_PLACE),
    ("[1,2]", patch(("move", "/2", "/2")), 0, NO_SOURCE),
    ("[1,2]", patch(("move", "/-", "/-")), 0, NO_SOURCE),
    ("{}", patch(("move", "/a", "/b")), 0, NO_SOURCE),
    ('{"a":{"b":1}}', patch(("move", "/a/b/c", "/a/b/d")), 0, NO_SOURCE),
]

# 4.5: what is copied is as it was before.
APPLIED += [
    ('{"b":1}', patch(("copy", "/a", "")), '{"a":{"b":1},"b":1}'),
    ('{"a":{"b":1}}', patch(("copy", "/a/c", "/a")), '{"a":{"b":1,"c":{"b":1}}}'),
    ("[[1]]", patch(("copy", "/0/0", "/0"), ("add", "/0/0/-", "2")), "[[[1,2],1]]"),
    ("[1,2]", patch(("copy", "/0", "/1")), "[2,1,2]"),
    ('{"a":1}', patch(("copy", "/a", "/a")), '{"a":1}'),
    ('{"a":1}', patch(("copy", "", "/a")), "1"),
]
FAILED += [
    ("[1]", patch(("copy", "/0", "/-")), 0, NO_SOURCE),
    ("[1]", patch(("copy", "/3", "/0")), 0, NO_PLACE),
]

# 4.6: equal as values, with members in any order.
APPLIED += [
    ("[0,1.0,1e400]", patch(("test", "/0", "-0"), ("test", "/1", "1"), ("test", "", "[-0.0,1e0,10e399]")), "[0,1,1e400]"),
    ('{"a":{"b":1,"c":[2]}}', patch(("test", "/a", '{"c":[2.0],"b":1}')), '{"a":{"b":1,"c":[2]}}'),
    ('"a"', patch(("test", "", '"\\u0061"')), '"a"'),
]
FAILED += [
    ("[1]", patch(("test", "/0", "true")), 0, DIFFERENT),
    ("[1]", patch(("test", "/0", '"1"')), 0, DIFFERENT),
    ("[null]", patch(("test", "/0", "false")), 0, DIFFERENT),
    ('["\u00e9"]', patch(("test", "/0", '"e\\u0301"')), 0, DIFFERENT),
    ('{"a":1,"b":2}', patch(("test", "", '{"a":1}')), 0, DIFFERENT),
    ('{"a":1}', patch(("test", "", '{"a":1,"b":2}')), 0, DIFFERENT),
    ("[1,2]", patch(("test", "", "[2,1]")), 0, DIFFERENT),
    ("[1,2]", patch(("test", "", "[1]")), 0, DIFFERENT),
    ("[1]", patch(("test", "", "[1,2]")), 0, DIFFERENT),
    ('["A"]', patch(("test", "/0", '"a"')), 0, DIFFERENT),
    ("[0]", patch(("test", "/0", "false")), 0, DIFFERENT),
    ("[null]", patch(("test", "/0", "0")), 0, DIFFERENT),
    ("[9007199254740993]", patch(("test", "/0", "9007199254740992")), 0, DIFFERENT),
    ("{}", patch(("test", "/a", "null")), 0, NO_TARGET),
]

# Section 5: in turn, and all or nothing.
APPLIED += [
    ("{}", patch(("add", "/a", "{}"), ("add", "/a/b", "[]"), ("add", "/a/b/0", "1"), ("move", "/c", "/a/b")), '{"a":{},"c":[1]}'),
]
FAILED += [
    ("[1]", patch(("add", "/-", "2"), ("test", "/1", "2"), ("remove", "/2"), ("remove", "")), 2, NO_TARGET),
    ("[1]", patch(("add", "/-", "2"), ("test", "/1", "3")), 1, DIFFERENT),
    ("[]", patch(*[("add", "/-", "2")] * 11, ("remove", "")), 11, WHOLE_REMOVED),
]

# So many operations in a row on the items of one array that these are put in a queue, and what stands among them.
RUN = 40
LAST = f"/{RUN - 1}"
ONES = [("add", "/0", "1")] * RUN
KNOWN = [("add", "/-", str(i)) for i in range(RUN)]


def array(*items):
    """The text of an array of these items, of which some are ranges or lists of items."""
    return "[%s]" % ",".join(",".join(map(str, item)) if isinstance(item, (list, range)) else str(item) for item in items)


APPLIED += [
    ("[7]", patch(*ONES), array([1] * RUN, 7)),
    ("[7]", patch(*[("add", f"/{i}", str(i)) for i in range(RUN)]), array(range(RUN), 7)),
    ("[7,8]", patch(*[("add", "/1", str(i)) for i in range(RUN)]), array(7, range(RUN - 1, -1, -1), 8)),
    ("[7]", patch(*ONES, ("add", "/-", "2"), ("remove", "/1"), ("add", f"/{RUN + 1}", "3")), array([1] * (RUN - 1), 7, 2, 3)),
    (array(range(RUN + 1)), patch(*[("remove", "/1")] * RUN), "[0]"),
    ("[0]", patch(*[("add", "/-", "1"), ("remove", "/0")] * RUN), "[1]"),
    (
        '{"a":[7],"b":[8]}',
        patch(*[("add", "/a/0", "1")] * RUN, *[("add", "/b/1", "2")] * RUN),
        '{"a":%s,"b":%s}' % (array([1] * RUN, 7), array(8, [2] * RUN)),
    ),
    ("[[7],8]", patch(*[("add", "/0/-", "1")] * RUN), array(array(7, [1] * RUN), 8)),
    ("[[],8]", patch(("add", "/0/0", "1"), *[("add", "/0/0", "2")] * RUN, ("remove", "/0"), ("add", "/0", "3")), "[3,8]"),
    ('{"a":{}}', patch(*[("add", "/a/0", "1")] * RUN, ("add", "/a/-", "2")), '{"a":{"-":2,"0":1}}'),
    ("[7]", patch(*ONES, ("test", "", array([1] * RUN, 7)), ("copy", "/1", ""), *ONES), array([1] * (RUN + 1), array([1] * RUN, 7), [1] * (RUN - 1), 7)),
    ("[7]", patch(*ONES, ("add", "", "[[]]"), *[("add", "/0/0", "2")] * RUN), array(array([2] * RUN))),
    ("[7]", patch(*ONES, ("add", "/0", "[8]"), *[("add", "/0/0", "9")] * RUN), array(array([9] * RUN, 8), [1] * RUN, 7)),
    # A move: to both ends, to `-`, behind its own place, and to it.
    ("[]", patch(*KNOWN, ("move", "/0", LAST)), array(RUN - 1, range(RUN - 1))),
    ("[]", patch(*KNOWN, ("move", LAST, "/0")), array(range(1, RUN), 0)),
    ("[]", patch(*KNOWN, ("move", "/-", "/0")), array(range(1, RUN), 0)),
    ("[]", patch(*KNOWN, ("move", "/3", "/1")), array(0, 2, 3, 1, range(4, RUN))),
    ("[]", patch(*KNOWN, ("move", "/5", "/5"), ("remove", "/5")), array(range(5), range(6, RUN))),
    # A copy: of the first to the front and to both names of the end; of what was just added, and is changed then.
    ("[]", patch(*KNOWN, ("copy", "/0", "/0")), array(0, range(RUN))),
    ("[]", patch(*KNOWN, ("copy", f"/{RUN}", "/1"), ("copy", "/-", "/2")), array(range(RUN), 1, 2)),
    ("[]", patch(*KNOWN, ("add", "/0", "[8]"), ("copy", "/-", "/0"), ("replace", "/0", "9")), array(9, range(RUN), "[8]")),
    # Replaced and tested at both ends, by value.
    ("[]", patch(*KNOWN, ("replace", "/0", "[]"), ("replace", LAST, "{}")), array("[]", range(1, RUN - 1), "{}")),
    ("[]", patch(*KNOWN, ("test", "/0", "-0"), ("test", LAST, f"{RUN - 1}.0"), ("remove", "/0")), array(range(1, RUN))),
    # Out of an item of the array, and from another array, which the queue does not have.
    ("[]", patch(*KNOWN, ("add", "/0", "[8]"), ("move", "/1", "/0/0"), ("remove", "/0")), array(8, range(RUN))),
    (
        '{"a":[],"b":[7]}',
        patch(*[("add", "/a/-", "1")] * RUN, ("move", "/a/0", "/b/0"), ("copy", "/b/0", "/a/1")),
        '{"a":%s,"b":[1]}' % array(7, [1] * RUN),
    ),
]
FAILED += [
    ("[7]", patch(*ONES, ("remove", f"/{RUN + 1}")), RUN, NO_TARGET),
    ("[7]", patch(*ONES, ("add", f"/{RUN + 2}", "1")), RUN, NO_PLACE),
    ("[7]", patch(*ONES, ("add", "/a", "1"), ("remove", "")), RUN, NO_PLACE),
    ("[7,8,9]", patch(*[("remove", "/0")] * RUN), 3, NO_TARGET),
    ('{"a":1}', patch(*[("add", "/a/0", "1")] * RUN), 0, NO_PLACE),
    ("{}", patch(*[("remove", "/a/0")] * RUN), 0, NO_TARGET),
    ("[[7]]", patch(*[("add", "/0/0", "1")] * RUN, ("remove", "/1")), RUN, NO_TARGET),
    ("[7]", patch(*ONES, *[("add", "", "1")] * 2, *ONES), RUN + 2, NO_PLACE),
    ("[]", patch(*KNOWN, ("move", f"/{RUN}", "/0"), *KNOWN), RUN, NO_PLACE),
    ("[]", patch(*KNOWN, ("move", "/0", LAST), ("move", "/0", f"/{RUN}"), *KNOWN), RUN + 1, NO_SOURCE),
    ("[]", patch(*KNOWN, ("move", "/0", "/-")), RUN, NO_SOURCE),
    ("[]", patch(*KNOWN, ("move", "/-", "/-")), RUN, NO_SOURCE),
    ("[]", patch(*KNOWN, ("move", f"/{RUN}", f"/{RUN}")), RUN, NO_SOURCE),
    ("[]", patch(*KNOWN, ("move", "/0/1", "/0")), RUN, INTO_ITSELF),
    ("[]", patch(*KNOWN, ("copy", f"/{RUN + 1}", "/0")), RUN, NO_PLACE),
    ("[]", patch(*KNOWN, ("copy", "/0", f"/{RUN}")), RUN, NO_SOURCE),
    ("[]", patch(*KNOWN, ("copy", "/0", "/-")), RUN, NO_SOURCE),
    ("[]", patch(*KNOWN, ("replace", f"/{RUN}", "1")), RUN, NO_TARGET),
    ("[]", patch(*KNOWN, ("replace", "/-", "1")), RUN, NO_TARGET),
    ("[]", patch(*KNOWN, ("replace", "/00", "1")), RUN, NO_TARGET),
    ("[]", patch(*KNOWN, ("test", "/0", "false"), *KNOWN), RUN, DIFFERENT),
    ("[]", patch(*KNOWN, ("test", f"/{RUN}", "1")), RUN, NO_TARGET),
    ("[]", patch(*KNOWN, ("test", "/-", "1")), RUN, NO_TARGET),
]

# RFC 6901: the empty key, `%`, indices, and that nothing lies in a string.
APPLIED += [
    ('{"":{"":1}}', patch(("replace", "//", "2")), '{"":{"":2}}'),
    ('{"%61":1}', patch(("remove", "/%61")), "{}"),
    ('{"00":1}', patch(("remove", "/00")), "{}"),
    ('{"a/b":1,"m~n":2}', patch(("remove", "/a~1b"), ("remove", "/m~0n")), "{}"),
]
FAILED += [
    ("[1,2]", patch(("remove", "/00")), 0, NO_TARGET),
    ("[1,2]", patch(("remove", "/01")), 0, NO_TARGET),
    ("[1,2]", patch(("add", "/+1", "3")), 0, NO_PLACE),
    ("[1,2]", patch(("add", "/1.0", "3")), 0, NO_PLACE),
    ("[1,2]", patch(("add", "/1e0", "3")), 0, NO_PLACE),
    ("[1,2]", patch(("add", "/-1", "3")), 0, NO_PLACE),
    ("[1,2]", patch(("add", "/ 1", "3")), 0, NO_PLACE),
    ("[1,2]", patch(("add", "/\u0661", "3")), 0, NO_PLACE),
    ("[1,2]", patch(("remove", "/4294967296")), 0, NO_TARGET),
    ("[1,2]", patch(("remove", "/18446744073709551616")), 0, NO_TARGET),
    ("[1,2]", patch(("add", "/18446744073709551617", "3")), 0, NO_PLACE),
    ('["ab"]', patch(("test", "/0/0", '"a"')), 0, NO_TARGET),
    ('{"a":1}', patch(("remove", "/%61")), 0, NO_TARGET),
]

# The patch, and what is told of it.
MALFORMED = [
    ("{}", "it is no array"),
    ('{"op":"remove","path":"/a"}', "it is no array"),
    ("null", "it is no array"),
    ("[1]", "operation 0: it is no object"),
    ("[[]]", "operation 0: it is no object"),
    ("[{}]", "operation 0: 'op' is missing"),
    ('[{"op":1}]', "operation 0: 'op' is no string"),
    ('[{"op":null}]', "operation 0: 'op' is no string"),
    ('[{"op":"ADD","path":"","value":1}]', "operation 0: 'op' names no operation"),
    ('[{"op":" add","path":"","value":1}]', "operation 0: 'op' names no operation"),
    ('[{"op":"adds","path":"","value":1}]', "operation 0: 'op' names no operation"),
    ('[{"op":"","path":"","value":1}]', "operation 0: 'op' names no operation"),
    ('[{"op":"add","op":"x","path":"","value":1}]', "operation 0: 'op' names no operation"),
    ('[{"op":"add"}]', "operation 0: 'path' is missing"),
    ('[{"op":"remove","value":1}]', "operation 0: 'path' is missing"),
    ('[{"op":"move","from":""}]', "operation 0: 'path' is missing"),
    ('[{"op":"test","path":0,"value":1}]', "operation 0: 'path' is no string"),
    ('[{"op":"remove","path":["a"]}]', "operation 0: 'path' is no string"),
    ('[{"op":"remove","path":"/a","path":null}]', "operation 0: 'path' is no string"),
    ('[{"op":"add","path":""}]', "operation 0: 'value' is missing"),
    ('[{"op":"replace","path":"","from":""}]', "operation 0: 'value' is missing"),
    ('[{"op":"test","path":"","Value":1}]', "operation 0: 'value' is missing"),
    ('[{"op":"move","path":"/a","value":1}]', "operation 0: 'from' is missing"),
    ('[{"op":"copy","path":"/a"}]', "operation 0: 'from' is missing"),
    ('[{"op":"copy","path":"/a","from":null}]', "operation 0: 'from' is no string"),
    ('[{"op":"remove","path":"a"}]', "operation 0: 'path' is no pointer"),
    ('[{"op":"remove","path":"/~"}]', "operation 0: 'path' is no pointer"),
    ('[{"op":"remove","path":"/a/b~2/c"}]', "operation 0: 'path' is no pointer"),
    ('[{"op":"move","path":"/a","from":"/b~"}]', "operation 0: 'from' is no pointer"),
    ('[{"op":"copy","path":"/a","from":"#/b"}]', "operation 0: 'from' is no pointer"),
    # A later one is told too before any is applied, and of several the first.
    ('[{"op":"remove","path":"/none"},{"op":"none"}]', "operation 1: 'op' names no operation"),
    ('[{"op":"add","path":"/-","value":1},{"op":"add"},3]', "operation 1: 'path' is missing"),
    ('[{"op":"move","path":1,"from":2}]', "operation 0: 'path' is no string"),
]

# How many tokens a pointer has at most, and how many containers of a patch may be open.
TOKENS = 1_000
LEVELS = 1_000


def nested(inner, levels=TOKENS):
    """The text of that many arrays, one in the other."""
    return "[" * levels + inner + "]" * levels


# Pointers and values of many levels, and patches of many operations.
LONG_APPLIED = [
    (nested("1"), patch(("replace", "/0" * TOKENS, "2")), nested("2")),
    (nested("1"), patch(("move", "/0" * (TOKENS - 1) + "/-", "/0" * TOKENS)), nested("1")),
    (nested("", TOKENS), patch(("add", "/0" * TOKENS, "2")), nested("2")),
    (nested("", 100_000), patch(("remove", "/0"), ("add", "/0", "1")), "[1]"),
    (nested("", 100_000), patch(("copy", "/-", "/0"), ("remove", "/0")), nested("", 100_000)),
    ("1", '[{"op":"add","path":"","value":%s}]' % nested("", LEVELS - 2), nested("", LEVELS - 2)),
    ("[]", patch(*[("add", "/-", "1")] * 5_000), "[%s]" % ",".join(["1"] * 5_000)),
]
LONG_MALFORMED = [
    (patch(("remove", "/0" * (TOKENS + 1))), "operation 0: 'path' is a pointer of more than 1000 tokens"),
    (patch(("copy", "", "/" * (TOKENS + 1))), "operation 0: 'from' is a pointer of more than 1000 tokens"),
    (patch(*[("add", "/-", "1")] * 5_000)[:-1] + ",0]", "operation 5000: it is no object"),
]

# As many operations as items, each kind of them where most items lie on both sides, and all kinds in turn.
MANY = 20_000
HALF = MANY // 2
ITEMS = array(range(MANY))


def many(*operations):
    """A patch of as many operations, these in turn."""
    return patch(*operations * (MANY // len(operations)))


MANY_OPERATIONS = [
    (ITEMS, many(("add", "/0", "0")), array([0] * MANY, range(MANY))),
    (ITEMS, many(("add", "/-", "0")), array(range(MANY), [0] * MANY)),
    (ITEMS, many(("add", f"/{HALF}", "0")), array(range(HALF), [0] * MANY, range(HALF, MANY))),
    (ITEMS, many(("remove", "/0")), "[]"),
    (ITEMS, patch(*[("remove", f"/{i // 2}") for i in range(MANY - 1, -1, -1)]), "[]"),
    *((ITEMS, many(("add", f"/{at}", "0"), ("remove", f"/{at}")), ITEMS) for at in (0, MANY * 3 // 4)),
    (ITEMS, many(("replace", f"/{HALF}", "[]")), array(range(HALF), "[]", range(HALF + 1, MANY))),
    (ITEMS, many(("move", "/0", f"/{MANY - 1}")), ITEMS),
    (ITEMS, many(("move", f"/{HALF}", f"/{HALF + 1}")), ITEMS),
    (ITEMS, many(("copy", "/0", "/0")), array([0] * MANY, range(MANY))),
    (ITEMS, many(("copy", f"/{HALF}", "/0")), array(range(HALF), [0] * MANY, range(HALF, MANY))),
    (ITEMS, many(("test", f"/{HALF}", f"{HALF}.0")), ITEMS),
    (
        ITEMS,
        many(
            ("add", f"/{HALF}", "0"),
            ("test", f"/{HALF}", "-0"),
            ("copy", f"/{HALF}", "/1"),
            ("move", f"/{HALF}", f"/{HALF + 1}"),
            ("replace", f"/{HALF}", "[]"),
            ("remove", f"/{HALF}"),
            ("test", f"/{HALF}", "1"),
            ("remove", f"/{HALF}"),
        ),
        ITEMS,
    ),
    ("[[]]", patch(*[("add", "/0/0", "0")] * 100_000), array(array([0] * 100_000))),
    # What is copied was changed just before; all else is large.
    ('{"a":{},"c":%s}' % ITEMS, many(("add", "/a/x", "[0]"), ("add", "/a/x/0", "1"), ("copy", "/b", "/a"), ("test", "/b/x", "[1,0]")),
        '{"a":{"x":[1,0]},"b":{"x":[1,0]},"c":%s}' % ITEMS),
]

def too_much(given):
    """The words where the copies of a patch copy more values than they may: a million, and four for each byte of the text."""
    return f"the patch copies more than {1_000_000 + 4 * len(given)} values"


# Copies of the whole to its end, or to a new member: after n copies [1] and {"a":1} have 2 ** (n + 1) values.
DOUBLED = [("copy", "/-", "")] * 40
DOUBLED_MEMBERS = [("copy", f"/{i}", "") for i in range(40)]


def doubled(value, times):
    for _ in range(times):
        value = value + [value]
    return value


# A part of 10,000 values in a text of 20,001 bytes: 108 copies of it and 4 of a scalar are as many as are copied at most. A
# value of the patch that has 41,667: 24 copies of it are.
PART = array([0] * 9_999)
PARTS_COPIED = [("copy", "/-", "/0")] * 108 + [("copy", "/-", "/0/0")] * 4
HELD = '{"p":%s,"q":{}}' % array([0] * 41_664)
HELD_COPIED = [("add", "/v", HELD)] + [("copy", f"/{i:02}", "/v") for i in range(24)]
HELD_MEMBERS = ",".join(f'"{i:02}":{HELD}' for i in range(24))

# The value, the patch, and the result.
ENOUGH = [
    ("[7]", [("copy", "/-", "/0")] * 1_000, array([7] * 1_001)),
    ("[1]", DOUBLED[:18], json.dumps(doubled([1], 18), separators=(",", ":"))),
    ("[%s]" % PART, PARTS_COPIED, array([PART] * 109, [0] * 4)),
    ("{}", HELD_COPIED, '{%s,"v":%s}' % (HELD_MEMBERS, HELD)),
]

# The value and the patch.
EXCEEDED = [
    ("[1]", DOUBLED),
    ("[1]", DOUBLED[:19]),
    ('{"a":1}', DOUBLED_MEMBERS),
    ("[%s]" % PART, PARTS_COPIED + [("copy", "/-", "/0/0")]),
    ("{}", HELD_COPIED + [("copy", "/w", "/v/p/0")]),
    ("[1]", DOUBLED + [("remove", "")]),
]

# The value, the patch, and the number and the reason of an operation before it copies too much.
FAILED_BEFORE = [
    ("[1]", DOUBLED[:18] + [("remove", "")] + DOUBLED, 18, WHOLE_REMOVED),
    ("[%s]" % PART, PARTS_COPIED + [("copy", "/-", "/-")], len(PARTS_COPIED), NO_SOURCE),
]

# Of lines, that which has a large part that is copied is reported.
COPIED = patch(*[("copy", "/b/-", "/a")] * 100)
LARGE = '{"a":%s,"b":[]}' % array([0] * 20_000)
COPIED_LINES = "\n".join(['{"a":7,"b":[]}', LARGE, '{"a":8,"b":[]}', ""])
COPIED_ANSWER = 1, b'{"a":7,"b":%s}\n{"a":8,"b":%s}\n' % tuple(array([n] * 100).encode() for n in (7, 8)), \
    f"json_patch: line 2: {too_much(LARGE)}\n".encode()

def told(words):
    """The answer of `json_patch` to a file that is no patch."""
    return reported(2, "json_patch", f"the patch: {words}")


# The value, the patch, and the answer.
ROWS = [
    # The patch is read first.
    (b"[1,]", b"{}", told("it is no array")),
    (b"{", b"[1,]", told("Parse error at line:1, col:3: Invalid character: ]")),
    (b"[1,]", b"[]", reported(3, "json_patch", "Parse error at line:1, col:3: Invalid character: ]")),
    (b"1", b"", told("Parse error at line:1, col:0: Unexpected EOF")),
    (b"1", NOT_UTF8, reported(2, "json_patch", "operations:1:0: not UTF-8")),
    (b"1", b"[" * (LEVELS + 1), told("Parse error at line:1, col:1000: Nesting is too deep at '['")),
]

# The arguments, the input, and the answer.
ARGUMENTS = [
    ([], b"1", misused("json_patch", "PATCH is missing")),
    ([NOT_UTF8], b"1", misused("json_patch", "an argument is not UTF-8")),
    (["/none"], b"1", reported(2, "json_patch", "/none: No such file or directory (os error 2)")),
    (["/"], b"1", reported(2, "json_patch", "/: Is a directory (os error 21)")),
    # Control characters are shown by their code points.
    ([OPERATIONS], b"\x1b", reported(3, "json_patch", "Parse error at line:1, col:0: Invalid character: U+001B")),
]

# The arguments, an input, and the statuses and words where the input is not UTF-8, can't be read, and where the output can't be written.
STREAMS = [([OPERATIONS], PATCHED, (3, NO_TEXT), (4, FOLDER), (4, FULL))]

# The arguments, an input, what is printed of it, and the statuses and words where a read and where a write fails.
FAILING = [([OPERATIONS], PATCHED[:-1] + b',"z":%s}' % LONG, b'%s,"z":%s}\n' % (CHANGED[:-1], LONG), (4, BROKEN), (4, BROKEN))]

# Where each request for memory is refused.
SOME = b'{"title":"Goodbye!","author":{"givenName":"John","a":[1.5]},"tags":["example",{"b":"x"}]}'
REFUSED_MEMORY = [([OPERATIONS], SOME), ([OPERATIONS], b'{"title":"Goodbye!"}'), (["-li", OPERATIONS], SOME + b'\n{"title":1}\n[1,]\n' + SOME)]

# The same where each line is a text.
MANY, MANY_PATCHED = (PATCHED + b"\n") * 1_000, (CHANGED + b"\n") * 1_000
STREAMS_OF_LINES = [(["-l", OPERATIONS], MANY, (1, "line 1: not UTF-8"), (4, FOLDER), (4, FULL))]
FAILING_LINES = [(["-l", OPERATIONS], MANY, MANY_PATCHED, (4, BROKEN), (4, BROKEN))]
INTERRUPTED_LINES = [(["-l", OPERATIONS], MANY * 3, MANY_PATCHED * 3)]


# How many rows are not padded, and why.
UNPADDED = {"a large text": 7}
UNPADDED_MISTAKES = {"a large text": 1, "nothing to pad": 1}

# Deep values and a patch that fails: at its first operation, at its last, and in the queue of one array. The value, the patch, the
# number of the operation and the reason.
TWO = b'{"a":%s,"b":[%s]}' % (NESTED, NESTED)
ONE = b"[%s]" % NESTED
DEEP_FAILED = [
    (NESTED, patch(("test", "", "1")), 0, DIFFERENT),
    (NESTED, patch(("add", "/-", "1"), ("remove", "/5")), 1, NO_TARGET),
    (NESTED, patch(("remove", "/0"), ("remove", "/0")), 1, NO_TARGET),
    (NESTED, patch(("replace", "", "1"), ("remove", "/0")), 1, NO_TARGET),
    (TWO, patch(("replace", "/a", "1"), ("replace", "/c", "2")), 1, NO_TARGET),
    (TWO, patch(("move", "/b/7", "/a")), 0, NO_PLACE),
    (TWO, patch(("copy", "/b/7", "/a")), 0, NO_PLACE),
    (TWO, patch(("move", "/b/-", "/a"), ("copy", "/b/0", "/b/1"), ("move", "/b/0/0", "/b/0")), 2, INTO_ITSELF),
    (ONE, patch(*KNOWN, ("remove", "/0"), ("remove", f"/{RUN}")), RUN + 1, NO_TARGET),
    (ONE, patch(*KNOWN, ("replace", "/0", "1"), ("replace", "/-", "1")), RUN + 1, NO_TARGET),
    (ONE, patch(*KNOWN, ("copy", "/0", "/0"), ("test", "/1", "1")), RUN + 1, DIFFERENT),
    (ONE, patch(*KNOWN, ("move", f"/{RUN + 1}", "/0")), RUN, NO_PLACE),
    (ONE, patch(*KNOWN, ("copy", f"/{RUN + 2}", "/0")), RUN, NO_PLACE),
    (ONE, patch(*KNOWN, ("remove", ""), *KNOWN), RUN, WHOLE_REMOVED),
]

# The same where it is applied: the value, the patch and the result.
DEEP_APPLIED = [
    (ONE, patch(*KNOWN, ("remove", "/0")), array(range(RUN)).encode()),
    (ONE, patch(*KNOWN, ("replace", "/0", "7")), array(7, range(RUN)).encode()),
    (ONE, patch(*KNOWN, ("copy", "/1", "/0"), ("remove", "/0"), ("remove", "/0")), array(range(RUN)).encode()),
    (TWO, patch(("replace", "/a", "1"), ("add", "/b", "2")), b'{"a":1,"b":2}'),
    (TWO, patch(("move", "/a", "/b")), b'{"a":%s}' % ONE),
    # Pointers of as many tokens as one may have; a part that was changed that deep is copied.
    *((given.encode(), operations, result.encode()) for given, operations, result in LONG_APPLIED if TOKENS * "/0" in operations),
    (nested("1").encode(), patch(("replace", "/0" * TOKENS, "2"), ("copy", "/0", "/0")), array(nested("2", TOKENS - 1), nested("2", TOKENS - 1)).encode()),
]

# The value and the patch, where memory is refused.
DEEP_MEMORY = [
    (b'{"a":%s,"b":[%s]}' % (DEEP, DEEP), patch(("copy", "/b/0", "/a"), ("add", "/a", "1"), ("move", "/c", "/b"))),
    (b"[%s]" % DEEP, patch(*KNOWN, ("copy", "/1", "/0"), ("remove", "/0"), ("replace", "/0", "7"))),
]


def patched(folder, given, operations, **how):
    """The answer to a patch, from a file."""
    path = os.path.join(folder, "operations")
    with open(path, "wb") as file:
        file.write(operations)
    return run_of(program("json_patch"), ["operations"], given, cwd=folder, **how)


def told_of_lines(output, *lines):
    """The answer of `json_patch -l` that prints this, and reports these lines."""
    return 1, output, b"".join(b"json_patch: line %s\n" % line for line in lines)


# The arguments, the operations, the input, and the answer.
ADD, TEST = patch(("add", "/a", "1")), patch(("test", "/a", "1"))
AT_0 = b"%%d: operation 0: %s" % DIFFERENT.encode()
OPTIONS = [
    (["-i"], ADD, b'{"b":[]}', printed(b"{", b'  "a": 1,', b'  "b": []', b"}")),
    (["--indent"], TEST, b'{"a":1.0}', printed(b"{", b'  "a": 1', b"}")),
    (["-l"], ADD, b"", printed()),
    (["-l"], ADD, b'{"b":2}\n{"a":3}', printed(b'{"a":1,"b":2}', b'{"a":1}')),
    (["--lines"], TEST, b'{"a":1.0}\n{"a":2}\n[1,]\n\n"\xff"\n{"a":1,"b":3}\n', told_of_lines(b'{"a":1}\n{"a":1,"b":3}\n', AT_0 % 2,
        b"3, col 3: Invalid character: ]", b"4, col 0: Unexpected EOF", b"5: not UTF-8")),
    (["-l"], patch(("add", "/0", "1")), b"[]\n[2]\n[3]\n", printed(b"[1]", b"[1,2]", b"[1,3]")),
    (["-li"], ADD, b"{}\n{}", printed(*[b"{", b'  "a": 1', b"}"] * 2)),
    (["-l"], TEST, b'{"a":1}\n{"a":0}\n' * 35_000, told_of_lines(b'{"a":1}\n' * 35_000, *(AT_0 % n for n in range(2, 70_001, 2)))),
]


def patched_by(folder, words, operations, given):
    """The answer to a patch with options."""
    path = os.path.join(folder, "operations")
    with open(path, "w", encoding="utf-8") as file:
        file.write(operations)
    return run_of(program("json_patch"), [*words, "operations"], given, cwd=folder)


def check_lines(checks):
    """Rows with options; and each row of the RFC in lines of which the second is refused, as it is and padded."""
    for row in OPTIONS:
        words, operations, given, expected = row
        name = f"json_patch: {words} {operations[:60]} {given[:60]}"
        checks.row(name, expected, patched_by, checks.folder, words, operations, given, at=row)
    for row in APPLIED:
        given, operations, result = (it.encode() for it in row)
        for given, operations, result in ((given, operations, result), padded_patch(given, operations, result)):
            given = given.replace(b"\n", b" ")
            lines = given + b"\n[,]\n" + given + b"\n"
            answer = told_of_lines(result + b"\n" + result + b"\n", b"2, col 1: Invalid character: ,")
            name = f"json_patch -l: {operations[-60:]} {given[:60]} {len(given)}"
            checks.row(name, answer, patched_by, checks.folder, ["-l"], operations.decode(), lines, at=row)
    checks.row("json_patch: --max-line without -l", printed(b"[1,2]"), patched_by, checks.folder, ["-m2"], "[]", b"[1,\n2]")


def check_long_lines(checks):
    """By a patch without operations, lines of which some are longer than a limit."""
    path = os.path.join(checks.folder, "nothing")
    with open(path, "wb") as file:
        file.write(b"[]")
    LongLines("json_patch", ["-l", path], reports_each("json_patch"), is_going=True).check(checks)


def answers():
    """Each row, with its value, its patch and the answer."""
    for row in APPLIED + LONG_APPLIED:
        given, operations, result = row
        yield row, given.encode(), operations.encode(), printed(result.encode())
    for row in FAILED:
        given, operations, number, reason = row
        yield row, given.encode(), operations.encode(), reported(1, "json_patch", f"operation {number}: {reason}")
    for row in MALFORMED + LONG_MALFORMED:
        operations, words = row
        yield row, b"1", operations.encode(), told(words)
    yield from ((row, *row) for row in ROWS)


def check_rows(checks):
    for row, given, operations, expected in answers():
        name = f"json_patch: {operations[:60]} {given[:60]}"
        checks.row(name, expected, patched, checks.folder, given, operations, at=row)
    for row in ARGUMENTS:
        words, given, expected = row
        checks.row(f"json_patch: {words} {given}", expected, run_of, program("json_patch"), words, given, at=row)


def check_many(checks):
    """Patches of many operations, in time and in memory."""
    for row in MANY_OPERATIONS:
        given, operations, result = row
        name, begun = f"json_patch: {operations[:60]}, many", os.times().children_user
        if checks.wants(name, given, operations):
            answer = patched(checks.folder, given.encode(), operations.encode())
            seconds = os.times().children_user - begun
            checks.check(name, answer, printed(result.encode()), at=row)
            checks.check(f"{name}, {seconds:.1f} s", seconds < SECONDS, True, at=row)
    limited = lambda: resource.setrlimit(resource.RLIMIT_AS, (MEMORY, MEMORY))
    name, answer = "json_patch: doubled in little memory", reported(4, "json_patch", too_much("[1]"))
    if checks.needs_memory(name):
        checks.check(name, patched(checks.folder, b"[1]", patch(*DOUBLED).encode(), preexec_fn=limited), answer)


def check_copies(checks):
    """How many values the copies of a patch may copy."""
    rows = [(row, printed(row[2].encode())) for row in ENOUGH]
    rows += [(row, reported(4, "json_patch", too_much(row[0]))) for row in EXCEEDED]
    rows += [(row, reported(1, "json_patch", f"operation {row[2]}: {row[3]}")) for row in FAILED_BEFORE]
    for row, expected in rows:
        name = f"json_patch: copies, {row[0][:20]}, {len(row[1])} operations"
        checks.row(name, expected, patched, checks.folder, row[0].encode(), patch(*row[1]).encode(), at=row)
    words = reported(4, "json_patch", too_much("[1]"))
    checks.row("json_patch: copies, -i", words, patched_by, checks.folder, ["-i"], patch(*DOUBLED), b"[1]")
    checks.row("json_patch: copies, -l", COPIED_ANSWER, patched_by, checks.folder, ["-l"], COPIED, COPIED_LINES.encode())


def check_padded(checks):
    """The same with more members in each object, more items in each array where none is named from its end, and more operations
    before and after the others."""
    rows = [(row, *(it.encode() for it in row)) for row in APPLIED + LONG_APPLIED]
    for row, (given, operations, result) in padded_rows(checks, "json_patch", rows, padded_patch, UNPADDED):
        name = f"json_patch: padded {row[1][:60]} {row[0][:60]}"
        checks.row(name, printed(result), patched, checks.folder, given, operations, at=row)
    rows = [(row, row[0].encode(), row[1].encode(), row[2]) for row in FAILED]
    for row, (given, operations, number) in padded_rows(checks, "json_patch, failed", rows, padded_failure, {}):
        name, expected = f"json_patch: padded {row[1][:60]} {row[0][:60]}", reported(1, "json_patch", f"operation {number}: {row[3]}")
        checks.row(name, expected, patched, checks.folder, given, operations, at=row)
    rows = [(row, b"1", row[0].encode(), row[1]) for row in MALFORMED + LONG_MALFORMED]
    for row, (given, operations, words) in padded_rows(checks, "json_patch, no patches", rows, padded_mistake, UNPADDED_MISTAKES):
        name = f"json_patch: padded {row[0][:60]}"
        checks.row(name, told(words), patched, checks.folder, given, operations, at=row)


def check_deep(checks):
    """Deep values, on a small stack."""
    path = os.path.join(checks.folder, "deep")
    for row in DEEP_FAILED + DEEP_APPLIED:
        given, operations, *answer = row
        expected = printed(*answer) if len(answer) == 1 else reported(1, "json_patch", f"operation {answer[0]}: {answer[1]}")
        name = f"json_patch: deep, {operations[-60:]} {given[:20]}"
        checks.row(name, expected, patched, checks.folder, given, operations.encode(), at=row, preexec_fn=small_stack)
    with open(path, "w", encoding="utf-8") as file:
        file.write(patch(("copy", "/b/0", "/a")))
    wrong = reported(3, "json_patch", "Parse error at line:1, col:200001: Expected EOF but got character 'x'")
    FAULTS.deep(checks, [([path], NESTED + b"x", wrong), ([path], TWO, (4, FULL))])
    for row in DEEP_MEMORY:
        given, operations = row
        with open(path, "w", encoding="utf-8") as file:
            file.write(operations)
        FAULTS.refusing_deep(checks, [([path], given)])


def check_faults(checks):
    FAULTS.streams(checks, STREAMS)
    FAULTS.failing(checks, FAILING)
    FAULTS.streams(checks, STREAMS_OF_LINES)
    FAULTS.failing(checks, FAILING_LINES)
    FAULTS.interrupted(checks, INTERRUPTED_LINES)
    FAULTS.refusing(checks, REFUSED_MEMORY)


PAGE = Page("json_patch", [OPERATIONS], PATCHED)


def not_applied(path, given, beside):
    """The answer where an operation can't be applied, whether the file is as it was, and that beside it."""
    with tempfile.TemporaryDirectory() as at:
        folder = Folder("json_patch", at, a_json=given, b_json=beside)
        before = folder.state("a.json")
        return folder.run("-I", path, "a.json", "b.json"), folder.state("a.json") == before, folder.read("b.json")


def check_in_place(checks):
    path = os.path.join(checks.folder, "put")
    with open(path, "wb") as file:
        file.write(patch(("add", "/a", "[1.0]")).encode())
    InPlace("json_patch", [path], b'{"b":2.0}', b'{"a":[1],"b":2}\n').check(checks)
    answer = (1, b"", b"a.json: operation 0: %s\n" % NO_PLACE.encode()), True, b'{"a":[1]}\n'
    checks.row("json_patch -I: an operation can't be applied", answer, not_applied, path, b"[]", b"{}")
    with open(path, "wb") as file:
        file.write(COPIED.encode())
    answer = (1, b"", b"a.json: %s\n" % too_much(LARGE).encode()), True, b'{"a":7,"b":%s}\n' % array([7] * 100).encode()
    checks.row("json_patch -I: too many copies", answer, not_applied, path, LARGE.encode(), b'{"a":7,"b":[]}')


PARTS = (PAGE.check, *shared(check_rows), check_lines, check_long_lines, check_in_place, check_padded, check_many, check_copies, check_deep,
    check_faults)
