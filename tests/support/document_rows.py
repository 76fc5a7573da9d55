r"""Rows of documents, of normal texts, of merges and of places in texts.

A long text is written as pieces, each with how often it is there. A refusal is a line, a column, a kind, and what its words show.
"""

from library_rows import Read

TEXT = '{"b": [1.50, true, "x", null], "a": {"d": [], "c": "\\u00e9"}, "b": [2, "y"]}'
COMPACT = '{"a":{"c":"é","d":[]},"b":[2,"y"]}'

# A text, and the keys of its members in order.
MEMBERS = [(TEXT, ["a", "b"])]

# A text, a key, and the compact texts of the items of that member.
ITEMS = [(TEXT, "b", ["2", '"y"']), (TEXT, "c", [])]

# A text, a limit on depth, and the compact text and the size of its value.
VALUES = [(TEXT, 3, COMPACT, 2)]

# A text, and its text that is indented with two spaces, also as a line.
FORMATTED = [(TEXT, '{\n  "a": {\n    "c": "é",\n    "d": []\n  },\n  "b": [\n    2,\n    "y"\n  ]\n}')]


def nested(inner):
    """The pieces of a text of 100,000 nested containers."""
    return [('[[1],{"k":', 50_000), (inner, 1), ("},2]", 50_000)]


# The pieces of two texts, and whether they are equal.
EQUAL = [
    (nested("7"), nested("7"), True),
    (nested("7"), nested("8"), False),
    ([("{", 1), ('"k":[0],', 100_000), ('"k":[1]}', 1)], [('{"k":[1]}', 1)], True),
    ([("{", 1), ('"k":[0],', 100_000), ('"k":[1]}', 1)], [('{"k":[0]}', 1)], False),
]

# A text, a value, and whether they are equal.
EQUAL_VALUES = [
    (
        r'{"b": [1.50, true, "x", null, {}], "a": {"d": [], "c": "\u00e9"}}',
        Read('{"a":{"c":"é","d":[]},"b":[1.5,true,"x",null,{}]}'),
        True,
    ),
    (
        r'{"b": [1.50, true, "x", null, {}], "a": {"d": [], "c": "\u00e9"}}',
        Read('{"a":{"c":"é","d":[]},"b":[1.5,true,"x",null,[]]}'),
        False,
    ),
]

# Texts that are read one after the other in the memory of those before, each with its compact text or its refusal.
IN_TURN = [
    (TEXT, COMPACT),
    ("[[", (1, 2, "UnexpectedEof")),
    (r'["\u00e9", 12345678901234567890123]', '["é",12345678901234567890123]'),
    ("7", "7"),
    (TEXT, COMPACT),
]

# A text, a limit on depth, and the refusal.
LIMITED = [("[[1]]", 1, (1, 1, "TooDeep", "["))]

# The pieces of a target, of a patch and of the result: the examples of RFC 7396, appendix A, as compact texts.
MERGES = [
    ('{"a":"b"}', '{"a":"c"}', '{"a":"c"}'),
    ('{"a":"b"}', '{"b":"c"}', '{"a":"b","b":"c"}'),
    ('{"a":"b"}', '{"a":null}', "{}"),
    ('{"a":"b","b":"c"}', '{"a":null}', '{"b":"c"}'),
    ('{"a":["b"]}', '{"a":"c"}', '{"a":"c"}'),
    ('{"a":"c"}', '{"a":["b"]}', '{"a":["b"]}'),
    ('{"a":{"b":"c"}}', '{"a":{"b":"d","c":null}}', '{"a":{"b":"d"}}'),
    ('{"a":[{"b":"c"}]}', '{"a":[1]}', '{"a":[1]}'),
    ('["a","b"]', '["c","d"]', '["c","d"]'),
    ('{"a":"b"}', '["c"]', '["c"]'),
    ('{"a":"foo"}', "null", "null"),
    ('{"a":"foo"}', '"bar"', '"bar"'),
    ('{"e":null}', '{"a":1}', '{"a":1,"e":null}'),
    ("[1,2]", '{"a":"b","c":null}', '{"a":"b"}'),
    ("{}", '{"a":{"bb":{"ccc":null}}}', '{"a":{"bb":{}}}'),
]


def objects(levels):
    """The pieces of nested objects, each in the member `a` of the one around it."""
    return [('{"a":', levels), ('[1,true,"x",[],{}]', 1), ("}", levels)]


# The same of deep documents, by their pieces.
DEEP_MERGES = [
    (objects(100_000), objects(100_000), objects(100_000)),
    ([('{"a":{"b":2}}', 1)], objects(100_000), [('{"a":{"a":', 1), *objects(99_998), (',"b":2}}', 1)]),
]

# The pieces of compact texts, which a copy has too.
COPIED = [objects(100_000)]

# A quotation mark, a bracket and a backslash in strings; equal keys; an escaped key; characters of two bytes; empty containers.
PARTS = (
    '{\n "a]\\"[": [ ],\n "k": [1, {}, "é,[\\\\", [[7], 8]],\n "b": {"\\u00e9": -1e5},\n "k" : [0,2] }\n'
)
ITEMS_OF = r'[1,{"a":[],"é":[ [7] ,"\\",{"x":"]"}]} , 3]'
EQUAL_KEYS = r'{"a":1,"\u0061":{"b":2},"b":3}'
COLONS = '{"k"\n\t:\r\n {"k" :\n1}}'
CHARACTERS = r'{"ü€𝄞":0, "é":{"\"k\":":1,"":2}}'

# A text, a pointer, and the offset, the line and the column of the part, if there is one; or the refusal of the text.
PLACES = [
    (PARTS, "", (0, 1, 1)),
    (PARTS, '/a]"[', (12, 2, 11)),
    (PARTS, "/b", (58, 4, 7)),
    (PARTS, "/b/é", (69, 4, 18)),
    (PARTS, "/k", (83, 5, 8)),
    (PARTS, "/k/1", (86, 5, 11)),
    (ITEMS_OF, "/0", (1, 1, 2)),
    (ITEMS_OF, "/1", (3, 1, 4)),
    (ITEMS_OF, "/1/é", (16, 1, 16)),
    (ITEMS_OF, "/1/é/0/0", (19, 1, 19)),
    (ITEMS_OF, "/1/é/1", (23, 1, 23)),
    (ITEMS_OF, "/1/é/2/x", (33, 1, 33)),
    (ITEMS_OF, "/2", (42, 1, 42)),
    (PARTS, "/k/2", None),
    (PARTS, "/k/-", None),
    (PARTS, "/k/01", None),
    (PARTS, '/a]"[/0', None),
    (PARTS, "/b/e", None),
    ("7", "/0", None),
    ("[7]", "/18446744073709551616", None),
    (COLONS, "/k/k", (17, 4, 1)),
    # No comma is before 9.
    ("[7,\n 8 9]", "/0", (2, 4, "ExpectedCommaOrBracket", "9")),
]

# The same of the keys of members.
KEY_PLACES = [
    (PARTS, '/a]"[', (3, 2, 2)),
    (PARTS, "/b", (53, 4, 2)),
    (PARTS, "/b/é", (59, 4, 8)),
    (PARTS, "/k", (77, 5, 2)),
    (ITEMS_OF, "/1/é", (11, 1, 12)),
    (ITEMS_OF, "/1/é/2/x", (29, 1, 29)),
    # The last of equal keys.
    (EQUAL_KEYS, "/a", (7, 1, 8)),
    (EQUAL_KEYS, "/a/b", (17, 1, 18)),
    (EQUAL_KEYS, "/b", (24, 1, 25)),
    # White space is around a colon.
    (COLONS, "/k", (1, 1, 2)),
    (COLONS, "/k/k", (11, 3, 3)),
    # Columns are characters.
    (CHARACTERS, "/ü€𝄞", (1, 1, 2)),
    (CHARACTERS, "/é", (16, 1, 11)),
    (CHARACTERS, '/é/"k":', (22, 1, 16)),
    (CHARACTERS, "/é/", (33, 1, 27)),
    # What is no member has no key.
    (PARTS, "", None),
    (PARTS, "/k/1", None),
    (PARTS, "/k/2", None),
    (PARTS, "/b/e", None),
    (PARTS, "/c/k", None),
    ("7", "/0", None),
    ("{ }", "/", None),
    # A byte order mark is refused.
    ('\ufeff{"a":1}', "/a", (1, 0, "InvalidCharacter", "\ufeff")),
]

# A text, and its normal text.
NORMAL = [
    ("null", "null"),
    ("\t true\r\n", "true"),
    ("false", "false"),
    ("-0", "0"),
    ("-0.0", "0"),
    ("1.50", "1.5"),
    ("1e2", "100"),
    ("12.50E+2", "1250"),
    ("1e-2", "0.01"),
    ('""', '""'),
    (r'"a\/\u0041\u00e9\ud83d\ude00"', '"a/Aé😀"'),
    (r'"\b\f\n\r\t\"\\\u001f"', r'"\b\f\n\r\t\"\\\u001f"'),
    ("[ ]", "[]"),
    ("{ }", "{}"),
    ("[ [ ] , [ { } , 1 ] ]", "[[],[{},1]]"),
    ('{"b":1,"a":2}', '{"a":2,"b":1}'),
    ('{"a":1,"b":2,"a":3}', '{"a":3,"b":2}'),
    (r'{"a":1,"\u0061":2}', '{"a":2}'),
    ('{"c":1,"a":2,"":3,"ab":4,"a":5,"c":6}', '{"":3,"a":5,"ab":4,"c":6}'),
    ('{"\U0001f600":1,"\uff5e":2}', '{"\uff5e":2,"\U0001f600":1}'),
    (
        '{"b":[{"d":1,"c":{"f":2,"e":[]}}],"a":{"h":3,"g":4}}',
        '{"a":{"g":4,"h":3},"b":[{"c":{"e":[],"f":2},"d":1}]}',
    ),
]

# A text, and its normal text that is indented with two spaces.
INDENTED = [
    (" 1.50 ", "1.5"),
    ("[ ]", "[]"),
    ("{ }", "{}"),
    ("[[],{}]", "[\n  [],\n  {}\n]"),
    (
        r'{"b":[1,[true]],"a":{"c":"\n"}}',
        '{\n  "a": {\n    "c": "\\n"\n  },\n  "b": [\n    1,\n    [\n      true\n    ]\n  ]\n}',
    ),
]

# The pieces of a text of 20,000 nested containers, and of its normal text.
DEEP = [
    ([("[", 20_000), ("1", 1), ("]", 20_000)], [("[", 20_000), ("1", 1), ("]", 20_000)]),
    ([('{"b":0,"a":', 20_000), ("1", 1), ("}", 20_000)], [('{"a":', 20_000), ("1", 1), (',"b":0}', 20_000)]),
]

# A text, and how each call writes it to a writer.
WRITERS = [
    ('{"b":"c", "a":[1,null]}', "NormalText::write_to", '{"a":[1,null],"b":"c"}'),
    ('{"b":"c", "a":[1,null]}', "NormalText::format_to", '{\n  "a": [\n    1,\n    null\n  ],\n  "b": "c"\n}'),
]
