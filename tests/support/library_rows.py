"""Rows of the library's calls that no program shows. (Texts that are read, refused and written stand in `texts.py`.)

A value that is built by hand is written as a Python value: a number as an `int` or a `Decimal` of its text, an object as a `dict`.
`Read` is the value of a text. A refusal is a line, a column (how many characters of the line were read), a kind, and what its words show.
"""

from decimal import Decimal

from texts import DOCUMENT, DOCUMENT_COMPACT, DOCUMENT_INDENTED


class Read(str):
    """The value that is read from this text."""


# A text, and what one call of a parser after the other returns: a compact text, or a refusal.
CALLS = [
    ("[1,]", [(1, 3, "InvalidCharacter", "]")] * 4),
    ("0123]", [(1, 4, "LeadingZero"), (1, 4, "InvalidCharacter", "]")]),
    ("01.", [(1, 2, "LeadingZero"), (1, 2, "InvalidCharacter", ".")]),
    ("1.x", [(1, 2, "EmptyFraction"), (1, 2, "InvalidCharacter", "x")]),
    ("1.e5", [(1, 2, "EmptyFraction"), (1, 2, "InvalidCharacter", "e")]),
    ("{1:2}", [(1, 2, "KeyNotString", "number"), (1, 2, "InvalidCharacter", ":")]),
    ("[1 2] 3", [(1, 4, "ExpectedCommaOrBracket", "2"), (1, 4, "InvalidCharacter", "]")]),
    (r'"\q" 1', [(1, 3, "InvalidEscape", "q"), (1, 6, "UnexpectedEof")]),
    ("1 2", [(1, 3, "ExpectedEof", "2"), (1, 3, "UnexpectedEof")]),
    ("true false", [(1, 6, "ExpectedEof", "f"), (1, 6, "InvalidCharacter", "a")]),
    ("trux true", [(1, 4, "UnexpectedInLiteral", "x"), "true", (1, 9, "UnexpectedEof")]),
    ("\n\nnull", ["null", (3, 4, "UnexpectedEof")]),
]

# Texts with each kind of token, and in them what no value is; and what stands after each beginning of them. What reads them has one answer.
BEGUN = [
    DOCUMENT,
    '\r\n[-0,12.50E+2 ,1e-2,[[]],{ "a" : { } , "\\u0061":false}]',
    '\t"\\ud83d\\ude00\\ud800\\udc00 aé€😀\\"\\\\\\/\\b\\f\\n\\r\\t\x7f\\q',
    "[0,1e9223372036854775807,1e-9223372036854775808,12345678901234567890123e99]",
    "\n01.5e+3]",
    '{"":[{"b":null,"a":[1.5]}],{[1]:2}:3}',
]
ENDS = ["", "x", '"', "]", "}", ",", ":", "0", ".", "-", "e9999999999999999999", r"\u00€", r'\ud800"', "\x01", "\ufeff", " 😀"]

# What a text leaves that is refused.
REST = [
    ("[1,]", "]"),
    ("0123]", "]"),
    ("01.", "."),
    ("1.e5", "e5"),
    ("{1 :1}", " :1}"),
    ("{true :1}", " :1}"),
    ("\n\n{[]  :1", "  :1"),
]

# Three pairs of surrogates, as escapes. Where one of the six is left out, with and without a character before the closing quote, the
# run of escapes is refused after all 32 characters.
PAIRS = [r"\ud83d", r"\ude00"] * 3
UNPAIRED = (1, 32, "InvalidUtf16")

# A text as pieces, each with how often it stands there, and the refusal or the pieces of the compact text.
LONG = [
    ([("[", 100_000)], (1, 100_000, "UnexpectedEof")),
    ([("[", 100_000), ("x", 1)], (1, 100_000, "InvalidCharacter", "x")),
    ([("{", 100_000)], (1, 100_000, "UnexpectedEof")),
    ([('{"a":', 20_000)], (1, 100_000, "UnexpectedEof")),
    ([("[", 1_000), ("]", 1_000)], [("[", 1_000), ("]", 1_000)]),
    ([("9", 100_000)], [("9.", 1), ("9", 99_999), ("e99999", 1)]),
    ([("1", 1), ("0", 100_000)], [("1e100000", 1)]),
    ([("0.", 1), ("0", 100_000), ("1", 1)], [("1e-100001", 1)]),
    ([("1e308", 1)], [("1", 1), ("0", 308)]),
    ([("5e-324", 1)], [("0.", 1), ("0", 323), ("5", 1)]),
    ([('"', 1), ("a", 1_000), ('"', 1)], [('"', 1), ("a", 1_000), ('"', 1)]),
    ([('"', 1), (r"\u0041", 1_000), ('"', 1)], [('"', 1), ("A", 1_000), ('"', 1)]),
    ([('{"', 1), ("a", 1_000), ('":null}', 1)], [('{"', 1), ("a", 1_000), ('":null}', 1)]),
    ([('{"', 1), (r"\u0041", 1_000), ('":null}', 1)], [('{"', 1), ("A", 1_000), ('":null}', 1)]),
    ([("0e", 1), ("9", 40)], [("0", 1)]),
    ([("1e", 1), ("9", 40)], (1, 42, "NumberOutOfRange")),
]

# The same with a limit of ten containers, in two calls of one parser.
LIMITED = [([("[", 1_000)], 10, [(1, 10, "TooDeep", "["), (1, 20, "TooDeep", "[")])]

# A text, and the events that it tells: a key with a colon, a string in quotes, a blank after each.
EVENTS = [
    ("null", "null "),
    (" true\n", "true "),
    ("-0.0", "0 "),
    ('"\\u0061\\""', '"a"" '),
    (" [ ] ", "[ ] "),
    ("{\n}", "{ } "),
    ("[[[]],[[1]],2]", "[ [ [ ] ] [ [ 1 ] ] 2 ] "),
    ('["a","",["b"]]', '[ "a" "" [ "b" ] ] '),
    (
        '{"a": [1.50e1, false, null, {}], "b": {"\\u0061": "x"}, "a": 2}',
        '{ a: [ 15 false null { } ] b: { a: "x" } a: 2 } ',
    ),
]

# A text, and what one call after the other returns where each number is refused: events, a refusal, or None for the
# error of the events.
REFUSED_EVENTS = [
    ("[null, 1] true", [None, (1, 8, "InvalidCharacter", "]")]),
    ("1 true", [None, "true ", (1, 6, "UnexpectedEof")]),
    ("trux {}", [(1, 4, "UnexpectedInLiteral", "x"), "{ } "]),
]

# A value, and its compact text.
WRITTEN = [
    ("hello, world", '"hello, world"'),
    ([1, True, "str"], '[1,true,"str"]'),
    ([1, 2, 3], "[1,2,3]"),
    ({"\uff5e": 2, "😀": 1}, '{"\uff5e":2,"😀":1}'),
    ({"😀": 1, "\uff5e": 2}, '{"\uff5e":2,"😀":1}'),
    ({"b": 2, "": None, "a": {"c": []}, "aa": {}}, '{"":null,"a":{"c":[]},"aa":{},"b":2}'),
    ([{}, [], {"k": [None]}], '[{},[],{"k":[null]}]'),
    (
        {"bool": True, "arr": [1, None, "test"], "nested": {"blah": False, "blahblah": Decimal("3.14")}, "unicode": "❤"},
        DOCUMENT_COMPACT,
    ),
    (Read("1e309"), "1e309"),
    (Decimal("-12.30e-1"), "-1.23"),
    (Decimal("0.00120"), "0.0012"),
    (True, "true"),
    (None, "null"),
]

# A value, and its text that is indented with two spaces.
FORMATTED = [
    ([1, True, "str"], '[\n  1,\n  true,\n  "str"\n]'),
    ([1, 2, 3], "[\n  1,\n  2,\n  3\n]"),
    ({"k": []}, '{\n  "k": []\n}'),
    ({"b": [1], "a": None}, '{\n  "a": null,\n  "b": [\n    1\n  ]\n}'),
    (Read(DOCUMENT), DOCUMENT_INDENTED),
]

# A value, indents that a generator is given one after the other, and the text.
INDENTED = [
    ([{}, [], {"k": [None]}], [""], '[\n{},\n[],\n{\n"k": [\nnull\n]\n}\n]'),
    ([1], ["--"], "[\n--1\n]"),
    ([1], ["--", " "], "[\n 1\n]"),
    ([1, 2, 3], [" " * 8], f"[\n{' ' * 8}1,\n{' ' * 8}2,\n{' ' * 8}3\n]"),
    ([1, 2, 3], ["-", "  "], "[\n  1,\n  2,\n  3\n]"),
    ([], [""], "[]"),
    ([], ["\t"], "[]"),
    ({}, [""], "{}"),
    ({}, ["--"], "{}"),
    ("hello, world", [" "], '"hello, world"'),
    ({"😀": 1, "\uff5e": 2}, ["\t"], '{\n\t"\uff5e": 2,\n\t"😀": 1\n}'),
    ({"k": []}, ["é"], '{\né"k": []\n}'),
]

# The characters that are written as escapes, each in a string of its own.
QUOTED = [
    ("\b", r"\b"),
    ("\t", r"\t"),
    ("\n", r"\n"),
    ("\f", r"\f"),
    ("\r", r"\r"),
    ('"', r"\""),
    ("\\", r"\\"),
    *((chr(code), rf"\u{code:04x}") for code in (*range(0x08), 0x0B, *range(0x0E, 0x20))),
    *((c, c) for c in (" ", "/", "\x7f", "\x80", "é", "❤", "\uffff", "😀")),
]

# A value, and its text as each call that writes to a writer writes it.
NESTED = Read('[1,{"b":2,"a":[null,"x"]}]')
WRITERS = [
    ([True, None], "generate", [], "[true,null]"),
    (NESTED, "generate", [], '[1,{"a":[null,"x"],"b":2}]'),
    (NESTED, "generate", [""], '[\n1,\n{\n"a": [\nnull,\n"x"\n],\n"b": 2\n}\n]'),
    (NESTED, "write_to", [], '[1,{"a":[null,"x"],"b":2}]'),
    (
        NESTED,
        "format_to",
        [],
        '[\n  1,\n  {\n    "a": [\n      null,\n      "x"\n    ],\n    "b": 2\n  }\n]',
    ),
]

# How a writer fails, the kind of the error that is returned, and its message.
OWN_MESSAGE = "the writer's own message"
FAILURES = [
    ("BrokenPipe", "broken pipe", OWN_MESSAGE),
    ("Interrupted", "operation interrupted", OWN_MESSAGE),
    ("OutOfMemory", "out of memory", OWN_MESSAGE),
    ("Other", "other error", OWN_MESSAGE),
    ("WriteZero", "write zero", "the writer took no byte"),
]

# The lengths of strings of which some are written at once, and some are gathered first; and how each call writes their array.
LENGTHS = [1_500, 1_500, 2_500, 5_000, 0, 4_000]
ARRAYS = [
    ("generate", [], ("[", ",", "]")),
    ("generate", [""], ("[\n", ",\n", "\n]")),
    ("write_to", [], ("[", ",", "]")),
    ("format_to", [], ("[\n  ", ",\n  ", "\n]")),
]

# A value that a generator writes again after a writer failed at its second call, which had taken some bytes; and what it holds.
AGAIN = [
    ([True, None], 3, "[tr[true,null]"),
    (NESTED, 5, '[1,{"[1,{"a":[null,"x"],"b":2}]'),
]

# Texts of one number, whether it is negative, its digits, its power of ten, and its text.
DECIMALS = [
    (["0", "-0", "0.000", "0e99999999999", "0e" + "9" * 40], False, "", 0, "0"),
    (["15", "1.50e1", "0.15E+2"], False, "15", 0, "15"),
    (["1200"], False, "12", 2, "1200"),
    (["1e3"], False, "1", 3, "1000"),
    (["3.14"], False, "314", -2, "3.14"),
    (["-12.30e-1"], True, "123", -2, "-1.23"),
    (["0.00120"], False, "12", -4, "0.0012"),
    (["100e-2"], False, "1", 0, "1"),
    (["0.5"], False, "5", -1, "0.5"),
    (["0.0000000000000000000000000000001e30"], False, "1", -1, "0.1"),
    (["1e00000000000000000000005"], False, "1", 5, "100000"),
    (["1e309"], False, "1", 309, "1e309"),
    (["12e308"], False, "12", 308, "1.2e309"),
    (["-25e400"], True, "25", 400, "-2.5e401"),
    (["12e-400"], False, "12", -400, "1.2e-399"),
    (["5e-324"], False, "5", -324, "0." + "0" * 323 + "5"),
    (["5e-325"], False, "5", -325, "5e-325"),
    (["10e-2147483649"], False, "1", -2147483648, "1e-2147483648"),
    (["1e-2147483649"], False, "1", -2147483649, "1e-2147483649"),
    (["10e2147483647", "1e2147483648"], False, "1", 2147483648, "1e2147483648"),
    (["0.1e2147483648"], False, "1", 2147483647, "1e2147483647"),
    (["12e2147483647", "1.2e2147483648"], False, "12", 2147483647, "1.2e2147483648"),
    (["10e-9223372036854775809"], False, "1", -(2**63), "1e-9223372036854775808"),
    (["12e9223372036854775807", "1.2e9223372036854775808"], False, "12", 2**63 - 1, "1.2e9223372036854775808"),
    (["0.1e9223372036854775808"], False, "1", 2**63 - 1, "1e9223372036854775807"),
    (["12345678901234567890123456789012"], False, "12345678901234567890123456789012", 0, "12345678901234567890123456789012"),
]

# Texts that give no number, and which error they give.
NO_NUMBERS = [
    (["", " 1", "1 ", "01", "1.", "-", "1e+", "- 1", "0123]", "1.e5", "+1", ".5", "1e"], "NotANumber", "not a JSON number"),
    (["1e9223372036854775808", "1e-9223372036854775809"], "OutOfRange", "power of ten out of range"),
]

# A text, and the whole numbers of 64 bits that it is, with a sign and without.
WHOLE = [
    ("1e3", 1000, 1000),
    ("1.5", None, None),
    ("0", 0, 0),
    ("42", 42, 42),
    ("-1200", -1200, None),
    ("-9223372036854775808", -(2**63), None),
    ("-9223372036854775809", None, None),
    ("9223372036854775807", 2**63 - 1, 2**63 - 1),
    ("9223372036854775808", None, 2**63),
    ("18446744073709551615", None, 2**64 - 1),
    ("18446744073709551616", None, None),
    ("1e9223372036854775807", None, None),
]

# Whole numbers, whether they are negative, and their digits and powers.
FROM_WHOLE = [
    ("from_i64", -1200, True, "12", 2),
    ("from_i64", 0, False, "", 0),
    ("from_i64", 1000, False, "1", 3),
    ("from_i64", -(2**63), True, "9223372036854775808", 0),
    ("from_i64", 2**63 - 1, False, "9223372036854775807", 0),
    ("from_u64", 0, False, "", 0),
    ("from_u64", 2**63, False, "9223372036854775808", 0),
    ("from_u64", 2**64 - 1, False, "18446744073709551615", 0),
]

# A text, and the number's text if it is put into a buffer: without an exponent, and of up to 16 digits and a few zeros.
SHORT = [
    ("0", "0"),
    ("12345678", "12345678"),
    ("1234567890123456", "1234567890123456"),
    ("1e8", "100000000"),
    ("12345678.9", "12345678.9"),
    ("0.0000001", "0.0000001"),
    ("0.1234567890123456", "0.1234567890123456"),
    ("1234567891e-16", "0.0000001234567891"),
    ("0.01234567890123456", None),
]

# A value, and the name of its kind.
KINDS = [
    (None, "null"),
    (True, "boolean"),
    (False, "boolean"),
    (1, "number"),
    ("foo", "string"),
    ("", "string"),
    ([1], "array"),
    ([], "array"),
    ({"foo": 42}, "object"),
    ({}, "object"),
]

# Two values, and whether they are equal.
EQUAL = [
    (Read('{"b":1,"a":2}'), Read(' {"a":2.0 , "b":10e-1}'), True),
    ([1], ["1"], False),
    (Decimal("1.0"), 1, True),
    (Read("1e-400"), 0, False),
    (Read('{"a":1,"a":2}'), {"a": 2}, True),
    (Read(r'"\u0061"'), "a", True),
    (None, False, False),
    (False, True, False),
    ([1, 2], [2, 1], False),
    ([1], [1, 1], False),
    ([], {}, False),
    ({"a": 1}, {"b": 1}, False),
    ({"a": 1}, {"a": 2}, False),
    ({"a": 1}, {"a": 1, "b": 1}, False),
    (Read(DOCUMENT), Read(DOCUMENT_COMPACT), True),
]

# The types that values convert to, with the kinds that they want.
TYPES = [("JsonNumber", "number"), ("bool", "boolean"), ("String", "string"), ("()", "null"), ("Vec", "array"), ("HashMap", "object")]

# A value, the type that it is converted to, and the compact text of the value that is made of the content.
CONVERTED = [
    (1, "JsonNumber", "1"),
    (True, "bool", "true"),
    ("foo", "String", '"foo"'),
    (None, "()", "null"),
    ([True], "Vec", "[true]"),
    ({"foo": 42}, "HashMap", '{"foo":42}'),
    (Read(DOCUMENT), "HashMap", DOCUMENT_COMPACT),
]

# A value, and its compact text, of each kind, where each other type is refused.
UNCONVERTED = [
    (1, "number", "1"),
    (True, "boolean", "true"),
    ("foo", "string", '"foo"'),
    (None, "null", "null"),
    ([True], "array", "[true]"),
    ({"foo": 42}, "object", '{"foo":42}'),
]

# A value, a type, and what it sees: a number's or a truth value's text, a string, a count of items and each, a count of members, each
# with its key and its value. A type that sees nothing has an empty list.
SEEN = [
    (1, "JsonNumber", ["1"]),
    (Decimal("3.14"), "JsonNumber", ["3.14"]),
    (False, "bool", ["false"]),
    ("this is string", "JsonNumber", []),
    ("this is string", "String", ["this is string"]),
    (None, "()", ["()"]),
    (False, "()", []),
    (Read("[1, 2, 3]"), "JsonNumber", []),
    (Read("[1, 2, 3]"), "Vec", [3, "1", "2", "3"]),
    (Read("[1, 2, 3]"), "HashMap", []),
    ({"foo": 42}, "HashMap", [1, "foo", "42"]),
    (
        Read(DOCUMENT),
        "HashMap",
        [4, "arr", '[1,null,"test"]', "bool", "true", "nested", '{"blah":false,"blahblah":3.14}', "unicode", '"❤"'],
    ),
    ({"foo": 42}, "Vec", []),
    (1, "String", []),
    (1, "bool", []),
    (1, "()", []),
]

# A value, a type, a value whose content is put in the place of what the type sees, and the compact text afterwards.
CHANGED = [
    (1, "JsonNumber", Decimal("3.14"), "3.14"),
    (True, "bool", False, "false"),
    ("foo", "String", "bar", '"bar"'),
    ([1], "Vec", [None, 2], "[null,2]"),
    ({"foo": 1}, "HashMap", {"bar": []}, '{"bar":[]}'),
]

# A value, a type that sees no part of it for writing, and its compact text.
UNCHANGED = [
    (Read("[1, 2, 3]"), "JsonNumber", 7, "[1,2,3]"),
    ("foo", "JsonNumber", 7, '"foo"'),
    (1, "bool", True, "1"),
    (None, "String", "x", "null"),
    ({"foo": 1}, "Vec", [1], '{"foo":1}'),
    ([1], "HashMap", {}, "[1]"),
]

# An array, its new first item, and its compact text afterwards; or another value, which stays.
FIRST_ITEM = [
    (Read("[1, 2, 3]"), False, True, "[false,2,3]"),
    ([[1], 2], {"a": 1}, True, '[{"a":1},2]'),
    ([], 1, False, "[]"),
    ({"0": 1}, 2, False, '{"0":1}'),
]

# A value, keys and indexes, and the compact text of the value at that place, if there is one.
INDEX = """
{
  "foo": {
    "bar": [
      { "target": 42 }
    ]
  }
}
"""
PLACES = [
    (Read(INDEX), ["foo", "bar", 0, "target"], "42"),
    (Read(INDEX), ["foo"], '{"bar":[{"target":42}]}'),
    (Read(INDEX), ["foo", "bar", 1], None),
    (Read(INDEX), ["bar"], None),
    (Read(INDEX), [0], None),
    ({"foo": 1}, ["foo"], "1"),
    ({"foo": True}, ["foo"], "true"),
    ([1, True], [1], "true"),
    ([1, True], [2], None),
    ([1, True], ["1"], None),
    ("foo", [0], None),
]

# A value, what is put at a place, and the compact texts of the value at that place and of the whole.
PUT = [
    (Read(INDEX), False, ["foo", "bar", 0, "target"], "false", '{"foo":{"bar":[{"target":false}]}}'),
    ({"foo": 1}, Decimal("3.14"), ["foo"], "3.14", '{"foo":3.14}'),
    ({"foo": True}, "hello", ["foo"], '"hello"', '{"foo":"hello"}'),
    ([1, True], [], [1], "[]", "[1,[]]"),
    ({"a": {}, "b": [1, 2]}, None, ["b", 0], "null", '{"a":{},"b":[null,2]}'),
]

# The messages of errors that no call above leads to.
MESSAGES = [
    "Generate error: out of memory",
    "out of memory",
    "out of memory",
    "power of ten out of range",
    "out of memory",
]
