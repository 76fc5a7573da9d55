"""Texts that are read and texts that are refused, with what is expected of each.

The values are those of RFC 8259, of the documentation and the tests of the original crate, and of tables made by hand. A refusal is a
line, a column (how many characters of the line were read), a kind, and what its words show.
"""

import itertools

# The words of each kind, where %s stands for what they show; and those of the original crate for the same refusal, as a pattern
# with a group for what they show: SAME where it has the port's, NONE where it has no such refusal.
SAME, NONE = "the same words", None
KINDS = {
    "UnexpectedEof": ("Unexpected EOF", SAME),
    "InvalidCharacter": ("Invalid character: %s", SAME),
    "ExpectedEof": ("Expected EOF but got character '%s'", SAME),
    "KeyNotString": (
        "Key of object must be string but found %s",
        r"Key of object must be string but found (Null|Boolean|Number|Array|Object)\b.*",
    ),
    "ExpectedColon": ("':' is expected after key of object but actually found '%s'", SAME),
    "ExpectedCommaOrBrace": ("',' or '}' is expected for object but actually found '%s'", SAME),
    "ExpectedCommaOrBracket": ("',' or ']' is expected for array but actually found '%s'", SAME),
    "InvalidUtf16": ("Invalid UTF-16 sequence", r"Invalid UTF-16 sequence .+"),
    "InvalidHexDigit": ("Unicode character must be \\uXXXX (X is hex character) format but found character '%s'", SAME),
    "InvalidEscape": ("'\\%s' is invalid escaped character", SAME),
    "ControlCharacter": ("String cannot contain control character %s", SAME),
    "UnexpectedInLiteral": (
        "Unexpected character '%s' while parsing a literal",
        r"Unexpected character '(.)' while parsing '(?:null|true|false)'",
    ),
    "EmptyInteger": ("Integer part must not be empty in number literal", SAME),
    "LeadingZero": ("Integer part of number must not start with 0 except for '0'", SAME),
    "EmptyFraction": ("Fraction part of number must not be empty", SAME),
    "EmptyExponent": ("Exponent part must not be empty in number literal", SAME),
    "NumberOutOfRange": ("Invalid number literal: power of ten out of range", NONE),
    "TooDeep": ("Nesting is too deep at '%s'", NONE),
}

# The texts that the crate accepts and the port refuses: words of the message, what stands before its place, and the difference.
KNOWN_REFUSALS = (
    ("power of ten out of range", r"[0-9][eE][+-]?[0-9]{19,}\Z", "a literal whose power of ten is outside i64 is refused"),
    ("format but found character '", r"\\u[0-9a-fA-F]{0,3}[ \n\t\r]\Z", "white space among the digits of \\u is refused"),
)


def shown(character):
    """A character as the port's words show it."""
    return character if " " <= character <= "~" else f"U+{ord(character):04X}"


def words_of(kind, *what):
    """The words of a refusal that show a character, or the name of a kind of value."""
    return KINDS[kind][0] % tuple(shown(it) if len(it) == 1 else it for it in what)


# The first example of the crate's documentation, with its members in no order, and the two texts of its value.
DOCUMENT = r"""
    {
        "bool": true,
        "arr": [1, null, "test"],
        "nested": {
            "blah": false,
            "blahblah": 3.14
        },
        "unicode": "\u2764"
    }
"""
DOCUMENT_COMPACT = '{"arr":[1,null,"test"],"bool":true,"nested":{"blah":false,"blahblah":3.14},"unicode":"❤"}'
DOCUMENT_INDENTED = """{
  "arr": [
    1,
    null,
    "test"
  ],
  "bool": true,
  "nested": {
    "blah": false,
    "blahblah": 3.14
  },
  "unicode": "❤"
}"""

# Small texts, of which each request for memory is refused.
SMALL = [DOCUMENT.encode(), b"[1,]", b'"\\ud800"', b'{"a":{"b":[1.5]},"c" 1}', b'{"a":[1,[2]],"a":3}', b"{[1,[2]]:3}"]

# A text and the compact text of its value.
READ = [
    # Literals, arrays and white space (RFC 8259, sections 2, 3 and 5).
    ("  true\n", "true"),
    ("7", "7"),
    ("[1]", "[1]"),
    ("[true,null]", "[true,null]"),
    ("[1, 2, 3]", "[1,2,3]"),
    ("[\n  1,\n  2,\n  3\n]", "[1,2,3]"),
    ("[\n        1,\n        2,\n        3\n]", "[1,2,3]"),
    (" [ 1 , 2 ] ", "[1,2]"),
    ("\r[\r1\r,\r2\r]\r", "[1,2]"),
    ('\t{\t"a"\t:\t[\n]\t}\n', '{"a":[]}'),
    ("[[],[]]", "[[],[]]"),
    # Numbers (section 6).
    ("0", "0"),
    ("-0", "0"),
    ("0.000", "0"),
    ("0e99999999999", "0"),
    ("0e9999999999999999999999999999999999999999", "0"),
    ("15", "15"),
    ("1.50e1", "15"),
    ("0.15E+2", "15"),
    ("1200", "1200"),
    ("3.14", "3.14"),
    ("-12.30e-1", "-1.23"),
    ("0.00120", "0.0012"),
    ("0.5", "0.5"),
    ("100e-2", "1"),
    ("1e00000000000000000000005", "100000"),
    ("0.0000000000000000000000000000001e30", "0.1"),
    ("[1.50e1, -0, 0e99999999999, 1e400]", "[15,0,0,1e400]"),
    ("1e309", "1e309"),
    ("12e308", "1.2e309"),
    ("-25e400", "-2.5e401"),
    ("12e-400", "1.2e-399"),
    ("5e-325", "5e-325"),
    ("10e-2147483649", "1e-2147483648"),
    ("1e-2147483649", "1e-2147483649"),
    ("1e2147483648", "1e2147483648"),
    ("10e2147483647", "1e2147483648"),
    ("12e2147483647", "1.2e2147483648"),
    ("1.2e2147483648", "1.2e2147483648"),
    ("10e-9223372036854775809", "1e-9223372036854775808"),
    ("12e9223372036854775807", "1.2e9223372036854775808"),
    ("1.2e9223372036854775808", "1.2e9223372036854775808"),
    ("12345678901234567890123456789012", "12345678901234567890123456789012"),
    ("0.1e9223372036854775808", "1e9223372036854775807"),
    # Strings (section 7).
    (r'"\ud83d\ude00"', '"😀"'),
    (r'"\u2764"', '"❤"'),
    (r'"\/\u000B"', r'"/\u000b"'),
    ('"\\b\\u000b\x7f/\\"\\\\"', '"\\b\\u000b\x7f/\\"\\\\"'),
    # Objects (section 4): the last of equal keys stays, and keys stand in the order of their bytes.
    ('{"a":1,"a":2}', '{"a":2}'),
    (r'{"\u0061":1,"a":2}', '{"a":2}'),
    ('{"a":[[[]]],"a":1}', '{"a":1}'),
    ('{"b":1,"a":2}', '{"a":2,"b":1}'),
    (' {"a":2.0 , "b":10e-1}', '{"a":2,"b":1}'),
    ('{"b":[1],"a":null}', '{"a":null,"b":[1]}'),
    ('[1,{"a":[null,"x"],"b":2}]', '[1,{"a":[null,"x"],"b":2}]'),
    (r'{"\ud83d\ude00":1,"\uff5e":2}', '{"\uff5e":2,"😀":1}'),
    ('[\n{},\n[],\n{\n"k": [\nnull\n]\n}\n]', '[{},[],{"k":[null]}]'),
    ("\n" + DOCUMENT, DOCUMENT_COMPACT),
]

# A text, the line and the column, the kind, and what its words show.
REFUSED = [
    # Literals, and what stands before and after a value.
    ("", 1, 0, "UnexpectedEof"),
    ("  ", 1, 2, "UnexpectedEof"),
    ("tru", 1, 3, "UnexpectedEof"),
    ("trux", 1, 4, "UnexpectedInLiteral", "x"),
    ("tr\n", 2, 0, "UnexpectedInLiteral", "\n"),
    ("\ufeff1", 1, 0, "InvalidCharacter", "\ufeff"),
    ("\ufeffnull", 1, 0, "InvalidCharacter", "\ufeff"),
    ("1 2", 1, 3, "ExpectedEof", "2"),
    ("true false", 1, 6, "ExpectedEof", "f"),
    ("trux true", 1, 4, "UnexpectedInLiteral", "x"),
    ("t ", 1, 2, "UnexpectedInLiteral", " "),
    # Numbers.
    ("-", 1, 1, "EmptyInteger"),
    ("- 1", 1, 1, "EmptyInteger"),
    ("01.", 1, 2, "LeadingZero"),
    ("01.5", 1, 2, "LeadingZero"),
    ("0123]", 1, 4, "LeadingZero"),
    ("[01,x", 1, 3, "LeadingZero"),
    ("{[01", 1, 4, "LeadingZero"),
    ("1.", 1, 2, "EmptyFraction"),
    ("[1.]", 1, 3, "EmptyFraction"),
    ("1.e5", 1, 2, "EmptyFraction"),
    ("1e+", 1, 3, "EmptyExponent"),
    ("1e+x", 1, 3, "EmptyExponent"),
    ("1e9999999999999999999999999999999999999999", 1, 42, "NumberOutOfRange"),
    ("1e9223372036854775808", 1, 21, "NumberOutOfRange"),
    ("1e-9223372036854775809", 1, 22, "NumberOutOfRange"),
    ("[1e-9223372036854775809]", 1, 23, "NumberOutOfRange"),
    ("1.x", 1, 2, "EmptyFraction"),
    ("\n\n00", 3, 2, "LeadingZero"),
    ("1e", 1, 2, "EmptyExponent"),
    # Strings.
    ('"abc', 1, 4, "UnexpectedEof"),
    (r'"a\q"', 1, 4, "InvalidEscape", "q"),
    (r'"\ud800\q"', 1, 9, "InvalidEscape", "q"),
    (r'"\udc00\q', 1, 9, "InvalidEscape", "q"),
    (r'"\u 0041"', 1, 4, "InvalidHexDigit", " "),
    (r'"\ud83d\ude0"', 1, 13, "InvalidHexDigit", '"'),
    (r'"\ud800"', 1, 8, "InvalidUtf16"),
    (r'"\ud800x', 1, 8, "InvalidUtf16"),
    (r'"\ud800x"', 1, 8, "InvalidUtf16"),
    (r'"\ud800\u0041"', 1, 14, "InvalidUtf16"),
    (r'"\udc00\u0041"', 1, 14, "InvalidUtf16"),
    (r'"\ude00\ud83d"', 1, 14, "InvalidUtf16"),
    ('"\t', 1, 2, "ControlCharacter", "\t"),
    ('"\n', 2, 0, "ControlCharacter", "\n"),
    ('"t\x01', 1, 3, "ControlCharacter", "\x01"),
    (r'"\q" 1', 1, 3, "InvalidEscape", "q"),
    (r'"\ ', 1, 3, "InvalidEscape", " "),
    # Arrays.
    ("[", 1, 1, "UnexpectedEof"),
    ("[1, 2, 3", 1, 8, "UnexpectedEof"),
    ("[\nx", 2, 0, "InvalidCharacter", "x"),
    ("[1,]", 1, 3, "InvalidCharacter", "]"),
    ("[1 2]", 1, 4, "ExpectedCommaOrBracket", "2"),
    ("[1 x", 1, 4, "ExpectedCommaOrBracket", "x"),
    ("[1 2] 3", 1, 4, "ExpectedCommaOrBracket", "2"),
    # Objects.
    ("{,", 1, 1, "InvalidCharacter", ","),
    ('{"a":1,}', 1, 7, "InvalidCharacter", "}"),
    ("{1:2}", 1, 2, "KeyNotString", "number"),
    ("{1 ", 1, 2, "KeyNotString", "number"),
    ("{1:01}", 1, 2, "KeyNotString", "number"),
    ("{[1]:2}", 1, 4, "KeyNotString", "array"),
    ("{[[]]", 1, 5, "KeyNotString", "array"),
    ("{{}:1}", 1, 3, "KeyNotString", "object"),
    ('{"a" 1}', 1, 6, "ExpectedColon", "1"),
    ('{"a":1;', 1, 7, "ExpectedCommaOrBrace", ";"),
    ("\n {null", 2, 6, "KeyNotString", "null"),
    ("{true", 1, 5, "KeyNotString", "boolean"),
    ("{1", 1, 2, "KeyNotString", "number"),
    ("{[]", 1, 3, "KeyNotString", "array"),
    ("{{}", 1, 3, "KeyNotString", "object"),
]

# A text, a limit on open containers, and the compact text, or the refusal.
LIMITS = [
    ("7", 0, "7"),
    ("[1]", 1, "[1]"),
    ("[[1]]", 0, (1, 0, "TooDeep", "[")),
    ("[[1]]", 1, (1, 1, "TooDeep", "[")),
    ("[[],[]]", 2, "[[],[]]"),
    ('{"a":{"b":1}}', 1, (1, 5, "TooDeep", "{")),
    ('{"a":[[[]]],"a":1}', 3, (1, 7, "TooDeep", "[")),
    ('{"a":[[[]]],"a":1}', 4, '{"a":1}'),
    ("{[]:1}", 1, (1, 1, "TooDeep", "[")),
    ("{[]:1}", 2, (1, 3, "KeyNotString", "array")),
    ("[[", 1, (1, 1, "TooDeep", "[")),
    ("[{", 1, (1, 1, "TooDeep", "{")),
]

# A text, and its value's text that is indented with two spaces.
INDENTED = [
    (DOCUMENT, DOCUMENT_INDENTED),
    ('{"k":[]}', '{\n  "k": []\n}'),
    ("[1,2,3]", "[\n  1,\n  2,\n  3\n]"),
    ('[1,true,"str"]', '[\n  1,\n  true,\n  "str"\n]'),
    ("[]", "[]"),
    ("{}", "{}"),
]

# The characters of a string, and its text (RFC 8259, section 7): what has to be escaped, and by two letters where that is possible.
STRINGS = [
    ('\x08\x0b\x7f/"\\', '"\\b\\u000b\x7f/\\"\\\\"'),
    ("❤", '"❤"'),
    ("/\x0b", r'"/\u000b"'),
    ("\t\n\x0c\r\x00\x1f", r'"\t\n\f\r\u0000\u001f"'),
    ("\x07\x0ea\x10", r'"\u0007\u000ea\u0010"'),
    ("😀 \u0080", '"😀 \u0080"'),
    ("hello, world", '"hello, world"'),
    ("", '""'),
]

# Characters that messages show, and where a text is refused for any of them but for the tab, which is white space there.
SHOWN = ["x", "~", "\x7f", "\ufeff", "😀"]
BEFORE_ANY = [
    ("", 0, "InvalidCharacter"),
    ("1", 2, "ExpectedEof"),
    ('{"a"', 5, "ExpectedColon"),
    ('{"a":1', 7, "ExpectedCommaOrBrace"),
    ("[1", 3, "ExpectedCommaOrBracket"),
    ('"\\u', 4, "InvalidHexDigit"),
    ('"\\', 3, "InvalidEscape"),
    ("t", 2, "UnexpectedInLiteral"),
]

# Tokens and their compact texts.
TOKENS = [
    ("null", "null"),
    ("true", "true"),
    ("false", "false"),
    ("-0", "0"),
    ("7", "7"),
    ("-12345678901234567890123", "-12345678901234567890123"),
    ("0.1250", "0.125"),
    ("12.5E+2", "1250"),
    ("1e-2", "0.01"),
    ('""', '""'),
    ('"0123456789abcdefghijk"', '"0123456789abcdefghijk"'),
    ('"aé€😀z"', '"aé€😀z"'),
    (r'"\"\\\/\t"', r'"\"\\/\t"'),
    (r'"\u00e9\ud83d\ude00"', '"é😀"'),
    ("[]", "[]"),
    ("{}", "{}"),
    ("[1 , [2]]", "[1,[2]]"),
    ('{ "a" : 1 }', '{"a":1}'),
]

# What stands after a token: white space, and characters of one to four bytes.
WHITE = ["", " ", "\r", "\t"]
OTHERS = ["x", "\x0b", "\xa0", "é", "€", "😀"]

# Plain characters of one to four bytes; what ends a string after them, and how it is written; and what it is refused for after them, by a
# kind and what is shown, after so many characters.
PLAIN = ["a", "\x7f", "é", "€", "😀"]
CLOSED = [('"', '"'), (r'\u0041\"é\/"', r'A\"é/"')]
BROKEN = [
    ("", 0, "UnexpectedEof"),
    ("\\", 1, "UnexpectedEof"),
    ("\x1f", 1, "ControlCharacter", "\x1f"),
    ("\x01é", 1, "ControlCharacter", "\x01"),
    (r"\x", 2, "InvalidEscape", "x"),
    ("\\😀", 2, "InvalidEscape", "😀"),
    (r"\u00€0", 5, "InvalidHexDigit", "€"),
    (r'\ud800"', 7, "InvalidUtf16"),
]

# How many members and items stand before what is refused: round the 64 that are read at once, and more.
COUNTS = [63, 64, 65, 128, 1_000]
AFTER_MEMBERS = [
    ("", 0, "UnexpectedEof"),
    (" ;", 2, "ExpectedCommaOrBrace", ";"),
    (",}", 1, "InvalidCharacter", "}"),
    (',"k" 1', 6, "ExpectedColon", "1"),
    (',"k":01', 7, "LeadingZero"),
    (",7:", 2, "KeyNotString", "number"),
    (",[1]:", 4, "KeyNotString", "array"),
]
AFTER_ITEMS = [
    ("", 0, "UnexpectedEof"),
    (" x", 2, "ExpectedCommaOrBracket", "x"),
    (",]", 1, "InvalidCharacter", "]"),
    (",-]", 2, "EmptyInteger"),
]

# Below, at and after the first growths of vectors, strings and maps, and far beyond them. Larger things than the second number are read
# alone, and not inside others, and no deeper containers are indented.
SIZES = [0, 1, 8, 9, 17, 64, 65, 1_000, 5_000, 300_000]
LARGEST_INSIDE = 1_000

# Where a value stands, in a text and in the compact text; `@` is the value, and `*` is 64 members.
MEMBERS = ",".join(f'"b{i:02}":0' for i in range(64))
PLACES = [
    ("\t[ @ ]\r", "[@]"),
    ('{"z" : 1,"a":@}', '{"a":@,"z":1}'),
    ('{"a": @ ,"z":1}', '{"a":@,"z":1}'),
    ('{ "a":@ }', '{"a":@}'),
    ('{"a":@,*}', '{"a":@,*}'),
    ('{*,"z":@}', '{*,"z":@}'),
    ('{*,"z":{"a":@,*}}', '{*,"z":{"a":@,*}}'),
]

# How a part of a string is spelled, and how it is written.
PARTS = [
    ("a", "a"),
    (r"\n", r"\n"),
    (r"\\", r"\\"),
    ("❤", "❤"),
    ("😀", "😀"),
    (r"\u0041", "A"),
    (r"\u001F", r"\u001f"),
    (r"\ud83d\ude00", "😀"),
]

# How containers begin and end that stand in one another, each second one otherwise; and such that stay open.
NESTS = [(("[", "["), ("]", "]")), (('{"a":', '{"a":'), ("}", "}")), (("[", '{"a":'), ("]", "}"))]
OPEN = [("[", "["), ('{"a":', '{"a":'), ("[", '{"a":'), ("{", "{")]

# The longest whole numbers that are written without an exponent.
LONGEST_PLAIN = 309


def spelled(characters):
    """The text of a string in which each character is escaped by its number, or its two."""
    units = characters.encode("utf-16-be").hex()
    return '"' + "".join(f"\\u{units[i:i + 4]}" for i in range(0, len(units), 4)) + '"'


def placed(place, value):
    return place.replace("*", MEMBERS).replace("@", value)


def alternating(pair, places):
    return "".join(pair[place % 2] for place in places)


def laid_out(compact):
    """The text indented with two spaces, of a compact text in which no string holds a bracket, a comma or a colon."""
    lines, depth, last = [], 0, " "
    for c in compact:
        depth -= c in "]}"
        if (last in "[{") != (c in "]}") or last == ",":
            lines.append("\n" + "  " * depth)
        lines.append(": " if c == ":" else c)
        depth += c in "[{"
        last = c
    return "".join(lines)


def read_at_each_place():
    """Tokens that begin at each place from 0 to 33, with white space after them, and strings of up to 69 plain characters, so that they
    lie across 8, 16, 24, 32 and 64 bytes."""
    for (token, compact), count, white in itertools.product(TOKENS, range(34), WHITE):
        yield " " * count + token + white, compact
    for plain, count, (end, written) in itertools.product(PLAIN, range(70), CLOSED):
        yield f'"{plain * count}{end}', f'"{plain * count}{written}'


def refused_at_each_place():
    """The same tokens with another character after them, and broken strings: each text with its line, column, kind and what is shown."""
    for (token, _), count, other in itertools.product(TOKENS, range(34), OTHERS):
        yield " " * count + token + other, 1, count + len(token) + 1, "ExpectedEof", other
    for plain, count, (end, taken, *why) in itertools.product(PLAIN, range(34), BROKEN):
        yield f'"{plain * count}{end}', 1, count + 1 + taken, *why


def characters_shown():
    """Texts that are refused for a character that the words show."""
    for (text, column, kind), character in itertools.product(BEFORE_ANY, SHOWN):
        yield text + character, 1, column, kind, character
    for text, column, kind in [*BEFORE_ANY[5:], ('"', 2, "ControlCharacter")]:
        yield f"{text}\t", 1, column, kind, "\t"


def broken_surrogates():
    """Three pairs of surrogates without one of the six."""
    for left_out, end in itertools.product(range(6), ['"', 'x"']):
        units = (unit for place, unit in enumerate([r"\ud83d", r"\ude00"] * 3) if place != left_out)
        yield '"' + "".join(units) + end, 1, 32, "InvalidUtf16"


def cut_off():
    """The texts that are read, cut off at each place: a prefix is accepted, or refused where it ends."""
    for text, _ in READ:
        for length in range(len(text)):
            prefix = text[:length]
            lines = prefix.split("\n")
            yield prefix, len(lines), len(lines[-1])


def after_lines():
    """The tokens on lines of their own in one text, and its compact text."""
    lines = [" " * place + token + white for place, ((token, _), white) in enumerate(itertools.product(TOKENS, ["", "\n", "\r\n", "\t"]))]
    return "[\n" + ",\n".join(lines) + "]", "[" + ",".join(compact for _, compact in TOKENS for _ in range(4)) + "]"


def many():
    """Items and members, and one of these again with a later value: the text and the compact text."""
    for count in COUNTS:
        members = [f'"{1_000_001 + i}":{1_000_001 + i}' for i in range(count)]
        for again in {0, 1, 62, count // 2, count - 1}:
            key = f'"{1_000_001 + again}":'
            rest = [f"{key}5000" if it.startswith(key) else it for it in members]
            yield "{" + ",".join([*members, f"{key}5000"]) + "}", "{" + ",".join(rest) + "}"


def after_many():
    """What is refused after many members and items."""
    for count in COUNTS:
        numbers = [str(1_000_001 + i) for i in range(count)]
        members, items = "{" + ",".join(f'"{it}":{it}' for it in numbers), "[" + ",".join(numbers)
        for text, after in ((members, AFTER_MEMBERS), (items, AFTER_ITEMS)):
            for end, taken, *why in after:
                yield text + end, 1, len(text) + taken, *why


def numbers_of_size(before, after):
    """Numbers with so many nines after a first one before the point, and so many and an 8 after it: with the point there, without it,
    and with an exponent that takes it to the end."""
    nines, digits = "9" * before, "9" * after + "8"
    plain, whole, far = f"9{nines}.{digits}", f"9{nines}{digits}", f"9.{nines}{digits}e"
    written = plain if before < LONGEST_PLAIN else f"{far}{before}"
    yield plain, written
    yield f"{whole}e-{after + 1}", written
    written = whole if before + after + 1 < LONGEST_PLAIN else f"{far}{before + after + 1}"
    yield whole, written
    yield f"{plain}E+{after + 1}", written


def things_of_size(size):
    """What grows with a size: texts and their compact texts."""
    numbers = [str(1_000_001 + i) for i in range(size)]
    members = [f'"k{it}":{it}' for it in numbers]
    yield "\t[ " + " , ".join(numbers) + " ]\r", "[" + ",".join(numbers) + "]"
    yield "{ " + " ,".join(reversed(members)) + " }", "{" + ",".join(members) + "}"
    yield "{" + "".join(f'"k":{it},' for it in numbers) + '"k":"last"}', '{"k":"last"}'
    for part, written in PARTS:
        yield f'"{part * size}"', f'"{written * size}"'
        yield f'{{"{part * size}":null}}', f'{{"{written * size}":null}}'
    yield f"-{'9' * size}8e-{size + 1}", f"-0.{'9' * size}8"
    yield f"5e{'0' * size}2", "500"
    yield f"-0.0E+{'9' * size}9", "0"
    yield from numbers_of_size(size, size)


def nested_of_size(size):
    """Containers in one another that are closed."""
    for begins, ends in NESTS:
        yield f"{alternating(begins, range(size))}null{alternating(ends, reversed(range(size)))}"


def open_of_size(size):
    """Containers in one another that stay open, and what is refused in them."""
    for begins in OPEN:
        text = alternating(begins, range(size))
        yield text, 1, len(text), "UnexpectedEof"
        yield f"{text}x", 1, len(text), "InvalidCharacter", "x"


def long_numbers():
    """Long numbers, and numbers with far exponents: texts and compact texts, which are read as themselves."""
    rows = [
        ("9" * 100_000, f"9.{'9' * 99_999}e99999"),
        (f"1{'0' * 100_000}", "1e100000"),
        (f"0.{'0' * 100_000}1", "1e-100001"),
        ("1e308", f"1{'0' * 308}"),
        ("5e-324", f"0.{'0' * 323}5"),
    ]
    for text, compact in rows:
        yield text, compact
        yield compact, compact
    for before, after in itertools.product(SIZES[:-1], SIZES[:-1]):
        yield from numbers_of_size(before, after)
