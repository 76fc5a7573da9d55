r"""Texts of sizes around each growth of a vector, a string or a map, alone and inside others."""

# Below, at and after the first growths of vectors, strings and maps, and around the 64 levels that `==` compares by a recursion.
SIZES = [0, 1, 8, 9, 17, 64, 65, 1_000]

# Far beyond them, where texts are tested alone and not inside others, and are not indented, since that takes the square of the depth.
LARGE = [5_000, 300_000]

# 64 members of an object.
OTHERS = ",".join(f'"b{number:02}":0' for number in range(64))

# Where a value is: at the top, as an item, as a later, the first and the only member, as the first and the last member of an object
# of 65, and in such an object in another. `@` is the value, and `*` is `OTHERS`.
PLACES = [
    "@",
    "\t[ @ ]\r\n",
    '{"z" : 1,"a":@}',
    '{"a": @ ,"z":1}',
    '{ "a":@ }',
    '{"a":@,*}',
    '{*,"z":@}',
    '{*,"z":{"a":@,*}}',
]

# What is before the pieces; each piece, with `#` for its number; what is between the pieces; inside the last; after that inside, once
# for each piece; and at the end.
SHAPES = [
    # Arrays and objects, with their members in falling order; equal keys, of which the last counts; what is refused after many.
    ("\t[ ", "#", " , ", "", "", " ]\r\n"),
    ("{ ", '"k#":#', " ,", "", "", " }"),
    ("{", '"k":#,', "", '"k":"last"', "", "}"),
    ("[0,", "#", ",", "", "", ",-]"),
    ('{"0":0,', '"#":#', ",", "", "", ",7:"),
    # Strings and keys.
    ('"', "a", "", "", "", '"'),
    ('"', r"\n", "", "", "", '"'),
    ('"', r"\\", "", "", "", '"'),
    ('"', "\u2764", "", "", "", '"'),
    ('"', "\U0001f600", "", "", "", '"'),
    ('"', r"\u0041", "", "", "", '"'),
    ('"', r"\u001F", "", "", "", '"'),
    ('"', r"\ud83d\ude00", "", "", "", '"'),
    ('{"', "a", "", "", "", '":null}'),
    ('{"', "\U0001f600", "", "", "", '":null}'),
    ('{"', r"\u001F", "", "", "", '":null}'),
    # Containers that are closed, and such that stay open.
    ("", "[", "", "", "]", ""),
    ("", "[1,", "", "2", "]", ""),
    ("", '{"a":', "", "null", "}", ""),
    ("", '{"b":1,"a":', "", "null", "}", ""),
    ("", '[{"a":', "", "null", "}]", ""),
    ("", "[", "", "", "", ""),
    ("", "{", "", "", "", "x"),
    ("", '[{"a":', "", "", "", "x"),
]

# Numbers by the digits of their parts.
NUMBERS = [
    ("9", "9", "", "", "", ""),
    ("9", "9", "", ".", "9", "8"),
    ("9", "9", "", ".", "9", "8E+7"),
    ("-", "9", "", "8e-70", "", ""),
    ("5e", "0", "", "2", "", ""),
    ("-0.0E+", "9", "", "9", "", ""),
]

# Containers of both kinds with others in them, and empty ones, indented with a tab.
TABBED = '{\n\t"a": [\n\t\t1,\n\t\t{}\n\t],\n\t"b": {\n\t\t"c": [\n\t\t\t[],\n\t\t\t2\n\t\t]\n\t}\n}'

# A text that is refused, which of its characters a parser did not ask for, and a limit on depth if there is one.
UNASKED = [
    ("x1", "1"),
    ("[1,] ", " "),
    ("[1 2]", "]"),
    ('{"a" 1}', "}"),
    ("{true :1}", " :1}"),
    ("{1 :1}", ":1}"),
    ("1.xy", "y"),
    ("trux true", " true"),
    (r'"\q" 1', '" 1'),
    (r'"\ud800x"', '"'),
    ("1 23", "3"),
    ('{"a":1 2}', "}"),
    (r'"\u1x1', "1"),
    ('"\x011', "1"),
    ("-x1", "1"),
    ("01x1", "1"),
    ("1ex1", "1"),
    ("1e9223372036854775808x1", "1"),
    ("[[1", "1", 1),
]

# Compact texts of objects, whose keys are in the order of their bytes, and how many members they have.
OBJECTS = [
    ("{}", 0),
    ('{"a":null}', 1),
    ('{"":0,"B":[1],"a":{},"aa":null,"b":"x","é":1,"\uff5e":2,"\uffff":3,"\U0001f600":4}', 9),
    ('{"":0,' + ",".join(f'"{first}{second}":0' for first in "abcdefghijklm" for second in "0123456789") + "}", 131),
]
