"""Rows of `json_path`: the values that a query selects, or their normalized paths (RFC 9535).

With the query of all of it, it reads a value and writes all of it: so the texts of `jsonnorm` are read by it too.
"""

import ast
import itertools
import json
import os
import re
import resource

import whole
from checks import shared
from faults import BROKEN, FOLDER, FULL, NO_TEXT, Faults
from long_lines import LongLines, reports_each
from padded_queries import padded_refusal_of_query, padded_selection
from padding import padded_rows
from pages import Page, misused
from running import printed, program, reported, run_of, run_small
from values import CONTROLS, DEEP, LONG, NESTED, NOT_UTF8, QUOTED, normal

DOCUMENT_READER = whole.Reader("json_path", ["$"], 3)
FAULTS = Faults("json_path", is_stopping=True)

# The document of RFC 9535, 1.5.
BOOKS = """
{ "store": {
    "book": [
      { "category": "reference", "author": "Nigel Rees", "title": "Sayings of the Century", "price": 8.95 },
      { "category": "fiction", "author": "Evelyn Waugh", "title": "Sword of Honour", "price": 12.99 },
      { "category": "fiction", "author": "Herman Melville", "title": "Moby Dick", "isbn": "0-553-21311-3", "price": 8.99 },
      { "category": "fiction", "author": "J. R. R. Tolkien", "title": "The Lord of the Rings", "isbn": "0-395-19395-8", "price": 22.99 }
    ],
    "bicycle": { "color": "red", "price": 399 }
  }
}
"""
BOOK = ["store", "book"]
BICYCLE = ["store", "bicycle"]
LETTERS = '["a","b","c","d","e","f","g"]'

# Texts, each beside a regular expression, and what is none.
PATTERNS = """[
    {"a":"ab","p":"a.*"}, {"a":"xab","p":"b"}, {"a":"a\\nb","p":"a.b"}, {"a":"a\\rb","p":"a.b"}, {"a":"a\\u2028b","p":"a.b"}, {"a":1,"p":"1"},
    {"a":"","p":""}, {"a":"x","p":"("}, {"a":"x"}, {"p":"x"}, {"a":"x","p":1}, null
]"""


def of_books(query, *places):
    """The query, with what stands at these places of the books' document, each a list of steps."""
    parts = []
    for steps in places:
        part = json.loads(BOOKS)
        for step in steps:
            part = part[step]
        parts.append((json.dumps(part), "$" + "".join(f"[{step!r}]" for step in steps)))
    return query, parts


def of_items(document, queries):
    """The document, with queries that each select items of it, by their indices."""
    items = json.loads(document)
    yield document, [(query, [(json.dumps(items[i]), f"$[{i}]") for i in places]) for query, places in queries]


# 2.3.5.3: which comparisons hold of its document, whose two members a filter then selects.
COMPARED = '{"obj": {"x": "y"}, "arr": [2, 3]}'
BOTH = [("[2, 3]", "$['arr']"), ('{"x": "y"}', "$['obj']")]
COMPARISONS = [
    ("$.absent1 == $.absent2", True), ("$.absent1 <= $.absent2", True), ("$.absent == 'g'", False), ("$.absent1 != $.absent2", False),
    ("$.absent != 'g'", True), ("1 <= 2", True), ("1 > 2", False), ("13 == '13'", False), ("'a' <= 'b'", True), ("'a' > 'b'", False),
    ("$.obj == $.arr", False), ("$.obj != $.arr", True), ("$.obj == $.obj", True), ("$.obj != $.obj", False), ("$.arr == $.arr", True),
    ("$.arr != $.arr", False), ("$.obj == 17", False), ("$.obj != 17", True), ("$.obj <= $.arr", False), ("$.obj < $.arr", False),
    ("$.obj <= $.obj", True), ("$.arr <= $.arr", True), ("1 <= $.arr", False), ("1 >= $.arr", False), ("1 > $.arr", False), ("1 < $.arr", False),
    ("true <= true", True), ("true > true", False),
    # Each operator (2.3.5.2.2), with nothing and each type of value.
    ("1 < 1", False), ("1 <= 1", True), ("1 >= 1", True), ("1 > 1", False), ("2 >= 1", True), ("2 > 1", True), ("1 != 1", False), ("1 != 2", True),
    ("null == null", True), ("null <= null", True), ("null < null", False), ("null == $.absent", False), ("false == null", False), ("false != true", True),
    ("false < true", False), ("$.absent < $.absent", False), ("$.absent >= $.absent", True), ("$.absent < 1", False), ("1 <= $.absent", False),
    ("'' < 'a'", True), ("'a' < 'aa'", True), ("'B' < 'a'", True), ("'\\uffff' < '\\ud83d\\ude00'", True), ("'1' < 2", False), ("'x' == \"x\"", True),
    # Numbers are their decimals: `number` of 2.3.5.1, which is not held in the range of integers of 2.1.
    ("1 == 1.0", True), ("-0 == 0", True), ("-0.0 >= 0e5", True), ("1E2 == 100", True), ("1e-02 == 0.01", True), ("1e+2 == 100.0e0", True),
    ("1e400 < 1e401", True), ("-1e400 < 1e-400", True), ("1e9223372036854775807 > 1e400", True), ("9007199254740993 > 9007199254740992", True), ("0.1 == 0.10000000000000000001", False),
    # Singular queries: each notation, blanks between their segments, and around the operator.
    ("$.arr[0] == 2", True), ("$['arr'][-1] == 3", True), ('$["obj"]["x"] == \'y\'', True), ("$ .obj\t['x']\n== 'y'", True), ("$.arr[2] == $.obj.y", True),
    ("$.obj.x=='y'", True), ("'y'  ==\r$.obj.x", True), ("$.obj['x'] == @.none || 1 == 1", True), ("1 == 2 && 1 == 1 || 'a' < 'b'", True), ("!(1 == 2)", True), ("(1 == 1)", True),
]

# Each document, and for queries of it what is selected: each value, as RFC 9535 writes it, and its normalized path.
# Where the RFC leaves the order of members open, they are in the order of their keys.
SELECTED = [
    # 2.1.3
    ('{"a":[{"b":0},{"b":1},{"c":2}]}', [
        ("$", [('{"a":[{"b":0},{"b":1},{"c":2}]}', "$")]),
        ("$.a", [('[{"b":0},{"b":1},{"c":2}]', "$['a']")]),
        ("$.a[*]", [('{"b":0}', "$['a'][0]"), ('{"b":1}', "$['a'][1]"), ('{"c":2}', "$['a'][2]")]),
        ("$.a[*].b", [("0", "$['a'][0]['b']"), ("1", "$['a'][1]['b']")]),
    ]),
    # 2.2.3
    ('{"k": "v"}', [("$", [('{"k": "v"}', "$")])]),
    # 2.3.1.3
    ('{"o": {"j j": {"k.k": 3}}, "\'": {"@": 2}}', [
        ("$.o['j j']", [('{"k.k": 3}', "$['o']['j j']")]),
        ("$.o['j j']['k.k']", [("3", "$['o']['j j']['k.k']")]),
        ('$.o["j j"]["k.k"]', [("3", "$['o']['j j']['k.k']")]),
        ('$["\'"]["@"]', [("2", "$['\\'']['@']")]),
    ]),
    # 2.3.2.3
    ('{"o": {"j": 1, "k": 2}, "a": [5, 3]}', [
        ("$[*]", [("[5, 3]", "$['a']"), ('{"j": 1, "k": 2}', "$['o']")]),
        ("$.o[*]", [("1", "$['o']['j']"), ("2", "$['o']['k']")]),
        ("$.o[*, *]", [("1", "$['o']['j']"), ("2", "$['o']['k']"), ("1", "$['o']['j']"), ("2", "$['o']['k']")]),
        ("$.a[*]", [("5", "$['a'][0]"), ("3", "$['a'][1]")]),
    ]),
    # 2.3.3.3
    ('["a","b"]', [
        ("$[1]", [('"b"', "$[1]")]),
        ("$[-2]", [('"a"', "$[0]")]),
    ]),
    # 2.3.4.3
    (LETTERS, [
        ("$[1:3]", [('"b"', "$[1]"), ('"c"', "$[2]")]),
        ("$[5:]", [('"f"', "$[5]"), ('"g"', "$[6]")]),
        ("$[1:5:2]", [('"b"', "$[1]"), ('"d"', "$[3]")]),
        ("$[5:1:-2]", [('"f"', "$[5]"), ('"d"', "$[3]")]),
        ("$[::-1]", [(f'"{letter}"', f"$[{i}]") for i, letter in reversed(list(enumerate("abcdefg")))]),
    ]),
    # 2.3.5.3
    (COMPARED, [(f"$[?{comparison}]", BOTH if holds else []) for comparison, holds in COMPARISONS]),
    # 2.5.1.3
    (LETTERS, [
        ("$[0, 3]", [('"a"', "$[0]"), ('"d"', "$[3]")]),
        ("$[0:2, 5]", [('"a"', "$[0]"), ('"b"', "$[1]"), ('"f"', "$[5]")]),
        ("$[0, 0]", [('"a"', "$[0]"), ('"a"', "$[0]")]),
    ]),
    # A node that is selected twice goes on twice, through all segments before the next one (2.1.2).
    ("[[1,[2]]]", [
        ("$[0,0][0,1]", [("1", "$[0][0]"), ("[2]", "$[0][1]")] * 2),
        ("$[0,0]..[0]", [("1", "$[0][0]"), ("2", "$[0][1][0]")] * 2),
        ("$[0,0][1,0][0,0]", [("2", "$[0][1][0]")] * 4),
        ("$[0,0][0,0]", [("1", "$[0][0]")] * 4),
        ("$..[0,0]", [("[1,[2]]", "$[0]")] * 2 + [("1", "$[0][0]")] * 2 + [("2", "$[0][1][0]")] * 2),
    ]),
    # So it does where it has nothing, and where one beside it has something.
    ('[[{"y":1},{"x":2}],[{"x":3}]]', [
        ("$[0][0,1,0].x", [("2", "$[0][1]['x']")]),
        ("$[0][1,0,1].x", [("2", "$[0][1]['x']")] * 2),
        ("$[0][0,0,1,1,-1,0,-2].x", [("2", "$[0][1]['x']")] * 3),
        ("$[0][*,*].x", [("2", "$[0][1]['x']")] * 2),
        ("$[0][?@.x,:2,?@.y].x", [("2", "$[0][1]['x']")] * 2),
        ("$[0,1,0][0,1,0].x", [("2", "$[0][1]['x']"), *[("3", "$[1][0]['x']")] * 2, ("2", "$[0][1]['x']")]),
        ("$[0,1,0]..['x','x','y']", [("1", "$[0][0]['y']"), *[("2", "$[0][1]['x']")] * 2, *[("3", "$[1][0]['x']")] * 2] + [
            ("1", "$[0][0]['y']"), *[("2", "$[0][1]['x']")] * 2,
        ]),
        ("$[0,1,0][0,1,0].z", []),
    ]),
    ('{"a":{"y":1},"b":{"x":2},"bb":{"x":3}}', [
        ("$['a','b','a','bb','b'].x", [("2", "$['b']['x']"), ("3", "$['bb']['x']"), ("2", "$['b']['x']")]),
        ("$['a','a',*,'a']['x','x']", [*[("2", "$['b']['x']")] * 2, *[("3", "$['bb']['x']")] * 2]),
    ]),
    # 2.5.2.3
    ('{"o": {"j": 1, "k": 2}, "a": [5, 3, [{"j": 4}, {"k": 6}]]}', [
        ("$..j", [("4", "$['a'][2][0]['j']"), ("1", "$['o']['j']")]),
        ("$..[0]", [("5", "$['a'][0]"), ('{"j": 4}', "$['a'][2][0]")]),
        *((query, [
            ('[5,3,[{"j": 4},{"k": 6}]]', "$['a']"), ('{"j": 1, "k": 2}', "$['o']"),
            ("5", "$['a'][0]"), ("3", "$['a'][1]"), ('[{"j": 4}, {"k": 6}]', "$['a'][2]"),
            ('{"j": 4}', "$['a'][2][0]"), ('{"k": 6}', "$['a'][2][1]"),
            ("4", "$['a'][2][0]['j']"), ("6", "$['a'][2][1]['k']"),
            ("1", "$['o']['j']"), ("2", "$['o']['k']"),
        ]) for query in ("$..[*]", "$..*")),
        ("$..o", [('{"j": 1, "k": 2}', "$['o']")]),
        ("$.o..[*, *]", [("1", "$['o']['j']"), ("2", "$['o']['k']"), ("1", "$['o']['j']"), ("2", "$['o']['k']")]),
        ("$.a..[0, 1]", [("5", "$['a'][0]"), ("3", "$['a'][1]"), ('{"j": 4}', "$['a'][2][0]"), ('{"k": 6}', "$['a'][2][1]")]),
    ]),
    # 2.6.1
    ('{"a": null, "b": [null], "c": [{}], "null": 1}', [
        ("$.a", [("null", "$['a']")]),
        ("$.a[0]", []),
        ("$.a.d", []),
        ("$.b[0]", [("null", "$['b'][0]")]),
        ("$.b[*]", [("null", "$['b'][0]")]),
        ("$.null", [("1", "$['null']")]),
    ]),
    # 2.7.1
    ('{"a":{"b":[0,1,2]},"\\u000B":3}', [
        ("$.a", [('{"b":[0,1,2]}', "$['a']")]),
        ("$.a.b[1:2]", [("1", "$['a']['b'][1]")]),
        ('$["\\u000B"]', [("3", "$['\\u000b']")]),
        ('$["\\u0061"]', [('{"b":[0,1,2]}', "$['a']")]),
    ]),
    ("[0,1,2,3,4]", [
        ("$[1]", [("1", "$[1]")]),
        ("$[-3]", [("2", "$[2]")]),
    ]),
    # 1.5. `$..*` selects the children of each node, one node after the other.
    (BOOKS, [
        *(of_books(query, *([*BOOK, i, "author"] for i in range(4))) for query in ("$.store.book[*].author", "$..author")),
        of_books("$.store.*", BICYCLE, BOOK),
        of_books("$.store..price", [*BICYCLE, "price"], *([*BOOK, i, "price"] for i in range(4))),
        of_books("$..book[2]", [*BOOK, 2]),
        of_books("$..book[2].author", [*BOOK, 2, "author"]),
        of_books("$..book[2].publisher"),
        of_books("$..book[-1]", [*BOOK, 3]),
        *(of_books(query, [*BOOK, 0], [*BOOK, 1]) for query in ("$..book[0,1]", "$..book[:2]")),
        of_books("$..book[?@.isbn]", [*BOOK, 2], [*BOOK, 3]),
        of_books("$..book[?@.price<10]", [*BOOK, 0], [*BOOK, 2]),
        of_books(
            "$..*", ["store"], BICYCLE, BOOK, [*BICYCLE, "color"], [*BICYCLE, "price"], *([*BOOK, i] for i in range(4)),
            *([*BOOK, i, name] for i in range(4) for name in ("author", "category", *["isbn"] * (i > 1), "price", "title")),
        ),
        of_books("$.store.*.color", [*BICYCLE, "color"]),
    ]),
    # The kinds of values that a name, an index, a slice and a wildcard speak of (2.3).
    ('{"0":1,"a":[2],"s":"x"}', [
        ("$[0]", []), ("$['0']", [("1", "$['0']")]), ("$.a['0']", []), ("$.a[0]", [("2", "$['a'][0]")]), ("$[:]", []),
        ("$.s[0]", []), ("$.s[*]", []), ("$.s.x", []), ("$.s..*", []), ("$.s..[0]", []), ("$.a.length", []),
    ]),
    # Indices in and out of range, and bounds of slices (2.3.3.2, 2.3.4.2).
    (LETTERS, [
        ("$[6]", [('"g"', "$[6]")]), ("$[7]", []), ("$[-7]", [('"a"', "$[0]")]), ("$[-8]", []), ("$[-1]", [('"g"', "$[6]")]),
        ("$[9007199254740991]", []), ("$[-9007199254740991]", []),
        ("$[::0]", []), ("$[1:5:0]", []), ("$[3:3]", []), ("$[5:1]", []), ("$[1:5:-1]", []),
        ("$[-2:9007199254740991]", [('"f"', "$[5]"), ('"g"', "$[6]")]),
        ("$[:-9007199254740991:-3]", [('"g"', "$[6]"), ('"d"', "$[3]"), ('"a"', "$[0]")]),
        ("$[9007199254740991::-9007199254740991]", [('"g"', "$[6]")]), ("$[::9007199254740991]", [('"a"', "$[0]")]),
        ("$[1:2:]", [('"b"', "$[1]")]), ("$[ 1 : 2 : 1 ]", [('"b"', "$[1]")]), ("$[:]", [(f'"{c}"', f"$[{i}]") for i, c in enumerate("abcdefg")]),
    ]),
    ("[]", [("$[0]", []), ("$[-1]", []), ("$[:]", []), ("$[::-1]", []), ("$[*]", []), ("$", [("[]", "$")]), ("$..*", [])]),
    # Each node's results before the next one's, and each selector's in the order written (2.5.1.2, 2.5.2.2).
    ("[[[1]],[2]]", [
        ("$..*", [("[[1]]", "$[0]"), ("[2]", "$[1]"), ("[1]", "$[0][0]"), ("1", "$[0][0][0]"), ("2", "$[1][0]")]),
        ("$[1,0]..[0]", [("2", "$[1][0]"), ("[1]", "$[0][0]"), ("1", "$[0][0][0]")]),
        ("$[*,1][0]", [("[1]", "$[0][0]"), ("2", "$[1][0]"), ("2", "$[1][0]")]),
        ("$..[0]..[0]", [("[1]", "$[0][0]"), ("1", "$[0][0][0]"), ("1", "$[0][0][0]")]),
    ]),
    ('{"b":{"a":1},"a":{"b":{"a":2}}}', [
        ("$['b','a','b'].a", [("1", "$['b']['a']"), ("1", "$['b']['a']")]),
        ("$..a", [('{"b":{"a":2}}', "$['a']"), ("2", "$['a']['b']['a']"), ("1", "$['b']['a']")]),
        ("$..['b','a']", [
            ('{"a":1}', "$['b']"), ('{"b":{"a":2}}', "$['a']"), ('{"a":2}', "$['a']['b']"), ("2", "$['a']['b']['a']"), ("1", "$['b']['a']"),
        ]),
    ]),
    # Keys in the order of their UTF-8 bytes, and of equal ones the last.
    ('{"\\uFFFF":1,"\\uD83D\\uDE00":2,"a":3,"B":4,"":5,"a":6}', [
        ("$.*", [("5", "$['']"), ("4", "$['B']"), ("6", "$['a']"), ("1", "$['\uffff']"), ("2", "$['\U0001F600']")]),
    ]),
    # Names without quotes (2.5.1.1), and strings with each escape (2.3.1.1).
    ('{"_":1,"a1":2,"\\u0080":3,"\u00e9\u263a":4,"\\uD83D\\uDE00":5,"\\u00A0":6,"":7}', [
        ("$._", [("1", "$['_']")]), ("$.a1", [("2", "$['a1']")]), ("$.\u0080", [("3", "$['\u0080']")]), ("$.\u00e9\u263a", [("4", "$['\u00e9\u263a']")]),
        ("$.\U0001F600", [("5", "$['\U0001F600']")]), ("$..\u00a0", [("6", "$['\u00a0']")]), ("$['']", [("7", "$['']")]),
        ('$["\\uD83D\\uDE00"]', [("5", "$['\U0001F600']")]), ("$['\\ud83d\\ude00']", [("5", "$['\U0001F600']")]), ("$.A1", []),
    ]),
    ('{"\\b\\f\\n\\r\\t\\/\\\\\\"\'":1,"\\u0000\\u001F\\u007F":2,"/":3}', [
        ('$["\\b\\f\\n\\r\\t\\/\\\\\\"\'"]', [("1", "$['\\b\\f\\n\\r\\t/\\\\\"\\'']")]),
        ("$['\\b\\f\\n\\r\\t/\\\\\"\\'']", [("1", "$['\\b\\f\\n\\r\\t/\\\\\"\\'']")]),
        ('$["\\u0000\\u001f\x7f"]', [("2", "$['\\u0000\\u001f\x7f']")]),
        ("$['\\u0000\\u001F\\u007F']", [("2", "$['\\u0000\\u001f\x7f']")]),
        ('$["\\/"]', [("3", "$['/']")]), ("$['/']", [("3", "$['/']")]),
    ]),
    # Blanks (2.1.1, 2.3, 2.5).
    ('{"a":{"b":[1,2]}}', [
        ("$ .a\t[ 'b' ]\n[\r0 , 1 ]", [("1", "$['a']['b'][0]"), ("2", "$['a']['b'][1]")]),
        ("$ ..b [ * ]", [("1", "$['a']['b'][0]"), ("2", "$['a']['b'][1]")]),
        ("$['a']\r\n ['b'] [ : 1\t: \n]", [("1", "$['a']['b'][0]")]),
    ]),
    # Filters test children, never the node itself, and what is null or false exists; `@` is the innermost node, `$` the whole value (2.3.5.2).
    ('{"a": [3, 5, 1, 2, 4, 6, {"b": "j"}, {"b": "k"}, {"b": {}}, {"b": "kilo"}], "o": {"p": 1, "q": 2, "r": 3, "s": 5, "t": {"u": 6}}, "e": "f"}', [
        ("$.a[?@.b]", [('{"b": "j"}', "$['a'][6]"), ('{"b": "k"}', "$['a'][7]"), ('{"b": {}}', "$['a'][8]"), ('{"b": "kilo"}', "$['a'][9]")]),
        ("$[?@.*]", [
            ('[3, 5, 1, 2, 4, 6, {"b": "j"}, {"b": "k"}, {"b": {}}, {"b": "kilo"}]', "$['a']"), ('{"p": 1, "q": 2, "r": 3, "s": 5, "t": {"u": 6}}', "$['o']"),
        ]),
        ("$[?@[?@.b]]", [('[3, 5, 1, 2, 4, 6, {"b": "j"}, {"b": "k"}, {"b": {}}, {"b": "kilo"}]', "$['a']")]),
        ("$.o[?@.u || @.x]", [('{"u": 6}', "$['o']['t']")]),
        ("$.o[?@.u && @.x]", []),
        ("$.o[?$.e && !@.x && (@.u || @.v)]", [('{"u": 6}', "$['o']['t']")]),
        ("$.o[?!@.u]", [("1", "$['o']['p']"), ("2", "$['o']['q']"), ("3", "$['o']['r']"), ("5", "$['o']['s']")]),
        ("$.o[?!($.x || !@.u)]", [('{"u": 6}', "$['o']['t']")]),
        ("$.o[?@.u || $.x && $.y]", [('{"u": 6}', "$['o']['t']")]),
        ("$.o[?(@.u || $.x) && $.y]", []),
        *((query, [('{"b": "kilo"}', "$['a'][9]")]) for query in ("$.a[?@.b == 'kilo']", "$.a[?(@.b == 'kilo')]")),
        ('$.a[?match(@.b, "[jk]")]', [('{"b": "j"}', "$['a'][6]"), ('{"b": "k"}', "$['a'][7]")]),
        ('$.a[?search(@.b, "[jk]")]', [('{"b": "j"}', "$['a'][6]"), ('{"b": "k"}', "$['a'][7]"), ('{"b": "kilo"}', "$['a'][9]")]),
        ("$.a[?@>3.5]", [("5", "$['a'][1]"), ("4", "$['a'][4]"), ("6", "$['a'][5]")]),
        ("$.o[?@<3, ?@<3]", [("1", "$['o']['p']"), ("2", "$['o']['q']"), ("1", "$['o']['p']"), ("2", "$['o']['q']")]),
        ('$.a[?@<2 || @.b == "k"]', [("1", "$['a'][2]"), ('{"b": "k"}', "$['a'][7]")]),
        ("$.o[?@>1 && @<4]", [("2", "$['o']['q']"), ("3", "$['o']['r']")]),
        ("$.a[?@.b == $.x]", [(value, f"$['a'][{i}]") for i, value in enumerate("351246")]),
        ("$.a[?@ == @]", [(value, f"$['a'][{i}]") for i, value in enumerate(["3", "5", "1", "2", "4", "6", '{"b": "j"}', '{"b": "k"}', '{"b": {}}', '{"b": "kilo"}'])]),
        ("$.a[?@.b == 'j', 5]", [('{"b": "j"}', "$['a'][6]"), ("6", "$['a'][5]")]),
        ("$.a[?@[?@.b == 'j']]", []), ("$.a[?@[ 'b' ]]", [('{"b": "j"}', "$['a'][6]"), ('{"b": "k"}', "$['a'][7]"), ('{"b": {}}', "$['a'][8]"), ('{"b": "kilo"}', "$['a'][9]")]),
        ("$[?@[?@.b == 'j']]", [('[3, 5, 1, 2, 4, 6, {"b": "j"}, {"b": "k"}, {"b": {}}, {"b": "kilo"}]', "$['a']")]),
    ]),
    # 2.4.4: how many characters, items or members; of other values, and of nothing, nothing.
    ('["ab", [1,2,3], {"x":1}, 5, null, true, "\\ud83d\\ude00\u00e9", ""]', [
        ("$[?length(@) == 2]", [('"ab"', "$[0]"), ('"\U0001F600\u00e9"', "$[6]")]), ("$[?length(@) == 3]", [("[1,2,3]", "$[1]")]),
        ("$[?1 == length( @\t)]", [('{"x":1}', "$[2]")]), ("$[?length(@) == 0]", [('""', "$[7]")]), ("$[?length(@) < 3]", [
            ('"ab"', "$[0]"), ('{"x":1}', "$[2]"), ('"\U0001F600\u00e9"', "$[6]"), ('""', "$[7]"),
        ]), ("$[?length(@) > 2]", [("[1,2,3]", "$[1]")]),
        ("$[?length(@) != length(@)]", []), ("$[?length(@) == $.x]", [("5", "$[3]"), ("null", "$[4]"), ("true", "$[5]")]),
        ("$[?length('abc') == 3, 3]", [
            *((value, f"$[{i}]") for i, value in enumerate(['"ab"', "[1,2,3]", '{"x":1}', "5", "null", "true", '"\U0001F600\u00e9"', '""'])), ("5", "$[3]"),
        ]),
        ("$[?length(length(@)) == length($.x) && length(@) == 0]", [('""', "$[7]")]), ("$[?length(@[2]) == 1]", []), ("$[?!(length(@) < 9)]", [
            ("5", "$[3]"), ("null", "$[4]"), ("true", "$[5]"),
        ]),
    ]),
    # 2.4.5: how many nodes, with duplicates.
    ('{"a":[1,2,2],"b":{"x":[1]},"c":3}', [
        ("$[?count(@.*) == 1]", [('{"x":[1]}', "$['b']")]), ("$[?count(@.*) == 3]", [("[1,2,2]", "$['a']")]), ("$[?count(@[0,0]) == 2]", [("[1,2,2]", "$['a']")]), ("$[?count(@['x','x']) == 2]", [('{"x":[1]}', "$['b']")]),
        ("$[?count( @..* )==2]", [('{"x":[1]}', "$['b']")]), ("$[?count(@.x) < 1]", [("[1,2,2]", "$['a']"), ("3", "$['c']")]),
        ("$[?count($.a[?@ == 2]) == 2 && count(@.x) == 1]", [('{"x":[1]}', "$['b']")]), ("$[?count($) == count(@) && @ == 3]", [("3", "$['c']")]),
        ("$[?length(count(@)) == $.y && @ == 3]", [("3", "$['c']")]),
    ]),
    # 2.4.6, 2.4.7: `match` asks of the whole string, `search` of a part; `.` is no line feed and no carriage return, `^` and `$` stand for
    # themselves. What is no string, or no regular expression of RFC 9485, makes both false.
    *of_items(PATTERNS, [
        ("$[?match(@.a, @.p)]", [0, 4, 6]), ("$[?search(@.a, @.p)]", [0, 1, 4, 6]), ("$[?!match(@.a, @.p)]", [1, 2, 3, 5, 7, 8, 9, 10, 11]), ("$[?match(@.a, 'a.*')]", [0, 4]),
        ("$[?search(@.a, 'b')]", [0, 1, 2, 3, 4]), ("$[?match(@.a, '(')]", []), ("$[?search(@.a, '[b-a]')]", []), ("$[?!search(@.a, '(')]", list(range(12))), ("$[?match(@.a, 1)]", []),
        ("$[?match(1, '1')]", []), ("$[?match(null, '')]", []), ("$[?search(@, '')]", []), ("$[?match('ab', @.p)]", [0]), ("$[?search('xab', @.p)]", [0, 1, 6, 9]),
        ("$[?match(@.a, $[0].p)]", [0, 4]), ("$[?match(value(@.a), value(@..p))]", [0, 4, 6]), ("$[?match( length(@) , value(@..a) ) || @.a]", [0, 1, 2, 3, 4, 5, 6, 7, 8, 10]),
        ("$[?match(@.a, 'x') || search(@.a, 'ab')]", [0, 1, 7, 8, 10]), ("$[?(match(@.a, 'x')) && @.p]", [7, 10]), ("$[?match(@.a,\t''\n)]", [6]),
        ("$[?match(@.a,'x'),?search(@.a,'ab')]", [7, 8, 10, 0, 1]), ("$[?match(@.a, 'ab') || search(@.a, 'ab') && !match(@.a, 'ab')]", [0, 1]), ("$[?search(@.p, @.a)]", [6]),
        ("$[?match(@.a, 'ab') || match(@.a, 'x') || match(@.a, 'ab.*|1')]", [0, 7, 8, 10]), ("$[?search(@.absent, '')]", []), ("$[?match(@.a, @.absent)]", []),
    ]),
    *of_items('["ab","^ab$","xaby","\\u00e9","A","7","\\ud83d\\ude00","a-b"]', [
        ("$[?match(@, '^ab$')]", [1]), ("$[?search(@, '^ab$')]", [1]), ("$[?search(@, 'ab')]", [0, 1, 2]), ("$[?match(@, 'ab|A|7')]", [0, 4, 5]), ("$[?match(@, '\\\\p{L}')]", [3, 4]),
        ("$[?match(@, '.')]", [3, 4, 5, 6]), ("$[?match(@, '[^A-Z]{1}')]", [3, 5, 6]), ("$[?match(@, \"[a\\\\-b]+\")]", [0, 7]), ("$[?match(@, '\\ud83d\\ude00')]", [6]), ("$[?match(@, '\\\\d')]", []),
        ("$[?match(@, '(a|b|-){2,3}')]", [0, 7]),
    ]),
    # RFC 9535, 2.4.6 and 2.4.7, and 2.4.9.
    ('[{"date":"1974-05-11","author":"Bob"},{"date":"1974-05-1","author":"Rob B."},{"date":"x1974-05-11","author":"bob"},{"timezone":"Europe/Paris"}]', [
        ('$[?match(@.date, "1974-05-..")]', [('{"date":"1974-05-11","author":"Bob"}', "$[0]")]),
        ('$[?search(@.author, "[BR]ob")]', [('{"date":"1974-05-11","author":"Bob"}', "$[0]"), ('{"date":"1974-05-1","author":"Rob B."}', "$[1]")]),
        ("$[?match(@.timezone, 'Europe/.*')]", [('{"timezone":"Europe/Paris"}', "$[3]")]),
        ("$[?@[?match(@, 'bob')]]", [('{"date":"x1974-05-11","author":"bob"}', "$[2]")]), ("$..[?match(@, '.ob')]", [('"Bob"', "$[0]['author']"), ('"bob"', "$[2]['author']")]),
    ]),
    # 2.4.8: the value of the only node.
    ('[{"color":"red"},{"a":{"color":"red"}},{"color":"red","b":{"color":"red"}},{"color":"blue"},{}]', [
        ('$[?value(@..color) == "red"]', [('{"color":"red"}', "$[0]"), ('{"a":{"color":"red"}}', "$[1]")]),
        ("$[?value(@..color) == $.x]", [('{"color":"red","b":{"color":"red"}}', "$[2]"), ("{}", "$[4]")]),
        ("$[?length(value(@..color)) == 4]", [('{"color":"blue"}', "$[3]")]), ("$[?value(@) == $[3]]", [('{"color":"blue"}', "$[3]")]),
    ]),
    # 2.6.1
    ('{"a": null, "b": [null], "c": [{}], "null": 1}', [
        ("$.b[?@]", [("null", "$['b'][0]")]), ("$.b[?@==null]", [("null", "$['b'][0]")]), ("$.c[?@.d==null]", []),
    ]),
    ('{"a":{"b":false},"c":[null,{"a":1}],"n":1}', [
        ("$[?@.b]", [('{"b":false}', "$['a']")]), ("$[?@[?@.a]]", [('[null,{"a":1}]', "$['c']")]), ("$..[?@.a]", [('{"a":1}', "$['c'][1]")]),
        ("$.n[?@]", []), ("$.c[?$.n]", [("null", "$['c'][0]"), ('{"a":1}', "$['c'][1]")]), ("$.c[?$.m]", []),
        ("$.c[?!@.a, ?@.a, 0]", [("null", "$['c'][0]"), ('{"a":1}', "$['c'][1]"), ("null", "$['c'][0]")]),
    ]),
]

# Texts that are not in the grammar, and how many characters stand before what is refused.
REFUSED = [
    # 2.1.1, 2.2.1: a query begins with `$`, and a blank stands neither before it nor at the end.
    ("", 0), ("a", 0), ("@", 0), ("@.a", 0), (" $", 0), ("$ ", 1), ("$.a ", 3), ("$[0]\n", 4), ("$a", 1), ("$$", 1), ("$\u00a0.a", 1), ("$\x0b.a", 1),
    # 2.5.1.1, 2.5.2.1: after a point or two come a name or `*`, with no blank between, or after two points a bracket.
    ("$.", 2), ("$..", 3), ("$...a", 3), ("$. a", 2), ("$.. a", 3), ("$..\n[0]", 3), ("$.['a']", 2), ("$.'a'", 2), ('$."a"', 2), ("$.**", 3), ("$.a.", 4), ("$['a'].", 7),
    # A name without quotes begins with no digit, and has no `-`.
    ("$.1", 2), ("$.9007199254740992", 2), ("$.1a", 2), ("$..0", 3), ("$.-a", 2), ("$.a-b", 3), ("$.a$", 3), ("$.a b", 3), ("$.?", 2), ("$.@", 2),
    # 2.3, 2.5.1.1: brackets hold one selector at least.
    ("$[", 2), ("$[]", 2), ("$[ ]", 3), ("$[,0]", 2), ("$[0,]", 4), ("$[0,,1]", 4), ("$[0 1]", 4), ("$[0", 3), ("$[0,1", 5), ("$[a]", 2), ("$[0]]", 4), ("$[[0]]", 2), ("$['a'.b]", 5), ("$[**]", 3),
    # 2.3.1.1: of the two quotes only the string's own is escaped; surrogates come in pairs; no control characters.
    ("$['a", 4), ("$['a\"]", 6), ('$["\\\'"]', 4), ("$['\\\"']", 4), ('$["\\a"]', 4), ('$["\\x41"]', 4), ('$["\\U0041"]', 4), ('$["\\', 4), ('$["\\"]', 6), ('$["\n"]', 3), ("$['\x1f']", 3),
    ('$["\\u00"]', 7), ('$["\\u00g0"]', 7), ('$["\\ud800"]', 9), ('$["\\udc00"]', 5), ('$["\\ud800\\n"]', 9), ('$["\\ud800\\u0041"]', 11), ('$["\\ud800\\ud800"]', 11), ("$['a''b']", 5),
    # 2.1, 2.3.3.1: integers without a sign `+`, `-0`, a leading zero, a fraction or a power.
    ("$[01]", 3), ("$[00]", 3), ("$[-0]", 3), ("$[-01]", 3), ("$[+1]", 2), ("$[-]", 3), ("$[--1]", 3), ("$[- 1]", 3), ("$[1.0]", 3), ("$[1e1]", 3), ("$[.1]", 2), ("$[\u0661]", 2),
    ("$[1:01]", 5), ("$[::-0]", 5),
    # 2.3.5.1: a filter stands in brackets, and in it a test, parentheses, or `!` before one of these.
    ("$[?]", 3), ("$[? ]", 4), ("$[?a]", 3), ("$[?(@.a]", 7), ("$[?()]", 4), ("$[?!!@.a]", 4), ("$[?@.a)]", 6), ("$[?@.a && ]", 10), ("$[?@.a || ]", 10), ("$[?@.a,]", 7),
    ("$[?@.a ?@.b]", 7), ("$[?@.a", 6), ("$.a?@.b", 3), ("$?@.a", 1),
    # 2.3.5.1: a comparison has an operator, with no blank in it, between two operands.
    ("$[?1 == ]", 8), ("$[? == 1]", 4), ("$[?@.a = 1]", 7), ("$[?@.a === 1]", 9), ("$[?@.a == = 1]", 10),
    ("$[?@.a = = 1]", 7), ("$[?@.a < = 1]", 9), ("$[?@.a =< 1]", 7), ("$[?@.a <> 1]", 8), ("$[?@.a ! = 1]", 7),
    ("$[?@.a == 1)]", 11),
    # `number`, `true`, `false`, `null`
    ("$[?@ == 01]", 8), ("$[?@ == -01]", 8), ("$[?@ == 1.]", 8), ("$[?@ == .5]", 8), ("$[?@ == +1]", 8), ("$[?@ == 1e]", 8), ("$[?@ == 1e+]", 8), ("$[?@ == -]", 8), ("$[?@ == 1.e1]", 8),
    ("$[?@ == 1.5.5]", 8), ("$[?@ == --1]", 8), ("$[?@ == 1-1]", 8), ("$[?@ == 0x1]", 9), ("$[?@ == 1a]", 9), ("$[?01 == @]", 3), ("$[?@ == - 1]", 8), ("$[?@ == e]", 8), ("$[?@ == NaN]", 8),
    ("$[?@ == True]", 8), ("$[?@ == TRUE]", 8), ("$[?@ == tru]", 8), ("$[?@ == nul]", 8), ("$[?@ == truee]", 12), ("$[?@ == nullnull]", 12), ("$[?@ == 'a]", 11), ("$[?@ == \"a']", 12), ("$[?@ == '\\x']", 10),
    ("$[?@ == []]", 8), ("$[?@ == {}]", 8), ("$[?@.a=='a' 'b']", 12),
    # 2.4: a function's name has small letters, and no blank before its parenthesis; no function is a selector.
    ("$[?length (@) == 1]", 3), ("$[?Length(@) == 1]", 3), ("$[?length == 1]", 3),
    ("$[?count(@ .. a) == 1]", 13),
    ("$[?length(01) == 1]", 10),
    ("$.count(@)", 7), ("$[length(@)]", 2),
    ("$[?match (@, 'x')]", 3),
    ("$[?match(@ 'x')]", 11),
    ("$[?Search(@, 'x')]", 3), ("$[?search(@, 'x']", 16), ("$[?match]", 3),
    ("$[?match('(', ')]", 17), ("$[match(@, 'x')]", 2),
    # 2.3.4.1
    ("$[:::]", 4), ("$[1:2:3:4]", 7), ("$[1:a]", 4), ("$[1:'a']", 4), ("$[1:*]", 4), ("$['a':1]", 5), ("$[1::", 5), ("$[1:", 4), ("$[1:2:+1]", 6),
]

# 2.4: calls of functions that are none of the five.
UNKNOWN_FUNCTION = [
    ("$[?count(foo(@.*)) == 1]", 9), ("$[?bar(@.a)]", 3), ("$[?bnl(@.*)]", 3), ("$[?blt(1==1)]", 3), ("$[?blt(1)]", 3), ("$[?bal(1)]", 3), ("$[?foo(@) == 1]", 3),
    ("$[?1 == foo(@)]", 8), ("$[?lengths(@) == 1]", 3), ("$[?matches(@, 'x')]", 3), ("$[?exp(@) == 1]", 3), ("$[?a_2b(@)]", 3), ("$[?!foo(@)]", 4), ("$[?(foo(@))]", 4),
    ("$[?length(size(@)) == 1]", 10), ("$[?match(@, lower(@))]", 12), ("$[?count2() == 1]", 3), ("$[?x(]", 3), ("$[size(@)]", 2),
]

# 2.4: calls with too few arguments, or too many.
ARGUMENT_COUNT = [
    ("$[?length() == 1]", 10), ("$[?length(@, @) == 1]", 11), ("$[?count() == 1]", 9), ("$[?match(@.a)]", 12), ("$[?match(@.a, 'x', 'y')]", 17), ("$[?match(1, )]", 12),
    ("$[?search()]", 10), ("$[?count(@, 1) == 1]", 10), ("$[?value( ) == 1]", 10), ("$[?search( )]", 11),
]

# Types that do not fit.
TYPE_MISMATCH = [
    # 2.3.5.1, 2.4.3: neither a literal nor a function of a value is a test.
    ("$[?1]", 3), ("$[?'a']", 3), ("$[?true]", 3), ("$[?null]", 3), ("$[?1 && @.a]", 3), ("$[?1 == 1 && 1]", 13), ("$[?(1)]", 4), ("$[?!1 == 1]", 4),
    ("$[?value(@..color)]", 3), ("$[?length(@)]", 3), ("$[?count(@)]", 3), ("$[?length(@) ]", 3), ("$[?!count(@)]", 4), ("$[?@.a && value(@)]", 10),
    ("$[?(length(@))]", 4), ("$[?count(@.*) = 1]", 3),
    # What is compared are literals, singular queries and functions of a value.
    ("$[?1 < @ < 3]", 9), ("$[?1 == 1 == 1]", 10), ("$[?(@.a) == 1]", 9), ("$[?1 == (1)]", 8), ("$[?!@.a == 1]", 8), ("$[?@.a == @..b]", 11), ("$[?@..b == @.a]", 8),
    ("$[?@.* == 1]", 7), ("$[?@[*] == 1]", 8), ("$[?1 == @[*]]", 9), ("$[?@[0:1] == 1]", 10), ("$[?@[0,1] == 1]", 10), ("$[?@['a','b'] == 1]", 14),
    ("$[?@[?@.a] == 1]", 11), ("$[?@[ 'a' ]==1]", 11), ("$[?@['a' ]==1]", 10), ("$[?@[ 0]==1]", 8), ("$[?1==@[ 0]]", 7), ("$[?$..a == 1]", 8), ("$[?1 == $.*]", 9),
    ("$[?match(@.timezone, 'Europe/.*') == true]", 34), ("$[?true == match(@.timezone, 'Europe/.*')]", 11), ("$[?!match(@.a, 'x') == true]", 20),
    ("$[?search(@, 'x') < 1]", 18), ("$[?(match(@, 'x') == true)]", 18), ("$[?@.a == !@.b]", 10),
    # 2.4.4, 2.4.6, 2.4.7: `length`, `match` and `search` take values.
    ("$[?length(@.*) < 3]", 11), ("$[?length(@ == 1]", 12), ("$[?length(@.a == 1) == 1]", 14), ("$[?length(@.a.*) == 1]", 13), ("$[?length(@[ 'a' ]) == 1]", 11),
    ("$[?length(!@) == 1]", 10), ("$[?length((@)) == 1]", 10), ("$[?length(match(@.a, 'x')) == 1]", 10), ("$[?match(@.*, 'x')]", 10), ("$[?search(@.a, @..b)]", 16),
    ("$[?match(@.a, 'x' == 'x')]", 18), ("$[?match((@), 'x')]", 9), ("$[?match(!@, 'x')]", 9), ("$[?match(@[0:1], 'x')]", 10), ("$[?search(@.a, search(@.b, 'x'))]", 15),
    ("$[?match(true == true, 'x')]", 14), ("$[?match(@.a, @.*)]", 15), ("$[?length(@.a && @.b) == 1]", 14), ("$[?match(@.a || @.b, 'x')]", 13),
    # 2.4.5, 2.4.8: `count` and `value` take a query.
    ("$[?count(1) == 1]", 9), ("$[?count((@.*)) == 1]", 9), ("$[?count(@.* == 1) == 1]", 13), ("$[?count(length(@)) == 1]", 9), ("$[?count('a') == 1]", 9),
    ("$[?value(null) == 1]", 9), ("$[?count(@.a) == count(1)]", 23), ("$[?count(@[?count(1)]) == 1]", 18), ("$[?count(search(@.a, 'x')) == 1]", 9),
    ("$[?count(match(@, 'x')) == 1]", 9),
]

# 2.1: integers whose magnitude is above 2^53 - 1.
INDEX_OUT_OF_RANGE = [
    ("$[9007199254740992]", 2), ("$[-9007199254740992]", 3), ("$[18446744073709551617]", 2), ("$[0:9007199254740992]", 4), ("$[9007199254740992:]", 2),
    ("$[0::-9007199254740992]", 6), ("$[0,9007199254740992]", 4), ("$[?@[9007199254740992] == 1]", 5),
]

# 2.3.5.1: a number in a comparison whose power of ten is out of `i64`, and how many characters stand before it.
OUT_OF_RANGE = [
    ("$[?@ == 1e9223372036854775808]", 8), ("$[?-1e-9223372036854775809 < @]", 3), ("$[?length(1E+9223372036854775808) == 1]", 10),
    ("$[?@.a || @ == 1e99999999999999999999]", 15),
]

# The messages of such texts and queries.
NO_QUERY = "the query: a syntax error at character %d"
BROKEN_RULES = (
    (REFUSED, NO_QUERY),
    (UNKNOWN_FUNCTION, "the query: an unknown function at character %d"),
    (ARGUMENT_COUNT, "the query: a wrong number of arguments at character %d"),
    (TYPE_MISMATCH, "the query: types that do not fit at character %d"),
    (INDEX_OUT_OF_RANGE, "the query: an index that is out of range at character %d"),
    (OUT_OF_RANGE, "the query: a number whose power of ten is out of range at character %d"),
)

# What is told where a query selects nothing.
NO_NODE = reported(1, "json_path", "the query selects no node")

# The bounds and the steps of slices that are compared with Python's.
BOUNDS = (None, *range(-4, 5))
STEPS = (None, -3, -2, -1, 1, 2, 3)

# How many segments, selectors and operators a long query has, how many selectors of each kind a long union, and a
# value under so many brackets.
MANY = 20_000
UNION = 10_000
UNDER = b"[" * 100_000 + b"0,7" + b"]" * 100_000
ITEMS = b"[" + b"1.0," * 99_999 + b'{"x":2}]'
LARGE = b'{"a":[%s{"x":2}],"b":[%s1],"c":[%s1],"s":"%s"}' % (b"1," * 400_000, b"1," * 100_000, b"1," * 100_000, b"x" * 4_000_000)


# Where a 65th expression would begin in the others.
TOO_DEEP = "the query: more than 64 nested expressions at character %d"


def nested(before, inner, after):
    """A filter in another, 64 and 65 times, of a value with one more level for each: its item is selected."""
    query = lambda levels: ["$" + before * levels + inner + after * levels]
    yield query(64), b"[" * 64 + b'{"a":1}' + b"]" * 64, printed(b"[" * 63 + b'{"a":1}' + b"]" * 63)
    yield query(65), b"1", reported(2, "json_path", TOO_DEEP % len("$" + before * 64 + "[?"))


# Deep and long values and queries, and other arguments.
LONG_PATHS = [
    # Filters in one another: tests, negations and both sides of comparisons.
    *nested("[?@", ".a", "]"),
    *nested("[?!@", ".a", "]"),
    *nested("[?@.b||!@.b&&@", ".a", "]"),
    *nested("[?count(@", "", ")>0]"),
    *nested("[?0<count(@", "", ")]"),
    *nested("[?value(@", "", ")!=0]"),
    (["$" + "[?@" * 64 + ".a" + "]" * 63 + "x"], b"1", reported(2, "json_path", NO_QUERY % 258)),
    (["$" + "[?!(0==length(value(@" * 21 + ")))]" * 21], b"[" * 21 + b'{"a":1}' + b"]" * 21, printed(b"[" * 20 + b'{"a":1}' + b"]" * 20)),
    (["$" + "[?!match('a',value(@" * 32 + "))]" * 32], b"[" * 32 + b'{"a":1}' + b"]" * 32, printed(b"[" * 31 + b'{"a":1}' + b"]" * 31)),
    *(
        (["$[?" + sign * levels + "@.a" + ")" * levels + "]"], b"[%s]" % given, expected)
        for sign, given in (("(", b'{"a":1}'), ("!(", b'{"b":1}'))
        for levels, expected in (
            (63, printed(given)),
            (64, reported(2, "json_path", TOO_DEEP % len("$[?" + sign * 64))),
        )
    ),
    *(
        (["$[?" + "length(" * levels + "'abc'" + ")" * levels + " != 2]"], b"[1]", expected)
        for levels, expected in (
            (63, printed(b"1")),
            (64, reported(2, "json_path", TOO_DEEP % 451)),
        )
    ),
    # Long chains of operators, and long unions of each kind of selector.
    (["$[?" + "@.b||" * MANY + "@.a]"], b'[{"a":1},{"c":1}]', printed(b'{"a":1}')),
    (["$[?" + "@.a&&" * MANY + "@.b]"], b'[{"a":1},{"a":1,"b":2}]', printed(b'{"a":1,"b":2}')),
    (["$[?" + "!@.b&&@.a==1||" * (UNION // 2) + "@.b]"], b'[{"b":1},{"a":2}]', printed(b'{"b":1}')),
    *(
        (["$[%s]" % ",".join([selector] * UNION)], given, printed(*[b"1"] * UNION))
        for selector, given in (("*", b"[1.0]"), ("'a'", b'{"a":1}'), ("0:1", b"[1,2]"), ("?@>0", b"[1,0]"), ("?@==1||@==2", b"[1]"))
    ),
    # Descendants of deep values, with filters that look at a child and at all below.
    (["$..*"], b"[" * 1_000 + b"]" * 1_000, printed(*[b"[" * i + b"]" * i for i in range(999, 0, -1)])),
    # The bottom is below each node that descendants above it select.
    (["$..[0]..[1]"], b"[" * 1_000 + b"1,7" + b"]" * 1_000, printed(*[b"7"] * 999)),
    (["$..*..*..b"], b"[" * 200 + b"]" * 200, NO_NODE),
    (["$[?count(@..*)==99998]"], NESTED, printed(NESTED[1:-1])),
    (["$..[?@.a]"], NESTED, NO_NODE),
    (["$..[?@.a]"], b"[" * 100_000 + b'{"a":1}' + b"]" * 100_000, printed(b'{"a":1}')),
    (["$..[?@..b]"], b"[" * 100 + b"]" * 100, NO_NODE),
    (["$[?@..b]"], NESTED, NO_NODE),
    # What a query from the root selects is found once, not for each of the nodes: one query, and several in turn.
    *(
        (["$[?%s && @.x]" % test], ITEMS, printed(b'{"x":2}'))
        for test in (
            "count($..*) == 100001",
            "$..x",
            "!$..y",
            "value($..x) == 2",
            "length(value($..['x'])) != 0",
            "$..x && !$..y && count($..[0,0]) == 2 && count($..[:2]) == 2 && count($..[-1]) == 1",
            "@[?$..x] || $..x",
        )
    ),
    # So is a comparison of values from the root, the length of one, and whether one matches; also each of many.
    *(
        (["$.a[?%s]" % test], LARGE, printed(b'{"x":2}'))
        for test in (
            "$.b == $.c && @.x",
            "length($.s) == 4000000 && @.x",
            "length($.s) > @.x",
            "length(value($..s)) > @.x",
            "search($.s, 'y') || @.x",
            "match($.s, 'x*') && @.x",
        )
    ),
    (["$[?%s || @.x]" % " || ".join("$.a%d" % i for i in range(5_000))], b"[" + b"1," * 10_000 + b'{"x":2}]', printed(b'{"x":2}')),
    # Regular expressions in the query and in the value, at the limits of both and above.
    *(
        row
        for pattern, expected in (
            ("(" * 200 + "a" + ")" * 200, printed(b'"a"')),
            ("(" * 201 + "a" + ")" * 201, reported(4, "json_path", "the groups of a regular expression are too deep")),
            ("a{0,10100}", printed(b'"a"')),
            ("a{10101}", reported(4, "json_path", "a regular expression is too large")),
            ("(ab){4000}", reported(4, "json_path", "a regular expression is too large")),
        )
        for row in (
            (["$[?match(@, '%s')]" % pattern], b'["a"]', expected),
            (["$.a[?search(@, $.p)]"], b'{"a":["a"],"p":"%s"}' % pattern.encode(), expected),
        )
    ),
    # What is no string is not asked of.
    (["$[?match(@, 'a{10101}')]"], b"[1]", NO_NODE),
    *(([f"$.a[?{function}(@,$.p)]"], b'{"a":[1,null,["a"],{"a":"a"}],"p":"a{10101}"}', NO_NODE) for function in ("match", "search")),
    (["$[?" + "(" * 62 + "search(@, '" + "(" * 200 + "b" + ")" * 200 + "')" + ")" * 62 + "]"], b'["abc"]', printed(b'"abc"')),
    (["$[?" + "(" * 63 + "match(@, 'a')" + ")" * 63 + "]"], b"[1]", reported(2, "json_path", TOO_DEEP % 72)),
    # Each of many patterns, which are kept, and one of the value for each item; none takes long, nor does a long text.
    (["$[?" + "||".join("match(@,'a%d')" % i for i in range(5_000)) + "]"], b'["a4999","a0","a5000"]', printed(b'"a4999"', b'"a0"')),
    (["$[?match(@, 'x{900}')]"], b"[" + b"1," * MANY + b'"x",' * 900 + b'"%s"]' % (b"x" * 900), printed(b'"%s"' % (b"x" * 900))),
    (["$[?search(@, '(x+x+)+y')]"], b'["%s","%sy"]' % (b"x" * 100_000, b"x" * 1_000), printed(b'"%sy"' % (b"x" * 1_000))),
    (["$"], NESTED, printed(NESTED)),
    (["$..[1]"], NESTED, NO_NODE),
    (["$..[1]"], UNDER, printed(b"7")),
    (["-p", "$..[1]"], UNDER, printed(b"$" + b"[0]" * 99_999 + b"[1]")),
    (["$..b"], b'{"a":' * 100_000 + b"1" + b"}" * 100_000, NO_NODE),
    (["$" + "[0]" * MANY], NESTED, printed(b"[" * (100_000 - MANY) + b"]" * (100_000 - MANY))),
    (["$[0" + ",0" * MANY + "]"], b"[1.0]", printed(*[b"1"] * (MANY + 1))),
    (["-p", "$[*]"], b"[" + b"1," * MANY + b"1]", printed(*[b"$[%d]" % i for i in range(MANY + 1)])),
    (["$." + "x" * 100_000], b'{"%s":[1.0]}' % (b"x" * 100_000), printed(b"[1]")),
    (["$[*]"], b"[" + LONG + b",0]", printed(LONG, b"0")),
    (["$"], b"[1,]", reported(3, "json_path", "Parse error at line:1, col:3: Invalid character: ]")),
    *((words, b"1", misused("json_path", "QUERY is missing")) for words in ([], ["-p"])),
    *((words, b"1", misused("json_path", "an argument is not UTF-8")) for words in ([NOT_UTF8], ["-p", NOT_UTF8])),
    (["-x", "$"], b"1", misused("json_path", 'unknown option "-x"; after -- it is an operand')),
    *((words, b"[1]", printed(b"$[0]")) for words in (["$[0]", "-p"], ["--paths", "$[0]"], ["-pp", "--", "$[0]", "-"])),
]

# How many of the refused rows are not padded, and why.
UNPADDED_REFUSED = {"no query from its first character on": 5}

# Deep values in what fails, and where memory is refused.
DEEP_FAILURES = [
    (["$[1]"], NESTED, NO_NODE),
    (["$[?@.a]"], b'{"a":%s,"b":[%s]}' % (NESTED, NESTED), NO_NODE),
    (["$"], NESTED + b"x", reported(3, "json_path", "Parse error at line:1, col:200001: Expected EOF but got character 'x'")),
    (["$[?match(@, 'a{10101}')]"], b'[%s,"a",%s]' % (NESTED, NESTED), reported(4, "json_path", "a regular expression is too large")),
    (["$.a[?search(@, $.p)]"], b'{"a":["a",%s],"b":%s,"p":"%s"}' % (NESTED, NESTED, b"(" * 100_000 + b")" * 100_000),
     reported(4, "json_path", "the groups of a regular expression are too deep")),
    (["$"], NESTED, (4, FULL)),
    (["-p", "$..[1]"], UNDER, (4, FULL)),
]
DEEP_MEMORY = [
    (["$..[?@.b]"], b'{"a":%s,"c":[%s,{"b":%s}]}' % (DEEP, DEEP, DEEP)),
    (["-p", "$.c[1].b"], b'{"a":%s,"c":[%s,{"b":%s}]}' % (DEEP, DEEP, DEEP)),
]

# The arguments, the input, and the answer.
ROWS = [
    # Control characters are shown by their code points.
    (["$.a"], b'{"a":"' + CONTROLS + b'"}', printed(b'"' + QUOTED + b'"')),
    (["\n\x1b[2J"], b"{}", reported(2, "json_path", NO_QUERY % 0)),
    (["$"], b"\x1b", reported(3, "json_path", "Parse error at line:1, col:0: Invalid character: U+001B")),
]

# What is told where -v leaves nothing.
NOTHING_LEFT = reported(1, "json_path", "nothing is left")

# The same with options.
INDENTABLE = b'{"c":{},"a":[1.0,{"b":null}],"d":"x"}'
INDENTED_ARRAY = json.dumps([1, {"b": None}], indent=2).encode()
FOUR = rb'{"a":["x\ny","\"\u00e9",1.0,["z"]],"b":"w"}'
OPTIONS = [
    # -r: strings without quotes and escapes, all else as it is; not paths.
    (["-r", "$.b"], FOUR, printed(b"w")),
    (["--raw", "$.a[*]"], FOUR, printed(b"x\ny", '"\u00e9'.encode(), b"1", b'["z"]')),
    (["-r", "$"], b'""', printed(b"")),
    (["-r", "$[0]"], b'["' + b"x" * 100_000 + b'"]', printed(b"x" * 100_000)),
    (["-rp", "$.b"], FOUR, printed(b"$['b']")),
    (["-pr", "$['x\\ny']"], rb'{"x\ny":"w"}', printed(b"$['x\\ny']")),
    # -i: indented by two spaces, each value on its own; not in arrays, not what -v leaves.
    (["-i", "$.a"], INDENTABLE, printed(INDENTED_ARRAY)),
    (["--indent", "$[*]"], INDENTABLE, printed(INDENTED_ARRAY, b"{}", b'"x"')),
    (["-ir", "$[*]"], INDENTABLE, printed(INDENTED_ARRAY, b"{}", b"x")),
    (["-ip", "$.a"], INDENTABLE, printed(b"$['a']")),
    (["-il", "$[*]"], INDENTABLE, printed(b'[[1,{"b":null}],{},"x"]')),
    (["-ilf", "$.a"], INDENTABLE, printed(INDENTED_ARRAY)),
    (["-iv", "$.a[1]"], INDENTABLE, printed(b'{"a":[1],"c":{},"d":"x"}')),
    # -e: it is an answer that nothing is selected.
    (["-e", "$.x"], FOUR, (0, b"", b"")),
    (["--empty", "$.b"], FOUR, printed(b'"w"')),
    (["-ep", "$..x"], FOUR, (0, b"", b"")),
    (["-e", "$"], b"[1,]", reported(3, "json_path", "Parse error at line:1, col:3: Invalid character: ]")),
    (["-e", "$["], b"1", reported(2, "json_path", NO_QUERY % 2)),
    (["-e", "$[?match(@, 'a{10101}')]"], b'["a"]', reported(4, "json_path", "a regular expression is too large")),
    # -f: each value on a line, as without -l.
    (["-f", "$.a[2:]"], FOUR, printed(b"1", b'["z"]')),
    (["--flat", "-p", "$.a[2:]"], FOUR, printed(b"$['a'][2]", b"$['a'][3]")),
    # -v: the text without what is selected, whatever else is asked for.
    (["-v", "$.a[2:]"], FOUR, printed(rb'{"a":["x\ny","\"' + "\u00e9".encode() + rb'"],"b":"w"}')),
    (["--rest", "$.x"], b'[1.0, {"x": 2}]', printed(b'[1,{"x":2}]')),
    (["-v", "$"], b"1", NOTHING_LEFT),
    (["-vrefp", "$"], b"[]", NOTHING_LEFT),
    (["-virefp", "$.b"], b'{"a":"x","b":1}', printed(b'{"a":"x"}')),
    (["-v", "$[0,0,-1]"], b"[1,2,3,1]", printed(b"[2,3]")),
    (["-v", "$[?@>1]"], b"[1,2,3,1.0]", printed(b"[1,1]")),
    (["-v", "$..a"], b'{"a":{"a":1},"b":[{"a":2},{"aa":3}]}', printed(b'{"b":[{},{"aa":3}]}')),
    (["-v", "$[0]"], b'{"0":1}', printed(b'{"0":1}')),
    (["-v", "$['0','[0]']"], b'{"0":1,"[0]":2,"a":[3],"\'][\'":4}', printed(b'{"\'][\'":4,"a":[3]}')),
    (["-v", "$['a','']"], b'{"a":1,"b":2,"a":3,"":4}', printed(b'{"b":2}')),
    (["-v", "$.a"], b"[1,]", reported(3, "json_path", "Parse error at line:1, col:3: Invalid character: ]")),
    (["-v", "$[?match(@, 'a{10101}')]"], b'["a"]', reported(4, "json_path", "a regular expression is too large")),
    (["-v", "$[1]"], NESTED, printed(NESTED)),
    (["-v", "$[0]"], b"[" + NESTED + b",1]", printed(b"[1]")),
    (["-v", "$[1]"], b"[" + NESTED + b",1]", printed(b"[" + NESTED + b"]")),
    (["-v", "$[0]"], b"[0," + LONG + b"]", printed(b"[" + LONG + b"]")),
    (["-v", "$[1:]"], b"[" + b"1.0," * MANY + b"1]", printed(b"[1]")),
    (["-v", "$[::2]"], b"[" + b"1,2," * MANY + b"1]", printed(b"[" + b"2," * (MANY - 1) + b"2]")),
]


def told(output, *lines):
    """The answer of `json_path -l` that prints this, and reports these lines."""
    return 1, output, b"".join(b"json_path: line %s\n" % line for line in lines)


# Lines, each a text: the arguments, the input, and the answer.
NOTHING_AT = b"%d: the query selects no node"
LINES = [
    (["-l", "$.a"], b"", printed()),
    (["-l", "$.a"], b'{"a":1.0}\n{"a":"x"}', printed(b"[1]", b'["x"]')),
    (["--lines", "$[*]"], b"[3,1.0,[2]]\r\n[7]\n", printed(b"[3,1,[2]]", b"[7]")),
    (["-l", "$[0,0]"], b"[1.0]\n", printed(b"[1,1]")),
    (["-l", "$.a"], b'{"a":1}\n{}\n{"a":2}', told(b"[1]\n[2]\n", NOTHING_AT % 2)),
    (["-le", "$.a"], b'{"a":1}\n{}\n{"a":2}', printed(b"[1]", b"[]", b"[2]")),
    (["-l", "$.a"], b'[1,]\n\n"\xff"\n{"a":3}\n[\n', told(b"[3]\n", b"1, col 3: Invalid character: ]",
        b"2, col 0: Unexpected EOF", b"3: not UTF-8", b"5, col 1: Unexpected EOF")),
    (["-le", "$.a"], b"{}\n[1,]\n[]\n", told(b"[]\n[]\n", b"2, col 3: Invalid character: ]")),
    (["-lp", "$..b"], b'{"a":{"b":1},"b":2}\n[{"b":3}]\n', printed(b'["$[\'b\']","$[\'a\'][\'b\']"]', b'["$[0][\'b\']"]')),
    (["-lp", "$[*]"], rb'{"\"":1,"\n":2,"\\":3}', printed(rb"""["$['\\n']","$['\"']","$['\\\\']"]""")),
    (["-lr", "$.*"], rb'{"a":"x\ny","b":1.0}', printed(rb'["x\ny",1]')),
    (["-lf", "$[*]"], b"[3,1.0]\n[[2]]\n", printed(b"3", b"1", b"[2]")),
    (["-lfe", "$[*]"], b"[]\n[1]\n", printed(b"1")),
    (["-lf", "$[*]"], b"[]\n[1]\n", told(b"1\n", NOTHING_AT % 1)),
    (["-lfp", "$[*]"], b"[5,6]\n", printed(b"$[0]", b"$[1]")),
    (["-lfr", "$[*]"], rb'["x\ny","z"]', printed(b"x\ny", b"z")),
    (["-l", "$["], b"{}\n", reported(2, "json_path", NO_QUERY % 2)),
    (["-l", "$[?match(@, 'a{10101}')]"], b'[1]\n["a"]\n[]\n', told(b"", NOTHING_AT % 1, b"2: a regular expression is too large", NOTHING_AT % 3)),
    # A pattern of one line is not the one of the next.
    (["-l", "$.a[?match(@, $.p)]"], b'{"a":["x","y"],"p":"x"}\n{"a":["x","y"],"p":"y"}\n', printed(b'["x"]', b'["y"]')),
    (["-l", "$[0]"], b"[1.0]\n[]\n" * 35_000, told(b"[1]\n" * 35_000, *(NOTHING_AT % n for n in range(2, 70_001, 2)))),
    (["-l", "$"], NESTED + b"\n" + LONG, printed(b"[" + NESTED + b"]", b"[" + LONG + b"]")),
    (["-l", "$[*]"], b"[" + b"1.0," * MANY + b"1.0]", printed(b"[" + b"1," * MANY + b"1]")),
    (["-lv", "$.a"], b'{"a":1,"b":2.0}\n{}\n[1,]\n{"a":{"a":3}}', told(b'{"b":2}\n{}\n{}\n', b"3, col 3: Invalid character: ]")),
    (["-lvf", "$"], b"1\n[\n[2]\n", told(b"", b"1: nothing is left", b"2, col 1: Unexpected EOF", b"3: nothing is left")),
]

# Deep lines among others.
DEEP_LINES = [
    (["-l", "$[1]"], NESTED + b"\n[0,7]\n" + NESTED + b"x\n", told(b"[7]\n", NOTHING_AT % 1, b"3, col 200001: Expected EOF but got character 'x'")),
    (["-lp", "$..[1]"], UNDER, printed(b'["$' + b"[0]" * 99_999 + b'[1]"]')),
]
DEEP_LINES_MEMORY = [(["-l", "$.a"], b'{"a":[1.5,"x",%s],"b":%s}\n{"b":%s}\n' % (DEEP, DEEP, DEEP))]

# The arguments, an input, and the statuses and words where the input is not UTF-8, can't be read, and where the output can't be written.
STREAMS = [(["$"], b"1", (3, NO_TEXT), (4, FOLDER), (4, FULL))]

# The arguments, an input, what is printed of it, and the statuses and words where a read and where a write fails.
FAILING = [(["$[*]"], b"[" + LONG + b", 1.0]", LONG + b"\n1\n", (4, BROKEN), (4, BROKEN))]

# Lines that are longer than the limit.
LONG_LINES = LongLines("json_path", ["-lf", "$"], reports_each("json_path"), is_going=True)

# The same where each line is a text.
MANY_LINES, MANY_ARRAYS = b'{"a":[1.0]}\n' * 5_000, b"[[1]]\n" * 5_000
STREAMS_OF_LINES = [(["-l", "$.a"], MANY_LINES, (1, "line 1: not UTF-8"), (4, FOLDER), (4, FULL))]
FAILING_LINES = [(["-l", "$.a"], MANY_LINES, MANY_ARRAYS, (4, BROKEN), (4, BROKEN))]
INTERRUPTED_LINES = [(["-l", "$.a"], MANY_LINES * 3, MANY_ARRAYS * 3)]

# Where a part is selected 2 ** 20 times and none of its nodes is kept: the arguments and the answer, in 64 MB.
MEMORY = 64 * 1_048_576
AGAIN = "[0,0]" * 20
IN_ARRAYS = b"[" * 21 + b"7" + b"]" * 21
REPEATED = [
    ([f"$[?count(@{AGAIN}) == 1048576]"], printed(IN_ARRAYS[1:-1])),
    ([f"$[?count(${AGAIN}) == 1048576]"], printed(IN_ARRAYS[1:-1])),
    ([f"$[?@{AGAIN * 2} || @{AGAIN}]"], printed(IN_ARRAYS[1:-1])),
    ([f"$[?value(@{AGAIN}) == 7]"], NO_NODE),
    ([f"${AGAIN}"], printed(*[b"[7]"] * 1_048_576)),
    (["-l", f"${AGAIN}"], printed(b"[" + b"[7]," * 1_048_575 + b"[7]]")),
    (["-v", f"${AGAIN}"], printed(b"[" * 20 + b"]" * 20)),
]

# Where a node that is selected twice has nothing, so that it is gone through once: the arguments, an input, and the answer, in so
# many seconds of processor.
SECONDS = 1
ARRAYS, OBJECTS = b"[" * 25 + b"]" * 25, b'{"a":' * 25 + b"1" + b"}" * 25
BESIDE = b'{"x":1}'
for depth in range(1, 25):
    BESIDE = b"[" + b"[" * depth + b"]" * depth + b"," + BESIDE + b"]"
GONE_THROUGH_ONCE = [
    (["$" + "[0,0]" * 24 + ".x"], ARRAYS, NO_NODE),
    (["$" + "[0,-1]" * 24 + ".x"], ARRAYS, NO_NODE),
    (["$" + "[*,0]" * 24 + ".x"], ARRAYS, NO_NODE),
    (["$" + "[:1,?@[0]]" * 23 + ".x"], ARRAYS, NO_NODE),
    (["$" + "['a','a']" * 24 + ".x"], OBJECTS, NO_NODE),
    (["$" + "['b','a','b','c','a']" * 24 + ".x"], OBJECTS, NO_NODE),
    (["$.." + "[0,0]" * 24 + ".x"], ARRAYS, NO_NODE),
    (["$[?@" + "[0,0]" * 23 + ".x]"], ARRAYS, NO_NODE),
    (["$[?count(@" + "[0,0]" * 23 + ".x) == 0]"], ARRAYS, printed(ARRAYS[1:-1])),
    (["-le", "$" + "[0,0]" * 24 + ".x"], ARRAYS, printed(b"[]")),
    # Beside one that has something, on each level.
    (["$" + "[0,1,0]" * 24 + ".x"], BESIDE, printed(b"1")),
]

# Where each request for memory is refused: a value in which queries select, queries with each selector, and one that selects nothing.
SOME = b'{"a\\n":[1.5,{"b":["x",{"a":{}}]}],"c":[[2,3],4]}'
REFUSED_MEMORY = [
    (["$"], SOME),
    (["$..['a\\n',\"b\"][0,*]"], SOME),
    (["-p", "$..*"], SOME),
    (["-p", "$['c'][::-1,0][-1:]"], SOME),
    (["$..d"], SOME),
    (["$.c[?@[0] < 2.50 || @['x'] == null || @ > $.c[0][1] && 'x' != @]"], SOME),
    (
        [
            "$.c[?length(@) == count(@.*) && !(value(@[1]) != 3) && "
            "(match('ab', '[a-c]+') && search('x', $['a\\n'][1].b[0]))]"
        ],
        SOME,
    ),
    (["-re", "$..b[0]"], SOME),
    (["-v", "$..b[0]"], SOME),
    (["-l", "$.c[*]"], SOME + b"\n{}\n[1,]\n" + SOME + b"\n"),
    (["-lp", "$..*"], SOME + b"\n\xff\n"),
]


def selected(document, query, parts):
    """Both runs with the query: the arguments, the input, and the answer."""
    values, places = [normal(json.loads(value)) for value, _ in parts], [path.encode() for _, path in parts]
    for words, lines in (([query], values), (["-p", query], places)):
        yield words, document.encode(), printed(*lines) if lines else NO_NODE


STEP = re.compile(r"\[('(?:[^'\\]|\\.)*'|\d+)\]")


def steps_of(path):
    """The steps of a normalized path, whose quotes and escapes are some of Python's."""
    return tuple(ast.literal_eval(step) for step in STEP.findall(path))


def without(value, places, here=()):
    """The value without these places of it."""
    if isinstance(value, list):
        return [without(item, places, (*here, i)) for i, item in enumerate(value) if (*here, i) not in places]
    if isinstance(value, dict):
        return {name: without(member, places, (*here, name)) for name, member in value.items() if (*here, name) not in places}
    return value


def rests():
    """What is left of each document of `SELECTED` without what is selected, as Python removes it."""
    for document, queries in SELECTED:
        for row in queries:
            query, parts = row
            places = {steps_of(path) for _, path in parts}
            left = normal(without(json.loads(document), places))
            yield row, ["-v", query], document.encode(), NOTHING_LEFT if () in places else printed(left)


def sliced(count):
    """A query of many slices of an array of so many items, as Python selects them."""
    slices = list(itertools.product(BOUNDS, BOUNDS, STEPS))
    shown = (":".join("" if part is None else str(part) for part in one) for one in slices)
    items = list(range(count))
    chosen = [(str(i), f"$[{i}]") for one in slices for i in items[slice(*one)]]
    yield from selected(json.dumps(items), f"$[{','.join(shown)}]", chosen)


def answers():
    """Each row, with its arguments, its input and the answer."""
    for document, queries in SELECTED:
        for row in queries:
            yield from ((row, *it) for it in selected(document, *row))
    yield from rests()
    for count in range(5):
        yield from ((it, *it) for it in sliced(count))
    for rows, words in BROKEN_RULES:
        for row in rows:
            query, place = row
            yield row, [query], b"[1,]", reported(2, "json_path", words % place)
    yield from ((row, *row) for row in LONG_PATHS)


def check_rows(checks):
    """What is selected, on a small stack."""
    for row, words, given, expected in answers():
        name = f"json_path: {[word[:60] for word in words]} {given[:60]}"
        checks.row(name, expected, run_small, program("json_path"), words, given, at=row)
    for row in (*ROWS, *OPTIONS, *LINES):
        words, given, expected = row
        name = f"json_path: {[word[:60] for word in words]} {given[:60]}"
        checks.row(name, expected, run_of, program("json_path"), words, given, at=row)


# The query in a file: the arguments, its text, and the answer for `[1.0,"x"]`. A line feed at its end is no part of it.
QUERY_FILES = [
    (["-q", "query"], b"$[0]", printed(b"1")),
    (["-q", "query"], b"$[*]\n", printed(b"1", b'"x"')),
    (["--query-file", "query", "-"], b"$\n[0]\n", printed(b"1")),
    (["-qp", "query"], b"$['0',1]\n", printed(b"$[1]")),
    (["-q", "query"], b"$[0]\n\n", reported(2, "json_path", NO_QUERY % 4)),
    (["-q", "query"], b"$[0]\r\n", reported(2, "json_path", NO_QUERY % 4)),
    (["-q", "query"], b"", reported(2, "json_path", NO_QUERY % 0)),
    (["-q", "query"], b"\n", reported(2, "json_path", NO_QUERY % 0)),
    (["-q", "query"], b"$.\xff", reported(2, "json_path", "query:1:2: not UTF-8")),
    (["-q", "none"], b"$", reported(2, "json_path", "none: No such file or directory (os error 2)")),
    (["-lq", "query"], b"$[*]\n", printed(b'[1,"x"]')),
    (["query"], b"$", reported(2, "json_path", NO_QUERY % 0)),
]


def with_query(checks, words, text):
    """The answer for a value, where a file has this text."""
    with open(f"{checks.folder}/query", "wb") as file:
        file.write(text)
    return run_of(program("json_path"), words, b'[1.0,"x"]', cwd=checks.folder)


def check_query_files(checks):
    for row in QUERY_FILES:
        words, text, expected = row
        checks.row(f"json_path: {words} {text}", expected, with_query, checks, words, text, at=row)


def in_files(checks):
    """The answer for files of lines: one with lines that are refused, one that is not there, and a good one."""
    for name, text in (("bad", b'{"a":1}\n{}\n[,]\n\xff\n'), ("good", b'{"a":2}\n')):
        with open(f"{checks.folder}/{name}", "wb") as file:
            file.write(text)
    return run_of(program("json_path"), ["-l", "$.a", "bad", "none", "good"], cwd=checks.folder)


def check_lines(checks):
    """What is selected, in lines of which the second is refused, as arrays and each on a line."""
    words = b"bad:2: the query selects no node\nbad:3:1: Invalid character: ,\nbad:4: not UTF-8\n"
    answer = (4, b"[1]\n[2]\n", words + b"none: No such file or directory (os error 2)\n")
    checks.row("json_path -l: files", answer, in_files, checks)
    checks.row("json_path: --max-line without -l", printed(b"[1,2]"), run_of, program("json_path"), ["-m2", "$"], b"[1,\n2]")
    for row, document, query, values, paths in selections():
        line = json.dumps(json.loads(document)).encode()
        given = line + b"\n[1,]\n" + line + b"\n"
        arrays = b"[" + b",".join(values) + b"]\n", json.dumps([path.decode() for path in paths], ensure_ascii=False, separators=(",", ":")).encode() + b"\n"
        flat = [b"".join(it + b"\n" for it in some) for some in (values, paths)]
        for words, output in (("-le", arrays[0]), ("-lep", arrays[1]), ("-lef", flat[0]), ("-lefp", flat[1])):
            name = f"json_path {words}: {query[:60]} {document[:60]}"
            expected = told(output * 2, b"2, col 3: Invalid character: ]")
            checks.row(name, expected, run_of, program("json_path"), [words, query], given, at=row)


def selections():
    """Each row of what is selected, with its value, its query, and the lines of the values and of their paths."""
    for document, queries in SELECTED:
        for row in queries:
            query, parts = row
            yield row, document, query, [normal(json.loads(value)) for value, _ in parts], [path.encode() for _, path in parts]


def check_padded(checks):
    """The same of values with more members in each object, and more items in each array, under many levels."""
    for row, (document, query, *both) in padded_rows(checks, "json_path", selections(), padded_selection, {}):
        for words, lines in zip(([query], ["-p", query]), both):
            name = f"json_path: padded {row[0]} {words[0][:2]}"
            expected = printed(*lines) if lines else NO_NODE
            checks.row(name, expected, run_of, program("json_path"), words, document, at=row)
        name, expected = f"json_path: padded {row[0]} -le", printed(b"[" + b",".join(both[0]) + b"]")
        checks.row(name, expected, run_of, program("json_path"), ["-le", query], b" ".join(document.split(b"\n")), at=row)
    rows = [(row, *row, words) for rows, words in BROKEN_RULES for row in rows]
    for row, (query, words) in padded_rows(checks, "json_path, refused", rows, padded_refusal_of_query, UNPADDED_REFUSED):
        name, expected = f"json_path: padded {row[0]}", reported(2, "json_path", words)
        checks.row(name, expected, run_of, program("json_path"), [query], b"[1,]", at=row)


def check_deep(checks):
    FAULTS.deep(checks, DEEP_FAILURES + DEEP_LINES)
    FAULTS.refusing_deep(checks, DEEP_MEMORY + DEEP_LINES_MEMORY)


def check_faults(checks):
    FAULTS.streams(checks, STREAMS)
    FAULTS.failing(checks, FAILING)
    FAULTS.streams(checks, STREAMS_OF_LINES)
    FAULTS.failing(checks, FAILING_LINES)
    FAULTS.interrupted(checks, INTERRUPTED_LINES)


def check_repeated(checks):
    """What is selected many times, in little memory."""
    limited = lambda: resource.setrlimit(resource.RLIMIT_AS, (MEMORY, MEMORY))
    for row in REPEATED:
        words, expected = row
        name = f"json_path: repeated {words[0][:20]} {len(words[-1])}"
        if checks.needs_memory(name):
            checks.check(name, run_of(program("json_path"), words, IN_ARRAYS, preexec_fn=limited), expected, at=row)


def check_gone_through_once(checks):
    """What has nothing is not gone through again."""
    for row in GONE_THROUGH_ONCE:
        words, given, expected = row
        name, begun = f"json_path: once {words[-1][:24]} {len(words)}", os.times().children_user
        if checks.wants(name, words, given):
            checks.check(name, run_of(program("json_path"), words, given), expected, at=row)
            seconds = os.times().children_user - begun
            checks.check(f"{name}, {seconds:.1f} s", seconds < SECONDS, True, at=row)


def check_memory(checks):
    FAULTS.refusing(checks, REFUSED_MEMORY)


PAGE = Page("json_path", ["$"])


def check_pipes(checks):
    Page("json_path", ["-l", "$"], is_lines=True).check_pipes(checks)


PARTS = (
    PAGE.check,
    *shared(check_rows),
    check_query_files,
    check_lines,
    check_pipes,
    LONG_LINES.check,
    check_padded,
    check_deep,
    check_faults,
    check_repeated,
    check_gone_through_once,
    *shared(check_memory),
    *shared(DOCUMENT_READER.check_inputs),
    DOCUMENT_READER.check_padded,
    DOCUMENT_READER.check_sizes,
    DOCUMENT_READER.check_wide,
    DOCUMENT_READER.check_large,
    DOCUMENT_READER.check_nested,
    DOCUMENT_READER.check_deep_members,
    DOCUMENT_READER.check_deep_memory,
)
