"""Rows of `json_schema`: a value, or each line of some, checked against a schema (JSON Schema 2020-12, 2019-09, drafts 4, 6 and 7)."""

import hashlib
import itertools
import json
import os
import pathlib
import re
import tempfile

import published
from checks import shared
from faults import BROKEN, FOLDER, FULL, NO_TEXT, Faults
from long_lines import LongLines
from pages import Page, misused
from places import TOP
from padded_schemas import padded_lines, padded_refused, padded_values
from padding import padded_rows
from parts import located
from running import program, reported, run_of, run_small
from values import LONG, NESTED, NOT_UTF8, WIDE, WIDE_KEYS, normal, wide

FAULTS = Faults("json_schema", status=1, is_stopping=True)

# Files of schemas: one of members and items, the same with names that are no keywords, one of which what has led to a dynamic
# reference tells where it leads, and one of draft 7.
SCHEMA = f"{TOP}/crates/json_schema/data/schema.json"
UNKNOWN_WORDS = f"{TOP}/crates/json_schema/data/unknown.json"
SCOPES_FILE = f"{TOP}/crates/json_schema/data/scopes.json"
DRAFT_FILE = f"{TOP}/crates/json_schema/data/draft-7.json"

# The schema, values that are valid, and values that are not, each with the place in it and the keyword's.
KEYWORDS = [
    # Core, 4.3.2: the schemas that are truth values, and the one with no keyword.
    ("true", ["null", "[1]", "{}"], []),
    ("{}", ["null", "[1]", "{}"], []),
    ("false", [], [("null", "", ""), ("{}", "", "")]),
    # Core, 8.1.2: outside of meta-schemas it is ignored.
    ('{"$vocabulary":{"https://example.com/vocab":true},"type":"null"}', ["null"], [("1", "", "/type")]),
    ('{"items":{"$vocabulary":{"$ref":"#"},"type":"null"}}', ["[null]"], [("[1]", "/0", "/items/type")]),
    # Validation, 6.1.1: a name or a list of names; `integer` is any number with a zero fraction.
    ('{"type":"integer"}', ["1", "1.0", "-0", "1e400", "10e-1"], [("1.5", "", "/type"), ('"1"', "", "/type"), ("true", "", "/type")]),
    ('{"type":"number"}', ["1", "1.5", "-0"], [('"1"', "", "/type"), ("true", "", "/type"), ("null", "", "/type")]),
    ('{"type":"null"}', ["null"], [("0", "", "/type"), ("false", "", "/type"), ('""', "", "/type"), ("[]", "", "/type")]),
    ('{"type":"boolean"}', ["true", "false"], [("0", "", "/type"), ("null", "", "/type"), ('"true"', "", "/type")]),
    ('{"type":"string"}', ['""', '"\\u0000"'], [("1", "", "/type"), ("null", "", "/type")]),
    ('{"type":"array"}', ["[]", "[[]]"], [("{}", "", "/type"), ('"[]"', "", "/type")]),
    ('{"type":"object"}', ["{}", '{"a":1}'], [("[]", "", "/type"), ("null", "", "/type")]),
    ('{"type":["string","null"]}', ['"a"', "null"], [("1", "", "/type"), ("[null]", "", "/type")]),
    ('{"type":["integer","string"]}', ["2.0", '"2"'], [("2.5", "", "/type")]),
    # 6.1.2: any value, equal as a value, with members in any order.
    ('{"enum":[1,"a",[1],{"a":1,"b":[2]},null]}', ["1", "1.0", "10e-1", '"\\u0061"', "[1.0]", '{"b":[2.0],"a":1}', "null"],
     [("true", "", "/enum"), ("[true]", "", "/enum"), ("0", "", "/enum"), ('{"a":1}', "", "/enum"), ('{"a":1,"b":[2],"c":3}', "", "/enum")]),
    ('{"enum":[]}', [], [("null", "", "/enum"), ("[]", "", "/enum")]),
    ('{"enum":[0,[false]]}', ["-0", "0.0", "0e9", "[false]"], [("false", "", "/enum"), ("[0]", "", "/enum")]),
    # 6.1.3
    ('{"const":2}', ["2", "2.0", "20e-1"], [("5", "", "/const"), ('"2"', "", "/const"), ("[2]", "", "/const")]),
    ('{"const":null}', ["null"], [("0", "", "/const"), ("false", "", "/const")]),
    ('{"const":{"foo":"bar","baz":[1]}}', ['{"baz":[1.0],"foo":"bar"}'], [('{"foo":"bar"}', "", "/const"), ('[{"foo":"bar"}]', "", "/const")]),
    ('{"const":"\\u00e9"}', ['"é"'], [('"e\\u0301"', "", "/const")]),
    ('{"const":false}', ["false"], [("0", "", "/const"), ("[]", "", "/const")]),
    ('{"const":9007199254740992}', ["9007199254740992"], [("9007199254740993", "", "/const"), ("9007199254740992.1", "", "/const")]),
    # 6.2.1: exact, of numbers alone.
    ('{"multipleOf":2}', ["10", "0", "-0", "-4", "2e400", '"foo"', "null", "[3]"], [("7", "", "/multipleOf"), ("-7", "", "/multipleOf"), ("2.5", "", "/multipleOf")]),
    ('{"multipleOf":1.5}', ["0", "4.5", "-4.50"], [("35", "", "/multipleOf"), ("4.6", "", "/multipleOf")]),
    ('{"multipleOf":0.0001}', ["0.0075", "1e400"], [("0.00751", "", "/multipleOf"), ("1e-5", "", "/multipleOf")]),
    ('{"multipleOf":0.1}', ["0.3", "1.1", "7"], [("0.35", "", "/multipleOf"), ("0.30000000000000000001", "", "/multipleOf")]),
    ('{"type":"integer","multipleOf":1e-8}', ["12391239123"], [("1e-8", "", "/type")]),
    ('{"type":"integer","multipleOf":0.123456789}', ["123456789"], [("1e308", "", "/multipleOf")]),
    ('{"multipleOf":3}', ["3e400", "111", "1.2e1", "99999999999999999999999999999999"], [("1e400", "", "/multipleOf"), ("1e9223372036854775807", "", "/multipleOf"), ("100000000000000000000000000000001", "", "/multipleOf")]),
    ('{"multipleOf":8}', ["1e400", "1e3", "56"], [("1e2", "", "/multipleOf"), ("4", "", "/multipleOf")]),
    ('{"multipleOf":1e400}', ["0", "1e400", "-7e401"], [("1", "", "/multipleOf"), ("1e399", "", "/multipleOf"), ("15e399", "", "/multipleOf")]),
    ('{"multipleOf":1e-400}', ["1e400", "1e-400", "0.5"], [("1e-401", "", "/multipleOf")]),
    ('{"multipleOf":9999999999999999999}', ["9999999999999999999", "99999999999999999990", "-99999999999999999980000000000000000001"],
     [("9999999999999999998", "", "/multipleOf"), ("99999999999999999980", "", "/multipleOf")]),
    ('{"multipleOf":1234567890123456789000}', ["1234567890123456789e3", "0.2469135780246913578e22"], [("1234567890123456789", "", "/multipleOf")]),
    # More digits than a word holds: 20, 21 and 39, from both sides of the limits of 64 and 128 bits.
    ('{"multipleOf":12345678901234567891}', ["0", "-0", "12345678901234567891", "-86419752308641975237", "12345678901234567891e400", "null"],
     [("12345678901234567890", "", "/multipleOf"), ("1234567890123456789.1", "", "/multipleOf"), ("1e9223372036854775807", "", "/multipleOf"), ("3", "", "/multipleOf")]),
    ('{"multipleOf":0.10000000000000000001}', ["0.20000000000000000002", "1.0000000000000000001", "10000000000000000001", "-1.10000000000000000011"],
     [("0.1", "", "/multipleOf"), ("0.3", "", "/multipleOf"), ("0.10000000000000000002", "", "/multipleOf"), ("0.100000000000000000015", "", "/multipleOf")]),
    ('{"multipleOf":12345678901234567891e-400}', ["12345678901234567891e-400", "12345678901234567891"], [("12345678901234567891e-401", "", "/multipleOf"), ("1", "", "/multipleOf")]),
    *((f'{{"multipleOf":{n}}}', [f"{n}", f"{n * n}", f"{n * (n - 1)}", f"{n * 999999}e3"], [(f"{n - 1}", "", "/multipleOf"), (f"{n + 1}", "", "/multipleOf"), (f"{n * n + 1}", "", "/multipleOf")])
      for n in (2**64 - 1, 2**64, 2**64 + 1, 2**127, 2**128 - 1, 2**128, 2**128 + 1)),
    # 2 to the power n divides 10 to the power n, and none below; the second of these has 1,000 digits.
    *((f'{{"multipleOf":{p**n}}}', [f"1e{n}", f"1e{n + 1}", f"7e{n}", "1e400000", "1e9223372036854775807"], [(f"1e{n - 1}", "", "/multipleOf"), ("1", "", "/multipleOf")])
      for p, n in ((2, 67), (2, 3321), (5, 29), (5, 1430))),
    (f'{{"multipleOf":{"1" * 1000}}}', ["1" * 1000, "1" * 2000, "-" + "2" * 3000, "1" * 1000 + "e-0"], [("1" * 999, "", "/multipleOf"), ("1" * 1001, "", "/multipleOf"), ("1e1000", "", "/multipleOf")]),
    # 6.2.2 to 6.2.5: exact, and of numbers alone.
    ('{"maximum":3.0}', ["2.6", "3", "3.0", '"x"', "-1e400"], [("3.5", "", "/maximum"), ("3.0000000000000000001", "", "/maximum")]),
    ('{"maximum":2e399}', ["2e399", "0"], [("1e400", "", "/maximum")]),
    ('{"maximum":-1}', ["-2", "-1"], [("0", "", "/maximum"), ("-0.9", "", "/maximum")]),
    ('{"maximum":0}', ["0", "-0", "-1e-400"], [("1e-400", "", "/maximum")]),
    ('{"exclusiveMaximum":3.0}', ["2.2", "2.9999999999999999999", '"x"', "[4]"], [("3.0", "", "/exclusiveMaximum"), ("3.5", "", "/exclusiveMaximum")]),
    ('{"exclusiveMaximum":0}', ["-1e-400"], [("0", "", "/exclusiveMaximum"), ("-0", "", "/exclusiveMaximum")]),
    ('{"minimum":1.1}', ["2.6", "1.1", '"x"', "null"], [("0.6", "", "/minimum"), ("1.0999999999999999999", "", "/minimum")]),
    ('{"minimum":-2}', ["-1", "0", "-2", "-2.0"], [("-2.0001", "", "/minimum"), ("-3", "", "/minimum")]),
    ('{"minimum":0.10000000000000000001}', ["0.2"], [("0.1", "", "/minimum")]),
    ('{"minimum":25e9223372036854775807}', ["26e9223372036854775807"], [("1", "", "/minimum"), ("1e9223372036854775807", "", "/minimum")]),
    ('{"exclusiveMinimum":1.1}', ["1.2", "1.1000000000000000001", '"x"', "{}"], [("1.1", "", "/exclusiveMinimum"), ("0.6", "", "/exclusiveMinimum")]),
    ('{"exclusiveMinimum":0}', ["1e-400"], [("0", "", "/exclusiveMinimum"), ("-0.0", "", "/exclusiveMinimum")]),
    # 6.3.1 and 6.3.2: lengths are of characters.
    ('{"maxLength":2}', ['"f"', '"fo"', '""', "100", '"\\ud83d\\udca9\\ud83d\\udca9"', '"éé"'], [('"foo"', "", "/maxLength"), ('"e\\u0301e"', "", "/maxLength")]),
    ('{"maxLength":2.0}', ['"f"'], [('"foo"', "", "/maxLength")]),
    ('{"maxLength":0}', ['""', "[1]"], [('"a"', "", "/maxLength")]),
    ('{"maxLength":1e400}', ['"aaa"'], []),
    ('{"minLength":2}', ['"foo"', '"fo"', "1", "[]", '"éé"'], [('"f"', "", "/minLength"), ('"\\ud83d\\udca9"', "", "/minLength"), ('""', "", "/minLength")]),
    ('{"minLength":20e-1}', ['"foo"'], [('"f"', "", "/minLength")]),
    ('{"minLength":1e400}', ["1"], [('"foo"', "", "/minLength")]),
    # 6.3.3: found anywhere in a string, unless `^` and `$` say where. Some are those of `pattern.json` in the official suite.
    ('{"pattern":"^a*$"}', ['"aaa"', '""', "true", "123", "{}", "[]", "null"], [('"abc"', "", "/pattern"), ('"aaa\\n"', "", "/pattern"), ('"baa"', "", "/pattern")]),
    ('{"pattern":"a+"}', ['"xxaayy"', '"a"', "1"], [('"xyz"', "", "/pattern"), ('""', "", "/pattern"), ('"A"', "", "/pattern")]),
    ('{"pattern":""}', ['""', '"x"', '"\\u0000"', "null"], []),
    ('{"pattern":"^$"}', ['""', "0"], [('" "', "", "/pattern"), ('"\\n"', "", "/pattern")]),
    ('{"pattern":"(^|,)x(,|$)"}', ['"x"', '"a,x"', '"x,b"'], [('"ax"', "", "/pattern"), ('"xb"', "", "/pattern")]),
    ('{"pattern":"\\\\bfoo\\\\b"}', ['"a foo!"', '"foo"'], [('"afoo"', "", "/pattern"), ('"foo_"', "", "/pattern")]),
    ('{"pattern":"^a|b$"}', ['"ax"', '"xb"', '"a"', '"b"'], [('"xax"', "", "/pattern"), ('"ba"', "", "/pattern")]),
    ('{"pattern":"^.$"}', ['"é"', '"\\ud83d\\udca9"', '"\\u0085"'], [('""', "", "/pattern"), ('"\\r"', "", "/pattern"), ('"\\u2028"', "", "/pattern"), ('"e\\u0301"', "", "/pattern")]),
    ('{"pattern":"^[^a\\\\]]{2,3}?$"}', ['"xx"', '"\\ud83d\\udca9\\n"', '"xyz"'], [('"x"', "", "/pattern"), ('"xxxx"', "", "/pattern"), ('"xa"', "", "/pattern"), ('"]x"', "", "/pattern")]),
    ('{"pattern":"^(?:[+-]?\\\\d+|0x[\\\\dA-Fa-f]+)$"}', ['"-12"', '"0xFf"', '"007"'], [('"0x"', "", "/pattern"), ('"12a"', "", "/pattern"), ('"\\u0663"', "", "/pattern")]),
    ('{"pattern":"^[\\\\u4e2d-\\\\u6587\\\\t]+$"}', ['"中文"', '"中\\t"'], [('"中 文"', "", "/pattern"), ('"u4e2d"', "", "/pattern")]),
    ('{"pattern":"^\\\\w\\\\W\\\\s\\\\/\\\\x41$"}', ['"_!\\u00a0/A"', '"9é\\t/A"'], [('"é!\\u00a0/A"', "", "/pattern"), ('"__\\u00a0/A"', "", "/pattern")]),
    ('{"pattern":"^([\\\\p{L}\\\\p{Z}\\\\p{N}_.:/=+\\\\-@]*)$"}', ['"Ökotopia 9"', '"a_b:c/@"', '""'], [('"a;b"', "", "/pattern"), ('"a\\n"', "", "/pattern")]),
    ('{"pattern":"^\\\\P{C}*$"}', ['"a b"', '"\\u00e9\\u2028"'], [('"a\\tb"', "", "/pattern"), ('"\\u00ad"', "", "/pattern")]),
    ('{"pattern":"^(?<year>\\\\d{4})-(?<month>\\\\d{2})$"}', ['"2026-11"'], [('"2026-1"', "", "/pattern"), ('"(?<year>"', "", "/pattern")]),
    ('{"pattern":"^(?!aws:)(?=.*\\\\d).+$"}', ['"a1"', '"aws1"'], [('"aws:1"', "", "/pattern"), ('"aws"', "", "/pattern"), ('""', "", "/pattern")]),
    ('{"patternProperties":{"^\\\\p{Uppercase_Letter}":{"type":"null"}}}', ['{"Éa":null,"éa":1}'], [('{"Éa":1}', "/Éa", "/patternProperties/^\\p{Uppercase_Letter}/type")]),
    ('{"items":{"type":"string","pattern":"é"}}', ['["café","é"]', "[]"], [('["café","cafe\\u0301"]', "/1", "/items/pattern"), ("[1]", "/0", "/items/type")]),
    # 6.4.1 and 6.4.2
    ('{"maxItems":2}', ["[1]", "[1,2]", "[]", '"foobar"', '{"a":1,"b":2,"c":3}'], [("[1,2,3]", "", "/maxItems")]),
    ('{"maxItems":0.0}', ["[]", "{}"], [("[null]", "", "/maxItems")]),
    ('{"minItems":1}', ["[1,2]", "[[]]", '""', "{}"], [("[]", "", "/minItems")]),
    ('{"minItems":3}', ["[1,2,3]"], [("[1,2]", "", "/minItems"), ("[[1,2,3]]", "", "/minItems")]),
    # 6.4.3: equal as values.
    ('{"uniqueItems":true}', ["[]", "[1]", "[1,2]", '[1,true]', '[0,false]', '[[1],[true]]', '[{"a":false},{"a":0}]', '["1",1]', '[{"a":1},{"a":1,"b":2}]', '[[1,2],[2,1]]', '"aa"', '{"a":1,"b":1}', '["é","e\u0301"]', '[[[1],"foo"],[[2],"foo"]]', "[1e400,1e401]"],
     [("[1,1]", "", "/uniqueItems"), ("[1.0,1.00,1]", "", "/uniqueItems"), ("[3,1,2,1]", "", "/uniqueItems"), ("[0,-0]", "", "/uniqueItems"), ("[null,1,null]", "", "/uniqueItems"),
      ('[{"a":1,"b":[2]},{"b":[2.0],"a":1}]', "", "/uniqueItems"), ('["a","\\u0061"]', "", "/uniqueItems"), ("[10e399,1e400]", "", "/uniqueItems"), ('[{"a":1,"a":2},{"a":2}]', "", "/uniqueItems"), ("[[],[]]", "", "/uniqueItems")]),
    ('{"uniqueItems":false}', ["[1,1]", "[[],[]]", "{}"], []),
    ('{"prefixItems":[{"type":"boolean"},{"type":"boolean"}],"uniqueItems":true}', ["[false,true]", "[true,false,1,0]"], [("[true,true]", "", "/uniqueItems"), ("[false,true,3,3]", "", "/uniqueItems")]),
    ('{"items":{"uniqueItems":true}}', ["[[1],[1]]"], [("[[1],[1,1]]", "/1", "/items/uniqueItems")]),
    # 6.5.1 to 6.5.4; of equal members the last one stands.
    ('{"maxProperties":2}', ['{"a":1}', '{"a":1,"b":2}', "[1,2,3]", '{"a":1,"b":2,"a":3}'], [('{"a":1,"b":2,"c":3}', "", "/maxProperties")]),
    ('{"maxProperties":0}', ["{}", '"x"'], [('{"a":1}', "", "/maxProperties")]),
    ('{"minProperties":1}', ['{"a":1}', "[]", '""'], [("{}", "", "/minProperties")]),
    ('{"minProperties":2}', ['{"a":1,"b":2}'], [('{"a":1,"a":2}', "", "/minProperties"), ('{"a":{"b":1,"c":2}}', "", "/minProperties")]),
    ('{"required":["foo"]}', ['{"foo":1}', '{"foo":null}', "[]", '""', "12", '{"f\\u006fo":1}'], [('{"bar":1}', "", "/required"), ("{}", "", "/required")]),
    ('{"required":[]}', ["{}"], []),
    ('{"required":["foo\\nbar","foo\\"bar","","é"]}', ['{"foo\\nbar":1,"foo\\"bar":1,"":1,"é":1}'], [('{"foo\\nbar":1,"foo\\"bar":1,"é":1}', "", "/required")]),
    ('{"dependentRequired":{"bar":["foo"]}}', ["{}", '{"foo":1}', '{"foo":1,"bar":2}', '["bar"]', '"bar"'], [('{"bar":2}', "", "/dependentRequired"), ('{"bar":null,"fo":1}', "", "/dependentRequired")]),
    ('{"dependentRequired":{"bar":[]}}', ["{}", '{"bar":2}'], []),
    ('{"dependentRequired":{"quux":["foo","bar"],"a":["b"]}}', ['{"foo":1,"bar":2,"quux":3}', '{"a":1,"b":2}'],
     [('{"foo":1,"quux":2}', "", "/dependentRequired"), ('{"quux":1}', "", "/dependentRequired"), ('{"a":1,"foo":1}', "", "/dependentRequired")]),
    # Core, 10.3.1: `items` speaks of what `prefixItems` leaves.
    ('{"items":{"type":"integer"}}', ["[1,2,3]", "[]", '{"0":"x"}', '"x"'], [('[1,"x"]', "/1", "/items/type"), ("[[1]]", "/0", "/items/type")]),
    ('{"items":false}', ["[]", "{}"], [("[1]", "/0", "/items")]),
    ('{"items":true}', ["[1,[]]"], []),
    ('{"prefixItems":[{"type":"integer"},{"type":"string"}]}', ['[1,"foo"]', "[1]", "[]", '[1,"foo",true]', '{"0":"x"}'],
     [('["foo",1]', "/0", "/prefixItems/0/type"), ("[1,1]", "/1", "/prefixItems/1/type")]),
    ('{"prefixItems":[{"type":"string"}],"items":{"type":"number"}}', ['["a",1]', '["a"]', "[]"], [('["a","b"]', "/1", "/items/type"), ("[1]", "/0", "/prefixItems/0/type")]),
    ('{"prefixItems":[true,false]}', ["[1]", "[]"], [("[1,2]", "/1", "/prefixItems/1")]),
    ('{"prefixItems":[{},{},{}],"items":false}', ["[1,2,3]", "[1]"], [("[1,2,3,4]", "/3", "/items")]),
    ('{"items":{"items":{"minimum":0}}}', ["[[0],[]]"], [("[[0],[1,-1]]", "/1/1", "/items/items/minimum")]),
    # Core, 10.3.2: `additionalProperties` speaks of what the `properties` beside it leave.
    ('{"properties":{"foo":{"type":"integer"},"bar":{"type":"string"}}}', ['{"foo":1,"bar":"baz"}', "{}", "[]", "12", '{"quux":[]}'],
     [('{"foo":1,"bar":{}}', "/bar", "/properties/bar/type"), ('{"foo":"a"}', "/foo", "/properties/foo/type")]),
    ('{"properties":{"foo":true,"bar":false}}', ["{}", '{"foo":1}'], [('{"bar":2}', "/bar", "/properties/bar")]),
    ('{"properties":{"a/b":{"type":"null"},"m~n":false,"":false,"%25":false}}', ['{"a/b":null}'],
     [('{"a/b":1}', "/a~1b", "/properties/a~1b/type"), ('{"m~n":1}', "/m~0n", "/properties/m~0n"), ('{"":1}', "/", "/properties/"), ('{"%25":1}', "/%25", "/properties/%25")]),
    ('{"properties":{"$ref":{"type":"string"}}}', ['{"$ref":"a"}'], [('{"$ref":2}', "/$ref", "/properties/$ref/type")]),
    ('{"properties":{"__proto__":{"type":"number"},"toString":{"properties":{"length":{"type":"string"}}}}}', ["{}", '{"__proto__":1,"toString":{"length":"a"}}'],
     [('{"__proto__":"foo"}', "/__proto__", "/properties/__proto__/type"), ('{"toString":{"length":37}}', "/toString/length", "/properties/toString/properties/length/type")]),
    ('{"properties":{"foo":{}},"additionalProperties":false}', ['{"foo":1}', "{}", "[1,2,3]", '"foobarbaz"'], [('{"foo":1,"quux":"boom"}', "/quux", "/additionalProperties")]),
    ('{"properties":{"foo":{}},"additionalProperties":{"type":"boolean"}}', ['{"foo":1,"quux":true}', '{"foo":1}'], [('{"foo":1,"quux":12}', "/quux", "/additionalProperties/type")]),
    ('{"additionalProperties":{"additionalProperties":{"type":"boolean"}}}', ['{"a":{"b":true}}', '{"a":1}'], [('{"a":{"b":1}}', "/a/b", "/additionalProperties/additionalProperties/type")]),
    ('{"properties":{"x\\nvalid":false}}', ['{"x":1}'], [('{"x\\nvalid":1}', "/x\nvalid", "/properties/x\nvalid")]),
    # 10.3.2.2: each pattern that is found in a key has a schema for that member. Some are those of `patternProperties.json` in the official suite.
    ('{"patternProperties":{"f.*o":{"type":"integer"}}}', ['{"foo":1}', '{"foo":1,"foooooo":2}', '["foo"]', '"foo"', "12", "{}", '{"bar":"x"}'],
     [('{"foo":"bar","fooooo":2}', "/foo", "/patternProperties/f.*o/type"), ('{"foo":1,"xfoox":"baz"}', "/xfoox", "/patternProperties/f.*o/type")]),
    ('{"patternProperties":{"a*":{"type":"integer"},"aaa*":{"maximum":20}}}', ['{"a":21}', '{"aaaa":18}', '{"a":21,"aaaa":18}'],
     [('{"a":"bar"}', "/a", "/patternProperties/a*/type"), ('{"aaaa":31}', "/aaaa", "/patternProperties/aaa*/maximum"), ('{"aaa":"foo","aaaa":31}', "/aaa", "/patternProperties/a*/type")]),
    ('{"patternProperties":{"[0-9]{2,}":{"type":"boolean"},"X_":{"type":"string"}}}', ['{"answer 1":"42"}', '{"a_x_3":3}'],
     [('{"a31b":null}', "/a31b", "/patternProperties/[0-9]{2,}/type"), ('{"a_X_3":3}', "/a_X_3", "/patternProperties/X_/type")]),
    ('{"patternProperties":{"f.*":true,"b.*":false}}', ['{"foo":1}', "{}"],
     [('{"bar":2}', "/bar", "/patternProperties/b.*"), ('{"foo":1,"bar":2}', "/bar", "/patternProperties/b.*"), ('{"foobar":1}', "/foobar", "/patternProperties/b.*")]),
    ('{"patternProperties":{"^.*bar$":{"type":"null"}}}', ['{"foobar":null}', '{"bars":1}'], [('{"foobar":1}', "/foobar", "/patternProperties/^.*bar$/type")]),
    ('{"patternProperties":{}}', ['{"a":1}', "[]"], []),
    ('{"patternProperties":{"":{"type":"null"}}}', ['{"":null,"a":null}', "{}"], [('{"":1}', "/", "/patternProperties//type"), ('{"a":1}', "/a", "/patternProperties//type")]),
    ('{"patternProperties":{"^$":false}}', ['{"a":1}'], [('{"":1}', "/", "/patternProperties/^$")]),
    ('{"patternProperties":{"^.$":false}}', ['{"ab":1}', '{"e\u0301":1}'], [('{"é":1}', "/é", "/patternProperties/^.$"), ('{"\\ud83d\\ude00":1}', "/\U0001f600", "/patternProperties/^.$")]),
    ('{"patternProperties":{"a/b|~":false}}', ['{"a":1}'], [('{"xa/b":1}', "/xa~1b", "/patternProperties/a~1b|~0"), ('{"~":1}', "/~0", "/patternProperties/a~1b|~0")]),
    ('{"patternProperties":{"^0$":false}}', ["[1]", '{"00":1}'], [('{"0":1}', "/0", "/patternProperties/^0$")]),
    # `additionalProperties` speaks of what `properties` and `patternProperties` beside it leave; a key that both name is judged by both.
    ('{"properties":{"foo":{},"bar":{}},"patternProperties":{"^v":{}},"additionalProperties":false}', ['{"foo":1}', '{"foo":1,"vroom":2}', "[1,2,3]", '"foobarbaz"'],
     [('{"foo":1,"bar":2,"quux":"boom"}', "/quux", "/additionalProperties"), ('{"av":1}', "/av", "/additionalProperties")]),
    ('{"patternProperties":{"^á":{}},"additionalProperties":false}', ['{"ármányos":2}'], [('{"élmény":2}', "/élmény", "/additionalProperties"), ('{"a\u0301":2}', "/a\u0301", "/additionalProperties")]),
    ('{"properties":{"foo":{"type":"array","maxItems":3},"bar":{"type":"array"}},"patternProperties":{"f.o":{"minItems":2}},"additionalProperties":{"type":"integer"}}',
     ['{"foo":[1,2]}', '{"fxo":[1,2]}', '{"bar":[]}', '{"quux":3}'],
     [('{"foo":[1,2,3,4]}', "/foo", "/properties/foo/maxItems"), ('{"foo":[]}', "/foo", "/patternProperties/f.o/minItems"), ('{"fxo":[]}', "/fxo", "/patternProperties/f.o/minItems"),
      ('{"quux":"foo"}', "/quux", "/additionalProperties/type")]),
    ('{"patternProperties":{"a":{},"b":{}},"additionalProperties":{"type":"null"}}', ['{"xa":1,"b":2,"c":null}'], [('{"c":1}', "/c", "/additionalProperties/type")]),
    ('{"patternProperties":{"":{}},"additionalProperties":false}', ['{"":1,"a":2}'], []),
    ('{"patternProperties":{},"additionalProperties":false}', ["{}"], [('{"a":1}', "/a", "/additionalProperties")]),
    ('{"allOf":[{"patternProperties":{"^a":{}}}],"additionalProperties":false}', ["{}"], [('{"a":1}', "/a", "/additionalProperties")]),
    ('{"additionalProperties":{"patternProperties":{"^x":{"type":"null"}}}}', ['{"x":{"x":null,"y":1}}'], [('{"x":{"x":1}}', "/x/x", "/additionalProperties/patternProperties/^x/type")]),
    # Core, 10.2.1.1: all of them accept the value; the place is that of the first that does not.
    ('{"allOf":[{"minimum":0},{"maximum":5}]}', ["0", "5", '"x"', "null"], [("-1", "", "/allOf/0/minimum"), ("6", "", "/allOf/1/maximum")]),
    ('{"allOf":[true,false]}', [], [("1", "", "/allOf/1"), ("{}", "", "/allOf/1")]),
    ('{"allOf":[true,{}]}', ["1", "[]"], []),
    ('{"allOf":[{"properties":{"bar":{"type":"integer"}},"required":["bar"]},{"required":["foo"]}]}', ['{"bar":2,"foo":"x"}', "[]"],
     [('{"foo":"x"}', "", "/allOf/0/required"), ('{"bar":2}', "", "/allOf/1/required"), ('{"bar":"x","foo":1}', "/bar", "/allOf/0/properties/bar/type")]),
    ('{"properties":{"bar":{"type":"integer"}},"allOf":[{"minProperties":2}]}', ['{"bar":2,"foo":1}'],
     [('{"bar":2}', "", "/allOf/0/minProperties"), ('{"bar":"x","foo":1}', "/bar", "/properties/bar/type")]),
    ('{"allOf":[{"allOf":[{"type":"null"}]}]}', ["null"], [("1", "", "/allOf/0/allOf/0/type")]),
    # `additionalProperties` knows nothing of the `properties` in an `allOf` (Core, 10.3.2.3).
    ('{"allOf":[{"properties":{"foo":{}}}],"additionalProperties":{"type":"boolean"}}', ['{"foo":true}', "{}"], [('{"foo":1}', "/foo", "/additionalProperties/type")]),
    # 10.2.1.2: one at least.
    ('{"anyOf":[{"type":"integer"},{"minimum":2}]}', ["1", "2.5", "3", '"x"'], [("1.5", "", "/anyOf")]),
    ('{"anyOf":[false,false]}', [], [("1", "", "/anyOf"), ("null", "", "/anyOf")]),
    ('{"anyOf":[false,true]}', ["1", "{}"], []),
    ('{"anyOf":[{"properties":{"a":false}},{"required":["b"]}]}', ["{}", '{"b":1,"a":1}', "1"], [('{"a":1}', "", "/anyOf")]),
    ('{"type":"string","anyOf":[{"maxLength":2},{"minLength":4}]}', ['"ab"', '"abcd"'], [('"abc"', "", "/anyOf"), ("3", "", "/type")]),
    ('{"items":{"anyOf":[{"type":"null"}]}}', ["[null]", "[]"], [("[null,0]", "/1", "/items/anyOf")]),
    # 10.2.1.3: exactly one.
    ('{"oneOf":[{"type":"integer"},{"minimum":2}]}', ["1", "2.5"], [("3", "", "/oneOf"), ("1.5", "", "/oneOf")]),
    ('{"type":"string","oneOf":[{"minLength":2},{"maxLength":4}]}', ['"foobar"', '"f"'], [("3", "", "/type"), ('"foo"', "", "/oneOf")]),
    ('{"oneOf":[true,true,true]}', [], [('"foo"', "", "/oneOf")]),
    ('{"oneOf":[true,false,false]}', ['"foo"', "{}"], []),
    ('{"oneOf":[false,false,true]}', ['"foo"'], []),
    ('{"oneOf":[true,true,false]}', [], [('"foo"', "", "/oneOf")]),
    ('{"oneOf":[true,false,true]}', [], [("null", "", "/oneOf")]),
    ('{"oneOf":[false,false,false]}', [], [('"foo"', "", "/oneOf")]),
    ('{"oneOf":[{"properties":{"bar":{"type":"integer"}},"required":["bar"]},{"properties":{"foo":{"type":"string"}},"required":["foo"]}]}',
     ['{"bar":2}', '{"foo":"baz"}', '{"foo":1,"bar":2}'], [('{"foo":"baz","bar":2}', "", "/oneOf"), ('{"foo":2,"bar":"quux"}', "", "/oneOf")]),
    ('{"oneOf":[{"type":"number"},{}]}', ['"foo"'], [("123", "", "/oneOf")]),
    ('{"type":"object","oneOf":[{"required":["foo","bar"]},{"required":["foo","baz"]}]}', ['{"foo":1,"bar":2}', '{"foo":1,"baz":3}'],
     [('{"bar":2}', "", "/oneOf"), ('{"foo":1,"bar":2,"baz":3}', "", "/oneOf")]),
    ('{"oneOf":[{"oneOf":[{"type":"null"}]}]}', ["null"], [("123", "", "/oneOf")]),
    ('{"items":{"oneOf":[{"const":0},{"type":"integer"}]}}', ["[1,2]", "[]"], [("[1,0.0]", "/1", "/items/oneOf")]),
    # 10.2.1.4
    ('{"not":{"type":"integer"}}', ['"x"', "1.1"], [("1", "", "/not"), ("1.0", "", "/not")]),
    ('{"not":{"type":["integer","boolean"]}}', ['"x"'], [("1", "", "/not"), ("true", "", "/not")]),
    ('{"not":true}', [], [("1", "", "/not"), ("null", "", "/not")]),
    ('{"not":false}', ["1", "{}"], []),
    ('{"not":{"not":{}}}', ["1", "null"], []),
    ('{"properties":{"foo":{"not":{}}}}', ['{"bar":1}', "{}"], [('{"foo":1}', "/foo", "/properties/foo/not")]),
    ('{"not":{"properties":{"foo":{"type":"string"}},"type":"object"}}', ["1", '{"foo":1}'], [('{"foo":"x"}', "", "/not"), ("{}", "", "/not")]),
    # 10.2.2: what `if` says chooses; alone, and alone without it, they say nothing.
    ('{"if":{"exclusiveMaximum":0},"then":{"minimum":-10},"else":{"maximum":10}}', ["-1", "-10", "0", "10", '"x"'],
     [("-11", "", "/then/minimum"), ("11", "", "/else/maximum")]),
    ('{"if":{"const":0}}', ["0", '"x"'], []),
    ('{"then":false}', ["0", '"x"'], []),
    ('{"else":false}', ["0", '"x"'], []),
    ('{"then":false,"else":false}', ["0", "{}"], []),
    ('{"if":true,"then":{"const":"then"},"else":{"const":"else"}}', ['"then"'], [('"else"', "", "/then/const")]),
    ('{"if":false,"then":{"const":"then"},"else":{"const":"else"}}', ['"else"'], [('"then"', "", "/else/const")]),
    ('{"if":{"exclusiveMaximum":0},"then":{"minimum":-10}}', ["-1", "3"], [("-100", "", "/then/minimum")]),
    ('{"if":{"exclusiveMaximum":0},"else":{"maximum":2}}', ["-1", "2"], [("3", "", "/else/maximum")]),
    ('{"allOf":[{"if":{"exclusiveMaximum":0}},{"then":{"minimum":-10}}]}', ["-100"], []),
    ('{"if":{"required":["a"]},"then":{"properties":{"a":{"type":"null"}}}}', ['{"a":null}', "{}"], [('{"a":1}', "/a", "/then/properties/a/type")]),
    # 10.2.2.4
    ('{"dependentSchemas":{"bar":{"properties":{"foo":{"type":"integer"},"bar":{"type":"integer"}}}}}',
     ['{"foo":1,"bar":2}', '{"foo":"quux"}', "{}", '["bar"]', '"bar"', "12"],
     [('{"foo":"quux","bar":2}', "/foo", "/dependentSchemas/bar/properties/foo/type"), ('{"foo":2,"bar":"x"}', "/bar", "/dependentSchemas/bar/properties/bar/type")]),
    ('{"dependentSchemas":{"foo":true,"bar":false}}', ['{"foo":1}', "{}"], [('{"bar":null}', "", "/dependentSchemas/bar"), ('{"foo":1,"bar":2}', "", "/dependentSchemas/bar")]),
    ('{"dependentSchemas":{"foo/bar":{"minProperties":4},"foo\\"bar~":{"required":["a"]}}}', ['{"a":1}', '{"foo/bar":1,"a":2,"b":3,"c":4}'],
     [('{"foo/bar":1}', "", "/dependentSchemas/foo~1bar/minProperties"), ('{"foo\\"bar~":1}', "", '/dependentSchemas/foo"bar~0/required')]),
    ('{"dependentSchemas":{}}', ["{}", "1"], []),
    # 10.3.1.3: one item at least.
    ('{"contains":{"minimum":5}}', ["[3,4,5]", "[3,5,6]", '["x"]', "{}", "1"], [("[2,3,4]", "", "/contains"), ("[]", "", "/contains")]),
    ('{"contains":true}', ["[1]"], [("[]", "", "/contains")]),
    ('{"contains":false}', ['"x"'], [("[1]", "", "/contains"), ("[]", "", "/contains")]),
    ('{"items":{"contains":{"type":"null"}}}', ["[[null]]", "[]"], [("[[null],[]]", "/1", "/items/contains")]),
    # Validation, 6.4.4 and 6.4.5: how many items `contains` accepts; without it they say nothing.
    ('{"maxContains":1}', ["[1]", "[1,2]", "[]"], []),
    ('{"minContains":2}', ["[1]", "[]"], []),
    ('{"contains":{"const":1},"maxContains":1}', ["[1]", "[1,2]", '"x"', "{}"], [("[]", "", "/contains"), ("[1,1.0]", "", "/maxContains"), ("[1,2,1]", "", "/maxContains")]),
    ('{"contains":{"const":1},"maxContains":2.0}', ["[1,1]"], [("[1,1,1]", "", "/maxContains")]),
    ('{"contains":{"const":1},"maxContains":0}', ["null"], [("[]", "", "/contains"), ("[2]", "", "/contains"), ("[1]", "", "/maxContains")]),
    ('{"contains":{},"maxContains":1e400}', ["[1,2,3]"], [("[]", "", "/contains")]),
    ('{"contains":{"const":1},"minContains":1}', ["[1]", "[1,2]", "[1,1]", '"x"'], [("[]", "", "/contains"), ("[2]", "", "/contains")]),
    ('{"contains":{"const":1},"minContains":2}', ["[1,1]", "[1,1,1]", "[1,2,1]", "{}"], [("[]", "", "/contains"), ("[1]", "", "/minContains"), ("[1,2]", "", "/minContains")]),
    ('{"contains":{"const":1},"minContains":20e-1}', ["[1,1]"], [("[1]", "", "/minContains")]),
    ('{"contains":{},"minContains":1e400}', ["1"], [("[1]", "", "/minContains")]),
    ('{"contains":{"const":1},"minContains":0}', ["[]", "[2]", "[1]", "[1,1]"], []),
    ('{"contains":false,"minContains":-0.0}', ["[]", "[2]"], []),
    ('{"contains":{"const":1},"minContains":0,"maxContains":1}', ["[]", "[2]", "[1]"], [("[1,1]", "", "/maxContains")]),
    ('{"contains":{"const":1},"minContains":1,"maxContains":3}', ["[1,1]", "[1,1,1]"], [("[]", "", "/contains"), ("[1,1,1,1]", "", "/maxContains")]),
    ('{"contains":{"const":1},"minContains":3,"maxContains":1}', ['"x"'], [("[]", "", "/contains"), ("[1]", "", "/minContains"), ("[1,1,1]", "", "/maxContains")]),
    ('{"items":{"contains":{"type":"null"},"minContains":2}}', ["[[null,null]]", "[]"], [("[[null,null],[null]]", "/1", "/items/minContains")]),
    # 10.3.2.4: of each key.
    ('{"propertyNames":{"maxLength":3}}', ['{"f":{},"foo":{}}', "{}", "[1,2,3]", '"foobar"', "12"], [('{"foo":1,"foobar":2}', "", "/propertyNames")]),
    ('{"propertyNames":true}', ['{"foo":1}', "{}"], []),
    ('{"propertyNames":false}', ["{}", "[]"], [('{"foo":1}', "", "/propertyNames")]),
    ('{"propertyNames":{"enum":["a","\u00e9"]}}', ['{"a":1,"é":2}'], [('{"e\u0301":1}', "", "/propertyNames"), ('{"":1}', "", "/propertyNames")]),
    ('{"propertyNames":{"type":"string"}}', ['{"1":1}'], []),
    ('{"propertyNames":{"pattern":"^a+$"}}', ['{"a":{},"aa":{},"aaa":{}}', "{}", "[]"], [('{"aaA":{}}', "", "/propertyNames"), ('{"a":1,"":2}', "", "/propertyNames")]),
    ('{"propertyNames":{"const":"x"}}', ['{"x":1,"x":2}'], [('{"x":1,"y":2}', "", "/propertyNames")]),
    # Keywords beside each other all apply.
    ('{"allOf":[{"minimum":2}],"anyOf":[{"maximum":9}],"not":{"const":5}}', ["2", "9.0"], [("1", "", "/allOf/0/minimum"), ("10", "", "/anyOf"), ("5.0", "", "/not")]),
    ('{"$defs":{"a":{"not":{}}}}', ["1"], []),
    # Of equal members the last one stands, in schemas too.
    ('{"type":"string","type":"number"}', ["1"], [('"a"', "", "/type")]),
    # Keywords that say nothing, names that are none, and what is data.
    ('{"$schema":"https://json-schema.org/draft/2020-12/schema","$id":"https://example.com/a","title":"t","description":"d","default":5,'
     '"examples":["a"],"$comment":"c","deprecated":true,"readOnly":true,"writeOnly":false,"format":"ipv4","contentEncoding":"base64",'
     '"contentMediaType":"text/html","contentSchema":{"type":"null"},"$defs":{"a":{"type":"null"}}}', ["1", '"x"', "{}"], []),
    ('{"default":{"$ref":"#"},"enum":[{"allOf":[]}],"examples":[{"type":5}],"const":{"allOf":[]}}', ['{"allOf":[]}'], [("{}", "", "/enum")]),
]

# Keywords that say nothing, each beside one that does, and values that it would be thought to speak of (Core, 8.2.1 to 8.2.4;
# Validation, 7 to 9).
SILENT = [
    '"$schema":"https://json-schema.org/draft/2020-12/schema"', '"$id":"https://example.com/a"', '"$comment":"string"', '"$defs":{"a":false}', '"$defs":{}',
    '"format":"date-time"', '"format":"regex"', '"format":"none"', '"contentEncoding":"base64"', '"contentMediaType":"application/json"', '"contentSchema":false',
    '"title":"array"', '"description":""', '"default":[]', '"default":1', '"deprecated":true', '"deprecated":false', '"readOnly":true', '"writeOnly":true', '"examples":[[]]', '"examples":[]',
]
KEYWORDS += [('{%s,"type":"string"}' % word, ['""', '"["', '"{\\"a\\":1}"', '"2020-13-45T25:00:00Z"'], [("1", "", "/type"), ("[]", "", "/type"), ("null", "", "/type")]) for word in SILENT]

# Core, 11.3: members that no other keyword evaluates, in the schema or in one that it applies to the object.
FOO = '"properties":{"foo":{"type":"string"}}'
UNEVALUATED_PROPERTIES = [
    ('{"unevaluatedProperties":true}', ["{}", '{"foo":"foo"}', "1"], []),
    ('{"unevaluatedProperties":{"type":"string","minLength":3}}', ["{}", '{"foo":"foo"}'], [('{"foo":"fo"}', "/foo", "/unevaluatedProperties/minLength")]),
    ('{"unevaluatedProperties":false}', ["{}", "null", "1", '"foo"', "[1]"], [('{"foo":"foo"}', "/foo", "/unevaluatedProperties")]),
    ("{%s,\"unevaluatedProperties\":false}" % FOO, ['{"foo":"foo"}'], [('{"bar":1,"foo":"foo"}', "/bar", "/unevaluatedProperties"), ('{"foo":1}', "/foo", "/properties/foo/type")]),
    ('{"patternProperties":{"^foo":true},"unevaluatedProperties":false}', ['{"foo":1,"foo2":1}'], [('{"foo":1,"bar":2}', "/bar", "/unevaluatedProperties")]),
    ("{%s,\"additionalProperties\":true,\"unevaluatedProperties\":false}" % FOO, ['{"foo":"a","bar":1}'], []),
    ('{"additionalProperties":{"unevaluatedProperties":false}}', ['{"a":{}}', '{"a":1}'], [('{"a":{"b":1}}', "/a/b", "/additionalProperties/unevaluatedProperties")]),
    ('{"propertyNames":{"maxLength":1},"unevaluatedProperties":{"type":"number"}}', ['{"a":1}'], [('{"a":"b"}', "/a", "/unevaluatedProperties/type")]),
    ('{"required":["a"],"unevaluatedProperties":false}', [], [('{"a":1}', "/a", "/unevaluatedProperties")]),
    # In `allOf`, with each of the keywords, and one in another.
    ("{%s,\"allOf\":[{\"properties\":{\"bar\":true}}],\"unevaluatedProperties\":false}" % FOO, ['{"foo":"a","bar":1}'], [('{"foo":"a","bar":1,"baz":1}', "/baz", "/unevaluatedProperties")]),
    ("{%s,\"allOf\":[{\"patternProperties\":{\"^bar\":true}}],\"unevaluatedProperties\":false}" % FOO, ['{"foo":"a","bars":1}'], [('{"foo":"a","baz":1}', "/baz", "/unevaluatedProperties")]),
    ("{%s,\"allOf\":[{\"additionalProperties\":true}],\"unevaluatedProperties\":false}" % FOO, ['{"foo":"a","bar":1}'], []),
    ("{%s,\"allOf\":[{\"unevaluatedProperties\":true}],\"unevaluatedProperties\":{\"maxLength\":2}}" % FOO, ['{"foo":"abc"}', '{"foo":"abc","bar":"abc"}'], []),
    ("{%s,\"allOf\":[{\"unevaluatedProperties\":true}],\"unevaluatedProperties\":false}" % FOO, ['{"foo":"a","bar":1}'], []),
    ("{%s,\"allOf\":[{\"unevaluatedProperties\":false}],\"unevaluatedProperties\":true}" % FOO, ["{}"], [('{"foo":"a"}', "/foo", "/allOf/0/unevaluatedProperties")]),
    ('{"allOf":[{"allOf":[{"properties":{"a":true}}]},true],"unevaluatedProperties":false}', ['{"a":1}'], [('{"a":1,"b":1}', "/b", "/unevaluatedProperties")]),
    ("{%s,\"allOf\":[true],\"unevaluatedProperties\":false}" % FOO, ['{"foo":"a"}'], [('{"bar":1}', "/bar", "/unevaluatedProperties")]),
    # All schemas of `anyOf` that accept the object, and the one of `oneOf`.
    ('{"properties":{"foo":true},"anyOf":[%s],"unevaluatedProperties":false}' % ",".join('{"properties":{"%s":{"const":"%s"}},"required":["%s"]}' % (k, k, k) for k in ("bar", "baz", "quux")),
     ['{"foo":1,"bar":"bar"}', '{"foo":1,"bar":"bar","baz":"baz"}', '{"quux":"quux","baz":"baz"}'],
     [('{"foo":1,"bar":"bar","baz":"no"}', "/baz", "/unevaluatedProperties"), ('{"bar":"bar","baz":"baz","quux":"no"}', "/quux", "/unevaluatedProperties")]),
    ('{"properties":{"foo":true},"oneOf":[%s],"unevaluatedProperties":false}' % ",".join('{"properties":{"%s":{"const":1}},"required":["%s"]}' % (k, k) for k in ("bar", "baz")),
     ['{"foo":1,"bar":1}', '{"baz":1}'], [('{"foo":1,"bar":1,"quux":1}', "/quux", "/unevaluatedProperties"), ('{"bar":1,"baz":2}', "/baz", "/unevaluatedProperties")]),
    # `not` gives nothing, not even twice.
    ("{%s,\"not\":{\"not\":{\"properties\":{\"bar\":{\"const\":1}},\"required\":[\"bar\"]}},\"unevaluatedProperties\":false}" % FOO, [], [('{"foo":"a","bar":1}', "/bar", "/unevaluatedProperties")]),
    # `if`, also with no `then` and no `else`.
    ('{"if":{"properties":{"foo":{"const":1}},"required":["foo"]},"then":{"properties":{"bar":true}},"else":{"properties":{"baz":true}},"unevaluatedProperties":false}',
     ['{"foo":1,"bar":1}', '{"baz":1}', "{}"],
     [('{"foo":1,"bar":1,"baz":1}', "/baz", "/unevaluatedProperties"), ('{"baz":1,"foo":2}', "/foo", "/unevaluatedProperties"), ('{"bar":1}', "/bar", "/unevaluatedProperties")]),
    ('{"if":{"properties":{"foo":{"const":1}},"required":["foo"]},"else":{"properties":{"baz":true}},"unevaluatedProperties":false}',
     ['{"foo":1}', '{"baz":1}'], [('{"foo":1,"bar":1}', "/bar", "/unevaluatedProperties"), ('{"foo":1,"baz":1}', "/baz", "/unevaluatedProperties")]),
    ('{"if":{"properties":{"foo":{"const":1}},"required":["foo"]},"then":{"properties":{"bar":true}},"unevaluatedProperties":false}',
     ['{"foo":1,"bar":1}', "{}"], [('{"baz":1}', "/baz", "/unevaluatedProperties"), ('{"foo":2}', "/foo", "/unevaluatedProperties")]),
    ('{"if":{"patternProperties":{"foo":{"type":"string"}}},"unevaluatedProperties":false}', ['{"foo":"a"}'], [('{"bar":"a"}', "/bar", "/unevaluatedProperties"), ('{"foo":1}', "/foo", "/unevaluatedProperties")]),
    ('{"then":{"properties":{"a":true}},"else":{"properties":{"b":true}},"unevaluatedProperties":false}', ["{}"], [('{"a":1}', "/a", "/unevaluatedProperties"), ('{"b":1}', "/b", "/unevaluatedProperties")]),
    # `dependentSchemas` of a key that is there, and `$ref`.
    ("{%s,\"dependentSchemas\":{\"foo\":{\"properties\":{\"bar\":{\"const\":1}}}},\"unevaluatedProperties\":false}" % FOO, ['{"foo":"a","bar":1}', '{"foo":"a"}'],
     [('{"bar":1}', "/bar", "/unevaluatedProperties"), ('{"foo":"a","bar":1,"baz":1}', "/baz", "/unevaluatedProperties")]),
    ('{"$ref":"#/$defs/bar","properties":{"foo":true},"unevaluatedProperties":false,"$defs":{"bar":{"properties":{"bar":true}}}}', ['{"foo":1,"bar":1}'], [('{"foo":1,"bar":1,"baz":1}', "/baz", "/unevaluatedProperties")]),
    ('{"allOf":[{"$ref":"#/$defs/a"}],"unevaluatedProperties":false,"$defs":{"a":{"anyOf":[{"required":["x"]},{"$ref":"#/$defs/b"}]},"b":{"properties":{"y":true}}}}', ['{"y":1}', "{}"], [('{"x":1,"y":1}', "/x", "/unevaluatedProperties")]),
    ('{"properties":{"x":{"$ref":"#"}},"unevaluatedProperties":false}', ["{}", '{"x":{}}', '{"x":{"x":{}}}'],
     [('{"x":{},"y":{}}', "/y", "/unevaluatedProperties"), ('{"x":{"x":{},"y":1}}', "/x/y", "/properties/x/$ref/unevaluatedProperties")]),
    # Cousins see nothing of each other, nor do schemas of another value.
    ('{"allOf":[{"properties":{"foo":true}},{"unevaluatedProperties":false}]}', ["{}"], [('{"foo":1}', "/foo", "/allOf/1/unevaluatedProperties")]),
    ('{"allOf":[{"unevaluatedProperties":false},{"properties":{"foo":true}}]}', ["{}"], [('{"foo":1}', "/foo", "/allOf/0/unevaluatedProperties")]),
    ('{"allOf":[{"properties":{"foo":true},"unevaluatedProperties":false}],"anyOf":[{"properties":{"bar":true}}]}', ['{"foo":1}'], [('{"bar":1}', "/bar", "/allOf/0/unevaluatedProperties")]),
    ('{"allOf":[{"properties":{"foo":true}}],"anyOf":[{"properties":{"bar":true},"unevaluatedProperties":false}]}', ['{"bar":1}'], [('{"foo":1,"bar":1}', "", "/anyOf")]),
    ('{"properties":{"foo":{"properties":{"bar":true},"unevaluatedProperties":false}},"anyOf":[{"properties":{"foo":{"properties":{"faz":true}}}}]}',
     ['{"foo":{"bar":1}}'], [('{"foo":{"bar":1,"faz":1}}', "/foo/faz", "/properties/foo/unevaluatedProperties")]),
    ('{"not":{"properties":{"a":true},"unevaluatedProperties":false}}', ['{"a":1,"b":1}'], [('{"a":1}', "", "/not")]),
]
# Core, 11.2: the same of items.
UNEVALUATED_ITEMS = [
    ('{"unevaluatedItems":true}', ["[]", "[1]", "{}"], []),
    ('{"unevaluatedItems":{"type":"string"}}', ["[]", '["a"]'], [("[42]", "/0", "/unevaluatedItems/type")]),
    ('{"unevaluatedItems":false}', ["[]", "true", "1", '"foo"', '{"0":1}'], [("[null]", "/0", "/unevaluatedItems")]),
    ('{"items":{"type":"string"},"unevaluatedItems":false}', ['["a","b"]'], [("[1]", "/0", "/items/type")]),
    ('{"items":{"type":"number"},"unevaluatedItems":{"type":"string"}}', ["[5,6]"], [('["a"]', "/0", "/items/type")]),
    ('{"prefixItems":[true],"unevaluatedItems":false}', ["[]", "[1]"], [("[1,2]", "/1", "/unevaluatedItems")]),
    ('{"prefixItems":[true],"items":true,"unevaluatedItems":false}', ["[1,2,3]"], []),
    ('{"items":{"unevaluatedItems":false}}', ["[[],1]"], [("[[],[1]]", "/1/0", "/items/unevaluatedItems")]),
    ('{"prefixItems":[true],"allOf":[{"prefixItems":[true,{"type":"number"}]}],"unevaluatedItems":false}', ["[1,2]"], [("[1,2,3]", "/2", "/unevaluatedItems")]),
    ('{"allOf":[{"prefixItems":[true],"items":true}],"unevaluatedItems":false}', ["[1,2]"], []),
    ('{"allOf":[{"prefixItems":[true]},{"unevaluatedItems":true}],"unevaluatedItems":false}', ["[1,2]"], []),
    ('{"allOf":[{"prefixItems":[true]},{"unevaluatedItems":false}]}', ["[]"], [("[1]", "/0", "/allOf/1/unevaluatedItems")]),
    ('{"unevaluatedItems":{"type":"boolean"},"anyOf":[{"items":{"type":"string"}},true]}', ["[true,false]", '["a","b"]'], [('["a",false]', "/0", "/unevaluatedItems/type")]),
    ('{"prefixItems":[true],"anyOf":[{"prefixItems":[true,{"const":1}]},{"prefixItems":[true,true,{"const":2}]}],"unevaluatedItems":false}', ["[0,1]", "[0,1,2]", "[0,5,2]"],
     [("[0,1,5]", "/2", "/unevaluatedItems"), ("[0,1,2,3]", "/3", "/unevaluatedItems")]),
    ('{"prefixItems":[true],"oneOf":[{"prefixItems":[true,{"const":1}]},{"prefixItems":[true,{"const":2}]}],"unevaluatedItems":false}', ["[0,1]", "[0,2]"], [("[0,1,5]", "/2", "/unevaluatedItems")]),
    ('{"prefixItems":[true],"not":{"not":{"prefixItems":[true,{"const":1}]}},"unevaluatedItems":false}', ["[0]"], [("[0,1]", "/1", "/unevaluatedItems")]),
    ('{"prefixItems":[true],"if":{"prefixItems":[true,{"const":1}]},"then":{"prefixItems":[true,true,{"const":2}]},"else":{"prefixItems":[true,true,true,{"const":3}]},"unevaluatedItems":false}',
     ["[0,1,2]", "[0]", "[0,5,5,3]"], [("[0,1,2,3]", "/3", "/unevaluatedItems"), ("[0,5,5,3,5]", "/4", "/unevaluatedItems")]),
    ('{"$ref":"#/$defs/a","prefixItems":[true],"unevaluatedItems":false,"$defs":{"a":{"prefixItems":[true,true]}}}', ["[1,2]"], [("[1,2,3]", "/2", "/unevaluatedItems")]),
    # What `contains` accepts is evaluated, whatever `minContains` says.
    ('{"prefixItems":[true],"contains":{"type":"string"},"unevaluatedItems":false}', ['[1,"a"]', '[1,"a","b"]'], [("[1,2]", "", "/contains"), ('[1,2,"a"]', "/1", "/unevaluatedItems")]),
    ('{"allOf":[{"contains":{"multipleOf":2}},{"contains":{"multipleOf":3}}],"unevaluatedItems":{"multipleOf":5}}', ["[2,3,4,5,6]"], [("[2,3,4,7,8]", "/3", "/unevaluatedItems/multipleOf")]),
    ('{"if":{"contains":{"const":"a"}},"then":{"if":{"contains":{"const":"b"}},"then":{"if":{"contains":{"const":"c"}}}},"unevaluatedItems":false}',
     ["[]", '["a","a"]', '["a","b","a","b","a"]', '["c","a","c","c","b","a"]'],
     [('["b","b"]', "/0", "/unevaluatedItems"), ('["c","c"]', "/0", "/unevaluatedItems"), ('["c","b","c","b","c"]', "/0", "/unevaluatedItems"), ('["c","a","c","a","c"]', "/0", "/unevaluatedItems")]),
    ('{"contains":{"type":"string"},"minContains":0,"unevaluatedItems":false}', ["[]", '["a"]', '["a","b"]'], [("[0]", "/0", "/unevaluatedItems"), ('["a",0]', "/1", "/unevaluatedItems")]),
    ('{"anyOf":[{"contains":{"type":"null"},"maxContains":1},{"prefixItems":[true]}],"unevaluatedItems":false}', ["[null]", "[1,null]"], [("[null,null]", "/1", "/unevaluatedItems")]),
    ('{"properties":{"foo":{"prefixItems":[true],"unevaluatedItems":false}},"anyOf":[{"properties":{"foo":{"prefixItems":[true,true]}}}]}',
     ['{"foo":[1]}'], [('{"foo":[1,2]}', "/foo/1", "/properties/foo/unevaluatedItems")]),
    ('{"dependentSchemas":{"a":{"prefixItems":[true]}},"unevaluatedItems":false,"unevaluatedProperties":{"type":"null"}}', ["[]", '{"a":null}'], [("[1]", "/0", "/unevaluatedItems"), ('{"a":1}', "/a", "/unevaluatedProperties/type")]),
]
KEYWORDS += UNEVALUATED_PROPERTIES + UNEVALUATED_ITEMS

# Schemas that can't be applied, each with the place.
REFUSED = [
    ("5", ""), ("null", ""), ("[]", ""), ('"x"', ""),
    # Patterns outside of the dialect of Core, 6.4, or that are none; also as keys.
    ('{"pattern":5}', "/pattern"), ('{"pattern":["a"]}', "/pattern"), ('{"pattern":"a(?=b)"}', "/pattern"), ('{"pattern":"(?<!a)b"}', "/pattern"), ('{"pattern":"(?<é>a)"}', "/pattern"), ('{"pattern":"(?<n>a)(?<n>b)"}', "/pattern"),
    ('{"pattern":"(a)\\\\1"}', "/pattern"), ('{"pattern":"\\\\b*a"}', "/pattern"), ('{"pattern":"\\\\p{Latin}"}', "/pattern"), ('{"pattern":"a("}', "/pattern"), ('{"pattern":"a)"}', "/pattern"),
    ('{"pattern":"[b-a]"}', "/pattern"), ('{"pattern":"[a"}', "/pattern"), ('{"pattern":"*a"}', "/pattern"), ('{"pattern":"a**"}', "/pattern"), ('{"pattern":"a{3,2}"}', "/pattern"),
    ('{"pattern":"\\\\"}', "/pattern"), ('{"pattern":"^\\\\S(|(.|\\\\n)*\\\\S)\\\\Z"}', "/pattern"), ('{"properties":{"a":{"pattern":"(?!x)"}}}', "/properties/a/pattern"),
    ('{"patternProperties":[]}', "/patternProperties"), ('{"patternProperties":{"a":5}}', "/patternProperties/a"), ('{"patternProperties":{"a":{"type":"any"}}}', "/patternProperties/a/type"),
    ('{"patternProperties":{"a":true,"(":true}}', "/patternProperties/("), ('{"patternProperties":{"a/b":true,"a/(?!~)":true}}', "/patternProperties/a~1(?!~0)"),
    ('{"items":{"patternProperties":{"b+":{"pattern":"[a"}}}}', "/items/patternProperties/b+/pattern"), ('{"additionalProperties":{"patternProperties":{"\\\\B+":{}}}}', "/additionalProperties/patternProperties/\\B+"),
    ('{"unevaluatedProperties":1}', "/unevaluatedProperties"), ('{"unevaluatedProperties":{"type":5}}', "/unevaluatedProperties/type"),
    ('{"unevaluatedItems":[true]}', "/unevaluatedItems"), ('{"$dynamicRef":"#a"}', "/$dynamicRef"),
    ('{"$schema":5}', "/$schema"), ('{"$schema":["https://json-schema.org/draft/2020-12/schema"]}', "/$schema"), ('{"not":{"$schema":"http://json-schema.org/draft-07/schema#"}}', "/not/$schema"),
    ('{"$defs":{"a":5}}', "/$defs/a"), ('{"$defs":[]}', "/$defs"), ('{"definitions":{"a":5}}', "/definitions/a"), ('{"definitions":[]}', "/definitions"),
    ('{"items":[]}', "/items"), ('{"items":[{"type":"string"}]}', "/items"), ('{"prefixItems":[]}', "/prefixItems"),
    ('{"prefixItems":[{},{"type":5}]}', "/prefixItems/1/type"), ('{"prefixItems":{}}', "/prefixItems"),
    ('{"properties":[]}', "/properties"), ('{"properties":{"a/b":{"a":1},"~":null}}', "/properties/~0"),
    ('{"additionalProperties":0}', "/additionalProperties"), ('{"additionalProperties":{"items":{"enum":{}}}}', "/additionalProperties/items/enum"),
    ('{"type":5}', "/type"), ('{"type":[]}', "/type"), ('{"type":["null","null"]}', "/type"), ('{"type":"any"}', "/type"), ('{"type":["null","Null"]}', "/type"),
    ('{"enum":1}', "/enum"), ('{"maximum":"1"}', "/maximum"), ('{"multipleOf":0}', "/multipleOf"), ('{"multipleOf":-0.0}', "/multipleOf"), ('{"multipleOf":-2}', "/multipleOf"),
    ('{"multipleOf":"2"}', "/multipleOf"), (f'{{"multipleOf":{"1" * 1001}}}', "/multipleOf"), (f'{{"items":{{"multipleOf":0.{"1" * 1001}}}}}', "/items/multipleOf"), ('{"minimum":null}', "/minimum"),
    ('{"maxLength":-1}', "/maxLength"), ('{"maxLength":1.5}', "/maxLength"), ('{"minLength":"1"}', "/minLength"), ('{"minItems":-1e400}', "/minItems"),
    ('{"uniqueItems":1}', "/uniqueItems"), ('{"uniqueItems":null}', "/uniqueItems"),
    ('{"maxProperties":1e-1}', "/maxProperties"), ('{"required":"a"}', "/required"), ('{"required":["a","a"]}', "/required"), ('{"required":[1]}', "/required"),
    ('{"dependentRequired":{"a":["b","b"]}}', "/dependentRequired"), ('{"dependentRequired":{"a":"b"}}', "/dependentRequired"), ('{"dependentRequired":[]}', "/dependentRequired"),
    ('{"allOf":[]}', "/allOf"), ('{"allOf":{}}', "/allOf"), ('{"allOf":[{},{"type":"any"}]}', "/allOf/1/type"), ('{"anyOf":[]}', "/anyOf"), ('{"anyOf":[1]}', "/anyOf/0"),
    ('{"oneOf":[]}', "/oneOf"), ('{"oneOf":{}}', "/oneOf"), ('{"oneOf":[{},{"type":"any"}]}', "/oneOf/1/type"), ('{"not":null}', "/not"), ('{"not":[{}]}', "/not"),
    ('{"if":1}', "/if"), ('{"then":{"pattern":"a+*"}}', "/then/pattern"), ('{"else":"x"}', "/else"), ('{"dependentSchemas":[]}', "/dependentSchemas"),
    ('{"dependentSchemas":{"a":["b"]}}', "/dependentSchemas/a"), ('{"contains":[]}', "/contains"), ('{"contains":{"contains":0}}', "/contains/contains"),
    ('{"minContains":-1}', "/minContains"), ('{"minContains":0.5}', "/minContains"), ('{"contains":{},"minContains":null}', "/minContains"),
    ('{"maxContains":-1}', "/maxContains"), ('{"maxContains":"1"}', "/maxContains"), ('{"contains":{},"maxContains":15e-1}', "/maxContains"),
    ('{"propertyNames":[]}', "/propertyNames"), ('{"propertyNames":{"pattern":"a|?"}}', "/propertyNames/pattern"),
    ('{"title":1}', "/title"), ('{"deprecated":"yes"}', "/deprecated"), ('{"examples":{}}', "/examples"), ('{"format":1}', "/format"),
    ('{"$comment":1}', "/$comment"), ('{"description":["a"]}', "/description"), ('{"readOnly":0}', "/readOnly"), ('{"writeOnly":null}', "/writeOnly"),
    ('{"contentEncoding":64}', "/contentEncoding"), ('{"contentMediaType":{}}', "/contentMediaType"), ('{"examples":"a"}', "/examples"), ('{"deprecated":1}', "/deprecated"),
    ('{"$defs":{"a":{"$comment":null}}}', "/$defs/a/$comment"), ('{"not":{"title":false}}', "/not/title"), ('{"maxProperties":"1"}', "/maxProperties"),
    ('{"contentSchema":{"type":"any"}}', "/contentSchema/type"), ('{"contentSchema":[]}', "/contentSchema"), ('{"then":5}', "/then"), ('{"title":null}', "/title"), ('{"contentEncoding":null}', "/contentEncoding"), ('{"$id":1}', "/$id"),
    ('{"exclusiveMaximum":"3"}', "/exclusiveMaximum"), ('{"exclusiveMinimum":[0]}', "/exclusiveMinimum"), ('{"maxItems":"1"}', "/maxItems"), ('{"maxItems":-1}', "/maxItems"), ('{"minProperties":1.5}', "/minProperties"),
    ('{"properties":{"x\\n\\u001b[2J":0}}', "/properties/xU+000AU+001B[2J"),
]

# Core, 8.2.3.1: references within the whole schema. Most are those of `ref.json` in the official suite.
REFERENCES = [
    ('{"$defs":{"a":{"type":"integer"}},"$ref":"#/$defs/a"}', ["1", "2.0"], [('"x"', "", "/$ref/type")]),
    # The older name of `$defs` leads to schemas too, as the standard's meta-schema has it.
    ('{"definitions":{"a":{"type":"integer"},"b":{"$anchor":"c","type":"string"}},"prefixItems":[{"$ref":"#/definitions/a"},{"$ref":"#c"}]}', ['[1,"a"]'], [('["x"]', "/0", "/prefixItems/0/$ref/type"), ("[1,2]", "/1", "/prefixItems/1/$ref/type")]),
    ('{"properties":{"foo":{"$ref":"#"}},"additionalProperties":false}', ['{"foo":false}', '{"foo":{"foo":false}}'],
     [('{"bar":false}', "/bar", "/additionalProperties"), ('{"foo":{"bar":false}}', "/foo/bar", "/properties/foo/$ref/additionalProperties")]),
    ('{"properties":{"foo":{"type":"integer"},"bar":{"$ref":"#/properties/foo"}}}', ['{"bar":3}'], [('{"bar":true}', "/bar", "/properties/bar/$ref/type")]),
    ('{"prefixItems":[{"type":"integer"},{"$ref":"#/prefixItems/0"}]}', ["[1,2]"], [('[1,"foo"]', "/1", "/prefixItems/1/$ref/type")]),
    ('{"$defs":{"tilde~field":{"type":"integer"},"slash/field":{"type":"integer"},"percent%field":{"type":"integer"}},"properties":'
     '{"tilde":{"$ref":"#/$defs/tilde~0field"},"slash":{"$ref":"#/$defs/slash~1field"},"percent":{"$ref":"#/$defs/percent%25field"}}}',
     ['{"slash":123}', '{"tilde":123}', '{"percent":123}'],
     [('{"slash":"a"}', "/slash", "/properties/slash/$ref/type"), ('{"tilde":"a"}', "/tilde", "/properties/tilde/$ref/type"),
      ('{"percent":"a"}', "/percent", "/properties/percent/$ref/type")]),
    ('{"$defs":{"a":{"type":"integer"},"b":{"$ref":"#/$defs/a"},"c":{"$ref":"#/$defs/b"}},"$ref":"#/$defs/c"}', ["5"], [('"a"', "", "/$ref/$ref/$ref/type")]),
    ('{"patternProperties":{"^n":{"type":"null"}},"items":{"$ref":"#/patternProperties/%5En"}}', ["[null]"], [("[1]", "/0", "/items/$ref/type")]),
    ('{"patternProperties":{"^k":{"$ref":"#"}},"additionalProperties":{"type":"null"}}', ['{"k":{"kk":{"a":null}}}'],
     [('{"k":{"kk":{"a":1}}}', "/k/kk/a", "/patternProperties/^k/$ref/patternProperties/^k/$ref/additionalProperties/type")]),
    # What stands beside it applies too.
    ('{"$defs":{"reffed":{"type":"array"}},"properties":{"foo":{"$ref":"#/$defs/reffed","maxItems":2}}}', ['{"foo":[]}'],
     [('{"foo":[1,2,3]}', "/foo", "/properties/foo/maxItems"), ('{"foo":"string"}', "/foo", "/properties/foo/$ref/type")]),
    # A property that is named so is none, nor is data.
    ('{"properties":{"$ref":{"$ref":"#/$defs/is-string"}},"$defs":{"is-string":{"type":"string"}}}', ['{"$ref":"a"}'], [('{"$ref":2}', "/$ref", "/properties/$ref/$ref/type")]),
    ('{"$defs":{"a_string":{"type":"string"}},"enum":[{"$ref":"#/$defs/a_string"}]}', ['{"$ref":"#/$defs/a_string"}'],
     [('"this is a string"', "", "/enum"), ('{"type":"string"}', "", "/enum")]),
    ('{"$ref":"#/$defs/bool","$defs":{"bool":true}}', ['"foo"', "{}"], []),
    ('{"$ref":"#/$defs/bool","$defs":{"bool":false}}', [], [('"foo"', "", "/$ref")]),
    ('{"properties":{"foo\\"bar":{"$ref":"#/$defs/foo%22bar"}},"$defs":{"foo\\"bar":{"type":"number"}}}', ['{"foo\\"bar":1}'], [('{"foo\\"bar":"1"}', '/foo"bar', '/properties/foo"bar/$ref/type')]),
    ('{"$defs":{"":{"$defs":{"":{"type":"number"}}}},"allOf":[{"$ref":"#/$defs//$defs/"}]}', ["1"], [('"a"', "", "/allOf/0/$ref/type")]),
    ('{"$defs":{"int":{"type":"integer"}},"allOf":[{"properties":{"foo":{"$ref":"#/$defs/int"}}},{"additionalProperties":{"$ref":"#/$defs/int"}}]}', ['{"foo":1}'],
     [('{"foo":"a string"}', "/foo", "/allOf/0/properties/foo/$ref/type")]),
    # First percent-decoded, and then a pointer (RFC 6901, section 6).
    ('{"$defs":{"a~b":false,"c/d":false,"é":false,"%41":false},"properties":{"a":{"$ref":"#/$defs/a%7E0b"},"c":{"$ref":"#%2F%24defs/c%7e1d"},"e":{"$ref":"#/$defs/%C3%A9"},'
     '"f":{"$ref":"#/$defs/%2541"},"g":{"$ref":"#/$defs/é"}}}', ["{}"],
     [('{"a":1}', "/a", "/properties/a/$ref"), ('{"c":1}', "/c", "/properties/c/$ref"), ('{"e":1}', "/e", "/properties/e/$ref"), ('{"f":1}', "/f", "/properties/f/$ref"),
      ('{"g":1}', "/g", "/properties/g/$ref")]),
    # A tree, and references where the place is told of the keyword alone.
    ('{"type":"object","required":["v"],"properties":{"v":{"type":"number"},"kids":{"type":"array","items":{"$ref":"#"}}}}',
     ['{"v":1}', '{"v":1,"kids":[{"v":2,"kids":[]},{"v":3}]}'],
     [('{"v":1,"kids":[{"v":2,"kids":[{"v":"x"}]}]}', "/kids/0/kids/0/v", "/properties/kids/items/$ref/properties/kids/items/$ref/properties/v/type"),
      ('{"v":1,"kids":[{}]}', "/kids/0", "/properties/kids/items/$ref/required")]),
    ('{"$defs":{"n":{"type":"null"}},"not":{"$ref":"#/$defs/n"}}', ["1"], [("null", "", "/not")]),
    ('{"$defs":{"n":{"type":"null"},"s":{"type":"string"}},"anyOf":[{"$ref":"#/$defs/n"},{"$ref":"#/$defs/s"}]}', ["null", '"a"'], [("1", "", "/anyOf")]),
    ('{"$defs":{"a":{"$ref":"#"}},"items":{"$ref":"#/$defs/a"}}', ["[[],[[1]]]"], []),
    ('{"if":{"$ref":"#/$defs/n"},"then":true,"else":{"$ref":"#/$defs/n/not"},"$defs":{"n":{"type":"null","not":{"type":"string"}}}}', ["null", '"a"'], [("1", "", "/else/$ref/type")]),
]

# References that lead nowhere, elsewhere or in a circle, each with the place.
REFUSED_REFERENCES = [
    ('{"$ref":"#"}', "/$ref"), ('{"allOf":[{"$ref":"#"}]}', "/allOf/0/$ref"), ('{"anyOf":[true,{"$ref":"#"}]}', "/anyOf/1/$ref"), ('{"not":{"$ref":"#"}}', "/not/$ref"),
    ('{"if":{"$ref":"#"}}', "/if/$ref"), ('{"else":{"not":{"$ref":"#"}}}', "/else/not/$ref"), ('{"dependentSchemas":{"a":{"$ref":"#"}}}', "/dependentSchemas/a/$ref"),
    ('{"$ref":"#/$defs/a","$defs":{"a":{"$ref":"#/$defs/b"},"b":{"$ref":"#/$defs/a"}}}', "/$defs/a/$ref"),
    ('{"$ref":"#/$defs/a"}', "/$ref"), ('{"$ref":"#/$defs","$defs":{}}', "/$ref"), ('{"$ref":"#/$defs/b","$defs":{"a":true}}', "/$ref"),
    ('{"enum":[{}],"$ref":"#/enum/0"}', "/$ref"), ('{"const":{},"$ref":"#/const"}', "/$ref"), ('{"x":{},"$ref":"#/x"}', "/$ref"), ('{"items":{"$ref":"#/minimum"},"minimum":0}', "/items/$ref"),
    ('{"prefixItems":[true,{"$ref":"#/prefixItems/2"}]}', "/prefixItems/1/$ref"), ('{"prefixItems":[true,{"$ref":"#/prefixItems/00"}]}', "/prefixItems/1/$ref"),
    ('{"$ref":"https://json-schema.org/draft/next/schema"}', "/$ref"), ('{"$ref":"a.json#"}', "/$ref"), ('{"$ref":"/$defs/a","$defs":{"a":true}}', "/$ref"), ('{"$ref":""}', "/$ref"),
    ('{"$ref":5}', "/$ref"), ('{"$ref":{}}', "/$ref"), ('{"$ref":"#a"}', "/$ref"), ('{"$defs":{"~":true},"$ref":"#/$defs/~"}', "/$ref"), ('{"$defs":{"~":true},"$ref":"#/$defs/~2"}', "/$ref"),
    ('{"$defs":{"%":true},"$ref":"#/$defs/%"}', "/$ref"), ('{"$defs":{"%4":true},"$ref":"#/$defs/%4"}', "/$ref"), ('{"$defs":{"%zz":true},"$ref":"#/$defs/%zz"}', "/$ref"),
    ('{"$defs":{"a":true},"$ref":"#/$defs/%FF"}', "/$ref"),
]

# Core, 8.2.2 and 8.2.3.2: plain names. Most are those of `anchor.json` and `dynamicRef.json` in the official suite that have one resource.
ANCHORS = [
    ('{"$ref":"#foo","$defs":{"A":{"$anchor":"foo","type":"integer"}}}', ["1"], [('"a"', "", "/$ref/type")]),
    ('{"$defs":{"anchor_in_enum":{"enum":[{"$anchor":"my_anchor","type":"null"}]},"real_identifier_in_schema":{"$anchor":"my_anchor","type":"string"},'
     '"zzz_anchor_in_const":{"const":{"$anchor":"my_anchor","type":"null"}}},"anyOf":[{"$ref":"#/$defs/anchor_in_enum"},{"$ref":"#my_anchor"}]}',
     ['{"type":"null","$anchor":"my_anchor"}', '"a string to match #/$defs/anchor_in_enum"'], [("1", "", "/anyOf"), ("null", "", "/anyOf")]),
    ('{"$id":"https://test.json-schema.org/dynamicRef-dynamicAnchor-same-schema/root","type":"array","items":{"$dynamicRef":"#items"},"$defs":{"foo":{"$dynamicAnchor":"items","type":"string"}}}',
     ['["foo","bar"]', "[]"], [('["foo",42]', "/1", "/items/$dynamicRef/type")]),
    ('{"$id":"https://test.json-schema.org/dynamicRef-anchor-same-schema/root","type":"array","items":{"$dynamicRef":"#items"},"$defs":{"foo":{"$anchor":"items","type":"string"}}}',
     ['["foo","bar"]'], [('["foo",42]', "/1", "/items/$dynamicRef/type")]),
    ('{"$id":"https://test.json-schema.org/ref-dynamicAnchor-same-schema/root","type":"array","items":{"$ref":"#items"},"$defs":{"foo":{"$dynamicAnchor":"items","type":"string"}}}',
     ['["foo","bar"]'], [('["foo",42]', "/1", "/items/$ref/type")]),
    # A tree, whose name is that of the whole schema.
    ('{"$dynamicAnchor":"node","type":"object","properties":{"data":true,"children":{"type":"array","items":{"$dynamicRef":"#node"}}},"additionalProperties":false}',
     ['{"children":[{"data":1}]}', '{"data":[],"children":[{"children":[{}]}]}'],
     [('{"children":[{"daat":1}]}', "/children/0/daat", "/properties/children/items/$dynamicRef/additionalProperties"), ('{"children":[1]}', "/children/0", "/properties/children/items/$dynamicRef/type")]),
    # A pointer, and the whole schema.
    ('{"$defs":{"a":{"type":"null"}},"items":{"$dynamicRef":"#/$defs/a"}}', ["[null]"], [("[1]", "/0", "/items/$dynamicRef/type")]),
    ('{"type":"array","items":{"$dynamicRef":"#"}}', ["[[],[[]]]"], [("[[1]]", "/0/0", "/items/$dynamicRef/items/$dynamicRef/type")]),
    # Letters and `_` first, and digits, `-` and `.` after them; large and small letters differ.
    ('{"$defs":{"a":{"$anchor":"_","type":"null"},"b":{"$anchor":"Zz-0._9","minimum":1},"c":{"$anchor":"zz-0._9","maximum":5}},"prefixItems":[{"$ref":"#_"},{"$ref":"#Zz-0._9"},{"$ref":"#zz-0._9"}]}',
     ["[null,1,5]"], [("[1]", "/0", "/prefixItems/0/$ref/type"), ("[null,0]", "/1", "/prefixItems/1/$ref/minimum"), ("[null,1,6]", "/2", "/prefixItems/2/$ref/maximum")]),
    # First percent-decoded.
    ('{"$defs":{"a":{"$anchor":"foo","type":"null"}},"items":{"$ref":"#%66o%6f"},"contains":{"$dynamicRef":"#f%6Fo"}}', ["[null]"], [("[1,null]", "/0", "/items/$ref/type"), ("[]", "", "/contains")]),
    # What stands beside it applies too, `$ref` first.
    ('{"$defs":{"a":{"$anchor":"a","type":"integer"},"b":{"$dynamicAnchor":"b","minimum":0}},"$ref":"#a","$dynamicRef":"#b","maximum":9}', ["5", "0.0"],
     [('"a"', "", "/$ref/type"), ("-1.5", "", "/$ref/type"), ("-1", "", "/$dynamicRef/minimum"), ("10", "", "/maximum")]),
    ('{"$defs":{"n":{"$anchor":"n","type":"null"}},"not":{"$dynamicRef":"#n"}}', ["1"], [("null", "", "/not")]),
    ('{"$defs":{"a":{"$anchor":"a","$dynamicRef":"#b"},"b":{"$anchor":"b","$ref":"#c"},"c":{"$dynamicAnchor":"c","type":"null"}},"$ref":"#a"}', ["null"], [("1", "", "/$ref/$dynamicRef/$ref/type")]),
    # In each schema in the schema.
    *(("{" + schema % '{"$anchor":"x","type":"null"}' + ',"properties":{"k":{"$ref":"#x"}}}', ['{"k":null}'], [('{"k":1}', "/k", "/properties/k/$ref/type")])
      for schema in ('"$defs":{"a":%s}', '"allOf":[true,{"items":%s}]', '"anyOf":[true,%s]', '"oneOf":[true,%s]', '"not":%s', '"if":%s', '"then":%s', '"else":%s', '"items":%s', '"prefixItems":[{},%s]',
                     '"contains":%s', '"additionalProperties":%s', '"propertyNames":{"items":%s}', '"dependentSchemas":{"z":%s}', '"patternProperties":{"^z":%s}', '"contentSchema":%s')),
    # A property that is named so is none, nor is data, nor what is in a name that is no keyword.
    ('{"properties":{"$anchor":{"type":"string"}}}', ['{"$anchor":"a"}'], [('{"$anchor":1}', "/$anchor", "/properties/$anchor/type")]),
    ('{"$anchor":"x","const":{"$anchor":"x"}}', ['{"$anchor":"x"}'], [("1", "", "/const")]),
    ('{"$anchor":"x","type":"null","examples":[{"$anchor":"x"}],"default":{"$dynamicAnchor":"x"},"enum":[null,{"$anchor":"x"}]}', ["null"], [('{"$anchor":"x"}', "", "/type")]),
]

# Names that lead nowhere or in a circle, that are none, and that two schemas have, each with a place.
REFUSED_ANCHORS = [
    ('{"$ref":"#x","enum":[{"$anchor":"x"}]}', "/$ref"), ('{"$ref":"#x","const":{"$anchor":"x"}}', "/$ref"), ('{"$dynamicRef":"#x","default":{"$dynamicAnchor":"x"}}', "/$dynamicRef"),
    ('{"$ref":"#x","y":{"$anchor":"x"}}', "/$ref"), ('{"$ref":"#x","examples":[{"$anchor":"x"}]}', "/$ref"), ('{"$ref":"#x","properties":{"$anchor":{"const":"x"}}}', "/$ref"),
    ('{"items":{"$ref":"#X"},"$anchor":"x"}', "/items/$ref"), ('{"items":{"$ref":"#x%20"},"$anchor":"x"}', "/items/$ref"), ('{"items":{"$ref":"#%78%"},"$anchor":"x"}', "/items/$ref"),
    ('{"items":{"$ref":"x"},"$anchor":"x"}', "/items/$ref"), ('{"items":{"$ref":"a.json#x"},"$anchor":"x"}', "/items/$ref"), ('{"items":{"$ref":"#x/type"},"$anchor":"x"}', "/items/$ref"),
    ('{"items":{"$dynamicRef":5},"$anchor":"x"}', "/items/$dynamicRef"), ('{"$dynamicRef":"#/$defs/a"}', "/$dynamicRef"), ('{"$dynamicRef":"https://example.com/a#x"}', "/$dynamicRef"),
    ('{"$anchor":"x","$ref":"#x"}', "/$ref"), ('{"$dynamicAnchor":"x","allOf":[{"$dynamicRef":"#x"}]}', "/allOf/0/$dynamicRef"), ('{"$dynamicRef":"#"}', "/$dynamicRef"),
    ('{"$defs":{"a":{"$anchor":"a","$dynamicRef":"#b"},"b":{"$anchor":"b","$ref":"#a"}}}', "/$defs/a/$dynamicRef"),
    # Not of the form.
    *((f'{{"items":{{"{keyword}":{name}}}}}', f"/items/{keyword}") for keyword in ("$anchor", "$dynamicAnchor")
      for name in ('""', '"1a"', '"-a"', '".a"', '"a b"', '"a/b"', '"/a"', '"#a"', '"#/a"', '"a:b"', '"\u00e9"', '"a\u00e9"', '"a%62"', '"a\\n"', "5", "null", "true", '["a"]', "{}")),
    # Of two schemas, or twice of one.
    ('{"$defs":{"a":{"$anchor":"x"},"b":{"$anchor":"x"}}}', "/$defs/a/$anchor"), ('{"$anchor":"x","$dynamicAnchor":"x"}', "/$anchor"), ('{"$dynamicAnchor":"x","items":{"$anchor":"x"}}', "/$dynamicAnchor"),
    ('{"$defs":{"a":{"$anchor":"y"},"b":{"$anchor":"x"},"c":{"$dynamicAnchor":"x"}}}', "/$defs/b/$anchor"), ('{"allOf":[{"$anchor":"x"},{"$anchor":"y"},{"$anchor":"x"}]}', "/allOf/0/$anchor"),
    ('{"properties":{"a":{"$anchor":"z"},"b":{"$anchor":"y"},"c":{"$anchor":"y"},"d":{"$anchor":"z"}}}', "/properties/a/$anchor"), ('{"$anchor":"x","items":{"$anchor":"\\u0078"}}', "/$anchor"),
]

# Core, appendix A: a document, each schema with a constant of its own, and the URIs that lead to it.
IDENTIFIED = (
    '{"$id":"https://example.com/root.json","items":{"$ref":%s},"$defs":{"A":{"$anchor":"foo","const":"A"},"B":{"$id":"other.json","const":"B",'
    '"$defs":{"X":{"$anchor":"bar","const":"X"},"Y":{"$id":"t/inner.json","$anchor":"bar","const":"Y"}}},"C":{"$id":"urn:uuid:ee564b8a-7a87-4125-8c96-e9f123d6766f","const":"C"}}}'
)
IDENTIFIERS = [
    ("A", "https://example.com/root.json#foo", "https://example.com/root.json#/$defs/A"),
    ("B", "https://example.com/other.json", "https://example.com/other.json#", "https://example.com/root.json#/$defs/B"),
    ("X", "https://example.com/other.json#bar", "https://example.com/other.json#/$defs/X", "https://example.com/root.json#/$defs/B/$defs/X"),
    ("Y", "https://example.com/t/inner.json", "https://example.com/t/inner.json#bar", "https://example.com/t/inner.json#", "https://example.com/other.json#/$defs/Y",
     "https://example.com/root.json#/$defs/B/$defs/Y"),
    ("C", "urn:uuid:ee564b8a-7a87-4125-8c96-e9f123d6766f", "urn:uuid:ee564b8a-7a87-4125-8c96-e9f123d6766f#", "https://example.com/root.json#/$defs/C"),
]

# Core, 8.2.3.2 and appendix C: a tree that others extend, by the keyword that names its node, and a stricter one.
TREE = '"$id":"%stree","%s":"node","type":"object","properties":{"data":true,"children":{"type":"array","items":{"$dynamicRef":"#node"}}}'
STRICT_TREE = '{"$id":"https://example.com/strict-tree","%s":"node","$ref":"tree","unevaluatedProperties":false,"$defs":{"tree":{%s}}}'

# Three of `dynamicRef.json` in the official suite, in one document each: a list whose items others name, a schema with a part that leads to what
# extends it, and lists of two kinds.
LIST = (
    '{"$id":"https://test.json-schema.org/dynamic-resolution/root","$ref":"%s","$defs":{"foo":{"%s":"items","type":"string"},'
    '"between":{"$id":"between","$ref":"list"},"list":{"$id":"list","type":"array","items":{"$dynamicRef":"#items"},"$defs":{"items":{%s}}}}}'
)
EXTENDED = (
    '{"$id":"https://test.json-schema.org/relative-dynamic-reference/root","$dynamicAnchor":"meta","type":"object","properties":{"foo":{"const":"pass"}},"$ref":"extended",'
    '"$defs":{"extended":{"$id":"extended","%s":"meta","type":"object","properties":{"bar":{"$ref":"bar"}}},"bar":{"$id":"bar","type":"object","properties":{"baz":{"$dynamicRef":"extended#meta"}}}}}'
)
KINDS = (
    '{"$id":"https://test.json-schema.org/dynamic-ref-with-multiple-paths/main","if":{"properties":{"kindOfList":{"const":"numbers"}},"required":["kindOfList"]},"then":{"$ref":"numberList"},'
    '"else":{"$ref":"stringList"},"$defs":{"genericList":{"$id":"genericList","properties":{"list":{"items":{"$dynamicRef":"#itemType"}}},"$defs":{"defaultItemType":{"$dynamicAnchor":"itemType"}}},'
    '"numberList":{"$id":"numberList","$defs":{"itemType":{"$dynamicAnchor":"itemType","type":"number"}},"$ref":"genericList"},'
    '"stringList":{"$id":"stringList","$defs":{"itemType":{"$dynamicAnchor":"itemType","type":"string"}},"$ref":"genericList"}}}'
)

# Two lists of one kind, and a list of them, in one another; each names the items.
SCOPES = (
    '"$defs":{"g":{"$id":"g","items":{"$dynamicRef":"#T"},"$defs":{"t":{"$dynamicAnchor":"T"}}},"a":{"$id":"a","$ref":"b","$defs":{"t":{"$dynamicAnchor":"T","type":"integer"}}},'
    '"b":{"$id":"b","$ref":"g","$defs":{"t":{"$dynamicAnchor":"T","type":"string"}}}}'
)
# Two trees that extend one.
TREES = (
    '{"properties":{"x":{"$ref":"s"},"y":{"$ref":"u"},"z":{"$ref":"tree"}},"$defs":{"tree":{"$id":"tree","$dynamicAnchor":"node","type":"object","properties":{"data":true,"children":{"items":{"$dynamicRef":"#node"}}}},'
    '"s":{"$id":"s","$dynamicAnchor":"node","$ref":"tree","unevaluatedProperties":false},"u":{"$id":"u","$dynamicAnchor":"node","$ref":"tree","required":["data"]}}}'
)

# Core, 8.2.3.2: dynamic references to names in a document with resources.
DYNAMIC = [
    (KINDS, ['{"kindOfList":"numbers","list":[1.1]}', '{"kindOfList":"strings","list":["foo"]}'],
     [('{"kindOfList":"numbers","list":["foo"]}', "/list/0", "/then/$ref/$ref/properties/list/items/$dynamicRef/type"),
      ('{"kindOfList":"strings","list":[1.1]}', "/list/0", "/else/$ref/$ref/properties/list/items/$dynamicRef/type")]),
    # The outermost resource of those that have led to the reference tells, also where they are entered without one, or by a pointer.
    ('{"properties":{"x":{"$ref":"a"},"y":{"$ref":"b"},"z":{"$ref":"g"}},%s}' % SCOPES, ['{"x":[1],"y":["a"],"z":[1,"a"]}', "{}"],
     [('{"x":["a"]}', "/x/0", "/properties/x/$ref/$ref/$ref/items/$dynamicRef/type"), ('{"y":[1]}', "/y/0", "/properties/y/$ref/$ref/items/$dynamicRef/type")]),
    ('{"properties":{"x":{"$id":"c","$ref":"b","$defs":{"t":{"$dynamicAnchor":"T","type":"null"}}},"y":{"$ref":"#/$defs/b"},"z":{"$id":"d","$ref":"a"}},%s}' % SCOPES,
     ['{"x":[null],"y":["a"],"z":[1]}'],
     [('{"x":["a"]}', "/x/0", "/properties/x/$ref/$ref/items/$dynamicRef/type"), ('{"y":[null]}', "/y/0", "/properties/y/$ref/$ref/items/$dynamicRef/type"),
      ('{"z":[null]}', "/z/0", "/properties/z/$ref/$ref/$ref/items/$dynamicRef/type")]),
    (TREES, ['{"x":{"children":[{"data":1}]},"y":{"data":1,"k":2,"children":[{"data":1,"k":2}]},"z":{"k":1,"children":[{"k":2}]}}'],
     [('{"x":{"children":[{"k":1}]}}', "/x/children/0/k", "/properties/x/$ref/$ref/properties/children/items/$dynamicRef/unevaluatedProperties"),
      ('{"y":{"data":1,"children":[{}]}}', "/y/children/0", "/properties/y/$ref/$ref/properties/children/items/$dynamicRef/required"),
      ('{"z":{"children":[1]}}', "/z/children/0", "/properties/z/$ref/properties/children/items/$dynamicRef/type")]),
    # The strict tree's node is taken in the tree, too, unless it or the tree's has the name by `$anchor`.
    (STRICT_TREE % ("$dynamicAnchor", TREE % ("", "$dynamicAnchor")), ['{"children":[{"data":1}]}', '{"children":[{"children":[{}]}]}'],
     [('{"children":[{"daat":1}]}', "/children/0/daat", "/$ref/properties/children/items/$dynamicRef/unevaluatedProperties"), ('{"daat":1}', "/daat", "/unevaluatedProperties"),
      ('{"children":[1]}', "/children/0", "/$ref/properties/children/items/$dynamicRef/$ref/type")]),
    ("{" + TREE % ("https://example.com/", "$dynamicAnchor") + "}", ['{"children":[{"daat":1}]}'], [('{"children":[1]}', "/children/0", "/properties/children/items/$dynamicRef/type")]),
    *((STRICT_TREE % (strict, TREE % ("", tree)), ['{"children":[{"daat":1}]}'],
       [('{"daat":1}', "/daat", "/unevaluatedProperties"), ('{"children":[1]}', "/children/0", "/$ref/properties/children/items/$dynamicRef/type")])
      for strict, tree in (("$anchor", "$dynamicAnchor"), ("$dynamicAnchor", "$anchor"), ("$anchor", "$anchor"))),
    (LIST % ("list", "$dynamicAnchor", '"$dynamicAnchor":"items"'), ['["foo","bar"]'], [('["foo",42]', "/1", "/$ref/items/$dynamicRef/type")]),
    (LIST % ("between", "$dynamicAnchor", '"$dynamicAnchor":"items"'), ['["foo","bar"]'], [('["foo",42]', "/1", "/$ref/$ref/items/$dynamicRef/type")]),
    (LIST % ("list", "$anchor", '"$dynamicAnchor":"items"'), ['["foo",42]'], [("1", "", "/$ref/type")]),
    (LIST % ("list", "$dynamicAnchor", '"$anchor":"items"'), ['["foo",42]'], [("1", "", "/$ref/type")]),
    (LIST % ("list", "$dynamicAnchor", '"$anchor":"items","$dynamicAnchor":"foo"'), ['["foo",42]'], [("1", "", "/$ref/type")]),
    (EXTENDED % "$dynamicAnchor", ['{"foo":"pass","bar":{"baz":{"foo":"pass"}}}'],
     [('{"foo":"pass","bar":{"baz":{"foo":"fail"}}}', "/bar/baz/foo", "/$ref/properties/bar/$ref/properties/baz/$dynamicRef/properties/foo/const")]),
    (EXTENDED % "$anchor", ['{"foo":"pass","bar":{"baz":{"foo":"fail"}}}'], [('{"foo":"fail"}', "/foo", "/properties/foo/const")]),
    ('{"$id":"http://localhost:1234/draft2020-12/strict-extendible.json","$ref":"extendible-dynamic-ref.json","$defs":{"elements":{"$dynamicAnchor":"elements","properties":{"a":true},"required":["a"],'
     '"additionalProperties":false},"extendible":{"$id":"extendible-dynamic-ref.json","type":"object","properties":{"elements":{"type":"array","items":{"$dynamicRef":"#elements"}}},"required":["elements"],'
     '"additionalProperties":false,"$defs":{"elements":{"$dynamicAnchor":"elements"}}}}}', ['{"elements":[{"a":1}]}'],
     [('{"a":true}', "", "/$ref/required"), ('{"elements":[{"b":1}]}', "/elements/0", "/$ref/properties/elements/items/$dynamicRef/required")]),
    # The only schema with the name, in a resource within.
    ('{"$ref":"http://localhost:1234/draft2020-12/detached-dynamicref.json#/$defs/foo","$defs":{"a":{"$id":"http://localhost:1234/draft2020-12/detached-dynamicref.json",'
     '"$defs":{"foo":{"$dynamicRef":"#detached"},"detached":{"$dynamicAnchor":"detached","type":"integer"}}}}}', ["1"], [('"a"', "", "/$ref/$dynamicRef/type")]),
    ('{"$defs":{"a":{"$id":"a","$dynamicAnchor":"n","type":"null"}},"$dynamicRef":"a#n"}', ["null"], [("1", "", "/$dynamicRef/type")]),
    # Another name of the whole is not taken.
    ('{"$id":"https://example.com/a","items":{"$ref":"b"},"$defs":{"m":{"$dynamicAnchor":"m","type":"integer"},"b":{"$id":"b","items":{"$dynamicRef":"#n"},"$defs":{"n":{"$dynamicAnchor":"n","type":"string"}}}}}',
     ['[["a"]]'], [("[[1]]", "/0/0", "/items/$ref/items/$dynamicRef/type")]),
    # By a URI, and percent-encoded; with no resource within, too.
    ('{"$id":"https://example.com/a","prefixItems":[{"$ref":"b"},{"$dynamicRef":"https://example.com/b#n"}],"$defs":{"n":{"$dynamicAnchor":"n","type":"integer"},'
     '"b":{"$id":"b","$dynamicAnchor":"n","type":"array","items":{"$dynamicRef":"#%6E"}}}}', ["[[1],2]"],
     [('[["a"]]', "/0/0", "/prefixItems/0/$ref/items/$dynamicRef/type"), ('[[],"a"]', "/1", "/prefixItems/1/$dynamicRef/type")]),
    ('{"$id":"https://example.com/a","items":{"$dynamicRef":"a#n"},"$defs":{"n":{"$dynamicAnchor":"n","type":"null"}}}', ["[null]"], [("[1]", "/0", "/items/$dynamicRef/type")]),
    # A `$ref` leads to the name that it says, where two that have led to it have the name too; each names the items.
    ('{"prefixItems":[{"$ref":"ints"},{"$ref":"words"}],"$defs":{"ints":{"$id":"ints","$ref":"list","$defs":{"T":{"$dynamicAnchor":"T","type":"integer"},"item":{"$dynamicAnchor":"item"}}},'
     '"words":{"$id":"words","$ref":"list","$defs":{"T":{"$dynamicAnchor":"T","type":"string"},"item":{"$dynamicAnchor":"item"}}},"list":{"$id":"list","items":{"$ref":"other#item"}},'
     '"other":{"$id":"other","$defs":{"T":{"$dynamicAnchor":"T"},"item":{"$dynamicAnchor":"item","items":{"$dynamicRef":"#T"}}}}}}', ['[[[1],[]],[["a"]]]', "[[]]"],
     [('[[["a"]]]', "/0/0/0", "/prefixItems/0/$ref/$ref/items/$ref/items/$dynamicRef/type"), ('[[],[["a"],[1]]]', "/1/1/0", "/prefixItems/1/$ref/$ref/items/$ref/items/$dynamicRef/type")]),
    # A `$ref` leads to the name that it says.
    ('{"$id":"https://example.com/a","items":{"$ref":"b#n"},"$defs":{"n":{"$dynamicAnchor":"n","type":"integer"},"b":{"$id":"b","$dynamicAnchor":"n","type":"string"}}}', ['["a"]'], [("[1]", "/0", "/items/$ref/type")]),
]

# Core, 8.2.1 and 9.3: schema resources in a document. Most are those of `ref.json`, `anchor.json` and `refRemote.json` in the official suite whose
# resources stand in one document.
RESOURCES = [
    *((IDENTIFIED % f'"{uri}"', [f'["{name}"]'], [('["Z"]', "/0", "/items/$ref/const")]) for name, *uris in IDENTIFIERS for uri in uris),
    *(('{"$id":"https://example.com/root.json","type":"array","items":{"$ref":"%s"},"$defs":{"a":{"$id":"b"}}}' % uri, ["[[],[[]]]"], [("[[1]]", "/0/0", "/items/$ref/items/$ref/type")])
      for uri in ("https://example.com/root.json", "https://example.com/root.json#", "root.json", "./a/../root.json#", "", "#")),
    ('{"$id":"http://example.com/schema-relative-uri-defs1.json","properties":{"foo":{"$id":"schema-relative-uri-defs2.json","$defs":{"inner":{"properties":{"bar":{"type":"string"}}}},"$ref":"#/$defs/inner"}},'
     '"$ref":"schema-relative-uri-defs2.json"}', ['{"foo":{"bar":"a"},"bar":"a"}'],
     [('{"foo":{"bar":1},"bar":"a"}', "/foo/bar", "/properties/foo/$ref/properties/bar/type"), ('{"foo":{"bar":"a"},"bar":1}', "/bar", "/$ref/$ref/properties/bar/type")]),
    ('{"$id":"http://example.com/a.json","$defs":{"x":{"$id":"http://example.com/b/c.json","not":{"$defs":{"y":{"$id":"d.json","type":"number"}}}}},"allOf":[{"$ref":"http://example.com/b/d.json"}]}',
     ["1"], [('"a"', "", "/allOf/0/$ref/type")]),
    ('{"$id":"https://example.com/draft2020-12/ref-and-id1/base.json","$ref":"int.json","$defs":{"bigint":{"$id":"/draft2020-12/ref-and-id1/int.json","maximum":10},'
     '"smallint":{"$id":"/draft2020-12/ref-and-id1-int.json","maximum":2}}}', ["5"], [("50", "", "/$ref/maximum")]),
    ('{"$id":"https://example.com/draft2020-12/ref-and-id2/base.json","$ref":"#bigint","$defs":{"bigint":{"$anchor":"bigint","maximum":10},"smallint":{"$id":"https://example.com/draft2020-12/ref-and-id2/",'
     '"$anchor":"bigint","maximum":2}}}', ["5"], [("50", "", "/$ref/maximum")]),
    ('{"$id":"http://example.com/ref/absref.json","$defs":{"a":{"$id":"http://example.com/ref/absref/foobar.json","type":"number"},"b":{"$id":"http://example.com/absref/foobar.json","type":"string"}},'
     '"$ref":"/absref/foobar.json"}', ['"a"'], [("1", "", "/$ref/type")]),
    ('{"$id":"urn:uuid:deadbeef-1234-ff00-00ff-4321feebdaed","properties":{"foo":{"$ref":"urn:uuid:deadbeef-1234-ff00-00ff-4321feebdaed#something"}},"$defs":{"bar":{"$anchor":"something","type":"string"}}}',
     ['{"foo":"a"}'], [('{"foo":1}', "/foo", "/properties/foo/$ref/type")]),
    ('{"$ref":"http://localhost:1234/draft2020-12/bar#foo","$defs":{"A":{"$id":"http://localhost:1234/draft2020-12/bar","$anchor":"foo","type":"integer"}}}', ["1"], [('"a"', "", "/$ref/type")]),
    ('{"$id":"http://localhost:1234/draft2020-12/root","$ref":"http://localhost:1234/draft2020-12/nested.json#foo","$defs":{"A":{"$id":"nested.json","$defs":{"B":{"$anchor":"foo","type":"integer"}}}}}',
     ["1"], [('"a"', "", "/$ref/type")]),
    ('{"$id":"http://localhost:1234/draft2020-12/foobar","$defs":{"A":{"$id":"child1","allOf":[{"$id":"child2","$anchor":"my_anchor","type":"number"},{"$anchor":"my_anchor","type":"string"}]}},"$ref":"child1#my_anchor"}',
     ['"a"'], [("1", "", "/$ref/type")]),
    # Without a base: the names of the resources are resolved from one another.
    ('{"prefixItems":[{"$ref":"a/b"},{"$ref":"a/c#/$defs/d"},{"$ref":"#/$defs/x/$defs/y"}],"$defs":{"x":{"$id":"a/b","$defs":{"y":{"$id":"c","$defs":{"d":{"type":"string"}},"maximum":9}},"$ref":"c"}}}',
     ['[9,"a",9]'], [("[10]", "/0", "/prefixItems/0/$ref/$ref/maximum"), ("[1,1]", "/1", "/prefixItems/1/$ref/type"), ("[1,\"a\",10]", "/2", "/prefixItems/2/$ref/maximum")]),
    # A fragment alone stays in its resource, also below keys that are escaped; what is percent-encoded is decoded once.
    ('{"$defs":{"a/b~c%25":{"$id":"x","$defs":{"~/%":{"type":"null"}},"items":{"$ref":"#/$defs/~0~1%25"},"contains":{"$ref":"x#%2F$defs%2F%7E0%7E1%25"}}},"$ref":"x"}',
     ["[null]"], [("[1,null]", "/0", "/$ref/items/$ref/type"), ("[]", "", "/$ref/contains")]),
    ('{"$id":"https://example.com/a","$defs":{"n":{"$anchor":"n","type":"null"},"b":{"$id":"b","$defs":{"n":{"$anchor":"n","type":"string"}},"items":{"$ref":"#%6E"}}},"prefixItems":[{"$ref":"b"},{"$ref":"#n"}]}',
     ['[["a"],null]'], [("[[null]]", "/0/0", "/prefixItems/0/$ref/items/$ref/type"), ('[[],"a"]', "/1", "/prefixItems/1/$ref/type")]),
    # A pointer of `$dynamicRef`, which leads where `$ref` would.
    ('{"$defs":{"a":{"$id":"a","$defs":{"n":{"type":"null"}},"items":{"$dynamicRef":"#/$defs/n"}}},"$dynamicRef":"a"}', ["[null]"], [("[1]", "/0", "/$dynamicRef/items/$dynamicRef/type")]),
    # In each schema in the schema.
    *(("{" + schema % '{"$id":"x","type":"null"}' + ',"properties":{"k":{"$ref":"x"}}}', ['{"k":null}'], [('{"k":1}', "/k", "/properties/k/$ref/type")])
      for schema in ('"$defs":{"a":%s}', '"allOf":[true,{"items":%s}]', '"anyOf":[true,%s]', '"oneOf":[true,%s]', '"not":%s', '"if":%s', '"then":%s', '"else":%s', '"items":%s', '"prefixItems":[{},%s]',
                     '"contains":%s', '"additionalProperties":%s', '"propertyNames":{"items":%s}', '"dependentSchemas":{"z":%s}', '"patternProperties":{"^z":%s}', '"contentSchema":%s')),
]

# The list is reached in two dynamic scopes, so it is copied. The last property has a reference by a pointer into `$defs`.
COPIED = ('{"properties":{"s":{"$ref":"s"},"t":{"$ref":"t"},"u":{"$ref":"#/$defs/%s"}},"$defs":{'
          '"l":{"$id":"l","items":{"$dynamicRef":"#n"},"$defs":{"n":{"$dynamicAnchor":"n"}}},'
          '"s":{"$id":"s","$ref":"l","$defs":{"n":{"$dynamicAnchor":"n","type":"string"}}},'
          '"t":{"$id":"t","$ref":"l","$defs":{"n":{"$dynamicAnchor":"n","type":"boolean"}}}}}')

# Two resources with one URI, an `$id` with a fragment or that is no text, a name that a resource has twice, and references that lead to none in the document.
REFUSED_RESOURCES = [
    ('{"$defs":{"a":{"$id":"x"},"b":{"$id":"x"}}}', "/$defs/b/$id"), ('{"$id":"https://example.com/a","$defs":{"a":{"$id":"a"}}}', "/$defs/a/$id"), ('{"$defs":{"a":{"$id":""}}}', "/$defs/a/$id"),
    ('{"$defs":{"a":{"$id":"x#y"}}}', "/$defs/a/$id"), ('{"$defs":{"a":{"$id":5}}}', "/$defs/a/$id"), ('{"$defs":{"a":{"$id":5},"b":{"$id":"b"}}}', "/$defs/a/$id"),
    ('{"$defs":{"a":{"$id":"x","$defs":{"b":{"$anchor":"n"},"c":{"$anchor":"n"}}}}}', "/$defs/a/$defs/c/$anchor"), ('{"$defs":{"a":{"$id":"x","$anchor":"1"}}}', "/$defs/a/$anchor"),
    ('{"$defs":{"a":{"$id":"x","$anchor":5}}}', "/$defs/a/$anchor"),
    ('{"$ref":"#n","$defs":{"a":{"$id":"x","$anchor":"n"}}}', "/$ref"), ('{"$defs":{"a":{"$anchor":"n"},"b":{"$id":"b","$ref":"#n"}}}', "/$defs/b/$ref"),
    ('{"$id":"https://example.com/a","$ref":"b#/$defs/z","$defs":{"b":{"$id":"b"}}}', "/$ref"), ('{"$id":"https://example.com/a","$ref":"c","$defs":{"b":{"$id":"b"}}}', "/$ref"),
    ('{"$defs":{"a":{"type":"null"},"b":{"$id":"b","$ref":"#/$defs/a"}}}', "/$defs/b/$ref"), ('{"$defs":{"b":{"$id":"b","$ref":"#"}}}', "/$defs/b/$ref"),
    ('{"$ref":"x","enum":[{"$id":"x"}]}', "/$ref"), ('{"$ref":"x","const":{"$id":"x"}}', "/$ref"), ('{"$ref":"x","properties":{"$id":{"$anchor":"x"}}}', "/$ref"),
    # There is none with the name; a resource has it twice.
    ('{"$defs":{"a":{"$id":"a","$dynamicAnchor":"n"}},"$dynamicRef":"a#m"}', "/$dynamicRef"),
    ('{"$defs":{"a":{"$id":"a","$dynamicAnchor":"n"}},"$dynamicRef":"#n"}', "/$dynamicRef"), ('{"$defs":{"n":{"$anchor":"n"},"o":{"$dynamicAnchor":"n"},"b":{"$id":"b"}}}', "/$defs/o/$dynamicAnchor"),
    # It names a key that a copy could have.
    *[(COPIED % name, "/properties/u/$ref") for name in ("zz0", "zz1", "zzz0", "%7A%7a0", "z%7A1", "zzzz0")],
    ('{"$ref":"x#y z","$defs":{"a":{"$id":"x"}}}', "/$ref"), ('{"$ref":"x#1","allOf":[{"$id":"x"}]}', "/$ref"), ('{"$ref":"x#%FF","$defs":{"a":{"$id":"x"}}}', "/$ref"), ('{"$ref":"x#%2","$defs":{"a":{"$id":"x"}}}', "/$ref"),
]

# The URIs of drafts 4, 6, 7 and 2019-09, as schemas spell them.
SPELLED = ["http://json-schema.org/%s/schema#", "http://json-schema.org/%s/schema", "https://json-schema.org/%s/schema#", "https://json-schema.org/%s/schema"]

# Schemas of drafts 4, 6 and 7, without their `$schema`; most are of the official suite. Places are in the words of 2020-12.
OLD_DRAFTS = [
    # Validation, 6.4.1 and 6.4.2 (draft 6: 6.9 and 6.10; draft 4: 5.3.1): `items` is a schema, or an array with `additionalItems` for the rest.
    ('{"items":{"type":"integer"}}', ["[1,2,3]", "[]", '{"foo":"bar"}'], [('[1,"x"]', "/1", "/items/type")]),
    ('{"items":[{"type":"integer"},{"type":"string"}]}', ['[1,"foo"]', "[1]", '[1,"foo",true]', "[]", '{"0":"invalid","1":"valid","length":2}'], [('["foo",1]', "/0", "/prefixItems/0/type")]),
    ('{"items":[{}],"additionalItems":{"type":"integer"}}', ["[null,2,3,4]", "[null]"], [('[null,2,3,"foo"]', "/3", "/items/type")]),
    ('{"items":[{},{},{}],"additionalItems":false}', ["[1,2,3]", "[]"], [("[1,2,3,4]", "/3", "/items")]),
    ('{"items":{},"additionalItems":false}', ["[1,2,3,4,5]"], []),
    ('{"additionalItems":false}', ["[1,2,3,4,5]", '{"foo":"bar"}'], []),
    # 6.5.7 (draft 6: 6.21; draft 4: 5.4.5): of `dependencies` a list asks for members, and a schema is for the whole value.
    ('{"dependencies":{"bar":["foo"]}}', ["{}", '{"foo":1}', '{"foo":1,"bar":2}', '["bar"]', '"foobar"', "12"], [('{"bar":2}', "", "/dependentRequired")]),
    ('{"dependencies":{"bar":[]}}', ["{}", '{"bar":2}'], []),
    ('{"dependencies":{"quux":["foo","bar"]}}', ["{}", '{"foo":1,"bar":2}', '{"foo":1,"bar":2,"quux":3}'], [('{"foo":1,"quux":2}', "", "/dependentRequired"), ('{"quux":1}', "", "/dependentRequired")]),
    ('{"dependencies":{"bar":{"properties":{"foo":{"type":"integer"},"bar":{"type":"integer"}}},"a":["b"]}}', ['{"foo":1,"bar":2}', '{"foo":"quux"}', '{"a":1,"b":1}'],
     [('{"foo":"quux","bar":2}', "/foo", "/dependentSchemas/bar/properties/foo/type"), ('{"a":1}', "", "/dependentRequired")]),
    # Core, 8.3 (draft 6: 8; draft 4: JSON Reference, 3): `$ref` hides what is beside it, but not the schemas that references lead to.
    ('{"definitions":{"reffed":{"type":"array"}},"properties":{"foo":{"$ref":"#/definitions/reffed","maxItems":2}}}', ['{"foo":[]}', '{"foo":[1,2,3]}'], [('{"foo":"string"}', "/foo", "/properties/foo/$ref/type")]),
    ('{"$ref":"#/definitions/a","type":"string","definitions":{"a":{"$ref":"#/$defs/b","minimum":5}},"$defs":{"b":{"type":"integer"}}}', ["1"], [('"a"', "", "/$ref/$ref/type")]),
    ('{"properties":{"$ref":{"type":"string"}}}', ['{"$ref":"a"}'], [('{"$ref":2}', "/$ref", "/properties/$ref/type")]),
    ('{"properties":{"a":{"$ref":"#/definitions/n"}},"definitions":{"n":{"items":[{"type":"null"}]}}}', ['{"a":[null]}'], [('{"a":[1]}', "/a/0", "/properties/a/$ref/prefixItems/0/type")]),
    ('{"properties":{"a":{"items":{"type":"null"}},"b":{"$ref":"#/properties/a/items"}}}', ['{"b":null}'], [('{"b":1}', "/b", "/properties/b/$ref/type")]),
    # Validation, 6.5.6 (draft 4: 5.4.4).
    ('{"properties":{"foo":{}},"patternProperties":{"^v":{}},"additionalProperties":false}', ['{"foo":1}', '{"foo":1,"vroom":2}', "[1,2,3]"], [('{"foo":1,"quux":"boom"}', "/quux", "/additionalProperties")]),
    ('{"additionalProperties":{"type":"boolean"}}', ['{"foo":true}'], [('{"foo":1}', "/foo", "/additionalProperties/type")]),
]

# The same of drafts 6 and 7.
BOTH_DRAFTS = [
    # Core, 4.3.1: the schemas that are truth values.
    ('{"items":[true,false]}', ["[1]", "[]"], [('[1,"foo"]', "/1", "/prefixItems/1")]),
    ('{"dependencies":{"foo":true,"bar":false}}', ['{"foo":1}', "{}"], [('{"bar":2}', "", "/dependentSchemas/bar"), ('{"foo":1,"bar":2}', "", "/dependentSchemas/bar")]),
    # Core, 8.2: an `$id` is a name, or a URI with an empty fragment or none.
    ('{"allOf":[{"$ref":"#foo"}],"definitions":{"A":{"$id":"#foo","type":"integer"}}}', ["1"], [('"a"', "", "/allOf/0/$ref/type")]),
    ('{"$id":"http://localhost:1234/root","allOf":[{"$ref":"http://localhost:1234/nested.json#foo"}],"definitions":{"A":{"$id":"nested.json#","definitions":{"B":{"$id":"#foo","type":"integer"}}}}}',
     ["1"], [('"a"', "", "/allOf/0/$ref/type")]),
    ('{"properties":{"a":{"$id":"#/properties/a","type":"null"}}}', ['{"a":null}'], [('{"a":1}', "/a", "/properties/a/type")]),
    ('{"properties":{"a":{"$ref":"#/definitions/b","$id":"c"}},"definitions":{"b":{"type":"null"}}}', ['{"a":null}'], [('{"a":1}', "/a", "/properties/a/$ref/type")]),
    # What both drafts have as 2020-12 does.
    ('{"contains":{"minimum":5}}', ["[3,4,5]", "{}"], [("[2,3,4]", "", "/contains"), ("[]", "", "/contains")]),
    ('{"propertyNames":{"maxLength":3}}', ['{"f":{},"foo":{}}', "[1]"], [('{"foo":{},"foobar":{}}', "", "/propertyNames")]),
    ('{"exclusiveMaximum":3.0}', ["2.2"], [("3.0", "", "/exclusiveMaximum")]),
    ('{"const":2}', ["2.0"], [("5", "", "/const")]),
]

# What draft 7 alone has (Validation, 6.6).
DRAFT_7 = [
    ('{"if":{"exclusiveMaximum":0},"then":{"minimum":-10},"else":{"multipleOf":2}}', ["-1", "4"], [("-100", "", "/then/minimum"), ("3", "", "/else/multipleOf")]),
]

# The same of draft 4.
DRAFT_4 = [
    # Validation, 5.1.2 and 5.1.3: a limit is excluded by a boolean.
    ('{"maximum":3.0,"exclusiveMaximum":true}', ["2.2", '"x"'], [("3.0", "", "/exclusiveMaximum"), ("3.5", "", "/exclusiveMaximum")]),
    ('{"maximum":3.0,"exclusiveMaximum":false}', ["2.6", "3.0"], [("3.5", "", "/maximum")]),
    ('{"maximum":3.0}', ["2.6", "3.0"], [("3.5", "", "/maximum")]),
    ('{"minimum":1.1,"exclusiveMinimum":true}', ["1.2", "null"], [("1.1", "", "/exclusiveMinimum"), ("0.6", "", "/exclusiveMinimum")]),
    ('{"minimum":1.1,"exclusiveMinimum":false}', ["2.6", "1.1"], [("0.6", "", "/minimum")]),
    ('{"minimum":0,"maximum":9,"exclusiveMaximum":true}', ["0", "8.9"], [("9", "", "/exclusiveMaximum"), ("-1", "", "/minimum")]),
    ('{"properties":{"a":{"minimum":0,"maximum":9,"exclusiveMinimum":true}}}', ['{"a":9}'], [('{"a":0}', "/a", "/properties/a/exclusiveMinimum"), ('{"a":10}', "/a", "/properties/a/maximum")]),
    # Core, 7.2: `id` is a name, or a URI.
    ('{"allOf":[{"$ref":"#foo"}],"definitions":{"A":{"id":"#foo","type":"integer"}}}', ["1"], [('"a"', "", "/allOf/0/$ref/type")]),
    ('{"id":"http://localhost:1234/root","allOf":[{"$ref":"http://localhost:1234/nested.json#foo"}],"definitions":{"A":{"id":"nested.json#","definitions":{"B":{"id":"#foo","type":"integer"}}}}}',
     ["1"], [('"a"', "", "/allOf/0/$ref/type")]),
    ('{"id":"http://localhost:1234/sibling_id/base/","definitions":{"foo":{"id":"http://localhost:1234/sibling_id/foo.json","type":"string"},"base_foo":{"id":"foo.json","type":"number"}},'
     '"allOf":[{"$ref":"foo.json","id":"http://localhost:1234/sibling_id/"}]}', ["1"], [('"a"', "", "/allOf/0/$ref/type")]),
    ('{"definitions":{"a":{"id":"b","definitions":{"c":{"type":"null"}},"items":{"$ref":"#/definitions/c"}}},"$ref":"b"}', ["[null]"], [("[1]", "/0", "/$ref/items/$ref/type")]),
    ('{"properties":{"id":{"type":"null"},"a":{"enum":[{"id":"b"},{"id":"b"}]}}}', ['{"id":null,"a":{"id":"b"}}'], [('{"id":1}', "/id", "/properties/id/type")]),
]

# The same of 2019-09.
DRAFT_2019 = [
    # Core, 9.3.1: `items` and `additionalItems` as in draft 7.
    ('{"items":[{"type":"integer"},{"type":"string"}]}', ['[1,"foo"]', "[1]", '[1,"foo",true]', "[]"], [('["foo",1]', "/0", "/prefixItems/0/type")]),
    ('{"items":[{}],"additionalItems":{"type":"integer"}}', ["[null,2,3,4]"], [('[null,2,3,"foo"]', "/3", "/items/type")]),
    ('{"items":{},"additionalItems":false}', ["[1,2,3,4,5]"], []),
    # 8.2.4.1: what is beside `$ref` applies, too.
    ('{"$defs":{"reffed":{"type":"array"}},"properties":{"foo":{"$ref":"#/$defs/reffed","maxItems":2}}}', ['{"foo":[]}', '{"foo":[1,2]}'],
     [('{"foo":"string"}', "/foo", "/properties/foo/$ref/type"), ('{"foo":[1,2,3]}', "/foo", "/properties/foo/maxItems")]),
    ('{"$id":"http://localhost/a","$ref":"b","$defs":{"b":{"$id":"b","$ref":"#/$defs/c","$defs":{"c":{"type":"null"}}}}}', ["null"], [("1", "", "/$ref/$ref/type")]),
    # What came with it.
    ('{"$ref":"#foo","$defs":{"A":{"$anchor":"foo","type":"integer"}}}', ["1"], [('"a"', "", "/$ref/type")]),
    ('{"dependentRequired":{"bar":["foo"]}}', ['{"foo":1,"bar":2}'], [('{"bar":2}', "", "/dependentRequired")]),
    ('{"dependentSchemas":{"bar":{"properties":{"foo":{"type":"integer"}}}}}', ['{"foo":1,"bar":2}'], [('{"foo":"a","bar":2}', "/foo", "/dependentSchemas/bar/properties/foo/type")]),
    ('{"contains":{"const":1},"minContains":2,"maxContains":3}', ["[1,1]", "[1,1,1,2]"], [("[1]", "", "/minContains"), ("[1,1,1,1]", "", "/maxContains")]),
    ('{"properties":{"foo":{"type":"string"}},"unevaluatedProperties":false}', ['{"foo":"foo"}'], [('{"foo":"foo","bar":"bar"}', "/bar", "/unevaluatedProperties")]),
    # `dependencies` of draft 7.
    ('{"dependencies":{"bar":["foo"],"a":{"required":["b"]}}}', ['{"foo":1,"bar":2}', '{"a":1,"b":1}'], [('{"bar":2}', "", "/dependentRequired"), ('{"a":1}', "", "/dependentSchemas/a/required")]),
    # 8.2.4.2: a recursive reference leads to its resource, and if that has `$recursiveAnchor`, to the outermost one that has it.
    ('{"properties":{"foo":{"$recursiveRef":"#"}},"additionalProperties":false}', ['{"foo":false}', '{"foo":{"foo":false}}'],
     [('{"bar":false}', "/bar", "/additionalProperties"), ('{"foo":{"bar":false}}', "/foo/bar", "/properties/foo/$dynamicRef/additionalProperties")]),
    ('{"$id":"http://localhost:4242/recursiveRef2/schema.json","$defs":{"myobject":{"$id":"myobject.json","$recursiveAnchor":false,"anyOf":[{"type":"string"},{"type":"object","additionalProperties":{"$recursiveRef":"#"}}]}},'
     '"anyOf":[{"type":"integer"},{"$ref":"#/$defs/myobject"}]}', ["1", '{"foo":"hi"}', '{"foo":{"bar":"hi"}}'], [('{"foo":1}', "", "/anyOf"), ('{"foo":{"bar":1}}', "", "/anyOf")]),
    ('{"$id":"http://localhost:4242/recursiveRef3/schema.json","$recursiveAnchor":true,"$defs":{"myobject":{"$id":"myobject.json","$recursiveAnchor":true,"anyOf":[{"type":"string"},{"type":"object",'
     '"additionalProperties":{"$recursiveRef":"#"}}]}},"anyOf":[{"type":"integer"},{"$ref":"#/$defs/myobject"}]}', ["1", '{"foo":"hi"}', '{"foo":1}', '{"foo":{"bar":1}}'], [('{"foo":true}', "", "/anyOf")]),
    ('{"$id":"http://localhost:4242/recursiveRef7/schema.json","$recursiveAnchor":true,"$defs":{"myobject":{"$id":"myobject.json","anyOf":[{"type":"string"},{"type":"object",'
     '"additionalProperties":{"$recursiveRef":"#"}}]}},"anyOf":[{"type":"integer"},{"$ref":"#/$defs/myobject"}]}', ["1", '{"foo":"hi"}'], [('{"foo":1}', "", "/anyOf")]),
]

# What is rejected in 2019-09 alone: keywords of 2020-12, names and marks of other places, and what would be two keywords of one name.
REFUSED_2019 = [
    ('{"prefixItems":[{}]}', "/prefixItems"), ('{"$dynamicRef":"#"}', "/$dynamicRef"), ('{"$dynamicAnchor":"a"}', "/$dynamicAnchor"), ('{"unevaluatedItems":false}', "/unevaluatedItems"),
    ('{"dependencies":{},"dependentRequired":{}}', "/dependentRequired"), ('{"dependencies":{},"dependentSchemas":{}}', "/dependentSchemas"), ('{"items":[{}],"not":{"$ref":"#/items"}}', "/not/$ref"),
    ('{"$recursiveRef":"a"}', "/$dynamicRef"), ('{"$recursiveRef":5}', "/$dynamicRef"), ('{"$recursiveAnchor":5}', "/$dynamicAnchor"), ('{"not":{"$recursiveAnchor":true}}', "/not/$dynamicAnchor"),
    ('{"$recursiveAnchor":true,"not":{"$recursiveAnchor":true}}', "/$dynamicAnchor"), ('{"$recursiveAnchor":true,"not":{"$ref":"#_recursiveAnchor"}}', "/not/$ref"),
    ('{"$recursiveAnchor":true,"not":{"$ref":"#%5FrecursiveAnchor"}}', "/not/$ref"), ('{"not":{"$schema":"http://json-schema.org/draft-07/schema#"}}', "/not/$schema"),
]

# What is rejected in draft 4 alone: keywords of draft 6, booleans in place of schemas, and a boolean beside no limit.
REFUSED_DRAFT_4 = [
    ('{"const":1}', ""), ('{"properties":{"a":{"const":1}}}', "/properties/a"), ('{"contains":{}}', "/contains"), ('{"propertyNames":{}}', "/propertyNames"), ('{"if":{}}', "/if"), ('{"$id":"a"}', "/$id"), ('{"id":"b","$id":"a"}', "/$id"),
    ('{"not":true}', "/not"), ('{"not":false}', "/not"), ('{"items":[{},false]}', "/prefixItems/1"), ('{"properties":{"a":true}}', "/properties/a"), ('{"dependencies":{"a":false}}', "/dependentSchemas/a"),
    ('{"exclusiveMaximum":3}', "/exclusiveMaximum"), ('{"maximum":4,"exclusiveMaximum":3}', "/exclusiveMaximum"), ('{"exclusiveMaximum":true}', "/exclusiveMaximum"), ('{"exclusiveMinimum":true,"maximum":1}', "/exclusiveMinimum"),
    ('{"id":5}', "/$id"), ('{"definitions":{"a":{"id":"b#c"}}}', "/definitions/a/$id"), ('{"not":{"$schema":"http://json-schema.org/draft-06/schema#"}}', "/not/$schema"), ('{"minimum":"1","exclusiveMinimum":true}', "/exclusiveMinimum"),
]

# What is rejected in all three: keywords of later drafts that would say something, also beside what becomes one; and references that lead to
# an array at `items`, or may.
REFUSED_DRAFTS = [
    ('{"unevaluatedProperties":false}', "/unevaluatedProperties"), ('{"prefixItems":[true]}', "/prefixItems"), ('{"dependentRequired":{"a":["b"]}}', "/dependentRequired"),
    ('{"properties":{"a":{"$anchor":"b"}}}', "/properties/a/$anchor"), ('{"minContains":2}', "/minContains"), ('{"$dynamicAnchor":"a"}', "/$dynamicAnchor"),
    ('{"items":[true],"prefixItems":[false]}', "/prefixItems"), ('{"dependencies":{},"dependentSchemas":{}}', "/dependentSchemas"), ('{"$id":"#a","$anchor":"b"}', "/$anchor"),
    ('{"items":[true],"additionalItems":{},"not":{"$ref":"#/items"}}', "/not/$ref"), ('{"items":[true],"additionalItems":{"not":{}},"not":{"$ref":"#/%69tems/not"}}', "/not/$ref"),
    ('{"items":[true],"not":{"$ref":"http://a/b#/items"}}', "/not/$ref"), ('{"additionalItems":{},"not":{"$ref":"#/additionalItems"}}', "/not/$ref"),
    ('{"items":[]}', "/prefixItems"), ('{"dependencies":{"a":5}}', "/dependentSchemas/a"), ('{"dependencies":{"a":["b","b"]}}', "/dependentRequired"), ('{"dependencies":[]}', "/dependentRequired"),
    ('{"definitions":{"a":{"type":"any"}}}', "/definitions/a/type"), ('{"$ref":5,"type":"any"}', "/$ref"), ('{"items":{"$schema":"https://json-schema.org/draft/2020-12/schema"}}', "/items/$schema"),
]

# Schemas with names that are no keywords, and those that are told: each once, in the order of bytes.
UNKNOWN = [
    ('{"maximun":3,"type":"integer"}', ["maximun"]),
    ('{"z":1,"items":{"z":{"w":2},"allOf":[{"y":0,"z":3},{"a":[]}]}}', ["a", "y", "z"]),
    # Names of older drafts, and other spellings.
    ('{"definitions":{"a":{"b":1}},"dependencies":{},"additionalItems":true,"id":"a","Type":1,"type ":1}', ["Type", "additionalItems", "b", "dependencies", "id", "type "]),
    # In the schemas of each keyword that has some.
    ('{"not":{"a":1,"type":"null"},"if":{"b":1},"then":{"c":1},"else":{"d":1},"items":{"e":1},"contains":{"f":1},"additionalProperties":{"g":1},"propertyNames":{"h":1},"contentSchema":{"i":1}}', list("abcdefghi")),
    ('{"allOf":[{"a":1},{"b":1}],"anyOf":[true,{"c":1}],"oneOf":[{"d":1},false],"prefixItems":[{},{"e":{}}]}', list("abcde")),
    ('{"$defs":{"k":{"a":1}},"properties":{"k":{"b":1},"l":{"c":1}},"dependentSchemas":{"k":{"d":1}},"patternProperties":{"k":{"e":1}}}', list("abcde")),
    # A schema stands there alone: other names are those of members, and data has none.
    ('{"properties":{"x":{}},"$defs":{"y":true},"dependentSchemas":{"w":{}},"patternProperties":{"n":{}},"dependentRequired":{"v":["u"]},"required":["t"],"enum":[1,{"s":1}],'
     '"const":1,"default":{"r":1},"examples":[{"q":1}],"p":{"o":1}}', ["p"]),
    # Shown as one line.
    ('{"":1,"b\\nvalid\\u001b\\u007f\\u009b":2,"\u00e9\\"":3}', ["", "bU+000AvalidU+001BU+007FU+009B", '\u00e9"']),
]

# Validation, 7.3: of each format that `-f` checks, texts that have it and texts that have not, by its RFC. Most are those of the official
# suite.
FORMATS = [
    ("date", ["1963-06-19", "2024-02-29", "2000-02-29"], ["2024-02-30", "2023-02-29", "1900-02-29", "2020-13-01", "06/19/1963", "1963-6-19", "1963-06-1৪", ""]),
    ("time", ["08:30:06Z", "08:30:06.283185z", "23:59:60Z", "15:59:60-08:00"], ["08:30:06", "24:00:00Z", "00:60:00Z", "23:58:60Z", "01:02:03+24:00", "8:30:06Z"]),
    ("date-time", ["1963-06-19T08:30:06.283185Z", "1998-12-31T23:59:60Z", "1937-01-01t12:00:27.87+00:20"], ["1998-12-31T23:58:60Z", "1990-02-31T15:59:59.123-08:00", "1963-06-19 08:30:06Z", "1963-06-19"]),
    ("duration", ["P4DT12H30M5S", "PT36H", "P4Y", "P2W"], ["PT1D", "P", "P1YT", "P2D1Y", "P1", "P1Y2W", "4DT12H"]),
    ("email", ["joe.bloggs@example.com", "te~st@example.com", "joe@[127.0.0.1]"], ["2962", ".test@example.com", "te..st@example.com", "joe@[127.0.0.300]"]),
    ("hostname", ["www.example.com", "xn--4gbwdl.xn--wgbh1c", "h0st", "a" * 63], ["-a", "a-", "not_a_name", "a" * 64, "a..b"]),
    ("ipv4", ["192.168.0.1", "0.0.0.0", "255.255.255.255"], ["256.256.256.256", "127.0.0.0.1", "127.0", "087.10.0.1", "0x7f.0.0.1", "1.2.3.4/24"]),
    ("ipv6", ["::1", "::", "1:d6::42", "::ffff:192.168.0.1", "a:b:c:d:e:f:0:1"], ["12345::", "1:1:1:1:1:1:1:1:1", "1::d6::42", ":2:3:4:5:6:7:8", "::1%eth0", "::laptop"]),
    ("uri", ["http://foo.bar/?baz=qux#quuz", "urn:oasis:names:specification:docbook:dtd:xml:4.1.2", "ftp://[2001:db8::7]/c"], ["//foo.bar/?baz=qux#quuz", "/abc", "http:// shouldfail.com", "bar,baz:a b", "http://a/%"]),
    ("uri-reference", ["/abc", "#fragment", "//foo.bar/?baz=qux#quuz", "", "http://a/b"], ["\\\\WINDOWS\\fileshare", "#frag\\ment", "1:a"]),
    # RFC 6570: examples of 1.2 and 3.2, and the grammar of 2.
    ("uri-template", ["http://example.com/dictionary/{term:1}/{term}", "dictionary", "", "http://www.example.com/foo{?query,number}", "{+path:6}/here", "X{.list*}",
                      "{;keys*}{&x,y}{#x,hello,y}{/var:1,var}", "{!a}{|b}{=c}{@d}{,e}", "{a.b_1.%41}", "{a:9999}", "%20~\u00e9\u20ac\U0001f600"],
     ["http://example.com/dictionary/{term:1}/{term", "{", "}", "{}", "{?}", "{a}}", "{{a}}", "{a:0}", "{a:10000}", "{a:}", "{a*b}", "{a:1*}", "{a..b}", "{.}", "{a,}", "{a b}",
      "{\u00e9}", "{a%4}", "a b", "%2", "%zz", "a\"b", "'", "<a>", "a\\b", "^", "`", "|", "\u007f", "\u0080", "\ufdd0", "\ufff0", "\U0001ffff", "\U000e0001"]),
    ("uuid", ["2EB8AA08-aa98-11EA-B4Aa-73B441D16380", "00000000-0000-0000-0000-000000000000"], ["2eb8aa08-aa98-11ea-b4aa-73b441d1638", "2eb8aa08aa9811eab4aa73b441d16380", "2eb8aa08-aa98-11ea-b4ga-73b441d16380"]),
    ("json-pointer", ["", "/foo/bar~0/baz~1/%a", "//", "/ "], ["/foo/bar~", "#", "a", "/~2", "0/a"]),
    ("relative-json-pointer", ["1", "0/foo/bar", "0#", "120/foo/bar"], ["/foo/bar", "-1/foo/bar", "01/a", "0##", "", "+1/a"]),
    # ECMA-262, 22.2.1: more rows are in tests/support/regexp_rows.py.
    ("regex", ["([abc])+\\s+$", "", "^\\cC$", "(?<=a)b", "(?<x>a)\\k<x>", "\\p{Lu}[à-😀]"], ["^(abc]", "^\\S(|(.|\\n)*\\S)\\Z", "\\a", "\\c", "(?=a)*", "[b-a]", "\\1", "\\p{Foo}"]),
]

# Where `format` is asserted: the schema, values that are valid, and values that are not, each with the place in it and the keyword's.
ASSERTED = [
    ('{"format":"date"}', ["12", "null", "[]", '["x"]', '{"a":"x"}', "true"], []),
    ('{"type":"string","format":"date"}', ['"2024-01-01"'], [("5", "", "/type"), ('"5"', "", "/format")]),
    ('{"format":"none"}', ['"x"', '""'], []),
    ('{"items":{"format":"ipv4"}}', ['["1.2.3.4",5]'], [('["1.2.3.4","x"]', "/1", "/items/format")]),
    ('{"properties":{"a":{"$ref":"#/$defs/b"}},"$defs":{"b":{"format":"uuid"}}}', ['{"b":"x"}'], [('{"a":"x"}', "/a", "/properties/a/$ref/format")]),
    ('{"not":{"format":"date"}}', ['"x"'], [('"2024-01-01"', "", "/not"), ("1", "", "/not")]),
    ('{"anyOf":[{"format":"date"},{"format":"time"}]}', ['"2024-01-01"', '"08:30:06Z"'], [('"x"', "", "/anyOf")]),
    ('{"oneOf":[{"format":"uri"},{"format":"uri-reference"}]}', ['"/abc"'], [('"http://a"', "", "/oneOf")]),
    ('{"if":{"format":"date"},"then":{"maxLength":0},"else":{"minLength":3}}', ['"xyz"'], [('"2024-01-01"', "", "/then/maxLength"), ('"x"', "", "/else/minLength")]),
    ('{"contains":{"format":"json-pointer"},"propertyNames":{"format":"hostname"}}', ['["a",""]', '{"a-b":1}'], [('["a"]', "", "/contains"), ('{"a_b":1}', "", "/propertyNames")]),
    ('{"allOf":[{"properties":{"a":{"format":"date"}}}],"unevaluatedProperties":{"format":"time"}}', ['{"a":"2024-01-01","b":"08:30:06Z"}'],
     [('{"b":"x"}', "/b", "/unevaluatedProperties/format"), ('{"a":"x"}', "/a", "/allOf/0/properties/a/format")]),
    # Older drafts have it, too.
    *((of % '"items":{"format":"date"}', ['["2024-01-01",1]'], [('["x"]', "/0", "/items/format")])
      for of in ('{"$schema":"http://json-schema.org/draft-04/schema#",%s}', '{"$schema":"http://json-schema.org/draft-07/schema#",%s}', '{"$schema":"https://json-schema.org/draft/2019-09/schema",%s}')),
]

# Schemas, and the names of formats that are told: each once, in the order of bytes.
UNKNOWN_FORMATS = [
    ('{"format":"regexp","items":{"format":"color"},"properties":{"a":{"format":"regex"},"b":{"format":"color"}}}', ["color", "regexp"]),
    ('{"format":"Date","if":{"format":""},"allOf":[{"format":"b\\n\\u001b"}]}', ["", "Date", "bU+000AU+001B"]),
    # What is no schema has none.
    ('{"enum":[{"format":"x"}],"properties":{"format":{"const":{"format":"y"}}},"default":{"format":"z"}}', []),
]

# A schema, the lines of an input, the reports of it as the line, the place in the value and the keyword's, what is told of lines
# that can't be checked, and the status.
BY_LINES = [
    ("false", b"", [], [], 0),
    ('{"type":"integer"}', b"1\n2.0\n-3", [], [], 0),
    ('{"type":"integer"}', b'1\n"a"\n2\ntrue', [(2, "", "/type"), (4, "", "/type")], [], 1),
    ('{"type":"integer"}', b'"a"\n', [(1, "", "/type")], [], 1),
    # A carriage return is white space of the text, and an empty line is no text.
    ('{"type":"integer"}', b'1\r\n"a"\r\n\r2\r', [(2, "", "/type")], [], 1),
    ('{"type":"integer"}', b'1\n\n"a"\n \n', [(3, "", "/type")], ["line 2, col 0: Unexpected EOF", "line 4, col 1: Unexpected EOF"], 1),
    ("true", b"\n", [], ["line 1, col 0: Unexpected EOF"], 1),
    # After a line that can't be checked it goes on.
    ('{"type":"integer"}', b'[1,]\n"a"\n{\n3\n', [(2, "", "/type")], ["line 1, col 3: Invalid character: ]", "line 3, col 1: Unexpected EOF"], 1),
    ("true", b'1\n"\xff"\n[]\n\xc3', [], ["line 2: not UTF-8", "line 4: not UTF-8"], 1),
    ("true", b"[" * 101 + b"\n" + b"[" * 100 + b"]" * 100, [], ["line 1, col 100: Nesting is too deep at '['"], 1),
    ('{"items":{"allOf":[{"$ref":"#"}]}}', b"[" * 68 + b"]" * 68 + b"\n" + b"[" * 67 + b"]" * 67, [], ["line 1: schemas are nested too deep"], 1),
    # Nothing in a value ends a line.
    ('{"additionalProperties":false}', b'{"x\\nvalid":1}\n{"\\u001b":1}', [(1, "/x\nvalid", "/additionalProperties"), (2, "/\x1b", "/additionalProperties")], [], 1),
    ('{"items":{"properties":{"a":{"minimum":0}}}}', b'[{"a":0}]\n[{},{"a":-1}]', [(2, "/1/a", "/items/properties/a/minimum")], [], 1),
    # The steps of each line are counted anew: in all these take six million.
    (json.dumps({"enum": [*range(9_999, -1, -1)]}), b"0\n" * 600, [], [], 0),
    # More lines than 16 bits count.
    ('{"minimum":0}', b"0\n" * 70_000 + b"-1\n" + b"1", [(70_001, "", "/minimum")], [], 1),
    ('{"minimum":0}', b"-1\n" * 70_000 + b"x\n", [(i + 1, "", "/minimum") for i in range(70_000)], ["line 70001, col 0: Invalid character: x"], 1),
]

# What is printed of a value that is not valid, and told of a schema that can't be applied.
# The words of a report are compared in the rows of WORDS; elsewhere these stand for them.
UNMET = "unmet"
ERROR = re.compile(rb'"error":"(?:[^"\\]|\\.)*"')
# Where a schema can't be applied. The words behind the place are compared in the rows of REASONS, and left out elsewhere.
NOT_APPLIED = 'the schema: at "%s"'
REASON = re.compile(rb'(json_schema: the schema: at "(?:[^"\n]|"(?!: ))*"): [^\n]*\n')

ANY = "must be accepted by a schema of the list"
ONE = "must be accepted by exactly one schema of the list"

# The schema, a value that is not valid, the places in it and of the keyword, and the words.
WORDS = [
    # The names of types, each with its article; an integer is a number.
    ('{"type":"string"}', "1", "", "/type", "must be a string, is a number"),
    ('{"type":"integer"}', "1.5", "", "/type", "must be an integer, is a number"),
    ('{"type":"array"}', '"x"', "", "/type", "must be an array, is a string"),
    ('{"type":"null"}', "false", "", "/type", "must be null, is a boolean"),
    ('{"type":"boolean"}', "null", "", "/type", "must be a boolean, is null"),
    ('{"type":"number"}', "{}", "", "/type", "must be a number, is an object"),
    ('{"type":["object"]}', "[]", "", "/type", "must be an object, is an array"),
    ('{"type":["null","integer","string"]}', "[]", "", "/type", "must be null or an integer or a string, is an array"),
    # Values by their compact text.
    ('{"enum":["a","b"]}', '"c"', "", "/enum", 'must be one of "a", "b"'),
    ('{"enum":[1.0,[true,null],{"b":1,"a":2}]}', "2", "", "/enum", 'must be one of 1, [true,null], {"a":2,"b":1}'),
    ('{"const":[1]}', "[1.5]", "", "/const", "must be [1], is [1.5]"),
    ('{"const":"a\\u0007\\"b"}', '"é"', "", "/const", 'must be "a\\u0007\\"b", is "é"'),
    # Up to 60 characters of a text.
    ('{"const":"%s"}' % ("é" * 58), '"%s"' % ("x" * 59), "", "/const", 'must be "%s", is "%s...' % ("é" * 58, "x" * 59)),
    ('{"enum":[%s]}' % ",".join(["12345678"] * 9), "1", "", "/enum", "must be one of %s..." % ("12345678, " * 6)),
    ('{"enum":[%s,1234567890]}' % ",".join(["12345678"] * 5), "1", "", "/enum", "must be one of %s1234567890" % ("12345678, " * 5)),
    # Bounds of numbers.
    ('{"multipleOf":2}', "7", "", "/multipleOf", "must be a multiple of 2, is 7"),
    ('{"maximum":10}', "12", "", "/maximum", "must be at most 10, is 12"),
    ('{"exclusiveMaximum":10}', "10.0", "", "/exclusiveMaximum", "must be less than 10, is 10"),
    ('{"minimum":-1.5}', "-2", "", "/minimum", "must be at least -1.5, is -2"),
    ('{"exclusiveMinimum":1e3}', "0", "", "/exclusiveMinimum", "must be greater than 1000, is 0"),
    # Counts, of one and of more; of characters, not of bytes.
    ('{"maxLength":1}', '"é𝄞"', "", "/maxLength", "must have at most 1 character, has 2"),
    ('{"minLength":2}', '"é"', "", "/minLength", "must have at least 2 characters, has 1"),
    ('{"maxItems":0}', "[[1,2,3]]", "", "/maxItems", "must have at most 0 items, has 1"),
    ('{"minItems":2}', "[0]", "", "/minItems", "must have at least 2 items, has 1"),
    ('{"maxProperties":1.0}', '{"a":1,"b":2,"c":3}', "", "/maxProperties", "must have at most 1 member, has 3"),
    ('{"minProperties":11}', "{}", "", "/minProperties", "must have at least 11 members, has 0"),
    ('{"contains":true,"maxContains":1}', "[1,2]", "", "/maxContains", "must have at most 1 item that the schema accepts"),
    ('{"contains":{"type":"null"},"minContains":2}', "[null]", "", "/minContains", "must have at least 2 items that the schema accepts"),
    # The first name that is not there.
    ('{"required":["a","b","c"]}', '{"a":1}', "", "/required", '"b" is required'),
    ('{"required":["a/\\n"]}', "{}", "", "/required", '"a/\\n" is required'),
    ('{"dependentRequired":{"a":["b"]}}', '{"a":1}', "", "/dependentRequired", '"b" is required by "a"'),
    # The first key by its bytes that the value has, and the first name that it requires and that is not there.
    ('{"dependentRequired":{"c":["d"],"b":["a","x","y"],"a":["e"]}}', '{"b":1,"a":1,"e":1,"c":1}', "", "/dependentRequired", '"x" is required by "b"'),
    ('{"pattern":"^a"}', '"ba"', "", "/pattern", 'must match the pattern "^a", is "ba"'),
    ('{"uniqueItems":true}', "[1,1.0]", "", "/uniqueItems", "must have no two equal items"),
    # What combines schemas.
    ('{"anyOf":[{"type":"null"},false]}', "1", "", "/anyOf", ANY),
    ('{"oneOf":[true,true]}', "1", "", "/oneOf", ONE),
    # Of the schemas of a list the one in which the value comes furthest, or else the first: by its kind, by the kind that a member shows, by its other assertions, by its members.
    ('{"anyOf":[{"type":"string"},{"type":"null"}]}', "1", "", "/anyOf", ANY + "; nearest: must be a string, is a number"),
    ('{"anyOf":[{"type":"array"},{"properties":{"a":{"const":1}}},{"const":{}}]}', '{"a":2}', "", "/anyOf", ANY + '; nearest: "/a" must be 1, is 2'),
    ('{"anyOf":[{"properties":{"a":{"enum":[1]}},"required":["b"]},{"properties":{"a":{"enum":[2]}},"required":["c"]}]}', '{"a":2}', "", "/anyOf", ANY + '; nearest: "c" is required'),
    ('{"oneOf":[%s]}' % ",".join('{"properties":{"k":{"const":"%s"},"a":{"type":"%s"}},"required":["k"]}' % of for of in (("x", "null"), ("y", "string"), ("z", "string"))),
     '{"k":"y","a":1}', "", "/oneOf", ONE + '; nearest: "/a" must be a string, is a number'),
    ('{"anyOf":[{"required":["b"]},{"properties":{"a":{"maximum":1}}},{"properties":{"a":{"maximum":0}}}]}', '{"a":2}', "", "/anyOf", ANY + '; nearest: "/a" must be at most 1, is 2'),
    # By `$ref`, and down to the eighth member.
    ('{"items":{"anyOf":[{"$ref":"#/$defs/b"},{"type":"null"}]},"$defs":{"b":{"properties":{"a/":{"$ref":"#/$defs/c"}}},"c":{"minLength":2}}}', '[{"a/":"x"}]', "/0", "/items/anyOf",
     ANY + '; nearest: "/a~1" must have at least 2 characters, has 1'),
    *(('{"anyOf":[%s{"type":"null"}%s]}' % ('{"properties":{"a":' * depth, "}}" * depth), '{"a":' * depth + "1" + "}" * depth, "", "/anyOf", words)
      for depth, words in ((7, ANY + '; nearest: "%s" must be null, is a number' % ("/a" * 7)), (8, ANY))),
    # Up to 60 characters of its place, as one line.
    ('{"anyOf":[{"properties":{"a\\n%s":{"const":1}}}]}' % ("b" * 60), '{"a\\n%s":2}' % ("b" * 60), "", "/anyOf", ANY + '; nearest: "/a\\n%s... must be 1, is 2' % ("b" * 55)),
    # None where that takes more steps than the check has left.
    *((json.dumps({"anyOf": [{"$ref": "#/$defs/a"}] * count, "$defs": {"a": {"allOf": [False], "properties": {"z": {"const": 1}}}}}, separators=(",", ":")), "{%s}" % ",".join([*(f'"k{i:03}":0' for i in range(999)), '"z":2']), "", "/anyOf", words)
      for count, words in ((10, ANY + '; nearest: "/z" must be 1, is 2'), (6_000, ANY))),
    # None where it is not seen to lack something of each, or where the keyword chooses nothing.
    ('{"anyOf":[{"type":"null"},{"not":{}}]}', "1", "", "/anyOf", ANY), ('{"oneOf":[{"type":"null"},{"minimum":0},{}]}', "1", "", "/oneOf", ONE),
    ('{"not":{}}', "1", "", "/not", "must not be accepted by the schema"),
    ('{"propertyNames":{"maxLength":1}}', '{"ab":1}', "", "/propertyNames", "must have names that the schema accepts"),
    ('{"contains":{"maximum":1}}', "[2]", "", "/contains", "must have an item that the schema accepts"),
    # The schema `false`: the whole one, in a list, in an object, and as the value of a keyword.
    ("false", "1", "", "", "is not allowed"),
    ('{"prefixItems":[true,false]}', "[1,2]", "/1", "/prefixItems/1", "is not allowed"),
    ('{"properties":{"a":false}}', '{"a":1}', "/a", "/properties/a", "is not allowed"),
    ('{"additionalProperties":false}', '{"a":1}', "/a", "/additionalProperties", "is not allowed"),
    ('{"$ref":"#/$defs/a","$defs":{"a":false}}', "1", "", "/$ref", "is not allowed"),
    # The keyword at the end of the place, in lists, objects and schemas of keywords, with names that are keywords.
    ('{"allOf":[{"maximum":9},{"maximum":1},{"maximum":0}]}', "2", "", "/allOf/1/maximum", "must be at most 1, is 2"),
    ('{"properties":{"maximum":{"minimum":3,"maximum":9}},"maximum":5}', '{"maximum":2}', "/maximum", "/properties/maximum/minimum", "must be at least 3, is 2"),
    ('{"properties":{"$ref":{"type":"null"}}}', '{"$ref":1}', "/$ref", "/properties/$ref/type", "must be null, is a number"),
    ('{"patternProperties":{"^b":{"const":1}}}', '{"a":2,"b/":3}', "/b~1", "/patternProperties/^b/const", "must be 1, is 3"),
    ('{"dependentSchemas":{"a":{"maxProperties":1}}}', '{"a":1,"b":2}', "", "/dependentSchemas/a/maxProperties", "must have at most 1 member, has 2"),
    ('{"if":{"minimum":5},"then":{"maximum":6},"else":{"maximum":3}}', "4", "", "/else/maximum", "must be at most 3, is 4"),
    ('{"items":{"unevaluatedProperties":{"type":"null"}}}', '[{"a":"b"}]', "/0/a", "/items/unevaluatedProperties/type", "must be null, is a string"),
    # After a reference the place goes on in the schema to which it leads.
    ('{"$ref":"#/$defs/a","maximum":8,"$defs":{"a":{"maximum":7}}}', "9", "", "/maximum", "must be at most 8, is 9"),
    ('{"items":{"$ref":"#x"},"$defs":{"a":{"$anchor":"x","items":{"$dynamicRef":"#/$defs/b"}},"b":{"maximum":1}}}', "[[2]]", "/0/0", "/items/$ref/items/$dynamicRef/maximum", "must be at most 1, is 2"),
]

NO_DRAFT = "can't be applied in its draft"

# The arguments, a schema that can't be applied, the place, and the words.
REASONS = [
    # The form of each keyword's value (Validation, 6; Core, 8 to 10), and the value.
    ([], "5", "", "must be an object or a boolean, is 5"),
    ([], '{"items":[1,{"a":null}]}', "/items", 'must be an object or a boolean, is [1,{"a":null}]'),
    ([], '{"$comment":1}', "/$comment", "must be a string, is 1"),
    ([], '{"uniqueItems":"true"}', "/uniqueItems", 'must be a boolean, is "true"'),
    ([], '{"enum":{}}', "/enum", "must be an array, is {}"),
    ([], '{"type":"strin"}', "/type", 'must be a type or an array of different types, is "strin"'),
    ([], '{"type":["null","null"]}', "/type", 'must be a type or an array of different types, is ["null","null"]'),
    ([], '{"maximum":"10"}', "/maximum", 'must be a number, is "10"'),
    ([], '{"multipleOf":0}', "/multipleOf", "must be a number above 0 with at most 1,000 digits, is 0"),
    ([], '{"properties":{"a":{"minLength":-1.0}}}', "/properties/a/minLength", "must be a non-negative integer, is -1"),
    ([], '{"maxItems":1.5}', "/maxItems", "must be a non-negative integer, is 1.5"),
    ([], '{"required":["a","b","a"]}', "/required", 'must be an array of different strings, is ["a","b","a"]'),
    ([], '{"dependentRequired":{"a":"b"}}', "/dependentRequired", 'must be an object of arrays of different strings, is {"a":"b"}'),
    ([], '{"not":{"$schema":"https://example.com"}}', "/not/$schema", 'must be "https://json-schema.org/draft/2020-12/schema", is "https://example.com"'),
    ([], '{"allOf":[]}', "/allOf", "must be an array with a schema, is []"),
    ([], '{"properties":[]}', "/properties", "must be an object of schemas, is []"),
    ([], '{"patternProperties":1}', "/patternProperties", "must be an object of schemas, is 1"),
    ([], '{"$defs":{"a":{"$id":"x#y"}}}', "/$defs/a/$id", 'must be a URI without a fragment, of no other schema, is "x#y"'),
    ([], '{"$anchor":"1a"}', "/$anchor", 'must be a plain name of no other schema, is "1a"'),
    ([], '{"$anchor":"a","not":{"$anchor":"a"}}', "/$anchor", 'must be a plain name of no other schema, is "a"'),
    # Up to 60 characters of a value, as one line.
    ([], '{"maximum":"%s\\n"}' % ("x" * 58), "/maximum", 'must be a number, is "%s\\...' % ("x" * 58)),
    ([], '{"maximum":"\\u007f\u202e"}', "/maximum", 'must be a number, is "U+007FU+202E"'),
    # References that lead nowhere, to a document that is not there, in a circle, and through too many schemas.
    ([], '{"$ref":"#/$defs/a"}', "/$ref", 'must lead to a schema of the document, is "#/$defs/a"'),
    ([], '{"$ref":"https://example.com/a.json#/b"}', "/$ref", 'must lead to a schema of the document, is "https://example.com/a.json#/b"'),
    ([], '{"$id":"https://example.com/a","items":{"$ref":"b"},"$defs":{"a":{"$id":"c"}}}', "/items/$ref", 'must lead to a schema of the document, is "b"'),
    ([], '{"$dynamicRef":5}', "/$dynamicRef", "must lead to a schema of the document, is 5"),
    ([], '{"not":{"$ref":"#"}}', "/not/$ref", 'must not lead in a circle or through more than 100 schemas, is "#"'),
    ([], '{"$dynamicRef":"#a","$anchor":"a"}', "/$dynamicRef", 'must not lead in a circle or through more than 100 schemas, is "#a"'),
    # What is wrong in a pattern, and where.
    ([], '{"pattern":5}', "/pattern", "must be a pattern, is 5"),
    *(([], json.dumps({"pattern": pattern}), "/pattern", f"must be a pattern, is {json.dumps(pattern, ensure_ascii=False)}: {words} at character {place}")
      for pattern, words, place in (
          ("^a(?=a)", "a look-ahead", 2), ("é(?!a)", "a look-ahead", 1), ("(?<=a)b", "a look-behind", 0), ("b(?<!a)b", "a look-behind", 1),
          ("(?<é>a)", "a named group", 0), ("(?<a>b)(?<a>c)", "a named group", 7), ("(?P<year>a)", "a named group", 0), ("(?i)a", "a flag", 0), ("a(?-i:b)", "a flag", 1), ("(?>a)", "an unknown group", 0),
          ("\\Aa", "\\A", 0), ("a\\Z", "\\Z", 1), ("\\p{Latin}", "a property of characters", 0), ("\\P{sc=Latn}", "a property of characters", 0),
          ("(a)\\1", "a back-reference", 3), ("(a)\\9", "a back-reference", 3), ("\\k<a>", "a back-reference", 0), ("\\y", "an unknown escape", 0), ("\\08", "an unknown escape", 0),
          ("a(", "the end of the text in a group", 2), ("^*", "a wrong sign", 1), ("𝄞$+", "a wrong sign", 2), ("\\b?", "a wrong sign", 2), ("[b-a]", "a wrong class", 0), ("a)", "a ) without its (", 1), ("*a", "a wrong sign", 0),
          ("(?:(?=a))", "a look-ahead", 3), ("[(?=]\\((?=a)", "a look-ahead", 7),
      )),
    ([], '{"pattern":"%s"}' % ("(" * 201 + "a" + ")" * 201), "/pattern", 'must be a pattern, is "%s...: more than 200 nested groups at character 200' % ("(" * 59)),
    ([], '{"pattern":"ba{10101}"}', "/pattern", 'must be a pattern, is "ba{10101}": more than 10,100 parts at character 2'),
    ([], '{"patternProperties":{"a(?i)":5}}', "/patternProperties/a(?i)", 'must be a pattern, is "a(?i)": a flag at character 1'),
    ([], '{"patternProperties":{"a":5}}', "/patternProperties/a", "must be an object or a boolean, is 5"),
    # Of an older draft: the place is that in 2020-12, and a keyword that the draft does not have is not applied.
    (["-d", "7"], '{"minContains":2}', "/minContains", NO_DRAFT),
    (["-d", "4"], '{"not":true}', "/not", NO_DRAFT),
    (["-d", "2019"], '{"maximum":[]}', "/maximum", "must be a number, is []"),
    ([], '{"$schema":"http://json-schema.org/draft-06/schema#","if":{}}', "/if", NO_DRAFT),
    (["-d", "7"], '{"$schema":"https://json-schema.org/draft/2020-12/schema","maximum":null}', "/maximum", "must be a number, is null"),
    ([], '{"maximum":null}', "/maximum", "must be a number, is null"),
]

# A schema, and the keyword that each part of PLACES violates.
PLACED = (
    '{"properties":{"a":{"maximum":10},"o":{"additionalProperties":false},"u":{"unevaluatedProperties":false},'
    '"p":{"additionalProperties":{"type":"null"}}},"items":{"maxItems":1}}'
)
VIOLATED = {
    "/a": "/properties/a/maximum",
    "/o/k": "/properties/o/additionalProperties",
    "/u/k": "/properties/u/unevaluatedProperties",
    "/p/k": "/properties/p/additionalProperties/type",
}

# By PLACED: the arguments, the input, the pointer to the part, and its line and column.
PLACES = [
    # White space before the value, of which a line feed alone begins a line, and a character is one column.
    ([], b'{"a":12}', "/a", 1, 6),
    ([], b'{\n  "a": 12\n}', "/a", 2, 8),
    ([], b'\n\n\t{"a"\n:\r\n\t 12 }', "/a", 5, 3),
    ([], b'\r\r{"a":\r12}', "/a", 1, 9),
    ([], '{"é𝄞":"\u2028","a":12}'.encode(), "/a", 1, 15),
    # Of equal keys the last one counts, however it is written; what looks like the key in a string or further inside is none.
    ([], b'{"a":12,"a":13}', "/a", 1, 13),
    ([], b'{"a":1,"\\u0061":12,"b":{"a":1}}', "/a", 1, 17),
    ([], b'{"b":"\\",\\"a\\":1","a":12}', "/a", 1, 23),
    # Items, by how many commas are before them, but not of those in strings and inner containers.
    ([], b'[[1],[],\n[1,\n2]]', "/2", 2, 1),
    ([], b'["],[", {"a":[1,2]}, [],[1,2]]', "/3", 1, 25),
    # Of a member that must not be there it is the key, also where that is escaped; of equal keys the last one.
    ([], b'{"o":{ "k": 1}}', "/o/k", 1, 8),
    ([], b'{"u":{\n"\\u006b"\n: 1}}', "/u/k", 2, 1),
    ([], b'{"o":{"k":1,"k":2}}', "/o/k", 1, 13),
    ([], b'{"p":{"k":1}}', "/p/k", 1, 11),
    (["-l"], b'{}\n {"o":{"k":1}}', "/o/k", 2, 8),
    # Of lines it is the number, and the column in the line.
    (["-l"], b'{"a":1}\n\t{"a":12}\n', "/a", 2, 7),
    (["-l"], '[]\r\n["é",[1,2]]'.encode(), "/1", 2, 6),
]

# How many containers of a schema and of a value may be open.
LEVELS = 100


def judged(places):
    """The answer of `json_schema`, which is given the place in the value and the keyword's, or that there is none."""
    return (0, b"", b"") if places is None else (1, unit_of(*places), b"")


def unit_of(instance, keyword, error=UNMET, **place):
    """The line that is printed of a value that is not valid; `located` adds the line and the column that `place` lacks."""
    unit = {"error": error, "instanceLocation": instance, "keywordLocation": keyword, **place, "valid": False}
    return normal(unit) + b"\n"


def of_draft(number, schema):
    """The schema with a `$schema` of the draft; how that is spelled depends on the schema."""
    spelled = SPELLED[len(schema) % len(SPELLED)] % ("draft/2019-09" if number == 2019 else f"draft-0{number}")
    return json.dumps({"$schema": spelled, **json.loads(schema)})


def told(lines):
    """What `json_schema` tells on standard error."""
    return b"".join(f"json_schema: {line}\n".encode() for line in lines)


def grouped(depth):
    """A pattern with so many groups in one another."""
    return "(" * depth + "a" + ")" * depth


# Patterns above the limits of `text_iregexp`, which are 200 groups open at once and a size of 10,100; also as keys.
LARGE_PATTERNS = [
    ('{"pattern":"%s"}' % grouped(201), "/pattern"),
    ('{"properties":{"a":{"pattern":"%s"}}}' % grouped(201), "/properties/a/pattern"),
    ('{"pattern":"a{10101}"}', "/pattern"),
    ('{"allOf":[true,{"pattern":"^a{10100}b$"}]}', "/allOf/1/pattern"),
    ('{"items":{"not":{"pattern":"x|(ab){4000}"}}}', "/items/not/pattern"),
    ('{"$defs":{"a/b":{"pattern":"(a{101}){101}"}}}', "/$defs/a~1b/pattern"),
    ('{"patternProperties":{"a":true,"a{10101}":true}}', "/patternProperties/a{10101}"),
    ('{"patternProperties":{"%s":5}}' % grouped(201), "/patternProperties/%s" % grouped(201)),
    ('{"prefixItems":[{"patternProperties":{"a{10099}/~":{}}}]}', "/prefixItems/0/patternProperties/a{10099}~1~0"),
    # The first place that is refused is told.
    ('{"pattern":"a{10101}","type":"any"}', "/pattern"),
    ('{"patternProperties":{"a{10101}":true,"b(":true}}', "/patternProperties/a{10101}"),
]

TOO_MANY = reported(3, "json_schema", "schemas are nested too deep")
TOO_MUCH = reported(3, "json_schema", "the check takes too many steps")


def referring(keyword, count):
    """A schema of so many that refer to the next one twice each, so that there are very many ways to the last one."""
    twice = {f"d{i}": {keyword: [{"$ref": f"#/$defs/d{i + 1}"}] * 2} for i in range(count)}
    return json.dumps({"$ref": "#/$defs/d0", "$defs": {**twice, f"d{count}": {"type": "integer"}}})


# Checks that would take minutes, and like ones that are short: five million steps are allowed, and four more for each byte.
HOSTILE = [
    # Each level is judged twice by each of two schemas.
    ('{"allOf":[{"items":{"$ref":"#"}},{"items":{"$ref":"#"}}]}', "[" * 25 + "]" * 25, TOO_MUCH),
    ('{"allOf":[{"items":{"$ref":"#"}},{"items":{"$ref":"#"}}]}', "[" * 12 + "]" * 12, judged(None)),
    ('{"anyOf":[{"additionalProperties":{"$ref":"#"}}],"unevaluatedProperties":false}', '{"a":' * 40 + "{}" + "}" * 40, TOO_MUCH),
    # A schema is read soon, however many ways there are through its references.
    (referring("allOf", 24), "1", TOO_MUCH),
    (referring("anyOf", 24), "1", judged(None)),
    (referring("anyOf", 24), '"a"', TOO_MUCH),
    (referring("allOf", 12), "1", judged(None)),
    # Each value is compared with each of a list, each item is judged by each schema, and each pattern is sought in each key.
    ('{"items":{"enum":%s}}' % list(range(20_000)), json.dumps([19_999] * 10_000), TOO_MUCH),
    ('{"items":{"enum":%s}}' % list(range(1_000)), json.dumps([999] * 1_000), judged(None)),
    ('{"items":{"oneOf":[%s]}}' % ",".join(f'{{"const":{i}}}' for i in range(3_000)), json.dumps([1] * 3_000), TOO_MUCH),
    ('{"items":{"oneOf":[%s]}}' % ",".join(f'{{"const":{i}}}' for i in range(300)), json.dumps([1] * 300), judged(None)),
    ('{"patternProperties":{%s}}' % ",".join(f'"^{i}$":{{}}' for i in range(2_000)), json.dumps({f"a{i}": 0 for i in range(4_000)}), TOO_MUCH),
    # Each of 150 patterns is parsed again for each item, since 100 are kept; for the members of an object it is parsed once.
    ('{"items":{"anyOf":[%s]}}' % ",".join(f'{{"pattern":"^{i}$"}}' for i in range(150)), json.dumps(["149"] * 10_000), TOO_MUCH),
    ('{"items":{"anyOf":[%s]}}' % ",".join(f'{{"pattern":"^{i}$"}}' for i in range(150)), json.dumps(["149"] * 100), judged(None)),
    ('{"patternProperties":{%s}}' % ",".join(f'"^{i}$":{{}}' for i in range(300)), json.dumps({f"a{i}": 0 for i in range(10_000)}), judged(None)),
    # Each of 5,000 letters may come next at each of 200,000 characters; the text ends before the last letter. Letters of Greek take their own way.
    ('{"pattern":"%sb"}' % ("a" * 5_000), '"%s"' % ("a" * 200_000), TOO_MUCH),
    ('{"pattern":"%sβ"}' % ("α" * 5_000), '"%s"' % ("α" * 100_000), TOO_MUCH),
    ('{"pattern":"^(?=%sb)a"}' % ("a*" * 2_500), '"%s"' % ("a" * 200_000), TOO_MUCH),
    ('{"pattern":"\\\\b%sb"}' % ("a*" * 2_500), '"%s"' % ("a" * 200_000), TOO_MUCH),
    # Each text alone is sought through; what the searches take together is too much.
    ('{"items":{"not":{"pattern":"%sβ"}}}' % ("α" * 5_000), json.dumps(["α" * 2_000] * 200, ensure_ascii=False), TOO_MUCH),
    ('{"items":{"not":{"pattern":"%sβ"}}}' % ("α" * 5_000), json.dumps(["α" * 2_000] * 5, ensure_ascii=False), judged(None)),
    ('{"pattern":"%s"}' % ("a" * 5_000), '"%s"' % ("a" * 200_000), judged(None)),
    ('{"pattern":"%sb"}' % ("a" * 50), '"%s"' % ("a" * 200_000), judged(("", "/pattern"))),
    ('{"items":{"pattern":"^.{0,2048}$"}}', json.dumps(["a" * 1_000] * 1_000), judged(None)),
    ('{"items":{"pattern":"^.{0,2048}$"}}', json.dumps(["ä" * 500] * 1_000, ensure_ascii=False), judged(None)),
    ('{"items":{"pattern":"^(%s)$"}}' % "|".join(f"word{i}" for i in range(200)), json.dumps(["wörter"] * 10_000, ensure_ascii=False), judged(("/0", "/items/pattern"))),
    # Each member is looked up in each schema.
    ('{"allOf":[%s],"unevaluatedProperties":{"type":"integer"}}' % ",".join(f'{{"properties":{{"a{i}":{{}}}}}}' for i in range(3_000)), json.dumps({f"b{i}": 0 for i in range(3_000)}), TOO_MUCH),
    # Each number is divided by one of 904 digits.
    ('{"items":{"multipleOf":%d}}' % 2**3000, "[" + "1e9999," * 3_000 + "1e9999]", TOO_MUCH),
    ('{"items":{"multipleOf":%d}}' % 2**3000, "[" + "1e9999," * 100 + "1e9999]", judged(None)),
    # A long text with eight schemas an item is no such one.
    ('{"items":{"$ref":"#/$defs/a"},"$defs":{%s"g":{"minimum":0}}}' % "".join(f'"{a}":{{"$ref":"#/$defs/{b}"}},' for a, b in zip("abcdef", "bcdefg")), "[" + "0," * 700_000 + "0]", judged(None)),
]

# Schemas that lead to themselves, where a part of the value is judged by what more than 200 in one another say.
CUT_OFF = [
    '{"items":{"allOf":[{"not":{"not":{"$ref":"#"}}}]}}',
    '{"items":{"not":{"allOf":[{"$ref":"#"}]}}}',
    '{"items":{"anyOf":[{"allOf":[{"$ref":"#"}]},true]}}',
    '{"items":{"oneOf":[{"allOf":[{"$ref":"#"}]},true]}}',
    '{"items":{"oneOf":[{"allOf":[{"$ref":"#"}]},false]}}',
    '{"items":{"if":{"allOf":[{"$ref":"#"}]},"then":true,"else":true}}',
    '{"contains":{"allOf":[{"$ref":"#"}]},"minContains":0}',
    '{"contains":{"allOf":[{"$ref":"#"}]},"maxContains":0}',
    '{"unevaluatedItems":{"anyOf":[true,{"allOf":[{"$ref":"#"}]}],"unevaluatedItems":true}}',
    '{"anyOf":[true,{"contains":{"allOf":[{"$ref":"#"}]},"minContains":0}],"unevaluatedItems":true}',
    '{"items":{"if":{"allOf":[{"$ref":"#"}]},"then":true,"else":true,"unevaluatedItems":true}}',
]



def doubling(count):
    """A schema in which each of so many names is settled by one of two resources, one after the other."""
    defs = {f"l{count}": {"$id": f"l{count}"}}
    for i in range(count):
        defs[f"l{i}"] = {"$id": f"l{i}", "anyOf": [{"$ref": f"a{i}"}, {"$ref": f"b{i}"}]}
        for name, kind in (("a", "integer"), ("b", "string")):
            names = {"n": {"$dynamicAnchor": f"n{i}", "type": kind}}
            defs[f"{name}{i}"] = {"$id": f"{name}{i}", "$defs": names, "prefixItems": [{"$dynamicRef": f"#n{i}"}], "items": {"$ref": f"l{i + 1}"}}
    return json.dumps({"$ref": "l0", "$defs": defs})


def lists(count, size=0):
    """A schema with lists of so many kinds of items: what has led to the list tells which. The list has a comment of so many letters."""
    kinds = {f"k{i:04}": {"$id": f"k{i:04}", "$ref": "list", "$defs": {"item": {"$dynamicAnchor": "item", "const": i}}} for i in range(count)}
    generic = {"$id": "list", "items": {"$dynamicRef": "#item"}, "$defs": {"item": {"$dynamicAnchor": "item"}}, "$comment": "a" * size}
    return json.dumps({"prefixItems": [{"$ref": name} for name in kinds], "$defs": {**kinds, "list": generic}})


# The name of a draft.
NAMED_7 = '"$schema":"http://json-schema.org/draft-07/schema#"'

# Deep and long schemas and values, each on a stack of 256 KB.
LONG_SCHEMAS = [
    ('{"items":' * (LEVELS - 1) + "{}" + "}" * (LEVELS - 1), "[" * LEVELS + "]" * LEVELS, judged(None)),
    (
        '{"items":' * LEVELS + "false" + "}" * LEVELS,
        "[" * LEVELS + "1" + "]" * LEVELS,
        judged(("/0" * LEVELS, "/items" * LEVELS)),
    ),
    ('{"not":' * LEVELS + "false" + "}" * LEVELS, "1", judged(("", "/not"))),
    ('{"allOf":[' * (LEVELS // 2) + "false" + "]}" * (LEVELS // 2), "1", judged(("", "/allOf/0" * (LEVELS // 2)))),
    ('{"items":{"$ref":"#"}}', "[" * LEVELS + "]" * LEVELS, judged(None)),
    # One schema for the whole, and three for each array in it: 199 where 67 are in one another, of 200.
    ('{"items":{"allOf":[{"$ref":"#"}]}}', "[" * 67 + "]" * 67, judged(None)),
    ('{"items":{"allOf":[{"$ref":"#"}]}}', "[" * 68 + "]" * 68, TOO_MANY),
    # Where a number is in them, one schema less than may be, as many, and one more.
    ('{"items":{"$ref":"#"}}', "[" * 99 + "1" + "]" * 99, judged(None)),
    ('{"$ref":"#/$defs/a","$defs":{"a":{"items":{"$ref":"#/$defs/a"}}}}', "[" * 99 + "1" + "]" * 99, judged(None)),
    ('{"items":{"$ref":"#"}}', "[" * 100 + "1" + "]" * 100, TOO_MANY),
    ('{"items":{"allOf":[{"$ref":"#"}]}}', "[" * 66 + "1" + "]" * 66, judged(None)),
    ('{"items":{"allOf":[{"$ref":"#"}]}}', "[" * 67 + "1" + "]" * 67, TOO_MANY),
    ('{"type":["array","null"],"items":{"allOf":[{"$ref":"#"}]}}', "[" * 66 + "1" + "]" * 66, judged(("/0" * 66, "/items/allOf/0/$ref" * 66 + "/type"))),
    # The same by names.
    ('{"$dynamicAnchor":"a","items":{"allOf":[{"$dynamicRef":"#a"}]}}', "[" * 67 + "]" * 67, judged(None)),
    ('{"$anchor":"a","items":{"allOf":[{"$ref":"#a"}]}}', "[" * 68 + "]" * 68, TOO_MANY),
    ('{"items":' * (LEVELS - 1) + '{"$anchor":"a","type":"null"}' + "}" * (LEVELS - 1), "[" * LEVELS + "]" * LEVELS, judged(("/0" * (LEVELS - 1), "/items" * (LEVELS - 1) + "/type"))),
    ('{"$defs":{%s},"$ref":"#a19999"}' % ",".join(f'"{i}":{{"$anchor":"a{i}","const":{i}}}' for i in range(20_000)), "19999", judged(None)),
    ('{"$defs":{%s},"$anchor":"a19999"}' % ",".join(f'"{i}":{{"$anchor":"a{i}"}}' for i in range(20_000)), "1", reported(2, "json_schema", NOT_APPLIED % "/$anchor")),
    # Resources in one another, many of them, and many references to one.
    ('{"$id":"a/b","items":' * (LEVELS - 1) + '{"$id":"c","type":"null"}' + "}" * (LEVELS - 1), "[" * LEVELS + "]" * LEVELS, judged(("/0" * (LEVELS - 1), "/items" * (LEVELS - 1) + "/type"))),
    ('{"$defs":{%s},"$ref":"u19999#"}' % ",".join(f'"{i}":{{"$id":"u{i}","const":{i}}}' for i in range(20_000)), "19999", judged(None)),
    ('{"$defs":{"a":{"$id":"a","$defs":{"b":{"$anchor":"b","minimum":0}}}},"prefixItems":[%s]}' % ",".join(['{"$ref":"a#b"}'] * 20_000), "[%s-1]" % ("0," * 19_999), judged(("/19999", "/prefixItems/19999/$ref/minimum"))),
    # Twice as many scopes with each name, and as many scopes as there may be copies, or one more.
    (doubling(5), '[1,["a"]]', judged(None)),
    (lists(1_000), json.dumps([[i] for i in range(1_000)]), judged(None)),
    (lists(1_000), json.dumps([[0]] * 1_000), judged(("/1/0", "/prefixItems/1/$ref/$ref/items/$dynamicRef/const"))),
    (lists(1_001), "1", reported(2, "json_schema", NOT_APPLIED % "/$defs/k1000/$ref")),
    # Copies may have twice the document's text in all, and 100,000 bytes more.
    (lists(300, 100), "1", judged(None)),
    (lists(300, 60_000), "1", reported(2, "json_schema", NOT_APPLIED % "/$defs/k0004/$ref")),
    # The same in members whose keys have a pattern.
    ('{"patternProperties":{"^a$":{"allOf":[{"$ref":"#"}]}}}', '{"a":' * 66 + "{}" + "}" * 66, judged(None)),
    ('{"patternProperties":{"^a$":{"allOf":[{"$ref":"#"}]}}}', '{"a":' * 67 + "{}" + "}" * 67, TOO_MANY),
    ('{"patternProperties":{"a":' * 49 + "false" + "}}" * 49, '{"a":' * 49 + "1" + "}" * 49, judged(("/a" * 49, "/patternProperties/a" * 49))),
    # The same in items that no other keyword evaluates.
    ('{"unevaluatedItems":{"allOf":[{"$ref":"#"}]}}', "[" * 67 + "]" * 67, judged(None)),
    ('{"unevaluatedItems":{"allOf":[{"$ref":"#"}]}}', "[" * 68 + "]" * 68, TOO_MANY),
    # Schemas in one another that evaluate, and many members and items.
    ('{"allOf":[' * 49 + '{"properties":{"a":true}}' + '],"unevaluatedProperties":false}' * 49, '{"a":1}', judged(None)),
    ('{"allOf":[' * 49 + '{"properties":{"a":true}}' + '],"unevaluatedProperties":false}' * 49, '{"a":1,"b":1}', judged(("/b", "/allOf/0" * 48 + "/unevaluatedProperties"))),
    ('{"anyOf":[{"patternProperties":{"^k":{"type":"integer"}}},{"required":["k0"]}],"unevaluatedProperties":false}', "{%s}" % ",".join(f'"k{i}":0' for i in range(20_000)), judged(None)),
    ('{"anyOf":[{"prefixItems":[true]},{"contains":{"const":0}}],"unevaluatedItems":{"const":1}}', "[%s,2]" % ",".join(["0,1"] * 20_000), judged(("/40000", "/unevaluatedItems/const"))),
    # Nothing is judged by a schema that was not looked at, whatever stands around it.
    *((schema, "[" * LEVELS + "]" * LEVELS, TOO_MANY) for schema in CUT_OFF),
    ('{"contains":' * LEVELS + "true" + "}" * LEVELS, "[" * LEVELS + "1" + "]" * LEVELS, judged(None)),
    ('{"items":' * (LEVELS + 1) + "{}" + "}" * (LEVELS + 1), "1", reported(2, "json_schema", "the schema: Parse error at line:1, col:900: Nesting is too deep at '{'")),
    ("{}", "[" * 100_000, reported(3, "json_schema", "Parse error at line:1, col:100: Nesting is too deep at '['")),
    ('{"items":{"minimum":0}}', "[" + "0," * 20_000 + "-1]", judged(("/20000", "/items/minimum"))),
    ('{"enum":[%s]}' % ",".join(map(str, range(20_000))), "19999", judged(None)),
    ('{"pattern":"^(x+x+)+y"}', '"' + "x" * 20_000 + '"', judged(("", "/pattern"))),
    # At the limits of patterns.
    ('{"pattern":"^%s$"}' % grouped(200), '"a"', judged(None)),
    ('{"pattern":"^a{10000}$"}', '"%s"' % ("a" * 10_000), judged(None)),
    ('{"patternProperties":{"%s":true,"a{10099}b":true},"additionalProperties":false}' % grouped(200), '{"a":1,"b":1}', judged(("/b", "/additionalProperties"))),
    ('{"items":' * (LEVELS - 1) + '{"pattern":"%s"}' % grouped(200) + "}" * (LEVELS - 1), "[" * (LEVELS - 1) + '"b"' + "]" * (LEVELS - 1), judged(("/0" * (LEVELS - 1), "/items" * (LEVELS - 1) + "/pattern"))),
    ('{"items":' * (LEVELS - 1) + '{"pattern":"%s"}' % grouped(201) + "}" * (LEVELS - 1), "1", reported(2, "json_schema", NOT_APPLIED % ("/items" * (LEVELS - 1) + "/pattern"))),
    ('{"patternProperties":{"^k":true,"9$":{"maximum":0}},"additionalProperties":false}', "{%s}" % ",".join(f'"k{i}":0' for i in range(20_000)), judged(None)),
    ('{"uniqueItems":true}', "[%s]" % ",".join(map(str, range(20_000))), judged(None)),
    # Names of a schema, also of an older draft, and those that are no keywords.
    ('{"properties":%s}' % wide('{"type":"integer"}'), wide(0), judged(None)),
    ('{%s,"properties":%s}' % (NAMED_7, wide("false")), '{"k19999":1}', judged(("/k19999", "/properties/k19999"))),
    ("{%s,%s" % (NAMED_7, wide(0)[1:]), "1", (0, b"", told(f'the schema: "{key}" is no keyword' for key in WIDE_KEYS))),
    ('{"uniqueItems":true}', "[%s,0]" % ",".join(map(str, range(20_000))), judged(("", "/uniqueItems"))),
    ('{"required":[%s]}' % ",".join(f'"{i}"' for i in range(20_000)), "[]", judged(None)),
    ('{"required":[%s,"0"]}' % ",".join(f'"{i}"' for i in range(20_000)), "[]", reported(2, "json_schema", NOT_APPLIED % "/required")),
    ("[1,]", "1", reported(2, "json_schema", "the schema: Parse error at line:1, col:3: Invalid character: ]")),
    (NOT_UTF8, "1", reported(2, "json_schema", "schema:1:0: not UTF-8")),
]

# How many rows are not padded, and why.
UNPADDED_REFUSED = {"no keyword": 4}

# Deep texts in what fails. The schema, the arguments, the input, and the answer.
TOO_DEEP = "Parse error at line:1, col:%d: Nesting is too deep at '%s'"
DEEP_FAILURES = [
    ("{}", [], NESTED, reported(3, "json_schema", TOO_DEEP % (100, "["))),
    ("{}", ["-l"], NESTED + b"\n1\n" + b'{"a":' * 100_000, (1, b"", told(["line 1, col 100: Nesting is too deep at '['", "line 3, col 500: Nesting is too deep at '{'"]))),
    ("[" * 100_000 + "]" * 100_000, [], b"1", reported(2, "json_schema", "the schema: " + TOO_DEEP % (100, "["))),
    ('{"items":' * 100_000 + "{}" + "}" * 100_000, [], b"1", reported(2, "json_schema", "the schema: " + TOO_DEEP % (900, "{"))),
    ('{"$ref":"#%s"}' % ("/items" * 100_000), [], b"1", reported(2, "json_schema", NOT_APPLIED % "/$ref")),
    ('{"$ref":"%s","$defs":{"a":{"$id":"a"}}}' % ("a/../" * 100_000), [], b"1", reported(2, "json_schema", NOT_APPLIED % "/$ref")),
    ('{"pattern":"%s"}' % grouped(100_000), [], b"1", reported(2, "json_schema", NOT_APPLIED % "/pattern")),
]

# What the schema of SCHEMA asks of the whole, where that is a number.
NO_OBJECT = "must be an object, is a number"

# By lines: a value that is not valid, a line that can't be checked, and one that is valid, so many times in turn.
TURNS = 300

# The arguments, the input, and the answer.
ROWS = [
    *((words, b"1", misused("json_schema", "SCHEMA is missing")) for words in ([], ["-l"])),
    ([NOT_UTF8], b"1", misused("json_schema", "an argument is not UTF-8")),
    (["-L", SCHEMA], b"1", misused("json_schema", 'unknown option "-L"; after -- it is an operand')),
    *((words, b"1", misused("json_schema", "no text after -r")) for words in ([SCHEMA, "-r"], ["--ref"])),
    *((words, b"1\n", (1, unit_of("", "/type", NO_OBJECT, line=1, column=1), b"")) for words in ([SCHEMA, "-l"], ["--lines", SCHEMA, "-"])),
    (["/none"], b"1", reported(2, "json_schema", "/none: No such file or directory (os error 2)")),
    (["/"], b"1", reported(2, "json_schema", "/: Is a directory (os error 21)")),
    ([SCHEMA], b"[1,]", reported(3, "json_schema", "Parse error at line:1, col:3: Invalid character: ]")),
    # Control characters are shown by their code points.
    ([SCHEMA], b"[\x1b]", reported(3, "json_schema", "Parse error at line:1, col:1: Invalid character: U+001B")),
]

# The arguments, an input, and the statuses and words where the input is not UTF-8, can't be read, and where the output can't be written.
STREAMS = [
    ([SCHEMA], b"1", (3, NO_TEXT), (4, FOLDER), (4, FULL)),
    (["-l", SCHEMA], b"1", (1, "line 1: not UTF-8"), (4, FOLDER), (4, FULL)),
    (["-t", SCHEMA], b"1", (3, NO_TEXT), (4, FOLDER), (4, FULL)),
    (["-lt", SCHEMA], b"1", (1, "line 1: not UTF-8"), (4, FOLDER), (4, FULL)),
]

# The arguments, an input, what is printed of it, and the statuses and words where a read and where a write fails.
LINES, REPORTS = b"1\n" * 5_000, b"".join(unit_of("", "/type", NO_OBJECT, line=i + 1, column=1) for i in range(5_000))
FAILING = [
    ([SCHEMA], b"[" + LONG + b"]", unit_of("", "/type", "must be an object, is an array", line=1, column=1), (4, BROKEN), (4, BROKEN)),
    (["-l", SCHEMA], LINES, REPORTS, (4, BROKEN), (4, BROKEN)),
    (["-i", SCHEMA], LINES, LINES, (4, BROKEN), (4, BROKEN)),
]

# Where each read is interrupted: what reads by lines reads again.
INTERRUPTED = [(["-l", SCHEMA], LINES, REPORTS)]

# Where each request for memory is refused.
REFUSED_MEMORY = [
    ([SCHEMA], b'{"id":1,"tags":["x",3]}'),
    (["-l", UNKNOWN_WORDS], b'{"id":1,"tags":["x",3]}\n[1,]\n{"id":1,"tags":[]}\n"\xff\n{}'),
    ([SCOPES_FILE], b'{"x":[1],"y":["a",2]}'),
    (["-t", SCHEMA, "-"], b'{"id":1,"tags":["x",3]}'),
    (["-a", SCHEMA], b'{"id":"x","tags":["x",3,4],"other":1}'),
    (["-lt", SCHEMA], b'{"id":1,"tags":["x",3]}\n[1,]\n'),
    (["-i", SCHEMA], b'{"id":1,"tags":["x",3]}\n[1,]\n{"id":1,"tags":[]}\n'),
    ([DRAFT_FILE], b'{"x":[1,2],"y":3}'),
    (["-r", f"a={UNKNOWN_WORDS}", "-r", f"b={DRAFT_FILE}", SCHEMA], b'{"id":1,"tags":["x",3]}'),
    (["--meta", "-d4", "-r", f"b={DRAFT_FILE}"], b'{"type":5}'),
]


def answers():
    """Each row, with its schema, a value and the answer."""
    for row in KEYWORDS + REFERENCES + ANCHORS + RESOURCES + DYNAMIC:
        schema, valid, others = row
        yield from ((row, schema, value, judged(None)) for value in valid)
        yield from ((row, schema, value, judged(places)) for value, *places in others)
    for row in REFUSED + REFUSED_REFERENCES + REFUSED_ANCHORS + REFUSED_RESOURCES + LARGE_PATTERNS:
        schema, place = row
        yield row, schema, "1", reported(2, "json_schema", NOT_APPLIED % place)
    for rows, drafts in ((OLD_DRAFTS, (4, 6, 7)), (BOTH_DRAFTS, (6, 7)), (DRAFT_7, (7,)), (DRAFT_4, (4,)), (DRAFT_2019, (2019,))):
        for row, number in itertools.product(rows, drafts):
            schema, valid, others = row
            whole = of_draft(number, schema)
            yield from ((row, whole, value, judged(None)) for value in valid)
            yield from ((row, whole, value, judged(places)) for value, *places in others)
    for rows, drafts in ((REFUSED_DRAFTS, (4, 6, 7)), (REFUSED_DRAFT_4, (4,)), (REFUSED_2019, (2019,))):
        for row, number in itertools.product(rows, drafts):
            schema, place = row
            yield row, of_draft(number, schema), "1", reported(2, "json_schema", NOT_APPLIED % place)
    for row in UNKNOWN:
        schema, words = row
        yield row, schema, "1", (0, b"", told(f'the schema: "{word}" is no keyword' for word in words))
    yield from ((row, *row) for row in LONG_SCHEMAS + HOSTILE)


def checked(folder, schema, words, given):
    """The answer by a schema, from a file, on a small stack."""
    path = os.path.join(folder, "schema")
    with open(path, "wb") as file:
        file.write(schema.encode() if isinstance(schema, str) else schema)
    return run_small(program("json_schema"), [*words, "schema"], given, cwd=folder)


def placed(*checked_by):
    """The same answer without the words of its reports, and of a schema that can't be applied."""
    status, output, errors = checked(*checked_by)
    return status, ERROR.sub(b'"error":"%s"' % UNMET.encode(), output), REASON.sub(rb"\1\n", errors)


def check_words(checks):
    for row in WORDS:
        schema, value, instance, keyword, words = row
        expected = located(value.encode(), (1, unit_of(instance, keyword, words), b""))
        checks.row(f"json_schema: words of {schema[:60]} {value[:60]}", expected, checked, checks.folder, schema, [], value.encode(), at=row)


def check_places(checks):
    """Where parts begin, as it was counted by hand, and as `located` has it, which gives the other rows their places."""
    for row in PLACES:
        words, given, instance, line, column = row
        unit = (instance, VIOLATED.get(instance, "/items/maxItems"))
        expected = (1, unit_of(*unit, line=line, column=column), b"")
        checks.row(f"json_schema: place {words} {given[:60]}", expected, placed, checks.folder, PLACED, words, given, at=row)
        unplaced = (1, unit_of(*unit, line=line) if words else unit_of(*unit), b"")
        checks.row(f"json_schema: place by Python {words} {given[:60]}", expected, located, given, unplaced, at=row)


def check_reasons(checks):
    for row in REASONS:
        words, schema, place, reason = row
        expected = reported(2, "json_schema", f"{NOT_APPLIED % place}: {reason}")
        checks.row(f"json_schema: reason of {words} {schema[:60]}", expected, checked, checks.folder, schema, words, b"1", at=row)


def check_rows(checks):
    for row, schema, value, expected in answers():
        name = f"json_schema: {schema[:60]} {value[:60]}"
        checks.row(name, located(value.encode(), expected), placed, checks.folder, schema, [], value.encode(), at=row)
    for row in ROWS:
        words, given, expected = row
        checks.row(f"json_schema: {words} {given}", expected, run_of, program("json_schema"), words, given, at=row)


def check_drafts(checks):
    """The draft that is asked for is that of a schema which names none, or one that is not known."""
    row = lambda words, schema, answer: checks.row(f"json_schema: {words} {schema[:60]}", located(b"[1,2]", answer), placed, checks.folder, schema, words, b"[1,2]")
    listed, invalid = '{"items":[true],"additionalItems":false}', (1, unit_of("/1", "/items"), b"")
    refused = lambda place: reported(2, "json_schema", NOT_APPLIED % place)
    for words in (["-d", "7"], ["-d6"], ["--draft", "7"], ["--draft=6"], ["-d", "2020", "-d", "7"]):
        row(words, listed, invalid)
    for words in ([], ["-d", "2020"], ["--draft=2020"]):
        row(words, listed, refused("/items"))
    for spelled in ("https://json-schema.org/draft/2020-12/schema", "http://json-schema.org/draft/2020-12/schema#"):
        row(["-d", "7"], '{"$schema":"%s",%s' % (spelled, listed[1:]), refused("/items"))
    row(["-d", "6"], of_draft(7, '{"if":true,"then":{"type":"null"}}'), (1, unit_of("", "/then/type"), b""))
    row([], of_draft(6, '{"if":true}'), refused("/if"))
    row(["-d", "4"], '{"minimum":1,"exclusiveMinimum":true,"items":{"id":"#a"}}', (0, b"", b""))
    row([], '{"minimum":1,"exclusiveMinimum":true}', refused("/exclusiveMinimum"))
    row(["-d4"], of_draft(7, '{"exclusiveMinimum":1,"items":false}'), (1, unit_of("/0", "/items"), b""))
    row(["-d", "4"], "true", refused(""))
    row(["-d", "2019"], '{"items":[true],"additionalItems":false,"$defs":{"a":{"$anchor":"b"}}}', invalid)
    row(["-d", "7"], '{"$defs":{"a":{"$anchor":"b"}}}', refused("/$defs/a/$anchor"))
    other = '"http://example.com/\\u001b"'
    line = b'json_schema: the schema: "http://example.com/U+001B" is an unknown $schema\n'
    row([], '{"$schema":%s,"items":false}' % other, (1, unit_of("/0", "/items"), line))
    row(["-d", "7"], '{"$schema":%s,%s' % (other, listed[1:]), (1, unit_of("/1", "/items"), line))
    row(["-d", "5"], "true", reported(2, "json_schema", "no draft 5: the drafts are 4, 6, 7, 2019 and 2020"))
    row(["-d", "x"], "true", misused("json_schema", "no number of 1 to 9 digits after -d"))


def check_lines(checks):
    for row in BY_LINES:
        schema, given, reports, lines, status = row
        output = b"".join(unit_of(instance, keyword, line=line) for line, instance, keyword in reports)
        name, expected = f"json_schema: -l {schema[:60]} {given[:60]}", located(given, (status, output, told(lines)))
        checks.row(name, expected, placed, checks.folder, schema, ["-l"], given, at=row)


def limited(lines):
    """The answer for lines by a schema that no value meets; some are longer than a limit."""
    output = b"".join(unit_of("", "", "is not allowed", line=at, column=1) for at, line in enumerate(lines, 1) if not isinstance(line, int))
    errors = told([f"line {at}: longer than {line} bytes" for at, line in enumerate(lines, 1) if isinstance(line, int)])
    return 1, output, errors


def check_formats(checks):
    """Formats are asserted with `-f` alone."""
    row = lambda words, schema, given, answer: checks.row(f"json_schema: {words} {schema[:60]} {given[:60]}", located(given, answer), placed, checks.folder, schema, words, given)
    for name, valid, others in FORMATS:
        schema = json.dumps({"format": name})
        given = b"".join(json.dumps(text).encode() + b"\n" for text in valid + others)
        reports = b"".join(unit_of("", "/format", line=len(valid) + i + 1) for i in range(len(others)))
        row(["-l", "-f"], schema, given, (1, reports, b""))
        row(["-l"], schema, given, (0, b"", b""))
    for words, (schema, valid, others) in zip(itertools.cycle((["-f"], ["--assert-format"])), ASSERTED):
        told_of = told(['the schema: "none" is an unknown format'] if "none" in schema else [])
        for value, places in [*((value, None) for value in valid), *((value, places) for value, *places in others)]:
            row(words, schema, value.encode(), (*judged(places)[:2], told_of))
    for schema, names in UNKNOWN_FORMATS:
        row(["-f"], schema, b"1", (int("enum" in schema), unit_of("", "/enum") if "enum" in schema else b"", told(f'the schema: "{name}" is an unknown format' for name in names)))
    row([], UNKNOWN_FORMATS[0][0], b"1", judged(None))
    for name, words in (("date-time", 'must be a date-time, is "x"'), ("ipv4", 'must be an ipv4, is "x"'), ("email", 'must be an email, is "x"')):
        schema, expected = json.dumps({"format": name}), located(b'"x"', (1, unit_of("", "/format", words), b""))
        checks.row(f"json_schema: words of {schema}", expected, checked, checks.folder, schema, ["-f"], b'"x"')


def check_long_lines(checks):
    """With -l, a line that is longer than a limit is not checked; without, there is no such limit."""
    schema = os.path.join(checks.folder, "false")
    with open(schema, "wb") as file:
        file.write(b"false")
    LongLines("json_schema", ["-l", schema], limited, is_going=True).check(checks)
    checks.row("json_schema: --max-line without -l", (1, unit_of("", "", "is not allowed", line=1, column=1), b""), run_of, program("json_schema"), ["-m2", schema], b"[1,2]")


def check_files(checks):
    """Each file has its own lines, and what is told of a line or a text begins with the name of its file."""
    schema, too_many = '{"items":{"allOf":[{"$ref":"#"}]},"minimum":0}', b"schemas are nested too deep"
    deep = b"[" * 68 + b"]" * 68
    for name, text in (("schema", schema.encode()), ("a", b"1\n-1\n"), ("b", b"[1,]\n-2\n\xff\n" + deep), ("deep", deep)):
        with open(os.path.join(checks.folder, name), "wb") as file:
            file.write(text)
    run = lambda words, given=b"": run_small(program("json_schema"), words, given, cwd=checks.folder)
    below = lambda line, value: unit_of("", "/minimum", f"must be at least 0, is {value}", line=line, column=1)
    told_of_b = b"b:1:3: Invalid character: ]\nb:3: not UTF-8\nb:4: " + too_many + b"\n"
    answer = (1, below(2, -1) + below(2, -2) + below(1, -1), told_of_b)
    checks.row("json_schema: -l, files", answer, run, ["-l", "schema", "a", "b", "-"], b"-1")
    answer = (4, below(2, -1) + below(2, -2), b"none: No such file or directory (os error 2)\n" + told_of_b)
    checks.row("json_schema: -l, no file", answer, run, ["schema", "a", "none", "b", "--lines"])
    answer = (3, below(1, -1), b"deep: " + too_many + b"\n")
    checks.row("json_schema: a file, too many schemas", answer, run, ["schema", "deep", "-"], b"-1")
    answer = reported(3, "json_schema", too_many.decode())
    checks.row("json_schema: too many schemas", answer, run, ["schema"], deep)


# By {"properties":{"a":{"maximum":10},"b\u001b/":false},"type":"object"}: the options, the names of files, what standard input has, and what is
# printed, with nothing on standard error but what is told. The files are these.
TEXT_SCHEMA = b'{"properties":{"a":{"maximum":10},"b\\u001b/":false},"type":"object"}'
TEXT_FILES = [("good", b'{"a":10}'), ("bad", b'{"a":12}'), ("lines", b'{"a":12}\n{}\r\n[1,]\n[]\n {"a": 1}'), ("large", b'{"a":12,"z":"' + b"x" * 90 + b'"}\n{}\n"\xff"\n')]
TOLD_OF_LINES, TOLD_OF_LARGE = b"lines:3:3: Invalid character: ]\n", b"large:3: not UTF-8\n"
TEXTS = [
    # The name of a file, the line and the column, the pointer and the words; the pointer to the whole value is empty.
    (["-t"], ["good"], b"", 0, b"", b""),
    (["-t"], ["bad", "good", "bad"], b"", 1, b"bad:1:6: /a must be at most 10, is 12\n" * 2, b""),
    (["--text"], [], b'{"a":11}', 1, b"line 1, col 6: /a must be at most 10, is 11\n", b""),
    (["-t"], ["-", "bad"], b"\n []", 1, b"line 2, col 2: must be an object, is an array\nbad:1:6: /a must be at most 10, is 12\n", b""),
    (["-t"], ["-"], b'{"b\\u001b/":1}', 1, b"line 1, col 13: /bU+001B~1 is not allowed\n", b""),
    (["-t"], ["none", "bad"], b"", 4, b"bad:1:6: /a must be at most 10, is 12\n", b"none: No such file or directory (os error 2)\n"),
    # Of lines with the number.
    (["-lt"], ["lines"], b"", 1, b"lines:1:6: /a must be at most 10, is 12\nlines:4:1: must be an object, is an array\n", TOLD_OF_LINES),
    (["-l", "--text"], [], b'{}\n {"a":99}', 1, b"line 2, col 7: /a must be at most 10, is 99\n", b""),
    (["-lt"], ["-"], b"[]", 1, b"line 1, col 1: must be an object, is an array\n", b""),
    # The lines that are valid, or the others; each ends with a line feed.
    (["-v"], ["lines", "good"], b"", 1, b'{}\r\n {"a": 1}\n{"a":10}\n', TOLD_OF_LINES),
    (["-l", "--valid"], [], b'{}\n\n{"a":11}\n{"a":1}', 1, b'{}\n{"a":1}\n', b"json_schema: line 2, col 0: Unexpected EOF\n"),
    (["-i"], ["lines", "good"], b"", 1, b'{"a":12}\n[1,]\n[]\n', TOLD_OF_LINES),
    (["--invalid"], [], b"{}\n[]", 1, b"[]\n", b""),
    (["-i"], ["good"], b"", 0, b"", b""),
    # What is too long is not there any more.
    (["-i", "-m", "80"], ["large"], b"", 1, b'"\xff"\n', b"large:1: longer than 80 bytes\n" + TOLD_OF_LARGE),
    (["-v", "-m", "80"], ["large"], b"", 1, b"{}\n", b"large:1: longer than 80 bytes\n" + TOLD_OF_LARGE),
    # Of several of them `-v` counts first, then `-i`.
    (["-i", "-t"], ["lines"], b"", 1, b'{"a":12}\n[1,]\n[]\n', TOLD_OF_LINES),
    (["-t", "-i", "-v"], ["lines"], b"", 1, b'{}\r\n {"a": 1}\n', TOLD_OF_LINES),
]


def check_texts(checks):
    """Reports for people, and the lines that are valid or are not."""
    for name, text in (("schema", TEXT_SCHEMA), *TEXT_FILES):
        with open(os.path.join(checks.folder, name), "wb") as file:
            file.write(text)
    for row in TEXTS:
        words, names, given, *answer = row
        checks.row(f"json_schema: {words} {names}", tuple(answer), run_small, program("json_schema"), [*words, "schema", *names], given, cwd=checks.folder, at=row)


# By `-a`: the schema, a value, and the place in the value and the keyword's of each violation. Those of a schema come first, then those of
# the schemas that it applies; members are in the order of their keys.
ALL = [
    ('{"minimum":3,"enum":[2],"type":"string"}', "1", [("", "/type"), ("", "/enum"), ("", "/minimum")]),
    ('{"properties":{"b":{"maximum":1},"a":{"type":"string"}},"required":["c"]}', '{"b":2,"a":1}', [("", "/required"), ("/a", "/properties/a/type"), ("/b", "/properties/b/maximum")]),
    ('{"additionalProperties":false,"properties":{"a":{}}}', '{"b":1,"a":1,"c":2}', [("/b", "/additionalProperties"), ("/c", "/additionalProperties")]),
    ('{"items":{"minimum":9,"type":"string"},"prefixItems":[{"type":"null"}]}', "[1,2,9]", [("/0", "/prefixItems/0/type"), ("/1", "/items/type"), ("/1", "/items/minimum"), ("/2", "/items/type")]),
    ('{"patternProperties":{"a":{"type":"null"},"^b":{"maximum":0}}}', '{"ba":2,"ab":1,"c":1}', [("/ba", "/patternProperties/^b/maximum"), ("/ab", "/patternProperties/a/type"), ("/ba", "/patternProperties/a/type")]),
    # Core, 10.2.1.1: each schema of `allOf`; 8.2.3.1: what a reference leads to.
    ('{"allOf":[{"type":"null"},{},{"$ref":"#/$defs/x"}],"$defs":{"x":{"not":{},"minimum":5}}}', "1", [("", "/allOf/0/type"), ("", "/allOf/2/$ref/minimum"), ("", "/allOf/2/$ref/not")]),
    ('{"$dynamicRef":"#a","$ref":"#/$defs/y","$defs":{"x":{"$dynamicAnchor":"a","type":"null"},"y":false}}', "1", [("", "/$ref"), ("", "/$dynamicRef/type")]),
    ('{"properties":{"n":{"$ref":"#"}},"required":["v"]}', '{"n":{"n":{},"v":1}}', [("", "/required"), ("/n/n", "/properties/n/$ref/properties/n/$ref/required")]),
    # 10.2.1.2 to 10.2.1.4, 10.3.1.3 and 10.3.2.4: these count or combine, and are one violation each.
    ('{"anyOf":[{"type":"null"},{"type":"string"}],"oneOf":[{},{}],"not":{},"contains":{"type":"null"},"minContains":2}', "[1]", [("", "/anyOf"), ("", "/oneOf"), ("", "/not"), ("", "/contains"), ("", "/minContains")]),
    ('{"propertyNames":{"maxLength":1}}', '{"aa":1,"bb":2}', [("", "/propertyNames")]),
    # 10.2.2: the schema that `if` chooses, and those of `dependentSchemas` for the keys that are there.
    ('{"if":{"type":"integer"},"then":{"minimum":5,"multipleOf":2},"else":false}', "1", [("", "/then/multipleOf"), ("", "/then/minimum")]),
    ('{"if":{"type":"integer"},"then":{"minimum":5,"multipleOf":2},"else":false}', '"a"', [("", "/else")]),
    ('{"dependentSchemas":{"a":{"required":["b"]},"c":false,"d":{"maxProperties":1}}}', '{"a":1,"d":1}', [("", "/dependentSchemas/a/required"), ("", "/dependentSchemas/d/maxProperties")]),
    # 11.2 and 11.3: what no other keyword evaluates.
    ('{"allOf":[{"properties":{"a":{"type":"null"}}}],"unevaluatedProperties":false}', '{"a":1,"b":2,"c":3}', [("/a", "/allOf/0/properties/a/type"), ("/b", "/unevaluatedProperties"), ("/c", "/unevaluatedProperties")]),
    ('{"prefixItems":[{}],"unevaluatedItems":{"type":"null"}}', "[1,2,null,3]", [("/1", "/unevaluatedItems/type"), ("/3", "/unevaluatedItems/type")]),
    # 6.9 of RFC 6901: a key that is like an index, and one with `/` and `~`.
    ('{"properties":{"0":{"type":"null"},"~/":{"properties":{"":false}}}}', '{"0":1,"~/":{"":1}}', [("/0", "/properties/0/type"), ("/~0~1/", "/properties/~0~1/properties/")]),
    ("false", "[1,2]", [("", "")]),
    ('{"items":{"type":"integer"}}', "[1,2]", []),
]
EACH = b"[" + b"1," * 149 + b"1]"


def reports_of(places):
    """The answer of `json_schema`, which is given the places of all violations."""
    return (int(places != []), b"".join(unit_of(*place) for place in places), b"")


def check_all(checks):
    """All that a value violates, and its first ones; the first is the one without `-a`."""
    for at in ALL:
        schema, value, places = at
        for words, shown in ((["-a"], places), (["--all"], places), (["-a", "-n1"], places[:1]), ([], places[:1]), (["-n", "2", "-a"], places[:2])):
            checks.row(f"json_schema: {words} {schema[:60]} {value}", located(value.encode(), reports_of(shown)), placed, checks.folder, schema, words, value.encode(), at=at)
    nulls = '{"items":{"type":"null"}}'
    for words, count in ((["-a"], 100), (["-an99"], 99), (["-a", "--number=149"], 149), (["-a", "-n", "200"], 150), (["-n", "5"], 1)):
        places = [(f"/{i}", "/items/type") for i in range(count)]
        checks.row(f"json_schema: {words}, up to", located(EACH, reports_of(places)), placed, checks.folder, nulls, words, EACH)
    reports = b"".join(unit_of(f"/{i}", "/items/type", line=1, column=2 * i + 2) for i in range(1_000))
    checks.row("json_schema: -a, many", (1, reports, b""), placed, checks.folder, nulls, ["-an", "9999"], b"[" + b"1," * 999 + b"1]")
    texts = b"line 1, col 2: /0 must be null, is a number\nline 1, col 4: /1 must be null, is a number\n"
    checks.row("json_schema: -at", (1, texts, b""), checked, checks.folder, '{"items":{"type":"null"}}', ["-at"], b"[1,2]")
    meta = '{"properties":{"a":{"type":"any"},"b":5}}'
    # `b` is no schema, by the meta-schema and each of its seven vocabularies.
    checks.row("json_schema: -a --meta", (1, 9), lambda: (lambda status, output, errors: (status, output.count(b"\n")))(*by_meta(checks.folder, {}, ["-a"], meta.encode())))
    for words in (["-al"], ["-av"], ["-ai"]):
        checks.row(f"json_schema: {words}", reported(2, "json_schema", "--all checks no lines"), checked, checks.folder, "{}", words, b"1")
    checks.row("json_schema: -a, no JSON", reported(3, "json_schema", "Parse error at line:1, col:3: Invalid character: ]"), checked, checks.folder, "{}", ["-a"], b"[1,]")
    deep = '{"properties":{"a":' * 49 + "false" + "}}" * 49
    checks.row("json_schema: -a, deep", (1, 1), lambda: (lambda status, output, errors: (status, output.count(b"\n")))(*checked(checks.folder, deep, ["-a"], b'{"a":' * 49 + b"1" + b"}" * 49)))


# Further documents by `-r`. The files, of which the first one is the schema; the arguments; values that are valid; and others, each with the
# place in it and the keyword's.
X, LONG_URI = '{"$defs":{"x":{"type":"integer"}}}', "http://a/" + "b" * WIDE
COMMON = {"schema": '{"$ref":"common.json#/$defs/x"}', "common.json": X}
LISTED = '{"definitions":{"x":{"items":[{"type":"integer"}],"additionalItems":false}}}'
DOCUMENTS = [
    # RFC 3986, 5.2: a relative reference between two files of one folder, whatever the base URI is.
    *((COMMON, words, ["1"], [('"a"', "", "/$ref/type")]) for words in (["-r", "common.json"], ["-rcommon.json"], ["--ref", "common.json"], ["--ref=common.json"])),
    ({**COMMON, "schema": '{"$id":"http://a/b/c","$ref":"common.json#/$defs/x"}'}, ["-r", "common.json"], ["1"], [('"a"', "", "/$ref/type")]),
    ({"d/schema": '{"$ref":"e/common.json#/$defs/x"}', "d/e/common.json": X}, ["-r", "d/e/common.json"], ["1"], [('"a"', "", "/$ref/type")]),
    # Core, 9.1.1: by the URI that it was found at.
    ({"schema": '{"$ref":"http://a/b?c#/$defs/x"}', "common.json": X}, ["-r", "http://a/b?c=common.json"], ["1"], [('"a"', "", "/$ref/type")]),
    ({"schema": '{"$ref":"b#/$defs/x"}', "d/common.json": X}, ["--ref=b=d/common.json"], ["1"], [('"a"', "", "/$ref/type")]),
    ({"schema": '{"$ref":"%s#/$defs/x"}' % LONG_URI, "common.json": X}, ["-r", f"{LONG_URI}=common.json"], ["1"], [('"a"', "", "/$ref/type")]),
    # 8.2.1: by its own `$id`, which is resolved by where it was found.
    ({"schema": '{"$ref":"http://a/b#/$defs/x"}', "common.json": '{"$id":"http://a/b",' + X[1:]}, ["-r", "common.json"], ["1"], [('"a"', "", "/$ref/type")]),
    ({"schema": '{"$ref":"d/b#/$defs/x"}', "d/common.json": '{"$id":"b",' + X[1:]}, ["-r", "d/common.json"], ["1"], [('"a"', "", "/$ref/type")]),
    ({"schema": '{"$ref":"http://a/b#/$defs/x"}', "common.json": '{"$id":"b",' + X[1:]}, ["-r", "http://a/c=common.json"], ["1"], [('"a"', "", "/$ref/type")]),
    # Also by where it was found, if it has another URI of its own; in each draft.
    *(({"schema": '{%s"$ref":"http://a/c"}' % draft, "common.json": '{"%s":"%s","type":"null"}' % (word, own)}, ["-r", "http://a/c=common.json"], ["null"], [("1", "", place)])
      for draft, word in (("", "$id"), (NAMED_7 + ",", "$id"), ('"$schema":"http://json-schema.org/draft-04/schema#",', "id"))
      for own, place in (("b", "/$ref/$ref/type"), ("http://b/d#", "/$ref/$ref/type"), ("c", "/$ref/type"), ("http://a/c#", "/$ref/type"))),
    ({"schema": '{"$ref":"http://a/f/c.json"}', "f/c.json": '{"$id":"urn:x","type":"null"}'}, ["-r", "http://a/f=f"], ["null"], [("1", "", "/$ref/$ref/type")]),
    # Several of them, which refer to one another and to the schema; names, and resources within.
    ({"schema": '{"$ref":"a","$defs":{"n":{"type":"null"}}}', "a": '{"items":{"$ref":"b#b"}}', "b": '{"$defs":{"b":{"$anchor":"b","anyOf":[{"$ref":"schema#/$defs/n"},{"type":"array","$ref":"a"}]}}}'},
     ["-r", "a", "-r", "b"], ["[null,[]]", "1"], [("[1]", "/0", "/$ref/items/$ref/anyOf")]),
    ({"schema": '{"prefixItems":[{"$ref":"a"},{"$ref":"b"}]}', "a": '{"type":"null"}', "b": '{"type":"string"}'}, ["-r", "a", "-r", "b"], ['[null,"a"]'],
     [("[1]", "/0", "/prefixItems/0/$ref/type"), ("[null,null]", "/1", "/prefixItems/1/$ref/type")]),
    ({"schema": '{"$ref":"http://a/d"}', "a": '{"$id":"http://a/b","$defs":{"c":{"$id":"d","type":"null"}}}'}, ["-r", "a"], ["null"], [("1", "", "/$ref/type")]),
    ({"d/schema": '{"$ref":"e/a"}', "d/e/a": '{"items":{"$ref":"../schema#/$defs/n"}}', "d/schema": '{"$ref":"e/a","$defs":{"n":{"type":"null"}}}'}, ["-r", "d/e/a"], ["[null]"], [("[1]", "/0", "/$ref/items/$ref/type")]),
    # 4.3.2: schemas that are truth values; a schema that is one refers to nothing.
    ({"schema": '{"properties":{"a":{"$ref":"t"},"b":{"$ref":"f"}}}', "t": "true", "f": "false"}, ["-rt", "-rf"], ['{"a":1}'], [('{"b":1}', "/b", "/properties/b/$ref/not")]),
    ({"schema": "false", "common.json": X}, ["-r", "common.json"], [], [("1", "", "")]),
    # Each in its draft, or else in that of the schema.
    ({"schema": '{%s,"items":{"$ref":"a#/definitions/x","type":"null"}}' % NAMED_7, "a": "{%s,%s" % (NAMED_7, LISTED[1:])}, ["-r", "a"], ["[1]", "[[1]]"], [('[["a"]]', "/0/0", "/items/$ref/prefixItems/0/type"), ("[[1,2]]", "/0/1", "/items/$ref/items")]),
    ({"schema": '{"items":{"$ref":"a#/definitions/x","type":"array"}}', "a": "{%s,%s" % (NAMED_7, LISTED[1:])}, ["-r", "a"], ["[[1]]"], [('[["a"]]', "/0/0", "/items/$ref/prefixItems/0/type"), ("[1]", "/0", "/items/type")]),
    ({"schema": '{%s,"items":{"$ref":"a#/definitions/x"}}' % NAMED_7, "a": LISTED}, ["-r", "a", "-d", "2020"], ["[[1]]"], [("[[1,2]]", "/0/1", "/items/$ref/items")]),
    ({"schema": '{"items":{"$ref":"a#/definitions/x"}}', "a": LISTED}, ["-r", "a", "-d", "7"], ["[[1]]"], [("[[1,2]]", "/0/1", "/items/$ref/items")]),
    ({"schema": '{%s,"$ref":"a","type":"null"}' % NAMED_7, "a": '{"$schema":"https://json-schema.org/draft/2020-12/schema","prefixItems":[{"type":"null"}]}'}, ["-r", "a"], ["[null]", "1"], [("[1]", "/0", "/$ref/prefixItems/0/type")]),
    ({"schema": '{"$schema":"http://json-schema.org/draft-04/schema#","$ref":"b"}', "a": '{"id":"b","maximum":1,"exclusiveMaximum":true}'}, ["-r", "a"], ["0"], [("1", "", "/$ref/exclusiveMaximum")]),
]


class Link(str):
    """What a symbolic link leads to."""


# Folders by `-r`, in the same form. RFC 3986, 5.2: a relative reference between two files of a folder.
MAIN, ITEMS = '{"$ref":"a/b.json"}', '{"items":{"$ref":"../c.json#/$defs/x"}}'
BELOW = {"s/main.json": MAIN, "s/a/b.json": ITEMS, "s/c.json": X}
BESIDE = {"s/app/main.json": '{"$ref":"../lib/a.json"}', "s/lib/a.json": '{"items":{"$ref":"b.json#/$defs/x"}}', "s/lib/b.json": X}
AT_B = '{"$ref":"http://a/b/c/d.json#/$defs/x"}'
FOLDERS = [
    *(({"schema.json": '{"$ref":"common.json#/$defs/x"}', "common.json": X}, ["-r", words], ["1"], [('"a"', "", "/$ref/type")]) for words in (".", "./")),
    *((BELOW, ["-r", words], ["[1]"], [('["a"]', "/0", "/$ref/items/$ref/type")]) for words in ("s", "s/", "./s", ".")),
    *((BESIDE, ["-r", words], ["[1]"], [('["a"]', "/0", "/$ref/items/$ref/type")]) for words in ("s", "s/lib", "./s/lib", ".")),
    ({**BESIDE, "s/app/main.json": '{"$id":"http://a/b/app/c","$ref":"../lib/a.json"}'}, ["-r", "s"], ["[1]"], [('["a"]', "/0", "/$ref/items/$ref/type")]),
    ({"d/schema": '{"$ref":"../../a/b.json"}', "a/b.json": '{"type":"null"}'}, ["-r", "a"], ["null"], [("1", "", "/$ref/type")]),
    ({"a/é/schema": '{"$ref":"../e/b.json"}', "a/e/b.json": '{"type":"null"}', "a/ê/c.json": "{}"}, ["-r", "a"], ["null"], [("1", "", "/$ref/type")]),
    # A name from the root on, which no folder shares.
    ({"d/schema": '{"$ref":"%s"}' % SCHEMA}, ["-r", SCHEMA], ['{"id":1}'], [("1", "", "/$ref/type")]),
    # Core, 9.1.1 and 8.2.1: by the folder's URI; by its own `$id`.
    *(({"schema": AT_B, "f/c/d.json": X}, ["-r", f"http://a/b{end}=f"], ["1"], [('"a"', "", "/$ref/type")]) for end in ("", "/")),
    ({"schema": AT_B, "f/g.json": '{"$id":"http://a/b/c/d.json",' + X[1:]}, ["-r", "f"], ["1"], [('"a"', "", "/$ref/type")]),
    # The schema's file itself, also by a link, and names that are not `*.json` of a shell.
    ({"f/a.json": '{"$id":"http://a/b","$ref":"c.json"}', "f/b.json": Link("a.json"), "f/c.json": '{"items":{"$ref":"b"}}'}, ["-r", "f"], ["[[]]"], []),
    ({"schema": '{"$ref":"f/x.json/a.json#/$defs/x"}', "f/x.json/a.json": X, "f/.b.json": "[", "f/.c/d.json": "[", "f/json": "[", "f/e.json5": "["}, ["-r", "f"], ["1"], [('"a"', "", "/$ref/type")]),
    # Links to files; a link to a folder, also to one around it, is left out.
    ({"schema": '{"$ref":"f/a.json#/$defs/x"}', "f/a.json": Link("../x"), "x": X, "f/b": Link(".."), "f/c.json": Link(".."), "f/d": Link("../g"), "g/e.json": "["}, ["-r", "f"], ["1"], [('"a"', "", "/$ref/type")]),
    ({"schema": '{"$ref":"g/a.json"}', "f/a.json": '{"type":"null"}', "g": Link("f")}, ["-r", "g"], ["null"], [("1", "", "/$ref/type")]),
]

# What is told where a document can't be had, or where the schema then can't be applied.
REFUSED_DOCUMENTS = [
    ({"schema": "{}", "f/b.json": "[", "f/a/z.json": "[", "f/c/a.json": "["}, ["-r", "f"], "f/a/z.json:1:1: Unexpected EOF"),
    ({"schema": "{}", "f/a.json": "5"}, ["-r", "f"], NOT_APPLIED % "/$defs/f~1a.json"),
    ({"schema": "{}", "f/a.json": Link("none")}, ["-r", "f"], "f/a.json: No such file or directory (os error 2)"),
    ({"schema": "{}", "f/g/\udcff": "{}"}, ["-r", "f"], "f/g: invalid filename"),
    ({"schema": "{}", "f/a.json": "{}"}, ["-r", "f", "-r", "f/a.json"], 'two documents have the URI "f/a.json"'),
    ({**COMMON, "other.json": X}, ["-r", "other.json"], NOT_APPLIED % "/$ref"),
    ({**COMMON, "d/common.json": X}, ["-r", "d/common.json"], NOT_APPLIED % "/$ref"),
    ({**COMMON, "common.json": '{"$id":"b",' + X[1:]}, ["-r", "common.json"], NOT_APPLIED % "/$ref"),
    ({**COMMON, "common.json": '{"$ref":"other.json"}'}, ["-r", "common.json"], NOT_APPLIED % "/$defs/common.json/$ref"),
    ({**COMMON, "common.json": '{"$defs":{"x":{"type":"any"}}}'}, ["-r", "common.json"], NOT_APPLIED % "/$defs/common.json/$defs/x/type"),
    ({**COMMON, "common.json": "5"}, ["-r", "common.json"], NOT_APPLIED % "/$defs/common.json"),
    ({**COMMON, "common.json": '{"$id":5}'}, ["-r", "http://a/b=common.json"], NOT_APPLIED % "/$defs/http:~1~1a~1b/$id"),
    ({**COMMON, "common.json": '{"$id":"a#b"}'}, ["-r", "common.json"], NOT_APPLIED % "/$defs/common.json/$id"),
    ({**COMMON, "a": '{"$id":"b"}', "b": "{}"}, ["-r", "a", "-r", "b"], NOT_APPLIED % "/$defs/b/$id"),
    ({"schema": '{"$defs":[]}', "common.json": X}, ["-r", "common.json"], NOT_APPLIED % "/$defs"),
    (COMMON, ["-r", "common.json", "-r", "common.json"], 'two documents have the URI "common.json"'),
    (COMMON, ["-r", "a\x1b=common.json", "-r", "a\x1b=schema"], 'two documents have the URI "aU+001B"'),
    ({"schema": '{"$defs":{"common.json":{}}}', "common.json": X}, ["-r", "common.json"], 'two documents have the URI "common.json"'),
    (COMMON, ["-r", "none"], "none: No such file or directory (os error 2)"),
    (COMMON, ["-r", "a=b=c"], "b=c: No such file or directory (os error 2)"),
    ({**COMMON, "common.json": '{"a":\n[1,]}'}, ["-r", "common.json"], "common.json:2:3: Invalid character: ]"),
    ({**COMMON, "common.json": "["}, ["-r", "a=common.json"], "common.json:1:1: Unexpected EOF"),
    ({**COMMON, "common.json": NOT_UTF8}, ["-r", "common.json"], "common.json:1:0: not UTF-8"),
]


# The meta-schemas of the drafts, which references lead into without `-r` (draft 4, 6 and 7: Core, section 6 or 7; 2019-09 and 2020-12: Core, 8.1),
# in the form of DOCUMENTS. The places are those in the texts that json-schema.org publishes.
DRAFT_04, DRAFT_06, DRAFT_07 = (f"http://json-schema.org/draft-0{number}/schema" for number in (4, 6, 7))
DRAFT_2019_09, DRAFT_2020_12 = (f"https://json-schema.org/draft/{name}/schema" for name in ("2019-09", "2020-12"))
VOCABULARIES_2019 = ["applicator", "content", "core", "format", "meta-data", "validation"]
VOCABULARIES_2020 = ["applicator", "content", "core", "format-annotation", "format-assertion", "meta-data", "unevaluated", "validation"]
VOCABULARIES = [f"https://json-schema.org/draft/{name}/meta/{vocabulary}" for name, all_of in (("2019-09", VOCABULARIES_2019), ("2020-12", VOCABULARIES_2020)) for vocabulary in all_of]


def leading(uri, rest=""):
    """The files with a schema that is a reference."""
    return {"schema": '{"$ref":"%s"%s}' % (uri, rest)}


META_SCHEMAS = [
    # A keyword that a draft has, and others before or after it have not, or have in another form.
    (leading(DRAFT_04 + "#"), [], ['{"exclusiveMinimum":true,"minimum":1}', '{"const":1,"if":5}'], [('{"exclusiveMinimum":1,"minimum":1}', "/exclusiveMinimum", "/$ref/properties/exclusiveMinimum/type"), ("true", "", "/$ref/type"), ('{"exclusiveMinimum":true}', "", "/$ref/dependentRequired")]),
    (leading(DRAFT_06 + "#"), [], ['{"exclusiveMinimum":1}', '{"if":5}', "true"], [('{"contains":5}', "/contains", "/$ref/properties/contains/$ref/type"), ('{"minLength":-1}', "/minLength", "/$ref/properties/minLength/$ref/allOf/0/$ref/minimum")]),
    (leading(DRAFT_07 + "#"), [], ['{"if":true}', '{"dependentRequired":5}'], [('{"if":5}', "/if", "/$ref/properties/if/$ref/type"), ('{"items":[{"type":"any"}]}', "/items", "/$ref/properties/items/anyOf")]),
    (leading(DRAFT_2019_09), [], ['{"dependentRequired":{"a":["b"]}}', '{"prefixItems":5}'],
     [('{"dependentRequired":5}', "/dependentRequired", "/$ref/allOf/2/$ref/properties/dependentRequired/type"), ('{"not":{"minItems":1.5}}', "/not/minItems", "/$ref/allOf/1/$ref/properties/not/$dynamicRef/allOf/2/$ref/properties/minItems/$ref/$ref/type")]),
    (leading(DRAFT_2020_12), [], ['{"prefixItems":[{}]}', '{"$defs":{"a":{"items":true}}}'],
     [('{"items":[]}', "/items", "/$ref/allOf/1/$ref/properties/items/$dynamicRef/type"), ('{"$defs":{"a":{"title":5}}}', "/$defs/a/title", "/$ref/allOf/0/$ref/properties/$defs/additionalProperties/$dynamicRef/allOf/4/$ref/properties/title/type")]),
    # The document of each vocabulary: `$dynamicAnchor` or `$recursiveAnchor` leads to it alone, unless the whole meta-schema was entered first.
    *((leading(uri), [], ["{}", "false"], [("5", "", "/$ref/type")]) for uri in VOCABULARIES),
    (leading(VOCABULARIES[0]), [], ['{"not":{"title":5}}'], [('{"not":5}', "/not", "/$ref/properties/not/$dynamicRef/type")]),
    # A pointer and a name into one; a reference of a schema of another draft, with what is beside it; several drafts; data.
    (leading(DRAFT_07 + "#/definitions/nonNegativeInteger"), [], ["1"], [("-1", "", "/$ref/minimum")]),
    (leading(DRAFT_2020_12 + "#meta"), [], ["{}"], [('{"not":5}', "/not", "/$ref/allOf/1/$ref/properties/not/$dynamicRef/type")]),
    ({"schema": '{"$dynamicRef":"%s#meta"}' % DRAFT_2020_12}, [], ["{}"], [("5", "", "/$dynamicRef/type")]),
    ({"schema": '{"$schema":"%s","items":{"$ref":"%s#","type":"null"}}' % (DRAFT_04, DRAFT_04)}, [], ["[{}]"], [("[1]", "/0", "/items/$ref/type")]),
    ({"schema": '{"prefixItems":[{"$ref":"%s"},{"$ref":"%s#"},{"$ref":"%s"}]}' % (DRAFT_2020_12, DRAFT_06, VOCABULARIES[0])}, [], ["[true,true,true]"], [("[true,true,1]", "/2", "/prefixItems/2/$ref/type"), ("[true,1]", "/1", "/prefixItems/1/$ref/type")]),
    ({"schema": '{"const":{"$ref":"%s"}}' % DRAFT_07}, [], ['{"$ref":"%s"}' % DRAFT_07], [("{}", "", "/const")]),
    # A document by `-r`, or a resource of the schema, counts in the place of the one with its URI; the others stay.
    ({**leading(DRAFT_07), "a": '{"type":"null"}'}, ["-r", DRAFT_07 + "=a"], ["null"], [("{}", "", "/$ref/type")]),
    ({**leading(DRAFT_07), "a": '{"$id":"%s","type":"null"}' % DRAFT_07}, ["-r", "a"], ["null"], [("{}", "", "/$ref/type")]),
    (leading(DRAFT_07 + "#", ',"$defs":{"a":{"$id":"%s","type":"null"}}' % DRAFT_07), [], ["null"], [("{}", "", "/$ref/type")]),
    ({**leading(DRAFT_2020_12), "a": '{"$dynamicAnchor":"meta","required":["a"]}'}, ["-r", "https://json-schema.org/draft/2020-12/meta/content=a"], ['{"a":1}'], [("{}", "", "/$ref/allOf/6/$ref/required"), ('{"a":1,"type":5}', "/type", "/$ref/allOf/3/$ref/properties/type/anyOf")]),
    # A document that refers to one.
    ({**leading("a"), "a": '{"items":{"$ref":"%s#"}}' % DRAFT_07}, ["-r", "a"], ["[{}]"], [("[1]", "/0", "/$ref/items/$ref/type")]),
]
REFUSED_META_SCHEMAS = [
    # What is no URI of one, and what is not in one.
    *((leading(uri), [], NOT_APPLIED % "/$ref") for uri in ("http://json-schema.org/draft-03/schema#", "https://json-schema.org/draft-07/schema#", "http://json-schema.org/draft-07/schema/", "http://json-schema.org/draft-07/", DRAFT_07 + "#/definitions/none", DRAFT_2020_12 + "#none")),
    # Another schema of that name.
    (leading(DRAFT_07, ',"$defs":{"%s":{"type":"null"}}' % DRAFT_07), [], NOT_APPLIED % "/$ref"),
]

# By `--meta`: the files, the arguments, and the answer. Places in the schema have `/$ref` before them.
META_TEXT = b'{"$schema":"%s#",\n "properties": {"a": {"type": "any"}}}' % DRAFT_07.encode()
META_WORDS = (ANY + '; nearest: must be one of "array", "boolean", "integer", "null", "number", "object", "...').encode()
META_ANY = unit_of("/properties/a/type", "/$ref/properties/properties/additionalProperties/$ref/properties/type/anyOf", line=2, column=31)
OWN_META = '{"$dynamicAnchor":"meta","$ref":"%s","required":["title"]}' % DRAFT_2020_12


def named(uri, rest):
    """A schema that names its draft."""
    return '{"$schema":"%s",%s}' % (uri, rest)


def of_meta(place, keyword):
    return lambda text: located(text.encode(), judged((place, "/$ref" + keyword)))


def is_schema(text):
    return 0, b"", b""


META = [
    # By its `$schema`, in the spellings that name a draft; `-d` counts where there is none.
    *((named(uri + end, '"exclusiveMinimum":true,"minimum":1'), ["-d7"], is_schema) for uri in (DRAFT_04, DRAFT_04.replace("http", "https")) for end in ("", "#")),
    *((named(uri, '"exclusiveMinimum":true'), ["-d4"], of_meta("/exclusiveMinimum", "/properties/exclusiveMinimum/type")) for uri in (DRAFT_06, DRAFT_07)),
    (named(DRAFT_06, '"if":5'), [], is_schema), (named(DRAFT_07, '"if":5'), [], of_meta("/if", "/properties/if/$ref/type")),
    (named(DRAFT_07 + "#", '"dependentRequired":5'), [], is_schema), (named(DRAFT_2019_09, '"dependentRequired":5'), [], of_meta("/dependentRequired", "/allOf/2/$ref/properties/dependentRequired/type")),
    (named(DRAFT_2019_09, '"prefixItems":5'), [], is_schema), (named(DRAFT_2020_12, '"prefixItems":5'), ["-d4"], of_meta("/prefixItems", "/allOf/1/$ref/properties/prefixItems/$ref/type")),
    ('{"prefixItems":5}', [], of_meta("/prefixItems", "/allOf/1/$ref/properties/prefixItems/$ref/type")), ('{"prefixItems":5}', ["-d2019"], is_schema), ('{"prefixItems":5}', ["--draft=7"], is_schema),
    ("true", [], is_schema), ("true", ["-d6"], is_schema), ("true", ["-d4"], of_meta("", "/type")), ("5", ["-d7"], of_meta("", "/type")), ('{"$schema":5}', ["-d7"], of_meta("/$schema", "/properties/$schema/type")),
    # What the meta-schema does not ask: where references lead, and what patterns are.
    ('{"$ref":"none","pattern":"(?=a)","maximun":1,"format":"none","$defs":{"a":{"$id":"#"}}}', ["-d7"], is_schema),
    # 2020-12: `$id` has no fragment; with `-f` it is a reference, too.
    ('{"$id":"a#b"}', [], of_meta("/$id", "/allOf/0/$ref/properties/$id/pattern")), ('{"$id":" "}', [], is_schema), ('{"$id":" "}', ["-f"], of_meta("/$id", "/allOf/0/$ref/properties/$id/$ref/format")),
    # Another one is not known, unless it is a document.
    ('{"$schema":"http://a/\\u001b"}', [], lambda text: reported(3, "json_schema", '"http://a/U+001B" is an unknown $schema')),
]
META_FILES = [
    # Each of some files, also by a draft of its own, in their order.
    ({"a": META_TEXT, "b": '{"exclusiveMaximum":true}', "c": "{}"}, ["a", "b", "c"], "", (1, META_ANY + unit_of("/exclusiveMaximum", "/$ref/allOf/3/$ref/properties/exclusiveMaximum/type", line=1, column=21), b"")),
    ({"a": META_TEXT}, ["-t", "a", "-"], META_TEXT, (1, b"".join(b"%s2%s31: /properties/a/type %s\n" % (*at, META_WORDS) for at in ((b"a:", b":"), (b"line ", b", col "))), b"")),
    ({}, [], META_TEXT, (1, META_ANY, b"")),
    ({"a": "{", "b": '{"$schema":"b"}', "c": "5"}, ["a", "b", "c"], "", (3, unit_of("", "/$ref/type", line=1, column=1), b'a:1:1: Unexpected EOF\nb: "b" is an unknown $schema\n')),
    ({"a": "{}"}, ["none", "a"], "", (4, b"", b"none: No such file or directory (os error 2)\n")),
    # One of a document by `-r`, by its URI, or by its name as seen from here; also in the place of a draft's.
    ({"m": OWN_META, "a": '{"$schema":"http://a/m","title":"a","not":{"title":"b"}}', "b": '{"$schema":"http://a/m","title":"a","not":{}}'}, ["-r", "http://a/m=m", "a", "b"], "",
     (1, unit_of("/not", "/$ref/$ref/allOf/1/$ref/properties/not/$dynamicRef/required", line=1, column=43), b"")),
    ({"d/m": '{"required":["a"]}', "a": '{"$schema":"d/m"}'}, ["-r", "d/m", "a"], "", (1, unit_of("", "/$ref/required", line=1, column=1), b"")),
    ({"m": '{"type":"null"}'}, ["-r", DRAFT_2020_12 + "=m"], "{}", (1, unit_of("", "/$ref/type", line=1, column=1), b"")),
    ({"m": '{"type":"any"}', "a": "{}"}, ["-r", "m", "a", "a"], "", reported(2, "json_schema", NOT_APPLIED % "/$defs/m/type")),
    # Lines are not checked so.
    *(({}, [words], "{}", reported(2, "json_schema", "--meta checks no lines")) for words in ("-l", "-v", "-i")),
    ({}, ["-d5"], "{}", reported(2, "json_schema", "no draft 5: the drafts are 4, 6, 7, 2019 and 2020")),
    # Schemas nested in a schema: each of them takes five that are applied.
    ({}, [], '{"properties":{"a":' * 39 + "{}" + "}}" * 39, (0, b"", b"")),
    ({}, [], '{"properties":{"a":' * 40 + "{}" + "}}" * 40, reported(3, "json_schema", "schemas are nested too deep")),
]


def by_meta(folder, files, words, given):
    """The answer of `--meta` with these files, without the words of reports and of what can't be applied."""
    with tempfile.TemporaryDirectory(dir=folder) as inner:
        put_files(inner, files)
        status, output, errors = run_small(program("json_schema"), ["--meta", *words], given, cwd=inner)
    return status, output if "-t" in words else ERROR.sub(b'"error":"%s"' % UNMET.encode(), output), REASON.sub(rb"\1\n", errors)


def check_meta(checks):
    """References into meta-schemas, and schemas that are checked by theirs."""
    for at in META_SCHEMAS:
        files, words, valid, others = at
        for value, expected in [*((value, judged(None)) for value in valid), *((value, judged(places)) for value, *places in others)]:
            checks.row(f"json_schema: meta-schemas {words} {files['schema'][:60]} {value[:60]}", located(value.encode(), expected), with_files, checks.folder, files, words, value.encode(), at=at)
    for at in REFUSED_META_SCHEMAS:
        files, words, message = at
        checks.row(f"json_schema: meta-schemas {words} {files['schema'][:60]}", reported(2, "json_schema", message), with_files, checks.folder, files, words, b"1", at=at)
    for at in META:
        text, words, expected = at
        checks.row(f"json_schema: --meta {words} {text[:60]}", expected(text), by_meta, checks.folder, {}, words, text.encode(), at=at)
    for at in META_FILES:
        files, words, given, expected = at
        checks.row(f"json_schema: --meta {words} {list(files)} {given[:60]}", expected, by_meta, checks.folder, files, words, given if isinstance(given, bytes) else given.encode(), at=at)
    page = pathlib.Path(TOP, "crates/tinyjson_schema_drafts/README.md").read_text().split("## Meta-schemas")[1].splitlines()
    lines = [line[4:] for line in page if line.startswith("    ") and "let " not in line]
    commands, shown = ([line for line in lines if line.startswith("$ ") == is_command] for is_command in (True, False))
    checks.row("json_schema: the page of tinyjson_schema_drafts, --meta", "".join(f"{line}\n" for line in shown), PAGE.shell, "\n".join(line[2:] for line in commands))
    check_meta_texts(checks)


def without_comments(value):
    if isinstance(value, dict):
        return {key: without_comments(it) for key, it in value.items() if key != "$comment"}
    return [without_comments(it) for it in value] if isinstance(value, list) else value


def sum_of(schema):
    """The checksum of a meta-schema, as `published.py` has it."""
    text = json.dumps(without_comments(schema), sort_keys=True, separators=(",", ":"), ensure_ascii=False)
    return hashlib.sha256(text.encode()).hexdigest()


def check_meta_texts(checks):
    """Each text is the published one, has the URI that it is found at, and is valid by its own meta-schema."""
    for path in sorted(pathlib.Path(TOP, "crates/tinyjson_schema_drafts/src/meta").glob("draft_*.rt")):
        source = path.read_text()
        texts = dict(re.findall(r'^const (\w+): &str = r##"(.*?)"##;$', source, re.M | re.S))
        for uri, name in re.findall(r'uri: "(.*)",\n *text: (\w+),', source):
            schema = json.loads(texts[name])
            checks.row(f"json_schema: the text at {uri}", uri, lambda: schema.get("$id", schema.get("id")).rstrip("#"))
            if uri in published.META_SCHEMAS:
                checks.row(f"json_schema: the published text at {uri}", published.META_SCHEMAS[uri], sum_of, schema)
            checks.row(f"json_schema: --meta of {uri}", (0, b"", b""), by_meta, checks.folder, {}, [], texts[name].encode())


def put_files(folder, files):
    for name, text in files.items():
        path = os.path.join(folder, name)
        os.makedirs(os.path.dirname(path), exist_ok=True)
        if isinstance(text, Link):
            os.symlink(text, path)
            continue
        with open(path, "wb") as file:
            file.write(text.encode() if isinstance(text, str) else text)


def with_files(folder, files, words, given):
    """The answer with these files, of which the first one is the schema, without the words of reports and of what can't be applied."""
    with tempfile.TemporaryDirectory(dir=folder) as inner:
        put_files(inner, files)
        status, output, errors = run_small(program("json_schema"), [*words, next(iter(files))], given, cwd=inner)
    return status, ERROR.sub(b'"error":"%s"' % UNMET.encode(), output), REASON.sub(rb"\1\n", errors)


def check_documents(checks):
    def row(files, words, value, expected, at):
        checks.row(f"json_schema: {words} {list(files)} {value[:60]}", located(value.encode(), expected), with_files, checks.folder, files, words, value.encode(), at=at)

    for at in DOCUMENTS + FOLDERS:
        files, words, valid, others = at
        for value, expected in [*((value, judged(None)) for value in valid), *((value, judged(places)) for value, *places in others)]:
            row(files, words, value, expected, at)
    for at in REFUSED_DOCUMENTS:
        files, words, message = at
        row(files, words, "1", reported(2, "json_schema", message), at)
    told_of = told(['the schema: "http://a" is an unknown $schema', 'the schema: "maximun" is no keyword'])
    files = {"schema": "{}", "a": '{"$schema":"http://a","maximun":3}'}
    row(files, ["-r", "a"], "1", (0, b"", told_of), files)
    deep = '{"items":' * (LEVELS - 1) + "{}" + "}" * (LEVELS - 1)
    row({"schema": '{"$ref":"a"}', "a": deep}, ["-r", "a"], "[" * LEVELS + "]" * LEVELS, judged(None), None)
    row(COMMON, ["-r"], "1", misused("json_schema", "SCHEMA is missing"), None)


def check_padded(checks):
    """The same with more schemas in each list, more names in each object of them, more members in each object that no pattern asks of,
    and more items in each array whose items no schema judges. The values of a schema are the lines of one input."""
    rows = KEYWORDS + REFERENCES + ANCHORS + RESOURCES + DYNAMIC
    rows = [(row, schema, [*valid, *(value for value, *_ in others)]) for row in rows for schema, valid, others in [row]]
    for row, (schema, values) in padded_rows(checks, "json_schema", rows, padded_values, {}):
        _, valid, others = row
        places = enumerate((places for _, *places in others), len(valid) + 1)
        output = b"".join(unit_of(*place, line=number) for number, place in places)
        given = b"\n".join(values)
        name, expected = f"json_schema: padded {row[0][:60]}", located(given, (int(others != []), output, b""))
        checks.row(name, expected, placed, checks.folder, schema, ["-l"], given, at=row)
    rows = [(row, row[0]) for row in REFUSED + REFUSED_REFERENCES + REFUSED_ANCHORS + REFUSED_RESOURCES]
    for row, schema in padded_rows(checks, "json_schema, refused", rows, padded_refused, UNPADDED_REFUSED):
        name, expected = f"json_schema: padded {row[0][:60]}", reported(2, "json_schema", NOT_APPLIED % row[1])
        checks.row(name, expected, placed, checks.folder, schema, [], b"1", at=row)
    for row, schema in padded_rows(checks, "json_schema, unknown", [(row, row[0]) for row in UNKNOWN], padded_refused, {}):
        name, expected = f"json_schema: padded {row[0][:60]}", (0, b"", told(f'the schema: "{word}" is no keyword' for word in row[1]))
        checks.row(name, expected, checked, checks.folder, schema, [], b"1", at=row)


def check_padded_lines(checks):
    rows = [(row, *row[:2]) for row in BY_LINES]
    for row, (schema, given) in padded_rows(checks, "json_schema -l", rows, padded_lines, {"a large text": 3}):
        _, _, reports, lines, status = row
        output = b"".join(unit_of(instance, keyword, line=line) for line, instance, keyword in reports)
        name, expected = f"json_schema: padded -l {row[0][:60]} {row[1][:60]}", located(given, (status, output, told(lines)))
        checks.row(name, expected, placed, checks.folder, schema, ["-l"], given, at=row)


def check_deep(checks):
    for row in DEEP_FAILURES:
        schema, words, given, expected = row
        name = f"json_schema: deep, {schema[:60]} {words} {given[:20]}"
        checks.row(name, expected, placed, checks.folder, schema, words, given, at=row)


def in_one_file(folder, words, given):
    """The status, and what is written where standard output and standard error are one file."""
    with open(os.path.join(folder, "one"), "w+b") as file:
        status, _, _ = run_of(program("json_schema"), words, given, stdout=file, stderr=file)
        file.seek(0)
        return status, file.read()


def check_order(checks):
    """What is printed and what is told of lines in the order of these."""
    each = (unit_of("", "/type", NO_OBJECT, line=i, column=1) + told([f"line {i + 1}, col 3: Invalid character: ]"]) for i in range(1, 3 * TURNS, 3))
    given = b'1\n[1,]\n{"id":1}\n' * TURNS
    checks.row("json_schema: -l in one file", (1, b"".join(each)), in_one_file, checks.folder, ["-l", SCHEMA], given)


def check_faults(checks):
    FAULTS.streams(checks, STREAMS)
    FAULTS.failing(checks, FAILING)
    FAULTS.interrupted(checks, INTERRUPTED)


def check_memory(checks):
    FAULTS.refusing(checks, REFUSED_MEMORY)


PAGE, LINES_PAGE = Page("json_schema", [SCHEMA], b"[1]"), Page("json_schema", ["-l", SCHEMA], b"[1]", is_lines=True)

PARTS = (PAGE.check, LINES_PAGE.check_pipes, *shared(check_rows), check_words, check_places, check_reasons, check_drafts, check_formats, check_lines, check_long_lines, check_files, check_texts, check_all, check_documents, check_meta, check_padded, check_padded_lines, check_deep, check_order, check_faults, *shared(check_memory))
