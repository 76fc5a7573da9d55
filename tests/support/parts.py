"""Where the parts of JSON texts and the keys of members begin, by Python's own reader of values."""

import json
import re

from values import normal

# Numbers as they are written: Python reads no more than 4,300 digits.
READER = json.JSONDecoder(parse_int=str, parse_float=str)

WHITE = re.compile(r"[ \t\n\r]*")


def after_white(text, at):
    return WHITE.match(text, at).end()


def children(text, at):
    """The token of each item or member of the container at a place, and the places of its key, if it has one, and of its value."""
    is_object, at, index = text[at] == "{", after_white(text, at + 1), 0
    while text[at] not in "]}":
        token, key = str(index), at
        if is_object:
            token, at = READER.raw_decode(text, at)
            at = after_white(text, after_white(text, at) + 1)
        yield token, (key, at)
        at = after_white(text, READER.raw_decode(text, at)[1])
        at = after_white(text, at + (text[at] == ","))
        index += 1


def begin_of(text, pointer, of_key=False):
    """The line and the column at which the part begins that a pointer names, or its key, both from 1; of equal keys the last counts."""
    key = at = after_white(text, 0)
    for token in pointer.split("/")[1:]:
        key, at = dict(children(text, at))[token.replace("~1", "/").replace("~0", "~")]
    at = key if of_key else at
    return text.count("\n", 0, at) + 1, at - text.rfind("\n", 0, at)


def located(given, answer):
    """The answer of `json_schema` for an input, whose reports get the line and the column of their parts, or of the key of a member that
    must not be there; a report has the number of its line already where each line is a text."""
    status, output, errors = answer
    lines = given.split(b"\n")
    reports = []
    for report in output.splitlines():
        unit = json.loads(report)
        text = lines[unit["line"] - 1] if "line" in unit else given
        keyword = unit["keywordLocation"].rpartition("/")[2]
        line, column = begin_of(text.decode(), unit["instanceLocation"], keyword in ("additionalProperties", "unevaluatedProperties"))
        reports.append({"line": line, **unit, "column": column})
    return status, b"".join(normal(unit) + b"\n" for unit in reports), errors
