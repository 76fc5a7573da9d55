"""Rows made wider: each object has 300 more members, each array 300 more items, and each list of other things 300 more entries.

No clause says that a call succeeds, so a body that gives up at 17 members is proved too. Each function below takes a row that a
program answers, and returns the same row, padded, with its answer. No answer is taken from a program: it is the row's own with the
padding put into it. Where padding does not keep the answer, `Unpadded` says why, and the table of the row how many there are.
"""

import collections
import json
import re
import sys

# How many are added, of which some are long. A program without proof is given no long texts, so there it is fewer.
COUNT = 40 if "--unproved" in sys.argv else 300
LONG = 4


def strings(first, letter):
    """Strings, and at their end some of 100 characters."""
    return [f"{first}{i:03}" for i in range(COUNT - LONG)] + [letter * 98 + f"{i:02}" for i in range(LONG)]


# Keys and strings that no row has, of which a half of the keys come before others.
KEYS = [("!" if place % 2 else "") + word for place, word in enumerate(strings("q", "q"))]
WORDS = strings("y", "y")

# Characters that no row has.
LETTERS = "".join(chr(0xE000 + i) for i in range(COUNT))

# Texts of more characters or containers are not padded: they are rows of a size already, or deep.
LONGEST = 20_000
MOST = 300


class Unpadded(Exception):
    """Why a row can't be padded."""


class Number(str):
    """A number, as it is written."""


class Members(list):
    """The members of an object, as they are written: pairs of a key and a value."""


def scalars(letter):
    """Numbers, and strings that no row has."""
    return [Number(7_000_000 + place) if place % 3 == 0 else word for place, word in enumerate(strings(letter, letter))]


MEMBERS = list(zip(KEYS, scalars("x")))
ITEMS = scalars("w")


def refused(constant):
    raise ValueError(f"{constant} is no JSON")


def tree_of(text):
    """The tree of a text, in which numbers and equal keys stay as they are written."""
    try:
        text = text.decode() if isinstance(text, bytes) else text
        if len(text) > LONGEST or text.count("[") + text.count("{") > MOST:
            raise Unpadded("a large text")
        return json.loads(text, parse_int=Number, parse_float=Number, parse_constant=refused, object_pairs_hook=Members)
    except ValueError as error:
        raise Unpadded(f"no JSON text: {error}") from None


def pieces(tree):
    """The pieces of the text of a tree."""
    if isinstance(tree, Number):
        yield tree
    elif isinstance(tree, Members):
        yield "{"
        for place, (key, value) in enumerate(tree):
            yield "," * (place > 0) + json.dumps(key, ensure_ascii=False) + ":"
            yield from pieces(value)
        yield "}"
    elif isinstance(tree, list):
        yield "["
        for place, item in enumerate(tree):
            yield "," * (place > 0)
            yield from pieces(item)
        yield "]"
    else:
        yield json.dumps(tree, ensure_ascii=False)


def text_of(tree):
    return "".join(pieces(tree)).encode()


def in_order(tree):
    """The same value with the members of each object in the order of their keys, and of equal ones the last."""
    if isinstance(tree, Members):
        return Members(sorted((key, in_order(value)) for key, value in dict(tree).items()))
    return [in_order(item) for item in tree] if isinstance(tree, list) else tree


def normal(tree):
    """The normal text of a tree whose numbers are written as normal texts have them."""
    return text_of(in_order(tree))


def padded(tree, items=True, members=MEMBERS):
    """A tree with more members in each object and, unless `items` is false, more items at the end of each array."""
    if isinstance(tree, Members):
        return Members([(key, padded(value, items, members)) for key, value in tree] + members)
    if isinstance(tree, list):
        return [padded(item, items, members) for item in tree] + ITEMS * items
    return tree


def padded_text(text):
    return text_of(padded(tree_of(text)))


def padded_normal(text):
    """The padded text of a normal text."""
    tree = tree_of(text)
    if normal(tree) != text:
        raise Unpadded("no normal text as Python writes it")
    return normal(padded(tree))


# What stands before a value inside a wide array, in a wide object.
BEFORE = text_of(Members(MEMBERS))[:-1] + b',"w":' + text_of(ITEMS)[:-1] + b","

# Refusals that are others inside a container.
ALONE = ("Expected EOF", "Nesting is too deep")


def refused_after(text, line, column, words):
    """A text that is refused at this place, inside a wide array: the text, and the column that it is refused at."""
    if words.startswith(ALONE):
        raise Unpadded("refused as no part of another text")
    return BEFORE + text, column + len(BEFORE) * (line == 1)


# A refusal as programs that read one text tell it, and as those that read lines do.
PARSE_ERROR = re.compile(rb"(.*Parse error at line:)(\d+)(, col:)(\d+)(: (.*)\n)", re.S)
LINE = re.compile(rb"(\w+: line (\d+), col )(\d+)(: (.*))")


def padded_refusal(given, answer):
    """A text that is refused, and the answer."""
    status, output, errors = answer
    told = PARSE_ERROR.fullmatch(errors)
    if not told:
        raise Unpadded("not refused as a text")
    before, line, between, column, after, words = told.groups()
    text, column = refused_after(given, int(line), int(column), words.decode())
    return text, (status, output, before + line + between + b"%d" % column + after)


def padded_line(line, result, prefix):
    """A line, and the line that is printed for it, a normal text after what `prefix` matches."""
    words = re.match(prefix, result)[0]
    return padded_text(line), words + padded_normal(result[len(words) : -1]) + b"\n"


def padded_report(line, report):
    """A line that is refused, and what is told of it."""
    shown = LINE.fullmatch(report)
    if not shown or shown[5].decode().startswith(ALONE):
        return line, report
    line, column = refused_after(line, 1, int(shown[3]), shown[5].decode())
    return line, shown[1] + b"%d" % column + shown[4] + b"\n"


def padded_lines(given, answer, prefix=rb"", is_limited=False):
    """Lines, and the answer of a program that prints a line for each and tells of those that are refused: padded are those that can
    be. Where levels are limited, a refused line is left as it is."""
    if len(given) > LONGEST:
        raise Unpadded("a large text")
    status, output, errors = answer
    lines, results = given.split(b"\n"), output.splitlines(True)
    told = {int(re.match(rb"\w+: line (\d+)", report)[1]): report for report in errors.splitlines(True)}
    numbers = (number for number in range(1, len(lines) + 1) if number not in told)
    for place, number in zip(range(len(results)), numbers):
        lines[number - 1], results[place] = padded_line(lines[number - 1], results[place], prefix)
    for number in () if is_limited else told:
        lines[number - 1], told[number] = padded_report(lines[number - 1], told[number])
    return b"\n".join(lines), (status, b"".join(results), b"".join(told.values()))


# What leads to the bottom of `deep`, as tokens of a pointer: in a member, behind the items that are added, and more levels.
STEPS = ["w", COUNT, *[0] * (COUNT - 2)]


def deep(tree):
    """The text of a tree under as many levels, of which the first two are wide."""
    levels = len(STEPS) - 2
    return BEFORE + b"[" * levels + text_of(tree) + b"]" * levels + b"]}"


def padded_pointer(pointer):
    if pointer and not pointer.startswith("/"):
        raise Unpadded("no pointer, but one with tokens before it")
    return "".join(f"/{step}" for step in STEPS) + pointer


def padded_part(pointer, given, answer):
    """A pointer, a text, and the answer of `json_part`."""
    status, output, errors = answer
    if status == 0:
        return padded_pointer(pointer), deep(padded(tree_of(given))), (0, padded_normal(output[:-1]) + b"\n", errors)
    if status == 3:
        return pointer, *padded_refusal(given, answer)
    # An item more could be the part that is missed.
    return padded_pointer(pointer), deep(padded(tree_of(given), items=False)), answer


def merged(target, patch):
    """`MergePatch` of RFC 7396, section 2."""
    if not isinstance(patch, Members):
        return patch
    result = dict(target) if isinstance(target, Members) else {}
    for key, value in dict(patch).items():
        if value is None:
            result.pop(key, None)
        else:
            result[key] = merged(result.get(key), value)
    return Members(result.items())


def padded_merge(given, patch, result):
    """A value, a merge patch that adds other members than the value gets, and the text of the result."""
    value, changes = tree_of(given), tree_of(patch)
    if normal(merged(value, changes)) != result:
        raise Unpadded("numbers that are written anew")
    value, changes = padded(value), padded(changes, members=[(f"{key}+", value) for key, value in MEMBERS])
    return text_of(value), text_of(changes), normal(merged(value, changes))


def found(path, value):
    return Members([("op", "test"), ("path", path), ("value", value)])


def harmless(tree):
    """Operations that find what is there: of one part, and then of the whole, so that no others are in a row with them."""
    if isinstance(tree, Members):
        part = found("/" + KEYS[0], MEMBERS[0][1])
    else:
        part = found("/0", tree[0]) if isinstance(tree, list) and tree else found("", tree)
    return [part] * (COUNT - 1) + [found("", tree)]


def padded_operation(operation, items):
    """An operation with members that it does not know, and a padded value."""
    if not isinstance(operation, Members):
        return operation
    return Members([(key, padded(value, items) if key == "value" else value) for key, value in operation] + MEMBERS)


def uses_end(operations):
    """Whether an operation names the end of an array."""
    paths = (str(value) for operation in operations for key, value in operation if key in ("path", "from"))
    return any("-" in path.split("/") for path in paths)


def padded_patch(given, patch, result):
    """A value, a patch with more operations before and after its own, and the text of the result."""
    value, operations, result = tree_of(given), tree_of(patch), tree_of(result)
    items = not uses_end(operations)
    value, result = padded(value, items), padded(result, items)
    operations = [padded_operation(operation, items) for operation in operations]
    return text_of(value), text_of([*harmless(value), *operations, *reversed(harmless(result))]), normal(result)


def padded_failure(given, patch, number):
    """A value, a patch of which an operation fails, and its number. An item more could be the one that is missed."""
    value, operations = padded(tree_of(given), items=False), tree_of(patch)
    operations = [padded_operation(operation, items=False) for operation in operations]
    return text_of(value), text_of([*harmless(value), *operations, *harmless(value)]), number + COUNT


def padded_mistake(given, patch, words):
    """A value, a text that is no patch, and what is told of it."""
    value, operations = tree_of(given), tree_of(patch)
    if isinstance(operations, Members):
        return given, text_of(padded(operations)), words
    number = re.match(r"operation (\d+):(.*)", words)
    if not number:
        raise Unpadded("nothing to pad")
    operations = [padded_operation(operation, items=False) for operation in operations]
    words = f"operation {int(number[1]) + COUNT}:{number[2]}"
    return given, text_of([*harmless(value), *operations, *harmless(value)]), words


def padded_settings(words, given, answer):
    """Words, settings, and the answer of `example_settings`, which with a port prints all of the object."""
    status, output, errors = answer
    if b"Parse error" in errors:
        return padded_refusal(given, answer)
    return padded_text(given), (status, padded_normal(output[:-1]) + b"\n" if words and output else output, errors)


def padded_rows(checks, name, rows, pad, unpadded):
    """Each row with what `pad` makes of what follows it; those that can't be padded are these, a number for each reason."""
    reasons = collections.Counter()
    for row, *parts in rows:
        try:
            yield row, pad(*parts)
        except Unpadded as reason:
            reasons[str(reason)] += 1
    name = f"{name}: padded, rows that are not"
    if checks.wants(name):
        checks.check(name, dict(reasons), unpadded)
