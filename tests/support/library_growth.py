"""Calls at sizes around each growth of a vector, a string or a map; what a parser asks for; and the order of members.

Whatever reads a text has one answer, and its value is copied and written in each way. Other rows show what the answers are.
"""

import functools
import json

import growth_rows as rows
from library_calls import Calls, add_generated, built, calls_of, digits
from library_rows import Read


def text_of(shape, size):
    """The text of this shape with `size` pieces, whose numbers fall and have equally many digits."""
    begin, piece, between, inside, close, end = shape
    pieces = between.join(piece.replace("#", str(1_000_000 + size - number)) for number in range(size))
    return begin + pieces + inside + close * size + end


def placed(place, value):
    """The text with this value and the other members in their places."""
    return place.replace("*", rows.OTHERS).replace("@", value)


@calls_of
def check_sizes(calls):
    """Texts of each size at each place, and indents."""
    for shape in (*rows.SHAPES, *rows.NUMBERS):
        for size in rows.SIZES:
            for place in rows.PLACES:
                calls.add(shape, "agree", placed(place, text_of(shape, size)), gives=["agree"])
    for size in (*rows.SIZES, *rows.LARGE):
        indent = "\t" * size
        add_generated(calls, None, Read(rows.TABBED), [indent], rows.TABBED.replace("\t", indent))


@calls_of
def check_number_sizes(calls):
    """Numbers: a literal is the number of its text, which is shown as its value is written."""
    for shape in rows.NUMBERS:
        for size in (*rows.SIZES, *rows.LARGE):
            calls.add(shape, "from_literal", text_of(shape, size), gives=is_number)


def is_number(words):
    return words[0] == "true" and words[1] == words[2]


def check_large(size, checks):
    """Large texts, each of a run of its own, since they are long."""
    for shape in (*rows.SHAPES, *rows.NUMBERS):
        calls = Calls(checks)
        calls.add(shape, "agree", text_of(shape, size), "is large", gives=["agree"])
        calls.run()


@calls_of
def check_asked(calls):
    """What a parser asks an iterator for: nothing at first, and then no more than it needs."""
    for row in rows.UNASKED:
        text, unasked, *limit = row
        judge = lambda words, unasked=unasked: (words[0], words[-1]) == ("error", digits(unasked))
        calls.add(row, "parse", text, *map(str, limit), gives=judge)
        calls.add(row, "unasked", text, gives=[digits(text)])


@calls_of
def check_members(calls):
    """The members of an object in the order of their keys."""
    for row in rows.OBJECTS:
        text, count = row
        members = json.loads(text)
        words = [str(count)]
        for key, value in members.items():
            words += [digits(key), digits(json.dumps(value, separators=(",", ":")))]
        calls.add(row, "get", built(Read(text)), "HashMap", gives=words)


PARTS = (
    *(functools.partial(check_large, size) for size in rows.LARGE),
    check_sizes,
    check_number_sizes,
    check_asked,
    check_members,
)
