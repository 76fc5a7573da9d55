"""What programs answer that read one text: `jsonnorm`, `json_part` with the pointer to all of it, and `json_path` with `$`, which builds the value.

Most texts are those of texts.py. Many texts of one line each are in `groups`, for `json_lines`.
"""

import itertools
import json
import resource

import texts
from padding import Unpadded, padded_normal, padded_text, refused_after
from running import STACK, UNPROVED, program, reported, run_of, small_stack

EOF = (1, 0, "UnexpectedEof")

# The input, and the compact text, or the line, the column, the kind and what its words show.
INPUTS = [
    (b"", EOF),
    (b" \t\r\n  ", (2, 2, "UnexpectedEof")),
    (b"\n\n\n", (4, 0, "UnexpectedEof")),
    (b"  true\n", b"true"),
    (b"true", b"true"),
    (b"true\r\n", b"true"),
    (b"[1,]", (1, 3, "InvalidCharacter", "]")),
    (b"x", (1, 0, "InvalidCharacter", "x")),
    (b"1 2", (1, 3, "ExpectedEof", "2")),
    (b"null\x00", (1, 5, "ExpectedEof", "\x00")),
    (b"{} {}", (1, 4, "ExpectedEof", "{")),
    (b"\xef\xbb\xbf1", (1, 0, "InvalidCharacter", "\ufeff")),
    (b"\x0b1", (1, 0, "InvalidCharacter", "\x0b")),
    (b"1\xc2\xa0", (1, 2, "ExpectedEof", "\xa0")),
    (b"truX", (1, 4, "UnexpectedInLiteral", "X")),
    (b'"\\u 041"', (1, 4, "InvalidHexDigit", " ")),
    (b'"\\ "', (1, 3, "InvalidEscape", " ")),
    (b'{"a":1,"a":[2.50,-0,1e400]}', b'{"a":[2.5,0,1e400]}'),
    (b'"\\ud83d\\ude00\\/\\u001f"', b'"\xf0\x9f\x98\x80/\\u001f"'),
    (b'"\\ud83d"', (1, 8, "InvalidUtf16")),
    (b"[" * 1_000_000, (1, 1_000_000, "UnexpectedEof")),
    (b'{"a":' * 200_000, (1, 1_000_000, "UnexpectedEof")),
]

# What is nested in itself: how each level begins, what stands inside the last and how each level ends; the
# same of the text that is written; the bracket and the name of its kind.
NESTED = [
    ((b"[", b"", b"]"), (b"[", b"", b"]"), "[", "array"),
    ((b"[1,", b"2", b"]"), (b"[1,", b"2", b"]"), "[", "array"),
    ((b'{"a":', b"null", b"}"), (b'{"a":', b"null", b"}"), "{", "object"),
    ((b'{"b":1,"a":', b"null", b"}"), (b'{"a":', b"null", b',"b":1}'), "{", "object"),
]

# How many levels.
LEVELS = [1_000, 100_000, 1_000_000]

# Sizes of objects below, at and after what the program treats as many, and where an object of such a size stands, as Python values.
WIDTHS = [0, 8, 9, 17, 64, 65, 1_000]
PLACES = [
    lambda inside: inside,
    lambda inside: [inside],
    lambda inside: {"z": 1, "a": inside},
    lambda inside: {"a": inside},
    lambda inside: {"\U00010000": inside, **members(64)},
    lambda inside: {**members(64), "\uffff": inside},
    lambda inside: {**members(64), "w": {"first": inside, **members(64)}},
]

# A deep value as the first member of an object of 70, which is refused after the last.
AFTER_DEEP = b"," + b",".join(b'"k%d":%d' % (i, i) for i in range(69)) + b"x"

# How many members a large text has.
LARGE = 450_000


def members(count):
    """That many members, their keys in no order."""
    return {f"k{i * 7919 % 1_000_003:07}": i for i in range(count)}


def wide():
    """Objects of many members, inside others: a name, the text, and the ones that Python's library writes with sorted keys."""
    for width in WIDTHS:
        for number, place in enumerate(PLACES):
            value = place(members(width))
            text = json.dumps(value, ensure_ascii=False)
            compact = json.dumps(value, ensure_ascii=False, sort_keys=True, separators=(",", ":"))
            indented = json.dumps(value, ensure_ascii=False, sort_keys=True, indent=2)
            yield f"{width} members at place {number}", text.encode(), compact.encode(), indented.encode()


def large(count=LARGE):
    """A text of many members, its compact text and its indented text."""
    each = [f'"{i:07}":"{i:07}\u2764"' for i in range(count)]
    spaced = [member.replace(":", ": ") for member in each]
    text = "{" + " , ".join(reversed(each)) + "}"
    compact = "{" + ",".join(each) + "}"
    indented = "{\n  " + ",\n  ".join(spaced) + "\n}"
    return text.encode(), compact.encode(), indented.encode()


def inside_others(size):
    """What grows with a size, inside others: texts and their compact texts."""
    things = [*texts.things_of_size(size), *((text, text) for text in texts.nested_of_size(size))]
    return [tuple(map(texts.placed, places, thing)) for thing, places in itertools.product(things, texts.PLACES)]


def as_items(rows):
    """One array of these texts, and its compact text."""
    return tuple(("[" + ",".join(it) + "]").encode() for it in zip(*rows))


def padded_inputs():
    """The inputs with more members in each object, and more items in each array, and the refused ones inside such ones."""
    for row in inputs():
        given, expected = row
        try:
            if isinstance(expected, bytes):
                yield like(row, padded_text(given), padded_normal(expected))
            else:
                line, column, *why = expected
                text, column = refused_after(given, line, column, texts.words_of(*why))
                yield like(row, text, (line, column, *why))
        except Unpadded:
            # It is long, or refused as no part of another text.
            pass


def padded_lines():
    """Those of one line, as rows of a group."""
    for row in padded_inputs():
        given, expected = row
        if b"\n" not in given:
            why = [expected.decode()] if isinstance(expected, bytes) else expected
            yield like(row, given.decode(), *why)


def groups():
    """Texts of a line each: tokens, strings and errors at each place, round each size at which texts are read otherwise, and what
    grows at sizes round each growth of a vector, a string or a map, alone and inside others. Each group has a name, and rows of a text
    and its compact text, or the text and why it is refused."""
    yield "tokens and strings", texts.read_at_each_place()
    yield "what follows a token, and broken strings", texts.refused_at_each_place()
    yield "equal keys", texts.many()
    yield "what follows many", texts.after_many()
    yield "long numbers", texts.long_numbers()
    yield "padded", padded_lines()
    for size in texts.SIZES:
        nested = [(text, text) for text in texts.nested_of_size(size)]
        yield f"things of size {size}", [*texts.things_of_size(size), *nested]
        yield f"{size} open containers", texts.open_of_size(size)
        if size <= texts.LARGEST_INSIDE:
            yield f"things of size {size} inside others", inside_others(size)


class Reader:
    """A program that reads one text, its arguments for a whole one, and its status for one that is no JSON."""

    def __init__(self, name, words, refusal):
        self.name = name
        self.words = words
        self.refusal = refusal
        self.out_of_memory = reported(4, name, "out of memory")

    def run(self, given, words=None, **how):
        return run_of(program(self.name), self.words if words is None else words, given, **how)

    def written(self, text):
        """The answer of a run that writes this line."""
        return 0, text + b"\n", b""

    def refused(self, line, column, *why):
        """The answer of a run whose text is refused, by the kind and what its words show."""
        words = f"Parse error at line:{line}, col:{column}: {texts.words_of(*why)}"
        return reported(self.refusal, self.name, words)

    def expected(self, answer):
        """The answer, by a compact text or a refusal."""
        return self.written(answer) if isinstance(answer, bytes) else self.refused(*answer)

    def check(self, checks, name, given, expected, at=None, **how):
        """One row: what is answered to a text, where `at` is the row that it is from."""
        checks.row(f"{self.name}: {name}", self.expected(expected), self.run, given, at=at, **how)

    def check_inputs(self, checks):
        for row in inputs():
            self.check(checks, f"input {row[0][:40]}", *row, at=row)

    def check_padded(self, checks):
        for row in padded_inputs():
            self.check(checks, f"padded input .. {row[0][-40:]}", *row, at=row)

    def check_sizes(self, checks):
        """What grows at sizes round each growth, all of a size in one text."""
        for size in texts.SIZES:
            if size <= texts.LARGEST_INSIDE:
                self.check(checks, f"things of size {size}", *as_items(inside_others(size)))

    def check_wide(self, checks):
        for name, text, compact, _ in wide():
            self.check(checks, name, text, compact)

    def check_large(self, checks):
        """An input of more than 10 MB."""
        text, compact, _ = large()
        self.check(checks, "a large input", text, compact)

    def check_nested(self, checks):
        """Containers inside one another, on a small stack."""
        for row, levels in itertools.product(NESTED, LEVELS):
            (opening, inside, closing), _, _, kind = row
            text = opening * levels + inside + closing * levels
            size = len(text)
            for given, expected in (
                (text + b"x", (1, size + 1, "ExpectedEof", "x")),
                (b'{"a":' + text + b',"a":1}', b'{"a":1}'),
                (b"{" + text + b":1}", (1, size + 1, "KeyNotString", kind)),
                (text[:-1], (1, size - 1, "UnexpectedEof")),
            ):
                name = f"{levels} levels, {given[:20]} .. {given[-20:]}"
                self.check(checks, name, given, expected, at=row, preexec_fn=small_stack)

    def check_deep_members(self, checks):
        """Deep values that an object of many members holds when its text is refused, on a small stack."""
        for row, levels in itertools.product(NESTED, LEVELS):
            opening, inside, closing = row[0]
            text = b'{"a":' + opening * levels + inside + closing * levels + AFTER_DEEP
            name = f"{levels} levels {opening} in an object of 70"
            self.check(checks, name, text, (1, len(text), "ExpectedCommaOrBrace", "x"), at=row, preexec_fn=small_stack)

    def check_deep_memory(self, checks):
        """Limits on the address space with deep texts, on a small stack: the answer, or the status of out of memory."""
        statuses = set()
        for row in NESTED:
            (opening, inside, closing), (begun, within, ended), _, _ = row
            text = opening * 100_000 + inside + closing * 100_000
            compact = begun * 100_000 + within + ended * 100_000 + b"\n"
            for megabytes in (8, *range(24, 160, 16)):
                name = f"{self.name}: {megabytes} MB of memory for levels {opening}"
                if checks.needs_memory(name):
                    status, output, errors = self.run_within(megabytes, text)
                    statuses.add(status)
                    wanted = (0, True, b"") if output == compact else (4, True, self.out_of_memory[2])
                    checks.check(name, (status, compact.startswith(output), errors), wanted, at=row)
        name = f"{self.name}: both answers for deep texts"
        if checks.needs_memory(name):
            checks.check(name, tuple(sorted(statuses)), (0, 4))

    def run_within(self, megabytes, given):
        """The answer on a small stack and with so much address space."""

        def least():
            resource.setrlimit(resource.RLIMIT_STACK, (STACK, STACK))
            resource.setrlimit(resource.RLIMIT_AS, (megabytes * 1_048_576,) * 2)

        return self.run(given, preexec_fn=least)


def inputs():
    """The inputs, and the texts that are read and refused, each with what is expected."""
    yield from INPUTS
    for row in (*texts.READ, texts.after_lines()):
        text, compact = row
        yield like(row, text.encode(), compact.encode())
    for row in texts.STRINGS:
        characters, text = row
        yield like(row, texts.spelled(characters).encode(), text.encode())
    for row in (*texts.REFUSED, *texts.characters_shown(), *texts.broken_surrogates()):
        text, *why = row
        yield like(row, text.encode(), tuple(why))


def like(row, *items):
    """A row with the place of another."""
    made = type(row)(items)
    made.place = row.place
    return made
