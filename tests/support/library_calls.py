"""Calls of the library, each with the words of its answer, which one run of `call_vectors` answers."""

import itertools
from decimal import Decimal

import library_rows as rows
import texts
from running import program, run_of

# How many calls one run of the program answers, within the time that a run has.
AT_ONCE = 100


def digits(text):
    return text.encode().hex()


def word(it):
    """A word of an answer: a truth value, a number, or nothing."""
    return "none" if it is None else str(it).lower()


def described(value):
    """The words that build a value by hand."""
    if isinstance(value, rows.Read):
        return [f"text={digits(value)}"]
    if value is None:
        return ["null"]
    if isinstance(value, bool):
        return [f"boolean={digits(word(value))}"]
    if isinstance(value, (int, Decimal)):
        return [f"number={digits(str(value))}"]
    if isinstance(value, str):
        return [f"string={digits(value)}"]
    if isinstance(value, list):
        return [*itertools.chain(*map(described, value)), f"array={len(value)}"]
    # The last key is the key of the first value.
    keys = [f"key={digits(key)}" for key in reversed(value)]
    return [*keys, *itertools.chain(*map(described, value.values())), f"object={len(value)}"]


def built(value):
    return " ".join(described(value))


def refusal(line, column, kind, *what):
    """The words of a refusal."""
    words = "Out of memory" if kind == "OutOfMemory" else texts.words_of(kind, *what)
    message = f"Parse error at line:{line}, col:{column}: {words}"
    return ["error", kind, digits("".join(what)), str(line), str(column), digits(message)]


class Calls:
    """Calls of the library, each with its name, the words of its answer and its row, which one run of the program answers."""

    def __init__(self, checks):
        self.checks = checks
        self.asked = []

    def add(self, at, call, *inputs, gives):
        """A call with these inputs; `gives` are the words that it answers, or a function that judges them."""
        name = f"library: {call} {[it[:60] for it in inputs]}"
        if self.checks.wants(name, *inputs):
            line = "\t".join([call, *map(digits, inputs)])
            self.asked.append((line, name, gives, at))

    def run(self):
        for start in range(0, len(self.asked), AT_ONCE):
            self.run_some(self.asked[start : start + AT_ONCE])

    def run_some(self, asked):
        given = "".join(line + "\n" for line, *_ in asked).encode()
        _, output, errors = run_of(program("call_vectors"), [], given)
        answers = output.decode().splitlines()
        answers += [f"\tno answer\t{errors.decode()}"] * (len(asked) - len(answers))
        for (_, name, gives, at), answer in zip(asked, answers):
            words = answer.split("\t")[1:]
            if callable(gives):
                self.checks.check(name, gives(words), True, at=at)
            else:
                self.checks.check(name, tuple(words), tuple(gives), at=at)


def calls_of(part):
    """A part that adds calls, and runs the program once."""

    def check(checks):
        calls = Calls(checks)
        part(calls)
        calls.run()

    return check


def made(pieces):
    return "".join(piece * count for piece, count in pieces)


def written(answer, text, count):
    """The words of a writer that took a text in so many calls, none of them with no bytes, and was not flushed."""
    return [*answer, digits(text), str(count), "0", "0"]


def is_written(words, answer, text):
    """Whether a writer took this text, in any number of calls."""
    return len(words) > 2 and words == written(answer, text, words[-3])


def add_generated(calls, row, value, indents, lines):
    """A value that a generator with these indents writes."""
    judge = lambda words: is_written(words, ["ok"], lines)
    calls.add(row, "generate", built(value), "", "", "", "", *indents, gives=judge)
