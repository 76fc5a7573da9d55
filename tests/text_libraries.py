"""Rows of the libraries about texts that are no JSON: regular expressions, references, formats and categories of characters.

Each is a call of `call_vectors`, as those of `library.py` are. A matcher that tries one choice after another has no answer to the hostile
rows within the limit of a run.
"""

import hashlib
import pathlib
import re

import published
import regexp_rows as regexps
import text_rows as texts
from library_calls import calls_of, digits, word
from places import TOP

# What the rows run.
PROGRAMS = ("call_vectors",)


def made(text):
    """A text, or that of its pieces."""
    return text if isinstance(text, str) else "".join(piece * count for piece, count in text)


def refusal(messages, kind, place):
    """The words of a refusal."""
    return ["error", kind, str(place), digits(f"{messages[kind]} at character {place}")]


@calls_of
def check_regexps(calls):
    """What regular expressions of RFC 9485 match, twice, and which texts are none."""
    for row in (*regexps.MATCHED, *regexps.HOSTILE):
        pattern, text, whole, part = row
        calls.add(row, "IRegexp", made(pattern), made(text), gives=[word(whole), word(part), word(whole)])
    for row in regexps.REFUSED:
        text, *answer = row
        calls.add(row, "IRegexp", text, gives=refusal(regexps.MESSAGES, *answer))
    for row in regexps.TOO_DEEP:
        text, kind = row
        calls.add(row, "IRegexp", made(text), gives=lambda words, kind=kind: words == refusal(regexps.MESSAGES, kind, words[2]))


@calls_of
def check_patterns(calls):
    """Where patterns of schemas are found, twice, with which work, and which texts are none."""
    for row in (*regexps.FOUND, *regexps.ASSERTIONS):
        pattern, text, is_found = row
        calls.add(row, "SchemaPattern", pattern, text, gives=[word(is_found)] * 2)
    for row in regexps.NO_PATTERNS:
        text, *answer = row
        for call in ["SchemaPattern", "is_found_within"]:
            calls.add(row, call, text, gives=refusal(regexps.PATTERN_MESSAGES, *answer))
    for row in regexps.FOUND_WITHIN:
        add_within(calls, row, "is_found_within", *row)


def add_within(calls, row, call, first, asked):
    """Texts with the work that each may take, one after the other."""
    inputs = [it for text, work, _ in asked for it in ("" if work is None else str(work), text)]
    calls.add(row, call, first, *inputs, gives=lambda words: is_within(words, asked))


def is_within(words, asked):
    """Whether these are the answers, and no more work is left than was there: none where no answer is."""
    for text, work, answer in asked:
        given, left, *words = words
        if given != word(answer) or not is_left(left, work, answer):
            return False
    return words == []


def is_left(left, work, answer):
    if work is None:
        return left == "unlimited"
    return left == "0" if answer is None else int(left) <= work


@calls_of
def check_regexes(calls):
    """Which texts are regular expressions of ECMA-262, and that the format has the same answer."""
    for row in regexps.REGEXES:
        alternatives, is_regex = row
        for text in alternatives.split(" "):
            calls.add(row, "is_regex", text, gives=[word(is_regex)] * 2)
    for row in regexps.LONE_REGEXES:
        text, is_regex = row
        calls.add(row, "is_regex", made(text), gives=[word(is_regex)] * 2)


@calls_of
def check_built(calls):
    """Regular expressions that are built by hand."""
    for row in regexps.BUILT:
        call, words, asked = row
        calls.add(row, call, " ".join(words), *(text for text, _ in asked), gives=[word(answer) for _, answer in asked])
    for row in regexps.WORDS:
        text, *answers = row
        for name, answer in zip(["WordBoundary", "NotWordBoundary"], answers):
            calls.add(row, "searches", " ".join([name, *regexps.FOO, name, "sequence=3"]), text, gives=[word(answer)])
    for row in regexps.IN_TURN:
        words, asked = row
        inputs = [it for text, _ in asked for it in ("", text)]
        calls.add(row, "Automaton", " ".join(words), *inputs, gives=[word(answer) for _, answer in asked])


@calls_of
def check_work(calls):
    """What work built expressions and automata take."""
    for call, table in [("matches_within", regexps.WITHIN), ("Automaton", regexps.REMEMBERED)]:
        for row in table:
            words, asked = row
            add_within(calls, row, call, " ".join(words), asked)
    # One character of a class takes some work, and not much.
    judge = lambda words: words[0] == "true" and 900 <= int(words[1]) <= 999
    calls.add(None, "matches_within", regexps.DIGIT, "1000", "7", gives=judge)


@calls_of
def check_categories(calls):
    """Each character is in its category and its group alone."""
    for row in texts.CATEGORIES:
        group, letter, members = row
        for other_group, other, _ in texts.CATEGORIES:
            for name in [other, ""]:
                is_in = group == other_group and name in (letter, "")
                calls.add(row, "Category::named", other_group, name, members, gives=[word(is_in)] * len(members))
        calls.add(row, "Category::value_named", group + letter, members, gives=["true"] * len(members))
    for row in texts.MEMBERS:
        group, letter, member, other = row
        calls.add(row, "Category::named", group, letter, member + other, gives=["true", "false"])
    for row in texts.NO_CATEGORIES:
        calls.add(row, "Category::named", *row, "", gives=["none"])
    for row in texts.NAMED:
        name, member, other = row
        calls.add(row, "Category::value_named", name, member + other, gives=["true", "false"])


def sum_of(lines):
    return hashlib.sha256("".join(f"{it}\n" for it in lines).encode()).hexdigest()


def runs():
    """The table of categories: for each run the code point after its end, and the category."""
    source = pathlib.Path(TOP, "crates/text_categories/src/table.rt").read_text()
    numbers = [divmod(int(it, 16), 32) for it in re.findall(r"0x([0-9A-F]{8})", source)]
    return [(end, texts.NAMES[number]) for end, number in numbers]


def members(names):
    """The characters of these categories, by the table."""
    ends = runs()
    begins = [0, *(end for end, _ in ends)]
    return {c for begin, (end, name) in zip(begins, ends) if name in names for c in range(begin, end)}


def newer(table):
    """The characters of a table of `newer.rt`."""
    source = pathlib.Path(TOP, "crates/text_ecma_regexp/src/newer.rt").read_text().partition(table)[2].partition("];")[0]
    return of_ranges((int(first, 16), int(last, 16)) for first, last in re.findall(r"\(0x(\w+), 0x(\w+)\)", source))


def of_ranges(ranges):
    return {c for first, last in ranges for c in range(first, last + 1)}


def identifiers():
    """The characters that have `ID_Start`, and those that have `ID_Continue`, as the library defines them."""
    starts = members("Lu Ll Lt Lm Lo Nl".split()) - {0x2E2F} | of_ranges(texts.OTHER_STARTS) | newer("NEWER_STARTS")
    return starts, starts | members("Mn Mc Nd Pc".split()) | of_ranges(texts.OTHER_PARTS) | newer("NEWER_PARTS")


def sum_of_runs(characters):
    ends = [c for c in sorted(characters) if c + 1 not in characters]
    begins = [c for c in sorted(characters) if c - 1 not in characters]
    return sum_of(f"{first:04X}..{last:04X}" for first, last in zip(begins, ends))


def check_table(checks):
    """The tables of categories and of identifiers are those of Unicode."""
    checks.row("text_categories: the table", published.CATEGORIES, lambda: sum_of(f"{end} {name}" for end, name in runs()))
    sums = tuple(published.IDENTIFIERS.values())
    checks.row("text_ecma_regexp: the tables", sums, lambda: tuple(sum_of_runs(it) for it in identifiers()))


@calls_of
def check_references(calls):
    """References that are resolved against bases, and their fragments."""
    for row in texts.RESOLVED:
        reference, target = row
        calls.add(row, "resolve", texts.BASE, reference, gives=[digits(target)])
        long_base, long_target = (it.replace("http://a/", f"http://{texts.LONG_HOST}/", 1) for it in [texts.BASE, target])
        calls.add(row, "resolve", long_base, reference, gives=[digits(long_target)])
    for row in texts.BASES:
        base, reference, target = row
        calls.add(row, "resolve", base, reference, gives=[digits(target)])
    for row in texts.FRAGMENTS:
        text, before, fragment = row
        calls.add(row, "without_fragment", text, gives=[digits(before)])
        calls.add(row, "fragment", text, gives=["none" if fragment is None else digits(fragment)])


@calls_of
def check_formats(calls):
    """Formats by their names and by their functions."""
    for row in texts.FORMATS:
        name, text, has_it = row
        calls.add(row, "Format", name, text, gives=[name, word(has_it), word(has_it)])
    for row in texts.NO_FORMATS:
        calls.add(row, "Format", *row, "", gives=["none"])


PARTS = (
    check_regexps,
    check_patterns,
    check_regexes,
    check_built,
    check_work,
    check_categories,
    check_table,
    check_references,
    check_formats,
)
