"""Rows of the library: what each of its calls returns, one call and its inputs a line of `call_vectors`.

Texts are read by a parser of an iterator, from a text, by a check and by events, which have one answer; and each position of a refusal says
which characters are left. Values are built by hand or read.
"""

import itertools

import library_documents
import library_growth
import library_rows as rows
import texts
from library_calls import add_generated, built, calls_of, digits, is_written, made, refusal, word, written

# What the rows run.
PROGRAMS = ("call_vectors",)

# The kinds of errors that come after the parser looked at a character that it did not consume.
LOOKED_AHEAD = {"InvalidCharacter", "TooDeep", "EmptyInteger", "LeadingZero", "EmptyFraction", "EmptyExponent", "NumberOutOfRange"}

# The kinds of errors of a character inside a token, where white space is no better than others.
IN_TOKENS = {"InvalidHexDigit", "InvalidEscape", "UnexpectedInLiteral"}

# The kinds of errors that a beginning of an accepted text may have.
CUT_OFF = {"UnexpectedEof", "EmptyInteger", "EmptyFraction", "EmptyExponent"}

# What reads a text once, and what it gives where the text has a value.
READERS = {"from_str": "value", "check": "ok", "read_events": "events"}
PARSERS = {"parse": "value", "parse_events": "events"}


def after(text):
    """The line and the column after a text."""
    return text.count("\n") + 1, len(text) - text.rfind("\n") - 1


def rest_of(text, line, column):
    """The characters of a text after a position."""
    start = 0
    for _ in range(line - 1):
        start = text.index("\n", start) + 1
    return text[start + column :]


def left(text, answer):
    """What a parser has not asked for after an answer."""
    if not isinstance(answer, tuple):
        return ""
    line, column, kind, *what = answer
    is_ahead = kind in LOOKED_AHEAD or (kind == "KeyNotString" and what == ["number"])
    return rest_of(text, line, column)[is_ahead:]


def add_reading(calls, row, text, answer, limit=""):
    """A text, read in each way, with its compact text or its refusal."""
    for call, good in (READERS | PARSERS).items():
        if isinstance(answer, tuple):
            words = refusal(*answer)
        elif good == "events":
            calls.add(row, call, text, limit, gives=is_event)
            continue
        else:
            words = [good, digits(answer)] if good == "value" else [good]
        rest = [digits(left(text, answer))] if call in PARSERS else []
        calls.add(row, call, text, limit, gives=[*words, *rest])


def is_event(words):
    """Whether events were told, and all characters were asked for."""
    return words[0] == "events" and words[2:] in ([], [""])


@calls_of
def check_texts(calls):
    """Texts that are read and refused; each compact text is read and written once more."""
    for row in texts.READ:
        text, compact = row
        add_reading(calls, row, text, compact)
        calls.add(row, "from_str", compact, gives=["value", digits(compact)])
        calls.add(row, "format", built(rows.Read(text)), gives=lambda words, row=row: is_same_indented(words, row[1]))
    for row in texts.REFUSED:
        text, *answer = row
        add_reading(calls, row, text, tuple(answer))
    for row in texts.LIMITS:
        text, limit, answer = row
        add_reading(calls, row, text, tuple(answer) if isinstance(answer, tuple) else answer, str(limit))


def is_same_indented(words, compact):
    """Whether an indented text differs from a compact one in white space outside of strings alone."""
    out, is_inside, is_escaped = [], False, False
    for c in bytes.fromhex(words[0]).decode():
        if is_inside or c not in " \n":
            out.append(c)
        is_inside ^= c == '"' and not is_escaped
        is_escaped = is_inside and c == "\\" and not is_escaped
    return "".join(out) == compact


@calls_of
def check_shown(calls):
    """Each message that shows a character."""
    for row in texts.BEFORE_ANY:
        begin, column, kind = row
        for c in [*texts.SHOWN, *["\t"] * (kind in IN_TOKENS)]:
            add_reading(calls, row, begin + c, (1, column, kind, c))
    for c in ["\x00", "\t", "\x1f"]:
        add_reading(calls, None, f'"{c}', (1, 2, "ControlCharacter", c))


@calls_of
def check_places(calls):
    """Tokens at each place, of texts and of iterators."""
    for row in calls.checks.some(list(texts.read_at_each_place())):
        text, compact = row
        add_reading(calls, row, text, compact)
    for row in calls.checks.some(list(texts.refused_at_each_place())):
        text, *answer = row
        add_reading(calls, row, text, tuple(answer))


@calls_of
def check_cut(calls):
    """Accepted texts, cut at each place."""
    for row in (*texts.READ, *((text, answer) for text, _, answer in texts.LIMITS if isinstance(answer, str))):
        text = row[0]
        for length in range(len(text) + 1):
            begin = text[:length]
            for call in READERS | PARSERS:
                calls.add(row, call, begin, gives=lambda words, begin=begin: is_beginning(words, begin))


def is_beginning(words, begin):
    """Whether this is accepted, or refused where it ends."""
    if words[0] != "error":
        return True
    line, column = after(begin)
    return words[1] in CUT_OFF and words[3:5] == [str(line), str(column)] and words[6:] in ([], [""])


@calls_of
def check_ends(calls):
    """Beginnings of texts with other ends: whatever reads them, one answer."""
    begun = [text[:length] for text in rows.BEGUN for length in range(len(text) + 1)]
    for begin, end in calls.checks.some(list(itertools.product(begun, rows.ENDS))):
        found = []
        for call in READERS | PARSERS:
            calls.add(None, call, begin + end, gives=lambda words, found=found: is_one_answer(words, found))


def is_one_answer(words, found):
    """Whether this is the answer of the calls before, but for what a value gives, and memory has no part in it."""
    found.append(words[:6] if words[0] == "error" else [])
    return found[-1] == found[0] and "OutOfMemory" not in words[:2]


@calls_of
def check_calls(calls):
    """Parsers that are called again, and what is left of the characters."""
    for row in rows.CALLS:
        add_again(calls, row, *row)
    for place, last in itertools.product(range(6), ["", "x"]):
        text = '"' + "".join(rows.PAIRS[:place] + rows.PAIRS[place + 1 :]) + last + '"'
        add_again(calls, None, text, [rows.UNPAIRED, (1, 32 + len(last), "UnexpectedEof")])
    for row in rows.REST:
        text, rest = row
        calls.add(row, "parse", text, gives=lambda words, row=row: rest_of(row[0], *map(int, words[3:5])) == row[1])


def add_again(calls, row, text, answers, limit=""):
    """What one call after the other gives, of values and of events."""
    words, events = [], []
    for answer in answers:
        told = refusal(*answer) if isinstance(answer, tuple) else None
        words += [*(told or ["value", digits(answer)]), digits(left(text, answer))]
        events += [*(told or ["events", digits(answer + " ")]), digits(left(text, answer))]
    calls.add(row, "parse", text, limit, str(len(answers)), gives=words)
    calls.add(row, "parse_events", text, limit, str(len(answers)), gives=events)


@calls_of
def check_long(calls):
    """Long and deep texts."""
    for row in rows.LONG:
        pieces, answer = row
        add_reading(calls, row, made(pieces), answer if isinstance(answer, tuple) else made(answer))
    for row in rows.LIMITED:
        pieces, limit, answers = row
        add_again(calls, row, made(pieces), answers, str(limit))
        add_reading(calls, row, made(pieces), answers[0], str(limit))


@calls_of
def check_events(calls):
    """What is told, in which order, and what an event that is refused ends with."""
    for row in rows.EVENTS:
        text, events = row
        for limit in ["", "3"]:
            calls.add(row, "read_events", text, limit, gives=["events", digits(events)])
            calls.add(row, "parse_events", text, limit, gives=["events", digits(events), ""])
    for row in rows.REFUSED_EVENTS:
        text, answers = row
        words = [["number"] if it is None else refusal(*it) if isinstance(it, tuple) else ["events", digits(it)] for it in answers]
        calls.add(row, "read_events", text, "", "refused", gives=words[0])
        calls.add(
            row, "parse_events", text, "", str(len(answers)), "refused", gives=lambda found, words=words: is_told(found, words)
        )


def is_told(found, words):
    """Whether these are the answers, whatever is left after each."""
    for answer in words:
        if found[: len(answer)] != answer:
            return False
        found = found[len(answer) + 1 :]
    return found == []


def add_written(calls, row, value, compact):
    """A value, as compact text in each way."""
    for call in ["stringify", "JsonValue::stringify"]:
        calls.add(row, call, built(value), gives=[digits(compact)])
    for call in ["generate", "write_to"]:
        calls.add(row, call, built(value), gives=lambda words, compact=compact: is_written(words, ["ok"], compact))


def add_formatted(calls, row, value, lines):
    """A value, as text that is indented with two spaces, in each way."""
    for call in ["format", "JsonValue::format"]:
        calls.add(row, call, built(value), gives=[digits(lines)])
    add_generated(calls, row, value, ["  "], lines)
    calls.add(row, "format_to", built(value), gives=lambda words: is_written(words, ["ok"], lines))


@calls_of
def check_written(calls):
    """Texts of values, compact and indented, which are read back as the same values."""
    for row in rows.WRITTEN:
        add_written(calls, row, *row)
        calls.add(row, "equal", built(row[0]), built(rows.Read(row[1])), gives=["true"] * 3)
    for row in texts.READ:
        add_written(calls, row, rows.Read(row[0]), row[1])
    for row in texts.STRINGS:
        characters, text = row
        for value in [characters, rows.Read(texts.spelled(characters)), rows.Read(text)]:
            add_written(calls, row, value, text)
    for row in rows.QUOTED:
        c, shown = row
        add_written(calls, row, c, f'"{shown}"')
        add_written(calls, row, {f"a{c}": f"{c}b"}, f'{{"a{shown}":"{shown}b"}}')
    for row in rows.FORMATTED:
        add_formatted(calls, row, *row)
        calls.add(row, "equal", built(row[0]), built(rows.Read(row[1])), gives=["true"] * 3)
    for row in texts.INDENTED:
        add_formatted(calls, row, rows.Read(row[0]), row[1])
    for row in rows.INDENTED:
        value, indents, lines = row
        add_generated(calls, row, value, indents, lines)
        if not indents[-1].strip(" \t"):
            calls.add(row, "equal", built(value), built(rows.Read(lines)), gives=["true"] * 3)


@calls_of
def check_writers(calls):
    """Writers that take one byte a call, and fail at each call."""
    for row in rows.WRITERS:
        value, call, indents, text = row
        for failure in rows.FAILURES:
            for number in range(1, len(text.encode()) + 1):
                add_failing(calls, row, value, call, indents, text, failure, number)
        words = written(["ok"], text, len(text.encode()))
        calls.add(row, call, built(value), "1", "", "", "", *indents, gives=words)
    # One that takes all it is given is called once for each text.
    row = rows.WRITERS[2]
    value, call, indents, text = row
    words = written(["ok"] * 3, text * 3, 3)
    calls.add(row, call, built(value), "", "", "", "3", *indents, gives=words)
    for row in rows.AGAIN:
        value, chunk, text = row
        for failure in rows.FAILURES:
            answer = ["error", *map(digits, failure[1:]), "ok"]
            judge = lambda words, answer=answer, text=text: is_written(words, answer, text)
            calls.add(row, "generate", built(value), str(chunk), "2", failure[0], "2", gives=judge)


def add_failing(calls, row, value, call, indents, text, failure, number):
    """A writer of one byte a call that fails at the call of this number."""
    name, kind, message = failure
    words = written(["error", digits(kind), digits(message)], text.encode()[: number - 1].decode(), number)
    calls.add(row, call, built(value), "1", str(number), name, "", *indents, gives=words)


@calls_of
def check_long_writers(calls):
    """The same with an array of long strings, at each call of a writer that takes many bytes a call."""
    value, (name, kind, message) = ["x" * length for length in rows.LENGTHS], rows.FAILURES[0]
    answer = ["error", digits(kind), digits(message)]
    for row in rows.ARRAYS:
        call, indents, (opened, between, closed) = row
        text = opened + between.join(f'"{item}"' for item in value) + closed
        judge = lambda words, text=text: is_written(words, ["ok"], text)
        calls.add(row, call, built(value), "1000", "", "", "", *indents, gives=judge)
        for number in range(1, len(text) // 1_000 + 1):
            judge = lambda words, text=text, number=number: is_cut(words, answer, text, number)
            calls.add(row, call, built(value), "1000", str(number), name, "", *indents, gives=judge)


def is_cut(words, answer, text, number):
    """Whether a writer that failed at the call of this number has a beginning of the text, and was not called again."""
    return words == [*answer, words[3], str(number), "0", "0"] and digits(text).startswith(words[3])


@calls_of
def check_numbers(calls):
    """Numbers by their parts and texts."""
    for row in rows.DECIMALS:
        spelled, is_negative, shown, power, text = row
        parts = [word(shown == ""), word(is_negative), shown, str(power), digits(text)]
        for number in (*spelled, text):
            judge = lambda words, parts=parts: words[:5] == parts and words[-1] == "true"
            calls.add(row, "from_text", number, gives=judge)
            add_written(calls, row, rows.Read(number), text)
    for row in rows.NO_NUMBERS:
        spelled, error, message = row
        for number in spelled:
            calls.add(row, "from_text", number, gives=["error", error, digits(message)])
    for row in rows.WHOLE:
        text, signed, unsigned = row
        calls.add(row, "from_text", text, gives=lambda words, row=row: words[5:7] == [word(row[1]), word(row[2])])
        for call, whole in [("from_i64", signed), ("from_u64", unsigned)]:
            if whole is not None:
                calls.add(row, call, str(whole), gives=lambda words, row=row: words[5:7] == [word(row[1]), word(row[2])])
    for row in rows.FROM_WHOLE:
        call, whole, is_negative, shown, power = row
        parts = [word(shown == ""), word(is_negative), shown, str(power), digits(str(whole))]
        calls.add(row, call, str(whole), gives=lambda words, parts=parts: words[:5] == parts)
    for row in rows.SHORT:
        text, short = row
        calls.add(row, "from_text", text, gives=lambda words, short=short: words[7] == ("none" if short is None else digits(short)))
    calls.add(None, "zero", gives=["true", "false", "", "0", digits("0"), "0", "0", digits("0"), "true"])
    calls.add(None, "messages", gives=[digits(it) for it in rows.MESSAGES])


@calls_of
def check_values(calls):
    """Kinds, copies, comparisons and conversions."""
    for row in rows.KINDS:
        value, kind = row
        kinds = ["boolean", "number", "string", "null", "array", "object"]
        calls.add(row, "kind", built(value), gives=[kind, *(word(kind == it) for it in kinds)])
    for row in (*rows.WRITTEN, *((rows.Read(text), compact) for text, compact in texts.READ)):
        value, compact = row
        calls.add(row, "try_clone", built(value), gives=["true", digits(compact), digits(compact)])
    for row in rows.EQUAL:
        one, other, is_equal = row
        calls.add(row, "equal", built(one), built(other), gives=[word(is_equal), word(is_equal), "true"])
    for row in rows.CONVERTED:
        value, wanted, compact = row
        calls.add(row, "try_from", built(value), wanted, gives=["ok", digits(compact)])
    for row in rows.UNCONVERTED:
        value, kind, compact = row
        for wanted, expected in rows.TYPES:
            if expected != kind:
                message = f"Unexpected JSON value: {kind}. Expected {expected} value"
                words = ["error", digits(message), digits(compact), digits(compact)]
                calls.add(row, "try_from", built(value), wanted, gives=words)


@calls_of
def check_parts(calls):
    """What types see of values, items and members."""
    for row in rows.SEEN:
        value, wanted, seen = row
        words = [str(it) if isinstance(it, int) else digits(it) for it in seen]
        calls.add(row, "get", built(value), wanted, gives=words)
    for row in rows.CHANGED:
        value, wanted, content, compact = row
        calls.add(row, "get_mut", built(value), wanted, built(content), gives=["true", digits(compact)])
    for row in rows.UNCHANGED:
        value, wanted, content, compact = row
        calls.add(row, "get_mut", built(value), wanted, built(content), gives=["false", digits(compact)])
    for row in rows.FIRST_ITEM:
        value, item, is_seen, compact = row
        calls.add(row, "get_mut of an item", built(value), built(item), gives=[word(is_seen), digits(compact)])
    step = lambda it: f"#{it}" if isinstance(it, int) else it
    for row in rows.PLACES:
        value, steps, found = row
        words = ["none"] if found is None else [digits(found)]
        calls.add(row, "index", built(value), "", *map(step, steps), gives=words)
    for row in rows.PUT:
        value, new, steps, found, compact = row
        words = [digits(found), digits(compact)]
        calls.add(row, "index_mut", built(value), built(new), *map(step, steps), gives=words)


PARTS = (
    check_texts,
    check_shown,
    check_places,
    check_cut,
    check_ends,
    check_calls,
    check_long,
    check_events,
    check_written,
    check_writers,
    check_long_writers,
    check_numbers,
    check_values,
    check_parts,
    *library_documents.PARTS,
    *library_growth.PARTS,
)
