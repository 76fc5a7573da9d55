"""Calls of documents, of normal texts, of merges and of places in texts."""

import document_rows as rows
from library_calls import built, calls_of, digits, made, refusal, word
from library_rows import BEGUN, ENDS, FAILURES


def answer_of(answer, name):
    """The words of a compact text with a name before it, or of a refusal."""
    return refusal(*answer) if isinstance(answer, tuple) else [name, digits(answer)]


@calls_of
def check_documents(calls):
    """Parts of documents, and what they are written and read as."""
    for row in rows.MEMBERS:
        text, keys = row
        calls.add(row, "Node::members", text, gives=map(digits, keys))
    for row in rows.ITEMS:
        text, key, items = row
        calls.add(row, "Node::items", text, key, gives=map(digits, items))
    for row in rows.VALUES:
        text, limit, compact, size = row
        calls.add(row, "Node::to_value", text, str(limit), gives=[digits(compact), str(size), str(size)])
    for row in rows.FORMATTED:
        text, lines = row
        calls.add(row, "Node::format", text, gives=[digits(lines), digits(f"{lines}\n")])
    in_turn = []
    for _, answer in rows.IN_TURN:
        in_turn += answer_of(answer, "document") + ["true"] * isinstance(answer, str)
    calls.add(rows.IN_TURN[0], "DocumentReader::read", *(text for text, _ in rows.IN_TURN), gives=in_turn)
    for row in rows.LIMITED:
        text, limit, answer = row
        calls.add(row, "DocumentReader::limited", text, str(limit), gives=refusal(*answer))


@calls_of
def check_equal(calls):
    """Documents that are compared with each other and with values."""
    for row in rows.EQUAL:
        one, other, is_equal = row
        calls.add(row, "Node::eq", made(one), made(other), gives=[word(is_equal)])
    for row in rows.EQUAL_VALUES:
        text, value, is_equal = row
        calls.add(row, "Node::equals_value", text, built(value), gives=[word(is_equal)])


@calls_of
def check_merges(calls):
    """Merges and copies of documents. The texts are compact, so the result equals the patch if its text does."""
    for row in rows.MERGES:
        add_merge(calls, row, *row)
    for row in rows.DEEP_MERGES:
        add_merge(calls, row, *map(made, row))
    for pieces in rows.COPIED:
        text = made(pieces)
        calls.add(pieces[0], "copy", text, gives=[digits(text)])


def add_merge(calls, row, target, patch, merged):
    calls.add(row, "merge_documents", target, patch, gives=[digits(merged), word(merged == patch)])


@calls_of
def check_beginnings(calls):
    """Where parts of texts and keys of members begin."""
    for call, table in [("place_of", rows.PLACES), ("key_place_of", rows.KEY_PLACES)]:
        for row in table:
            text, pointer, answer = row
            calls.add(row, call, text, pointer, gives=place_of(answer))


def place_of(answer):
    """The words of a place, or of a refusal."""
    if answer is None:
        return ["none"]
    return refusal(*answer) if isinstance(answer[2], str) else map(str, answer)


@calls_of
def check_normal(calls):
    """Normal texts, compact and indented."""
    for row in rows.NORMAL:
        text, compact = row
        calls.add(row, "NormalText::to_string", text, gives=[digits(compact)])
        calls.add(row, "is_normal", text, gives=[word(text == compact)])
        calls.add(row, "is_normal", compact, gives=["true"])
    for row in rows.INDENTED:
        text, lines = row
        calls.add(row, "NormalText::format", text, gives=[digits(lines)])
        calls.add(row, "NormalText::format_to", text, gives=lambda words, lines=lines: words[:2] == ["ok", digits(lines)])
    for row in rows.DEEP:
        text, compact = map(made, row)
        for given in (text, compact):
            calls.add(row, "NormalText::to_string", given, gives=[digits(compact)])
    for row in rows.WRITERS:
        for failure in FAILURES:
            for count in range(len(row[2])):
                add_failing(calls, row, count, *failure)


def add_failing(calls, row, count, name, kind, message):
    """A writer of one byte a call that takes so many bytes, and fails at the next."""
    text, call, written = row
    words = ["error", digits(kind), digits(message), digits(written[:count]), str(count + 1)]
    calls.add(row, call, text, "1", str(count + 1), name, gives=words)


@calls_of
def check_alike(calls):
    """Beginnings of texts with other ends: they have the two texts of their values, or their errors, also of a reader of all."""
    for begun in BEGUN:
        texts = calls.checks.some([begun[:length] + end for length in range(len(begun) + 1) for end in ENDS])
        found = []
        for call in ["JsonValue", "NormalText", "NormalReader"]:
            judge = lambda words, texts=texts, found=found: first_unlike(texts, words, found)
            calls.add(None, f"texts by {call}", *texts, gives=judge)


def first_unlike(texts, words, found):
    """The first text whose answer is not that of the calls before, or that ran out of memory; true where there is none."""
    answers = []
    while words:
        size = 3 if words[0] == "texts" else 6
        answers.append(words[:size])
        words = words[size:]
    found.append(answers)
    unlike = (text for text, *both in zip(texts, answers, found[0], strict=True) if both[0] != both[1] or "OutOfMemory" in both[0])
    return next(unlike, True)


PARTS = (check_documents, check_equal, check_merges, check_beginnings, check_normal, check_alike)
