"""The words in which the original crate refuses a text, and the port's for the same refusal."""

import re

from texts import KINDS, NONE, SAME, shown

# The crate's words of each kind of refusal that it has.
WORDS = {
    kind: re.compile(re.escape(words).replace("%s", "(.+)") if theirs is SAME else theirs, re.DOTALL)
    for kind, (words, theirs) in KINDS.items()
    if theirs is not NONE
}
MESSAGE = re.compile(r"(Parse error at line:(\d+), col:(\d+): )(.*)", re.DOTALL)
ESCAPES = {"\\0": "\0", "\\t": "\t", "\\n": "\n", "\\r": "\r", "\\'": "'", '\\"': '"', "\\\\": "\\"}


def unescaped(character):
    """The character that the crate shows as it is, or by an escape."""
    if character.startswith("\\u{"):
        return chr(int(character[3:-1], 16))
    return ESCAPES.get(character, character)


def text_before(text, message):
    """The text in front of the place that a message names."""
    line, column = (int(number) for number in MESSAGE.fullmatch(message).group(2, 3))
    lines = text.split("\n")[:line]
    return "\n".join([*lines[:-1], lines[-1][:column]])


def parts_of(kind, groups, before):
    """What the port's words of a kind show, where the crate's show this, after the text before the place."""
    if kind == "KeyNotString":
        return tuple(name.lower() for name in groups)
    if kind == "UnexpectedInLiteral":  # the crate shows the character that it expected
        return (shown(before[-1]),)
    return tuple(shown(unescaped(character)) for character in groups)


def port_message(text, message):
    """The kind of the crate's refusal of a text, by its message, and the message that the port then has."""
    place, _, _, words = MESSAGE.fullmatch(message).groups()
    for kind, theirs in WORDS.items():
        if found := theirs.fullmatch(words):
            return kind, place + KINDS[kind][0] % parts_of(kind, found.groups(), text_before(text, message))
    return None, message
