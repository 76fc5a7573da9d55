"""Queries and what they select, padded (see `padding`)."""

import json
import re

from padding import COUNT, STEPS, WORDS, Members, Unpadded, deep, normal, padded, tree_of
from padded_schemas import padded_classes

# Selectors, and segments of them: names, wildcards, indices and slices.
QUOTED = r"'[^'\\]*'|\"[^\"\\]*\""
SELECTOR = re.compile(rf"\s*(?:({QUOTED})|(\*)|(-?\d*):(-?\d*)(?::(-?\d*))?|(-?\d+))\s*(,|\Z)")
NAME = r"[A-Za-z_\x80-\U0010ffff][0-9A-Za-z_\x80-\U0010ffff]*"
SEGMENT = re.compile(rf"(\.\.)?\[((?:{QUOTED}|[^\]'\"?])*)\]|(\.\.|\.)({NAME}|\*)")

# Filters that no scalar passes, and that look at members of known names alone.
LITERAL = rf"(?:{QUOTED}|-?\d+(?:\.\d+)?)"
TEST = rf"(?:@\.{NAME}(?:\s*(?:==|<=?|>=?)\s*{LITERAL})?|(?:match|search)\(@\.{NAME}, *{LITERAL}\))"
FILTER = re.compile(rf"(?:\.\.)?\[\?\s*\(?{TEST}(?:\s*(?:&&|\|\|)\s*{TEST})*\)?\]")
BY_NAME = re.compile(rf"\.\.?{NAME}")

# The beginning of a query of a value under many levels, also as a normalized path.
BELOW = "".join(f"[{step!r}]" for step in STEPS)

# How a name stands in a normalized path (RFC 9535, 2.7).
ESCAPES = {"\b": "\\b", "\t": "\\t", "\n": "\\n", "\f": "\\f", "\r": "\\r", "'": "\\'", "\\": "\\\\"}


def shown(name):
    return "".join(ESCAPES.get(c) or (f"\\u{ord(c):04x}" if c < " " else c) for c in name)


def selectors_of(text):
    """The selectors of a bracket: names, `None` for all, numbers and slices."""
    place, selectors, end = 0, [], ","
    while end:
        found = SELECTOR.match(text, place)
        if not found:
            raise Unpadded("a selector of another kind")
        name, every, *bounds, index, end = found.groups()
        if index is not None or name or every:
            selectors.append(int(index) if index else name[1:-1] if name else None)
        else:
            selectors.append(slice(*(int(bound) if bound else None for bound in bounds)))
        place = found.end()
    return selectors


def segments_of(query):
    """The segments of a query: whether all below are asked, the selectors, and the text with more selectors that select nothing."""
    place, segments = 1, []
    while place < len(query):
        found = SEGMENT.match(query, place)
        if not found:
            raise Unpadded("a segment of another kind")
        below, inside, points, name = found.groups()
        if inside is None:
            segments.append((points == "..", [None if name == "*" else name], found[0]))
        else:
            segments.append((below == "..", selectors_of(inside), found[0][:-1] + "".join(f",'{word}'" for word in WORDS) + "]"))
        place = found.end()
    return segments


def children(tree):
    """The names or indices of the children of a value, and these."""
    if isinstance(tree, Members):
        return sorted(dict(tree).items(), key=lambda member: member[0])
    return list(enumerate(tree)) if isinstance(tree, list) else []


def all_below(node):
    """A node, and each below it: first one child with all below it, and then the next."""
    yield node
    path, tree = node
    for step, child in children(tree):
        yield from all_below(((*path, step), child))


def chosen(selector, tree):
    """The children that a selector selects (RFC 9535, 2.3)."""
    found = children(tree)
    if selector is None:
        return found
    if isinstance(selector, str):
        return [child for child in found if child[0] == selector and isinstance(tree, Members)]
    if isinstance(tree, Members) or not found:
        return []
    if isinstance(selector, int):
        return [found[selector]] if -len(found) <= selector < len(found) else []
    return [] if selector.step == 0 else found[selector]


def selected(tree, segments):
    """The nodes that segments select (RFC 9535, 2.5), in the order of the program, which is one of those that it allows."""
    nodes = [((), tree)]
    for is_below, selectors, _ in segments:
        asked = [it for node in nodes for it in all_below(node)] if is_below else nodes
        nodes = [((*path, step), child) for path, value in asked for it in selectors for step, child in chosen(it, value)]
    return nodes


def path_of(steps):
    return "$" + "".join(f"[{step}]" if isinstance(step, int) else f"['{shown(step)}']" for step in steps)


def shown_nodes(nodes):
    """The lines of the values and of the paths of nodes."""
    return [normal(value) for _, value in nodes], [path_of(path).encode() for path, _ in nodes]


def moved(query):
    """A query of the same part under many levels: each `$` outside of strings stands for it."""
    pieces = re.split(rf"((?:'(?:[^'\\]|\\.)*'|\"(?:[^\"\\]|\\.)*\"))", query)
    pieces[::2] = (piece.replace("$", "$" + BELOW) for piece in pieces[::2])
    if re.search(r"match|search", query):
        pieces[1::2] = map(padded_classes, pieces[1::2])
    return "".join(pieces)


def is_by_names(query):
    """Whether a query has segments alone that select no scalar that an object or an array gets."""
    place = 1
    while place < len(query):
        found = BY_NAME.match(query, place) or FILTER.match(query, place)
        if not found:
            return False
        place = found.end()
    return True


def below(paths):
    return [b"$" + BELOW.encode() + path[1:] for path in paths]


def padded_selection(document, query, values, paths):
    """A value, a query, and the lines of the values and of the paths that it selects.

    A plain query selects of the padded value what the definition of RFC 9535 says, if it is right of the value as it is; one by names
    selects the same, padded. Of others the value is padded around alone.
    """
    tree = tree_of(document)
    if [normal(tree_of(value)) for value in values] != values:
        raise Unpadded("no normal text as Python writes it")
    try:
        segments = segments_of(query)
    except Unpadded:
        if is_by_names(query):
            return deep(padded(tree)), moved(query), [normal(padded(tree_of(value))) for value in values], below(paths)
        return deep(tree), moved(query), values, below(paths)
    if shown_nodes(selected(tree, segments)) != (values, paths):
        raise Unpadded("numbers that are written anew")
    values, paths = shown_nodes(selected(padded(tree), segments))
    return deep(padded(tree)), "$" + BELOW + "".join(text for *_, text in segments), values, below(paths)


def padded_refusal_of_query(query, place, words):
    """A text that is no query, and the words, which name the place."""
    if not query.startswith("$") or not place:
        raise Unpadded("no query from its first character on")
    return "$" + BELOW + query[1:], words % (place + len(BELOW))
