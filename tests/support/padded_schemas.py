"""Schemas and their values, padded (see `padding`): each place that a report names stays as it is."""

import contextlib
import re

from padding import COUNT, KEYS, LETTERS, LONGEST, MEMBERS, WORDS, Members, Number, Unpadded, padded, text_of, tree_of

# What keywords have: a schema, a list of schemas with what changes nothing at its end, or schemas by names.
ONE = {"additionalProperties", "contains", "contentSchema", "else", "if", "items", "not", "then"}
ONE |= {"unevaluatedItems", "unevaluatedProperties"}
LISTS = {"allOf": [True] * COUNT, "anyOf": [False] * COUNT, "oneOf": [False] * COUNT, "prefixItems": []}
NAMED = {"$defs": KEYS, "properties": KEYS, "dependentSchemas": KEYS}

# How many names get what takes a time for each name and each member: patterns, and lists of names.
FEW = 40

# Which judge the items and the members of a value one by one, and which count them.
OF_ITEMS = {"contains", "items", "prefixItems", "unevaluatedItems"}
OF_OTHERS = {"additionalProperties", "unevaluatedProperties"}
ITEM_COUNTS = {"minItems", "maxItems"}
MEMBER_COUNTS = {"minProperties", "maxProperties"}

# Where a class begins in a pattern, unless its first item is one that stands there alone.
CLASS = re.compile(r"(?<!\\)\[\^?(?![-\]])")


def padded_classes(pattern):
    """A pattern whose classes have more items, which are in no string that it is asked of."""
    return CLASS.sub(lambda begin: begin[0] + LETTERS, pattern)


def padded_pattern(pattern):
    """The same with more alternatives."""
    return padded_classes(pattern) + "".join(f"|{letter}" for letter in LETTERS)


def keywords(tree):
    """Each name and value in a tree, however deep."""
    if isinstance(tree, Members):
        for key, value in tree:
            yield key, value
            yield from keywords(value)
    elif isinstance(tree, list):
        for item in tree:
            yield from keywords(item)


def is_count(value):
    return isinstance(value, Number) and value.isdecimal()


def is_found(pattern):
    """Whether a pattern is found in a key that objects get, as Python's dialect has it."""
    try:
        return any(re.search(pattern, key) for key in KEYS)
    except re.error:
        return True


class Padding:
    """How one schema, its values, and what it compares them with are padded: with more members unless a pattern asks of them too, and
    with more items unless a schema judges each. Of a schema that is refused no keyword gets another form: what stands behind a
    pattern could complete it."""

    def __init__(self, schema, is_refused=False):
        words = list(keywords(schema))
        self.is_refused = is_refused
        self.items = not any(key in OF_ITEMS or key in ITEM_COUNTS and not is_count(value) for key, value in words)
        patterns = [name for key, value in words if key == "patternProperties" and isinstance(value, Members) for name, _ in value]
        is_named = any("propertyNames" in value for key, value in words if key == "$ref" and isinstance(value, str))
        is_exact = all(is_count(value) for key, value in words if key in MEMBER_COUNTS)
        self.members = is_exact and not is_named and not any(map(is_found, patterns))

    def data(self, tree):
        return padded(tree, self.items, MEMBERS if self.members else [])

    def schema(self, schema):
        if not isinstance(schema, Members):
            return schema
        result = Members((key, self.keyword(key, value)) for key, value in schema)
        names = {key for key, _ in schema}
        # So the members that objects get are no additional ones.
        if self.members and names & OF_OTHERS and "properties" not in names:
            result.append(("properties", self.named(KEYS)))
        return result

    def named(self, names, schema=True):
        return Members((name, schema) for name in names)

    def keyword(self, key, value):
        """The value of a keyword; what is not of its form stays as it is."""
        if key in ONE:
            return self.schema(value)
        if isinstance(value, Members):
            return self.of_members(key, value)
        if isinstance(value, list):
            return self.of_list(key, value)
        return self.of_scalar(key, value)

    def of_members(self, key, value):
        if key in NAMED:
            return Members([(name, self.schema(it)) for name, it in value] + self.named(NAMED[key]))
        if key == "patternProperties":
            return Members([(name, self.schema(it)) for name, it in value] + self.named(WORDS[-FEW:], False))
        if key == "propertyNames":
            return self.names(value)
        if key == "dependentRequired":
            more = KEYS[-FEW:] if self.members else []
            return Members([(name, it + more if isinstance(it, list) else it) for name, it in value] + self.named(more or KEYS, more))
        return self.data(value) if key == "const" else value

    def of_list(self, key, value):
        if key in LISTS and value:
            return [self.schema(it) for it in value] + LISTS[key]
        if key == "required":
            return value + KEYS * self.members
        if key in ("enum", "examples"):
            return [self.data(it) for it in value] + WORDS
        return self.data(value) if key == "const" else value

    def of_scalar(self, key, value):
        if key == "propertyNames" and isinstance(value, bool):
            return self.names(value)
        if key == "pattern" and isinstance(value, str) and not isinstance(value, Number) and not self.is_refused:
            return padded_pattern(value)
        is_more = self.members if key in MEMBER_COUNTS else self.items and key in ITEM_COUNTS
        return Number(int(value) + COUNT) if is_more and is_count(value) else value

    def names(self, value):
        """What names have to be, or else those that objects get."""
        if self.is_refused or not self.members:
            return self.schema(value)
        return Members([("anyOf", [self.schema(value), Members([("enum", KEYS)]), *LISTS["anyOf"]])])


def padded_values(schema, values):
    """A schema, and values that it judges as before."""
    tree = tree_of(schema)
    padding = Padding(tree)
    return text_of(padding.schema(tree)), [text_of(padding.data(tree_of(value))) for value in values]


def padded_refused(schema):
    """A schema that is refused at the same place, or that has the same unknown names."""
    tree = tree_of(schema)
    if not isinstance(tree, Members):
        raise Unpadded("no keyword")
    return text_of(Padding(tree, is_refused=True).schema(tree))


def padded_lines(schema, given):
    """A schema, and lines that it judges as before; what is no JSON text stays as it is."""
    tree = tree_of(schema)
    padding, lines = Padding(tree), given.split(b"\n")
    if len(given) > LONGEST:
        raise Unpadded("a large text")
    for place, line in enumerate(lines):
        with contextlib.suppress(Unpadded):
            lines[place] = text_of(padding.data(tree_of(line)))
    return text_of(padding.schema(tree)), b"\n".join(lines)
