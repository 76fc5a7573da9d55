"""The texts that are timed: nine everyday inputs, and some fifty classes of text.

Each is made the same way each time. An input is a function of a source of random numbers that gives the text,
or a value that `json.dumps` writes compactly with all characters as they are.
"""

import dataclasses
import itertools
import json
import pathlib
import random
import typing

WORDS = "able back card deed each fire gate hand idea joke kind lake mind note open page queue rest side time".split()

GREEK = "και στην από που μια είναι αυτό ένας όταν μόνο".split()
CYRILLIC = "который время человек говорить первый большой новый самый".split()
DEVANAGARI = "नमस्ते दुनिया समय लोग पहला नया बड़ा हमेशा".split()
CHINESE = "世界 时间 第一个 新闻 我们的 什么时候 中文字".split()
EMOJI = "😀😃 😂 🚀🌍🌞 🎉🎊 👍 🐈🐕".split()


@dataclasses.dataclass(frozen=True)
class Input:
    """A text that is timed: its name, what makes it, and how the programs are to read and write it."""

    name: str
    make: typing.Callable
    # `text`, `indented`, which asks for indented output, or `lines`, which is a text on each line.
    mode: str = "text"
    # Whether the text is no JSON, so that the programs have to refuse it.
    is_refused: bool = False


def compact(value):
    return json.dumps(value, ensure_ascii=False, separators=(",", ":"))


def write_input(folder, given):
    """Writes the text of an input into the folder, and returns its path."""
    value = given.make(random.Random(639))
    path = folder / f"{given.name.replace(' ', '_').replace('/', '_')}.json"
    path.write_text(value if isinstance(value, str) else compact(value))
    return path


def array_of(items):
    return "[" + ",".join(items) + "]"


def many(text, count):
    """An array that has this text `count` times."""
    return lambda _random: array_of([text] * count)


def words_of(random, count, words=WORDS):
    return " ".join(random.choice(words) for _ in range(count))


# ---- nine everyday inputs


def plain(random):
    """Long strings of which no character needs an escape."""
    return [words_of(random, 2000) for _ in range(300)]


def escapes(random):
    """Words of other scripts, as an encoder writes them that writes ASCII alone: `\\u` escapes side by side."""
    words = GREEK + CYRILLIC + DEVANAGARI + CHINESE + EMOJI
    return json.dumps([words_of(random, random.randint(2, 12), words) for _ in range(12_000)])


def strings(random):
    """Sentences with a character in each that is not ASCII or has an escape."""

    def one():
        words = [random.choice(WORDS) for _ in range(random.randint(4, 24))]
        words.insert(random.randrange(len(words)), random.choice(["é", "größer", "中文字", "😀", "\n", "\t", '"', "\\"]))
        return " ".join(words)

    return [one() for _ in range(30_000)]


def numbers(random):
    """Coordinates of 1 to 15 places behind the point, a few with exponents."""

    def one():
        digits = f"{random.uniform(-180, 180):.{random.randint(1, 15)}f}"
        return digits + random.choice(["", "", "", "", "", "", "", "e3", "E-5", "e+21"])

    return array_of(f"[{one()},{one()}]" for _ in range(100_000))


def integers(random):
    """Whole numbers of 1 to 10 digits."""
    return [random.randint(-(10 ** random.randint(1, 10)), 10 ** random.randint(1, 10)) for _ in range(200_000)]


def wide(random, count=100_000):
    """One object of many members, in random order."""
    keys = list(range(count))
    random.shuffle(keys)
    return {f"member {key:x}": random.choice(WORDS) for key in keys}


def record(random):
    return {
        "id": random.randint(1, 10**8),
        "name": words_of(random, 2),
        "email": f"{random.choice(WORDS)}@{random.choice(WORDS)}.example",
        "active": random.random() < 0.5,
        "balance": round(random.uniform(0, 10_000), 2),
        "tags": [random.choice(WORDS) for _ in range(3)],
        "city": random.choice(WORDS).title(),
        "score": random.randint(0, 1000),
        "note": words_of(random, 8),
        "parent": None,
    }


def records(random, count=15_000):
    """Records of ten members, as an export of a database has them."""
    return [record(random) for _ in range(count)]


def found(name, *places):
    """The first file of that name below these places, if there is one."""
    for place in map(pathlib.Path.expanduser, map(pathlib.Path, places)):
        for path in sorted(place.rglob(name)) if place.is_dir() else ():
            return path.read_text()
    return None


def languages(random):
    """`iso_639-3.json` of the package iso-codes, or a text that is made like it."""

    def one(number):
        letters = "".join(chr(97 + number // 26**place % 26) for place in (2, 1, 0))
        members = {"alpha_3": letters, "name": words_of(random, 2).title(), "scope": "I", "type": random.choice("LEA")}
        if number % 5 == 0:
            members["inverted_name"] = words_of(random, 2).title()
        return members

    return found("iso_639-3.json", "/usr/share/iso-codes") or {"639-3": [one(number) for number in range(7900)]}


def services(random):
    """`endpoints.json` of the package botocore, or a text that is made like it."""

    def one():
        names = [f"{random.choice(WORDS)}-{number}" for number in range(random.randint(2, 40))]
        variants = {"deprecated": True, "variants": [{"tags": ["fips"]}]}
        return {"endpoints": {name: random.choice([{}, {}, {"hostname": f"{name}.example"}, variants]) for name in names}}

    def partition():
        return {"services": {f"{random.choice(WORDS)}{number}": one() for number in range(300)}}

    text = found("endpoints.json", "~/.pyenv/versions", "/usr/lib/python3", "/usr/lib")
    return text or {"partitions": [partition() for _ in range(4)], "version": 3}


EVERYDAY = [
    Input("plain", plain),
    Input("escapes", escapes),
    Input("strings", strings),
    Input("numbers", numbers),
    Input("integers", integers),
    Input("wide", wide),
    Input("records", records),
    Input("iso_639-3", languages),
    Input("endpoints", services),
]


# ---- classes of text


def arrays_of(length, count):
    return lambda random: [[random.randint(0, 999) for _ in range(length)] for _ in range(count)]


def objects_of(length, count):
    return lambda random: [{f"{random.choice(WORDS)} {n}": random.randint(0, 999) for n in range(length)} for _ in range(count)]


def nested_objects(random):
    return [{"one": {"two": {"three": {"four": random.randint(0, 999)}}}} for _ in range(20_000)]


def equal_keys(random):
    """Objects of ten members that have three keys among them."""
    return array_of("{" + ",".join(f'"{random.choice(WORDS[:3])}":{n}' for n in range(10)) + "}" for _ in range(15_000))


def common_prefixes(random):
    """Keys that share their first 40 characters."""
    keys = list(range(50_000))
    random.shuffle(keys)
    return {f"https://example.org/a/long/common/prefix/{key}": key for key in keys}


def short_strings(random):
    return [random.choice(WORDS) for _ in range(200_000)]


def one_string(random):
    return compact(words_of(random, 500_000))


def words_in(words, escaped=False):
    """Strings of words of a script; with escapes each character that is not ASCII is written as `\\u` escapes."""
    return lambda random: json.dumps([words_of(random, 8, words) for _ in range(20_000)], ensure_ascii=escaped)


def units_with_letters(random):
    """Each `\\u` escape with letters behind it."""
    return array_of('"' + "".join(rf"\u00e9{random.choice(WORDS)}" for _ in range(12)) + '"' for _ in range(15_000))


def strings_of(pieces):
    """Strings of 40 of these pieces each."""
    return lambda random: array_of('"' + "".join(random.choice(pieces) for _ in range(40)) + '"' for _ in range(20_000))


def digits(length, count, before=""):
    """Numbers with this many digits."""
    return lambda random: array_of(before + "1" + "".join(random.choices("0123456789", k=length - 1)) for _ in range(count))


def fractions(random):
    return array_of(f"{random.randint(0, 999)}.{random.randint(1, 999)}" for _ in range(150_000))


def exponents(random):
    return array_of(f"{random.randint(1, 9)}.{random.randint(1, 99)}e{random.randint(-300, 300)}" for _ in range(120_000))


def spaced(blank):
    """A short array with this white space between its tokens."""
    return lambda _random: blank.join(["[", *["1", ","] * 20_000, "1", "]"])


def indented_text(random):
    return json.dumps(records(random, 6_000), indent=4)


def deep(opening, closing, depth=400, count=500):
    return lambda _random: array_of([opening * depth + "1" + closing * depth] * count)


def refused_late(random):
    return compact(records(random, 12_000))[:-1] + "}"


def refused_after(blank):
    """White space, and then a character that begins no value."""
    return lambda _random: blank * (3_000_000 // len(blank)) + "x"


def long_lines(random):
    """100,000 records of some 300 bytes, each on a line."""
    return "".join(compact(record(random) | {"note": words_of(random, 25)}) + "\n" for _ in range(100_000))


def short_lines(random):
    """40,000 records of some 215 bytes, each on a line."""
    return "".join(compact(record(random)) + "\n" for _ in range(40_000))


def lines(random):
    return "".join(compact(record(random)) + "\n" for _ in range(15_000))


CLASSES = [
    Input("arrays of one item", arrays_of(1, 100_000)),
    Input("arrays of two items", arrays_of(2, 80_000)),
    Input("arrays of ten items", arrays_of(10, 25_000)),
    Input("empty arrays", many("[]", 300_000)),
    Input("deep arrays", deep("[", "]")),
    Input("objects of one member", objects_of(1, 50_000)),
    Input("objects of two members", objects_of(2, 35_000)),
    Input("objects of eight members", objects_of(8, 12_000)),
    Input("objects of 100 members", objects_of(100, 1_000)),
    Input("objects of 1,000 members", objects_of(1_000, 100)),
    Input("a million members", lambda random: wide(random, 1_000_000)),
    Input("nested objects", nested_objects),
    Input("deep objects", deep('{"a":', "}", count=200)),
    Input("empty objects", many("{}", 300_000)),
    Input("equal keys", equal_keys),
    Input("keys of one prefix", common_prefixes),
    Input("null", many("null", 300_000)),
    Input("true", many("true", 300_000)),
    Input("false", many("false", 300_000)),
    Input("empty strings", many('""', 300_000)),
    Input("short strings", short_strings),
    Input("one long string", one_string),
    Input("Greek", words_in(GREEK)),
    Input("Cyrillic", words_in(CYRILLIC)),
    Input("Devanagari", words_in(DEVANAGARI)),
    Input("Chinese", words_in(CHINESE)),
    Input("emoji", words_in(EMOJI)),
    Input("\\u of Greek", words_in(GREEK, True)),
    Input("\\u of Chinese", words_in(CHINESE, True)),
    Input("\\u in pairs", words_in(EMOJI, True)),
    Input("\\u with letters", units_with_letters),
    Input("line feeds and tabs", strings_of(["\\n", "\\t"])),
    Input("all short escapes", strings_of(['\\"', "\\\\", "\\/", "\\b", "\\f", "\\n", "\\r", "\\t"])),
    Input("escapes among words", strings_of(["\\n", *WORDS])),
    Input("strings of one quote", many('"\\""', 200_000)),
    Input("control characters", strings_of(["\\u0001", "\\u001f"])),
    Input("digits, one", digits(1, 250_000)),
    Input("digits, 20", digits(20, 80_000)),
    Input("digits, 30", digits(30, 60_000)),
    # The original crate makes an infinity of a whole number with this many digits, and can't write it.
    Input("digits, 100,000", digits(100_000, 20, "0.")),
    Input("fractions", fractions),
    Input("exponents", exponents),
    Input("blanks", spaced(" " * 50)),
    Input("tabs", spaced("\t" * 50)),
    Input("line feeds", spaced("\n" * 50)),
    Input("indented input", indented_text),
    Input("refused at once", lambda random: "x" + compact(records(random, 12_000)), is_refused=True),
    Input("refused at the end", refused_late, is_refused=True),
    Input("refused after blanks", refused_after(" "), is_refused=True),
    Input("refused after line feeds", refused_after("\n"), is_refused=True),
    Input("three bytes", lambda _random: "[1]"),
    Input("records, indented output", records, mode="indented"),
    Input("endpoints, indented output", services, mode="indented"),
    Input("integers, indented output", integers, mode="indented"),
    Input("lines", lines, mode="lines"),
]

# ---- keys of one object

HASH_START, HASH_MULTIPLIER = 0x243F6A8885A308D3, 0x9E3779B97F4A7C15


def folded(one, other):
    """The step of the hash of the toolchain's maps, whose start is fixed."""
    product = one * other
    return (product ^ product >> 64) & (1 << 64) - 1


def colliding_keys(_random, count=25_000):
    """Keys of 32 bytes with one hash: the third 8 bytes take away the state after the first 16, where they are ASCII."""
    keys = {}
    for number in itertools.count():
        front = b"%016d" % number
        one, other = (int.from_bytes(part, "little") for part in (front[:8], front[8:]))
        state = folded(one ^ (HASH_START + 32), other ^ HASH_MULTIPLIER)
        if not state & 0x8080808080808080:
            keys[(front + state.to_bytes(8, "little")).decode() + "." * 8] = 1
        if len(keys) == count:
            return keys


def random_keys(random, count=25_000):
    return {"".join(random.choices("0123456789abcdefghijklmnopqrstuv", k=32)): 1 for _ in range(count)}


def falling_keys(_random, count=25_000):
    return {f"{number:032}": 1 for number in reversed(range(count))}


KEYS = [
    Input("25,000 keys of one hash", colliding_keys),
    Input("25,000 random keys", random_keys),
    Input("25,000 falling keys", falling_keys),
    Input("keys of one prefix", common_prefixes),
]

# Records of about 1, 10 and 100 MB, and one object with this many members.
LARGE = Input("records, 10 MB", lambda random: records(random, 43_500))
GROWTH = [
    Input("records, 1 MB", lambda random: records(random, 4_350)),
    LARGE,
    Input("records, 100 MB", lambda random: records(random, 435_000)),
    Input("members, 500,000", lambda random: wide(random, 500_000)),
    Input("members, 1,000,000", lambda random: wide(random, 1_000_000)),
    Input("members, 2,000,000", lambda random: wide(random, 2_000_000)),
]
