"""How pages and comments are written, as far as it can be counted.

The words, the sentences and the phrases are those of the prose: blocks of code are left out, and a code span is one
word. The pages are read in one form: a list of paragraphs, with an item of a list as one, and a list of cells of tables.
Of comments the phrases and the length of sentences are looked for.
"""

import re

# The most words of a page, and of one that is not named here: a tenth more than it has, so what is written replaces what was there.
# Up to 2,000 are read in ten minutes. Longer ones are looked up by heading: calls, lemmas, definitions.
WORDS = {
    "README.md": 600,
    "CHANGELOG.md": 1_500,
    "CONTRIBUTING.md": 1_800,
    "bench/results.md": 800,
    "bindings/README.md": 1_000,
    "docs/ARCHITECTURE.md": 1_100,
    "docs/CALLERS.md": 3_300,
    "docs/DECISIONS.md": 2_100,
    "docs/DEFINITIONS.md": 2_600,
    "docs/DIFFERENCES.md": 1_000,
    "docs/GUARANTEES.md": 4_750,
    "docs/RECIPES.md": 700,
    "docs/SCHEMA.md": 1_400,
    "docs/TESTING.md": 900,
}
OTHER_WORDS = 600
# The words of a sentence, of which a reader keeps some 20 in mind. A longer one than 40 is two.
MEAN, LONGEST = 20, 40

# What is said in plainer words: `nested`, `scalar`, `without building a value`, `accepts`, `returns`, `is in`.
PHRASES = (
    r"no values? built",
    r"hold(?:s|ing)? no others?",
    r"(?:is|are|was|were) told",
    r"so many",
    r"the same of",
    r"(?:in|inside) (?:one another|each other)",
    r"says? nothing",
    r"stand(?:s|ing)?(?! for)",
    r"stood",
)
PHRASE = re.compile(r"\b(?:" + "|".join(PHRASES) + r")\b", re.I)

FENCED = re.compile(r"^```.*?^```$", re.M | re.S)
ITEM = re.compile(r"\s*(?:[-*]|\d+\.) (.*)")
REFERENCE = re.compile(r"\[[^]]+\]: ")
SPAN = re.compile(r"`[^`]*`")
LINK = re.compile(r"!?\[([^]]*)\](?:\([^)]*\)|\[[^]]*\])")
END = re.compile(r"(?<=[.?!])[\"')]*\s+")
COMMENT = {".rt": re.compile(r"\s*//[/!]?(?: (.*))?$"), ".antt": re.compile(r"\s*--(?: (.*))?$")}


def plain(text):
    """The text without marks; each code span is the word `x`."""
    return SPAN.sub("x", LINK.sub(r"\1", text)).replace("**", "").replace("*", "")


def parts(page):
    """The paragraphs of a page, and the cells of its tables."""
    paragraphs, cells, lines = [], [], []
    for line in [*FENCED.sub("", page).splitlines(), ""]:
        item = ITEM.match(line)
        is_text = line.strip() and not line.startswith(("|", "#", "    ")) and not REFERENCE.match(line)
        if lines and (item or not is_text):
            paragraphs.append(plain(" ".join(lines)))
            lines = []
        if line.startswith("|"):
            cells += [plain(cell.strip()) for cell in re.split(r"(?<!\\)\|", line.strip().strip("|"))]
        elif is_text:
            lines.append(item[1] if item else line.strip())
    return paragraphs, cells


def count(text):
    """The words of a text, which have a letter or a digit."""
    return sum(re.search(r"\w", word) is not None for word in text.split())


def sentences(texts):
    return [sentence for text in texts for sentence in END.split(text) if count(sentence)]


def words(page):
    paragraphs, cells = parts(page)
    return sum(map(count, (text for text in paragraphs + cells if re.search("[A-Za-z]", text))))


def faults(page):
    """What is wrong with how a page is written."""
    paragraphs, cells = parts(page)
    said = sentences(paragraphs)
    mean = sum(map(count, said)) / max(1, len(said))
    if mean > MEAN:
        yield f"its sentences have {mean:.1f} words in the mean, more than {MEAN}"
    for sentence in said + sentences(cells):
        if count(sentence) > LONGEST:
            yield f"a sentence of {count(sentence)} words, more than {LONGEST}: {sentence[:60]}"
    for text in paragraphs + cells:
        for phrase in PHRASE.finditer(text):
            yield f"say this in plain words: {text[max(0, phrase.start() - 30):phrase.end() + 10]}"


def comments(path):
    """The comments of a file of code or of definitions: of each the number of its first line, and its prose."""
    first, lines = 0, []
    for number, line in enumerate([*path.read_text().splitlines(), ""], 1):
        found = COMMENT[path.suffix].match(line)
        if found:
            first = first if lines else number
            lines.append(found[1] or "")
        elif lines:
            yield first, plain(" ".join(FENCED.sub("", "\n".join(lines)).split("\n")))
            lines = []


def comment_faults(path):
    """What is wrong with how a file's comments are written: of each the number of the comment's first line."""
    for first, text in comments(path):
        for phrase in PHRASE.finditer(text):
            yield first, f"say this in plain words: {text[max(0, phrase.start() - 30):phrase.end() + 10]}"
        for sentence in sentences([text]):
            if count(sentence) > LONGEST:
                yield first, f"a sentence of {count(sentence)} words, more than {LONGEST}: {sentence[:60]}"
