"""The pictures of what was measured, drawn from the tables of results.md.

`results.svg` has a bar for each input of each table; `speed.svg` has one for each program, over the everyday inputs.
"""

import math
import pathlib
from xml.sax.saxutils import escape

FASTER, SLOWER, OTHER, RANGE, GRID, INK = "#2b7a5b", "#b5482d", "#8a8f98", "#444444", "#cccccc", "#222222"

# The groups of `speed.svg`: a title, and the columns of a table with what each is called. The original is 1.
ORIGINAL = "original"
GROUPS = (
    (
        "Programs: a text to its normal text",
        {"jsonnorm": "jsonnorm", ORIGINAL: "Rust tinyjson", "Python": "Python json", "jq -S": "jq -S"},
    ),
    (
        "Libraries: a text to a tree, and back",
        {
            "documents": "tinyjson_document",
            "values": "tinyjson",
            ORIGINAL: "Rust tinyjson",
            "json": "Rattle's json",
            "serde_json": "Rattle's serde_json",
        },
    ),
)
OURS = ("jsonnorm", "documents", "values")


def mean(values):
    """The geometric mean of those that there are."""
    values = [value for value in values if value is not None]
    return math.exp(sum(map(math.log, values)) / len(values)) if values else None


def tables(page):
    """The tables of the page by their titles: of each input how many times as fast the programs are, by their names."""
    found = {}
    for part in page.split("\n## ")[1:]:
        lines = [line.strip("|").split("|") for line in part.splitlines() if line.startswith("|")]
        if not lines or lines[0][0].strip() != "input":
            continue
        heads, *rows = [[cell.strip() for cell in line] for line in lines if not line[0].strip().startswith("---")]
        columns = [(place, head) for place, head in enumerate(heads) if place > 2]
        read = {row[0]: {head: speed_in(row[place]) for place, head in columns} for row in rows if row[0] != "mean"}
        found[part.partition("\n")[0]] = read
    return found


def speed_in(cell):
    """The speed in a cell, which has the memory behind it."""
    first = cell.partition(" ")[0]
    return None if first in ("–", "") else float(first)


# ---- shapes


def label(x, y, text, anchor="start", weight="normal", color=INK):
    """A text, which hides the lines behind it."""
    place = f'x="{x:.1f}" y="{y:.1f}" text-anchor="{anchor}" font-weight="{weight}"'
    return f'<text {place} fill="{color}" stroke="white" stroke-width="4" paint-order="stroke">{escape(text)}</text>'


def box(x, y, width, height, color):
    return f'<rect x="{x:.1f}" y="{y:.1f}" width="{width:.1f}" height="{height:.1f}" fill="{color}"/>'


def line(x1, y1, x2, y2, color):
    return f'<line x1="{x1:.1f}" y1="{y1:.1f}" x2="{x2:.1f}" y2="{y2:.1f}" stroke="{color}"/>'


def drawing(width, height, shapes):
    size = f'width="{width}" height="{height}" viewBox="0 0 {width} {height}"'
    head = f'<svg xmlns="http://www.w3.org/2000/svg" {size} font-family="sans-serif" font-size="12">'
    return "\n".join([head, '<rect width="100%" height="100%" fill="white"/>', *shapes, "</svg>"]) + "\n"


# ---- results.svg: each input, on a logarithmic scale

LINE, LEFT, WIDTH, TOP = 17, 190, 560, 46
LOW, HIGH = 0.5, 8.0


def across(ratio):
    part = math.log(min(max(ratio, LOW), HIGH) / LOW) / math.log(HIGH / LOW)
    return LEFT + WIDTH * part


def bar(name, speed, y):
    """An input's name, and its bar from the line of the original to how fast it is."""
    start, end = sorted((across(1), across(speed)))
    yield label(LEFT - 8, y + 12, name, "end")
    yield box(start, y + 2, end - start, LINE - 4, FASTER if speed >= 1 else SLOWER)
    beside, anchor = (end + 5, "start") if speed >= 1 else (start - 5, "end")
    yield label(beside, y + 12, f"{speed:.2f}", anchor)


def axis(bottom):
    for ratio in (0.5, 1, 2, 4, 8):
        x = across(ratio)
        yield line(x, TOP - 6, x, bottom, INK if ratio == 1 else GRID)
        yield label(x, TOP - 12, "the original" if ratio == 1 else f"{ratio:g}", "middle")


def results_picture(read):
    """How many times as fast as the original `jsonnorm` is, for each input."""
    shapes, y = [], TOP
    for title, rows in read.items():
        speeds = {name: speeds["jsonnorm"] for name, speeds in rows.items() if speeds.get("jsonnorm") is not None}
        shapes.append(label(LEFT - 8, y + 14, f"{title} ({mean(speeds.values()):.2f})", "end", "bold"))
        y += LINE + 4
        for name, speed in speeds.items():
            shapes += bar(name, speed, y)
            y += LINE
        y += LINE
    title = label(8, 18, "jsonnorm: times as fast as the original crate", weight="bold")
    return drawing(LEFT + WIDTH + 60, y, [title, *axis(y - LINE), *shapes])


# ---- speed.svg: each program, over the everyday inputs, on a linear scale

ROW, NAMES, SPAN, HEAD = 24, 160, 470, 58


def beyond(groups):
    """The end of the scale: the whole number at or after the greatest speed."""
    return math.ceil(max(speed for _title, rows in groups for _head, _name, speeds in rows for speed in speeds))


def speed_groups(everyday):
    """The groups with the programs that were measured, the fastest first."""
    for title, named in GROUPS:
        rows = []
        for head, name in named.items():
            speeds = [1.0] if head == ORIGINAL else [speeds[head] for speeds in everyday.values() if speeds.get(head) is not None]
            if speeds:
                rows.append((head, name, speeds))
        yield title, sorted(rows, key=lambda row: -mean(row[2]))


def speed_row(head, name, speeds, y, scale):
    """A program's name, its bar, the range of its inputs as a line, and its mean."""
    middle, end = y + ROW / 2, NAMES + mean(speeds) * scale
    low, high = NAMES + min(speeds) * scale, NAMES + max(speeds) * scale
    yield label(NAMES - 8, middle + 4, name, "end", "bold" if head in OURS else "normal")
    yield box(NAMES, y + 4, end - NAMES, ROW - 8, FASTER if head in OURS else OTHER)
    if high > low:
        yield line(low, middle, high, middle, RANGE)
        yield from (line(x, middle - 4, x, middle + 4, RANGE) for x in (low, high))
    yield label(max(end, high) + 6, middle + 4, f"{mean(speeds):.2f}", weight="bold" if head in OURS else "normal")


def speed_picture(read):
    """How many times as fast as the original crate the programs and the libraries are."""
    groups = list(speed_groups(read["Everyday"]))
    most = beyond(groups)
    scale = SPAN / most
    marks = [(NAMES + ratio * scale, ratio) for ratio in range(0, most + 1, 1 if most <= 10 else 2)]
    shapes, y = [], HEAD
    for title, rows in groups:
        shapes.append(label(8, y + 16, title, weight="bold"))
        y += ROW
        shapes += [line(x, y, x, y + ROW * len(rows), GRID) for x, _ratio in marks]
        shapes.append(line(NAMES + scale, y, NAMES + scale, y + ROW * len(rows), INK))
        for row in rows:
            shapes += speed_row(*row, y, scale)
            y += ROW
        y += 8
    shapes += [label(x, y + 8, f"{ratio}", "middle") for x, ratio in marks]
    texts = [
        label(8, 20, "Times as fast as the Rust crate tinyjson 2.5.1", weight="bold"),
        label(8, 38, "Bars: geometric mean of nine everyday texts. Lines: from the slowest text to the fastest."),
        label(8, y + 32, note(groups)),
    ]
    return drawing(NAMES + SPAN + 60, y + 42, [*texts, *shapes])


def note(groups):
    """What the others do otherwise."""
    heads = [head for _title, rows in groups for head, _name, _speeds in rows]
    note = "jq and Python round numbers"
    return f"{note}, as Rattle's serde_json does. Rattle's json does not sort keys." if "serde_json" in heads else f"{note}."


# ---- files


def pictures(page):
    """The pictures of a page of results, by the names of their files."""
    read = tables(page)
    return {"results.svg": results_picture(read), "speed.svg": speed_picture(read)}


def draw(folder):
    """Draws the pictures of the folder's page."""
    for name, text in pictures(pathlib.Path(folder, "results.md").read_text()).items():
        pathlib.Path(folder, name).write_text(text)
