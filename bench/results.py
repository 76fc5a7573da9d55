"""The page of what was measured, with its tables."""

import dataclasses
import datetime
import os
import pathlib
import platform
import subprocess
import textwrap

import pictures
from pictures import mean
from programs import COPIES

HERE = pathlib.Path(__file__).resolve().parent
# What is below this heading was written by hand, and stays; the section of programs before it is written apart.
KEPT = "\n## Measured apart\n"
PROGRAMS = "\n## Programs\n"
READING = "\n## Reading alone\n"
# The programs of which the page says how their time grows.
GROWN = ("original", "jsonnorm", "documents", "values")

# What is said of the tables that are not beside the original.
ABOUT = {
    "Reading alone": "Texts are parsed and freed: into a `JsonValue`, a `Document`, and the values of the toolchain's `json`"
    f" and `serde_json`. The time is that of one of {COPIES} copies of the text, without what the program takes that makes"
    " them. The memory is the peak of a program that reads its text and parses it once.",
    "Keys of one object": "Objects whose keys have one hash in the toolchain's map, are random, fall, or begin alike.",
    "Large records": "A text of records to its normal text, to indented text, and to its last record, beside the first.",
}


@dataclasses.dataclass(frozen=True)
class Row:
    """An input with the time and the memory of each program that can do it, beside those of one of them."""

    name: str
    megabytes: float
    results: dict
    base: str = "original"

    def speed(self, name):
        """How many times as fast as the base a program is."""
        return self.results[self.base][0] / self.results[name][0] if name in self.results else None

    def memory(self, name):
        """How much of the base's memory a program takes."""
        return self.results[name][1] / self.results[self.base][1] if name in self.results else None

    def cells(self, names):
        seconds, _memory = self.results[self.base]
        yield from (self.name, f"{self.megabytes:.1f}", f"{seconds * 1000:.1f}")
        for name in names:
            yield figures(self.speed(name), self.memory(name))


def figures(speed, memory):
    """How many times as fast a program is, and behind it its memory."""
    return "–" if speed is None else f"{speed:.2f} / {memory:.2f}"


def means(rows, names):
    yield from ("mean", "", "")
    for name in names:
        yield figures(mean(row.speed(name) for row in rows), mean(row.memory(name) for row in rows))


# ---- tables


def heads(names, base="original"):
    return ["input" if base == "original" else "text", "MB", f"{base} ms", *names]


def show_line(cells, names):
    first, *others = cells
    widths = [6, 13, *(max(14, len(name) + 2) for name in names)]
    print(f"{first:<28}" + "".join(f"{other:>{width}}" for other, width in zip(others, widths)), flush=True)


def markdown(rows, names):
    lines = [heads(names, rows[0].base), ["---", *["--:"] * (2 + len(names))], *(row.cells(names) for row in rows), means(rows, names)]
    return "\n".join("| " + " | ".join(cells) + " |" for cells in lines)


def first_line(command):
    done = subprocess.run(command, capture_output=True, text=True, cwd=HERE, check=False)
    return (done.stdout or done.stderr).strip().partition("\n")[0]


def processor():
    for line in pathlib.Path("/proc/cpuinfo").read_text().splitlines():
        if line.startswith("model name"):
            return line.partition(":")[2].strip()
    return platform.machine()


def measured_at():
    return (
        f"{datetime.date.today():%-d %B %Y}, at {first_line(['git', 'rev-parse', '--short', 'HEAD'])},"
        f" with {first_line(['rt', 'version'])}; {processor()}, {os.cpu_count()} processors,"
        f" load {os.getloadavg()[0]:.1f} at the end."
    )


def heading(runs):
    return "\n".join(
        [
            measured_at(),
            "",
            f"Programs read a text and write it. Each cell has how many times as fast as the original crate's program one is"
            f" (processor time, the least of {runs} runs in turn), and its peak memory over the original's, from some 9 MB on."
            " `jsonnorm` builds no value. `values` builds one and frees it, and `documents` a document. Means are geometric.",
        ]
    )


def slower(rows, name):
    """The rows in which a program is slower than the original, the slowest first."""
    return sorted((row for row in rows if (row.speed(name) or 1) < 1), key=lambda row: row.speed(name))


def growth(title, rows):
    """How many times as long the programs take as for the row before, where both are of one kind."""
    for less, more in zip(rows, rows[1:]) if title == "Growth" else ():
        kind, _, count = more.name.partition(", ")
        if less.name.startswith(f"{kind}, "):
            known = [name for name in GROWN if name in less.results and name in more.results]
            times = [f"{name} {more.results[name][0] / less.results[name][0]:.2f}" for name in known]
            yield f"{less.name} to {count}: {', '.join(times)}"


def wrapped(part):
    """The part with its lines broken at 100 columns, apart from tables."""
    lines = part.splitlines()
    return "\n".join(line if line.startswith("|") else textwrap.fill(line, 100, break_on_hyphens=False) for line in lines)


def document(tables, names, runs):
    """The tables beside the original crate, as lists of rows by their titles."""
    parts = ["# Times beside the original crate", "Written by `bench/run`, apart from the last section.", heading(runs), "![Times as fast](results.svg)"]
    for title, rows in tables.items():
        parts += [f"## {title}", markdown(rows, names)]
        parts += [f"Times as long: {line}." for line in growth(title, rows)]
        for name in ("jsonnorm", "values"):
            below = slower(rows, name)
            if below:
                least = f"the least is {below[0].speed(name):.2f}, of {below[0].name}"
                parts.append(f"`{name}` is slower than the original in {len(below)} of {len(rows)} rows; {least}.")
    return "\n\n".join(wrapped(part) for part in parts) + "\n"


def reading(tables, runs):
    """The tables of reading alone, with when they were measured before the first."""
    parts = []
    for title, rows in tables.items():
        about = ABOUT[title] if parts else f"{measured_at()} The least of {runs} runs in turn. {ABOUT[title]}"
        parts += [f"## {title}", about, markdown(rows, [name for name in rows[0].results if name != rows[0].base])]
    return "\n\n".join(wrapped(part) for part in parts) + "\n"


def parts_of(page):
    """The tables beside the original crate, those of reading alone, the section of programs, and what was written by hand."""
    written, heading_kept, kept = page.partition(KEPT)
    tables, heading_programs, rows = written.partition(PROGRAMS)
    beside, heading_reading, more = tables.partition(READING)
    return [part.strip("\n") for part in (beside, heading_reading + more, heading_programs + rows, heading_kept + kept)]


def write(tables=None, reading_tables=None, programs=None, names=(), runs=0):
    """Puts what was measured in the place of what the page has of it."""
    page = HERE / "results.md"
    parts = parts_of(page.read_text())
    for place, part in enumerate((tables and document(tables, names, runs), reading_tables and reading(reading_tables, runs), programs)):
        parts[place] = part.strip("\n") if part else parts[place]
    page.write_text("\n\n".join(part for part in parts if part) + "\n")
    pictures.draw(HERE)
