"""The programs that answer, change and compare: what is run over records, and the table of it.

Each is timed beside `jsonnorm`, or `json_lines`, on the same text, in turn. A row says how many times as long it takes, and its peak memory
over the text's size; and so for `jq`, where it can do the same.
"""

import dataclasses
import random
import shutil
import sys

import inputs
import programs
import results

TITLE = "Programs"
# What the program is called that the others are beside.
BASE = "base"
# How many operations a patch has, and how many of the records a merge changes.
CHANGES = 2_000
ABOUT = (
    "Texts of records are read and answered. Each cell has how many times as long as `jsonnorm` (for lines `json_lines`) a program takes for the text"
    " (processor time, the least of {runs} runs in turn), and behind it its peak memory over the text's size."
    f" Patch, merge and differences have {CHANGES:,} changes."
)


def by_number(source):
    """The records of LARGE as members of one object."""
    return {f"r{number:05}": one for number, one in enumerate(inputs.LARGE.make(source))}


ARRAY = inputs.Input("array", inputs.LARGE.make)
OBJECT = inputs.Input("object", by_number)
LINES = inputs.Input("lines", inputs.long_lines, mode="lines")
SHORT_LINES = inputs.Input("short lines", inputs.short_lines, mode="lines")

# A schema of the records.
SCHEMA = {
    "$schema": "https://json-schema.org/draft/2020-12/schema",
    "type": "object",
    "required": ["id", "name", "email", "tags"],
    "properties": {
        "id": {"type": "integer", "minimum": 1, "maximum": 10**8},
        "name": {"type": "string", "pattern": "^[a-z]{2,20} [a-z]{2,20}$", "maxLength": 64},
        "email": {"type": "string", "pattern": "^[^@ ]+@[^@ ]+\\.[a-z]{2,8}$"},
        "active": {"type": "boolean"},
        "balance": {"$ref": "#/$defs/amount"},
        "tags": {"type": "array", "items": {"type": "string", "minLength": 1}, "maxItems": 8},
        "city": {"type": "string", "pattern": "^[A-Z]"},
        "score": {"type": "integer", "minimum": 0},
        "note": {"anyOf": [{"type": "null"}, {"type": "string", "maxLength": 200}]},
        "parent": {"oneOf": [{"type": "null"}, {"type": "integer"}]},
    },
    "additionalProperties": False,
    "$defs": {"amount": {"type": "number", "minimum": 0, "exclusiveMaximum": 1_000_000}},
}


@dataclasses.dataclass(frozen=True)
class Run:
    """A program and its arguments, the text that it reads, and what `jq` is given to do the same."""

    words: tuple
    given: inputs.Input
    jq: tuple | None = None

    def name(self):
        return " ".join(f"'{word}'" if set(word) & set("$*|?") else word for word in self.words)


RUNS = [
    Run(("json_part", "/43499"), ARRAY, ("-S", "-c", ".[43499]")),
    Run(("json_path", "$[*].name"), ARRAY, ("-c", ".[].name")),
    Run(("json_path", "$[?@.score > 900].name"), ARRAY, ("-c", ".[] | select(.score > 900) | .name")),
    Run(("json_path", "$..name"), ARRAY, ("-c", '.. | objects | select(has("name")) | .name')),
    Run(("json_path", "$[?@.id < count($..name)].name"), ARRAY),
    Run(("json_merge", "merge.json"), OBJECT, ("-S", "-c", "--slurpfile", "patch", "merge.json", ". * $patch[0]")),
    Run(("json_patch", "patch.json"), ARRAY),
    Run(("json_diff", "changed.json"), ARRAY),
    Run(("json_diff", "-m", "merged.json"), OBJECT),
    Run(("json_path", "-l", "$.name"), LINES, ("-c", "[.name]")),
    Run(("json_path", "-l", "$"), LINES, ("-c", "[.]")),
    Run(("json_patch", "-l", "line.json"), LINES),
    Run(("json_merge", "-l", "name.json"), LINES, ("-S", "-c", "--slurpfile", "patch", "name.json", ". * $patch[0]")),
    Run(("json_schema", "-l", "schema.json"), SHORT_LINES),
]


# ---- what the programs are given


def write_files(work):
    """The merge patch and the patch, which give some records another name, and the records as they are then."""
    step = 43_500 // CHANGES
    names = {number: f"other {number}" for number in range(0, CHANGES * step, step)}
    merge = {f"r{number:05}": {"name": name} for number, name in names.items()}
    merged = {key: one | merge.get(key, {}) for key, one in by_number(random.Random(639)).items()}
    files = {
        "merge.json": merge,
        "patch.json": [{"op": "replace", "path": f"/{number}/name", "value": name} for number, name in names.items()],
        "merged.json": merged,
        "changed.json": list(merged.values()),
        "line.json": [{"op": "replace", "path": "/name", "value": "other"}],
        "name.json": {"name": "other"},
        "schema.json": SCHEMA,
    }
    for name, value in files.items():
        (work / name).write_text(inputs.compact(value))


def placed(work, words):
    """The words with the files among them by their paths."""
    return [str(work / word) if word.endswith(".json") else word for word in words]


def command_of(work, folder, words):
    program, *rest = words
    path = programs.found(program, folder)
    return [path or sys.exit(f"{folder}: no {program} below it"), *placed(work, rest)]


# ---- the table


@dataclasses.dataclass(frozen=True)
class Row:
    """A run with its times and memory beside those of the base, and those of `jq`."""

    run: Run
    size: int
    base: tuple
    own: tuple
    jq: tuple | None

    def cells(self):
        yield from (f"`{self.run.name()}`".replace("|", "\\|"), self.run.given.name, f"{self.size / 1e6:.1f}", self.figures(self.own), self.figures(self.jq))

    def figures(self, measured):
        if measured is None:
            return "–"
        seconds, mebibytes = measured
        return f"{seconds / self.base[0]:.2f} / {mebibytes * 2**20 / self.size:.1f}"


HEADS = ("program", "records in one", "MB", "itself", "jq")


def commands(work, folder, given):
    """The programs that are timed over a text, each with its command."""
    chosen = [run for run in RUNS if run.given is given]
    found = {BASE: command_of(work, folder, ("json_lines" if given.mode == "lines" else "jsonnorm",))}
    found |= {run.name(): command_of(work, folder, run.words) for run in chosen}
    if jq := shutil.which("jq"):
        found |= {f"jq {run.name()}": [jq, *placed(work, run.jq)] for run in chosen if run.jq}
    return {name: {given.mode: command} for name, command in found.items()}


def rows(work, folder, runs):
    """Measures the runs over each text, and shows each row as it is done."""
    write_files(work)
    for given in (ARRAY, OBJECT, LINES, SHORT_LINES):
        path = inputs.write_input(work, given)
        measured = programs.least(commands(work, folder, given), given, path, runs)
        for run in RUNS:
            if run.given is given:
                if run.name() not in measured:
                    sys.exit(f"{run.name()}: it ended otherwise than it should")
                names = (BASE, run.name(), f"jq {run.name()}")
                yield Row(run, path.stat().st_size, *map(measured.get, names))


def section(measured, runs):
    """The section of the page."""
    lines = [HEADS, ("---", "---", *["--:"] * (len(HEADS) - 2)), *(row.cells() for row in measured)]
    table = "\n".join("| " + " | ".join(cells) + " |" for cells in lines)
    return "\n\n".join(results.wrapped(part) for part in (f"## {TITLE}", f"{results.measured_at()} {ABOUT.format(runs=runs)}", table)) + "\n"
