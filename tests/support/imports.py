"""The source files that one has to read to know all that a program may do.

These are `main.rt` and, of each file among them, the files of the names that its `use` lines and its paths take from others, and the
modules that it declares. What a crate exports leads to the file that defines it. Methods are not imported: a file counts too if it has
a method of a type of these files, and one of them calls a method of that name. Ghost lines, tests and `lib.rt` do not count.
"""

import functools
import pathlib
import re

from listed import dependencies
from places import TOP

CRATES = pathlib.Path(TOP) / "crates"
LISTED = dependencies((CRATES.parent / "crates.txt").read_text())

COMMENT = re.compile(r"^\s*//.*$", re.M)
TEST = re.compile(r"^#\[cfg\(test\)\]\s*mod \w+;", re.M)
VISIBLE = r"^\s*(pub(?:\([^)]*\))?\s+)?"
USE = re.compile(VISIBLE + r"use\s+([^;]+);", re.M)
MODULE = re.compile(VISIBLE + r"mod\s+(\w+);", re.M)
RENAMED = re.compile(r"\s+as\s+\w+")
PATH = re.compile(r"(?<![\w:.])[a-z_]\w*(?:::\w+)+")
TYPE = re.compile(r"\b(?:struct|enum) (\w+)")
IMPL = re.compile(r"^(impl\b[^{]*)\{(.*?)^\}", re.M | re.S)
GENERIC = re.compile(r"<[^<>]*>")
FUNCTION = re.compile(r"\bfn (\w+)")
CALL = re.compile(r"(?:\.|::)(\w+)\(")


def crate_of(path):
    return path.relative_to(CRATES).parts[0]


def root_of(crate):
    folder = CRATES / crate / "src"
    return folder / ("main.rt" if (folder / "main.rt").exists() else "lib.rt")


def parent_of(path):
    """The file of the module that this file's module is in."""
    return root_of(crate_of(path)) if path.parent.name == "src" else path.parent.with_suffix(".rt")


def child_of(path, name):
    """The file of a module that this file declares."""
    folder = path.parent if path.name in ("main.rt", "lib.rt") else path.with_suffix("")
    return folder / f"{name}.rt"


def paths_of(tree):
    """The paths of a `use` line, each a list of names."""
    before, brace, inside = tree.partition("{")
    if not brace:
        return [tree.split("::")]
    first, level, items = before.split("::")[:-1], 0, [""]
    for character in inside[:-1]:
        level += (character == "{") - (character == "}")
        if character == "," and level == 0:
            items.append("")
        else:
            items[-1] += character
    return [first + path for item in items if item for path in paths_of(item)]


class Source:
    """What a file declares, takes from others, exports, defines and calls."""

    def __init__(self, path):
        text = TEST.sub("", COMMENT.sub("", path.read_text()))
        self.modules = [name for _, name in MODULE.findall(text)]
        self.uses, self.exports = [], []
        for visible, tree in USE.findall(text):
            found = paths_of("".join(RENAMED.sub("", tree).split()))
            self.uses += found
            self.exports += found if visible else []
        self.paths = [found.split("::") for found in PATH.findall(text)]
        self.types = set(TYPE.findall(text))
        self.calls = set(CALL.findall(text))
        self.methods = [(implemented(head), set(FUNCTION.findall(body))) for head, body in IMPL.findall(text)]


def implemented(head):
    """The type that an `impl` is for."""
    while GENERIC.search(head):
        head = GENERIC.sub("", head)
    return re.findall(r"\w+", head)[-1]


@functools.cache
def source(path):
    return Source(path)


def begun(path, names):
    """The file that a path's first name leads to, and the names after it; or None, where it leads out of the repository."""
    first, *others = names
    if first == "crate":
        return root_of(crate_of(path)), others
    if first in LISTED:
        return root_of(first), others
    if first in ("self", "super") or first in source(path).modules:
        return path, names[first == "self" :]
    for used in source(path).uses:
        if used[-1] == first and used != names[:1]:
            found = file_of(path, used)
            return (found, others) if found else None
    return None


def file_of(path, names):
    """The file that defines what a path in this file names; or None."""
    found = begun(path, names)
    if found is None:
        return None
    at, others = found
    for name in others:
        exported = [export for export in source(at).exports if export[-1] == name]
        if name == "super":
            at = parent_of(at)
        elif name in source(at).modules:
            at = child_of(at, name)
        elif exported:
            at = file_of(at, exported[0])
        else:
            break
    return at


def named(path):
    """The files that a file takes names from, or declares."""
    here = source(path)
    found = {file_of(path, names) for names in here.uses + here.paths}
    return found | {child_of(path, name) for name in here.modules}


def with_methods(files):
    """Further files of the same crates with methods of types of these files that these files call."""
    calls = set().union(*(source(path).calls for path in files))
    types = set().union(*(source(path).types for path in files))
    for crate in {crate_of(path) for path in files}:
        for path in (CRATES / crate / "src").rglob("*.rt"):
            if any(type_ in types and names & calls for type_, names in source(path).methods):
                yield path


@functools.cache
def counted(program):
    """The files that one has to read for a program."""
    files, waiting = set(), {root_of(program)}
    while waiting:
        path = waiting.pop()
        files.add(path)
        waiting |= {it for it in named(path) if it and it.name != "lib.rt"} - files
        if not waiting:
            waiting = {it for it in with_methods(files) if it.name not in ("lib.rt", "tests.rt")} - files
    return files
