"""The examples of doc comments, compiled and run from the comments, without proof.

An example is a fenced block of a doc comment. The examples of some libraries become a crate of tests in a scratch
repository, beside a copy of the sources of these libraries and of those below them, and `rt try --test` runs it. Each
example is one test, which begins with `rt` and `alloc`. One that begins with an item, as `fn` or `struct`, is code
for the other examples of its library instead.

A comment has no `use` lines. The public names of its library are imported, and those names that occur in an example
of the other libraries of its crate of tests, of the libraries below them, and of NAMES.

A crate whose examples all passed is not run again until the toolchain, a source or an example changes.
"""

import concurrent.futures
import dataclasses
import hashlib
import os
import pathlib
import re
import shutil
import subprocess
import tempfile

from places import TOP
from unproved import below, checksum, listed

CACHE = pathlib.Path(tempfile.gettempdir(), f"tinyjson-examples-{os.getuid()}")

# How many runs of a crate are remembered, and the longest that one takes, in seconds.
KEPT, LIMIT = 8, 1_200

# The libraries whose public items each have an example. All of these examples are run.
LIBRARIES = ("tinyjson", "tinyjson_grammar", "tinyjson_number", "tinyjson_normal", "text_iregexp", "text_regexp",
             "text_ecma_regexp", "text_categories", "text_formats")

# The crates of tests, which run side by side: of each the libraries whose examples it has. Of a library that is not one of
# LIBRARIES the examples are run that assert something; the other ones show a call in the midst of code.
CRATES = {
    "value_examples": ("tinyjson", "tinyjson_grammar", "tinyjson_number"),
    "document_examples": ("tinyjson_normal", "tinyjson_document", "tinyjson_buffers", "tinyjson_path_query"),
    "text_examples": ("text_iregexp", "text_regexp", "text_ecma_regexp", "text_categories", "text_formats", "text_uri"),
}

# The paths of names of the standard library.
NAMES = {"AllocError": "std::alloc::AllocError", "ErrorKind": "std::io::ErrorKind", "Global": "std::alloc::Global",
         "HashMap": "std::collections::HashMap", "io": "std::io", "mem": "std::mem", ".to_string": "std::string::ToString"}

COMMENT = re.compile(r"\s*//[/!] ?")
ITEM = re.compile(r"(?:pub )?(?:fn|struct|enum|impl)\b|#\[")
DEFINED = re.compile(r"^(?:pub )?(?:fn|struct|enum) (\w+)", re.M)
ASSERTS = re.compile(r"\bassert(?:_eq)?!")
EXPORTED = re.compile(r"^pub (?:use [\w:]+::(?:\{([^}]*)\}|(\w+));|(?:struct|enum|fn|trait|type) (\w+))", re.M)
# What is no code: strings, characters and comments.
TEXT = re.compile(r"""b?r#".*?"#|b?"(?:\\.|[^"\\])*"|b?'(?:\\.|[^'\\])'|//[^\n]*""", re.S)
# A name that is not the end of a path; that of a method has its point.
WORD = re.compile(r"\.[a-z_]\w*|(?<![:\w.])[A-Za-z_]\w*")
RAN = re.compile(r"test (\w+)::(\w+) \.\.\. (\w+)")
COUNTS = re.compile(r"tests: |test result: |run=|$")
WHERE = re.compile(r"\bsrc/(\w+)\.rt:(\d+)(?::\d+)*")


@dataclasses.dataclass
class Example:
    """An example: its library, the path of its file below the top, the line before it, and its lines."""

    library: str
    path: str
    line: int
    code: list

    @property
    def place(self):
        return f"{self.path}:{self.line + 1}"

    @property
    def test(self):
        """The name of its test: its file below src/, and its line."""
        file = self.path.partition("/src/")[2].removesuffix(".rt")
        return f"{re.sub('[^a-z0-9]', '_', file)}_{self.line}"

    @property
    def text(self):
        return "\n".join(self.code)

    def is_item(self):
        return ITEM.match(self.text) is not None

    def words(self):
        return set(WORD.findall(TEXT.sub(" ", self.text)))


def examples_of(library):
    """The examples of a library, in the order of its files."""
    found = []
    for path in sorted((pathlib.Path(TOP) / "crates" / library / "src").rglob("*.rt")):
        example = None
        for number, line in enumerate(path.read_text().splitlines(), 1):
            comment = COMMENT.match(line)
            text = line[comment.end() :] if comment else ""
            if not text.startswith("```"):
                example = example if comment else None
                if example:
                    example.code.append(text)
            elif example:
                found.append(example)
                example = None
            else:
                example = Example(library, str(path.relative_to(TOP)), number, [])
    return found


def examples_to_run(library):
    return [it for it in examples_of(library) if library in LIBRARIES or ASSERTS.search(it.text)]


def exported(library):
    """The paths of the public names at the root of a library."""
    source = (pathlib.Path(TOP) / "crates" / library / "src/lib.rt").read_text()
    names = re.findall(r"\w+", " ".join(" ".join(found) for found in EXPORTED.findall(source)))
    return {name: f"{library}::{name}" for name in names}


def imports(examples, libraries):
    """The `use` lines of these examples: of a name that several of these libraries have, that of the first one."""
    paths = dict(NAMES)
    for library in reversed(libraries):
        paths |= exported(library)
    words = exported(libraries[0]).keys() | set().union(*(it.words() for it in examples))
    words -= {name for it in examples if it.is_item() for name in DEFINED.findall(it.text)}
    return sorted(f"use {path};" for name, path in paths.items() if name in words)


def written(examples, libraries):
    """The lines of a file that has these examples, and the places of those that are lines of a comment."""
    lines, places = ["use std::test::Fail;", *imports(examples, libraries)], {}
    for it in examples:
        if not it.is_item():
            lines += ["#[test]", f"fn {it.test}(rt: HostRuntime) -> Result<(), Fail> {{"]
            lines += ["let alloc = rt.alloc();"] if "alloc" in it.words() else []
        for number, line in enumerate(it.code, it.line + 1):
            lines.append(line)
            places[len(lines)] = f"{it.path}:{number}"
        lines += [] if it.is_item() else ["Ok(())", "}"]
    return lines, places


def files_of(crate):
    """The files of a crate of tests, by library, and the places of their lines and of their tests."""
    files, places, libraries = {}, {}, below(*CRATES[crate])
    for library in CRATES[crate]:
        examples = examples_to_run(library)
        files[library], lines = written(examples, [library, *CRATES[crate], *libraries])
        places |= {(f"{library}_examples", str(number)): place for number, place in lines.items()}
        places |= {(f"{library}_examples", it.test): it.place for it in examples}
    return files, places


def write_repository(crate, files, folder):
    """Writes the scratch repository."""
    needed = below(*CRATES[crate])
    for name in needed:
        shutil.copytree(f"{TOP}/crates/{name}/src", f"{folder}/crates/{name}/src")
    lines = [f"{name}: {' '.join(listed()[name])}\n" for name in needed]
    pathlib.Path(folder, "crates.txt").write_text("".join([*lines, f"{crate}: {' '.join(needed)}\n"]))
    source = pathlib.Path(folder, "crates", crate, "src")
    source.mkdir(parents=True)
    for library, lines in files.items():
        (source / f"{library}_examples.rt").write_text("\n".join([*lines, ""]))
    modules = "".join(f"#[cfg(test)]\nmod {library}_examples;\n" for library in files)
    (source / "lib.rt").write_text(f"#![tactic(auto)]\n\n{modules}")


def faults(printed, places):
    """What `rt try --test` prints but for what passed and for counts, with the places of comments."""
    found = []
    for line in printed.splitlines():
        ran = RAN.match(line)
        if ran and ran[3] != "ok":
            found.append(f"{places.get((ran[1], ran[2]), ran[2])}: the example fails")
        elif line.startswith("    ") and found:
            found[-1] += f": {line.strip()}"
        elif not ran and not COUNTS.match(line):
            found.append(line)
    return [WHERE.sub(lambda at: places.get((at[1], at[2]), at[0]), it) for it in found or ["no example was run"]]


def run(crate):
    """How many tests passed of a crate of examples, and what is wrong, a line each."""
    files, places = files_of(crate)
    count = sum(len(examples_to_run(library)) for library in files)
    key = hashlib.sha256(f"{checksum(*CRATES[crate])}{files}".encode()).hexdigest()[:20]
    kept = CACHE / f"{crate}-{key}"
    if kept.exists():
        os.utime(kept)
        return count, []
    CACHE.mkdir(mode=0o700, exist_ok=True)
    with tempfile.TemporaryDirectory(dir=CACHE) as folder:
        write_repository(crate, files, folder)
        words = ["timeout", str(LIMIT), "rt", "try", "--test"]
        how = {"stdin": subprocess.DEVNULL, "stdout": subprocess.PIPE, "stderr": subprocess.STDOUT}
        tried = subprocess.run(words, cwd=f"{folder}/crates/{crate}", check=False, text=True, errors="replace", **how)
    if tried.returncode:
        return count, faults(tried.stdout, places)
    kept.touch()
    for old in sorted(CACHE.glob(f"{crate}-*"), key=os.path.getmtime)[:-KEPT]:
        old.unlink()
    return count, []


def run_all():
    """How many examples there are, and what is wrong, a line each."""
    with concurrent.futures.ThreadPoolExecutor(len(CRATES)) as pool:
        counts, errors = zip(*pool.map(run, CRATES))
    return sum(counts), [error for found in errors for error in found]
