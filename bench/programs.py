"""The programs that are timed, and how one run of a program is measured.

A program is a dictionary from the mode of an input to the command that reads and writes it so.
"""

import pathlib
import shutil
import subprocess
import sys

HERE = pathlib.Path(__file__).resolve().parent
TOP = HERE.parent

ORIGINAL = """use std::io::{self, BufWriter, Read, Write};
use tinyjson::JsonValue;

fn main() -> Result<(), Box<dyn std::error::Error>> {
    let mode = std::env::args().nth(1).unwrap_or_default();
    let mut text = String::new();
    io::stdin().read_to_string(&mut text)?;
    let mut output = BufWriter::new(io::stdout().lock());
    if mode == "lines" {
        for line in text.lines() {
            line.parse::<JsonValue>()?.write_to(&mut output)?;
            writeln!(output)?;
        }
    } else {
        let value: JsonValue = text.parse()?;
        match mode.as_str() {
            "indented" => value.format_to(&mut output)?,
            _ => value.write_to(&mut output)?,
        }
        writeln!(output)?;
    }
    output.flush()?;
    Ok(())
}
"""

# What `json` of Python does for each mode. It rounds numbers, as `jq` does.
PYTHON = """import json, sys
def write(text, **shape):
    sys.stdout.write(json.dumps(json.loads(text), ensure_ascii=False, sort_keys=True, **shape) + "\\n")
if sys.argv[1] == "lines":
    for line in sys.stdin.buffer:
        write(line, separators=(",", ":"))
elif sys.argv[1] == "indented":
    write(sys.stdin.buffer.read(), indent=2)
else:
    write(sys.stdin.buffer.read(), separators=(",", ":"))
"""

# Starts a program and prints its status, its processor time and its peak memory. It is a process of its own,
# since a program's peak is counted from that of the process that starts it.
STARTER = """
import os, sys
source = os.open(sys.argv[1], os.O_RDONLY)
sink = os.open("/dev/null", os.O_WRONLY)
child = os.fork()
if child == 0:
    os.dup2(source, 0)
    os.dup2(sink, 1)
    os.dup2(sink, 2)
    os.execv(sys.argv[2], sys.argv[2:])
_, status, used = os.wait4(child, 0)
print(status, used.ru_utime + used.ru_stime, used.ru_maxrss)
"""

# Programs that are built for the bench alone, and the library that each is written over. (`rt ci` refuses a `.rt` file here.)
OWN = HERE / "own"
OVER = {"chars": "tinyjson", "values": "tinyjson", "json": "json", "serde_json": "serde_json"}
# The last of the large records.
LAST = "/43499"
# Programs that write compact text alone.
COMPACT = (*OVER, "documents")
# Programs that read and free, by what they are called: the library, what they take of it, and how they read.
READERS = {
    "value": ("tinyjson", "tinyjson::JsonValue", "let Ok(_read) = JsonValue::from_str(alloc, text.as_str())"),
    "document": ("tinyjson_document", "tinyjson_document::Document", "let Ok(_read) = Document::of_text(alloc, text)"),
    "json": (
        "json",
        "json::{Scratch, Value}",
        "let mut scratch = Scratch::new(alloc);\n            let Ok(_read) = Value::parse(alloc, text.as_str(), &mut scratch)",
    ),
    "serde_json": ("serde_json", "serde_json::Value", "let Ok(_read) = Value::from_str(alloc, text.as_str())"),
}
# How many copies of a text they parse one after another.
COPIES = 8
# What a program over `tinyjson` or `tinyjson_document` needs, the lowest first.
LIBRARIES = (
    "tinyjson_bytes",
    "tinyjson_number",
    "tinyjson_grammar",
    "tinyjson_tokens",
    "tinyjson_output",
    "tinyjson",
    "tinyjson_cells",
    "tinyjson_document",
)


def quietly(command, folder, text=""):
    done = subprocess.run(command, cwd=folder, capture_output=True, text=True, input=text)
    if done.returncode != 0:
        sys.exit(f"{' '.join(map(str, command))}: status {done.returncode}\n{done.stdout[-3000:]}{done.stderr[-3000:]}")


# ---- building


def source(folder, name):
    """The file `NAME.rs` below the folder, by whatever name it is kept there."""
    for path in sorted(folder.rglob(f"*{name}.rs*"), key=lambda path: len(path.parts)):
        return path.read_text()
    sys.exit(f"{folder}: no {name}.rs below it")


def original(folder, work):
    """The original crate's program, built by cargo at the highest optimization."""
    cargo = shutil.which("cargo") or str(pathlib.Path.home() / ".cargo/bin/cargo")
    crate = work / "original/tinyjson"
    (crate / "src").mkdir(parents=True, exist_ok=True)
    for name in ("lib", "parser", "generator", "json_value"):
        (crate / f"src/{name}.rs").write_text(source(folder, name))
    crate.joinpath("Cargo.toml").write_text('[package]\nname = "tinyjson"\nversion = "2.5.1"\nedition = "2021"\n')
    program = work / "original/program"
    (program / "src").mkdir(parents=True, exist_ok=True)
    (program / "src/main.rs").write_text(ORIGINAL)
    program.joinpath("Cargo.toml").write_text(
        '[package]\nname = "original"\nversion = "0.0.0"\nedition = "2021"\n\n'
        '[dependencies]\ntinyjson = { path = "../tinyjson" }\n\n[profile.release]\nopt-level = 3\n\n[workspace]\n'
    )
    quietly([cargo, "build", "--release", "--offline"], program)
    built = str(program / "target/release/original")
    return {mode: [built, mode] for mode in ("text", "indented", "lines")}


def found(name, folder):
    """A program that is built already: in the folder, or in the crate of its name below it, if it is there."""
    for path in (folder / name, folder / "crates" / name / "out" / name) if folder else ():
        if path.is_file():
            return str(path.resolve())
    return None


def built(name, work, folder, text, *words):
    """A program of this repository: the folder's, or proved and built in its folder; the rest is for its first run."""
    if path := found(name, folder):
        return path
    crate = TOP / "crates" / name
    quietly(["rt", "run", "--", *words], crate, text)
    return str(shutil.copy2(crate / "out" / name, work / name))


def ours(work, folder):
    """The programs of this repository: `jsonnorm`, and for lines `json_lines`."""
    lines = built("json_lines", work, folder, "null\n")
    return of_command([built("jsonnorm", work, folder, "null")]) | {"lines": [lines]}


def documents(work, folder):
    """A text read into a document that is written again and freed: `json_part`, asked for the whole."""
    return {"text": [built("json_part", work, folder, "null", ""), ""]}


def of_command(command):
    """A program that writes indented text with `-i`."""
    return {"text": command, "indented": [*command, "-i"]}


def own(name, work, folder):
    """A program of OWN, which writes compact text."""
    return alone(name, OVER[name], (OWN / f"{name}.rt.txt").read_text(), work, folder)


def readers(work, folder):
    """The programs of READERS. One parses its text once, or some copies of it, or makes these copies and parses none."""
    whole = (OWN / "read.rt.txt").read_text()
    for name, (library, taken, read) in READERS.items():
        built = alone(f"read_{name}", library, whole.replace("{TYPE}", taken).replace("{READ}", read), work, folder)["text"]
        yield name, {"text": [*built, "read"], "copies": [*built, *["read"] * COPIES], "none": [*built, *["keep"] * COPIES]}


def records(work, folder):
    """What is done with large records, beside their normal text."""
    normal, part = (built(name, work, folder, "null", *words) for name, words in (("jsonnorm", []), ("json_part", [""])))
    return {name: {"text": words} for name, words in {"jsonnorm": [normal], "jsonnorm -i": [normal, "-i"], "json_part": [part, LAST]}.items()}


def alone(name, library, text, work, folder):
    """A program with this text: the folder's, or proved and built in a repository of its own, with copies of what it needs."""
    if path := found(name, folder):
        return {"text": [path]}
    scratch = work / f"{name}-built"
    crate = scratch / f"crates/bench_{name}"
    (crate / "src").mkdir(parents=True, exist_ok=True)
    quietly(["git", "init", "-q"], scratch)
    (crate / "src/main.rt").write_text(text)
    lines = [f"bench_{name}: {library}"]
    if library in LIBRARIES:
        # what is proved of the libraries is copied with them
        checkout = folder if folder and (folder / "crates.txt").is_file() else TOP
        for below in LIBRARIES:
            quietly(["cp", "-a", "--reflink=auto", "-u", checkout / "crates" / below, scratch / "crates"], scratch)
        lines += [line for line in (checkout / "crates.txt").read_text().splitlines() if line.split(":")[0] in LIBRARIES]
    (scratch / "crates.txt").write_text("\n".join(lines) + "\n")
    quietly(["rt", "run"], crate, "null")
    return {"text": [str(shutil.copy2(crate / f"out/bench_{name}", work / name))]}


def installed():
    """`jq`, where it is installed, and Python's `json`."""
    python = [sys.executable, "-I", "-S", "-c", PYTHON]
    programs = {}
    if jq := shutil.which("jq"):
        programs["jq -S"] = {"text": [jq, "-S", "-c", "."], "indented": [jq, "-S", "."], "lines": [jq, "-S", "-c", "."]}
    return programs | {"Python": {mode: [*python, mode] for mode in ("text", "indented", "lines")}}


# ---- measuring


def measure(command, path, is_refused):
    """The processor time of one run in seconds and its peak memory in MB; nothing, if it ends otherwise."""
    started = [sys.executable, "-I", "-S", "-c", STARTER, str(path), *command]
    done = subprocess.run(started, capture_output=True, text=True, check=True)
    status, seconds, kilobytes = done.stdout.split()
    if (status != "0") != is_refused:
        return None
    return float(seconds), int(kilobytes) / 1024


def least(programs, given, path, runs):
    """The least processor time and the least peak of each program, which run in turn, where it can do it. Of a program
    that parses copies, it is the time of one of them, without the rest of the program."""
    modes = [given.mode, *(mode for mode in ("copies", "none") if all(mode in program for program in programs.values()))]
    seen = {name: {mode: [] for mode in modes} for name, program in programs.items() if given.mode in program}
    for _ in range(runs):
        for name in list(seen):
            results = [measure(programs[name][mode], path, given.is_refused) for mode in modes]
            if None in results:
                del seen[name]
                continue
            for mode, result in zip(modes, results):
                seen[name][mode].append(result)
    return {name: of_modes([tuple(map(min, zip(*seen[name][mode]))) for mode in modes]) for name in seen}


def of_modes(results):
    """The time and the peak of a program: of one copy, where copies were parsed."""
    (seconds, megabytes), *copies = results
    if not copies:
        return seconds, megabytes
    (parsed, _), (kept, _) = copies
    return (parsed - kept) / COPIES, megabytes
