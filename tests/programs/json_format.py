"""Rows of `json_format`: files that are formatted in place."""

import json
import os
import tempfile

from faults import BROKEN, FOLDER, FULL, NO_TEXT, Faults
from pages import CONTROLS, SHOWN_CONTROLS, Page, misused
from replaced import Folder
from running import program, reported, run_of
from values import LONG, NESTED

FAULTS = Faults("json_format")

# A text that is not in form, with whole numbers alone, and its forms, which Python writes.
VALUE = {"b": [1, True, {}, []], "a": {"é": None, "": "x\ty"}}
LOOSE = json.dumps(VALUE).encode()


def form(indent):
    return json.dumps(VALUE, indent=indent, sort_keys=True, ensure_ascii=False).encode() + b"\n"


# The arguments, and the indent that they ask for.
INDENTS = [
    ([], 2), (["-i", "4"], 4), (["-i1"], 1), (["--indent=3"], 3), (["-i0"], 0), (["-i", "9", "--indent", "1"], 1),
    (["-t"], "\t"), (["--tabs"], "\t"), (["-i4", "-t"], "\t"),
]

# The arguments, an input, and the answer.
ROWS = [
    (["-i"], b"1", misused("json_format", "no number of 1 to 9 digits after -i")),
    (["-i", "x"], b"1", misused("json_format", "no number of 1 to 9 digits after -i")),
    ([], b"[1.50, 2e3]", (0, b"[\n  1.5,\n  2000\n]\n", b"")),
    ([], b"[1,]", reported(3, "json_format", "Parse error at line:1, col:3: Invalid character: ]")),
    (["-c"], b"1", (1, b"-\n", b"")),
    (["--check", "-"], b"1\n", (0, b"", b"")),
    ([], LONG, (0, LONG + b"\n", b"")),
    (["-ti0"], NESTED[:10] + NESTED[-10:], (0, b"".join(b"\t" * n + b"[\n" for n in range(9)) + b"\t" * 9 + b"[]\n"
        + b"".join(b"\t" * n + b"]\n" for n in range(8, -1, -1)), b"")),
]

STREAMS = [([], b"1", (3, NO_TEXT), (4, FOLDER), (4, FULL))]
FAILING = [([], LONG, LONG + b"\n", (4, BROKEN), (4, BROKEN))]
INTERRUPTED = [([], LONG, LONG + b"\n")]
REFUSED_MEMORY = [([], b'{"b":1,"a":[1,"x"]}')]


def check_rows(checks):
    for row in ROWS:
        words, given, expected = row
        checks.row(f"json_format {words} {given[:40]}", expected, run_of, program("json_format"), words, given, at=row)
    for row in INDENTS:
        words, indent = row
        checks.row(f"json_format {words}", (0, form(indent), b""), run_of, program("json_format"), words, LOOSE, at=row)


def in_place(words, indent):
    """What is printed of a file that is formatted twice, whether its form and its mode are right, and what is in its folder."""
    with tempfile.TemporaryDirectory() as path:
        folder = Folder("json_format", path, a_json=LOOSE)
        os.chmod(f"{path}/a.json", 0o640)
        first = folder.run(*words, "a.json")
        formed = folder.state("a.json")
        second = folder.run(*words, "a.json")
        is_same = folder.state("a.json") == formed
        return first, second, is_same, formed[-1] == form(indent), formed[3] & 0o777, os.listdir(path)


def left_alone(words, text, name="a.json"):
    """The answer for a file, and whether the file was not touched, with a file beside it that is formatted."""
    with tempfile.TemporaryDirectory() as path:
        folder = Folder("json_format", path, b_json=LOOSE)
        folder.write(name, text)
        before = folder.state(name)
        answer = folder.run(*words, "--", name, "b.json")
        return answer, folder.state(name) == before, folder.read("b.json") == form(2)


def check_files(checks):
    done = (0, b"", b"")
    for words, indent in INDENTS:
        checks.row(f"json_format {words}, in place", (done, done, True, True, 0o640, ["a.json"]), in_place, words, indent)
    refused = (3, b"", b"a.json:1:3: Invalid character: ]\n")
    checks.row("json_format: no JSON text", (refused, True, True), left_alone, [], b"[1,]")
    refused = (3, b"", b"a.json:1:1: not UTF-8\n")
    checks.row("json_format: not UTF-8", (refused, True, True), left_alone, [], b'"\xff"')
    checks.row("json_format: in form", (done, True, True), left_alone, [], form(2))
    checks.row("json_format: a name that begins with a dash", (done, True, True), left_alone, [], form(2), "-c")
    checks.row("json_format --check", ((1, b"a.json\nb.json\n", b""), True, False), left_alone, ["--check"], LOOSE)
    checks.row("json_format --check, in form", ((1, b"b.json\n", b""), True, False), left_alone, ["-c"], form(2))
    refused = (3, b"b.json\n", b"a.json:1:1: Unexpected EOF\n")
    checks.row("json_format --check, no JSON text", (refused, True, False), left_alone, ["-c"], b"[")
    shown = (1, f"{SHOWN_CONTROLS}\nb.json\n".encode(), b"")
    checks.row("json_format --check, controls in a name", (shown, True, False), left_alone, ["-c"], LOOSE, CONTROLS)


def read_only():
    with tempfile.TemporaryDirectory() as path:
        folder = Folder("json_format", path, a_json=LOOSE, b_json=LOOSE)
        os.chmod(f"{path}/a.json", 0o444)
        return folder.run("a.json", "b.json"), folder.read("a.json") == LOOSE, folder.read("b.json") == form(2)


def taken():
    """The name of the file that is written beside is taken."""
    with tempfile.TemporaryDirectory() as path:
        folder = Folder("json_format", path, a_json=LOOSE, a_json_json=b"mine")
        os.rename(f"{path}/a.json.json", f"{path}/a.json.json_format")
        return folder.run("a.json"), folder.read("a.json") == LOOSE, folder.read("a.json.json_format")


def linked():
    with tempfile.TemporaryDirectory() as path:
        folder = Folder("json_format", path, a_json=LOOSE)
        os.symlink("a.json", f"{path}/link.json")
        answer = folder.run("link.json")
        return answer, os.readlink(f"{path}/link.json"), folder.read("a.json") == form(2), sorted(os.listdir(path))


def unread():
    with tempfile.TemporaryDirectory() as path:
        folder = Folder("json_format", path, b_json=LOOSE)
        os.mkdir(f"{path}/folder")
        return folder.run("none", "folder", "-", "b.json", given=b"1"), folder.read("b.json") == form(2)


def check_places(checks):
    answer = (4, b"", b"json_format: a.json: not written: it is read-only\n")
    checks.row("json_format: a file that is read-only", (answer, True, True), read_only)
    answer = (4, b"", b"json_format: a.json: not written: File exists (os error 17)\n")
    checks.row("json_format: the name beside is taken", (answer, True, b"mine"), taken)
    checks.row("json_format: a symbolic link", ((0, b"", b""), "a.json", True, ["a.json", "link.json"]), linked)
    words = b"none: No such file or directory (os error 2)\nfolder: Is a directory (os error 21)\n"
    checks.row("json_format: files that can't be read", ((4, b"1\n", words), True), unread)


def check_faults(checks):
    FAULTS.streams(checks, STREAMS)
    FAULTS.failing(checks, FAILING)
    FAULTS.interrupted(checks, INTERRUPTED)
    FAULTS.refusing(checks, REFUSED_MEMORY)


PAGE = Page("json_format", [])


def check_page(checks):
    PAGE.check_page(checks)
    PAGE.check_words(checks)
    PAGE.check_pipes(checks)


PARTS = (check_page, check_rows, check_files, check_places, check_faults)
