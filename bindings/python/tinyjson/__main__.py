"""Calls the library for the text of standard input: python -m tinyjson --help"""

import argparse
import pathlib
import sys
from typing import List, Optional, Tuple

import tinyjson

#: What is asked, what its second text is, and the help.
CALLS = {
    "check": (None, "print nothing for a JSON text"),
    "normal": (None, "print the one compact text of the value"),
    "indented": (None, "print the text, indented"),
    "lines": (None, "print the normal text of each line"),
    "part": ("POINTER", "print the part that a JSON pointer names"),
    "select": ("QUERY", "print what a JSONPath query selects, a line each"),
    "paths": ("QUERY", "print the paths of what a JSONPath query selects"),
    "merge": ("FILE", "print the text with the merge patch of a file applied"),
    "patch": ("FILE", "print the text with the patch of a file applied"),
    "valid": ("FILE", "print what is not valid by the schema of a file"),
}


def parser() -> argparse.ArgumentParser:
    made = argparse.ArgumentParser(prog="python -m tinyjson", description="JSON texts of standard input, by proved code.",
                                   epilog="The status is 0 for an answer, 1 for none, and 2 for a text that is refused.")
    calls = made.add_subparsers(dest="call", required=True)
    for name, (other, words) in CALLS.items():
        call = calls.add_parser(name, help=words, description=words)
        call.add_argument("-d", "--depth", type=int, default=tinyjson.DEPTH, help="how many containers may be open at once")
        if other is not None:
            call.add_argument("other", metavar=other)
    return made


def answer(asked: argparse.Namespace, text: bytes) -> Tuple[int, Optional[bytes]]:
    """The status, and what is printed."""
    name, depth = asked.call, asked.depth
    if name == "check":
        tinyjson.check(text, depth)
        return 0, None
    if name == "lines":
        return 0, tinyjson.normal_lines(text, depth)
    if name in ("normal", "indented"):
        call = tinyjson.normal if name == "normal" else tinyjson.indented
        return 0, call(text, depth) + b"\n"
    if name == "part":
        part = tinyjson.part(text, asked.other.encode(), depth)
        return (1, None) if part is None else (0, part + b"\n")
    if name in ("select", "paths"):
        select = tinyjson.select if name == "select" else tinyjson.select_paths
        return 0, b"".join(line + b"\n" for line in select(text, asked.other.encode(), depth))
    other = pathlib.Path(asked.other).read_bytes()
    if name == "valid":
        report = tinyjson.valid(text, other, depth)
        return (0, None) if report is None else (1, report + b"\n")
    return 0, (tinyjson.merge if name == "merge" else tinyjson.patch)(text, other, depth) + b"\n"


def main(words: Optional[List[str]] = None) -> int:
    asked = parser().parse_args(words)
    try:
        status, printed = answer(asked, sys.stdin.buffer.read())
    except (OSError, ValueError, MemoryError) as error:
        print(f"tinyjson: {error}", file=sys.stderr)
        return 2
    if printed is not None:
        sys.stdout.buffer.write(printed)
    return status


if __name__ == "__main__":
    sys.exit(main())
