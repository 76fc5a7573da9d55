"""Rows of programs that read lines, about `--max-line`: a longer line is reported, and is not kept in memory."""

import os
import resource
import tempfile

from running import program, run_of

# The length of a line that does not fit in so much address space.
LENGTH = 100_000_000
MEMORY = 64 * 1_048_576

# A line that fills a reader's buffer more than once.
WIDE = b'"' + b"x" * 199_998 + b'"'
WIDEST = b'"' + b"x" * 2_999_998 + b'"'

# The words, the input, and its lines. The bytes before a line feed count, a carriage return among them: `[1,2]` has 5.
FIVE, SIX = b"[1,2]", b"[1,23]"
ACCENT = b'"\xc3\xa9"'
ROWS = [
    (["-m5"], FIVE + b"\n", [FIVE]),
    (["-m5"], FIVE, [FIVE]),
    (["-m5"], SIX + b"\n", [5]),
    (["-m5"], SIX, [5]),
    (["-m5"], SIX + b"\n1\n2\n", [5, b"1", b"2"]),
    (["-m5"], b"1\n" + SIX + b"\n2\n", [b"1", 5, b"2"]),
    (["-m5"], b"1\n2\n" + SIX, [b"1", b"2", 5]),
    (["-m5"], FIVE + b"\n" + SIX + b"\n" + SIX + b"\n" + FIVE, [FIVE, 5, 5, FIVE]),
    (["-m5"], b"[12]\r\n" + FIVE + b"\r\n", [b"[12]", 5]),
    (["-m4"], ACCENT + b"\n" + FIVE + b"\n", [ACCENT, 4]),
    (["-m3"], ACCENT + b"\n1\n", [3, b"1"]),
    (["-m3"], b"\xff\xff\xff\xff\n1\n", [3, b"1"]),
    (["-m0"], b"1\n", [0]),
    (["--max-line", "5"], SIX, [5]),
    (["--max-line=5"], SIX, [5]),
    (["-m9", "-m", "5"], SIX, [5]),
    (["-m", str(len(WIDE))], WIDE + b"\n1\n" + WIDE, [WIDE, b"1", WIDE]),
    (["-m", str(len(WIDE) - 1)], WIDE + b"\n1\n" + WIDE, [len(WIDE) - 1, b"1", len(WIDE) - 1]),
    ([], WIDE + b"\n1\n", [WIDE, b"1"]),
    ([], WIDEST + b"\n1\n", [WIDEST, b"1"]),
]


def reports_each(name, shown=lambda line: line):
    """The answer of a program that prints this for each line, and reports each that is longer than a limit."""
    def answer(lines):
        output = b"".join(shown(line) + b"\n" for line in lines if not isinstance(line, int))
        long = [(at, line) for at, line in enumerate(lines, 1) if isinstance(line, int)]
        return int(bool(long)), output, b"".join(b"%s: line %d: longer than %d bytes\n" % (name.encode(), at, line) for at, line in long)

    return answer


class LongLines:
    """The rows of one program.

    `words` are its first words, and `answer` gives its answer for some lines: each is a text, or the limit that it exceeds. `is_going`
    says that the run goes on after such a line, and `unlimited` has words that do not limit the length.
    """

    def __init__(self, name, words, answer, is_going, unlimited=([],)):
        self.name, self.words, self.answer, self.is_going, self.unlimited = name, words, answer, is_going, unlimited

    def check(self, checks):
        for row in ROWS:
            words, given, lines = row
            expected = self.answer(self.reached(lines))
            checks.row(f"{self.name}: {self.words} {words} {given[:40]}", expected, self.run, words, given, at=row)
        self.check_files(checks)
        self.check_memory(checks)

    def run(self, words, given, **how):
        return run_of(program(self.name), [*self.words, *words], given, **how)

    def reached(self, lines):
        """The lines up to the one that ends the run."""
        long = [number for number, line in enumerate(lines) if isinstance(line, int)]
        return lines if self.is_going or not long else lines[:long[0] + 1]

    def check_files(self, checks):
        """The lines of each file are counted by themselves, and a message begins with the file's name."""
        with tempfile.TemporaryDirectory() as folder:
            for name, text in (("a", b"1\n2\n"), ("b", b"3\n[1,23]\n4\n")):
                with open(os.path.join(folder, name), "wb") as file:
                    file.write(text)
            first, second = self.answer([b"1", b"2"]), self.answer(self.reached([b"3", 5, b"4"]))
            expected = (second[0], first[1] + second[1], b"b:2: longer than 5 bytes\n")
            checks.row(f"{self.name}: a longer line of a file", expected, self.run, ["-m5", "a", "b"], b"", cwd=folder)

    def check_memory(self, checks):
        """A line of 100 MB in 64 MB of address space: with the limit it is passed over, and without memory runs out."""
        limited = lambda: resource.setrlimit(resource.RLIMIT_AS, (MEMORY, MEMORY))
        long = b"[" * LENGTH
        for given, lines in ((long + b"\n1\n", [1_000, b"1"]), (b"1\n" + long, [b"1", 1_000])):
            name = f"{self.name}: a line of {LENGTH} bytes, line {lines.index(1_000) + 1}"
            if checks.needs_memory(name):
                expected = self.answer(self.reached(lines))
                checks.check(name, self.run(["-m", "1000"], given, preexec_fn=limited), expected)
        for words in self.unlimited:
            name = f"{self.name}: {words}, a line of {LENGTH} bytes, without a limit"
            if checks.needs_memory(name):
                expected = (4, b"", f"{self.name}: out of memory\n".encode())
                checks.check(name, self.run(words, long, preexec_fn=limited), expected)
