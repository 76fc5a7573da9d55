"""Help pages of programs, and what all programs do alike: options, files, pipes and a terminal.

A page is run as it is printed: its examples, in a shell; each sentence of it has a row here or among the rows of the program.
"""

import os
import pty
import select
import shlex
import subprocess
import tempfile
import tty

from running import LIMIT, program, reported, run_of

# The reader of the output has gone: no message.
GONE = (4, b"")

# The longest that an answer takes to come through a pipe whose writer waits, in seconds.
SOON = 20

CONTROLS = "a\x1b\u202e.json"
SHOWN_CONTROLS = "aU+001BU+202E.json"


def misused(name, words):
    """The answer of a program whose arguments are not understood."""
    return reported(2, name, f"{words}: try {name} --help")


class Page:
    """The help page of one program.

    `words` are operands with which it takes the text `given`; `is_lines` says that each line is a text.
    """

    def __init__(self, name, words, given=b"[1]", is_lines=False):
        self.name, self.words, self.given, self.is_lines = name, words, given, is_lines

    def run(self, words, given=b"", **how):
        return run_of(program(self.name), words, given, **how)

    def check(self, checks):
        self.check_page(checks)
        self.check_words(checks)
        self.check_files(checks)
        self.check_pipes(checks)

    def page(self):
        return self.run(["--help"])[1].decode()

    def check_page(self, checks):
        """The page is printed on standard output, with status 0, and its examples do what it shows."""
        page = self.page()
        begins = page.startswith(f"Usage: {self.name}"), max(map(len, page.splitlines()), default=99) <= 82
        checks.row(f"{self.name}: the page", (True, True), lambda: begins)
        for words in (["-h"], ["--help"], ["-h", *self.words], [*self.words, "--help"]):
            checks.row(f"{self.name} {words}", (0, page.encode(), b""), self.run, words)
        for words in (["-V"], ["--version"]):
            checks.row(f"{self.name} {words}", (0, b"%s 0.2.0\n" % self.name.encode(), b""), self.run, words)
        examples = page.partition("Examples:\n")[2].splitlines()
        commands = [line[4:] for line in examples if line.startswith("  $ ")]
        shown = "".join(line[2:] + "\n" for line in examples if not line.startswith("  $ "))
        checks.row(f"{self.name}: two examples", (True,), lambda: (len(commands) >= 2,))
        checks.row(f"{self.name}: the examples", shown, self.shell, "\n".join(commands))

    def shell(self, commands):
        """What commands print in a shell that has the program on its path."""
        with tempfile.TemporaryDirectory() as folder:
            os.mkdir(f"{folder}/bin")
            os.symlink(program(self.name), f"{folder}/bin/{self.name}")
            env = {**os.environ, "PATH": f"{folder}/bin:{os.environ['PATH']}"}
            ran = subprocess.run(["bash", "-c", commands], cwd=folder, env=env, capture_output=True, timeout=LIMIT, check=False)
            return ran.stdout.decode() + ran.stderr.decode()

    def check_words(self, checks):
        """An option that is not known is named, wherever it is; after `--` it is an operand."""
        for word, shown in (("-x", "-x"), ("--x", "--x"), ("-hx", "-hx"), ("--helpx", "--helpx"), ("--help=1", "--help=1"), ("-\x1b", "-U+001B")):
            for words in ([word, *self.words], [*self.words, word]):
                answer = misused(self.name, f'unknown option "{shown}"; after -- it is an operand')
                checks.row(f"{self.name} {words}, an unknown option", answer, self.run, words, self.given)
        after = [*self.words, "--", "-x"]
        checks.row(f"{self.name} {after}, a file", (4, b"", b"-x: No such file or directory (os error 2)\n"), self.run, after, cwd="/")

    def check_files(self, checks):
        """Files are answered one after the other, and messages begin with a file's name."""
        once = self.run(self.words, self.given)
        both = (once[0], once[1] * 2, once[2])
        place = "1:1" if not self.is_lines else "1:1"
        with tempfile.TemporaryDirectory() as folder:
            for name, text in (("good", self.given), ("bad", b"[,]"), ("bytes", b"[\n \xff]" if not self.is_lines else b"\xff"), (CONTROLS, b"[,]")):
                with open(f"{folder}/{name}", "wb") as file:
                    file.write(text)
            run = lambda words, given=b"", **how: self.run(words, given, cwd=folder, **how)
            if not self.is_lines:
                checks.row(f"{self.name}: files", both, run, [*self.words, "good", "good"])
                many = (once[0], once[1] * 300, once[2])
                checks.row(f"{self.name}: 300 files", many, run, [*self.words, *["good"] * 300])
                checks.row(f"{self.name}: a file and standard input", both, run, [*self.words, "good", "-"], self.given)
                answer = (3, once[1] * 2, b"bad:1:1: Invalid character: ,\n")
                checks.row(f"{self.name}: a bad file", answer, run, [*self.words, "good", "bad", "good"])
                answer = (4, once[1], b"none: No such file or directory (os error 2)\n")
                checks.row(f"{self.name}: no file", answer, run, [*self.words, "none", "good"])
                checks.row(f"{self.name}: not UTF-8", (3, b"", b"bytes:2:1: not UTF-8\n"), run, [*self.words, "bytes"])
            else:
                checks.row(f"{self.name}: a file", once, run, [*self.words, "good"])
                checks.row(f"{self.name}: standard input", once, run, [*self.words, "-"], self.given)
                checks.row(f"{self.name}: a bad file", (3, once[1], b"bad:1:1: Invalid character: ,\n"), run, [*self.words, "good", "bad", "good"])
                checks.row(f"{self.name}: not UTF-8", (3, b"", b"bytes:1: not UTF-8\n"), run, [*self.words, "bytes"])
                checks.row(f"{self.name}: no file", (4, once[1], b"none: No such file or directory (os error 2)\n"), run, [*self.words, "none", "good"])
            shown = f"{SHOWN_CONTROLS}:{place}: Invalid character: ,\n".encode()
            checks.row(f"{self.name}: controls in a name", (3, b"", shown), run, [*self.words, CONTROLS])

    def check_pipes(self, checks):
        """Where the reader of the output has gone, there is no message. What is complete comes before the input ends."""
        checks.row(f"{self.name}: the reader has gone", GONE, self.unread, self.words)
        checks.row(f"{self.name}: the reader of the page has gone", GONE, self.unread, ["--help"])
        head = b"".join(self.run(self.words, self.given)[1].splitlines(True)[:1])
        checks.row(f"{self.name}: the first line, and the reader has gone", head.decode(), self.shell, f"{self.command()} | head -n 1")
        checks.row(f"{self.name}: the page on a terminal", self.page().encode(), self.page_on_terminal)
        checks.row(f"{self.name}: one end on a terminal", (True, self.run(self.words, self.given)[1]), self.on_terminal)
        if self.is_lines:
            checks.row(f"{self.name}: a slow pipe", self.run(self.words, b"[1]\n")[1], self.slowly, b"[1]\n")

    def command(self):
        """A command of a shell that gives the program its text, as many lines if each is one."""
        words = " ".join(shlex.quote(word) for word in [self.name, *self.words])
        if self.is_lines:
            return f"yes {shlex.quote(self.given.decode())} | head -n 50000 | {words}"
        return f"printf %s {shlex.quote(self.given.decode())} | {words}"

    def unread(self, words):
        """How the program ends where no one reads its output."""
        reader, writer = os.pipe()
        os.close(reader)
        status, _, errors = self.run(words, self.given, stdout=writer)
        os.close(writer)
        return status, errors

    def slowly(self, given):
        """What comes out of the program while its input waits."""
        words = [program(self.name), *self.words]
        with subprocess.Popen(words, stdin=subprocess.PIPE, stdout=subprocess.PIPE) as ran:
            ran.stdin.write(given)
            ran.stdin.flush()
            ready = select.select([ran.stdout], [], [], SOON)[0]
            come = os.read(ran.stdout.fileno(), 4096) if ready else b""
            ran.stdin.close()
            ran.wait(timeout=LIMIT)
        return come

    def page_on_terminal(self):
        """What `--help` prints where its output is a terminal."""
        ours, theirs = pty.openpty()
        tty.setraw(theirs)
        wanted, shown = len(self.page()), b""
        try:
            with subprocess.Popen([program(self.name), "--help"], stdin=subprocess.DEVNULL, stdout=theirs):
                while len(shown) < wanted and select.select([ours], [], [], SOON)[0]:
                    shown += os.read(ours, 4096)
            return shown
        finally:
            os.close(ours)
            os.close(theirs)

    def on_terminal(self):
        """Whether the program ends at the first end of input on a terminal, and what it prints."""
        ours, theirs = pty.openpty()
        try:
            words = [program(self.name), *self.words]
            with subprocess.Popen(words, stdin=theirs, stdout=subprocess.PIPE) as ran:
                os.write(ours, self.given.replace(b"\n", b" ") + b"\n\x04")
                try:
                    output, _ = ran.communicate(timeout=SOON)
                except subprocess.TimeoutExpired:
                    ran.kill()
                    return False, b""
            return True, output
        finally:
            os.close(ours)
            os.close(theirs)
