"""Rows of programs that replace files by the answers for their texts, with `--in-place`."""

import os
import tempfile

from pages import misused
from running import program, reported, run_of

DONE = (0, b"", b"")


class Folder:
    """A folder with files, in which a program runs."""

    def __init__(self, name, path, **files):
        self.name, self.path = name, path
        for file, text in files.items():
            self.write(file.replace("_", "."), text)

    def write(self, name, text):
        with open(f"{self.path}/{name}", "wb") as file:
            file.write(text)

    def read(self, name):
        with open(f"{self.path}/{name}", "rb") as file:
            return file.read()

    def run(self, *words, given=b""):
        return run_of(program(self.name), words, given, cwd=self.path)

    def state(self, name):
        """What is different in a file that was touched."""
        at = os.stat(f"{self.path}/{name}")
        return at.st_ino, at.st_mtime_ns, at.st_ctime_ns, at.st_mode, self.read(name)


class InPlace:
    """The rows of one program: `words` ask for the answer `result` for the text `given`, and for the same for that."""

    def __init__(self, name, words, given, result):
        self.name, self.words, self.given, self.result = name, words, given, result

    def check(self, checks):
        for words in (["-I"], ["--in-place"]):
            checks.row(f"{self.name} {words}", (DONE, DONE, True, self.result, 0o640, ["a.json"]), self.twice, words)
        self.check_left(checks)
        self.check_places(checks)
        missing = misused(self.name, "FILE is missing")
        checks.row(f"{self.name} -I: no file", missing, run_of, program(self.name), ["-I", *self.words], self.given)
        lines = reported(2, self.name, "-l and -I exclude each other")
        checks.row(f"{self.name} -I: lines", (lines, True, False), self.left, self.given, "a.json", "-l")

    def check_left(self, checks):
        """Files that are not touched, each with one beside it that is replaced."""
        for what, text, words in (("no JSON text", b"[1,]", b"3: Invalid character: ]"), ("not UTF-8", b'"\xff"', b"1: not UTF-8")):
            answer = 3, b"", b"a.json:1:%s\n" % words
            checks.row(f"{self.name} -I: {what}", (answer, True, True), self.left, text)
        checks.row(f"{self.name} -I: what has its answer", (DONE, True, True), self.left, self.result)
        checks.row(f"{self.name} -I: a name that begins with a dash", (DONE, True, True), self.left, self.result, "-c")

    def check_places(self, checks):
        answer = reported(4, self.name, "a.json: not written: it is read-only")
        checks.row(f"{self.name} -I: a file that is read-only", (answer, self.given, self.result), self.read_only)
        answer = reported(4, self.name, "a.json: not written: File exists (os error 17)")
        checks.row(f"{self.name} -I: the name beside is taken", (answer, self.given, b"mine"), self.taken)
        checks.row(f"{self.name} -I: a symbolic link", (DONE, "a.json", self.result, ["a.json", "link.json"]), self.linked)
        words = b"none: No such file or directory (os error 2)\nfolder: Is a directory (os error 21)\n"
        checks.row(f"{self.name} -I: files that can't be read", ((4, self.result, words), self.result), self.unread)

    def twice(self, words):
        """What is printed of a file that is replaced twice, whether the second run leaves it, its text and mode, and its folder."""
        with tempfile.TemporaryDirectory() as path:
            folder = Folder(self.name, path, a_json=self.given)
            os.chmod(f"{path}/a.json", 0o640)
            first = folder.run(*words, *self.words, "a.json")
            state = folder.state("a.json")
            second = folder.run(*words, *self.words, "a.json")
            return first, second, folder.state("a.json") == state, state[-1], state[3] & 0o777, os.listdir(path)

    def left(self, text, name="a.json", *words):
        """The answer for a file, whether the file is as it was, and whether that beside it is replaced."""
        with tempfile.TemporaryDirectory() as path:
            folder = Folder(self.name, path, b_json=self.given)
            folder.write(name, text)
            before = folder.state(name)
            answer = folder.run("-I", *words, *self.words, "--", name, "b.json")
            return answer, folder.state(name) == before, folder.read("b.json") == self.result

    def read_only(self):
        with tempfile.TemporaryDirectory() as path:
            folder = Folder(self.name, path, a_json=self.given, b_json=self.given)
            os.chmod(f"{path}/a.json", 0o444)
            return folder.run("-I", *self.words, "a.json", "b.json"), folder.read("a.json"), folder.read("b.json")

    def taken(self):
        """The name of the file that is written beside is taken."""
        with tempfile.TemporaryDirectory() as path:
            folder = Folder(self.name, path, a_json=self.given)
            folder.write(f"a.json.{self.name}", b"mine")
            return folder.run("-I", *self.words, "a.json"), folder.read("a.json"), folder.read(f"a.json.{self.name}")

    def linked(self):
        with tempfile.TemporaryDirectory() as path:
            folder = Folder(self.name, path, a_json=self.given)
            os.symlink("a.json", f"{path}/link.json")
            answer = folder.run("-I", *self.words, "link.json")
            return answer, os.readlink(f"{path}/link.json"), folder.read("a.json"), sorted(os.listdir(path))

    def unread(self):
        """Files that can't be read, standard input, and a file that is replaced."""
        with tempfile.TemporaryDirectory() as path:
            folder = Folder(self.name, path, b_json=self.given)
            os.mkdir(f"{path}/folder")
            answer = folder.run("-I", *self.words, "none", "folder", "-", "b.json", given=self.given)
            return answer, folder.read("b.json")
