"""Programs that run with chosen calls of the C library failing (`preload.c` says which), and with streams that can't be used.

Each check takes rows of a program: its arguments, an input, and what is expected.
"""

import errno
import os
import re
import resource
import signal
import subprocess
import tempfile

from running import LIMIT, STACK, program, reported, run_of, run_small

HERE = os.path.dirname(os.path.abspath(__file__))

# The lines by which the preloaded library reports failing calls, and memory that is not given back.
REFUSED, FAILED, CALLED_AGAIN, KEPT = b"(refused)\n", b"(failed)\n", b"(called again)\n", b"(kept memory)\n"

# The line by which it counts the requests for memory.
COUNTED = rb"\((\d+) requests\)\n"

# What the C library and the standard library say of a stream.
INVALID = "stream did not contain valid UTF-8"
NO_TEXT = "Parse error at line:1, col:0: not UTF-8"
FOLDER = "Is a directory (os error 21)"
FULL = "No space left on device (os error 28)"
TOO_LARGE = "File too large (os error 27)"
BROKEN = "Input/output error (os error 5)"
WRITING = "writing failed"
NOT_UTF8 = b"\xff"

# From how many requests on all are refused to a deep value: a few, spread evenly, and each of the last.
FEW, LAST = 4, 60

# The library that `build` compiled.
LIBRARY = []


def build(folder):
    """Compiles the library that is preloaded."""
    library = f"{folder}/preload.so"
    source = f"{HERE}/preload.c"
    subprocess.run(["cc", "-shared", "-fPIC", "-O1", source, "-o", library, "-ldl"], check=True)
    LIBRARY[:] = [library]


class Ended:
    """How a program ended: its status, what it wrote, and the lines of the library apart from it."""

    def __init__(self, process):
        self.status = process.returncode
        self.output = process.stdout
        self.reports = {line: process.stderr.count(line) for line in (REFUSED, FAILED, CALLED_AGAIN, KEPT)}
        self.errors = process.stderr
        for line in self.reports:
            self.errors = self.errors.replace(line, b"")

    def answer(self):
        """All that a run shows."""
        return self.status, self.output, self.errors


def run(words, given=b"", stack=None, **variables):
    """Runs a program with the library, these variables for it, and a stack of at most so many bytes."""
    variables = {name: str(value) for name, value in variables.items()}
    env = {**os.environ, "LD_PRELOAD": LIBRARY[0], **variables}
    least = stack and (lambda: resource.setrlimit(resource.RLIMIT_STACK, (stack, stack)))
    return Ended(subprocess.run(words, input=given, env=env, preexec_fn=least, capture_output=True, timeout=LIMIT, check=False))


def each_failed(words, given, variable, error):
    """The runs in which the first, the second, .. of these calls fails, and the last, in which none does."""
    call, is_failed = 0, True
    while is_failed:
        call += 1
        ended = run(words, given, **{variable: call, "ERRNO": error})
        is_failed = ended.reports[FAILED] > 0
        yield call, ended


def refused_each(words, given, is_well):
    """The runs that are not well, with one request for memory refused, or all from one on; of both the number of requests."""
    undisturbed = run(words, given)
    failures = [] if is_well(undisturbed, undisturbed) else ["undisturbed"]
    counts = []
    for variable in ("REFUSED_CALL", "REFUSED_FROM"):
        call, is_refused = 0, True
        while is_refused:
            call += 1
            ended = run(words, given, **{variable: call})
            is_refused = ended.reports[REFUSED] > 0
            if not is_well(undisturbed, ended):
                failures.append(f"{variable}={call}: status {ended.status}, {ended.errors[-200:]!r}")
        counts.append(call - 1)
    return failures, counts


def refused_last(words, given, is_well):
    """The runs on a small stack that are not well, with all requests for memory refused from some on."""
    undisturbed = run(words, given, stack=STACK, COUNTED=1)
    counted = re.search(COUNTED, undisturbed.errors)
    if not counted:
        return [f"undisturbed: status {undisturbed.status}"]
    count, failures = int(counted[1]), []
    undisturbed.errors = undisturbed.errors.replace(counted[0], b"")
    for call in (*range(count // FEW, count, count // FEW), *range(max(1, count - LAST), count + 1)):
        ended = run(words, given, stack=STACK, REFUSED_FROM=call)
        if not is_well(undisturbed, ended):
            failures.append(f"REFUSED_FROM={call} of {count}: status {ended.status}, {ended.errors[-200:]!r}")
    return failures


class Faults:
    """The faults of one program.

    `status` is that of a run in which nothing fails, `is_stopping` says that neither read nor write is called after one that
    failed, `no_memory` is the status of out of memory, and `is_freeing` says that all memory is given back.
    """

    def __init__(self, name, status=0, is_stopping=False, no_memory=4, is_freeing=True):
        self.name = name
        self.status = status
        self.is_stopping = is_stopping
        self.no_memory = no_memory
        self.is_freeing = is_freeing

    def run_of(self, words, given=b"", **how):
        return run_of(program(self.name), words, given, **how)

    def streams(self, checks, rows):
        """Standard input that is not UTF-8 or can't be read, and standard output that can't be written.

        A row has the arguments, an input that the program takes, and the statuses and words where the input is not UTF-8, where
        it can't be read, and where the output can't be written.
        """
        for row in rows:
            words, given, *answers = row
            name = f"{self.name} {' '.join(words)}"
            not_utf8, unread, unwritten = (reported(status, self.name, line) for status, line in answers)
            checks.row(f"{name}, not UTF-8", not_utf8, self.run_of, words, NOT_UTF8, at=row)
            folder = os.open("/", os.O_RDONLY)
            checks.row(f"{name}, a directory as input", unread, self.run_of, words, stdin=folder, at=row)
            os.close(folder)
            with open("/dev/full", "wb") as full:
                checks.row(f"{name}, a full output", unwritten, self.run_of, words, given, stdout=full, at=row)
            self.too_large(checks, name, row, unwritten)

    def too_large(self, checks, name, row, unwritten):
        """A limit of file size: where it is met, a program ends by a signal; where that is ignored, the write fails."""
        words, given, *_ = row
        limited = lambda: resource.setrlimit(resource.RLIMIT_FSIZE, (0, 0))
        too_large = unwritten[:2] + (unwritten[2].replace(FULL.encode(), TOO_LARGE.encode()),)
        for what, is_restored, expected in (("met", True, (-signal.SIGXFSZ, b"", b"")), ("ignored", False, too_large)):
            with tempfile.TemporaryFile() as file:
                how = {"stdout": file, "preexec_fn": limited, "restore_signals": is_restored}
                checks.row(f"{name}, a limit of file size that is {what}", expected, self.run_of, words, given, at=row, **how)

    def failing(self, checks, rows):
        """Each read and each write fails in turn: the status, the words, and that a prefix of the output is written.

        A row has the arguments, an input that takes several reads, what is printed of it, and the statuses and words where a read
        fails, and where a write fails.
        """
        for row in rows:
            words, given, output, *answers = row
            for variable, (status, line) in zip(("FAILED_READ", "FAILED_WRITE"), answers):
                name = f"{self.name} {' '.join(words)}, {variable} each in turn"
                failed = reported(status, self.name, line)
                checks.row(name, (True,), self.each_failing, words, given, output, variable, failed, at=row)

    def each_failing(self, words, given, output, variable, failed):
        """Whether there are such calls, and the runs with a wrong answer."""
        failures = []
        for call, ended in each_failed([program(self.name), *words], given, variable, errno.EIO):
            is_failed = ended.reports[FAILED] > 0
            expected = failed if is_failed else (self.status, output, b"")
            is_written = output.startswith(ended.output) if is_failed else ended.output == output
            is_written = is_written and not (self.is_stopping and ended.reports[CALLED_AGAIN])
            if not is_written or (ended.status, ended.errors) != (expected[0], expected[2]):
                failures.append((call, ended.status, len(ended.output), ended.errors))
        return call > 1, *failures

    def interrupted(self, checks, rows):
        """Each read is interrupted in turn, and nothing of the answer changes.

        A row has the arguments, an input that is longer than a buffer, and what is printed of it.
        """
        for row in rows:
            words, given, output = row
            name = f"{self.name} {' '.join(words)}, each read interrupted in turn"
            checks.row(name, (True,), self.each_interrupted, words, given, output, at=row)

    def each_interrupted(self, words, given, output):
        """Whether there are several reads, and the runs with a wrong answer."""
        failures = []
        for call, ended in each_failed([program(self.name), *words], given, "FAILED_READ", errno.EINTR):
            if ended.answer() != (self.status, output, b""):
                failures.append((call, ended.status, len(ended.output), ended.errors))
        return call > 2, *failures

    def refusing(self, checks, rows):
        """Each request for memory is refused, alone and with all later ones.

        A row has the arguments and an input.
        """
        for row in rows:
            words, given = row
            name = f"{self.name} {' '.join(words)[:60]} over {len(given)} bytes, memory refused"
            if checks.needs_memory(name):
                failures, counts = refused_each([program(self.name), *words], given, self.is_well)
                checks.check(name, (min(counts) > 0, *failures), (True,), at=row)

    def refusing_deep(self, checks, rows):
        """All requests for memory are refused from some on, where a value is deep.

        A row has the arguments and an input.
        """
        for row in rows:
            words, given = row
            name = f"{self.name} {' '.join(words)[:60]} over {len(given)} bytes, deep, memory refused"
            if checks.needs_memory(name):
                checks.check(name, refused_last([program(self.name), *words], given, self.is_well), [], at=row)

    def deep(self, checks, rows):
        """What fails where a value is deep, on a small stack.

        A row has the arguments, an input and the answer, or for a full output, in its place, the status and the words.
        """
        for row in rows:
            words, given, expected = row
            name = f"{self.name}: deep, {[word[-60:] for word in words]} {given[:30]} .. {given[-30:]}"
            if len(expected) == 3:
                checks.row(name, expected, run_small, program(self.name), words, given, at=row)
                continue
            with open("/dev/full", "wb") as full:
                unwritten = reported(expected[0], self.name, expected[1])
                checks.row(f"{name}, a full output", unwritten, run_small, program(self.name), words, given, stdout=full, at=row)

    def is_well(self, undisturbed, ended):
        """Whether a run answers what it answers undisturbed, or its status and line of out of memory since a request was refused.

        What it tells of single lines, as `json_schema -l` does, may come before.
        """
        if self.is_freeing and ended.reports[KEPT] > 0:
            return False
        if ended.answer() == undisturbed.answer():
            return ended.status in (0, 1, 3)
        line = f"{self.name}: out of memory\n".encode()
        is_prefix = undisturbed.output.startswith(ended.output) and ended.reports[REFUSED] > 0
        is_told = ended.errors.endswith(line) and undisturbed.errors.startswith(ended.errors.removesuffix(line))
        return is_prefix and is_told and ended.status == self.no_memory


