"""The rows that passed, failed and were left out, and what a failed one prints."""

import functools
import os
import sys

from places import TOP

# The longest texts of a row that a program without proof is given: at each step it checks each access, and takes up to half a
# millisecond for a level or a member.
LONGEST = 10_000


def place_of(row):
    """The file and the line of a row, or else of the call that checks it."""
    if hasattr(row, "place"):
        return row.place
    frame = sys._getframe(1)
    while frame.f_code.co_name in ("check", "row"):
        frame = frame.f_back
    return f"{os.path.relpath(frame.f_code.co_filename, TOP)}:{frame.f_lineno}"


def size_of(argument):
    """How long a text is, or the texts of a list together."""
    if isinstance(argument, (bytes, str)):
        return len(argument)
    return sum(map(size_of, argument)) if isinstance(argument, (list, tuple)) else 0


def short(answer):
    """An answer, with long texts cut off."""
    if isinstance(answer, tuple):
        return tuple(it[:200] if isinstance(it, (bytes, str)) else it for it in answer)
    return answer


class Checks:
    """The counts of some rows.

    `word` is a word that the name of a row has to have, by default any; `is_proved` is false where the programs are
    built without proof; `folder` is a folder for files, of these rows alone.
    """

    def __init__(self, word="", is_proved=True, folder=None):
        self.word = word
        self.is_proved = is_proved
        self.folder = folder
        self.passed = self.failed = self.skipped = 0
        self.lines = []
        self.share, self.shares, self.asked = 0, 1, 0

    def wants(self, name, *given):
        """Whether a row of this name, or a run for rows whose names begin so, is asked for, and can be judged.

        Long texts are not given to a program without proof.
        """
        if self.word not in name:
            return False
        self.asked += 1
        if self.asked % self.shares != self.share:
            return False
        if self.is_proved or size_of(given) <= LONGEST:
            return True
        self.skipped += 1
        return False

    def row(self, name, expected, function, *arguments, at=None, **how):
        """One row: the answer of a function to these arguments.

        A failed one names the place of `at`, the row of a table, or else the line of this call.
        """
        if self.wants(name, *arguments):
            self._count(name, function(*arguments, **how), expected, place_of(at))

    def some(self, rows):
        """These rows, or of a program without proof so many short ones that they fit together."""
        if self.is_proved:
            return rows
        short_rows = [row for row in rows if size_of(row) <= LONGEST]
        return short_rows[:: sum(map(size_of, short_rows)) // LONGEST + 1]

    def check(self, name, answer, expected, at=None):
        """The same, where the answer is known, of a run that is asked for."""
        self._count(name, answer, expected, place_of(at))

    def needs_memory(self, name):
        """Whether a row that refuses memory, or limits it, can be judged: with the address sanitizer it can't."""
        is_wanted = self.wants(name)
        self.skipped += is_wanted and not self.is_proved
        return is_wanted and self.is_proved

    def _count(self, name, answer, expected, place):
        if answer == expected:
            self.passed += 1
            return
        self.failed += 1
        self.lines.append(f"FAILED: {place}: {name}: {short(answer)}, expected {short(expected)}")

    def ended(self):
        """Prints what failed, and the counts, and gives the status."""
        for line in self.lines:
            print(line)
        print(counted(self.passed, self.failed, self.skipped))
        return int(self.failed > 0)


def shared(part, shares=4):
    """A part whose rows are shared among processes."""

    def run(share, checks):
        checks.share, checks.shares = share, shares
        part(checks)

    return [functools.partial(run, share) for share in range(shares)]


def counted(passed, failed, skipped=0):
    """The last line of a run."""
    return f"{passed} passed, {failed} failed" + (f", {skipped} skipped" if skipped else "")
