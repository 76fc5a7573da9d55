"""How long the proof of each crate takes: watched while `rt ci` runs, kept in a table, and read from there.

A line of the table has a crate, the processor time of its proof from nothing in minutes, and its memory in GB.
"""

import os
import pathlib
import threading

TOP = pathlib.Path(__file__).resolve().parent.parent.parent
TABLE = TOP / "tools/proof-times.txt"

# How often the provers are looked at, in seconds.
PAUSE = 1


def times():
    """The minutes and the memory of each crate's proof, by the table."""
    rows = (line.split() for line in TABLE.read_text().splitlines() if not line.startswith("#"))
    return {name: (float(minutes), float(memory)) for name, minutes, memory in rows}


def provers():
    """The provers that run: of each what tells it from others, its words, its folder, its minutes and its memory."""
    ticks, page = 60 * os.sysconf("SC_CLK_TCK"), os.sysconf("SC_PAGE_SIZE")
    for pid in filter(str.isdigit, os.listdir("/proc")):
        try:
            words = pathlib.Path("/proc", pid, "cmdline").read_text(errors="replace").split("\0")
            if os.path.basename(words[0]) == "rattle":
                fields = pathlib.Path("/proc", pid, "stat").read_text().rpartition(")")[2].split()
                minutes, memory = sum(map(int, fields[11:15])) / ticks, int(fields[21]) * page / 1e9
                yield (pid, fields[19]), words, os.readlink(f"/proc/{pid}/cwd"), minutes, memory
        except OSError:
            # (it has ended)
            pass


class Watch(threading.Thread):
    """Looks at the provers of this repository's crates, but for those of tests, until `written` is called."""

    def __init__(self):
        super().__init__(daemon=True)
        self.seen, self.is_over = {}, threading.Event()
        self.start()

    def run(self):
        while not self.is_over.wait(PAUSE):
            for prover, words, folder, minutes, memory in provers():
                folder = pathlib.Path(folder)
                if folder.parent == TOP / "crates" and "--test" not in words:
                    most = max(memory, self.seen.get(prover, (0, 0, 0))[2])
                    self.seen[prover] = folder.name, minutes, most

    def written(self):
        """Writes what was seen into the table. A crate that was not proved keeps its line."""
        self.is_over.set()
        self.join()
        found = times()
        for name in {name for name, _, _ in self.seen.values()}:
            own = [(minutes, memory) for crate, minutes, memory in self.seen.values() if crate == name]
            found[name] = sum(minutes for minutes, _ in own), max(memory for _, memory in own)
        head = [line for line in TABLE.read_text().splitlines() if line.startswith("#")]
        rows = [f"{name} {minutes:.1f} {memory:.1f}" for name, (minutes, memory) in sorted(found.items())]
        TABLE.write_text("\n".join([*head, *rows]) + "\n")
