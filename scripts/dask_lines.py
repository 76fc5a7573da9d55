"""Normalises a file of lines on a Dask cluster, a block of lines a task: dask_lines.py SCHEDULER FILE FOLDER [SIZE]

SIZE is that of a block, as 64MiB. The last line printed is how many blocks there were: `join-shares FOLDER COUNT` has
the answer. FILE and FOLDER are seen by all workers. The program's bytes are written as they are: `Bag.to_textfiles` leaves
out the last line feed of each file, and files that are joined lose a line by it.
"""

import os
import subprocess
import sys

import dask
from dask.bytes import read_bytes
from dask.distributed import Client, progress


def normalise(block, folder, share):
    """Writes the normal forms of a block of lines, and the messages about those that are refused, to two files."""
    subprocess.run(["one-share", folder, str(share)], input=block, check=True)


def main(scheduler, source, folder, size="64MiB"):
    os.makedirs(folder, exist_ok=True)
    with Client(scheduler) as client:
        _, [blocks] = read_bytes(source, delimiter=b"\n", blocksize=size, sample=False)
        shares = client.compute([dask.delayed(normalise)(block, folder, k) for k, block in enumerate(blocks, 1)])
        progress(shares, notebook=False)
        client.gather(shares)
    print(f"\n{len(blocks)}")


if __name__ == "__main__":
    main(*sys.argv[1:])
