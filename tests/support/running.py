"""Programs, and what a run of one shows."""

import resource
import subprocess

from places import TOP

# The paths of programs that are built without proof, by name.
UNPROVED = {}

# The longest that a run takes, in seconds, on processors that others use too.
LIMIT = 300

# A stack that no recursion over many levels fits in.
STACK = 256 * 1024


def program(name):
    """The path of a program: the one that `rt ci` built, or with --unproved the one without proof."""
    return UNPROVED.get(name, f"{TOP}/crates/{name}/out/{name}")


def run_of(path, words, given=b"", **how):
    """The status, standard output and standard error of a program's run."""
    if "stdin" not in how:
        how["input"] = given
    how = {"stdout": subprocess.PIPE, "stderr": subprocess.PIPE, **how}
    try:
        ended = subprocess.run([path, *words], timeout=LIMIT, check=False, **how)
    except subprocess.TimeoutExpired:
        return None, b"", b"no answer in %d seconds" % LIMIT
    return ended.returncode, ended.stdout or b"", ended.stderr or b""


def small_stack():
    """Leaves a program that is proved 256 KB of stack. (The address sanitizer's frames are larger.)"""
    if not UNPROVED:
        resource.setrlimit(resource.RLIMIT_STACK, (STACK, STACK))


def run_small(path, words, given=b"", **how):
    """The same on a small stack."""
    return run_of(path, words, given, preexec_fn=small_stack, **how)


def printed(*lines):
    """The answer of a run that prints these lines."""
    return 0, b"".join(line + b"\n" for line in lines), b""


def reported(status, name, words, output=b""):
    """The answer of a run that ends with this status and these words of a program."""
    return status, output, f"{name}: {words}\n".encode()
