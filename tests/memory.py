"""The tests of memory of `tinyjson_vectors`, with requests for memory refused.

For N = 1, 2, .. each runs with its Nth request for memory refused, and with the Nth and all later ones refused, until a run makes
fewer requests than N. (One test compares two calls after a refusal, of which either may run out of memory again: no later request of
it is refused.) The tests of deep values run on a small stack, with all requests refused from some of them on. A test has to pass, or
to end with an error that says out of memory, and has to give all its memory back.
"""

import re
import subprocess

from checks import shared
from faults import KEPT, REFUSED, refused_each, run
from places import TOP
from running import STACK

TESTS = f"{TOP}/crates/tinyjson_vectors/out/tinyjson_vectors_tests"

OUT_OF_MEMORY = re.compile(rb"^error: .*(OutOfMemory|AllocError|AllocFailed|JsonGenerateError).*$", re.M)

# From how many requests on all are refused to a deep value: a few, spread evenly, and each of the last.
FEW, LAST = 4, 16

# No program is run.
PROGRAMS = ()


def is_test_well(_, ended):
    """Whether a test passes, or says out of memory since a request was refused, and gives all memory back."""
    is_memory = ended.reports[REFUSED] > 0 and OUT_OF_MEMORY.search(ended.output + ended.errors) is not None
    return (ended.status == 0 or is_memory) and ended.reports[KEPT] == 0


def tests_of(pattern):
    """The tests whose names match."""
    listed = subprocess.run([TESTS, "--list"], capture_output=True, text=True, check=True).stdout
    return re.findall(rf"^({pattern}\S*): test$", listed, re.M)


def check_memory(checks):
    """One request is refused, or all from one on."""
    for test in tests_of("memory::"):
        if checks.needs_memory(test):
            failures, _ = refused_each([TESTS, test], b"", is_test_well)
            checks.check(test, failures, [])


def refused_last(words):
    """The runs of a test that are not well on a small stack, with all requests refused from some on: a few, and each of the last."""
    count = int(re.search(rb"\((\d+) requests\)", run(words, COUNTED=1).errors)[1])
    failures = []
    for call in (*range(count // FEW, count, count // FEW), *range(count - LAST, count + 1)):
        ended = run(words, stack=STACK, REFUSED_FROM=call)
        if not is_test_well(None, ended):
            failures.append(f"REFUSED_FROM={call}: status {ended.status}, {ended.errors[-200:]!r}")
    return failures


def check_deep_memory(checks):
    """All requests are refused from some on, over deep values; and there are tests of both kinds."""
    for test in tests_of("deep_memory::"):
        if checks.needs_memory(test):
            checks.check(test, refused_last([TESTS, test]), [])
    for pattern in ("memory::", "deep_memory::"):
        checks.row(f"tests {pattern}", True, lambda: tests_of(pattern) != [])


PARTS = (check_deep_memory, *shared(check_memory))
