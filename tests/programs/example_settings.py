"""Rows of `example_settings`: settings that are read, or one that is changed."""

from faults import BROKEN, FOLDER, FULL, INVALID, Faults
from padding import padded_rows, padded_settings
from running import printed, program, reported, run_of
from values import CONTROLS, DEEP, LONG, NESTED, NOT_UTF8, QUOTED, SHOWN

FAULTS = Faults("example_settings", no_memory=2)

# Words that are no port.
NO_PORT = [["0"], ["65536"], ["-1"], [""], ["x"], ["1", "2"], [NOT_UTF8]]

# The words, the input, and the answer.
SETTINGS = [
    ([], b'{"port": 80.8e2, "host": "a", "b": []}', printed(b"http://a:8080")),
    ([], b'{"port": 443, "host": "b", "tls": true}', printed(b"https://b:443")),
    ([], b"{", reported(1, "example_settings", "Parse error at line:1, col:1: Unexpected EOF")),
    ([], b"[]", reported(1, "example_settings", "not an object")),
    ([], b'{"port": 0, "host": "a"}', reported(1, "example_settings", "no port from 1 to 65535")),
    ([], b'{"port": 65536, "host": "a"}', reported(1, "example_settings", "no port from 1 to 65535")),
    ([], b'{"port": 1, "host": null}', reported(1, "example_settings", "no host")),
    ([], b'{"port": 1, "host": "", "tls": 1}', reported(1, "example_settings", "tls is neither true nor false")),
    ([], b"{}", reported(1, "example_settings", "no port from 1 to 65535")),
    ([], b'{"port": "", "tls": 1}', reported(1, "example_settings", "no port from 1 to 65535")),
    ([], b'{"port": 1, "tls": 1}', reported(1, "example_settings", "tls is neither true nor false")),
    ([], b'{"port": 1, "host": %s}' % LONG, printed(b"http://%s:1" % LONG[1:-1])),
    (["+80"], b'{"port": 1}', printed(b'{"port":80}')),
    (["080"], b'{"port": 1}', printed(b'{"port":80}')),
    (["8443"], b'{"port": 80, "host": "a"}', printed(b'{"host":"a","port":8443}')),
    (["8443"], b'{"host":"a"}', reported(1, "example_settings", "no port from 1 to 65535")),
    (["8443"], b"[80]", reported(1, "example_settings", "no port from 1 to 65535")),
    (["8443"], b"[", reported(1, "example_settings", "Parse error at line:1, col:1: Unexpected EOF")),
    ([], NESTED, reported(1, "example_settings", "not an object")),
    ([], b'{"port": 1, "host": %s, "more": %s}' % (NESTED, NESTED), reported(1, "example_settings", "no host")),
    (["80"], b'{"port": %s, "more": %s}' % (NESTED, NESTED), printed(b'{"more":%s,"port":80}' % NESTED)),
    *[(words, b"{}", reported(2, "example_settings", "usage: example_settings [PORT]")) for words in NO_PORT],
]

# Control characters are shown by their code points.
CLEAN = [
    ([], b'{"port":1,"host":"' + CONTROLS + b'"}', printed(b"http://" + SHOWN + b":1")),
    ([], b'{"port":1,"host":"a\\u0007\\nhttp://b"}', printed(b"http://aU+0007U+000Ahttp://b:1")),
    ([], b"{\x7f", reported(1, "example_settings", "Parse error at line:1, col:1: Invalid character: U+007F")),
    (["2"], b'{"port":1,"host":"' + CONTROLS + b'"}', printed(b'{"host":"' + QUOTED + b'","port":2}')),
]

# How many rows are not padded, and why.
UNPADDED = {"a large text": 4}

# Deep values in what fails, and where memory is refused.
DEEP_FAILURES = [
    ([], b'{"port": 1, "host": "a", "tls": %s}' % NESTED, reported(1, "example_settings", "tls is neither true nor false")),
    ([], b'{"port": 1, "host": %s, "more": %s}' % (NESTED, NESTED), reported(1, "example_settings", "no host")),
    ([], b'{"port": %s, "host": %s}' % (NESTED, NESTED), reported(1, "example_settings", "no port from 1 to 65535")),
    (["80"], b'{"more": %s}' % NESTED, reported(1, "example_settings", "no port from 1 to 65535")),
    (["80"], NESTED, reported(1, "example_settings", "no port from 1 to 65535")),
    ([], NESTED + b"x", reported(1, "example_settings", "Parse error at line:1, col:200001: Expected EOF but got character 'x'")),
    (["80"], b'{"port": %s, "more": %s}' % (NESTED, NESTED), (2, FULL)),
    ([], b'{"port": 1, "host": "a", "more": %s}' % NESTED, (2, FULL)),
]
DEEP_MEMORY = [([], b'{"port":1,"host":"a","more":%s}' % DEEP), (["80"], b'{"port":%s,"more":%s}' % (DEEP, DEEP))]

# The arguments, an input, and the statuses and words where the input is not UTF-8, can't be read, and where the output can't be written.
STREAMS = [([], b'{"port":1,"host":"a"}', (2, INVALID), (2, FOLDER), (2, FULL))]

# The arguments, an input, what is printed of it, and the statuses and words where a read and where a write fails.
FAILING = [([], b'{"port":1,"host":%s}' % LONG, b"http://%s:1\n" % LONG[1:-1], (2, BROKEN), (2, BROKEN))]

# Where each request for memory is refused.
SOME = b'{"port":80,"host":"a","tls":true,"more":[1.5,{"a":"x"}]}'
REFUSED_MEMORY = [([], SOME), (["8443"], SOME)]


def check_rows(checks):
    for row in (*SETTINGS, *CLEAN):
        words, given, expected = row
        name = f"example_settings: {words} {given[:60]}"
        checks.row(name, expected, run_of, program("example_settings"), words, given, at=row)


def check_padded(checks):
    """The same with more members in each object, and more items in each array."""
    rows = [(row, *row) for row in (*SETTINGS, *CLEAN) if row[2][0] != 2]
    for row, (given, expected) in padded_rows(checks, "example_settings", rows, padded_settings, UNPADDED):
        name = f"example_settings: padded {row[0]} {row[1][:60]}"
        checks.row(name, expected, run_of, program("example_settings"), row[0], given, at=row)


def check_deep(checks):
    FAULTS.deep(checks, DEEP_FAILURES)
    FAULTS.refusing_deep(checks, DEEP_MEMORY)


def check_faults(checks):
    FAULTS.streams(checks, STREAMS)
    FAULTS.failing(checks, FAILING)
    FAULTS.refusing(checks, REFUSED_MEMORY)


PARTS = (check_rows, check_padded, check_deep, check_faults)
