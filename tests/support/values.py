"""Inputs that several programs are given."""

import json

NOT_UTF8 = b"\xff"

# More levels than the drop of a value has stack for.
NESTED = b"[" * 100_000 + b"]" * 100_000

# Fewer, for many runs on a small stack: more than a recursion has room for on it.
DEEP = b"[" * 20_000 + b"]" * 20_000

# A string past each growth of a buffer.
LONG = b'"%s"' % (b"x" * 300_000)

# How many of each thing a wide row has, and as many keys in the order of their bytes.
WIDE = 20_000
WIDE_KEYS = [f"k{i:05}" for i in range(WIDE)]

# Control characters: raw in the input, where a JSON text may have them, and escaped; as a message shows them, by their code
# points; and inside a JSON string that is written, where those that a string may have are written as they are.
CONTROLS = b"\x7f\xc2\x80\xc2\x9f\\u0000\\n\\r\\u001b\\u007f\\u009b"
SHOWN = b"U+007FU+0080U+009FU+0000U+000AU+000DU+001BU+007FU+009B"
QUOTED = b"\x7f\xc2\x80\xc2\x9f\\u0000\\n\\r\\u001b\x7f\xc2\x9b"


def wide(value):
    """The text of an object with the value of this text at each of the keys."""
    return "{" + ",".join(f'"{key}":{value}' for key in WIDE_KEYS) + "}"


def normal(value):
    """The normal form of a JSON value without decimals, as Python writes it."""
    return json.dumps(value, sort_keys=True, separators=(",", ":"), ensure_ascii=False).encode()
