"""JSON texts (RFC 8259), checked, also by a schema, normalized, indented, compared, patched and searched by proved code.

>>> import tinyjson
>>> tinyjson.normal('{"b": [1.50, true], "a": 2e3}')
'{"a":2000,"b":[1.5,true]}'

A text is a `str`, or `bytes` in UTF-8, and what is written has the same type. In a text at most `depth` containers may
be open at once.
"""

import ctypes
import enum
import os
import pathlib
import platform
from typing import Any, Callable, List, Optional, Tuple, Union, overload

#: The version of the package.
__version__ = "0.2.0"

__all__ = ["DEPTH", "BadPatch", "BadPointer", "BadQuery", "BadSchema", "Error", "Failed", "Kind", "NotUtf8"]
__all__ += ["PatternLimit", "Refused", "SchemaFault", "StepLimit", "Value", "check", "equal", "indented", "is_normal"]
__all__ += ["merge", "normal", "normal_lines", "part", "patch", "select", "select_lines", "select_lines_paths"]
__all__ += ["select_paths", "valid", "valid_lines"]

Text = Union[str, bytes]

#: The limit on depth that calls have by default.
DEPTH = 1000

_OK, _REFUSED, _NOT_UTF8, _OUT_OF_MEMORY, _TOO_SMALL, _NO_ERROR, _NOT_FOUND = range(7)
_BAD_POINTER, _BAD_PATCH, _FAILED, _BAD_QUERY, _PATTERN_LIMIT = range(7, 12)
_INVALID, _BAD_SCHEMA, _SCHEMA_FAULT, _STEP_LIMIT = range(12, 16)


class Kind(enum.IntEnum):
    """Why a text is refused."""

    UNEXPECTED_EOF = 1
    INVALID_CHARACTER = 2
    EXPECTED_EOF = 3
    KEY_NOT_STRING = 4
    EXPECTED_COLON = 5
    EXPECTED_COMMA_OR_BRACE = 6
    EXPECTED_COMMA_OR_BRACKET = 7
    INVALID_UTF16 = 8
    INVALID_HEX_DIGIT = 9
    INVALID_ESCAPE = 10
    CONTROL_CHARACTER = 11
    UNEXPECTED_IN_LITERAL = 12
    EMPTY_INTEGER = 13
    LEADING_ZERO = 14
    EMPTY_FRACTION = 15
    EMPTY_EXPONENT = 16
    NUMBER_OUT_OF_RANGE = 17
    TOO_DEEP = 19


class Value(enum.IntEnum):
    """A kind of value."""

    NULL = 1
    BOOLEAN = 2
    NUMBER = 3
    STRING = 4
    ARRAY = 5
    OBJECT = 6


class Error(ValueError):
    """A text has no value. `text` is its number, from 0 on: 1 is the second one of `equal`, the patch of `merge` and
    `patch` or the pointer of `part`; of `normal_lines` it is that of a line."""

    def __init__(self, message: str, text: int) -> None:
        super().__init__(message)
        self.text = text


class Refused(Error):
    """The text is no JSON: the kind, what was found, the line from 1 on, and the characters consumed in it."""

    def __init__(self, place: "_Place") -> None:
        super().__init__(_message(place), place.text)
        self.kind = Kind(place.kind)
        self.found: Union[str, Value, None] = _found(self.kind, place.found)
        self.line: int = place.line
        self.column: int = place.column


class NotUtf8(Error):
    """The bytes are not UTF-8 after `valid_up_to` of them."""

    def __init__(self, valid_up_to: int, text: int) -> None:
        super().__init__(f"Not UTF-8 after {valid_up_to} bytes", text)
        self.valid_up_to = valid_up_to


class BadPointer(ValueError):
    """The pointer of `part` is no JSON pointer."""


class BadPatch(ValueError):
    """The item of this number, from 0 on, is the first that is no operation. It is 0 where the patch is no array."""

    def __init__(self, operation: int) -> None:
        super().__init__(f"not a JSON patch: no operation {operation}")
        self.operation = operation


class Failed(ValueError):
    """The operation of this number, from 0 on, can't be applied."""

    def __init__(self, operation: int) -> None:
        super().__init__(f"operation {operation} can't be applied")
        self.operation = operation


class BadQuery(ValueError):
    """The query of `select` is none; this many of its characters precede the fault."""

    def __init__(self, place: int) -> None:
        super().__init__(f"not a JSONPath query at character {place}")
        self.place = place


class PatternLimit(ValueError):
    """A regular expression of the query or the text, which is this line of `select_lines`, is too deep or too large."""

    def __init__(self, text: int) -> None:
        super().__init__("a regular expression is too deep or too large")
        self.text = text


class BadSchema(ValueError):
    """The schema has no value, with this `Refused` or `NotUtf8`."""

    def __init__(self, error: Error) -> None:
        super().__init__(f"the schema: {error}")
        self.error = error


class SchemaFault(ValueError):
    """The schema can't be applied at the place that this JSON pointer names."""

    def __init__(self, pointer: str) -> None:
        super().__init__(f"the schema can't be applied at {pointer!r}")
        self.pointer = pointer


class StepLimit(ValueError):
    """The check of the text, or of this line of `valid_lines`, needs more than 200 nested schemas, or too many steps."""

    def __init__(self, text: int) -> None:
        super().__init__("the check needs too many nested schemas, or too many steps")
        self.text = text


class _Place(ctypes.Structure):
    _fields_ = [
        ("kind", ctypes.c_uint32),
        ("found", ctypes.c_uint32),
        ("line", ctypes.c_size_t),
        ("column", ctypes.c_size_t),
        ("length", ctypes.c_size_t),
        ("text", ctypes.c_size_t),
    ]


def _library() -> ctypes.CDLL:
    """The shared library: the one that TINYJSON_LIBRARY names, the package's own, or what tools/bindings built."""
    here = pathlib.Path(__file__).resolve().parent
    places = [here / "libtinyjson.so", here.parents[1] / "out" / "libtinyjson.so"]
    named = os.environ.get("TINYJSON_LIBRARY")
    found = named or next((str(it) for it in places if it.is_file()), "libtinyjson.so.0")
    try:
        return ctypes.CDLL(found)
    except OSError as error:
        raise ImportError(f"tinyjson has no library for this machine ({platform.machine()}): {error}") from error


_lib = _library()
_size, _bytes, _place = ctypes.c_size_t, ctypes.c_void_p, ctypes.POINTER(_Place)

# A new `bytes` object of a size, whose bytes are not set yet, and the bytes that a `str` in ASCII has anyway: so a text is
# copied once, when the answer is made.
_new_bytes, _utf8 = ctypes.pythonapi.PyBytes_FromStringAndSize, ctypes.pythonapi.PyUnicode_AsUTF8AndSize
_new_bytes.argtypes, _new_bytes.restype = (ctypes.c_void_p, ctypes.c_ssize_t), ctypes.py_object
_utf8.argtypes, _utf8.restype = (ctypes.py_object, ctypes.c_void_p), ctypes.c_void_p


def _call(name: str, *types: type) -> Callable[..., int]:
    call = getattr(_lib, name)
    call.argtypes, call.restype = types, ctypes.c_uint32
    return call


_check = _call("tinyjson_check", _bytes, _size, _size, _place)
_normal = _call("tinyjson_normal", _bytes, _size, _size, _bytes, _size, _place)
_normal_lines = _call("tinyjson_normal_lines", _bytes, _size, _size, _bytes, _size, _place)
_indented = _call("tinyjson_indented", _bytes, _size, _size, _bytes, _size, _place)
_is_normal = _call("tinyjson_is_normal", _bytes, _size, ctypes.POINTER(ctypes.c_bool))
_equal = _call("tinyjson_equal", _bytes, _size, _bytes, _size, _size, ctypes.POINTER(ctypes.c_bool), _place)
_two = (_bytes, _size, _bytes, _size, _size, _bytes, _size, _place)
_part, _merge, _patch = (_call(f"tinyjson_{it}", *_two) for it in ("part", "merge", "patch"))
_select, _select_paths = (_call(f"tinyjson_{it}", *_two) for it in ("select", "select_paths"))
_select_lines, _select_lines_paths = (_call(f"tinyjson_{it}", *_two) for it in ("select_lines", "select_lines_paths"))
_valid, _valid_lines = (_call(f"tinyjson_{it}", *_two) for it in ("valid", "valid_lines"))
_words = _call("tinyjson_message", _place, _bytes, _size, ctypes.POINTER(_size))


def _message(place: _Place) -> str:
    """The message of an error at a place. The longest has some 170 bytes."""
    buffer, length = ctypes.create_string_buffer(256), _size()
    status = _words(place, buffer, len(buffer), length)
    return buffer.raw[: length.value].decode() if status == _OK else "Parse error"


def _found(kind: Kind, number: int) -> Union[str, Value, None]:
    """The character or the kind of value that an error names."""
    if kind == Kind.KEY_NOT_STRING:
        return Value(number)
    names_none = (Kind.UNEXPECTED_EOF, Kind.INVALID_UTF16, *range(Kind.EMPTY_INTEGER, Kind.TOO_DEEP))
    return None if kind in names_none else chr(number)


def _encoded(text: Text) -> bytes:
    """The bytes of a text. A `str` with surrogates is refused as their bytes are."""
    if isinstance(text, str):
        return text.encode("utf-8", "surrogatepass")
    if isinstance(text, bytes):
        return text
    raise TypeError(f"a text is a str or bytes, not {type(text).__name__}")


def _given(text: Text) -> Tuple[Any, int]:
    """A pointer to the bytes of a text, or their `bytes`; and their number. The caller keeps the text."""
    if isinstance(text, str) and text.isascii():
        return _utf8(text, None), len(text)
    data = _encoded(text)
    return data, len(data)


def _limit(depth: int) -> int:
    if depth < 0:
        raise ValueError("depth is negative")
    return min(depth, 2**63)


def _raise(status: int, place: _Place) -> None:
    if status == _REFUSED:
        raise Refused(place)
    if status == _NOT_UTF8:
        raise NotUtf8(place.length, place.text)
    if status == _BAD_POINTER:
        raise BadPointer("not a JSON pointer")
    if status == _BAD_PATCH:
        raise BadPatch(place.length)
    if status == _FAILED:
        raise Failed(place.length)
    if status == _BAD_QUERY:
        raise BadQuery(place.length)
    if status == _BAD_SCHEMA:
        raise BadSchema(Refused(place) if place.kind else NotUtf8(place.length, place.text))
    if status == _STEP_LIMIT:
        raise StepLimit(place.text)
    if status == _PATTERN_LIMIT:
        raise PatternLimit(place.text)
    if status != _OK:
        raise MemoryError("tinyjson")


def _filled(call: Callable[..., int], depth: int, *texts: Text) -> Tuple[int, memoryview]:
    """The status of a call, and what it writes, into a buffer that grows to what the call asks for."""
    given, place = [_given(it) for it in texts], _Place()
    room = given[0][1]
    while True:
        buffer = _new_bytes(None, room)
        status = call(*(it for pair in given for it in pair), _limit(depth), buffer, room, place)
        if status in (_OK, _INVALID, _SCHEMA_FAULT, _NOT_FOUND):
            return status, memoryview(buffer)[: place.length]
        if status != _TOO_SMALL:
            _raise(status, place)
        room = place.length


def _written(call: Callable[..., int], depth: int, *texts: Text) -> Optional[memoryview]:
    """What a call writes, or None if there is no such part."""
    status, written = _filled(call, depth, *texts)
    return None if status == _NOT_FOUND else written


def _like(text: Text, written: Union[bytes, memoryview, None]) -> Any:
    """What was written, in the type of the text."""
    if written is None:
        return None
    return str(written, "utf-8") if isinstance(text, str) else bytes(written)


def _lines(text: Text, written: Optional[memoryview]) -> List[Any]:
    """The lines that were written, in the type of the text."""
    return [_like(text, line) for line in bytes(written or b"").split(b"\n")[:-1]]


def check(text: Text, depth: int = DEPTH) -> None:
    """Raises `Refused` or `NotUtf8` unless the text has a value."""
    place = _Place()
    _raise(_check(*_given(text), _limit(depth), place), place)


@overload
def normal(text: str, depth: int = ...) -> str: ...
@overload
def normal(text: bytes, depth: int = ...) -> bytes: ...
def normal(text: Text, depth: int = DEPTH) -> Text:
    """The one compact text of the text's value: its keys are sorted, and each number has one spelling."""
    return _like(text, _written(_normal, depth, text))


@overload
def normal_lines(text: str, depth: int = ...) -> str: ...
@overload
def normal_lines(text: bytes, depth: int = ...) -> bytes: ...
def normal_lines(text: Text, depth: int = DEPTH) -> Text:
    """The normal text of each line, with a line feed behind it. The last line may lack its line feed."""
    return _like(text, _written(_normal_lines, depth, text))


@overload
def indented(text: str, depth: int = ...) -> str: ...
@overload
def indented(text: bytes, depth: int = ...) -> bytes: ...
def indented(text: Text, depth: int = DEPTH) -> Text:
    """The text of the text's value, indented with two spaces."""
    return _like(text, _written(_indented, depth, text))


@overload
def part(text: str, pointer: str, depth: int = ...) -> Optional[str]: ...
@overload
def part(text: bytes, pointer: str, depth: int = ...) -> Optional[bytes]: ...
def part(text: Text, pointer: str, depth: int = DEPTH) -> Optional[Text]:
    """The normal text of the part that a JSON pointer (RFC 6901) names, or None.

    >>> part('{"a": [1.50, true]}', "/a/0")
    '1.5'
    """
    return _like(text, _written(_part, depth, text, pointer))


@overload
def merge(target: str, patch: Text, depth: int = ...) -> str: ...
@overload
def merge(target: bytes, patch: Text, depth: int = ...) -> bytes: ...
def merge(target: Text, patch: Text, depth: int = DEPTH) -> Text:
    """The normal text of a target with a merge patch (RFC 7396) applied.

    The patch may be no deeper than 1,000 containers.

    >>> merge('{"a": 1, "b": {}}', '{"a": null, "b": {"c": 2.0}}')
    '{"b":{"c":2}}'
    """
    return _like(target, _written(_merge, depth, target, patch))


@overload
def patch(text: str, operations: Text, depth: int = ...) -> str: ...
@overload
def patch(text: bytes, operations: Text, depth: int = ...) -> bytes: ...
def patch(text: Text, operations: Text, depth: int = DEPTH) -> Text:
    """The normal text of a text with a patch (RFC 6902) applied, all of its operations or none.

    The patch may be no deeper than 1,000 containers, and a pointer in it have no more tokens.

    >>> patch('{"a": 1, "b": 2.0}', '[{"op": "remove", "path": "/a"}]')
    '{"b":2}'
    """
    return _like(text, _written(_patch, depth, text, operations))


@overload
def select(text: str, query: str, depth: int = ...) -> List[str]: ...
@overload
def select(text: bytes, query: str, depth: int = ...) -> List[bytes]: ...
def select(text: Text, query: str, depth: int = DEPTH) -> Any:
    """The normal text of each value that a JSONPath query (RFC 9535) selects.

    >>> select('{"a": [{"b": 1.0}, {"b": 2}]}', "$.a[?@.b > 1]")
    ['{"b":2}']
    """
    return _lines(text, _written(_select, depth, text, query))


@overload
def select_paths(text: str, query: str, depth: int = ...) -> List[str]: ...
@overload
def select_paths(text: bytes, query: str, depth: int = ...) -> List[bytes]: ...
def select_paths(text: Text, query: str, depth: int = DEPTH) -> Any:
    """The normalized path of each value that a JSONPath query (RFC 9535) selects.

    >>> select_paths('{"a": [1, 2]}', "$.a[-1:]")
    ["$['a'][1]"]
    """
    return _lines(text, _written(_select_paths, depth, text, query))


def _selected_lines(call: Callable[..., int], text: Text, query: str, depth: int) -> Any:
    """An empty line ends what is selected of a line."""
    found: List[List[Text]] = [[]]
    for line in _lines(text, _written(call, depth, text, query)):
        if line:
            found[-1].append(line)
        else:
            found.append([])
    return found[:-1]


@overload
def select_lines(text: str, query: str, depth: int = ...) -> List[List[str]]: ...
@overload
def select_lines(text: bytes, query: str, depth: int = ...) -> List[List[bytes]]: ...
def select_lines(text: Text, query: str, depth: int = DEPTH) -> Any:
    """What `select` returns of each line. The last line may lack its line feed.

    >>> select_lines("[1.0,2]\\n{}", "$[*]")
    [['1', '2'], []]
    """
    return _selected_lines(_select_lines, text, query, depth)


@overload
def select_lines_paths(text: str, query: str, depth: int = ...) -> List[List[str]]: ...
@overload
def select_lines_paths(text: bytes, query: str, depth: int = ...) -> List[List[bytes]]: ...
def select_lines_paths(text: Text, query: str, depth: int = DEPTH) -> Any:
    """What `select_paths` returns of each line. The last line may lack its line feed."""
    return _selected_lines(_select_lines_paths, text, query, depth)


def _judged(call: Callable[..., int], depth: int, text: Text, schema: Text) -> Optional[memoryview]:
    """The reports of what is not valid, or None."""
    status, written = _filled(call, depth, text, schema)
    if status == _SCHEMA_FAULT:
        raise SchemaFault(str(written, "utf-8"))
    return None if status == _OK else written


@overload
def valid(text: str, schema: Text, depth: int = ...) -> Optional[str]: ...
@overload
def valid(text: bytes, schema: Text, depth: int = ...) -> Optional[bytes]: ...
def valid(text: Text, schema: Text, depth: int = DEPTH) -> Optional[Text]:
    """The report of a text that is not valid by a schema, or None.

    It has the words, the line and the column of the part, and JSON pointers to the part and to the keyword. The schema
    is of JSON Schema 2020-12, or of the draft that its $schema names. Both texts may be no deeper than 100 containers.

    >>> valid('[1, 2.0]', '{"items": {"type": "integer"}}')
    >>> valid('[1.5]', '{"items": {"type": "integer"}}')
    '{"column":2,"error":"must be an integer, is a number","instanceLocation":"/0","keywordLocation":"/items/type","line":1,"valid":false}'
    """
    return _like(text, _judged(_valid, depth, text, schema))


@overload
def valid_lines(text: str, schema: Text, depth: int = ...) -> List[str]: ...
@overload
def valid_lines(text: bytes, schema: Text, depth: int = ...) -> List[bytes]: ...
def valid_lines(text: Text, schema: Text, depth: int = DEPTH) -> Any:
    """The report of each line that is not valid by a schema. Its line is that of all the text.

    The last line may lack its line feed.

    >>> [part(it, "/line") for it in valid_lines("1\\n1.5\\n2", '{"type": "integer"}')]
    ['2']
    """
    return _lines(text, _judged(_valid_lines, depth, text, schema))


def is_normal(text: Text) -> bool:
    """Whether the text is its own normal text. One that has no value is not."""
    answer = ctypes.c_bool()
    status = _is_normal(*_given(text), answer)
    if status == _NOT_UTF8:
        check(text)
    if status != _OK:
        raise MemoryError("tinyjson")
    return answer.value


def equal(first: Text, second: Text, depth: int = DEPTH) -> bool:
    """Whether two texts have equal values."""
    place, answer = _Place(), ctypes.c_bool()
    _raise(_equal(*_given(first), *_given(second), _limit(depth), answer, place), place)
    return answer.value
