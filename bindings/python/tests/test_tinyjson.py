"""The rows that tests/bindings writes, by the calls of the module."""

import doctest
import os
import pathlib
import sys
import threading
import unittest

sys.path.insert(0, str(pathlib.Path(__file__).resolve().parents[1]))

import tinyjson  # noqa: E402

# A few rows, where the tool does not run the tests.
FEW = "5b315d\t9\t5b315d\t\t0\t0\t0\t0\t0\t\nff\t9\t\t\t0\t0\t0\t0\t0\t\n"


def lines(name, few):
    """The fields of each line of a file of rows."""
    folder = os.environ.get("TINYJSON_ROWS")
    file = pathlib.Path(folder, name).read_text() if folder else few
    return [line.split("\t") for line in file.splitlines()]


def rows():
    """A text, its limit, its normal and its indented text, the numbers of its place, and the message."""
    for text, depth, normal, indented, *numbers, message in lines("rows.txt", FEW):
        words = [bytes.fromhex(it).decode() for it in (normal, indented, message)]
        yield bytes.fromhex(text), int(depth), *words[:2], [*map(int, numbers)], words[2]


class Rows(unittest.TestCase):
    def accepts(self, text, depth, normal, indented):
        for given, wanted in ((text, normal.encode()), (text.decode(), normal)):
            self.assertIsNone(tinyjson.check(given, depth))
            self.assertEqual(tinyjson.normal(given, depth), wanted)
            self.assertEqual(tinyjson.is_normal(given), given == wanted)
            self.assertTrue(tinyjson.is_normal(wanted))
            self.assertTrue(tinyjson.equal(given, wanted, depth))
            self.assertFalse(tinyjson.equal('["no value of a row"]', given, max(depth, 1)))
        if indented:
            self.assertEqual(tinyjson.indented(text, depth), indented.encode())
            self.assertEqual(tinyjson.indented(text.decode(), depth), indented)

    def refuses(self, text, depth, place, message):
        kind, found, line, column, length = place
        calls = [(tinyjson.check, (text, depth)), (tinyjson.normal, (text, depth)), (tinyjson.indented, (text, depth)),
                 (tinyjson.equal, (text, "1", depth)), (tinyjson.equal, ("1", text, depth))]
        for call, arguments in calls:
            with self.assertRaises(tinyjson.Refused if kind else tinyjson.NotUtf8) as raised:
                call(*arguments)
            error = raised.exception
            self.assertEqual(error.text, int(arguments[0] == "1"))
            if kind:
                self.assertEqual((error.kind, error.line, error.column, str(error)), (kind, line, column, message))
                self.assertEqual(error.found if isinstance(error.found, str) else error.found or None,
                                 None if found == 0 else found if kind == 4 else chr(found))
            else:
                self.assertEqual(error.valid_up_to, length)
        if not kind:
            self.assertRaises(tinyjson.NotUtf8, tinyjson.is_normal, text)
        elif kind != tinyjson.Kind.TOO_DEEP:
            self.assertFalse(tinyjson.is_normal(text))

    def judge(self):
        for text, depth, normal, indented, place, message in rows():
            with self.subTest(text=text):
                if normal:
                    self.accepts(text, depth, normal, indented)
                else:
                    self.refuses(text, depth, place, message)

    def test_each_row(self):
        self.judge()

    def test_four_threads(self):
        failures = []

        def run():
            try:
                for text, depth, normal, indented, place, message in rows():
                    self.accepts(text, depth, normal, indented) if normal else self.refuses(text, depth, place, message)
            except BaseException as error:  # pylint: disable=broad-except
                failures.append(error)

        threads = [threading.Thread(target=run) for _ in range(4)]
        for thread in threads:
            thread.start()
        for thread in threads:
            thread.join()
        self.assertEqual(failures, [])


class Lines(unittest.TestCase):
    def test_lines(self):
        accepted = [(text, normal) for text, _, normal, *_ in rows() if normal and b"\n" not in text]
        text = b"\n".join(text for text, _ in accepted)
        written = "".join(normal + "\n" for _, normal in accepted)
        for ending in (b"", b"\n"):
            self.assertEqual(tinyjson.normal_lines(text + ending), written.encode())
            self.assertEqual(tinyjson.normal_lines((text + ending).decode()), written)
        with self.assertRaises(tinyjson.Refused) as raised:
            tinyjson.normal_lines(text + b"\n[1")
        error = raised.exception
        self.assertEqual((error.text, error.line, error.column), (len(accepted), 1, 2))
        self.assertEqual(tinyjson.normal_lines(b""), b"")


# What a call with two texts raises, by its status, and the numbers of the place that are attributes of the exception.
RAISED = {
    "REFUSED": (tinyjson.Refused, {"kind": 0, "line": 2, "column": 3, "text": 5}),
    "NOT_UTF8": (tinyjson.NotUtf8, {"valid_up_to": 4, "text": 5}),
    "BAD_POINTER": (tinyjson.BadPointer, {}),
    "BAD_PATCH": (tinyjson.BadPatch, {"operation": 4}),
    "FAILED": (tinyjson.Failed, {"operation": 4}),
    "BAD_QUERY": (tinyjson.BadQuery, {"place": 4}),
    "PATTERN_LIMIT": (tinyjson.PatternLimit, {"text": 5}),
    "STEP_LIMIT": (tinyjson.StepLimit, {"text": 5}),
    "BAD_SCHEMA": (tinyjson.BadSchema, {}),
    "SCHEMA_FAULT": (tinyjson.SchemaFault, {}),
}


def lists(written, feed):
    """The lines of each text, behind which is an empty line."""
    texts = []
    while written:
        front, feeds, written = written.partition(feed + feed) if not written.startswith(feed) else ("", feed, written[1:])
        texts.append(front.split(feed) if front else [])
    return texts


class Pairs(unittest.TestCase):
    def answers(self, call, one, other, depth, written):
        words = None if written is None else written.decode()
        if call in (tinyjson.select, tinyjson.select_paths, tinyjson.valid_lines):
            written, words = written.split(b"\n")[:-1], words.split("\n")[:-1]
        elif call in (tinyjson.select_lines, tinyjson.select_lines_paths):
            written, words = lists(written, b"\n"), lists(words, "\n")
        self.assertEqual(call(one, other, depth), written)
        self.assertEqual(call(one.decode(), other.decode(), depth), words)

    def test_each_pair(self):
        for name, one, other, depth, status, written, *place in lines("pairs.txt", "part\t5b315d\t2f30\t9\tOK\t31"):
            call, one, other, written = getattr(tinyjson, name), *map(bytes.fromhex, (one, other, written))
            with self.subTest(call=name, one=one, other=other):
                if status in RAISED:
                    error, attributes = RAISED[status]
                    with self.assertRaises(error) as raised:
                        call(one, other, int(depth))
                    for attribute, at in attributes.items():
                        self.assertEqual(getattr(raised.exception, attribute), int(place[at]))
                    if status == "BAD_SCHEMA":
                        kind = getattr(raised.exception.error, "kind", 0)
                        self.assertEqual((kind, raised.exception.error.text), (int(place[0]), 1))
                    if status == "SCHEMA_FAULT":
                        self.assertEqual(raised.exception.pointer, written.decode())
                elif name == "valid" and status == "OK":
                    self.assertIsNone(call(one, other, int(depth)))
                else:
                    self.answers(call, one, other, int(depth), None if status == "NOT_FOUND" else written)


class Arguments(unittest.TestCase):
    def test_the_buffer_grows(self):
        text = "[" + "1e20," * 100 + "1]"
        self.assertGreater(len(tinyjson.normal(text)), len(text))

    def test_a_nul_is_a_character(self):
        with self.assertRaises(tinyjson.Refused) as raised:
            tinyjson.check("1\0")
        self.assertEqual((raised.exception.kind, raised.exception.found), (tinyjson.Kind.EXPECTED_EOF, "\0"))

    def test_surrogates(self):
        self.assertRaises(tinyjson.NotUtf8, tinyjson.check, '"\ud800"')

    def test_other_types(self):
        self.assertRaises(TypeError, tinyjson.check, 1)
        self.assertRaises(TypeError, tinyjson.normal, None)
        self.assertRaises(ValueError, tinyjson.check, "1", -1)

    def test_the_example(self):
        self.assertEqual(doctest.testmod(tinyjson).failed, 0)


if __name__ == "__main__":
    unittest.main()
