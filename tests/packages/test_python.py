"""The Python package by Python's own runner: `python -m unittest test_python` where it is installed.

STREAMS is a list of files as JSON, and PROGRAM the built program, whose texts those of the package must be.
"""
import json
import os
import subprocess
import sys
import unittest
from pathlib import Path

import serialcheck

PROGRAM = os.environ["PROGRAM"]
STREAMS = [Path(it) for it in json.loads(os.environ["STREAMS"])]
ARRAY_LIST = next(it for it in STREAMS if it.name == "array-list.ser").read_bytes()
# A stream whose text is longer than the first room for it.
LONG = bytes.fromhex("aced0005") + b"\x70" * 30_000
LONG_TEXT = "stream version 5\n" + "null\n" * 30_000


def printed(*words):
    """What the program prints, but that a filter has no pattern."""
    done = subprocess.run([PROGRAM, *map(str, words)], stdout=subprocess.PIPE, stderr=subprocess.STDOUT, universal_newlines=True, check=False)
    return done.stdout.replace("filter has no pattern\n", "")


def on_macos(library):
    """What Python says of an import that takes itself to be on macOS, with this library."""
    asked = {**os.environ, "SERIALCHECK_LIBRARY": library}
    lines = "import ctypes, sys; sys.platform = 'darwin'; import serialcheck; print(serialcheck.check(b'\\xac\\xed\\0\\5'))"
    done = subprocess.run([sys.executable, "-c", lines], stdout=subprocess.PIPE, stderr=subprocess.STDOUT, universal_newlines=True, check=False, env=asked)
    return done.stdout.splitlines()[-1]


def told(shown):
    """A text, or the line of the refusal."""
    return str(shown) if shown else f"{shown.answer}\n"


class OnMacos(unittest.TestCase):
    """WRONG has libraries, each with the right answer that it does not give; null is of one that gives all."""

    def test_a_library_with_a_wrong_answer_is_refused(self):
        for library, right in json.loads(os.environ["WRONG"]).items():
            with self.subTest(right):
                said = on_macos(library)
                if right is None:
                    self.assertEqual("yes 4 bytes, 0 contents, 0 refs, depth 0", said)
                else:
                    self.assertRegex(said, "^ImportError: serialcheck: the library for this machine answers `.*` where `" + right + "` is right, so it is not used")


class Texts(unittest.TestCase):
    def test_show_is_that_of_the_program(self):
        for file in STREAMS:
            with self.subTest(file.name):
                self.assertEqual(printed("show", file), told(serialcheck.show(file.read_bytes(), limit=1 << 26)))

    def test_list_is_that_of_the_program(self):
        for text in ("", "java.util.*;!*", "!java.util.**;maxdepth=1"):
            for file in STREAMS:
                with self.subTest(file.name, filter=text):
                    self.assertEqual(printed("list", f"--filter={text}", file), told(serialcheck.list(file.read_bytes(), text)))

    def test_list_takes_a_table_of_modules(self):
        self.assertEqual('1 allowed:0 "java.util.ArrayList"\n', str(serialcheck.list(ARRAY_LIST, "java.base/java.util.*", modules="java.util=java.base")))
        self.assertEqual('1 undecided "java.util.ArrayList"\n', str(serialcheck.list(ARRAY_LIST, "other/java.util.*", modules="java.util=java.base")))

    def test_a_text_has_the_whole_lines_that_its_limit_has_room_for(self):
        for whole, data, limits in ((str(serialcheck.show(ARRAY_LIST)), ARRAY_LIST, range(400)), (LONG_TEXT, LONG, (65_535, 65_536, 65_537, 100_003, len(LONG_TEXT) - 1, len(LONG_TEXT)))):
            for limit in limits:
                shown = serialcheck.show(data, limit)
                end = len(whole) if limit >= len(whole) else whole.rfind("\n", 0, limit) + 1
                self.assertEqual((whole[:end], limit < len(whole), None, True), (shown.text, shown.is_cut, shown.answer, bool(shown)))

    def test_what_is_no_stream_has_no_text(self):
        for shown in (serialcheck.show(ARRAY_LIST[:-1]), serialcheck.list(ARRAY_LIST[:-1])):
            self.assertEqual((False, "", False, "Truncated"), (bool(shown), shown.text, shown.is_cut, shown.answer.reason))

    def test_faults(self):
        for fault, call in (
            (ValueError, lambda: serialcheck.list(ARRAY_LIST, "maxdepth=x")),
            (ValueError, lambda: serialcheck.list(ARRAY_LIST, "a", modules="a")),
            (ValueError, lambda: serialcheck.show(ARRAY_LIST, -1)),
            (TypeError, lambda: serialcheck.show(4)),
            (TypeError, lambda: serialcheck.list("text")),
        ):
            self.assertRaises(fault, call)


class Pieces(unittest.TestCase):
    def test_a_stream_in_pieces_names_the_class_that_the_whole_names(self):
        for text, anywhere in (("!java.**", False), ("java.util.*;!*", True), ("x", True)):
            with serialcheck.Filter(text, anywhere=anywhere, strict=text == "x") as check:
                for file in STREAMS:
                    data, fed = file.read_bytes(), None
                    with self.subTest(file.name, filter=text), check.stream() as stream:
                        for at in range(0, len(data), 7):
                            fed = fed or stream.feed(data[at : at + 7])
                        end, whole = stream.end(), check.check(data)
                        self.assertEqual((str(whole), whole.class_name), (str(end), end.class_name))
                        self.assertTrue(fed is None or (str(fed), fed.class_name) == (str(whole), whole.class_name))


class Names(unittest.TestCase):
    def test_the_version_is_that_of_the_program(self):
        self.assertEqual(printed("--version"), f"serialcheck {serialcheck.__version__}\n")

    def test_the_bytes_of_a_refusal_have_two_names(self):
        answer = serialcheck.check(ARRAY_LIST, "!java.**")
        self.assertEqual("no at 6 to 27: ClassRejected", str(answer))
        self.assertEqual((6, 27, 6, 27), (answer.from_byte, answer.to_byte, answer.start, answer.end))

    def test_a_repr_says_what_a_thing_is(self):
        check = serialcheck.Filter("java.util.*;!*", strict=True, anywhere=True)
        stream = check.stream()
        stream.feed(ARRAY_LIST[:9])
        rows = [
            ("<serialcheck.Answer yes 62 bytes, 1 contents, 3 refs, depth 2>", serialcheck.check(ARRAY_LIST)),
            ('<serialcheck.Answer no at 6 to 27: ClassRejected "java.util.ArrayList">', serialcheck.check(ARRAY_LIST, "!java.**")),
            ("<serialcheck.Answer no at 0 to 1: BadHeader>", serialcheck.check(b"abc")),
            ("<serialcheck.Filter 'java.util.*;!*', strict, anywhere>", check),
            ("<serialcheck.Filter ''>", serialcheck.Filter()),
            ("<serialcheck.Stream 9 bytes>", stream),
            ("<serialcheck.Text 9 lines>", serialcheck.show(ARRAY_LIST)),
            ("<serialcheck.Text 2 lines, cut>", serialcheck.show(ARRAY_LIST, 60)),
            ("<serialcheck.Text no at 0 to 1: BadHeader>", serialcheck.show(b"abc")),
        ]
        self.assertEqual([text for text, _ in rows], [repr(it) for _, it in rows])
        stream.close()
        check.close()
        self.assertEqual(("<serialcheck.Stream 9 bytes, ended>", "<serialcheck.Filter 'java.util.*;!*', strict, anywhere, closed>"), (repr(stream), repr(check)))
