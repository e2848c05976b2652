#!/usr/bin/env python3
"""Sheets with known answers: the table in expected.txt, the limits and the lines of `calls`."""

import json
import pathlib
import unittest

import check
import generate

HERE = pathlib.Path(__file__).resolve().parent


def answer(sheet, length=9):
    return check.answer_check(sheet.encode("latin-1"), length)


def first_line(sheet):
    return answer(sheet)[0]


class Expected(unittest.TestCase):
    def test_table(self):
        for line in (HERE / "expected.txt").read_text("ascii").splitlines():
            if line and not line.startswith("#"):
                sheet, expected = line.rsplit(" => ", 1)
                with self.subTest(sheet):
                    self.assertEqual(answer(json.loads(sheet)), expected.split(" / "))


class Limits(unittest.TestCase):
    def test_bytes(self):
        self.assertEqual(first_line("1;" + " " * 16382), "checked 0 1")
        self.assertEqual(first_line("1;" + " " * 16383), "read-refused 2 16384")
        self.assertEqual(first_line("&" * 16385), "read-refused 2 16384")
        self.assertEqual(first_line("(" * 1_000_000), "read-refused 2 16384")

    def test_tokens(self):
        self.assertEqual(first_line("1;" * 2048), "checked 0 2048")
        self.assertEqual(first_line("1;" * 2048 + " 1"), "read-refused 6 4097")
        self.assertEqual(first_line(")" * 4097), "read-refused 6 4096")
        self.assertEqual(first_line(")" * 4096), "read-refused 7 0")
        self.assertEqual(first_line(")" * 5000 + "&"), "read-refused 3 5000")
        self.assertEqual(first_line(")" * 5000 + "return\n1"), "read-refused 5 5007")

    def test_units(self):
        self.assertEqual(first_line('"' + "a" * 255 + '";'), "checked 0 1")
        self.assertEqual(first_line('"' + "a" * 256 + '";'), "read-refused 4 0")
        self.assertEqual(first_line('"' + "a" * 256), "read-refused 3 0")
        self.assertEqual(first_line('"' + "\\u0041" * 255 + '";'), "checked 0 1")

    def test_load(self):
        heavy = '"' + "a" * 255 + '";'
        self.assertEqual(first_line(heavy * 32), "checked 0 32")
        self.assertEqual(first_line(heavy * 32 + "1;"), "check-refused 12 0")

    def test_hostile(self):
        self.assertEqual(first_line("(" * 16384), "read-refused 6 4096")
        self.assertEqual(first_line("!" * 16384), "read-refused 6 4096")
        self.assertEqual(first_line("(" * 4096), "read-refused 7 4096")
        self.assertEqual(first_line("!" * 4096), "read-refused 7 4096")
        self.assertEqual(first_line("!" * 4094 + "1;"), "checked 1 4095")
        self.assertEqual(first_line("(" * 2047 + "1" + ")" * 2047 + ";"), "checked 0 1")
        self.assertEqual(first_line("1?" * 1023 + "1" + ":1" * 1023 + ";"), "checked 1023 3070")
        self.assertEqual(first_line("1" + "?1:1" * 1023 + ";"), "checked 1023 3070")
        self.assertEqual(first_line("1" + "+1" * 2047 + ";"), "checked 0 4095")
        for quote in "\"'`":
            self.assertEqual(first_line(quote * 16384), "read-refused 6 8192")
            self.assertEqual(first_line(quote * 16383), "read-refused 3 16382")
        self.assertEqual(first_line("1" * 16000 + ";"), "read-refused 4 0")
        self.assertEqual(first_line("0" * 16000 + "1;"), "checked 0 1")
        self.assertEqual(first_line("1e" + "9" * 16000 + ";"), "read-refused 4 0")
        self.assertEqual(first_line("0e" + "9" * 16000 + ";"), "checked 0 1")
        self.assertEqual(answer("1" + "0" * 16000 + "e-16000;")[1], "type 0 literal 1 0")


class Lines(unittest.TestCase):
    def test_findings_that_fit(self):
        findings = ["finding 1 1", "finding 2 3"]
        for length in (0, 1, 2, 7):
            lines = check.answer(b"check 21313b7061723b %d" % length, 1)  # !1;par;
            self.assertEqual(lines[0], "checked 2 3")
            self.assertEqual([line for line in lines if line.startswith("finding")], findings[:length])

    def test_bad_lines(self):
        for line in generate.BAD_LINES:
            with self.subTest(line):
                self.assertEqual(check.answer(line.encode("ascii"), 5), ["bad line 5"])

    def test_good_lines(self):
        self.assertEqual(check.answer(b"check - 0", 1), ["checked 0 0"])
        self.assertEqual(check.answer(b"check 6E3b 00000", 1), ["checked 1 1", "type 0 any"])


class Names(unittest.TestCase):
    def test_lists_of_the_generator(self):
        """The generator and the checker were given their names and words apart; a slip in one would show here."""
        self.assertEqual(set(generate.BOUND_NAMES), set(check.LIBRARY))
        self.assertEqual(len(check.LIBRARY), 79)
        self.assertEqual(set(generate.WORDS), check.RESTRICTED)
        self.assertEqual(set(generate.MARKS), {mark for marks in check.MARKS_BY_LENGTH for mark in marks})


if __name__ == "__main__":
    check.with_deep_stack(unittest.main)
