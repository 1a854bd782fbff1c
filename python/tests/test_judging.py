"""Logs that are judged: by the library as by the program, whose examples are judged here once more."""

from __future__ import annotations

import ctypes
import dataclasses
import re
import unittest
from unittest import mock

from support import TOP, needs_library

import deolmutt
from deolmutt import errors, judging
from deolmutt._library import library
from deolmutt._numbers import OK
from deolmutt.judging import Finding, Lines, Log

EXAMPLES = TOP / "crates/judge_examples/data"
PROGRAMS = TOP / "crates/md_log/src/clause.rt"

GONE = "a message leaves its folder without the flag T"
LOG = ["maildir_log 1", "folder i", "file i/cur/u:2,S 1", "10 p unlink i/cur/u:2,S ok"]


def said(log: bytes) -> bytes:
    """What `deolmutt judge --lines` says of a log."""
    try:
        return b"".join(b"%d %s\n" % (found.line, found.clause.encode()) for found in deolmutt.judge(log))
    except deolmutt.BadLog as error:
        return f"{error}\n".encode()


@needs_library
class JudgeTest(unittest.TestCase):
    def test_each_example_has_its_findings(self) -> None:
        logs = sorted(EXAMPLES.glob("*.log"))
        if not logs:
            self.skipTest("the examples are not there")
        for log in logs:
            with self.subTest(log.name):
                self.assertEqual(log.with_suffix(".found").read_bytes(), said(log.read_bytes()))

    def test_a_log_comes_whole_or_in_lines(self) -> None:
        text = "\n".join(LOG)
        logs: list[Lines] = [
            LOG,
            tuple(LOG),
            iter(LOG),
            [line.encode() for line in LOG],
            [line + "\n" for line in LOG],
            [LOG[0], *(bytearray(line.encode()) for line in LOG[1:])],
            text,
            text + "\n",
            text.encode(),
            bytearray(text.encode()),
            memoryview(text.replace("\n", "\r\n").encode()),
        ]
        for log in logs:
            self.assertEqual([Finding(4, "Gone", GONE)], deolmutt.judge(log))

    def test_a_lawful_log_has_no_findings(self) -> None:
        self.assertEqual([], deolmutt.judge(LOG[:3]))
        self.assertEqual([], deolmutt.judge([*LOG[:2], "allow Gone", *LOG[2:]]))

    def test_findings_of_one_line_are_in_the_order_of_the_law(self) -> None:
        lines = ["maildir_log 1", "folder i", "file i/new/v 1", "file i/cur/u:2, 1", "9 p rename i/new/v i/cur/u:2, ok"]
        clauses = [found.clause for found in deolmutt.judge(lines)]
        names = [library().deolmutt_clause_name(number).decode() for number in range(1, 14)]
        self.assertGreater(len(clauses), 1)
        self.assertEqual(sorted(clauses, key=names.index), clauses)

    def test_more_findings_than_a_first_buffer_holds(self) -> None:
        lines = ["maildir_log 1", "folder i"]
        for number in range(6000):
            lines += [f"1 p create i/new/u{number} ok"]
        found = deolmutt.judge(lines)
        self.assertEqual(list(range(3, 6003)), [each.line for each in found])
        self.assertEqual({"SeenBeforeWhole"}, {each.clause for each in found})

    def test_a_wrong_log_names_its_line(self) -> None:
        wrongs: list[tuple[Lines, int, str]] = [
            ([], 1, "no log"),
            ("", 1, "no log"),
            (["maildir_log 2"], 1, "no log"),
            ([*LOG, "11 p unlink j/cur/u ok"], 5, "unknown folder"),
            ([*LOG, "# a comment", "file i/new/v 1"], 6, "too late"),
            ([*LOG[:3], "10@1..2 p unlink i/cur/v ok"], 4, "no order"),
        ]
        for wrong, line, text in wrongs:
            with self.assertRaises(deolmutt.BadLog) as met:
                deolmutt.judge(wrong)
            error = met.exception
            self.assertEqual((line, text, f"line {line}: {text}"), (error.line, error.text, str(error)))
            self.assertIsInstance(error, ValueError)

    def test_many_calls_at_once(self) -> None:
        """72 calls are in flight at any time, and the lines are in order."""
        lines = ["maildir_log 1", "folder i"]
        for number in range(20_000):
            lines.append(f"1@{2 * number}..{2 * number + 144} p{number} create i/tmp/u{number} ok")
        self.assertEqual([], deolmutt.judge(lines))

    def test_what_is_no_log_at_all(self) -> None:
        for wrong in (7, None, [7], [None], [["maildir_log 1"]]):
            with self.subTest(wrong):
                self.assertRaises(TypeError, deolmutt.judge, wrong)

    def test_names_of_other_bytes(self) -> None:
        lines: list[Log] = ["maildir_log 1", "folder \u00e4\udcff", b"1 p create \xc3\xa4\xff/new/u ok"]
        self.assertEqual([3], [found.line for found in deolmutt.judge(lines)])

    def test_a_finding_is_a_value(self) -> None:
        (found,) = deolmutt.judge(LOG)
        self.assertEqual({found}, {Finding(4, "Gone", GONE)})
        with self.assertRaises(dataclasses.FrozenInstanceError):
            found.line = 5  # type: ignore[misc]

    def test_the_texts_are_the_programs(self) -> None:
        if not PROGRAMS.is_file():
            self.skipTest(f"{PROGRAMS} is not there")
        whys = PROGRAMS.read_text(encoding="utf-8").partition("fn why(")[2]
        told = dict(re.findall(r'Clause::(\w+) =>\s*"([^"]*)"', whys))
        loaded = library()
        texts = [(loaded.deolmutt_clause_name(n).decode(), loaded.deolmutt_clause_text(n).decode()) for n in range(1, 14)]
        # The library judges by the law alone, whose clauses come first.
        self.assertEqual(list(told.items())[: len(texts)], texts)

    def test_a_library_without_the_judge(self) -> None:
        with mock.patch.object(judging, "library", return_value=object()):
            self.assertRaises(errors.NotJudged, deolmutt.judge, LOG)

    def test_no_memory(self) -> None:
        class Full:
            deolmutt_judge = staticmethod(lambda *_: 4)

        with mock.patch.object(judging, "library", return_value=Full()):
            self.assertRaises(errors.NoMemory, deolmutt.judge, LOG)

    def test_each_clause_has_a_name(self) -> None:
        self.assertEqual(b"no such clause", library().deolmutt_clause_name(14))
        line, length = ctypes.c_uint64(9), ctypes.c_size_t(9)
        head = b"maildir_log 1"
        status = library().deolmutt_judge(head, len(head), None, 0, ctypes.byref(length), ctypes.byref(line))
        self.assertEqual((OK, 0, 0), (status, length.value, line.value))


if __name__ == "__main__":
    unittest.main()
