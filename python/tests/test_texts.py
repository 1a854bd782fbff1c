"""Names, header summaries and the transcripts of scripts, which need no world."""

from __future__ import annotations

import unittest

from support import TOP, needs_library

import deolmutt
from deolmutt import errors
from deolmutt.headers import Summary
from deolmutt.names import InfoKind, Parts

MOST_U64 = 2**64


@needs_library
class NameTest(unittest.TestCase):
    """By "Using maildir format" (https://cr.yp.to/proto/maildir.html) and maildir(5)."""

    def test_a_unique_name_has_its_parts_in_order(self) -> None:
        names = {
            "1000.M5P7Q1.host": (1000, 5, 7, 1, "host"),
            # A slash and a colon of a host are escaped, and other bytes are not.
            r"1.M2P3Q4.a\057b\072c": (1, 2, 3, 4, "a/b:c"),
            "1.M2P3Q4.\u00e4\udcff": (1, 2, 3, 4, "\u00e4\udcff"),
        }
        self.assertEqual(list(names), [deolmutt.unique_name(*parts) for parts in names.values()])

    def test_hosts_and_microseconds_that_no_name_has(self) -> None:
        for host in ("", "a\0", "a\nb", "a\rb", "x" * 101, "/" * 26):
            with self.subTest(host), self.assertRaises(errors.BadHost):
                deolmutt.unique_name(1, 2, 3, 4, host)
        for micro in (-1, 1_000_000, MOST_U64 - 1, MOST_U64):
            self.assertRaises(errors.BadMicrosecond, deolmutt.unique_name, 1, micro, 3, 4, "a")
        for number in (-1, MOST_U64):
            self.assertRaises(ValueError, deolmutt.unique_name, number, 2, 3, 4, "a")

    def test_the_parts_of_names(self) -> None:
        parts = {
            "u.host": Parts("u.host", InfoKind.NONE),
            "u:2,": Parts("u", InfoKind.FLAGS),
            "u:2,FS": Parts("u", InfoKind.FLAGS, "FS"),
            "u:2,zSAS": Parts("u", InfoKind.FLAGS, "ASz"),
            "u:1,x": Parts("u", InfoKind.OTHER),
            "u:2,S:2,": Parts("u", InfoKind.OTHER),
            "\u00e4\udcff:2,S": Parts("\u00e4\udcff", InfoKind.FLAGS, "S"),
        }
        self.assertEqual(list(parts.values()), [deolmutt.split_name(name) for name in parts])

    def test_names_that_are_no_messages(self) -> None:
        for name in ("", ".u", ":2,S"):
            with self.subTest(name), self.assertRaises(errors.NoMessageName):
                deolmutt.split_name(name)


@needs_library
class SummaryTest(unittest.TestCase):
    """By RFC 5322, with its own examples."""

    def test_the_first_message_of_its_appendix(self) -> None:
        message = (
            b"From: John Doe <jdoe@machine.example>\r\nTo: Mary Smith <mary@example.net>\r\n"
            b"Subject: Saying Hello\r\nDate: Fri, 21 Nov 1997 09:55:06 -0600\r\n"
            b"Message-ID: <1234@local.machine.example>\r\n\r\nThis is a message just to say hello.\r\n"
        )
        said = Summary(
            subject="Saying Hello",
            sender="John Doe <jdoe@machine.example>",
            message_id="<1234@local.machine.example>",
            date="Fri, 21 Nov 1997 09:55:06 -0600",
            # By `date -u -d '1997-11-21 15:55:06' +%s`.
            seconds=880_127_706,
        )
        self.assertEqual(said, deolmutt.summary(message))

    def test_a_date_before_1970_and_one_that_says_nothing(self) -> None:
        before = deolmutt.summary(b"Date: 31 Dec 1969 23:59:59 +0000\n\n")
        self.assertEqual(-1, before.seconds)
        self.assertEqual(Summary(date="today"), deolmutt.summary(b"Date: today\n\n"))

    def test_a_message_without_any(self) -> None:
        for message in (b"", b"\n", b"\r\n\r\nSubject: of the body\n"):
            self.assertEqual(Summary(), deolmutt.summary(message))

    def test_bytes_that_are_no_text(self) -> None:
        self.assertEqual("a=\\b\udcff", deolmutt.summary(b"Subject: a=\\b\xff\n\n").subject)


@needs_library
class TranscriptTest(unittest.TestCase):
    def test_each_example_prints_its_transcript(self) -> None:
        scripts = sorted((TOP / "crates/examples/data").glob("*.script"))
        if not scripts:
            self.skipTest("the examples are not there")
        tried = 0
        for script in scripts:
            expected = script.with_suffix(".out")
            if expected.is_file():
                tried += 1
                with self.subTest(script.name):
                    self.assertEqual(expected.read_bytes(), deolmutt.transcript(script.read_bytes()))
        self.assertGreater(tried, 0)

    def test_a_script_of_no_lines(self) -> None:
        self.assertEqual(b"", deolmutt.transcript(b""))

    def test_a_long_transcript(self) -> None:
        script = b"folder i\n" + b"".join(b"unique %d 0 1 1 host\n" % number for number in range(9000))
        printed = deolmutt.transcript(script)
        self.assertGreater(len(printed), 1 << 17)
        self.assertEqual(9000, printed.count(b".M0P1Q1.host"))


@needs_library
class IndexLinesTest(unittest.TestCase):
    def test_an_index(self) -> None:
        lines = (
            b"# a store\nfolder i\nfolder j\nfile j new z 0 Subject: last\\n\n"
            b"file i cur b:2,S 5 From: b@c\\nSubject: a\\\\b\\n\nfile i tmp t 0 Subject: half\\n\nfile i new a 0"
        )
        said = b"i a\nend\ni b\nsubject=a\\\\b\nfrom=b@c\nend\nj z\nsubject=last\nend\n"
        self.assertEqual(said, deolmutt.index_lines(lines))
        # A room that is too small is no matter.
        self.assertEqual(said, deolmutt.index_lines(lines, room=1))
        self.assertEqual(b"", deolmutt.index_lines(b""))


@needs_library
class RefusedLineTest(unittest.TestCase):
    def test_a_refused_line_says_what_was_printed_before_it(self) -> None:
        play, index = deolmutt.transcript, deolmutt.index_lines
        for function, refused, line, printed, lines in (
            (play, errors.BadCommand, 3, b"job 1\n", b"folder i\njob clean i\nnone\n"),
            # What a store refuses is refused at its line.
            (play, errors.NameUsed, 3, b"job 1\n", b"folder i\njob deliver i u 1 x\njob deliver i u 1 x\n"),
            (index, errors.NotInThisRun, 2, b"", b"folder i\nlist i\n"),
            (index, errors.BadEscape, 2, b"", b"folder i\nfile i new u 0 \\q\nfile i new v\n"),
            # What makes no store is refused at the last line, as by the program.
            (index, errors.DuplicateUnique, 4, b"", b"folder i\nfile i new u 0\nfile i cur u:2, 0\n# last\n"),
        ):
            with self.subTest(lines), self.assertRaises(refused) as met:
                function(lines)
            error = met.exception
            self.assertEqual((line, printed, f"line {line}: {refused()}"), (error.line, error.printed, str(error)))


if __name__ == "__main__":
    unittest.main()
