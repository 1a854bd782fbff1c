"""Tests of tools/check_face: a stand-in that answers as the rows say passes them, and each wrong main fails."""

import errno
import shutil
import subprocess
import sys
import unittest
from pathlib import Path

from shared import TOOLS, TOP, RoomTest

from face_lib.faults import Fault, built, faults, run_with, wrong_memory
from face_lib.large import cases, is_front, pieces, run_in_pieces
from face_lib.planted import PLANTED, passed_plants, planted
from face_lib.rows import Ended, WrongRow, rows_in, rows_of, run, wrong_rows
from face_lib.streams import FACES, Face, Streams, wrong_streams

STAND_IN = """#!{python}
import sys
sys.path.insert(0, {tools!r})
from face_lib.rows import rows_of
words, given = sys.argv[1:], sys.stdin.buffer.read()
for row in rows_of("maildir_cli"):
    if (row.words, row.input) == (words, given):
        sys.stdout.buffer.write(row.example.printed)
        sys.stderr.buffer.write(row.example.said)
        sys.exit(row.example.status)
sys.exit(70)
"""


# Prints how many bytes each read gives.
READS = """#!{python}
import os, sys
while given := os.read(0, 65536):
    sys.stdout.write(f"{{len(given)}} ")
"""


class Large(RoomTest):
    def test_each_limit_has_a_case_past_it(self):
        statuses = [case.wanted.status for case in cases()]
        self.assertGreaterEqual(statuses.count(1), 6)
        self.assertGreaterEqual(statuses.count(0), 6)

    def test_a_front_prints_a_front_and_is_refused_at_its_last_line_alone(self):
        self.assertTrue(is_front(Ended(0, b"job 1\n", b""), 40))
        self.assertTrue(is_front(Ended(1, b"", b"line 2: bad command\n"), 40))
        for ended in (Ended(0, b"job 2\n", b""), Ended(1, b"", b"line 1: bad command\n"), Ended(1, b"", b""), Ended(2, b"", b"line 2: x\n")):
            with self.subTest(ended):
                self.assertFalse(is_front(ended, 40))

    def test_a_read_gives_a_piece(self):
        ended = run_in_pieces([self.program("stand-in", READS.format(python=sys.executable))], b"abcdefgh", 3)
        self.assertEqual(ended, Ended(0, b"3 3 2 ", b""))

    def test_a_program_that_reads_nothing_ends_the_run(self):
        self.assertEqual(run_in_pieces(["true"], b"x" * 1_000_000, 1_000), Ended(0, b"", b""))

    def test_each_script_comes_in_pieces_of_each_size(self):
        sizes = {size for _, size in pieces()}
        self.assertEqual(sizes, {*range(1, 21), 1_000})
        self.assertGreaterEqual(len(list(pieces())), 21 * 32)


# Says what eight reads gave at most, up to an end or a fault, and what two writes took: a count, or the error below 0.
STREAMS = """
#include <errno.h>
#include <stdio.h>
#include <unistd.h>

static int told(ssize_t done) {
    fprintf(stderr, "%d ", done < 0 ? -errno : (int)done);
    return done > 0 || (done < 0 && errno == EINTR);
}

int main(void) {
    char bytes[64];
    int at;
    for (at = 0; at < 8 && told(read(0, bytes, sizeof bytes)); at++)
        ;
    for (at = 0; at < 2; at++)
        told(write(1, "abc", 3));
    return 0;
}
"""

# Asks for memory twelve times, and says where it is refused, unless words are given.
MEMORY = """
#include <stdio.h>
#include <stdlib.h>

int main(int count, char **words) {
    void *volatile at = NULL;
    int asked;
    for (asked = 0; asked < 12; asked++) {
        at = asked % 2 ? realloc(at, 99) : malloc(9);
        if (at == NULL && count == 1) {
            fputs("line 0: no memory\\n", stderr);
            return 1;
        }
        if (at == NULL)
            return 2;
    }
    return 0;
}
"""


def compiled(folder: str, text: str) -> str:
    """A program of C, of this text."""
    path = Path(folder) / "stand-in"
    path.with_suffix(".c").write_text(text, encoding="utf-8")
    subprocess.run(["gcc", "-o", path, path.with_suffix(".c")], check=True)
    return str(path)


@unittest.skipUnless(shutil.which("gcc"), "gcc is not installed")
class Faults(RoomTest):
    def setUp(self):
        super().setUp()
        self.library = built(self.room)

    def test_each_fault_is_met(self):
        stand_in = compiled(self.room, STREAMS)
        for wrong, said in (
            ({}, "8 0 3 3 "),
            ({"READ_AT_ONCE": 5}, "5 3 0 3 3 "),
            ({"READ_AT_ONCE": 5, "READ_FAULT": errno.EPIPE}, f"5 3 {-errno.EPIPE} 3 3 "),
            ({"READ_SIGNALS": 1}, f"{-errno.EINTR} 8 {-errno.EINTR} 0 3 3 "),
            ({"READ_ENDLESS": 97, "READ_AT_ONCE": 9}, "9 9 9 9 9 9 9 9 3 3 "),
            ({"WRITE_AT_ONCE": 1}, "8 0 1 1 "),
            ({"WRITE_AT_ONCE": 0}, "8 0 0 0 "),
            ({"WRITE_GOOD": 1}, f"8 0 3 {-errno.ENOSPC} "),
            ({"WRITE_SIGNALS": 1}, f"8 0 {-errno.EINTR} 3 "),
        ):
            with self.subTest(wrong):
                ended, was_refused = run_with(self.library, [stand_in], Fault("", b"abcdefgh", wrong, Ended(0, b"", b"")))
                self.assertEqual(ended.said.decode(), said)
                self.assertFalse(was_refused)

    def test_each_allocation_is_refused(self):
        stand_in = compiled(self.room, MEMORY)
        for words, count in (("", 0), ("silent", 12)):
            for rest in ({}, {"REFUSED_REST": 1}):
                with self.subTest(words):
                    wrong = list(wrong_memory(self.library, [stand_in], Fault(words, b"", rest, Ended(0, b"", b""))))
                    self.assertEqual(len(wrong), count)

    def test_a_run_without_allocations_is_told(self):
        self.assertEqual(len(list(wrong_memory(self.library, [compiled(self.room, "int main(void) { return 0; }")],
                                               Fault("", b"", {}, Ended(0, b"", b""))))), 1)

    def test_there_are_faults_of_each_kind(self):
        names = {name for fault in faults() for name in fault.wrong}
        self.assertEqual(names, {"READ_AT_ONCE", "READ_ENDLESS", "READ_FAULT", "READ_SIGNALS", "WRITE_AT_ONCE", "WRITE_GOOD", "WRITE_SIGNALS"})


class Rows(unittest.TestCase):
    def test_each_program_has_rows_of_each_status(self):
        for name in FACES:
            with self.subTest(name):
                statuses = {0, 1, 2, 64, 66, 73} if name == "deolmutt" else {0, 1, 2}
                self.assertEqual({row.example.status for row in rows_of(name)}, statuses)

    def test_the_example_of_a_row_is_right_and_another_end_is_not(self):
        for row in (row for name in FACES for row in rows_of(name)):
            with self.subTest(row.words):
                self.assertTrue(row.is_right(row.example))
                self.assertFalse(row.is_right(row.example._replace(status=3)))
                self.assertFalse(row.is_right(row.example._replace(said=row.example.said + b"x")))
                self.assertFalse(row.is_right(row.example._replace(printed=b"y")))

    def test_wrong_rows_are_named(self):
        head = "status|words|input|printed|said\n"
        for row in ("0|play||", "0|play||||", "0|play||a|b|", "x|play|||", "0|play|\\q||", "0|play|\\||", "0|play|é||"):
            with self.subTest(row), self.assertRaisesRegex(WrongRow, "^a.rows:3: "):
                list(rows_in("a.rows", f"# a comment\n{head}{row}\n"))

    def test_escapes_are_bytes(self):
        [row] = rows_in("a.rows", "status|words|input|printed|said\n0||\\xff\\n\\\\n\\x7c||\n")
        self.assertEqual(row.input, b"\xff\n\\n|")

    def test_choices_of_words_are_runs_of_their_own(self):
        words = [row.words for row in rows_of("maildir_cli")]
        for number in ("1", "2", "16"):
            self.assertGreaterEqual(words.count(["threads", number]), 9)

    def test_each_log_of_the_judge_is_a_row(self):
        logs = len(list((TOP / "crates/judge_examples/data").glob("*.log")))
        self.assertGreaterEqual(logs, 62)
        self.assertGreaterEqual(sum(row.words == ["judge", "--lines"] for row in rows_of("deolmutt")), logs)

    def test_an_earlier_line_has_to_be_named(self):
        row = next(row for row in rows_of("deolmutt") if row.example.printed.startswith(b'{"before":'))
        self.assertFalse(row.is_right(row.example._replace(printed=row.example.printed.replace(b",", b",\n", 1))))
        self.assertFalse(row.is_right(row.example._replace(printed=b"")))


class Planted(RoomTest):
    def setUp(self):
        super().setUp()
        self.stand_in = str(self.program("stand-in", STAND_IN.format(python=sys.executable, tools=str(TOOLS))))

    def wrong_row(self, script):
        """The first row that fails for the stand-in as a shell makes it."""
        return next(wrong_rows(planted(self.stand_in, script, self.room), rows_of("maildir_cli")), None)

    def test_what_answers_as_the_rows_say_passes(self):
        self.assertIsNone(self.wrong_row('exec "$0" "$@"'))

    def test_each_wrong_main_fails(self):
        for fault, script in PLANTED.items():
            with self.subTest(fault):
                self.assertIsNotNone(self.wrong_row(script))

    def test_a_main_that_passes_is_told(self):
        told = list(passed_plants(self.stand_in, lambda command: iter(())))
        self.assertEqual(len(told), len(PLANTED))


class FailingStreams(RoomTest):
    FACE = Face(
        streams=[Streams("", b"", ">/dev/full", Ended(3, b"", b"full\n"))],
        unread=[Streams("", b"", "", Ended(3, b"", b"full\n"))],
        reset=[Streams("", text, "", Ended(4, b"", b"reset after %d\n" % len(text))) for text in (b"", b"some text", b"x" * 100_000)],
        no_text=Ended(3, b"", b"full\n"),
    )
    # Says how many bytes it read before a read failed, or that its output is full.
    TEXT = """#!{python}
import os, sys
read = 0
try:
    while part := os.read(0, 5):
        read += len(part)
except OSError:
    sys.stderr.write(f"reset after {{read}}\\n")
    sys.exit(4)
sys.stderr.write("full\\n")
sys.exit(3)
"""

    def test_streams_that_fail_are_met(self):
        stand_in = self.program("stand-in", self.TEXT.format(python=sys.executable))
        self.assertEqual(list(wrong_streams([stand_in], self.FACE)), [])
        self.assertEqual(run([stand_in], [], b"").status, 3)

    def test_what_does_not_come_to_it_is_told(self):
        self.assertEqual(len(list(wrong_streams(["true"], self.FACE))), 6)


class Words(unittest.TestCase):
    def test_wrong_words_are_refused(self):
        for words in ([], ["no-such-program"], [sys.executable], [TOP / "crates/maildir_cli"]):
            with self.subTest(words):
                done = subprocess.run([TOOLS / "check_face", *words], capture_output=True, check=False)
                self.assertEqual(done.returncode, 2)
                self.assertEqual(done.stdout, b"")

    def test_each_program_is_known(self):
        self.assertEqual(set(FACES), {"deolmutt", "maildir_cli"})
