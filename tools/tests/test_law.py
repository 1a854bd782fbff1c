"""The law over histories, evaluated by its definitions: it finds in the logs of judge_examples what the proved judge has to find."""

import re
import unittest
from pathlib import Path

from shared import TOP, RoomTest, ran

from judge_lib.refused import Refused
from judge_lib.results import Results
from judge_lib.scene import read_scenes
from judge_lib.staging import Outcome
from law_lib import monitor
from law_lib.clauses import LAW
from law_lib.logs import findings
from law_lib.owed import OWED
from law_lib.owed_command import broken_in, main

PAGE = TOP / "docs/LAW.md"
EXAMPLE = re.compile(r"^\*\*`(\w+)`\.\*\* [^\n]*\n\n((?:    [^\n]*\n)+)", re.MULTILINE)
JUDGE_PAGE = TOP / "docs/JUDGE.md"
# A row of the table of clauses: the clause, and the lines of its example in the last cell.
ROW = re.compile(r"^\| (\w+) \| .* \| (`[^|]*`) \|$", re.MULTILINE)
LOGS = sorted((TOP / "crates/judge_examples/data").glob("*.log"))
MOST_LINES = 60


def is_read(log: Path) -> bool:
    """Whether a log has no wrong line and no ticks, and is short."""
    lines = log.read_bytes().splitlines()
    has_ticks = any(b"@" in line.split(b" ")[0] for line in lines if not line.startswith(b"#"))
    return not has_ticks and len(lines) <= MOST_LINES and not log.with_suffix(".found").read_bytes().startswith(b"line ")


class Law(unittest.TestCase):
    def test_it_finds_what_the_judge_finds(self) -> None:
        broken = set()
        for log in filter(is_read, LOGS):
            found = findings(log.read_bytes())
            broken.update(clause for _, clause in found)
            with self.subTest(log.name):
                said = "".join(f"{number} {clause}\n" for number, clause in found)
                self.assertEqual(said, log.with_suffix(".found").read_text())
        self.assertEqual(broken, set(LAW), "each clause is broken by a log")

    def test_the_last_line_of_each_example_of_the_page_breaks_its_clause_alone(self) -> None:
        rows = [(clause, re.findall("`([^`]*)`", cell)) for clause, cell in ROW.findall(JUDGE_PAGE.read_text(encoding="utf-8"))]
        self.assertEqual([clause for clause, _ in rows], list(LAW))
        for clause, lines in rows:
            with self.subTest(clause):
                self.assertEqual(findings("\n".join(lines).encode(), LAW), [(len(lines), clause)])


class Monitor(unittest.TestCase):
    def test_it_finds_what_the_definitions_find(self) -> None:
        for definitions, found in [(LAW, monitor.LAW), (OWED, monitor.OWED)]:
            self.assertLessEqual(set(found), set(definitions))
            by_monitor = {clause: (lambda h, breaks=breaks: breaks(monitor.judged(h))) for clause, breaks in found.items()}
            by_definition = {clause: definitions[clause] for clause in found}
            for log in filter(is_read, LOGS):
                with self.subTest(log.name):
                    self.assertEqual(findings(log.read_bytes(), by_monitor), findings(log.read_bytes(), by_definition))


class Owed(RoomTest):
    def test_each_example_of_the_page_breaks_its_clause_alone(self) -> None:
        examples = EXAMPLE.findall(PAGE.read_text(encoding="utf-8"))
        self.assertEqual([clause for clause, _ in examples], list(OWED))
        for clause, block in examples:
            log = block.replace("    ", "").encode()
            with self.subTest(clause):
                self.assertEqual(findings(log, OWED), [(len(log.splitlines()), clause)])

    def test_what_comes_from_new_may_have_been_read(self) -> None:
        log = b"file a/new/u 1\n10 p link a/new/u a/new/v ok\n10 p rename a/new/v a/cur/v:2,S ok\n10 p rename a/new/u b/new/u ok\n"
        self.assertEqual(findings(log, OWED), [])

    def test_overlapping_calls_are_taken_in_the_order_of_lines_or_refused(self) -> None:
        created, linked = b"10@1..9 d create a/tmp/u ok\n", b"10@2..8 p link a/tmp/u a/new/u ok\n"
        self.assertEqual(broken_in(created + linked), [("NamedByAnother", "p", [2])])
        with self.assertRaisesRegex(Refused, "line 1: calls overlap"):
            broken_in(linked + created)

    def test_the_command_says_who_breaks_what(self) -> None:
        log = self.room / "log"
        for text, said, status in [
            ("10 p create a/cur/u:2, ok\n10 p write a/cur/u:2, ok\n10 p write a/cur/u:2, ok\n", "Rewritten by p (2, 3)", 1),
            ("10 p create a/tmp/u ok\n", "nothing", 0),
            ("10 p unlink a/tmp/u ok\n", "NotADirectory by p (1)", 1),
        ]:
            log.write_text(text)
            self.assertEqual(ran(main, [str(log)])[:2], (status, f"{log}: {said}\n"))
        log.write_text("file a/tmp/u x\n")
        self.assertEqual(ran(main, [str(log)])[0], 2)

    def test_the_table_has_a_row_for_each_program(self) -> None:
        linked = b"file box/cur/u:2,S 1\n10 s-nail link box/cur/u:2,S box/cur/u:2,FS ok\n"
        logs = {"s-nail-flag": linked, "s-nail-move": b"", "mlist-beside-mv": b""}
        for scene in read_scenes(list(logs)):
            Results(str(self.room)).keep(Outcome(scene, "1", 1, True, [], logs[scene.name]))
        status, printed, _ = ran(main, ["--scenes", str(self.room)])
        self.assertEqual((status, printed.splitlines()[4:]), (0, ["| `s-nail`, s-nail 1 | 2 | `TwoNames` (flags one message, deletes another) |"]))
