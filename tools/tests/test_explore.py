"""Tests of tools/explore: which interleavings are tried, and what is said of them."""

import json
import subprocess
import sys
import unittest
from itertools import permutations

from judge_support import BOX, beginning, check_schema, quoted, trace
from shared import TOOLS, RoomTest

from judge_lib.explored_table import all_unexpected, as_json, table
from judge_lib.exploring import Broken, Explored, Order, note
from judge_lib.folders import Place
from judge_lib.judge_run import SENTENCES, Finding
from judge_lib.keeping import Keeper
from judge_lib.making import Log, Making
from judge_lib.processes import Actors, Processes, Turn
from judge_lib.refused import Refused
from judge_lib.schedules import Went, branches, play, prefix_of
from judge_lib.statuses import check_ran, read_expected
from judge_lib.steps import Read, When
from judge_lib.strace_lines import read_events


class Counted:
    """Commands of so many calls, of which one may wait for another."""

    def __init__(self, *calls, waits_at=None):
        self.sides = "ABC"[:len(calls)]
        self.left, self.ended = dict(zip(self.sides, calls)), set()
        self.waits_at, self.made = waits_at, ""

    def has_ended(self, side):
        return side in self.ended

    def go_on(self, side):
        if self.made == self.waits_at:
            return Went.WAITS
        if not self.left[side]:
            self.ended.add(side)
            return Went.ENDED
        self.left[side] -= 1
        self.made += side
        return Went.CALLED


def orders(make):
    found, left = [], [""]
    while left:
        prefix = left.pop()
        played = play(make(), prefix)
        found.append(played.order)
        left += branches(played, prefix)
    return found


class Schedules(unittest.TestCase):
    def test_each_interleaving_is_tried_once(self):
        for calls in [(0, 0), (1, 1), (2, 3), (4, 2), (2, 2, 2), (1, 0, 3)]:
            every = {"".join(order) for order in permutations("".join(side * many for side, many in zip("ABC", calls)))}
            self.assertEqual(sorted(orders(lambda: Counted(*calls))), sorted(every))

    def test_a_command_that_waits(self):
        played = play(Counted(2, 2, waits_at="AB"), "AB")
        self.assertTrue(played.waits)
        self.assertEqual(played.order, "AB")

    def test_an_order_is_played(self):
        for order in ["AABB", "BABA", "BBAA", ""]:
            calls = order.count("A"), order.count("B")
            self.assertEqual(play(Counted(*calls), prefix_of(order)).order, order)


class Readings(unittest.TestCase):
    def test_each_name_and_the_end_is_a_step(self):
        place = Place(b"box", "cur")
        steps = [Read(When("A", 1, 1, 1), place, reply, names, Turn()) for reply, names in [("more", []), ("more", [b"u"]), ("ok", [])]]
        self.assertEqual([step.is_counted for step in steps], [False, True, True])


class Looks(unittest.TestCase):
    def test_a_look_is_no_line_and_a_step_where_it_names_a_judged_path(self):
        looks = trace(f"1 newfstatat(AT_FDCWD, {quoted('box/cur/u')}, 0x7, 0) = -1 ENOENT (No such file)", f"1 access({quoted('box/new')}, F_OK) = 0",
                      f"1 stat({quoted('/etc/passwd')}, 0x7) = 0", f"1 newfstatat(3<{quoted(BOX.directory.decode())[1:-1]}>, \"\", 0x7, AT_EMPTY_PATH) = 0")
        making = Making(beginning([]), Processes(Actors("one", "a"), b"/srv/mail"), {}, [])
        self.assertEqual([len(making.add(event)) for event in read_events(looks)], [1, 1, 0, 0])
        self.assertEqual(making.log().lines, [])


class Statuses(unittest.TestCase):
    def test_what_was_expected(self):
        explored = Explored({"AB": Order({"A": 0, "B": 1}, []), "BA": Order({"A": 0, "B": None}, [])}, 0, True, {})
        self.assertEqual(all_unexpected(explored, read_expected([])), ["AB", "BA"])
        self.assertEqual(all_unexpected(explored, read_expected(["B: 0 1"])), ["BA"])
        self.assertEqual(table(explored, {})[2:], ["ends A 0 B 1    in 1, first in AB: nobody expected that of B (--status)",
                                                   "ends A 0 B signal in 1, first in BA: nobody expected that of B (--status)"])
        for text in ["", "A:", "A: x"]:
            with self.assertRaises(Refused, msg=text):
                read_expected([text])

    def test_a_command_that_never_ran(self):
        with self.assertRaisesRegex(Refused, "B did not run: status 127: sh: 1: x: not found"):
            check_ran({"A": 0, "B": 127}, {"B": b"sh: 1: x: not found\n"})


class Kept(RoomTest):
    def there(self):
        return sorted(str(path.relative_to(self.room)) for path in self.room.glob("**/*") if path.is_file())

    def test_logs_by_clause_and_all_of_each_order(self):
        findings, whole = str(self.room / "found"), str(self.room / "whole")
        log = Log([b"maildir_log 1"], [], {}, {"A": b"said"})
        keeper = Keeper(findings, whole)
        keeper.keep("AB", log, Order({"A": 0, "B": None}, ["Gone", "Mixed"]))
        keeper.keep("BA", log, Order({"A": 0, "B": 0}, []))
        of_whole = [f"whole/{order}/{name}" for order in ("AB", "BA") for name in ("A.out", "log", "statuses")]
        self.assertEqual(self.there(), ["found/Gone/AB.log", "found/Mixed/AB.log", *of_whole])
        self.assertEqual((self.room / "whole/AB/statuses").read_text(), "A ended with status 0\nB ended with a signal\n")
        with self.assertRaisesRegex(Refused, "is not empty"):
            Keeper(findings, whole)
        Keeper(findings, None)
        self.assertEqual(self.there(), of_whole)

    def test_an_order_without_a_call(self):
        Keeper(str(self.room), None).keep("", Log([b"maildir_log 1"], [], {}, {}), Order({"A": 0, "B": 0}, ["AnsweredFalsely"]))
        self.assertEqual(self.there(), ["AnsweredFalsely/none.log"])
        Keeper(str(self.room), None)
        self.assertEqual(self.there(), [])


class Table(unittest.TestCase):
    BROKEN = {"Gone": Broken("AB", b"", Finding(5, "Gone"), 1, frozenset("A")), "Mixed": Broken("BA", b"", Finding(4, "Mixed"), 2)}
    EXPLORED = Explored({"AB": Order({"A": 0, "B": 0}, ["Gone", "Mixed"]), "BA": Order({"A": 0, "B": 0}, ["Mixed"])}, 1, False, BROKEN)

    def test_lines(self):
        self.assertEqual(table(self.EXPLORED, {}), ["interleavings   2, and there are more", "break the law   2",
                                                    "ends A 0 B 0    in 2, first in AB",
                                                    "not in order    1 runs, where one command waited for another",
                                                    f"Mixed           2, first in BA: {SENTENCES['Mixed']}",
                                                    f"Gone            1, first in AB: {SENTENCES['Gone']}"])

    def test_a_command_without_a_call_is_told(self):
        explored = Explored({"AA": Order({"A": 0, "B": 0}, [])}, 0, True, {})
        self.assertIn("no call         B: never called in a maildir", table(explored, {}))

    def test_an_order_without_a_call_is_named(self):
        explored = Explored({"": Order({"A": 0, "B": 0}, ["Gone"])}, 0, True, {"Gone": Broken("", b"", Finding(1, "Gone"), 1)})
        self.assertEqual([line.split(": ")[0] for line in table(explored, {}) if "first in" in line],
                         ["ends A 0 B 0    in 1, first in none", "Gone            1, first in none"])

    def test_json_is_as_its_schema_says(self):
        told = json.loads(json.dumps(as_json(self.EXPLORED, {})))
        check_schema(told, "explore")
        self.assertEqual([order["order"] for order in told["orders"]], ["AB", "BA"])

    def test_whose_steps_break_a_clause(self):
        broken = {}
        note("AB", b"maildir_log 1\n1 A unlink box/cur/u ok\n1 B unlink box/cur/v ok\n", [Finding(2, "Gone")], broken)
        note("BA", b"maildir_log 1\n1 A unlink box/cur/u ok\n1 B unlink box/cur/v ok\n", [Finding(3, "Gone")], broken)
        self.assertEqual((broken["Gone"].order, broken["Gone"].count, broken["Gone"].actors), ("AB", 2, {"A", "B"}))

    def test_refusals(self):
        for words in [["true"], ["--claims", "done box u", "true", "true"], ["--status", "C: 1", "true", "true"], ["true"] * 4]:
            run = subprocess.run([sys.executable, TOOLS / "explore", *words], capture_output=True, check=False)
            self.assertEqual((run.returncode, run.stdout), (2, b""))
