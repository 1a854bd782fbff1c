"""The world: each call, each refusal and each answer that is no success."""

from __future__ import annotations

import copy
import pickle
import re
import unittest
from concurrent.futures import ThreadPoolExecutor
from typing import Callable

from support import MESSAGE, TOP, Case, needs_library

from deolmutt import World, WrongThread, errors, lines
from deolmutt._numbers import FAILURES, MOST_U64, REFUSALS
from deolmutt.calls import Answer, Call, Clean, Copy, Deliver, Expunge, Flag, Move, Outcome, Place, Seen, Step
from deolmutt.world import _ENTRY, _RECORD

HEADER = TOP / "crates/md_ffi/include/deolmutt.h"
DAY = 86_400
MOST_BODY = 16_777_216
MOST_CALLS = 10_000
# The refusals that no call of the library gives.
_NEVER_MET = range(60, 64)


def world_of(*files: tuple[str, str, bytes]) -> World:
    """Two folders, a and b; files of a: place, name and bytes."""
    head = lines.folder_line("a") + lines.folder_line("b")
    return World.load(head + b"".join(lines.file_line("a", p, n, 0, body) for p, n, body in files))


@needs_library
class CallTest(Case):
    def setUp(self) -> None:
        super().setUp()
        self.world = world_of(("new", "n", b"1"), ("cur", "c:2,FS", b"22"), ("cur", "o:1,x", b""))
        self.addCleanup(self.world.close)

    def names(self, folder: int = 0) -> str:
        return " ".join(f"{entry.place.value}/{entry.name}" for entry in self.world.list(folder))

    def test_a_listing_is_in_order_of_unique_names(self) -> None:
        entries = self.world.list(0)
        self.assertEqual([(Place.CUR, "c:2,FS", 2), (Place.NEW, "n", 1), (Place.CUR, "o:1,x", 0)], entries)
        self.assertEqual(["c", "n", "o"], [entry.unique for entry in entries])
        self.assertEqual(["2,FS", None, "1,x"], [entry.info for entry in entries])

    def test_each_call(self) -> None:
        """What each answers, and what the two folders have after it."""
        world = self.world
        rows: list[tuple[Callable[[], object], object, str, str]] = [
            (lambda: world.deliver(1, "d", MESSAGE), None, "cur/c:2,FS new/n cur/o:1,x", "new/d"),
            (lambda: world.read("d"), MESSAGE, "cur/c:2,FS new/n cur/o:1,x", "new/d"),
            (lambda: world.seen(0, "n", "XS"), "SX", "cur/c:2,FS cur/n:2,SX cur/o:1,x", "new/d"),
            (lambda: world.flag(0, "c", "R", "S"), "FR", "cur/c:2,FR cur/n:2,SX cur/o:1,x", "new/d"),
            (lambda: world.move(0, "c", 1), None, "cur/n:2,SX cur/o:1,x", "cur/c:2,FR new/d"),
            (lambda: world.move(1, "d", 0), None, "new/d cur/n:2,SX cur/o:1,x", "cur/c:2,FR"),
            (lambda: world.copy(0, "n", 1, "e"), None, "new/d cur/n:2,SX cur/o:1,x", "cur/c:2,FR cur/e:2,SX"),
            (lambda: world.copy(1, "c", 1, "f"), None, "new/d cur/n:2,SX cur/o:1,x", "cur/c:2,FR cur/e:2,SX cur/f:2,FR"),
            (lambda: world.read("f"), b"22", "new/d cur/n:2,SX cur/o:1,x", "cur/c:2,FR cur/e:2,SX cur/f:2,FR"),
            (lambda: world.flag(1, "f", "T"), "FRT", "new/d cur/n:2,SX cur/o:1,x", "cur/c:2,FR cur/e:2,SX cur/f:2,FRT"),
            (lambda: world.expunge(1, "f"), None, "new/d cur/n:2,SX cur/o:1,x", "cur/c:2,FR cur/e:2,SX"),
        ]
        for number, (call, answer, here, there) in enumerate(rows):
            with self.subTest(call=number):
                self.assertEqual((answer, here, there), (call(), self.names(0), self.names(1)))
        self.assertRaises(errors.NotThere, world.read, "f")

    def test_clean(self) -> None:
        with world_of(("tmp", "t", b"")) as world:
            self.assertEqual(0, world.clean(0, now=DAY))
            self.assertEqual(1, world.clean(0, now=2 * DAY))

    def test_a_delivery_step_by_step(self) -> None:
        job = self.world.submit(Deliver(1, "d", b"12345", piece=3))
        self.assertIsNone(self.world.answer(job))
        done = self.steps(job)
        calls = ["create", "append 3", "append 2", "link", "unlink"]
        self.assertEqual([Step(call, "ok", call == "link") for call in calls], done)
        self.assertEqual(Answer(Outcome.DELIVERED), self.world.answer(job))
        self.assertRaises(errors.Answered, self.world.step, job)

    def test_two_flag_changes_that_race(self) -> None:
        first, second = (self.world.submit(Flag(0, "c", flag)) for flag in "TR")
        self.world.step(first, now=1)
        self.world.step(second, now=1)
        self.assertEqual([Step("rename", "ok", True)], self.steps(first))
        replies = [("rename", "notfound"), ("list cur", "ok"), ("rename", "ok")]
        self.assertEqual(replies, [(step.call, step.reply) for step in self.steps(second)])
        self.assertEqual(Answer(Outcome.FLAGS, flags="FRST"), self.world.answer(second))

    def test_a_job_that_loses_its_only_try(self) -> None:
        job = self.world.submit(Flag(0, "c", "R", tries=1))
        self.world.step(job, now=1)
        self.world.flag(0, "c", "T")
        self.world.step(job, now=1)
        self.assertRaises(errors.Lost, self.world.answer, job)

    def test_a_delivery_of_over_24_hours(self) -> None:
        job = self.world.submit(Deliver(1, "d", MESSAGE))
        self.world.step(job, now=0)
        while True:
            try:
                self.world.answer(job)
            except errors.TimedOut:
                break
            self.world.step(job, now=DAY)
        self.assertEqual([], self.world.list(1))

    def test_a_delivery_whose_file_a_cleaner_took(self) -> None:
        job = self.world.submit(Deliver(1, "d", MESSAGE))
        self.world.step(job, now=0, own=0)
        self.assertEqual(1, self.world.clean(1, now=2 * DAY))
        with self.assertRaises(errors.TmpGone):
            while self.world.answer(job) is None:
                self.world.step(job, now=2 * DAY, own=1)

    def steps(self, job: int) -> list[Step]:
        """The steps of a job up to its answer."""
        done = []
        while self.world.answer(job) is None:
            done.append(self.world.step(job, now=1000))
        return done

    def test_call_answers_how_a_job_ended(self) -> None:
        calls: dict[Call, Answer] = {
            Deliver(1, "d", b""): Answer(Outcome.DELIVERED),
            Seen(0, "n", "T"): Answer(Outcome.FLAGS, flags="T"),
            Flag(0, "c", "zA", "F"): Answer(Outcome.FLAGS, flags="ASz"),
            Copy(0, "c", 1, "e"): Answer(Outcome.COPIED),
            Move(0, "c", 1): Answer(Outcome.MOVED),
            Expunge(0, "n"): Answer(Outcome.EXPUNGED),
            Clean(0): Answer(Outcome.CLEANED, removed=0),
        }
        self.assertEqual(list(calls.values()), [self.world.call(call) for call in calls])

    def test_each_refusal_and_each_failed_answer(self) -> None:
        ends: dict[Call, type[errors.DeolmuttError]] = {
            Clean(2): errors.NoFolder,
            Clean(-1): errors.NoFolder,
            Clean(1 << 32): errors.NoFolder,
            Deliver(2, "d", b""): errors.NoFolder,
            Move(0, "c", 2): errors.NoFolder,
            Move(0, "c", 0): errors.SameFolder,
            Seen(0, "a:b"): errors.BadUnique,
            Seen(0, ""): errors.BadUnique,
            Seen(0, ".a"): errors.BadUnique,
            Seen(0, "a\0b"): errors.BadUnique,
            Deliver(0, "x" * 201, b""): errors.BadUnique,
            Copy(0, "c", 1, "a/b"): errors.BadUnique,
            Seen(0, "n", tries=0): errors.BadTries,
            Seen(0, "n", tries=17): errors.BadTries,
            Seen(0, "n", tries=MOST_U64): errors.BadTries,
            Deliver(0, "d", b"", piece=0): errors.BadPiece,
            Deliver(0, "d", b"", piece=-1): errors.BadPiece,
            Deliver(0, "d", bytes(MOST_BODY + 1)): errors.BodyTooLong,
            Deliver(0, "c", b""): errors.NameUsed,
            Copy(0, "c", 1, "n"): errors.NameUsed,
            Seen(0, "n", "1"): errors.BadFlag,
            Flag(0, "c", "", "\u00e4"): errors.BadFlag,
            Seen(0, "c"): errors.NotThere,
            Flag(0, "n", "S"): errors.NotThere,
            Move(1, "c", 0): errors.NotThere,
            Copy(1, "c", 0, "e1"): errors.NotThere,
            Expunge(0, "n"): errors.NotThere,
            Expunge(0, "c"): errors.NotTrashed,
            Flag(0, "o", "S"): errors.OtherInfo,
            Copy(0, "o", 1, "e2"): errors.OtherInfo,
        }
        before = self.names()
        for call, kind in ends.items():
            with self.subTest(str(call)[:60]), self.assertRaises(kind):
                self.world.call(call)
        self.assertEqual(before, self.names())

    def test_jobs_that_are_not_there(self) -> None:
        for job in (0, 1, -1, MOST_U64 + 1):
            self.assert_each_raises(errors.NoJob, lambda: self.world.step(job), lambda: self.world.answer(job))

    def test_what_is_no_call_is_told_from_no_message(self) -> None:
        for wrong in ("text", None, (0, "n")):
            self.assertRaises(TypeError, self.world.call, wrong)

    def test_bodies_are_bytes(self) -> None:
        self.world.deliver(1, "d", bytearray(b"abc"))
        self.world.deliver(1, "e", memoryview(b"abcd")[::2])
        self.assertEqual((b"abc", b"ac"), (self.world.read("d"), self.world.read("e")))
        for wrong in (5, "text", None, [1]):
            self.assertRaises(TypeError, self.world.deliver, 1, "f", wrong)

    def test_moments_and_folders_that_no_type_holds(self) -> None:
        for now in (-1, MOST_U64):
            self.assertRaises(ValueError, self.world.clean, 0, now=now)
        for folder in (2, -1, 1 << 32):
            self.assertRaises(errors.NoFolder, self.world.list, folder)

    def test_errors_are_those_that_python_programs_catch(self) -> None:
        with self.assertRaises(KeyError) as met:
            self.world.read("x")
        self.assertEqual("No message of that name where the call looks for it.", str(met.exception))
        self.assertRaises(ValueError, self.world.deliver, 0, "", b"")


@needs_library
class ManyTest(unittest.TestCase):
    def setUp(self) -> None:
        self.world = World.with_folders("a", "b")
        self.addCleanup(self.world.close)

    def test_deliver_many_and_flag_many(self) -> None:
        messages = [(f"m{number:04}", str(number).encode()) for number in range(3000)]
        self.world.deliver_many(0, messages)
        self.assertEqual([name for name, _ in messages], [e.name for e in self.world.list(0)])
        self.assertEqual(b"2999", self.world.read("m2999"))
        self.world.call_many(Seen(0, name) for name, _ in messages)
        self.assertEqual(["F"] * 3000, self.world.flag_many(0, [name for name, _ in messages], "F"))

    def test_the_first_refused_ends_them(self) -> None:
        with self.assertRaises(errors.NameUsed) as met:
            self.world.deliver_many(0, [("a", b"1"), ("b", b"2"), ("a", b"3"), ("c", b"4")])
        self.assertEqual([Answer(Outcome.DELIVERED)] * 2, met.exception.done)
        self.assertEqual(["a", "b"], [entry.name for entry in self.world.list(0)])

    def test_a_failed_answer_ends_nothing(self) -> None:
        answers = self.world.call_many([Deliver(0, "a", b""), Seen(0, "x"), Seen(0, "a")])
        self.assertIsInstance(answers[1], errors.NotThere)
        self.assertEqual(Answer(Outcome.FLAGS), answers[2])

    def test_bodies_that_are_large_together(self) -> None:
        self.world.deliver_many(0, [(f"m{number}", bytes(MOST_BODY // 3)) for number in range(10)])
        self.assertEqual([MOST_BODY // 3] * 10, [entry.size for entry in self.world.list(0)])

    def test_no_calls(self) -> None:
        self.assertEqual([], self.world.call_many([]))


@needs_library
class LifeTest(Case):
    def test_a_closed_world_is_refused(self) -> None:
        with World.with_folders("a") as world:
            pass
        world.close()
        self.assertTrue(world.is_closed)
        self.assert_each_raises(
            errors.Closed, lambda: world.list(0), lambda: world.read("a"), lambda: world.clean(0)
        )

    def test_a_world_is_neither_copied_nor_pickled(self) -> None:
        with World.with_folders("a") as world:
            self.assert_each_raises(
                TypeError, lambda: copy.copy(world), lambda: copy.deepcopy(world), lambda: pickle.dumps(world)
            )

    def test_calls_are_counted_and_a_settled_world_takes_as_many_again(self) -> None:
        with World.with_folders("a") as world:
            self.skip_without_settle(world)
            world.deliver(0, "gone", MESSAGE)
            world.seen(0, "gone", "T")
            world.expunge(0, "gone")
            world.call_many([Clean(0)] * (MOST_CALLS - 4))
            world.deliver(0, "there", MESSAGE)
            self.assertRaises(errors.TooManyJobs, world.clean, 0)
            world.settle()
            self.assertEqual(["there"], [entry.name for entry in world.list(0)])
            self.assertRaises(errors.NameUsed, world.deliver, 0, "there", b"")
            world.deliver(0, "gone", b"again")
            self.assertEqual(b"again", world.read("gone"))

    def test_a_world_with_an_unanswered_job_is_not_settled(self) -> None:
        with World.with_folders("a") as world:
            self.skip_without_settle(world)
            world.clean(0)
            job = world.submit(Deliver(0, "a", b""))
            if world.answer(job) is not None:
                self.skipTest("this library answers at once")
            with self.assertRaises(errors.Unanswered) as met:
                world.settle()
            self.assertEqual(job, met.exception.job)

    def skip_without_settle(self, world: World) -> None:
        try:
            world.settle()
        except errors.NotSettled:
            self.skipTest("this library has no settle")

    def test_a_world_is_loaded_anew_in_place_of_what_it_held(self) -> None:
        with world_of(("new", "n", b"1")) as world:
            self.assertRaises(errors.BadFolder, world.reload, b"folder .a\n")
            self.assertEqual(b"1", world.read("n"))
            world.reload(lines.folder_line("a"))
            self.assertEqual([], world.list(0))
        self.assertRaises(errors.Closed, world.reload, b"")

    def test_each_refused_line(self) -> None:
        refused = {
            b"folder a\nfile a cur x:2, 0 \\q\n": (errors.BadEscape, 2),
            b"folder a\nfile a old x 0\n": (errors.BadPlace, 2),
            b"folder a\nfolder a\n": (errors.BadFolder, 2),
            b"folder a\nfile b cur x 0\n": (errors.UnknownFolder, 2),
            b"folder a\n\n# more\nlist a\n": (errors.NotInThisRun, 4),
            b"folder a\nfile a cur x 0\nfile a new x 0\n": (errors.DuplicateUnique, 0),
            b"folder a\nfile a cur x/y 0\n": (errors.BadName, 0),
            b"folder a\nfile a cur %b 0\n" % (b"x" * 201): (errors.LongUnique, 0),
        }
        for text, (kind, line) in refused.items():
            with self.subTest(text[:40]), self.assertRaises(kind) as met:
                World.load(text)
            self.assertEqual(line, met.exception.line)

    def test_a_name_that_no_line_says(self) -> None:
        for name in ("", "a b", "a\nb"):
            self.assertRaises(errors.BadName, lines.folder_line, name)


@needs_library
class ThreadTest(unittest.TestCase):
    def test_a_second_thread_is_refused(self) -> None:
        with World.with_folders("a") as world, world.held:
            found = in_thread(lambda: world.list(0))
        self.assertIsInstance(found, WrongThread)
        self.assertIn("one thread at a time", str(found))

    def test_one_thread_after_another_is_fine(self) -> None:
        with World.with_folders("a") as world:
            self.assertIsNone(in_thread(lambda: world.deliver(0, "a", MESSAGE)))
            self.assertEqual(MESSAGE, world.read("a"))

    def test_each_thread_may_have_a_world(self) -> None:
        found: list[int] = []

        def work(_: int) -> None:
            with World.with_folders("a") as world:
                world.deliver_many(0, [(f"m{number}", bytes(number)) for number in range(2000)])
                found.append(sum(len(world.read(entry.name)) for entry in world.list(0)))

        with ThreadPoolExecutor(4) as pool:
            list(pool.map(work, range(4)))
        self.assertEqual([sum(range(2000))] * 4, found)

    def test_threads_that_meet_are_refused_and_break_nothing(self) -> None:
        with World.with_folders("a") as world:
            refused = [0] * 4
            done = [0] * 4

            def deliver(thread: int) -> None:
                for number in range(200):
                    try:
                        world.deliver(0, f"{thread}-{number}", bytes(50_000))
                        done[thread] += 1
                    except WrongThread:
                        refused[thread] += 1

            with ThreadPoolExecutor(4) as pool:
                list(pool.map(deliver, range(4)))
            self.assertEqual(sum(done), len(world.list(0)))
            self.assertEqual(800, sum(done) + sum(refused))


def in_thread(function: Callable[[], object]) -> object:
    """What a function raises in a thread of its own, or None."""
    with ThreadPoolExecutor(1) as pool:
        return pool.submit(function).exception()


class NumbersTest(unittest.TestCase):
    def test_records_and_listings_are_little_endian_on_each_machine(self) -> None:
        self.assertEqual("<<", _RECORD.format[0] + _ENTRY.format[0])

    def test_the_numbers_are_those_of_the_header(self) -> None:
        if not HEADER.is_file():
            self.skipTest(f"{HEADER} is not there")
        text = HEADER.read_text(encoding="utf-8")
        refusals = numbers_in(text, "deolmutt_refusal")
        met = {n for n in refusals.values() if n not in _NEVER_MET}
        self.assertEqual(met - {0}, set(REFUSALS))
        answers = numbers_in(text, "deolmutt_answer_kind")
        self.assertEqual(set(range(7, len(answers))), set(FAILURES))
        for name, number in refusals.items():
            if number in REFUSALS and REFUSALS[number] not in (errors.Misused, errors.BadLog):
                self.assertIn(plain(name), ALSO_CALLED.get(number, plain(REFUSALS[number].__name__)))


# Where the package has another word than the header.
ALSO_CALLED = {28: "badchunk", 57: "nofirst"}


def plain(name: str) -> str:
    """A name without what is about its case."""
    return name.replace("DEOLMUTT_", "").replace("_", "").lower()


def numbers_in(header: str, enum: str) -> dict[str, int]:
    """The names and numbers of an enum."""
    body = re.search(r"enum %s \{(.*?)\};" % enum, header, re.DOTALL)
    assert body is not None
    return {name: int(number) for name, number in re.findall(r"(DEOLMUTT_\w+) = (\d+)", body[1])}


if __name__ == "__main__":
    unittest.main()
