"""The search for a job of ours that breaks its promise: it finds none, and it finds what is planted."""

import os
import re
import subprocess
import unittest

from shared import DEOLMUTT, TOP, RoomTest, ran

from judge_lib.names import Path
from law_lib.histories import Between, List
from law_lib.monitor import OWED
from law_lib.owed_command import broken_in
from search_lib import random_runs
from search_lib.calls import Answer, Call
from search_lib.command import main
from search_lib.exhaustive import Bounds, search
from search_lib.machines import After, Machines
from search_lib.scenes import SCENES
from search_lib.stories import Later, Own, Rules, Taken, new_story, take
from search_lib.worlds import world_of

LARGE = "deliverclean"
ALONE = "its effect is not that of the call alone"
BYTES = "a message that was delivered has other bytes than the body"

# Of each clause a scene whose jobs rely on it, and what they break without it.
NEEDED = {
    "TwoNames": ("expunge", ALONE),
    "InTwoFolders": ("move", ALONE),
    "Mixed": ("deliver1", BYTES),
    "NamedByAnother": ("deliver1", BYTES),
    "CleanedEarly": ("deliver0", "it answers TmpGone, beside others that leave young files"),
    "MovedBack": ("movecur", "it answers NotThere, which is not so"),
    "UsedTwice": ("moveused", "it breaks UsedAgain of the law"),
    "MadeAgain": ("clean", "it breaks CleanedEarly, which it owes"),
    "WrittenLate": ("cleanmade", "it breaks CleanedEarly, which it owes"),
    "FreshNames": ("copy", "it answers NameTaken, which is not so"),
}


class TrustsItsName(Machines):
    """An errand that takes a name that is gone for its own doing."""

    def lost_or_again(self, call, stage):
        return super().after_act(call, stage, "ok")._replace(effect=None)


class LinksEarly(Machines):
    """A delivery that links before it has written all."""

    def delivery_asks(self, call, stage, own):
        asked, piece = super().delivery_asks(call, stage, own)
        is_last = stage.at == "writing" and bool(piece) and stage.written + call.chunk >= len(call.body)
        return (Between("link", asked.path, asked.path._replace(place="new"), ""), b"") if is_last else (asked, piece)


class GivesUpEarly(Machines):
    """An errand that has one try less."""

    def lost_or_again(self, call, stage):
        return super().lost_or_again(call, stage._replace(tries=stage.tries - 1))


class LooksInOnePlace(Machines):
    """An errand that doesn't look in cur."""

    def after_look(self, call, stage, reply, rows):
        return super().after_look(call, stage._replace(place="cur"), reply, rows)


class ForgetsFlags(Machines):
    """A change of flags that forgets those that the message has."""

    def deed(self, call, old):
        return super().deed(call, old._replace(name=call.unique))._replace(old=old)


class SaysMovedOnly(Machines):
    """A move that answers, and leaves the message."""

    def decide(self, call, stage, name):
        return After(stage, Answer("Moved"), Answer("Moved"))


class NeverGivesUp(Machines):
    """A delivery that goes on after 24 hours."""

    def delivery_asks(self, call, stage, own):
        return super().delivery_asks(call, stage, stage.start)


def call_of(kind: str, folder: str, *words: str) -> Call:
    """The call of a script's line."""
    names = [word.encode() for word in (folder, *words)]
    flags = [frozenset(word.replace("-", "")) for word in words]
    if kind in ("deliver", "clean"):
        return Call(kind, *names[:2], body=b" ".join(names[3:]).replace(b"\\n", b"\n"), chunk=int(words[1]) if words else 1)
    call = Call(kind, *names[:2], int(words[-1]))
    if kind in ("move", "copy"):
        return call._replace(to=names[2], fresh=names[3])
    return call._replace(add=flags[1] if len(flags) > 2 else frozenset(), remove=flags[2] if kind == "flag" else frozenset())


def played(script: str) -> list[str]:
    """What the jobs of a script do and answer, as its transcript says it."""
    image, story, said = [], None, []
    for word, *words in (line.split(" ") for line in script.splitlines()):
        if word == "file":
            image.append((Path(words[0].encode(), words[1], words[2].encode()), int(words[3])))
        if word == "job":
            story = story or new_story(world_of(image, max([stamp for _, stamp in image], default=0)), [], Machines())
            story = story._replace(jobs=story.jobs + new_story(story.world, [call_of(*words)], Machines()).jobs)
        while word in ("step", "finish"):
            now, own = max(story.world.now, int(words[1])), [int(each) for each in words[2:]]
            story = take(story, Later(now - story.world.now), Rules()).story
            taken = take(story, Own(int(words[0]) - 1, own[0] - now if own else 0), Rules())
            story = taken.story
            said += [f"{words[0]} {each}" for each in told(taken)]
            if word == "step" or taken.answer:
                break
    return said


def told(taken: Taken) -> list[str]:
    call, answer = taken.call, str(taken.answer).partition(" ")
    if isinstance(call, List):
        said = f"list {call.place} {call.reply}"
    else:
        said = f"{call.naming if isinstance(call, Between) else call.deed.replace('write', 'append')} {call.reply}"
    return [said, f"answer {answer[0].lower()}{answer[1]}{answer[2]}"] if taken.answer else [said]


class CountsAll(Machines):
    """A clean that counts the names that were gone."""

    def after_next(self, names, files):
        return super().after_next(names, 2)


class Played(unittest.TestCase):
    def test_the_machines_step_as_the_program_does(self) -> None:
        scripts = sorted((TOP / "crates/examples/data").glob("*.script"))
        self.assertGreater(len(scripts), 20)
        for script in scripts:
            lines = [line for line in script.with_suffix(".out").read_text().splitlines() if line[:1].isdigit()]
            with self.subTest(script.name):
                self.assertEqual(played(script.read_text()), [re.sub(r"append \d+", "append", line) for line in lines])


class Scenes(unittest.TestCase):
    def test_nothing_is_found(self) -> None:
        for keeps_all in (True, False):
            for name in SCENES.keys() - {LARGE}:
                with self.subTest(name, keeps_all=keeps_all):
                    searched = search(SCENES[name], Bounds(2), Rules(keeps_all))
                    self.assertEqual((searched.found, searched.is_whole), ({}, True))

    def test_nothing_is_found_where_calls_fail_and_clocks_differ(self) -> None:
        for name in ("deliver1", "move", "cleanmade", "flag"):
            for clocks_apart in (0, 14400, 50000):
                with self.subTest(name, clocks_apart=clocks_apart):
                    self.assertEqual(search(SCENES[name], Bounds(1, faults=1, clocks_apart=clocks_apart), Rules(False)).found, {})

    def test_each_clause_that_a_call_relies_on_is_needed(self) -> None:
        self.assertEqual(set(NEEDED), {*OWED, "FreshNames"} - {"Rewritten"})
        for clause, (name, wrong) in NEEDED.items():
            with self.subTest(clause):
                searched = search(SCENES[name], Bounds(2), Rules(False, frozenset([clause])), to_first=True)
                self.assertIn(wrong, searched.found)
                log = searched.found[wrong]
                by_others = {broken.clause for broken in broken_in(log) if broken.actor == "p"}
                self.assertLessEqual({clause} - {"FreshNames"}, by_others, log.decode())
                self.assertNotIn("NotADirectory", by_others, log.decode())

    def test_bugs_are_found(self) -> None:
        for machines, name, wrong in [
            (TrustsItsName(), "flag", "it answers success without its effect"),
            (LinksEarly(), "deliver", BYTES),
            (GivesUpEarly(), "seen", "it answers Lost, which is not so"),
            (LooksInOnePlace(), "movecur", "it answers NotThere, which is not so"),
            (ForgetsFlags(), "flag", ALONE),
            (SaysMovedOnly(), "move", ALONE),
            (CountsAll(), "clean", "it answers Cleaned 2, which is not so"),
            (NeverGivesUp(), LARGE, "it breaks WrittenLate, which it owes"),
        ]:
            with self.subTest(type(machines).__name__):
                searched = search(SCENES[name], Bounds(1), Rules(True, machines=machines), to_first=True)
                self.assertIn(wrong, searched.found)


class Randomly(unittest.TestCase):
    def test_nothing_is_found(self) -> None:
        ran = random_runs.search(random_runs.Bounds(2, seed=7, clocks_apart=14400, share=0.2), Rules(False))
        self.assertEqual(ran.found, {})
        self.assertGreater(ran.counted["read"], 0)

    def test_what_is_found_is_made_small(self) -> None:
        ran = random_runs.search(random_runs.Bounds(30), Rules(True, machines=LinksEarly()), to_first=True)
        lines = [line for line in ran.found[BYTES].splitlines() if line[:1].isdigit()]
        self.assertLessEqual(len(lines), 5, ran.found[BYTES].decode())


class Command(RoomTest):
    def said(self, *words: str) -> tuple[int, str]:
        return ran(main, words)[:2]

    def test_it_says_what_it_did(self) -> None:
        status, said = self.said("--foreign", "1", "expunge", "copymove")
        self.assertEqual((status, said.splitlines()[1]), (0, "copymove: 30 states, 0 steps of others: nothing"))

    def test_it_prints_and_writes_the_smallest_log(self) -> None:
        log = self.room / "log"
        status, said = self.said("--without", "TwoNames", "--log", str(log), "expunge")
        self.assertEqual((status, said[said.index("maildir_log") :]), (1, log.read_text()))
        self.assertIn(f"# beside others that keep what they owe, but for TwoNames: {ALONE}\n", said)
        self.assertEqual(self.said("--without", "TwoNames", "--log", str(self.room), "expunge")[0], 2)
        with self.assertRaises(SystemExit):
            self.said("nowhere")

    @unittest.skipUnless(os.access(DEOLMUTT, os.X_OK), "deolmutt is not built")
    def test_the_judge_reads_what_is_printed(self) -> None:
        log = self.room / "log"
        for clause, scene in [("TwoNames", "expunge"), ("MovedBack", "movecur"), ("MadeAgain", "clean")]:
            with self.subTest(clause):
                self.said("--without", clause, "--log", str(log), scene)
                judged = subprocess.run([DEOLMUTT, "judge", log], capture_output=True, text=True, check=False)
                self.assertEqual((judged.returncode, judged.stderr), (1, ""))
                self.assertIn(": job1: ", judged.stdout)

    def test_it_runs_at_random(self) -> None:
        status, said = self.said("--random", "--seconds", "0.5")
        self.assertEqual(status, 0, said)
        self.assertIn("beside others that keep what they owe: nothing\nanswers: ", said)
