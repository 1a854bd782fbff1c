"""Random stories: up to so many jobs of ours, in three folders, beside three others. One that breaks a promise is made smaller."""

from __future__ import annotations

import time
from collections import Counter
from random import Random
from typing import NamedTuple, Optional

from judge_lib.names import Path, unique_of
from law_lib import clauses, owed
from law_lib.histories import At, Between
from law_lib.logs import findings

from .calls import Call, flagged
from .promises import TWO_PATHS, Story, may_break
from .stories import Deed, Foreign, Later, Own, Rules, new_story, take
from .telling import log_of
from .worlds import FOLDERS, world_of

KINDS = ("deliver", "deliver", "seen", "flag", "move", "copy", "expunge", "clean")
SECONDS = (1, 40000, 43200, 86400, 129600)


class Bounds(NamedTuple):
    """For how long, from which seed, at most how many jobs, by how much clocks differ, and which share is read by the definitions too."""

    seconds: float
    seed: int = 1
    jobs: int = 6
    clocks_apart: int = 0
    share: float = 0.03


class Ran(NamedTuple):
    """What was counted, and the shortest log of each thing that is wrong."""

    counted: Counter[str]
    found: dict[str, bytes]


def search(bounds: Bounds, rules: Rules, *, to_first: bool = False) -> Ran:
    counted, found, end = Counter[str](), dict[str, bytes](), time.monotonic() + bounds.seconds
    while time.monotonic() < end and not (to_first and found):
        counted["runs"] += 1
        run = Run(Random(f"{bounds.seed} {counted['runs']}"), bounds, rules)
        wrong = run.play(counted)
        if not wrong and run.random.random() < bounds.share:
            counted["read"] += 1
            wrong = by_definitions(log_of(run.first, run.deeds, rules), run.story, rules)
        for each in dict.fromkeys(wrong):
            log = log_of(run.first, _smaller(run.first, run.deeds, rules, each), rules)
            if each not in found or len(log) < len(found[each]):
                found[each] = log
    return Ran(counted, found)


class Run:
    """A run from a random beginning, with habits of its own: how often others act, how often calls of ours fail, whose clocks differ."""

    def __init__(self, random: Random, bounds: Bounds, rules: Rules) -> None:
        self.random, self.rules, self.deeds = random, rules, list[Deed]()
        self.names = [b"u", b"v", b"x"][: random.randint(1, 3)]
        image = [(self.path(name), random.choice((0, 0, 40000, 129600))) for name in self.names if random.random() < 0.75]
        calls = list[Call]()
        for number in range(random.randint(1, bounds.jobs)):
            calls.append(self.call([path for path, _ in image], b"d%d" % number))
            self.names += [made for made in [calls[-1].made()] if made]
        world = world_of(image, max([stamp for _, stamp in image], default=0))
        self.first = self.story = new_story(world, calls, rules.machines)
        self.others = (b"p", b"q", b"s")[: random.randint(1, 3)]
        self.foreign, self.faults = random.choice((0.2, 0.5, 0.7, 0.85)), random.choice((0, 0, 0.1))
        self.clocks, self.is_clean_behind = (0, 0, bounds.clocks_apart, -bounds.clocks_apart), random.random() < 0.5

    def path(self, unique: bytes, folder: bytes = b"") -> Path:
        place = self.random.choice(("tmp", "new", "cur", "cur"))
        is_flagged = self.random.random() < {"tmp": 0.05, "new": 0.15, "cur": 0.9}[place]
        name = flagged(unique, self.flags()) if self.random.random() < 0.93 else unique + b":1,x"
        return Path(folder or self.random.choice(FOLDERS), place, name if is_flagged else unique)

    def flags(self) -> frozenset[str]:
        return frozenset(each for each in "FST" if self.random.random() < 0.4)

    def call(self, there: list[Path], fresh: bytes) -> Call:
        """A call, half of the time on what is there."""
        kind, folder, unique = self.random.choice(KINDS), self.random.choice(FOLDERS), self.random.choice(self.names)
        if there and self.random.random() < 0.5:
            path = self.random.choice(there)
            folder, unique = path.folder, unique_of(path.name)
        call = Call(kind, folder, unique, self.random.randint(1, 2))
        if kind == "deliver":
            return call._replace(unique=fresh, body=self.random.choice((b"", b"x", b"xy", b"xyz")), chunk=self.random.randint(1, 2))
        if kind in ("move", "copy"):
            return call._replace(to=self.random.choice([each for each in FOLDERS if (kind, each) != ("move", folder)]), fresh=fresh)
        return call._replace(add=self.flags(), remove=self.flags() if kind == "flag" else frozenset())

    def play(self, counted: Counter[str]) -> tuple[str, ...]:
        """Plays up to what is wrong, and says what that is."""
        for _ in range(self.random.choice((20, 40, 70))):
            deed = self.deed()
            taken = take(self.story, deed, self.rules) if deed else None
            if deed is None or taken is None:
                continue
            self.deeds.append(deed)
            self.story = taken.story
            counted[type(deed).__name__.lower()] += 1
            if taken.job is not None and taken.answer is not None:
                counted[f"{taken.job.kind} {taken.answer.word}"] += 1
            # A message that gets two paths, by others that may do that, is what the jobs do next beside it.
            if set(taken.wrong) - ({TWO_PATHS} if self.rules.dropped else set()):
                return taken.wrong
        return ()

    def deed(self) -> Optional[Deed]:
        random, live = self.random, [number for number, job in enumerate(self.story.jobs) if job.answer is None]
        if random.random() < 0.04:
            return Later(random.choice(SECONDS))
        if random.random() < self.foreign:
            return self.foreign_step(random.choice(self.others), random.random())
        if not live:
            return None
        number, ahead = random.choice(live), random.choice(self.clocks)
        is_behind = self.is_clean_behind and self.story.jobs[number].call.kind == "clean"
        return Own(number, min(ahead, 0) if is_behind else ahead, random.random() < self.faults)

    def foreign_step(self, actor: bytes, chance: float) -> Foreign:
        """A step that some program might take: on a path that is there, or a new one."""
        random, there, new = self.random, sorted(self.story.world.state.names), [*self.names, b"f%d" % self.random.randint(1, 99)]
        if chance < 0.15 or not there:
            place = random.choice(("tmp", "tmp", "tmp", "new", "cur"))
            return Foreign(actor, At("create", Path(random.choice(FOLDERS), place, random.choice(new)), "ok"))
        path = random.choice(there)
        if chance < 0.31:
            return Foreign(actor, At("write", path, "ok" if chance < 0.27 else "fault"), random.choice((b"z", b"z", b"")))
        if chance < 0.43:
            return Foreign(actor, At("unlink", path, "ok"))
        unique = unique_of(path.name) if random.random() < 0.8 else random.choice(new)
        naming = "link" if random.random() < 0.4 else "rename"
        return Foreign(actor, Between(naming, path, self.path(unique, path.folder if random.random() < 0.65 else b""), "ok"))


def by_definitions(log: bytes, last: Story, rules: Rules) -> tuple[str, ...]:
    """What the definitions find in a log that the monitor and the promises find right."""
    lines, calls = log.splitlines(), {job.name: job.call for job in last.jobs}
    is_owed = {f"{clause}, which is owed": breaks for clause, breaks in owed.OWED.items()}
    wrong = []
    for number, clause in findings(log, {**clauses.LAW, **is_owed}):
        actor, word = lines[number - 1].split()[1], clause.partition(",")[0]
        if actor in calls and not may_break(last, calls[actor], word) and not _is_unsaid(last, calls[actor], clause):
            wrong.append(f"by the definitions a job breaks {clause}")
        if actor not in calls and (clause in is_owed and word in rules.rely(last) or clause == "NotADirectory"):
            wrong.append(f"by the definitions another breaks {clause}")
    return tuple(wrong)


def _is_unsaid(story: Story, call: Call, clause: str) -> bool:
    """Nothing is said of what a delivery owes with clocks far apart, nor of answers of what looks in both once what was read is in new."""
    if clause in ("GaveUp", "AnsweredFalsely"):
        return call.looks_in_both() and "MovedBack" in story.broken
    return call.kind == "deliver" and "apart" in story.broken and "," in clause


def _smaller(first: Story, deeds: list[Deed], rules: Rules, wrong: str) -> list[Deed]:
    """Fewer deeds, of which none can be left out so that the last is as wrong."""
    number = len(deeds) - 2
    while number >= 0:
        fewer = deeds[:number] + deeds[number + 1 :]
        if _ends_wrong(first, fewer, rules, wrong):
            deeds, number = fewer, len(fewer) - 1
        number -= 1
    return deeds


def _ends_wrong(story: Story, deeds: list[Deed], rules: Rules, wrong: str) -> bool:
    said: tuple[str, ...] = ()
    for deed in deeds:
        taken = take(story, deed, rules)
        if taken is None:
            return False
        story, said = taken.story, taken.wrong
    return wrong in said
