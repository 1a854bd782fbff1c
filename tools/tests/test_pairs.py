"""Two errands on one message, in every order of their steps, beside a mailbox that knows nothing of steps and tries.

Each errand has to take effect, and be answered, as it would be alone at one moment; and what is left has to be what the mailbox has. The
programs that it plays by must be built."""

from __future__ import annotations

import unittest
from itertools import product
from typing import Dict, FrozenSet, Iterator, List, NamedTuple, Optional, Tuple

from shared import BUILT, CLI, DEOLMUTT

from races_lib.play import Played, Programs, Row, Step, play_whole
from races_lib.scene import Scene, read_line
from races_lib.tree import actors_of, interleavings

PROGRAMS = Programs(DEOLMUTT, CLI)
UNIQUE = "u"
# The fresh names, of the copy of each job.
FRESH = ("v", "w")
# The errands, and where they look for their message. Seen adds F; Flag adds R, and removes F and S.
PLACES = {"seen": ("new",), "flag": ("cur",), "expunge": ("cur",), "move": ("new", "cur"), "copy": ("new", "cur")}
CALLS = {
    "seen": "seen i u F {tries}",
    "flag": "flag i u R FS {tries}",
    "expunge": "expunge i u {tries}",
    "move": "move i u j {tries}",
    "copy": "copy i u j {fresh} {tries}",
}
# Where the message is at the beginning.
STARTS = ("new u", "cur u:2,ST", "cur u:2,F", "cur u:1,x")
MOST_ORDERS = 10_000


class Message(NamedTuple):
    """Where a message is, and what stands behind the colon of its name, where it has one."""

    folder: str
    place: str
    info: Optional[str]

    def flags(self) -> Optional[FrozenSet[str]]:
        """The letters behind `2,`; none without info, and nothing where the info is another."""
        if self.info is None:
            return frozenset()
        return frozenset(self.info[2:]) if self.info.startswith("2,") else None


# The messages by their unique names.
Mailbox = Dict[str, Message]


def alone(kind: str, mailbox: Mailbox, fresh: str) -> Tuple[str, Mailbox]:
    """What an errand is answered alone and at once, and the mailbox after it."""
    message = mailbox.get(UNIQUE)
    if not message or message.folder != "i" or message.place not in PLACES[kind]:
        return "notthere", mailbox
    flags = message.flags()
    if kind == "move":
        return "moved", {**mailbox, UNIQUE: message._replace(folder="j")}
    if kind == "expunge":
        if flags is None or "T" not in flags:
            return "nottrashed", mailbox
        return "expunged", {unique: other for unique, other in mailbox.items() if unique != UNIQUE}
    if flags is None:
        return "otherinfo", mailbox
    if kind == "copy":
        return "copied", {**mailbox, fresh: message._replace(folder="j")}
    return flagged(kind, mailbox, flags)


def flagged(kind: str, mailbox: Mailbox, flags: FrozenSet[str]) -> Tuple[str, Mailbox]:
    """The same of a Seen or a Flag. A Flag that changes no flag leaves the name as it is."""
    wanted = flags | {"F"} if kind == "seen" else (flags | {"R"}) - {"F", "S"}
    letters = "".join(sorted(wanted))
    answer = f"flags {letters or '-'}"
    if kind == "flag" and wanted == flags:
        return answer, mailbox
    return answer, {**mailbox, UNIQUE: Message("i", "cur", f"2,{letters}")}


def mailbox_of(rows: Tuple[Row, ...]) -> Mailbox:
    """What the rows of directories show of messages."""
    mailbox: Mailbox = {}
    for folder, place, name, *_ in rows:
        unique, colon, info = name.decode().partition(":")
        if place != b"tmp":
            assert unique not in mailbox, f"{unique} is there twice"
            mailbox[unique] = Message(folder.decode(), place.decode(), info if colon else None)
    return mailbox


class Watch:
    """Two jobs as they are played: the mailbox at each moment, and the moment of each job's first step."""

    def __init__(self, kinds: Tuple[str, str], tries: int, beginning: Mailbox) -> None:
        self.kinds, self.tries = kinds, tries
        self.mailboxes: List[Mailbox] = [beginning]
        self.begun: Dict[int, int] = {}

    def wrong(self, step: Step) -> Optional[str]:
        """What is wrong with the next step, if something is."""
        mailbox, kind, fresh = self.mailboxes[-1], self.kinds[step.actor], FRESH[step.actor]
        self.begun.setdefault(step.actor, len(self.mailboxes) - 1)
        answer, after = alone(kind, mailbox, fresh) if step.effect else (step.answer, mailbox)
        shown = mailbox_of(step.rows)
        is_lawful = step.answer == answer if step.effect else not step.answer or self.is_right(step)
        self.mailboxes.append(shown)
        if not is_lawful:
            return f"{kind} answers {step.answer!r}, and takes effect: {step.effect!r}"
        return None if shown == after else f"{kind} leaves {shown}, and not {after}"

    def is_right(self, step: Step) -> bool:
        """Whether an answer without an effect is one that the call gets alone at some moment since its first step; or Lost, with one try, where
        the other job touched the message since then."""
        since = self.mailboxes[self.begun[step.actor] :]
        if step.answer == "lost":
            return self.tries == 1 and any(mailbox.get(UNIQUE) != since[0].get(UNIQUE) for mailbox in since)
        return any(alone(self.kinds[step.actor], mailbox, FRESH[step.actor])[0] == step.answer for mailbox in since)


def scene_of(start: str, kinds: Tuple[str, str], tries: int) -> Scene:
    """Two errands on one message."""
    calls = [CALLS[kind].format(tries=tries, fresh=fresh) for kind, fresh in zip(kinds, FRESH)]
    lines = ["folder i", "folder j", f"file i {start} 0", *(f"job {call}" for call in calls), "finish 1 1", "finish 2 1"]
    scene = Scene(f"{start}, {kinds}, {tries}", "", [], [], [line.encode() for line in lines])
    for line in scene.whole:
        read_line(scene, line)
    return scene


def wrongs(kinds: Tuple[str, str], tries: int, played: Played) -> Iterator[str]:
    """What is wrong with an order of steps."""
    watch = Watch(kinds, tries, mailbox_of(played.beginning))
    for step in played.steps:
        wrong = watch.wrong(step)
        if wrong:
            yield wrong
    if sum(bool(step.answer) for step in played.steps) != 2:
        yield "a job has no answer"


def orders_of(scene: Scene) -> List[Played]:
    """Every order of the steps of a scene."""
    found, has_more = interleavings(PROGRAMS, scene, actors_of(play_whole(PROGRAMS, scene)), MOST_ORDERS)
    assert not has_more, scene.name
    return found


@unittest.skipUnless(BUILT, "the programs aren't built")
class Pairs(unittest.TestCase):
    def test_every_two_errands_meet(self) -> None:
        orders = 0
        for start, first, second, tries in product(STARTS, CALLS, CALLS, (1, 2)):
            with self.subTest(start=start, first=first, second=second, tries=tries):
                found = orders_of(scene_of(start, (first, second), tries))
                for played in found:
                    self.assertEqual(list(wrongs((first, second), tries, played)), [], actors_of(played))
                orders += len(found)
        self.assertEqual(orders, 1192)


class Watching(unittest.TestCase):
    """What is wrong is seen: steps that no store takes."""

    BEFORE = ((b"i", b"cur", b"u:2,S", b"0", b"0"),)
    AFTER = ((b"i", b"cur", b"u:2,R", b"0", b"0"),)

    def wrong(self, steps: List[Step]) -> List[str]:
        return list(wrongs(("flag", "expunge"), 2, Played(self.BEFORE, steps)))

    def test_a_lawful_order_passes(self) -> None:
        flag = Step(0, "rename", "ok", effect="rename", answer="flags R", rows=self.AFTER)
        expunge = Step(1, "list", "ok", answer="nottrashed", rows=self.AFTER)
        self.assertEqual(self.wrong([flag, expunge]), [])

    def test_another_answer_another_name_and_an_effect_twice_are_told(self) -> None:
        rows = self.AFTER
        for step in (
            Step(0, "rename", "ok", effect="rename", answer="flags RS", rows=rows),
            Step(0, "rename", "ok", effect="rename", answer="flags R", rows=self.BEFORE),
            Step(0, "rename", "ok", answer="flags R", rows=rows),
            Step(0, "rename", "notfound", answer="lost", rows=self.BEFORE),
        ):
            with self.subTest(step):
                self.assertNotEqual(self.wrong([step, Step(1, "list", "ok", answer="nottrashed", rows=step.rows)]), [])

    def test_a_job_without_an_answer_is_told(self) -> None:
        self.assertEqual(self.wrong([]), ["a job has no answer"])
