"""What docs/LAW.md promises of each job of a story, as md_beside's Jobs has it: each function says what of it a step breaks."""

from __future__ import annotations

from typing import NamedTuple, Optional

from judge_lib.names import Path
from law_lib import monitor
from law_lib.histories import At, List
from law_lib.histories import Call as Asked

from .calls import Answer, Call, alone
from .machines import OLD, After, Row, Stage
from .worlds import World

TWO_PATHS = "a message has two paths"
UNTIMELY = frozenset({"MadeAgain", "WrittenLate", "ahead", "apart"})


class Job(NamedTuple):
    """A job of ours, and what of its span its promise speaks of."""

    name: bytes
    call: Call
    stage: Stage
    answer: Optional[Answer] = None
    effect: Optional[Answer] = None
    # by its own clock, its earliest step; whether a later one came after 24 hours; whether a call of its own failed
    began: Optional[int] = None
    is_late: bool = False
    is_faulted: bool = False
    # what the call alone would have been answered at moments of its span, of what means that nothing is done
    could: frozenset[str] = frozenset()
    # how often others took its message away, at most as often as it has tries, and whether one took its file in tmp
    taken: int = 0
    is_tmp_taken: bool = False
    # of a clean: the names that it has to unlink yet, how many it took, and whether it took a step that it had not to
    left: tuple[bytes, ...] = ()
    cleaned: int = 0
    is_astray: bool = False


class Story(NamedTuple):
    """Directories, jobs, and what was so far that not all is promised beside: clauses that others broke, clocks, young files taken."""

    world: World
    jobs: tuple[Job, ...]
    broken: frozenset[str] = frozenset()

    def key(self) -> tuple[object, ...]:
        return (self.world.key(), self.jobs, self.broken)

    def is_timely(self) -> bool:
        return self.broken.isdisjoint(UNTIMELY)

    def is_sparing(self) -> bool:
        return "CleanedEarly" not in self.broken and (self.is_timely() or "young" not in self.broken)


def at_moment(before: World, story: Story) -> tuple[str, ...]:
    """No message has two paths, and one that was delivered is whole."""
    wrong: tuple[str, ...] = () if story.world.has_one_path() or not before.has_one_path() else (TWO_PATHS,)
    for job in story.jobs:
        entry = story.world.box.get(job.call.unique) if job.call.kind == "deliver" and job.began is not None else None
        if entry is not None and entry.body != job.call.body:
            wrong += ("a message that was delivered has other bytes than the body",)
    return wrong


def at_step(job: Job, gone: After, before: World, now: World) -> tuple[str, ...]:
    """A step is the effect of its call alone, or leaves the mailbox as it was."""
    if gone.effect is None:
        return () if now.box == before.box else ("a step that is no effect changes the mailbox",)
    wrong: tuple[str, ...] = ("it takes effect twice",) if job.effect is not None else ()
    return wrong if alone(job.call, before.box) == (gone.effect, now.box) else (*wrong, "its effect is not that of the call alone")


def of_clauses(story: Story, call: Call, owed: frozenset[str], law: frozenset[str]) -> tuple[str, ...]:
    """It breaks no clause of the law but those that it may break, and does what it owes."""
    untimely = call.kind == "clean" and not story.is_timely()
    wrong = tuple(f"it breaks {clause} of the law" for clause in monitor.LAW if clause in law and not may_break(story, call, clause))
    if call.kind == "deliver" and "apart" in story.broken or untimely and "CleanedEarly" in owed:
        return wrong
    return wrong + tuple(f"it breaks {clause}, which it owes" for clause in monitor.OWED if clause in owed)


def clean_on(job: Job, call: Asked, own: int, rows: list[Row]) -> Job:
    """A clean after a step: it lists tmp, and then unlinks each name whose file was old there, once and in order."""
    if job.began is None and isinstance(call, List) and call[:3] == (job.call.folder, "tmp", "ok"):
        return job._replace(left=tuple(row.name for row in rows if own - row.stamp >= OLD))
    if job.began is None or not job.left or not isinstance(call, At) or call.reply not in ("ok", "notfound"):
        return job._replace(is_astray=True)
    is_next = call[:2] == ("unlink", Path(job.call.folder, "tmp", job.left[0]))
    return job._replace(left=job.left[1:], cleaned=job.cleaned + (call.reply == "ok"), is_astray=job.is_astray or not is_next)


def may_break(story: Story, call: Call, clause: str) -> bool:
    return {
        "NotFlushed": call.kind == "deliver", "Unlisted": call.looks_in_both(),
        "UsedAgain": call.kind == "move" and "UsedTwice" in story.broken, "CleanedEarly": call.kind == "clean" and not story.is_timely(),
    }.get(clause, False)  # fmt: skip


def of_answer(story: Story, job: Job) -> tuple[str, ...]:
    """Success is its one effect, and any other answer comes without one and is so."""
    assert job.answer is not None
    if job.answer.is_success():
        return () if job.effect == job.answer else ("it answers success without its effect",)
    wrong: tuple[str, ...] = () if job.effect is None else ("it takes effect and answers no success",)
    if job.answer.word == "TmpGone" and "apart" not in story.broken and story.is_sparing():
        wrong += ("it answers TmpGone, beside others that leave young files",)
    if job.call.looks_in_both() and "MovedBack" in story.broken or _is_so(job, job.answer.word):
        return wrong
    return (*wrong, f"it answers {job.answer}, which is not so")


def _is_so(job: Job, word: str) -> bool:
    is_delivery = job.call.kind == "deliver"
    return {
        "Lost": job.call.kind not in ("deliver", "clean") and job.taken >= job.call.tries, "TimedOut": is_delivery and job.is_late,
        "TmpGone": is_delivery and job.is_tmp_taken, "Fault": job.is_faulted,
        "Cleaned": job.call.kind == "clean" and not job.is_astray and not job.left and job.answer == Answer("Cleaned", files=job.cleaned),
    }.get(word, word in job.could)  # fmt: skip
