"""Stories: directories, jobs of ours at work in them, and their steps and those of others. md_beside's Story and Beside."""

from __future__ import annotations

from typing import NamedTuple, Optional, Union

from judge_lib.names import unique_of
from law_lib import monitor
from law_lib.histories import Call as Asked
from law_lib.monitor import Judged, is_message

from . import promises
from .calls import Answer, Call, alone
from .machines import DAY, After, Machines
from .promises import Job, Story
from .worlds import World, after, answered, brings_about, due, judged

# What is owed to every job, and to deliveries; and what is told of a story if others need not keep it.
TO_JOBS, TO_DELIVERIES = frozenset({"TwoNames", "InTwoFolders"}), frozenset({"Mixed", "NamedByAnother"})
TOLD = frozenset({"MadeAgain", "WrittenLate", "CleanedEarly", "MovedBack", "UsedTwice"})
UNDONE = frozenset({"NotThere", "NotTrashed", "OtherInfo"})
NEAR = 14400


class Rules(NamedTuple):
    """What others keep of what they owe, all or what the calls rely on in any case, but for what is dropped; and the machines of jobs.

    Where others break a clause that is dropped, the promises are held to as if they had kept it."""

    keeps_all: bool = True
    dropped: frozenset[str] = frozenset()
    machines: Machines = Machines()

    def rely(self, story: Story) -> frozenset[str]:
        deliveries = TO_DELIVERIES if any(job.call.kind == "deliver" for job in story.jobs) else frozenset[str]()
        return (frozenset(monitor.OWED) if self.keeps_all else TO_JOBS | deliveries) - self.dropped


class Own(NamedTuple):
    """The next step of a job, by a clock that is so far ahead; its call may fail."""

    number: int
    ahead: int = 0
    is_faulted: bool = False


class Foreign(NamedTuple):
    """A step of another, with its reply, and what it writes."""

    actor: bytes
    call: Asked
    written: bytes = b""


class Later(NamedTuple):
    """So many seconds go by."""

    seconds: int


Deed = Union[Own, Foreign, Later]


class Taken(NamedTuple):
    """What a deed came to: the story after it, and of a step its call and reply, the job's answer, and the promises that it breaks."""

    story: Story
    actor: bytes = b""
    call: Optional[Asked] = None
    job: Optional[Call] = None
    answer: Optional[Answer] = None
    wrong: tuple[str, ...] = ()


def new_story(world: World, calls: list[Call], machines: Machines) -> Story:
    return Story(world, tuple(Job(b"job%d" % (n + 1), call, machines.first(call)) for n, call in enumerate(calls)))


def take(story: Story, deed: Deed, rules: Rules) -> Optional[Taken]:
    """Does the deed, if there is such a step, and it breaks nothing that others keep."""
    if isinstance(deed, Own):
        return _own(story, deed, rules.machines) if story.jobs[deed.number].answer is None else None
    if isinstance(deed, Foreign):
        return _foreign(story, deed, rules)
    return Taken(story._replace(world=story.world._replace(now=story.world.now + deed.seconds)))


def _foreign(story: Story, deed: Foreign, rules: Rules) -> Optional[Taken]:
    step = judged(story.world, deed.actor, deed.call)
    if due(story.world, deed.call) != "ok" or step.named is None and step.taken is None and step.written is None:
        return None
    made = [job.call.made() for job in story.jobs]
    is_fresh = "FreshNames" in rules.dropped or not any(unique is not None and brings_about(step, unique) for unique in made)
    broken = frozenset(step.broken(monitor.OWED)) if is_fresh else frozenset[str]()
    if not is_fresh or not broken.isdisjoint(rules.rely(story)):
        return None
    world = after(story.world, step, deed.written)
    new = Story(world, _seen_by_all(story.jobs, step, world, None), story.broken | (broken & TOLD - rules.dropped))
    return Taken(new, deed.actor, deed.call, wrong=promises.at_moment(story.world, new))


def _own(story: Story, deed: Own, machines: Machines) -> Taken:
    world, job, own = story.world, story.jobs[deed.number], max(0, story.world.now + deed.ahead)
    asked, written = machines.asks(job.call, job.stage, own)
    reply = "fault" if deed.is_faulted else due(world, asked)
    gone = machines.follows(job.call, job.stage, own, asked, reply, world.rows(asked))
    step = judged(world, job.name, answered(world, asked, reply))
    then = after(world, step, b"" if deed.is_faulted else written)
    job = promises.clean_on(job, step.call, own, world.rows(asked)) if job.call.kind == "clean" else job
    moved = _moved_on(job, gone, own, deed.is_faulted, UNDONE & {alone(job.call, world.box)[0].word})
    jobs = _seen_by_all((*story.jobs[: deed.number], moved, *story.jobs[deed.number + 1 :]), step, then, deed.number)
    law = frozenset(step.broken(monitor.LAW))
    new = Story(then, jobs, story.broken | _of_clocks(job.call, own - world.now) | ({"young"} if "CleanedEarly" in law else set()))
    wrong = promises.at_moment(world, new) + promises.at_step(job, gone, world, then)
    wrong += promises.of_clauses(new, job.call, frozenset(step.broken(monitor.OWED)), law)
    wrong += promises.of_answer(new, jobs[deed.number]) if gone.answer else ()
    return Taken(new, job.name, step.call, job.call, gone.answer, wrong)


def _of_clocks(call: Call, ahead: int) -> set[str]:
    return ({"apart"} if abs(ahead) > NEAR else set()) | ({"ahead"} if call.kind == "clean" and ahead > 0 else set())


def _moved_on(job: Job, gone: After, own: int, is_faulted: bool, could: frozenset[str]) -> Job:
    began = own if job.began is None else job.began
    return job._replace(
        stage=gone.stage, answer=gone.answer, effect=job.effect or gone.effect, began=min(began, own),
        is_late=job.is_late or own - began >= DAY, is_faulted=job.is_faulted or is_faulted, could=job.could | could,
    )  # fmt: skip


def _seen_by_all(jobs: tuple[Job, ...], step: Judged, world: World, own: Optional[int]) -> tuple[Job, ...]:
    """The jobs, after a step of one of them or of another that may lie in their spans."""
    if step.named is None and step.taken is None and step.written is None:
        return jobs
    return tuple(_seen_by(job, step, world, n == own) for n, job in enumerate(jobs))


def _seen_by(job: Job, step: Judged, world: World, is_own: bool) -> Job:
    """A job, with what it would be answered alone after a step in its span, and what others took from it by that."""
    if job.began is None or job.answer is not None and not is_own:
        return job
    job = job._replace(could=job.could | UNDONE & {alone(job.call, world.box)[0].word})
    if is_own or step.taken is None:
        return job
    path, unique = step.taken[0], job.call.unique
    taken = min(job.taken + (is_message(path) and unique_of(path.name) == unique), job.call.tries)
    return job._replace(taken=taken, is_tmp_taken=job.is_tmp_taken or (path.place, path.name) == ("tmp", unique))
