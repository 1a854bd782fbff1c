"""What a step is to the theorem: the mark that a page shows, and the clause of docs/THEOREM.md that the step is an instance of."""

from __future__ import annotations

from dataclasses import dataclass

from .play import Played, Step
from .scene import Scene

# Answers that come without an effect; what each tells is the clause `says`.
TELLING = {
    "lost": ("lost", "loses the race, with its last try"),
    "tmpgone": ("lost", "finds its file in tmp taken away"),
} | dict.fromkeys(("notthere", "nottrashed", "otherinfo", "timedout"), ("says", "ends without an effect"))


@dataclass(frozen=True)
class Mark:
    """A kind, which a page shows by colour and shape, its words, and the clause."""

    kind: str
    words: str
    clause: str


PLAIN = Mark("quiet", "", "quiet")


def marks_of(scene: Scene, played: Played) -> list[Mark]:
    """The mark of each step."""
    lost: set[int] = set()
    marks = []
    for step in played.steps:
        marks.append(mark_of(scene, step, step.actor in lost))
        if marks[-1].kind == "lost":
            lost.add(step.actor)
        else:
            lost.discard(step.actor)
    return marks


def mark_of(scene: Scene, step: Step, has_lost: bool) -> Mark:
    """The mark of a step, of an actor that lost a race at its last step or didn't."""
    actor = scene.actors[step.actor]
    verb = step.call.split(" ")[0]
    if actor.folder:
        return Mark("listing", "a half of the listing", "the listing law")
    if step.effect:
        return Mark("effect", "takes effect", "acts")
    if (told := step.answer.split(" ")[0]) in TELLING:
        return Mark(*TELLING[told], "says")
    if step.reply == "notfound":
        return missing_mark(step)
    if actor.call.startswith(b"clean") and verb == "unlink":
        return Mark("tmp", "takes an old file of tmp away", "in_tmp")
    if has_lost and verb == "list":
        return Mark("again", "looks again after the lost race", "quiet")
    return PLAIN


def missing_mark(step: Step) -> Mark:
    """The mark of a step whose name was gone, after which its job goes on. A name that is to go from tmp is of no message."""
    verb, path = step.call.split(" ")[:2]
    if verb == "unlink" and "/tmp/" in path:
        return Mark("quiet", "the name in tmp was gone already", "quiet")
    return Mark("lost", "loses the race: the name is gone", "quiet")
