"""How many interleavings a scene has, counted without playing each of them.

What follows a beginning depends on the directories and on what each job has learnt, which is its own calls and their replies: a job is told
nothing else, and the moments of its steps are in the script. So beginnings that agree in both go on in the same ways, and are counted as one
state. Each state is played on once by each actor that isn't done."""

from __future__ import annotations

from collections import Counter, deque

from .play import Played, Programs, Row, Step, play_logged
from .scene import Scene
from .tree import BATCH, Parting, actors_of, workers

# The most steps that are played to count. Where they don't suffice, what is counted is a lower bound.
MOST_STEPS = 100_000


class States:
    """The states that were come to, by numbers, and where the step of each actor leads from there; None where it was not played."""

    def __init__(self, scene: Scene) -> None:
        self.scene = scene
        self.numbers: dict[object, int] = {}
        self.after: dict[int, int] = {}
        self.ways: dict[int, dict[int, int | None]] = {}

    def number(self, value: object) -> int:
        """The number of a value."""
        return self.numbers.setdefault(value, len(self.numbers))

    def state(self, rows: tuple[Row, ...], learnt: list[int]) -> int:
        """The number of the state with these rows, where each actor has learnt so much."""
        return self.number((self.number(rows), *learnt))

    def learns(self, learnt: int, step: Step) -> int:
        """What an actor has learnt by a step. A reading shows it stamps and sizes too; a listing in halves only counts its steps."""
        if self.scene.actors[step.actor].folder:
            return self.number((learnt,))
        listed = step.rows if step.call.startswith("list ") else ()
        return self.number((learnt, step.call, step.reply, step.answer, listed))

    def add(self, played: Played) -> list[tuple[int, Parting]]:
        """Adds an interleaving, and gives the partings from its new states."""
        path, new = actors_of(played), []
        learnt = [self.number(())] * len(self.scene.actors)
        here, left = self.state(played.beginning, learnt), Counter(path)
        for at, step in enumerate(played.steps):
            if here not in self.ways:
                self.after[here], self.ways[here] = at, dict.fromkeys(left)
                new += [(here, Parting(path, at, other, frozenset(left))) for other in left if other != step.actor]
            learnt[step.actor] = self.learns(learnt[step.actor], step)
            self.ways[here][step.actor] = self.state(step.rows, learnt)
            here = self.ways[here][step.actor]
            left -= Counter([step.actor])
        return new

    def is_known(self, state: int, actor: int) -> bool:
        """Whether the actor's step was played there."""
        return self.ways[state][actor] is not None

    def count(self) -> int:
        """How many interleavings these are. A step that was not played has one at least."""
        counts: dict[int, int] = {}
        for state in sorted(self.ways, key=lambda one: -self.after[one]):
            counts[state] = sum(counts.get(to, 1) for to in self.ways[state].values())
        return counts[min(self.ways, key=lambda one: self.after[one])]


def count(programs: Programs, scene: Scene, found: list[Played], most_steps: int = MOST_STEPS) -> tuple[int, bool]:
    """How many interleavings there are, from some of them; and whether that is all, and not a lower bound."""
    states = States(scene)
    waiting = deque(one for played in found for one in states.add(played))
    with workers() as pool:
        while waiting and most_steps > 0:
            batch: list[Parting] = []
            while waiting and len(batch) < BATCH:
                state, parting = waiting.popleft()
                if not states.is_known(state, parting.other):
                    batch.append(parting)
            for played in pool.map(lambda one: play_logged(programs, scene, one.turns(), one.left), batch):
                most_steps -= len(played.steps)
                waiting.extend(states.add(played))
    return states.count(), all(states.is_known(state, parting.other) for state, parting in waiting)
