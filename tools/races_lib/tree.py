"""All interleavings of a scene."""

from __future__ import annotations

import os
from collections import Counter, deque
from collections.abc import Iterator
from concurrent.futures import ThreadPoolExecutor
from itertools import islice
from typing import NamedTuple

from .play import Played, Programs, play
from .scene import Scene

# How many are played side by side before the next are chosen, so that what is taken does not depend on who is done first.
BATCH = 32


class Parting(NamedTuple):
    """A beginning that parts from an interleaving after so many steps: there another actor takes the next one, of those that are left."""

    path: list[int]
    after: int
    other: int
    left: frozenset[int]

    def turns(self) -> list[int]:
        """Who takes its steps."""
        return [*self.path[: self.after], self.other]


def workers() -> ThreadPoolExecutor:
    """As many threads as there are processors to play on."""
    return ThreadPoolExecutor(min(4, len(os.sched_getaffinity(0))))


def actors_of(played: Played) -> list[int]:
    """Who took each step."""
    return [step.actor for step in played.steps]


def partings(played: Played, after: int) -> Iterator[Parting]:
    """The beginnings that part from an interleaving after so many steps or more, by an actor that isn't done."""
    path = actors_of(played)
    left = Counter(path[after:])
    for at in range(after, len(path)):
        yield from (Parting(path, at, other, frozenset(left)) for other in sorted(left) if other != path[at])
        left[path[at]] -= 1
        if not left[path[at]]:
            del left[path[at]]


def interleavings(programs: Programs, scene: Scene, own: list[int], most: int) -> tuple[list[Played], bool]:
    """All interleavings in order of who takes the steps, at most so many; and whether there are more.

    A process plays each. How many steps a job takes depends on the path, so each interleaving says which others part from it. The first
    is the script's own; where there are too many, those are taken that part from it the fewest times."""
    found = [play(programs, scene, own)]
    waiting = deque(islice(partings(found[0], 0), most))
    with workers() as pool:
        while waiting and len(found) < most:
            batch = [waiting.popleft() for _ in range(min(BATCH, len(waiting), most - len(found)))]
            for parting, played in zip(batch, pool.map(lambda one: play(programs, scene, one.turns(), one.left), batch)):
                found.append(played)
                waiting.extend(islice(partings(played, parting.after + 1), max(0, most + 1 - len(found) - len(waiting))))
    return sorted(found, key=actors_of), bool(waiting)
