"""Every story of a scene with so many steps of another, the shortest first."""

from __future__ import annotations

import time
from collections import deque
from collections.abc import Iterator
from typing import NamedTuple, Optional

from judge_lib.names import Path
from law_lib.histories import At, Between
from law_lib.histories import Call as Asked

from .promises import TWO_PATHS, Story
from .scenes import Scene
from .stories import Deed, Foreign, Later, Own, Rules, new_story, take
from .telling import log_of
from .worlds import World

HALF_A_DAY, MOST_BYTES = 43200, 4


class Bounds(NamedTuple):
    """How far a search goes: steps of others, calls of ours that fail, by how much clocks differ, and until when."""

    foreign: int = 3
    faults: int = 0
    clocks_apart: int = 0
    end: float = float("inf")


class Left(NamedTuple):
    """How many steps of others, failures of ours, and times of twelve hours are left."""

    foreign: int
    faults: int
    ticks: int


class Node(NamedTuple):
    """A story that was come to, what it has left, and the node and the deed before it."""

    story: Story
    left: Left
    parent: Optional[Node] = None
    deed: Optional[Deed] = None

    def deeds(self) -> list[Deed]:
        before = self.parent.deeds() if self.parent else []
        return before + ([self.deed] if self.deed else [])


class Searched(NamedTuple):
    """What a search saw: states, steps of others, whether all, and the shortest log of each thing that is wrong."""

    states: int
    foreign: int
    is_whole: bool
    found: dict[str, bytes]


def search(scene: Scene, bounds: Bounds, rules: Rules, *, to_first: bool = False) -> Searched:
    """All stories of a scene; or up to the first counterexample but a message with two paths, which ends no story."""
    first = Node(new_story(scene.world(), scene.calls, rules.machines), Left(bounds.foreign, bounds.faults, scene.ticks))
    queue, seen, found, states, foreign = deque([first]), {(first.story.key(), first.left)}, dict[str, bytes](), 0, 0
    while queue and time.monotonic() < bounds.end and not (to_first and set(found) - {TWO_PATHS}):
        node, states = queue.popleft(), states + 1
        for deed, left in _deeds(node, scene, bounds):
            taken = take(node.story, deed, rules)
            if taken is None:
                continue
            then, foreign = Node(taken.story, left, node, deed), foreign + isinstance(deed, Foreign)
            for wrong in taken.wrong:
                found[wrong] = found.get(wrong) or log_of(first.story, then.deeds(), rules)
            key = (taken.story.key(), left)
            if set(taken.wrong) <= {TWO_PATHS} and key not in seen:
                seen.add(key)
                queue.append(then)
    return Searched(states, foreign, not queue, found)


def _deeds(node: Node, scene: Scene, bounds: Bounds) -> Iterator[tuple[Deed, Left]]:
    """What may come next, and what is left then."""
    left = node.left
    for number, job in enumerate(node.story.jobs):
        for ahead in sorted({0, -bounds.clocks_apart, bounds.clocks_apart}) if job.call.kind in ("deliver", "clean") else [0]:
            yield Own(number, ahead), left
            if left.faults:
                yield Own(number, ahead, True), left._replace(faults=left.faults - 1)
    if left.foreign:
        for call, written in foreign_calls(node.story.world, scene.names()):
            yield Foreign(b"p", call, written), left._replace(foreign=left.foreign - 1)
    if left.ticks:
        yield Later(HALF_A_DAY), left._replace(ticks=left.ticks - 1)


def foreign_calls(world: World, paths: list[Path]) -> Iterator[tuple[Asked, bytes]]:
    """The calls of others on these paths that change something, and what each writes."""
    names = world.state.names
    for path in paths:
        if path not in names:
            yield At("create", path, "ok"), b""
            continue
        if len(world.bodies[names[path]]) < MOST_BYTES:
            yield At("write", path, "ok"), b"z"
            yield At("write", path, "fault"), b"z"
        yield At("unlink", path, "ok"), b""
        for other in paths:
            if other not in names:
                yield Between("link", path, other, "ok"), b""
            if names.get(other) != names[path]:
                yield Between("rename", path, other, "ok"), b""
