"""Directories as a story has them: md_law's, with the bytes of files, and what the monitor keeps of all that was done in them."""

from __future__ import annotations

from typing import NamedTuple

from judge_lib.names import Path, unique_of
from law_lib.histories import At, Between, List, State, Step, refusal
from law_lib.histories import Call as Asked
from law_lib.monitor import Judged, Kept, is_message, kept_first, kept_next

from .calls import Mailbox, mailbox_of
from .machines import Row

FOLDERS = (b"a", b"b", b"c")


class World(NamedTuple):
    """Directories with the bytes of their files, the clock, what the monitor keeps, and the mailbox that they show."""

    state: State
    bodies: tuple[bytes, ...]
    now: int
    kept: Kept
    box: Mailbox

    def key(self) -> tuple[object, ...]:
        return (frozenset(self.state.names.items()), self.state.files, self.bodies, self.now, self.kept)

    def rows(self, asked: Asked) -> list[Row]:
        """What a listing reads."""
        if not isinstance(asked, List):
            return []
        there = [(p.name, n) for p, n in self.state.names.items() if (p.folder, p.place) == (asked.folder, asked.place)]
        return [Row(name, self.state.files[n] or 0) for name, n in sorted(there)]

    def has_one_path(self) -> bool:
        return len(self.box) == sum(map(is_message, self.state.names))


def world_of(image: list[tuple[Path, int]], now: int) -> World:
    """The directories of paths, each with the stamp of its file."""
    state = State({path: n for n, (path, _) in enumerate(image)}, tuple(stamp for _, stamp in image))
    files = tuple(b"i%d" % n for n in range(len(image)))
    return World(state, files, now, kept_first(state), mailbox_of(state.names, files))


def due(world: World, asked: Asked) -> str:
    """What the directories reply."""
    return (refusal(asked, world.state) or "ok") if isinstance(asked, (At, Between)) else "ok"


def answered(world: World, asked: Asked, reply: str) -> Asked:
    """The call with its reply, as a log has it."""
    if isinstance(asked, List):
        return asked._replace(reply=reply, shown=tuple(row.name for row in world.rows(asked)) if reply == "ok" else ())
    return asked._replace(reply=reply) if isinstance(asked, (At, Between)) else asked


def judged(world: World, actor: bytes, call: Asked) -> Judged:
    return Judged(world.state, world.now, world.kept, Step(world.now, actor, call))


def after(world: World, step: Judged, written: bytes) -> World:
    """The directories after a step, which may have left these bytes."""
    if isinstance(step.call, List):
        return world
    files = world.bodies + (b"",) * (len(step.after.files) - len(world.bodies))
    if step.written is not None:
        files = (*files[: step.written], files[step.written] + written, *files[step.written + 1 :])
    return World(step.after, files, world.now, kept_next(step), mailbox_of(step.after.names, files))


def used(path: Path) -> bytes:
    """The name that a path uses up."""
    return path.name if path.place == "tmp" else unique_of(path.name)


def brings_about(step: Judged, unique: bytes) -> bool:
    """A path of the name comes to be for a file that had none."""
    if step.named is None or used(step.named[0]) != unique:
        return False
    return not any(n == step.named[1] and used(p) == unique for p, n in step.s.names.items())
