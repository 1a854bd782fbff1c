"""A script as a scene: what there is at the beginning, and who takes steps at which moments."""

from __future__ import annotations

import os
from dataclasses import dataclass, field
from pathlib import Path

from judge_lib.refused import Refused

MOST_ACTORS = 3


@dataclass
class Actor:
    """A job, or a listing in two halves. Its moments are those of its steps in the script; the last holds for all further ones."""

    name: str
    call: bytes
    number: int = 0
    moments: list[bytes] = field(default_factory=list)
    folder: bytes = b""

    def steps_from(self, done: int) -> list[bytes]:
        """The lines that take all further steps, after so many."""
        if self.folder:
            return [b"first " + self.folder, b"second " + self.folder][done:]
        left = self.moments[done:] or self.moments[-1:]
        while len(left) > 1 and left[-2] == left[-1]:
            left = left[:-1]
        return [b"step %d %s" % (self.number, moment) for moment in left[:-1]] + [b"finish %d %s" % (self.number, left[-1])]

    def step(self, done: int) -> bytes:
        """The line that takes one step, after so many."""
        if self.folder:
            return self.steps_from(done)[0]
        return b"step %d %s" % (self.number, self.moments[min(done, len(self.moments) - 1)])


@dataclass
class Scene:
    """What a script sets up, and its own order of steps."""

    name: str
    about: str
    head: list[bytes]
    actors: list[Actor]
    whole: list[bytes]

    def folders(self) -> list[bytes]:
        """The folders, in their order."""
        return [line.split(b" ")[1] for line in self.head if line.startswith(b"folder ")]


def shown(text: bytes) -> str:
    """Bytes as text; what is no UTF-8 is shown by its numbers."""
    return text.decode("utf-8", "backslashreplace")


def read_scene(file: Path, fewest: int = 2) -> Scene:
    """The scene of a script with `fewest` to three jobs, listings among them."""
    try:
        lines = [line.removesuffix(b"\r") for line in file.read_bytes().split(b"\n")]
    except OSError as error:
        raise Refused(f"{file} cannot be read: {error.strerror}") from None
    about = " ".join(shown(line[1:]).strip() for line in lines if line.startswith(b"#"))
    scene = Scene(shown(os.fsencode(file.stem)), about, [], [], [line for line in lines if line and not line.startswith(b"#")])
    for line in scene.whole:
        read_line(scene, line)
    check_actors(file, scene.actors, fewest)
    return scene


def read_line(scene: Scene, line: bytes) -> None:
    """What a line adds to a scene. Whether it is right is for the program to say."""
    words = line.split(b" ")
    if words[0] in (b"folder", b"file"):
        scene.head.append(line)
    elif words[0] == b"job":
        number = 1 + sum(not actor.folder for actor in scene.actors)
        scene.actors.append(Actor(f"job {number}", line.removeprefix(b"job "), number))
    elif words[0] in (b"step", b"finish"):
        for actor in scene.actors:
            if int(words[1]) == actor.number:
                actor.moments.append(b" ".join(words[2:]))
    elif words[0] == b"first" and all(actor.folder != words[1] for actor in scene.actors):
        others = sum(bool(actor.folder) for actor in scene.actors)
        scene.actors.append(Actor(f"listing {others + 1}" if others else "listing", b"first and second " + words[1], folder=words[1]))


def check_actors(file: Path, actors: list[Actor], fewest: int) -> None:
    """Refuses a scene that has no race, or too many at once."""
    if not fewest <= len(actors) <= MOST_ACTORS:
        raise Refused(f"{file}: a race takes two or three jobs or listings, and the script has {len(actors) or 'none'}")
    for actor in actors:
        if not actor.folder and not actor.moments:
            raise Refused(f"{file}: {actor.name} takes no step in the script, so its moment isn't known")
