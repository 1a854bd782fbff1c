"""What a program asks of a world, and how a world answers.

Folders are numbered from 0. Unique names are those of maildir(5). `tries`, 1 to 16, says how often a
message is looked for where its name was gone when the call would have taken effect. Flags are letters.
"""

from __future__ import annotations

from enum import Enum
from typing import NamedTuple, Optional, Union

_TRIES = 2
_PIECE_BYTES = 65_536


class Deliver(NamedTuple):
    """Delivers a message by way of tmp, written in pieces of so many bytes, to new of a folder."""

    folder: int
    unique: str
    body: bytes
    piece: int = _PIECE_BYTES


class Seen(NamedTuple):
    """Takes a new message to cur, its flags joined by these."""

    folder: int
    unique: str
    flags: str = ""
    tries: int = _TRIES


class Flag(NamedTuple):
    """Adds and removes flags of a message in cur."""

    folder: int
    unique: str
    add: str = ""
    remove: str = ""
    tries: int = _TRIES


class Move(NamedTuple):
    """Takes a message to another folder: from new to new, and from cur to cur."""

    folder: int
    unique: str
    to: int
    tries: int = _TRIES


class Expunge(NamedTuple):
    """Removes a message of cur that has the flag T."""

    folder: int
    unique: str
    tries: int = _TRIES


class Copy(NamedTuple):
    """Gives a message a second name, in this folder or another. The two share one file."""

    folder: int
    unique: str
    to: int
    fresh: str
    tries: int = _TRIES


class Clean(NamedTuple):
    """Removes the files of tmp that have not been used for 36 hours."""

    folder: int


Call = Union[Deliver, Seen, Flag, Move, Expunge, Copy, Clean]


class Outcome(Enum):
    """How a job ended that took effect."""

    DELIVERED = "delivered"
    FLAGS = "flags"
    MOVED = "moved"
    EXPUNGED = "expunged"
    COPIED = "copied"
    CLEANED = "cleaned"


class Answer(NamedTuple):
    """How a job ended that took effect: the flags after a seen-move or a flag change, in order of
    their letters; how many files a clean removed."""

    outcome: Outcome
    flags: str = ""
    removed: int = 0


class Step(NamedTuple):
    """What one step of a job did: its directory call and the reply, in the words of the script
    language (docs/SCRIPT.md), and whether the job took effect by it."""

    call: str
    reply: str
    took_effect: bool


class Place(Enum):
    """The directory of a folder that a message is in."""

    NEW = "new"
    CUR = "cur"


class Entry(NamedTuple):
    """A message in a listing. Its size is in bytes."""

    place: Place
    name: str
    size: int

    @property
    def unique(self) -> str:
        """The message's unique name."""
        return self.name.partition(":")[0]

    @property
    def info(self) -> Optional[str]:
        """What stands after the first colon, or None where there is none."""
        _, colon, info = self.name.partition(":")
        return info if colon else None
