"""Every order in which commands can make their directory calls, one run after the other."""

from __future__ import annotations

from enum import Enum
from typing import List, NamedTuple, Protocol


class Went(Enum):
    """What came of telling a command to go on."""

    CALLED = "it made one directory call"
    ENDED = "it ended without a call"
    WAITS = "it made no call, and did not end"


class Commands(Protocol):
    """Commands that go on one call at a time, each named by a letter."""

    sides: str

    def has_ended(self, side: str) -> bool:
        """Whether a command has ended."""

    def go_on(self, side: str) -> Went:
        """Has a command make its next call, or end."""


class Choice(NamedTuple):
    """Which command went on, which others could have that come after it, and what came of it."""

    side: str
    others: str
    went: Went


class Played(NamedTuple):
    """A run: its choices, and the order of the calls, as in AAB."""

    choices: List[Choice]
    order: str
    waits: bool


def play(commands: Commands, prefix: str) -> Played:
    """Goes on as the prefix says, and after it with the first command that has not ended."""
    choices: List[Choice] = []
    while True:
        open_sides = [side for side in commands.sides if not commands.has_ended(side)]
        if not open_sides:
            return Played(choices, _order(choices), False)
        wanted = prefix[len(choices):len(choices) + 1]
        side = wanted if wanted in open_sides else open_sides[0]
        went = commands.go_on(side)
        choices.append(Choice(side, "".join(other for other in open_sides if other > side), went))
        if went is Went.WAITS:
            return Played(choices, _order(choices), True)


def branches(played: Played, prefix: str) -> List[str]:
    """The prefixes of the runs that part from this one after the prefix that it was played by, one for each place and other command.

    Begun with the run of no prefix, these and theirs are all runs, each once, and in any order. An end without a call could have come at
    any time: nothing parts there, and a command that has only its end left goes nowhere else.
    """
    sides = "".join(choice.side for choice in played.choices)
    calls = "".join(choice.side if choice.went is Went.CALLED else " " for choice in played.choices)
    return [sides[:at] + other for at, choice in enumerate(played.choices)
            if at >= len(prefix) and choice.went is Went.CALLED
            for other in choice.others if played.waits or other in calls[at:]]


def prefix_of(order: str) -> str:
    """The prefix by which an order of calls is played: each command ends right after its last call."""
    return "".join(side if side in order[at + 1:] else side * 2 for at, side in enumerate(order))


def _order(choices: List[Choice]) -> str:
    return "".join(choice.side for choice in choices if choice.went is Went.CALLED)
