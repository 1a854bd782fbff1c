"""One side of a race: a program or Deolmutt, in every order of the steps."""

from __future__ import annotations

import json
from collections.abc import Hashable
from dataclasses import dataclass, field

from .words import Parts

# What comes of an order: nothing is lost; something is, or is not done, and a program says so; something is lost, and none says so.
GOOD, SAID, LOST = "good", "said", "lost"
PLACES = ("tmp", "new", "cur")


@dataclass
class Shown:
    """A step as a page shows it: who takes it, its words, its kind, notes, the paths after it, and its lines of the log."""

    who: str
    text: Parts
    kind: str
    notes: list[list[str]]
    paths: list[str]
    lines: list[str]


@dataclass
class Order:
    """One order of the steps: who takes them, what there is at the beginning, the steps, and what comes of it."""

    turns: str
    beginning: list[str]
    steps: list[Shown]
    outcome: str
    ending: str

    def overlaps(self) -> bool:
        """Whether each has taken a step before another is done."""
        return "".join(dict.fromkeys(self.turns)) != "".join(one for at, one in enumerate(self.turns) if self.turns[at - 1 : at] != one)


class Table:
    """Values, each kept once, by their numbers."""

    def __init__(self) -> None:
        self.numbers: dict[Hashable, int] = {}

    def number(self, value: object) -> int:
        """The number of a value that JSON can have."""
        return self.numbers.setdefault(json.dumps(value, ensure_ascii=False), len(self.numbers))

    def values(self) -> list[object]:
        """All values in order of their numbers."""
        return [json.loads(str(text)) for text in self.numbers]


@dataclass
class Side:
    """What one column of a page has."""

    who: str
    tag: str
    about: str
    actors: list[list[str]]
    folders: list[str]
    head: list[str]
    repeat: list[str]
    orders: list[Order] = field(default_factory=list)
    count: str = ""
    # What it loses, in one look: whether it loses something, and in which words.
    headline: tuple[str, str] = (GOOD, "")
    # Whether it is of a released program, by the log that is kept of it.
    is_kept: bool = False
    # The order with which the page opens.
    own: int = 0

    def counted(self, loss: str, late: str = "") -> str:
        """In how many orders something is lost, in words; and why it is in those in which the second begins late."""
        lost, said = ([order for order in self.orders if order.outcome == kind] for kind in (LOST, SAID))
        overlapping = [order for order in self.orders if order.overlaps()]
        parts = []
        if lost:
            parts.append(f"in {share(lost, self.orders)} {loss}")
            if 0 < len(overlapping) < len(self.orders):
                both = sum(order.overlaps() for order in lost)
                others = f"; in the others the second begins late, {late}" if late and both < len(lost) else ""
                parts[-1] += f" (in {both} of the {len(overlapping)} that overlap{others})"
        if said:
            done = "a job is not done" if not self.is_kept else "a program fails" if lost else loss
            parts.append(f"in {share(said, self.orders)} {done}, and says so")
        if not parts:
            parts.append(f"nothing is lost in {share(self.orders, self.orders)}")
        elif not self.is_kept:
            parts.append("in none is anything lost")
        text = "; ".join(parts)
        return f"{text[0].upper()}{text[1:]}."

    def worst(self) -> int:
        """The order that shows the most: one in which the two overlap, and something is lost that nobody is told of."""
        ranks = [((LOST, SAID, GOOD).index(order.outcome), not order.overlaps()) for order in self.orders]
        return min(range(len(ranks)), key=lambda at: ranks[at])

    def path(self, folder: str, place: str) -> str:
        """A directory as it is shown: without its folder where there is one alone, as in the sentences."""
        return f"{place}/" if len(self.folders) == 1 else f"{folder}/{place}/"

    def rows(self, paths: list[str]) -> list[list[list[str]]]:
        """The names in tmp, new and cur of each folder."""
        split = [path.split("/", 2) for path in paths]
        return [[[name for here, there, name in split if (here, there) == (folder, place)] for place in PLACES] for folder in self.folders]

    def data(self) -> dict[str, object]:
        """The side as the page has it. Steps and states that come in many orders are there once."""
        states, steps = Table(), Table()
        letters = [letter for letter, _ in self.actors]
        orders = []
        for order in self.orders:
            numbers = [
                steps.number([letters.index(step.who), step.text, step.kind, step.notes, states.number(self.rows(step.paths)), step.lines])
                for step in order.steps
            ]
            orders.append([order.turns, order.outcome, order.ending, states.number(self.rows(order.beginning)), numbers])
        return {
            "who": self.who,
            "tag": self.tag,
            "about": self.about,
            "actors": self.actors,
            "folders": self.folders,
            "head": self.head,
            "repeat": self.repeat,
            "count": self.count,
            "headline": self.headline,
            "outcome": min((order.outcome for order in self.orders), key=(LOST, SAID, GOOD).index),
            "own": self.own,
            "states": states.values(),
            "steps": steps.values(),
            "orders": orders,
        }


def share(some: list[Order], of: list[Order]) -> str:
    """So many of so many orders."""
    return f"{len(some)} of {len(of)} orders"
