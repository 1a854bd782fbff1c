"""What came of an order of released programs, as a reader is told of it."""

from __future__ import annotations

from collections.abc import Container, Mapping
from typing import Any, NamedTuple

from judge_lib.judge_run import SENTENCES

from .side import GOOD, LOST, SAID, Side
from .words import Directories

LETTERS = "AB"


class Loss(NamedTuple):
    """What is lost: as the count of orders says it, and what the program does."""

    counted: str
    done: str


# What is lost where a clause is broken. Those that come first are told first.
LOSSES = {
    "AnsweredFalsely": Loss("the status says what is not so", "says what is not so"),
    "Unlisted": Loss("the listing lacks a message that is there", "misses a message that is there"),
    "CleanedEarly": Loss("a delivery loses its file", "takes away what is being delivered"),
    "Gone": Loss("a message is gone that nobody wanted to delete", "deletes what nobody wanted to delete"),
}
FLAG = Loss("a flag is lost with status 0", "loses a flag")
FAILED = Loss(LOSSES["AnsweredFalsely"].counted, "delivers, and says that it failed")
OTHER = Loss("the law of a maildir is broken", "breaks the law of a maildir")
# By these a program tells its user what is not so, whatever its status is.
FALSE = ("AnsweredFalsely", "GaveUp")


class Names(NamedTuple):
    """What a page calls the programs of a race, with which status a program also ends where all is well, and why something is lost in
    orders in which the second begins late."""

    programs: tuple[str, ...]
    usual: Mapping[str, str] = {}
    late: str = ""

    def of(self, letter: str) -> str:
        """A program; with its letter, where both have one name."""
        name = self.programs[LETTERS.index(letter)]
        return f"{name} ({letter})" if self.programs.count(name) > 1 else name


def lines_of(kept: dict[str, Any], order: dict[str, Any]) -> list[str]:
    """The lines of an order."""
    return [kept["lines"][number] for number in order["lines"]]


def outcome_of(kept: dict[str, Any], order: dict[str, Any], names: Names, directories: Directories) -> tuple[str, str]:
    """What came of an order that left the directories so, and how a reader is told of it."""
    odd = [side for side, end in order["ends"].items() if end not in ("status 0", names.usual.get(side))]
    ended = [f"{names.of(side)} ended with {order['ends'][side]}." for side in odd]
    lines = lines_of(kept, order)
    broken = {clause: lines[at] for at, clause in reversed(order["broken"])}
    if not broken:
        return (SAID, f"Not done, and said: {' '.join(ended)}") if odd else (GOOD, "Nothing is lost.")
    clause = first_told(broken)
    told = loss(clause, broken[clause].split(" "), lines, names, directories)
    if not odd:
        ended = [f"{names.of(broken[clause][0])} ended with status 0."]
    return SAID if odd and not any(one in broken for one in FALSE) else LOST, " ".join([told, *ended])


def first_told(broken: Container[str]) -> str:
    """The clause of those that are broken that is told first."""
    return next(one for one in [*LOSSES, *SENTENCES] if one in broken)


def loss(clause: str, words: list[str], lines: list[str], names: Names, directories: Directories) -> str:
    """What is lost at a line that breaks a clause."""
    if clause == "AnsweredFalsely" and words[2] == "flags" and (missing := missing_flags(words[3], words[5], directories)):
        return f"The flag {missing} is lost."
    if clause == "AnsweredFalsely" and words[2] == "failed":
        return "The message is delivered, and who tries again delivers it twice."
    if clause == "Unlisted":
        shown = {name.partition(":")[0] for line in lines if line.startswith(f"{words[0]} list ") for name in line.split(" ")[5:]}
        lacking = sorted({unique_of(path) for path in directories.paths if "/tmp/" not in path} - shown)
        return f"The listing lacks {', '.join(lacking)}, which was there all the while."
    if clause == "CleanedEarly":
        return f"{names.of(words[0])} has taken away a file of tmp that was being delivered."
    if clause == "Gone":
        return f"{unique_of(words[2])} is gone, though its flags had no T."
    return f"{clause}: {SENTENCES[clause]}."


def missing_flags(claimed: str, unique: str, directories: Directories) -> str:
    """The flags that a message was said to have, and has not."""
    had = [path.partition(":2,")[2] for path in directories.paths if unique_of(path) == unique]
    return "".join(letter for letter in claimed if had and letter not in had[0])


def unique_of(path: str) -> str:
    """The unique part of a path's name."""
    return path.rpartition("/")[2].partition(":")[0]


def lost_in(kept: dict[str, Any], side: Side) -> str:
    """What is lost in the orders of a side, in one clause of a sentence."""
    if any(order.ending.startswith("The flag ") for order in side.orders):
        return FLAG.counted
    clauses = {clause for order in kept["orders"] for _, clause in order["broken"]}
    broken = OTHER.counted if clauses else "a program fails"
    return next((lost.counted for clause, lost in LOSSES.items() if clause in clauses), broken)


def headline_of(kept: dict[str, Any], side: Side, names: Names) -> tuple[str, str]:
    """What is lost in the worst order, and by whom."""
    order, shown = kept["orders"][side.own], side.orders[side.own]
    broken = {clause: lines_of(kept, order)[at] for at, clause in reversed(order["broken"])}
    all_names = " and ".join(dict.fromkeys(names.programs))
    if not broken:
        return shown.outcome, f"{all_names}: {'nothing is lost' if shown.outcome == GOOD else 'a program fails, and says so'}"
    clause = first_told(broken)
    letter, *words = broken[clause].split(" ")
    done = LOSSES.get(clause, OTHER)
    if clause == "AnsweredFalsely" and words[1] == "failed":
        done = FAILED
    if shown.ending.startswith("The flag "):
        done = FLAG
    return shown.outcome, f"{names.programs[LETTERS.index(letter)]} {done.done}"
