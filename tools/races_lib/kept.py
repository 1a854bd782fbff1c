"""What a released program did in a race, of the file that is kept of it."""

from __future__ import annotations

import json
import re
from collections.abc import Iterator
from pathlib import Path
from typing import Any, NamedTuple

from judge_lib.judge_run import SENTENCES
from judge_lib.refused import Refused

from .losses import Names, headline_of, lines_of, lost_in, outcome_of
from .side import Order, Shown, Side
from .words import Act, Directories, Parts, sentence

KEPT = Path(__file__).resolve().parent.parent / "races.d"
MOST_LINES = 3


class Line(NamedTuple):
    """A step of an order: its lines in the log, and the clauses that it breaks."""

    lines: list[str]
    broken: list[str]


def read_kept(name: str) -> dict[str, Any]:
    """What is kept of a scene."""
    try:
        return json.loads((KEPT / f"{name}.json").read_text(encoding="utf-8"))
    except OSError as error:
        raise Refused(f"{name}: nothing is kept of it ({error.strerror}): tools/races --record {name}") from None


def side_of(kept: dict[str, Any], names: Names) -> Side:
    """The side of a page that shows what is kept."""
    folders = [line.split(" ")[1] for line in kept["head"] if line.startswith("folder ")]
    first = [line.split(" ")[1] for line in kept["head"] if not line.startswith("folder ")]
    side = Side(
        who=kept["program"],
        tag=f"{kept['package']}, as recorded",
        about=kept["ran"],
        actors=[[letter, command] for letter, command in kept["commands"].items()],
        folders=folders,
        head=["maildir_log 1", *kept["head"]],
        repeat=kept["repeat"],
        is_kept=True,
    )
    for order in kept["orders"]:
        side.orders.append(order_of(kept, order, names, Directories(folders, dict.fromkeys(first))))
    side.own = side.worst()
    side.count = side.counted(lost_in(kept, side), names.late)
    side.headline = headline_of(kept, side, names)
    return side


def order_of(kept: dict[str, Any], order: dict[str, Any], names: Names, directories: Directories) -> Order:
    """One order, with all its steps."""
    steps, beginning = [], sorted(directories.paths)
    for line in joined(kept, order):
        who = line.lines[0][0]
        text = step_text(line.lines, directories)
        notes = [["bad", clause, SENTENCES[clause]] for clause in line.broken]
        if is_end(line.lines[0]) and who in order["printed"]:
            notes.append(printed_note(order["printed"][who]))
        kind = "bad" if line.broken else "lost" if "ENOENT" in text[-1] else ""
        steps.append(Shown(who, text, kind, notes, sorted(directories.paths), [raw(one) for one in line.lines]))
    outcome, ending = outcome_of(kept, order, names, directories)
    return Order(order["turns"], beginning, steps, outcome, ending)


def printed_note(text: str) -> list[str]:
    """What a command printed; of much, which is a traceback, its last line."""
    lines = text.strip().split("\n")
    if len(lines) <= MOST_LINES:
        return ["printed", "it printed", "\n".join(lines)]
    return ["printed", "it printed in the end", lines[-1]]


def joined(kept: dict[str, Any], order: dict[str, Any]) -> Iterator[Line]:
    """The steps of an order. An end and what its status claims are one."""
    broken: dict[int, list[str]] = {}
    for at, clause in order["broken"]:
        broken.setdefault(at, []).append(clause)
    last = Line([], [])
    for at, text in enumerate(lines_of(kept, order)):
        if not (last.lines and is_end(text) and is_end(last.lines[-1]) and text[0] == last.lines[-1][0]):
            if last.lines:
                yield last
            last = Line([], [])
        last.lines.append(text)
        last.broken.extend(broken.get(at, []))
    yield last


def is_end(line: str) -> bool:
    """Whether a line tells of the end of a command."""
    return line[2:].startswith(("ends ", "answer "))


def raw(line: str) -> str:
    """A line as the log has it: what is no call is a comment."""
    return f"# {line}" if re.match(". (looks|ends) ", line) else f"1000 {line}"


def step_text(lines: list[str], directories: Directories) -> Parts:
    """What a step does, which the directories then take."""
    if is_end(lines[0]):
        ends = next((line[2:] for line in lines if line[2:].startswith("ends ")), "ends")
        answer = next((line.split(" ")[2:] for line in lines if line[2:].startswith("answer ")), None)
        return said_by(ends, answer) if answer else [ends]
    act = act_of(lines[0])
    text = sentence(act, directories)
    directories.take(act)
    return text


def act_of(line: str) -> Act:
    """The call of a line."""
    who, *words = line.split(" ")
    if words[0] == "looks":
        return Act(who, ("look", words[2].removesuffix(":")), words[3])
    if words[0] == "list":
        return Act(who, tuple(words[:3]), words[3], tuple(words[4:]))
    return Act(who, tuple(words[:-1]), words[-1])


def said_by(ends: str, answer: list[str]) -> Parts:
    """An end, with what its status is taken to say."""
    begin = f"{ends}, which is taken to say that "
    if answer[0] == "flags":
        return [begin, answer[3], " has the flags ", answer[1]]
    return [begin, answer[-1], " was not delivered" if answer[0] == "failed" else f" was {answer[0]}"]
