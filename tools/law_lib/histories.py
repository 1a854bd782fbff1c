"""Histories: md_law's History, over the directory calls of md_dirs. A file has no bytes, and each path's folder is there."""

from __future__ import annotations

from collections.abc import Callable
from typing import NamedTuple, Optional, Union

from judge_lib.names import Path

REPLIES = ("ok", "more", "exists", "notfound", "fault")


class State(NamedTuple):
    """The number of the file that each path names, and the stamps of the files by their numbers: None where a file is gone."""

    names: dict[Path, int]
    files: tuple[Optional[int], ...]


class At(NamedTuple):
    """A call on one path: create, write, flush or unlink."""

    deed: str
    path: Path
    reply: str


class Between(NamedTuple):
    """A call on two paths: link or rename."""

    naming: str
    old: Path
    new: Path
    reply: str


class List(NamedTuple):
    """A part of a reading."""

    folder: bytes
    place: str
    reply: str
    shown: tuple[bytes, ...]


class Said(NamedTuple):
    """What an answer says: the log's word, the flags of `flags`, the folder of `moved`."""

    word: str
    flags: Optional[frozenset[str]] = None
    to: bytes = b""


class Answer(NamedTuple):
    """What the actor told its user of a message."""

    said: Said
    folder: bytes
    unique: bytes


Call = Union[At, Between, List, Answer]


class Step(NamedTuple):
    """A call, who made it, and its second."""

    moment: int
    actor: bytes
    call: Call


class History:
    """What there was at the beginning, or an earlier history and one step more: the directories and the clock after its last step, the
    history before it, and all that are beginnings of it."""

    def __init__(self, at: State, now: int, past: Optional[History] = None, last: Optional[Step] = None) -> None:
        self.at, self.now, self.past, self.last = at, now, past, last
        self.before: History = past or self
        self.call = last.call if last else None
        self.beginnings: list[History] = [*past.beginnings, self] if past else [self]


Holds = Callable[[History], bool]


def after_step(past: History, step: Step) -> History:
    now = max(past.now, step.moment)
    return History(after_call(step.call, now, past.at), now, past, step)


def file_at(state: State, path: Path) -> Optional[int]:
    return state.names.get(path)


def file_by(files: tuple[Optional[int], ...], number: int) -> Optional[int]:
    return files[number] if number < len(files) else None


def refusal(call: Union[At, Between], state: State) -> Optional[str]:
    """Where a directory call is refused: of `ask_at` and `ask_between`."""
    if isinstance(call, At):
        if call.deed == "create":
            return None if file_at(state, call.path) is None else "exists"
        return "notfound" if file_at(state, call.path) is None else None
    if file_at(state, call.old) is None:
        return "notfound"
    return "exists" if call.naming == "link" and file_at(state, call.new) is not None else None


def after_call(call: Call, now: int, state: State) -> State:
    if isinstance(call, At) and call.reply == "ok":
        return after_at(call.deed, call.path, now, state)
    if isinstance(call, Between) and call.reply == "ok":
        return after_between(call.naming, call.old, call.new, state)
    return state


def after_at(deed: str, path: Path, now: int, state: State) -> State:
    number = file_at(state, path)
    if deed == "create":
        return State({**state.names, path: len(state.files)}, (*state.files, now))
    if deed == "write" and number is not None and file_by(state.files, number) is not None:
        return state._replace(files=(*state.files[:number], now, *state.files[number + 1 :]))
    return with_files_still_named(number, without_path(path, state)) if deed == "unlink" else state


def after_between(naming: str, old: Path, new: Path, state: State) -> State:
    number, replaced = file_at(state, old), file_at(state, new)
    if number is None or naming == "link":
        return state if number is None else with_path(new, state, number)
    if number == replaced:
        return state
    return with_files_still_named(replaced, with_path(new, without_path(old, state), number))


def with_path(path: Path, state: State, number: int) -> State:
    return state._replace(names={**state.names, path: number})


def without_path(path: Path, state: State) -> State:
    return state._replace(names={each: number for each, number in state.names.items() if each != path})


def with_files_still_named(number: Optional[int], state: State) -> State:
    if number is None or number in state.names.values():
        return state
    return state._replace(files=(*state.files[:number], None, *state.files[number + 1 :]))


def is_call(history: History, call: Call) -> bool:
    return history.call == call


def is_by(history: History, actor: bytes) -> bool:
    return history.last is not None and history.last.actor == actor


def once(holds: Holds, history: History) -> bool:
    return any(holds(moment) for moment in history.beginnings)


def since(begun: Holds, goes_on: Holds, history: History) -> bool:
    if history.past is None:
        return begun(history)
    return begun(history) or (goes_on(history) and since(begun, goes_on, history.past))


def is_up_to(first: History, history: History) -> bool:
    return once(lambda moment: moment is first, history)
