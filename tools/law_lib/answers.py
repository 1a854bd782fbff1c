"""Answers: md_law's Answers, of what a program told its user of a message, and what it did since it last told of it."""

from __future__ import annotations

from typing import NamedTuple

from judge_lib.names import PLACES

from .histories import Answer, At, Between, Call, History, Holds, List, Said, State, is_by, is_call, since
from .messages import is_message_at, is_of, is_there
from .readings import shown_by


class Claim(NamedTuple):
    """A message of a folder, of which an actor tells."""

    actor: bytes
    folder: bytes
    unique: bytes


def tells(h: History, c: Claim, said: Said) -> bool:
    return is_by(h, c.actor) and is_call(h, Answer(said, c.folder, c.unique))


def tells_nothing(h: History, c: Claim) -> bool:
    return not any(tells(h, c, said) for _, said in told(h))


def told(h: History) -> list[tuple[Claim, Said]]:
    """Of what the last step tells, and what, where it is an answer."""
    return [(Claim(h.last.actor, h.call.folder, h.call.unique), h.call.said)] if h.last and isinstance(h.call, Answer) else []


def own(holds: Holds, c: Claim, h: History) -> bool:
    return since(lambda m: is_by(m, c.actor) and tells_nothing(m, c) and holds(m), lambda m: tells_nothing(m, c), h)


def is_at_work(c: Claim, h: History) -> bool:
    return own(lambda m: True, c, h)


def lately(holds: Holds, c: Claim, h: History) -> bool:
    return holds(h) or since(
        lambda m: holds(m) and is_at_work(c, m),
        lambda m: tells_nothing(m, c) and not (is_by(m, c.actor) and changes_message(m, c)),
        h,
    )


def acts_by(call: Call, c: Claim, reply: str) -> bool:
    if isinstance(call, At) and call.deed == "unlink":
        return is_of(call.path, c.folder, c.unique) and call.reply == reply
    if not isinstance(call, Between) or call.reply != reply:
        return False
    return is_of(call.old, c.folder, c.unique) or is_of(call.new, c.folder, c.unique) and call.reply == "ok"


def acts_on(h: History, c: Claim, reply: str) -> bool:
    return h.call is not None and acts_by(h.call, c, reply)


def looks(h: History, c: Claim) -> bool:
    places = [place for place in PLACES if place != "tmp"]
    return any(is_call(h, List(c.folder, place, reply, shown)) for place in places for reply in ("ok", "more") for shown in shown_by(h))


def adds_message(h: History, c: Claim) -> bool:
    return not is_there(h.before.at, c.folder, c.unique) and is_there(h.at, c.folder, c.unique)


def takes_message(h: History, c: Claim) -> bool:
    return is_there(h.before.at, c.folder, c.unique) and not is_there(h.at, c.folder, c.unique)


def loses_path(old: State, new: State, c: Claim) -> bool:
    there = [(path, file) for path, file in old.names.items() if is_message_at(old, c.folder, c.unique, path, file)]
    return any(not is_message_at(new, c.folder, c.unique, path, file) for path, file in there)


def changes_message(h: History, c: Claim) -> bool:
    return loses_path(h.before.at, h.at, c) or loses_path(h.at, h.before.at, c)
