"""Readings of directories, which may come in parts, and listings of folders: md_law's Readings."""

from __future__ import annotations

from typing import NamedTuple

from judge_lib.names import PLACES

from .histories import REPLIES, Call, History, List, is_by, is_call, is_up_to, since


class Looker(NamedTuple):
    """A directory, as an actor reads it."""

    actor: bytes
    folder: bytes
    place: str


def reads(h: History, d: Looker, reply: str, shown: tuple[bytes, ...]) -> bool:
    return is_by(h, d.actor) and is_call(h, List(d.folder, d.place, reply, shown))


def is_part(h: History, d: Looker, reply: str) -> bool:
    return any(reads(h, d, reply, shown) for shown in shown_by(h))


def shown_by(h: History) -> list[tuple[bytes, ...]]:
    """The names that the last step shows, where it is a part of a reading."""
    return [h.call.shown] if isinstance(h.call, List) else []


def is_read_on(h: History, d: Looker) -> bool:
    return since(lambda m: is_part(m, d, "more"), lambda m: not any(is_part(m, d, reply) for reply in REPLIES), h)


def is_reading(first: History, h: History, d: Looker) -> bool:
    begins = any(is_part(first, d, reply) for reply in REPLIES)
    ends = any(is_part(h, d, reply) for reply in REPLIES)
    parts = [(m, reply) for m in h.beginnings for reply in REPLIES if is_part(m, d, reply)]
    more = all(reply == "more" for m, reply in parts if is_up_to(first, m) and is_up_to(m, h.before))
    return begins and not is_read_on(first.before, d) and is_up_to(first, h) and more and ends


def is_whole_reading(first: History, h: History, d: Looker) -> bool:
    return is_reading(first, h, d) and is_part(h, d, "ok")


def is_moment_of(m: History, first: History, h: History) -> bool:
    return is_up_to(first.before, m) and is_up_to(m, h.before)


def moments_of(first: History, h: History) -> list[History]:
    return [m for m in h.beginnings if is_moment_of(m, first, h)]


def shows(first: History, h: History, d: Looker, name: bytes) -> bool:
    parts = [(m, reply, shown) for m in h.beginnings for reply in REPLIES for shown in shown_by(m)]
    return any(is_up_to(first, m) and is_up_to(m, h) and reads(m, d, reply, shown) and name in shown for m, reply, shown in parts)


class Read(NamedTuple):
    """Which of new and cur a listing has read."""

    new: bool
    cur: bool


NOTHING_READ = Read(new=False, cur=False)


def with_place(place: str, read: Read) -> Read:
    if place == "tmp":
        return read
    if place == "new":
        return NOTHING_READ if read.cur else Read(new=True, cur=False)
    return NOTHING_READ if read.new else Read(new=False, cur=True)


def with_call(folder: bytes, call: Call, read: Read) -> Read:
    if not isinstance(call, List):
        return NOTHING_READ
    return with_place(call.place, read) if call.reply == "ok" and call.folder == folder else read


def read_of(h: History, actor: bytes, folder: bytes) -> Read:
    if h.past is None or h.last is None:
        return NOTHING_READ
    read = read_of(h.past, actor, folder)
    return with_call(folder, h.last.call, read) if h.last.actor == actor else read


def is_listing(first: History, h: History, actor: bytes, folder: bytes) -> bool:
    return (
        read_of(first, actor, folder) == NOTHING_READ
        and since(lambda m: m is first, lambda m: read_of(m, actor, folder) != NOTHING_READ, h.before)
        and read_of(h.before, actor, folder) != NOTHING_READ
        and any(is_part(h, Looker(actor, folder, place), "ok") for place in PLACES)
        and read_of(h, actor, folder) == NOTHING_READ
    )


def is_of_listing(begun: History, h: History, first: History, last: History, d: Looker) -> bool:
    return is_up_to(begun, last.before) and is_up_to(last, h) and d.place != "tmp" and is_whole_reading(first, last, d)


def readings_of(begun: History, h: History, actor: bytes, folder: bytes) -> list[tuple[History, History, Looker]]:
    """The whole readings of a listing: first, last and directory."""
    lookers = [Looker(actor, folder, place) for place in PLACES]
    return [(first, last, d) for d in lookers for first in h.beginnings for last in h.beginnings if is_of_listing(begun, h, first, last, d)]
