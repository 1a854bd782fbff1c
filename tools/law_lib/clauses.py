"""The clauses of the law: md_law's Clauses. Each says of a history that its last step breaks the clause."""

from __future__ import annotations

from typing import Optional

from judge_lib.names import Path, unique_of

from .answers import Claim, acts_on, adds_message, changes_message, lately, looks, own, takes_message, tells, tells_nothing, told
from .histories import REPLIES, At, Between, Call, History, List, Said, file_at, file_by, is_by, is_call, once, refusal, since
from .messages import (
    adds, begins_to_be_seen, files_named, is_cut, is_maker, is_message, is_message_at, is_of, is_seen, is_there, is_trashed, is_unflushed,
    leaves, may_write, names, paths_called, shows_flags, takes, was_in_cur,
)  # fmt: skip
from .readings import Looker, is_listing, is_reading, moments_of, readings_of, shown_by, shows


def is_wrong_reply(reply: str, refused: Optional[str]) -> bool:
    return reply not in ("fault", refused or "ok")


def shows_wrongly(h: History, d: Looker, shown: tuple[bytes, ...]) -> bool:
    return any(
        is_reading(first, h, d) and all(file_at(m.at, Path(d.folder, d.place, name)) is None for m in moments_of(first, h))
        for first in h.beginnings
        for name in shown
    )


def lacks(h: History, d: Looker) -> bool:
    # A name that was there at each moment was there at the last one.
    there = [path for path in h.before.at.names if (path.folder, path.place) == (d.folder, d.place)]
    return any(
        is_reading(first, h, d)
        and not shows(first, h, d, path.name)
        and all(file_at(m.at, path) is not None for m in moments_of(first, h))
        for first in h.beginnings
        for path in there
    )


def is_wrong_reading(h: History, d: Looker, reply: str, shown: tuple[bytes, ...]) -> bool:
    if reply == "ok":
        return shows_wrongly(h, d, shown) or lacks(h, d)
    return shows_wrongly(h, d, shown) if reply == "more" else reply == "notfound"


def is_wrong_call(h: History, actor: bytes, call: Call) -> bool:
    if isinstance(call, (At, Between)):
        return is_wrong_reply(call.reply, refusal(call, h.before.at))
    return isinstance(call, List) and is_wrong_reading(h, Looker(actor, call.folder, call.place), call.reply, call.shown)


def not_a_directory(h: History) -> bool:
    return h.last is not None and is_wrong_call(h, h.last.actor, h.last.call)


def overwritten(h: History) -> bool:
    return any(file_at(h.before.at, path) == m and m != n for path, n in h.at.names.items() for m in files_named(h))


def makes_message(h: History) -> bool:
    return any(is_call(h, At("create", path, "ok")) and is_message(path) for path in paths_called(h))


def writes_seen(h: History) -> bool:
    return any(may_write(h, file) and is_seen(h.before.at, file) for file in files_named(h))


def shows_cut(h: History) -> bool:
    return any(begins_to_be_seen(h, file) and is_cut(h.before, file) for file in files_named(h))


def seen_before_whole(h: History) -> bool:
    return makes_message(h) or writes_seen(h) or shows_cut(h)


def mixed(h: History) -> bool:
    return any(may_write(h, file) and not is_maker(h.before, actor_of(h), file) for file in files_named(h))


def not_flushed(h: History) -> bool:
    return any(begins_to_be_seen(h, file) and is_unflushed(h.before, file) for file in files_named(h))


def two_names(h: History) -> bool:
    return any(
        adds(h, p, m)
        and p != q
        and is_message_at(h.at, p.folder, unique_of(p.name), p, m)
        and is_message_at(h.at, p.folder, unique_of(p.name), q, n)
        for p, m in h.at.names.items()
        for q, n in h.at.names.items()
    )


def gone(h: History) -> bool:
    return any(
        takes(h, p, file)
        and is_message(p)
        and not is_there(h.at, p.folder, unique_of(p.name))
        and not (is_call(h, At("unlink", p, "ok")) and p.place == "cur" and is_trashed(p.name))
        and not any(file_at(h.at, q) == file and is_message(q) and unique_of(q.name) == unique_of(p.name) for q in h.at.names)
        for p, file in h.before.at.names.items()
    )


def used_again(h: History) -> bool:
    return any(
        adds(h, p, file)
        and is_message(p)
        and not is_there(h.before.at, p.folder, unique_of(p.name))
        and once(lambda m: is_there(m.at, p.folder, unique_of(p.name)), h.before)
        and not once(lambda m: any(is_message_at(m.at, p.folder, unique_of(p.name), q, file) for q in m.at.names), h.before)
        for p, file in h.at.names.items()
    )


def comes_from_new(h: History) -> bool:
    return isinstance(h.call, Between) and is_message(h.call.old) and h.call.old.place == "new"


def moved_back(h: History) -> bool:
    return any(
        names(h, p, file) and is_message(p) and p.place == "new" and was_in_cur(h.before, file) and not comes_from_new(h)
        for p, file in h.at.names.items()
    )


def cleaned_early(h: History) -> bool:
    return any(
        p.place == "tmp"
        and leaves(h, p, n)
        and not is_seen(h.at, n)
        and not is_maker(h.before, actor_of(h), n)
        and is_young(file_by(h.before.at.files, n), h.now)
        for p, n in h.before.at.names.items()
    )


def is_young(stamp: Optional[int], now: int) -> bool:
    return stamp is not None and max(0, now - stamp) < 129600


def was_there(begun: History, h: History, actor: bytes, folder: bytes, unique: bytes) -> bool:
    return all(is_there(m.at, folder, unique) for first, last, _ in readings_of(begun, h, actor, folder) for m in moments_of(first, last))


def was_listed(begun: History, h: History, actor: bytes, folder: bytes, unique: bytes) -> bool:
    shown = {name for m in h.beginnings for names_shown in shown_by(m) for name in names_shown}
    return any(
        shows(first, last, d, name) and is_of(Path(folder, d.place, name), folder, unique)
        for first, last, d in readings_of(begun, h, actor, folder)
        for name in shown
    )


def unlisted(h: History) -> bool:
    # A listing's last reading ends with the last step, so what was there all the while was there before it.
    uniques = {unique_of(path.name) for path in h.before.at.names}
    lookers = [(actor_of(h), h.call.folder)] if isinstance(h.call, List) else []
    return any(
        is_listing(begun, h, actor, folder)
        and was_there(begun, h, actor, folder, unique)
        and not was_listed(begun, h, actor, folder, unique)
        for begun in h.beginnings
        for actor, folder in lookers
        for unique in uniques
    )


def is_success(said: Said) -> bool:
    return said.word not in ("failed", "notthere")


def is_left(c: Claim, h: History) -> bool:
    return since(lambda m: is_by(m, c.actor) and is_refused(m, c), lambda m: tells_nothing(m, c) and not tries_again(m, c), h)


def is_refused(m: History, c: Claim) -> bool:
    return any(acts_on(m, c, reply) and reply != "ok" for reply in REPLIES)


def tries_again(m: History, c: Claim) -> bool:
    return is_by(m, c.actor) and (any(acts_on(m, c, reply) for reply in REPLIES) or looks(m, c))


def gave_up(h: History) -> bool:
    return any(
        tells(h, c, said) and is_success(said) and is_there(h.before.at, c.folder, c.unique) and is_left(c, h.before) for c, said in told(h)
    )


def has_flags(m: History, c: Claim, flags: Optional[frozenset[str]]) -> bool:
    there = [p for p, file in m.at.names.items() if is_message_at(m.at, c.folder, c.unique, p, file)]
    return any(p.place == "cur" and shows_flags(p.name, flags) for p in there)


def unlinks(m: History) -> bool:
    return any(is_call(m, At("unlink", path, reply)) for path in paths_called(m) for reply in REPLIES)


def is_so(said: Said, c: Claim, h: History) -> bool:
    if said.word == "delivered":
        return own(lambda m: adds_message(m, c), c, h)
    if said.word == "flags":
        return lately(lambda m: has_flags(m, c, said.flags), c, h)
    if said.word == "moved":
        return own(lambda m: takes_message(m, c) and is_there(m.at, said.to, c.unique), c, h)
    if said.word == "expunged":
        return own(lambda m: takes_message(m, c) and unlinks(m), c, h)
    if said.word == "failed":
        return not own(lambda m: changes_message(m, c), c, h)
    return said.word == "done" or lately(lambda m: not is_there(m.at, c.folder, c.unique), c, h)


def answered_falsely(h: History) -> bool:
    return any(tells(h, c, said) and not is_so(said, c, h.before) for c, said in told(h))


def actor_of(h: History) -> bytes:
    """Who made the last step."""
    return h.last.actor if h.last else b""


LAW = {
    "NotADirectory": not_a_directory, "Overwritten": overwritten, "SeenBeforeWhole": seen_before_whole, "Mixed": mixed,
    "NotFlushed": not_flushed, "TwoNames": two_names, "Gone": gone, "UsedAgain": used_again, "MovedBack": moved_back,
    "CleanedEarly": cleaned_early, "Unlisted": unlisted, "GaveUp": gave_up, "AnsweredFalsely": answered_falsely,
}  # fmt: skip
