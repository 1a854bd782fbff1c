"""What each program owes the others: the last clauses of md_law's Law, with the four clauses of the law that are owed as they are."""

from __future__ import annotations

from collections.abc import Iterator
from typing import Optional

from judge_lib.names import Path, unique_of

from .clauses import actor_of, cleaned_early, mixed, moved_back, two_names
from .histories import History, file_at, file_by, once
from .messages import adds, files_named, is_maker, is_message, is_message_at, is_seen, may_write, names


def rewritten(h: History) -> bool:
    return any(may_write(h, file) and once(lambda m: is_seen(m.at, file), h.before) for file in files_named(h))


def named(h: History) -> Iterator[tuple[Path, int]]:
    """The paths that come to name a file by the last step."""
    return ((p, file) for p, file in h.at.names.items() if names(h, p, file))


def named_by_another(h: History) -> bool:
    return any(not is_seen(h.before.at, file) and not is_maker(h, actor_of(h), file) for _, file in named(h))


def in_two_folders(h: History) -> bool:
    return any(
        adds(h, p, m)
        and is_message_at(h.at, p.folder, unique_of(p.name), p, m)
        and p.folder != q.folder
        and is_message_at(h.at, q.folder, unique_of(p.name), q, n)
        for p, m in named(h)
        for q, n in h.at.names.items()
    )


def was_of(h: History, unique: bytes, file: int) -> bool:
    return once(lambda m: any(is_message_at(m.at, p.folder, unique, p, file) for p in m.at.names), h)


def used_twice(h: History) -> bool:
    return any(
        is_message(p)
        and not was_of(h.before, unique_of(p.name), file)
        and any(other != file and was_of(h.before, unique_of(p.name), other) for other in range(len(h.at.files)))
        for p, file in named(h)
    )


def made_again(h: History) -> bool:
    return any(p.place == "tmp" and once(lambda m: file_at(m.at, p) not in (None, file), h.before) for p, file in named(h))


def is_old(stamp: Optional[int], now: int) -> bool:
    return stamp is not None and 129600 <= max(0, now - stamp)


def written_late(h: History) -> bool:
    return any(may_write(h, file) and is_old(file_by(h.before.at.files, file), h.now) for file in files_named(h))


OWED = {
    "TwoNames": two_names, "InTwoFolders": in_two_folders, "Mixed": mixed, "NamedByAnother": named_by_another,
    "CleanedEarly": cleaned_early, "Rewritten": rewritten, "MovedBack": moved_back, "UsedTwice": used_twice, "MadeAgain": made_again,
    "WrittenLate": written_late,
}  # fmt: skip
