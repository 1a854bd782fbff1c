"""The monitor of md_monitor: what it keeps of a history, and which clauses a step breaks by that, without the history.

Each function has the name of the definition in crates/md_monitor/specs that it transcribes. Of the law it has the clauses that speak of
steps: not those of readings, listings and answers.
"""

from __future__ import annotations

from collections.abc import Callable, Mapping
from functools import lru_cache
from typing import NamedTuple, Optional

from judge_lib.names import Path, unique_of

from .histories import At, Between, Call, History, State, Step, after_call, file_at, file_by
from .messages import is_message as _is_message
from .messages import is_trashed

is_message = lru_cache(4096)(_is_message)
Named = Optional[tuple[Path, int]]


class FileKept(NamedTuple):
    """What is kept of a file."""

    maker: Optional[bytes] = None
    is_unflushed: bool = False
    is_cut: bool = False
    was_cur: bool = False
    was_seen: bool = False


class Kept(NamedTuple):
    """What is kept: of each file by its number, which file was a message of which folder and unique name, and which a path of tmp named."""

    files: tuple[FileKept, ...] = ()
    messages: frozenset[tuple[bytes, bytes, int]] = frozenset()
    paths: frozenset[tuple[Path, int]] = frozenset()


class Change(NamedTuple):
    """The path that comes to name a file, and the one that comes to name none, each with the number of its file."""

    named: Named = None
    taken: Named = None


def change_of(s: State, call: Call) -> Change:
    if not isinstance(call, (At, Between)) or call.reply != "ok":
        return Change()
    if isinstance(call, At):
        file = file_at(s, call.path)
        if call.deed == "unlink":
            return Change(taken=None if file is None else (call.path, file))
        return Change((call.path, len(s.files))) if call.deed == "create" else Change()
    file = file_at(s, call.old)
    if file is None or file == file_at(s, call.new):
        return Change()
    return Change((call.new, file), (call.old, file) if call.naming == "rename" else None)


class Judged:
    """A step as the monitor judges it: the directories before and after it, the clock after it, what was kept before it."""

    def __init__(self, s: State, now: int, kept: Kept, step: Step) -> None:
        self.s, self.now, self.kept, self.actor, self.call = s, now, kept, step.actor, step.call
        self.reply = step.call.reply if isinstance(step.call, (At, Between)) else ""
        self.after = after_call(step.call, now, s)
        self.named, self.taken = change_of(s, step.call)
        replaced = None if self.named is None else file_at(s, self.named[0])
        self.turned: Named = None if self.named is None or replaced is None else (self.named[0], replaced)
        self.written: Optional[int] = file_at(s, step.call.path) if isinstance(step.call, At) and step.call.deed == "write" else None

    def broken(self, clauses: Mapping[str, Callable[[Judged], bool]]) -> list[str]:
        """Those of these clauses that the step breaks."""
        return [clause for clause, breaks in clauses.items() if breaks(self)]


def kept_of(h: History) -> Kept:
    """What is kept of a history."""
    return kept_first(h.at) if h.past is None else kept_next(judged(h))


def judged(h: History) -> Judged:
    """The last step of a history."""
    assert h.last is not None
    return Judged(h.before.at, h.now, kept_of(h.before), h.last)


# ---- what directories show


def paths_of(s: State, folder: bytes, unique: bytes) -> int:
    return sum(is_of_any(p, unique) and p.folder == folder for p in s.names)


def is_of_any(path: Path, unique: bytes) -> bool:
    return is_message(path) and unique_of(path.name) == unique


def is_seen(s: State, file: int) -> bool:
    return any(n == file and is_message(p) for p, n in s.names.items())


# ---- what is kept


def kept_first(s: State) -> Kept:
    kept = Kept((FileKept(),) * len(s.files))
    for p, file in s.names.items():
        kept = kept_named(kept, p, file)
    return kept


def kept_named(kept: Kept, p: Path, file: int) -> Kept:
    """What is kept once the path has come to name the file."""
    if p.place == "tmp":
        return kept._replace(paths=kept.paths | {(p, file)})
    if not is_message(p):
        return kept
    seen = kept.files[file]._replace(was_seen=True, was_cur=kept.files[file].was_cur or p.place == "cur")
    return Kept(with_file(kept.files, file, seen), kept.messages | {(p.folder, unique_of(p.name), file)}, kept.paths)


def with_file(files: tuple[FileKept, ...], file: int, kept: FileKept) -> tuple[FileKept, ...]:
    return (*files[:file], kept, *files[file + 1 :])


def kept_next(j: Judged) -> Kept:
    kept, call = j.kept, j.call
    if isinstance(call, At) and call.deed == "create" and call.reply == "ok":
        kept = kept._replace(files=(*kept.files, FileKept(j.actor)))
    if isinstance(call, At) and call.deed in ("write", "flush") and call.reply in ("ok", "fault"):
        file = file_at(j.s, call.path)
        if file is not None:
            kept = kept._replace(files=with_file(kept.files, file, called(kept.files[file], call)))
    return kept if j.named is None else kept_named(kept, *j.named)


def called(kept: FileKept, call: At) -> FileKept:
    """What is kept of a file after a write or a flush of it."""
    if call.deed == "write":
        return kept._replace(is_unflushed=True, is_cut=False) if call.reply == "ok" else kept._replace(is_cut=True)
    return kept._replace(is_unflushed=False) if call.reply == "ok" else kept


# ---- clauses of the law


def is_maker(j: Judged, file: int) -> bool:
    made = isinstance(j.call, At) and j.call.deed == "create" and j.call.reply == "ok" and file == len(j.s.files)
    return made or j.kept.files[file].maker == j.actor


def is_shown(j: Judged, test: Callable[[FileKept], bool]) -> bool:
    """A file of which the test holds begins to be seen."""
    if j.named is None or not is_message(j.named[0]) or is_seen(j.s, j.named[1]):
        return False
    return j.named[1] < len(j.kept.files) and test(j.kept.files[j.named[1]])


def shows_too_early(j: Judged) -> bool:
    makes = isinstance(j.call, At) and j.call.deed == "create" and j.call.reply == "ok" and is_message(j.call.path)
    return makes or may_write(j, lambda file: is_seen(j.s, file)) or is_shown(j, lambda kept: kept.is_cut)


def may_write(j: Judged, test: Callable[[int], bool]) -> bool:
    """It writes to a file of which the test holds, or may have written a part."""
    return j.written is not None and j.reply != "notfound" and test(j.written)


def mixes(j: Judged) -> bool:
    return may_write(j, lambda file: not is_maker(j, file))


def adds_message(j: Judged, test: Callable[[Path, bytes, int], bool]) -> bool:
    """A path of a message is added: the test holds of the path, the unique name and the file."""
    return j.named is not None and j.turned is None and is_message(j.named[0]) and test(j.named[0], unique_of(j.named[0].name), j.named[1])


def is_gone(j: Judged) -> bool:
    if j.taken is None or not is_message(j.taken[0]):
        return False
    path, file = j.taken
    unique = unique_of(path.name)
    empties = isinstance(j.call, At) and path.place == "cur" and is_trashed(path.name)
    stays = any(n == file and is_of_any(p, unique) for p, n in j.after.names.items())
    return not empties and not stays and not paths_of(j.after, path.folder, unique)


def is_used_again(j: Judged) -> bool:
    def test(path: Path, unique: bytes, file: int) -> bool:
        was = {n for folder, name, n in j.kept.messages if (folder, name) == (path.folder, unique)}
        return bool(was) and file not in was and not paths_of(j.s, path.folder, unique)

    return adds_message(j, test)


def is_from_new(call: Call) -> bool:
    return isinstance(call, Between) and is_message(call.old) and call.old.place == "new"


def is_moved_back(j: Judged) -> bool:
    if j.named is None or not is_message(j.named[0]) or j.named[0].place != "new":
        return False
    return j.named[1] < len(j.kept.files) and j.kept.files[j.named[1]].was_cur and not is_from_new(j.call)


def is_cleaned_early(j: Judged) -> bool:
    return any(
        left is not None and left[0].place == "tmp" and not is_seen(j.after, left[1]) and not is_maker(j, left[1]) and is_young(j, left[1])
        for left in (j.taken, j.turned)
    )


def is_young(j: Judged, file: int) -> bool:
    stamp = file_by(j.s.files, file)
    return stamp is not None and j.now - stamp < 129600


# ---- what each program owes


def owes_named_by_another(j: Judged) -> bool:
    return j.named is not None and not is_seen(j.s, j.named[1]) and not is_maker(j, j.named[1])


def owes_in_two_folders(j: Judged) -> bool:
    return adds_message(j, lambda path, unique, _: any(is_of_any(p, unique) and p.folder != path.folder for p in j.after.names))


def owes_used_twice(j: Judged) -> bool:
    if j.named is None or not is_message(j.named[0]):
        return False
    was = {n for _, name, n in j.kept.messages if name == unique_of(j.named[0].name)}
    return bool(was) and j.named[1] not in was


def owes_made_again(j: Judged) -> bool:
    named = j.named
    return named is not None and named[0].place == "tmp" and any(p == named[0] and n != named[1] for p, n in j.kept.paths)


def owes_written_late(j: Judged) -> bool:
    return may_write(j, lambda file: file_by(j.s.files, file) is not None and not is_young(j, file))


TWO_NAMES: dict[str, Callable[[Judged], bool]] = {
    "TwoNames": lambda j: adds_message(j, lambda path, unique, _: paths_of(j.after, path.folder, unique) > 1),
}
LAW: dict[str, Callable[[Judged], bool]] = {
    "Overwritten": lambda j: j.turned is not None,
    "SeenBeforeWhole": shows_too_early,
    "Mixed": mixes,
    "NotFlushed": lambda j: is_shown(j, lambda kept: kept.is_unflushed),
    **TWO_NAMES,
    "Gone": is_gone, "UsedAgain": is_used_again, "MovedBack": is_moved_back, "CleanedEarly": is_cleaned_early,
}  # fmt: skip
OWED: dict[str, Callable[[Judged], bool]] = {
    **TWO_NAMES, "InTwoFolders": owes_in_two_folders, "Mixed": mixes,
    "NamedByAnother": owes_named_by_another, "CleanedEarly": is_cleaned_early,
    "Rewritten": lambda j: may_write(j, lambda file: j.kept.files[file].was_seen),
    "MovedBack": is_moved_back, "UsedTwice": owes_used_twice, "MadeAgain": owes_made_again, "WrittenLate": owes_written_late,
}  # fmt: skip
