"""Messages and files: md_law's Messages and Files. The functions of a history say what its last step does, or what was done so far."""

from __future__ import annotations

from judge_lib.names import Path, flags_of, unique_of

from .histories import REPLIES, At, History, State, file_at, is_by, is_call, once, since


def is_message(path: Path) -> bool:
    return path.place != "tmp" and not path.name.startswith(b".") and 0 < len(unique_of(path.name))


def is_of(path: Path, folder: bytes, unique: bytes) -> bool:
    return is_message(path) and path.folder == folder and unique_of(path.name) == unique


def is_message_at(state: State, folder: bytes, unique: bytes, path: Path, file: int) -> bool:
    return file_at(state, path) == file and is_of(path, folder, unique)


def is_there(state: State, folder: bytes, unique: bytes) -> bool:
    return any(is_message_at(state, folder, unique, path, file) for path, file in state.names.items())


def is_seen(state: State, file: int) -> bool:
    return any(file_at(state, path) == file and is_message(path) for path in state.names)


def shows_flags(name: bytes, flags: frozenset[str]) -> bool:
    return flags_of(name) == flags


def is_trashed(name: bytes) -> bool:
    flags = flags_of(name)
    return flags is not None and shows_flags(name, flags) and "T" in flags


def names(h: History, path: Path, file: int) -> bool:
    return file_at(h.at, path) == file and file_at(h.before.at, path) != file


def leaves(h: History, path: Path, file: int) -> bool:
    return file_at(h.before.at, path) == file and file_at(h.at, path) != file


def adds(h: History, path: Path, file: int) -> bool:
    return file_at(h.before.at, path) is None and file_at(h.at, path) == file


def takes(h: History, path: Path, file: int) -> bool:
    return file_at(h.before.at, path) == file and file_at(h.at, path) is None


def begins_to_be_seen(h: History, file: int) -> bool:
    return is_seen(h.at, file) and not is_seen(h.before.at, file)


def does(h: History, deed: str, file: int, reply: str) -> bool:
    """The last step is this call on a path of the file."""
    return any(is_call(h, At(deed, path, reply)) and file_at(h.before.at, path) == file for path in paths_called(h))


def writes(h: History, file: int, reply: str) -> bool:
    return does(h, "write", file, reply)


def may_write(h: History, file: int) -> bool:
    return any(reply != "notfound" and writes(h, file, reply) for reply in REPLIES)


def flushes(h: History, file: int) -> bool:
    return does(h, "flush", file, "ok")


def makes(h: History, actor: bytes, file: int) -> bool:
    return any(is_by(h, actor) and is_call(h, At("create", path, "ok")) and file == len(h.before.at.files) for path in paths_called(h))


def is_unflushed(h: History, file: int) -> bool:
    return since(lambda m: writes(m, file, "ok"), lambda m: not flushes(m, file), h)


def is_cut(h: History, file: int) -> bool:
    return since(lambda m: writes(m, file, "fault"), lambda m: not writes(m, file, "ok"), h)


def was_in_cur(h: History, file: int) -> bool:
    return once(lambda m: any(file_at(m.at, path) == file and is_message(path) and path.place == "cur" for path in m.at.names), h)


def is_maker(h: History, actor: bytes, file: int) -> bool:
    return once(lambda m: makes(m, actor, file), h)


def paths_called(h: History) -> list[Path]:
    """The path of the last step, where it is a call on one path."""
    return [h.call.path] if isinstance(h.call, At) else []


def files_named(h: History) -> set[int]:
    """The files that have a path before or after the last step."""
    return {*h.before.at.names.values(), *h.at.names.values()}
