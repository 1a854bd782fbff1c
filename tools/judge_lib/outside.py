"""Files outside the judged folders: whether they are whole and flushed, which a log says of them when they come in."""

from __future__ import annotations

from typing import Dict, List, NamedTuple, Optional


class Made(NamedTuple):
    """A call by which a file was made what it is, and its reply."""

    word: str
    reply: str = "ok"


class OutsideFile:
    """A file that is outside, or was. One that no traced program has written to is whole and flushed, as files of the beginning are."""

    __slots__ = ("file", "has_come", "is_mapped", "_is_unflushed", "_is_cut")

    def __init__(self) -> None:
        # Its number in the directories, once it has come.
        self.file: Optional[int] = None
        self.has_come = False
        # Whether a program may have written to it through memory, which no call shows.
        self.is_mapped = False
        # Whether it was written to since its last flush, and whether its last write failed.
        self._is_unflushed = False
        self._is_cut = False

    def called(self, word: str, is_ok: bool, is_sync: bool = False) -> None:
        """Notes a write or a flush."""
        if word == "write":
            self._is_cut = not is_ok
            self._is_unflushed = (self._is_unflushed or is_ok) and not (is_ok and is_sync)
        elif is_ok:
            self._is_unflushed = False

    def made(self) -> List[Made]:
        """The calls that make such a file."""
        return [Made("create"), Made("write"), *[Made("flush")] * (not self._is_unflushed), *[Made("write", "fault")] * self._is_cut]


class Coming(NamedTuple):
    """A file that a path comes to name by one call, the calls that make it, and what comments say of it."""

    file: OutsideFile
    made: List[Made]
    remarks: List[str]
    replaces: bool = False
    is_whole: bool = True


class OutsideFiles:
    """The files outside that were opened to be written to, or have come in, by the paths that they have outside, from the root, without links."""

    def __init__(self) -> None:
        self._by_path: Dict[bytes, OutsideFile] = {}

    def at(self, path: bytes, known: Optional[OutsideFile] = None) -> OutsideFile:
        """The file of a path, which is the known one where none is known there."""
        return self._by_path.setdefault(path, known or OutsideFile())

    def knows(self, path: bytes) -> bool:
        """Whether the file of a path is known."""
        return path in self._by_path

    def link(self, file: OutsideFile, path: bytes) -> None:
        """Gives a file a path."""
        self._by_path[path] = file

    def rename(self, old: bytes, new: bytes) -> None:
        """A file gets another path, or all below a directory do. Of two names of one file, none is changed."""
        if old in self._by_path and self._by_path.get(new) is self._by_path[old]:
            return
        self.forget(new)
        for path in [path for path in self._by_path if path == old or path.startswith(old + b"/")]:
            self._by_path[new + path[len(old):]] = self._by_path.pop(path)

    def forget(self, path: bytes) -> None:
        """A path no longer names its file."""
        self._by_path.pop(path, None)

    def flush_all(self) -> None:
        """`sync`."""
        for file in self._by_path.values():
            file.called("flush", True)
