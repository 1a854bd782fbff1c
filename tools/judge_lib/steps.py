"""The steps of a log: each fits the directories or not, and says its lines as it is taken."""

from __future__ import annotations

from functools import lru_cache
from typing import Callable, List, NamedTuple, Optional, Tuple, Union

from .arguments import Descriptor
from .directories import Directories
from .folders import Place
from .names import Path, escaped
from .outside import Coming, Made, OutsideFile
from .processes import OpenFile, Turn

# How a comment begins on what a log can't say.
NOT_SAID = "not said: "
# So many words are kept as a log writes them: most paths come several times, one soon after the other.
_MOST_KEPT = 1024


class Line(NamedTuple):
    """A line of a log. One with no actor is a comment. The ticks are lines of the trace, where the call overlaps another."""

    moment: int
    actor: Optional[str]
    text: bytes
    ticks: Optional[Tuple[int, int]] = None

    def encoded(self) -> bytes:
        """The line as it is written."""
        if self.actor is None:
            return b"# " + self.text.replace(b"\r", b"\\r").replace(b"\n", b"\\n")
        if self.ticks is None:
            return b"%d %b %b" % (self.moment, self.actor.encode(), self.text)
        return b"%d@%d..%d %b %b" % (self.moment, *self.ticks, self.actor.encode(), self.text)


class When(NamedTuple):
    """Who made a call, between which lines of the trace, and when it returned."""

    actor: str
    begin: int
    end: int
    moment: int


class Step:
    """One call. `fits` says whether the directories would give its reply."""

    # Whether a command that stops after it has gone on by a call.
    is_counted = True
    # Whether it overlaps another step, so that its lines have ticks.
    overlaps = False

    def __init__(self, when: When) -> None:
        self.when = when

    def fits(self, directories: Directories) -> bool:
        """Whether the call may take effect now."""
        return True

    def take(self, directories: Directories) -> List[Line]:
        """Takes effect, and gives its lines."""
        raise NotImplementedError

    def line(self, *words: Union[str, bytes, Path]) -> Line:
        """A line of the call."""
        return Line(self.when.moment, self.when.actor, b" ".join(map(_word, words)), self.ticks() if self.overlaps else None)

    def ticks(self) -> Optional[Tuple[int, int]]:
        """Between which lines of the trace the call took effect, where that matters."""
        return (self.when.begin, self.when.end) if self.overlaps else None

    def looked(self, directories: Directories, path: Path, reply: str) -> List[Line]:
        """A comment on a look at a name, where looks are told."""
        text = b"%b looks at %b: %b" % (self.when.actor.encode(), path.word(), reply.encode())
        return [Line(self.when.moment, None, text)] if directories.tells_looks else []

    def comment(self, text: str) -> Line:
        """A line that says what can't be said."""
        return self.remark(NOT_SAID + text)

    def remark(self, text: str) -> Line:
        """A line of its own for whoever reads the log."""
        return Line(self.when.moment, None, text.encode("utf-8", "surrogateescape"))


@lru_cache(_MOST_KEPT)
def _word(word: Union[str, bytes, Path]) -> bytes:
    if isinstance(word, Path):
        return word.word()
    return word.encode() if isinstance(word, str) else word


class Unsaid(Step):
    """A call that the language has no words for."""

    def __init__(self, when: When, text: str) -> None:
        super().__init__(when)
        self._text = text

    def take(self, directories: Directories) -> List[Line]:
        return [self.comment(self._text)]


class Open(Step):
    """`open` of a path in a place."""

    def __init__(self, when: When, path: Path, reply: str, flags: str, opened: OpenFile) -> None:
        super().__init__(when)
        self._path, self._reply, self._opened = path, reply, opened
        self._makes = "O_CREAT" in flags
        self._is_exclusive = self._makes and "O_EXCL" in flags
        self._empties = "O_TRUNC" in flags

    def fits(self, directories: Directories) -> bool:
        is_there = self._path in directories.names
        if self._reply == "ok":
            return not is_there if self._is_exclusive else is_there or self._makes
        if self._reply == "exists":
            return is_there
        return self._reply != "notfound" or not is_there

    def take(self, directories: Directories) -> List[Line]:
        file = directories.names.get(self._path)
        if self._reply != "ok":
            word = "create" if self._makes else "write" if self._empties else None
            return [self.line(word, self._path, self._reply)] if word else self.looked(directories, self._path, self._reply)
        if self._makes and (file is None or self._is_exclusive):
            directories.change(self._opened, "file", directories.new_file())
            directories.put(self._path, self._opened.file)
            return [self.line("create", self._path, "ok")]
        if file is None:
            return [self.comment(f"{self._path.word().decode('utf-8', 'replace')} was opened, and the log doesn't have it")]
        directories.change(self._opened, "file", file)
        if self._empties:
            directories.set_unflushed(file, self.when.actor)
            return [self.line("write", self._path, "ok")]
        return self.looked(directories, self._path, self._reply)


class Look(Step):
    """A call that a log has no line for: a directory is opened, or a program looks whether a name is there."""

    def __init__(self, when: When, at: Union[Path, Place], reply: str) -> None:
        super().__init__(when)
        self._at, self._reply = at, reply

    def take(self, directories: Directories) -> List[Line]:
        return self.looked(directories, self._at, self._reply) if isinstance(self._at, Path) else []


class OnFile(Step):
    """A call on an open file: a write or a flush. Its line has any path that the file has."""

    def __init__(self, when: When, word: str, reply: str, opened: Optional[OpenFile], at: Optional[Path], is_deleted: bool,
                 outside: Optional[OutsideFile] = None) -> None:
        super().__init__(when)
        self._word, self._reply, self._opened = word, reply, opened
        self._at, self._is_deleted, self._outside = at, is_deleted, outside

    def _file(self, directories: Directories) -> Optional[int]:
        for known in (self._opened, self._outside):
            if known is not None and known.file is not None:
                return known.file
        if self._at is None:
            return None
        return directories.last_of(self._at) if self._is_deleted else directories.names.get(self._at)

    def take(self, directories: Directories) -> List[Line]:
        file = self._file(directories)
        path = directories.path_of(file)
        if file is None or path is None:
            return []
        lines = [self.line(self._word, path, self._reply)]
        if self._reply == "ok":
            directories.set_unflushed(file, self.when.actor if self._word == "write" else None)
            if self._word == "write" and self._opened is not None and self._opened.is_sync:
                directories.set_unflushed(file, None)
                lines.append(self.line("flush", path, "ok"))
        return lines


class FlushAll(Step):
    """`sync`: it flushes every file."""

    def take(self, directories: Directories) -> List[Line]:
        lines = []
        for file in list(directories.unflushed):
            directories.set_unflushed(file, None)
            path = directories.path_of(file)
            if path is not None:
                lines.append(self.line("flush", path, "ok"))
        return lines


class Unlink(Step):
    """`unlink`, and a rename to a path outside, which may answer ENOENT of that path too, and then says nothing of the one inside."""

    def __init__(self, when: When, path: Path, reply: str, is_rename: bool = False) -> None:
        super().__init__(when)
        self._path, self._reply, self._is_rename = path, reply, is_rename

    def fits(self, directories: Directories) -> bool:
        is_there = self._path in directories.names
        return {"ok": is_there, "notfound": not is_there or self._is_rename}.get(self._reply, True)

    def take(self, directories: Directories) -> List[Line]:
        if self._is_rename and self._reply == "notfound" and self._path in directories.names:
            return []
        if self._reply == "ok":
            directories.take(self._path)
        return [self.line("unlink", self._path, self._reply)]


class Name(Step):
    """`link` or `rename` inside."""

    def __init__(self, when: When, word: str, old: Path, new: Path, reply: str) -> None:
        super().__init__(when)
        self._word, self._old, self._new, self._reply = word, old, new, reply

    def fits(self, directories: Directories) -> bool:
        has_old, has_new = self._old in directories.names, self._new in directories.names
        if self._reply == "ok":
            return has_old and (self._word == "rename" or not has_new)
        return {"notfound": not has_old, "exists": has_new}.get(self._reply, True)

    def take(self, directories: Directories) -> List[Line]:
        file = directories.names.get(self._old)
        if self._reply == "ok" and file is not None and directories.names.get(self._new) != file:
            directories.put(self._new, file)
            if self._word == "rename":
                directories.take(self._old)
        return [self.line(self._word, self._old, self._new, self._reply)]


class AtOnce(Step):
    """A path in a place comes to name a file by one call, for which the language has no word: a file that comes from outside, or one that is
    made there. What is whole from the first is said as made in tmp, under a name that is made up, and renamed, all at one moment."""

    def __init__(self, when: When, new: Path, reply: str, coming: Coming) -> None:
        super().__init__(when)
        self._new, self._reply, self._coming = new, reply, coming

    def fits(self, directories: Directories) -> bool:
        is_there = self._new in directories.names
        if self._reply == "ok":
            return self._coming.replaces or not is_there
        return self._reply != "exists" or is_there

    def take(self, directories: Directories) -> List[Line]:
        if self._reply == "notfound":
            return []
        if self._reply != "ok":
            return [self.line("create", self._new, self._reply)]
        former = directories.path_of(self._coming.file.file)
        if former is not None and directories.names.get(self._new) == self._coming.file.file:
            return []
        return [*map(self.remark, self._coming.remarks), *self._taken(directories, former)]

    def _taken(self, directories: Directories, former: Optional[Path]) -> List[Line]:
        """A file that has come before, and has a path in a place, gets one more."""
        is_renamed = self._new in directories.names or self._coming.is_whole and self._new.place != "tmp" and former is None
        first = directories.made_up(self._new.folder) if is_renamed else self._new
        self._put(directories, is_new=former is None)
        lines = [self.line("link", former, first, "ok")] if former else [self.line(word, first, reply) for word, reply in self._coming.made]
        return [*lines, self.line("rename", first, self._new, "ok")] if is_renamed else lines

    def _put(self, directories: Directories, is_new: bool) -> None:
        come = self._coming.file
        if is_new:
            directories.change(come, "file", directories.new_file())
            if Made("write") in self._coming.made and Made("flush") not in self._coming.made:
                directories.set_unflushed(come.file, self.when.actor)
        directories.put(self._new, come.file)


class Read(Step):
    """A part of a reading of a directory."""

    def __init__(self, when: When, place: Place, reply: str, names: List[bytes], turn: Turn) -> None:
        super().__init__(when)
        self._place, self._reply, self._names, self._turn = place, reply, names, turn
        # Whether this part alone has all of the reading's names: one call reads them at one moment.
        self.is_whole = reply == "ok"
        # One that shows nothing and ends nothing may as well come with the next.
        self.is_counted = bool(names) or reply != "more"

    def fits(self, directories: Directories) -> bool:
        names, reading = set(self._names), directories.readings.get((self.when.actor, self._place))
        if reading is None or reading.owner is not self._turn:
            there = directories.names_in(self._place)
            return names == there if self.is_whole else names <= there
        return names <= reading.sometimes and (self._reply != "ok" or reading.always <= reading.shown | names)

    def take(self, directories: Directories) -> List[Line]:
        if self._turn.is_dropped:
            return [self.comment(f"a part of a reading of {self._place.place}, as another came between its parts")]
        lines, reading = [], directories.readings.get((self.when.actor, self._place))
        if reading is not None and reading.owner is not self._turn:
            lines.append(self._drop(directories, reading.owner))
            reading = None
        if reading is None and self._reply in ("ok", "more"):
            reading = directories.start_reading(self.when.actor, self._place, self._turn)
        if reading is not None:
            directories.show(reading, self._names)
        if self._reply != "more":
            directories.end_reading(self.when.actor, self._place)
        return [*lines, self._listed(self._reply, self._names)]

    def _drop(self, directories: Directories, turn: Turn) -> Line:
        """A reading that was not read to its end says nothing: its line is that of one which faults."""
        directories.change(turn, "is_dropped", True)
        return self._listed("fault", [])

    def _listed(self, reply: str, names: List[bytes]) -> Line:
        return self.line("list", escaped(self._place.folder), self._place.place, reply, *map(escaped, names))


class Answer(Step):
    """The end of a command: what its status claims, said by who knows the claims."""

    def __init__(self, when: When, says: Callable[[Directories, When], List[Line]]) -> None:
        super().__init__(when)
        self._says = says

    def take(self, directories: Directories) -> List[Line]:
        return [line._replace(ticks=self.ticks()) for line in self._says(directories, self.when)]


def text_of(at: Optional[Descriptor]) -> str:
    """A descriptor's path, for a comment."""
    return "?" if at is None or at.path is None else at.path.decode("utf-8", "replace")
