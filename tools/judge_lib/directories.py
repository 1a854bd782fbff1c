"""What the judged directories have, step by step. Each change can be taken back."""

from __future__ import annotations

from collections import defaultdict
from typing import Any, Callable, DefaultDict, Dict, Iterable, List, NamedTuple, Optional, Set, Tuple, TypeVar

from .folders import File, Place
from .names import Path
from .processes import Turn

K, V = TypeVar("K"), TypeVar("V")


class Change(NamedTuple):
    """A path that came to name a file, or no longer does, at so many lines of the log."""

    lines: int
    path: Path
    is_there: bool


class Reading:
    """A directory that one actor reads in parts: the names that were there at some moment of it, and all the while."""

    def __init__(self, owner: Turn, there: Iterable[bytes]) -> None:
        self.owner = owner
        self.sometimes = set(there)
        self.always = set(self.sometimes)
        self.shown: Set[bytes] = set()


class Directories:
    """Names and files. A file is a number."""

    def __init__(self, files: Iterable[File] = ()) -> None:
        self.names: Dict[Path, int] = {}
        self.changes: List[Change] = []
        self.readings: Dict[Tuple[str, Place], Reading] = {}
        self.unflushed: Dict[int, str] = {}
        self._paths: Dict[int, Dict[Path, None]] = {}
        self._in: DefaultDict[Tuple[bytes, str], Set[bytes]] = defaultdict(set)
        # Of files that were there at the beginning, which may be open since then: the last one of each path.
        self._former: Dict[Path, List[int]] = {}
        self._files = 0
        self._undo: List[Callable[[], Any]] = []
        # How many names of tmp were made up.
        self._made_up = 0
        # The lines of the log since it was settled.
        self.told: List[Any] = []
        # Whether comments tell which names were only looked at, for which a log has no word.
        self.tells_looks = False
        self._first_files = 0
        for file in files:
            number = self.new_file()
            for path in file.paths:
                self.put(path, number)
        self._first_files = self._files
        self.settle()

    def settle(self) -> None:
        """What was changed and told so far is for good."""
        self._undo.clear()
        self.changes.clear()
        self.told.clear()
        if len(self.unflushed) > 2 * len(self._paths) + 64:
            self.unflushed = {file: actor for file, actor in self.unflushed.items() if file in self._paths}

    def mark(self) -> int:
        """A moment to come back to."""
        return len(self._undo)

    def take_back(self, mark: int) -> None:
        """Takes back all that was changed since."""
        while len(self._undo) > mark:
            self._undo.pop()()

    def change(self, what: Any, field: str, value: Any) -> None:
        """Changes a field of an object."""
        former = getattr(what, field)
        setattr(what, field, value)
        self._undo.append(lambda: setattr(what, field, former))

    def _keep(self, kept: Dict[K, V], key: K, value: Optional[V]) -> None:
        """Keeps a value, or none any more."""
        former = kept.get(key)
        _put(kept, key, value)
        self._undo.append(lambda: _put(kept, key, former))

    def new_file(self) -> int:
        """A file of no name yet."""
        self._files += 1
        return self._files

    def made_up(self, folder: bytes) -> Path:
        """A name in tmp that nothing has, for a file that comes from outside."""
        while True:
            self.change(self, "_made_up", self._made_up + 1)
            path = Path(folder, "tmp", b"arrived.%d" % self._made_up)
            if path not in self.names:
                return path

    def put(self, path: Path, file: int) -> None:
        """Has a path name a file, and no other any more."""
        former = self.names.get(path)
        if former == file:
            return
        if former is not None:
            self.take(path)
        self._name(path, file)
        self._undo.append(lambda: self._unname(path, file))
        self._tell(path, True)

    def take(self, path: Path) -> None:
        """Takes a path away."""
        file = self.names.get(path)
        if file is None:
            return
        self._unname(path, file)
        self._undo.append(lambda: self._name(path, file))
        if file <= self._first_files:
            self._former.setdefault(path, []).append(file)
            self._undo.append(self._former[path].pop)
        self._tell(path, False)

    def path_of(self, file: Optional[int]) -> Optional[Path]:
        """A path that a file has now."""
        return next(iter(self._paths.get(file, {})), None) if file is not None else None

    def last_of(self, path: Path) -> Optional[int]:
        """The file that a path named last, where it names none."""
        former = self._former.get(path)
        return former[-1] if former else None

    def names_in(self, place: Place) -> Set[bytes]:
        """The names of a directory."""
        return self._in.get((place.folder, place.place), set())

    def start_reading(self, actor: str, place: Place, owner: Turn) -> Reading:
        """A new reading of a directory, in place of the actor's last."""
        reading = Reading(owner, self.names_in(place))
        self._keep(self.readings, (actor, place), reading)
        return reading

    def end_reading(self, actor: str, place: Place) -> None:
        """The actor's reading is over."""
        self._keep(self.readings, (actor, place), None)

    def show(self, reading: Reading, names: Iterable[bytes]) -> None:
        """Adds names that a reading showed."""
        new = set(names) - reading.shown
        reading.shown |= new
        self._undo.append(lambda: reading.shown.difference_update(new))

    def set_unflushed(self, file: int, actor: Optional[str]) -> None:
        """Whether a file was written to since its last flush, and by whom."""
        self._keep(self.unflushed, file, actor)

    def _tell(self, path: Path, is_there: bool) -> None:
        self.changes.append(Change(len(self.told), path, is_there))
        self._undo.append(self.changes.pop)
        for (_, place), reading in self.readings.items() if self.readings else ():
            if path[:2] == place:
                self._tell_reading(reading, path.name, is_there)

    def _tell_reading(self, reading: Reading, name: bytes, is_there: bool) -> None:
        if is_there and name not in reading.sometimes:
            reading.sometimes.add(name)
            self._undo.append(lambda: reading.sometimes.discard(name))
        if not is_there and name in reading.always:
            reading.always.discard(name)
            self._undo.append(lambda: reading.always.add(name))

    def _name(self, path: Path, file: int) -> None:
        self.names[path] = file
        paths = self._paths.get(file)
        if paths is None:
            self._paths[file] = {path: None}
        else:
            paths[path] = None
        self._in[path.folder, path.place].add(path.name)

    def _unname(self, path: Path, file: int) -> None:
        del self.names[path]
        paths = self._paths[file]
        del paths[path]
        if not paths:
            del self._paths[file]
        self._in[path.folder, path.place].discard(path.name)


def _put(kept: Dict[K, V], key: K, value: Optional[V]) -> None:
    if value is None:
        kept.pop(key, None)
    else:
        kept[key] = value
