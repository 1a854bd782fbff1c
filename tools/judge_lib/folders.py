"""The folders that are judged, and which paths lie in them."""

from __future__ import annotations

import os
from functools import lru_cache
from typing import Callable, Dict, Iterable, Iterator, List, NamedTuple, Set, Tuple, Union

from .names import PLACES, Path
from .refused import Refused

_MOST_DEEP = 2
# So many paths are kept as they were resolved.
_MOST_KEPT = 4096
_NO_NAMES = (b"", b".", b"..")


class Place(NamedTuple):
    """One of the three directories of a folder."""

    folder: bytes
    place: str


class Folder(NamedTuple):
    """A maildir: its name in the log, its directory, and whether it may be that the command makes it."""

    name: bytes
    directory: bytes
    is_to_be_made: bool = False


class Folders:
    """The judged folders. `resolve` follows the symbolic links of a directory's path."""

    def __init__(self, folders: Iterable[Folder], resolve: Callable[[bytes], bytes] = os.path.realpath) -> None:
        self.folders = list(folders)
        self._real: Callable[[bytes], bytes] = lru_cache(_MOST_KEPT)(resolve)
        # What a path from the root is: a file of a folder, one of its directories, or neither.
        self.where: Callable[[bytes], Union[Path, Place, None]] = lru_cache(_MOST_KEPT)(self._where)
        self._places: Dict[bytes, Place] = {}
        # The places, by each path by which a program has named a file in them.
        self._named: Dict[bytes, Place] = {}
        # The directories that the command has yet to make.
        self.absent: Set[Place] = set()
        for folder in self.folders:
            for place in PLACES:
                directory = self._real(os.path.join(folder.directory, place.encode()))
                self._places[directory] = Place(folder.name, place)
                if folder.is_to_be_made:
                    self.absent.add(self._places[directory])
        # The places and all directories that they are in, and whether one of them is in another.
        self._above = {above for directory in self._places for above in _with_all_above(directory)}
        self.is_nested = any(above in self._places for directory in self._places for above in list(_with_all_above(directory))[1:])

    def _where(self, path: bytes) -> Union[Path, Place, None]:
        parent, _, name = path.rpartition(b"/")
        place = self._named.get(parent)
        if place is not None and name not in _NO_NAMES:
            return Path(place.folder, place.place, name)
        return self._sought(path)

    def _sought(self, path: bytes) -> Union[Path, Place, None]:
        named, _, name = path.rstrip(b"/").rpartition(b"/")
        if name in _NO_NAMES:
            return self._places.get(self._real(path))
        parent = self._real(named or b"/")
        place = self._places.get(parent)
        if place is not None:
            self._named[named] = place
            return Path(place.folder, place.place, name)
        return self._places.get(os.path.join(parent, name)) or self._places.get(self._real(path))

    def outside(self, path: bytes, is_followed: bool = False) -> bytes:
        """The path of a file outside without links, as the system knows it. The last name is one that may be a link itself, or is followed."""
        parent, _, name = path.rstrip(b"/").rpartition(b"/")
        return self._real(path) if is_followed or name in _NO_NAMES else os.path.join(self._real(parent or b"/"), name)

    def holds(self, path: bytes) -> bool:
        """Whether a judged directory is at a path or below it."""
        return self._real(path) in self._above


def _with_all_above(directory: bytes) -> Iterator[bytes]:
    while directory not in (b"", b"/"):
        yield directory
        directory = directory.rpartition(b"/")[0]
    yield b"/"


def is_maildir(directory: bytes) -> bool:
    """Whether a directory has the three places of a maildir."""
    return all(os.path.isdir(os.path.join(directory, place.encode())) for place in PLACES)


def named_folders(words: List[bytes], base: bytes) -> List[Folder]:
    """The folders of words `DIR` or `NAME=DIR`. Without a name a folder has the last step of its directory's path; a name has no slash. Where
    nothing is there yet, the command has to make it."""
    folders = []
    for word in words:
        name, is_named, directory = word.rpartition(b"=")
        if b"/" in name or is_named and os.path.isdir(os.path.join(base, word)):
            name, directory = b"", word
        directory = os.path.join(base, directory)
        is_to_be_made = not os.path.lexists(directory)
        if not is_to_be_made and not is_maildir(directory):
            raise Refused(f"{os.fsdecode(word)}: is no maildir: it lacks tmp, new or cur")
        folders.append(Folder(name or os.path.basename(os.path.abspath(directory)), directory, is_to_be_made))
    return _told_apart(folders)


def check_made(folders: Iterable[Folder]) -> None:
    """Refuses folders that the command should have made."""
    for folder in folders:
        if folder.is_to_be_made and not is_maildir(folder.directory):
            raise Refused(f"{os.fsdecode(folder.directory)}: is no maildir, and the command made none there")


def found_folders(base: bytes, may_be_none: bool = False) -> List[Folder]:
    """The maildirs at and below a directory, two steps deep at most."""
    there = _directories(os.path.abspath(base), _MOST_DEEP)
    found = [Folder(os.path.basename(directory), directory) for directory in there if is_maildir(directory)]
    if not found and not may_be_none:
        raise Refused("there is no maildir here: name one by --folder DIR")
    return _told_apart(found)


def _directories(directory: bytes, deep: int) -> List[bytes]:
    places = [place.encode() for place in PLACES]
    with os.scandir(directory) as entries:
        below = sorted(entry.path for entry in entries if entry.is_dir(follow_symlinks=False) and entry.name not in places)
    return [directory] + ([each for child in below for each in _directories(child, deep - 1)] if deep else [])


def _told_apart(folders: List[Folder]) -> List[Folder]:
    names = [folder.name for folder in folders]
    for name in names:
        if names.count(name) > 1:
            raise Refused(f"two folders are named {os.fsdecode(name)}: give names, by --folder NAME=DIR")
    return folders


class File(NamedTuple):
    """A file that is there at the beginning, by all of its names, and the second of its last change."""

    paths: Tuple[Path, ...]
    stamp: int
    is_regular: bool = True


def files_of(folders: Iterable[Folder]) -> List[File]:
    """The files that are in the folders now. Files of several names are told by device and number."""
    found: Dict[Tuple[int, int], File] = {}
    for folder in folders:
        for place in PLACES:
            if folder.is_to_be_made:
                continue
            with os.scandir(os.path.join(folder.directory, place.encode())) as entries:
                for entry in sorted(entries, key=lambda each: each.name):
                    _add(found, Path(folder.name, place, entry.name), entry)
    return list(found.values())


def _add(found: Dict[Tuple[int, int], File], path: Path, entry: os.DirEntry[bytes]) -> None:
    try:
        status = entry.stat(follow_symlinks=False)
    except FileNotFoundError:
        return
    key = (status.st_dev, status.st_ino)
    former = found.get(key)
    paths = (*former.paths, path) if former else (path,)
    found[key] = File(paths, max(0, int(status.st_mtime)), entry.is_file(follow_symlinks=False))
