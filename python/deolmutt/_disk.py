"""Mailbox trees on a disk, read and written as `mailbox.Maildir` lays them out."""

from __future__ import annotations

import os
import stat
import warnings
from contextlib import suppress
from typing import Iterator, NamedTuple, Optional, Union

from ._message import Message, message_of
from ._names import fresh_unique
from ._numbers import PLACES
from ._tree import TOP, Trail
from .calls import Place
from .lines import encoded

StrPath = Union[str, "os.PathLike[str]"]

_MODE = 0o700
_FILE_MODE = 0o600
_NAME_BYTES = 255
# A file that goes to another name while it is looked for is looked for again so often.
_TRIES = 8


class File(NamedTuple):
    """A message's file: the message, its bytes, when it was delivered, in seconds since 1970, and the file's number on the disk."""

    message: Message
    body: bytes
    date: float
    number: int


class LeftOut(UserWarning):
    """A file or a folder of a tree that the store can't have."""


def directory_of(tree: str, trail: Trail) -> str:
    """Where a folder is."""
    return os.path.join(tree, *("." + name for name in trail))


def find_folders(tree: str, trail: Trail = TOP) -> Iterator[Trail]:
    """The folders below a folder, each before those in it: directories that begin with a dot."""
    directory = directory_of(tree, trail)
    for name in sorted(os.listdir(directory)):
        path = os.path.join(directory, name)
        if len(name) < 2 or not name.startswith(".") or not os.path.isdir(path):
            continue
        if not is_maildir(path):
            warnings.warn(f"{path}: left out: it lacks new or cur", LeftOut, stacklevel=2)
            continue
        yield (*trail, name[1:])
        yield from find_folders(tree, (*trail, name[1:]))


def is_maildir(path: str) -> bool:
    """Whether a directory has new and cur."""
    return all(map(os.path.isdir, new_and_cur(path)))


def new_and_cur(path: str) -> list[str]:
    """Where the messages of a folder are."""
    return [os.path.join(path, place.value) for place in Place]


def read_files(directory: str, colon: str) -> Iterator[File]:
    """The messages of a folder.

    New is read before cur, and a directory again where a file's name is gone, so that a message is
    met whose name others change meanwhile. A message that is met twice is the same file.
    """
    met: set[tuple[str, int]] = set()
    for place in Place:
        for _ in range(_TRIES):
            is_whole = True
            for name in sorted(os.listdir(os.path.join(directory, place.value))):
                try:
                    file = _read(directory, place, name, colon)
                except FileNotFoundError:
                    is_whole = False
                    continue
                if file is not None and (file.message.unique, file.number) not in met:
                    met.add((file.message.unique, file.number))
                    yield file
            if is_whole:
                break


def _read(directory: str, place: Place, name: str, colon: str) -> Optional[File]:
    """A file; none where the name is no message's."""
    message = message_of(name, place, colon)
    if not message.unique or message.unique.startswith("."):
        return None
    path = os.path.join(directory, place.value, name)
    # What is no file is not waited for.
    if not stat.S_ISREG(os.stat(path).st_mode):
        return None
    with open(path, "rb") as file:
        status = os.fstat(file.fileno())
        return File(message, file.read(), status.st_mtime, status.st_ino)


def make_maildir(path: str) -> None:
    """Makes a maildir where nothing is yet."""
    for directory in _directories(path):
        os.mkdir(directory, _MODE)


def make_folder(path: str, is_top: bool) -> None:
    """Makes what of a folder isn't there."""
    for directory in _directories(path):
        os.makedirs(directory, _MODE, exist_ok=True)
    if not is_top:
        mark_folder(path)


def mark_folder(path: str) -> None:
    """Marks a folder in another as one, by Maildir++."""
    os.close(os.open(os.path.join(path, "maildirfolder"), os.O_CREAT | os.O_WRONLY | os.O_CLOEXEC, 0o666))


def _directories(path: str) -> list[str]:
    return [path, *(os.path.join(path, place) for place in PLACES)]


def uniques_in(directory: str, colon: str) -> set[str]:
    """The unique names that a folder has, if it is there."""
    paths = filter(os.path.isdir, new_and_cur(directory))
    return {name.partition(colon)[0] for path in paths for name in os.listdir(path)}


def write_file(path: str, body: bytes, date: float) -> None:
    """Delivers a file: it is written to tmp, flushed, and linked to its place, where none is yet."""
    fresh = os.path.join(os.path.dirname(path), os.pardir, "tmp", fresh_unique())
    flags = os.O_WRONLY | os.O_CREAT | os.O_EXCL | os.O_CLOEXEC
    with open(os.open(fresh, flags, _FILE_MODE), "wb") as out:
        try:
            out.write(body)
            out.flush()
            os.utime(fresh, (date, date))
            os.fsync(out.fileno())
            _place(fresh, path)
        finally:
            with suppress(FileNotFoundError):
                os.unlink(fresh)


def _place(fresh: str, path: str) -> None:
    try:
        os.link(fresh, path)
    except PermissionError:
        # Some file systems have no links.
        if os.path.lexists(path):
            raise FileExistsError(path) from None
        os.rename(fresh, path)


def is_sayable(info: Optional[str]) -> bool:
    """Whether a line of the store can say a message's info, after a unique name of this package."""
    text = info or ""
    size = len(encoded(text)) + len(fresh_unique()) + 1
    return size <= _NAME_BYTES and not set(text) & set(" \n\r")
