"""The folders of a maildir tree and the files in them, with a word on each that can't be taken."""

from __future__ import annotations

import os
from dataclasses import dataclass
from enum import Enum
from typing import Callable, Iterator, NamedTuple, Optional, Sequence

from .folder_names import INBOX, Steps, folder_name, is_reserved
from .language import FILE_NAME_BYTES, PLACES, has_long_unique_name, is_folder_name
from .refused import Refused
from .report import Reason, Report
from .shown import because, shown


@dataclass(frozen=True)
class Folder:
    """A maildir: its name in scripts, and its directory."""

    name: bytes
    directory: bytes


class File(NamedTuple):
    """A name in a folder that a script can say."""

    folder: Folder
    place: bytes
    name: bytes

    @property
    def path(self) -> bytes:
        """Where the file is."""
        return b"/".join((self.folder.directory, self.place, self.name))


class _What(Enum):
    """What a name is, and why a script can't say it, if so."""

    DIRECTORY = Reason.DIRECTORY
    FILE = None
    LINK = Reason.SYMBOLIC_LINK
    SPECIAL = Reason.SPECIAL


class _Entry(NamedTuple):
    name: bytes
    what: _What


def find_folders(tree: bytes, report: Report, check: Callable[[], None]) -> list[Folder]:
    """All maildirs of a tree, INBOX first and then in order of their names.

    No symbolic link is followed but the tree's own.
    """
    if not os.path.isdir(tree):
        raise Refused(f"{shown(tree)}: is no directory")
    found: list[Folder] = []
    pending: list[Steps] = [()]
    while pending:
        check()
        steps = pending.pop()
        entries = _entries(os.path.join(tree, *steps), report)
        below = _take_directory(tree, steps, entries, found, report)
        pending.extend(steps + (name,) for name in below)
    if not found:
        raise Refused(f"{shown(tree)}: has no maildir that a script can say")
    return sorted(found, key=lambda folder: (folder.name != INBOX, folder.name))


def _take_directory(
    tree: bytes, steps: Steps, entries: list[_Entry], found: list[Folder], report: Report
) -> list[bytes]:
    """Adds the directory where it is a maildir, and answers in which of its own others may be."""
    whats = {entry.name: entry.what for entry in entries}
    places = [place for place in PLACES if whats.get(place) is _What.DIRECTORY]
    has_mail = b"new" in places or b"cur" in places
    directory = os.path.join(tree, *steps)
    if len(places) == len(PLACES):
        _take_maildir(directory, steps, found, report)
    elif has_mail:
        report.add(directory, Reason.INCOMPLETE, files=_count_files(directory, places))
    others = [entry for entry in entries if not (entry.name in places and has_mail)]
    for entry in others:
        _tell_beside(os.path.join(directory, entry.name), entry.what, report)
    return [entry.name for entry in others if entry.what is _What.DIRECTORY]


def _take_maildir(directory: bytes, steps: Steps, found: list[Folder], report: Report) -> None:
    name = folder_name(steps)
    if is_reserved(steps):
        report.add(directory, Reason.RESERVED_FOLDER_NAME, files=_count_files(directory, PLACES))
    elif not is_folder_name(name):
        report.add(directory, Reason.LONG_FOLDER_NAME, shown(name), files=_count_files(directory, PLACES))
    else:
        found.append(Folder(name, directory))


def _tell_beside(path: bytes, what: _What, report: Report) -> None:
    if what is _What.LINK and os.path.isdir(path):
        report.add(path, Reason.SYMBOLIC_LINK)
    elif what is not _What.DIRECTORY:
        report.pass_over(os.path.basename(path))


def _count_files(directory: bytes, places: Sequence[bytes]) -> int:
    """How many names a maildir has that is left out, and 1 at least."""
    count = 0
    for place in places:
        try:
            count += len(os.listdir(os.path.join(directory, place)))
        except OSError:
            count += 1
    return max(count, 1)


def list_files(folder: Folder, report: Report) -> Iterator[File]:
    """The files of a folder that a script can say, in order of their names.

    New is read before cur, so that a message that goes from new to cur meanwhile is met.
    """
    for place in PLACES:
        for entry in _entries(os.path.join(folder.directory, place), report):
            file = File(folder, place, entry.name)
            reason = entry.what.value or name_reason(place, entry.name)
            if reason is None:
                yield file
            else:
                report.add(file.path, reason)


def name_reason(place: bytes, name: bytes) -> Optional[Reason]:
    """Why a script can't say a file of this name, if so."""
    if b" " in name:
        return Reason.SPACE
    if b"\n" in name or b"\r" in name:
        return Reason.LINE_END
    if len(name) > FILE_NAME_BYTES:
        return Reason.LONG_NAME
    if has_long_unique_name(place, name):
        return Reason.LONG_UNIQUE_NAME
    return None


def _entries(directory: bytes, report: Report) -> list[_Entry]:
    """What a directory holds, in order; nothing, and a word on it, where it can't be listed."""
    try:
        with os.scandir(directory) as listing:
            found = [_Entry(entry.name, _what(entry)) for entry in listing]
        return sorted(found, key=lambda entry: entry.name)
    except OSError as error:
        report.add(directory, Reason.UNREADABLE, because(error))
        return []


def _what(entry: os.DirEntry[bytes]) -> _What:
    if entry.is_symlink():
        return _What.LINK
    if entry.is_dir(follow_symlinks=False):
        return _What.DIRECTORY
    if entry.is_file(follow_symlinks=False):
        return _What.FILE
    return _What.SPECIAL
