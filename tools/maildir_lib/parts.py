"""One script while files are put into it, up to its limits."""

from __future__ import annotations

import errno
from enum import Enum
from itertools import chain
from typing import Callable, Iterator

from .drafts import Draft
from .language import Limits, escape, unique_name
from .message import Message, opened, up_to_empty_line
from .report import Reason, Report
from .shown import because, shown
from .tree import File, Folder

_HEAD_BYTES = 72


def head(number: int, total: int, with_bodies: bool) -> bytes:
    """The first line of a script, of fixed length: the total is known only when all are written."""
    bodies = "" if with_bodies else ", headers alone"
    text = f"# maildir import, part {number} of {total}{bodies}"
    return text.encode().ljust(_HEAD_BYTES - 1) + b"\n"


def _folder_line(folder: Folder) -> bytes:
    return b"folder %b\n" % folder.name


class Outcome(Enum):
    """What became of a folder or a file that was offered to a part."""

    TAKEN = "it is written, or left out of all parts"
    LATER = "a message of its unique name is in the part"
    FULL = "the part has no room for it"


class Part:
    """A script that grows line by line.

    Of a line that doesn't fit, or whose file can't be read to its end, nothing stays in it.
    """

    def __init__(self, draft: Draft, limits: Limits, with_bodies: bool, report: Report, check: Callable[[], None]) -> None:
        self._draft = draft
        self._limits = limits
        self._with_bodies = with_bodies
        self._report = report
        self._check = check
        self._unique_names: set[bytes] = set()
        self.folders: set[bytes] = set()
        self.files = 0
        # Why what was offered last needs another part.
        self.why_another = ""
        draft.write(head(1, 1, with_bodies))

    def take_folder(self, folder: Folder) -> Outcome:
        """Names a folder, which may be an empty one."""
        if not self._has_place_for(folder):
            return self._full_of("folders", self._limits.folders)
        line = _folder_line(folder)
        if self._draft.size + len(line) > self._limits.script_bytes:
            return self._full_of("bytes", self._limits.script_bytes)
        self._draft.write(line)
        self.folders.add(folder.name)
        return Outcome.TAKEN

    def take_file(self, file: File) -> Outcome:
        """Writes a file, and the name of its folder where it isn't there."""
        unique = unique_name(file.place, file.name)
        if unique is not None and unique in self._unique_names:
            self.why_another = f"two messages have the unique name {shown(unique)}"
            return Outcome.LATER
        if not self._has_place_for(file.folder):
            return self._full_of("folders", self._limits.folders)
        start = self._draft.size
        try:
            with opened(file.path) as message:
                return self._take_message(file, message)
        except OSError as error:
            self._draft.cut(start)
            self._leave_unread(file, error)
            return Outcome.TAKEN

    def _take_message(self, file: File, message: Message) -> Outcome:
        start = self._draft.size
        folder_line = b"" if file.folder.name in self.folders else _folder_line(file.folder)
        words = b"file %b %b %b %d " % (file.folder.name, file.place, file.name, max(message.seconds, 0))
        length = self._write_line(folder_line + words, message)
        if start + length > self._limits.script_bytes:
            self._draft.cut(start)
            return self._refuse_line(file, length)
        self._add(file)
        if message.seconds < 0:
            self._report.add(file.path, Reason.EARLY)
        return Outcome.TAKEN

    def _write_line(self, words: bytes, message: Message) -> int:
        """Writes a file's line as far as it fits, and says how long it is.

        It stops where the line is longer than any script.
        """
        left = self._limits.script_bytes - self._draft.size
        length = 0
        for text in chain((words,), self._escaped_pieces(message), (b"\n",)):
            length += len(text)
            if length <= left:
                self._draft.write(text)
            if length > self._limits.script_bytes:
                break
        return length

    def _escaped_pieces(self, message: Message) -> Iterator[bytes]:
        pieces = message.pieces() if self._with_bodies else up_to_empty_line(message.pieces())
        for piece in pieces:
            self._check()
            yield escape(piece)

    def _refuse_line(self, file: File, length: int) -> Outcome:
        """Leaves a file out that no part has room for."""
        needed = _HEAD_BYTES + length
        if file.folder.name in self.folders:
            needed += len(_folder_line(file.folder))
        if needed <= self._limits.script_bytes:
            return self._full_of("bytes", self._limits.script_bytes)
        self._report.add(file.path, Reason.LARGE)
        return Outcome.TAKEN

    def _leave_unread(self, file: File, error: OSError) -> None:
        if isinstance(error, FileNotFoundError):
            self._report.add(file.path, Reason.GONE)
        elif error.errno == errno.ELOOP:
            self._report.add(file.path, Reason.SYMBOLIC_LINK)
        else:
            self._report.add(file.path, Reason.UNREADABLE, because(error))

    def _add(self, file: File) -> None:
        unique = unique_name(file.place, file.name)
        if unique is not None:
            self._unique_names.add(unique)
        self.folders.add(file.folder.name)
        self.files += 1

    def _has_place_for(self, folder: Folder) -> bool:
        return folder.name in self.folders or len(self.folders) < self._limits.folders

    def _full_of(self, what: str, most: int) -> Outcome:
        self.why_another = f"a script has at most {most:,} {what}"
        return Outcome.FULL
