"""The tree that an export goes to."""

from __future__ import annotations

import errno
import os
from concurrent.futures import Executor
from contextlib import suppress
from dataclasses import dataclass, field
from typing import Optional

from .descriptors import let_go
from .deliveries import Deliveries, Delivery
from .folder_names import Steps
from .open_maildir import OpenMaildir
from .refused import Refused
from .report import Reason, Report
from .script_lines import FileLine
from .shown import because, shown

# After these failures no other file can be written either.
_NO_MORE = (errno.ENOSPC, errno.EDQUOT, errno.EROFS)


class Stopped(Exception):
    """No more can be written. What is at its place stays there."""


@dataclass
class Totals:
    """What was written so far, or would be in a dry run."""

    folders: set[Steps] = field(default_factory=set)
    new_folders: set[Steps] = field(default_factory=set)
    files: int = 0
    body_bytes: int = 0

    def add(self, file: FileLine) -> None:
        """Counts a file."""
        self.files += 1
        self.body_bytes += len(file.body)


class Target:
    """A tree, of which one folder is open at a time. A dry run only looks at it."""

    def __init__(self, tree: bytes, report: Report, flushers: Executor, is_dry: bool) -> None:
        self._tree = tree
        self._report = report
        self._flushers = flushers
        self._is_dry = is_dry
        self._top = self._open_top()
        self._steps: Optional[Steps] = None
        self._maildir: Optional[OpenMaildir] = None
        self._deliveries: Optional[Deliveries] = None
        # Why the folder can't be opened, if so.
        self._trouble = ""
        self.totals = Totals()

    def _open_top(self) -> Optional[int]:
        """The tree's directory, or None in a dry run where it isn't there."""
        try:
            if not self._is_dry:
                with suppress(FileExistsError):
                    os.mkdir(self._tree, 0o700)
            return os.open(self._tree, os.O_RDONLY | os.O_DIRECTORY | os.O_CLOEXEC)
        except FileNotFoundError as error:
            if self._is_dry:
                return None
            raise Refused(f"{shown(self._tree)}: can't be made: {because(error)}") from error
        except OSError as error:
            raise Refused(f"{shown(self._tree)}: can't be opened: {because(error)}") from error

    def take_folder(self, steps: Steps) -> None:
        """Makes a folder where it isn't there."""
        self._enter(steps)
        if self._trouble:
            self._report.add(self._path(steps), Reason.NO_FOLDER, self._trouble)
            return
        self.totals.folders.add(steps)
        if self._maildir is None or self._maildir.is_new:
            self.totals.new_folders.add(steps)

    def take_file(self, file: FileLine) -> None:
        """Writes a file, where none is at its place."""
        if file.steps != self._steps:
            self._enter(file.steps)
        try:
            if self._trouble:
                self._tell(file, Reason.NO_FOLDER, self._trouble)
            elif self._maildir is not None and self._maildir.has(file.place, file.name):
                self._tell(file, Reason.THERE)
            elif self._deliveries is None:
                self.totals.add(file)
            else:
                self._deliveries.write(file)
        except OSError as error:
            self._fail(file, error)
            _stop_after(error)
        if self._deliveries is not None and self._deliveries.is_full:
            self._settle()

    def _enter(self, steps: Steps) -> None:
        self.leave()
        self._steps, self._trouble = steps, ""
        if self._top is None:
            return
        try:
            self._maildir = OpenMaildir(self._top, steps, is_to_be_made=not self._is_dry)
        except OSError as error:
            self._trouble = because(error)
            return
        if not self._is_dry:
            self._deliveries = Deliveries(self._maildir, self._flushers)

    def leave(self) -> None:
        """Ends the open folder: its files come to their places, and its names to the disk."""
        try:
            if self._deliveries is not None:
                self._settle()
                self._sync()
        finally:
            self.close_folder()

    def _settle(self) -> None:
        assert self._deliveries is not None
        deliveries = list(self._deliveries.settle())
        for delivery in deliveries:
            self._count(delivery)
        for delivery in deliveries:
            _stop_after(delivery.failure)

    def _count(self, delivery: Delivery) -> None:
        if delivery.failure is not None:
            self._fail(delivery.file, delivery.failure)
            return
        self.totals.add(delivery.file)
        if not delivery.keeps_time:
            self._tell(delivery.file, Reason.OTHER_TIME)

    def _fail(self, file: FileLine, error: OSError) -> None:
        if isinstance(error, FileExistsError):
            self._tell(file, Reason.THERE)
        else:
            self._tell(file, Reason.UNWRITTEN, because(error))

    def _sync(self) -> None:
        assert self._maildir is not None and self._steps is not None
        try:
            self._maildir.sync()
        except OSError as error:
            self._report.add(self._path(self._steps), Reason.UNFLUSHED, because(error))

    def _tell(self, file: FileLine, reason: Reason, detail: str = "") -> None:
        self._report.add(os.path.join(self._path(file.steps), file.place, file.name), reason, detail)

    def _path(self, steps: Steps) -> bytes:
        return os.path.join(self._tree, *steps)

    def close_folder(self) -> None:
        """Lets the open folder go, and takes away what is half done in it."""
        if self._deliveries is not None:
            self._deliveries.discard()
        if self._maildir is not None:
            self._maildir.close()
        self._steps, self._maildir, self._deliveries = None, None, None

    def close(self) -> None:
        """Lets the tree go."""
        self.close_folder()
        if self._top is not None:
            top, self._top = self._top, None
            let_go(top)


def _stop_after(error: Optional[OSError]) -> None:
    if error is not None and error.errno in _NO_MORE:
        raise Stopped(because(error))
