"""The import: a maildir tree as scripts."""

from __future__ import annotations

from collections import deque
from dataclasses import dataclass
from typing import Any, NamedTuple, Union

from .interrupts import Interrupts
from .language import Limits
from .outputs import Output
from .parts import Outcome, Part, head
from .report import Report
from .tree import File, Folder, find_folders, list_files

# What a script names.
Name = Union[Folder, File]


class Written(NamedTuple):
    """What an import writes."""

    folders: int
    files: int
    script_bytes: int
    scripts: int


@dataclass
class Import:
    """One run: first all names are read, then one file after another."""

    output: Output[Any]
    report: Report
    interrupts: Interrupts
    with_bodies: bool = True
    limits: Limits = Limits()

    def run(self, tree: bytes) -> Written:
        """Writes the scripts, which come to their places once all are whole."""
        try:
            written = self._write(self._names(tree))
            self.output.seal(lambda number, total: head(number, total, self.with_bodies))
            self.interrupts.check()
            self.output.publish()
            return written
        except BaseException:
            self.output.discard()
            raise

    def _names(self, tree: bytes) -> deque[Name]:
        """Each folder, followed by its files."""
        names: deque[Name] = deque()
        for folder in find_folders(tree, self.report, self.interrupts.check):
            names.append(folder)
            for file in list_files(folder, self.report):
                self.interrupts.check()
                names.append(file)
        return names

    def _write(self, waiting: deque[Name]) -> Written:
        total = len(waiting)
        folders: set[bytes] = set()
        files = size = scripts = 0
        why = ""
        while waiting:
            draft = self.output.begin(why)
            part = Part(draft, self.limits, self.with_bodies, self.report, self.interrupts.check)
            self._fill(part, waiting, total)
            draft.set_aside()
            why = part.why_another
            folders |= part.folders
            files, size, scripts = files + part.files, size + draft.size, scripts + 1
        return Written(len(folders), files, size, scripts)

    def _fill(self, part: Part, waiting: deque[Name], total: int) -> None:
        """Moves what the part takes into it, up to the first that it has no room for."""
        later: list[Name] = []
        while waiting:
            self.interrupts.check()
            self.report.progress.show("read", total - len(waiting) - len(later), total)
            item = waiting.popleft()
            outcome = part.take_folder(item) if isinstance(item, Folder) else part.take_file(item)
            if outcome is Outcome.LATER:
                later.append(item)
            elif outcome is Outcome.FULL:
                waiting.appendleft(item)
                break
        waiting.extendleft(reversed(later))
