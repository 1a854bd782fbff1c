"""What a run could not take over, said line by line on standard error and counted by reason."""

from __future__ import annotations

from collections import Counter
from enum import Enum
from typing import TextIO

from .progress import Progress
from .shown import shown

_MOST_NAMES = 12


class Kind(Enum):
    """What became of a file that a line is printed of."""

    LEFT_OUT = "left out"
    CHANGED = "changed"


class Reason(Enum):
    """Why a file is left out or changed."""

    SPACE = (Kind.LEFT_OUT, "its name has a space")
    LINE_END = (Kind.LEFT_OUT, "its name has LF or CR")
    LONG_NAME = (Kind.LEFT_OUT, "its name is over 255 bytes")
    LONG_UNIQUE_NAME = (Kind.LEFT_OUT, "its unique name is over 200 bytes")
    SYMBOLIC_LINK = (Kind.LEFT_OUT, "it is a symbolic link")
    DIRECTORY = (Kind.LEFT_OUT, "it is a directory")
    SPECIAL = (Kind.LEFT_OUT, "it is a fifo, a socket or a device")
    UNREADABLE = (Kind.LEFT_OUT, "it can't be read")
    GONE = (Kind.LEFT_OUT, "it was moved or removed meanwhile")
    LARGE = (Kind.LEFT_OUT, "it is larger than a script may be")
    LONG_FOLDER_NAME = (Kind.LEFT_OUT, "its folder's name is over 100 bytes in a script")
    RESERVED_FOLDER_NAME = (Kind.LEFT_OUT, "its folder is under a directory named tmp, new or cur")
    INCOMPLETE = (Kind.LEFT_OUT, "it lacks one of tmp, new and cur")
    THERE = (Kind.LEFT_OUT, "it is there already")
    NO_FOLDER = (Kind.LEFT_OUT, "its folder can't be opened or made")
    UNWRITTEN = (Kind.LEFT_OUT, "it can't be written")
    UNFLUSHED = (Kind.LEFT_OUT, "its names can't be flushed to the disk")
    EARLY = (Kind.CHANGED, "its time is before 1970, and is given as 0")
    OTHER_TIME = (Kind.CHANGED, "the file system keeps another time for it")

    @property
    def kind(self) -> Kind:
        """What becomes of a file for this reason."""
        return self.value[0]

    @property
    def text(self) -> str:
        """The reason in words."""
        return self.value[1]


class Report:
    """Prints a line for each file that was not taken over as it is, and counts them."""

    def __init__(self, stream: TextIO, progress: Progress) -> None:
        self._stream = stream
        self.progress = progress
        self._counts: Counter[Reason] = Counter()
        self._passed_over: Counter[bytes] = Counter()

    def add(self, path: bytes, reason: Reason, detail: str = "", files: int = 1) -> None:
        """Says what became of a path, which stands for so many files."""
        self._counts[reason] += files
        self.say(f"{reason.kind.value}: {shown(path)}: {reason.text}" + (f": {detail}" if detail else ""))

    def pass_over(self, name: bytes) -> None:
        """Counts a file that is no mail: it is in none of tmp, new and cur."""
        self._passed_over[name] += 1

    def say(self, text: str) -> None:
        """Prints a line, in place of the progress line that may stand there."""
        self.progress.clear()
        self._stream.write(f"maildir: {text}\n")
        self._stream.flush()

    def count(self, kind: Kind) -> int:
        """How many files were left out or changed."""
        return sum(count for reason, count in self._counts.items() if reason.kind is kind)

    def is_whole(self) -> bool:
        """Whether everything was taken over as it is. Files that are no mail don't matter."""
        return self.count(Kind.LEFT_OUT) == 0 and self.count(Kind.CHANGED) == 0

    def totals(self) -> list[str]:
        """A line for each kind that was met, with the number of each reason."""
        lines = [self._total(kind) for kind in Kind if self.count(kind)]
        return lines + ([self._total_passed_over()] if self._passed_over else [])

    def _total(self, kind: Kind) -> str:
        met = [reason for reason in Reason if reason.kind is kind and self._counts[reason]]
        parts = [f"{self._counts[reason]:,} since {reason.text}" for reason in met]
        return f"{kind.value} {self.count(kind):,}: " + "; ".join(parts)

    def _total_passed_over(self) -> str:
        """How many files were passed over, and how often their most common names were met."""
        total = sum(self._passed_over.values())
        most = sorted(self._passed_over.items(), key=lambda item: (-item[1], item[0]))[:_MOST_NAMES]
        names = [f"{count:,} {shown(name)}" for name, count in most]
        others = total - sum(count for _, count in most)
        names += [f"{others:,} others"] if others else []
        return f"passed over {total:,} in none of tmp, new and cur: " + ", ".join(names)
