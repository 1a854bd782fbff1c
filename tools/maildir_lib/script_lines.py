"""Scripts of folder and file lines, read line by line and checked as docs/SCRIPT.md says."""

from __future__ import annotations

from collections import defaultdict
from enum import Enum
from typing import IO, Iterator, NamedTuple, Optional, Tuple, Union

from .folder_names import NoDirectory, Steps, directory_of
from .language import (
    GREATEST_STAMP,
    PLACES,
    STAMP_DIGITS,
    BadEscape,
    Limits,
    has_long_unique_name,
    is_file_name,
    is_folder_name,
    unescape,
    unique_name,
)
from .shown import shown

# What follows a word, or None at the end of the line.
Rest = Optional[bytes]

_OTHER_COMMANDS = b"job step finish list first second read unique summary".split()


class Fault(Enum):
    """The refusals of a script, in the language's own texts."""

    BAD_COMMAND = "bad command"
    NOT_IN_THIS_RUN = "not in this run"
    BAD_FOLDER = "bad folder"
    UNKNOWN_FOLDER = "unknown folder"
    BAD_PLACE = "bad place"
    BAD_NUMBER = "bad number"
    BAD_ESCAPE = "bad escape"
    SAME_PATH = "same path twice"
    BAD_NAME = "bad name"
    LONG_UNIQUE = "long unique"
    DUPLICATE_UNIQUE = "duplicate unique"


class BadLine(Exception):
    """A line that is refused."""

    def __init__(self, fault: Fault, why: str) -> None:
        super().__init__(f"{fault.value}: {why}")


class FolderLine(NamedTuple):
    """`folder NAME`, with the directory that the name is."""

    name: bytes
    steps: Steps


class FileLine(NamedTuple):
    """`file FOLDER PLACE NAME STAMP BODY`, with its folder's directory and its body read."""

    steps: Steps
    place: bytes
    name: bytes
    stamp: int
    body: bytes


Line = Union[FolderLine, FileLine]


class _Store:
    """The files that a script names, so that those that make no store are refused."""

    def __init__(self) -> None:
        self._names: defaultdict[tuple[Steps, bytes], set[bytes]] = defaultdict(set)
        self._unique_names: set[bytes] = set()

    def add(self, steps: Steps, place: bytes, name: bytes) -> None:
        """Takes a file, or refuses it."""
        names = self._names[steps, place]
        if name in names:
            raise BadLine(Fault.SAME_PATH, shown(name))
        if not is_file_name(name) or name in (b".", b".."):
            raise BadLine(Fault.BAD_NAME, "over 255 bytes, a slash, NUL or CR, or . or .. alone")
        if has_long_unique_name(place, name):
            raise BadLine(Fault.LONG_UNIQUE, "a message's unique name has at most 200 bytes")
        unique = unique_name(place, name)
        if unique is not None:
            if unique in self._unique_names:
                raise BadLine(Fault.DUPLICATE_UNIQUE, shown(unique))
            self._unique_names.add(unique)
        names.add(name)


class ScriptReader:
    """Reads the lines of one script, and knows at which it is."""

    def __init__(self, file: IO[bytes], limits: Limits) -> None:
        self._file = file
        self._limits = limits
        self._folders: dict[bytes, Steps] = {}
        self._store = _Store()
        self.number = 0

    def __iter__(self) -> Iterator[Line]:
        for raw in self._file:
            self.number += 1
            line = _without_end(raw)
            if line and not line.startswith(b"#"):
                yield self._read(line)

    def _read(self, line: bytes) -> Line:
        command, rest = _word(line)
        if command == b"folder":
            return self._read_folder(rest)
        if command == b"file":
            return self._read_file(rest)
        if command in _OTHER_COMMANDS:
            raise BadLine(Fault.NOT_IN_THIS_RUN, "export takes folder and file lines alone")
        raise BadLine(Fault.BAD_COMMAND, f"there is no command {shown(command)}")

    def _read_folder(self, rest: Rest) -> FolderLine:
        name, rest = _word(rest)
        if not is_folder_name(name):
            raise BadLine(Fault.BAD_FOLDER, "over 100 bytes, a slash, NUL or CR, or a dot in front")
        if name in self._folders:
            raise BadLine(Fault.BAD_FOLDER, "the folder is there already")
        if len(self._folders) == self._limits.folders:
            raise BadLine(Fault.BAD_FOLDER, f"a script has at most {self._limits.folders} folders")
        if rest is not None:
            raise BadLine(Fault.BAD_COMMAND, "a word too many")
        try:
            steps = directory_of(name)
        except NoDirectory as error:
            raise BadLine(Fault.BAD_FOLDER, f"{shown(name)} is no directory of a tree: {error}") from error
        self._folders[name] = steps
        return FolderLine(name, steps)

    def _read_file(self, rest: Rest) -> FileLine:
        folder, rest = _word(rest)
        if folder not in self._folders:
            raise BadLine(Fault.UNKNOWN_FOLDER, f"no folder line names {shown(folder)}")
        place, rest = _word(rest)
        if place not in PLACES:
            raise BadLine(Fault.BAD_PLACE, f"{shown(place)} is not tmp, new or cur")
        name, rest = _word(rest)
        stamp, rest = _number(rest)
        file = FileLine(self._folders[folder], place, name, stamp, _body(rest))
        self._store.add(file.steps, place, name)
        return file


def _without_end(raw: bytes) -> bytes:
    """The line without its LF and one CR right before that, which without LF is a byte of it."""
    return raw[:-2] if raw.endswith(b"\r\n") else raw.removesuffix(b"\n")


def _word(rest: Rest) -> Tuple[bytes, Rest]:
    if not rest or rest.startswith(b" "):
        raise BadLine(Fault.BAD_COMMAND, "a word is missing or empty")
    word, space, after = rest.partition(b" ")
    return word, after if space else None


def _number(rest: Rest) -> Tuple[int, Rest]:
    word, rest = _word(rest)
    if len(word) > STAMP_DIGITS or not word.isdigit() or int(word) > GREATEST_STAMP:
        raise BadLine(Fault.BAD_NUMBER, f"{shown(word)} is no number of seconds")
    return int(word), rest


def _body(rest: Rest) -> bytes:
    try:
        return unescape(rest or b"")
    except BadEscape as error:
        raise BadLine(Fault.BAD_ESCAPE, "a backslash is followed by n, r or a backslash") from error
