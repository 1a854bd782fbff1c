"""What strace printed, as calls in the order in which they returned, and the ends of processes."""

from __future__ import annotations

import re
from typing import Dict, Iterable, Iterator, NamedTuple, Optional, Union

# The calls that a log may need. A name that this machine's strace doesn't know is passed over by its question mark.
TRACED = (
    "execve execveat clone clone3 fork vfork chdir fchdir chroot "
    "open openat openat2 creat close close_range dup dup2 dup3 fcntl lseek getdents getdents64 "
    "write pwrite64 writev pwritev pwritev2 ftruncate truncate fallocate sendfile copy_file_range splice ioctl mmap "
    "fsync fdatasync sync syncfs link linkat symlink symlinkat mknod mknodat mkdir mkdirat "
    "rename renameat renameat2 unlink unlinkat rmdir io_uring_setup"
)

# By these a program looks whether a name is there. They have no line in a log: tools/explore stops at them.
LOOKS = "stat lstat newfstatat statx access faccessat faccessat2"

# -s 0 prints no bytes that are written; paths are printed whole all the same.
OPTIONS = ["-q", "-f", "-y", "-v", "-xx", "-s", "0", "-ttt"]

# Most lines: a call that succeeded, and that no other line came between.
_PLAIN = re.compile(r"(\d+) +(\d+)\.\d+ (\w+)\(([^)]*)\) += (0x[0-9a-f]+|\d+)(?:<([^>]*)>)?\n?")
_RESULT = re.compile(r"0x[0-9a-f]+|-?\d+|\?")
_RESUMED = re.compile(r"<\.\.\. (\w+) resumed>(.*)", re.DOTALL)
_BEGUN = re.compile(r"(\w+)\((.*?) *<unfinished \.\.\.>", re.DOTALL)
_EXITED = re.compile(r"\+\+\+ exited with (\d+) \+\+\+")
_KILLED = re.compile(r"\+\+\+ killed by (\w+)")
_SHOWN = re.compile(r"<([^>]*)>")
_ERROR = re.compile(r"\b(E[A-Z0-9]+) ")
_REPLIES = {"ENOENT": "notfound", "EEXIST": "exists"}


class Call(NamedTuple):
    """A call that returned. `begin` and `end` are lines of the trace: it took effect between them."""

    pid: int
    begin: int
    end: int
    moment: int
    name: str
    arguments: str
    result: Optional[int]
    error: Optional[str]
    is_made_to_fail: bool = False
    # The path of the open file that is the result, as strace prints it.
    opened: Optional[str] = None

    def is_undone(self) -> bool:
        """Whether a signal stopped it before it did anything."""
        return self.error is not None and (self.error == "EINTR" or self.error.startswith("ERESTART"))

    def reply(self) -> str:
        """The reply as a log says it."""
        return "ok" if self.error is None else _REPLIES.get(self.error, "fault")


class Begun(NamedTuple):
    """A call that never returned, since its process ended meanwhile: it may have taken effect or not."""

    pid: int
    begin: int
    end: int
    moment: int
    name: str
    arguments: str


class Ended(NamedTuple):
    """The end of a process; `status` is None where a signal ended it."""

    pid: int
    end: int
    moment: int
    status: Optional[int]


class Stopped(NamedTuple):
    """A process was stopped by a signal."""

    pid: int
    end: int


class Starting(NamedTuple):
    """A process is about to start another one, which may be seen before the call returns."""

    pid: int
    end: int
    name: str
    arguments: str


class Opening(NamedTuple):
    """A call that has begun, and returns later."""

    pid: int
    begin: int
    name: str
    arguments: str


class Unread(NamedTuple):
    """A line that is none of strace's that we know."""

    end: int
    text: str


Event = Union[Call, Begun, Ended, Stopped, Starting, Opening, Unread]

STARTS = ("clone", "clone3", "fork", "vfork")


class Reader:
    """Reads lines one by one, and keeps the calls that have begun."""

    def __init__(self) -> None:
        self._number = 0
        self._begun: Dict[int, Begun] = {}

    def events(self, line: str) -> Iterable[Event]:
        """What a line tells."""
        self._number += 1
        plain = _PLAIN.fullmatch(line)
        if plain is not None:
            pid, seconds, name, arguments, result, opened = plain.groups()
            return (Call(int(pid), self._number, self._number, int(seconds), name, arguments, int(result, 0), None, False, opened),)
        text = line.rstrip("\n")
        pid, _, rest = text.partition(" ")
        moment, _, rest = rest.lstrip(" ").partition(" ")
        seconds = moment.partition(".")[0]
        if not pid.isdigit() or not seconds.isdigit() or not rest:
            return (Unread(self._number, text),)
        return self._events(int(pid), int(seconds), rest)

    def _events(self, pid: int, moment: int, text: str) -> Iterable[Event]:
        if text.startswith("<... "):
            return (self._resumed(pid, moment, text),)
        if text.endswith("<unfinished ...>") and (begun := _BEGUN.fullmatch(text)):
            self._begun[pid] = Begun(pid, self._number, self._number, moment, begun[1], begun[2])
            kind = Starting if begun[1] in STARTS else Opening
            return (kind(pid, self._number, begun[1], begun[2]),)
        if text.startswith("+++"):
            return self._end(pid, moment, text)
        if text.startswith("---"):
            return (Stopped(pid, self._number),) if text.startswith("--- stopped by") else ()
        return (self._whole(pid, self._number, moment, text),)

    def _resumed(self, pid: int, moment: int, text: str) -> Event:
        resumed, former = _RESUMED.fullmatch(text), self._begun.pop(pid, None)
        if resumed is None or former is None:
            return Unread(self._number, text)
        return self._whole(pid, former.begin, moment, f"{former.name}({former.arguments}{resumed[2]}")

    def _whole(self, pid: int, begin: int, moment: int, text: str) -> Event:
        # No string that strace prints has a space, and no error an equals sign.
        call, _, rest = text.rpartition(" = ")
        name, bracket, arguments = call.rstrip(" ").partition("(")
        result = _RESULT.match(rest)
        if not bracket or not arguments.endswith(")") or result is None:
            return Unread(self._number, text)
        arguments, after = arguments[:-1], rest[result.end():]
        if not after and result[0] != "?":
            return Call(pid, begin, self._number, moment, name, arguments, int(result[0], 0), None)
        shown = _SHOWN.match(after)
        error = _ERROR.search(after) if after and not shown else None
        if result[0] == "?" and error is None:
            return Begun(pid, begin, self._number, moment, name, arguments)
        value = None if result[0] == "?" else int(result[0], 0)
        return Call(pid, begin, self._number, moment, name, arguments, value, error[1] if error else None, "(INJECTED)" in after,
                    shown[1] if shown else None)

    def _end(self, pid: int, moment: int, text: str) -> Iterator[Event]:
        begun = self._begun.pop(pid, None)
        if begun is not None:
            yield begun._replace(end=self._number)
        exited = _EXITED.match(text)
        if exited or _KILLED.match(text):
            yield Ended(pid, self._number, moment, int(exited[1]) if exited else None)


def read_events(lines: Iterable[str]) -> Iterator[Event]:
    """All events of a trace, in the order of their ends."""
    reader = Reader()
    for line in lines:
        yield from reader.events(line)
