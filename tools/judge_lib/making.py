"""Makes a log of what strace printed."""

from __future__ import annotations

from collections import deque
from typing import Any, Callable, Deque, Dict, Iterable, Iterator, List, Mapping, NamedTuple, Optional, Set, Tuple

from .claims import Claim, Claims
from .directories import Directories
from .folders import File, Folder, Folders
from .names import escaped
from .ordering import Taking
from .processes import Processes
from .resolving import Resolver
from .statuses import Statuses, shown
from .steps import Answer, Line, Step, When
from .strace_lines import STARTS, Call, Ended, Event, Opening, Starting, Unread, read_events

UNCLAIMED = ("GaveUp", "AnsweredFalsely")
# So many events wait for the call that tells who started a process.
_MOST_HELD = 10_000


class Log(NamedTuple):
    """A log, how each actor's command ended, and what it printed, where that is kept."""

    head: List[bytes]
    lines: List[Line]
    statuses: Statuses
    said: Mapping[str, bytes] = {}

    def encoded(self) -> bytes:
        """The log as it is written."""
        return b"".join(line + b"\n" for line in [*self.head, *(line.encoded() for line in self.lines)])


class Beginning(NamedTuple):
    """What there is before the commands start."""

    folders: Folders
    files: List[File]


class Making:
    """A log that is being made, event by event. `notes` are comments at its head; `tell` takes each line as soon as its place is known.

    Where looks are told, comments say which names were only looked at, and where each actor ended."""

    def __init__(self, beginning: Beginning, processes: Processes, claims: Dict[Optional[str], List[Claim]], notes: List[str],
                 tell: Optional[Callable[[Line], Any]] = None, tells_looks: bool = False) -> None:
        self._beginning, self._processes, self._notes = beginning, processes, notes
        self._lines: List[Line] = []
        self._tell = tell or self._lines.append
        self._directories = Directories(beginning.files)
        self._directories.tells_looks = tells_looks
        self._statuses: Statuses = {}
        self._claims = Claims(claims, tuple(path for file in beginning.files for path in file.paths), lambda: processes.first_actor)
        self._has_claims = any(claims.values())
        self._resolver = Resolver(beginning.folders, processes, self._ended)
        self._taking = Taking(self._directories, self._settle)
        # Where each call in a judged folder began that has not returned.
        self._open: Dict[int, int] = {}

    def folders(self) -> List[Folder]:
        """The judged folders."""
        return self._beginning.folders.folders

    def feed(self, lines: Iterable[str]) -> Iterator[Tuple[Event, List[Step]]]:
        """Reads the lines of a trace, and gives each event with its steps."""
        for event in in_time(read_events(lines), self._processes):
            yield event, self.add(event)

    def add(self, event: Event) -> List[Step]:
        """The steps of an event, which are kept."""
        if isinstance(event, Opening):
            if self._resolver.touches(event):
                self._open[event.pid] = event.begin
            return []
        steps = list(self._resolver.steps(event))
        if self._open and not isinstance(event, Unread):
            self._open.pop(event.pid, None)
        if steps:
            self._taking.add(steps, min(self._open.values()) if self._open else None)
        return steps

    def unheard(self) -> List[str]:
        """Of whom something is claimed who never ended."""
        return self._claims.unheard()

    def log(self) -> Log:
        """The log of all events."""
        self._taking.end()
        ends = [f"{actor} ended with {shown(status)}" for actor, status in self._statuses.items()]
        ends += [f"nobody is {actor}, of whom something is claimed" for actor in self.unheard()]
        head = [b"maildir_log 1", *(_comment(note) for note in [*self._notes, *ends])]
        if not self._has_claims:
            head.append(_comment(f"not judged, as no --claims says what status 0 claims: {' '.join(UNCLAIMED)}"))
        return Log([*head, *_first_lines(self._beginning)], self._lines, self._statuses)

    def _settle(self) -> None:
        for line in self._directories.told:
            self._tell(line)
        if self._has_claims:
            self._claims.settle(self._directories)
        self._directories.settle()

    def _ended(self, actor: str, event: Ended) -> Iterator[Step]:
        self._statuses[actor] = event.status
        is_first = event.pid == self._processes.first
        when = When(actor, event.end, event.end, event.moment)
        ends = [Line(event.moment, None, f"{actor} ends with {shown(event.status)}".encode())] if self._directories.tells_looks else []
        yield Answer(when, lambda directories, when: [*ends, *self._claims.lines(directories, when, event.status, is_first)])


def in_time(events: Iterable[Event], processes: Processes) -> Iterator[Event]:
    """The events, those of a process after it is known who started it: its first calls may return before its parent's."""
    held: Deque[Event] = deque()
    starting: Set[int] = set()
    for event in events:
        if isinstance(event, Call):
            if event.name in STARTS:
                starting.discard(event.pid)
                if event.result:
                    processes.expect(event.result, event.pid, event.arguments)
        elif isinstance(event, Starting):
            starting.add(event.pid)
        elif isinstance(event, Ended):
            starting.discard(event.pid)
        if not starting and not held:
            yield event
            continue
        held.append(event)
        while held and (not starting or _is_known(held[0], processes) or len(held) > _MOST_HELD):
            yield held.popleft()
    yield from held


def _is_known(event: Event, processes: Processes) -> bool:
    return isinstance(event, (Unread, Starting)) or processes.knows(event.pid)


def _comment(text: str) -> bytes:
    return f"# {text}".replace("\n", "\\n").replace("\r", "\\r").encode("utf-8", "surrogateescape")


def _first_lines(beginning: Beginning) -> Iterator[bytes]:
    for folder in beginning.folders.folders:
        yield b"folder " + escaped(folder.name)
    for file in beginning.files:
        if not file.is_regular:
            yield b"# not said: the next line is of no regular file"
        yield b"file %b %d" % (file.paths[0].word(), file.stamp)
        for path in file.paths[1:]:
            yield b"also %b %b" % (path.word(), file.paths[0].word())
