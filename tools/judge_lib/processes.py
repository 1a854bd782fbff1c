"""What each traced process has: its working directory, its open files, and the actor that it is in the log."""

from __future__ import annotations

import os
from typing import Any, Dict, FrozenSet, Iterable, List, NamedTuple, Optional, Tuple

from .arguments import Descriptor
from .folders import Place
from .outside import OutsideFile


# No process has this number.
_ENDED = 0


class Turn:
    """One reading of an open directory from its first name on. Where another reading comes between its parts, it is dropped."""

    __slots__ = ("is_dropped", "is_read_to_end", "parts")

    def __init__(self) -> None:
        self.is_dropped = False
        self.is_read_to_end = False
        self.parts: List[Any] = []


class OpenFile:
    """An open file or directory. Descriptors that were copied share one. Who writes through it writes for the actor that opened it."""

    __slots__ = ("file", "place", "is_judged", "outside", "actor", "is_sync", "turn")

    def __init__(self, actor: Optional[str] = None, is_sync: bool = False) -> None:
        self.file: Optional[int] = None
        self.place: Optional[Place] = None
        # Whether it was opened in a judged folder.
        self.is_judged = False
        # What is known of it, where it was opened outside.
        self.outside: Optional[OutsideFile] = None
        self.actor = actor
        self.is_sync = is_sync
        self.turn = Turn()


class Process:
    """A process, or a thread of one. What threads share is one object of them all."""

    def __init__(self, actor: str, directory: Dict[str, bytes], table: Dict[int, OpenFile]) -> None:
        self.actor = actor
        self._directory = directory
        self.table = table

    @property
    def directory(self) -> bytes:
        """The working directory."""
        return self._directory["path"]

    @directory.setter
    def directory(self, path: bytes) -> None:
        self._directory["path"] = path

    def child(self, flags: str) -> Process:
        """A process that it starts, which shares what the flags of clone(2) say."""
        directory = self._directory if "CLONE_FS" in flags else dict(self._directory)
        return Process(self.actor, directory, self.table if "CLONE_FILES" in flags else dict(self.table))

    def path(self, path: bytes, at: Optional[Descriptor] = None) -> Optional[bytes]:
        """A path from the root; None where nobody knows the directory that it goes from."""
        base: Optional[bytes]
        if at is not None and at.number is not None:
            base = at.path
        else:
            if at is not None and at.path is not None:
                self.directory = at.path
            base = self._directory["path"]
        if path[:1] == b"/":
            return path
        if base is None or base[:1] != b"/":
            return None
        return base + path if base[-1:] == b"/" else base + b"/" + path


class Actors(NamedTuple):
    """Which processes are actors: the whole command is one (`one`), or each program that is started (`program`), each process that the
    command itself starts (`child`), each process (`fork`) or each thread (`thread`), with all below it. An actor that speaks, since
    something is claimed of it, does so for all below it in any case."""

    how: str
    name: str
    # The names of the children, where these are known.
    children: Tuple[str, ...] = ()
    speaking: FrozenSet[str] = frozenset()


class Processes:
    """All processes that are there."""

    def __init__(self, actors: Actors, directory: bytes) -> None:
        self._actors = actors
        self._first_directory = directory
        self._processes: Dict[int, Process] = {}
        self._parents: Dict[int, Tuple[int, str]] = {}
        self._starting: Dict[int, str] = {}
        self._counts: Dict[str, int] = {}
        self.first: Optional[int] = None
        self.first_actor: Optional[str] = None
        # The process whose end answers for an actor.
        self.answering: Dict[int, str] = {}

    def start(self, parent: int, flags: str) -> None:
        """Says that a process begins to start another one. Where several do, the last one is taken for a new process's parent."""
        self._starting.pop(parent, None)
        self._starting[parent] = flags

    def expect(self, child: int, parent: int, flags: str) -> None:
        """Says who starts a process, as its parent's call tells once it returns."""
        self._starting.pop(parent, None)
        if child not in self._processes:
            self._parents.setdefault(child, (parent, flags))

    def knows(self, pid: int) -> bool:
        """Whether it is known who started a process."""
        return pid in self._processes or pid in self._parents

    def adopt(self, pids: Iterable[int], directory: bytes, actor: str) -> None:
        """The threads of a process that is there before the trace."""
        process = Process(actor, {"path": directory}, {})
        self._processes.update(dict.fromkeys(pids, process))

    def of(self, pid: int) -> Process:
        """The process of a number, made at its first call."""
        process = self._processes.get(pid)
        if process is None:
            process = self._processes[pid] = self._made(pid)
        return process

    def end(self, pid: int) -> None:
        """Forgets a process that has ended, whose number another one may get."""
        del self._processes[pid]
        self._starting.pop(pid, None)
        self.answering.pop(pid, None)
        if pid == self.first:
            self.first = _ENDED

    def first_is_there(self) -> bool:
        """Whether the first process has not ended."""
        return self.first not in (None, _ENDED)

    def _made(self, pid: int) -> Process:
        if pid not in self._parents and self._starting:
            self._parents[pid] = self._starting.popitem()
        if pid in self._parents:
            parent, flags = self._parents.pop(pid)
            process = self.of(parent).child(flags)
            self._name_child(pid, process, parent, flags)
            return process
        process = Process(self._actors.name, {"path": self._first_directory}, {})
        if self.first is None:
            self.first = pid
            self._answer(pid, process, f"{self._actors.name}.1" if self._actors.how in ("fork", "thread") else self._actors.name)
        return process

    def _name_child(self, pid: int, process: Process, parent: int, flags: str) -> None:
        is_actor = {"child": parent == self.first, "fork": "CLONE_THREAD" not in flags, "thread": True}.get(self._actors.how, False)
        if is_actor and process.actor not in self._actors.speaking:
            count = self._count(self._actors.name) - 1
            known = self._actors.children
            base = 1 if self._actors.how == "child" else 2
            self._answer(pid, process, known[count] if count < len(known) else f"{self._actors.name}.{count + base}")

    def start_program(self, pid: int, program: bytes) -> None:
        """A process starts a program."""
        process = self.of(pid)
        process.table = dict(process.table)
        if self._actors.how == "program" and process.actor not in self._actors.speaking:
            name = actor_word(os.path.basename(program))
            self._answer(pid, process, f"{name}.{self._count(name)}")

    def _count(self, name: str) -> int:
        count = self._counts[name] = self._counts.get(name, 0) + 1
        return count

    def _answer(self, pid: int, process: Process, actor: str) -> None:
        process.actor = actor
        self.answering[pid] = actor
        if pid == self.first:
            self.first_actor = actor


def actor_word(name: bytes) -> str:
    """A word of a log for a program's name."""
    return "".join(letter if letter.isprintable() and not letter.isspace() else "_" for letter in name.decode("utf-8", "replace")) or "_"
