"""Runs a command under strace, or attaches to processes, and makes the log of it."""

from __future__ import annotations

import argparse
import os
import re
import shlex
import shutil
import time
from collections import Counter
from typing import IO, Dict, Iterable, Iterator, List, NamedTuple, Optional

from .claims import check_claims, read_claims
from .folders import File, Folder, Folders, check_made, files_of, found_folders, named_folders
from .making import UNCLAIMED, Beginning, Making
from .processes import Actors, Processes, actor_word
from .refused import Refused
from .statuses import Statuses, shown
from .steps import NOT_SAID, Line
from .tracing import Tracer, strace, tracer_of, version

_SECONDS_TO_ATTACH = 5
_TIMES_TO_ATTACH = 3
_MOST_WARNED = 8
IDLE = "the command called nothing in a judged maildir"
# All commands begin at once, and the first shell waits for them.
_ALL = 'for command; do sh -c "$command" & done; wait'


class Traced(NamedTuple):
    """What a run gave: the head of its log, the file that has its lines, how the actors ended, and what is to be said of it."""

    head: List[bytes]
    lines: str
    statuses: Statuses
    command: Optional[str]
    unsaid: Dict[str, int]
    wrong: List[str]
    # How many calls in the judged folders its log has.
    calls: int = 0

    def is_idle(self) -> bool:
        """Whether the command ended well, and did nothing in a maildir."""
        return self.command is not None and self.statuses.get(self.command) == 0 and self.calls == 0

    def write(self, out: IO[bytes]) -> None:
        """Writes the log."""
        out.write(b"".join(line + b"\n" for line in self.head))
        with open(self.lines, "rb") as lines:
            shutil.copyfileobj(lines, out)


def add_options(parser: argparse.ArgumentParser) -> None:
    """The words that say what is traced."""
    parser.add_argument("--folder", action="append", default=[], metavar="DIR",
                        help="a maildir to judge, or NAME=DIR; without it, those at and two steps below the current directory")
    parser.add_argument("--claims", action="append", default=[], metavar="WORDS", help="what the command's status 0 claims")
    for how, help_text in (("process", "each program that is started is an actor of its own, named PROGRAM.NUMBER; else the whole command is one"),
                           ("child", "each process that the command itself starts is an actor, with all below it, named COMMAND.NUMBER"),
                           ("fork", "each process is an actor, named COMMAND.NUMBER"), ("thread", "each thread is an actor, named so")):
        parser.add_argument(f"--by-{how}", dest="how", action="store_const", const="program" if how == "process" else how, default="one",
                            help=help_text)
    parser.add_argument("--actor", action="append", default=[], metavar="WORD",
                        help="what the log calls the command; without it, its program's name. NAME=COMMAND, in place of a command, starts a "
                             "command of sh, which is with all below it the actor NAME; several begin at once")
    parser.add_argument("--fail", action="append", default=[], metavar="CALL:error=ERROR[:when=N]",
                        help="has calls fail, as strace's -e inject: unlink:error=EIO:when=1 fails the first unlink of each process")
    parser.add_argument("--seconds", type=float, metavar="N", help="ends what is traced, or lets go of it, after so many seconds")
    parser.add_argument("-p", dest="pids", type=int, action="append", default=[], metavar="PID",
                        help="attaches to a process that runs, up to Ctrl-C or --seconds, in place of a command")


def run(options: argparse.Namespace, room: str, stdout: Optional[IO[bytes]]) -> Traced:
    """Traces what the words say. The lines of the log go to a file of the folder."""
    strace()
    asked = _Asked(options)
    lines = os.path.join(room, "lines")
    run_of = _Run(asked, lines)
    tracer = run_of.attach(room) if asked.pids else run_of.start(room, stdout)
    try:
        run_of.make(tracer.lines())
    finally:
        tracer.close()
    made = _made_meanwhile(asked, run_of.folders)
    if made:
        # The trace is read once more, now that these are known.
        run_of = _Run(asked, lines, [*run_of.folders, *made], run_of.files)
        with open(tracer.path, encoding="latin1", newline="\n") as text:
            run_of.make(text)
    return run_of.traced(tracer)


class _Asked:
    """What the words ask for."""

    def __init__(self, options: argparse.Namespace) -> None:
        self.base = os.getcwdb()
        named = [word.partition("=") for word in options.actor if "=" in word]
        alone = [word for word in options.actor if "=" not in word]
        self.pids: List[int] = options.pids
        self.command = [os.fsencode(word) for word in (options.command[1:] if options.command[:1] == ["--"] else options.command)]
        if bool(self.command) + bool(named) + bool(self.pids) != 1 or len(alone) > 1:
            raise Refused("which command? One, or --actor NAME=COMMAND.., or -p PID: see --help")
        if named:
            self.command = [b"sh", b"-c", _ALL.encode(), b"sh", *(os.fsencode(command) for _, _, command in named)]
        self.claims = read_claims(options.claims)
        name = alone[0] if alone else _comm(self.pids[0]) if self.pids else os.fsdecode(os.path.basename(self.command[0]))
        children = tuple(actor_word(os.fsencode(name)) for name, _, _ in named)
        self.actors = Actors("child" if named else options.how, actor_word(os.fsencode(name)), children,
                             frozenset(actor for actor in self.claims if actor is not None))
        if None in self.claims:
            self.actors = self.actors._replace(speaking=self.actors.speaking | {self.first_actor()})
        self.folders: List[str] = options.folder
        self.faults: List[str] = options.fail
        self.seconds: Optional[float] = options.seconds

    def first_actor(self) -> str:
        """The actor of the first process."""
        return self.actors.name + {"one": "", "child": ""}.get(self.actors.how, ".1")

    def judged(self) -> List[Folder]:
        """The folders that are judged: those that are named, or that are there now."""
        if self.folders:
            return named_folders([os.fsencode(word) for word in self.folders], self.base)
        return found_folders(self.base, may_be_none=True)

    def notes(self) -> List[str]:
        """What the head of the log says of the run."""
        what = "attached to " + " ".join(map(str, self.pids)) if self.pids else "command: " + shlex.join(map(os.fsdecode, self.command))
        return [f"tools/trace, {version()}", what, *(f"made to fail: {fault}" for fault in self.faults)]


class _Run:
    """The log of a run, as it is made."""

    def __init__(self, asked: _Asked, lines: str, folders: Optional[List[Folder]] = None, files: Optional[List[File]] = None) -> None:
        self._asked, self._path = asked, lines
        self.folders = asked.judged() if folders is None else folders
        self.files = files_of(self.folders) if files is None else files
        self._processes = Processes(asked.actors, asked.base)
        self._unsaid: Counter[str] = Counter()
        self._told = 0
        self._calls = 0
        self._begin()

    def _begin(self) -> None:
        beginning = Beginning(Folders(self.folders), self.files)
        self._making = Making(beginning, self._processes, self._asked.claims, self._asked.notes(), self._tell)

    def start(self, room: str, stdout: Optional[IO[bytes]]) -> Tracer:
        """Starts the command."""
        asked = self._asked
        return Tracer(asked.command, os.path.join(room, "trace"), asked.base, stdout, asked.faults, asked.seconds)

    def attach(self, room: str) -> Tracer:
        """Attaches to the processes, at a moment at which no other call has changed the folders."""
        asked, words = self._asked, [word for pid in self._asked.pids for word in (b"-p", b"%d" % pid)]
        for _ in range(_TIMES_TO_ATTACH):
            self.files = files_of(self.folders)
            self._begin()
            tracer = Tracer(words, os.path.join(room, "trace"), asked.base, None, asked.faults, asked.seconds)
            try:
                self._adopt(tracer)
                if files_of(self.folders) == self.files:
                    return tracer
            except BaseException:
                tracer.close()
                raise
            tracer.close()
        raise Refused("the maildirs change so fast that no moment was found to begin")

    def _adopt(self, tracer: Tracer) -> None:
        until = time.monotonic() + _SECONDS_TO_ATTACH
        for pid in self._asked.pids:
            while tracer_of(pid) != tracer.pid:
                if time.monotonic() > until or not tracer.is_running():
                    raise Refused(f"strace can't attach to {pid}: what it said is above")
                time.sleep(0.01)
            threads = map(int, os.listdir(f"/proc/{pid}/task"))
            self._processes.adopt(threads, os.fsencode(os.readlink(f"/proc/{pid}/cwd")), self._asked.actors.name)

    def make(self, lines: Iterable[str]) -> None:
        """Reads the trace."""
        with open(self._path, "wb") as self._out:
            for _ in self._making.feed(lines):
                pass
            self._log = self._making.log()

    def _tell(self, line: Line) -> None:
        self._told += 1
        self._calls += line.actor is not None and not line.text.startswith(b"answer ")
        if line.actor is None and line.text.startswith(NOT_SAID.encode()):
            self._unsaid[re.sub(r"\d+", "N", line.text.decode("utf-8", "replace").partition(": ")[2])] += 1
        self._out.write(line.encoded() + b"\n")

    def traced(self, tracer: Tracer) -> Traced:
        """What the run gave."""
        log, asked = self._log, self._asked
        if not log.statuses and not self._told and not asked.pids:
            raise Refused("strace ran nothing: what it said is above")
        if not self.folders:
            raise Refused("there is no maildir here, and the command made none: name one by --folder DIR")
        check_made(self.folders)
        check_claims(self._asked.claims, [folder.name for folder in self.folders])
        wrong = [f"ended {tracer.why}"] if tracer.why and not asked.pids else []
        if not asked.pids and tracer.why is None and self._processes.first_is_there():
            wrong.append("the trace is cut: strace ended before the command")
        wrong += [f"nobody is {actor}, of whom something is claimed: the actors were {' '.join(log.statuses)}" for actor in self._making.unheard()]
        head = [log.head[0], *(f"# {text}".encode("utf-8", "surrogateescape") for text in wrong), *log.head[1:]]
        return Traced(head, self._path, log.statuses, self._processes.first_actor, dict(self._unsaid), wrong, self._calls)


def _made_meanwhile(asked: _Asked, known: List[Folder]) -> List[Folder]:
    """The maildirs that the command has made."""
    if asked.folders or asked.pids:
        return []
    there = {folder.directory for folder in known}
    return [folder._replace(is_to_be_made=True) for folder in asked.judged() if folder.directory not in there]


def _comm(pid: int) -> str:
    try:
        with open(f"/proc/{pid}/comm", encoding="utf-8", errors="replace") as file:
            return file.read().strip()
    except FileNotFoundError:
        raise Refused(f"there is no process {pid}") from None


def warnings(traced: Traced, has_claims: bool) -> Iterator[str]:
    """What is to be said on standard error."""
    yield from traced.wrong
    if traced.is_idle() and IDLE not in traced.wrong:
        yield IDLE
    for actor, status in traced.statuses.items():
        if status != 0:
            yield f"{actor} ended with {shown(status)}"
    for text, times in sorted(traced.unsaid.items(), key=lambda item: -item[1])[:_MOST_WARNED]:
        yield f"not said: {text}" + (f" ({times} times)" if times > 1 else "")
    if len(traced.unsaid) > _MOST_WARNED:
        yield f"and {len(traced.unsaid) - _MOST_WARNED} other kinds of what can't be said: they are comments of the log"
    if not has_claims:
        yield "not judged without --claims: " + " ".join(UNCLAIMED)
