"""Commands of which each process stops after each of its directory calls, until it is told to go on."""

from __future__ import annotations

import os
import select
import signal
import subprocess
import time
from contextlib import suppress
from typing import Dict, List, Optional, Sequence

from .making import Making
from .processes import Processes
from .refused import Refused
from .schedules import Went
from .strace_lines import OPTIONS, Call, Ended, Reader, Stopped
from .tracing import end_traced, strace, traced_calls

SIDES = "ABC"
# A process is stopped after each of these. Linux ends a getdents64 amid which a signal waits after one name, so each name that a reading
# shows is a step of its own, as it may be in a directory that is too large for one call.
NAMES = ("open openat openat2 creat getdents getdents64 link linkat symlink symlinkat rename renameat renameat2 unlink unlinkat rmdir "
         "mkdir mkdirat mknod mknodat")
_SECONDS_TO_START = 20
# A command that makes no call for so long waits for the other one, as for a lock; and so does one that makes none in a maildir for longer.
_SECONDS_TO_WAIT = 3
_SECONDS_TO_ASK_AGAIN = 20

# No file that a command writes gets longer than 64 MiB.
LIMITED = "ulimit -f 131072; "
# Each command writes its process number, and waits until it is told to begin.
_BEGIN = f'echo $$ > "$0/$1"; kill -STOP $$; {LIMITED}exec sh -c "$2" > "$0/$1.out" 2>&1'
_ALL = 'begin=$1; shift; for side in A B C; do [ $# -eq 0 ] || { sh -c "$begin" "$0" $side "$1" & shift; }; done; wait'


class Stepped:
    """Commands at work in a directory, a call at a time. Leave it by `close`, which ends what is still there."""

    def __init__(self, commands: Sequence[str], base: str, room: str, making: Making, processes: Processes, stops: str = NAMES) -> None:
        self.sides = SIDES[:len(commands)]
        self._room, self._making, self._processes = room, making, processes
        self._stops = frozenset(stops.split())
        self._reader = Reader()
        self._roots: Dict[str, int] = {}
        self._side_of: Dict[int, str] = {}
        self._stopped: Dict[int, None] = {}
        self._is_counted: Dict[int, bool] = {}
        # The last call by which each command has gone on.
        self.last: Dict[str, Call] = {}
        self._rest = b""
        fifo = os.path.join(room, "trace")
        os.mkfifo(fifo)
        inject = "inject=" + ",".join("?" + name for name in stops.split()) + ":signal=SIGSTOP"
        words = [strace(), *OPTIONS, "-e", traced_calls(stops), "-e", inject, "-o", fifo, "--", "sh", "-c", _ALL, room, _BEGIN, *commands]
        self._strace = subprocess.Popen(words, cwd=base, stdin=subprocess.DEVNULL, stdout=subprocess.DEVNULL, start_new_session=True)
        self._lines = os.open(fifo, os.O_RDONLY)
        try:
            self._start()
        except BaseException:
            self.close()
            raise

    def _start(self) -> None:
        """Waits until all commands are stopped before their first call."""
        until = time.monotonic() + _SECONDS_TO_START
        while not all(self._pid_in_file(side) in self._stopped for side in self.sides):
            if self._read(until) is None or self._strace.poll() is not None:
                raise Refused("the commands did not start under strace")
        for side in self.sides:
            pid = self._roots[side] = self._pid_in_file(side)
            self._side_of[pid] = side
            self._processes.of(pid).actor = side
            self._processes.answering[pid] = side

    def _pid_in_file(self, side: str) -> int:
        """The number of a command's process, and 0 where it has not begun."""
        return int(self._written(side) or 0)

    def _written(self, name: str) -> bytes:
        """What was written to a file of the room so far."""
        with suppress(FileNotFoundError), open(os.path.join(self._room, name), "rb") as file:
            return file.read()
        return b""

    def has_ended(self, side: str) -> bool:
        """Whether a command has ended."""
        return self._roots.get(side) is None

    def go_on(self, side: str) -> Went:
        """Has a command go on to the end of its next directory call, or to its own end."""
        until = time.monotonic() + _SECONDS_TO_ASK_AGAIN
        self._continue_one(side)
        while not self.has_ended(side):
            counted = self._read(min(until, time.monotonic() + _SECONDS_TO_WAIT))
            if counted is None:
                return Went.WAITS
            if side in counted:
                return Went.CALLED
            if not self._is_running(side):
                self._continue_one(side)
        return Went.ENDED

    def run_to_end(self, seconds: float) -> bool:
        """Lets all go on unstopped; whether they ended in time."""
        until = time.monotonic() + seconds
        while self._strace.poll() is None:
            for pid in list(self._stopped):
                self._continue(pid)
            if self._read(until) is None:
                return self._strace.poll() is not None
        return True

    def kill(self) -> None:
        """Kills all, and reads what is told of their ends."""
        if self._strace.poll() is None:
            end_traced(self._strace)
        while self._read(time.monotonic()) is not None and self._roots:
            pass

    def close(self) -> None:
        """Ends what is still there."""
        if self._strace.poll() is None:
            end_traced(self._strace)
        os.close(self._lines)

    def said(self) -> Dict[str, bytes]:
        """What each command printed."""
        return {side: self._written(side + ".out") for side in self.sides}

    def _is_running(self, side: str) -> bool:
        own = [pid for pid, its in self._side_of.items() if its == side]
        return any(pid not in self._stopped for pid in own)

    def _continue_one(self, side: str) -> None:
        for pid in self._stopped:
            if self._side_of.get(pid) == side:
                self._continue(pid)
                return

    def _continue(self, pid: int) -> None:
        del self._stopped[pid]
        with suppress(ProcessLookupError):
            os.kill(pid, signal.SIGCONT)

    def _read(self, until: float) -> Optional[List[str]]:
        """Reads what comes next, and gives the sides that were stopped after a call which counts; None where nothing comes in time."""
        if not select.select([self._lines], [], [], max(0.0, until - time.monotonic()))[0]:
            return None
        piece = os.read(self._lines, 1 << 16)
        if not piece:
            self._roots.clear()
            return [] if self._strace.wait() is not None else None
        lines = (self._rest + piece).split(b"\n")
        self._rest = lines.pop()
        return [side for line in lines for side in self._take(line.decode("latin1"))]

    def _take(self, line: str) -> List[str]:
        sides: List[str] = []
        for event in self._reader.events(line):
            if isinstance(event, Stopped):
                sides += self._stop(event.pid)
                continue
            steps = self._making.add(event)
            if isinstance(event, Call):
                self._side_of_new(event.pid)
                if event.name in self._stops and any(step.is_counted for step in steps):
                    self._is_counted[event.pid] = True
                    self.last[self._side_of.get(event.pid, "")] = event
            elif isinstance(event, Ended):
                self._end(event.pid)
        return sides

    def _side_of_new(self, pid: int) -> None:
        actor = self._processes.of(pid).actor
        if pid not in self._side_of and actor in self.sides and self._roots:
            self._side_of[pid] = actor

    def _stop(self, pid: int) -> List[str]:
        is_counted, self._is_counted[pid] = self._is_counted.get(pid, False), False
        self._stopped[pid] = None
        if is_counted or not self._roots and pid in map(self._pid_in_file, self.sides):
            side = self._side_of.get(pid)
            return [side] if side else []
        self._continue(pid)
        return []

    def _end(self, pid: int) -> None:
        self._stopped.pop(pid, None)
        side = self._side_of.pop(pid, None)
        if side is not None and self._roots.get(side) == pid:
            del self._roots[side]
