"""Runs commands under strace."""

from __future__ import annotations

import os
import shutil
import signal
import subprocess
import sys
import time
from contextlib import suppress
from types import FrameType
from typing import IO, Iterator, List, Optional, Sequence

from .refused import Refused
from .strace_lines import OPTIONS, TRACED

_SECONDS_TO_END = 5
_SECONDS_OF_A_RETRY = 30
_SECONDS_TO_LOOK = 0.01
_ZONE = "TZ"
# So many characters of the trace are read at once.
_BLOCK = 1 << 18


def strace() -> str:
    """The program strace."""
    found = shutil.which("strace")
    if found is None:
        raise Refused("strace is not installed: it is the package strace of most systems, as in `apt-get install strace`")
    return found


def traced_calls(more: str = "") -> str:
    """The calls that are traced, as strace's words. It passes over those that its machine doesn't have."""
    return "trace=" + ",".join("?" + name for name in (TRACED + " " + more).split())


def _clock(is_attached: bool) -> List[str]:
    """The words by which a command doesn't get the zone that strace is given: without one it looks for the system's file of its zone twice
    at each call, to print seconds that no zone changes."""
    return [] if is_attached or _ZONE in os.environ else ["-E", _ZONE]


class Tracer:
    """A command at work under strace, or processes that are attached to. Leave it by `close`, which ends what was started."""

    def __init__(self, words: List[bytes], trace: str, base: bytes, stdout: Optional[IO[bytes]], faults: Sequence[str] = (),
                 seconds: Optional[float] = None) -> None:
        injected = [word for fault in faults for word in ("-e", f"inject={fault}")]
        self.is_attached = words[:1] == [b"-p"]
        # strace blocks what ends it (-I 3), so that it tells of the command's end after Ctrl-C too.
        how = [] if self.is_attached else ["-I", "3"]
        after = words if self.is_attached else ["--", *words]
        self.path = trace
        self._until = None if seconds is None else time.monotonic() + seconds
        # Why it was ended, where it was.
        self.why: Optional[str] = None
        with open(trace, "wb"):
            pass
        words = [strace(), *how, *_clock(self.is_attached), *OPTIONS, "-e", traced_calls(), *injected, "-o", trace, *after]
        self._process = subprocess.Popen(words, cwd=base, stdout=stdout, start_new_session=self.is_attached,
                                         env={_ZONE: "UTC0", **os.environ})
        self._seconds = seconds
        self._former = {number: signal.signal(number, self._stop) for number in (signal.SIGINT, signal.SIGTERM)}

    @property
    def pid(self) -> int:
        """strace's process."""
        return self._process.pid

    def is_running(self) -> bool:
        """Whether strace has not ended."""
        return self._process.poll() is None

    def lines(self) -> Iterator[str]:
        """The lines of the trace as they come, up to the end of all that is traced. Ctrl-C goes to the command, which then has some seconds."""
        begun = ""
        with open(self.path, encoding="latin1", newline="\n") as file:
            is_running = True
            while is_running:
                is_running = self._process.poll() is None
                while block := file.read(_BLOCK):
                    lines = (begun + block).split("\n")
                    begun = lines.pop()
                    yield from lines
                if is_running:
                    self._wait()
        if begun:
            yield begun

    def _wait(self) -> None:
        if self._until is not None and time.monotonic() >= self._until:
            self.why = self.why or f"after {self._seconds:g} seconds"
            self._end()
        else:
            time.sleep(_SECONDS_TO_LOOK)

    def _end(self) -> None:
        if self.is_attached:
            self._process.terminate()
            self._process.wait()
        else:
            end_traced(self._process)

    def _stop(self, number: int, _frame: Optional[FrameType]) -> None:
        is_patient = number == signal.SIGINT and self.why is None and not self.is_attached
        self.why = "by " + signal.Signals(number).name
        self._until = time.monotonic() + (_SECONDS_TO_END if is_patient else 0)
        if is_patient:
            print("trace: waiting for the command to end", file=sys.stderr)

    def close(self) -> None:
        """Ends what is still there."""
        for number, handler in self._former.items():
            signal.signal(number, handler)
        if self._process.poll() is None:
            self._end()


def run_limited(words: List[str], base: str) -> Optional[int]:
    """Runs a command in a session of its own, without strace, and gives its status; None where a signal or its time ended it."""
    how = {"cwd": base, "stdin": subprocess.DEVNULL, "stdout": subprocess.DEVNULL, "stderr": subprocess.DEVNULL}
    process = subprocess.Popen(words, start_new_session=True, **how)
    try:
        status = process.wait(_SECONDS_OF_A_RETRY)
    except subprocess.TimeoutExpired:
        os.killpg(process.pid, signal.SIGKILL)
        status = process.wait()
    return None if status < 0 else status


def end_traced(tracer: subprocess.Popen[bytes]) -> None:
    """Ends all that strace traces, whatever it is called and whoever started it, and then strace."""
    until = time.monotonic() + _SECONDS_TO_END
    while tracer.poll() is None and time.monotonic() < until:
        for pid in _traced_by(tracer.pid):
            with suppress(ProcessLookupError):
                os.kill(pid, signal.SIGKILL)
        with suppress(subprocess.TimeoutExpired):
            tracer.wait(0.05)
    if tracer.poll() is None:
        tracer.kill()
        tracer.wait()


def _traced_by(tracer: int) -> List[int]:
    """The processes that a process traces."""
    return [int(name) for name in os.listdir("/proc") if name.isdigit() and tracer_of(int(name)) == tracer]


def tracer_of(pid: int) -> int:
    """The process that traces a process, or 0."""
    try:
        with open(f"/proc/{pid}/status", encoding="latin1") as lines:
            return next((int(line.split()[1]) for line in lines if line.startswith("TracerPid:")), 0)
    except (FileNotFoundError, ProcessLookupError):
        return 0


def version() -> str:
    """The version of strace, as it names itself."""
    shown = subprocess.run([strace(), "--version"], capture_output=True, text=True, check=False, env={**os.environ, "LC_ALL": "C"}).stdout
    return (shown.splitlines() or ["strace"])[0].replace(" -- version", "")
