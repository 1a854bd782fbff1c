"""Ctrl-C and its like, taken only where nothing is half done."""

from __future__ import annotations

import os
import select
import signal
from contextlib import contextmanager
from types import FrameType
from typing import Any, Iterator, Optional

from .descriptors import let_go

_SIGNALS = (signal.SIGINT, signal.SIGTERM, signal.SIGHUP)


class Interrupted(Exception):
    """The run was asked to end."""

    def __init__(self, number: int) -> None:
        super().__init__(f"interrupted by {signal.Signals(number).name}")
        self.number = number


class Interrupts:
    """While this is entered, a signal to end is kept until the next `check`.

    A second one of its kind ends the program as if this weren't there.
    """

    def __init__(self) -> None:
        self._met: Optional[int] = None
        self._former: dict[int, Any] = {}

    def __enter__(self) -> Interrupts:
        # A signal writes to the pipe at once, also right before a call that would not notice it.
        self._wake, self._woken = os.pipe()
        os.set_blocking(self._woken, False)
        self._former_wake = signal.set_wakeup_fd(self._woken, warn_on_full_buffer=False)
        for number in _SIGNALS:
            former = signal.getsignal(number)
            # A signal that is ignored stays so: nohup ignores SIGHUP.
            if former is not None and former is not signal.SIG_IGN:
                self._former[number] = former
                signal.signal(number, self._meet)
        return self

    def __exit__(self, *_: object) -> None:
        signal.set_wakeup_fd(self._former_wake)
        try:
            let_go(self._wake)
            let_go(self._woken)
        finally:
            for number, handler in self._former.items():
                signal.signal(number, handler)

    def _meet(self, number: int, _: Optional[FrameType]) -> None:
        self._met = number
        is_ctrl_c = number == signal.SIGINT
        signal.signal(number, signal.default_int_handler if is_ctrl_c else signal.SIG_DFL)

    def check(self) -> None:
        """Ends the run here if a signal came."""
        if self._met is not None:
            raise Interrupted(self._met)

    def wait(self, descriptor: int, event: int) -> None:
        """Waits for another program to write (POLLIN) or to read (POLLOUT), unless a signal comes."""
        poll = select.poll()
        poll.register(descriptor, event)
        poll.register(self._wake, select.POLLIN)
        poll.poll()
        self.check()


@contextmanager
def held() -> Iterator[None]:
    """Inside, no signal to end comes, not even a second one. It comes afterwards."""
    former = signal.pthread_sigmask(signal.SIG_BLOCK, _SIGNALS)
    try:
        yield
    finally:
        signal.pthread_sigmask(signal.SIG_SETMASK, former)
