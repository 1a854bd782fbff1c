"""How a tool is ended: SIGTERM does what Ctrl-C does, so that a tool ends what it has started, which may wait stopped."""

from __future__ import annotations

import signal


def end_by_signals() -> None:
    """Has both signals raise KeyboardInterrupt, in a background job too, in which a shell has SIGINT ignored."""
    for number in (signal.SIGINT, signal.SIGTERM):
        signal.signal(number, signal.default_int_handler)
