"""Unique names, as "Using maildir format" makes them."""

from __future__ import annotations

import os
import re
import socket
import time
from itertools import count

from .lines import encoded

_HOST_BYTES = 100
_UNIQUE_BYTES = 200
_NEVER_IN_UNIQUE = re.compile("[ :/\0\n\r]")
_counts = count(1)


def fresh_unique() -> str:
    """A unique name that this process has not made before."""
    seconds, nanoseconds = divmod(time.time_ns(), 1_000_000_000)
    return f"{seconds}.M{nanoseconds // 1000}P{os.getpid()}Q{next(_counts)}.{_HOST}"


def is_unique(name: str) -> bool:
    """Whether the store takes a unique name, and a line can say it."""
    if not name or name.startswith(".") or _NEVER_IN_UNIQUE.search(name):
        return False
    return len(encoded(name)) <= _UNIQUE_BYTES


# This host's name, without the slash and the colon, which a file's name gives a meaning.
_NAME = socket.gethostname().replace("/", r"\057").replace(":", r"\072")
_HOST = re.sub(r"[^!-~]", "_", _NAME)[:_HOST_BYTES] or "localhost"
