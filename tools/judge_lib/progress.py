"""The line of a terminal that says how far a tool is."""

from __future__ import annotations

import sys


def tell(text: str) -> None:
    """Puts a text in place of the line; an empty one takes it away."""
    if sys.stderr.isatty():
        print(f"\r{text}\033[K", end="", file=sys.stderr, flush=True)
