"""How a tool was called."""

from __future__ import annotations

import os


def called(tool: str) -> str:
    """The name by which the tool of a package was called, or the path in the repository."""
    return os.environ.get("DEOLMUTT_TOOL", f"tools/{tool}")
