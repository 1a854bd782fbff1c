"""What is taken from a clone of the repository: its random scripts and its tools."""

from __future__ import annotations

import hashlib
import importlib
import json
import os
import sys
from pathlib import Path
from types import ModuleType
from typing import Any, Dict, List, Optional

from .errors import NoClone

_ABOVE = Path(__file__).resolve().parents[3]


def module_of_clone(clone: Optional[str], part: str, name: str) -> ModuleType:
    """A module in a part of a clone; without a clone, of the one that this package lies in. Refused:
    `NoClone`."""
    path = Path(clone or _ABOVE) / part
    if not path.is_dir():
        raise NoClone(f"{path} is not there: name a clone of the repository, which each worker needs")
    if str(path) not in sys.path:
        sys.path.append(str(path))
    return importlib.import_module(name)


class Journal:
    """A file of what was done: a line of JSON for each, which is on the disk before the next is begun.

    `name` begins the names of all files of what was asked, so that each other thing that is asked has
    files of its own.
    """

    def __init__(self, folder: str, asked: Any) -> None:
        os.makedirs(folder, exist_ok=True)
        self.name = hashlib.sha256(json.dumps(asked).encode()).hexdigest()[:12]
        self._path = os.path.join(folder, f"{self.name}.jsonl")

    def read(self) -> List[Dict[str, Any]]:
        """What was done so far. A last line that was cut off is none."""
        if not os.path.exists(self._path):
            return []
        with open(self._path, "r+b") as file:
            whole = file.read()
            whole = whole[: whole.rfind(b"\n") + 1]
            file.truncate(len(whole))
        return [json.loads(line) for line in whole.splitlines()]

    def add(self, said: Dict[str, Any]) -> None:
        """Adds a line."""
        with open(self._path, "ab") as file:
            file.write(json.dumps(said).encode() + b"\n")
            file.flush()
            os.fsync(file.fileno())
