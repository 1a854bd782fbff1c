"""What the tests of the tools share: the tools on the path, a folder for each test, tools that are loaded as modules or run in this process, and
the programs that they play by, which must be built."""

from __future__ import annotations

import contextlib
import importlib.machinery
import importlib.util
import io
import os
import sys
import tempfile
import unittest
from pathlib import Path
from types import ModuleType
from typing import Callable

sys.dont_write_bytecode = True

TOOLS = Path(__file__).resolve().parent.parent
TOP = TOOLS.parent
sys.path.insert(0, str(TOOLS))

DEOLMUTT = Path(os.environ.get("DEOLMUTT", TOP / "crates/deolmutt/out/deolmutt"))
CLI = Path(os.environ.get("MAILDIR_CLI", TOP / "crates/maildir_cli/out/maildir_cli"))
BUILT = all(os.access(program, os.X_OK) for program in (DEOLMUTT, CLI))


def loaded(tool: str) -> ModuleType:
    """A tool of Python, as a module."""
    loader = importlib.machinery.SourceFileLoader(tool.replace("-", "_"), str(TOOLS / tool))
    module = importlib.util.module_from_spec(importlib.util.spec_from_loader(loader.name, loader))
    loader.exec_module(module)
    return module


def ran(main: Callable[..., int], *given: object) -> tuple[int, str, str]:
    """How a tool ends in this process, what it prints, and what it says on standard error."""
    with contextlib.redirect_stdout(io.StringIO()) as printed, contextlib.redirect_stderr(io.StringIO()) as said:
        status = main(*given)
    return status, printed.getvalue(), said.getvalue()


class RoomTest(unittest.TestCase):
    """A test with a folder of its own."""

    def setUp(self) -> None:
        room = tempfile.TemporaryDirectory()
        self.addCleanup(room.cleanup)
        self.room = Path(os.path.realpath(room.name))

    def program(self, name: str, text: str) -> Path:
        """A program of this text in the folder."""
        path = self.room / name
        path.parent.mkdir(exist_ok=True)
        path.write_text(text, encoding="utf-8")
        path.chmod(0o755)
        return path

    def make_maildir(self, name: str) -> None:
        """An empty maildir in the folder."""
        for place in ("tmp", "new", "cur"):
            (self.room / name / place).mkdir(parents=True)
