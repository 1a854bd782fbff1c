"""Maildirs in a temporary folder, and runs of the program."""

from __future__ import annotations

import os
import subprocess
import tempfile
import unittest
from collections.abc import Sequence
from pathlib import Path
from typing import Any, NamedTuple

PROGRAM = os.environ.get("DEOLMUTT", "deolmutt")
MOST_SECONDS = 60
NOBODY = 65534

PLACES = ("tmp", "new", "cur")
UNIQUE = b"1000.M1P7Q1.host"
MAIL = b"From: a@example.org\nSubject: one\n\nhello\n"


class Ended(NamedTuple):
    """What a run came to."""

    status: int
    printed: bytes
    said: bytes


def run(*words: Any, given: bytes = b"", before: Sequence[str] = (), **how: Any) -> Ended:
    """A run of the program, in a folder, behind the words of another program that starts it."""
    command = [*before, PROGRAM, *(os.fsencode(word) for word in words)]
    done = subprocess.run(command, input=given, capture_output=True, timeout=MOST_SECONDS, check=False, **how)
    return Ended(done.returncode, done.stdout, done.stderr)


def sent(streams: str) -> Sequence[str]:
    """What starts the program as a shell does that sends its streams elsewhere."""
    return "sh", "-c", f'exec "$@" {streams}', "sh"


class Box:
    """A maildir that a test makes itself."""

    def __init__(self, path: Path) -> None:
        self.path = path
        for place in PLACES:
            (path / place).mkdir(parents=True)

    def put(self, place: str, name: bytes, body: bytes = MAIL) -> bytes:
        """A file of the maildir, by its path."""
        path = os.path.join(os.fsencode(self.path / place), name)
        with open(path, "wb") as file:
            file.write(body)
        return path

    def names(self, place: str) -> list[bytes]:
        """The names in a directory, in order."""
        return sorted(os.listdir(os.fsencode(self.path / place)))

    def files(self) -> dict[bytes, bytes]:
        """The bytes of each file, by its path from the maildir."""
        return {os.fsencode(place) + b"/" + name: self.read(place, name) for place in PLACES for name in self.names(place)}

    def read(self, place: str, name: bytes) -> bytes:
        """The bytes of a file."""
        with open(os.path.join(os.fsencode(self.path / place), name), "rb") as file:
            return file.read()


class BoxTest(unittest.TestCase):
    """A test with a maildir in a scratch folder."""

    def setUp(self) -> None:
        scratch = tempfile.TemporaryDirectory()
        self.addCleanup(scratch.cleanup)
        self.top = Path(scratch.name)
        self.top.chmod(0o755)
        self.box = Box(self.top / "box")

    def run_well(self, *words: Any, **how: Any) -> bytes:
        """A run that is done, and says nothing; what it prints."""
        ended = run(*words, cwd=self.top, **how)
        self.assertEqual((ended.status, ended.said), (0, b""), words)
        return ended.printed

    def run_badly(self, status: int, why: bytes, *words: Any, **how: Any) -> None:
        """A run that ends with a status, says this in one line, and prints nothing."""
        ended = run(*words, cwd=self.top, **how)
        self.assertEqual((ended.status, ended.said, ended.printed), (status, b"deolmutt: " + why + b"\n", b""), words)
