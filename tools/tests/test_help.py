"""Each command of the repository answers --help, and starts no work by it."""

from __future__ import annotations

import os
import subprocess
import tempfile
import unittest
from pathlib import Path

from shared import TOP

FOLDERS = ("tools", "launcher", "bench/*", ".ci")
MOST_SECONDS = 20


def commands() -> list[Path]:
    found = [path for folder in FOLDERS for path in TOP.glob(f"{folder}/*") if path.is_file() and os.access(path, os.X_OK)]
    return sorted(found)


class HelpTest(unittest.TestCase):
    def test_each_command_says_what_it_does(self) -> None:
        self.assertGreater(len(commands()), 30)
        for path in commands():
            for word in ("--help", "-h"):
                with self.subTest(command=str(path.relative_to(TOP)), word=word):
                    self.assert_helps([str(path), word])

    def assert_helps(self, words: list[str]) -> None:
        with tempfile.TemporaryDirectory() as folder:
            ran = subprocess.run(
                words, cwd=folder, stdin=subprocess.DEVNULL, capture_output=True, text=True, timeout=MOST_SECONDS, check=False
            )
            self.assertEqual((0, ""), (ran.returncode, ran.stderr))
            self.assertGreater(len(ran.stdout.splitlines()), 1)
            self.assertEqual([], os.listdir(folder))
