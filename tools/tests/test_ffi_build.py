"""tools/ffi-build and tools/build-archive: what they do before they prove anything."""

from __future__ import annotations

import os
import subprocess
import unittest
from types import SimpleNamespace
from unittest import mock

from shared import TOOLS, RoomTest, loaded

build_archive = loaded("build-archive")


class HelpTest(unittest.TestCase):
    def test_help_starts_no_work(self) -> None:
        for words in (["ffi-build", "--help"], ["build-archive", "--help"]):
            ran = subprocess.run([TOOLS / words[0], *words[1:]], env={"PATH": "/usr/bin:/bin"}, capture_output=True, text=True)
            self.assertEqual((0, ""), (ran.returncode, ran.stderr))
            self.assertIn("md_ffi", ran.stdout)

    def test_other_words_are_refused(self) -> None:
        for words in (["ffi-build", "--inn", "x"], ["ffi-build", "--out"], ["build-archive", "x"]):
            ran = subprocess.run([TOOLS / words[0], *words[1:]], env={"PATH": "/usr/bin:/bin"}, capture_output=True, text=True)
            self.assertEqual((64, ""), (ran.returncode, ran.stdout))


class BuiltTest(RoomTest):
    """Whether the archive is up to date."""

    def setUp(self) -> None:
        super().setUp()
        (self.room / "low/src").mkdir(parents=True)
        (self.room / "ffi/out").mkdir(parents=True)
        self.source = self.room / "low/src/lib.rt"
        self.source.write_text("")
        placed = mock.patch.object(build_archive, "CRATE", self.room / "ffi")
        placed.start()
        self.addCleanup(placed.stop)
        self.archive = self.room / "ffi" / build_archive.ARCHIVE

    def is_built(self, kit: str = "kit") -> bool:
        return bool(build_archive.is_built([SimpleNamespace(folder=self.room / "low")], kit))

    def test_an_archive_is_up_to_date_until_something_below_it_changes(self) -> None:
        self.assertFalse(self.is_built())
        self.archive.write_text("")
        self.assertTrue(self.is_built())
        later = self.archive.stat().st_mtime + 10
        os.utime(self.source, (later, later))
        self.assertFalse(self.is_built())

    def test_an_archive_is_of_one_toolchain(self) -> None:
        self.archive.write_text("")
        (self.room / "ffi" / build_archive.BUILT_BY).write_text("kit")
        self.assertTrue(self.is_built())
        self.assertFalse(self.is_built("another"))
