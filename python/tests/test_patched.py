"""`mailbox.Maildir(path)` below a prefix is a mailbox of this package."""

from __future__ import annotations

import importlib.util
import mailbox
import os
import pathlib
import subprocess
import sys
import unittest
from mailbox import Maildir as NamedBefore

from support import MESSAGE, PYTHON, Case, library_path, needs_library

import deolmutt


class Counting(mailbox.Maildir):
    """A class of the code under test."""

    def add(self, message: object) -> str:
        self.added = getattr(self, "added", 0) + 1
        return super().add(message)  # type: ignore[arg-type]


def files_below(folder: pathlib.Path) -> list[str]:
    return sorted(str(path.relative_to(folder)) for path in folder.rglob("*"))


@needs_library
class PatchedTest(Case):
    def test_a_path_below_it_is_in_memory(self) -> None:
        with deolmutt.patched(self.folder):
            key = mailbox.Maildir(self.folder / "a").add(MESSAGE)
            again = mailbox.Maildir(str(self.folder / "b/../a"), create=False)
            self.assertEqual(MESSAGE, again.get_bytes(key))
            self.assertIsInstance(again, deolmutt.Maildir)
            self.assertIsInstance(again, mailbox.Maildir)
            self.assertEqual(0, len(mailbox.Maildir(self.folder / "b")))
            self.assertEqual(0, len(mailbox.Maildir(self.folder)))
            self.assertRaises(mailbox.NoSuchMailboxError, mailbox.Maildir, self.folder / "c", create=False)
        self.assertEqual([], files_below(self.folder))

    def test_a_path_elsewhere_and_each_path_after_it_are_on_the_disk(self) -> None:
        (self.folder / "inner").mkdir()
        with deolmutt.patched(self.folder / "inner"):
            box = mailbox.Maildir(self.folder / "inner2")
            self.assertIs(mailbox.Maildir, type(box))
            with deolmutt.patched(self.folder / "other"):
                self.assertIsInstance(mailbox.Maildir(self.folder / "inner/a"), deolmutt.Maildir)
        self.assertIs(mailbox.Maildir, type(mailbox.Maildir(self.folder / "inner/a")))
        self.assertTrue((self.folder / "inner/a/cur").is_dir())

    def test_a_tree_is_loaded_and_not_written(self) -> None:
        real = mailbox.Maildir(self.folder / "a")
        key = real.add(MESSAGE)
        real.add_folder("Sent").add(MESSAGE)
        before = files_below(self.folder)
        with deolmutt.patched(self.folder):
            box = mailbox.Maildir(self.folder / "a")
            self.assertEqual(([key], ["Sent"]), (box.keys(), box.list_folders()))
            box.remove(key)
            self.assertEqual(1, len(mailbox.Maildir(self.folder / "a/.Sent")))
        self.assertEqual(before, files_below(self.folder))

    def test_a_folder_is_one_of_its_mailbox(self) -> None:
        with deolmutt.patched(self.folder):
            box = mailbox.Maildir(self.folder / "a")
            key = mailbox.Maildir(self.folder / "a/.Sent").add(MESSAGE)
            self.assertEqual(["Sent"], box.list_folders())
            self.assertEqual([key], box.get_folder("Sent").keys())
            self.assertRaises(mailbox.NoSuchMailboxError, mailbox.Maildir, self.folder / "a/.None", create=False)
            # One whose own name begins with a dot is in no other.
            self.assertEqual(0, len(mailbox.Maildir(self.folder / ".mail")))

    def test_each_path_has_one_mailbox(self) -> None:
        with deolmutt.patched(self.folder):
            inner = mailbox.Maildir(self.folder / "a").add_folder("b").add_folder("c")
            key = inner.add(MESSAGE)
            self.assertEqual([key], mailbox.Maildir(self.folder / "a/.b/.c", create=False).keys())
            # Also one that was opened before the one above it.
            key = mailbox.Maildir(self.folder / "d/.e").add(MESSAGE)
            self.assertEqual(0, len(mailbox.Maildir(self.folder / "d")))
            self.assertEqual([key], mailbox.Maildir(self.folder / "d/.e").keys())

    def test_the_class_by_another_name_and_a_class_below_it(self) -> None:
        with deolmutt.patched(self.folder):
            self.assertIsInstance(NamedBefore(self.folder / "a"), deolmutt.Maildir)
            box = Counting(self.folder / "a")
            box.add(MESSAGE)
            self.assertEqual((1, 1), (box.added, len(mailbox.Maildir(self.folder / "a"))))
            self.assertIsInstance(box, Counting)
            for one in (mailbox.Maildir(self.folder / "a"), box):
                again = type(one)(self.folder / "a", create=False)
                self.assertEqual((type(one), 1), (type(again), len(again)))
        self.assertEqual([], files_below(self.folder))
        self.assertIs(Counting, type(type(box)(self.folder / "a")))

    def test_to_close_it_does_nothing(self) -> None:
        with deolmutt.patched(self.folder):
            box = mailbox.Maildir(self.folder / "a")
            box.close()
            box.add(MESSAGE)
            self.assertEqual(1, len(box))

    def test_on_the_disk_it_is_of_proved_jobs(self) -> None:
        with deolmutt.patched(self.folder, disk=True):
            box = mailbox.Maildir(self.folder / "a")
            key = box.add(MESSAGE)
            self.assertIsInstance(box, deolmutt.DiskMaildir)
            self.assertIsInstance(box, mailbox.Maildir)
            self.assertIsInstance(box.add_folder("Sent"), deolmutt.DiskMaildir)
        self.assertEqual([key], mailbox.Maildir(self.folder / "a").keys())


PYTEST = """
def test_empty(maildir):
    assert len(maildir) == 0
    maildir.add(b"Subject: x")
    assert len(maildir) == 1
"""


@needs_library
@unittest.skipUnless(importlib.util.find_spec("pytest"), "this Python has no pytest")
class FixtureTest(Case):
    def test_the_fixture_gives_a_mailbox(self) -> None:
        (self.folder / "test_it.py").write_text(PYTEST)
        words = [sys.executable, "-m", "pytest", "-q", "-p", "deolmutt.pytest_plugin", "test_it.py"]
        paths = os.pathsep.join([str(PYTHON), *os.environ.get("PYTHONPATH", "").split(os.pathsep)])
        env = {**os.environ, "PYTHONPATH": paths, "DEOLMUTT_LIBRARY": library_path()}
        ran = subprocess.run(words, cwd=self.folder, env=env, capture_output=True, text=True)
        self.assertIn("1 passed", ran.stdout, ran.stderr)


if __name__ == "__main__":
    unittest.main()
