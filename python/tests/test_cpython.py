"""CPython's own tests of `mailbox.Maildir`, over the mailboxes of this package. Those that are left out are named, each with its reason.

They are those of the interpreter that runs this, which Debian has in libpython3.11-testsuite.
"""

from __future__ import annotations

import os
import unittest
from typing import Any, Callable

from support import needs_library

import deolmutt

try:
    from test import test_mailbox as cpython
except ImportError as error:
    raise unittest.SkipTest(f"this Python lacks its own tests: {error}") from error

# Where the tests have their mailbox. Before Python 3.10 the name is in another module.
PATH = getattr(cpython, "os_helper", cpython.support).TESTFN
OTHER_INFO = "it gives a message info that is no flags"
NO_DISK = "it looks at the disk, where a mailbox in memory has nothing"
PRIVATE = "it calls what is private to mailbox.Maildir"
NEW_WITH_FLAGS = "it gives flags to messages that are to stay in new"
NO_PATH = "it opens the path again, and this mailbox has none"
READ_LONG_AGO = "it calls a file old that was written this moment, as read long ago"
# The names of tests, after their `test_`, by the reason.
LEFT_OUT = {
    OTHER_INFO: "add_MM get_info set_info",
    PRIVATE: "create_tmp file_permissions lookup refresh refresh_after_safety_period reread",
    NEW_WITH_FLAGS: "set_MM",
}
LEFT_OUT_IN_MEMORY = {**LEFT_OUT, NO_DISK: "clean directory_in_folder folder_file_perms get_folder initialize_new"}
LEFT_OUT_WITHOUT_A_PATH = {**LEFT_OUT_IN_MEMORY, NO_PATH: "close consistent_factory flush"}
LEFT_OUT_ON_THE_DISK = {**LEFT_OUT, READ_LONG_AGO: "clean"}


def leaves_out(reasons: dict[str, str]) -> Callable[[Any], Any]:
    """Leaves tests of a class out."""

    def mark(case: Any) -> Any:
        for reason, names in reasons.items():
            for name in (f"test_{name}" for name in names.split()):
                if hasattr(case, name):
                    setattr(case, name, unittest.skip(reason)(getattr(case, name)))
        return case

    return mark


class InMemory(cpython.TestMaildir):  # type: ignore[misc]
    """What CPython asks of the disk, asked of a mailbox in memory."""

    def assertMailboxEmpty(self) -> None:
        self.assertEqual(0, len(self._box))


class Patched(cpython.TestMaildir):  # type: ignore[misc]
    """The tests as they are, where `mailbox.Maildir` is a mailbox of this package."""

    is_on_disk = False

    def setUp(self) -> None:
        context = deolmutt.patched(PATH, disk=self.is_on_disk)
        context.__enter__()
        self.addCleanup(context.__exit__, None, None, None)
        super().setUp()

    def tearDown(self) -> None:
        super().tearDown()
        self.assertFalse(os.path.exists(PATH))


@needs_library
@leaves_out(LEFT_OUT_WITHOUT_A_PATH)
class MaildirTest(InMemory):
    def _factory(self, path: str, factory: Any = None) -> deolmutt.Maildir:
        return deolmutt.Maildir(factory)


@needs_library
@leaves_out(LEFT_OUT_IN_MEMORY)
class PatchedTest(Patched, InMemory):
    def test_it_is_a_mailbox_of_this_package(self) -> None:
        self.assertIsInstance(self._box, deolmutt.Maildir)


@needs_library
@leaves_out(LEFT_OUT_ON_THE_DISK)
class PatchedOnDiskTest(Patched):
    is_on_disk = True

    def test_it_is_a_mailbox_of_this_package(self) -> None:
        self.assertIsInstance(self._box, deolmutt.DiskMaildir)


def load_tests(loader: unittest.TestLoader, *_: object) -> unittest.TestSuite:
    """The tests of these classes, and not those of the classes above them."""
    cases: tuple[Any, ...] = MaildirTest, PatchedTest, PatchedOnDiskTest
    return unittest.TestSuite(map(loader.loadTestsFromTestCase, cases))


if __name__ == "__main__":
    unittest.main()
