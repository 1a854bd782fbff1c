"""What the tests share: the package on the path, and whether the library is there."""

from __future__ import annotations

import mailbox
import os
import pathlib
import sys
import tempfile
import unittest
from typing import Any, Callable, Literal

PYTHON = pathlib.Path(__file__).resolve().parent.parent
TOP = PYTHON.parent
sys.path.insert(0, str(PYTHON))
# Where `tools/ffi-build` leaves the library.
BUILT = TOP / "crates/md_ffi/out/deolmutt/libdeolmutt.so"
if BUILT.is_file():
    os.environ.setdefault("DEOLMUTT_LIBRARY", str(BUILT))

from deolmutt._library import library  # noqa: E402
from deolmutt.errors import LibraryMissing  # noqa: E402


# Why the library can't be used, or nothing.
WHY_NOT = ""
try:
    library()
except LibraryMissing as missing:
    WHY_NOT = str(missing)
needs_library = unittest.skipIf(WHY_NOT, f"the library isn't built: {WHY_NOT}")


def library_path() -> str:
    """Where the library is."""
    return os.path.abspath(library()._name)


MESSAGE = b"Subject: one\nFrom: a@example.org\n\nHello.\n"


def maildir_message(
    flags: str = "", subdir: Literal["new", "cur"] = "new", date: float = 1_000_000_000.0, body: bytes = MESSAGE
) -> mailbox.MaildirMessage:
    """A message with all that a maildir says of it."""
    message = mailbox.MaildirMessage(body)
    message.set_subdir(subdir)
    if flags:
        message.set_flags(flags)
    message.set_date(date)
    return message


class Case(unittest.TestCase):
    """A test with a folder of its own."""

    def setUp(self) -> None:
        folder = tempfile.TemporaryDirectory()
        self.addCleanup(folder.cleanup)
        self.folder = pathlib.Path(folder.name)

    def assert_each_raises(self, kind: type[Exception], *calls: Callable[[], object]) -> None:
        """Asserts that each of some calls raises an exception of a kind."""
        for number, call in enumerate(calls):
            with self.subTest(kind=kind.__name__, call=number), self.assertRaises(kind):
                call()


def outcome(function: Callable[..., Any], *given: Any) -> Any:
    """What a function answers, or the kind of exception that it raises, as users catch it."""
    kinds = (mailbox.NoSuchMailboxError, mailbox.NotEmptyError, FileNotFoundError, KeyError, TypeError, ValueError)
    try:
        return function(*given)
    except kinds as error:
        return next(kind for kind in kinds if isinstance(error, kind))
