"""The mailboxes beside CPython's `mailbox.Maildir`: what its documentation says is so of each."""

from __future__ import annotations

import mailbox
import pathlib
import unittest
from typing import Any, Callable

from rows import ROWS, Row
from support import Case, needs_library

import deolmutt
from deolmutt._base import BaseMaildir

# What `mailbox.Maildir` has since Python 3.13.
_NEWER = {"get_flags", "get_info", "set_flags", "set_info", "add_flag", "remove_flag"}
_ROWS_OF_CPYTHON = [row for row in ROWS if hasattr(mailbox.Maildir, "get_flags") or not row.is_of_flags]


@needs_library
class DocumentationTest(Case):
    def assert_each_row(self, rows: list[Row], box_of: Callable[[pathlib.Path], Any]) -> None:
        for number, row in enumerate(rows):
            with self.subTest(row.sentence):
                box = box_of(self.folder / str(number))
                self.assertEqual(plain_lists(row.tried(box)), plain_lists(row.expected))

    def test_each_row_is_so_of_the_mailbox_in_memory(self) -> None:
        self.assert_each_row(ROWS, lambda _: deolmutt.Maildir())

    def test_each_row_is_so_of_the_mailbox_on_a_disk(self) -> None:
        self.assert_each_row(ROWS, deolmutt.DiskMaildir)

    def test_each_row_is_so_of_cpythons_mailbox(self) -> None:
        self.assert_each_row(_ROWS_OF_CPYTHON, mailbox.Maildir)

    def test_every_public_name_is_there(self) -> None:
        names = {name for name in dir(mailbox.Maildir) if not name.startswith("_")}
        for kind in (deolmutt.Maildir, deolmutt.DiskMaildir):
            self.assertLessEqual(names | _NEWER, set(dir(kind)))

    def test_every_public_method_has_a_docstring_of_its_own(self) -> None:
        for kind in (BaseMaildir, deolmutt.Maildir, deolmutt.DiskMaildir):
            for name, value in vars(kind).items():
                if not name.startswith("_") and callable(getattr(value, "__func__", value)):
                    self.assertTrue(value.__doc__, name)


def plain_lists(value: object) -> object:
    """Lists for tuples, so that rows may write either."""
    if isinstance(value, (list, tuple)):
        return [plain_lists(each) for each in value]
    return value


if __name__ == "__main__":
    unittest.main()
