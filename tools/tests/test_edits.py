"""The wrong edits of must-fail and more-edits fit the files that they change, so none is left behind by a change of the code."""

from __future__ import annotations

import unittest
from collections.abc import Iterator
from pathlib import Path

from shared import TOP

CRATES = TOP / "crates"


def changes(edit: Path) -> Iterator[tuple[Path, str, str]]:
    """What an edit changes: the file, the text that goes, and the text that comes."""
    file, old = Path(), ""
    for line in edit.read_text(encoding="utf-8").splitlines():
        key, _, text = line.partition(": ")
        if key == "file":
            file = edit.parents[1] / text.strip()
        elif key == "old":
            old = text
        elif key == "new":
            yield file, old, text


class Edits(unittest.TestCase):
    def test_each_fits_its_file_once_and_changes_it(self):
        edits = sorted([*CRATES.glob("*/must-fail/*.edit"), *CRATES.glob("*/more-edits/*.edit")])
        self.assertGreater(len(edits), 50)
        for edit in edits:
            with self.subTest(edit.relative_to(CRATES)):
                found = list(changes(edit))
                self.assertTrue(found)
                for file, old, new in found:
                    self.assertEqual(file.read_text(encoding="utf-8").count(old), 1)
                    self.assertNotEqual(old, new)
