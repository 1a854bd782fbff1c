"""The sessions of docs/PYTHON.md and of the READMEs print what the pages say."""

from __future__ import annotations

import doctest
import unittest

from support import TOP, Case, needs_library

# A page, and how many lines of it are run at least.
PAGES = ((TOP / "docs/PYTHON.md", 25), (TOP / "README.md", 5), (TOP / "python/README.md", 7))


@needs_library
class PageTest(Case):
    def test_sessions(self) -> None:
        for page, least in PAGES:
            with self.subTest(page=page.name):
                names = {"tree": str(self.folder / "tree"), "disk": str(self.folder / "disk")}
                ran = doctest.testfile(str(page), module_relative=False, globs=names, encoding="utf-8")
                self.assertGreaterEqual(ran.attempted, least)
                self.assertEqual(0, ran.failed)


if __name__ == "__main__":
    unittest.main()
