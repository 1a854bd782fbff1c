"""Tests of docs/reports: a page for each finding of docs/JUDGED.md that costs mail or misleads a user, each in the same form."""

import re
import unittest

from shared import TOP

from judge_lib.grades import GRADES
from judge_lib.scene import read_scenes

DOCS = TOP / "docs"
PAGES = {path.stem: path.read_text(encoding="utf-8") for path in sorted((DOCS / "reports").glob("*.md"))}
INDEX = PAGES.pop("README")
HEADS = [r"\*\*What was run\.\*\*", r"\*\*What the logs? shows?\.\*\*", r"\*\*The rule\.\*\*", r"\*\*What it costs a user\.\*\*",
         r"\*\*What would mend it\.\*\*"]
SCENES = re.compile(r"`tools/scenes (?:--print )?([a-z0-9 -]+)`")
MOST_BYTES = 4000


def scenes_of(text: str) -> set:
    """The scenes that a text names."""
    return {name for names in SCENES.findall(text) for name in names.split()}


class Reports(unittest.TestCase):
    def test_the_index_has_each_page(self):
        rows = re.findall(r"^\| \[([\w-]+)\]\(\1\.md\) \|.*\| (\w+) \|$", INDEX, re.MULTILINE)
        self.assertEqual(sorted(name for name, _ in rows), sorted(PAGES))
        self.assertEqual([grade for _, grade in rows], sorted((grade for _, grade in rows), key=list(GRADES).index))

    def test_each_page_has_one_form_and_names_scenes_that_there_are(self):
        for name, text in PAGES.items():
            with self.subTest(name):
                self.assertRegex(text, re.compile(r"\A# [^\n]+\n\nTo the (authors|maintainers) of .*" + ".*".join(HEADS), re.DOTALL))
                self.assertIn("on Debian 12" if "python" not in name else "of Debian 12", text)
                self.assertLess(len(text.encode()), MOST_BYTES, "it is longer than a page")
                self.assertTrue(read_scenes(sorted(scenes_of(text))))

    def test_what_is_lost_or_misleads_has_a_page_or_a_reason(self):
        table = (DOCS / "JUDGED.md").read_text(encoding="utf-8").partition("<!-- begin: ")[2].partition("<!-- end: ")[0]
        rows = "".join(part for part in table.split("### ") if part.startswith(("Lost", "Misled")))
        self.assertEqual(scenes_of(rows) - scenes_of(INDEX).union(*map(scenes_of, PAGES.values())), set())
