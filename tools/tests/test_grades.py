"""Tests of the grades of findings, where the log says otherwise than the judge."""

import unittest

import shared  # noqa: F401

from judge_lib.grades import GRADES, at_least, grade_of
from judge_lib.judge_run import Finding


def grade(clause, *lines):
    """The grade of a finding at the last line, which the judge grades as misled."""
    return grade_of("\n".join(["maildir_log 1", *lines, ""]).encode(), Finding(1 + len(lines), clause, "misled"))


class Grades(unittest.TestCase):
    def test_they_are_in_order(self):
        self.assertEqual([len(at_least(each)) for each in GRADES], [1, 2, 3, 4])

    def test_what_is_no_file(self):
        """A log has no words for it, and says so in a comment."""
        made, said = ["1 p create box/cur/u:2, ok", "1 p write box/cur/u:2, ok"], "# not said: mkdir: the next line says it as a file"
        for lines in (made[:1], made):
            self.assertEqual(grade("SeenBeforeWhole", *lines), "misled")
            self.assertEqual(grade("SeenBeforeWhole", said, *lines), "custom")
            self.assertEqual(grade("SeenBeforeWhole", "# not said: what a reading of new showed after its end", *lines), "misled")
        comes = ["# a file that comes from elsewhere: the next lines say it as made in tmp", "1 p create box/tmp/arrived.1 ok",
                 "1 p write box/tmp/arrived.1 fault", "1 p rename box/tmp/arrived.1 box/cur/u:2, ok"]
        self.assertEqual(grade("SeenBeforeWhole", *comes), "misled", "it is cut")
        self.assertEqual(grade("SeenBeforeWhole", *comes, "1 p write box/cur/u:2, ok"), "misled", "it is written to once it has come")
