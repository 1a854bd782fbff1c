"""Which directory the name of a folder is."""

from __future__ import annotations

import random
import unittest

import shared  # noqa: F401
from maildir_lib.folder_names import NoDirectory, directory_of, folder_name

# A directory, by its steps from the tree, and the name of its folder.
TABLE = [
    ((), b"INBOX"),
    ((b".Sent",), b"Sent"),
    ((b".A.B",), b"A.B"),
    ((b".INBOX",), b"%49NBOX"),
    ((b".INBOX.Sent",), b"INBOX.Sent"),
    ((b".inbox",), b"inbox"),
    ((b"INBOX",), b":INBOX"),
    ((b"work",), b":work"),
    ((b"work", b"2024"), b":work:2024"),
    ((b".A", b".B"), b":.A:.B"),
    ((b".A", b"b"), b":.A:b"),
    ((b".My Mail",), b"My%20Mail"),
    ((b"My Mail",), b":My%20Mail"),
    ((b".50%",), b"50%25"),
    ((b".%20",), b"%2520"),
    ((b"..x",), b"%2Ex"),
    ((b"...",), b"%2E."),
    ((b".:x",), b"%3Ax"),
    ((b".x:y",), b"x:y"),
    ((b"x:y",), b":x%3Ay"),
    ((b".a\nb\rc",), b"a%0Ab%0Dc"),
    ((b".Entw\xc3\xbcrfe",), b"Entw\xc3\xbcrfe"),
    ((b".\xff\x01",), b"\xff\x01"),
    ((b".&AOQ-",), b"&AOQ-"),
    ((b".#news",), b"#news"),
]

# Names that no directory has: they would leave the tree, or are another name's other spelling.
NONE = (
    b"%2E %2e %2E%2E/ : :. :.. :..:..:etc :a::b :a: ::a :a:..:b :tmp :new :cur :a:cur :.A:new :.A"
    b" a%2Fb %2F %2F.. :a%2Fb :%2E :%2E%2E a%00 % %2 %zz %41 a%2Eb a%3Ab %49nbox %20%2e :a%3ab"
).split(b" ")


class Names(unittest.TestCase):
    def test_table(self) -> None:
        for steps, name in TABLE:
            with self.subTest(name=name):
                self.assertEqual(folder_name(steps), name)
                self.assertEqual(directory_of(name), steps)

    def test_names_of_no_directory(self) -> None:
        for name in NONE:
            with self.subTest(name=name), self.assertRaises(NoDirectory):
                directory_of(name)

    def test_random_directories_have_names_of_their_own(self) -> None:
        chance = random.Random(1)
        met: dict[bytes, tuple[bytes, ...]] = {}
        for _ in range(20_000):
            steps = random_steps(chance)
            name = folder_name(steps)
            self.assertEqual(directory_of(name), steps)
            self.assertEqual(met.setdefault(name, steps), steps)
            self.assertFalse(set(name) & set(b"/ \0\r\n"))
            self.assertFalse(name.startswith(b"."))

    def test_random_names_have_one_directory_at_most(self) -> None:
        chance = random.Random(2)
        found = 0
        for _ in range(20_000):
            name = bytes(chance.choice(b"%.:2E0AIN/x") for _ in range(chance.randrange(1, 8)))
            try:
                steps = directory_of(name)
            except NoDirectory:
                continue
            found += 1
            self.assertEqual(folder_name(steps), name)
            for step in steps:
                self.assertNotIn(step, (b"", b".", b"..", b"tmp", b"new", b"cur"))
                self.assertNotIn(b"/", step)
        self.assertGreater(found, 1000)


def random_steps(chance: random.Random) -> tuple[bytes, ...]:
    """Steps to a directory, of bytes that matter in names and of any."""
    alphabet = b".:% \n\r2E0AINBOX\xff" if chance.random() < 0.7 else bytes(range(1, 256))
    steps = []
    for _ in range(chance.choice((1, 1, 1, 2, 3))):
        step = bytes(chance.choice(alphabet) for _ in range(chance.randrange(1, 6)))
        step = step.replace(b"/", b"x")
        steps.append(b"x" + step if step in (b".", b"..") else step)
    return tuple(steps)
