"""Names that are long, hostile or none of messages, and what is no file."""

from __future__ import annotations

import os

from .boxes import MAIL, BoxTest, run

LONG = b"u" * 200


class Names(BoxTest):
    """What stands in a maildir that is no plain message."""

    def test_long_names(self) -> None:
        self.box.put("new", LONG)
        self.run_well("seen", "box", LONG)
        self.assertEqual(self.box.names("cur"), [LONG + b":2,S"])
        self.run_well("flag", "box", "+ABCDEFGHIJKLMNOPQRSTUVWXYZabcdefghijklmnopqrstuvwxyz", LONG)
        (name,) = self.box.names("cur")
        self.assertEqual((len(name), run("read", "box", LONG, cwd=self.top).printed), (255, MAIL))

    def test_name_that_grows_too_long(self) -> None:
        """A name of 255 bytes can't get a flag, and the message stays."""
        name = b"u" * 255
        self.box.put("cur", name)
        self.assertNotEqual(run("flag", "box", "+F", name, cwd=self.top).status, 0)
        self.assertEqual(self.box.files(), {b"cur/" + name: MAIL})

    def test_hostile_names(self) -> None:
        """What a listing prints of a name names it again, in one line."""
        names = [b"tab\ta", b"back\\slash", b"back\\x5c", b"q'\"$(a)`", "déjà".encode(), b"\x1b[31m", b"sp ace", b"-dash",
                 b"\xc2\x9b31m\xc3\xa9"]
        for name in names:
            self.box.put("new", name)
        listed = self.run_well("list", "box")
        self.assertEqual(len(listed.splitlines()), len(names))
        self.assertTrue(all(byte >= 32 or byte in b"\t\n" for byte in listed))
        self.assertNotIn(b"\xc2\x9b", listed)
        keys = b"".join(line.split(b"\t")[2] + b"\n" for line in listed.splitlines())
        self.run_well("seen", "box", "-", given=keys)
        self.assertEqual(self.box.names("cur"), sorted(name + b":2,S" for name in names))

    def test_no_text(self) -> None:
        """A name that is not UTF-8 is listed, and nothing is done with it."""
        self.box.put("new", b"a\xff")
        self.assertEqual(self.run_well("list", "box"), b"new\t-\ta\\xff\n")
        self.assertNotEqual(run("seen", "box", "-", cwd=self.top, given=b"a\\xff\n").status, 0)
        self.assertEqual(self.box.files(), {b"new/a\xff": MAIL})

    def test_wrong_escapes(self) -> None:
        for line in (b"\\", b"\\y", b"\\x1", b"\\xzz", b"a" * 100_000):
            self.assertEqual(run("seen", "box", "-", cwd=self.top, given=line).status, 64, line[:10])

    def test_links_and_directories(self) -> None:
        path = os.fsencode(self.box.path)
        os.symlink(b"/etc/passwd", path + b"/new/link")
        os.mkdir(path + b"/cur/dir")
        os.mkfifo(path + b"/new/pipe")
        self.box.put("new", b"m")
        self.run_well("seen", "box", "m")
        for name in ("link", "dir", "pipe"):
            ended = run("read", "box", name, cwd=self.top)
            self.assertNotEqual(ended.status, 0, name)
            self.assertEqual(ended.printed, b"", name)
        self.run_well("list", "box", "--headers")

    def test_two_names(self) -> None:
        """Which of two names of one message is meant can't be told."""
        self.box.put("cur", b"m:2,S", b"one")
        self.box.put("cur", b"m:2,F", b"two")
        before = self.box.files()
        self.run_badly(65, b"m: it has two names", "flag", "box", "+T", "m")
        self.assertEqual(self.box.files(), before)

    def test_names_that_begin_alike(self) -> None:
        for name in (b"m", b"m1:2,", b"m:2,"):
            self.box.put("cur" if b":" in name else "new", name)
        self.run_well("flag", "box", "+F", "m1")
        self.assertEqual(self.box.names("cur"), [b"m1:2,F", b"m:2,"])
