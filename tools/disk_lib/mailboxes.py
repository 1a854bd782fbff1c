"""Deliveries of an mbox, and of the files of a directory."""

from __future__ import annotations

import os

from .boxes import BoxTest, run, sent

MANY = b"""From a@b Thu Jan  1 00:00:00 1970
Subject: one

>From here
>>From there
> From far
 From space

From c@d Thu Jan  1 00:00:00 1970
Subject: two


two empty lines


From e@f Thu Jan  1 00:00:00 1970
no end"""

CUT = [b"Subject: one\n\nFrom here\n>From there\n> From far\n From space\n", b"Subject: two\n\n\ntwo empty lines\n\n", b"no end"]


class DeliveryTest(BoxTest):
    """A test that delivers with --print."""

    def delivered(self, printed: bytes) -> list[bytes]:
        """The messages of the names that were printed, in order."""
        return [self.box.read("new", name) for name in printed.splitlines()]


class Mailboxes(DeliveryTest):
    """An mbox as mboxrd has it."""

    def test_many(self) -> None:
        printed = self.run_well("deliver", "box", "--many", "--print", given=MANY)
        self.assertEqual(self.delivered(printed), CUT)
        self.assertEqual(self.box.names("tmp"), [])

    def test_empty(self) -> None:
        self.assertEqual(self.run_well("deliver", "box", "--many", "--print"), b"")
        self.assertEqual(self.delivered(self.run_well("deliver", "box", "--many", "--print", given=b"From \n")), [b""])

    def test_no_mailbox(self) -> None:
        for given in (b"Subject: a\n\n", b"\nFrom a\n"):
            self.run_badly(65, b"message 1: no line 'From ' begins the first message", "deliver", "box", "--many", given=given)
        self.assertEqual(self.box.files(), {})

    def test_unread(self) -> None:
        self.run_badly(74, b"message 1: reading failed: Is a directory (os error 21)", "deliver", "box", "--many", before=sent("</"))

    def test_a_long_one(self) -> None:
        """The first message that is too long ends it, and those before it are delivered."""
        for long in (b"a" * 16_777_217, b"a\n" * 8_388_609):
            ended = run("deliver", "box", "--many", "--print", cwd=self.top, given=b"From a\n1\n\nFrom b\n" + long + b"\nFrom c\n3\n")
            self.assertEqual((ended.status, ended.said), (65, b"deolmutt: message 2: the message is longer than 16777216 bytes\n"))
            self.assertEqual(self.delivered(ended.printed), [b"1\n"])


class Files(DeliveryTest):
    """The files of a directory."""

    def setUp(self) -> None:
        super().setUp()
        self.letters = self.top / "letters"
        self.letters.mkdir()
        for name in ("b", "a", ".c", "a b"):
            (self.letters / name).write_bytes(name.encode())

    def test_in_order(self) -> None:
        (self.top / "link").symlink_to("letters")
        for path in ("letters", "letters//", "link", self.letters):
            printed = self.run_well("deliver", "box", "--from", path, "--print", given=b"not read")
            self.assertEqual(self.delivered(printed), [b".c", b"a", b"a b", b"b"])

    def test_not_as_mailboxes(self) -> None:
        ended = run("deliver", "box", "--from", "letters", "--many", cwd=self.top)
        self.assertEqual((ended.status, ended.printed, self.box.files()), (64, b"", {}))

    def test_what_is_no_message(self) -> None:
        """It is refused by name, and the others are delivered."""
        (self.letters / "d").mkdir()
        (self.letters / "l").symlink_to("a")
        os.mkfifo(self.letters / "p")
        (self.letters / "t").write_bytes(b"a" * 16_777_217)
        with open(os.path.join(os.fsencode(self.letters), b"\xff"), "wb") as file:
            file.write(b"no text")
        ended = run("deliver", "box", "--from=letters", "--print", cwd=self.top)
        self.assertEqual(ended.said, b"deolmutt: letters/d: it is no regular file\ndeolmutt: letters/l: it is no regular file\n"
                         b"deolmutt: letters/p: it is no regular file\ndeolmutt: letters/t: the message is longer than 16777216 bytes\n"
                         b"deolmutt: letters/\\xff: its name is not UTF-8\n")
        self.assertEqual((ended.status, self.delivered(ended.printed)), (65, [b".c", b"a", b"a b", b"b"]))

    def test_no_directory(self) -> None:
        for path in ("none", "letters/a"):
            ended = run("deliver", "box", "--from", path, cwd=self.top)
            self.assertEqual((ended.status, ended.printed), (66, b""))
            self.assertIn(b"deolmutt: " + path.encode() + b": no such directory: ", ended.said)
        self.assertEqual(self.box.files(), {})
