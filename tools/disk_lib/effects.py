"""What each command does."""

from __future__ import annotations

import json
import os
import stat
import subprocess
import time

from .boxes import MAIL, PLACES, PROGRAM, UNIQUE, Box, BoxTest, run


class Effects(BoxTest):
    """Each command on a maildir of one message or two."""

    def test_make(self) -> None:
        self.run_well("make", "mail")
        for folder in ("mail", "mail/tmp", "mail/new", "mail/cur"):
            self.assertEqual(stat.S_IMODE((self.top / folder).stat().st_mode), 0o700, folder)

    def test_make_again(self) -> None:
        self.box.put("cur", UNIQUE)
        before = self.box.files()
        self.run_well("make", "box/")
        self.assertEqual(self.box.files(), before)

    def test_deliver(self) -> None:
        self.assertEqual(self.run_well("deliver", "box", given=MAIL), b"")
        self.assertEqual([*self.box.files().values()], [MAIL])
        (name,) = self.box.names("new")
        self.assertEqual(stat.S_IMODE((self.box.path / "new" / os.fsdecode(name)).stat().st_mode), 0o600)
        self.assertRegex(name, rb"^[0-9]+\.M[0-9]+P[0-9]+Q0\.")

    def test_deliver_prints(self) -> None:
        printed = self.run_well("deliver", "box", "--print", "--no-sync", given=MAIL)
        self.assertEqual([name + b"\n" for name in self.box.names("new")], [printed])
        self.run_well("seen", "box", "-", given=printed)
        self.assertEqual([name + b":2,S\n" for name in [printed[:-1]]], [name + b"\n" for name in self.box.names("cur")])

    def test_deliver_any_bytes(self) -> None:
        for size in (0, 1, 65535, 65536, 65537, 1_000_000):
            body = os.urandom(size)
            printed = self.run_well("deliver", "box", "--print", given=body)
            self.assertEqual(self.box.read("new", printed[:-1]), body)
            self.assertEqual(self.run_well("read", "box", printed[:-1]), body)

    def test_deliver_to_folder(self) -> None:
        folder = Box(self.top / "box" / ".a.b")
        self.run_well("deliver", "box", "--folder", "a.b", given=MAIL)
        self.assertEqual([*folder.files().values()], [MAIL])

    def test_list(self) -> None:
        self.box.put("new", b"b")
        self.box.put("cur", b"a:2,FS")
        self.box.put("cur", b"c:1,x")
        self.box.put("cur", b".hidden")
        self.assertEqual(self.run_well("list", "box"), b"cur\tFS\ta\nnew\t-\tb\ncur\t?\tc\n")

    def test_directory_of_the_future(self) -> None:
        """A time of modification that was set to the future keeps no directory from resting."""
        self.box.put("cur", UNIQUE + b":2,")
        os.utime(self.box.path / "cur", (2**33, 2**33))
        self.assertEqual(self.run_well("list", "box").count(b"\n"), 1)

    def test_directories_that_are_links(self) -> None:
        """Tmp, new and cur may be symbolic links to directories elsewhere."""
        for place in PLACES:
            (self.box.path / place).rename(self.top / place)
            (self.box.path / place).symlink_to(self.top / place)
        os.utime(self.box.put("tmp", b"old"), (1000, 1000))
        key = self.run_well("deliver", "box", "--print", given=MAIL)[:-1]
        self.assertEqual(self.run_well("list", "box"), b"new\t-\t" + key + b"\n")
        self.assertEqual(self.run_well("read", "box", key), MAIL)
        self.run_well("seen", "box", key)
        self.run_well("flag", "box", "+F", key)
        self.run_well("clean", "box")
        self.run_well("check", "box")
        self.assertEqual(self.box.files(), {b"cur/" + key + b":2,FS": MAIL})

    def test_list_headers(self) -> None:
        self.box.put("cur", b"a:2,S", b"Date: Thu, 1 Jan 1970 00:16:40 +0000\nFrom: x\ty <a@b>\nSubject: d\xc3\xa9j\xc3\xa0\n\n")
        self.box.put("cur", b"b:2,", b"\n")
        first, second = self.run_well("list", "box", "--headers").split(b"\n")[:2]
        self.assertEqual(first.split(b"\t")[:5], [b"cur", b"S", b"a", b"70", b"1000"])
        self.assertEqual(first.split(b"\t")[6:], [b"d\xc3\xa9j\xc3\xa0"])
        self.assertEqual(second.split(b"\t"), [b"cur", b"-", b"b", b"1", b"-", b"-", b"-"])

    def test_list_json(self) -> None:
        self.box.put("cur", b'q"\\\x01:2,S', b"From: a@b\n\n")
        self.box.put("cur", b"z\xff:1,")
        rows = [json.loads(line) for line in self.run_well("list", "box", "--json", "--headers").splitlines()]
        self.assertEqual(rows[0], {"place": "cur", "flags": "S", "unique": 'q"\\\x01', "name": 'q"\\\x01:2,S', "size": 11, "date": None,
                                   "from": "a@b", "subject": None, "message_id": None})
        self.assertEqual((os.fsencode(rows[1]["unique"]), rows[1]["flags"]), (b"z\xff", None))

    def test_read(self) -> None:
        self.box.put("new", UNIQUE)
        self.assertEqual(self.run_well("read", "box", UNIQUE), MAIL)
        self.assertEqual(self.run_well("read", "box", b"box/new/" + UNIQUE), MAIL)

    def test_seen(self) -> None:
        self.box.put("new", UNIQUE)
        self.box.put("new", b"b:2,F")
        self.run_well("seen", "box", UNIQUE, "b")
        self.assertEqual(self.box.files(), {b"cur/" + UNIQUE + b":2,S": MAIL, b"cur/b:2,FS": MAIL})

    def test_flag(self) -> None:
        self.box.put("cur", UNIQUE + b":2,ST")
        self.run_well("flag", "box", "+FR-T", UNIQUE)
        self.assertEqual(self.box.names("cur"), [UNIQUE + b":2,FRS"])
        self.run_well("flag", "box", "--remove", "S", "--add", "D", b"box/cur/" + UNIQUE + b":2,FRS")
        self.assertEqual(self.box.names("cur"), [UNIQUE + b":2,DFR"])
        self.run_well("flag", "box", "--", "-F", UNIQUE)
        self.assertEqual(self.box.names("cur"), [UNIQUE + b":2,DR"])

    def test_flag_by_an_old_path(self) -> None:
        """A path names a message, whatever its flags are by now."""
        self.box.put("cur", UNIQUE + b":2,S")
        self.run_well("flag", "box", "+F", b"box/cur/" + UNIQUE + b":2,")
        self.run_well("flag", "box", "+F", b"box/new/" + UNIQUE)
        self.assertEqual(self.box.names("cur"), [UNIQUE + b":2,FS"])

    def test_move_and_copy(self) -> None:
        other = Box(self.top / "other")
        self.box.put("cur", UNIQUE + b":2,S")
        self.box.put("new", b"b")
        self.run_well("move", "box", "other", UNIQUE)
        self.assertEqual(other.files(), {b"cur/" + UNIQUE + b":2,S": MAIL})
        self.run_well("copy", "box", "other/", "b")
        self.assertEqual(self.box.files(), {b"new/b": MAIL})
        self.assertEqual([*other.files().values()], [MAIL, MAIL])
        self.assertEqual(len(other.names("new")), 1)

    def test_expunge(self) -> None:
        self.box.put("cur", UNIQUE + b":2,T")
        self.box.put("cur", b"b:2,S")
        self.run_well("expunge", "box", UNIQUE)
        self.run_badly(65, b"b: the message has not the flag T", "expunge", "box", "b")
        self.assertEqual(self.box.names("cur"), [b"b:2,S"])

    def test_clean(self) -> None:
        old = self.box.put("tmp", b"old")
        self.box.put("tmp", b"fresh")
        os.utime(old, (1000, 1000))
        self.run_well("clean", "box")
        self.assertEqual(self.box.names("tmp"), [b"fresh"])

    def test_check(self) -> None:
        self.box.put("cur", b"a:2,S")
        self.assertEqual(self.run_well("check", "box"), b"")
        self.box.put("new", b"a")
        ended = run("check", "box", cwd=self.top)
        self.assertEqual((ended.status, ended.said), (65, b"deolmutt: box: the maildir has flaws\n"))
        self.assertIn(b"\tcur\ta:2,S\n", ended.printed)

    def test_keys_of_input(self) -> None:
        for number in range(30):
            self.box.put("new", b"m%d" % number)
        listed = self.run_well("list", "box")
        self.run_well("seen", "box", "-", given=b"".join(line.split(b"\t")[2] + b"\n" for line in listed.splitlines()))
        self.assertEqual(self.box.names("new"), [])
        self.assertEqual(len(self.box.names("cur")), 30)

    def test_worst_status(self) -> None:
        self.box.put("cur", b"a:2,")
        ended = run("flag", "box", "+S", "x", "a", "y/z", cwd=self.top)
        self.assertEqual(ended.said, b"deolmutt: x: no such message\n"
                         b"deolmutt: y/z: not the name of a message, nor its path in this maildir\n")
        self.assertEqual(ended.status, 65)
        self.assertEqual(self.box.names("cur"), [b"a:2,S"])

    def test_progress(self) -> None:
        """A terminal is told how many are done, once work takes more than a second."""
        terminal, errors = os.openpty()
        self.addCleanup(os.close, terminal)
        command = [PROGRAM, "deliver", "box", "--many"]
        with subprocess.Popen(command, stdin=subprocess.PIPE, stderr=errors, cwd=self.top) as process:
            os.close(errors)
            assert process.stdin
            for _ in range(3):
                process.stdin.write(b"From a\n\nhello\n\n")
                process.stdin.flush()
                time.sleep(0.6)
        self.assertRegex(os.read(terminal, 1000), rb"^([0-9]+ messages\r)+ +\r$")
        self.assertEqual(len(self.box.names("new")), 3)
