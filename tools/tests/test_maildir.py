"""Trees that go to scripts and come back, as they are and as Python's mailbox reads them."""

from __future__ import annotations

import mailbox
import os
import random

from support import Limits, TreeTest, files_of, maildirs_of, read

# A tree as servers and readers leave it, and each line of the script that it is, in order.
SMALL = [
    (b"new/1000.M1P7Q1.a", b"Subject: one\n\nhi\\there\r\n", 5),
    (b"cur/1001.M2P7Q2.a,S=3:2,FS", b"abc", 1_700_000_000),
    (b"cur/.hidden", b"", 7),
    (b"tmp/1002.P7.a", b"half", 8),
    (b".Sent/cur/2:2,S", b"\n", 9),
    (b".My Mail/new/3", b" leading\tspace ", 10),
    (b"work/2024/cur/4:1,x", b"\0\xff", 0),
]
SMALL_LINES = [
    b"folder INBOX",
    b"file INBOX tmp 1002.P7.a 8 half",
    b"file INBOX new 1000.M1P7Q1.a 5 Subject: one\\n\\nhi\\\\there\\r\\n",
    b"file INBOX cur .hidden 7 ",
    b"file INBOX cur 1001.M2P7Q2.a,S=3:2,FS 1700000000 abc",
    b"folder :work:2024",
    b"file :work:2024 cur 4:1,x 0 \0\xff",
    b"folder Empty",
    b"folder My%20Mail",
    b"file My%20Mail new 3 10  leading\tspace ",
    b"folder Sent",
    b"file Sent cur 2:2,S 9 \\n",
]


class RoundTrips(TreeTest):
    def come_back(self, limits: Limits = Limits(), name: bytes = b"back") -> list[bytes]:
        """Imports and exports the tree, and checks that it came back. Its scripts."""
        run, scripts = self.import_into(limits)
        self.assertEqual(run.status, 0, run.err)
        back = self.path(name)
        words = [self.write(b"%d" % at, text) for at, text in enumerate(scripts)]
        self.assert_ended(self.call("export", *words, back), 0)
        self.assertEqual(files_of(back), files_of(self.tree))
        self.assertEqual(maildirs_of(back), maildirs_of(self.tree))
        return scripts

    def make_small(self) -> None:
        for steps in ((), (b".Sent",), (b".My Mail",), (b"work", b"2024"), (b".Empty",)):
            self.make(*steps)
        for path, body, seconds in SMALL:
            self.put(path, body, seconds)

    def test_a_small_tree_is_these_lines(self) -> None:
        self.make_small()
        (script,) = self.come_back()
        head, *lines = script.split(b"\n")
        self.assertEqual(head.rstrip(), b"# maildir import, part 1 of 1")
        self.assertEqual(lines, SMALL_LINES + [b""])

    def test_the_program_writes_the_same_to_standard_output(self) -> None:
        self.make_small()
        run = self.run_tool("import", self.tree)
        self.assertEqual((run.status, run.out.split(b"\n")[1:]), (0, SMALL_LINES + [b""]))
        back = self.path(b"back")
        self.assertEqual(self.run_tool("export", "-", back, given=run.out).status, 0)
        self.assertEqual(files_of(back), files_of(self.tree))

    def test_all_byte_values(self) -> None:
        self.make()
        every = bytes(range(256))
        self.put(b"cur/a:2,S", every * 3)
        self.put(b"cur/b:2,S", every[::-1])
        in_names = bytes(byte for byte in every if byte not in b"\0/ \n\r:.")
        for place in (b"new", b"cur", b"tmp"):
            self.put(b"%b/%b" % (place, b"x%b" % in_names[:120] + place), place)
            self.put(b"%b/%b:%b" % (place, b"y" + place, in_names[120:]), place)
        directory = b"." + in_names[:30]
        self.make(directory)
        self.put(directory + b"/cur/z", b"in a folder")
        self.come_back()

    def test_bodies_that_matter(self) -> None:
        self.make()
        bodies = (
            b"", b"\n", b"\r", b"\r\n", b"\\", b"\\n", b"\\\\n", b"\\\n", b"\n\\",
            b"\\\\\\\n", b" ", b"  x", b"x ", b"\r\r\n", b"a\r", b"#", b"# x\n#",
            b"folder x\n", b"\0", b"\xff\xfe",
        )  # fmt: skip
        for at, body in enumerate(bodies):
            self.put(b"cur/%d" % at, body)
        self.come_back()

    def test_a_large_body(self) -> None:
        self.make()
        body = random.Random(3).randbytes(1 << 20) * 16
        self.put(b"cur/large:2,", body)
        self.put(b"cur/lines:2,", b"\n" * (1 << 24))
        self.come_back()

    def test_times(self) -> None:
        self.make()
        for at, seconds in enumerate((0, 1, 2**31 - 1, 2**31, 2**32, 2**33)):
            self.put(b"new/%d" % at, b"", seconds)
        self.come_back()

    def test_a_part_of_a_second_is_cut_off(self) -> None:
        self.make()
        path = self.put(b"new/1")
        os.utime(path, ns=(0, 1_700_000_000_999_999_999))
        run, (script,) = self.import_into()
        self.assert_ended(run, 0)
        self.assertIn(b"\nfile INBOX new 1 1700000000 \n", script)

    def test_random_trees(self) -> None:
        for seed in range(25):
            with self.subTest(seed=seed):
                self.tree = self.path(b"tree%d" % seed)
                RandomTree(self, random.Random(seed)).make()
                self.come_back(Limits(40_000, 3), b"back%d" % seed)

    def test_import_of_an_export_is_the_same_script(self) -> None:
        self.make_small()
        (script,) = self.come_back()
        again = self.path(b"again")
        self.assertEqual(self.call("import", "-o", again, self.path(b"back")).status, 0)
        self.assertEqual(read(again), script)

    def test_names_of_servers_and_readers(self) -> None:
        """Trees as courier, Dovecot and mbsync leave them: what isn't mail is passed over."""
        self.make()
        self.make(b".Sent")
        for path in (
            b"dovecot-uidlist", b"dovecot.index.log", b"dovecot-keywords", b"subscriptions",
            b"courierimapuiddb", b"courierimapsubscribed", b".mbsyncstate", b".uidvalidity",
            b".Sent/maildirfolder", b".Sent/dovecot-uidlist", b"maildirsize",
        ):  # fmt: skip
            self.put(path, b"of a server")
        names = (
            b"1700000000.M123456P789.host,S=1234,W=1260:2,RS",
            b"1700000000.M1P1V0000000000000801I00000000000A.host,S=12:2,Sab",
            b"1700000001.12345_3.host,U=17:2,FS",
            b"1700000002_0.9.host,U=1,FMD5=7e33429f656f1e6e9d79b29c3f82c57e:2,",
            b"1700000003.R12.host!2,S",
            b"1700000004.a:b:2,S",
        )
        for name in names:
            self.put(b"cur/" + name, name)
            self.put(b".Sent/cur/sent" + name, name)
        self.come_back()
        run, _ = self.import_into()
        said = "\nmaildir: passed over 11 in none of tmp, new and cur: 2 dovecot-uidlist, 1 .mbsync"
        self.assertIn(said, run.err)


class RandomTree:
    """Makes a tree of random names and bytes, with names that two folders share."""

    def __init__(self, test: TreeTest, chance: random.Random) -> None:
        self.test = test
        self.chance = chance

    def make(self) -> None:
        """Makes the tree."""
        folders: list[tuple[bytes, ...]] = [()]
        for _ in range(self.chance.randrange(6)):
            depth = self.chance.choice((1, 1, 2))
            folders.append(tuple(self.word(b"/", 12) for _ in range(depth)))
        names: list[bytes] = []
        for steps in folders:
            directory = self.test.make(*steps)
            for _ in range(self.chance.randrange(30)):
                self.put(directory, names)

    def put(self, directory: bytes, names: list[bytes]) -> None:
        """Puts a file of a random name into one of the three directories."""
        place = self.chance.choice((b"tmp", b"new", b"cur", b"cur"))
        name = self.word(b"/ \n\r", 60)
        if names and self.chance.random() < 0.1:
            name = self.chance.choice(names).partition(b":")[0] + b":2,T"
        elif self.chance.random() < 0.5:
            name += b":2," + self.chance.choice((b"", b"S", b"FS", b"zZ"))
        names.append(name)
        path = os.path.join(directory, place, name)
        if not os.path.lexists(path):
            self.test.put(path, self.body(), self.chance.randrange(2_000_000_000))

    def body(self) -> bytes:
        """Bytes, some of them of those that have escapes."""
        alphabet = self.chance.choice((bytes(range(256)), b"\\\n\r", b"\\nr\n a"))
        length = self.chance.choice((0, 1, 2, 3, 10, 100, 3000))
        return bytes(self.chance.choices(alphabet, k=length))

    def word(self, without: bytes, length: int) -> bytes:
        """A name of a file or directory that is neither . nor one of the three."""
        alphabet = bytes(byte for byte in range(1, 256) if byte not in without)
        few = bytes(byte for byte in b".:%x2,S" if byte not in without)
        letters = self.chance.choice((alphabet, few))
        word = bytes(self.chance.choices(letters, k=self.chance.randrange(1, length)))
        return b"_" + word if word in (b".", b"..", b"tmp", b"new", b"cur") else word


class ReadByPython(TreeTest):
    """Python's `mailbox` reads what export wrote."""

    def test_messages_flags_and_folders(self) -> None:
        self.make()
        for name in (b".Sent", b".Lists.qmail", b".Entw&APw-rfe"):
            self.make(name)
        self.put(b"new/1000.M1P1Q1.a", b"Subject: new\n\nbody\n", 1000)
        self.put(b"cur/1001.M1P1Q1.a,S=9:2,FRS", b"Subject: seen\r\n\r\nbody\r\n", 1001)
        self.put(b".Sent/cur/1002.M1P1Q1.a:2,S", b"Subject: \xff\n\n\0", 1002)
        box = mailbox.Maildir(os.fsdecode(self.through_script()), factory=None, create=False)
        self.assertEqual(sorted(box.list_folders()), ["Entw&APw-rfe", "Lists.qmail", "Sent"])
        self.assertEqual(sorted(box.keys()), ["1000.M1P1Q1.a", "1001.M1P1Q1.a,S=9"])
        seen = box["1001.M1P1Q1.a,S=9"]
        self.assertEqual((seen.get_flags(), seen.get_subdir()), ("FRS", "cur"))
        self.assertEqual(seen.get_date(), 1001)
        self.assertEqual(box["1000.M1P1Q1.a"].get_subdir(), "new")
        sent = box.get_folder("Sent")
        self.assertEqual(sent.get_bytes("1002.M1P1Q1.a"), b"Subject: \xff\n\n\0")
        self.assertEqual(box.get_bytes("1001.M1P1Q1.a,S=9"), b"Subject: seen\r\n\r\nbody\r\n")

    def test_random_mailboxes_of_python(self) -> None:
        box = mailbox.Maildir(os.fsdecode(self.tree), factory=None)
        for name in ("Sent", "A.B"):
            box.add_folder(name)
        chance = random.Random(4)
        for at in range(60):
            message = mailbox.MaildirMessage(f"Subject: {at}\n\n{chance.random()}\n")
            message.set_subdir(chance.choice(("new", "cur")))
            message.set_flags("".join(chance.sample("DFPRST", chance.randrange(4))))
            message.set_date(chance.randrange(2_000_000_000))
            chance.choice((box, box.get_folder("Sent"), box.get_folder("A.B"))).add(message)
        other = mailbox.Maildir(os.fsdecode(self.through_script()), factory=None, create=False)
        self.assertEqual(contents(other), contents(box))
        for name in ("Sent", "A.B"):
            self.assertEqual(contents(other.get_folder(name)), contents(box.get_folder(name)))


def contents(box: mailbox.Maildir) -> dict[str, tuple[bytes, str, str, float]]:
    """All that a mailbox says of its messages."""
    return {
        key: (message.as_bytes(), message.get_flags(), message.get_subdir(), message.get_date())
        for key, message in box.iteritems()
    }
