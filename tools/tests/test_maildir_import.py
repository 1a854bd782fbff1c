"""What an import leaves out, how it splits, where it writes, and that nothing is half done."""

from __future__ import annotations

import errno
import os
import pty
import resource
import shutil
import signal
import stat
import subprocess
import sys
import time
from typing import Callable
from unittest import mock

from support import TOOL, EachMoment, Limits, Run, TreeTest
from support import before_call, become_nobody, everything_in, fail, files_of, read, read_terminal

from maildir_lib import message, tree
from maildir_lib.report import Reason

HEAD = 72


class LeftOut(TreeTest):
    """Each reason, said on a line of standard error with the path, and counted."""

    def setUp(self) -> None:
        super().setUp()
        self.make()
        self.put(b"cur/kept:2,S", b"kept")

    def check(self, path: bytes, reason: str) -> None:
        """Imports, and asks for that one path to be left out, and for what is kept."""
        run, scripts = self.import_into()
        shown = os.fsdecode(os.path.join(self.tree, path)).replace("\n", "\\n").replace("\r", "\\r")
        self.assert_ended(run, 1, f"maildir: left out: {shown}: {reason}", f"maildir: left out 1: 1 since {reason}")
        self.assertEqual(scripts[0].split(b"\n")[2:], [b"file INBOX cur kept:2,S 1000 kept", b""])

    def test_names(self) -> None:
        for place, name, reason in (
            (b"new", b"a b", "its name has a space"),
            (b"tmp", b" ", "its name has a space"),
            (b"new", b"a\nb", "its name has LF or CR"),
            (b"cur", b"a\rb", "its name has LF or CR"),
            (b"cur", b"u" * 201 + b":2,S", "its unique name is over 200 bytes"),
            (b"new", b"u" * 255, "its unique name is over 200 bytes"),
        ):
            with self.subTest(name=name):
                path = self.put(place + b"/" + name)
                self.check(place + b"/" + name, reason)
                os.unlink(path)

    def test_a_name_of_more_than_255_bytes(self) -> None:
        """No Linux file system gives such a name, but others do."""
        self.assertEqual(tree.name_reason(b"tmp", b"u" * 256), Reason.LONG_NAME)
        self.assertIsNone(tree.name_reason(b"tmp", b"u" * 255))

    def test_long_names_that_can_be_said(self) -> None:
        for path in (b"new/" + b"u" * 200, b"cur/" + b"v" * 200 + b":2,S", b"tmp/" + b"u" * 255):
            self.put(path)
        for path in (b"cur/." + b"w" * 250, b"new/:" + b"w" * 250):
            self.put(path)
        self.assertEqual(self.import_into()[0].status, 0)

    def test_what_is_no_file(self) -> None:
        for name, make, reason in (
            (b"cur/link:2,S", lambda path: os.symlink("kept:2,S", path), "it is a symbolic link"),
            (b"new/directory", os.mkdir, "it is a directory"),
            (b"new/fifo", os.mkfifo, "it is a fifo, a socket or a device"),
            (b"tmp/socket", lambda path: os.mknod(path, stat.S_IFSOCK | 0o600), "it is a fifo, a socket or a device"),
            (b".linked", lambda path: os.symlink("cur", path), "it is a symbolic link"),
        ):
            with self.subTest(name=name):
                path = os.path.join(self.tree, name)
                make(path)
                self.check(name, reason)
                os.rename(path, self.path(os.path.basename(name)))

    def test_folders(self) -> None:
        for steps, reason in (
            ((b"." + b"x" * 101,), "its folder's name is over 100 bytes in a script"),
            ((b". " + b" " * 33,), "its folder's name is over 100 bytes in a script"),
            ((b"box", b"tmp", b"in"), "its folder is under a directory named tmp, new or cur"),
        ):
            with self.subTest(steps=steps):
                directory = self.make(*steps)
                self.put(directory + b"/new/1")
                self.check(os.path.join(*steps), reason)
                os.rename(os.path.join(self.tree, steps[0]), self.path(steps[0]))

    def test_all_files_of_a_left_out_folder_are_counted(self) -> None:
        directory = self.make(b"." + b"x" * 101)
        for at in range(7):
            self.put(directory + b"/new/%d" % at)
        run, _ = self.import_into()
        self.assertIn("left out 7: 7 since its folder's name", run.err)

    def test_a_maildir_that_lacks_a_directory(self) -> None:
        self.put(self.make(b".half") + b"/cur/1")
        os.rmdir(os.path.join(self.tree, b".half/tmp"))
        self.check(b".half", "it lacks one of tmp, new and cur")

    def test_a_body_larger_than_a_script(self) -> None:
        self.put(b"cur/large", b"x" * 400)
        self.put(b"cur/lines", b"\n" * 200)
        run, (script,) = self.import_into(Limits(400, 64))
        self.assert_ended(run, 1, "left out 2: 2 since it is larger than a script may be")
        self.assertEqual(script.split(b"\n")[2:], [b"file INBOX cur kept:2,S 1000 kept", b""])

    def test_a_time_before_1970_is_given_as_0_and_reported(self) -> None:
        path = self.put(b"new/old")
        for nanoseconds in (-1, -5_000_000_000):
            os.utime(path, ns=(0, nanoseconds))
            run, (script,) = self.import_into()
            self.assert_ended(run, 1, "changed 1: 1 since its time is before 1970")
            self.assertIn(b"\nfile INBOX new old 0 \n", script)

    def test_control_characters_of_a_name_reach_no_terminal(self) -> None:
        self.put(b"cur/\x1b[31m \xff\\")
        run, _ = self.import_into()
        self.assertIn("/cur/\\x1b[31m \\xff\\\\: its name has a space", run.err)


class ChangesMeanwhile(TreeTest):
    """A tree that others work on while it is read."""

    def setUp(self) -> None:
        super().setUp()
        self.make()
        self.put(b"cur/1", b"one")
        self.victim = self.put(b"cur/2", b"x" * 100)
        self.put(b"cur/3", b"three")

    def import_without_victim(self) -> Run:
        """Imports all but the second message."""
        run, (script,) = self.import_into()
        self.assertEqual(script.split(b"\n")[2:], [b"file INBOX cur 1 1000 one", b"file INBOX cur 3 1000 three", b""])
        self.assertEqual(run.status, 1)
        return run

    def import_after(self, change: Callable[[], object]) -> Run:
        """Imports, with a change made right before the second message is opened."""
        opened = message.opened

        def changed(path: bytes) -> object:
            if path == self.victim:
                change()
            return opened(path)

        with mock.patch("maildir_lib.parts.opened", changed):
            return self.import_without_victim()

    def test_a_file_that_went(self) -> None:
        run = self.import_after(lambda: os.unlink(self.victim))
        self.assertIn("it was moved or removed meanwhile", run.err)

    def test_a_file_that_became_something_else(self) -> None:
        def becomes(make: Callable[[bytes], None]) -> None:
            os.unlink(self.victim)
            make(self.victim)

        for make, says in (
            (os.mkfifo, "it can't be read: it is no file any more"),
            (lambda path: os.symlink("1", path), "it is a symbolic link"),
            (os.mkdir, "it can't be read: it is no file any more"),
        ):
            run = self.import_after(lambda: becomes(make))
            self.assertIn(says, run.err)
            os.rmdir(self.victim) if make is os.mkdir else os.unlink(self.victim)
            self.put(b"cur/2")

    def test_a_message_that_went_from_new_to_cur_is_taken_once(self) -> None:
        self.make(tree=self.path(b"other"))
        self.tree = self.path(b"other")
        new = self.put(b"new/u", b"moving")
        listed = tree.list_files

        def moved(*words: object) -> object:
            for file in listed(*words):  # type: ignore[arg-type]
                yield file
                if file.place == b"new":
                    os.rename(new, os.path.join(self.tree, b"cur/u:2,S"))

        with mock.patch("maildir_lib.import_tree.list_files", moved):
            run, (script,) = self.import_into()
        self.assert_ended(run, 1)
        self.assertEqual(script.split(b"\n")[2:], [b"file INBOX cur u:2,S 1000 moving", b""])

    def test_a_read_that_fails_midway_leaves_no_half_line(self) -> None:
        whole = os.read
        count = 0

        def failing(descriptor: int, size: int) -> bytes:
            nonlocal count
            count += 1
            if count == 4:
                raise OSError(errno.EIO, os.strerror(errno.EIO))
            return whole(descriptor, size)

        # The first message takes two reads: its bytes, and its end.
        with mock.patch.object(message, "_PIECE_BYTES", 10), mock.patch.object(os, "read", failing):
            run = self.import_without_victim()
        self.assertIn("/cur/2: it can't be read: Input/output error", run.err)

    def test_a_file_that_grows_is_taken_up_to_its_end(self) -> None:
        opened = message.opened

        def grown(path: bytes) -> object:
            context = opened(path)
            if path == self.victim:
                with open(path, "ab") as file:
                    file.write(b"y" * 100)
            return context

        with mock.patch("maildir_lib.parts.opened", grown):
            run, (script,) = self.import_into()
        self.assert_ended(run, 0)
        self.assertIn(b"\nfile INBOX cur 2 ", script)
        self.assertIn(b"x" * 100 + b"y" * 100 + b"\n", script)


class Unreadable(TreeTest):
    """What the rights of files refuse. Root gives up its rights for it."""

    def setUp(self) -> None:
        super().setUp()
        self.make()
        self.make(b".Sent")
        self.put(b"cur/1", b"one")
        os.chmod(self.scratch, 0o777)

    def import_as_nobody(self) -> Run:
        return self.call_in_child(become_nobody, "import", "-o", self.path(b"script"), self.tree)

    def test_a_file(self) -> None:
        os.chmod(self.put(b"cur/2", b"secret"), 0)
        self.assert_ended(self.import_as_nobody(), 1, "/cur/2: it can't be read: Permission denied")
        self.assertIn(b"file INBOX cur 1 1000 one", read(self.path(b"script")))

    def test_directories(self) -> None:
        for path in (b".Sent", b".Sent/cur"):
            with self.subTest(path=path):
                os.chmod(os.path.join(self.tree, path), 0)
                run = self.import_as_nobody()
                os.chmod(os.path.join(self.tree, path), 0o755)
                self.assert_ended(run, 1, "left out", "it can't be read: Permission denied")

    def test_the_tree(self) -> None:
        os.chmod(self.tree, 0)
        run = self.import_as_nobody()
        os.chmod(self.tree, 0o755)
        self.assertEqual(run.status, 2)
        self.assertFalse(os.path.exists(self.path(b"script")))


class Headers(TreeTest):
    # A message, and what of it stands up to its first empty line.
    TABLE = (
        (b"Subject: x\n\nbody", b"Subject: x\n\n"),
        (b"Subject: x\r\n\r\nbody\r\n\r\n", b"Subject: x\r\n\r\n"),
        (b"Subject: x\n\r\nbody", b"Subject: x\n\r\n"),
        (b"Subject: x\r\n\nbody", b"Subject: x\r\n\n"),
        (b"\nbody", b"\n"),
        (b"\r\nbody", b"\r\n"),
        (b"\n", b"\n"),
        (b"", b""),
        (b"\r", b"\r"),
        (b"\rx\n\nbody", b"\rx\n\n"),
        (b"a\r\r\n\nbody", b"a\r\r\n\n"),
        (b"a\n\r\r\nb\n\nbody", b"a\n\r\r\nb\n\n"),
        (b"a\n \nb\n\nbody", b"a\n \nb\n\n"),
        (b"no empty line\nat all\n", b"no empty line\nat all\n"),
        (b"no end\r\n\r", b"no end\r\n\r"),
        (b"\0\xff\n\n\n\n", b"\0\xff\n\n"),
    )

    def test_table_in_pieces_of_any_size(self) -> None:
        for text, header in self.TABLE:
            for size in (1, 2, 3, 5, 100):
                pieces = (text[at : at + size] for at in range(0, len(text), size))
                with self.subTest(text=text, size=size):
                    self.assertEqual(b"".join(message.up_to_empty_line(pieces)), header)

    def test_scripts_of_headers_alone(self) -> None:
        self.make()
        for at, (text, _) in enumerate(self.TABLE):
            self.put(b"cur/%02d" % at, text + b"\n\nmore" * 1000)
        run, scripts = self.import_into(Limits(), "--headers")
        self.assertEqual(run.status, 0)
        self.assertIn(b", headers alone", scripts[0].split(b"\n")[0])
        self.assertLess(len(scripts[0]), 2000)
        back = self.path(b"back")
        self.assertEqual(self.call("export", self.write(b"s", scripts[0]), back).status, 0)
        for at, (text, header) in enumerate(self.TABLE):
            whole = text + b"\n\nmore" * 1000
            found = read(os.path.join(back, b"cur/%02d" % at))
            self.assertEqual(found, header if header != text else first_part(whole))


def first_part(text: bytes) -> bytes:
    """The lines up to the first empty one, which is found by looking at one line after another."""
    part = b""
    for line in text.split(b"\n"):
        part += line + b"\n"
        if line in (b"", b"\r"):
            return part
    return text


class Splits(TreeTest):
    def parts(self, limits: Limits) -> list[bytes]:
        """Imports; checks the limits and heads of the scripts, and that all files are in them."""
        run, scripts = self.import_into(limits)
        self.assertEqual(run.status, 0, run.err)
        named: list[bytes] = []
        for number, script in enumerate(scripts, 1):
            head, *lines = script.split(b"\n")
            said = b"# maildir import, part %d of %d" % (number, len(scripts))
            self.assertEqual((head.rstrip(), len(head)), (said, HEAD - 1))
            self.assertLessEqual(len(script), limits.script_bytes)
            folders = [line for line in lines if line.startswith(b"folder ")]
            self.assertLessEqual(len(folders), limits.folders)
            self.assertEqual(len(set(folders)), len(folders))
            uniques = [unique(line) for line in lines if line.startswith(b"file ")]
            self.assertEqual(len(set(uniques) - {b""}), len([u for u in uniques if u]))
            named += [b" ".join(line.split(b" ")[1:4]) for line in lines if line[:5] == b"file "]
        self.assertEqual(len(named), len(files_of(self.tree)))
        self.assertEqual(len(set(named)), len(named))
        return scripts

    def test_at_the_limit_of_bytes(self) -> None:
        self.make()
        self.put(b"cur/a", b"x" * 30)
        self.put(b"cur/b", b"\n" * 15)
        line = len(b"file INBOX cur a 1000 ") + 30 + 1
        whole = HEAD + len(b"folder INBOX\n") + 2 * line
        (script,) = self.parts(Limits(whole, 64))
        self.assertEqual(len(script), whole)
        self.assertEqual(len(self.parts(Limits(whole - 1, 64))), 2)
        self.assertEqual(len(self.parts(Limits(whole - line, 64))), 2)
        run, (_,) = self.import_into(Limits(whole - line - 1, 64))
        self.assert_ended(run, 1, "left out 2: 2 since it is larger than a script may be")

    def test_many_parts_by_bytes(self) -> None:
        self.make()
        self.make(b".Sent")
        for at in range(40):
            self.put(b"cur/%d" % at, b"\\" * (at * 7 % 100))
            self.put(b".Sent/new/s%d" % at, b"x" * (at * 11 % 100))
        self.assertGreater(len(self.parts(Limits(500, 64))), 10)

    def test_at_the_limit_of_folders(self) -> None:
        self.make()
        for at in range(63):
            self.make(b".%02d" % at)
            self.put(b".%02d/cur/%d" % (at, at))
        self.assertEqual(len(self.parts(Limits())), 1)
        self.make(b".zz")
        scripts = self.parts(Limits())
        self.assertEqual([script.count(b"\nfolder ") for script in scripts], [64, 1])

    def test_a_unique_name_in_two_folders_and_in_new_and_cur(self) -> None:
        self.make()
        self.make(b".Sent")
        self.put(b"new/u", b"1")
        self.put(b"cur/u:2,S", b"2")
        self.put(b".Sent/cur/u:2,RS", b"3")
        self.put(b"cur/other", b"4")
        self.put(b"tmp/u", b"in tmp it is no message")
        self.put(os.path.join(b".Sent", b"tmp", b"u"), b"nor there")
        self.put(b"cur/.u", b"nor with a dot")
        self.put(b".Sent/cur/.u", b"nor there")
        self.put(b"cur/:2,S", b"nor without a unique name")
        self.put(b".Sent/cur/:2,S", b"nor there")
        scripts = self.parts(Limits())
        self.assertEqual([script.count(b"\nfile ") for script in scripts], [8, 1, 1])

    def test_many_unique_names_in_two_folders_make_two_scripts(self) -> None:
        self.make()
        self.make(b".All")
        for at in range(200):
            self.put(b"cur/%d:2,S" % at)
            self.put(b".All/cur/%d:2," % at)
        self.assertEqual(len(self.parts(Limits())), 2)

    def test_more_scripts_than_the_names_have_digits_for(self) -> None:
        self.make()
        for at in range(1001):
            self.put(b"cur/%04d" % at)
        line = len(b"folder INBOX\n") + len(b"file INBOX cur 0000 1000 \n")
        self.assertEqual(len(self.parts(Limits(HEAD + line, 64))), 1001)

    def test_one_script_alone_is_refused_where_it_takes_more(self) -> None:
        self.make()
        self.make(b".Sent")
        self.put(b"cur/u", b"x" * 50)
        self.put(b".Sent/cur/v", b"x" * 50)
        script = self.path(b"script")
        for limits, why in (
            (Limits(200, 64), "a script has at most 200 bytes"),
            (Limits(10_000, 1), "a script has at most 1 folders"),
        ):
            run = self.call("import", "-o", script, self.tree, limits=limits)
            self.assert_ended(run, 2, f"one script can't hold this tree: {why}; --into DIR")
        os.rename(os.path.join(self.tree, b".Sent/cur/v"), os.path.join(self.tree, b".Sent/cur/u"))
        run = self.run_tool("import", self.tree)
        self.assertEqual((run.status, run.out), (2, b""))
        self.assertIn("two messages have the unique name u; --into DIR", run.err)
        self.assertEqual(os.listdir(self.scratch), [b"tree"])


def unique(line: bytes) -> bytes:
    """The unique name in a file line, or nothing where it is no message."""
    _, _, place, name, _ = line.split(b" ", 4)
    return b"" if place == b"tmp" or name.startswith(b".") else name.split(b":")[0]


class Outputs(TreeTest):
    def setUp(self) -> None:
        super().setUp()
        self.make()
        self.put(b"cur/u", b"x" * 200_000)

    def test_a_file_is_replaced_and_its_link_followed(self) -> None:
        old = self.write(b"old", b"old")
        link = self.path(b"link")
        os.symlink("old", link)
        self.assertEqual(self.call("import", "-o", link, self.tree).status, 0)
        self.assertTrue(os.path.islink(link))
        self.assertTrue(read(old).startswith(b"# maildir import"))
        self.assertEqual(os.stat(old).st_mode & 0o777, 0o600)
        self.assertEqual(sorted(os.listdir(self.scratch)), [b"link", b"old", b"tree"])

    def test_what_is_no_file_is_not_replaced(self) -> None:
        for path in (b"/dev/null", self.tree, self.path(b"no", b"such")):
            self.assert_ended(self.call("import", "-o", path, self.tree), 2)
        self.assertFalse(os.path.isfile("/dev/null"))

    def test_a_directory_with_scripts_is_refused(self) -> None:
        directory = self.path(b"into")
        self.assertEqual(self.call("import", "--into", directory, self.tree).status, 0)
        before = everything_in(directory)
        self.assert_ended(self.call("import", "--into", directory, self.tree), 2, "has 001.script already")
        self.assertEqual(everything_in(directory), before)

    def test_other_refusals(self) -> None:
        empty = self.path(b"empty")
        os.mkdir(empty)
        for words, says in (
            (("import", self.path(b"none")), "is no directory"),
            (("import", self.write(b"file", b"")), "is no directory"),
            (("import", empty), "has no maildir that a script can say"),
            (("import", "--into", self.write(b"f", b""), self.tree), "Not a directory"),
            (("import", "--into", self.path(b"a", b"b"), self.tree), "can't be made"),
        ):
            run = self.run_tool(*words)
            self.assertEqual((run.status, run.out), (2, b""), words)
            self.assertIn(says, run.err)

    def test_wrong_words(self) -> None:
        wrong = "", "import", "import a b", "play a", "export a", "import -o f --into d t"
        for words in (line.split() for line in (*wrong, "import --head t", "export --headers s t")):
            run = self.run_tool(*words)
            self.assertEqual(run.status, 2, words)
            self.assertTrue(run.err.startswith("usage: maildir"))
        for words in (("--help",), ("import", "--help"), ("export", "-h")):
            run = self.run_tool(*words)
            self.assertEqual((run.status, run.err), (0, ""))
            self.assertTrue(all(len(line) < 80 for line in run.out.split(b"\n")), words)

    def test_standard_output_that_fails(self) -> None:
        with open("/dev/full", "wb") as full:
            done = subprocess.run([TOOL, "import", self.tree], stdout=full, stderr=subprocess.PIPE)
        self.assertEqual(done.returncode, 2)
        self.assertIn(b"standard output: can't be written: No space left on device", done.stderr)
        closed = subprocess.run(["sh", "-c", '"$0" import "$1" >&-', TOOL, self.tree], stderr=subprocess.PIPE)
        self.assertEqual(closed.returncode, 2)
        self.assertIn(b"standard output: can't be written: Bad file", closed.stderr)

    def test_a_dry_run_says_what_it_would_write(self) -> None:
        self.make(b".Sent")
        self.put(b".Sent/cur/u", b"\n")
        os.symlink("u", os.path.join(self.tree, b"cur/link"))
        into = self.path(b"into")
        before = everything_in(self.scratch)
        run = self.run_tool("import", "--dry-run", "--into", into, self.tree)
        self.assertEqual(run.status, 1)
        size = 2 * HEAD + len(b"folder INBOX\nfile INBOX cur u 1000 \n") + 200_000
        size += 2 * len(b"folder Sent\n") + len(b"file Sent cur u 1000 \\n\n")
        said = f"would write 2 folders and 2 files in 2 scripts of {size:,} bytes\n"
        self.assertEqual(run.out.decode(), said + "left out 1: 1 since it is a symbolic link\n")
        self.assertEqual(everything_in(self.scratch), before)
        self.assertEqual(self.run_tool("import", "--dry-run", self.tree).status, 2)
        run, scripts = self.import_into()
        self.assertEqual((run.status, sum(map(len, scripts))), (1, size))


class NothingHalfDone(EachMoment, TreeTest):
    """Full disks, failing calls and signals at every moment: all scripts are there, or none."""

    limits = Limits(2000, 64)
    least_calls = 100

    def setUp(self) -> None:
        super().setUp()
        self.make()
        self.make(b".Sent")
        for at in range(12):
            self.put(b"cur/%d" % at, b"%d" % at * 400)
        self.put(b".Sent/cur/1", b"twice")
        self.made = self.path(b"into")
        self.words = "import", "--into", self.made, self.tree
        self.assertEqual(self.call(*self.words, limits=self.limits).status, 0)
        self.whole = {name: read(self.path(b"into", name)) for name in os.listdir(self.made)}
        self.assertGreaterEqual(len(self.whole), 4)

    def names_made(self) -> tuple[set[bytes], set[bytes]]:
        """The names of the scripts that are there, and those of drafts."""
        names = set(os.listdir(self.made)) if os.path.isdir(self.made) else set()
        drafts = {name for name in names if name.endswith(b".part")}
        return names - drafts, drafts

    def check(self, run: Run, at: object, may_leave_one: bool) -> None:
        """Asks for all scripts where the run says so, and for none elsewhere."""
        names, drafts = self.names_made()
        self.assertLessEqual(len(drafts), 1 if may_leave_one else 0, at)
        if run.status == 0:
            self.assertEqual({name: read(self.path(b"into", name)) for name in names}, self.whole)
        elif run.status == 1:
            self.assertIn("left out", run.err, at)
            self.assertTrue(names, at)
        else:
            self.assertEqual(names, set(), at)
            self.assertRegex(run.err, "(?m)^maildir: ", at)

    def test_each_call_fails_where_a_file_is_replaced(self) -> None:
        script = self.path(b"script")
        self.assertEqual(self.call("import", "-o", script, self.tree).status, 2)
        shutil.rmtree(os.path.join(self.tree, b".Sent"))
        self.assertEqual(self.call("import", "-o", script, self.tree).status, 0)
        whole = read(script)

        def again(number: int, act: Callable[[str], None]) -> tuple[Run, list[str]]:
            self.write(b"script", b"old")
            with before_call(number, act) as made:
                return self.call("import", "-o", script, self.tree), made

        for run, number, call in self.before_each_call(fail, again=again):
            if run.status == 1:
                self.assertIn("left out", run.err, number)
            else:
                self.assertEqual(read(script), whole if run.status == 0 else b"old", number)
            left = [name for name in os.listdir(self.scratch) if name.endswith(b".part")]
            self.assertLessEqual(len(left), 1 if call == "unlink" else 0, number)
            for name in left:
                os.unlink(self.path(name))
        self.assertGreaterEqual(number, 80)

    def check_ended(self, run: Run, at: object) -> None:
        self.assertIn(run.status, (0, 130), at)
        self.assertIn(self.names_made()[0], (set(), set(self.whole)), at)

    def test_a_full_disk(self) -> None:
        size = max(map(len, self.whole.values()))
        for limit in (0, 1, HEAD, 500, size - 1):
            for words in (("--into", self.made), ("-o", self.path(b"script"))):
                limits = self.limits if words[0] == "--into" else Limits(10_000, 64)
                if words[0] == "-o":
                    self.write(b"script", b"old")
                    os.rename(os.path.join(self.tree, b".Sent"), self.path(b"Sent"))
                shutil.rmtree(self.made)
                os.mkdir(self.made)
                run = self.call_in_child(lambda: resource.setrlimit(resource.RLIMIT_FSIZE, (limit, limit)),
                                         "import", *words, self.tree, limits=limits)
                with self.subTest(limit=limit, words=words):
                    self.assert_ended(run, 2, "can't be written: File too large")
                    self.assertEqual(os.listdir(self.made), [])
                if words[0] == "-o":
                    self.assertEqual(read(self.path(b"script")), b"old")
                    os.rename(self.path(b"Sent"), os.path.join(self.tree, b".Sent"))

    def test_ctrl_c_while_standard_output_waits(self) -> None:
        self.tree = self.path(b"large")
        self.make()
        self.put(b"cur/u", b"x" * 1_000_000)
        words = [sys.executable, TOOL, "import", self.tree]
        with subprocess.Popen(words, stdout=subprocess.PIPE, stderr=subprocess.PIPE) as process:
            assert process.stdout is not None and process.stderr is not None
            process.stdout.read(1)
            process.send_signal(signal.SIGINT)
            self.assertIn(b"interrupted by SIGINT", process.stderr.read())
            self.assertEqual(process.wait(), 130)

    def test_ctrl_c_while_scripts_are_written(self) -> None:
        self.tree = self.path(b"large")
        self.make()
        for at in range(40):
            self.put(b"cur/%d" % at, b"\n" * 1_000_000)
        for _ in range(20):
            if self.interrupt_once():
                return
        self.fail("every run ended before the signal came")

    def interrupt_once(self) -> bool:
        """Interrupts a run once it has begun to write. False where it ended first."""
        into = os.fsdecode(self.path(b"other"))
        words = [sys.executable, TOOL, "import", "--into", into, self.tree]
        with subprocess.Popen(words, stderr=subprocess.DEVNULL) as process:
            while process.poll() is None and not os.path.isdir(into):
                time.sleep(0.001)
            process.send_signal(signal.SIGINT)
        if process.returncode == 0:
            shutil.rmtree(into)
            return False
        self.assertEqual(process.returncode, 130)
        self.assertFalse(os.path.exists(into))
        return True


class ProgressLine(TreeTest):
    def setUp(self) -> None:
        super().setUp()
        self.make()
        for at in range(50):
            self.put(b"cur/%d" % at, b"x")

    def test_on_a_terminal_alone(self) -> None:
        script = self.path(b"script")
        plain = self.run_tool("import", "-o", script, self.tree)
        self.assertNotIn("\r", plain.err)
        shown = self.on_terminal("import", "-o", script, self.tree)
        self.assertIn(b"\rread 0 of 51 lines\x1b[K", shown)
        said = plain.err.removeprefix("maildir: ").encode("ascii").replace(b"\n", b"\r\n")
        self.assertTrue(shown.endswith(b"\r\x1b[Kmaildir: " + said))
        shown = self.on_terminal("export", script, self.path(b"back"))
        self.assertIn(b"\rwrote 1 of 51 lines\x1b[K", shown)

    def on_terminal(self, *words: bytes | str) -> bytes:
        """What a run shows whose standard error is a terminal."""
        ours, theirs = pty.openpty()
        with subprocess.Popen([sys.executable, TOOL, *words], stderr=theirs) as process:
            os.close(theirs)
            shown = read_terminal(ours)
        self.assertEqual(process.returncode, 0)
        return shown
