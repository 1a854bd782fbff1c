"""What an export refuses, what it leaves as it is, and that no file is ever half written."""

from __future__ import annotations

import errno
import os
import resource
import shutil
import signal
import stat
import subprocess
import sys
from unittest import mock

from support import TOOL, EachMoment, Limits, Run, TreeTest
from support import before_call, become_nobody, everything_in, files_of, maildirs_of, read

from maildir_lib.language import BadEscape, escape, unescape

LONG = b"n" * 256

# Scripts that docs/SCRIPT.md refuses, the line to blame, and the text.
REFUSED = [
    (b"folder i\nlist i\n", 2, "not in this run"),
    (b"folder i\njob deliver i u 4 x\n", 2, "not in this run"),
    (b"# x\n\nsummary\n", 3, "not in this run"),
    (b"folders i\n", 1, "bad command"),
    (b" folder i\n", 1, "bad command"),
    (b"folder\n", 1, "bad command"),
    (b"folder \n", 1, "bad command"),
    (b"folder  i\n", 1, "bad command"),
    (b"folder i \n", 1, "bad command"),
    (b"folder i j\n", 1, "bad command"),
    (b"folder\ti\n", 1, "bad command"),
    (b"\r\r\n", 1, "bad command"),
    (b"folder i\nfile i new u 0 x\n\r", 3, "bad command"),
    (b"folder i/j\n", 1, "bad folder"),
    (b"folder .i\n", 1, "bad folder"),
    (b"folder i\0\n", 1, "bad folder"),
    (b"folder i\rj\n", 1, "bad folder"),
    (b"folder i\r", 1, "bad folder"),
    (b"folder %b\n" % (b"i" * 101), 1, "bad folder"),
    (b"folder i\nfolder i\n", 2, "bad folder"),
    (b"folder .i j\n", 1, "bad folder"),
    (b"".join(b"folder %d\n" % at for at in range(65)), 65, "bad folder"),
    (b"file i new u 0 x\n", 1, "unknown folder"),
    (b"folder i\nfile j new u 0 x\n", 2, "unknown folder"),
    (b"folder i\nfile i\n", 2, "bad command"),
    (b"folder i\nfile i New u 0 x\n", 2, "bad place"),
    (b"folder i\nfile i .. u 0 x\n", 2, "bad place"),
    (b"folder i\nfile i new\n", 2, "bad command"),
    (b"folder i\nfile i new  0 x\n", 2, "bad command"),
    (b"folder i\nfile i new u\n", 2, "bad command"),
    (b"folder i\nfile i new u  x\n", 2, "bad command"),
    (b"folder i\nfile i new u -1 x\n", 2, "bad number"),
    (b"folder i\nfile i new u +1 x\n", 2, "bad number"),
    (b"folder i\nfile i new u 1.5 x\n", 2, "bad number"),
    (b"folder i\nfile i new u \xb2 x\n", 2, "bad number"),
    (b"folder i\nfile i new u 0\t x\n", 2, "bad number"),
    (b"folder i\nfile i new u 18446744073709551616 x\n", 2, "bad number"),
    (b"folder i\nfile i new u 000000000000000000001 x\n", 2, "bad number"),
    (b"folder i\nfile i new u 0 \\\n", 2, "bad escape"),
    (b"folder i\nfile i new u 0 \\x\n", 2, "bad escape"),
    (b"folder i\nfile i new u 0 \\\\\\\n", 2, "bad escape"),
    (b"folder i\nfile i new u 0 a\\\\n\\t\n", 2, "bad escape"),
    (b"folder i\nfile i new u 0\nfile i new u 0\n", 3, "same path twice"),
    (b"folder i\nfile i tmp u 0\nfile i tmp u 0\n", 3, "same path twice"),
    (b"folder i\nfile i new a/b 0\n", 2, "bad name"),
    (b"folder i\nfile i tmp ../u 0\n", 2, "bad name"),
    (b"folder i\nfile i new a\0b 0\n", 2, "bad name"),
    (b"folder i\nfile i new a\rb 0\n", 2, "bad name"),
    (b"folder i\nfile i tmp %b 0\n" % LONG, 2, "bad name"),
    (b"folder i\nfile i new %b 0\n" % LONG[:201], 2, "long unique"),
    (b"folder i\nfile i cur %b:2,S 0\n" % LONG[:201], 2, "long unique"),
    (b"folder i\nfile i new u 0\nfile i cur u:2,S 0\n", 3, "duplicate unique"),
    (b"folder i\nfolder j\nfile i new u 0\nfile j new u 0\n", 4, "duplicate unique"),
]

# Folders and files that a tree can't have, though the language can say them.
HOSTILE = [
    (b"folder %s\n" % name, 1, "bad folder")
    for name in (b"%2E", b":..", b":..:etc", b":a:..:..:b", b"::", b":", b":cur", b":tmp:x",
                 b"a%2Fb", b":%2E%2E", b":a%2F..%2Fb", b"%2e", b"%00", b"100%")
] + [
    (b"folder i\nfile i new . 0\n", 2, "bad name"),
    (b"folder i\nfile i cur .. 0\n", 2, "bad name"),
    (b"folder i\nfile i tmp .. 0 x\n", 2, "bad name"),
]  # fmt: skip


class Refusals(TreeTest):
    def test_lines(self) -> None:
        for text, line, fault in REFUSED + HOSTILE:
            with self.subTest(text=text[:60]):
                script = self.write(b"script", text)
                before = everything_in(self.scratch)
                run = self.call("export", script, self.tree)
                self.assertEqual(run.status, 2)
                said = f"maildir: {os.fsdecode(script)}: line {line}: {fault}: "
                self.assertTrue(run.err.startswith(said), run.err)
                self.assertEqual(run.err.count("\n"), 1)
                self.assertEqual(everything_in(self.scratch), before)

    def test_nothing_is_written_where_a_late_line_or_script_is_refused(self) -> None:
        good = self.write(b"good", b"folder i\nfile i new u 0 x\n")
        bad = self.write(b"bad", b"folder i\n" + b"file i new u 0 x\n" * 2)
        self.assertEqual(self.call("export", good, bad, self.tree).status, 2)
        self.assertFalse(os.path.exists(self.tree))

    def test_scripts_that_cannot_be_read(self) -> None:
        good = self.write(b"good", b"folder i\n")
        for script in (self.path(b"none"), self.scratch):
            self.assert_ended(self.call("export", good, script, self.tree), 2, "can't be read")
        self.assertFalse(os.path.exists(self.tree))

    def test_a_script_over_the_limit(self) -> None:
        text = b"folder i\nfile i new u 0 x\n"
        script = self.write(b"script", text)
        self.assert_ended(self.call("export", script, self.tree, limits=Limits(len(text) - 1, 64)), 2, "script too long")
        self.assert_ended(self.call("export", script, self.tree, limits=Limits(len(text))), 0)
        large, other = b"#" + b"x" * 67_108_864, self.path(b"other")
        self.assert_ended(self.run_tool("export", "-", other, given=large), 2, "maildir: -: script too long")
        self.assert_ended(self.run_tool("export", "-", other, given=large[:-1]), 0)

    def test_trees_that_cannot_be_made(self) -> None:
        script = self.write(b"script", b"folder i\n")
        for tree in (self.path(b"no", b"such"), script):
            self.assert_ended(self.call("export", script, tree), 2, "can't be ")


class Lines(TreeTest):
    def export(self, text: bytes) -> dict[bytes, bytes]:
        """Exports a script. The bodies of the files, by their paths."""
        self.assert_ended(self.call("export", self.write(b"script", text), self.tree), 0)
        return {path: kept.body for path, kept in files_of(self.tree).items()}

    def test_forms_of_lines(self) -> None:
        text = (
            b"# a comment\r\n\n\r\n#\nfolder i\r\nfile i new 1 0 x\r\n"
            b"file i new 2 00000000000000000007\n"
            b"file i new 3 0 \nfile i new 4 0  # x \nfile i cur 5 0 a\\n\\r\\\\n\\\\\\n\r\n"
            b"file i cur 6 0 a\rb\tc\nfile i tmp u 0 t\nfile i tmp u: 0\nfile i cur :2,S 0\n"
            b"file i new .u 0\nfile i cur .u 0\nfile i new u 0 last\r"
        )
        found = self.export(text)
        bodies = {
            b"new/1": b"x", b"new/2": b"", b"new/3": b"", b"new/4": b" # x ",
            b"cur/5": b"a\n\r\\n\\\n", b"cur/6": b"a\rb\tc", b"tmp/u": b"t", b"tmp/u:": b"",
            b"cur/:2,S": b"", b"new/.u": b"", b"cur/.u": b"", b"new/u": b"last\r",
        }  # fmt: skip
        self.assertEqual(found, {b".i/" + path: body for path, body in bodies.items()})
        self.assertEqual(files_of(self.tree)[b".i/new/2"].seconds, 7)

    def test_the_empty_script_and_empty_folders(self) -> None:
        self.assertEqual(self.export(b""), {})
        self.assertEqual(os.listdir(self.tree), [])
        self.export(b"folder INBOX\nfolder Sent\nfolder :a:b\nfolder Sent%20Mail")
        self.assertEqual(maildirs_of(self.tree), {b".", b".Sent", b"a/b", b".Sent Mail"})

    def test_folders_whose_files_are_mixed(self) -> None:
        lines = b"".join(
            b"file %b new %d 0 %b\n" % (name, at, name)
            for at, name in enumerate((b"a", b"b", b"INBOX") * 20)
        )
        self.assertEqual(len(self.export(b"folder a\nfolder b\nfolder INBOX\n" + lines)), 60)

    def test_several_scripts_of_one_folder(self) -> None:
        one = self.write(b"1", b"folder i\nfile i new u 0 1\n")
        two = self.write(b"2", b"folder i\nfile i cur u:2,S 0 2\n")
        self.assert_ended(self.call("export", one, two, self.tree), 0, "wrote 2 files of 2 bytes to 1 folder, 1 of them new")
        self.assertEqual(set(files_of(self.tree)), {b".i/new/u", b".i/cur/u:2,S"})

    def test_modes(self) -> None:
        self.export(b"folder i\nfile i new u 0\n")
        for path, mode in ((b"", 0o700), (b".i", 0o700), (b".i/tmp", 0o700), (b".i/new/u", 0o600)):
            full = os.path.join(self.tree, path)
            self.assertEqual(stat.S_IMODE(os.stat(full).st_mode), mode)

    def test_unescape_is_the_reading_letter_by_letter(self) -> None:
        for length in range(8):
            for number in range(4**length):
                text = bytes(b"\\nra"[number // 4**at % 4] for at in range(length))
                with self.subTest(text=text):
                    meant = letter_by_letter(text)
                    if meant is None:
                        self.assertRaises(BadEscape, unescape, text)
                    else:
                        self.assertEqual(unescape(text), meant)
                        self.assertEqual(unescape(escape(text)), text)

    def test_a_script_from_a_pipe(self) -> None:
        pipe = self.path(b"pipe")
        os.mkfifo(pipe)
        with subprocess.Popen(["sh", "-c", 'printf "folder i\\nfile i new u 5 x\\n" >"$0"', pipe]):
            self.assertEqual(self.call("export", pipe, self.tree).status, 0)
        self.assertEqual(files_of(self.tree), {b".i/new/u": (b"x", 5)})

    def test_a_standard_input_that_is_closed(self) -> None:
        words = ["sh", "-c", '"$0" export - "$1" <&-', TOOL, self.tree]
        done = subprocess.run(words, stderr=subprocess.PIPE)
        self.assertEqual(done.returncode, 2)
        self.assertIn(b"maildir: -: can't be read: Bad file descriptor", done.stderr)

    def test_ctrl_c_while_a_pipe_is_silent(self) -> None:
        words = [sys.executable, TOOL, "export", "-", self.tree]
        for kind in (signal.SIGINT, signal.SIGTERM, signal.SIGHUP):
            with subprocess.Popen(words, stdin=subprocess.PIPE, stderr=subprocess.PIPE) as process:
                assert process.stdin is not None and process.stderr is not None
                # The pipe is read once it has room again for more than it can hold.
                process.stdin.write(b"#" * 200_000)
                process.stdin.flush()
                process.send_signal(kind)
                self.assertIn(b"interrupted by " + kind.name.encode(), process.stderr.read())
                self.assertEqual(process.wait(), 128 + kind)
        self.assertFalse(os.path.exists(self.tree))


def letter_by_letter(text: bytes) -> bytes | None:
    """What a body stands for, by the words of docs/SCRIPT.md."""
    meant = b""
    letters = iter(text.decode())
    for letter in letters:
        if letter == "\\":
            after = next(letters, None)
            if after not in ("n", "r", "\\"):
                return None
            letter = {"n": "\n", "r": "\r", "\\": "\\"}[after]
        meant += letter.encode()
    return meant


class Existing(TreeTest):
    SCRIPT = b"folder INBOX\nfile INBOX new 1 5 one\nfile INBOX cur 2:2,S 6 two\nfile INBOX tmp 3 7 x\n"

    def setUp(self) -> None:
        super().setUp()
        self.script = self.write(b"script", self.SCRIPT)

    def test_a_second_export_changes_nothing(self) -> None:
        self.assertEqual(self.call("export", self.script, self.tree).status, 0)
        before = everything_in(self.tree)
        said = "wrote 0 files of 0 bytes to 1 folder, 0 of them new", "left out 3: 3 since it is there already"
        self.assert_ended(self.call("export", self.script, self.tree), 1, *said)
        self.assertEqual(everything_in(self.tree), before)

    def test_what_is_at_a_place_stays(self) -> None:
        self.make()
        self.put(b"new/1", b"mine")
        os.symlink("/nowhere", os.path.join(self.tree, b"cur/2:2,S"))
        os.mkdir(os.path.join(self.tree, b"tmp/3"))
        before = everything_in(self.tree)
        said = [f"/{path}: it is there already" for path in ("new/1", "cur/2:2,S", "tmp/3")]
        self.assert_ended(self.call("export", self.script, self.tree), 1, "left out 3: 3 since it is there already", *said)
        self.assertEqual(everything_in(self.tree), before)

    def test_a_file_that_comes_at_the_last_moment_stays(self) -> None:
        self.make()

        def put(name: str) -> None:
            if name == "link" and not os.path.exists(os.path.join(self.tree, b"new/1")):
                self.put(b"new/1", b"mine")

        met = False
        for number in range(200):
            shutil.rmtree(self.tree)
            self.make()
            with before_call(number, put) as made:
                run = self.call("export", self.script, self.tree)
            if number >= len(made):
                break
            if made[number] == "link" and run.status == 1:
                met = True
                self.assertEqual(read(os.path.join(self.tree, b"new/1")), b"mine")
                self.assertIn("/new/1: it is there already", run.err)
                self.assertEqual(os.listdir(os.path.join(self.tree, b"tmp")), [b"3"])
        self.assertTrue(met)

    def test_links_in_the_tree_lead_nowhere(self) -> None:
        outside = self.make(tree=self.path(b"outside"))
        before = everything_in(outside)
        os.mkdir(self.tree)
        os.symlink(outside, os.path.join(self.tree, b".linked"))
        os.symlink(outside, os.path.join(self.tree, b"plain"))
        os.makedirs(os.path.join(self.tree, b".half"))
        os.symlink(os.path.join(outside, b"new"), os.path.join(self.tree, b".half/new"))
        self.write(b"file", b"")
        os.symlink(self.path(b"file"), os.path.join(self.tree, b".file"))
        script = self.write(
            b"script",
            b"folder linked\nfolder :plain:x\nfolder half\nfolder file\nfile linked new 1 0 x\n"
            b"file :plain:x new 2 0 x\nfile half new 3 0 x\nfile file new 4 0 x\n",
        )
        self.assert_ended(self.call("export", script, self.tree), 1, "left out 8: 8 since its folder can't be opened or made")
        self.assertEqual(everything_in(outside), before)
        self.assert_ended(self.run_tool("export", "--dry-run", script, self.tree), 1)

    def test_a_dry_run_changes_nothing(self) -> None:
        run = self.run_tool("export", "--dry-run", self.script, self.tree)
        said = b"would write 3 files of 7 bytes to 1 folder, 1 of them new\n"
        self.assertEqual((run.status, run.out, run.err), (0, said, ""))
        self.assertFalse(os.path.exists(self.tree))
        self.make()
        os.rmdir(os.path.join(self.tree, b"tmp"))
        self.put(b"new/1")
        before = everything_in(self.scratch)
        run = self.run_tool("export", "--dry-run", self.script, self.tree)
        said = b"would write 2 files of 4 bytes to 1 folder, 1 of them new\n"
        said += b"left out 1: 1 since it is there already\n"
        self.assertEqual((run.status, run.out), (1, said))
        self.assertEqual(everything_in(self.scratch), before)

    def test_a_time_that_the_file_system_cannot_keep_is_reported(self) -> None:
        script = self.write(b"script", b"folder i\nfile i new u 18446744073709551615 x\n")
        self.assert_ended(self.call("export", script, self.tree), 1, "changed 1: 1 since the file system keeps another time for it")
        self.assertEqual(files_of(self.tree)[b".i/new/u"].body, b"x")

    def test_directories_that_may_not_be_written(self) -> None:
        self.make()
        for place in (b"new", b"tmp"):
            os.chmod(os.path.join(self.tree, place), 0o555)
        os.chmod(self.scratch, 0o777)
        for mode, said in ((0o000, "its folder can't be opened or made: Permission denied"), (0o555, "left out 3: 3 since it can't be written")):
            os.chmod(os.path.join(self.tree, b"cur"), mode)
            run = self.call_in_child(become_nobody, "export", self.script, self.tree)
            os.chmod(os.path.join(self.tree, b"cur"), 0o755)
            self.assert_ended(run, 1, said)
        self.assertEqual(files_of(self.tree), {})


class NothingHalfDone(EachMoment, TreeTest):
    """Full disks, failing calls and signals at every moment: each file is whole, or isn't there."""

    least_calls = 150

    def setUp(self) -> None:
        super().setUp()
        folders = {b"INBOX": b"", b"Sent": b".Sent/", b":a:b": b"a/b/"}
        self.files = {}
        lines = []
        for folder, steps in folders.items():
            lines.append(b"folder %b" % folder)
            for at, place in enumerate((b"new", b"cur", b"tmp", b"new", b"cur")):
                name, body = b"%d-%b" % (at, folder), folder * at
                lines.append(b"file %b %b %b 77 %b" % (folder, place, name, body))
                self.files[b"%b%b/%b" % (steps, place, name)] = body
        self.script = self.write(b"script", b"\n".join(lines))
        self.words, self.made = ("export", self.script, self.tree), self.tree

    def check(self, run: Run, at: object, may_leave_one: bool) -> None:
        """Asks for whole files, and for a word on each that isn't there."""
        found = files_of(self.tree)
        fresh = {path for path in found if path.endswith(b".export")}
        self.assertLessEqual(len(fresh), 1 if may_leave_one else 0, at)
        for path in found.keys() - fresh:
            self.assertEqual(found[path], (self.files[path], 77), at)
        missing = self.files.keys() - found.keys()
        if run.status == 0:
            self.assertEqual(missing, set(), at)
        elif run.status == 1:
            for path in missing if "stopped" not in run.err else ():
                self.assertIn(os.fsdecode(path) + ": it", run.err, at)
        elif run.status == 2:
            self.assertEqual(found, {}, at)
        self.assertRegex(run.err, "(?m)^maildir: ", at)
        # A run that is made again writes the rest.
        self.call("export", self.script, self.tree)
        found = files_of(self.tree)
        self.assertEqual(found.keys() - fresh, self.files.keys(), at)

    def check_ended(self, run: Run, at: object) -> None:
        self.assertEqual(run.status, 130, at)
        self.check(run, at, may_leave_one=True)

    def test_a_disk_that_is_full_stops_the_run(self) -> None:
        whole = os.write
        for room in range(0, 9):
            left = room

            def short(descriptor: int, data: bytes) -> int:
                nonlocal left
                if left == 0:
                    raise OSError(errno.ENOSPC, os.strerror(errno.ENOSPC))
                left -= 1
                return whole(descriptor, data[:3])

            with mock.patch.object(os, "write", short):
                run, _ = self.run_again(-1, str)
            with self.subTest(room=room):
                self.assert_ended(run, 1, "maildir: stopped: No space left on device; ")
                self.assertEqual(run.err.count("it can't be written"), 2)
                for path, kept in files_of(self.tree).items():
                    self.assertEqual(kept, (self.files[path], 77))

    def test_files_over_a_limit(self) -> None:
        text = b"folder i\nfile i new 1 0 xx\nfile i new 2 0 %b\nfile i new 3 0 yy\n" % (b"z" * 5000)
        script = self.write(b"script", text)
        run = self.call_in_child(lambda: resource.setrlimit(resource.RLIMIT_FSIZE, (1000, 1000)), "export", script, self.tree)
        self.assert_ended(run, 1, "/.i/new/2: it can't be written: File too large")
        self.assertEqual(set(files_of(self.tree)), {b".i/new/1", b".i/new/3"})

    def test_a_file_system_without_second_names(self) -> None:
        with mock.patch.object(os, "link", side_effect=OSError(errno.EPERM, os.strerror(errno.EPERM))):
            self.assertEqual(self.call("export", self.script, self.tree).status, 0)
            self.assertEqual({p: k.body for p, k in files_of(self.tree).items()}, self.files)
            shutil.rmtree(self.tree)
            self.make()
            self.put(b"new/0-INBOX", b"mine")
            with mock.patch("maildir_lib.open_maildir.OpenMaildir.has", lambda *_: False):
                self.assert_ended(self.call("export", self.script, self.tree), 1, "/new/0-INBOX: it is there already")
        self.assertEqual(read(os.path.join(self.tree, b"new/0-INBOX")), b"mine")
        self.assertEqual(os.listdir(os.path.join(self.tree, b"tmp")), [b"2-INBOX"])
