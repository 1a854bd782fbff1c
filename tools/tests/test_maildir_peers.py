"""The store's own program, mutt and doveadm read what the tool wrote, where they are at hand.

MAILDIR_CLI names the built program; the others are looked for on the path.
"""

from __future__ import annotations

import os
import pty
import random
import re
import shutil
import subprocess
import unittest
from unittest import mock

from support import NOBODY, Limits, TreeTest, maildirs_of, read, read_terminal

from maildir_lib.folder_names import folder_name
from test_maildir_export import REFUSED

CLI = os.environ.get("MAILDIR_CLI")
MESSAGE = b"From: a@example.org\nSubject: number %d\nDate: Fri, 21 Nov 1997 09:55:06 -0600\n\nline\n"


def listing(maildir: bytes) -> list[bytes]:
    """The listing lines of a maildir, by its own directories and the words of docs/SCRIPT.md."""
    lines = []
    for place in (b"new", b"cur"):
        for name in os.listdir(os.path.join(maildir, place)):
            unique, colon, info = name.partition(b":")
            if unique and not unique.startswith(b"."):
                size = os.path.getsize(os.path.join(maildir, place, name))
                lines.append((unique, b"%b %b %b %d" % (place, unique, flags(colon, info), size)))
    return [line for _, line in sorted(lines)]


def flags(colon: bytes, info: bytes) -> bytes:
    """The flags word of a listing line."""
    letters = info[2:]
    if not colon:
        return b"-"
    if not info.startswith(b"2,") or not (letters.isalpha() or not letters):
        return b"?"
    return bytes(sorted(set(letters))) or b"-"


@unittest.skipUnless(CLI, "MAILDIR_CLI doesn't name the built program")
class PlayedByTheStore(TreeTest):
    def run_cli(self, script: bytes, *words: str) -> tuple[int, bytes, str]:
        program = os.path.abspath(str(CLI))
        done = subprocess.run([program, *words], input=script, capture_output=True)
        return done.returncode, done.stdout, done.stderr.decode()

    def fill(self, chance: random.Random) -> None:
        """Makes folders and files of all kinds of names and infos, no unique name twice."""
        folders = ((), (b".Sent",), (b".A.B",), (b"work", b"20 24"), (b".\xff%",))
        infos = (b"", b":", b":2,", b":2,S", b":2,SF", b":2,SSab", b":1,x", b":2,S1", b":2,S:2,F")
        infos += (b":2,\xc3\xa9", b":3,S", b":2S")
        for number, steps in enumerate(folders):
            directory = self.make(*steps)
            for at in range(40):
                name = b"%d-%d\xe9" % (chance.randrange(1000), number * 100 + at)
                name = chance.choice((b"", b"", b"", b".")) + name + chance.choice(infos)
                place = chance.choice((b"tmp", b"new", b"cur"))
                body = bytes(chance.choices(b"\\\n\r\0 x\xff", k=chance.randrange(200)))
                self.put(os.path.join(directory, place, name), body, chance.randrange(10**9))
            self.put(os.path.join(directory, b"cur/:2,S"))

    def test_list_is_what_the_tree_holds(self) -> None:
        for seed in range(5):
            self.tree = self.path(b"tree%d" % seed)
            self.fill(random.Random(seed))
            run, (script,) = self.import_into()
            self.assertEqual(run.status, 0, run.err)
            for path in sorted(maildirs_of(self.tree)):
                steps = () if path == b"." else tuple(path.split(b"/"))
                played = script + b"list %b\n" % folder_name(steps)
                status, out, err = self.run_cli(played, "play")
                self.assertEqual((status, err), (0, ""))
                self.assertEqual(out.split(b"\n")[:-1], listing(os.path.join(self.tree, path)))

    def test_read_gives_the_bytes(self) -> None:
        self.make()
        body = bytes(range(256)) + b"\\n\r\n\\"
        self.put(b"cur/u:2,S", body)
        _, (script,) = self.import_into()
        _, out, _ = self.run_cli(script + b"read u\n", "play")
        said = body.replace(b"\\", b"\\\\").replace(b"\n", b"\\n").replace(b"\r", b"\\r")
        self.assertEqual(out, b"bytes=" + said + b"\n")

    def test_headers_give_the_same_index(self) -> None:
        self.make()
        ends = (b"\n", b"\r\n")
        for at in range(40):
            text = (MESSAGE % at).replace(b"\n", ends[at % 2]) + b"Subject: not this\n" * at
            self.put(b"cur/%d:2," % at, text)
        _, (whole,) = self.import_into()
        _, (short,) = self.import_into(Limits(), "--headers")
        self.assertLess(len(short), len(whole))
        status, index, _ = self.run_cli(whole, "index", "2")
        self.assertEqual(status, 0)
        self.assertEqual(index.count(b"subject=number "), 40)
        self.assertEqual(self.run_cli(short, "index", "2")[:2], (0, index))

    def test_scripts_at_their_limits_are_taken(self) -> None:
        self.make()
        for at in range(64):
            self.make(b".%02d" % at)
            self.put(b".%02d/cur/%d" % (at, at), b"x" * 1_100_000)
        self.put(b"cur/1:2,S", b"twice")
        run, scripts = self.import_into()
        self.assertEqual((run.status, len(scripts)), (0, 2))
        self.assertGreater(len(scripts[0]), 66_000_000)
        for script in scripts:
            self.assertEqual(self.run_cli(script, "index", "1")[0], 0)

    def test_both_refuse_the_same_lines(self) -> None:
        for text, line, fault in REFUSED:
            status, _, err = self.run_cli(text, "index", "1")
            number, said = err.removeprefix("line ").rstrip("\n").split(": ")
            with self.subTest(text=text[:60]):
                self.assertEqual((status, said), (1, fault))
                # What the files together are refused for is met at the last line.
                self.assertEqual(int(number), line)

    def check_refusals(self, stored: str, exported: str) -> None:
        """The tool refuses what the store does, but where an earlier line has what files are refused for together: the store meets
        that at the last line, and the tool at its own."""
        if f": {stored}: " in exported:
            return
        earlier = re.search(r": line (\d+): (duplicate unique|long unique|same path|bad name)", exported)
        self.assertIsNotNone(earlier, (stored, exported))
        self.assertLess(int(earlier[1]), int(re.match(r"line (\d+): ", stored)[1]), (stored, exported))

    def test_both_take_and_refuse_random_scripts(self) -> None:
        chance = random.Random(7)
        met = {0: 0, 1: 0}
        for number in range(1500):
            text = random_script(chance)
            status, _, err = self.run_cli(text, "index", "1")
            met[status] += 1
            run = self.call("export", self.write(b"script", text), self.path(b"%d" % number))
            with self.subTest(text=text):
                self.assertEqual(run.status, 2 * status, (run.err, err))
                if status == 1 and not any(word in err for word in ("unique", "path", "name")):
                    self.check_refusals(err.rstrip(), run.err)
        self.assertGreater(min(met.values()), 200)


def random_script(chance: random.Random) -> bytes:
    """Lines that are mostly right, of few names, so that they often meet."""

    def one_of(*choices: bytes) -> bytes:
        return chance.choice(choices)

    lines = [b"folder i", b"folder j"]
    for _ in range(chance.randrange(6)):
        name = one_of(b"u", b"v", b"w:2,S", b"u:2,S", b".x", b":2,S", b"n" * 201, b"a/b", b"\xff", b"t")
        folder, place = one_of(b"i", b"j", b"i", b"j", b"k"), one_of(b"new", b"cur", b"tmp")
        stamp = one_of(b"0", b"5", b"007", b"9", b"1", b"x")
        body = one_of(b"", b" ", b" x", b" \\n", b" a\\\\n", b" \r", b" \\x", b" # \t")
        lines.append(b" ".join((b"file", folder, place, name, stamp)) + body)
        if chance.random() < 0.15:
            lines.append(one_of(b"", b"#", b"\r", b" ", b"list i", b"folder i", b"folder l", b"x y"))
    return b"".join(line + one_of(b"\n", b"\n", b"\r\n") for line in lines) + one_of(b"", b"#", b"\r\n")


class Readers(TreeTest):
    """A tree of well formed mail, its export, and what a mail program says of each."""

    def setUp(self) -> None:
        super().setUp()
        self.make()
        self.make(b".Sent")
        self.make(b".Lists.My Mail")
        for at in range(12):
            self.put(b"cur/%d.M%dP1Q1.a:2,%b" % (at, at, b"S" if at % 2 else b"F"), MESSAGE % at)
        self.put(b"new/900.M1P1Q1.a", MESSAGE % 900)
        sent = MESSAGE % 901
        self.put(b".Sent/cur/901.M1P1Q1.a,S=%d:2,RS" % len(sent), sent, 1_000_000_000)
        self.put(b".Lists.My Mail/new/902.M1P1Q1.a", MESSAGE % 902, 1_100_000_000)

    @unittest.skipUnless(shutil.which("mutt"), "mutt is not installed")
    def test_mutt(self) -> None:
        back = self.through_script()
        for folder, numbers in ((b"", (*range(12), 900)), (b".Sent", [901]), (b".Lists.My Mail", [902])):
            found = self.piped_by_mutt(os.path.join(back, folder))
            self.assertEqual(found, sorted(MESSAGE % number for number in numbers))

    def piped_by_mutt(self, maildir: bytes) -> list[bytes]:
        """All messages that mutt finds, which it pipes to a file one after another."""
        out = os.fsdecode(self.path(b"out"))
        settings = "set auto_tag wait_key=no pipe_decode=no pipe_split quit=yes sleep_time=0\n"
        settings += 'set pipe_sep="" folder="" record="" history_file="" header_cache=""\n'
        push = f'push "<tag-pattern>~A<enter><pipe-message>cat >>{out}<enter><exit>"'
        words = ["mutt", "-n", "-F", self.write(b"rc", settings.encode()), "-R", "-f", maildir]
        child, terminal = pty.fork()
        if child == 0:
            os.environ.update(TERM="vt100", HOME=os.fsdecode(self.scratch))
            os.execvp("mutt", [*words, "-e", push])
        read_terminal(terminal)
        self.assertEqual(os.waitstatus_to_exitcode(os.waitpid(child, 0)[1]), 0)
        piped = read(os.fsencode(out))
        os.unlink(out)
        first = MESSAGE.split(b"\n")[0]
        return sorted(first + message for message in piped.split(first)[1:])

    @unittest.skipUnless(shutil.which("doveadm"), "doveadm is not installed")
    def test_doveadm(self) -> None:
        self.told_by_doveadm(self.tree)
        self.assertIn(b"dovecot-uidlist", os.listdir(self.tree))
        self.assertEqual(self.told_by_doveadm(self.through_script()), self.told_by_doveadm(self.tree))

    def told_by_doveadm(self, tree: bytes) -> list[str]:
        """A line for each message: its folder, unique name, size, flags, time and bytes."""
        owner, group = os.geteuid(), os.getegid()
        if owner == 0:
            owner = group = NOBODY
            subprocess.run(["chown", "-R", f"{owner}:{group}", tree], check=True)
            os.chmod(self.scratch, 0o777)
        settings = f"""
            base_dir = {os.fsdecode(self.path(b"run"))}
            log_path = /dev/stderr
            mail_location = maildir:{os.fsdecode(tree)}
            mail_uid = {owner}
            mail_gid = {group}
            first_valid_uid = 1
            first_valid_gid = 1
            ssl = no
            namespace inbox {{
              inbox = yes
            }}
        """
        words = ["doveadm", "-c", self.write(b"conf", settings.encode()), "-f", "tab", "fetch"]
        fields = "mailbox guid size.physical flags date.received hdr.subject"
        with mock.patch.dict(os.environ, HOME=os.fsdecode(self.scratch), USER="nobody"):
            done = subprocess.run([*words, fields, "all"], capture_output=True, text=True)
        self.assertEqual((done.returncode, done.stderr), (0, ""))
        lines = [line.replace(" \\Recent", "") for line in done.stdout.split("\n")[1:-1]]
        self.assertEqual(len(lines), 15)
        self.assertTrue(any("2001-09-09" in line and "\\Answered" in line for line in lines))
        return sorted(lines)
