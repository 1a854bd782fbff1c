"""Tests of tools/trace: logs of recorded traces, the order of calls that overlap, claims, and refusals."""

import os
import subprocess
import sys
import unittest
from unittest import mock

from judge_support import BOX, beginning, log_of, opened, quoted, recorded, steps_of, trace
from shared import TOOLS, RoomTest

from judge_lib.claims import check_claims, read_claim, read_claims
from judge_lib.folders import Folders, check_made, files_of, found_folders, named_folders
from judge_lib.making import Beginning, Making
from judge_lib.processes import Actors, Processes
from judge_lib.refused import Refused
from law_lib.logs import findings

BOX_AT = BOX.directory.decode()


def rename(old, new):
    return f"rename({quoted(old)}, {quoted(new)}"


class Recorded(unittest.TestCase):
    """Traces of strace 6.1, recorded on Debian 12."""

    def test_delivery(self):
        log = log_of(recorded("mdeliver"), claims=["delivered box"])
        name = "1795547350.M232618P3656Q1.vm"
        name = steps_of(log)[0].split("/")[2].split(" ")[0]
        self.assertEqual(steps_of(log), [f"a create box/tmp/{name} ok", f"a write box/tmp/{name} ok", f"a flush box/tmp/{name} ok",
                                         f"a rename box/tmp/{name} box/new/{name}:2, ok", f"a answer delivered box {name}"])
        self.assertEqual(log.statuses, {"a": 0})
        self.assertTrue(log.encoded().startswith(b"maildir_log 1\n# a ended with status 0\nfolder box\n1"))

    def test_listing(self):
        log = log_of(recorded("mlist"), [("new", b"u"), ("cur", b"v:2,S")])
        self.assertEqual(steps_of(log), ["a list box cur more v:2,S", "a list box cur ok", "a list box new more u", "a list box new ok"])
        self.assertIn(b"\n# not judged, as no --claims says what status 0 claims: GaveUp AnsweredFalsely\n", log.encoded())
        self.assertIn(b"\nfile box/new/u 1000\n", log.encoded())

    def test_programs_are_actors(self):
        """A rename that must not replace is said by the call that gives its reply."""
        log = log_of(recorded("mv"), [("cur", b"u:2,S"), ("new", b"w")], actors=Actors("program", "a"))
        self.assertEqual(steps_of(log), ["mv.1 link box/new/w box/cur/u:2,S exists", "mv.2 rename box/new/w box/cur/w:2, ok"])
        self.assertEqual(log.statuses, {"mv.1": 0, "mv.2": 0, "sh.1": 3})

    def test_all_calls(self):
        """calls.log has what each call of tools/tests/strace/calls.py is in a log."""
        log = log_of(recorded("calls"), [("cur", b"u:2,S"), ("cur", b"v:2,"), ("tmp", b"old")])
        expected = (TOOLS / "tests/strace/calls.log").read_text(encoding="latin1").split("\n")[:-1]
        self.assertEqual(steps_of(log), expected)


class Overlapping(unittest.TestCase):
    """Calls that overlap come in an order that gives their replies."""

    def test_order_of_replies(self):
        """The one that returns first was second."""
        log = log_of(trace(f"1 {rename('box/cur/u:2,', 'box/cur/u:2,F')} <unfinished ...>",
                           f"2 {rename('box/cur/u:2,', 'box/cur/u:2,R')}) = -1 ENOENT (No such file or directory)",
                           "1 <... rename resumed>) = 0"), [("cur", b"u:2,")])
        self.assertEqual(steps_of(log), ["a rename box/cur/u:2, box/cur/u:2,F ok", "a rename box/cur/u:2, box/cur/u:2,R notfound"])
        self.assertEqual([line.encoded().split(b" ")[0] for line in log.lines], [b"1002@1..3", b"1001@2..2"])

    def test_one_call_of_two_steps_has_no_ticks(self):
        log = log_of(trace(f"1 rmdir({quoted('box/cur/u')}) = 0"), [("cur", b"u")])
        self.assertEqual([line.encoded() for line in log.lines][1:], [b"1000 a unlink box/cur/u ok"])

    def test_whole_reading_at_one_moment(self):
        """A reading of one part was before the rename that returned before it."""
        place = opened(3, f"{BOX_AT}/cur")
        log = log_of(trace(f"2 getdents64({place}, <unfinished ...>", f"1 {rename('box/cur/u:2,', 'box/cur/u:2,F')}) = 0",
                           "2 <... getdents64 resumed>[{d_name=" + quoted("u:2,") + "}], 32768) = 32", f"2 getdents64({place}, [], 32768) = 0"),
                     [("cur", b"u:2,")])
        self.assertEqual(steps_of(log)[0], "a list box cur more u:2,")

    def test_no_order(self):
        """Where no order gives all replies, the log says so, and has that of the returns."""
        log = log_of(trace(f"1 unlink({quoted('box/cur/v')} <unfinished ...>", f"2 unlink({quoted('box/cur/u')}) = 0", "1 <... unlink resumed>) = 0"))
        self.assertEqual(steps_of(log), ["# not said: the order of 2 calls that overlap: none that was tried gives all their replies",
                                         "a unlink box/cur/u ok", "a unlink box/cur/v ok"])

    def test_no_return(self):
        log = log_of(trace(f"1 unlink({quoted('box/cur/u')} <unfinished ...>", "1 +++ killed by SIGKILL +++"), [("cur", b"u")])
        self.assertEqual(steps_of(log), ["# not said: whether unlink took effect before its process ended"])
        self.assertEqual(log.statuses, {"a": None})

    def test_a_number_that_a_pipe_gets(self):
        """The file was closed as the program began, which no call tells."""
        pipe, file = opened(3, "pipe:[7]"), opened(3, BOX_AT + "/tmp/v")
        log = log_of(trace(f"1 openat(AT_FDCWD, {quoted('box/tmp/v')}, O_WRONLY|O_CREAT|O_CLOEXEC, 0600) = {file}", f"1 execve({quoted('/bin/sh')}, [], []) = 0",
                           f"1 write({pipe}, \"\"..., 5) = 5", f"1 dup2({pipe}, 1) = {opened(1, 'pipe:[7]')}", f"1 write({opened(1, '/dev/null')}, \"\"..., 5) = 5"))
        self.assertEqual(steps_of(log), ["a create box/tmp/v ok"])

    def test_interrupted_before(self):
        log = log_of(trace(f"1 unlink({quoted('box/cur/u')}) = ? ERESTARTSYS (To be restarted if SA_RESTART is set)",
                           f"1 unlink({quoted('box/cur/u')}) = -1 EINTR (Interrupted system call)"), [("cur", b"u")])
        self.assertEqual(steps_of(log), [])

    def test_unknown_line(self):
        self.assertEqual(steps_of(log_of(trace("1 what is this")))[0][:11], "# not said:")


class Readings(unittest.TestCase):
    """Which lines a reading of a directory has."""

    def test_two_at_once(self):
        """A reading that another of the same actor comes between is dropped."""
        cur, other = opened(3, f"{BOX_AT}/cur"), opened(4, f"{BOX_AT}/cur")
        part = "[{d_name=" + quoted("u") + "}], 32768) = 32"
        log = log_of(trace(f"1 getdents64({cur}, {part}", f"1 getdents64({other}, {part}", f"1 getdents64({cur}, {part}",
                           f"1 getdents64({other}, [], 32768) = 0", f"1 getdents64({other}, [], 32768) = 0"), [("cur", b"u")])
        self.assertEqual(steps_of(log), ["a list box cur more u", "a list box cur fault", "a list box cur more u",
                                         "# not said: a part of a reading of cur, as another came between its parts", "a list box cur ok"])

    def test_from_the_beginning_again(self):
        cur = opened(3, f"{BOX_AT}/cur")
        log = log_of(trace(f"1 getdents64({cur}, [], 32768) = 0", f"1 lseek({cur}, 0, SEEK_SET) = 0", f"1 getdents64({cur}, [], 32768) = 0"))
        self.assertEqual(steps_of(log), ["a list box cur ok", "a list box cur ok"])


class FromOutside(unittest.TestCase):
    """A file that comes from outside is made in tmp and renamed, at one moment: flushed where its last write was, or where nobody traced wrote."""

    MADE = ["create box/tmp/arrived.1 ok", "write box/tmp/arrived.1 ok"]
    FLUSHED = [*MADE, "flush box/tmp/arrived.1 ok"]
    COMES = f"1 {rename('out/m', 'box/new/u')}) = 0"
    LINKED = f"1 link({quoted('out/m')}, {quoted('box/new/u')}) = 0"

    @staticmethod
    def open(path="out/m", flags="O_CREAT", number=3):
        return f"1 openat(AT_FDCWD, {quoted(path)}, O_WRONLY|{flags}, 0600) = {opened(number, '/srv/mail/' + path)}"

    @staticmethod
    def call(name, result="0", path="out/m", number=3, after=""):
        arguments = ', ""..., 5' if name == "write" else ", 5" if name == "ftruncate" else ""
        return f"1 {name}({opened(number, '/srv/mail/' + path)}{after}{arguments}) = {result}"

    def steps(self, *calls, files=()):
        log = log_of(trace(*calls), files)
        self.assertFalse([line for line in log.lines if line.ticks], "no call overlaps another")
        return [line.partition(" ")[2] for line in steps_of(log) if not line.startswith("#")]

    def test_flushed_or_not(self):
        written, flushed, sync = self.call("write", "5"), self.call("fsync"), [self.open(flags="O_CREAT|O_DSYNC")]
        renamed = ["rename box/tmp/arrived.1 box/new/u ok"]
        for calls in ([], [self.open()], [self.open(), written, flushed], [written, self.call("fdatasync")], [written, "1 sync() = 0"],
                      [*sync, written], [written, flushed, self.call("write", "0")]):
            self.assertEqual(self.steps(*calls, self.COMES), self.FLUSHED + renamed, calls)
        for calls in ([written], [self.open(), flushed, written], [written, self.call("fsync", "-1 EIO (Input/output error)")],
                      [self.call("ftruncate")], [f"1 truncate({quoted('out/m')}, 5) = 0"],
                      [self.open(), written, self.call("fsync", path="out/other", number=4)]):
            self.assertEqual(self.steps(*calls, self.COMES), self.MADE + renamed, calls)

    def test_what_the_law_says_of_it(self):
        for calls, wanted in ([self.call("write", "5")], ["NotFlushed"]), ([self.call("write", "5"), self.call("fsync")], []):
            for comes in (self.COMES, self.LINKED):
                log = log_of(trace(*calls, comes, "1 +++ exited with 0 +++"), claims=["delivered box"])
                self.assertEqual(steps_of(log)[-1], "a answer delivered box u")
                self.assertEqual([clause for _, clause in findings(log.encoded())], wanted)

    def test_a_write_that_failed(self):
        """What is cut is no whole message."""
        failed = self.call("write", "-1 ENOSPC (No space left on device)")
        log = log_of(trace(self.call("write", "5"), self.call("fsync"), failed, self.COMES))
        self.assertEqual([line[2:] for line in steps_of(log)[1:]], [*self.FLUSHED, "write box/tmp/arrived.1 fault", "rename box/tmp/arrived.1 box/new/u ok"])
        self.assertEqual([clause for _, clause in findings(log.encoded())], ["SeenBeforeWhole"])
        self.assertEqual(self.steps(failed, self.call("write", "5"), self.COMES), [*self.MADE, "rename box/tmp/arrived.1 box/new/u ok"])

    def test_names_outside(self):
        """A file keeps what was done to it, whatever it is called, and a name that it no longer has says nothing."""
        made, renamed = [self.open(), self.call("write", "5")], ["rename box/tmp/arrived.1 box/new/u ok"]
        comes = [f"1 {rename(name, 'box/new/u')}) = 0" for name in ("out/n", "far/m")]
        self.assertEqual(self.steps(*made, f"1 {rename('out/m', 'out/n')}) = 0", comes[0]), self.MADE + renamed)
        self.assertEqual(self.steps(*made, f"1 {rename('out', 'far')}) = 0", comes[1]), self.MADE + renamed)
        self.assertEqual(self.steps(f"1 link({quoted('out/m')}, {quoted('out/n')}) = 0", *made, f"1 unlink({quoted('out/m')}) = 0", comes[0]),
                         self.MADE + renamed)
        self.assertEqual(self.steps(*made, f"1 unlink({quoted('out/m')}) = 0", self.COMES), self.FLUSHED + renamed)
        self.assertEqual(self.steps(*made, f"1 {rename('out/n', 'out/m')}) = 0", self.COMES), self.FLUSHED + renamed)
        self.assertEqual(self.steps(*made, f"1 {rename('box/cur/v', 'out/m')}) = 0", self.COMES, files=[("cur", b"v")])[1:], self.FLUSHED + renamed)
        self.assertEqual(self.steps(*made, f"1 {rename('out/m', 'out/n')}) = -1 EACCES (Permission denied)", self.COMES), self.MADE + renamed)
        for same in ([f"1 {rename('out/m', 'out/m')}) = 0"], [f"1 link({quoted('out/m')}, {quoted('out/n')}) = 0", f"1 {rename('out/m', 'out/n')}) = 0"]):
            self.assertEqual(self.steps(*made, *same, self.COMES), self.MADE + renamed)

    def test_an_open_file_that_lost_its_name(self):
        gone = [self.open(), f"1 link({quoted('out/m')}, {quoted('out/n')}) = 0", f"1 unlink({quoted('out/m')}) = 0"]
        comes, renamed = f"1 {rename('out/n', 'box/new/u')}) = 0", ["rename box/tmp/arrived.1 box/new/u ok"]
        write, flush = (self.call(name, result, after="(deleted)") for name, result in (("write", "5"), ("fsync", "0")))
        self.assertEqual(self.steps(*gone, comes), self.FLUSHED + renamed)
        self.assertEqual(self.steps(*gone, write, comes, write), [*self.MADE, *renamed, "write box/new/u ok"])
        self.assertEqual(self.steps(*gone, write, flush, comes), self.FLUSHED + renamed)
        self.assertEqual(self.steps(self.open(flags="O_CREAT|O_EXCL"), *gone[2:], self.open(number=4), write, self.COMES), self.FLUSHED + renamed)
        by_link = self.open().replace(quoted("out/m"), quoted("/dev/stdout"))
        self.assertEqual(self.steps(by_link, *gone[1:], write, comes), self.MADE + renamed)

    def test_emptied_as_it_is_opened(self):
        empties, renamed = self.open(flags="O_CREAT|O_TRUNC"), ["rename box/tmp/arrived.1 box/new/u ok"]
        self.assertEqual(self.steps(empties, self.COMES), self.FLUSHED + renamed, "it may be new")
        self.assertEqual(self.steps(self.open(), self.call("fsync"), empties, self.COMES), self.MADE + renamed)
        self.assertEqual(self.steps(self.LINKED, empties), [*self.FLUSHED, *renamed, "write box/new/u ok"])

    def test_a_file_without_a_name(self):
        """O_TMPFILE, and then a link by the descriptor."""
        fd, number = opened(3, f"{BOX_AT}/tmp/#7"), quoted("/proc/self/fd/3")
        begin = [f"1 openat(AT_FDCWD, {quoted('box/tmp')}, O_WRONLY|O_TMPFILE, 0600) = {fd}(deleted)", f"1 write({fd}(deleted), \"\"..., 5) = 5"]
        by_path = f"1 linkat(AT_FDCWD, {number}, AT_FDCWD, {quoted('box/new/u')}, AT_SYMLINK_FOLLOW) = 0"
        by_number = f"1 linkat({fd}(deleted), {quoted('')}, AT_FDCWD, {quoted('box/new/u')}, AT_EMPTY_PATH) = 0"
        renamed, flush, write = ["rename box/tmp/arrived.1 box/new/u ok"], f"1 fsync({fd}(deleted)) = 0", begin[1]
        for link in (by_path, by_number):
            self.assertEqual(self.steps(*begin, link), self.MADE + renamed)
            self.assertEqual(self.steps(*begin, flush, link), self.FLUSHED + renamed)
            self.assertEqual(self.steps(*begin, link, flush, write), [*self.MADE, *renamed, "flush box/new/u ok", "write box/new/u ok"])
        outside = by_path.replace(quoted("box/new/u"), quoted("out/m"))
        self.assertEqual(self.steps(*begin, outside, self.COMES), self.MADE + renamed)

    def test_after_it_has_come(self):
        """What is done to it by a name outside is done to the message, and one more name is a link."""
        link, renamed = f"1 link({quoted('out/m')}, {quoted('box/cur/v:2,')}) = 0", "rename box/tmp/arrived.1 box/new/u ok"
        self.assertEqual(self.steps(self.LINKED, link, self.call("write", "5"), f"1 unlink({quoted('box/new/u')}) = 0", self.call("fsync")),
                         [*self.FLUSHED, renamed, "link box/new/u box/cur/v:2, ok", "write box/new/u ok", "unlink box/new/u ok",
                          "flush box/cur/v:2, ok"])
        over = f"1 {rename('out/m', 'box/cur/v:2,')}) = 0"
        self.assertEqual(self.steps(self.LINKED, over, files=[("cur", b"v:2,")])[4:],
                         ["link box/new/u box/tmp/arrived.2 ok", "rename box/tmp/arrived.2 box/cur/v:2, ok"])
        self.assertEqual(self.steps(self.LINKED, self.COMES)[4:], [], "it has this name already")
        self.assertEqual(self.steps(self.COMES, self.call("write", "5", path="box/new/u"))[4:], ["write box/new/u ok"])

    def test_the_name_in_tmp(self):
        """It is one that nothing has. A file that comes into tmp has its own."""
        second = f"1 {rename('out/n', 'box/cur/v:2,')}) = 0"
        steps = self.steps(self.COMES, second, files=[("tmp", b"arrived.1"), ("cur", b"v:2,")])
        self.assertEqual(steps[::4], ["create box/tmp/arrived.2 ok", "create box/tmp/arrived.3 ok"])
        self.assertEqual(steps[3::4], ["rename box/tmp/arrived.2 box/new/u ok", "rename box/tmp/arrived.3 box/cur/v:2, ok"])
        into_tmp = f"1 {rename('out/m', 'box/tmp/t')}) = 0"
        self.assertEqual(self.steps(into_tmp), ["create box/tmp/t ok", "write box/tmp/t ok", "flush box/tmp/t ok"])
        self.assertEqual(self.steps(self.call("write", "5"), into_tmp), ["create box/tmp/t ok", "write box/tmp/t ok"])
        self.assertEqual(self.steps(into_tmp, files=[("tmp", b"t")]), [*self.FLUSHED, "rename box/tmp/arrived.1 box/tmp/t ok"])

    def test_refusals(self):
        for error, wanted in ("EEXIST (File exists)", ["create box/new/u exists"]), ("ENOENT (No such file)", []):
            self.assertEqual(self.steps(self.LINKED.replace("= 0", f"= -1 {error}"), files=[("new", b"u")] if wanted else []), wanted)

    def test_what_is_made_in_one_call(self):
        """A symbolic link is whole from the first, a directory is made there."""
        self.assertEqual(self.steps(f"1 symlink({quoted('/x')}, {quoted('box/cur/u')}) = 0"),
                         ["create box/tmp/arrived.1 ok", "rename box/tmp/arrived.1 box/cur/u ok"])
        self.assertEqual(self.steps(f"1 symlink({quoted('/x')}, {quoted('box/tmp/u')}) = 0"), ["create box/tmp/u ok"])
        self.assertEqual(self.steps(f"1 mkdir({quoted('box/cur/u')}, 0700) = 0"), ["create box/cur/u ok"])

    def test_writes_through_memory(self):
        mapped = f"1 mmap(NULL, 5, PROT_READ|PROT_WRITE, MAP_SHARED, {opened(3, '/srv/mail/out/m')}, 0) = 0x7f0000000000"
        self.assertEqual(steps_of(log_of(trace(mapped, self.COMES)))[:2],
                         ["# not said: writes through memory to a file that comes from elsewhere",
                          "# a file that comes from elsewhere: the next lines say it as made in tmp"])
        self.assertEqual(steps_of(log_of(trace(self.LINKED, mapped)))[-1], "# not said: writes through memory to /srv/mail/out/m")

    def test_all_lines_have_the_ticks_of_the_call(self):
        """A message that came is taken away before the call that brought it has returned."""
        log = log_of(trace(self.call("write", "5"), self.COMES.replace(") = 0", " <unfinished ...>"), f"2 unlink({quoted('box/new/u')}) = 0",
                           "1 <... rename resumed>) = 0"))
        self.assertEqual([line.encoded() for line in log.lines if line.actor],
                         [b"1003@2..4 a " + text.encode() for text in [*self.MADE, "rename box/tmp/arrived.1 box/new/u ok"]]
                         + [b"1002@3..3 a unlink box/new/u ok"])


class WhatAStatusClaims(unittest.TestCase):
    """The answers."""

    def answers(self, claim, status, *calls):
        log = log_of(trace(*calls, f"1 +++ exited with {status} +++"), [("cur", b"u:2,S")], [claim])
        return [line for line in steps_of(log) if " answer " in line]

    def test_flags(self):
        """The flags are those of a moment of the command which is as claimed, if there is one."""
        gained = f"1 {rename('box/cur/u:2,S', 'box/cur/u:2,FS')}) = 0"
        self.assertEqual(self.answers("flags box u +F", 0, gained), ["a answer flags FS box u"])
        self.assertEqual(self.answers("flags box u -S", 0, gained), ["a answer flags F box u"])
        self.assertEqual(self.answers("flags box u =", 0, gained), ["a answer flags - box u"])
        self.assertEqual(self.answers("flags box u +R", 0), ["a answer flags RS box u"], "it made no call")
        lost = f"1 {rename('box/cur/u:2,FS', 'box/cur/u:2,S')}) = 0"
        self.assertEqual(self.answers("flags box u +F", 0, gained, lost), ["a answer flags FS box u"])

    def test_failed(self):
        self.assertEqual(self.answers("flags box u +F", 1), ["a answer failed box u"])
        self.assertEqual(self.answers("delivered box", 1), [])

    def test_delivered_or_not(self):
        made = f"1 openat(AT_FDCWD, {quoted('box/tmp/v')}, O_WRONLY|O_CREAT|O_EXCL, 0600) = {opened(3, BOX_AT + '/tmp/v')}"
        linked = f"1 link({quoted('box/tmp/v')}, {quoted('box/new/v,S=3')}) = 0"
        self.assertEqual(self.answers("delivered box", 0, made, linked), ["a answer delivered box v,S=3"])
        self.assertEqual(self.answers("delivered box", 3, made, linked), ["a answer failed box v,S=3"])
        self.assertEqual(self.answers("delivered box", 0, made), ["a answer delivered box v"])
        self.assertEqual(self.answers("delivered box", 0), ["a answer delivered box none"])

    def test_other_words(self):
        self.assertEqual(self.answers("moved other box u", 0), ["a answer moved other box u"])
        self.assertEqual(self.answers("expunged box u", 0), ["a answer expunged box u"])
        self.assertEqual(self.answers("done box u", 0), ["a answer done box u"])
        self.assertEqual(self.answers("b: done box u", 0), [])

    def test_claims_of_a_folder_that_nobody_judges(self):
        for text in ("delivered bax", "moved bax box u", "moved box bax u"):
            with self.assertRaisesRegex(Refused, "no judged folder is bax: they are box far"):
                check_claims(read_claims([text]), [b"box", b"far"])
        check_claims(read_claims(["delivered box", "b: moved far box u"]), [b"box", b"far"])

    def test_wrong_claims(self):
        for text in ["", "done box", "flags box u", "flags box u F", "moved box u", "told box u"]:
            with self.assertRaises(Refused, msg=text):
                read_claim(text)


class WhoIsAnActor(unittest.TestCase):
    """A shell has a child made a file by its redirection, write to it, and another one name it."""

    MADE = f"openat(AT_FDCWD, {quoted('box/tmp/v')}, O_WRONLY|O_CREAT, 0600) = {opened(1, BOX_AT + '/tmp/v')}"
    SHELL = trace(f"1 execve({quoted('/bin/sh')}, [], []) = 0", "1 clone(child_stack=NULL, flags=SIGCHLD <unfinished ...>", f"2 {MADE}",
                  "1 <... clone resumed>) = 2", f"2 execve({quoted('/bin/cat')}, [], []) = 0", f"2 write({opened(1, BOX_AT + '/tmp/v')}, \"\"..., 5) = 5",
                  "2 +++ exited with 0 +++", "1 vfork() = 3", f"3 execve({quoted('/bin/ln')}, [], []) = 0",
                  f"3 link({quoted('box/tmp/v')}, {quoted('box/new/v')}) = 0", "3 +++ exited with 0 +++", "1 +++ exited with 0 +++")
    NAMES = "box/tmp/v", "box/tmp/v", "box/tmp/v box/new/v"

    def actors(self, actors, *claims):
        return [line.split(" ")[0] for line in steps_of(log_of(self.SHELL, claims=claims, actors=actors)) if " answer " not in line]

    def test_who_opened_a_file_writes_to_it(self):
        self.assertEqual(self.actors(Actors("program", "sh")), ["sh.1", "sh.1", "ln.1"])

    def test_who_claims_speaks_for_all_that_it_starts(self):
        speaking = Actors("program", "sh", speaking=frozenset(["sh.1"]))
        self.assertEqual(self.actors(speaking, "sh.1: delivered box"), ["sh.1"] * 3)
        self.assertEqual(steps_of(log_of(self.SHELL, claims=["sh.1: delivered box"], actors=speaking))[-1], "sh.1 answer delivered box v")

    def test_children_forks_and_the_whole(self):
        self.assertEqual(self.actors(Actors("one", "sh")), ["sh"] * 3)
        self.assertEqual(self.actors(Actors("child", "sh")), ["sh.1", "sh.1", "sh.2"])
        self.assertEqual(self.actors(Actors("child", "sh", ("in", "out"))), ["in", "in", "out"])
        self.assertEqual(self.actors(Actors("fork", "sh")), ["sh.2", "sh.2", "sh.3"])

    def test_a_shell_deliverer_is_not_blamed(self):
        """By the law: no file is written to by another than made it, and what was delivered was."""
        for how in ("one", "program", "child"):
            first = {"one": "sh", "program": "sh.1", "child": "sh"}[how]
            for claims in ((), (f"{first}: delivered box",)):
                log = log_of(self.SHELL, claims=claims, actors=Actors(how, "sh", speaking=frozenset([first] if claims else [])))
                with self.subTest(how=how, claims=claims):
                    self.assertEqual({clause for _, clause in findings(log.encoded())}, {"NotFlushed"})

    def test_a_server_that_forks(self):
        """What two children read at once counts, where each is an actor; of one actor they would drop each other's readings."""
        new = opened(3, f"{BOX_AT}/new")
        parts = [f"getdents64({new}, [{{d_name={quoted('u')}}}], 32768) = 24", f"getdents64({new}, [], 32768) = 0"]
        lines = trace("1 clone(flags=SIGCHLD) = 2", "1 clone(flags=SIGCHLD) = 3", *(f"{pid} {part}" for part in parts for pid in (2, 3)))
        dropped = "# not said: a part of a reading of new, as another came between its parts"
        for how, ends in (("fork", ["a.2 list box new ok", "a.3 list box new ok"]), ("one", [dropped, "a list box new ok"])):
            self.assertEqual(steps_of(log_of(lines, [("new", b"u")], actors=Actors(how, "a")))[-2:], ends)

    def test_threads(self):
        lines = trace("1 clone3({flags=CLONE_VM|CLONE_FILES|CLONE_THREAD}, 88) = 2", f"2 unlink({quoted('box/cur/u')}) = 0",
                      f"1 unlink({quoted('box/cur/v')}) = 0")
        files = [("cur", b"u"), ("cur", b"v")]
        for how, wanted in (("fork", ["a.1", "a.1"]), ("thread", ["a.2", "a.1"])):
            self.assertEqual([line.split(" ")[0] for line in steps_of(log_of(lines, files, actors=Actors(how, "a")))], wanted)

    def test_a_number_that_another_process_gets(self):
        lines = trace("1 clone(flags=SIGCHLD) = 2", f"2 chdir({quoted('/srv/mail/box/cur')}) = 0", "2 +++ exited with 0 +++", "1 clone(flags=SIGCHLD) = 2",
                      f"2 unlink({quoted('box/cur/u')}) = 0")
        self.assertEqual(steps_of(log_of(lines, [("cur", b"u")])), ["a unlink box/cur/u ok"])

    def test_claims_of_nobody(self):
        making = Making(beginning([]), Processes(Actors("one", "a"), b"/srv/mail"), {"b": [read_claim("b: done box u")]}, [])
        for _ in making.feed(trace("1 +++ exited with 0 +++")):
            pass
        self.assertIn(b"# nobody is b, of whom something is claimed", making.log().head)


class WholeOrNot(unittest.TestCase):
    def test_a_maildir_that_the_command_makes(self):
        """What comes before its directories is left out; what is done in one shows that it is there."""
        box = BOX._replace(is_to_be_made=True)
        start = Beginning(Folders([box], os.path.normpath), [])
        made = f"openat(AT_FDCWD, {quoted('box/tmp/v')}, O_WRONLY|O_CREAT, 0600)"
        log = log_of(trace(f"1 {made} = -1 ENOENT (No such file or directory)", f"1 mkdir({quoted('box/tmp')}, 0700) = 0",
                           f"1 {made} = {opened(3, BOX_AT + '/tmp/v')}", f"1 {rename('box/tmp/v', 'box/new/v')}) = -1 ENOENT (No such)",
                           f"1 {rename('box/tmp/v', 'box/new/v')}) = 0"), start=start)
        self.assertEqual(steps_of(log), ["a create box/tmp/v ok", "a rename box/tmp/v box/new/v ok"])

    def test_a_trace_cut_in_the_middle(self):
        whole = recorded("mdeliver")
        for size in range(0, sum(map(len, whole)), 97):
            cut = "".join(whole)[:size].splitlines(keepends=True)
            self.assertNotIn("answer", " ".join(steps_of(log_of(cut, claims=["delivered box"]))[:-1]), size)

    def test_a_clone_of_bytes_is_a_write(self):
        place = opened(3, BOX_AT + "/tmp/v")
        made = f"1 openat(AT_FDCWD, {quoted('box/tmp/v')}, O_WRONLY|O_CREAT, 0600) = {place}"
        log = log_of(trace(made, f"1 ioctl({place}, BTRFS_IOC_CLONE or FICLONE, {opened(4, '/x')}) = -1 EOPNOTSUPP (Operation not supported)",
                           f"1 ioctl({place}, BTRFS_IOC_CLONE or FICLONE, {opened(4, '/x')}) = 0", f"1 ioctl({place}, TCGETS, 0x7) = 0",
                           f"1 copy_file_range({opened(4, '/x')}, NULL, {place}, NULL, 5, 0) = 5"))
        self.assertEqual(steps_of(log)[1:], ["a write box/tmp/v ok"] * 2)

    def test_nothing_is_kept_of_calls_that_are_over(self):
        def made(many):
            lines = []
            making = Making(beginning([]), Processes(Actors("one", "a"), b"/srv/mail"), {}, [], lines.append)
            for number in range(many):
                path = f"box/tmp/{number}"
                for _ in making.feed(trace(f"1 openat(AT_FDCWD, {quoted(path)}, O_WRONLY|O_CREAT, 0600) = {opened(3, '/srv/mail/' + path)}",
                                           f"1 close({opened(3, '/srv/mail/' + path)}) = 0", f"1 {rename(path, f'box/new/{number}')}) = 0",
                                           f"1 write({opened(4, f'/srv/mail/far/{number}')}, \"\"..., 5) = 5",
                                           f"1 fsync({opened(4, f'/srv/mail/far/{number}')}) = 0",
                                           f"1 rename({quoted(f'far/{number}')}, {quoted(f'far/{number}.')}) = 0",
                                           f"1 rename({quoted(f'far/{number}.')}, {quoted(f'box/cur/{number}')}) = 0",
                                           f"1 unlink({quoted(f'box/cur/{number}')}) = 0",
                                           f"1 unlink({quoted(f'box/new/{number}')}) = 0")):
                    pass
            self.assertEqual(len(lines), 9 * many)
            kept = [making._directories, making._taking, making._processes, making._resolver, making._resolver._outside, making._claims,
                    making._beginning.folders]
            return sum(len(value) for each in kept for value in vars(each).values() if hasattr(value, "__len__"))
        self.assertEqual(made(200), made(2000))


class Cost(unittest.TestCase):
    """What a line costs, counted, since a test of its time would fail beside other work."""

    MOST_CALLS_A_LINE = 100

    @staticmethod
    def delivery(number):
        tmp, new, cur = (f"box/{place}/{number}.mail.example.org" for place in ("tmp", "new", "cur"))
        file = opened(3, f"/srv/mail/{tmp}")
        return [f"1 openat(AT_FDCWD<{quoted('/srv/mail')[1:-1]}>, {quoted(tmp)}, O_WRONLY|O_CREAT|O_EXCL, 0600) = {file}", f"1 write({file}, \"\"..., 5) = 5",
                f"1 fsync({file}) = 0", f"1 close({file}) = 0", f"1 link({quoted(tmp)}, {quoted(new)}) = 0", f"1 unlink({quoted(tmp)}) = 0",
                f"1 {rename(new, cur + ':2,')}) = 0", f"1 {rename(cur + ':2,', cur + ':2,S')}) = 0"]

    def test_calls_of_functions(self):
        """Each line of a delivery calls so many functions, Python's own too."""
        lines, counts = trace(*(line for number in range(250) for line in self.delivery(number))), []
        sys.setprofile(lambda _frame, event, _argument: counts.append(1) if event in ("call", "c_call") else None)
        try:
            log = log_of(lines)
        finally:
            sys.setprofile(None)
        self.assertEqual(len(log.lines), len(lines) * 7 // 8)
        self.assertLess(len(counts) / len(lines), self.MOST_CALLS_A_LINE)


class Tree(RoomTest):
    """What is there at the beginning, and how the program ends."""

    def setUp(self):
        super().setUp()
        self.base = os.fsencode(self.room)
        self.make_maildir("box")
        self.make_maildir("deep/box")

    def test_files(self):
        new = os.path.join(self.base, b"box/new/u v")
        with open(new, "wb"):
            pass
        os.utime(new, (-5, -5))
        os.link(new, os.path.join(self.base, b"box/tmp/u v"))
        folders = named_folders([b"box"], self.base)
        self.assertEqual([(file.paths, file.stamp) for file in files_of(folders)], [(((b"box", "tmp", b"u v"), (b"box", "new", b"u v")), 0)])

    def test_folders(self):
        self.assertEqual([folder.name for folder in named_folders([b"box", b"far=deep/box"], self.base)], [b"box", b"far"])
        self.assertTrue(named_folders([b"none"], self.base)[0].is_to_be_made)
        self.assertEqual(named_folders([b"deep/a=box"], self.base), [(b"a=box", os.path.join(self.base, b"deep/a=box"), True)])
        for words in [[b"deep"], [b"box", b"deep/box"]]:
            with self.assertRaises(Refused):
                named_folders(words, self.base)
        with self.assertRaises(Refused):
            found_folders(self.base)
        with self.assertRaisesRegex(Refused, "none: is no maildir, and the command made none there"):
            check_made(named_folders([b"none"], self.base))
        self.assertEqual([folder.name for folder in found_folders(os.path.join(self.base, b"deep"))], [b"box"])

    def run_tool(self, *words, path=os.environ["PATH"]):
        environment = {**os.environ, "PATH": path}
        return subprocess.run([sys.executable, TOOLS / "trace", *words], cwd=self.base, capture_output=True, text=True, env=environment, check=False)

    def test_refusals(self):
        without = self.run_tool("--folder", "box", "true", path="/nowhere")
        self.assertEqual((without.returncode, without.stdout), (2, ""))
        self.assertIn("strace is not installed: it is the package strace", without.stderr)
        self.assertEqual(self.run_tool().returncode, 2)

    def test_the_zone_that_strace_is_given(self):
        """strace has a zone, so that it looks for no file of one at each call. The command has what it had."""
        programs = str(self.program("programs/strace", '#!/bin/sh\n[ "$1" = --version ] || echo "${TZ-none}" "$@" >called\n').parent)
        for zone, wanted in ((None, ("UTC0", True)), ("Asia/Tokyo", ("Asia/Tokyo", False))):
            with mock.patch.dict(os.environ, {} if zone is None else {"TZ": zone}):
                if zone is None:
                    os.environ.pop("TZ", None)
                self.assertIn("strace ran nothing", self.run_tool("--folder", "box", "true", path=programs).stderr)
            words = (self.room / "called").read_text(encoding="utf-8").split()
            self.assertEqual((words[0], " -E TZ " in " ".join(words)), wanted)
