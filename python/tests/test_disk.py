"""Maildirs on a disk: beside CPython's mailbox, beside another program that changes them meanwhile, and the jobs below."""

from __future__ import annotations

import mailbox
import os
import pathlib
import time
import unittest
from typing import Any, Callable
from unittest import mock

from support import MESSAGE, Case, maildir_message, needs_library

import deolmutt
from deolmutt import _readings, _running, disk_maildir, errors
from deolmutt.calls import Answer, Call, Clean, Deliver, Flag, Move
from deolmutt.driven import CUR, DONE, LINK, LIST, NOT_FOUND, Driven

HOURS_37 = 37 * 3600


class DiskCase(Case):
    """A maildir, by this package and by CPython."""

    def setUp(self) -> None:
        super().setUp()
        self.path = self.folder / "box"
        self.box = deolmutt.DiskMaildir(self.path)

    @property
    def other(self) -> Any:
        """The same maildir as CPython's mailbox has it now."""
        return mailbox.Maildir(self.path)

    def names(self, place: str) -> list[str]:
        return sorted(os.listdir(self.path / place))

    def run_job(self, call: Call) -> Answer:
        return _running.run(call, [os.fsencode(self.path)])


@needs_library
class BesideCPythonTest(DiskCase):
    def test_what_is_added_is_seen_by_both(self) -> None:
        key = self.box.add(MESSAGE)
        self.assertEqual([key], self.names("new"))
        self.assertEqual([], self.names("tmp"))
        self.assertEqual(MESSAGE, self.other.get_bytes(key))
        theirs = self.other.add(MESSAGE)
        self.assertEqual(sorted([key, theirs]), sorted(self.box.keys()))
        self.assertIn(theirs, self.box)
        self.assertEqual(2, len(self.box))
        self.assertEqual("one", self.box[theirs]["subject"])

    def test_a_message_keeps_flags_and_date(self) -> None:
        key = self.box.add(maildir_message("FS", "cur", 1_000_000_000.0))
        self.assertEqual([key + ":2,FS"], self.names("cur"))
        for box in (self.box, self.other):
            message = box[key]
            self.assertEqual(("cur", "FS", 1_000_000_000.0), (message.get_subdir(), message.get_flags(), message.get_date()))

    def test_flags(self) -> None:
        key = self.box.add(MESSAGE)
        self.box.remove_flag(key, "S")
        self.assertEqual([key], self.names("new"))
        self.box.add_flag(key, "S")
        self.box.add_flag(key, "FR")
        self.assertEqual("FRS", self.box.get_flags(key))
        self.box.remove_flag(key, "R")
        self.assertEqual("2,FS", self.box.get_info(key))
        self.box.set_flags(key, "D")
        self.assertEqual([key + ":2,D"], self.names("cur"))
        self.box.set_info(key, "2,P")
        self.assertEqual("P", self.other[key].get_flags())

    def test_a_message_of_new_may_have_flags(self) -> None:
        changes: tuple[tuple[Callable[[str], Any], str], ...] = (
            (lambda key: self.box.remove_flag(key, "S"), "cur/{}:2,F"),
            (lambda key: self.box.set_flags(key, "R"), "cur/{}:2,R"),
            (lambda key: self.box.remove_flag(key, "R"), "new/{}:2,FS"),
            (lambda key: self.box.__setitem__(key, MESSAGE), "cur/{}:2,FS"),
        )
        for at, (change, name) in enumerate(changes):
            key = f"u{at}"
            (self.path / f"new/{key}:2,FS").write_bytes(MESSAGE)
            change(key)
            self.assertTrue((self.path / name.format(key)).is_file())

    def test_messages_go(self) -> None:
        keys = [self.box.add(MESSAGE), self.box.add(maildir_message("S", "cur"))]
        for key in keys:
            self.box.remove(key)
            self.assertNotIn(key, self.box)
        self.assertEqual([], self.names("new") + self.names("cur"))
        self.box.discard(keys[0])
        self.assertRaises(KeyError, self.box.remove, keys[0])
        self.assertRaises(KeyError, self.box.add_flag, keys[0], "S")
        for other in ("", "a/b", ".x", 7):
            self.assertNotIn(other, self.box)

    def test_a_message_takes_anothers_place(self) -> None:
        key = self.box.add(maildir_message("FS", "cur"))
        self.box[key] = b"Subject: two\n\n"
        self.assertEqual([key], self.box.keys())
        self.assertEqual([key + ":2,FS"], self.names("cur"))
        self.assertEqual(b"Subject: two\n\n", self.box.get_bytes(key))
        with self.assertRaises(KeyError):
            self.box["none"] = MESSAGE

    def test_a_name_of_another_message(self) -> None:
        key = self.box.add(MESSAGE)
        with mock.patch.object(disk_maildir, "fresh_unique", lambda: key), self.assertRaises(mailbox.ExternalClashError):
            self.box.add(MESSAGE)
        self.assertEqual([key], self.names("tmp") + self.names("new"))

    def test_reading(self) -> None:
        key = self.box.add(MESSAGE)
        with self.box.get_file(key) as file:
            self.assertEqual(MESSAGE, file.read())
        first = self.box.next()
        assert first is not None
        self.assertEqual("one", first["subject"])
        self.assertIsNone(self.box.next())
        made = deolmutt.DiskMaildir(self.path, factory=mailbox.MaildirMessage)
        self.assertEqual(["one"], [message["subject"] for message in made])
        popped = self.box.pop(key)
        assert popped is not None
        self.assertEqual("one", popped["subject"])

    def test_folders(self) -> None:
        sent = self.box.add_folder("Sent")
        key = sent.add(MESSAGE)
        self.assertEqual(["Sent"], self.box.list_folders())
        self.assertEqual([key], self.other.get_folder("Sent").keys())
        self.assertRaises(mailbox.NotEmptyError, self.box.remove_folder, "Sent")
        self.box.get_folder("Sent").clear()
        self.box.remove_folder("Sent")
        self.assertRaises(mailbox.NoSuchMailboxError, self.box.get_folder, "Sent")
        self.assertRaises(FileNotFoundError, self.box.remove_folder, "Sent")

    def test_a_folder_that_is_not_empty_stays(self) -> None:
        for stray in ("keep", "cur/u:2,", "new/.dir", "cur/.dir", "tmp/dir", ".Sub"):
            name = stray.replace("/", "-").replace(".", "_")
            directory = self.path / ("." + name)
            self.box.add_folder(name)
            (directory / stray).mkdir()
            with self.subTest(stray), self.assertRaises(mailbox.NotEmptyError):
                self.box.remove_folder(name)
            self.assertTrue((directory / stray).is_dir())
            self.box.get_folder(name).add(MESSAGE)

    def test_a_directory_is_no_message(self) -> None:
        (self.path / "cur/u:2,").mkdir()
        self.assertEqual([], self.box.keys())
        self.assertNotIn("u", self.box)
        self.assertRaises(KeyError, self.box.add_flag, "u", "S")
        self.assertEqual(["u:2,"], self.names("cur"))

    def test_the_clean(self) -> None:
        old, young = self.path / "tmp/old", self.path / "tmp/young"
        for file in (old, young):
            file.write_bytes(MESSAGE)
        then = time.time() - HOURS_37
        os.utime(old, (then, then))
        self.box.clean()
        self.assertEqual(["young"], self.names("tmp"))

    def test_a_clean_that_may_not_look(self) -> None:
        (self.path / "tmp/old").write_bytes(MESSAGE)
        with mock.patch.object(os, "lstat", side_effect=PermissionError):
            self.assertRaises(errors.Fault, self.run_job, Clean(0))
        with mock.patch.object(os, "lstat", side_effect=FileNotFoundError):
            self.assertEqual(0, self.run_job(Clean(0)).removed)


@needs_library
class MeanwhileTest(DiskCase):
    """Another program changes the maildir between two calls of a job."""

    def flagged_meanwhile(self, place: str) -> Any:
        """Lets another program give the only message of a directory the flag R, in cur, right before the next rename."""
        rename, left = _running._rename, [self.path / place]

        def renamed(path: bytes, target: bytes) -> int:
            if left:
                [file] = left.pop().iterdir()
                os.rename(file, self.path / "cur" / (file.name.partition(":")[0] + ":2,R"))
            return rename(path, target)

        return mock.patch.object(_running, "_rename", renamed)

    def test_no_flag_of_another_program_is_lost(self) -> None:
        messages: dict[str, Any] = {"cur": maildir_message("", "cur"), "new": MESSAGE}
        for place, message in messages.items():
            key = self.box.add(message)
            with self.subTest(place), self.flagged_meanwhile(place):
                self.box.add_flag(key, "F")
            self.assertEqual([key + ":2,FR"], self.names("cur"))
            self.box.remove(key)

    def test_a_message_that_goes_to_cur_between_the_two_steps_of_an_add(self) -> None:
        with self.flagged_meanwhile("new"):
            key = self.box.add(maildir_message("F", "cur"))
        self.assertEqual([key + ":2,FR"], self.names("cur"))

    def test_a_name_that_is_there_is_not_replaced(self) -> None:
        key = self.box.add(maildir_message("", "cur"))
        (self.path / "cur" / (key + ":2,F")).write_bytes(b"another")
        ways: tuple[Any, ...] = (
            mock.patch.object(_running, "_renameat2", lambda: None),
            mock.patch.object(os.path, "lexists", lambda path: False),
        )
        for way in ways:
            with way:
                self.assertRaises(errors.Fault, self.box.add_flag, key, "F")
            self.assertEqual(b"another", (self.path / "cur" / (key + ":2,F")).read_bytes())

    def test_other_info_is_kept(self) -> None:
        (self.path / "cur/u:1,x").write_bytes(MESSAGE)
        self.assert_each_raises(errors.OtherInfo, lambda: self.box.add_flag("u", "F"), lambda: self.box.remove("u"))
        self.assertEqual("1,x", self.box.get_info("u"))

    def test_flags_are_read_as_mailbox_reads_them(self) -> None:
        for name in ("u:2,FS", "v:2,F-x", "w:1,x", "x"):
            (self.path / "cur" / name).write_bytes(MESSAGE)
            self.assertEqual(self.other[name[0]].get_flags(), self.box.get_flags(name[0]))

    def test_names_of_any_bytes(self) -> None:
        name = os.fsencode(str(self.path)) + b"/new/\xff\xfe"
        pathlib.Path(os.fsdecode(name)).write_bytes(MESSAGE)
        (key,) = self.box.keys()
        self.assertEqual(b"\xff\xfe", os.fsencode(key))
        self.box.add_flag(key, "S")
        self.assertEqual([os.fsdecode(b"\xff\xfe:2,S")], self.names("cur"))

    def test_names_that_no_job_takes(self) -> None:
        long, spaced = "u" * 201, "a b"
        for key in (long, spaced):
            (self.path / "cur" / (key + ":2,")).write_bytes(MESSAGE)
        self.assertEqual([MESSAGE, MESSAGE], [message.as_bytes() for message in self.box])
        self.box.add_flag(spaced, "S")
        self.assertEqual(("S", ""), (self.box.get_flags(spaced), self.box.get_flags(long)))
        self.assertRaises(errors.BadUnique, self.box.remove, long)
        for key in ("v" * 201, "\ud800", "u:2,"):
            self.assertRaises(KeyError, self.box.remove, key)

    def test_a_message_whose_name_always_changes_is_not_said_to_be_gone(self) -> None:
        key = self.box.add(MESSAGE)
        with mock.patch.object(disk_maildir, "open", side_effect=FileNotFoundError, create=True):
            self.assertRaises(errors.Restless, self.box.get_bytes, key)

    def test_a_directory_whose_time_is_to_come(self) -> None:
        key = self.box.add(MESSAGE)
        hour = time.time() + 3600
        for place in ("new", "cur"):
            os.utime(self.path / place, (hour, hour))
        self.assertEqual([key], self.box.keys())
        with mock.patch.object(time, "time_ns", lambda: 0):
            self.assertEqual([key], self.box.keys())

    def test_a_time_that_is_set_back_hides_no_change(self) -> None:
        cur = os.fsencode(self.path / "cur")
        modified = os.stat(cur).st_mtime_ns
        before = _readings._changed_at(cur)
        # Longer than the system's tick, so that the change has a time of its own.
        time.sleep(0.05)
        (self.path / "cur/u:2,").write_bytes(MESSAGE)
        os.utime(cur, ns=(modified, modified))
        self.assertNotEqual(before, _readings._changed_at(cur))

    def test_a_directory_that_never_rests_says_nothing(self) -> None:
        changing = mock.patch.object(_readings, "_changed_at", lambda directory: None)
        with changing, mock.patch.object(_readings, "_READINGS", 2):
            self.assert_each_raises(errors.Restless, self.box.keys, lambda: "none" in self.box)
            self.assertRaises(errors.Fault, self.run_job, Flag(0, "none", "F"))

    def test_a_name_that_is_taken(self) -> None:
        self.run_job(Deliver(0, "u", MESSAGE))
        self.assertRaises(errors.NameTaken, self.run_job, Deliver(0, "u", b"two"))
        self.assertEqual([], self.names("tmp"))
        self.assertEqual(MESSAGE, self.box.get_bytes("u"))

    def test_a_disk_that_refuses(self) -> None:
        with mock.patch.object(os, "fsync", side_effect=OSError(5, "no")):
            with self.assertRaises(errors.Fault) as raised:
                self.box.add(MESSAGE)
        cause = raised.exception.__cause__
        assert isinstance(cause, OSError)
        self.assertEqual(5, cause.errno)
        self.assertEqual([], self.names("tmp") + self.names("new"))

    def test_causes(self) -> None:
        with self.assertRaises(errors.NotThere) as raised:
            self.run_job(Flag(0, "u", "F"))
        self.assertIsNone(raised.exception.__cause__)
        for name in ("u:2,", "u:2,S"):
            (self.path / "cur" / name).write_bytes(MESSAGE)
        with self.assertRaises(errors.Fault) as failed:
            self.run_job(Flag(0, "u", "F"))
        self.assertIsInstance(failed.exception.__cause__, errors.TwoNames)
        os.rmdir(self.path / "tmp")
        with self.assertRaises(errors.Failed) as refused:
            self.run_job(Deliver(0, "v", MESSAGE))
        self.assertIsInstance(refused.exception.__cause__, FileNotFoundError)

    def test_no_directory_to_move_to(self) -> None:
        """The message stays, and is not taken for one that is gone."""
        (self.path / "cur/u:2,").write_bytes(MESSAGE)
        (self.path / "other").mkdir()
        with self.assertRaises(errors.Fault) as raised:
            _running.run(Move(0, "u", 1), [os.fsencode(self.path), os.fsencode(self.path / "other")])
        self.assertIsInstance(raised.exception.__cause__, FileNotFoundError)
        self.assertEqual(["u:2,"], self.names("cur"))


@needs_library
class DrivenTest(DiskCase):
    def test_a_flag(self) -> None:
        with Driven(Flag(3, "u", "F", "S")) as job:
            job.ask(1000)
            asked = job.request()
            self.assertEqual((LIST, 3, CUR), (asked.call, asked.folder, asked.place))
            job.row(b"v:2,")
            job.row(b"u:2,PS")
            self.assertIsNone(job.take(DONE))
            job.ask(1001)
            asked = job.request()
            self.assertEqual((b"u:2,PS", 3, CUR, b"u:2,FP"), (asked.name, asked.to_folder, asked.to_place, asked.other))
            answer = job.take(DONE)
            assert answer is not None and not isinstance(answer, errors.Failed)
            self.assertEqual("FP", answer.flags)

    def test_a_delivery(self) -> None:
        with Driven(Deliver(0, "u", b"hello\n", 4)) as job:
            made = []
            answer = None
            while answer is None:
                job.ask(1000)
                asked = job.request()
                made.append((asked.call, asked.other))
                answer = job.take(DONE)
            self.assertEqual([(1, b""), (2, b"hell"), (2, b"o\n"), (LINK, b"u"), (5, b"")], made)

    def test_the_order(self) -> None:
        job = Driven(Clean(0))
        self.assert_each_raises(errors.NotAsked, job.request, lambda: job.row(b"u"), lambda: job.take(DONE))
        job.ask(1)
        self.assertRaises(errors.AskedBefore, job.ask, 1)
        job.close()
        self.assertRaises(errors.Closed, job.ask, 1)

    def test_refusals(self) -> None:
        self.assertRaises(errors.SameFolder, Driven, Move(0, "u", 0))
        with Driven(Move(0, "u", 1)) as job:
            job.ask(1)
            self.assertIsInstance(job.take(NOT_FOUND), errors.Fault)
        self.assertRaises(errors.NotThere, self.run_job, Flag(0, "u", "F"))


if __name__ == "__main__":
    unittest.main()
