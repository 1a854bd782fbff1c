"""Real trees in and out, and what messages and names may hold."""

from __future__ import annotations

import contextlib
import mailbox
import os
import pathlib
import unittest
import warnings
from concurrent.futures import ThreadPoolExecutor
from typing import Any, Mapping

from support import MESSAGE, Case, maildir_message, needs_library

import deolmutt
from deolmutt import Maildir, WrongThread
from deolmutt.errors import BodyTooLong, NoSpareFolder, OtherInfo
from deolmutt.maildir import Addable

MOST_BODY = 16_777_216
BODIES = {
    "nothing": b"",
    "all bytes": bytes(range(256)) * 3,
    "CRLF": b"Subject: x\r\n\r\nline\r\nother\rline\n\n",
    "backslashes": b"\\n\\\\r \\",
    "no last line end": b"Subject: x\n\nend",
    "not ASCII": "Subject: \u00e4\u20ac\n\n\U0001f4e7\n".encode(),
    "NUL": b"\0\0\n\0",
}
NAMES = {
    "new": ["1.plain", "2.M1P2Q3.host", "3.\u00e4\u20ac", "4.with space", "5" * 220, "6.b:2,F"],
    "cur": ["1.bare", "2.c:2,", "3.d:2,FS", "4.e:1,x:2,S", "5.f:2,", "6.g:3,odd", "7.h:2,az"],
}


def tree_of(path: pathlib.Path) -> dict[str, bytes]:
    """All messages' files of a tree, by their paths in it."""
    return {
        str(file.relative_to(path)): file.read_bytes()
        for file in path.rglob("*")
        if file.is_file() and file.parent.name in ("new", "cur", "tmp")
    }


def make(path: pathlib.Path, files: Mapping[str, bytes] = {}) -> pathlib.Path:
    """A maildir with these files, by their places and names."""
    for place in ("tmp", "new", "cur"):
        (path / place).mkdir(parents=True)
    for name, content in files.items():
        (path / name).write_bytes(content)
    return path


@needs_library
class BodyTest(Case):
    def test_bodies_come_back_as_they_were(self) -> None:
        for what, body in BODIES.items():
            with self.subTest(what), Maildir() as box:
                key = box.add(body)
                self.assertEqual(body, box.get_bytes(key))
                box[key] = b"other"
                box[key] = body
                self.assertEqual(body, box.get_bytes(key))
                self.check_tree(box, body)

    def check_tree(self, box: Maildir, body: bytes) -> None:
        tree = self.folder / f"tree{len(os.listdir(self.folder))}"
        box.export(tree)
        with Maildir.load(tree) as again:
            self.assertEqual([body], [again.get_bytes(key) for key in again.keys()])

    def test_a_message_of_16_mib(self) -> None:
        body = (bytes(range(256)) * (MOST_BODY // 256))[:MOST_BODY]
        with Maildir() as box:
            key = box.add(body)
            self.assertEqual(body, box.get_bytes(key))
            longer = body + b"x"
            self.assertRaises(BodyTooLong, box.add, longer)
            self.assertRaises(BodyTooLong, box.__setitem__, key, longer)
            self.assertRaises(BodyTooLong, box.add_all, [b"", longer])
            self.assertEqual([key], box.keys())
            self.check_tree(box, body)


@needs_library
class TreeTest(Case):
    def test_a_tree_comes_back_byte_by_byte(self) -> None:
        files = {f"{place}/{name}": body for place in NAMES for name, body in zip(NAMES[place], BODIES.values())}
        source = make(self.folder / "source", files)
        make(source / ".Sent", files)
        make(source / ".Sent" / ".old.er \u00e4", files)
        with Maildir.load(source) as box:
            self.assertEqual(["Sent"], box.list_folders())
            box.export(self.folder / "copy")
        self.assertEqual(tree_of(source), tree_of(self.folder / "copy"))

    def test_mailbox_reads_an_export_as_it_read_the_tree(self) -> None:
        source = mailbox.Maildir(self.folder / "source")
        sent = source.add_folder("Sent")
        messages: tuple[Addable, ...] = (MESSAGE, maildir_message("FS", "cur", 1e9 + 0.5), b"x")
        for number, message in enumerate(messages):
            source.add(message)
            sent.add(maildir_message("R" * (number % 2), "cur", 10.0 * number))
        with Maildir.load(self.folder / "source") as box:
            box.export(self.folder / "copy")
            copy = mailbox.Maildir(self.folder / "copy", create=False)
            self.assertEqual(read(source), read(copy))
            self.assertEqual(read(source), read(box))
            self.assertEqual(read(sent), read(copy.get_folder("Sent")))
            self.assertEqual(read(sent), read(box.get_folder("Sent")))

    def test_a_replaced_message_is_exported_under_its_key(self) -> None:
        with Maildir() as box:
            key = box.add(maildir_message("S", "cur"))
            box[key] = b"other"
            box.export(self.folder / "copy")
        self.assertEqual({f"cur/{key}:2,S": b"other"}, tree_of(self.folder / "copy"))

    def test_an_export_never_overwrites(self) -> None:
        with Maildir() as box:
            key = box.add(MESSAGE)
            box.add_folder("Sent").add(MESSAGE)
            tree = make(self.folder / "copy", {f"cur/{key}:2,S": b"there"})
            self.assertRaises(mailbox.ExternalClashError, box.export, tree)
            self.assertEqual({f"cur/{key}:2,S": b"there"}, tree_of(tree))
            self.assertFalse((tree / ".Sent").exists())

    def test_an_export_goes_beside_what_is_there(self) -> None:
        tree = mailbox.Maildir(self.folder / "copy")
        tree.add(b"there")
        with Maildir() as box:
            box.add(MESSAGE)
            box.export(self.folder / "copy")
        self.assertEqual([MESSAGE, b"there"], sorted(tree.get_bytes(key) for key in tree.keys()))
        self.assertEqual([], os.listdir(self.folder / "copy" / "tmp"))

    def test_a_folder_is_exported_with_those_in_it(self) -> None:
        with Maildir() as box:
            box.add(b"top")
            key = box.add_folder("a").add(MESSAGE)
            other = box.get_folder("a").add_folder("b").add(MESSAGE)
            box.get_folder("a").export(self.folder / "copy")
        self.assertEqual({f"new/{key}", f".b/new/{other}"}, set(tree_of(self.folder / "copy")))

    def test_one_unique_name_in_two_folders_and_in_new_and_cur(self) -> None:
        source = make(self.folder / "source", {"new/a": b"1", "cur/a:2,S": b"2"})
        make(source / ".Sent", {"cur/a:2,F": b"3"})
        with Maildir.load(source) as box:
            self.assertEqual([b"1", b"2"], sorted(box.get_bytes(key) for key in box.keys()))
            self.assertEqual(b"1", box.get_bytes("a"))
            sent = box.get_folder("Sent")
            self.assertEqual((["a"], b"3", "F"), (sent.keys(), sent.get_bytes("a"), sent.get_flags("a")))
            sent.remove("a")
            self.assertEqual((0, 2), (len(sent), len(box)))

    def test_names_that_are_no_messages(self) -> None:
        source = make(self.folder / "source", {"new/.hidden": b"", "tmp/half": b""})
        (source / "new" / "directory").mkdir()
        os.mkfifo(source / "cur" / "pipe")
        with Maildir.load(source) as box:
            self.assertEqual([], box.keys())

    def test_what_is_left_out_is_told(self) -> None:
        source = make(self.folder / "source", {"cur/a:2,S x": b"", "cur/b:2,S": b""})
        (source / ".half").mkdir()
        with warnings.catch_warnings(record=True) as met:
            warnings.simplefilter("always")
            with Maildir.load(source) as box:
                self.assertEqual(["b"], box.keys())
        self.assertEqual([deolmutt.LeftOut] * 2, [warning.category for warning in met])

    def test_a_tree_that_is_not_there(self) -> None:
        self.assertRaises(mailbox.NoSuchMailboxError, Maildir.load, self.folder / "none")

    def test_another_colon(self) -> None:
        class Other(Maildir):
            colon = "!"

        source = make(self.folder / "source", {"cur/a!2,FS": b"x"})
        with Other.load(source) as box:
            self.assertEqual("FS", box.get_flags("a"))
            box.export(self.folder / "copy")
        self.assertEqual(tree_of(source), tree_of(self.folder / "copy"))


@needs_library
class DifferenceTest(Case):
    """What is otherwise than in `mailbox.Maildir`: the table of docs/PYTHON.md."""

    def setUp(self) -> None:
        super().setUp()
        self.box = Maildir.load(make(self.folder / "source", {"cur/a:1,x:2,S": b"x", "cur/b": b"y"}))
        self.addCleanup(self.box.close)

    def test_other_info_is_kept(self) -> None:
        box = self.box
        self.assertEqual(("1,x:2,S", ""), (box.get_info("a"), box.get_flags("a")))
        self.assertEqual("1,x:2,S", box["a"].get_info())
        self.assert_each_raises(
            OtherInfo,
            lambda: box.set_flags("a", "S"),
            lambda: box.add_flag("a", "S"),
            lambda: box.add_flag_to_all(["b", "a"], "S"),
            lambda: box.set_info("b", "foo"),
            lambda: box.remove("a"),
            lambda: box.__setitem__("a", MESSAGE),
            lambda: box.add(box["a"]),
            # Its info has a T, and is no list of flags all the same.
            Maildir.load(make(self.folder / "trashed", {"cur/c:2,T-x": b""})).clear,
        )
        self.assertEqual(["a", "b"], sorted(box.keys()))
        self.assertEqual(("x", "", ""), (box["a"].as_string().strip(), box.get_info("b"), box.get_flags("b")))

    def test_a_message_with_flags_is_in_cur(self) -> None:
        key = self.box.add(maildir_message("S", "new"))
        self.assertEqual(("cur", "S"), (self.box[key].get_subdir(), self.box.get_flags(key)))
        other = self.box.add(MESSAGE)
        self.box.add_flag(other, "F")
        self.assertEqual(("cur", "F"), (self.box[other].get_subdir(), self.box.get_flags(other)))

    def test_a_message_of_new_without_flags_stays_there(self) -> None:
        key = self.box.add(MESSAGE)
        self.box.set_flags(key, "")
        self.box.add_flag_to_all([key], "")
        self.box.remove_flag(key, "S")
        self.assertEqual(("new", ""), (self.box[key].get_subdir(), self.box.get_info(key)))

    def test_flags_are_letters(self) -> None:
        for flags in ("1", "\u00e4", " ", "S,"):
            self.assertRaises(ValueError, self.box.set_flags, "b", flags)

    def test_folders_are_those_that_the_store_was_made_with(self) -> None:
        with Maildir(folders=["a"], spare_folders=1) as box:
            self.assertEqual(["a"], box.list_folders())
            box.add_folder("b")
            self.assertRaises(NoSpareFolder, box.add_folder, "c")
            box.remove_folder("b")
            box.add_folder("c")
            self.assertEqual(["a", "c"], sorted(box.list_folders()))
        self.assertRaises(NoSpareFolder, Maildir, folders=[str(number) for number in range(64)])
        with Maildir(folders=[str(number) for number in range(63)]) as box:
            self.assertEqual(63, len(box.list_folders()))

    def test_folders_that_no_directory_can_be(self) -> None:
        for name in ("", ".", "a/b", "a\0"):
            self.assertRaises(ValueError, self.box.add_folder, name)
            self.assertRaises(mailbox.NoSuchMailboxError, self.box.get_folder, name)

    def test_a_folder_that_was_removed(self) -> None:
        folder = self.box.add_folder("a")
        self.box.remove_folder("a")
        self.assert_each_raises(mailbox.NoSuchMailboxError, lambda: folder.add(MESSAGE), folder.keys, folder.list_folders)

    def test_a_closed_mailbox(self) -> None:
        folder = self.box.add_folder("a")
        folder.close()
        key = folder.add(MESSAGE)
        self.box.close()
        self.assert_each_raises(
            deolmutt.errors.Closed,
            lambda: self.box.add(MESSAGE),
            lambda: self.box.add_all([MESSAGE]),
            lambda: self.box.remove("b"),
            lambda: self.box.__setitem__("b", MESSAGE),
            lambda: self.box.set_flags("b", "S"),
            lambda: self.box.add_flag("b", "S"),
            lambda: self.box.add_flag_to_all(["b"], "S"),
            lambda: self.box.add_folder("c"),
            lambda: self.box.remove_folder("a"),
            self.box.clean,
            lambda: folder.add(MESSAGE),
        )
        self.assertEqual((2, ["a"], [key]), (len(self.box), self.box.list_folders(), folder.keys()))
        self.assertEqual(MESSAGE, folder.get_bytes(key))
        self.box.world.close()
        self.assert_each_raises(deolmutt.errors.Closed, self.box.keys, lambda: "b" in self.box, folder.keys)

    def test_what_it_shows_of_itself(self) -> None:
        folder = self.box.add_folder("a")
        self.assertEqual("<deolmutt.Maildir: 2 messages, 1 folder>", repr(self.box))
        self.assertEqual("<deolmutt.Maildir 'a': 0 messages, 0 folders>", repr(folder))
        self.box.close()
        self.assertEqual("<deolmutt.Maildir: 2 messages, 1 folder, closed>", repr(self.box))
        self.box.world.close()
        self.assertEqual("<deolmutt.Maildir: nothing to see: Closed>", repr(self.box))

    def test_a_path_is_refused_with_what_to_call(self) -> None:
        said = r"takes no path.*Maildir\.load\(path\).*DiskMaildir\(path\)"
        for path in (self.folder, str(self.folder), os.fsencode(self.folder)):
            self.assertRaisesRegex(TypeError, said, Maildir, path)
        self.assertRaisesRegex(TypeError, "can't be called: 7", Maildir, 7)

    def test_calls_of_the_world_are_seen(self) -> None:
        self.assertEqual(2, len(self.box))
        self.box.world.deliver(0, "z", b"zz")
        self.assertEqual(b"zz", self.box.get_bytes("z"))
        self.box.world.flag(0, "b", "F")
        self.assertEqual("F", self.box.get_flags("b"))

    def test_threads_that_meet_are_refused_and_break_nothing(self) -> None:
        keys: list[str] = []

        def work(_: int) -> None:
            for _ in range(200):
                try:
                    key = self.box.add(MESSAGE)
                except WrongThread:
                    continue
                keys.append(key)
                with contextlib.suppress(WrongThread):
                    self.box.add_flag(key, "S")

        with ThreadPoolExecutor(4) as pool:
            list(pool.map(work, range(4)))
        self.assertEqual({"a", "b", *keys}, set(self.box.keys()))

    def test_a_mailbox_takes_more_calls_than_a_world(self) -> None:
        bodies = [str(number).encode() for number in range(7_000)]
        keys = self.box.add_all(bodies)
        self.box.add_flag_to_all(keys, "S")
        for key in keys[:100]:
            self.box.add_flag(key, "F")
        for key in keys[:6_000]:
            self.box.remove(key)
        self.assertEqual(1_002, len(self.box))
        self.assertEqual(bodies[6_000:], [self.box.get_bytes(key) for key in keys[6_000:]])
        self.assertEqual(("1,x:2,S", "S"), (self.box.get_info("a"), self.box.get_flags(keys[-1])))

    def test_many_at_once(self) -> None:
        keys = self.box.add_all([MESSAGE, "Subject: x\n\n", maildir_message("S", "cur", 5.0)])
        self.assertEqual(["new", "new", "cur"], [self.box[key].get_subdir() for key in keys])
        self.assertEqual(5.0, self.box[keys[2]].get_date())
        self.box.add_flag_to_all([*keys, keys[0]], "FR")
        self.assertEqual(["FR", "FR", "FRS"], [self.box.get_flags(key) for key in keys])
        self.assertRaises(KeyError, self.box.add_flag_to_all, [keys[0], "none"], "T")
        self.assertRaises(TypeError, self.box.add_all, [MESSAGE, None])
        self.assertEqual(("FR", 5), (self.box.get_flags(keys[0]), len(self.box)))

    def test_a_factory(self) -> None:
        with Maildir(lambda file: file.read()) as box:
            key = box.add(MESSAGE)
            self.assertEqual((MESSAGE, [MESSAGE]), (box[key], box.values()))
            folder = box.add_folder("a")
            self.assertEqual(MESSAGE, folder[folder.add(MESSAGE)])


def read(box: Any) -> list[tuple[Any, ...]]:
    """All that a mailbox says of its messages."""
    return sorted(
        (key, box.get_bytes(key), m.get_subdir(), m.get_info(), round(m.get_date(), 3))
        for key, m in box.items()
    )


if __name__ == "__main__":
    unittest.main()
