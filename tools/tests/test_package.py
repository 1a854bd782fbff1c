"""tools/package: which trees it makes packages of, and what goes into them."""

from __future__ import annotations

import unittest
from unittest import mock

from shared import RoomTest

from judge_lib.refused import Refused
from package_lib import contents, debian, tree
from package_lib.contents import Entry


class TreeTest(RoomTest):
    def setUp(self) -> None:
        super().setUp()
        (self.room / "crates/out").mkdir(parents=True)
        for name in ("a", "crates/b c", "crates/out/made"):
            (self.room / name).write_text(name)
        for name, value in {"TOP": self.room, "PASSED": self.room / "out/passed-tree", "BUILT": ("crates/out/made",),
                            "prover": lambda: "kit 1"}.items():
            put = mock.patch.object(tree, name, value)
            put.start()
            self.addCleanup(put.stop)

    def passes(self) -> None:
        """What the gate does."""
        tree.PASSED.parent.mkdir(exist_ok=True)
        tree.PASSED.write_text(tree.state() + tree.built())

    def assert_refused(self, text: str) -> None:
        with self.assertRaisesRegex(Refused, text):
            tree.passed()

    def test_a_tree_that_the_gate_has_passed(self) -> None:
        self.assert_refused("the gate has not passed this tree: run .ci/run")
        self.passes()
        prover, first = tree.passed()
        self.assertEqual("kit 1", prover)
        (self.room / "crates/out/other").write_text("anew")
        self.assertEqual(("kit 1", first), tree.passed())

    def test_programs_that_the_gate_has_not_built(self) -> None:
        self.passes()
        (self.room / "crates/out/made").write_text("anew")
        self.assert_refused("the programs are not those that the gate has built")

    def test_a_tree_that_has_changed_since(self) -> None:
        self.passes()
        (self.room / "crates/b c").write_text("else")
        self.assert_refused("crates/b c has changed since the gate passed")
        (self.room / "crates/b c").unlink()
        self.assert_refused("crates/b c is gone since")
        (self.room / "crates/b c").write_text("crates/b c")
        (self.room / "new").write_text("")
        self.assert_refused("new is new since")
        (self.room / "new").unlink()
        tree.passed()


class ContentsTest(unittest.TestCase):
    def test_a_tar_file_says_nothing_of_who_made_it_when(self) -> None:
        entries = {"x/a": Entry(0o644, b"a"), "x/b": Entry(0o777, b"a", is_link=True)}
        first = contents.packed(contents.tar(entries, 1_000_000_000))
        self.assertEqual(first, contents.packed(contents.tar(dict(reversed(entries.items())), 1_000_000_000)))

    def test_each_tool_is_called_by_a_name_of_its_own(self) -> None:
        tools = contents.OTHERS.read_text(encoding="utf-8").split()
        for word in tools:
            if word.startswith("bin/deolmutt-"):
                self.assertIn(f"share/deolmutt/tools/{word.partition('-')[2]}", tools)

    def test_no_tool_leaves_bytecode_where_it_is_installed(self) -> None:
        tools = [source for _, mode, source, _ in contents._rows(contents.OTHERS) if mode == "755" and source.startswith("tools/")]
        for source in set(tools) - {"tools/package_lib/tool.sh"}:
            self.assertIn("\nsys.dont_write_bytecode = True\n", (contents.TOP / source).read_text(encoding="utf-8"), source)

    def test_each_program_has_a_manual_page(self) -> None:
        words = [*contents.OTHERS.read_text(encoding="utf-8").split(), *contents.PROGRAMS.read_text(encoding="utf-8").split()]
        programs = [word.partition("/")[2] for word in words if word.startswith("bin/")]
        self.assertGreater(len(programs), 5)
        for name in programs:
            self.assertIn(f"share/man/man1/{name}.1", words)

    def test_debian_has_manual_pages_and_links_to_them_packed(self) -> None:
        page, link = Entry(0o644, b".TH A 1\n"), Entry(0o777, b"a.1", is_link=True)
        packed = debian._debian_way({"share/man/man1/a.1": page, "share/man/man1/b.1": link, "share/x": page})
        self.assertEqual({"share/man/man1/a.1.gz", "share/man/man1/b.1.gz", "share/x"}, set(packed))
        self.assertEqual(link._replace(content=b"a.1.gz"), packed["share/man/man1/b.1.gz"]._replace(mode=0o777))
        self.assertEqual(page, packed["share/x"])

    def test_what_is_not_built_is_said(self) -> None:
        with self.assertRaisesRegex(Refused, "crates/x/out/x is not there: run .ci/run"):
            contents._read(contents.TOP / "crates/x/out/x")
