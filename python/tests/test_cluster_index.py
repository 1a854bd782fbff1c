"""Indexes over Dask: the rows of one process, whatever the workers and the partitions."""

from __future__ import annotations

import io
import os
import pathlib
import subprocess
import unittest
from contextlib import redirect_stdout
from typing import Any, List

from cluster_support import NO_DASK, ClusterCase, needs_cluster, random_lines
from support import TOP, maildir_message

import deolmutt
from deolmutt import lines
from deolmutt.errors import BadEscape, BadNumber, DuplicateUnique, NotInThisRun, UnknownFolder

if not NO_DASK:
    from distributed import progress

    from deolmutt.cluster import Row, index, printed
    from deolmutt.cluster.index import _size_of

CLI = pathlib.Path(os.environ.get("MAILDIR_CLI", TOP / "crates/maildir_cli/out/maildir_cli"))
PARTITIONS = (1, 300, 20_000, 1 << 24)
SMALL = (
    b"# a store\nfolder i\nfolder j\r\n\n"
    b"file j new z 0 Subject: last\\n\\nSubject: no field\\n\n"
    b"file i cur b:2,S 5 From: b@example.org\\r\\nsubject: two\\r\\n folded\\r\\n\\r\\n\r\n"
    b"file i tmp a 0 Subject: half\\n\n"
    b"file i new .hidden 0 Subject: hidden\\n\n"
    b"file i new a 0\n"
    b"file i cur c 0 Message-ID: <1@a>\\nDate: Fri, 21 Nov 1997 09:55:06 -0600\\nSubject: a\\\\b \xff\\n"
)
ROWS_OF_SMALL = [
    ("i", "a", None, None, None, None, None),
    ("i", "b", "two folded", "b@example.org", None, None, None),
    ("i", "c", "a\\b \udcff", None, "<1@a>", "Fri, 21 Nov 1997 09:55:06 -0600", 880_127_706),
    ("j", "z", "last", None, None, None, None),
]


@needs_cluster
class IndexTest(ClusterCase):
    def rows(self, **how: Any) -> List[Any]:
        found: List[Any] = self.client.compute(index(self.client, **how)).result()
        return found

    def file(self, name: str, content: bytes) -> pathlib.Path:
        path = self.folder / name
        path.write_bytes(content)
        return path

    def test_rows(self) -> None:
        for most in PARTITIONS:
            for source in (SMALL, self.file("small", SMALL)):
                self.assertEqual(ROWS_OF_SMALL, self.rows(lines=[source], partition_bytes=most))
        self.assertEqual(ROWS_OF_SMALL * 2, self.rows(lines=[SMALL, SMALL]))
        self.assertEqual([], self.rows())
        self.assertEqual([], self.rows(lines=[b"folder i\n", b"", self.file("none", b"")]))

    def test_what_ends_a_header(self) -> None:
        for body, subject in (
            (b"a: b\n\nSubject: in the body\n", None),
            (b"a: b\r\n\r\nSubject: in the body\n", None),
            (b"\nSubject: in the body\n", None),
            (b"a: \\n\nSubject: one\n", "one"),
            (b"a: \\n\\n\nSubject: one\n", "one"),
            (b"a: b\n \nSubject: one\n", "one"),
            (b"a: b\n\rSubject: no field\nSubject: one\n\n", "one"),
            (b"Subject: one\n\n\\", "one"),
        ):
            with self.subTest(body):
                line = lines.file_line("i", "new", "a", 0, body)
                [row] = self.rows(lines=[b"folder i\n" + line])
                self.assertEqual(Row("i", "a", subject), row)

    def test_a_last_line_without_an_end(self) -> None:
        # A CR there is a byte of the message, of which a field's value has no part at its end.
        [row] = self.rows(lines=[b"folder i\nfile i new a 0 Subject: one\r"])
        [escaped] = self.rows(lines=[b"folder i\nfile i new a 0 Subject: one\\r\n"])
        self.assertEqual(escaped, row)
        for last in (b"file i new a 0 Subject: one\r", b"file i new a 0", b"file i new a 0 x\\r", b"# none"):
            rows = self.rows(lines=[b"folder i\nfile i new b 0 Subject: two\n" + last])
            self.assertEqual(Row("i", "b", "two"), rows[-1])
            self.assertEqual(1 + last.startswith(b"file"), len(rows))

    def test_partitions_are_by_bytes(self) -> None:
        big = b"file i new a 0 %b\nfile i new b 0 x\nfile i new c 0 y\n" % (b"x" * 1000)
        bag = index(self.client, lines=[b"folder i\n" + big], partition_bytes=30)
        self.assertEqual([1, 2], self.client.compute(bag.map_partitions(lambda rows: [len(rows)])).result())

    @unittest.skipUnless(os.access(CLI, os.X_OK), f"maildir_cli is not built: {CLI}; MAILDIR_CLI may name it")
    def test_it_prints_what_the_program_prints(self) -> None:
        stores = [SMALL, *(random_lines(seed, 300) for seed in range(20))]
        wanted = [subprocess.run([CLI, "index", "1"], input=it, capture_output=True, check=True).stdout for it in stores]
        for most in PARTITIONS[2:]:
            rows = self.rows(lines=stores, partition_bytes=most)
            self.assertEqual(b"".join(wanted), printed(rows))

    def test_lines_that_make_no_store(self) -> None:
        for refused, line, text in (
            (UnknownFolder, 3, b"folder i\nfile i new a 0\nfile j new b 0\n"),
            (NotInThisRun, 2, b"folder i\nlist i\n"),
            (DuplicateUnique, 0, b"folder i\nfile i new a 0\nfile i cur a:2, 0\n"),
            (BadEscape, 4, b"folder i\n\nfile i new b 0 x\nfile i new a 0 \\q\nfile i new c 0\n"),
            # Behind the header too, of which alone the summary is made.
            (BadEscape, 2, b"folder i\nfile i new b 0 x: y\\n\\nz\\q\\n\n"),
            (BadEscape, 2, b"folder i\nfile i new b 0 x: y\\n\\nz\\\n"),
            # Of a file that is no message too.
            (BadEscape, 3, b"folder i\nfile i new b 0\nfile i tmp c 0 \\q\n"),
            (BadEscape, 3, b"folder i\nfile i new b 0\nfile i new .c 0 \\q\n"),
            # In lines that come in no order, and in a last one without an end.
            (BadEscape, 5, b"folder i\nfile i new c 0\n# d\nfile i new b 0\nfile i new a 0 x\\\r"),
            (BadNumber, 2, b"folder i\nfile i new a 0\r"),
        ):
            for most in PARTITIONS:
                with self.assertRaises(refused) as raised:
                    self.rows(lines=[text], partition_bytes=most)
                self.assertEqual(line, raised.exception.line)

    def test_trees(self) -> None:
        trees = [self.tree("one"), self.tree("two")]
        expected = [row for tree in trees for row in self.rows_of(tree)]
        for most in PARTITIONS:
            self.assertEqual(expected, self.rows(trees=trees, partition_bytes=most))
        # A file that has gone to another name by then is met, and one that is gone is left out.
        bag = index(self.client, trees=trees[:1])
        (trees[0] / "new/5.a").rename(trees[0] / "cur/5.a:2,S")
        (trees[0] / "new/6.a").unlink()
        self.assertEqual(
            [row for row in self.rows_of(trees[0]) if row.unique != "6.a"], self.client.compute(bag).result()
        )

    def test_a_file_that_is_gone_by_the_look_at_its_size(self) -> None:
        file = self.file("u", b"x")
        with os.scandir(self.folder) as entries:
            [entry] = entries
        file.unlink()
        self.assertEqual((True, 0), (entry.is_file(), _size_of(entry)))

    def tree(self, name: str) -> pathlib.Path:
        path = self.folder / name
        with deolmutt.Maildir(folders=["Sent"]) as box:
            box.add(maildir_message("S", "cur", body=b"Subject: read\n\n"))
            box.get_folder("Sent").add(b"Subject: sent\n\n")
            box.export(path)
        for folder in (path, path / ".Sent"):
            for place in ("new", "cur"):
                for file in list((folder / place).iterdir()):
                    file.rename(folder / place / ("1.a" + file.name[file.name.find(":") :] * (place == "cur")))
        for at in range(2, 10):
            (path / "new" / f"{at}.a").write_bytes(b"From: %d\nSubject: \\n\n\nx" % at)
        (path / "new" / ".no").write_bytes(b"Subject: none\n\n")
        (path / "tmp" / "no").write_bytes(b"Subject: half\n\n")
        return path

    def rows_of(self, tree: pathlib.Path) -> List[Any]:
        top, sent = str(tree), str(tree / ".Sent")
        new = [Row(top, f"{at}.a", "\\n", str(at)) for at in range(2, 10)]
        return [Row(top, "1.a", "read"), *new, Row(sent, "1.a", "sent")]

    def test_as_a_frame(self) -> None:
        try:
            import pandas  # noqa: F401
        except ImportError:
            self.skipTest("pandas is not here")
        frame = self.client.compute(index(self.client, lines=[SMALL], partition_bytes=100, as_frame=True)).result()
        self.assertEqual(list(Row._fields), list(frame.columns))
        self.assertEqual(["a", "b", "c", "z"], list(frame["unique"]))

    def test_dasks_own_bar(self) -> None:
        out = io.StringIO()
        with redirect_stdout(out), self.client.as_current():
            rows = self.client.persist(index(self.client, lines=[SMALL], partition_bytes=1))
            progress(rows, notebook=False)
        self.assertIn("100% Completed", out.getvalue())


if __name__ == "__main__":
    unittest.main()
