"""The crates for Rust: each public item of `deolmutt` has an example, which cargo runs, and the manifests ask for Debian's Rust."""

from __future__ import annotations

import re
import unittest

from shared import TOP

MANIFESTS = ("plain/Cargo.toml", "rust/deolmutt/Cargo.toml", "rust/deolmutt-sys/Cargo.toml")
# A comment and what it is the comment of, with attributes between.
ITEM = re.compile(r"(?:^ *///[^\n]*\n)*(?:^ *#\[[^\n]*\n)*^ *pub (?:fn|struct|enum|trait|type) (?P<name>\w+)", re.MULTILINE)


class RustTest(unittest.TestCase):
    def test_each_public_item_has_an_example(self) -> None:
        items = [(path, item) for path in sorted((TOP / "rust/deolmutt/src").glob("*.rs")) for item in ITEM.finditer(path.read_text())]
        self.assertGreater(len(items), 40)
        self.assertEqual([], [f"{path.name}: {item['name']}" for path, item in items if "/// ```" not in item[0]])

    def test_they_ask_for_debian_s_rust_and_for_nothing_else(self) -> None:
        for name in MANIFESTS:
            text = (TOP / name).read_text()
            self.assertIn('edition = "2021"\nrust-version = "1.63"\n', text)
            dependencies = text.partition("[dependencies]\n")[2].partition("[")[0].split()
            self.assertIn(dependencies[:1], ([], ["deolmutt-sys"]))
        for lock in ("plain/Cargo.lock", "rust/Cargo.lock"):
            self.assertNotIn("source =", (TOP / lock).read_text())
