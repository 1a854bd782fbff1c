"""Tests of tools/check_pages: what pages quote, where their links lead, and the words of those with a budget."""

from unittest import mock

from shared import TOP, RoomTest, loaded, ran

check_pages = loaded("check_pages")

LIST = """# Changes

## Words

| Say | Not |
|---|---|
| during | `amid`, amongst |
| fails | `is refused` |

| A | table | of `three` |

## After

| Say | `not this` |
"""


class Pages(RoomTest):
    """A tree of pages in a folder of its own: each is given as its text."""

    def setUp(self):
        super().setUp()
        self.write("CONTRIBUTING.md", LIST)

    def write(self, name, text):
        path = self.room / name
        path.parent.mkdir(exist_ok=True)
        path.write_text(text, encoding="utf-8")

    def faults(self, budgets=(), quoting=()):
        with mock.patch.multiple(check_pages, TOP=self.room, BUDGETS=dict(budgets), QUOTING=list(quoting)):
            return list(check_pages.faults())

    def test_a_page_over_its_budget(self):
        self.write("a.md", "one two\n\n| three | four |\n|---|---|\n| 5 | - |\n\n    six `seven`\n")
        self.assertEqual(self.faults([("a.md", 7)]), [])
        self.assertEqual(self.faults([("a.md", 6)]), ["a.md: 7 words, 1 more than its budget of 6"])

    def test_a_cell_that_is_too_long(self):
        cell = " ".join(["A word or two."] * 15)
        self.write("a.md", f"| {cell} | {cell} |\n\n```\n| {cell} word |\n```\n\n{cell} word\n")
        self.assertEqual(self.faults([("a.md", 1000)]), [])
        self.write("a.md", f"\n| short | {cell} word |\n")
        fault, = self.faults([("a.md", 1000)])
        self.assertTrue(fault.startswith("a.md:2: a cell of 61 words"), fault)

    def test_long_sentences(self):
        short, long = "Four words are enough. ", "Word " * 31
        self.write("a.md", f"# A heading\n\n{short * 17}\n\n| {short} |\n|---|\n| 1 |\n\n{long}\n\n    {long}\n")
        self.assertEqual(self.faults([("a.md", 1000)]), ["a.md: 1 of 19 sentences have over 30 words, and one in 20 may"])
        self.write("a.md", f"{short * 19}{long}")
        self.assertEqual(self.faults([("a.md", 1000)]), [])

    def test_dropped_words(self):
        allowed = "A camid, `amid`, amid-ships, \"amid\", amongst, three, not this\n\n    amid\n\n```\namid\n```\n"
        self.write("a.md", "Amid it all\nit\nis refused. " + allowed)
        told = [fault.split(": ")[::2] for fault in self.faults([("a.md", 1000)])]
        self.assertEqual(told, [["a.md:1", "Amid"], ["a.md:3", "is refused"]])

    def test_a_page_without_a_budget_says_what_it_likes(self):
        self.write("a.md", "amid " * 10)
        self.assertEqual(self.faults(), [])

    def test_links(self):
        self.write("docs/b.md", "# The `law`, and [what](c.md) it says\n")
        self.write("a.md", "[b](docs/b.md) [law](docs/b.md#the-law-and-what-it-says) [site](https://example.org/x) [docs](docs)\n")
        self.assertEqual(self.faults(), ["docs/b.md:1: a dead link: c.md"])
        self.write("docs/c.md", "[a](../a.md) [none](#none)\n[gone](b.md#the-law)\n")
        self.assertEqual(self.faults(), ["docs/c.md:1: a dead link: #none", "docs/c.md:2: a dead link: b.md#the-law"])

    def test_quotes(self):
        self.write("a.antt", "one\n  two\nthree\n")
        self.write("a.md", "From `a.antt`:\n\n```antt\n  two\n```\n\n```antt\ntwo\n```\n")
        self.write("b.md", "```rust\none\n```\n")
        self.assertEqual(self.faults(quoting=["a.md", "b.md"]), [
            "a.md:8: this is not so in a.antt",
            "b.md:2: this is not so in any file: a line From `FILE`: is missing",
        ])

    def test_the_status_and_what_is_printed(self):
        for text, status in (("amid", 1), ("during", 0)):
            self.write("a.md", text)
            with mock.patch.multiple(check_pages, TOP=self.room, BUDGETS={"a.md": 1}, QUOTING=[]):
                ended, printed, _ = ran(check_pages.main, [])
            self.assertEqual((ended, len(printed.splitlines())), (status, status))

    def test_its_help(self):
        for arguments, status in ((["--help"], 0), (["page"], 64)):
            self.assertEqual(ran(check_pages.main, arguments)[:2], (status, check_pages.__doc__))

    def test_the_list_of_the_repository_is_read(self):
        dropped = check_pages.words.dropped_by((TOP / "CONTRIBUTING.md").read_text(encoding="utf-8"))
        self.assertTrue({"amid", "refused", "gate", "kit"} <= set(dropped), dropped)
