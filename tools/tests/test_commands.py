"""Tests of tools/check_commands: what of a page is a command, and that a command which doesn't do as its page says is told."""

from pathlib import Path
from unittest import mock

from shared import RoomTest, loaded

check_commands = loaded("check_commands")

PAGE = """Save this as `a.script`:

    folder i
    list i

and run `./deolmutt a.script`, or `crates/examples`, or `tools`:

    $ cat a.script
    folder i
    list i
    $ ./deolmutt --version
    deolmutt 9
    rt version            a line of words
                          and more of them

```rust
    rt.alloc()
```

See `tools/check_pages` and `rt ci`.
"""


class Commands(RoomTest):
    def setUp(self):
        super().setUp()
        self.page = self.room / "page.md"
        self.page.write_text(PAGE, encoding="utf-8")

    def faults(self, program, listed):
        with mock.patch.object(check_commands, "PAGES", [str(self.page)]):
            return list(check_commands.faults(Path(program), listed))

    def test_what_is_a_command(self):
        steps = list(check_commands.steps_of(str(self.page)))
        self.assertEqual(steps[0], check_commands.Saved("a.script", "folder i\nlist i\n"))
        texts = [step.text for step in steps[1:]]
        self.assertEqual(texts, ["./deolmutt a.script", "cat a.script", "./deolmutt --version", "tools/check_pages", "rt ci"])
        self.assertEqual(steps[2].printed, "folder i\nlist i\n")

    def test_each_page_has_its_commands_run_or_listed(self):
        """Those of the list that stand for others name no page that lacks them."""
        listed = check_commands.read_list()
        found = {step.text for page in check_commands.PAGES for step in check_commands.steps_of(page) if isinstance(step, check_commands.Command)}
        self.assertEqual(set(listed) - {check_commands.entry_of(text, listed) for text in found}, set())

    def test_faults_are_told(self):
        found = self.faults("/bin/true", {"rt c*": ("later", ""), "tools/check_pages": ("form", "false"), "rt gone": ("later", "")})
        self.assertEqual(len(found), 3, found)
        self.assertIn("./deolmutt --version: printed\n", found[0])
        self.assertIn("false: ended with status 1", found[1])
        self.assertIn("no page has the command rt gone", found[2])
