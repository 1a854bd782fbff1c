"""What there is no maildir for, or no room, or no leave."""

from __future__ import annotations

import os
import subprocess
import unittest

from .boxes import MAIL, NOBODY, PROGRAM, UNIQUE, BoxTest, run, sent

MOST_BYTES = 16_777_216
# Another user, who runs the program.
OTHER = {"user": NOBODY, "group": NOBODY, "extra_groups": []}

# Each command that wants a maildir to be there.
COMMANDS = (("deliver", "B"), ("list", "B"), ("read", "B", "k"), ("seen", "B", "k"), ("flag", "B", "+F", "k"), ("expunge", "B", "k"),
            ("move", "B", "box", "k"), ("copy", "B", "box", "k"), ("move", "box", "B", "k"), ("clean", "B"), ("check", "B"))


class Refusals(BoxTest):
    """Commands that do nothing."""

    def test_no_maildir(self) -> None:
        (self.top / "file").write_bytes(b"")
        (self.top / "plain").mkdir()
        (self.top / "half" / "tmp").mkdir(parents=True)
        (self.top / "half" / "new").write_bytes(b"")
        before = self.box.files()
        for path in ("none", "file", "plain", "half", "box/new", ""):
            for words in COMMANDS:
                ended = run(*(path if word == "B" else word for word in words), cwd=self.top, given=MAIL)
                self.assertEqual((ended.status, ended.printed), (66, b""), words)
                self.assertIn(b": no such maildir\n", ended.said)
        self.assertEqual(self.box.files(), before)

    def test_make_over_a_file(self) -> None:
        (self.top / "file").write_bytes(b"")
        ended = run("make", "file", cwd=self.top)
        self.assertEqual((ended.status, (self.top / "file").read_bytes()), (73, b""))
        self.assertEqual(run("make", "none/mail", cwd=self.top).status, 73)

    def test_no_message(self) -> None:
        for words in (("read", "box", "k"), ("seen", "box", "k"), ("flag", "box", "+F", "k"), ("expunge", "box", "k")):
            self.run_badly(65, b"k: no such message", *words)

    def test_other_info(self) -> None:
        self.box.put("cur", UNIQUE + b":1,x")
        self.run_badly(65, UNIQUE + b": the name of the message has no flags after its colon", "flag", "box", "+F", UNIQUE)

    def test_wrong_keys(self) -> None:
        for key in ("", "a/b", "other/cur/a", "box/tmp/a", "box/cur/", "box/cur/.a", ".a", ":2,S", "/"):
            self.assertEqual(run("seen", "box", "--", key, cwd=self.top).status, 64, key)

    def test_keys_that_cannot_be_read(self) -> None:
        """The keys before them are done, and no key after them."""
        for name in (b"a", b"b"):
            self.box.put("new", name)
        ended = run("seen", "box", "none", "a", "-", "b", before=sent("</"), cwd=self.top)
        self.assertEqual((ended.status, ended.said), (
            74, b"deolmutt: standard input: reading failed: Is a directory (os error 21)\ndeolmutt: none: no such message\n"))
        self.assertEqual((self.box.names("new"), self.box.names("cur")), ([b"b"], [b"a:2,S"]))

    def test_wrong_changes(self) -> None:
        self.box.put("cur", UNIQUE + b":2,")
        for change in ("+", "-", "F", "+F-", "+-F", "+F+S", "+F-S-T", "+1", ""):
            self.assertEqual(run("flag", "box", "--", change, UNIQUE, cwd=self.top).status, 64, change)
        self.assertEqual(self.box.names("cur"), [UNIQUE + b":2,"])

    def test_wrong_folders(self) -> None:
        for folder in ("", ".a", "a/b"):
            self.assertEqual(run("deliver", "box", f"--folder={folder}", cwd=self.top, given=MAIL).status, 64, folder)

    def test_same_maildir(self) -> None:
        self.run_badly(64, b"box: the message is there already", "move", "box", "box/", "k")

    def test_no_text(self) -> None:
        self.run_badly(64, b"a word is not UTF-8; try 'deolmutt --help'", "list", b"\xff")

    def test_too_long(self) -> None:
        body = b"a" * MOST_BYTES
        self.run_badly(65, b"standard input: the message is longer than 16777216 bytes", "deliver", "box", given=body + b"a")
        self.assertEqual(self.box.files(), {})
        self.run_well("deliver", "box", given=body)
        self.assertEqual([*self.box.files().values()], [body])

    def test_full_output(self) -> None:
        self.box.put("new", UNIQUE)
        for words in (("list", "box"), ("read", "box", UNIQUE), ("--help",)):
            self.run_badly(74, b"standard output: writing failed: No space left on device (os error 28)", *words, before=sent(">/dev/full"))

    def test_full_output_of_deliveries(self) -> None:
        """A message whose name is not printed is delivered, and so are those after it."""
        for words, given, count in (((), MAIL, 1), (("--many",), b"From a\n1\n\nFrom b\n2\n", 2)):
            before = self.box.names("new")
            ended = run("deliver", "box", "--print", *words, given=given, before=sent(">/dev/full"), cwd=self.top)
            names = [name for name in self.box.names("new") if name not in before]
            self.assertEqual((ended.status, len(names)), (74, count), words)
            why = b": delivered, but its name could not be printed: No space left on device (os error 28)"
            self.assertEqual(sorted(ended.said.splitlines()), sorted(b"deolmutt: " + name + why for name in names))

    @unittest.skipIf(os.geteuid() != 0, "another user can't be asked")
    def test_no_rights(self) -> None:
        self.box.put("new", UNIQUE)
        for words in (("deliver", "box"), ("seen", "box", UNIQUE), ("make", "box/.sub")):
            ended = run(*words, cwd=self.top, given=MAIL, **OTHER)
            self.assertEqual(ended.status, 77, (words, ended.said))
        (self.box.path / "cur").chmod(0)
        ended = run("list", "box", cwd=self.top, **OTHER)
        self.assertEqual((ended.status, ended.printed), (77, b""))
        self.assertEqual(self.box.files(), {b"new/" + UNIQUE: MAIL})

    @unittest.skipIf(os.geteuid() != 0, "another user can't be asked")
    def test_no_look_into_tmp(self) -> None:
        """Where the names of tmp can be read and its files not looked at, it isn't said that none is old."""
        os.utime(self.box.put("tmp", b"old"), (1000, 1000))
        (self.box.path / "tmp").chmod(0o744)
        for words in (("clean", "box"), ("check", "box")):
            ended = run(*words, cwd=self.top, **OTHER)
            self.assertEqual((ended.status, ended.printed), (77, b""), words)

    @unittest.skipIf(os.geteuid() != 0, "another user can't be asked")
    def test_no_right_to_a_message(self) -> None:
        """It is listed without its headers, and the others with theirs."""
        for name in (b"a", b"b", b"c"):
            self.box.put("new", name)
        os.chmod(self.box.path / "new" / "b", 0)
        ended = run("list", "box", "--headers", cwd=self.top, **OTHER)
        self.assertEqual((ended.status, ended.said), (77, b"deolmutt: box/new/b: permission denied\n"))
        columns = b"\t%d\t-\ta@example.org\tone\n" % len(MAIL)
        self.assertEqual(ended.printed, b"new\t-\ta" + columns + b"new\t-\tb\t-\t-\t-\t-\n" + b"new\t-\tc" + columns)

    def run_on_small_disk(self, script: str, *words: str) -> subprocess.CompletedProcess[bytes]:
        """Runs a script whose first word is a small file system of its own, with the maildir b, and whose second word is the program."""
        place = self.top / "small"
        place.mkdir()
        mount = 'mount -t tmpfs -o size=262144 none "$1" && mkdir -p "$1/b/tmp" "$1/b/new" "$1/b/cur" || exit\n'
        command = ["unshare", "-rm", "sh", "-c", mount + script, "sh", str(place), PROGRAM, *words]
        done = subprocess.run(command, capture_output=True, cwd=self.top, check=False)
        if b"status" not in done.stdout:
            self.skipTest("no file system of its own")
        return done

    def test_other_file_system(self) -> None:
        self.box.put("new", UNIQUE)
        script = 'for act in move copy; do "$2" $act box "$1/b" "$3"; echo "status $?"; done; ls "$1/b/new"'
        done = self.run_on_small_disk(script, UNIQUE.decode())
        self.assertEqual(done.stdout, b"status 73\nstatus 73\n", done.stderr)
        self.assertEqual(done.stderr, 2 * (b"deolmutt: " + UNIQUE + b": it is on another file system\n"))
        self.assertEqual(self.box.files(), {b"new/" + UNIQUE: MAIL})

    def test_full_disk(self) -> None:
        done = self.run_on_small_disk("""cd "$1"
            head -c 1000000 /dev/zero | "$2" deliver b; echo "status $?"; ls b/tmp b/new
            echo hello | "$2" deliver b; echo "status $?"; cat b/new/*""")
        self.assertEqual(done.stdout, b"status 75\nb/new:\n\nb/tmp:\nstatus 0\nhello\n", done.stderr)
        self.assertIn(b"it could not be done: no storage space", done.stderr)
