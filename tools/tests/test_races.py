"""tools/races: what it refuses, how it counts, and what it makes of hostile names. The programs that it plays by must be built."""

from __future__ import annotations

import json
import math
import os
import re
import shutil
import subprocess
import tempfile
import unittest
from pathlib import Path

from shared import BUILT, CLI, DEOLMUTT, TOOLS, RoomTest

from judge_lib.judge_run import judge, deolmutt
from judge_lib.refused import Refused
from races_lib import command, kept, losses, page, record, scene, side, words
from races_lib.count import count
from races_lib.marks import marks_of
from races_lib.races import RACES
from races_lib.play import Played, Programs, Step, play, play_whole, run
from races_lib.tree import actors_of, interleavings

PROGRAMS = Programs(DEOLMUTT, CLI)
TWO_CLEANS = b"folder i\njob clean i\njob clean i\nfinish 1 1\nfinish 2 1\n"
EXAMPLES = [file for file in sorted(command.EXAMPLES.glob("*.script")) if 1 < len(re.findall("^(?:job|first) ", file.read_text(), re.M)) <= 3]
# Three that look for one message: the copy looks in two places.
THREE = b"folder i\nfolder j\nfile i cur u 0 x\njob flag i u S - 1\njob flag i u F - 1\njob copy i u j v 1\n"
THREE += b"finish 1 1\nfinish 2 1\nfinish 3 1\n"
TWO_FLAGS = b"folder i\nfile i cur u 0 x\njob flag i u S - 2\njob flag i u F - 2\nfinish 1 1\nfinish 2 1\n"


class ScriptTest(RoomTest):
    """A test with scripts in its folder."""

    def script(self, text: bytes) -> Path:
        """A script of this text."""
        file = self.room / "race.script"
        file.write_bytes(text)
        return file

    def races(self, *words: object) -> subprocess.CompletedProcess[str]:
        """How the tool ends on these words."""
        line = [TOOLS / "races", "--deolmutt", DEOLMUTT, "--cli", CLI, *words]
        return subprocess.run([str(word) for word in line], capture_output=True, text=True, check=False)


class Scenes(ScriptTest):
    """What a script says by itself."""

    def refusal(self, text: bytes) -> str:
        """Why the script makes no scene."""
        with self.assertRaises(Refused) as refused:
            scene.read_scene(self.script(text))
        return str(refused.exception)

    def test_a_script_without_a_race_is_refused(self) -> None:
        self.assertIn("the script has none", self.refusal(b"folder i\n"))
        self.assertIn("the script has 1", self.refusal(b"folder i\njob clean i\nfinish 1 1\n"))
        self.assertIn("the script has 4", self.refusal(b"folder i\n" + b"job clean i\n" * 4))

    def test_a_job_without_a_moment_is_refused(self) -> None:
        self.assertIn("job 2 takes no step", self.refusal(b"folder i\njob clean i\njob clean i\nfinish 1 1\n"))

    def test_a_step_keeps_its_moment(self) -> None:
        job = scene.read_scene(self.script(b"job clean i\njob clean i\nstep 1 5\nstep 1 6 9\nfinish 1 8\nfinish 2 1\n")).actors[0]
        self.assertEqual([job.step(done) for done in range(5)], [b"step 1 5", b"step 1 6 9", b"step 1 8", b"step 1 8", b"step 1 8"])
        self.assertEqual(job.steps_from(1), [b"step 1 6 9", b"finish 1 8"])

    def test_numbers_may_begin_with_zeros(self) -> None:
        actors = scene.read_scene(self.script(b"job clean i\njob clean i\nfinish 01 5\nfinish 2 1\n")).actors
        self.assertEqual([actor.moments for actor in actors], [[b"5"], [b"1"]])

    def test_listings_of_two_folders_have_names_of_their_own(self) -> None:
        actors = scene.read_scene(self.script(b"first i\nfirst j\nsecond i\nsecond j\n")).actors
        self.assertEqual([actor.name for actor in actors], ["listing", "listing 2"])

    def test_a_file_that_is_not_there_is_refused(self) -> None:
        with self.assertRaises(Refused):
            scene.read_scene(self.room / "none")


def has_judge() -> bool:
    """Whether the judge is built."""
    try:
        return bool(deolmutt())
    except Refused:
        return False


@unittest.skipUnless(has_judge() and shutil.which("strace"), "deolmutt is not built, or strace is not there")
class Explored(ScriptTest):
    """A page of two commands of any programs."""

    def test_two_commands_make_a_page(self) -> None:
        setup, out = "mkdir -p box/tmp box/new box/cur; echo > 'box/new/<b>'", self.room / "out.html"
        move = "mv 'box/new/<b>' 'box/cur/<b>:2,%s'"
        done = self.races("--explore", setup, move % "F", move % "R", "--claims", "A: flags box <b> +F", "-o", out)
        self.assertEqual(done.returncode, 0, done.stderr)
        text = out.read_text(encoding="utf-8")
        shown = json.loads(re.search(r'id="data">(.*?)</script>', text, re.S)[1])[0]["sides"][0]
        self.assertNotIn("<b>", text.split('id="data">')[0].split("<h2>")[0])
        self.assertTrue(all(order[1] == "said" for order in shown["orders"]))
        self.assertIn("ended with status 1", shown["orders"][0][2])

    def test_what_cannot_be_run_is_refused(self) -> None:
        done = self.races("--explore", "mkdir -p box/tmp box/new box/cur", "no-such-program", "true", "-o", self.room / "out.html")
        self.assertEqual(done.returncode, 1)
        self.assertIn("races: ", done.stderr)


class Words(unittest.TestCase):
    """What a call does, as readers are told it."""

    # The call, its reply, the names that it shows, and the words.
    ROWS = """look box/cur/u:2,S|fault||looks at cur/u:2,S
list box new|ok||reads new/: it is empty
list box cur|more|u:2,S|reads cur/: u:2,S
list box cur|ok||reads cur/ to its end
list box cur|fault||reads no more of cur/
create box/tmp/v|ok||creates tmp/v
create box/tmp/v|exists||tries to create tmp/v, but tmp/v is there: EEXIST
write box/tmp/v|ok||writes to tmp/v
flush box/tmp/v|ok||flushes tmp/v to the disk
link box/tmp/v box/new/v|ok||links tmp/v to new/v
unlink box/tmp/v|fault||tries to unlink tmp/v: the system answers an error
unlink box/tmp/v|ok||unlinks tmp/v
unlink box/tmp/v|notfound||tries to unlink tmp/v, but A has unlinked it: ENOENT
rename box/new/v box/cur/v:2,S|ok||renames new/v to cur/v:2,S
rename box/cur/u:2,S box/cur/u:2,FS|ok||renames cur/u:2,S to u:2,FS
rename box/cur/u:2,S box/cur/u:2,RS|notfound||tries to rename cur/u:2,S, but A has renamed it: ENOENT
look box/cur/u:2,S|notfound||looks for cur/u:2,S, but A has renamed it: ENOENT
unlink box/cur/none|notfound||tries to unlink cur/none, which is not there: ENOENT"""

    def test_each_call_has_its_words(self) -> None:
        directories = words.Directories(["box"], {"box/cur/u:2,S": None})
        for row in self.ROWS.split("\n"):
            call, reply, names, said = row.split("|")
            act = words.Act("A", tuple(call.split(" ")), reply, tuple(names.split()))
            self.assertEqual("".join(words.sentence(act, directories)), said)
            directories.take(act)
        self.assertEqual(sorted(directories.paths), ["box/cur/u:2,FS", "box/cur/v:2,S"])

    def test_two_folders_are_told_apart(self) -> None:
        act = words.Act("A", ("rename", "i/cur/u", "j/cur/u"), "ok")
        self.assertEqual("".join(words.sentence(act, words.Directories(["i", "j"]))), "renames i/cur/u to j/cur/u")


class Orders(unittest.TestCase):
    """What is counted of orders, and which belong together."""

    def order(self, turns: str, outcome: str) -> side.Order:
        """An order without steps."""
        return side.Order(turns, [], [], outcome, "")

    def side(self, *orders: tuple[str, str], is_kept: bool = True) -> side.Side:
        """A side with these orders."""
        return side.Side("x", "", "", [], [], [], [], [self.order(*one) for one in orders], is_kept=is_kept)

    def test_orders_that_overlap(self) -> None:
        for turns, wanted in (("AAB", False), ("BA", False), ("ABA", True), ("ABBA", True), ("ABC", False), ("ABCA", True)):
            self.assertEqual(self.order(turns, side.GOOD).overlaps(), wanted, turns)

    def test_what_is_counted(self) -> None:
        both = self.side(("AAB", side.LOST), ("ABAB", side.LOST), ("BAA", side.SAID))
        told = "In 2 of 3 orders it is lost (in 1 of the 1 that overlap); in 1 of 3 orders a program fails, and says so."
        self.assertEqual(both.counted("it is lost"), told)
        self.assertEqual(both.worst(), 1)
        self.assertEqual(self.side(("A", side.GOOD)).counted(""), "Nothing is lost in 1 of 1 orders.")
        ours = self.side(("AB", side.SAID), ("BA", side.GOOD), is_kept=False)
        self.assertEqual(ours.counted(""), "In 1 of 2 orders a job is not done, and says so; in none is anything lost.")

    def test_partners_begin_alike(self) -> None:
        first = self.side(("AAB", side.LOST), ("ABAB", side.LOST), ("BBA", side.LOST))
        second = self.side(*((turns, side.GOOD) for turns in ("AABB", "ABABBB", "ABBAAA", "BABAAA", "BBAA")))
        first.own, second.own = 1, 1
        self.assertEqual(page.Scene("", "", "", [first, second]).partners(), [0, 1, 4])


class Kept(unittest.TestCase):
    """What is kept of released programs, and what a page makes of it."""

    LOG = """maildir_log 1
# A ended with status 0
folder box
file box/tmp/1795880646.M1P2Q3.vm 1795880646
1795880646 A list box new more
1795880646 A list box new ok
# A looks at box/new/1795880646.M1P2Q3.vm: notfound
1795880647 A link box/tmp/1795880646.M1P2Q3.vm box/new/1795880646.M1P2Q3.vm ok
# A ends with status 0
1795880647 A answer delivered box 1795880646.M1P2Q3.vm
"""

    def test_names_and_moments_are_fixed(self) -> None:
        found = [line for _, line in record.steps_of(self.LOG)]
        self.assertEqual(found[0], "A list box new ok")
        self.assertEqual(list(record.steps_of("folder box\u2028\n1 A list box\u2028 new ok\n")), [(2, "A list box\u2028 new ok")])
        names: dict[str, str] = {}
        fixed = [record.fixed(line, names) for line in found]
        made = "1000.M1P7.host"
        self.assertEqual(fixed[1:3], [f"A looks at box/new/{made}: notfound", f"A link box/tmp/{made} box/new/{made} ok"])
        self.assertEqual(record.fixed("imap<12><a+b>: 1795880648.M5P2.vm", names), "imap<7><session>: 1000.M2P7.host")
        self.assertEqual(record.fixed("Logged out in=35 out=848 deleted=0", names), "Logged out in=35 out=N deleted=0")
        self.assertEqual(record.fixed(f"can't read {tempfile.gettempdir()}/explore-a_1/work/box/cur", names), "can't read box/cur")

    def test_each_race_has_what_is_kept_of_it(self) -> None:
        scenes = {race.kept for race in RACES if race.kept}
        self.assertEqual({path.stem for path in kept.KEPT.glob("*.json")}, scenes)
        for race in RACES:
            self.assertTrue(race.script.exists())
            if race.kept:
                self.assertTrue((TOOLS / f"scenes.d/{race.kept}.scene").exists())
                made = kept.side_of(kept.read_kept(race.kept), race.names)
                self.assertNotEqual(made.orders[made.own].outcome, side.GOOD, race.name)

    def test_what_mflag_loses(self) -> None:
        made = kept.side_of(kept.read_kept("mflag-twice"), losses.Names(("mflag", "mflag")))
        self.assertEqual([order.turns for order in made.orders], ["AAB", "ABAB", "ABBA", "BAAB", "BABA", "BBA"])
        self.assertEqual(made.count, "In 6 of 6 orders a flag is lost with status 0 (in 4 of the 4 that overlap).")
        late = kept.side_of(kept.read_kept("mflag-twice"), losses.Names(("mflag", "mflag"), late="by an old name")).count
        self.assertTrue(late.endswith("(in 4 of the 4 that overlap; in the others the second begins late, by an old name)."))
        step = made.orders[1].steps[4]
        self.assertEqual((step.who, "".join(step.text)), ("B", "tries to rename cur/u:2,S, but A has renamed it: ENOENT"))
        self.assertEqual([note[1] for note in made.orders[1].steps[5].notes], ["GaveUp", "AnsweredFalsely", "it printed"])

    # What each released program does, in one look.
    HEADLINES = {
        "mflag-twice": (side.LOST, "mflag loses a flag"),
        "notmuch-tag-beside-mv": (side.LOST, "notmuch loses a flag"),
        "mlist-beside-mv": (side.LOST, "mlist misses a message that is there"),
        "python-keys-beside-mv": (side.LOST, "Python's mailbox misses a message that is there"),
        "mailutils-beside-mdeliver": (side.SAID, "mail takes away what is being delivered"),
        "dovecot-expunge-beside-untrash": (side.LOST, "Dovecot deletes what nobody wanted to delete"),
        "python-add-unlink-fails": (side.LOST, "Python's mailbox delivers, and says that it failed"),
    }

    def test_one_look_says_who_loses_what(self) -> None:
        made = {race.kept: kept.side_of(kept.read_kept(race.kept), race.names).headline for race in RACES if race.kept}
        self.assertEqual(made, self.HEADLINES)

    def test_one_look_at_other_ends(self) -> None:
        order = {"lines": [0, 1], "broken": [[1, "SeenBeforeWhole"]]}
        one = {"lines": ["A ends with status 0", "B create box/new/v ok"], "orders": [order]}
        shown = side.Side("x", "", "", [], [], [], [], [side.Order("AB", [], [], side.LOST, "")])
        names = losses.Names(("A", "B"))
        self.assertEqual(losses.headline_of(one, shown, names), (side.LOST, "B breaks the law of a maildir"))
        order["broken"] = []
        for outcome, words in ((side.GOOD, "A and B: nothing is lost"), (side.SAID, "A and B: a program fails, and says so")):
            shown.orders[0].outcome = outcome
            self.assertEqual(losses.headline_of(one, shown, names), (outcome, words))

    def test_of_a_traceback_the_last_line_is_shown(self) -> None:
        self.assertEqual(kept.printed_note("one\ntwo\n"), ["printed", "it printed", "one\ntwo"])
        self.assertEqual(kept.printed_note("Traceback:\n a\n b\nOSError: no\n"), ["printed", "it printed in the end", "OSError: no"])

    def test_a_race_is_named_by_its_program(self) -> None:
        self.assertEqual(page.Scene("", "Two flags", "", [], "mflag").label(), "mflag: two flags")
        self.assertEqual(page.Scene("", "Two flags", "", []).label(), "Two flags")

    @unittest.skipUnless(has_judge(), "deolmutt is not built")
    def test_the_judge_finds_what_is_kept(self) -> None:
        for race in RACES:
            one = kept.read_kept(race.kept) if race.kept else {"orders": []}
            for order in one["orders"]:
                lines = [kept.raw(one["lines"][number]) for number in order["lines"]]
                log = "\n".join(["maildir_log 1", *one["head"], *lines, ""]).encode()
                first = 2 + len(one["head"])
                found = [[finding.line - first, finding.clause] for finding in judge(log, race.allowed)]
                self.assertEqual(found, order["broken"], f"{race.kept} {order['turns']}")

    def test_what_is_not_kept_is_refused(self) -> None:
        with self.assertRaisesRegex(Refused, "tools/races --record none"):
            kept.read_kept("none")

    def test_a_scene_of_no_race_is_refused(self) -> None:
        with self.assertRaisesRegex(Refused, "none: no race of the page has this scene"):
            command.keep(["none"])

    def test_a_page_that_is_not_what_is_made_is_refused(self) -> None:
        with self.assertRaisesRegex(Refused, "docs/races.html is not what"):
            command.check({command.PAGE: "another"})


class Marks(ScriptTest):
    """What a step is to the theorem.."""

    SCRIPT = b"folder i\njob deliver i u 9 x\njob clean i\njob flag i v S - 2\nfinish 1 1\nfinish 2 1\nfinish 3 1\n"
    # Who, the call, the reply, the effect, the answer; the mark's kind and clause.
    ROWS = """0|create i/tmp/u|ok|||quiet|quiet
0|link i/tmp/u i/new/u|ok|add i/new/u 1||effect|acts
0|unlink i/tmp/u|ok||delivered|quiet|quiet
0|unlink i/tmp/u|notfound||delivered|quiet|quiet
0|unlink i/tmp/u|notfound||timedout|says|says
0|link i/tmp/u i/new/u|notfound||tmpgone|lost|says
1|unlink i/tmp/u|ok||cleaned 1|tmp|in_tmp
1|unlink i/tmp/u|notfound||cleaned 0|quiet|quiet
2|list i cur|ok: v:2,S|same|flags S|effect|acts
2|list i cur|ok: nothing||notthere|says|says
2|rename i/cur/v i/cur/v:2,S|notfound|||lost|quiet
2|list i cur|ok: v:2,F|||again|quiet
2|rename i/cur/v:2,F i/cur/v:2,FS|notfound||lost|lost|says"""

    def test_marks_are_those_of_what_was_printed(self) -> None:
        race = scene.read_scene(self.script(self.SCRIPT))
        rows = [row.split("|") for row in self.ROWS.split("\n")]
        played = Played(steps=[Step(int(who), call, reply, "1", effect, answer) for who, call, reply, effect, answer, _, _ in rows])
        for row, mark in zip(rows, marks_of(race, played)):
            self.assertEqual([mark.kind, mark.clause], row[5:], row)

    def test_a_half_of_a_listing_is_of_the_listing_law(self) -> None:
        race = scene.read_scene(self.script(b"first i\njob clean i\nfinish 1 1\nsecond i\n"))
        played = Played(steps=[Step(0, "list i new", "ok: nothing")])
        self.assertEqual([mark.clause for mark in marks_of(race, played)], ["the listing law"])


@unittest.skipUnless(BUILT, "deolmutt and maildir_cli are not built")
class Pages(ScriptTest):
    """What the tool makes of scripts, by the programs."""

    def data(self, text: bytes, *words: str) -> tuple[str, dict]:
        """The page of a script, and the scene that it holds."""
        out = self.room / "out.html"
        done = self.races(self.script(text), "-o", out, *words)
        self.assertEqual(done.returncode, 0, done.stderr)
        page = out.read_text(encoding="utf-8")
        return page, json.loads(re.search(r'id="data">(.*?)</script>', page, re.S)[1])[0]["sides"][0]

    def all_of(self, text: bytes, most: int) -> tuple[list[Played], bool]:
        """The interleavings of a script, at most so many, and whether there are more."""
        race = scene.read_scene(self.script(text))
        return interleavings(PROGRAMS, race, actors_of(play_whole(PROGRAMS, race)), most)

    def test_all_interleavings_are_there_once(self) -> None:
        found, has_more = self.all_of(TWO_CLEANS, 10)
        self.assertEqual(([actors_of(one) for one in found], has_more), ([[0, 1], [1, 0]], False))
        found, _ = self.all_of(TWO_FLAGS, 100)
        paths = [actors_of(one) for one in found]
        # Two look and rename one after the other; or both look first, and the second to rename looks and renames once more.
        first = [[0, 0, 1, 1], [0, 1, 0, 1, 1, 1], [0, 1, 1, 0, 0, 0]]
        self.assertEqual(paths, [*first, [1, 0, 0, 1, 1, 1], [1, 0, 1, 0, 0, 0], [1, 1, 0, 0]])

    def test_an_interleaving_is_what_the_transcript_says(self) -> None:
        race = scene.read_scene(self.script(TWO_FLAGS))
        steps = [f"{step.actor + 1} {step.call.split(' ')[0]} {step.reply.split(':')[0]}" for step in play(PROGRAMS, race, [0, 1]).steps]
        lines = TWO_FLAGS.replace(b"finish 1 1", b"step 1 1\nstep 2 1\nfinish 1 1")
        told = [line.split(" ") for line in run([str(CLI), "play"], lines)[1].decode().splitlines()]
        self.assertEqual(steps, [f"{words[0]} {words[1]} {words[-1]}" for words in told if words[1] in ("list", "rename")])

    def test_more_than_the_bound_is_said(self) -> None:
        out = self.room / "out.html"
        done = self.races(self.script(TWO_FLAGS), "-o", out, "--most", "3")
        self.assertEqual(done.returncode, 0)
        self.assertIn("took 3 interleavings of 6", done.stderr)
        _, shown = self.data(TWO_FLAGS, "--most", "3")
        self.assertEqual((len(shown["orders"]), shown["count"]), (3, "Nothing is lost in 3 of 3 orders that were tried; there are 6."))

    def test_what_is_taken_does_not_depend_on_the_processors(self) -> None:
        taken = [[actors_of(one) for one in self.all_of(TWO_FLAGS, 4)[0]] for _ in range(3)]
        self.assertEqual(taken[1:], taken[:1] * 2)
        # The script's own, and three that part from it once.
        self.assertIn([0, 0, 1, 1], taken[0])

    def test_the_count_is_that_of_all_interleavings(self) -> None:
        for race in [scene.read_scene(file) for file in EXAMPLES] + [scene.read_scene(self.script(TWO_FLAGS))]:
            with self.subTest(race.name):
                found, has_more = interleavings(PROGRAMS, race, command.own_turns(race, play_whole(PROGRAMS, race)), 60)
                number, is_all = count(PROGRAMS, race, found[:1])
                self.assertTrue(is_all)
                self.assertEqual((min(number, 60), number > 60), (len(found), has_more))

    def test_three_are_counted_too(self) -> None:
        race = scene.read_scene(self.script(THREE))
        found, has_more = self.all_of(THREE, 1000)
        self.assertEqual((has_more, count(PROGRAMS, race, found[:1])), (False, (len(found), True)))
        number, is_all = count(PROGRAMS, race, found[:20], most_steps=50)
        self.assertEqual((is_all, 20 <= number < len(found)), (False, True))

    def test_many_are_counted_that_are_not_played(self) -> None:
        # Two deliveries that never meet, with 9 calls each.
        text = b"folder i\njob deliver i a 1 123456\njob deliver i b 1 123456\nfinish 1 1\nfinish 2 1\n"
        race = scene.read_scene(self.script(text))
        found, has_more = self.all_of(text, 1)
        self.assertEqual((has_more, count(PROGRAMS, race, found)), (True, (math.comb(18, 9), True)))

    def test_refused_scripts(self) -> None:
        rows = {TWO_FLAGS + b"list j\n": "line 7: unknown folder", b"folder i\nstep\n": "line 2: bad command",
                b"folder i\njob clean i\nfinish 1 1\n": "the script has 1"}
        for text, why in rows.items():
            with self.subTest(why):
                done = self.races(self.script(text), "-o", self.room / "out.html")
                self.assertEqual((done.returncode, done.stdout), (1, ""))
                self.assertIn(why, done.stderr)

    def test_markup_in_names_is_text(self) -> None:
        name = b"<script>alert(1)<\\script>"
        text = TWO_FLAGS.replace(b" u ", b" " + name + b" ").replace(b" i ", b" <b>&amp; ").replace(b"folder i", b"folder <b>&amp;")
        page, shown = self.data(b"# </script><script>alert(2)</script>\n" + text)
        self.assertEqual(len(re.findall("<script", page)), 2)
        self.assertNotIn("<b>", page)
        self.assertNotIn("alert(1)<", page.split('id="data">')[0])
        self.assertEqual(shown["folders"], ["<b>&amp;"])
        self.assertIn("<script>alert(1)<\\\\script>", json.dumps(shown, ensure_ascii=False))

    def test_a_name_of_a_whole_element_is_text(self) -> None:
        page, _ = self.data(TWO_FLAGS.replace(b" u ", b" <script>alert(1)<script> "))
        self.assertEqual(len(re.findall("<script", page)), 2)

    def test_an_element_with_a_slash_is_text_or_refused(self) -> None:
        element = b"<script>alert(1)</script>"
        text = b"folder i\njob deliver i u 99 " + element + b"\njob clean i\nfinish 1 1\nfinish 2 1\n"
        page, shown = self.data(text)
        self.assertEqual(len(re.findall("<script", page)), 2)
        self.assertEqual(shown["actors"][0], ["A", "delivers u"])
        for named, why in ((b" u ", "bad unique"), (b"folder i", "bad folder")):
            done = self.races(self.script(text.replace(named, named.replace(named.strip().split(b" ")[-1], element))), "-o", self.room / "no.html")
            self.assertEqual((done.returncode, done.stderr), (1, f"races: {self.room}/race.script: line {1 + (named == b' u ')}: {why}\n"))
            self.assertFalse((self.room / "no.html").exists())

    def test_a_files_name_is_text(self) -> None:
        file = Path(os.fsdecode(bytes(self.room) + b"/<b>\xff&.script"))
        file.write_bytes(TWO_FLAGS)
        done = self.races(file, "-o", self.room / "out.html")
        self.assertEqual(done.returncode, 0, done.stderr)
        page = (self.room / "out.html").read_text(encoding="utf-8")
        self.assertNotIn("<b>", page)
        self.assertIn("<h2>&lt;b&gt;\\xff&amp;</h2>", page)

    def test_bytes_that_are_no_text_are_shown_by_their_numbers(self) -> None:
        _, shown = self.data(TWO_FLAGS.replace(b" u ", b" \xff\xc3 "))
        self.assertIn("\\xff\\xc3", json.dumps(shown, ensure_ascii=False).replace("\\\\", "\\"))

    def test_the_last_state_is_compared(self) -> None:
        other = self.program("other", f'#!/bin/sh\n"{CLI}" "$@" | sed "s/^cur u/cur v/"\n')
        with self.assertRaisesRegex(Refused, "not what `maildir_cli play` lists"):
            play_whole(Programs(DEOLMUTT, other), scene.read_scene(self.script(TWO_FLAGS)))
