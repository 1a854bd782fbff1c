"""Tests of tools/scenes: the files of scenes, and the table of what they showed."""

import json
import os
import subprocess
import sys
from unittest import mock

from shared import TOOLS, RoomTest, ran

from judge_lib import outcomes, results, scene, scenes_command, staging
from judge_lib.claims import read_claim
from judge_lib.exploring import Bounds
from judge_lib.grades import GRADES
from judge_lib.judge_run import Finding, judge, judge_file, deolmutt
from judge_lib.refused import Refused
from judge_lib.results import Results
from judge_lib.scene import FOLDER, read_scene, read_scenes
from judge_lib.staging import Found, Gathered, Outcome, check_calls, check_expected

TRACED = """\
package  p
program  q r
scene    does it
setup    a
setup    b
trace    q r < s
claims   done box u
fail     unlink:error=EIO
status   1
"""

EXPLORED = """\
# Why.
package  p
program  q
scene    does it
needs    o
explore  q
beside   t
user     not root
status   A: 0
status   B: 0 1
"""


class Scenes(RoomTest):
    def read(self, text):
        path = self.room / "one.scene"
        path.write_text(text)
        with mock.patch("judge_lib.scene.BEGINNING", []):
            return read_scene(path)

    def test_words(self):
        traced = self.read(TRACED)
        self.assertEqual((traced.name, traced.runs, traced.setup, traced.status, traced.beside), ("one", "q", ["a", "b"], ["1"], None))
        explored = self.read(EXPLORED)
        self.assertEqual((explored.packages(), explored.beside, explored.is_unprivileged), (["p", "o"], "t", True))

    def test_wrong_files(self):
        added = [TRACED + line for line in ("trace    again", "beside   t", "colour   red", "x", "stops    never", "status   B: x")]
        for text in ["", *added, EXPLORED.replace("beside", "setup")]:
            with self.assertRaises(Refused, msg=text):
                self.read(text)

    def test_each_scene_can_be_read(self):
        scenes, pairs = read_scenes([]), read_scenes(["deolmutt"])
        self.assertEqual(len(scenes) + 1, len(list(FOLDER.iterdir())))
        self.assertEqual(len({scene.pair for scene in pairs}), 18 * 6)
        for scene in scenes + pairs:
            self.assertIn("box/cur", scene.setup[0])
            self.assertNotIn("|", scene.about)
            for claim in scene.claims:
                read_claim(claim)

    def test_pairs(self):
        rows = []
        for scene in read_scenes(["deolmutt-flag-cur-beside-itself", "deolmutt-seen-new-beside-mblaze"]):
            found = [Found("Gone", 2, "B unlink box/new/u ok", "it goes", "B")] * (scene.beside == "minc box")
            rows.append(Outcome(scene, "1", 4, not found, found, b""))
        with mock.patch.object(outcomes, "version_of", return_value="1"):
            self.assertEqual(outcomes.markdown(rows)[2:], [
                "With deolmutt 1, mblaze 1.", "", "|  | itself | mblaze |", "| --- | --- | --- |", "| flag cur | 4 | - |",
                "| seen new | - | 4 of more; *lost*: Gone by B in 2 |"])
        self.assertEqual(rows[0].scene.claims, ["A: flags box u +F", "B: flags box u +F"])
        self.assertEqual([row.scene.status for row in rows], [["A: 0 65", "B: 0 65"], ["A: 0 65", "B: 0 3"]])

    def test_repeated(self):
        traced = "tools/trace --actor q --claims 'done box u' --fail unlink:error=EIO -o log sh -c 'q r < s'"
        self.assertEqual(outcomes.repeated(self.read(TRACED))[1:], ["a", "b", traced, "deolmutt judge log"])
        self.assertEqual(outcomes.repeated(self.read(EXPLORED))[1:], ["tools/explore --setup '' \\",
                                                                       "  --status 'A: 0' --status 'B: 0 1' --stop-at names q t"])

    def test_rows(self):
        found = [Found("Gone", 2, "q unlink box/cur/u|v ok", "it goes", "", "owed"),
                 Found("GaveUp", 1, "q answer done box u", "it gave up", "", "custom")]
        rows = [Outcome(self.read(TRACED), "1-2", 1, True, [], b""), Outcome(self.read(EXPLORED), "3", 4, True, found, b""),
                Outcome(self.read(EXPLORED), "3", 4, False, [], b"")]
        head = ["", "| Program | Scene | What the judge found | Shown by |", "|---|---|---|---|"]
        with mock.patch.object(outcomes, "ran_here", return_value="Run here."):
            self.assertEqual(outcomes.markdown(rows), [
                "Run here.", "", "### Owed: " + GRADES["owed"], *head,
                "| `q`, p 3 | does it | *owed*: `Gone` in 2 of 4 interleavings, it goes: `q unlink box/cur/u\\|v ok`; "
                "*custom*: `GaveUp` in 1 of 4 interleavings, it gave up: `q answer done box u` (no claims) | `tools/scenes one` |",
                "", "### Nothing is found", *head,
                "| `q r`, p 1-2 | does it | nothing | `tools/scenes one` |",
                "| `q`, p 3 | does it | nothing in 4 interleavings, and there are more (no claims) | `tools/scenes one` |"])
            self.assertIn(" in 2 of 4 interleavings, and there are more: it goes", outcomes.text(rows[1]._replace(is_whole=False))[1])
            self.assertEqual(outcomes.text(rows[1])[1:], ["  owed: Gone in 2 of 4 interleavings: it goes: q unlink box/cur/u|v ok",
                                                          "  custom: GaveUp in 1 of 4 interleavings: it gave up: q answer done box u"])

    def test_grades_are_chosen(self):
        found = [Found("Gone", 1, "q unlink box/cur/u ok", "it goes", "", "owed"),
                 Found("GaveUp", 1, "q answer done box u", "it gave up", "", "custom")]
        outcome = Outcome(self.read(TRACED), "1", 1, True, found, b"")
        chosen = [[each.clause for each in outcomes.chosen(outcome, grade).found] for grade in GRADES]
        self.assertEqual(chosen, [[], [], ["Gone"], ["Gone", "GaveUp"]])

    def test_what_is_found_is_gathered_by_clause_and_grade(self):
        """The first line of each, in how many runs, and the log of the worst."""
        log = b"file box/cur/u:2,S 1\nfile box/new/v 1\n1 A rename box/new/v box/new/w ok\n1 B unlink box/cur/u:2,S ok\n"
        gathered = Gathered()
        gathered.add(log[:-1] + b"\n# one\n", [Finding(3, "Gone", "custom")])
        gathered.add(log, [Finding(3, "Gone", "custom"), Finding(4, "Gone", "lost")])
        self.assertEqual([(each.grade, each.runs, each.line, each.actors) for each in gathered.found()],
                         [("lost", 1, "B unlink box/cur/u:2,S ok", "B"), ("custom", 2, "A rename box/new/v box/new/w ok", "A")])
        self.assertEqual(gathered.log(), log)

    def test_a_status_that_nobody_expected_fails_a_scene(self):
        traced, explored = self.read(TRACED), self.read(EXPLORED)
        check_expected(traced, {"q": 1}, "")
        check_expected(explored, {"A": 0, "B": 1}, "")
        for scene, statuses in ((traced, {"q": 0}), (explored, {"A": 1, "B": 0}), (explored, {"A": 0, "B": None})):
            with self.assertRaisesRegex(Refused, "which the scene doesn't expect: said"):
                check_expected(scene, statuses, "said")

    def test_a_command_that_does_nothing_fails_a_scene(self):
        head = b"maildir_log 1\nfolder box\nfile box/cur/u:2,S 1000\n1 q answer failed box u\n"
        check_calls(self.read(TRACED), head + b"1@2..3 q list box new ok\n")
        with self.assertRaisesRegex(Refused, "one: its command made no call in a maildir"):
            check_calls(self.read(TRACED), head)
        explored = mock.Mock(without_call=lambda: "B")
        with mock.patch.object(staging, "explore", return_value=explored), self.assertRaisesRegex(Refused, "one: B made no call in a maildir"):
            staging.stage(self.read(EXPLORED), "1", Bounds(1, 1), print)

    def test_a_run_goes_on(self):
        """What a scene showed is taken again, unless the scene or a package is another since then."""
        scene, kept = self.read(EXPLORED), Results(str(self.room / "logs"))
        outcome = Outcome(scene, "3", 4, True, [Found("Gone", 2, "q unlink box/cur/u ok", "it goes")], b"log\n")
        with mock.patch.object(results, "version_of", return_value="3"):
            self.assertIsNone(kept.former(scene))
            kept.keep(outcome)
            self.assertEqual(kept.former(scene), outcome)
            self.assertIsNone(kept.former(scene._replace(command="other")))
        with mock.patch.object(results, "version_of", return_value="4"):
            self.assertIsNone(kept.former(scene))
        with mock.patch.object(results, "version_of", return_value=None):
            self.assertEqual(kept.former(scene), outcome, "its packages had to go for others")
        self.assertEqual((self.room / "logs/one.log").read_bytes(), b"log\n")
        with mock.patch.object(results, "version_of", return_value="3"), mock.patch.object(results.Found, "_fields", ("clause",)):
            self.assertIsNone(kept.former(scene), "it was kept in other words")

    def test_judge(self):
        """The program is one that prints an object of JSON for each finding, and whose status is 0, 1 or 2."""
        program = self.program("judge", "#!/bin/sh\n[ \"$*\" = 'judge --json' ] || exit 9\nread first\n[ \"$first\" = log ] || { echo bad >&2; exit 2; }\necho '{\"line\":3,\"clause\":\"Gone\",\"grade\":\"owed\"}'\nexit 1\n")
        with mock.patch.dict(os.environ, {"DEOLMUTT": str(program)}):
            self.assertEqual(judge(b"log\n"), [(3, "Gone", "owed")])
            with self.assertRaisesRegex(Refused, "status 2: bad"):
                judge(b"no log\n")
        with mock.patch.dict(os.environ, {"DEOLMUTT": "/nowhere"}), self.assertRaisesRegex(Refused, "/nowhere: is no program"):
            deolmutt()

    def test_a_name_at_whose_characters_lines_of_text_end(self):
        found = {"line": 3, "clause": "Gone", "actor": "a", "call": "unlink box/cur/\u2028 ok", "why": "it goes", "before": None}
        program = self.program("judge", f"#!/bin/sh\ncat <<'END'\n{json.dumps(found, ensure_ascii=False)}\nEND\nexit 1\n")
        with mock.patch.dict(os.environ, {"DEOLMUTT": str(program)}):
            self.assertEqual([told.call for told in judge_file(os.devnull, ())], [found["call"]])

    def test_a_scene_that_can_not_be_run_is_no_good_run(self):
        """Nor is a run of no scene at all."""
        def status(version, *stages):
            shown = [Outcome(read_scenes(["safecat"])[0], "1", 1, True, [], b"")]
            with mock.patch.object(scenes_command, "strace"), mock.patch.object(scenes_command, "deolmutt"), \
                    mock.patch.object(scenes_command, "version_of", return_value=version), \
                    mock.patch.object(scene, "version_of", return_value=version), \
                    mock.patch.object(scenes_command, "stage", side_effect=stages or shown):
                return ran(scenes_command.main, ["safecat"])[::2]
        self.assertEqual(status("1"), (0, ""))
        self.assertEqual(status("1", Refused("safecat: sh ended with status 1:\nit said")), (1, "scenes: safecat: sh ended with status 1:\nit said\n"))
        self.assertEqual(status(None), (1, "scenes: safecat: left out: not installed: safecat\nscenes: no scene was run\n"))

    def test_programs_have_a_home_of_their_own(self):
        for before in ({}, {"HOME": "/home"}):
            with self.subTest(before), mock.patch.dict(os.environ, before, clear=True):
                with scenes_command._own_home():
                    own = os.environ["HOME"]
                    self.assertEqual(os.listdir(own), [])
                self.assertEqual(dict(os.environ), before)
                self.assertFalse(os.path.exists(own))

    def test_program(self):
        run = subprocess.run([sys.executable, TOOLS / "scenes", "--list", "mdeliver"], capture_output=True, text=True, check=False)
        self.assertEqual((run.returncode, run.stdout), (0, "mdeliver                   mdeliver delivers a message\n"))
        run = subprocess.run([sys.executable, TOOLS / "scenes", "--list", "none"], capture_output=True, text=True, check=False)
        self.assertEqual((run.returncode, run.stderr), (2, "scenes: there is no scene none; --list names them\n"))
