"""Tests of tools/check-run over a recorded trace of tools/examples/deliverer, judged by the law of tools/law_lib."""

import json
import os
import subprocess
import sys
import xml.etree.ElementTree as xml

from judge_support import RECORDED, check_schema
from shared import TOOLS, RoomTest

from judge_lib import known, reports
from judge_lib.judge_run import SENTENCES, Told
from judge_lib.refused import Refused
from judge_lib.reports import Checked

# In place of strace: it writes the recorded trace, as of the folder that it is run in.
STRACE = f"""#!{sys.executable}
import os, sys
if "--version" in sys.argv:
    print("strace -- version 6.1")
elif os.path.exists("forbidden"):
    sys.exit("strace: ptrace(PTRACE_TRACEME, ...): Operation not permitted")
else:
    digits = lambda path: "".join(f"\\\\x{{byte:02x}}" for byte in path)
    with open({str(RECORDED / "deliverer.strace")!r}, encoding="latin1") as trace:
        text = trace.read().replace(digits(b"/srv/mail"), digits(os.getcwdb()))
    if os.path.exists("idle"):
        text = "".join(line for line in text.splitlines(keepends=True) if "exited" in line or "execve" in line)
    if os.path.exists("fails"):
        text = text.replace("exited with 0", "exited with 3")
    with open(sys.argv[sys.argv.index("-o") + 1], "w", encoding="latin1") as out:
        out.write(text)
"""
# In place of deolmutt: the definitions of the law, evaluated.
JUDGE = f"""#!{sys.executable}
import json, sys
sys.dont_write_bytecode = True
sys.path.insert(0, {str(TOOLS)!r})
from law_lib.logs import findings
log = sys.stdin.buffer.read()
found = findings(log)
for number, clause in found:
    words = log.split(b"\\n")[number - 1].decode().split(" ")
    print(json.dumps(dict(line=number, clause=clause, actor=words[1], call=" ".join(words[2:]), why="it does", before=None)))
sys.exit(1 if found else 0)
"""


class Faked(RoomTest):
    """A deliverer that flushes after its rename, traced and judged by stand-ins."""

    def setUp(self):
        super().setUp()
        self.program("bin/strace", STRACE)
        self.program("bin/judge", JUDGE)
        self.make_maildir("box")

    def run_tool(self, tool, *words, **more):
        environment = {**os.environ, "PATH": f"{self.room}/bin", "DEOLMUTT": f"{self.room}/bin/judge", "GITHUB_ACTIONS": "false", **more}
        words = [sys.executable, TOOLS / tool, "--actor", "d", *words, "--", "deliverer", "box"]
        return subprocess.run(words, cwd=self.room, env=environment, capture_output=True, text=True, check=False)

    def check(self, *words, **more):
        return self.run_tool("check-run", "--claims", "delivered box", *words, **more)


class TraceAlone(Faked):
    """What tools/trace says on standard error, which no log can say."""

    def test_a_status_other_than_0(self):
        run = self.run_tool("trace", "--claims", "delivered box", "-o", "log")
        self.assertEqual((run.returncode, run.stderr), (0, ""))
        (self.room / "fails").touch()
        run = self.run_tool("trace", "--claims", "delivered box", "-o", "log")
        self.assertEqual((run.returncode, run.stderr), (0, "trace: d ended with status 3\n"))
        self.assertIn(b" d answer failed box ", (self.room / "log").read_bytes())

    def test_claims_that_nobody_made(self):
        run = self.run_tool("trace", "--claims", "nosuch.1: delivered box", "-o", "log")
        self.assertEqual(run.returncode, 1)
        self.assertEqual(run.stderr, "trace: nobody is nosuch.1, of whom something is claimed: the actors were d\n")
        self.assertIn(b"# nobody is nosuch.1, of whom something is claimed", (self.room / "log").read_bytes())

    def test_claims_of_a_folder_that_is_none(self):
        run = self.run_tool("trace", "--claims", "delivered bax", "-o", "log")
        self.assertEqual((run.returncode, run.stderr), (2, "trace: --claims delivered: no judged folder is bax: they are box\n"))

    def test_a_command_that_does_nothing(self):
        (self.room / "idle").touch()
        run = self.run_tool("trace", "-o", "log")
        self.assertEqual((run.returncode, run.stderr.splitlines()[0]), (0, "trace: the command called nothing in a judged maildir"))
        run = self.run_tool("check-run")
        self.assertEqual((run.returncode, run.stderr.splitlines()[0]), (2, "check-run: the command called nothing in a judged maildir"))
        run = self.check()
        self.assertEqual(run.returncode, 1, "it delivered nothing")
        self.assertIn("AnsweredFalsely", run.stdout)
        (self.room / "fails").touch()
        self.assertEqual(self.check("--status", "3").returncode, 0, "it refused the message, as was expected")


class Deliverer(Faked):
    def test_its_bug_is_found(self):
        run = self.check()
        self.assertEqual(run.returncode, 1, run.stderr)
        first, last = run.stdout.splitlines()
        self.assertRegex(first, r"^check-run.log:\d+: d: rename box/tmp/\S+ box/new/\S+ ok: NotFlushed: it does$")
        self.assertEqual(last, "1 findings, 0 known; the log is in check-run.log")
        self.assertIn(b" d answer delivered box ", (self.room / "check-run.log").read_bytes())

    def test_known_findings(self):
        known_findings = self.room / "known"
        known_findings.write_text("# of old\n\nNotFlushed d rename box/tmp/* box/new/* ok\nGone d *\n")
        run = self.check("--known", "known")
        self.assertEqual(run.returncode, 0, run.stderr)
        self.assertEqual(run.stdout.splitlines()[1:], ["known, and not found: Gone d *", "0 findings, 1 known; the log is in check-run.log"])
        known_findings.write_text("Nothing d *\n")
        self.assertEqual(self.check("--known", "known").stderr, "check-run: known: line 1: Nothing is no clause\n")

    def test_a_status_that_nobody_expected_is_no_good_run(self):
        (self.room / "fails").touch()
        (self.room / "known").write_text("NotFlushed d *\nAnsweredFalsely d *\n")
        run = self.check("--known", "known")
        self.assertEqual(run.returncode, 2)
        self.assertIn("check-run: d ended with status 3, which nobody expected (--status)\n", run.stderr)
        self.assertEqual(self.check("--known", "known", "--status", "3").returncode, 0)

    def test_what_can_not_be_run(self):
        (self.room / "forbidden").touch()
        run = self.check()
        self.assertEqual((run.returncode, run.stderr), (2, "strace: ptrace(PTRACE_TRACEME, ...): Operation not permitted\n"
                                                        "check-run: strace ran nothing: what it said is above\n"))
        (self.room / "bin/strace").unlink()
        self.assertIn("strace is not installed", self.check().stderr)

    def test_claims_of_nobody(self):
        run = self.check("--claims", "x: done box u")
        self.assertIn("nobody is x, of whom something is claimed: the actors were d", run.stderr)
        (self.room / "known").write_text("NotFlushed d *\n")
        self.assertEqual(self.check("--claims", "x: done box u", "--known", "known").returncode, 2)
        run = self.check("--claims", "delivered bax")
        self.assertEqual((run.returncode, run.stderr), (2, "check-run: --claims delivered: no judged folder is bax: they are box\n"))

    def test_forms_of_others(self):
        run = self.check("--json", "--junit", "j.xml", "--sarif", "s.json", "--allow", "Gone")
        told = json.loads(run.stdout)
        check_schema(told, "check-run")
        self.assertEqual((told["status"], told["not_judged"], told["findings"][0]["clause"]), (1, ["Gone"], "NotFlushed"))
        suite = xml.parse(self.room / "j.xml").getroot()
        self.assertEqual((suite.get("failures"), suite.get("skipped"), len(suite)), ("1", "1", len(SENTENCES) + 1))
        result, = json.loads((self.room / "s.json").read_text())["runs"][0]["results"]
        self.assertEqual((result["ruleId"], result["locations"][0]["physicalLocation"]["artifactLocation"]["uri"]), ("NotFlushed", "check-run.log"))

    def test_github(self):
        annotation = self.check(GITHUB_ACTIONS="true").stdout.splitlines()[-1]
        self.assertRegex(annotation, r"^::error file=check-run.log,line=\d+,title=NotFlushed::d: rename ")


class Reports(RoomTest):
    TOLD = Told(7, "Gone", "a", "unlink box/cur/\x01% ok", "it\ngoes", 4)
    CHECKED = Checked("log", {"a": 0}, [TOLD], [], [], ["a\nb"], False, [])

    def test_bytes_that_a_form_can_not_have(self):
        self.assertEqual(reports.github(self.CHECKED)[0],
                         "::error file=log,line=7,title=Gone::a: unlink box/cur/\x01%25 ok: Gone: it%0Agoes (see line 4)")
        suite = xml.fromstring(reports.junit(self.CHECKED))
        self.assertEqual(suite[0][0].get("message"), "a\nb")
        self.assertIn("box/cur/?%", next(case for case in suite if case.get("name") == "Gone")[0].get("message"))

    def test_a_run_that_is_no_whole_one_is_never_good(self):
        self.assertEqual([self.CHECKED.status(), self.CHECKED._replace(new=[]).status(), self.CHECKED._replace(new=[], wrong=[]).status()], [1, 2, 0])

    def test_a_star_is_any_text_and_all_else_itself(self):
        path = self.room / "known"
        path.write_text("Gone a unlink box/cur/* ok\nGone a unlink box.cur/*\n")
        new, old, unmet = known.split([self.TOLD], known.read_known(str(path)))
        self.assertEqual((new, old, unmet), ([], [self.TOLD], ["Gone a unlink box.cur/*"]))
        with self.assertRaises((Refused, OSError)):
            known.read_known("/nowhere")
