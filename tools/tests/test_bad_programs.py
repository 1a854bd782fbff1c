"""Tests of tools/trace and tools/explore over programs that do what they should not. They need strace, and are left out where it can't trace."""

import os
import shutil
import signal
import subprocess
import sys
import time
import unittest

from shared import TOOLS, RoomTest

from judge_lib.tracing import tracer_of

# Each may take so long on a busy machine, and would take for ever.
SECONDS = 120

CHILDREN = "import os, time\nfor _ in range(200):\n  if not os.fork():\n    time.sleep(1000)\nopen('box/tmp/u', 'w').close()\ntime.sleep(1000)"
DEAF = ("import ctypes, os, signal, time\n"
        "for number in range(1, 32):\n"
        "  if number not in (9, 19): signal.signal(number, signal.SIG_IGN)\n"
        "ctypes.CDLL(None).prctl(15, b'other) name', 0, 0, 0)\n"
        "os.setsid() if os.fork() == 0 else None\n"
        "os.closerange(0, 1024)\n"
        "os.close(os.open('box/tmp/u', os.O_CREAT | os.O_WRONLY))\n"
        "time.sleep(1000)")


def can_trace():
    """Whether strace is here, and may trace."""
    strace = shutil.which("strace")
    return strace is not None and subprocess.run([strace, "-o", "/dev/null", "true"], capture_output=True, check=False).returncode == 0


@unittest.skipUnless(can_trace(), "strace can't trace here")
class BadPrograms(RoomTest):
    def setUp(self):
        super().setUp()
        self.make_maildir("box")

    def run_tool(self, tool, *words):
        begun = time.monotonic()
        environment = {**os.environ, "DEOLMUTT": shutil.which("true")}
        run = subprocess.run([sys.executable, TOOLS / tool, *words], cwd=self.room, capture_output=True, text=True, env=environment,
                             timeout=2 * SECONDS, check=False)
        self.assertLess(time.monotonic() - begun, SECONDS)
        return run

    def left(self):
        """The processes that are still at work in the folder, or below it."""
        there = []
        for name in filter(str.isdigit, os.listdir("/proc")):
            try:
                if os.readlink(f"/proc/{name}/cwd").startswith(str(self.room)):
                    there.append(name)
            except OSError:
                pass
        return there

    def test_children_that_stay_and_one_that_hears_no_signal(self):
        for program in (CHILDREN, DEAF):
            run = self.run_tool("trace", "--seconds", "10", "-o", "log", sys.executable, "-c", program)
            self.assertEqual(run.returncode, 1, run.stderr)
            self.assertIn("trace: ended after 10 seconds\n", run.stderr)
            self.assertIn(b" create box/tmp/u ok\n", (self.room / "log").read_bytes())
            self.assertEqual(self.left(), [])
            (self.room / "box/tmp/u").unlink()

    def test_a_command_that_does_not_end_is_no_order(self):
        run = self.run_tool("explore", "--order", "A", "--setup", "mkdir -p box/tmp box/new box/cur", "touch box/tmp/u; exec sleep 1000", "true")
        self.assertEqual(run.returncode, 2)
        self.assertIn("explore: the commands did not end, after the calls A", run.stderr)

    def test_a_command_that_never_ran_or_did_nothing_is_no_good_run(self):
        setup = ["--setup", "mkdir -p box/tmp box/new box/cur"]
        run = self.run_tool("explore", *setup, "--claims", "A: delivered box", "nosuchcommand box", "true")
        self.assertEqual((run.returncode, run.stdout), (2, ""))
        self.assertRegex(run.stderr, "^explore: A did not run: status 127: .*nosuchcommand")
        run = self.run_tool("explore", *setup, "ls box/new; exit 3", "ls box/new")
        self.assertEqual(run.returncode, 1, run.stderr)
        self.assertIn(": nobody expected that of A (--status)\n", run.stdout)
        run = self.run_tool("explore", *setup, "ls box/new", "true")
        self.assertEqual(run.returncode, 1, run.stderr)
        self.assertIn("no call         B: never called in a maildir\n", run.stdout)

    def test_a_file_gets_no_longer_than_its_limit(self):
        writes = "head -c 200000000 /dev/zero > box/tmp/u"
        run = self.run_tool("explore", "--keep", "kept", "--status", "A: 0 1 2 153", "--stop-at", "names", "--setup",
                            "mkdir -p box/tmp box/new box/cur", f"{writes}; stat -c %s box/tmp/u", "ls box/new")
        self.assertEqual(run.returncode, 0, run.stderr + run.stdout)
        said = next((self.room / "kept").glob("A*/A.out")).read_text()
        self.assertIn(str(64 << 20), said)

    def test_a_folder_that_is_no_maildir(self):
        (self.room / "other").mkdir()
        run = self.run_tool("trace", "--folder", "other", "true")
        self.assertEqual((run.returncode, run.stderr), (2, "trace: other: is no maildir: it lacks tmp, new or cur\n"))
        run = self.run_tool("trace", "--folder", "none", "true")
        self.assertRegex(run.stderr, "trace: .*/none: is no maildir, and the command made none there\n")

    def test_a_tool_that_is_ended_leaves_nothing(self):
        """Its commands are stopped at a call, or sleep."""
        environment = {**os.environ, "DEOLMUTT": shutil.which("true"), "TMPDIR": str(self.room)}
        words = [sys.executable, TOOLS / "explore", "--setup", "mkdir -p box/tmp box/new box/cur", "touch box/tmp/u; exec sleep 1000", "ls box/new"]
        with subprocess.Popen(words, cwd=self.room, env=environment, start_new_session=True) as tool:
            self.wait_for(lambda: list(self.room.glob("explore-*/*/box/tmp/u")))
            tool.terminate()
            self.assertEqual(tool.wait(SECONDS), 130)
        self.wait_for(lambda: not self.left())
        self.assertEqual(list(self.room.glob("explore-*")), [])

    def wait_for(self, is_so):
        until = time.monotonic() + SECONDS
        while not is_so():
            self.assertLess(time.monotonic(), until)
            time.sleep(0.05)

    def test_a_process_that_runs(self):
        """The trace begins and ends while it goes on."""
        waits = "until [ -e go ]; do sleep 0.1; done; touch box/tmp/u; exec sleep 1000"
        words = [sys.executable, TOOLS / "trace", "-o", "log", "-p"]
        with subprocess.Popen(["sh", "-c", waits], cwd=self.room) as server:
            try:
                with subprocess.Popen([*words, str(server.pid)], cwd=self.room, stderr=subprocess.DEVNULL) as tool:
                    self.wait_for(lambda: tracer_of(server.pid))
                    time.sleep(1)
                    (self.room / "go").touch()
                    self.wait_for((self.room / "box/tmp/u").exists)
                    time.sleep(1)
                    tool.send_signal(signal.SIGINT)
                    self.assertEqual(tool.wait(SECONDS), 0)
                self.assertIn(b" sh create box/tmp/u ok\n", (self.room / "log").read_bytes())
                self.assertIsNone(server.poll(), "it goes on")
            finally:
                server.kill()
        self.assertIn("there is no process 4194305", self.run_tool("trace", "-p", "4194305").stderr)
