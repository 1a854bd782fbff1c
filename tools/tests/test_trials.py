"""Tests of tools/explore --kill and --fail: what is said of the mail that a run left."""

import json
import unittest

from judge_support import beginning, check_schema, opened, quoted, trace

from judge_lib.exploring import Order
from judge_lib.mail_left import Beside
from judge_lib.making import Log, Making
from judge_lib.names import Path
from judge_lib.processes import Actors, Processes
from judge_lib.trials import Trial, Tried, _calls, _failed, _failed_too, _Faultable, _Run
from judge_lib.trials_table import as_json, is_faulty, table

NEW, CUR, TMP = (Path(b"box", place, b"v") for place in ("new", "cur", "tmp"))
OLD = Path(b"box", "cur", b"u:2,S")
BODY, LONG = b"hello", b"hello, world"


class Left(unittest.TestCase):
    """A delivery of LONG as v, beside the message u of BODY."""

    DELIVERY = Beside({OLD: BODY}, {OLD: BODY, NEW: LONG})

    def test_nothing_wrong(self):
        for left in [{OLD: BODY}, {OLD: BODY, TMP: b""}, {OLD: BODY, NEW: LONG}, {Path(b"box", "cur", b"u:2,FS"): BODY},
                     {Path(b"other", "cur", b"w:2,"): BODY}]:
            self.assertEqual((self.DELIVERY.lost(left), self.DELIVERY.cut(left), self.DELIVERY.doubled(left)), ([], [], []), left)

    def test_lost(self):
        self.assertEqual(self.DELIVERY.lost({NEW: LONG}), ["box/cur/u:2,S (5 bytes)"])
        self.assertEqual(self.DELIVERY.lost({Path(b"box", "tmp", b"u"): BODY}), ["box/cur/u:2,S (5 bytes)"])

    def test_what_the_whole_run_takes_away_is_not_lost(self):
        expunge = Beside({OLD: BODY}, {})
        self.assertEqual((expunge.lost({}), expunge.is_whole({})), ([], True))

    def test_lost_where_name_and_bytes_change(self):
        renaming = Beside({OLD: BODY}, {NEW: LONG})
        self.assertEqual((renaming.lost({}), renaming.lost({NEW: LONG})), (["1 messages fewer"], []))

    def test_cut(self):
        self.assertEqual(self.DELIVERY.cut({OLD: BODY, NEW: LONG[:7]}), ["box/new/v (7 bytes)"])
        self.assertEqual(self.DELIVERY.cut({OLD: b""}), ["box/cur/u:2,S (0 bytes)"])
        self.assertEqual(self.DELIVERY.cut({OLD: BODY, NEW: LONG.upper()}), [], "as long, with another date in it")

    def test_doubled(self):
        twice = {OLD: BODY, NEW: LONG, Path(b"box", "new", b"w"): LONG}
        self.assertEqual(self.DELIVERY.doubled(twice), ["box/new/v (12 bytes)", "box/new/w (12 bytes)"])
        self.assertFalse(self.DELIVERY.is_whole(twice))

    def test_changes(self):
        self.assertEqual(self.DELIVERY.changes({TMP: BODY}), ["has box/tmp/v (5 bytes)", "lacks box/cur/u:2,S (5 bytes)"])


class Calls(unittest.TestCase):
    def test_calls_are_counted_as_strace_counts_them(self):
        """By name and process, those outside of maildirs too."""
        made = f"openat(AT_FDCWD, {quoted('box/tmp/v')}, O_WRONLY|O_CREAT|O_EXCL, 0600) = {opened(3, '/srv/mail/box/tmp/v')}"
        lines = trace(f"1 openat(AT_FDCWD, {quoted('/etc/x')}, O_RDONLY) = -1 EIO (Input/output error) (INJECTED)", f"1 {made}", f"2 {made}")
        making = Making(beginning([]), Processes(Actors("one", "a"), b"/srv/mail"), {}, [])
        self.assertEqual([tuple(call) for call in _calls(lines, making, b"/srv/mail")], [
            ("openat", 1, "openat ../../etc/x EIO", False, True), ("openat", 2, "openat box/tmp/v ok", True, False),
            ("openat", 1, "openat box/tmp/v ok", True, False)])


class Failing(unittest.TestCase):
    def failed(self, *others):
        calls = [_Faultable("write", 1, "write box/tmp/v ENOSPC", True, True), *others]
        run = _Run({OLD: BODY}, {OLD: BODY, NEW: b""}, Log([], [], {"A": 0}), calls)
        return _failed("write.1 ENOSPC", "write box/tmp/v ok", Left.DELIVERY, run, Order({"A": 0}, []), _failed_too(run))

    def test_status_0_after_a_failed_call_is_silent(self):
        self.assertEqual(self.failed(), ("write.1 ENOSPC", "write box/tmp/v ok",
                                         ["ends with status 0", "cut: box/new/v (0 bytes)", "has box/new/v (0 bytes)"], ["mail cut", "silent"]))

    def test_nothing_follows_where_another_process_was_hit_too(self):
        trial = self.failed(_Faultable("write", 1, "write pipe:[1] ENOSPC", False, True))
        self.assertEqual((trial.said[1], trial.kinds), ("write pipe:[1] ENOSPC failed too", ["not alone"]))
        self.assertEqual(self.failed(_Faultable("openat", 3, "openat ../dev/null EIO", False, True)).kinds, ["mail cut", "silent"])


class Table(unittest.TestCase):
    TRIED = Tried([Trial("after call 1", "unlink box/cur/u ok", ["lost: box/cur/u (5 bytes)"], ["mail lost"]),
                   Trial("after call 2", "link box/tmp/v box/new/v ok", ["a retry doubles: x"], ["doubled"])], True, {})

    def test_lines(self):
        self.assertEqual(table(self.TRIED), [
            "calls           2", "breaks the law  0", "mail lost       1, first after call 1", "mail cut        0", "silent          0",
            "doubled         1, first after call 2, a retry leaves a message twice", "not alone       0",
            "after call 1, unlink box/cur/u ok: lost: box/cur/u (5 bytes)", "after call 2, link box/tmp/v box/new/v ok: a retry doubles: x"])

    def test_what_is_a_fault(self):
        self.assertTrue(is_faulty(self.TRIED))
        self.assertFalse(is_faulty(Tried(self.TRIED.trials[1:], True, {})), "a retry that doubles is told, and no fault")

    def test_json_is_as_its_schema_says(self):
        check_schema(json.loads(json.dumps(as_json(self.TRIED))), "trials")
