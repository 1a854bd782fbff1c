"""The command line of `tools/check-run`."""

from __future__ import annotations

import argparse
import json
import os
import sys
import tempfile
from typing import List, Optional, Sequence

from . import reports
from .called import called
from .judge_run import SENTENCES, judge_file, deolmutt
from .known import read_known, split
from .refused import Refused
from .reports import Checked
from .statuses import check_ran, read_expected, shown, unexpected
from .trace_run import IDLE, Traced, add_options, run, warnings

_ABOUT = """\
Traces a command, has deolmutt judge what it did in maildirs, and ends
with the judge's status: one line for a test of a mail program. The words in
front of -- are those of tools/trace.
"""

_MORE = """\
A file of known findings has lines `CLAUSE ACTOR CALL`, where a star stands
for any text: `Gone mbsync rename far/cur/* far/cur/* ok`. They are printed,
and change no status.

examples:
  tools/check-run --claims 'delivered box' -- sh -c 'mdeliver box < mail'
  tools/check-run --known known-findings --junit check-run.xml -- make check

status:
  0    nothing is found that is not known
  1    something is
  2    refused, or no whole run: the command ended with a status that nobody
       expected, or was ended, or something is claimed of an actor that
       nobody is
"""


def _options() -> argparse.ArgumentParser:
    form = argparse.RawDescriptionHelpFormatter
    parser = argparse.ArgumentParser(prog=called("check-run"), description=_ABOUT, epilog=_MORE, formatter_class=form)
    add_options(parser)
    parser.add_argument("--status", action="append", default=[], metavar="[ACTOR:] N..",
                        help="with what the command, or an actor, may end; without it, with 0 alone")
    parser.add_argument("--allow", action="append", default=[], choices=SENTENCES, metavar="CLAUSE", help="does not judge this clause")
    parser.add_argument("--known", metavar="FILE", help="a file of known findings")
    parser.add_argument("--json", action="store_true", help="prints an object of JSON, as tools/schemas/check-run.json says")
    parser.add_argument("--junit", metavar="FILE", help="writes JUnit's XML")
    parser.add_argument("--sarif", metavar="FILE", help="writes SARIF 2.1.0")
    parser.add_argument("-o", dest="log", default="check-run.log", metavar="LOG", help="where the log is kept (check-run.log)")
    parser.add_argument("command", nargs=argparse.REMAINDER, metavar="-- COMMAND")
    return parser


def main(words: Optional[Sequence[str]] = None) -> int:
    """Checks the run that the words ask for, and answers the status."""
    options = _options().parse_args(words)
    try:
        deolmutt()
        known = read_known(options.known) if options.known else []
        with tempfile.TemporaryDirectory(prefix="check-run-") as room:
            traced = run(options, room, sys.stderr.buffer)
            with open(options.log, "wb") as file:
                traced.write(file)
        checked = _checked(options, traced, *split(judge_file(options.log, options.allow), known))
        _write(options, checked)
    except (Refused, OSError) as error:
        print(f"check-run: {error}", file=sys.stderr)
        return 2
    except KeyboardInterrupt:
        return 130
    for text in warnings(traced._replace(wrong=checked.wrong), bool(options.claims)):
        print(f"check-run: {text}", file=sys.stderr)
    _show(options, checked)
    return checked.status()


def _checked(options: argparse.Namespace, traced: Traced, new: List[reports.Told], old: List[reports.Told], unmet: List[str]) -> Checked:
    expected = read_expected(options.status)
    wrong = [f"nobody is {actor}, for whom --status says something" for actor in expected if actor is not None and actor not in traced.statuses]
    command = {actor: status for actor, status in traced.statuses.items() if actor == traced.command or actor in expected}
    check_ran(command, {})
    wrong += [IDLE] * traced.is_idle()
    wrong += [f"{actor} ended with {shown(command[actor])}, which nobody expected (--status)" for actor in unexpected(command, expected)]
    return Checked(options.log, traced.statuses, new, old, unmet, traced.wrong + wrong, bool(options.claims), options.allow)


def _write(options: argparse.Namespace, checked: Checked) -> None:
    for path, words in ((options.junit, reports.junit), (options.sarif, lambda each: json.dumps(reports.sarif(each), indent=1) + "\n")):
        if path is not None:
            with open(path, "w", encoding="utf-8") as file:
                file.write(words(checked))


def _show(options: argparse.Namespace, checked: Checked) -> None:
    if options.json:
        print(json.dumps(reports.as_json(checked)))
        return
    is_on_github = os.environ.get("GITHUB_ACTIONS") == "true"
    for line in [*reports.text(checked), *(reports.github(checked) if is_on_github else [])]:
        print(line)
