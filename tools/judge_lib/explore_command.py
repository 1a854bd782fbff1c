"""The command line of `tools/explore`."""

from __future__ import annotations

import argparse
import json
import sys
from typing import List, Optional, Sequence

from . import explored_table, trials_table
from .called import called
from .claims import read_claims
from .ending import end_by_signals
from .explored_table import all_unexpected
from .exploring import STOPS, Bounds, Explored, Pairing, explore, explore_one
from .judge_run import SENTENCES, deolmutt
from .keeping import Keeper
from .making import UNCLAIMED
from .names import escaped
from .progress import tell
from .refused import Refused
from .schedules import prefix_of
from .statuses import Expected, read_expected
from .stopping import SIDES
from .tracing import strace
from .trials import Tried, fail, kill

_ABOUT = """\
Runs two or three commands in every interleaving of their directory calls in
maildirs, and has deolmutt judge each run. A, B and C are commands of
sh, each one word. Each run begins in an empty directory of its own, with what
SETUP makes there. Each process is stopped after each of its directory calls
(strace does it), and of a reading of a directory after each name, so the
calls come in the order that is tried, and overlap nowhere. With --kill or
--fail one command alone is killed after each of its calls, writes and flushes
too, or each of its calls fails in turn.
"""

_MORE = """\
It prints a table: the interleavings, how many of them break the law, with
which statuses the commands end, and each clause with the order of calls of
the first, as in AAB. DIR/CLAUSE/ORDER.log is the log of each that breaks one.
With --kill and --fail it says what mail is left after each call, whether
messages that the whole run keeps are lost or cut short, and whether a second
run leaves one twice.

examples:
  tools/explore --setup 'mkdir -p box/tmp box/new box/cur; echo > box/cur/u:2,S' \\
    --claims 'A: flags box u +F' --claims 'B: flags box u +R' \\
    'mflag -F box/cur/u:2,S' 'mflag -R box/cur/u:2,S'

status:
  0    no interleaving that was tried breaks the law
  1    one does, or a command ends with a status that nobody expected, or calls
       nothing in a maildir; or mail is lost or cut short, or a call failed and
       the status is 0 all the same
  2    refused: wrong words, no strace, no judge, a command that does not run
       (status 126 or 127) or does not end
"""

def _options() -> argparse.ArgumentParser:
    form = argparse.RawDescriptionHelpFormatter
    parser = argparse.ArgumentParser(prog=called("explore"), description=_ABOUT, epilog=_MORE, formatter_class=form)
    parser.add_argument("--setup", default="", metavar="CMD", help="what makes the maildirs, a command of sh")
    parser.add_argument("--folder", action="append", default=[], metavar="DIR", help="a maildir to judge, as in tools/trace")
    parser.add_argument("--claims", action="append", default=[], metavar="WORDS",
                        help="what status 0 claims, as in tools/trace, after A: or B:")
    parser.add_argument("--status", action="append", default=[], metavar="[A:] N..",
                        help="with what a command may end; without it, with 0 alone")
    parser.add_argument("--allow", action="append", default=[], choices=SENTENCES, metavar="CLAUSE", help="does not judge this clause")
    parser.add_argument("--stop-at", choices=STOPS, default="looks",
                        help="after which calls a process stops: those on names and readings, or stat and access too (looks)")
    parser.add_argument("--kill", action="store_true", help="kills the one command after each of its calls, and runs it again")
    parser.add_argument("--fail", metavar="ERROR", help="has each call of the one command fail in turn, as with EIO")
    parser.add_argument("--order", metavar="ABAB", help="plays this order alone")
    parser.add_argument("--runs", type=int, default=1000, metavar="N", help="at most so many runs (1000)")
    parser.add_argument("--seconds", type=float, default=300, metavar="N", help="no new run after so many seconds (300)")
    parser.add_argument("--json", action="store_true", help="prints an object of JSON in place of the table")
    parser.add_argument("--keep", metavar="DIR", help="keeps the log, the output and the statuses of each order in DIR/ORDER")
    parser.add_argument("-o", dest="logs", default="explore.logs", metavar="DIR",
                        help="where the logs that break the law go, by clause (explore.logs)")
    parser.add_argument("commands", nargs="+", metavar="COMMAND", help="two or three commands of sh, each in one word; one with --kill and --fail")
    return parser


def main(words: Optional[Sequence[str]] = None) -> int:
    """Explores what the words say, and answers the status."""
    options = _options().parse_args(words)
    end_by_signals()
    try:
        strace()
        deolmutt()
        expected = read_expected(options.status)
        pairing, keeper = _pairing(options, expected), Keeper(options.logs, options.keep)
        bounds = Bounds(options.runs, options.seconds)
        if options.kill:
            return _show_trials(kill(pairing, bounds, tell, keeper.keep), options)
        if options.fail:
            return _show_trials(fail(pairing, options.fail, bounds, tell, keeper.keep), options)
        return _show(_explored(options, pairing, bounds, keeper), expected, options)
    except (Refused, OSError) as error:
        print(f"explore: {error}", file=sys.stderr)
        return 2
    except KeyboardInterrupt:
        return 130
    finally:
        tell("")


def _pairing(options: argparse.Namespace, expected: Expected) -> Pairing:
    claims, sides = read_claims(options.claims), SIDES[:len(options.commands)]
    is_alone = bool(options.kill or options.fail)
    if len(options.commands) not in ((1,) if is_alone else (2, 3)) or options.kill and options.fail:
        raise Refused("two or three commands; one with --kill or with --fail")
    if not set(claims) <= set(sides):
        raise Refused("a claim begins with A: or B:")
    if not set(expected) <= {None, *sides} or not set(options.order or "") <= set(sides):
        raise Refused(f"--status and --order: the commands are {' '.join(sides)}")
    return Pairing(options.setup, options.commands, claims, tuple(options.folder), STOPS[options.stop_at], tuple(options.allow))


def _explored(options: argparse.Namespace, pairing: Pairing, bounds: Bounds, keeper: Keeper) -> Explored:
    if options.order is None:
        return explore(pairing, bounds, tell, keeper.keep)
    explored = explore_one(pairing, prefix_of(options.order), keeper.keep)
    if options.order not in explored.orders:
        raise Refused(f"the calls came as {next(iter(explored.orders))}, and not as {options.order}")
    return explored


def _show(explored: Explored, expected: Expected, options: argparse.Namespace) -> int:
    tell("")
    if options.json:
        print(json.dumps(explored_table.as_json(explored, expected)))
    else:
        for line in _lines(explored, expected, options):
            print(line)
    return 1 if explored.broken or all_unexpected(explored, expected) or explored.without_call() else 0


def _lines(explored: Explored, expected: Expected, options: argparse.Namespace) -> List[str]:
    lines = explored_table.table(explored, expected)
    if not options.claims:
        lines.append(f"not judged without --claims: {' '.join(UNCLAIMED)}")
    if explored.broken:
        lines.append(f"the logs are in {escaped(options.logs.encode()).decode()}")
    return lines


def _show_trials(tried: Tried, options: argparse.Namespace) -> int:
    tell("")
    print(json.dumps(trials_table.as_json(tried)) if options.json else "\n".join(trials_table.table(tried)))
    return 1 if trials_table.is_faulty(tried) else 0
