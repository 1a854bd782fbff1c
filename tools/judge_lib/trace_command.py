"""The command line of `tools/trace`."""

from __future__ import annotations

import argparse
import sys
import tempfile
from typing import Optional, Sequence

from .called import called
from .refused import Refused
from .trace_run import Traced, add_options, run, warnings

_ABOUT = """\
Runs a command under strace, and writes the log of its directory calls in
maildirs for `deolmutt judge`, which says what in it breaks the law of a maildir.
docs/JUDGE.md has the log's language. What it can't say is a comment in the
log: `# not said: ..`.
"""

_MORE = """\
claims: what status 0 of the command means; any other status means that it
failed. Without them the clauses GaveUp and AnsweredFalsely are not judged.
  delivered FOLDER [UNIQUE]      without UNIQUE, whatever message it added
  flags FOLDER UNIQUE CHANGE..   CHANGE is +LETTERS, -LETTERS or =LETTERS
  moved TO FOLDER UNIQUE         expunged FOLDER UNIQUE
  done FOLDER UNIQUE             success, whatever was done
With --by-process, --actor NAME=COMMAND and the like a claim begins with its
actor: `mflag.1: flags box u +F`. That actor speaks for all that it starts.

examples:
  tools/trace mlist box | deolmutt judge
  tools/trace --claims 'flags box u +F' -o log mflag -F box/cur/u:2,S
  tools/trace --claims 'delivered box' -o log sh -c 'mdeliver box < m'
  tools/trace --actor in='mdeliver box < m' --actor out='minc box' -o log
  tools/trace --folder /srv/mail/box -p 4711 --seconds 60 -o log

status:
  0    the log is written, however the command ended
  1    it is written, but the command was ended, or the trace was cut, or
       something is claimed of an actor that nobody is
  2    refused: wrong words, no strace, no maildir, no place to write
"""


def _options() -> argparse.ArgumentParser:
    form = argparse.RawDescriptionHelpFormatter
    parser = argparse.ArgumentParser(prog=called("trace"), description=_ABOUT, epilog=_MORE, formatter_class=form)
    add_options(parser)
    parser.add_argument("-o", dest="log", metavar="LOG",
                        help="where the log goes; without it, to standard output, and what the command prints to standard error")
    parser.add_argument("command", nargs=argparse.REMAINDER, metavar="COMMAND")
    return parser


def main(words: Optional[Sequence[str]] = None) -> int:
    """Runs the command that the words name, and answers the status."""
    options = _options().parse_args(words)
    try:
        with tempfile.TemporaryDirectory(prefix="trace-") as room:
            traced = run(options, room, sys.stderr.buffer if options.log is None else None)
            _write(traced, options.log)
    except (Refused, OSError) as error:
        print(f"trace: {error}", file=sys.stderr)
        return 2
    except KeyboardInterrupt:
        return 130
    for text in warnings(traced, bool(options.claims)):
        print(f"trace: {text}", file=sys.stderr)
    return 1 if traced.wrong else 0


def _write(traced: Traced, path: Optional[str]) -> None:
    if path is None:
        traced.write(sys.stdout.buffer)
        sys.stdout.buffer.flush()
        return
    with open(path, "wb") as file:
        traced.write(file)
