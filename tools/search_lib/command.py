"""The command line of `tools/search-law`."""

from __future__ import annotations

import argparse
import sys
import time
from collections.abc import Mapping, Sequence
from pathlib import Path
from typing import Any, Optional

from law_lib.monitor import OWED

from . import exhaustive, random_runs
from .promises import TWO_PATHS
from .scenes import SCENES
from .stories import Rules

_ABOUT = """\
Searches for a story in which a job of ours breaks what docs/LAW.md promises,
beside others that do what they owe: in every story of small scenes, or with
--random in stories at random. The jobs step as their machines do. Others
take any step that changes something, if it breaks no clause that they keep.
Each step is held to the clauses that it breaks, and to the mailbox before and
after it; each answer to what was so.
"""

_MORE = f"""\
scenes: {" ".join(SCENES)}

With --without CLAUSE others need not keep this clause, or not the premise
FreshNames. Of all that is found the smallest story is printed, as a log for
`deolmutt judge` with what is wrong as comments.

status:
  0    nothing was found
  1    a job breaks what is promised
  2    refused: wrong words, or the log can't be written
"""


def main(words: Optional[Sequence[str]] = None) -> int:
    """Searches as the words say, and answers the status."""
    parser = _options()
    options = parser.parse_args(words)
    if not set(options.scenes) <= set(() if options.random else SCENES):
        parser.error("--random has no scenes" if options.random else "no such scene")
    rules = Rules(options.rely == "owed", frozenset([options.without] if options.without else []))
    found = _at_random(options, rules) if options.random else _in_scenes(options, rules)
    if not found:
        return 0
    wrong, log = min(found.items(), key=lambda each: (each[0] == TWO_PATHS, len(each[1].splitlines()), each))
    log = log.replace(b"maildir_log 1\n", b"maildir_log 1\n# %s: %s\n" % (_beside(options).encode(), wrong.encode()))
    print(log.decode(), end="")
    if options.log is not None:
        try:
            options.log.write_bytes(log)
        except OSError as error:
            print(f"search-law: {error}", file=sys.stderr)
            return 2
    return 1


def _options() -> argparse.ArgumentParser:
    form = argparse.RawDescriptionHelpFormatter
    parser = argparse.ArgumentParser(prog="tools/search-law", description=_ABOUT, epilog=_MORE, formatter_class=form)
    number: dict[str, Any] = {"type": int, "metavar": "N"}
    parser.add_argument("scenes", nargs="*", metavar="SCENE", help="these scenes, in place of all")
    parser.add_argument("--foreign", default=3, help="in a scene, at most so many steps of another (3)", **number)
    parser.add_argument("--faults", default=0, help="in a scene, at most so many calls of ours that fail (0)", **number)
    parser.add_argument("--random", action="store_true", help="random stories, in place of scenes")
    parser.add_argument("--seed", default=1, help="of the random stories (1)", **number)
    parser.add_argument("--jobs", default=6, help="in a random story, at most so many jobs (6)", **number)
    parser.add_argument("--seconds", type=float, default=600, metavar="N", help="ends after so many seconds (600)")
    parser.add_argument("--clocks-apart", default=0, help="our clocks differ from the directories' by so many seconds (0)", **number)
    parser.add_argument("--rely", choices=("owed", "calls"), default="owed",
                        help="others keep all ten clauses (owed), or those without which nothing is promised to the calls of the story")
    parser.add_argument("--without", choices=(*OWED, "FreshNames"), metavar="CLAUSE", help="others need not keep this clause")
    parser.add_argument("--log", type=Path, metavar="FILE", help="writes the smallest story found to a file too")
    return parser


def _beside(options: argparse.Namespace) -> str:
    kept = "what they owe" if options.rely == "owed" else "what its calls rely on"
    return f"beside others that keep {kept}" + (f", but for {options.without}" if options.without else "")


def _in_scenes(options: argparse.Namespace, rules: Rules) -> dict[str, bytes]:
    bounds = exhaustive.Bounds(options.foreign, options.faults, options.clocks_apart, time.monotonic() + options.seconds)
    found, states, foreign = dict[str, bytes](), 0, 0
    for name in options.scenes or SCENES:
        searched = exhaustive.search(SCENES[name], bounds, rules, to_first=options.without is not None)
        states, foreign = states + searched.states, foreign + searched.foreign
        stopped = "" if searched.is_whole or searched.found else ", not all"
        print(f"{name}: {_seen(searched.states, searched.foreign)}{stopped}: {_found(searched.found)}", flush=True)
        found = _shorter(found, searched.found)
    print(f"in all {_seen(states, foreign)}, {_beside(options)}: {_found(found)}")
    return found


def _at_random(options: argparse.Namespace, rules: Rules) -> dict[str, bytes]:
    bounds = random_runs.Bounds(options.seconds, options.seed, options.jobs, options.clocks_apart)
    ran = random_runs.search(bounds, rules, to_first=options.without is not None)
    runs = f"{_count(ran.counted['runs'], 'run')}, of which the definitions read {ran.counted['read']:,} too"
    steps = f"{_count(ran.counted['own'], 'step')} of jobs and {ran.counted['foreign']:,} of others"
    print(f"{runs}, {steps}, {_beside(options)}: {_found(ran.found)}")
    print("answers: " + ", ".join(f"{word} {number:,}" for word, number in sorted(ran.counted.items()) if " " in word))
    return ran.found


def _shorter(found: dict[str, bytes], more: Mapping[str, bytes]) -> dict[str, bytes]:
    """Of each thing that is wrong the shorter log."""
    shorter = {wrong: log for wrong, log in more.items() if wrong not in found or len(log.splitlines()) < len(found[wrong].splitlines())}
    return {**found, **shorter}


def _found(found: Mapping[str, bytes]) -> str:
    return "; ".join(found) or "nothing"


def _seen(states: int, foreign: int) -> str:
    return f"{_count(states, 'state')}, {_count(foreign, 'step')} of others"


def _count(number: int, word: str) -> str:
    return f"{number:,} {word}{'' if number == 1 else 's'}"
