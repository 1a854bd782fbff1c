"""The command line of `tools/scenes`."""

from __future__ import annotations

import argparse
import contextlib
import os
import subprocess
import sys
import tempfile
import threading
from concurrent.futures import ThreadPoolExecutor
from typing import Iterator, List, Optional, Sequence

from .ending import end_by_signals
from .exploring import Bounds
from .judge_run import BUILT, deolmutt
from .grades import GRADES
from .outcomes import chosen, markdown, repeated, text
from .progress import tell
from .refused import Refused
from .results import Results
from .scene import OWN, Scene, read_scenes, version_of
from .staging import Outcome, stage
from .tracing import strace

_ABOUT = """\
Runs scenes of real mail programs, of Debian's packages, and says what
`deolmutt judge` finds in each. Each scene is a file of tools/scenes.d, and runs
in an empty directory of its own; the home of all is another. A program that
isn't installed is named, and its scenes are left out. Of `deolmutt`, which has
to be named, each command is explored beside itself and beside others: the
built one, or DEOLMUTT's.
"""

# Scenes at work side by side end after their next run once this is set.
_STOPPED = threading.Event()

_MORE = """\
status:
  0    all scenes that were asked for were run, or left out as not installed
  1    a scene could not be run, or none of them was
  2    refused: wrong words, no strace, no judge
"""


def _options() -> argparse.ArgumentParser:
    form = argparse.RawDescriptionHelpFormatter
    parser = argparse.ArgumentParser(prog="tools/scenes", description=_ABOUT, epilog=_MORE, formatter_class=form)
    parser.add_argument("--markdown", action="store_true", help="prints the table of the page docs/JUDGED.md")
    parser.add_argument("--list", action="store_true", help="names the scenes, and runs nothing")
    parser.add_argument("--print", action="store_true", help="prints the commands that repeat each scene, and runs nothing")
    parser.add_argument("--install", action="store_true", help="prints the command that installs the packages which are lacking")
    parser.add_argument("--install-now", action="store_true", help="runs that command, as root")
    parser.add_argument("--logs", metavar="DIR", help="keeps what each scene showed, and its log, in DIR")
    parser.add_argument("--resume", action="store_true", help="takes from --logs what a scene has shown there, with the same packages")
    parser.add_argument("--runs", type=int, default=1000, metavar="N", help="at most so many runs of two commands (1000)")
    parser.add_argument("--seconds", type=float, default=120, metavar="N", help="at most so many seconds for two commands (120)")
    parser.add_argument("--least", choices=GRADES, metavar="GRADE",
                        help="shows what was found of this grade or a worse one: "
                             + ", ".join(f"{grade} ({says})" for grade, says in GRADES.items()))
    parser.add_argument("--jobs", type=int, default=1, metavar="N", help="so many scenes side by side (1)")
    parser.add_argument("names", nargs="*", metavar="SCENE", help="which scenes; without any, all")
    return parser


def main(words: Optional[Sequence[str]] = None) -> int:
    """Does what the words say, and answers the status."""
    options = _options().parse_args(words)
    end_by_signals()
    os.environ["PATH"] = os.path.dirname(os.environ.get("DEOLMUTT", BUILT)) + ":" + os.environ["PATH"]
    try:
        scenes = read_scenes(options.names)
        if options.list or options.print:
            for scene in scenes:
                print("\n".join(repeated(scene)) if options.print else f"{scene.name:<26} {scene.program} {scene.about}")
            return 0
        if options.install or options.install_now:
            return _install(scenes, options.install_now)
        if options.resume and options.logs is None:
            raise Refused("--resume goes on with what --logs DIR has")
        strace()
        deolmutt()
        with _own_home():
            return _run(scenes, options)
    except (Refused, OSError) as error:
        print(f"scenes: {error}", file=sys.stderr)
        return 2
    except KeyboardInterrupt:
        return 130
    finally:
        _STOPPED.clear()


@contextlib.contextmanager
def _own_home() -> Iterator[None]:
    """Gives all programs a home of their own, so that they read and write nothing in the user's."""
    former = os.environ.get("HOME")
    with tempfile.TemporaryDirectory(prefix="scenes-home-") as home:
        os.environ["HOME"] = home
        try:
            yield
        finally:
            del os.environ["HOME"]
            if former is not None:
                os.environ["HOME"] = former


def _install(scenes: List[Scene], is_now: bool) -> int:
    lacking = list(dict.fromkeys(package for scene in scenes for package in scene.lacks() if package not in OWN))
    words = ["apt-get", "install", "--yes", "--no-install-recommends", *lacking]
    if not lacking:
        print("all packages are installed")
        return 0
    print(" ".join(words), flush=True)
    return subprocess.run(words, check=False).returncode if is_now else 0


def _run(scenes: List[Scene], options: argparse.Namespace) -> int:
    outcomes, bounds, results = [], Bounds(options.runs, options.seconds), Results(options.logs)
    there = [scene for scene in scenes if options.resume and results.former(scene) or _is_there(scene)]
    with ThreadPoolExecutor(options.jobs) as pool:
        side_by_side = map if options.jobs == 1 else pool.map
        try:
            for outcome in side_by_side(lambda scene: options.resume and results.former(scene) or _staged(scene, bounds, results), there):
                if outcome is not None:
                    outcomes.append(outcome)
                    shown = _shown(outcome, options)
                    _tell("")
                    if shown and not options.markdown:
                        print("\n".join(text(shown[0])), flush=True)
        except KeyboardInterrupt:
            _STOPPED.set()
            raise
    if options.markdown:
        print("\n".join(markdown([shown for outcome in outcomes for shown in _shown(outcome, options)])))
    if not there:
        _say("no scene was run")
    return 1 if len(outcomes) < len(there) or not there else 0


def _shown(outcome: Outcome, options: argparse.Namespace) -> List[Outcome]:
    """What is shown of an outcome: where only some grades are, nothing of one that has none of them."""
    if options.least is None:
        return [outcome]
    graded = chosen(outcome, options.least)
    return [graded] if graded.found else []


def _is_there(scene: Scene) -> bool:
    lacking = scene.lacks()
    if lacking:
        _say(f"{scene.name}: left out: not installed: {' '.join(lacking)}")
    return not lacking


def _staged(scene: Scene, bounds: Bounds, results: Results) -> Optional[Outcome]:
    try:
        outcome = stage(scene, version_of(scene.package) or "", bounds, _tell)
        results.keep(outcome)
        return outcome
    except Refused as error:
        _say(str(error))
        return None


def _tell(words: str) -> None:
    if _STOPPED.is_set() and threading.current_thread() is not threading.main_thread():
        raise Refused("stopped before the end of a scene")
    tell(words)


def _say(words: str) -> None:
    _tell("")
    print(f"scenes: {words}", file=sys.stderr, flush=True)
