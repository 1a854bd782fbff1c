"""The export: scripts of folder and file lines as a maildir tree."""

from __future__ import annotations

from concurrent.futures import ThreadPoolExecutor
from contextlib import ExitStack, closing, suppress
from dataclasses import dataclass
from typing import Optional

from .export_target import Stopped, Target, Totals
from .interrupts import Interrupts
from .language import Limits
from .refused import Refused
from .report import Report
from .script_lines import FileLine
from .scripts import Script

# Flushes wait for the disk, not for the processor.
_FLUSHERS = 16


@dataclass
class Export:
    """One run: first all scripts are checked, then their files are written one after another."""

    report: Report
    interrupts: Interrupts
    is_dry: bool = False
    limits: Limits = Limits()
    # What was written, once the scripts are checked.
    totals: Optional[Totals] = None
    # How many lines are still to be written.
    left: int = 0

    def run(self, paths: list[bytes], tree: bytes) -> None:
        """Writes what the scripts say. All of them are checked before anything is written.

        Where it can't go on after that, it is Stopped and no longer Refused.
        """
        with ExitStack() as stack:
            scripts = [stack.enter_context(closing(Script(path, self.limits, self.interrupts))) for path in paths]
            total = sum(self._count_lines(script) for script in scripts)
            flushers = stack.enter_context(ThreadPoolExecutor(_FLUSHERS))
            target = stack.enter_context(closing(Target(tree, self.report, flushers, self.is_dry)))
            self.totals, self.left = target.totals, total
            try:
                self._write(scripts, target)
            except MemoryError as error:
                raise Stopped("out of memory") from error
            except (Refused, OSError) as error:
                raise Stopped(str(error)) from error
            except Stopped:
                # The files that are written already may still come to their places.
                with suppress(Stopped):
                    target.leave()
                raise

    def _count_lines(self, script: Script) -> int:
        count = 0
        for count, _ in enumerate(script.lines(), 1):
            self.interrupts.check()
        return count

    def _write(self, scripts: list[Script], target: Target) -> None:
        total = self.left
        for script in scripts:
            for line in script.lines():
                self.interrupts.check()
                self.left -= 1
                if isinstance(line, FileLine):
                    target.take_file(line)
                else:
                    target.take_folder(line.steps)
                self.report.progress.show("wrote", total - self.left, total)
            target.leave()
