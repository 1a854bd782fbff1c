"""The command line of `tools/maildir`."""

from __future__ import annotations

import argparse
import io
import os
import sys
from contextlib import suppress
from enum import IntEnum
from typing import Any, Optional, Sequence

from .descriptors import keep_standard_closed
from .export_target import Stopped, Totals
from .export_tree import Export
from .import_tree import Import, Written
from .interrupts import Interrupted, Interrupts
from .language import Limits
from .outputs import IntoDirectory, Nowhere, Output, ToFile, ToStream
from .progress import Progress
from .refused import Refused
from .report import Report
from .words import read_words

_AFTER_SIGNAL = 128
_STANDARD_OUTPUT = 1


class Status(IntEnum):
    """How a run ended. One that a signal ended has 128 and the signal's number instead."""

    WHOLE = 0
    LEFT_OUT = 1
    REFUSED = 2


def main(words: Optional[Sequence[str]] = None, limits: Limits = Limits()) -> int:
    """Runs the command that the words name, and answers its status. Tests give smaller limits."""
    keep_standard_closed()
    stream = sys.stderr or io.StringIO()
    report = Report(stream, Progress(stream))
    # Standard error may be what failed, and then nothing can be said.
    with suppress(OSError):
        try:
            options = read_words(words)
            run = _import if options.command == "import" else _export
            with Interrupts() as interrupts:
                return run(options, limits, report, interrupts)
        except Interrupted as error:
            report.say(str(error))
            return _AFTER_SIGNAL + error.number
        except KeyboardInterrupt:
            report.say("interrupted")
            return _AFTER_SIGNAL + 2
        except MemoryError:
            report.say("out of memory")
        except (Refused, OSError) as error:
            report.say(str(error))
    return Status.REFUSED


def _import(options: argparse.Namespace, limits: Limits, report: Report, interrupts: Interrupts) -> int:
    output = _output(options, interrupts)
    output.check()
    if options.dry_run:
        output = Nowhere()
    run = Import(output, report, interrupts, not options.headers, limits)
    written = run.run(os.fsencode(options.tree))
    _sum_up(options.dry_run, _import_total(written), report)
    if options.dry_run and written.scripts > 1 and not options.into:
        raise Refused("several scripts need a directory: --into DIR")
    return Status.WHOLE if report.is_whole() else Status.LEFT_OUT


def _output(options: argparse.Namespace, interrupts: Interrupts) -> Output[Any]:
    if options.into is not None:
        return IntoDirectory(os.fsencode(options.into))
    if options.file is not None:
        return ToFile(os.fsencode(options.file))
    return ToStream(_STANDARD_OUTPUT, interrupts)


def _export(options: argparse.Namespace, limits: Limits, report: Report, interrupts: Interrupts) -> int:
    run = Export(report, interrupts, options.dry_run, limits)
    is_stopped = False
    try:
        run.run([os.fsencode(script) for script in options.scripts], os.fsencode(options.tree))
    except Stopped as error:
        is_stopped = True
        report.say(f"stopped: {error}; {_counted(run.left, 'line')} not reached")
    finally:
        if run.totals is not None:
            _sum_up(options.dry_run, _export_total(run.totals), report)
    return Status.WHOLE if report.is_whole() and not is_stopped else Status.LEFT_OUT


def _sum_up(is_dry: bool, total: str, report: Report) -> None:
    """Says what was written, on standard error; or what would be, on standard output."""
    if is_dry:
        report.progress.clear()
        lines = [f"would write {total}", *report.totals(), ""]
        os.write(_STANDARD_OUTPUT, "\n".join(lines).encode())
        return
    for line in [f"wrote {total}", *report.totals()]:
        report.say(line)


def _import_total(written: Written) -> str:
    scripts = f"{_counted(written.scripts, 'script')} of {_counted(written.script_bytes, 'byte')}"
    return f"{_counted(written.folders, 'folder')} and {_counted(written.files, 'file')} in {scripts}"


def _export_total(totals: Totals) -> str:
    folders = f"{_counted(len(totals.folders), 'folder')}, {len(totals.new_folders):,} of them new"
    return f"{_counted(totals.files, 'file')} of {_counted(totals.body_bytes, 'byte')} to {folders}"


def _counted(count: int, noun: str) -> str:
    return f"{count:,} {noun}" + ("" if count == 1 else "s")
