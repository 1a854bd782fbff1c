"""A command that is killed after each of its calls, or of which each call fails in turn: what mail is left."""

from __future__ import annotations

import os
import time
from typing import Dict, Iterable, Iterator, List, NamedTuple, Optional, Tuple

from .arguments import read_descriptor, read_string, split
from .exploring import Bounds, Broken, Keep, Order, Pairing, Tell, ended, judged, rooms, started
from .folders import Folders, files_of
from .mail_left import Beside, Mail, mail_in
from .making import Beginning, Log, Making
from .processes import Actors, Processes
from .refused import Refused
from .schedules import Went
from .statuses import check_ran, shown
from .stopping import LIMITED, NAMES, Stepped
from .strace_lines import Call
from .tracing import Tracer, run_limited

# A command that is to be killed stops at writes and flushes too.
ALL_CALLS = f"{NAMES} write pwrite64 writev pwritev pwritev2 ftruncate sendfile copy_file_range splice fsync fdatasync sync ioctl"
_ALONE = "A"
_SECONDS_OF_A_RUN = 60
# strace counts the calls of each process from 1. The shell opens so many files first that no file it opens for a command has the number of
# one that the command opens.
_NOTHING = "/dev/null"
_OPENED_FIRST = "exec 2>&1; for n in {}; do true < {}; done; ".format(" ".join(["0"] * 50), _NOTHING)


class Trial(NamedTuple):
    """A run that was cut short, or in which a call failed: what is said of it, and of which kinds that is."""

    name: str
    call: str
    said: List[str]
    kinds: List[str]


class Tried(NamedTuple):
    """All trials."""

    trials: List[Trial]
    is_whole: bool
    broken: Dict[str, Broken]


# What may be wrong after a trial. That a retry doubles a message is told, and no fault: a sender that hears nothing has to try again.
FAULTS = ("breaks the law", "mail lost", "mail cut", "silent")
KINDS = (*FAULTS, "doubled", "not alone")


def kill(pairing: Pairing, bounds: Bounds, tell: Tell, keep: Keep) -> Tried:
    """Kills the command after each of its calls, and then runs it again."""
    pairing = pairing._replace(claims={}, stops=ALL_CALLS)
    begun, trials, broken, number = time.monotonic(), [], {}, 0
    whole = _run_whole(pairing)
    for number in range(1, min(len(whole.calls), bounds.runs) + 1):
        if time.monotonic() - begun > bounds.seconds:
            return Tried(trials, False, broken)
        trials.append(_killed(pairing, number, whole, broken, keep))
        tell(f"killed after {number} of {len(whole.calls)} calls")
    return Tried(trials, number == len(whole.calls), broken)


class _Whole(NamedTuple):
    beside: Beside
    calls: List[str]


def _run_whole(pairing: Pairing) -> _Whole:
    with rooms(pairing.setup) as (base, room):
        stepped, making = started(pairing, base, room)
        before, calls = mail_in(making.folders()), []
        try:
            while _goes_on(stepped):
                calls.append(_described(stepped.last[_ALONE], os.fsencode(os.path.realpath(base))))
        finally:
            stepped.close()
        _check_whole(ended(stepped, making))
        return _Whole(Beside(before, mail_in(making.folders())), calls)


def _check_whole(log: Log) -> None:
    if log.statuses.get(_ALONE) != 0:
        raise Refused(f"the command ended with {shown(log.statuses.get(_ALONE))} where nothing was done to it")


def _goes_on(stepped: Stepped) -> bool:
    went = stepped.go_on(_ALONE)
    if went is Went.WAITS:
        raise Refused("the command makes no call, and does not end")
    return went is Went.CALLED


def _killed(pairing: Pairing, number: int, whole: _Whole, broken: Dict[str, Broken], keep: Keep) -> Trial:
    with rooms(pairing.setup) as (base, room):
        stepped, making = started(pairing, base, room)
        try:
            for _ in range(number):
                if not _goes_on(stepped):
                    break
            stepped.kill()
        finally:
            stepped.close()
        log, left = making.log(), mail_in(making.folders())
        order = judged(pairing, _ALONE * number, log, broken)
        keep(_ALONE * number, log, order)
        status = run_limited(["sh", "-c", LIMITED + pairing.commands[0]], base)
        said, kinds = _of_mail(whole.beside, left, order)
        again, doubled = _of_retry(whole.beside, mail_in(making.folders()), status)
    return Trial(f"after call {number}", whole.calls[number - 1], said + again, kinds + doubled)


def _of_mail(beside: Beside, left: Mail, order: Order) -> Tuple[List[str], List[str]]:
    lost, cut = beside.lost(left), beside.cut(left)
    said = [f"breaks {clause}" for clause in order.clauses] + [f"lost: {each}" for each in lost] + [f"cut: {each}" for each in cut]
    kinds = ["breaks the law"] * bool(order.clauses) + ["mail lost"] * bool(lost) + ["mail cut"] * bool(cut)
    return said + beside.changes(left), kinds


def _of_retry(beside: Beside, left: Mail, status: Optional[int]) -> Tuple[List[str], List[str]]:
    doubled = beside.doubled(left)
    if doubled:
        return [f"a retry doubles: {', '.join(doubled)}"], ["doubled"]
    end = "" if status == 0 else f" with {shown(status)}"
    return [f"a retry ends{end} as a whole run" if beside.is_whole(left) else f"a retry{end} leaves less than a whole run"], []


def fail(pairing: Pairing, error: str, bounds: Bounds, tell: Tell, keep: Keep) -> Tried:
    """Has each call fail in turn, by strace."""
    begun, trials, broken = time.monotonic(), [], {}
    whole = _run_traced(pairing, [])
    beside = Beside(whole.before, whole.left)
    _check_whole(whole.log)
    calls = {(call.name, call.number): call for call in whole.calls}.values()
    for number, call in enumerate(calls, 1):
        if number > bounds.runs or time.monotonic() - begun > bounds.seconds:
            return Tried(trials, False, broken)
        run, name = _run_traced(pairing, [f"{call.name}:error={error}:when={call.number}"]), f"{call.name}.{call.number}"
        others = _failed_too(run)
        order = Order(run.log.statuses, []) if others else judged(pairing, name, run.log, broken)
        keep(name, run.log, order)
        trials.append(_failed(f"{name} {error}", call.said, beside, run, order, others))
        tell(f"failed {number} of {len(calls)} calls")
    return Tried(trials, True, broken)


class _Faultable(NamedTuple):
    """A call: which of this name it was in its process, whether it was made in a maildir, and whether it was made to fail."""

    name: str
    number: int
    said: str
    is_judged: bool
    is_made_to_fail: bool


class _Run(NamedTuple):
    before: Mail
    left: Mail
    log: Log
    calls: List[_Faultable]


def _failed_too(run: _Run) -> List[str]:
    """The other calls that failed: where several processes make a call of this number, each does. Then nothing follows for the command."""
    return [f"{each.said} failed too" for each in run.calls if each.is_made_to_fail and not each.is_judged and _NOTHING not in each.said]


def _failed(name: str, call: str, beside: Beside, run: _Run, order: Order, others: List[str]) -> Trial:
    said, kinds = _of_mail(beside, run.left, order)
    status = order.statuses.get(_ALONE)
    if status == 0 and not beside.is_whole(run.left):
        kinds.append("silent")
    return Trial(name, call, [f"ends with {shown(status)}", *others, *said], ["not alone"] if others else kinds)


def _run_traced(pairing: Pairing, faults: List[str]) -> _Run:
    """A run with faults."""
    with rooms(pairing.setup) as (base, room):
        real = os.fsencode(os.path.realpath(base))
        folders = pairing.judged_folders(real)
        making = Making(Beginning(Folders(folders), files_of(folders)), Processes(Actors("one", _ALONE), real), pairing.claims, faults)
        before, said = mail_in(folders), os.path.join(room, "said")
        with open(said, "w+b") as out:
            words = [b"sh", b"-c", os.fsencode(LIMITED + _OPENED_FIRST + pairing.commands[0])]
            tracer = Tracer(words, os.path.join(room, "trace"), real, out, faults, _SECONDS_OF_A_RUN)
            try:
                calls = list(_calls(tracer.lines(), making, real))
            finally:
                tracer.close()
            out.seek(0)
            log = making.log()._replace(said={_ALONE: out.read()})
        check_ran(log.statuses, log.said)
        return _Run(before, mail_in(folders), log, calls)


def _calls(lines: Iterable[str], making: Making, base: bytes) -> Iterator[_Faultable]:
    counts: Dict[Tuple[int, str], int] = {}
    for event, steps in making.feed(lines):
        if isinstance(event, Call):
            key = (event.pid, event.name)
            counts[key] = counts.get(key, 0) + 1
            is_judged = event.name in ALL_CALLS.split() and any(step.is_counted for step in steps)
            if is_judged or event.is_made_to_fail:
                yield _Faultable(event.name, counts[key], _described(event, base), is_judged, event.is_made_to_fail)


def _described(call: Call, base: bytes) -> str:
    """A call and the paths that it names."""
    words = []
    for word in split(call.arguments):
        path, descriptor = read_string(word), read_descriptor(word)
        path = path or (descriptor.path if descriptor and descriptor.number is not None else None)
        if path:
            words.append(os.fsdecode(os.path.relpath(path, base) if os.path.isabs(path) else path))
    return " ".join([call.name, *words, call.error or "ok"])
