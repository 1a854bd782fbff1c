"""Reads and writes that are interrupted, partial or fail amid a stream, a million reads, and memory that is refused: by `faults.c`, which is
loaded before the program."""

from __future__ import annotations

import errno
import os
import subprocess
import tempfile
from collections.abc import Iterator, Sequence
from pathlib import Path
from typing import NamedTuple

from .large import MEBIBYTE, MOST_SECONDS, refused
from .rows import NOT_ENDED, Ended

_SOURCE = Path(__file__).with_name("faults.c")

MOST_READS = MEBIBYTE
# The last read finds the end.
_ENDED_READS = MOST_READS - 1
_TOO_MANY, _TOO_LONG = refused(0, b"too many reads"), refused(0, b"script too long")
_UNREAD, _UNWRITTEN = refused(0, b"read fault"), refused(0, b"write fault")
NO_MEMORY = refused(0, b"no memory")

# A line that prints, and a second one that is refused.
_LINE, _PRINTED = b"unique 1 2 3 4 a", b"unique 1.M2P3Q4.a\n"

_DELIVERY = b"folder i\r\njob deliver i u 4\n# \xff\nfinish 1 1\nlist i"
_DELIVERED = b"job 1\n1 create ok\n1 link ok\n1 unlink ok\n1 answer delivered\nnew u - 0\n"

# Seven lines for a run, its threads' report, and its index.
_SETUP = b"folder i\nfolder j\nfile i new u:2,S 7 a b\\n\n# none\njob clean i\njob flag j v SF - 3\nfile j cur v 9 Subject: c"
_REPORT = b"1 answer cleaned 0\n2 answer flags FS\nfolder i\nnew u S 4\nfolder j\ncur v FS 10\n"
_FILES = b"folder i\nfolder j\nfile i new u:2,S 7 a b\\n\n# none\n\n#\nfile j cur v 9 Subject: c"
_INDEX = b"i u\nend\nj v\nsubject=c\nend\n"
_TWICE = b"folder i\nfile i new u 0\n\n#\n\nfile i new u 0\nfolder j"

# Scripts of which each allocation is refused in turn: a delivery in pieces, and names that are made.
_IN_PIECES = b"folder inbox\njob deliver inbox 1000.M1P7Q1.a 4 hello\\n\nfinish 1 1000\nlist inbox\n"
_NAMES = b"folder i\nfile i cur u 0\nunique 1000 5 7 1 a/b\njob flag i u SF - 1\nfinish 1 1\nlist i\n"
_REFUSED_MEMORY = {
    _IN_PIECES: b"job 1\n1 create ok\n1 append 4 ok\n1 append 2 ok\n1 link ok\n1 unlink ok\n1 answer delivered\nnew 1000.M1P7Q1.a - 6\n",
    _NAMES: b"unique 1000.M5P7Q1.a\\057b\njob 1\n1 list cur ok\n1 rename ok\n1 answer flags FS\ncur u FS 0\n",
}


class Fault(NamedTuple):
    """Words and an input, what is wrong with the streams, by the variables of `faults.c`, and what the program comes to."""

    words: str
    input: bytes
    wrong: dict[str, int]
    wanted: Ended


def faults() -> Iterator[Fault]:
    """Each run but those whose memory is refused."""
    yield from _read_faults()
    yield from _write_faults()
    yield from _many_reads()
    yield from _setups()


def _well(printed: bytes) -> Ended:
    return Ended(0, printed, b"")


def _read_faults() -> Iterator[Fault]:
    """Nothing is written where a read fails, and an interrupted one is tried again, up to the limit."""
    for good in range(3):
        yield Fault("play", b"#" * good, {"READ_AT_ONCE": 1, "READ_FAULT": errno.EPIPE}, _UNREAD)
    for good in range(len(_DELIVERY) + 1):
        yield Fault("play", _DELIVERY[:good], {"READ_AT_ONCE": 7, "READ_FAULT": errno.ECONNRESET}, _UNREAD)
    again = _LINE + b"\r\nunique 1 2 3 5 a"
    yield Fault("play", again, {"READ_AT_ONCE": 1, "READ_SIGNALS": 1}, _well(_PRINTED + b"unique 1.M2P3Q5.a\n"))
    yield Fault("play", b"#", {"READ_AT_ONCE": 1, "READ_FAULT": errno.EINTR}, _TOO_MANY)
    for fault, wanted in ((errno.EPIPE, _UNREAD), (errno.EINTR, _TOO_MANY)):
        for size in range(1, 5):
            yield Fault("play", _LINE + b"\nx\ny", {"READ_AT_ONCE": size, "READ_FAULT": fault}, wanted)


def _write_faults() -> Iterator[Fault]:
    """A write fault comes before a refused line, at whichever byte it is, and what takes a part is given the rest."""
    for script in (_LINE, _LINE + b"\nx"):
        for good in range(len(_PRINTED)):
            # What is printed may be a front of the text: nothing is known of it.
            yield Fault("play", script, {"WRITE_AT_ONCE": 1, "WRITE_GOOD": good}, _UNWRITTEN._replace(printed=_PRINTED[:good]))
    yield Fault("play", _DELIVERY, {"WRITE_AT_ONCE": 0}, _UNWRITTEN)
    # Where nothing is printed, nothing is asked of it.
    yield Fault("play", b"folder i", {"WRITE_AT_ONCE": 0}, _well(b""))
    yield Fault("play", _DELIVERY, {"WRITE_AT_ONCE": 1}, _well(_DELIVERED))
    # The kit's standard output gives up where a text is interrupted more than 64 times.
    yield Fault("play", _DELIVERY, {"WRITE_AT_ONCE": 2, "WRITE_SIGNALS": 1}, _well(_DELIVERED))
    yield Fault("play", _LINE, {"WRITE_AT_ONCE": 1, "WRITE_SIGNALS": 1}, _well(_PRINTED))


def _many_reads() -> Iterator[Fault]:
    """The limits on reads, and on the bytes of a script that doesn't end."""
    lines = _LINE + b"\nx\n"
    in_bytes = {"READ_AT_ONCE": 1}
    yield Fault("play", b"\n" * _ENDED_READS, in_bytes, _well(b""))
    yield Fault("play", b"\n" * MOST_READS, in_bytes, _TOO_MANY)
    yield Fault("play", lines.ljust(_ENDED_READS, b"#"), in_bytes, refused(2, b"bad command", _PRINTED))
    yield Fault("play", lines.ljust(MOST_READS, b"#"), in_bytes, _TOO_MANY)
    for size, wanted in ((1, _TOO_MANY), (64, _TOO_MANY), (65, _TOO_LONG), (4_096, _TOO_LONG)):
        yield Fault("play", b"", {"READ_AT_ONCE": size, "READ_ENDLESS": ord("a")}, wanted)


def _setups() -> Iterator[Fault]:
    """What threads and an index take in, in pieces of each size; and a read fault comes before a line that sets nothing up."""
    for script in (_SETUP, _SETUP + b"\n"):
        for size in range(1, len(_SETUP) + 1):
            yield Fault("threads 1", script, {"READ_AT_ONCE": size}, _well(_REPORT))
    for size in range(1, len(_FILES) + 1):
        yield Fault("index 1", _FILES, {"READ_AT_ONCE": size}, _well(_INDEX))
        yield Fault("index 1", _TWICE, {"READ_AT_ONCE": size}, refused(7, b"same path twice"))
    for size in range(1, 24):
        unset = b"folder i\nlist\nfolder j"
        yield Fault("threads 1", unset, {"READ_AT_ONCE": size}, refused(2, b"not in this run"))
        yield Fault("threads 1", unset, {"READ_AT_ONCE": size, "READ_FAULT": errno.EPIPE}, _UNREAD)


def wrong_faults(command: Sequence[str]) -> Iterator[str]:
    """The runs that do not come to what they should."""
    with tempfile.TemporaryDirectory() as folder:
        library = built(folder)
        for fault in faults():
            ended, _ = run_with(library, command, fault)
            if ended != fault.wanted:
                yield f"{fault.words} over {fault.input[:99]!r} with {fault.wrong}: {ended}, and not {fault.wanted}"
        for script, printed in _REFUSED_MEMORY.items():
            for rest in ({}, {"REFUSED_REST": 1}):
                yield from wrong_memory(library, command, Fault("play", script, rest, _well(printed)))


def wrong_memory(library: str, command: Sequence[str], fault: Fault) -> Iterator[str]:
    """The allocations that a run may not be refused, from the first on up to the last: it ends as with ample memory or with NO_MEMORY."""
    number, was_refused = 0, True
    while was_refused:
        number += 1
        ended, was_refused = run_with(library, command, fault._replace(wrong={**fault.wrong, "REFUSED": number}))
        if ended != fault.wanted and not (was_refused and ended == NO_MEMORY):
            yield f"{fault.words} over {fault.input!r} without allocation {number}, {fault.wrong}: {ended}"
    if number < 10:
        yield f"{fault.words} over {fault.input!r}: {number - 1} allocations alone"


def built(folder: str) -> str:
    """The library that is loaded before a program."""
    library = Path(folder) / "faults.so"
    compiler = [os.environ.get("CC", "gcc"), "-std=c99", "-O2", "-Wall", "-Wextra", "-Werror"]
    subprocess.run([*compiler, "-fPIC", "-shared", "-o", library, _SOURCE], check=True)
    return str(library)


def run_with(library: str, command: Sequence[str], fault: Fault) -> tuple[Ended, bool]:
    """A run with a fault, and whether an allocation was refused."""
    reader, writer = os.pipe()
    told = {f"FACE_{name}": str(number) for name, number in fault.wrong.items()}
    environment = {**os.environ, "LD_PRELOAD": library, "FACE_REFUSED_TELLS": str(writer), **told}
    try:
        done = subprocess.run([*command, *fault.words.split()], input=fault.input, capture_output=True, env=environment, pass_fds=[writer],
                              timeout=MOST_SECONDS, check=False)
        ended = Ended(done.returncode, done.stdout, done.stderr)
    except subprocess.TimeoutExpired:
        ended = NOT_ENDED
    finally:
        os.close(writer)
    with os.fdopen(reader, "rb") as tells:
        return ended, tells.read() != b""
