"""Inputs that are too long for a row, at the limits and one past them, and inputs that come in pieces."""

from __future__ import annotations

import socket
import subprocess
import threading
from collections.abc import Iterator, Sequence
from typing import NamedTuple

from .rows import MOST_SECONDS, Ended, Row, rows_in_file, run

MEBIBYTE = 1_048_576
MOST_BODY = 16 * MEBIBYTE
MOST_SCRIPT = 64 * MEBIBYTE
MOST_JOBS = 10_000
MOST_FOLDERS = 64
MOST_FOLDER_NAME = 100

# The second word that names are hashed by where none is drawn, as it lies in memory.
_FIXED_WORD = bytes.fromhex("157c4a7fb979379e")
# So many names that collide take minutes, and so many others less than a second.
_COLLIDING = 300_000

# A line that prints, and one that is refused.
_REFUSED = b"unique 1 2 3 4 a\nx\n"
_NAME = b"unique 1.M2P3Q4.a\n"

# A delivery that is written in pieces, linked, and listed.
_DELIVERY = b"folder inbox\njob deliver inbox 1000.M1P7Q1.a 4 hello\\n\nfinish 1 1000\nlist inbox\n"
_DELIVERED = (b"job 1\n1 create ok\n1 append 4 ok\n1 append 2 ok\n1 link ok\n1 unlink ok\n1 answer delivered\n"
              b"new 1000.M1P7Q1.a - 6\n")

# Over and over the same 23 letters, so that bytes that are moved to a wrong place show.
_LETTERS = bytes(ord("a") + place % 23 for place in range(200_000))
_LONG_LINES = b"folder i\nfile i new u 0 " + _LETTERS + b"\r\nfile i new v 0 " + _LETTERS + b"\nread v\nread u\nlist i"
_LONG_LINES_PRINT = b"bytes=" + _LETTERS + b"\nbytes=" + _LETTERS + b"\nnew u - 200000\nnew v - 200000\n"
_LONG_PIECES = (1, 5_000, 65_536)

# How many messages are indexed, by how many workers.
_INDEXED = ((0, 1), (0, 64), (1, 64), (100, 1), (100, 2), (100, 7))

# Scripts that are played in pieces, and how many bytes come at once; the last is more than a script there has.
_PIECES_ROWS = "crates/maildir_cli/rows/pieces.rows"
_PIECES = (*range(1, 21), 1_000)


class Case(NamedTuple):
    """An input, by what it is, and what `play` comes to over it."""

    what: str
    input: bytes
    wanted: Ended


def _folders(count: int) -> bytes:
    return b"".join(b"folder f%d\n" % number for number in range(count))


def _jobs(count: int) -> bytes:
    return b"folder i\n" + b"".join(b"job deliver i u%d 1\n" % number for number in range(count))


def _numbers(count: int) -> bytes:
    return b"".join(b"job %d\n" % number for number in range(1, count + 1))


def _messages(count: int) -> bytes:
    """Messages of which no two are alike. Each has a second subject behind its header."""
    line = b"file i new %d.host 0 Subject: letter %d\\r\\n\\r\\nSubject: none\\r\\n\n"
    return b"folder i\n" + b"".join(line % (number, number) for number in range(count))


def _index(count: int) -> bytes:
    """Their index, in order of unique name."""
    return b"".join(sorted(b"i %d.host\nsubject=letter %d\nend\n" % (number, number) for number in range(count)))


def _colliding_names() -> list[bytes]:
    """Names that collide by that word: it makes the factor beside the first eight bytes 0, so that these have no part in a hash."""
    return [b"%08d%s.M1P1.host" % (number, _FIXED_WORD) for number in range(_COLLIDING)]


def _colliding_cases() -> Iterator[tuple[list[str], bytes, bytes]]:
    """The words of each run, its script, and what it prints. A store of two folders looks its used names up by their hashes too."""
    names = _colliding_names()
    files = b"folder i\nfolder j\nfile j cur u 0 x\n" + b"".join(b"file i cur %s 0 x\n" % name for name in names)
    listing = b"".join(b"cur %s - 1\n" % name for name in names)
    yield ["play"], files + b"list i\n", listing
    yield ["threads", "1"], files, b"folder i\n" + listing + b"folder j\ncur u - 1\n"
    yield ["index", "1"], files, b"".join(b"i %s\nend\n" % name for name in names) + b"j u\nend\n"


def refused(line: int, text: bytes, printed: bytes = b"") -> Ended:
    return Ended(1, printed, b"line %d: %s\n" % (line, text))


def cases() -> Iterator[Case]:
    """Each limit, and what is one past it."""
    well = Ended(0, b"", b"")
    yield Case("a body of 16 MiB", b"folder i\njob deliver i u 16777216 " + b"x" * MOST_BODY, Ended(0, b"job 1\n", b""))
    yield Case("a body of one byte more", b"folder i\njob deliver i u 16777216 " + b"x" * (MOST_BODY + 1), refused(2, b"body too long"))
    yield Case("10,000 jobs", _jobs(MOST_JOBS), Ended(0, _numbers(MOST_JOBS), b""))
    yield Case("10,001 jobs", _jobs(MOST_JOBS + 1), refused(MOST_JOBS + 2, b"too many jobs", _numbers(MOST_JOBS)))
    yield Case("64 folders", _folders(MOST_FOLDERS), well)
    yield Case("65 folders", _folders(MOST_FOLDERS + 1), refused(MOST_FOLDERS + 1, b"bad folder"))
    yield Case("a folder's name of 100 bytes", b"folder " + b"n" * MOST_FOLDER_NAME, well)
    yield Case("a folder's name of 101 bytes", b"folder " + b"n" * (MOST_FOLDER_NAME + 1), refused(1, b"bad folder"))
    yield Case("a script of 64 MiB", b"#" * MOST_SCRIPT, well)
    yield Case("a script of one byte more", b"#" * (MOST_SCRIPT + 1), refused(0, b"script too long"))
    yield Case("a refused line in a script of 64 MiB", _REFUSED.ljust(MOST_SCRIPT, b"#"), refused(2, b"bad command", _NAME))
    yield Case("a refused line in a script of one byte more", _REFUSED.ljust(MOST_SCRIPT + 1, b"#"), refused(0, b"script too long"))
    yield Case("a header line of 16 MiB", b"summary " + b"a" * MOST_BODY, Ended(0, b"end\n", b""))
    yield Case("a field after such a line", b"summary " + b"a" * MOST_BODY + b"\\nSubject: b", Ended(0, b"subject=b\nend\n", b""))
    yield Case("lines of 200,000 bytes", _LONG_LINES, Ended(0, _LONG_LINES_PRINT, b""))


def wrong_cases(command: Sequence[str]) -> Iterator[str]:
    """The long inputs, those that come in pieces or are cut short, and many messages, over which the program does not come to what it should."""
    for case in cases():
        ended = run(command, ["play"], case.input)
        if ended != case.wanted:
            yield f"play over {case.what}: {_brief(ended)}, and not {_brief(case.wanted)}"
    for count, workers in _INDEXED:
        ended = run(command, ["index", str(workers)], _messages(count))
        if ended != Ended(0, _index(count), b""):
            yield f"index {workers} over {count} messages: {_brief(ended)}"
    for words, script, printed in _colliding_cases():
        ended = run(command, words, script)
        if ended != Ended(0, printed, b""):
            yield f"{' '.join(words)} over names that were chosen to collide: {_brief(ended)}"
    for size in _LONG_PIECES:
        ended = run_in_pieces(command, _LONG_LINES, size)
        if ended != Ended(0, _LONG_LINES_PRINT, b""):
            yield f"play over long lines that come {size} bytes at a time: {_brief(ended)}"
    for row, size in pieces():
        ended = run_in_pieces(command, row.input, size)
        if not row.is_right(ended):
            yield f"play over {row.input!r}, {size} bytes at a time: {ended}, and not {row.example}"
    for length in range(len(_DELIVERY)):
        ended = run(command, ["play"], _DELIVERY[:length])
        if not is_front(ended, length):
            yield f"play over a delivery that is cut short at {length} bytes: {ended}"


def pieces() -> Iterator[tuple[Row, int]]:
    """Each script that comes in pieces, with each size."""
    for row in rows_in_file(_PIECES_ROWS):
        for size in _PIECES:
            yield row, size


def is_front(ended: Ended, length: int) -> bool:
    """Whether the front of a delivery prints the front of what it does, and is refused at its last line if at all."""
    lines = len(_DELIVERY[:length].splitlines())
    is_refused = ended.status == 1 and ended.said.startswith(b"line %d: " % lines)
    return _DELIVERED.startswith(ended.printed) and (is_refused or (ended.status, ended.said) == (0, b""))


def run_in_pieces(command: Sequence[str], given: bytes, size: int) -> Ended:
    """A run of `play` whose reads give at most so many bytes each: packets, of which a read gives one."""
    writer, reader = socket.socketpair(socket.AF_UNIX, socket.SOCK_SEQPACKET)
    sender = threading.Thread(target=_send, args=(writer, given, size))
    with reader:
        sender.start()
        done = subprocess.run([*command, "play"], stdin=reader, capture_output=True, timeout=MOST_SECONDS, check=False)
    sender.join()
    return Ended(done.returncode, done.stdout, done.stderr)


def _send(writer: socket.socket, given: bytes, size: int) -> None:
    with writer:
        try:
            for begin in range(0, len(given), size):
                writer.send(given[begin:begin + size])
        except (BrokenPipeError, ConnectionResetError):
            # The program reads no more, and what it came to says so.
            pass


def _brief(ended: Ended) -> str:
    return f"status {ended.status}, {len(ended.printed)} bytes printed, {ended.said[:80]!r}"
