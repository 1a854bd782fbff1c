"""Streams that fail, as a process alone has them: closed ones, a full disk, a folder to read, a reader that has gone, a connection that is reset."""

from __future__ import annotations

import os
import socket
import subprocess
from collections.abc import Callable, Iterator, Sequence
from typing import NamedTuple

from .rows import MOST_SECONDS, Ended, run

_SCRIPT = b"folder i\nfile i new u 0\nunique 1 2 3 4 a\nx"
_FILES = b"folder i\nfile i new u 0\n"
_NAME = b"unique 1.M2P3Q4.a\n"
# A log with one finding, at line 4: x leaves without T.
_LOG = b"maildir_log 1\nfolder i\nfile i/cur/x:2, 1\n2 a unlink i/cur/x:2, ok\n"
# One with so many findings that they are not written at once.
_LONG_LOG = b"maildir_log 1\nfolder i\n" + b"".join(b"2 a create i/new/%d ok\n" % number for number in range(20_000))
_WRONG_LOG = b"maildir_log 2\n"
_UNREAD, _UNREAD_LOG, _UNWRITTEN = b"line 0: read fault\n", b"line 1: read fault\n", b"line 0: write fault\n"


class Streams(NamedTuple):
    """Words and an input, where a shell sends the streams, and what the program comes to. Standard error is seen where it isn't sent elsewhere."""

    words: str
    input: bytes
    sent: str
    wanted: Ended


class Face(NamedTuple):
    """What a program does where its streams fail, and for a word that is no text."""

    streams: list[Streams]
    # Runs into a pipe whose reader has gone, and runs over a connection that is reset after the input.
    unread: list[Streams]
    reset: list[Streams]
    no_text: Ended


def _each(sent: str, wanted: Ended, runs: Sequence[tuple[str, bytes]]) -> list[Streams]:
    return [Streams(words, given, sent, wanted) for words, given in runs]


_CLI_RUNS = [("play", _SCRIPT), ("threads 2", b"folder i"), ("index 3", _FILES), ("--help", b"")]
_CLI_READS = [("play", _SCRIPT), ("threads 2", _SCRIPT), ("index 3", _SCRIPT)]
_JUDGE_RUNS = [(words, log) for words in ("judge", "judge --lines", "judge --json", "judge --summary") for log in (_LOG, _LONG_LOG)]
_JUDGE_READS = [("judge", _LOG), ("judge --lines", _LOG), ("judge /dev/stdin", _LOG)]
_LOG_RUNS = [("log", _FILES), ("log --states", _FILES)]
_SCRIPT_RUNS = [("play", _SCRIPT), ("threads 2", b"folder i"), ("index 3", _FILES), *_LOG_RUNS]
_SCRIPT_READS = [*_CLI_READS, *_LOG_RUNS[:1]]
_HELP_RUNS = [("--help", b""), ("--version", b""), ("help list", b""), ("judge --help", b"")]
_NO_MAILDIR = b"deolmutt: /none: no such maildir\n"

FACES: dict[str, Face] = {
    "maildir_cli": Face(
        streams=[
            *_each("</", Ended(1, b"", _UNREAD), _CLI_READS),
            *_each("<&-", Ended(1, b"", _UNREAD), _CLI_READS[:1]),
            *_each(">/dev/full", Ended(1, b"", _UNWRITTEN), _CLI_RUNS),
            *_each(">&-", Ended(1, b"", _UNWRITTEN), _CLI_RUNS[:1]),
            *(Streams(words, _SCRIPT, told, Ended(status, printed, b""))
              for told in ("2>/dev/full", "2>&-")
              for words, status, printed in (("play", 1, _NAME), ("plaz", 2, b""), ("--version", 0, b"maildir_cli 0.1.0\n"))),
        ],
        unread=_each("", Ended(1, b"", _UNWRITTEN), _CLI_RUNS),
        reset=_each("", Ended(1, b"", _UNREAD), _CLI_READS),
        no_text=Ended(2, b"", b"maildir_cli: a word is not UTF-8; try 'maildir_cli --help'\n"),
    ),
    # Its streams beside a maildir are a matter of tools/check_disk.
    "deolmutt": Face(
        streams=[
            *_each(">/dev/full", Ended(74, b"", b"deolmutt: standard output: writing failed: No space left on device (os error 28)\n"), _HELP_RUNS),
            *_each("</", Ended(66, b"", _NO_MAILDIR), [("deliver /none", b""), ("seen /none -", b"")]),
            *_each("2>/dev/full", Ended(66, b"", b""), [("deliver /none", b""), ("list /none", b"")]),
            *_each("2>&-", Ended(64, b"", b""), [("mak", b""), ("flag /none F k", b"")]),
            *_each("</", Ended(1, b"", _UNREAD), _SCRIPT_READS),
            *_each("<&-", Ended(1, b"", _UNREAD), [*_CLI_READS[:1], *_LOG_RUNS[:1]]),
            *_each(">/dev/full", Ended(1, b"", _UNWRITTEN), _SCRIPT_RUNS),
            *_each(">&-", Ended(1, b"", _UNWRITTEN), _SCRIPT_RUNS[:1]),
            *_each("2>/dev/full", Ended(64, b"", b""), [("log x", b""), ("judge --all", _LOG)]),
            *_each("</", Ended(2, b"", _UNREAD_LOG), _JUDGE_READS),
            *_each("<&-", Ended(2, b"", _UNREAD_LOG), _JUDGE_READS[:1]),
            *_each(">/dev/full", Ended(2, b"", _UNWRITTEN), _JUDGE_RUNS),
            *_each(">&-", Ended(2, b"", _UNWRITTEN), _JUDGE_RUNS[:1]),
            *(Streams("judge --lines", _LOG, told, Ended(1, b"4 Gone\n", b"")) for told in ("2>/dev/full", "2>&-")),
            *_each("2>/dev/full", Ended(2, b"", b""), [("judge", _WRONG_LOG)]),
        ],
        unread=[
            *_each("", Ended(74, b"", b"deolmutt: standard output: writing failed: Broken pipe (os error 32)\n"), _HELP_RUNS),
            *_each("", Ended(1, b"", _UNWRITTEN), _SCRIPT_RUNS),
            *_each("", Ended(2, b"", _UNWRITTEN), _JUDGE_RUNS),
        ],
        reset=[
            *_each("", Ended(1, b"", _UNREAD), _SCRIPT_READS),
            *_each("", Ended(2, b"", b"line 5: read fault\n"), _JUDGE_READS[:2]),
        ],
        no_text=Ended(64, b"", b"deolmutt: a word is not UTF-8; try 'deolmutt --help'\n"),
    ),
}


def wrong_streams(command: Sequence[str], face: Face) -> Iterator[str]:
    """The failing streams for which a program does not come to what it should."""
    runs: list[tuple[str, list[Streams], Callable[[Sequence[str], Streams], Ended]]] = [
        ("", face.streams, _redirected),
        ("where the reader has gone", face.unread, _without_reader),
        ("over a connection that is reset", face.reset, _reset),
    ]
    for where, all_streams, ended_by in runs:
        for streams in all_streams:
            ended = ended_by(command, streams)
            if ended != streams.wanted:
                yield f"{streams.words or 'no words'} {streams.sent or where}: {ended}, and not {streams.wanted}"
    ended = run(command, [os.fsdecode(b"\xff")], b"")
    if ended != face.no_text:
        yield f"a word that is not UTF-8: {ended}, and not {face.no_text}"


def _redirected(command: Sequence[str], streams: Streams) -> Ended:
    """A run of which a shell sends the streams elsewhere."""
    return run(["sh", "-c", f'exec "$@" {streams.sent}', "sh", *command], streams.words.split(), streams.input)


def _without_reader(command: Sequence[str], streams: Streams) -> Ended:
    """A run into a pipe whose reader has gone, as `head` does."""
    reader, writer = os.pipe()
    os.close(reader)
    try:
        words = [*command, *streams.words.split()]
        done = subprocess.run(words, input=streams.input, stdout=writer, stderr=subprocess.PIPE, timeout=MOST_SECONDS, check=False)
    finally:
        os.close(writer)
    return Ended(done.returncode, b"", done.stderr)


def _reset(command: Sequence[str], streams: Streams) -> Ended:
    """A run over a connection that gives the input, and is then reset: a socket that is closed with a byte unread resets it."""
    peer, given = socket.socketpair()
    with given:
        with peer:
            given.send(b"x")
            peer.sendall(streams.input)
        words = [*command, *streams.words.split()]
        done = subprocess.run(words, stdin=given, capture_output=True, timeout=MOST_SECONDS, check=False)
    return Ended(done.returncode, done.stdout, done.stderr)
