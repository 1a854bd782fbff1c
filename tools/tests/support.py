"""What the tests of `tools/maildir` share: trees, runs, and a look at what came of them."""

from __future__ import annotations

import contextlib
import errno
import io
import os
import shutil
import signal
import subprocess
import sys
import tempfile
from typing import IO, Any, Callable, Iterator, NamedTuple, Optional
from unittest import mock

from shared import TOOLS, RoomTest

from maildir_lib import command
from maildir_lib.language import Limits

TOOL = str(TOOLS / "maildir")

PLACES = (b"tmp", b"new", b"cur")
NOBODY = 65534

# What a process does at these where nobody asked for anything else. A shell has its background jobs
# ignore Ctrl-C, and nohup a hangup, and a program that is started ignores what its parent does.
USUAL_HANDLERS = {
    signal.SIGINT: signal.default_int_handler,
    signal.SIGTERM: signal.SIG_DFL,
    signal.SIGHUP: signal.SIG_DFL,
}


class Run(NamedTuple):
    """How a run ended, and what it printed."""

    status: int
    out: bytes
    err: str


class Kept(NamedTuple):
    """A file of a maildir, as far as a script says it."""

    body: bytes
    seconds: int


class TreeTest(RoomTest):
    """A test with a scratch folder, which others may search. It meets signals as a program does that a
    user starts, and so does what it starts."""

    def setUp(self) -> None:
        super().setUp()
        for number, handler in USUAL_HANDLERS.items():
            self.addCleanup(signal.signal, number, signal.signal(number, handler))
        self.room.chmod(0o755)
        self.scratch = os.fsencode(self.room)
        self.tree = self.path(b"tree")

    def path(self, *steps: bytes) -> bytes:
        """A path in the scratch folder."""
        return os.path.join(self.scratch, *steps)

    def make(self, *steps: bytes, tree: Optional[bytes] = None) -> bytes:
        """Makes a maildir in the tree."""
        directory = os.path.join(tree or self.tree, *steps)
        for place in PLACES:
            os.makedirs(os.path.join(directory, place), exist_ok=True)
        return directory

    def put(self, path: bytes, body: bytes = b"", seconds: float = 1000) -> bytes:
        """Writes a file of the tree."""
        full = os.path.join(self.tree, path)
        with open(full, "wb") as file:
            file.write(body)
        os.utime(full, (seconds, seconds))
        return full

    def write(self, name: bytes, text: bytes) -> bytes:
        """Writes a file of the scratch folder."""
        path = self.path(name)
        with open(path, "wb") as file:
            file.write(text)
        return path

    def run_tool(self, *words: bytes | str, given: bytes = b"") -> Run:
        """Runs the program as a user does."""
        done = subprocess.run([sys.executable, TOOL, *words], input=given, capture_output=True)
        return Run(done.returncode, done.stdout, done.stderr.decode())

    def call(self, *words: bytes | str, limits: Limits = Limits()) -> Run:
        """Runs the command in this process, so that its limits and calls can be others."""
        printed = io.StringIO()
        with contextlib.redirect_stderr(printed):
            status = command.main([os.fsdecode(word) for word in words], limits)
        return Run(status, b"", printed.getvalue())

    def call_in_child(self, prepare: Callable[[], object], *words: bytes | str, limits: Limits = Limits()) -> Run:
        """Runs the command in a child process, which first gives up rights or takes on limits for good."""
        receive, send = os.pipe()
        child = os.fork()
        if child == 0:
            status = 99
            with contextlib.suppress(BaseException):
                prepare()
                run = self.call(*words, limits=limits)
                status = run.status
                os.write(send, run.err.encode()[:60_000])
            os._exit(status)
        os.close(send)
        with open(receive, "rb") as pipe:
            printed = pipe.read().decode()
        return Run(os.waitstatus_to_exitcode(os.waitpid(child, 0)[1]), b"", printed)

    def assert_ended(self, run: Run, status: int, *said: str) -> None:
        """Asks for the status of a run, and for what it said on standard error."""
        self.assertEqual(run.status, status, run.err)
        for text in said:
            self.assertIn(text, run.err)

    def import_into(self, limits: Limits = Limits(), *options: str) -> tuple[Run, list[bytes]]:
        """Imports the tree into a fresh directory. The run, and the scripts in order."""
        directory = tempfile.mkdtemp(dir=self.scratch)
        run = self.call("import", *options, "--into", directory, self.tree, limits=limits)
        return run, [read(os.path.join(directory, name)) for name in sorted(os.listdir(directory))]

    def through_script(self) -> bytes:
        """Imports the tree into one script, and exports that: the tree that comes of it."""
        script, back = self.path(b"script"), self.path(b"back")
        self.assertEqual(self.call("import", "-o", script, self.tree).status, 0)
        self.assertEqual(self.call("export", script, back).status, 0)
        return back


def read(path: bytes) -> bytes:
    """The bytes of a file."""
    with open(path, "rb") as file:
        return file.read()


def files_of(tree: bytes) -> dict[bytes, Kept]:
    """The files in tmp, new and cur of all maildirs of a tree, by their paths in it."""
    found = {}
    for directory, _, names in os.walk(tree):
        if os.path.basename(directory) in PLACES:
            for name in names:
                path = os.path.join(directory, name)
                kept = Kept(read(path), int(os.stat(path).st_mtime_ns // 10**9))
                found[os.path.relpath(path, tree)] = kept
    return found


def maildirs_of(tree: bytes) -> set[bytes]:
    """The paths of all maildirs of a tree."""
    walk = os.walk(tree)
    return {os.path.relpath(path, tree) for path, below, _ in walk if set(PLACES) <= set(below)}


def everything_in(tree: bytes) -> dict[bytes, tuple[int, int]]:
    """All names below a directory, with the time of the last change and the number of each."""
    found = {}
    for directory, below, names in os.walk(tree):
        for name in [b"."] + below + names:
            status = os.lstat(os.path.join(directory, name))
            found[os.path.join(directory, name)] = (status.st_mtime_ns, status.st_ino)
    return found


def read_terminal(ours: int) -> bytes:
    """What a program shows on a terminal, up to its end."""
    shown = b""
    # A terminal that nobody has open fails, and has no end.
    with contextlib.suppress(OSError):
        while piece := os.read(ours, 4096):
            shown += piece
    os.close(ours)
    return shown


def become_nobody() -> None:
    """Gives up the rights of root, who may read everything."""
    if os.geteuid() == 0:
        os.setgroups([])
        os.setegid(NOBODY)
        os.seteuid(NOBODY)


# The calls by which the tool reads and changes directories and files.
CALLS = "open read write close dup fsync fstat stat utime link rename unlink mkdir rmdir listdir scandir".split()


class _WatchedFile:
    """A file whose calls are counted as those of `os` are: that of a script being written."""

    def __init__(self, file: IO[bytes], watched: Callable[..., Any]) -> None:
        self._file = file
        self._watched = watched

    def __getattr__(self, name: str) -> Any:
        call = getattr(self._file, name)
        is_counted = name in ("write", "seek", "truncate", "close")
        return self._watched(f"file {name}", call) if is_counted else call

    def __enter__(self) -> _WatchedFile:
        return self

    def __exit__(self, *_: object) -> None:
        self._file.close()


@contextlib.contextmanager
def before_call(number: int, act: Callable[[str], None]) -> Iterator[list[str]]:
    """Acts before the call of that number, counted from 0 once the command line is read.

    Gives the names of the calls made.
    """
    made: list[str] = []
    read_words = command.read_words
    has_words = False

    def words_read(words: list[str]) -> object:
        nonlocal has_words
        options = read_words(words)
        has_words = True
        return options

    def watched(name: str, call: Callable[..., object]) -> Callable[..., object]:
        def run(*words: object, **more: object) -> object:
            if has_words:
                made.append(name)
                if len(made) - 1 == number:
                    act(name)
            return call(*words, **more)

        return run

    def opened(*words: Any, **more: Any) -> _WatchedFile:
        return _WatchedFile(open(*words, **more), watched)

    with contextlib.ExitStack() as stack:
        stack.enter_context(mock.patch.object(command, "read_words", words_read))
        stack.enter_context(mock.patch("maildir_lib.drafts.open", opened, create=True))
        for name in CALLS:
            stack.enter_context(mock.patch.object(os, name, watched(name, getattr(os, name))))
        yield made


def fail(name: str) -> None:
    """Makes a call fail as a broken disk does."""
    raise OSError(errno.EIO, os.strerror(errno.EIO))


class EachMoment:
    """Tests of a run that is made anew with a fault or a signal before each of its calls. `words` and `limits` are those of the run, and
    `made` is the directory that it makes; `check` asks for what may be there then; `least_calls` is how many calls it makes at least."""

    least_calls: int
    limits = Limits()
    words: tuple[bytes | str, ...]
    made: bytes

    def run_again(self: Any, number: int, act: Callable[[str], None]) -> tuple[Run, list[str]]:
        """Runs it anew, and acts before a call. The run, and the calls that it made."""
        shutil.rmtree(self.made, ignore_errors=True)
        with before_call(number, act) as calls:
            run = self.call(*self.words, limits=self.limits)
        return run, calls

    def check(self, run: Run, at: object, may_leave_one: bool) -> None:
        raise NotImplementedError

    def before_each_call(self, act: Callable[[str], None], step: int = 1, again: Any = None) -> Iterator[tuple[Run, int, str]]:
        """Acts before each call in turn, or before each so many. The runs, with the number and the name of the call."""
        number = 0
        while True:
            run, made = (again or self.run_again)(number, act)
            if len(made) <= number:
                return
            yield run, number, made[number]
            number += step

    def test_each_call_fails(self: Any) -> None:
        met, number = set(), 0
        for run, number, call in self.before_each_call(fail):
            met.add(run.status)
            self.check(run, (number, call), may_leave_one=call == "unlink")
        self.assertGreaterEqual(number, self.least_calls)
        self.assertEqual(met, {0, 1, 2})

    def test_a_signal_before_each_call(self: Any) -> None:
        for kind, step in ((signal.SIGINT, 1), (signal.SIGTERM, 7)):
            met = set()
            for run, number, call in self.before_each_call(lambda _: os.kill(os.getpid(), kind), step):
                met.add(run.status)
                self.check(run, (number, call), may_leave_one=False)
            self.assertEqual(met, {0, 128 + kind})

    def test_two_signals_end_it_at_once(self: Any) -> None:
        def twice(_: str) -> None:
            os.kill(os.getpid(), signal.SIGINT)
            os.kill(os.getpid(), signal.SIGINT)

        for run, number, _ in self.before_each_call(twice, 9):
            self.check_ended(run, number)
