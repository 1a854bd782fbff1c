"""Makes steps of calls: which of a call's paths lie in judged folders, and what it did there."""

from __future__ import annotations

import re
from typing import Callable, Dict, Iterable, Iterator, List, Optional, Set, Union

from .arguments import Descriptor, read_descriptor, read_digits, read_string, shown_names, split
from .folders import Folders, Place
from .names import Path
from .outside import Coming, Made, OutsideFile, OutsideFiles
from .processes import OpenFile, Process, Processes, Turn
from .steps import NOT_SAID, AtOnce, FlushAll, Look, Name, OnFile, Open, Read, Step, Unlink, Unsaid, When, text_of
from .strace_lines import LOOKS, STARTS, Begun, Call, Ended, Event, Opening, Starting, Unread

_SYNC = re.compile(r"\bO_D?SYNC\b")
_OF_DESCRIPTOR = re.compile(rb"/(?:proc/(?:self|\d+)|dev)/fd/(\d+)")
_WRITES = {"write": 0, "pwrite64": 0, "writev": 0, "pwritev": 0, "pwritev2": 0, "ftruncate": 0, "fallocate": 0, "sendfile": 0,
           "copy_file_range": 2, "splice": 2}
# These may write nothing at all, and then change nothing.
_COUNTED = set(_WRITES) - {"ftruncate", "fallocate"}

_READS = ("getdents", "getdents64")

# These change what a process has, and nothing in a folder.
_WITHOUT_STEP = {"exit_group", "execve", "execveat", "mmap", "close", "close_range", "dup", "dup2", "dup3", "fcntl", "lseek", "chdir", "fchdir"}

Where = Union[Path, Place, None]


class Resolver:
    """Reads events in the order of their ends, and gives the steps of each."""

    def __init__(self, folders: Folders, processes: Processes, ended: Callable[[str, Ended], Iterator[Step]]) -> None:
        self._folders, self._processes, self._ended = folders, processes, ended
        self._outside = OutsideFiles()
        self._said: Set[str] = set()
        # Whether the call that is read was done, or found its path there.
        self._is_done = False
        self._by_name: Dict[str, Callable[[_Made], Optional[Iterable[Step]]]] = {
            **{name: self._start for name in STARTS},
            **{name: self._program for name in ("execve", "execveat")},
            "chdir": self._change_directory, "fchdir": self._change_directory, "chroot": self._unseen,
            **{name: self._open for name in ("open", "openat", "openat2", "creat")},
            **{name: self._copy for name in ("dup", "dup2", "dup3", "fcntl")}, "close": self._close, "close_range": self._close_range,
            "lseek": self._seek, "getdents": self._read, "getdents64": self._read,
            **{name: self._write for name in _WRITES}, "truncate": self._truncate, "mmap": self._map,
            "fsync": self._flush, "fdatasync": self._flush, "sync": self._flush_all, "syncfs": self._unseen,
            "link": self._link, "linkat": self._link, "rename": self._rename, "renameat": self._rename, "renameat2": self._rename,
            "unlink": self._unlink, "unlinkat": self._unlink, "rmdir": self._unlink,
            **{name: self._make for name in ("symlink", "symlinkat", "mknod", "mknodat", "mkdir", "mkdirat")},
            **{name: self._look for name in LOOKS.split()}, "ioctl": self._clone, "io_uring_setup": self._unseen,
        }

    def steps(self, event: Event) -> Iterable[Step]:
        """The steps of an event: none where it is none of the judged folders'."""
        if isinstance(event, Call):
            return self._called(event)
        if isinstance(event, Ended):
            return self._end(event)
        if isinstance(event, Starting):
            self._processes.start(event.pid, event.arguments)
        elif isinstance(event, Begun):
            return self._begun(event)
        elif isinstance(event, Unread):
            return (Unsaid(When("", event.end, event.end, 0), f"line {event.end} of the trace: {event.text[:200]}"),)
        return ()

    def _called(self, call: Call) -> Iterable[Step]:
        steps = self._by_name.get(call.name)
        if steps is None or call.error is not None and call.is_undone():
            return ()
        made = _Made(call, self._processes.of(call.pid))
        self._is_done = call.error is None or call.error == "EEXIST"
        if call.error == "ENAMETOOLONG":
            return (Unsaid(made.when, f"{call.name} of a name that is too long"),)
        return steps(made) or ()

    def _end(self, event: Ended) -> Iterator[Step]:
        self._processes.of(event.pid)
        actor = self._processes.answering.get(event.pid)
        if actor is not None:
            yield from self._ended(actor, event)
        self._processes.end(event.pid)

    def _begun(self, event: Begun) -> Iterator[Step]:
        if self.touches(event):
            when = When(self._processes.of(event.pid).actor, event.begin, event.end, event.moment)
            yield Unsaid(when, f"whether {event.name} took effect before its process ended")

    def touches(self, event: Union[Begun, Opening]) -> bool:
        """Whether a call may change or read anything of the judged folders."""
        if event.name in _WITHOUT_STEP:
            return False
        made = _Made(Call(event.pid, event.begin, event.begin, 0, event.name, event.arguments, None, "EINTR"),
                     self._processes.of(event.pid))
        paths = [made.path_of(number) for number in range(len(made.words))]
        descriptors = [read_descriptor(word) for word in made.words]
        paths += [each.path for each in descriptors if each is not None and each.number is not None]
        return any(path is not None and self._folders.where(path) is not None for path in paths)

    # Processes and descriptors

    def _start(self, made: _Made) -> None:
        if made.call.result:
            self._processes.expect(made.call.result, made.call.pid, made.call.arguments)
            self._processes.of(made.call.result)

    def _program(self, made: _Made) -> None:
        program = read_string(made.words[1 if made.call.name == "execveat" else 0])
        if made.is_ok():
            self._processes.start_program(made.call.pid, program or b"?")

    def _change_directory(self, made: _Made) -> None:
        at = read_descriptor(made.words[0])
        path = made.path(0) if made.call.name == "chdir" else at and at.path
        if made.is_ok() and path is not None:
            made.process.directory = path

    def _unseen(self, made: _Made) -> Iterator[Step]:
        """A call after which this tracer may see too little. It is said once."""
        if made.is_ok() and made.call.name not in self._said:
            self._said.add(made.call.name)
            what = {"chroot": "paths after chroot", "syncfs": "which files syncfs flushes"}
            yield Unsaid(made.when, what.get(made.call.name, "calls that are made by io_uring"))

    def _copy(self, made: _Made) -> None:
        is_copy = made.call.name != "fcntl" or made.words[1].startswith("F_DUPFD")
        descriptor = read_descriptor(made.words[0])
        if is_copy and made.is_ok() and descriptor is not None and made.call.result is not None:
            made.process.table.pop(made.call.result, None)
            if descriptor.number in made.process.table and (descriptor.path or b"/")[:1] == b"/":
                made.process.table[made.call.result] = made.process.table[descriptor.number]

    def _close(self, made: _Made) -> None:
        descriptor = read_descriptor(made.words[0])
        if descriptor is not None:
            made.process.table.pop(descriptor.number, None)

    def _close_range(self, made: _Made) -> None:
        first, last = (int(word, 0) for word in made.words[:2])
        if "CLOEXEC" not in made.call.arguments:
            for number in [each for each in made.process.table if first <= each <= last]:
                del made.process.table[number]

    # Files

    def _open(self, made: _Made) -> Iterable[Step]:
        name = made.call.name
        at = 0 if name in ("open", "creat") else 1
        path = made.path(at, None if at == 0 else 0)
        flags = "O_WRONLY|O_CREAT|O_TRUNC" if name == "creat" else made.words[at + 1]
        opened = OpenFile(made.process.actor, is_sync="SYNC" in flags and _SYNC.search(flags) is not None)
        if made.is_ok() and made.call.result is not None:
            made.process.table[made.call.result] = opened
        where = self._where(path)
        if "O_TMPFILE" in flags:
            opened.outside = OutsideFile()
            return ()
        if where is None:
            return self._open_outside(made, flags, opened)
        if isinstance(where, Place):
            opened.place = where
            return (Look(made.when, where, made.call.reply()),)
        opened.is_judged = True
        return (Open(made.when, where, made.call.reply(), flags, opened),)

    def _open_outside(self, made: _Made, flags: str, opened: OpenFile) -> Iterable[Step]:
        """A file outside is opened, which may have lost its name when it is written to."""
        at = read_digits(made.call.opened or "")
        if not at or not made.is_ok() or "O_WRONLY" not in flags and "O_RDWR" not in flags:
            return ()
        if "O_EXCL" in flags:
            self._outside.forget(at)
        is_emptied = "O_TRUNC" in flags and self._outside.knows(at)
        opened.outside = self._outside.at(at)
        return self._write_outside(made, opened.outside) if is_emptied else ()

    @staticmethod
    def _write_outside(made: _Made, file: OutsideFile) -> Iterable[Step]:
        file.called("write", True)
        return (OnFile(made.when, "write", "ok", None, None, False, file),) if file.has_come else ()

    def _write(self, made: _Made) -> Iterable[Step]:
        if made.is_ok() and made.call.result == 0 and made.call.name in _COUNTED:
            return ()
        return self._on_file(made, "write", _WRITES[made.call.name])

    def _flush(self, made: _Made) -> Iterable[Step]:
        return self._on_file(made, "flush", 0)

    def _on_file(self, made: _Made, word: str, number: int) -> Iterable[Step]:
        descriptor = read_descriptor(made.words[number])
        # A pipe or a socket may have the number of a file that was closed as the program began.
        if descriptor is None or descriptor.path is None or descriptor.path[:1] != b"/":
            return ()
        opened, where = made.process.table.get(descriptor.number), self._where(descriptor.path)
        if isinstance(where, Place):
            return ()
        outside, is_said = self._outside_of(descriptor, opened, where), where is not None or opened is not None and opened.is_judged
        if outside is not None:
            outside.called(word, made.is_ok(), opened is not None and opened.is_sync)
            is_said = outside.has_come or is_said and not descriptor.is_deleted
        if not is_said:
            return ()
        when = made.when
        if opened is not None and opened.actor is not None and opened.actor != when.actor:
            when = when._replace(actor=opened.actor)
        return (OnFile(when, word, made.call.reply(), opened, where, descriptor.is_deleted, outside),)

    def _outside_of(self, at: Descriptor, opened: Optional[OpenFile], where: Where) -> Optional[OutsideFile]:
        """The file of a descriptor, where it is outside, or was when it was opened."""
        known = None if opened is None else opened.outside
        if where is not None or at.path is None or at.is_deleted or opened is not None and opened.is_judged:
            return known
        found = self._outside.at(at.path, known)
        if opened is not None:
            opened.outside = found
        return found

    def _truncate(self, made: _Made) -> Iterable[Step]:
        path = made.path(0)
        where = self._where(path)
        if isinstance(where, Path):
            return (OnFile(made.when, "write", made.call.reply(), None, where, False),)
        if where is None and path is not None and made.is_ok():
            return self._write_outside(made, self._outside.at(self._folders.outside(path, is_followed=True)))
        return ()

    def _map(self, made: _Made) -> Iterator[Step]:
        if "MAP_SHARED" not in made.words[3] or "PROT_WRITE" not in made.words[2] or not made.is_ok():
            return
        descriptor = read_descriptor(made.words[4])
        if descriptor is None or descriptor.path is None or descriptor.path[:1] != b"/":
            return
        where = self._where(descriptor.path)
        outside = self._outside_of(descriptor, made.process.table.get(descriptor.number), where)
        if outside is not None:
            outside.is_mapped = True
        if isinstance(where, Path) or outside is not None and outside.has_come:
            yield Unsaid(made.when, f"writes through memory to {text_of(descriptor)}")

    def _flush_all(self, made: _Made) -> Iterator[Step]:
        self._outside.flush_all()
        yield FlushAll(made.when)

    # Directories

    def _seek(self, made: _Made) -> None:
        opened = self._opened_place(made)
        if opened is not None and made.words[1:] != ["0", "SEEK_CUR"]:
            opened.turn = Turn()
            opened.turn.is_dropped = made.words[1] != "0"

    def _read(self, made: _Made) -> Iterator[Step]:
        opened = self._opened_place(made)
        if opened is None or opened.place is None:
            return
        is_end = made.call.result == 0
        if opened.turn.is_read_to_end:
            if not is_end:
                yield Unsaid(made.when, f"what a reading of {opened.place.place} showed after its end")
            return
        opened.turn.is_read_to_end = is_end
        reply = "ok" if is_end else "more" if made.is_ok() else made.call.reply()
        part = Read(made.when, opened.place, "fault" if reply == "exists" else reply, shown_names(made.call.arguments), opened.turn)
        opened.turn.parts.append(part)
        opened.turn.parts[0].is_whole = is_end and len(opened.turn.parts) <= 2
        yield part

    def _opened_place(self, made: _Made) -> Optional[OpenFile]:
        """The open directory of a call, one that was open before the trace too."""
        descriptor = read_descriptor(made.words[0])
        if descriptor is None or descriptor.number is None or descriptor.path is None:
            return None
        where = self._where(descriptor.path)
        if not isinstance(where, Place):
            return None
        opened = made.process.table.setdefault(descriptor.number, OpenFile())
        opened.place = where
        return opened

    # Names

    def _link(self, made: _Made) -> Iterable[Step]:
        is_at = made.call.name == "linkat"
        old = made.path(1, 0) if is_at else made.path(0)
        new = made.path(3, 2) if is_at else made.path(1)
        if old is not None and _OF_DESCRIPTOR.fullmatch(old) or is_at and "AT_EMPTY_PATH" in made.words[4]:
            return self._link_open_file(made, old, new)
        return self._named(made, "link", old, new)

    def _link_open_file(self, made: _Made, old: Optional[bytes], new: Optional[bytes]) -> Iterator[Step]:
        """A link to an open file, by its descriptor: it has a name already, or comes from outside."""
        found = _OF_DESCRIPTOR.fullmatch(old or b"")
        at = read_descriptor(made.words[0])
        number = int(found[1]) if found else at.number if at else None
        opened = made.process.table.get(number) if number is not None else None
        where = self._where(new)
        if opened is not None and opened.is_judged:
            if isinstance(where, Path):
                yield Unsaid(made.when, "a link to a file by its descriptor")
            return
        outside = OutsideFile() if opened is None or opened.outside is None else opened.outside
        if isinstance(where, Path):
            yield self._come(made, where, outside)
        elif where is None and new is not None and made.is_ok():
            self._outside.link(outside, self._folders.outside(new))

    def _rename(self, made: _Made) -> Iterable[Step]:
        is_at = made.call.name != "rename"
        old = made.path(1, 0) if is_at else made.path(0)
        new = made.path(3, 2) if is_at else made.path(1)
        flags = made.words[4] if made.call.name == "renameat2" else "0"
        if made.is_ok() and ("RENAME_EXCHANGE" in flags or "RENAME_WHITEOUT" in flags):
            is_judged = self._where(old) is not None or self._where(new) is not None
            return (Unsaid(made.when, f"a rename with {flags}: what the log says after it may be wrong"),) if is_judged else ()
        # What RENAME_NOREPLACE refuses is what link refuses, and what it does is what rename does.
        return self._named(made, "link" if made.call.error == "EEXIST" else "rename", old, new)

    def _named(self, made: _Made, word: str, old: Optional[bytes], new: Optional[bytes]) -> Iterable[Step]:
        where_old, where_new, reply = self._where(old), self._where(new), made.call.reply()
        may_be_directory = self._folders.is_nested or not (isinstance(where_old, Path) and isinstance(where_new, Path))
        if may_be_directory and reply == "ok" and any(path is not None and self._folders.holds(path) for path in (old, new)):
            return (Unsaid(made.when, f"a {word} of a judged directory: what the log says after it may be wrong"),)
        if isinstance(where_old, Path) and isinstance(where_new, Path):
            return (Name(made.when, word, where_old, where_new, reply),)
        if isinstance(where_new, Path):
            return (self._come(made, where_new, self._taken_from(word, old) if made.is_ok() else OutsideFile(), word == "rename"),)
        if made.is_ok() and old is not None and new is not None:
            self._name_outside(word, None if isinstance(where_old, Path) else old, new)
        if isinstance(where_old, Path) and word == "rename":
            return (Unlink(made.when, where_old, reply, is_rename=True),)
        return ()

    def _come(self, made: _Made, new: Path, file: OutsideFile, replaces: bool = False) -> Step:
        """A file comes from outside."""
        remarks = ["a file that comes from elsewhere: the next lines say it as made in tmp"]
        if file.is_mapped:
            remarks.insert(0, NOT_SAID + "writes through memory to a file that comes from elsewhere")
        file.has_come = file.has_come or made.is_ok()
        return AtOnce(made.when, new, made.call.reply(), Coming(file, file.made(), remarks, replaces))

    def _taken_from(self, word: str, old: Optional[bytes]) -> OutsideFile:
        """The file of a path outside, which a rename takes away."""
        path = None if old is None else self._folders.outside(old)
        file = OutsideFile() if path is None else self._outside.at(path)
        if path is not None and word == "rename":
            self._outside.forget(path)
        return file

    def _name_outside(self, word: str, old: Optional[bytes], new: bytes) -> None:
        """A path outside comes to name a file, one that was there, or one of a folder."""
        at = self._folders.outside(new)
        if old is None:
            self._outside.forget(at)
        elif word == "rename":
            self._outside.rename(self._folders.outside(old), at)
        else:
            self._outside.link(self._outside.at(self._folders.outside(old)), at)

    def _unlink(self, made: _Made) -> Iterable[Step]:
        is_at = made.call.name == "unlinkat"
        path = made.path(1, 0) if is_at else made.path(0)
        is_directory = made.call.name == "rmdir" or is_at and "AT_REMOVEDIR" in made.words[2]
        where = self._where(path)
        if isinstance(where, Path):
            text = f"{made.call.name} of a directory: the next line says it as a file"
            comments = [Unsaid(made.when, text)] if is_directory and made.is_ok() else []
            return [*comments, Unlink(made.when, where, made.call.reply())]
        if made.is_ok() and path is not None and (where is not None or self._folders.holds(path)):
            return (Unsaid(made.when, f"{made.call.name} of a directory: {path.decode('utf-8', 'replace')}"),)
        if made.is_ok() and path is not None:
            self._outside.forget(self._folders.outside(path))
        return ()

    def _make(self, made: _Made) -> Iterator[Step]:
        name = made.call.name
        at = {"symlink": 1, "symlinkat": 2, "mknod": 0, "mkdir": 0}.get(name, 1)
        path = made.path(at, at - 1 if name.endswith("at") else None)
        where = self._where(path)
        if isinstance(where, Path):
            is_link = name.startswith("symlink")
            text = f"{NOT_SAID}{name}: the next {'lines say' if is_link else 'line says'} it as a file"
            yield AtOnce(made.when, where, made.call.reply(), Coming(OutsideFile(), [Made("create")], [text], is_whole=is_link))

    def _look(self, made: _Made) -> Iterator[Step]:
        is_at = made.call.name not in ("stat", "lstat", "access")
        where = self._where(made.path(1, 0) if is_at else made.path(0))
        if "AT_EMPTY_PATH" not in made.call.arguments and where is not None:
            yield Look(made.when, where, made.call.reply())

    def _clone(self, made: _Made) -> Iterable[Step]:
        """A file gets the bytes of another one. Where the file system can't, nothing is changed, and programs copy."""
        if made.is_ok() and "FICLONE" in made.words[1]:
            return self._on_file(made, "write", 0)
        return ()

    def _where(self, path: Optional[bytes]) -> Where:
        if path is None:
            return None
        where = self._folders.where(path)
        return self._there(where) if self._folders.absent and where is not None else where

    def _there(self, where: Union[Path, Place]) -> Where:
        """What a path is, unless its directory is not there yet. A call that is done there shows that it is."""
        place = where if isinstance(where, Place) else Place(*where[:2])
        if place in self._folders.absent and self._is_done:
            self._folders.absent.discard(place)
        return None if place in self._folders.absent else where


class _Made:
    """A call with its process and its arguments."""

    def __init__(self, call: Call, process: Process) -> None:
        self.call, self.process = call, process
        # A reading has a long argument that is no path.
        self.words: List[str] = split(call.arguments) if call.name not in _READS else call.arguments.split(",", 1)

    @property
    def when(self) -> When:
        """Who made it, and when."""
        return When(self.process.actor, self.call.begin, self.call.end, self.call.moment)

    def is_ok(self) -> bool:
        """Whether the call succeeded."""
        return self.call.error is None

    def path(self, number: int, at: Optional[int] = None) -> Optional[bytes]:
        """An argument that is a path, from the root."""
        text = read_string(self.words[number]) if number < len(self.words) else None
        base: Optional[Descriptor] = read_descriptor(self.words[at]) if at is not None else None
        return None if text is None else self.process.path(text, base)

    def path_of(self, number: int) -> Optional[bytes]:
        """An argument that may be a path, after a descriptor or not."""
        at = number - 1 if number and read_descriptor(self.words[number - 1]) is not None else None
        return self.path(number, at)
