"""Header summaries of many messages, as a bag of Dask whose rows are in the order of one process."""

from __future__ import annotations

import io
import os
import re
from typing import Any, BinaryIO, Callable, Dict, Iterable, Iterator, List, NamedTuple, Optional, Sequence, Tuple, TypeVar, Union

import dask.bag
from dask.delayed import delayed
from distributed import Client

from .. import _disk
from .._disk import StrPath
from .._tree import TOP
from ..calls import Entry, Place
from ..errors import BadLine
from ..headers import KEYS
from ..lines import decoded, encoded, escaped, unescaped
from ..scripts import index_lines
from ..world import World

# Lines: a file that all workers reach, by its path, or the bytes themselves.
Lines = Union[StrPath, bytes]

# A worker asks for more work once it has done two partitions, and waits some 7 ms for it: small ones cost more than they spread.
_PARTITION_BYTES = 1 << 25
# So many bytes of lines go to the library together: what is near stays near.
_TOGETHER = 1 << 17
_READ_BYTES = 1 << 18
# A line of a message in new or cur, up to its body, with its folder and its unique name. No other line has a row.
_HEAD = re.compile(rb"file ([^ \n]+) (?:new|cur) ([^ .:\n][^ :\n]*)[^ \n]* [^ \r\n]+(?= |\r?\n|\Z)")
_FOLDER = re.compile(rb"folder ([^ \n]+?)\r?\n")
# The same of a line that a store takes wherever its name is no other's. So most lines are, and those that aren't the store looks at.
_PLAIN_HEAD = re.compile(
    rb"file ([^ \n]+) (?:new|cur) ([^ .:/\0\r\n][^ :/\0\r\n]{0,199})(?::[^ /\0\r\n]{0,54})? (?:0|[1-9][0-9]{0,18})(?=[ \n])"
)
# What ends a header.
_EMPTY_LINE = re.compile(rb"\n\r?\n")
# The lines of a message in an index.
_ROW = re.compile(
    "([^ \n]+) ([^ \n]+)\n(?:subject=(.*)\n)?(?:from=(.*)\n)?(?:message-id=(.*)\n)?(?:date=(.*)\n)?"
    "(?:seconds=(.*)\n)?end\n"
)


class Row(NamedTuple):
    """The summary of a message's header. A field that is not there is None; names and values have bytes
    that are no UTF-8 as surrogates, as in the names of `os`."""

    folder: str
    unique: str
    subject: Optional[str] = None
    sender: Optional[str] = None
    message_id: Optional[str] = None
    date: Optional[str] = None
    seconds: Optional[int] = None


# The columns of a frame.
_TYPES = [(field, "Int64" if field == "seconds" else "object") for field in Row._fields]

_Item = TypeVar("_Item")
# Lines that go to the library together: where each run of them begins and ends.
_Runs = List[Tuple[int, int]]

# A message's folder, its unique name, and where its line begins and ends: sorted, they are in the order of the index.
_Message = Tuple[int, bytes, int, int]
# The numbers of folders, and the messages.
_Store = Tuple[Dict[bytes, int], List[_Message]]


class _Plan(NamedTuple):
    """A store's folder lines, and of each partition the lines of its messages, in the order of the index."""

    folders: bytes
    parts: List[List[_Runs]]


def index(
    client: Client,
    trees: Iterable[StrPath] = (),
    lines: Iterable[Lines] = (),
    partition_bytes: int = _PARTITION_BYTES,
    as_frame: bool = False,
) -> Any:
    """The header summary of every message, a `Row` each, as a `dask.bag.Bag`.

    `trees` are maildirs with the folders in them, and `lines` stores of `folder` and `file` lines. The
    rows come in the order in which these are named, and of each in the order of one process: of a store
    as `maildir_cli index` prints them, of a tree by folder, and then by the bytes of unique names.
    Neither the workers nor the partitions change a row or its place. The bag's partitions are so many
    bytes of messages each, or one larger message. What is named by a path all workers have to reach.

    Lines are looked at here and now, by the workers: what makes no store is raised as a `BadLine`, with
    the number of its line. The rows are made when they are asked for: a body with a bad escape is
    raised then. `as_frame` answers a `dask.dataframe.DataFrame`, and needs pandas.
    """
    parts = [part for tree in trees for part in _parts_of_tree(os.fspath(tree), partition_bytes)]
    sources = [source if isinstance(source, bytes) else os.path.abspath(source) for source in lines]
    held = [client.scatter(it, hash=False) if isinstance(it, bytes) else it for it in sources]
    plans = client.gather([client.submit(_plan, source, partition_bytes, pure=False) for source in held])
    for source, plan in zip(held, plans):
        parts += [delayed(_rows_of_lines)(source, plan.folders, delayed(part, traverse=False)) for part in plan.parts]
    bag = dask.bag.from_delayed(parts) if parts else dask.bag.from_sequence([], npartitions=1)
    return bag.to_dataframe(meta=_TYPES) if as_frame else bag


def printed(rows: Iterable[Row]) -> bytes:
    """Rows as `maildir_cli index` prints them."""
    return b"".join(_printed(row) for row in rows)


def _printed(row: Row) -> bytes:
    head = b"%b %b\n" % (encoded(row.folder), encoded(row.unique))
    said = (
        b"%b=%b\n" % (key.encode(), escaped(encoded(str(value))))
        for key, value in zip(KEYS, row[2:])
        if value is not None
    )
    return b"".join([head, *said, b"end\n"])


# Lines.


def _opened(source: Union[str, bytes], buffering: int = -1) -> BinaryIO:
    return io.BytesIO(source) if isinstance(source, bytes) else open(source, "rb", buffering)


def _plan(source: Union[str, bytes], most: int) -> _Plan:
    """How a store is parted, where a partition ends with the messages that bring it to so many bytes."""
    folders, messages = _plain_store(source) or _checked_store(source)
    messages.sort()
    spans = ((begin, end) for _, _, begin, end in messages)
    return _Plan(_lines_of(folders), list(_parted(_together(spans, most), _bytes_of, most)))


def _lines_of(folders: Iterable[bytes]) -> bytes:
    return b"".join(b"folder %b\n" % folder for folder in folders)


def _plain_store(source: Union[str, bytes]) -> Optional[_Store]:
    """A store of folder lines and plain messages alone, under names that it has once, or None for another."""
    folders: Dict[bytes, int] = {}
    messages: List[_Message] = []
    with _opened(source, 0) as data:
        for begin, block, size in _blocks(data):
            if not _take_plain(begin, block, size, folders, messages):
                return None
    if len({unique for _, unique, _, _ in messages}) < len(messages):
        return None
    try:
        World.load(_lines_of(folders)).close()
    except BadLine:
        return None
    return folders, messages


def _take_plain(begin: int, block: bytes, size: int, folders: Dict[bytes, int], messages: List[_Message]) -> bool:
    """Takes the lines in the first bytes of a block, and answers whether all are plain."""
    at = 0
    while at < size:
        end = block.find(b"\n", at) + 1
        found = _PLAIN_HEAD.match(block, at)
        if found and end:
            folder, unique = found.groups()
            if folder not in folders:
                return False
            messages.append((folders[folder], unique, begin + at, begin + end))
        else:
            named = _FOLDER.match(block, at)
            if named is None or named[1] in folders:
                return False
            folders[named[1]] = len(folders)
        at = end
    return True


def _blocks(data: BinaryIO) -> Iterator[Tuple[int, bytes, int]]:
    """The bytes of a source from the first on, so many at a time: where they begin, they, and how many of them are whole lines. The last
    line may have no LF."""
    at, room = 0, _READ_BYTES
    while True:
        block = _read_run(data, at, at + room)
        size = block.rfind(b"\n") + 1
        if len(block) < room:
            yield at, block, len(block)
            return
        if size:
            yield at, block, size
            at, room = at + size, _READ_BYTES
        else:
            room *= 2


def _checked_store(source: Union[str, bytes]) -> _Store:
    """A store that is loaded with lines that have no bodies, so that it says itself which are sound."""
    heads: List[bytes] = []
    folders: Dict[bytes, int] = {}
    messages: List[_Message] = []
    at = 0
    with _opened(source, _READ_BYTES) as lines:
        for line in lines:
            end = at + len(line)
            found = _HEAD.match(line)
            if found:
                heads.append(found[0] + b"\n")
                messages.append((folders.get(found[1], 0), found[2], at, end))
            else:
                heads.append(line)
                named = _FOLDER.match(line)
                if named:
                    folders[named[1]] = len(folders)
            at = end
    World.load(b"".join(heads)).close()
    return folders, messages


def _parted(items: Iterable[_Item], size_of: Callable[[_Item], int], most: int) -> Iterator[List[_Item]]:
    """Items in their order, parted where so many bytes have come."""
    part: List[_Item] = []
    size = 0
    for item in items:
        part.append(item)
        size += size_of(item)
        if size >= most:
            yield part
            part, size = [], 0
    if part:
        yield part


def _together(spans: Iterable[Tuple[int, int]], most: int) -> Iterator[_Runs]:
    """Lines that go to the library together. They come in the order of their source, which changes no index:
    so the last line of the source, which may have no LF, is the last one."""
    for part in _parted(spans, lambda span: span[1] - span[0], min(most, _TOGETHER)):
        runs: _Runs = []
        for begin, end in part:
            if runs and runs[-1][1] == begin:
                runs[-1] = runs[-1][0], end
            else:
                runs.append((begin, end))
        yield sorted(runs)


def _bytes_of(runs: _Runs) -> int:
    return sum(end - begin for begin, end in runs)


def _rows_of_lines(source: Union[str, bytes], folders: bytes, part: List[_Runs]) -> List[Row]:
    """The rows of the messages of a partition."""
    with _opened(source) as data:
        return [row for runs in part for row in _rows_of_runs(data, folders, runs)]


def _rows_of_runs(data: BinaryIO, folders: bytes, runs: _Runs) -> Iterator[Row]:
    """The rows of messages whose lines are these. A refused one is raised with its number in the source."""
    text = b"".join([folders, *(_read_run(data, *run) for run in runs)])
    try:
        return _rows(index_lines(text))
    except BadLine as error:
        line = _line_in(data, runs, error.line - folders.count(b"\n"))
        error.line, error.args = line, (f"line {line}: {type(error)()}",)
        raise


def _read_run(data: BinaryIO, begin: int, end: int) -> bytes:
    data.seek(begin)
    return data.read(end - begin)


def _line_in(data: BinaryIO, runs: _Runs, line: int) -> int:
    """The number in the source of a line of these runs, both counted from 1."""
    for begin, end in runs:
        run = _read_run(data, begin, end)
        lines = run.count(b"\n") + (not run.endswith(b"\n"))
        if line <= lines:
            return _read_run(data, 0, begin).count(b"\n") + line
        line -= lines
    raise IndexError(line)


# Trees.


def _parts_of_tree(tree: str, most: int) -> Iterator[Any]:
    """A tree's partitions: each is of one folder."""
    path = os.path.abspath(tree)
    for trail in [TOP, *_disk.find_folders(path)]:
        directory = _disk.directory_of(path, trail)
        files = sorted(_files(directory), key=lambda it: (encoded(it.unique), it.place is not Place.NEW))
        for part in _parted(files, lambda file: file.size, most):
            yield delayed(_rows_of_files)(directory, [(file.place.value, file.name) for file in part])


def _files(directory: str) -> Iterator[Entry]:
    for place in Place:
        with os.scandir(os.path.join(directory, place.value)) as found:
            for entry in found:
                if not entry.name.startswith((".", ":")) and entry.is_file():
                    yield Entry(place, entry.name, _size_of(entry))


def _size_of(file: "os.DirEntry[str]") -> int:
    """The size of a file, or 0 of one whose name is gone by now: it is looked for by then."""
    try:
        return file.stat().st_size
    except FileNotFoundError:
        return 0


def _rows_of_files(directory: str, part: Sequence[Tuple[str, str]]) -> List[Row]:
    """The rows of these files. One that is gone is looked for under another name, and else left out."""
    uniques: List[str] = []
    lines = [b"folder i\n"]
    for place, name in part:
        body = _read(directory, place, name)
        if body is not None:
            # A line can't say each name of a file, so that they are numbered.
            lines.append(b"file i new %020d 0 %b\n" % (len(uniques), escaped(_header(body))))
            uniques.append(name.partition(":")[0])
    printed = index_lines(b"".join(lines))
    return [Row(directory, unique, *row[2:]) for unique, row in zip(uniques, _rows(printed))]


def _header(body: bytes) -> bytes:
    """A message up to its first empty line: what comes after that is not read for the summary (a law of
    the header's reader)."""
    found = _EMPTY_LINE.search(body)
    return body[: found.end()] if found else body


def _read(directory: str, place: str, name: str) -> Optional[bytes]:
    try:
        with open(os.path.join(directory, place, name), "rb") as file:
            return file.read()
    except FileNotFoundError:
        unique = name.partition(":")[0]
        files = _disk.read_files(directory, ":")
        return next((file.body for file in files if file.message.unique == unique), None)


# Rows.


_groups: "Callable[[re.Match[str]], Tuple[Any, ...]]" = re.Match.groups


def _rows(printed: bytes) -> Iterator[Row]:
    """The rows that an index says."""
    said = decoded(printed)
    rows = (
        Row(folder, unique, subject, sender, message_id, date, None if seconds is None else int(seconds))
        for folder, unique, subject, sender, message_id, date, seconds in map(_groups, _ROW.finditer(said))
    )
    return map(_unescaped, rows) if "\\" in said else rows


def _unescaped(row: Row) -> Row:
    folder, unique, *values, seconds = row
    return Row._make([folder, unique, *(value and unescaped(str(value)) for value in values), seconds])
