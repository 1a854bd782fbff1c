"""Loads of real size by the package of Python: sizes.py WHAT NAMES BYTES, as sizes.c has them, by the calls for many messages."""

import itertools
import pathlib
import sys

sys.dont_write_bytecode = True
sys.path.insert(0, str(pathlib.Path(__file__).resolve().parent.parent.parent / "python"))

from deolmutt import Failed, World
from deolmutt.calls import Deliver, Expunge, Flag, Seen

FOLDERS = 64
MOST_CALLS = 10_000


def call_all(world, calls):
    """Makes calls, and settles after each 10,000 of them."""
    calls = iter(calls)
    while some := list(itertools.islice(calls, MOST_CALLS)):
        for answer in world.call_many(some):
            if isinstance(answer, Failed):
                raise answer
        world.settle()


def names_of(path, step=1):
    """The names of a file, or each so many-th of them."""
    with open(path, encoding="ascii") as lines:
        yield from (line[:-1] for line in itertools.islice(lines, 0, None, step))


def deliver_all(world, names, body, folders=FOLDERS):
    call_all(world, (Deliver(at % folders, unique, body) for at, unique in enumerate(names_of(names))))


def one_folder(world, names, body):
    """A folder: all delivered, each tenth seen and flagged, all listed once, each hundredth expunged."""
    deliver_all(world, names, body, 1)
    call_all(world, (Seen(0, unique, "S") for unique in names_of(names, 10)))
    call_all(world, (Flag(0, unique, "F" if at % 10 else "FT") for at, unique in enumerate(names_of(names, 10))))
    assert len(world.list(0)) == sum(1 for _ in names_of(names))
    call_all(world, (Expunge(0, unique) for unique in names_of(names, 100)))


def bodies(world, names, body):
    for unique in names_of(names):
        world.deliver(0, unique, body)
        assert world.read(unique) == body


LOADS = {"deliveries": deliver_all, "folder": one_folder, "bodies": bodies}


def main(what, names, length):
    with World.with_folders(*map(str, range(FOLDERS))) as world:
        LOADS[what](world, names, b"x" * int(length))


if __name__ == "__main__":
    main(*sys.argv[1:])
