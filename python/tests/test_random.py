"""Random calls of the mailboxes and of CPython's, side by side: what each answers, and what both hold after it."""

from __future__ import annotations

import mailbox
import pathlib
import random
import unittest
from typing import Any, Callable

from support import Case, maildir_message, needs_library, outcome

import deolmutt

FLAGS = "DFPRST"


class Both:
    """The two mailboxes, whose keys are told by the numbers of the messages that were added."""

    def __init__(self, chance: random.Random, *boxes: Any) -> None:
        self.chance = chance
        self.boxes = boxes
        self.keys: list[tuple[str, ...]] = []

    def make_a_call(self) -> list[Any]:
        """Makes the same call of each, and answers what they answered."""
        call = self.chance.choice((self.add, self.add, self.assign, self.change, self.remove, self.read))
        return call()

    def message(self) -> Any:
        """A message of a random kind. One of new has no flags, in which the two differ."""
        body = b"Subject: %d\n\n%d\n" % (self.chance.randrange(9), self.chance.randrange(9))
        flags = "".join(self.chance.sample(FLAGS, self.chance.randrange(4)))
        kinds = (body, body.decode("ascii"), mailbox.Message(body), maildir_message("", "new", 5.0, body),
                 maildir_message(flags, "cur", float(self.chance.randrange(99)), body))  # fmt: skip
        return self.chance.choice(kinds)

    def any_keys(self) -> tuple[str, ...]:
        """The keys of a message that was added, which may be gone, or a key that never was."""
        return self.chance.choice([*self.keys, ("none",) * len(self.boxes)])

    def add(self) -> list[Any]:
        message = self.message()
        self.keys.append(tuple(box.add(message) for box in self.boxes))
        return [None] * len(self.boxes)

    def assign(self) -> list[Any]:
        message = self.message()
        return self.of_each(lambda box, key: box.__setitem__(key, message))

    def change(self) -> list[Any]:
        """Changes flags as every Python can: by a message of cur that is put in its own place."""
        flags = "".join(self.chance.sample(FLAGS, self.chance.randrange(4)))
        return self.of_each(lambda box, key: set_flags(box, key, flags))

    def remove(self) -> list[Any]:
        way = self.chance.choice(("remove", "discard", "pop", "__delitem__"))
        return self.of_each(lambda box, key: plain(getattr(box, way)(key)))

    def read(self) -> list[Any]:
        way = self.chance.choice(("get_bytes", "get_string", "get", "__contains__", "get_message"))
        return self.of_each(lambda box, key: plain(getattr(box, way)(key)))

    def of_each(self, call: Callable[[Any, str], Any]) -> list[Any]:
        return [outcome(call, box, key) for box, key in zip(self.boxes, self.any_keys())]

    def held(self) -> list[Any]:
        """What each mailbox holds, in the order in which it was added."""
        return [[plain(box.get(keys[at])) for keys in self.keys] + [len(box)] for at, box in enumerate(self.boxes)]


def set_flags(box: Any, key: str, flags: str) -> None:
    message = box[key]
    message.set_flags(flags)
    message.set_subdir("cur")
    box[key] = message


def plain(value: Any) -> Any:
    """A message as what is said of it. The date of one that says none is the moment, which is passed over."""
    if not isinstance(value, mailbox.MaildirMessage):
        return value
    date = value.get_date()
    return value.as_bytes(), value.get_subdir(), value.get_flags(), date if date < 1_000 else None


@needs_library
class RandomTest(Case):
    def assert_the_same(self, box_of: Callable[[pathlib.Path], Any], seeds: int, calls: int) -> None:
        for seed in range(seeds):
            boxes = box_of(self.folder / f"ours{seed}"), mailbox.Maildir(self.folder / f"theirs{seed}")
            both = Both(random.Random(seed), *boxes)
            for call in range(calls):
                with self.subTest(seed=seed, call=call):
                    for ours, theirs in (both.make_a_call(), both.held()):
                        self.assertEqual(theirs, ours)

    def test_random_calls_in_memory(self) -> None:
        self.assert_the_same(lambda _: deolmutt.Maildir(), 20, 60)

    def test_random_calls_on_a_disk(self) -> None:
        self.assert_the_same(deolmutt.DiskMaildir, 3, 40)


if __name__ == "__main__":
    unittest.main()
