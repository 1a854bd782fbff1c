"""Many processes at once on two maildirs."""

from __future__ import annotations

import hashlib
import random
import time
from collections import Counter
from concurrent.futures import ThreadPoolExecutor

from .boxes import Box, BoxTest, run

WORKERS = 64
SECONDS = 60

# What may come of a command whose message others change or take away. Where others move it to its new name and back between the two looks
# before a rename, the name is taken.
MAY_END = {0, 65, 75}
MOVE_MAY_END = MAY_END | {73}


class Crowd(BoxTest):
    """Whatever the others do, each message that was delivered is there once and whole at the end."""

    def setUp(self) -> None:
        super().setUp()
        self.other = Box(self.top / "other")

    def work(self, seed: int) -> tuple[list[str], list[str]]:
        """Delivers and changes messages for some seconds. The checksums of those that it delivered, and what ended as it must not."""
        chance = random.Random(seed)
        ends = time.monotonic() + SECONDS
        delivered, wrong = [], []
        names: list[bytes] = []
        while time.monotonic() < ends:
            if len(names) < 3 or chance.random() < 0.2:
                body = b"Subject: %d\n\n" % seed + chance.randbytes(chance.randrange(3000))
                ended = run("deliver", chance.choice(("box", "other")), "--print", given=body, cwd=self.top)
                if ended.status == 0:
                    delivered.append(hashlib.sha256(body).hexdigest())
                    names.append(ended.printed.strip())
                else:
                    wrong.append(f"deliver: {ended}")
                continue
            wrong.extend(self.change(chance, names))
        return delivered, wrong

    def change(self, chance: random.Random, names: list[bytes]) -> list[str]:
        """Changes a message that this worker delivered, which others move too, or any that is there."""
        box, to = chance.sample(("box", "other"), 2)
        listed = run("list", box, cwd=self.top)
        if listed.status == 75:
            return []
        keys = [line.split(b"\t")[2] for line in listed.printed.splitlines()] or names
        words = chance.choice((["seen", box], ["flag", box, chance.choice(("+F", "-F", "+R", "+S-R"))], ["move", box, to]))
        if words[0] == "flag":
            words = ["flag", box, "--", words[2]]
        ended = run(*words, chance.choice(keys), cwd=self.top)
        may_end = MOVE_MAY_END if words[0] == "move" else MAY_END
        return [] if ended.status in may_end else [f"{words}: {ended}"]

    def test_crowd(self) -> None:
        with ThreadPoolExecutor(WORKERS) as pool:
            ended = list(pool.map(self.work, range(WORKERS)))
        self.assertEqual([line for _, wrong in ended for line in wrong], [])
        delivered = Counter(digest for digests, _ in ended for digest in digests)
        found = Counter(hashlib.sha256(body).hexdigest() for box in (self.box, self.other) for body in box.files().values())
        self.assertGreater(len(delivered), WORKERS)
        self.assertEqual(found, delivered)
        self.assertEqual(self.box.names("tmp") + self.other.names("tmp"), [])
        self.assertEqual(self.run_well("check", "box") + self.run_well("check", "other"), b"")

    def test_flags_add_up(self) -> None:
        """Sixteen processes each set a flag of one message, and none is lost."""
        self.box.put("cur", b"m:2,")
        with ThreadPoolExecutor(WORKERS) as pool:
            ended = list(pool.map(lambda letter: run("flag", "box", f"+{letter}", "m", cwd=self.top), "ABCDEFGHIJKLMNOP"))
        self.assertEqual([one for one in ended if one.status not in (0, 75)], [])
        done = "".join(letter for letter, one in zip("ABCDEFGHIJKLMNOP", ended) if one.status == 0)
        self.assertEqual(self.box.names("cur"), [b"m:2," + done.encode()])
