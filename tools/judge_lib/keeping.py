"""Keeps what interleavings showed: the logs of those that break the law, by clause, and where asked all of each."""

from __future__ import annotations

import os
import re
from typing import Optional

from .exploring import Order
from .judge_run import SENTENCES
from .making import Log
from .refused import Refused
from .statuses import shown

_OWN = re.compile(r"([ABC]+|none|[a-z0-9]+\.\d+)\.log")


class Keeper:
    """A folder for logs of findings, `CLAUSE/ORDER.log`, and one for all, `ORDER/log`, `ORDER/A.out` and `ORDER/statuses`."""

    def __init__(self, findings: str, whole: Optional[str]) -> None:
        self._findings, self._whole = findings, whole
        if whole is not None and os.path.isdir(whole) and os.listdir(whole):
            raise Refused(f"{whole}: is not empty")
        self._forget_former()

    def _forget_former(self) -> None:
        """Takes the logs of an earlier run away, that nobody takes them for this one's."""
        for clause in SENTENCES:
            folder = os.path.join(self._findings, clause)
            for name in os.listdir(folder) if os.path.isdir(folder) else []:
                if _OWN.fullmatch(name):
                    os.unlink(os.path.join(folder, name))

    def keep(self, order: str, log: Log, judged: Order) -> None:
        """Keeps what one interleaving showed. One without a call is kept as `none`."""
        order = order or "none"
        for clause in judged.clauses:
            _write(os.path.join(self._findings, clause), f"{order}.log", log.encoded())
        if self._whole is not None:
            folder = os.path.join(self._whole, order)
            statuses = "".join(f"{side} ended with {shown(status)}\n" for side, status in judged.statuses.items())
            _write(folder, "log", log.encoded())
            _write(folder, "statuses", statuses.encode())
            for side, said in log.said.items():
                _write(folder, f"{side}.out", said)


def _write(folder: str, name: str, text: bytes) -> None:
    os.makedirs(folder, exist_ok=True)
    with open(os.path.join(folder, name), "wb") as file:
        file.write(text)
