"""Findings that are known: lines `CLAUSE ACTOR CALL` of a file, where a star stands for any text."""

from __future__ import annotations

import re
from typing import List, NamedTuple, Pattern, Tuple

from .judge_run import SENTENCES, Told
from .refused import Refused


class Known(NamedTuple):
    """A line of the file, and what it matches."""

    text: str
    pattern: Pattern[str]


def read_known(path: str) -> List[Known]:
    """Reads a file of known findings. Empty lines and those that begin with # are passed over."""
    known = []
    with open(path, encoding="utf-8", errors="surrogateescape") as lines:
        for number, line in enumerate(lines, 1):
            text = line.strip()
            if not text or text.startswith("#"):
                continue
            if text.split(" ")[0] not in SENTENCES:
                raise Refused(f"{path}: line {number}: {text.split(' ')[0]} is no clause")
            known.append(Known(text, re.compile(".*".join(map(re.escape, text.split("*"))), re.DOTALL)))
    return known


def split(found: List[Told], known: List[Known]) -> Tuple[List[Told], List[Told], List[str]]:
    """The findings that are new, those that are known, and the lines that match none."""
    texts = {finding: f"{finding.clause} {finding.actor} {finding.call}" for finding in found}
    old = [finding for finding in found if any(each.pattern.fullmatch(texts[finding]) for each in known)]
    unmet = [each.text for each in known if not any(each.pattern.fullmatch(text) for text in texts.values())]
    return [finding for finding in found if finding not in old], old, unmet
