"""Words of a page: how many there are, those of a cell of a table and of a sentence, and words that the pages have dropped.

A word has a letter or a digit, so the bars of a table are none.
"""

from __future__ import annotations

import pathlib
import re
from typing import Iterator

MOST_IN_A_CELL = 60
MOST_IN_A_SENTENCE = 30
# One sentence in so many may have more. Fewer than four words are no sentence.
ONE_LONG_IN = 20
LEAST_IN_A_SENTENCE = 4

# The page that lists the words, below this heading: what is in backquotes in the second column was dropped.
LIST = "CONTRIBUTING.md"
HEADING = "## Words"

SPAN = re.compile(r"`[^`]*`")
BETWEEN_SENTENCES = re.compile(r"(?<=[.!?:])\s+(?=[A-Z`\"(\[*])")
SAID_ELSEWHERE = re.compile(r"`[^`]*`|\"[^\"]*\"")


def count(text: str) -> int:
    return sum(1 for word in text.split() if re.search(r"\w", word))


def prose(text: str) -> Iterator[tuple[int, str]]:
    """The lines of a page with their numbers, but for fenced and indented blocks."""
    is_fenced = False
    for number, line in enumerate(text.splitlines(), 1):
        if line.startswith("```"):
            is_fenced = not is_fenced
        elif not is_fenced and not line.startswith("    "):
            yield number, line


def cells(line: str) -> list[str]:
    return [cell.strip() for cell in line.strip().strip("|").split("|")] if line.startswith("|") else []


def dropped_by(text: str) -> list[str]:
    """The words that the page with the list says are dropped."""
    _, _, after = text.partition(f"\n{HEADING}\n")
    rows = [cells(line) for _, line in prose(re.split(r"\n## ", after)[0])]
    return [word.strip("`") for row in rows if len(row) == 2 for word in SPAN.findall(row[1])]


def too_many(page: str, text: str, budget: int) -> Iterator[str]:
    words = count(text)
    if words > budget:
        yield f"{page}: {words} words, {words - budget} more than its budget of {budget:,}"


def long_cells(page: str, text: str) -> Iterator[str]:
    for number, line in prose(text):
        for cell in cells(line):
            if count(cell) > MOST_IN_A_CELL:
                yield f"{page}:{number}: a cell of {count(cell)} words, and {MOST_IN_A_CELL} are allowed: {cell[:40]}"


def long_sentences(page: str, text: str) -> Iterator[str]:
    parts = [part for _, line in prose(text) for part in (cells(line) or [line])]
    lengths = [count(it) for part in parts for it in BETWEEN_SENTENCES.split(part)]
    sentences = [it for it in lengths if it >= LEAST_IN_A_SENTENCE]
    long = sum(it > MOST_IN_A_SENTENCE for it in sentences)
    if long * ONE_LONG_IN > len(sentences):
        yield f"{page}: {long} of {len(sentences)} sentences have over {MOST_IN_A_SENTENCE} words, and one in {ONE_LONG_IN} may"


def dropped_words(page: str, text: str, dropped: list[str]) -> Iterator[str]:
    """The dropped words of a page, but for those in code and in quotation marks."""
    if not dropped:
        return
    one = re.compile(rf"(?<![\w-])({'|'.join(map(re.escape, dropped))})(?![\w-])", re.IGNORECASE)
    for number, line in prose(text):
        for found in one.finditer(SAID_ELSEWHERE.sub("``", line)):
            yield f"{page}:{number}: the pages say this by another word ({LIST}, Words): {found[0]}"


def faults(top: pathlib.Path, page: str, budget: int) -> Iterator[str]:
    text = (top / page).read_text(encoding="utf-8")
    yield from too_many(page, text, budget)
    yield from long_cells(page, text)
    yield from long_sentences(page, text)
    yield from dropped_words(page, text, dropped_by((top / LIST).read_text(encoding="utf-8")))
