"""What pages quote: definitions in fenced blocks marked `antt`, and code in blocks marked `rust`, `c` or `python`, after a line that ends
with "From `FILE`:". Each block must be in that file as it is."""

from __future__ import annotations

import pathlib
import re
from typing import Iterator, Optional

QUOTES = ("```antt", "```rust", "```c", "```python")
SOURCE = re.compile(r"From `([^`]+)`:$")


def blocks(page: pathlib.Path) -> Iterator[tuple[int, Optional[str], str]]:
    """Gives each quoted block with the number of its first line and the file that it is quoted from."""
    source, block, first = None, None, 0
    for number, line in enumerate(page.read_text(encoding="utf-8").splitlines(), 1):
        if block is None and (found := SOURCE.search(line)):
            source = found[1]
        elif block is None and line in QUOTES:
            block, first = [], number + 1
        elif block is not None and line == "```":
            yield first, source, "\n".join(block)
            block = None
        elif block is not None:
            block.append(line)


def is_in_file(block: str, file: pathlib.Path) -> bool:
    """Whether the file has the block, from the beginning of a line to the end of one."""
    return file.is_file() and f"\n{block}\n" in "\n" + file.read_text(encoding="utf-8") + "\n"


def faults(top: pathlib.Path, page: str) -> Iterator[str]:
    for first, source, block in blocks(top / page):
        if source is None:
            yield f"{page}:{first}: this is not so in any file: a line From `FILE`: is missing"
        elif not is_in_file(block, top / source):
            yield f"{page}:{first}: this is not so in {source}"
