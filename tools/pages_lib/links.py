"""Links between pages: the file is there, and so is the heading that is named after a `#`. Links to other sites are not followed."""

from __future__ import annotations

import pathlib
import re
from typing import Iterator

LINK = re.compile(r"\]\(([^)\s]+)\)")
SITE = re.compile(r"[a-z]+:")
HEADING = re.compile(r"^#+ (.*)$", re.MULTILINE)


def anchor_of(heading: str) -> str:
    """The name that a heading has in a link: small letters, digits and hyphens."""
    text = re.sub(r"\[([^\]]*)\]\([^)]*\)", r"\1", heading.strip()).lower()
    return re.sub(r"[^\w\- ]", "", text).replace(" ", "-")


def is_dead(page: pathlib.Path, target: str) -> bool:
    name, _, anchor = target.partition("#")
    file = page.parent / name if name else page
    if not file.exists():
        return True
    if not anchor or file.suffix != ".md":
        return False
    return anchor not in {anchor_of(heading) for heading in HEADING.findall(file.read_text(encoding="utf-8"))}


def faults(top: pathlib.Path, page: str) -> Iterator[str]:
    for number, line in enumerate((top / page).read_text(encoding="utf-8").splitlines(), 1):
        for target in LINK.findall(line):
            if not SITE.match(target) and is_dead(top / page, target):
                yield f"{page}:{number}: a dead link: {target}"
