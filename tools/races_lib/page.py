"""A page that steps through races: one file, which holds the data."""

from __future__ import annotations

import json
import re
from dataclasses import dataclass
from html import escape
from pathlib import Path

from .side import PLACES, Order, Side

HERE = Path(__file__).resolve().parent
HEAD = ("Step", "Who", "What", "tmp, new and cur after it")
TITLE = "Races in a maildir, step by step"
ABOUT = "Two mail programs use one maildir at once, in every order of their calls: released programs as they were recorded, and Deolmutt."
MORE = " The clauses are those of {}; {} has the rules of a maildir, and {} more programs."
DOCS = (("THEOREM.md", "the theorem"), ("JUDGE.md", "the judge"), ("JUDGED.md", "what real programs do"))
PREVIEW = '<meta property="og:image" content="races.png">\n'


@dataclass
class Scene:
    """A race with one side or two."""

    name: str
    title: str
    about: str
    sides: list[Side]
    # The program that the list of races names.
    program: str = ""

    def label(self) -> str:
        """What the list of races says."""
        return f"{self.program}: {self.title[:1].lower()}{self.title[1:]}" if self.program else self.title

    def partners(self) -> list[int]:
        """For each order of the first side, the one of the second that is most like it. Those with which the page opens belong together."""
        if len(self.sides) < 2:
            return []
        first, second = self.sides
        best = [min(range(len(second.orders)), key=lambda at: unlikeness(order, second.orders[at])) for order in first.orders]
        best[first.own] = second.own
        return best

    def data(self) -> dict[str, object]:
        """The scene as the page has it."""
        about = {"name": self.name, "title": self.title, "label": self.label(), "about": self.about}
        return about | {"partners": self.partners(), "sides": [side.data() for side in self.sides]}


def unlikeness(one: Order, other: Order) -> tuple[int, float]:
    """How unlike two orders are: first by how many steps at the beginning are of the same, and then by how early the second comes."""
    alike = next((at for at, (a, b) in enumerate(zip(one.turns, other.turns)) if a != b), min(len(one.turns), len(other.turns)))
    return -alike, abs(lateness(one.turns) - lateness(other.turns))


def lateness(turns: str) -> float:
    """The part of all steps of A that come before a step of the others, on average."""
    before = [turns[:at].count("A") for at, who in enumerate(turns) if who != "A"]
    return sum(before) / max(1, len(before)) / max(1, turns.count("A"))


def table(scene: Scene) -> str:
    """The order of each side that shows the most, as tables for readers without JavaScript."""
    runs = "".join(run_table(side) for side in scene.sides)
    return f"<section><h2>{escape(scene.title)}</h2><p>{escape(scene.about)}</p>{runs}</section>"


def run_table(side: Side) -> str:
    """One order of a side as a table."""
    order = side.orders[side.own]
    lines = [row_of(("0", "", "the beginning"), side, order.beginning)]
    for at, step in enumerate(order.steps, 1):
        lines.append(row_of((str(at), step.who, "; ".join(["".join(step.text), *map(noted, step.notes)])), side, step.paths))
    head = "".join(f'<th scope="col">{word}</th>' for word in HEAD)
    actors = ", ".join(f"{letter}: <code>{escape(words)}</code>" for letter, words in side.actors)
    return (
        f"<h3>{escape(side.who)} ({escape(side.tag)})</h3><p><strong>{escape(side.headline[1])}.</strong></p>"
        f"<p>{escape(side.count)} {actors}</p>"
        f'<div class="wide" tabindex="0" role="region" aria-label="{escape(side.who)}, one order">'
        f"<table><thead><tr>{head}</tr></thead><tbody>{''.join(lines)}</tbody></table></div>"
        f"<p><strong>{escape(order.ending)}</strong></p><p>{escape(side.about)}</p>"
    )


def noted(note: list[str]) -> str:
    """A note on a step."""
    kind, head, text = note
    return ("breaks the law: " if kind == "bad" else "") + (f"{head}: " if head else "") + text


def row_of(cells: tuple[str, ...], side: Side, paths: list[str]) -> str:
    """A row of the table."""
    places = [
        f"{escape(side.path(folder, place))}: {escape(', '.join(names) or '–')}"
        for folder, directories in zip(side.folders, side.rows(paths))
        for place, names in zip(PLACES, directories)
    ]
    return "<tr>" + "".join(f"<td>{cell}</td>" for cell in (*map(escape, cells), "<br>".join(places))) + "</tr>"


def page(scenes: list[Scene], is_of_docs: bool) -> str:
    """The whole page, which may be one of docs."""
    data = json.dumps([scene.data() for scene in scenes], ensure_ascii=False, separators=(",", ":")).replace("<", "\\u003c")
    parts = {
        "TITLE": TITLE if is_of_docs else escape(scenes[0].title),
        "ABOUT": ABOUT if is_of_docs else escape(scenes[0].about),
        "PREVIEW": PREVIEW if is_of_docs else "",
        "MORE": MORE.format(*(f'<a href="{name}">{text}</a>' for name, text in DOCS)) if is_of_docs else "",
        "STYLE": (HERE / "page.css").read_text(encoding="utf-8"),
        "SCRIPT": (HERE / "page.js").read_text(encoding="utf-8"),
        "TABLES": "\n".join(table(scene) for scene in scenes),
        "DATA": data,
    }
    return re.sub("@([A-Z]+)@", lambda found: parts[found[1]], (HERE / "page.html").read_text(encoding="utf-8"))
