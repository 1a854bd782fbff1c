"""The pictures of docs: one delivery, call by call, and two listings beside a move."""

from __future__ import annotations

from html import escape

from .marks import marks_of
from .page import Scene as PageScene
from .play import Played, Row
from .scene import Scene, shown
from .side import PLACES, Order, Shown, Side

LEFT, WIDE, COLUMN, TOP, DEEP = 16, 440, 176, 58, 40
HALF, LINE = 440, 30

STYLE = """svg{--ground:#fff;--text:#1b1f24;--soft:#57606a;--line:#818b98;--box:#f3f5f8;
--good:#116329;--good-box:#dafbe1;--lost:#a40e26;--lost-box:#ffebe9}
@media (prefers-color-scheme:dark){
svg{--ground:#0d1117;--text:#e6edf3;--soft:#a8b3bf;--line:#6e7681;--box:#161b22;
--good:#7ee787;--good-box:#12331c;--lost:#ffa198;--lost-box:#4a1517}}
text{font:14px system-ui,sans-serif;fill:var(--text)}.code{font-family:ui-monospace,monospace;font-size:13px}.soft{fill:var(--soft)}.end{text-anchor:end}
.ground{fill:var(--ground)}.box{fill:var(--box);stroke:var(--line)}.title{font-size:16px;font-weight:600}
.good{fill:var(--good);font-weight:600}.box.good{fill:var(--good-box);stroke:var(--good)}
.lost{fill:var(--lost);font-weight:600}.box.lost{fill:var(--lost-box);stroke:var(--lost)}"""


def text_at(x: int, y: int, kind: str, text: str) -> str:
    """A text of a picture."""
    return f'<text x="{x}" y="{y}" class="{kind}">{escape(text)}</text>'


def box_at(x: int, y: int, wide: int, high: int, kind: str = "") -> str:
    """A box of a picture."""
    return f'<rect x="{x}" y="{y}" width="{wide}" height="{high}" rx="6" class="box {kind}"/>'


def drawn(width: int, height: int, title: str, parts: list[str]) -> str:
    """A picture as SVG, legible on light and dark grounds."""
    return (
        f'<svg xmlns="http://www.w3.org/2000/svg" viewBox="0 0 {width} {height}" width="{width}" height="{height}" role="img" '
        f'aria-label="{escape(title)}"><title>{escape(title)}</title><style>{STYLE}</style>\n'
        + "\n".join([f'<rect width="{width}" height="{height}" class="ground"/>', *parts])
        + "\n</svg>\n"
    )


def short(call: str, reply: str) -> str:
    """A call without the folder's name, and its reply."""
    return " ".join(word.split("/", 1)[1] if "/" in word else word for word in call.split(" ")) + " → " + reply.split(":")[0]


def row_of(scene: Scene, rows: tuple[Row, ...], y: int) -> list[str]:
    """The three directories after a step."""
    parts = []
    for at, place in enumerate(PLACES):
        found = [row for row in rows if row[0] == scene.folders()[0] and row[1] == place.encode()]
        names = [shown(row[2]) + (f" · {shown(row[4])} B" if len(found) == 1 else "") for row in found]
        x = LEFT + WIDE + at * COLUMN
        parts += [box_at(x, y - 20, COLUMN - 8, DEEP - 10), text_at(x + 8, y, "code", ", ".join(names))]
    return parts


def delivery(scene: Scene, played: Played) -> str:
    """The calls of one delivery, and the rows of tmp, new and cur after each."""
    title = "A delivery in five calls"
    parts = [text_at(LEFT, 26, "title", title)]
    parts += [text_at(LEFT + WIDE + at * COLUMN + 8, 26, "soft", place) for at, place in enumerate(PLACES)]
    parts += [text_at(LEFT, TOP, "soft", "at the beginning"), *row_of(scene, played.beginning, TOP)]
    for at, (step, mark) in enumerate(zip(played.steps, marks_of(scene, played)), 1):
        y, is_effect = TOP + DEEP * at, mark.kind == "effect"
        parts += [text_at(LEFT, y, "soft", str(at)), text_at(LEFT + 62, y - (7 if is_effect else 0), "code", short(step.call, step.reply))]
        if is_effect:
            parts.append(text_at(LEFT + 62, y + 9, "good", "takes effect"))
        parts += row_of(scene, step.rows, y)
    return drawn(LEFT * 2 + WIDE + COLUMN * 3, TOP + DEEP * (len(played.steps) + 1), title, parts)


def twice(scene: PageScene, heading: str, title: str) -> str:
    """One race, twice: a released program, and Deolmutt."""
    orders = [side.orders[side.own] for side in scene.sides]
    height = 92 + LINE * (max(len(order.steps) for order in orders) + 2)
    parts = [text_at(LEFT, 28, "title", heading)]
    for at, (side, order) in enumerate(zip(scene.sides, orders)):
        parts += half(side, order, LEFT + at * (HALF + LEFT), height)
    return drawn(LEFT * 3 + HALF * 2, height, title, parts)


def half(side: Side, order: Order, x: int, height: int) -> list[str]:
    """One of the two."""
    title = f"{side.who}: {first_read(order)} first"
    parts = [box_at(x, 44, HALF, height - 60), text_at(x + 14, 70, f"title {order.outcome}", title)]
    parts.append(text_at(x + HALF - 14, 70, "soft end", side.tag))
    for at, step in enumerate(order.steps, 1):
        y = 74 + LINE * at
        parts += [text_at(x + 14, y, "soft", step.who), text_at(x + 40, y, "code", words_of(step))]
    box = box_at(x + 10, height - 62, HALF - 20, 30, order.outcome)
    return [*parts, box, text_at(x + 20, height - 42, order.outcome, ending_of(order))]


def first_read(order: Order) -> str:
    """The directory that A reads first."""
    return next(step.text[1].rstrip("/") for step in order.steps if step.who == "A")


def words_of(step: Shown) -> str:
    """A step in words, as far as there is room: of an end its status, of a refusal why."""
    return "".join(step.text).split(", which is taken")[0].removesuffix(": ENOENT")


def ending_of(order: Order) -> str:
    """What came of an order: what is lost, or what was answered last."""
    answers = [text for _, head, text in order.steps[-1].notes if head == "answers"]
    return f"Nothing is lost: {answers[0]}" if answers else order.ending.split(". ")[0]
