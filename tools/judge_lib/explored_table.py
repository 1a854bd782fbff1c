"""What all interleavings showed, as a table for people and as an object for programs."""

from __future__ import annotations

from typing import Any, Dict, List, Mapping

from .exploring import Explored
from .judge_run import SENTENCES
from .statuses import Expected, Statuses, unexpected


def table(explored: Explored, expected: Expected) -> List[str]:
    """The table. Orders in which the commands end alike have one row."""
    rest = "" if explored.is_whole else ", and there are more"
    lines = [f"interleavings   {len(explored.orders)}{rest}", f"break the law   {explored.breaking()}"]
    lines += [f"{_ends(statuses):<15} in {len(orders)}, first in {orders[0]}" + _unexpected(statuses, expected)
              for statuses, orders in _by_statuses(explored)]
    if explored.waited:
        lines.append(f"not in order    {explored.waited} runs, where one command waited for another")
    if explored.without_call():
        lines.append(f"no call         {' '.join(explored.without_call())}: never called in a maildir")
    for clause, broken in sorted(explored.broken.items(), key=lambda item: -item[1].count):
        lines.append(f"{clause:<15} {broken.count}, first in {broken.order or 'none'}: {SENTENCES[clause]}")
    return lines


def _by_statuses(explored: Explored) -> List[Any]:
    rows: Dict[str, Any] = {}
    for name, order in explored.orders.items():
        rows.setdefault(_ends(order.statuses), (order.statuses, []))[1].append(name or "none")
    return list(rows.values())


def _ends(statuses: Mapping[str, Any]) -> str:
    return "ends " + " ".join(f"{side} {'signal' if status is None else status}" for side, status in statuses.items())


def _unexpected(statuses: Statuses, expected: Expected) -> str:
    sides = unexpected(statuses, expected)
    return f": nobody expected that of {' '.join(sides)} (--status)" if sides else ""


def all_unexpected(explored: Explored, expected: Expected) -> List[str]:
    """The orders in which a command ended otherwise than expected."""
    return [name for name, order in explored.orders.items() if unexpected(order.statuses, expected)]


def as_json(explored: Explored, expected: Expected) -> Dict[str, Any]:
    """The same as an object; tools/schemas/explore.json says what it has."""
    return {
        "is_whole": explored.is_whole,
        "waited": explored.waited,
        "without_call": list(explored.without_call()),
        "orders": [{"order": name, "statuses": order.statuses, "unexpected": unexpected(order.statuses, expected), "clauses": order.clauses}
                   for name, order in explored.orders.items()],
        "clauses": [{"clause": clause, "interleavings": broken.count, "first": broken.order, "line": broken.finding.line,
                     "actors": sorted(broken.actors), "says": SENTENCES[clause]} for clause, broken in explored.broken.items()],
    }
