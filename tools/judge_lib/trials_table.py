"""What all trials showed, as a table for people and as an object for programs."""

from __future__ import annotations

from typing import Any, Dict, List

from .judge_run import SENTENCES
from .trials import FAULTS, KINDS, Tried

_ABOUT = {"silent": "status 0, and the mail is not as after a whole run", "doubled": "a retry leaves a message twice",
          "not alone": "a call of another process failed too, so nothing is said of it"}


def table(tried: Tried) -> List[str]:
    """The table: a count of each kind, and a row for each call."""
    rest = "" if tried.is_whole else ", and there are more"
    lines = [f"calls           {len(tried.trials)}{rest}"]
    for kind in KINDS:
        those = [trial for trial in tried.trials if kind in trial.kinds]
        about = f", {_ABOUT[kind]}" if kind in _ABOUT and those else ""
        lines.append(f"{kind:<15} {len(those)}" + (f", first {those[0].name}{about}" if those else ""))
    lines += [f"{clause:<15} {broken.count}: {SENTENCES[clause]}" for clause, broken in tried.broken.items()]
    return lines + [f"{trial.name}, {trial.call}: {'; '.join(trial.said)}" for trial in tried.trials]


def is_faulty(tried: Tried) -> bool:
    """Whether anything is wrong after a trial."""
    return any(kind in FAULTS for trial in tried.trials for kind in trial.kinds)


def as_json(tried: Tried) -> Dict[str, Any]:
    """The same as an object; tools/schemas/trials.json says what it has."""
    return {"is_whole": tried.is_whole, "trials": [trial._asdict() for trial in tried.trials]}
