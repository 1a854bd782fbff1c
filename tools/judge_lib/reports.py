"""What a checked run showed: for people, and in the forms of those who run checks: JSON, JUnit, SARIF and GitHub's annotations."""

from __future__ import annotations

import re
from typing import Any, Dict, List, NamedTuple
from xml.sax.saxutils import quoteattr

from .judge_run import SENTENCES, Told
from .making import UNCLAIMED
from .statuses import Statuses

_SARIF = "https://json.schemastore.org/sarif-2.1.0.json"
_NOT_IN_XML = re.compile("[^\t\n\r\x20-\ud7ff\ue000-\ufffd\U00010000-\U0010ffff]")


class Checked(NamedTuple):
    """A run that was traced and judged. `wrong` says why it is no whole run, `unmet` which known findings were not found."""

    log: str
    statuses: Statuses
    new: List[Told]
    known: List[Told]
    unmet: List[str]
    wrong: List[str]
    has_claims: bool
    allowed: List[str]

    def status(self) -> int:
        """That of the judge, but that a run which is no whole one is never a good one."""
        return 1 if self.new else 2 if self.wrong else 0


def text(checked: Checked) -> List[str]:
    """For people."""
    lines = [_line(checked, finding) for finding in checked.new]
    lines += [f"{_line(checked, finding)} (known)" for finding in checked.known]
    lines += [f"known, and not found: {each}" for each in checked.unmet]
    return lines + [f"{len(checked.new)} findings, {len(checked.known)} known; the log is in {checked.log}"]


def _line(checked: Checked, finding: Told) -> str:
    return f"{checked.log}:{finding.line}: {_said(finding)}"


def _said(finding: Told) -> str:
    before = "" if finding.before is None else f" (see line {finding.before})"
    return f"{finding.actor}: {finding.call}: {finding.clause}: {finding.why}{before}"


def github(checked: Checked) -> List[str]:
    """GitHub's annotations."""
    found = [f"::error file={_plain(checked.log)},line={finding.line},title={finding.clause}::{_plain(_said(finding))}" for finding in checked.new]
    return found + [f"::error title=the run::{_plain(wrong)}" for wrong in checked.wrong]


def _plain(words: str) -> str:
    return words.replace("%", "%25").replace("\r", "%0D").replace("\n", "%0A")


def as_json(checked: Checked) -> Dict[str, Any]:
    """An object; tools/schemas/check-run.json says what it has."""
    findings = [{**finding._asdict(), "is_known": is_known}
                for is_known, those in ((False, checked.new), (True, checked.known)) for finding in those]
    return {"status": checked.status(), "log": checked.log, "ended_with": checked.statuses, "findings": findings,
            "known_and_not_found": checked.unmet, "wrong": checked.wrong, "not_judged": _not_judged(checked)}


def _not_judged(checked: Checked) -> List[str]:
    return [clause for clause in SENTENCES if clause in checked.allowed or clause in UNCLAIMED and not checked.has_claims]


def sarif(checked: Checked) -> Dict[str, Any]:
    """SARIF 2.1.0, with a rule for each clause."""
    rules = [{"id": clause, "shortDescription": {"text": sentence}} for clause, sentence in SENTENCES.items()]
    results = [{"ruleId": finding.clause, "level": "error", "message": {"text": _said(finding)},
                "locations": [{"physicalLocation": {"artifactLocation": {"uri": checked.log}, "region": {"startLine": finding.line}}}],
                **({"suppressions": [{"kind": "external"}]} if finding in checked.known else {})}
               for finding in [*checked.new, *checked.known]]
    return {"$schema": _SARIF, "version": "2.1.0", "runs": [{"tool": {"driver": {"name": "deolmutt judge", "rules": rules}}, "results": results}]}


def junit(checked: Checked) -> str:
    """JUnit's XML, with a case for each clause and one for the run itself."""
    cases = [_case("the run", checked.wrong, False)]
    for clause in SENTENCES:
        cases.append(_case(clause, [_line(checked, each) for each in checked.new if each.clause == clause], clause in _not_judged(checked)))
    failures = sum("<failure" in case for case in cases)
    skipped = sum("<skipped" in case for case in cases)
    return "\n".join(['<?xml version="1.0" encoding="UTF-8"?>',
                      f'<testsuite name="check-run" tests="{len(cases)}" failures="{failures}" errors="0" skipped="{skipped}">',
                      *cases, "</testsuite>", ""])


def _case(name: str, wrong: List[str], is_skipped: bool) -> str:
    inner = "<skipped/>" if is_skipped else f"<failure message={_attribute(chr(10).join(wrong))}/>" if wrong else ""
    return f'  <testcase classname="maildir" name={_attribute(name)}>{inner}</testcase>'


def _attribute(words: str) -> str:
    return quoteattr(_NOT_IN_XML.sub("?", words), {"\n": "&#10;"})
