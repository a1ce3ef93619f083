"""The numbers of a report's page for other programs: findings.json."""

from __future__ import annotations

import json
import pathlib
from dataclasses import asdict
from typing import Any

from .advice import advice
from .clock import SECOND
from .conditions import Run
from .facts import Facts
from .report import Report
from .survey import Absence

FINDINGS = "findings.json"


def write(report: Report, folder: pathlib.Path) -> None:
    """Writes them."""
    refused = [
        {"command": ran.words[1], "status": ran.status, "error": ran.error.strip(), "try": advice(report, ran)}
        for ran in report.refusals
    ]
    found: dict[str, Any] = {"is_image": report.is_image, "refused": refused}
    if report.facts is not None and report.survey is not None:
        survey = report.survey
        found |= _of(report.facts)
        found["rows"] = survey.rows
        found["missing"] = [_absence(one) for one in survey.absences]
        found["parameters"] = {name: asdict(survey.values[name]) if name in survey.values else None for name in survey.ranges}
        found["watched"] = [asdict(one) for one in report.watched]
        found["clock"] = [{"recording": one.recording + 1, "time": (one.begin or 0) / SECOND, "said": one.text} for one in report.clock]
        if report.flights is not None:
            found["flights"] = [{"flight": one.number, **_run(one.run), "missing": one.seconds_missing, "said": one.note} for one in report.flights.flights]
        if report.events is not None:
            found["events"] = [
                {"rule": one.rule.name, "severity": one.severity, **_run(one.run), "peak": one.run.peak, "notes": one.notes(report.description)}
                for one in report.events.events
            ]
            found["events_watched"] = [{"rule": rule.name, "seconds": seconds} for rule, seconds, _ in report.events.watched]
        found["exceedances_untold"] = report.untold
        found["exceedances"] = [_exceedance(report, number) for number in range(len(report.found))]
    (folder / FINDINGS).write_text(json.dumps(found, indent=1) + "\n")


def _run(run: Run) -> dict[str, Any]:
    return {"recording": run.recording + 1, "begin": run.begin / SECOND, "end": run.end / SECOND}


def _of(facts: Facts) -> dict[str, Any]:
    acks = {"newest": facts.acks.newest, "held": _is_held(facts)} if facts.acks else None
    runs = [
        {
            "first": run.first,
            "last": run.last,
            "listed": run.is_listed,
            "misnumbered": run.is_misnumbered,
            "sessions": [asdict(one) for one in run.sessions],
        }
        for run in facts.runs
    ]
    holes = [asdict(one) for one in facts.holes]
    more = {"frames": facts.frames, "far": facts.far, "pending": facts.pending, "as_salvaged": facts.is_as_salvaged, "as_listed": facts.are_as_listed}
    return {"runs": runs, "holes": holes, **more, "acks": acks}


def _is_held(facts: Facts) -> bool | None:
    newest = facts.acks.newest if facts.acks else None
    return facts.holds(newest - 1) if newest else None


def _absence(one: Absence) -> dict[str, Any]:
    times = {name: None if ticks is None else ticks / SECOND for name, ticks in (("begin", one.begin), ("length", one.length))}
    return {**asdict(one), "event": one.event.value, "recording": one.recording + 1, **times}


def _exceedance(report: Report, number: int) -> dict[str, Any]:
    one = report.found[number]
    begins = [{"recording": recording + 1, "time": begin / SECOND} for recording, begin in one.begins()]
    return {**asdict(one.exceedance), "begins": begins}
