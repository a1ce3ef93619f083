"""The page of a fleet: a row a flight, and a picture of its exceedances by rule and month, in one file that opens without a network."""

from __future__ import annotations

import html
import io
import json
import pathlib
from collections import Counter
from typing import Any, Iterable

import matplotlib
import numpy as np
from matplotlib.figure import Figure

from .fleet_job import EXCEEDANCES, Row, count_of_events
from .page import PAGE, POLICY

HERE = pathlib.Path(__file__).parent
MOST_RULES = 40  # of the picture
MOST_NUMBERS = 600  # cells of the picture that have their number in them
NO_DATE = "no date"
RULE = EXCEEDANCES.index("rule")
COLUMNS = "flight,start,status,said,hours,runs,sessions,gaps,doubtful,exceedances,events,first,last,seconds,file".split(",")
BODY = """\
<header><h1>{title}</h1><p id="about">{about}</p>
<p><input type="search" id="find" placeholder="find in all columns" aria-label="find in all columns">
<select id="status" aria-label="status"><option value="">all</option>{statuses}</select> <span id="shown"></span></p></header>
<main>{picture}<table id="flights"><thead><tr>{heads}</tr></thead><tbody></tbody></table></main>
<script type="application/json" id="rows">{data}</script>
<script>{script}</script>"""


class Fleet:
    """What the page shows, gathered from rows one at a time."""

    def __init__(self, folder: pathlib.Path) -> None:
        self.folder = folder
        self.rows: list[list[Any]] = []
        self.statuses: "Counter[str]" = Counter()
        self.exceedances: "Counter[tuple[str, str]]" = Counter()  # by rule and month
        self.hours: "Counter[str]" = Counter()  # by month

    def add(self, row: Row) -> None:
        """Takes a flight."""
        summary, month = row["summary"], row["start"][:7] or NO_DATE
        hours = summary.get("duration", 0) / 3600
        self.statuses[row["status"]] += 1
        self.hours[month] += hours
        self.exceedances.update((one[RULE], month) for one in row["exceedances"])
        report = pathlib.Path("reports", row["name"], "report.html")
        link = report.as_posix() if (self.folder / report).is_file() else ""
        counts: list[Any] = [len(row["exceedances"]), count_of_events(row)] if summary else ["", ""]
        seen = [round(hours, 3) if summary else None, *(summary.get(name) for name in ("runs", "sessions", "gaps", "doubtful")), *counts]
        times = [float(summary[name]) if summary.get(name) else None for name in ("first", "last")]
        name = pathlib.Path(row["file"]).name
        self.rows.append([name, row["start"], row["status"], row["said"], *seen, *times, row["seconds"], row["file"], link])


def write(rows: Iterable[Row], folder: pathlib.Path, path: pathlib.Path, title: str) -> None:
    """Writes the page."""
    fleet = Fleet(folder)
    for row in rows:
        fleet.add(row)
    counts = ", ".join(f"{count:,} {status}" for status, count in sorted(fleet.statuses.items()))
    hours = sum(fleet.hours.values())
    body = BODY.format(
        title=html.escape(title),
        about=html.escape(f"{len(fleet.rows):,} flights: {counts or 'none'}. {hours:,.1f} hours of frames, {sum(fleet.exceedances.values()):,} exceedances."),
        statuses="".join(f"<option>{status}</option>" for status in sorted(fleet.statuses)),
        picture=_picture(fleet),
        heads="".join(f'<th><button data-column="{at}">{name}</button></th>' for at, name in enumerate(COLUMNS)),
        data=json.dumps(fleet.rows, separators=(",", ":")).replace("<", "\\u003c"),
        script=(HERE / "fleet.js").read_text(),
    )
    text = PAGE.format(policy=POLICY, title=html.escape(title), style=(HERE / "fleet.css").read_text(), body=body)
    path.write_text(text, encoding="utf-8", errors="backslashreplace")


def _picture(fleet: Fleet) -> str:
    """The exceedances by rule and month, as a picture within the page; nothing where there are none."""
    if not fleet.exceedances:
        return ""
    of_rule: "Counter[str]" = Counter()
    for (rule, _), count in fleet.exceedances.items():
        of_rule[rule] += count
    rules = sorted(rule for rule, _ in of_rule.most_common(MOST_RULES))
    months = sorted(fleet.hours)
    counts = np.array([[fleet.exceedances[rule, month] for month in months] for rule in rules])
    figure = _figure(counts, rules, [f"{month}\n{fleet.hours[month]:,.0f} h" for month in months])
    out = io.StringIO()
    with matplotlib.rc_context({"svg.fonttype": "none", "svg.hashsalt": "fleet"}):
        figure.savefig(out, format="svg", metadata={"Date": None})
    more = f" The {MOST_RULES} rules with the most." if len(of_rule) > MOST_RULES else ""
    caption = f"Exceedances by rule and by the month of the flight's start, with the hours of frames of each month.{more}"
    svg = out.getvalue()
    return f'<figure>{svg[svg.index("<svg") :]}<figcaption>{html.escape(caption)}</figcaption></figure>'


def _figure(counts: "np.ndarray[Any, np.dtype[np.int64]]", rules: list[str], months: list[str]) -> Figure:
    """A grid of colours, with the numbers in it."""
    figure = Figure(figsize=(2.5 + 0.7 * max(3, len(months)), 1.2 + 0.32 * len(rules)), layout="constrained")
    axes = figure.add_subplot()
    grid = axes.pcolormesh(counts, cmap="YlOrRd", vmin=0)
    axes.invert_yaxis()
    axes.set_xticks(np.arange(len(months)) + 0.5, months, fontsize=8)
    axes.set_yticks(np.arange(len(rules)) + 0.5, rules, fontsize=8)
    if counts.size <= MOST_NUMBERS:
        middle = counts.max() / 2
        for (row, column), count in np.ndenumerate(counts):
            axes.text(column + 0.5, row + 0.5, f"{count:,}", ha="center", va="center", fontsize=8, color="white" if count > middle else "black")
    figure.colorbar(grid, ax=axes, label="exceedances").solids.set_rasterized(False)  # the page has no other picture in it
    return figure
