"""Events of a listing, by rules of one's own: where a condition holds long enough, with its peak and what was so then.

These rules say more than those of `fdr exceed`, and nothing of them is proved. `events_of` is the same for other programs: it
answers a table of pandas."""

from __future__ import annotations

import csv
import io
import pathlib
from dataclasses import dataclass, field
from typing import Sequence

import numpy as np
import pandas

from . import conditions, durations, expression, flights
from .clock import SECOND, Between
from .clock import Event as Kind
from .conditions import Follower, Run, joined
from .deriving import Request
from .description import NAME, NUMBER, Description
from .expression import Expression
from .faults import Fault
from .flights import Found as Flights
from .flights import Wanted
from .parameters import Table
from .reading import Reading, reading_of
from .streams import Again, opened_again
from .told import number_text
from .window import Window

COLUMNS = ("name", "condition", "for", "apart", "peak", "severity", "note")
NEEDED = ("name", "condition")
MOST_BYTES, MOST_RULES = 1 << 20, 1000
WAYS = {"max": 1, "min": -1}
EVENT, WATCHED = "event", "watched"
NOT_PROVED = "these events are by rules that are tested and not proved; fdr exceed is what is proved"


@dataclass(frozen=True)
class Rule:
    """A rule: its name and its condition; how long it holds, and how far events are apart, in microseconds at least; what its peak
    is of, and whether that is the greatest or the least; the severities from which peak on; and what is noted at the peak."""

    name: str
    condition: Expression
    at_least: int
    apart: int
    way: int
    peak: Expression | None
    severities: tuple[tuple[str, float], ...]
    notes: tuple[tuple[str, Expression], ...]

    @property
    def request(self) -> Request:
        """What is worked out for it."""
        peak = () if self.peak is None else (self.peak,)
        return Request((self.condition, *peak, *(one for _, one in self.notes)))

    def severity(self, peak: float | None) -> str:
        """The severity of a peak, or nothing."""
        reached = [name for name, limit in self.severities if peak is not None and self.way * peak >= self.way * limit]
        return reached[-1] if reached else ""


def read_rules(path: str, table: Table, description: Description) -> list[Rule]:
    """The rules of a file: a header with the names of the columns, in any order, and a row for each. A fault has its row and field,
    counted from 0."""
    own = pathlib.Path(path)
    data = own.read_bytes()
    if len(data) > MOST_BYTES:
        raise Fault(f"{own.name}: it has {len(data)} bytes, and rules have up to {MOST_BYTES}")
    try:
        rows = [row for row in csv.reader(io.StringIO(data.decode("utf-8-sig", "surrogateescape"), newline="")) if row]
    except csv.Error as error:
        raise Fault(f"{own.name}: {error}") from None
    header = [name.strip() for name in rows[0]] if rows else []
    for at, name in enumerate(header):
        if name not in COLUMNS or name in header[:at]:
            raise Fault(f"{own.name} row 0, field {at}: {name[:40]!r}: {', '.join(COLUMNS)} are the columns, each once")
    if missing := [name for name in NEEDED if name not in header]:
        raise Fault(f"{own.name} row 0: there is no column {missing[0]}")
    if len(rows) > MOST_RULES:
        raise Fault(f"{own.name} row {MOST_RULES}: there are up to {MOST_RULES - 1} rules")
    rules: list[Rule] = []
    for number, row in enumerate(rows[1:], 1):
        if not row[0].startswith("#"):
            reader = _Row(f"{own.name} row {number}", header, row, table, description)
            rules.append(reader.rule([rule.name for rule in rules]))
    return rules


class _Row:
    """A row of rules."""

    def __init__(self, where: str, header: list[str], row: list[str], table: Table, description: Description) -> None:
        self.where, self.header = where, header
        self.table, self.description = table, description
        if len(row) > len(header):
            raise Fault(f"{where}, field {len(header)}: the header has {len(header)} columns")
        self.cells = dict(zip(header, (cell.strip() for cell in row)))

    def rule(self, before: list[str]) -> Rule:
        """The rule."""
        name = self.cells.get("name", "")
        if not NAME.fullmatch(name) or name in before:
            raise self._fault("name", f"{name[:40]!r}: a name of its own, of up to 16 letters, digits, _, - and points")
        condition = self._expression("condition", self.cells.get("condition", ""))
        kind, _, of = self.cells.get("peak", "").partition(" ")
        if kind not in (*WAYS, ""):
            raise self._fault("peak", f"{kind[:40]!r}: max or min, and what it is of, as max IAS")
        peak = self._expression("peak", of) if kind else None
        severities = self._severities(WAYS.get(kind, 0))
        noted = [one.strip() for one in self.cells.get("note", "").split(";") if one.strip()]
        notes = tuple((one, self._expression("note", one)) for one in noted)
        return Rule(name, condition, self._time("for"), self._time("apart"), WAYS.get(kind, 0), peak, severities, notes)

    def _fault(self, column: str, said: str) -> Fault:
        return Fault(f"{self.where}, field {self.header.index(column)}: {said}")

    def _expression(self, column: str, text: str) -> Expression:
        try:
            return conditions.condition(text, self.table, self.description)
        except expression.Refused as refused:
            raise self._fault(column, str(refused)) from None

    def _time(self, column: str) -> int:
        text = self.cells.get(column, "")
        try:
            return durations.microseconds(text) if text not in ("", "0", "0s") else 0
        except Fault as fault:
            raise self._fault(column, str(fault)) from None

    def _severities(self, way: int) -> tuple[tuple[str, float], ...]:
        """Names with the peaks from which on they are, the least severe first."""
        found: list[tuple[str, float]] = []
        for text in (one.strip() for one in self.cells.get("severity", "").split(";")):
            name, sign, limit = text.rpartition(":")
            if not text:
                continue
            if not sign or not name or not NUMBER.fullmatch(limit) or not way:
                raise self._fault("severity", f"{text[:40]!r}: names with peaks, as low:250; high:270, of a rule with a peak")
            if found and way * found[-1][1] >= way * float(limit):
                raise self._fault("severity", f"{text[:40]!r} isn't more severe than the one before")
            found.append((name, float(limit)))
        return tuple(found)


@dataclass(frozen=True)
class Event:
    """An event: its rule, and where it is."""

    rule: Rule
    run: Run

    @property
    def severity(self) -> str:
        """How severe it is, or nothing."""
        return self.rule.severity(self.run.peak)

    @property
    def peak(self) -> str:
        """Its peak as text, or nothing."""
        return "" if self.run.peak is None else number_text(self.run.peak)

    def notes(self, description: Description) -> str:
        """What was so at its peak, with units and words."""
        said = []
        for (name, _), value in zip(self.rule.notes, self.run.notes):
            one = description.of(name)
            text = "no value" if value is None else number_text(value)
            more = "" if value is None else one.word(text) or ("" if one.points else one.unit)
            said.append(f"{name} {text}" + (f" {more}" if more else ""))
        return "; ".join(said)

    def text(self, description: Description) -> str:
        """What is said of it in a picture or between rows."""
        of = f"{self.rule.name}{f' ({self.severity})' if self.severity else ''}: {self.run.ticks / SECOND:.6g} s"
        peak = f", peak {self.peak}" if self.peak else ""
        notes = self.notes(description)
        return f"{of}{peak}" + (f"; {notes}" if notes else "")

    def between(self, description: Description) -> Between:
        """It as something between rows."""
        return Between(Kind.EVENT, 0, self.run.recording, self.run.begin, self.run.end, True, self.text(description))


@dataclass
class Found:
    """The events of a listing in the order of time, how long each rule was watched, in seconds and in how many stretches, and the
    flights, where they were asked for."""

    events: list[Event]
    watched: list[tuple[Rule, int, int]]
    sessions: list[int | None]
    how: Reading
    flights: Flights | None = None
    notes: list[Between] = field(default_factory=list)


def find(how: Reading, source: Again, rules: Sequence[Rule], wanted: Wanted | None = None) -> Found:
    """Finds the events of a listing, and its flights."""
    found = None if wanted is None else flights.find(how, source, wanted)
    number = len(how.requests)
    how.more, more = [*how.more, *(rule.request for rule in rules)], how.more
    window, how.window = how.window, Window(from_zero=how.window.from_zero)
    try:
        for one in how.passes(source):
            followers = [Follower(number + at, rule.way) for at, rule in enumerate(rules)]
            for timed in one:
                for follower in followers:
                    follower.add(timed)
    finally:
        how.more, how.window = more, window
    events = [
        Event(rule, run) for rule, follower in zip(rules, followers) for run in joined(follower.end(), rule.at_least, rule.apart, rule.way)
    ]
    events.sort(key=lambda event: (event.run.recording, event.run.begin, event.rule.name))
    watched = [(rule, follower.seconds(), len(follower.watched)) for rule, follower in zip(rules, followers)]
    notes = [event.between(how.description) for event in events]
    return Found(events, watched, one.sessions, how, found, notes)


def events_of(
    listing: str,
    table: str,
    rules: str,
    when: str | None = None,
    at_least: str = flights.AT_LEAST,
    apart: str = flights.APART,
    describe: str | None = None,
    dates: Sequence[str] = (),
) -> pandas.DataFrame:
    """The events of a listing by the rules of a file, and how long each rule was watched: the rows that `flight events` writes. With
    a condition for flights each event has the number of its flight."""
    how = reading_of(table, None, describe, dates)
    assert how.table is not None
    read = read_rules(rules, how.table, how.description)
    wanted = None if when is None else flights.wanted_of(when, at_least, apart)
    with opened_again(listing) as source:
        return frame_of(find(how, source, read, wanted))


def frame_of(found: Found) -> pandas.DataFrame:
    """A row for each event, and then one for each rule with how long it was watched."""
    rows: list[dict[str, object]] = []
    utc = found.how.utc
    for number, event in enumerate(found.events, 1):
        run = event.run
        sessions = found.sessions
        rows.append({
            "what": EVENT,
            "event": number,
            "rule": event.rule.name,
            "severity": event.severity,
            "flight": _flight_of(found, run.recording, run.begin),
            "recording": run.recording + 1,
            "session": sessions[run.recording] if run.recording < len(sessions) else None,
            "time": run.begin / SECOND,
            **({} if utc is None else {"utc": utc.text(run.recording, run.begin)}),
            "seconds": run.ticks / SECOND,
            "samples": run.samples,
            "peak": np.nan if run.peak is None else run.peak,
            "peak_time": np.nan if run.peak is None else run.peak_time / SECOND,
            "notes": event.notes(found.how.description),
        })  # fmt: skip
    for rule, seconds, stretches in found.watched:
        said = f"in {stretches} stretch{'es' * (stretches != 1)}" if seconds else "never: no value of its condition"
        rows.append({"what": WATCHED, "rule": rule.name, "seconds": float(seconds), "notes": said})
    named = ["what", "event", "rule", "severity", "flight", "recording", "session", "time", *(["utc"] if utc else [])]
    frame = pandas.DataFrame(rows, columns=[*named, "seconds", "samples", "peak", "peak_time", "notes"])
    for name in ("event", "flight", "recording", "session", "samples"):
        frame[name] = frame[name].astype("Int64")
    for name in ("severity", "notes", *(["utc"] if utc else [])):
        frame[name] = frame[name].fillna("")
    return frame


def _flight_of(found: Found, recording: int, time: int) -> int | None:
    if found.flights is None:
        return None
    return next((one.number for one in found.flights.flights if one.has(recording, time)), None)
