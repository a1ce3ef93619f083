"""The flights of a listing: where a condition holds long enough, with what is missing in each, and its extremes.

`flights_of` is the same for other programs: it answers a table of pandas."""

from __future__ import annotations

from dataclasses import dataclass, field
from typing import Sequence

import numpy as np
import pandas

from . import durations
from .arrays import Array
from .clock import SECOND, Between, Event, Timed
from .conditions import Follower, Run, given_condition, joined
from .deriving import STRETCH, Request
from .faults import Fault
from .reading import Reading, reading_of
from .streams import Again, opened_again
from .told import DERIVED, STATE, Column, Told, derived_values, head_of
from .description import SCALED
from .window import Window

AT_LEAST, APART = "30s", "120s"
LEAST, GREATEST = " least", " greatest"
MISSING = (Event.GAP, Event.BREAK, Event.HOLE)


@dataclass(frozen=True)
class Wanted:
    """What a flight is: the condition, how long it holds at least, and how far flights are apart at least, in microseconds."""

    when: str
    at_least: int = durations.microseconds(AT_LEAST)
    apart: int = durations.microseconds(APART)


def wanted_of(when: str, at_least: str | None, apart: str | None) -> Wanted:
    """What a flight is, by the words of a command."""
    return Wanted(when, durations.microseconds(at_least or AT_LEAST), durations.microseconds(apart or APART))


@dataclass
class Flight:
    """A flight: its number, its run, and what is missing in it."""

    number: int
    run: Run
    missing: list[Between] = field(default_factory=list)

    @property
    def seconds_missing(self) -> float:
        """How long what is missing is, as far as that is known."""
        return sum(_within(self.run, one) for one in self.missing if one.known) / SECOND

    @property
    def note(self) -> str:
        """What is missing, in words."""
        unknown = sum(not one.known or one.end is None for one in self.missing)
        count = len(self.missing)
        said = f"{count} gap{'s' * (count > 1)}" if count else ""
        return f"{said}, {unknown} of unknown length" if unknown else said

    def has(self, recording: int, time: int) -> bool:
        """Whether a time is in it."""
        return recording == self.run.recording and self.run.begin <= time <= self.run.end


def _within(run: Run, one: Between) -> int:
    """The ticks of something that is missing in a run."""
    return min(run.end, one.end or 0) - max(run.begin, one.begin or 0)


@dataclass
class Found:
    """The flights of a listing, the sessions of its recordings, and how it was read."""

    flights: list[Flight]
    sessions: list[int | None]
    how: Reading

    def of(self, recording: int, time: int) -> int | None:
        """The number of the flight that a time is in."""
        return next((one.number for one in self.flights if one.has(recording, time)), None)

    def window(self, number: int) -> Window:
        """The window that has one flight alone."""
        if not 1 <= number <= len(self.flights):
            raise Fault(f"--flight {number}: there are {len(self.flights)} flights")
        run = self.flights[number - 1].run
        return Window(run.recording + 1, run.begin, run.end + 1, self.how.window.from_zero)


def find(how: Reading, source: Again, wanted: Wanted) -> Found:
    """Finds the flights of a listing."""
    request = Request((given_condition("--when", wanted.when, how.table, how.description),))
    number = len(how.requests)
    how.more, more = [*how.more, request], how.more
    window, how.window = how.window, Window(from_zero=how.window.from_zero)
    try:
        for one in how.passes(source):
            follower, missing = Follower(number), list[Between]()
            for timed in one:
                follower.add(timed)
                missing += [each for each in timed.between if each.event in MISSING]
    finally:
        how.more, how.window = more, window
    runs = joined(follower.end(), wanted.at_least, wanted.apart)
    flights = [Flight(at, run) for at, run in enumerate(runs, 1)]
    for flight in flights:
        flight.missing = [each for each in missing if _is_in(each, flight.run)]
    return Found(flights, one.sessions, how)


def _is_in(one: Between, run: Run) -> bool:
    return one.recording == run.recording and one.begin is not None and one.begin < run.end and (one.end or one.begin) > run.begin


class Extremes:
    """The least and the greatest value of each column in each flight."""

    def __init__(self, flights: Sequence[Flight], told: Told) -> None:
        self.told = told
        order = sorted(flights, key=lambda one: (one.run.recording, one.run.begin))
        self.order = [one.number - 1 for one in order]
        self.begins = np.array([_key(one.run.recording, one.run.begin) for one in order], dtype=np.int64)
        self.ends = np.array([_key(one.run.recording, one.run.end) for one in order], dtype=np.int64)
        self.names = [(at, kind) for at, one in enumerate(told.columns) for kind in ("", *one.kinds) if kind != STATE]
        self.least = np.full((len(flights), len(self.names)), np.inf)
        self.greatest = np.full((len(flights), len(self.names)), -np.inf)

    def add(self, timed: Timed) -> None:
        """Takes a piece."""
        if not len(self.order) or not len(timed.time):
            return
        keys = timed.recording.astype(np.int64) * STRETCH + timed.time
        at = np.searchsorted(self.begins, keys, side="right") - 1
        is_in = (at >= 0) & (keys <= self.ends[np.maximum(at, 0)])
        if not is_in.any():
            return
        for column, (number, kind) in enumerate(self.names):
            if number < self.told.parameters:
                rows = np.flatnonzero(is_in & (timed.piece.name == number))
                values = timed.piece.value[rows]
            else:
                rows, worked = derived_values(timed, number - self.told.parameters)
                values, rows = worked.numbers[is_in[rows]].astype(np.float64), rows[is_in[rows]]
            points = self.told.columns[number].described.points
            values = points.of(values) if kind == SCALED and points is not None else values
            self._take(column, at[rows], values)

    def _take(self, column: int, flights: Array, values: Array) -> None:
        there = np.isfinite(values)
        for flight in np.unique(flights[there]).tolist():
            own, number = values[there & (flights == flight)], self.order[flight]
            self.least[number, column] = min(self.least[number, column], float(own.min()))
            self.greatest[number, column] = max(self.greatest[number, column], float(own.max()))

    def columns(self) -> dict[str, Array]:
        """The columns of a table of flights."""
        answer: dict[str, Array] = {}
        for column, (number, kind) in enumerate(self.names):
            for ending, values in ((LEAST, self.least), (GREATEST, self.greatest)):
                own = values[:, column]
                answer[_head(self.told.columns[number], kind, ending)] = np.where(np.isfinite(own), own, np.nan)
        return answer


def _key(recording: int, time: int) -> int:
    return recording * STRETCH + time


def _head(column: Column, kind: str, ending: str) -> str:
    one = column.described
    unit = "" if one.points and not kind else one.unit
    return head_of(column.name, (DERIVED if column.is_derived else kind) + ending, unit)


def flights_of(
    listing: str,
    table: str,
    when: str,
    at_least: str = AT_LEAST,
    apart: str = APART,
    describe: str | None = None,
    dates: Sequence[str] = (),
) -> pandas.DataFrame:
    """The flights of a listing by the table of its recording: a row for each, as `flight flights` writes it."""
    how = reading_of(table, None, describe, dates)
    with opened_again(listing) as source:
        found = find(how, source, wanted_of(when, at_least, apart))
        return frame_of(found, extremes(found, source))


def extremes(found: Found, source: Again) -> Extremes:
    """Reads a listing for the least and the greatest values in its flights."""
    told = Told(found.how.description, found.how.names)
    window, found.how.window = found.how.window, Window(from_zero=found.how.window.from_zero)
    try:
        for one in found.how.passes(source):
            made = Extremes(found.flights, told)
            for timed in one:
                made.add(timed)
    finally:
        found.how.window = window
    return made


def frame_of(found: Found, made: Extremes) -> pandas.DataFrame:
    """A row for each flight."""
    runs = [one.run for one in found.flights]
    utc = found.how.utc
    first = {
        "flight": np.array([one.number for one in found.flights], dtype=np.int64),
        "recording": np.array([run.recording + 1 for run in runs], dtype=np.int64),
        "session": [found.sessions[run.recording] if run.recording < len(found.sessions) else None for run in runs],
        "time": np.array([run.begin / SECOND for run in runs]),
        "end": np.array([run.end / SECOND for run in runs]),
        **({} if utc is None else {"utc": [utc.text(run.recording, run.begin) for run in runs]}),
        **({} if utc is None else {"utc_end": [utc.text(run.recording, run.end) for run in runs]}),
        "seconds": np.array([run.ticks / SECOND for run in runs]),
        "missing": np.array([one.seconds_missing for one in found.flights]),
        "note": [one.note for one in found.flights],
    }
    frame = pandas.DataFrame({**first, **made.columns()})
    frame["session"] = frame["session"].astype("Int64")
    return frame
