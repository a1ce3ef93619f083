"""The time of day by a clock that was recorded: what its values say at the moments at which they change, and nothing between.

Of each recording one line is fitted: its offset is the time of day at time 0, its rate how much faster the clock goes than the
recording. The line is the one that the most moments are near, and then the one of least squares of these, so a clock that is
set anew, stands still or has bad values for a part of a recording changes nothing of it, and is told where it disagrees.
"""

from __future__ import annotations

import datetime
import itertools
import math
from dataclasses import dataclass, field
from typing import Iterator, Mapping, Sequence

import numpy as np

from .arrays import Array
from .clock import FRAME, SECOND, Between, Event, Timed
from .description import RecordedClock
from .deriving import Request
from .expression import Expression, named
from .faults import Fault
from .parameters import SUPERFRAME, Table
from .places import samples_of

DAY, HOUR, MINUTE = 86_400, 3600, 60
MICRO = 1_000_000
NEAR = 1.0  # seconds that a reading may be away from the line and still agree
MOST_RATE = 0.001  # of a clock beside a recorder's
LEAST_CHANGES, LEAST_SPAN = 10, 300  # for a rate; seconds
CANDIDATES, LINES = 240, 2000  # moments that lines are laid through, and how many lines
AROUND = 9  # moments beside a gap that say how long it is
MOST_TOLD = 100  # disagreements of a recording
EPOCH = datetime.date(1970, 1, 1)


@dataclass
class Readings:
    """What a clock says at each sample of it: when that was, in ticks, the stretch, the recording, and the seconds of the day, or
    since 1970 where a date is recorded; not a number where the values are none of a clock."""

    time: Array
    stretch: Array
    recording: Array
    seconds: Array

    def of(self, which: Array) -> "Readings":
        """Some of them."""
        return Readings(self.time[which], self.stretch[which], self.recording[which], self.seconds[which])


@dataclass(frozen=True)
class Extent:
    """A stretch of frames: its recording, its first frame's begin and its newest one's end, in ticks, and the byte of the listing
    with which it begins."""

    recording: int
    begin: int
    end: int
    byte: int


@dataclass(frozen=True)
class Fit:
    """The line of a recording: the seconds of the day, or since 1970, at time 0, and by how much the clock goes faster; how many
    moments there were, and how many agree; and the first of them, in ticks."""

    offset: float
    rate: float
    changes: int
    agreeing: int
    first: int

    def at(self, seconds: Array) -> Array:
        """The time of day at times of the recording."""
        return self.offset + seconds * (1 + self.rate)

    def later(self, seconds: float) -> "Fit":
        """The same with so much added."""
        return Fit(self.offset + seconds, self.rate, self.changes, self.agreeing, self.first)


@dataclass
class Utc:
    """The time of day of each recording that has one, by its number counted from 0, and whether dates are known."""

    fits: dict[int, Fit]
    has_dates: bool

    def microseconds(self, recording: Array, ticks: Array) -> Array:
        """The times of rows as numpy has them, or none where a recording has none."""
        count = int(recording.max(initial=0)) + 1
        of = [self.fits.get(number) for number in range(count)]
        known = np.array([one is not None for one in of])
        offset = np.array([0 if one is None else round(one.offset * MICRO) for one in of], dtype=np.int64)
        rate = np.array([0.0 if one is None else 1 + one.rate for one in of])
        since = offset[recording] + np.rint(ticks * (MICRO / SECOND) * rate[recording]).astype(np.int64)
        since = since if self.has_dates else since % (DAY * MICRO)
        return np.where(known[recording], since, np.iinfo(np.int64).min).astype("datetime64[us]")

    def texts(self, recording: Array, ticks: Array) -> Array:
        """The times of rows as bytes, to a thousandth of a second; empty where there is none."""
        times = self.microseconds(recording, ticks)
        texts = np.datetime_as_string(times, unit="ms").astype("S23")
        if not self.has_dates:
            width = texts.dtype.itemsize
            texts = np.ascontiguousarray(texts.view("S1").reshape(-1, width)[:, 11:]).view(f"S{width - 11}").ravel()
        texts = np.char.add(texts, b"Z")
        texts[np.isnat(times)] = b""
        return texts

    def text(self, recording: int, ticks: int | None) -> str:
        """One time, or nothing."""
        if ticks is None or recording not in self.fits:
            return ""
        return bytes(self.texts(np.array([recording]), np.array([ticks]))[0]).decode()


class Collected:
    """A clock's readings of a listing, and its stretches, piece by piece."""

    def __init__(self, clock: RecordedClock, number: int) -> None:
        self.clock = clock
        self.number = number  # of its request
        self.parts: list[Readings] = []
        self.extents: dict[int, Extent] = {}
        self.guessed: set[int] = set()  # bytes of the listing at which time goes on by a guess

    def add(self, timed: Timed) -> None:
        """Takes a piece."""
        if not len(timed.time):
            return
        cuts = np.flatnonzero(np.diff(timed.stretch, prepend=-1)).tolist()
        for row, end in zip(cuts, [*cuts[1:], len(timed.time)]):
            times, number = timed.time[row:end], int(timed.stretch[row])
            begin, last = int(times.min()) // FRAME * FRAME, (int(times.max()) // FRAME + 1) * FRAME
            new = Extent(int(timed.recording[row]), begin, last, timed.piece.byte_of(row))
            old = self.extents.get(number, new)
            self.extents[number] = Extent(old.recording, min(old.begin, begin), max(old.end, last), old.byte)
        for one in timed.between:
            if one.row < len(timed.piece) and (one.event is Event.BACK or one.event in (Event.GAP, Event.BREAK) and not one.known):
                self.guessed.add(timed.piece.byte_of(one.row))
        if timed.worked is not None:
            worked = timed.worked[self.number]
            seconds = _seconds(self.clock, [np.where(one.there, one.numbers, np.nan) for one in worked.values])
            rows = worked.rows
            self.parts.append(Readings(timed.time[rows], timed.stretch[rows], timed.recording[rows], seconds))

    def readings(self) -> Readings:
        """All of them."""
        columns = zip(*((one.time, one.stretch, one.recording, one.seconds) for one in self.parts))
        whole = [np.concatenate(column) for column in columns]
        return Readings(*whole) if whole else Readings(*(np.zeros(0, dtype=np.int64) for _ in range(4)))

    def missing(self) -> dict[int, float]:
        """The seconds that are missing by the clock where time goes on by a guess, by the byte of the listing."""
        changes = changes_of(self.readings())
        away = changes.seconds - changes.time / SECOND
        begins = {int(number): int(at) for at, number in zip(*_firsts(changes.stretch))}
        answer = {}
        for number, one in self.extents.items():
            before = self.extents.get(number - 1)
            if one.byte not in self.guessed or before is None or number not in begins or number - 1 not in begins:
                continue
            own, last = away[begins[number] :][:AROUND], away[: begins[number]][-AROUND:]
            own = own[changes.stretch[begins[number] :][:AROUND] == number]
            last = last[changes.stretch[: begins[number]][-AROUND:] == number - 1]
            seconds = float(np.median(own)) + one.begin / SECOND - float(np.median(last)) - before.end / SECOND
            if not self.clock.dates:
                seconds = (seconds + MINUTE) % DAY - MINUTE
            answer[one.byte] = seconds
        return answer


def _firsts(numbers: Array) -> tuple[list[int], list[int]]:
    """Where each of these numbers comes first, and the numbers."""
    first = np.flatnonzero(np.diff(numbers, prepend=-1))
    return first.tolist(), numbers[first].tolist()


def request_of(clock: RecordedClock, derived: Mapping[str, Expression]) -> Request:
    """What is to be worked out of a clock, at the times of its seconds, which change the most often."""
    return Request(tuple(named(name, derived) for name in (*reversed(clock.times), *clock.dates)))


def _seconds(clock: RecordedClock, values: list[Array]) -> Array:
    """The seconds of the day of a clock's values, or since 1970; not a number where they are none of a clock."""
    times, dates = values[: len(clock.times)], values[len(clock.times) :]
    if len(times) == 3:
        second, minute, hour = times
        is_sound = (second >= 0) & (second < 61) & (minute >= 0) & (minute < 60) & (hour >= 0) & (hour < 24)
        seconds = hour * HOUR + minute * MINUTE + second
    else:
        seconds = times[0]
        is_sound = (seconds >= 0) & (seconds < DAY + 1)
    if dates:
        days, are_days = _days(*dates)
        seconds, is_sound = seconds + days * DAY, is_sound & are_days
    return np.where(is_sound, seconds, np.nan)


def _days(day: Array, month: Array, year: Array) -> tuple[Array, Array]:
    """The days since 1970 of dates, and whether each is one. A year below 100 is one of this century."""
    year = np.where(year < 100, year + 2000, year)
    is_sound = (day >= 1) & (day <= 31) & (month >= 1) & (month <= 12) & (year >= 1970) & (year < 2200)
    day, month, year = (np.where(is_sound, one, least).astype(np.int64) for one, least in ((day, 1), (month, 1), (year, 1970)))
    months = ((year - 1970) * 12 + month - 1).astype("datetime64[M]")
    days = months.astype("datetime64[D]").astype(np.int64) + day - 1
    length = (months + 1).astype("datetime64[D]").astype(np.int64) - months.astype("datetime64[D]").astype(np.int64)
    return days, is_sound & (day <= length)


def changes_of(readings: Readings) -> Readings:
    """The moments at which readings change, each with what it changes to: the middle between two samples, or half a second before
    the later one where they are further apart, since a sample has what the clock had by then."""
    time, seconds = readings.time, readings.seconds
    follows = (readings.stretch[1:] == readings.stretch[:-1]) & np.isfinite(seconds[1:]) & np.isfinite(seconds[:-1])
    at = np.flatnonzero(follows & (seconds[1:] != seconds[:-1])) + 1
    changes = readings.of(at)
    changes.time = time[at] - np.minimum(time[at] - time[at - 1], SECOND) // 2
    return changes


def around_day(seconds: Array) -> Array:
    """Differences of times of day as what is nearest to 0."""
    return (seconds + DAY / 2) % DAY - DAY / 2


def fit_of(changes: Readings, has_dates: bool) -> Fit | None:
    """The line of the moments of one recording; none where there are no moments."""
    if not len(changes.time):
        return None
    times = changes.time / SECOND
    away = changes.seconds - times
    some = np.unique(np.linspace(0, len(away) - 1, min(len(away), CANDIDATES)).astype(np.int64))
    if not has_dates:
        apart = np.abs(around_day(away[some][:, np.newaxis] - away[some]))
        centre = float(away[some][np.argmin(apart.sum(axis=0))])
        away = centre + around_day(away - centre)
    offset, rate = _nearest_to_most(times[some], away[some])
    for _ in range(3):
        agrees = np.abs(away - offset - rate * times) <= NEAR
        if np.count_nonzero(agrees) < LEAST_CHANGES or np.ptp(times[agrees]) < LEAST_SPAN:
            rate, offset = 0.0, float(np.median(away[agrees])) if agrees.any() else offset
            break
        middle = float(times[agrees].mean())
        slope, level = np.polyfit(times[agrees] - middle, away[agrees], 1)
        rate, offset = float(slope), float(level) - float(slope) * middle
    agreeing = int(np.count_nonzero(np.abs(away - offset - rate * times) <= NEAR))
    return Fit(offset if has_dates else offset % DAY, rate, len(times), agreeing, int(changes.time[0]))


def _nearest_to_most(times: Array, away: Array) -> tuple[float, float]:
    """Of lines through one of these points, and through two that are far from each other, the one that the most are near."""
    span = float(np.ptp(times))
    chance = np.random.default_rng(717)
    one, two = chance.integers(0, len(times), (2, LINES))
    far = (np.abs(times[two] - times[one]) >= max(span / 4, 1.0)) & (span >= LEAST_SPAN)
    one, two = one[far], two[far]
    rates = np.concatenate((np.zeros(len(times)), (away[two] - away[one]) / (times[two] - times[one])))
    offsets = np.concatenate((away, away[one])) - rates * np.concatenate((times, times[one]))
    offsets, rates = offsets[np.abs(rates) <= MOST_RATE], rates[np.abs(rates) <= MOST_RATE]
    distance = np.abs(away - offsets[:, np.newaxis] - rates[:, np.newaxis] * times)
    best = int(np.argmax(np.clip(1 - distance / NEAR, 0, None).sum(axis=1)))
    return float(offsets[best]), float(rates[best])


def dates_of(given: Sequence[str]) -> dict[int, datetime.date]:
    """The dates of `--date DATE`, which is that of the first recording, and `--date NUMBER=DATE`, by numbers counted from 0."""
    dates: dict[int, datetime.date] = {}
    for text in given:
        number, _, date = text.rpartition("=")
        try:
            if number and not (number.isdecimal() and 0 < int(number) < 10**9) or int(number or 1) - 1 in dates or len(date) != 10:
                raise ValueError(text)
            dates[int(number or 1) - 1] = datetime.date.fromisoformat(date)
        except ValueError:
            raise Fault(f"--date {text!r}: a date as 2026-05-04, with 2= before it for the second recording") from None
    return dates


@dataclass
class Found:
    """What a clock says of a listing: the time of day of its recordings, and what there is to say of it, as rows between samples."""

    utc: Utc
    notes: list[Between] = field(default_factory=list)


def found(collected: Collected, dates: dict[int, datetime.date], table: Table, names: Sequence[str]) -> Found:
    """What a clock says, once all of a listing came; `names` are the parameters that it is made of."""
    has_dates = bool(collected.clock.dates)
    if dates and has_dates:
        raise Fault("--date: the clock of the description has its own date")
    readings = collected.readings()
    changes = changes_of(readings)
    begins: dict[int, int] = {}
    ends: dict[int, int] = {}
    for one in collected.extents.values():
        begins[one.recording] = min(one.begin, begins.get(one.recording, one.begin))
        ends[one.recording] = max(one.end, ends.get(one.recording, one.end))
    fits: dict[int, Fit] = {}
    for number in sorted(ends):
        fit = fit_of(_of_recording(changes, number), has_dates)
        if fit is not None:
            fits[number] = fit
    utc = Utc(dated(fits, ends, dates) if dates else fits, has_dates or bool(dates))
    period = max((_period(table, name) for name in names), default=1.0)
    notes: list[Between] = []
    for number, begin in sorted(begins.items()):
        about = _About(number, begin, _of_recording(readings, number), _of_recording(changes, number), period, has_dates)
        notes += _notes(utc, about)
    return Found(utc, notes)


def _of_recording(readings: Readings, number: int) -> Readings:
    """Those of one recording; they are in the order of recordings."""
    first, end = np.searchsorted(readings.recording, (number, number + 1)).tolist()
    return readings.of(np.arange(first, end))


def dated(fits: dict[int, Fit], ends: dict[int, int], dates: dict[int, datetime.date]) -> dict[int, Fit]:
    """The lines with dates: of a recording with a given date that, of its first reading; of one after it the first day on which
    it begins after the one before it ends."""
    answer: dict[int, Fit] = {}
    newest: float | None = None  # when the recording before ended
    for number, fit in fits.items():
        first = float(fit.at(np.array([fit.first / SECOND]))[0])
        if number in dates:
            days = (dates[number] - EPOCH).days - math.floor(first / DAY)
        elif newest is not None:
            days = math.ceil((newest - NEAR - first) / DAY)
        else:
            continue
        answer[number] = fit.later(days * DAY)
        newest = float(answer[number].at(np.array([ends[number] / SECOND]))[0])
    return answer


def _period(table: Table, name: str) -> float:
    """How many seconds are between samples of a parameter."""
    return 4 * SUPERFRAME / max(1, sum(1 for _ in samples_of(table.parameters[name], table.words)))


@dataclass(frozen=True)
class _About:
    """A recording whose clock is looked at: its number, its begin, the clock's readings and changes, how many seconds are between
    samples of it, and whether it has dates."""

    number: int
    begin: int
    readings: Readings
    changes: Readings
    period: float
    has_dates: bool


def _notes(utc: Utc, about: _About) -> Iterator[Between]:
    """What there is to say of the clock in a recording: its line, and where it disagrees."""

    def note(first: int, last: int, text: str) -> Between:
        return Between(Event.CLOCK, 0, about.number, first, last, True, text)

    fit = utc.fits.get(about.number)
    if fit is None:
        why = "its date isn't known" if len(about.changes.time) else "the clock never changes"
        yield note(about.begin, about.begin, f"no utc: {why}")
        return
    rate = f"rate {round(fit.rate * 1e6, 1) + 0.0:+.1f} ppm, by {fit.agreeing} of {fit.changes} changes of the clock"
    yield note(about.begin, about.begin, f"utc is {utc.text(about.number, about.begin)} here, {rate}")
    told = sorted(itertools.chain(_bad(about.readings), _still(about.readings, about.changes), _away(about, fit)))
    for first, last, text in told[:MOST_TOLD]:
        yield note(first, last, text)
    if len(told) > MOST_TOLD:
        at = told[MOST_TOLD][0]
        yield note(at, at, f"the clock disagrees at {len(told) - MOST_TOLD} more places from here on")


def _groups(is_in: Array) -> Iterator[tuple[int, int]]:
    """The first and the last of each run of places that are in something."""
    edges = np.flatnonzero(np.diff(is_in.astype(np.int8), prepend=0, append=0))
    for first, end in zip(edges[::2].tolist(), edges[1::2].tolist()):
        yield first, end - 1


def _bad(readings: Readings) -> Iterator[tuple[int, int, str]]:
    """Where the clock's values are no time of day."""
    for first, last in _groups(~np.isfinite(readings.seconds)):
        count = last - first + 1
        yield int(readings.time[first]), int(readings.time[last]), f"the clock's values are no time, in {count} sample{'s' * (count > 1)}"


def _still(readings: Readings, changes: Readings) -> Iterator[tuple[int, int, str]]:
    """Where the clock doesn't change for longer than it usually takes."""
    if len(changes.time) < 2:
        return
    sound = readings.of(np.isfinite(readings.seconds))
    ends = np.flatnonzero(np.diff(sound.stretch, append=-1) != 0)
    begins = np.append(0, ends[:-1] + 1)
    edges = np.unique(np.concatenate((begins, ends)))
    stretch = np.concatenate((changes.stretch, sound.stretch[edges]))
    time = np.concatenate((changes.time, sound.time[edges]))
    order = np.lexsort((time, stretch))
    stretch, time = stretch[order], time[order]
    apart = np.where(np.diff(stretch) == 0, np.diff(time), 0)
    usual = float(np.median(apart[apart > 0])) if apart.any() else SECOND
    for at in np.flatnonzero(apart > max(2 * usual, usual + 1.5 * SECOND)).tolist():
        begin, end = int(time[at]), int(time[at + 1])
        between = (readings.stretch == stretch[at]) & (readings.time > begin) & (readings.time < end)
        if np.isfinite(readings.seconds[between]).all():  # else it is told as bad values
            yield begin, end, f"the clock stands still for {(end - begin) / SECOND:.0f} s"


def _away(about: _About, fit: Fit) -> Iterator[tuple[int, int, str]]:
    """Where the clock is more than a second away from the line. A reading whose minutes or hours were sampled before its seconds
    came round, or after, is no disagreement, unless those beside it are some."""
    changes = about.changes
    line = fit.at(changes.time / SECOND)
    away = changes.seconds - line if about.has_dates else around_day(changes.seconds - line)
    minutes = np.rint(away / MINUTE)
    of_minute = np.minimum(line % MINUTE, MINUTE - line % MINUTE)
    is_torn = (minutes != 0) & (np.abs(away - minutes * MINUTE) <= NEAR) & (of_minute < about.period + NEAR)
    is_torn &= ~_all_away_beside(np.abs(away) > NEAR, is_torn)
    keep = np.flatnonzero(~is_torn)
    for first, last in _groups(np.abs(away[keep]) > NEAR):
        here = away[keep][first : last + 1]
        middle, count = float(np.median(here)), last - first + 1
        alike = "is" if float(np.ptp(here)) <= 2 * NEAR else "isn't steady, and is about"
        text = f"the clock {alike} {abs(middle):.1f} s {'ahead' if middle > 0 else 'behind'}, at {count} change{'s' * (count > 1)}"
        yield int(changes.time[keep[first]]), int(changes.time[keep[last]]), text


def _all_away_beside(is_away: Array, is_torn: Array) -> Array:
    """Whether the next readings that aren't torn, before and after each, are away from the line."""
    whole = np.flatnonzero(~is_torn)
    if not len(whole):
        return np.ones(len(is_torn), dtype=bool)
    after = np.searchsorted(whole, np.arange(len(is_torn)))
    before = np.maximum(after - 1, 0)
    return is_away[whole[before]] & is_away[whole[np.minimum(after, len(whole) - 1)]]
