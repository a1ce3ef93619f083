"""Times of a capture as microseconds of its recording: numbers from its start, and moments that count from the first row's."""

import copy
import datetime
import enum
import re

import numpy as np

from .arrays import Array
from . import plain

MILLION = 1_000_000
DAY = 86_400 * MILLION
HALF_A_DAY = DAY // 2
EPOCH = 100_000_000 * MILLION  # a first time from 1973 on counts from 1970
MOST = 10**18
OF_DAY = re.compile(r"(\d{1,2}):([0-5]\d):([0-5]\d(?:\.\d{1,9})?)")
OF_YEAR = re.compile(r"([0-3]?\d?\d):(\d\d):([0-5]\d):([0-5]\d(?:\.\d{1,9})?)")


class Kind(enum.Enum):
    """How times are written."""

    NUMBER = "number"
    DATE = "ISO 8601"
    OF_DAY = "10:00:00.5"
    OF_YEAR = "123:10:00:00.5, as IRIG has it"


def kind_of(text: str) -> Kind:
    """How a time is written."""
    if ":" not in text:
        return Kind.NUMBER
    if OF_YEAR.fullmatch(text):
        return Kind.OF_YEAR
    return Kind.OF_DAY if OF_DAY.fullmatch(text) else Kind.DATE


class Clock:
    """Times of a capture, which are all written in one way. `goes_on` is whether its rows are in order: a time of day that goes
    back by more than half a day is then one of the next day."""

    def __init__(self, unit: int, goes_on: bool) -> None:
        self.unit = unit  # microseconds
        self.goes_on = goes_on
        self.kind: Kind | None = None
        self.start = 0  # of what counts from the first row's
        self.has_zone = False
        self.before: int | None = None  # the last time, of day alone
        self.days = 0

    @property
    def counts_from_first(self) -> bool:
        """Whether times count from the first row's."""
        return self.kind not in (None, Kind.NUMBER) or self.start != 0

    def copy(self) -> "Clock":
        """Another one that knows the same."""
        return copy.copy(self)

    def begin_later(self, microseconds: int) -> None:
        """What counts from the first row's counts from so much later on, or earlier where it is below 0."""
        self.start += microseconds

    def microseconds(self, text: str) -> int:
        """One time. A ValueError is raised where it isn't written as those before."""
        text = text.strip()
        kind = kind_of(text)
        time = self._absolute(text, kind)
        self._begin(kind, time)
        return self._in_day(time) - self.start

    def all_microseconds(self, column: plain.Column) -> Array:
        """All times of a column of plain ones."""
        if not len(column):
            return np.zeros(0, dtype=np.int64)
        first = column.text_of(0)
        kind = kind_of(first)
        if kind is Kind.NUMBER:
            times = np.rint(column.number() * self.unit).astype(np.int64)
        else:
            times = self._clock_times(column, kind)
        try:
            self._begin(kind, int(times[0]))
        except ValueError:
            raise plain.NotPlain from None
        if kind is Kind.OF_DAY and self.goes_on:
            before = int(times[0]) if self.before is None else self.before
            days = self.days + np.cumsum(np.diff(times, prepend=before) < -HALF_A_DAY)
            self.before, self.days = int(times[-1]), int(days[-1])
            times = times + days * DAY
        return np.asarray(times - self.start)

    def _clock_times(self, column: plain.Column, kind: Kind) -> Array:
        """Times with hours and minutes: what is up to the last colon is mostly that of the row before."""
        heads, seconds = column.split_last(":", b"Z" if kind is Kind.DATE else b"")
        microseconds = np.rint(seconds.number() * MILLION).astype(np.int64)
        if (microseconds >= 60 * MILLION).any() or (seconds.length < 2).any() or (seconds.text[:, 1] < ord("0")).any():
            raise plain.NotPlain
        zone = "Z" if column.text_of(0).endswith("Z") else ""
        try:
            starts = []
            for text in heads.texts:
                if kind_of(f"{text}:00{zone}") is not kind:
                    raise plain.NotPlain
                starts.append(self._absolute(f"{text}:00{zone}", kind))
        except ValueError:
            raise plain.NotPlain from None
        return np.asarray(np.array(starts, dtype=np.int64)[heads.codes] + microseconds)

    def _begin(self, kind: Kind, time: int) -> None:
        """Takes the first time, and wants all others to be written as it is."""
        if self.kind is None:
            self.kind = kind
            self.start = time if kind is not Kind.NUMBER or time >= EPOCH else 0
        if kind is not self.kind:
            raise ValueError("several kinds of time")

    def _in_day(self, time: int) -> int:
        """A time with the days that went by."""
        if self.kind is not Kind.OF_DAY or not self.goes_on:
            return time
        self.days += self.before is not None and time - self.before < -HALF_A_DAY
        self.before = time
        return time + self.days * DAY

    def _absolute(self, text: str, kind: Kind) -> int:
        """A time as microseconds from its own zero."""
        if kind is Kind.NUMBER:
            if "_" in text:
                raise ValueError(text)
            time = float(text) * self.unit
            if not abs(time) < MOST:
                raise ValueError(text)
            return round(time)
        if kind is Kind.DATE:
            return self._date(text)
        found = (OF_DAY if kind is Kind.OF_DAY else OF_YEAR).fullmatch(text)
        if not found:
            raise ValueError(text)
        *days, hours, minutes, seconds = found.groups()
        if int(hours) > 23 or days and not 1 <= int(days[0]) <= 366:
            raise ValueError(text)
        whole = (int(days[0]) - 1 if days else 0) * 86_400 + int(hours) * 3600 + int(minutes) * 60
        return whole * MILLION + round(float(seconds) * MILLION)

    def _date(self, text: str) -> int:
        """A date as microseconds since 1970."""
        moment = datetime.datetime.fromisoformat(text)
        has_zone = moment.tzinfo is not None
        if self.kind is None:
            self.has_zone = has_zone
        if has_zone is not self.has_zone:
            raise ValueError("zones")
        since = moment.replace(tzinfo=moment.tzinfo or datetime.timezone.utc)
        return (since - datetime.datetime(1970, 1, 1, tzinfo=datetime.timezone.utc)) // datetime.timedelta(microseconds=1)
