"""Times as users write them, and dates of recordings whose beginning is known."""

import datetime
import re
from dataclasses import dataclass
from decimal import Decimal

import numpy as np

from .arrays import Array
from .clock import SECOND
from .durations import UNITS
from .faults import Fault

MICRO = 1_000_000
EPOCH = datetime.datetime(1970, 1, 1)
MICROSECOND = datetime.timedelta(microseconds=1)


@dataclass(frozen=True)
class Dates:
    """The dates at which recordings began, counted from 1, in microseconds since 1970; and whether they are in UTC."""

    starts: dict[int, int]
    is_utc: bool

    def microseconds(self, recording: Array, ticks: Array) -> Array:
        """The dates of rows as numpy has them, or none where a recording's beginning isn't known."""
        known = np.array([self.starts.get(number + 1, -1) for number in range(int(recording.max(initial=0)) + 1)])
        start = known[recording]
        since = np.rint(ticks * (MICRO / SECOND)).astype(np.int64)
        return np.where(start >= 0, start + since, np.iinfo(np.int64).min).astype("datetime64[us]")

    def texts(self, recording: Array, ticks: Array) -> Array:
        """The dates of rows as bytes, empty where there is none."""
        dates = self.microseconds(recording, ticks)
        texts = np.datetime_as_string(dates, unit="us").astype("S26")
        texts[np.isnat(dates)] = b""
        return np.char.add(texts, np.where(np.isnat(dates), b"", b"Z")) if self.is_utc else texts

    def text(self, recording: int, ticks: int | None) -> str:
        """One date, or nothing."""
        if ticks is None or recording + 1 not in self.starts:
            return ""
        return bytes(self.texts(np.array([recording]), np.array([ticks]))[0]).decode()


def dates_of(given: list[str]) -> Dates | None:
    """The dates of `--start DATE`, which is that of the first recording, and `--start NUMBER=DATE`."""
    starts: dict[int, int] = {}
    zones = set()
    for text in given:
        number, _, date = text.rpartition("=")
        moment = _date(date)
        if moment is None or not re.fullmatch("[1-9][0-9]{0,8}|", number) or int(number or 1) in starts:
            raise Fault(f"--start {text!r}: a date as 2026-05-04T10:00:00Z, with 2= before it for the second recording")
        starts[int(number or 1)] = _since_epoch(moment)
        zones.add(moment.tzinfo is not None)
    if len(zones) > 1:
        raise Fault("--start: dates with a zone and dates without one")
    return Dates(starts, zones.pop()) if starts else None


def _date(text: str) -> datetime.datetime | None:
    try:
        return datetime.datetime.fromisoformat(text)
    except ValueError:
        return None


def _since_epoch(moment: datetime.datetime) -> int:
    """Microseconds since 1970."""
    if moment.tzinfo is not None:
        moment = moment.astimezone(datetime.timezone.utc).replace(tzinfo=None)
    if moment < EPOCH:
        raise Fault(f"{moment.isoformat()}: dates are from 1970 on")
    return (moment - EPOCH) // MICROSECOND


def ticks_of(text: str, dates: Dates | None) -> int:
    """A time of a recording: seconds, a length as 90s or 1.5m, h:mm:ss, or a date where the first recording's is given."""
    clock = re.fullmatch(r"(\d{1,9}):([0-5]\d):([0-5]\d(?:\.\d{1,9})?)", text)
    plain = re.fullmatch(r"(\d{1,12}(?:\.\d{1,12})?)(us|ms|s|m|h)?", text)
    moment = _date(text) if not clock and not plain else None
    if clock:
        micro = (Decimal(clock.group(1)) * 3600 + Decimal(clock.group(2)) * 60 + Decimal(clock.group(3))) * MICRO
    elif plain:
        micro = Decimal(plain.group(1)) * UNITS[plain.group(2) or "s"]
    elif moment is not None and dates is not None and 1 in dates.starts:
        if (moment.tzinfo is not None) is not dates.is_utc:
            raise Fault(f"{text!r}: a zone is in one of this and --start alone")
        micro = Decimal(_since_epoch(moment) - dates.starts[1])
    elif moment is not None:
        raise Fault(f"{text!r} is a date, and --start says no date of the first recording")
    else:
        raise Fault(f"{text!r} is no time, as 90s or 0:01:30")
    return int(-(-micro * SECOND // MICRO))
