"""Where conditions over a listing's parameters hold: runs of samples of a condition's first parameter at which it does."""

from __future__ import annotations

from dataclasses import dataclass, replace
from typing import Sequence

import numpy as np

from . import expression
from .clock import FRAME, SECOND, Timed
from .deriving import Worked
from .description import Description, known_names
from .expression import Expression, Values
from .faults import Fault
from .parameters import Table

MICRO = 1_000_000


def condition(text: str, table: Table, description: Description) -> Expression:
    """A condition over a table's parameters and the derived values of its description. Refused says what is wrong with it."""
    points = [name for name, one in description.parameters.items() if one.points]
    return expression.read(text, known_names(table, points), description.expressions())


def given_condition(option: str, text: str, table: Table | None, description: Description) -> Expression:
    """A condition that is given by a word of a command."""
    if table is None:
        raise Fault(f"{option} needs --table, whose parameters are in it")
    try:
        return condition(text, table, description)
    except expression.Refused as refused:
        raise Fault(f"{option}: {refused}") from None


@dataclass(frozen=True)
class Run:
    """Samples in a row at which a condition holds: the recording, the stretch, the first and the last time in ticks, how many
    samples; where it is the greatest or the least, what that is, and the values that are noted there; and whether they are the
    first of their stretch, and the last."""

    recording: int
    stretch: int
    begin: int
    end: int
    samples: int
    peak: float | None
    peak_time: int
    notes: tuple[float | None, ...]
    is_first: bool
    is_last: bool

    @property
    def ticks(self) -> int:
        """From the first sample to the last."""
        return self.end - self.begin

    def with_later(self, other: "Run", way: int) -> "Run":
        """This and a later one as one; way is 1 where the greatest peak counts, and -1 where the least does."""
        is_other = self.peak is None or other.peak is not None and way * other.peak > way * self.peak
        best = other if way and is_other else self
        last = {"end": other.end, "stretch": other.stretch, "is_last": other.is_last, "samples": self.samples + other.samples}
        return replace(self, peak=best.peak, peak_time=best.peak_time, notes=best.notes, **last)


class Follower:
    """Follows one condition through a listing, piece by piece: the first expression of a request is the condition; the second,
    where there is a way to a peak, is what that is of; and the others are noted there."""

    def __init__(self, number: int, way: int = 0) -> None:
        self.number = number
        self.way = way
        self.runs: list[Run] = []
        self.open: Run | None = None  # it goes on to the last sample so far
        self.stretch = -1  # of the last sample
        self.watched: dict[int, tuple[int, int]] = {}  # of each stretch the first and the last time at which there is a value

    def add(self, timed: Timed) -> None:
        """Takes a piece."""
        assert timed.worked is not None
        worked = timed.worked[self.number]
        rows, holds = worked.rows, worked.values[0]
        if not len(rows):
            return
        stretch = timed.stretch[rows]
        self._watch(timed, worked)
        is_so = holds.there & (holds.numbers != 0)
        is_new = np.diff(stretch, prepend=self.stretch) != 0
        begins = np.flatnonzero(is_so & (is_new | ~np.insert(is_so[:-1], 0, False)))
        ends = np.flatnonzero(is_so & np.append(is_new[1:] | ~is_so[1:], True))
        for first, last in zip(begins.tolist(), ends.tolist()):
            run = self._run(timed, worked, first, last, bool(is_new[first]))
            goes_on = self.open is not None and first == 0 and not is_new[0]
            if self.open is not None:
                run = self.open.with_later(run, self.way) if goes_on else run
                self._close(is_last=bool(is_new[0]), is_kept=not goes_on)
            self.open = run
            if last < len(rows) - 1:
                self._close(is_last=bool(is_new[last + 1]), is_kept=True)
        if self.open is not None and not is_so[-1]:
            self._close(is_last=bool(is_new[0]), is_kept=True)
        self.stretch = int(stretch[-1])

    def end(self) -> list[Run]:
        """The runs, once all came."""
        self._close(is_last=True, is_kept=self.open is not None)
        return self.runs

    def seconds(self) -> int:
        """How long the condition was watched: the frames from its first value to its last, of all stretches."""
        return sum((last // FRAME + 1) * FRAME - first // FRAME * FRAME for first, last in self.watched.values()) // SECOND

    def _close(self, is_last: bool, is_kept: bool) -> None:
        if self.open is not None and is_kept:
            self.runs.append(replace(self.open, is_last=is_last))
        self.open = None

    def _watch(self, timed: Timed, worked: Worked) -> None:
        rows = worked.rows[worked.values[0].there]
        cuts = np.flatnonzero(np.diff(timed.stretch[rows], prepend=-1)).tolist()
        for first, end in zip(cuts, [*cuts[1:], len(rows)]):
            begin, last = int(timed.time[rows[first]]), int(timed.time[rows[end - 1]])
            number = int(timed.stretch[rows[first]])
            self.watched[number] = (self.watched.get(number, (begin, last))[0], last)

    def _run(self, timed: Timed, worked: Worked, first: int, last: int, is_first: bool) -> Run:
        rows = worked.rows[first : last + 1]
        best, peak = 0, None
        if self.way:
            best, peak = _peak(worked.values[1], first, last, self.way)
        at = first + best
        notes = tuple(_number(one, at) for one in worked.values[1 + bool(self.way) :])
        begin, end, peak_time = (int(timed.time[row]) for row in (rows[0], rows[-1], worked.rows[at]))
        where = (int(timed.recording[rows[0]]), int(timed.stretch[rows[0]]))
        return Run(*where, begin, end, len(rows), peak, peak_time, notes, is_first, False)


def _peak(values: Values, first: int, last: int, way: int) -> tuple[int, float | None]:
    """Where among some samples the greatest or the least is, and what that is."""
    there = np.flatnonzero(values.there[first : last + 1])
    if not len(there):
        return 0, None
    numbers = values.numbers[first : last + 1][there]
    best = int(np.argmax(numbers) if way > 0 else np.argmin(numbers))
    return int(there[best]), float(numbers[best])


def _number(values: Values, at: int) -> float | None:
    return float(values.numbers[at]) if values.there[at] else None


def joined(runs: Sequence[Run], least: int, apart: int, way: int = 0) -> list[Run]:
    """Runs that are so long, in microseconds, of which those that are no further apart are one. A run that a gap cuts goes on
    behind it, where the gap isn't longer than what may be between two."""
    whole: list[Run] = []
    for run in runs:
        before = whole[-1] if whole else None
        is_cut = before is not None and before.is_last and run.is_first
        if before is not None and is_cut and _are_near(before, run, apart):
            whole[-1] = before.with_later(run, way)
        else:
            whole.append(run)
    answer: list[Run] = []
    for run in (one for one in whole if one.ticks * MICRO >= least * SECOND):
        if answer and _are_near(answer[-1], run, apart):
            answer[-1] = answer[-1].with_later(run, way)
        else:
            answer.append(run)
    return answer


def _are_near(before: Run, after: Run, apart: int) -> bool:
    return apart > 0 and before.recording == after.recording and (after.begin - before.end) * MICRO <= apart * SECOND
