"""Expressions over a listing, worked out piece by piece: each at the times of its first parameter.

Of every other parameter the sample that is nearest in time counts, of two that are as near the earlier one, so that digits of
one number go together whichever of them comes first. A sample beyond a gap, or of another recording, never counts. Since a
sample may be nearest that comes later, a piece is held until none can come any more.
"""

from __future__ import annotations

import collections
from dataclasses import dataclass, replace
from typing import Iterator, Sequence

import numpy as np

from .arrays import Array
from .clock import FRAME, LATE, Timed
from .description import SCALED, Description, known_names
from .expression import Expression, Values, decimal_values, whole_values
from .listing import Names
from .parameters import SUPERFRAME, Table

AHEAD = (SUPERFRAME + LATE + 1) * FRAME  # ticks after which no sample comes that may be the nearest
STRETCH = 1 << 40  # of a key: more ticks than a recording has


@dataclass(frozen=True)
class Worked:
    """Expressions that were worked out at some rows of a piece, each with its values."""

    rows: Array
    values: list[Values]

    def cut(self, wanted: Array, before: Array) -> "Worked":
        """Those at the rows that are wanted; `before` is how many wanted ones are before each."""
        keep = wanted[self.rows]
        return Worked(before[self.rows[keep]], [one.only(keep) for one in self.values])


@dataclass(frozen=True)
class Request:
    """Expressions that are worked out together, at the times of the first one's first parameter."""

    expressions: tuple[Expression, ...]

    @property
    def names(self) -> tuple[str, ...]:
        """The names in them, the first first."""
        return tuple(dict.fromkeys(name for one in self.expressions for name in one.names))


class Series:
    """The samples of a parameter that may still be the nearest ones: by keys that grow with stretches and times, and their values."""

    def __init__(self) -> None:
        self.keys = np.zeros(0, dtype=np.int64)
        self.values = np.zeros(0)

    def add(self, keys: Array, values: Array) -> None:
        """Takes samples, which are later than those before."""
        self.keys, self.values = np.concatenate((self.keys, keys)), np.concatenate((self.values, values))

    def forget(self, key: int) -> None:
        """Samples so long before a key aren't asked for any more, but for the last one."""
        done = min(int(np.searchsorted(self.keys, key - AHEAD)), len(self.keys) - 1)
        if done > 0:
            self.keys, self.values = self.keys[done:], self.values[done:]

    def nearest(self, keys: Array) -> tuple[Array, Array]:
        """The values of the samples nearest to these keys, and whether there is one in the stretch."""
        if not len(self.keys):
            return np.zeros(len(keys)), np.zeros(len(keys), dtype=bool)
        after = np.searchsorted(self.keys, keys)
        before = np.maximum(after - 1, 0)
        after = np.minimum(after, len(self.keys) - 1)
        is_after = self.keys[after] - keys < np.abs(keys - self.keys[before])
        chosen = np.where(is_after, after, before)
        return self.values[chosen], self.keys[chosen] // STRETCH == keys // STRETCH


class Deriving:
    """Works requests out over a listing."""

    def __init__(self, requests: Sequence[Request], names: Names, table: Table, description: Description) -> None:
        self.requests = list(requests)
        with_points = [name for name, one in description.parameters.items() if one.points]
        self.are_whole = known_names(table, with_points)
        self.points = {name: description.parameters[name].points for name in with_points}
        used = {name.removesuffix(SCALED) for one in self.requests for name in one.names}
        self.numbers = {name: names.numbers[name.encode()] for name in used}
        self.series = {name: Series() for name in used}
        self.held: "collections.deque[tuple[Timed, int]]" = collections.deque()  # each with the greatest key in it

    def add(self, timed: Timed) -> Iterator[Timed]:
        """Takes a piece, and answers those that are ready, with what was worked out."""
        keys = timed.stretch.astype(np.int64) * STRETCH + timed.time
        for name, number in self.numbers.items():
            rows = np.flatnonzero(timed.piece.name == number)
            self.series[name].add(keys[rows], timed.piece.value[rows])
        newest = int(keys.max()) if len(keys) else self.held[-1][1] if self.held else 0
        self.held.append((timed, newest))
        while self.held and self.held[0][1] < newest - AHEAD:
            yield self._ready()

    def rest(self) -> Iterator[Timed]:
        """The pieces that are held at the end."""
        while self.held:
            yield self._ready()

    def _ready(self) -> Timed:
        timed, newest = self.held.popleft()
        answer = replace(timed, worked=[self._worked(one, timed) for one in self.requests])
        for series in self.series.values():
            series.forget(newest)
        return answer

    def _worked(self, request: Request, timed: Timed) -> Worked:
        """What a request is in a piece."""
        first = request.names[0].removesuffix(SCALED)
        rows = np.flatnonzero(timed.piece.name == self.numbers[first])
        keys = timed.stretch[rows].astype(np.int64) * STRETCH + timed.time[rows]
        values: dict[str, Values] = {}
        for name in request.names:
            of = name.removesuffix(SCALED)
            numbers, there = (timed.piece.value[rows], np.ones(len(rows), dtype=bool)) if of == first else self.series[of].nearest(keys)
            points = self.points[of] if of != name else None
            numbers = points.of(numbers) if points else numbers
            one = whole_values(numbers) if self.are_whole[name] else decimal_values(numbers)
            values[name] = Values(one.numbers, one.there & there)
        return Worked(rows, [one.worked(values) for one in request.expressions])
