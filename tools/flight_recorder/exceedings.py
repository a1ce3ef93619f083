"""Where the exceedances of `fdr exceed` stand in a listing.

A line of an exceedance has the counter of its first sample, which comes round and begins anew, and no session. But its
samples have the peak, all are in one stretch, and the lines are in the order in which the exceedances end.
"""

import math
from dataclasses import dataclass
from typing import BinaryIO, Sequence

import numpy as np

from .arrays import Array
from .clock import SECOND, Between, Timed
from .listing import MOST_WORDS, SUBFRAMES, Exceedance, Names
from .tables import Columns, row_text


@dataclass
class Standing:
    """Samples that an exceedance may be: where the first is, its parameter, how many didn't come yet, the time of the last,
    the least and the greatest; and the row of the listing that ends it, once that came."""

    recording: int
    stretch: int
    name: int
    begin: int
    left: int
    last: int
    least: float = math.inf
    greatest: float = -math.inf
    end: int | None = None
    doubtful: bool = False  # one of its samples is

    def has(self, peak: float) -> bool:
        """Whether a peak is the greatest or the least of the samples."""
        return peak in (self.least, self.greatest)


@dataclass(frozen=True)
class Found:
    """An exceedance, and where it may stand."""

    exceedance: Exceedance
    places: tuple[Standing, ...]

    def parameters(self, names: Names) -> tuple[str, ...]:
        """The parameters that were sampled there."""
        return tuple(sorted({names.names[place.name] for place in self.places}))

    def begins(self) -> list[tuple[int, int]]:
        """The recordings and times at which it may have begun, each once."""
        return sorted({(place.recording, place.begin) for place in self.places})


class Finder:
    """Looks for exceedances in a listing, piece by piece."""

    def __init__(self, exceedances: Sequence[Exceedance]) -> None:
        self.exceedances = list(exceedances)
        self.keys = np.array([int(_keys(one.counter, one.subframe, one.word)) for one in exceedances], dtype=np.int64)
        self.places: list[list[Standing]] = [[] for _ in exceedances]
        self.open: list[Standing] = []
        self.rows = 0  # of all pieces before

    def look(self, timed: Timed) -> None:
        """Looks for the places in a piece."""
        piece = timed.piece
        if not self.exceedances or not len(piece):
            return
        self._go_on(timed)
        keys = _keys(piece.counter, piece.subframe, piece.word)
        for row in np.flatnonzero(np.isin(keys, self.keys)).tolist():
            for number in np.flatnonzero(self.keys == keys[row]).tolist():
                where = (int(timed.recording[row]), int(timed.stretch[row]), int(piece.name[row]), int(timed.time[row]))
                one = Standing(*where, self.exceedances[number].length, int(timed.time[row]))
                self.places[number].append(one)
                self._take(one, timed, np.flatnonzero(piece.name[row:] == one.name) + row)
                if one.end is None:
                    self.open.append(one)
        self.rows += len(piece)

    def _go_on(self, timed: Timed) -> None:
        """Takes the samples of the places that are open."""
        rows: dict[int, Array] = {}
        for one in self.open:
            if one.name not in rows:
                rows[one.name] = np.flatnonzero(timed.piece.name == one.name)
            self._take(one, timed, rows[one.name])
        self.open = [one for one in self.open if one.end is None]

    def _take(self, one: Standing, timed: Timed, rows: Array) -> None:
        """Takes the samples in these rows of its parameter, as far as its stretch goes, and the row after them."""
        in_stretch = int(np.searchsorted(timed.stretch, one.stretch, side="right"))
        rows = rows[: int(np.searchsorted(rows, in_stretch))]
        values = timed.piece.value[rows[: one.left]]
        one.doubtful |= timed.doubtful is not None and bool(timed.doubtful[rows[: one.left]].any())
        if len(values):
            one.least, one.greatest = min(one.least, float(values.min())), max(one.greatest, float(values.max()))
            one.last = int(timed.time[rows[len(values) - 1]])
        if len(rows) > one.left:
            one.end = self.rows + int(rows[one.left])
        elif in_stretch < len(timed.stretch):
            one.end = self.rows + in_stretch
        one.left -= len(values)

    def found(self) -> list[Found]:
        """The exceedances, with the places that their peaks and their order leave."""
        for one in self.open:
            one.end = self.rows
        whole = [[place for place in places if not place.left] for places in self.places]
        with_peak = [
            [place for place in places if place.has(float(one.peak))] or places
            for one, places in zip(self.exceedances, whole)
        ]
        for places in (with_peak, whole):
            left = self._in_order(places)
            if all(bool(before) is bool(after) for before, after in zip(places, left)):
                break
        else:
            left = with_peak
        return [Found(one, tuple(places)) for one, places in zip(self.exceedances, left)]

    def _in_order(self, places: list[list[Standing]]) -> list[list[Standing]]:
        """The places that the order of the ends leaves, in which those of one rule are one after another."""
        ends = [sorted({float(place.end or 0) for place in one}) for one in places]
        earliest = self._bounds(ends, 1)
        latest = self._bounds([[-end for end in reversed(one)] for one in ends], -1)
        return [
            [place for place in one if first <= float(place.end or 0) <= -last]
            for one, first, last in zip(places, earliest, latest)
        ]

    def _bounds(self, ends: list[list[float]], way: int) -> list[float]:
        """For each exceedance the first end that those before it leave; from the last one on where the way is back."""
        bounds = [math.inf] * len(ends)
        newest = -math.inf
        of_rule: dict[str, float] = {}
        for number in range(len(ends))[::way]:
            name = self.exceedances[number].name
            past = of_rule.get(name, -math.inf)
            bounds[number] = next((end for end in ends[number] if end >= newest and end > past), math.inf)
            if bounds[number] < math.inf:
                newest = of_rule[name] = bounds[number]
        return bounds


def _keys(counter: "Array | int", subframe: "Array | int", word: "Array | int") -> Array:
    """A number for each place of a round of the counter."""
    return (np.asarray(counter, dtype=np.int64) * SUBFRAMES + subframe - 1) * MOST_WORDS + word - 1


class ExceedanceTable:
    """A table of exceedances: a row for each place at which one may stand."""

    def __init__(self, out: BinaryIO, names: Names, columns: Columns, exceedances: Sequence[Exceedance]) -> None:
        self.out = out
        self.names = names
        self.columns = columns
        self.finder = Finder(exceedances)

    def write(self, timed: Timed) -> None:
        """Looks for the exceedances in a piece."""
        self.finder.look(timed)

    def end(self, between: list[Between]) -> None:
        """Writes the table."""
        more = ["seconds", "name", "samples", "peak", "counter", "subframe", "word", "parameter", "places", "note"]
        self.out.write(row_text([*self.columns.first(), *more]))
        for found in self.finder.found():
            self._write(found)

    def _write(self, found: Found) -> None:
        one = found.exceedance
        said = [one.name, str(one.length), one.peak, str(one.counter), str(one.subframe), str(one.word)]
        count = len(found.begins())
        if not count:
            empty = [""] * (len(self.columns.first()) + 1)
            self.out.write(row_text([*empty, *said, "", "0", "not in the listing"]))
        for recording, begin in found.begins():
            here = [place for place in found.places if (place.recording, place.begin) == (recording, begin)]
            parameter = " ".join(Found(one, tuple(here)).parameters(self.names))
            head = self.columns.head(recording, begin)
            lengths = sorted({(place.last - begin) / SECOND for place in here})
            seconds = " or ".join(f"{length:.6f}" for length in lengths)
            notes = ["(doubtful): a sample of it is in a doubtful frame"] * any(place.doubtful for place in here)
            note = "; ".join([*notes, *[f"may stand at {count} places"] * (count > 1)])
            if self.columns.window.has(recording, begin, begin):
                self.out.write(row_text([*head, seconds, *said, parameter, str(count), note]))
