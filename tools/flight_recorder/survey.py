"""What a whole listing has: where each session's times begin and end, what is missing, each parameter's values, and how long
rows go on without a break."""

from __future__ import annotations

import re
from dataclasses import dataclass, field

import numpy as np

from .arrays import Array
from .clock import FRAME, Between, Event, Timed
from .listing import Names
from .ranges import Range

MISSING = (Event.GAP, Event.BREAK, Event.BACK, Event.HOLE, Event.WRAP)
BITS = re.compile(r"from bit (\d+), (\d+) bits")


@dataclass
class Values:
    """The values of a parameter: how many, the least, the greatest, and how many are at an end of its range."""

    count: int = 0
    least: float = float("inf")
    greatest: float = float("-inf")
    at_least: int = 0
    at_greatest: int = 0

    def add(self, values: Array, range: Range | None) -> None:
        """Takes values."""
        self.count += len(values)
        self.least = min(self.least, float(values.min()))
        self.greatest = max(self.greatest, float(values.max()))
        if range is not None:
            self.at_least += int(np.count_nonzero(values == range.least))
            self.at_greatest += int(np.count_nonzero(values == range.greatest))


@dataclass
class Extent:
    """The times of a recording, in ticks: its first sample and the end of its newest frame; and the run and the session that it
    is in, counted from 0."""

    run: int
    session: int
    begin: int | None = None
    end: int | None = None


@dataclass(frozen=True)
class Absence:
    """What is missing between samples: the recording, the run and the session; when and how long, in ticks, as far as it is
    known; where in the session's bits; and what there is to say."""

    event: Event
    recording: int
    run: int
    session: int
    begin: int | None
    length: int | None
    bit: int | None
    bits: int | None
    text: str


@dataclass
class Stretch:
    """Frames that follow each other without a break: the run, the frames on the clock's line, and the samples by parameter."""

    run: int
    first: int
    last: int
    samples: dict[int, int] = field(default_factory=dict)

    @property
    def ticks(self) -> int:
        """How long it is."""
        return (self.last + 1 - self.first) * FRAME


class Survey:
    """Goes over a listing, piece by piece."""

    def __init__(self, names: Names, ranges: dict[str, Range], watched: set[str]) -> None:
        self.names = names
        self.ranges = ranges
        self.watched = {number for number, name in enumerate(names.names) if name in watched}
        self.rows = 0
        self.run, self.session = -1, 0
        self.extents: list[Extent] = []
        self.absences: list[Absence] = []
        self.values: dict[str, Values] = {}
        self.stretches: dict[int, Stretch] = {}
        self.heads: list[str] = []  # what lines of runs and sessions say

    def add(self, timed: Timed) -> None:
        """Takes a piece."""
        self._between(timed.between)
        if not len(timed.time):
            return
        self.rows += len(timed.time)
        self._extend(timed)
        self._go_on(timed)
        piece = timed.piece
        order = np.argsort(piece.name, kind="stable")
        for rows in np.split(order, np.flatnonzero(np.diff(piece.name[order])) + 1):
            name = self.names.names[int(piece.name[rows[0]])]
            self.values.setdefault(name, Values()).add(piece.value[rows], self.ranges.get(name))

    def end(self, between: list[Between]) -> None:
        """Takes what is after the last row."""
        self._between(between)

    def _between(self, between: list[Between]) -> None:
        for one in between:
            if one.event in (Event.RUN, Event.SESSION):
                self.heads.append(one.text)
            if one.event is Event.RUN:
                self.run, self.session = self.run + 1, -1
            elif one.event is Event.SESSION:
                self.session += 1
            self._enter(one.recording)
            if one.event in MISSING and not (one.event is Event.HOLE and self.run < 0):  # what is before all runs may be none
                found = BITS.search(one.text)
                bit, bits = (int(found.group(1)), int(found.group(2))) if found else (None, None)
                known = one.known and one.begin is not None and one.end is not None
                length = one.end - one.begin if known and one.end is not None and one.begin is not None else None
                where = (one.recording, max(self.run, 0), max(self.session, 0))
                self.absences.append(Absence(one.event, *where, one.begin, length, bit, bits, one.text))

    def _enter(self, recording: int) -> None:
        """Notes the run and the session that a recording is in, from what comes first in it on."""
        while len(self.extents) <= recording:
            self.extents.append(Extent(max(self.run, 0), max(self.session, 0)))

    def _extend(self, timed: Timed) -> None:
        cuts = np.flatnonzero(np.diff(timed.recording, prepend=-1)).tolist()
        for row, end in zip(cuts, [*cuts[1:], len(timed.time)]):
            self._enter(int(timed.recording[row]))
            extent = self.extents[int(timed.recording[row])]
            times = timed.time[row:end]
            begin, last = int(times.min()) // FRAME * FRAME, (int(times.max()) // FRAME + 1) * FRAME
            extent.begin = begin if extent.begin is None else min(extent.begin, begin)
            extent.end = max(extent.end or 0, last)

    def _go_on(self, timed: Timed) -> None:
        """The stretches of a piece."""
        frames = timed.frames
        cuts = np.flatnonzero(np.diff(frames.stretch, prepend=-1)).tolist()
        for at, end in zip(cuts, [*cuts[1:], len(frames.stretch)]):
            row = int(frames.first[at])
            run = self.extents[int(timed.recording[row])].run
            first, last = int(frames.line[at:end].min()), int(frames.line[at:end].max())
            one = self.stretches.setdefault(int(frames.stretch[at]), Stretch(run, first, last))
            one.first, one.last = min(one.first, first), max(one.last, last)
        is_watched = np.isin(timed.piece.name, list(self.watched))
        pairs = np.stack((timed.stretch[is_watched], timed.piece.name[is_watched]))
        if pairs.shape[1]:
            found, counts = np.unique(pairs, axis=1, return_counts=True)
            for stretch, name, count in zip(*found.tolist(), counts.tolist()):
                samples = self.stretches[stretch].samples
                samples[name] = samples.get(name, 0) + count
