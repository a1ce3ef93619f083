"""Which part of a listing is wanted: one recording, and times from one on and before another."""

import dataclasses
from dataclasses import dataclass

import numpy as np

from .arrays import Array
from .clock import FRAME, Between, Timed


@dataclass(frozen=True)
class Window:
    """The wanted recording, counted from 1, and times in ticks; None is no limit. `from_zero` counts a recording's times from
    its first frame on."""

    recording: int | None = None
    begin: int | None = None
    end: int | None = None
    from_zero: bool = False

    def has(self, recording: int, begin: int | None, end: int | None) -> bool:
        """Whether something from one time to another is wanted; what has no times is, of a wanted recording."""
        if self.recording not in (None, recording + 1):
            return False
        begin, end = (end if begin is None else begin), (begin if end is None else end)
        if begin is None or end is None:
            return True
        return (self.end is None or begin < self.end) and (self.begin is None or end >= self.begin)

    def rows(self, recording: Array, time: Array) -> Array:
        """Which rows are wanted."""
        wanted = np.ones(len(time), dtype=bool)
        if self.recording is not None:
            wanted &= recording == self.recording - 1
        if self.begin is not None:
            wanted &= time >= self.begin
        if self.end is not None:
            wanted &= time < self.end
        return wanted

    def betweens(self, between: list[Between]) -> list[Between]:
        """What is wanted of what is between rows."""
        return [self._with_parts(one) for one in between if self.has(one.recording, one.begin, one.end)]

    def _with_parts(self, one: Between) -> Between:
        """The same, with what is wanted of what was read out of it."""
        if one.placed is None:
            return one
        return one.with_parts(one.placed.chosen(self.rows(one.placed.recording, one.placed.time)))

    def cut(self, timed: Timed) -> Timed:
        """What is wanted of a piece."""
        wanted = self.rows(timed.recording, timed.time)
        between = self.betweens(timed.between)
        if wanted.all() and len(between) == len(timed.between):
            return timed
        before = np.insert(np.cumsum(wanted), 0, 0)
        between = [dataclasses.replace(one, row=int(before[one.row])) for one in between]
        which = np.flatnonzero(wanted)
        return dataclasses.replace(
            timed,
            piece=timed.piece.only(which),
            recording=timed.recording[which],
            stretch=timed.stretch[which],
            time=timed.time[which],
            between=between,
            bit=None if timed.bit is None else timed.bit[which],
            dump_bit=None if timed.dump_bit is None else timed.dump_bit[which],
            doubtful=None if timed.doubtful is None else timed.doubtful[which],
            worked=None if timed.worked is None else [one.cut(wanted, before) for one in timed.worked],
        )


class Zero:
    """Counts times from the first frame of each recording."""

    def __init__(self) -> None:
        self.first: dict[int, int] = {}

    def shift(self, timed: Timed) -> Timed:
        """A piece with these times."""
        cuts = np.flatnonzero(np.diff(timed.recording, prepend=-1)).tolist()
        for row, end in zip(cuts, [*cuts[1:], len(timed.time)]):
            self.first.setdefault(int(timed.recording[row]), int(timed.time[row:end].min()) // FRAME * FRAME)
        if not len(timed.recording):
            return dataclasses.replace(timed, between=self.betweens(timed.between))
        shifts = np.array([self.first.get(number, 0) for number in range(int(timed.recording.max()) + 1)], dtype=np.int64)
        time = timed.time - shifts[timed.recording]
        return dataclasses.replace(timed, time=time, between=self.betweens(timed.between))

    def betweens(self, between: list[Between]) -> list[Between]:
        """The same of what is between rows; what is before the first frame has no time."""
        return [
            dataclasses.replace(
                one,
                begin=self._time(one.begin, one.recording),
                end=self._time(one.end, one.recording),
                placed=one.placed and one.placed.shifted(self.first),
            )
            for one in between
        ]

    def _time(self, ticks: int | None, recording: int) -> int | None:
        if ticks is None or ticks < self.first.get(recording, 0):
            return None
        return ticks - self.first.get(recording, 0)
