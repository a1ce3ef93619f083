"""Where the frames of a listing are in its bits, and the check that the places of its gaps fit them.

What is between two gaps is whole frames, each of 48 bits for each word of a subframe. So a listing that was made by another
table is found out, also where both tables have their parameters in the same words.
"""

import numpy as np

from .arrays import Array
from .clock import LATE, WORD_BITS, Shape, Timed
from .faults import Fault
from .listing import SUBFRAMES, Kind, Mark
from .parameters import SUPERFRAME, WORDS

ANY = 1 << 62
EDGES = (Kind.GAP, Kind.SESSION, Kind.RUN, Kind.BEGIN)


class Tally:
    """What was counted of frames: by their counters, those that have rows, stretches, and frames with late rows."""

    def __init__(self) -> None:
        self.frames = self.seen = self.stretches = self.late = 0

    def array(self) -> Array:
        """The four numbers."""
        return np.array([self.frames, self.seen, self.stretches, self.late], dtype=np.int64)

    def take(self, numbers: Array) -> None:
        """Takes the four numbers."""
        self.frames, self.seen, self.stretches, self.late = (int(number) for number in numbers)


class Addresses:
    """Follows a listing piece by piece. `is_exact` is whether each frame has rows, by the table."""

    def __init__(self, shape: Shape, is_exact: bool, begin: int | None = 0) -> None:
        self.shape = shape
        self.is_exact = is_exact
        self.begin = begin  # the bit after the last gap, or the first one of a session or a run; None is unknown
        self.origin = 0  # the bits of all sessions and runs before
        self.origins = np.zeros(0, dtype=np.int64)  # for each frame of the last piece
        self.newest = 0
        self.stretch = 0
        self.in_a_row = 0  # frames with rows, up to the last one
        self.all_have_rows = False  # as many in a row had as a superframe has, and so each has
        self.has_late = False  # rows of earlier frames, whose samples are in several
        self.tally = Tally()  # of what is after `begin`

    def follow(self, timed: Timed) -> Array:
        """Checks the gaps of a piece, and answers the bit at which each frame of it begins; below 0 where it is unknown."""
        frames = timed.frames
        rise = np.diff(frames.newest, prepend=self.newest)
        begins = np.diff(frames.stretch, prepend=self.stretch) != 0
        rise[begins] = 1
        self._count_in_a_row(rise == 1, begins)
        self.has_late |= bool((frames.line < frames.newest).any())
        counts = np.stack((rise, rise > 0, begins, frames.line < frames.newest), axis=1).astype(np.int64)
        totals = np.concatenate((np.zeros((1, 4), dtype=np.int64), np.cumsum(counts, axis=0)))
        bits = np.full(len(rise), -1, dtype=np.int64)
        self.origins = np.full(len(rise), self.origin, dtype=np.int64)
        before, held = 0, self.tally.array()
        for mark in (one for one in timed.piece.marks if one.kind in EDGES):
            here = int(np.searchsorted(frames.first, mark.row))
            self._place(bits, before, here, held[0] + totals[:, 0] - totals[before, 0])
            self.tally.take(held + totals[here] - totals[before])
            self._pass(mark)
            before, held = here, self.tally.array()
        self._place(bits, before, len(rise), held[0] + totals[:, 0] - totals[before, 0])
        self.tally.take(held + totals[-1] - totals[before])
        if len(rise):
            self.newest, self.stretch = int(frames.newest[-1]), int(frames.stretch[-1])
            bits -= (frames.newest - frames.line) * self.shape.bits * (bits >= 0)
        return bits

    def _place(self, bits: Array, first: int, end: int, counted: Array) -> None:
        """Places frames that follow each other; `counted` has how many there are up to before each."""
        self.origins[first:end] = self.origin
        if self.begin is not None:
            bits[first:end] = self.begin + (counted[first + 1 : end + 1] - 1) * self.shape.bits

    def _pass(self, mark: Mark) -> None:
        """Goes past a gap, or to the beginning of a session or a run."""
        if mark.kind is Kind.GAP:
            if self.begin is not None:
                self._check(mark, self.begin)
            self.begin = mark.first + mark.second
        else:
            if mark.kind is not Kind.BEGIN and self.begin is not None:
                self.origin += self.begin + self.tally.frames * self.shape.bits
            self.begin = 0
        self.tally = Tally()

    def _check(self, gap: Mark, begin: int) -> None:
        """A gap is where the frames before it end, as many as there are."""
        frames, rest = divmod(gap.first - begin, self.shape.bits)
        least, most = self._limits()
        if rest == 0 and least <= frames <= most:
            return
        if gap.first < begin:
            raise Fault(f"listing line {gap.line}: the gap at bit {gap.first} is before bit {begin}: several listings in one?")
        fit = [words for words in WORDS if gap.first - begin == self.tally.frames * SUBFRAMES * WORD_BITS * words]
        hint = f"; subframes of {fit[0]} words fit" if fit and self.tally.frames else ""
        seen = f"{self.tally.frames} frame{'s' if self.tally.frames != 1 else ''} of subframes of {self.shape.words} words"
        raise Fault(
            f"listing line {gap.line}: a gap at bit {gap.first} doesn't fit the {seen} from bit {begin} on: "
            f"was it listed by another table?{hint}"
        )

    def _count_in_a_row(self, is_next: Array, begins: Array) -> None:
        """Counts how many frames follow each other that all have rows."""
        new = np.flatnonzero(is_next | begins)
        if not len(new):
            return
        goes_on = is_next[new] & ~begins[new]
        count = np.cumsum(goes_on)
        before = np.maximum.accumulate(np.where(goes_on, 0, count))
        in_a_row = count - before + np.where(np.logical_or.accumulate(~goes_on), 1, self.in_a_row)
        self.in_a_row = int(in_a_row[-1])
        self.all_have_rows |= int(in_a_row.max()) >= SUPERFRAME

    def _limits(self) -> tuple[int, int]:
        """How few and how many frames there may be. Each frame that has rows is there. Others may be without rows where the table
        has such; by `--words`, where no whole superframe of rows came so far. What is missing or damaged may hide some more, so
        a listing is refused only where that can't be it."""
        tally = self.tally
        if self.is_exact:
            return tally.frames, tally.frames + tally.late
        by_table = not self.shape.every_frame
        is_known = bool((self.shape.steps < SUPERFRAME).any()) if by_table else self.all_have_rows
        if not tally.frames or not is_known:
            return tally.seen, ANY
        beside = self.shape.unseen + LATE if by_table else LATE * self.has_late
        return tally.seen, tally.frames * 3 // 2 + beside * max(1, tally.stretches) + tally.late
