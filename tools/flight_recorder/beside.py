"""The file that `flight parts` writes, and what it says beside a listing: parts in its gaps, and its doubtful rows."""

import re
from dataclasses import dataclass, field, replace
from functools import cached_property
from typing import Iterator

import numpy as np

from .arrays import Array
from .clock import FRAME, SECOND, Between, Event, Timed, place_time
from .faults import Fault
from .listing import MOST_WORDS, ROUND, SUBFRAMES, Kind, Mark, Names, Piece
from .parameters import Table
from .samples import Samples
from .streams import Input

NUMBER = "(0|[1-9][0-9]{0,18})"
VALUE = r"(-?(?:0|[1-9][0-9]{0,18})(?:\.[0-9]{1,9})?)"
PART = re.compile(f"part,{NUMBER},([1-4]),{NUMBER},([A-Za-z0-9_.-]{{1,16}}),{VALUE},([23])")
DOUBTFUL = re.compile(f"doubtful,{NUMBER},(1?2?3?4?),{NUMBER},{NUMBER},{NUMBER},(.+)")
PAIR = re.compile(f"(gap|session|run),{NUMBER},{NUMBER}")
ROOM = 16  # frames that parts may be past what a gap's bits say, and still be of the recording before it


@dataclass(frozen=True)
class Doubtful:
    """A doubtful frame: its counter, the doubtful subframes, the counter that fits, its rows in the listing, and why."""

    counter: int
    subframes: str
    fitting: int
    line: int
    rows: int
    why: str

    @property
    def text(self) -> str:
        """What is said of it."""
        which = "" if self.subframes == "1234" else f", subframe {self.subframes}"
        fits = "" if self.fitting == self.counter else f"; {self.fitting} fits"
        return f"counter {self.counter}{which}: {self.why}{fits}"


@dataclass
class Parts:
    """The parts of a gap, by column."""

    counter: list[int] = field(default_factory=list)
    subframe: list[int] = field(default_factory=list)
    word: list[int] = field(default_factory=list)
    name: list[str] = field(default_factory=list)
    value: list[str] = field(default_factory=list)
    syncs: list[int] = field(default_factory=list)

    def __len__(self) -> int:
        return len(self.counter)

    def add(self, counter: int, subframe: int, word: int, name: str, value: str, syncs: int) -> None:
        """Adds one."""
        columns = (self.counter, self.subframe, self.word, self.name, self.value, self.syncs)
        for column, cell in zip(columns, (counter, subframe, word, name, value, syncs)):
            column.append(cell)  # type: ignore[attr-defined]


@dataclass(frozen=True)
class Placed:
    """The parts of a gap with their recordings, and their times in ticks, below 0 where they aren't known."""

    parts: Parts
    recording: Array
    time: Array
    wanted: Array  # which of them are

    def shifted(self, first: dict[int, int]) -> "Placed":
        """The same with times that count from the first frame of each recording."""
        shift = np.array([first.get(number, 0) for number in self.recording.tolist()], dtype=np.int64)
        return replace(self, time=np.where(self.time >= 0, self.time - shift, self.time))

    def chosen(self, wanted: Array) -> "Placed":
        """The same, with these alone as wanted."""
        return replace(self, wanted=self.wanted & wanted)

    def __iter__(self) -> Iterator[tuple[int, int, int]]:
        """Those that are wanted: their numbers among the parts, their recordings and their times."""
        for number in np.flatnonzero(self.wanted).tolist():
            yield number, int(self.recording[number]), int(self.time[number])


@dataclass
class Beside:
    """What a file of parts says: of each gap its place and its parts, and the doubtful frames in the order of their lines."""

    table: Table
    gaps: list[tuple[int, int, Parts]]
    doubts: list[Doubtful]

    def __post_init__(self) -> None:
        self.doubts.sort(key=lambda one: one.line)
        self.begins = np.array([one.line for one in self.doubts], dtype=np.int64)
        self.ends = np.array([one.line + one.rows for one in self.doubts], dtype=np.int64)
        self.number_of: dict[int, int] = {}  # of each gap, by its line in the listing

    @cached_property
    def in_last_frame(self) -> dict[tuple[int, int], str]:
        """The subframes of the frame of its last part in which each sample has parts."""
        return Samples(self.table).in_last_frame

    def follow(self, piece: Piece) -> None:
        """Numbers the gaps of a piece of the listing, as it is read first."""
        for mark in piece.marks:
            if mark.kind is Kind.GAP and mark.line not in self.number_of:
                self._check(mark)
                self.number_of[mark.line] = len(self.number_of)

    def _check(self, mark: Mark) -> None:
        number = len(self.number_of)
        if number >= len(self.gaps) or self.gaps[number][:2] != (mark.first, mark.second):
            raise Fault(f"listing line {mark.line}: the file of parts has no such gap here: of another listing?")

    def parts_of(self, line: int) -> Parts:
        """The parts of the gap of this line of the listing."""
        return self.gaps[self.number_of[line]][2]

    def corrected(self, piece: Piece) -> tuple[Array, Array, list[tuple[int, Doubtful]]]:
        """The counters of a piece's rows, those that fit of doubtful frames; which rows are doubtful; and the doubtful frames that
        begin in the piece, each with its first row."""
        doubtful = np.zeros(len(piece), dtype=bool)
        if not len(self.doubts) or not len(piece):
            return piece.counter, doubtful, []
        lines = piece.first_line + np.arange(len(piece)) + _marks_before(piece)
        at = np.searchsorted(self.begins, lines, side="right") - 1
        inside = np.flatnonzero((at >= 0) & (lines < self.ends[np.maximum(at, 0)]))
        counter, begins = piece.counter.copy(), []
        for row in inside.tolist():
            one = self.doubts[int(at[row])]
            slot = ((int(piece.counter[row]) % 16) * SUBFRAMES + int(piece.subframe[row]) - 1) * self.table.words
            own = self.in_last_frame.get((int(piece.name[row]), slot + int(piece.word[row]) - 1), "1234")
            doubtful[row] = bool(set(own) & set(one.subframes))
            counter[row] = (counter[row] + one.fitting - one.counter) % ROUND
            if lines[row] == one.line:
                begins.append((row, one))
        return counter, doubtful, begins


def _marks_before(piece: Piece) -> Array:
    """How many lines that are no rows are before each row of a piece."""
    return np.searchsorted(np.array([mark.row for mark in piece.marks], dtype=np.int64), np.arange(len(piece)), side="right")


def read_beside(source: Input, table: Table) -> Beside:
    """Reads a file of parts."""
    gaps: list[tuple[int, int, Parts]] = []
    doubts = []
    for number, line in enumerate(source.lines(), 1):
        text = line.rstrip("\n")
        part, pair, doubtful = PART.fullmatch(text), PAIR.fullmatch(text), DOUBTFUL.fullmatch(text)
        if pair:
            gaps += [(int(pair.group(2)), int(pair.group(3)), Parts())] * (pair.group(1) == "gap")
        elif part and gaps and int(part.group(1)) < ROUND and 1 <= int(part.group(3)) <= MOST_WORDS:
            counter, subframe, word, name, value, syncs = part.groups()
            if name not in table.parameters:
                raise Fault(f"parts line {number}: the table has no parameter {name}")
            gaps[-1][2].add(int(counter), int(subframe), int(word), name, value, int(syncs))
        elif doubtful:
            counter, subframes, fitting, begin, rows, why = doubtful.groups()
            doubts.append(Doubtful(int(counter), subframes, int(fitting), int(begin), int(rows), why))
        else:
            raise Fault(f"parts line {number}: {text[:60]!r} is no line that flight parts writes")
    return Beside(table, gaps, doubts)


@dataclass(frozen=True)
class Known:
    """The frame of a row: its recording, its number in it, and its counter."""

    recording: int
    number: int
    counter: int


class Placing:
    """Finds the times of the parts of a listing's gaps, by the rows before them and after them."""

    def __init__(self, beside: Beside, frame_bits: int) -> None:
        self.beside = beside
        self.frame_bits = frame_bits
        self.before: Known | None = None

    def place(self, timed: Timed) -> list[Between]:
        """What is between the rows of a piece, with the parts of gaps."""
        between = [self._with_parts(one, timed) for one in timed.between]
        if len(timed.piece):
            self.before = _known(timed, len(timed.piece) - 1)
        return between

    def end(self, between: list[Between]) -> list[Between]:
        """The same of what is after the last row."""
        return [self._with_parts(one, None) for one in between]

    def _with_parts(self, one: Between, timed: Timed | None) -> Between:
        if one.event is not Event.GAP or not one.line:
            return one
        parts = self.beside.parts_of(one.line)
        if not len(parts):
            return one
        before = _known(timed, one.row - 1) if timed is not None and one.row else self.before
        after = _known(timed, one.row) if timed is not None and one.row < len(timed.piece) else None
        before = before if before is not None and before.recording == one.recording else None
        after = after if after is not None and (before is None or after.recording != before.recording) else None
        bits = self.beside.gaps[self.beside.number_of[one.line]][1]
        return one.with_parts(self._placed(parts, before, after, one.recording, bits // self.frame_bits + ROOM))

    def _placed(self, parts: Parts, before: Known | None, after: Known | None, recording: int, most: int) -> Placed:
        """The times of parts, which go on from the frame before, or are those of the recording after."""
        recordings, times = [], []
        for counter, subframe, word in zip(parts.counter, parts.subframe, parts.word):
            steps = (counter - before.counter) % ROUND if before is not None else 0
            steps -= ROUND * (steps >= ROUND - ROOM)
            if before is None and after is None:
                before, steps = Known(recording, counter, counter), 0
            if before is not None and (steps <= most or after is None):
                recording, number = before.recording, before.number + steps
                before = Known(recording, number, counter)
            else:
                assert after is not None
                recording, number = after.recording, after.number - (after.counter - counter) % ROUND
            recordings.append(recording)
            times.append(place_time(number, subframe, word, self.beside.table.words) if number >= 0 else -1)
        times_of = np.array(times, dtype=np.int64)
        return Placed(parts, np.array(recordings, dtype=np.int64), times_of, np.ones(len(times), dtype=bool))


def _known(timed: Timed, row: int) -> Known:
    """The frame of a row."""
    return Known(int(timed.recording[row]), int(timed.time[row]) // FRAME, int(timed.piece.counter[row]))


def doubtful_between(row: int, one: Doubtful, timed: Timed) -> Between:
    """What is said in front of a doubtful frame's first row."""
    frame = int(timed.time[row]) // FRAME * FRAME
    first, last = int(one.subframes[0]) - 1, int(one.subframes[-1])
    begin, end = frame + first * SECOND, frame + last * SECOND
    return Between(Event.DOUBTFUL, row, int(timed.recording[row]), begin, end, True, one.text)
