"""The times of a listing: which frame each row's sample began in, where rows go on without a break, and what is between.

A row has its frame's counter, which is the frame's number modulo 4,096. Rows come in the order of their samples' last
parts, so a row may be of a frame up to 15 before that of its neighbours; a parameter's own samples never go back. Rows
that follow each other so are a stretch. A new one begins after a gap, after a line of a session or a run, and where the
counter doesn't go on or a parameter goes back.

A recording is what has one time from its beginning on: it begins with a session, with a run, and where the counter goes
back. What is said of a place is what was seen there, and not what it may mean.

Times are counted in 1,024ths of a second, of which every place of every table is a whole number, from the start of the
recording that the row is of.
"""

import dataclasses
import enum
from dataclasses import dataclass
from typing import TYPE_CHECKING, Mapping

import numpy as np

from .arrays import Array
from .faults import Fault
from .listing import MOST_WORDS, ROUND, SUBFRAMES, Exceedance, Kind, Kinds, Mark, Piece, Place
from .parameters import SUPERFRAME, Table

if TYPE_CHECKING:
    from .beside import Placed
    from .deriving import Worked

SECOND = 1024  # ticks
FRAME = SUBFRAMES * SECOND
LATE = SUPERFRAME - 1  # frames from a sample's first part to its last, at the most
WORD_BITS = 12
SLACK = 2.0  # seconds that missing time by a recorded clock may be away from what the counter allows
PLACES = SUBFRAMES * MOST_WORDS  # of a frame, on the clock's line; as many as ticks
NONE = -1
MOST_NAMES = 1 << 16  # whose numbers two bytes hold
WRAPS = "the memory wraps here: what follows is older"


@dataclass(frozen=True)
class Shape:
    """What a listing doesn't say: the words of a subframe, and how many frames later rows come again, by frame of a superframe."""

    words: int
    steps: Array
    every_frame: bool

    @property
    def unseen(self) -> int:
        """Frames without rows that may be beside a gap."""
        return 0 if self.every_frame else 2 * (int(self.steps.max()) - 1)

    @property
    def bits(self) -> int:
        """Bits of a frame."""
        return SUBFRAMES * self.words * WORD_BITS


def shape_of(table: Table | None, words: int | None) -> Shape:
    """The shape by a table, or by the number of words alone, where each superframe is taken to have rows."""
    if table is not None:
        steps = table.steps()
        return Shape(table.words, steps, bool((steps == 1).all()))
    if words is None:
        raise Fault("a listing doesn't say how many words a subframe has: give --table TABLE or --words N")
    return Shape(words, np.full(SUPERFRAME, SUPERFRAME), True)


class Event(enum.Enum):
    """What is between rows."""

    GAP = "gap"
    SESSION = "session"
    RUN = "run"
    HOLE = "hole"
    BACK = "back"
    BREAK = "break"
    WRAP = "wrap"
    EXCEED = "exceed"
    DOUBTFUL = "doubtful"
    CLOCK = "clock"
    EVENT = "event"

    @property
    def begins_recording(self) -> bool:
        """Whether a recording may begin with it."""
        return self in (Event.SESSION, Event.RUN, Event.BACK, Event.WRAP)


@dataclass(frozen=True)
class Between:
    """Something between rows: how many rows of the piece are before it, and the recording that it is in; where it begins
    and ends, in ticks, as far as rows say; whether its length is known; what there is to say; of a gap its line in the
    listing, and what was read out of it where that is given."""

    event: Event
    row: int
    recording: int
    begin: int | None
    end: int | None
    known: bool
    text: str
    exceedance: Exceedance | None = None
    line: int = 0
    placed: "Placed | None" = None

    def with_parts(self, placed: "Placed") -> "Between":
        """The same with what was read out of it."""
        return dataclasses.replace(self, placed=placed)


@dataclass
class Frames:
    """The frames of a piece, as far as rows tell them apart: neighbouring rows of one frame. For each its first row, the
    number of the frame on the clock's line, the greatest such number so far, and the stretch that it is of."""

    first: Array
    line: Array
    newest: Array
    stretch: Array

    def of(self, rows: Array) -> Array:
        """The frame that each of these rows is in."""
        return np.searchsorted(self.first, rows, side="right") - 1


@dataclass
class Timed:
    """A piece with its times: for each row the recording and the stretch it is of, and when its sample began. `sessions` has
    the session of each recording so far, where a line told it; `bit` where each row's first word begins, where it is wanted, and
    `dump_bit` the same with the bits of all sessions before; `doubtful` which rows are, where a file of parts says it; `worked` what
    was worked out of expressions, where there are some."""

    piece: Piece
    recording: Array
    stretch: Array
    time: Array
    between: list[Between]
    frames: Frames
    sessions: list[int | None]
    bit: Array | None = None
    dump_bit: Array | None = None
    doubtful: Array | None = None
    worked: "list[Worked] | None" = None


@dataclass
class Odd:
    """Where time doesn't go on as far as can be told: how often, and the place of the first."""

    count: int = 0
    place: Place | None = None

    def add(self, piece: Piece, row: int) -> None:
        """Counts one, at a row."""
        self.count += 1
        if self.place is None:
            self.place = Place(piece.byte_of(row), piece.line_of(row))


class Clock:
    """Finds the times of a listing's pieces, which are given in order.

    It counts frames on a line: the number of a row's frame there has the row's counter as its remainder by 4,096, and no
    frame of a stretch is as early there as one of a stretch before. A stretch's own shift makes it the number in its
    recording. `wrap` is where a memory is known to wrap, in a listing that is read as it was recorded; `recorded` how many seconds
    are missing by a clock that was recorded, by the byte of the row after them, where bits and counter don't say it."""

    def __init__(self, shape: Shape, wrap: Place | None = None, recorded: "Mapping[int, float] | None" = None) -> None:
        self.shape = shape
        self.known_wrap = wrap
        self.recorded = recorded or {}
        self.recording = -1
        self.sessions: list[int | None] = []
        self.stretch = 0
        self.shift = 0
        self.line = 0  # of the last row
        self.newest = 0  # of the newest frame
        self.has_rows = False  # the recording has
        self.has_begun = False  # a row came
        self.has_lines = False  # of sessions or runs
        self.run_end: int | None = None  # the block after the last run
        self.is_new_run = False  # nothing came since the line of a run
        self.waiting: list[Mark] = []  # what came after the last row
        self.last = np.zeros(0, dtype=np.int64)  # the place of each parameter's last sample
        self.furthest = NONE  # the greatest of them
        self.first_counter, self.leading = 0, 0  # of the first row, and the bits before it
        self.backs, self.unknown = Odd(), Odd()
        self.has_short_gap = False

    def times(self, piece: Piece, names: int) -> Timed:
        """The times of a piece; `names` is how many names there are so far."""
        self.last = np.concatenate((self.last, np.full(names - len(self.last), NONE)))
        others = (Kind.EXCEED, Kind.OTHER)
        edges = self.waiting + [mark for mark in piece.marks if mark.kind not in others]
        before = (self.newest + self.shift if self.has_rows else -1, max(self.recording, 0))
        within, after = self._in_frame(piece)
        first, line, starts, place = self._line(piece, within, edges)
        newest = np.maximum.accumulate(np.maximum(line, self.newest))
        at = np.searchsorted(first, starts)
        shift, recording, between = self._placed(piece, line, newest, at, edges, first)
        stretch = self.stretch + _counted(at, len(first))
        self.waiting = [dataclasses.replace(mark, row=0) for mark in edges if mark.row >= len(piece)]
        if any(mark.exceedance for mark in piece.marks):
            frames = [before, *zip((newest + shift).tolist(), recording.tolist())]
            between += self._exceedances(piece.marks, frames, first)
            between.sort(key=lambda one: one.row)
        counts = np.diff(first, append=len(piece))
        time = place + after
        if shift.any():
            time += np.repeat(shift * FRAME, counts)
        self._keep(piece, line, newest, place, len(at))
        frames_of = Frames(first, line, newest, stretch)
        recordings = _repeated(recording, counts, len(piece))
        stretches = _repeated(stretch, counts, len(piece))
        return Timed(piece, recordings, stretches, time, between, frames_of, self.sessions)

    def end(self) -> list[Between]:
        """What is after the last row."""
        return self._begin(self.waiting, 0, None, None)

    @property
    def is_odd(self) -> bool:
        """Whether there is a place where time doesn't go on, as far as can be told, or goes on over less than a frame."""
        return self.backs.count + self.unknown.count > 0 or self.has_short_gap

    def wrap(self) -> Place | None:
        """Where the memory wraps, once all pieces came: there is one place alone where time doesn't go on, and the end of the
        listing leads to its beginning."""
        odd = self.backs if self.backs.count else self.unknown
        if self.known_wrap or self.has_lines or not self.has_begun or odd.count != 1:
            return None
        bits = self.leading + sum(mark.second for mark in self.waiting)
        missing = (self.first_counter - self.newest - self.shift - 1) % ROUND
        return odd.place if self._agree(missing, bits) else None

    def _in_frame(self, piece: Piece) -> tuple[Array, Array]:
        """The place of each row's word in its frame on the line, and how many ticks its sample begins after that many."""
        of: Kinds | Piece = piece if piece.kinds is None else piece.kinds
        within = (of.subframe.astype(np.int64) - 1) * MOST_WORDS + of.word - 1
        after = (of.word.astype(np.int64) - 1) * (SECOND // self.shape.words - 1)
        return (within, after) if piece.kind is None else (within[piece.kind], after[piece.kind])

    def _line(
        self, piece: Piece, within: Array, edges: list[Mark]
    ) -> tuple[Array, Array, Array, Array]:
        """The first row of each frame, the frame's number on the line, the rows that stretches begin with, and the place of each
        row on the line, of which a frame has 4,096; `within` is that in its frame.

        Where such a row is found, the line is counted anew, and others may be seen then."""
        changes = np.insert(np.flatnonzero(piece.counter[1:] != piece.counter[:-1]) + 1, 0, 0)[: len(piece)]
        rows = {mark.row for mark in edges if mark.row < len(piece)} | (set() if self.has_begun else {0})
        starts = np.array(sorted(rows) if len(piece) else [], dtype=np.int64)
        while True:
            first = np.union1d(changes, starts).astype(np.int64) if len(starts) else changes
            at = np.searchsorted(first, starts)
            steps = np.diff(piece.counter[first].astype(np.int64), prepend=self.line % ROUND) % ROUND
            late = steps >= ROUND - LATE
            late[at] = False
            steps[late] -= ROUND
            steps[at] += ROUND
            line = self.line + np.cumsum(steps)
            place = np.repeat(line * PLACES, np.diff(first, append=len(piece))) + within
            jumps, backs = first[self._jumps(line)], self._backs(piece, place)
            found = np.union1d(jumps, backs) if len(jumps) or len(backs) else jumps
            if not len(found) or not len(np.setdiff1d(found, starts)):
                return first, line, starts, place
            starts = np.union1d(starts, found).astype(np.int64)

    def _jumps(self, line: Array) -> Array:
        """The frames that are so much later than the newest before that rows between are missing."""
        newest = np.maximum.accumulate(np.insert(line, 0, self.newest))
        return np.flatnonzero(np.diff(newest) > self.shape.steps[newest[:-1] % SUPERFRAME])

    def _backs(self, piece: Piece, place: Array) -> Array:
        """Rows at which a parameter has gone back, as few as there must be. None has over the beginning of a stretch."""
        if len(self.last) <= MOST_NAMES and len(place) and place[0] > self.furthest:
            each = place
            if not (each[1:] > each[:-1]).all():
                each = place * MOST_NAMES + piece.name
            if (each[1:] > each[:-1]).all():
                return np.zeros(0, dtype=np.int64)
        known = np.flatnonzero(self.last != NONE)
        names = np.concatenate((known, piece.name))
        names = names.astype(np.uint16) if len(self.last) <= MOST_NAMES else names
        order = np.argsort(names, kind="stable")
        names = names[order]
        places = np.concatenate((self.last[known], place))[order]
        bad = np.flatnonzero((names[1:] == names[:-1]) & (places[1:] <= places[:-1]))
        return _between_each(order[bad] - len(known), order[bad + 1] - len(known))

    def _placed(
        self, piece: Piece, line: Array, newest: Array, at: Array, edges: list[Mark], first: Array
    ) -> tuple[Array, Array, list[Between]]:
        """What makes each frame's number on the line the one in its recording, its recording, and what is between the rows."""
        shift, recording = np.empty(len(line), dtype=np.int64), np.empty(len(line), dtype=np.int64)
        between: list[Between] = []
        done, before = 0, 0
        for start in at.tolist():
            shift[before:start], recording[before:start] = self.shift, self.recording
            self.newest = int(newest[start - 1]) if start else self.newest
            held, row = done, int(first[start])
            while done < len(edges) and edges[done].row <= row:
                done += 1
            between += self._begin(edges[held:done], row, int(line[start]), piece)
            before = start
        shift[before:], recording[before:] = self.shift, self.recording
        return shift, recording, between

    def _begin(self, edges: list[Mark], row: int, line: int | None, piece: Piece | None) -> list[Between]:
        """A stretch begins with a row, or nothing comes any more, after these gaps, sessions and runs."""
        between: list[Between] = []
        gaps: list[Mark] = []
        for mark in edges:
            if mark.kind in (Kind.SESSION, Kind.RUN):
                between += [self._gap_by_bits(gap, row, None) for gap in gaps]
                between += self._session(mark, row) if mark.kind is Kind.SESSION else self._run(mark, row)
                gaps = []
            elif mark.kind is Kind.GAP:
                gaps.append(mark)
                self.is_new_run = False
            else:
                between.append(self._turned(mark, row, line))
        if line is None or piece is None:
            return between + [self._gap_by_bits(gap, row, None) for gap in gaps]
        between += self._joined(gaps, row, line, piece) if self.has_rows else self._led(gaps, row, line)
        self.has_rows = self.has_begun = True
        self.is_new_run = False
        return between

    def _session(self, mark: Mark, row: int) -> list[Between]:
        """A session begins, and a recording with it, unless a run's line is right before it."""
        text = f"session {mark.first} from block {mark.second}"
        self.has_lines = True
        if self.is_new_run:
            between = Between(Event.SESSION, row, self.recording, 0, 0, True, text)
        else:
            between = self._new_recording(Event.SESSION, row, 0, text)
        self.sessions[self.recording] = mark.first
        self.is_new_run = False
        return [between]

    def _run(self, mark: Mark, row: int) -> list[Between]:
        """A run begins, and a recording with it, after a hole of so many blocks."""
        missing = mark.first - (self.run_end or 0)
        text = f"blocks {mark.first - missing} to {mark.first - 1} are missing: {missing} blocks"
        between = []
        if missing > 0:
            end = (self.newest + self.shift + 1) * FRAME if self.has_rows else None
            between = [Between(Event.HOLE, row, max(self.recording, 0), end, None, False, text)]
        self.has_lines = self.is_new_run = True
        self.run_end = mark.first + mark.second
        blocks = f"run of {mark.second} blocks from block {mark.first}"
        return between + [self._new_recording(Event.RUN, row, 0, blocks)]

    def _turned(self, mark: Mark, row: int, line: int | None) -> Between:
        """A listing is read in the order of the counter: the memory wraps here, or its listing begins here."""
        if mark.kind is Kind.WRAP:
            begin, text = (line or 0) % ROUND * FRAME, WRAPS
        else:
            begin, text = (self.newest + self.shift + 1) * FRAME, "the listing begins here: what follows is newer"
        return Between(Event.WRAP, row, max(self.recording, 0), begin, begin, True, text)

    def _led(self, gaps: list[Mark], row: int, line: int) -> list[Between]:
        """The first stretch of a recording begins, of which the counter alone says the frame."""
        if self.recording < 0:
            self.recording = 0
            self.sessions.append(None)
        if not self.has_begun:
            self.first_counter, self.leading = line % ROUND, sum(gap.second for gap in gaps)
        self.shift = line % ROUND - line
        return [self._gap_by_bits(gap, row, line % ROUND * FRAME) for gap in gaps]

    def _agree(self, missing: int, bits: int) -> bool:
        """Whether so many frames are missing as bits went by."""
        return abs(missing - bits / self.shape.bits) < 1 + self.shape.unseen

    def _joined(self, gaps: list[Mark], row: int, line: int, piece: Piece) -> list[Between]:
        """A stretch begins after another one: later in the same recording, or in a new one.

        The counter says how many frames are missing, up to whole rounds, and the gap's bits how many went by. Where both
        agree the length is known. Where they don't, and the counter went back or begins anew, so does a recording."""
        before = self.newest + self.shift
        bits = sum(gap.second for gap in gaps)
        missing = (line - before - 1) % ROUND
        missing += ROUND * max(0, round((bits / self.shape.bits - missing) / ROUND))
        if self.known_wrap and piece.byte_of(row) == self.known_wrap.byte:
            return self._anew(gaps, row, line, Event.WRAP, WRAPS)
        if self._agree(missing, bits) and (bits > 0 or missing == 0):
            return self._went_on(gaps, row, line, missing)
        if self.recorded and piece.byte_of(row) in self.recorded:
            return self._by_recorded(gaps, row, line, self.recorded[piece.byte_of(row)])
        anew = missing >= ROUND // 2 or line % ROUND == 0
        (self.backs if anew else self.unknown).add(piece, row)
        if anew:
            back = (before - line) % ROUND
            ends = f"from {before % ROUND} to {line % ROUND}"
            text = f"the counter goes back by {back}, {ends}" if back else f"the counter stays at {line % ROUND}"
            return self._anew(gaps, row, line, Event.BACK, text)
        begin, end = (before + 1) * FRAME, (before + 1 + missing) * FRAME
        self.shift = before + 1 + missing - line
        if not gaps:
            text = f"the counter goes from {before % ROUND} to {line % ROUND}: unknown length"
            return [Between(Event.BREAK, row, self.recording, begin, end, False, text)]
        by_bits, by_counter = about(bits * FRAME / self.shape.bits), about(missing * FRAME)
        text = f"bits of {by_bits} s, by the counter {by_counter} s: lost bits or another recording"
        return [self._gap(gap, row, begin, end, False, text) for gap in gaps]

    def _by_recorded(self, gaps: list[Mark], row: int, line: int, seconds_missing: float) -> list[Between]:
        """A stretch begins after so many seconds by a recorded clock: later in the same recording, where the counter allows it."""
        before = self.newest + self.shift
        missing = (line - before - 1) % ROUND
        missing += ROUND * max(0, round((seconds_missing / SUBFRAMES - missing) / ROUND))
        by_clock = f"by the clock {seconds_missing:.1f} s"
        if abs(SUBFRAMES * missing - seconds_missing) > SLACK:
            text = f"the counter goes from {before % ROUND} to {line % ROUND}, {by_clock} later"
            return self._anew(gaps, row, line, Event.BACK, text)
        begin, end = (before + 1) * FRAME, (before + 1 + missing) * FRAME
        self.shift = before + 1 + missing - line
        if not gaps:
            text = f"the counter goes from {before % ROUND} to {line % ROUND}: {seconds(missing * FRAME)} s, {by_clock}"
            return [Between(Event.BREAK, row, self.recording, begin, end, True, text)]
        return [self._gap(gap, row, begin, end, True, f"{seconds(missing * FRAME)} s, {by_clock}") for gap in gaps]

    def _went_on(self, gaps: list[Mark], row: int, line: int, missing: int) -> list[Between]:
        """Time goes on after gaps of a known length."""
        self.has_short_gap |= bool(gaps) and missing == 0
        before = self.newest + self.shift
        begin, end = (before + 1) * FRAME, (before + 1 + missing) * FRAME
        self.shift = before + 1 + missing - line
        text = f"{seconds(missing * FRAME)} s"
        return [self._gap(gap, row, begin, end, True, text) for gap in gaps]

    def _anew(self, gaps: list[Mark], row: int, line: int, event: Event, text: str) -> list[Between]:
        """A recording begins anew after gaps of unknown length."""
        begin = (self.newest + self.shift + 1) * FRAME
        between = []
        for gap in gaps:
            by_bits = f"bits of {about(gap.second * FRAME / self.shape.bits)} s, unknown length"
            between.append(self._gap(gap, row, begin, None, False, by_bits))
        between.append(self._new_recording(event, row, line % ROUND * FRAME, text))
        self.shift = line % ROUND - line
        return between

    def _new_recording(self, event: Event, row: int, begin: int, text: str) -> Between:
        self.recording += 1
        self.sessions.append(None)
        self.has_rows = False
        return Between(event, row, self.recording, begin, begin, True, text)

    def _gap_by_bits(self, gap: Mark, row: int, end: int | None) -> Between:
        """A gap with rows on one side at most, before `end` or after the newest frame; its bits alone say how long it is."""
        length = round(gap.second * FRAME / self.shape.bits)
        begin = None
        if end is not None:
            begin = end - length if end >= length else None
        elif self.has_rows:
            begin = (self.newest + self.shift + 1) * FRAME
        after = None if begin is None else begin + length
        return self._gap(gap, row, begin, after, True, f"{seconds(length)} s by its bits")

    def _gap(self, gap: Mark, row: int, begin: int | None, end: int | None, known: bool, text: str) -> Between:
        """A gap, with what there is to say of its length."""
        where = f"from bit {gap.first}, {gap.second} bits: {text}"
        return Between(Event.GAP, row, max(self.recording, 0), begin, end, known, where, line=gap.line)

    def _exceedances(self, marks: list[Mark], newest: list[tuple[int, int]], first: Array) -> list[Between]:
        """The exceedances among the rows. Each began in the last frame before it that has its counter; `newest` has for what is
        before the first row, and for each frame, the newest frame and the recording up to it."""
        between = []
        for mark in marks:
            if mark.exceedance is not None:
                one, (frame, number) = mark.exceedance, newest[int(np.searchsorted(first, mark.row))]
                frame -= (frame - one.counter) % ROUND
                begin = place_time(frame, one.subframe, one.word, self.shape.words) if frame >= 0 else None
                text = f"{one.name}: {one.length} samples, peak {one.peak}"
                between.append(Between(Event.EXCEED, mark.row, number, begin, begin, True, text, one))
        return between

    def _keep(self, piece: Piece, line: Array, newest: Array, place: Array, starts: int) -> None:
        """Keeps what the next piece goes on from."""
        if not len(piece):
            return
        self.line, self.newest = int(line[-1]), int(newest[-1])
        self.stretch += starts
        self.last[piece.name] = place
        self.furthest = max(self.furthest, int(place.max()))


def place_time(frame: int, subframe: int, word: int, words: int) -> int:
    """When a sample of this place begins, in ticks."""
    return frame * FRAME + (subframe - 1) * SECOND + (word - 1) * (SECOND // words)


def seconds(ticks: int) -> str:
    """Ticks as seconds, without zeros at the end."""
    return f"{ticks / SECOND:.6f}".rstrip("0").rstrip(".")


def about(ticks: float) -> str:
    """Ticks as seconds, to a tenth, or to two digits where that is less."""
    length = ticks / SECOND
    return f"{length:.1f}".removesuffix(".0") if length >= 0.1 else f"{length:.2g}"


def _repeated(column: Array, counts: Array, length: int) -> Array:
    """What each row has of what each frame has; mostly all have the same."""
    if len(column) and column[0] == column[-1] and (column == column[0]).all():
        return np.broadcast_to(column[0], length)
    return np.repeat(column, counts)


def _counted(starts: Array, length: int) -> Array:
    """For each row how many of the starts are at it or before."""
    marked = np.zeros(length, dtype=np.int64)
    marked[starts] = 1
    return np.cumsum(marked)


def _between_each(before: Array, after: Array) -> Array:
    """Of pairs of rows, the fewest rows so that one is after the first of each pair and not after its second."""
    found: list[int] = []
    for _, earlier, later in sorted(zip(after.tolist(), before.tolist(), after.tolist())):
        if not found or found[-1] <= earlier:
            found.append(later)
    return np.array(found, dtype=np.int64)
