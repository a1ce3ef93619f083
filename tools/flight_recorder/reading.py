"""A listing with its times, as the commands take it: checked against its table, and read again where its memory wraps."""

import datetime
from dataclasses import dataclass, field, replace
from typing import Iterator, Sequence

import numpy as np

from .arrays import Array
from . import description, places
from . import utc as time_of_day
from .addresses import Addresses
from .beside import Beside, Placing, doubtful_between
from .clock import Between, Clock, Timed, shape_of
from .deriving import Deriving, Request
from .description import SCALED, Description, RecordedClock
from .faults import Fault
from .listed_doubts import beside_of
from .listing import Kept, Kind, Mark, Names, Piece, Place, empty_piece, read_listing
from .noting import Noting
from .parameters import Table, read_table
from .streams import Again
from .window import Window, Zero


@dataclass(frozen=True)
class Wrap:
    """Where a memory wraps: the place of the line after it, and that line's frame in the bits, where it is known."""

    place: Place
    bit: int | None


@dataclass
class PassedOver:
    """Lines of kinds that aren't known: how many, and the number of the first."""

    count: int = 0
    line: int = 0

    def add(self, piece: Piece) -> None:
        """Counts those of a piece."""
        lines = [mark.line for mark in piece.marks if mark.kind is Kind.OTHER]
        self.line = self.line if self.count or not lines else lines[0]
        self.count += len(lines)


@dataclass
class Reading:
    """How a listing is read. Of a description with a clock `utc` and `notes` are there once `passes` has read the listing for it."""

    table: Table | None
    words: int | None
    window: Window = Window()
    cuts: bool = True  # pieces to the window; who needs what is before it cuts its own output
    as_recorded: bool = False
    with_bits: bool = False
    beside: Beside | None = None
    names: Names = field(default_factory=Names)
    description: Description = field(default_factory=Description)
    dates: dict[int, datetime.date] = field(default_factory=dict)  # of a clock without one
    more: list[Request] = field(default_factory=list)  # what is worked out beside the derived values
    notes: list[Between] = field(default_factory=list)  # to be put between rows
    utc: time_of_day.Utc | None = None
    missing: dict[int, float] = field(default_factory=dict)  # seconds by the clock, where they were guessed
    kept: Kept | None = None  # the pieces of the listing, by the same names

    @property
    def requests(self) -> list[Request]:
        """What is worked out: the derived values in their order, and more."""
        return [*(Request((one.expression,)) for one in self.description.derived.values()), *self.more]

    def passes(self, source: Again) -> Iterator["Pass"]:
        """The listing, from its beginning to its end. Where it turns out then that frames are doubtful or that the memory wraps, once
        more, and the last one is the one that counts. A listing with a clock is read for it first."""
        if self.description.clock is not None and self.utc is None:
            wrap = self._read_clock(source, self.description.clock)
            yield Pass(self, source, wrap)
            return
        first = Pass(self, source, None)
        yield first
        if self.beside is None and self.table is not None and first.clock.is_odd:
            self.beside = beside_of(source, self.table, first.shape)
            if self.beside is not None:
                first = Pass(self, source, None)
                yield first
        wrap = first.wrap()
        if wrap is not None:
            yield Pass(self, source, wrap)


    def _read_clock(self, source: Again, clock: RecordedClock) -> "Wrap | None":
        """Reads a listing for what its clock says, and answers where its memory wraps. What the clock says decides how long gaps are
        and where recordings begin, as far as that was guessed; where it does, the listing is read for it once more."""
        request = time_of_day.request_of(clock, self.description.expressions())
        aside = replace(self, more=[*self.more, request], window=Window(from_zero=self.window.from_zero), cuts=False, with_bits=False)
        aside.description = replace(self.description, clock=None)
        wrap: Wrap | None = None
        for one in aside.passes(source):
            collected, wrap = self._collected(clock, one), one.given_wrap
        self.beside = aside.beside
        self.missing = aside.missing = collected.missing()
        if self.missing:
            collected = self._collected(clock, Pass(aside, source, wrap))
        assert self.table is not None
        found = time_of_day.found(collected, self.dates, self.table, [name.removesuffix(SCALED) for name in request.names])
        self.utc, self.notes = found.utc, [*found.notes, *self.notes]
        return wrap

    def _collected(self, clock: RecordedClock, one: "Pass") -> time_of_day.Collected:
        collected = time_of_day.Collected(clock, len(self.requests))
        for timed in one:
            collected.add(timed)
        return collected


def reading_of(table: str | None, words: int | None, describe: str | None = None, dates: Sequence[str] = ()) -> Reading:
    """How a listing is read by the table of this path, or by the number of words alone. `describe` is the path of a description, or
    None for the one beside the table, or empty for none."""
    known = read_table(table) if table else None
    made = Reading(known, words, names=Names(list(known.parameters) if known else None))
    if known is None and describe:
        raise Fault("--describe needs --table, whose parameters it describes")
    if known is not None and table is not None:
        made.description = description.described_by(describe, table, known)
    made.dates = time_of_day.dates_of(dates)
    if made.dates and made.description.clock is None:
        raise Fault("--date is for a description with a clock")
    return made


class Pass:
    """One way through a listing: its pieces with their times, and what is after the last row."""

    def __init__(self, reading: Reading, source: Again, wrap: Wrap | None) -> None:
        self.reading = reading
        self.source = source
        self.given_wrap = wrap
        self.shape = shape_of(reading.table, reading.words)
        in_order = reading.as_recorded
        self.clock = Clock(self.shape, wrap.place if wrap and in_order else None, reading.missing)
        is_exact = reading.table is not None and self.shape.every_frame
        self.addresses = Addresses(self.shape, is_exact, wrap.bit if wrap and not in_order else 0)
        self.starts = places.starts_of(reading.table) if reading.table else None
        self.placing = Placing(reading.beside, self.shape.bits) if reading.beside else None
        self.zero = Zero() if reading.window.from_zero else None
        self.deriving: Deriving | None = None
        if reading.requests and reading.table is not None:
            self.deriving = Deriving(reading.requests, reading.names, reading.table, reading.description)
        self.noting = Noting(reading.notes) if reading.notes else None
        self.sessions = self.clock.sessions
        self.rest: list[Between] = []
        self.passed_over = PassedOver()
        self.found: Wrap | None = None

    def __iter__(self) -> Iterator[Timed]:
        for timed in self._worked():
            timed = self.noting.add(timed) if self.noting else timed
            yield self.reading.window.cut(timed) if self.reading.cuts else timed
        self.rest = self.clock.end()
        self.rest = self.placing.end(self.rest) if self.placing else self.rest
        self.rest = self.zero.betweens(self.rest) if self.zero else self.rest
        self.rest = self.noting.rest(self.rest) if self.noting else self.rest
        self.rest = self.reading.window.betweens(self.rest) if self.reading.cuts else self.rest

    def _worked(self) -> Iterator[Timed]:
        """The pieces with their times, and with what is worked out."""
        for piece in self._pieces():
            timed = self._timed(piece)
            yield from self.deriving.add(timed) if self.deriving else [timed]
        yield from self.deriving.rest() if self.deriving else []

    def wrap(self) -> Wrap | None:
        """Where the memory wraps, once the listing was read."""
        place = self.clock.wrap() if self.given_wrap is None else None
        return None if place is None else self.found if self.found and self.found.place == place else Wrap(place, None)

    def _pieces(self) -> Iterator[Piece]:
        """The pieces; where the memory is known to wrap those after that place first."""
        names = self.reading.names
        if self.given_wrap is None or self.reading.as_recorded:
            yield from self.reading.kept or read_listing(self.source.input(), names)
            return
        place = self.given_wrap.place
        yield empty_piece(Mark(Kind.WRAP, 0))
        yield from read_listing(self.source.input(place.byte), names, place)
        yield empty_piece(Mark(Kind.BEGIN, 0))
        yield from read_listing(self.source.input(), names, Place(), place.byte)

    def _timed(self, piece: Piece) -> Timed:
        """A piece with its times, once it is checked."""
        self.passed_over.add(piece)
        if self.starts is not None:
            self.starts.check(piece, self.reading.names)
        else:
            places.check_words(piece, self.shape.words)
        timed = self._on_the_clock(piece)
        bits = self.addresses.follow(timed)
        self._find(timed, bits)
        if self.reading.with_bits:
            bit = self._bits(timed, bits)
            origins = np.repeat(self.addresses.origins, np.diff(timed.frames.first, append=len(piece)))
            timed = replace(timed, bit=bit, dump_bit=np.where(bit >= 0, bit + origins, -1))
        return self.zero.shift(timed) if self.zero else timed

    def _on_the_clock(self, piece: Piece) -> Timed:
        """The times of a piece, which go on over doubtful frames by the counters that fit."""
        beside = self.reading.beside
        if beside is None or self.placing is None:
            return self.clock.times(piece, len(self.reading.names))
        beside.follow(piece)
        counter, doubtful, begins = beside.corrected(piece)
        timed = self.clock.times(replace(piece, counter=counter), len(self.reading.names))
        between = self.placing.place(timed)
        between += [doubtful_between(row, one, timed) for row, one in begins]
        between.sort(key=lambda one: one.row)
        return replace(timed, piece=piece, between=between, doubtful=doubtful)

    def _find(self, timed: Timed, bits: Array) -> None:
        """Keeps where the memory may wrap, if that is in this piece."""
        odd = self.clock.backs if self.clock.backs.count else self.clock.unknown
        place, piece = odd.place, timed.piece
        if place is None or self.found and self.found.place == place or not len(piece):
            return
        if place.byte >= piece.byte_of(0):
            row = int(np.searchsorted(piece.rest_start, place.byte - piece.byte_of(0) + int(piece.rest_start[0])))
            bit = int(bits[timed.frames.of(np.array([row]))[0]])
            self.found = Wrap(place, bit if bit >= 0 else None)

    def _bits(self, timed: Timed, bits: Array) -> Array:
        """The bit at which each row's first word begins; below 0 where it is unknown."""
        piece = timed.piece
        frame = np.repeat(bits, np.diff(timed.frames.first, append=len(piece)))
        within = ((piece.subframe - 1) * self.shape.words + piece.word - 1) * (self.shape.bits // (4 * self.shape.words))
        return np.where(frame >= 0, frame + within, -1)
