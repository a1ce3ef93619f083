"""The outline of a listing: its sessions and runs, its gaps, and how many rows are between them; and the frames that are there."""

from dataclasses import dataclass, field
from typing import Iterable, Iterator

import numpy as np

from . import places
from .arrays import Array
from .clock import WORD_BITS
from .doubts import Frames
from .faults import Fault
from .frames import SYNCS
from .listing import SUBFRAMES, Kind, Mark, Names, Piece, read_listing
from .parameters import SUPERFRAME, Table
from .raw import words_at
from .samples import Samples
from .streams import Input

LINES = (Kind.SESSION, Kind.RUN)


@dataclass
class Section:
    """The listing of one line of bits: the lines of its run and its session, its gaps, and how many rows are before each gap and
    after the last one; and the number of its first line."""

    heads: list[Mark]
    line: int
    gaps: list[Mark] = field(default_factory=list)
    rows: list[int] = field(default_factory=lambda: [0])

    @property
    def is_empty(self) -> bool:
        """Whether nothing but heads is there."""
        return not self.gaps and self.rows == [0]


def sections_of(source: Input, table: Table) -> list[Section]:
    """The sections of a listing, which has rows at places of the table alone."""
    names = Names(list(table.parameters))
    return sections_in(read_listing(source, names), names, table)


def sections_in(pieces: Iterable[Piece], names: Names, table: Table) -> list[Section]:
    """The sections of a listing by its pieces, whose names begin with those of the table."""
    starts = places.starts_of(table)
    sections = [Section([], 1)]
    for piece in pieces:
        starts.check(piece, names)
        done = 0
        for mark in piece.marks:
            sections[-1].rows[-1] += mark.row - done
            done = mark.row
            if mark.kind is Kind.GAP:
                sections[-1].gaps.append(mark)
                sections[-1].rows.append(0)
            elif mark.kind in LINES:
                _add_head(sections, mark)
            else:
                raise Fault(f"listing line {mark.line}: the listing of fdr as it is, without other lines, is needed here")
        sections[-1].rows[-1] += len(piece) - done
    return sections


def _add_head(sections: list[Section], mark: Mark) -> None:
    """Begins a section, or goes on with the head of one that begins with a run's line."""
    last = sections[-1]
    if not last.is_empty or any(head.kind is mark.kind for head in last.heads) or last.heads and mark.kind is Kind.RUN:
        sections.append(Section([], mark.line))
    sections[-1].heads.append(mark)
    sections[-1].line = mark.line + 1


@dataclass(frozen=True)
class Outline:
    """The frames of a section, the first line of each frame's rows in the listing and how many it has, and its gaps, each with how
    many frames are before it."""

    frames: Frames
    line: Array
    rows: Array
    gaps: list[tuple[Mark, int]]


def outline_of(section: Section, bits: Array, table: Table, samples: Samples) -> Outline:
    """The frames between the gaps of a section. A fault says that the listing isn't of these bits."""
    length = SUBFRAMES * table.words * WORD_BITS
    begins = np.concatenate(list(_begins(section, len(bits) * 8, length)))
    _check_syncs(bits, begins, length)
    slot = (table.counter_subframe - 1) * table.words + table.counter_word - 1
    counter = words_at(bits, begins + slot * WORD_BITS) if len(begins) else begins
    frames = Frames(begins, counter, length, len(bits) * 8)
    rows = _rows(frames, samples)
    ends = [gap.first for gap in section.gaps]
    at = np.searchsorted(begins, ends).tolist()
    _check_rows(section, rows, at)
    before = np.searchsorted(ends, begins, side="right")
    line = section.line + np.cumsum(rows) - rows + before
    return Outline(frames, line, rows, list(zip(section.gaps, at)))


def _begins(section: Section, end: int, length: int) -> Iterator[Array]:
    """Where the frames between gaps begin."""
    done = 0
    for first, after, line in [*((gap.first, gap.first + gap.second, gap.line) for gap in section.gaps), (end, end, 0)]:
        if first < done or (first - done) % length or after > end:
            where = f"listing line {line}: the gap" if line else f"listing line {section.line}: what begins here"
            raise Fault(f"{where} doesn't fit the {end} bits of the dump: a listing of others, or by another table?")
        yield np.arange(done, first, length, dtype=np.int64)
        done = after


def _check_syncs(bits: Array, begins: Array, length: int) -> None:
    """Each frame begins with its first sync word."""
    stands = words_at(bits, begins) == SYNCS[0] if len(begins) else begins == 0
    if not stands.all():
        raise Fault(f"the dump has no frame at bit {begins[int(np.argmin(stands))]}, where the listing has one: another dump?")


def _rows(frames: Frames, samples: Samples) -> Array:
    """How many rows each frame has."""
    if not len(frames):
        return np.zeros(0, dtype=np.int64)
    linked = (np.diff(frames.bit) == frames.length) & (np.diff(frames.counter.astype(np.int64)) % 4096 == 1)
    at = np.arange(len(frames))
    start = np.maximum.accumulate(np.where(np.insert(linked, 0, False), 0, at))
    return np.asarray(samples.rows[frames.counter % SUPERFRAME, np.minimum(at - start, SUPERFRAME - 1)])


def _check_rows(section: Section, rows: Array, at: list[int]) -> None:
    """Between two gaps are as many rows as the frames there have."""
    bounds = [0, *at, len(rows)]
    for number, (first, end) in enumerate(zip(bounds, bounds[1:])):
        if int(rows[first:end].sum()) != section.rows[number]:
            before = section.gaps[number - 1].line + 1 if number else section.line
            seen = f"{section.rows[number]} rows, and the frames of the dump have {int(rows[first:end].sum())}"
            raise Fault(f"listing line {before}: from here to the next gap are {seen}: a listing of others?")
