"""Doubtful frames, as far as a listing alone shows them: by counters, and by gaps that are shorter than a frame.

It needs a table by which each frame has rows, and none that began in an earlier frame. `flight parts` sees more, by the dump.
"""

from dataclasses import dataclass, field

import numpy as np

from .arrays import Array
from .beside import Beside, Doubtful, Parts
from .clock import Shape
from .doubts import LAST, LONE, Doubt, Frames, merged, of_counters, slip
from .listing import ROUND, Kind, Mark, Names, Piece, read_listing
from .parameters import Table
from .streams import Again

EDGES = (Kind.GAP, Kind.SESSION, Kind.RUN)


@dataclass
class Stretch:
    """Rows that no other line is between: the number of the first row's line and of the line after the last, and where the counter
    changes, with the counters."""

    begin: int
    end: int = 0
    lines: list[Array] = field(default_factory=list)
    counters: list[Array] = field(default_factory=list)

    def add(self, line: int, counter: Array) -> None:
        """Adds rows, whose lines follow each other."""
        if not len(counter):
            return
        last = self.counters[-1][-1] if self.counters else -1
        changes = np.flatnonzero(np.diff(counter, prepend=last) != 0)
        self.end = line + len(counter)
        if len(changes):
            self.lines.append(changes + line)
            self.counters.append(counter[changes])


@dataclass
class Section:
    """A session or a run: its stretches, and the gaps between them; there may be one before the first and after the last."""

    stretches: list[Stretch]
    gaps: list[Mark] = field(default_factory=list)


def beside_of(source: Again, table: Table, shape: Shape) -> Beside | None:
    """The doubtful frames of a listing, if there are some."""
    if not shape.every_frame or not all(parameter.is_prompt() for parameter in table.parameters.values()):
        return None
    sections = _sections(source, Names(list(table.parameters)))
    doubts = [one for section in sections for one in _doubts(section, shape.bits)]
    gaps = [(gap.first, gap.second, Parts()) for section in sections for gap in section.gaps]
    return Beside(table, gaps, doubts) if doubts else None


def _sections(source: Again, names: Names) -> list[Section]:
    """The sections of a listing."""
    sections = [Section([Stretch(1)])]
    for piece in read_listing(source.input(), names):
        done = 0
        for mark in [one for one in piece.marks if one.kind in EDGES]:
            _add(sections[-1], piece, done, mark.row)
            done = mark.row
            if mark.kind is Kind.GAP:
                sections[-1].gaps.append(mark)
                sections[-1].stretches.append(Stretch(mark.line + 1))
            else:
                sections.append(Section([Stretch(mark.line + 1)]))
        _add(sections[-1], piece, done, len(piece))
    return sections


def _add(section: Section, piece: Piece, first: int, end: int) -> None:
    """Adds rows of a piece."""
    if first < end:
        section.stretches[-1].add(piece.line_of(first), piece.counter[first:end])


def _doubts(section: Section, length: int) -> list[Doubtful]:
    """The doubtful frames of a section; none where its frames can't be told apart."""
    bits, counters, lines, ends = [], [], [], []
    begin = 0
    for number, stretch in enumerate(section.stretches):
        gap = section.gaps[number] if number < len(section.gaps) else None
        line = np.concatenate([np.zeros(0, dtype=np.int64), *stretch.lines])
        if gap is not None and gap.first - begin != len(line) * length:
            return []
        bits.append(begin + np.arange(len(line)) * length)
        counters.append(np.concatenate([np.zeros(0, dtype=np.int64), *stretch.counters]))
        lines.append(line)
        ends.append(np.append(line[1:], stretch.end)[: len(line)])
        begin = gap.first + gap.second if gap is not None else begin + len(line) * length
    frames = Frames(np.concatenate(bits), np.concatenate(counters), length, begin)
    line, end = np.concatenate(lines), np.concatenate(ends)
    found = merged([*of_counters(frames), *_put_in(frames)])
    return [
        Doubtful(int(frames.counter[one.frame]), one.subframes, one.fitting, int(line[one.frame]),
                 int(end[one.frame] - line[one.frame]), one.reason)
        for one in found
    ]  # fmt: skip


def _put_in(frames: Frames) -> list[Doubt]:
    """The frames before gaps that are shorter than a frame, after which the counter goes on."""
    counter = frames.counter.astype(np.int64).copy()
    is_lone = np.zeros(len(frames), dtype=bool)
    for one in of_counters(frames):
        counter[one.frame], is_lone[one.frame] = one.fitting, LONE in one.rules
    gap = np.diff(frames.bit) - frames.length
    goes_on = (gap > 0) & (gap < frames.length) & (np.diff(counter) % ROUND == 1) & ~is_lone[:-1] & ~is_lone[1:]
    doubts = []
    for frame in np.flatnonzero(goes_on).tolist():
        seen = slip(frames, frame, int(frames.bit[frame + 1]), False, True)
        doubts += [Doubt(frame, LAST, int(counter[frame]), (seen[0],), seen[1])] if seen else []
    return doubts
