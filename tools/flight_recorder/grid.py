"""What is where in the frames of a table: a grid of words by subframes, and by frames of the superframe where they differ."""

import csv
import io
import itertools
from dataclasses import dataclass
from enum import Enum
from typing import Iterator

from .faults import Fault
from .occupancy import COUNTER, SUBFRAMES, SYNC, WORD_BITS, Occupancy, Owner
from .parameters import SUPERFRAME, Table

PERIODS = (1, 2, 4, 8, 16)


class Kind(Enum):
    """What bits hold."""

    PARAMETER = "parameter"
    FREE = "free"
    FIXED = "fixed"


@dataclass(frozen=True)
class Item:
    """Bits of a word that hold one thing: the highest, the lowest, and what it is; of a parameter its part, or 0 where it is whole."""

    kind: Kind
    high: int
    low: int
    name: str
    part: int = 0

    @property
    def what(self) -> str:
        """What they hold."""
        return f"{self.name} part {self.part}" if self.part else self.name

    @property
    def bits(self) -> str:
        """Which bits they are."""
        return f"{self.high}-{self.low}" if self.high > self.low else str(self.high)

    @property
    def text(self) -> str:
        """The bits and what they hold."""
        return f"{self.bits} {self.what}"


Cell = tuple[Item, ...]
FREE: Cell = (Item(Kind.FREE, WORD_BITS, 1, "free"),)


@dataclass(frozen=True)
class Line:
    """Words, mostly one, in frames of a superframe, counted from 1: what each subframe has there, from the highest bit on."""

    first: int
    last: int
    frames: tuple[int, ...]
    cells: tuple[Cell, ...]

    @property
    def words(self) -> str:
        """Which words they are."""
        return f"{self.first}-{self.last}" if self.last > self.first else str(self.first)

    @property
    def is_free(self) -> bool:
        """Whether nothing is in them, in any frame."""
        return len(self.frames) == SUPERFRAME and all(cell == FREE for cell in self.cells)

    @property
    def frames_text(self) -> str:
        """Which frames they are, as a sheet of a layout has them."""
        return frames_text(self.frames)


@dataclass
class Grid:
    """All words of a superframe, a line for each that all its frames have alike, and how many of their bits are free."""

    words: int
    lines: list[Line]
    free: int

    def joined(self) -> Iterator[Line]:
        """The lines, with words that follow each other and are free in all frames as one."""
        for is_free, group in itertools.groupby(self.lines, lambda line: line.is_free):
            some = list(group)
            if is_free:
                yield Line(some[0].first, some[-1].last, some[0].frames, some[0].cells)
            else:
                yield from some

    @property
    def have_frames(self) -> bool:
        """Whether frames of the superframe differ."""
        return any(len(line.frames) < SUPERFRAME for line in self.lines)


def frames_text(frames: tuple[int, ...]) -> str:
    """Frames of a superframe, as `3 of 16`, or `all`."""
    period = next(one for one in PERIODS if all((at + one in frames) is (at in frames) for at in range(1, SUPERFRAME + 1 - one)))
    if period == 1:
        return "all"
    return f"{_ranges([at for at in frames if at <= period])} of {period}"


def _ranges(numbers: list[int]) -> str:
    """Numbers, with those that follow each other as one range."""
    texts = []
    for _, group in itertools.groupby(enumerate(numbers), lambda pair: pair[1] - pair[0]):
        run = [number for _, number in group]
        texts.append(f"{run[0]}-{run[-1]}" if len(run) > 1 else str(run[0]))
    return ",".join(texts)


def grid_of(table: Table) -> Grid:
    """The grid of a table. A fault says where two things share a bit, or a word isn't in a subframe."""
    held = _held(table)
    lines: list[Line] = []
    for word in range(1, table.words + 1):
        by_cells: dict[tuple[Cell, ...], list[int]] = {}
        for frame in range(SUPERFRAME):
            slots = [(frame * SUBFRAMES + subframe) * table.words + word - 1 for subframe in range(SUBFRAMES)]
            by_cells.setdefault(tuple(held.get(slot, FREE) for slot in slots), []).append(frame + 1)
        for cells, frames in by_cells.items():
            lines.append(Line(word, word, tuple(frames), cells))
    free = sum(item.high - item.low + 1 for cell in held.values() for item in cell if item.kind is Kind.FREE)
    free += (SUPERFRAME * SUBFRAMES * table.words - len(held)) * WORD_BITS
    return Grid(table.words, lines, free)


def _held(table: Table) -> dict[int, Cell]:
    """What each word of a superframe holds, where it holds something."""
    bits = Occupancy(table.words, table.counter_word, table.counter_subframe)
    items: dict[int, list[Item]] = {}
    for parameter in table.parameters.values():
        has_parts = len({place.part for place in parameter.places}) > 1
        for place in parameter.places:
            if place.word > table.words:
                raise Fault(f"table: {parameter.name} is in word {place.word}, and a subframe has {table.words}")
            slots = place.slots(table.words)
            clash = bits.claim(Owner(parameter.name), slots, place.lsb, place.width)
            if clash:
                raise Fault(f"table: bit {clash.bit} of {clash.word()} holds both {parameter.name} and {_the(clash.owner)}")
            item = Item(Kind.PARAMETER, place.lsb + place.width - 1, place.lsb, parameter.name, place.part * has_parts)
            for slot in slots:
                items.setdefault(slot, []).append(item)
    cells = {slot: _cell(tuple(sorted(some, key=lambda item: -item.high))) for slot, some in items.items()}
    for slot, holders in bits.held.items():
        if holders[0][1] in (SYNC, COUNTER):
            cells[slot] = (Item(Kind.FIXED, WORD_BITS, 1, holders[0][1].name),)
    return cells


def _the(owner: Owner) -> str:
    return f"the {owner.name}" if owner in (SYNC, COUNTER) else owner.name


def _cell(items: tuple[Item, ...]) -> Cell:
    """What is in a word, with the bits between that are free."""
    cell: list[Item] = []
    above = WORD_BITS
    for item in items:
        if item.high < above:
            cell.append(Item(Kind.FREE, above, item.high + 1, "free"))
        cell.append(item)
        above = item.low - 1
    if above:
        cell.append(Item(Kind.FREE, above, 1, "free"))
    return tuple(cell)


def header(have_frames: bool) -> list[str]:
    """The names of a grid's columns."""
    return ["word", *(["frames"] if have_frames else []), *(f"subframe {number}" for number in range(1, SUBFRAMES + 1))]


def csv_of(grid: Grid) -> str:
    """The grid as comma-separated values, with a row for each word: a spreadsheet makes dates of ranges."""
    out = io.StringIO()
    rows = csv.writer(out, lineterminator="\n")
    rows.writerow(header(True))
    for line in grid.lines:
        rows.writerow([line.words, line.frames_text, *("; ".join(item.text for item in cell) for cell in line.cells)])
    return out.getvalue()


def text_of(grid: Grid) -> str:
    """The grid as text: what a word holds is in lines below each other."""
    rows = [[[field] for field in header(grid.have_frames)]]
    for line in grid.joined():
        frames = [[line.frames_text]] if grid.have_frames else []
        rows.append([[line.words], *frames, *([item.text for item in cell] for cell in line.cells)])
    widths = [max(len(text) for row in rows for text in row[at]) for at in range(len(rows[0]))]
    lines = []
    for row in rows:
        for texts in itertools.zip_longest(*row, fillvalue=""):
            cells = [texts[0].rjust(widths[0]), *(text.ljust(width) for text, width in zip(texts[1:], widths[1:]))]
            lines.append("  ".join(cells).rstrip() + "\n")
    return "".join(lines)
