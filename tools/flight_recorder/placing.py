"""Where the rows of a layout's sheet put the parts of their parameters, and what can be wrong with that."""

from dataclasses import dataclass

from . import cells
from .occupancy import COUNTER, SUBFRAMES, SYNC, Occupancy, Owner
from .parameters import SUPERFRAME
from .sheet import Gathered, Row

MOST_PARTS, MOST_WIDTH = 4, 32


@dataclass(frozen=True)
class FrameShape:
    """The words of a subframe, the counter's word and subframe, and what the counter is in frame 1 of a superframe, modulo 16."""

    words: int
    counter_word: int
    counter_subframe: int
    begin: int = 0


@dataclass(frozen=True)
class Placed:
    """A row's places: which part of its parameter is in which bits of which words of which frames."""

    row: Row
    part: int
    subframes: tuple[int, ...]
    runs: list[cells.Run]
    bits: cells.BitSpan
    recurrences: list[cells.Recurrence]

    def slots(self, words: int) -> list[int]:
        """The words of a superframe in which they are, counted from 0."""
        frames = [frame for one in self.recurrences for frame in range(one.cycle, SUPERFRAME, one.period)]
        inside = [word for run in self.runs for word in (range(run.word, words + 1, run.step) if run.step else [run.word])]
        return [(frame * SUBFRAMES + sub - 1) * words + word - 1 for frame in frames for sub in self.subframes for word in inside]


@dataclass(frozen=True)
class Parts:
    """The parts of a parameter together: how many they are, their bits, and how often each is in a superframe."""

    count: int
    width: int
    rate: int


def placed_of(row: Row, is_one_of_several: bool, shape: FrameShape | None, faults: Gathered) -> Placed | None:
    """The places of a row; None where one of its cells is wrong."""
    part = faults.cell(row, "part", _part) if row.text("part") or is_one_of_several else 1
    subframes = faults.cell(row, "subframes", cells.subframes_of)
    runs = faults.cell(row, "word", cells.runs_of)
    bits = faults.cell(row, "bits", cells.bits_of)
    recurrences = faults.cell(row, "superframe", cells.recurrences_of)
    if recurrences and shape is not None:
        recurrences = [cells.Recurrence((one.cycle + shape.begin) % one.period, one.period) for one in recurrences]
    are_inside = shape is None or _are_inside(row, runs or [], shape, faults)
    if not (part and subframes and runs and bits and recurrences and are_inside):
        return None
    return Placed(row, part, subframes, runs, bits, recurrences)


def _part(text: str) -> int:
    if not text:
        raise ValueError("several rows have this name: each needs its part, 1 for the lowest bits")
    return cells.whole_of(text, 1, MOST_PARTS)


def _are_inside(row: Row, runs: list[cells.Run], shape: FrameShape, faults: Gathered) -> bool:
    """Whether words are those of a subframe, and none is the first, which has the sync word."""
    for run in runs:
        if not 1 <= run.word <= shape.words:
            faults.complain(row, "word", f"word {run.word}, and a subframe has words 1 to {shape.words}")
        elif run.word == 1:
            stepped = f"; 1/{run.step} is word 1 and every {run.step}th after it" if run.step else ""
            faults.complain(row, "word", f"word 1 has the sync word{stepped}")
    return all(1 < run.word <= shape.words for run in runs)


def parts_of(placed: list[Placed], shape: FrameShape | None, faults: Gathered) -> Parts | None:
    """The parts of a parameter: numbered from 1, each of one width, and all equally often. None after a fault."""
    before = len(faults.found)
    by_part: dict[int, list[Placed]] = {}
    for one in placed:
        by_part.setdefault(one.part, []).append(one)
    for number in range(1, max(by_part)):
        if number not in by_part:
            faults.complain(placed[0].row, "part", f"there is a part {max(by_part)} and no part {number}")
    for number, places in sorted(by_part.items()):
        for one in places[1:]:
            if one.bits.width != places[0].bits.width:
                widths = f"{one.bits.width} bits, and at line {places[0].row.line} {places[0].bits.width}"
                faults.complain(one.row, "bits", f"part {number} has {widths}")
    width = sum(places[0].bits.width for places in by_part.values())
    if width > MOST_WIDTH:
        faults.complain(placed[0].row, "bits", f"{width} bits in all parts, and {MOST_WIDTH} can be read")
    rate = _rate(by_part, shape, faults) if shape is not None and 1 in by_part else 0
    if shape is not None and not _are_joined_alike(by_part, shape):
        text = f"a superframe that begins with the counter {shape.begin} would have parts of it joined over the counter's multiples of 16"
        faults.complain(placed[0].row, "superframe", text)
    return Parts(len(by_part), width, rate) if len(faults.found) == before else None


def _rate(by_part: dict[int, list[Placed]], shape: FrameShape, faults: Gathered) -> int:
    """How often part 1 is in a superframe, as each part has to be."""
    rates = {number: sum(len(one.slots(shape.words)) for one in places) for number, places in by_part.items()}
    for number, rate in sorted(rates.items()):
        if rate != rates[1]:
            text = f"part {number} is {rate} times in a superframe, and part 1 {rates[1]} times"
            faults.complain(by_part[number][0].row, "part", text)
    return rates[1]


def _are_joined_alike(by_part: dict[int, list[Placed]], shape: FrameShape) -> bool:
    """Whether samples have the same parts in superframes that begin as the sheet says, and at multiples of 16 of the counter, as
    they are read."""
    if not shape.begin:
        return True
    length = SUPERFRAME * SUBFRAMES * shape.words
    slots = [[slot for one in places for slot in one.slots(shape.words)] for places in by_part.values()]

    def joined(begin: int) -> set[tuple[int, ...]]:
        """Of each sample where its first part is, and how far from it the others are, in superframes that begin so."""
        samples = zip(*(sorted((slot - begin) % length for slot in some) for some in slots))
        return {((sample[0] + begin) % length, *(place - sample[0] for place in sample)) for sample in samples}

    return joined(shape.begin * SUBFRAMES * shape.words) == joined(0)


def check_bits(placed: list[Placed], shape: FrameShape, faults: Gathered) -> None:
    """No bit is held twice."""
    bits = Occupancy(shape.words, shape.counter_word, shape.counter_subframe)
    for one in placed:
        owner = Owner(one.row.name, one.row.line)
        clash = bits.claim(owner, one.slots(shape.words), one.bits.lsb, one.bits.width)
        if clash is None:
            continue
        if clash.owner in (SYNC, COUNTER):
            faults.complain(one.row, "word", f"{clash.word(shape.begin)} has the {clash.owner.name}")
        elif clash.owner == owner:
            faults.complain(one.row, "word", f"{clash.word(shape.begin)} comes twice in this row")
        else:
            text = f"bit {clash.bit} of {clash.word(shape.begin)} holds {clash.owner.name} too, of line {clash.owner.line}"
            faults.complain(one.row, "bits", text)
