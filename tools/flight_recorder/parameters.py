"""The table of a recording, as far as the tools need it. `fdr check` is what says whether a table is sound."""

import csv
import io
import pathlib
import re
from dataclasses import dataclass, field

import numpy as np

from .arrays import Array
from .faults import Fault
from .scale import MOST, MOST_OFFSET, Scale

WORDS = (64, 128, 256, 512, 1024)
SUPERFRAME = 16  # frames
FIELDS = {"F": (4,), "P": (13, 14), "L": (10,)}  # a row of a parameter may have an age


@dataclass(frozen=True)
class Place:
    """Where a part of a parameter occurs: its first word in a subframe and the step to the next, or 0; its lowest bit in the
    word and its width; and the frames of a superframe."""

    part: int
    subframes: tuple[int, ...]
    word: int
    step: int
    lsb: int
    width: int
    cycle: int
    period: int

    def slots(self, words: int) -> list[int]:
        """The words of a superframe in which it occurs, counted from 0."""
        in_subframe = range(self.word, words + 1, self.step) if self.step else [self.word]
        frames = range(self.cycle, SUPERFRAME, self.period)
        return [(4 * frame + sub - 1) * words + word - 1 for frame in frames for sub in self.subframes for word in in_subframe]


@dataclass
class Parameter:
    """A parameter's source, what its raw number means, and its places."""

    name: str
    bus: int
    label: int
    sdi: int | None
    width: int
    sign: str
    scale: Scale
    lsb: int  # the lowest bit of the field in the bus word
    places: list[Place] = field(default_factory=list)

    def text_of(self, word: int) -> str:
        """The value that a bus word has, as it is listed."""
        raw = word >> self.lsb - 1 & (1 << self.width) - 1
        return self.scale.text(1) if self.sign == "V" else self.text(raw)  # of V the word is there

    def text(self, bits: int) -> str:
        """The value of these bits of its field, as it is listed."""
        is_negative = self.sign == "S" and bits >> (self.width - 1)
        return self.scale.text(bits - (1 << self.width) if is_negative else bits)

    def is_in_each_frame(self) -> bool:
        """Whether all frames have it alike, whichever cycle they are of."""
        return all(place.period == 1 for place in self.places)

    def is_prompt(self) -> bool:
        """Whether all parts of a sample are in one frame, for certain: those of one cycle and period, as they mostly are."""
        return len({(place.cycle, place.period) for place in self.places}) == 1


@dataclass
class Table:
    """The words of a subframe, the parameters by name in the order of their rows, and where a frame's counter is: its word and
    its subframe."""

    words: int
    parameters: dict[str, Parameter]
    counter_word: int
    counter_subframe: int

    def steps(self) -> Array:
        """For each frame of a superframe how many frames later rows come again, at the latest."""
        with_rows = np.zeros(SUPERFRAME, dtype=bool)
        for parameter in self.parameters.values():
            if parameter.is_prompt():
                with_rows[parameter.places[0].cycle :: parameter.places[0].period] = True
        steps = np.full(SUPERFRAME, SUPERFRAME)
        for frame in range(SUPERFRAME):
            later = [step for step in range(1, SUPERFRAME + 1) if with_rows[(frame + step) % SUPERFRAME]]
            steps[frame] = later[0] if later else SUPERFRAME
        return steps


def read_table(path: str) -> Table:
    """Reads a table, or names the first row that isn't as it has to be. Rows are counted from 0, as `fdr check` does."""
    table: Table | None = None
    text = pathlib.Path(path).read_bytes().decode("utf-8-sig", "surrogateescape")
    rows = (row for row in csv.reader(io.StringIO(text, newline="")) if row)
    for number, row in enumerate(rows):
        try:
            table = _with_row(table, row)
        except (ValueError, IndexError, KeyError):
            raise Fault(f"table row {number}: `fdr check` says what is wrong with it") from None
    if table is None:
        raise Fault("table row 0: no frame row")
    return table


def _with_row(table: Table | None, row: list[str]) -> Table:
    """The table with one more row. A ValueError, IndexError or KeyError says that the row is wrong."""
    if (table is None) is not (row[0] == "F") or len(row) not in FIELDS[row[0]]:
        raise ValueError(row)
    if table is None:
        return Table(_number(row[1], WORDS), {}, _number(row[2], range(2, 1025)), _number(row[3], range(1, 5)))
    if row[0] == "P":
        parameter = _parameter(row)
        if parameter.name in table.parameters:
            raise ValueError(row)
        table.parameters[parameter.name] = parameter
    else:
        table.parameters[row[1]].places.append(_place(row))
    return table


def _number(text: str, among: "range | tuple[int, ...]", base: int = 10) -> int:
    if not re.fullmatch("[0-9]{1,19}", text) or int(text, base) not in among:
        raise ValueError(text)
    return int(text, base)


def _parameter(row: list[str]) -> Parameter:
    if not re.fullmatch("[A-Za-z0-9_.-]{1,16}", row[1]):
        raise ValueError(row[1])
    sdi = _number(row[4], range(4)) if row[4] else None
    scale = Scale(
        _signed(row[8], MOST), _number(row[9], range(1, MOST + 1)), _signed(row[10], MOST_OFFSET), _number(row[11], range(10))
    )
    if row[7] not in ("U", "S", "V"):
        raise ValueError(row[7])
    lsb, width = _number(row[5], range(1, 33)), _number(row[6], range(1, 33))
    return Parameter(
        row[1], _number(row[2], range(256)), _number(row[3], range(0o400), 8), sdi, width, row[7], scale, lsb
    )


def _signed(text: str, most: int) -> int:
    return -_number(text[1:], range(most + 1)) if text.startswith("-") else _number(text, range(most + 1))


def _place(row: list[str]) -> Place:
    subframes = tuple(_number(digit, range(1, 5)) for digit in row[3])
    word, step = _number(row[4], range(1, 1025)), _number(row[5], range(1025))
    lsb, width = _number(row[6], range(1, 13)), _number(row[7], range(1, 13))
    period = _number(row[9], (1, 2, 4, 8, 16))
    return Place(
        _number(row[2], range(1, 5)), subframes, word, step, lsb, width, _number(row[8], range(period)), period
    )
