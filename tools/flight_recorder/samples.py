"""The samples of a table by the frame of a superframe in which their last parts are."""

from dataclasses import dataclass, field
from functools import cached_property

import numpy as np

from .arrays import Array
from .listing import SUBFRAMES
from .parameters import SUPERFRAME, Parameter, Table
from .places import Bits, samples_of


@dataclass(frozen=True)
class Sample:
    """A sample of a parameter: its parts, from part 1 on, and the place among the rows of its first one."""

    parameter: Parameter
    number: int  # of the parameter
    parts: tuple[Bits, ...]
    words: int

    @property
    def first(self) -> int:
        """The word of its earliest part."""
        return min(part.slot for part in self.parts)

    @property
    def last(self) -> int:
        """The word of its last part."""
        return max(part.slot for part in self.parts)

    @property
    def is_in_each_frame(self) -> bool:
        """Whether all frames have it alike, whichever cycle they are of, and all of it."""
        return self.parameter.is_in_each_frame()

    def subframes(self) -> list[int]:
        """The subframes of its parts, counted from the superframe's first one."""
        return sorted({part.slot // self.words for part in self.parts})


@dataclass
class Samples:
    """All samples of a table's superframe, in the order of their last parts."""

    table: Table
    each: list[Sample] = field(default_factory=list)

    def __post_init__(self) -> None:
        for number, parameter in enumerate(self.table.parameters.values()):
            for parts in samples_of(parameter, self.table.words):
                self.each.append(Sample(parameter, number, tuple(parts), self.table.words))
        self.each.sort(key=lambda one: (one.last, one.number))

    @property
    def frame(self) -> int:
        """The words of a frame."""
        return SUBFRAMES * self.table.words

    @cached_property
    def by_frame(self) -> list[list[Sample]]:
        """Those of each frame of a superframe, by their last parts."""
        frames: list[list[Sample]] = [[] for _ in range(SUPERFRAME)]
        for one in self.each:
            frames[one.last // self.frame].append(one)
        return frames

    @cached_property
    def rows(self) -> Array:
        """For each frame of a superframe how many rows it has where so many frames before it are linked to it."""
        counts = np.zeros((SUPERFRAME, SUPERFRAME), dtype=np.int64)
        for one in self.each:
            frame = one.last // self.frame
            counts[frame, frame - one.first // self.frame :] += 1
        return counts

    @cached_property
    def in_last_frame(self) -> dict[tuple[int, int], str]:
        """The subframes of the frame of its last part in which each sample has parts, by its parameter and its first word."""
        found = {}
        for one in self.each:
            begin = one.last // self.frame * SUBFRAMES
            digits = {str(sub - begin + 1) for sub in one.subframes() if sub >= begin}
            found[(one.number, one.first)] = "".join(sorted(digits))
        return found
