"""Where a table puts the samples of its parameters in a superframe, and the check that a listing has rows only there."""

from dataclasses import dataclass, field
from typing import NamedTuple

import numpy as np

from .arrays import Array
from .faults import Fault
from .listing import SUBFRAMES, Kinds, Names, Piece
from .parameters import SUPERFRAME, Parameter, Table

NOWHERE = -1


class Bits(NamedTuple):
    """Bits of a word of a superframe that hold a part of a sample: the word, counted from 0, the lowest bit and the width."""

    slot: int
    lsb: int
    width: int


def samples_of(parameter: Parameter, words: int) -> list[list[Bits]]:
    """The samples of a parameter in a superframe, each by its parts, from part 1 on."""
    parts: dict[int, list[Bits]] = {}
    for place in parameter.places:
        parts.setdefault(place.part, []).extend(Bits(slot, place.lsb, place.width) for slot in place.slots(words))
    return [list(sample) for sample in zip(*(sorted(parts[number]) for number in sorted(parts)))]


@dataclass
class Starts:
    """For each word of a superframe the numbers of the parameters whose samples begin there: a row for the first of them, one
    for the second, and so on, with NOWHERE where there is none."""

    words: int
    names: Array
    known: int
    checked: Kinds | None = None
    has_kinds: Array = field(default_factory=lambda: np.zeros(0, dtype=bool))  # in each frame of a superframe those that were checked

    def check(self, piece: Piece, names: Names) -> None:
        """Raises a fault that names the first row that isn't where the table has its parameter."""
        cycle = piece.counter.astype(np.int64) & (SUPERFRAME - 1)
        if piece.kind is not None and piece.kinds is not None:
            if self.checked is not piece.kinds:
                self.checked, cycles = piece.kinds, np.arange(SUPERFRAME)[:, np.newaxis]
                self.has_kinds = self._has(cycles, piece.kinds.subframe, piece.kinds.word, piece.kinds.name).ravel()
            is_there = self.has_kinds[cycle * len(piece.kinds.name) + piece.kind]
        else:
            is_there = self._has(cycle, piece.subframe, piece.word, piece.name)
        if not is_there.all():
            row = int(np.argmin(is_there))
            raise Fault(f"listing line {piece.line_of(row)}: {self._wrong(piece, row, names)}")

    def _has(self, cycle: Array, subframe: Array, word: Array, name: Array) -> Array:
        """Whether the table has these parameters at these places."""
        inside = np.minimum(word, self.words)
        slot = (cycle * SUBFRAMES + subframe - 1) * self.words + inside - 1
        found = np.zeros(slot.shape, dtype=bool)
        for each in self.names:
            found |= each[slot] == name
        return np.asarray(found & (inside == word))

    def _wrong(self, piece: Piece, row: int, names: Names) -> str:
        """What is wrong with a row."""
        name = names.names[piece.name[row]]
        if piece.name[row] >= self.known:
            return f"the table has no parameter {name}"
        if piece.word[row] > self.words:
            return f"word {piece.word[row]}, and a subframe of the table has {self.words}"
        place = f"counter {piece.counter[row]}, subframe {piece.subframe[row]}, word {piece.word[row]}"
        return f"the table has no {name} at {place}"


def starts_of(table: Table) -> Starts:
    """Where the samples of a table's parameters begin; the parameters are numbered as their rows."""
    at: dict[int, list[int]] = {}
    for number, parameter in enumerate(table.parameters.values()):
        for sample in samples_of(parameter, table.words):
            at.setdefault(min(part.slot for part in sample), []).append(number)
    most = max((len(numbers) for numbers in at.values()), default=1)
    names = np.full((most, SUPERFRAME * SUBFRAMES * table.words), NOWHERE, dtype=np.int32)
    for slot, numbers in at.items():
        names[: len(numbers), slot] = numbers
    return Starts(table.words, names, len(table.parameters))


def check_words(piece: Piece, words: int) -> None:
    """Raises a fault that names the first row whose word no subframe of so many words has."""
    if len(piece) and int(piece.word.max()) > words:
        row = int(np.argmax(piece.word > words))
        raise Fault(f"listing line {piece.line_of(row)}: word {piece.word[row]}, and a subframe has {words} by --words")
