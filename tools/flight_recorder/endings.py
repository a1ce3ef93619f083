"""How the bits of a session end: its whole frames, and what is after the last of them."""

from __future__ import annotations

from dataclasses import dataclass

import numpy as np

from .arrays import Array
from .clock import WORD_BITS
from .frames import SYNCS, frames_of
from .listing import SUBFRAMES
from .parameters import Table
from .raw import words_at


@dataclass(frozen=True)
class Ending:
    """The whole frames of a line of bits, the counters of the first and the last, where the last one begins, and after it: whole
    subframes whose sync words stand, and bits in all."""

    frames: int
    first_counter: int | None
    last_counter: int | None
    last_bit: int | None
    subframes: int
    bits_after: int


def ending_of(data: Array, table: Table) -> Ending:
    """How these bytes end."""
    frame = SUBFRAMES * table.words * WORD_BITS
    if 8 * len(data) < frame:
        return Ending(0, None, None, None, _subframes(data, 0, table.words), 8 * len(data))
    found = frames_of(data, table)
    if not len(found.bit):
        return Ending(0, None, None, None, 0, 8 * len(data))
    last = int(found.bit[-1])
    after = 8 * len(data) - last - frame
    counters = int(found.counter[0]), int(found.counter[-1])
    return Ending(len(found.bit), *counters, last, _subframes(data, last + frame, table.words), after)


def _subframes(data: Array, begin: int, words: int) -> int:
    """The whole subframes from a bit on whose sync words are there, one after another."""
    padded = np.concatenate((data[begin // 8 :], np.zeros(3, dtype=np.uint8)))
    bit, count = begin % 8, 0
    while bit + words * WORD_BITS <= 8 * (len(padded) - 3) and count < SUBFRAMES:
        if int(words_at(padded, np.array([bit]))[0]) != SYNCS[count]:
            break
        bit, count = bit + words * WORD_BITS, count + 1
    return count
