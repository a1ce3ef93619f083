"""Which frame of a recording each subframe of a gap is of: by the frames beside the gap, and by the counter's word."""

from collections import Counter
from dataclasses import dataclass

from .clock import WORD_BITS
from .listing import ROUND, SUBFRAMES
from .parameters import Table
from .standing import Subframe
from .arrays import Array
from .raw import words_at

import numpy as np

NEAR = 8  # frames on each side whose counters are asked
OF_A_FRAME = 2  # votes of a frame that is listed
CLOSE = 0.1  # of a frame: how far bits may be off whole frames


@dataclass(frozen=True)
class Beside:
    """A frame beside a gap: where it begins, and its counter, or the one that fits where it is doubtful."""

    bit: int
    counter: int


@dataclass(frozen=True)
class Known:
    """The counter of a frame, and whether two that say it independently agree."""

    counter: int
    is_sure: bool


def counters_of(
    bits: Array, found: list[Subframe], table: Table, before: Beside | None, after: Beside | None
) -> dict[int, Known]:
    """The counters of the frames of these subframes, by where they begin; those that nothing says are left out."""
    width = table.words * WORD_BITS
    begins = sorted({one.frame(width) for one in found})
    words = _words(bits, found, table, width)
    known: dict[int, Known] = {}
    for begin in begins:
        answer = _known(begin, words, [one for one in (before, after) if one is not None], width * SUBFRAMES)
        if answer is not None:
            known[begin] = answer
    return known


def _words(bits: Array, found: list[Subframe], table: Table, width: int) -> dict[int, int]:
    """The counters' words that stand, by where their frames begin."""
    own = [one for one in found if one.number == table.counter_subframe - 1]
    places = np.array([one.bit + (table.counter_word - 1) * WORD_BITS for one in own], dtype=np.int64)
    values = words_at(bits, places).tolist() if own else []
    return {one.frame(width): value for one, value in zip(own, values)}


def _known(begin: int, words: dict[int, int], beside: list[Beside], length: int) -> Known | None:
    """What is known of one frame."""
    votes: Counter[int] = Counter()
    for step in range(-NEAR, NEAR + 1):
        if begin + step * length in words:
            votes[(words[begin + step * length] - step) % ROUND] += 1
    for one in beside:
        steps, rest = divmod(begin - one.bit, length)
        if not rest:
            votes[(one.counter + steps) % ROUND] += OF_A_FRAME
    best = votes.most_common(2)
    if best and best[0][1] >= OF_A_FRAME:
        return Known(best[0][0], True) if len(best) == 1 or best[0][1] > best[1][1] else None
    by_bits = {(one.counter + round((begin - one.bit) / length)) % ROUND for one in beside if _is_close(begin - one.bit, length)}
    if len(by_bits) == 1:
        return Known(by_bits.pop(), False)
    return Known(best[0][0], False) if len(best) == 1 and not beside else None


def _is_close(distance: int, length: int) -> bool:
    """Whether a distance is close to whole frames."""
    return abs(distance / length - round(distance / length)) < CLOSE
