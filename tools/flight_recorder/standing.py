"""Which subframes stand in a gap, by their sync words.

A subframe counts where of its own sync word, the one before and the one after at least two are at their places, and where
it is sure that no bits were put in or lost in it. docs/PARTS.md has the rule in words.
"""

from dataclasses import dataclass

import numpy as np

from .arrays import Array
from .clock import WORD_BITS
from .frames import SYNCS
from .listing import SUBFRAMES
from .raw import words_at

AT_ONCE = 1 << 20  # bytes that are searched at once
WORD = (1 << WORD_BITS) - 1
IN_A_ROW = 3  # sync words of one phase that count where no frame beside the gap has this phase
CODES = np.zeros(1 << WORD_BITS, dtype=np.uint8)
CODES[list(SYNCS)] = np.arange(1, SUBFRAMES + 1)


@dataclass(frozen=True)
class Subframe:
    """A subframe that stands: where it begins, its number counted from 0, and which of the three sync words stand."""

    bit: int
    number: int
    own: bool
    former: bool
    after: bool

    @property
    def syncs(self) -> int:
        """How many of the three stand."""
        return self.own + self.former + self.after

    def frame(self, width: int) -> int:
        """Where its frame begins, or would."""
        return self.bit - self.number * width


class Syncs:
    """The sync words at any bit of a part of some bits."""

    def __init__(self, bits: Array, first: int, end: int) -> None:
        self.place, self.number = _sync_words(bits, max(0, first), min(end, 8 * len(bits) - WORD_BITS + 1))
        self.keys = self.place * SUBFRAMES + self.number

    def has(self, place: Array, number: Array) -> Array:
        """Whether these sync words, by their numbers, are at these places."""
        keys = place * SUBFRAMES + number % SUBFRAMES
        if not len(self.keys):
            return np.zeros(len(keys), dtype=bool)
        at = np.minimum(np.searchsorted(self.keys, keys), len(self.keys) - 1)
        return np.asarray(self.keys[at] == keys)


def _sync_words(bits: Array, first: int, end: int) -> tuple[Array, Array]:
    """Where sync words begin from one bit to before another, in order, and which they are, counted from 0."""
    places, numbers = [np.zeros(0, dtype=np.int64)], [np.zeros(0, dtype=np.int64)]
    for at in range(first // 8, -(-end // 8), AT_ONCE):
        count = min(AT_ONCE, -(-end // 8) - at)
        part = np.concatenate((bits[at : at + count + 2], np.zeros(2, dtype=np.uint8))).astype(np.uint32)
        three = (part[:-2] | part[1:-1] << np.uint32(8) | part[2:] << np.uint32(16))[:count]
        for shift in range(8):
            codes = CODES[(three >> np.uint32(shift)) & np.uint32(WORD)]
            here = np.flatnonzero(codes)
            places.append(8 * (here + at) + shift)
            numbers.append(codes[here].astype(np.int64) - 1)
    place, number = np.concatenate(places), np.concatenate(numbers)
    order = np.argsort(place, kind="stable")
    order = order[(place[order] >= first) & (place[order] < end)]
    return place[order], number[order]


@dataclass(frozen=True)
class Gap:
    """A gap, from where subframes may begin in it to its end; where it begins by the listing; and the phases of the frames beside
    it, which are where these begin, if there are such."""

    first: int
    begin: int
    end: int
    before: int | None
    after: int | None


def standing(bits: Array, gap: Gap, words: int, least: int) -> list[Subframe]:
    """The subframes that stand in a gap, in their order."""
    width = words * WORD_BITS
    found = _candidates(Syncs(bits, gap.first - width, gap.end + 1), gap, width, least)
    found = [one for one in found if not _is_overwritten(bits, one, width)]
    return _without_slips(found, gap, width)


def _candidates(syncs: Syncs, gap: Gap, width: int, least: int) -> list[Subframe]:
    """Those of which so many sync words stand; of those that overlap the one with more of them."""
    length = SUBFRAMES * width
    place, number = syncs.place, syncs.number
    begin = np.concatenate((place, place + width, place - width))
    which = np.concatenate((number, number + 1, number - 1)) % SUBFRAMES
    inside = (begin >= gap.first) & (begin + width <= gap.end)
    keys = np.unique(begin[inside] * SUBFRAMES + which[inside])
    begin, which = keys // SUBFRAMES, keys % SUBFRAMES
    stand = np.stack((syncs.has(begin, which), syncs.has(begin - width, which - 1), syncs.has(begin + width, which + 1)))
    count = stand.sum(axis=0)
    phase = (begin - which * width) % length
    phases, in_phase = np.unique((place - number * width) % length, return_counts=True)
    total = in_phase[np.searchsorted(phases, phase)] if len(phases) else count
    beside = [one % length for one in (gap.before, gap.after) if one is not None]
    is_beside = np.isin(phase, beside)
    behind = begin >= gap.begin  # what is in the frame before the gap has to show more than that
    keep = (count >= least) & ((is_beside & behind) | (total >= IN_A_ROW))
    order = np.lexsort((begin, -total, ~is_beside, -count))
    taken = [Subframe(int(begin[at]), int(which[at]), *map(bool, stand[:, at])) for at in order[keep[order]].tolist()]
    return _apart(taken, width)


def _apart(wanted: list[Subframe], width: int) -> list[Subframe]:
    """Of subframes in the order in which they are wanted those that overlap no earlier one, in the order of the bits."""
    by_cell: dict[int, Subframe] = {}
    for one in wanted:
        cell = one.bit // width
        near = [by_cell[at] for at in (cell - 1, cell, cell + 1) if at in by_cell]
        if all(abs(other.bit - one.bit) >= width for other in near):
            by_cell[cell] = one
    return sorted(by_cell.values(), key=lambda one: one.bit)


def _is_overwritten(bits: Array, one: Subframe, width: int) -> bool:
    """Whether a sync word that doesn't stand is all zeros or all ones: what was written over it may reach into the subframe."""
    places = [one.bit] * (not one.own) + [one.bit + width] * (not one.after)
    inside = [place for place in places if place + WORD_BITS <= 8 * len(bits)]
    return bool(np.isin(words_at(bits, np.array(inside, dtype=np.int64)), (0, WORD)).any()) if inside else False


def _without_slips(found: list[Subframe], gap: Gap, width: int) -> list[Subframe]:
    """Without those in which bits may have been put in or lost: the sync word after it doesn't stand, and what stands next has
    another phase."""
    length = SUBFRAMES * width
    phases = [one.frame(width) % length for one in found]
    after = None if gap.after is None else gap.after % length
    following = [*phases[1:], after][: len(phases)]
    return [
        one
        for one, own, next_phase in zip(found, phases, following)
        if one.after or next_phase is None or next_phase == own
    ]
