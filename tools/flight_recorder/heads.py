"""Heads of blocks amid a recording, found by the distances of its sync words: each head puts them further apart."""

from __future__ import annotations

from dataclasses import dataclass
from typing import Iterator

import numpy as np

from .forms import WORD_BITS
from .lines import Bytes
from .syncs import SUBFRAMES, Counts, Found, Reading, hits_in

MOST_BLOCK = 1 << 20
LEAST_BLOCK = 16
ROWS = 64  # blocks that are compared for where their heads are


@dataclass(frozen=True)
class Blocks:
    """Blocks of one length: how many bytes of each are no words, in front or behind, and where the first one begins."""

    block: int
    head: int
    tail: int
    first: int


@dataclass(frozen=True)
class Run:
    """Sync words that follow each other without a loss: where each begins, and how many heads are between the first and it."""

    bits: Counts
    heads: Counts


def blocks_of(data: Bytes, turned: Bytes, found: Found, offset: int, size: int) -> Blocks | None:
    """The blocks of a stretch of a file that begins at this byte of it, if its sync words are apart as heads make them."""
    bits, numbers = _syncs(turned, found)
    if len(bits) < 3:
        return None
    beyond = _beyond(found.reading, bits, numbers)
    head = _head(beyond)
    if not head:
        return None
    run = _longest_run(bits, beyond, head)
    if run.heads[-1] < 1:
        return None
    return _likeliest(data, run, head, offset, size)


def _syncs(turned: Bytes, found: Found) -> tuple[Counts, Counts]:
    """The sync words of a reading that have a neighbour: where each begins, and its number in the order in which they come."""
    reading = found.reading
    hits = hits_in(turned)
    is_of = (hits.kinds >= reading.lowest) & (hits.kinds < reading.lowest + SUBFRAMES)
    bits = hits.bits[is_of]
    numbers = hits.kinds[is_of].astype(np.int64) - reading.lowest
    numbers = SUBFRAMES - 1 - numbers if reading.is_descending else numbers
    linked = np.zeros(len(bits), dtype=bool)
    for beyond in found.beyond:
        wanted = bits + reading.subframe + 8 * beyond
        at = np.minimum(np.searchsorted(bits, wanted), len(bits) - 1)
        is_next = (bits[at] == wanted) & (numbers[at] == (numbers + 1) % SUBFRAMES)
        linked |= is_next
        linked[at[is_next]] = True
    return bits[linked], numbers[linked]


def _beyond(reading: Reading, bits: Counts, numbers: Counts) -> Counts:
    """How many bytes each sync word is further from the one before than without heads; below 0 where that can't be."""
    steps = (np.diff(numbers) - 1) % SUBFRAMES + 1
    beyond = np.diff(bits) - steps * reading.subframe
    return np.where(beyond % 8 == 0, beyond // 8, -1)


def _head(beyond: Counts) -> int:
    """The bytes of a head; 0 where there is none."""
    values, counts = np.unique(beyond[beyond >= 0], return_counts=True)
    often = counts >= (2 if (counts[values > 0] > 1).any() else 1)
    values, counts = values[often], counts[often]
    if not len(values) or not values.any():
        return 0
    if values[0] == 0:
        return int(values[1:][np.argmax(counts[1:])])
    top = np.sort(values[np.argsort(-counts, kind="stable")[:2]])
    apart = int(top[-1] - top[0])
    return apart if apart and top[0] % apart == 0 else int(top[0])


def _longest_run(bits: Counts, beyond: Counts, head: int) -> Run:
    """The sync words with the most heads between them of which none is lost."""
    values, counts = np.unique(beyond[beyond >= 0] // head, return_counts=True)
    usual = int(values[counts * 50 >= counts.max()].max()) + 1
    is_whole = (beyond >= 0) & (beyond % head == 0) & (beyond // head <= 2 * usual)
    ends = np.flatnonzero(np.append(~is_whole, True))
    begins = np.append(0, ends[:-1] + 1)
    heads = np.append(0, np.cumsum(np.where(is_whole, beyond // head, 0)))
    best = int(np.argmax(heads[ends] - heads[begins]))
    chosen = slice(int(begins[best]), int(ends[best]) + 1)
    return Run(bits[chosen], heads[chosen] - heads[chosen][0])


@dataclass(frozen=True)
class Place:
    """A length of blocks with which all sync words are where they are, and between which bytes the first head begins then."""

    block: int
    lowest: int
    highest: int


def _places(run: Run, head: int, offset: int, size: int, spared: int) -> Iterator[Place]:
    """Each length of blocks that the sync words allow, but for some of them: of a sync word that a head cuts, the head may
    happen to have the rest."""
    begins, ends = run.bits // 8 + offset, (run.bits + WORD_BITS + 7) // 8 + offset
    after = run.heads > 0
    total = int(run.heads[-1])
    least = int(ends[-1] - begins[after][0] + head) // total
    most = int(begins[-1] - ends[0] - head) // (total - 1) if total > 1 else size
    for block in _lengths(max(LEAST_BLOCK, head + 1, least), min(most + 1, MOST_BLOCK), total > 1):
        lowest = int(np.sort(ends - run.heads * block)[-1 - spared])
        highest = int(np.sort(begins - head - (run.heads - 1) * block)[spared])
        if lowest <= highest:
            yield Place(block, lowest, highest)


def _lengths(least: int, most: int, are_many: bool) -> Iterator[int]:
    """The lengths to try: all of them, or where one head alone was seen those that are powers of two."""
    if are_many:
        yield from range(least, most + 1)
    else:
        yield from (1 << power for power in range(4, 21) if least <= 1 << power <= most)


def _likeliest(data: Bytes, run: Run, head: int, offset: int, size: int) -> Blocks | None:
    """The blocks that people make: from the file's beginning on if that can be, of a round length, their heads in front."""
    every: list[Place] = []
    for spared in (0, max(1, len(run.bits) // 100)):
        places = list(_places(run, head, offset, size, spared))
        places.sort(key=lambda place: _roundness(place.block), reverse=True)
        for before in (0, head):
            for place in places:
                begin = place.lowest + before
                if -(-begin // place.block) * place.block <= place.highest + before:
                    return Blocks(place.block, head - before, before, 0)
        every += places
    if not every:
        return None
    first = _by_columns(data, every[0], head, offset)
    return Blocks(every[0].block, head, 0, first % every[0].block)


def _roundness(block: int) -> tuple[int, int]:
    """How round a length is: powers of two first, then sectors and thousands, then hundreds."""
    even = block & -block
    kinds = (even == block, block % 512 == 0 or block % 1000 == 0, block % 256 == 0 or block % 100 == 0)
    return next((len(kinds) - number for number, is_so in enumerate(kinds) if is_so), 0), even


def _by_columns(data: Bytes, place: Place, head: int, offset: int) -> int:
    """Where heads begin, by their bytes: from block to block most stay or count by one."""
    first = place.lowest - offset
    width = place.highest - place.lowest + head
    begins = np.arange(first % place.block, len(data) - width, place.block)[:ROWS]
    if len(begins) < 2:
        return place.lowest
    rows = data[begins[:, None] + np.arange(width)].astype(np.int64)
    is_regular = np.isin(np.diff(rows, axis=0) % 256, (0, 1)).mean(axis=0)
    together = np.convolve(is_regular, np.ones(head), mode="valid")
    return place.lowest + int(np.argmax(together))
