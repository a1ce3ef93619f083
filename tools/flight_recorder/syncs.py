"""The search for the sync words of ARINC 717 in bytes of any form: which of them follow each other at a subframe's distance."""

from __future__ import annotations

import itertools
from dataclasses import dataclass
from typing import Iterator

import numpy as np
import numpy.typing as npt

from .forms import UNIT_BITS, WORD_BITS
from .lines import REVERSED, Bytes

Counts = npt.NDArray[np.int64]

SYNCS = (0x247, 0x5B8, 0xA47, 0xDB8)
TURNED_SYNCS = tuple(int(f"{sync:012b}"[::-1], 2) for sync in SYNCS)
WIDTHS = (64, 128, 256, 512, 1024)
SUBFRAMES = 4
CHANCE = 1 / 4096  # that twelve bits happen to be a certain word
PADDING = 3  # bytes after the last one that is looked at
MOST_DISTANCES = 8
MOST_HITS, CLOSE = 1 << 14, 96  # sync words of a kind in bytes that are searched, and bits between them
FURTHEST = UNIT_BITS * max(WIDTHS) * 3 // 2  # bits from one sync word to the next, with heads that add up to half of it

NONE, LOWEST, HIGHEST = 0, 1, 5  # no sync word; the first of four whose lowest bit comes first, and of the others
KINDS: Bytes = np.zeros(1 << WORD_BITS, dtype=np.uint8)
for _number in range(SUBFRAMES):
    KINDS[SYNCS[_number]] = LOWEST + _number
    KINDS[TURNED_SYNCS[_number]] = HIGHEST + _number
# Of each 16 bits whether a sync word begins at one of the first five: two such looks see all of a byte's bits.
_sixteen = np.arange(1 << 16)
MAY_BEGIN = np.logical_or.reduce([KINDS[_sixteen >> bit & 0xFFF] != NONE for bit in range(5)])


def at_bits(data: Bytes, bits: Counts) -> npt.NDArray[np.uint32]:
    """The twelve bits at each place of bytes that have some padding at the end."""
    first = bits >> 3
    held = data[first].astype(np.uint32) | data[first + 1].astype(np.uint32) << 8
    held |= data[first + 2].astype(np.uint32) << 16
    words: npt.NDArray[np.uint32] = held >> (bits & 7).astype(np.uint32) & np.uint32(0xFFF)
    return words


def padded(data: Bytes) -> Bytes:
    """Bytes with the padding that a look at twelve bits needs."""
    return np.append(data, np.zeros(PADDING, dtype=np.uint8))


def windows_at(data: Bytes, bit: int) -> npt.NDArray[np.uint32]:
    """The twelve bits that begin at this bit of each of the bytes."""
    held = data[:-2].astype(np.uint32)
    held |= data[1:-1].astype(np.uint32) << np.uint32(8)
    held |= data[2:].astype(np.uint32) << np.uint32(16)
    words: npt.NDArray[np.uint32] = held >> np.uint32(bit) & np.uint32(0xFFF)
    return words


@dataclass(frozen=True)
class Hits:
    """The sync words in bytes: at which bit each begins, in order, and which of the eight kinds it is."""

    bits: Counts
    kinds: Bytes

    def of(self, kind: int) -> Counts:
        """Where those of a kind begin. Bytes that repeat may have a great many: those close together are left out, or all."""
        bits: Counts = self.bits[self.kinds == kind]
        if len(bits) > MOST_HITS:
            bits = bits[np.diff(bits, prepend=-CLOSE) >= CLOSE]
        return bits if len(bits) <= MOST_HITS else bits[:0]


def hits_in(data: Bytes) -> Hits:
    """The sync words of each kind at every bit."""
    data = padded(data)
    low = data[:-2].astype(np.uint16) | data[1:-1].astype(np.uint16) << np.uint16(8)
    high = (data[:-2] >> 4).astype(np.uint16) | data[1:-1].astype(np.uint16) << np.uint16(4)
    high |= data[2:].astype(np.uint16) << np.uint16(12)
    near = np.flatnonzero(MAY_BEGIN[low] | MAY_BEGIN[high])
    bits = (8 * near[:, None] + np.arange(8)).ravel()
    bits = bits[bits < 8 * (len(data) - PADDING)]
    kinds = KINDS[at_bits(data, bits)]
    return Hits(bits[kinds != NONE], kinds[kinds != NONE])


@dataclass(frozen=True)
class Reading:
    """How bytes are turned into a line in which the sync words were looked for, and how they follow each other there."""

    swapped_from: int | None  # the byte from which on pairs of bytes are swapped
    is_reversed: bool  # the bits of each byte
    is_high_first: bool  # the sync words have their highest bit first
    is_descending: bool  # they come from the fourth to the first
    spacing: int
    words: int

    @property
    def subframe(self) -> int:
        """Bits of a subframe."""
        return self.spacing * self.words

    @property
    def lowest(self) -> int:
        """The kind of the first sync word."""
        return HIGHEST if self.is_high_first else LOWEST


@dataclass(frozen=True)
class Found:
    """What speaks for a reading: how many sync words have another one at a subframe's distance, or at one of these more bytes."""

    reading: Reading
    beyond: tuple[int, ...]
    links: int
    weight: float


def search(data: Bytes) -> list[Found]:
    """The readings of bytes by which sync words follow each other more often than by chance, the likeliest first."""
    found: list[Found] = []
    for swapped_from, is_reversed, turned in _turned(data):
        hits = hits_in(turned)
        for lowest, is_descending in itertools.product((LOWEST, HIGHEST), (False, True)):
            step = -1 if is_descending else 1
            pairs = [
                (hits.of(lowest + number), hits.of(lowest + (number + step) % SUBFRAMES)) for number in range(SUBFRAMES)
            ]
            counts = sum((_distances(*pair) for pair in pairs), np.zeros(FURTHEST + 1, dtype=np.int64))
            for spacing, words in itertools.product((WORD_BITS, UNIT_BITS), WIDTHS):
                reading = Reading(swapped_from, is_reversed, lowest == HIGHEST, is_descending, spacing, words)
                if swapped_from is None or spacing == WORD_BITS:
                    found += _looked_at(reading, pairs, counts, 8 * len(data))
    return sorted(found, key=lambda one: -one.weight)


def _turned(data: Bytes) -> Iterator[tuple[int | None, bool, Bytes]]:
    """The bytes as they are, and with their pairs swapped, each also with the bits of each byte reversed."""
    swaps: tuple[int | None, ...] = (None, 0, 1)
    for swapped_from in swaps:
        turned = data if swapped_from is None else swapped(data, swapped_from)
        yield swapped_from, False, turned
        yield swapped_from, True, REVERSED[turned]


def swapped(data: Bytes, first: int) -> Bytes:
    """Bytes whose pairs, from one byte on, are swapped."""
    turned = data.copy()
    pairs = (len(data) - first) // 2 * 2
    turned[first : first + pairs] = data[first : first + pairs].reshape(-1, 2)[:, ::-1].ravel()
    return turned


Pairs = list[tuple[Counts, Counts]]  # of each sync word where it begins, and where the one does that follows it


def _looked_at(reading: Reading, pairs: Pairs, distances: Counts, bits: int) -> list[Found]:
    """What speaks for a reading, if enough does."""
    most = reading.subframe // 8 // 2
    counts = distances[reading.subframe : reading.subframe + 8 * most + 1 : 8]
    expected = sum(len(here) * len(following) for here, following in pairs) / max(1, bits)
    beyond = np.flatnonzero(counts >= 2.5 + expected + 8 * expected**0.5)
    if not len(beyond):
        if counts[0] < SUBFRAMES - 1 or not _has_frame(reading, pairs):
            return []
        beyond = np.zeros(1, dtype=np.int64)
    beyond = beyond[np.argsort(-counts[beyond], kind="stable")][:MOST_DISTANCES]
    links = sum(_linked(here + reading.subframe, following, beyond) for here, following in pairs)
    further = float(np.average(beyond, weights=counts[beyond]))
    return [Found(reading, tuple(sorted(beyond.tolist())), links, links * (1 - 8 * further / reading.subframe))]


def _linked(here: Counts, following: Counts, beyond: Counts) -> int:
    """How many sync words have another one so many bytes after where it is looked for."""
    linked = np.zeros(len(here), dtype=bool)
    for distance in beyond.tolist():
        linked |= np.isin(here + 8 * distance, following, assume_unique=True)
    return int(linked.sum())


def _distances(here: Counts, following: Counts) -> Counts:
    """How often a sync word comes so many bits after another one."""
    first = np.searchsorted(following, here)
    counts = np.searchsorted(following, here + FURTHEST, side="right") - first
    ends = np.cumsum(counts)
    at = np.repeat(first - ends + counts, counts) + np.arange(ends[-1] if len(ends) else 0)
    return np.bincount(following[at] - np.repeat(here, counts), minlength=FURTHEST + 1)


def _has_frame(reading: Reading, pairs: Pairs) -> bool:
    """Whether four sync words in their order stand at the distance of a subframe."""
    order = [here for here, _ in pairs]
    order = order[::-1] if reading.is_descending else order
    begins = order[0]
    for number in range(1, SUBFRAMES):
        begins = begins[np.isin(begins + number * reading.subframe, order[number])]
    return len(begins) > 0
