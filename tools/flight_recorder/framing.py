"""Whole frames in a line of bits, found as docs/FORMATS.md says, and the words of frames."""

from __future__ import annotations

from dataclasses import dataclass
from typing import Iterator

import numpy as np

from .forms import WORD_BITS, Form
from .dump import TURNED, Words
from .lines import Bytes, Line
from .syncs import PADDING, SUBFRAMES, SYNCS, TURNED_SYNCS, Counts, at_bits, padded, windows_at

AT_ONCE = 1 << 22  # bytes of a line that are held
SEARCHED_AT_ONCE = 1 << 15  # bytes


@dataclass(frozen=True)
class Shape:
    """What a line's frames are like before it is cut into words of 12 bits."""

    words: int
    spacing: int = WORD_BITS
    has_high_bits_first: bool = False

    @classmethod
    def of(cls, form: Form, words: int) -> Shape:
        """The frames of a dump of this form."""
        return cls(words, form.spacing, form.has_high_bits_first)

    @property
    def subframe(self) -> int:
        """Bits of a subframe."""
        return self.words * self.spacing

    @property
    def frame(self) -> int:
        """Bits of a frame."""
        return SUBFRAMES * self.subframe

    @property
    def least(self) -> int:
        """Bits from the first bit of a frame's first word to the last one of its last word."""
        return self.frame - self.spacing + WORD_BITS

    @property
    def syncs(self) -> tuple[int, ...]:
        """The sync words, read with the lowest bit first."""
        return TURNED_SYNCS if self.has_high_bits_first else SYNCS


@dataclass
class Stretch:
    """Frames that follow each other without a bit between them."""

    begin: int
    frames: int


def stretches(line: Line, shape: Shape, begin: int = 0, end: int | None = None) -> Iterator[Stretch]:
    """The stretches of accepted frames of a line's bytes from one to another, in their order."""
    limit = line.bits if end is None else min(line.bits, 8 * end)
    at = 8 * begin
    held: Stretch | None = None
    while at + shape.least <= limit:
        base = at // 8
        last = min(base + AT_ONCE + shape.frame // 8 + PADDING, -(-limit // 8))
        data = padded(line.read(base, last))
        bits = min(8 * (last - base), limit - 8 * base)
        for local in _in_piece(data, shape, at - 8 * base, bits):
            if held and held.begin + held.frames * shape.frame == 8 * base + local.begin:
                held.frames += local.frames
            else:
                if held:
                    yield held
                held = Stretch(8 * base + local.begin, local.frames)
        at = 8 * base + max(bits - shape.least + 1, 0)
        if held:
            at = max(at, held.begin + held.frames * shape.frame)
    if held:
        yield held


def _in_piece(data: Bytes, shape: Shape, at: int, bits: int) -> Iterator[Stretch]:
    """The frames of a piece of a line from one of its bits on."""
    while at + shape.least <= bits:
        count = _frames_from(data, shape, at, bits)
        if count:
            yield Stretch(at, count)
            at += count * shape.frame
        else:
            at = _next_frame(data, shape, at, bits)


def _are_frames(data: Bytes, shape: Shape, begins: Counts) -> "np.ndarray[tuple[int], np.dtype[np.bool_]]":
    """Which of these bits begin a frame."""
    are = np.ones(len(begins), dtype=bool)
    for number, sync in enumerate(shape.syncs):
        are &= at_bits(data, begins + number * shape.subframe) == sync
    return are


def is_sync(line: Line, shape: Shape, begin: int, number: int) -> bool:
    """Whether the sync word of a subframe, counted from 0, begins at a bit of a line."""
    data = padded(line.read(begin // 8, begin // 8 + PADDING))
    return bool(at_bits(data, np.array([begin % 8]))[0] == shape.syncs[number])


def _frames_from(data: Bytes, shape: Shape, at: int, bits: int) -> int:
    """How many frames follow each other from this bit on."""
    count, tried = 0, 1
    while at + shape.least <= bits:
        begins = np.arange(at, min(at + tried * shape.frame, bits + 1 - shape.least), shape.frame)
        are = _are_frames(data, shape, begins)
        good = len(are) if are.all() else int(np.argmin(are))
        count += good
        if good < len(are):
            break
        at += good * shape.frame
        tried *= 8
    return count


def _next_frame(data: Bytes, shape: Shape, at: int, bits: int) -> int:
    """The next bit that begins a frame, or the first bit that is too late for one."""
    late = bits - shape.least + 1
    while at < late:
        first = at // 8
        piece = data[first : min(first + SEARCHED_AT_ONCE, -(-late // 8)) + 2]
        found = [8 * np.flatnonzero(windows_at(piece, bit) == shape.syncs[0]) + bit for bit in range(8)]
        begins = np.sort(np.concatenate(found)) + 8 * first
        begins = begins[(begins >= at) & (begins < late)]
        begins = begins[_are_frames(data, shape, begins)]
        if len(begins):
            return int(begins[0])
        at = 8 * (first + len(piece) - 2)
    return late


def words_of_frames(line: Line, shape: Shape, begin: int, count: int) -> Words:
    """The words of frames that follow each other, a row for each frame."""
    first = begin // 8
    data = padded(line.read(first, -(-(begin + count * shape.frame) // 8)))
    bits = begin - 8 * first + np.arange(count * SUBFRAMES * shape.words, dtype=np.int64) * shape.spacing
    words = at_bits(data, bits).astype(np.uint16)
    words = TURNED[words] if shape.has_high_bits_first else words
    return words.reshape(count, SUBFRAMES * shape.words)
