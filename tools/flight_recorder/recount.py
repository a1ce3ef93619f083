"""A copy of bits with a frame counter of 12 bits, for recorders that have a narrower one or none."""

from __future__ import annotations

from dataclasses import dataclass
from typing import BinaryIO, Iterator

import numpy as np
import numpy.typing as npt

from .counting import Counter, column_of
from .dump import Words
from .faults import Fault
from .forms import WORD_BITS, Form
from .framing import Shape, Stretch, stretches
from .lines import Line, Stored
from .syncs import SUBFRAMES

AT_ONCE = 1 << 20
FRAMES_AT_ONCE = 1 << 12
ROUND = 1 << WORD_BITS


@dataclass(frozen=True)
class Place:
    """A word of a frame."""

    subframe: int
    word: int

    def slot(self, words: int) -> int:
        """Its number in a frame, from 0 on."""
        return (self.subframe - 1) * words + self.word - 1


@dataclass(frozen=True)
class Recounted:
    """What was changed: how many frames, how many of them had something in the word, and in how many breaks no frame was told."""

    frames: int
    replaced: int
    breaks: int


def check(words: int, source: Counter | None, into: Place) -> None:
    """Places that no frame has, and sync words, are faults."""
    for name, subframe, word in [("--into", into.subframe, into.word)] + (
        [("--from", source.subframe, source.word)] if source else []
    ):
        if not 1 <= subframe <= SUBFRAMES:
            raise Fault(f"{name}: subframe {subframe} isn't 1 to {SUBFRAMES}")
        if not 2 <= word <= words:
            raise Fault(f"{name}: word {word} isn't 2 to {words}; word 1 is the sync word")
    if source and not (1 <= source.lsb and 1 <= source.width and source.lsb + source.width - 1 <= WORD_BITS):
        raise Fault(f"--from: {source.width} bits from bit {source.lsb} on aren't within bits 1 to {WORD_BITS}")


def recount(file: Stored, words: int, source: Counter | None, into: Place, out: BinaryIO) -> Recounted:
    """Writes the bits with the number of each frame in a word of it."""
    check(words, source, into)
    line, shape = Line(file, Form(), by_first_bit=True), Shape(words)
    written, frames, replaced, breaks = 0, 0, 0, 0
    for begin, numbers, is_after_break in _numbered(line, shape, source):
        places = begin + np.arange(len(numbers), dtype=np.int64) * shape.frame + WORD_BITS * into.slot(words)
        end = min(line.size, int(places[-1]) // 8 + 3)
        data = line.read(written, end).copy()
        replaced += _put(data, places - 8 * written, numbers)
        out.write(data.tobytes())
        written, frames, breaks = end, frames + len(numbers), breaks + is_after_break
    for at in range(written, line.size, AT_ONCE):
        out.write(line.read(at, at + AT_ONCE).tobytes())
    return Recounted(frames, replaced, breaks)


def _put(data: npt.NDArray[np.uint8], bits: npt.NDArray[np.int64], numbers: Words) -> int:
    """Puts numbers into the twelve bits that begin at each of these places, and answers how many had others than zeros."""
    byte, bit = bits >> 3, (bits & 7).astype(np.uint32)
    held = data[byte].astype(np.uint32) | data[byte + 1].astype(np.uint32) << 8
    three = byte + 2 < len(data)
    third = np.where(three, byte + 2, 0)
    held |= np.where(three, data[third], 0).astype(np.uint32) << 16
    before = held >> bit & 0xFFF
    held = (held & ~(np.uint32(0xFFF) << bit)) | numbers.astype(np.uint32) << bit
    data[byte], data[byte + 1] = held & 0xFF, held >> 8 & 0xFF
    data[third[three]] = (held >> 16 & 0xFF)[three]
    return int(((before != 0) & (before != numbers)).sum())


def _numbered(line: Line, shape: Shape, source: Counter | None) -> Iterator[tuple[int, Words, bool]]:
    """Each stretch of frames in pieces, with the numbers of the frames, and whether it comes after a break."""
    last, end = -1, 0
    for stretch in stretches(line, shape):
        gap = stretch.begin - end
        for first in range(0, stretch.frames, FRAMES_AT_ONCE):
            piece = Stretch(stretch.begin + first * shape.frame, min(FRAMES_AT_ONCE, stretch.frames - first))
            missing = round(gap / shape.frame) if not first and last >= 0 else 0
            numbers = _numbers(line, shape, source, piece, last, missing)
            yield piece.begin, (numbers % ROUND).astype(np.uint16), bool(not first and gap and last >= 0)
            last = int(numbers[-1])
        end = stretch.begin + stretch.frames * shape.frame


def _numbers(
    line: Line, shape: Shape, source: Counter | None, piece: Stretch, last: int, missing: int
) -> npt.NDArray[np.int64]:
    """The numbers of frames, going on from the last one over the frames that are missing."""
    if source is None:
        return last + 1 + missing + np.arange(piece.frames, dtype=np.int64)
    column = column_of(line, shape, piece, Place(source.subframe, source.word).slot(shape.words))
    held = (column.astype(np.int64) >> (source.lsb - 1)) & ((1 << source.width) - 1)
    around = 1 << source.width
    first = int(held[0]) if last < 0 else _nearest(int(held[0]), last + 1 + missing, last + 1, around)
    steps = np.diff(held) % around
    return first + np.append(0, np.cumsum(steps))


def _nearest(held: int, wanted: int, least: int, around: int) -> int:
    """The number next to the wanted one, and not below the least, that a narrow counter has as it is held."""
    number = wanted + (held - wanted + around // 2) % around - around // 2
    return number if number >= least else number + around
