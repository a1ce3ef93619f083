"""Bytes of a file at any place, and the line of bits that a dump of some form has in them."""

from __future__ import annotations

import contextlib
import os
import shutil
import tempfile
from dataclasses import dataclass
from typing import Iterator

import numpy as np
import numpy.typing as npt

from .forms import Form
from .streams import Progress, opened

Bytes = npt.NDArray[np.uint8]
COPIED_AT_ONCE = 1 << 20
REVERSED: Bytes = np.array([int(f"{byte:08b}"[::-1], 2) for byte in range(256)], dtype=np.uint8)


@dataclass
class Stored:
    """A file whose bytes can be read at any place."""

    handle: int
    size: int
    progress: Progress | None = None

    def read(self, begin: int, end: int) -> Bytes:
        """The bytes from one place to another; none beyond the file's end."""
        pieces: list[bytes] = []
        end = min(end, self.size)
        while begin < end and (piece := os.pread(self.handle, end - begin, begin)):
            pieces.append(piece)
            begin += len(piece)
        data = b"".join(pieces)
        if self.progress:
            self.progress.add(len(data))
        return np.frombuffer(data, dtype=np.uint8)


@contextlib.contextmanager
def stored(path: str) -> Iterator[Stored]:
    """Opens a file, or a copy of standard input or of a pipe."""
    with contextlib.ExitStack() as stack:
        source = stack.enter_context(opened(path))
        handle, size = source.file.fileno(), source.progress.size
        if size is None or not source.file.seekable():
            copy = stack.enter_context(tempfile.TemporaryFile(prefix="flight-"))
            shutil.copyfileobj(source, copy, COPIED_AT_ONCE)
            copy.flush()
            handle, size = copy.fileno(), copy.tell()
        yield Stored(handle, size)


@contextlib.contextmanager
def progress_over(file: Stored, size: int) -> Iterator[None]:
    """What is read in here is shown as a part of so many bytes."""
    before, file.progress = file.progress, Progress(size)
    held = file.progress
    try:
        yield
    finally:
        held.end()
        file.progress = before


class Line:
    """The line of bits of a dump before it is cut into words, as bytes whose lowest bit is the first one.

    Where the form has the highest bits first, and `by_first_bit` is given, the bits of each byte are turned, so that in
    any form the bits are in the order in which they were recorded.
    """

    def __init__(self, file: Stored, form: Form, by_first_bit: bool) -> None:
        self.file = file
        self.form = form
        turned = by_first_bit and form.has_high_bits_first
        self.reverses = form.reverse ^ form.backwards ^ turned
        self.size = self._size()

    def _size(self) -> int:
        form, size = self.form, max(0, self.file.size - self.form.skip)
        if not form.block:
            return size
        whole, rest = divmod(size, form.block)
        kept = form.block - form.head - form.tail
        return whole * kept + min(max(0, rest - form.head), kept)

    @property
    def bits(self) -> int:
        """The length of the line."""
        return 8 * self.size

    def read(self, begin: int, end: int) -> Bytes:
        """Bytes of the line."""
        end = min(end, self.size)
        if begin >= end:
            return np.empty(0, dtype=np.uint8)
        return self._turned(begin, end) if self.form.rotate else self._straight(begin, end)

    def _turned(self, begin: int, end: int) -> Bytes:
        """Bytes of the line that begins at the bit of `rotate`."""
        byte, bit = divmod(self.form.rotate % self.bits, 8)
        held = self._around(begin + byte, end + byte + 1).astype(np.uint16)
        return ((held[:-1] | held[1:] << 8) >> bit & 0xFF).astype(np.uint8)

    def _around(self, begin: int, end: int) -> Bytes:
        """Bytes of the line, whose first one comes after its last."""
        pieces: list[Bytes] = []
        while begin < end:
            at = begin % self.size
            pieces.append(self._straight(at, min(self.size, at + end - begin)))
            begin += len(pieces[-1])
        return np.concatenate(pieces)

    def _straight(self, begin: int, end: int) -> Bytes:
        if self.form.backwards:
            begin, end = self.size - end, self.size - begin
        data = self._swapped(begin, end) if self.form.swap else self._kept(begin, end)
        data = REVERSED[data] if self.reverses else data
        data = ~data if self.form.invert else data
        return data[::-1] if self.form.backwards else data

    def _swapped(self, begin: int, end: int) -> Bytes:
        """Bytes of pairs that were swapped. A last byte without another one stays."""
        first = begin - begin % 2
        data = self._kept(first, end + end % 2).copy()
        pairs = len(data) // 2 * 2
        data[:pairs] = data[:pairs].reshape(-1, 2)[:, ::-1].ravel()
        return data[begin - first : end - first]

    def _kept(self, begin: int, end: int) -> Bytes:
        """Bytes without heads and tails of blocks, and without what is skipped."""
        form = self.form
        end = min(end, self.size)
        if not form.block:
            return self.file.read(form.skip + begin, form.skip + end)
        kept = form.block - form.head - form.tail
        first, last = begin // kept, (end - 1) // kept
        data = self.file.read(form.skip + first * form.block, form.skip + (last + 1) * form.block)
        whole = np.zeros((last + 1 - first) * form.block, dtype=np.uint8)
        whole[: len(data)] = data
        payload = whole.reshape(-1, form.block)[:, form.head : form.head + kept].ravel()
        return payload[begin - first * kept : end - first * kept]
