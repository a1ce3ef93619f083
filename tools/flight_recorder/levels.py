"""A sampled line of Harvard biphase, at any rate, as bits: what is unclear is left out, and told."""

from __future__ import annotations

import tempfile
from dataclasses import dataclass, field
from typing import IO, BinaryIO, Iterator

import numpy as np
import numpy.typing as npt

from .faults import Fault
from .forms import WORD_BITS
from .lines import Bytes, Stored
from .syncs import SUBFRAMES, SYNCS, WIDTHS

Places = npt.NDArray[np.int64]

AT_ONCE = 1 << 18  # bytes of samples
LEAST_SAMPLES = 3.0  # a bit; exactly 2 are enough too
GOOD = 0.9  # of the times between changes that are half a bit or a bit
LOOKED_AT = 1 << 20  # bytes, to find how many samples a bit has
MOST_SAMPLES = 20_000  # a bit, that are looked for
MOST_ONES = 1 << 20  # short times that are held for a long one, which says which two of them are a bit
NARROWEST, WIDEST, SLACK = 0.3, 1.25, 0.04  # times between changes, in bits
SHORT, LONG, UNCLEAR = 0, 1, 2
GUARD = 1  # bits on both sides of what is unclear that are left out with it
TAIL = SUBFRAMES * WORD_BITS * max(WIDTHS)  # bits that wait, since a frame that they begin may have to be cut
FIRST_BITS: list[Bytes] = [np.array([sync >> bit & 1 for bit in range(WORD_BITS)], dtype=np.uint8) for sync in SYNCS]


@dataclass(frozen=True)
class Unclear:
    """Samples whose bits are left out, and the bit before which they would be."""

    begin: int
    end: int
    bit: int


@dataclass
class Decoded:
    """How many bits a capture gave, and where bits are left out."""

    bits: int = 0
    unclear: list[Unclear] = field(default_factory=list)


def check_samples(samples: float) -> None:
    """Too few samples a bit are a fault: half a bit and a whole one couldn't be told apart."""
    if samples != 2 and not LEAST_SAMPLES <= samples < 1e6:
        raise Fault(f"{samples:g} samples a bit: it takes {LEAST_SAMPLES:g} or more, or exactly 2")


def samples_a_bit(file: Stored, is_reversed: bool, candidates: list[float]) -> float | None:
    """Which number of samples a bit fits the changes of a line best, if one fits."""
    times = np.diff(_changes_in(file.read(0, LOOKED_AT), is_reversed))
    if len(times) < 2 * WORD_BITS:
        return None
    lengths, counts = np.unique(times, return_counts=True)
    fits = {samples: _fit(lengths / samples, counts / counts.sum(), samples) for samples in candidates}
    best = max(fits, key=lambda samples: fits[samples])
    return best if fits[best] >= GOOD and _odd_part(times, best) <= 1 - GOOD else None


def _fit(lengths: npt.NDArray[np.float64], parts: npt.NDArray[np.float64], samples: float) -> float:
    """Which part of the times between changes is half a bit or a bit, less how far they are from it."""
    slack = max(0.15, (0.51 if samples == int(samples) else 0.99) / samples)
    is_long = lengths > 0.75
    away = np.abs(lengths - np.where(is_long, 1.0, 0.5))
    is_good = away <= slack
    if not is_good[is_long].any() or not is_good[~is_long].any():
        return 0.0
    return float(parts[is_good].sum() - (parts[is_good] * away[is_good]).sum() * 0.2)


def _odd_part(times: Places, samples: float) -> float:
    """Of how many long times the next one comes after an odd number of short ones, which no line of bits has."""
    is_long = times >= 0.75 * samples
    shorts = np.cumsum(~is_long)[is_long]
    return float((np.diff(shorts) % 2).mean()) if len(shorts) > 1 else 0.0


def any_samples_a_bit(file: Stored, is_reversed: bool) -> float | None:
    """The number of samples a bit, of any whole number."""
    times = np.diff(_changes_in(file.read(0, LOOKED_AT), is_reversed))
    if len(times) < 2 * WORD_BITS:
        return None
    longest = min(int(2 * np.percentile(times, 99)) + 2, MOST_SAMPLES)
    return samples_a_bit(file, is_reversed, [float(samples) for samples in range(2, longest)])


def _changes_in(data: Bytes, is_reversed: bool) -> Places:
    """The samples of a piece that differ from the one before."""
    levels = _levels_in(data, is_reversed)
    return np.flatnonzero(levels[1:] != levels[:-1]) + 1


def _levels_in(data: Bytes, is_reversed: bool) -> Bytes:
    return np.unpackbits(data, bitorder="big" if is_reversed else "little")


def decode(file: Stored, samples: float, is_reversed: bool, out: IO[bytes]) -> Decoded:
    """Writes the bits of a capture, a byte for each."""
    check_samples(samples)
    decoder = _Decoder(samples, out)
    before: Bytes = np.empty(0, dtype=np.uint8)
    at = 0
    for first in range(0, file.size, AT_ONCE):
        levels = _levels_in(file.read(first, first + AT_ONCE), is_reversed)
        levels = np.append(before, levels)
        changes = np.flatnonzero(levels[1:] != levels[:-1]) + 1 + at
        decoder.take(changes)
        before, at = levels[-1:], at + len(levels) - 1
    decoder.end(8 * file.size)
    return decoder.decoded


class _Decoder:
    """Makes bits of the places at which a line changes."""

    def __init__(self, samples: float, out: IO[bytes]) -> None:
        self.samples = samples
        self.out = out
        self.decoded = Decoded()
        self.held: Places = np.zeros(1, dtype=np.int64)  # changes from the last whole bit on, and the first sample
        self.is_first = True
        self.waiting: Bytes = np.empty(0, dtype=np.uint8)
        self.unclear_from: int | None = None
        self.left_out = 0  # bits that are left out next, beside something unclear

    def take(self, changes: Places) -> None:
        """Takes more places; what the next ones may still change waits."""
        self.held = np.concatenate([self.held, changes])
        kinds = self._kinds()
        longs = np.flatnonzero(kinds == LONG)
        last = int(longs[-1]) if len(longs) else 0
        if len(kinds) - last > MOST_ONES:
            last += (len(kinds) - last - 1) // 2 * 2
        if last:
            self._decode(self.held[: last + 1], kinds[:last], is_end=False)
            self.held = self.held[last:]

    def end(self, samples: int) -> None:
        """Takes the end of the line, which is no change but may end a bit."""
        last = int(self.held[-1])
        self.held = np.append(self.held, samples)
        if self._kinds()[-1] == UNCLEAR:
            self.held = self.held[:-1]
        self._decode(self.held, self._kinds(), is_end=True)
        self._write(self.waiting)
        if samples - last >= WIDEST * self.samples + 8:
            self.decoded.unclear.append(Unclear(last, samples, self.decoded.bits))

    def _kinds(self) -> Bytes:
        lengths = np.diff(self.held)
        kinds = np.full(len(lengths), UNCLEAR, dtype=np.uint8)
        slack = SLACK if self.samples >= 8 else 0.0  # between a short time and a long one
        kinds[(lengths >= NARROWEST * self.samples) & (lengths < (0.75 - slack) * self.samples)] = SHORT
        kinds[(lengths >= (0.75 + slack) * self.samples) & (lengths < (WIDEST - slack) * self.samples)] = LONG
        return kinds

    def _decode(self, changes: Places, kinds: Bytes, is_end: bool) -> None:
        """Makes bits of times between changes: a long one is a 0, two short ones are a 1."""
        cuts = np.flatnonzero(kinds == UNCLEAR)
        begin = 0
        for cut in cuts.tolist():
            self._clear(changes[begin : cut + 1], kinds[begin:cut], ends_unclear=True)
            self._lose(int(changes[cut]), int(changes[cut + 1]))
            begin = cut + 1
        self._clear(changes[begin:], kinds[begin:], ends_unclear=not is_end)

    def _clear(self, changes: Places, kinds: Bytes, ends_unclear: bool) -> None:
        """Makes bits of long and short times. Between two long ones there are pairs of short ones, or something is lost."""
        longs = np.flatnonzero(kinds == LONG)
        shorts = np.append(0, np.cumsum(kinds == SHORT))
        if not len(longs):
            self._give(np.ones(len(kinds) // 2, dtype=np.uint8))
            return
        odd = np.flatnonzero(np.diff(shorts[longs]) % 2)
        begins = np.append(longs[0] - shorts[longs[0]] // 2 * 2, longs[odd + 1])
        last = int(longs[-1])
        rest = (len(kinds) - 1 - last) // 2 * 2
        ends = np.append(longs[odd] + 1, last + 1 + rest)
        if begins[0] and not self.is_first:
            self._lose(int(changes[0]), int(changes[begins[0]]))
        for number, (begin, end) in enumerate(zip(begins.tolist(), ends.tolist())):
            if number:
                self._lose(int(changes[ends[number - 1]]), int(changes[begin]))
            self._give(_bits_of(kinds[begin:end]))
        if ends_unclear and ends[-1] < len(kinds):
            self._lose(int(changes[ends[-1]]), int(changes[-1]))

    def _give(self, bits: Bytes) -> None:
        """Takes bits, without those beside something unclear."""
        if not len(bits):
            return
        self.is_first = False
        dropped = min(self.left_out, len(bits))
        self.left_out -= dropped
        self.waiting = np.concatenate([self.waiting, bits[dropped:]])
        if len(self.waiting) > 4 * TAIL:
            self._write(self.waiting[:-TAIL])
            self.waiting = self.waiting[-TAIL:]

    def _lose(self, begin: int, end: int) -> None:
        """Leaves out what is unclear, the bits beside it, and the end of a frame that a reader would take for whole."""
        if self.is_first:
            return
        kept = max(0, len(self.waiting) - GUARD) if not self.left_out else len(self.waiting)
        self.waiting = self.waiting[: _before_last_subframe(self.waiting[:kept])]
        self.left_out = GUARD
        bit = self.decoded.bits + len(self.waiting)
        unclear = self.decoded.unclear
        if unclear and unclear[-1].bit >= bit:
            begin = unclear.pop().begin
        unclear.append(Unclear(begin, end, bit))

    def _write(self, bits: Bytes) -> None:
        self.out.write(bits.tobytes())
        self.decoded.bits += len(bits)


def _bits_of(kinds: Bytes) -> Bytes:
    """The bits of long times and pairs of short ones."""
    is_long = kinds == LONG
    shorts = np.cumsum(~is_long)
    bits: Bytes = (~is_long[is_long | (shorts % 2 == 0)]).astype(np.uint8)
    return bits


def _before_last_subframe(bits: Bytes) -> int:
    """Where bits are cut that end amid a frame's last subframe: at its sync word, so that the frame isn't taken for whole."""
    for words in WIDTHS:
        subframe = words * WORD_BITS
        first = max(0, len(bits) - SUBFRAMES * subframe + 1)
        last = len(bits) - (SUBFRAMES - 1) * subframe - WORD_BITS
        if last < first:
            continue
        are = np.ones(last + 1 - first, dtype=bool)
        for number, wanted in enumerate(FIRST_BITS):
            for bit in range(WORD_BITS):
                begin = first + number * subframe + bit
                are &= bits[begin : begin + len(are)] == wanted[bit]
        if are.any():
            return first + int(np.argmax(are)) + (SUBFRAMES - 1) * subframe
    return len(bits)


def rate_to_samples(file: Stored, is_reversed: bool, rate: float, words: int | None) -> float:
    """The samples a bit of a capture that was sampled at a rate: a subframe's bits take a second."""
    if words:
        return rate / (WORD_BITS * words)
    samples = samples_a_bit(file, is_reversed, [rate / (WORD_BITS * width) for width in WIDTHS])
    if samples is None:
        raise Fault(f"at {rate:g} Hz the line has the bits of no frames of {', '.join(map(str, WIDTHS))} words a second")
    return samples


def convert(file: Stored, samples: float, is_reversed: bool, out: BinaryIO) -> Decoded:
    """Writes two levels for each bit of a capture, as `fdr decode` reads them."""
    with tempfile.TemporaryFile(prefix="flight-") as held:
        decoded = decode(file, samples, is_reversed, held)
        held.seek(0)
        levels_of((np.frombuffer(piece, dtype=np.uint8) for piece in iter(lambda: held.read(AT_ONCE), b"")), out)
    return decoded


def levels_of(bits: Iterator[Bytes], out: BinaryIO) -> None:
    """Writes the two levels of each bit, as `fdr encode` does: packed, after a low level. Zero bits fill the last byte."""
    level = 0
    held: Bytes = np.empty(0, dtype=np.uint8)
    for piece in bits:
        held = np.concatenate([held, piece])
        whole = len(held) // 4 * 4
        level = _write_levels(held[:whole], level, out)
        held = held[whole:]
    if len(held):
        _write_levels(np.append(held, np.zeros(4 - len(held), dtype=np.uint8)), level, out)


def _write_levels(bits: Bytes, level: int, out: BinaryIO) -> int:
    """Writes the levels of bits, a whole number of bytes, and answers the last one."""
    if not len(bits):
        return level
    changes = np.ones(2 * len(bits), dtype=np.uint8)
    changes[1::2] = bits
    changes[0] += level
    levels = np.cumsum(changes, dtype=np.uint8) & 1
    out.write(np.packbits(levels, bitorder="little").tobytes())
    return int(levels[-1])
