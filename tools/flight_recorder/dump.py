"""Dumps of 12-bit words in any form, and the packed bits of a stream."""

from __future__ import annotations

from typing import BinaryIO

import numpy as np
import numpy.typing as npt

from .faults import Fault
from .forms import WORD_BITS, Form, Packed, Units
from .lines import Bytes, Line, Stored
from .streams import Input

Words = npt.NDArray[np.uint16]
WORD_MASK = 0xFFF
AT_ONCE = 3 << 18  # bytes: whole units, and whole pairs of words
TURNED: Words = np.array([int(f"{word:012b}"[::-1], 2) for word in range(1 << WORD_BITS)], dtype=np.uint16)


class SpareBits(Fault):
    """A unit with bits outside its word, or half a unit: it mostly means that the dump has another form."""


def pack(file: Stored, out: BinaryIO, form: Form) -> None:
    """A dump as packed bits: two words in three bytes; of an odd number the last one fills two."""
    form.check()
    if isinstance(form.words, Units):
        _pack_units(Line(file, form, by_first_bit=False), out, form.words)
    elif form.words is Packed.HIGH:
        _pack_high_first(Line(file, form, by_first_bit=True), out)
    else:
        line = Line(file, form, by_first_bit=True)
        for at in range(0, line.size, AT_ONCE):
            out.write(line.read(at, at + AT_ONCE).tobytes())


def _pack_units(line: Line, out: BinaryIO, units: Units) -> None:
    first = line.form.phase // 8
    for at in range(first, line.size, AT_ONCE):
        data = line.read(at, at + AT_ONCE)
        if len(data) % 2 and not line.form.ignore_spare:
            raise SpareBits(f"{_place(line, at + len(data) - 1)}: half a unit of 16 bits")
        data = data[: len(data) // 2 * 2]
        held = data.view(units.kind) if data.flags.c_contiguous else data.copy().view(units.kind)
        spare = held & ~np.uint16(WORD_MASK << units.shift)
        if spare.any() and not line.form.ignore_spare:
            bad = int(np.argmax(spare != 0))
            raise SpareBits(f"{_place(line, at + 2 * bad)}: the unit {held[bad]:04X} has bits outside its word")
        out.write(packed((held.astype(np.uint16) >> np.uint16(units.shift)) & np.uint16(WORD_MASK)))


def _place(line: Line, at: int) -> str:
    """Where a byte of a line is, for a fault."""
    form = line.form
    if form.block or form.backwards or form.rotate:
        return f"byte {at} of the dump's words"
    return f"dump byte {form.skip + at}"


def _pack_high_first(line: Line, out: BinaryIO) -> None:
    """Words whose highest bit comes first. Fewer bits than a word at the end are left out."""
    byte, bit = divmod(line.form.phase, 8)
    left = (line.bits - line.form.phase) // WORD_BITS
    for at in range(byte, line.size, AT_ONCE):
        data = line.read(at, at + AT_ONCE + 1).astype(np.uint16)
        shifted = (data | np.append(data[1:], np.uint16(0)) << 8) >> bit & 0xFF
        words = TURNED[words_of(shifted[:AT_ONCE].astype(np.uint8))][:left]
        left -= len(words)
        out.write(packed(words))


def packed(words: Words) -> bytes:
    """Words as packed bits."""
    pairs = np.zeros(len(words) + len(words) % 2, dtype=np.uint16)
    pairs[: len(words)] = words
    first, second = pairs[0::2], pairs[1::2]
    held = np.empty((len(first), 3), dtype=np.uint8)
    held[:, 0] = first & 0xFF
    held[:, 1] = (first >> 8) | ((second & 0xF) << 4)
    held[:, 2] = second >> 4
    return held.tobytes()[: (len(words) * WORD_BITS + 7) // 8]


def words_of(data: Bytes) -> Words:
    """The words of packed bits; a last one that isn't whole has zeros above."""
    whole = np.zeros(-(-len(data) // 3) * 3, dtype=np.uint16)
    whole[: len(data)] = data
    held = whole.reshape(-1, 3)
    words = np.empty(2 * len(held), dtype=np.uint16)
    words[0::2] = held[:, 0] | ((held[:, 1] & 0xF) << 8)
    words[1::2] = (held[:, 1] >> 4) | (held[:, 2] << 4)
    return words


def unpack(source: Input, out: BinaryIO, units: Units) -> None:
    """Packed bits as a dump. Half a word at the end, and bits after the last word that aren't zero, are faults."""
    at = 0
    while data := source.read(AT_ONCE):
        count = len(data) * 8 // WORD_BITS
        if len(data) % 3 == 1:
            raise Fault(f"bits byte {at + len(data) - 1}: it begins a word that isn't whole")
        if len(data) % 3 == 2 and data[-1] >> 4:
            raise Fault(f"bits byte {at + len(data) - 1}: its upper four bits begin a word that isn't whole")
        words = words_of(np.frombuffer(data, dtype=np.uint8))
        out.write((words[:count] << units.shift).astype(units.kind).tobytes())
        at += len(data)
