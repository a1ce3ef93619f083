"""Frames of packed bits, as `fdr` accepts them, and one of them in octal."""

from dataclasses import dataclass
from typing import Iterator, TextIO

import numpy as np

from .arrays import Array
from .clock import FRAME, SECOND, WORD_BITS, Clock, Shape
from .faults import Fault
from .joining import time_text
from .description import Description
from .listing import ROUND, SUBFRAMES, Kind, Mark, Piece
from .parameters import SUPERFRAME, Parameter, Table
from .places import Bits, samples_of
from .raw import words_at

SYNCS = (0o1107, 0o2670, 0o5107, 0o6670)
AT_ONCE = 1 << 20  # bytes that are searched at once
IN_LINE = 8  # words in a line


@dataclass
class Frames:
    """The accepted frames of some bits: where each begins, its counter, its recording, and its time in ticks."""

    bit: Array
    counter: Array
    recording: Array
    time: Array


def frames_of(bits: Array, table: Table) -> Frames:
    """The accepted frames of some bytes, by the words of a table's subframes."""
    shape = Shape(table.words, np.ones(SUPERFRAME, dtype=np.int64), True)
    begins = np.array(list(_accepted(_positions(bits, table.words), shape.bits)), dtype=np.int64)
    counter_slot = (table.counter_subframe - 1) * table.words + table.counter_word - 1
    counter = words_at(bits, begins + counter_slot * WORD_BITS).astype(np.int64)
    ends = np.insert(begins + shape.bits, 0, 0)[:-1]
    marks = [Mark(Kind.GAP, int(at), int(ends[at]), int(begins[at] - ends[at])) for at in np.flatnonzero(begins > ends)]
    ones, nothing = np.ones(len(begins), dtype=np.int64), np.zeros(len(begins), dtype=np.int64)
    text = np.zeros(0, dtype=np.uint8)
    piece = Piece(text, counter, ones, ones, nothing, nothing, nothing, nothing, marks)
    timed = Clock(shape).times(piece, 1)
    return Frames(begins, counter, timed.recording, timed.time)


def _positions(bits: Array, words: int) -> Array:
    """The bits at which the four sync words of a frame are, whether or not it overlaps another."""
    last = 8 * len(bits) - SUBFRAMES * words * WORD_BITS
    found = []
    for at in range(0, len(bits), AT_ONCE):
        part = np.concatenate((bits[at : at + AT_ONCE + 2], np.zeros(2, dtype=np.uint8))).astype(np.uint32)
        three = part[:-2] | part[1:-1] << np.uint32(8) | part[2:] << np.uint32(16)
        three = three[: min(AT_ONCE, len(bits) - at)]
        for shift in range(8):
            here = (three >> np.uint32(shift)) & np.uint32(0xFFF) == SYNCS[0]
            found.append(8 * (np.flatnonzero(here) + at) + shift)
    places = np.sort(np.concatenate(found)) if found else np.zeros(0, dtype=np.int64)
    places = places[places <= last]
    for subframe in range(1, SUBFRAMES):
        places = places[words_at(bits, places + subframe * words * WORD_BITS) == SYNCS[subframe]]
    return places


def _accepted(positions: Array, length: int) -> Iterator[int]:
    """The earliest position, the earliest that begins where that frame ends or later, and so on."""
    end = 0
    for position in positions.tolist():
        if position >= end:
            end = position + length
            yield position


def at_counter(frames: Frames, counter: int) -> Array:
    """The frames with a counter."""
    return np.flatnonzero(frames.counter == counter)


def at_time(frames: Frames, ticks: int) -> Array:
    """The frames of a time of their recordings."""
    return np.flatnonzero(frames.time // FRAME == ticks // FRAME)


@dataclass(frozen=True)
class Held:
    """What a word holds: a part of a parameter's sample, in some of its bits."""

    name: str
    part: int
    parts: int
    lsb: int
    width: int
    whole: tuple[Bits, ...] = ()  # all parts, of the last one of a sample that is in one frame

    def text(self, word: int) -> str:
        """What it is, and its bits in octal."""
        bits = f"bits {self.lsb} to {self.lsb + self.width - 1}" if self.width > 1 else f"bit {self.lsb}"
        part = f" part {self.part}" if self.parts > 1 else ""
        return f"{self.name}{part} ({bits}) {(word >> (self.lsb - 1)) & ((1 << self.width) - 1):o}"


def holdings(table: Table) -> dict[int, list[Held]]:
    """What each word of a superframe holds."""
    found: dict[int, list[Held]] = {}
    for parameter in table.parameters.values():
        for sample in samples_of(parameter, table.words):
            last = max(part.slot for part in sample)
            is_in_one = len({part.slot // (SUBFRAMES * table.words) for part in sample}) == 1
            for number, part in enumerate(sample, 1):
                whole = tuple(sample) if is_in_one and part.slot == last else ()
                held = Held(parameter.name, number, len(sample), part.lsb, part.width, whole)
                found.setdefault(part.slot, []).append(held)
    return found


def meaning(held: Held, parameter: Parameter, description: Description, words: list[int]) -> str:
    """What the description says of a sample whose parts are in these words: its value, its unit, its word or what it is by a scale of
    points; nothing where it says nothing."""
    one = description.of(held.name)
    if not held.whole or not (one.unit or one.states or one.points):
        return ""
    raw, shift = 0, 0
    for part in held.whole:
        raw |= (words[part.slot % len(words)] >> (part.lsb - 1) & ((1 << part.width) - 1)) << shift
        shift += part.width
    value = parameter.text(raw)
    unit = one.unit if not one.points else ""
    scaled = f"{one.scaled(value)} {one.unit}".strip() if one.scaled(value) else ""
    return f" = {' '.join(text for text in (value, unit, one.word(value)) if text)}" + (f" = {scaled}" if scaled else "")


def write_frame(
    out: TextIO, bits: Array, table: Table, frames: Frames, number: int, description: Description | None = None
) -> None:
    """Writes a frame: its place, and each subframe in octal, with the words that hold something, and what a description says of it."""
    description = description or Description()
    begin, counter = int(frames.bit[number]), int(frames.counter[number])
    length = SUBFRAMES * table.words
    words = words_at(bits, begin + WORD_BITS * np.arange(length)).tolist()
    held = holdings(table)
    times = f"time {time_text(int(frames.time[number]))}"
    out.write(f"frame: counter {counter}, recording {int(frames.recording[number]) + 1}, {times}, bit {begin}\n")
    for subframe in range(SUBFRAMES):
        out.write(f"\nsubframe {subframe + 1}\n{'bit':>10} {'byte':>9} {'word':>5}  octal\n")
        slots = range(subframe * table.words, (subframe + 1) * table.words)
        for slot in slots[::IN_LINE]:
            out.write(f"{_address(begin, slot)} {slot % table.words + 1:>5}  ")
            out.write(" ".join(f"{word:04o}" for word in words[slot : slot + IN_LINE]) + "\n")
        out.write(f"{'bit':>10} {'byte':>9} {'word':>5}  octal  holds\n")
        for slot in slots:
            texts = ["sync"] * (slot % table.words == 0) + ["counter"] * (slot == _counter_slot(table))
            for one in held.get(counter % SUPERFRAME * length + slot, []):
                texts.append(one.text(words[slot]) + meaning(one, table.parameters[one.name], description, words))
            if texts:
                word = f"{slot % table.words + 1:>5}  {words[slot]:04o}"
                out.write(f"{_address(begin, slot)} {word}   {'; '.join(texts)}\n")


def _address(begin: int, slot: int) -> str:
    """The bit at which a word of a frame begins, and the byte with the bit in it."""
    bit = begin + slot * WORD_BITS
    return f"{bit:>10} {bit // 8:>7}.{bit % 8}"


def _counter_slot(table: Table) -> int:
    return (table.counter_subframe - 1) * table.words + table.counter_word - 1


def chosen(frames: Frames, at: str, ticks: int | None) -> Array:
    """The frames of a counter or of a time."""
    if ticks is None and int(at) >= ROUND:
        raise Fault(f"--at {at}: a counter is below {ROUND}; a time has a unit, as {at}s")
    found = at_counter(frames, int(at)) if ticks is None else at_time(frames, ticks)
    if not len(found):
        what = f"counter {at}" if ticks is None else f"time {ticks / SECOND:.6f} s"
        raise Fault(f"the dump has no frame with {what}, of {len(frames.bit)} frames in all")
    return found
