"""Which form of a dump is the likeliest, of those whose sync words look alike."""

from __future__ import annotations

import math
from collections import Counter
from dataclasses import dataclass, replace
from typing import Iterator

import numpy as np

from .dump import Words
from .forms import UNIT_BITS, WORD_BITS, Align, Form, Order, Packed, Units
from .framing import Shape, Stretch, stretches, words_of_frames
from .heads import blocks_of
from .lines import REVERSED, Bytes, Line, Stored
from .syncs import Found, Reading, search, swapped

WINDOW = 1 << 20  # bytes of a file that are searched at once; even, so that pairs stay pairs
MOST_WINDOWS = 6  # of a large file at first
ALIKE = 0.6  # of the weight of the likeliest reading
TRIED = 3 << 19  # bytes of a line that a form is tried on
TRIED_FRAMES = 12  # of each form, so that as many words of them change
LEAST_FRAMES = 8  # by which it is seen which words stay as they are
MOST_OF_ZEROS = 6.0
FEW_USED = 8.0  # for each doubling of the words of a frame that change: a wrong form spreads words over their neighbours
LOW_BITS_MOVE = 6.0
NO_SPARE_BITS = 20.0  # for units whose four bits outside the word are always zero
COVERED = 60.0  # for a line whose frames leave nothing out
CLOSENESS = 10.0  # of sync words that are a subframe apart, without heads between them
FRAME_AT_BEGINNING, FRAME_AT_END, WORD_AT_BEGINNING = 6.0, 4.0, 1.0


@dataclass(frozen=True)
class Candidate:
    """A form of a dump with its frames, and how much speaks for it. The costs are of forms that are less usual."""

    form: Form
    shape: Shape
    evidence: float


def windows(size: int) -> list[int]:
    """Where the stretches of a file begin that are searched first, and then all others."""
    every = list(range(0, max(size, 1), WINDOW))
    step = max(1, (len(every) - 1) / (MOST_WINDOWS - 1))
    first = sorted({round(number * step) for number in range(min(len(every), MOST_WINDOWS))})
    return [every[number] for number in first]


def other_windows(size: int) -> list[int]:
    """The stretches that `windows` leaves out."""
    taken = set(windows(size))
    return [begin for begin in range(0, size, WINDOW) if begin not in taken]


@dataclass(frozen=True)
class Seen:
    """What was found in a stretch of a file."""

    begin: int
    data: Bytes
    found: Found


def seen_in(file: Stored, begins: list[int]) -> list[Seen]:
    """For each reading of the stretches the one that has most of it, the readings with most first."""
    best: dict[Reading, Seen] = {}
    total: Counter[Reading] = Counter()
    for begin in begins:
        data = file.read(begin, begin + WINDOW)
        for found in search(data):
            total[found.reading] += math.ceil(found.weight)
            if found.reading not in best or best[found.reading].found.weight < found.weight:
                best[found.reading] = Seen(begin, data, found)
    most = max(total.values(), default=0)
    return [best[reading] for reading, weight in total.most_common() if weight >= ALIKE * most]


def candidates(file: Stored, seen: list[Seen]) -> list[Candidate]:
    """The forms in which a file has frames, the likeliest first."""
    found: list[Candidate] = []
    for one in seen:
        for form in _forms(file, one):
            shape = Shape.of(form, one.found.reading.words)
            candidate = _tried(file, form, shape, one.begin / max(1, file.size))
            if candidate:
                near = CLOSENESS * one.found.weight / one.found.links
                found.append(replace(candidate, evidence=candidate.evidence + near))
    return sorted(found, key=lambda candidate: -candidate.evidence)


def _forms(file: Stored, seen: Seen) -> Iterator[Form]:
    """The forms that a reading may be of: read onwards or backwards, each inverted or not, and with blocks or without."""
    reading = seen.found.reading
    turned = seen.data if reading.swapped_from is None else swapped(seen.data, reading.swapped_from)
    turned = REVERSED[turned] if reading.is_reversed else turned
    blocks = blocks_of(seen.data, turned, seen.found, seen.begin, file.size)
    for is_backwards in (False, True):
        is_high = reading.is_high_first ^ is_backwards
        words: Units | Packed = Packed.HIGH if is_high else Packed.LOW
        if reading.spacing == UNIT_BITS:
            words = Units(Order.BIG if is_high else Order.LITTLE, Align.RIGHT)
        form = Form(
            skip=reading.swapped_from or 0,
            swap=reading.swapped_from is not None,
            reverse=reading.is_reversed ^ is_high,
            backwards=is_backwards,
            invert=reading.is_descending ^ is_backwards,
            words=words,
        )
        if blocks:
            yield replace(form, skip=blocks.first, block=blocks.block, head=blocks.head, tail=blocks.tail)
        if not blocks or 0 in seen.found.beyond:
            yield form


def _tried(file: Stored, form: Form, shape: Shape, part: float) -> Candidate | None:
    """A form with what speaks for it, if there are frames by it."""
    line = Line(file, form, by_first_bit=True)
    first = int(line.size * (1 - part if form.backwards else part))
    first = max(0, min(first - TRIED // 4, line.size - TRIED))
    found = list(stretches(line, shape, first, first + TRIED))
    if not found:
        return None
    longest = max(found, key=lambda stretch: stretch.frames)
    frames = sum(stretch.frames for stretch in found)
    form = with_phase(form, found)
    if isinstance(form.words, Units) and form.phase < 0:
        return None
    words = words_of_frames(line, shape, longest.begin, min(longest.frames, TRIED_FRAMES))
    evidence = COVERED * frames * shape.frame / (8 * min(TRIED, line.size))
    evidence += _by_words(words, shape) + _by_ends(line, shape) - _cost(form)
    if isinstance(form.words, Units) and _has_no_spare_bits(line, form, shape, longest):
        evidence += NO_SPARE_BITS
    return Candidate(form, shape, evidence)


def with_phase(form: Form, found: list[Stretch]) -> Form:
    """The form with the phase in which most of its frames are; units that no frames can be in have the phase -1."""
    if form.words is Packed.LOW:
        return form
    places: Counter[int] = Counter()
    for stretch in found:
        places[stretch.begin % form.spacing] += stretch.frames
    place = places.most_common(1)[0][0]
    if isinstance(form.words, Packed):
        return replace(form, phase=place)
    order = form.words.order
    at_first_bit = Align.RIGHT if order is Order.LITTLE else Align.LEFT
    at_fifth_bit = Align.LEFT if order is Order.LITTLE else Align.RIGHT
    if place % 8 not in (0, 4):
        return replace(form, phase=-1)
    align = at_fifth_bit if place % 8 else at_first_bit
    return replace(form, phase=place - place % 8, words=Units(order, align))


def first_bit(form: Form) -> int:
    """The bit of a unit at which its word begins, in the order of the line."""
    if not isinstance(form.words, Units):
        return 0
    return 4 if (form.words.order is Order.BIG) == (form.words.align is Align.RIGHT) else 0


def _by_words(words: Words, shape: Shape) -> float:
    """What the words say: those that nothing uses are zero, there are many of them, and numbers change in their lower bits."""
    data = np.delete(words, np.arange(0, words.shape[1], shape.words), axis=1)
    zeros, ones = int((data == 0).sum()), int((data == (1 << WORD_BITS) - 1).sum())
    said = 2 * math.log2((zeros + 1) / (ones + 1))
    said = max(-MOST_OF_ZEROS, min(MOST_OF_ZEROS, said))
    used = (data != data[0]).any(axis=0) if len(data) >= LEAST_FRAMES else data[0] != 0
    return said - FEW_USED * math.log2(1 + int(used.sum())) + LOW_BITS_MOVE * _part_in_low_bits(data)


def _part_in_low_bits(data: Words) -> float:
    """By how much more the lower bits of words change than the upper ones, as those of numbers do: from -1 to 1."""
    changes = data[1:] ^ data[:-1]
    counts = [int((changes >> np.uint16(bit) & 1).sum()) for bit in range(WORD_BITS)]
    low, high = sum(counts[: WORD_BITS // 2]), sum(counts[WORD_BITS // 2 :])
    return (low - high) / (low + high) if low + high else 0.0


def _has_no_spare_bits(line: Line, form: Form, shape: Shape, longest: Stretch) -> bool:
    """Whether the units of frames have no bits outside their words. Heads of a quarter of each block look like such bits."""
    begin = longest.begin + (-4 if first_bit(form) else WORD_BITS)
    count = min(longest.frames - 1, TRIED_FRAMES)
    return count > 0 and not (words_of_frames(line, replace(shape, has_high_bits_first=False), begin, count) & 0xF).any()


def _by_ends(line: Line, shape: Shape) -> float:
    """What the ends of a line say: recordings begin and end with a frame, or at least with a word."""
    said = 0.0
    first = next(stretches(line, shape, 0, -(-3 * shape.frame // 8)), None)
    if first:
        at = first.begin - first_bit(with_phase(line.form, [first]))
        said += FRAME_AT_BEGINNING if at == 0 else WORD_AT_BEGINNING if at % shape.spacing == 0 else 0
    ends = line.size - -(-shape.frame // 8) - 3
    last = list(stretches(line, shape, max(0, ends)))
    if last and line.bits - last[-1].begin - last[-1].frames * shape.frame < 8:
        said += FRAME_AT_END
    return said


def _cost(form: Form) -> float:
    """How unusual a form is."""
    costs = [(form.swap, 2), (form.reverse, 2), (form.backwards, 3), (form.invert, 2), (form.block > 0, 2)]
    heads = 10 * (form.head + form.tail) / form.block if form.block else 0.0
    return sum(cost for is_so, cost in costs if is_so) + (form.words is Packed.HIGH) + heads
