"""Words that count the frames of a recording, and a memory whose end leads on to its beginning."""

from __future__ import annotations

from dataclasses import dataclass, replace

import numpy as np

from .dump import Words
from .forms import WORD_BITS
from .framing import Shape, Stretch, is_sync, stretches, words_of_frames
from .lines import Line
from .syncs import SUBFRAMES

MOST_FRAMES = 8192  # that are looked at for a counter: two rounds of one of 12 bits
AT_ONCE = 256  # frames
LEAST_FRAMES = 16
MANY_FRAMES = 64  # in which hardly any other value rises by the same each time
MOST_PAIRS = 512  # of frames in which it is seen which bits change each time
SELDOM = 0.05
MOST_MISSING = 0.6  # of the carries of a bit: where a counter ends, all of them are
LEAST_BITS = 3
LEAST_SYNCS = 2  # at the beginning of a line to which its end leads on, where no counter goes on over the ends


@dataclass(frozen=True)
class Counter:
    """A field that counts up by one from frame to frame, and up to which of its bits one was seen to carry."""

    subframe: int
    word: int
    lsb: int
    width: int
    carried: int = WORD_BITS

    def of(self, words: Words) -> Words:
        """What a counter has in frames, a row each."""
        column = words[:, (self.subframe - 1) * (words.shape[1] // SUBFRAMES) + self.word - 1]
        return (column >> np.uint16(self.lsb - 1)) & np.uint16((1 << self.width) - 1)


@dataclass(frozen=True)
class Counts:
    """What counts frames, the widest first, and a word that is zero throughout, for one that would."""

    counters: list[Counter]
    unused: tuple[int, int] | None  # subframe and word


def counts_of(line: Line, shape: Shape, found: list[Stretch]) -> Counts | None:
    """What counts frames, by the longest stretches; nothing where they are too short to tell."""
    pieces, left = [], MOST_FRAMES
    for stretch in sorted(found, key=lambda one: -one.frames):
        if stretch.frames > 1 and left > 1:
            pieces.append(Stretch(stretch.begin, min(stretch.frames, left)))
            left -= stretch.frames
    if sum(piece.frames - 1 for piece in pieces) < LEAST_FRAMES:
        return None
    steady, used = _looked_over(line, shape, pieces)
    slots, bits = np.nonzero(steady[:, None] >> np.arange(WORD_BITS) & 1)
    counters = [
        counter
        for slot in np.unique(slots)
        if (counter := _counter_at(line, shape, pieces, int(slot), bits[slots == slot].tolist()))
    ]
    counters.sort(key=lambda counter: (-counter.width, counter.lsb))
    free = np.flatnonzero(used == 0)
    unused = divmod(int(free[-1]), shape.words) if len(free) else None
    return Counts(counters, (unused[0] + 1, unused[1] + 1) if unused else None)


def _looked_over(line: Line, shape: Shape, pieces: list[Stretch]) -> tuple[Words, Words]:
    """Of each word of a frame the bits that change from frame to frame, but for some wrong ones, and those ever set."""
    size = SUBFRAMES * shape.words
    changed, pairs = np.zeros((WORD_BITS, size), dtype=np.int64), 0
    used = np.zeros(size, dtype=np.uint16)
    for piece in pieces:
        for first in range(0, piece.frames, AT_ONCE):
            count = min(AT_ONCE + 1, piece.frames - first)
            words = words_of_frames(line, shape, piece.begin + first * shape.frame, count)
            used |= np.bitwise_or.reduce(words, axis=0)
            if pairs < MOST_PAIRS:
                changes = words[1:] ^ words[:-1]
                pairs += count - 1
                for bit in range(WORD_BITS):
                    changed[bit] += (changes >> np.uint16(bit) & 1).sum(axis=0, dtype=np.int64)
    steady = changed >= pairs - max(2, pairs // 10)
    return (steady << np.arange(WORD_BITS)[:, None]).sum(axis=0).astype(np.uint16), used


def _counter_at(line: Line, shape: Shape, pieces: list[Stretch], slot: int, bits: list[int]) -> Counter | None:
    """The widest counter in a word whose lowest bit is one of these."""
    best: Counter | None = None
    carries = _carries(line, shape, pieces, slot)
    falls = carries.falls
    for low in filter(carries.may_begin_at, bits):
        high = low
        while high + 1 < WORD_BITS and carries.goes_on_above(high):
            high += 1
        carried = max((bit for bit in range(low, high) if falls[bit]), default=low - 1) + 1
        if carried - low + 1 >= LEAST_BITS and (best is None or high - low >= best.width):
            subframe, word = divmod(slot, shape.words)
            best = Counter(subframe + 1, word + 1, low + 1, high - low + 1, carried + 1)
    return best


@dataclass(frozen=True)
class _Carries:
    """How often each bit of a word falls to 0, how often the bit above it stays then, and how often it changes without."""

    frames: int
    falls: list[int]
    missing: list[int]
    needless: list[int]
    changed: list[int]

    def may_begin_at(self, bit: int) -> bool:
        """Whether a counter's lowest bit may be this one: where bits below change too, a value that rises looks alike."""
        return self.frames >= MANY_FRAMES or sum(self.changed[:bit]) <= 2

    def goes_on_above(self, bit: int) -> bool:
        """Whether the bit above changes where this one falls, and hardly ever elsewhere."""
        is_carried = self.missing[bit] <= MOST_MISSING * self.falls[bit]
        is_one_wrong_bit = self.needless[bit] == 2 and not self.falls[bit]
        return is_carried and (is_one_wrong_bit or self.needless[bit] <= SELDOM * self.frames)


def _carries(line: Line, shape: Shape, pieces: list[Stretch], slot: int) -> _Carries:
    """What the bits of a word do from frame to frame."""
    falls, missing, needless, changed = (np.zeros(WORD_BITS, dtype=np.int64) for _ in range(4))
    places = np.arange(WORD_BITS, dtype=np.uint16)
    for piece in pieces:
        column = column_of(line, shape, piece, slot)
        changes, fell = column[1:] ^ column[:-1], column[:-1] & ~column[1:]
        changed += (changes[:, None] >> places & 1).sum(axis=0, dtype=np.int64)
        falls += (fell[:, None] >> places & 1).sum(axis=0, dtype=np.int64)
        missing += ((fell & ~(changes >> 1))[:, None] >> places & 1).sum(axis=0, dtype=np.int64)
        needless += ((changes >> 1 & ~fell)[:, None] >> places & 1).sum(axis=0, dtype=np.int64)
    frames = sum(piece.frames for piece in pieces)
    return _Carries(frames, falls.tolist(), missing.tolist(), needless.tolist(), changed.tolist())


def column_of(line: Line, shape: Shape, piece: Stretch, slot: int) -> Words:
    """One word of each frame of a stretch."""
    held = [
        words_of_frames(line, shape, piece.begin + first * shape.frame, min(AT_ONCE, piece.frames - first))[:, slot]
        for first in range(0, piece.frames, AT_ONCE)
    ]
    return np.concatenate(held)


@dataclass(frozen=True)
class Wrap:
    """A line whose end leads on to its beginning: the bit at which the oldest frame begins, where that is known."""

    begin: int | None


def wrap_of(line: Line, shape: Shape, found: list[Stretch], counter: Counter | None) -> Wrap | None:
    """Whether the end of a line leads on to its beginning, and where the newest frames end and the oldest begin."""
    end = found[-1].begin + found[-1].frames * shape.frame
    if end == line.bits:
        seam = _seam(line, shape, found, counter) if counter and found[0].begin == 0 else None
        goes_on = counter and _counted(line, shape, counter, found[0], 0) == _after(line, shape, counter, found[-1])
        return Wrap(seam) if goes_on and seam is not None else None
    around = Line(line.file, replace(line.form, rotate=end), by_first_bit=True)
    next_sync = -(-(line.bits - end) // shape.subframe)
    syncs = range(next_sync, next_sync + (1 if counter else LEAST_SYNCS))
    if not all(is_sync(around, shape, number * shape.subframe, number % SUBFRAMES) for number in syncs):
        return None
    frames = list(stretches(around, shape))
    if not frames or frames[0].begin:
        return None
    if counter and _counted(around, shape, counter, frames[0], 0) != _after(line, shape, counter, found[-1]):
        return None
    seam = _seam(around, shape, frames, counter)
    return Wrap(None if seam is None else (seam + end) % line.bits)


def _counted(line: Line, shape: Shape, counter: Counter, stretch: Stretch, number: int) -> int:
    """What the counter has in a frame of a stretch; -1 is the last one."""
    at = stretch.begin + number % stretch.frames * shape.frame
    return int(counter.of(words_of_frames(line, shape, at, 1))[0])


def _after(line: Line, shape: Shape, counter: Counter, stretch: Stretch) -> int:
    """What the counter has after a stretch."""
    return (_counted(line, shape, counter, stretch, -1) + 1) % (1 << counter.width)


def _seam(line: Line, shape: Shape, found: list[Stretch], counter: Counter | None) -> int | None:
    """Where the oldest frame begins: after the break over which the counter doesn't go on as the bits do."""
    if len(found) == 1:
        return _break_within(line, shape, found[0], counter) if counter else None
    uneven: list[tuple[Stretch, Stretch]] = []
    for before, after in zip(found, found[1:]):
        bits = after.begin - before.begin - before.frames * shape.frame
        is_break = bits % shape.frame != 0
        if counter:
            wanted = _counted(line, shape, counter, before, 0) + before.frames + round(bits / shape.frame)
            away = (_counted(line, shape, counter, after, 0) - wanted) % (1 << counter.width)
            is_break = away not in (0, 1, (1 << counter.width) - 1)
        uneven += [(before, after)] if is_break else []
    return _earliest(line, shape, *uneven[0]) if len(uneven) == 1 else None


def _earliest(line: Line, shape: Shape, before: Stretch, after: Stretch) -> int:
    """Where the oldest words begin, by the sync words in front of the first whole frame after the newest: what is left of
    the oldest frame may be within what seems to be the newest."""
    begin, number = after.begin, 0
    least = before.begin + (before.frames - 1) * shape.frame
    while begin - shape.subframe > least and is_sync(line, shape, begin - shape.subframe, (number - 1) % SUBFRAMES):
        begin, number = begin - shape.subframe, number - 1
    return begin


def _break_within(line: Line, shape: Shape, stretch: Stretch, counter: Counter) -> int | None:
    """The frame of a stretch with which the counter doesn't go on any more."""
    first = _counted(line, shape, counter, stretch, 0)
    lowest, highest = 0, stretch.frames
    while highest - lowest > 1:
        middle = (lowest + highest) // 2
        goes_on = (_counted(line, shape, counter, stretch, middle) - first - middle) % (1 << counter.width) == 0
        lowest, highest = (middle, highest) if goes_on else (lowest, middle)
    return None if highest == stretch.frames else stretch.begin + highest * shape.frame
