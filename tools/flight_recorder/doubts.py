"""Frames that are doubtful: their sync words stand, and what is around them says that something in them doesn't.

docs/PARTS.md has the rules in words. Nothing is dropped for a doubt; times go on over it by the counter that fits.
"""

from dataclasses import dataclass
from itertools import groupby

import numpy as np

from .arrays import Array
from .listing import ROUND, SUBFRAMES

ALL = "1234"
LAST = "4"
MOST_IN_A_ROW = 15  # frames with counters that don't fit

PUT_IN = "bits put in"
LOST = "bits lost"
EITHER = "bits put in or lost"
COUNTER = "counter that doesn't fit"
LONE = "lone frame beside a gap"


@dataclass(frozen=True)
class Doubt:
    """A doubtful frame by its number among the frames, the subframes that are doubtful, the counter that fits, and why."""

    frame: int
    subframes: str
    fitting: int
    rules: tuple[str, ...]
    seen: str

    @property
    def reason(self) -> str:
        """The rules, and what was seen."""
        return f"{' and '.join(self.rules)}: {self.seen}"


@dataclass(frozen=True)
class Frames:
    """The frames of a line of bits: where each begins, its counter, and how many bits a frame has; how many bits the line has."""

    bit: Array
    counter: Array
    length: int
    bits: int

    def __len__(self) -> int:
        return len(self.bit)

    def distance(self, first: int, second: int) -> float:
        """How many frames one begins after another, by the bits."""
        return (int(self.bit[second]) - int(self.bit[first])) / self.length

    def fit(self, first: int, second: int) -> bool:
        """Whether the counters of two frames differ by as much as their bits, to within a frame."""
        return bool(fit(self.distance(first, second), int(self.counter[second]) - int(self.counter[first])))

    def has_gap_beside(self, frame: int) -> bool:
        """Whether a gap is before a frame or after it."""
        before = int(self.bit[frame - 1]) + self.length if frame else 0
        after = int(self.bit[frame + 1]) if frame + 1 < len(self) else self.bits
        return before < int(self.bit[frame]) or int(self.bit[frame]) + self.length < after

    def comes_round(self) -> bool:
        """Whether the first frame goes on from the last one, as in a memory that wraps."""
        around = (self.bits - int(self.bit[-1]) + int(self.bit[0])) / self.length
        return bool(fit(around, int(self.counter[0]) - int(self.counter[-1])))


def fit(distance: "Array | float", counters: "Array | int") -> Array:
    """Whether a distance by bits and one by counters are less than a frame apart, whole rounds of the counter aside."""
    off: Array = np.asarray(counters - np.asarray(distance) + ROUND / 2) % ROUND - ROUND / 2
    is_close: Array = np.asarray(np.abs(off) < 1)
    return is_close


def of_counters(frames: Frames) -> list[Doubt]:
    """The frames whose counters don't fit."""
    if len(frames) < 2:
        return []
    goes_on = fit(np.diff(frames.bit) / frames.length, np.diff(frames.counter.astype(np.int64)))
    cuts = np.flatnonzero(~goes_on) + 1
    if not len(cuts):
        return []
    chains, doubts = _bridged(frames, list(zip(np.insert(cuts, 0, 0).tolist(), np.append(cuts, len(frames)).tolist())))
    alone: list[int] = [first for first, end in chains if end - first == 1]
    for _, together in groupby(enumerate(alone), key=lambda each: each[1] - each[0]):
        run = [frame for _, frame in together]
        if len(run) <= MOST_IN_A_ROW:
            doubts += _alone(frames, run)
    return doubts


def _bridged(frames: Frames, pieces: list[tuple[int, int]]) -> tuple[list[tuple[int, int]], list[Doubt]]:
    """Pieces of frames that fit, the first frame and the one after the last of each, put together where one fits a later one, with
    few frames between; and the doubts of those between."""
    chains: list[tuple[int, int]] = []
    doubts: list[Doubt] = []
    at = 0
    while at < len(pieces):
        first, end = pieces[at]
        later = at + 1
        while later < len(pieces) and pieces[later][0] - end <= MOST_IN_A_ROW:
            after = pieces[later][0]
            is_single = later - at == after - end + 1
            if _is_bridge(frames, end - 1, after, is_single):
                fitting = _between(frames, end - 1, after)
                doubts += [_doubt(frames, one, COUNTER, end - 1, after, fitting[one - end]) for one in range(end, after)]
                at, end = later, pieces[later][1]
            later += 1
        chains.append((first, end))
        at += 1
    return chains, doubts


def _is_bridge(frames: Frames, before: int, after: int, is_single: bool) -> bool:
    """Whether two frames fit so that those between don't count. Where some of these fit each other, the bits have to be exactly as
    many as the counters say: frames that are there twice have true counters."""
    steps = (int(frames.counter[after]) - int(frames.counter[before])) % ROUND
    if steps < after - before or frames.counter[before + 1] == 0 and frames.counter[after] == 0:
        return False
    return frames.fit(before, after) if is_single else frames.distance(before, after) == steps


def _between(frames: Frames, before: int, after: int) -> list[int]:
    """Counters that fit for the frames between two, each greater than the one before: by the bits to either, whichever are whole
    frames."""
    steps = (int(frames.counter[after]) - int(frames.counter[before])) % ROUND
    fitting = []
    for one in range(before + 1, after):
        own, rest = frames.distance(before, one), frames.distance(one, after)
        step = round(steps - rest) if rest == round(rest) else round(own)
        step = min(max(step, one - before), steps - (after - one))
        fitting.append((int(frames.counter[before]) + step) % ROUND)
    return fitting


def _alone(frames: Frames, run: list[int]) -> list[Doubt]:
    """The doubts of frames that fit no neighbour, one after another, which don't fit each other."""
    before = run[0] - 1 if run[0] else None
    after = run[-1] + 1 if run[-1] + 1 < len(frames) else None
    if before is None and (after is None or frames.counter[after] == 0) or before is None and frames.comes_round():
        return []
    if after is None and frames.comes_round():
        return []
    doubtful = [one for one in run if frames.counter[one] != 0]
    return [_doubt(frames, one, LONE if frames.has_gap_beside(one) else COUNTER, before, after) for one in doubtful]


def _doubt(
    frames: Frames, one: int, rule: str, before: int | None, after: int | None, fitting: int | None = None
) -> Doubt:
    """A doubt of a counter, with the one that fits a neighbour where none is given."""
    by_after = None if after is None else (int(frames.counter[after]) - round(frames.distance(one, after))) % ROUND
    by_before = None if before is None else (int(frames.counter[before]) + round(frames.distance(before, one))) % ROUND
    if fitting is None:
        fitting = by_after if by_before is None or by_after == 0 else by_before
    beside = [f"{frames.counter[near]} {where}" for near, where in ((before, "before"), (after, "after")) if near is not None]
    return Doubt(one, ALL, fitting or 0, (rule,), f"the counter is {frames.counter[one]} beside {' and '.join(beside)}")


def slip(frames: Frames, frame: int, next_sync: int | None, sync_stands: bool, goes_on: bool) -> tuple[str, str] | None:
    """Whether bits were put in or lost in the last subframe of a frame before a gap, and what was seen: by where the next sync
    word stands that isn't at its place, if there is one; whether the next frame's own first one stands where it has to; and
    whether a whole frame comes after the gap, whose counter goes on."""
    end = int(frames.bit[frame]) + frames.length
    if sync_stands or next_sync is None:
        return None
    off = next_sync - end
    if off < 0:
        return LOST, f"the next frame begins {-off} bits before this one ends"
    if goes_on and off < frames.length or off < frames.length // SUBFRAMES:
        return PUT_IN, f"the next frame begins {off} bits after this one ends"
    return EITHER, f"the next sync word is {off} bits after the end and at no whole number of subframes"


def merged(doubts: list[Doubt]) -> list[Doubt]:
    """One doubt for each frame, in the order of the frames."""
    answer = []
    for frame, each in groupby(sorted(doubts, key=lambda one: one.frame), key=lambda one: one.frame):
        own = list(each)
        subframes = "".join(sorted({sub for one in own for sub in one.subframes}))
        rules = tuple(rule for one in own for rule in one.rules)
        answer.append(Doubt(frame, subframes, own[0].fitting, rules, "; ".join(one.seen for one in own)))
    return answer
