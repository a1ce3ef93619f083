"""Which bits of a superframe are held, and by what."""

from dataclasses import dataclass
from typing import Iterable

from .parameters import SUPERFRAME

SUBFRAMES = 4
WORD_BITS = 12


@dataclass(frozen=True)
class Owner:
    """What holds bits: its name, and where that is said."""

    name: str
    line: int = 0


SYNC, COUNTER = Owner("sync word"), Owner("frame counter")


@dataclass(frozen=True)
class Clash:
    """A bit that was held already: by what, and where."""

    owner: Owner
    words: int
    slot: int
    bit: int

    def word(self, begin: int = 0) -> str:
        """Which word it is in, where the counter of frame 1 of a superframe is `begin`. Nothing is said of the first frame."""
        second, word = divmod(self.slot, self.words)
        frame, subframe = divmod(second, SUBFRAMES)
        later = f" of frame {(frame - begin) % SUPERFRAME + 1} of {SUPERFRAME}" if frame else ""
        return f"word {word + 1} of subframe {subframe + 1}{later}"


class Occupancy:
    """The bits of a superframe, with the sync words and the counter in their places."""

    def __init__(self, words: int, counter_word: int, counter_subframe: int) -> None:
        self.words = words
        self.held: dict[int, list[tuple[int, Owner]]] = {}
        everything = (1 << WORD_BITS) - 1
        for second in range(SUPERFRAME * SUBFRAMES):
            self.held[second * words] = [(everything, SYNC)]
        for second in range(counter_subframe - 1, SUPERFRAME * SUBFRAMES, SUBFRAMES):
            self.held[second * words + counter_word - 1] = [(everything, COUNTER)]

    def claim(self, owner: Owner, slots: Iterable[int], lsb: int, width: int) -> Clash | None:
        """Has bits of some words held, up to the first that is held already, which is answered."""
        mask = ((1 << width) - 1) << (lsb - 1)
        for slot in slots:
            there = self.held.setdefault(slot, [])
            for other, holder in there:
                if other & mask:
                    shared = other & mask
                    return Clash(holder, self.words, slot, (shared & -shared).bit_length())
            there.append((mask, owner))
        return None
