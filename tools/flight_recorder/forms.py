"""The forms in which dumps hold the words of a recording, and the words of `flight pack` that say them."""

import enum
from dataclasses import dataclass

import numpy as np

from .faults import Fault

WORD_BITS = 12
UNIT_BITS = 16


class Order(enum.Enum):
    """Which byte of a unit comes first."""

    LITTLE = "little"
    BIG = "big"


class Align(enum.Enum):
    """Where the word is in its unit: in the lower 12 bits, or in the upper ones."""

    RIGHT = "right"
    LEFT = "left"


@dataclass(frozen=True)
class Units:
    """How a dump holds its words."""

    order: Order
    align: Align

    @property
    def kind(self) -> "np.dtype[np.uint16]":
        """A unit, as numpy reads it."""
        return np.dtype("<u2" if self.order is Order.LITTLE else ">u2")

    @property
    def shift(self) -> int:
        """The bits below the word."""
        return 4 if self.align is Align.LEFT else 0


class Packed(enum.Enum):
    """Which bit of a byte and of a word comes first, where words are packed without bits between them."""

    LOW = "low-first"
    HIGH = "high-first"


@dataclass(frozen=True)
class Form:
    """How a dump holds a line of words. The steps are undone in this order, from the file to the words."""

    skip: int = 0  # bytes before the first block
    block: int = 0  # bytes of a block, with its head and its tail; 0 where there are none
    head: int = 0
    tail: int = 0
    swap: bool = False  # the bytes of each pair
    reverse: bool = False  # the bits of each byte
    backwards: bool = False  # all bits
    invert: bool = False
    rotate: int = 0  # the bit with which the line begins; those before it come last
    phase: int = 0  # bits before the first word
    words: Units | Packed = Packed.LOW
    ignore_spare: bool = False

    def check(self) -> None:
        """A form that no dump can have is a fault."""
        if self.block and self.head + self.tail >= self.block:
            raise Fault(f"--block {self.block} has no bytes beside its head and its tail")
        if not self.block and (self.head or self.tail):
            raise Fault("--head and --tail are those of a --block")
        if isinstance(self.words, Units) and (self.rotate % 8 or self.phase % 8):
            raise Fault("--rotate and --phase of units are at whole bytes: multiples of 8")
        if self.words is Packed.LOW and self.phase:
            raise Fault("--phase is that of units and of --packed high-first; low-first words are found at any bit")
        if isinstance(self.words, Packed) and self.ignore_spare:
            raise Fault("--ignore-spare is of units; packed words have no spare bits")

    @property
    def has_high_bits_first(self) -> bool:
        """Whether the highest bit of a byte, and of a word, is the first one."""
        return self.words is Packed.HIGH or isinstance(self.words, Units) and self.words.order is Order.BIG

    @property
    def spacing(self) -> int:
        """Bits from one word to the next."""
        return UNIT_BITS if isinstance(self.words, Units) else WORD_BITS

    def options(self) -> list[str]:
        """The words of `flight pack`."""
        said: list[str] = []
        for name, number in self._numbers():
            said += [name, str(number)] if number else []
        for name, is_so in self._switches():
            said += [name] if is_so else []
        if isinstance(self.words, Units):
            return [*said, "--order", self.words.order.value, "--align", self.words.align.value]
        return [*said, "--packed", self.words.value]

    def _numbers(self) -> list[tuple[str, int]]:
        sizes = [("--skip", self.skip), ("--block", self.block), ("--head", self.head), ("--tail", self.tail)]
        return [*sizes, ("--rotate", self.rotate), ("--phase", self.phase)]

    def _switches(self) -> list[tuple[str, bool]]:
        bits = [("--swap", self.swap), ("--reverse", self.reverse), ("--backwards", self.backwards)]
        return [*bits, ("--invert", self.invert), ("--ignore-spare", self.ignore_spare)]
