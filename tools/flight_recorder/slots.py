"""An image's header, its slots and its blocks, as docs/FORMATS.md has them, read for a report without changing anything."""

from __future__ import annotations

import os
import struct
from dataclasses import dataclass

import numpy as np

from .arrays import Array
from .images import HEAD, HEADER, LEAST_SLOTS, LETTERS, MOST_SLOTS, OPEN, VERSION
from .parameters import WORDS

NUMBERS = 1 << 48
LEAST_PAYLOAD, MOST_PAYLOAD = 64, 4096
MOST_LETTERS = 4  # of six, by which a damaged header is known
MOST_REASONS = 3  # of a hole that are said one by one
MOST_ROUNDS = 4  # of a ring, in which a wrong number is looked for
FIELDS = np.dtype([("gate", "u1"), ("zero", "u1"), ("length", ">u2"), ("session", ">u4"), ("number", ">u8")])


def is_one_bit_apart(one: int, other: int) -> bool:
    """Whether two numbers differ in one bit."""
    return bin(one ^ other).count("1") == 1


@dataclass(frozen=True)
class Header:
    """What the first 64 bytes say, right or not."""

    is_open: bool
    version: int
    letters: bytes
    slots: int
    payload: int
    words: int

    @property
    def has_letters(self) -> bool:
        """Whether the letters are an image's."""
        return self.letters == LETTERS

    @property
    def has_most_letters(self) -> bool:
        """Whether most of them are, as where a bit is wrong."""
        return sum(one == other for one, other in zip(self.letters, LETTERS)) >= MOST_LETTERS

    @property
    def is_sound(self) -> bool:
        """Whether an image with this header is read."""
        is_shape = LEAST_SLOTS <= self.slots <= MOST_SLOTS and LEAST_PAYLOAD <= self.payload <= MOST_PAYLOAD
        return self.is_open and self.has_letters and is_shape and self.words in WORDS


def header_of(path: str) -> Header | None:
    """The header of a file, if it has the bytes for one."""
    with open(path, "rb") as file:
        data = file.read(HEADER.size)
    if len(data) < HEADER.size:
        return None
    gate, version, letters, slots, payload, words = HEADER.unpack(data)
    return Header(gate == OPEN, 2 if version == VERSION else 1, letters, slots, payload, words)


@dataclass(frozen=True)
class Session:
    """Neighbouring blocks of a run that have one session: its number, where there is one, and its first and last block."""

    number: int | None
    first: int
    last: int


@dataclass(frozen=True)
class Run:
    """Blocks whose numbers go on by one."""

    first: int
    last: int
    sessions: tuple[Session, ...]

    @property
    def blocks(self) -> int:
        """How many blocks it has."""
        return self.last + 1 - self.first


class Slots:
    """The slots of an image of so many, with room for so many bytes each."""

    def __init__(self, path: str, slots: int, payload: int, version: int) -> None:
        self.count, self.payload, self.version = slots, payload, version
        size = HEAD.size + payload
        whole = max(0, (os.path.getsize(path) - HEADER.size) // size)
        shape = (min(slots, whole), size)
        self.all: Array = np.zeros(shape, dtype=np.uint8)
        if shape[0]:
            self.all = np.memmap(path, dtype=np.uint8, mode="r", offset=HEADER.size, shape=shape)
        self.heads = np.ascontiguousarray(self.all[:, : HEAD.size]).view(FIELDS).ravel()
        self.slot_of = {int(self.heads["number"][slot]): slot for slot in np.flatnonzero(self._valid()).tolist()}

    def _valid(self) -> Array:
        number, length = self.heads["number"], self.heads["length"]
        of_slot = number % np.uint64(self.count) == np.arange(len(number), dtype=np.uint64)
        is_length = (length >= 1) & (length <= self.payload)
        return np.asarray((self.heads["gate"] == OPEN) & of_slot & (number < NUMBERS) & is_length)

    def runs(self) -> list[Run]:
        """The runs of blocks, in the order of their numbers."""
        numbers = np.array(sorted(self.slot_of), dtype=np.int64)
        cuts = np.flatnonzero(np.diff(numbers) != 1) + 1
        return [self._run(run) for run in np.split(numbers, cuts) if len(run)]

    def _run(self, numbers: Array) -> Run:
        first, last = int(numbers[0]), int(numbers[-1])
        if self.version == 1:
            return Run(first, last, (Session(None, first, last),))
        of = self.heads["session"][[self.slot_of[number] for number in numbers.tolist()]].astype(np.int64)
        begins = np.insert(np.flatnonzero(np.diff(of)) + 1, 0, 0)
        ends = np.append(begins[1:], len(of)) - 1
        sessions = [Session(int(of[a]), int(numbers[a]), int(numbers[b])) for a, b in zip(begins, ends)]
        return Run(first, last, tuple(sessions))

    def bits(self, session: Session) -> Array:
        """The bytes of a session's blocks, one after another."""
        at = np.array([self.slot_of[number] for number in range(session.first, session.last + 1)])
        lengths = self.heads["length"][at].astype(np.int64)
        if (lengths[:-1] == self.payload).all():
            whole = self.all[at, HEAD.size :].ravel()
            return np.asarray(whole[: len(whole) - self.payload + int(lengths[-1])])
        parts = [self.all[slot, HEAD.size : HEAD.size + length] for slot, length in zip(at.tolist(), lengths.tolist())]
        return np.concatenate(parts)

    def pending(self, number: int) -> int | None:
        """A block that was being written when the recording stopped: its head is there and its gate isn't open."""
        slot = number % self.count
        if slot >= len(self.heads):
            return None
        head = self.heads[slot]
        is_written = head["gate"] != OPEN and int(head["number"]) == number and 1 <= head["length"] <= self.payload
        return number if is_written else None

    def why_missing(self, first: int, count: int) -> list[str]:
        """Why the slots of missing blocks don't hold them, of the first few."""
        return [self._why(number) for number in range(first, first + min(count, MOST_REASONS))]

    def is_misnumbered(self, number: int, missing: list[tuple[int, int]]) -> bool:
        """Whether a block may be one of those that are missing, from one number up to before another, with a wrong bit."""
        slot = number % self.count
        for begin, end in missing:
            first = begin + (slot - begin) % self.count
            if any(is_one_bit_apart(number, one) for one in range(first, min(end, first + MOST_ROUNDS * self.count), self.count)):
                return True
        return False

    def _why(self, number: int) -> str:
        slot = number % self.count
        where = f"block {number} belongs into slot {slot}, at byte {HEADER.size + slot * (HEAD.size + self.payload)}"
        if slot >= len(self.heads):
            return f"{where}: the file ends before it"
        head = self.heads[slot]
        holds, length = int(head["number"]), int(head["length"])
        if head["gate"] != OPEN:
            said = f"its gate is {int(head['gate']):02X} and not {OPEN:02X}"
        elif holds >= NUMBERS or holds % self.count != slot:
            said = f"its number is {holds}, which no block in this slot has"
        elif not 1 <= length <= self.payload:
            said = f"its length is {length}, which isn't 1 to {self.payload}"
        elif is_one_bit_apart(holds, number):
            said = f"it holds block {holds}; the two numbers differ in one bit, so this may be the missing block"
        else:
            said = f"it holds block {holds}"
        return f"{where}: {said}"


def likely_shape(path: str) -> tuple[int, int] | None:
    """The number of slots and the payload of an image whose header is gone, by the heads of its slots."""
    size = os.path.getsize(path) - HEADER.size
    if size < LEAST_SLOTS * (HEAD.size + LEAST_PAYLOAD):
        return None
    with open(path, "rb") as file:
        file.seek(HEADER.size)
        _, length, _, _ = struct.unpack(">BxHIQ", file.read(HEAD.size))
    payloads = [one for one in range(LEAST_PAYLOAD, MOST_PAYLOAD + 1) if size % (HEAD.size + one) == 0]
    payloads += [length] if LEAST_PAYLOAD <= length <= MOST_PAYLOAD else []
    best, shape = 1, None
    for payload in payloads:
        slots = size // (HEAD.size + payload)
        if LEAST_SLOTS <= slots <= MOST_SLOTS:
            valid = len(Slots(path, slots, payload, 2).slot_of)
            best, shape = (valid, (slots, payload)) if valid > best else (best, shape)
    return shape


def heads_of(runs: list[Run], version: int) -> list[str]:
    """What a listing says of these runs and their sessions, in its order."""
    said = []
    for run in runs:
        said.append(f"run of {run.blocks} blocks from block {run.first}")
        said += [f"session {one.number} from block {one.first}" for one in run.sessions if version == 2]
    return said
