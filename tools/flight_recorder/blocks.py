"""Images of `fdr`: the bytes of their blocks, as `fdr list` and `fdr salvage` read them."""

from dataclasses import dataclass

import numpy as np

from .arrays import Array
from .faults import Fault
from .images import HEAD, HEADER, LEAST_SLOTS, LETTERS, MOST_SLOTS, OPEN, PAYLOAD, VERSION
from .parameters import WORDS

NUMBERS = 1 << 48
SLOTS, PAYLOADS = range(LEAST_SLOTS, MOST_SLOTS + 1), range(64, PAYLOAD + 1)


@dataclass(frozen=True)
class Line:
    """A line of bits that is listed by itself: the number of its first block, its session where there are sessions, its bytes."""

    first: int
    session: int | None
    data: Array


def is_image(data: bytes) -> bool:
    """Whether some bytes are an image, by their first ones."""
    return len(data) >= HEADER.size and data[0] == OPEN and data[2:8] == LETTERS


def runs_of(image: bytes) -> list[list[Line]]:
    """The runs of blocks with consecutive numbers, in their order, each by its sessions."""
    _, version, _, slots, payload, words = HEADER.unpack_from(image)
    if slots not in SLOTS or payload not in PAYLOADS or words not in WORDS:
        raise Fault("image: geometry")
    if len(image) < HEADER.size + slots * (HEAD.size + payload):
        raise Fault("image: shorter than its ring")
    every = _slots(image, slots, payload)
    held = _held(every, payload)
    is_next = np.diff(every["number"][held].astype(np.int64)) == 1
    runs = np.split(held, np.flatnonzero(~is_next) + 1)
    return [_lines(every, run, version == VERSION) for run in runs if len(run)]


def _slots(image: bytes, slots: int, payload: int) -> Array:
    """The slots of an image: the fields of their heads, and the room for their bytes."""
    kinds = [("gate", "u1"), ("zero", "u1"), ("length", ">u2"), ("session", ">u4"), ("number", ">u8"), ("payload", "u1", payload)]
    return np.frombuffer(image, dtype=np.dtype(kinds), count=slots, offset=HEADER.size)


def _held(every: Array, payload: int) -> Array:
    """Which slots are valid, in the order of the numbers of their blocks."""
    number, length = every["number"].astype(np.uint64), every["length"]
    of_slot = number % np.uint64(len(every)) == np.arange(len(every), dtype=np.uint64)
    is_valid = (every["gate"] == OPEN) & (number < NUMBERS) & of_slot & (length >= 1) & (length <= payload)
    which = np.flatnonzero(is_valid)
    return which[np.argsort(number[which])]


def _lines(every: Array, run: Array, has_sessions: bool) -> list[Line]:
    """The lines of bits of a run of blocks, which is given by its slots."""
    if not has_sessions:
        return [_line(every, run, None)]
    session = every["session"][run].astype(np.int64)
    return [_line(every, own, int(every["session"][own[0]])) for own in np.split(run, np.flatnonzero(np.diff(session)) + 1)]


def _line(every: Array, own: Array, session: int | None) -> Line:
    """The line of bits of some blocks, one after another."""
    lengths, blocks = every["length"][own].astype(np.int64), every["payload"][own]
    first = int(every["number"][own[0]])
    if (lengths[:-1] == blocks.shape[1]).all():
        return Line(first, session, blocks.reshape(-1)[: int(lengths.sum())])
    return Line(first, session, np.concatenate([block[:length] for block, length in zip(blocks, lengths.tolist())]))
