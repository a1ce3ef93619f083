"""The words of a dump that samples were read from."""

import mmap
import pathlib

import numpy as np

from .arrays import Array
from .addresses import Addresses
from .clock import WORD_BITS, Timed
from .faults import Fault
from .listing import SUBFRAMES
from .parameters import SUPERFRAME, Table
from .places import samples_of

FIRST_SYNC = 0o1107
NO_PART = -(1 << 30)
OCTAL = np.array([b"%04o" % word for word in range(1 << WORD_BITS)])


def words_at(bits: Array, places: Array) -> Array:
    """The words of 12 bits that begin at these bits of some bytes."""
    byte = places >> 3
    three = sum(bits[np.minimum(byte + at, len(bits) - 1)].astype(np.int64) << 8 * at for at in range(3))
    return np.asarray((three >> (places & 7)) & ((1 << WORD_BITS) - 1))


class RawWords:
    """The words of the samples of a listing, in octal: those of a sample's parts, from part 1 on."""

    def __init__(self, path: str, table: Table) -> None:
        data = _mapped(path) if pathlib.Path(path).is_file() else pathlib.Path(path).read_bytes()
        self.bits = np.frombuffer(data, dtype=np.uint8)
        self.words = table.words
        self.keys, self.steps = _parts(table)

    def texts(self, timed: Timed) -> Array:
        """The words of each row."""
        piece = timed.piece
        bit = timed.dump_bit if timed.dump_bit is not None else np.full(len(piece), -1)
        slot = ((piece.counter % SUPERFRAME) * SUBFRAMES + piece.subframe - 1) * self.words + piece.word - 1
        self._check(timed, bit, slot)
        at = np.searchsorted(self.keys, piece.name * (SUPERFRAME * SUBFRAMES * self.words) + slot)
        texts = np.full(len(piece), b"", dtype="S1")
        for part in range(self.steps.shape[1]):
            step = self.steps[at, part]
            there = step != NO_PART
            words = OCTAL[words_at(self.bits, bit + np.where(there, step, 0) * WORD_BITS)]
            texts = np.where(there, np.char.add(np.char.add(texts, b" " if part else b""), words), texts)
        return texts


    def _check(self, timed: Timed, bit: Array, slot: Array) -> None:
        """The dump has each row's frame where the listing says."""
        begin = bit - slot % (SUBFRAMES * self.words) * WORD_BITS
        is_there = (bit >= 0) & (begin >= 0) & (bit + WORD_BITS <= 8 * len(self.bits))
        if len(self.bits):
            is_there &= words_at(self.bits, np.maximum(begin, 0)) == FIRST_SYNC
        if not is_there.all():
            row, piece = int(np.argmin(is_there)), timed.piece
            place = f"counter {piece.counter[row]}, subframe {piece.subframe[row]}, word {piece.word[row]}"
            raise Fault(f"--raw: the dump has no frame at bit {begin[row]}, where the listing has {place}: another dump?")


def _mapped(path: str) -> "mmap.mmap | bytes":
    with open(path, "rb") as file:
        try:
            return mmap.mmap(file.fileno(), 0, access=mmap.ACCESS_READ)
        except ValueError:
            return b""


def _parts(table: Table) -> tuple[Array, Array]:
    """For each sample of a superframe, by its parameter and its first word, how many words after it each part is."""
    found: dict[int, list[int]] = {}
    for number, parameter in enumerate(table.parameters.values()):
        for sample in samples_of(parameter, table.words):
            first = min(part.slot for part in sample)
            found[number * SUPERFRAME * SUBFRAMES * table.words + first] = [part.slot - first for part in sample]
    keys = sorted(found)
    most = max((len(steps) for steps in found.values()), default=1)
    steps = [found[key] + [NO_PART] * (most - len(found[key])) for key in keys]
    return np.array(keys, dtype=np.int64), np.array(steps, dtype=np.int64).reshape(len(keys), most)
