"""The log of power_disk.c, and what a disk may hold after a cut of the power by it.

What a flush found written stands. Of what was written since, any part may stand: each write whole, in part, cut at sectors,
or not at all, and in any order.
"""

import mmap
import os
import pathlib
import random
import struct
from collections.abc import Iterable, Iterator, Sequence
from typing import NamedTuple

ENTRY = struct.Struct("=cBHIQQQ")
SECTOR = 512


class Entry(NamedTuple):
    """What a disk met, or what was said: `w` a write, `z` zeros, `f` a flush, `l` one that failed and lost what it was to make
    durable, `s` bytes on standard error, `m` a mark."""

    kind: str
    disk: int
    error: int
    at: int
    size: int
    time: int
    data: bytes

    def is_change(self, disk: int) -> bool:
        """Whether it changes the bytes of this disk."""
        return self.disk == disk and self.kind in "wz" and not self.error


class Part(NamedTuple):
    """A write that stands, by its place in the log: whole, or the sectors of it that do, counted from its first one."""

    entry: int
    sectors: tuple[int, ...] | None = None


class Cut(NamedTuple):
    """A cut of the power: after which entry of the log, and what stands of the writes that weren't durable, in this order."""

    moment: int
    parts: tuple[Part, ...]


class Stretch(NamedTuple):
    """What a disk meets from one flush to the next: the entries from where to where, those that change it, and whether they
    are durable in the end."""

    first: int
    last: int
    pending: tuple[int, ...]
    settles: bool


def entries_of(path: pathlib.Path) -> list[Entry]:
    """All entries of a log."""
    found, at, log = [], 0, path.read_bytes()
    while at < len(log):
        kind, disk, error, data, place, size, time = ENTRY.unpack_from(log, at)
        at += ENTRY.size
        found.append(Entry(kind.decode(), disk, error, place, size, time, log[at : at + data]))
        at += data
    return found


def stretches_of(entries: Sequence[Entry], disk: int) -> Iterator[Stretch]:
    """The stretches of a disk, in order. A flush that failed settles nothing."""
    first = 0
    pending: list[int] = []
    for place, entry in enumerate(entries):
        if entry.is_change(disk):
            pending.append(place)
        elif entry.disk == disk and (entry.kind == "f" and not entry.error or entry.kind == "l"):
            yield Stretch(first, place, tuple(pending), entry.kind == "f")
            first, pending = place, []
    yield Stretch(first, len(entries) - 1, tuple(pending), False)


# --- what a disk holds


class Surface:
    """The bytes of a disk, as far as they are durable, and the file of one that a cut left."""

    def __init__(self, size: int, file: pathlib.Path, sector: int = SECTOR) -> None:
        self.size, self.sector, self.path = size, sector, file
        self.base = mmap.mmap(-1, size)
        self.file = open(file, "w+b")
        self.file.truncate(size)
        self.image = mmap.mmap(self.file.fileno(), size)
        self.sums: dict[int, int] = {}
        self.sum = 0

    def close(self) -> None:
        self.image.close()
        self.base.close()
        self.file.close()
        self.path.unlink(missing_ok=True)

    def pieces(self, entry: Entry, sectors: tuple[int, ...] | None) -> Iterator[tuple[int, bytes]]:
        """What a write puts where, sector by sector. Zeros only where there may be something else."""
        first, count = entry.at // SECTOR, entry.size // SECTOR
        if entry.kind == "z":
            places = [place for place in self.sums if first <= place < first + count] if count > len(self.sums) else range(first, first + count)
            yield from ((place, bytes(SECTOR)) for place in places)
            return
        step = self.sector // SECTOR
        for place in range(count):
            if sectors is None or place // step in sectors:
                yield first + place, entry.data[place * SECTOR : (place + 1) * SECTOR]

    def sum_of(self, place: int, data: bytes) -> int:
        return hash((place, data)) if data.count(0) != SECTOR else 0

    def settle(self, entries: Iterable[Entry]) -> None:
        """Makes writes durable."""
        for entry in entries:
            for place, data in list(self.pieces(entry, None)):
                new = self.sum_of(place, data)
                self.sum ^= self.sums.pop(place, 0) ^ new
                if new:
                    self.sums[place] = new
                begin = place * SECTOR
                self.base[begin : begin + SECTOR] = data
                if new:
                    self.image[begin : begin + SECTOR] = data

    def over(self, entries: Sequence[Entry], cut: Cut) -> dict[int, bytes]:
        """What a cut leaves that isn't durable, by sectors."""
        made: dict[int, bytes] = {}
        for part in cut.parts:
            made.update(self.pieces(entries[part.entry], part.sectors))
        return made

    def sum_with(self, over: dict[int, bytes]) -> int:
        """A sum of all bytes, by which two images are told apart."""
        found = self.sum
        for place, data in over.items():
            found ^= self.sums.get(place, 0) ^ self.sum_of(place, data)
        return found

    def build(self, over: dict[int, bytes]) -> None:
        """Makes the file hold what is durable and this over it, whatever it held."""
        file, at = self.file.fileno(), 0
        while True:
            try:
                begin = os.lseek(file, at, os.SEEK_DATA)
            except OSError:
                break
            at = os.lseek(file, begin, os.SEEK_HOLE)
            self.image[begin:at] = self.base[begin:at]
        for place, data in over.items():
            self.image[place * SECTOR : (place + 1) * SECTOR] = data


# --- which cuts are tried


def torn(entry: Entry, place: int, sector: int, chance: random.Random) -> Part:
    """A write of which some sectors stand: a front part, or any."""
    count = entry.size // sector
    if entry.kind == "z" or count < 2:
        return Part(place)
    if chance.random() < 0.5:
        return Part(place, tuple(range(chance.randrange(1, count))))
    share = chance.random()
    return Part(place, tuple(number for number in range(count) if chance.random() < share))


def drawn_cut(entries: Sequence[Entry], stretch: Stretch, sector: int, chance: random.Random) -> Cut:
    """A cut somewhere within a stretch, and a part of what was written since its flush."""
    moment = chance.choice([*stretch.pending, stretch.last - 1]) if stretch.pending else chance.randrange(stretch.first, stretch.last + 1)
    moment = max(moment, stretch.first)
    pending = [place for place in stretch.pending if place <= moment]
    kind = chance.random()
    if kind < 0.2:
        return Cut(moment, tuple(Part(place) for place in pending))
    share = chance.random()
    chosen = [place for place in pending if chance.random() < share]
    if kind > 0.6:
        chance.shuffle(chosen)
    is_torn = 0.5 if kind > 0.4 else 0.0
    return Cut(moment, tuple(torn(entries[place], place, sector, chance) if chance.random() < is_torn else Part(place) for place in chosen))


def sure_cuts(stretch: Stretch) -> Iterator[Cut]:
    """The cuts that each stretch gets: with nothing of what isn't durable, at its beginning and its end, and with all of it."""
    end = max(stretch.first, stretch.last - 1)
    yield Cut(end, ())
    if stretch.pending:
        yield Cut(stretch.first, ())
        yield Cut(end, tuple(Part(place) for place in stretch.pending))
