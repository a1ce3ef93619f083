"""What is in one flight of a fleet, in counts and times: by the lines of its listing, and by the listing with its times."""

from __future__ import annotations

import csv
import io
import pathlib
import re
from collections import Counter
from dataclasses import dataclass, replace
from functools import cached_property
from typing import Any, Iterator

import numpy as np

from . import beside, exceedings, flights, hdf, manifest, outline, parts, reading, tables
from .arrays import Array
from .clock import SECOND, Timed
from .dates import Dates
from .description import Described, Description
from .evidence import sum_of
from .faults import Fault
from .fleet_job import EXCEEDANCES
from .joining import time_text
from .listing import NEWLINE, PIECE, Exceedance, Kept, Kind
from .parameters import Table
from .slots import Header, Slots
from .streams import Again, opened

SYNCS_OF_PARTS = 2  # that have to stand, as of `flight parts`
LINE = re.compile(rb"(run|gap),\d+,(\d+)\n")
ROW = ord("o")  # a row's second letter, which no other line has


@dataclass
class Summary:
    """Runs, blocks and frames of runs are of what `fdr salvage` lists; all else is of what `fdr list` or `fdr listbits` does."""

    runs: int | None = None
    blocks: int | None = None
    frames_of_runs: int | None = None
    sessions: int = 0
    recordings: int = 0
    frames: int = 0
    gaps: int = 0
    gap_bits: int = 0
    parts: int = 0
    doubtful: int = 0
    rows: int = 0
    duration: int = 0  # seconds of whole frames; of a flight that is read alone its seconds but for what is missing
    first: str = ""  # time, in the first recording that has samples
    last: str = ""  # in the last one


@dataclass
class Salvaged:
    """What `fdr salvage` lists: how many runs of blocks, their blocks, the bits of all gaps, and the byte after the line of the last
    run, from which on it is what `fdr list` writes: that is proved."""

    runs: int = 0
    blocks: int = 0
    gap_bits: int = 0
    last: int = 0


def salvaged_in(path: pathlib.Path) -> Salvaged:
    """Goes through the lines that are no rows of what `fdr salvage` wrote."""
    found = Salvaged()
    for end, line in _others(path):
        one = LINE.fullmatch(line)
        if one and one.group(1) == b"run":
            found.runs, found.blocks, found.last = found.runs + 1, found.blocks + int(one.group(2)), end
        elif one:
            found.gap_bits += int(one.group(2))
    return found


def _others(path: pathlib.Path) -> Iterator[tuple[int, bytes]]:
    """The lines of a listing that are no rows, each with the byte after it."""
    at, left = 0, b""
    with open(path, "rb", buffering=0) as file:
        while data := file.read(PIECE):
            text = left + data
            signs = np.frombuffer(text, dtype=np.uint8)
            ends = np.flatnonzero(signs == NEWLINE) + 1
            begins = np.insert(ends, 0, 0)[:-1]
            for line in np.flatnonzero(signs[begins + 1] != ROW).tolist():
                yield at + int(ends[line]), text[begins[line] : ends[line]]
            whole = int(ends[-1]) if len(ends) else 0
            at, left = at + whole, text[whole:]


def sizes_of_runs(path: str, header: Header) -> list[int]:
    """How many bytes each run of blocks of an image has."""
    slots = Slots(path, header.slots, header.payload, header.version)
    lengths = slots.heads["length"]
    return [sum(int(lengths[slots.slot_of[number]]) for number in range(run.first, run.last + 1)) for run in slots.runs()]


class NoFlight(Fault):
    """The recordings have fewer flights than the one that is asked for."""


@dataclass(frozen=True)
class Chosen:
    """The flight of the recordings that is read alone: what a flight is, and its number."""

    wanted: flights.Wanted
    number: int


@dataclass
class Sampled:
    """What the rows of a listing say: how many there are, of how many recordings, the first and the last time in ticks, the
    values of each parameter, the exceedances as rows, and the seconds of a flight that is read alone."""

    rows: int
    recordings: int
    first: int | None
    last: int | None
    parameters: list[list[Any]]
    exceedances: list[list[str]]
    seconds: int | None = None

    def times(self) -> tuple[str, str]:
        """The first and the last time, as tables have them."""
        return time_text(self.first), time_text(self.last)


@dataclass
class Counts:
    """The lines of a listing that are no rows, and those of what stands in its gaps."""

    sessions: int
    gaps: int
    gap_bits: int
    parts: int
    doubtful: int


@dataclass
class Listed:
    """An open listing of a flight, and what it is read by."""

    flight: str
    path: pathlib.Path
    source: Again
    table_path: str
    table: Table
    starts: Dates | None
    exceedances: list[Exceedance]
    describe: str | None
    chosen: Chosen | None = None

    @cached_property
    def how(self) -> reading.Reading:
        """How it is read, each time that it is gone through."""
        how = reading.reading_of(self.table_path, None, self.describe or "")
        how.cuts = False  # an exceedance is placed by all samples
        how.kept = Kept(self.source, how.names)
        return how

    def counts(self) -> Counts:
        """Writes what `flight parts` does beside the listing, and counts its lines by their kinds."""
        reader = parts.Reader(self.table, SYNCS_OF_PARTS)
        sections = outline.sections_in(self.how.kept or (), self.how.names, self.table)
        with opened(self.flight) as dump, open(self._parts_path(), "w", encoding="ascii", newline="") as out:
            for section, bits in zip(sections, parts.lines_of_bits(dump.read(), sections)):
                reader.write(section, bits, out)
        with open(self._parts_path(), encoding="ascii") as written:
            count = Counter(line.partition(",")[0] for line in written)
        sessions = sum(head.kind is Kind.SESSION for section in sections for head in section.heads)
        gaps = [gap.second for section in sections for gap in section.gaps]
        return Counts(sessions, len(gaps), sum(gaps), count["part"], count["doubtful"])

    def _parts_path(self) -> pathlib.Path:
        return self.path.with_name("parts.txt")

    def sampled(self, values: pathlib.Path | None) -> Sampled:
        """Goes through the listing beside its parts, and writes its values as HDF5 where that is wanted."""
        how = self.how
        with opened(str(self._parts_path())) as source:
            how.beside = beside.read_beside(source, self.table)
        seconds = self._choose(self.chosen, how) if self.chosen else None
        for one in how.passes(self.source):
            sampled = self._pass(how, one, values)
        return replace(sampled, seconds=seconds)

    def _choose(self, chosen: Chosen, how: reading.Reading) -> int:
        """Has one flight read alone, and answers its seconds but for what is missing."""
        found = flights.find(how, self.source, chosen.wanted)
        try:
            how.window = found.window(chosen.number)
        except Fault as fault:
            raise NoFlight(str(fault)) from None
        one = found.flights[chosen.number - 1]
        return round(one.run.ticks / SECOND - one.seconds_missing)

    def _pass(self, how: reading.Reading, one: reading.Pass, values: pathlib.Path | None) -> Sampled:
        columns = tables.Columns(one.sessions, self.starts, with_marks=True, window=how.window, utc=how.utc, description=how.description)
        out, seen = io.BytesIO(), Seen(len(how.names))
        placed = exceedings.ExceedanceTable(out, how.names, columns, self.exceedances)
        store = hdf.Store(values, columns) if values else None
        writer = hdf.LongStore(store, how.names) if store else None
        for timed in one:
            placed.write(timed)
            cut = how.window.cut(timed)
            seen.add(cut)
            if writer is not None:
                writer.write(cut)
        placed.end(one.rest)
        if store is not None and writer is not None:
            writer.end(how.window.betweens(one.rest))
            about = hdf.about(self.path.name, sum_of(str(self.path)), self.table_path, self.table.words, manifest.version())
            store.end({**about, "flight": self.flight})
            store.store.close()
        parameters = list(seen.parameters(self.table, how.description))
        exceedances = list(_exceedance_rows(out.getvalue(), how.description))
        return Sampled(seen.rows, len(seen.recordings), seen.times.first, seen.times.last, parameters, exceedances)


def _unit(described: Described) -> str:
    """The unit of a value as it is listed. Where there are points, the unit is that of the scaled value."""
    return "" if described.points else described.unit


def _exceedance_rows(text: bytes, described: Description) -> Iterator[list[str]]:
    """The rows of a table of exceedances, with the columns that it may lack, and the unit of the peak."""
    for row in csv.DictReader(io.StringIO(text.decode())):
        cells = {**row, "rule": row["name"], "unit": _unit(described.of(row["parameter"]))}
        yield [cells.get(name, "") for name in EXCEEDANCES]


class Seen:
    """What samples there are, piece by piece: how many, of which recordings, how many of each parameter with the least and the
    greatest, and the first and the last time."""

    def __init__(self, names: int) -> None:
        self.rows = 0
        self.recordings: set[int] = set()
        self.count = np.zeros(names, dtype=np.int64)
        self.least, self.greatest = np.full(names, np.inf), np.full(names, -np.inf)
        self.times = Times()

    def add(self, timed: Timed) -> None:
        """Takes a piece."""
        if not len(timed.time):
            return
        self.times.add(timed)
        self.rows += len(timed.time)
        self.recordings.update(timed.recording[np.diff(timed.recording, prepend=-1) != 0].tolist())
        order = np.argsort(timed.piece.name.astype(np.uint16), kind="stable")  # of two bytes each they are sorted by counting
        names, values = timed.piece.name[order], timed.piece.value[order]
        begins = np.flatnonzero(np.diff(names, prepend=-1))
        own = names[begins]
        self.count[own] += np.diff(begins, append=len(order))
        self.least[own] = np.minimum(self.least[own], np.minimum.reduceat(values, begins))
        self.greatest[own] = np.maximum(self.greatest[own], np.maximum.reduceat(values, begins))

    def parameters(self, table: Table, described: Description) -> Iterator[list[Any]]:
        """Each parameter of the table with its unit and title, how many values it has, the least and the greatest."""
        for number, name in enumerate(table.parameters):
            one, count = described.of(name), int(self.count[number])
            ends: list[float | None] = [float(self.least[number]), float(self.greatest[number])] if count else [None, None]
            yield [name, _unit(one), one.title, count, *ends]


class Times:
    """Of the recordings that have samples, the time of the first sample of the first, and of the last one of the last, in ticks."""

    def __init__(self) -> None:
        self.first: int | None = None
        self.last: int | None = None
        self.oldest = self.newest = -1

    def add(self, timed: Timed) -> None:
        """Takes a piece; recordings come in their order."""
        if not len(timed.time):
            return
        self.oldest = int(timed.recording.min()) if self.first is None else self.oldest
        of_oldest: Array = timed.time[timed.recording == self.oldest]
        if len(of_oldest):
            self.first = min(int(of_oldest.min()), int(of_oldest.min()) if self.first is None else self.first)
        newest = int(timed.recording.max())
        last = int(timed.time[timed.recording == newest].max())
        self.last = last if self.last is None or newest > self.newest else max(self.last, last)
        self.newest = newest
