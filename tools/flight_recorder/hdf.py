"""Tables as HDF5, as pandas writes and reads it. All columns have types of a fixed size: whole numbers, numbers, dates, and
texts by their numbers in a list of them."""

import datetime
import io
import os
import pathlib
import warnings

import numpy as np
import pandas
import tables as pytables

from .arrays import Array
from .beside import Placed
from .clock import SECOND, Between, Event, Timed
from .faults import Fault
from .description import SCALED
from .listing import Names
from .tables import MICRO, Columns, GridTable, Samples, WideTable, described_fields
from .told import STATE, Column, Told, derived_values

SAMPLES, NOTES = "samples", "notes"
NO_SESSION = -1
MARKS = ["", "(doubtful)", "part 2", "part 3"]
PACKING = {"complevel": 1, "complib": "zlib"}
assert pytables  # pandas needs it
# Nobody else knows the name of a file that is being written, so the library needs no lock on it. One that a copy of its handle
# in another process kept would refuse whoever reads the whole file.
os.environ.setdefault("HDF5_USE_FILE_LOCKING", "FALSE")


class Store:
    """A file of samples and of notes on what is between them, with attributes that say where they came from."""

    def __init__(self, path: pathlib.Path, columns: Columns) -> None:
        self.columns = columns
        self.store = pandas.HDFStore(str(path), mode="w", **PACKING)
        self.notes: list[Between] = []
        self.rows = 0

    def __enter__(self) -> "Store":
        return self

    def __exit__(self, *_: object) -> None:
        self.store.close()

    def add(self, frame: pandas.DataFrame) -> None:
        """Adds rows of samples."""
        if len(frame):
            frame.index = pandas.RangeIndex(self.rows, self.rows + len(frame))
            self.rows += len(frame)
            with warnings.catch_warnings():
                warnings.simplefilter("ignore", pytables.PerformanceWarning)
                try:
                    self.store.append(SAMPLES, frame, format="table", index=False)
                except pytables.HDF5ExtError:
                    raise Fault("so many columns are too many for a table of HDF5: choose fewer, or a long table") from None

    def end(self, about: dict[str, str]) -> None:
        """Writes the notes and the attributes."""
        if self.notes:
            self.store.append(NOTES, self._notes(), format="table", index=False)
        for name, text in about.items():
            self.store.root._v_attrs[name] = text

    def first(self, recording: Array, ticks: Array) -> dict[str, Array]:
        """The first columns of rows."""
        of = self.columns.sessions + [None] * (int(recording.max(initial=-1)) + 1 - len(self.columns.sessions))
        sessions = np.array([NO_SESSION if one is None else one for one in of], dtype=np.int64)
        first: dict[str, Array] = {
            "recording": (recording + 1).astype(np.int32),
            "session": sessions[recording],
            "time": ticks / SECOND,
        }
        if self.columns.dates is not None:
            first["date"] = self.columns.dates.microseconds(recording, ticks).astype("datetime64[ns]")
        if self.columns.utc is not None:
            first["utc"] = self.columns.utc.microseconds(recording, ticks).astype("datetime64[ns]")
        return first

    def _notes(self) -> pandas.DataFrame:
        recording = np.array([one.recording for one in self.notes])
        times = [[np.nan if one is None else one / SECOND for one in (note.begin, note.end)] for note in self.notes]
        begin, end = np.array(times).T
        first = self.first(recording, np.zeros(len(recording), dtype=np.int64))
        kinds = pandas.Categorical([one.event.value for one in self.notes], [one.value for one in Event])
        known = np.array([one.known for one in self.notes])
        texts = pandas.Categorical([one.text for one in self.notes])
        own = {"time": begin, "end": end, "known": known, "kind": kinds, "note": texts}
        for name in ("date", "utc"):
            first.pop(name, None)
        return pandas.DataFrame({**first, **own})


class LongStore:
    """A row for each sample."""

    def __init__(self, store: Store, names: Names) -> None:
        self.store = store
        self.names = names
        self.told = Told(store.columns.description, names)
        self.fields = described_fields(self.told)

    def write(self, timed: Timed) -> None:
        """Writes a piece."""
        piece = timed.piece
        place = {
            "counter": piece.counter.astype(np.int16),
            "subframe": piece.subframe.astype(np.int8),
            "word": piece.word.astype(np.int16),
            "name": pandas.Categorical.from_codes(piece.name, self.names.names),
            "value": piece.value.astype(np.float64),
            **self._described(timed),
        }
        if self.store.columns.with_marks and timed.doubtful is not None:
            place["mark"] = pandas.Categorical.from_codes(timed.doubtful.astype(np.int8), MARKS)
        self.store.add(pandas.DataFrame({**self.store.first(timed.recording, timed.time), **place}))
        self._take(timed.between)

    def _described(self, timed: Timed) -> dict[str, object]:
        """What the description says of the rows of a piece: a column of each of its own."""
        columns: dict[str, object] = {}
        told, piece = self.told, timed.piece
        if told.has_units:
            units = ["" if one.described.points else one.described.unit for one in told.columns]
            columns["unit"] = _category([units[name] for name in piece.name.tolist()], units)
        own = list(enumerate(told.columns[: told.parameters]))
        if told.has_states:
            words = np.full(len(piece), "", dtype=object)
            for number, one in own:
                if one.described.states:
                    rows = np.flatnonzero(piece.name == number)
                    words[rows] = one.beside(piece.value[rows])[0]
            columns["state"] = _category(words.tolist(), [word for _, one in own for word in one.described.states.values()])
        if told.has_scales:
            scaled = np.full(len(piece), np.nan)
            for number, one in own:
                if one.described.points is not None:
                    rows = np.flatnonzero(piece.name == number)
                    scaled[rows] = one.described.points.of(piece.value[rows])
            columns["scaled"] = scaled
        for number, one in enumerate(told.derived):
            rows, values = derived_values(timed, number)
            worked = np.full(len(piece), np.nan)
            worked[rows] = values.numbers
            columns.update(_columns_of(one, worked))
        return columns

    def end(self, between: list[Between]) -> None:
        """Takes what is after the last row."""
        self._take(between)

    def _take(self, between: list[Between]) -> None:
        """Takes what is between rows, and writes what was read out of gaps."""
        self.store.notes += between
        for one in between:
            if one.placed is not None:
                self._write_parts(one.placed)

    def _write_parts(self, placed: Placed) -> None:
        """Writes what was read out of a gap, as far as its times are known."""
        which = np.flatnonzero(placed.wanted & (placed.time >= 0))
        parts, numbers = placed.parts, self.names.names
        place = {
            "counter": np.array(parts.counter, dtype=np.int16)[which],
            "subframe": np.array(parts.subframe, dtype=np.int8)[which],
            "word": np.array(parts.word, dtype=np.int16)[which],
            "name": pandas.Categorical([parts.name[at] for at in which.tolist()], numbers),
            "value": np.array([float(parts.value[at]) for at in which.tolist()]),
            **self._described_parts([parts.name[at] for at in which.tolist()], [parts.value[at] for at in which.tolist()]),
            "mark": pandas.Categorical([f"part {parts.syncs[at]}" for at in which.tolist()], MARKS),
        }
        self.store.add(pandas.DataFrame({**self.store.first(placed.recording[which], placed.time[which]), **place}))


    def _described_parts(self, names: list[str], values: list[str]) -> dict[str, object]:
        """What the description says of values out of gaps, in which nothing is derived."""
        columns: dict[str, object] = {}
        of = [self.store.columns.description.of(name) for name in names]
        own = self.told.columns[: self.told.parameters]
        if self.told.has_units:
            columns["unit"] = _category(["" if one.points else one.unit for one in of], [one.described.unit for one in own])
        if self.told.has_states:
            known = [word for one in own for word in one.described.states.values()]
            columns["state"] = _category([one.word(value) for one, value in zip(of, values)], known)
        if self.told.has_scales:
            columns["scaled"] = np.array([float(one.scaled(value) or "nan") for one, value in zip(of, values)])
        for one in self.told.derived:
            columns.update(_columns_of(one, np.full(len(names), np.nan)))
        return columns


def _category(texts: list[str], known: list[str]) -> pandas.Categorical:
    """Texts by their numbers in a list of those that there may be."""
    return pandas.Categorical(texts, list(dict.fromkeys(["", *known])))


def _columns_of(column: Column, values: Array) -> dict[str, object]:
    """The columns of a parameter or of a derived value, with what is beside each value."""
    made: dict[str, object] = {}
    for head, kind in zip(column.heads, ["", *column.kinds]):
        one = column.described
        if kind == STATE:
            made[head] = _category(column.beside(values)[0], list(one.states.values()))
        else:
            made[head] = values if kind != SCALED or one.points is None else one.points.of(values)
    return made


def _frame(store: Store, told: Told, recording: Array, ticks: Array, values: Array) -> pandas.DataFrame:
    """Rows with a column for each parameter and derived value, and what is beside each."""
    columns: dict[str, object] = {**store.first(recording, ticks)}
    for number, one in enumerate(told.columns):
        columns.update(_columns_of(one, values[:, number]))
    return pandas.DataFrame(columns)


class WideStore(WideTable):
    """A column for each parameter, and a row for each time at which samples began."""

    def __init__(self, store: Store, names: Names, columns: Columns) -> None:
        super().__init__(io.BytesIO(), names, columns)
        self.store, self.names = store, names

    def end(self, between: list[Between]) -> None:
        """Writes the rest."""
        self._write(self.in_time.rest())
        self.store.notes += self.waiting.rest(between)

    def _write(self, samples: Samples) -> None:
        if not len(samples):
            return
        begins = np.diff(samples.time, prepend=-1) != 0
        begins[1:] |= np.diff(samples.stretch) != 0
        first, row = np.flatnonzero(begins), np.cumsum(begins) - 1
        values = np.full((len(first), len(self.told.columns)), np.nan)
        values[row, samples.name] = samples.value
        self.store.add(_frame(self.store, self.told, samples.recording[first], samples.time[first], values))


class GridStore(GridTable):
    """A column for each parameter, and rows at whole multiples of a step of time."""

    def __init__(self, store: Store, names: Names, columns: Columns, step: int) -> None:
        super().__init__(io.BytesIO(), names, columns, step)
        self.store, self.names = store, names

    def _betweens(self, between: list[Between]) -> None:
        self.store.notes += self.columns.window.betweens(between)

    def _block(self, samples: Samples, multiples: Array) -> None:
        recording = np.full(len(multiples), self.recording)
        ticks = multiples * (self.step * SECOND / MICRO)
        wanted = self.columns.window.rows(recording, ticks)
        held = [value.split(b",")[0] for value in self.values]
        values = np.tile([float(value) if value else np.nan for value in held], (len(multiples), 1))
        for name in np.unique(samples.name).tolist():
            rows = np.flatnonzero(samples.name == name)
            last = np.searchsorted(samples.time[rows] * MICRO, multiples * self.step * SECOND, side="right") - 1
            values[last >= 0, name] = samples.value[rows[last[last >= 0]]]
        self.store.add(_frame(self.store, self.told, recording[wanted], ticks[wanted], values[wanted]))


def about(listing: str, digest: str, table: str | None, words: int, version: str) -> dict[str, str]:
    """The attributes of a file: where it came from."""
    made = datetime.datetime.now(datetime.timezone.utc).strftime("%Y-%m-%dT%H:%M:%SZ")
    given = {"listing": listing, "listing_sha256": digest, "table": table or "", "words": str(words)}
    return {**given, "made_by": f"flight {version}".strip(), "made_at": made}
