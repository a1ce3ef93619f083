"""Listings as tables: a row for each sample, or a column for each parameter.

Each row has its recording, its session and its time. What is between the samples, as gaps and sessions, has rows of its
own: they have a text in the column `note`, and no value.
"""

import csv
import io
from dataclasses import dataclass, field
from itertools import groupby
from typing import BinaryIO, Callable, Iterator, Protocol

import numpy as np

from .arrays import Array, different
from .clock import FRAME, LATE, SECOND, Between, Event, Timed
from .dates import Dates
from .description import SCALED, Description
from .joining import Field, Places, Text, field_in, fractions_of, joined, numbers_after, rows_of, time_text
from .listing import Names
from .raw import RawWords
from .told import STATE, Column, Told, derived_values, distinct, texts_of
from .utc import Utc
from .window import Window

MICRO = 1_000_000
SECOND_BITS = SECOND.bit_length() - 1
MOST_CELLS = 1 << 18  # of a grid that are written at once
DOUBTFUL = b"(doubtful)"
AT_THEIR_TIMES = (Event.CLOCK, Event.EVENT)  # between rows of one stretch, at their times
ROW_END = b",\n"  # of a sample's row, which has no note


def row_text(cells: list[str]) -> bytes:
    """A row of a table."""
    out = io.StringIO()
    csv.writer(out, lineterminator="\n").writerow(cells)
    return out.getvalue().encode()


@dataclass
class Columns:
    """What rows have beside their samples: the session of each recording, the dates, bits and words that are asked for, and what a
    description says of them."""

    sessions: list[int | None]
    dates: Dates | None = None
    with_bits: bool = False
    raw: RawWords | None = None
    with_marks: bool = False
    window: Window = field(default_factory=Window)
    utc: Utc | None = None
    description: Description = field(default_factory=Description)

    def first(self) -> list[str]:
        """The names of the first columns."""
        return ["recording", "session", "time", *(["date"] if self.dates else []), *(["utc"] if self.utc else [])]

    def head(self, recording: int, ticks: int | None) -> list[str]:
        """The first fields of a row at a time, as far as that is known."""
        date = [self.dates.text(recording, ticks)] if self.dates else []
        utc = [self.utc.text(recording, ticks)] if self.utc else []
        return [*self.label(recording).split(","), time_text(ticks), *date, *utc]

    def after_value(self) -> list[str]:
        """The names of the columns after the value of a long table."""
        asked = {"mark": self.with_marks, "bit": self.with_bits, "raw": self.raw is not None}
        return [name for name, is_asked in asked.items() if is_asked]

    def label(self, recording: int) -> str:
        """A recording and its session, as the first fields of a row."""
        session = self.sessions[recording] if recording < len(self.sessions) else None
        return f"{recording + 1}," + ("" if session is None else str(session))

    def between(self, one: Between) -> list[str]:
        """The first fields of something between rows."""
        return self.head(one.recording, one.begin)

    def fields(self, recording: Array, ticks: Array, before: bytes = b"", with_comma: bool = False) -> list[Field]:
        """The first fields of rows, after a text and with a comma at their end or none."""
        seconds = ticks >> SECOND_BITS
        changes = seconds[1:] != seconds[:-1]
        if len(ticks) and recording[0] != recording[-1]:
            changes |= recording[1:] != recording[:-1]
        first = np.insert(np.flatnonzero(changes) + 1, 0, 0)[: len(ticks)]
        counts = np.diff(first, append=len(ticks))
        labels = [before + (self.label(number) + ",").encode() for number in range(int(recording.max(initial=-1)) + 1)]
        fields = [numbers_after(labels, recording[first], seconds[first], counts)]
        dated = [one for one in (self.dates, self.utc) if one is not None]
        fields.append(fractions_of(ticks, with_comma and not dated))
        for number, one in enumerate(dated, 1):
            fields.append(texts_field(one.texts(recording, ticks), b"," * (with_comma and number == len(dated))))
        return fields


def texts_field(texts: Array, after: bytes = b"") -> Field:
    """A field of these texts, with a comma before each and a text after it."""
    texts = np.char.add(np.char.add(b",", texts), after)
    width = texts.dtype.itemsize or 1
    return Field(np.frombuffer(texts.tobytes(), dtype=np.uint8).reshape(-1, width), np.char.str_len(texts).astype(np.int64))


class TableWriter(Protocol):
    """What a table is written by: its pieces in order, and then the end."""

    def write(self, timed: Timed) -> None:
        """Writes a piece."""

    def end(self, between: list[Between]) -> None:
        """Writes what is left, and what is after the last row."""


class LongTable:
    """A row for each sample, in the order of the listing."""

    def __init__(self, out: BinaryIO, columns: Columns, names: Names) -> None:
        self.out = out
        self.columns = columns
        self.told = Told(columns.description, names)
        self.fields = described_fields(self.told)
        header = [*columns.first(), "counter", "subframe", "word", "name", "value", *self.fields, *columns.after_value(), "note"]
        out.write(row_text(header))

    def write(self, timed: Timed) -> None:
        """Writes a piece: each row as it is in the listing, with its recording and its time in front. What ends a row is laid
        in front of the next one."""
        fields = self.columns.fields(timed.recording, timed.time, ROW_END, with_comma=True)
        laid, ends = rows_of([*fields, *self._rest(timed)], ROW_END)
        text, done = laid.data[len(ROW_END) :], 0
        for one in timed.between:
            end = int(ends[one.row - 1]) if one.row else 0
            self.out.write(text[done:end])
            self.out.write(self._between(one))
            done = end
        self.out.write(text[done:])

    def end(self, between: list[Between]) -> None:
        """Writes what is after the last row."""
        for one in between:
            self.out.write(self._between(one))

    def _rest(self, timed: Timed) -> list[Field]:
        """What comes after the time and its comma: the listing's own text, and the columns after it."""
        piece = timed.piece
        fields = [field_in(piece.text, piece.rest_start + 1, piece.end - piece.rest_start - 2), *self._described(timed)]
        if self.columns.with_marks and timed.doubtful is not None:
            fields.append(texts_field(np.where(timed.doubtful, DOUBTFUL, b"")))
        if self.columns.with_bits and timed.bit is not None:
            bits = np.where(timed.bit >= 0, timed.bit.astype("S20"), b"")
            fields.append(texts_field(bits))
        if self.columns.raw is not None:
            fields.append(texts_field(self.columns.raw.texts(timed)))
        return fields

    def _described(self, timed: Timed) -> Iterator[Field]:
        """What the description says of the rows of a piece: a field of each of its columns."""
        told, piece = self.told, timed.piece
        if told.has_units:
            units = [b"," + one.described.unit.encode() if not one.described.points else b"," for one in told.columns]
            yield _chosen_field(units, piece.name)
        for kind in (STATE, SCALED):
            if _named(kind) in self.fields:
                yield self._beside(timed, kind)
        for number, one in enumerate(told.derived):
            rows, values = derived_values(timed, number)
            codes, uniques = different(values.numbers)
            each = np.zeros(len(piece), dtype=np.int64)
            each[rows] = codes + 1
            yield _chosen_field([b",", *(b"," + text for text in texts_of(uniques))], each)
            for fields in one.fields(uniques):
                yield _chosen_field([b",", *(b"," + field for field in fields)], each)

    def _beside(self, timed: Timed, kind: str) -> Field:
        """The fields of one kind beside the values of a piece."""
        texts, each = [b","], np.zeros(len(timed.piece), dtype=np.int64)
        for number in self.told.with_fields:
            one = self.told.columns[number]
            if number < self.told.parameters and kind in one.kinds:
                rows = np.flatnonzero(timed.piece.name == number)
                codes, uniques = different(timed.piece.value[rows])
                each[rows] = codes + len(texts)
                texts += [b"," + text for text in one.fields(uniques)[one.kinds.index(kind)]]
        return _chosen_field(texts, each)

    def _between(self, one: Between) -> bytes:
        return self._note(one) + b"".join(self._parts(one))

    def _parts(self, one: Between) -> Iterator[bytes]:
        """The rows of what was read out of a gap."""
        if one.placed is None:
            return
        parts, after = one.placed.parts, len(self.columns.after_value()) - 1
        for number, recording, time in one.placed:
            head = self.columns.head(recording, time if time >= 0 else None)
            place = [str(column[number]) for column in (parts.counter, parts.subframe, parts.word)]
            mark = f"part {parts.syncs[number]}"
            told = self._told_of(parts.name[number], parts.value[number])
            yield row_text([*head, *place, parts.name[number], parts.value[number], *told, mark, *[""] * after, ""])

    def _told_of(self, name: str, value: str) -> list[str]:
        """What the description says of one value; a derived value has none in a gap."""
        one = self.columns.description.of(name)
        known = {"unit": "" if one.points else one.unit, _named(STATE): one.word(value), _named(SCALED): one.scaled(value)}
        return [known.get(name, "") for name in self.fields]

    def _note(self, one: Between) -> bytes:
        """The row that says what is between rows."""
        place = ["", "", ""]
        if one.exceedance:
            place = [str(number) for number in (one.exceedance.counter, one.exceedance.subframe, one.exceedance.word)]
        empty = [""] * (1 + len(self.fields) + len(self.columns.after_value()))
        return row_text([*self.columns.between(one), *place, f"({one.event.value})", *empty, one.text])


def _named(kind: str) -> str:
    """The name of a column of a long table, which has it in no brackets."""
    return kind.strip(" ()")


def described_fields(told: Told) -> list[str]:
    """The columns of a long table by a description: the unit, the word for a value, its value by a scale, and those derived."""
    kinds = {"unit": told.has_units, _named(STATE): told.has_states, _named(SCALED): told.has_scales}
    return [*(kind for kind, is_there in kinds.items() if is_there), *(head for one in told.derived for head in one.heads)]


def _chosen_field(texts: list[bytes], codes: Array) -> Field:
    """A field that has one of these texts in each row."""
    table = np.array(texts)
    width = table.dtype.itemsize
    lengths = np.char.str_len(table).astype(np.int64)
    return Field(np.frombuffer(table.tobytes(), dtype=np.uint8).reshape(-1, width)[codes], lengths[codes])


@dataclass
class Samples:
    """Samples by column, and the text that their values are in."""

    text: Array
    recording: Array
    stretch: Array
    time: Array
    name: Array
    start: Array
    length: Array
    value: Array
    doubtful: Array

    def __len__(self) -> int:
        return len(self.time)

    def only(self, which: Array) -> "Samples":
        """Some of them, in this order, with the text as it is."""
        columns = (self.recording, self.stretch, self.time, self.name, self.start, self.length, self.value, self.doubtful)
        return Samples(self.text, *(column[which] for column in columns))

    def alone(self) -> "Samples":
        """The same, with a text that has nothing but their values."""
        text = np.frombuffer(joined(self.text, Places(self.start, self.length)), dtype=np.uint8)
        start = np.cumsum(self.length) - self.length
        places = (self.recording, self.stretch, self.time, self.name, start, self.length)
        return Samples(text, *places, self.value, self.doubtful)

    def followed_by(self, other: "Samples") -> "Samples":
        """These, and others after them."""
        return Samples(
            np.concatenate((self.text, other.text)),
            np.concatenate((self.recording, other.recording)),
            np.concatenate((self.stretch, other.stretch)),
            np.concatenate((self.time, other.time)),
            np.concatenate((self.name, other.name)),
            np.concatenate((self.start, other.start + len(self.text))),
            np.concatenate((self.length, other.length)),
            np.concatenate((self.value, other.value)),
            np.concatenate((self.doubtful, other.doubtful)),
        )


def no_samples() -> Samples:
    nothing = np.zeros(0, dtype=np.int64)
    text = np.zeros(0, dtype=np.uint8)
    return Samples(text, nothing, nothing, nothing, nothing, nothing, nothing, np.zeros(0), np.zeros(0, dtype=bool))


def samples_of(timed: Timed, told: Told) -> Samples:
    """The samples of a piece, and after them its derived values. The text of one has the fields beside its value too."""
    piece = timed.piece
    doubtful = np.zeros(len(piece), dtype=bool) if timed.doubtful is None else timed.doubtful
    places = (piece.name, piece.value_start, piece.end - 1 - piece.value_start)
    samples = Samples(piece.text, timed.recording, timed.stretch, timed.time, *places, piece.value, doubtful)
    if not told.with_fields and not told.derived:
        return samples
    text, data = Text(piece.text), piece.text.tobytes()
    start, length = samples.start.copy(), samples.length.copy()
    for number in told.with_fields:
        if number < told.parameters:
            rows = np.flatnonzero(piece.name == number)
            codes, first = distinct(piece, rows)
            own = [data[begin : begin + size] for begin, size in zip(start[first].tolist(), length[first].tolist())]
            each = text.add_each(_cells(own, told.columns[number], piece.value[first]))
            start[rows], length[rows] = each.start[codes], each.length[codes]
    samples.start, samples.length = start, length
    derived = [_derived_samples(timed, told, number, text) for number in range(len(told.derived))]
    samples.text = text.whole()
    for one in derived:
        one.start = one.start - len(samples.text)  # they are in the same text
        samples = samples.followed_by(one)
    return samples


def _cells(own: list[bytes], column: Column, values: Array) -> list[bytes]:
    """The fields of these values, with those beside each."""
    return [b",".join(fields) for fields in zip(own, *column.fields(values))]


def _derived_samples(timed: Timed, told: Told, number: int, text: Text) -> Samples:
    """The samples of a derived value, whose texts are added to a text."""
    rows, values = derived_values(timed, number)
    codes, uniques = different(values.numbers)
    cells = texts_of(uniques)
    column = told.derived[number]
    each = text.add_each(_cells(cells, column, uniques) if column.kinds else cells)
    name = np.full(len(rows), told.parameters + number, dtype=np.int64)
    places = (timed.recording[rows], timed.stretch[rows], timed.time[rows], name, each.start[codes], each.length[codes])
    return Samples(np.zeros(0, dtype=np.uint8), *places, values.numbers.astype(np.float64), np.zeros(len(rows), dtype=bool))


class InTime:
    """Puts the samples of each stretch in the order of their times.

    A row may be of a frame up to 15 before one that is above it, so the samples of the last frames are held back."""

    def __init__(self) -> None:
        self.held = no_samples()
        self.newest = 0  # the newest frame of the open stretch

    def sorted(self, samples: Samples) -> Samples:
        """The samples that no later row can be before."""
        samples = self.held.followed_by(samples)
        if not len(samples):
            return samples
        frames = samples.time // FRAME
        in_last = samples.stretch == samples.stretch[-1]
        self.newest = int(frames[in_last].max())
        ready = ~in_last | (frames < self.newest - LATE)
        self.held = samples.only(np.flatnonzero(~ready)).alone()
        return self._in_order(samples.only(np.flatnonzero(ready)))

    def rest(self) -> Samples:
        """Those that are held."""
        return self._in_order(self.held)

    @staticmethod
    def _in_order(samples: Samples) -> Samples:
        return samples.only(np.lexsort((samples.name, samples.time, samples.stretch)))


class Waiting:
    """What is between stretches and isn't written yet."""

    def __init__(self) -> None:
        self.held: list[tuple[int, Between]] = []  # each with the stretch that it is before

    def add(self, timed: Timed) -> None:
        """Takes what is between the rows of a piece."""
        for one in timed.between:
            at = min(one.row, len(timed.stretch) - 1)
            self.held.append((int(timed.stretch[at]) if at >= 0 else 0, one))

    def before(self, stretch: int) -> list[tuple[int, Between]]:
        """What is before a stretch or an earlier one, each with the stretch that it is before."""
        return self._taken(lambda before, one: before < stretch or before == stretch and one.event not in AT_THEIR_TIMES)

    def within(self, stretch: int, time: int) -> list[tuple[int, Between]]:
        """What is in a stretch up to a time, each with the stretch."""
        return self._taken(lambda before, one: before == stretch and (one.begin or 0) <= time)

    def _taken(self, is_ready: Callable[[int, Between], bool]) -> list[tuple[int, Between]]:
        ready = [pair for pair in self.held if is_ready(*pair)]
        if ready:
            self.held = [pair for pair in self.held if not is_ready(*pair)]
        return ready

    def rest(self, between: list[Between]) -> list[Between]:
        """What is left, and what is after the last row."""
        return [one for _, one in self.held] + between


class ByParameter:
    """What the tables with a column for each parameter share: their first row, and the rows between their samples."""

    def __init__(self, out: BinaryIO, names: Names, columns: Columns) -> None:
        self.out = out
        self.told = Told(columns.description, names)
        self.count = self.told.count
        self.columns = columns
        self.in_time = InTime()
        self.waiting = Waiting()
        self.names = names
        out.write(row_text([*columns.first(), *self.told.heads, *["mark"] * columns.with_marks, "note"]))

    def between(self, one: Between) -> bytes:
        """The row of something between samples, and those of what was read out of it."""
        empty = [""] * (self.count + self.columns.with_marks)
        return row_text([*self.columns.between(one), *empty, f"{one.event.value}: {one.text}"]) + b"".join(self._parts(one))

    def _parts(self, one: Between) -> Iterator[bytes]:
        """The rows of what was read out of a gap, one for each time."""
        if one.placed is None:
            return
        parts, each = one.placed.parts, sorted(one.placed, key=lambda row: row[1:])
        for (recording, time), together in groupby(each, key=lambda row: row[1:]):
            cells, numbers = [""] * self.count, [number for number, _, _ in together]
            for number in numbers:
                column = self.names.numbers[parts.name[number].encode()]
                first, told = int(self.told.first[column]), self.told.columns[column].described
                beside = [told.word(parts.value[number])] * bool(told.states) + [told.scaled(parts.value[number])] * (told.points is not None)
                cells[first : first + 1 + len(beside)] = [parts.value[number], *beside]
            head = self.columns.head(recording, time if time >= 0 else None)
            yield row_text([*head, *cells, f"part {min(parts.syncs[number] for number in numbers)}", ""])


class WideTable(ByParameter):
    """A column for each parameter, and a row for each time at which samples began."""

    def write(self, timed: Timed) -> None:
        """Writes the rows of a piece that no later row can be before."""
        self.waiting.add(timed)
        self._write(self.in_time.sorted(samples_of(timed, self.told)))

    def end(self, between: list[Between]) -> None:
        """Writes the rest."""
        self._write(self.in_time.rest())
        self.out.writelines(self.between(one) for one in self.waiting.rest(between))

    def _write(self, samples: Samples) -> None:
        """Writes samples, which are in the order of their rows: a sample's commas before it, and the rest of its row."""
        if not len(samples):
            return
        text = Text(samples.text)
        commas = text.add(b"," * (self.count + 1) + b"\n" + DOUBTFUL + b",\n")
        begins = np.diff(samples.time, prepend=-1) != 0
        begins[1:] |= np.diff(samples.stretch) != 0
        first = np.flatnonzero(begins)
        heads, head_ends = rows_of(self.columns.fields(samples.recording[first], samples.time[first]))
        head_start = text.add(heads) + np.insert(head_ends, 0, 0)[:-1]
        start, length = np.zeros(len(samples), dtype=np.int64), np.zeros(len(samples), dtype=np.int64)
        start[first], length[first] = head_start, np.diff(head_ends, prepend=0)
        ends = np.append(begins[1:], True)
        column, after = self.told.first[samples.name], (self.told.first + self.told.width)[samples.name]
        before = np.where(begins, -1, np.roll(after, 1) - 1)
        left = self.count - after
        everywhere = np.full(len(samples), commas)
        starts = [start, everywhere, samples.start, everywhere + self.count - left]
        lengths = [length, column - before, samples.length, (left + 2 - self.columns.with_marks) * ends]
        if self.columns.with_marks:
            marked = np.logical_or.reduceat(samples.doubtful, first)[np.cumsum(begins) - 1]
            starts.append(everywhere + self.count + 2 + len(DOUBTFUL) * ~marked)
            lengths.append((len(DOUBTFUL) * marked + 2) * ends)
        newest = int(samples.stretch[-1])
        ready = self.waiting.before(newest) + self.waiting.within(newest, int(samples.time[-1]))
        at = np.array([self._place(samples, stretch, one) for stretch, one in ready], dtype=np.int64)
        order = np.argsort(at, kind="stable").tolist()
        others = text.add_each([self.between(ready[number][1]) for number in order])
        at = at[order] * len(starts)
        all_starts = np.insert(np.stack(starts, axis=1).ravel(), at, others.start)
        all_lengths = np.insert(np.stack(lengths, axis=1).ravel(), at, others.length)
        self.out.write(joined(text.whole(), Places(all_starts, all_lengths)))


    @staticmethod
    def _place(samples: Samples, stretch: int, one: Between) -> int:
        """The sample that something is before."""
        first, end = np.searchsorted(samples.stretch, (stretch, stretch + 1)).tolist()
        if one.event not in AT_THEIR_TIMES:
            return int(first)
        first += int(np.searchsorted(samples.time[first:end], one.begin or 0))
        return int(first)


class GridTable(ByParameter):
    """A column for each parameter, and rows at whole multiples of a step of time: of each parameter the last value of the
    stretch so far, or nothing. No value is carried into another stretch."""

    def __init__(self, out: BinaryIO, names: Names, columns: Columns, step: int) -> None:
        super().__init__(out, names, columns)
        self.step = step  # microseconds
        self.stretch = 0  # the open one; there is none that is 0
        self.recording = 0
        self.next = 0  # the multiple of the step that comes next
        self.ends = 0  # where the open stretch's newest frame ends, in ticks
        self.values: list[bytes] = []

    def write(self, timed: Timed) -> None:
        """Writes the rows that a piece decides."""
        self.waiting.add(timed)
        self._write(self.in_time.sorted(samples_of(timed, self.told)))

    def end(self, between: list[Between]) -> None:
        """Writes the rest."""
        self._write(self.in_time.rest())
        self._rows(no_samples(), self.ends)
        self._betweens([one for one in self.waiting.rest(between)])

    def _betweens(self, between: list[Between]) -> None:
        self.out.writelines(self.between(one) for one in self.columns.window.betweens(between))

    def _write(self, samples: Samples) -> None:
        """Takes samples, which are in the order of their times in each stretch."""
        cuts = np.flatnonzero(np.diff(samples.stretch)) + 1
        for which in np.split(np.arange(len(samples)), cuts):
            if not len(which):
                continue
            part = samples.only(which)
            if part.stretch[0] != self.stretch:
                self._rows(no_samples(), self.ends)
                self._enter(part)
            self.ends = (int(part.time[-1]) // FRAME + 1) * FRAME
            for _, one in self.waiting.within(self.stretch, int(part.time[-1])):
                self._rows(part, one.begin or 0)
                self._betweens([one])
            self._rows(part, int(part.time[-1]))
            last = dict(zip(part.name.tolist(), zip(part.start.tolist(), part.length.tolist())))
            for name, (start, length) in last.items():
                self.values[name] = part.text[start : start + length].tobytes()

    def _enter(self, samples: Samples) -> None:
        """Begins a stretch."""
        self.stretch, self.recording = int(samples.stretch[0]), int(samples.recording[0])
        self._betweens([one for _, one in self.waiting.before(self.stretch)])
        self.next = self._first_not_before(int(samples.time[0]))
        self.values = self._none()

    def _none(self) -> list[bytes]:
        """The fields of parameters and derived values without a value."""
        return [b"," * (width - 1) for width in self.told.width.tolist()]

    def _first_not_before(self, ticks: int) -> int:
        """The first multiple of the step that isn't before a time."""
        return -(-ticks * MICRO // (self.step * SECOND))

    def _rows(self, samples: Samples, limit: int) -> None:
        """Writes the rows before a time, in ticks."""
        end = self._first_not_before(limit)
        most = max(1, MOST_CELLS // max(1, self.count))
        while self.next < end:
            count = min(most, end - self.next)
            self._block(samples, np.arange(self.next, self.next + count, dtype=np.int64))
            self.next += count

    def _block(self, samples: Samples, multiples: Array) -> None:
        """Writes the rows of these multiples of the step, as far as they are wanted."""
        ticks = -(-multiples * (self.step * SECOND) // MICRO)
        recording = np.full(len(multiples), self.recording)
        wanted = self.columns.window.rows(recording, ticks)
        multiples, recording = multiples[wanted], recording[wanted]
        if not len(multiples):
            return
        text = Text(samples.text)
        values = text.add_each(self.values)
        start = np.repeat(values.start[np.newaxis], len(multiples), axis=0)
        length = np.repeat(values.length[np.newaxis], len(multiples), axis=0)
        order = np.argsort(samples.name, kind="stable")
        for rows in np.split(order, np.flatnonzero(np.diff(samples.name[order])) + 1):
            if len(rows):
                last = np.searchsorted(samples.time[rows] * MICRO, multiples * self.step * SECOND, side="right") - 1
                column, there = samples.name[rows[0]], last >= 0
                start[there, column] = samples.start[rows[last[there]]]
                length[there, column] = samples.length[rows[last[there]]]
        heads = text.add_each(self._heads(multiples))
        signs = text.add(b",\n")
        pieces = np.empty((2, len(multiples), 3 + 2 * len(self.values)), dtype=np.int64)
        pieces[:, :, 0] = heads.start, heads.length
        pieces[:, :, 1:-2:2] = np.array([signs, 1])[:, np.newaxis, np.newaxis]
        pieces[:, :, 2:-2:2] = start, length
        pieces[:, :, -2] = np.array([signs, 1])[:, np.newaxis]
        pieces[:, :, -1] = np.array([signs + 1, 1])[:, np.newaxis]
        self.out.write(joined(text.whole(), Places(pieces[0], pieces[1])))

    def _heads(self, multiples: Array) -> list[bytes]:
        """The first fields of rows at these multiples of the step."""
        label = self.columns.label(self.recording).encode()
        heads = [b"%b,%d.%06d" % (label, *divmod(one, MICRO)) for one in (multiples * self.step).tolist()]
        recording = np.full(len(multiples), self.recording)
        for more in (self.columns.dates, self.columns.utc):
            if more is not None:
                texts = more.texts(recording, multiples * (self.step * SECOND / MICRO))
                heads = [head + b"," + text for head, text in zip(heads, texts.tolist())]
        return heads
