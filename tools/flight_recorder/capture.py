"""Captures of buses as text: rows of comma-separated fields under a header line, and the traces that they become."""

import csv
import enum
from dataclasses import dataclass, field
from typing import BinaryIO, Callable, Iterable, Iterator, Mapping, NamedTuple

import numpy as np

from .arrays import Array
from . import bus, plain, trace
from .faults import Fault
from .moments import Clock
from .streams import Input

AT_ONCE = 1 << 15  # rows that are turned into records at once
END_WORD = "end"  # in the column of words or labels: the row has the recording's end
HEADER_ROW = 1
FIELDS = ["label", "sdi", "data", "ssm"]
COLUMNS = ["time", "bus", "word", *FIELDS, "parity"]
MILLION = 1_000_000
BYTE_ORDER_MARK = "\ufeff"


class Unit(enum.Enum):
    """Units of time, each with its microseconds."""

    SECONDS = "s"
    MILLISECONDS = "ms"
    MICROSECONDS = "us"

    @property
    def microseconds(self) -> int:
        """Microseconds of one."""
        return {"s": MILLION, "ms": 1000, "us": 1}[self.value]


@dataclass(frozen=True)
class Settings:
    """How a capture is read."""

    unit: Unit = Unit.SECONDS
    label_first: bool = False
    sort: bool = False
    end: str | None = None
    columns: Mapping[str, str] = field(default_factory=dict)  # what the capture calls them
    buses: Mapping[str, int] = field(default_factory=dict)  # by their names; the one without a name is that of all rows


@dataclass
class Batch:
    """Rows of a capture: the number of each, as an editor counts lines, and their fields by column."""

    rows: list[int] = field(default_factory=list)
    fields: list[list[str]] = field(default_factory=list)

    def column(self, at: int | None) -> list[str]:
        """The fields of a column; empty ones where the capture hasn't it."""
        return [""] * len(self.rows) if at is None else [row[at] for row in self.fields]


class Words(NamedTuple):
    """Bus words of a capture, by column: their rows, their times in microseconds, their buses and themselves."""

    row: Array
    time: Array
    bus: Array
    word: Array


class Header:
    """Where the columns of a capture are."""

    def __init__(self, names: list[str], settings: Settings) -> None:
        places = {_plain_name(name): at for at, name in reversed(list(enumerate(names)))}
        for column, name in settings.columns.items():
            if _plain_name(name) not in places:
                raise Fault(f"row {HEADER_ROW}: the header names no column `{name}`, which --columns has for {column}")
            places[column] = places[_plain_name(name)]
        self.length = len(names)
        self.time = self._needed(places, "time")
        self.bus = None if "" in settings.buses else self._needed(places, "bus")
        self.word = places.get("word")
        self.fields = {name: places.get(name) for name in FIELDS}
        if self.word is None and self.fields["label"] is None:
            raise Fault(f"row {HEADER_ROW}: the header names neither a column `word` nor a column `label`")
        if self.word is None and self.fields["data"] is None:
            raise Fault(f"row {HEADER_ROW}: the header names a column `label` and no column `data`")

    @property
    def ending(self) -> int | None:
        """The column that has `end` in the row of the recording's end."""
        return self.word if self.word is not None else self.fields["label"]

    @property
    def columns(self) -> dict[str, int]:
        """The columns that are there, by what they hold."""
        named = {"time": self.time, "bus": self.bus, "word": self.word, **self.fields}
        return {name: at for name, at in named.items() if at is not None}

    @staticmethod
    def _needed(places: dict[str, int], name: str) -> int:
        if name not in places:
            raise Fault(f"row {HEADER_ROW}: the header names no column `{name}`; --columns {name}=NAME says which it is")
        return places[name]


def _plain_name(name: str) -> str:
    """A column's name as it is compared."""
    return name.strip().lower().removeprefix(BYTE_ORDER_MARK)


def columns_of(text: str) -> dict[str, str]:
    """The columns of `--columns time=Timestamp,bus=Channel`."""
    columns = {}
    for one in text.split(",") if text else []:
        column, _, name = one.partition("=")
        if column not in COLUMNS[:-1] or not name:
            raise Fault(f"--columns {one!r}: one of {', '.join(COLUMNS[:-1])}, and after = its name in the capture")
        columns[column] = name
    return columns


def buses_of(given: list[str]) -> dict[str, int]:
    """The buses of `--bus RX1=0`, several with commas between them or given one by one."""
    buses = {}
    for one in ",".join(given).split(",") if given else []:
        name, _, number = one.rpartition("=")
        if not number.isdecimal() or int(number) > MOST_BUS or name in buses:
            raise Fault(f"--bus {one!r}: a name, =, and a number of 0 to {MOST_BUS}, each name once")
        buses[name.strip()] = int(number)
    return buses


def convert(source: Input, out: BinaryIO, settings: Settings) -> None:
    """A capture as a trace."""
    reader = Reader(source, settings)
    newest, held = 0, []
    for words in reader.words():
        if settings.sort:
            held.append(words)
        else:
            newest = _write(words, newest, out)
    end = reader.end
    if settings.sort:
        words, earliest = _sorted(held, reader.clock)
        end = None if end is None else end - earliest
        newest = _write(words, newest, out)
    trace.write_end(out, _end_of(end, newest, reader.clock, settings))


class Reader:
    """Reads the words of a capture. Rows of plain numbers are read many at once; all others, and those with a fault, one by
    one, which says the same."""

    def __init__(self, source: Input, settings: Settings) -> None:
        self.source = source
        self.settings = settings
        self.clock = Clock(settings.unit.microseconds, not settings.sort)
        self.end: int | None = None
        self.row = 0  # lines that were read
        self.header = self._header()

    def _header(self) -> Header:
        """The first row."""
        for number, row in self._rows(self.source.lines()):
            self.row = number
            return Header(row, self.settings)
        return Header([""], self.settings)

    def words(self) -> Iterator[Words]:
        """All words, some at a time."""
        for lines, is_plain in plain.pieces(self.source):
            words = self.at_once(lines) if is_plain else None
            if words is not None:
                self.row += len(words.row)
                yield words
                continue
            for batch in _batches(self._rows(lines.lines()), self.header.length):
                yield self._one_by_one(batch)

    def at_once(self, lines: plain.Lines) -> Words | None:
        """The words of lines of plain numbers; none where a line is another."""
        header, settings = self.header, self.settings
        known = self.clock.copy()
        try:
            if self.end is not None:
                return None
            fields = plain.Fields(lines.data, header.length)
            times = known.all_microseconds(fields.column(header.time))
            buses = fields.codes(header.bus, settings.buses) if header.bus is not None else None
            columns = {name: fields.column(at) for name, at in header.columns.items() if name not in ("time", "bus")}
            numbers = {name: column.whole(BASES[name], name in OPTIONAL) for name, column in columns.items()}
        except plain.NotPlain:
            return None
        if any((number > MOST[name]).any() for name, number in numbers.items()):
            return None
        words = self._word_of(numbers, fields)
        if words is None or buses is not None and (buses > MOST_BUS).any():
            return None
        self.clock = known
        rows = self.row + 1 + np.arange(len(fields))
        all_buses = np.full(len(fields), settings.buses.get("", 0)) if buses is None else buses
        return Words(rows, times, all_buses.astype(np.uint8), words)

    def _word_of(self, numbers: dict[str, Array], fields: plain.Fields) -> Array | None:
        """The bus words of columns of numbers; none where a field isn't that of its word."""
        given = {name: numbers[name].astype(np.uint32) for name in numbers}
        nothing = np.zeros(len(fields), dtype=np.uint32)
        if "word" not in given:
            return bus.word_of(bus.Fields(*(given.get(name, nothing) for name in FIELDS)))
        words = bus.turned(given["word"]) if self.settings.label_first else given["word"]
        for name, said in zip(FIELDS, bus.fields_of(words)):
            at = self.header.fields[name]
            if name in given and at is not None and ((given[name] != said) & (fields.column(at).length > 0)).any():
                return None
        return words

    def row_of(self, line: plain.Lines) -> Words:
        """The word of a line alone, or none of a line of the end."""
        return self._one_by_one(next(_batches(self._rows(line.lines()), self.header.length)))

    def _one_by_one(self, batch: Batch) -> Words:
        """The words of a batch of rows, and the end."""
        endings = [at for at, text in enumerate(batch.column(self.header.ending)) if text.strip() == END_WORD]
        if self.end is not None and batch.rows:
            raise Fault(f"row {batch.rows[0]}: rows after the one of the end")
        if endings:
            self.end = _end_row(batch, endings[0], self.header, self.clock)
        return _words_of(batch, self.header, self.clock, self.settings)

    def _rows(self, lines: Iterator[str]) -> Iterator[tuple[int, list[str]]]:
        """The rows that aren't blank, each with its number, which counts lines from 1."""
        reader = csv.reader(lines, strict=True)
        before = self.row
        while True:
            try:
                row = next(reader, None)
            except csv.Error as error:
                raise Fault(f"row {before + reader.line_num}: {error}") from None
            if row is None:
                self.row = before + reader.line_num
                return
            if row:
                yield before + reader.line_num, row


def _sorted(held: list[Words], clock: Clock) -> tuple[Words, int]:
    """All words in the order of their times, and the time of the first of them: dates count from it on."""
    words = Words(*(np.concatenate(parts) for parts in zip(*held)))
    order = np.argsort(words.time, kind="stable")
    words = Words(*(column[order] for column in words))
    earliest = int(words.time[0]) if clock.counts_from_first and len(order) else 0
    clock.begin_later(earliest)
    return words._replace(time=words.time - earliest), earliest


def _write(words: Words, newest: int, out: BinaryIO) -> int:
    """Writes the records of words, whose times are within a recording and don't go back. Answers the last time."""
    outside = (words.time < 0) | (words.time > trace.LATEST)
    back = words.time < np.insert(words.time, 0, newest)[:-1]
    if (outside | back).any():
        at = int(np.argmax(outside | back))
        if not outside[at]:
            raise Fault(f"row {words.row[at]}: time goes back; --sort puts the rows in order")
        said = words.time[at] / MILLION
        raise Fault(
            f"row {words.row[at]}: the time is {said} seconds, and a recording has 0 to {trace.LATEST // MILLION}"
        )
    out.write(trace.records_of(words.bus, words.word, words.time).tobytes())
    return int(words.time[-1]) if len(words.time) else newest


def _batches(rows: Iterator[tuple[int, list[str]]], length: int) -> Iterator[Batch]:
    """The rows in batches, each row of as many fields as the header."""
    batch = Batch()
    for number, row in rows:
        if len(row) != length:
            raise Fault(f"row {number}: it has {len(row)} fields, and the header {length}")
        batch.rows.append(number)
        batch.fields.append(row)
        if len(batch.rows) == AT_ONCE:
            yield batch
            batch = Batch()
    yield batch


def _end_row(batch: Batch, at: int, header: Header, clock: Clock) -> int:
    """Takes the row of the end, which is the last one, out of the batch, and answers its time."""
    if at + 1 < len(batch.rows):
        raise Fault(f"row {batch.rows[at + 1]}: rows after the one of the end")
    fields = batch.fields.pop()
    return _each([fields[header.time]], clock.microseconds, [batch.rows.pop()], "time")[0]


def _each(texts: Iterable[str], meaning: Callable[[str], int], rows: list[int], name: str) -> list[int]:
    """What each text means; the first that means nothing is named by its row."""
    texts = list(texts)
    try:
        return [meaning(text) for text in texts]
    except ValueError:
        for text, row in zip(texts, rows):
            _one(text, meaning, row, name)
        raise


def _one(text: str, meaning: Callable[[str], int], row: int, name: str) -> None:
    try:
        meaning(text)
    except ValueError:
        raise Fault(f"row {row}: {name} {text!r}") from None


def _plain(text: str) -> str:
    """The text of a number, in which Python alone would allow `_`."""
    if "_" in text:
        raise ValueError(text)
    return text


def _within(lowest: int, highest: int, base: int = 10) -> Callable[[str], int]:
    """Reads whole numbers of a range."""

    def number(text: str) -> int:
        value = int(_plain(text), base)
        if not lowest <= value <= highest:
            raise ValueError(text)
        return value

    return number


def _or_nothing(meaning: Callable[[str], int]) -> Callable[[str], int]:
    """Reads an empty text as 0."""
    return lambda text: meaning(text) if text.strip() else 0


def _data(text: str) -> int:
    """Bits 11 to 29: a number, or a negative one in two's complement; hexadecimal with 0x in front."""
    base = 16 if text.strip().lower().startswith("0x") else 10
    return _within(-(1 << bus.DATA_BITS - 1), (1 << bus.DATA_BITS) - 1, base)(text) & ((1 << bus.DATA_BITS) - 1)


MEANINGS: dict[str, Callable[[str], int]] = {
    "label": _within(0, 0o377, 8),
    "sdi": _or_nothing(_within(0, 3)),
    "data": _data,
    "ssm": _or_nothing(_within(0, 3)),
}
MOST_BUS = 255
BASES = {"word": 16, "label": 8, "sdi": 10, "data": 10, "ssm": 10}
OPTIONAL = ("sdi", "ssm")  # empty is 0
MOST = {"word": (1 << 32) - 1, "label": 0o377, "sdi": 3, "data": (1 << bus.DATA_BITS) - 1, "ssm": 3}
_word = _within(0, (1 << 32) - 1, 16)


def _bus(buses: Mapping[str, int]) -> Callable[[str], int]:
    """Reads a bus: its number, or a name of `--bus`."""
    number = _within(0, MOST_BUS)
    return lambda text: buses[text.strip()] if text.strip() in buses else number(text)


def _buses(batch: Batch, header: Header, buses: Mapping[str, int]) -> list[int]:
    """The buses of a batch. One that isn't understood is told with what is."""
    if header.bus is None:
        return [buses[""]] * len(batch.rows)
    texts, meaning = batch.column(header.bus), _bus(buses)
    try:
        return [meaning(text) for text in texts]
    except ValueError:
        for text, row in zip(texts, batch.rows):
            if not _means(text, meaning):
                names = f", or {', '.join(buses)} by --bus" if buses else f"; --bus {text.strip() or 'NAME'}=0 gives a name a number"
                raise Fault(f"row {row}: bus {text!r}: a bus is 0 to {MOST_BUS}{names}") from None
        raise


def _means(text: str, meaning: Callable[[str], int]) -> bool:
    try:
        meaning(text)
    except ValueError:
        return False
    return True


def _words_of(batch: Batch, header: Header, clock: Clock, settings: Settings) -> Words:
    """The words of a batch."""
    times = _each(batch.column(header.time), clock.microseconds, batch.rows, "time")
    buses = _buses(batch, header, settings.buses)
    words = _words(batch, header, settings.label_first)
    return Words(
        np.array(batch.rows, dtype=np.int64), np.array(times, dtype=np.int64), np.array(buses, dtype=np.uint8), words
    )


def _words(batch: Batch, header: Header, label_first: bool) -> Array:
    """The bus words of a batch, by the column of words or by those of the fields."""
    if header.word is None:
        return bus.word_of(bus.Fields(*(_field(batch, header, name) for name in FIELDS)))
    words = np.array(_each(batch.column(header.word), _word, batch.rows, "word"), dtype=np.uint32)
    words = bus.turned(words) if label_first else words
    for name, said in zip(FIELDS, bus.fields_of(words)):
        if header.fields[name] is not None:
            _check_said(batch, header, name, said)
    return words


def _field(batch: Batch, header: Header, name: str) -> Array:
    return np.array(_each(batch.column(header.fields[name]), MEANINGS[name], batch.rows, name), dtype=np.uint32)


def _check_said(batch: Batch, header: Header, name: str, said: Array) -> None:
    """A row that has a field beside its word has the word's own, or leaves it empty."""
    texts = batch.column(header.fields[name])
    filled = np.array([bool(text.strip()) for text in texts], dtype=bool)
    meaning = _or_nothing(MEANINGS[name])
    given = np.array(_each(texts, meaning, batch.rows, name), dtype=np.uint32)
    differs = filled & (given != said)
    if differs.any():
        at = int(np.argmax(differs))
        raise Fault(f"row {batch.rows[at]}: {name} {texts[at]!r} isn't that of the row's word")


def _end_of(row: int | None, newest: int, clock: Clock, settings: Settings) -> int:
    """The recording's end: of the words of the command, of the row of the end, or the last word's time."""
    if row is not None and settings.end is not None:
        raise Fault("--end, and the capture has a row of its end")
    end = newest if row is None else row
    if settings.end is not None:
        try:
            end = clock.microseconds(settings.end)
        except ValueError:
            raise Fault(f"--end {settings.end!r} isn't a time as those of the capture") from None
    if end < newest:
        raise Fault(f"the end, {end / MILLION} seconds, is before the last word, {newest / MILLION}")
    if end > trace.LATEST:
        raise Fault(f"the end is {end / MILLION} seconds, and a recording has up to {trace.LATEST // MILLION}")
    return end


def write_words(source: Input, out: BinaryIO) -> None:
    """A trace as a capture: each word whole, with its fields beside it, and the end in a row of its own."""
    out.write((",".join(COLUMNS) + "\n").encode())
    for records in trace.read_trace(source):
        out.write("".join(_texts(records)).encode())


def _texts(records: Array) -> Iterator[str]:
    """The rows of records."""
    words = records[records["kind"] == trace.WORD]
    columns = [words["time"].astype(np.int64), words["bus"], words["word"], *bus.fields_of(words["word"])]
    columns.append(bus.has_odd_parity(words["word"]))
    for time, number, word, label, sdi, data, ssm, odd in zip(*(column.tolist() for column in columns)):
        parity = "odd" if odd else "even"
        yield f"{seconds(time)},{number},{word:08X},{label:03o},{sdi},{data},{ssm},{parity}\n"
    for record in records[records["kind"] == trace.END]:
        yield f"{seconds(int(record['time']))},,{END_WORD},,,,,\n"


def seconds(time: int) -> str:
    """Microseconds as seconds with six digits after the point."""
    return f"{time // MILLION}.{time % MILLION:06d}"
