#!/usr/bin/env python3
"""Does what `fdr` does, as docs/FORMATS.md, TABLE.md, RULES.md and COMMANDS.md say it: a second reader, beside the program.

    tests/reader.py WORDS

It takes the words of the program. Each command is a function from bytes to an Answer: the status, standard output,
standard error, and what the image holds afterwards. tests/compare.py compares these with the program's.

It was written from the page, without the program's source, and shares nothing with tests/formats.py, by which the other
scripts make their inputs: a mistake that both made would be seen by neither. It is short and slow, holds its whole input,
and knows no fault of a file, a stream, a disk or memory, apart from a file that isn't there.
"""

from __future__ import annotations

import bisect
import functools
import itertools
import pathlib
import re
import sys
from collections.abc import Callable, Iterable, Iterator, Mapping, Sequence
from typing import Any, NamedTuple

MAX_TABLE, MAX_PARAMS, MAX_PLACES, MAX_PARTS = 1_048_576, 2_048, 8_192, 262_144
MAX_LINE = 268_435_456
MAX_RECORDS, MAX_TIME = 4_294_967_296, 1_440_000_000_000
NUMBERS = 1 << 48
SECOND = 1_000_000
WORDS = (64, 128, 256, 512, 1024)
SYNCS = (0o1107, 0o2670, 0o5107, 0o6670)
OPEN, CLOSED, SECOND_VERSION = 0x5A, 0x00, 0xA5
LETTERS = b"FDR717"
SESSIONS = 1 << 32


class Answer(NamedTuple):
    status: int
    output: bytes = b""
    errors: bytes = b""
    image: bytes | None = None


class Refused(Exception):
    """An answer that comes before anything is written: its status and text."""

    def __init__(self, status: int, text: str) -> None:
        super().__init__(status, text)
        self.status, self.text = status, text


def line(text: str) -> bytes:
    return f"fdr: {text}\n".encode() if text else b""


# --- The table: how its text is cut into rows

FIELD = re.compile(rb'(?:"([^"]*(?:""[^"]*)*)(?:"|\Z))?([^,\r\n]*)(,|\r\n|\r|\n|\Z)')


def rows_of(text: bytes) -> list[list[bytes]]:
    text = text.removeprefix(b"\xef\xbb\xbf")
    rows: list[list[bytes]] = []
    row: list[bytes] = []
    at = 0
    while at < len(text) or row:
        found = FIELD.match(text, at)
        assert found
        quoted, rest, end = found.groups()
        if row or found[0] != end or end == b",":
            row.append((quoted or b"").replace(b'""', b'"') + rest)
        if row and end != b",":
            rows.append(row)
            row = []
        at = found.end()
    return rows


# --- The table: what its fields are. A reader has the values of the fields before too, and raises ValueError

Reader = Callable[[bytes, list[Any]], Any]


DECIMAL, SIGNED, OCTAL = rb"[0-9]{1,19}", rb"-?[0-9]{1,19}", rb"[0-7]{1,3}"


def number(least: int, most: int, among: Sequence[int] = (), form: bytes = DECIMAL, base: int = 10) -> Reader:
    def read(field: bytes, before: list[Any]) -> int:
        value = int(field, base) if re.fullmatch(form, field) else None
        if value is None or not least <= value <= most or among and value not in among:
            raise ValueError
        return value

    return read


def signed(most: int) -> Reader:
    return number(-most, most, form=SIGNED)


def or_none(reader: Reader) -> Reader:
    return lambda field, before: reader(field, before) if field else None


def as_is(field: bytes, before: list[Any]) -> bytes:
    return field


def width_up_to(bits: int) -> Reader:
    """A width, none of whose bits is above this one. The field before it is the lowest bit."""
    return lambda field, before: number(1, bits + 1 - before[-1])(field, before)


def sign(field: bytes, before: list[Any]) -> str:
    """A sign. The field before it is the width."""
    if field not in (b"U", b"S", b"V") or field == b"V" and before[-1] != 1:
        raise ValueError
    return field.decode()


def subframes(field: bytes, before: list[Any]) -> list[int]:
    if not field or not re.fullmatch(rb"1?2?3?4?", field):
        raise ValueError
    return [int(digit) for digit in field.decode()]


F_ROW: list[Reader] = [as_is, number(64, 1024, WORDS), number(2, 1024), number(1, 4)]
LABEL, SDI, AGE = number(0, 0o377, form=OCTAL, base=8), or_none(number(0, 3)), or_none(number(1, 64_000_000))
P_ROW: list[Reader] = [as_is, as_is, number(0, 255), LABEL, SDI, number(1, 32), width_up_to(32), sign]
P_ROW += [signed(10**9), number(1, 10**9), signed(10**15), number(0, 9), number(1, MAX_PARTS), AGE]
L_ROW: list[Reader] = [as_is, as_is, number(1, 4), subframes, number(1, 1024), number(0, 1024), number(1, 12), width_up_to(12)]
L_ROW += [number(0, 15), number(1, 16, (1, 2, 4, 8, 16))]
ROWS: dict[bytes, Sequence[Reader]] = {b"F": F_ROW, b"P": P_ROW, b"L": L_ROW}
COUNTS = {b"F": (4,), b"P": (13, 14), b"L": (10,)}


def values_of(row: int, fields: list[bytes]) -> list[Any]:
    values: list[Any] = []
    for read, field in zip(ROWS[fields[0]], fields):
        try:
            values.append(read(field, values))
        except ValueError:
            raise table_fault(row, f"number in field {len(values)}") from None
    if fields[0] == b"L" and values[8] >= values[9]:
        raise table_fault(row, "number in field 8")
    return values


def table_fault(row: int, text: str) -> Refused:
    return Refused(2, f"table row {row}: {text}")


# --- The table: its rows


class Param(NamedTuple):
    row: int
    name: bytes
    bus: int
    label: int
    sdi: int | None
    lsb: int
    width: int
    sign: str
    num: int
    den: int
    offset: int
    decimals: int
    rate: int
    age: int | None


class Place(NamedTuple):
    row: int
    name: bytes
    part: int
    subframes: list[int]
    word: int
    step: int
    lsb: int
    width: int
    cycle: int
    period: int

    def slots(self, words: int) -> list[int]:
        """The word slots of a superframe in which it occurs."""
        in_subframe = range(self.word, words + 1, self.step) if self.step else [self.word]
        frames = range(self.cycle, 16, self.period)
        return [(4 * f + s - 1) * words + w - 1 for f in frames for s in self.subframes for w in in_subframe]


class Piece(NamedTuple):
    """Where a part of one sample is: its word slot in the superframe, its bits, and what its lowest bit counts for."""

    slot: int
    lsb: int
    width: int
    weight: int


class Sample(NamedTuple):
    pieces: list[Piece]
    first: Piece
    last: Piece


class Table:
    """What the rows of a table say."""

    def __init__(self) -> None:
        self.words = self.counter_word = self.counter_subframe = self.rows = 0
        self.params: dict[bytes, Param] = {}
        self.places: list[Place] = []
        self.parts: dict[bytes, dict[int, list[Place]]] = {}  # by the parameter's name and the part's number

    @property
    def counter_slot(self) -> int:
        """The word slot of the counter in a frame."""
        return (self.counter_subframe - 1) * self.words + self.counter_word - 1

    @functools.cached_property
    def samples(self) -> dict[Param, list[Sample]]:
        """The samples of each parameter in a superframe. Sample i has the i-th piece of each part, in the order of the bits."""
        return {param: self.samples_of(param) for param in self.params.values()}

    def samples_of(self, param: Param) -> list[Sample]:
        pieces, below = [], 0
        for _, places in sorted(self.parts[param.name].items()):
            pieces.append(sorted(Piece(slot, it.lsb, it.width, 1 << below) for it in places for slot in it.slots(self.words)))
            below += places[0].width
        return [Sample(list(of_sample), min(of_sample), max(of_sample)) for of_sample in zip(*pieces)]


def add_row(table: Table, row: int, fields: list[bytes]) -> None:
    """Adds a row to those above it, or names the lowest of the faults 1 to 8 that it has."""
    letter = fields[0]
    if len(fields) not in COUNTS.get(letter, ()):
        raise table_fault(row, "shape")
    values = values_of(row, fields + [b""] * (len(ROWS[letter]) - len(fields)))
    if letter == b"F":
        if table.words:
            raise table_fault(row, "second frame row")
        table.words, table.counter_word, table.counter_subframe = values[1:]
    elif not table.words:
        raise table_fault(row, "no frame row")
    elif letter == b"P":
        add_param(table, Param(row, *values[1:]))
    else:
        add_place(table, Place(row, *values[1:]))


def add_param(table: Table, param: Param) -> None:
    if not re.fullmatch(rb"[A-Za-z0-9_.-]{1,16}", param.name):
        raise table_fault(param.row, "name")
    if param.name in table.params:
        raise table_fault(param.row, "name used twice")
    if len(table.params) == MAX_PARAMS:
        raise table_fault(param.row, "too large")
    table.params[param.name] = param
    table.parts[param.name] = {}


def add_place(table: Table, place: Place) -> None:
    if place.name not in table.params:
        raise table_fault(place.row, "unknown name")
    if len(table.places) == MAX_PLACES:
        raise table_fault(place.row, "too large")
    table.places.append(place)
    table.parts[place.name].setdefault(place.part, []).append(place)


# --- The table: what its rows say together


def look_at_words(table: Table) -> None:
    """Faults 9 to 11."""
    if table.counter_word > table.words:
        raise table_fault(0, "place")
    frame, counter = 4 * table.words, table.counter_slot
    faults: list[tuple[str, Callable[[Place], bool]]] = [
        ("place", lambda place: place.word > table.words),
        ("on a sync word", lambda place: place.word == 1),
        ("on the counter word", lambda place: any(slot % frame == counter for slot in place.slots(table.words))),
    ]
    for text, has_it in faults:
        for place in table.places:
            if has_it(place):
                raise table_fault(place.row, text)


def look_for_overlaps(table: Table) -> None:
    """Fault 12."""
    owners: dict[int, int] = {}  # of each bit of the superframe the row that has it
    for place in table.places:
        in_word = range(place.lsb - 1, place.lsb - 1 + place.width)
        bits = [12 * slot + bit for slot in place.slots(table.words) for bit in in_word]
        shared = [(owners[bit], bit) for bit in bits if bit in owners]
        if shared:
            first, bit = min(shared)
            where = f"word {bit // 12 % table.words + 1} bit {bit % 12 + 1}"
            raise table_fault(place.row, f"overlap with row {first} at {where}")
        owners.update(dict.fromkeys(bits, place.row))


def look_at_parts(table: Table) -> None:
    """Faults 13 to 15."""
    for param in table.params.values():
        parts = table.parts[param.name]
        widths = [{place.width for place in places} for places in parts.values()]
        is_whole = bool(parts) and sorted(parts) == list(range(1, len(parts) + 1))
        if not is_whole or any(len(of_part) > 1 for of_part in widths) or sum(sum(of_part) for of_part in widths) != param.width:
            raise table_fault(param.row, "parts")
    total = 0
    for param in table.params.values():
        for _, places in sorted(table.parts[param.name].items()):
            counted = sum(len(place.slots(table.words)) for place in places)
            total += counted
            if counted != param.rate:
                raise table_fault(param.row, f"rate {param.rate} declared, {counted} counted")
    if total > MAX_PARTS:
        raise table_fault(table.rows, "too many parts")


def table_of(text: bytes) -> Table:
    if len(text) > MAX_TABLE:
        raise table_fault(0, "too large")
    table = Table()
    rows = rows_of(text)
    for row, fields in enumerate(rows):
        add_row(table, row, fields)
    if not rows:
        raise table_fault(0, "no frame row")
    table.rows = len(rows)
    look_at_words(table)
    look_for_overlaps(table)
    look_at_parts(table)
    return table


# --- check


def is_even(table: Table, samples: list[Sample]) -> bool:
    begins = [sample.first.slot - samples[0].first.slot for sample in samples]
    return all(begin * len(begins) == place * 64 * table.words for place, begin in enumerate(begins))


def check(text: bytes) -> Answer:
    table = table_of(text)
    parts = sum(len(sample.pieces) for samples in table.samples.values() for sample in samples)
    lines = [f"frame,{table.words},{len(table.params)},{parts}"]
    for param, samples in table.samples.items():
        lines.append(f"param,{param.name.decode()},{param.rate},{'even' if is_even(table, samples) else 'uneven'}")
    return Answer(0, "".join(f"{it}\n" for it in lines).encode())


# --- The trace


class Record(NamedTuple):
    bus: int
    word: int
    time: int


def good_records(trace: bytes) -> tuple[list[Record], int, str]:
    """The good bus words, the time of the last good record, and the fault where no end record is among them."""
    words: list[Record] = []
    time = 0
    while len(words) < MAX_RECORDS:
        record = trace[16 * len(words) : 16 * len(words) + 16]
        kind, time_here = record[:1], int.from_bytes(record[8:], "big")
        if len(record) < 16:
            return words, time, "truncated"
        if kind not in (b"\1", b"\2"):
            return words, time, "kind"
        if time_here < time:
            return words, time, "time goes back"
        if time_here > MAX_TIME:
            return words, time, "time too late"
        time = time_here
        if kind == b"\2":
            return words, time, ""
        words.append(Record(record[1], int.from_bytes(record[4:8], "big"), time))
    return words, time, "too many"


def source_bits(param: Param) -> int:
    """Bits 1 to 10 of the words that the generated trace has for a parameter: its label, turned round, and its SDI."""
    return int(f"{param.label:08b}"[::-1], 2) | (param.sdi or 0) << 8


def is_of(record: Record, param: Param) -> bool:
    """Whether a parameter is read from a bus word."""
    asked = 0xFF if param.sdi is None else 0x3FF
    return record.bus == param.bus and record.word & asked == source_bits(param) and record.word.bit_count() % 2 == 1


# --- stream


def raw_value(param: Param, times: list[int], words: list[Record], slot: int, words_a_second: int) -> int:
    """What a sample at this slot takes. The words are those that its parameter is read from, with their times."""
    came = bisect.bisect_right(times, slot * SECOND // words_a_second)
    is_fresh = came > 0 and (param.age is None or slot * SECOND <= (times[came - 1] + param.age) * words_a_second)
    if param.sign == "V":
        return int(is_fresh)
    if not is_fresh:
        return 0 if param.age is None else (1 << param.width) - 1
    return words[came - 1].word >> param.lsb - 1 & (1 << param.width) - 1


def packed(words: list[int]) -> bytes:
    """Words of 12 bits as bytes, two in three."""
    made = bytearray()
    for first, second in zip(words[::2], words[1::2] + [0]):
        made += bytes([first % 256, first // 256 + 16 * (second % 16), second // 16])
    return bytes(made if len(words) % 2 == 0 else made[:-1])


def stream_of(table: Table, records: list[Record], end: int) -> bytes:
    """The bits of a recording whose last good record is at this time."""
    superframe = 64 * table.words
    line = [0] * -(-end * table.words // SECOND)
    for slot in range(0, len(line), table.words):
        line[slot] = SYNCS[slot // table.words % 4]
    for frame, slot in enumerate(range(table.counter_slot, len(line), 4 * table.words)):
        line[slot] = frame % 4096
    for param, samples in table.samples.items():
        words = [record for record in records if is_of(record, param)]
        times = [record.time for record in words]
        for begin in range(0, len(line), superframe):
            for sample in samples:
                raw = raw_value(param, times, words, begin + sample.first.slot, table.words)
                for piece in sample.pieces:
                    if begin + piece.slot < len(line):
                        line[begin + piece.slot] |= (raw // piece.weight & (1 << piece.width) - 1) << piece.lsb - 1
    return packed(line)


def recorded(table: Table, trace: bytes) -> tuple[bytes, int, str]:
    """The stream of a trace, and the status and the text of the answer."""
    records, end, fault = good_records(trace)
    text = f"trace record {len(records)}: {fault}" if fault else ""
    return stream_of(table, records, end), 3 if fault else 0, text


def stream(text: bytes, trace: bytes) -> Answer:
    bits, status, fault = recorded(table_of(text), trace)
    return Answer(status, bits, line(fault))


# --- listbits


def bits_of(data: bytes) -> str:
    return "".join(f"{byte:08b}"[::-1] for byte in data)


def bytes_of(bits: str) -> bytes:
    return bytes(int(bits[at : at + 8][::-1], 2) for at in range(0, len(bits), 8))


def number_at(bits: str, at: int, width: int) -> int:
    return int(bits[at : at + width][::-1], 2)


def accepted_frames(bits: str, words: int) -> Iterator[int]:
    syncs = [f"{sync:012b}"[::-1] for sync in SYNCS]
    at = 0
    while (at := bits.find(syncs[0], at)) >= 0 and at + 48 * words <= len(bits):
        is_frame = all(bits.startswith(sync, at + 12 * words * place) for place, sync in enumerate(syncs))
        if is_frame:
            yield at
        at += 48 * words if is_frame else 1


class Row(NamedTuple):
    """A listed value, in units of its last decimal."""

    counter: int
    subframe: int
    word: int
    param: Param
    value: int

    def line(self) -> str:
        return f"row,{self.counter},{self.subframe},{self.word},{self.param.name.decode()},{shown(self.value, self.param.decimals)}"


class Listing(NamedTuple):
    """The lines, where the accepted frames begin, and the rows, those of frames that go on from each other together."""

    lines: list[str]
    frames: list[int]
    stretches: list[list[Row]]

    @property
    def values(self) -> list[int]:
        return [row.value for rows in self.stretches for row in rows]

    def written(self) -> bytes:
        return "".join(f"{it}\n" for it in self.lines).encode()


def shown(value: int, decimals: int) -> str:
    digits = f"{abs(value):0{decimals + 1}}"
    whole, rest = digits[: len(digits) - decimals], digits[len(digits) - decimals :]
    return f"{'-' if value < 0 else ''}{whole}{'.' if decimals else ''}{rest}"


def value_of(param: Param, raw: int) -> int:
    if param.sign == "S" and raw >> param.width - 1:
        raw -= 1 << param.width
    return param.offset + raw * param.num // param.den


def row_of(table: Table, bits: str, param: Param, sample: Sample, begin: int, counter: int) -> Row:
    """The row of a sample whose superframe begins at this bit. Its first frame has this counter."""
    raw = sum(number_at(bits, begin + 12 * it.slot + it.lsb - 1, it.width) * it.weight for it in sample.pieces)
    subframe, word = sample.first.slot // table.words % 4 + 1, sample.first.slot % table.words + 1
    return Row(counter, subframe, word, param, value_of(param, raw))


def listing_of(table: Table, data: bytes) -> Listing:
    bits, frame = bits_of(data), 4 * table.words
    samples = [(sample.last, sample, param) for param, of_param in table.samples.items() for sample in of_param]
    by_cycle = [sorted(it for it in samples if it[0].slot // frame == cycle) for cycle in range(16)]
    listing = Listing([], [], [])
    end, wanted, joined = 0, -1, 0
    for at in accepted_frames(bits, table.words):
        counter = number_at(bits, at + 12 * table.counter_slot, 12)
        joined = joined + 1 if at == end and counter == wanted else 0  # the frames right before that it goes on from
        if not joined:
            listing.stretches.append([])
        if at > end:
            listing.lines.append(f"gap,{end},{at - end}")
        for last, sample, param in by_cycle[counter % 16]:
            back = last.slot // frame - sample.first.slot // frame
            if back <= joined:
                begin = at - last.slot // frame * 12 * frame
                row = row_of(table, bits, param, sample, begin, counter - back)
                listing.lines.append(row.line())
                listing.stretches[-1].append(row)
        listing.frames.append(at)
        end, wanted = at + 12 * frame, (counter + 1) % 4096
    if len(bits) > end:
        listing.lines.append(f"gap,{end},{len(bits) - end}")
    return listing


def too_long(data: bytes) -> tuple[int, bytes]:
    """The status and the text where only the first bytes of a long input are worked on."""
    return (11, line("input too long")) if len(data) > MAX_LINE else (0, b"")


def listbits(text: bytes, data: bytes) -> Answer:
    table = table_of(text)
    status, errors = too_long(data)
    return Answer(status, listing_of(table, data[:MAX_LINE]).written(), errors)


# --- encode and decode


def encode(data: bytes) -> Answer:
    level, levels = 0, []
    for bit in bits_of(data[:MAX_LINE]):
        begin = 1 - level
        level = 1 - begin if bit == "1" else begin
        levels.append(f"{begin}{level}")
    status, errors = too_long(data)
    return Answer(status, bytes_of("".join(levels)), errors)


def first_failure(levels: str, phase: int) -> int:
    """The first place at which a cell would begin and the level doesn't change, or how many levels there are."""
    places = range(phase, len(levels), 2)
    return next((place for place in places if place > 0 and levels[place] == levels[place - 1]), len(levels))


def decode(data: bytes) -> Answer:
    levels = bits_of(data[:MAX_LINE])
    ends = [first_failure(levels, phase) for phase in (0, 1)]
    end = max(ends)
    phase = ends.index(end)
    bits = "".join(str(int(levels[at] != levels[at + 1])) for at in range(phase, end - 1, 2))
    if end < len(levels):
        return Answer(14, bytes_of(bits), line(f"no transition at level {end}"))
    status, errors = too_long(data)
    return Answer(status, bytes_of(bits), errors)


# --- The image


class Ring(NamedTuple):
    slots: int
    payload: int
    words: int
    has_sessions: bool  # whether the image is of version 2

    def slot_of(self, number: int) -> int:
        """The first byte of the slot of a block."""
        return 64 + number % self.slots * (16 + self.payload)


def ring_of(image: bytes) -> Ring:
    slots, payload, words = (int.from_bytes(image[at : at + 4], "big") for at in (8, 12, 16))
    ring = Ring(slots, payload, words, image[1:2] == bytes([SECOND_VERSION]))
    is_in_range = 4 <= ring.slots <= 65_536 and 64 <= ring.payload <= 4_096 and ring.words in WORDS
    faults = [
        ("too small", len(image) < 64),
        ("header closed", image[:1] != bytes([OPEN])),
        ("not a recorder image", image[2:8] != LETTERS),
        ("geometry", not is_in_range),
        ("shorter than its ring", len(image) < 64 + ring.slots * (16 + ring.payload)),
    ]
    for text, is_there in faults:
        if is_there:
            raise Refused(4, f"image: {text}")
    return ring


def ring_for(table: Table, image: bytes) -> Ring:
    ring = ring_of(image)
    if ring.words != table.words:
        raise Refused(6, f"image has {ring.words} words, table has {table.words}")
    return ring


def ring_by(table: Table, image: bytes, slots: int, payload: int) -> Ring:
    """The ring of an image whose slots and payload are given: only its version is the image's own."""
    ring = Ring(slots, payload, table.words, image[1:2] == bytes([SECOND_VERSION]))
    if len(image) < 64:
        raise Refused(4, "image: too small")
    if len(image) < 64 + ring.slots * (16 + ring.payload):
        raise Refused(4, "image: shorter than its ring")
    return ring


def ring_to_record_in(table: Table, image: bytes) -> Ring:
    ring = ring_for(table, image)
    if not ring.has_sessions:
        raise Refused(13, "image is version 1")
    return ring


class Block(NamedTuple):
    number: int
    session: int
    data: bytes


def valid_blocks(image: bytes | bytearray, ring: Ring) -> dict[int, Block]:
    """The blocks in valid slots, by their sequence numbers."""
    found = {}
    for slot in range(ring.slots):
        at = ring.slot_of(slot)
        length, number = int.from_bytes(image[at + 2 : at + 4], "big"), int.from_bytes(image[at + 8 : at + 16], "big")
        if image[at] == OPEN and number < NUMBERS and number % ring.slots == slot and 1 <= length <= ring.payload:
            session = int.from_bytes(image[at + 4 : at + 8], "big") if ring.has_sessions else 0
            found[number] = Block(number, session, bytes(image[at + 16 : at + 16 + length]))
    return found


def recovered_run(image: bytes | bytearray, ring: Ring) -> list[Block]:
    found = valid_blocks(image, ring)
    first = end = max(found, default=-1) + 1
    while first - 1 in found:
        first -= 1
    return [found[number] for number in range(first, end)]


def bits_in(blocks: Iterable[Block]) -> bytes:
    return b"".join(block.data for block in blocks)


def listing_of_blocks(table: Table, ring: Ring, blocks: list[Block]) -> Listing:
    """The listing of all bits, or in version 2 of each session by itself, after its line."""
    if not ring.has_sessions:
        return listing_of(table, bits_in(blocks))
    whole = Listing([], [], [])
    for session, together in itertools.groupby(blocks, key=lambda block: block.session):
        of_session = list(together)
        listing = listing_of(table, bits_in(of_session))
        whole.lines.extend([f"session,{session},{of_session[0].number}", *listing.lines])
        whole.frames.extend(listing.frames)
        whole.stretches.extend(listing.stretches)
    return whole


def format_image(text: bytes, image: bytes, slots: int, payload: int) -> Answer:
    table = table_of(text)
    if image:
        return Answer(5, errors=line("image is not empty"), image=image)
    numbers = b"".join(value.to_bytes(4, "big") for value in (slots, payload, table.words))
    header = bytes([OPEN, SECOND_VERSION]) + LETTERS + numbers + bytes(44)
    return Answer(0, image=header + bytes(slots * (16 + payload)))


def recover(image: bytes) -> Answer:
    return Answer(0, bits_in(recovered_run(image, ring_of(image))), image=image)


def upgrade(image: bytes) -> Answer:
    ring_of(image)
    return Answer(0, image=image[:1] + bytes([SECOND_VERSION]) + image[2:])


def list_image(text: bytes, image: bytes) -> Answer:
    table = table_of(text)
    ring = ring_for(table, image)
    return Answer(0, listing_of_blocks(table, ring, recovered_run(image, ring)).written(), image=image)


def salvage(text: bytes, image: bytes, slots: int | None = None, payload: int | None = None) -> Answer:
    table = table_of(text)
    ring = ring_for(table, image) if slots is None or payload is None else ring_by(table, image, slots, payload)
    found = valid_blocks(image, ring)
    output = b""
    for _, together in itertools.groupby(enumerate(sorted(found)), key=lambda each: each[1] - each[0]):
        run = [found[number] for _, number in together]
        output += f"run,{run[0].number},{len(run)}\n".encode() + listing_of_blocks(table, ring, run).written()
    return Answer(0, output, image=image)


# --- exceed


class Rule(NamedTuple):
    name: bytes
    param: Param
    kind: bytes
    limit: int
    length: int


KINDS = (b"above", b"below", b"change")


def kind(field: bytes, before: list[Any]) -> bytes:
    if field not in KINDS:
        raise ValueError
    return field


RULE = (as_is, as_is, kind, signed(9 * 10**18), number(1, 1_024))
MAX_RULES, MAX_RULE_BYTES = 256, 65_536


def rule_fault(row: int, text: str) -> Refused:
    return Refused(17, f"rule row {row}: {text}")


def rules_of(table: Table, text: bytes) -> list[Rule]:
    if len(text) > MAX_RULE_BYTES:
        raise rule_fault(0, "too large")
    rules: dict[bytes, Rule] = {}
    for row, fields in enumerate(rows_of(text)):
        if len(fields) != len(RULE):
            raise rule_fault(row, "shape")
        values: list[Any] = []
        for read, field in zip(RULE, fields):
            try:
                values.append(read(field, values))
            except ValueError:
                raise rule_fault(row, f"number in field {len(values)}") from None
        name, param = values[:2]
        if not re.fullmatch(rb"[A-Za-z0-9_.-]{1,16}", name):
            raise rule_fault(row, "name")
        if param not in table.params:
            raise rule_fault(row, "unknown name")
        if name in rules:
            raise rule_fault(row, "name used twice")
        if len(rules) == MAX_RULES:
            raise rule_fault(row, "too large")
        rules[name] = Rule(name, table.params[param], *values[2:])
    return list(rules.values())


def compared(rule: Rule, values: list[int], place: int) -> int | None:
    """What a rule compares with its limit at this one of the values, or None where too few are before it."""
    window = values[max(0, place + 1 - rule.length) : place + 1]
    if rule.kind != b"change":
        return values[place]
    return max(window) - min(window) if len(window) == rule.length else None


def exceedances_of(rule: Rule, stretch: list[Row]) -> Iterator[tuple[int, str]]:
    """The lines of a rule in a stretch, each with the place of the row that ends its hits, or of the end."""
    places = [place for place, row in enumerate(stretch) if row.param == rule.param]
    values = [stretch[place].value for place in places]
    found = [compared(rule, values, at) for at in range(len(values))]
    is_hit = [it is not None and (it < rule.limit if rule.kind == b"below" else it > rule.limit) for it in found]
    for hit, together in itertools.groupby(range(len(values)), key=lambda at: is_hit[at]):
        hits = list(together)
        if hit and (rule.kind == b"change" or len(hits) >= rule.length):
            numbers = [it for it in found[hits[0] : hits[-1] + 1] if it is not None]
            peak = min(numbers) if rule.kind == b"below" else max(numbers)
            first = stretch[places[hits[0]]]
            where = f"{first.counter},{first.subframe},{first.word},{len(hits)},{shown(peak, rule.param.decimals)}"
            end = places[hits[-1] + 1] if hits[-1] + 1 < len(places) else len(stretch)
            yield end, f"exceed,{rule.name.decode()},{where}\n"


def exceed(text: bytes, image: bytes, given: bytes) -> Answer:
    table = table_of(text)
    ring = ring_for(table, image)
    rules = rules_of(table, given)
    output = ""
    for stretch in listing_of_blocks(table, ring, recovered_run(image, ring)).stretches:
        lines = [(end, place, it) for place, rule in enumerate(rules) for end, it in exceedances_of(rule, stretch)]
        output += "".join(it for _, _, it in sorted(lines))
    return Answer(0, output.encode(), image=image)


# --- record and drill


def close_gate(image: bytearray, ring: Ring, number: int) -> None:
    if image[ring.slot_of(number)] == OPEN:
        image[ring.slot_of(number)] = CLOSED


def add_blocks(before: bytes, ring: Ring, bits: bytes) -> tuple[bytes, bytes, int]:
    """The image with the blocks of a stream, the announcements, and how many of the bits are in it."""
    image = bytearray(before)
    run = recovered_run(image, ring)
    number = run[-1].number + 1 if run else 0
    session = (run[-1].session + 1) % SESSIONS if run else 1
    acks = f"ack {number}\n"
    close_gate(image, ring, number)
    at = 0
    while at < len(bits) and number < NUMBERS:
        block = bits[at : at + ring.payload]
        head = bytes([0]) + len(block).to_bytes(2, "big") + session.to_bytes(4, "big") + number.to_bytes(8, "big")
        here = ring.slot_of(number)
        image[here + 1 : here + 16 + len(block)] = head + block
        close_gate(image, ring, number + 1)
        image[here] = OPEN
        number, at = number + 1, at + len(block)
        acks += f"ack {number}\n"
    return bytes(image), acks.encode(), at


def record_bits(image: bytes, ring: Ring, bits: bytes, status: int, fault: str) -> Answer:
    after, acks, done = add_blocks(image, ring, bits)
    if done < len(bits):
        status, fault = 7, "sequence numbers are used up"
    return Answer(status, b"", acks + line(fault), after)


def record(text: bytes, image: bytes, trace: bytes) -> Answer:
    table = table_of(text)
    return record_bits(image, ring_to_record_in(table, image), *recorded(table, trace))


def generated_words(table: Table, seed: int, frames: int) -> Iterator[Record]:
    state = seed
    for second in range(4 * frames):
        for param in table.params.values():
            state = (state * 6_364_136_223_846_793_005 + 1_442_695_040_888_963_407) % 2**64
            word = state >> 32 & 0x7FFFFC00 | source_bits(param)
            yield Record(param.bus, word | (word.bit_count() + 1) % 2 << 31, second * SECOND)


def drill(text: bytes, image: bytes, seed: int, frames: int) -> Answer:
    table = table_of(text)
    ring = ring_to_record_in(table, image)
    bits = stream_of(table, list(generated_words(table, seed, frames)), 4 * SECOND * frames)
    answer = record_bits(image, ring, bits, 0, "")
    if answer.status:
        return answer
    listing = listing_of_blocks(table, ring, recovered_run(answer.image or b"", ring))
    blocks = -(-len(bits) // ring.payload)
    told = f"drill,{blocks},{len(listing.frames)},{len(listing.values)},{sum(listing.values) % 2**64}\n"
    return answer._replace(output=told.encode())


# --- The words


class Command(NamedTuple):
    run: Callable[..., Answer]
    paths: str = ""  # T for a table's, I for an image's
    reads_input: bool = False
    options: tuple[str, ...] = ()
    needs_options: bool = True


COMMANDS = {
    "check": Command(check, "T"),
    "stream": Command(stream, "T", True),
    "listbits": Command(listbits, "T", True),
    "encode": Command(encode, "", True),
    "decode": Command(decode, "", True),
    "format": Command(format_image, "TI", False, ("--slots", "--payload")),
    "record": Command(record, "TI", True),
    "recover": Command(recover, "I"),
    "upgrade": Command(upgrade, "I"),
    "list": Command(list_image, "TI"),
    "salvage": Command(salvage, "TI", False, ("--slots", "--payload"), False),
    "exceed": Command(exceed, "TI", True),
    "drill": Command(drill, "TI", False, ("--seed", "--frames")),
}
LIMITS = {"--slots": (4, 65_536), "--payload": (64, 4_096), "--seed": (0, 4_294_967_295), "--frames": (1, 100_000)}


class Words(NamedTuple):
    command: Command
    paths: list[str]
    values: list[int]


def option_value(name: str, value: str) -> int:
    least, most = LIMITS.get(name, (1, 0))
    if not re.fullmatch(r"[0-9]{1,10}", value) or not least <= int(value) <= most:
        raise Refused(1, "usage")
    return int(value)


def words_of(given: Sequence[bytes]) -> Words:
    plain: list[str] = []
    options: dict[str, int] = {}
    try:
        left = [word.decode() for word in given]
    except UnicodeDecodeError:
        raise Refused(1, "usage") from None
    while left:
        word = left.pop(0)
        if not word.startswith("-"):
            plain.append(word)
            continue
        name, has_value, value = word.partition("=")
        if name in options:
            raise Refused(1, "usage")
        options[name] = option_value(name, value if has_value else left.pop(0) if left else "")
    command = COMMANDS.get(plain[0]) if plain else None
    if not command or "" in plain or len(plain) != 1 + len(command.paths):
        raise Refused(1, "usage")
    if set(options) != set(command.options) and (options or command.needs_options):
        raise Refused(1, "usage")
    return Words(command, plain[1:], [options[name] for name in command.options if name in options])


def answer_to(given_words: Sequence[bytes], files: Mapping[str, bytes], given: bytes) -> Answer:
    """What a run with these words answers, by the files that there are and standard input."""
    image = None
    try:
        command, paths, values = words_of(given_words)
        image = files.get(paths[-1]) if "I" in command.paths else None
        if "T" in command.paths and paths[0] not in files:
            raise Refused(8, "table cannot be read")
        return command.run(*(files.get(path, b"") for path in paths), *[given] * command.reads_input, *values)
    except Refused as refused:
        return Answer(refused.status, errors=line(refused.text), image=image)


def main() -> int:
    given_words = [word.encode(errors="surrogateescape") for word in sys.argv[1:]]
    try:
        words = words_of(given_words)
    except Refused:
        words = Words(Command(check), [], [])
    files = {path: pathlib.Path(path).read_bytes() for path in words.paths if pathlib.Path(path).is_file()}
    given = sys.stdin.buffer.read() if words.command.reads_input else b""
    answer = answer_to(given_words, files, given)
    sys.stdout.buffer.write(answer.output)
    sys.stderr.buffer.write(answer.errors)
    if answer.image is not None and answer.image != files.get(words.paths[-1]):
        pathlib.Path(words.paths[-1]).write_bytes(answer.image)
    return answer.status


if __name__ == "__main__":
    sys.exit(main())
