"""A recorder in plain Python, written from docs/FORMATS.md for the tests: what is sampled of a trace, the bits, the listing.

It shares no code with the tools, and none with the program.
"""

import bisect
import csv
import pathlib
import random
import struct
from dataclasses import dataclass, field
from typing import Iterator, NamedTuple

SYNCS = (0x247, 0x5B8, 0xA47, 0xDB8)
FRAMES = 16  # of a superframe
MILLION = 1_000_000
TOP = pathlib.Path(__file__).resolve().parent.parent.parent


class Part(NamedTuple):
    """Where a part of a parameter occurs in a superframe: its slots in order, its lowest bit there and its width."""

    slots: list[int]
    lsb: int
    width: int


@dataclass
class Parameter:
    """A row of a table."""

    name: str
    bus: int
    label: int
    sdi: int | None
    lsb: int
    width: int
    sign: str
    age: int | None  # in microseconds
    num: int
    den: int
    offset: int
    decimals: int
    parts: dict[int, Part] = field(default_factory=dict)

    def value(self, raw: int) -> str:
        """What a raw number is printed as."""
        if self.sign == "S" and raw >> (self.width - 1):
            raw -= 1 << self.width
        units = self.offset + raw * self.num // self.den
        digits = str(abs(units)).rjust(self.decimals + 1, "0")
        whole, rest = digits[: len(digits) - self.decimals], digits[len(digits) - self.decimals :]
        return ("-" if units < 0 else "") + whole + ("." + rest if self.decimals else "")


    def raw(self, word: "Word | None", slot: int, words: int) -> int:
        """The raw number of a sample that begins in this slot, by the word that is held for it then."""
        is_fresh = word is not None and (self.age is None or slot * MILLION <= (word.time + self.age) * words)
        if self.sign == "V":
            return int(is_fresh)
        ones = (1 << self.width) - 1
        if self.age is not None and not is_fresh:
            return ones
        return word.word >> (self.lsb - 1) & ones if word else 0


@dataclass
class Table:
    """A table: the words of a subframe, the slot of the counter in its frame, the parameters."""

    words: int
    counter: int
    parameters: list[Parameter]


def read_table(path: pathlib.Path) -> Table:
    """Reads a sound table."""
    rows = list(csv.reader(path.read_text().splitlines()))
    words = int(rows[0][1])
    table = Table(words, (int(rows[0][3]) - 1) * words + int(rows[0][2]) - 1, [])
    for row in rows[1:]:
        if row[0] == "P":
            sdi = int(row[4]) if row[4] else None
            age = int(row[13]) if len(row) > 13 and row[13] else None
            scale = (int(row[8]), int(row[9]), int(row[10]), int(row[11]))
            table.parameters.append(
                Parameter(row[1], int(row[2]), int(row[3], 8), sdi, int(row[5]), int(row[6]), row[7], age, *scale)
            )
        else:
            parameter = next(one for one in table.parameters if one.name == row[1])
            part = parameter.parts.setdefault(int(row[2]), Part([], int(row[6]), int(row[7])))
            part.slots.extend(_slots(words, row))
            part.slots.sort()
    return table


def _slots(words: int, row: list[str]) -> Iterator[int]:
    word, step, cycle, period = int(row[4]), int(row[5]), int(row[8]), int(row[9])
    for frame in range(cycle, FRAMES, period):
        for subframe in row[3]:
            for place in range(word, words + 1, step) if step else [word]:
                yield (frame * 4 + int(subframe) - 1) * words + place - 1


class Word(NamedTuple):
    """A bus word of a trace."""

    time: int
    bus: int
    word: int


def word_of(label: int, sdi: int, bits: int) -> int:
    """The bus word with these bits from bit 11 on, and odd parity."""
    word = int(f"{label:08b}"[::-1], 2) | sdi << 8 | bits << 10 & 0x7FFFFFFF
    return word | (word.bit_count() + 1) % 2 << 31


def trace_of(words: list[Word], end: int) -> bytes:
    """The bytes of a trace."""
    records = [struct.pack(">BBHIQ", 1, one.bus, 0, one.word, one.time) for one in words]
    return b"".join(records) + struct.pack(">BBHIQ", 2, 0, 0, 0, end)


def generated(table: Table, frames: int, seed: int) -> list[Word]:
    """Words of every parameter, a few a second, with any bits."""
    chance = random.Random(seed)
    words = []
    for parameter in table.parameters:
        for number in range(frames * 4 * 3):
            bits = chance.randrange(1 << 21)
            time = min(number * MILLION // 3 + chance.randrange(300_000), frames * 4 * MILLION)
            words.append(Word(time, parameter.bus, word_of(parameter.label, parameter.sdi or 0, bits)))
    return sorted(words)


class Sample(NamedTuple):
    """A sample: where its last part is, in slots of the recording, where its earliest one is, its parameter and its value."""

    last: int
    slot: int
    name: str
    value: str


@dataclass
class Recording:
    """What is recorded of a trace."""

    table: Table
    slots: list[int]
    samples: list[Sample]

    def bits(self) -> bytes:
        """The bits of the recording."""
        pairs = self.slots + [0] * (len(self.slots) % 2)
        packed = b"".join((a | b << 12).to_bytes(3, "little") for a, b in zip(pairs[0::2], pairs[1::2]))
        return packed[: (12 * len(self.slots) + 7) // 8]

    def rows(self) -> list[tuple[float, int, int, int, str, str]]:
        """The samples of whole frames as they are listed: seconds, counter, subframe, word, name, value."""
        words = self.table.words
        whole = len(self.slots) // (4 * words) * 4 * words
        rows = []
        for sample in sorted(self.samples):
            if sample.last < whole:
                second, word = divmod(sample.slot, words)
                row = (sample.slot / words, second // 4 % 4096, second % 4 + 1, word + 1, sample.name, sample.value)
                rows.append(row)
        return rows

    def listing(self, at: int = 0) -> str:
        """The listing of the recording's bits, which begin at this bit of a line."""
        lines = [
            f"row,{counter},{subframe},{word},{name},{value}\n"
            for _, counter, subframe, word, name, value in self.rows()
        ]
        whole = len(self.slots) // (4 * self.table.words) * 48 * self.table.words
        left = 8 * len(self.bits()) - whole
        return "".join(lines) + (f"gap,{at + whole},{left}\n" if left else "")


def recording_of(table: Table, words: list[Word], end: int) -> Recording:
    """Samples a trace."""
    frame = 4 * table.words
    slots = [0] * -(-end * table.words // MILLION)
    for slot in range(0, len(slots), table.words):
        slots[slot] = SYNCS[slot // table.words % 4]
    for number, slot in enumerate(range(table.counter, len(slots), frame)):
        slots[slot] = number % 4096
    samples: list[Sample] = []
    order = {parameter.name: at for at, parameter in enumerate(table.parameters)}
    for parameter in table.parameters:
        held = [one for one in words if _is_of(one, parameter)]
        times = [one.time for one in held]
        for occurrence in _occurrences(parameter, len(slots), FRAMES * frame):
            first = min(occurrence)
            before = bisect.bisect_right(times, first * MILLION // table.words)
            raw = parameter.raw(held[before - 1] if before else None, first, table.words)
            _put(slots, parameter, occurrence, raw)
            if max(occurrence) < len(slots):
                samples.append(Sample(max(occurrence), first, parameter.name, parameter.value(raw)))
    samples.sort(key=lambda sample: (sample.last, order[sample.name]))
    return Recording(table, slots, samples)


def _is_of(word: Word, parameter: Parameter) -> bool:
    label = int(f"{word.word & 0xFF:08b}"[::-1], 2)
    sdi = word.word >> 8 & 3
    wanted = (parameter.bus, parameter.label, sdi if parameter.sdi is None else parameter.sdi)
    return (word.bus, label, sdi) == wanted and word.word.bit_count() % 2 == 1


def _occurrences(parameter: Parameter, length: int, superframe: int) -> Iterator[list[int]]:
    """The slots of the parts of each sample that begins in the recording, from part 1 on."""
    parts = [parameter.parts[number] for number in sorted(parameter.parts)]
    for begin in range(0, length, superframe):
        for places in zip(*(part.slots for part in parts)):
            if begin + min(places) < length:
                yield [begin + place for place in places]


def _put(slots: list[int], parameter: Parameter, occurrence: list[int], raw: int) -> None:
    """Puts the parts of a raw number into their slots."""
    for number, slot in zip(sorted(parameter.parts), occurrence):
        part = parameter.parts[number]
        if slot < len(slots):
            slots[slot] |= (raw & ((1 << part.width) - 1)) << (part.lsb - 1)
        raw >>= part.width


def words_of_capture(text: str) -> tuple[list[Word], int]:
    """The words of a capture with columns of fields, and its end."""
    words, end = [], 0
    for row in csv.DictReader(text.splitlines()):
        time = round(float(row["time"]) * MILLION)
        if row["label"] == "end":
            end = time
            continue
        bits = int(row["data"]) | int(row["ssm"]) << 19
        words.append(Word(time, int(row["bus"]), word_of(int(row["label"], 8), int(row["sdi"]), bits)))
    return words, end
