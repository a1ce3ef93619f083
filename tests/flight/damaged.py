#!/usr/bin/python3
"""Recordings that are damaged on purpose, whose samples are known: what a listing says of them, and what `flight parts` adds.

    tests/flight/damaged.py  # prints the table of docs/PARTS.md

The recordings are made by encoder.py and listed by tests/reader.py, which share no code with the tools.
"""

import csv
import io
import pathlib
import random
import subprocess
import sys
import tempfile
from dataclasses import dataclass
from typing import Callable, Iterator, NamedTuple

HERE = pathlib.Path(__file__).resolve().parent
TOP = HERE.parent.parent
sys.dont_write_bytecode = True
sys.path[:0] = [str(HERE), str(TOP / "tests")]

import encoder  # noqa: E402
import reader  # noqa: E402

FLIGHT = TOP / "tools" / "flight"
ORDINARY = TOP / "examples" / "ordinary.csv"
SMALL = """\
F,64,2,1
P,ALT,0,203,,11,18,S,1,1,0,0,64
L,ALT,1,1234,10,0,1,12,0,1
L,ALT,2,1234,11,0,1,6,0,1
P,IAS,0,206,,11,12,U,1,2,0,1,256
L,IAS,1,1234,16,16,1,12,0,1
P,GEAR,1,270,,11,1,U,1,1,0,0,64
L,GEAR,1,1234,11,0,12,1,0,1
P,SPAN,1,310,,11,16,U,1,1,0,0,32
L,SPAN,1,13,30,0,1,12,0,1
L,SPAN,2,24,30,0,1,4,0,1
P,FLT,2,260,,11,12,U,1,1,0,0,1
L,FLT,1,4,40,0,1,12,5,16
P,WT,2,261,,11,16,U,1,1,0,0,8
L,WT,1,3,41,0,1,12,0,2
L,WT,2,2,41,0,1,4,1,2
"""
DIGITS = "01234567"


class Row(NamedTuple):
    """A sample: when it began, its parameter and its value."""

    time: str
    name: str
    value: str


@dataclass
class Run:
    """A damaged recording: what was done to it, its table, its bits, and what was sampled."""

    name: str
    table: pathlib.Path
    bits: bytes
    sampled: list[tuple[float, int, int, int, str, str]]

    def truth(self) -> set[Row]:
        """What was sampled."""
        return {Row(f"{time:.6f}", name, value) for time, *_, name, value in self.sampled}

    def lines(self) -> set[str]:
        """The same as rows of a listing."""
        return {f"row,{counter},{sub},{word},{name},{value}" for _, counter, sub, word, name, value in self.sampled}


def flight_of(begin: float, end: float) -> encoder.Recording:
    """A part of the example's flight, by the ordinary table."""
    program = [sys.executable, str(TOP / "examples" / "make_flight.py"), "--from", str(begin), "--to", str(end)]
    rows = subprocess.run(program, capture_output=True, text=True, check=True).stdout
    return encoder.recording_of(encoder.read_table(ORDINARY), *encoder.words_of_capture(rows))


def small_of(path: pathlib.Path, frames: int, seed: int) -> encoder.Recording:
    """A recording of drawn words by the table of 64 words."""
    path.write_text(SMALL)
    table = encoder.read_table(path)
    return encoder.recording_of(table, encoder.generated(table, frames, seed), frames * 4_000_000)


def all_rows(recording: encoder.Recording) -> list[tuple[float, int, int, int, str, str]]:
    """All samples whose last part is recorded, those of a last frame that isn't whole too."""
    words = recording.table.words
    rows = []
    for one in sorted(recording.samples):
        second, word = divmod(one.slot, words)
        rows.append((one.slot / words, second // 4 % 4096, second % 4 + 1, word + 1, one.name, one.value))
    return rows


def with_bits_set(bits: bytes, places: list[int], turn: bool) -> bytes:
    """Bits with some of them set, or turned."""
    made = bytearray(bits)
    for place in places:
        made[place // 8] = made[place // 8] ^ 1 << place % 8 if turn else made[place // 8] | 1 << place % 8
    return bytes(made)


def runs_in(folder: pathlib.Path) -> Iterator[Run]:
    """The damaged recordings, with their tables in this folder."""
    cut = flight_of(3000, 3403.9)
    yield Run("cut at 403.9 s", ORDINARY, cut.bits(), all_rows(cut))
    ordinary = flight_of(2600, 3400)
    frame = 48 * 256
    third = [at * frame + 24 * 256 + 3 for at in range(200)]  # a bit of the third sync word that is 0
    yield Run("a bit stuck in each third sync", ORDINARY, with_bits_set(ordinary.bits(), third, False), ordinary.rows())
    chance = random.Random(76)
    count = 8 * len(ordinary.bits())
    wrong = [place for place in range(count) if chance.random() < 1e-3]
    yield Run("one bit of 1,000 wrong", ORDINARY, with_bits_set(ordinary.bits(), wrong, True), ordinary.rows())
    small = small_of(folder / "small.csv", 400, 7)
    yield Run("40 bytes put in in subframe 4, W 64", folder / "small.csv", _put_in(small.bits(), 64, 40, chance, 400), small.rows())
    yield Run("40 bytes lost in subframe 4, W 64", folder / "small.csv", _lost(small.bits(), 64, 40, chance, 400), small.rows())
    for in_frame, name in ((0, "anywhere"), (3, "in subframe 4")):
        put_in = _put_in(ordinary.bits(), 256, 20, chance, 200, in_frame)
        yield Run(f"20 bytes put in {name}, W 256", ORDINARY, put_in, ordinary.rows())
        lost = _lost(ordinary.bits(), 256, 20, chance, 200, in_frame)
        yield Run(f"20 bytes lost {name}, W 256", ORDINARY, lost, ordinary.rows())
    counter = 77 * frame + (4 * 256 - 1) * 12 + 6
    yield Run("one bit of one counter wrong", ORDINARY, with_bits_set(ordinary.bits(), [counter], True), ordinary.rows())
    zeroed = bytearray(ordinary.bits())
    for at in range(48):
        begin = (2 + 4 * at) * frame // 8 + chance.randrange(frame // 8)
        zeroed[begin : begin + 200] = bytes(200)
    yield Run("200 bytes zeroed at 48 places", ORDINARY, bytes(zeroed), ordinary.rows())


def _places(words: int, count: int, chance: random.Random, frames: int, subframes: int) -> list[int]:
    """Bytes behind so many subframes of a frame, one of a frame each, the last ones first."""
    frame = 6 * words
    before = frame * subframes // 4 + 2
    chosen = sorted(chance.sample(range(1, frames - 2), count), reverse=True)
    return [at * frame + before + chance.randrange(frame - before - 2) for at in chosen]


def _put_in(bits: bytes, words: int, count: int, chance: random.Random, frames: int, subframes: int = 3) -> bytes:
    """A byte put into so many frames, behind so many of their subframes."""
    made = bytearray(bits)
    for place in _places(words, count, chance, frames, subframes):
        made.insert(place, chance.randrange(256))
    return bytes(made)


def _lost(bits: bytes, words: int, count: int, chance: random.Random, frames: int, subframes: int = 3) -> bytes:
    """A byte lost out of so many frames."""
    made = bytearray(bits)
    for place in _places(words, count, chance, frames, subframes):
        del made[place]
    return bytes(made)


@dataclass
class Figures:
    """How many rows of a run are true, false, and missing in the listing; and in the table with parts: those of frames and of
    parts that are true and false, marked as doubtful or not; false ones that are not marked; what is missing; recordings."""

    sampled: int
    true: int
    false: int
    missing: int
    frames_true: int
    frames_marked_true: int
    frames_marked_false: int
    frames_false: int
    parts_true: int
    parts_false: int
    missing_then: int
    recordings: int
    wrong_times: int

    def cells(self, name: str) -> str:
        """A row of the page's table."""
        numbers = (
            self.sampled, self.true, self.false, self.missing, self.frames_true, self.frames_false,
            self.frames_marked_true, self.frames_marked_false, self.parts_true, self.parts_false, self.missing_then,
        )  # fmt: skip
        return f"| {name} | " + " | ".join(f"{number:,}" for number in numbers) + " |"


HEADER = """\
| run | sampled | listed true | false | missing | table true | false | marked true | marked false | parts true | false | missing |
|---|---:|---:|---:|---:|---:|---:|---:|---:|---:|---:|---:|"""


def figures_of(run: Run, folder: pathlib.Path, tool: Callable[..., bytes]) -> Figures:
    """What a listing of a run says, and a table with its parts."""
    listing = reader.listbits(run.table.read_bytes(), run.bits).output
    rows = [line for line in listing.decode().splitlines() if line.startswith("row,")]
    lines = run.lines()
    bits, listed, parts = folder / "run.bits", folder / "run.listing", folder / "run.parts"
    bits.write_bytes(run.bits)
    listed.write_bytes(listing)
    parts.write_bytes(tool("parts", bits, listed, "--table", run.table))
    table = list(csv.DictReader(io.StringIO(tool("table", listed, "--table", run.table, "--parts", parts).decode())))
    samples = [one for one in table if not one["note"]]
    truth = run.truth()
    is_true = {id(one): Row(one["time"], one["name"], one["value"]) in truth for one in samples}

    def count(mark: str, right: bool) -> int:
        return sum(one["mark"].startswith(mark) and bool(one["mark"]) is bool(mark) and is_true[id(one)] is right for one in samples)

    found = {Row(one["time"], one["name"], one["value"]) for one in samples} & truth
    times = {(one.time, one.name) for one in truth}
    wrong_times = sum((one["time"], one["name"]) not in times for one in samples if one["mark"] != "(doubtful)")
    return Figures(
        len(truth), sum(row in lines for row in rows), sum(row not in lines for row in rows), len(lines - set(rows)),
        count("", True), count("(doubtful)", True), count("(doubtful)", False), count("", False),
        count("part", True), count("part", False), len(truth - found), len({one["recording"] for one in samples}), wrong_times,
    )  # fmt: skip


def by_program(*words: object) -> bytes:
    """Runs the tools as a program."""
    return subprocess.run(["/usr/bin/python3", FLIGHT, *map(str, words)], capture_output=True, check=True).stdout


def main() -> None:
    """Prints the table."""
    print(HEADER)
    with tempfile.TemporaryDirectory() as name:
        for run in runs_in(pathlib.Path(name)):
            figures = figures_of(run, pathlib.Path(name), by_program)
            print(figures.cells(run.name))
            if (figures.recordings, figures.wrong_times) != (1, 0):
                print(f"{figures.recordings} recordings, {figures.wrong_times} wrong times")


if __name__ == "__main__":
    main()
