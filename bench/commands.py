#!/usr/bin/env python3
"""Measures the built programs on large inputs, beside `cat` of the same bytes.

    bench/commands.py FDR FDRPAIR [--size MB] [--repeat N] [--folder FOLDER] [--memory FOLDER] [--only WORD]

The inputs are made here, in a folder that is removed at the end, and without the programs: tables, frames by them,
noise, frames with a bit too many in each, traces, and a full image. The seed is fixed, so the inputs are the same in
every run. Each work is run once with its output in a file, for its size, and then N times with its output to
/dev/null; the run with the middle seconds of the processor counts. `cat` of the same file to /dev/null is what
reading the bytes costs. Recordings go into an image on a file system in memory, where a sync costs next to nothing, and
which is made anew before each run; one trace is recorded by FDRPAIR in two images there, too.

It prints the machine, and a table in Markdown: bytes in and out, seconds of the processor (of the program, and of the
system for it), bytes of the input a second of these, the most memory, and the seconds of `cat`. The last line says how
many times as long a recording in two images took as the same in one. docs/PERFORMANCE.md says how to read it.
"""

import argparse
import csv
import os
import pathlib
import platform
import random
import sys
import tempfile
from collections.abc import Iterable, Iterator, Sequence
from typing import NamedTuple

TOP = pathlib.Path(__file__).resolve().parent.parent
sys.dont_write_bytecode = True
sys.path.insert(0, str(TOP / "tests"))

from formats import SYNCS, Shape, bits_of, bus_word, bytes_of_bits, empty_image, end_at, head_of, header_of, levels_of
from formats import packed, put_word, record_at, size_of_slot, with_bit
from inputs import ORDINARY, T1, largest_table
from runs import PAYLOAD, SLOTS, SUPERFRAME, Figures, print_row, run

COUNTERS = 4096
DRILLED = 20_000  # frames of a drill
DISTINCT = 256  # frames with data of their own, before they come again with other counters
MOST_WORDS = 50  # that a parameter sends in a second
MB = 1_000_000
SECOND = 1_000_000  # microseconds

NOTHING = pathlib.Path(os.devnull)
Words = Sequence[str | pathlib.Path]
Images = Sequence[pathlib.Path]


class Parameter(NamedTuple):
    """What a table says of a parameter, as far as traces are made by it."""

    bus: int
    label: int
    sdi: int
    rate: int


class Place(NamedTuple):
    """A place of a parameter's part in the frames."""

    subframes: list[int]
    word: int
    step: int
    lsb: int
    width: int
    cycle: int
    period: int


class Work(NamedTuple):
    """The program, its words, the input, the file whose bytes count, and the images that are made anew."""

    name: str
    program: str
    words: Words
    given: pathlib.Path
    measured: pathlib.Path
    images: Images


# --- tables


def dense_table() -> bytes:
    """1,024 words a subframe and 200 parameters, from eight times a second down to once in 64 seconds."""
    rows = ["F,1024,1024,4"]
    free = (word for word in range(13, 1024) if word % 128 not in range(3, 13) and word % 512 not in range(20, 60))
    scales = ["U,1,1,0,0", "S,1,4,0,2", "U,3,7,-100,1", "S,1,1000,0,3"]

    def add(rate: int, width: int, *places: tuple[str | int, int, int, int, int, int]) -> None:
        number = len([row for row in rows if row.startswith("P")])
        sdi = "" if number % 2 else number // 2 % 4
        scale, rest = scales[number % 4].split(",", 1)
        rows.append(f"P,D{number},{number % 5},{number % 200 + 1:o},{sdi},11,{width},{scale},{rest},{rate}")
        for part, (subframes, word, step, bits, cycle, period) in enumerate(places, 1):
            rows.append(f"L,D{number},{part},{subframes},{word},{step},1,{bits},{cycle},{period}")

    for number in range(10):
        add(512, 12, ("1234", 3 + number, 128, 12, 0, 1))
    for number in range(40):
        add(128, 12, ("1234", 20 + number, 512, 12, 0, 1))
    for number in range(75):
        add(64, 10, ("1234", next(free), 0, 10, 0, 1))
    for number in range(25):
        add(64, 18, ("1234", next(free), 0, 12, 0, 1), ("1234", next(free), 0, 6, 0, 1))
    for number in range(30):
        add(16, 8, (1 + number % 4, next(free), 0, 8, 0, 1))
    for number in range(20):
        add(1, 12, (2, next(free), 0, 12, number % 16, 16))
    return "\n".join(rows + [""]).encode()


def full_table() -> bytes:
    """Four parts in each word from the third of a subframe on: 261,632 parts."""
    rows = ["F,1024,2,4"]
    for number in range(4):
        rows.append(f"P,E{number},{number},{number + 1},,11,3,U,1,1,0,0,65408")
        rows.append(f"L,E{number},1,1234,3,1,{1 + 3 * number},3,0,1")
    return "\n".join(rows + [""]).encode()


class Table:
    """What the rows of a table say, as far as frames and traces are made by it."""

    def __init__(self, text: bytes) -> None:
        self.parameters, self.places = [], []
        for row in csv.reader(text.decode().splitlines()):
            if row[0] == "F":
                self.words = int(row[1])
                self.counter = (int(row[3]) - 1) * self.words + int(row[2]) - 1
            elif row[0] == "P":
                self.parameters.append(Parameter(int(row[2]), int(row[3], 8), int(row[4] or 0), int(row[12])))
            else:
                self.places.append(Place([int(digit) for digit in row[3]], *map(int, row[4:])))

    def masks(self) -> list[list[int]]:
        """The bits of each word of a frame that a place has, for each frame of a superframe."""
        masks = [[0] * (4 * self.words) for _ in range(16)]
        for place in self.places:
            bits = (1 << place.width) - 1 << place.lsb - 1
            for cycle in range(place.cycle, 16, place.period):
                for subframe in place.subframes:
                    last = self.words if place.step else place.word
                    for word in range(place.word, last + 1, place.step or 1):
                        masks[cycle][(subframe - 1) * self.words + word - 1] |= bits
        return masks


# --- bits


def frames(table: Table, chance: random.Random) -> tuple[bytes, int]:
    """All frames from counter 0 to 4095, with drawn numbers where the table has places and zeros elsewhere."""
    masks, line = table.masks(), bytearray()
    for number in range(DISTINCT):
        drawn = chance.choices(range(4096), k=4 * table.words)
        words = [word & mask for word, mask in zip(drawn, masks[number % 16])]
        words[:: table.words] = SYNCS
        words[table.counter] = 0
        line += packed(words)
    line *= COUNTERS // DISTINCT
    for counter in range(COUNTERS):
        put_word(line, counter * 4 * table.words + table.counter, counter)
    return bytes(line), 6 * table.words


def with_a_bit_in_each(line: bytes, size: int, chance: random.Random) -> bytes:
    """The frames with a bit put into each, somewhere behind its first word. Eight of them are whole bytes again."""
    pieces = []
    for at in range(0, len(line), 8 * size):
        bits, length = 0, 0
        for begin in range(at, at + 8 * size, size):
            frame, place = int.from_bytes(line[begin : begin + size], "little"), chance.randrange(12, 8 * size)
            bits |= with_bit(frame, place, chance.getrandbits(1)) << length
            length += 8 * size + 1
        pieces.append(bits.to_bytes(length // 8, "little"))
    return b"".join(pieces)


def write_again_and_again(path: pathlib.Path, line: bytes, size: int) -> None:
    """Writes a file of so many bytes: the line as often as it fits, and a front part of it."""
    with open(path, "wb") as file:
        for _ in range(size // len(line)):
            file.write(line)
        file.write(line[: size % len(line)])


def levels_again_and_again(line: bytes) -> bytes:
    """The Harvard biphase levels of bytes, so often that they may follow themselves."""
    turned = bytes(255 - byte for byte in range(256))
    after_low = [bytes_of_bits(levels_of(bits_of([byte]))) for byte in range(256)]
    after = [after_low, [levels.translate(turned) for levels in after_low]]
    levels, level = bytearray(), 0
    for byte in line:
        levels += after[level][byte]
        level ^= byte.bit_count() % 2
    return levels + levels.translate(turned) if level else levels


def write_noise(path: pathlib.Path, size: int, chance: random.Random) -> None:
    with open(path, "wb") as file:
        for _ in range(size // MB):
            file.write(chance.randbytes(MB))


def write_full_image(path: pathlib.Path, line: bytes, slots: int = SLOTS) -> None:
    """An image of frames of 256 words as a recorder leaves it that filled it: only the first slot is closed."""
    shape = Shape(slots, PAYLOAD, words=256)
    with open(path, "wb") as file:
        file.write(header_of(shape) + bytes(size_of_slot(shape)))
        for number in range(1, slots):
            at = number * PAYLOAD % len(line)
            file.write(head_of(number, PAYLOAD) + line[at : at + PAYLOAD])


# --- traces


def write_trace(path: pathlib.Path, table: Table, seconds: int, chance: random.Random) -> None:
    """Each parameter sends as often as it is sampled, at most 50 times a second. The words repeat each 64 seconds."""
    records = []
    for parameter in table.parameters:
        count = min(parameter.rate, MOST_WORDS * SUPERFRAME)
        for number in range(count):
            word = bus_word(parameter.label, chance.getrandbits(21), parameter.sdi)
            records.append((number * SUPERFRAME * SECOND // count, parameter.bus, word))
    records.sort()
    with open(path, "wb") as file:
        for begin in range(0, seconds * SECOND, SUPERFRAME * SECOND):
            coming = [(begin + time, word, bus) for time, bus, word in records if begin + time < seconds * SECOND]
            file.write(b"".join(record_at(*one) for one in coming))
        file.write(end_at(seconds * SECOND))


# --- rules


def change_rules(count: int, window: int) -> bytes:
    """Rules for changes of the ordinary table's parameters within so many rows, which no value makes: they are only looked for."""
    names = [row.split(",")[1] for row in ORDINARY.decode().splitlines() if row.startswith("P")]
    return "".join(f"RULE{number},{names[number % len(names)]},change,{10**15},{window}\n" for number in range(count)).encode()


# --- the works


def make_works(room: pathlib.Path, memory: pathlib.Path, size: int, hours: float) -> list[Work]:
    """Makes the inputs in a folder, and answers the works: the program, its words, the input, the file whose bytes count,
    and the images that are made anew in a folder in memory."""
    chance = random.Random(717)
    texts = {"t1": T1, "ordinary": ORDINARY, "dense": dense_table(), "full": full_table(), "largest": largest_table()}
    for name, text in texts.items():
        (room / f"{name}.csv").write_bytes(text)
    table_of = {name: Table(text) for name, text in texts.items()}

    def at(name: str) -> pathlib.Path:
        return room / name

    works: list[Work] = []

    def add(name: str, words: Words, given: pathlib.Path = NOTHING, measured: pathlib.Path | None = None, images: Images = (), program: str = "fdr") -> None:
        works.append(Work(name, program, words, given, measured or given, images))

    for name in ("t1", "ordinary", "dense"):
        line, frame = frames(table_of[name], chance)
        write_again_and_again(at(f"{name}.bits"), line, size // frame * frame)
        add(f"listbits, frames by the {name} table", ["listbits", at(f"{name}.csv")], at(f"{name}.bits"))
        if name == "ordinary":
            write_again_and_again(at("altered.bits"), with_a_bit_in_each(line, frame, chance), size)
            write_full_image(at("full.img"), line)
            write_again_and_again(at("half.bits"), line, size // 2)
            write_again_and_again(at("levels"), levels_again_and_again(line), size)
    write_noise(at("noise"), size, chance)
    add("listbits, noise", ["listbits", at("ordinary.csv")], at("noise"))
    add("listbits, a bit put into each frame", ["listbits", at("ordinary.csv")], at("altered.bits"))
    add("listbits, the largest table, no input", ["listbits", at("largest.csv")], measured=at("largest.csv"))
    add("encode, frames by the ordinary table", ["encode"], at("half.bits"))
    add("decode, levels of these", ["decode"], at("levels"))
    add("list, a full image", ["list", at("ordinary.csv"), at("full.img")], measured=at("full.img"))
    add("recover, a full image", ["recover", at("full.img")], measured=at("full.img"))
    for count, window in ((1, 2), (256, 2), (256, 1024)):
        rules = at(f"rules.{count}.{window}")
        rules.write_bytes(change_rules(count, window))
        name = f"exceed, a full image, {count} rule{'s' * (count > 1)} of {window:,} rows"
        add(name, ["exceed", at("ordinary.csv"), at("full.img")], rules, at("full.img"))
    for name, seconds in (("ordinary", 25 * 3600), ("dense", 3600), ("full", 3600)):
        write_trace(at(f"{name}.trace"), table_of[name], int(seconds * hours), chance)
        what = {"full": "four parts in each slot"}.get(name, f"the {name} table")
        add(f"stream, {what}, {seconds // 3600 * hours:g} h", ["stream", at(f"{name}.csv")], at(f"{name}.trace"))
    image, second = memory / "recorded.img", memory / "second.img"
    for name, seconds in (("ordinary", 25 * 3600), ("dense", 3600)):
        words: Words = ["record", at(f"{name}.csv"), image]
        what = f"the {name} table, {seconds // 3600 * hours:g} h"
        add(f"record, {what}", words, at(f"{name}.trace"), images=[image])
        if name == "ordinary":
            add(f"record in two images, {what}", [*words, second], at(f"{name}.trace"), images=[image, second], program="fdrpair")
    words = ["drill", at("ordinary.csv"), image, "--seed", "7", "--frames", str(DRILLED)]
    add(f"drill, the ordinary table, {DRILLED:,} frames", words, measured=at("ordinary.csv"), images=[image])
    add("check, the largest table", ["check", at("largest.csv")], measured=at("largest.csv"))
    return works


# --- the runs


def make_anew(work: Work) -> None:
    """Makes the images of a work without blocks, by the table that its words name second."""
    for image in work.images:
        words = Table(pathlib.Path(work.words[1]).read_bytes()).words
        image.write_bytes(empty_image(SLOTS, PAYLOAD, words))


def runs_of(words: Words, work: Work, repeat: int) -> Iterator[Figures]:
    for _ in range(repeat):
        make_anew(work)
        yield run(words, given=work.given)


def middle_run(runs: Iterable[Figures]) -> Figures:
    """The run with the middle seconds of the processor, and the most memory of all."""
    runs = sorted(runs, key=lambda one: one.processor)
    repeat = len(runs)
    return runs[repeat // 2]._replace(peak=max(one.peak for one in runs))


def row_of(programs: dict[str, pathlib.Path], work: Work, repeat: int, room: pathlib.Path) -> tuple[list[str], float]:
    """The cells of a work's row, and its seconds."""
    words, shown = [programs[work.program], *work.words], room / "shown"
    make_anew(work)
    run(words, given=work.given, written=shown)
    written, read = shown.stat().st_size, work.measured.stat().st_size
    shown.unlink()
    figures = middle_run(runs_of(words, work, repeat))
    floor = middle_run([run(["cat", work.measured]) for _ in range(repeat)])
    speed = f"{read / figures.processor / MB:,.0f}" if figures.processor else "-"
    cells = [work.name, f"{read:,}", f"{written:,}", f"{figures.processor:.3f}", speed, f"{figures.peak:.1f}"]
    return cells + [f"{floor.processor:.3f}"], figures.processor


def machine() -> str:
    """The processors, the memory, the system and how busy it is."""
    info = pathlib.Path("/proc/cpuinfo").read_text().splitlines()
    kind = next((line.split(":")[1].strip() for line in info if line.startswith("model name")), platform.machine())
    memory = os.sysconf("SC_PHYS_PAGES") * os.sysconf("SC_PAGE_SIZE") / (1 << 30)
    busy = os.getloadavg()[0]
    system = f"{platform.system()} {platform.release()}"
    return f"{os.cpu_count()} processors, {kind}; {memory:.0f} GB; {system}; load {busy:.1f}"


def main() -> None:
    words = argparse.ArgumentParser(description=__doc__.splitlines()[0])
    words.add_argument("fdr", type=pathlib.Path)
    words.add_argument("fdrpair", type=pathlib.Path)
    words.add_argument("--size", type=int, default=200, help="millions of bytes in each input of listbits")
    words.add_argument("--hours", type=float, default=1, help="what the hours of the traces are multiplied by")
    words.add_argument("--repeat", type=int, default=5)
    words.add_argument("--folder", help="where the inputs are made")
    words.add_argument("--memory", default="/dev/shm", help="where the images are made that are recorded in")
    words.add_argument("--only", default="", help="the works with this in their names")
    given = words.parse_args()
    programs = {"fdr": given.fdr.resolve(), "fdrpair": given.fdrpair.resolve()}
    print(f"{machine()}\n")
    prefix = "fdr_bench_"
    with tempfile.TemporaryDirectory(prefix=prefix, dir=given.folder) as folder, tempfile.TemporaryDirectory(prefix=prefix, dir=given.memory) as shared:
        room, memory = pathlib.Path(folder), pathlib.Path(shared)
        works = [work for work in make_works(room, memory, given.size * MB, given.hours) if given.only in work.name]
        print_row(["work", "bytes in", "bytes out", "seconds", "MB a second", "peak MB", "`cat`, seconds"])
        print_row(["---"] + ["---:"] * 6)
        took = {}
        for work in works:
            cells, took[work.name] = row_of(programs, work, given.repeat, room)
            print_row(cells)
            sys.stdout.flush()
    for name, seconds in took.items():
        one = took.get(name.replace("record in two images", "record"))
        if name.startswith("record in two images") and one:
            print(f"\n{name}: {seconds / one:.2f} times as long as in one")


if __name__ == "__main__":
    main()
