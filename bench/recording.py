#!/usr/bin/env python3
"""Measures `record`, beside a plain loop that makes the same writes and syncs.

    bench/recording.py PROGRAM [--disk FOLDER] [--memory FOLDER] [--hours H H] [--repeat N]

A trace is recorded by examples/ordinary.csv in an image of 8,448 slots of 4,096 bytes: one of an hour in a file on a disk,
whose syncs take their time, and one of 25 hours in a file in memory, where a sync costs next to nothing. The trace comes
from a file, and the acknowledgements go to /dev/null. Each is made several times, and the middle one counts.

The plain loop is Python, in a process of its own. For each block it writes what stands after the gate, reads the gate of
the following slot and closes it where it is open, syncs, opens the gate, syncs, and writes the acknowledgement. It has
the blocks in memory, so it samples and packs nothing. Its seconds are those of the loop alone.

Before a figure counts, what `recover` writes of the image is compared with what `stream` writes. The calls of the system
are counted by strace, where it is there, in a run of their own.

It prints a table: seconds, of the processor too, writes and syncs for each block, and the most memory.
"""

import argparse
import csv
import os
import pathlib
import random
import re
import shutil
import subprocess
import sys
import tempfile
import time
from typing import NamedTuple

TOP = pathlib.Path(__file__).resolve().parent.parent
sys.dont_write_bytecode = True
sys.path.insert(0, str(TOP / "tests"))

from formats import CLOSED, HEADER, OPEN, RECORD, blocks_of, bus_word, end_at, head_of, record_at, shape_of, slot_at
from runs import PAYLOAD, SLOTS, SUPERFRAME, Figures, print_row, run

TABLE = TOP / "examples" / "ordinary.csv"
CALLS = ["pwrite64", "fdatasync", "fsync", "pread64", "fstat", "read"]
Words = list[str | pathlib.Path]


class Measured(NamedTuple):
    """What was recorded, and the figures and the calls of the program and of the plain loop, by their names."""

    blocks: int
    records: int
    figures: dict[str, Figures]
    calls: dict[str, dict[str, int]]


# --- the trace


def trace_of(hours: float) -> bytes:
    """A trace in which each parameter of the table sends as often as the table samples it."""
    chance = random.Random(1)
    seconds = int(hours * 3600)
    records = []
    with open(TABLE, newline="") as rows:
        for row in csv.reader(rows):
            if row[0] != "P":
                continue
            bus, label, sdi, every = int(row[2]), int(row[3], 8), int(row[4] or 0), SUPERFRAME / int(row[12])
            for k in range(int(seconds / every)):
                records.append((int(k * every * 1_000_000), bus, bus_word(label, chance.getrandbits(21), sdi)))
    records.sort()
    return b"".join(record_at(at, word, bus) for at, bus, word in records) + end_at(seconds * 1_000_000)


# --- the plain loop


def plain_loop(path: str, stream: bytes) -> tuple[float, float]:
    """Makes the writes and syncs of a recording, and answers what that took."""
    blocks = blocks_of(stream, PAYLOAD)
    image = os.open(path, os.O_RDWR)
    shape = shape_of(os.pread(image, HEADER.size, 0))
    told = os.open(os.devnull, os.O_WRONLY)
    began, used = time.monotonic(), time.process_time()
    for number, block in enumerate(blocks):
        gate, following = slot_at(shape, number), slot_at(shape, number + 1)
        os.pwrite(image, head_of(number, len(block))[1:] + block, gate + 1)
        if os.pread(image, 1, following) == bytes([OPEN]):
            os.pwrite(image, bytes([CLOSED]), following)
        os.fdatasync(image)
        os.pwrite(image, bytes([OPEN]), gate)
        os.fdatasync(image)
        os.write(told, b"ack %d\n" % (number + 1))
    return time.monotonic() - began, time.process_time() - used


# --- runs


def middle(figures: list[Figures]) -> Figures:
    """The run whose time is the middle one."""
    return sorted(figures)[len(figures) // 2]


def make_image(program: pathlib.Path, path: pathlib.Path) -> None:
    path.unlink(missing_ok=True)
    run([program, "format", TABLE, path, "--slots", SLOTS, "--payload", PAYLOAD])
    subprocess.run(["sync", path], check=True)


def compare(program: pathlib.Path, path: pathlib.Path, stream: pathlib.Path, room: pathlib.Path) -> None:
    """Wants what was recorded to be the stream, but for blocks that are no longer promised."""
    run([program, "recover", path], written=room / "recovered")
    found, wanted = (room / "recovered").read_bytes(), stream.read_bytes()
    if not wanted.endswith(found) or len(found) < min(len(wanted), (SLOTS - 2) * PAYLOAD):
        sys.exit(f"the image holds {len(found)} bytes of {len(wanted)}, or others")


def calls_of(words: Words, given: str | pathlib.Path, room: pathlib.Path) -> dict[str, int]:
    """How often a program made each call of the system, or nothing where strace isn't there."""
    if not shutil.which("strace"):
        return {}
    run(["strace", "-f", "-c", "-o", room / "calls", "-e", "trace=" + ",".join(CALLS), *words], given=given)
    found = re.findall(r"^ *[\d.]+ +[\d.]+ +\d+ +(\d+) +(?:\d+ +)?(\w+)$", (room / "calls").read_text(), re.M)
    return {name: int(count) for count, name in found}


def measured(program: pathlib.Path, hours: float, folder: pathlib.Path, repeat: int, room: pathlib.Path) -> Measured:
    """The figures of `record` and of the plain loop, and the calls of both."""
    trace, stream = room / "trace", room / "stream"
    trace.write_bytes(trace_of(hours))
    run([program, "stream", TABLE], given=trace, written=stream)
    image = folder / f"measured_{os.getpid()}.img"
    record: Words = [program, "record", TABLE, image]
    plain: Words = [sys.executable, __file__, "--plain", image, stream]
    figures, calls = {}, {}
    runs: list[tuple[str, Words, str | pathlib.Path]] = [("record", record, trace), ("plain loop", plain, os.devnull)]
    try:
        for name, words, given in runs:
            taken = []
            for _ in range(repeat):
                make_image(program, image)
                one = run(words, given=given, written=room / "said")
                said = (room / "said").read_text().split()
                taken.append(Figures(float(said[0]), float(said[1]), 0) if said else one)
                compare(program, image, stream, room)
            figures[name] = middle(taken)
            make_image(program, image)
            calls[name] = calls_of(words, given, room)
    finally:
        image.unlink(missing_ok=True)
    blocks = -(-stream.stat().st_size // PAYLOAD)
    return Measured(blocks, trace.stat().st_size // RECORD.size, figures, calls)


def main() -> None:
    words = argparse.ArgumentParser(description=__doc__.splitlines()[0])
    words.add_argument("program", type=pathlib.Path)
    words.add_argument("--disk", type=pathlib.Path, default=pathlib.Path("/var/tmp"))
    words.add_argument("--memory", type=pathlib.Path, default=pathlib.Path("/dev/shm"))
    words.add_argument("--hours", type=float, nargs=2, default=[1, 25], help="on the disk, and in memory")
    words.add_argument("--repeat", type=int, default=3)
    given = words.parse_args()
    program = given.program.resolve()
    figures = ["seconds", "of the processor", "writes a block", "syncs a block", "peak MB"]
    print_row(["file", "hours", "records", "blocks", "by", *figures])
    print_row(["---"] * 5 + ["---:"] * 5)
    for name, folder, hours in (("disk", given.disk, given.hours[0]), ("memory", given.memory, given.hours[1])):
        with tempfile.TemporaryDirectory(prefix="fdr_recording_") as room:
            found = measured(program, hours, folder, given.repeat, pathlib.Path(room))
        for who, it in found.figures.items():
            made, blocks = found.calls[who], found.blocks
            writes = f"{made['pwrite64'] / blocks:.2f}" if made else "-"
            syncs = f"{(made.get('fdatasync', 0) + made.get('fsync', 0)) / blocks:.2f}" if made else "-"
            row = [name, f"{hours:g}", f"{found.records:,}", f"{blocks:,}", who, f"{it.seconds:.3f}", f"{it.processor:.3f}"]
            print_row(row + [writes, syncs, f"{it.peak:.1f}" if it.peak else "-"])


if __name__ == "__main__":
    if sys.argv[1:2] == ["--plain"]:
        print(*plain_loop(sys.argv[2], pathlib.Path(sys.argv[3]).read_bytes()))
    else:
        main()
