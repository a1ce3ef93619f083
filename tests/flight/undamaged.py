#!/usr/bin/python3
"""Draws recordings that nothing has damaged, and looks for frames that `flight parts` takes for doubtful, or parts of theirs.

    tests/flight/undamaged.py FRAMES [SEED]

Recordings have any words, and end anywhere; several are in one line of bits, some with bits before them, and some are
memories that wrap at any bit. It ends with 1 where a whole frame of a recording was marked. FDR names the built program.
"""

import io
import os
import pathlib
import subprocess
import sys
import tempfile
import time
from dataclasses import dataclass

import numpy as np
import numpy.typing

HERE = pathlib.Path(__file__).resolve().parent
TOP = HERE.parent.parent
sys.dont_write_bytecode = True
sys.path[:0] = [str(HERE), str(TOP / "tools"), str(TOP / "tests")]

import reader  # noqa: E402
from flight_recorder import outline, parameters, parts, samples, streams  # noqa: E402

SYNCS = (0x247, 0x5B8, 0xA47, 0xDB8)
Words = numpy.typing.NDArray[np.uint16]
Bits = numpy.typing.NDArray[np.uint8]  # a bit in each
TABLE = """\
F,{words},{word},{subframe}
P,ALT,0,203,,11,12,U,1,1,0,0,16
L,ALT,1,1,10,0,1,12,0,1
P,FLT,2,260,,11,12,U,1,1,0,0,1
L,FLT,1,3,40,0,1,12,0,16
"""


def table_text(chance: np.random.Generator) -> tuple[str, int, int]:
    """A table, the words of its subframes, and the slot of its counter."""
    words, subframe = int(chance.choice([64, 128])), int(chance.integers(1, 5))
    word = int(chance.choice([2, 64]))
    return TABLE.format(words=words, word=word, subframe=subframe), words, (subframe - 1) * words + word - 1


def recorded(chance: np.random.Generator, frames: int, words: int, slot: int, first: int = 0) -> Words:
    """The words of a recording of so many frames."""
    drawn = chance.integers(0, 4096, (frames, 4 * words), dtype=np.uint16)
    drawn[:, ::words] = SYNCS
    drawn[:, slot] = (first + np.arange(frames)) % 4096
    return drawn.ravel()


def bits_of(words: Words) -> Bits:
    """Words as single bits."""
    return ((words[:, np.newaxis] >> np.arange(12, dtype=np.uint16)) & 1).astype(np.uint8).ravel()


def drawn_bits(chance: np.random.Generator, frames: int, words: int, slot: int) -> tuple[bytes, set[int]]:
    """About so many frames in one line of bits, and where those begin that are whole."""
    if chance.random() < 0.5:
        return memory_of(chance, bits_of(recorded(chance, frames + 3, words, slot, int(chance.integers(0, 4096)))), 48 * words)
    pieces = [chance.integers(0, 2, int(chance.integers(0, 4)) * 16, dtype=np.uint8)]
    begins: set[int] = set()
    at = len(pieces[0])
    while frames > 0:
        own = min(frames, int(chance.choice([1, 2, 3, 40, 500, 6000])))
        whole = recorded(chance, own + 1, words, slot)
        end = own * 4 * words + int(chance.choice([0, 1, 2, chance.integers(0, 4 * words)]))
        packed = np.packbits(bits_of(whole[:end]), bitorder="little")  # a recording ends with a byte
        pieces.append(np.unpackbits(packed, bitorder="little"))
        begins.update(range(at, at + own * 48 * words, 48 * words))
        at += len(pieces[-1])
        frames -= own
    return np.packbits(np.concatenate(pieces), bitorder="little").tobytes(), begins


def memory_of(chance: np.random.Generator, line: Bits, length: int) -> tuple[bytes, set[int]]:
    """A memory that wraps: the last bits of a recording, the newest of which are at any place, with the oldest behind them."""
    size = (len(line) - 2 * length) // 8 * 8
    end = int(chance.integers(size, len(line)))
    begin = end - size
    at = int(chance.integers(0, size))  # where the newest end
    begins = set()
    for frame in range(-(-begin // length) * length, end - length + 1, length):
        place = (frame - begin + at) % size
        if place + length <= size and not place < at < place + length:
            begins.add(place)
    return np.packbits(np.roll(line[begin:end], at), bitorder="little").tobytes(), begins


def listing_of(table: bytes, bits: bytes, program: str | None) -> bytes:
    """The listing, by the program or by the second reader."""
    if program is None:
        return reader.listbits(table, bits).output
    with tempfile.NamedTemporaryFile() as file:
        file.write(table)
        file.flush()
        return subprocess.run([program, "listbits", file.name], input=bits, capture_output=True, check=True).stdout


@dataclass
class Seen:
    """How many frames were listed, how many of them are whole frames of a recording, how many others are marked, and the lines of
    whole ones that are."""

    listed: int
    whole: int
    right: int
    false: list[str]


def look(frames: int, seed: int, program: str | None) -> Seen:
    """Draws one line of bits, and reads its parts."""
    chance = np.random.default_rng([76, seed])
    text, words, slot = table_text(chance)
    bits, begins = drawn_bits(chance, frames, words, slot)
    listing = listing_of(text.encode(), bits, program)
    with tempfile.NamedTemporaryFile(suffix=".csv") as file:
        file.write(text.encode())
        file.flush()
        table = parameters.read_table(file.name)
    section = outline.sections_of(streams.Input(io.BytesIO(listing), None), table)[0]
    line = np.frombuffer(bits, dtype=np.uint8)
    of_lines = outline.outline_of(section, line, table, samples.Samples(table))
    place_of = dict(zip(of_lines.line.tolist(), of_lines.frames.bit.tolist()))
    out = io.StringIO()
    parts.Reader(table, 2).write(section, line, out)
    marks = [line for line in out.getvalue().splitlines() if line.startswith("doubtful")]
    false = [line for line in marks if place_of[int(line.split(",")[4])] in begins]
    whole = sum(place in begins for place in of_lines.frames.bit.tolist())
    return Seen(len(of_lines.frames), whole, len(marks) - len(false), false)


def main(given: list[str]) -> int:
    """Draws until there were as many frames as are wanted."""
    wanted, seed = int(given[0]), int(given[1]) if len(given) > 1 else 1
    program = os.environ.get("FDR")
    begin, whole, lines, others, right, false = time.monotonic(), 0, 0, 0, 0, 0
    while whole < wanted:
        seen = look(min(20_000, wanted - whole), seed + lines, program)
        for line in seen.false:
            print(f"seed {seed + lines}: {line}")
        whole, others, lines = whole + seen.whole, others + seen.listed - seen.whole, lines + 1
        right, false = right + seen.right, false + len(seen.false)
    seconds = time.monotonic() - begin
    print(f"{whole} undamaged frames in {lines} lines of bits, in {seconds:.0f} s: {false} marked")
    print(f"{others} listed frames of two recordings, or of a memory's newest and oldest bits: {right} marked")
    return int(false > 0)


if __name__ == "__main__":
    sys.exit(main(sys.argv[1:]))
