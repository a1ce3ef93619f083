#!/usr/bin/env python3
"""Draws dumps of recordings in every form that `flight look` names, and files that are none, and looks at them.

    tests/drawn_dumps.py [--first SEED] [--count N] [--none N] [--keep FOLDER]

For each drawn dump it runs `flight look`, and then the line that look prints, as it stands. The bits that come out must have
all frames of the recording, bit by bit, from its first whole frame to its last; and look must have named the words of a
subframe and the counter. For files that are no recordings look must answer that nothing was found.

It shares no code with the tools: a line of bits is a text of the digits 0 and 1 here, and each form is written as a step on
such a text. `fdr` is the program that FDR names, or else tests/reader.py.
"""

from __future__ import annotations

import argparse
import contextlib
import math
import os
import pathlib
import random
import re
import subprocess
import sys
import tempfile
import time
import zlib
from dataclasses import dataclass
from typing import Callable, Iterator, Literal, NamedTuple

TOP = pathlib.Path(__file__).resolve().parent.parent
SYNCS = ("247", "5B8", "A47", "DB8")
WIDTHS = (64, 128, 256, 512, 1024)
OPPOSITE = str.maketrans("01", "10")


class Counting(NamedTuple):
    """Where a recording counts its frames, and in how many bits."""

    subframe: int
    word: int
    lsb: int
    width: int


@dataclass
class Recording:
    """A drawn recording: its bits, of which the first ones may be of a frame that was cut, and where its frames begin."""

    words: int
    counting: Counting | None
    bits: str
    first: int  # the bit at which the first whole frame begins
    frames: int

    @property
    def whole_frames(self) -> str:
        """The bits of all whole frames."""
        return self.bits[self.first : self.first + self.frames * 48 * self.words]


@dataclass
class Drawn:
    """A drawn dump: what it is in words, its bytes, and the recording that is in it."""

    about: str
    data: bytes
    recording: Recording


def word(value: int) -> str:
    """A word of 12 bits, the lowest first."""
    return f"{value & 0xFFF:012b}"[::-1]


def low_first(bits: str) -> bytes:
    """Bits as bytes, the lowest bit of each byte first."""
    return int("0" + bits[::-1], 2).to_bytes(-(-len(bits) // 8), "little")


def high_first(bits: str) -> bytes:
    """Bits as bytes, the highest bit of each byte first."""
    return low_first(bits + "0" * (-len(bits) % 8)).translate(TURNED_BYTES)


TURNED_BYTES = bytes(int(f"{byte:08b}"[::-1], 2) for byte in range(256))


def recording_of(chance: random.Random, words: int, frames: int) -> Recording:
    """A recording of some parameters that move as those of a flight do; most words of a frame have nothing."""
    places = chance.sample(range(2, words + 1), min(words - 1, chance.randint(12, 40)))
    counter = places.pop()
    width = chance.choice([12, 12, 12, 8, 4, 0])
    counting = Counting(chance.randint(1, 4), counter, 1 if width == 12 else chance.randint(1, 13 - width), width)
    curves = {at: (chance.random() * 2000, chance.random() * 1500, chance.random() * 0.2) for at in places}
    begin = chance.choice([0, chance.randrange(4096)])
    line = []
    for frame in range(frames + 2):
        for subframe in range(4):
            held = [0] * words
            for at, (middle, swing, speed) in curves.items():
                second = 4 * frame + subframe
                held[at - 1] = int(middle + swing * math.sin(speed * second) + chance.random() * 4) & 0xFFF
            if width and subframe + 1 == counting.subframe:
                held[counter - 1] = ((begin + frame) % (1 << width)) << (counting.lsb - 1)
            held[0] = int(SYNCS[subframe], 16)
            line += [word(value) for value in held]
    return Recording(words, counting if width else None, "".join(line), 0, frames + 2)


def cut(chance: random.Random, recording: Recording, step: int) -> Recording:
    """The recording without bits of its first frame and its last, a multiple of a step."""
    frame = 48 * recording.words
    if chance.random() < 0.4:
        return recording
    front = chance.randrange(1, frame // step) * step
    end = len(recording.bits) - chance.randrange(0, frame // step) * step
    end -= (end - front) % 8
    bits = recording.bits[front:end]
    return Recording(recording.words, recording.counting, bits, frame - front, (end - frame) // frame)


def noisy(chance: random.Random, recording: Recording) -> Recording:
    """The recording with some wrong bits."""
    if chance.random() < 0.6:
        return recording
    bits = list(recording.bits)
    for _ in range(max(1, int(len(bits) * 10 ** chance.uniform(-5, -3.7)))):
        at = chance.randrange(len(bits))
        bits[at] = bits[at].translate(OPPOSITE)
    return Recording(recording.words, recording.counting, "".join(bits), recording.first, recording.frames)


def with_heads(chance: random.Random, data: bytes, block: int, head: int) -> bytes:
    """Bytes in blocks, each with a head: letters, its number, and what else may be there."""
    kept = block - head
    letters = chance.randbytes(4)
    made = []
    for number, at in enumerate(range(0, len(data), kept)):
        front = (letters + number.to_bytes(4, "big") + bytes([at // 256 % 256, 0, 0, 7]) + bytes(head))[:head]
        made.append(front + data[at : at + kept])
    return b"".join(made)


def swapped(data: bytes) -> bytes:
    """Bytes whose pairs are swapped."""
    turned = bytearray(data + bytes(len(data) % 2))
    turned[0::2], turned[1::2] = turned[1::2], turned[0::2]
    return bytes(turned)


def packed_dump(chance: random.Random, words: int, frames: int) -> Drawn:
    """Words without bits between them, in any order of bits and bytes."""
    recording = noisy(chance, cut(chance, recording_of(chance, words, frames), 1))
    is_high = chance.random() < 0.3
    bits = recording.bits
    if is_high:
        lead = recording.first % 12
        parts = [bits[at : at + 12][::-1] for at in range(lead, len(bits), 12)]
        bits = bits[:lead] + "".join(parts)
    said = ["packed", "high first" if is_high else "low first"]
    kinds = ["", "inverted", "reversed", "swapped", "backwards", "inverted and reversed", "swapped and inverted"]
    kind = chance.choice(kinds if not is_high else ["", "inverted", "swapped"])
    bits = bits.translate(OPPOSITE) if "inverted" in kind else bits
    bits = bits[::-1] if "backwards" in kind else bits
    data = high_first(bits) if is_high else low_first(bits)
    data = data.translate(TURNED_BYTES) if "reversed" in kind else data
    data = swapped(data) if "swapped" in kind else data
    return Drawn(", ".join([*said, kind]), data, recording)


def unit_dump(chance: random.Random, words: int, frames: int) -> Drawn:
    """A word in each 16 bits, after a head of any length."""
    recording = noisy(chance, cut(chance, recording_of(chance, words, frames), 12))
    order: Literal["little", "big"] = "little" if chance.random() < 0.5 else "big"
    align = chance.choice([0, 4])
    is_inverted = chance.random() < 0.2
    spare = chance.random() < 0.2
    units = []
    bits = recording.bits[: len(recording.bits) // 12 * 12]
    for at in range(0, len(bits), 12):
        value = int(bits[at : at + 12][::-1], 2) << align
        value |= chance.randrange(16) << (0 if align else 12) if spare else 0
        units.append((value ^ 0xFFFF * is_inverted).to_bytes(2, order))
    head = chance.choice([0, 0, 128, 77, chance.randrange(1, 400)])
    said = f"units, {order}, shift {align}, head {head}, inverted {is_inverted}, spare {spare}"
    return Drawn(said, chance.randbytes(head) + b"".join(units), recording)


def block_dump(chance: random.Random, words: int, frames: int) -> Drawn:
    """A dump of another kind in blocks with heads."""
    drawn = chance.choice([packed_dump, unit_dump])(chance, words, frames)
    while "head" in drawn.about and "head 0" not in drawn.about:
        drawn = unit_dump(chance, words, frames)
    block, head = chance.choice([(512, 8), (2048, 16), (4096, 32), (16384, 512), (1024, 64), (1000, 20), (3000, 12)])
    while len(drawn.data) < 3 * block:
        block, head = chance.choice([(512, 8), (2048, 16), (1000, 20)])
    return Drawn(f"{drawn.about}, blocks of {block}, heads of {head}", with_heads(chance, drawn.data, block, head), drawn.recording)


def ring_dump(chance: random.Random, words: int, frames: int) -> Drawn:
    """A memory that wrapped: its newest part comes first."""
    recording = recording_of(chance, words, frames + 6)
    frame = 48 * words
    size = len(recording.bits) // 8 - chance.randrange(frame // 8, 3 * frame // 8)
    end = len(recording.bits) - 8 * chance.randrange(0, frame // 8)
    begin = end - 8 * size
    at = end // 8 % size * 8
    bits = recording.bits[end - at : end] + recording.bits[begin : end - at]
    first = -(-begin // frame) * frame
    whole = Recording(words, recording.counting, recording.bits[begin:end], first - begin, (end - first) // frame)
    is_inverted = chance.random() < 0.3
    data = low_first(bits.translate(OPPOSITE) if is_inverted else bits)
    return Drawn(f"a memory of {size} bytes that wrapped at {at // 8}, inverted {is_inverted}", data, whole)


def level_dump(chance: random.Random, words: int, frames: int) -> Drawn:
    """The levels of a line, sampled a whole number of times a bit, from amid a bit on."""
    recording = cut(chance, recording_of(chance, words, frames), 1)
    samples = chance.choice([2, 3, 4, 5, 8, 10, 16])
    level, line = "0", []
    for bit in recording.bits:
        level = "1" if level == "0" else "0"
        half = (samples + chance.randrange(2)) // 2
        line.append(level * half)
        if bit == "1":
            level = "1" if level == "0" else "0"
        line.append(level * (samples - half))
    text = "".join(line)
    front = chance.choice([0, 0, 1, samples // 2])
    back = (len(text) - front) % 8
    whole = without_ends(recording, front > 0, back > 0)
    return Drawn(f"levels, {samples} samples a bit", low_first(text[front : len(text) - back]), whole)


def without_ends(recording: Recording, lacks_first: bool, lacks_last: bool) -> Recording:
    """The recording without the frames at its ends that lack a bit."""
    frame = 48 * recording.words
    first, end = recording.first, recording.first + recording.frames * frame
    first += frame if lacks_first and not first else 0
    end -= frame if lacks_last and end + 8 > len(recording.bits) else 0
    return Recording(recording.words, recording.counting, recording.bits, first, (end - first) // frame)


KINDS = (packed_dump, packed_dump, unit_dump, unit_dump, block_dump, block_dump, ring_dump, level_dump)


def drawn_dump(seed: int) -> Drawn:
    """The dump of a seed."""
    chance = random.Random(seed)
    words = chance.choice(WIDTHS)
    frames = chance.randint(12, 40) * (4 if words <= 128 else 2 if words == 256 else 1)
    return KINDS[seed % len(KINDS)](chance, words, frames)


def other_file(seed: int) -> tuple[str, bytes]:
    """A file that has no recording."""
    chance = random.Random(seed)
    size = chance.randrange(1000, 300_000)
    width = chance.randrange(40, 700)
    rows = range(size // width + 1)
    letters = "etaoinshrdlu ,.\n"
    kinds: dict[str, Callable[[], bytes]] = {
        "noise": lambda: chance.randbytes(size),
        "zeros": lambda: bytes(size),
        "ones": lambda: b"\xff" * size,
        "text": lambda: "".join(chance.choices(letters, k=size)).encode(),
        "numbers": lambda: "".join(f"{at},{math.sin(at / 50):.6f}\n" for at in range(size // 12)).encode(),
        "picture": lambda: bytes((x * x + y * y) // 64 % 256 for y in rows for x in range(width)),
        "checks": lambda: bytes(255 * ((x // 8 + y // 8) % 2) for y in rows for x in range(width)),
        "compressed": lambda: zlib.compress(" ".join(map(str, range(size))).encode())[:size],
        "counting": lambda: b"".join(at.to_bytes(2, "little") for at in range(min(size, 65_536))),
        "levels": lambda: low_first("".join(chance.choice(["10", "11", "00", "01"]) * 4 for _ in range(size // 4))),
    }
    name = list(kinds)[seed % len(kinds)]
    return name, kinds[name]()


@contextlib.contextmanager
def programs() -> Iterator[dict[str, str]]:
    """An environment whose path has `flight` and `fdr`."""
    with tempfile.TemporaryDirectory(prefix="drawn-dumps-") as folder:
        fdr = os.environ.get("FDR") or str(TOP / "tests" / "reader.py")
        for name, path in (("flight", str(TOP / "tools" / "flight")), ("fdr", str(pathlib.Path(fdr).resolve()))):
            (pathlib.Path(folder) / name).symlink_to(path)
        yield {**os.environ, "PATH": f"{folder}:{os.environ['PATH']}", "PYTHONDONTWRITEBYTECODE": "1"}


def wrong_with(drawn: Drawn, folder: pathlib.Path, environment: dict[str, str]) -> tuple[str, str]:
    """What is wrong with what look says of a dump, or nothing; and what it said."""
    (folder / "dump").write_bytes(drawn.data)
    ran = subprocess.run(["flight", "look", "dump"], cwd=folder, env=environment, capture_output=True, text=True)
    said = ran.stdout + ran.stderr
    if ran.returncode:
        return f"look ended with {ran.returncode}", said
    read = subprocess.run(ran.stdout.splitlines()[-1], shell=True, cwd=folder, env=environment, capture_output=True, text=True)
    if read.returncode:
        return f"the line ended with {read.returncode}: {read.stderr}", said
    data = (folder / "dump.bits").read_bytes()
    bits = f"{int.from_bytes(data, 'little'):0{8 * len(data)}b}"[::-1]
    if f"words     {drawn.recording.words} in a subframe" not in said:
        return "other words in a subframe", said
    if drawn.recording.whole_frames not in bits:
        return "other bits", said
    return wrong_counter(drawn.recording, said), said


def wrong_counter(recording: Recording, said: str) -> str:
    """What is wrong with the counter that is named. There may be too few frames to see one, or one wrong bit where a counter
    carried once: then the bits below may be named alone."""
    counting = recording.counting
    if "too few frames" in said:
        return ""
    places = re.findall(r"word (\d+) of subframe (\d+) counts up by one in bits (\d+) to (\d+)", said)
    if counting is None:
        return f"a counter that isn't there: {places}" if places else ""
    wanted = (str(counting.word), str(counting.subframe), str(counting.lsb))
    carried = min(counting.width, recording.frames.bit_length() - 2)
    if not any(place[:3] == wanted and int(place[3]) >= counting.lsb + carried - 1 for place in places):
        return f"the counter is {counting}, named are {places}"
    return ""


def main(words: list[str]) -> int:
    """Draws, looks, and prints what is wrong."""
    parser = argparse.ArgumentParser(description="Draws dumps and looks at them.")
    parser.add_argument("--first", type=int, default=0, help="the first seed")
    parser.add_argument("--count", type=int, default=200, help="dumps")
    parser.add_argument("--none", type=int, default=50, help="files that are none")
    parser.add_argument("--keep", type=pathlib.Path, help="a folder for those with which something is wrong")
    given = parser.parse_args(words)
    began, bad = time.monotonic(), 0
    with programs() as environment, tempfile.TemporaryDirectory(prefix="drawn-dumps-") as name:
        folder = pathlib.Path(name)
        for seed in range(given.first, given.first + given.count):
            drawn = drawn_dump(seed)
            wrong, said = wrong_with(drawn, folder, environment)
            if wrong:
                bad += 1
                print(f"seed {seed}: {drawn.recording.words} words, {drawn.about}: {wrong}\n{said}", flush=True)
                if given.keep:
                    (given.keep / f"dump-{seed}").write_bytes(drawn.data)
        for seed in range(given.first, given.first + given.none):
            kind, data = other_file(seed)
            (folder / "other").write_bytes(data)
            ran = subprocess.run(["flight", "look", "other"], cwd=folder, env=environment, capture_output=True, text=True)
            if ran.returncode != 2 or not ran.stdout.startswith("nothing found"):
                bad += 1
                print(f"file {seed}: {kind}: status {ran.returncode}\n{ran.stdout}{ran.stderr}", flush=True)
    seconds = time.monotonic() - began
    print(f"{given.count} dumps and {given.none} other files, {bad} wrong, {seconds:.0f} s")
    return 1 if bad else 0


if __name__ == "__main__":
    sys.exit(main(sys.argv[1:]))
