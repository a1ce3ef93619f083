#!/usr/bin/env python3
"""Makes damaged images with known numbers: what is done to each, and what a report of it has to find.

    tests/damaged_images.py FOLDER

All are by the small table, with frames of 6 blocks of 64 bytes. What is found is worked out from what is done, by the blocks
that are struck out and the frames that lie within those that are left; no reader of images is asked.
"""

from __future__ import annotations

import pathlib
import random
import struct
import sys
from collections.abc import Iterable
from dataclasses import dataclass, field

import formats
import inputs

SLOTS, PAYLOAD, FRAMES, IN_FRAME = 256, 64, 40, 6
BLOCKS = FRAMES * IN_FRAME
FULL = formats.HEAD.size + PAYLOAD


@dataclass(frozen=True)
class Damaged:
    """An image: its name, its bytes, its runs and holes as first and last block, the counters of its whole frames run by run,
    the sessions run by run, a block that was being written, the runs with a wrong number, and those that are
    too far from the greatest number; or else what the program says of it, and its status."""

    name: str
    image: bytes
    runs: list[tuple[int, int]] = field(default_factory=list)
    holes: list[tuple[int, int]] = field(default_factory=list)
    counters: list[list[int]] = field(default_factory=list)
    sessions: list[list[int | None]] = field(default_factory=list)
    pending: int | None = None
    misnumbered: list[int] = field(default_factory=list)
    far: list[int] = field(default_factory=list)
    refusal: tuple[int, str] | None = None
    hint: str = ""


def bits_of(frames: int) -> bytes:
    """A recording of so many frames."""
    return b"".join(inputs.t1_frame(counter, 100 + counter) for counter in range(frames))


def whole_image(frames: int = FRAMES, slots: int = SLOTS, version: int = formats.VERSION_2) -> bytes:
    """An image of a recording."""
    return formats.recorded(formats.empty_image(slots, PAYLOAD, version=version), bits_of(frames))


def altered(image: bytes, number: int, at: int, data: bytes) -> bytes:
    """An image with other bytes in the slot of a block, from one of its bytes on."""
    begin = formats.slot_at(formats.shape_of(image), number) + at
    return image[:begin] + data + image[begin + len(data) :]


def flipped(image: bytes, number: int, bit: int) -> bytes:
    """An image with one other bit in the head of a block's slot; the highest bit of byte 0 is bit 0."""
    begin = formats.slot_at(formats.shape_of(image), number) + bit // 8
    return image[:begin] + bytes([image[begin] ^ 0x80 >> bit % 8]) + image[begin + 1 :]


def left(
    name: str,
    image: bytes,
    struck: Iterable[int],
    lost: Iterable[int] = (),
    first: int = 0,
    sessions: list[list[int | None]] | None = None,
    pending: int | None = None,
) -> Damaged:
    """What is left of one recording of which these blocks are struck out, and these frames besides."""
    gone = set(struck)
    numbers = [number for number in range(first, BLOCKS) if number not in gone]
    begins = [number for number in numbers if number - 1 not in numbers]
    ends = [number for number in numbers if number + 1 not in numbers]
    runs = list(zip(begins, ends))
    holes = [(end + 1, begin - 1) for end, begin in zip([first - 1, *ends], begins) if begin > end + 1]
    whole = [frame for frame in range(FRAMES) if frame not in lost]
    counters = [[one for one in whole if a <= one * IN_FRAME and (one + 1) * IN_FRAME - 1 <= b] for a, b in runs]
    return Damaged(name, image, runs, holes, counters, sessions or [[1] for _ in runs], pending)


def closed(image: bytes, numbers: Iterable[int]) -> bytes:
    """An image with the gates of these blocks closed."""
    for number in numbers:
        image = altered(image, number, 0, b"\0")
    return image


def damaged_images() -> list[Damaged]:
    """All of them."""
    return [*holes(), *heads(), *bodies(), *others(), *refused()]


def holes() -> list[Damaged]:
    """Gates that are closed."""
    image = whole_image()
    many = list(range(5, BLOCKS - 1, 20))
    return [
        left("whole", image, []),
        left("one_hole", closed(image, [100]), [100]),
        left("two_holes", closed(image, [30, 31, 32, 150]), [30, 31, 32, 150]),
        left("many_holes", closed(image, many), many),
        left("first_block_gone", closed(image, [0]), [0]),
        left("newest_block_gone", closed(image, [BLOCKS - 1]), [BLOCKS - 1], pending=BLOCKS - 1),
    ]


def heads() -> list[Damaged]:
    """One wrong bit in the head of a slot."""
    image = whole_image()
    far = 77 + (1 << 40)
    others = left("", image, [77])
    return [
        left("bit_in_a_gate", flipped(image, 61, 3), [61]),
        left("bit_in_a_length", flipped(image, 61, 16 + 3), [61]),
        left("bit_in_a_number", flipped(image, 61, 127), [61]),
        left("bit_in_a_session", flipped(image, 61, 63), [], lost=[10], sessions=[[1, 0, 1]]),
        Damaged(
            "high_bit_in_a_number",
            flipped(image, 77, 127 - 40),
            [*others.runs, (far, far)],
            [*others.holes, (BLOCKS, far - 1)],
            [*others.counters, []],
            [*others.sessions, [1]],
            misnumbered=[2],
            far=[0, 1],
        ),
    ]


def bodies() -> list[Damaged]:
    """Bytes that aren't the recorder's."""
    image = whole_image()
    sector = altered(image, 50, 0, bytes(10 * FULL))
    foreign = altered(image, 200, 0, b"\xff" * (3 * FULL))
    return [
        left("foreign_bytes_in_a_frame", altered(image, 6 * 20, formats.HEAD.size, b"\x55" * PAYLOAD), [], lost=[20]),
        left("a_sector_of_zeros", sector, range(50, 60)),
        left("foreign_slots", foreign, range(200, 203)),
    ]


def others() -> list[Damaged]:
    """Rings that went round, several recordings, a block that was being written, version 1."""
    ring = whole_image(slots=128)
    first = BLOCKS - 127
    two = formats.recorded(whole_image(20), bits_of(20))
    counters = [[*range(20), *range(20)]]
    torn = altered(whole_image(), BLOCKS, 1, formats.head_of(BLOCKS, PAYLOAD, 2)[1:])
    old = whole_image(version=formats.VERSION_1)
    nobody: list[list[int | None]] = [[None], [None]]
    return [
        left("ring", ring, [], first=first),
        left("ring_with_a_hole", closed(ring, [180]), [180], first=first),
        Damaged("two_recordings", two, [(0, 239)], [], counters, [[1, 2]]),
        left("torn_block", torn, [], pending=BLOCKS),
        left("version_1", old, [], sessions=nobody[:1]),
        left("version_1_with_a_hole", closed(old, [100]), [100], sessions=nobody),
    ]


def refused() -> list[Damaged]:
    """What the program refuses."""
    image = whole_image()
    words = image[:16] + struct.pack(">I", 128) + image[20:]
    letters = image[:3] + b"X" + image[4:]
    no_image = (4, "fdr: image: not a recorder image")
    by_slots = f"--slots {SLOTS} --payload {PAYLOAD}"
    return [
        Damaged("another_number_of_words", words, refusal=(6, "fdr: image has 128 words, table has 64"), hint="table of the recording"),
        Damaged("cut", image[:-5000], refusal=(4, "fdr: image: shorter than its ring"), hint=f"truncate -s {len(image)} "),
        Damaged("letters_and_cut", letters[: 64 + 10 * FULL + 36], refusal=no_image, hint=f"--slots 10 --payload {PAYLOAD}"),
        Damaged("empty", b"", refusal=(4, "fdr: image: too small"), hint="Copy it again"),
        Damaged("headless", bytes(64) + image[64:], refusal=(4, "fdr: image: header closed"), hint=by_slots),
        Damaged("other_letters", letters, refusal=no_image, hint=by_slots),
    ]


def drawn_image(seed: int) -> bytes:
    """An image of up to three recordings, in some ring, with wrong bits and bytes anywhere behind its header."""
    chance = random.Random(seed)
    slots = chance.choice([4, 64, 128, 250, 256])
    image = formats.empty_image(slots, PAYLOAD, version=chance.choice([formats.VERSION_1, formats.VERSION_2, formats.VERSION_2]))
    for _ in range(chance.randrange(1, 4)):
        image = formats.recorded(image, bits_of(chance.randrange(1, FRAMES))[: chance.choice([None, -100, -333])])
    broken = bytearray(image)
    for _ in range(chance.randrange(12)):
        kind, at, slot = chance.randrange(4), chance.randrange(64, len(broken)), 64 + FULL * chance.randrange(slots)
        if kind == 0:
            broken[at] ^= 1 << chance.randrange(8)
        elif kind == 1:
            broken[slot + chance.randrange(formats.HEAD.size)] ^= 1 << chance.randrange(8)
        elif kind == 2:
            broken[slot] = formats.CLOSED
        else:
            count = min(chance.randrange(1, 300), len(broken) - at)
            broken[at : at + count] = chance.randbytes(count)
    return bytes(broken)


def main() -> None:
    if len(sys.argv) != 2:
        raise SystemExit(__doc__)
    folder = pathlib.Path(sys.argv[1])
    for one in damaged_images():
        (folder / f"{one.name}.img").write_bytes(one.image)
        print(one.name, one.refusal or one.runs)


if __name__ == "__main__":
    main()
