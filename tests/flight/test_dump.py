"""`flight pack` and `flight unpack`: known bytes, round trips, and dumps that are refused."""

import random
import struct

import pytest
from conftest import Tool, Write

WORDS = [0x247, 0x123, 0xFFF, 0x000, 0xDB8]
PACKED = bytes.fromhex("473212FF0F00B80D")
DUMPS = {
    ("little", "right"): struct.pack("<5H", *WORDS),
    ("big", "right"): struct.pack(">5H", *WORDS),
    ("little", "left"): struct.pack("<5H", *(word << 4 for word in WORDS)),
    ("big", "left"): struct.pack(">5H", *(word << 4 for word in WORDS)),
}


@pytest.mark.parametrize("kind", DUMPS)
def test_known_bytes(flight: Tool, write: Write, kind: tuple[str, str]) -> None:
    how = ("--order", kind[0], "--align", kind[1])
    assert flight("pack", write("dump", DUMPS[kind]), *how) == (0, PACKED, "")
    assert flight("unpack", write("bits", PACKED), *how) == (0, DUMPS[kind], "")


def test_little_and_right_if_nothing_is_said(flight: Tool, write: Write) -> None:
    assert flight("pack", write("dump", DUMPS["little", "right"])).out == PACKED


def test_pack_of_unpack(flight: Tool, write: Write) -> None:
    chance = random.Random(2)
    for size in (0, 2, 3, 5, 3 << 18, (3 << 18) + 3, (3 << 19) + 5):
        bits = bytearray(chance.randbytes(size))
        if size % 3 == 2:
            bits[-1] &= 0x0F
        dump = flight("unpack", write("bits", bytes(bits)), "--order", "big", "--align", "left").out
        assert len(dump) == size * 8 // 12 * 2
        assert flight("pack", write("dump", dump), "--order", "big", "--align", "left").out == bits


NO_FRAMES = "flight look finds no frames in it in any form; --ignore-spare drops what isn't a word's"
OUTSIDE = "the unit 4702 has bits outside its word"


@pytest.mark.parametrize(
    "dump, how, fault",
    [
        (b"\x47\x02\x01", (), "dump byte 2: half a unit of 16 bits"),
        (b"\x47\x02\x02\x47", (), f"dump byte 2: {OUTSIDE}"),
        (b"\x47\x02", ("--align", "left"), "dump byte 0: the unit 0247 has bits outside its word"),
        (b"\1\2\3\x47\x02\x02\x47", ("--skip", 3), f"dump byte 5: {OUTSIDE}"),
        (b"\1\x47\2\x02\3\x02\4\x47", ("--block", 2, "--head", 1), f"byte 2 of the dump's words: {OUTSIDE}"),
    ],
)
def test_refused_dumps(flight: Tool, write: Write, dump: bytes, how: tuple[str, ...], fault: str) -> None:
    assert flight("pack", write("dump", dump), *how) == (1, b"", f"flight: {fault}; {NO_FRAMES}\n")


def test_spare_bits_that_are_ignored(flight: Tool, write: Write) -> None:
    assert flight("pack", write("dump", b"\x47\xf2\x23\x81"), "--ignore-spare").out == PACKED[:3]


@pytest.mark.parametrize(
    "bits, fault",
    [
        (PACKED[:3] + b"\0", "bits byte 3: it begins a word that isn't whole"),
        (PACKED[:3] + b"\x47\x12", "bits byte 4: its upper four bits begin a word that isn't whole"),
    ],
)
def test_refused_bits(flight: Tool, write: Write, bits: bytes, fault: str) -> None:
    assert flight("unpack", write("bits", bits)) == (1, b"", f"flight: {fault}\n")


def test_a_fault_in_a_later_piece_leaves_nothing(flight: Tool, write: Write) -> None:
    dump = bytes(2 << 20) + b"\xff\xff"
    answer = flight("pack", write("dump", dump))
    assert (answer.status, answer.out) == (1, b"")
    assert answer.error.startswith(f"flight: dump byte {2 << 20}: the unit FFFF")
