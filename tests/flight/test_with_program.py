"""The way from a capture to a table through the built program: what comes out is what went in."""

import csv
import io
import os
import random

import pytest

import encoder
from conftest import Fdr, Tool, Write, example_captures

POSITION = """\
F,64,2,1
P,POS,1,310,,9,20,S,7,3,-5,2,1
L,POS,1,1,20,0,1,12,0,16
L,POS,2,1,20,0,1,8,9,16
P,ALT,0,203,2,11,12,U,1,1,0,0,64
L,ALT,1,1234,10,0,1,12,0,1
"""

# Words come three times a second, so some of them are too old where they are sampled.
AGED = """\
F,64,2,1
P,ALT,0,203,,11,11,U,1,1,0,0,64,200000
L,ALT,1,1234,10,0,1,11,0,1
P,ALT_OK,0,203,,11,1,V,1,1,0,0,64,200000
L,ALT_OK,1,1234,10,0,12,1,0,1
P,POS,1,310,,9,20,S,7,3,-5,2,16,150000
L,POS,1,1,20,0,1,12,0,1
L,POS,2,3,20,0,1,8,0,1
"""


@pytest.mark.parametrize("name, frames", [("ordinary", 120), ("position", 100), ("aged", 100)])
def test_generated_values_come_back(flight: Tool, fdr: Fdr, write: Write, name: str, frames: int) -> None:
    given = {"position": POSITION, "aged": AGED}
    table_path = write("t.csv", given[name]) if name in given else encoder.TOP / "examples" / "ordinary.csv"
    table = encoder.read_table(table_path)
    words = encoder.generated(table, frames, 11)
    recording = encoder.recording_of(table, words, frames * 4_000_000)
    capture = flight("words", write("given", encoder.trace_of(words, frames * 4_000_000))).out
    trace = flight("trace", write("capture.csv", capture)).out
    bits = fdr("stream", table_path, given=trace)
    assert bits == recording.bits()
    dump = flight("unpack", write("bits", bits), "--order", "big").out
    assert flight("pack", write("dump", dump), "--order", "big").out == bits
    listing = fdr("listbits", table_path, given=bits)
    assert listing.decode() == recording.listing()
    rows = list(csv.reader(io.StringIO(flight("table", write("l", listing), "--table", table_path).out.decode())))
    wanted = [["1", "", f"{seconds:.6f}", *map(str, place), name, value, ""] for seconds, *place, name, value in recording.rows()]
    assert rows[1:] == wanted


def test_the_plain_recorder_s_listing_of_the_example_is_the_program_s(fdr: Fdr, hour: str, flight: Tool, write: Write) -> None:
    bits = b""
    for capture in example_captures():
        trace = flight("trace", write("c.csv", capture)).out
        bits += fdr("stream", encoder.TOP / "examples" / "ordinary.csv", given=trace)
    assert fdr("listbits", encoder.TOP / "examples" / "ordinary.csv", given=bits).decode() == hour


def test_examples_with_a_power_cut(fdr: Fdr, flight: Tool, write: Write) -> None:
    listing = fdr("list", encoder.TOP / "examples" / "t1.csv", encoder.TOP / "examples" / "cut.img")
    rows = (
        flight("table", write("l", listing), "--table", encoder.TOP / "examples" / "t1.csv").out.decode().splitlines()
    )
    assert rows[1:] == [
        "1,1,0.000000,,,,(session),,session 1 from block 9",
        '1,1,,,,,(gap),,"from bit 0, 1536 bits: 2 s by its bits"',
        "2,2,0.000000,,,,(session),,session 2 from block 12",
        "2,2,0.140625,0,1,10,ALT,5,",
        '2,2,4.000000,,,,(gap),,"from bit 3072, 2560 bits: 3.333008 s by its bits"',
    ]


@pytest.mark.parametrize("shape", ["--table", "--words"])
@pytest.mark.parametrize("flips, cuts", [(30, 0), (0, 5)])
def test_times_are_right_in_damaged_bits(flight: Tool, fdr: Fdr, write: Write, shape: str, flips: int, cuts: int) -> None:
    path = write("t.csv", POSITION)
    table = encoder.read_table(path)
    recording = encoder.recording_of(table, encoder.generated(table, 300, 1), 1_200_000_000)
    known = {("1", "", f"{seconds:.6f}", *map(str, place), name, value, "") for seconds, *place, name, value in recording.rows()}
    bits, chance = bytearray(recording.bits()), random.Random(3)
    for _ in range(flips):  # of sync words
        bits[384 * chance.randrange(300) + chance.choice([0, 96, 192, 288])] ^= 1 << chance.randrange(8)
    for _ in range(cuts):
        at = chance.randrange(len(bits) - 15_000)
        del bits[at : at + chance.randrange(1, 10_000)]
    listing = fdr("listbits", path, given=bytes(bits))
    out = flight("table", write("l", listing), shape, path if shape == "--table" else 64).out.decode()
    rows = [tuple(row) for row in csv.reader(io.StringIO(out))][1:]
    assert len(rows) > 500
    assert [row for row in rows if row not in known and row[6] != "(gap)"] == []
    gaps = [row[8] for row in rows if row[6] == "(gap)"]
    assert len(gaps) > 3 and any("lost bits" in text for text in gaps) is bool(cuts)


SPARSE = "F,64,2,1\nP,A,0,203,,11,12,U,1,1,0,0,4\nL,A,1,1,10,0,1,12,1,4\nP,B,0,204,,11,12,U,1,1,0,0,1\nL,B,1,3,11,0,1,12,6,16\n"
IN_TWO_FRAMES = "F,64,2,1\nP,POS,1,310,,9,20,U,1,1,0,0,1\nL,POS,1,1,20,0,1,12,1,16\nL,POS,2,1,20,0,1,8,15,16\n"
IN_TURN = (
    "F,64,2,1\nP,A,0,203,,11,12,U,1,1,0,0,8\nL,A,1,1,10,0,1,12,0,2\n"
    "P,B,0,204,,11,12,U,1,1,0,0,8\nL,B,1,3,11,0,1,12,1,2\n"
)
DRAWN = int(os.environ.get("FLIGHT_DRAWN", "40"))  # damaged recordings of each table


def damaged(bits: bytes, frame: int, chance: random.Random) -> bytes:
    """Bits with some of what a download or a memory does to them: flips, also of syncs and counters, cuts, whole frames that are
    gone or there twice, and bytes from elsewhere."""
    broken = bytearray(bits)
    for _ in range(chance.randrange(12)):
        at, kind = chance.randrange(len(broken)), chance.randrange(6)
        first, count = at // frame * frame, chance.randrange(1, 4) * frame
        if kind == 0:
            broken[at] ^= 1 << chance.randrange(8)
        elif kind == 1:
            broken[first + chance.randrange(2)] ^= 1 << chance.randrange(8)
        elif kind == 2:
            del broken[at : at + chance.randrange(1, 3 * frame)]
        elif kind == 3:
            del broken[first : first + count]
        elif kind == 4:
            broken[first:first] = broken[first : first + count]
        else:
            broken[at:at] = chance.randbytes(chance.randrange(1, 40))
        broken = broken or bytearray(bits)
    return bytes(broken)


@pytest.mark.parametrize("text", [POSITION, SPARSE, IN_TWO_FRAMES, IN_TURN])
def test_no_damaged_listing_of_the_table_is_refused(flight: Tool, fdr: Fdr, write: Write, text: str) -> None:
    """The gaps of a damaged recording fit its frames, whatever the damage is, by its table and by its words."""
    path = write("t.csv", text)
    table = encoder.read_table(path)
    bits = encoder.recording_of(table, encoder.generated(table, 120, 3), 480_000_000).bits()
    chance = random.Random(text)
    for _ in range(DRAWN):
        listing = write("l", fdr("listbits", path, given=damaged(bits, 384, chance)))
        for shape in (("--table", path), ("--words", 64)):
            answer = flight("table", listing, *shape)
            assert (answer.status, answer.error) == (0, "")
