"""`flight look` on one flight in each form: the line that it prints gives all rows. And files that are no recordings."""

import pathlib
import random
import re
import shlex
import struct
from typing import Callable

import pytest

import drawn_dumps
import encoder
import reader
from conftest import ORDINARY, Tool, Write
from drawn_dumps import high_first, low_first, swapped, with_heads

FRAMES = 48
TURNED = drawn_dumps.TURNED_BYTES
OPPOSITE = bytes(255 - byte for byte in range(256))


class Flight:
    """A recording by the ordinary table, its bits and its rows."""

    def __init__(self, frames: int) -> None:
        table = encoder.read_table(ORDINARY)
        words = encoder.generated(table, frames, 3)
        recording = encoder.recording_of(table, words, frames * 4 * encoder.MILLION)
        self.slots = recording.slots
        self.bits = recording.bits()
        self.rows = recording.listing().splitlines()


@pytest.fixture(scope="module")
def recorded() -> Flight:
    """The flight of these tests."""
    return Flight(FRAMES)


def rows_of(bits: bytes) -> list[str]:
    """The rows of a listing of bits, by the second reader."""
    lines = reader.listbits(ORDINARY.read_bytes(), bits).output.decode().splitlines()
    return [line for line in lines if line.startswith("row,")]


def read_by_line(flight: Tool, monkeypatch: pytest.MonkeyPatch, path: pathlib.Path) -> tuple[str, bytes]:
    """What look says of a file, and the bits that come of the line that it prints."""
    looked = flight("look", path)
    assert (looked.status, looked.error) == (0, "")
    said = looked.out.decode()
    command, goal = said.splitlines()[-1].split(" > ")
    assert goal == f"{path}.bits"
    answer = flight(*shlex.split(command)[1:])
    assert (answer.status, answer.error) == (0, "")
    return said, answer.out


def digits(data: bytes) -> str:
    """The bits of bytes, the lowest of each byte first."""
    return f"{int.from_bytes(data, 'little'):0{8 * len(data)}b}"[::-1]


def high(slots: list[int]) -> bytes:
    """Words packed with their highest bit first."""
    return high_first("".join(f"{slot:012b}" for slot in slots))


FORMS: dict[str, tuple[Callable[[Flight], bytes], str]] = {
    "inverted": (lambda flight: flight.bits.translate(OPPOSITE), "--invert --packed low-first"),
    "bits of each byte reversed": (lambda flight: flight.bits.translate(TURNED), "--reverse --packed low-first"),
    "highest first": (lambda flight: high(flight.slots), "--packed high-first"),
    "bytes swapped": (lambda flight: swapped(flight.bits), "--swap --packed low-first"),
    "all bits in reverse order": (lambda flight: flight.bits[::-1].translate(TURNED), "--backwards --packed low-first"),
    "blocks of 512": (lambda flight: blocks(flight, 512, 8), "--block 512 --head 8 --packed low-first"),
    "blocks of 2048": (lambda flight: blocks(flight, 2048, 16), "--block 2048 --head 16 --packed low-first"),
    "blocks of 4096": (lambda flight: blocks(flight, 4096, 32), "--block 4096 --head 32 --packed low-first"),
    "blocks of 16384": (lambda flight: blocks(flight, 16384, 512), "--block 16384 --head 512 --packed low-first"),
    "units after 128": (lambda flight: units(flight, "<", 128), "--skip 128 --order little --align right"),
    "units after 77": (lambda flight: units(flight, ">", 77), "--skip 77 --order big --align right"),
    "as it is": (lambda flight: flight.bits, "--packed low-first"),
}


def blocks(flight: Flight, block: int, head: int) -> bytes:
    """The flight in blocks with heads."""
    return with_heads(random.Random(block), flight.bits, block, head)


def units(flight: Flight, order: str, head: int) -> bytes:
    """The flight with a word in each 16 bits, after a head."""
    front = random.Random(head).randbytes(head)
    return front + struct.pack(f"{order}{len(flight.slots)}H", *flight.slots)


@pytest.mark.parametrize("form", FORMS)
def test_every_form_is_named_and_read(flight: Tool, monkeypatch: pytest.MonkeyPatch, write: Write, recorded: Flight, form: str) -> None:
    make, options = FORMS[form]
    said, bits = read_by_line(flight, monkeypatch, write("dump", make(recorded)))
    assert said.splitlines()[-1].endswith(f"dump {options} > {said.split(' > ')[1].strip()}")
    assert "words     256 in a subframe" in said
    assert f"sure      {4 * FRAMES} of {4 * FRAMES} sync words" in said
    assert "table     F,256,256,4" in said
    assert rows_of(bits) == recorded.rows


def test_a_memory_that_wrapped(flight: Tool, monkeypatch: pytest.MonkeyPatch, write: Write, recorded: Flight) -> None:
    size, newest = 50_001, 9_137
    data = recorded.bits[-newest:] + recorded.bits[-size:-newest]
    said, bits = read_by_line(flight, monkeypatch, write("dump", data))
    assert "the oldest frame is put first" in said
    first = -(-(len(recorded.bits) - size) // 1536)
    wanted = rows_of(recorded.bits[first * 1536 :])
    assert rows_of(bits) == wanted
    assert wanted[-1] == recorded.rows[-1]
    assert len(rows_of(data)) < len(wanted)


def test_a_recording_that_was_cut_is_no_memory_that_wrapped(flight: Tool, write: Write, recorded: Flight) -> None:
    """The frame at its end has all its sync words, and lacks some words of its last subframe."""
    for end in (1152 + 2, 1152 + 100, 1500):
        data = recorded.bits[700 : 40 * 1536 + end]
        said = flight("look", write("dump", data)).out.decode()
        assert "wrapped" not in said and "--rotate" not in said
        assert "frames    39, which are 156 seconds, without a gap" in said


def test_refused_units_are_advised_by_a_look(flight: Tool, write: Write, recorded: Flight) -> None:
    for head, order in ((128, "little"), (77, "big")):
        path = write("dump", units(recorded, "<" if order == "little" else ">", head))
        wanted = f"flight pack {path} --skip {head} --order {order} --align right > {path}.bits\n"
        answer = flight("pack", path)
        assert (answer.status, answer.out) == (1, b"")
        assert re.search(r"bits outside its word|half a unit", answer.error)
        assert answer.error.endswith(f"; by its sync words it is read by: {wanted}")


def test_a_line_that_goes_on_to_the_listing(flight: Tool, write: Write, recorded: Flight) -> None:
    path = write("a dump", recorded.bits)
    said = flight("look", path, "--table", "t.csv").out.decode()
    assert said.splitlines()[-1] == f"flight pack '{path}' --packed low-first | fdr listbits t.csv > '{path}.listing'"


def test_where_frames_stop(flight: Tool, write: Write, recorded: Flight) -> None:
    data = recorded.bits[:15360] + bytes(100) + recorded.bits[15360:30000] + recorded.bits[30001:]
    said = flight("look", write("dump", data)).out.decode()
    at = 8 * 15360
    assert f"stop      at bit {at:,}, and on from bit {at + 800:,}" in said
    assert f"frames    {FRAMES - 1}, which are {4 * (FRAMES - 1)} seconds, in 3 stretches" in said
    assert f"sure      {4 * (FRAMES - 1)} of {4 * FRAMES + 1} sync words" in said


def test_a_narrow_counter_and_none(flight: Tool, write: Write, recorded: Flight) -> None:
    narrow, none = list(recorded.slots), list(recorded.slots)
    for frame in range(FRAMES):
        narrow[frame * 1024 + 4] = frame % 16 << 3
        narrow[frame * 1024 + 1023] = none[frame * 1024 + 1023] = 0
    packed = low_first("".join(map(drawn_dumps.word, narrow)))
    said = flight("look", write("dump", packed)).out.decode()
    assert "word 5 of subframe 1 counts up by one in bits 4 to 7\n" in said
    assert "flight recount BITS --words 256 --from 1,5,4,4 --into 4,256" in said
    said = flight("look", write("dump", low_first("".join(map(drawn_dumps.word, none))))).out.decode()
    assert "counter   none" in said
    assert "flight recount BITS --words 256 --frames --into 4,256" in said


def test_one_frame(flight: Tool, write: Write, recorded: Flight) -> None:
    said = flight("look", write("dump", bytes(1000) + recorded.bits[:1536])).out.decode()
    assert "frames    1, which are 4 seconds, without a gap" in said
    assert "too few frames" in said


@pytest.mark.parametrize("seed", range(10))
def test_nothing_found(flight: Tool, write: Write, seed: int) -> None:
    _, data = drawn_dumps.other_file(seed)
    answer = flight("look", write("file", data))
    assert (answer.status, answer.error) == (2, "")
    assert answer.out.startswith(b"nothing found")


@pytest.mark.parametrize("data", [b"", b"\x47", b"\x47\x02"])
def test_nothing_in_hardly_any_bytes(flight: Tool, write: Write, data: bytes) -> None:
    assert flight("look", write("file", data)).status == 2


@pytest.mark.parametrize("seed", range(8))
def test_drawn_dumps(write: Write, tmp_path: pathlib.Path, seed: int) -> None:
    with drawn_dumps.programs() as environment:
        drawn = drawn_dumps.drawn_dump(seed)
        assert drawn_dumps.wrong_with(drawn, tmp_path, environment)[0] == ""


def test_a_pipe_and_a_far_beginning(piped: Tool, recorded: Flight) -> None:
    data = bytes(5 << 20) + recorded.bits
    ran = piped("look", "-", given=data)
    assert ran.status == 0
    assert f"from bit {8 * (5 << 20):,}" in ran.out.decode()
