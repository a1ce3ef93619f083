"""`flight recount`: superframe parameters of recorders with a narrow counter, or with none."""

import random

import pytest

import drawn_dumps
import encoder
import reader
from conftest import ORDINARY, Tool, Write
from drawn_dumps import low_first, word

FRAMES = 40
SLOTS = 1024  # of a frame of the ordinary table
NARROW, COUNTER = 4, 1023  # word 5 of subframe 1, word 256 of subframe 4


@pytest.fixture(scope="module")
def recording() -> encoder.Recording:
    """Forty frames by the ordinary table, which has a parameter once in a superframe."""
    table = encoder.read_table(ORDINARY)
    return encoder.recording_of(table, encoder.generated(table, FRAMES, 8), FRAMES * 4 * encoder.MILLION)


def as_recorded(recording: encoder.Recording, first: int, width: int) -> list[int]:
    """The words with a counter of some bits, and without the one that the table wants."""
    slots = list(recording.slots)
    for frame in range(FRAMES):
        slots[frame * SLOTS + NARROW] = 0x800 | (first + frame) % (1 << width) << 2
        slots[frame * SLOTS + COUNTER] = 0
    return slots


def bits_of(slots: list[int]) -> bytes:
    """Words as packed bits."""
    return low_first("".join(map(word, slots)))


def rows(bits: bytes) -> list[str]:
    """The lines of a listing."""
    return reader.listbits(ORDINARY.read_bytes(), bits).output.decode().splitlines()


SAID = "flight: 40 frames have a counter in word 256 of subframe 4, which wasn't recorded; 0 of them had something else there\n"


def test_without_it_superframe_values_are_those_of_other_frames(recording: encoder.Recording) -> None:
    listed = [line for line in rows(bits_of(as_recorded(recording, 0, 4))) if ",FLT," in line]
    assert len(listed) == FRAMES
    assert len([line for line in recording.listing().splitlines() if ",FLT," in line]) == 3


def test_a_narrow_counter(flight: Tool, write: Write, recording: encoder.Recording) -> None:
    bits = bits_of(as_recorded(recording, 0, 4))
    answer = flight("recount", write("bits", bits), "--words", 256, "--from", "1,5,3,4", "--into", "4,256")
    assert (answer.status, answer.error) == (0, SAID)
    assert rows(answer.out) == recording.listing().splitlines()
    assert answer.out == bits_of(with_counter(recording, as_recorded(recording, 0, 4)))


def with_counter(recording: encoder.Recording, slots: list[int]) -> list[int]:
    """Words with the counter of the recording."""
    made = list(slots)
    made[COUNTER::SLOTS] = recording.slots[COUNTER::SLOTS]
    return made


def test_numbers_of_frames(flight: Tool, write: Write, recording: encoder.Recording) -> None:
    bits = bits_of(as_recorded(recording, 0, 1))
    answer = flight("recount", write("bits", bits), "--words", 256, "--frames", "--into", "4,256")
    assert (answer.status, answer.error) == (0, SAID)
    assert rows(answer.out) == recording.listing().splitlines()


@pytest.mark.parametrize("first, width", [(13, 4), (200, 8), (5, 3), (1, 1), (4090, 12)])
def test_any_width_and_beginning(flight: Tool, write: Write, recording: encoder.Recording, first: int, width: int) -> None:
    bits = bits_of(as_recorded(recording, first, width))
    if width == 12:
        bits = bits_of([slot if at % SLOTS != NARROW else (first + at // SLOTS) % 4096 for at, slot in enumerate(recording.slots)])
    place = f"1,5,{1 if width == 12 else 3},{width}"
    out = flight("recount", write("bits", bits), "--words", 256, "--from", place, "--into", "2,77").out
    digits = f"{int.from_bytes(out, 'little'):0{8 * len(out)}b}"[::-1]
    counted = [int(digits[12 * at : 12 * at + 12][::-1], 2) for at in range(256 + 76, FRAMES * SLOTS, SLOTS)]
    assert counted == [(first % (1 << width) + frame) % 4096 for frame in range(FRAMES)]


def test_over_gaps_the_counter_goes_on_by_the_bits(flight: Tool, write: Write, recording: encoder.Recording) -> None:
    """Frames that are lost, as damage and as bits that aren't there, at any bit."""
    slots = as_recorded(recording, 9, 4)
    lost = random.Random(4).randbytes(300)
    digits = "".join(map(word, slots))
    frame = 12 * SLOTS
    bits = "1" * 5 + digits[: 10 * frame] + "0" * 7 + digits[13 * frame : 20 * frame]
    bits += drawn_dumps.word(0) * 200 + digits[20 * frame + 4000 :]
    sync = 13 * frame + 12
    bits = bits[:sync] + "0" * 12 + bits[sync + 12 :]
    out = flight("recount", write("bits", low_first(bits) + lost), "--words", 256, "--from", "1,5,3,4", "--into", "4,256")
    assert out.status == 0
    counters = [int(line.split(",")[1]) for line in rows(out.out) if ",IAS," in line and line.split(",")[2] == "1"]
    whole = [*range(10), *range(13, 16), *range(17, 20), *range(21, 40)]
    assert counters == [9 + number for number in whole]
    assert ": 35 frames have a counter" in out.error


def test_pieces_of_a_long_line(flight: Tool, write: Write) -> None:
    """Frames of 64 words, more than are held at once, after some bits."""
    chance = random.Random(1)
    frame = [drawn_dumps.word(int(drawn_dumps.SYNCS[at // 64], 16) if at % 64 == 0 else chance.randrange(4096)) for at in range(256)]
    frame[255] = word(0)
    count = 4096 * 2 + 100
    bits = "101" + "".join(frame) * count + "1" * 500
    out = flight("recount", write("bits", low_first(bits)), "--words", 64, "--frames", "--into", "4,64").out
    digits = f"{int.from_bytes(out, 'little'):0{8 * len(out)}b}"[::-1]
    counted = [int(digits[at : at + 12][::-1], 2) for at in range(3 + 255 * 12, 3 + count * 3072, 3072)]
    assert counted == [number % 4096 for number in range(count)]
    kept = [digits[at : at + 255 * 12] for at in range(3, 3 + count * 3072, 3072)]
    assert set(kept) == {"".join(frame[:255])}
    assert (digits[:3], digits[3 + count * 3072 :].rstrip("0")) == ("101", "1" * 500)


@pytest.mark.parametrize(
    "how, fault",
    [
        (("--frames", "--into", "5,256"), "--into: subframe 5 isn't 1 to 4"),
        (("--frames", "--into", "4,257"), "--into: word 257 isn't 2 to 256; word 1 is the sync word"),
        (("--frames", "--into", "4,1"), "--into: word 1 isn't 2 to 256; word 1 is the sync word"),
        (("--from", "1,5,10,4", "--into", "4,256"), "--from: 4 bits from bit 10 on aren't within bits 1 to 12"),
        (("--from", "0,5,1,4", "--into", "4,256"), "--from: subframe 0 isn't 1 to 4"),
    ],
)
def test_places_that_no_frame_has(flight: Tool, write: Write, how: tuple[str, ...], fault: str) -> None:
    assert flight("recount", write("bits", b""), "--words", 256, *how) == (1, b"", f"flight: {fault}\n")


def test_no_frames(flight: Tool, write: Write) -> None:
    answer = flight("recount", write("bits", bytes(5000)), "--words", 64, "--frames", "--into", "4,64")
    assert (answer.status, answer.out) == (1, b"")
    assert answer.error.startswith("flight: no frame of 64 words in a subframe")


def test_words_that_had_something_are_told(flight: Tool, write: Write, recording: encoder.Recording) -> None:
    answer = flight("recount", write("bits", recording.bits()), "--words", 256, "--frames", "--into", "1,8")
    held = [slot for slot in recording.slots[7::SLOTS]]
    replaced = sum(slot != number and slot != 0 for number, slot in enumerate(held))
    assert replaced > 30
    assert answer.error.endswith(f"; {replaced} of them had something else there\n")
