"""`flight levels`: lines sampled at any rate, amid jitter and glitches, as two levels a bit."""

import random

import pytest

import drawn_dumps
import encoder
import reader
from conftest import ORDINARY, Tool, Write
from drawn_dumps import low_first

FRAMES = 14
FRAME = 12_288  # bits


@pytest.fixture(scope="module")
def recording() -> encoder.Recording:
    """Frames by the ordinary table."""
    table = encoder.read_table(ORDINARY)
    return encoder.recording_of(table, encoder.generated(table, FRAMES, 9), FRAMES * 4 * encoder.MILLION)


def digits(data: bytes) -> str:
    """The bits of bytes, the lowest of each byte first."""
    return f"{int.from_bytes(data, 'little'):0{8 * len(data)}b}"[::-1]


def edges_of(bits: str) -> list[float]:
    """When a line of bits changes, in bits from its beginning."""
    edges: list[float] = []
    for at, bit in enumerate(bits):
        edges += [at, at + 0.5] if bit == "1" else [at]
    return edges


def sampled(bits: str, samples: float, phase: float = 0.0, jitter: float = 0.0, seed: int = 1) -> str:
    """The samples of a line, each the level at its time. The changes come up to `jitter` bits early or late."""
    chance = random.Random(seed)
    edges = [edge + chance.uniform(-jitter, jitter) for edge in edges_of(bits)]
    made, level, begin = [], 1, 0
    for edge in [*edges[1:], float(len(bits))]:
        end = max(begin, -int(-(edge * samples - phase) // 1))
        made.append(str(level) * (end - begin))
        level, begin = 1 - level, end
    return "".join(made)


def rows(bits: bytes) -> list[str]:
    """The rows of a listing."""
    lines = reader.listbits(ORDINARY.read_bytes(), bits).output.decode().splitlines()
    return [line for line in lines if line.startswith("row,")]


def decoded(levels: bytes) -> bytes:
    """The bits of levels, by the second reader, which must find no fault in them."""
    answer = reader.decode(levels)
    assert (answer.status, answer.errors) == (0, b"")
    return answer.output


def test_two_levels_a_bit_are_those_of_encode(flight: Tool, write: Write) -> None:
    bits = random.Random(3).randbytes(1000)
    levels = reader.encode(bits).output
    assert flight("levels", write("levels", levels), "--samples", 2) == (0, levels, "")


@pytest.mark.parametrize("samples", [2, 3, 3.3, 4, 5, 7.7, 8, 16, 100])
def test_any_number_of_samples(flight: Tool, write: Write, samples: float) -> None:
    bits = "101" + "".join(random.Random(4).choices("01", k=4001))
    phase = 0.0 if samples == 2 else 0.3
    levels = flight("levels", write("capture", low_first(sampled(bits, samples, phase))), "--samples", samples)
    assert (levels.status, levels.error) == (0, "")
    assert bits[1:-2] in digits(decoded(levels.out))


def test_a_capture_that_begins_anywhere(flight: Tool, write: Write) -> None:
    bits = "".join(random.Random(5).choices("01", k=2000))
    line = sampled(bits, 8)
    for front in range(20):
        for turned in (line[front:], line[front:].translate(drawn_dumps.OPPOSITE)):
            levels = flight("levels", write("capture", low_first(turned)), "--samples", 8).out
            assert bits[4:-1] in digits(decoded(levels))


def test_jitter(flight: Tool, write: Write) -> None:
    bits = "".join(random.Random(6).choices("01", k=4000))
    capture = low_first(sampled(bits, 20, 0.5, jitter=0.1))
    levels = flight("levels", write("capture", capture), "--samples", 20)
    assert levels.error == ""
    assert bits[1:-1] in digits(decoded(levels.out))


@pytest.mark.parametrize("rate, more", [(24576, ()), (24576, ("--words", 256)), (30000, ()), (1e6, ())])
def test_a_rate(flight: Tool, write: Write, recording: encoder.Recording, rate: float, more: tuple[str, ...]) -> None:
    bits = digits(recording.bits())[: 3 * FRAME]
    capture = low_first(sampled(bits, rate / 3072))
    levels = flight("levels", write("capture", capture), "--rate", rate, *more)
    assert (levels.status, levels.error) == (0, "")
    assert bits[1:-1] in digits(decoded(levels.out))


def test_first_sample_in_the_highest_bit(flight: Tool, write: Write, recording: encoder.Recording) -> None:
    bits = digits(recording.bits())[:FRAME]
    capture = low_first(sampled(bits, 6)).translate(drawn_dumps.TURNED_BYTES)
    levels = flight("levels", write("capture", capture), "--samples", 6, "--reverse").out
    assert bits[:-1] in digits(decoded(levels))


@pytest.mark.parametrize("samples", [2, 8])
def test_a_wrong_level_costs_one_frame(flight: Tool, write: Write, recording: encoder.Recording, samples: int) -> None:
    """A glitch in any frame, at any bit of it: its frame alone has no rows, and no value is made up."""
    bits = digits(recording.bits())
    line = sampled(bits, samples)
    chance = random.Random(samples)
    wanted = recording.listing().splitlines()
    for frame in range(2, FRAMES - 1, 3):
        at = int((frame * FRAME + chance.randrange(2, FRAME - 2)) * samples + samples // 4)
        width = max(1, samples // 2)
        turned = line[:at] + line[at : at + width].translate(drawn_dumps.OPPOSITE) + line[at + width :]
        levels = flight("levels", write("capture", low_first(turned)), "--samples", samples)
        assert levels.status == 0
        assert "are unclear: bits are left out before bit " in levels.error
        kept = [line for line in wanted if int(line.split(",")[1]) != frame and ",FLT," not in line]
        assert [line for line in rows(decoded(levels.out)) if ",FLT," not in line] == kept


def test_every_frame_with_a_glitch_anywhere(flight: Tool, write: Write, recording: encoder.Recording) -> None:
    """Twelve glitches in twelve frames, close to all their borders: only untouched frames are listed, and as they were."""
    bits = digits(recording.bits())
    line = sampled(bits, 8)
    for offset in (0, 1, 3, 11, 12, 13, 3071, 3072, 9215, 9216, 9217, 9228, 9300, 12_000, 12_286, 12_287):
        turned = line
        at = (5 * FRAME + offset) * 8 + 2
        turned = turned[:at] + turned[at : at + 4].translate(drawn_dumps.OPPOSITE) + turned[at + 4 :]
        levels = flight("levels", write("capture", low_first(turned)), "--samples", 8)
        wanted = set(recording.listing().splitlines())
        got = rows(decoded(levels.out))
        assert set(got) <= wanted
        lost = {line.split(",")[1] for line in wanted - set(got) if ",FLT," not in line}
        assert lost <= {"4", "5", "6"} and "5" in lost and len(lost) <= 2


def test_a_silent_line_for_a_while(flight: Tool, write: Write, recording: encoder.Recording) -> None:
    bits = digits(recording.bits())
    line = sampled(bits, 4)
    at = (6 * FRAME + 700) * 4
    turned = line[:at] + "0" * 50_000 + line[at + 50_000 :]
    levels = flight("levels", write("capture", low_first(turned)), "--samples", 4)
    assert levels.error.count("unclear") == 1
    counters = sorted({int(line.split(",")[1]) for line in rows(decoded(levels.out))})
    assert counters == [*range(6), *range(8, FRAMES)]
    assert set(rows(decoded(levels.out))) <= set(recording.listing().splitlines())


def test_a_long_run_of_ones(flight: Tool, write: Write) -> None:
    """Bits of 1 alone say nothing of where bits begin, and more of them come than are held."""
    bits = "0011" + "1" * 600_000 + "0010111"
    levels = flight("levels", write("capture", low_first(sampled(bits, 4))), "--samples", 4)
    assert levels.error == ""
    assert bits[1:-1] in digits(decoded(levels.out))


@pytest.mark.parametrize(
    "how, fault",
    [
        (("--samples", 1), "1 samples a bit: it takes 3 or more, or exactly 2"),
        (("--samples", 2.5), "2.5 samples a bit: it takes 3 or more, or exactly 2"),
        (("--rate", 2000, "--words", 64), "2.60417 samples a bit: it takes 3 or more, or exactly 2"),
        (("--rate", 5000), "at 5000 Hz the line has the bits of no frames of 64, 128, 256, 512, 1024 words a second"),
    ],
)
def test_rates_that_are_refused(flight: Tool, write: Write, how: tuple[str, ...], fault: str) -> None:
    capture = low_first(sampled("0110" * 200, 8))
    assert flight("levels", write("capture", capture), *how) == (1, b"", f"flight: {fault}\n")


def test_look_names_a_capture_with_a_wrong_level(flight: Tool, write: Write, recording: encoder.Recording) -> None:
    line = sampled(digits(recording.bits()), 8)
    at = len(line) // 4 // 8 * 8 + 2
    turned = line[:at] + line[at : at + 4].translate(drawn_dumps.OPPOSITE) + line[at + 4 :]
    path = write("capture", low_first(turned))
    said = flight("look", path).out.decode()
    assert "Harvard biphase, 8 samples a bit, the lowest bit of a byte the first sample, unclear at 1 places" in said
    assert said.splitlines()[-1] == f"flight levels {path} --samples 8 | fdr decode > {path}.bits"
    assert f"frames    {FRAMES - 1}, " in said
