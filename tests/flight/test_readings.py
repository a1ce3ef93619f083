"""Listings as a user has them: damaged ones, of another table, of memories that wrap; from the listing to pandas."""

import fcntl
import io
import json
import pathlib
import re
import subprocess
import sys
from typing import Any, Callable, cast

import numpy as np
import pandas
import pytest

import encoder
from conftest import ORDINARY, T1, TOP, Tool, Write
from flight_recorder import hdf

sys.path.insert(0, str(TOP / "tests"))

import reader  # noqa: E402

WIDER = "F,128,2,1\nP,ALT,0,203,,11,12,U,1,1,0,0,64\nL,ALT,1,1,10,0,1,12,0,1\n"
SPREAD = "F,64,2,1\nP,ALT,0,203,,11,12,U,1,1,0,0,16\nL,ALT,1,1,10,0,1,12,1,4\n"


def row(counter: int, word: int = 10) -> str:
    return f"row,{counter},1,{word},ALT,{counter % 7}\n"


def table_of(out: bytes) -> pandas.DataFrame:
    return pandas.read_csv(io.BytesIO(out), dtype={"session": "Int64"})


# --- A table of other words


@pytest.mark.parametrize(
    "text, fault",
    [
        (row(0) + row(1, 65), "listing line 2: word 65, and a subframe of the table has 64"),
        (row(0) + "gap,3072,8\n" + row(2, 11), "listing line 3: the table has no ALT at counter 2, subframe 1, word 11"),
        (row(0) + "row,1,2,10,ALT,5\n", "listing line 2: the table has no ALT at counter 1, subframe 2, word 10"),
        (row(0) + "row,1,1,10,IAS,5\n", "listing line 2: the table has no parameter IAS"),
    ],
)
def test_a_row_that_is_not_in_the_table(flight: Tool, write: Write, text: str, fault: str) -> None:
    for words in ((), ("--wide",), ("--every", "1s")):
        assert flight("table", write("l", text), "--table", T1, *words) == (1, b"", f"flight: {fault}\n")


def test_a_place_of_another_cycle(flight: Tool, write: Write) -> None:
    path = write("t.csv", SPREAD)
    assert flight("table", write("l", row(1) + row(5)), "--table", path).status == 0
    assert flight("table", write("l", row(1) + row(2)), "--table", path).error == (
        "flight: listing line 2: the table has no ALT at counter 2, subframe 1, word 10\n"
    )


def test_the_earliest_part_has_the_place(flight: Tool, write: Write) -> None:
    table = write("t.csv", "F,64,2,1\nP,POS,1,310,,9,20,U,1,1,0,0,1\nL,POS,1,1,20,0,1,12,0,16\nL,POS,2,1,18,0,1,8,0,16\n")
    assert flight("table", write("l", "row,16,1,18,POS,5\n"), "--table", table).status == 0
    assert flight("table", write("l", "row,16,1,20,POS,5\n"), "--table", table).status == 1


def test_a_word_above_those_of_words(flight: Tool, write: Write) -> None:
    answer = flight("table", write("l", row(0) + row(1, 65)), "--words", 64)
    assert answer == (1, b"", "flight: listing line 2: word 65, and a subframe has 64 by --words\n")


TWO_FRAMES = row(0) + row(1) + "gap,6144,1536\n"


@pytest.mark.parametrize("shape", [("--words", 128), ("--words", 256), ("--table", "wider")])
def test_gaps_that_do_not_fit_the_frames(flight: Tool, write: Write, shape: str) -> None:
    """All rows are at a place of both tables; the gap behind two frames says which it is."""
    wider = write("wider.csv", WIDER)
    words = [wider if one == "wider" else one for one in shape]
    answer = flight("table", write("l", TWO_FRAMES), *words)
    assert (answer.status, answer.out) == (1, b"")
    assert re.match("flight: listing line 3: a gap at bit 6144 doesn't fit the 2 frames of subframes of (128|256) words", answer.error)
    assert answer.error.endswith("subframes of 64 words fit\n")
    assert flight("table", write("l", TWO_FRAMES), "--table", T1).status == 0
    assert flight("plot", write("l", TWO_FRAMES), *words, "-o", write("f.svg", "")).error == answer.error


def test_fewer_words_than_the_frames_have(flight: Tool, write: Write) -> None:
    text = "".join(map(row, range(20))) + "gap,122880,8\n"  # 20 frames of 128 words
    assert flight("table", write("l", text), "--words", 64).error.endswith("subframes of 128 words fit\n")
    assert flight("table", write("l", text), "--words", 128).status == 0


@pytest.mark.parametrize(
    "text",
    [
        "gap,0,5\n" + row(0) + "gap,3077,7\n" + row(2) + row(3) + "gap,9228,1\n",
        "session,1,0\n" + row(0) + "gap,3072,8\nsession,2,3\ngap,0,24\n" + row(0) + row(1) + "gap,6168,8\n",
        "run,0,3\n" + row(0) + "gap,3072,8\nrun,5,3\ngap,0,24\n" + row(5) + "gap,3096,8\n",
        row(5) + row(5) + row(900) + row(7) + "gap,12288,8\n",
    ],
)
def test_gaps_that_fit(flight: Tool, write: Write, text: str) -> None:
    assert flight("table", write("l", text), "--table", T1).status == 0
    assert flight("table", write("l", text), "--words", 64).status == 0


def test_frames_without_rows_beside_gaps(flight: Tool, write: Write) -> None:
    text = "gap,0,5\n" + "".join(map(row, range(1, 41, 4))) + f"gap,{5 + 41 * 3072},7\n"  # frames 0 to 40
    assert flight("table", write("l", text), "--table", write("t.csv", SPREAD)).status == 0
    assert flight("table", write("l", text), "--words", 64).status == 0
    assert flight("table", write("l", text), "--words", 128).status == 1


def test_two_listings_in_one(flight: Tool, write: Write) -> None:
    answer = flight("table", write("l", (row(0) + "gap,3072,8\n") * 2), "--table", T1)
    assert answer.error == "flight: listing line 4: the gap at bit 3072 is before bit 3080: several listings in one?\n"


# --- Lines of damaged images, and of later versions


def test_a_salvaged_image(flight: Tool, write: Write) -> None:
    """The damaged image of the examples, by the second reader."""
    image = (TOP / "examples" / "damaged.img").read_bytes()
    listing = reader.salvage(T1.read_bytes(), image).output
    assert listing.startswith(b"run,")
    answer = flight("table", write("l", listing), "--table", T1)
    assert (answer.status, answer.error) == (0, "")
    table = table_of(answer.out)
    runs = re.findall(rb"run,(\d+),(\d+)", listing)
    notes = table[table["name"] == "(run)"]["note"].tolist()
    assert notes == [f"run of {int(blocks)} blocks from block {int(first)}" for first, blocks in runs]
    missing = int(runs[1][0]) - int(runs[0][0]) - int(runs[0][1])
    assert any(note.endswith(f" are missing: {missing} blocks") for note in table[table["name"] == "(hole)"]["note"])
    assert table["recording"].nunique() == len(runs)


def test_lines_of_later_versions_are_passed_over(flight: Tool, write: Write) -> None:
    text = row(0) + "later,1,2\n" + row(1) + "later,3,4\n"
    answer = flight("table", write("l", text), "--table", T1)
    assert (answer.status, answer.out.count(b"ALT")) == (0, 2)
    assert answer.error == "flight: passed over 2 lines of a kind that isn't known, at listing line 2 first\n"


# --- Memories that wrap


FULL = [5000 + number for number in range(9000)]  # frames of a memory, in the order of time


def dump_of(frames: list[int], begin: int) -> str:
    """The listing of a memory that has these frames. Its first byte is amid the one before the last `begin` of them, so that
    this one is cut; what is older begins after them."""
    newer, older = frames[len(frames) - begin :], frames[: len(frames) - begin - 1]
    lines, bit = "gap,0,1000\n", 1000
    for part, gap in ((newer, 500), (older, 2072)):
        lines += "".join(row(frame % 4096) for frame in part)
        bit += 3072 * len(part)
        lines += f"gap,{bit},{gap}\n"
        bit += gap
    return lines


@pytest.mark.parametrize("standard_input", [False, True])
def test_a_memory_that_wraps_is_in_the_order_of_the_counter(piped: Tool, write: Write, standard_input: bool) -> None:
    text = dump_of(FULL, 3000)
    path = "-" if standard_input else write("l", text)
    answer = piped("table", path, "--table", T1, given=text.encode() if standard_input else b"")
    table = table_of(answer.out)
    samples = table[table["value"].notna()]
    assert (answer.status, samples["recording"].unique().tolist()) == (0, [1])
    assert samples["time"].tolist() == [4 * (5000 % 4096 + at) + 9 / 64 for at in range(9000) if at != 5999]
    assert table[table["name"] == "(gap)"]["note"].tolist()[0].endswith("2072 bits: 4 s")
    wraps = table[table["name"] == "(wrap)"]["note"].tolist()
    assert wraps == ["the memory wraps here: what follows is older", "the listing begins here: what follows is newer"]


def test_a_memory_that_wraps_as_it_was_recorded(flight: Tool, write: Write) -> None:
    path = write("l", dump_of(FULL, 3000))
    table = table_of(flight("table", path, "--table", T1, "--as-recorded").out)
    counters = table["counter"].dropna().astype(int).tolist()
    assert counters == [frame % 4096 for frame in FULL[6000:] + FULL[:5999]]
    wraps = table[table["name"] == "(wrap)"]
    assert wraps["note"].tolist() == ["the memory wraps here: what follows is older"]
    assert wraps["recording"].tolist() == [2]


def test_a_memory_that_wraps_is_drawn_in_the_order_of_the_counter(flight: Tool, write: Write, tmp_path: pathlib.Path) -> None:
    path = write("l", dump_of(FULL[:600], 200))
    for words, recordings in (((), 1), (("--as-recorded",), 2)):
        page = tmp_path / "f.html"
        assert flight("plot", path, "--table", T1, "-o", page, *words) == (0, b"", "")
        data = json.loads(re.findall(r'(?s)id="flight">(.*?)</script>', page.read_text())[0])
        assert len(data["recordings"]) == recordings
        assert "the memory wraps here" in {span["name"] for span in data["spans"]}


# --- Parts of a listing, dates


def test_windows_of_time(flight: Tool, write: Write) -> None:
    path = write("l", "".join(map(row, range(1000, 1100))))
    def times(*words: object) -> list[float]:
        found: list[float] = table_of(flight("table", path, "--table", T1, *words).out)["time"].tolist()
        return found

    assert times("--from", "4040.2s", "--to", "1:07:30") == [4 * at + 9 / 64 for at in range(1011, 1013)]
    assert times("--zero", "--to", 8) == [9 / 64, 4 + 9 / 64]
    begin = "2026-05-04T10:00:00Z"
    assert len(times("--start", begin, "--from", "2026-05-04T11:10:00Z")) == 50
    assert times("--recording", 2) == []


def test_dates(flight: Tool, write: Write) -> None:
    path = write("l", row(0) + row(1) + row(0))
    out = flight("table", path, "--table", T1, "--start", "2026-05-04T12:00:00+02:00", "--start", "2=2027-01-01T00:00:00Z").out
    table = pandas.read_csv(io.BytesIO(out), parse_dates=["date"])
    assert table["date"].astype(str).tolist() == [
        "2026-05-04 10:00:00.140625+00:00", "2026-05-04 10:00:04.140625+00:00", "2027-01-01 00:00:00+00:00", "2027-01-01 00:00:00.140625+00:00",
    ]  # fmt: skip
    assert b",,0,1,10" not in out
    grid = flight("table", path, "--table", T1, "--start", "2026-05-04T10:00:00", "--every", "2s").out.decode().splitlines()
    assert grid[:3] == ["recording,session,time,date,ALT,note", "1,,2.000000,2026-05-04T10:00:02.000000,0,", "1,,4.000000,2026-05-04T10:00:04.000000,0,"]


@pytest.mark.parametrize(
    "words, fault",
    [
        (("--start", "today"), "--start 'today': a date as 2026-05-04T10:00:00Z, with 2= before it for the second recording"),
        (("--from", "x"), "'x' is no time, as 90s or 0:01:30"),
        (("--from", "2026-05-04"), "'2026-05-04' is a date, and --start says no date of the first recording"),
        (("--bits", "--wide"), "--bits and --raw are columns of a long table"),
    ],
)
def test_refused_words(flight: Tool, write: Write, words: tuple[str, ...], fault: str) -> None:
    assert flight("table", write("l", row(0)), "--table", T1, *words) == (1, b"", f"flight: {fault}\n")


def test_a_name_that_a_column_has_anyway(flight: Tool, write: Write) -> None:
    answer = flight("table", write("l", "row,0,1,10,time,5\nrow,0,1,11,note,6\n"), "--words", 64, "--wide")
    assert answer.out.decode().splitlines()[0] == "recording,session,time,(time),(note),note"


# --- Exceedances


def made_image(answer: reader.Answer) -> bytes:
    """The image that a command of the second reader left."""
    assert answer.image is not None
    return answer.image


def exceedances_of(listing_text: str, *lines: str, flight: Any, write: Any, words: tuple[object, ...] = ()) -> pandas.DataFrame:
    answer = flight("table", write("l", listing_text), "--table", T1, "--exceed", write("e", "".join(line + "\n" for line in lines)), *words)
    assert answer.status == 0, answer.error
    return table_of(answer.out)


def test_times_of_exceedances(flight: Tool, write: Write) -> None:
    """The rules and the image of the pages' example, in two sessions: by the second reader."""
    values = [5, 7, 9, 3, 8]
    frames = "".join(f"row,{at},1,10,ALT,{value}\n" for at, value in enumerate(values))
    text = "session,1,0\n" + frames + "session,2,30\n" + frames
    lines = ["exceed,HI,0,1,10,3,9", "exceed,LO,3,1,10,1,3", "exceed,STEP,3,1,10,2,6"]
    found = exceedances_of(text, *lines, *lines, flight=flight, write=write)
    assert found[["name", "recording", "session", "time", "seconds"]].values.tolist() == [
        ["HI", 1, 1, 9 / 64, 8.0], ["LO", 1, 1, 12 + 9 / 64, 0.0], ["STEP", 1, 1, 12 + 9 / 64, 4.0],
        ["HI", 2, 2, 9 / 64, 8.0], ["LO", 2, 2, 12 + 9 / 64, 0.0], ["STEP", 2, 2, 12 + 9 / 64, 4.0],
    ]  # fmt: skip
    assert found["places"].tolist() == [1] * 6


def test_an_exceedance_that_may_stand_at_several_places(flight: Tool, write: Write) -> None:
    text = "session,1,0\n" + "".join(map(row, range(9))) + "session,2,30\n" + "".join(map(row, range(9)))
    found = exceedances_of(text, "exceed,HI,3,1,10,2,4", "exceed,NO,100,1,10,2,4", flight=flight, write=write)
    assert found["recording"].tolist()[:2] == [1, 2] and np.isnan(found["recording"].tolist()[2])
    assert found["note"].tolist() == ["may stand at 2 places"] * 2 + ["not in the listing"]
    assert found["places"].tolist() == [2, 2, 0]


def test_exceedances_of_drawn_recordings_stand_where_the_second_reader_has_them(flight: Tool, write: Write) -> None:
    """Every exceedance that stands at one place alone stands at the right one."""
    table = encoder.read_table(T1)
    header = made_image(reader.format_image(T1.read_bytes(), b"", 4096, 64))
    rules = b"HI,ALT,above,2500,1\nLO,ALT,below,900,2\nSTEP,ALT,change,2800,2\n"
    image = header
    for session in (1, 2, 3):
        words = encoder.generated(table, 60, session)
        image = made_image(reader.record(T1.read_bytes(), image, encoder.trace_of(words, 240_000_000)))
    listing_bytes = reader.list_image(T1.read_bytes(), image).output
    lines = reader.exceed(T1.read_bytes(), image, rules).output.decode().splitlines()
    session_of_line = _sessions_of(lines, image, rules)
    found = exceedances_of(listing_bytes.decode(), *lines, flight=flight, write=write)
    sure = found[found["places"] == 1]
    assert len(sure) == len(found) == len(lines) > 30
    assert sure["session"].tolist() == session_of_line
    assert sure["time"].tolist() == [4 * int(line.split(",")[2]) + 9 / 64 for line in lines]


def _sessions_of(lines: list[str], image: bytes, rules: bytes) -> list[int]:
    """The session of each line of exceedances, by images that end earlier: each session's lines come after those before."""
    ring = reader.ring_for(reader.table_of(T1.read_bytes()), image)
    sessions: list[int] = []
    for session in (1, 2, 3):
        shorter = bytearray(image)
        for block in reader.valid_blocks(image, ring).values():
            if block.session > session:
                shorter[ring.slot_of(block.number)] = 0
        count = len(reader.exceed(T1.read_bytes(), bytes(shorter), rules).output.splitlines())
        sessions += [session] * (count - len(sessions))
    assert len(sessions) == len(lines)
    return sessions


# --- From a row to its bits


def test_bits_and_words_of_rows(flight: Tool, write: Write) -> None:
    table = encoder.read_table(ORDINARY)
    recording = encoder.recording_of(table, encoder.generated(table, 40, 3), 160_000_000)
    bits = recording.bits()
    damaged = b"\x00\x01" + bits[: 1536 * 7 + 100] + bits[1536 * 9 + 3 :]
    listing_bytes = reader.listbits(ORDINARY.read_bytes(), damaged).output
    dump = write("dump", damaged)
    answer = flight("table", write("l", listing_bytes), "--table", ORDINARY, "--bits", "--raw", dump)
    assert answer.status == 0, answer.error
    found = pandas.read_csv(io.BytesIO(answer.out), dtype={"raw": str})
    found = found[found["value"].notna()]
    whole = int.from_bytes(damaged, "little")
    assert len(found) > 1500
    for one in found.itertuples():
        words = [(whole >> (int(one.bit) + 12 * at)) & 0xFFF for at in range(2 if one.name == "ALT" else 1)]
        assert one.raw == " ".join(f"{word:04o}" for word in words)
        frame = int(one.bit) - 12 * ((int(one.subframe) - 1) * 256 + int(one.word) - 1)
        assert whole >> frame & 0xFFF == 0o1107
    alt = found[found["name"] == "ALT"]
    raw = [int(text[:4], 8) | (int(text[5:], 8) & 0o77) << 12 for text in alt["raw"]]
    assert alt["value"].tolist() == [one - (1 << 18) if one >> 17 else one for one in raw]


def test_words_of_sessions(flight: Tool, write: Write) -> None:
    """Bits count from each session's first; the words are found in what fdr recover writes."""
    header = made_image(reader.format_image(T1.read_bytes(), b"", 64, 64))
    table = encoder.read_table(T1)
    image = header
    for seed, end in ((1, 8_000_001), (2, 13_000_000)):
        trace = encoder.trace_of(encoder.generated(table, 4, seed)[:30], end)
        image = made_image(reader.record(T1.read_bytes(), image, trace))
    bits, listed = reader.recover(image).output, reader.list_image(T1.read_bytes(), image).output
    answer = flight("table", write("l", listed), "--table", T1, "--raw", write("b", bits))
    assert answer.status == 0, answer.error
    found = pandas.read_csv(io.BytesIO(answer.out), dtype={"raw": str})
    found = found[found["value"].notna()]
    assert found["session"].tolist() == [1, 1, 2, 2, 2]
    assert found["value"].tolist() == [int(text, 8) for text in found["raw"]]


def test_another_dump_is_refused(flight: Tool, write: Write) -> None:
    path = write("l", row(0) + row(1))
    for data in (b"", bytes(2000)):
        answer = flight("table", path, "--table", T1, "--raw", write("b", data))
        assert answer.status == 1 and "another dump?" in answer.error
    assert flight("table", path, "--words", 64, "--raw", write("b", b"")).error == (
        "flight: --bits and --raw need --table, by which frames without rows are known\n"
    )


def test_a_frame_in_octal(flight: Tool, write: Write) -> None:
    table = encoder.read_table(ORDINARY)
    recording = encoder.recording_of(table, encoder.generated(table, 20, 3), 80_000_000)
    dump = write("b", b"\xff" * 3 + recording.bits())
    first = 24 + 7 * 12_288
    for at in ("7", "0:00:28", "31.9s"):
        out = flight("frame", dump, "--at", at, "--table", ORDINARY).out.decode()
        assert out.startswith(f"frame: counter 7, recording 1, time 28.000000, bit {first}\n")
    slots = recording.slots[7 * 1024 : 8 * 1024]
    words = [int(word, 8) for line in out.splitlines() if re.match(r" +\d+ +\d+\.\d +\d+  ([0-7]{4} ){7}", line) for word in line.split()[3:]]
    assert words == slots
    address = first + 12 * 19
    assert f"{address:>10} {address // 8:>7}.{address % 8}    20  {slots[19]:04o}   ALT part 1 (bits 1 to 12) {slots[19]:o}\n" in out
    assert f"GEAR (bit 7) {slots[20] >> 6 & 1:o}\n" in out
    counter = first + 12 * (3 * 256 + 255)
    assert f"{counter:>10} {counter // 8:>7}.{counter % 8}   256  {slots[1023]:04o}   counter\n" in out
    assert flight("frame", dump, "--at", 4000, "--table", ORDINARY).error == (
        "flight: the dump has no frame with counter 4000, of 20 frames in all\n"
    )
    assert flight("frame", dump, "--at", 4096, "--table", ORDINARY).error == (
        "flight: --at 4096: a counter is below 4096; a time has a unit, as 4096s\n"
    )


def test_frames_are_those_that_the_second_reader_accepts(flight: Tool, write: Write) -> None:
    import random

    from flight_recorder import frames
    from flight_recorder.parameters import read_table

    table, known = read_table(str(T1)), reader.table_of(T1.read_bytes())
    chance = random.Random(8)
    recording = encoder.recording_of(encoder.read_table(T1), encoder.generated(encoder.read_table(T1), 30, 1), 120_000_000)
    for _ in range(10):
        bits = bytearray(recording.bits())
        for _ in range(6):
            bits[chance.randrange(len(bits))] ^= 1 << chance.randrange(8)
            at = chance.randrange(len(bits))
            del bits[at : at + chance.randrange(3)]
        found = frames.frames_of(np.frombuffer(bytes(bits), dtype=np.uint8), table)
        assert found.bit.tolist() == list(reader.listing_of(known, bytes(bits)).frames)


# --- To pandas


def damaged_flight() -> tuple[bytes, list[Any]]:
    """A listing with gaps, sessions, a hole and a frame cut by each end, and its lines by the second reader."""
    table = encoder.read_table(T1)
    image = made_image(reader.format_image(T1.read_bytes(), b"", 4096, 64))
    for seed, end in ((1, 160_000_000), (2, 83_000_000), (3, 120_000_001)):
        trace = encoder.trace_of(encoder.generated(table, 20, seed), end)
        image = made_image(reader.record(T1.read_bytes(), image, trace))
    ring = reader.ring_for(reader.table_of(T1.read_bytes()), image)
    broken = bytearray(image)
    for number in (40, 41, 150):
        broken[ring.slot_of(number)] = 0
    for number in (20, 90, 300):
        broken[ring.slot_of(number) + 16] ^= 0xFF
    listed = reader.salvage(T1.read_bytes(), bytes(broken)).output
    return listed, [line.split(",") for line in listed.decode().splitlines()]


def wrapped_flight() -> tuple[bytes, list[Any]]:
    """The listing of a memory that wraps, by the second reader, in the order of the counter."""
    table = encoder.read_table(T1)
    recording = encoder.recording_of(table, encoder.generated(table, 60, 4), 240_000_000)
    bits = recording.bits()
    begin = 384 * 25 + 111
    listed = reader.listbits(T1.read_bytes(), bits[begin:] + bits[:begin]).output
    lines = [line.split(",") for line in listed.decode().splitlines()]
    rows = [line for line in lines if line[0] == "row"]
    return listed, sorted(rows, key=lambda line: int(line[1]))


@pytest.mark.parametrize("made", [damaged_flight, wrapped_flight])
def test_from_a_damaged_listing_to_pandas(flight: Tool, write: Write, tmp_path: pathlib.Path, made: Callable[[], tuple[bytes, list[Any]]]) -> None:
    """CSV and HDF5 have the same numbers, which are the second reader's."""
    listed, lines = made()
    path, rows = write("l", listed), [line for line in lines if line[0] == "row"]
    csv_path, hdf_path = tmp_path / "f.csv", tmp_path / "f.h5"
    for out in (csv_path, hdf_path):
        assert flight("table", path, "--table", T1, "-o", out) == (0, b"", "")
    from_csv = pandas.read_csv(csv_path)
    assert from_csv["value"].dtype == np.float64
    samples = from_csv[from_csv["value"].notna()]
    assert len(samples) == len(rows) > 40
    assert samples["value"].tolist() == [float(line[5]) for line in rows]
    assert samples["counter"].tolist() == [int(line[1]) for line in rows]
    assert samples["time"].tolist() == [4 * int(line[1]) + 9 / 64 for line in rows]
    from_hdf = pandas.read_hdf(hdf_path, "samples")
    for name in ("recording", "time", "counter", "subframe", "word", "value"):
        assert from_hdf[name].tolist() == samples[name].tolist(), name
    assert from_hdf["name"].astype(str).tolist() == samples["name"].tolist()
    assert [np.nan if one < 0 else one for one in from_hdf["session"]] == pytest.approx(samples["session"].tolist(), nan_ok=True)
    notes = pandas.read_hdf(hdf_path, "notes")
    assert notes["note"].astype(str).tolist() == from_csv[from_csv["value"].isna()]["note"].tolist()
    assert all(str(kind) != "object" for frame in (from_hdf, notes) for kind in frame.dtypes)


def test_recordings_of_a_damaged_listing(flight: Tool, write: Write) -> None:
    listed, lines = damaged_flight()
    table = table_of(flight("table", write("l", listed), "--table", T1).out)
    recording, wanted, before = 0, [], ""
    for line in lines:
        if line[0] == "run" or line[0] == "session" and before != "run":
            recording += 1
        if line[0] == "row":
            wanted.append(recording)
        before = line[0]
    samples = table[table["value"].notna()]
    assert samples["recording"].tolist() == wanted
    assert len(set(wanted)) > 4


def test_where_a_file_of_hdf5_came_from(flight: Tool, write: Write, tmp_path: pathlib.Path) -> None:
    import hashlib

    path = write("l", row(0) + row(1))
    for words in ((), ("--wide",), ("--every", "1s")):
        assert flight("table", path, "--table", T1, *words, "-o", tmp_path / "f.h5").status == 0
        with pandas.HDFStore(str(tmp_path / "f.h5"), "r") as store:
            about = store.root._v_attrs
            assert (about["listing"], about["table"], about["words"]) == (str(path), str(T1), "64")
            assert about["listing_sha256"] == hashlib.sha256(path.read_bytes()).hexdigest()
            assert about["made_by"].startswith("flight ")


def test_a_file_of_hdf5_is_written_without_a_lock(tmp_path: pathlib.Path) -> None:
    path = tmp_path / "f.h5"
    with hdf.Store(path, cast(Any, None)), open(path, "rb") as other:
        fcntl.flock(other, fcntl.LOCK_EX | fcntl.LOCK_NB)


def test_wide_tables_and_grids_as_hdf5(flight: Tool, write: Write, hour: str, tmp_path: pathlib.Path) -> None:
    path = write("l", hour)
    for words in (("--wide",), ("--every", "700ms"), ("--every", "700ms", "--from", "100s", "--to", "1:00:00")):
        for out in ("f.csv", "f.h5"):
            assert flight("table", path, "--table", ORDINARY, *words, "-o", tmp_path / out).status == 0
        wanted = pandas.read_csv(tmp_path / "f.csv")
        wanted = wanted[wanted["note"].isna()].reset_index(drop=True)
        found = pandas.read_hdf(tmp_path / "f.h5", "samples")
        for name in ("recording", "time", "ALT", "VRTG", "FLT", "GEAR"):
            assert np.allclose(found[name], wanted[name], equal_nan=True, atol=6e-7, rtol=0), name


def test_a_bad_listing_leaves_no_file(flight: Tool, write: Write, tmp_path: pathlib.Path) -> None:
    path = write("l", row(0) * 2 + "row\n")
    for name in ("f.csv", "f.h5"):
        assert flight("table", path, "--table", T1, "-o", tmp_path / name).status == 1
    assert [one.name for one in tmp_path.iterdir()] == ["l"]


def test_the_page_s_recipe_for_pandas(flight: Tool, write: Write, tmp_path: pathlib.Path) -> None:
    page = (TOP / "docs" / "FLIGHT_TOOLS.md").read_text()
    recipe = re.findall(r"(?s)```python\n(.*?)```", page)[0]
    assert len(recipe.strip().splitlines()) == 5
    text = "".join(f"row,{at % 4096},1,10,ALT,{at}\n" for at in range(3000, 8000)) + "gap,15360000,3072\n" + (
        "".join(f"row,{at % 4096},1,10,ALT,{at}\n" for at in range(8001, 36_501)) + "gap,102915072,8\n"
    )
    assert flight("table", write("l", text), "--table", T1, "-o", tmp_path / "flight.csv").status == 0
    ran = subprocess.run([sys.executable, "-W", "error", "-c", recipe], cwd=tmp_path, capture_output=True, text=True)
    assert (ran.returncode, ran.stderr) == (0, "")
    numbers = [*range(3000, 8000), *range(8001, 36_501)]
    assert f"{max(numbers)}.0" in ran.stdout and f"{np.mean(numbers):.6f}" in ran.stdout


# --- Output


def test_output_to_a_file_is_not_held_in_temporary_ones(piped: Tool, write: Write, tmp_path: pathlib.Path) -> None:
    folder = tmp_path / "temporary"
    folder.mkdir()
    path = write("l", "".join(row(at % 4096) for at in range(1_000_000)))
    script = (
        "import sys, pathlib; sys.path.insert(0, sys.argv[1]); from flight_recorder import commands, streams\n"
        "def refuse(*_, **__): raise AssertionError('a temporary file')\n"
        "streams.tempfile.SpooledTemporaryFile = streams.tempfile.TemporaryFile = refuse\n"
        "sys.exit(commands.main(['table', sys.argv[2], '--table', sys.argv[3], '-o', sys.argv[4]]))\n"
    )
    out = tmp_path / "out.csv"
    ran = subprocess.run([sys.executable, "-c", script, TOP / "tools", path, T1, out], capture_output=True, text=True)
    assert (ran.returncode, ran.stderr) == (0, "")
    assert out.stat().st_size > 30_000_000
    assert pathlib.Path(out).read_bytes().count(b"\n") == 1_000_001
