"""`flight table`: long and wide tables and grids with known rows, in one piece and in many, and what is refused."""

import csv
import io
import os
import pathlib

import pytest

from conftest import Tool, Write
import encoder
from flight_recorder import clock, durations, listing, tables
from flight_recorder.faults import Fault

LISTING = """\
gap,0,16
row,0,1,10,ALT,5
row,0,1,10,IAS,5.5
row,1,1,10,ALT,-7
row,1,1,12,IAS,6.5
gap,6160,3064
row,3,1,10,ALT,9
row,0,1,10,ALT,1
exceed,HI,0,1,10,1,1
row,1,1,10,ALT,2
gap,18440,12
"""
LONG = """\
recording,session,time,counter,subframe,word,name,value,note
1,,,,,,(gap),,"from bit 0, 16 bits: 0.020508 s by its bits"
1,,0.140625,0,1,10,ALT,5,
1,,0.140625,0,1,10,IAS,5.5,
1,,4.140625,1,1,10,ALT,-7,
1,,4.171875,1,1,12,IAS,6.5,
1,,8.000000,,,,(gap),,"from bit 6160, 3064 bits: 4 s"
1,,12.140625,3,1,10,ALT,9,
2,,0.000000,,,,(back),,"the counter goes back by 3, from 3 to 0"
2,,0.140625,0,1,10,ALT,1,
2,,0.140625,0,1,10,(exceed),,"HI: 1 samples, peak 1"
2,,4.140625,1,1,10,ALT,2,
2,,8.000000,,,,(gap),,"from bit 18440, 12 bits: 0.015625 s by its bits"
"""
WIDE = """\
recording,session,time,ALT,IAS,note
1,,,,,"gap: from bit 0, 16 bits: 0.020508 s by its bits"
1,,0.140625,5,5.5,
1,,4.140625,-7,,
1,,4.171875,,6.5,
1,,8.000000,,,"gap: from bit 6160, 3064 bits: 4 s"
1,,12.140625,9,,
2,,0.000000,,,"back: the counter goes back by 3, from 3 to 0"
2,,0.140625,,,"exceed: HI: 1 samples, peak 1"
2,,0.140625,1,,
2,,4.140625,2,,
2,,8.000000,,,"gap: from bit 18440, 12 bits: 0.015625 s by its bits"
"""
GRID = """\
recording,session,time,ALT,IAS,note
1,,,,,"gap: from bit 0, 16 bits: 0.020508 s by its bits"
1,,1.500000,5,5.5,
1,,3.000000,5,5.5,
1,,4.500000,-7,6.5,
1,,6.000000,-7,6.5,
1,,7.500000,-7,6.5,
1,,8.000000,,,"gap: from bit 6160, 3064 bits: 4 s"
1,,13.500000,9,,
1,,15.000000,9,,
2,,0.000000,,,"back: the counter goes back by 3, from 3 to 0"
2,,0.140625,,,"exceed: HI: 1 samples, peak 1"
2,,1.500000,1,,
2,,3.000000,1,,
2,,4.500000,2,,
2,,6.000000,2,,
2,,7.500000,2,,
2,,8.000000,,,"gap: from bit 18440, 12 bits: 0.015625 s by its bits"
"""
KINDS = [((), LONG), (("--wide",), WIDE), (("--every", "1500ms"), GRID), (("--wide", "--every", "1.5"), GRID)]


@pytest.mark.parametrize("words, wanted", KINDS)
def test_known_tables(flight: Tool, piped: Tool, write: Write, words: tuple[str, ...], wanted: str) -> None:
    assert flight("table", write("l", LISTING), "--words", 64, *words) == (0, wanted.encode(), "")
    assert piped("table", "-", "--words", 64, *words, given=LISTING.encode()) == (0, wanted.encode(), "")


@pytest.mark.parametrize("size", range(1, 8))
@pytest.mark.parametrize("words, wanted", KINDS[:3])
def test_pieces_of_any_size_give_the_same(words: tuple[str, ...], wanted: str, size: int) -> None:
    out, names, times = io.BytesIO(), listing.Names(["ALT", "IAS"]), clock.Clock(clock.shape_of(None, 64))
    writer: tables.GridTable | tables.WideTable | tables.LongTable
    if "--every" in words:
        writer = tables.GridTable(out, names, tables.Columns(times.sessions), 1_500_000)
    else:
        columns = tables.Columns(times.sessions)
        writer = tables.WideTable(out, names, columns) if words else tables.LongTable(out, columns, names)
    lines = LISTING.encode().splitlines(keepends=True)
    for at in range(0, len(lines), size):
        writer.write(times.times(listing.piece_of(b"".join(lines[at : at + size]), 1, names), len(names)))
    writer.end(times.end())
    found, known = (sorted(text.splitlines()) for text in (out.getvalue().decode(), wanted))
    assert found == known  # an exceedance may be before or after the row of its sample
    assert [line for line in out.getvalue().decode().splitlines() if "exceed" not in line] == [
        line for line in wanted.splitlines() if "exceed" not in line
    ]


def test_a_pipe_that_is_named_as_the_output_stays_one(flight: Tool, write: Write, tmp_path: pathlib.Path) -> None:
    pipe = tmp_path / "pipe"
    os.mkfifo(pipe)
    with open(os.open(pipe, os.O_RDWR), "rb") as held:
        ran = flight("table", write("l", LISTING), "--words", 64, "-o", pipe)
        assert (ran.status, ran.error) == (0, "")
        assert os.read(held.fileno(), 1 << 16) == LONG.encode()
    assert pipe.is_fifo() and [one.name for one in tmp_path.iterdir() if one.name.startswith(".flight")] == []


def test_late_samples_are_put_in_order_when_wide(flight: Tool, write: Write) -> None:
    text = "row,0,1,10,A,1\nrow,1,1,10,A,2\nrow,0,1,20,P,9\nrow,2,1,10,A,3\n"
    rows = flight("table", write("l", text), "--words", 64, "--wide").out.decode().splitlines()
    assert rows[1:] == ["1,,0.140625,1,,", "1,,0.296875,,9,", "1,,4.140625,2,,", "1,,8.140625,3,,"]
    grid = flight("table", write("l", text), "--words", 64, "--every", "4s").out.decode().splitlines()
    assert grid[1:] == ["1,,4.000000,1,9,", "1,,8.000000,2,9,"]


def test_a_sample_at_a_time_of_the_grid_counts_there(flight: Tool, write: Write) -> None:
    text = "row,0,1,33,A,1\nrow,0,2,33,A,2\nrow,0,2,34,A,3\n"
    rows = flight("table", write("l", text), "--words", 64, "--every", "500ms").out.decode().splitlines()
    assert rows[1:] == [
        "1,,0.500000,1,",
        "1,,1.000000,1,",
        "1,,1.500000,2,",
        "1,,2.000000,3,",
        "1,,2.500000,3,",
        "1,,3.000000,3,",
        "1,,3.500000,3,",
    ]


def test_columns_of_a_table_are_its_rows(flight: Tool, write: Write) -> None:
    table = (
        "F,64,2,1\nP,B,0,1,,11,1,U,1,1,0,0,16\nL,B,1,1,21,0,1,1,0,1\nP,A,0,2,,11,1,U,1,1,0,0,16\nL,A,1,1,20,0,1,1,0,1\n"
    )
    out = flight("table", write("l", "row,0,1,20,A,1\n"), "--table", write("t.csv", table), "--wide").out
    assert out == b"recording,session,time,B,A,note\n1,,0.296875,,1,\n"


def test_an_empty_listing(flight: Tool, write: Write) -> None:
    for words, header in (((), LONG), (("--wide",), "recording,session,time,note\n"), (("--every", "1s"), "recording,session,time,note\n")):
        assert (
            flight("table", write("l", ""), "--words", 64, *words).out.decode() == header.splitlines(keepends=True)[0]
        )


@pytest.mark.parametrize("words", [kind for kind, _ in KINDS[:3]])
def test_a_late_fault_leaves_nothing(flight: Tool, write: Write, words: tuple[str, ...]) -> None:
    text = "".join(f"row,{at % 4096},1,10,ALT,5\n" for at in range(400_000)) + "row\n"
    assert flight("table", write("l", text), "--words", 64, *words) == (
        1,
        b"",
        "flight: listing line 400001: 'row' is no line of a listing\n",
    )


def test_words_or_a_table_are_needed(flight: Tool, write: Write) -> None:
    assert flight("table", write("l", LISTING)).status == 2
    assert flight("table", write("l", LISTING), "--words", 65).status == 2
    assert flight("table", write("l", LISTING), "--words", 64, "--table", "t").status == 2


@pytest.mark.parametrize("text", ["0", "0s", "-1s", "1d", "", "1e3", "0.0000001s", "s"])
def test_no_lengths_of_time(text: str) -> None:
    with pytest.raises(Fault, match="is no length of time"):
        durations.microseconds(text)


@pytest.mark.parametrize(
    "text, length",
    [("1", 10**6), ("250ms", 250_000), ("0.25s", 250_000), ("2m", 120 * 10**6), ("1h", 3600 * 10**6), ("1us", 1)],
)
def test_lengths_of_time(text: str, length: int) -> None:
    assert durations.microseconds(text) == length


def test_a_flight_against_the_plain_recorder(flight: Tool, write: Write) -> None:
    table = encoder.read_table(encoder.TOP / "examples" / "ordinary.csv")
    recording = encoder.recording_of(table, encoder.generated(table, 300, 7), 300 * 4_000_000)
    path = write("l", recording.listing())
    rows = list(
        csv.reader(
            io.StringIO(flight("table", path, "--table", encoder.TOP / "examples" / "ordinary.csv").out.decode())
        )
    )
    wanted = recording.rows()
    assert len(rows) == len(wanted) + 1
    for row, (seconds, *place, name, value) in zip(rows[1:], wanted):
        assert row == ["1", "", f"{seconds:.6f}", *map(str, place), name, value, ""]
    _check_grid(flight, path, wanted)


def _check_grid(flight: Tool, path: pathlib.Path, wanted: list[tuple[float, int, int, int, str, str]]) -> None:
    """A grid of 0.7 seconds has of each parameter the last value."""
    out = flight("table", path, "--table", encoder.TOP / "examples" / "ordinary.csv", "--every", "700ms").out.decode()
    header, *rows = csv.reader(io.StringIO(out))
    held, at = dict.fromkeys(header[3:-1], ""), 0
    ordered = sorted(wanted)
    assert [round(float(row[2]) * 10) for row in rows] == list(range(7, 12_000, 7))
    for row in rows:
        while at < len(ordered) and ordered[at][0] <= float(row[2]):
            held[ordered[at][4]] = ordered[at][5]
            at += 1
        assert [*row[:2], *row[3:]] == ["1", "", *held.values(), ""]
