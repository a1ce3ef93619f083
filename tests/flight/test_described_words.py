"""What a description says in `flight watch` and `flight frame`, and the flights of the example."""

import csv
import io
import pathlib

import numpy as np

import encoder
from conftest import ORDINARY, TOP, Tool, Write, example_captures
from flight_recorder import description, parameters, trace, watch
from test_watch import FIVE, record

TABLE = """\
F,64,2,1
P,ALT,0,203,,11,12,U,1,1,0,0,16
L,ALT,1,1,10,0,1,6,0,1
L,ALT,2,1,11,0,1,6,0,1
P,GEAR,0,204,,11,1,U,1,1,0,0,16
L,GEAR,1,2,12,0,1,1,0,1
"""
DESCRIPTION = """\
unit,ALT,ft,Height
points,ALT,0:0,100:50
unit,GEAR,,Landing gear
state,GEAR,0,up
state,GEAR,1,down
derived,TWICE,ALT * 2 + GEAR,m,Twice
"""


def test_watch(write: Write) -> None:
    path = write("t.csv", TABLE)
    write("t.describe.csv", DESCRIPTION)
    table = parameters.read_table(str(path))
    described = description.read_beside(path, table)
    one = watch.Watch(table, described)
    gear = encoder.word_of(0o204, 0, 1)
    one.take(np.frombuffer(record(0.1, FIVE), dtype=trace.RECORD))
    lines, _ = one.lines()
    assert lines[1].split() == ["parameter", "bus", "label", "sdi", "value", "unit", "means", "title", "a", "second", "silence"]
    assert lines[2].split()[:8] == ["ALT", "0", "203", "any", "5", "ft", "2.5", "Height"]
    assert lines[4].split()[:3] == ["TWICE", "(derived)", "m"]  # GEAR has no word yet
    one.take(np.frombuffer(record(0.2, gear), dtype=trace.RECORD))
    lines, _ = one.lines()
    assert lines[3].split()[:8] == ["GEAR", "0", "204", "any", "1", "down", "Landing", "gear"]
    assert lines[4].split() == ["TWICE", "(derived)", "11", "m", "Twice"]
    plain, _ = watch.Watch(table).lines()
    assert "title" not in plain[1]


def test_frame(flight: Tool, write: Write) -> None:
    path = write("t.csv", TABLE)
    table = encoder.read_table(path)
    words = [encoder.Word(0, 0, encoder.word_of(0o203, 0, 77)), encoder.Word(0, 0, encoder.word_of(0o204, 0, 1))]
    bits = write("bits", encoder.recording_of(table, words, 4_000_000).bits())
    plain = flight("frame", bits, "--at", 0, "--table", path).out.decode()
    assert "ALT part 2 (bits 1 to 6) 1\n" in plain and "GEAR (bit 1) 1\n" in plain
    write("t.describe.csv", DESCRIPTION)
    shown = flight("frame", bits, "--at", 0, "--table", path).out.decode()
    assert "ALT part 1 (bits 1 to 6) 15\n" in shown
    assert "ALT part 2 (bits 1 to 6) 1 = 77 = 38.5 ft\n" in shown and "GEAR (bit 1) 1 = 1 down\n" in shown
    assert flight("frame", bits, "--at", 0, "--table", path, "--no-describe").out.decode() == plain


def test_the_hour_of_the_examples(flight: Tool, write: Write) -> None:
    """Two flights, in two recordings of which the clock says how far they are apart; and its rules and description are sound."""
    path = TOP / "examples" / "hour.csv"
    table = encoder.read_table(path)
    listing, at = "", 0
    for rows in example_captures():
        recording = encoder.recording_of(table, *encoder.words_of_capture(rows))
        listing += recording.listing(at)
        at += 8 * len(recording.bits())
    words = (write("l", listing), "--table", path, "--date", "2026-05-04")
    flights = list(csv.DictReader(io.StringIO(flight("flights", *words, "--when", "IAS > 60").out.decode())))
    assert [(one["flight"], one["recording"], one["utc"][:16], one["utc_end"][:16]) for one in flights] == [
        ("1", "1", "2026-05-04T08:19", "2026-05-04T08:44"), ("2", "2", "2026-05-04T08:49", "2026-05-04T09:11"),
    ]  # fmt: skip
    assert all(one["GEAR least"] == "0" and float(one["ALT greatest [ft]"]) > 9000 for one in flights)
    found = list(csv.DictReader(io.StringIO(flight("events", *words, "--rules", TOP / "examples" / "events.csv").out.decode())))
    assert {row["rule"] for row in found if row["what"] == "event"} == {"FAST", "HARD", "LOW_GEAR_UP"}
    notes = [row["note"] for row in csv.DictReader(io.StringIO(flight("table", *words).out.decode())) if row["note"]]
    assert any(note.startswith("the counter goes from 467 to 0, by the clock 5") for note in notes)
    assert pathlib.Path(ORDINARY).read_text() == path.read_text()[: len(pathlib.Path(ORDINARY).read_text())]
