"""`flight flights` and `flight events`: known ones, over gaps, against `fdr exceed`, in tables, pictures and reports; what is refused."""

import collections
import csv
import io
import json
import pathlib
import re

import pandas
import pytest

import encoder
from conftest import Fdr, Tool, Write
from flight_recorder import events, flights

TABLE = """\
F,64,2,1
P,IAS,0,1,,11,12,U,1,1,0,0,64
L,IAS,1,1234,10,0,1,12,0,1
P,ALT,0,2,,11,12,U,1,1,0,0,64
L,ALT,1,1234,11,0,1,12,0,1
P,G,0,3,,11,12,U,1,1,0,2,64
L,G,1,1234,12,0,1,12,0,1
"""
HEADER = "name,condition,for,apart,peak,severity,note\n"
BITS = 3072  # of a frame


def rows(begin: int, speeds: list[int], altitude: int = 100, acceleration: str = "1.00") -> str:
    """Rows from a frame on, each second a speed; the altitude counts up."""
    text = []
    for at, speed in enumerate(speeds):
        frame, subframe = begin + at // 4, at % 4 + 1
        for word, name, value in ((10, "IAS", speed), (11, "ALT", altitude + at), (12, "G", acceleration)):
            text.append(f"row,{frame % 4096},{subframe},{word},{name},{value}\n")
    return "".join(text)


def two_flights() -> str:
    """100 s on the ground, 200 s in the air, with a gap of 8 s in them, 200 s on the ground, 100 s in the air."""
    first = [10] * 100 + [90] * 100
    return rows(0, first) + f"gap,{50 * BITS},{2 * BITS}\n" + rows(52, [95] * 92 + [10] * 200 + [99] * 100 + [5] * 8)


@pytest.fixture
def table(write: Write) -> pathlib.Path:
    write("l", two_flights())
    return write("t.csv", TABLE)


def read(out: bytes) -> list[dict[str, str]]:
    return list(csv.DictReader(io.StringIO(out.decode())))


def test_two_flights_and_a_gap_in_one(flight: Tool, table: pathlib.Path) -> None:
    answer = flight("flights", table.with_name("l"), "--table", table, "--when", "IAS > 60", "--apart", "60s")
    assert (answer.status, answer.error) == (0, "")
    first, second = read(answer.out)
    assert [first[name] for name in ("flight", "recording", "session", "time", "end", "seconds", "missing", "note")] == [
        "1", "1", "", "100.140625", "299.140625", "199.000000", "8.000000", "1 gap",
    ]  # fmt: skip
    assert [second[name] for name in ("flight", "time", "end", "seconds", "missing", "note")] == [
        "2", "500.140625", "599.140625", "99.000000", "0.000000", "",
    ]  # fmt: skip
    assert [(one["IAS least"], one["IAS greatest"], one["ALT least"], one["ALT greatest"]) for one in (first, second)] == [
        ("90", "95", "100", "299"), ("99", "99", "392", "490"),
    ]  # fmt: skip


def test_without_a_time_between_the_gap_cuts_a_flight(flight: Tool, table: pathlib.Path) -> None:
    answer = flight("flights", table.with_name("l"), "--table", table, "--when", "IAS > 60", "--apart", "1s", "--for", "95s")
    assert [(row["time"], row["seconds"]) for row in read(answer.out)] == [("100.140625", "99.000000"), ("500.140625", "99.000000")]
    assert read(flight("flights", table.with_name("l"), "--table", table, "--when", "IAS > 200").out) == []


def test_a_gap_cuts_no_flight_that_goes_on_behind_it(flight: Tool, write: Write) -> None:
    """20 s on each side of a gap are a flight of 30 s at least, but not where it had ended before the gap or begins later."""
    for before, after, count in (([90] * 20, [90] * 20, 1), ([90] * 20 + [10] * 4, [90] * 20, 0), ([90] * 20, [10] * 4 + [90] * 20, 0)):
        frames = len(before) // 4
        text = rows(0, before) + f"gap,{frames * BITS},{2 * BITS}\n" + rows(frames + 2, [*after, 10, 10, 10, 10])
        answer = flight("flights", write("l", text), "--table", write("t.csv", TABLE), "--when", "IAS > 60", "--apart", "60s")
        assert [row["seconds"] for row in read(answer.out)] == ["47.000000"] * count


def test_a_flight_ends_with_its_recording(flight: Tool, write: Write) -> None:
    listing = write("l", "session,1,0\n" + rows(0, [90] * 80) + "session,2,9\n" + rows(0, [90] * 40))
    answer = flight("flights", listing, "--table", write("t.csv", TABLE), "--when", "IAS > 60")
    found = [(row["flight"], row["recording"], row["session"], row["seconds"]) for row in read(answer.out)]
    assert found == [("1", "1", "1", "79.000000"), ("2", "2", "2", "39.000000")]


def test_pieces_of_any_size_give_the_same(flight: Tool, table: pathlib.Path, write: Write, monkeypatch: pytest.MonkeyPatch) -> None:
    rules = write("e.csv", HEADER + "A,(IAS > 60) & (ALT % 7 < 5),2s,3s,max ALT,,IAS\nB,ALT % 2,,,,,\n")
    words = ("events", table.with_name("l"), "--table", table, "--rules", rules, "--when", "IAS > 60")
    whole = flight(*words).out
    assert whole.count(b"\nevent,") > 250
    for size in (100, 999, 5000):
        monkeypatch.setattr("flight_recorder.listing.PIECE", size)
        assert flight(*words).out == whole


def test_an_event_has_its_length_peak_severity_and_notes(flight: Tool, write: Write) -> None:
    speeds = [10, 70, 75, 71, 10, 72, 10, 10, 10, 10, 10, 80, 10, 10, 10, 10]
    write("t.describe.csv", "unit,ALT,ft\nstate,IAS,75,quick\n")
    rules = write(
        "e.csv",
        HEADER + "FAST,IAS > 60,,2s,max IAS,low:60;mid:75; high:80,ALT;IAS\nLONG,IAS > 60,2s,,min ALT,far:150; near:101,\nLEAST,IAS > 60,,2s,min IAS,,\nNONE,IAS > 999,,,,,\n",
    )
    answer = flight("events", write("l", rows(0, speeds)), "--table", write("t.csv", TABLE), "--rules", rules)
    assert answer.error == "flight: these events are by rules that are tested and not proved; fdr exceed is what is proved\n"
    found = read(answer.out)
    assert [[row[name] for name in ("what", "rule", "severity", "time", "seconds", "samples", "peak", "peak_time", "notes")] for row in found] == [
        ["event", "FAST", "mid", "1.140625", "4.000000", "4", "75", "2.140625", "ALT 102 ft; IAS 75 quick"],
        ["event", "LEAST", "", "1.140625", "4.000000", "4", "70", "1.140625", ""],
        ["event", "LONG", "near", "1.140625", "2.000000", "3", "101", "1.140625", ""],
        ["event", "FAST", "high", "11.140625", "0.000000", "1", "80", "11.140625", "ALT 111 ft; IAS 80"],
        ["event", "LEAST", "", "11.140625", "0.000000", "1", "80", "11.140625", ""],
        ["watched", "FAST", "", "", "16.000000", "", "", "", "in 1 stretch"],
        ["watched", "LONG", "", "", "16.000000", "", "", "", "in 1 stretch"],
        ["watched", "LEAST", "", "", "16.000000", "", "", "", "in 1 stretch"],
        ["watched", "NONE", "", "", "16.000000", "", "", "", "in 1 stretch"],
    ]


def test_an_event_isn_t_carried_over_a_gap_and_has_its_flight(flight: Tool, table: pathlib.Path, write: Write) -> None:
    rules = write("e.csv", HEADER + "A,IAS > 60,,,,,\nD,1 / (ALT - ALT),,,,,\n")
    answer = flight("events", table.with_name("l"), "--table", table, "--rules", rules, "--when", "IAS > 60", "--apart", "60s")
    found = read(answer.out)
    assert [(row["time"], row["seconds"], row["flight"]) for row in found if row["what"] == "event"] == [
        ("100.140625", "99.000000", "1"), ("208.140625", "91.000000", "1"), ("500.140625", "99.000000", "2"),
    ]  # fmt: skip
    assert [(row["seconds"], row["notes"]) for row in found if row["what"] == "watched"] == [
        ("600.000000", "in 2 stretches"), ("0.000000", "never: no value of its condition"),
    ]  # fmt: skip


def test_for_other_programs(table: pathlib.Path, write: Write) -> None:
    rules = write("e.csv", HEADER + "A,IAS > 60,,,max IAS,,\n")
    found = events.events_of(str(table.with_name("l")), str(table), str(rules), "IAS > 60")
    assert found["what"].tolist() == ["event"] * 3 + ["watched"]
    assert found["peak"].tolist()[:3] == [90, 95, 99]
    assert found["flight"].tolist()[:3] == [1, 1, 2]
    made = flights.flights_of(str(table.with_name("l")), str(table), "IAS > 60")
    assert made["seconds"].tolist() == [199.0, 99.0]
    assert pandas.api.types.is_float_dtype(made["IAS greatest"])


def test_a_rule_that_exceed_can_say_is_run_by_both(flight: Tool, fdr: Fdr, write: Write, tmp_path: pathlib.Path) -> None:
    """Drawn values with a gap and two sessions: the same lines at the same times, with the same lengths and peaks."""
    table = encoder.read_table(encoder.TOP / "examples" / "ordinary.csv")
    ordinary = encoder.TOP / "examples" / "ordinary.csv"
    parts = []
    for seed, frames in ((3, 90), (4, 60)):
        data = encoder.recording_of(table, encoder.generated(table, frames, seed), frames * 4_000_000).bits()
        parts.append(write(f"bits{seed}", data[:40_000] + data[43_001:] if seed == 3 else data))
    image = tmp_path / "image.img"
    assert flight("image", *parts, "-o", image, "--words", 256).status == 0
    listing = write("l", fdr("list", ordinary, image))
    proved = "HIGH,VRTG,above,700,2\nLOW,ALT,below,-60000,1\nSLOW,IAS,below,900,2\n"
    lines = write("exceed", fdr("exceed", ordinary, image, given=proved.encode()))
    placed = read(flight("table", listing, "--table", ordinary, "--exceed", lines).out)
    own = write(
        "e.csv", HEADER + "HIGH,VRTG > 0.7,,,max VRTG,,\nLOW,ALT < -60000,,,min ALT,,\nSLOW,IAS < 90,,,min IAS,,\n"
    )
    found = [row for row in read(flight("events", listing, "--table", ordinary, "--rules", own).out) if row["what"] == "event"]
    least = {"HIGH": 2, "LOW": 1, "SLOW": 2}
    ours = {(row["rule"], row["session"], row["time"], row["samples"], float(row["peak"])) for row in found if int(row["samples"]) >= least[row["rule"]]}
    theirs = {(row["name"], row["session"], row["time"], row["samples"], float(row["peak"])) for row in placed if row["places"] == "1"}
    assert len(theirs) > 200 and {row["session"] for row in placed} == {"1", "2"}
    assert theirs <= ours
    lines_of = collections.Counter(line.split(",")[1] for line in lines.read_text().splitlines())
    assert collections.Counter(rule for rule, *_ in ours) == lines_of and min(lines_of.values()) > 20


WRONG = [
    ("name,when\nA,IAS > 1\n", "row 0, field 1: 'when': name, condition, for, apart, peak, severity, note are the columns, each once"),
    ("name,name\n", "row 0, field 1: 'name': name, condition, for, apart, peak, severity, note are the columns, each once"),
    ("name\nA\n", "row 0: there is no column condition"),
    (HEADER + "A,IAS > 1\nA,IAS > 2\n", "row 2, field 0: 'A': a name of its own, of up to 16 letters, digits, _, - and points"),
    (HEADER + "A,SPEED > 1\n", "row 1, field 1: SPEED is no parameter and no derived value of a row above"),
    (HEADER + "A,exec('IAS')\n", "row 1, field 1: \"'\" isn't part of an expression"),
    (HEADER + "A,IAS > 1,soon\n", "row 1, field 2: 'soon' is no length of time, as 1s or 250ms"),
    (HEADER + "A,IAS > 1,1s,-1s\n", "row 1, field 3: '-1s' is no length of time, as 1s or 250ms"),
    (HEADER + "A,IAS > 1,,,IAS\n", "row 1, field 4: 'IAS': max or min, and what it is of, as max IAS"),
    (HEADER + "A,IAS > 1,,,max IAS**2\n", "row 1, field 4: it has the operator Pow, and + - * / // % & | << >> are those that there are"),
    (HEADER + "A,IAS > 1,,,,low:1\n", "row 1, field 5: 'low:1': names with peaks, as low:250; high:270, of a rule with a peak"),
    (HEADER + "A,IAS > 1,,,max IAS,high:9;low:1\n", "row 1, field 5: 'low:1' isn't more severe than the one before"),
    (HEADER + "A,IAS > 1,,,,,ALT;B\n", "row 1, field 6: B is no parameter and no derived value of a row above"),
    (HEADER + "A,IAS > 1,,,,,,\n", "row 1, field 7: the header has 7 columns"),
]


@pytest.mark.parametrize("text, said", WRONG)
def test_wrong_rules(flight: Tool, table: pathlib.Path, write: Write, text: str, said: str) -> None:
    answer = flight("events", table.with_name("l"), "--table", table, "--rules", write("e.csv", text))
    assert answer == (1, b"", f"flight: e.csv {said}\n")


@pytest.mark.parametrize(
    "words, said",
    [
        (("flights", "--when", "IAS >"), "--when: 'IAS >' can't be read"),
        (("flights", "--when", "IAS > 1", "--for", "x"), "'x' is no length of time, as 1s or 250ms"),
        (("table", "--flight", "1"), "--flight and --when go together"),
        (("table", "--for", "1s"), "--for and --apart are of --flight and --when"),
        (("table", "--flight", "3", "--when", "IAS > 60"), "--flight 3: there are 2 flights"),
        (("table", "--flight", "1", "--when", "IAS > 60", "--from", "3s"), "--flight chooses times: --from, --to and --recording don't go with it"),
    ],
)
def test_wrong_words(flight: Tool, table: pathlib.Path, words: tuple[str, ...], said: str) -> None:
    answer = flight(words[0], table.with_name("l"), "--table", table, *words[1:])
    assert answer == (1, b"", f"flight: {said}\n")


def test_a_flight_alone_and_its_events_in_a_table(flight: Tool, table: pathlib.Path, write: Write) -> None:
    rules = write("e.csv", HEADER + "FAST,IAS > 98,,,max IAS,,\n")
    words = ("--table", table, "--flight", 2, "--when", "IAS > 60", "--events", rules)
    for more in ((), ("--wide",), ("--every", "1s")):
        found = read(flight("table", table.with_name("l"), *words, *more).out)
        times = [float(row["time"]) for row in found if not row["note"]]
        assert 500.1 < min(times) <= 501 and 599 <= max(times) < 600
        assert [row["note"].removeprefix("event: ") for row in found if row["note"]] == ["FAST: 99 s, peak 99"]


def test_a_flight_alone_and_its_events_in_a_picture(flight: Tool, table: pathlib.Path, write: Write, tmp_path: pathlib.Path) -> None:
    rules = write("e.csv", HEADER + "FAST,IAS > 98,,,max IAS,,\nSLOW,IAS < 20,,,,,\nHIGH,ALT > 400,,,,,\n")
    path = tmp_path / "f.html"
    assert flight("plot", table.with_name("l"), "--table", table, "-o", path, "--events", rules, "--flight", 2, "--when", "IAS > 60").status == 0
    data = json.loads(re.findall(r'(?s)<script type="application/json" id="flight">(.*?)</script>', path.read_text())[0])
    assert [(span["event"], span["text"]) for span in data["spans"]] == [("event", "FAST: 99 s, peak 99"), ("event", "HIGH: 98 s")]
    assert [curve["count"] for curve in data["curves"]] == [100, 99, 99]


def test_flights_and_events_in_a_report(flight: Tool, fdr: Fdr, write: Write, tmp_path: pathlib.Path) -> None:
    table = encoder.read_table(write("t.csv", TABLE))
    words = [encoder.Word(at * 1_000_000, 0, encoder.word_of(1, 0, 90 if 20 <= at < 60 else 5)) for at in range(100)]
    bits = write("bits", encoder.recording_of(table, words, 100_000_000).bits())
    rules = write("e.csv", HEADER + "FAST,IAS > 60,,,max IAS,,ALT\n")
    folder = tmp_path / "r"
    more = ("--when", "IAS > 60", "--events", rules, "--flight", 1)
    answer = flight("report", bits, "--table", tmp_path / "t.csv", "-o", folder, "--as", "bits", *more)
    assert (answer.status, answer.error) == (0, "")
    found = json.loads((folder / "findings.json").read_text())
    assert [(one["recording"], one["begin"], one["end"]) for one in found["flights"]] == [(1, 20.140625, 59.140625)]
    assert [(one["rule"], one["peak"], one["notes"]) for one in found["events"]] == [("FAST", 90.0, "ALT 0")]
    assert (folder / "flights.csv").is_file() and (folder / "events.csv").is_file()
    page = (folder / "report.html").read_text()
    assert "These events are by rules that are tested and not proved" in page
    assert '"count":40' in page  # the curves are of the flight
    assert "event-rules.csv" in (folder / "SHA256SUMS").read_text()
