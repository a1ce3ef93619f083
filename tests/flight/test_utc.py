"""The time of day by a recorded clock: its offset and rate, where it disagrees, dates, and gaps whose length it tells."""

import csv
import datetime
import io
import math
import pathlib
import re
from typing import Callable

import numpy as np
import pytest

from conftest import Tool, Write
from flight_recorder import utc
from flight_recorder.clock import SECOND

TABLE = """\
F,64,2,1
P,S,0,1,,11,6,U,1,1,0,0,64
L,S,1,1234,10,0,1,6,0,1
P,M,0,1,,11,6,U,1,1,0,0,64
L,M,1,1234,11,0,1,6,0,1
P,H,0,1,,11,5,U,1,1,0,0,64
L,H,1,1234,12,0,1,5,0,1
P,D,0,2,,11,5,U,1,1,0,0,16
L,D,1,1,13,0,1,5,0,1
P,MO,0,2,,11,4,U,1,1,0,0,16
L,MO,1,1,14,0,1,4,0,1
P,Y,0,2,,11,7,U,1,1,0,0,16
L,Y,1,1,15,0,1,7,0,1
P,SOD,0,3,,11,17,U,1,1,0,0,64
L,SOD,1,1234,16,0,1,12,0,1
L,SOD,2,1234,17,0,1,5,0,1
"""
CLOCK = "clock,utc,H,M,S\n"
DAY = 86400
Told = Callable[[float], int | None]  # the clock's seconds since 1970 at a time of the recording; none where its values are bad


def clock(offset: float, rate: float = 0.0) -> Told:
    """A clock whose seconds are whole."""
    return lambda time: math.floor(offset + time * (1 + rate))


def rows(frames: range, told: Told, counter: int = 0) -> str:
    """Frames of a recorder that samples a clock once a second, and its date once a frame."""
    text = []
    for number in frames:
        for subframe in range(4):
            time = 4 * number + subframe + 9 / 64
            seconds = told(time)
            whole = 0 if seconds is None else seconds
            hours, minutes, second = whole // 3600 % 24, whole // 60 % 60, whole % 60
            values = [(10, "S", 63 if seconds is None else second), (11, "M", minutes), (12, "H", hours), (16, "SOD", whole % DAY)]
            if subframe == 0:
                date = datetime.date(1970, 1, 1) + datetime.timedelta(days=whole // DAY)
                values += [(13, "D", date.day), (14, "MO", date.month), (15, "Y", date.year % 100)]
            text += [f"row,{(number + counter) % 4096},{subframe + 1},{word},{name},{value}\n" for word, name, value in sorted(values)]
    return "".join(text)


Table = Callable[..., list[dict[str, str]]]


@pytest.fixture
def table(flight: Tool, write: Write) -> Table:
    """Reads a table of a listing."""

    def run(listing: str, *words: object, describe: str = CLOCK) -> list[dict[str, str]]:
        write("t.describe.csv", describe)
        answer = flight("table", write("l", listing), "--table", write("t.csv", TABLE), *words)
        assert (answer.status, answer.error) == (0, "")
        return list(csv.DictReader(io.StringIO(answer.out.decode())))

    return run


def notes(found: list[dict[str, str]]) -> list[tuple[float, str]]:
    """The times and texts of what is said of the clock, and of gaps."""
    return [(float(row["time"]), row["note"]) for row in found if row["note"]]


def seconds_of(text: str) -> float:
    """A time of day, or a date with it, in seconds."""
    if len(text) > 13:
        return datetime.datetime.fromisoformat(text).timestamp()
    hours, minutes, seconds = text.removesuffix("Z").split(":")
    return int(hours) * 3600 + int(minutes) * 60 + float(seconds)


def test_each_row_has_the_time_of_day(table: Table) -> None:
    found = table(rows(range(100), clock(36_000.3)))
    assert list(found[0])[:4] == ["recording", "session", "time", "utc"]
    for row in found:
        assert abs(seconds_of(row["utc"]) - 36_000.3 - float(row["time"])) < 0.51
    assert notes(found) == [(0.0, "utc is 10:00:00.359Z here, rate +0.0 ppm, by 399 of 399 changes of the clock")]


@pytest.mark.parametrize("ppm", [50, -50])
def test_a_recorder_that_is_off_by_50_ppm_in_25_hours(ppm: int) -> None:
    """The moments alone, since 25 hours have many rows: the clock is 4.5 s away at the end without a rate."""
    time = np.arange(90_000) * SECOND + 144
    told = np.floor(36_000.3 + time / SECOND * (1 + ppm * 1e-6)) % DAY
    ones = np.ones(len(time), dtype=np.int64)
    fit = utc.fit_of(utc.changes_of(utc.Readings(time, ones, ones, told)), False)
    assert fit is not None
    assert fit.rate * 1e6 == pytest.approx(ppm, abs=3)
    for at in (0, 45_000, 90_000):
        assert float(fit.at(np.array([at]))[0]) == pytest.approx(36_000.3 + at * (1 + ppm * 1e-6), abs=0.6)


def test_over_midnight_and_a_date_that_is_given(table: Table) -> None:
    listing = rows(range(50), clock(DAY - 100.5))
    assert {row["utc"][:2] for row in table(listing)} == {"23", "00"}
    found = table(listing, "--date", "2026-12-31", "--every", "10s")
    begin = datetime.datetime(2026, 12, 31, 23, 58, 19, 500_000, tzinfo=datetime.timezone.utc).timestamp()
    for row in found:
        assert seconds_of(row["utc"]) == pytest.approx(begin + float(row["time"]), abs=0.51)
    assert {row["utc"][:10] for row in found} == {"2026-12-31", "2027-01-01"}


def test_a_recorded_date_and_a_count_of_seconds(table: Table) -> None:
    begin = datetime.datetime(2026, 2, 28, 23, 59, 0, tzinfo=datetime.timezone.utc).timestamp()
    listing = rows(range(50), clock(begin + 0.3))
    for names in ("H,M,S,D,MO,Y", "SOD,D,MO,Y"):
        found = table(listing, describe=f"clock,utc,{names}\n")
        assert all(abs(seconds_of(row["utc"]) - begin - 0.3 - float(row["time"])) < 0.51 for row in found)
        assert [note for _, note in notes(found)] == [notes(found)[0][1]]  # the date that is sampled later is no disagreement
        assert {row["utc"][:10] for row in found} == {"2026-02-28", "2026-03-01"}
    alone = table(listing, describe="clock,utc,SOD\n")
    assert abs(seconds_of(alone[0]["utc"]) - (DAY - 59.7)) < 0.51


def test_digits_of_a_clock_are_derived(table: Table) -> None:
    describe = "derived,SEC,S % 60\nderived,MIN,SOD // 60 % 60\nclock,utc,H,MIN,SEC\n"
    found = table(rows(range(50), clock(36_000.3)), describe=describe)
    assert all(abs(seconds_of(row["utc"]) - 36_000.3 - float(row["time"])) < 0.51 for row in found)


def test_values_that_are_held_are_no_readings(table: Table) -> None:
    """A clock of which a word comes each ten seconds: held values between are up to ten seconds old."""
    found = table(rows(range(200), lambda time: math.floor((36_000.3 + time) / 10) * 10))
    assert all(abs(seconds_of(row["utc"]) - 36_000.3 - float(row["time"])) < 1 for row in found)
    assert len(notes(found)) == 1


def test_a_clock_that_is_set_anew(table: Table) -> None:
    listing = rows(range(300), lambda time: math.floor(36_000.3 + time + 3600 * (time > 917)))
    found = table(listing)
    assert all(abs(seconds_of(row["utc"]) - 36_000.3 - float(row["time"])) < 0.51 for row in found)
    assert [text for _, text in notes(found)][1:] == ["the clock is 3600.0 s ahead, at 283 changes"]
    assert notes(found)[1][0] == pytest.approx(917, abs=1)
    for words in ((), ("--wide",), ("--every", "1s")):  # what is said stands at its time
        times = [float(row["time"]) for row in table(listing, *words)]
        assert times == sorted(times)


def test_a_clock_that_stands_still_and_one_with_bad_values(table: Table) -> None:
    found = table(rows(range(300), lambda time: math.floor(36_000.3 + (500 if 500 < time < 560 else time))))
    assert [text for _, text in notes(found)][1:] == ["the clock stands still for 60 s"]
    assert notes(found)[1][0] == pytest.approx(500, abs=1)
    found = table(rows(range(300), lambda time: None if 500 < time < 510 else math.floor(36_000.3 + time)))
    assert [text for _, text in notes(found)][1:] == ["the clock's values are no time, in 10 samples"]
    assert all(abs(seconds_of(row["utc"]) - 36_000.3 - float(row["time"])) < 0.51 for row in found)


def test_a_clock_that_is_wrong_at_first_for_less_than_half(table: Table) -> None:
    found = table(rows(range(300), lambda time: math.floor(time + (77 if time < 500 else 36_000.3))))
    assert [text for _, text in notes(found)][1:] == ["the clock is 35923.0 s behind, at 499 changes"]
    assert abs(seconds_of(found[0]["utc"]) - 36_000.3) < 0.51


def test_a_clock_that_never_changes(table: Table) -> None:
    found = table(rows(range(20), lambda time: 36_000))
    assert {row["utc"] for row in found} == {""}
    assert notes(found) == [(0.0, "no utc: the clock never changes")]


def test_gaps_of_unknown_length_are_as_long_as_the_clock_says(table: Table) -> None:
    """1,200 s and a whole round of the counter are missing, of which few bits are left; and the counter goes back by an error."""
    for later in (300, 300 + 4096):
        listing = rows(range(100), clock(36_000.3)) + "gap,307200,100\n" + rows(range(100 + later, 200 + later), clock(36_000.3))
        found = table(listing)
        assert {row["recording"] for row in found} == {"1"}
        said = f"from bit 307200, 100 bits: {4 * later} s, by the clock {4 * later}.0 s"
        assert notes(found)[1] == (400.0, said)
        assert all(abs(seconds_of(row["utc"]) - (36_000.3 + float(row["time"])) % DAY) < 0.51 for row in found)


def test_a_recording_that_begins_anew(table: Table) -> None:
    listing = rows(range(100), clock(36_000.3)) + "gap,307200,100\n" + rows(range(100), clock(36_457.9))
    found = table(listing, "--date", "2026-05-04")
    assert {row["recording"] for row in found} == {"1", "2"}
    begins = {row["recording"]: row["utc"] for row in reversed(found) if "utc is" in row["note"]}
    assert [text[:17] for text in begins.values()] == ["2026-05-04T10:07:", "2026-05-04T10:00:"]
    assert "the counter goes from 99 to 0, by the clock 58.0 s later" in [row["note"] for row in found]


def test_a_counter_that_jumps_back_is_the_same_recording_by_the_clock(table: Table) -> None:
    """Three thousand frames are missing: the counter alone takes them for going back."""
    later = 3000
    listing = rows(range(1500, 1600), clock(36_000.3)) + "gap,307200,100\n" + rows(range(1600 + later, 1700 + later), clock(36_000.3))
    found = table(listing)
    assert {row["recording"] for row in found} == {"1"}
    assert notes(found)[1][1] == "from bit 307200, 100 bits: 12000 s, by the clock 12000.0 s"
    assert {row["recording"] for row in table(listing, "--no-describe")} == {"1", "2"}


def test_later_recordings_go_on_with_the_date(table: Table) -> None:
    listing = "session,1,0\n" + rows(range(50), clock(DAY - 300.5)) + "session,2,9\n" + rows(range(50), clock(60.2))
    found = table(listing, "--date", "2026-05-04")
    assert {(row["recording"], row["utc"][:10]) for row in found} == {("1", "2026-05-04"), ("2", "2026-05-05")}
    found = table(listing, "--date", "2026-05-04", "--date", "2=2026-05-09")
    assert {(row["recording"], row["utc"][:10]) for row in found} == {("1", "2026-05-04"), ("2", "2026-05-09")}


@pytest.mark.parametrize("date", ["2026-13-01", "x=2026-05-04", "2026-05-04T10:00:00", "0=2026-05-04"])
def test_wrong_dates(flight: Tool, write: Write, date: str) -> None:
    write("t.describe.csv", CLOCK)
    answer = flight("table", write("l", rows(range(2), clock(5))), "--table", write("t.csv", TABLE), "--date", date)
    assert answer == (1, b"", f"flight: --date {date!r}: a date as 2026-05-04, with 2= before it for the second recording\n")


def test_a_date_for_a_clock_that_has_one(flight: Tool, write: Write) -> None:
    write("t.describe.csv", "clock,utc,H,M,S,D,MO,Y\n")
    answer = flight("table", write("l", rows(range(20), clock(1e9))), "--table", write("t.csv", TABLE), "--date", "2026-05-04")
    assert answer == (1, b"", "flight: --date: the clock of the description has its own date\n")


def test_what_a_clock_says_is_in_the_picture(flight: Tool, write: Write, tmp_path: pathlib.Path) -> None:
    write("t.describe.csv", CLOCK)
    listing = write("l", rows(range(300), lambda time: math.floor(36_000.3 + time + 3600 * (time > 917))))
    path = tmp_path / "f.svg"
    assert flight("plot", listing, "--table", write("t.csv", TABLE), "--date", "2026-05-04", "-o", path, "--only", "S").status == 0
    text = re.sub(r"<!--|-->", " ", path.read_text())
    assert "the clock is 3600.0 s ahead" in text and "2026-05-04T10:00:00" in text
