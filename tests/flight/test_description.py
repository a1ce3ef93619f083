"""Descriptions: what each kind of row makes of known listings in each table, over gaps, and which rows are refused."""

import csv
import io
import pathlib

import pandas
import pytest

from conftest import Tool, Write

TABLE = """\
F,64,2,1
P,TENS,0,1,,11,4,U,1,1,0,0,64
L,TENS,1,1234,10,0,1,4,0,1
P,ONES,0,2,,11,4,U,1,1,0,0,64
L,ONES,1,1234,11,0,1,4,0,1
P,GEAR,0,3,,11,1,U,1,1,0,0,64
L,GEAR,1,1234,12,0,1,1,0,1
P,N1,0,4,,11,12,U,1,1,0,0,16
L,N1,1,1,13,0,1,12,0,1
P,T,0,5,,11,12,S,1,1,0,1,16
L,T,1,2,14,0,1,12,0,1
"""
DESCRIPTION = """\
# for the tests
unit,N1,%,Fan speed
points,N1,0:0,512:20.5,4095:110.2
unit,T,degC
state,GEAR,0,up
state,GEAR,1,"down, locked"
derived,SUM,TENS * 10 + ONES,kg,"Mass, gross"
derived,RATIO,T / (ONES - 3)
state,RATIO,0,none
"""


def rows(counter: int, subframe: int, *samples: tuple[int, str, object]) -> str:
    return "".join(f"row,{counter},{subframe},{word},{name},{value}\n" for word, name, value in samples)


def frame(counter: int, mass: int, gear: int = 0, n1: int = 512, t: str = "2.5") -> str:
    """A frame in which the digits of a mass count up by one each second."""
    text = ""
    for subframe in range(1, 5):
        tens, ones = divmod(mass + subframe - 1, 10)
        own = [(10, "TENS", tens), (11, "ONES", ones), (12, "GEAR", gear)]
        text += rows(counter, subframe, *own, *[(13, "N1", n1)] * (subframe == 1), *[(14, "T", t)] * (subframe == 2))
    return text


LISTING = frame(0, 17, n1=0) + frame(1, 21, 1, 5000 - 4095) + "gap,6144,6144\n" + frame(4, 90, n1=4095, t="-0.5")


@pytest.fixture
def described(write: Write) -> pathlib.Path:
    write("t.describe.csv", DESCRIPTION)
    write("l", LISTING)
    return write("t.csv", TABLE)


def read(out: bytes) -> list[dict[str, str]]:
    return list(csv.DictReader(io.StringIO(out.decode())))


def test_a_long_table(flight: Tool, described: pathlib.Path) -> None:
    answer = flight("table", described.parent / "l", "--table", described)
    assert (answer.status, answer.error) == (0, "")
    head = answer.out.decode().splitlines()[0]
    assert head == (
        'recording,session,time,counter,subframe,word,name,value,unit,state,scaled,"SUM (derived) [kg] Mass, gross",'
        "RATIO (derived),RATIO (state),note"
    )
    table = read(answer.out)
    listed = [line.split(",") for line in LISTING.splitlines() if line.startswith("row")]
    assert [[row["name"], row["value"]] for row in table if row["name"][0] != "("] == [line[4:6] for line in listed]
    assert [row["SUM (derived) [kg] Mass, gross"] for row in table if row["name"] == "TENS"] == [
        str(one) for one in (*range(17, 25), *range(90, 94))
    ]
    assert {row["SUM (derived) [kg] Mass, gross"] for row in table if row["name"] != "TENS"} == {""}
    assert [row["state"] for row in table if row["name"] == "GEAR"] == ["up"] * 4 + ["down, locked"] * 4 + ["up"] * 4
    assert [(row["value"], row["unit"], row["scaled"]) for row in table if row["name"] == "N1"] == [
        ("0", "", "0"), ("905", "", f"{20.5 + (905 - 512) * 89.7 / 3583:.15g}"), ("4095", "", "110.2")
    ]  # fmt: skip
    ratios = [(row["value"], row["unit"], row["RATIO (derived)"], row["RATIO (state)"]) for row in table if row["name"] == "T"]
    assert ratios == [("2.5", "degC", "0.5", ""), ("2.5", "degC", f"{2.5 / -1:.15g}", ""), ("-0.5", "degC", "0.25", "")]


def test_a_value_outside_its_points_has_none_and_by_0_there_is_none(flight: Tool, write: Write) -> None:
    write("t.describe.csv", "points,N1,10:1,20:2\nderived,D,1 / N1\n")
    text = "".join(rows(at, 1, (13, "N1", value)) for at, value in enumerate([9, 10, 15, 20, 21, 0]))
    answer = flight("table", write("l", text), "--table", write("t.csv", TABLE))
    table = read(answer.out)
    assert [row["scaled"] for row in table] == ["", "1", "1.5", "2", "", ""]
    assert [row["D (derived)"] for row in table] == [f"{1 / one:.15g}" if one else "" for one in [9, 10, 15, 20, 21, 0]]


def test_wide_tables_and_grids_carry_nothing_over_a_gap(flight: Tool, described: pathlib.Path) -> None:
    wide = flight("table", described.parent / "l", "--table", described, "--wide")
    head = next(csv.reader(io.StringIO(wide.out.decode())))
    assert head == [
        "recording", "session", "time", "TENS", "ONES", "GEAR", "GEAR (state)", "N1 Fan speed", "N1 (scaled) [%] Fan speed", "T [degC]",
        "SUM (derived) [kg] Mass, gross", "RATIO (derived)", "RATIO (state)", "note",
    ]  # fmt: skip
    table = read(wide.out)
    grid = read(flight("table", described.parent / "l", "--table", described, "--every", "1s").out)
    assert all(None not in row and None not in row.values() for row in [*table, *grid])  # each row has all fields
    sums = {row["time"]: row["SUM (derived) [kg] Mass, gross"] for row in table if row["SUM (derived) [kg] Mass, gross"]}
    assert list(sums.items())[0] == ("0.140625", "17")
    assert {row["TENS"] for row in table if row["SUM (derived) [kg] Mass, gross"] and float(row["time"]) < 8} == {"1", "2"}
    by_time = {float(row["time"]): row for row in grid if not row["note"]}
    assert [by_time[at]["SUM (derived) [kg] Mass, gross"] for at in (1.0, 2.0, 7.0, 17.0, 19.0)] == ["17", "18", "23", "90", "92"]
    assert not any(8.0 < at < 17.0 for at in by_time)
    assert (by_time[17.0]["N1 (scaled) [%] Fan speed"], by_time[17.0]["T [degC]"], by_time[17.0]["RATIO (derived)"]) == ("110.2", "", "")
    assert [by_time[at]["GEAR (state)"] for at in (4.0, 5.0, 17.0)] == ["up", "down, locked", "up"]


def test_as_hdf5(flight: Tool, described: pathlib.Path, tmp_path: pathlib.Path) -> None:
    for words, many in (((), 40), (("--wide",), 0), (("--every", "1s"), 0)):
        path = tmp_path / "t.h5"
        assert flight("table", described.parent / "l", "--table", described, "-o", path, *words).status == 0
        frame_of = pandas.read_hdf(path, "samples")
        text = flight("table", described.parent / "l", "--table", described, *words).out
        as_text = pandas.read_csv(io.BytesIO(text))
        as_text = as_text[as_text["note"].isna()].reset_index(drop=True)
        for name in ("SUM (derived) [kg] Mass, gross", "RATIO (derived)", "scaled" if many else "N1 (scaled) [%] Fan speed"):
            pandas.testing.assert_series_equal(frame_of[name], as_text[name], check_dtype=False, rtol=1e-12)
        states = "state" if many else "GEAR (state)"
        assert frame_of[states].astype(str).replace("nan", "").tolist() == as_text[states].fillna("").tolist()


def test_the_nearest_sample_counts_and_none_beyond_a_gap(flight: Tool, write: Write) -> None:
    """Digits go together whichever comes first, and a slow parameter's nearest sample counts, in its stretch alone."""
    write("t.describe.csv", "derived,BACK,ONES + TENS * 10\nderived,SLOW,TENS + N1 * 100\n")
    text = frame(0, 17, n1=1) + frame(1, 21, n1=2) + "gap,6144,6144\n" + "".join(rows(4, at, (10, "TENS", at)) for at in (1, 2))
    answer = flight("table", write("l", text), "--table", write("t.csv", TABLE))
    table = read(answer.out)
    assert [row["BACK (derived)"] for row in table if row["name"] == "ONES"] == [str(one) for one in range(17, 25)]
    slow = [row["SLOW (derived)"] for row in table if row["name"] == "TENS"]
    assert slow == ["101", "101", "101", "202", "202", "202", "202", "202", "", ""]


def test_pieces_of_any_size_derive_the_same(flight: Tool, described: pathlib.Path, monkeypatch: pytest.MonkeyPatch) -> None:
    whole = flight("table", described.parent / "l", "--table", described, "--every", "1s").out
    for size in (60, 200, 1000):
        monkeypatch.setattr("flight_recorder.listing.PIECE", size)
        assert flight("table", described.parent / "l", "--table", described, "--every", "1s").out == whole


def test_the_text_of_a_value_stays(flight: Tool, write: Write) -> None:
    """A foreign listing may write a value in several ways: each stays as it is beside its word."""
    write("t.describe.csv", "state,T,0,none\n")
    text = "".join(rows(at, 2, (14, "T", value)) for at, value in enumerate(["0.0", "-0.0", "0", "0.00", "1.0"]))
    answer = flight("table", write("l", text), "--table", write("t.csv", TABLE), "--wide")
    assert [(row["T"], row["T (state)"]) for row in read(answer.out)] == [
        ("0.0", "none"), ("-0.0", "none"), ("0", "none"), ("0.00", "none"), ("1.0", ""),
    ]  # fmt: skip


def test_no_description_leaves_a_table_as_it_was(flight: Tool, described: pathlib.Path, write: Write) -> None:
    plain = write("plain.csv", TABLE)
    for words in ((), ("--wide",), ("--every", "1s")):
        without = flight("table", described.parent / "l", "--table", described, "--no-describe", *words)
        assert without == flight("table", described.parent / "l", "--table", plain, *words)
    path = described.with_name("other.describe.csv")
    path.write_text("unit,T,K\n")
    named = flight("table", described.parent / "l", "--table", plain, "--describe", path, "--wide").out.decode()
    assert named.splitlines()[0].split(",")[3:] == ["TENS", "ONES", "GEAR", "N1", "T [K]", "note"]


WRONG = [
    ("units,T,K", "field 0: 'units': unit, state, points, derived and clock are the kinds of rows"),
    ("unit,TT,K", "field 1: the table has no parameter 'TT'"),
    ("unit,T", "field 2: the row is unit,NAME,UNIT,TITLE"),
    ("unit,T,K,a,b", "field 4: the row is unit,NAME,UNIT,TITLE"),
    ("unit,N1,K", "field 1: N1 has a row of its unit above"),
    ("unit,T,\x07", "field 2: '\\x07': a text has up to 100 signs that can be printed"),
    ("state,GEAR,1", "field 3: the row is state,NAME,VALUE,WORD"),
    ("state,GEAR,on,up", "field 2: 'on' is no number, as -12 or 0.5"),
    ("state,GEAR,1.0,up", "field 2: GEAR has a word for 1.0 above"),
    ("state,GEAR,2,", "field 3: '': a text has up to 100 signs that can be printed"),
    ("state,GEARS,0,up", "field 1: the table has no parameter 'GEARS', and there is no derived value that is called so"),
    ("points,T,0:0", "field 3: the row is points,NAME,NUMBER:VALUE,NUMBER:VALUE and so on"),
    ("points,T,0:0,5", "field 3: '5': the row is points,NAME,NUMBER:VALUE,NUMBER:VALUE and so on"),
    ("points,T,0:0,0:5", "field 3: 0 isn't above the number of the point before"),
    ("points,T,0:0,x:5", "field 3: 'x' is no number, as -12 or 0.5"),
    ("points,N1,0:0,1:1", "field 1: N1 has a row of points above"),
    ("derived,D", "field 2: the row is derived,NAME,EXPRESSION,UNIT,TITLE"),
    ("derived,T,N1", "field 1: 'T': a name of its own, of up to 16 letters, digits, _, - and points"),
    ("derived,A B,N1", "field 1: 'A B': a name of its own, of up to 16 letters, digits, _, - and points"),
    ("derived,D,N1 * NOPE", "field 2: NOPE is no parameter and no derived value of a row above"),
    ("derived,D,__import__(N1)", "field 2: it has a Call, which no expression has"),
    ("derived,D,N1 ** N1", "field 2: it has the operator Pow, and + - * / // % & | << >> are those that there are"),
    ("derived,D,`T (scaled)`", "field 2: T (scaled) is no parameter and no derived value of a row above"),
    ("clock,local,T", "field 1: the clock is called utc"),
    ("clock,utc,T,T", "field 4: a clock has so many names: 1: a count of seconds of the day, or 3: hours, minutes, seconds, or 4: and a day, "
     "a month, a year, or 6: all of these"),
    ("clock,utc,T,NOPE,T", "field 3: the table has no parameter 'NOPE'"),
]  # fmt: skip


@pytest.mark.parametrize("row, said", WRONG)
def test_what_is_refused(flight: Tool, write: Write, row: str, said: str) -> None:
    write("t.describe.csv", f"unit,N1,%\npoints,N1,0:0,1:1\nstate,GEAR,1,down\n{row}\n")
    answer = flight("table", write("l", LISTING), "--table", write("t.csv", TABLE))
    assert answer == (1, b"", f"flight: t.describe.csv row 3, {said}\n")


def test_words_that_don_t_go_together(flight: Tool, described: pathlib.Path) -> None:
    path = described.parent / "l"
    answer = flight("table", path, "--words", 64, "--describe", described.with_name("t.describe.csv"))
    assert answer == (1, b"", "flight: --describe needs --table, whose parameters it describes\n")
    answer = flight("table", path, "--table", described, "--date", "2026-05-04")
    assert answer == (1, b"", "flight: --date is for a description with a clock\n")
