"""`flight values`: which values a table's parameters can have, by hand."""

import pytest

from conftest import Tool, Write

TABLE = """\
F,64,2,1
P,WRONG,0,0,,1,12,U,1,8,0,1,64
L,WRONG,1,1234,10,0,1,12,0,1
P,RIGHT,0,0,,1,12,U,10,8,0,1,64
L,RIGHT,1,1234,11,0,1,12,0,1
P,TEMP,0,0,,1,8,S,5,1,-400,1,64
L,TEMP,1,1234,12,0,1,8,0,1
P,DOWN,0,0,,1,3,S,-2,3,0,0,64
L,DOWN,1,1234,13,0,1,3,0,1
P,SAME,0,0,,1,2,U,0,1,7,0,64
L,SAME,1,1234,13,0,4,2,0,1
P,OK,0,0,,1,1,V,1,1,0,0,64,1000
L,OK,1,1234,13,0,12,1,0,1
P,WIDE,0,0,,1,32,S,1000000000,1,-1000000000000000,9,1
L,WIDE,1,1,14,0,1,8,0,16
L,WIDE,2,1,15,0,1,8,0,16
L,WIDE,3,1,16,0,1,8,0,16
L,WIDE,4,1,17,0,1,8,0,16
"""
ROWS = [
    "name,bits,sign,least,greatest,step,all ones,unit,note",
    "WRONG,12,U,0.0,51.1,0.0125,51.1,kt,rounded down to 0.1",
    "RIGHT,12,U,0.0,511.8,0.125,511.8,kt,Airspeed; rounded down to 0.1",
    "TEMP,8,S,-104.0,23.5,0.5,-40.5,,",
    'DOWN,3,S,-2,2,2/3,0,,"rounded down to 1; values go down as the raw number goes up; 2 OUT, FULL"',
    "SAME,2,U,7,7,0,7,,all values are alike",
    "OK,1,V,0,1,1,1,,tells whether a word is fresh",
    "WIDE,32,S,-2148483648.000000000,2146483647.000000000,1,-1000001.000000000,,",
]


def test_the_values_of_a_table(flight: Tool, write: Write) -> None:
    table = write("t.csv", TABLE)
    write("t.describe.csv", 'unit,WRONG,kt,\nunit,RIGHT,kt,Airspeed\nstate,DOWN,2,"OUT, FULL"\n')
    path = table.with_name("values.csv")
    assert flight("values", table, "-o", path) == (0, b"", "")
    assert path.read_text().splitlines() == ROWS
    lines = flight("values", table).out.decode().splitlines()
    assert lines[0].split() == "name bits sign least greatest step all ones unit note".split()
    assert lines[2].split() == "RIGHT 12 U 0.0 511.8 0.125 511.8 kt Airspeed; rounded down to 0.1".split()


def test_without_a_description(flight: Tool, write: Write) -> None:
    lines = flight("values", write("t.csv", TABLE.replace("\n", "\r\n"))).out.decode().splitlines()
    assert lines[2].split() == "RIGHT 12 U 0.0 511.8 0.125 511.8 rounded down to 0.1".split()


@pytest.mark.parametrize(
    "row, said",
    [
        ("unit,A,kt", "field 1: the table has no parameter 'A'"),
        ("units,A,kt,", "field 0: 'units': unit, state, points, derived and clock are the kinds of rows"),
        ("state,A,1,B,C", "field 4: the row is state,NAME,VALUE,WORD"),
    ],
)
def test_a_wrong_description(flight: Tool, write: Write, row: str, said: str) -> None:
    table = write("t.csv", TABLE)
    write("t.describe.csv", f"unit,WRONG,kt,\n{row}\n")
    answer = flight("values", table)
    assert answer == (1, b"", f"flight: t.describe.csv row 1, {said}\n")


@pytest.mark.parametrize("field", [(6, "33"), (7, "X"), (8, "1.5"), (9, "0"), (10, "--1"), (11, "10")])
def test_a_row_that_is_wrong(flight: Tool, write: Write, field: tuple[int, str]) -> None:
    fields = "P,A,0,0,,1,12,U,1,8,0,1,64".split(",")
    fields[field[0]] = field[1]
    answer = flight("values", write("t.csv", "F,64,2,1\n" + ",".join(fields) + "\nL,A,1,1234,10,0,1,12,0,1\n"))
    assert answer == (1, b"", f"flight: table row {1}: `fdr check` says what is wrong with it\n")
