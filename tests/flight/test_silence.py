"""`flight check-trace`: counts, rates, silences and parities of a trace with known words, and tables that are refused."""

import pathlib
import pytest

import encoder
from conftest import Tool, Write
from encoder import Word, word_of

TABLE = """\
F,64,2,1
P,ALT,0,203,,11,12,U,1,1,0,0,16
L,ALT,1,1,10,0,1,12,0,1
P,ONE,0,203,1,11,12,U,1,1,0,0,16
L,ONE,1,1,11,0,1,12,0,1
P,IAS,1,206,,11,12,U,1,1,0,0,16
L,IAS,1,1,12,0,1,12,0,1
P,OFF,1,207,,11,12,U,1,1,0,0,16
L,OFF,1,1,13,0,1,12,0,1
"""
SECOND = 1_000_000
EVEN = 1 << 31
WORDS = [
    Word(0, 0, word_of(0o203, 0, 5)),
    Word(1 * SECOND, 0, word_of(0o203, 1, 5)),
    Word(2 * SECOND, 0, word_of(0o203, 0, 5) ^ EVEN),
    Word(3 * SECOND, 1, word_of(0o207, 0, 5) ^ EVEN),
    Word(5 * SECOND, 0, word_of(0o203, 0, 5)),
    Word(5 * SECOND, 1, word_of(0o204, 2, 5)),
    Word(6 * SECOND, 1, word_of(0o204, 2, 5)),
]
SAID = """\
parameter  bus  label  sdi  words  a second  longest silence  even parity
ALT          0    203  any      4      0.40          5.000 s            1
ONE          0    203    1      1      0.10          9.000 s            0
IAS          1    206  any      0      0.00         10.000 s            0  NONE CAME
OFF          1    207  any      1      0.10         10.000 s            1  ALL OF EVEN PARITY
-            1    204    2      2      0.20                                no parameter asks for it
"""


def test_known_words(flight: Tool, write: Write) -> None:
    answer = flight("check-trace", write("t.csv", TABLE), write("t", encoder.trace_of(WORDS, 10 * SECOND)))
    assert answer == (2, SAID.encode(), "")


def test_all_came(flight: Tool, write: Write) -> None:
    table = "".join(TABLE.splitlines(keepends=True)[:5])
    answer = flight("check-trace", write("t.csv", table), write("t", encoder.trace_of(WORDS[:2], 10 * SECOND)))
    assert answer.status == 0


def test_silences_over_pieces_of_a_trace(flight: Tool, write: Write) -> None:
    words = [Word(number * 10, 0, word_of(0o203, number % 4, 5)) for number in range(200_000)]
    table = write("t.csv", TABLE)
    rows = flight("check-trace", table, write("t", encoder.trace_of(words, 2 * SECOND))).out.decode().splitlines()
    assert rows[1].split() == ["ALT", "0", "203", "any", "200000", "100000.00", "0.000", "s", "0"]
    assert rows[2].split() == ["ONE", "0", "203", "1", "50000", "25000.00", "0.000", "s", "0"]


def test_silence_before_the_first_word(flight: Tool, write: Write) -> None:
    trace = encoder.trace_of([Word(6 * SECOND, 0, word_of(0o203, 1, 5))], 7 * SECOND)
    rows = flight("check-trace", write("t.csv", TABLE), write("t", trace)).out.decode().splitlines()
    assert rows[2].split()[6:8] == ["6.000", "s"]


def test_a_silence_over_pieces_of_a_trace(flight: Tool, write: Write) -> None:
    words = [Word(SECOND * number // 1000, 1, word_of(0o206, 0, 5)) for number in range(140_000)]
    words = sorted(words + [Word(second * SECOND, 0, word_of(0o203, 1, 5)) for second in (2, 80, 135)])
    rows = flight("check-trace", write("t.csv", TABLE), write("t", encoder.trace_of(words, 140 * SECOND))).out.decode()
    assert rows.splitlines()[2].split()[6:8] == ["78.000", "s"]


def test_parameters_with_an_age(flight: Tool, write: Write) -> None:
    table = TABLE.replace("P,ONE,", "P,OK,0,203,1,11,1,V,1,1,0,0,16,2000000\nP,ONE,")
    trace = encoder.trace_of([Word(0, 0, word_of(0o203, 1, 5))], SECOND)
    rows = flight("check-trace", write("t.csv", table), write("t", trace)).out.decode().splitlines()
    assert "OK" in [row.split()[0] for row in rows]


def test_an_empty_trace(flight: Tool, write: Write) -> None:
    out = flight("check-trace", encoder.TOP / "examples" / "t1.csv", write("t", encoder.trace_of([], 0))).out.decode()
    assert out.splitlines()[1].split() == ["ALT", "0", "203", "any", "0", "-", "0.000", "s", "0", "NONE", "CAME"]


@pytest.mark.parametrize(
    "table, row",
    [
        ("X,1\n", 0), ("F,65,2,1\n", 0), ("F,64,2,1\nF,64,2,1\n", 1), ("F,64,2,1\nP,A B,0,203,,11,12,U,1,1,0,0,16\n", 1),
        ("F,64,2,1\nP,A,0,400,,11,12,U,1,1,0,0,16\n", 1), ("F,64,2,1\nP,A,256,203,,11,12,U,1,1,0,0,16\n", 1),
        ("F,64,2,1\nP,A,0,203,4,11,12,U,1,1,0,0,16\n", 1), ("F,64,2,1\nL,A,1,1,10,0,1,12,0,1\n", 1),
        ("F,64,2,1\n\nP,A,0,203,,11\n", 1), (TABLE + "P,ALT,0,203,,11,12,U,1,1,0,0,16\n", 9), ("F,64,2,1\nP,A,0,208,,11,12,U,1,1,0,0,16\n", 1),
    ],
)  # fmt: skip
def test_refused_tables(flight: Tool, write: Write, table: str, row: int) -> None:
    answer = flight("check-trace", write("t.csv", table), write("t", encoder.trace_of([], 0)))
    assert answer == (1, b"", f"flight: table row {row}: `fdr check` says what is wrong with it\n")


def test_no_rows_and_no_file(flight: Tool, write: Write, tmp_path: pathlib.Path) -> None:
    assert flight("check-trace", write("t.csv", ""), "-").error == "flight: table row 0: no frame row\n"
    assert (
        flight("check-trace", tmp_path / "none", "-").error == f"flight: {tmp_path}/none: No such file or directory\n"
    )
