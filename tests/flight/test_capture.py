"""`flight trace` and `flight words`: records with known bytes, round trips, and captures that are refused."""

import random

import pytest

from conftest import Tool, Write
import encoder

ROW = "row"
FIVE = bytes.fromhex("01000000000014C1") + bytes(8)
SEVEN = bytes.fromhex("0100000080001CC1") + (4_000_000).to_bytes(8, "big")
END = bytes([2]) + bytes(7) + (8_000_000).to_bytes(8, "big")


def test_words_as_they_are(flight: Tool, write: Write) -> None:
    capture = write("c.csv", "time,bus,word\n0,0,000014C1\n4,0,0x80001cc1\n")
    assert flight("trace", capture, "--end", "8") == (0, FIVE + SEVEN + END, "")


def test_fields_get_parity(flight: Tool, write: Write) -> None:
    capture = write("c.csv", "bus,label,sdi,data,ssm,time\n0,203,,5,,0\n0,203,0,0x7,0,4\n,end,,,,8\n")
    assert flight("trace", capture).out == FIVE + SEVEN + END


def test_negative_data_and_all_fields(flight: Tool, write: Write) -> None:
    capture = write("c.csv", "time,bus,label,sdi,data,ssm\n0,255,377,3,-1,3\n")
    word = flight("trace", capture).out[4:8].hex()
    assert word == "7fffffff"  # 31 ones already, so bit 32 stays clear


def test_label_first(flight: Tool, write: Write) -> None:
    capture = write("c.csv", "time,bus,word\n0,0,83280000\n4,0,83380001\n")
    assert flight("trace", capture, "--label-first", "--end", 8).out == FIVE + SEVEN + END


@pytest.mark.parametrize(
    "unit, first, last, end",
    [("s", "0.5", "0.500001", "1"), ("ms", "500", "500.001", "1e3"), ("us", "500000", "500001", "1000000")],
)
def test_units(flight: Tool, write: Write, unit: str, first: str, last: str, end: str) -> None:
    capture = write("c.csv", f"time,bus,word\n{first},0,1\n{last},0,1\n")
    out = flight("trace", capture, "--unit", unit, "--end", end).out
    assert [int.from_bytes(out[at + 8 : at + 16], "big") for at in (0, 16, 32)] == [500_000, 500_001, 1_000_000]


def test_dates_count_from_the_first(flight: Tool, write: Write) -> None:
    capture = write("c.csv", "time,bus,word\n2026-11-29T23:59:59.5Z,0,1\n2026-11-30T01:00:00.500001+01:00,0,1\n")
    out = flight("trace", capture, "--end", "2026-11-30T00:00:02Z").out
    assert [int.from_bytes(out[at + 8 : at + 16], "big") for at in (0, 16, 32)] == [0, 1_000_001, 2_500_000]


def test_the_last_word_ends_it_without_another_end(flight: Tool, write: Write) -> None:
    out = flight("trace", write("c.csv", "time,bus,word\n1,0,1\n2.5,0,1\n")).out
    assert out[-16:] == bytes([2]) + bytes(7) + (2_500_000).to_bytes(8, "big")


def test_a_capture_without_rows(flight: Tool, write: Write) -> None:
    assert flight("trace", write("c.csv", "time,bus,word\n"), "--end", "0").out == bytes([2]) + bytes(15)


def test_sorting(flight: Tool, write: Write) -> None:
    capture = write("c.csv", "time,bus,word\n4,0,80001CC1\n0,0,000014C1\n8,,end\n")
    assert flight("trace", capture, "--sort").out == FIVE + SEVEN + END


def test_sorted_dates_count_from_the_earliest(flight: Tool, write: Write) -> None:
    rows = "2026-01-01T00:00:04,0,80001CC1\n2026-01-01T00:00:00,0,000014C1\n2026-01-01T00:00:08,,end\n"
    assert flight("trace", write("c.csv", "time,bus,word\n" + rows), "--sort").out == FIVE + SEVEN + END


def test_marks_of_spreadsheets(flight: Tool, write: Write) -> None:
    capture = write("c.csv", "\ufeffTime,Bus,Word\r\n0,0,000014C1\r\n\r\n4,0,80001CC1\r\n")
    assert flight("trace", capture, "--end", 8).out == FIVE + SEVEN + END


REFUSED = [
    ("", 1, "the header names no column `time`; --columns time=NAME says which it is"),
    ("time,word\n", 1, "the header names no column `bus`; --columns bus=NAME says which it is"),
    ("time,bus\n", 1, "the header names neither a column `word` nor a column `label`"),
    ("time,bus,label\n", 1, "the header names a column `label` and no column `data`"),
    ("time,bus,word\n0,0\n", 2, "it has 2 fields, and the header 3"),
    ("time,bus,word\n0,0,1\n\nx,0,1\n", 4, "time 'x'"),
    ("time,bus,word\n-1,0,1\n", 2, "the time is -1.0 seconds, and a recording has 0 to 1440000"),
    (
        "time,bus,word\n1440000.000001,0,1\n",
        2, "the time is 1440000.000001 seconds, and a recording has 0 to 1440000",
    ),
    ("time,bus,word\nnan,0,1\n", 2, "time 'nan'"),
    ("time,bus,word\n1_0,0,1\n", 2, "time '1_0'"),
    ("time,bus,word\n0,256,1\n", 2, "bus '256': a bus is 0 to 255; --bus 256=0 gives a name a number"),
    ("time,bus,word\n0,A,1\n", 2, "bus 'A': a bus is 0 to 255; --bus A=0 gives a name a number"),
    ("time,bus,word\n0,0,1FFFFFFFF\n", 2, "word '1FFFFFFFF'"),
    ("time,bus,word\n0,0,12G\n", 2, "word '12G'"),
    ("time,bus,label,data\n0,0,400,1\n", 2, "label '400'"),
    ("time,bus,label,data\n0,0,208,1\n", 2, "label '208'"),
    ("time,bus,label,data\n0,0,203,524288\n", 2, "data '524288'"),
    ("time,bus,label,data,sdi\n0,0,203,1,4\n", 2, "sdi '4'"),
    ("time,bus,label,data,ssm\n0,0,203,1,-1\n", 2, "ssm '-1'"),
    ("time,bus,word,label\n0,0,000014C1,204\n", 2, "label '204' isn't that of the row's word"),
    ("time,bus,word,label,sdi\n0,0,000014C1,203,\n1,0,000016C1,203,1\n", 3, "sdi '1' isn't that of the row's word"),
    ("time,bus,word\n5,0,1\n4,0,1\n", 3, "time goes back; --sort puts the rows in order"),
    ("time,bus,word\n0,0,1\n2026-01-01T00:00:00,0,1\n", 3, "time '2026-01-01T00:00:00'"),
    ("time,bus,word\n2026-01-01T00:00:00,0,1\n2026-01-01T00:00:00Z,0,1\n", 3, "time '2026-01-01T00:00:00Z'"),
    ("time,bus,word\n4,,end\n5,0,1\n", 3, "rows after the one of the end"),
    ("time,bus,word\n5,0,1\n4,,end\n", None, "the end, 4.0 seconds, is before the last word, 5.0"),
    ('time,bus,word\n0,0,"1\n', 2, "unexpected end of data"),
]


@pytest.mark.parametrize("text, row, fault", REFUSED)
def test_refused(flight: Tool, write: Write, text: str, row: int, fault: str) -> None:
    place = f"row {row}: " if row else ""
    assert flight("trace", write("c.csv", text)) == (1, b"", f"flight: {place}{fault}\n")


def test_a_late_fault_leaves_nothing(flight: Tool, write: Write) -> None:
    rows = "".join(f"{number},0,1\n" for number in range(100_000))
    assert flight("trace", write("c.csv", f"time,bus,word\n{rows}0,0,1\n")) == (
        1,
        b"",
        f"flight: {ROW} 100002: time goes back; --sort puts the rows in order\n",
    )


@pytest.mark.parametrize(
    "end, fault",
    [
        ("x", "--end 'x' isn't a time as those of the capture"),
        ("0.5", "the end, 0.5 seconds, is before the last word, 1.0"),
        ("1440001", "the end is 1440001.0 seconds, and a recording has up to 1440000"),
    ],
)
def test_refused_ends(flight: Tool, write: Write, end: str, fault: str) -> None:
    assert flight("trace", write("c.csv", "time,bus,word\n1,0,1\n"), "--end", end) == (1, b"", f"flight: {fault}\n")


def test_two_ends(flight: Tool, write: Write) -> None:
    assert (
        flight("trace", write("c.csv", "time,bus,word\n1,,end\n"), "--end", 2).error
        == "flight: --end, and the capture has a row of its end\n"
    )


def times_of(trace: bytes) -> list[int]:
    return [int.from_bytes(trace[at + 8 : at + 16], "big") for at in range(0, len(trace), 16)]


KINDS_OF_TIME = [
    (["1777888800.25", "1777888801.250001", "1777892400"], [0, 1_000_001, 3_599_750_000]),  # from 1970 on
    (["10:00:00.5", "10:00:01", "23:59:59.999999", "00:00:00", "9:00:00"], [0, 500_000, 50_399_499_999, 50_399_500_000, 82_799_500_000]),
    (["123:10:00:00.000123", "123:10:00:00.000124", "124:00:00:00"], [0, 1, 50_399_999_877]),
    (["2026-05-04T10:00:00Z", "2026-05-04T10:00:00.000001Z", "2026-05-05T00:00:00Z"], [0, 1, 50_400_000_000]),
    (["2026-05-04 10:00:00", "2026-05-04 10:01:00.5", "2026-05-05 00:00:00"], [0, 60_500_000, 50_400_000_000]),
    (["0.1", "0.25", "7"], [100_000, 250_000, 7_000_000]),
]


@pytest.mark.parametrize("times, wanted", KINDS_OF_TIME)
@pytest.mark.parametrize("word", ["1", '"1"'])  # read many at once, and one by one
def test_kinds_of_time(flight: Tool, write: Write, times: list[str], wanted: list[int], word: str) -> None:
    rows = "".join(f"{time},0,{word}\n" for time in times)
    answer = flight("trace", write("c.csv", "time,bus,word\n" + rows))
    assert (answer.status, times_of(answer.out), answer.error) == (0, [*wanted, wanted[-1]], "")


@pytest.mark.parametrize("time", ["24:00:00", "10:60:00", "10:00:60", "367:00:00:00", "0:10:00:00", "10:00", "2026-13-01T00:00:00"])
def test_no_times(flight: Tool, write: Write, time: str) -> None:
    for word in ("1", '"1"'):
        answer = flight("trace", write("c.csv", f"time,bus,word\n{time},0,{word}\n"))
        assert answer == (1, b"", f"flight: {ROW} 2: time {time!r}\n")


def test_kinds_of_time_are_not_mixed(flight: Tool, write: Write) -> None:
    for first, second in (("10:00:00", "1"), ("123:10:00:00", "10:00:01"), ("1", "10:00:00")):
        answer = flight("trace", write("c.csv", f"time,bus,word\n{first},0,1\n{second},0,1\n"))
        assert answer == (1, b"", f"flight: {ROW} 3: time {second!r}\n")


def test_names_of_columns_and_buses(flight: Tool, write: Write) -> None:
    capture = write("c.csv", "Timestamp,Channel,Data Word,Note\n0,RX1,000014C1,a\n4,0,80001CC1,b\n")
    words = ("--columns", "time=Timestamp,bus=channel,word=Data Word", "--bus", "RX1=0,RX2=1", "--end", 8)
    assert flight("trace", capture, *words) == (0, FIVE + SEVEN + END, "")
    assert flight("trace", capture, *words[:2], "--end", 8).error == (
        f"flight: {ROW} 2: bus 'RX1': a bus is 0 to 255; --bus RX1=0 gives a name a number\n"
    )
    assert flight("trace", capture, *words[:2], "--bus", "RX2=0,RX3=1").error == (
        f"flight: {ROW} 2: bus 'RX1': a bus is 0 to 255, or RX2, RX3 by --bus\n"
    )


def test_one_bus_for_all_rows(flight: Tool, write: Write) -> None:
    assert flight("trace", write("c.csv", "time,word\n0,000014C1\n4,80001CC1\n"), "--bus", 0, "--end", 8).out == FIVE + SEVEN + END


@pytest.mark.parametrize(
    "words, fault",
    [
        (("--bus", "RX1"), "--bus 'RX1': a name, =, and a number of 0 to 255, each name once"),
        (("--bus", "RX1=256"), "--bus 'RX1=256': a name, =, and a number of 0 to 255, each name once"),
        (("--bus", "A=1,A=2"), "--bus 'A=2': a name, =, and a number of 0 to 255, each name once"),
        (("--columns", "when=T"), "--columns 'when=T': one of time, bus, word, label, sdi, data, ssm, and after = its name in the capture"),
        (("--columns", "time=T"), f"{ROW} 1: the header names no column `T`, which --columns has for time"),
    ],
)
def test_refused_names(flight: Tool, write: Write, words: tuple[str, ...], fault: str) -> None:
    assert flight("trace", write("c.csv", "time,bus,word\n0,0,1\n"), *words) == (1, b"", f"flight: {fault}\n")


def test_both_readings_of_a_capture_say_the_same(flight: Tool, write: Write) -> None:
    """Rows that are read many at once, and the same rows one by one, as a quote makes them be, with a change in one of them."""
    chance = random.Random(5)
    for _ in range(150):
        rows = [[f"{at / 7:.6f}", str(at % 4), f"{chance.randrange(1 << 32):08X}"] for at in range(12)]
        fields = rows[chance.randrange(12)]
        at = chance.randrange(3)
        place = chance.randrange(len(fields[at]))
        fields[at] = fields[at][:place] + chance.choice("0.9aFx :-_e\t") + fields[at][place + chance.randrange(2) :]
        text = "".join(",".join(row) + "\n" for row in rows)
        quick = flight("trace", write("q.csv", "time,bus,word\n" + text))
        slow = flight("trace", write("s.csv", "time,bus,word\n" + "".join(f'"{row[0]}",{row[1]},{row[2]}\n' for row in rows)))
        assert quick == slow, fields


def test_words(flight: Tool, write: Write) -> None:
    rows = "time,bus,word,label,sdi,data,ssm,parity\n0.000000,0,000014C1,203,0,5,0,odd\n4.000000,0,00001CC1,203,0,7,0,even\n8.000000,,end,,,,,\n"
    even = SEVEN[:4] + bytes.fromhex("00001CC1") + SEVEN[8:]
    assert flight("words", write("t", FIVE + even + END + b"not looked at   " + END)) == (0, rows.encode(), "")


@pytest.mark.parametrize(
    "trace, fault",
    [
        (b"", "trace record 0, byte 0: truncated, no end record came"),
        (FIVE + SEVEN[:15], "trace record 1, byte 16: truncated, no end record came"),
        (FIVE + bytes(16) + END, "trace record 1, byte 16: kind"),
        (FIVE + SEVEN + FIVE + END, "trace record 2, byte 32: time goes back"),
        (END[:8] + (1_440_000_000_001).to_bytes(8, "big"), "trace record 0, byte 0: time too late"),
        (FIVE + END[:8] + b"\xff" * 8, "trace record 1, byte 16: time too late"),
    ],
)
def test_refused_traces(flight: Tool, write: Write, trace: bytes, fault: str) -> None:
    assert flight("words", write("t", trace)) == (1, b"", f"flight: {fault}\n")


def test_trace_of_words(flight: Tool, write: Write) -> None:
    table = encoder.read_table(encoder.TOP / "examples" / "ordinary.csv")
    words = encoder.generated(table, 20, seed=5)
    words = [one._replace(word=one.word ^ (number % 7 == 0) << 31) for number, one in enumerate(words)]
    trace = encoder.trace_of(words, 80_000_000)
    text = flight("words", write("t", trace)).out
    assert flight("trace", write("c.csv", text)).out == trace
    assert text.count(b",even\n") == (len(words) + 6) // 7


def test_standard_input(piped: Tool) -> None:
    assert piped("trace", "-", "--end", "8", given=b"time,bus,word\n0,0,000014C1\n4,0,80001CC1\n") == (
        0,
        FIVE + SEVEN + END,
        "",
    )
