"""What stands in gaps, and frames that are doubtful: damaged recordings whose samples are known, by damaged.py."""

import base64
import io
import json
import os
import pathlib
import re
import zlib
from typing import Any, Callable

import numpy as np
import pandas
import pytest

import damaged
import encoder
import reader
import undamaged
from conftest import T1, TOP, Fdr, Ran, Tool, Write

PAGE = (TOP / "docs" / "PARTS.md").read_text()
CUT = TOP / "examples" / "cut.img"
FRAME = 3072  # bits of t1.csv
Runs = dict[str, damaged.Run]


def tool_of(flight: Tool) -> Callable[..., bytes]:
    """Runs a command, which has to end well, and answers its output."""

    def run(*words: object) -> bytes:
        answer: Ran = flight(*words)
        assert (answer.status, answer.error) == (0, "")
        return answer.out

    return run


def table_of(out: bytes) -> Any:
    return pandas.read_csv(io.BytesIO(out), dtype={"session": "Int64", "value": str, "counter": str, "time": float, "mark": str}, keep_default_na=False, na_values={"time": "", "session": ""})


# --- Damaged recordings


@pytest.fixture(scope="module")
def runs(tmp_path_factory: pytest.TempPathFactory) -> Runs:
    folder = tmp_path_factory.mktemp("runs")
    return {run.name: run for run in damaged.runs_in(folder)}


@pytest.fixture
def figures(runs: Runs, flight: Tool, tmp_path: pathlib.Path) -> Callable[[str], damaged.Figures]:
    return lambda name: damaged.figures_of(runs[name], tmp_path, tool_of(flight))


NAMES = [
    "cut at 403.9 s",
    "a bit stuck in each third sync",
    "one bit of 1,000 wrong",
    "40 bytes put in in subframe 4, W 64",
    "40 bytes lost in subframe 4, W 64",
    "20 bytes put in anywhere, W 256",
    "20 bytes lost anywhere, W 256",
    "20 bytes put in in subframe 4, W 256",
    "20 bytes lost in subframe 4, W 256",
    "one bit of one counter wrong",
    "200 bytes zeroed at 48 places",
]


def test_the_page_has_all_runs(runs: Runs) -> None:
    assert list(runs) == NAMES
    assert re.findall(r"^\| ([^|]*) \| [\d,]+ \| [\d,]+ \| [\d,]+ \|", PAGE, re.M) == NAMES
    assert damaged.HEADER in PAGE


@pytest.mark.parametrize("name", NAMES)
def test_a_run_is_as_the_page_says(figures: Callable[[str], damaged.Figures], name: str) -> None:
    """Rows true, false, marked and missing; none has a wrong time, and no recording is split."""
    seen = figures(name)
    assert seen.cells(name) in PAGE.splitlines()
    assert (seen.recordings, seen.wrong_times) == (1, 0)
    is_slip_or_counter = any(word in name for word in ("put in", "lost", "counter"))
    if is_slip_or_counter:
        assert (seen.frames_false, seen.parts_false) == (0, 0)
        assert seen.false > 0
    else:
        assert seen.frames_true + seen.parts_true >= seen.true


def test_each_whole_subframe_of_a_cut_end(runs: Runs, flight: Tool, tmp_path: pathlib.Path) -> None:
    """All samples of the three whole subframes behind the last frame, and none of the fourth."""
    run = runs["cut at 403.9 s"]
    (tmp_path / "b").write_bytes(run.bits)
    (tmp_path / "l").write_bytes(reader.listbits(run.table.read_bytes(), run.bits).output)
    out = tool_of(flight)("parts", tmp_path / "b", tmp_path / "l", "--table", run.table).decode().splitlines()
    wanted = [
        f"part,{counter},{sub},{word},{name},{value},3"
        for time, counter, sub, word, name, value in run.sampled
        if 400 <= time < 403
    ]
    assert len(wanted) == 37
    assert out == ["gap,1228800,11992", *wanted]


# --- The example of README.md


def test_the_tail_of_the_example(flight: Tool, write: Write) -> None:
    listing = reader.list_image(T1.read_bytes(), CUT.read_bytes()).output
    text = write("l", listing)
    answer = flight("parts", CUT, text, "--table", T1)
    assert answer.out.decode() == "session,1,9\ngap,0,1536\nsession,2,12\ngap,3072,2560\npart,1,1,10,ALT,7,3\n"
    parts = write("p", answer.out)
    table = table_of(flight("table", text, "--table", T1, "--parts", parts).out)
    last = table.iloc[-1]
    assert list(last[["recording", "session", "time", "counter", "name", "value", "mark"]]) == [
        2, 2, 4.140625, "1", "ALT", "7", "part 3",
    ]  # fmt: skip
    assert "part,1,1,10,ALT,7,3\n" in PAGE


def test_two_syncs_or_three(flight: Tool, write: Write) -> None:
    """A frame whose second sync word is wrong: its first subframe, which holds the value, has two that stand."""
    table = encoder.read_table(T1)
    recording = encoder.recording_of(table, encoder.generated(table, 3, 5), 12_000_000)
    bits = damaged.with_bits_set(recording.bits(), [FRAME + 12 * 64 + 3], True)
    listing = write("l", reader.listbits(T1.read_bytes(), bits).output)
    value = recording.rows()[1][5]
    dump = write("b", bits)
    assert flight("parts", dump, listing, "--table", T1).out.decode() == f"gap,3072,3072\npart,1,1,10,ALT,{value},2\n"
    assert flight("parts", dump, listing, "--table", T1, "--syncs", 3).out == b"gap,3072,3072\n"


# --- Frames that are doubtful


def frames_of(counters: list[int], between: dict[int, bytes] | None = None) -> bytes:
    """Frames of t1.csv with these counters, whose value is the counter's lowest bits, and bytes after some of them."""
    text = b""
    for number, counter in enumerate(counters):
        slots = [0] * 256
        slots[::64] = encoder.SYNCS
        slots[1], slots[9] = counter, counter % 7
        text += encoder.Recording(encoder.read_table(T1), slots, []).bits() + (between or {}).get(number, b"")
    return text


def doubtful_of(flight: Tool, write: Write, bits: bytes) -> list[tuple[str, str, str, str]]:
    """The counter, the subframes, the fitting counter and the rule of each doubtful frame."""
    listing = write("l", reader.listbits(T1.read_bytes(), bits).output)
    out = tool_of(flight)("parts", write("b", bits), listing, "--table", T1).decode()
    fields = [line.split(",", 6) for line in out.splitlines() if line.startswith("doubtful")]
    return [(one[1], one[2], one[3], one[6].split(":")[0]) for one in fields]


LACK = bytes(100)


@pytest.mark.parametrize(
    "counters, between, wanted",
    [
        ([5, 6, 7, 8], {}, []),
        ([4094, 4095, 0, 1], {}, []),
        ([5, 6, 99, 8, 9], {}, [("99", "1234", "7", "counter that doesn't fit")]),
        ([5, 6, 99, 77, 9, 10], {}, [("99", "1234", "7", "counter that doesn't fit"), ("77", "1234", "8", "counter that doesn't fit")]),
        ([5, 99, 7, 88, 9], {}, [("99", "1234", "6", "counter that doesn't fit"), ("88", "1234", "8", "counter that doesn't fit")]),
        ([40, 41, 34, 35, 44], {}, [("34", "1234", "42", "counter that doesn't fit"), ("35", "1234", "43", "counter that doesn't fit")]),
        ([4095, 0, 0, 1, 2], {}, []),  # two recordings begin
        ([4, 5, 8, 9, 10, 11, 10, 11, 12], {1: bytes(231)}, []),  # two frames are there twice
        ([99, 6, 7, 8], {}, [("99", "1234", "5", "counter that doesn't fit")]),
        ([5, 6, 7, 99], {}, [("99", "1234", "8", "counter that doesn't fit")]),
        ([5, 6, 0, 1, 2], {}, []),  # another recording begins
        ([5, 6, 0], {}, []),
        ([5, 6, 99, 31, 32], {2: LACK}, [("99", "1234", "7", "lone frame beside a gap")]),
        ([5, 6, 99, 900, 901], {1: LACK, 2: LACK}, [("99", "1234", "7", "lone frame beside a gap")]),
        ([5, 6, 8, 10, 11], {1: bytes(384), 2: bytes(384)}, []),  # gaps of a whole frame
        ([8, 3, 4, 5, 6, 7], {}, []),  # a memory that wraps
        ([8, 3, 4, 5, 6, 7], {0: LACK}, []),
        ([5, 6, 7, 8], {1: b"\x01"}, [("6", "4", "6", "bits put in")]),
        ([5, 6, 99, 8, 9], {2: b"\x01"}, [("99", "1234", "7", "counter that doesn't fit and bits put in")]),
        ([5, 6, 0, 1, 2], {1: b"\x01"}, []),
        ([5, 6, 7, 300, 301], {2: b"\x01"}, []),
    ],
)
def test_rules(
    flight: Tool, write: Write, counters: list[int], between: dict[int, bytes], wanted: list[tuple[str, str, str, str]]
) -> None:
    assert doubtful_of(flight, write, frames_of(counters, between)) == wanted


def test_a_lost_byte(flight: Tool, write: Write) -> None:
    """The frame takes the first byte of the next one for its last, and the next one is read out of the gap."""
    bits = bytearray(frames_of([5, 6, 7, 8]))
    del bits[2 * 384 - 50]
    assert doubtful_of(flight, write, bytes(bits)) == [("6", "4", "6", "bits lost")]
    out = flight("parts", write("b", bytes(bits)), write("l", reader.listbits(T1.read_bytes(), bytes(bits)).output), "--table", T1).out
    assert out.decode().splitlines()[1:] == ["gap,6144,3064", "part,7,1,10,ALT,0,2"]


def test_a_byte_lost_in_a_frame_that_is_not_listed(flight: Tool, write: Write) -> None:
    bits = bytearray(frames_of([5, 6, 7, 8]))
    del bits[2 * 384 + 200]
    assert doubtful_of(flight, write, bytes(bits)) == []


def test_each_rule_is_in_the_page() -> None:
    from flight_recorder import doubts

    for rule in (doubts.PUT_IN, doubts.LOST, doubts.EITHER, doubts.COUNTER, doubts.LONE):
        assert f"| `{rule}` |" in PAGE


# --- Tables


def listed(write: Write, bits: bytes) -> tuple[pathlib.Path, pathlib.Path]:
    return write("b", bits), write("l", reader.listbits(T1.read_bytes(), bits).output)


def test_time_goes_on_over_a_wrong_counter(flight: Tool, write: Write) -> None:
    """Without a file of parts too."""
    dump, text = listed(write, frames_of([5, 6, 99, 8, 9]))
    plain = table_of(flight("table", text, "--table", T1).out)
    assert list(plain["recording"]) == [1] * 6
    rows = plain[plain["note"] == ""]
    assert list(rows["time"]) == [frame * 4 + 0.140625 for frame in range(5, 10)]
    assert list(rows["counter"]) == ["5", "6", "99", "8", "9"]
    note = plain[plain["name"] == "(doubtful)"].iloc[0]
    assert (note["time"], note["note"]) == (28.0, "counter 99: counter that doesn't fit: the counter is 99 beside 6 before and 8 after; 7 fits")
    parts = write("p", flight("parts", dump, text, "--table", T1).out)
    marked = table_of(flight("table", text, "--table", T1, "--parts", parts).out)
    assert list(marked["mark"]) == ["", "", "", "(doubtful)", "", ""]
    assert list(marked.drop(columns="mark").itertuples(index=False)) == list(plain.itertuples(index=False))


def test_a_wrong_counter_in_a_session_of_standard_input(piped: Tool, write: Write) -> None:
    text = "session,1,0\n" + reader.listbits(T1.read_bytes(), frames_of([5, 6, 99, 8, 9])).output.decode()
    shapes: list[tuple[str, ...]] = [("--wide",), ("--every", "4s"), ()]
    for words in shapes:
        out = piped("table", "-", "--table", T1, *words, given=text.encode()).out.decode()
        assert out.count("doubtful") == 1
        assert "back" not in out and "break" not in out


def test_a_wrong_counter_in_a_memory_that_wraps(flight: Tool, write: Write) -> None:
    """The older part comes first, and time goes on over the frame and over the wrap."""
    _, text = listed(write, frames_of([10, 11, 12, 3, 4, 99, 6, 7, 8, 9]))
    table = table_of(flight("table", text, "--table", T1).out)
    rows = table[table["note"] == ""]
    assert list(rows["counter"]) == ["3", "4", "99", "6", "7", "8", "9", "10", "11", "12"]
    assert list(rows["time"]) == [frame * 4 + 0.140625 for frame in range(3, 13)]
    assert set(table["recording"]) == {1}
    assert list(table[table["note"] != ""]["name"]) == ["(wrap)", "(doubtful)", "(wrap)"]


def test_zero_and_windows(flight: Tool, write: Write) -> None:
    bits = frames_of([5, 6, 7, 9, 10], {2: damaged.with_bits_set(frames_of([8]), [24 * 64], True)})
    dump, text = listed(write, bits)
    parts = write("p", flight("parts", dump, text, "--table", T1).out)
    words = ("table", text, "--table", T1, "--parts", parts)
    whole = table_of(flight(*words, "--zero").out)
    assert list(whole[whole["mark"] == "part 3"]["time"]) == [12.140625]
    assert "part" not in flight(*words, "--from", "40s").out.decode()
    assert flight(*words, "--start", "2026-05-04T10:00:00Z").out.decode().count("2026-05-04T10:00:32.140625Z,8,1,10,ALT,1,part 3,\n") == 1


def test_wide(flight: Tool, write: Write, runs: Runs, tmp_path: pathlib.Path) -> None:
    """The same samples as the long table has, with the mark of each time."""
    run = runs["20 bytes lost anywhere, W 256"]
    (tmp_path / "b").write_bytes(run.bits)
    (tmp_path / "l").write_bytes(reader.listbits(run.table.read_bytes(), run.bits).output)
    parts = write("p", flight("parts", tmp_path / "b", tmp_path / "l", "--table", run.table).out)
    words = ("table", tmp_path / "l", "--table", run.table, "--parts", parts)
    long = table_of(flight(*words).out)
    long = long[long["note"] == ""]
    wide = pandas.read_csv(io.BytesIO(flight(*words, "--wide").out), dtype=str, keep_default_na=False)
    wide = wide[wide["note"] == ""]
    names = [name for name in wide.columns if name not in ("recording", "session", "time", "mark", "note")]
    seen = {(float(row["time"]), name, row[name]) for _, row in wide.iterrows() for name in names if row[name]}
    assert seen == set(long[["time", "name", "value"]].itertuples(index=False, name=None))
    for kind in ("", "(doubtful)", "part 2", "part 3"):
        times = set(wide[wide["mark"] == kind]["time"].astype(float))
        of_kind = set(long[long["mark"] == kind]["time"])
        assert times == (of_kind - set(long[long["mark"] == "(doubtful)"]["time"]) if kind == "" else of_kind) != set()


def test_hdf(flight: Tool, write: Write, runs: Runs, tmp_path: pathlib.Path) -> None:
    """The same rows as the table as text has."""
    run = runs["20 bytes lost anywhere, W 256"]
    (tmp_path / "b").write_bytes(run.bits)
    (tmp_path / "l").write_bytes(reader.listbits(run.table.read_bytes(), run.bits).output)
    parts = write("p", flight("parts", tmp_path / "b", tmp_path / "l", "--table", run.table).out)
    words = ("table", tmp_path / "l", "--table", run.table, "--parts", parts)
    text = table_of(flight(*words).out)
    assert flight(*words, "-o", tmp_path / "t.h5").status == 0
    stored = pandas.read_hdf(tmp_path / "t.h5", "samples")
    samples = text[text["note"] == ""]
    columns = ["time", "counter", "subframe", "word", "name", "value", "mark"]
    wanted = {(round(time, 5), int(counter), int(sub), int(word), name, float(value), mark)
              for time, counter, sub, word, name, value, mark in samples[columns].itertuples(index=False)}  # fmt: skip
    seen = [(round(time, 5), *rest) for time, *rest in stored[columns].itertuples(index=False)]
    assert (set(seen), len(seen)) == (wanted, len(samples))
    assert {mark for *_, mark in seen} == {"", "(doubtful)", "part 2", "part 3"}
    notes = pandas.read_hdf(tmp_path / "t.h5", "notes")
    assert (notes["kind"] == "doubtful").sum() == (text["name"] == "(doubtful)").sum() > 0


def test_exceedances_of_doubtful_samples(flight: Tool, write: Write) -> None:
    dump, text = listed(write, frames_of([5, 6, 99, 8, 9]))
    lines = write("e", "exceed,HIGH,5,1,10,2,6\nexceed,ODD,99,1,10,1,1\n")
    parts = write("p", flight("parts", dump, text, "--table", T1).out)
    table = table_of(flight("table", text, "--table", T1, "--parts", parts, "--exceed", lines).out)
    assert list(table["time"]) == [20.140625, 28.140625]
    assert [note.split(":")[0] for note in table["note"]] == ["", "(doubtful)"]


# --- What the pages show


def test_the_lost_byte_of_the_page_of_formats(flight: Tool, write: Write) -> None:
    """Frames with counters 0, 1 and 2 and the values 5, 7 and 9, of which the first has lost a byte of subframe 4."""
    shown = "row,0,1,10,ALT,5\ngap,3072,3064\nrow,2,1,10,ALT,9\n"
    assert f"```\n{shown}```" in (TOP / "docs" / "FORMATS.md").read_text()
    table, text = encoder.read_table(T1), b""
    for counter in range(3):
        slots = [0] * 256
        slots[::64] = encoder.SYNCS
        slots[1], slots[9] = counter, 5 + 2 * counter
        text += encoder.Recording(table, slots, []).bits()
    for place in range(290, 384):
        dump, listing = listed(write, text[:place] + text[place + 1 :])
        assert listing.read_text() == shown
        out = tool_of(flight)("parts", dump, listing, "--table", T1).decode().splitlines()
        assert [line.split(",", 6)[:5] for line in out[:1]] == [["doubtful", "0", "4", "0", "1"]]
        assert out[1:] == ["gap,3072,3064", "part,1,1,10,ALT,7,2"]


def test_zeros_between_sync_words_are_listed() -> None:
    """As COMMANDS.md and EXCEEDANCES.md say."""
    bits = bytearray(frames_of([5, 6, 7]))
    bits[384 + 6 : 384 + 90] = bytes(84)
    listing = reader.listbits(T1.read_bytes(), bytes(bits)).output.decode()
    assert listing.splitlines()[1] == "row,6,1,10,ALT,0"


# --- Pictures and pages


def test_a_picture_has_parts_in_another_colour(flight: Tool, write: Write, runs: Runs, tmp_path: pathlib.Path) -> None:
    from flight_recorder import commands, picture

    run = runs["20 bytes lost in subframe 4, W 256"]
    (tmp_path / "b").write_bytes(run.bits)
    (tmp_path / "l").write_bytes(reader.listbits(run.table.read_bytes(), run.bits).output)
    parts = write("p", flight("parts", tmp_path / "b", tmp_path / "l", "--table", run.table).out)
    words = ["plot", str(tmp_path / "l"), "--table", str(run.table), "--parts", str(parts), "-o", str(tmp_path / "f.html")]
    drawn = commands._flight(commands._parser().parse_args([*words, "--only", "ALT,IAS"]), 100_000, [])
    assert drawn.groups() == [["ALT", "ALT (part)", "ALT (doubtful)"], ["IAS", "IAS (part)", "IAS (doubtful)"]]
    truth = {(float(time), float(value)) for time, name, value in run.truth() if name == "ALT"}
    points = drawn.curves["ALT (part)"]
    assert {(round(at / 1024, 6), value) for at, value in zip(points.time.tolist(), points.value.tolist())} <= truth
    lines = parts.read_text().splitlines()
    assert len(points) == sum(",ALT," in line for line in lines) > 50
    figure = picture.figure_of(drawn)
    colours = {line.get_label(): line.get_color() for line in figure.axes[0].get_lines()}
    assert len({colours[name] for name in ("ALT", "ALT (part)", "ALT (doubtful)")}) == 3
    assert flight(*words).status == 0
    page = (tmp_path / "f.html").read_text()
    data = json.loads(page.split('id="flight">')[1].split("</script>")[0])
    curve = [one["name"] for one in data["curves"]].index("VRTG (part)")
    times = page.split(f'id="curve-{curve}">')[1].split(" ")[0]
    assert len(np.frombuffer(zlib.decompress(base64.b64decode(times)), dtype="<i4")) == sum(",VRTG," in line for line in lines)
    assert sum(one["event"] == "doubtful" for one in data["events"]) >= 10


def test_a_picture_of_parts_alone(flight: Tool, write: Write, runs: Runs, tmp_path: pathlib.Path) -> None:
    run = runs["a bit stuck in each third sync"]
    (tmp_path / "b").write_bytes(run.bits)
    (tmp_path / "l").write_bytes(reader.listbits(run.table.read_bytes(), run.bits).output)
    parts = write("p", flight("parts", tmp_path / "b", tmp_path / "l", "--table", run.table).out)
    answer = flight("plot", tmp_path / "l", "--table", run.table, "--parts", parts, "-o", tmp_path / "f.svg", "--together", "ALT,IAS")
    assert answer.status == 0
    assert "ALT (part)" in (tmp_path / "f.svg").read_text()


# --- Images


def test_sessions_and_runs_of_an_image(flight: Tool, write: Write, fdr: Fdr) -> None:
    image = TOP / "examples" / "damaged.img"
    for command in ("list", "salvage"):
        listing = fdr(command, T1, image)
        out = tool_of(flight)("parts", image, write("l", listing), "--table", T1).decode()
        lines = [line for line in out.splitlines() if not line.startswith(("part", "doubtful"))]
        assert lines == [line for line in listing.decode().splitlines() if not line.startswith("row")]


# --- Faults


def faults() -> list[tuple[bytes, str, str]]:
    good = frames_of([5, 6, 7]) + b"\x47\x02"
    listing = reader.listbits(T1.read_bytes(), good).output.decode()
    return [
        (good, "session,1,0\n" + listing + "session,2,9\n" + listing, "listing line 6: of several sessions or runs the image itself is needed"),
        (good[:-3], listing, "listing line 4: the gap doesn't fit the 9208 bits of the dump: a listing of others, or by another table?"),
        (b"\0" * len(good), listing, "the dump has no frame at bit 0, where the listing has one: another dump?"),
        (good, listing.split("\n", 1)[1], "listing line 1: from here to the next gap are 2 rows, and the frames of the dump have 3: a listing of others?"),
        (good, "exceed,A,5,1,10,2,6\n" + listing, "listing line 1: the listing of fdr as it is, without other lines, is needed here"),
        (CUT.read_bytes(), listing, "the image has 2 sessions, and the listing has others: a listing of another image?"),
        (CUT.read_bytes(), "session,1,9\ngap,0,1536\nsession,3,12\n", "listing line 3: the image has session 2 from block 12 here"),
    ]


@pytest.mark.parametrize("bits, listing, fault", faults())
def test_faults(flight: Tool, write: Write, bits: bytes, listing: str, fault: str) -> None:
    assert flight("parts", write("b", bits), write("l", listing), "--table", T1) == (1, b"", f"flight: {fault}\n")


def test_a_file_of_parts_of_another_listing(flight: Tool, write: Write) -> None:
    text = write("l", "row,0,1,10,ALT,5\ngap,3072,16\n")
    other = write("p", "gap,3072,24\n")
    words = ("table", text, "--table", T1, "--parts")
    assert flight(*words, other).error == "flight: listing line 2: the file of parts has no such gap here: of another listing?\n"
    assert flight(*words, write("q", "row,0,1\n")).error == "flight: parts line 1: 'row,0,1' is no line that flight parts writes\n"
    assert flight(*words, other, "--every", "1s").error.startswith("flight: --parts is for a table with a row for each sample")
    assert flight("table", text, "--words", 64, "--parts", other).error == "flight: --parts needs --table, by which its rows were read\n"


# --- What nothing damaged


def test_no_mark_on_undamaged_frames() -> None:
    """FLIGHT_FRAMES=1000000 draws a million of them, by the program that FDR names."""
    wanted = int(os.environ.get("FLIGHT_FRAMES", "4000"))
    program = os.environ.get("FDR") if wanted > 10_000 else None
    whole, seed = 0, 1000
    while whole < wanted:
        seen = undamaged.look(min(20_000, wanted - whole), seed, program)
        assert seen.false == []
        whole, seed = whole + seen.whole, seed + 1
