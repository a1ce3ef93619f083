"""`flight plot` as a picture: curves that lose no extreme, shaded spans, marks of exceedances, and the files."""

import io
import pathlib
import re
from typing import Any, Mapping, Sequence

import numpy as np
import pytest

from conftest import Tool, Write
from encoder import TOP
from flight_recorder import clock, curves, listing, naming, picture
from flight_recorder.faults import Fault
from flight_recorder.streams import Input

SPREAD = "session,1,0\n" + "".join(f"row,{at},1,10,ALT,{at * at}\nrow,{at},2,5,GEAR,{at % 2}\n" for at in range(20)) + (
    "gap,61440,3072\n" + "".join(f"row,{at},1,10,ALT,{at}\n" for at in range(21, 30))
    + "gap,92160,100\n" + "".join(f"row,{at},1,10,ALT,{at}\n" for at in range(40, 45))
    + "session,2,30\n" + "".join(f"row,{at},1,10,ALT,{at}\n" for at in range(10))
)  # fmt: skip


def flight_of(
    text: str,
    total: int = 400_000,
    exceedances: Sequence[listing.Exceedance] = (),
    only: set[str] | None = None,
    words: int = 64,
    circles: Mapping[str, float] | None = None,
) -> curves.Flight:
    names, times = listing.Names(), clock.Clock(clock.shape_of(None, words))
    collector = curves.Collector(names, only, total, list(exceedances), circles)
    for piece in listing.read_listing(Input(io.BytesIO(text.encode()), None), names):
        collector.add(times.times(piece, len(names)))
    return collector.end(times.end())


def rule(
    name: str, counter: int, subframe: int = 1, word: int = 10, length: int = 2, peak: str = "9"
) -> listing.Exceedance:
    return listing.Exceedance(name, counter, subframe, word, length, peak)


def test_points_are_where_they_were_sampled() -> None:
    flight = flight_of("row,0,1,10,ALT,5\nrow,1,1,10,ALT,7\n")
    points = flight.curves["ALT"]
    assert (points.time / clock.SECOND).tolist() == [9 / 64, 4 + 9 / 64]
    assert points.value.tolist() == [5, 7]
    assert flight.end == 8 * clock.SECOND


def test_thinning_keeps_extremes_and_ends() -> None:
    chance = np.random.default_rng(1)
    points = curves.Points(
        np.sort(chance.integers(0, 10**6, 50_000)), chance.normal(size=50_000), np.zeros(50_000, dtype=np.int64)
    )
    few = curves.thinned(points, 8192)
    assert len(few) <= 4 * (10**6 // 8192 + 1)
    assert (few.value.min(), few.value.max()) == (points.value.min(), points.value.max())
    assert (few.time[0], few.time[-1]) == (points.time[0], points.time[-1])
    assert set(zip(few.time.tolist(), few.value.tolist())) <= set(zip(points.time.tolist(), points.value.tolist()))
    for begin in range(0, 10**6, 8192):
        here, kept = (one.value[(one.time >= begin) & (one.time < begin + 8192)] for one in (points, few))
        assert (here.min(), here.max()) == (kept.min(), kept.max())


@pytest.mark.parametrize("rows", [20_000, 65_000, 70_001, 90_000])
def test_as_many_points_are_kept_at_the_end_as_elsewhere(rows: int) -> None:
    flight = flight_of("".join(f"row,{at % 4096},1,10,ALT,{at * at % 997}\n" for at in range(rows)), total=4000)
    time = flight.curves["ALT"].time
    parts = np.histogram(time, bins=14, range=(0, rows * clock.FRAME))[0]
    assert 1900 < len(time) <= 4000
    assert parts.max() <= 1.1 * parts.min()


def test_a_spike_in_a_long_flight_is_kept() -> None:
    rows = "".join(f"row,{at % 4096},1,10,ALT,{-77 if at == 44_444 else at % 3}\n" for at in range(90_000))
    flight = flight_of(rows, total=1000)
    points = flight.curves["ALT"]
    assert len(points) <= 1000
    assert (flight.counts["ALT"], points.value.min()) == (90_000, -77)
    assert points.time[np.argmin(points.value)] == 44_444 * clock.FRAME + 9 * 16


@pytest.mark.parametrize(
    "counts, total, most",
    [
        ([10], 1000, 1000),
        ([2000], 1000, 1000),
        ([5000, 5000], 1000, 500),
        ([300, 5000, 9000], 2300, 1000),
        ([100, 9000], 300, 256),
    ],
)
def test_shares(counts: list[int], total: int, most: int) -> None:
    assert curves.share(counts, total) == most


def test_the_figure() -> None:
    flight = flight_of(SPREAD)
    figure = picture.figure_of(flight, "A flight")
    assert [axes.get_ylabel() for axes in figure.axes] == ["ALT", "GEAR"]
    line = figure.axes[0].get_lines()[0]
    assert np.isnan(line.get_xdata()).sum() == 3  # after each stretch but the last
    assert np.count_nonzero(~np.isnan(line.get_ydata())) == 20 + 9 + 5 + 10
    assert figure._suptitle.get_text() == "A flight"


def test_times_after_a_gap_alone(flight: Tool, write: Write, tmp_path: pathlib.Path) -> None:
    path = tmp_path / "f.svg"
    assert flight("plot", write("l", SPREAD), "--words", 64, "--recording", 1, "--from", "150s", "-o", path) == (0, b"", "")


def test_discretes_are_thin_bands() -> None:
    figure = picture.figure_of(flight_of(SPREAD))
    heights = [axes.get_position().height * figure.get_figheight() for axes in figure.axes]
    assert heights[1] < heights[0] / 3
    band = {one.get_label(): one for one in figure.axes[1].collections}
    ones = [path.vertices[:, 0] for path in band["GEAR is 1"].get_paths()]
    begins = [4 * at + 1 + 4 / 64 for at in range(20)]  # GEAR is 1 in each second frame, and in the last one for no time
    assert [(one.min(), one.max()) for one in ones] == [(begins[at], begins[min(at + 1, 19)]) for at in range(1, 20, 2)]
    assert [(one.vertices[:, 0].min(), one.vertices[:, 0].max()) for one in band["GEAR"].get_paths()] == [(begins[0], begins[19])]


def test_curves_together() -> None:
    text = "".join(f"row,{at},1,10,A,{at}\nrow,{at},1,11,B,{2 * at}\nrow,{at},1,12,C,7\n" for at in range(20))
    flight = flight_of(text)
    flight.together = [["A", "C"]]
    figure = picture.figure_of(flight)
    assert [axes.get_ylabel() for axes in figure.axes] == ["A\nC", "B"]
    lines = [line for line in figure.axes[0].get_lines()]
    assert [line.get_label() for line in lines] == ["A", "C"]
    assert lines[0].get_color() != lines[1].get_color()
    assert [one.get_text() for one in figure.axes[0].get_legend().get_texts()] == ["A", "C"]


def angles(values: list[float], **how: Any) -> list[float]:
    text = "".join(f"row,{at},1,10,HDG,{value}\n" for at, value in enumerate(values))
    points = flight_of(text, **how).curves["HDG"]
    return [values[at] for at in np.flatnonzero(np.diff(points.stretch, prepend=points.stretch[0])).tolist()]


def test_angles_are_broken_at_the_wrap() -> None:
    assert angles([340, 350, 359, 4, 20, 358, 340, 20]) == [4, 358, 20]
    assert angles([-170, -179, 178, 170, -175]) == [178, -175]
    assert angles([0, 350, 370, 5]) == []  # more than a circle
    assert angles([100, 290, 100]) == []  # not round it
    assert angles([100, 4000, 90], circles={"HDG": 4096}) == [4000, 90]


def test_a_second_recording_is_put_after_the_first_with_room_before_it() -> None:
    flight = flight_of(SPREAD)
    first, second = flight.recordings
    room = second.put - first.put_end
    assert (first.put, first.put_end, second.first) == (0, 180 * clock.SECOND, 0)
    assert room == (220 * clock.SECOND) // curves.ROOMS
    assert flight.curves["ALT"].time[-10:].tolist() == [second.put + at * clock.FRAME + 9 * 16 for at in range(10)]


def test_shaded_spans() -> None:
    flight = flight_of(SPREAD)
    axes = picture.figure_of(flight).axes[0]
    room = round((45 * 4 + 10 * 4) / curves.ROOMS)
    shaded = {
        (
            patch.get_label(),
            *(round(x) for x in patch.get_extents().transformed(axes.transData.inverted()).intervalx),
            bool(patch.get_hatch()),
        )
        for patch in axes.patches
    }
    assert ("gap", 80, 84, False) in shaded
    assert ("gap", 120, 160, True) in shaded
    assert ("session", 180, 180 + room, False) in shaded
    numbers = [text.get_text() for text in axes.texts]
    assert numbers == ["1", "2", "3", "4"]


def test_time_labels_are_each_recording_s_own() -> None:
    figure = picture.figure_of(flight_of("".join(f"row,{at},1,10,ALT,1\n" for at in [*range(300), *range(200)])))
    axes = figure.axes[-1]
    labels = [axes.xaxis.get_major_formatter()(place) for place in axes.xaxis.get_major_locator()()]
    assert labels == ["0:00:00", "0:05:00", "0:10:00", "0:15:00", "0:00:00", "0:05:00", "0:10:00"]
    assert "of each recording" in axes.get_xlabel()


def test_exceedances_are_marked() -> None:
    flight = flight_of(SPREAD, exceedances=[rule("HI", 12), rule("G", 3, 2, 5), rule("TWICE", 5)])
    found = [(one.exceedance.name, len(one.times), one.parameters) for one in flight.exceedings]
    assert found == [("HI", 1, ("ALT",)), ("G", 1, ("GEAR",)), ("TWICE", 2, ("ALT",))]
    figure = picture.figure_of(flight)
    marks = [[line for line in axes.get_lines() if line.get_label() == "exceed"] for axes in figure.axes]
    assert [len(one) for one in marks] == [3, 1]
    places = {line.get_xdata()[0]: line.get_linestyle() for line in marks[0]}
    twice = [time / clock.SECOND for time in flight.exceedings[2].times]
    assert places == {12 * 4 + 9 / 64: "-", twice[0]: "--", twice[1]: "--"}
    assert all(line.get_zorder() < figure.axes[0].get_lines()[0].get_zorder() for line in marks[0])
    numbers = {text.get_text(): text.xy[0] for text in figure.axes[0].texts}
    below = [text.get_text().split(maxsplit=1) for text in figure.texts]
    texts = {text.split("  ")[-1]: number for number, text in below}
    number = texts["TWICE of ALT: 2 samples, peak 9, at one of 2 places"]
    assert sorted(place for text, place in numbers.items() if text == f"{number}?") == twice[1:]
    assert numbers[texts["HI of ALT: 2 samples, peak 9"]] == 12 * 4 + 9 / 64


def test_events_are_listed_below() -> None:
    lines = [text.get_text().split("  ") for text in picture.figure_of(flight_of(SPREAD)).texts]
    assert [[part.strip() for part in line if part.strip()] for line in lines] == [
        ["1", "recording 1, 0:00:00", "session 1 from block 0"],
        ["2", "recording 1, 0:01:20", "gap 4 s: from bit 61440, 3072 bits: 4 s"],
        ["3", "recording 1, 0:02:00", "gap, unknown length: from bit 92160, 100 bits: bits of 0.1 s, by the counter 40 s: lost bits or another recording"],
        ["4", "recording 1, 0:03:00", "session 2 from block 30"],
    ]  # fmt: skip


def test_numbers_that_are_close_are_above_one_another() -> None:
    text = "".join(f"row,{at},1,10,ALT,{at}\n" for at in range(1000))
    exceedances = [rule(f"R{at}", at, length=1, peak=str(at)) for at in range(100, 112, 2)]
    figure = picture.figure_of(flight_of(text, exceedances=exceedances))
    heights = [text.xyann[1] for text in figure.axes[0].texts]
    assert len(heights) == 6 and all(one != other for one, other in zip(heights, heights[1:]))


def own_time(flight: curves.Flight, tick: int) -> tuple[int, int]:
    """The recording that a place of the axis is in, and its own second there."""
    number = max(at for at, recording in enumerate(flight.recordings) if recording.put <= tick)
    found = flight.recordings[number]
    return number, (tick - found.put + found.first) // clock.SECOND


def begins(*exceedances: listing.Exceedance) -> list[list[tuple[int, int]]]:
    """The recordings and the own seconds at which exceedances of SPREAD began."""
    flight = flight_of(SPREAD, exceedances=exceedances)
    return [[own_time(flight, time) for time in one.times] for one in flight.exceedings]


def test_the_peak_tells_where_an_exceedance_was() -> None:
    assert begins(rule("A", 5, peak="36")) == [[(0, 20)]]
    assert begins(rule("A", 5, peak="5")) == [[(1, 20)]]
    assert begins(rule("A", 5, peak="1000")) == [[(0, 20), (1, 20)]]


def test_a_stretch_has_all_samples_of_an_exceedance() -> None:
    assert begins(rule("A", 8, peak="1000", length=12)) == [[(0, 32)]]
    assert begins(rule("A", 8, peak="1000", length=13)) == [[]]


def test_the_order_of_a_rule_s_exceedances_decides() -> None:
    assert begins(rule("A", 8, peak="99"), rule("A", 5, peak="99")) == [[(0, 32)], [(1, 20)]]
    assert begins(rule("A", 8, peak="99"), rule("B", 5, peak="99")) == [[(0, 32)], [(1, 20)]]
    assert begins(rule("A", 5, peak="99"), rule("B", 8, peak="99")) == [[(0, 20), (1, 20)], [(0, 32), (1, 32)]]
    assert begins(rule("A", 8, peak="9"), rule("A", 5, peak="99")) == [
        [(0, 32)],
        [(1, 20)],
    ]  # a difference of 9, it seems


def test_samples_of_an_exceedance_over_pieces() -> None:
    rows = "".join(f"row,{at % 4096},1,10,ALT,{at}\n" for at in range(60_000))
    one = rule("A", 100, length=50_000, peak=str(4096 + 100 + 49_999))
    assert [one.times for one in flight_of(rows, exceedances=[one]).exceedings] == [
        ((4096 + 100) * clock.FRAME + 9 * 16,)
    ]


def test_a_lone_sample_is_a_dot() -> None:
    axes = picture.figure_of(flight_of("row,0,1,10,ALT,5\ngap,3072,3072\nrow,2,1,10,ALT,5\nrow,3,1,10,ALT,5\n")).axes[0]
    assert [line.get_xdata().tolist() for line in axes.get_lines() if line.get_marker() == "."] == [[9 / 64]]


def test_many_gaps_are_seen_as_one() -> None:
    text = "".join(f"row,{at % 4096},1,10,ALT,1\ngap,{at},5\n" for at in range(5000))
    shades = naming.seen(flight_of(text).spans, 5000 * clock.FRAME / 600)
    assert len(shades) < 10
    assert shades[0].name == "gaps"


def test_very_many_recordings_take_no_time() -> None:
    flight = flight_of("row,0,1,10,ALT,5\n" * 30_000)
    assert len(flight.recordings) == 30_000
    assert flight.recordings[-1].put_end <= 1.2 * 30_000 * clock.FRAME
    axes = picture.figure_of(flight).axes[0]
    assert len(axes.xaxis.get_major_locator()()) < 20


def test_nothing_to_draw() -> None:
    assert len(picture.figure_of(flight_of("")).axes) == 1
    assert len(picture.figure_of(flight_of("gap,0,100\n")).axes) == 1


def test_too_many_curves() -> None:
    text = "".join(f"row,0,1,{at + 2},N{at},1\n" for at in range(101))
    with pytest.raises(
        Fault, match="101 parameters are too many for a picture, which has up to 100: choose with --only"
    ):
        picture.figure_of(flight_of(text))


HEADS = {".png": b"\x89PNG", ".svg": b"<?xml", ".pdf": b"%PDF"}


@pytest.mark.parametrize("ending", HEADS)
def test_files(flight: Tool, write: Write, tmp_path: pathlib.Path, ending: str) -> None:
    path = tmp_path / f"flight{ending}"
    assert flight("plot", write("l", SPREAD), "--words", 64, "-o", path) == (0, b"", "")
    first = path.read_bytes()
    assert first.startswith(HEADS[ending])
    assert flight("plot", write("l", SPREAD), "--words", 64, "-o", path, "--only", "ALT,GEAR").status == 0
    assert path.read_bytes() == first
    assert sorted(one.name for one in tmp_path.iterdir()) == sorted([f"flight{ending}", "l"])


@pytest.mark.parametrize(
    "words, fault",
    [
        (("-o", "{}/flight.gif"), r"\{}/flight.gif: a picture's name ends with .png, .svg, .pdf or .html"),
        (("-o", "{}/none/flight.png"), r".*/none/.*: No such file or directory"),
        (("-o", "{}/flight.png", "--only", "ALT,NO,ME"), "the listing has no parameter ME, NO"),
        (("-o", "{}/flight.png", "--exceed", "{}/l"), "exceedances line 1: 'session,1,0' is no line of an exceedance"),
    ],
)
def test_refused(flight: Tool, write: Write, tmp_path: pathlib.Path, words: tuple[str, ...], fault: str) -> None:
    answer = flight("plot", write("l", SPREAD), "--words", 64, *(word.format(tmp_path) for word in words))
    assert (answer.status, answer.out) == (1, b"")
    assert re.fullmatch(f"flight: {fault}\n".replace(r"\{}", str(tmp_path)), answer.error)
    assert [one.name for one in tmp_path.iterdir()] == ["l"]


def test_a_bad_listing_leaves_the_old_picture(flight: Tool, write: Write, tmp_path: pathlib.Path) -> None:
    path = write("flight.png", "old")
    assert flight("plot", write("l", SPREAD + "row\n"), "--words", 64, "-o", path).status == 1
    assert path.read_text() == "old"


def test_an_exceedance_that_is_not_there_is_told(flight: Tool, write: Write, tmp_path: pathlib.Path) -> None:
    answer = flight(
        "plot",
        write("l", SPREAD),
        "--words",
        64,
        "-o",
        tmp_path / "f.png",
        "--exceed",
        write("e", "exceed,HI,99,1,10,1,5\n"),
    )
    assert answer == (0, b"", "flight: exceedance HI isn't in the listing: counter 99, subframe 1, word 10\n")


def test_the_example(flight: Tool, write: Write, hour: str, tmp_path: pathlib.Path) -> None:
    path = write("l", hour)
    assert flight("plot", path, "--table", TOP / "examples" / "ordinary.csv", "-o", tmp_path / "f.png") == (0, b"", "")
    drawn = flight_of(hour, words=256)
    assert [recording.put_end // clock.SECOND for recording in drawn.recordings] == [468 * 4, 468 * 4 + 70 + 417 * 4]
    assert drawn.counts == {"ALT": 3540, "IAS": 3540, "VRTG": 28_320, "FLT": 57, "GEAR": 3540, "HDG": 1770, "PIT": 1770}
    assert [one.event for one in drawn.spans] == [clock.Event.GAP, clock.Event.BACK, clock.Event.GAP]
