"""Units, titles, states, scales, derived values and the time of day, looked at in the figure and in a page in a headless Chromium."""

import pathlib
from typing import Iterator

import numpy as np
import pytest

import browser
from conftest import Tool, Write
from flight_recorder import curves, page, picture, reading
from flight_recorder.clock import SECOND
from flight_recorder.streams import opened_again

TABLE = """\
F,64,2,1
P,N1,0,1,,11,12,U,1,1,0,0,64
L,N1,1,1234,10,0,1,12,0,1
P,MODE,0,2,,11,2,U,1,1,0,0,64
L,MODE,1,1234,11,0,1,2,0,1
P,SEC,0,3,,11,17,U,1,1,0,0,64
L,SEC,1,1234,12,0,1,12,0,1
L,SEC,2,1234,13,0,1,5,0,1
"""
DESCRIPTION = """\
unit,N1,%,Fan speed
points,N1,10:100,30:140
unit,MODE,,Mode of the pilot
state,MODE,0,off
state,MODE,1,hold
state,MODE,2,climb
derived,HALF,N1 / 2,kg,Half of it
derived,SIGN,N1 / (MODE - 1)
clock,utc,SEC
"""


def rows(frames: range) -> str:
    """N1 counts seconds up to 40, the mode changes each 40 seconds up to 3, and the clock counts from 10:00:00 on."""
    text = ""
    for frame in frames:
        for subframe in range(4):
            time = 4 * frame + subframe
            for word, name, value in ((10, "N1", time % 40), (11, "MODE", time // 40 % 4), (12, "SEC", 36_000 + time)):
                text += f"row,{frame},{subframe + 1},{word},{name},{value}\n"
    return text


LISTING = rows(range(60)) + f"gap,{60 * 3072},{10 * 3072}\n" + rows(range(70, 100))


@pytest.fixture
def drawn(write: Write) -> curves.Flight:
    """The flight that is drawn."""
    write("t.describe.csv", DESCRIPTION)
    how = reading.reading_of(str(write("t.csv", TABLE)), None, None, ["2026-05-04"])
    with opened_again(str(write("l", LISTING))) as source:
        for one in how.passes(source):
            collector = curves.Collector(how.names, None, 100_000, [], description=how.description)
            for timed in one:
                collector.add(timed)
            flight = collector.end(one.rest)
    flight.utc = how.utc
    return flight


def test_curves_of_their_own(drawn: curves.Flight) -> None:
    assert list(drawn.curves) == ["N1", "N1 (scaled)", "MODE", "SEC", "HALF (derived)", "SIGN (derived)"]
    values = {name: dict(zip((points.time // SECOND).tolist(), points.value.tolist())) for name, points in drawn.curves.items()}
    assert values["N1"] == {time: time % 40 for time in [*range(240), *range(280, 400)]}
    assert values["N1 (scaled)"] == {time: 80 + 2 * (time % 40) for time in values["N1"] if 10 <= time % 40 <= 30}
    assert values["HALF (derived)"] == {time: time % 40 / 2 for time in values["N1"]}
    assert values["SIGN (derived)"] == {time: time % 40 / (time // 40 % 4 - 1) for time in values["N1"] if time // 40 % 4 != 1}
    for name in ("N1 (scaled)", "SIGN (derived)"):  # broken where there is no value, and over the gap
        points = drawn.curves[name]
        assert (np.diff(points.stretch) != 0).tolist() == (np.diff(points.time) > 2 * SECOND).tolist()


def test_the_figure(drawn: curves.Flight) -> None:
    figure = picture.figure_of(drawn)
    axes = {one.get_ylabel(): one for one in figure.axes}
    assert list(axes) == ["N1", "N1\n(scaled)\n[%]", "MODE", "SEC", "HALF\n(derived)\n[kg]", "SIGN\n(derived)"]
    assert [text.get_text() for text in axes["HALF\n(derived)\n[kg]"].texts] == ["Half of it"]
    band = axes["MODE"]
    assert band.get_position().height < figure.axes[0].get_position().height / 3
    bars = {one.get_label(): one for one in band.collections}
    wanted = {"off": [0, 160, 320], "hold": [40, 200, 360], "climb": [80], "no word": [120, 280]}
    for word, begins in wanted.items():
        found = [path.vertices[:, 0].min() for path in bars[word].get_paths()]
        assert [int(begin) for begin in found] == begins
    assert [text.get_text() for text in band.texts].count("climb") == 1
    ends = [path.vertices[:, 0].max() for path in bars["hold"].get_paths()]
    assert [int(end) for end in ends] == [80, 239, 399]  # the second one ends with the gap
    shown = figure.axes[-1]
    labels = [shown.xaxis.get_major_formatter()(place) for place in shown.xaxis.get_major_locator()()]
    assert labels[:2] == ["0:00:00\n10:00:00", "0:01:00\n10:01:00"]
    assert shown.get_xlabel() == "time, h:mm:ss; below it the time of day, UTC, from 2026-05-04"
    lines = [text.get_text() for text in figure.texts]
    assert any("(2026-05-04T10:00:00" in line and "clock: utc is 2026-05-04T10:00:00" in line for line in lines)


def test_a_state_without_room_is_in_the_legend(drawn: curves.Flight) -> None:
    drawn.described["MODE"].states.update({"0": "a state with a name that no bar has room for"})
    band = next(one for one in picture.figure_of(drawn).axes if one.get_ylabel() == "MODE")
    assert [text.get_text() for text in band.get_legend().get_texts()] == ["a state with a name that no bar has room for"]


def test_texts_of_strangers_are_texts(drawn: curves.Flight, tmp_path: pathlib.Path) -> None:
    drawn.described["MODE"].states.update({"0": "$\\frac{a state without room, in a legend$", "1": "$x"})
    drawn.described["N1"].title = drawn.described["HALF (derived)"].unit = "$\\frac{$"
    picture.save(drawn, tmp_path / "f.svg", "")
    assert (tmp_path / "f.svg").stat().st_size > 10_000


@pytest.fixture(scope="module")
def chromium() -> Iterator[browser.Browser]:
    """A browser for all tests."""
    if browser.PROGRAM is None or not (page.LIBRARY / "dygraph.min.js").is_file():
        pytest.skip("chromium or libjs-dygraphs isn't installed")
    with browser.browser() as one:
        yield one


def test_the_page(flight: Tool, write: Write, chromium: browser.Browser, tmp_path: pathlib.Path) -> None:
    write("t.describe.csv", DESCRIPTION)
    path = tmp_path / "f.html"
    assert flight("plot", write("l", LISTING), "--table", write("t.csv", TABLE), "--date", "2026-05-04", "-o", path) == (0, b"", "")
    chromium.open(path)
    names = "[...document.querySelectorAll('.chart .name')].map(one => one.textContent)"
    assert chromium.value(names) == ["N1", "N1 (scaled) [%]", "MODE", "SEC", "HALF (derived) [kg]", "SIGN (derived)"]
    assert chromium.value("[...document.querySelectorAll('.chart .title')].map(one => one.textContent)") == [
        "Fan speed", "Fan speed", "Mode of the pilot", "Half of it",
    ]  # fmt: skip
    labels = chromium.value("[...document.querySelectorAll('.dygraph-axis-label-x')].map(one => one.innerText)")
    assert any(label.split() == ["0:01:00", "10:01:00"] for label in labels)
    box = chromium.value("(box => [box.left, box.top])(document.querySelector('.chart .plot').getBoundingClientRect())")
    area = chromium.value("[...page.charts.values()][0].graph.getArea()")
    chromium.move((box[0] + area["x"] + area["w"] * 95.3 / 400, box[1] + 40))
    assert chromium.value(names) == ["N1  15", "N1 (scaled)  110 %", "MODE  2 climb", "SEC  36094", "HALF (derived)  7.5 kg", "SIGN (derived)  15.0"]
    where = chromium.value("document.getElementById('where').textContent")
    assert where.startswith("0:01:35") and where.split(", ")[1].startswith("2026-05-04T10:01:3")
    assert chromium.faults() == []
    band = "page.groups.find(group => group.name === 'MODE')"
    assert chromium.value(f"[{band}.isBand, {band}.hasStates]") == [True, True]
    colour = "(at => { const g = page.charts.get('MODE').graph; const c = g.hidden_ || g.canvas_; const r = window.devicePixelRatio;" \
        " const x = Math.round(g.toDomXCoord(at) * r); return [...c.getContext('2d').getImageData(x, Math.round(6 * r), 1, 1).data]; })"  # fmt: skip
    assert [chromium.value(f"{colour}({at})")[:3] for at in (5, 50, 90)] == [[0xC9, 0xD6, 0xE4], [0x1F, 0x4E, 0x79], [0xE0, 0xB1, 0x84]]
