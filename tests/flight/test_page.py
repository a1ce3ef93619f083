"""`flight plot` as a page, opened in a headless Chromium without a network: its points, zooming, values, parameters; and the page of
`flight map`."""

import json
import pathlib
import re
from typing import Any, Callable, Iterator

import pytest

from conftest import Tool, Write
import browser
import encoder
from conftest import Tool
from flight_recorder import page

LISTING = "".join(f"row,{at},1,10,ALT,{100 * at}\nrow,{at},2,5,GEAR,{at % 2}\n" for at in range(50)) + (
    "gap,153600,3072\n" + "".join(f"row,{at},1,10,ALT,{at}.5\n" for at in range(51, 60))
)
PLACE = "(box => [box.left, box.top, box.width, box.height])(document.querySelector('.chart .plot').getBoundingClientRect())"
HAS_LIBRARY = (page.LIBRARY / "dygraph.min.js").is_file()
pytestmark = pytest.mark.skipif(not HAS_LIBRARY, reason="libjs-dygraphs isn't installed")

Opened = Callable[..., browser.Browser]


@pytest.fixture(scope="module")
def chromium() -> Iterator[browser.Browser]:
    """A browser for all tests."""
    if browser.PROGRAM is None:
        pytest.skip("chromium isn't installed")
    with browser.browser() as one:
        yield one


@pytest.fixture
def opened(flight: Tool, write: Write, tmp_path: pathlib.Path, chromium: browser.Browser) -> Opened:
    """Makes a page, and opens it."""

    def run(listing: str, *words: object) -> browser.Browser:
        path = tmp_path / "flight.html"
        assert flight("plot", write("l", listing), "-o", path, *words) == (0, b"", "")
        chromium.events.clear()
        chromium.session = None
        chromium.open(path)
        return chromium

    return run


def test_the_file_is_whole(flight: Tool, write: Write, tmp_path: pathlib.Path) -> None:
    path = tmp_path / "flight.html"
    assert flight("plot", write("l", LISTING), "-o", path, "--words", 64, "--title", "A <b> & c").status == 0
    text = path.read_text()
    assert "<title>A &lt;b&gt; &amp; c</title>" in text
    assert not re.search(
        r"""(src|href)\s*=|@import|url\(|sourceMappingURL""", re.sub(r"(?s)<script>.*?</script>", "", text)
    )
    assert "sourceMappingURL" not in text
    data = json.loads(re.findall(r'(?s)<script type="application/json" id="flight">(.*?)</script>', text)[0])
    assert [curve["name"] for curve in data["curves"]] == ["ALT", "GEAR"]
    assert [(span["name"], span["known"]) for span in data["spans"]] == [("gap 4 s", True)]


def test_points_are_drawn(opened: Opened) -> None:
    shown = opened(LISTING, "--words", 64)
    assert shown.value("page.curves.map(curve => curve.time.length)") == [59, 50]
    assert shown.value("page.drawn()") == 109
    assert shown.value("page.window") == [0, 240]
    alt = shown.value("[...page.charts.values()][0].graph.rawData_ || page.curves[0].rows(0, 240 * 1024, 1000)")
    assert [row for row in alt if row[1] is not None] == [
        [4 * at + 9 / 64, 100 * at if at < 50 else at + 0.5] for at in [*range(50), *range(51, 60)]
    ]
    assert shown.value("page.curves[0].rows(0, 240 * 1024, 1000).filter(row => row[1] === null).length") == 1
    assert shown.faults() == []


def test_a_drag_zooms_all_charts(opened: Opened) -> None:
    shown = opened(LISTING, "--words", 64)
    left, top, width, _ = shown.value(PLACE)
    area = shown.value("[...page.charts.values()][0].graph.getArea()")
    begin, end = (left + area["x"] + part * area["w"] for part in (0.25, 0.5))
    shown.drag((begin, top + 50), (end, top + 55))
    shown.wait_for("page.window[0] > 0")
    window = shown.value("page.window")
    assert window == pytest.approx([60, 120], abs=1)
    ranges = shown.value("[...page.charts.values()].map(chart => chart.graph.xAxisRange())")
    assert ranges == [pytest.approx(window)] * 2
    inside = [at for at in range(50) if window[0] <= 4 * at + 9 / 64 <= window[1]]
    assert len(inside) <= shown.value("[...page.charts.values()][0].graph.numRows()") <= len(inside) + 2
    shown.double_click((begin, top + 50))
    assert shown.value("page.window") == [0, 240]


def test_values_under_the_pointer(opened: Opened) -> None:
    shown = opened(LISTING, "--words", 64)
    left, top, _, _ = shown.value(PLACE)
    area = shown.value("[...page.charts.values()][0].graph.getArea()")
    shown.move((left + area["x"] + area["w"] * 100.2 / 240, top + 40))
    assert shown.value("document.getElementById('where').textContent") == "0:01:40.141"
    assert shown.value("[...document.querySelectorAll('.name')].map(one => one.textContent)") == [
        "ALT  2500.0",
        "GEAR  0",
    ]
    assert shown.value("page.curves[0].at(202 * 1024)") == "\u2013"  # within the gap


def test_parameters_are_put_on_and_off(opened: Opened) -> None:
    shown = opened(LISTING, "--words", 64)
    shown.value("page.boxes.get('ALT').click()")
    assert shown.value("[...page.charts.keys()]") == ["GEAR"]
    assert shown.value("page.drawn()") == 50
    shown.value("page.boxes.get('ALT').click()")
    assert shown.value("[...document.querySelectorAll('.chart .name')].map(one => one.textContent)") == ["ALT", "GEAR"]


def test_many_parameters_are_off_at_first(opened: Opened) -> None:
    shown = opened("".join(f"row,0,1,{at + 2},N{at},1\n" for at in range(60)), "--words", 64)
    assert shown.value("[page.curves.length, page.charts.size]") == [60, 12]
    shown.value(
        "(box => { box.value = 'n5'; box.dispatchEvent(new Event('input')); })(document.querySelector('nav input'))"
    )
    assert shown.value("[...document.querySelectorAll('nav label')].filter(one => !one.hidden).length") == 11


def test_a_day_is_drawn_by_few_points(opened: Opened) -> None:
    """Eight samples a second for a day, as VRTG: all that is kept is there, and the chart draws few of them, zoomed too."""
    rows = "".join(
        f"row,{at // 4 % 4096},{at % 4 + 1},{word},VRTG,{(at * 7 + word) % 997}\n"
        for at in range(86_400)
        for word in range(8, 256, 32)
    )
    shown = opened(rows, "--words", 256)
    assert shown.value("page.curves[0].time.length") == 691_200
    assert shown.value("page.curves[0].count") == 691_200
    assert shown.value("page.drawn()") < 8000
    shown.value("page.setWindow([40000, 50000])")
    assert shown.value("page.drawn()") < 8000
    assert shown.value(
        "[Math.min(...page.curves[0].value.slice(0, 90000)), Math.max(...page.curves[0].value.slice(0, 90000))]"
    ) == [0, 996]


def test_a_page_of_600_parameters_has_what_is_looked_at_in_full(opened: Opened) -> None:
    """600 parameters, each sampled 1,000 times: the page reads those that it shows, and a parameter in full once it is put on."""
    names = [f"P{at}" for at in range(600)]
    rows = "".join(
        f"row,{frame},{at % 4 + 1},{at // 4 + 2},{name},{(frame * 7 + at) % 1000}\n"
        for frame in range(1000)
        for at, name in enumerate(names)
    )
    shown = opened(rows, "--words", 256)
    assert shown.value("page.curves.length") == 600
    assert shown.value("page.curves.filter((curve) => curve.time).length") == 12
    shown.value("page.boxes.get('P599').click()")
    shown.wait_for("page.charts.has('P599')")
    assert shown.value("page.curves.filter((curve) => curve.time).length") == 13
    assert shown.value("[...page.curves[599].value]") == [(frame * 7 + 599) % 1000 for frame in range(1000)]
    place = (599 % 4) * 1024 + (599 // 4 + 1) * 4
    assert shown.value("[...page.curves[599].time]") == [4096 * frame + place for frame in range(1000)]
    assert shown.faults() == []


def test_curves_together(opened: Opened) -> None:
    text = "".join(f"row,{at},1,10,A,{at}\nrow,{at},2,10,B,{at}.5\nrow,{at},1,11,C,1\n" for at in range(10))
    text += "gap,30720,3072\n" + "".join(f"row,{at},1,10,A,{at}\n" for at in range(11, 14))
    shown = opened(text, "--words", 64, "--together", "A,B")
    assert shown.value("[...page.charts.keys()]") == ["A, B", "C"]
    rows = shown.value("page.rowsOf(page.groups[0]).map(row => row.map(one => Number.isNaN(one) ? 'break' : one))")
    first = [[4 * at + 9 / 64, at, None] for at in range(10)] + [[4 * at + 1 + 9 / 64, None, at + 0.5] for at in range(10)]
    last = [[4 * at + 9 / 64, at, None] for at in range(11, 14)]
    wanted: list[list[Any]] = [*first, [36 + 9 / 64 + 0.25 / 1024, "break", None], *last]
    assert rows == sorted(wanted, key=lambda row: float(row[0]))
    assert shown.value("page.drawn()") == 10 + 10 + 10 + 3
    shown.value("page.point(6)")
    assert shown.value("document.querySelector('.name').textContent") == "A  1  B  1.5"
    assert shown.faults() == []


def test_discretes_are_thin_bands(opened: Opened) -> None:
    shown = opened(LISTING, "--words", 64)
    heights = shown.value("[...document.querySelectorAll('.plot')].map(one => one.getBoundingClientRect().height)")
    assert heights[1] < heights[0] / 3
    assert shown.value("page.groups.map(group => group.isBand)") == [False, True]


def test_events_are_numbered_with_a_list(opened: Opened, write: Write) -> None:
    exceedances = write("e", "exceed,HI,30,1,10,3,3200\nexceed,LO,55,1,10,1,55.5\n")
    shown = opened(LISTING, "--words", 64, "--exceed", exceedances)
    assert shown.value("[...document.querySelectorAll('#events li')].map(one => [one.value, one.textContent])") == [
        [1, "0:02:00.141  HI of ALT: 3 samples, peak 3200"],
        [2, "0:03:20  gap 4 s: from bit 153600, 3072 bits: 4 s"],
        [3, "0:03:40.141  LO of ALT: 1 samples, peak 55.5"],
    ]
    shown.value("document.querySelectorAll('#events li')[1].click()")
    assert shown.value("page.window") == [170, 230]
    assert shown.faults() == []


def test_parts_and_doubtful_frames(opened: Opened, write: Write) -> None:
    table = write("t.csv", "F,64,2,1\nP,ALT,0,203,,11,12,U,1,1,0,0,64\nL,ALT,1,1234,10,0,1,12,0,1\n")
    rows = [f"row,{at},{sub},10,ALT,{at}\n" for at in (5, 6, 99, 8, 9) for sub in range(1, 5)]
    listing = "".join(rows) + "gap,15360,1600\n"
    parts = "doubtful,99,1234,7,9,4,counter that doesn't fit\ngap,15360,1600\npart,10,1,10,ALT,70,3\npart,10,2,10,ALT,71,3\n"
    shown = opened(listing, "--table", table, "--parts", write("p", parts))
    assert shown.value("page.groups.map(group => group.name)") == ["ALT, ALT (part), ALT (doubtful)"]
    assert shown.value("page.curves.map(curve => [...curve.value])[1]") == [70, 71]
    assert shown.value("page.curves.map(curve => curve.at((41.5 - 20) * 1024))") == ["\u2013", "71", "\u2013"]
    assert shown.value("page.curves.map(curve => curve.at((29.5 - 20) * 1024))") == ["99", "\u2013", "99"]
    assert len(set(shown.value("page.groups[0].curves.map(curve => curve.apart || 'own')"))) == 3
    assert shown.value("flight.events.map(one => one.event)") == ["doubtful", "gap"]
    assert shown.faults() == []


def test_no_extreme_of_a_long_flight_is_lost(opened: Opened) -> None:
    values = {33_333: 500, 55_555: -500}
    shown = opened(
        "".join(f"row,{at % 4096},1,10,ALT,{values.get(at, at % 2)}\n" for at in range(90_000)), "--words", 64
    )
    rows = "page.rowsOf(page.groups[0])"
    assert shown.value(f"{rows}.length") < 5000
    assert shown.value(f"{rows}.filter(row => Math.abs(row[1]) === 500).map(row => row[1])") == [500, -500]


def test_the_example_s_page(opened: Opened, hour: str, tmp_path: pathlib.Path) -> None:
    shown = opened(hour, "--table", encoder.TOP / "examples" / "ordinary.csv", "--title", "A flight of an hour")
    assert shown.value("page.charts.size") == 7
    assert shown.value("flight.recordings.length") == 2
    assert {"the counter goes back by 467", "gap, unknown length"} <= set(shown.value("flight.spans.map(span => span.name)"))
    shown.screenshot(tmp_path / "page.png")
    assert pathlib.Path(tmp_path / "page.png").stat().st_size > 20_000
    assert shown.faults() == []


@pytest.fixture
def map_page(flight: Tool, tmp_path: pathlib.Path, chromium: browser.Browser) -> browser.Browser:
    """The grid of the sheet of sixty parameters as a page, opened."""
    sheet = pathlib.Path(__file__).parent / "sheets" / "sixty.csv"
    assert flight("layout", sheet, "-o", tmp_path / "t.csv").status == 0
    assert flight("map", tmp_path / "t.csv", "-o", tmp_path / "map.html", "--title", "Sixty") == (0, b"", "")
    chromium.events.clear()
    chromium.session = None
    chromium.open(tmp_path / "map.html")
    return chromium


ROWS_OF_WORD_11 = """[...document.querySelectorAll("tbody tr")].filter((row) => row.cells[0].textContent === "11")"""


def test_a_grid_is_seen(map_page: browser.Browser, tmp_path: pathlib.Path) -> None:
    assert map_page.value("[...document.querySelectorAll('thead th')].map((one) => one.textContent)") == [
        "word", "frames", "subframe 1", "subframe 2", "subframe 3", "subframe 4",
    ]  # fmt: skip
    assert map_page.value(f"{ROWS_OF_WORD_11}.length") == 1
    shown = map_page.value(f"[...{ROWS_OF_WORD_11}[0].cells[3].querySelectorAll('p')].map((one) => one.innerText)")
    assert shown == ["12-11 SPOILER", "10 WOW", "9 AIR_GND", "8 GEAR_UP", "7 GEAR_DN", "6-1 ALT part 2"]
    band = f"[...{ROWS_OF_WORD_11}[0].cells[3].querySelectorAll('.band i')].map((one) => one.getBoundingClientRect())"
    widths = map_page.value(f"{band}.map((box) => box.width)")
    assert [round(12 * width / sum(widths)) for width in widths] == [2, 1, 1, 1, 1, 6]
    assert map_page.value(f"{band}.every((box, at, all) => at === 0 || Math.abs(box.left - all[at - 1].right) < 1)")
    boxes = map_page.value(f"{ROWS_OF_WORD_11}[0].cells[3].getBoundingClientRect().toJSON()")
    assert boxes["width"] > 150 and boxes["right"] <= browser.SIZE[0]
    free = "getComputedStyle(document.querySelector('.band i.free')).backgroundImage"
    held = "getComputedStyle(document.querySelector('.band i.parameter')).backgroundImage"
    assert "gradient" in map_page.value(free) and map_page.value(held) == "none"
    map_page.screenshot(tmp_path / "map.png")
    assert (tmp_path / "map.png").stat().st_size > 20_000
    assert map_page.faults() == []


def test_a_parameter_is_found_in_a_grid(map_page: browser.Browser) -> None:
    chosen = "[...document.querySelectorAll('td p.chosen')].map((one) => one.innerText)"
    map_page.value("document.querySelector('nav button[data-name=FUEL]').click()")
    assert map_page.value(chosen) == 2 * ["12-1 FUEL part 1", "6-1 FUEL part 2"]  # of frames 1, 2, 9 and 10
    assert map_page.value("document.getElementById('found').textContent") == "FUEL: 4 in the grid"
    inside = "(box => box.top >= 0 && box.bottom <= innerHeight)(document.querySelector('td p.chosen').getBoundingClientRect())"
    assert map_page.value(inside)
    map_page.value("document.querySelector('td p.chosen').click()")
    assert map_page.value(chosen) == []
    map_page.value("(box => { box.value = 'flt_1'; box.dispatchEvent(new Event('input')); })(page.box)")
    assert map_page.value(chosen) == ["12-9 FLT_1000", "8-5 FLT_100", "4-1 FLT_10", "4-1 FLT_1"]
    assert map_page.value("[...document.querySelectorAll('.band i.chosen')].length") == 4
    map_page.value("(box => { box.value = ''; box.dispatchEvent(new Event('input')); })(page.box)")
    assert map_page.value(chosen) == []
    assert map_page.value("[...document.querySelectorAll('nav button')].map((one) => one.textContent)[3]") == "ALT Pressure altitude [ft]"
    assert map_page.faults() == []
