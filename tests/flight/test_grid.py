"""`flight map`: what is in each word of a table's frames, by hand, and by the sheet of sixty parameters alone."""

import csv
import html
import io
import pathlib
import re

import pytest

import sheet_frames
from conftest import ORDINARY, Tool, Write

SIXTY = (pathlib.Path(__file__).parent / "sheets" / "sixty.csv").read_text()
TABLE = """\
F,64,2,1
P,ALT,0,203,,1,16,U,1,1,0,0,64
L,ALT,1,1234,10,0,1,12,0,1
L,ALT,2,1234,11,0,3,4,0,1
P,GEAR,0,203,,1,1,U,1,1,0,0,32
L,GEAR,1,24,11,0,12,1,0,1
P,FLT,0,203,,1,12,U,1,1,0,0,2
L,FLT,1,2,64,0,1,12,3,8
P,DAY,0,203,,1,5,U,1,1,0,0,1
L,DAY,1,2,64,0,2,5,0,16
"""
TEXT = """\
 word  frames                subframe 1          subframe 2       subframe 3       subframe 4
    1  all                   12-1 sync word      12-1 sync word   12-1 sync word   12-1 sync word
    2  all                   12-1 frame counter  12-1 free        12-1 free        12-1 free
  3-9  all                   12-1 free           12-1 free        12-1 free        12-1 free
   10  all                   12-1 ALT part 1     12-1 ALT part 1  12-1 ALT part 1  12-1 ALT part 1
   11  all                   12-7 free           12 GEAR          12-7 free        12 GEAR
                             6-3 ALT part 2      11-7 free        6-3 ALT part 2   11-7 free
                             2-1 free            6-3 ALT part 2   2-1 free         6-3 ALT part 2
                                                 2-1 free                          2-1 free
12-63  all                   12-1 free           12-1 free        12-1 free        12-1 free
   64  1 of 16               12-1 free           12-7 free        12-1 free        12-1 free
                                                 6-2 DAY
                                                 1 free
   64  2-3,5-11,13-16 of 16  12-1 free           12-1 free        12-1 free        12-1 free
   64  4 of 8                12-1 free           12-1 FLT         12-1 free        12-1 free
"""


def test_the_grid_as_text(flight: Tool, write: Write) -> None:
    answer = flight("map", write("t.csv", TABLE))
    assert answer == (0, TEXT.encode(), "")


def test_without_frames_that_differ(flight: Tool, write: Write) -> None:
    lines = flight("map", write("t.csv", "".join(TABLE.splitlines(True)[:6]))).out.decode().splitlines()
    assert lines[0].split() == "word subframe 1 subframe 2 subframe 3 subframe 4".split()
    assert lines[2].split() == "2 12-1 frame counter 12-1 free 12-1 free 12-1 free".split()


def test_the_grid_as_csv(flight: Tool, write: Write, tmp_path: pathlib.Path) -> None:
    path = tmp_path / "map.csv"
    assert flight("map", write("t.csv", TABLE), "-o", path) == (0, b"", "")
    rows = path.read_text().splitlines()
    assert rows[0] == "word,frames,subframe 1,subframe 2,subframe 3,subframe 4"
    assert [row.split(",")[0] for row in rows[1:]] == [*map(str, range(1, 65)), "64", "64"]
    assert rows[11] == (
        "11,all,12-7 free; 6-3 ALT part 2; 2-1 free,12 GEAR; 11-7 free; 6-3 ALT part 2; 2-1 free,"
        "12-7 free; 6-3 ALT part 2; 2-1 free,12 GEAR; 11-7 free; 6-3 ALT part 2; 2-1 free"
    )
    assert rows[-2:] == [
        '64,"2-3,5-11,13-16 of 16",12-1 free,12-1 free,12-1 free,12-1 free',
        "64,4 of 8,12-1 free,12-1 FLT,12-1 free,12-1 free",
    ]


def frames_of(text: str) -> list[int]:
    """The frames of a row of a grid."""
    if text == "all":
        return list(range(1, 17))
    numbers, period = text.split(" of ")
    some = [range(int(one.split("-")[0]), int(one.split("-")[-1]) + 1) for one in numbers.split(",")]
    return [frame for number in (number for one in some for number in one) for frame in range(number, 17, int(period))]


@pytest.mark.parametrize("words", [64, 256])
def test_the_grid_of_a_sheet_has_what_the_sheet_has(flight: Tool, write: Write, tmp_path: pathlib.Path, words: int) -> None:
    """Each bit of a superframe, by the sheet alone: it holds the part that the grid names, or is free in both."""
    sheet = SIXTY.replace("words,64", f"words,{words}")
    assert flight("layout", write("s.csv", sheet), "-o", tmp_path / "t.csv").status == 0
    assert flight("map", tmp_path / "t.csv", "-o", tmp_path / "m.csv").status == 0
    in_grid: dict[tuple[int, int, int, int], str] = {}
    for word, frames, *cells in list(csv.reader(io.StringIO((tmp_path / "m.csv").read_text())))[1:]:
        for subframe, cell in enumerate(cells, 1):
            for item in cell.split("; "):
                span, what = item.split(" ", 1)
                ends = [int(end) for end in span.split("-")]
                for frame in frames_of(frames):
                    for bit in range(ends[-1], ends[0] + 1):
                        place = (frame, subframe, int(word), bit)
                        assert place not in in_grid
                        in_grid[place] = what
    assert len(in_grid) == 16 * 4 * words * 12
    by_sheet = {place: "free" for place in in_grid}
    for frame, subframe, _, bit in {(frame, sub, 1, bit) for frame in range(1, 17) for sub in range(1, 5) for bit in range(1, 13)}:
        by_sheet[frame, subframe, 1, bit] = "sync word"
        by_sheet[frame, 4, 64, bit] = "frame counter"
    for one in sheet_frames.quantities(sheet)[2]:
        for number, part in enumerate(one.parts, 1):
            for spot in part:
                for bit in range(spot.low, spot.low + spot.width):
                    by_sheet[spot.frame, spot.subframe, spot.word, bit] = f"{one.name} part {number}" if len(one.parts) > 1 else one.name
    assert in_grid == by_sheet


@pytest.mark.parametrize(
    "row, fault",
    [
        ("L,GEAR,1,24,11,0,6,1,0,1", "bit 6 of word 11 of subframe 2 holds both GEAR and ALT"),
        ("L,GEAR,1,24,65,0,6,1,0,1", "GEAR is in word 65, and a subframe has 64"),
        ("L,GEAR,1,1,2,0,6,1,0,1", "bit 6 of word 2 of subframe 1 holds both GEAR and the frame counter"),
        ("L,GEAR,1,34,1,0,6,1,3,4", "bit 6 of word 1 of subframe 3 of frame 4 of 16 holds both GEAR and the sync word"),
    ],
)
def test_a_table_that_isn_t_sound(flight: Tool, write: Write, row: str, fault: str) -> None:
    table = TABLE.replace("L,GEAR,1,24,11,0,12,1,0,1", row)
    assert flight("map", write("t.csv", table)) == (1, b"", f"flight: table: {fault}\n")


def test_the_page_is_whole(flight: Tool, write: Write, tmp_path: pathlib.Path) -> None:
    """It asks for nothing from elsewhere, and has each field of the grid. A browser looks at it in test_page.py."""
    table, path = write("t.csv", TABLE), tmp_path / "map.html"
    write("t.describe.csv", 'unit,ALT,ft,"Height <a> & b"\nstate,GEAR,1,"DO""WN"\n')
    assert flight("map", table, "-o", path, "--title", "A <b>") == (0, b"", "")
    text = path.read_text()
    assert "<title>A &lt;b&gt;</title>" in text
    assert not re.search(r"(src|href)\s*=|@import|url\(|https?:", text)
    assert "<b>ALT</b> Height &lt;a&gt; &amp; b [ft]" in text and 'title="1 DO&quot;WN"' in text
    body = re.sub(r"(?s).*<tbody>|</tbody>.*", "", text)
    shown = [html.unescape(re.sub("<[^>]*>", "", one)) for one in re.findall("<p[^>]*>.*?</p>", body)]
    cells = [cell for line in re.split(r"\n(?=.*all|.* of )", TEXT)[1:] for cell in re.findall(r"\d+(?:-\d+)? (?!of )[A-Za-z]\w*(?: \w+)*", line)]
    assert sorted(shown) == sorted(cells)
    assert "<th>2-3,5-11,13-16 of 16</th>" in body
    assert "64 words a subframe, the frame counter in word 2 of subframe 1; the counter is a multiple of 16 in frame 1; 4 parameters" in text


def test_the_page_s_title_is_the_table_s_name(flight: Tool, tmp_path: pathlib.Path) -> None:
    assert flight("map", ORDINARY, "-o", tmp_path / "m.html").status == 0
    assert "<title>ordinary.csv</title>" in (tmp_path / "m.html").read_text()
