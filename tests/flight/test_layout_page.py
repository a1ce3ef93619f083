"""What docs/LAYOUT_SHEETS.md shows: its lines as they are typed, and its worked rows through the program."""

import pathlib
import re
import subprocess

import drawn_dumps
import sheet_frames
from conftest import TOP, Fdr, Tool

PAGE = (TOP / "docs" / "LAYOUT_SHEETS.md").read_text()
SHEET = (TOP / "examples" / "layout.csv").read_text()


def test_the_lines_of_the_page(tmp_path: pathlib.Path, fdr: Fdr) -> None:
    block = next(one for one in re.findall(r"^```\n(.*?)^```$", PAGE, re.MULTILINE | re.DOTALL) if one.startswith("$ "))
    steps = [step.partition("\n") for step in re.split(r"^\$ ", block, flags=re.MULTILINE)[1:]]
    assert len(steps) == 4
    (tmp_path / "examples").symlink_to(TOP / "examples")
    with drawn_dumps.programs() as environment:
        for line, _, shown in steps:
            ran = subprocess.run(["bash", "-c", line], cwd=tmp_path, env=environment, capture_output=True, text=True)
            assert (line, ran.returncode, ran.stdout + ran.stderr) == (line, 0, shown)


def test_the_sheet_of_the_page_of_tables(tmp_path: pathlib.Path, flight: Tool) -> None:
    block = re.findall(r"^```\n(words,.*?)^```$", (TOP / "docs" / "TABLE.md").read_text(), re.MULTILINE | re.DOTALL)
    (tmp_path / "s.csv").write_text(block[0])
    assert flight("layout", tmp_path / "s.csv", "-o", tmp_path / "t.csv").status == 0
    names = [row.split(",")[1] for row in (tmp_path / "t.csv").read_text().splitlines() if row.startswith("P")]
    assert names == ["IAS", "ALT", "GEAR", "GW"]


def worked() -> dict[str, tuple[int, str]]:
    """The raw number and the value of each parameter of the worked rows."""
    found = {}
    for names, raws, values in re.findall(r"^\| ((?:`\w+`(?:, )?)+) \|[^|]*\| ([\d, ]+) \| ([-\d., ]+) \|", PAGE, re.MULTILINE):
        for name, raw, value in zip(names.split(", "), raws.split(", "), values.split(", ")):
            found[name.strip("`")] = (int(raw), value)
    return found


def test_the_worked_rows_of_the_page(tmp_path: pathlib.Path, flight: Tool, fdr: Fdr) -> None:
    rows = worked()
    words, counter, parameters = sheet_frames.quantities(SHEET)
    assert {one.name for one in parameters} == set(rows)
    frames = sheet_frames.drawn(SHEET, 1, 7).words
    for one in parameters:
        for sample in zip(*one.parts):
            left = rows[one.name][0]
            for spot in sample:
                place = (4 * (spot.frame - 1) + spot.subframe - 1) * words + spot.word - 1
                mask = ((1 << spot.width) - 1) << (spot.low - 1)
                frames[place] = frames[place] & ~mask | (left << (spot.low - 1)) & mask
                left >>= spot.width
            assert left == 0
    assert flight("layout", TOP / "examples" / "layout.csv", "-o", tmp_path / "t.csv").status == 0
    listed = fdr("listbits", tmp_path / "t.csv", given=sheet_frames.Drawn(frames, []).bits()).decode().splitlines()
    assert {tuple(row.split(",")[4:]) for row in listed} == {(name, value) for name, (_, value) in rows.items()}
