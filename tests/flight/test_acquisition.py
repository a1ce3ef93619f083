"""The walk of docs/ACQUISITION.md: its commands, run in a folder as the page has them, print what the page shows."""

import os
import pathlib
import re
import shutil
import struct
import subprocess

import pytest

from conftest import FLIGHT, T1, TOP
from feeding import RECORD, program

PAGE = TOP / "docs" / "ACQUISITION.md"
FENCED = re.compile(r"^```(\w*)\n(.*?)^```$", re.M | re.S)


def walk() -> list[tuple[str, str]]:
    """The fenced blocks of the walk: the language and the text of each."""
    text = PAGE.read_text()
    begin = text.index("## A walk")
    return FENCED.findall(text[begin : text.index("\n## ", begin)])


def is_shown(printed: str, shown: str) -> bool:
    """Whether the lines are those that the page shows: what a clock decides, and the value before the first word, may differ."""
    pattern = re.escape(shown)
    pattern = re.sub(r"\d+\\\.\d+\\ s", r"\\d+\\.\\d\\d?\\ s", pattern, count=1)  # of the head
    pattern = re.sub(r"\d+\\ records", r"\\d+\\ records", pattern)
    pattern = re.sub(r"(\\ )+\d+\\\.\d+(\\ )+\d+\\\.\d+\\ s", r" +\\d+\\.\\d +\\d+\\.\\d\\d s", pattern)
    pattern = pattern.replace(r"row,0,1,10,ALT,5", "row,0,1,10,ALT,[05]")
    pattern = re.sub(r"gap,3072,\d+", r"gap,3072,\\d+", pattern)
    pattern = re.sub(r"(\\ ){2,}", " +", pattern)
    return re.fullmatch(pattern, printed) is not None


def test_the_walk(tmp_path: pathlib.Path) -> None:
    if not shutil.which("cc"):
        pytest.skip("there is no cc")
    tools = tmp_path / "tools"
    folder = tmp_path / "walk"
    tools.mkdir()
    folder.mkdir()
    for name, path in (("fdr", program()), ("fdrpair", program("fdrpair")), ("flight", FLIGHT)):
        (tools / name).symlink_to(path)
    for path in (T1, *(TOP / "examples" / "recorder").iterdir()):
        shutil.copy(path, folder)
    environment = {**os.environ, "PATH": f"{tools}:{os.environ['PATH']}"}
    blocks = walk()
    assert [language for language, _ in blocks] == ["python", "", "", "", ""]
    (folder / "send.py").write_text(blocks[0][1])
    for (_, commands), (_, shown) in zip(blocks[1::2], blocks[2::2]):
        ran = subprocess.run(
            ["bash", "-e"], input=commands, cwd=folder, env=environment, capture_output=True, text=True, timeout=120
        )
        assert (ran.returncode, ran.stderr) == (0, "")
        assert is_shown(ran.stdout, shown), ran.stdout
    acks = (folder / "acks.log").read_text().splitlines()
    assert acks[0].endswith("Z ack 0") and re.fullmatch(r"20\d\d-\d\d-\d\dT\d\d:\d\d:\d\dZ ack 1", acks[1])


def test_the_record_in_python() -> None:
    """The two lines of Python on the page are those of the format."""
    found = re.findall(r"`struct\.pack\((.*?)\)`", PAGE.read_text())
    assert found == ['">BBHIQ", 1, bus, 0, word, time', '">BBHIQ", 2, 0, 0, 0, time']
    assert struct.calcsize(">BBHIQ") == RECORD.size == 16


def test_the_table_of_blocks() -> None:
    """Seconds a block and syncs a second are worked out anew, from 12 bits a word, and the slots of 25 hours."""
    rows = re.findall(r"^\| ([\d,]+) \| (.*) \| ([\d,]+) \|$", PAGE.read_text(), re.M)
    assert [int(row[0].replace(",", "")) for row in rows] == [64, 128, 256, 512, 1024]
    for row in rows:
        words = int(row[0].replace(",", ""))
        for payload, cell in zip((64, 512, 4096), row[1].split(" | ")):
            seconds, syncs = (float(number) for number in cell.split(", "))
            exact = payload * 8 / (12 * words)
            assert abs(seconds - exact) <= 0.05 * exact + 0.005
            assert abs(syncs - 2 / exact) <= 0.05 * 2 / exact + 0.005
        slots = -(-25 * 3600 * words * 12 // (8 * 4096))
        assert int(row[2].replace(",", "")) == slots
