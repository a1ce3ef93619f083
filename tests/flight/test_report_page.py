"""The page of `flight report`, opened in a headless Chromium without a network: its sections, its links, its curves, its print."""

from __future__ import annotations

import base64
import os
import pathlib
from typing import Iterator

import pytest

import browser
import damaged_images
from conftest import T1, TOP, Tool, Write
from flight_recorder import page

PROGRAM = pathlib.Path(os.environ.get("FDR", TOP / "bin" / "fdr")).resolve()
SECTIONS = ["What this is of", "What was found", "What is missing or doubtful", "Exceedances", "What this rests on"]
pytestmark = [
    pytest.mark.skipif(not PROGRAM.is_file(), reason="no program: FDR names none, and there is no bin/fdr"),
    pytest.mark.skipif(not (page.LIBRARY / "dygraph.min.js").is_file(), reason="libjs-dygraphs isn't installed"),
]


@pytest.fixture(scope="module")
def chromium() -> Iterator[browser.Browser]:
    """A browser for all tests."""
    if browser.PROGRAM is None:
        pytest.skip("chromium isn't installed")
    with browser.browser() as one:
        yield one


@pytest.fixture
def opened(
    flight: Tool, write: Write, tmp_path: pathlib.Path, chromium: browser.Browser
) -> browser.Browser:
    """The page of an image with a hole."""
    source = write("x.img", damaged_images.closed(damaged_images.whole_image(), [100]))
    words = ("--table", T1, "--rules", write("rules", "HIGH,ALT,above,120,3\n"), "--fdr", PROGRAM, "--title", "A <b> & c")
    assert flight("report", source, *words, "-o", tmp_path / "r").status == 0
    chromium.events.clear()
    chromium.session = None
    chromium.open(tmp_path / "r" / "report.html")
    return chromium


def test_sections_links_and_curves(opened: browser.Browser, tmp_path: pathlib.Path) -> None:
    assert opened.value("document.querySelector('h1').textContent") == "A <b> & c"
    headings = opened.value("[...document.querySelectorAll('article h2')].map((one) => one.textContent)")
    assert headings == [f"{number}. {name}" for number, name in enumerate(SECTIONS, 1)]
    assert min(opened.value("[...document.querySelectorAll('article section')].map((one) => one.clientHeight)")) > 50
    links = opened.value("[...document.querySelectorAll('a')].map((one) => one.getAttribute('href'))")
    names = {path.name for path in (tmp_path / "r").iterdir()}
    assert len(links) > 15 and set(links) <= names
    assert names - set(links) == {"report.html"}
    assert opened.value("[...document.querySelectorAll('.red')].filter((one) => one.textContent.includes('100 is missing')).length") == 1
    assert opened.value("page.curves.map((curve) => [curve.name, curve.time.length])") == [["ALT", 39]]
    assert opened.value("page.drawn()") == 39
    assert opened.value("document.querySelector('canvas').width") > 300
    assert opened.faults() == []


def test_it_prints(opened: browser.Browser) -> None:
    printed = base64.b64decode(opened.call("Page.printToPDF")["data"])
    assert printed.startswith(b"%PDF-")
    assert printed.count(b"/Type /Page\n") + printed.count(b"/Type /Page/") >= 2
