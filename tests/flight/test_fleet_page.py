"""The page of `flight fleet`, opened in a headless Chromium without a network: sorted, filtered, a link followed, its picture."""

from __future__ import annotations

import pathlib
import re
from collections.abc import Iterator
from typing import Any

import pytest

import browser
from flight_recorder import fleet_page
from flight_recorder.fleet_job import Job

MONTHS = ("2026-04", "2026-05", "")


@pytest.fixture(scope="module")
def chromium() -> Iterator[browser.Browser]:
    """A browser for all tests."""
    if browser.PROGRAM is None:
        pytest.skip("chromium isn't installed")
    with browser.browser() as one:
        yield one


def exceedance(rule: str) -> list[str]:
    """A row of an exceedance by a rule."""
    return ["1", "1", "10.000000", "", "", "4.000000", rule, "2", "7", "2", "1", "10", "ALT", "1", ""]


def rows() -> list[dict[str, Any]]:
    """Flights of two months and of none: number N has N frames and N modulo 4 exceedances; each tenth is refused."""
    made = []
    for number in range(1, 31):
        month = MONTHS[number % 3]
        job = Job(f"/data/VH-{'AB' if number % 2 else 'CD'}/{number}<b>.img", f"f-{number}", "/t.csv", {}, start=month and f"{month}-04T10:00:00Z")
        if number % 10 == 0:
            made.append(job.row("refused", "fdr: image: header closed", exit=4))
            continue
        summary = {"duration": number * 3600, "runs": 1, "sessions": 1, "gaps": number % 7, "doubtful": 0, "first": "0.140625", "last": "9.5"}
        exceedances = [exceedance("HIGH" if one % 2 else "A&B") for one in range(number % 4)]
        made.append(job.row("done", "", exit=0, summary=summary, exceedances=exceedances))
    return made


def written(folder: pathlib.Path) -> pathlib.Path:
    """The page, with a report of one flight."""
    report = folder / "reports" / "f-7" / "report.html"
    report.parent.mkdir(parents=True)
    report.write_text("<!doctype html><title>The report</title><script>window.page = {}</script>")
    fleet_page.write(rows(), folder, folder / "fleet.html", "A <b> & c")
    return folder / "fleet.html"


def test_it_says_what_the_rows_say(tmp_path: pathlib.Path) -> None:
    text = written(tmp_path).read_text()
    assert "<title>A &lt;b&gt; &amp; c</title>" in text and "http:" not in re.sub(r'xmlns[:\w]*="[^"]*"|<metadata>.*?</metadata>', "", text, flags=re.S)
    hours = sum(number for number in range(1, 31) if number % 10)
    exceedances = sum(number % 4 for number in range(1, 31) if number % 10)
    assert f"30 flights: 27 done, 3 refused. {hours:,.1f} hours of frames, {exceedances} exceedances." in text
    picture = re.search(r"<figure>(.*)</figure>", text, re.S)
    assert picture is not None
    said = re.findall(r"<text [^>]*>([^<]*)</text>", picture.group(1))
    of_month = [[one for one in rows() if (one["start"][:7] or fleet_page.NO_DATE) == month] for month in ("2026-04", "2026-05", fleet_page.NO_DATE)]
    for rule in ("A&B", "HIGH"):
        counts = [str(sum(rule in one for row in flights for one in row["exceedances"])) for flights in of_month]
        at = said.index(counts[0])
        assert said[at : at + 3] == counts, (rule, said)
        del said[at : at + 3]
    assert {"A&amp;B", "HIGH", "2026-04", "2026-05", "no date"} <= set(said)


def names(page: browser.Browser) -> list[str]:
    """The first column of the rows that are shown."""
    found: list[str] = page.value("[...document.querySelectorAll('#flights tbody tr')].map((row) => row.cells[0].textContent)")
    return found


def click(page: browser.Browser, name: str) -> None:
    """Clicks on the head of a column."""
    page.value(f"[...document.querySelectorAll('th button')].find((one) => one.textContent === {name!r}).click()")


def type_into(page: browser.Browser, selector: str, text: str) -> None:
    """Gives a field a value, as a user does."""
    page.value(f"(() => {{ const one = document.querySelector({selector!r}); one.value = {text!r}; one.dispatchEvent(new Event('input')); }})()")


def test_it_is_sorted_filtered_and_linked(chromium: browser.Browser, tmp_path: pathlib.Path) -> None:
    chromium.open(written(tmp_path))
    every = [f"{number}<b>.img" for number in range(1, 31)]
    done = [name for number, name in enumerate(every, 1) if number % 10]
    refused = [name for number, name in enumerate(every, 1) if not number % 10]
    assert names(chromium) == every
    click(chromium, "hours")
    assert names(chromium) == done + refused
    click(chromium, "hours")
    assert names(chromium) == done[::-1] + refused
    assert chromium.value("[...document.querySelectorAll('th')].map((one) => one.ariaSort).filter((one) => one !== 'none')") == ["descending"]
    type_into(chromium, "#status", "refused")
    assert names(chromium) == refused
    type_into(chromium, "#status", "")
    type_into(chromium, "#find", "vh-ab/1")
    assert sorted(names(chromium)) == sorted(f"{number}<b>.img" for number in (1, 11, 13, 15, 17, 19))
    assert chromium.value("document.getElementById('shown').textContent") == "6 of 30 flights"
    type_into(chromium, "#find", "7<b>")
    click(chromium, "flight")
    assert names(chromium) == ["17<b>.img", "27<b>.img", "7<b>.img"]
    assert chromium.value("document.querySelector('figure svg').clientWidth") > 200
    assert chromium.value("[...document.querySelectorAll('#flights a')].map((one) => one.getAttribute('href'))") == ["reports/f-7/report.html"]
    assert chromium.faults() == []
    chromium.value("document.querySelector('#flights a').click()")
    chromium.wait_for("document.title === 'The report'")
