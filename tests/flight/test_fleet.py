"""`flight fleet`: its rows beside the plain commands, what is refused, what a stop leaves, and the database."""

from __future__ import annotations

import csv
import hashlib
import io
import json
import logging
import os
import pathlib
import re
import shutil
import signal
import socket
import sqlite3
import subprocess
import sys
from collections.abc import Iterator
from dataclasses import dataclass
from types import SimpleNamespace
from typing import Any, cast

import dask
import distributed
import pandas
import pytest

import damaged_images
import inputs
from conftest import FLIGHT, ORDINARY, T1, TOP, Fdr, Tool, Write
from flight_recorder import commands, fleet_engine, fleet_list, fleet_progress
from flight_recorder.faults import Fault
from flight_recorder.fleet_job import DONE, REFUSED, Job

PROGRAM = pathlib.Path(os.environ.get("FDR", TOP / "bin" / "fdr")).resolve()
RULES = "HIGH,ALT,above,120,3\nSTEP,ALT,change,0,2\n"
HOLES = damaged_images.closed(damaged_images.whole_image(), [30, 31, 150])
EXAMPLES = ("again.img", "cut.img", "old.img")
SHORT = damaged_images.whole_image()[:1000]
pytestmark = pytest.mark.skipif(not PROGRAM.is_file(), reason="no program: FDR names none, and there is no bin/fdr")


@pytest.fixture(scope="session")
def scheduler(tmp_path_factory: pytest.TempPathFactory) -> Iterator[str]:
    """A cluster of two workers for all tests, since one takes seconds to start."""
    own = "127.0.0.1"
    how: dict[str, Any] = {"host": own, "dashboard_address": f"{own}:0", "worker_dashboard_address": f"{own}:0", "extensions": {}}
    how |= {"local_directory": str(tmp_path_factory.mktemp("dask")), "silence_logs": logging.CRITICAL}
    with dask.config.set({"distributed.scheduler.allowed-failures": 1}):
        cluster = distributed.LocalCluster(n_workers=2, threads_per_worker=1, **how)  # type: ignore[no-untyped-call]
        yield cluster.scheduler_address
        fleet_engine.close(cluster)


@pytest.fixture
def fleet(flight: Tool, scheduler: str, tmp_path: pathlib.Path) -> Tool:
    """Runs `flight fleet` by that cluster, into the folder `fleet`."""
    return lambda *words: flight("fleet", *words, "-o", tmp_path / "fleet", "--fdr", PROGRAM, "--scheduler", scheduler)


def rows_of(folder: pathlib.Path, name: str) -> list[dict[str, str]]:
    """The rows of a table."""
    return list(csv.DictReader(io.StringIO((folder / "fleet" / f"{name}.csv").read_text())))


def by_name(folder: pathlib.Path) -> dict[str, dict[str, str]]:
    """The rows of flights by the names of their files."""
    return {pathlib.Path(row["file"]).name: row for row in rows_of(folder, "flights")}


def lines(text: bytes, kind: str) -> list[list[str]]:
    """The fields of the lines of a kind."""
    return [line.split(",") for line in text.decode().splitlines() if line.startswith(f"{kind},")]


def some_flights(write: Write) -> list[pathlib.Path]:
    """Whole and damaged images of both versions, and bits."""
    flights = [write("whole.img", damaged_images.whole_image()), write("holes.img", HOLES), write("five.bits", inputs.FIVES)]
    flights += [write(name, (TOP / "examples" / name).read_bytes()) for name in EXAMPLES]
    damaged_bits = inputs.FIVES[:1000] + b"x" + inputs.FIVES[1000:]
    return [*flights, write("damaged.bits", damaged_bits), write("none.bits", b"x" * 1000)]


def test_its_numbers_are_those_of_the_plain_commands(fleet: Tool, flight: Tool, fdr: Fdr, write: Write, tmp_path: pathlib.Path) -> None:
    flights, rules = some_flights(write), write("rules.csv", RULES)
    answer = fleet(*flights, "--table", T1, "--rules", rules, "--values")
    assert (answer.status, answer.out) == (0, b"") and "8 flights: 8 done" in answer.error
    rows = rows_of(tmp_path, "flights")
    assert [row["file"] for row in rows] == [str(one) for one in flights]
    exceeding = rows_of(tmp_path, "exceedances")
    assert len(exceeding) == 5 and {row["rule"] for row in exceeding} == {"HIGH", "STEP"}
    by_hand = ByHand(flight, fdr, write, rules)
    for path, row in zip(flights, rows):
        own = [one for one in exceeding if one["file"] == str(path)]
        parameters = [one for one in rows_of(tmp_path, "parameters") if one["file"] == str(path)]
        look_by_hand(path, row, own, parameters, by_hand)


@dataclass
class ByHand:
    """The plain commands, the rules, and words for `flight table`: what a description and a date say, and which flight is chosen."""

    flight: Tool
    fdr: Fdr
    write: Write
    rules: pathlib.Path
    described: tuple[object, ...] = ()
    chosen: tuple[object, ...] = ()


def look_by_hand(path: pathlib.Path, row: dict[str, str], exceeding: list[dict[str, str]], parameters: list[dict[str, str]], by: ByHand) -> None:
    """Compares the rows of a flight with what the plain commands say of it. By the small table each frame has one row."""
    flight, fdr, write, rules = by.flight, by.fdr, by.write, by.rules
    is_image, words = path.suffix == ".img", (*by.described, *by.chosen)
    assert (row["status"], row["exit"], row["said"], row["kind"]) == ("done", "0", "", "image" if is_image else "bits")
    assert (row["bytes"], row["sha256"]) == (str(path.stat().st_size), hashlib.sha256(path.read_bytes()).hexdigest())
    text = fdr("list", T1, path) if is_image else fdr("listbits", T1, given=path.read_bytes())
    frames, gaps = len(lines(text, "row")), lines(text, "gap")
    assert int(row["frames"]) == frames
    assert by.chosen or (int(row["rows"]), int(row["duration"])) == (frames, 4 * frames)
    assert (int(row["gaps"]), int(row["gap_bits"])) == (len(gaps), sum(int(gap[2]) for gap in gaps))
    assert int(row["sessions"]) == len(lines(text, "session"))
    salvaged = fdr("salvage", T1, path) if is_image else b""
    runs = lines(salvaged, "run")
    told = [str(len(runs)), str(sum(int(run[2]) for run in runs)), str(len(lines(salvaged, "row")))]
    assert [row["runs"], row["blocks"], row["frames_of_runs"]] == (told if is_image else ["", "", ""])
    listing = write("listing", text)
    parts = write("parts", flight("parts", path, listing, "--table", T1).out)
    assert (int(row["parts"]), int(row["doubtful"])) == tuple(len(lines(parts.read_bytes(), kind)) for kind in ("part", "doubtful"))
    table = pandas.read_csv(io.BytesIO(flight("table", listing, "--table", T1, "--parts", parts, *words).out), dtype={"time": str})
    samples = table[table["note"].isna() & ~table["mark"].astype(str).str.startswith("part")]
    assert int(row["rows"]) == len(samples)
    recordings = sorted(set(samples["recording"]))
    assert int(row["recordings"]) == len(recordings)
    times = [list(samples[samples["recording"] == one]["time"]) for one in recordings]
    assert [row["first"], row["last"]] == ([min(times[0], key=float), max(times[-1], key=float)] if times else ["", ""])
    values = samples["value"]
    told = ["ALT", str(len(values)), *(f"{one():.15g}" if len(values) else "" for one in (values.min, values.max))]
    assert [[one[name] for name in ("name", "samples", "least", "greatest")] for one in parameters] == [told]
    source = path if is_image else write("image", b"")
    if not is_image:
        assert flight("image", path, "-o", source, "--words", 64).status == 0
    exceed = write("exceed", fdr("exceed", T1, source, given=rules.read_bytes()))
    answer = flight("table", listing, "--table", T1, "--exceed", exceed, "--parts", parts, *words).out.decode()
    for_hand = [dict(one) for one in csv.DictReader(io.StringIO(answer.replace(",name,", ",rule,", 1)))]
    assert [{name: one[name] for name in for_hand[0]} for one in exceeding] == for_hand if for_hand else not exceeding
    assert int(row["exceedances"]) == len(for_hand)
    made = write("values.h5", b"")
    assert flight("table", listing, "--table", T1, "--parts", parts, "-o", made, *words).status == 0
    stored = [pandas.HDFStore(str(one), mode="r") for one in (row["values"], made)]
    try:
        assert [one.keys() for one in stored][0] == [one.keys() for one in stored][1]
        assert all(stored[0][key].equals(stored[1][key]) for key in stored[0].keys())
    finally:
        for one in stored:
            one.close()


def test_descriptions_dates_and_one_flight_are_those_of_the_plain_commands(
    fleet: Tool, flight: Tool, fdr: Fdr, write: Write, tmp_path: pathlib.Path
) -> None:
    bits = damaged_images.bits_of(90)
    broken = 75 * len(bits) // 90  # the first byte of a frame of the second flight
    flights = [write("two_20260504.img", damaged_images.whole_image(90, slots=1024)), write("one_20260504.img", damaged_images.whole_image())]
    flights.append(write("two_20260504.bits", bits[:broken] + b"x" + bits[broken + 1 :]))
    described = write("d.csv", "unit,ALT,ft,Pressure altitude\nstate,ALT,111,take-off\nderived,SECS,ALT * 4\nclock,utc,SECS\n")
    rules = write("rules.csv", f"{RULES}TOP,ALT,above,180,2\n")
    when = ("--when", "(110 < ALT < 130) | (170 < ALT < 185)", "--for", "20s", "--apart", "100s")
    words = (*flights, "--table", T1, "--rules", rules, "--describe", described, "--date-in", "%Y%m%d", "--values", *when)
    by_hand = ByHand(flight, fdr, write, rules, ("--describe", described, "--start", "2026-05-04T00:00:00Z"), (*when, "--flight", 2))
    assert fleet(*words, "--flight", 2).status == 2
    rows, exceeding = by_name(tmp_path), rows_of(tmp_path, "exceedances")
    lacking = rows.pop("one_20260504.img")
    assert (lacking["status"], lacking["exit"], lacking["said"]) == ("refused", "", "--flight 2: there are 1 flights")
    assert (lacking["frames"], lacking["rows"], lacking["exceedances"]) == ("40", "0", "0")
    seconds = []
    for path in (flights[0], flights[2]):
        row = rows[path.name]
        own, parameters = ([one for one in rows_of(tmp_path, name) if one["file"] == str(path)] for name in ("exceedances", "parameters"))
        look_by_hand(path, row, own, parameters, by_hand)
        assert [(one["unit"], one["title"]) for one in parameters] == [("ft", "Pressure altitude")]
        text = fdr("list", T1, path) if path.suffix == ".img" else fdr("listbits", T1, given=path.read_bytes())
        found = flight("flights", write("listing", text), "--table", T1, "--describe", described, *when).out.decode()
        second = list(csv.DictReader(io.StringIO(found)))[1]
        assert int(row["duration"]) == round(float(second["seconds"]) - float(second["missing"]))
        seconds.append(int(row["duration"]))
    assert seconds == [52, 48]
    rules_of = {name: {one["rule"] for one in exceeding if one["file"].endswith(name)} for name in (".img", ".bits")}
    assert rules_of == {".img": {"TOP"}, ".bits": {"HIGH", "STEP", "TOP"}}
    top = next(one for one in exceeding if one["rule"] == "TOP")
    assert (top["peak"], top["unit"], top["date"][:19], top["utc"][:5]) == ("189", "ft", "2026-05-04T00:05:24", "00:12")
    assert fleet(*words, "--flight", 1).status == 0
    assert {one["rows"] for one in rows_of(tmp_path, "flights")} == {"19"}


def test_a_unit_of_a_scaled_value_isnt_that_of_a_peak(fleet: Tool, write: Write, tmp_path: pathlib.Path) -> None:
    described = write("d.csv", "unit,ALT,%,Fan speed\npoints,ALT,0:0,4095:100\n")
    words = ("--table", T1, "--describe", described, "--rules", write("rules.csv", RULES))
    assert fleet(write("a.img", damaged_images.whole_image()), *words).status == 0
    assert [(one["unit"], one["title"]) for one in rows_of(tmp_path, "parameters")] == [("", "Fan speed")]
    assert {(one["parameter"], one["unit"]) for one in rows_of(tmp_path, "exceedances")} == {("ALT", "")}


def test_what_is_refused_is_named_and_the_others_are_read(fleet: Tool, write: Write, tmp_path: pathlib.Path) -> None:
    for name in ("t1", "wide", "wrong"):
        (tmp_path / name).mkdir()
    whole = damaged_images.whole_image()
    flights = [write(f"{folder}/{name}.img", data) for folder in ("t1", "wide", "wrong") for name, data in (("a", whole), ("b", HOLES))]
    flights += [write("t1/short.img", SHORT), write("alone.img", whole), tmp_path / "t1" / "gone.img"]
    write("wrong.csv", T1.read_text() + "P,NEW,0,203\n")
    tables = write("tables.csv", f"pattern,table\nt1/*,{T1}\nwide/*,{ORDINARY}\nwrong/*,wrong.csv\n")
    answer = fleet(*flights, "--table-of", tables)
    assert answer.status == 2 and "9 flights: 2 done, 2 missing, 5 refused" in answer.error
    told = [(row["status"], row["exit"], row["said"]) for row in rows_of(tmp_path, "flights")]
    differ = ("refused", "6", "fdr: image has 64 words, table has 256")
    wrong = ("refused", "2", "fdr: table row 3: shape")
    assert told[:7] == [("done", "0", "")] * 2 + [differ] * 2 + [wrong] * 2 + [("refused", "4", "fdr: image: shorter than its ring")]
    assert told[7:] == [("missing", "", "no row of the tables is for it"), ("missing", "", "No such file or directory")]
    assert [row["tries"] for row in rows_of(tmp_path, "flights")] == ["1", "1", "2", "2", "1", "1", "2", "1", "2"]


def test_rules_that_are_refused_leave_the_summary(fleet: Tool, write: Write, tmp_path: pathlib.Path) -> None:
    flights = [write("a.img", damaged_images.whole_image()), write("b.img", damaged_images.whole_image())]
    tables = write("tables.csv", f"a.*,{T1},own.csv\n*.img,{T1}\n")
    write("own.csv", "HIGH,ALT,above,120,3\n")
    assert fleet(*flights, "--table-of", tables, "--rules", write("rules.csv", "HIGH,IAS,above,120,3\n")).status == 2
    one, other = rows_of(tmp_path, "flights")
    assert (one["status"], one["exceedances"]) == ("done", "1")
    assert (other["status"], other["exit"], other["said"]) == ("refused", "17", "fdr: rule row 0: unknown name")
    assert (other["frames"], other["exceedances"]) == ("40", "0")


def test_it_goes_on_where_it_was(fleet: Tool, write: Write, tmp_path: pathlib.Path) -> None:
    flights = [write(f"{number}.img", damaged_images.whole_image(20 + number)) for number in range(6)]
    words = (*flights, "--table", T1, "--rules", write("rules.csv", RULES))
    assert fleet(*words).status == 0
    journal = tmp_path / "fleet" / "fleet.journal"
    first, tables = journal.read_bytes(), (rows_of(tmp_path, "flights"), rows_of(tmp_path, "exceedances"))
    assert fleet(*words).status == 0
    assert journal.read_bytes() == first
    assert (rows_of(tmp_path, "flights"), rows_of(tmp_path, "exceedances")) == tables

    write("2.img", damaged_images.whole_image(30))
    assert fleet(*words).status == 0
    added = journal.read_bytes()[len(first) :]
    assert [json.loads(line.split(b" ", 1)[1])["file"] for line in added.splitlines()] == [str(flights[2])]
    assert [row["frames"] for row in rows_of(tmp_path, "flights")] == ["20", "21", "30", "23", "24", "25"]

    kept = journal.read_bytes()
    begins = [0, *(found.end() for found in re.finditer(b"\n", kept))]
    journal.write_bytes(kept[: begins[-2] + 100])  # cut within the last line, which is that of 2.img
    assert fleet(*words).status == 0 and len(journal.read_bytes().splitlines()) == 7
    kept = journal.read_bytes()
    journal.write_bytes(kept.replace(b'"frames":20', b'"frames":28', 1))
    assert fleet(*words).status == 0 and len(journal.read_bytes().splitlines()) == 8
    assert sorted(row["frames"] for row in rows_of(tmp_path, "flights")) == ["20", "21", "23", "24", "25", "30"]
    assert rows_of(tmp_path, "exceedances") != tables[1]
    write("rules.csv", "HIGH,ALT,above,0,1\n")
    assert fleet(*words).status == 0 and len(journal.read_bytes().splitlines()) == 14
    assert {row["rule"] for row in rows_of(tmp_path, "exceedances")} == {"HIGH"}


def test_what_was_refused_is_there_too(fleet: Tool, write: Write, tmp_path: pathlib.Path) -> None:
    words = (write("a.img", damaged_images.whole_image()), write("short.img", SHORT), "--table", T1, "--values")
    for _ in range(2):
        assert fleet(*words).status == 2
        assert len((tmp_path / "fleet" / "fleet.journal").read_bytes().splitlines()) == 2
    pathlib.Path(by_name(tmp_path)["a.img"]["values"]).unlink()
    assert fleet(*words).status == 2
    assert len((tmp_path / "fleet" / "fleet.journal").read_bytes().splitlines()) == 3


def slow_program(write: Write, what: str) -> pathlib.Path:
    """The program, which first does something to the worker where a flight is called `bad`."""
    path = write("slow", f'#!/bin/sh\ncase "$*" in *bad*) {what};; esac\nexec {PROGRAM} "$@"\n')
    path.chmod(0o755)
    return path


def test_a_worker_that_ends_is_told_and_holds_up_nobody(flight: Tool, write: Write, scheduler: str, tmp_path: pathlib.Path) -> None:
    flights = [write(f"{name}.img", damaged_images.whole_image()) for name in ("a", "bad", "c", "d")]
    words = ("fleet", *flights, "--table", T1, "-o", tmp_path / "fleet", "--scheduler", scheduler)
    assert flight(*words, "--fdr", slow_program(write, "kill -9 $PPID; sleep 9")).status == 2
    rows = by_name(tmp_path)
    assert {rows[name]["status"] for name in ("a.img", "c.img", "d.img")} == {"done"}
    assert (rows["bad.img"]["status"], rows["bad.img"]["tries"]) == ("failed", "2")
    assert rows["bad.img"]["said"].startswith("its worker ended while it was read, 2 times, on tcp://127.0.0.1:")
    once = f"[ -e {tmp_path}/once ] || {{ touch {tmp_path}/once; kill -9 $PPID; sleep 9; }}"
    assert flight(*words, "--fdr", slow_program(write, once)).status == 0
    assert {row["status"] for row in by_name(tmp_path).values()} == {"done"}


def telling_program(write: Write, log: pathlib.Path) -> pathlib.Path:
    """The program, which first tells who runs it, and with which words."""
    path = write("telling", f'#!/bin/sh\necho "$PPID $*" >> {log}\nexec {PROGRAM} "$@"\n')
    path.chmod(0o755)
    return path


def test_a_table_is_checked_once_and_a_second_try_is_anothers(flight: Tool, write: Write, scheduler: str, tmp_path: pathlib.Path) -> None:
    flights = [write(f"{name}.img", damaged_images.whole_image()) for name in "abc"] + [write("short.img", SHORT)]
    log = tmp_path / "log"
    words = ("fleet", *flights, "--table", T1, "-o", tmp_path / "fleet", "--scheduler", scheduler)
    with distributed.Client(scheduler, set_as_default=False) as client:  # type: ignore[no-untyped-call]
        client.wait_for_workers(2, timeout=60)  # a test before this one ends workers
    assert flight(*words, "--fdr", telling_program(write, log)).status == 2
    told = [line.split() for line in log.read_text().splitlines()]
    assert [words[0] for process, *words in told].count("check") == 1
    tried = [process for process, *words in told if words[-1].endswith("short.img")]
    assert len(tried) == len(set(tried)) == 2


def test_a_flight_goes_to_workers_with_the_resource_alone(
    flight: Tool, write: Write, scheduler: str, tmp_path: pathlib.Path, monkeypatch: pytest.MonkeyPatch
) -> None:
    flights, log = [write(f"{number}.img", damaged_images.whole_image()) for number in range(4)], tmp_path / "log"
    words = ("fleet", *flights, "--table", T1, "-o", tmp_path / "fleet", "--scheduler", scheduler, "--resources", "readout=1")
    worker = ["dask-worker", scheduler, "--resources", "readout=1", "--nthreads", "2", "--no-nanny", "--dashboard-address", "127.0.0.1:0"]
    with subprocess.Popen([*worker, "--local-directory", str(tmp_path)], cwd=tmp_path, stderr=subprocess.DEVNULL) as process:
        try:
            assert flight(*words, "--fdr", telling_program(write, log)).status == 0
        finally:
            process.kill()
    told = [line.split() for line in log.read_text().splitlines()]
    assert {reader for reader, *run in told if run[0] != "check"} == {str(process.pid)}
    monkeypatch.setattr(fleet_engine, "PATIENCE", 1.0)
    monkeypatch.setattr(fleet_engine, "GLANCE", 0.1)
    answer = flight(*words, "--fdr", PROGRAM)
    assert (answer.status, answer.error) == (1, "flight: there was no worker with readout=1 for 1 seconds; what came so far is kept\n")


def test_a_worker_has_as_many_flights_as_its_resources_go() -> None:
    class Client:
        """Three workers."""

        def nthreads(self) -> dict[str, int]:
            return {"a": 4, "b": 2, "c": 1}

        def scheduler_info(self) -> dict[str, Any]:
            resources = {"a": {"readout": 2.0}, "b": {}, "c": {"readout": 5.0, "disk": 1.0}}
            return {"workers": {name: {"resources": one} for name, one in resources.items()}}

    cases: list[tuple[dict[str, float], dict[str, int]]] = [
        ({}, {"a": 4, "b": 2, "c": 1}),
        ({"readout": 1.0}, {"a": 2, "c": 1}),
        ({"readout": 3.0}, {"c": 1}),
        ({"readout": 1.0, "disk": 0.5}, {"c": 1}),
        ({"gpu": 1.0}, {}),
    ]
    for resources, rooms in cases:
        assert fleet_engine.Crew(Client(), resources).rooms() == rooms


def test_reports_are_those_of_the_plain_command(fleet: Tool, flight: Tool, write: Write, tmp_path: pathlib.Path) -> None:
    flights = [write(f"{name}_20260504.img", data) for name, data in (("whole", damaged_images.whole_image()), ("holes", HOLES), ("short", SHORT))]
    rules, events = write("rules.csv", RULES), write("events.csv", "name,condition,peak\nUP,ALT > 120,max ALT\n")
    own = ("--table", T1, "--rules", rules, "--events", events, "--when", "ALT > 110", "--for", "20s")
    words = (*flights, *own, "--date-in", "%Y%m%d", "--reports")
    assert fleet(*words).status == 2
    rows, page = by_name(tmp_path), (tmp_path / "fleet" / "fleet.html").read_text()
    for path in flights:
        report, by_hand = pathlib.Path(rows[path.name]["report"]), tmp_path / f"{path.stem}.report"
        assert report == tmp_path / "fleet" / "reports" / rows[path.name]["name"]
        flight("report", path, *own, "-o", by_hand, "--start", "2026-05-04T00:00:00Z", "--fdr", PROGRAM)
        told = [json.loads((one / "findings.json").read_text()) for one in (report, by_hand)]
        assert told[0] == told[1] and bool(told[0].get("events")) is (path is not flights[2])
        assert subprocess.run(["sha256sum", "--quiet", "-c", "SHA256SUMS"], cwd=report, capture_output=True).returncode == 0
        assert f"reports/{rows[path.name]['name']}/report.html" in page
    journal, kept = (tmp_path / "fleet" / "fleet.journal").read_bytes(), rows["holes_20260504.img"]["report"]
    shutil.rmtree(rows["whole_20260504.img"]["report"])
    seen = os.stat(f"{kept}/report.html").st_mtime_ns
    assert fleet(*words).status == 2
    assert pathlib.Path(rows["whole_20260504.img"]["report"], "report.html").is_file() and os.stat(f"{kept}/report.html").st_mtime_ns == seen
    added = (tmp_path / "fleet" / "fleet.journal").read_bytes()[len(journal) :]
    assert [json.loads(line.split(b" ", 1)[1])["file"] for line in added.splitlines()] == [str(flights[0])]


def sql_of_page() -> list[str]:
    """The queries of the page."""
    return re.findall(r"```sql\n(.*?)```", (TOP / "docs" / "FLEET.md").read_text(), re.S)


def test_the_database_has_the_rows_of_the_tables(fleet: Tool, write: Write, tmp_path: pathlib.Path) -> None:
    flights = [write(f"x_2026{month:02}04.img", damaged_images.whole_image(20 + month)) for month in (4, 5, 6)]
    write("described.csv", "unit,ALT,ft,Pressure altitude\n")
    url = f"sqlite:///{tmp_path}/fleet.sqlite"
    words = (*flights, "--table", T1, "--date-in", "%Y%m%d", "--describe", tmp_path / "described.csv", "--database", url)
    assert fleet(*words, "--rules", write("rules.csv", "HIGH,ALT,above,0,1\nSTEP,ALT,change,0,2\n")).status == 0
    with sqlite3.connect(tmp_path / "fleet.sqlite") as database:

        def ask(text: str) -> list[tuple[Any, ...]]:
            return database.execute(text).fetchall()

        assert ask("select month, frames, duration, first, status from flights order by month") == [
            (f"2026-{month:02}", 20 + month, 4 * (20 + month), 0.140625, "done") for month in (4, 5, 6)
        ]
        told = [(row["rule"], float(row["peak"]), float(row["time"]), row["unit"]) for row in rows_of(tmp_path, "exceedances")]
        assert ask("select rule, peak, time, unit from exceedances join flights using (flight) order by file, number") == told and len(told) == 6
        assert ask("select name, unit, title, samples, least from parameters order by samples") == [("ALT", "ft", "Pressure altitude", 20 + month, 100) for month in (4, 5, 6)]
        assert ask("select min(date) from exceedances") == [("2026-04-04 00:00:00.140625",)]

    write("x_20260504.img", damaged_images.whole_image(30))
    assert fleet(*words, "--rules", write("rules.csv", "HIGH,ALT,above,0,1\n")).status == 0
    with sqlite3.connect(tmp_path / "fleet.sqlite") as database:
        assert database.execute("select frames from flights order by file").fetchall() == [(24,), (30,), (26,)]
        assert database.execute("select count(distinct flight), count(*), min(rule) from exceedances").fetchall() == [(3, 3, "HIGH")]
        by_month, without, worst = sql_of_page()
        hours = [4 * frames / 3600 for frames in (24, 30, 26)]
        assert database.execute(by_month).fetchall() == [
            (f"2026-{month:02}", "HIGH", 1, pytest.approx(one), pytest.approx(1 / one)) for month, one in zip((4, 5, 6), hours)
        ]
        assert database.execute(without, {"parameter": "ALT"}).fetchall() == []
        assert [row[0] for row in database.execute(without, {"parameter": "IAS"})] == [str(one) for one in flights]
        found = database.execute(worst, {"rule": "HIGH"}).fetchall()
        assert [row[0] for row in found] == [str(flights[1]), str(flights[2]), str(flights[0])]
        assert [row[-2:] for row in found] == [(129.0, "ft"), (125.0, "ft"), (123.0, "ft")]


KILLED = """
import os, signal, sys
sys.path.insert(0, sys.argv.pop(1))
sys.dont_write_bytecode = True
import sqlalchemy.event
from sqlalchemy.engine import Engine
from flight_recorder.commands import main
left = int(sys.argv.pop(1))
def count(connection, cursor, statement, *rest):
    global left
    if statement.startswith("INSERT"):
        left -= 1
        if left == 0:
            os.kill(os.getpid(), signal.SIGKILL)
sqlalchemy.event.listen(Engine, "after_cursor_execute", count)
sys.exit(main(sys.argv[1:]))
"""


def test_a_transaction_that_is_killed_leaves_nothing_of_its_flight(fleet: Tool, write: Write, scheduler: str, tmp_path: pathlib.Path) -> None:
    inserts = 5  # of which each flight has three
    flights = [write(f"{number}.img", damaged_images.whole_image(20 + number)) for number in range(3)]
    rules = write("rules.csv", "HIGH,ALT,above,0,1\nSTEP,ALT,change,0,2\n")
    own = (*flights, "--table", T1, "--rules", rules, "--database", f"sqlite:///{tmp_path}/fleet.sqlite")
    words = [TOP / "tools", inserts, "fleet", *own, "-o", tmp_path / "fleet", "--fdr", PROGRAM, "--scheduler", scheduler]
    ended = subprocess.run([sys.executable, "-c", KILLED, *map(str, words)], capture_output=True, timeout=120)
    assert ended.returncode == -signal.SIGKILL
    assert look_at(tmp_path) == 1
    assert fleet(*own).status == 0
    assert look_at(tmp_path) == 3


def look_at(folder: pathlib.Path) -> int:
    """How many flights a database has, each of them with all of its rows."""
    with sqlite3.connect(folder / "fleet.sqlite") as database:
        counts = {table: dict(database.execute(f"select flight, count(*) from {table} group by flight")) for table in ("exceedances", "parameters")}
        flights = [flight for flight, in database.execute("select flight from flights")]
    assert counts["parameters"] == {flight: 1 for flight in flights}
    assert counts["exceedances"] == {flight: 2 for flight in flights}
    return len(flights)


def test_events_are_those_of_the_plain_command(fleet: Tool, flight: Tool, fdr: Fdr, write: Write, tmp_path: pathlib.Path) -> None:
    flights, events = some_flights(write), write("events.csv", "name,condition,peak\nUP,ALT > 120,max ALT\nNEVER,ALT > 9000,\n")
    when = ("--when", "ALT > 0", "--for", "8s", "--apart", "8s")
    words = (*flights, "--table", T1, "--events", events, *when, "--database", f"sqlite:///{tmp_path}/fleet.sqlite")
    if not commands.has_command("events"):
        assert fleet(*words).error == "flight: --events: this flight has no command events\n"
        pytest.skip("this flight has no command events")
    assert fleet(*words).status == 0
    told = rows_of(tmp_path, "events")
    by_hand = []
    for path in flights:
        listing = write("listing", fdr("list", T1, path) if path.suffix == ".img" else fdr("listbits", T1, given=path.read_bytes()))
        answer = flight("events", listing, "--table", T1, "--rules", events, *when).out.decode()
        by_hand += [{"file": str(path), **row} for row in csv.DictReader(io.StringIO(answer))]
    assert [{name: row[name] for name in by_hand[0]} for row in told] == by_hand and {row["what"] for row in told} == {"event", "watched"}
    counts = [sum(row["file"] == str(path) and row["what"] == "event" for row in told) for path in flights]
    assert [int(row["events"]) for row in rows_of(tmp_path, "flights")] == counts and sum(counts) >= 2
    with sqlite3.connect(tmp_path / "fleet.sqlite") as database:
        query = "select file, what, rule, time, peak, of_flight from events join flights using (flight)"
        stored = database.execute(f"{query} order by flights.file, number").fetchall()
    cells = [(one["file"], one["what"], one["rule"], *(float(one[name]) if one[name] else None for name in ("time", "peak", "flight"))) for one in told]
    assert stored == sorted(cells, key=lambda one: str(one[0]))


def test_a_database_that_isnt_there_is_named(fleet: Tool, write: Write, tmp_path: pathlib.Path) -> None:
    image = write("a.img", damaged_images.whole_image())
    for url, said in (("x", "Could not parse"), (f"sqlite:///{tmp_path}/no/x", "unable to open"), ("nodb://x/y", "nodb"), ("mysql://x/y", "MySQLdb")):
        answer = fleet(image, "--table", T1, "--database", url)
        assert answer.status == 1 and answer.error.startswith("flight: --database") and said in answer.error, answer.error


def test_it_runs_by_itself(piped: Tool, write: Write, tmp_path: pathlib.Path) -> None:
    flights = [write(f"{number}.img", damaged_images.whole_image()) for number in range(3)]
    listed = write("flights.txt", "".join(f"{one}\n" for one in flights))
    words = ("fleet", "--files", listed, "--table", T1, "-o", tmp_path / "fleet", "--fdr", PROGRAM, "--workers", 1)
    answer = piped(*words, cwd=tmp_path)
    assert (answer.status, answer.out) == (0, b""), answer.error
    assert answer.error == f"flight: 3 flights: 3 done; {tmp_path}/fleet/flights.csv names each\n"
    assert sorted(one.name for one in tmp_path.iterdir()) == ["0.img", "1.img", "2.img", "fleet", "flights.txt"]
    assert "<svg" not in (tmp_path / "fleet" / "fleet.html").read_text()


def test_an_address_is_told_and_one_that_is_taken_is_named(piped: Tool, flight: Tool, write: Write, tmp_path: pathlib.Path) -> None:
    words = ("fleet", write("a.img", damaged_images.whole_image()), "--table", T1, "--fdr", PROGRAM, "--workers", 1)
    answer = piped(*words, "-o", tmp_path / "fleet", "--listen", "127.0.0.2")
    assert answer.status == 0 and re.match(r"flight: the scheduler is tcp://127\.0\.0\.2:\d+\nflight: 1 flights: 1 done;", answer.error), answer.error
    with socket.create_server(("127.0.0.2", 0)) as taken:
        address = f"127.0.0.2:{taken.getsockname()[1]}"
        answer = piped(*words, "-o", tmp_path / "other", "--listen", address)
    assert answer.status == 1 and answer.error.startswith(f"flight: --listen {address}: ") and answer.error.count("\n") == 1, answer.error


class Terminal(io.StringIO):
    """What a terminal is told."""

    def isatty(self) -> bool:
        return True


def test_it_says_how_far_it_is(monkeypatch: pytest.MonkeyPatch) -> None:
    moments = iter([100.0, 110.0, 110.0, 110.0, 120.0, 120.0, 120.0])
    monkeypatch.setattr(fleet_progress, "time", SimpleNamespace(monotonic=lambda: next(moments)))
    monkeypatch.setattr(sys, "stderr", terminal := Terminal())
    job, progress = Job("/f", "f", "/t", {}), fleet_progress.FleetProgress(80)
    progress.add(job.row(REFUSED, "fdr: image: geometry"))
    progress.there, progress.made = 10, 29
    progress.add(job.row(DONE, ""))
    progress.end()
    first, second, last = terminal.getvalue().split("\r\x1b[K")[1:]
    assert first == f"[{' ' * 20}] 1 of 80 flights, 1 refused, 6 a minute, 13 min left"
    assert second == f"[{'#' * 10}{' ' * 10}] 40 of 80 flights, 10 were there, 1 refused, 120 a minute, 20 s left"
    assert last == ""


def test_another_run_in_its_folder_is_refused(fleet: Tool, write: Write, tmp_path: pathlib.Path) -> None:
    import fcntl

    (tmp_path / "fleet").mkdir()
    with open(tmp_path / "fleet" / "fleet.journal", "wb") as journal:
        fcntl.flock(journal, fcntl.LOCK_EX)
        answer = fleet(write("a.img", damaged_images.whole_image()), "--table", T1)
    assert (answer.status, answer.error) == (1, f"flight: {tmp_path}/fleet/fleet.journal: another run is writing here\n")


@pytest.mark.parametrize("package, module", [("dask", "engine"), ("distributed", "engine"), ("sqlalchemy", "database")])
def test_a_package_that_is_missing_is_named(
    flight: Tool, write: Write, tmp_path: pathlib.Path, monkeypatch: pytest.MonkeyPatch, package: str, module: str
) -> None:
    monkeypatch.setitem(cast(dict[str, Any], sys.modules), package, None)
    for name in ("fleet", f"fleet_{module}"):
        monkeypatch.delitem(sys.modules, f"flight_recorder.{name}", raising=False)
    words = ("fleet", write("a.img", HOLES), "--table", T1, "-o", tmp_path / "fleet", "--fdr", PROGRAM, "--database", "sqlite://")
    answer = flight(*words)
    assert (answer.status, answer.error) == (1, f"flight: python3-{package} isn't installed: apt-get install python3-{package}\n")


def test_what_goes_wrong_with_its_words(flight: Tool, write: Write, tmp_path: pathlib.Path) -> None:
    image = write("a.img", damaged_images.whole_image())
    for words, said in (
        (["--table", T1], "no flights: give their files, or --files with a list of them"),
        ([image, "--table", T1, "--scheduler", "tcp://127.0.0.1:9", "--workers", 2], "--workers and --listen are of a cluster on this machine"),
        ([image, "--table", T1, "--when", "ALT > 0"], "--when is for --flight, or for the flights in --events and --reports"),
        ([image, "--table", T1, "--flight", 1], "--flight, --for and --apart are of --when"),
        ([image, "--table", T1, "--events", image, "--for", "1s"], "--flight, --for and --apart are of --when"),
        ([image, "--table", T1, "--when", "ALT > 0", "--flight", 0], "--flight is 1 or more"),
        ([image, "--table", T1, "--workers", 0], "--workers is 1 to 1024"),
        ([image, "--table", T1, "--listen", "tcp://x"], "--listen tcp://x: an address as 10.0.0.5:8786"),
        ([image, "--table", T1, "--scheduler", "tcp://127.0.0.1:9", "--resources", "x"], "--resources 'x': a name and a number above 0, as readout=1"),
        ([image, "--table", T1, "--scheduler", "tcp://127.0.0.1:9", "--resources", "x=0"], "--resources 'x=0': a name and a number above 0"),
        ([image, "--table", T1, "--resources", "x=1"], "--resources are of workers that are started elsewhere"),
        ([image, "--table", T1, "--date-in", "%Q"], "--date-in '%Q': a date as %Y%m%d"),
        ([image, "--table", T1, "--rules", tmp_path / "none"], f"{tmp_path}/none: No such file or directory"),
        ([image, "--table-of", write("tables", "a,b,c,d\n")], f"{tmp_path}/tables row 1: neither PATTERN,TABLE"),
    ):
        answer = flight("fleet", *words, "-o", tmp_path / "fleet", "--fdr", PROGRAM)
        assert answer.status == 1 and answer.error.startswith(f"flight: {said}"), answer.error


def test_dates_are_found_in_paths() -> None:
    for form, path, date in (
        ("%Y%m%d", "/data/20260504/x_20260601_1.img", "2026-06-01T00:00:00Z"),
        ("%Y%m%d", "/data/20260504/x.img", "2026-05-04T00:00:00Z"),
        ("%Y-%m-%dT%H%M", "/x/2026-05-04T2359.img", "2026-05-04T23:59:00Z"),
        ("%y%j", "/x/26032.img", "2026-02-01T00:00:00Z"),
        ("%d%b%Y", "/x/04May2026.img", "2026-05-04T00:00:00Z"),
        ("%Y%m%d", "/x/20261399.img", ""),
        ("%Y%m%d", "/x/y.img", ""),
    ):
        assert fleet_list.Dater(form).date(path) == date


def test_a_list_may_have_dates(write: Write) -> None:
    listed = write("flights.csv", 'file,start\n/x/a.img,2026-05-04T10:00:00Z\n"/x/b,c.img",\n/x/a.img,2026-05-04T10:00:00Z\n')
    found = fleet_list.flights_of([], str(listed), None)
    assert [(one.file, one.start) for one in found] == [("/x/a.img", "2026-05-04T10:00:00Z"), ("/x/b,c.img", "")]
    assert len({one.name for one in fleet_list.flights_of(["/x/a.img", "/y/a.img", "/x/a.img"], None, None)}) == 2
    with pytest.raises(Fault, match="--start 'May'"):
        fleet_list.flights_of([], str(write("wrong.csv", "file,start\n/x/a.img,May\n")), None)


def test_the_first_pattern_counts(write: Write) -> None:
    choices = fleet_list.choices_of(str(write("tables.csv", "VH-ABC/*,a.csv\n*_b.img,b.csv,rules.csv\n/data/*,c.csv\n")), "/r")
    folder = str(write("x", "").parent)
    for path, table, rules in (
        ("/x/VH-ABC/1_b.img", f"{folder}/a.csv", "/r"),
        ("/x/VH-ABD/1_b.img", f"{folder}/b.csv", f"{folder}/rules.csv"),
        ("/data/x/y.img", f"{folder}/c.csv", "/r"),
    ):
        one = fleet_list.choice_of(path, choices)
        assert one is not None and (one.table, one.rules) == (table, rules)
    assert fleet_list.choice_of("/x/VH-ABD/1.img", choices) is None


def test_the_flight_has_the_command(piped: Tool) -> None:
    assert b"--scheduler" in piped("fleet", "--help").out and FLIGHT.is_file()
