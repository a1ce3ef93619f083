"""The reading of one flight of a fleet: what the program says of it, and a summary, as a small row.

It is what a worker of `flight fleet` runs, in a process that reads many flights one after another: it takes a job and answers a
row, and keeps nothing. It knows nothing of the engine.
"""

from __future__ import annotations

import contextlib
import csv
import io
import os
import pathlib
import shutil
import subprocess
import sys
import tempfile
import threading
import time
from dataclasses import asdict
from typing import Any

from . import dates, flights, images
from .clock import WORD_BITS
from .evidence import sum_of
from .faults import Fault
from .fleet_job import DONE, EVENTS, FAILED, MISSING, REFUSED, Job, Row
from .fleet_summary import Chosen, Listed, NoFlight, Salvaged, Summary, salvaged_in, sizes_of_runs
from .listing import SUBFRAMES, Exceedance, read_exceedances
from .parameters import read_table
from .running import Ran, Runner, program_at
from .slots import header_of, likely_shape
from .streams import opened, opened_again, whole_file

MOST_LISTED = 268_435_456  # bytes, of fdr listbits
AT_ONCE = 1 << 20
MOST_SAID = 2000  # characters of standard error that are kept
VALUES_ONE_BY_ONE = threading.Lock()  # a process may read several flights at once, and the library of HDF5 may not


def said_by(ran: Ran) -> str:
    """The words of a run's refusal."""
    lines = ran.error.strip().splitlines()
    return lines[-1] if lines else f"fdr {ran.words[1]} ended with {ran.status}"


def read(data: Row, room: str | None = None) -> Row:
    """Reads a flight, and answers its row, or that the row which is there stands. Whatever goes wrong is of this flight alone."""
    job = Job(**data)
    begun = time.monotonic()
    try:
        row = _row(job, room)
    except OSError as error:
        is_missing = error.filename == job.file
        row = job.row(MISSING if is_missing else FAILED, str(error.strerror if is_missing else error))
    except Exception as error:  # a fault of the tools too is named beside its flight
        row = job.row(FAILED, str(error) if isinstance(error, Fault) else f"{type(error).__name__}: {error}")
    row["seconds"] = round(time.monotonic() - begun, 3)
    return row


def _row(job: Job, room: str | None) -> Row:
    size = os.stat(job.file).st_size
    sum = sum_of(job.file)
    key = job.key(sum)
    if key == job.known and job.has_files():
        return job.row("", "", key=key, same=True)
    program = program_at(job.program)
    if program.sha256 != job.sums["program"]:
        raise Fault(f"{program.path} isn't the program by which the fleet began")
    with tempfile.TemporaryDirectory(prefix="flight-", dir=room) as folder:
        flight = Flight(job, Runner(program, pathlib.Path(folder), []))
        flight.read()
    refused = next((ran for ran in flight.runner.runs if ran.status), None)
    about = {"sha256": sum, "key": key, "bytes": size, "kind": "image" if flight.is_image else "bits"}
    about["error"] = "".join(ran.error for ran in flight.runner.runs)[:MOST_SAID]
    if refused:
        return job.row(REFUSED, said_by(refused), exit=refused.status, **about, **flight.found())
    if flight.lacking:
        return job.row(REFUSED, flight.lacking, **about, **flight.found())
    return job.row(DONE, "", exit=0, **about, **flight.found())


class Flight:
    """A flight that is read in a folder of its own."""

    def __init__(self, job: Job, runner: Runner) -> None:
        self.job, self.runner, self.folder = job, runner, runner.folder
        self.listing = self.folder / "listing.txt"
        self.size = 0  # bytes that are listed
        self.table = read_table(job.table)
        self.header = header_of(job.file)
        seems = os.path.getsize(job.file) == 0 or self.header is not None and self.header.has_most_letters
        self.is_image = job.kind == "image" if job.kind else seems or likely_shape(job.file) is not None
        self.summary: Summary | None = None
        self.lists: dict[str, list[list[Any]]] = {"exceedances": [], "parameters": [], "events": []}
        self.files = {"values": "", "report": ""}
        self.lacking = ""  # what is said where the flight that is read alone isn't there

    def found(self) -> Row:
        """What the row has of it."""
        return {"summary": asdict(self.summary) if self.summary else {}, **self.lists, **self.files}

    def read(self) -> None:
        """Runs the program, and sums up what it wrote."""
        summary = self._image() if self.is_image else self._bits()
        if summary is not None:
            try:
                self._sum_up(summary, self._exceedances())
            except NoFlight as fault:
                self.lacking = str(fault)
            self.summary = summary
            if self.job.events:
                self.lists["events"] = self._events(self.job.events)
        if self.job.report:
            self._report(self.job.report)

    def _run(self, words: list[str], output: str, given: str | None = None) -> pathlib.Path | None:
        """Runs the program, and answers the file that it wrote, or nothing where it refused."""
        return None if self.runner.run(words, output, given).status else self.folder / output

    def _image(self) -> Summary | None:
        """Lists an image, and counts its runs."""
        job = self.job
        written = self._run(["salvage", job.table, job.file], "salvage.txt")
        if written is None or self.header is None:
            return None
        salvaged = salvaged_in(written)
        self._keep_last(written, salvaged)
        sizes = sizes_of_runs(job.file, self.header)
        self.size = sizes[-1] if sizes else 0
        return Summary(salvaged.runs, salvaged.blocks, self._frames(sum(sizes), salvaged.gap_bits))

    def _keep_last(self, written: pathlib.Path, salvaged: Salvaged) -> None:
        """Keeps what `fdr list` writes of all that `fdr salvage` wrote."""
        with open(written, "rb") as source, open(self.listing, "wb") as out:
            source.seek(salvaged.last)
            shutil.copyfileobj(source, out, AT_ONCE)
        written.unlink()

    def _bits(self) -> Summary | None:
        """Lists bits."""
        self.size = min(os.path.getsize(self.job.file), MOST_LISTED)
        return Summary() if self._run(["listbits", self.job.table], self.listing.name, self.job.file) else None

    def _frames(self, size: int, gap_bits: int) -> int:
        """How many frames so many bytes have: what is in no gap of their listing is in a frame."""
        return (8 * size - gap_bits) // (SUBFRAMES * self.table.words * WORD_BITS)

    def _exceedances(self) -> list[Exceedance]:
        """The lines of `fdr exceed`, of bits by an image of them."""
        job, source = self.job, self.job.file
        if job.rules is None or not self.is_image and not os.path.getsize(source):
            return []
        if not self.is_image:
            source = str(self.folder / "bits.img")
            with open(source, "wb") as out:
                images.write_image([job.file], self.table.words, out)
        written = self._run(["exceed", job.table, source], "exceed.txt", job.rules)
        if written is None:
            return []
        with opened(str(written)) as file:
            return read_exceedances(file)

    def _sum_up(self, summary: Summary, exceedances: list[Exceedance]) -> None:
        """Reads the listing with its times, beside what stands in its gaps."""
        job = self.job
        starts = dates.dates_of([job.start] if job.start else [])
        chosen = Chosen(flights.wanted_of(job.when, job.at_least, job.apart), job.flight) if job.when and job.flight else None
        with contextlib.ExitStack() as stack:
            source = stack.enter_context(opened_again(str(self.listing)))
            listed = Listed(job.file, self.listing, source, job.table, self.table, starts, exceedances, job.describe, chosen)
            counts = listed.counts()
            summary.sessions, summary.gaps, summary.gap_bits = counts.sessions, counts.gaps, counts.gap_bits
            summary.parts, summary.doubtful = counts.parts, counts.doubtful
            summary.frames = self._frames(self.size, counts.gap_bits)
            summary.duration = SUBFRAMES * summary.frames
            values = None
            if job.values:
                stack.enter_context(VALUES_ONE_BY_ONE)
                values = stack.enter_context(whole_file(pathlib.Path(job.values)))
            sampled = listed.sampled(values)
        self.files["values"] = job.values or ""
        summary.rows, summary.recordings = sampled.rows, sampled.recordings
        summary.duration = summary.duration if sampled.seconds is None else sampled.seconds
        summary.first, summary.last = sampled.times()
        self.lists["exceedances"], self.lists["parameters"] = list(sampled.exceedances), sampled.parameters

    def _events(self, rules: str) -> list[list[str]]:
        """The rows of `flight events`: events, and how long each rule was watched."""
        words = ["events", str(self.listing), "--table", self.job.table, "--rules", rules]
        words += [*self._described(), *self._options(when="when", at_least="for", apart="apart")]
        head, *rows = csv.reader(io.StringIO(run_tool(words)))
        return [[dict(zip(head, row)).get(name, "") for name in EVENTS] for row in rows]

    def _report(self, folder: str) -> None:
        """A report of the flight, in place of the one that is there."""
        shutil.rmtree(folder, ignore_errors=True)
        words = ["report", self.job.file, "--table", self.job.table, "-o", folder, "--fdr", self.runner.program.path]
        words += ["--as", self.job.kind] if self.job.kind else []
        words += [*self._described(), *self._options(rules="rules", start="start", events="events", when="when", at_least="for", apart="apart")]
        run_tool([*words, *(self._options(flight="flight") if self.summary and not self.lacking else [])], (0, 2))
        self.files["report"] = folder

    def _described(self) -> list[str]:
        """The option of the tools for the description, or for none."""
        return ["--describe", self.job.describe] if self.job.describe else ["--no-describe"]

    def _options(self, **names: str) -> list[str]:
        """Options of the tools, by what the job calls their values, that the job has values for."""
        given = {option: getattr(self.job, name) for name, option in names.items()}
        return [word for option, value in given.items() if value for word in (f"--{option}", str(value))]


def run_tool(words: list[str], statuses: tuple[int, ...] = (0,)) -> str:
    """Runs another command of the tools in a process of its own, and answers what it wrote."""
    start = "import sys; from flight_recorder.commands import main; sys.exit(main(sys.argv[1:]))"
    where = {**os.environ, "PYTHONPATH": str(pathlib.Path(__file__).resolve().parents[1])}
    ran = subprocess.run([sys.executable, "-c", start, *words], stdin=subprocess.DEVNULL, capture_output=True, text=True, env=where)
    if ran.returncode not in statuses:
        lines = ran.stderr.strip().splitlines()
        raise Fault(lines[-1].removeprefix("flight: ") if lines else f"flight {words[0]} ended with {ran.returncode}")
    return ran.stdout
