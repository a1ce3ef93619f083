"""A report of an image or of bits: what the program says of them word for word, a table of the values, a page, and what all of it
was made of. The folder is there once it is whole."""

from __future__ import annotations

import collections
import json
import pathlib
import shutil
import sys
import time
from dataclasses import dataclass, field

import numpy as np

from . import curves, dates, description, event_commands, events, exceedings, facts, flights, hdf, images, manifest, outline, parts, reading
from . import tables, watching
from . import utc as time_of_day
from .clock import Between, Event, shape_of
from .evidence import Inputs, holder_of, sum_of
from .faults import Fault
from .listing import Exceedance, Names, read_exceedances
from .parameters import Table, read_table
from .ranges import ranges_of
from .running import Program, Ran, Runner, program_at
from .slots import Header, Slots, header_of, likely_shape
from .streams import Again, opened, opened_again, whole_folder
from .survey import Survey
from .window import Window

POINTS = 2_000_000  # of the curves of the page
MOST_EXCEEDANCES = 10_000  # whose times are told
SYNCS_OF_PARTS = 2  # that have to stand, as of `flight parts`
PAGE, COMMANDS = "report.html", "commands.json"
COPIES = {"table": "table.csv", "rules": "rules.csv", "acks": "acks.txt", "description": "table.describe.csv", "events": "event-rules.csv"}
FLIGHTS, EVENTS = "flights.csv", "events.csv"


@dataclass(frozen=True)
class Settings:
    """What a report is asked for."""

    source: str
    table: str
    output: str
    rules: str | None = None
    acks: str | None = None
    program: str | None = None
    start: tuple[str, ...] = ()
    kind: str | None = None  # image or bits
    shape: tuple[int, int] | None = None  # slots and payload, where the header isn't to be looked at
    title: str = ""
    describe: str | None = None  # empty for none
    dates: tuple[str, ...] = ()  # of a clock without one
    wanted: flights.Wanted | None = None  # what a flight is
    flight: int | None = None  # the one whose curves are shown
    events: str | None = None

    def paths(self) -> dict[str, str | None]:
        """The inputs. A description beside the table is one."""
        beside = description.path_beside(pathlib.Path(self.table))
        described = self.describe or (str(beside) if beside.is_file() and self.describe is None else None)
        given = {"source": self.source, "table": self.table, "rules": self.rules, "acks": self.acks}
        return {**given, "description": described, "events": self.events}


@dataclass
class Report:
    """All that a page is made of."""

    settings: Settings
    inputs: Inputs
    program: Program
    is_image: bool
    header: Header | None
    likely: tuple[int, int] | None
    holder: int | None
    begun: str
    runs: list[Ran] = field(default_factory=list)
    refusals: list[Ran] = field(default_factory=list)
    dates: dates.Dates | None = None
    description: description.Description = field(default_factory=description.Description)
    words: int = 0
    facts: facts.Facts | None = None
    survey: Survey | None = None
    flight: curves.Flight | None = None
    found: list[exceedings.Found] = field(default_factory=list)
    watched: list[watching.Watched] = field(default_factory=list)
    exceed_source: str = ""  # the file whose exceedances are told
    parts: "collections.Counter[str]" = field(default_factory=collections.Counter)  # lines of parts.txt by their kinds
    doubtful: list[list[str]] = field(default_factory=list)  # the fields of its lines on frames, which docs/PARTS.md names
    untold: int = 0  # exceedances beyond those whose times are told
    clock: list[Between] = field(default_factory=list)  # what there is to say of the recorded clock
    flights: flights.Found | None = None
    events: events.Found | None = None
    made_image: str = ""  # the image that was made for fdr exceed
    listing: str = ""  # the file that the table is made of

    @property
    def names(self) -> Names:
        """The names of the parameters."""
        return self.survey.names if self.survey else Names()


class Steps:
    """Says on a terminal which step of how many it is."""

    def __init__(self, count: int) -> None:
        self.count, self.done = count, 0
        self.wanted = sys.stderr is not None and sys.stderr.isatty()
        self.begun = time.monotonic()

    def next(self, name: str) -> None:
        """A step begins."""
        self.done = min(self.done + 1, self.count)
        if self.wanted:
            bar = "#" * (20 * self.done // self.count)
            sys.stderr.write(f"\r\x1b[K[{bar:<20}] {name} ")
            sys.stderr.flush()

    def end(self) -> None:
        """Takes the line away."""
        if self.wanted:
            sys.stderr.write("\r\x1b[K")
            sys.stderr.flush()


def make(settings: Settings) -> Report:
    """Makes a report, and answers what is in it."""
    from . import findings, report_page

    begun = manifest.now()
    program = program_at(settings.program)
    steps = Steps(10)
    with whole_folder(pathlib.Path(settings.output)) as folder:
        steps.next("sums")
        inputs = Inputs(settings.paths())
        report = _begin(settings, inputs, program, begun.strftime("%Y-%m-%dT%H:%M:%SZ"))
        for role, name in COPIES.items():
            if role in inputs.seen:
                shutil.copyfile(inputs.path(role), folder / name)
        _fill(report, Maker(report, folder, Runner(program, folder, report.runs), steps))
        steps.next("page")
        (folder / COMMANDS).write_text(json.dumps([one.as_data() for one in report.runs], indent=1) + "\n")
        findings.write(report, folder)
        report_page.write(report, folder)
        inputs.check()
        manifest.write_manifest(folder, inputs, program, begun)
        steps.end()
    return report


def _begin(settings: Settings, inputs: Inputs, program: Program, begun: str) -> Report:
    source = inputs.path("source")
    header = header_of(source)
    is_small = inputs.seen["source"].size == 0
    likely = None if header and header.is_sound else likely_shape(source)
    seems = bool(settings.shape or likely or is_small or header and header.has_most_letters)
    is_image = settings.kind == "image" if settings.kind else seems
    if settings.shape and not is_image:
        raise Fault("--slots and --payload are of an image")
    report = Report(settings, inputs, program, is_image, header, likely, holder_of(source), begun)
    report.dates = dates.dates_of(list(settings.start))
    return report


@dataclass
class Maker:
    """What the steps of a report share."""

    report: Report
    folder: pathlib.Path
    runner: Runner
    steps: Steps

    def run(self, words: list[str], output: str, given: str | None = None) -> bool:
        """Runs the program, and answers whether it did all; a refusal is kept."""
        self.steps.next(f"fdr {words[0]}")
        ran = self.runner.run(words, output, given)
        if ran.status:
            self.report.refusals.append(ran)
        return ran.status == 0


def _fill(report: Report, maker: Maker) -> None:
    """Runs the program, and reads what it wrote."""
    table_path, source = report.inputs.path("table"), report.inputs.path("source")
    if not maker.run(["check", table_path], "check.txt"):
        return
    table = read_table(table_path)
    report.words = table.words
    if "description" in report.inputs.seen:
        report.description = description.read(pathlib.Path(report.inputs.path("description")), table)
    is_read = _run_image(report, maker, table_path, source) if report.is_image else _run_bits(maker, table_path, source)
    if not is_read:
        return
    report.listing = "salvage.txt" if report.is_image else "listing.txt"
    slots = _slots(report, source) if report.is_image else None
    exceedances = _exceedances(report, maker, table, slots) if report.settings.rules else []
    if not report.settings.shape:
        maker.steps.next("parts")
        _write_parts(report, maker.folder, table)
    maker.steps.next("values")
    _read(report, maker.folder, table, exceedances)
    assert report.survey is not None
    if slots is not None:
        report.facts = facts.facts_of_image(slots, table, report.survey)
    else:
        data = np.memmap(source, dtype=np.uint8, mode="r") if report.inputs.seen["source"].size else np.zeros(0, np.uint8)
        report.facts = facts.facts_of_bits(data, table, report.survey)
    if report.settings.acks:
        report.facts.acks = facts.acks_of(report.inputs.path("acks"))


def _write_parts(report: Report, folder: pathlib.Path, table: Table) -> None:
    """Writes what `flight parts` reads of the gaps, counts its lines by their kinds, and keeps those on doubtful frames."""
    reader = parts.Reader(table, SYNCS_OF_PARTS)
    with opened(report.inputs.path("source")) as dump, opened(str(folder / report.listing)) as source:
        sections = outline.sections_of(source, table)
        with open(folder / "parts.txt", "w", encoding="ascii", newline="") as out:
            for section, data in zip(sections, parts.lines_of_bits(dump.read(), sections)):
                reader.write(section, data, out)
    with open(folder / "parts.txt", encoding="ascii") as lines:
        for kind, _, fields in (line.rstrip("\n").partition(",") for line in lines):
            report.parts[kind] += 1
            if kind == "doubtful":
                report.doubtful.append(fields.split(",", 5))


def _run_image(report: Report, maker: Maker, table: str, source: str) -> bool:
    """The commands that read an image; answers whether it was salvaged."""
    shape = report.settings.shape
    words = ["--slots", str(shape[0]), "--payload", str(shape[1])] if shape else []
    if not maker.run(["salvage", table, source, *words], "salvage.txt"):
        return False
    if not shape:
        maker.run(["list", table, source], "listing.txt")
        maker.run(["recover", source], "recovered.bin")
    return True


def _run_bits(maker: Maker, table: str, source: str) -> bool:
    return maker.run(["listbits", table], "listing.txt", source)


def _slots(report: Report, source: str) -> Slots:
    header, shape = report.header, report.settings.shape
    assert header is not None
    slots, payload = shape or (header.slots, header.payload)
    return Slots(source, slots, payload, header.version)


def _exceedances(report: Report, maker: Maker, table: Table, slots: Slots | None) -> list[Exceedance]:
    """Runs `fdr exceed`, of several runs also on an image of all of them, and answers the exceedances that are told."""
    table_path, source = report.inputs.path("table"), report.inputs.path("source")
    rules = COPIES["rules"]
    shape = report.settings.shape
    report.exceed_source = "exceed.txt"
    if slots is not None and not shape and not maker.run(["exceed", table_path, source], "exceed.txt", rules):
        return []
    runs = slots.runs() if slots else []
    if slots is None and report.inputs.seen["source"].size:
        report.made_image = "dump.img"
        _write_image(maker.folder / report.made_image, [source], table.words)
    elif slots is not None and (len(runs) > 1 or shape and runs):
        report.made_image, report.exceed_source = "runs.img", "exceed-runs.txt"
        _write_runs(maker.folder, slots, table.words)
    if report.made_image and not maker.run(["exceed", table_path, report.made_image], report.exceed_source, rules):
        return []
    if not (maker.folder / report.exceed_source).is_file():
        report.exceed_source = ""  # there was nothing to look at
        return []
    with opened(str(maker.folder / report.exceed_source)) as file:
        every = read_exceedances(file)
    report.untold = max(0, len(every) - MOST_EXCEEDANCES)
    return every[:MOST_EXCEEDANCES]


def _write_runs(folder: pathlib.Path, slots: Slots, words: int) -> None:
    """Writes an image with a session for each session of each run."""
    parts: list[pathlib.Path] = []
    for run in slots.runs():
        for session in run.sessions:
            parts.append(folder / f".part-{len(parts)}")
            parts[-1].write_bytes(slots.bits(session).tobytes())
    try:
        _write_image(folder / "runs.img", [str(part) for part in parts], words)
    finally:
        for part in parts:
            part.unlink()


def _write_image(path: pathlib.Path, parts: list[str], words: int) -> None:
    with open(path, "wb") as out:
        images.write_image(parts, words, out)


def _read(report: Report, folder: pathlib.Path, table: Table, exceedances: list[Exceedance]) -> None:
    """Reads the listing once, for the table as text and as HDF5, the curves, and what is missing."""
    how = reading.reading_of(report.inputs.path("table"), None, "")
    how.with_bits = shape_of(table, None).every_frame
    how.description, how.dates = report.description, time_of_day.dates_of(report.settings.dates)
    if how.dates and how.description.clock is None:
        raise Fault("--date is for a description with a clock")
    path = folder / report.listing
    rules = watching.rules_of(report.inputs.path("rules")) if report.settings.rules else []
    ranges = ranges_of(table)
    with opened_again(str(path)) as source:
        window = _find_events(report, folder, how, source)
        for one in how.passes(source):
            columns = tables.Columns(one.sessions, report.dates, how.with_bits, utc=how.utc, description=how.description)
            survey = Survey(how.names, ranges, {rule.parameter for rule in rules})
            collector = curves.Collector(how.names, None, POINTS, exceedances, description=how.description)
            with open(folder / "values.csv", "wb") as out, hdf.Store(folder / "values.h5", columns) as store:
                writers: list[tables.TableWriter] = [tables.LongTable(out, columns, how.names), hdf.LongStore(store, how.names)]
                for timed in one:
                    for writer in writers:
                        writer.write(timed)
                    survey.add(timed)
                    collector.add(window.cut(timed))
                for writer in writers:
                    writer.end(one.rest)
                survey.end(one.rest)
                sums = (report.listing, sum_of(str(path)), COPIES["table"])
                store.end(hdf.about(*sums, table.words, manifest.version()))
    report.survey, report.flight = survey, collector.end(window.betweens(one.rest))
    report.flight.utc = how.utc
    report.clock = [each for each in how.notes if each.event is Event.CLOCK]
    report.found = collector.finder.found()
    is_refused = any(ran.words[1] == "exceed" for ran in report.refusals)
    report.watched = [] if is_refused else watching.watched(rules, survey.stretches.values(), how.names)


def _find_events(report: Report, folder: pathlib.Path, how: reading.Reading, source: Again) -> Window:
    """Finds the flights and the events that are asked for, writes their tables, and answers the window of the curves."""
    settings = report.settings
    if settings.events and how.table is not None:
        rules = events.read_rules(report.inputs.path("events"), how.table, how.description)
        report.events = events.find(how, source, rules, settings.wanted)
        report.flights = report.events.flights
        (folder / EVENTS).write_text(event_commands.text_of(events.frame_of(report.events)), encoding="utf-8")
    elif settings.wanted is not None:
        report.flights = flights.find(how, source, settings.wanted)
    if report.flights is not None:
        frame = flights.frame_of(report.flights, flights.extremes(report.flights, source))
        (folder / FLIGHTS).write_text(event_commands.text_of(frame), encoding="utf-8")
    how.notes += report.events.notes if report.events else []
    return Window() if settings.flight is None or report.flights is None else report.flights.window(settings.flight)
