"""A fleet: many flights, each of them a task of the engine, and what comes of them as tables, a database and a page."""

from __future__ import annotations

import contextlib
import os
import pathlib
import signal
import subprocess
from collections import Counter
from dataclasses import dataclass, field, replace
from typing import Any, Iterator

from . import description, fleet_page
from .evidence import sum_of
from .faults import Fault
from .fleet_engine import Place, crew
from .fleet_files import Files
from .fleet_job import MISSING, REFUSED, Job, Row
from .fleet_journal import Journal
from .fleet_list import Choice, Listed, choice_of, choices_of, flights_of
from .fleet_progress import FleetProgress
from .running import Program, program_at
from .streams import whole_file

PAGE = "fleet.html"
NO_TABLE = "no row of the tables is for it"


@dataclass(frozen=True)
class Settings:
    """What a fleet is asked for."""

    files: tuple[str, ...]
    output: str
    list_path: str | None = None
    table: str | None = None
    tables: str | None = None
    rules: str | None = None
    events: str | None = None
    when: str | None = None
    at_least: str | None = None
    apart: str | None = None
    flight: int | None = None
    describe: str | None = None
    date_in: str | None = None
    kind: str | None = None
    program: str | None = None
    database: str | None = None
    with_values: bool = False
    with_reports: bool = False
    title: str = ""
    place: Place = field(default_factory=Place)


@dataclass(frozen=True)
class Checked:
    """A table as `fdr check` sees it: its sum, and the refusal's status and words."""

    sum: str
    exit: int = 0
    said: str = ""


class Tables:
    """The tables of a fleet, each checked once."""

    def __init__(self, program: Program) -> None:
        self.program = program
        self.checked: dict[str, Checked] = {}
        self.sums: dict[str, str] = {}

    def check(self, table: str) -> Checked:
        """What is known of a table."""
        if table not in self.checked:
            ran = subprocess.run([self.program.path, "check", table], stdin=subprocess.DEVNULL, capture_output=True)
            lines = ran.stderr.decode("utf-8", "backslashreplace").strip().splitlines()
            said = lines[-1] if lines else f"fdr check ended with {ran.returncode}"
            self.checked[table] = Checked("", ran.returncode, said) if ran.returncode else Checked(sum_of(table))
        return self.checked[table]

    def sum(self, path: str | None) -> str:
        """The sum of another input of all flights, which has to be there."""
        if path is None:
            return ""
        if path not in self.sums:
            self.sums[path] = sum_of(path)
        return self.sums[path]


def run(settings: Settings) -> "Counter[str]":
    """Reads a fleet, and answers how many flights have which status."""
    program = program_at(settings.program)
    flights = flights_of(settings.files, settings.list_path, settings.date_in)
    if not flights:
        raise Fault("no flights: give their files, or --files with a list of them")
    folder = pathlib.Path(os.path.abspath(settings.output))
    folder.mkdir(parents=True, exist_ok=True)
    with contextlib.closing(Journal(folder)) as journal, contextlib.ExitStack() as stack:
        store = Store(folder, journal, Files(folder, settings.events is not None), [one.file for one in flights])
        if settings.database:
            from .fleet_database import Database

            store.database = stack.enter_context(contextlib.closing(Database(settings.database)))
        planned = list(_planned(settings, program, flights, folder, journal))
        with _ends_by_term():
            try:
                _read(settings.place, planned, store)
            finally:
                store.end(settings.title or folder.name)
        statuses = store.statuses()
    return statuses


def _read(place: Place, planned: list["Job | Row"], store: "Store") -> None:
    """Has all flights read, and keeps their rows."""
    progress = FleetProgress(len(planned))
    store.begin()
    jobs = [one for one in planned if isinstance(one, Job)]
    try:
        for row in (one for one in planned if not isinstance(one, Job)):
            store.keep(row)
            progress.add(row)
        if jobs:
            with crew(place) as workers:
                for row in workers.rows(jobs):
                    store.keep(row)
                    progress.add(row)
    finally:
        progress.end()


@contextlib.contextmanager
def _ends_by_term() -> Iterator[None]:
    """SIGTERM ends a run as an interrupt does: what came is kept, and the workers are ended."""
    before = signal.signal(signal.SIGTERM, signal.default_int_handler)
    try:
        yield
    finally:
        signal.signal(signal.SIGTERM, before)


class Store:
    """Where the rows of a fleet are kept: its journal, its tables, and a database where one is given."""

    def __init__(self, folder: pathlib.Path, journal: Journal, files: Files, names: list[str]) -> None:
        self.folder, self.journal, self.files, self.names = folder, journal, files, names
        self.database: Any = None

    def begin(self) -> None:
        """Writes what was there before."""
        self.files.write(self.journal.rows(self.names))

    def keep(self, row: Row) -> None:
        """Keeps a row. One that is there already goes into the database alone, if it isn't there too."""
        if not row.get("same"):
            kept = {name: value for name, value in row.items() if name not in ("same", "is_lost", "worker")}
            self.journal.add(kept)
            self.files.add(kept)
        line = self.journal.sum(row["file"])
        if self.database is not None and not self.database.has(row["file"], line):
            self.database.put(self.journal.row(row["file"]), line)

    def end(self, title: str) -> None:
        """Writes the tables in the order of the flights, and the page."""
        self.files.write(self.journal.rows(self.names))
        with whole_file(self.folder / PAGE) as half:
            fleet_page.write(self.journal.rows(self.names), self.folder, half, title)

    def statuses(self) -> "Counter[str]":
        """How many flights have which status."""
        return Counter(row["status"] for row in self.journal.rows(self.names))


def _whole(path: str | None) -> str | None:
    return None if path is None else os.path.abspath(path)


def _planned(settings: Settings, program: Program, flights: list[Listed], folder: pathlib.Path, journal: Journal) -> Iterator["Job | Row"]:
    """What is to be done of each flight, or its row where it has no table that is accepted."""
    tables = Tables(program)
    rules, events = _whole(settings.rules), _whole(settings.events)
    choices = [Choice("*", os.path.abspath(settings.table), rules)] if settings.table else choices_of(str(settings.tables), rules)
    common = {"events": tables.sum(events), "program": program.sha256}
    wanted = {"values": settings.with_values, "reports": settings.with_reports}
    for name in (name for name, is_wanted in wanted.items() if is_wanted):
        (folder / name).mkdir(exist_ok=True)
    job = Job("", "", "", {}, events=events, kind=settings.kind, program=_whole(settings.program))
    job = replace(job, when=settings.when, at_least=settings.at_least, apart=settings.apart, flight=settings.flight)
    for flight in flights:
        choice = choice_of(flight.file, choices)
        known = {"known": journal.key(flight.file), "is_without_values": journal.is_without_values(flight.file)}
        own = replace(job, file=flight.file, name=flight.name, start=flight.start, **known)
        if choice is None:
            yield own.row(MISSING, NO_TABLE)
            continue
        own = replace(own, table=choice.table, rules=choice.rules)
        checked = tables.check(choice.table)
        if checked.exit:
            yield own.row(REFUSED, checked.said, exit=checked.exit)
            continue
        values = str(folder / "values" / f"{flight.name}.h5") if settings.with_values else None
        report = str(folder / "reports" / flight.name) if settings.with_reports else None
        described = _description(settings.describe, choice.table)
        sums = {**common, "table": checked.sum, "rules": tables.sum(choice.rules), "describe": tables.sum(described)}
        yield replace(own, sums=sums, describe=described, values=values, report=report)


def _description(given: str | None, table: str) -> str | None:
    """The description that is given, or the one beside a table where it is there."""
    beside = description.path_beside(pathlib.Path(table))
    return _whole(given) or (str(beside) if beside.is_file() else None)
