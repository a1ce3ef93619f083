"""The tables of a fleet: flights.csv, exceedances.csv, parameters.csv and events.csv, a row as it comes and whole in the end."""

from __future__ import annotations

import csv
import io
import pathlib
from contextlib import ExitStack
from typing import Any, BinaryIO, Iterable, Iterator

from .fleet_job import EVENTS, EXCEEDANCES, Row, count_of_events
from .fleet_summary import Summary
from .streams import whole_file

SUMMARY = list(Summary.__dataclass_fields__)
ABOUT = ["file", "name", "start", "status", "exit", "said", "tries", "seconds", "bytes", "sha256", "table", "kind"]
FLIGHTS = [*ABOUT, *SUMMARY, "exceedances", "events", "values", "report"]
PARAMETERS = ["file", "name", "unit", "title", "samples", "least", "greatest"]


def flight_cells(row: Row) -> list[Any]:
    """A flight's row of flights.csv."""
    counts: Row = {"exceedances": len(row["exceedances"]), "events": count_of_events(row)}
    cells = {**row, **row["summary"], **(counts if row["summary"] else dict.fromkeys(counts))}
    return ["" if cells.get(name) is None else cells[name] for name in FLIGHTS]


def parameter_cells(row: Row) -> Iterator[list[Any]]:
    """A flight's rows of parameters.csv."""
    for *said, least, greatest in row["parameters"]:
        yield [row["file"], *said, _number(least), _number(greatest)]


def _number(value: float | None) -> str:
    return "" if value is None else f"{value:.15g}"


def _text(rows: Iterable[list[Any]]) -> bytes:
    out = io.StringIO()
    csv.writer(out, lineterminator="\n").writerows(rows)
    return out.getvalue().encode("utf-8", "surrogateescape")


class Files:
    """The tables of a folder. Rows of flights come after their others, so that a flight which is in flights.csv has all."""

    def __init__(self, folder: pathlib.Path, have_events: bool) -> None:
        self.folder = folder
        self.heads = {"exceedances": ["file", *EXCEEDANCES], "parameters": PARAMETERS}
        self.heads |= {"events": ["file", *EVENTS]} if have_events else {}
        self.heads["flights"] = FLIGHTS

    def write(self, rows: Iterable[Row]) -> None:
        """Writes all tables anew, of these rows alone; each is there once all of it is."""
        with ExitStack() as stack:
            paths = {name: stack.enter_context(whole_file(self.folder / f"{name}.csv")) for name in reversed(self.heads)}
            files: dict[str, BinaryIO] = {name: stack.enter_context(open(path, "wb")) for name, path in paths.items()}
            for name, head in self.heads.items():
                files[name].write(_text([head]))
            for row in rows:
                for name in self.heads:
                    files[name].write(_text(_cells(name, row)))

    def add(self, row: Row) -> None:
        """Adds a flight's rows to the tables, in one write each."""
        for name in self.heads:
            with open(self.folder / f"{name}.csv", "ab", buffering=0) as file:
                file.write(_text(_cells(name, row)))


def _cells(name: str, row: Row) -> Iterable[list[Any]]:
    """A flight's rows of a table."""
    if name == "flights":
        return [flight_cells(row)]
    if name == "parameters":
        return parameter_cells(row)
    return ([row["file"], *one] for one in row[name])
