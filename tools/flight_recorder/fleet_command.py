"""The words of `flight fleet`."""

from __future__ import annotations

import argparse
import re
import sys
from typing import TYPE_CHECKING

from .faults import Fault
from .readout import Add, Commands

if TYPE_CHECKING:
    from .fleet import Settings

REFUSED = 2


def add_commands(commands: Commands, command: Add) -> None:
    """Adds it."""
    parser = command(
        commands,
        "fleet",
        _run_fleet,
        f"read many flights on all processors or on a cluster, into tables, a database and a page; status {REFUSED} where one wasn't read",
        "flight fleet flights/*.img --table fleet.csv --rules rules.csv -o fleet",
    )
    parser.add_argument("flights", metavar="FLIGHT", nargs="*", help="images of a recorder, or packed bits; they are only read")
    parser.add_argument("--files", metavar="LIST", help="a file with a flight a line, or with rows under the head file,start; - for standard input")
    tables = parser.add_mutually_exclusive_group(required=True)
    tables.add_argument("--table", metavar="TABLE", help="the table of all flights")
    tables.add_argument("--table-of", dest="tables", metavar="TABLES", help="rows PATTERN,TABLE or PATTERN,TABLE,RULES, of which the first that a path has counts")
    parser.add_argument("-o", "--output", metavar="FOLDER", required=True, help="the fleet's folder; where one is there, what hasn't changed isn't read again")
    parser.add_argument("--rules", metavar="RULES", help="rules of fdr exceed")
    parser.add_argument("--events", metavar="EVENTS", help="rules of flight events")
    parser.add_argument("--when", metavar="CONDITION", help="where a flight of a recording is, as of flight flights")
    parser.add_argument("--flight", metavar="N", type=int, help="values and exceedances of one flight of each file alone, as flight flights numbers them; with --when")
    parser.add_argument("--for", dest="at_least", metavar="TIME", help="how long a flight is at least; 30s if it isn't given")
    parser.add_argument("--apart", metavar="TIME", help="how far flights are apart at least; 120s if it isn't given")
    parser.add_argument("--describe", metavar="FILE", help="what values mean; if not given, the .describe.csv beside each table")
    parser.add_argument("--date-in", metavar="FORMAT", help="where in a flight's path its date of start is, as %%Y%%m%%dT%%H%%M, in UTC")
    parser.add_argument("--values", action="store_true", help="write each flight's values as HDF5 into values/")
    parser.add_argument("--reports", action="store_true", help="make a report of each flight in reports/")
    parser.add_argument("--database", metavar="URL", help="a database, as SQLAlchemy names it: sqlite:///fleet.sqlite")
    parser.add_argument("--as", dest="kind", choices=["image", "bits"], help="what the flights are, where it isn't seen")
    parser.add_argument("--fdr", metavar="PROGRAM", help="the program; if not given, what FDR names, fdr on the path, or the one that is built here")
    parser.add_argument("--title", metavar="TEXT", default="", help="the title of the page")
    _add_place(parser)


def _add_place(parser: argparse.ArgumentParser) -> None:
    place = parser.add_argument_group("where it runs", "The engine is dask.distributed; docs/FLEET.md says what an address opens.")
    place.add_argument("--workers", metavar="N", type=int, help="processes on this machine; one a processor if not given")
    place.add_argument("--listen", metavar="HOST[:PORT]", help="an address of this machine at which workers elsewhere may join; the loopback if not given")
    place.add_argument("--scheduler", metavar="ADDRESS", help="a cluster that is there, as tcp://host:8786")
    place.add_argument("--resources", metavar="NAME=N", action="append", default=[], help="what of its worker's resources a flight takes")


def _settings(given: argparse.Namespace) -> Settings:
    from .fleet import Settings
    from .fleet_engine import Place

    if given.scheduler and (given.workers or given.listen):
        raise Fault("--workers and --listen are of a cluster on this machine, and --scheduler is of one that is there")
    if given.workers is not None and not 1 <= given.workers <= 1024:
        raise Fault("--workers is 1 to 1024")
    if given.listen and not re.fullmatch(r"[^:/]+(:[0-9]{1,5})?", given.listen):
        raise Fault(f"--listen {given.listen}: an address as 10.0.0.5:8786")
    if given.resources and not (given.scheduler or given.listen):
        raise Fault("--resources are of workers that are started elsewhere: with --scheduler or --listen")
    place = Place(given.scheduler, given.workers, given.listen, tuple(_resource(text) for text in given.resources))
    chosen = (given.when, given.at_least, given.apart, given.flight, given.describe)
    files = (tuple(given.flights), given.output, given.files, given.table, given.tables, given.rules, given.events, *chosen)
    how = (given.date_in, given.kind, given.fdr, given.database, given.values, given.reports, given.title, place)
    return Settings(*files, *how)


def _resource(text: str) -> tuple[str, float]:
    found = re.fullmatch(r"([^=]+)=([0-9]+(?:\.[0-9]+)?)", text)
    if not found or not float(found.group(2)):
        raise Fault(f"--resources {text!r}: a name and a number above 0, as readout=1")
    return found.group(1), float(found.group(2))


def _run_fleet(given: argparse.Namespace) -> int:
    settings = _settings(given)
    _check_choice(given)
    if given.events:
        _check_events()
    from . import fleet

    counts = fleet.run(settings)
    said = ", ".join(f"{counts[name]:,} {name}" for name in sorted(counts))
    print(f"flight: {sum(counts.values()):,} flights: {said}; {given.output}/flights.csv names each", file=sys.stderr)
    return 0 if set(counts) == {"done"} else REFUSED


def _check_choice(given: argparse.Namespace) -> None:
    """Which words for flights of a recording go together."""
    if given.when is None and (given.flight is not None or given.at_least or given.apart):
        raise Fault("--flight, --for and --apart are of --when")
    if given.when and given.flight is None and not (given.events or given.reports):
        raise Fault("--when is for --flight, or for the flights in --events and --reports")
    if given.flight is not None and given.flight < 1:
        raise Fault("--flight is 1 or more")


def _check_events() -> None:
    from .commands import has_command

    if not has_command("events"):
        raise Fault("--events: this flight has no command events")
