"""The words of `flight report`."""

from __future__ import annotations

import argparse
import sys
from typing import TYPE_CHECKING

from . import event_commands
from .faults import Fault
from .readout import Add, Commands

if TYPE_CHECKING:
    from .report import Settings

REFUSED = 2


def add_commands(commands: Commands, command: Add) -> None:
    """Adds it."""
    from .commands import add_dates, add_description

    parser = command(
        commands,
        "report",
        _run_report,
        f"make a folder with all that an image or bits hold, and a page of it; status {REFUSED} where the program refused something",
        "flight report recorded.img --table fleet.csv --rules rules.csv -o report",
    )
    parser.add_argument("source", metavar="IMAGE|BITS", help="an image of a recorder, or packed bits; it is only read")
    parser.add_argument("--table", metavar="TABLE", required=True, help="the recording's table")
    parser.add_argument("-o", "--output", metavar="FOLDER", required=True, help="the folder, which isn't there yet")
    parser.add_argument("--rules", metavar="RULES", help="rules of fdr exceed")
    add_description(parser)
    add_dates(parser)
    event_commands.add_choice(parser)
    parser.add_argument("--acks", metavar="FILE", help="the recorder's standard error, with its announcements")
    parser.add_argument("--fdr", metavar="PROGRAM", help="the program; if not given, what FDR names, fdr on the path, or the one that is built here")
    parser.add_argument(
        "--start",
        metavar="DATE",
        action="append",
        default=[],
        help="the date of time 0 of the first recording, as 2026-05-04T10:00:00Z; 2=DATE for the second",
    )
    parser.add_argument("--as", dest="kind", choices=["image", "bits"], help="what the file is, where it isn't seen")
    parser.add_argument("--slots", metavar="N", type=int, help="with --payload: an image whose header is gone")
    parser.add_argument("--payload", metavar="P", type=int, help="with --slots: the bytes of a block")
    parser.add_argument("--title", metavar="TEXT", default="", help="the title of the page")


def _settings(given: argparse.Namespace) -> Settings:
    from . import flights
    from .report import Settings

    if (given.slots is None) is not (given.payload is None):
        raise Fault("--slots and --payload go together")
    shape = None if given.slots is None else (given.slots, given.payload)
    if shape and not (4 <= shape[0] <= 65_536 and 64 <= shape[1] <= 4096):
        raise Fault("--slots is 4 to 65536, and --payload 64 to 4096")
    if given.when is None and (given.flight is not None or given.at_least or given.apart):
        raise Fault("--flight, --for and --apart are of --when")
    wanted = None if given.when is None else flights.wanted_of(given.when, given.at_least, given.apart)
    words = (given.source, given.table, given.output, given.rules, given.acks, given.fdr)
    more = (tuple(given.date), wanted, given.flight, given.events)
    return Settings(*words, tuple(given.start), given.kind, shape, given.title, given.describe, *more)


def _run_report(given: argparse.Namespace) -> int:
    from . import report

    made = report.make(_settings(given))
    for ran in made.refusals:
        said = ran.error.strip().splitlines()[-1:] or [f"status {ran.status}"]
        print(f"flight: fdr {ran.words[1]} refused: {said[0]}; the report says what to try", file=sys.stderr)
    return REFUSED if made.refusals else 0
