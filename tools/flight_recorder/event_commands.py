"""The commands that find flights and events in a listing, and their words in other commands."""

from __future__ import annotations

import argparse
import sys
from typing import TYPE_CHECKING

from .faults import Fault
from .readout import Add, Commands
from .streams import opened_again, output

if TYPE_CHECKING:
    import pandas

    from . import events, flights
    from .reading import Reading
    from .streams import Again

TIMES = ("time", "end", "seconds", "missing", "peak_time")
DECIMALS = 6


def add_commands(commands: Commands, command: Add) -> None:
    """Adds them."""
    _add_flights(commands, command)
    _add_events(commands, command)


def _add_flights(commands: Commands, command: Add) -> None:
    parser = command(
        commands,
        "flights",
        _run_flights,
        "find the flights in a listing by a condition, with what is missing in each and its extremes",
        'flight flights flight.listing --table examples/hour.csv --when "IAS > 60" --for 30s',
    )
    _add_listing(parser)
    parser.add_argument("--when", metavar="CONDITION", required=True, help='where a flight is, as "IAS > 60"')
    _add_lengths(parser)


def _add_events(commands: Commands, command: Add) -> None:
    parser = command(
        commands,
        "events",
        _run_events,
        "find events in a listing by rules with conditions; fdr exceed is what is proved",
        "flight events flight.listing --table examples/hour.csv --rules examples/events.csv",
    )
    _add_listing(parser)
    parser.add_argument("--rules", metavar="EVENTS", required=True, help="name,condition,for,apart,peak,severity,note and a row for each rule")
    parser.add_argument("--when", metavar="CONDITION", help='where a flight is, as "IAS > 60": each event has its flight then')
    _add_lengths(parser)


def _add_listing(parser: argparse.ArgumentParser) -> None:
    from .commands import add_dates, add_description

    parser.add_argument("listing", metavar="LISTING", help="a listing; - for standard input")
    parser.add_argument("--table", metavar="TABLE", required=True, help="the recording's table")
    parser.add_argument("-o", "--output", metavar="FILE", help="a file in place of standard output")
    add_description(parser)
    add_dates(parser)


def _add_lengths(parser: "argparse.ArgumentParser | argparse._ArgumentGroup") -> None:
    parser.add_argument("--for", dest="at_least", metavar="TIME", help="how long a flight is at least; 30s if it isn't given")
    parser.add_argument("--apart", metavar="TIME", help="how far flights are apart at least; 120s if it isn't given")


def add_choice(parser: argparse.ArgumentParser) -> None:
    """The words for a flight and for events, of commands that show a listing."""
    group = parser.add_argument_group("flights and events", "docs/DESCRIPTIONS.md has conditions and rules.")
    group.add_argument("--flight", metavar="N", type=int, help="one flight alone, as flight flights numbers them; with --when")
    group.add_argument("--when", metavar="CONDITION", help='where a flight is, as "IAS > 60"')
    _add_lengths(group)
    group.add_argument("--events", metavar="EVENTS", help="events by these rules, as flight events finds them")


def check_choice(given: argparse.Namespace) -> None:
    """Which of these words go together."""
    if (given.flight is None) is not (given.when is None):
        raise Fault("--flight and --when go together")
    if given.flight is None and (given.at_least or given.apart):
        raise Fault("--for and --apart are of --flight and --when")
    if given.flight is not None and (given.begin is not None or given.end is not None or given.recording is not None):
        raise Fault("--flight chooses times: --from, --to and --recording don't go with it")


def choose(given: argparse.Namespace, how: "Reading", source: "Again") -> None:
    """Finds the flight and the events that are asked for: the listing is then read for that flight alone, with events between."""
    check_choice(given)
    if given.flight is None and given.events is None:
        return
    from . import events, flights

    if how.table is None:
        raise Fault("--flight and --events need --table, whose parameters are in conditions")
    rules = [] if given.events is None else events.read_rules(given.events, how.table, how.description)
    if given.flight is not None:
        wanted = flights.wanted_of(given.when, given.at_least, given.apart)
        how.window = flights.find(how, source, wanted).window(given.flight)
    if rules:
        found = events.find(how, source, rules)
        how.notes = [*how.notes, *found.notes]


def _run_flights(given: argparse.Namespace) -> None:
    from . import flights
    from .reading import reading_of

    how = reading_of(given.table, None, given.describe, given.date)
    wanted = flights.wanted_of(given.when, given.at_least, given.apart)
    with opened_again(given.listing) as source:
        found = flights.find(how, source, wanted)
        frame = flights.frame_of(found, flights.extremes(found, source))
    _write(frame, given.output)


def _run_events(given: argparse.Namespace) -> None:
    from . import events, flights
    from .reading import reading_of

    if given.when is None and (given.at_least or given.apart):
        raise Fault("--for and --apart are of --when")
    how = reading_of(given.table, None, given.describe, given.date)
    assert how.table is not None
    rules = events.read_rules(given.rules, how.table, how.description)
    wanted = None if given.when is None else flights.wanted_of(given.when, given.at_least, given.apart)
    with opened_again(given.listing) as source:
        frame = events.frame_of(events.find(how, source, rules, wanted))
    _write(frame, given.output)
    print(f"flight: {events.NOT_PROVED}", file=sys.stderr)


def _write(frame: "pandas.DataFrame", path: str | None) -> None:
    with output(path) as out:
        out.write(text_of(frame).encode())


def text_of(frame: "pandas.DataFrame") -> str:
    """A table as comma-separated values, with times of six decimals and other numbers as short as they are."""
    shown = frame.copy()
    for name in shown.columns:
        if shown[name].dtype == "float64":
            form = f"{{:.{DECIMALS}f}}" if name in TIMES else "{:.15g}"
            shown[name] = ["" if value != value else form.format(value) for value in shown[name].tolist()]
    return str(shown.to_csv(index=False))
