"""The words of `flight`: its commands, their options, and what each runs."""

from __future__ import annotations

import argparse
import pathlib
import sys
from typing import TYPE_CHECKING, BinaryIO, Callable

from . import event_commands, fleet_command, readout, report_command, tabling
from .faults import Fault, MissingPackage
from .streams import Again, drop_output, emptied, opened, opened_again, output, standard_output, whole_file

if TYPE_CHECKING:
    from . import beside, capture, curves, dates, listing, parameters, reading, tables, window

DONE, FAULT, SILENT, STOPPED = 0, 1, 2, 130
WIDTHS = (64, 128, 256, 512, 1024)
ABOUT = """\
Tools beside the recorder: captures of buses to traces, listings to tables and pictures.
They aren't proved, as fdr is; tests try them. docs/FLIGHT_TOOLS.md has each command.
A fault is one line with the row, line or byte that it is at, status 1, and no output."""


def main(words: list[str]) -> int:
    """Runs the command of these words, and answers the status."""
    given = _parser().parse_args(words)
    try:
        return given.run(given) or DONE
    except Fault as fault:
        texts = fault.lines()
    except ImportError as error:
        texts = [str(MissingPackage(f"python3-{(error.name or 'numpy').split('.')[0]}"))]
    except OSError as error:
        texts = [f"{error.filename}: {error.strerror}" if error.filename else str(error.strerror or error)]
    except KeyboardInterrupt:
        return STOPPED
    for text in texts:
        print(f"flight: {text}", file=sys.stderr)
    return FAULT


def _parser() -> argparse.ArgumentParser:
    parser = argparse.ArgumentParser(
        prog="flight", description=ABOUT, formatter_class=argparse.RawDescriptionHelpFormatter, allow_abbrev=False
    )
    commands = parser.add_subparsers(metavar="COMMAND", required=True)
    for add in (_add_trace, _add_words, _add_check_trace, _add_watch, _add_table, _add_frame, _add_parts, _add_plot):
        add(commands)
    readout.add_commands(commands, _command)
    tabling.add_commands(commands, _command)
    report_command.add_commands(commands, _command)
    event_commands.add_commands(commands, _command)
    fleet_command.add_commands(commands, _command)
    return parser


def has_command(name: str) -> bool:
    """Whether there is a command of this name."""
    return any(isinstance(one.choices, dict) and name in one.choices for one in _parser()._actions)


def _command(
    commands: "argparse._SubParsersAction[argparse.ArgumentParser]",
    name: str,
    run: Callable[[argparse.Namespace], int | None],
    help: str,
    example: str,
) -> argparse.ArgumentParser:
    """A command with its example."""
    parser = commands.add_parser(
        name,
        help=help,
        description=help[0].upper() + help[1:] + ".",
        epilog=f"example:\n  {example}",
        formatter_class=argparse.RawDescriptionHelpFormatter,
        allow_abbrev=False,
    )
    parser.set_defaults(run=run)
    return parser


def _add_trace(commands: "argparse._SubParsersAction[argparse.ArgumentParser]") -> None:
    parser = _command(
        commands,
        "trace",
        _run_trace,
        "make a trace of a capture as text",
        "flight trace capture.csv --unit ms --end 3600000 > flight.trace",
    )
    parser.add_argument(
        "capture",
        metavar="CAPTURE",
        help="rows under a header: time, bus, and word or label, sdi, data, ssm; - for standard input",
    )
    parser.add_argument(
        "--unit", choices=["us", "ms", "s"], default="s", help="of times that are numbers; seconds if it isn't given"
    )
    parser.add_argument(
        "--label-first", action="store_true", help="words have bit 1, the label's first, as their highest bit"
    )
    parser.add_argument("--sort", action="store_true", help="put rows in the order of their times, in memory")
    parser.add_argument(
        "--end",
        metavar="TIME",
        help="when the recording ends, as the capture's times; the last word's time if it isn't given",
    )
    parser.add_argument(
        "--columns", metavar="NAMES", default="", help="what the capture calls its columns, as time=Timestamp,bus=Channel"
    )
    parser.add_argument(
        "--bus",
        metavar="NAME=NUMBER",
        action="append",
        default=[],
        help="the number of a bus that the capture names, as RX1=0; or a number alone, for all rows",
    )
    _add_live(parser)


LIVE_OPTIONS = {"clock": False, "rotate": "6h", "beat": 255, "utc": None, "to": None}


def _add_live(parser: argparse.ArgumentParser) -> None:
    live = parser.add_argument_group("while the capture is written", "docs/ACQUISITION.md has more of it.")
    live.add_argument("--live", action="store_true", help="write each row's record at once, until the capture's end or SIGTERM")
    live.add_argument("--clock", action="store_true", help="times are when rows come, from the first one on")
    live.add_argument("--rotate", metavar="TIME", help="how long a recording is, up to 399h; 6h if it isn't given")
    live.add_argument("--beat", metavar="BUS", type=int, choices=range(256), help="the bus of the beats; 255 if it isn't given")
    live.add_argument("--utc", metavar="BUS", type=int, choices=range(256), help="a bus for words of the time of day, label 150")
    live.add_argument("--to", metavar="PIPE", help="a named pipe in place of standard output, a new one for each recording")


def _run_trace(given: argparse.Namespace) -> int:
    from . import capture

    columns, buses = capture.columns_of(given.columns), capture.buses_of(given.bus)
    unit = capture.Unit(given.unit)
    settings = capture.Settings(unit, given.label_first, given.sort, given.end, columns, buses)
    if given.live:
        return _run_live(given, settings)
    unused = [name for name in LIVE_OPTIONS if getattr(given, name) is not None and getattr(given, name) is not False]
    if unused:
        raise Fault(f"--{unused[0]} is for --live")
    with opened(given.capture) as source, standard_output() as out:
        capture.convert(source, out, settings)
    return DONE


def _run_live(given: argparse.Namespace, settings: capture.Settings) -> int:
    from . import durations, live

    if given.sort or given.end is not None:
        raise Fault("--sort and --end are for captures that are whole, not for --live")
    told = {name: getattr(given, name) for name in LIVE_OPTIONS}
    how = {name: default if told[name] is None else told[name] for name, default in LIVE_OPTIONS.items()}
    rotate = durations.microseconds(str(how["rotate"]))
    if rotate > live.LONGEST:
        raise Fault(f"--rotate {how['rotate']}: a recording has at most 399h")
    settled = live.Live(bool(given.clock), rotate, how["beat"], how["utc"], how["to"])
    return DONE if live.follow(given.capture, settings, settled) else FAULT


def _add_words(commands: "argparse._SubParsersAction[argparse.ArgumentParser]") -> None:
    parser = _command(commands, "words", _run_words, "write a trace as a capture", "flight words flight.trace | head")
    parser.add_argument("trace", metavar="TRACE", help="a trace; - for standard input")


def _run_words(given: argparse.Namespace) -> None:
    from . import capture

    with opened(given.trace) as source, standard_output() as out:
        capture.write_words(source, out)


def _add_check_trace(commands: "argparse._SubParsersAction[argparse.ArgumentParser]") -> None:
    parser = _command(
        commands,
        "check-trace",
        _run_check_trace,
        f"say what a trace has for each parameter of a table; status {SILENT} where one has no word of odd parity",
        "flight check-trace examples/ordinary.csv flight.trace",
    )
    parser.add_argument("table", metavar="TABLE", help="the recording's table")
    parser.add_argument("trace", metavar="TRACE", help="a trace; - for standard input")


def _run_check_trace(given: argparse.Namespace) -> int:
    from . import parameters, silence

    table = parameters.read_table(given.table)
    with opened(given.trace) as source, standard_output() as out:
        heard = silence.listen(table, source)
        return DONE if silence.write_answer(table, heard, out) else SILENT


def _add_watch(commands: "argparse._SubParsersAction[argparse.ArgumentParser]") -> None:
    parser = _command(
        commands,
        "watch",
        _run_watch,
        f"say each second what a trace has of each parameter; with --once status {SILENT} where one is silent",
        "source 0=/run/bus0 | tee -p >(flight watch --table t1.csv > /dev/tty) | fdr record t1.csv flight.img",
    )
    parser.add_argument("--table", metavar="TABLE", required=True, help="the recording's table")
    parser.add_argument("--once", metavar="TIME", help="write one table after so long, as 10s, or at the end of the trace")
    add_description(parser)


def _run_watch(given: argparse.Namespace) -> int:
    from . import description, durations, parameters, watch

    if sys.stdin is None:
        raise Fault("standard input is closed")
    once = None if given.once is None else durations.microseconds(given.once) / 1_000_000
    try:
        table = parameters.read_table(given.table)
        is_silent = watch.watch(table, once, description.described_by(given.describe, given.table, table))
    except BrokenPipeError:
        drop_output()  # who reads has enough
        return DONE
    return SILENT if is_silent and once is not None else DONE


def _add_listing(parser: argparse.ArgumentParser) -> None:
    """A listing, and which part of it is wanted."""
    parser.add_argument("listing", metavar="LISTING", help="a listing; - for standard input")
    shape = parser.add_mutually_exclusive_group(required=True)
    shape.add_argument("--table", metavar="TABLE", help="the recording's table")
    shape.add_argument(
        "--words", metavar="N", type=int, choices=WIDTHS, help="the words of a subframe, without a table"
    )
    parser.add_argument("--from", dest="begin", metavar="TIME", help="from this time on, as 90s, 0:01:30 or a date")
    parser.add_argument("--to", dest="end", metavar="TIME", help="up to before this time")
    parser.add_argument("--recording", metavar="N", type=int, help="one recording alone, counted from 1")
    parser.add_argument("--zero", action="store_true", help="count times from each recording's first frame on")
    parser.add_argument(
        "--start",
        metavar="DATE",
        action="append",
        default=[],
        help="the date of time 0 of the first recording, as 2026-05-04T10:00:00Z; 2=DATE for the second",
    )
    parser.add_argument("--as-recorded", action="store_true", help="the order of the dump where its memory wraps")
    described = parser.add_argument_group("what values mean", "docs/DESCRIPTIONS.md has the rows of a description.")
    add_description(described)
    add_dates(described)
    event_commands.add_choice(parser)


def add_dates(parser: "argparse.ArgumentParser | argparse._ArgumentGroup") -> None:
    """The words for the dates of a clock."""
    parser.add_argument(
        "--date",
        metavar="DATE",
        action="append",
        default=[],
        help="the date of the first recording, as 2026-05-04, where its clock has none; 2=DATE for the second",
    )


def add_description(parser: "argparse.ArgumentParser | argparse._ArgumentGroup") -> None:
    """The words for a description."""
    one = parser.add_mutually_exclusive_group()
    one.add_argument("--describe", metavar="FILE", help="units, states, scales, derived values and a clock; if not given, the .describe.csv beside the table")
    one.add_argument("--no-describe", dest="describe", action="store_const", const="", help="no description, where there is one beside the table")


def _reading(given: argparse.Namespace, with_bits: bool = False) -> tuple[reading.Reading, dates.Dates | None]:
    """How a listing is read, and the dates that are given."""
    from . import dates, reading, window

    starts = dates.dates_of(given.start)
    begin, end = (None if text is None else dates.ticks_of(text, starts) for text in (given.begin, given.end))
    wanted = window.Window(given.recording, begin, end, given.zero)
    how = reading.reading_of(given.table, given.words, given.describe, given.date)
    how.window, how.as_recorded, how.with_bits = wanted, given.as_recorded, with_bits
    if given.parts:
        how.beside = _beside(given.parts, how.table)
    return how, starts


def _beside(path: str, table: parameters.Table | None) -> beside.Beside:
    """What a file of parts says."""
    from . import beside

    if table is None:
        raise Fault("--parts needs --table, by which its rows were read")
    with opened(path) as source:
        return beside.read_beside(source, table)


def _say_passed_over(passed: reading.PassedOver) -> None:
    if passed.count:
        said = f"{passed.count} line{'s' if passed.count > 1 else ''} of a kind that isn't known"
        print(f"flight: passed over {said}, at listing line {passed.line} first", file=sys.stderr)


def _add_table(commands: "argparse._SubParsersAction[argparse.ArgumentParser]") -> None:
    parser = _command(
        commands,
        "table",
        _run_table,
        "make a table of a listing, with times",
        "flight table flight.listing --table examples/ordinary.csv --every 1s > flight.csv",
    )
    _add_listing(parser)
    parser.add_argument("-o", "--output", metavar="FILE", help="a file in place of standard output; HDF5 where it ends with .h5")
    parser.add_argument("--wide", action="store_true", help="a column for each parameter")
    parser.add_argument(
        "--every", metavar="STEP", help="a column for each parameter, and rows at multiples of a time as 1s or 250ms"
    )
    parser.add_argument("--bits", action="store_true", help="a column with the bit at which each sample's word begins")
    parser.add_argument("--raw", metavar="DUMP", help="a column with each sample's words in octal, of the listed bits")
    parser.add_argument("--exceed", metavar="FILE", help="a table of these exceedances alone, with their times")
    parser.add_argument("--parts", metavar="FILE", help="what flight parts wrote of the listing: rows of gaps, and doubtful rows marked")


def _run_table(given: argparse.Namespace) -> None:
    from . import listing

    _check_table_words(given)
    how, starts = _reading(given, given.bits or given.raw is not None)
    how.cuts = given.every is None and not given.exceed
    with opened_again(given.listing) as source:
        event_commands.choose(given, how, source)
        if how.table is None and (given.wide or given.every is not None or _is_hdf(given.output)):
            for _ in listing.read_listing(source.input(), how.names):
                pass
        if _is_hdf(given.output):
            passed_over = _write_hdf(given, how, starts, source)
        else:
            with output(given.output) as out:
                for one in how.passes(source):
                    writer = _table_writer(given, one, _columns(given, one, starts), emptied(out))
                    for timed in one:
                        writer.write(timed)
                    writer.end(one.rest)
                    passed_over = one.passed_over
        _say_passed_over(passed_over)


def _write_hdf(
    given: argparse.Namespace, how: reading.Reading, starts: dates.Dates | None, source: Again
) -> reading.PassedOver:
    """Writes a file of HDF5, and answers what was passed over."""
    import hashlib

    from . import durations, hdf

    digest = source.source.digest = hashlib.sha256()
    with whole_file(pathlib.Path(given.output)) as half:
        for one in how.passes(source):
            columns = _columns(given, one, starts)
            with hdf.Store(half, columns) as store:
                writer: tables.TableWriter = hdf.LongStore(store, how.names)
                if given.every is not None:
                    writer = hdf.GridStore(store, how.names, columns, durations.microseconds(given.every))
                elif given.wide:
                    writer = hdf.WideStore(store, how.names, columns)
                for timed in one:
                    writer.write(timed)
                writer.end(one.rest)
                source.source.digest = None  # what is read again is in another order
                store.end(hdf.about(given.listing, digest.hexdigest(), given.table, one.shape.words, _version()))
    return one.passed_over


def _version() -> str:
    """The version of the tools, where its file is beside them."""
    folders = pathlib.Path(__file__).resolve().parents[1:3]  # where they are installed, and in the repository
    found = [folder / "VERSION" for folder in folders if (folder / "VERSION").is_file()]
    return found[0].read_text().split()[0] if found else ""


def _is_hdf(path: str | None) -> bool:
    return path is not None and pathlib.Path(path).suffix in (".h5", ".hdf5")


def _check_table_words(given: argparse.Namespace) -> None:
    """Which words go together."""
    by_parameter = given.wide or given.every is not None
    if (given.bits or given.raw) and (by_parameter or given.exceed or _is_hdf(given.output)):
        raise Fault("--bits and --raw are columns of a long table")
    if (given.bits or given.raw) and not given.table:
        raise Fault("--bits and --raw need --table, by which frames without rows are known")
    if given.parts and (given.every is not None or given.wide and _is_hdf(given.output)):
        raise Fault("--parts is for a table with a row for each sample or each time, without --every, and as HDF5 without --wide")
    if given.exceed and by_parameter:
        raise Fault("--exceed makes a table of its own, without --wide and --every")


def _columns(given: argparse.Namespace, one: reading.Pass, starts: dates.Dates | None) -> tables.Columns:
    """What rows have beside their samples."""
    from . import raw, tables

    if (given.bits or given.raw) and not one.shape.every_frame:
        raise Fault("--bits and --raw: by this table frames may be without rows, so it isn't known where they are")
    words = raw.RawWords(given.raw, one.reading.table) if given.raw and one.reading.table else None
    asked = (starts, given.bits, words, given.parts is not None)
    return tables.Columns(one.sessions, *asked, one.reading.window, one.reading.utc, one.reading.description)


def _table_writer(
    given: argparse.Namespace, one: reading.Pass, columns: tables.Columns, out: BinaryIO
) -> tables.TableWriter:
    """What writes the table that is asked for."""
    from . import durations, exceedings, tables

    names = one.reading.names
    if given.exceed:
        return exceedings.ExceedanceTable(out, names, columns, _exceedances(given.exceed))
    if given.every is not None:
        return tables.GridTable(out, names, columns, durations.microseconds(given.every))
    if given.wide:
        return tables.WideTable(out, names, columns)
    return tables.LongTable(out, columns, names)


def _add_frame(commands: "argparse._SubParsersAction[argparse.ArgumentParser]") -> None:
    parser = _command(
        commands,
        "frame",
        _run_frame,
        "print a frame of packed bits in octal, with what its words hold",
        "flight frame flight.bits --at 0:10:00 --table examples/ordinary.csv",
    )
    parser.add_argument("dump", metavar="DUMP", help="packed bits, as fdr listbits reads them; - for standard input")
    parser.add_argument("--at", metavar="COUNTER|TIME", required=True, help="a counter as 150, or a time as 600s or 0:10:00")
    parser.add_argument("--table", metavar="TABLE", required=True, help="the recording's table")
    add_description(parser)


def _run_frame(given: argparse.Namespace) -> None:
    import io

    import numpy

    from . import dates, description, frames, parameters

    table = parameters.read_table(given.table)
    described = description.described_by(given.describe, given.table, table)
    ticks = None if given.at.isdecimal() else dates.ticks_of(given.at, None)
    with opened(given.dump) as source, standard_output() as out:
        bits = numpy.frombuffer(source.read(), dtype=numpy.uint8)
        found = frames.frames_of(bits, table)
        text = io.StringIO()
        for number in frames.chosen(found, given.at, ticks).tolist():
            frames.write_frame(text, bits, table, found, number, described)
            text.write("\n")
        out.write(text.getvalue().encode())


def _add_parts(commands: "argparse._SubParsersAction[argparse.ArgumentParser]") -> None:
    parser = _command(
        commands,
        "parts",
        _run_parts,
        "read the subframes that stand in the gaps of a listing, and name its doubtful frames",
        "flight parts flight.img flight.listing --table examples/ordinary.csv > flight.parts",
    )
    parser.add_argument("dump", metavar="DUMP|IMAGE", help="packed bits, as fdr listbits reads them, or an image of fdr")
    parser.add_argument("listing", metavar="LISTING", help="its listing; - for standard input")
    parser.add_argument("--table", metavar="TABLE", required=True, help="the recording's table")
    parser.add_argument(
        "--syncs", type=int, choices=(2, 3), default=2,
        help="how many sync words have to stand of a subframe's own, the one before and the one after; 2 if it isn't given",
    )  # fmt: skip


def _run_parts(given: argparse.Namespace) -> None:
    import io

    from . import outline, parameters, parts

    table = parameters.read_table(given.table)
    reader = parts.Reader(table, given.syncs)
    with opened(given.dump) as dump, opened(given.listing) as source, standard_output() as out:
        sections = outline.sections_of(source, table)
        text = io.TextIOWrapper(out, "ascii", write_through=True)
        for section, data in zip(sections, parts.lines_of_bits(dump.read(), sections)):
            reader.write(section, data, text)
        text.detach()


def _add_plot(commands: "argparse._SubParsersAction[argparse.ArgumentParser]") -> None:
    parser = _command(
        commands,
        "plot",
        _run_plot,
        "plot a listing's parameters over time",
        "flight plot flight.listing --table examples/ordinary.csv -o flight.html",
    )
    _add_listing(parser)
    parser.add_argument("-o", "--output", metavar="FILE", required=True, help="a .png, .svg, .pdf or .html")
    parser.add_argument("--only", metavar="NAMES", help="these parameters, as ALT,IAS; all of them if it isn't given")
    parser.add_argument(
        "--together", metavar="NAMES", action="append", default=[], help="these parameters on one axis, as N1_1,N1_2"
    )
    parser.add_argument(
        "--angle",
        metavar="NAMES",
        default="",
        help="parameters that go round, as HDG, or TRK=4096 where not in degrees; angles in degrees are mostly found",
    )
    parser.add_argument("--exceed", metavar="FILE", help="lines of exceedances to mark")
    parser.add_argument("--parts", metavar="FILE", help="what flight parts wrote of the listing: curves of gaps, and doubtful frames")
    parser.add_argument("--title", metavar="TEXT", default="", help="a title")


PICTURES = (".png", ".svg", ".pdf")
PAGE = ".html"
PICTURE_POINTS, PAGE_POINTS = 150_000, 5_000_000  # that are kept, of all parameters


def _run_plot(given: argparse.Namespace) -> None:
    path = pathlib.Path(given.output)
    if path.suffix not in (*PICTURES, PAGE):
        raise Fault(f"{given.output}: a picture's name ends with {', '.join(PICTURES)} or {PAGE}")
    save = _saver(path)
    exceedances = _exceedances(given.exceed) if given.exceed else []
    flight = _flight(given, PAGE_POINTS if path.suffix == PAGE else PICTURE_POINTS, exceedances)
    for one in flight.exceedings:
        if not one.times:
            place = f"counter {one.exceedance.counter}, subframe {one.exceedance.subframe}, word {one.exceedance.word}"
            print(f"flight: exceedance {one.exceedance.name} isn't in the listing: {place}", file=sys.stderr)
    with whole_file(path) as half:
        save(flight, half, given.title)


def _circles(text: str) -> dict[str, float]:
    """The full circles of the parameters of `--angle`."""
    circles = {}
    for one in text.split(",") if text else []:
        name, _, circle = one.partition("=")
        if not name or circle and not circle.isdecimal() or circle == "0":
            raise Fault(f"--angle {one!r}: a name, or a name, = and the full circle as 360")
        circles[name] = float(circle or 360)
    return circles


def _exceedances(path: str) -> list[listing.Exceedance]:
    """The exceedances of a file."""
    from . import listing

    with opened(path) as source:
        return listing.read_exceedances(source)


def _saver(path: pathlib.Path) -> Callable[[curves.Flight, pathlib.Path, str], None]:
    """What writes a file of this ending."""
    if path.suffix == PAGE:
        from . import page

        return page.save
    from . import picture

    return picture.save


def _flight(given: argparse.Namespace, points: int, exceedances: list[listing.Exceedance]) -> curves.Flight:
    """What is drawn of a listing."""
    from . import curves, told

    how, _ = _reading(given)
    only = set(given.only.split(",")) if given.only else None
    with opened_again(given.listing) as source:
        event_commands.choose(given, how, source)
        for one in how.passes(source):
            collector = curves.Collector(how.names, only, points, exceedances, _circles(given.angle), how.description)
            for timed in one:
                collector.add(timed)
            flight = collector.end(one.rest)
        _say_passed_over(one.passed_over)
    flight.utc = how.utc
    flight.put_together([names.split(",") for names in given.together])
    drawn = {name for curve in flight.curves for name in (curve, curve.removesuffix(told.DERIVED))}
    missing = sorted(((only or set()) | {name for names in flight.together for name in names}) - drawn)
    if missing:
        raise Fault(f"the listing has no parameter {', '.join(missing)}")
    return flight


if __name__ == "__main__":
    sys.exit(main(sys.argv[1:]))
