"""The rows of a fleet in a database that SQLAlchemy speaks to: a flight's rows go in together or not at all."""

from __future__ import annotations

import datetime
from typing import Any, Iterator

import sqlalchemy
from sqlalchemy import BigInteger, Column, DateTime, Float, ForeignKey, Integer, MetaData, String, Table, Text

from . import fleet_files
from .dates import dates_of
from .faults import Fault
from .fleet_job import EVENTS, EXCEEDANCES, Row

Values = dict[str, Any]
NAME, PATH, SUM = String(64), String(700), String(64)
KEY = {"primary_key": True, "autoincrement": False}
SCHEMA = MetaData()
FLIGHTS = Table(
    "flights",
    SCHEMA,
    Column("flight", Integer, primary_key=True),
    Column("file", PATH, nullable=False, unique=True),
    Column("line", SUM, nullable=False, comment="the sum of the line of the fleet's journal that these rows are of"),
    Column("start", DateTime, comment="UTC, where the date is known"),
    Column("month", String(7), index=True, comment="of the start, as 2026-05"),
    Column("status", String(16), nullable=False),
    Column("exit", Integer),
    Column("said", Text),
    Column("seconds", Float, comment="that the reading took"),
    Column("bytes", BigInteger),
    Column("sha256", SUM),
    Column("table", PATH),
    Column("kind", String(8)),
    *(Column(name, Integer) for name in ("runs", "blocks", "frames_of_runs", "sessions", "recordings", "frames", "gaps")),
    Column("gap_bits", BigInteger),
    *(Column(name, Integer) for name in ("parts", "doubtful", "rows")),
    Column("duration", Integer, comment="seconds of whole frames"),
    Column("first", Float, comment="seconds, in the first recording"),
    Column("last", Float, comment="seconds, in the last recording"),
)


def _of_flight(name: str, **more: Any) -> "Column[Any]":
    return Column(name, Integer, ForeignKey("flights.flight", ondelete="CASCADE"), **more)


EXCEEDING = Table(
    "exceedances",
    SCHEMA,
    _of_flight("flight", **KEY),
    Column("number", Integer, comment="in the flight, from 1 on", **KEY),
    Column("rule", NAME, nullable=False, index=True),
    Column("parameter", String(700)),
    Column("peak", Float, nullable=False),
    Column("unit", NAME, comment="of the peak"),
    Column("samples", Integer, nullable=False),
    Column("seconds", Float, comment="from the first sample to the last; nothing where several lengths are possible"),
    Column("recording", Integer),
    Column("session", BigInteger),
    Column("time", Float, comment="seconds from the recording's start"),
    Column("date", DateTime, comment="UTC, where the date is known"),
    Column("utc", NAME, comment="by the clock that was recorded"),
    Column("counter", Integer, nullable=False),
    Column("subframe", Integer, nullable=False),
    Column("word", Integer, nullable=False),
    Column("places", Integer, nullable=False, comment="at which it may stand"),
    Column("note", Text),
)
PARAMETERS = Table(
    "parameters",
    SCHEMA,
    _of_flight("flight", **KEY),
    Column("name", NAME, primary_key=True),
    Column("unit", NAME),
    Column("title", Text),
    Column("samples", Integer, nullable=False),
    Column("least", Float),
    Column("greatest", Float),
)
HAPPENING = Table(
    "events",
    SCHEMA,
    _of_flight("flight", **KEY),
    Column("number", Integer, comment="in the flight, from 1 on", **KEY),
    Column("what", NAME, nullable=False, comment="event, or watched for how long a rule was"),
    Column("rule", NAME, nullable=False, index=True),
    Column("severity", NAME),
    Column("of_flight", Integer, comment="the flight of the recording, where a condition says where flights are"),
    Column("recording", Integer),
    Column("session", BigInteger),
    Column("time", Float, comment="seconds from the recording's start"),
    Column("utc", NAME, comment="by the clock that was recorded"),
    Column("seconds", Float, comment="that it lasts, or that the rule was watched"),
    Column("samples", Integer),
    Column("peak", Float),
    Column("peak_time", Float),
    Column("notes", Text),
)
OF_FLIGHT = (EXCEEDING, PARAMETERS, HAPPENING)


class Database:
    """A database with the tables of a fleet, which are made where they aren't there."""

    def __init__(self, url: str) -> None:
        try:
            self.engine = sqlalchemy.create_engine(url, future=True)
            SCHEMA.create_all(self.engine)
            with self.engine.connect() as connection:
                known = connection.execute(sqlalchemy.select(FLIGHTS.c.file, FLIGHTS.c.line))
                self.lines = {file: line for file, line in known}
        except ImportError as error:
            raise Fault(f"--database: SQLAlchemy speaks to it by the module {error.name}, which isn't installed") from None
        except sqlalchemy.exc.SQLAlchemyError as error:
            raise Fault(f"--database: {_first_line(error)}") from None

    def close(self) -> None:
        """Lets the database go."""
        self.engine.dispose()

    def has(self, file: str, line: str) -> bool:
        """Whether the rows of a flight are those of this line of the journal."""
        return self.lines.get(file) == line

    def put(self, row: Row, line: str) -> None:
        """Puts a flight's rows in place of those that are there, in one transaction."""
        try:
            with self.engine.begin() as connection:
                self._put(connection, row, line)
        except sqlalchemy.exc.SQLAlchemyError as error:
            raise Fault(f"--database: {row['file']}: {_first_line(error)}") from None
        self.lines[row["file"]] = line

    def _put(self, connection: Any, row: Row, line: str) -> None:
        values = {**_flight_values(row), "line": line}
        flight = connection.execute(sqlalchemy.select(FLIGHTS.c.flight).where(FLIGHTS.c.file == row["file"])).scalar()
        if flight is None:
            flight = connection.execute(FLIGHTS.insert().values(values)).inserted_primary_key[0]
        else:
            for table in OF_FLIGHT:
                connection.execute(table.delete().where(table.c.flight == flight))
            connection.execute(FLIGHTS.update().where(FLIGHTS.c.flight == flight).values(values))
        lists = (_exceedance_values(row), _parameter_values(row), _event_values(row))
        for table, each in zip(OF_FLIGHT, lists):
            rows = [{"flight": flight, **one} for one in each]
            if rows:
                connection.execute(table.insert(), rows)


def _first_line(error: Exception) -> str:
    return str(error).splitlines()[0]


def _date(text: str) -> datetime.datetime | None:
    """A date in UTC."""
    if not text:
        return None
    dates_of([text])
    moment = datetime.datetime.fromisoformat(text)
    return moment.astimezone(datetime.timezone.utc).replace(tzinfo=None) if moment.tzinfo else moment


def _number(text: str) -> float | None:
    try:
        return float(text)
    except ValueError:
        return None


def _flight_values(row: Row) -> Values:
    empty = {name: None for name in FLIGHTS.c.keys() if name not in ("flight", "line")}
    start = _date(row["start"])
    values = {**empty, **{name: row[name] for name in empty if name in row}, **row["summary"]}
    times = {name: _number(row["summary"].get(name, "")) for name in ("first", "last")}
    return {**values, **times, "start": start, "month": f"{start:%Y-%m}" if start else None}


def _exceedance_values(row: Row) -> Iterator[Values]:
    for number, cells in enumerate(row["exceedances"], 1):
        one: Values = dict(zip(EXCEEDANCES, cells))
        numbers = _numbers(one, ("recording", "session", "samples", "counter", "subframe", "word", "places"), ("time", "seconds", "peak"))
        yield {"number": number, **one, **numbers, "date": _date(one["date"])}


def _parameter_values(row: Row) -> Iterator[Values]:
    return (dict(zip(fleet_files.PARAMETERS[1:], cells)) for cells in row["parameters"])


def _event_values(row: Row) -> Iterator[Values]:
    for number, cells in enumerate(row["events"], 1):
        one: Values = dict(zip(EVENTS, cells))
        one["of_flight"] = one.pop("flight")
        del one["event"]  # its number among the events alone
        numbers = _numbers(one, ("of_flight", "recording", "session", "samples"), ("time", "seconds", "peak", "peak_time"))
        yield {**one, "number": number, **numbers}


def _numbers(cells: Values, whole: tuple[str, ...], others: tuple[str, ...]) -> Values:
    """The numbers among some cells; an empty one is none."""
    return {name: int(cells[name]) if cells[name] else None for name in whole} | {name: _number(cells[name]) for name in others}
