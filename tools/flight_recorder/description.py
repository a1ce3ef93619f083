"""The description beside a table: what its numbers mean, which a table has no room for. docs/DESCRIPTIONS.md has its rows.

It comes from strangers, so each row is checked, and the first that isn't as it has to be is named by its row and its field.
"""

from __future__ import annotations

import csv
import io
import pathlib
import re
from dataclasses import dataclass, field
from decimal import Decimal
from typing import Iterable

import numpy as np

from . import expression
from .arrays import Array
from .expression import Expression
from .faults import Fault
from .parameters import Table

ENDING = ".describe.csv"
SCALED = " (scaled)"
NAME = re.compile("[A-Za-z0-9_.-]{1,16}")
NUMBER = re.compile(r"-?[0-9]{1,15}(?:\.[0-9]{1,9})?")
MOST_BYTES, MOST_DERIVED = 1 << 20, 500
MOST_TEXT = 100  # signs of a unit, a title or a word
CLOCK_FIELDS = {1: "a count of seconds of the day", 3: "hours, minutes, seconds", 4: "and a day, a month, a year", 6: "all of these"}
KINDS = "unit, state, points, derived and clock are the kinds of rows"


@dataclass(frozen=True)
class Points:
    """A scale of points: straight from one to the next, and nothing outside."""

    numbers: tuple[float, ...]
    values: tuple[float, ...]

    def of(self, numbers: Array) -> Array:
        """What numbers are by the scale; not a number where they are outside."""
        return np.interp(numbers, self.numbers, self.values, left=np.nan, right=np.nan)


@dataclass
class Described:
    """What is said of a parameter or of a derived value; `states` are words for values, as these are listed."""

    unit: str = ""
    title: str = ""
    states: dict[str, str] = field(default_factory=dict)
    points: Points | None = None

    def word(self, text: str) -> str:
        """The word for a value, or nothing."""
        return next((word for value, word in self.states.items() if Decimal(value) == Decimal(text)), "")

    def scaled(self, text: str) -> str:
        """The value by the scale of points, or nothing."""
        number = float("nan") if self.points is None else float(self.points.of(np.array([float(text)]))[0])
        return "" if np.isnan(number) else f"{number:.15g}"


@dataclass(frozen=True)
class Derived:
    """A value that is worked out of others, and what is said of it."""

    name: str
    expression: Expression
    described: Described


@dataclass(frozen=True)
class RecordedClock:
    """The names of a clock that was recorded: hours, minutes and seconds, or seconds of the day; and day, month and year."""

    times: tuple[str, ...]
    dates: tuple[str, ...]


@dataclass
class Description:
    """What is said of the parameters by their names, the derived values by theirs, and the clock."""

    parameters: dict[str, Described] = field(default_factory=dict)
    derived: dict[str, Derived] = field(default_factory=dict)
    clock: RecordedClock | None = None

    def of(self, name: str) -> Described:
        """What is said of a parameter or of a derived value."""
        return self.derived[name].described if name in self.derived else self.parameters.get(name, Described())

    def expressions(self) -> dict[str, Expression]:
        """The expressions of the derived values."""
        return {name: one.expression for name, one in self.derived.items()}


def path_beside(table: pathlib.Path) -> pathlib.Path:
    """Where the description of a table is: `flight.describe.csv` beside `flight.csv`."""
    return table.with_name((table.stem if table.suffix == ".csv" else table.name) + ENDING)


def text_of(described: dict[str, Described]) -> str:
    """A description of units, titles and states: rows `unit,NAME,UNIT,TITLE` and `state,NAME,VALUE,WORD`."""
    out = io.StringIO()
    rows = csv.writer(out, lineterminator="\n")
    for name, one in described.items():
        if one.unit or one.title:
            rows.writerow(["unit", name, one.unit, one.title])
        rows.writerows(["state", name, value, word] for value, word in one.states.items())
    return out.getvalue()


def read_beside(path: pathlib.Path, table: Table) -> Description:
    """The description beside a table's file; empty where there is none."""
    beside = path_beside(path)
    return read(beside, table) if beside.is_file() else Description()


def described_by(describe: str | None, path: str, table: Table) -> Description:
    """The description by the word of a command: a path, or None for the one beside the table's file, or empty for none."""
    if describe == "":
        return Description()
    return read(pathlib.Path(describe), table) if describe else read_beside(pathlib.Path(path), table)


def known_names(table: Table, points: Iterable[str] = ()) -> dict[str, bool]:
    """The names that an expression may have, and whether each has whole numbers."""
    names = {name: one.scale.decimals == 0 for name, one in table.parameters.items()}
    return {**names, **{name + SCALED: False for name in points}}


def read(path: pathlib.Path, table: Table) -> Description:
    """A description of a table's parameters."""
    data = path.read_bytes()
    if len(data) > MOST_BYTES:
        raise Fault(f"{path.name}: it has {len(data)} bytes, and a description has up to {MOST_BYTES}")
    text = data.decode("utf-8-sig", "surrogateescape")
    reader = _Reader(path.name, table)
    try:
        for row in (row for row in csv.reader(io.StringIO(text, newline="")) if row):
            reader.take(row)
    except csv.Error as error:
        raise Fault(f"{path.name} row {reader.row}: {error}") from None
    return reader.end()


class _Reader:
    """Takes the rows of a description."""

    def __init__(self, name: str, table: Table) -> None:
        self.name, self.table = name, table
        self.row = 0
        self.made = Description()
        self.clock_row = 0
        self.late: list[tuple[int, str]] = []  # rows of states and their names, which may be those of derived values further down
        self.kinds = {"unit": self._unit, "state": self._state, "points": self._points, "derived": self._derived, "clock": self._clock}

    def take(self, row: list[str]) -> None:
        """Takes a row; one that begins with # is for readers."""
        if not row[0].startswith("#"):
            if row[0] not in self.kinds:
                raise self._fault(0, f"{row[0][:40]!r}: {KINDS}")
            self.kinds[row[0]](row)
        self.row += 1

    def end(self) -> Description:
        """All of it, once what names something further down is checked."""
        for self.row, name in self.late:
            if name not in self.made.derived:
                raise self._fault(1, f"the table has no parameter {name!r}, and there is no derived value that is called so")
            self.made.derived[name].described.states.update(self.made.parameters.pop(name, Described()).states)
        self.row = self.clock_row
        clock = self.made.clock
        for at, name in enumerate((*clock.times, *clock.dates) if clock else (), 2):
            if name not in self.made.derived:
                self._check_parameter(at, name)
        return self.made

    def _fault(self, at: int, said: str) -> Fault:
        return Fault(f"{self.name} row {self.row}, field {at}: {said}")

    def _length(self, row: list[str], least: int, most: int, form: str) -> None:
        if not least <= len(row) <= most:
            raise self._fault(min(len(row), most), f"the row is {form}")

    def _text(self, row: list[str], at: int, may_be_empty: bool = True) -> str:
        text = row[at] if at < len(row) else ""
        if not text.isprintable() or len(text) > MOST_TEXT or not (text or may_be_empty):
            raise self._fault(at, f"{text[:40]!r}: a text has up to {MOST_TEXT} signs that can be printed")
        return text

    def _number(self, at: int, text: str) -> float:
        if not NUMBER.fullmatch(text):
            raise self._fault(at, f"{text[:40]!r} is no number, as -12 or 0.5")
        return float(text)

    def _check_parameter(self, at: int, name: str) -> None:
        if name not in self.table.parameters:
            raise self._fault(at, f"the table has no parameter {name[:40]!r}")

    def _described(self, name: str) -> Described:
        self._check_parameter(1, name)
        return self.made.parameters.setdefault(name, Described())

    def _unit(self, row: list[str]) -> None:
        self._length(row, 3, 4, "unit,NAME,UNIT,TITLE")
        one = self._described(row[1])
        if one.unit or one.title:
            raise self._fault(1, f"{row[1]} has a row of its unit above")
        one.unit, one.title = self._text(row, 2), self._text(row, 3)

    def _state(self, row: list[str]) -> None:
        self._length(row, 4, 4, "state,NAME,VALUE,WORD")
        self._number(2, row[2])
        word = self._text(row, 3, False)
        if row[1] not in self.table.parameters:
            self.late.append((self.row, row[1]))
        one = self.made.parameters.setdefault(row[1], Described())
        if one.word(row[2]):
            raise self._fault(2, f"{row[1]} has a word for {row[2]} above")
        one.states[row[2]] = word

    def _points(self, row: list[str]) -> None:
        form = "points,NAME,NUMBER:VALUE,NUMBER:VALUE and so on"
        self._length(row, 4, 1000, form)
        one = self._described(row[1])
        if one.points:
            raise self._fault(1, f"{row[1]} has a row of points above")
        numbers: list[float] = []
        values: list[float] = []
        for at, text in enumerate(row[2:], 2):
            number, sign, value = text.partition(":")
            if not sign:
                raise self._fault(at, f"{text[:40]!r}: the row is {form}")
            numbers.append(self._number(at, number))
            values.append(self._number(at, value))
            if numbers[-2:-1] and numbers[-2] >= numbers[-1]:
                raise self._fault(at, f"{number} isn't above the number of the point before")
        one.points = Points(tuple(numbers), tuple(values))

    def _derived(self, row: list[str]) -> None:
        self._length(row, 3, 5, "derived,NAME,EXPRESSION,UNIT,TITLE")
        name = row[1]
        if not NAME.fullmatch(name) or name in self.table.parameters or name in self.made.derived:
            raise self._fault(1, f"{name[:40]!r}: a name of its own, of up to 16 letters, digits, _, - and points")
        if len(self.made.derived) == MOST_DERIVED:
            raise self._fault(0, f"there are {MOST_DERIVED} derived values above, and no more than that may be")
        with_points = [of for of, one in self.made.parameters.items() if one.points]
        try:
            read = expression.read(row[2], known_names(self.table, with_points), self.made.expressions())
        except expression.Refused as refused:
            raise self._fault(2, str(refused)) from None
        self.made.derived[name] = Derived(name, read, Described(self._text(row, 3), self._text(row, 4)))

    def _clock(self, row: list[str]) -> None:
        if len(row) < 2 or row[1] != "utc":
            raise self._fault(1, "the clock is called utc")
        names = tuple(row[2:])
        if self.made.clock:
            raise self._fault(1, "there is a clock above")
        if len(names) not in CLOCK_FIELDS:
            said = ", or ".join(f"{count}: {what}" for count, what in CLOCK_FIELDS.items())
            raise self._fault(len(row), f"a clock has so many names: {said}")
        cut = 3 if len(names) in (3, 6) else 1
        self.made.clock, self.clock_row = RecordedClock(names[:cut], names[cut:]), self.row
