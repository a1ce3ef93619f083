"""Which flights a fleet has: their files, the date of each, and the table and the rules that it is read by."""

from __future__ import annotations

import csv
import datetime
import fnmatch
import hashlib
import os
import pathlib
import re
from dataclasses import dataclass
from typing import Iterable, Iterator

from .dates import dates_of
from .faults import Fault
from .streams import opened

DIGITS = {"Y": r"\d{4}", "y": r"\d\d", "m": r"\d\d", "d": r"\d\d", "j": r"\d{3}", "b": "[A-Za-z]{3}", "H": r"\d\d", "M": r"\d\d", "S": r"\d\d"}


@dataclass(frozen=True)
class Listed:
    """A flight: its whole path, and the date of its first recording's start, where that is known."""

    file: str
    start: str = ""

    @property
    def name(self) -> str:
        """The name of its files in the fleet's folder, which no other flight's have."""
        return f"{pathlib.Path(self.file).stem}-{hashlib.sha256(os.fsencode(self.file)).hexdigest()[:8]}"


def flights_of(files: Iterable[str], list_path: str | None, date_in: str | None) -> list[Listed]:
    """The flights of these words and of a list, each once."""
    found = Dater(date_in) if date_in else None
    given = [Listed(os.path.abspath(file)) for file in files]
    if list_path is not None:
        given += _read_list(list_path)
    flights = {one.file: one for one in given}.values()
    return [Listed(one.file, one.start or (found.date(one.file) if found else "")) for one in flights]


def _read_list(path: str) -> Iterator[Listed]:
    """A list has a path a line; or, under a head that begins with `file`, rows of a path and a date of start."""
    with opened(path) as source:
        lines = [line.rstrip("\r\n") for line in source.lines()]
    if not lines or lines[0].split(",")[0] != "file":
        yield from (Listed(os.path.abspath(line)) for line in lines if line)
        return
    for number, row in enumerate(csv.DictReader(lines), 2):
        start = row.get("start") or ""
        if not row["file"]:
            raise Fault(f"{path} line {number}: no file")
        if start:
            dates_of([start])
        yield Listed(os.path.abspath(row["file"]), start)


class Dater:
    """Finds the date in a file's path, as `%Y%m%d` says it."""

    def __init__(self, form: str) -> None:
        self.form = form
        parts = re.split(r"%(.)", form)
        if len(parts) < 2 or not all(one in DIGITS for one in parts[1::2]):
            raise Fault(f"--date-in {form!r}: a date as %Y%m%d or %Y-%m-%dT%H%M, of {', '.join('%' + one for one in DIGITS)}")
        self.pattern = re.compile("".join(DIGITS[one] if at % 2 else re.escape(one) for at, one in enumerate(parts)))

    def date(self, path: str) -> str:
        """The last date in a path, in UTC, or nothing."""
        for text in reversed(self.pattern.findall(path)):
            try:
                return f"{datetime.datetime.strptime(text, self.form).isoformat()}Z"
            except ValueError:
                continue
        return ""


@dataclass(frozen=True)
class Choice:
    """A pattern of paths, and the table and the rules of the flights that have it first."""

    pattern: str
    table: str
    rules: str | None

    def has(self, file: str) -> bool:
        """Whether a path has the pattern, from its root or from one of its folders on."""
        return fnmatch.fnmatchcase(file, self.pattern) or fnmatch.fnmatchcase(file, f"*/{self.pattern}")


def choices_of(path: str, rules: str | None) -> list[Choice]:
    """The rows of a file of tables, `pattern,table` or `pattern,table,rules`; paths are from its folder on."""
    folder = pathlib.Path(path).resolve().parent
    choices = []
    with opened(path) as source:
        for number, row in enumerate(csv.reader(source.lines()), 1):
            if not row or number == 1 and row[:2] == ["pattern", "table"]:
                continue
            if len(row) not in (2, 3) or not all(row[:2]):
                raise Fault(f"{path} row {number}: neither PATTERN,TABLE nor PATTERN,TABLE,RULES")
            own = str(folder / row[2]) if len(row) == 3 and row[2] else rules
            choices.append(Choice(row[0], str(folder / row[1]), own))
    return choices


def choice_of(file: str, choices: list[Choice]) -> Choice | None:
    """The first that a path has."""
    return next((one for one in choices if one.has(file)), None)
