"""How long each rule of `fdr exceed` was watched: in how many stretches of rows that are long enough for it."""

from __future__ import annotations

import csv
import io
import pathlib
from dataclasses import dataclass
from typing import Iterable

from .clock import SECOND
from .listing import Names
from .survey import Stretch


@dataclass(frozen=True)
class Rule:
    """A rule: its name, its parameter, its kind, its limit, and the rows that it takes."""

    name: str
    parameter: str
    kind: str
    limit: int
    count: int


def rules_of(path: str) -> list[Rule]:
    """The rules of a file that the program accepted, or as far as they are rules."""
    text = pathlib.Path(path).read_bytes().decode("utf-8-sig", "surrogateescape")
    rows = [row for row in csv.reader(io.StringIO(text, newline="")) if row]
    try:
        return [Rule(row[0], row[1], row[2], int(row[3]), int(row[4])) for row in rows]
    except (ValueError, IndexError):
        return []


@dataclass(frozen=True)
class Watched:
    """How long a rule was watched: the stretches that have rows enough for it, and the others; and the seconds of both."""

    rule: Rule
    stretches: int
    seconds: int
    short: int
    short_seconds: int


def watched(rules: Iterable[Rule], stretches: Iterable[Stretch], names: Names) -> list[Watched]:
    """How long each rule was watched. A stretch with fewer rows of its parameter than its count can't have a line of it."""
    every = list(stretches)
    return [_watched(rule, every, names) for rule in rules]


def _watched(rule: Rule, stretches: list[Stretch], names: Names) -> Watched:
    number = names.numbers.get(rule.parameter.encode(), -1)
    is_long = [one.samples.get(number, 0) >= rule.count for one in stretches]
    seconds = [one.ticks // SECOND for one in stretches]
    watched_for = sum(length for length, enough in zip(seconds, is_long) if enough)
    return Watched(rule, sum(is_long), watched_for, len(stretches) - sum(is_long), sum(seconds) - watched_for)
