"""What a description says of the columns of a table: their heads, and the fields beside a parameter's value.

The value of the listing stays as it is. A word for it, what it is by a scale of points, and a derived value have columns of their
own, which say so in their heads.
"""

from __future__ import annotations

import csv
import io
from dataclasses import dataclass

import numpy as np

from .arrays import Array, different
from .clock import Timed
from .description import SCALED, Described, Description
from .expression import Values
from .listing import Names, Piece

STATE, DERIVED = " (state)", " (derived)"
OWN = ("recording", "session", "time", "date", "utc", "note")  # columns that are no parameter's


def number_text(number: float) -> str:
    """A number that was worked out, without zeros at its end; a whole one without a point."""
    return f"{number:.15g}"


def texts_of(values: Array) -> list[bytes]:
    """The texts of numbers that were worked out, whole ones exact; empty of what is no number."""
    if values.dtype.kind == "i":
        return [b"%d" % value for value in values.tolist()]
    return [b"" if value != value else number_text(value).encode() for value in values.tolist()]


def quoted(text: str) -> bytes:
    """A field as comma-separated values have it."""
    out = io.StringIO()
    csv.writer(out, lineterminator="").writerow([text, ""])
    return out.getvalue()[:-1].encode()


def distinct(piece: Piece, rows: Array) -> tuple[Array, Array]:
    """Of some rows of one parameter which have the same value written alike: the number of each, and the first row of each number."""
    bits = np.ascontiguousarray(piece.value[rows]).view(np.int64)  # which tell -0 from 0
    decimals = piece.decimals[rows]
    if len(rows) and (decimals != decimals[0]).any():
        bits = np.unique(np.stack((bits, decimals.astype(np.int64))), axis=1, return_inverse=True)[1].astype(np.int64)
    codes, found = different(bits)
    first = np.empty(len(found), dtype=np.int64)
    first[codes[::-1]] = rows[::-1]
    return codes, first


def head_of(name: str, kind: str = "", unit: str = "", title: str = "") -> str:
    """The head of a column: a name, which ends at the first space, what kind of value it is, its unit and its title."""
    own = f"({name})" if name in OWN and not kind else name
    return own + kind + (f" [{unit}]" if unit else "") + (f" {title}" if title else "")


@dataclass(frozen=True)
class Column:
    """A parameter or a derived value, as the columns of a table have it."""

    name: str
    described: Described
    is_derived: bool = False

    @property
    def heads(self) -> list[str]:
        """The heads of its value and of what is beside it. A scale of points takes values to the unit."""
        one = self.described
        unit = "" if one.points else one.unit
        heads = [head_of(self.name, DERIVED if self.is_derived else "", unit, one.title)]
        heads += [head_of(self.name, STATE)] * bool(one.states)
        return heads + [head_of(self.name, SCALED, one.unit, one.title)] * (one.points is not None)

    @property
    def kinds(self) -> list[str]:
        """What is beside its value."""
        return [STATE] * bool(self.described.states) + [SCALED] * (self.described.points is not None)

    def beside(self, values: Array) -> list[list[str]]:
        """What is beside these values, a list of each kind."""
        one = self.described
        states = {float(value): word for value, word in one.states.items()}
        texts = [[states.get(value, "") for value in values.tolist()]] * bool(states)
        if one.points is not None:
            texts.append(["" if value != value else number_text(value) for value in one.points.of(values).tolist()])
        return texts

    def fields(self, values: Array) -> list[list[bytes]]:
        """The same as fields of comma-separated values."""
        one = self.described
        states = {float(value): quoted(word) for value, word in one.states.items()}
        fields = [[states.get(value, b"") for value in values.tolist()]] * bool(states)
        return fields + ([texts_of(one.points.of(values))] if one.points is not None else [])


class Told:
    """The columns of a listing's parameters and of the derived values after them, with what is said of each."""

    def __init__(self, description: Description, names: Names) -> None:
        self.columns = [Column(name, description.of(name)) for name in names.names]
        self.parameters = len(self.columns)
        self.columns += [Column(name, one.described, True) for name, one in description.derived.items()]
        self.width = np.array([len(one.heads) for one in self.columns], dtype=np.int64)
        self.first = np.cumsum(self.width) - self.width
        self.count = int(self.width.sum())
        self.with_fields = [number for number in range(len(self.columns)) if self.width[number] > 1]
        self.has_units = any(one.described.unit for one in self.columns[: self.parameters])
        self.has_states = any(one.described.states for one in self.columns)
        self.has_scales = any(one.described.points for one in self.columns)

    @property
    def heads(self) -> list[str]:
        """The heads of all columns."""
        return [head for one in self.columns for head in one.heads]

    @property
    def derived(self) -> list[Column]:
        """Those that are derived."""
        return self.columns[self.parameters :]


def derived_values(timed: Timed, number: int) -> tuple[Array, Values]:
    """The rows of a piece at which a derived value was worked out and has one, and its values there."""
    assert timed.worked is not None
    worked = timed.worked[number]
    there = np.flatnonzero(worked.values[0].there)
    return worked.rows[there], worked.values[0].only(there)
