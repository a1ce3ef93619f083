"""Which values the parameters of a table can have, so that a wrong factor is seen before a flight is read."""

import csv
import io

from .aligned import aligned
from .description import Described
from .parameters import Parameter, Table
from .scale import decimal_text, exact_text, raw_limits

HEADER = ("name", "bits", "sign", "least", "greatest", "step", "all ones", "unit", "note")
FRESH = "V"


def rows_of(table: Table, described: dict[str, Described]) -> list[tuple[str, ...]]:
    """A row for each parameter, under the names of the columns."""
    return [HEADER, *(_row(one, described.get(one.name, Described())) for one in table.parameters.values())]


def _row(parameter: Parameter, described: Described) -> tuple[str, ...]:
    scale = parameter.scale
    least, greatest = raw_limits(parameter.sign, parameter.width)
    ends = sorted((scale.value(least), scale.value(greatest)))
    ones = -1 if parameter.sign == "S" else greatest
    texts = [decimal_text(end, scale.decimals) for end in ends]
    step = exact_text(abs(scale.step))
    fields = [parameter.name, str(parameter.width), parameter.sign, *texts, step, scale.text(ones), described.unit]
    return (*fields, "; ".join(_notes(parameter, described)))


def _notes(parameter: Parameter, described: Described) -> list[str]:
    """What is to be known of a parameter beside its numbers."""
    notes = [described.title] if described.title else []
    if parameter.sign == FRESH:
        notes.append("tells whether a word is fresh")
    if parameter.scale.num == 0:
        notes.append("all values are alike")
    elif parameter.scale.den > 1:
        notes.append(f"rounded down to {exact_text(abs(parameter.scale.unit))}")
    if parameter.scale.num < 0:
        notes.append("values go down as the raw number goes up")
    return notes + [f"{value} {word}" for value, word in described.states.items()]


def text_of(rows: list[tuple[str, ...]]) -> str:
    """The rows in columns."""
    return aligned(rows)


def csv_of(rows: list[tuple[str, ...]]) -> str:
    """The rows as comma-separated values."""
    out = io.StringIO()
    csv.writer(out, lineterminator="\n").writerows(rows)
    return out.getvalue()
