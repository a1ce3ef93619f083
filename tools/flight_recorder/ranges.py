"""The ends of the range of each parameter of a table, as numbers."""

from __future__ import annotations

from dataclasses import dataclass

from .parameters import Parameter, Table
from .scale import raw_limits


@dataclass(frozen=True)
class Range:
    """The least and the greatest value that a parameter can have, and the bits of its raw number."""

    least: float
    greatest: float
    width: int


def ranges_of(table: Table) -> dict[str, Range]:
    """The ranges by the names of the parameters."""
    return {name: _range(parameter) for name, parameter in table.parameters.items()}


def _range(parameter: Parameter) -> Range:
    values = sorted(float(parameter.scale.value(raw)) for raw in raw_limits(parameter.sign, parameter.width))
    return Range(values[0], values[1], parameter.width)
