"""The type of arrays, and the different numbers of one."""

from typing import Any

from numpy.typing import NDArray

Array = NDArray[Any]


def different(numbers: Array) -> tuple[Array, Array]:
    """For each number its place among the different ones, and these. It takes pandas, which only who needs it waits for."""
    import pandas

    codes, uniques = pandas.factorize(numbers)
    return codes, uniques
