"""Rows of text in columns."""

from typing import Sequence


def aligned(rows: Sequence[Sequence[str]]) -> str:
    """Rows in columns: the first one to the left, the others to the right, the last as it is."""
    widths = [max(len(row[at]) for row in rows) for at in range(len(rows[0]) - 1)]
    lines = []
    for row in rows:
        cells = [row[0].ljust(widths[0])]
        cells += [cell.rjust(width) for cell, width in zip(row[1:-1], widths[1:])]
        lines.append("  ".join([*cells, row[-1]]).rstrip() + "\n")
    return "".join(lines)
