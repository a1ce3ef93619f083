"""Lengths of time, as a user writes them."""

import re
from decimal import Decimal

from .faults import Fault

UNITS = {"us": 1, "ms": 1000, "s": 1_000_000, "m": 60_000_000, "h": 3_600_000_000}


def microseconds(text: str) -> int:
    """A length as `1s`, `250ms` or `0.5m`, in microseconds; a bare number is seconds."""
    found = re.fullmatch(r"(\d{1,12}(?:\.\d{1,12})?)(us|ms|s|m|h)?", text)
    length = Decimal(found.group(1)) * UNITS[found.group(2) or "s"] if found else Decimal(0)
    if length < 1 or length != int(length):
        raise Fault(f"{text!r} is no length of time, as 1s or 250ms")
    return int(length)
