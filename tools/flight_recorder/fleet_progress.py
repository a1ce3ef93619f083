"""How far a fleet is, on standard error where that is a terminal."""

from __future__ import annotations

import sys
import time

from .fleet_job import DONE, Row

BAR = 20
QUIET = 0.2  # seconds between two lines


class FleetProgress:
    """Counts flights as they come."""

    def __init__(self, count: int) -> None:
        self.count = count
        self.there = self.made = self.others = 0
        self.begun = self.said = time.monotonic()
        self.wanted = sys.stderr is not None and sys.stderr.isatty()

    def add(self, row: Row) -> None:
        """A flight came."""
        is_there = bool(row.get("same"))
        self.there += is_there
        self.made += not is_there
        self.others += not is_there and row["status"] != DONE
        if self.wanted and time.monotonic() >= self.said + QUIET:
            self.said = time.monotonic()
            sys.stderr.write(f"\r\x1b[K{self.line()}")
            sys.stderr.flush()

    def line(self) -> str:
        """How many are done, how many weren't, how many a minute, and how long yet."""
        done = self.there + self.made
        seconds = max(time.monotonic() - self.begun, 0.001)
        bar = "#" * (BAR * done // self.count if self.count else BAR)
        left = (self.count - done) * seconds / done if done else 0.0
        there = f", {self.there:,} were there" if self.there else ""
        return f"[{bar:<{BAR}}] {done:,} of {self.count:,} flights{there}, {self.others:,} refused, {60 * done / seconds:,.0f} a minute, {_length(left)} left"

    def end(self) -> None:
        """Takes the line away."""
        if self.wanted:
            sys.stderr.write("\r\x1b[K")
            sys.stderr.flush()


def _length(seconds: float) -> str:
    minutes = int(seconds) // 60
    return f"{minutes // 60} h {minutes % 60} min" if minutes >= 60 else f"{minutes} min" if minutes else f"{int(seconds)} s"
