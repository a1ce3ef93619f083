"""What a fleet has read so far: a line a flight, added as it comes.

A line is the first half of the SHA-256 of the rest, a space, and the row as JSON. Of several lines of one flight the last one
counts. A line that a stop cut, or that isn't what its sum says, counts as none: its flight is read again.
"""

from __future__ import annotations

import fcntl
import hashlib
import json
import os
import pathlib
from dataclasses import dataclass
from typing import Iterable, Iterator

from .faults import Fault
from .fleet_job import KEPT, REFUSED, Row

NAME = "fleet.journal"
SUM = 32  # hexadecimal digits


@dataclass(frozen=True)
class Entry:
    """Where a flight's line is, and what it is known by: its sum, and the key of what the row was made of; and whether it was refused
    before it had values."""

    at: int
    length: int
    sum: str
    key: str
    is_without_values: bool


def _sum(text: bytes) -> str:
    return hashlib.sha256(text).hexdigest()[:SUM]


class Journal:
    """The journal of a folder, which one run has at a time."""

    def __init__(self, folder: pathlib.Path) -> None:
        path = folder / NAME
        self.file = open(path, "a+b", buffering=0)
        try:
            fcntl.flock(self.file, fcntl.LOCK_EX | fcntl.LOCK_NB)
        except OSError:
            self.file.close()
            raise Fault(f"{path}: another run is writing here") from None
        self.entries: dict[str, Entry] = {}
        self.end = 0
        self._read()

    def close(self) -> None:
        """Has all lines on the disk, and lets others write."""
        os.fsync(self.file.fileno())
        self.file.close()

    def _read(self) -> None:
        """Finds the line of each flight, and cuts off one that isn't whole."""
        self.file.seek(0)
        with open(self.file.fileno(), "rb", closefd=False) as lines:
            for line in lines:
                if not line.endswith(b"\n"):
                    break
                self._enter(line)
                self.end += len(line)
        self.file.truncate(self.end)

    def _enter(self, line: bytes) -> None:
        text = line[SUM + 1 : -1]
        if line[:SUM] == _sum(text).encode():
            row = json.loads(text)
            is_without = row["status"] == REFUSED and not row["summary"].get("rows")
            self.entries[row["file"]] = Entry(self.end, len(line), _sum(text), row["key"] if row["status"] in KEPT else "", is_without)

    def key(self, file: str) -> str:
        """The key of the row of a flight that needn't be read again where nothing changed, or nothing."""
        entry = self.entries.get(file)
        return entry.key if entry else ""

    def is_without_values(self, file: str) -> bool:
        """Whether a flight was refused before it had values."""
        entry = self.entries.get(file)
        return entry is not None and entry.is_without_values

    def sum(self, file: str) -> str:
        """The sum of a flight's line, or nothing."""
        entry = self.entries.get(file)
        return entry.sum if entry else ""

    def add(self, row: Row) -> None:
        """Adds a row, in one write."""
        text = json.dumps(row, ensure_ascii=True, separators=(",", ":")).encode()
        line = b"%b %b\n" % (_sum(text).encode(), text)
        if self.file.write(line) != len(line):
            raise Fault(f"{NAME}: the disk is full")
        self._enter(line)
        self.end += len(line)

    def row(self, file: str) -> Row:
        """The row of a flight that has one."""
        entry = self.entries[file]
        line = os.pread(self.file.fileno(), entry.length, entry.at)
        row: Row = json.loads(line[SUM + 1 :])
        return row

    def rows(self, files: Iterable[str]) -> Iterator[Row]:
        """The rows of those of these flights that have one, one at a time."""
        return (self.row(file) for file in files if file in self.entries)
