"""What is to be done of one flight of a fleet, and the row that comes of it: plain values both, which travel."""

from __future__ import annotations

import hashlib
import json
import os
from dataclasses import asdict, dataclass
from typing import Any

from . import manifest

DONE, REFUSED, MISSING, FAILED = "done", "refused", "missing", "failed"
KEPT = (DONE, REFUSED)  # what the bytes alone decide; the others are tried again by the next run
# The columns of `flight events`, of which a table without a clock lacks one.
EVENTS = "what,event,rule,severity,flight,recording,session,time,utc,seconds,samples,peak,peak_time,notes".split(",")
# Those of `flight table --exceed --parts`, of which a table without dates or without a clock lacks some, and the unit of the peak.
EXCEEDANCES = "recording,session,time,date,utc,seconds,rule,samples,peak,counter,subframe,word,parameter,places,note,unit".split(",")
FORM = 2  # of a row; another one makes all rows anew

Row = dict[str, Any]


def count_of_events(row: Row) -> int:
    """How many events a row has, beside the lines that say how long each rule was watched."""
    return sum(one[0] == "event" for one in row["events"])


@dataclass(frozen=True)
class Job:
    """What is to be done of a flight. Paths are whole ones; the sums are of the files as the fleet saw them when it began."""

    file: str
    name: str  # of its files in the fleet's folder
    table: str
    sums: dict[str, str]  # of the table, the rules, the events, the description and the program
    rules: str | None = None
    events: str | None = None
    when: str | None = None  # where a flight of a recording is
    at_least: str | None = None  # how long it is at least
    apart: str | None = None  # how far flights are apart at least
    flight: int | None = None  # the one that is read alone
    describe: str | None = None
    start: str = ""  # the date of time 0 of the first recording
    kind: str | None = None  # image or bits; what it looks like if not given
    program: str | None = None
    values: str | None = None  # the file of HDF5 that is wanted
    report: str | None = None  # the folder of a report that is wanted
    known: str = ""  # the key of the row that is there
    is_without_values: bool = False  # that row is of a flight that was refused before it had any

    def as_data(self) -> Row:
        """The job as plain values."""
        return asdict(self)

    def key(self, sum: str) -> str:
        """What the row of a flight with this sum is made of."""
        chosen = {"when": self.when, "for": self.at_least, "apart": self.apart, "number": self.flight}
        made_of = {"flight": sum, **self.sums, **chosen, "start": self.start, "kind": self.kind, "form": FORM, "tools": manifest.version()}
        return hashlib.sha256(json.dumps(made_of, sort_keys=True).encode()).hexdigest()

    def has_files(self) -> bool:
        """Whether the files that are wanted beside the row are there."""
        values = None if self.is_without_values else self.values
        return all(one is None or os.path.exists(one) for one in (values, self.report))

    def row(self, status: str, said: str, **more: Any) -> Row:
        """A row of this flight, with nothing of what it holds but what is given."""
        about = {"file": self.file, "name": self.name, "table": self.table, "start": self.start, "status": status, "said": said}
        empty = {"exit": None, "error": "", "sha256": "", "key": "", "bytes": None, "kind": self.kind or "", "seconds": 0.0, "tries": 1}
        lists: Row = {"summary": {}, "exceedances": [], "parameters": [], "events": [], "values": "", "report": ""}
        return {**about, **empty, **lists, **more}
