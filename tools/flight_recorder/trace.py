"""Traces: records of 16 bytes, bus words and an end, each with its time."""

from typing import BinaryIO, Iterator

import numpy as np

from .arrays import Array
from .faults import Fault
from .streams import Input

RECORD = np.dtype([("kind", "u1"), ("bus", "u1"), ("zero", ">u2"), ("word", ">u4"), ("time", ">u8")])
WORD, END = 1, 2
LATEST = 1_440_000_000_000  # microseconds: 400 hours
AT_ONCE = 1 << 16  # records that are read or written at once


def records_of(bus: Array, word: Array, time: Array) -> Array:
    """The records of bus words."""
    records = np.zeros(len(time), dtype=RECORD)
    records["kind"] = WORD
    records["bus"] = bus
    records["word"] = word
    records["time"] = time
    return records


def write_end(out: BinaryIO, time: int) -> None:
    """Writes the end record."""
    record = np.zeros(1, dtype=RECORD)
    record["kind"] = END
    record["time"] = time
    out.write(record.tobytes())


def read_trace(source: Input) -> Iterator[Array]:
    """The good records of a trace, the end record the last; what comes after it isn't looked at. A trace without one is a fault."""
    first, newest = 0, 0
    while True:
        data = source.read(AT_ONCE * RECORD.itemsize)
        records = np.frombuffer(data[: len(data) // RECORD.itemsize * RECORD.itemsize], dtype=RECORD)
        ends = np.flatnonzero(records["kind"] == END)
        if len(ends):
            records = records[: ends[0] + 1]
        _check(records, first, newest)
        yield records
        if len(ends):
            return
        first += len(records)
        newest = int(records["time"][-1]) if len(records) else newest
        if len(data) < AT_ONCE * RECORD.itemsize:
            raise Fault(f"trace record {first}, byte {RECORD.itemsize * first}: truncated, no end record came")


def _check(records: Array, first: int, newest: int) -> None:
    """Raises the first fault of the records, of which `first` is the number of the first one."""
    times = records["time"].astype(np.int64)
    before = np.insert(times, 0, newest)[:-1]
    wrong = {
        "kind": (records["kind"] != WORD) & (records["kind"] != END),
        "time goes back": (times < before) & (times >= 0),
        "time too late": (times > LATEST) | (times < 0),
    }
    bad = np.logical_or.reduce(list(wrong.values()))
    if bad.any():
        at = int(np.argmax(bad))
        text = next(name for name, where in wrong.items() if where[at])
        raise Fault(f"trace record {first + at}, byte {RECORD.itemsize * (first + at)}: {text}")
