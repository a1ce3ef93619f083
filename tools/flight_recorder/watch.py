"""What a trace has of each parameter while it is recorded: last values, words a second, and what has fallen silent."""

import contextlib
import fcntl
import os
import shutil
import statistics
import sys
import threading
import time
from collections import deque
from dataclasses import dataclass, field

import numpy as np

from . import bus, trace
from .aligned import aligned
from .description import SCALED, Derived, Described, Description
from .expression import Values, decimal_values, whole_values
from .arrays import Array
from .capture import MILLION
from .faults import Fault
from .live import MISSED, MOST_MISSED
from .parameters import Table
from .told import DERIVED, number_text
from .silence import Source, names_of, source_of

GATHER = 0.02  # seconds in which records gather
AT_ONCE = 1 << 20  # bytes that are read at once, and that a pipe is asked to hold
EVERY = 1.0  # seconds from one table to the next
STALLED = 1.5  # seconds without a record, after which silence counts by the clock
INTERVALS = 32  # of which the middle one is the ordinary interval
UNKNOWN = MILLION  # microseconds: the ordinary interval of one word alone
TOO_LONG = 3  # ordinary intervals
HOME, END_OF_LINE, END_OF_SCREEN = "\x1b[H", "\x1b[K", "\x1b[J"


@dataclass
class Heard:
    """What came of a source so far. Words of even parity end no silence, since none of them is sampled."""

    words: int = 0
    even: int = 0
    before: int = 0  # the words at the last table
    last: int = 0  # the last word of odd parity
    time: int | None = None  # when it came
    intervals: deque[int] = field(default_factory=lambda: deque(maxlen=INTERVALS))

    def add(self, times: Array, words: Array, odd: Array) -> None:
        """Takes words."""
        self.words += len(times)
        self.even += int(np.count_nonzero(~odd))
        times = times[odd]
        if len(times):
            first = [] if self.time is None else [self.time]
            self.intervals.extend(np.diff(times, prepend=first)[-INTERVALS:].tolist())
            self.time = int(times[-1])
            self.last = int(words[odd][-1])

    def ordinary(self) -> float:
        """The ordinary interval between two words, in microseconds."""
        if not self.intervals:
            return UNKNOWN
        return statistics.median(self.intervals) or statistics.fmean(self.intervals) or UNKNOWN


class Watch:
    """What came of the parameters of a table, and of all else."""

    def __init__(self, table: Table, description: Description | None = None) -> None:
        self.table = table
        self.description = description or Description()
        self.asked = {source_of(one): Heard() for one in table.parameters.values()}
        self.by_label: dict[tuple[int, int], list[Source]] = {}
        for one in self.asked:
            self.by_label.setdefault((one.bus, one.label), []).append(one)
        self.others: dict[Source, Heard] = {}
        self.records, self.before, self.dropped = 0, 0, 0
        self.begin, self.newest = 0, 0  # of the recording that goes on, and of the last record
        self.came = time.monotonic()  # the clock at the last record
        self.told = self.came  # the clock at the last table

    def take(self, records: Array) -> None:
        """Takes records. After an end record another recording begins, and its times go on from there."""
        kinds = records["kind"]
        if ((kinds != trace.WORD) & (kinds != trace.END)).any():
            raise Fault(f"trace record {self.records + int(np.argmax((kinds != trace.WORD) & (kinds != trace.END)))}: kind")
        self.came = time.monotonic()
        self.records += len(records)
        ends = np.flatnonzero(kinds == trace.END)
        for part in np.split(records, ends + 1):
            if len(part):
                times = self.begin + part["time"].astype(np.int64)
                self.newest = int(times[-1])
                is_word = part["kind"] == trace.WORD
                self._words(part[is_word], times[is_word])
                self.begin = self.begin if is_word[-1] else self.newest

    def _words(self, records: Array, times: Array) -> None:
        words, odd = records["word"].astype(np.uint32), bus.has_odd_parity(records["word"])
        beats = (words & 0xFF == 0) & ~odd
        if beats.any():
            self.dropped = int(words[beats][-1]) >> MISSED & MOST_MISSED
        keys = records["bus"].astype(np.int64) << 8 | bus.fields_of(words).label.astype(np.int64)
        order = np.argsort(keys, kind="stable")
        order = order[~beats[order]]
        for group in np.split(order, np.flatnonzero(np.diff(keys[order])) + 1):
            if len(group):
                self._label(divmod(int(keys[group[0]]), 256), times[group], words[group], odd[group])

    def _label(self, of: tuple[int, int], times: Array, words: Array, odd: Array) -> None:
        """Takes the words of a label of a bus."""
        sdi = words >> np.uint32(bus.SDI) & np.uint32(3)
        heeded = np.zeros(len(words), dtype=bool)
        for source in self.by_label.get(of, []):
            its = np.full(len(words), True) if source.sdi is None else sdi == source.sdi
            self.asked[source].add(times[its], words[its], odd[its])
            heeded |= its
        for other in np.unique(sdi[~heeded]).tolist():
            its = ~heeded & (sdi == other)
            self.others.setdefault(Source(*of, other), Heard()).add(times[its], words[its], odd[its])

    def lines(self) -> tuple[list[str], bool]:
        """The table as it is now, and whether a parameter is silent."""
        now = time.monotonic()
        span, self.told = now - self.told, now
        stalled = now - self.came if now - self.came > STALLED else 0.0
        at = self.newest + round(stalled * MILLION)
        rows = [("parameter", "bus", "label", "sdi", "value", *self._heads(), "a second", "silence", "")]
        is_silent = False
        for parameter in self.table.parameters.values():
            source = source_of(parameter)
            heard = self.asked[source]
            note = _note(heard, at)
            is_silent |= bool(note)
            value = "" if heard.time is None else parameter.text_of(heard.last)
            silence = "" if heard.time is None else f"{(at - heard.time) / MILLION:.2f} s"
            told = self._told(self.description.of(parameter.name), value)
            rows.append((parameter.name, *names_of(source), value, *told, _rate(heard, span), silence, note))
        for derived in self.description.derived.values():
            value = self._derived(derived)
            rows.append((derived.name + DERIVED, "", "", "", value, *self._told(derived.described, value), "", "", ""))
        for source, heard in sorted(self.others.items()):
            rows.append(("-", *names_of(source), "", *self._told(Described(), ""), _rate(heard, span), "", "no parameter asks for it"))
        for heard in (*self.asked.values(), *self.others.values()):
            heard.before = heard.words
        head = f"{self.newest / MILLION:.1f} s, {(self.records - self.before) / max(span, 1e-9):.0f} records a second"
        self.before = self.records
        stall = f", NOTHING COMES for {stalled:.0f} s" if stalled else ""
        return [f"{head}, {self.dropped} words dropped by the source{stall}", *aligned(rows).splitlines()], is_silent


    def _heads(self) -> tuple[str, ...]:
        """The columns of the description, where there is one."""
        return ("unit", "means", "title") if self.description.parameters or self.description.derived else ()

    def _told(self, one: Described, value: str) -> tuple[str, ...]:
        """What the description says of a value: its unit, its word or what it is by a scale of points, and its title."""
        means = one.word(value) or one.scaled(value) if value else ""
        return (one.unit, means, one.title) if self._heads() else ()

    def _derived(self, derived: Derived) -> str:
        """A derived value of the last words, once there is one of each of its parameters."""
        values: dict[str, Values] = {}
        for name in derived.expression.names:
            parameter = self.table.parameters[name.removesuffix(SCALED)]
            heard = self.asked[source_of(parameter)]
            if heard.time is None:
                return ""
            number = np.array([float(parameter.text_of(heard.last))])
            points = self.description.of(parameter.name).points if name != parameter.name else None
            is_whole = parameter.scale.decimals == 0 and points is None
            values[name] = whole_values(number) if is_whole else decimal_values(points.of(number) if points else number)
        worked = derived.expression.worked(values)
        if not worked.there[0]:
            return ""
        return str(int(worked.numbers[0])) if worked.are_whole else number_text(float(worked.numbers[0]))


def _rate(heard: Heard, span: float) -> str:
    return f"{(heard.words - heard.before) / max(span, 1e-9):.1f}"


def _note(heard: Heard, at: int) -> str:
    if heard.time is None:
        return "ALL OF EVEN PARITY" if heard.even else "NONE CAME"
    return "SILENT" if at - heard.time > TOO_LONG * heard.ordinary() else ""


class Reading:
    """Records that are read beside the drawing, so that a terminal that waits holds up no recording."""

    def __init__(self, watch: Watch, descriptor: int) -> None:
        self.watch = watch
        self.descriptor = descriptor
        self.lock = threading.Lock()
        self.ended = threading.Event()
        self.fault: Exception | None = None
        with contextlib.suppress(OSError):
            fcntl.fcntl(descriptor, fcntl.F_SETPIPE_SZ, AT_ONCE)
        threading.Thread(target=self._read, daemon=True).start()

    def _read(self) -> None:
        left = b""
        try:
            while data := os.read(self.descriptor, AT_ONCE):
                data = left + data
                whole = len(data) // trace.RECORD.itemsize * trace.RECORD.itemsize
                left = data[whole:]
                with self.lock:
                    self.watch.take(np.frombuffer(data[:whole], dtype=trace.RECORD))
                time.sleep(GATHER)
        except (OSError, Fault) as fault:
            self.fault = fault
        self.ended.set()

    def lines(self) -> tuple[list[str], bool]:
        """The table as it is now, and whether a parameter is silent."""
        with self.lock:
            lines = self.watch.lines()
        if self.fault:
            raise self.fault
        return lines


def watch(table: Table, once: float | None, description: Description | None = None) -> bool:
    """Writes a table each second until the trace ends, or one alone after so many seconds. Answers whether a parameter is silent."""
    reading = Reading(Watch(table, description), sys.stdin.fileno())
    if once is not None:
        reading.ended.wait(once)
        lines, is_silent = reading.lines()
        print("\n".join(lines), flush=True)
        return is_silent
    is_terminal = sys.stdout.isatty()
    while True:
        at_end = reading.ended.wait(EVERY)
        lines, is_silent = reading.lines()
        print(_screen(lines) if is_terminal else "\n".join([*lines, ""]), end="" if is_terminal and not at_end else "\n", flush=True)
        if at_end:
            return is_silent


def _screen(lines: list[str]) -> str:
    """The lines in place of what was on the screen, as many as it has room for."""
    size = shutil.get_terminal_size()
    room = max(size.lines - 1, 2)
    if len(lines) > room:
        lines = [*lines[: room - 1], f"and {len(lines) - room + 1} more"]
    return HOME + "".join(f"{line[: size.columns - 1]}{END_OF_LINE}\r\n" for line in lines) + END_OF_SCREEN
