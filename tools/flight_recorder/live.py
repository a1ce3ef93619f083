"""A capture that is still being written, as a trace: each row goes out as its record at once."""

import contextlib
import io
import os
import select
import signal
import stat
import sys
import time
from dataclasses import dataclass
from typing import Iterator

import numpy as np

from . import bus, capture, plain, trace
from .arrays import Array
from .faults import Fault
from .streams import Input

GATHER = 0.01  # seconds in which rows gather after the first one of them
TICK = 0.05  # seconds after which a signal is seen at the latest
AT_ONCE = 1 << 16  # bytes
MOST_RECORDS = 1 << 32  # of a recording, the end record too
MOST_NAMED = 100  # rows that are named; further ones are counted
BEHIND = 500_000  # microseconds by which beats are behind a capture's own times, so that rows aren't late by them
MISSED, MOST_MISSED = 8, (1 << 23) - 1  # the bit of a beat from which on it says how many rows were left out, and the most
UTC_LABEL = 0o150
LONGEST = 399 * 3600 * 1_000_000  # microseconds of a recording


@dataclass(frozen=True)
class Live:
    """How a capture is followed: whether times are those of the clock of this machine, how long a recording is in microseconds,
    the buses of beats and of words of the time of day, and the named pipe that the trace goes to."""

    by_clock: bool
    rotate: int
    beat: int
    utc: int | None
    pipe: str | None


class Gone(Exception):
    """The reader of the trace is gone."""


class Outlet:
    """Where a trace goes: standard output, or a named pipe. Each recording wants a new pipe at the path, so that no record gets
    to a recorder that has ended: the one before stays open, so that no other gets its number."""

    def __init__(self, path: str | None) -> None:
        self.path = path
        self.descriptor: int | None = None
        self.is_open = False

    def open(self) -> bool:
        """Opens it for a recording, where the reader is there."""
        if self.path is None:
            self.is_open, first = self.descriptor is None, self.descriptor is None
            self.descriptor = 1
            return first
        try:
            descriptor = os.open(self.path, os.O_WRONLY | os.O_NONBLOCK)
        except OSError:  # it isn't there, or nobody reads it
            return False
        about = os.fstat(descriptor)
        is_old = self.descriptor is not None and os.path.samestat(about, os.fstat(self.descriptor))
        if is_old or not stat.S_ISFIFO(about.st_mode):
            os.close(descriptor)
            return False
        if self.descriptor is not None:
            os.close(self.descriptor)
        os.set_blocking(descriptor, True)
        self.descriptor, self.is_open = descriptor, True
        return True

    def write(self, data: bytes) -> None:
        """Writes all of it, and waits for the reader."""
        assert self.descriptor is not None
        left = memoryview(data)
        try:
            while left:
                left = left[os.write(self.descriptor, left) :]
        except BrokenPipeError:
            self.is_open = False
            raise Gone from None

    def close(self) -> None:
        """Ends a recording. A pipe of that path is written no more."""
        self.is_open = False


class Recordings:
    """Words with their times, as recordings one after another. The time 0 of each is that of its first word."""

    def __init__(self, outlet: Outlet, rotate: int) -> None:
        self.outlet = outlet
        self.rotate = rotate
        self.start: int | None = None
        self.newest: int | None = None
        self.records = 0
        self.late = 0

    def put(self, words: capture.Words, is_asked: bool) -> None:
        """Writes words. One that is late gets the time of the one before; where somebody asked for it, it is counted."""
        if not len(words.time):
            return
        least = words.time[0] if self.newest is None else self.newest
        times = np.maximum.accumulate(np.insert(words.time, 0, least))[1:]
        self.late += int(np.count_nonzero(times != words.time)) if is_asked else 0
        self.newest = int(times[-1])
        at = 0
        while at < len(times):
            at = self._put_some(words, times, at)

    def _put_some(self, words: capture.Words, times: Array, at: int) -> int:
        """Writes what this recording takes of the words from one on. Answers which one is the next."""
        if not self._is_begun(int(times[at])):
            return len(times)
        assert self.start is not None
        past = int(np.searchsorted(times, self.start + self.rotate, "left"))
        past = max(at, min(past, at + MOST_RECORDS - 1 - self.records))
        some = slice(at, past)
        self.outlet.write(trace.records_of(words.bus[some], words.word[some], times[some] - self.start).tobytes())
        self.records += past - at
        if past < len(times):
            self.end(int(times[past]))
        return past

    @property
    def is_over(self) -> bool:
        """Whether nothing can be recorded any more: standard output has had its one recording."""
        return self.outlet.path is None and self.outlet.descriptor is not None and not self.outlet.is_open

    def _is_begun(self, first: int) -> bool:
        """Begins a recording with this time where none is going on."""
        if self.start is None:
            while not self.outlet.open():
                if self.outlet.path is None or stopping():
                    return False
                time.sleep(TICK)
            self.start, self.records = first, 0
        return True

    def end(self, at: int) -> None:
        """Ends the recording; one without words has no length."""
        if not self._is_begun(at):
            return
        assert self.start is not None
        held = io.BytesIO()
        trace.write_end(held, min(at - self.start, trace.LATEST))
        self.start = None
        self.outlet.write(held.getvalue())
        self.outlet.close()

    def lose(self) -> None:
        """The reader is gone, and the recording with it."""
        self.start = None


_signals: list[int] = []


def stopping() -> bool:
    """Whether a signal asked for the end."""
    return bool(_signals)


@contextlib.contextmanager
def _signals_taken() -> Iterator[None]:
    """The first SIGINT or SIGTERM asks for the end, a second one ends the process."""
    kinds = (signal.SIGINT, signal.SIGTERM)

    def take(number: int, _: object) -> None:
        _signals.append(number)
        signal.signal(number, signal.SIG_DFL)

    _signals.clear()
    before = {kind: signal.signal(kind, take) for kind in kinds}
    try:
        yield
    finally:
        for kind in kinds:
            signal.signal(kind, before[kind])


class Follower:
    """Rows that come, as words: those that can't be read are named, left out and counted."""

    def __init__(self, header: bytes, settings: capture.Settings, by_clock: bool) -> None:
        # By the clock, a column in front of the capture's own takes the place of its times.
        self.front = b"time," if by_clock else b""
        self.reader = capture.Reader(Input(io.BytesIO(self.front + header), None), settings)
        self.front = b"0," if by_clock else b""
        self.bad = 0

    def words(self, lines: list[bytes]) -> Iterator[capture.Words]:
        """The words of whole lines."""
        data = b"".join(self.front + line for line in lines) if self.front else b"".join(lines)
        piece = plain.lines_of(data)
        words = self.reader.at_once(piece[0]) if piece[1] and b'"' not in data else None
        if words is not None:
            self.reader.row += len(lines)
            yield from self._within(words)
            return
        for line in lines:
            yield from self._words_of(self.front + line)

    def _words_of(self, line: bytes) -> Iterator[capture.Words]:
        row = self.reader.row + 1
        try:
            if line.strip(b"\r\n"):
                yield from self._within(self.reader.row_of(plain.Lines(line)))
        except Fault as fault:
            self.leave_out(str(fault))
        self.reader.row = row

    def _within(self, words: capture.Words) -> Iterator[capture.Words]:
        """Those whose times a recording may have."""
        outside = (words.time < 0) | (words.time > trace.LATEST)
        for row in words.row[outside]:
            self.leave_out(f"row {row}: its time is outside of a recording")
        yield capture.Words(*(column[~outside] for column in words))

    def leave_out(self, text: str) -> None:
        """Counts a row that is left out, and says which it is."""
        self.bad += 1
        if self.bad <= MOST_NAMED:
            print(f"flight: {text}; it is left out", file=sys.stderr, flush=True)


class Beats:
    """A word once a second where blocks would fall due by nothing else: one of even parity, which nothing samples and which says
    how many rows were left out, and one of the time of day."""

    def __init__(self, live: Live) -> None:
        self.live = live
        self.next: float | None = None

    def words(self, at: int, missed: int) -> capture.Words:
        """What is sent."""
        buses, words = [self.live.beat], [_even(min(missed, MOST_MISSED) << MISSED)]
        if self.live.utc is not None:
            buses.append(self.live.utc)
            words.append(_time_of_day())
        rows = np.zeros(len(buses), dtype=np.int64)
        return capture.Words(rows, rows + at, np.array(buses, dtype=np.uint8), np.array(words, dtype=np.uint32))


def _even(word: int) -> int:
    """The word with even parity."""
    return word | word.bit_count() % 2 << 31


def _time_of_day() -> int:
    """The word of UTC: seconds from bit 12 on, minutes from 18, hours from 24; normal operation."""
    now = time.gmtime()
    data = now.tm_hour << 13 | now.tm_min << 7 | min(now.tm_sec, 59) << 1
    return int(bus.word_of(bus.Fields(np.array(UTC_LABEL), np.array(0), np.array(data), np.array(3))))


class Session:
    """A capture that is followed: its rows, its recordings and its beats."""

    def __init__(self, descriptor: int, settings: capture.Settings, live: Live) -> None:
        self.descriptor = descriptor
        self.live = live
        self.settings = settings
        self.recordings = Recordings(Outlet(live.pipe), live.rotate)
        self.beats = Beats(live)
        self.follower: Follower | None = None
        self.first: float | None = None  # the clock at the first row
        self.came = 0.0  # the clock at the last row
        self.last_row = 0  # the time of the last row, by the capture
        self.left = b""

    def run(self) -> bool:
        """Follows the capture to its end, or until a signal. Answers whether all rows could be read."""
        at_end = False
        while not at_end and not stopping() and not self._has_end() and not self.recordings.is_over:
            wait = TICK if self.beats.next is None else max(0.0, min(TICK, self.beats.next - time.monotonic()))
            if select.select([self.descriptor], [], [], wait)[0]:
                time.sleep(GATHER)
                at_end = not self._take(self._read())
            self._beat()
        if self.left and self.follower:
            self.follower.leave_out(f"row {self.follower.reader.row + 1}: it has no line feed")
        self._end()
        return self._tell()

    def _has_end(self) -> bool:
        return self.follower is not None and self.follower.reader.end is not None

    def _read(self) -> bytes:
        try:
            return os.read(self.descriptor, AT_ONCE)
        except OSError:  # of a terminal whose other side is closed
            return b""

    def _take(self, data: bytes) -> bool:
        """Takes bytes of the capture, and writes the records of the lines that are whole. Answers whether bytes came."""
        lines = (self.left + data).splitlines(keepends=True)
        self.left = lines.pop() if lines and not lines[-1].endswith(b"\n") else b""
        if len(self.left) > AT_ONCE:
            raise Fault("the capture has a line of more than 65,536 bytes")
        if lines and self.follower is None:
            self.follower = Follower(lines.pop(0), self.settings, self.live.by_clock)
        if lines and self.follower:
            for words in self.follower.words(lines):
                self._put(words)
        return bool(data)

    def _put(self, words: capture.Words) -> None:
        if not len(words.time):
            return
        self.came = time.monotonic()
        if self.first is None:
            self.first = self.came
            self.beats.next = self.came
        if self.live.by_clock:
            words = words._replace(time=np.full(len(words.time), self._clock()))
        else:
            self.beats.next = self.came + 1
        self._write(words, True)

    def _clock(self) -> int:
        """Microseconds since the first row."""
        assert self.first is not None
        return round((time.monotonic() - self.first) * capture.MILLION)

    def _beat(self) -> None:
        if self.beats.next is None or time.monotonic() < self.beats.next:
            return
        self.beats.next = time.monotonic() + 1
        assert self.follower and self.recordings.newest is not None
        silence = time.monotonic() - self.came
        at = self._clock() if self.live.by_clock else self.last_row + round(silence * capture.MILLION) - BEHIND
        self._write(self.beats.words(max(at, self.recordings.newest), self.follower.bad), False)

    def _write(self, words: capture.Words, is_asked: bool) -> None:
        try:
            self.recordings.put(words, is_asked)
        except Gone:
            self.recordings.lose()
            print("flight: the reader of the trace is gone", file=sys.stderr, flush=True)
            if self.live.pipe is None:
                raise
        if is_asked and self.recordings.newest is not None:
            self.last_row = self.recordings.newest

    def _end(self) -> None:
        """The end record: at the row of the end, at the clock's time, or at the last word's."""
        newest = self.recordings.newest or 0
        row = self.follower.reader.end if self.follower else None
        at = self._clock() if self.live.by_clock and self.first is not None else newest if row is None else row
        try:
            self.recordings.end(max(at, newest))
        except Gone:
            print("flight: the reader of the trace is gone", file=sys.stderr, flush=True)

    def _tell(self) -> bool:
        bad = self.follower.bad if self.follower else 0
        if bad or self.recordings.late:
            text = f"{bad} rows were left out, and {self.recordings.late} were late"
            print(f"flight: {text}", file=sys.stderr, flush=True)
        return not bad


def follow(path: str, settings: capture.Settings, live: Live) -> bool:
    """Makes the trace of a capture while it is written. Answers whether all went well."""
    descriptor = 0 if path == "-" else os.open(path, os.O_RDONLY)
    try:
        with _signals_taken():
            return Session(descriptor, settings, live).run()
    except Gone:
        return False
    finally:
        if descriptor:
            os.close(descriptor)
