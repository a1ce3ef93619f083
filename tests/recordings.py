"""Recordings that are killed, and what an image holds then: crashes.py and pair.py have their runs by it."""

import itertools
import pathlib
import random
import subprocess
import threading
import time
from collections.abc import Callable, Iterable, Iterator, Sequence
from typing import NamedTuple

from formats import HEADER, blocks_of, end_at, recovered
from inputs import word_at
from places import Mismatch

PROMISED_LESS = 2
LIMIT = 60.0  # seconds that a run of the program has

Words = Sequence[str | pathlib.Path]
Act = Callable[["Recording"], None]


class Recorded(NamedTuple):
    """A run that is over: the status, the acknowledged numbers, the other lines, and when the run began and each number came."""

    status: int
    told: list[int]
    others: list[str]
    times: list[float]


# --- the trace


def trace_of(chance: random.Random, seconds: int) -> bytes:
    """A trace of so many seconds: a word now and then, with times in order, and the end."""
    times = sorted(chance.randrange(seconds * 1_000_000) for _ in range(seconds * 2))
    return b"".join(word_at(at, chance.randrange(4096)) for at in times) + end_at(seconds * 1_000_000)


# --- the image


def answer_of(words: Words, given: bytes | None = None) -> tuple[int, bytes]:
    """The status and the output of a run that ends by itself."""
    ended = subprocess.run(words, input=given, stdout=subprocess.PIPE, stderr=subprocess.DEVNULL, timeout=LIMIT)
    return ended.returncode, ended.stdout


class Image:
    """An image, and all blocks that were ever recorded in it. The program is `fdr`."""

    def __init__(self, program: pathlib.Path, table: pathlib.Path, path: pathlib.Path, slots: int, payload: int) -> None:
        self.program, self.table, self.path = program, table, path
        self.slots, self.payload = slots, payload
        self.blocks: list[tuple[int, bytes]] = []
        path.unlink(missing_ok=True)
        sizes = ("--slots", str(slots), "--payload", str(payload))
        status, _ = answer_of([program, "format", table, path, *sizes])
        if status != 0:
            raise Mismatch(f"format ended with {status}")
        self.header = path.read_bytes()[: HEADER.size]

    def blocks_of(self, trace: bytes) -> list[tuple[int, bytes]]:
        """The blocks that a recording of a trace adds, each with its session."""
        status, stream = answer_of([self.program, "stream", self.table], given=trace)
        if status != 0:
            raise Mismatch(f"stream ended with {status}")
        session = self.blocks[-1][0] + 1 if self.blocks else 1
        return [(session, block) for block in blocks_of(stream, self.payload)]

    def look(self, every: list[tuple[int, bytes]], least: int, most: int) -> int:
        """Compares the image with the last of these blocks, of which so many have to be recorded, and answers how many are."""
        image = self.path.read_bytes()
        if image[: HEADER.size] != self.header:
            raise Mismatch(f"{self.path.name}: the header isn't what it was")
        run = recovered(image)
        following = run[-1].number + 1 if run else 0
        if not least <= following <= most:
            raise Mismatch(f"{self.path.name}: the next number is {following}, and it has to be {least} to {most}")
        if len(run) < min(self.slots - PROMISED_LESS, following):
            raise Mismatch(f"{self.path.name}: the run has {len(run)} blocks of {following}, in {self.slots} slots")
        for number, session, held in run:
            if (session, held) != every[number]:
                raise Mismatch(f"{self.path.name}: block {number} isn't that of the stream, or of another recording")
        status, written = answer_of([self.program, "recover", self.path])
        if status != 0 or written != b"".join(held for _, _, held in run):
            told = f"recover ended with {status} and wrote {len(written)} bytes"
            raise Mismatch(f"{self.path.name}: {told}, which aren't those of the run")
        self.blocks = every[:following]
        return following


def next_by(told: list[int], first: int, end: int) -> tuple[int, int]:
    """Which numbers may follow in an image after these acknowledgements: the last one, or one more, up to the end. Without
    any it is the first one."""
    return (told[-1], min(told[-1] + 1, end)) if told else (first, first)


# --- the recording


class Recording:
    """A run that is fed a trace through a pipe, and whose standard error is read."""

    def __init__(self, words: Words, trace: bytes) -> None:
        self.child = subprocess.Popen(words, stdin=subprocess.PIPE, stdout=subprocess.DEVNULL, stderr=subprocess.PIPE)
        assert self.child.stdin and self.child.stderr
        self.given, self.said = self.child.stdin, self.child.stderr
        self.was_late = False
        self.others: list[str] = []
        self.limit = threading.Timer(LIMIT, self.end_late)
        self.feeder = threading.Thread(target=self.feed, args=(trace,), daemon=True)
        self.limit.start()
        self.feeder.start()

    def end_late(self) -> None:
        self.was_late = True
        self.child.kill()

    def feed(self, trace: bytes) -> None:
        try:
            self.given.write(trace)
            self.given.close()
        except BrokenPipeError:
            pass

    def acks(self) -> Iterator[int]:
        """The acknowledged numbers as they come. A line that was cut off is none, and the others are kept."""
        for line in self.said:
            words = line.split()
            if line.endswith(b"\n") and words[:1] == [b"ack"]:
                yield int(words[1])
            elif line.endswith(b"\n"):
                self.others.append(line.decode().rstrip("\n"))

    def ended(self) -> int:
        """The status, once it ended."""
        status = self.child.wait()
        self.limit.cancel()
        self.feeder.join()
        self.said.close()
        if self.was_late:
            raise Mismatch(f"record took more than {LIMIT:.0f} seconds")
        return status


def kill_after(pause: float) -> Act:
    """Kills a recording after so many seconds."""

    def act(recording: Recording) -> None:
        time.sleep(pause)
        recording.child.kill()

    return act


def record(words: Words, trace: bytes, acts: Iterable[tuple[int | None, Act]] = ()) -> Recorded:
    """Records a trace. Each act is done once so many acknowledgements have come, or the recording has ended."""
    recording = Recording(words, trace)
    told: list[int] = []
    times = [time.monotonic()]
    coming = recording.acks()

    def wait_for(count: int | None) -> None:
        for number in itertools.islice(coming, count):
            told.append(number)
            times.append(time.monotonic())

    for count, act in acts:
        wait_for(None if count is None else max(0, count - len(told)))
        act(recording)
    wait_for(None)
    return Recorded(recording.ended(), told, recording.others, times)
