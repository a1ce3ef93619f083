"""Disks that are slow, hang, are held by a reader or aren't mounted, and starts on what the system hasn't read yet: a part
of tests/power.py. What was announced, recorded and lost, and how long it took.
"""

import dataclasses
import fcntl
import pathlib
import random
import re
import subprocess
import threading
import time
from collections.abc import Callable, Mapping

from formats import Block, blocks_of, empty_image, next_number, recovered, with_blocks
from places import Mismatch
from power_log import entries_of
from power_model import bits_of_trace
from power_system import SETUPS, Disks, disks_of, unmount
from power_works import TABLE, trace_for

SHAPE = (16, 64)
FULL = (8448, 4096)  # an image of 35 MB
PACE = 20_000_000
SLOW = 2.0
LONG = 300.0
ACK = re.compile(rb"^ack (\d+)$", re.M)


@dataclasses.dataclass(frozen=True)
class Ended:
    """A run: its status, what it said, the seconds to each acknowledgement and to its end."""

    status: int
    said: bytes
    acks: list[tuple[float, int]]
    seconds: float

    @property
    def others(self) -> list[str]:
        return [line for line in self.said.decode().splitlines() if not line.startswith("ack ")]


class Trial:
    """Disks, the programs, and an image on each."""

    def __init__(self, disks: Disks, programs: Mapping[str, pathlib.Path], pause: float) -> None:
        self.disks, self.programs, self.pause = disks, programs, pause
        self.chance = random.Random(pause)
        self.images = [place / "flight.img" for place in disks.places]

    def make(self, shape: tuple[int, int] = SHAPE) -> None:
        for image in self.images:
            image.unlink(missing_ok=True)
            sizes = ["--slots", str(shape[0]), "--payload", str(shape[1])]
            subprocess.run([self.programs["fdr"], "format", TABLE, image, *sizes], check=True)

    def words(self, count: int) -> list[str | pathlib.Path]:
        return [self.programs["fdrpair" if count == 2 else "fdr"], "record", TABLE, *self.images[:count]]

    def lines(self, since: int) -> list[tuple[int, bytes]]:
        """What was said after this moment: the time of each piece, and its bytes."""
        return [(entry.time, entry.data) for entry in entries_of(self.disks.log) if entry.kind == "s" and entry.time >= since]

    def announced(self, since: int) -> list[tuple[float, int]]:
        pieces = [((at - since) / 1e9, ACK.match(data)) for at, data in self.lines(since)]
        return [(seconds, int(found[1])) for seconds, found in pieces if found]

    def record(self, count: int, trace: bytes, meanwhile: Callable[[int], None] | None = None) -> Ended:
        """Records a trace on one image or two. Meanwhile something is done, from the moment that it is told."""
        begin = time.monotonic_ns()
        with open(self.disks.served / "said", "wb", buffering=0) as said:
            child = subprocess.Popen(self.words(count), stdin=subprocess.PIPE, stdout=subprocess.DEVNULL, stderr=said)
        limit = threading.Timer(LONG, child.kill)
        limit.start()
        acting = threading.Thread(target=meanwhile or (lambda _: None), args=(begin,))
        acting.start()
        child.communicate(trace)
        acting.join()
        limit.cancel()
        seconds = (time.monotonic_ns() - begin) / 1e9
        return Ended(child.returncode, b"".join(data for _, data in self.lines(begin)), self.announced(begin), seconds)

    def wait_for(self, begin: int, number: int) -> None:
        """Waits until a number is announced."""
        while not any(found >= number for _, found in self.announced(begin)):
            time.sleep(0.02)

    def held(self, disk: int) -> list[Block]:
        return recovered(self.images[disk].read_bytes())


def want(found: object, wanted: object, what: str) -> None:
    if found != wanted:
        raise Mismatch(f"{what}: {found!r} and not {wanted!r}")


def fault_of_second(trial: Trial, cause: str) -> list[str]:
    """What is said where the second disk failed and the recording went on."""
    return [f"fdrpair: {trial.images[1]}: {cause}", "fault second"]


def blocks_in(trace: bytes, shape: tuple[int, int] = SHAPE) -> int:
    return len(blocks_of(bits_of_trace(trace), shape[1]))


# --- the trials, each of which answers what it saw


def slow_flushes(trial: Trial) -> str:
    """Each flush takes two seconds."""
    seen = []
    for count in (1, 2):
        trial.make()
        trial.disks.control(f"slow 0 {int(SLOW * 1000)}")
        trace = trace_for(trial.chance, 3 * SHAPE[1])
        ended = trial.record(count, trace)
        trial.disks.mend(0)
        want((ended.status, [number for _, number in ended.acks]), (0, list(range(blocks_in(trace) + 1))), "with slow flushes")
        each = (ended.acks[-1][0] - ended.acks[0][0]) / (len(ended.acks) - 1)
        seen.append(f"{count} image{'s' * (count > 1)}: first ack after {ended.acks[0][0]:.1f} s, then a block in {each:.1f} s")
    return "; ".join(seen)


def hang(trial: Trial, fails: bool) -> str:
    """One disk of two hangs while it is recorded on, and comes back, or fails then."""
    trial.make()
    trace = trace_for(trial.chance, 200 * SHAPE[1])
    during: list[int] = []

    def meanwhile(begin: int) -> None:
        trial.wait_for(begin, 3)
        trial.disks.control("hang 1")
        time.sleep(0.5)
        before = len(trial.announced(begin))
        time.sleep(trial.pause)
        during.append(len(trial.announced(begin)) - before)
        during.append(before - 1)
        if fails:
            trial.disks.control("fail 1 write 0 1000000 5 0 0")
            trial.disks.control("fail 1 flush 0 1000000 5 0 0")
        trial.disks.control("wake 1")

    ended = trial.record(2, trace, meanwhile)
    trial.disks.mend(1)
    count = blocks_in(trace)
    want((ended.status, ended.acks[-1][1], ended.others), (0, count, fault_of_second(trial, "input/output error") if fails else []), "after a disk hung")
    want(during[0], 0, "announced while a disk hung")
    want(next_number(trial.images[0].read_bytes()), count, "the next number of the first image")
    there = "both have all" if not fails else "`fault second`, the first has all"
    return f"{trial.pause:.0f} s from block {during[1]} on: nothing announced meanwhile, then all {count} blocks; {there}"


def hangs(trial: Trial) -> str:
    told = hang(trial, False)
    want(trial.held(0), trial.held(1), "the images")
    return told


def hangs_and_fails(trial: Trial) -> str:
    return hang(trial, True)


def held_by_a_reader(trial: Trial) -> str:
    """A reader holds an image at a start."""
    trial.make()
    trace = trace_for(trial.chance, 4 * SHAPE[1])
    with open(trial.images[1], "rb") as reader:
        fcntl.flock(reader, fcntl.LOCK_SH)
        ended = trial.record(2, trace)
        want((ended.status, ended.others), (0, fault_of_second(trial, "held by another run")), "a pair with a reader on one image")
        trial.images.reverse()
        alone = trial.record(1, trace)
        trial.images.reverse()
        told = [f"fdr: {trial.images[1]}: held by another run", "fdr: disk fault"]
        want((alone.status, alone.others, alone.acks), (10, told, []), "one image with a reader on it")
    again = trial.record(2, trace)
    want((again.status, again.others, trial.held(0) == trial.held(1)), (0, [], True), "without the reader")
    return f"alone: `held by another run` and `fdr: disk fault` after {alone.seconds:.2f} s; of two: `fault second`, and brought up at the next start"


def not_mounted(trial: Trial) -> str:
    """A disk isn't mounted at a start."""
    trial.make()
    trace = trace_for(trial.chance, 4 * SHAPE[1])
    want(trial.record(2, trace).status, 0, "with both disks")
    before = trial.images[0].read_bytes()
    unmount(trial.disks.places[1])
    ended = trial.record(2, trace)
    told = [f"fdrpair: {trial.images[1]}: no such file", "fdrpair: second image: too small"]
    want((ended.status, ended.others, ended.acks), (4, told, []), "without the second disk")
    want(trial.images[0].read_bytes(), before, "the first image")
    want(trial.record(1, trace).status, 0, "the first disk alone")
    trial.disks.mount(1)
    again = trial.record(2, trace)
    want((again.status, again.others, trial.held(0) == trial.held(1)), (0, [], True), "with both again")
    return f"`second image: too small` after {ended.seconds:.2f} s, nothing changed; once it is back the pair goes on, brought up"


def cold(trial: Trial) -> str:
    """A start on full rings, of which the system has nothing in its memory, on a disk of 20 MB a second."""
    blocks = [(1, bytes([number % 251]) * FULL[1]) for number in range(FULL[0] + 1)]
    image = with_blocks(empty_image(*FULL), blocks)
    for path in trial.images:
        path.write_bytes(image)
    seen = []
    for pace in (0, PACE):
        for count in (1, 2):
            times = []
            for is_cold in (True, False):
                for disk in range(2):
                    if is_cold:
                        trial.disks.mount_anew(disk)
                    trial.disks.control(f"pace {disk} {pace}")
                ended = trial.record(count, trace_for(trial.chance, 1))
                want((ended.status, ended.others), (0, []), "a start on a full ring")
                times.append(ended.acks[0][0])
            for disk in range(2):
                trial.disks.mend(disk)
            seen.append(f"{'at 20 MB/s, ' if pace else ''}{count} image{'s' * (count > 1)}: {times[0]:.2f} s cold, {times[1]:.2f} s warm")
            if count == 1:
                trial.images[1].write_bytes(trial.images[0].read_bytes())
    return f"first ack on {FULL[0]:,} full slots of {FULL[1]:,}: " + "; ".join(seen)


TRIALS: dict[str, Callable[[Trial], str]] = {
    "each flush takes two seconds": slow_flushes,
    "a disk of two hangs and comes back": hangs,
    "a disk of two hangs and fails": hangs_and_fails,
    "a reader holds an image": held_by_a_reader,
    "a disk isn't mounted": not_mounted,
    "a cold start": cold,
}


def try_one(name: str, programs: Mapping[str, pathlib.Path], pause: float, log: pathlib.Path) -> str:
    """A trial on two disks with ext4."""
    with disks_of(SETUPS[0], log, 2) as disks:
        return TRIALS[name](Trial(disks, programs, pause))
