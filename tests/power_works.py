"""What the programs do on the disks of tests/power.py, while others write beside them."""

import ctypes
import dataclasses
import json
import os
import pathlib
import random
import subprocess
import threading
import time
from collections.abc import Callable, Mapping, Sequence

from formats import end_at
from inputs import TOP, word_at
from places import Mismatch
from power_model import Run, old_image
from power_system import LIBC, Disks

LIMIT = 120.0
TABLE = TOP / "examples" / "t1.csv"
RINGS = [(8, 64), (6, 512), (5, 4096)]
SMALL_RINGS = [(4, 64), (5, 64), (8, 64)]
FRAME = 384  # bytes of a frame by examples/t1.csv, which takes four seconds


def trace_for(chance: random.Random, size: int) -> bytes:
    """A trace whose stream has about so many bytes."""
    seconds = max(1, size * 4 // FRAME)
    times = sorted(chance.randrange(seconds * 1_000_000) for _ in range(seconds))
    return b"".join(word_at(at, chance.randrange(4096)) for at in times) + end_at(seconds * 1_000_000)


class Neighbour:
    """Somebody who writes on the same file systems meanwhile: files that come, grow, change their names and go, and syncs."""

    def __init__(self, disks: Disks, images: Sequence[tuple[int, str]], chance: random.Random) -> None:
        self.places, self.chance = disks.places, random.Random(chance.random())
        self.images = [disks.places[disk] / name for disk, name in images]
        self.is_over = threading.Event()
        self.thread = threading.Thread(target=self.go, daemon=True)

    def __enter__(self) -> "Neighbour":
        self.thread.start()
        return self

    def __exit__(self, *_: object) -> None:
        self.is_over.set()
        self.thread.join()

    def go(self) -> None:
        while not self.is_over.wait(self.chance.random() * 0.01):
            try:
                self.act(self.chance.choice(self.places))
            except OSError:
                pass  # a disk that fails is the program's matter

    def act(self, place: pathlib.Path) -> None:
        name = place / f"other{self.chance.randrange(4)}"
        kind = self.chance.randrange(6)
        if kind < 2:
            with open(name, "ab") as file:
                file.write(self.chance.randbytes(self.chance.randrange(1, 6000)))
                file.flush()
                if kind:
                    os.fsync(file.fileno())
        elif kind == 2:
            name.rename(place / f"other{self.chance.randrange(4)}")
        elif kind == 3:
            name.unlink()
        elif kind == 4:
            folder = os.open(place, os.O_RDONLY)
            LIBC.syncfs(ctypes.c_int(folder))
            os.close(folder)
        else:
            image = os.open(self.chance.choice(self.images), os.O_RDONLY)
            os.fdatasync(image)
            os.close(image)


class Bench:
    """The disks, and the runs that are made on them."""

    def __init__(self, disks: Disks, programs: Mapping[str, pathlib.Path], chance: random.Random, environ: Mapping[str, str]) -> None:
        self.disks, self.programs, self.chance = disks, programs, chance
        self.environ = {**os.environ, **environ}
        self.runs: list[Run] = []

    def path(self, image: tuple[int, str]) -> pathlib.Path:
        return self.disks.places[image[0]] / image[1]

    def words(self, run: Run) -> list[str | pathlib.Path]:
        images = [self.path(image) for image in run.images]
        if run.kind == "fdrpair":
            return [self.programs["fdrpair"], "record", TABLE, *images]
        if run.kind == "format":
            return [self.programs["fdr"], "format", TABLE, *images, "--slots", str(run.shape[0]), "--payload", str(run.shape[1])]
        if run.kind == "upgrade":
            return [self.programs["fdr"], "upgrade", *images]
        return [self.programs["fdr"], run.kind, TABLE, *images]

    def mark(self, told: dict[str, object]) -> None:
        self.disks.control(f"mark {json.dumps(told)}")

    def run(self, run: Run) -> int:
        """Makes a run, whose lines on standard error go into the log. Its trace comes in pieces."""
        number = len(self.runs)
        self.runs.append(run)
        self.mark({"run": number, "is": "begin"})
        with open(self.disks.served / "said", "wb", buffering=0) as said:
            child = subprocess.Popen(self.words(run), stdin=subprocess.PIPE, stdout=subprocess.DEVNULL, stderr=said, env=self.environ)
        limit = threading.Timer(LIMIT, child.kill)
        limit.start()
        self.feed(child, run.trace)
        status = child.wait()
        limit.cancel()
        self.mark({"run": number, "is": "end", "status": status})
        return status

    def feed(self, child: "subprocess.Popen[bytes]", trace: bytes) -> None:
        assert child.stdin
        at = 0
        try:
            while at < len(trace):
                size = 16 * self.chance.randrange(1, 40)
                child.stdin.write(trace[at : at + size])
                child.stdin.flush()
                at += size
                time.sleep(self.chance.random() * 0.002)
            child.stdin.close()
        except BrokenPipeError:
            pass

    def done(self, run: Run) -> None:
        """Makes a run that has to be done."""
        if (status := self.run(run)) != 0:
            raise Mismatch(f"{run.kind} ended with {status}")

    def recording(self, kind: str, images: Sequence[tuple[int, str]], shape: tuple[int, int], blocks: int) -> Run:
        """A recording of about so many blocks."""
        return Run(kind, tuple(images), shape, trace_for(self.chance, blocks * shape[1] - self.chance.randrange(shape[1])))

    def put_old(self, image: tuple[int, str], shape: tuple[int, int]) -> None:
        """Puts an image of version 1 in place, durable."""
        self.path(image).write_bytes(old_image(shape))
        self.sync_file(self.path(image))
        self.sync_file(self.path(image).parent)
        self.note(Run("old", (image,), shape))

    def remove(self, image: tuple[int, str]) -> None:
        """Removes an image, from which on nothing is asked of it."""
        self.note(Run("remove", (image,)))
        self.path(image).unlink(missing_ok=True)

    def note(self, run: Run) -> None:
        """Puts what was done by hand into the log."""
        number = len(self.runs)
        self.runs.append(run)
        self.mark({"run": number, "is": "begin"})
        self.mark({"run": number, "is": "end", "status": 0})

    def sync_file(self, path: pathlib.Path) -> None:
        """Makes a file or a folder durable."""
        file = os.open(path, os.O_RDONLY)
        os.fsync(file)
        os.close(file)


Does = Callable[[Bench], None]


@dataclasses.dataclass(frozen=True)
class Work:
    """What is done on the disks of a set-up, whether violations are expected of it, or nothing is said of that, and how
    many cuts it has at least."""

    name: str
    disks: int
    programs: Mapping[str, pathlib.Path]
    does: Does
    is_broken: bool | None = False
    environ: Mapping[str, str] = dataclasses.field(default_factory=dict)
    least: int = 0

    def do(self, disks: Disks, chance: random.Random) -> list[Run]:
        bench = Bench(disks, self.programs, chance, self.environ)
        self.does(bench)
        return bench.runs


# --- the works


def on_one_disk(rings: Sequence[tuple[int, int]], rounds: int = 1) -> Does:
    """Images are made and recorded in three times, round their rings; one of version 1 is upgraded and recorded in."""

    def do(bench: Bench) -> None:
        for number, shape in enumerate(list(rings) * rounds):
            image = (0, f"ring{number}.img")
            bench.done(Run("format", (image,), shape))
            bench.done(bench.recording("record", [image], shape, shape[0] + 3))
            with Neighbour(bench.disks, [image], bench.chance):
                bench.done(bench.recording("record", [image], shape, shape[0] // 2))
                bench.done(bench.recording("record", [image], shape, shape[0] + 1))
            bench.remove(image)
        for number in range(rounds):
            old = (0, f"old{number}.img")
            bench.put_old(old, rings[0])
            with Neighbour(bench.disks, [old], bench.chance):
                bench.done(Run("upgrade", (old,)))
                bench.done(bench.recording("record", [old], rings[0], 4))

    return do


def making(rings: Sequence[tuple[int, int]], rounds: int) -> Does:
    """Images are made and removed, so that a new one gets the place of an old one."""

    def do(bench: Bench) -> None:
        for number in range(rounds):
            shape, image = rings[number % len(rings)], (0, f"ring{number}.img")
            bench.done(Run("format", (image,), shape))
            bench.done(bench.recording("record", [image], shape, 2))
            bench.remove(image)

    return do


def on_two_disks(rings: Sequence[tuple[int, int]], rounds: int = 1) -> Does:
    """Two images are recorded in together; then the first one alone, and the second is brought up to it."""

    def do(bench: Bench) -> None:
        for number, shape in enumerate(list(rings) * rounds):
            images = [(0, f"ring{number}.img"), (1, f"ring{number}.img")]
            for image in images:
                bench.done(Run("format", (image,), shape))
            with Neighbour(bench.disks, images, bench.chance):
                bench.done(bench.recording("fdrpair", images, shape, shape[0] + 3))
                bench.done(bench.recording("record", images[:1], shape, 2))
                bench.done(bench.recording("fdrpair", images, shape, shape[0]))
            for image in images:
                bench.remove(image)

    return do
