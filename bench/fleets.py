#!/usr/bin/python3
"""Measures `flight fleet` over images of 35 MB beside GNU parallel over plain `fdr list`, in turns, and what the engine costs a flight.

    bench/fleets.py FDR [--images 64 512] [--workers 1 2 4] [--tiny 500] [--repeat 1] [--different 16] [--minutes 10] [--only TEXT] [--steps]

The images are on a file system in memory: so many different ones, each under several names where more are asked for. It goes step by
step, the quick ones first; `--steps` names them, and `--only` runs those with a text in their names. A step that would go beyond the
minutes, by what others took, is left out and named. It takes Debian's python3-distributed, numpy and GNU parallel, and prints tables
in Markdown: of the repeats the one of the fewest seconds.
"""

import argparse
import os
import pathlib
import random
import shutil
import subprocess
import sys
import tempfile
import time
from collections.abc import Callable, Iterable
from dataclasses import dataclass, field
from functools import partial
from typing import NamedTuple

sys.dont_write_bytecode = True
TOP = pathlib.Path(__file__).resolve().parent.parent
sys.path.insert(0, str(TOP / "tests"))

import commands
import damaged_images
import inputs
from runs import print_row

MEMORY = pathlib.Path("/dev/shm")
FLIGHT = TOP / "tools" / "flight"
TABLE, T1 = TOP / "examples" / "ordinary.csv", TOP / "examples" / "t1.csv"
GLANCE = 0.02  # seconds between two looks at a process
TICKS = os.sysconf("SC_CLK_TCK")
DAY, CLUSTER, NETWORK = 86_400, 100, 1.25e9  # seconds; workers; bytes a second of 10 Gbit/s
TINY = "tiny flights"


class Taken(NamedTuple):
    """What a run took: seconds, those of the processor with all that it started, and its own alone."""

    seconds: float
    processor: float
    own: float


def own_seconds(process: int) -> float:
    """The processor's seconds of one process."""
    fields = pathlib.Path(f"/proc/{process}/stat").read_text().rpartition(")")[2].split()
    return (int(fields[11]) + int(fields[12])) / TICKS


def taken(words: Iterable[object], given: str = "") -> Taken:
    """Runs a command."""
    began, ended, own = time.monotonic(), 0, 0.0
    child = subprocess.Popen([str(word) for word in words], stdin=subprocess.PIPE, stdout=subprocess.DEVNULL, stderr=subprocess.DEVNULL)
    assert child.stdin is not None
    child.stdin.write(given.encode())
    child.stdin.close()
    while not ended:
        time.sleep(GLANCE)
        own = own_seconds(child.pid)
        ended, status, used = os.wait4(child.pid, os.WNOHANG)
    seconds = time.monotonic() - began
    child.returncode = os.waitstatus_to_exitcode(status)
    if child.returncode:
        sys.exit(f"{' '.join(map(str, words))} ended with {child.returncode}")
    return Taken(seconds, used.ru_utime + used.ru_stime, own)


def by_parallel(program: str, images: list[pathlib.Path], workers: int) -> Taken:
    """GNU parallel over plain `fdr list`; the listings go nowhere."""
    words = ["parallel", "--will-cite", "-j", workers, f"{program} list {TABLE} {{}} > /dev/null"]
    return taken(words, "".join(f"{one}\n" for one in images))


def by_fleet(program: str, images: list[pathlib.Path], workers: int, output: pathlib.Path, table: pathlib.Path = TABLE) -> Taken:
    """`flight fleet` into a folder."""
    listed = output.with_suffix(".list")
    listed.write_text("".join(f"{one}\n" for one in images))
    return taken([FLIGHT, "fleet", "--files", listed, "--table", table, "-o", output, "--workers", workers, "--fdr", program])


def best(each: list[Taken]) -> Taken:
    """The one of the fewest seconds."""
    return min(each, key=lambda one: one.seconds)


@dataclass
class Bench:
    """What is measured, and what was seen so far: seconds an image by the number of workers, the processor's seconds of an image by a
    fleet, and those of the client and its scheduler for a flight."""

    program: str
    room: pathlib.Path
    repeat: int
    different: int
    end: float  # by the clock that only goes on
    begun: bool = False  # the table of images is
    rates: dict[int, float] = field(default_factory=dict)
    an_image: float = 0.0
    a_flight: float = 0.0
    size: int = 0

    def images(self, count: int) -> list[pathlib.Path]:
        """So many names of the different images, of 25 hours each, which are made where they aren't there."""
        names = [self.room / f"flight_{number}.img" for number in range(count)]
        for number, name in enumerate(names):
            own = self.room / f"own_{number % self.different}.img"
            if not own.exists():
                line, _ = commands.frames(commands.Table(inputs.ORDINARY), random.Random(number))
                commands.write_full_image(own, line)
            if not name.exists():
                os.link(own, name)
        self.size = names[0].stat().st_size
        return names

    def measure_images(self, count: int, workers: int) -> None:
        """A row of the table of images a second."""
        images = self.images(count)
        if not self.begun:
            print_row(["images", "workers", "parallel: s", "processor s", "images a second", "fleet: s", "processor s", "images a second"])
            print_row(["---:"] * 8)
            self.begun = True
        began, plain, fleet = time.monotonic(), [], []
        for _ in range(self.repeat):
            plain.append(by_parallel(self.program, images, workers))
            fleet.append(by_fleet(self.program, images, workers, self.room / "fleet"))
            shutil.rmtree(self.room / "fleet")
        cells = [str(count), str(workers)]
        for one in (best(plain), best(fleet)):
            cells += [f"{one.seconds:.1f}", f"{one.processor:.1f}", f"{count / one.seconds:.1f}"]
        print_row(cells)
        self.rates[workers] = (time.monotonic() - began) / count
        self.an_image = best(fleet).processor / count

    def measure_engine(self, count: int) -> None:
        """What a flight costs that holds next to nothing, and one that is there already."""
        image = self.room / "tiny.img"
        image.write_bytes(damaged_images.whole_image())
        names = [self.room / f"tiny_{number}.img" for number in range(count)]
        for name in names:
            os.link(image, name)
        started = by_fleet(self.program, names[:1], 1, self.room / "one", T1)
        print_row(["tiny flights by 1 worker", "ms a flight", "processor: ms a flight", "of the client and its scheduler"])
        print_row(["---", "---:", "---:", "---:"])
        for what in ("read", "there already"):
            one = by_fleet(self.program, names, 1, self.room / "tiny", T1)
            cost = [1000 * (a - b) / (count - 1) for a, b in zip(one, started)]
            print_row([f"{count}, {what}", *(f"{ms:.1f}" for ms in cost)])
            self.a_flight = max(self.a_flight, cost[-1] / 1000)
        print(f"\na run of one: {started.seconds:.1f} s, {started.processor:.1f} of the processor\n")

    def would_take(self, count: int, workers: int) -> float:
        """How many seconds a row of images takes, by what others took; 0 where nothing is known."""
        known = [rate * other / workers for other, rate in self.rates.items()]
        return self.repeat * count * self.rates.get(workers, max(known, default=0.0))

    def paper(self) -> None:
        """What a cluster of 100 workers reads in a day by these figures, and what bounds it."""
        bounds = {
            f"{CLUSTER} workers, {self.an_image:.2f} s of a processor an image": CLUSTER / self.an_image if self.an_image else 0,
            "10 Gbit/s from where the images are": NETWORK / self.size if self.size else 0,
            f"the client and its scheduler, {1000 * self.a_flight:.1f} ms of a processor a flight": 1 / self.a_flight if self.a_flight > 0 else 0,
        }
        print_row(["bound", "images a second", "millions a day"])
        print_row(["---", "---:", "---:"])
        for name, rate in bounds.items():
            if rate:
                print_row([name, f"{rate:.0f}", f"{rate * DAY / 1e6:.1f}"])


class Step(NamedTuple):
    """A step, and the seconds that it would take, as far as that is known."""

    run: Callable[[], None]
    would_take: Callable[[], float]


def steps_of(bench: Bench, counts: list[int], workers: list[int], tiny: int) -> dict[str, Step]:
    """The steps by their names, the quick ones first."""
    steps = {TINY: Step(partial(bench.measure_engine, tiny), float)}
    for count in sorted(counts):
        for number in sorted(workers, reverse=True):
            name = f"{count} images by {number} worker{'s' * (number > 1)}"
            steps[name] = Step(partial(bench.measure_images, count, number), partial(bench.would_take, count, number))
    return steps


def run(bench: Bench, steps: dict[str, Step]) -> None:
    """Runs the steps for which there is time, and names the others."""
    for name, step in steps.items():
        seconds = step.would_take()
        if time.monotonic() + seconds > bench.end:
            print(f"left out: {name}, of some {seconds:.0f} s; --only {name!r} runs it", file=sys.stderr)
            continue
        print(f"{time.strftime('%H:%M:%S')}, load {os.getloadavg()[0]:.1f}: {name}", file=sys.stderr)
        step.run()
        sys.stdout.flush()
    print()
    bench.paper()


def main() -> int:
    words = argparse.ArgumentParser(description=(__doc__ or "").splitlines()[0])
    words.add_argument("program", metavar="FDR", type=pathlib.Path)
    words.add_argument("--images", type=int, nargs="*", default=[64, 512])
    words.add_argument("--workers", type=int, nargs="*", default=[1, 2, 4])
    words.add_argument("--tiny", type=int, default=500)
    words.add_argument("--repeat", type=int, default=1)
    words.add_argument("--different", type=int, default=16, help="how many different images there are, of 35 MB of memory each")
    words.add_argument("--minutes", type=float, default=10)
    words.add_argument("--only", default="", help="the steps with this in their names")
    words.add_argument("--steps", action="store_true", help="name the steps, and run none")
    given = words.parse_args()
    program = str(given.program.resolve())
    with tempfile.TemporaryDirectory(prefix="fleet-", dir=MEMORY) as folder:
        bench = Bench(program, pathlib.Path(folder), given.repeat, given.different, time.monotonic() + 60 * given.minutes)
        steps = {name: step for name, step in steps_of(bench, given.images, given.workers, given.tiny).items() if given.only in name}
        if given.steps or not steps:
            print("\n".join(steps) or f"no step has {given.only!r} in its name")
            return 0 if steps else 1
        print(f"{os.cpu_count()} processors, load {os.getloadavg()[0]:.1f}, {given.different} different images\n")
        run(bench, steps)
        print(f"\nload {os.getloadavg()[0]:.1f}")
    return 0


if __name__ == "__main__":
    sys.exit(main())
