#!/usr/bin/env python3
"""Cuts the power below real file systems while the programs record on them, and looks at what their images hold then.

    tests/power.py FDR FDRPAIR [--cuts N] [--seed S] [--only WORD] [--keep FOLDER]
    tests/power.py --again FOLDER

The disks are files of power_disk.c, a small file system of the user's (FUSE), below loop devices: each write and each flush
is put into a log, and so is each acknowledgement, in one order. On each of the set-ups of power_system.py the programs make
images, record in them, upgrade one and record on two disks, while others write beside them. Then for many places of the log
the disk is built as a cut of the power there may leave it (power_log.py): what was flushed stands, and of the later writes
none, all, some, in another order, cut at sectors. The system mounts it, which puts the file system in order by its own
means, and the images are read and compared with what power_model.py says that they have to hold there.

A violation is kept in a folder with its log and its cut, and --again builds, mounts and judges that one once more.
It needs root, loop devices, FUSE, a C compiler and the programs that make the file systems, and says what it leaves out for
want of what. It ends with 1 where there is a violation in a set-up of which none is expected, or none in one that breaks what
is asked of a file system.
"""

import argparse
import collections
import dataclasses
import json
import os
import pathlib
import random
import re
import shutil
import signal
import subprocess
import sys
import time
from collections.abc import Iterator, Mapping, Sequence

sys.dont_write_bytecode = True

import power_waits
from inputs import TOP
from places import Mismatch, begin_apart
from power_log import Cut, Entry, Part, Stretch, Surface, drawn_cut, entries_of, stretches_of, sure_cuts
from power_model import Run, Timeline, fault_of_answers, stored, timelines_of
from power_system import FAST, SETUPS, After, Held, Setup, disks_of, lacks, lacks_for
from power_plan import works_on
from power_works import Work

KEPT = TOP / "out" / "power"
MOST_KEPT = 3


@dataclasses.dataclass
class Found:
    """What came of the cuts of one log."""

    cuts: int = 0
    images: int = 0
    repairs: int = 0
    seconds: float = 0.0
    violations: list[tuple[int, Cut, str]] = dataclasses.field(default_factory=list)
    first: float = 0.0
    kinds: collections.Counter[str] = dataclasses.field(default_factory=collections.Counter)


def setup_named(name: str) -> Setup:
    return next(setup for setup in SETUPS if setup.name == name)


class Looking:
    """The cuts of one disk of a log."""

    def __init__(self, setup: Setup, entries: Sequence[Entry], runs: Sequence[Run], disk: int, found: Found) -> None:
        self.setup, self.entries, self.disk, self.found = setup, entries, disk, found
        self.lines: dict[str, Timeline] = {name: line for (of, name), line in timelines_of(entries, runs).items() if of == disk}
        self.surface = Surface(setup.size, FAST / f"fdr_power_{os.getpid()}.img", setup.sector)
        self.after = After(setup, self.surface.path)
        self.seen: dict[int, tuple[int, Held]] = {}

    def close(self) -> None:
        self.found.repairs += self.after.repairs
        self.after.close()
        self.surface.close()

    def left(self, cut: Cut) -> tuple[int, Held]:
        """What the mounted images hold after a cut. Each disk is mounted once, however often cuts leave the same bytes."""
        over = self.surface.over(self.entries, cut)
        key = self.surface.sum_with(over)
        if key not in self.seen:
            self.surface.build(over)
            self.seen[key] = self.after.files(list(self.lines))
            self.found.images += 1
        return self.seen[key]

    def fault(self, cut: Cut) -> str:
        """What is wrong after a cut, or nothing."""
        error, held = self.left(cut)
        if error:
            return f"the file system can't be mounted: {os.strerror(error)}"
        faults = ((name, line.at(cut.moment).fault(held[name])) for name, line in self.lines.items())
        return "; ".join(f"{name}: {fault}" for name, fault in faults if fault)

    def judge(self, cut: Cut, begin: float) -> None:
        self.found.cuts += 1
        if fault := self.fault(cut):
            if not self.found.violations:
                self.found.first = time.monotonic() - begin
            self.found.violations.append((self.disk, cut, fault))
            self.found.kinds[kind_of(fault)] += 1

    def go_to(self, wanted: Stretch | None, of_work: int) -> Iterator[Stretch]:
        """The stretches from the first mark on, each with the durable bytes as they are at its beginning."""
        for stretch in stretches_of(self.entries, self.disk):
            if stretch.last >= of_work and (wanted is None or stretch == wanted):
                yield stretch
            if stretch.settles:
                self.surface.settle(self.entries[place] for place in stretch.pending)


def kind_of(fault: str) -> str:
    """A violation without its numbers."""
    return "".join("#" if letter.isdigit() else letter for letter in fault)


def cuts_of(share: float, stretch: Stretch, entries: Sequence[Entry], setup: Setup, chance: random.Random) -> Iterator[Cut]:
    """The cuts of a stretch, of which there are about so many: those at its ends first, and then drawn ones."""
    sure = list(sure_cuts(stretch))
    if chance.random() < share / len(sure):
        yield from sure
    drawn = share - len(sure) if stretch.pending else 0
    for _ in range(int(drawn) + (chance.random() < drawn % 1) if drawn > 0 else 0):
        yield drawn_cut(entries, stretch, setup.sector, chance)


def look(folder: pathlib.Path, cuts: int, chance: random.Random) -> Found:
    """Tries so many cuts of the log in a folder."""
    held, runs = stored(folder)
    setup = setup_named(held["setup"])
    entries = entries_of(folder / "log")
    first = next(place for place, entry in enumerate(entries) if entry.kind == "m")
    found, begin = Found(), time.monotonic()
    for disk in range(held["disks"]):
        count = sum(bool(stretch.pending) for stretch in stretches_of(entries, disk) if stretch.last >= first)
        looking = Looking(setup, entries, runs, disk, found)
        try:
            for stretch in looking.go_to(None, first):
                for cut in cuts_of(cuts / held["disks"] / count, stretch, entries, setup, chance):
                    looking.judge(cut, begin)
        finally:
            looking.close()
    found.seconds = time.monotonic() - begin
    return found


# --- what is kept, and looked at again


def keep(folder: pathlib.Path, found: Found, kept: pathlib.Path) -> None:
    """Keeps the log and the first violations."""
    shutil.rmtree(kept, ignore_errors=True)
    shutil.copytree(folder, kept)
    cuts = [{"disk": disk, "moment": cut.moment, "parts": cut.parts, "fault": fault} for disk, cut, fault in found.violations[:MOST_KEPT]]
    (kept / "cuts.json").write_text(json.dumps(cuts, indent=1) + "\n")


def cut_of(moment: int, parts: list[list[int | list[int] | None]]) -> Cut:
    """A cut as it was kept."""
    made = []
    for entry, sectors in parts:
        assert isinstance(entry, int) and not isinstance(sectors, int)
        made.append(Part(entry, None if sectors is None else tuple(sectors)))
    return Cut(moment, tuple(made))


def again(folder: pathlib.Path) -> int:
    """Builds, mounts and judges what was kept once more."""
    held, runs = stored(folder)
    setup = setup_named(held["setup"])
    entries = entries_of(folder / "log")
    wrong = 0
    for one in json.loads((folder / "cuts.json").read_text()):
        cut = cut_of(one["moment"], one["parts"])
        looking = Looking(setup, entries, runs, one["disk"], Found())
        try:
            wanted = next(stretch for stretch in reversed(list(stretches_of(entries, one["disk"]))) if stretch.first <= cut.moment)
            for _ in looking.go_to(wanted, 0):
                fault = looking.fault(cut)
                break
        finally:
            looking.close()
        print(f"disk{one['disk']}, after entry {cut.moment} of {len(entries)}, {len(cut.parts)} later writes stand: {fault or 'as it has to be'}")
        wrong += bool(fault)
    return 1 if wrong else 0


# --- a set-up


def record_log(setup: Setup, work: Work, folder: pathlib.Path, chance: random.Random) -> None:
    """Does a work on the disks of a set-up, and leaves its log in a folder."""
    folder.mkdir(parents=True)
    with disks_of(setup, folder / "log", work.disks) as disks:
        runs = work.do(disks, chance)
    if fault := fault_of_answers(entries_of(folder / "log"), runs):
        raise Mismatch(fault)
    told = {"setup": setup.name, "disks": work.disks, "work": work.name, "runs": [run.to_json() for run in runs]}
    (folder / "work.json").write_text(json.dumps(told) + "\n")


def try_one(setup: Setup, work: Work, cuts: int, seed: int, kept: pathlib.Path) -> Found:
    """One work on one set-up."""
    chance = random.Random(f"{seed} {setup.name} {work.name}")
    folder = FAST / f"fdr_power_{os.getpid()}"
    try:
        record_log(setup, work, folder, chance)
        found = look(folder, max(cuts, work.least), chance)
        if found.violations:
            keep(folder, found, kept)
    finally:
        shutil.rmtree(folder, ignore_errors=True)
    return found


def say(name: str, found: Found, is_expected: bool | None, kept: pathlib.Path) -> bool:
    """Tells what came of a work on a set-up, and whether it is as expected."""
    is_well = is_expected is None or bool(found.violations) == is_expected
    repaired = f" ({found.repairs} put in order first)" if found.repairs else ""
    counts = f"{found.cuts:,} cuts, {found.images:,} disks mounted{repaired}, {found.seconds:.0f} s, {len(found.violations):,} violations"
    print(f"{'ok' if is_well else 'FAILED':7}{name}: {counts}", flush=True)
    for kind, count in found.kinds.most_common(4):
        print(f"{count:14,} {kind}")
    if found.violations:
        print(f"{'':15}the first after {found.first:.1f} s; kept: tests/power.py --again {os.path.relpath(kept)}", flush=True)
    return is_well


@dataclasses.dataclass
class Total:
    """What came of all works so far."""

    works: int = 0
    cuts: int = 0
    images: int = 0
    wrong: int = 0

    def add(self, found: Found, is_well: bool) -> None:
        self.works += 1
        self.cuts += found.cuts
        self.images += found.images
        self.wrong += not is_well

    def __str__(self) -> str:
        told = "as expected" if not self.wrong else f"{self.wrong} not as expected"
        return f"{self.works} works: {self.cuts:,} cuts, {self.images:,} disks mounted, {told}"


def wait(name: str, programs: Mapping[str, pathlib.Path], pause: float) -> bool:
    """Tries slow disks and such, and tells what was seen."""
    log = FAST / f"fdr_power_{os.getpid()}.log"
    try:
        print(f"ok     ext4: {name}: {power_waits.try_one(name, programs, pause, log)}", flush=True)
        return True
    except Mismatch as fault:
        print(f"FAILED ext4: {name}: {fault}", flush=True)
        return False
    finally:
        log.unlink(missing_ok=True)


def dropping_library() -> pathlib.Path:
    """The library of power_drop.c."""
    KEPT.mkdir(parents=True, exist_ok=True)
    library = KEPT / "power_drop.so"
    subprocess.run(["cc", "-shared", "-fPIC", "-O1", "-o", library, TOP / "tests" / "power_drop.c"], check=True)
    return library


def main() -> int:
    words = argparse.ArgumentParser(description=__doc__.splitlines()[0])
    words.add_argument("fdr", type=pathlib.Path, nargs="?")
    words.add_argument("fdrpair", type=pathlib.Path, nargs="?")
    words.add_argument("--cuts", type=int, default=200, help="of each work on each set-up, about; 5000 take hours")
    words.add_argument("--seed", type=int, default=None, help="of the random choices; what the system does differs all the same")
    words.add_argument("--only", default="", help="the works in whose names, SET-UP: WORK, this is found, as a regular expression")
    words.add_argument("--hang", type=float, default=5, help="the seconds that a disk hangs")
    words.add_argument("--keep", type=pathlib.Path, default=KEPT, help="where violations are kept")
    words.add_argument("--again", type=pathlib.Path, help="a folder of kept violations")
    given = words.parse_args()
    if missing := lacks():
        print(f"skipped: not run: {', '.join(missing)} isn't there")
        return 0
    begin_apart()
    signal.signal(signal.SIGTERM, lambda *_: sys.exit("ended"))  # so that mounts and loop devices are taken away
    if given.again:
        return again(given.again)
    if not given.fdr or not given.fdrpair:
        words.error("the programs aren't given")
    seed = given.seed if given.seed is not None else random.randrange(1 << 32)
    print(f"seed {seed}")
    programs = {"fdr": given.fdr.resolve(), "fdrpair": given.fdrpair.resolve()}
    total = Total()
    for setup in SETUPS:
        for work in works_on(setup, programs, dropping_library(), given.cuts):
            name = f"{setup.name}: {work.name}"
            if not re.search(given.only, name):
                continue
            if missing := lacks_for(setup):
                print(f"skipped: {name}: not run: {', '.join(missing)} isn't there")
                continue
            kept = given.keep / re.sub(r"\W+", "_", name)
            try:
                found = try_one(setup, work, given.cuts, seed, kept)
                total.add(found, say(name, found, work.is_broken, kept))
            except Mismatch as fault:
                print(f"FAILED {name}: {fault}", flush=True)
                total.add(Found(), False)
    for name in power_waits.TRIALS:
        if re.search(given.only, f"ext4: {name}"):
            total.add(Found(), wait(name, programs, given.hang))
    print(total)
    return 1 if total.wrong else 0


if __name__ == "__main__":
    sys.exit(main())
