"""Which works tests/power.py does on which set-ups, and what is expected of each."""

import pathlib
from collections.abc import Iterator, Mapping

import power_faults as faults
from power_system import Setup
from power_works import RINGS, SMALL_RINGS, Work, making, on_one_disk, on_two_disks

LARGE_RINGS = [(6, 4096), (8, 512), (5, 4000)]
CUTS_OF_A_ROUND = 600
CUTS_OF_A_FAULT = 40
LEAST_ROUNDS = 6
WITH_FAULTS = ("ext4", "xfs", "btrfs")
HIDES = {"nothing done": True, "a sync alone": True, "the line of dd": False, "mounted anew": False}


def works_on(setup: Setup, programs: Mapping[str, pathlib.Path], library: pathlib.Path, cuts: int) -> Iterator[Work]:
    """What is done on a set-up, where each work is cut so often."""
    rings = SMALL_RINGS if setup.small else RINGS
    rounds = max(1, cuts // CUTS_OF_A_ROUND)
    yield Work("one disk", 1, programs, on_one_disk(rings, rounds), None if setup.breaks and not setup.small else setup.breaks)
    if setup.kind == "ext4" and setup.breaks is not False:
        yield Work("images made and removed", 1, programs, making(rings, 40), setup.breaks, least=2500)
    if not setup.breaks:
        yield Work("two disks", 2, programs, on_two_disks(rings, rounds), setup.breaks)
    if setup.name in WITH_FAULTS:
        yield from works_with_faults(setup, programs, max(LEAST_ROUNDS, cuts // CUTS_OF_A_FAULT))
    if setup.name == "ext4":
        for how, told in (("all", "no sync is made"), ("other", "each other sync is made"), ("early", "a write goes before the sync that it waits for")):
            yield Work(f"unsafe: {told}", 1, programs, on_one_disk(LARGE_RINGS), True, {"LD_PRELOAD": str(library), "POWER_DROP": how}, 1000)


def works_with_faults(setup: Setup, programs: Mapping[str, pathlib.Path], rounds: int) -> Iterator[Work]:
    """A disk that fails, and what is done before the program is run again."""
    for name, between in faults.BETWEEN.items():
        hides = None if HIDES[name] else False
        yield Work(f"record after a fault, {name}", 1, programs, faults.on_one(faults.of_record, between, rounds), hides)
        yield Work(f"upgrade after a fault, {name}", 1, programs, faults.on_one(faults.of_upgrade, between, rounds), hides)
        yield Work(f"two disks after a fault of one, {name}", 2, programs, faults.on_two(between, rounds // 2), hides)
    for name in ("the line of dd", "mounted anew"):
        yield Work(f"record after a flush that lost, {name}", 1, programs, faults.on_one(faults.of_record, faults.BETWEEN[name], rounds, True), False)
