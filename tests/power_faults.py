"""What becomes of images on a disk that fails: a part of tests/power.py.

A write or a flush of the disk fails while a program is at work. Afterwards something is done with the image, or nothing, and
the program is run again on the running system.
"""

import errno
import subprocess
from collections.abc import Callable, Sequence

from places import Mismatch
from power_model import FAULT, Run
from power_works import Bench, Does

NOT_EMPTY, FAR_BEHIND = 5, 19
LET_GO = "of={} oflag=nocache conv=notrunc,nocreat,fdatasync count=0 status=none"
SYNC_ALONE = "of={} conv=notrunc,nocreat,fdatasync count=0 status=none"
Image = tuple[int, str]
Between = Callable[[Bench, Image], None]


def nothing(bench: Bench, image: Image) -> None:
    """The program is run again as it is."""


def by_dd(line: str) -> Between:
    """A line of `dd` is given first."""

    def between(bench: Bench, image: Image) -> None:
        words = [word.format(bench.path(image)) for word in line.split()]
        subprocess.run(["dd", *words], stderr=subprocess.DEVNULL, check=False)

    return between


def mounted_anew(bench: Bench, image: Image) -> None:
    """The file system is taken away and mounted again first."""
    bench.disks.mount_anew(image[0])


BETWEEN: dict[str, Between] = {
    "the line of dd": by_dd(LET_GO),
    "mounted anew": mounted_anew,
    "nothing done": nothing,
    "a sync alone": by_dd(SYNC_ALONE),
}


# --- the fault


def fail(bench: Bench, disk: int, flushes: int, is_lost: bool) -> None:
    """Has a call of a disk fail that comes soon, within so many flushes: once, some times or until it is mended."""
    kind = "flush" if is_lost else bench.chance.choice(["write", "write", "write", "flush"])
    before, after = bench.chance.randrange(flushes), bench.chance.choice([0, 0, 1])
    count, error = bench.chance.choice([1, 1, 2, 1_000_000]), bench.chance.choice([errno.EIO, errno.EIO, errno.ENOSPC])
    bench.disks.control(f"fail {disk} {kind} {after} {count} {error} {int(is_lost)} {before}")


def mend(bench: Bench) -> None:
    for disk in range(bench.disks.count):
        bench.disks.mend(disk)


def want(status: int, *among: int) -> int:
    if status not in among:
        raise Mismatch(f"a run on a disk that fails ended with {status}")
    return status


def again(bench: Bench, run: Run) -> None:
    """Makes a run after a fault, and where the file system has given up, once more after it was mounted anew."""
    if want(bench.run(run), 0, FAULT):
        for disk in {disk for disk, _ in run.images}:
            bench.disks.mount_anew(disk)
        bench.done(run)


def make_again(bench: Bench, made: Run) -> None:
    """Makes an image after `format` met a fault. What it couldn't take away on a file system that gave up is taken away first."""
    if want(bench.run(made), 0, NOT_EMPTY, FAULT):
        for image in made.images:
            bench.disks.mount_anew(image[0])
            bench.remove(image)
        bench.done(made)


def put_away(bench: Bench, images: Sequence[Image]) -> None:
    """Removes images, whose file systems are then mounted anew, so that the next round begins on a file system without a fault."""
    for image in images:
        bench.remove(image)
        bench.disks.mount_anew(image[0])


# --- the rounds


def of_record(bench: Bench, between: Between, image: Image, is_lost: bool) -> None:
    """A recording meets a fault, and two follow; in some rounds `format` meets it."""
    shape = bench.chance.choice([(8, 64), (6, 512), (5, 4096), (5, 4096)])
    made = Run("format", (image,), shape)
    if bench.chance.random() < 0.2:
        fail(bench, 0, 12, is_lost)
        status = want(bench.run(made), 0, FAULT)
        mend(bench)
        between(bench, image)
        if status:
            make_again(bench, made)
    else:
        bench.done(made)
    again(bench, bench.recording("record", [image], shape, shape[0] + 2))
    fail(bench, 0, 16, is_lost)
    want(bench.run(bench.recording("record", [image], shape, 7)), 0, FAULT)
    mend(bench)
    between(bench, image)
    again(bench, bench.recording("record", [image], shape, 3))


def write_beside(bench: Bench) -> None:
    """Writes another file of the first disk, and makes it durable; where the file system has given up, once it was mounted anew. The
    first sync of an upgrade is one of the folder too, so a fault in it may be one of the journal."""
    other = bench.disks.places[0] / "other"
    try:
        other.write_bytes(bench.chance.randbytes(3000))
        bench.sync_file(other)
    except OSError as error:
        if error.errno not in (errno.EROFS, errno.EIO):
            raise
        bench.disks.mount_anew(0)
        other.write_bytes(bench.chance.randbytes(3000))
        bench.sync_file(other)


def of_upgrade(bench: Bench, between: Between, image: Image, is_lost: bool) -> None:
    """An upgrade meets a fault, and is given again."""
    shape = bench.chance.choice([(8, 64), (5, 4096)])
    bench.put_old(image, shape)
    fail(bench, 0, 1, is_lost)
    status = want(bench.run(Run("upgrade", (image,))), 0, FAULT)
    mend(bench)
    if status:
        between(bench, image)
        again(bench, Run("upgrade", (image,)))
    # What others write and make durable is no help to it.
    for _ in range(3):
        write_beside(bench)


def of_pair(bench: Bench, between: Between, images: Sequence[Image], is_lost: bool) -> None:
    """One disk of two fails, the recording goes on with the other, and the next one is on both, where the failed one isn't
    too far behind."""
    shape = bench.chance.choice([(8, 64), (6, 512), (5, 4096)])
    for image in images:
        bench.done(Run("format", (image,), shape))
    bench.done(bench.recording("fdrpair", images, shape, shape[0] + 2))
    failing = bench.chance.randrange(2)
    fail(bench, failing, 12, is_lost)
    want(bench.run(bench.recording("fdrpair", images, shape, 4)), 0)
    mend(bench)
    between(bench, images[failing])
    want(bench.run(bench.recording("fdrpair", images, shape, 3)), 0, FAR_BEHIND)
    bench.disks.mount_anew(failing)
    want(bench.run(bench.recording("fdrpair", images, shape, 2)), 0, FAR_BEHIND)


def on_one(of: Callable[[Bench, Between, Image, bool], None], between: Between, rounds: int, is_lost: bool = False) -> Does:
    """So many rounds on one disk."""

    def do(bench: Bench) -> None:
        for number in range(rounds):
            image = (0, f"ring{number}.img")
            of(bench, between, image, is_lost)
            put_away(bench, [image])

    return do


def on_two(between: Between, rounds: int) -> Does:
    """So many rounds on two disks."""

    def do(bench: Bench) -> None:
        for number in range(rounds):
            images = [(0, f"ring{number}.img"), (1, f"ring{number}.img")]
            of_pair(bench, between, images, False)
            put_away(bench, images)

    return do
