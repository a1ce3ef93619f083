#!/usr/bin/env python3
"""Measures how long a recording takes from its start to its first acknowledgement, on full images that the system's memory
doesn't have, and how many reads it makes.

    bench/start.py FDR FDRPAIR [--folder FOLDER] [--slow MB]

With --slow the disk is read at so many MB a second at most, as a memory card is, by the system's control groups, which takes root.
It prints a row for each image, and takes about 600 MB in FOLDER, which is on the disk that is measured.
"""

import argparse
import contextlib
import os
import pathlib
import statistics
import subprocess
import sys
import tempfile
import time
from collections.abc import Iterator, Sequence
from typing import NamedTuple

sys.dont_write_bytecode = True
sys.path.append(str(pathlib.Path(__file__).resolve().parent.parent / "tests"))

from formats import HEAD, head_of, header_of, Shape
from inputs import T1

PAYLOAD = 4096
SLOTS = (8448, 65536)
RUNS = 3
GROUPS = pathlib.Path("/sys/fs/cgroup/blkio")


class Start(NamedTuple):
    """A start: the seconds to the first acknowledgement, and the reads until then."""

    seconds: float
    reads: int


def write_full_image(path: pathlib.Path, slots: int) -> None:
    """An image whose slots all have a block but one, as it stands once its ring went round."""
    block = bytes(PAYLOAD)
    with path.open("wb") as image:
        image.write(header_of(Shape(slots, PAYLOAD, 64)))
        for slot in range(slots - 1):
            image.write(head_of(slots + slot, PAYLOAD) + block)
        image.write(bytes(HEAD.size) + block)


def let_go(path: pathlib.Path) -> None:
    """Makes a file durable, and has the system let go of its pages."""
    with path.open("rb") as file:
        os.fsync(file.fileno())
        os.posix_fadvise(file.fileno(), 0, 0, os.POSIX_FADV_DONTNEED)


def start(words: Sequence[str | pathlib.Path], is_slow: bool) -> Start:
    """Starts a recording, waits for its first acknowledgement, and ends it."""
    began = time.perf_counter()
    run = subprocess.Popen(words, stdin=subprocess.PIPE, stderr=subprocess.PIPE, preexec_fn=join_group if is_slow else None)
    assert run.stdin and run.stderr
    line = run.stderr.readline()
    seconds = time.perf_counter() - began
    counts = dict(line.split(": ") for line in pathlib.Path(f"/proc/{run.pid}/io").read_text().splitlines())
    run.kill()
    run.wait()
    run.stdin.close()
    if not line.startswith(b"ack "):
        raise SystemExit(f"start: {line.decode().strip()}")
    return Start(seconds, int(counts["syscr"]))


def join_group() -> None:
    (GROUPS / "fdr_start" / "tasks").write_text(str(os.getpid()))


@contextlib.contextmanager
def slowed(folder: pathlib.Path, megabytes: int) -> Iterator[None]:
    """A group whose processes read the folder's disk no faster."""
    group, device = GROUPS / "fdr_start", os.stat(folder).st_dev
    group.mkdir(exist_ok=True)
    (group / "blkio.throttle.read_bps_device").write_text(f"{os.major(device)}:{os.minor(device)} {megabytes * 1_000_000}")
    try:
        yield
    finally:
        group.rmdir()


def rows(programs: Sequence[pathlib.Path], folder: pathlib.Path, is_slow: bool) -> Iterator[str]:
    table, images = folder / "t1.csv", [folder / "a.img", folder / "b.img"]
    table.write_bytes(T1)
    for slots in SLOTS:
        for image in images:
            write_full_image(image, slots)
        for count, program in enumerate(programs, 1):
            words: list[str | pathlib.Path] = [program, "record", table, *images[:count]]
            for is_cold in (False, True):
                if is_slow and not is_cold:
                    continue
                starts = []
                for _ in range(RUNS):
                    for image in images:
                        let_go(image) if is_cold else image.read_bytes()
                    starts.append(start(words, is_slow))
                seconds = statistics.median(it.seconds for it in starts)
                yield f"| {slots:,} | {count} | {'no' if is_cold else 'yes'} | {seconds:.2f} | {starts[0].reads:,} | {starts[0].reads / slots / count:.2f} |"


def main() -> None:
    words = argparse.ArgumentParser(description=__doc__.splitlines()[0])
    words.add_argument("fdr", type=pathlib.Path)
    words.add_argument("fdrpair", type=pathlib.Path)
    words.add_argument("--folder", type=pathlib.Path, default=pathlib.Path.cwd())
    words.add_argument("--slow", type=int, default=0, metavar="MB", help="how many MB a second the disk gives at most")
    given = words.parse_args()
    programs = [given.fdr.resolve(), given.fdrpair.resolve()]
    print("| slots | images | in memory | seconds to the first `ack` | reads | reads a slot and image |\n|---:|---:|---|---:|---:|---:|")
    with tempfile.TemporaryDirectory(dir=given.folder) as room:
        with slowed(pathlib.Path(room), given.slow) if given.slow else contextlib.nullcontext():
            for row in rows(programs, pathlib.Path(room), bool(given.slow)):
                print(row, flush=True)


if __name__ == "__main__":
    main()
