#!/usr/bin/env python3
"""Counts the instructions that the built programs take, by callgrind, and compares them with the stored counts.

    bench/count.py [FDR FDRPAIR]            prints the counts beside the stored ones, and stores them
    bench/count.py [FDR FDRPAIR] --check    prints them, and ends with 1 where one is more than 3 percent dearer than stored

The programs are those of bin/ where none are given. The counts are of the built programs, which are proved and optimised;
those of a trial build are others. The inputs are made here, with a fixed seed and without the programs: they are those of
bench/commands.py, but shorter.

A count isn't a time: it is the same from run to run, so it shows a percent. There are two of each work. Its own are the
instructions of the program's file alone, and are compared on each machine. All are those of the system's loader and of the C
library too, which move bytes and differ from library to library: they are compared where the library is the one of the
stored counts, which is asked not to choose its calls by the processor.
"""

import argparse
import csv
import os
import pathlib
import platform
import random
import re
import shutil
import subprocess
import sys
import tempfile
from collections.abc import Iterator, Mapping
from dataclasses import dataclass
from typing import NamedTuple

TOP = pathlib.Path(__file__).resolve().parent.parent
sys.dont_write_bytecode = True
sys.path.insert(0, str(TOP / "tests"))

from commands import Table, change_rules, frames, levels_again_and_again, write_again_and_again, write_full_image, write_trace
from formats import CLOSED, HEADER, Shape, empty_image, size_of_slot
from inputs import ORDINARY, T1
from runs import PAYLOAD, print_row

STORED = TOP / "bench" / "counts.csv"
SEED = 717
MOST_DEARER = 3.0  # percent
SLOTS = 1024
SIZE = 6_000_000  # bytes of a line of bits
SECONDS = 4 * 3600  # of a trace
DRILLED = 1000  # frames
RULES = 16
WINDOW = 64  # rows
PLAIN = "glibc.cpu.hwcaps=-AVX2,-AVX512F,-ERMS,-FSRM,-AVX_Fast_Unaligned_Load,-Prefer_No_VZEROUPPER"


@dataclass(frozen=True)
class Counted:
    """A work: the program, its words, its input, and the images without blocks that it finds."""

    name: str
    program: str
    words: list[str]
    given: str = os.devnull
    images: tuple[str, ...] = ()


WORKS = [
    Counted("record", "fdr", ["record", "ordinary.csv", "a.img"], "trace", ("a.img",)),
    Counted("stream", "fdr", ["stream", "ordinary.csv"], "trace"),
    Counted("listbits, t1", "fdr", ["listbits", "t1.csv"], "t1.bits"),
    Counted("listbits, ordinary", "fdr", ["listbits", "ordinary.csv"], "ordinary.bits"),
    Counted("listbits, noise", "fdr", ["listbits", "ordinary.csv"], "noise"),
    Counted("list", "fdr", ["list", "ordinary.csv", "full.img"]),
    Counted("salvage", "fdr", ["salvage", "ordinary.csv", "damaged.img"]),
    Counted("exceed", "fdr", ["exceed", "ordinary.csv", "full.img"], "rules"),
    Counted("encode", "fdr", ["encode"], "ordinary.bits"),
    Counted("decode", "fdr", ["decode"], "levels"),
    Counted("drill", "fdr", ["drill", "ordinary.csv", "a.img", "--seed", "7", "--frames", str(DRILLED)], images=("a.img",)),
    Counted("fdrpair", "fdrpair", ["record", "ordinary.csv", "a.img", "b.img"], "trace", ("a.img", "b.img")),
]


# --- the inputs


def damaged(image: bytes) -> bytes:
    """The image with each fifth slot closed, so that it has many runs."""
    made = bytearray(image)
    size = size_of_slot(Shape(SLOTS, PAYLOAD, 256))
    for slot in range(0, SLOTS, 5):
        made[HEADER.size + slot * size] = CLOSED
    return bytes(made)


def make_inputs(room: pathlib.Path) -> None:
    """Makes all that the works read in a folder."""
    chance = random.Random(SEED)
    for name, text in (("t1", T1), ("ordinary", ORDINARY)):
        (room / f"{name}.csv").write_bytes(text)
        line, frame = frames(Table(text), chance)
        write_again_and_again(room / f"{name}.bits", line, SIZE // frame * frame)
        if name == "ordinary":
            write_full_image(room / "full.img", line, SLOTS)
            (room / "levels").write_bytes(levels_again_and_again(line[: SIZE // 6]))
    (room / "damaged.img").write_bytes(damaged((room / "full.img").read_bytes()))
    (room / "noise").write_bytes(chance.randbytes(SIZE))
    (room / "rules").write_bytes(change_rules(RULES, WINDOW))
    write_trace(room / "trace", Table(ORDINARY), SECONDS, chance)


# --- the counts


class Count(NamedTuple):
    """The instructions of a work: of the program's file alone, and all."""

    own: int
    whole: int


def instructions_in(profile: str, program: pathlib.Path) -> Count:
    """The instructions by a profile of callgrind. A line after one of `calls=` has what the calls took, which is counted there."""
    names: dict[str, str] = {}
    own = whole = 0
    is_own = is_of_calls = False
    for line in profile.splitlines():
        place = re.match(r"(c?)ob=(\(\d+\))(?: (.*))?", line)
        cost = re.match(r"[+*-]?\d* (\d+)$", line)
        if place:
            names.setdefault(place[2], place[3] or "")
            is_own = is_own if place[1] else names[place[2]] == str(program)
        elif cost and not is_of_calls:
            whole += int(cost[1])
            own += int(cost[1]) * is_own
        is_of_calls = line.startswith("calls=")
    return Count(own, whole)


def count_of(work: Counted, programs: Mapping[str, pathlib.Path], room: pathlib.Path) -> Count:
    """The instructions that a work takes."""
    for image in work.images:
        (room / image).write_bytes(empty_image(SLOTS, PAYLOAD, 256))
    profile = room / "profile"
    words = ["valgrind", "--tool=callgrind", f"--callgrind-out-file={profile}", "--quiet", str(programs[work.program]), *work.words]
    environ = {"PATH": os.environ.get("PATH", os.defpath), "GLIBC_TUNABLES": PLAIN}
    with open(room / work.given, "rb") as given:
        ended = subprocess.run(words, cwd=room, env=environ, stdin=given, stdout=subprocess.DEVNULL, stderr=subprocess.DEVNULL, check=False)
    if ended.returncode != 0:
        sys.exit(f"{work.name} ended with {ended.returncode}")
    said = profile.read_text()
    count = instructions_in(said, programs[work.program])
    if f"totals: {count.whole}" not in said or not count.own:
        sys.exit(f"{work.name}: callgrind says another count than {count.whole}")
    return count


def library() -> str:
    """The C library."""
    return " ".join(platform.libc_ver())


def stored_counts() -> tuple[str, dict[str, Count]]:
    """The C library of the stored counts, and these, by the names of the works."""
    if not STORED.is_file():
        return "", {}
    with open(STORED, newline="") as file:
        rows = list(csv.DictReader(file))
    return rows[0]["library"], {row["work"]: Count(int(row["own"]), int(row["all"])) for row in rows}


def store(counts: Mapping[str, Count]) -> None:
    with open(STORED, "w", newline="") as file:
        writer = csv.writer(file, lineterminator="\n")
        writer.writerow(["work", "own", "all", "library"])
        writer.writerows([name, *count, library()] for name, count in counts.items())


def percent(now: int, stored: int) -> float:
    """By how many percent a count is dearer than it was stored."""
    return 100 * (now / stored - 1)


def counted(programs: Mapping[str, pathlib.Path], stored: Mapping[str, Count]) -> dict[str, Count]:
    """The counts of all works, each printed as it comes."""
    counts: dict[str, Count] = {}
    print_row(["work", "own instructions", "percent", "all instructions", "percent"])
    print_row(["---"] + ["---:"] * 4)
    with tempfile.TemporaryDirectory(prefix="fdr_count_") as folder:
        room = pathlib.Path(folder)
        make_inputs(room)
        for work in WORKS:
            counts[work.name] = count = count_of(work, programs, room)
            before = stored.get(work.name)
            told = [f"{percent(now, old):+.2f}" for now, old in zip(count, before)] if before else ["-", "-"]
            print_row([work.name, f"{count.own:,}", told[0], f"{count.whole:,}", told[1]])
            sys.stdout.flush()
    return counts


def faults_in(counts: Mapping[str, Count], stored: Mapping[str, Count], is_same_library: bool) -> Iterator[str]:
    """Which works are too dear, or aren't in both."""
    for name in sorted(counts.keys() ^ stored.keys()):
        yield f"{name} is {'not stored' if name in counts else 'not counted'}"
    for name in [name for name in counts if name in stored]:
        now, old = counts[name], stored[name]
        if percent(now.own, old.own) > MOST_DEARER:
            yield f"{name} is {percent(now.own, old.own):.1f} percent dearer"
        elif is_same_library and percent(now.whole, old.whole) > MOST_DEARER:
            yield f"{name} is {percent(now.whole, old.whole):.1f} percent dearer with the C library"


def main() -> int:
    words = argparse.ArgumentParser(description=__doc__.splitlines()[0])
    words.add_argument("fdr", type=pathlib.Path, nargs="?", default=TOP / "bin" / "fdr")
    words.add_argument("fdrpair", type=pathlib.Path, nargs="?", default=TOP / "bin" / "fdrpair")
    words.add_argument("--check", action="store_true", help="compare them, and store nothing")
    given = words.parse_args()
    if not shutil.which("valgrind"):
        print("skipped: there is no valgrind")
        return 0
    of_library, stored = stored_counts()
    counts = counted({"fdr": given.fdr.resolve(), "fdrpair": given.fdrpair.resolve()}, stored)
    if not given.check:
        store(counts)
        return 0
    is_same = of_library == library()
    faults = list(faults_in(counts, stored, is_same))
    beside = "" if is_same else f", of their own instructions alone, since this is {library()} and they are stored of {of_library}"
    print("\n".join(faults) or f"{len(counts)} counts: none is more than {MOST_DEARER:g} percent dearer{beside}")
    return 1 if faults else 0


if __name__ == "__main__":
    sys.exit(main())
