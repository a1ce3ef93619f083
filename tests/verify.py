#!/usr/bin/env python3
"""Runs all that the gate leaves out, on the built programs, and writes a dated table of what came out into docs/TESTS.md.

    tests/verify.py FDR FDRPAIR [--only WORD]

Each part is a script of its own, and is run after the other. What it prints is kept in out/verify/. A part that lacks what
it needs says so, and so does the end of this one: what wasn't run, and for want of what. It ends with 1 where a part fails.
With --only it runs the parts with this in their names, and writes no table.
"""

import argparse
import datetime
import os
import pathlib
import platform
import re
import shutil
import subprocess
import sys
import time
from collections.abc import Iterator
from dataclasses import dataclass

sys.dont_write_bytecode = True

from inputs import TOP

PAGE = TOP / "docs" / "TESTS.md"
LOGS = TOP / "out" / "verify"
BEGIN, END = "<!-- written by make verify -->", "<!-- end -->"
WANTS = re.compile(r"^(?:skipped|tools-test)(?: +.*)?: (?:not run: |pages weren't opened in a browser: )?(.*)$", re.M)


@dataclass(frozen=True)
class Part:
    """A script: its name, its words, what it needs on the path, and what of its output is its count."""

    name: str
    words: list[str]
    counts: str
    needs: tuple[str, ...] = ()


@dataclass(frozen=True)
class Outcome:
    """What came of a part: its count, whether it went well, what it lacked, and its seconds."""

    part: Part
    count: str
    is_well: bool
    lacks: list[str]
    seconds: float


def parts(fdr: str, pair: str) -> Iterator[Part]:
    """All parts, the quick ones first."""
    yield Part("images of examples/", ["examples/make_images.py", "--check"], r"^(images: .*)$")
    yield Part("cases by a second reader", ["tests/cases.py"], r"^cases: (.*)$")
    yield Part("`make streams`", ["tests/streams.sh", fdr], r"^(closed streams: .*)$")
    yield Part("`make walk`", ["tests/walk.py", fdr, pair], r"^walk: (.*)$")
    yield Part("calls of the system", ["tests/calls.py", fdr, pair, "--check"], r"^(\d+ runs: .*)$", ("strace",))
    yield Part("instructions", ["bench/count.py", fdr, pair, "--check"], r"^(\d+ counts: .*)$", ("valgrind",))
    yield Part("`make laws`", ["tests/laws.py", fdr, pair], r"^(\d+ laws, .*)$")
    yield Part("`make compare`", ["tests/compare.py", "--program", fdr], r"^all +(.*)$")
    yield Part("`make crash-test`", ["tests/crashes.py", fdr], r"^ *(\d+ killed|\d+ runs)(?:$|,)")
    yield Part("`make crash-test`, two disks", ["tests/pair.py", pair, fdr, "--kills"], r"^ *(\d+ killed|\d+ runs)(?:$|,)")
    yield Part("`make live-test`", ["tests/live_kills.py", fdr, pair], r"^ *(\d+ kills of both|\d+ sessions listed)$", ("cc",))
    yield Part("`make power-test`", ["tests/power.py", fdr, pair], r"^(\d+ works: .*)$")
    yield Part("`make check-real`", ["tests/files.py", fdr], r"^(\d+ cases, .*|\d+ skipped)$")
    yield Part("`make check-real`, two disks", ["tests/pair.py", pair, fdr, "--cases"], r"^(\d+ cases, .*|\d+ skipped)$", ("strace",))
    yield Part("`make check-memory`", ["tests/memory.py", fdr, pair], r"^([\d,]+ runs, .*)$", ("cc",))
    yield Part("`make fail-io`", ["tests/fail_io.py", fdr, pair], r"^([\d,]+ runs\b.*)$", ("cc",))
    yield Part("`make fleet-test`", ["tests/fleet.py", fdr], r"^(\d+ cases of fleets): ")
    yield Part("`make drawn-dumps`", ["tests/drawn_dumps.py"], r"^(\d+ dumps and .* wrong)")
    yield Part("`make undamaged`", ["tests/flight/undamaged.py", "1000000"], r"^(\d+ undamaged frames) in .*marked$")
    yield Part("`make wrong-bodies`", ["tests/wrong_bodies.py"], r"^wrong bodies: (\d+ of \d+ refused)$", ("rt",))
    yield Part("`make demo`", ["make", "demo"], r"^(cases=\d+ .*no-answer=\d+)", ("rt",))
    yield Part("`make tools-test`", ["tests/flight/run"], r"^(.*\bpassed\b.*) in ")


def run(part: Part, fdr: str) -> Outcome:
    """Runs a part, and keeps what it prints. The tests of the tools take the program from FDR."""
    lacks = [f"{need} isn't there" for need in part.needs if not shutil.which(need)]
    if lacks:
        return Outcome(part, "not run", True, lacks, 0.0)
    begin = time.monotonic()
    log = LOGS / (re.sub(r"\W+", "_", part.name).strip("_") + ".log")
    with open(log, "w") as file:
        ended = subprocess.run(part.words, cwd=TOP, env={**os.environ, "FDR": fdr}, stdout=file, stderr=subprocess.STDOUT, check=False)
    said = log.read_text(errors="replace")
    found = re.findall(part.counts, said, re.M)
    lacks = sorted(set(WANTS.findall(said)))
    is_well = ended.returncode == 0 and bool(found or lacks)
    count = "; ".join(found) or ("not run" if is_well else f"ended with {ended.returncode}")
    return Outcome(part, count, is_well, lacks, time.monotonic() - begin)


def machine() -> str:
    """The machine, and who runs this."""
    info = pathlib.Path("/proc/cpuinfo").read_text().splitlines()
    kind = next((line.split(":")[1].strip() for line in info if line.startswith("model name")), platform.machine())
    return f"{os.cpu_count()} processors, {kind}; {platform.system()} {platform.release()}; {'root' if os.geteuid() == 0 else 'not root'}"


def rows(outcomes: list[Outcome]) -> Iterator[str]:
    """The table, with the day and the machine before it and what wasn't run behind it."""
    yield f"**Seen on {datetime.date.today()}** ({machine()}):"
    yield ""
    yield "| part | what came out | seconds |"
    yield "|---|---|---:|"
    for one in outcomes:
        yield f"| {one.part.name} | {'' if one.is_well else 'FAILED: '}{one.count} | {one.seconds:,.0f} |"
    yield ""
    wants = [f"{one.part.name}: {want}" for one in outcomes for want in one.lacks]
    yield f"Not run: {'; '.join(wants) or 'nothing'}."


def write(lines: list[str]) -> None:
    """Puts the table between its marks."""
    before, _, rest = PAGE.read_text().partition(BEGIN)
    _, _, after = rest.partition(END)
    if not after:
        sys.exit(f"docs/TESTS.md has no {BEGIN} and {END}")
    PAGE.write_text("\n".join([before + BEGIN, "", *lines, "", END]) + after)


def main() -> int:
    words = argparse.ArgumentParser(description=__doc__.splitlines()[0])
    words.add_argument("fdr", type=pathlib.Path)
    words.add_argument("fdrpair", type=pathlib.Path)
    words.add_argument("--only", default="", help="the parts with this in their names")
    given = words.parse_args()
    LOGS.mkdir(parents=True, exist_ok=True)
    outcomes = []
    fdr, pair = str(given.fdr.resolve()), str(given.fdrpair.resolve())
    for part in parts(fdr, pair):
        if given.only in part.name:
            outcomes.append(run(part, fdr))
            one = outcomes[-1]
            print(f"{'ok' if one.is_well else 'FAILED':7}{one.seconds:6.0f} s  {part.name}: {one.count}", flush=True)
    lines = list(rows(outcomes))
    if not given.only:
        write(lines)
    print(lines[-1])
    return 0 if all(one.is_well for one in outcomes) else 1


if __name__ == "__main__":
    sys.exit(main())
