#!/usr/bin/env python3
"""Has each call on a file or a stream of each case fail in turn, and looks at what the programs answer.

    tests/fail_io.py FDR FDRPAIR [--only WORD] [--built]

The cases are those of examples/cases, each other command, and recordings in two images. First the built programs are run: each
case once to count its calls, and then once for each open, look, lock, read, write, sync, cut and removal that fails, and for
each read or write of several bytes that moves one, is interrupted, or finds the end of an image. The calls are counted by
fail.c, which `cc` compiles and which is loaded before the C library. Then the trial build of the kit is run, which looks for
wrong accesses and sums too: `rt try` with --fail-io, --short-io and --fail-alloc for each call in turn, where the kit has them.
Where it takes one number alone after --fail-alloc, some allocations are refused, each in all cases of one build. With --built
the trial build is left out.

An answer has to be that of a fault (the table, the input, the output or the disk), with the line before it that says why, or
the usual one with the same output and files. Where one byte was moved, or a call was interrupted, it has to be the usual one.
A refused allocation has to be answered by status 12 without output, or as usual. A recording in two images goes on with one,
and says so; what they hold then is looked at by tests/pair_faults.py.

It prints a table of counts, and a line for each answer that is neither, and ends with 0 where there is none.
"""

import argparse
import contextlib
import os
import pathlib
import re
import shutil
import struct
import subprocess
import sys
import tempfile
from collections.abc import Iterable, Iterator
from concurrent import futures
from dataclasses import dataclass

sys.dont_write_bytecode = True

from inputs import TOP
from memory import LIMIT, Answer, Files, Programs, Work, pair_works, stored_works

SOURCE = TOP / "tests" / "fail.c"
# calls, those of several bytes, the one that fails, and the ones that move one byte, are interrupted, or find the end
NUMBERS = struct.Struct("=6Q")
WAYS = ("moves one byte", "is interrupted", "finds the end")
FAILED = ": input/output error"  # what is said of a call that failed; where an image ended early none did
OF_FAULTS = {"fdr": (8, 9, 10), "fdrpair": (8, 10, 18)}
ALLOC = "--fail-alloc"
KINDS = ("--fail-io", "--short-io", ALLOC)
ALLOCATIONS = (1, 4, 16, 64, 256)  # that are refused where the kit takes one number
NO_MEMORY = 12
OLDER = "this kit is older"
CASE = re.compile(r"^case=(?P<name>\S+) run=(?P<run>\S+)(?: status=(?P<status>\d+))? .*$", re.M)
NO_OUTPUT = ', found ""\n'
MOST_TRIED = 400  # calls of a work


@dataclass(frozen=True)
class Ended:
    """What a run answered and left, and how many calls it made, of several bytes too."""

    answer: Answer
    files: Files
    calls: int
    long_calls: int


def run(programs: Programs, library: pathlib.Path, work: Work, failing: int = 0, way: str = "", number: int = 0) -> Ended:
    """Runs a work in a folder of its own, in which one call fails, or one of several bytes goes another way."""
    with tempfile.TemporaryDirectory(prefix="fdr_fail_io_") as top:
        room, numbers, given = (pathlib.Path(top) / name for name in ("room", "numbers", "given"))
        room.mkdir()
        for name, data in work.files.items():
            (room / name).write_bytes(data)
        numbers.write_bytes(NUMBERS.pack(0, 0, failing, *(number if way == one else 0 for one in WAYS)))
        given.write_bytes(work.given)
        environ = {**os.environ, "LD_PRELOAD": str(library), "FAILING": str(numbers)}
        with open(given, "rb") as source:
            words = [str(programs[work.program]), *work.words]
            ended = subprocess.run(words, stdin=source, capture_output=True, cwd=room, env=environ, timeout=LIMIT)
        calls, long_calls, *_ = NUMBERS.unpack(numbers.read_bytes())
        files = {path.name: path.read_bytes() for path in room.iterdir()}
        return Ended((ended.returncode, ended.stdout, ended.stderr), files, calls, long_calls)


def kind_of(ended: Ended, usual: Ended, work: Work, cause: str) -> str:
    """What a run answered: as usual, a fault with a line of this cause, or something else."""
    if ended.answer[0] in OF_FAULTS[work.program] or b"fault " in ended.answer[2] and work.program == "fdrpair":
        lines = ended.answer[2].decode().splitlines()
        is_told = any(line.startswith(f"{work.program}: ") and line.endswith(cause) for line in lines)
        return "as usual" if ended.answer == usual.answer else "fault" if is_told else "another"
    return "as usual" if ended.answer[:2] == usual.answer[:2] and ended.files == usual.files else "another"


def numbers_of(count: int) -> Iterable[int]:
    """Which calls are tried: all, or as many between as may be."""
    return sorted({1 + at * (count - 1) // max(1, min(count, MOST_TRIED) - 1) for at in range(min(count, MOST_TRIED))})


def tried(programs: Programs, works: list[Work]) -> tuple[int, int, dict[str, int]]:
    """Tries the works on the built programs, and answers how many runs there were, how many gave another answer, and the status
    that each work ends with, by its name as a case."""
    count, wrong, statuses = 0, 0, {}
    print("| work | status | calls | one fails: fault | as usual | one byte moved, interrupted: as usual | an early end: fault, as usual |")
    print("|---|---:|---:|---:|---:|---:|---:|")
    with tempfile.TemporaryDirectory(prefix="fdr_fail_io_") as top, futures.ThreadPoolExecutor(os.cpu_count()) as pool:
        library = pathlib.Path(top) / "fail.so"
        subprocess.run(["cc", "-shared", "-fPIC", "-O1", "-o", library, SOURCE], check=True)
        for work in works:
            usual = run(programs, library, work)
            statuses[work.name.replace(" ", "_")] = usual.answer[0]
            failing = [(f"call {number} fails", pool.submit(run, programs, library, work, number)) for number in numbers_of(usual.calls)]
            others = [
                (f"call {number} {way}", pool.submit(run, programs, library, work, 0, way, number)) for way in WAYS for number in numbers_of(usual.long_calls)
            ]
            causes = {what: "" if what.endswith(WAYS[2]) else FAILED for what, _ in failing + others}
            kinds = [(what, kind_of(one.result(), usual, work, causes[what]), one.result()) for what, one in failing + others]
            count += len(kinds)
            for what, kind, ended in kinds:
                if kind == "another" or kind == "fault" and what.endswith(WAYS[:2]):
                    wrong += 1
                    print(f"{work.name}, {what}: status {ended.answer[0]}, {ended.answer[2][-200:]!r}")
            told = [sum(kind == wanted and what.endswith("fails") for what, kind, _ in kinds) for wanted in ("fault", "as usual")]
            told.append(sum(kind == "as usual" and what.endswith(WAYS[:2]) for what, kind, _ in kinds))
            told.append(sum(kind != "another" and what.endswith(WAYS[2]) for what, kind, _ in kinds))
            print(f"| {work.name} | {usual.answer[0]} | {usual.calls} | {' | '.join(map(str, told))} |", flush=True)
    return count, wrong, statuses


@dataclass
class Found:
    """What was found with the trial build: how many runs there were, what is wrong, and what the kit lacks."""

    runs: int = 0
    wrong: int = 0
    lacking: tuple[str, ...] = ()

    def tell(self, fault: str) -> None:
        """Prints what is wrong."""
        self.wrong += 1
        print(fault, flush=True)


@contextlib.contextmanager
def laid(works: list[Work]) -> Iterator[tuple[pathlib.Path, list[str]]]:
    """A folder with works as cases of the kit, and the words that name the files which they find, which are the same for all."""
    with tempfile.TemporaryDirectory(prefix="fdr_fail_io_") as top:
        cases, files = (pathlib.Path(top) / name for name in ("cases", "files"))
        cases.mkdir()
        files.mkdir()
        for work in works:
            case = cases / work.name.replace(" ", "_")
            case.write_bytes(work.given)
            case.with_suffix(".args").write_text("".join(f"{word}\n" for word in work.words))
            case.with_suffix(".stdout").write_bytes(work.output or b"")
        for name, held in works[0].files.items():
            (files / name).write_bytes(held)
        yield cases, [word for name in works[0].files for word in ("--data", f"{name}={files / name}")]


def rt_try(words: list[str], given: bytes = b"") -> subprocess.CompletedProcess[bytes]:
    """Runs the trial build of the program."""
    return subprocess.run(["rt", "try", *words], cwd=TOP / "crates" / "fdr_prog", input=given, capture_output=True)


def each_in_turn(works: list[Work], found: Found) -> None:
    """Has each call and allocation of the works fail in turn, where the kit does so."""
    with laid(works) as (_, data):
        for kind in KINDS:
            for work in works:
                ended = rt_try([kind, "1..", *data, "--", *work.words], work.given)
                said = ended.stderr.decode("utf-8", "replace")
                if OLDER in said:
                    found.lacking += (kind,)
                    break
                calls = re.search(r"^calls=(\d+) ", said, re.M)
                found.runs += int(calls.group(1)) if calls else 0
                lines = re.findall(r"^call=.*$", said, re.M)
                if not lines and ended.returncode:
                    lines = [f"rt try ended with {ended.returncode}: {said[-200:]!r}"]
                for line in lines:
                    found.tell(f"{work.name}, {kind}: {line}")


def one_allocation(works: list[Work], usual: dict[str, int], found: Found) -> None:
    """Refuses some allocations, each in all works; `usual` is the status that each work ends with."""
    print("| allocation that is refused | status 12, no output | as usual |\n|---|---:|---:|")
    with laid(works) as (cases, data):
        for number in ALLOCATIONS:
            said = rt_try([ALLOC, str(number), "--cases", str(cases), *data]).stderr.decode("utf-8", "replace")
            if OLDER in said:
                print("skipped: `rt try` of this kit refuses no allocation of several cases")
                return
            counts, end = {"no memory": 0, "as usual": 0}, 0
            for case in CASE.finditer(said):
                told, end = said[end : case.end()], case.end()
                kind = kind_of_case(case, told, usual[case["name"]])
                found.runs += 1
                if kind in counts:
                    counts[kind] += 1
                else:
                    found.tell(f"{case['name']}, {ALLOC} {number}: {told[-400:]!r}")
            looked_at = len(CASE.findall(said))
            if looked_at < len(works):
                found.tell(f"{ALLOC} {number}: rt try looked at {looked_at} of {len(works)} works: {said[-200:]!r}")
            print(f"| {number} | {' | '.join(map(str, counts.values()))} |", flush=True)


def kind_of_case(case: re.Match[str], told: str, usual: int) -> str:
    """What a case answered of which an allocation was refused."""
    is_expected = " output=expected " in case[0]
    if case["run"] == "ended" and int(case["status"]) == NO_MEMORY and (is_expected or NO_OUTPUT in told):
        return "no memory"
    return "as usual" if case["run"] == "ended" and int(case["status"]) == usual and is_expected else "another"


def by_kit(works: list[Work], usual: dict[str, int]) -> Found:
    """Tries the cases of examples/ with the trial build of the kit, and tells what it finds, and what it lacks."""
    found = Found()
    if not works:
        return found
    if not shutil.which("rt"):
        print("skipped: there is no rt")
        return found
    each_in_turn(works, found)
    if found.lacking:
        print(f"skipped: `rt try` of this kit has no {' and no '.join(found.lacking)} for each call in turn")
    if ALLOC in found.lacking:
        one_allocation(works, usual, found)
    return found


def main() -> int:
    words = argparse.ArgumentParser(description=__doc__.splitlines()[0])
    words.add_argument("fdr", type=pathlib.Path)
    words.add_argument("fdrpair", type=pathlib.Path)
    words.add_argument("--only", default="", help="the works with this in their names")
    words.add_argument("--built", action="store_true", help="try the built programs alone")
    given = words.parse_args()
    if not shutil.which("cc"):
        print("skipped: there is no C compiler")
        return 0
    programs = {"fdr": given.fdr.resolve(), "fdrpair": given.fdrpair.resolve()}
    stored = [work for work in stored_works() if given.only in work.name]
    count, wrong, usual = tried(programs, stored + [work for work in pair_works() if given.only in work.name])
    found = by_kit([] if given.built else stored, usual)
    print(f"{count:,} runs and {found.runs:,} of the trial build, {wrong + found.wrong} answers that are another")
    return 1 if wrong + found.wrong else 0


if __name__ == "__main__":
    sys.exit(main())
