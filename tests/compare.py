#!/usr/bin/env python3
"""Compares the built program with reader.py, which was written from docs/FORMATS.md alone.

    tests/compare.py [--program PATH] [--cases N] [--seed S] [--only COMMAND]

Both run on the cases of examples/, on a few large inputs, and on inputs that drawn.py draws. Compared are the
exit status, standard output and standard error, whole, and after the run each file of its folder, byte for byte; of the
cases of examples/ also the output that is stored there. Where one differs, either the page or one of the two is wrong.

It prints how many cases each command had, and with which statuses. Where some differ it makes them smaller as far as they
go on differing, keeps the smallest, with what both gave, says where, and ends with 1.
"""

from __future__ import annotations

import argparse
import collections
import functools
import pathlib
import random
import subprocess
import sys
import tempfile
from collections.abc import Callable, Iterator
from typing import NamedTuple

sys.dont_write_bytecode = True

import reader
from drawn import DRAWS, Case, large_cases
from inputs import TOP

LIMIT = 120.0  # seconds that a run has
MAX_TRIES = 100  # runs to make some bytes of a case smaller, in pieces of one kind
EXAMPLES = TOP / "examples"
MEMORY = pathlib.Path("/dev/shm")  # where it is there, runs have their folders in it, so that no sync waits for a disk
SHOWN = 400  # bytes of an answer
NO_ANSWER = -1
NO_TABLE, NO_IMAGE = b"fdr: table cannot be read\n", b"fdr: image: too small\n"


class Outcome(NamedTuple):
    """What a run gives, and the files of its folder afterwards."""

    status: int
    output: bytes
    errors: bytes
    files: dict[str, bytes]


def by_program(program: pathlib.Path, case: Case) -> Outcome:
    with tempfile.TemporaryDirectory(prefix="fdr_compare_", dir=MEMORY if MEMORY.is_dir() else None) as name:
        room = pathlib.Path(name)
        for path, data in case.files.items():
            (room / path).write_bytes(data)
        words: list[bytes] = [bytes(program), *case.words]
        try:
            run = subprocess.run(words, input=case.given, cwd=room, capture_output=True, timeout=LIMIT)
        except subprocess.TimeoutExpired:
            return Outcome(NO_ANSWER, b"", b"took too long", {})
        return Outcome(run.returncode, run.stdout, run.stderr, {path.name: path.read_bytes() for path in room.iterdir()})


def by_reader(case: Case) -> Outcome:
    try:
        answer = reader.answer_to(case.words, case.files, case.given)
    except Exception as error:  # a mistake of the reader's, which is shown as any other difference
        return Outcome(NO_ANSWER, b"", repr(error).encode(), {})
    files = dict(case.files)
    if answer.image is not None:
        files[reader.words_of(case.words).paths[-1]] = answer.image
    return Outcome(answer.status, answer.output, missing_file(case, answer.errors) + answer.errors, files)


def missing_file(case: Case, errors: bytes) -> bytes:
    """The line that says which file isn't there, before an answer for want of it."""
    if errors not in (NO_TABLE, NO_IMAGE):
        return b""
    paths = reader.words_of(case.words).paths
    path = paths[0] if errors == NO_TABLE else paths[-1]
    return b"" if path in case.files else f"fdr: {path}: no such file\n".encode()


# --- cases


def example_cases() -> Iterator[Case]:
    files = {path.name: path.read_bytes() for path in EXAMPLES.iterdir() if path.suffix in (".csv", ".img")}
    for path in sorted((EXAMPLES / "cases").glob("*.args")):
        yield Case(path.read_bytes().split(b"\n")[:-1], files, path.with_suffix("").read_bytes())


def stored_outputs() -> list[bytes]:
    return [path.with_suffix(".stdout").read_bytes() for path in sorted((EXAMPLES / "cases").glob("*.args"))]


def all_cases(seed: int, count: int, only: str | None) -> Iterator[tuple[str, Case]]:
    """What each case tries, and the case. Drawn case n is the same whichever others are tried."""
    if not only:
        yield from (("examples", case) for case in example_cases())
        yield from (("large inputs", case) for case in large_cases())
    names = [only] if only else list(DRAWS)
    for number in range(count):
        name = names[number % len(names)]
        yield name, DRAWS[name](random.Random(f"{seed} {name} {number // len(names)}"))


# --- what differs


def differs(program: pathlib.Path, case: Case) -> bool:
    return by_program(program, case) != by_reader(case)


def size_of(case: Case) -> int:
    return len(case.given) + sum(map(len, case.files.values()))


def lines_of(data: bytes) -> list[bytes]:
    return data.splitlines(keepends=True)


def records_of(data: bytes) -> list[bytes]:
    return [data[at : at + 16] for at in range(0, len(data), 16)]


def bytes_of(data: bytes) -> list[bytes]:
    return [data[at : at + 1] for at in range(len(data))]


class Shrinker:
    """Makes a case smaller, as far as both go on to differ."""

    def __init__(self, program: pathlib.Path, case: Case) -> None:
        self.program, self.case, self.tries = program, case, 0

    def takes(self, case: Case) -> bool:
        self.tries -= 1
        is_taken = self.tries >= 0 and differs(self.program, case)
        self.case = case if is_taken else self.case
        return is_taken

    def strike_out(self, pieces: list[bytes], with_data: Callable[[bytes], Case]) -> None:
        """Strikes out of the pieces of some bytes what it can, first many at a time and then fewer."""
        size, self.tries = 1 << max(0, len(pieces).bit_length() - 1), MAX_TRIES
        while size and self.tries > 0:
            at = 0
            while at < len(pieces):
                left = pieces[:at] + pieces[at + size :]
                if self.takes(with_data(b"".join(left))):
                    pieces = left
                else:
                    at += size
            size //= 2

    def shrunk(self) -> Case:
        for pieces_of in (lines_of, records_of, bytes_of):
            self.strike_out(pieces_of(self.case.given), lambda data: self.case._replace(given=data))
            for name, held in self.case.files.items():
                self.strike_out(pieces_of(held), functools.partial(self.with_file, name))
        return self.case

    def with_file(self, name: str, data: bytes) -> Case:
        """The case with other bytes in this file."""
        return self.case._replace(files=self.case.files | {name: data})


def keep(program: pathlib.Path, case: Case) -> pathlib.Path:
    """Puts a case and what both give into a new folder."""
    room = pathlib.Path(tempfile.mkdtemp(prefix="fdr_compare_"))
    outcomes = {"program": by_program(program, case), "reader": by_reader(case)}
    (room / "stdin").write_bytes(case.given)
    (room / "words").write_bytes(b"".join(word + b"\n" for word in case.words))
    for path, data in case.files.items():
        (room / path).write_bytes(data)
    for name, outcome in outcomes.items():
        (room / f"{name}.stdout").write_bytes(outcome.output)
        (room / f"{name}.stderr").write_bytes(outcome.errors)
        for path, data in outcome.files.items():
            if case.files.get(path) != data:
                (room / f"{name}.{path}").write_bytes(data)
    return room


def short(data: bytes) -> str:
    return repr(data) if len(data) <= SHOWN else f"{len(data)} bytes, {data[:SHOWN]!r}.."


def beside(first: bytes, second: bytes) -> str:
    """Two answers from a little before where they begin to differ."""
    same = next((at for at, pair in enumerate(zip(first, second)) if pair[0] != pair[1]), min(len(first), len(second)))
    front = max(0, same - 40)
    return f"differs from byte {same} on; from {front}:\n    program {short(first[front:])}\n    reader  {short(second[front:])}"


def show(program: pathlib.Path, case: Case) -> None:
    print("words:", " ".join(map(repr, case.words)))
    for name, data in {**case.files, "stdin": case.given}.items():
        print(f"{name}: {short(data)}")
    first, second = by_program(program, case), by_reader(case)
    print(f"status: program {first.status}, reader {second.status}")
    streams = {"stdout": (first.output, second.output), "stderr": (first.errors, second.errors)}
    for name in sorted(first.files.keys() | second.files.keys()):
        streams[name] = (first.files.get(name, b""), second.files.get(name, b""))
    for name, (one, other) in streams.items():
        if one != other:
            print(f"{name} {beside(one, other)}")


def tell(counts: dict[str, collections.Counter[int]], different: collections.Counter[str]) -> None:
    for name, statuses in counts.items():
        told = ", ".join(f"{count} with {status}" for status, count in sorted(statuses.items()))
        print(f"{name:13} {sum(statuses.values()):6} cases, {different[name]} differ: {told}")
    print(f"{'all':13} {sum(map(lambda it: sum(it.values()), counts.values())):6} cases, {sum(different.values())} differ")


def compare(program: pathlib.Path, seed: int, count: int, only: str | None) -> int:
    counts: dict[str, collections.Counter[int]] = collections.defaultdict(collections.Counter)
    different: dict[str, list[Case]] = collections.defaultdict(list)
    stored = iter(stored_outputs())
    for name, case in all_cases(seed, count, only):
        found = by_program(program, case)
        counts[name][found.status] += 1
        wanted = next(stored) if name == "examples" else found.output
        if found != by_reader(case) or found.output != wanted:
            different[name].append(case)
    tell(counts, collections.Counter({name: len(cases) for name, cases in different.items()}))
    for name, cases in different.items():
        case = Shrinker(program, min(cases, key=size_of)).shrunk()
        print(f"\n{name}: the smallest that differs is in {keep(program, case)}")
        show(program, case)
    return 1 if different else 0


def main() -> int:
    words = argparse.ArgumentParser(description=__doc__.splitlines()[0])
    words.add_argument("--program", type=pathlib.Path, default=TOP / "bin" / "fdr")
    words.add_argument("--cases", type=int, default=2200, help="drawn inputs")
    words.add_argument("--seed", type=int, default=None, help="of the drawn inputs; drawn itself where it isn't given")
    words.add_argument("--only", choices=DRAWS, help="draw the inputs of this command alone")
    given = words.parse_args()
    seed = given.seed if given.seed is not None else random.randrange(1 << 32)
    print(f"seed {seed}")
    return compare(given.program.resolve(), seed, given.cases, given.only)


if __name__ == "__main__":
    sys.exit(main())
