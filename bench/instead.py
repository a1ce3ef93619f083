#!/usr/bin/python3
"""Measures what a user would take in place of `fdr listbits` and `fdr exceed`: a reader in plain Python, numpy, and pandas.

    bench/instead.py [FDR] [--size MB] [--slots N] [--runs N]

The frames are whole, one after another, by the ordinary table. What numpy does here needs that: it searches no frame, sees no
damage and joins no parts beyond a superframe. Its values are compared with those of `fdr listbits`. The rules are 256 for
changes, and pandas is given the values as arrays. Seconds are those of the processor, and medians; those of Python are without
its start and its imports. It takes Debian's python3-numpy and python3-pandas.
"""

import argparse
import pathlib
import random
import statistics
import sys
import tempfile
import time
from collections.abc import Callable

import numpy as np
import pandas as pd
from numpy.typing import NDArray

TOP = pathlib.Path(__file__).resolve().parent.parent
sys.dont_write_bytecode = True
sys.path.insert(0, str(TOP / "tests"))

import reader
from commands import Table, change_rules, frames, write_full_image
from formats import Shape, size_of_slot
from inputs import ORDINARY
from runs import PAYLOAD, print_row, run

SEED = 717
RULES = 256
WINDOWS = (2, 1024)  # rows
READ = 1_000_000  # bytes that the reader in Python is given at most


def middle(work: Callable[[], object], runs: int) -> float:
    """The seconds of the processor that a work in this process takes."""
    taken = []
    for _ in range(runs):
        began = time.process_time()
        work()
        taken.append(time.process_time() - began)
    return statistics.median(taken)


def columns_of(table: reader.Table, line: bytes) -> dict[str, NDArray[np.int64]]:
    """The values of each parameter in whole superframes, in units of its last decimal: a row a superframe, a column a sample."""
    bytes_of_two = np.frombuffer(line, np.uint8).reshape(-1, 3).astype(np.uint16)
    low, middle_byte, high = bytes_of_two.T
    words = np.stack([low | (middle_byte & 15) << 8, middle_byte >> 4 | high << 4], axis=1).reshape(-1, 64 * table.words).astype(np.int64)
    columns = {}
    for param, samples in table.samples.items():
        raw = np.stack([sum((words[:, it.slot] >> it.lsb - 1 & (1 << it.width) - 1) * it.weight for it in sample.pieces) for sample in samples], axis=1)
        if param.sign == "S":
            raw = raw - (raw >> param.width - 1 << param.width)
        columns[param.name.decode()] = param.offset + raw * param.num // param.den
    return columns


def text_of(columns: dict[str, NDArray[np.int64]]) -> str:
    """The values as text, a row each, with the parameter and the number of the superframe."""
    return "".join(
        pd.DataFrame({"name": name, "superframe": np.repeat(np.arange(len(values)), values.shape[1]), "value": values.ravel()}).to_csv(index=False)
        for name, values in columns.items()
    )


def values_in(listing: str, table: reader.Table) -> dict[str, list[int]]:
    """The values of a listing, in units of the last decimal."""
    values: dict[str, list[int]] = {name.decode(): [] for name in table.params}
    for row in listing.splitlines():
        if row.startswith("row,"):
            _, _, _, _, name, value = row.split(",")
            values[name].append(int(value.replace(".", "")))
    return values


def look_for_changes(columns: dict[str, NDArray[np.int64]], window: int) -> int:
    """How many rows end a change that no value makes, by 256 rules in turns over the parameters."""
    found, names = 0, list(columns)
    for number in range(RULES):
        values = pd.Series(columns[names[number % len(names)]].ravel())
        rolling = values.rolling(window, min_periods=1)
        found += int(((values - rolling.min() >= 10**15) | (rolling.max() - values >= 10**15)).sum())
    return found


def compare(fdr: pathlib.Path, size: int, slots: int, runs: int) -> None:
    chance = random.Random(SEED)
    table = reader.table_of(ORDINARY)
    line, frame = frames(Table(ORDINARY), chance)
    line = (line * (size // len(line) + 1))[: size // (16 * frame) * 16 * frame]
    with tempfile.TemporaryDirectory(dir="/dev/shm") as folder:
        room = pathlib.Path(folder)
        (room / "ordinary.csv").write_bytes(ORDINARY)
        (room / "line").write_bytes(line)
        write_full_image(room / "full.img", line, slots)
        listbits = [fdr, "listbits", room / "ordinary.csv"]
        run(listbits, room / "line", room / "listing")
        columns = columns_of(table, line)
        listed = values_in((room / "listing").read_text(), table)
        if any(columns[name].ravel().tolist() != values for name, values in listed.items()):
            sys.exit("the values of numpy aren't those of the listing")
        program = statistics.median(run(listbits, room / "line").processor for _ in range(runs))
        print_row(["work", "bytes", "`fdr`, seconds", "what else", "seconds", "MB a second"])
        print_row(["---", "---:", "---:", "---", "---:", "---:"])
        part = line[: READ // frame * frame]
        for what, given, work in (
            ("the reader in Python", part, lambda: reader.listbits(ORDINARY, part)),
            ("numpy: the values", line, lambda: columns_of(table, line)),
            ("numpy, and pandas: the values as text", line, lambda: text_of(columns_of(table, line))),
        ):
            seconds = middle(work, 1 if given is part else runs)
            print_row(["listbits", f"{len(given):,}", f"{program * len(given) / len(line):.3f}", what, f"{seconds:.3f}", f"{len(given) / 1e6 / seconds:.1f}"])
        size_of_image = size_of_slot(Shape(slots, PAYLOAD, 256)) * slots
        for window in WINDOWS:
            (room / "rules").write_bytes(change_rules(RULES, window))
            words = [fdr, "exceed", room / "ordinary.csv", room / "full.img"]
            program_rules = statistics.median(run(words, room / "rules").processor for _ in range(runs))
            seconds = middle(lambda: look_for_changes(columns, window), 1)
            what = f"pandas: {RULES} rules of {window:,} rows over the values alone"
            print_row(["exceed", f"{size_of_image:,}", f"{program_rules:.3f}", what, f"{seconds:.3f}", ""])


def main() -> None:
    words = argparse.ArgumentParser(description=__doc__.splitlines()[0])
    words.add_argument("fdr", nargs="?", type=pathlib.Path, default=TOP / "bin" / "fdr")
    words.add_argument("--size", type=int, default=35, help="MB of bits")
    words.add_argument("--slots", type=int, default=8448)
    words.add_argument("--runs", type=int, default=5)
    given = words.parse_args()
    compare(given.fdr.resolve(), given.size * 1_000_000, given.slots, given.runs)


if __name__ == "__main__":
    main()
