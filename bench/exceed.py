#!/usr/bin/env python3
"""Runs `fdr exceed` and the plain program of exceed_peer.c in turns over the same rows and rules, and compares their outputs.

    bench/exceed.py [FDR] [--runs N] [--slots N]

The image is a full one of the ordinary table, and the rules are 256 of each kind. The peer is given the rows themselves, which
`fdr list` wrote: it reads no image. So of the seconds of `fdr exceed` those of one rule are taken away, and what is left is
shown for a row and a rule of its parameter. All seconds are those of the processor, and medians.
"""

import argparse
import pathlib
import random
import statistics
import struct
import subprocess
import sys
import tempfile

TOP = pathlib.Path(__file__).resolve().parent.parent
sys.dont_write_bytecode = True
sys.path.insert(0, str(TOP / "tests"))

from commands import Table, frames, write_full_image
from inputs import ORDINARY
from runs import print_row, run

END = 2**32 - 1
LETTERS = {"above": "a", "below": "b", "change": "c"}
RULES = [("above", 1), ("above", 3), ("below", 1), ("change", 2), ("change", 1024)]
SEED = 717


def names_and_decimals() -> list[tuple[str, int]]:
    rows = [row.split(",") for row in ORDINARY.decode().splitlines() if row.startswith("P")]
    return [(row[1], int(row[11])) for row in rows]


def rows_of(listing: str) -> tuple[bytes, list[int]]:
    """The rows of a listing as the peer reads them, and how many there are of each parameter."""
    number = {name: (place, decimals) for place, (name, decimals) in enumerate(names_and_decimals())}
    rows, counts = bytearray(), [0] * len(number)
    for line in listing.splitlines():
        word, *fields = line.split(",")
        if word == "row":
            place, decimals = number[fields[3]]
            value = int(fields[4].replace(".", "")) if decimals else int(fields[4])
            rows += struct.pack("=IIIIq", *map(int, fields[:3]), place, value)
            counts[place] += 1
        elif rows:
            rows += struct.pack("=IIIIq", 0, 0, 0, END, 0)
    return bytes(rows + struct.pack("=IIIIq", 0, 0, 0, END, 0)), counts


def rules_of(kind: str, count: int, rules: int, limit: int) -> tuple[str, str]:
    """Rules in turns over the parameters, as `fdr exceed` reads them and as the peer does."""
    names = names_and_decimals()
    ours, theirs = "", ""
    for number in range(rules):
        place = number % len(names)
        ours += f"RULE{number},{names[place][0]},{kind},{limit},{count}\n"
        theirs += f"RULE{number} {place} {LETTERS[kind]} {limit} {count} {names[place][1]}\n"
    return ours, theirs


def main() -> None:
    parser = argparse.ArgumentParser(description=(__doc__ or "").splitlines()[0])
    parser.add_argument("fdr", nargs="?", type=pathlib.Path, default=TOP / "bin" / "fdr")
    parser.add_argument("--runs", type=int, default=15)
    parser.add_argument("--slots", type=int, default=8448)
    given = parser.parse_args()
    with tempfile.TemporaryDirectory() as name:
        room = pathlib.Path(name)
        table, image, rows, peer = room / "ordinary.csv", room / "full.img", room / "rows", room / "peer"
        table.write_bytes(ORDINARY)
        line, _ = frames(Table(ORDINARY), random.Random(SEED))
        write_full_image(image, line, given.slots)
        subprocess.run(["cc", "-O2", "-o", peer, TOP / "bench" / "exceed_peer.c"], check=True)
        listing = subprocess.run([given.fdr, "list", table, image], check=True, capture_output=True, text=True).stdout
        content, counts = rows_of(listing)
        rows.write_bytes(content)
        print_row(["rules", "rows and rules", "fdr (s)", "one rule (s)", "peer (s)", "fdr (ns)", "peer (ns)", "times"])
        print_row(["---"] * 8)
        for kind, count in RULES:
            limit = -(10**15) if kind == "below" else 10**15
            for which, rules in (("many", 256), ("one", 1)):
                ours, theirs = rules_of(kind, count, rules, limit)
                (room / f"{which}.ours").write_text(ours)
                (room / f"{which}.theirs").write_text(theirs)
            pairs = sum(counts[number % len(counts)] for number in range(256))
            seconds: list[list[float]] = [[], [], []]
            for _ in range(given.runs):
                seconds[0].append(run([given.fdr, "exceed", table, image], room / "many.ours", room / "out").processor)
                seconds[1].append(run([given.fdr, "exceed", table, image], room / "one.ours").processor)
                seconds[2].append(run([peer, rows, room / "many.theirs"], written=room / "other").processor)
                if (room / "out").read_bytes() != (room / "other").read_bytes():
                    sys.exit(f"{kind} {count}: the outputs differ")
            many, one, plain = [statistics.median(each) for each in seconds]
            ours_each, theirs_each = 1e9 * (many - one) / pairs, 1e9 * plain / pairs
            cells = [f"256 {kind}, {count}", f"{pairs:,}", f"{many:.3f}", f"{one:.3f}", f"{plain:.3f}"]
            print_row([*cells, f"{ours_each:.1f}", f"{theirs_each:.1f}", f"{ours_each / theirs_each:.1f}"])


if __name__ == "__main__":
    main()
