#!/usr/bin/env python3
"""Ends recordings at random moments, and looks at what the image holds then.

    tests/crashes.py PROGRAM [--runs N] [--seed S] [--table FILE]

A run starts `PROGRAM record` on an image, feeds it a trace through a pipe, and kills it by SIGKILL after a random number
of acknowledgements and a random while; some runs are let end by themselves. Then the image is read here, by its slots
alone, and must hold:

- the last blocks of all that was recorded so far, with no number left out, each byte for byte as `PROGRAM stream` gives
  the stream of the trace, cut into blocks, whose numbers go on over the recordings, and with the session of its recording;
- at least as many as the ring promises, which is its slots less two, or all that were recorded;
- each block that was acknowledged, unless the ring promises it no longer, and at most one more.

`PROGRAM recover` must write these blocks and answer 0. The next run records on what is left. After some runs a new image
is made, of other sizes. A kill ends the program between two of its calls of the system and loses nothing that was
written, so this shows in which order it writes, acknowledges and begins again; it isn't a cut of the power.

It prints counts, and ends with 1 where something differs. Then the image is kept, and its place is told.
"""

import argparse
import pathlib
import random
import shutil
import subprocess
import sys
import tempfile

sys.dont_write_bytecode = True

from inputs import TOP
from places import Mismatch
from recordings import Image, kill_after, next_by, record, trace_of

RUNS_OF_AN_IMAGE = 20


def record_and_look(image: Image, chance: random.Random, pace: dict[str, float], counts: dict[str, int]) -> None:
    """One run, and what the image holds after it. The first one is let end, to learn the program's pace."""
    trace = trace_of(chance, chance.randrange(1, 80))
    coming = image.blocks_of(trace)
    first = len(image.blocks)
    is_killed = bool(pace) and chance.random() < 0.9
    count = max(0, chance.randrange(-5, min(40, len(coming)) + 1)) if is_killed else None
    # It is killed within the two blocks that follow, or about when it starts.
    pause = chance.random() * (pace["start"] * 1.5 if count == 0 else pace["block"] * 2) if is_killed else 0
    acts = [(count, kill_after(pause))] if is_killed else []
    status, told, others, times = record([image.program, "record", image.table, image.path], trace, acts)
    if status not in (0, -9) or status == -9 and not is_killed:
        raise Mismatch(f"record ended with {status}")
    if others:
        raise Mismatch(f"record said {others}")
    if told != list(range(first, first + len(told))):
        raise Mismatch(f"acknowledged were {told}, and {first} was the next number")
    if status == 0 and told != list(range(first, first + len(coming) + 1)):
        raise Mismatch(f"acknowledged were {len(told)} numbers of a whole recording of {len(coming)} blocks")
    every = image.blocks + coming
    added = image.look(every, *next_by(told, first, len(every))) - first
    if not is_killed:
        pace["start"] = times[1] - times[0]
        pace["block"] = (times[-1] - times[1]) / len(coming)
    counts["killed" if status == -9 else "ended by themselves"] += 1
    counts["killed before the first acknowledgement"] += status == -9 and not told
    counts["killed with a block recorded and not yet acknowledged"] += bool(told) and first + added > told[-1]
    counts["killed amid the recording"] += status == -9 and 0 < added < len(coming)
    counts["blocks recorded"] += added
    counts["blocks acknowledged"] += max(0, len(told) - 1)


def main() -> int:
    words = argparse.ArgumentParser(description=__doc__.splitlines()[0])
    words.add_argument("program")
    words.add_argument("--runs", type=int, default=200)
    words.add_argument("--seed", type=int, default=None, help="of the random choices; the moments differ all the same")
    words.add_argument("--table", default=TOP / "examples" / "t1.csv")
    given = words.parse_args()
    seed = given.seed if given.seed is not None else random.randrange(1 << 32)
    chance = random.Random(seed)
    program = pathlib.Path(given.program).resolve()
    names = ["killed", "killed before the first acknowledgement", "killed amid the recording"]
    names += ["killed with a block recorded and not yet acknowledged", "ended by themselves"]
    names += ["blocks recorded", "blocks acknowledged"]
    counts = dict.fromkeys(names, 0)
    pace: dict[str, float] = {}
    room = pathlib.Path(tempfile.mkdtemp(prefix="fdr_crashes_"))
    print(f"seed {seed}")
    run, slots, payload = 0, 0, 0
    try:
        for run in range(given.runs):
            if run % RUNS_OF_AN_IMAGE == 0:
                slots, payload = chance.choice([4, 5, 8, 31, 128]), chance.choice([64, 65, 100, 512])
                image = Image(program, given.table, room / "flight.img", slots, payload)
            record_and_look(image, chance, pace, counts)
    except (Mismatch, subprocess.TimeoutExpired) as error:
        print(f"run {run}, {slots} slots of {payload}: {error}")
        print(f"the image is in {room}")
        return 1
    for name, count in counts.items():
        print(f"{count:8} {name}")
    print(f"{given.runs:8} runs, after each of which the image held what was promised")
    shutil.rmtree(room)
    return 0


if __name__ == "__main__":
    sys.exit(main())
