#!/usr/bin/env python3
"""Runs `fdrpair`: on real files and what goes wrong with them, with each call on a disk failing, and ended at random moments.

    tests/pair.py PROGRAM FDR [--runs N] [--seed S] [--cases] [--kills] [--seconds N] [--only WORD]

`--cases` tries the cases of pair_cases.py and pair_faults.py alone, and `--kills` kills recordings alone; without either it
does both. A case that needs what isn't there is skipped, and said to be.

A run starts `PROGRAM record` on two images, feeds it a trace through a pipe, and kills it by SIGKILL after a random number
of acknowledgements and a random while; some runs are let end by themselves. Then either image is read here, by its slots
alone, and must hold by itself what crashes.py wants of one image:

- the last blocks of all that was recorded so far, byte for byte as `FDR stream` gives them, each with its session;
- at least as many as the ring promises, or all that were recorded;
- each block that was acknowledged, unless the ring promises it no longer, and at most one more, which the second image
  never has before the first.

Where no number was acknowledged, the image that is behind holds at least its own blocks and the first of those that it
lacks. The next run records on what is left, and brings it up to the other. Before some runs the pair changes:

- one image is replaced by a copy of the other;
- one is left out, and `FDR record` goes on with the other alone; where that recorded more than the ring holds, the next
  run must say that the one left out is too far behind, and leave both as they are;
- one is made shorter while the recording goes on with the other, which must hold each acknowledged block. Then it is
  replaced.

It prints a line for each case and counts of the runs, and ends with 1 where something differs. Then the images are kept,
and their place is told.
"""

import argparse
import os
import pathlib
import random
import shutil
import subprocess
import sys
import tempfile

sys.dont_write_bytecode = True

from formats import next_number, recovered
from inputs import TOP
from pair_cases import all_cases
from pair_faults import fault_cases
from places import Mismatch, begin_apart, try_all
from recordings import Act, Image, Recorded, Recording, Words, kill_after, next_by, record, trace_of

RUNS_OF_A_PAIR = 20
BYTES_A_SECOND = 96  # of a stream by examples/t1.csv

COUNTS = [
    "killed",
    "killed before the first acknowledgement",
    "killed while an image was brought up",
    "killed amid the recording",
    "killed with a block on one image and not on the other",
    "killed with a block on both and not yet acknowledged",
    "ended by themselves",
    "an image was replaced by a copy",
    "an image was left out",
    "an image was too far behind",
    "an image was lost while the recording went on",
    "blocks recorded",
    "blocks acknowledged",
    "blocks brought up",
]


class Pair:
    """Two images that are recorded in together."""

    def __init__(self, program: pathlib.Path, fdr: pathlib.Path, table: pathlib.Path, room: pathlib.Path, slots: int, payload: int) -> None:
        self.program, self.table, self.slots, self.payload = program, table, slots, payload
        self.first, self.second = (Image(fdr, table, room / name, slots, payload) for name in ("first.img", "second.img"))
        self.words: Words = [program, "record", table, self.first.path, self.second.path]

    def name_of(self, image: Image) -> str:
        return "first" if image is self.first else "second"

    def other(self, image: Image) -> Image:
        return self.second if image is self.first else self.first

    def lead(self) -> Image:
        """The image with more blocks, the first one where both have as many."""
        return self.first if len(self.first.blocks) >= len(self.second.blocks) else self.second

    def replace(self, image: Image) -> None:
        """A copy of the other image takes the place of this one."""
        other = self.other(image)
        shutil.copyfile(other.path, image.path)
        image.blocks = list(other.blocks)

    def is_too_far(self) -> bool:
        """Whether the image that leads no longer has the next block of the other."""
        lead = self.lead()
        run = recovered(lead.path.read_bytes())
        return bool(run) and next_number(self.other(lead).path.read_bytes()) < run[0].number


# --- the pair changes


def record_alone(pair: Pair, chance: random.Random) -> None:
    """The image that leads is recorded in alone: up to more blocks than its ring has."""
    lead = pair.lead()
    blocks = chance.randrange(1, pair.slots * 5 // 4 + 1)
    trace = trace_of(chance, max(1, blocks * pair.payload // BYTES_A_SECOND))
    every = lead.blocks + lead.blocks_of(trace)
    ended = record([lead.program, "record", lead.table, lead.path], trace)
    if ended.status != 0 or ended.others:
        raise Mismatch(f"record of one image ended with {ended.status} and said {ended.others}")
    lead.look(every, len(every), len(every))


def want_refusal(pair: Pair, chance: random.Random) -> None:
    """The image that is too far behind is refused, and both are as they were. Then it is replaced."""
    behind = pair.other(pair.lead())
    before = [image.path.read_bytes() for image in (pair.first, pair.second)]
    ended = record(pair.words, trace_of(chance, 1))
    wanted = [f"fdrpair: {pair.name_of(behind)} image is too far behind"]
    if ended.status != 19 or ended.told or ended.others != wanted:
        raise Mismatch(f"ended with {ended.status}, acknowledged {ended.told} and said {ended.others}, and not {wanted}")
    if before != [image.path.read_bytes() for image in (pair.first, pair.second)]:
        raise Mismatch("an image was changed that is too far behind, or the other")
    pair.replace(behind)


def change(pair: Pair, chance: random.Random, counts: dict[str, int]) -> None:
    """What happens to the pair between two runs."""
    kind = chance.random()
    if kind < 0.1:
        pair.replace(pair.other(pair.lead()))
        counts["an image was replaced by a copy"] += 1
    elif kind < 0.3:
        record_alone(pair, chance)
        counts["an image was left out"] += 1
    if pair.is_too_far():
        want_refusal(pair, chance)
        counts["an image was too far behind"] += 1


# --- a run


class Loss:
    """An image that is made shorter while it is recorded in."""

    def __init__(self, pair: Pair, chance: random.Random) -> None:
        self.image = chance.choice([pair.first, pair.second])
        self.other, self.whole = pair.other(self.image), self.image.path.stat().st_size
        self.size = chance.randrange(self.whole)
        self.following = 0

    def __call__(self, recording: Recording) -> None:
        os.truncate(self.image.path, self.size)
        self.following = next_number(self.other.path.read_bytes())

    def has_to_be_said(self, told: list[int]) -> bool:
        """Whether a block that was begun afterwards met it. The first one that the other image lacked then may have been begun
        before, and a write that was on its way may have made the file as long again."""
        return self.image.path.stat().st_size < self.whole and told[-1] > self.following + 1


def acts_of(pair: Pair, coming: list[tuple[int, bytes]], missing: int, chance: random.Random, pace: dict[str, float]) -> tuple[list[tuple[int | None, Act]], Loss | None]:
    """What happens while a trace is recorded: how many acknowledgements are waited for, and what is done then."""
    acts: list[tuple[int | None, Act]] = []
    loss, count = None, 0
    if pace and chance.random() < 0.2:
        loss = Loss(pair, chance)
        count = chance.randrange(1, min(40, len(coming)) + 1)
        acts.append((count, loss))
    if pace and chance.random() < (0.5 if loss else 0.9):
        after = chance.randrange(count, count + 10) if loss else max(0, chance.randrange(-5, min(40, len(coming)) + 1))
        if missing > 1 and not loss and chance.random() < 0.5:
            after = 0
        # It is killed within the two blocks that follow, or about when it starts and brings one image up to the other.
        start = pace["start"] * 1.5 + pace["block"] * missing
        acts.append((after, kill_after(chance.random() * (pace["block"] * 2 if after else start))))
    return acts, loss


def lines_differ(pair: Pair, ended: Recorded, loss: Loss | None) -> str | None:
    """What is wrong with the lines that aren't acknowledgements, if anything."""
    wanted = [f"fdrpair: {loss.image.path}: became shorter", f"fault {pair.name_of(loss.image)}"] if loss else []
    # A run that is killed may have said a part of it.
    said, all_of_it = "\n".join(ended.others), "\n".join(wanted)
    if said not in ("", all_of_it) and not (ended.status and all_of_it.startswith(said)):
        return f"said {ended.others} and not {wanted}"
    if loss and not ended.others and ended.told and loss.has_to_be_said(ended.told):
        return f"the {pair.name_of(loss.image)} image was lost, and that wasn't said"
    return None


def record_and_look(pair: Pair, chance: random.Random, pace: dict[str, float], counts: dict[str, int]) -> None:
    """One run, and what both images hold after it. The first one is let end, to learn the program's pace."""
    lead = pair.lead()
    follower = pair.other(lead)
    trace = trace_of(chance, chance.randrange(1, 80))
    coming = lead.blocks_of(trace)
    first, behind = len(lead.blocks), len(follower.blocks)
    every = lead.blocks + coming
    acts, loss = acts_of(pair, coming, first - behind, chance, pace)
    is_killed = len(acts) > bool(loss)

    ended = record(pair.words, trace, acts)
    status, told = ended.status, ended.told
    if status not in (0, -9) or status == -9 and not is_killed:
        raise Mismatch(f"ended with {status} and said {ended.others}")
    if told != list(range(first, first + len(told))):
        raise Mismatch(f"acknowledged were {told}, and {first} was the next number")
    if status == 0 and len(told) != len(coming) + 1:
        raise Mismatch(f"acknowledged were {len(told)} numbers of a whole recording of {len(coming)} blocks")
    if wrong := lines_differ(pair, ended, loss):
        raise Mismatch(wrong)

    lost = loss.image if loss else None
    following = {}
    for image in (pair.first, pair.second):
        if image is not lost:
            span = (behind, first) if image is follower and not told else next_by(told, first, len(every))
            following[image] = image.look(every, *span)
    if told and not lost and following[pair.first] < following[pair.second]:
        raise Mismatch(f"the second image has {following[pair.second]} blocks and the first {following[pair.first]}")
    if lost:
        pair.replace(lost)
    if not acts:
        pace["start"] = ended.times[1] - ended.times[0]
        pace["block"] = (ended.times[-1] - ended.times[1]) / len(coming)

    least, most = min(following.values()), max(following.values())
    counts["killed" if status == -9 else "ended by themselves"] += 1
    counts["killed before the first acknowledgement"] += status == -9 and not told
    counts["killed while an image was brought up"] += status == -9 and not told and behind < least < first
    counts["killed amid the recording"] += status == -9 and 0 < most - first < len(coming)
    counts["killed with a block on one image and not on the other"] += bool(told) and least < most
    counts["killed with a block on both and not yet acknowledged"] += bool(told) and least > told[-1]
    counts["an image was lost while the recording went on"] += bool(lost)
    counts["blocks recorded"] += most - first
    counts["blocks acknowledged"] += max(0, len(told) - 1)
    counts["blocks brought up"] += 0 if lost else min(following[follower], first) - behind


def kill_recordings(program: pathlib.Path, fdr: pathlib.Path, runs: int, seed: int, table: pathlib.Path) -> int:
    """Kills so many recordings, and answers the status to end with."""
    chance, counts = random.Random(seed), dict.fromkeys(COUNTS, 0)
    pace: dict[str, float] = {}
    room = pathlib.Path(tempfile.mkdtemp(prefix="fdr_pair_"))
    print(f"seed {seed}", flush=True)
    run, slots, payload = 0, 0, 0
    try:
        for run in range(runs):
            if run % RUNS_OF_A_PAIR == 0:
                slots, payload = chance.choice([4, 5, 8, 31, 128]), chance.choice([64, 65, 100, 512])
                pair = Pair(program, fdr, table, room, slots, payload)
            elif pace:
                change(pair, chance, counts)
            record_and_look(pair, chance, pace, counts)
    except (Mismatch, subprocess.TimeoutExpired) as error:
        print(f"run {run}, {slots} slots of {payload}: {error}")
        print(f"the images are in {room}")
        return 1
    for name, count in counts.items():
        print(f"{count:8} {name}")
    print(f"{runs:8} runs, after each of which both images held what was promised")
    shutil.rmtree(room)
    return 0


def main() -> int:
    words = argparse.ArgumentParser(description=__doc__.splitlines()[0])
    words.add_argument("program", type=pathlib.Path)
    words.add_argument("fdr", type=pathlib.Path)
    words.add_argument("--runs", type=int, default=200, help="that are killed")
    words.add_argument("--seed", type=int, default=None, help="of the random choices; the moments differ all the same")
    words.add_argument("--table", default=TOP / "examples" / "t1.csv")
    words.add_argument("--cases", action="store_true", help="try the cases alone")
    words.add_argument("--kills", action="store_true", help="kill recordings alone")
    words.add_argument("--seconds", type=float, default=20, help="that a run of a case may take")
    words.add_argument("--only", default="", help="the cases with this in their names")
    given = words.parse_args()
    program, fdr = given.program.resolve(), given.fdr.resolve()
    status = 0
    if given.cases or not given.kills:
        begin_apart()
        cases = [case for case in [*all_cases(), *fault_cases()] if given.only in case.name]
        status = try_all(cases, {"fdrpair": program, "fdr": fdr}, given.seconds)
    if given.kills or not given.cases:
        seed = given.seed if given.seed is not None else random.randrange(1 << 32)
        status |= kill_recordings(program, fdr, given.runs, seed, given.table)
    return status


if __name__ == "__main__":
    sys.exit(main())
