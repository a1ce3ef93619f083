"""Faults of either disk, for pair.py: each call of `fdrpair record` on one image fails in turn.

strace lets the call fail. Of each run it is wanted that the fault is said once, and its cause, and that the program doesn't
use this image again; that the recording goes on with the other image, which then is, byte for byte, as the blocks of the
trace make it; and that the image that failed holds what it should have until then.
Where the image that leads fails while the other is brought up to it, the answer is `lead disk fault` instead, with status
18: the lead is as it was, and the other has some more of the lead's blocks, whole.
"""

import itertools
import os
import pathlib
import shutil
import subprocess
from collections.abc import Iterator
from typing import NamedTuple

from formats import blocks_of, empty_image, end_at, next_number, next_session, recovered, shape_of, with_blocks
from inputs import T1, t1_frame, word_at
from places import Mismatch, Place, Skipped
from recordings import LIMIT, PROMISED_LESS

CALLS = ["openat", "newfstatat", "statx", "fstat", "flock", "pread64", "pwrite64", "fsync", "fdatasync"]
TRACE = word_at(0, 5) + end_at(4_000_000)
BITS = t1_frame(0, 5)
NAMES = {"first": "a.img", "second": "b.img"}


class Ended(NamedTuple):
    """A run that is over: its status, the acknowledged numbers, the other lines, the line of the cause that is to be among them,
    whether a call failed, and the calls and images after it."""

    status: int
    told: list[int]
    others: list[str]
    cause: str
    was_injected: str
    later: list[str]
    images: dict[str, bytes]


def started(slots: int, *recordings: int, payload: int = 64) -> bytes:
    """An image in which so many blocks were recorded, one recording after another."""
    image = empty_image(slots, payload)
    for count in recordings:
        blocks = blocks_of(BITS * (count * payload // len(BITS) + 1), payload)[:count]
        image = with_blocks(image, [(next_session(image), block) for block in blocks])
    return image


PAIRS = {
    "both have the same blocks": (started(5, 3), started(5, 3)),
    "the second is behind": (started(5, 3, 3), started(5, 3)),
    "the first is behind": (started(8, 2), started(8, 2, 4)),
}
# What is read ahead of the lead isn't read again while the other is brought up: here that is too little.
LARGE = "the second is behind, by more than is read ahead"
PAIRS[LARGE] = started(20, 3, 16, payload=4096), started(20, 3, payload=4096)


def run_with_fault(program: pathlib.Path, room: pathlib.Path, side: str, call: str, number: int) -> Ended:
    """A run in which the call of this kind and number on one image fails."""
    paths = {one: (room / name).resolve() for one, name in NAMES.items()}
    words: list[str | pathlib.Path] = ["strace", "-qq", "-o", "calls", "-P", paths[side], "-e", f"trace={','.join(CALLS)}", "-e", f"inject={call}:error=EIO:when={number}"]
    words += [program, "record", "t1.csv", *paths.values()]
    ended = subprocess.run(words, cwd=room, input=TRACE, capture_output=True, timeout=LIMIT)
    lines = ended.stderr.decode().splitlines()
    told = [int(line.split()[1]) for line in lines if line.startswith("ack ")]
    others = [line for line in lines if not line.startswith("ack ")]
    _, was_injected, later = (room / "calls").read_text().partition("(INJECTED)")
    cause = f"fdrpair: {paths[side]}: input/output error"
    return Ended(ended.returncode, told, others, cause, was_injected, later.split("\n")[1:-1], {one: path.read_bytes() for one, path in paths.items()})


def want(is_so: object, what: str) -> None:
    if not is_so:
        raise Mismatch(what)


def look(before: dict[str, bytes], side: str, ended: Ended) -> bool:
    """Compares what a run left after this side failed, and answers whether the recording went on."""
    other = "first" if side == "second" else "second"
    lead = max(NAMES, key=lambda one: next_number(before[one]))
    blocks = blocks_of(BITS, shape_of(before[lead]).payload)
    new = [(next_session(before[lead]), block) for block in blocks]
    missing = [(block.session, block.payload) for block in recovered(before[lead]) if block.number >= next_number(before[other])]
    want(not ended.later, f"the {side} image was used after its fault: {ended.later[:1]}")
    if ended.status == 18:
        want(ended.others == [ended.cause, f"fault {side}", "fdrpair: lead disk fault"] and not ended.told, f"said {ended.others} after {ended.told}")
        want(side == lead and missing, f"the {side} image doesn't lead, or nothing is missing")
        want(ended.images[side] == before[side], "the lead was changed")
        some = [with_blocks(before[other], missing[:count]) for count in range(len(missing))]
        want(ended.images[other] in some, "the other image hasn't some of the lead's blocks")
        return False
    want(ended.status == 0 and ended.others == [ended.cause, f"fault {side}"], f"ended with {ended.status} and said {ended.others}")
    # Where the lead failed early, the other goes on with its own blocks alone.
    first = ended.told[0]
    is_alone = first == next_number(before[other])
    if is_alone and missing:
        new = [(next_session(before[other]), block) for block in blocks]
    want(first == next_number(before[other if is_alone else lead]), f"the first number was {first}")
    want(ended.told == list(range(first, first + len(new) + 1)), f"acknowledged were {ended.told}")
    want(ended.images[other] == with_blocks(before[other], new if is_alone else missing + new), "the other image isn't as it should be")
    want(holds_its_own(before[side], before[lead], new, ended.images[side]), f"the {side} image doesn't hold what it should have until then")
    return True


def holds_its_own(before: bytes, lead: bytes, new: list[tuple[int, bytes]], image: bytes) -> bool:
    """Whether an image that failed at some call holds the last of its blocks, and then the first of those that were to come."""
    run = recovered(image)
    blocks = {block.number: (block.session, block.payload) for block in [*recovered(before), *recovered(lead)]}
    blocks |= dict(enumerate(new, next_number(lead)))
    following = next_number(image)
    is_long = len(run) >= min(shape_of(image).slots - PROMISED_LESS, following)
    return is_long and following >= next_number(before) and all(blocks.get(one.number) == (one.session, one.payload) for one in run)


def fail_in_turn(program: pathlib.Path, room: pathlib.Path, first: bytes, second: bytes, side: str) -> tuple[int, int]:
    """Has each call on one image fail in turn, and answers how many calls there were, and after how many faults the recording
    went on."""
    before, calls, went_on = {"first": first, "second": second}, 0, 0
    (room / "t1.csv").write_bytes(T1)
    for call in CALLS:
        for number in itertools.count(1):
            for one, name in NAMES.items():
                (room / name).write_bytes(before[one])
            ended = run_with_fault(program, room, side, call, number)
            if not ended.was_injected:
                want(ended.status == 0 and not ended.others, f"without a fault it ended with {ended.status} and said {ended.others}")
                break
            calls += 1
            try:
                went_on += look(before, side, ended)
            except Mismatch as error:
                raise Mismatch(f"{call} {number}: {error}") from None
    return calls, went_on


def want_strace() -> None:
    if not shutil.which("strace") or subprocess.run(["strace", "-o", "/dev/null", "true"], capture_output=True).returncode != 0:
        raise Skipped("it needs strace")


class WithoutLocks:
    """A case of a file system that has no locks to give: two images, or one file that is given as both."""

    def __init__(self, second: str) -> None:
        self.second = second
        self.name = f"without locks, and {second} is the second image"

    def tried(self, place: Place) -> None:
        want_strace()
        before = started(5, 3)
        (place.room / "t1.csv").write_bytes(T1)
        for name in NAMES.values():
            (place.room / name).write_bytes(before)
        os.link(place.room / "a.img", place.room / "same.img")
        (place.room / "link").symlink_to("a.img")
        words: list[str | pathlib.Path] = ["strace", "-qq", "-o", "/dev/null", "-e", "inject=flock:error=EOPNOTSUPP:when=1+"]
        words += [place.program, "record", "t1.csv", "a.img", self.second]
        ended = subprocess.run(words, cwd=place.room, input=TRACE, capture_output=True, timeout=LIMIT)
        others = [line for line in ended.stderr.decode().splitlines() if not line.startswith("ack ")]
        is_one = self.second != "b.img"
        said = [f"fdrpair: {self.second}: held by another run", "fault second"] if is_one else []
        want(ended.returncode == 0 and others == said, f"ended with {ended.returncode} and said {others}")
        after = with_blocks(before, [(next_session(before), block) for block in blocks_of(BITS, shape_of(before).payload)])
        want((place.room / "a.img").read_bytes() == after, "a.img isn't as it should be")
        want((place.room / "b.img").read_bytes() == (before if is_one else after), "b.img isn't as it should be")


class Faults:
    """A case of faults: each call on one image of a pair."""

    def __init__(self, what: str, side: str) -> None:
        self.what, self.side = what, side
        self.name = f"each call on the {side} image fails in turn, {what}"

    def tried(self, place: Place) -> None:
        want_strace()
        calls, went_on = fail_in_turn(pathlib.Path(place.program), place.room, *PAIRS[self.what], self.side)
        want(calls > went_on or (self.what, self.side) != (LARGE, "first"), "no call of the lead failed while the other was brought up")
        self.name += f": {calls} calls, the recording went on after {went_on}"


def fault_cases() -> Iterator[Faults | WithoutLocks]:
    for second in ("b.img", "./a.img", "link", "same.img"):
        yield WithoutLocks(second)
    for what in PAIRS:
        for side in NAMES:
            yield Faults(what, side)
