"""What an image has to hold at each place of a log: the plain model that tests/power.py compares with.

It knows the formats by formats.py, and what a recording adds by reader.py, so nothing is taken from the programs but what
they acknowledged and answered.
"""

import bisect
import dataclasses
import functools
import json
import pathlib
from collections.abc import Iterable, Sequence
from typing import Any

import reader
from formats import HEADER, OPEN, VERSION_1, VERSION_2, Shape, blocks_of, empty_image, header_of, recovered, with_blocks
from inputs import T1
from power_log import Entry

PROMISED_LESS = 2
FAULT = 10
LINES_OF_A_FAULT = ("fault first", "fault second")
Blocks = tuple[tuple[int, bytes], ...]


@dataclasses.dataclass(frozen=True)
class Run:
    """A run of a program: what it does with which images, each a disk and a name there, and what it is given."""

    kind: str
    images: tuple[tuple[int, str], ...]
    shape: tuple[int, int] = (0, 0)
    trace: bytes = b""

    def to_json(self) -> dict[str, Any]:
        return {"kind": self.kind, "images": self.images, "shape": self.shape, "trace": self.trace.hex()}


def run_of(held: dict[str, Any]) -> Run:
    """A run as it was stored."""
    images = tuple((disk, name) for disk, name in held["images"])
    return Run(held["kind"], images, (held["shape"][0], held["shape"][1]), bytes.fromhex(held["trace"]))


@functools.lru_cache(maxsize=None)
def bits_of_trace(trace: bytes) -> bytes:
    """What a recording of a trace adds, by the second reader."""
    return reader.stream(T1, trace).output


def old_blocks(shape: tuple[int, int]) -> list[bytes]:
    """The blocks of the image of version 1 that is upgraded: each of its own bytes, and more than the ring has slots."""
    return [bytes([number + 1]) * shape[1] for number in range(shape[0] + 3)]


def old_image(shape: tuple[int, int]) -> bytes:
    """An image of version 1, with blocks that went round its ring."""
    return with_blocks(empty_image(*shape, version=VERSION_1), [(0, block) for block in old_blocks(shape)])


@dataclasses.dataclass(frozen=True)
class Wanted:
    """What one image has to hold: nothing, something that is refused or whole, or of these blocks the first `least` to `most`."""

    stage: str = "none"
    shape: tuple[int, int] = (0, 0)
    version: int | None = VERSION_2
    every: Blocks = ()
    least: int = 0
    most: int = 0

    def fault(self, held: bytes | str | None) -> str:
        """What is wrong with what a file holds, or nothing. A text says why it can't be read."""
        if self.stage == "none" or isinstance(held, str):
            return "" if self.stage == "none" else str(held)
        empty = empty_image(*self.shape)
        if self.stage == "made":
            is_refused = held is None or len(held) < HEADER.size or held[0] != OPEN
            return "" if is_refused or held == empty else "format was cut, and what it left is neither refused nor an empty image"
        if held is None:
            return "there is no such file"
        if len(held) != len(empty):
            return f"it has {len(held)} bytes and not {len(empty)}"
        return self.fault_of_header(held) or self.fault_of_blocks(held)

    def fault_of_header(self, held: bytes) -> str:
        wanted = header_of(Shape(*self.shape, 64), VERSION_2)
        if held[:1] + held[2 : HEADER.size] != wanted[:1] + wanted[2:]:
            return "the header isn't what it was"
        if self.version is not None and held[1] != self.version:
            return f"the version is {held[1]:02x} and not {self.version:02x}"
        return ""

    def fault_of_blocks(self, held: bytes) -> str:
        run = recovered(held)
        following = run[-1].number + 1 if run else 0
        if not self.least <= following <= self.most:
            return f"the next number is {following}, and it has to be {self.least} to {self.most}"
        if len(run) < min(self.shape[0] - PROMISED_LESS, following):
            return f"the run has {len(run)} blocks of {following}, in {self.shape[0]} slots"
        for number, session, payload in run:
            if payload != self.every[number][1] or held[1] == VERSION_2 and session != self.every[number][0]:
                return f"block {number} isn't the one that was recorded"
        return ""


class Timeline:
    """What one image has to hold, from which entry of the log on."""

    def __init__(self) -> None:
        self.places: list[int] = [-1]
        self.wanted: list[Wanted] = [Wanted()]

    def add(self, place: int, wanted: Wanted) -> None:
        if wanted != self.wanted[-1]:
            self.places.append(place)
            self.wanted.append(wanted)

    def at(self, moment: int) -> Wanted:
        return self.wanted[bisect.bisect_right(self.places, moment) - 1]


# --- how what is wanted changes


def begun(wanted: Wanted, run: Run) -> Wanted:
    """As a run begins."""
    if run.kind == "format":
        return Wanted("made", run.shape)
    if run.kind == "old":
        every = tuple((0, block) for block in old_blocks(run.shape))
        return Wanted("held", run.shape, VERSION_1, every, len(every), len(every))
    if run.kind == "remove":
        return Wanted()
    if run.kind == "upgrade":
        return dataclasses.replace(wanted, version=None)
    return wanted


def announced(wanted: Wanted, run: Run, number: int, is_first: bool) -> Wanted:
    """Once a number was announced. The first one says from where the recording goes on."""
    every = wanted.every
    if is_first:
        session = every[number - 1][0] + 1 if number else 1
        bits = blocks_of(bits_of_trace(run.trace), wanted.shape[1])
        every = every[:number] + tuple((session, block) for block in bits)
    return dataclasses.replace(wanted, every=every, least=number, most=min(number + 1, len(every)))


def ended(wanted: Wanted, run: Run, status: int) -> Wanted:
    """Once a run has ended."""
    if status == 0 and run.kind == "format":
        return dataclasses.replace(wanted, stage="held")
    if status == 0 and run.kind == "upgrade":
        return dataclasses.replace(wanted, version=VERSION_2)
    if status == 0 and run.kind in ("record", "fdrpair"):
        return dataclasses.replace(wanted, least=len(wanted.every), most=len(wanted.every))
    return wanted


def together(lines: Sequence[Timeline], place: int) -> None:
    """As a recording on two disks begins: the image that is behind may be brought up to the other."""
    lead = max((line.wanted[-1] for line in lines), key=lambda wanted: wanted.least)
    for line in lines:
        line.add(place, dataclasses.replace(line.wanted[-1], every=lead.every, most=lead.most))


def numbers_in(said: Iterable[str]) -> Iterable[int]:
    return (int(line.split()[1]) for line in said if line.startswith("ack "))


def timelines_of(entries: Sequence[Entry], runs: Sequence[Run]) -> dict[tuple[int, str], Timeline]:
    """What each image has to hold at each place of a log."""
    made = {image: Timeline() for run in runs for image in run.images}
    now: Run | None = None
    is_first, failed = True, set[int]()
    for place, entry in enumerate(entries):
        if entry.kind == "m":
            told = json.loads(entry.data)
            run = runs[told["run"]]
            for image in run.images:
                line = made[image]
                if told["is"] == "begin":
                    line.add(place, begun(line.wanted[-1], run))
                elif image[0] not in failed:
                    line.add(place, ended(line.wanted[-1], run, told["status"]))
            if told["is"] == "begin" and run.kind == "fdrpair":
                together([made[image] for image in run.images], place)
            now, is_first = (run, True) if told["is"] == "begin" else (None, True)
            failed = set() if told["is"] == "begin" else failed
        elif entry.kind == "s" and now:
            lines = entry.data.decode(errors="replace").splitlines()
            failed |= {disk for disk, line in enumerate(LINES_OF_A_FAULT) if line in lines}
            for number in numbers_in(lines):
                for image in now.images:
                    if image[0] not in failed:
                        made[image].add(place, announced(made[image].wanted[-1], now, number, is_first))
                is_first = False
    return made


def fault_of_answers(entries: Sequence[Entry], runs: Sequence[Run]) -> str:
    """What is wrong with the last lines of the runs, or nothing: a disk fault is said where it is answered, and of two disks
    none is said to fail that didn't."""
    said, failed = b"", set[int]()
    for entry in entries:
        if entry.error:
            failed.add(entry.disk)
        if entry.kind == "s":
            said += entry.data
        elif entry.kind == "m":
            told = json.loads(entry.data)
            lines = said.decode().splitlines()
            last = lines[-1] if lines else ""
            if told["is"] == "end" and (told["status"] == FAULT) != last.endswith(": disk fault"):
                return f"a run of {runs[told['run']].kind} ended with {told['status']} and said {last!r}"
            wrong = [line for disk, line in enumerate(LINES_OF_A_FAULT) if line in lines and disk not in failed]
            if wrong:
                return f"{wrong[0]!r} was said, and that disk didn't fail"
            said = b""
    return ""


def stored(folder: pathlib.Path) -> tuple[dict[str, Any], list[Run]]:
    """What was stored beside a log: the set-up, and the runs."""
    held = json.loads((folder / "work.json").read_text())
    return held, [run_of(run) for run in held["runs"]]
