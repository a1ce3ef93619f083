"""What was found in an image or in bits, put together for a report: runs, holes, sessions, and how the recording ends."""

from __future__ import annotations

import re
from dataclasses import dataclass, field

from .arrays import Array
from .clock import WORD_BITS
from .endings import Ending, ending_of
from .listing import SUBFRAMES
from .parameters import Table
from .slots import Run, Slots, heads_of
from .survey import Survey
from .streams import opened

ACKNOWLEDGED = re.compile(r"ack (\d{1,15})\n?")


@dataclass
class SessionFact:
    """A session of a run: its number, its blocks, its bits, how they end, and its times by recording, in ticks."""

    number: int | None
    first: int | None
    last: int | None
    bytes: int
    ending: Ending
    recordings: list[tuple[int, int, int]] = field(default_factory=list)


@dataclass
class RunFact:
    """A run of blocks, whether `list` lists it, and its sessions. The bits of a dump are one without blocks."""

    first: int | None
    last: int | None
    is_listed: bool
    sessions: list[SessionFact]
    is_misnumbered: bool = False  # one block, which may be a missing one with a wrong bit in its number

    @property
    def blocks(self) -> int:
        """How many blocks it has."""
        return 0 if self.first is None or self.last is None else self.last + 1 - self.first

    @property
    def frames(self) -> int:
        """How many whole frames it has."""
        return sum(one.ending.frames for one in self.sessions)


@dataclass(frozen=True)
class Hole:
    """Missing blocks, and why their slots don't hold them, of the first few."""

    first: int
    blocks: int
    reasons: tuple[str, ...]


@dataclass(frozen=True)
class Acks:
    """What the recorder announced: the newest number, and lines that are none of an announcement."""

    newest: int | None
    others: tuple[str, ...]


@dataclass
class Facts:
    """What was found."""

    runs: list[RunFact]
    holes: list[Hole] = field(default_factory=list)
    far: list[int] = field(default_factory=list)  # runs that can't be beside the greatest number in one ring
    is_as_salvaged: bool = True  # the program's listing has the same runs,
    are_as_listed: bool = True  # and the same frames
    pending: int | None = None  # a block that was being written
    acks: Acks | None = None

    @property
    def frames(self) -> int:
        """How many whole frames there are."""
        return sum(run.frames for run in self.runs)

    @property
    def left_out(self) -> list[RunFact]:
        """The runs that `list` leaves out."""
        return [run for run in self.runs if not run.is_listed]

    @property
    def newest(self) -> int | None:
        """The greatest number of a block."""
        return self.runs[-1].last if self.runs else None

    def holds(self, block: int) -> bool:
        """Whether a block is there."""
        return any(run.first is not None and run.last is not None and run.first <= block <= run.last for run in self.runs)


def facts_of_image(slots: Slots, table: Table, survey: Survey) -> Facts:
    """What is in an image."""
    runs = slots.runs()
    found = [_run(run, run is runs[-1], slots, table) for run in runs]
    facts = Facts(found, holes_of(runs, slots), far_of(runs, slots.count))
    missing = [(hole.first, hole.first + hole.blocks) for hole in facts.holes]
    for fact in facts.runs:
        fact.is_misnumbered = fact.blocks == 1 and fact.first is not None and slots.is_misnumbered(fact.first, missing)
    facts.is_as_salvaged = survey.heads == heads_of(runs, slots.version)
    facts.pending = slots.pending(runs[-1].last + 1) if runs else slots.pending(0)
    _compare(facts, table, survey)
    return facts


def facts_of_bits(data: Array, table: Table, survey: Survey) -> Facts:
    """What is in bits."""
    whole = SessionFact(None, None, None, len(data), ending_of(data, table))
    facts = Facts([RunFact(None, None, True, [whole])])
    _compare(facts, table, survey)
    return facts


def _run(run: Run, is_listed: bool, slots: Slots, table: Table) -> RunFact:
    sessions = []
    for one in run.sessions:
        data = slots.bits(one)
        sessions.append(SessionFact(one.number, one.first, one.last, len(data), ending_of(data, table)))
    return RunFact(run.first, run.last, is_listed, sessions)


def _compare(facts: Facts, table: Table, survey: Survey) -> None:
    """Gives sessions their times, and compares their frames with the listing: what is in no gap is in a frame."""
    gaps: dict[tuple[int, int], int] = {}
    for one in survey.absences:
        gaps[one.run, one.session] = gaps.get((one.run, one.session), 0) + (one.bits or 0)
    frame = SUBFRAMES * table.words * WORD_BITS
    facts.are_as_listed = all(
        8 * session.bytes == frame * session.ending.frames + gaps.get((run, number), 0)
        for run, one_run in enumerate(facts.runs)
        for number, session in enumerate(one_run.sessions)
    )
    for number, extent in enumerate(survey.extents):
        if extent.begin is not None and extent.end is not None and extent.run < len(facts.runs):
            sessions = facts.runs[extent.run].sessions
            if extent.session < len(sessions):
                sessions[extent.session].recordings.append((number + 1, extent.begin, extent.end))


def holes_of(runs: list[Run], slots: Slots) -> list[Hole]:
    """The holes between runs, and before the first one where the ring made no room for that."""
    if not runs:
        return []
    oldest = max(0, runs[-1].last - slots.count + 2)  # that a ring without damage has
    before = oldest if runs[0].first > oldest + (oldest > 0) else runs[0].first
    ends = [before, *(run.last + 1 for run in runs[:-1])]
    return [
        Hole(end, run.first - end, tuple(slots.why_missing(end, run.first - end)))
        for end, run in zip(ends, runs)
        if run.first > end
    ]


def far_of(runs: list[Run], count: int) -> list[int]:
    """The numbers of the runs that no ring of so many slots has beside the greatest number."""
    return [number for number, run in enumerate(runs) if runs[-1].last - run.last >= count]


def acks_of(path: str) -> Acks:
    """What is in the standard error of a recorder."""
    newest, others = None, []
    with opened(path) as source:
        for line in source.lines():
            found = ACKNOWLEDGED.fullmatch(line)
            if found:
                newest = int(found.group(1))
            elif line.strip():
                others.append(line.rstrip("\n"))
    return Acks(newest, tuple(others))
