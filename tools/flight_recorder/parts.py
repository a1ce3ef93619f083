"""What stands in the gaps of a listing, and which of its frames are doubtful: the lines of `flight parts`.

`part,COUNTER,SUBFRAME,WORD,NAME,VALUE,SYNCS` is a sample out of subframes that stand in a gap, SYNCS the least number of
sync words that stand of theirs; `doubtful,COUNTER,SUBFRAMES,FITTING,LINE,ROWS,WHY` a frame of the listing that is
doubtful, with the counter that fits and where its rows are. The lines of sessions, runs and gaps are those of the listing.
"""

from dataclasses import dataclass
from typing import Iterator, TextIO

import numpy as np

from .arrays import Array
from .blocks import Line, is_image, runs_of
from .clock import WORD_BITS
from .counters import Beside, Known, counters_of
from .doubts import LAST, LONE, Doubt, Frames, fit, merged, of_counters, slip
from .faults import Fault
from .frames import SYNCS
from .listing import ROUND, SUBFRAMES, Kind, Mark
from .outline import Outline, Section, outline_of
from .parameters import SUPERFRAME, Table
from .raw import words_at
from .samples import Sample, Samples
from .standing import Gap, Subframe, standing


@dataclass(frozen=True)
class Part:
    """A sample that is read out of a gap."""

    counter: int
    subframe: int
    word: int
    name: str
    value: str
    syncs: int

    def line(self) -> str:
        """Its line."""
        return f"part,{self.counter},{self.subframe},{self.word},{self.name},{self.value},{self.syncs}\n"


@dataclass(frozen=True)
class Found:
    """A gap, the frames right before and after it, by their numbers, and the subframes that stand in it."""

    mark: Mark
    before: int | None
    after: int | None
    subframes: list[Subframe]


def lines_of_bits(data: bytes, sections: list[Section]) -> list[Array]:
    """The bytes of each section's line of bits, out of a dump or an image."""
    if not is_image(data):
        if len(sections) > 1:
            raise Fault(f"listing line {sections[1].heads[0].line}: of several sessions or runs the image itself is needed")
        return [np.frombuffer(data, dtype=np.uint8)]
    runs = runs_of(data)
    is_salvaged = any(head.kind is Kind.RUN for section in sections for head in section.heads)
    lines = [line for run in (runs if is_salvaged else runs[-1:]) for line in run]
    if len(lines) != len([one for one in sections if one.heads or not one.is_empty]):
        raise Fault(f"the image has {len(lines)} sessions, and the listing has others: a listing of another image?")
    for line, section in zip(lines, sections):
        _check_heads(line, section)
    return [line.data for line in lines] or [np.zeros(0, dtype=np.uint8)]


def _check_heads(line: Line, section: Section) -> None:
    """A section's lines are those of this line of bits."""
    for head in section.heads:
        own = (head.first, head.second) if head.kind is Kind.SESSION else (line.session, head.first)
        if own != (line.session, line.first):
            raise Fault(f"listing line {head.line}: the image has session {line.session} from block {line.first} here")


class Reader:
    """Reads the parts and the doubts of a listing's sections."""

    def __init__(self, table: Table, least: int) -> None:
        self.table = table
        self.least = least
        self.samples = Samples(table)
        self.width = table.words * WORD_BITS

    def write(self, section: Section, bits: Array, out: TextIO) -> None:
        """Writes the lines of a section, which is listed of these bytes."""
        outline = outline_of(section, bits, self.table, self.samples)
        frames = outline.frames
        gaps = [self._gap(bits, frames, mark, frame) for mark, frame in outline.gaps]
        doubts = {one.frame: one for one in of_counters(frames) if not self._has_parts_beside(one, frames, gaps)}
        slips = [doubt for gap in gaps for doubt in [self._slip(bits, frames, gap, doubts)] if doubt]
        for head in section.heads:
            out.write(f"{head.kind.value},{head.first},{head.second}\n")
        for one in merged([*doubts.values(), *slips]):
            out.write(self._doubtful(one, outline))
        for gap in gaps:
            out.write(f"gap,{gap.mark.first},{gap.mark.second}\n")
            out.writelines(part.line() for part in self._parts_of(bits, frames, gap, doubts))

    def _has_parts_beside(self, doubt: Doubt, frames: Frames, gaps: list[Found]) -> bool:
        """Whether subframes that stand beside a lone frame are of its phase: it is one of several then."""
        own = [gap for gap in gaps if doubt.frame in (gap.before, gap.after)] if LONE in doubt.rules else []
        begin = int(frames.bit[doubt.frame])
        return any((one.frame(self.width) - begin) % frames.length == 0 for gap in own for one in gap.subframes)

    def _doubtful(self, one: Doubt, outline: Outline) -> str:
        """The line of a doubtful frame."""
        counter, line = int(outline.frames.counter[one.frame]), int(outline.line[one.frame])
        place = f"{line},{outline.rows[one.frame]}"
        return f"doubtful,{counter},{one.subframes},{one.fitting},{place},{one.reason.replace(',', ';')}\n"

    def _gap(self, bits: Array, frames: Frames, mark: Mark, frame: int) -> Found:
        """What stands in a gap before which are so many frames."""
        end = mark.first + mark.second
        before = frame - 1 if frame and frames.bit[frame - 1] + frames.length == mark.first else None
        after = frame if frame < len(frames) and frames.bit[frame] == end else None
        first = mark.first if before is None else mark.first - self.width + WORD_BITS
        places = [None if one is None else int(frames.bit[one]) for one in (before, after)]
        where = Gap(first, mark.first, end, *places)
        return Found(mark, before, after, standing(bits, where, self.table.words, self.least))

    def _beside(self, frames: Frames, frame: int | None, doubts: dict[int, Doubt]) -> Beside | None:
        """A frame beside a gap."""
        if frame is None:
            return None
        counter = doubts[frame].fitting if frame in doubts else int(frames.counter[frame])
        return Beside(int(frames.bit[frame]), counter)

    def _is_lone(self, frame: int | None, doubts: dict[int, Doubt]) -> bool:
        """Whether a frame's counter says nothing of others."""
        return frame in doubts and LONE in doubts[frame].rules

    def _slip(self, bits: Array, frames: Frames, gap: Found, doubts: dict[int, Doubt]) -> Doubt | None:
        """The doubt of the last subframe of the frame before a gap: the first phase that stands in it, or after it, is another."""
        before, after = (None if self._is_lone(one, doubts) else self._beside(frames, one, doubts) for one in (gap.before, gap.after))
        if before is None or gap.before is None:
            return None
        evidence = [(one.bit - (0 if one.own else self.width), one.frame(self.width)) for one in gap.subframes[:1]]
        evidence += [(one.bit, one.bit) for one in (after,) if one is not None]
        if not evidence or (evidence[0][1] - before.bit) % frames.length == 0:
            return None
        end = before.bit + frames.length
        is_other = after is not None and not fit((after.bit - before.bit) / frames.length, after.counter - before.counter)
        if is_other and evidence[0][0] > end:
            return None  # another recording
        stands = end + WORD_BITS <= frames.bits and int(words_at(bits, np.array([end]))[0]) == SYNCS[0]
        goes_on = after is not None and (after.counter - before.counter) % ROUND == 1
        seen = slip(frames, gap.before, evidence[0][0], stands, goes_on)
        return None if seen is None else Doubt(gap.before, LAST, before.counter, (seen[0],), seen[1])

    def _parts_of(self, bits: Array, frames: Frames, gap: Found, doubts: dict[int, Doubt]) -> list[Part]:
        """What is read out of a gap."""
        beside = [None if self._is_lone(one, doubts) else self._beside(frames, one, doubts) for one in (gap.before, gap.after)]
        known = counters_of(bits, gap.subframes, self.table, *beside)
        return list(self._parts(bits, gap.subframes, known))

    def _parts(self, bits: Array, found: list[Subframe], known: dict[int, Known]) -> Iterator[Part]:
        """The samples whose parts all are in subframes that stand."""
        stand = {(one.frame(self.width), one.number): one for one in found}
        for begin in sorted(known):
            cycle = known[begin].counter % SUPERFRAME
            for sample in self.samples.by_frame[cycle]:
                part = self._part(bits, sample, begin, stand, known)
                if part is not None:
                    yield part

    def _part(
        self, bits: Array, sample: Sample, begin: int, stand: dict[tuple[int, int], Subframe], known: dict[int, Known]
    ) -> Part | None:
        """A sample whose last part is in the frame that begins here, if it can be read."""
        last = sample.last // self.samples.frame
        each = sample.is_in_each_frame
        syncs, raw, shift = SUBFRAMES, 0, 0
        for place in sample.parts:
            frame = begin + (place.slot // self.samples.frame - last) * SUBFRAMES * self.width
            here = stand.get((frame, place.slot % self.samples.frame // self.table.words))
            counter = known.get(frame)
            if here is None or counter is None or not (each or counter.is_sure):
                return None
            if (counter.counter - place.slot // self.samples.frame) % SUPERFRAME:
                return None
            syncs = min(syncs, here.syncs)
            bit = here.bit + place.slot % self.table.words * WORD_BITS
            raw |= ((_word(bits, bit) >> (place.lsb - 1)) & ((1 << place.width) - 1)) << shift
            shift += place.width
        first = begin + (sample.first // self.samples.frame - last) * SUBFRAMES * self.width
        subframe, word = divmod(sample.first % self.samples.frame, self.table.words)
        value = sample.parameter.text(raw)
        return Part(known[first].counter, subframe + 1, word + 1, sample.parameter.name, value, syncs)


def _word(bits: Array, bit: int) -> int:
    """A word of 12 bits."""
    byte = bit >> 3
    three = int(bits[byte]) | int(bits[byte + 1]) << 8 | (int(bits[byte + 2]) << 16 if byte + 2 < len(bits) else 0)
    return three >> (bit & 7) & 0xFFF
