"""What a dump is: its form, its frames, where they stop, what counts them, and the line that reads it."""

from __future__ import annotations

import tempfile
from dataclasses import dataclass, replace
from typing import IO

import numpy as np

from . import levels
from .candidates import Candidate, candidates, first_bit, other_windows, seen_in, windows, with_phase
from .counting import Counter, Counts, Wrap, counts_of, wrap_of
from .forms import UNIT_BITS, WORD_BITS, Form, Units
from .framing import Shape, Stretch, stretches
from .lines import Line, Stored, progress_over

CLOSE = 2.0  # evidence by which a second form may be the right one
AT_ONCE = 1 << 20


@dataclass(frozen=True)
class Levels:
    """How a capture of a line was sampled, and at how many places it was unclear."""

    samples: float
    is_reversed: bool
    unclear: int


@dataclass(frozen=True)
class Dump:
    """What was found of a dump."""

    form: Form
    shape: Shape
    line: Line
    found: list[Stretch]
    counts: Counts | None
    wrap: Wrap | None
    other: Form | None
    levels: Levels | None = None

    @property
    def frames(self) -> int:
        """The accepted frames."""
        return sum(stretch.frames for stretch in self.found)

    @property
    def counter(self) -> Counter | None:
        """The widest counter."""
        return self.counts.counters[0] if self.counts and self.counts.counters else None


def look(file: Stored) -> Dump | None:
    """Looks for frames in a file of any form."""
    likeliest = _likeliest(file)
    return _looked_at(file, likeliest) if likeliest else _of_levels(file)


def _of_levels(file: Stored) -> Dump | None:
    """Looks for frames in the samples of a line."""
    for is_reversed in (False, True):
        samples = levels.any_samples_a_bit(file, is_reversed)
        if samples is None:
            continue
        with tempfile.TemporaryFile(prefix="flight-") as out:
            front = Stored(file.handle, min(file.size, levels.LOOKED_AT))
            bits = _packed(front, samples, is_reversed, out)[0]
            if not seen_in(bits, [0]):
                continue
        with tempfile.TemporaryFile(prefix="flight-") as out, progress_over(file, file.size):
            bits, decoded = _packed(file, samples, is_reversed, out)
            found = candidates(bits, seen_in(bits, windows(bits.size)))
            dump = _looked_at(bits, [one for one in found if one.form == Form()])
            return replace(dump, levels=Levels(samples, is_reversed, len(decoded.unclear))) if dump else None
    return None


def _packed(file: Stored, samples: float, is_reversed: bool, out: IO[bytes]) -> tuple[Stored, levels.Decoded]:
    """The bits of a capture, in a file."""
    with tempfile.TemporaryFile(prefix="flight-") as held:
        decoded = levels.decode(file, samples, is_reversed, held)
        held.seek(0)
        while piece := held.read(AT_ONCE):
            out.write(np.packbits(np.frombuffer(piece, dtype=np.uint8), bitorder="little").tobytes())
    out.flush()
    return Stored(out.fileno(), out.tell()), decoded


def _looked_at(file: Stored, likeliest: list[Candidate]) -> Dump | None:
    """What is found of a file by the likeliest form."""
    if not likeliest:
        return None
    best = likeliest[0]
    line = Line(file, best.form, by_first_bit=True)
    with progress_over(file, file.size):
        found = list(stretches(line, best.shape))
    if not found:
        return None
    form = with_phase(best.form, found)
    line = Line(file, form, by_first_bit=True)
    counts = counts_of(line, best.shape, found)
    counter = counts.counters[0] if counts and counts.counters else None
    wrap = wrap_of(line, best.shape, found, counter)
    form = _finished(file, form, best.shape, found, wrap)
    if form.rotate:
        line = Line(file, form, by_first_bit=True)
        found = list(stretches(line, best.shape))
        counts = counts_of(line, best.shape, found)
    others = [one.form for one in likeliest[1:] if best.evidence - one.evidence < CLOSE and one.form != best.form]
    return Dump(form, best.shape, line, found, counts, wrap, others[0] if others else None)


def _likeliest(file: Stored) -> list[Candidate]:
    """The forms in which the file has frames, by some stretches of it, or where these have none by the others."""
    found = candidates(file, seen_in(file, windows(file.size)))
    if found:
        return found
    with progress_over(file, file.size):
        for begin in other_windows(file.size):
            if found := candidates(file, seen_in(file, [begin])):
                return found
    return []


def _finished(file: Stored, form: Form, shape: Shape, found: list[Stretch], wrap: Wrap | None) -> Form:
    """The form with what can only be known of the whole line: its rotation, and for units their head and their spare bits."""
    if wrap and wrap.begin is not None:
        begin = wrap.begin - first_bit(form)
        form = replace(form, rotate=begin, phase=0) if begin else form
    elif isinstance(form.words, Units) and not form.block and not form.backwards and not form.swap:
        form = _without_head(file, form, found[0])
    if isinstance(form.words, Units) and not _is_clean(file, form):
        form = replace(form, ignore_spare=True)
    return form


def _without_head(file: Stored, form: Form, first: Stretch) -> Form:
    """Units are skipped that have bits outside their words, or nothing, before the first frame."""
    assert isinstance(form.words, Units)
    begin = form.phase // 8
    end = (first.begin - first_bit(form)) // 8
    line = Line(file, form, by_first_bit=False)
    kept = end
    for at in range(end, begin, -AT_ONCE):
        held = line.read(max(begin, at - AT_ONCE), at).copy().view(form.words.kind)
        spare = held & ~np.uint16(0xFFF << form.words.shift)
        bad = np.flatnonzero(spare)
        clean = held[int(bad[-1]) + 1 :] if len(bad) else held
        kept = at - 2 * len(clean) if clean.any() else kept
        if len(bad):
            break
    return replace(form, skip=form.skip + kept, phase=0)


def _is_clean(file: Stored, form: Form) -> bool:
    """Whether no unit has bits outside its word, and none is cut."""
    assert isinstance(form.words, Units)
    line = Line(file, form, by_first_bit=False)
    first = form.phase // 8
    if (line.size - first) % 2:
        return False
    outside = ~np.uint16(0xFFF << form.words.shift)
    for at in range(first, line.size, AT_ONCE):
        if (line.read(at, at + AT_ONCE).copy().view(form.words.kind) & outside).any():
            return False
    return True


def packed_bit(dump: Dump, bit: int) -> int:
    """A bit of a dump's line as one of the packed bits that `flight pack` makes of it."""
    form = dump.form
    begin = bit - first_bit(form)
    if isinstance(form.words, Units):
        begin -= 8 * form.skip - 8 * dump.line.form.skip
    return (begin - form.phase) // form.spacing * WORD_BITS if form.spacing == UNIT_BITS else begin - form.phase
