"""What `flight look` prints: a line for each thing that was found, and at last the line that reads the dump."""

from __future__ import annotations

import pathlib
import shlex
import sys

from .counting import Counter
from .forms import WORD_BITS, Align, Form, Order, Packed, Units
from .images import LETTERS
from .lines import Stored
from .look import Dump, Levels, packed_bit
from .syncs import SUBFRAMES

MOST_STOPS = 8  # that are printed
NOTHING = "nothing found: no frame of four sync words in any form that flight pack and flight levels read"


def note(file: Stored, path: str) -> list[str]:
    """What is said of a file whose beginning tells what it is."""
    if file.read(2, 8).tobytes() == LETTERS:
        return [f"note      it begins as an image of fdr does, which is read by: fdr list TABLE {shlex.quote(path)}"]
    return []


def report(dump: Dump, path: str, table: str | None) -> list[str]:
    """The lines of a dump."""
    lines = [f"form      {_levels_in_words(dump.levels) if dump.levels else form_in_words(dump.form)}"]
    lines += [f"words     {dump.shape.words} in a subframe"]
    lines += [f"sure      {_sure(dump)}", *_frames(dump), *_counters(dump), *_wrap(dump)]
    if dump.other:
        lines.append(f"or        its sync words alone don't rule out {shlex.join(dump.other.options())}")
    return [*lines, "read it by", command(dump, path, table)]


def command(dump: Dump, path: str, table: str | None) -> str:
    """The line that reads a dump."""
    pack = f"{program()} pack {shlex.quote(path)} {shlex.join(dump.form.options())}"
    if dump.levels:
        pack = _levels_command(dump.levels, path)
    name = "dump" if path == "-" else path
    if table is None:
        return f"{pack} > {shlex.quote(name + '.bits')}"
    return f"{pack} | fdr listbits {shlex.quote(table)} > {shlex.quote(name + '.listing')}"


def _levels_command(levels: Levels, path: str) -> str:
    """The line that reads a capture of levels."""
    if levels.samples == 2 and not levels.is_reversed and not levels.unclear:
        return f"fdr decode < {shlex.quote(path)}"
    reverse = " --reverse" if levels.is_reversed else ""
    return f"{program()} levels {shlex.quote(path)} --samples {levels.samples:g}{reverse} | fdr decode"


def _levels_in_words(levels: Levels) -> str:
    """How a capture was sampled, as a sentence says it."""
    first = "highest" if levels.is_reversed else "lowest"
    unclear = f", unclear at {levels.unclear:,} places" if levels.unclear else ""
    return f"Harvard biphase, {levels.samples:g} samples a bit, the {first} bit of a byte the first sample{unclear}"


def program() -> str:
    """The tools as they were called."""
    called = sys.argv[0] if sys.argv else ""
    return shlex.quote(called) if pathlib.Path(called).name == "flight" else "flight"


def form_in_words(form: Form) -> str:
    """A form as a sentence says it."""
    if isinstance(form.words, Units):
        order = "lower" if form.words.order is Order.LITTLE else "higher"
        bits = "lower" if form.words.align is Align.RIGHT else "upper"
        said = [f"a word in each 16 bits, the {order} byte first, in the {bits} 12 bits"]
    else:
        said = [f"packed words of 12 bits, the {'highest' if form.words is Packed.HIGH else 'lowest'} bit first"]
    if form.skip:
        said.append(f"after {form.skip} bytes")
    if form.block:
        said.append(f"in blocks of {form.block} bytes")
        said += [f"whose first {form.head} are none of the words'"] if form.head else []
        said += [f"whose last {form.tail} are none of the words'"] if form.tail else []
    switches = [(form.swap, "the bytes of each pair swapped"), (form.reverse, "the bits of each byte reversed")]
    switches += [(form.backwards, "all bits in reverse order"), (form.invert, "inverted")]
    switches += [(form.ignore_spare, "with bits outside the words")]
    return ", ".join([*said, *(text for is_so, text in switches if is_so)])


def _sure(dump: Dump) -> str:
    found = SUBFRAMES * dump.frames
    last = dump.found[-1]
    extent = last.begin + last.frames * dump.shape.frame - dump.found[0].begin
    looked_for = max(found, -(-extent // dump.shape.subframe))
    return f"{found:,} of {looked_for:,} sync words stand in whole frames, {100 * found / looked_for:.1f} %"


def _frames(dump: Dump) -> list[str]:
    """How many frames there are, and where they stop."""
    first, last = dump.found[0], dump.found[-1]
    end = packed_bit(dump, last.begin + last.frames * dump.shape.frame)
    stretches = f"in {len(dump.found):,} stretches" if len(dump.found) > 1 else "without a gap"
    seconds = 4 * dump.frames
    lines = [f"frames    {dump.frames:,}, which are {seconds:,} seconds, {stretches}"]
    lines.append(f"where     from bit {packed_bit(dump, first.begin):,} to bit {end:,} of the packed bits")
    for before, after in list(zip(dump.found, dump.found[1:]))[:MOST_STOPS]:
        stop = before.begin + before.frames * dump.shape.frame
        lines.append(f"stop      at bit {packed_bit(dump, stop):,}, and on from bit {packed_bit(dump, after.begin):,}")
    if len(dump.found) > MOST_STOPS + 1:
        lines.append(f"stop      {len(dump.found) - MOST_STOPS - 1:,} more")
    return lines


def _counters(dump: Dump) -> list[str]:
    """What counts the frames, and what to do where nothing does."""
    if dump.counts is None:
        return ["counter   too few frames follow each other to see one"]
    words, counter = dump.shape.words, dump.counter
    unused = "{},{}".format(*dump.counts.unused) if dump.counts.unused else "SUBFRAME,WORD"
    recount = f"flight recount BITS --words {words}"
    if counter is None:
        return [
            "counter   none: no word counts up by one, so parameters of a superframe can't be read; frames are numbered by",
            f"          {recount} --frames --into {unused}",
        ]
    lines = [f"counter   {_in_words(other)}" for other in dump.counts.counters[:3]]
    if counter.width == WORD_BITS:
        return [*lines, f"table     F,{words},{counter.word},{counter.subframe}"]
    place = f"{counter.subframe},{counter.word},{counter.lsb},{counter.width}"
    return [
        *lines,
        f"          a table's counter has 12 bits: one is made of it by",
        f"          {recount} --from {place} --into {unused}",
    ]


def _in_words(counter: Counter) -> str:
    """A counter as a sentence says it."""
    bits = f"bits {counter.lsb} to {counter.lsb + counter.width - 1}"
    carried = "" if counter.carried >= counter.lsb + counter.width - 1 else f", seen to carry up to bit {counter.carried}"
    return f"word {counter.word} of subframe {counter.subframe} counts up by one in {bits}{carried}"


def _wrap(dump: Dump) -> list[str]:
    """Whether the end leads on to the beginning."""
    if not dump.wrap:
        return []
    if dump.wrap.begin is None:
        return ["wrapped   the end leads on to the beginning; where the oldest frame begins can't be told"]
    if not dump.form.rotate:
        return []
    return ["wrapped   the end leads on to the beginning: the oldest frame is put first, and the newest last"]
