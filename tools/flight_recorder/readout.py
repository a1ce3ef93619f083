"""The commands that make bits which `fdr` reads out of foreign dumps: their options, and what each runs."""

from __future__ import annotations

import argparse
import pathlib
import sys
from typing import TYPE_CHECKING, Any, Callable

from .faults import Fault
from .streams import opened, standard_output, whole_file

if TYPE_CHECKING:
    from . import recount
    from .counting import Counter
    from .forms import Form, Units
    from .levels import Decoded
    from .lines import Stored

Add = Callable[..., argparse.ArgumentParser]
Commands = Any  # what argparse adds commands to: its type has no public name
DONE, NOTHING = 0, 2
WIDTHS = (64, 128, 256, 512, 1024)
MOST_PLACES = 20  # unclear ones that are printed


def add_commands(commands: Commands, command: Add) -> None:
    """Adds the commands, by what adds one with its example."""
    for add in (_add_look, _add_pack, _add_unpack, _add_levels, _add_recount, _add_image):
        add(commands, command)


def _add_look(commands: Commands, command: Add) -> None:
    parser = command(
        commands,
        "look",
        _run_look,
        f"find frames in a file of any form, and print the line that reads it; status {NOTHING} where there are none",
        "flight look dump.bin",
    )
    parser.add_argument("file", metavar="FILE", help="a dump, or samples of a line; - for standard input")
    parser.add_argument("--table", metavar="TABLE", help="a table, for a line that goes on to the listing")


def _run_look(given: argparse.Namespace) -> int:
    from . import look, look_report
    from .lines import stored

    with stored(given.file) as file:
        dump = look.look(file)
        lines = look_report.note(file, given.file)
        lines += look_report.report(dump, given.file, given.table) if dump else [look_report.NOTHING]
    with standard_output() as out:
        out.write("".join(f"{line}\n" for line in lines).encode())
    return DONE if dump else NOTHING


def _add_units(parser: argparse.ArgumentParser) -> None:
    parser.add_argument(
        "--order", choices=["little", "big"], help="which byte of a unit is first; little if it isn't given"
    )
    parser.add_argument(
        "--align", choices=["right", "left"], help="which 12 bits of a unit have the word; right if it isn't given"
    )


def _number(text: str) -> int:
    """A number of an option: 0 or more."""
    if not text.isascii() or not text.isdigit():
        raise argparse.ArgumentTypeError(f"{text!r} isn't a number from 0 on")
    return int(text)


def _add_pack(commands: Commands, command: Add) -> None:
    parser = command(
        commands,
        "pack",
        _run_pack,
        "make packed bits, as fdr reads them, of a dump in any form that flight look names",
        "flight pack dump.bin --order big | fdr listbits examples/ordinary.csv",
    )
    parser.add_argument("dump", metavar="DUMP", help="a dump; - for standard input")
    _add_units(parser)
    parser.add_argument("--packed", choices=["low-first", "high-first"], help="words without bits between them")
    parser.add_argument("--ignore-spare", action="store_true", help="don't refuse units with bits outside their words")
    parser.add_argument("--skip", metavar="N", type=_number, default=0, help="bytes before the words, or the blocks")
    parser.add_argument("--block", metavar="N", type=_number, default=0, help="bytes of a block, all in all")
    parser.add_argument("--head", metavar="N", type=_number, default=0, help="bytes in front of each block's words")
    parser.add_argument("--tail", metavar="N", type=_number, default=0, help="bytes behind each block's words")
    parser.add_argument("--swap", action="store_true", help="swap the bytes of each pair")
    parser.add_argument("--reverse", action="store_true", help="reverse the bits of each byte")
    parser.add_argument("--backwards", action="store_true", help="put all bits in reverse order")
    parser.add_argument("--invert", action="store_true", help="invert all bits")
    parser.add_argument("--rotate", metavar="BIT", type=_number, default=0, help="begin at a bit, those before it last")
    parser.add_argument("--phase", metavar="BITS", type=_number, default=0, help="bits before the first word")


def _units(given: argparse.Namespace) -> Units:
    """How a dump holds its words in units."""
    from . import forms

    return forms.Units(forms.Order(given.order or "little"), forms.Align(given.align or "right"))


def _form(given: argparse.Namespace) -> Form:
    """The form that the words of a command say."""
    from . import forms

    if given.packed and (given.order or given.align):
        raise Fault("--packed is of words without bits between them, --order and --align of words in units of 16 bits")
    sizes = {name: getattr(given, name) for name in ("skip", "block", "head", "tail", "rotate", "phase")}
    switches = {name: getattr(given, name) for name in ("swap", "reverse", "backwards", "invert", "ignore_spare")}
    words: forms.Units | forms.Packed = forms.Packed(given.packed) if given.packed else _units(given)
    return forms.Form(**sizes, **switches, words=words)


def _run_pack(given: argparse.Namespace) -> None:
    from . import dump
    from .lines import progress_over, stored

    form = _form(given)
    form.check()
    with stored(given.dump) as file, standard_output() as out, progress_over(file, file.size):
        try:
            dump.pack(file, out, form)
        except dump.SpareBits as fault:
            raise Fault(f"{fault}; {_advice(given.dump, file)}") from None


def _advice(path: str, file: Stored) -> str:
    """What to try where a dump has another form: what a look at it finds."""
    from . import look, look_report

    found = look.look(file)
    if not found:
        return "flight look finds no frames in it in any form; --ignore-spare drops what isn't a word's"
    return f"by its sync words it is read by: {look_report.command(found, path, None)}"


def _add_unpack(commands: Commands, command: Add) -> None:
    parser = command(
        commands,
        "unpack",
        _run_unpack,
        "unpack bits into units of 16 bits",
        "fdr recover flight.img | flight unpack - --order big > dump.bin",
    )
    parser.add_argument("bits", metavar="BITS", help="packed bits, two words in three bytes; - for standard input")
    _add_units(parser)


def _run_unpack(given: argparse.Namespace) -> None:
    from . import dump

    with opened(given.bits) as source, standard_output() as out:
        dump.unpack(source, out, _units(given))


def _add_levels(commands: Commands, command: Add) -> None:
    parser = command(
        commands,
        "levels",
        _run_levels,
        "make the two levels a bit that fdr decode reads of a line that was sampled at any rate",
        "flight levels capture.bin --rate 98304 | fdr decode > flight.bits",
    )
    parser.add_argument("capture", metavar="CAPTURE", help="samples, a bit for each; - for standard input")
    speed = parser.add_mutually_exclusive_group(required=True)
    speed.add_argument("--rate", metavar="HZ", type=_positive, help="samples a second")
    speed.add_argument("--samples", metavar="N", type=_positive, help="samples a bit, whole or not")
    parser.add_argument(
        "--words", metavar="N", type=int, choices=WIDTHS, help="with --rate: the words of a subframe; seen if not given"
    )
    parser.add_argument("--reverse", action="store_true", help="the highest bit of a byte is the first sample")


def _positive(text: str) -> float:
    """A number of an option: above 0."""
    try:
        value = float(text)
    except ValueError:
        value = 0.0
    if not 0 < value < 1e12:
        raise argparse.ArgumentTypeError(f"{text!r} isn't a number above 0")
    return value


def _run_levels(given: argparse.Namespace) -> None:
    from . import levels
    from .lines import progress_over, stored

    with stored(given.capture) as file, standard_output() as out, progress_over(file, file.size):
        samples = given.samples or levels.rate_to_samples(file, given.reverse, given.rate, given.words)
        decoded = levels.convert(file, samples, given.reverse, out)
    _tell_unclear(decoded)


def _tell_unclear(decoded: Decoded) -> None:
    """Says where bits are left out."""
    for place in decoded.unclear[:MOST_PLACES]:
        said = f"samples {place.begin} to {place.end} are unclear: bits are left out before bit {place.bit}"
        print(f"flight: {said}", file=sys.stderr)
    if len(decoded.unclear) > MOST_PLACES:
        print(f"flight: {len(decoded.unclear) - MOST_PLACES} more places are unclear", file=sys.stderr)


def _add_recount(commands: Commands, command: Add) -> None:
    parser = command(
        commands,
        "recount",
        _run_recount,
        "copy bits, with a frame counter of 12 bits in a word that the table doesn't use",
        "flight recount dump.bits --words 256 --from 1,2,1,4 --into 4,256 > counted.bits",
    )
    parser.add_argument("bits", metavar="BITS", help="packed bits; - for standard input")
    parser.add_argument(
        "--words", metavar="N", type=int, choices=WIDTHS, required=True, help="the words of a subframe"
    )
    source = parser.add_mutually_exclusive_group(required=True)
    source.add_argument(
        "--from", dest="source", metavar="SUBFRAME,WORD,LSB,WIDTH", type=_numbers(4), help="the recorder's own counter"
    )
    source.add_argument("--frames", action="store_true", help="number the frames, from 0 on")
    parser.add_argument("--into", metavar="SUBFRAME,WORD", type=_numbers(2), required=True, help="the counter's word")


def _numbers(count: int) -> Callable[[str], list[int]]:
    """Reads so many numbers with commas between them."""

    def read(text: str) -> list[int]:
        fields = text.split(",")
        if len(fields) != count or not all(field.isascii() and field.isdigit() for field in fields):
            raise argparse.ArgumentTypeError(f"{text!r} isn't {count} numbers with commas between them")
        return [int(field) for field in fields]

    return read


def _run_recount(given: argparse.Namespace) -> None:
    from . import counting, recount
    from .lines import progress_over, stored

    source = counting.Counter(*given.source) if given.source else None
    into = recount.Place(*given.into)
    recount.check(given.words, source, into)
    with stored(given.bits) as file, standard_output() as out, progress_over(file, file.size):
        changed = recount.recount(file, given.words, source, into, out)
        if not changed.frames:
            raise Fault(f"no frame of {given.words} words in a subframe: nothing was counted; flight look finds frames")
    _tell_recounted(changed, source, into)


def _tell_recounted(changed: recount.Recounted, source: Counter | None, into: recount.Place) -> None:
    """Says what was changed."""
    said = f"{changed.frames} frames have a counter in word {into.word} of subframe {into.subframe}, which wasn't recorded"
    print(f"flight: {said}; {changed.replaced} of them had something else there", file=sys.stderr)
    if changed.breaks and source is None:
        print(f"flight: over {changed.breaks} gaps frames were counted by the bits between them", file=sys.stderr)


def _add_image(commands: Commands, command: Add) -> None:
    parser = command(
        commands,
        "image",
        _run_image,
        "make an image of files of bits, a session of each, so that fdr list, salvage and exceed read them",
        "flight image first.bits second.bits -o flights.img --words 256",
    )
    parser.add_argument("bits", metavar="BITS", nargs="+", help="packed bits; 268,435,456 bytes in all, or fewer")
    parser.add_argument("-o", "--output", metavar="IMAGE", required=True, help="the image")
    parser.add_argument(
        "--words", metavar="N", type=int, choices=WIDTHS, required=True, help="the words of a subframe"
    )


def _run_image(given: argparse.Namespace) -> None:
    from . import images

    with whole_file(pathlib.Path(given.output)) as half, open(half, "wb") as out:
        sessions = images.write_image(given.bits, given.words, out)
    for one in sessions:
        print(f"session {one.session}, block {one.first}: {one.path}, {one.size} bytes, sha256 {one.sum}")
