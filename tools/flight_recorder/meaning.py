"""What the rows of a layout's sheet say of values: their scale, the words for them, and the bus word that they come from."""

from dataclasses import dataclass
from fractions import Fraction

from . import cells
from .durations import microseconds
from .scale import Scale, decimals_of, exact_text, raw_limits, scale_of
from .sheet import Gathered, Row

MOST_AGE = 64_000_000  # microseconds
OF_SOURCES = ("bus", "label", "sdi", "lsb", "age")


@dataclass(frozen=True)
class Source:
    """Where a parameter comes from, as the fields of a table."""

    bus: int = 0
    label: int = 0
    sdi: str = ""
    lsb: int = 1
    age: str = ""


@dataclass(frozen=True)
class Values:
    """The sign and the bits of a raw number, or no bits where they aren't known, and whether its sheet has decimal commas."""

    sign: str
    width: int
    has_commas: bool

    def number(self, text: str) -> Fraction | None:
        """A number, or nothing."""
        return cells.number_of(text, self.has_commas) if text else None


def scale_in(row: Row, values: Values, faults: Gathered) -> Scale | None:
    """The scale that a row says; None after a fault, and where the bits aren't known."""
    before = len(faults.found)
    decimals = faults.cell(row, "decimals", lambda text: cells.whole_of(text, 0, 9) if text else None)
    offset = faults.cell(row, "offset", values.number)
    if row.text("range"):
        resolution, offset = _ranged(row, values, offset, faults)
    else:
        resolution = _resolution(row, values, faults)
    if not values.width or len(faults.found) > before or resolution is None:
        return None
    try:
        return scale_of(resolution, offset or Fraction(0), decimals)
    except ValueError as error:
        column = "offset" if str(error).startswith("the offset") else "range" if row.text("range") else "resolution"
        faults.complain(row, column, str(error))
        return None


def _resolution(row: Row, values: Values, faults: Gathered) -> Fraction | None:
    """What a resolution says. Without one it is 1, of a single bit or of values that have words."""
    if not row.text("resolution"):
        if values.width > 1 and not row.text("states"):
            faults.complain(row, "resolution", "neither a resolution nor a range; 1 where the raw number is the value")
        return Fraction(1)
    resolution = faults.cell(row, "resolution", values.number)
    if resolution == 0:
        faults.complain(row, "resolution", "0: all values would be alike")
    return resolution


def _ranged(
    row: Row, values: Values, offset: Fraction | None, faults: Gathered
) -> tuple[Fraction | None, Fraction | None]:
    """The resolution and the offset of a range, whose end is one step above the greatest value."""
    span = faults.cell(row, "range", lambda text: cells.range_of(text, values.has_commas))
    if row.text("resolution"):
        faults.complain(row, "range", "there is a resolution too: give one of them")
    if span is None or not values.width:
        return None, offset
    length, steps = span.end - span.least, 1 << values.width
    if values.sign != "S" and span.least < 0 and not row.text("signed"):
        faults.complain(row, "signed", "the range goes below 0: signed, or unsigned with raw 0 as the least value?")
    is_balanced = values.sign == "S" and span.least == -span.end  # two's complement has no such values with both ends
    if not is_balanced and decimals_of(length / (steps - 1)) is not None:
        low, high = exact_text(length / steps), exact_text(length / (steps - 1))
        text = f"a step of {low} if its end is one step above all bits, and of {high} if it is all of them: give the resolution"
        faults.complain(row, "range", f"with {values.width} bit{'s' * (values.width > 1)} {text}")
    zero = (span.least + span.end) / 2 if values.sign == "S" else span.least
    if row.text("offset") and offset is not None and offset != zero:
        faults.complain(row, "offset", f"by the range it is {exact_text(zero)}")
    return length / steps, zero


def states_in(row: Row, values: Values, scale: Scale | None, faults: Gathered) -> dict[str, str]:
    """The words for values, as these are listed."""
    said = faults.cell(row, "states", lambda text: cells.states_of(text, values.has_commas)) or []
    states: dict[str, str] = {}
    if scale is None:
        return states
    least, greatest = raw_limits(values.sign, values.width)
    for value, word in said:
        near = round((value - Fraction(scale.offset, 10**scale.decimals)) / scale.step)
        raws = [raw for raw in range(near - 1, near + 2) if least <= raw <= greatest and scale.value(raw) == value]
        if raws:
            states[scale.text(raws[0])] = word
        else:
            ends = " to ".join(exact_text(end) for end in sorted((scale.value(least), scale.value(greatest))))
            text = f"{exact_text(value)} ({word}) is no value of it: these are {ends} in steps of {exact_text(abs(scale.step))}"
            faults.complain(row, "states", text)
    return states


def source_in(row: Row, values: Values, faults: Gathered) -> Source:
    """Where a parameter comes from, in a sheet that says it of any."""
    bus = faults.cell(row, "bus", lambda text: cells.whole_of(text, 0, 255) if text else 0)
    if not row.text("label"):
        text = f"other rows have one of {', '.join(OF_SOURCES)}, so each parameter needs its label"
        faults.complain(row, "label", text)
    label = faults.cell(row, "label", lambda text: cells.whole_of(text, 0, 0o377, 8) if text else 0)
    sdi = faults.cell(row, "sdi", lambda text: "" if text in ("", "any") else str(cells.whole_of(text, 0, 3)))
    age = faults.cell(row, "age", _age)
    if not row.text("lsb") and values.sign != "V":
        faults.complain(row, "lsb", "each parameter with a label needs the lowest bit of its field in the bus word")
    lsb = faults.cell(row, "lsb", lambda text: cells.whole_of(text, 1, 32) if text else 1) or 1
    if lsb + max(values.width, 1) - 1 > 32:
        faults.complain(row, "lsb", f"{values.width} bits from bit {lsb} on end above bit 32 of the bus word")
    return Source(bus or 0, label or 0, sdi or "", lsb, age or "")


def _age(text: str) -> str:
    if not text:
        return ""
    age = microseconds(text.replace(" ", ""))
    if age > MOST_AGE:
        raise ValueError(f"{text!r} is above 64 s")
    return str(age)
