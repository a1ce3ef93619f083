"""What a raw number means: the exact way between a resolution with an offset and the numbers of a table."""

from dataclasses import dataclass
from fractions import Fraction

MOST = 1_000_000_000  # of num and den
MOST_OFFSET = 1_000_000_000_000_000
MOST_DECIMALS = 9


@dataclass(frozen=True)
class Scale:
    """A value is `offset + floor(raw * num / den)`, in units of the last decimal."""

    num: int
    den: int
    offset: int
    decimals: int

    @property
    def unit(self) -> Fraction:
        """One of a value's last decimal."""
        return Fraction(1, 10**self.decimals)

    @property
    def step(self) -> Fraction:
        """What one more of the raw number adds to a value, before it is rounded down."""
        return Fraction(self.num, self.den * 10**self.decimals)

    def value(self, raw: int) -> Fraction:
        """The value of a raw number."""
        return Fraction(self.offset + raw * self.num // self.den, 10**self.decimals)

    def text(self, raw: int) -> str:
        """The value of a raw number, as it is listed."""
        return decimal_text(self.value(raw), self.decimals)


def raw_limits(sign: str, width: int) -> tuple[int, int]:
    """The least and the greatest raw number."""
    return (-(1 << (width - 1)), (1 << (width - 1)) - 1) if sign == "S" else (0, (1 << width) - 1)


def decimal_text(number: Fraction, decimals: int) -> str:
    """A number that has so many decimals, with all of them."""
    units = int(number * 10**decimals)
    digits = str(abs(units)).rjust(decimals + 1, "0")
    whole, rest = digits[: len(digits) - decimals], digits[len(digits) - decimals :]
    return ("-" if units < 0 else "") + whole + ("." + rest if decimals else "")


def decimals_of(number: Fraction) -> int | None:
    """How many decimals a number has, or None where it has no end."""
    rest, twos, fives = number.denominator, 0, 0
    while rest % 2 == 0:
        rest, twos = rest // 2, twos + 1
    while rest % 5 == 0:
        rest, fives = rest // 5, fives + 1
    return max(twos, fives) if rest == 1 else None


def exact_text(number: Fraction) -> str:
    """A number by its decimals, or as a fraction where they have no end."""
    decimals = decimals_of(number)
    return f"{number.numerator}/{number.denominator}" if decimals is None else decimal_text(number, decimals)


def scale_of(resolution: Fraction, offset: Fraction, decimals: int | None) -> Scale:
    """The scale of a resolution and an offset. Without decimals each value is listed exactly, by as few as there can be; with them
    it is rounded down to them. A ValueError says why there is none, with the nearest resolution that has one."""
    places = _exact_decimals(resolution, offset) if decimals is None else decimals
    if (decimals_of(offset) or 0) > places or decimals_of(offset) is None:
        raise ValueError(f"the offset {exact_text(offset)} isn't exact with {places} decimals")
    units = resolution * 10**places
    if not _fits(units):
        raise ValueError(_too_fine(resolution, places))
    if abs(offset * 10**places) > MOST_OFFSET:
        raise ValueError(f"the offset {exact_text(offset)} is too large for {places} decimals")
    return Scale(units.numerator, units.denominator, int(offset * 10**places), places)


def _fits(units: Fraction) -> bool:
    """Whether a table can have a number as its num and den."""
    return abs(units.numerator) <= MOST and units.denominator <= MOST


def _too_fine(resolution: Fraction, places: int) -> str:
    """What is wrong with a resolution that can't be had with so many decimals, and what can be had."""
    size, sign = abs(resolution), "-" if resolution < 0 else ""
    near = {one: _nearest(size * 10**one) / 10**one for one in range(MOST_DECIMALS + 1)}
    best = min(near, key=lambda one: (abs(near[one] - size), abs(one - places)))
    said = f"{exact_text(resolution)} can't be exact with {places} decimals"
    if near[best] == size:
        return f"{said}, but with {best}"
    return f"{said}; the nearest that can be is {sign}{exact_text(near[best])}" + (f" with {best}" if best != places else "")


def _exact_decimals(resolution: Fraction, offset: Fraction) -> int:
    """The fewest decimals by which each value is exact."""
    needed = decimals_of(resolution)
    if needed is None or needed > MOST_DECIMALS or abs(resolution) * 10**needed > MOST:
        takes = "decimals without an end" if needed is None else f"{needed} decimals"
        most = max((places for places in range(MOST_DECIMALS + 1) if abs(resolution) * 10**places <= MOST), default=0)
        near = Fraction(min(max(round(abs(resolution) * 10**most), 1), MOST), 10**most)
        sign = "-" if resolution < 0 else ""
        raise ValueError(
            f"{exact_text(resolution)} takes {takes}: the nearest that can be listed exactly is {sign}{exact_text(near)}; "
            "or give decimals, to which values are rounded down"
        )
    offset_needs = decimals_of(offset)
    return max(needed, 0 if offset_needs is None else min(offset_needs, MOST_DECIMALS))


def _nearest(number: Fraction) -> Fraction:
    """The nearest number above 0 whose numerator and denominator a table can have."""
    if number >= MOST:
        return Fraction(MOST)
    if number <= Fraction(1, MOST):
        return Fraction(1, MOST)
    if number <= 1:
        return number.limit_denominator(MOST)
    return min(_around(1 / number), key=lambda inverse: abs(1 / inverse - number)) ** -1


def _around(number: Fraction) -> tuple[Fraction, Fraction]:
    """The nearest number and its neighbour on the other side, of those whose denominators a table can have."""
    near = number.limit_denominator(MOST)
    if near == number:
        return near, near
    # The neighbour p/q of a/b has |p b - q a| = 1, and the greatest q that is allowed.
    above, below = near.numerator, near.denominator
    way = 1 if near < number else -1
    first = pow(above, -1, below) * -way % below if below > 1 else 0
    below_other = first + (MOST - first) // below * below
    other = Fraction(below_other * above + way, below * below_other) if below_other else near
    return near, other
