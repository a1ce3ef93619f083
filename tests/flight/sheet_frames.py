"""Frames by a sheet of a layout: bits drawn at random, put where the sheet says, with the rows that a listing of them has.

It reads the sheets of the tests in its own way, shares no code with the tools, and knows nothing of tables.
"""

import csv
import math
import random
import re
from dataclasses import dataclass
from decimal import Decimal
from fractions import Fraction
from typing import NamedTuple

SYNCS = (0x247, 0x5B8, 0xA47, 0xDB8)
SUPERFRAME = 16


class Spot(NamedTuple):
    """Bits of a word of a superframe: the frame, the subframe and the word, counted from 1, its lowest bit, and the width."""

    frame: int
    subframe: int
    word: int
    low: int
    width: int


@dataclass
class Drawn:
    """What was drawn: the words of a recording, and the rows of its listing."""

    words: list[int]
    rows: list[str]

    def bits(self) -> bytes:
        """The words, packed."""
        pairs = zip(self.words[0::2], self.words[1::2])
        return b"".join((low | high << 12).to_bytes(3, "little") for low, high in pairs)


def _list(text: str) -> list[int]:
    """The numbers of `all`, `1,3` or `1-4`."""
    numbers: list[int] = []
    for one in ("1-4" if text == "all" else text).split(","):
        first, _, last = one.partition("-")
        numbers += range(int(first), int(last or first) + 1)
    return numbers


def _words(text: str, most: int) -> list[int]:
    """The words of `17`, `17,49`, `9/32` or `9 every 32`."""
    if "," in text:
        return [int(one) for one in text.split(",")]
    first, *step = re.split(r"/| every ", text)
    return list(range(int(first), most + 1, int(step[0]))) if step else [int(first)]


def _frames(text: str) -> list[int]:
    """The frames of a superframe of `3 of 16`, counted from 1."""
    if not text:
        return list(range(1, SUPERFRAME + 1))
    numbers, period = re.split(r"/| of ", text)
    return sorted(frame for number in _list(numbers) for frame in range(number, SUPERFRAME + 1, int(period)))


def _spots(row: dict[str, str], most: int) -> list[Spot]:
    ends = sorted(int(end) for end in re.findall(r"\d+", row["bits"]))
    frames, subframes, words = _frames(row["superframe"]), _list(row["subframes"]), _words(row["word"], most)
    width = ends[-1] - ends[0] + 1
    return [Spot(frame, sub, word, ends[0], width) for frame in frames for sub in subframes for word in words]


def _number(text: str) -> Fraction:
    above, _, below = text.partition("/")
    base, _, power = below.partition("^")
    return Fraction(above) / (Fraction(base or 1) ** int(power or 1))


@dataclass
class Quantity:
    """A parameter of a sheet: the spots of its parts, in order, and what its bits mean."""

    name: str
    parts: list[list[Spot]]
    is_signed: bool
    step: Fraction
    zero: Fraction
    decimals: int

    def text(self, bits: int, width: int) -> str:
        """What a raw number is listed as."""
        raw = bits - (1 << width) if self.is_signed and bits >> (width - 1) else bits
        units = math.floor((raw * self.step + self.zero) * 10**self.decimals)
        return f"{Decimal(units).scaleb(-self.decimals):f}"


def _quantity(rows: list[dict[str, str]], most: int) -> Quantity:
    said = {column: next((row[column] for row in rows if row[column]), "") for column in rows[0]}
    by_part: dict[int, list[Spot]] = {}
    for row in rows:
        by_part.setdefault(int(row["part"] or 1), []).extend(_spots(row, most))
    parts = [sorted(by_part[number]) for number in sorted(by_part)]
    is_signed = said["signed"] in ("signed", "yes", "S")
    step, zero = _number(said["resolution"] or "1"), _number(said["offset"] or "0")
    if said["range"]:
        low, high = (float(one) for one in said["range"].replace("+-180", "-180..180").split(".."))
        step = Fraction(high - low) / 2 ** sum(part[0].width for part in parts)
        zero = Fraction(low + high) / 2 if is_signed else Fraction(low)
    places = [places for places in range(20) if (step * 10**places).denominator == (zero * 10**places).denominator == 1]
    return Quantity(rows[0]["name"], parts, is_signed, step, zero, int(said["decimals"] or (places or [99])[0]))


def quantities(sheet: str) -> tuple[int, list[int], list[Quantity]]:
    """The words of a subframe, the counter's word and subframe, and the parameters."""
    lines = [line for line in sheet.splitlines() if line.strip() and not line.startswith("#")]
    words = int(lines[0].split(",")[1])
    by_name: dict[str, list[dict[str, str]]] = {}
    for row in csv.DictReader(lines[2:]):
        by_name.setdefault(row["name"], []).append(row)
    return words, [int(one) for one in lines[1].split(",")[1:3]], [_quantity(rows, words) for rows in by_name.values()]


def drawn(sheet: str, superframes: int, seed: int) -> Drawn:
    """Whole superframes by a sheet. All bits that the sheet doesn't give to anything are drawn too."""
    words, counter, parameters = quantities(sheet)
    chance = random.Random(seed)
    length = 4 * words
    values = [chance.randrange(1 << 12) for _ in range(SUPERFRAME * superframes * length)]
    for place in range(0, len(values), words):
        values[place] = SYNCS[place // words % 4]
    for number, place in enumerate(range((counter[1] - 1) * words + counter[0] - 1, len(values), length)):
        values[place] = number
    rows = []
    for superframe in range(superframes):
        for one in parameters:
            for sample in zip(*one.parts):
                width = sum(spot.width for spot in sample)
                bits = chance.choice([0, (1 << width) - 1, 1 << (width - 1), *(chance.randrange(1 << width) for _ in range(5))])
                left = bits
                for spot in sample:
                    place = (superframe * SUPERFRAME + spot.frame - 1) * length + (spot.subframe - 1) * words + spot.word - 1
                    mask = ((1 << spot.width) - 1) << (spot.low - 1)
                    values[place] = values[place] & ~mask | (left << (spot.low - 1)) & mask
                    left >>= spot.width
                first = min(sample)
                where = f"{superframe * SUPERFRAME + first.frame - 1},{first.subframe},{first.word}"
                rows.append(f"row,{where},{one.name},{one.text(bits, width)}")
    return Drawn(values, rows)
