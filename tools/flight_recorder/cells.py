"""What the cells of a layout's sheet say. A ValueError has what is wrong with one."""

import re
from dataclasses import dataclass
from fractions import Fraction

MONTHS = "jan|feb|mar|apr|may|jun|jul|aug|sep|oct|nov|dec"
DATE = re.compile(rf"(?i)\d{{1,4}}[-./ ]({MONTHS})[a-z]*.*|({MONTHS})[a-z]*[-./ ]\d.*|\d{{1,4}}([-./])\d{{1,2}}\3\d{{1,4}}( .*)?")
NUMBER = r"[+-]?(?:\d{1,30}(?:\.\d{1,30})?|\.\d{1,30})"
TERM = rf"{NUMBER}(?:\^\d{{1,2}})?"
RUN = r"\d{1,9}(?:\s*/\s*\d{1,9}|\s+every\s+\d{1,9})?"
SPAN = r"\d{1,9}(?:\s*(?:-|\.\.|to)\s*\d{1,9})?"
BETWEEN = r"\s*[,;+&]\s*|\s+"
PERIODS = (1, 2, 4, 8, 16)
SIGNS = {
    "U": ("", "u", "no", "n", "false", "unsigned"),
    "S": ("s", "yes", "y", "true", "signed", "two's complement", "twos complement", "2's complement"),
    "V": ("v", "fresh"),
}
UNREAD = {
    "bcd": "digits aren't read as one number: give each digit a row of its own, of its four bits",
    "sign-magnitude": "sign and magnitude aren't read as one number: give the sign's bit a row of its own",
}


@dataclass(frozen=True)
class Run:
    """A word of a subframe, and the words from one occurrence to the next, or 0."""

    word: int
    step: int


@dataclass(frozen=True)
class BitSpan:
    """Bits of a word: the lowest one, and how many."""

    lsb: int
    width: int


@dataclass(frozen=True)
class Recurrence:
    """One frame of each period, counted from 0."""

    cycle: int
    period: int


@dataclass(frozen=True)
class Range:
    """The least value, and the value that all bits together would have with one step more than the greatest."""

    least: Fraction
    end: Fraction


def plain(text: str) -> str:
    """A text with the signs that keyboards have. What a spreadsheet made a date is refused."""
    text = text.replace("\u2212", "-").replace("\u2013", "-").replace("\u2026", "..").replace("\u2019", "'")
    if DATE.fullmatch(text):
        raise ValueError(f"{text!r} is a date, which a spreadsheet made of a range or a fraction: its column has to be text, "
                         "or write 1..4 for 1-4 and 9 every 32 for 9/32")
    return text


def _spans(text: str, kind: str, most: int) -> list[int]:
    """The numbers of a list of numbers and spans, each once."""
    if not re.fullmatch(rf"{SPAN}(?:(?:{BETWEEN}){SPAN})*", text):
        raise ValueError(f"{text!r} isn't {kind}")
    numbers: list[int] = []
    for one in re.findall(SPAN, text):
        ends = [int(end) for end in re.findall(r"\d+", one)]
        if not 1 <= min(ends) <= max(ends) <= most:
            raise ValueError(f"{text!r} isn't {kind}")
        numbers += range(min(ends), max(ends) + 1)
    if len(set(numbers)) < len(numbers):
        raise ValueError(f"{text!r} has one of them twice")
    return sorted(numbers)


def subframes_of(text: str) -> tuple[int, ...]:
    """Subframes, as `all`, `1,3` or `1-4`."""
    if text.lower() == "all":
        return (1, 2, 3, 4)
    return tuple(_spans(plain(text), "subframes from 1 to 4, as all, 1,3 or 1-4", 4))


def runs_of(text: str) -> list[Run]:
    """Words, as `17`, `17,49`, or `9/32` for word 9 and every 32nd after it."""
    text = plain(text)
    if not re.fullmatch(rf"{RUN}(?:(?:{BETWEEN}){RUN})*", text):
        raise ValueError(f"{text!r} isn't words, as 17, 17,49, or 9/32 for word 9 and every 32nd after it")
    runs = []
    for one in re.findall(RUN, text):
        word, *step = (int(number) for number in re.findall(r"\d+", one))
        if step and not 1 <= step[0] <= 1024:
            raise ValueError(f"{text!r}: a step is 1 to 1024 words")
        runs.append(Run(word, step[0] if step else 0))
    return runs


def bits_of(text: str) -> BitSpan:
    """Bits of a word, as `5`, `1-12` or `12..3`; bit 1 is the lowest."""
    numbers = _spans(plain(text).replace(":", "-"), "bits from 1 to 12, as 5, 1-12 or 12..3", 12)
    if numbers != list(range(numbers[0], numbers[-1] + 1)):
        raise ValueError(f"{text!r}: the bits of a place follow each other; others are another part, with a row of its own")
    return BitSpan(numbers[0], len(numbers))


def recurrences_of(text: str) -> list[Recurrence]:
    """Frames of a superframe, as `3 of 16` or `1,9 of 16`, counted from 1; every frame where it is empty or `all`."""
    if text.lower() in ("", "all"):
        return [Recurrence(0, 1)]
    found = re.fullmatch(r"(.+?)\s*(?:\bof\b|/)\s*(\d{1,9})", plain(text), re.I)
    if not found:
        raise ValueError(f"{text!r} isn't a frame's number in its superframe, as 3 of 16")
    period = int(found.group(2))
    if period not in PERIODS:
        raise ValueError(f"{text!r}: a superframe has 1, 2, 4, 8 or 16 frames")
    numbers = _spans(found.group(1).strip(), f"frames from 1 to {period}, as {period} of {period}", period)
    return [Recurrence(number - 1, period) for number in numbers]


def sign_of(text: str) -> str:
    """The sign of a table: U, S or V."""
    text = plain(text).lower()
    if text in UNREAD:
        raise ValueError(UNREAD[text])
    sign = next((sign for sign, words in SIGNS.items() if text in words), None)
    if sign is None:
        raise ValueError(f"{text!r} is neither unsigned, signed (two's complement) nor fresh")
    return sign


def number_of(text: str, has_commas: bool) -> Fraction:
    """A number, exactly: a decimal, or a fraction as `1/8` or `180/2^11`."""
    text = plain(text)
    if re.fullmatch(r"[+-]?[\d.,]+[eE][+-]?\d+", text):
        raise ValueError(f"{text!r} has an exponent, with which a spreadsheet drops digits: write all of them")
    pointed = re.sub(r"(?<=\d),(?=\d)", ".", text) if has_commas else text
    found = re.fullmatch(rf"({TERM})(?:\s*/\s*({TERM}))?", pointed)
    if not found:
        hint = ": a point is before the decimals" if re.fullmatch(r"[+-]?\d+,\d+", text) else ", as 0.125, 1/8 or 180/2^11"
        raise ValueError(f"{text!r} is no number{hint}")
    above, below = (_term(one or "1") for one in found.groups())
    if below == 0:
        raise ValueError(f"{text!r} divides by 0")
    return above / below


def _term(text: str) -> Fraction:
    base, _, power = text.partition("^")
    return Fraction(base) ** int(power or 1)


def range_of(text: str, has_commas: bool) -> Range:
    """A range, as `0..512` or `+-180`."""
    both = re.fullmatch(r"(?:\+/?-|\u00b1)\s*(.+)", plain(text))
    if both:
        end = number_of(both.group(1), has_commas)
        least = -end
    else:
        number = r"[+-]?(?:\d+(?:[.,]\d+)?|\.\d+)"
        found = re.fullmatch(rf"({number})\s*(?:\.\.|-|\bto\b)\s*({number})", plain(text))
        if not found:
            raise ValueError(f"{text!r} is no range, as 0..512 or +-180")
        least, end = (number_of(one, has_commas) for one in found.groups())
    if least >= end:
        raise ValueError(f"{text!r}: a range goes up")
    return Range(least, end)


def states_of(text: str, has_commas: bool) -> list[tuple[Fraction, str]]:
    """The words for values, as `0=UP; 1=DOWN`."""
    states: list[tuple[Fraction, str]] = []
    for one in re.split(rf"\s*[;|,\s]\s*(?={NUMBER}\s*=)", text.strip(" ;|,")) if text else []:
        number, is_there, word = (part.strip() for part in one.partition("="))
        if not is_there or not word:
            raise ValueError(f"{one!r} isn't a value and its word, as 0=UP; 1=DOWN")
        value = number_of(number, has_commas)
        if value in (known for known, _ in states):
            raise ValueError(f"{number} has two words")
        states.append((value, " ".join(word.split())))
    return states


def whole_of(text: str, least: int, most: int, base: int = 10) -> int:
    """A whole number of a range."""
    digits = "[0-7]{1,3}" if base == 8 else "[0-9]{1,19}"
    if not re.fullmatch(digits, text) or not least <= int(text, base) <= most:
        kind = f"an octal number from {least:o} to {most:o}" if base == 8 else f"a whole number from {least} to {most}"
        raise ValueError(f"{text!r} isn't {kind}")
    return int(text, base)
