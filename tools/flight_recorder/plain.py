"""Rows of plain numbers, read many at once: no quotes, no blank lines, as many fields in each, and fields of digits alone.

What isn't plain is read one by one elsewhere, and nothing here says what is wrong with it."""

from dataclasses import dataclass
from typing import Iterator, Mapping

import numpy as np

from .arrays import Array
from .streams import Input

AT_ONCE = 1 << 20
NEWLINE, COMMA, POINT, ZERO = (ord(sign) for sign in "\n,.0")
MOST_WIDTH = 32  # of a field
MOST_DIGITS = 15  # of a number that is exact
VALUES = np.full(256, 255, dtype=np.uint8)  # of digits, up to those of 16
for _digit, _sign in enumerate(b"0123456789abcdef"):
    VALUES[_sign] = VALUES[bytes([_sign]).upper()[0]] = _digit
POWERS = 10.0 ** np.arange(MOST_DIGITS + 1)


class NotPlain(Exception):
    """Rows aren't plain."""


@dataclass(frozen=True)
class Lines:
    """Whole lines of an input, or its rest."""

    data: bytes
    source: Input | None = None

    def lines(self) -> Iterator[str]:
        """The lines as text, and those that come after them where it is the rest."""
        for line in self.data.splitlines(keepends=True):
            yield line.decode("utf-8", "surrogateescape")
        if self.source is not None:
            yield from self.source.lines()


def pieces(source: Input) -> Iterator[tuple[Lines, bool]]:
    """An input as whole lines, and whether they may be plain. From the first quote on it is one piece, since a quoted field may
    have several lines."""
    left = b""
    while data := source.read(AT_ONCE):
        data = left + data
        if b'"' in data:
            yield Lines(data + source.file.readline(), source), False
            return
        whole = data.rfind(b"\n") + 1
        left = data[whole:]
        if whole:
            yield lines_of(data[:whole])
    if left:
        yield Lines(left), False


def lines_of(data: bytes) -> tuple[Lines, bool]:
    """Lines, and whether they may be plain; of lines that end as in a spreadsheet's file the ends are made plain."""
    plain = data.replace(b"\r\n", b"\n") if b"\r" in data else data
    is_plain = b"\r" not in plain and b"\n\n" not in plain and not plain.startswith(b"\n")
    return (Lines(plain), True) if is_plain else (Lines(data), False)


@dataclass(frozen=True)
class Heads:
    """Texts of rows: each text once for rows that follow each other, and which of them each row has."""

    texts: list[str]
    codes: Array


@dataclass
class Column:
    """Fields of rows: their bytes, with zeros after each, and their lengths."""

    text: Array
    length: Array

    def __len__(self) -> int:
        return len(self.length)

    def text_of(self, row: int) -> str:
        """The field of a row."""
        return self.text[row, : self.length[row]].tobytes().decode("ascii", "replace")

    def whole(self, base: int, may_be_empty: bool) -> Array:
        """Whole numbers of up to ten digits."""
        if len(self) and (int(self.length.max()) > 10 or not may_be_empty and int(self.length.min()) < 1):
            raise NotPlain
        number = np.zeros(len(self), dtype=np.int64)
        for place in range(int(self.length.max(initial=0))):
            digit = VALUES[self.text[:, place]]
            inside = self.length > place
            if ((digit >= base) & inside).any():
                raise NotPlain
            number = np.where(inside, number * base + digit, number)
        return number

    def number(self) -> Array:
        """Numbers that may have a point, each the nearest one to its text."""
        digits = np.zeros(len(self), dtype=np.int64)
        decimals = np.zeros(len(self), dtype=np.int64)
        count = np.zeros(len(self), dtype=np.int64)
        after_point = np.zeros(len(self), dtype=bool)
        for place in range(int(self.length.max(initial=0))):
            sign = self.text[:, place]
            digit = sign - np.uint8(ZERO)
            is_digit = digit <= 9
            is_point = sign == POINT
            if (~is_digit & ~(is_point & ~after_point) & (self.length > place)).any():
                raise NotPlain
            digits = np.where(is_digit, digits * 10 + digit, digits)
            count += is_digit
            decimals += is_digit & after_point
            after_point |= is_point
        if len(self) and (int(count.min()) < 1 or int(digits.max()) >= 1 << 53 or int(count.max()) > 18):
            raise NotPlain
        if len(self) and int(decimals.max()) > MOST_DIGITS:
            raise NotPlain
        return digits / POWERS[decimals]

    def split_last(self, sign: str, tail: bytes) -> tuple[Heads, "Column"]:
        """What is before the last such sign, and what is after it, without this tail where it has one."""
        length = self.length.copy()
        if tail and len(self):
            has_tail = self.text[np.arange(len(self)), np.maximum(length - 1, 0)] == tail[0]
            if has_tail.any() and not has_tail.all():
                raise NotPlain
            length -= has_tail
        width = self.text.shape[1]
        is_sign = self.text == ord(sign)
        if not is_sign.any(axis=1).all():
            raise NotPlain
        at = width - 1 - np.argmax(is_sign[:, ::-1], axis=1)
        if int(at.min()) != int(at.max()):
            raise NotPlain
        cut = int(at[0])
        changes = np.flatnonzero(np.insert((self.text[1:, :cut] != self.text[:-1, :cut]).any(axis=1), 0, True))
        codes = np.repeat(np.arange(len(changes)), np.diff(changes, append=len(self)))
        texts = [self.text[row, :cut].tobytes().decode("ascii", "replace") for row in changes.tolist()]
        rest = self.text[:, cut + 1 :].copy()
        rest[np.arange(rest.shape[1]) >= (length - cut - 1)[:, np.newaxis]] = 0
        return Heads(texts, codes), Column(rest, length - cut - 1)


class Fields:
    """The fields of lines that have so many of them each."""

    def __init__(self, data: bytes, count: int) -> None:
        self.text = np.frombuffer(data + bytes(MOST_WIDTH), dtype=np.uint8)
        signs = np.flatnonzero((self.text == COMMA) | (self.text == NEWLINE))
        if len(signs) % count:
            raise NotPlain
        self.signs = signs.reshape(-1, count)
        ends = self.text[signs].reshape(-1, count) == NEWLINE
        if not ends[:, -1].all() or ends[:, :-1].any():
            raise NotPlain
        self.count = count

    def __len__(self) -> int:
        return len(self.signs)

    def column(self, at: int) -> Column:
        """A column."""
        ends = self.signs[:, at]
        starts = self.signs[:, at - 1] + 1 if at else np.insert(self.signs[:-1, -1] + 1, 0, 0)
        length = ends - starts
        width = int(length.max(initial=1)) or 1
        if width > MOST_WIDTH:
            raise NotPlain
        each: Array = np.ndarray(len(self.text) - width + 1, dtype=f"V{width}", buffer=self.text, strides=(1,))
        text = each[starts].view(np.uint8).reshape(len(self), width)
        if int(length.min(initial=width)) < width:
            keep = np.arange(width) < np.arange(width + 1)[:, np.newaxis]
            text = text * keep.view(f"V{width}").ravel()[length].view(bool).reshape(text.shape)
        return Column(text, length)

    def codes(self, at: int, names: Mapping[str, int]) -> Array:
        """A column of numbers and of these names, as numbers."""
        column = self.column(at)
        if not names:
            return column.whole(10, False)
        texts = np.ascontiguousarray(column.text).view(f"S{column.text.shape[1]}").ravel()
        numbers = np.full(len(self), -1, dtype=np.int64)
        for name, number in names.items():
            numbers[texts == name.encode()] = number
        others = np.flatnonzero(numbers < 0)
        if len(others):
            numbers[others] = Column(column.text[others], column.length[others]).whole(10, False)
        return numbers
