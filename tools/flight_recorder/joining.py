"""Text put together from many places at once."""

from dataclasses import dataclass

import numpy as np

from .arrays import Array
from .clock import SECOND

FRACTIONS = np.frombuffer(
    b"".join(b".%06d," % round(tick * 1_000_000 / SECOND) for tick in range(SECOND)), dtype=np.uint64
)
FRACTION = 7  # bytes of one, before its comma
MOST_DIGITS = 32  # of a whole number, and more
THREE_DIGITS = np.frombuffer(b"".join(b"%03d" % number for number in range(1000)), dtype=np.uint8).reshape(-1, 3)
TENS = 10 ** np.arange(19)


@dataclass
class Places:
    """Pieces of a text, in the order in which they are joined: where each begins and how long it is."""

    start: Array
    length: Array


def joined(text: Array, places: Places) -> bytes:
    """The pieces of a text, one after another."""
    lengths, starts = places.length.ravel(), places.start.ravel()
    if not lengths.all():
        there = lengths > 0
        lengths, starts = lengths[there], starts[there]
    if not len(lengths):
        return b""
    ends = np.cumsum(lengths)
    where = np.ones(int(ends[-1]), dtype=np.int64)
    where[0] = starts[0]
    where[ends[:-1]] = starts[1:] - starts[:-1] - lengths[:-1] + 1
    return np.take(text, np.cumsum(where, out=where), mode="clip").tobytes()


class Text:
    """A text that grows, whose pieces are joined at the end."""

    def __init__(self, text: Array) -> None:
        self.parts = [text]
        self.size = len(text)

    def add(self, part: Array | bytes) -> int:
        """Adds bytes, and answers where they begin."""
        part = np.frombuffer(part, dtype=np.uint8) if isinstance(part, bytes) else part
        begin = self.size
        self.parts.append(part)
        self.size += len(part)
        return begin

    def add_each(self, parts: list[bytes]) -> Places:
        """Adds several pieces, and answers where they are."""
        lengths = np.array([len(part) for part in parts], dtype=np.int64)
        return Places(self.add(b"".join(parts)) + np.cumsum(lengths) - lengths, lengths)

    def whole(self) -> Array:
        """All of it."""
        return np.concatenate(self.parts)


@dataclass
class Field:
    """A field of each row: as many bytes of each as the longest has, and how long it is."""

    text: Array
    length: Array | int  # of each, or of all


def numbers_after(texts: list[bytes], which: Array, numbers: Array, counts: Array) -> Field:
    """A field that has these whole numbers of 0 or more, each after a text and in so many rows that follow each other: `which` is
    the text of each number, and `counts` how many rows have it."""
    written = _digits_of(numbers)
    lengths = np.maximum(np.searchsorted(TENS, numbers, side="right"), 1)
    if len(numbers) and (which == which[0]).all() and (lengths == lengths[0]).all():
        text, length = np.frombuffer(texts[int(which[0])], dtype=np.uint8), int(lengths[0])
        table = np.empty((len(numbers), len(text) + length), dtype=np.uint8)
        table[:, : len(text)], table[:, len(text) :] = text, written[:, written.shape[1] - length :]
        return Field(_repeated(table, counts), table.shape[1])
    room, digits = max((len(text) for text in texts), default=0), written.shape[1]
    table = np.zeros((len(numbers), room + int(lengths.max(initial=1))), dtype=np.uint8)
    for pair in np.unique(which * MOST_DIGITS + lengths).tolist():
        number, length = divmod(pair, MOST_DIGITS)
        rows, text = np.flatnonzero((which == number) & (lengths == length)), texts[number]
        table[rows, : len(text)] = np.frombuffer(text, dtype=np.uint8)
        table[rows, len(text) : len(text) + length] = written[rows, digits - length :]
    lengths += np.array([len(text) for text in texts], dtype=np.int64)[which]
    return Field(_repeated(table, counts), np.repeat(lengths, counts))


def _repeated(table: Array, counts: Array) -> Array:
    """The rows of a table of bytes, each so many times."""
    width = table.shape[1]
    return np.repeat(table.view(f"V{width}").ravel(), counts).view(np.uint8).reshape(-1, width)


def _digits_of(numbers: Array) -> Array:
    """The digits of whole numbers, all with as many, three at a time."""
    count = -(-len(str(int(numbers.max(initial=0)))) // 3)
    digits = np.empty((len(numbers), count, 3), dtype=np.uint8)
    for place in reversed(range(count)):
        thousands = numbers // 1000
        digits[:, place] = THREE_DIGITS[numbers - 1000 * thousands]
        numbers = thousands
    return digits.reshape(len(digits), 3 * count)


def fractions_of(ticks: Array, with_comma: bool) -> Field:
    """The fractions of seconds, with their points, and with a comma or none."""
    texts = FRACTIONS[ticks & (SECOND - 1)]
    return Field(texts.view(np.uint8).reshape(len(ticks), texts.itemsize), FRACTION + with_comma)


def field_in(text: Array, start: Array, length: Array) -> Field:
    """A field that stands in a text, in the order of the rows."""
    width = int(length.max(initial=0))
    if not len(start):
        return Field(np.zeros((0, width), dtype=np.uint8), length)
    missing = int(start[-1]) + width - len(text)
    text = np.concatenate((text, np.zeros(missing, dtype=np.uint8))) if missing > 0 else text
    each: Array = np.ndarray(len(text) - width + 1, dtype=f"V{width}", buffer=text, strides=(1,))
    return Field(each[start].view(np.uint8).reshape(len(start), width), length)


def rows_of(fields: list[Field], end: bytes = b"") -> tuple[Array, Array]:
    """Rows that have these fields one after another, and an end after the last row: their text, and where each row ends in it.

    The last fields are laid first, each as long as the longest: what is behind its end is covered by those of the next rows,
    which are laid after it, and by the other fields, which are laid then, each as long as it is."""
    alike = sum(field.length for field in fields if isinstance(field.length, int))
    lengths = sum((field.length for field in fields if not isinstance(field.length, int)), np.full(len(fields[0].text), alike))
    ends = np.cumsum(lengths)
    if not len(ends):
        return np.zeros(0, dtype=np.uint8), ends
    size = int(ends[-1])
    out = np.empty(size + len(end) + max(field.text.shape[1] for field in fields), dtype=np.uint8)
    last = fields[-1]
    _lay(out, ends - last.length, last.text, last.text.shape[1])
    place = ends - lengths
    for field in fields[:-1]:
        if isinstance(field.length, int):
            _lay(out, place, field.text, field.length)
        else:
            for length in range(int(field.length.min()), int(field.length.max()) + 1):
                rows = np.flatnonzero(field.length == length)
                _lay(out, place[rows], field.text[rows], length)
        place += field.length
    out[size : size + len(end)] = np.frombuffer(end, dtype=np.uint8)
    return out[: size + len(end)], ends


def _lay(out: Array, places: Array, texts: Array, length: int) -> None:
    """Puts so many bytes of each text at its place, one after another."""
    if length and len(places):
        texts = np.ascontiguousarray(texts)
        kind = "<u8" if length == 8 else f"V{length}"  # the first is copied faster
        each: Array = np.ndarray(len(texts), dtype=kind, buffer=texts, strides=(texts.shape[1],))
        anywhere: Array = np.ndarray(len(out) - length + 1, dtype=kind, buffer=out, strides=(1,))
        anywhere[places] = each


def time_text(ticks: int | None) -> str:
    """A time, or nothing."""
    return "" if ticks is None else f"{ticks // SECOND}.{round(ticks % SECOND * 1_000_000 / SECOND):06d}"
