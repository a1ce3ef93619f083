"""Listings, read as columns: a piece of about a megabyte at a time, whatever the size of the whole.

A line is `row,COUNTER,SUBFRAME,WORD,NAME,VALUE`, `gap,AT,BITS`, `session,SESSION,FIRST`, `run,FIRST,BLOCKS` or
`exceed,NAME,COUNTER,SUBFRAME,WORD,LENGTH,PEAK`. Each is checked; the first that isn't as it has to be is a fault. A line
that begins with another word is passed over, as later versions may have more kinds.
"""

import enum
import re
from dataclasses import dataclass
from functools import cached_property
from typing import Iterator

import numpy as np

from .arrays import Array
from .faults import Fault
from .streams import Again, Input

PIECE = 1 << 19
MOST_KEPT = 1 << 26  # bytes of a listing whose pieces are kept
PADDING = 64  # zero bytes after a piece, so that no field reaches over the end of its memory
LONGEST_LINE = 4096
COMMAS = 5  # in a row
SIGNS = COMMAS + 1  # and its line feed
BLOCK = 1 << 13  # values that are read at once, whose numbers stay in the processor's own memory
MOST_NAME = 16
MOST_DIGITS = 19
MOST_DECIMALS = 9
ROW_WORD = 3  # bytes of `row`
POWERS = 10.0 ** np.arange(MOST_DECIMALS + 1)
ROUND = 4096  # frames until the counter comes round
FRAMES = 16  # of a superframe
MOST_SEEN = 1 << 13  # rows that are looked at for a pattern, where it isn't longer
SUBFRAMES = 4
MOST_WORDS = 1024
NEWLINE, COMMA, POINT, MINUS, ZERO = (ord(sign) for sign in "\n,.-0")
ROW = np.frombuffer(b"row,", dtype="<u4")[0]
KNOWN = (b"row", b"gap", b"session", b"run", b"exceed")
LEAST_KIND, MOST_KIND = 7, 9 + MOST_NAME  # bytes of a row from the comma before its subframe to the one after its name
EIGHTS = -(-MOST_KIND // 8)  # numbers of eight bytes that hold them
KEEP = np.array([(1 << 8 * min(max(length, 0), 8)) - 1 for length in range(-8 * EIGHTS, MOST_KIND + 1)], dtype=np.uint64)
NUMBER = rb"(0|[1-9][0-9]{0,18})"
NAME = rb"([A-Za-z0-9_.-]{1,16})"
VALUE = rb"(-?(?:0|[1-9][0-9]{0,18})(?:\.[0-9]{1,9})?)"
ROW_LINE = re.compile(rb"row,%b,%b,%b,%b,%b" % (NUMBER, NUMBER, NUMBER, NAME, VALUE))
PAIR_LINE = re.compile(rb"(gap|session|run),%b,%b" % (NUMBER, NUMBER))
FIRST_WORD = re.compile(rb"([a-z][a-z0-9_-]{0,31})(?:,.*)?")
EXCEED_LINE = re.compile(rb"exceed,%b,%b,%b,%b,%b,%b" % (NAME, NUMBER, NUMBER, NUMBER, NUMBER, VALUE))


class Kind(enum.Enum):
    """What a line is that isn't a row."""

    GAP = "gap"
    SESSION = "session"
    RUN = "run"
    EXCEED = "exceed"
    OTHER = "other"  # a line of a kind that isn't known
    WRAP = "wrap"  # no line: the memory wraps here
    BEGIN = "begin"  # no line: the beginning of a listing that is read from its middle on


@dataclass(frozen=True)
class Exceedance:
    """Where a parameter left its limits: the rule's name, the place of the first sample, how many there are, the peak."""

    name: str
    counter: int
    subframe: int
    word: int
    length: int
    peak: str


@dataclass(frozen=True)
class Mark:
    """A line that isn't a row: how many rows of the piece are before it, what it says, and its number in the listing."""

    kind: Kind
    row: int
    first: int = 0
    second: int = 0
    exceedance: Exceedance | None = None
    line: int = 0


@dataclass
class Kinds:
    """What rows of one kind have alike: the subframe, the word, and the parameter's number."""

    subframe: Array
    word: Array
    name: Array


@dataclass
class Piece:
    """Whole lines of a listing. Each column has a place for each row; texts are places in `text`. The first line has a number
    in the listing, and is at a byte of it."""

    text: Array
    counter: Array
    subframe: Array
    word: Array
    name: Array
    value_start: Array
    rest_start: Array
    end: Array
    marks: list[Mark]
    first_line: int = 1
    at: int = 0
    kind: Array | None = None  # of each row, where it was read by kinds
    kinds: Kinds | None = None

    def __len__(self) -> int:
        return len(self.counter)

    @cached_property
    def numbers(self) -> tuple[Array, Array]:
        """The values as numbers, and how many digits each has after its point."""
        return _values(self.text, self.value_start, self.end - 1)

    @property
    def value(self) -> Array:
        """The value of each row."""
        return self.numbers[0]

    @property
    def decimals(self) -> Array:
        """How many digits each value has after its point."""
        return self.numbers[1]

    def line_of(self, row: int) -> int:
        """The number of a row's line in the listing."""
        return self.first_line + row + sum(mark.row <= row for mark in self.marks)

    def byte_of(self, row: int) -> int:
        """Where a row's line begins in the listing."""
        return self.at + int(self.rest_start[row]) - ROW_WORD

    def only(self, which: Array) -> "Piece":
        """Some of its rows, without what isn't a row."""
        return Piece(
            self.text,
            self.counter[which],
            self.subframe[which],
            self.word[which],
            self.name[which],
            self.value_start[which],
            self.rest_start[which],
            self.end[which],
            [],
        )


def empty_piece(mark: Mark) -> Piece:
    """A piece that has no rows, and this mark."""
    none = np.zeros(0, dtype=np.int64)
    return Piece(np.zeros(PADDING, dtype=np.uint8), none, none, none, none, none, none, none, [mark])


class Names:
    """The names of a listing's parameters, numbered in the order in which they come; and what its rows had alike so far."""

    def __init__(self, known: "list[str] | None" = None) -> None:
        self.names = list(known or [])
        self.numbers = {name.encode(): number for number, name in enumerate(self.names)}
        self.known = KnownKinds()
        self.pattern: Pattern | None = None

    def __len__(self) -> int:
        return len(self.names)

    def number(self, name: bytes) -> int:
        """The number of a name."""
        if name not in self.numbers:
            if not re.fullmatch(NAME, name):
                raise _Unsound
            self.numbers[name] = len(self.names)
            self.names.append(name.decode())
        return self.numbers[name]


def _taken(text: Array, places: Array, kind: str) -> Array:
    """The numbers of several bytes that begin at these places."""
    count = len(text) - np.dtype(kind).itemsize + 1
    return np.ndarray(count, dtype=kind, buffer=text, strides=(1,))[places]


class _Unsound(Exception):
    """A line of a piece isn't as it has to be."""


@dataclass(frozen=True)
class Place:
    """A place between the lines of a listing: its byte, and the number of the line after it."""

    byte: int = 0
    line: int = 1


def read_listing(source: Input, names: Names, begin: Place = Place(), end: int | None = None) -> Iterator[Piece]:
    """The pieces of a listing; of one that is read from another place on, or up to a byte, those of these lines."""
    line, at, left = begin.line, begin.byte, b""
    while data := source.read(PIECE if end is None else min(PIECE, end - at - len(left))):
        data = left + data
        whole = data.rfind(b"\n") + 1
        left = data[whole:]
        if len(left) > LONGEST_LINE:
            raise _first_fault(data, line)
        if whole:
            piece = piece_of(data[:whole], line, names)
            piece.at = at
            line += len(piece) + len(piece.marks)
            at += whole
            yield piece
    if left:
        raise Fault(f"listing line {line}: it has no line feed at its end, so the listing was cut there")


class Kept:
    """The pieces of a listing that is gone through several times: of one that isn't long they are kept from the first time on."""

    def __init__(self, source: Again, names: Names) -> None:
        self.source, self.names = source, names
        self.pieces: list[Piece] | None = None

    def __iter__(self) -> Iterator[Piece]:
        if self.pieces is not None:
            yield from self.pieces
            return
        held: list[Piece] = []
        is_short = True
        for piece in read_listing(self.source.input(), self.names):
            is_short = piece.at + len(piece.text) <= MOST_KEPT
            held = held if is_short else []
            held.append(piece)
            yield piece
        self.pieces = held if is_short else None


def piece_of(data: bytes, first_line: int, names: Names) -> Piece:
    """Whole lines as columns; `first_line` is the number of the first one."""
    text = np.frombuffer(data + bytes(PADDING), dtype=np.uint8)
    try:
        piece = names.pattern.piece_of(text, len(data)) if names.pattern else None
        if piece is None:
            signs, starts, marks = _rows_in(text[: len(data)], data, first_line)
            piece = _piece(text, starts, np.ascontiguousarray(signs.reshape(-1, SIGNS).T), marks, names)
            names.pattern = _pattern_of(piece, names.known)
    except _Unsound:
        raise _first_fault(data, first_line) from None
    piece.first_line = first_line
    return piece


def _rows_in(text: Array, data: bytes, first_line: int) -> tuple[Array, Array, list[Mark]]:
    """The commas and line feeds of the rows, where the rows start, and the lines that are none. A comma is the greatest sign that
    no other field has."""
    signs = np.flatnonzero(text <= COMMA)
    count = int(np.count_nonzero(text == NEWLINE))
    if count and len(signs) == SIGNS * count and int(np.count_nonzero(text == COMMA)) == COMMAS * count:
        ends = signs[COMMAS::SIGNS]
        starts = np.insert(ends + 1, 0, 0)[:-1]
        if (text[ends] == NEWLINE).all() and (_taken(text, starts, "<u4") == ROW).all():
            return signs, starts, []
    signs = np.flatnonzero((text == COMMA) | (text == NEWLINE))
    last = np.flatnonzero(text[signs] == NEWLINE)  # of each line
    ends = signs[last]
    starts = np.insert(ends + 1, 0, 0)[:-1]
    others = np.flatnonzero(_taken_padded(text, starts) != ROW)
    marks = [
        _mark(data[starts[line] : ends[line]], int(line) - before, first_line + int(line))
        for before, line in enumerate(others)
    ]
    signs, starts, last = _rows_alone(signs, starts, last, others)
    if len(signs) != SIGNS * len(starts) or not np.array_equal(last, np.arange(len(starts)) * SIGNS + COMMAS):
        raise _Unsound
    return signs, starts, marks


def _taken_padded(text: Array, starts: Array) -> Array:
    """The first four bytes of lines, the last of which may be shorter."""
    return _taken(np.concatenate((text, np.zeros(4, dtype=np.uint8))), starts, "<u4")


def _rows_alone(
    signs: Array, starts: Array, last: Array, others: Array
) -> tuple[Array, Array, Array]:
    """The commas and line feeds, the starts and the places of the line feeds among these, without some of the lines."""
    first = np.insert(last + 1, 0, 0)[:-1]
    keep = np.ones(len(signs), dtype=bool)
    for line in others.tolist():
        keep[first[line] : last[line] + 1] = False
    counts = np.delete(last + 1 - first, others)
    return signs[keep], np.delete(starts, others), np.cumsum(counts) - 1


def _first_fault(data: bytes, first_line: int) -> Fault:
    """The fault of the first line that isn't as it has to be, line by line."""
    for number, line in enumerate(data.split(b"\n"), first_line):
        if not is_line(line):
            return Fault(
                f"listing line {number}: {line[:60].decode('ascii', 'backslashreplace')!r} is no line of a listing"
            )
    return Fault(f"listing line {first_line} or a later one is no line of a listing")


def is_line(line: bytes) -> bool:
    """Whether a line, without its line feed, is one of a listing."""
    row = ROW_LINE.fullmatch(line)
    if row:
        return _is_place(*(int(number) for number in row.groups()[:3])) and _has_few_digits(row.group(5))
    try:
        _mark(line, 0, 0)
    except _Unsound:
        return False
    return True


def _is_place(counter: int, subframe: int, word: int) -> bool:
    return counter < ROUND and 1 <= subframe <= SUBFRAMES and 1 <= word <= MOST_WORDS


def _has_few_digits(value: bytes) -> bool:
    return sum(byte in b"0123456789" for byte in value) <= MOST_DIGITS


def _mark(text: bytes, row: int, line: int) -> Mark:
    """A line that isn't a row."""
    pair = PAIR_LINE.fullmatch(text)
    if pair:
        kind = Kind(pair.group(1).decode())
        if kind is not Kind.SESSION and pair.group(3) == b"0":
            raise _Unsound
        return Mark(kind, row, int(pair.group(2)), int(pair.group(3)), line=line)
    word = FIRST_WORD.fullmatch(text)
    if word and word.group(1) not in KNOWN:
        return Mark(Kind.OTHER, row, line=line)
    return Mark(Kind.EXCEED, row, exceedance=_exceedance(text), line=line)


def _exceedance(line: bytes) -> Exceedance:
    found = EXCEED_LINE.fullmatch(line)
    if not found:
        raise _Unsound
    counter, subframe, word, length = (int(number) for number in found.groups()[1:5])
    if not _is_place(counter, subframe, word) or not length:
        raise _Unsound
    return Exceedance(found.group(1).decode(), counter, subframe, word, length, found.group(6).decode())


def read_exceedances(source: Input) -> list[Exceedance]:
    """The lines of exceedances of a file that has no others."""
    found = []
    for number, line in enumerate(source.lines(), 1):
        try:
            found.append(_exceedance(line.removesuffix("\n").encode("utf-8", "surrogateescape")))
        except _Unsound:
            raise Fault(f"exceedances line {number}: {line[:60].rstrip()!r} is no line of an exceedance") from None
    return found


def _piece(text: Array, starts: Array, signs: Array, marks: list[Mark], names: Names) -> Piece:
    """Rows as columns, by where they start, and by their commas and line feeds."""
    counter = _whole(text, signs[0] + 1, signs[1])
    if len(counter) and int(counter.max()) >= ROUND:
        raise _Unsound
    kind = names.known.numbers_of(text, signs, names)
    kinds = names.known.kinds
    columns = (kinds.subframe[kind], kinds.word[kind], kinds.name[kind])
    piece = Piece(text, counter, *columns, signs[4] + 1, signs[0], signs[COMMAS] + 1, marks, kind=kind, kinds=kinds)
    piece.numbers = _values(text, piece.value_start, signs[COMMAS])
    return piece


MIXERS = [np.uint64(number) for number in (0x9E3779B97F4A7C15, 0xC2B2AE3D27D4EB4F, 0x165667B19E3779F9, 0x27D4EB2F165667C5)]


class KnownKinds:
    """The kinds of a listing's rows, by their text from the comma before the subframe to the one after the name, numbered in the
    order in which they come. Most rows of a listing are of few kinds, so each is read once. They are told apart by one number
    out of their text, which is compared then."""

    def __init__(self) -> None:
        nothing = np.zeros(0, dtype=np.int32)
        self.kinds = Kinds(nothing, nothing, np.zeros(0, dtype=np.int64))
        self.eights: Array = np.zeros((EIGHTS, 0), dtype=np.uint64)
        self.length = np.zeros(0, dtype=np.int64)
        self.used = 1  # numbers of eight bytes that the longest text so far has
        self.numbers: dict[bytes, int] = {}
        self.mixed = np.zeros(0, dtype=np.uint64)  # in order
        self.order = np.zeros(0, dtype=np.int64)  # the kinds of these

    def numbers_of(self, text: Array, signs: Array, names: Names) -> Array:
        """The numbers of the kinds of rows, by their commas and line feeds."""
        begin, length = signs[1], signs[4] - signs[1] + 1
        if len(length) and not LEAST_KIND <= int(length.min()) <= int(length.max()) <= MOST_KIND:
            raise _Unsound
        self.used = max(self.used, -(-int(length.max(initial=1)) // 8))
        eights = self._eights(text, begin, length, self.used)
        mixed = _mixed(eights)
        kind, is_known = self._found(eights, mixed)
        if not is_known.all():
            new = np.flatnonzero(~is_known)
            first = np.sort(np.unique(mixed[new], return_index=True)[1])
            self._add(text, signs[:, new[first]], names)
            kind, is_known = self._found(eights, mixed)
            for row in np.flatnonzero(~is_known).tolist():  # of another kind with the same number
                self._add(text, signs[:, [row]], names)
                kind[row] = self.numbers[_kind_text(text, signs[:, row])]
        return kind

    @staticmethod
    def _eights(text: Array, begin: Array, length: Array, count: int) -> list[Array]:
        """Texts as numbers of eight bytes each, with zeros after them."""
        return [_taken(text, begin + 8 * at, "<u8") & KEEP[length + 8 * (EIGHTS - at)] for at in range(count)]

    def _found(self, eights: list[Array], mixed: Array) -> tuple[Array, Array]:
        """The kinds of these texts, and which of them are known."""
        if not len(self.mixed):
            return np.zeros(len(mixed), dtype=np.int64), np.zeros(len(mixed), dtype=bool)
        kind = self.order[np.minimum(np.searchsorted(self.mixed, mixed), len(self.mixed) - 1)]
        is_known = np.ones(len(mixed), dtype=bool)
        for eight, known in zip(eights, self.eights):
            is_known &= known[kind] == eight
        return kind, is_known

    def _add(self, text: Array, signs: Array, names: Names) -> None:
        """Adds the kinds of these rows, as far as they aren't known."""
        texts = [_kind_text(text, row) for row in signs.T]
        new = [row for row, one in enumerate(texts) if one not in self.numbers]
        signs = signs[:, new]
        subframe, word = (_whole(text, signs[at] + 1, signs[at + 1]) for at in (1, 2))
        _want((subframe >= 1) & (subframe <= SUBFRAMES) & (word >= 1) & (word <= MOST_WORDS))
        name = np.array([names.number(texts[row].split(b",")[3]) for row in new], dtype=np.int64)
        self.numbers.update({texts[row]: len(self.numbers) + at for at, row in enumerate(new)})
        known = self.kinds
        self.kinds = Kinds(*(np.concatenate(both) for both in ((known.subframe, subframe), (known.word, word), (known.name, name))))
        length = signs[4] - signs[1] + 1
        self.length = np.concatenate((self.length, length))
        self.eights = np.concatenate((self.eights, np.stack(self._eights(text, signs[1], length, EIGHTS))), axis=1)
        mixed = _mixed(list(self.eights))
        self.order = np.argsort(mixed, kind="stable")
        self.mixed = mixed[self.order]


def _kind_text(text: Array, signs: Array) -> bytes:
    """The text of a row's kind, by its commas and line feed."""
    return text[signs[1] : signs[4] + 1].tobytes()


def _mixed(eights: list[Array]) -> Array:
    """One number out of several."""
    mixed = eights[0] * MIXERS[0]
    for eight, mixer in zip(eights[1:], MIXERS[1:]):
        mixed += eight * mixer
    return mixed


class Pattern:
    """The kinds of the rows that come next, if they come as they did before: in a listing without damage each superframe has the
    rows of the one before. Then a row's bytes are compared with those of the kind that it has to be of, and nothing has to be
    found out."""

    def __init__(self, known: KnownKinds, kind: Array, decimals: Array) -> None:
        self.known = known
        self.period = kind  # of each row until they come again
        self.decimals = decimals
        self.next = 0  # the row of the period that comes next
        self.rows = 0  # for which the columns are enough, whichever row comes first

    def piece_of(self, text: Array, size: int) -> Piece | None:
        """So many bytes as a piece, or nothing where the rows are others."""
        ends = np.flatnonzero(text[:size] == NEWLINE)
        starts = np.empty_like(ends)
        starts[0], starts[1:] = 0, ends[:-1] + 1
        counters = _counters(text, starts)
        if counters is None:
            return None
        counter, begin = counters
        self._expect(len(ends))
        rows = slice(self.next, self.next + len(ends))
        for at, (eight, keep) in enumerate(zip(self.eights, self.keep)):
            found = _taken(text[8 * at :], begin, "<u8")
            found &= keep[rows]
            if not np.array_equal(found, eight[rows]):
                return None
        value_start = begin + self.length[rows]
        columns = (counter, self.subframe[rows], self.word[rows], self.name[rows])
        places = (value_start, starts + ROW_WORD, ends + 1)
        piece = Piece(text, *columns, *places, [], kind=self.kind[rows], kinds=self.known.kinds)
        if not self._are_plain(text, value_start, ends, rows):
            piece.numbers = _values(text, value_start, ends)
        self.next = (self.next + len(ends)) % len(self.period)
        return piece

    def _expect(self, rows: int) -> None:
        """Makes the columns for so many rows."""
        if rows <= self.rows:
            return
        self.rows = rows + rows // 4
        each = np.arange(self.rows + len(self.period)) % len(self.period)
        self.kind, decimals = self.period[each], self.decimals[each]
        known = self.known
        self.subframe, self.word, self.name = (column[self.kind] for column in (known.kinds.subframe, known.kinds.word, known.kinds.name))
        self.length = known.length[self.kind].astype(np.int64)
        count = -(-int(self.length.max()) // 8)
        self.eights = [eight[self.kind] for eight in known.eights[:count]]
        self.keep = [KEEP[self.length + 8 * (EIGHTS - at)] for at in range(count)]
        self.point, self.room = POINT_AT[decimals], ROOM_AT[decimals]
        self.after = decimals + (decimals > 0).astype(np.int64)  # signs from the point on

    def _are_plain(self, text: Array, starts: Array, ends: Array, rows: slice) -> bool:
        """Whether all values are numbers of up to eight signs, with their points where their kinds had them."""
        first = text[starts]
        negative = np.flatnonzero(first == MINUS)
        first[negative] = text[starts[negative] + 1]
        lengths = ends - starts
        lengths[negative] -= 1
        whole = lengths - self.after[rows]
        if not (int(whole.min()) >= 1 and int(lengths.max()) <= 8):
            return False
        digits = _taken(text, ends - 8, "<u8")
        digits ^= _each_byte(ZERO)
        digits &= LAST_OF_8[lengths]
        digits ^= self.point[rows]
        digits |= digits + self.room[rows]
        if (digits & _each_byte(0xF0)).any():
            return False
        return not ((whole > 1) & (first == ZERO)).any()


def _counters(text: Array, starts: Array) -> tuple[Array, Array] | None:
    """The counters of lines and where they end, or nothing where one isn't a row. Neighbours mostly have the same one, so each is
    read once."""
    heads = _taken(text, starts, "<u8")
    first = np.insert(np.flatnonzero(heads[1:] != heads[:-1]) + 1, 0, 0)
    at = starts[first]
    is_comma = text[at[:, np.newaxis] + np.arange(ROW_WORD + 2, ROW_WORD + 6)] == COMMA
    if not ((_taken(text, at, "<u4") == ROW) & is_comma.any(axis=1)).all():
        return None
    end = ROW_WORD + 2 + is_comma.argmax(axis=1)
    counter = _whole(text, at + ROW_WORD + 1, at + end)
    if int(counter.max()) >= ROUND:
        raise _Unsound
    counts = np.diff(first, append=len(starts))
    is_alike = int(end.min()) == int(end.max())
    return np.repeat(counter, counts), starts + (int(end[0]) if is_alike else np.repeat(end, counts))


def _pattern_of(piece: Piece, known: KnownKinds) -> Pattern | None:
    """How the rows of a piece come again, if they do."""
    kind = piece.kind
    if kind is None or not len(piece) or piece.marks:
        return None
    for row in np.flatnonzero(kind[:-1] == kind[-1])[: -FRAMES - 1 : -1].tolist():
        period = len(kind) - 1 - row
        seen = min(len(kind) - period, max(period, MOST_SEEN))
        if np.array_equal(kind[-seen:], kind[-seen - period : -period]):
            return Pattern(known, kind[-period:], piece.decimals[-period:].astype(np.int64))
    return None


def _want(sound: Array) -> None:
    if not sound.all():
        raise _Unsound


def _last_bytes(count: int, kind: type) -> Array:
    """For each length up to `count` what keeps so many of the last bytes of a number, which are its highest."""
    return np.array([((1 << 8 * count) - 1) & -(1 << 8 * (count - length)) for length in range(count + 1)], dtype=kind)


def _each_byte(byte: int) -> np.uint64:
    return np.uint64(byte * 0x0101010101010101)


def _at_point(byte: int) -> Array:
    """For each number of digits after a point this byte where the point is, in the last eight bytes of a number."""
    places = [byte << 8 * (7 - after) for after in range(1, 8)]
    return np.array([0, *places, 0, 0], dtype=np.uint64)


POINT_AT = _at_point(POINT ^ ZERO)
ROOM_AT = _each_byte(0x06) + _at_point(0x09)  # what reaches the upper half of a byte that is more than 9, or isn't the point
LAST_OF_4, LAST_OF_8 = _last_bytes(4, np.uint32), _last_bytes(8, np.uint64)
LEAST_OF = np.array([0, 0, 10, 100, 1000], dtype=np.int32)  # the least number of so many digits, without leading zeros


def _whole(text: Array, starts: Array, ends: Array) -> Array:
    """Whole numbers of up to four digits, without leading zeros: all digits of a number at once, as four bytes."""
    lengths = ends - starts
    if len(lengths) and not 1 <= int(lengths.min()) <= int(lengths.max()) <= 4:
        raise _Unsound
    digits = (_taken(text, ends - 4, "<u4") ^ np.uint32(0x30303030)) & LAST_OF_4[lengths]
    _want(((digits + np.uint32(0x06060606)) | digits) & np.uint32(0xF0F0F0F0) == 0)
    pairs = (digits * np.uint32(10) + (digits >> np.uint32(8))) & np.uint32(0x00FF00FF)
    number = ((pairs * np.uint32(100) + (pairs >> np.uint32(16))) & np.uint32(0xFFFF)).astype(np.int32)
    _want((number >= LEAST_OF[lengths]))
    return np.asarray(number)


def _values(text: Array, starts: Array, ends: Array) -> tuple[Array, Array]:
    """Values as numbers, and how many digits each has after its point."""
    negative = text[starts] == MINUS
    starts = starts + negative
    lengths = ends - starts
    if len(lengths) and not 1 <= int(lengths.min()) <= int(lengths.max()) <= MOST_DIGITS + 1:
        raise _Unsound
    many = lengths > 8
    size, decimals = np.empty(len(starts)), np.empty(len(starts), dtype=np.int8)
    if many.any():
        for which, read in ((np.flatnonzero(~many), _of_eight), (np.flatnonzero(many), _of_many)):
            size[which], decimals[which] = read(text, starts[which], ends[which], lengths[which])
    else:
        for at in range(0, len(starts), BLOCK):
            rows = slice(at, at + BLOCK)
            size[rows], decimals[rows] = _of_eight(text, starts[rows], ends[rows], lengths[rows])
    return np.where(negative, -size, size), decimals


def _of_eight(text: Array, starts: Array, ends: Array, lengths: Array) -> tuple[Array, Array]:
    """Numbers of up to eight signs, all of a number at once, as eight bytes. A point is found by the byte that it alone has,
    and taken out; then two digits become one number, two of these one, and so again."""
    signs = (_taken(text, ends - 8, "<u8") ^ _each_byte(ZERO)) & LAST_OF_8[lengths]
    low = signs ^ _each_byte(POINT ^ ZERO)
    point = ~(((low & _each_byte(0x7F)) + _each_byte(0x7F)) | low | _each_byte(0x7F))
    has_point = (point != 0).astype(np.uint64)
    after = ~((point << np.uint64(1)) - has_point) * has_point  # the bytes after the point
    before = (point >> np.uint64(7)) - np.uint64(1)
    decimals = (((after & _each_byte(1)) * _each_byte(1)) >> np.uint64(56)).astype(np.int64)
    digits = ((signs & before) << (has_point << np.uint64(3))) | (signs & after)
    one = has_point.astype(np.int64)
    whole = lengths - decimals - one
    wrong = (point & (point - has_point)) | (((digits + _each_byte(0x06)) | digits) & _each_byte(0xF0))
    if wrong.any() or (decimals < one).any() or len(whole) and int(whole.min()) < 1:
        raise _Unsound
    _want((whole == 1) | (text[starts] != ZERO))
    pairs = (digits * np.uint64(10) + (digits >> np.uint64(8))) & np.uint64(0x00FF00FF00FF00FF)
    fours = (pairs * np.uint64(100) + (pairs >> np.uint64(16))) & np.uint64(0x0000FFFF0000FFFF)
    number = (fours * np.uint64(10_000) + (fours >> np.uint64(32))) & np.uint64(0xFFFFFFFF)
    return number / POWERS[decimals], decimals.astype(np.int8)


def _of_many(
    text: Array, starts: Array, ends: Array, lengths: Array
) -> tuple[Array, Array]:
    """Numbers of any number of signs, sign by sign."""
    digits = np.zeros(len(starts), dtype=np.int64)
    decimals = np.zeros(len(starts), dtype=np.int8)
    after_point = np.zeros(len(starts), dtype=bool)
    for place in range(int(lengths.max())):
        inside = lengths > place
        sign = text[starts + place]
        digit = sign - np.uint8(ZERO)
        is_digit = inside & (digit <= 9)
        is_point = inside & (sign == POINT)
        _want(~inside | is_digit | (is_point & ~after_point & (place > 0)))
        digits *= np.where(is_digit, 10, 1)
        digits += digit * is_digit
        decimals += is_digit & after_point
        after_point |= is_point
    _want((decimals <= MOST_DECIMALS) & (~after_point | (decimals >= 1)) & (lengths - after_point <= MOST_DIGITS))
    _want((text[starts] != ZERO) | (lengths == 1) | (text[starts + 1] == POINT))
    return digits / POWERS[decimals], decimals
