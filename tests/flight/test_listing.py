"""Listings as columns: each kind of line, and every line that is none, by the fast reading and by the slow one alike."""

import io
import random

import numpy as np
import pytest

from conftest import Write
from flight_recorder import listing
from flight_recorder.faults import Fault
from flight_recorder.listing import Kind, Names, Piece, is_line, piece_of, read_listing
from flight_recorder.streams import Input, opened_again

GOOD = [
    b"row,0,1,10,ALT,5",
    b"row,4095,4,1024,A-b_c.d012345678,-0.123456789",
    b"row,12,2,7,V,0.0",
    b"row,12,2,7,V,-1",
    b"row,1,1,2,LONGNAME9,9223372036854775807",
    b"row,1,1,2,X,100",
    b"gap,0,1",
    b"gap,2147483647,12",
    b"session,4294967295,281474976710655",
    b"session,0,0",
    b"run,1,49",
    b"run,281474976710655,1",
    b"exceed,HI,0,1,10,3,9",
    b"exceed,LO,4095,4,1024,1,-1.5",
]
BAD = [
    b"", b"row", b"row,", b"row,0,1,10,ALT", b"row,0,1,10,ALT,5,6", b"row,4096,1,10,ALT,5",
    b"row,00,1,10,ALT,5", b"row,-1,1,10,ALT,5", b"row,0,0,10,ALT,5", b"row,0,5,10,ALT,5", b"row,0,1,0,ALT,5",
    b"row,0,1,1025,ALT,5", b"row,0,1,010,ALT,5", b"row,,1,10,ALT,5", b"row,0,1,10,,5", b"row,0,1,10,ALT,",
    b"row,0,1,10,A T,5", b"row,0,1,10,ABCDEFGHIJKLMNOPQ,5", b"row,0,1,10,ALT,5.", b"row,0,1,10,ALT,.5", b"row,0,1,10,ALT,-",
    b"row,0,1,10,ALT,-.5", b"row,0,1,10,ALT,05", b"row,0,1,10,ALT,1.2.3", b"row,0,1,10,ALT,+5", b"row,0,1,10,ALT,5e3",
    b"row,0,1,10,ALT,5 ", b" row,0,1,10,ALT,5", b"row,0,1,10,ALT,1.0123456789", b"row,0,1,10,ALT,12345678901234567890",
    b"row,0,1,10,ALT,--5", b"row,0,1,10,ALT,5-", b"row,0,1,10,A\xffT,5", b"row,0,1,10,ALT,5\r", b"Row,0,1,10,ALT,5",
    b"gap,0", b"gap,0,0", b"gap,0,1,2", b"gap,-1,5", b"gap,x,5", b"gap,01,5", b"session,1", b"session,a,b", b"exceed,HI,0,1,10,3",
    b"exceed,HI,0,1,10,0,9", b"exceed,HI,0,5,10,3,9", b"exceed,,0,1,10,3,9", b"run,1", b"run,1,0", b"run,1,2,3", b"run,-1,2",
    b"run", b"gap", b"exceed", b"session", b"1,2", b"Note,1", b" note,1", b"note ,1", b"no\xfft,1",
    b"row,0,1,,,", b"row,,,,,", b",,,,,", b"row,0,1,10,ALT,\x00", b"row,0,1,10,A\x00,5", b"row,0,1,10,\x00,5", b"row,0,1,10,A\x00B,5",
]  # fmt: skip


@pytest.mark.parametrize("line", GOOD)
def test_good_lines(line: bytes) -> None:
    assert is_line(line)
    piece = piece_of(line + b"\n", 1, Names())
    assert len(piece) + len(piece.marks) == 1


@pytest.mark.parametrize("line", BAD)
def test_bad_lines(line: bytes) -> None:
    assert not is_line(line)
    for before in (b"", GOOD[0] + b"\n", GOOD[6] + b"\n" + GOOD[0] + b"\n"):
        for after in (b"", GOOD[0] + b"\n", GOOD[1] + b"\n"):
            with pytest.raises(Fault, match=f"^listing line {before.count(10) + 7}: "):
                piece_of(before + line + b"\n" + after, 7, Names())


@pytest.mark.parametrize("line", [b"drill,6,2,2,1506", b"note,1,2", b"rows,0,1,10,ALT,5", b"note", b"later-kind_2,\xff,,"])
def test_lines_that_begin_with_another_word_are_passed_over(line: bytes) -> None:
    assert is_line(line)
    piece = piece_of(GOOD[0] + b"\n" + line + b"\n" + GOOD[1] + b"\n", 1, Names())
    assert len(piece) == 2
    assert [(mark.kind, mark.row, mark.line) for mark in piece.marks] == [(Kind.OTHER, 1, 2)]
    assert [piece.line_of(row) for row in (0, 1)] == [1, 3]


def test_both_readings_agree_on_changed_lines() -> None:
    chance = random.Random(4)
    signs = b"0123456789,.-rowgapALT\xff \x00"
    for _ in range(4000):
        line = bytearray(chance.choice(GOOD))
        for _ in range(chance.randrange(1, 3)):
            at = chance.randrange(len(line))
            line[at : at + chance.randrange(2)] = bytes([chance.choice(signs)]) * chance.randrange(2)
        try:
            piece_of(bytes(line) + b"\n", 1, Names())
            taken = True
        except Fault:
            taken = False
        assert taken is is_line(bytes(line)), bytes(line)


def test_columns() -> None:
    names = Names()
    text = b"gap,5,7\n" + b"".join(line + b"\n" for line in GOOD[:6]) + b"session,2,6\nexceed,HI,0,1,10,3,9\n"
    piece = piece_of(text, 1, names)
    assert piece.counter.tolist() == [0, 4095, 12, 12, 1, 1]
    assert piece.subframe.tolist() == [1, 4, 2, 2, 1, 1]
    assert piece.word.tolist() == [10, 1024, 7, 7, 2, 2]
    assert [names.names[number] for number in piece.name] == ["ALT", "A-b_c.d012345678", "V", "V", "LONGNAME9", "X"]
    assert piece.value.tolist() == [5, -0.123456789, 0, -1, 2.0**63, 100]
    assert piece.decimals.tolist() == [0, 9, 1, 0, 0, 0]
    assert [(mark.kind, mark.row, mark.first, mark.second) for mark in piece.marks[:2]] == [
        (Kind.GAP, 0, 5, 7),
        (Kind.SESSION, 6, 2, 6),
    ]
    found = piece.marks[2].exceedance
    assert found is not None and (found.name, found.peak) == ("HI", "9")


def test_many_pieces_are_one_listing() -> None:
    lines = [
        b"row,%d,%d,%d,N%d,%d.%d\n" % (at % 4096, at % 4 + 1, at % 64 + 1, at % 300, at, at % 10)
        for at in range(150_000)
    ]
    names = Names()
    rows: list[tuple[int, float]] = []
    for piece in read_listing(Input(io.BytesIO(b"".join(lines)), None), names):
        rows += zip(piece.name.tolist(), piece.value.tolist())
    assert [(names.names[name], value) for name, value in rows] == [
        (f"N{at % 300}", float(f"{at}.{at % 10}")) for at in range(150_000)
    ]


@pytest.mark.parametrize("most, is_kept", [(listing.MOST_KEPT, True), (1 << 20, False)])
def test_pieces_that_are_kept_are_those_of_the_listing(write: Write, monkeypatch: pytest.MonkeyPatch, most: int, is_kept: bool) -> None:
    monkeypatch.setattr(listing, "MOST_KEPT", most)
    text = b"".join(b"row,%d,%d,7,N%d,%d\n" % (at // 4 % 4096, at % 4 + 1, at % 3, at) for at in range(100_000))
    path, names = write("listing", text), Names()
    with opened_again(str(path)) as source:
        kept = listing.Kept(source, names)
        first, second = list(kept), list(kept)
        assert len(first) > 2 and [one is other for one, other in zip(first, second)] == [is_kept] * len(first)
        for pieces in (first, second):
            values = [value for piece in pieces for value in piece.value.tolist()]
            assert (values, pieces[-1].first_line + len(pieces[-1])) == ([float(at) for at in range(100_000)], 100_001)


def test_faults_name_lines_of_the_whole_listing() -> None:
    text = GOOD[0] + b"\n" + GOOD[6] + b"\n"
    for bad in (b"row,0\n", b"row,0,1"):
        with pytest.raises(Fault, match="^listing line 100001: "):
            for _ in read_listing(Input(io.BytesIO(text * 50_000 + bad), None), Names()):
                pass


def test_a_listing_that_was_cut() -> None:
    with pytest.raises(Fault, match="^listing line 2: it has no line feed at its end, so the listing was cut there$"):
        list(read_listing(Input(io.BytesIO(GOOD[0] + b"\n" + GOOD[0]), None), Names()))


def test_no_lines_at_all() -> None:
    with pytest.raises(Fault, match="^listing line 1: "):
        list(read_listing(Input(io.BytesIO(bytes(3 << 20)), None), Names()))


def frames(first: int, count: int, seed: int) -> bytes:
    """The rows of frames of which each has six, and one of sixteen has another."""
    chance = random.Random(seed)
    lines = []
    for counter in (number % 4096 for number in range(first, first + count)):
        for subframe, word, name in ((1, 8, "V"), (1, 8, "V2"), (1, 104, "LONGER-NAME_1234"), (3, 20, "ALT"), (3, 1024, "W.1"), (4, 7, "Z")):
            whole, signed = chance.choice((0, 1, 12, 345)), "-" * (chance.random() < 0.3)
            value = f"{signed}{whole}" + (f".{chance.randrange(1000):03}" if name.startswith("V") else "")
            lines.append(f"row,{counter},{subframe},{word},{name},{value}\n")
        if counter % 16 == 5:
            lines.append(f"row,{counter},4,9,FLT,{chance.randrange(4096)}\n")
    return "".join(lines).encode()


class Learned:
    """Names that have read frames, and so expect others."""

    def __init__(self) -> None:
        self.names = Names()
        piece_of(frames(16, 48, 1), 1, self.names)
        self.pattern = self.names.pattern
        assert self.pattern is not None and self.pattern.next == 0

    def again(self) -> Names:
        """The names as they were then."""
        assert self.pattern is not None
        self.names.pattern, self.pattern.next = self.pattern, 0
        return self.names


def columns(piece: Piece, names: Names) -> list[object]:
    """All that a piece says of its rows."""
    named = [names.names[number] for number in piece.name.tolist()]
    places = (piece.counter, piece.subframe, piece.word, piece.value_start, piece.rest_start, piece.end, piece.value, piece.decimals)
    kinds = piece.kinds
    assert kinds is not None and piece.kind is not None
    assert [kinds.word[piece.kind].tolist(), kinds.name[piece.kind].tolist()] == [piece.word.tolist(), piece.name.tolist()]
    return [named, *(column.tolist() for column in places), piece.marks]


@pytest.mark.parametrize("first", [0, 70, 980, 4050])
def test_frames_that_come_again_are_read_as_those_before_were(first: int) -> None:
    names = Names()
    assert len(piece_of(frames(first, 48, 1), 1, names)) == 48 * 6 + 3
    learned = names.pattern
    assert learned is not None
    for number, count in enumerate((16, 3, 40, 1, 200), 1):
        first += 48 if number == 1 else 0
        text, anew = frames(first, count, first), Names()
        assert columns(piece_of(text, 1, names), names) == columns(piece_of(text, 1, anew), anew)
        assert names.pattern is learned
        first += count


def test_changed_frames_are_read_alike_by_what_came_before_and_without() -> None:
    chance = random.Random(9)
    text, learned = frames(64, 4, 2), Learned()
    counts = {True: 0, False: 0}
    for _ in range(600):
        names, anew, changed = learned.again(), Names(), bytearray(text)
        at = chance.randrange(len(text))
        changed[at : at + chance.randrange(2)] = bytes([chance.choice(b"0123456789,.-rowALTV\xff \x00\n")]) * chance.randrange(2)
        if not changed.endswith(b"\n"):
            continue
        try:
            expected: object = columns(piece_of(bytes(changed), 7, anew), anew)
        except Fault as fault:
            expected = str(fault)
        try:
            found: object = columns(piece_of(bytes(changed), 7, names), names)
        except Fault as fault:
            found = str(fault)
        assert found == expected, bytes(changed)
        counts[isinstance(expected, str)] += 1
    assert min(counts.values()) > 120


def test_any_byte_in_a_value_where_frames_come_again() -> None:
    line, learned = b"row,64,1,8,V,-12.345\n", Learned()
    for place in range(line.index(b"-"), len(line) - 1):
        for byte in set(range(256)) - {ord("\n")}:
            changed = line[:place] + bytes([byte]) + line[place + 1 :]
            if is_line(changed[:-1]):
                assert piece_of(changed, 1, learned.again()).value.tolist() == [float(changed.split(b",")[-1])]
            else:
                with pytest.raises(Fault, match="^listing line 1: "):
                    piece_of(changed, 1, learned.again())


def test_values_of_more_signs_or_other_decimals_where_frames_come_again() -> None:
    names = Learned().again()
    lines = frames(64, 16, 3).splitlines()
    for at, value in enumerate((b"123456.789012345", b"-9223372036854775807", b"7", b"0.5", b"-0", b"12345678")):
        lines[5 * at] = lines[5 * at].rsplit(b",", 1)[0] + b"," + value
    text, anew = b"\n".join(lines) + b"\n", Names()
    assert columns(piece_of(text, 1, names), names) == columns(piece_of(text, 1, anew), anew)


def test_kinds_of_rows_that_are_mixed_to_the_same_number(monkeypatch: pytest.MonkeyPatch) -> None:
    text, names, alike = frames(0, 20, 1), Names(), Names()
    expected = columns(piece_of(text, 1, names), names)
    monkeypatch.setattr(listing, "MIXERS", [np.uint64(0)] * 4)
    for _ in range(2):
        alike.pattern = None
        assert columns(piece_of(text, 1, alike), alike) == expected
        assert len(alike.known.numbers) == len(names.known.numbers) == 7
