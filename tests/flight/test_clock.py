"""When rows were sampled: the counter unwrapped, stretches, gaps of known and of unknown length, sessions, runs, recordings
anew, memories that wrap."""

import dataclasses
import io

import pytest

from conftest import Write
from flight_recorder import clock, listing
from flight_recorder.parameters import read_table
from flight_recorder.streams import Input

FRAME_BITS = 48 * 64
ALL_FRAMES = clock.shape_of(None, 64)
Row = tuple[int, int, float]  # the recording, the stretch and the seconds
Between = tuple[int, clock.Between]
SPREAD = """\
F,64,2,1
P,POS,1,310,,9,20,U,1,1,0,0,1
L,POS,1,1,20,0,1,12,0,16
L,POS,2,1,20,0,1,8,15,16
P,ALT,0,203,,11,12,U,1,1,0,0,16
L,ALT,1,1,10,0,1,12,0,1
"""


def timed(text: str, shape: clock.Shape = ALL_FRAMES, size: int | None = None) -> tuple[list[Row], list[Between]]:
    """The rows as recording, stretch and seconds, and what is between them as row and texts; in pieces of `size` lines."""
    names, times = listing.Names(), clock.Clock(shape)
    rows: list[Row] = []
    between: list[Between] = []
    lines = text.encode().splitlines(keepends=True)
    size = size or max(1, len(lines))
    for at in range(0, len(lines), size):
        piece = listing.piece_of(b"".join(lines[at : at + size]), 1 + at, names)
        found = times.times(piece, len(names))
        between += [(len(rows) + one.row, dataclasses.replace(one, row=0)) for one in found.between]
        rows += zip(found.recording.tolist(), found.stretch.tolist(), (found.time / clock.SECOND).tolist())
    between += [(len(rows), one) for one in times.end()]
    return rows, between


def row(counter: int, name: str = "ALT", subframe: int = 1, word: int = 1) -> str:
    return f"row,{counter},{subframe},{word},{name},5\n"


def texts(between: list[Between]) -> list[tuple[int, str, str]]:
    return [(at, one.event.value, one.text) for at, one in between]


def test_places_of_rows() -> None:
    rows, _ = timed("row,0,1,10,ALT,5\nrow,0,4,64,B,5\nrow,3,2,33,C,5\n", clock.shape_of(None, 64))
    assert [seconds for _, _, seconds in rows] == [9 / 64, 3 + 63 / 64, 13.5]
    rows, _ = timed("row,5,1,1024,ALT,5\n", clock.shape_of(None, 1024))
    assert rows == [(0, 1, 20 + 1023 / 1024)]


def test_the_counter_comes_round() -> None:
    rows, between = timed("".join(row(number % 4096) for number in range(4090, 3 * 4096)))
    assert rows == [(0, 1, 4 * number) for number in range(4090, 3 * 4096)]
    assert between == []


def test_a_sample_of_an_earlier_frame() -> None:
    rows, between = timed(row(0) + row(1) + row(15) + row(0, "POS", 1, 20) + row(16))
    assert rows == [(0, 1, 0), (0, 1, 4), (0, 1, 60), (0, 1, 19 / 64), (0, 1, 64)]
    assert between == []


def test_a_sample_of_an_earlier_round() -> None:
    rows, _ = timed(row(4095) + row(0) + row(4090, "POS") + row(1))
    assert [seconds / 4 for _, _, seconds in rows] == [4095, 4096, 4090, 4097]


@pytest.mark.parametrize(
    "frames, after, text", [(1, 7, "4 s"), (2, 8, "8 s"), (2.5, 8, "8 s"), (2.9, 9, "12 s"), (0.01, 6, "0 s")]
)
def test_gaps_whose_bits_and_counters_agree(frames: float, after: int, text: str) -> None:
    bits = round(frames * FRAME_BITS)
    rows, between = timed(row(5) + f"gap,3072,{bits}\n" + row(after))
    assert rows == [(0, 1, 20), (0, 2, 4 * after)]
    assert texts(between) == [(1, "gap", f"from bit 3072, {bits} bits: {text}")]
    assert (between[0][1].begin, between[0][1].end, between[0][1].known) == (6 * clock.FRAME, after * clock.FRAME, True)


@pytest.mark.parametrize(
    "frames, after, seconds, by_counter",
    [(1, 8, "4", "8"), (0.01, 900, "0.04", "3576"), (40, 6, "160", "0"), (0.4, 1669, "1.6", "6652")],
)
def test_gaps_whose_length_is_unknown(frames: float, after: int, seconds: float, by_counter: bool) -> None:
    bits = round(frames * FRAME_BITS)
    rows, between = timed(row(5) + f"gap,3072,{bits}\n" + row(after))
    assert rows == [(0, 1, 20), (0, 2, 4 * after)]
    said = f"bits of {seconds} s, by the counter {by_counter} s: lost bits or another recording"
    assert texts(between) == [(1, "gap", f"from bit 3072, {bits} bits: {said}")]
    assert not between[0][1].known


def test_a_gap_of_more_than_a_round() -> None:
    bits = 5000 * FRAME_BITS
    rows, between = timed(row(5) + f"gap,3072,{bits}\n" + row((6 + 5000) % 4096))
    assert rows[1] == (0, 2, 4 * 5006)
    assert texts(between) == [(1, "gap", f"from bit 3072, {bits} bits: 20000 s")]


def test_a_recording_that_begins_anew_after_a_gap() -> None:
    rows, between = timed(row(36) + row(37) + "gap,9999,2560\n" + row(0) + row(1))
    assert rows == [(0, 1, 144), (0, 1, 148), (1, 2, 0), (1, 2, 4)]
    assert texts(between) == [
        (2, "gap", "from bit 9999, 2560 bits: bits of 3.3 s, unknown length"),
        (2, "back", "the counter goes back by 37, from 37 to 0"),
    ]


@pytest.mark.parametrize(
    "before, after, anew", [(3000, 0, True), (3000, 1, False), (3000, 953, True), (3000, 952, False)]
)
def test_a_counter_that_goes_back_or_to_0_begins_a_recording(before: int, after: int, anew: bool) -> None:
    rows, _ = timed(row(before) + "gap,9999,2560\n" + row(after))
    assert rows[1] == (int(anew), 2, 4 * (after if anew else 4096 + after))


def test_a_recording_that_begins_anew_without_a_gap() -> None:
    rows, between = timed(row(0) + row(0) + row(1) + row(0, "IAS") + row(0))
    assert rows == [(0, 1, 0), (1, 2, 0), (1, 2, 4), (1, 2, 0), (2, 3, 0)]
    assert texts(between) == [(1, "back", "the counter stays at 0"), (4, "back", "the counter goes back by 1, from 1 to 0")]


def test_frames_that_a_download_copied_twice() -> None:
    rows, between = timed("".join(row(number) for number in (5, 6, 7, 6, 7, 8)))
    assert [(recording, seconds / 4) for recording, _, seconds in rows] == [(0, 5), (0, 6), (0, 7), (1, 6), (1, 7), (1, 8)]
    assert texts(between) == [(3, "back", "the counter goes back by 1, from 7 to 6")]


def test_a_damaged_counter() -> None:
    _, between = timed("".join(row(number) for number in (5, 1000, 7, 8)))
    assert texts(between) == [
        (1, "break", "the counter goes from 5 to 1000: unknown length"),
        (2, "back", "the counter goes back by 993, from 1000 to 7"),
    ]


def test_runs_of_a_damaged_image() -> None:
    text = "run,5,1\nsession,1,5\n" + row(3) + "gap,3072,8\nrun,8,2\nsession,1,8\n" + row(7) + "session,2,9\n" + row(0)
    rows, between = timed(text)
    assert rows == [(0, 1, 12), (1, 2, 28), (2, 3, 0)]
    assert texts(between) == [
        (0, "hole", "blocks 0 to 4 are missing: 5 blocks"),
        (0, "run", "run of 1 blocks from block 5"),
        (0, "session", "session 1 from block 5"),
        (1, "gap", "from bit 3072, 8 bits: 0.010742 s by its bits"),
        (1, "hole", "blocks 6 to 7 are missing: 2 blocks"),
        (1, "run", "run of 2 blocks from block 8"),
        (1, "session", "session 1 from block 8"),
        (2, "session", "session 2 from block 9"),
    ]
    assert [one.recording for _, one in between] == [0, 0, 0, 0, 0, 1, 1, 2]


def test_runs_of_an_image_without_sessions() -> None:
    rows, between = timed("run,0,2\n" + row(3) + "run,3,2\ngap,0,8\n" + row(7))
    assert rows == [(0, 1, 12), (1, 2, 28)]
    assert [one[:2] for one in texts(between)] == [(0, "run"), (1, "hole"), (1, "run"), (1, "gap")]


WRAPPED = "gap,0,1000\n" + "".join(map(row, range(100, 110))) + "gap,31720,1000\n" + "".join(map(row, range(40, 99))) + "gap,213968,2072\n"


@pytest.mark.parametrize(
    "text, line",
    [
        (WRAPPED, 13),
        ("".join(map(row, (7, 8, 3, 4, 5, 6))), 3),
        ("".join(map(row, (7, 8, 3, 4, 5))), None),
        ("".join(map(row, (7, 8, 3, 4, 1, 6))), None),
        ("".join(map(row, (7, 8, 700, 4095))), None),
        ("session,1,0\n" + "".join(map(row, (7, 8, 3, 4, 5, 6))), None),
        ("".join(map(row, range(4))), None),
        ("", None),
    ],
)
def test_a_memory_that_wraps(text: str, line: int | None) -> None:
    names, times = listing.Names(), clock.Clock(ALL_FRAMES)
    if text:
        times.times(listing.piece_of(text.encode(), 1, names), len(names))
    place = times.wrap()
    assert (place.line if place else None) == line
    if place:
        assert text.encode()[place.byte :] == b"".join(text.encode().splitlines(keepends=True)[place.line - 1 :])


def test_frames_that_are_missing_without_a_gap() -> None:
    rows, between = timed(row(5) + row(40))
    assert rows == [(0, 1, 20), (0, 2, 160)]
    assert texts(between) == [(1, "break", "the counter goes from 5 to 40: unknown length")]


def test_a_table_tells_breaks_that_are_shorter(write: Write) -> None:
    shape = clock.shape_of(read_table(str(write("t.csv", SPREAD))), None)
    assert shape.every_frame
    rows, between = timed(row(5) + row(7), shape)
    assert texts(between) == [(1, "break", "the counter goes from 5 to 7: unknown length")]
    assert timed(row(5) + row(7))[1] == []


def test_frames_without_rows(write: Write) -> None:
    only = "F,64,2,1\nP,POS,1,310,,9,12,U,1,1,0,0,4\nL,POS,1,1,20,0,1,12,1,4\n"
    shape = clock.shape_of(read_table(str(write("t.csv", only))), None)
    assert shape.steps.tolist() == [1, 4, 3, 2] * 4
    assert timed(row(1) + row(5) + row(9), shape)[1] == []
    assert texts(timed(row(1) + row(9), shape)[1]) == [(1, "break", "the counter goes from 1 to 9: unknown length")]


def test_sessions() -> None:
    rows, between = timed("session,1,0\n" + row(0) + row(1) + "gap,6144,8\nsession,2,6\n" + row(0) + "session,3,9\n")
    assert rows == [(0, 1, 0), (0, 1, 4), (1, 2, 0)]
    assert texts(between) == [
        (0, "session", "session 1 from block 0"),
        (2, "gap", "from bit 6144, 8 bits: 0.010742 s by its bits"),
        (2, "session", "session 2 from block 6"),
        (3, "session", "session 3 from block 9"),
    ]


def test_gaps_with_rows_on_one_side() -> None:
    rows, between = timed("gap,0,1536\n" + row(3) + "gap,4608,3072\n")
    assert rows == [(0, 1, 12)]
    assert texts(between) == [
        (0, "gap", "from bit 0, 1536 bits: 2 s by its bits"),
        (1, "gap", "from bit 4608, 3072 bits: 4 s by its bits"),
    ]
    assert [(one.begin, one.end) for _, one in between] == [
        (10 * clock.SECOND, 12 * clock.SECOND),
        (16 * clock.SECOND, 20 * clock.SECOND),
    ]


def test_exceedances_among_rows() -> None:
    _, between = timed(row(4095) + row(0) + "exceed,HI,4095,1,10,2,9\n" + row(1))
    assert texts(between) == [(2, "exceed", "HI: 2 samples, peak 9")]
    assert between[0][1].begin == 4095 * clock.FRAME + 9 * 16


MIXED = (
    "gap,0,8\n" + "".join(row(number) for number in range(3)) + "gap,100,3072\n" + row(4) + row(0, "POS") + row(5) + "session,4,8\n"
    + row(0) + row(0, "IAS") + row(1) + "exceed,A,1,1,2,3,4\n" + row(0) + "exceed,B,0,1,2,3,4\nexceed,C,9,1,2,3,4\n" + row(0)
    + "gap,200,3\nexceed,D,0,1,2,3,4\ngap,300,4\n" + row(60) + row(3) + "exceed,E,3,1,2,3,4\ngap,400,5\nexceed,F,3,1,2,3,4\n"
)  # fmt: skip


@pytest.mark.parametrize("size", range(1, 9))
def test_pieces_of_any_size_say_the_same(size: int) -> None:
    (rows, between), (known_rows, known) = timed(MIXED, size=size), timed(MIXED)
    assert rows == known_rows
    for exceeds in (False, True):  # one that comes before a gap is decided has its place before it
        assert [one for one in between if bool(one[1].exceedance) is exceeds] == [
            one for one in known if bool(one[1].exceedance) is exceeds
        ]


def test_very_many_breaks_take_no_time() -> None:
    rows, between = timed(row(0) * 60_000)
    assert [recording for recording, _, _ in rows] == list(range(60_000))
    assert len(between) == 59_999


def test_nothing() -> None:
    assert timed("") == ([], [])
    assert list(listing.read_listing(Input(io.BytesIO(b""), None), listing.Names())) == []
