"""`flight trace --live`: rows drip in and records come out in time; bad and late rows, signals, readers that go, rotation."""

import os
import pathlib
import signal
import subprocess
import sys
import threading
import time
from typing import Callable, Iterator

import pytest

from conftest import FLIGHT, T1
from feeding import END, PATIENCE, WORD, Fed, Reading, is_even, odd_words, program, records_of, words_in

HEADER = b"time,bus,word\n"
FIVE, SEVEN = 0x000014C1, 0x80001CC1
Start = Callable[..., Fed]


@pytest.fixture
def live() -> Iterator[Start]:
    """Starts `flight trace --live`."""
    started: list[Fed] = []

    def start(*words: object, capture: object = "-") -> Fed:
        started.append(Fed([sys.executable, FLIGHT, "trace", "--live", *map(str, words), str(capture)]))
        return started[-1]

    yield start
    for one in started:
        one.let_go()


def rows(words: list[int], first: int = 0) -> bytes:
    """Rows of bus 0, ten milliseconds apart."""
    return b"".join(b"%d.%02d,0,%08X\n" % (*divmod(at, 100), word) for at, word in enumerate(words, first))


def told(data: bytes) -> list[tuple[int, int]]:
    """The words with their times, beats aside."""
    return [(one.time, one.word) for one in records_of(data) if one.kind == WORD and not is_even(one.word)]


def test_rows_drip_in_and_records_come_out(live: Start) -> None:
    fed = live()
    words = odd_words(6)
    fed.give(HEADER)
    waits = []
    for count in range(1, 7):
        fed.give(rows(words[count - 1 : count], count - 1))
        given = time.monotonic()
        fed.out.until_words(words[:count])
        waits.append(time.monotonic() - given)
    assert min(waits) < 0.5  # the machine may be busy
    fed.close_input()
    status, out, error = fed.ended()
    assert (status, error) == (0, "")
    assert told(out) == [(10_000 * at, word) for at, word in enumerate(words)]
    assert (records_of(out)[-1].kind, records_of(out)[-1].time) == (END, 50_000)


def test_a_terminal(live: Start) -> None:
    other, terminal = os.openpty()
    fed = live(capture=os.ttyname(terminal))
    os.write(other, HEADER + b"0,0,000014C1\n")
    fed.out.until_words([FIVE])
    os.write(other, b"1,0,80001CC1\n")
    fed.out.until_words([FIVE, SEVEN])
    os.close(terminal)
    os.close(other)
    status, out, _ = fed.ended()
    assert (status, told(out), records_of(out)[-1].kind) == (0, [(0, FIVE), (1_000_000, SEVEN)], END)


def test_a_row_in_pieces(live: Start) -> None:
    fed = live()
    for piece in (b"time,bus,", b"word\n0,0,0000", b"14C", b"1\r", b"\n1,0,80001CC1\n"):
        fed.give(piece)
        time.sleep(0.05)
    fed.out.until_words([FIVE, SEVEN])
    fed.close_input()
    assert fed.ended()[0] == 0


def test_the_trace_of_a_whole_capture_is_that_of_trace(live: Start, tmp_path: pathlib.Path) -> None:
    path = tmp_path / "c.csv"
    path.write_bytes(HEADER + rows(odd_words(30_000)) + b"400,,end\n")
    status, out, error = live(capture=path).ended()
    batch = subprocess.run([sys.executable, FLIGHT, "trace", path], capture_output=True, timeout=PATIENCE)
    assert (status, error) == (0, "")
    assert out == batch.stdout


def test_bad_rows_are_named_and_left_out(live: Start) -> None:
    fed = live()
    fed.give(HEADER + b"0,0,000014C1\n1,0,12G\n1,256,1\n\n1,0\n1,0,1,2\n")
    fed.error.until(lambda error: error.count(b"left out") == 4)
    fed.give(b"x,0,1\n-1,0,1\n1440001,0,1\n2,0,80001CC1\n")
    fed.out.until_words([FIVE, SEVEN])
    fed.give(b"3,0,0000")
    fed.close_input()
    status, out, error = fed.ended()
    assert (status, told(out)) == (1, [(0, FIVE), (2_000_000, SEVEN)])
    assert [line.split(":")[1].strip() for line in error.splitlines()[:-1]] == [
        f"row {row}" for row in (3, 4, 6, 7, 8, 9, 10, 12)
    ]
    assert error.splitlines()[-1] == "flight: 8 rows were left out, and 0 were late"
    assert records_of(out)[-1].kind == END


def test_late_rows_get_the_time_of_the_one_before(live: Start) -> None:
    fed = live()
    fed.give(HEADER + b"1,0,000014C1\n3,0,80001CC1\n2,0,000014C1\n3,0,000014C1\n4,0,80001CC1\n")
    fed.close_input()
    status, out, error = fed.ended()
    assert (status, error) == (0, "flight: 0 rows were left out, and 1 were late\n")
    assert [at for at, _ in told(out)] == [0, 2_000_000, 2_000_000, 2_000_000, 3_000_000]


def test_times_of_the_clock(live: Start) -> None:
    fed = live("--clock", "--beat", 7)
    fed.give(b"bus,word\n0,000014C1\n")
    fed.out.until_words([FIVE])
    begun = time.monotonic()
    time.sleep(1.2)
    fed.give(b"0,80001CC1\n")
    fed.out.until_words([FIVE, SEVEN])
    passed = time.monotonic() - begun
    fed.close_input()
    records = records_of(fed.ended()[1])
    first, last = (one.time for one in records if one.kind == WORD and not is_even(one.word))
    assert (first, 1_100_000 <= last <= passed * 1_000_000 + 1_000_000) == (0, True)
    assert [one.bus for one in records if one.kind == WORD and is_even(one.word)] == [7] * sum(
        is_even(one.word) and one.kind == WORD for one in records
    )
    assert sum(one.bus == 7 for one in records) >= 2


@pytest.mark.parametrize("kind", [signal.SIGTERM, signal.SIGINT])
def test_a_signal_ends_the_trace(live: Start, kind: signal.Signals) -> None:
    fed = live()
    fed.give(HEADER + b"0,0,000014C1\n")
    fed.out.until_words([FIVE])
    fed.child.send_signal(kind)
    status, out, error = fed.ended()
    assert (status, error, told(out)) == (0, "", [(0, FIVE)])
    assert [one.kind for one in records_of(out)].count(END) == 1
    assert records_of(out)[-1].kind == END


def test_a_producer_that_dies_amid_a_row(live: Start) -> None:
    fed = live()
    producer = subprocess.Popen(
        ["sh", "-c", "printf 'time,bus,word\\n0,0,000014C1\\n1,0,80001C'; kill -9 $$"], stdout=fed.child.stdin
    )
    producer.wait(PATIENCE)
    fed.close_input()
    status, out, error = fed.ended()
    assert (status, told(out), records_of(out)[-1].kind) == (1, [(0, FIVE)], END)
    assert error.startswith(f"flight: row {3}: it has no line feed; it is left out\n")


def test_a_closed_reader(live: Start) -> None:
    fed = live()
    fed.give(HEADER + b"0,0,000014C1\n")
    fed.out.until_words([FIVE])
    assert fed.child.stdout
    fed.child.stdout.close()
    fed.give(b"1,0,80001CC1\n")
    status, _, error = fed.ended()
    assert (status, error) == (1, "flight: the reader of the trace is gone\n")


def test_beats_make_a_block_due_on_silent_buses(live: Start, tmp_path: pathlib.Path) -> None:
    """A block of 64 bytes is two thirds of a second of 64 words: after the one row only beats bring more of them."""
    fdr = program()
    image = tmp_path / "a.img"
    subprocess.run([fdr, "format", T1, image, "--slots", "16", "--payload", "64"], check=True, timeout=PATIENCE)
    fed = live()
    assert fed.child.stdout
    recorder = Fed([fdr, "record", T1, image], given=fed.child.stdout.fileno())
    fed.give(HEADER + b"0,0,000014C1\n")
    recorder.error.until(lambda error: b"ack 2\n" in error)
    fed.child.terminate()
    assert recorder.ended()[0] == 0
    recorder.let_go()


def test_rotation_loses_no_row(live: Start, tmp_path: pathlib.Path) -> None:
    path = tmp_path / "trace"
    os.mkfifo(path)
    fed = live("--rotate", "1s", "--to", path)
    words = odd_words(250)
    feeder = threading.Thread(target=fed.give, args=(HEADER + rows(words),))
    feeder.start()
    traces = []
    for number in range(3):
        trace = Reading(os.open(path, os.O_RDONLY))
        trace.until(lambda data: bool(records_of(data)) and records_of(data)[-1].kind == END or len(told(data)) == 50)
        traces.append(trace)
        if number < 2:
            os.mkfifo(tmp_path / "new")
            (tmp_path / "new").rename(path)
    feeder.join()
    fed.close_input()
    traces[2].until(lambda data: records_of(data)[-1].kind == END)
    assert fed.ended()[0] == 0
    assert [word for trace in traces for word in words_in(trace.data)] == words
    assert [[at for at, _ in told(trace.data)] for trace in traces] == [
        [10_000 * at for at in range(count)] for count in (100, 100, 50)
    ]
    assert [records_of(trace.data)[-1].time for trace in traces] == [1_000_000, 1_000_000, 490_000]
    for trace in traces:
        os.close(trace.descriptor)


def test_a_recorder_that_dies_and_the_next_one(live: Start, tmp_path: pathlib.Path) -> None:
    path = tmp_path / "trace"
    os.mkfifo(path)
    fed = live("--to", path)
    fed.give(HEADER + b"0,0,000014C1\n")
    first = Reading(os.open(path, os.O_RDONLY))
    first.until_words([FIVE])
    os.close(first.descriptor)
    os.mkfifo(tmp_path / "new")
    (tmp_path / "new").rename(path)
    fed.give(b"1,0,000014C1\n")
    fed.error.until(lambda error: b"the reader of the trace is gone" in error)
    fed.give(b"2,0,80001CC1\n")
    second = Reading(os.open(path, os.O_RDONLY))
    second.until_words([SEVEN])
    assert told(second.data) == [(0, SEVEN)]
    os.close(second.descriptor)


@pytest.mark.parametrize(
    "words, fault",
    [
        (["--live", "--sort"], "--sort and --end are for captures that are whole, not for --live"),
        (["--live", "--end", "5"], "--sort and --end are for captures that are whole, not for --live"),
        (["--live", "--rotate", "400h"], "--rotate 400h: a recording has at most 399h"),
        (["--clock"], "--clock is for --live"),
        (["--beat", "0"], "--beat is for --live"),
    ],
)
def test_words_that_do_not_go_together(words: list[str], fault: str) -> None:
    ran = subprocess.run([sys.executable, FLIGHT, "trace", *words, "-"], input=b"", capture_output=True, timeout=PATIENCE)
    assert (ran.returncode, ran.stdout, ran.stderr.decode()) == (1, b"", f"flight: {fault}\n")
