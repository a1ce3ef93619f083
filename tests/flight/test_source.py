"""examples/recorder/source.c: words out of pipes and terminals become records in time, and none is lost where it needn't be."""

import datetime
import os
import pathlib
import shutil
import signal
import subprocess
import time
from typing import Callable, Iterator

import pytest

from conftest import T1
from feeding import END, PATIENCE, Fed, Reading, is_even, lines_of, odd_words, program, records_of, words_in

SOURCE = pathlib.Path(__file__).resolve().parent.parent.parent / "examples" / "recorder" / "source.c"
FIVE, SEVEN = 0x000014C1, 0x80001CC1
Start = Callable[..., Fed]


@pytest.fixture(scope="session")
def built(tmp_path_factory: pytest.TempPathFactory) -> pathlib.Path:
    """The source, built without a warning."""
    compiler = shutil.which("cc")
    if not compiler:
        pytest.skip("there is no cc")
    made = tmp_path_factory.mktemp("source") / "source"
    ran = subprocess.run(
        [compiler, "-O2", "-Wall", "-Wextra", "-o", made, SOURCE], capture_output=True, text=True, timeout=PATIENCE
    )
    assert (ran.returncode, ran.stderr) == (0, "")
    return made


@pytest.fixture
def source(built: pathlib.Path) -> Iterator[Start]:
    """Starts a source."""
    started: list[Fed] = []

    def start(*words: object) -> Fed:
        started.append(Fed([built, *map(str, words)]))
        return started[-1]

    yield start
    for one in started:
        one.let_go()


@pytest.fixture
def pipe(tmp_path: pathlib.Path) -> Callable[[str], pathlib.Path]:
    """Makes a named pipe, in place of one of that name."""

    def make(name: str) -> pathlib.Path:
        os.mkfifo(tmp_path / "new")
        return (tmp_path / "new").rename(tmp_path / name)

    return make


Pipe = Callable[[str], pathlib.Path]


def reading(path: pathlib.Path) -> Reading:
    """A named pipe, opened for reading without a wait for its writer."""
    descriptor = os.open(path, os.O_RDONLY | os.O_NONBLOCK)
    os.set_blocking(descriptor, True)
    return Reading(descriptor)


def test_words_come_out_while_more_come_in(source: Start) -> None:
    fed = source("3=-")
    words = odd_words(5)
    for count in range(1, 6):
        fed.give(lines_of(words[count - 1 : count]))
        fed.out.until_words(words[:count])
    fed.close_input()
    status, out, error = fed.ended()
    records = records_of(out)
    assert status == 0
    assert records[-1].kind == END
    assert {one.bus for one in records if not is_even(one.word)} == {3}
    times = [one.time for one in records]
    assert times[0] == 0 and times == sorted(times)
    assert "5 words, 0 dropped, 0 lost, 0 bad" in error


def test_a_terminal(source: Start) -> None:
    other, terminal = os.openpty()
    fed = source(f"0={os.ttyname(terminal)}")
    os.close(terminal)
    os.write(other, b"000014C1\n")
    fed.out.until_words([FIVE])
    os.close(other)
    status, out, _ = fed.ended()
    assert (status, words_in(out), records_of(out)[-1].kind) == (0, [FIVE], END)


def test_buses_are_merged_in_the_order_of_their_coming(source: Start, pipe: Pipe) -> None:
    paths = [pipe("one"), pipe("two")]
    fed = source(f"1={paths[0]}", f"2={paths[1]}")
    given = [os.open(path, os.O_WRONLY) for path in paths]
    words = odd_words(6)
    for at, word in enumerate(words):
        os.write(given[at % 2], lines_of([word]))
        fed.out.until_words(words[: at + 1])
    for one in given:
        os.close(one)
    records = [one for one in records_of(fed.ended()[1]) if not is_even(one.word) and one.kind != END]
    assert [(one.bus, one.word) for one in records] == [(1 + at % 2, word) for at, word in enumerate(words)]


def test_records_of_sixteen_bytes(source: Start) -> None:
    fed = source("-")
    record = bytes.fromhex("01070000000014C1FFFFFFFFFFFFFFFF")
    fed.give(record[:9])
    time.sleep(0.1)
    fed.give(record[9:] + b"\x05" + bytes(15) + record[:3])
    fed.close_input()
    status, out, error = fed.ended()
    words = [one for one in records_of(out) if not is_even(one.word)]
    assert (status, [(one.bus, one.word) for one in words]) == (0, [(7, FIVE)])
    assert words[0].time < PATIENCE * 1_000_000  # the time of its coming, and not the record's own
    assert "1 words, 0 dropped, 0 lost, 2 bad" in error  # of kind 5, and the one that is cut off


BAD_LINES = [b"x", b"123456789", b"-1", b"+1", b"0x", b"14C1 0", b"14C1\x00", b"0123456789ABCDEF", b"\xff" * 70_000]


@pytest.mark.parametrize("line", BAD_LINES, ids=range(len(BAD_LINES)))
def test_a_bad_line_is_left_out_and_counted(source: Start, line: bytes) -> None:
    fed = source("0=-")
    fed.give(b"0x14C1\r\n\n" + line + b"\n80001CC1\n")
    fed.out.until_words([FIVE, SEVEN])
    fed.close_input()
    status, out, error = fed.ended()
    assert (status, words_in(out)) == (0, [FIVE, SEVEN])
    assert int(error.split(" bad;")[0].split()[-1]) >= 1


def test_the_line_of_a_producer_that_died_amid_it(source: Start) -> None:
    fed = source("0=-")
    fed.give(b"000014C1\n8000")
    fed.close_input()
    status, out, error = fed.ended()
    assert (status, words_in(out)) == (0, [FIVE])
    assert "1 words, 0 dropped, 0 lost, 1 bad" in error


@pytest.mark.parametrize("kind", [signal.SIGTERM, signal.SIGINT])
def test_a_signal_ends_the_trace(source: Start, kind: signal.Signals) -> None:
    fed = source("0=-")
    fed.give(lines_of([FIVE]))
    fed.out.until_words([FIVE])
    fed.child.send_signal(kind)
    status, out, _ = fed.ended()
    assert (status, words_in(out), [one.kind for one in records_of(out)].count(END)) == (0, [FIVE], 1)
    assert records_of(out)[-1].kind == END


def test_a_producer_that_dies_leaves_the_other_buses(source: Start, pipe: Pipe) -> None:
    paths = [pipe("one"), pipe("two")]
    fed = source(f"1={paths[0]}", f"2={paths[1]}")
    first, second = (os.open(path, os.O_WRONLY) for path in paths)
    os.write(first, lines_of([FIVE]))
    fed.out.until_words([FIVE])
    os.close(first)
    fed.error.until(lambda error: b"one ended" in error)
    os.write(second, lines_of([SEVEN]))
    fed.out.until_words([FIVE, SEVEN])
    os.close(second)
    status, out, _ = fed.ended()
    assert (status, records_of(out)[-1].kind) == (0, END)


def test_a_producer_that_comes_back(source: Start, pipe: Pipe) -> None:
    path = pipe("one")
    fed = source("--stay", f"1={path}")
    for count, word in enumerate([FIVE, SEVEN, FIVE], 1):
        given = os.open(path, os.O_WRONLY)
        os.write(given, lines_of([word]))
        fed.out.until_words([FIVE, SEVEN, FIVE][:count])
        os.close(given)
        fed.error.until(lambda error: error.count(b"ended") == count)
    fed.child.terminate()
    assert fed.ended()[0] == 0


def test_a_reader_that_is_gone(source: Start) -> None:
    fed = source("0=-")
    assert fed.child.stdout
    fed.child.stdout.close()
    status, _, error = fed.ended()
    assert status == 3
    assert "the reader of the trace is gone" in error


def test_a_reader_that_stops_for_a_while_costs_what_the_ring_has_no_room_for(source: Start) -> None:
    fed = source("--hold", 8192, "0=-")
    fed.out.until(lambda data: len(data) >= 16)  # the first beat
    words = odd_words(20_000)
    fed.give(lines_of(words))  # the pipe takes 4,096 of them, the ring 8,192
    fed.error.until(lambda error: b" dropped" in error and b" 0 dropped" not in error)
    fed.out.until(lambda data: len(words_in(data)) >= 4_000)
    dropped = int(fed.error.data.split(b" dropped")[0].split()[-1])
    fed.give(lines_of([FIVE]))
    fed.out.until(lambda data: words_in(data)[-1] == FIVE)
    fed.close_input()
    status, out, error = fed.ended()
    came = words_in(out)
    assert status == 0
    assert 4_000 <= len(came) <= 20_001 and dropped >= 1
    assert set(came) <= {*words, FIVE} and came[:4_000] == words[:4_000]  # the oldest are kept
    said = int(error.split(" dropped")[-2].split()[-1])
    assert len(came) + said == 20_001
    beats = [one.word >> 8 & 0x7FFFFF for one in records_of(out) if one.kind != END and is_even(one.word)]
    assert beats[0] == 0 and beats == sorted(beats)


SLOW = """
#include <sys/syscall.h>
#include <unistd.h>
int fsync(int fd) { usleep(500000); return (int)syscall(SYS_fsync, fd); }
int fdatasync(int fd) { return fsync(fd); }
"""


def test_a_recorder_that_syncs_slowly(source: Start, tmp_path: pathlib.Path) -> None:
    """While it waits for its first sync it reads nothing, and the ring fills."""
    (tmp_path / "slow.c").write_text(SLOW)
    library = tmp_path / "slow.so"
    subprocess.run(["cc", "-shared", "-fPIC", "-o", library, tmp_path / "slow.c"], check=True, timeout=PATIENCE)
    fdr, image = program(), tmp_path / "a.img"
    subprocess.run([fdr, "format", T1, image, "--slots", "16", "--payload", "4096"], check=True, timeout=PATIENCE)
    fed = source("--hold", 8192, "0=-")
    assert fed.child.stdout
    recorder = Fed([fdr, "record", T1, image], fed.child.stdout.fileno(), {"LD_PRELOAD": str(library)})
    begun = time.monotonic()
    fed.give(lines_of(odd_words(30_000)))
    fed.close_input()
    status, _, error = recorder.ended()
    assert (status, error) == (0, "ack 0\nack 1\n")
    assert time.monotonic() - begun > 1.5  # of three syncs of the file, and one of its folder
    said = fed.error.to_the_end().decode()
    assert 0 < int(said.split(" dropped")[-2].split()[-1]) <= 30_000 - 8_192
    recorder.let_go()


def test_beats_say_what_was_dropped(source: Start) -> None:
    fed = source("--hold", 8192, "--beat", 9, "0=-")
    fed.give(lines_of(odd_words(20_000)))
    fed.error.until(lambda error: b" dropped" in error)

    def has_told(data: bytes) -> bool:
        return any(one.bus == 9 and is_even(one.word) and one.word >> 8 & 0x7FFFFF for one in records_of(data))

    fed.out.until(has_told)


def test_rotation_loses_no_word(source: Start, pipe: Pipe) -> None:
    path = pipe("trace")
    fed = source("--to", path, "--rotate", "300ms", "0=-")
    words = odd_words(3_000)
    given, traces = 0, []
    for _ in range(3):
        trace = reading(path)
        while not (records_of(trace.data) and records_of(trace.data)[-1].kind == END):
            fed.give(lines_of(words[given : given + 20]))
            given = min(given + 20, len(words))
            trace.take(0.02)
        fed.give(lines_of(words[given : given + 100]))  # while there is no recorder
        given = min(given + 100, len(words))
        time.sleep(0.1)
        path = pipe("trace")
        os.close(trace.descriptor)
        traces.append(trace.data)
    last = reading(path)
    last.until(lambda data: bool(data))
    fed.close_input()
    last.until(lambda data: records_of(data)[-1].kind == END)
    assert fed.child.wait(PATIENCE) == 0
    traces.append(last.data)
    assert [word for trace in traces for word in words_in(trace)] == words[:given]
    for data in traces:
        records = records_of(data)
        assert records[0].time == 0
        assert [one.kind for one in records].count(END) == 1
        assert all(a.time <= b.time for a, b in zip(records, records[1:]))
    assert all(300_000 <= records_of(data)[-1].time < 5_000_000 for data in traces[:3])


def test_the_limit_of_records(source: Start, pipe: Pipe) -> None:
    path = pipe("trace")
    fed = source("--to", path, "--most", 100, "0=-")
    first = reading(path)
    words = odd_words(150)
    fed.give(lines_of(words))
    first.until(lambda data: bool(records_of(data)) and records_of(data)[-1].kind == END)
    assert len(records_of(first.data)) == 100
    second = reading(pipe("trace"))
    second.until(lambda data: len(words_in(data)) + len(words_in(first.data)) == 150)
    assert words_in(first.data) + words_in(second.data) == words


def test_a_recorder_that_dies_and_the_next_one(source: Start, pipe: Pipe) -> None:
    path = pipe("trace")
    fed = source("--to", path, "0=-")
    first = reading(path)
    fed.give(lines_of([FIVE]))
    first.until_words([FIVE])
    os.close(first.descriptor)
    fed.error.until(lambda error: b"the reader of the trace is gone" in error)
    fed.give(lines_of([SEVEN]))
    second = reading(pipe("trace"))
    second.until_words([SEVEN])
    records = records_of(second.data)
    assert records[0].time == 0


def test_utc(source: Start) -> None:
    fed = source("--utc", 4, "0=-")
    before = datetime.datetime.now(datetime.timezone.utc)
    fed.out.until(lambda data: bool(words_in(data)))
    after = datetime.datetime.now(datetime.timezone.utc)
    word = next(one for one in records_of(fed.out.data) if one.bus == 4).word
    assert f"{word & 0xFF:08b}"[::-1] == f"{0o150:08b}"
    assert word >> 29 & 3 == 3 and not is_even(word)
    told = (word >> 23 & 31) * 3600 + (word >> 17 & 63) * 60 + (word >> 11 & 63)
    first = (before.hour * 60 + before.minute) * 60 + before.second
    assert (told - first) % 86_400 <= (after - before).seconds + 1


def test_beats_make_a_block_due_on_silent_buses(source: Start, tmp_path: pathlib.Path) -> None:
    """A block of 64 bytes is two thirds of a second of 64 words, so each beat brings an acknowledgement."""
    fdr = program()
    image = tmp_path / "a.img"
    subprocess.run([fdr, "format", T1, image, "--slots", "16", "--payload", "64"], check=True, timeout=PATIENCE)
    fed = source("0=-")
    assert fed.child.stdout
    recorder = Fed([fdr, "record", T1, image], given=fed.child.stdout.fileno())
    recorder.error.until(lambda error: b"ack 2\n" in error)
    fed.close_input()
    assert recorder.ended()[0] == 0
    recorder.let_go()


WRONG: list[list[str]] = [
    [], ["--to"], ["--hold", "0", "0=-"], ["--hold", "x", "0=-"], ["--rotate", "6", "0=-"], ["--rotate", "400h", "0=-"],
    ["256=-"], ["x=-"], ["=-"], ["--none", "0=-"], ["--most", "4294967296", "0=-"],
]


@pytest.mark.parametrize("words", WRONG, ids=[" ".join(words) for words in WRONG])
def test_wrong_words(source: Start, words: list[str]) -> None:
    status, out, error = source(*words).ended()
    assert (status, out) == (1, b"")
    assert error.startswith("usage: source ")


def test_an_input_that_is_not_there(source: Start, tmp_path: pathlib.Path) -> None:
    there = tmp_path / "there"
    there.touch()
    assert source(f"0={there}", f"1={there}x").ended() == (2, b"", f"source: {there}x: No such file or directory\n")
