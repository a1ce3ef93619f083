"""`flight watch`: its tables while a trace comes, by the screen of a terminal too, and what it says before a take-off."""

import fcntl
import os
import pathlib
import random
import re
import struct
import subprocess
import sys
import termios
import time
from typing import Callable, Iterator

import numpy as np
import pytest

import encoder
from conftest import FLIGHT, ORDINARY, T1
from feeding import PATIENCE, RECORD, Fed, Reading
from flight_recorder import parameters
from flight_recorder import trace as trace_module
from flight_recorder import watch as watch_module

Start = Callable[..., Fed]
FIVE, SEVEN, OTHER = 0x000014C1, 0x80001CC1, 0x12345678


def record(time_at: float, word: int, bus: int = 0) -> bytes:
    """The record of a word."""
    return RECORD.pack(1, bus, 0, word, round(time_at * 1_000_000))


def end(time_at: float) -> bytes:
    """The end record."""
    return RECORD.pack(2, 0, 0, 0, round(time_at * 1_000_000))


def once(trace: bytes) -> tuple[int, list[str], str]:
    """The table of a whole trace, by the tool as a program."""
    command = [sys.executable, str(FLIGHT), "watch", "--table", str(T1), "--once", "20s"]
    ran = subprocess.run(command, input=trace, capture_output=True, timeout=PATIENCE)
    return ran.returncode, ran.stdout.decode().splitlines(), ran.stderr.decode()


def table_of(trace: bytes, table: pathlib.Path = T1) -> tuple[list[str], bool]:
    """The table of a whole trace, and whether a parameter is silent."""
    watched = watch_module.Watch(parameters.read_table(str(table)))
    watched.take(np.frombuffer(trace, dtype=trace_module.RECORD))
    return watched.lines()


@pytest.fixture
def watch() -> Iterator[Start]:
    """Starts `flight watch` by the small table."""
    started: list[Fed] = []

    def start(*words: object) -> Fed:
        started.append(Fed([sys.executable, FLIGHT, "watch", "--table", T1, *map(str, words)]))
        return started[-1]

    yield start
    for one in started:
        one.let_go()


def test_a_table_of_a_whole_trace() -> None:
    words = b"".join(record(at / 4, FIVE) + record(at / 4, OTHER, 3) for at in range(40))
    status, lines, error = once(words + record(9.8, SEVEN) + end(10))
    assert (status, error) == (0, "")
    assert lines[0].startswith("10.0 s, ") and lines[0].endswith(" 0 words dropped by the source")
    assert lines[1].split() == ["parameter", "bus", "label", "sdi", "value", "a", "second", "silence"]
    name, bus, label, sdi, value, rate, *silence = lines[2].split()
    assert (name, bus, label, sdi, value, silence) == ("ALT", "0", "203", "any", "7", ["0.20", "s"])
    assert float(rate) > 0
    assert lines[3].split()[:4] == ["-", "3", "036", "2"]
    assert lines[3].endswith("no parameter asks for it")
    assert len(lines) == 4


@pytest.mark.parametrize(
    "trace, note",
    [
        (end(5), "NONE CAME"),
        (record(1, FIVE ^ 1 << 31) + end(5), "ALL OF EVEN PARITY"),
        (record(1, FIVE) + record(2, FIVE) + end(5.1), "SILENT"),
        (record(1, FIVE) + record(2, FIVE) + end(4.9), ""),
        (record(1, FIVE) + record(2, FIVE) + record(4, FIVE ^ 1 << 31) + end(5.1), "SILENT"),
        (record(1, FIVE) + end(4.1), "SILENT"),
        (record(1, FIVE, 1) + record(1, OTHER) + end(5), "NONE CAME"),
        (record(0, FIVE) + record(1, FIVE) + end(1) + record(0, FIVE) + record(1, FIVE) + end(2), ""),
        (record(0, FIVE) + record(1, FIVE) + end(1) + end(3.1), "SILENT"),
    ],
    ids=range(9),
)
def test_what_is_silent(trace: bytes, note: str) -> None:
    lines, is_silent = table_of(trace)
    assert is_silent == bool(note)
    row = next(line for line in lines if line.startswith("ALT"))
    assert re.split(r"\d s|\d  ", row)[-1].strip() == note


def test_values_are_those_of_listings() -> None:
    table = encoder.read_table(ORDINARY)
    words = encoder.generated(table, 2, seed=9)
    last = {}
    for one in words:
        for parameter in table.parameters:
            if encoder._is_of(one, parameter):
                last[parameter.name] = parameter.value(one.word >> parameter.lsb - 1 & (1 << parameter.width) - 1)
    lines, _ = table_of(encoder.trace_of(words, 8_000_000), ORDINARY)
    told = {line.split()[0]: line.split()[4] for line in lines[2:]}
    assert {name: told[name] for name in last} == last
    assert set(told) - {"-"} == {parameter.name for parameter in table.parameters}


@pytest.mark.parametrize(
    "fields, word, value",
    [
        ("11,12,S,1,2,0,1", 0xFFF << 10, "-0.1"),
        ("11,12,U,1,2,0,1", 0xFFF << 10, "204.7"),
        ("11,12,U,5,1,-400,1", 5 << 10 | 1 << 22, "-37.5"),
        ("1,32,U,1,1,7,0", 0xFFFFFFFF, "4294967302"),
        ("29,1,V,1,1,0,0", 0, "1"),
    ],
)
def test_a_value_by_its_scale(tmp_path: pathlib.Path, fields: str, word: int, value: str) -> None:
    """Lowest bit, width, sign, numerator, denominator, offset, decimals."""
    table = tmp_path / "table.csv"
    table.write_text(f"F,64,2,1\nP,ALT,0,203,,{fields},16\n")
    assert parameters.read_table(str(table)).parameters["ALT"].text_of(word) == value


def test_what_the_source_dropped_and_its_beats() -> None:
    """A beat has label 000 and even parity, and bits 9 to 31 say how many words were dropped."""
    beats = [number << 8 | number.bit_count() % 2 << 31 for number in (0, 5, 8_388_607)]
    for count, said in ((1, 0), (2, 5), (3, 8_388_607)):
        trace = b"".join(record(at, beat, 255) + record(at, FIVE) for at, beat in enumerate(beats[:count]))
        lines, is_silent = table_of(trace + end(count - 1))
        assert (is_silent, len(lines)) == (False, 3)
        assert f", {said} words dropped by the source" in lines[0]


def test_once_ends_before_the_trace(watch: Start) -> None:
    fed = watch("--once", "1s")
    begun = time.monotonic()
    fed.give(record(0, FIVE)[:7])
    time.sleep(0.1)
    fed.give(record(0, FIVE)[7:] + record(0.5, FIVE))
    status, out, error = fed.ended()
    assert time.monotonic() - begun < PATIENCE
    assert (status, error) == (0, "")
    assert out.decode().splitlines()[2].split()[4] == "5"


def test_a_source_that_stops(watch: Start) -> None:
    """Silence goes on by the clock where not even beats come."""
    fed = watch()
    fed.give(record(0, FIVE) + record(0.1, FIVE))
    fed.out.until(lambda data: b"NOTHING COMES" in data and b"SILENT" in data)
    fed.give(record(0.2, FIVE))
    fed.close_input()
    status, out, error = fed.ended()
    assert (status, error) == (0, "")
    assert b"NOTHING COMES" not in out[out.rindex(b" words dropped") :]


def screen(data: bytes) -> list[str]:
    """What a terminal shows after these bytes: lines from the top on, of which each is cleared to its end."""
    last = data.decode().split("\x1b[H")[-1]
    return [line for line in last.replace("\x1b[K", "").replace("\x1b[J", "").splitlines() if line]


def test_the_screen_of_a_terminal() -> None:
    other, terminal = os.openpty()
    fcntl.ioctl(terminal, termios.TIOCSWINSZ, struct.pack("HHHH", 24, 90, 0, 0))
    words = [sys.executable, str(FLIGHT), "watch", "--table", str(T1)]
    child = subprocess.Popen(words, stdin=subprocess.PIPE, stdout=terminal, stderr=subprocess.PIPE, bufsize=0)
    os.close(terminal)
    assert child.stdin and child.stderr
    shown = Reading(other)
    child.stdin.write(record(0, FIVE))
    shown.until(lambda data: any(line.startswith("ALT") and " 5 " in line for line in screen(data)))
    child.stdin.write(record(1, SEVEN) + record(1, OTHER) + record(9, OTHER))
    shown.until(lambda data: len(screen(data)) == 4 and " 7 " in screen(data)[2] and "SILENT" in screen(data)[2])
    assert shown.data.count(b"\x1b[H") >= 2
    child.stdin.close()
    assert child.wait(PATIENCE) == 0
    os.close(other)
    child.stderr.close()


def test_a_small_screen_says_how_many_lines_are_more() -> None:
    other, terminal = os.openpty()
    fcntl.ioctl(terminal, termios.TIOCSWINSZ, struct.pack("HHHH", 6, 90, 0, 0))
    words = [sys.executable, str(FLIGHT), "watch", "--table", str(ORDINARY)]
    environment = {name: text for name, text in os.environ.items() if name not in ("LINES", "COLUMNS")}
    child = subprocess.Popen(
        words, stdin=subprocess.PIPE, stdout=terminal, stderr=subprocess.PIPE, bufsize=0, env=environment
    )
    os.close(terminal)
    assert child.stdin and child.stderr
    shown = Reading(other)
    shown.until(lambda data: len(screen(data)) == 5)
    parameters = len(encoder.read_table(ORDINARY).parameters)
    assert screen(shown.data)[-1] == f"and {parameters + 2 - 4} more"
    child.stdin.close()
    child.wait(PATIENCE)
    os.close(other)
    child.stderr.close()


def test_any_words_are_counted() -> None:
    """Each word is one of a parameter or one that no parameter asks for, whatever its bits."""
    chance = random.Random(4)
    words = [(chance.randrange(256), chance.getrandbits(32)) for _ in range(5_000)]
    lines, _ = table_of(b"".join(record(at / 1000, word, bus) for at, (bus, word) in enumerate(words)) + end(5))
    beats = sum(word & 0xFF == 0 and word.bit_count() % 2 == 0 for _, word in words)
    named = {(bus, word & 0xFF, word >> 8 & 3) for bus, word in words if not (word & 0xFF == 0 and word.bit_count() % 2 == 0)}
    asked = {one for one in named if one[:2] == (0, 0xC1)}
    assert len(lines) == 2 + 1 + len(named - asked)
    assert beats > 0


def test_a_silent_parameter_is_the_status_of_once() -> None:
    status, lines, error = once(record(1, FIVE) + end(9))
    assert (status, lines[2].split()[-1], error) == (2, "SILENT", "")


def test_what_is_no_trace() -> None:
    assert once(bytes(32)) == (1, [], "flight: trace record 0: kind\n")
