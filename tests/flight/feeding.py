"""Processes that are fed while they run, and whose output is read as it comes: what the tests of live recording share."""

import os
import pathlib
import select
import struct
import subprocess
import time
from typing import Callable, Mapping, NamedTuple, Sequence

import pytest

TOP = pathlib.Path(__file__).resolve().parent.parent.parent
RECORD = struct.Struct(">BBHIQ")
WORD, END = 1, 2
PATIENCE = 30.0  # seconds that anything may take, on a machine that is busy


class Record(NamedTuple):
    """A record of a trace."""

    kind: int
    bus: int
    zero: int
    word: int
    time: int


def records_of(data: bytes) -> list[Record]:
    """The whole records of these bytes."""
    whole = len(data) // RECORD.size * RECORD.size
    return [Record(*fields) for fields in RECORD.iter_unpack(data[:whole])]


def is_even(word: int) -> bool:
    """Whether a word is of even parity, as beats are."""
    return word.bit_count() % 2 == 0


def words_in(data: bytes) -> list[int]:
    """The words of a trace that aren't beats."""
    return [one.word for one in records_of(data) if one.kind == WORD and not is_even(one.word)]


def odd_words(count: int, first: int = 0) -> list[int]:
    """So many words of odd parity, each another."""
    return [number << 10 | (number.bit_count() + 1) % 2 << 31 for number in range(first, first + count)]


def lines_of(words: Sequence[int]) -> bytes:
    """The lines of these words."""
    return b"".join(b"%08X\n" % word for word in words)


class Reading:
    """What comes of a descriptor, kept as it comes."""

    def __init__(self, descriptor: int) -> None:
        self.descriptor = descriptor
        self.data = b""
        self.at_end = False

    def take(self, patience: float) -> bool:
        """Takes what comes next. Answers whether something came."""
        if self.at_end or not select.select([self.descriptor], [], [], patience)[0]:
            return False
        try:
            more = os.read(self.descriptor, 1 << 16)
        except OSError:  # of a terminal whose other side is closed
            more = b""
        self.at_end = not more
        self.data += more
        return bool(more)

    def until(self, is_there: Callable[[bytes], bool]) -> bytes:
        """Takes until this is so of all that came."""
        last = time.monotonic() + PATIENCE
        while not is_there(self.data):
            if self.at_end or time.monotonic() > last:
                raise AssertionError(f"came: {self.data[-400:]!r}")
            self.take(0.2)
        return self.data

    def until_words(self, words: Sequence[int]) -> None:
        """Takes until exactly these words came, beats aside."""
        self.until(lambda data: len(words_in(data)) >= len(words))
        assert words_in(self.data) == list(words)

    def to_the_end(self) -> bytes:
        """Takes all that still comes."""
        last = time.monotonic() + PATIENCE
        while not self.at_end:
            assert time.monotonic() < last, "no end came"
            self.take(0.2)
        return self.data


class Fed:
    """A process with pipes to all three of its streams."""

    def __init__(
        self, words: Sequence[str | pathlib.Path], given: int = subprocess.PIPE, more: Mapping[str, str] = {}
    ) -> None:
        pipe = subprocess.PIPE
        environment = {**os.environ, **more}
        self.child = subprocess.Popen(
            [str(word) for word in words], stdin=given, stdout=pipe, stderr=pipe, bufsize=0, env=environment
        )
        assert self.child.stdout and self.child.stderr
        self.out = Reading(self.child.stdout.fileno())
        self.error = Reading(self.child.stderr.fileno())

    def give(self, data: bytes) -> None:
        """Writes to its standard input."""
        assert self.child.stdin
        self.child.stdin.write(data)

    def close_input(self) -> None:
        """Ends its standard input."""
        assert self.child.stdin
        self.child.stdin.close()

    def ended(self) -> tuple[int, bytes, str]:
        """Its status, its output and its errors, once it ended."""
        out = b"" if self.child.stdout is None or self.child.stdout.closed else self.out.to_the_end()
        error = self.error.to_the_end().decode()
        return self.child.wait(PATIENCE), out, error

    def let_go(self) -> None:
        """Ends it where it still runs, and closes its pipes."""
        self.child.kill()
        self.child.wait()
        for pipe in (self.child.stdin, self.child.stdout, self.child.stderr):
            if pipe:
                pipe.close()


def program(name: str = "fdr") -> pathlib.Path:
    """The program that FDR names or bin/ has, and fdrpair beside it; the test is skipped where there is none."""
    fdr = pathlib.Path(os.environ.get("FDR", TOP / "bin" / "fdr")).resolve()
    found = fdr if name == "fdr" else pathlib.Path(os.environ.get("FDRPAIR", fdr.parent / name)).resolve()
    if not found.is_file():
        pytest.skip(f"no {name}: FDR and FDRPAIR name none, and there is no bin/{name}")
    return found
