"""What the tests of the tools share: the tools themselves, a plain recorder, and the program where it is built."""

import os
import pathlib
import subprocess
import sys
from typing import Any, Callable, NamedTuple

import pytest

sys.dont_write_bytecode = True
TOP = pathlib.Path(__file__).resolve().parent.parent.parent
sys.path[:0] = [str(TOP / "tools"), str(pathlib.Path(__file__).parent), str(TOP / "tests")]

import encoder  # noqa: E402
from flight_recorder import commands  # noqa: E402

FLIGHT = TOP / "tools" / "flight"
ORDINARY = TOP / "examples" / "ordinary.csv"
T1 = TOP / "examples" / "t1.csv"


class Ran(NamedTuple):
    """What a run answered."""

    status: int
    out: bytes
    error: str


Tool = Callable[..., Ran]
Fdr = Callable[..., bytes]
Write = Callable[[str, str | bytes], pathlib.Path]


@pytest.fixture
def flight(capfdbinary: pytest.CaptureFixture[bytes]) -> Tool:
    """Runs a command of the tools in this process."""

    def run(*words: object) -> Ran:
        try:
            status = commands.main([str(word) for word in words])
        except SystemExit as end:
            status = end.code if isinstance(end.code, int) else 1
        sys.stdout.flush()
        out, error = capfdbinary.readouterr()
        return Ran(status, out, error.decode())

    return run


@pytest.fixture
def piped() -> Tool:
    """Runs a command of the tools as a program, with its standard input."""

    def run(*words: object, given: bytes = b"", **how: Any) -> Ran:
        ran = subprocess.run(
            [sys.executable, str(FLIGHT), *map(str, words)], input=given, capture_output=True, timeout=120, **how
        )
        return Ran(ran.returncode, ran.stdout, ran.stderr.decode())

    return run


@pytest.fixture
def fdr() -> Fdr:
    """Runs the program, which FDR names, or bin/fdr; the test is skipped where there is none."""
    program = pathlib.Path(os.environ.get("FDR", TOP / "bin" / "fdr"))
    if not program.is_file():
        pytest.skip("no program: FDR names none, and there is no bin/fdr")

    def run(*words: object, given: bytes = b"") -> bytes:
        ran = subprocess.run([program.resolve(), *map(str, words)], input=given, capture_output=True, timeout=600)
        assert (ran.returncode, ran.stderr) == (0, b"")
        return ran.stdout

    return run


@pytest.fixture
def write(tmp_path: pathlib.Path) -> Write:
    """Writes a file into the test's folder."""

    def one(name: str, text: str | bytes) -> pathlib.Path:
        path = tmp_path / name
        path.write_bytes(text if isinstance(text, bytes) else text.encode())
        return path

    return one


def example_captures() -> list[str]:
    """The two captures of the example's flight, before and after its power cut."""
    program = [sys.executable, str(TOP / "examples" / "make_flight.py")]
    parts = (["--to", "1873.4"], ["--from", "1931"])
    return [subprocess.run([*program, *part], capture_output=True, text=True, check=True).stdout for part in parts]


@pytest.fixture(scope="session")
def hour() -> str:
    """The listing of the example's flight with its power cut, by the plain recorder."""
    table = encoder.read_table(ORDINARY)
    listing, at = "", 0
    for rows in example_captures():
        recording = encoder.recording_of(table, *encoder.words_of_capture(rows))
        part = recording.listing(at)
        listing += part
        at += 8 * len(recording.bits())
    return listing
