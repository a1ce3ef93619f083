"""The tools as a program: their help, what is missing, standard streams that are closed or full, progress."""

import pathlib
import os
import pty
import re
import subprocess
import sys
import time

import pandas
import pytest

from conftest import FLIGHT, T1, Tool, Write
from flight_recorder import commands

COMMANDS = ["trace", "words", "check-trace", "pack", "unpack", "table", "frame", "plot", "layout", "map", "values", "report"]
ROW = b"row,0,1,10,ALT,5\n"
ROWS = b"".join(b"row,%d,1,10,ALT,5\n" % (1000 + number % 3000) for number in range(200_000))  # 20 bytes each


def test_help_has_each_command(piped: Tool) -> None:
    out = piped("--help").out.decode()
    assert all(re.search(rf"^ +{name}\s+[a-z]", out, re.M) for name in COMMANDS)
    assert "aren't proved" in out


@pytest.mark.parametrize("name", COMMANDS)
def test_help_has_an_example(piped: Tool, name: str) -> None:
    answer = piped(name, "--help")
    assert (answer.status, answer.error) == (0, "")
    assert b"\nexample:\n  " in answer.out and f"flight {name} ".encode() in answer.out


@pytest.mark.parametrize(
    "words", [(), ("fly",), ("trace",), ("table", "l"), ("plot", "l", "--words", "64"), ("trace", "c", "--uni", "s")]
)
def test_wrong_words(piped: Tool, words: tuple[str, ...]) -> None:
    answer = piped(*words)
    assert (answer.status, answer.out) == (2, b"")
    assert "usage: flight" in answer.error


def test_a_missing_file_and_a_folder(piped: Tool, tmp_path: pathlib.Path) -> None:
    assert piped("words", tmp_path / "none") == (1, b"", f"flight: {tmp_path}/none: No such file or directory\n")
    assert piped("words", tmp_path) == (1, b"", f"flight: {tmp_path}: Is a directory\n")


@pytest.mark.parametrize(
    "package, words",
    [
        ("numpy", ("table", "-", "--words", "64")),
        ("pandas", ("table", "-", "--words", "64", "-o", "f.h5")),
        ("matplotlib", ("plot", "-", "--words", "64", "-o", "f.png")),
    ],
)
def test_a_missing_package(piped: Tool, tmp_path: pathlib.Path, package: str, words: tuple[str, ...]) -> None:
    (tmp_path / f"{package}.py").write_text(f"raise ModuleNotFoundError(name='{package}')\n")
    answer = piped(*words, given=ROW, env={**os.environ, "PYTHONPATH": str(tmp_path)}, cwd=tmp_path)
    assert answer == (1, b"", f"flight: python3-{package} isn't installed: apt-get install python3-{package}\n")


def test_the_missing_library(flight: Tool, write: Write, tmp_path: pathlib.Path, monkeypatch: pytest.MonkeyPatch) -> None:
    from flight_recorder import page

    monkeypatch.setattr(page, "LIBRARY", tmp_path / "none")
    answer = flight("plot", write("l", ROW), "--words", 64, "-o", tmp_path / "f.html")
    assert answer == (1, b"", "flight: libjs-dygraphs isn't installed: apt-get install libjs-dygraphs\n")
    assert [one.name for one in tmp_path.iterdir()] == ["l"]


@pytest.mark.parametrize(
    "stream, words, fault",
    [
        (">&-", "table - --words 64", "standard output is closed"),
        (">/dev/full", "table - --words 64", "standard output: No space left on device"),
        ("<&-", "table - --words 64", "standard input is closed"),
    ],
)
def test_standard_streams(stream: str, words: tuple[str, ...], fault: str) -> None:
    ran = subprocess.run(
        ["sh", "-c", f'echo row,0,1,10,ALT,5 | (exec "$0" "$1" {words} {stream})', sys.executable, FLIGHT],
        capture_output=True,
        text=True,
    )
    assert (ran.returncode, ran.stderr) == (1, f"flight: {fault}\n")


def test_a_reader_that_is_gone(write: Write) -> None:
    path = write("l", ROWS)
    ran = subprocess.run(
        ["bash", "-c", f'set -o pipefail; "$0" "$1" table {path} --words 64 | true', sys.executable, FLIGHT],
        capture_output=True,
        text=True,
    )
    assert (ran.returncode, ran.stderr) == (0, "")


def test_progress_is_shown_on_a_terminal_alone(write: Write) -> None:
    main, other = pty.openpty()
    fed = '(for part in 1 2 3 4 5 6; do head -c 660000 "$0"; sleep 0.3; done) | "$1" "$2" table - --words 64'
    words = ["sh", "-c", fed, str(write("l", ROWS)), sys.executable, str(FLIGHT)]
    slow = subprocess.Popen(words, stderr=other, stdout=subprocess.DEVNULL)
    os.close(other)
    said = b""
    while True:
        try:
            data = os.read(main, 1000)
        except OSError:
            break
        said += data
        if not data:
            break
    os.close(main)
    slow.wait()
    assert b"MB" in said and said.endswith(b"\r\x1b[K")


def test_no_progress_of_quick_work() -> None:
    main, other = pty.openpty()
    begin = time.monotonic()
    subprocess.run(
        [sys.executable, FLIGHT, "table", "-", "--table", T1], input=ROW, stderr=other, stdout=subprocess.DEVNULL
    )
    os.close(other)
    os.set_blocking(main, False)
    try:
        said = os.read(main, 1000)
    except OSError:
        said = b""
    assert said == b"" or time.monotonic() - begin > 1


def test_installed_tools(tmp_path: pathlib.Path, write: Write) -> None:
    """They run from where they are installed, without the repository, and their man page has each command."""
    made = subprocess.run(["make", "-s", "-C", FLIGHT.parent.parent, "install-tools", f"DESTDIR={tmp_path}", "PREFIX=/usr"], capture_output=True)
    assert (made.returncode, made.stderr) == (0, b"")
    words = [str(tmp_path / "usr/bin/flight"), "table", str(write("l", ROW)), "--words", "64", "-o", str(tmp_path / "f.h5")]
    assert subprocess.run(words, capture_output=True, cwd=tmp_path).returncode == 0
    version = (FLIGHT.parent.parent / "VERSION").read_text().split()[0]
    with pandas.HDFStore(str(tmp_path / "f.h5"), "r") as store:
        assert store.root._v_attrs["made_by"] == f"flight {version}"
    page = (tmp_path / "usr" / "share" / "man" / "man1" / "flight.1").read_text()
    assert [name for name in COMMANDS if f"\n.B flight {name} " not in page] == []


def test_an_interrupt_says_nothing(monkeypatch: pytest.MonkeyPatch, flight: Tool, write: Write) -> None:
    def stop(*_: object) -> None:
        raise KeyboardInterrupt

    monkeypatch.setattr(commands, "opened", stop)
    assert flight("words", write("t", b"")) == (130, b"", "")
