"""Runs of the proved program: which one it is, with which words, and what it answered."""

from __future__ import annotations

import datetime
import os
import pathlib
import shlex
import subprocess
import time
from dataclasses import asdict, dataclass

from . import program
from .evidence import sum_of
from .faults import Fault


@dataclass(frozen=True)
class Program:
    """The program that is run: its path, its size and its SHA-256."""

    path: str
    size: int
    sha256: str


def program_at(given: str | None) -> Program:
    """The program of this path; if none is given the one that the tools find."""
    path = given or program.fdr()
    if path is None:
        raise Fault("no program fdr was found: --fdr PROGRAM names it")
    if not os.path.isfile(path) or not os.access(path, os.X_OK):
        raise Fault(f"{given}: no program")
    whole = os.path.abspath(path)
    return Program(whole, os.path.getsize(whole), sum_of(whole))


@dataclass(frozen=True)
class Ran:
    """A run: its words, the file of its standard input, the file of the report that has its standard output, and its answer."""

    words: tuple[str, ...]
    input: str | None
    output: str
    status: int
    error: str
    begun: str
    seconds: float

    @property
    def line(self) -> str:
        """The run as a line for a shell, in the folder of the report."""
        given = f" < {shlex.quote(self.input)}" if self.input else ""
        return f"{shlex.join(self.words)}{given} > {shlex.quote(self.output)}"

    def as_data(self) -> dict[str, object]:
        """The run, for commands.json."""
        return {**asdict(self), "words": list(self.words), "line": self.line}


@dataclass
class Runner:
    """Runs a program in a folder, and keeps what each run answered."""

    program: Program
    folder: pathlib.Path
    runs: list[Ran]

    def run(self, words: list[str], output: str, given: str | None = None) -> Ran:
        """Runs a command. Its standard output goes to a file of the folder."""
        begun = datetime.datetime.now(datetime.timezone.utc).strftime("%Y-%m-%dT%H:%M:%SZ")
        started = time.monotonic()
        with open(self.folder / (given or os.devnull), "rb") as source, open(self.folder / output, "wb") as out:
            ended = subprocess.run(
                [self.program.path, *words], stdin=source, stdout=out, stderr=subprocess.PIPE, cwd=self.folder
            )
        seconds = round(time.monotonic() - started, 3)
        error = ended.stderr.decode("utf-8", "backslashreplace")
        ran = Ran((self.program.path, *words), given, output, ended.returncode, error, begun, seconds)
        self.runs.append(ran)
        return ran
