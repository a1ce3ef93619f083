"""How the scripts of bench/ run a program and what they learn of it, the images that they record in, and their tables."""

import contextlib
import os
import pathlib
import subprocess
import sys
import time
from collections.abc import Iterable
from typing import NamedTuple

SLOTS, PAYLOAD = 8448, 4096
SUPERFRAME = 64  # seconds, in which a parameter comes as often as its rate says


class Figures(NamedTuple):
    """Of a run: its seconds, those of the processor, and the most memory in MB."""

    seconds: float
    processor: float
    peak: float


def peak_of(process: int) -> int:
    """The most memory of a running process so far, in kB, or nothing where it has just ended."""
    with contextlib.suppress(OSError):
        for line in pathlib.Path(f"/proc/{process}/status").read_text().splitlines():
            if line.startswith("VmHWM:"):
                return int(line.split()[1])
    return 0


def run(words: Iterable[object], given: str | pathlib.Path = os.devnull, written: str | pathlib.Path = os.devnull) -> Figures:
    """Runs a program, and answers its figures.

    Its memory is looked at while it runs: what the system says at its end counts the memory of who started it, too.
    """
    peak, ended = 0, 0
    with open(given, "rb") as source, open(written, "wb") as sink, open(os.devnull, "wb") as told:
        began = time.monotonic()
        child = subprocess.Popen([str(word) for word in words], stdin=source, stdout=sink, stderr=told)
        while not ended:
            time.sleep(0.001)
            peak = max(peak, peak_of(child.pid))
            ended, status, used = os.wait4(child.pid, os.WNOHANG)
        seconds = time.monotonic() - began
    child.returncode = os.waitstatus_to_exitcode(status)
    if child.returncode != 0:
        sys.exit(f"{' '.join(map(str, words))} ended with {child.returncode}")
    return Figures(seconds, used.ru_utime + used.ru_stime, peak / 1024)


def print_row(cells: Iterable[str]) -> None:
    """Prints a row of a table in Markdown."""
    print("| " + " | ".join(cells) + " |")
