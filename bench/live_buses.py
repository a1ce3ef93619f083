#!/usr/bin/env python3
"""Measures a recording of 32 live buses: processor time, the delay from a word to its record and to the `ack` of its block,
memory, and words dropped.

    bench/live_buses.py FDR [--seconds N] [--sync MS] [--tool]

Words come over 32 named pipes to the source in C, or with --tool as rows to `flight trace --live`. `flight watch` reads beside.
With --sync each sync of the recorder takes so many milliseconds. A word has the milliseconds of the clock at which it was
written in its bits 11 to 31. What reads the trace first is this script, which hands it on to the recorder and to the watch.
"""

import argparse
import multiprocessing
import os
import pathlib
import re
import subprocess
import sys
import tempfile
import threading
import time

import numpy as np
from numpy.typing import NDArray

sys.dont_write_bytecode = True
TOP = pathlib.Path(__file__).resolve().parent.parent
BUSES, WORDS, TICK = 32, 28, 0.01  # 28 words of each bus in each tick
CLOCK = 1 << 21  # milliseconds after which a word's clock comes round
W, PAYLOAD, SLOTS = 1024, 1024, 4096
RECORD = np.dtype([("kind", "u1"), ("bus", "u1"), ("zero", ">u2"), ("word", ">u4"), ("time", ">u8")])
SLOW = """
#define _GNU_SOURCE
#include <unistd.h>
#include <sys/syscall.h>
int fdatasync(int fd) { usleep(DELAY); return (int)syscall(SYS_fdatasync, fd); }
int fsync(int fd) { usleep(DELAY); return (int)syscall(SYS_fsync, fd); }
"""


def word_now() -> int:
    """The word of label 203 with the clock's milliseconds, of odd parity."""
    word = int(time.monotonic() * 1000) % CLOCK << 10 | 0xC1
    return word | (word.bit_count() + 1) % 2 << 31


def feed(paths: list[str], is_tool: bool, seconds: float) -> None:
    """Writes the words of all buses, tick by tick."""
    pipes = [os.open(path, os.O_WRONLY) for path in paths]
    if is_tool:
        os.write(pipes[0], b"bus,word\n")
    begin = time.monotonic()
    for tick in range(round(seconds / TICK)):
        time.sleep(max(0.0, begin + tick * TICK - time.monotonic()))
        word = word_now()
        if is_tool:
            os.write(pipes[0], b"".join(b"%d,%08X\n" % (bus, word) * WORDS for bus in range(BUSES)))
        else:
            for pipe in pipes:
                os.write(pipe, b"%08X\n" % word * WORDS)


class Relay:
    """Takes the trace from the source, and hands it on."""

    def __init__(self, source: int, recorder: int, watch: int) -> None:
        self.source, self.recorder, self.watch = source, recorder, watch
        self.words = 0
        self.longest = 0  # milliseconds from a word to its record
        self.start = float("inf")  # the clock at the trace's time 0
        self.thread = threading.Thread(target=self._run)
        self.thread.start()

    def _run(self) -> None:
        left = b""
        while data := os.read(self.source, 1 << 16):
            now = time.monotonic()
            data = left + data
            whole = len(data) // RECORD.itemsize * RECORD.itemsize
            left = data[whole:]
            self._look(np.frombuffer(data[:whole], dtype=RECORD), now)
            for out in (self.recorder, self.watch):
                view = memoryview(data[:whole])
                while view:
                    view = view[os.write(out, view) :]
        os.close(self.recorder)
        os.close(self.watch)

    def _look(self, records: "NDArray[np.void]", now: float) -> None:
        words = records[(records["kind"] == 1) & (records["word"] & 0xFF == 0xC1)]
        if len(words):
            delays = (int(now * 1000) - (words["word"].astype(np.int64) >> 10)) % CLOCK
            self.longest = max(self.longest, int(delays.max()))
            self.words += len(words)
        if len(records):
            self.start = min(self.start, now - int(records["time"][-1]) / 1e6)


def acknowledged(recorder: "subprocess.Popen[bytes]", times: list[float]) -> None:
    """Keeps when each number came."""
    assert recorder.stderr
    for line in recorder.stderr:
        if line.startswith(b"ack "):
            times.append(time.monotonic())


def slow_library(folder: pathlib.Path, milliseconds: int) -> pathlib.Path:
    """A library that makes each sync take longer."""
    made = folder / "slow.so"
    (folder / "slow.c").write_text(SLOW.replace("DELAY", str(milliseconds * 1000)))
    subprocess.run(["cc", "-O2", "-shared", "-fPIC", "-o", made, folder / "slow.c"], check=True)
    return made


def used(child: "subprocess.Popen[bytes]") -> float:
    """The processor's seconds that a child took, once it ended."""
    _, status, usage = os.wait4(child.pid, 0)
    child.returncode = os.waitstatus_to_exitcode(status)
    return float(usage.ru_utime + usage.ru_stime)


def memory(child: "subprocess.Popen[bytes]") -> int:
    """The most memory that a child had so far, in MB. While it ends it has none."""
    found = re.search(r"VmHWM:\s+(\d+) kB", pathlib.Path(f"/proc/{child.pid}/status").read_text())
    return int(found[1]) // 1024 if found else 0


def measure(fdr: str, seconds: float, sync: int, is_tool: bool, folder: pathlib.Path) -> None:
    """One run, and its figures."""
    table, image = folder / "table.csv", folder / "live.img"
    table.write_text((TOP / "examples" / "t1.csv").read_text().replace("F,64,", f"F,{W},"))
    subprocess.run([fdr, "format", table, image, "--slots", str(SLOTS), "--payload", str(PAYLOAD)], check=True)
    paths = [str(folder / f"bus{number}") for number in range(1 if is_tool else BUSES)]
    for path in paths:
        os.mkfifo(path)
    flight = [sys.executable, str(TOP / "tools" / "flight")]
    if is_tool:
        words = [*flight, "trace", "--live", "--clock", paths[0]]
    else:
        subprocess.run(["cc", "-O2", "-o", folder / "source", TOP / "examples" / "recorder" / "source.c"], check=True)
        words = [str(folder / "source"), *(f"{number}={path}" for number, path in enumerate(paths))]
    environment = {**os.environ, "LD_PRELOAD": str(slow_library(folder, sync))} if sync else dict(os.environ)
    recorder = subprocess.Popen(
        [fdr, "record", table, image], stdin=subprocess.PIPE, stderr=subprocess.PIPE, env=environment, bufsize=0
    )
    watch = subprocess.Popen(
        [*flight, "watch", "--table", str(table)], stdin=subprocess.PIPE, stdout=subprocess.DEVNULL, bufsize=0
    )
    time.sleep(2)  # the watch has started then
    source = subprocess.Popen(words, stdout=subprocess.PIPE, stderr=subprocess.PIPE, bufsize=0)
    assert recorder.stdin and watch.stdin and source.stdout and source.stderr
    times: list[float] = []
    listener = threading.Thread(target=acknowledged, args=(recorder, times))
    listener.start()
    relay = Relay(source.stdout.fileno(), os.dup(recorder.stdin.fileno()), os.dup(watch.stdin.fileno()))
    recorder.stdin.close()
    watch.stdin.close()
    feeder = multiprocessing.get_context("fork").Process(target=feed, args=(paths, is_tool, seconds))
    feeder.start()
    time.sleep(seconds - 1)
    children = {"source": source, "fdr": recorder, "watch": watch}
    memories = {name: memory(child) for name, child in children.items()}
    error = source.stderr.read().decode()
    relay.thread.join()
    seconds_of = {name: used(child) for name, child in children.items()}
    listener.join()
    feeder.join()
    block = PAYLOAD / (1.5 * W)
    waits = [at - relay.start - block * number for number, at in enumerate(times[1:-1])]
    print(f"{'flight trace --live' if is_tool else 'source'}, {seconds:.0f} s, syncs {f'of {sync} ms more' if sync else 'as they are'}")
    print(f"  words written {round(seconds / TICK) * BUSES * WORDS}, in the trace {relay.words}; {error.splitlines()[-1] if error else ''}")
    print(f"  a word to its record: {relay.longest} ms at most; to the ack of its block, {block:.2f} s long: {max(waits):.2f} s at most")
    for name, processor in seconds_of.items():
        print(f"  {name}: {processor:.1f} s of processor, {processor / seconds:.3f} of one; {memories[name]} MB")


def main() -> None:
    words = argparse.ArgumentParser(description=__doc__.splitlines()[0])
    words.add_argument("fdr")
    words.add_argument("--seconds", type=float, default=120)
    words.add_argument("--sync", type=int, default=0, metavar="MS")
    words.add_argument("--tool", action="store_true")
    given = words.parse_args()
    with tempfile.TemporaryDirectory(dir=os.environ.get("TMPDIR", "/tmp")) as folder:
        measure(str(pathlib.Path(given.fdr).resolve()), given.seconds, given.sync, given.tool, pathlib.Path(folder))


if __name__ == "__main__":
    main()
