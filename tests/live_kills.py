#!/usr/bin/env python3
"""Pulls the plug of a live recording: its source and its recorder are killed together at drawn moments, and examples/recorder/
record.sh begins again.

    tests/live_kills.py FDR FDRPAIR [--kills N] [--slots N] [--seed S]

It does so on one image and on two. At each kill, while the script is held, every image must hold the last blocks of all that
was recorded, with no number left out: each block that was acknowledged, unless the ring promises it no longer, one more at
most, and those that it held at the kill before byte for byte. In the end `list` must have each session that had an
acknowledged block, with the number that it began with. A kill isn't a cut of the power: what was written isn't lost.

It prints counts, and ends with 1 where something differs.
"""

import argparse
import contextlib
import os
import pathlib
import random
import re
import shutil
import signal
import subprocess
import sys
import tempfile
import threading
import time

sys.dont_write_bytecode = True

from formats import Block, bus_word, next_number, recovered, shape_of
from inputs import TOP
from places import Mismatch

RECORDER = TOP / "examples" / "recorder"
PAYLOAD, PROMISED_LESS = 64, 2
LONGEST = 1.6  # seconds from one kill to the next
LIMIT = 60.0
GONE = 1.0  # seconds without one of both
ACK = re.compile(r"^\S+Z ack (\d+)$", re.M)


class Feeder:
    """A bus: words over a named pipe, for each source that opens it."""

    def __init__(self, path: pathlib.Path) -> None:
        self.path = path
        self.is_over = False
        self.thread = threading.Thread(target=self._run, daemon=True)
        os.mkfifo(path)
        self.thread.start()

    def _run(self) -> None:
        value = 0
        while not self.is_over:
            with contextlib.suppress(BrokenPipeError), open(self.path, "wb", buffering=0) as pipe:
                while not self.is_over:
                    pipe.write(b"%08X\n" % bus_word(0o203, value % 4096))
                    value += 1
                    time.sleep(0.01)

    def end(self) -> None:
        """Ends it, also where it waits for a source."""
        self.is_over = True
        reader = os.open(self.path, os.O_RDONLY | os.O_NONBLOCK)
        self.thread.join()
        os.close(reader)


class Service:
    """The script with its source and its recorder."""

    def __init__(self, programs: dict[str, str], room: pathlib.Path, images: list[pathlib.Path]) -> None:
        self.acks = room / "acks.log"
        self.acks.touch()
        self.images = images
        self.read = 0
        self.held: list[dict[int, Block]] = [{} for _ in images]
        self.recordings: list[list[int]] = []  # the acknowledged numbers of each
        environment = {**os.environ, **programs, "ACKS": str(self.acks), "PAUSE": "0.05"}
        words = [RECORDER / "record.sh", room / "table.csv", *images, "--", room / "source", "--to", "{}", f"0={room / 'bus'}"]
        self.log = open(room / "script.log", "wb")
        self.child = subprocess.Popen([str(word) for word in words], env=environment, stderr=self.log, stdin=subprocess.DEVNULL)

    def kin(self) -> dict[int, str]:
        """The children of the script that still run, with their names."""
        found = {}
        for one in pathlib.Path(f"/proc/{self.child.pid}/task/{self.child.pid}/children").read_text().split():
            with contextlib.suppress(FileNotFoundError, ProcessLookupError):
                text = pathlib.Path(f"/proc/{one}/stat").read_text()
                name, state = text[text.index("(") + 1 : text.rindex(")")], text[text.rindex(")") + 2]
                if state != "Z":
                    found[int(one)] = name
        return found

    def kill(self, names: set[str]) -> set[str]:
        """Kills source and recorder, and holds the script until they are gone and their lines are written. What has the
        script's name is what writes the lines, or what is just about to become one of both: then it is killed too. Where
        the recorder wasn't started yet, what is to write its lines waits for it."""
        os.kill(self.child.pid, signal.SIGSTOP)
        killed: set[str] = set()
        last = time.monotonic() + GONE
        while time.monotonic() < last and (kin := self.kin()):
            for one, name in kin.items():
                if name in names:
                    killed.add(name)
                    with contextlib.suppress(ProcessLookupError):
                        os.kill(one, signal.SIGKILL)
                    last = time.monotonic() + GONE
            time.sleep(0.005)
        return killed

    def go_on(self) -> None:
        """Lets the script go on."""
        os.kill(self.child.pid, signal.SIGCONT)

    def look(self) -> None:
        """Compares the images with what was acknowledged, and with what they held before."""
        text = self.acks.read_text()
        self.recordings.append([int(number) for number in ACK.findall(text[self.read :])])
        self.read = len(text)
        told = self.recordings[-1]
        if told and told != list(range(told[0], told[0] + len(told))):
            raise Mismatch(f"acknowledged were {told}")
        least = max((number for one in self.recordings for number in one), default=0)
        for number, path in enumerate(self.images):
            self._look_at(number, path.read_bytes(), path.name, least)

    def _look_at(self, number: int, image: bytes, name: str, least: int) -> None:
        following, run = next_number(image), recovered(image)
        before = max(self.held[number], default=-1) + 1
        if not least <= following <= max(least, before) + 1:
            raise Mismatch(f"{name}: the next number is {following}, and {least} was acknowledged")
        if len(run) < min(shape_of(image).slots - PROMISED_LESS, following):
            raise Mismatch(f"{name}: the run has {len(run)} blocks of {following}")
        blocks = {block.number: block for block in run}
        for block in blocks.values():
            if self.held[number].get(block.number, block) != block:
                raise Mismatch(f"{name}: block {block.number} is another one than before")
        self.held[number] = blocks

    def end(self) -> None:
        """Ends the script as the service does."""
        self.child.terminate()
        status = self.child.wait(LIMIT)
        self.log.close()
        if status != 0:
            raise Mismatch(f"the script ended with {status}")
        self.look()


def sessions_of(fdr: str, table: pathlib.Path, image: pathlib.Path) -> list[tuple[int, int]]:
    """The sessions that `list` has: their numbers and their first blocks."""
    ran = subprocess.run([fdr, "list", str(table), str(image)], capture_output=True, text=True, check=True, timeout=LIMIT)
    return [(int(one), int(first)) for one, first in re.findall(r"^session,(\d+),(\d+)$", ran.stdout, re.M)]


def compare_sessions(service: Service, fdr: str, table: pathlib.Path) -> int:
    """Each recording with an acknowledged block is a session that begins where it did, as far as the ring has it."""
    for path in service.images:
        listed = sessions_of(fdr, table, path)
        oldest = recovered(path.read_bytes())[0].number
        if [number for number, _ in listed] != list(range(listed[0][0], listed[0][0] + len(listed))):
            raise Mismatch(f"{path.name}: the sessions are {listed}")
        firsts = [first for _, first in listed]
        for told in service.recordings:
            if len(told) > 1 and told[0] >= oldest and told[0] not in firsts:
                raise Mismatch(f"{path.name}: no session begins at {told[0]}: {listed}")
    return len(listed)


def trial(
    programs: dict[str, str], count: int, kills: int, slots: int, chance: random.Random, room: pathlib.Path
) -> None:
    """Kills a recording on so many images so often."""
    table = room / "table.csv"
    table.write_text((TOP / "examples" / "t1.csv").read_text().replace("F,64,", "F,1024,"))
    subprocess.run(["cc", "-O2", "-o", room / "source", RECORDER / "source.c"], check=True)
    images = [room / f"image{number}" for number in range(count)]
    for image in images:
        sizes = ["--slots", str(slots), "--payload", str(PAYLOAD)]
        subprocess.run([programs["FDR"], "format", str(table), str(image), *sizes], check=True)
    feeder = Feeder(room / "bus")
    service = Service(programs, room, images)
    names = {"source", pathlib.Path(programs["FDR" if count == 1 else "FDRPAIR"]).name}
    counts = {"kills of both": 0, "kills of the recorder before its source was there": 0, "kills of neither": 0}
    try:
        for _ in range(kills):
            while True:
                time.sleep(chance.random() * LONGEST)
                killed = service.kill(names)
                service.look()
                service.go_on()
                kind = "kills of both" if len(killed) == 2 else "kills of the recorder before its source was there"
                counts[kind if killed else "kills of neither"] += 1
                if len(killed) == 2:
                    break
        time.sleep(2)
        service.end()
        feeder.end()
        sessions = compare_sessions(service, programs["FDR"], table)
    finally:
        service.child.kill()
    print(f"{count} image{'s' if count > 1 else ''}:")
    for name, number in counts.items():
        print(f"{number:8} {name}")
    print(f"{max(service.recordings[-1]):8} blocks acknowledged, of which a ring promises the last {slots - PROMISED_LESS}")
    print(f"{sessions:8} sessions listed")


def main() -> int:
    words = argparse.ArgumentParser(description=__doc__.splitlines()[0])
    words.add_argument("fdr")
    words.add_argument("fdrpair")
    words.add_argument("--kills", type=int, default=30)
    words.add_argument("--slots", type=int, default=700, help="of the rings, which hold all of thirty kills by 700")
    words.add_argument("--seed", type=int, default=None)
    given = words.parse_args()
    seed = given.seed if given.seed is not None else random.randrange(1 << 32)
    programs = {"FDR": str(pathlib.Path(given.fdr).resolve()), "FDRPAIR": str(pathlib.Path(given.fdrpair).resolve())}
    print(f"seed {seed}")
    for count in (1, 2):
        room = pathlib.Path(tempfile.mkdtemp(prefix="fdr_live_"))
        try:
            trial(programs, count, given.kills, given.slots, random.Random(seed), room)
        except Mismatch as error:
            print(f"{count} images: {error}\nall of it is in {room}")
            return 1
        shutil.rmtree(room)
    print("after each kill the images held what was promised")
    return 0


if __name__ == "__main__":
    sys.exit(main())
