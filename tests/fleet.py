#!/usr/bin/python3
"""Runs `flight fleet` over many tiny flights, by a cluster of its own and by a scheduler that is there, with kills.

    tests/fleet.py FDR [--flights 2000] [--only WORD]

It takes Debian's python3-distributed and python3-sqlalchemy, runs by Debian's Python, and ends with 1 at the first thing that
isn't as it has to be. Everything is on the loopback.
"""

import argparse
import contextlib
import csv
import importlib.util
import os
import pathlib
import random
import re
import signal
import sqlite3
import subprocess
import sys
import tempfile
import threading
import time
from collections.abc import Callable, Iterator
from typing import Any

sys.dont_write_bytecode = True

import damaged_images
import inputs
from places import Mismatch

FLIGHT = inputs.TOP / "tools" / "flight"
T1 = inputs.TOP / "examples" / "t1.csv"
RULES = "HIGH,ALT,above,0,1\nSTEP,ALT,change,0,2\n"
LIMIT = 900.0  # seconds that a run has
OF_RUN = ("seconds", "tries")  # what differs from run to run
GROWTH = 40  # MB that a worker may grow by, from its first quarter on
Words = list[str]


def check(is_so: bool, said: object) -> None:
    """What isn't so ends the script."""
    if not is_so:
        raise Mismatch(str(said))


# --- processes


def descendants(process: int) -> list[int]:
    """The processes below one."""
    below: dict[int, list[int]] = {}
    for stat in pathlib.Path("/proc").glob("[0-9]*/stat"):
        with contextlib.suppress(OSError):
            below.setdefault(int(stat.read_text().rpartition(")")[2].split()[1]), []).append(int(stat.parent.name))
    found = [process]
    for one in found:
        found += below.get(one, [])
    return found[1:]


def workers_of(process: int) -> list[int]:
    """The workers of a client, which are processes of Python."""
    found = []
    for one in descendants(process):
        with contextlib.suppress(OSError):
            words = pathlib.Path(f"/proc/{one}/cmdline").read_bytes()
            found += [one] if b"spawn_main" in words else []
    return found


def is_there(process: int) -> bool:
    """Whether a process runs still."""
    with contextlib.suppress(OSError):
        return pathlib.Path(f"/proc/{process}/stat").read_text().rpartition(")")[2].split()[0] != "Z"
    return False


def memory_of(process: int) -> int:
    """The memory of a process in MB, or 0 where it has ended."""
    with contextlib.suppress(OSError):
        found = re.search(r"VmRSS:\s+(\d+) kB", pathlib.Path(f"/proc/{process}/status").read_text())
        return int(found.group(1)) // 1024 if found else 0
    return 0


def listening(processes: list[int]) -> set[str]:
    """The addresses at which some processes listen, as the system writes them."""
    sockets = set()
    for process in processes:
        with contextlib.suppress(OSError):
            for handle in pathlib.Path(f"/proc/{process}/fd").iterdir():
                with contextlib.suppress(OSError):
                    sockets.add(os.readlink(handle))
    found = set()
    for name in ("tcp", "tcp6"):
        for line in pathlib.Path(f"/proc/net/{name}").read_text().splitlines()[1:]:
            fields = line.split()
            if fields[3] == "0A" and f"socket:[{fields[9]}]" in sockets:
                found.add(fields[1].partition(":")[0])
    return found


# --- runs


class Room:
    """A folder with flights, of which number N has 1 + N modulo 30 frames."""

    def __init__(self, folder: pathlib.Path, program: str, count: int) -> None:
        self.folder, self.program, self.count = folder, program, count
        images = [damaged_images.whole_image(1 + number, slots=192) for number in range(30)]
        self.flights = [folder / f"flight_{number}.img" for number in range(count)]
        for number, path in enumerate(self.flights):
            path.write_bytes(images[number % 30])
        (folder / "list").write_text("".join(f"{path}\n" for path in self.flights))
        (folder / "rules").write_text(RULES)

    def words(self, output: str, *more: object) -> Words:
        """The words of a run into a folder."""
        words = [str(FLIGHT), "fleet", "--files", self.folder / "list", "--table", T1, "--rules", self.folder / "rules"]
        return [str(word) for word in [*words, "-o", self.folder / output, "--fdr", self.program, *more]]

    def rows(self, output: str) -> list[dict[str, str]]:
        """The rows of a run's flights, but for what differs from run to run."""
        with open(self.folder / output / "flights.csv", newline="") as file:
            return [{name: cell for name, cell in row.items() if name not in OF_RUN} for row in csv.DictReader(file)]

    def exceedances(self, output: str) -> str:
        """The exceedances of a run."""
        return (self.folder / output / "exceedances.csv").read_text()

    def check_all(self, output: str) -> None:
        """Each flight is there once, in order, with its frames and its exceedances."""
        told = [(row["file"], row["status"], row["frames"], row["exceedances"]) for row in self.rows(output)]
        frames = [1 + number % 30 for number in range(self.count)]
        wanted = [(str(path), "done", str(one), str(1 + (one > 1))) for path, one in zip(self.flights, frames)]
        check(told == wanted, next((pair for pair in zip(told, wanted) if pair[0] != pair[1]), f"{len(told)} rows"))
        check(self.exceedances(output).count("\n") == 1 + sum(1 + (one > 1) for one in frames), "another number of exceedances")

    def journal(self, output: str) -> int:
        """How many lines a run's journal has."""
        path = self.folder / output / "fleet.journal"
        return path.read_bytes().count(b"\n") if path.exists() else 0


def run(words: Words, status: int = 0) -> str:
    """A run that ends by itself; answers its standard error."""
    ended = subprocess.run(words, capture_output=True, text=True, timeout=LIMIT, check=False)
    check(ended.returncode == status, f"{words[1:]} ended with {ended.returncode}: {ended.stderr}")
    return ended.stderr


@contextlib.contextmanager
def started(words: Words, **how: Any) -> Iterator["subprocess.Popen[bytes]"]:
    """A process, which is ended in the end."""
    process = subprocess.Popen(words, stdout=subprocess.DEVNULL, stderr=subprocess.PIPE, **how)
    try:
        yield process
    finally:
        with contextlib.suppress(ProcessLookupError):
            process.kill()
        process.communicate(timeout=60)


def wait_until(is_so: Callable[[], bool], what: str, seconds: float = LIMIT) -> None:
    """Waits for something."""
    end = time.monotonic() + seconds
    while not is_so():
        check(time.monotonic() < end, f"{what}: not within {seconds:.0f} seconds")
        time.sleep(0.02)


def end_of(process: "subprocess.Popen[bytes]", status: int) -> str:
    """Waits for the end of a run, and answers its standard error."""
    _, error = process.communicate(timeout=LIMIT)
    check(process.returncode == status, f"ended with {process.returncode}: {error.decode()}")
    return error.decode()


# --- cases


def many_flights(room: Room) -> str:
    """All flights by a cluster of its own: the rows, the memory of its workers, and where it listens."""
    memory: dict[int, list[tuple[int, int]]] = {}
    addresses: set[str] = set()
    with started(room.words("many", "--workers", "2")) as client:
        wait_until(lambda: room.journal("many") > 0 or client.poll() is not None, "the first flight")
        begun = time.monotonic()
        error: list[str] = []
        waiter = threading.Thread(target=lambda: error.append(end_of(client, 0)))
        waiter.start()
        while waiter.is_alive():
            done = room.journal("many")
            for worker in workers_of(client.pid):
                memory.setdefault(worker, []).append((done, memory_of(worker)))
            addresses |= listening([client.pid, *descendants(client.pid)])
            time.sleep(0.5)
        waiter.join()
        seconds = time.monotonic() - begun
    check(bool(error), "the run failed")
    room.check_all("many")
    check(addresses == {"0100007F"}, f"it listens at {addresses}")  # 127.0.0.1
    early = [max((size for done, size in one if 0 < done <= room.count // 4), default=0) for one in memory.values()]
    late = [max((size for done, size in one if done >= room.count * 3 // 4), default=0) for one in memory.values()]
    grown = max((b - a for a, b in zip(early, late) if a and b), default=0)
    check(grown <= GROWTH, f"a worker grew by {grown} MB")
    again = room.journal("many")
    run(room.words("many", "--workers", "2"))
    check(room.journal("many") == again, "flights were read again")
    return f"{room.count} flights in {seconds:.0f} s, {1000 * seconds / room.count:.1f} ms each, workers grew by {grown} MB"


def killed_clients(room: Room) -> str:
    """The client is killed in the middle, at drawn moments, and begun again; it interrupts itself by SIGTERM once."""
    url = f"sqlite:///{room.folder}/killed.sqlite"
    chance = random.Random(7)
    kills = 0
    while room.journal("killed") < room.count * 3 // 4:
        before = room.journal("killed")
        with started(room.words("killed", "--workers", "2", "--database", url)) as client:
            wait_until(lambda: room.journal("killed") > before or client.poll() is not None, "a flight")
            check(client.poll() is None, f"it ended with {client.returncode}")
            time.sleep(chance.random())
            below = descendants(client.pid)
            client.send_signal(signal.SIGTERM if kills == 1 else signal.SIGKILL)
            client.wait(timeout=60)
            check(client.returncode == (130 if kills == 1 else -signal.SIGKILL), f"it ended with {client.returncode}")
        kills += 1
        wait_until(lambda: not any(is_there(one) for one in below), "the end of its workers", 60)
        look_at_database(room.folder / "killed.sqlite")
    lines = room.journal("killed")
    run(room.words("killed", "--workers", "2", "--database", url))
    check(room.journal("killed") == room.count, f"{room.journal('killed')} lines of {room.count}, and {lines} before")
    room.check_all("killed")
    check(look_at_database(room.folder / "killed.sqlite") == room.count, "the database lacks flights")
    return f"{kills} kills of the client"


def look_at_database(path: pathlib.Path) -> int:
    """How many flights a database has, each of them with all of its rows."""
    with contextlib.closing(sqlite3.connect(path)) as database:
        flights: dict[int, int] = dict(database.execute("select flight, frames from flights").fetchall())
        for table, counts in (("parameters", dict.fromkeys(flights, 1)), ("exceedances", {one: 1 + (frames > 1) for one, frames in flights.items()})):
            found = dict(database.execute(f"select flight, count(*) from {table} group by flight").fetchall())
            check(found == counts, f"{table}: other rows than those of {len(flights)} flights")
    return len(flights)


def killed_workers(room: Room) -> str:
    """Workers are killed, one after another."""
    kills = 0
    with started(room.words("workers", "--workers", "3")) as client:
        for at in range(room.count // 8, room.count * 7 // 8, max(1, room.count // 8)):
            wait_until(lambda: room.journal("workers") >= at or client.poll() is not None, f"{at} flights")
            workers = workers_of(client.pid)
            if workers and client.poll() is None:
                os.kill(workers[kills % len(workers)], signal.SIGKILL)
                kills += 1
        end_of(client, 0)
    room.check_all("workers")
    return f"{kills} kills of workers"


@contextlib.contextmanager
def scheduler(folder: pathlib.Path) -> Iterator[tuple[str, "subprocess.Popen[bytes]"]]:
    """A scheduler on the loopback, and its address."""
    own = ["--host", "127.0.0.1", "--port", "0", "--dashboard-address", "127.0.0.1:0", "--scheduler-file", str(folder / "scheduler.json")]
    (folder / "scheduler.json").unlink(missing_ok=True)
    with started(["dask-scheduler", *own], cwd=folder) as process:
        wait_until(lambda: (folder / "scheduler.json").exists() and (folder / "scheduler.json").stat().st_size > 0, "the scheduler", 60)
        time.sleep(0.2)
        found = re.search(r'"address": "(tcp://[^"]+)"', (folder / "scheduler.json").read_text())
        check(found is not None, "no address")
        yield found.group(1) if found else "", process


def worker(folder: pathlib.Path, address: str) -> contextlib.AbstractContextManager["subprocess.Popen[bytes]"]:
    """A worker at the scheduler's own address, started in a folder from which the tools aren't found."""
    host = address.removeprefix("tcp://").partition(":")[0]
    words = ["dask-worker", address, "--host", host, "--nthreads", "1", "--no-nanny", "--dashboard-address", f"{host}:0", "--local-directory", str(folder)]
    return started(words, cwd=folder, env={name: value for name, value in os.environ.items() if name != "PYTHONPATH"})


def mixed_flights(room: Room) -> str:
    """Whole and damaged flights, one that is refused, one that isn't there, and a table that is wrong for a folder: by a cluster of its
    own, and by a scheduler and two workers that are there."""
    whole = damaged_images.whole_image()
    holes, bits = damaged_images.closed(whole, [30, 31, 150]), inputs.FIVES[:1000] + b"x" + inputs.FIVES[1000:]
    flights = {"right/whole.img": whole, "right/holes.img": holes, "right/damaged.bits": bits, "right/short.img": whole[:1000], "wrong/whole.img": whole}
    for name, data in flights.items():
        (room.folder / name).parent.mkdir(exist_ok=True)
        (room.folder / name).write_bytes(data)
    (room.folder / "wrong.csv").write_text(T1.read_text() + "P,NEW,0,203\n")
    (room.folder / "tables").write_text(f"right/*,{T1}\nwrong/*,wrong.csv\n")
    own = [room.folder / name for name in (*flights, "right/gone.img")]
    words = [FLIGHT, "fleet", *own, "--table-of", room.folder / "tables", "--rules", room.folder / "rules", "--fdr", room.program]
    run([str(word) for word in (*words, "-o", room.folder / "own", "--workers", 2)], 2)
    with scheduler(room.folder) as (address, _), worker(room.folder, address), worker(room.folder, address):
        run([str(word) for word in (*words, "-o", room.folder / "there", "--scheduler", address)], 2)
    told = [(row["status"], row["said"]) for row in room.rows("own")]
    wanted = [("done", "")] * 3 + [("refused", "fdr: image: shorter than its ring"), ("refused", "fdr: table row 3: shape")]
    check(told == [*wanted, ("missing", "No such file or directory")], told)
    check([row["runs"] for row in room.rows("own")[:3]] == ["1", "3", ""], "another number of runs")
    check(room.rows("own") == room.rows("there"), "the scheduler that is there has other rows")
    check(room.exceedances("own") == room.exceedances("there") and room.exceedances("own").count("\n") > 3, "other exceedances")
    return f"{len(own)} flights alike by both clusters"


def real_scheduler(room: Room) -> str:
    """A scheduler and two workers that are there: the client is killed, and begun again; one worker is; then the scheduler is, and the
    fleet begun again."""
    with scheduler(room.folder) as (address, _), worker(room.folder, address), worker(room.folder, address) as second:
        with started(room.words("begun", "--scheduler", address)) as client:
            wait_until(lambda: room.journal("begun") > room.count // 4 or client.poll() is not None, "a quarter of the flights")
            client.kill()
            client.wait(timeout=60)
        begun = room.journal("begun")
        check(begun < room.count, "the client was killed too late")
        run(room.words("begun", "--scheduler", address))
        room.check_all("begun")
        with started(room.words("real", "--scheduler", address)) as client:
            wait_until(lambda: room.journal("real") > room.count // 4 or client.poll() is not None, "a quarter of the flights")
            second.kill()
            end_of(client, 0)
        room.check_all("real")
    with scheduler(room.folder) as (address, process), worker(room.folder, address):
        with started(room.words("gone", "--scheduler", address)) as client:
            wait_until(lambda: room.journal("gone") > 0 or client.poll() is not None, "the first flight")
            process.kill()
            said = end_of(client, 1)
        check(said.startswith("flight: the scheduler is gone"), said)
    left = room.count - room.journal("gone")
    with scheduler(room.folder) as (address, _), worker(room.folder, address), worker(room.folder, address):
        run(room.words("gone", "--scheduler", address))
    room.check_all("gone")
    check(0 < left < room.count, f"{left} flights were left")
    return f"a client, a worker and a scheduler killed, {room.count - begun} and {left} flights read after the first and the last"


def workers_that_join(room: Room) -> str:
    """A worker that is started by itself joins at an address that was given, reads its share, and nothing listens elsewhere."""
    telling, log = room.folder / "telling", room.folder / "log"
    telling.write_text(f'#!/bin/sh\necho "$PPID" >> {log}\nexec {room.program} "$@"\n')
    telling.chmod(0o755)
    with started(room.words("joined", "--workers", "1", "--listen", "127.0.0.2", "--fdr", telling)) as client:
        assert client.stderr is not None
        found = re.fullmatch(r"flight: the scheduler is (tcp://127\.0\.0\.2:\d+)\n", client.stderr.readline().decode())
        check(found is not None, "it doesn't say its address")
        with worker(room.folder, found.group(1) if found else "") as other:
            wait_until(lambda: room.journal("joined") > room.count // 2 or client.poll() is not None, "half of the flights")
            addresses = listening([client.pid, *descendants(client.pid), other.pid])
            end_of(client, 0)
            read = log.read_text().split().count(str(other.pid))
    room.check_all("joined")
    check(addresses == {"0200007F"}, f"it listens at {addresses}")  # 127.0.0.2
    check(read > 0, "the worker that joined read nothing")
    return f"{read} of {len(log.read_text().split())} runs of the program by a worker that joined"


def no_scheduler(room: Room) -> str:
    """There is no scheduler."""
    said = run(room.words("none", "--scheduler", "tcp://127.0.0.1:9"), 1)
    check(said.startswith("flight: --scheduler tcp://127.0.0.1:9: "), said)
    return "named"


CASES: list[tuple[str, Callable[[Room], str], int]] = [
    ("many flights", many_flights, 1),
    ("killed workers", killed_workers, 8),
    ("killed clients", killed_clients, 8),
    ("mixed flights", mixed_flights, 1000),
    ("a real scheduler", real_scheduler, 8),
    ("workers that join", workers_that_join, 8),
    ("no scheduler", no_scheduler, 1000),
]


def main() -> int:
    words = argparse.ArgumentParser(description=(__doc__ or "").splitlines()[0])
    words.add_argument("program", metavar="FDR", type=pathlib.Path)
    words.add_argument("--flights", type=int, default=2000)
    words.add_argument("--only", default="", help="the cases with this in their names")
    given = words.parse_args()
    lacking = [f"python3-{name}" for name in ("distributed", "sqlalchemy") if importlib.util.find_spec(name) is None]
    if lacking:
        print(f"skipped: {' '.join(lacking)} isn't installed")
        return 0
    count = 0
    for name, case, share in CASES:
        if given.only in name:
            with tempfile.TemporaryDirectory(prefix="fleet-") as folder:
                room = Room(pathlib.Path(folder), str(given.program.resolve()), max(2, given.flights // share))
                try:
                    print(f"{name}: {case(room)}", flush=True)
                except Mismatch as error:
                    print(f"{name}: {error}")
                    return 1
            count += 1
    print(f"{count} cases of fleets: all as they have to be")
    return 0


if __name__ == "__main__":
    sys.exit(main())
