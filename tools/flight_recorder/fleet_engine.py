"""The engine of a fleet, which is dask.distributed: a cluster of this machine or one that is there, and its answers as they come."""

from __future__ import annotations

import contextlib
import logging
import os
import pathlib
import sys
import tempfile
import time
import uuid
from concurrent.futures import CancelledError
from dataclasses import dataclass
from typing import Any, Callable, Iterable, Iterator

import dask
import distributed

from .faults import Fault
from .fleet_job import DONE, FAILED, Job, Row

TRIES = 2
GLANCE = 2.0  # seconds between two looks at how many workers there are
PATIENCE = 120.0  # seconds without any worker
LOOPBACK = "127.0.0.1"
TOOLS = str(pathlib.Path(__file__).resolve().parents[1])
OF_WORKERS = "distributed.nanny.pre-spawn-environ"
SECONDS_TO_CONNECT, SECONDS_TO_CLOSE = 15, 20
GONE = "the scheduler is gone, or dropped what it was given; what came so far is kept"


@dataclass(frozen=True)
class Place:
    """Where the flights are read: by a scheduler that is there, or by so many processes of this machine, whose scheduler listens
    at an address; and what of a worker's resources a flight takes."""

    scheduler: str | None = None
    workers: int | None = None
    listen: str | None = None
    resources: tuple[tuple[str, float], ...] = ()


@contextlib.contextmanager
def crew(place: Place) -> Iterator["Crew"]:
    """Workers, for as long as they are needed."""
    with contextlib.ExitStack() as stack:
        address: Any = place.scheduler or stack.enter_context(_cluster(place))
        _hush()
        try:
            client = distributed.Client(address, timeout=SECONDS_TO_CONNECT, set_as_default=False)
        except (OSError, ValueError, TimeoutError) as error:
            raise Fault(f"--scheduler {place.scheduler}: {str(error).splitlines()[0]}") from None
        stack.callback(client.close)
        yield Crew(client, dict(place.resources))


def _hush() -> None:
    """The engine's own log is left out: what goes wrong is told by the rows."""
    engine = [name for name in logging.root.manager.loggerDict if name.split(".")[0] == "distributed"]
    for name in (*engine, "asyncio"):  # the engine logs some errors of its tasks in the name of the loop that runs them
        logging.getLogger(name).setLevel(logging.CRITICAL)


def _environment() -> dict[str, Any]:
    """The environment of workers, without what has them give each array back to the system at once: a flight takes half as long again
    by it."""
    return {name: value for name, value in dask.config.get(OF_WORKERS).items() if name != "MALLOC_TRIM_THRESHOLD_"}


@contextlib.contextmanager
def _cluster(place: Place) -> Iterator[Any]:
    """A cluster of this machine. All that it opens, its pages for people too, is on the address."""
    host, _, port = (place.listen or LOOPBACK).partition(":")
    how: dict[str, Any] = {"host": host, "scheduler_port": int(port or 0), "extensions": {}}
    how |= {"dashboard_address": f"{host}:0", "worker_dashboard_address": f"{host}:0", "silence_logs": logging.CRITICAL}
    workers = place.workers or len(os.sched_getaffinity(0))
    with tempfile.TemporaryDirectory(prefix="flight-fleet-", ignore_cleanup_errors=True) as room:
        # A flight whose worker ended is given to another one, and once only.
        with dask.config.set({"distributed.scheduler.allowed-failures": TRIES - 1, OF_WORKERS: _environment()}):
            try:
                cluster = distributed.LocalCluster(n_workers=workers, threads_per_worker=1, processes=True, local_directory=room, **how)
            except (OSError, RuntimeError) as error:
                raise Fault(f"--listen {place.listen or host}: {str(error).splitlines()[0]}") from None
        try:
            if place.listen:
                print(f"flight: the scheduler is {cluster.scheduler_address}", file=sys.stderr)
            yield cluster
        finally:
            close(cluster)


def close(cluster: Any) -> None:
    """Ends a cluster of this machine. One that doesn't end in time ends with this process, on which its workers look."""
    with contextlib.suppress(TimeoutError):
        cluster.close(timeout=SECONDS_TO_CLOSE)


def _reading(tools: str) -> Callable[[Row], Row]:
    """What a worker runs. It is a function within another one, so that the engine sends it as it is: a worker that was started
    elsewhere doesn't know where the tools are before it runs."""

    def read(job: Row) -> Row:
        import sys

        from distributed import get_worker

        if tools not in sys.path:
            sys.path.insert(0, tools)
        from flight_recorder import fleet_work

        worker = get_worker()
        return {**fleet_work.read(job, worker.local_directory), "worker": worker.address}

    return read


@dataclass(frozen=True)
class Try:
    """A flight that the engine has, and which time it is."""

    job: Job
    number: int


@dataclass(frozen=True)
class Again:
    """A flight that wasn't done, and the worker that had it."""

    job: Job
    worker: str


class Crew:
    """The workers of a cluster that have the resources that a flight takes, by its client."""

    def __init__(self, client: Any, resources: dict[str, float]) -> None:
        self.client, self.resources = client, resources
        self.read = _reading(TOOLS)
        self.run = uuid.uuid4().hex[:12]  # keeps this run's keys apart from those of others on the same scheduler
        self.tries: dict[str, Try] = {}
        self.again: list[Again] = []
        self.room, self.looked, self.manned = 0, 0.0, time.monotonic()

    def has_room(self) -> bool:
        """Whether a thread of a worker is free. What waits on a worker that ends counts as what it ended by, so nothing waits there."""
        self._look()
        return len(self.tries) < max(1, self.room)

    def _look(self) -> None:
        """Looks now and then at how many threads the workers have. Without any for long the run ends."""
        now = time.monotonic()
        if now < self.looked + GLANCE:
            return
        self.looked, self.room = now, sum(self.rooms().values())
        if self.room:
            self.manned = now
        elif now > self.manned + PATIENCE:
            wanted = " with " + ", ".join(f"{name}={amount:g}" for name, amount in self.resources.items()) if self.resources else ""
            raise Fault(f"there was no worker{wanted} for {PATIENCE:.0f} seconds; what came so far is kept")

    def rooms(self) -> dict[str, int]:
        """How many flights at a time each worker reads, by its address: one a thread, as far as the resources go that a flight takes."""
        threads: dict[str, int] = self.client.nthreads()
        if not self.resources:
            return threads
        workers = self.client.scheduler_info()["workers"]
        shares = {address: [one["resources"].get(name, 0) // amount for name, amount in self.resources.items()] for address, one in workers.items()}
        rooms = {address: min(threads.get(address, 0), *map(int, each)) for address, each in shares.items()}
        return {address: room for address, room in rooms.items() if room}

    def rows(self, jobs: Iterable[Job]) -> Iterator[Row]:
        """The rows of flights, as they come. What isn't done is tried once more, by another worker where there is one."""
        try:
            yield from self._rows(iter(jobs))
        except (OSError, CancelledError) as error:
            raise Fault(f"{GONE} ({str(error) or type(error).__name__})") from None

    def _rows(self, waiting: Iterator[Job]) -> Iterator[Row]:
        coming = distributed.as_completed([], loop=self.client.loop, with_results=True, raise_errors=False)
        self._fill(coming, waiting)
        while self.again or not coming.is_empty():
            if not coming.has_ready():
                self._fill(coming, waiting)  # workers may have joined
                with coming.thread_condition:
                    coming.thread_condition.wait(timeout=0.1)
                continue
            future, answer = next(coming)
            one = self.tries.pop(future.key)
            row = _row_of(one, future.status, answer)
            future.release()
            worker = row.get("worker", "")
            is_last = row["status"] == DONE or row.get("same") or row.get("is_lost") or one.number == TRIES
            self.again += [] if is_last else [Again(one.job, worker)]
            self._fill(coming, waiting, worker)
            if is_last:
                yield {**row, "tries": row.get("is_lost") or one.number}

    def _fill(self, coming: Any, waiting: Iterator[Job], free: str = "") -> None:
        """Gives flights to the threads that are free, of which one may be known to be a worker's."""
        self._try_again(coming, free)
        while self.has_room() and (job := next(waiting, None)) is not None:
            coming.add(self._submit(Try(job, 1)))

    def _try_again(self, coming: Any, free: str) -> None:
        """Gives a flight for the second time to a worker that is free and didn't have it. What waited at one that is at work would be
        taken by one that is free, which may be the one that had it. Where nobody is at work, all are free."""
        one = next((one for one in self.again if free and free != one.worker), None)
        others = [free]
        if one is None and self.again and not self.tries:
            one = self.again[0]
            others = [address for address in self.rooms() if address != one.worker]
        if one is not None:
            self.again.remove(one)
            coming.add(self._submit(Try(one.job, TRIES), others or None))

    def _submit(self, one: Try, workers: list[str] | None = None) -> Any:
        key = f"flight-{self.run}-{one.job.name}-{one.number}"
        self.tries[key] = one
        how = {"workers": workers, "allow_other_workers": bool(workers), "resources": self.resources or None}
        return self.client.submit(self.read, one.job.as_data(), key=key, pure=False, **how)


def _row_of(one: Try, status: str, answer: Any) -> Row:
    """The row of a flight, also where its worker didn't answer one."""
    if status == "finished":
        row: Row = answer
        return row
    if status != "error" or isinstance(answer, CancelledError):
        raise Fault(GONE)
    error = answer[1] if isinstance(answer, tuple) else answer
    if isinstance(error, distributed.scheduler.KilledWorker):
        times = error.allowed_failures + 1
        return one.job.row(FAILED, f"its worker ended while it was read, {times} times, on {error.last_worker.address} last", is_lost=times)
    return one.job.row(FAILED, f"{type(error).__name__}: {error}")
