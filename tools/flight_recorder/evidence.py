"""Inputs that have to stay as they are: looked at before and after, by their bytes and their times."""

from __future__ import annotations

import datetime
import hashlib
import os
import stat
from dataclasses import dataclass
from typing import Mapping

from .faults import Fault
from .streams import Progress

AT_ONCE = 1 << 20


def sum_of(path: str, progress: Progress | None = None) -> str:
    """The SHA-256 of a file, which is opened for reading alone."""
    with open(path, "rb") as file:
        if progress is None:
            return hashlib.file_digest(file, "sha256").hexdigest()
        digest = hashlib.sha256()
        while data := file.read(AT_ONCE):
            digest.update(data)
            progress.add(len(data))
    return digest.hexdigest()


@dataclass(frozen=True)
class Seen:
    """A file as it was seen: which one it is, its size, when its bytes and its names last changed, in nanoseconds, and its sum."""

    path: str
    inode: int
    size: int
    modified: int
    changed: int
    sha256: str

    def as_data(self) -> dict[str, object]:
        """For the manifest."""
        times = {"modified": _time_text(self.modified), "changed": _time_text(self.changed)}
        return {"path": self.path, "size": self.size, **times, "sha256": self.sha256}


def _time_text(nanoseconds: int) -> str:
    seconds, rest = divmod(nanoseconds, 1_000_000_000)
    return f"{datetime.datetime.fromtimestamp(seconds, datetime.timezone.utc):%Y-%m-%dT%H:%M:%S}.{rest:09d}Z"


def look(path: str) -> Seen:
    """Looks at a file."""
    path = os.path.abspath(path)
    about = os.stat(path)
    if not stat.S_ISREG(about.st_mode):
        raise Fault(f"{path}: it isn't a file; a report reads its inputs several times")
    progress = Progress(about.st_size)
    try:
        return Seen(path, about.st_ino, about.st_size, about.st_mtime_ns, about.st_ctime_ns, sum_of(path, progress))
    finally:
        progress.end()


class Inputs:
    """The inputs of a report, by what each is."""

    def __init__(self, paths: Mapping[str, str | None]) -> None:
        self.seen = {role: look(path) for role, path in paths.items() if path is not None}

    def path(self, role: str) -> str:
        """The whole path of an input."""
        return self.seen[role].path

    def check(self) -> None:
        """Looks once more, and names the first that isn't as it was."""
        for before in self.seen.values():
            if look(before.path) != before:
                raise Fault(f"{before.path}: it changed while it was read, so there is no report of it; copy it and read the copy")


def holder_of(path: str) -> int | None:
    """The process that has a lock on a file for itself, by the system's list of locks."""
    about = os.stat(path)
    place = f"{os.major(about.st_dev):02x}:{os.minor(about.st_dev):02x}:{about.st_ino}"
    try:
        with open("/proc/locks", encoding="ascii") as locks:
            held = [line.split() for line in locks]
    except OSError:
        return None
    found = [int(one[4]) for one in held if one[1] != "->" and one[1] == "FLOCK" and one[3] == "WRITE" and one[5] == place]
    return found[0] if found else None
