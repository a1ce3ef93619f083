"""Files and standard streams: inputs that report their progress, and outputs that are whole or not there."""

import contextlib
import hashlib
import os
import pathlib
import shutil
import stat
import sys
import tempfile
import time
from typing import BinaryIO, Iterator, cast

from .faults import Fault

STANDARD = "-"
MEMORY = 1 << 23  # bytes of an output that are held in memory; more are held in a temporary file
QUIET = 1.0  # seconds before progress is shown, and between two lines of it


class Progress:
    """Says on standard error how much was read: only on a terminal, and only of work that takes more than a second."""

    def __init__(self, size: int | None) -> None:
        self.size = size
        self.done = 0
        self.shown = False
        self.next = time.monotonic() + QUIET
        self.wanted = sys.stderr is not None and sys.stderr.isatty()

    def add(self, count: int) -> None:
        """Counts bytes that were read."""
        self.done += count
        if self.wanted and time.monotonic() >= self.next:
            self.next = time.monotonic() + QUIET
            self.shown = True
            part = f", {100 * self.done // self.size} %" if self.size else ""
            sys.stderr.write(f"\r{self.done / 1e6:.0f} MB{part} ")
            sys.stderr.flush()

    def end(self) -> None:
        """Takes the line away."""
        if self.shown:
            sys.stderr.write("\r\x1b[K")
            sys.stderr.flush()


class Input:
    """An open input, whose reads are counted."""

    def __init__(self, file: BinaryIO, size: int | None) -> None:
        self.file = file
        self.progress = Progress(size)
        self.copy: BinaryIO | None = None  # of all that is read
        self.digest: "hashlib._Hash | None" = None  # of all that is read

    def read(self, count: int = -1, /) -> bytes:
        """The next bytes, as many as are asked for; fewer at the end alone."""
        data = self.file.read(count)
        self.progress.add(len(data))
        if self.copy is not None:
            self.copy.write(data)
        if self.digest is not None:
            self.digest.update(data)
        return data

    def lines(self) -> Iterator[str]:
        """The lines as text, with their ends. Bytes that aren't UTF-8 come through, and match nothing."""
        for line in self.file:
            self.progress.add(len(line))
            yield line.decode("utf-8", "surrogateescape")


@contextlib.contextmanager
def opened(path: str) -> Iterator[Input]:
    """Opens a file, or standard input for `-`."""
    with contextlib.ExitStack() as stack:
        if path == STANDARD and sys.stdin is None:
            raise Fault("standard input is closed")
        file = sys.stdin.buffer if path == STANDARD else stack.enter_context(open(path, "rb"))
        about = os.fstat(file.fileno())
        source = Input(file, about.st_size if stat.S_ISREG(about.st_mode) else None)
        stack.callback(source.progress.end)
        yield source


class Again:
    """An open input that may be read several times. Of what isn't a file a copy is kept, as it is read first."""

    def __init__(self, source: Input, is_file: bool, stack: contextlib.ExitStack) -> None:
        self.source = source
        self.is_file = is_file
        self.begin = source.file.tell() if is_file else 0
        self.copy: BinaryIO | None = None
        self.stack = stack

    def input(self, byte: int = 0) -> Input:
        """The input from its beginning, or from a byte on. It is read to its end the first time."""
        self.source.progress.done = 0
        if self.is_file:
            self.source.file.seek(self.begin + byte)
        elif self.source.copy is not None:
            self.source.file, self.source.copy = self.source.copy, None
            self.source.file.seek(byte)
            self.is_file, self.begin = True, 0
        else:
            self.source.copy = cast(BinaryIO, self.stack.enter_context(tempfile.TemporaryFile(prefix="flight-")))
        return self.source


@contextlib.contextmanager
def opened_again(path: str) -> Iterator[Again]:
    """Opens an input that may be read several times."""
    with opened(path) as source, contextlib.ExitStack() as stack:
        yield Again(source, source.progress.size is not None, stack)


@contextlib.contextmanager
def standard_output() -> Iterator[BinaryIO]:
    """What is written in here goes to standard output once all of it is there, and nothing of it after a fault."""
    with tempfile.SpooledTemporaryFile(max_size=MEMORY, prefix="flight-") as held:
        yield cast(BinaryIO, held)
        held.seek(0)
        if sys.stdout is None:
            raise Fault("standard output is closed")
        try:
            shutil.copyfileobj(held, sys.stdout.buffer, 1 << 20)
            sys.stdout.buffer.flush()
        except BrokenPipeError:
            drop_output()  # who reads has enough
        except OSError as error:
            drop_output()
            raise Fault(f"standard output: {error.strerror}") from None


@contextlib.contextmanager
def output(path: str | None) -> Iterator[BinaryIO]:
    """Standard output, or a file that is there once all of it is."""
    if path is None or path == STANDARD:
        with standard_output() as out:
            yield out
        return
    with whole_file(pathlib.Path(path)) as half, open(half, "wb") as file:
        yield file


def emptied(out: BinaryIO) -> BinaryIO:
    """An output of which nothing is wanted so far."""
    out.seek(0)
    out.truncate()
    return out


def drop_output() -> None:
    """Lets what is left in the buffer of standard output go nowhere, since it is written once more at the end."""
    nowhere = os.open(os.devnull, os.O_WRONLY)
    os.dup2(nowhere, sys.stdout.fileno())
    os.close(nowhere)


@contextlib.contextmanager
def whole_file(path: pathlib.Path) -> Iterator[pathlib.Path]:
    """A path to write to, with the same ending; it becomes `path` at the end, and is removed after a fault. A device or a pipe
    of that name stays one, and gets the bytes."""
    is_file = path.is_file() or not path.exists()
    handle, name = tempfile.mkstemp(prefix=".flight-", suffix=path.suffix, dir=path.parent if is_file else None)
    os.close(handle)
    try:
        yield pathlib.Path(name)
        if is_file:
            os.chmod(name, 0o666 & ~_umask())
            os.replace(name, path)
        else:
            _hand_over(pathlib.Path(name), path)
    except BaseException:
        with contextlib.suppress(FileNotFoundError):
            os.unlink(name)
        raise


def _hand_over(made: pathlib.Path, to: pathlib.Path) -> None:
    """Writes the bytes of a file to a device or a pipe, and removes the file."""
    try:
        with open(made, "rb") as source, open(to, "wb") as sink:
            shutil.copyfileobj(source, sink, 1 << 20)
    except BrokenPipeError:
        pass  # who reads has enough
    made.unlink()


def _umask() -> int:
    """The mask of this process, which can only be read by setting it."""
    mask = os.umask(0o022)
    os.umask(mask)
    return mask


@contextlib.contextmanager
def whole_folder(path: pathlib.Path) -> Iterator[pathlib.Path]:
    """A folder to write into; it becomes `path` at the end, once all in it is on the disk, and is removed after a fault."""
    if path.exists() and not (path.is_dir() and not any(path.iterdir())):
        raise Fault(f"{path}: it is there already, and nothing is written over it")
    half = pathlib.Path(tempfile.mkdtemp(prefix=".flight-", dir=path.parent))
    try:
        yield half
        os.chmod(half, 0o777 & ~_umask())
        for one in [*half.iterdir(), half]:
            _sync(one)
        os.rename(half, path)
    except BaseException:
        shutil.rmtree(half, ignore_errors=True)
        raise
    _sync(path.parent)


def _sync(path: pathlib.Path) -> None:
    """Has a file or a folder on the disk."""
    handle = os.open(path, os.O_RDONLY)
    try:
        os.fsync(handle)
    finally:
        os.close(handle)
