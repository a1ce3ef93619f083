"""Runs of a program in a folder of their own, and what is compared of them: files.py and pair.py have their cases by it.

Each case has a folder, in which the program runs, with the files that all cases have and what this one adds. Compared
are the exit status, standard error and standard output, whole, and after the run every file of the folder, byte for
byte: a case names the files that it changes, and all others are as they were, with none added. A run that takes longer
than its limit is ended, and fails.
"""

from __future__ import annotations

import bisect
import collections
import contextlib
import enum
import fcntl
import os
import pathlib
import pty
import resource
import shutil
import signal
import socket
import stat
import struct
import subprocess
import sys
import tempfile
import termios
import threading
import time
from collections.abc import Callable, Iterable, Iterator, Mapping, Sequence
from typing import IO, Any, NamedTuple, Protocol

from formats import HEADER

APART = "FDR_TESTS_APART"  # set where the script has mounts of its own
NOBODY = 65534
PIPE_SIZE = 4096
PAGE = 4096


Words = Sequence["str | bytes | pathlib.Path"]
Answer = tuple[int, str]  # the status, and the text on standard error
Limit = tuple[int, int]  # of a resource
How = dict[str, Any]  # more words for a run
Held = dict[str, "tuple[int, bytes | str | None]"]  # of each name the mode, and the bytes of a file or the target of a link
Changes = Mapping[str, "bytes | Front | None"]
Maker = Callable[["Place"], None]
Doer = Callable[["Place", "Run"], None]


class Mismatch(Exception):
    """What differs from what is expected."""


class Skipped(Exception):
    """What a case needs and isn't there."""


class Front:
    """A front part of these bytes, and not all of them."""

    def __init__(self, data: bytes) -> None:
        self.data = data

    def __eq__(self, other: object) -> bool:
        return isinstance(other, bytes) and len(other) < len(self.data) and self.data.startswith(other)

    def __repr__(self) -> str:
        return f"a front part of {len(self.data)} bytes"


def short(data: object) -> str:
    return repr(data) if not isinstance(data, bytes) or len(data) <= 160 else f"{len(data)} bytes, {data[:60]!r}.."


def acks(first: int, last: int) -> list[str]:
    """The lines of the acknowledgements from one number to another."""
    return [f"ack {number}" for number in range(first, last + 1)]


def text_of(lines: Iterable[str], text: str = "") -> bytes:
    """What stands on standard error: these lines, and the text."""
    return "".join(line + "\n" for line in [*lines, text] if line).encode()


# --- what a run has for a stream


class Mark(enum.Enum):
    """A stream that is closed, and one that is a pipe to the script."""

    CLOSED = enum.auto()
    PIPE = enum.auto()


class To(NamedTuple):
    """A file of the run's folder."""

    name: str


CLOSED, PIPE = Mark.CLOSED, Mark.PIPE


def opened(path: str, flags: int) -> Callable[[], int]:
    return lambda: os.open(path, flags)


FULL = opened("/dev/full", os.O_WRONLY)
NOTHING = READ_ONLY = opened(os.devnull, os.O_RDONLY)
WRITE_ONLY = opened(os.devnull, os.O_WRONLY)
ZEROS = opened("/dev/zero", os.O_RDONLY)
FOLDER = opened("/", os.O_RDONLY)


def pipe_without_reader() -> int:
    reader, writer = os.pipe()
    os.close(reader)
    return writer


def empty_pipe() -> int:
    """A pipe in which nothing is yet, and whose reader isn't made to wait."""
    reader, writer = os.pipe()
    os.set_blocking(reader, False)
    HELD.append(writer)
    return reader


def full_pipe() -> int:
    """A pipe in which there is no room, and whose writer isn't made to wait."""
    reader, writer = os.pipe()
    os.set_blocking(writer, False)
    with contextlib.suppress(BlockingIOError):
        while os.write(writer, bytes(PIPE_SIZE)):
            pass
    HELD.append(reader)
    return writer


GONE = pipe_without_reader
HELD: list[int] = []  # the other ends of pipes
Stream = bytes | To | Mark | Callable[[], int]
Output = bytes | Front


def zeros_of(size: int) -> Callable[[], int]:
    """A file of so many zeros, which takes no room."""

    def stream() -> int:
        with tempfile.TemporaryFile() as file:
            file.truncate(size)
            return os.dup(file.fileno())

    return stream


def file_with(data: bytes) -> int:
    with tempfile.TemporaryFile() as file:
        file.write(data)
        file.seek(0)
        return os.dup(file.fileno())


# --- runs


class Run:
    """A run of a program in a folder. It is ended where it takes too long."""

    def __init__(self, words: Words, room: pathlib.Path, seconds: float, given: Stream = b"", out: Stream = PIPE, err: Stream = PIPE, limit: Limit | None = None, ignores: int | None = None, user: int | None = None) -> None:
        self.shown, self.said, self.was_late = b"", b"", False
        self.taken = 0
        streams = [given, out, err]
        closed = [number for number, stream in enumerate(streams) if stream is CLOSED]

        def prepare() -> None:
            for number in closed:
                os.close(number)
            if ignores:
                signal.signal(ignores, signal.SIG_IGN)
            if limit:
                resource.setrlimit(limit[0], (limit[1], limit[1]))

        who = user if os.geteuid() == 0 else None
        with contextlib.ExitStack() as ends:
            stdin, stdout, stderr = [self.end_of(stream, room, ends) for stream in streams]
            self.source = os.dup(stdin) if isinstance(given, bytes) else None
            self.child = subprocess.Popen(
                words, stdin=stdin, stdout=stdout, stderr=stderr, cwd=room, preexec_fn=prepare, bufsize=0, pipesize=PIPE_SIZE,
                user=who, group=who, extra_groups=[] if who else None,
            )  # fmt: skip
        self.limit = threading.Timer(seconds, self.end_late)
        self.limit.start()

    def end_of(self, stream: Stream, room: pathlib.Path, ends: contextlib.ExitStack) -> int:
        if isinstance(stream, Mark):
            return subprocess.PIPE if stream is PIPE else subprocess.DEVNULL
        if isinstance(stream, To):
            end = os.open(room / stream.name, os.O_WRONLY | os.O_CREAT | os.O_TRUNC, 0o644)
        else:
            end = file_with(stream) if isinstance(stream, bytes) else stream()
        ends.callback(os.close, end)
        return end

    def end_late(self) -> None:
        self.was_late = True
        self.child.kill()

    def feed(self, data: bytes) -> None:
        assert self.child.stdin
        try:
            self.child.stdin.write(data)
        except BrokenPipeError:
            raise Mismatch("ended before it read its input") from None

    def shows(self, wanted: bytes) -> None:
        """Waits until this is the standard output so far, and nothing more comes before the run waits again."""
        self.shown = self.read_to(self.child.stdout, self.shown, wanted)
        self.waits()
        if held_in(self.child.stdout):
            raise Mismatch(f"more came behind {short(wanted)}")

    def says(self, wanted: bytes) -> None:
        """Waits until this is the standard error so far."""
        self.said = self.read_to(self.child.stderr, self.said, wanted)

    def read_to(self, stream: IO[bytes] | None, data: bytes, wanted: bytes) -> bytes:
        assert stream
        while len(data) < len(wanted) and (more := stream.read(len(wanted) - len(data))):
            data += more
        if data != wanted:
            raise Mismatch(f"{short(data)} came and not {short(wanted)}")
        return data

    def waits(self) -> None:
        """Waits until the run sleeps, as it does in a read of an empty pipe."""
        while pathlib.Path(f"/proc/{self.child.pid}/stat").read_text().rpartition(")")[2].split()[0] not in "SZ":
            time.sleep(0.001)

    def fills_its_pipe(self) -> None:
        """Waits until the run waits in a write, since its output isn't read."""
        while held_in(self.child.stdout) < PIPE_SIZE:
            if self.child.poll() is not None:
                raise Mismatch("ended before its output was full")
            time.sleep(0.001)

    def ended(self) -> tuple[int, bytes, bytes]:
        """The status, the output and the text, once it ended."""
        shown, said = self.child.communicate()
        self.limit.cancel()
        if self.source is not None:
            self.taken = os.lseek(self.source, 0, os.SEEK_CUR)
            os.close(self.source)
        if self.was_late:
            raise Mismatch("took too long, and was ended")
        return self.child.returncode, self.shown + (shown or b""), self.said + (said or b"")


def held_in(pipe: IO[bytes] | None) -> int:
    """How many bytes wait in a pipe."""
    assert pipe
    count: int = struct.unpack("i", fcntl.ioctl(pipe, termios.FIONREAD, bytes(4)))[0]
    return count


def differences_in_answer(found: tuple[int, bytes, bytes], answer: Answer, output: Output, lines: Iterable[str]) -> Iterator[str]:
    status, shown, said = found
    wanted = text_of(lines, answer[1])
    if status != answer[0]:
        yield f"ended with {status} and not {answer[0]}"
    if not output == shown:
        yield f"wrote {short(shown)} and not {short(output)}"
    if said != wanted:
        yield f"said {short(said)} and not {short(wanted)}"


def want_none(differences: Iterable[str]) -> None:
    told = "; ".join(differences)
    if told:
        raise Mismatch(told)


class Place:
    """Where a case runs: the program, a folder of its own and the limit of time, and what is undone when it is over."""

    def __init__(self, program: str, top: str, seconds: float) -> None:
        self.program, self.top, self.seconds = program, top, seconds
        self.undo = contextlib.ExitStack()

    def __enter__(self) -> Place:
        self.room = pathlib.Path(tempfile.mkdtemp(dir=self.top))
        self.room.chmod(0o755)
        self.undo.callback(shutil.rmtree, self.room)
        return self

    def __exit__(self, *error: object) -> None:
        self.undo.close()

    def anew(self) -> Place:
        return Place(self.program, self.top, self.seconds)

    def beside(self, name: str) -> pathlib.Path:
        """Another program."""
        return pathlib.Path(self.top) / name

    def run(self, words: Words, by: Words = (), seconds: float | None = None, program: str | pathlib.Path | None = None, **how: Any) -> Run:
        return Run([*by, program or self.program, *words], self.room, seconds or self.seconds, **how)

    def expect(self, words: Words, answer: Answer, output: Output = b"", lines: Iterable[str] = (), **how: Any) -> None:
        """Runs something else meanwhile, and wants this of it."""
        name = words[0] if isinstance(words[0], str) else repr(words[0])
        differences = differences_in_answer(self.run(words, **how).ended(), answer, output, lines)
        want_none(f"meanwhile {name} {difference}" for difference in differences)


# --- what stands in a folder


def files_of(room: pathlib.Path) -> Held:
    """All that a folder holds: of each name its kind and mode, and the bytes of a file or the target of a link."""
    found: Held = {}
    for path in sorted(room.rglob("*")):
        mode = path.lstat().st_mode
        readable = stat.S_ISREG(mode) and os.access(path, os.R_OK)
        held = path.read_bytes() if readable else os.readlink(path) if stat.S_ISLNK(mode) else None
        found[str(path.relative_to(room))] = (mode, held)
    return found


def differences_in_files(before: Held, after: Held, changes: Changes) -> Iterator[str]:
    """Where these changes, of a name to its bytes or to None where it goes, weren't made, or others were."""
    for name in sorted(before.keys() | after.keys() | changes.keys()):
        held = after.get(name, (0, None))[1]
        if name in changes and changes[name] is not None:
            if not changes[name] == held:
                yield f"{name} holds {short(held)} and not {short(changes[name])}"
        elif name in after and (name in changes or name not in before):
            yield f"{name} is there"
        elif name not in changes and before[name] != after.get(name):
            yield f"{name} isn't as it was"


# --- what a case adds to its folder


def all_of(*makers: Maker) -> Maker:
    def make(place: Place) -> None:
        for maker in makers:
            maker(place)

    return make


def file(name: str, data: bytes = b"", mode: int = 0o644) -> Maker:
    def make(place: Place) -> None:
        (place.room / name).write_bytes(data)
        (place.room / name).chmod(mode)

    return make


def sparse_image(name: str, data: bytes) -> Maker:
    """An image whose bytes after the header are zeros for which no room is taken."""

    def make(place: Place) -> None:
        (place.room / name).write_bytes(data[: HEADER.size])
        os.truncate(place.room / name, len(data))

    return make


def mode(name: str, bits: int) -> Maker:
    def make(place: Place) -> None:
        before = stat.S_IMODE((place.room / name).stat().st_mode)
        (place.room / name).chmod(bits)
        place.undo.callback((place.room / name).chmod, before)

    return make


def link(target: str) -> Maker:
    return lambda place: (place.room / "link").symlink_to(target)


def subfolder(place: Place) -> None:
    (place.room / "folder").mkdir()


def closed_subfolder(place: Place) -> None:
    """A folder with a table and an image that may not be entered."""
    subfolder(place)
    for name in ("t1.csv", "a.img"):
        shutil.copy(place.room / name, place.room / "folder")
    mode("folder", 0o000)(place)


def named_pipe(place: Place) -> None:
    os.mkfifo(place.room / "pipe")


def held_pipe(place: Place) -> None:
    """A named pipe that somebody else has open."""
    named_pipe(place)
    place.undo.callback(os.close, os.open(place.room / "pipe", os.O_RDWR))


def bound_socket(place: Place) -> None:
    with socket.socket(socket.AF_UNIX) as made:
        made.bind(str(place.room / "socket"))


def mounted(size: int) -> Maker:
    """A file system in memory with room for so many bytes, in the folder `small`."""

    def make(place: Place) -> None:
        if APART not in os.environ:
            raise Skipped("mounts of its own need root and unshare")
        small = place.room / "small"
        small.mkdir()
        subprocess.run(["mount", "-t", "tmpfs", "-o", f"size={size}", "tmpfs", small], check=True)
        place.undo.callback(lambda: subprocess.run(["umount", small], check=True))

    return make


def filled(place: Place) -> None:
    """Takes all the room that is left in the folder `small`."""
    with contextlib.suppress(OSError), open(place.room / "small" / "rest", "wb", buffering=0) as rest:
        while rest.write(bytes(4096)):
            pass


def made_read_only(place: Place) -> None:
    subprocess.run(["mount", "-o", "remount,ro", place.room / "small"], check=True)


def block_device(place: Place) -> None:
    """A block device over the bytes of the image, in the file `disk`, with a link to it in the folder."""
    (place.room / "disk").write_bytes((place.room / "a.img").read_bytes().ljust(65536, b"\xa5"))
    try:
        made = subprocess.run(["losetup", "-f", "--show", place.room / "disk"], capture_output=True, check=True)
    except (OSError, subprocess.CalledProcessError):
        raise Skipped("a block device needs root and losetup") from None
    device = made.stdout.decode().strip()
    place.undo.callback(lambda: subprocess.run(["losetup", "-d", device], check=True))
    (place.room / "device").symlink_to(device)


# --- what happens while the program runs


def is_interrupted(run: Run) -> None:
    """Stops a run in its read, and lets it go on."""
    run.waits()
    run.child.send_signal(signal.SIGSTOP)
    run.child.send_signal(signal.SIGCONT)


# --- the cases


def size_limit(size: int) -> How:
    return {"limit": (resource.RLIMIT_FSIZE, size)}


def few_files(count: int) -> How:
    return {"limit": (resource.RLIMIT_NOFILE, count)}


class Case:
    """A run: what it answers, says before that, writes and changes, and what is made before it and done while it runs.

    `files` are in the folder of each case, by their names. `usage` and `no_memory` are these answers of the program."""

    files: Mapping[str, bytes] = {}
    usage: Answer = (0, "")
    no_memory: Answer = (0, "")

    def __init__(self, name: str, words: Words, answer: Answer, output: Output = b"", lines: Iterable[str] = (), makes: Maker | None = None, changes: Changes | None = None, does: Doer | None = None, **how: Any) -> None:
        self.name, self.words, self.answer, self.output, self.lines = name, words, answer, output, lines
        self.makes, self.changes, self.does, self.how = makes, changes or {}, does, how

    def tried(self, place: Place, limit: Limit | None = None) -> bool:
        """Runs it and compares. Where its memory is limited, it may answer that there is none, and that is told."""
        for name, data in self.files.items():
            (place.room / name).write_bytes(data)
        if self.makes:
            self.makes(place)
        before = files_of(place.room)
        run = place.run(self.words, **{**self.how, **({"limit": limit} if limit else {})})
        try:
            if self.does:
                self.does(place, run)
        finally:
            status, shown, said = run.ended()
        lacks_memory = bool(limit) and status == self.no_memory[0]
        answer, lines = (self.no_memory, ()) if lacks_memory else (self.answer, self.lines)
        changes: Changes = {} if lacks_memory else self.changes
        output: Output = b"" if lacks_memory else self.output
        # Where a stream isn't captured, what went to it is compared as a file, or not at all.
        output = output if run.child.stdout else b""
        found = status, shown, said if run.child.stderr else text_of(lines, answer[1])
        differences = [*differences_in_answer(found, answer, output, lines)]
        differences += differences_in_files(before, files_of(place.room), changes)
        if run.taken and (lacks_memory or not self.may_take(said)):
            differences.append(f"took {run.taken} bytes of its input, and then said {short(said)}")
        want_none(differences)
        return lacks_memory

    def may_take(self, said: bytes) -> bool:
        """Whether a run that said this may have taken some of its input."""
        return True


class AtATerminal:
    """A run whose standard error is a terminal, and what a person reads there."""

    def __init__(self, name: str, words: Words, status: int, lines: Sequence[str]) -> None:
        self.name, self.words, self.status, self.lines = f"{name}, at a terminal", words, status, lines

    def tried(self, place: Place) -> None:
        reader, terminal = pty.openpty()
        place.undo.callback(os.close, reader)
        run = place.run(self.words, err=lambda: os.dup(terminal))
        status, shown, _ = run.ended()
        os.close(terminal)
        said = b"".join(read_until_closed(reader)).replace(b"\r\n", b"\n")
        want_none(differences_in_answer((status, shown, said), (self.status, ""), b"", self.lines))


def read_until_closed(reader: int) -> Iterator[bytes]:
    """What a terminal was given, after its last writer has closed it: the system then answers with an error."""
    with contextlib.suppress(OSError):
        while data := os.read(reader, PIPE_SIZE):
            yield data


class Tried(Protocol):
    """What has a name and is tried in a place."""

    name: str

    def tried(self, place: Place) -> object: ...


class InLittleMemory:
    """A case that is run with more and more memory. It finds none and leaves all as it was, until it has enough."""

    def __init__(self, case: Case) -> None:
        self.case, self.name = case, f"{case.name}, in little memory"

    def tried(self, place: Place) -> None:
        pages = range(1 << 16)
        least = bisect.bisect_left(pages, True, key=lambda count: self.starts(place, count * PAGE)) * PAGE
        lacked = []
        for bits in range(13, 29):
            with place.anew() as other:
                lacked.append(self.case.tried(other, (resource.RLIMIT_AS, least + (1 << bits))))
        if not lacked[0] or lacked[-1] or lacked != sorted(lacked, reverse=True):
            raise Mismatch(f"with more and more memory, it found none: {lacked}")

    def starts(self, place: Place, size: int) -> bool:
        """Whether the system can begin the program at all."""
        status, _, said = place.run([], limit=(resource.RLIMIT_AS, size)).ended()
        return (status, said) in [(answer[0], text_of((), answer[1])) for answer in (self.case.usage, self.case.no_memory)]


# --- all of them


def begin_apart() -> None:
    """Begins the script anew in mounts of its own, where that may be."""
    words = ["unshare", "--mount", "--propagation", "private"]
    if APART not in os.environ and os.geteuid() == 0 and shutil.which("unshare"):
        if subprocess.run([*words, "true"]).returncode == 0:
            os.execvpe("unshare", [*words, sys.executable, *sys.argv], {**os.environ, APART: "1"})


def tell(case: Tried, place: Place) -> str:
    """Tries a case, prints its line, and answers what came of it."""
    try:
        with place:
            case.tried(place)
        kind, why = "ok", ""
    except (Mismatch, OSError, subprocess.SubprocessError) as error:
        kind, why = "DIFFERS", f": {error}"
    except Skipped as error:
        kind, why = "skipped", f": {error}"
    print(f"{kind:8} {case.name}{why}", flush=True)
    return kind


def try_all(cases: Sequence[Tried], programs: dict[str, pathlib.Path], seconds: float) -> int:
    """Tries the cases, of the first of these programs, with the others beside it, and answers the status to end with."""
    with tempfile.TemporaryDirectory(prefix="fdr_tests_") as top:
        os.chmod(top, 0o755)
        copies = [str(shutil.copy(program, pathlib.Path(top) / name)) for name, program in programs.items()]
        told = collections.Counter(tell(case, Place(copies[0], top, seconds)) for case in cases)
    if told["skipped"]:
        print(f"{told['skipped']} skipped")
    tried = len(cases) - told["skipped"]
    print(f"{tried} cases, {told['ok']} as expected")
    return 0 if told["ok"] == tried else 1
