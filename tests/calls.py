#!/usr/bin/env python3
"""Traces what the built programs ask of the system, and compares it with what is stored.

    tests/calls.py FDR FDRPAIR            writes the traces in tests/calls/ anew
    tests/calls.py FDR FDRPAIR --check    compares them, prints what differs, and ends with 1 where something does

Each run has a folder of its own. strace follows it, and the trace has a line for each call on a file of the folder and on the
standard streams, in their order: opens, locks, looks at lengths, reads and writes with their places and sizes, syncs, cuts of
length, removals, and the text on standard error; and at the end the status. Calls on other files, as those of the system's
loader, aren't in it, nor are numbers of descriptors, times, and what a file is called outside of the folder. So a trace is the
same on each machine.

In some runs strace lets a call fail: the first of a kind, or a later one, as counted among those of the trace.
"""

import argparse
import difflib
import pathlib
import re
import shutil
import subprocess
import sys
import tempfile
from collections.abc import Iterator, Mapping
from dataclasses import dataclass, field

sys.dont_write_bytecode = True

from formats import CLOSED, VERSION_1, empty_image, recorded, shape_of, slot_at
from inputs import BITS, FIVES, ORDINARY, T1, TOP, TRACE, t1_frame

STORED = TOP / "tests" / "calls"
LIMIT = 60  # seconds that a run has
STREAMS = {"0": "standard input", "1": "standard output", "2": "standard error"}
ONLY_SYSTEM = {"execve", "access", "readlink", "getcwd", "chdir"}
LINE = re.compile(r"(\w+)\((.*)\) += (-?\w+)(?:<[^>]*>)?(?: (E\w+))?.*")
ARGUMENT = re.compile(r'"(?:[^"\\]|\\.)*"(?:\.\.\.)?|\{[^{}]*\}|\[[^\[\]]*\]|[^,"{\[]+')


# --- the lines of a trace


@dataclass(frozen=True)
class Asked:
    """A call on a file of the folder or on a standard stream: its name in the system, its number among all calls of this name,
    and what the trace says of it."""

    call: str
    number: int
    line: str


def subject_of(argument: str, room: str) -> str | None:
    """Which file or stream an argument names, as `3</room/a.img>`, if it is one of those that count."""
    number, _, path = argument.partition("<")
    path = path.removesuffix(">").removesuffix("(deleted)").removesuffix(">")
    if number in STREAMS:
        return STREAMS[number]
    return "." if path == room else path.removeprefix(room + "/") if path.startswith(room + "/") else None


def flags_of(argument: str) -> str:
    """The flags of an open, in the order of their names."""
    return " ".join(sorted(flag for flag in argument.split("|") if flag not in ("O_CLOEXEC", "O_LARGEFILE")))


def size_and_place(arguments: list[str]) -> str:
    """How much a call asks for, and where, if it says so."""
    return f"{arguments[2]} bytes" + (f" at {arguments[3]}" if len(arguments) > 3 else "")


def told(call: str, arguments: list[str], room: str) -> str | None:
    """What the trace says of a call, without its answer; nothing of one on another file."""
    if call in ("open", "openat", "creat"):
        path, flags = arguments[-2:] if not arguments[-1].startswith("0") else arguments[-3:-1]
        return None if path.startswith('"/') else f"open {path[1:-1]} {flags_of(flags)}"
    named = [argument for argument in arguments[:3] if argument.startswith('"') and argument != '""']
    subject = subject_of(arguments[0], room)
    if call in ("stat", "lstat", "fstat", "newfstatat", "fstatat64", "statx", "fstat64"):
        if named:
            return None if named[0].startswith('"/') else f"look at the name {named[0][1:-1]}"
        return subject and f"look at {subject}"
    if call in ("unlink", "unlinkat", "rename", "renameat", "renameat2", "mkdir", "mkdirat", "truncate"):
        return None if named[0].startswith('"/') else f"{call} {' '.join(name[1:-1] for name in named)}"
    if subject is None:
        mapped = call == "mmap" and len(arguments) > 4 and subject_of(arguments[4], room)
        return f"map {mapped}" if mapped else None
    if call in ("read", "pread64"):
        return f"read {subject}: {size_and_place(arguments)}"
    if call in ("write", "pwrite64"):
        text = f" {arguments[1]}" if subject == STREAMS["2"] else ""
        return f"write {subject}: {size_and_place(arguments)}{text}"
    if call == "ioctl":
        return f"ask {subject} for {arguments[1]}"  # the third argument is an address, which differs from run to run
    return " ".join([call, subject, *arguments[1:]])


def asked_in(traced: str, room: str) -> Iterator[Asked]:
    """The calls of a trace of strace that count."""
    count: dict[str, int] = {}
    for line in traced.splitlines():
        match = LINE.fullmatch(line)
        if not match:
            continue
        call, words, answer, error = match.groups()
        count[call] = count.get(call, 0) + 1
        if call in ONLY_SYSTEM:
            continue
        says = told(call, [word.strip() for word in ARGUMENT.findall(words) if word.strip()], room)
        if says:
            transfers = says.startswith(("read ", "write "))
            end = f" -> {error}" if error else f" -> {answer}" if transfers else ""
            yield Asked(call, count[call], says + end)


# --- runs


@dataclass(frozen=True)
class Fault:
    """A call that fails: its name, its number among those of the trace, and how: an error, or an answer of fewer bytes. With a
    plus all that follow fail too."""

    call: str
    number: int
    how: str
    following: str = ""


@dataclass(frozen=True)
class Run:
    """A command, its input, the files that it finds, and the call that fails in it."""

    name: str
    words: list[str]
    given: bytes = b""
    fault: Fault | None = None
    program: str = "fdr"
    files: Mapping[str, bytes] = field(default_factory=dict)


def traced(run: Run, programs: Mapping[str, pathlib.Path], inject: str = "") -> tuple[list[Asked], int]:
    """The calls of a run, and its status, where strace lets a call fail as these words say."""
    with tempfile.TemporaryDirectory(prefix="fdr_calls_") as top:
        room = pathlib.Path(top).resolve() / "room"
        room.mkdir()
        for name, data in {**FILES, **run.files}.items():
            (room / name).write_bytes(data)
        (room.parent / "given").write_bytes(run.given)
        words = ["strace", "-qq", "-y", "-s", "200", "-o", "../calls", "-e", "trace=%file,%desc"]
        words += ["-e", f"inject={inject}"] if inject else []
        with open(room.parent / "given", "rb") as given, open(room.parent / "shown", "wb") as shown:
            ended = subprocess.run(
                [*words, str(programs[run.program]), *run.words],
                stdin=given, stdout=shown, stderr=subprocess.DEVNULL, cwd=room, timeout=LIMIT, env={"PATH": "/usr/bin:/bin"},
            )  # fmt: skip
        return list(asked_in((room.parent / "calls").read_text(), str(room))), ended.returncode


def trace_of(run: Run, programs: Mapping[str, pathlib.Path]) -> str:
    """The trace of a run, as it is stored."""
    asked, status = traced(run, programs)
    if run.fault:
        numbers = [one.number for one in asked if one.call == run.fault.call]
        if len(numbers) < run.fault.number:
            raise SystemExit(f"calls: {run.name} has no call {run.fault.call} number {run.fault.number}")
        inject = f"{run.fault.call}:{run.fault.how}:when={numbers[run.fault.number - 1]}{run.fault.following}"
        asked, status = traced(run, programs, inject)
    return "".join(f"{line}\n" for line in [*(one.line for one in asked), f"end {status}"])


# --- which runs


def damaged(image: bytes) -> bytes:
    """The image with the gate of block 8 closed."""
    made = bytearray(image)
    made[slot_at(shape_of(image), 8)] = CLOSED
    return bytes(made)


EMPTY, HELD = empty_image(16, 64), recorded(empty_image(16, 64), BITS)
FILES = {"t1.csv": T1, "ordinary.csv": ORDINARY, "empty.img": EMPTY, "a.img": HELD, "b.img": HELD}
FILES |= {"old.img": recorded(empty_image(16, 64, version=VERSION_1), BITS), "damaged.img": damaged(HELD), "short.img": HELD[:-1]}
FILES |= {"other.img": empty_image(16, 65), "apart.img": recorded(EMPTY, t1_frame(1, 5)), "rules.csv": b"LOW,ALT,below,6,1\n"}
# Images of which a part alone is read ahead.
FILES |= {"large.img": recorded(empty_image(20, 4096), t1_frame(0, 5) * 200), "few.img": empty_image(20, 4096)}
EIO, FULL = "error=EIO", "error=ENOSPC"


def runs_of_fdr() -> Iterator[Run]:
    """Each command of the first program, and what goes wrong in it."""
    record, sizes = ["record", "t1.csv", "a.img"], ["--slots", "16", "--payload", "64"]
    yield Run("usage", ["list"])
    yield Run("check", ["check", "ordinary.csv"])
    yield Run("check_without_a_table", ["check", "none.csv"])
    yield Run("check_where_the_output_fails", ["check", "ordinary.csv"], fault=Fault("write", 1, FULL))
    yield Run("stream", ["stream", "t1.csv"], TRACE)
    yield Run("listbits", ["listbits", "t1.csv"], FIVES)
    yield Run("listbits_where_the_input_fails", ["listbits", "t1.csv"], FIVES, Fault("read", 3, EIO))
    yield Run("encode", ["encode"], BITS)
    yield Run("decode", ["decode"], b"\x55" * 70_000)
    yield Run("format", ["format", "t1.csv", "new.img", *sizes])
    yield Run("format_over_an_image", ["format", "t1.csv", "a.img", *sizes])
    yield Run("format_where_a_sync_fails", ["format", "t1.csv", "new.img", *sizes], fault=Fault("fsync", 1, EIO))
    yield Run("record", record, TRACE)
    yield Run("record_in_an_empty_image", ["record", "t1.csv", "empty.img"], TRACE)
    yield Run("record_where_the_lock_is_held", record, TRACE, Fault("flock", 1, "error=EAGAIN"))
    yield Run("record_where_the_lock_fails", record, TRACE, Fault("flock", 1, EIO))
    yield Run("record_where_there_are_no_locks", record, TRACE, Fault("flock", 1, "error=EOPNOTSUPP"))
    yield Run("record_where_the_look_fails", record, TRACE, Fault("statx", 1, EIO))
    yield Run("record_where_the_first_sync_fails", record, TRACE, Fault("fsync", 1, EIO))
    yield Run("record_where_the_sync_of_the_folder_fails", record, TRACE, Fault("fsync", 2, EIO))
    yield Run("record_where_a_sync_fails", record, TRACE, Fault("fdatasync", 5, EIO))
    yield Run("record_where_a_write_fails", record, TRACE, Fault("pwrite64", 3, EIO))
    yield Run("record_where_a_write_comes_short", record, TRACE, Fault("pwrite64", 2, "retval=1"))
    yield Run("record_where_a_write_is_interrupted", record, TRACE, Fault("pwrite64", 2, "error=EINTR"))
    yield Run("record_where_a_read_fails", record, TRACE, Fault("pread64", 4, EIO))
    yield Run("record_where_a_line_is_lost", record, TRACE, Fault("write", 2, "error=EPIPE"))
    yield Run("recover", ["recover", "a.img"])
    yield Run("upgrade", ["upgrade", "old.img"])
    yield Run("upgrade_where_a_sync_fails", ["upgrade", "old.img"], fault=Fault("fsync", 1, EIO))
    yield Run("list", ["list", "t1.csv", "a.img"])
    yield Run("list_a_short_image", ["list", "t1.csv", "short.img"])
    yield Run("list_where_a_read_fails", ["list", "t1.csv", "a.img"], fault=Fault("pread64", 1, EIO))
    yield Run("list_where_all_reads_fail", ["list", "t1.csv", "a.img"], fault=Fault("pread64", 1, EIO, "+"))
    yield Run("salvage", ["salvage", "t1.csv", "damaged.img"])
    yield Run("salvage_by_slots_and_payload", ["salvage", "t1.csv", "damaged.img", *sizes])
    yield Run("exceed", ["exceed", "t1.csv", "a.img"], b"LOW,ALT,below,6,1\n")
    yield Run("drill", ["drill", "t1.csv", "empty.img", "--seed", "7", "--frames", "3"])


def runs_of_pair() -> Iterator[Run]:
    """Recordings in two images, and what goes wrong in them."""
    both = ["record", "t1.csv", "a.img", "b.img"]
    for name, words, fault in (
        ("both", both, None),
        ("the_second_is_behind", ["record", "t1.csv", "a.img", "empty.img"], None),
        ("the_first_is_behind", ["record", "t1.csv", "empty.img", "b.img"], None),
        ("headers_differ", ["record", "t1.csv", "a.img", "other.img"], None),
        ("a_block_differs", ["record", "t1.csv", "a.img", "apart.img"], None),
        ("one_is_missing", ["record", "t1.csv", "a.img", "none.img"], None),
        ("a_lock_is_held", both, Fault("flock", 2, "error=EAGAIN")),
        ("one_file_without_locks", ["record", "t1.csv", "a.img", "./a.img"], Fault("flock", 1, "error=EOPNOTSUPP", "+")),
        ("two_files_without_locks", both, Fault("flock", 1, "error=EOPNOTSUPP", "+")),
        ("a_look_fails", both, Fault("statx", 1, EIO)),
        ("the_first_sync_fails", both, Fault("fsync", 1, EIO)),
        ("a_later_sync_fails", both, Fault("fdatasync", 8, EIO)),
        ("a_write_fails", both, Fault("pwrite64", 6, EIO)),
        ("the_lead_fails", ["record", "t1.csv", "large.img", "few.img"], Fault("pread64", 25, EIO)),
    ):
        yield Run(f"pair_{name}", words, TRACE, fault, "fdrpair")


# --- what is stored


def differences(found: Mapping[str, str]) -> Iterator[str]:
    """What differs from the stored traces, as lines."""
    for name, trace in found.items():
        path = STORED / f"{name}.txt"
        stored = path.read_text() if path.is_file() else ""
        yield from difflib.unified_diff(stored.splitlines(), trace.splitlines(), f"{name}, stored", f"{name}, now", lineterm="")
    for path in sorted(STORED.glob("*.txt")):
        if path.stem not in found:
            yield f"tests/calls/{path.name} is of no run"


def main() -> int:
    words = argparse.ArgumentParser(description=__doc__.splitlines()[0])
    words.add_argument("fdr", type=pathlib.Path)
    words.add_argument("fdrpair", type=pathlib.Path)
    words.add_argument("--check", action="store_true", help="compare them, and write nothing")
    given = words.parse_args()
    if not shutil.which("strace"):
        print("skipped: there is no strace")
        return 0
    programs = {"fdr": given.fdr.resolve(), "fdrpair": given.fdrpair.resolve()}
    found = {run.name: trace_of(run, programs) for run in [*runs_of_fdr(), *runs_of_pair()]}
    if given.check:
        differing = list(differences(found))
        print("\n".join(differing) or f"{len(found)} runs: the same calls")
        return 1 if differing else 0
    STORED.mkdir(exist_ok=True)
    for path in STORED.glob("*.txt"):
        path.unlink()
    for name, trace in found.items():
        (STORED / f"{name}.txt").write_text(trace)
    return 0


if __name__ == "__main__":
    sys.exit(main())
