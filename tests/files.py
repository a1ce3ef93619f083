#!/usr/bin/env python3
"""Runs the built program on real files, devices and streams, and compares what it answers and leaves.

    tests/files.py PROGRAM [--seconds N] [--only WORD]

Each case has a folder of its own, in which the program runs: a table, an image with twelve blocks, and what the case
adds. Compared are the exit status, standard error and standard output, whole, and after the run every file of the
folder, byte for byte: a case names the files that it changes, and all others are as they were, with none added. What
is expected was worked out from docs/FORMATS.md; formats.py and inputs.py make the tables, bits and images without the
program. A run that takes longer than its limit is ended, and fails.

Where it may, the script works in mounts of its own, for the cases on small and read-only file systems. A case that
needs what isn't there is skipped, and said to be. It prints a line for each case, and ends with 0 where all are as
expected.
"""

import argparse
import contextlib
import os
import pathlib
import signal
import stat
import subprocess
import sys
import time
from collections.abc import Callable, Iterator
from typing import Any

sys.dont_write_bytecode = True

import places
from formats import HEADER, VERSION_1, bits_of, bytes_of_bits, empty_image, end_at, frame, levels_of, recorded, shape_of, slot_at, upgraded
from inputs import BITS, FIVES, T1, TRACE, largest_table, t1_frame, table_of_every_word, word_at
from places import CLOSED, FOLDER, FULL, GONE, NOBODY, NOTHING, PAGE, PIPE, READ_ONLY, WRITE_ONLY, ZEROS, Front, InLittleMemory, Mismatch, Skipped, To
from places import Answer, AtATerminal, Doer, How, Maker, Place, Run, Stream, Tried
from places import acks, all_of, begin_apart, block_device, bound_socket, closed_subfolder, empty_pipe, few_files, file, filled, full_pipe
from places import PIPE_SIZE, held_in, held_pipe, is_interrupted, link, made_read_only, mode, mounted, named_pipe, size_limit, sparse_image, subfolder, text_of, try_all, zeros_of

# What each run finds in its folder, and what becomes of it.
LISTING = b"row,0,1,10,ALT,5\nrow,1,1,10,ALT,7\n"
SESSION = b"session,1,0\n"
RUN = b"run,0,12\n"
LEVELS = bytes_of_bits(levels_of(bits_of(BITS)))
REPORT = b"frame,64,1,16\nparam,ALT,16,even\n"
EMPTY = empty_image(16, 64)
IMAGE = recorded(EMPTY, BITS)
AGAIN = recorded(IMAGE, BITS)
DRILLED = recorded(IMAGE, t1_frame(0, 1499))
OLD = recorded(empty_image(16, 64, version=VERSION_1), BITS)
NEW = upgraded(OLD)
NEW_AGAIN = recorded(NEW, BITS)
DRILL_LINE = b"drill,6,2,2,1506\n"

# More than fits in the pipes and buffers between the program and its reader.
EVERY = table_of_every_word()
MANY_FRAMES = [frame({(1, 2): counter}) for counter in range(672)]
BIG_BITS = b"".join(MANY_FRAMES)
BIG_IMAGE = recorded(empty_image(64, 4096), BIG_BITS)
BIG_LISTING = SESSION + "".join(
    f"row,{counter},{subframe},{word},V,0\n"
    for counter in range(len(MANY_FRAMES))
    for subframe in range(1, 5)
    for word in range(3, 65)
).encode()

TOP = pathlib.Path(__file__).resolve().parent.parent
# The forms, as the man page has them.
FORMS = [line.removeprefix(".B ").replace("\\-", "-") for line in (TOP / "docs" / "fdr.1").read_text().splitlines() if line.startswith(".B fdr ")]
BAD_VALUE = "a word is empty, or an option's value is missing, given twice or out of its range"

CHECK = ["check", "t1.csv"]
STREAM = ["stream", "t1.csv"]
LISTBITS = ["listbits", "t1.csv"]
ENCODE = ["encode"]
DECODE = ["decode"]
RECORD = ["record", "t1.csv", "a.img"]
RECOVER = ["recover", "a.img"]
LIST = ["list", "t1.csv", "a.img"]
SALVAGE = ["salvage", "t1.csv", "a.img"]
UPGRADE = ["upgrade", "a.img"]
LIST_EVERY = ["list", "every.csv", "a.img"]
SEED = ["--seed", "1", "--frames", "1"]
SIZES = ["--slots", "16", "--payload", "64"]
LARGE = ["--slots", "64", "--payload", "4096"]
DRILL = ["drill", "t1.csv", "a.img", *SEED]
FORMAT = ["format", "t1.csv", "new.img", *SIZES]

# Statuses and texts.
DONE = (0, "")
USAGE = (1, "fdr: usage")
NOT_EMPTY = (5, "fdr: image is not empty")
NO_TABLE = (8, "fdr: table cannot be read")
NO_INPUT = (8, "fdr: input cannot be read")
NO_OUTPUT = (9, "fdr: output cannot be written")
DISK_FAULT = (10, "fdr: disk fault")
TOO_LONG = (11, "fdr: input too long")
NO_MEMORY = (12, "fdr: no memory")
OLD_VERSION = (13, "fdr: image is version 1")
NO_TRANSITION = (14, "fdr: no transition at level 2")
NO_FRAME = (2, "fdr: table row 0: no frame row")
TOO_LARGE = (2, "fdr: table row 0: too large")
TRUNCATED = (3, "fdr: trace record 0: truncated")
BAD_KIND = (3, "fdr: trace record 0: kind")
TOO_SMALL = (4, "fdr: image: too small")
CLOSED_HEADER = (4, "fdr: image: header closed")
SHORT = (4, "fdr: image: shorter than its ring")
KILLED = (-signal.SIGKILL, "")
PAST_SIZE = (-signal.SIGXFSZ, "")

# The causes that are told of a fault on the line before the answer.
HELD = "held by another run"
NO_PERMISSION = "no permission"
NO_ROOM = "no room"
NO_FILE = "no such file"
A_FOLDER = "is a folder"
NOT_A_FILE = "is no file"
SHORTER = "became shorter"
READ_ONLY_SYSTEM = "read-only file system"
TOO_LARGE_FILE = "file too large"
NO_READER = "closed by its reader"
OTHER_ERROR = "input/output error"
NOT_READY = "not ready"


def why(name: str, cause: str) -> str:
    """The line that says why a call on this file or stream failed."""
    return f"fdr: {name}: {cause}"


# --- what happens while the program runs


def shrinks(size: int) -> Doer:
    def act(place: Place, run: Run) -> None:
        run.fills_its_pipe()
        os.truncate(place.room / "a.img", size)

    return act


def loses_its_reader(place: Place, run: Run) -> None:
    run.feed(BITS[:384])
    run.shows(LISTING[:17])
    assert run.child.stdout
    run.child.stdout.close()
    run.feed(BITS[384:])


def shrinks_while_recorded_in(place: Place, run: Run) -> None:
    run.feed(word_at(0, 5) + word_at(4_000_000, 7))
    run.says(text_of(acks(12, 18)))
    os.truncate(place.room / "a.img", 700)
    run.feed(end_at(8_000_000))


def others_come(place: Place, run: Run) -> None:
    """While an image is recorded in, every other command on it is refused."""
    run.says(text_of(acks(12, 12)))
    for words in (RECORD, DRILL, RECOVER, LIST, SALVAGE, UPGRADE, ["format", "t1.csv", "a.img", *SIZES]):
        place.expect(words, DISK_FAULT, lines=[why("a.img", HELD)], given=TRACE)
    run.feed(TRACE)


def readers_come(place: Place, run: Run) -> None:
    """While an image is read, others may read it, and none may write it."""
    run.fills_its_pipe()
    place.expect(RECOVER, DONE, BIG_BITS)
    for words in (RECORD, DRILL, UPGRADE, ["format", "t1.csv", "a.img", *SIZES]):
        place.expect(words, DISK_FAULT, lines=[why("a.img", HELD)], given=TRACE)


def is_killed(place: Place, run: Run) -> None:
    run.says(text_of(acks(12, 12)))
    run.child.kill()
    run.child.wait()
    place.expect(RECORD, DONE, given=TRACE, lines=acks(12, 24))


def image_gets(change: Callable[[pathlib.Path], object]) -> Doer:
    def act(place: Place, run: Run) -> None:
        run.says(text_of(acks(12, 12)))
        change(place.room / "a.img")
        run.feed(TRACE)

    return act


def rows_come(place: Place, run: Run) -> None:
    """Each line comes while the input stays open, once the bytes that came decide it."""
    line, first, second = b"\0\0" + BITS, b"gap,0,16\n" + LISTING[:17], LISTING[17:]
    for begin, end, shown in ((0, 385, b""), (385, 386, first), (386, 769, first), (769, 770, first + second)):
        is_interrupted(run)
        run.feed(line[begin:end])
        run.shows(shown)


def blocks_come(place: Place, run: Run) -> None:
    """Blocks of the stream come while the input stays open."""
    for record, shown in ((word_at(0, 5), b""), (word_at(43_000_000, 7), FIVES[:4096])):
        is_interrupted(run)
        run.feed(record)
        run.shows(shown)
    run.feed(end_at(44_000_000))


def acks_come(place: Place, run: Run) -> None:
    """Acknowledgements come while the input stays open."""
    for record, last in ((word_at(0, 5), 12), (word_at(4_000_000, 7), 18), (end_at(8_000_000), 24)):
        is_interrupted(run)
        run.feed(record)
        run.says(text_of(acks(12, last)))


def gets_mode(bits: int) -> Doer:
    """The image that is made has this mode."""

    def act(place: Place, run: Run) -> None:
        run.child.wait()
        found = stat.S_IMODE((place.room / "new.img").stat().st_mode)
        if found != bits:
            raise Mismatch(f"new.img has the mode {found:o} and not {bits:o}")

    return act


def table_comes_slowly(place: Place, run: Run) -> None:
    pipe = None
    while pipe is None:
        if run.child.poll() is not None:
            raise Mismatch("ended before it opened its table")
        time.sleep(0.001)
        with contextlib.suppress(OSError):
            pipe = os.open(place.room / "pipe", os.O_WRONLY | os.O_NONBLOCK)
    for data in (T1[:30], T1[30:]):
        run.waits()
        os.write(pipe, data)
    os.close(pipe)


# --- the cases


class Case(places.Case):
    files = {"t1.csv": T1, "a.img": IMAGE}
    usage, no_memory = USAGE, NO_MEMORY


LARGEST = file("large.csv", largest_table())
WIDE_IMAGE = file("a.img", empty_image(16, 64, words=1024))
BIG = all_of(file("every.csv", EVERY), file("a.img", BIG_IMAGE))
IN_REMOVED = ["sh", "-c", 'mkdir gone; cd gone; rmdir ../gone; exec "$0" "$@"']


def writers(stream: Stream, how: str, cause: str) -> Iterator[Case]:
    """Each command that writes to standard output, which takes nothing for this cause."""
    told = [why("standard output", cause)]
    yield Case(f"check, {how}", CHECK, NO_OUTPUT, lines=told, out=stream)
    yield Case(f"stream, {how}", STREAM, NO_OUTPUT, lines=told, given=TRACE, out=stream)
    yield Case(f"listbits, {how}", LISTBITS, NO_OUTPUT, lines=told, given=BITS, out=stream)
    yield Case(f"encode, {how}", ENCODE, NO_OUTPUT, lines=told, given=BITS, out=stream)
    yield Case(f"decode, {how}", DECODE, NO_OUTPUT, lines=told, given=LEVELS, out=stream)
    yield Case(f"recover, {how}", RECOVER, NO_OUTPUT, lines=told, out=stream)
    yield Case(f"list, {how}", LIST, NO_OUTPUT, lines=told, out=stream)
    yield Case(f"salvage, {how}", SALVAGE, NO_OUTPUT, lines=told, out=stream)
    yield Case(f"drill, {how}", DRILL, NO_OUTPUT, lines=[*acks(12, 18), *told], changes={"a.img": DRILLED}, out=stream)


def tellers(stream: Stream, how: str) -> Iterator[Case]:
    """What goes to a standard error that takes nothing is dropped."""
    yield Case(f"a refused word, {how}", ["list"], USAGE, err=stream)
    yield Case(f"record, {how}", RECORD, DONE, changes={"a.img": AGAIN}, given=TRACE, err=stream)
    yield Case(f"drill, {how}", DRILL, DONE, DRILL_LINE, changes={"a.img": DRILLED}, err=stream)


def readers(stream: Stream, how: str, cause: str) -> Iterator[Case]:
    """Each command that reads standard input, which can't be read for this cause."""
    told = [why("standard input", cause)]
    yield Case(f"stream, {how}", STREAM, NO_INPUT, lines=told, given=stream)
    yield Case(f"listbits, {how}", LISTBITS, NO_INPUT, lines=told, given=stream)
    yield Case(f"encode, {how}", ENCODE, NO_INPUT, lines=told, given=stream)
    yield Case(f"decode, {how}", DECODE, NO_INPUT, lines=told, given=stream)
    yield Case(f"record, {how}", RECORD, NO_INPUT, lines=[*acks(12, 12), *told], given=stream)


def tables(name: str, answer: Answer, what: str, cause: str = "", **how: Any) -> Iterator[Case]:
    """Each command that reads a table, of this name. None but `check` has begun with anything else then."""
    how = {**how, "lines": [why(name, cause)] if cause else []}
    yield Case(f"check, {what}", ["check", name], answer, **how)
    yield Case(f"stream, {what}", ["stream", name], answer, given=TRACE, **how)
    yield Case(f"listbits, {what}", ["listbits", name], answer, given=BITS, **how)
    yield Case(f"format, {what}", ["format", name, "new.img", *SIZES], answer, **how)
    yield Case(f"record, {what}", ["record", name, "a.img"], answer, given=TRACE, **how)
    yield Case(f"list, {what}", ["list", name, "a.img"], answer, **how)
    yield Case(f"salvage, {what}", ["salvage", name, "a.img"], answer, **how)
    yield Case(f"drill, {what}", ["drill", name, "a.img", *SEED], answer, **how)


def images(name: str, answer: Answer, what: str, cause: str = "", formatted: Answer | None = None, **how: Any) -> Iterator[Case]:
    """Each command on an image, of this name. `format` may answer something else."""
    how = {**how, "lines": [why(name, cause)] if cause else []}
    yield Case(f"record, {what}", ["record", "t1.csv", name], answer, given=TRACE, **how)
    yield Case(f"recover, {what}", ["recover", name], answer, **how)
    yield Case(f"list, {what}", ["list", "t1.csv", name], answer, **how)
    yield Case(f"salvage, {what}", ["salvage", "t1.csv", name], answer, **how)
    by_length = SHORT if answer == CLOSED_HEADER else answer
    yield Case(f"salvage, {what}, slots and payload given", ["salvage", "t1.csv", name, *SIZES], by_length, **how)
    yield Case(f"drill, {what}", ["drill", "t1.csv", name, *SEED], answer, **how)
    yield Case(f"upgrade, {what}", ["upgrade", name], answer, **how)
    if formatted:
        yield Case(f"format, {what}", ["format", "t1.csv", name, *SIZES], formatted, **how)


def stream_cases() -> Iterator[Case]:
    yield from writers(CLOSED, "output closed", OTHER_ERROR)
    yield from writers(FULL, "output full", NO_ROOM)
    yield from writers(GONE, "output without a reader", NO_READER)
    yield from writers(READ_ONLY, "output open for reading alone", OTHER_ERROR)
    yield from writers(full_pipe, "output a full pipe that doesn't wait", NOT_READY)
    yield from tellers(CLOSED, "standard error closed")
    yield from tellers(FULL, "standard error full")
    yield from tellers(GONE, "standard error without a reader")
    yield from readers(CLOSED, "input closed", OTHER_ERROR)
    yield from readers(WRITE_ONLY, "input open for writing alone", OTHER_ERROR)
    yield from readers(FOLDER, "input a folder", A_FOLDER)
    yield from readers(empty_pipe, "input an empty pipe that doesn't wait", NOT_READY)
    closed: How = {"given": CLOSED, "out": CLOSED, "err": CLOSED}
    yield Case("check, all streams closed", CHECK, NO_OUTPUT, **closed)
    yield Case("format, all streams closed", FORMAT, DONE, changes={"new.img": EMPTY}, **closed)
    yield Case("record, all streams closed", RECORD, NO_INPUT, **closed)
    yield Case("recover, all streams closed", RECOVER, NO_OUTPUT, **closed)
    yield Case("drill, all streams closed", DRILL, NO_OUTPUT, changes={"a.img": DRILLED}, **closed)
    yield Case("check, input closed", CHECK, DONE, REPORT, given=CLOSED)
    yield Case("list, input closed", LIST, DONE, SESSION + LISTING, given=CLOSED)
    yield Case("listbits, input /dev/null", LISTBITS, DONE, given=NOTHING)
    yield Case("encode", ENCODE, DONE, LEVELS, given=BITS)
    yield Case("decode", DECODE, DONE, BITS, given=LEVELS)
    yield Case("encode, input /dev/null", ENCODE, DONE, given=NOTHING)
    yield Case("decode, input /dev/null", DECODE, DONE, given=NOTHING)
    yield Case("decode, input without end", DECODE, NO_TRANSITION, b"\0", given=ZEROS)
    yield Case("stream, input /dev/null", STREAM, TRUNCATED, given=NOTHING)
    yield Case("record, input /dev/null", RECORD, TRUNCATED, lines=acks(12, 12), given=NOTHING)
    yield Case("stream, input without end", STREAM, BAD_KIND, given=ZEROS)
    yield Case("record, input without end", RECORD, BAD_KIND, lines=acks(12, 12), given=ZEROS)
    whole: How = {"output": b"gap,0,2147483648\n", "seconds": 300}
    yield Case("listbits, the longest input", LISTBITS, DONE, given=zeros_of(1 << 28), **whole)
    yield Case("listbits, input of a byte more", LISTBITS, TOO_LONG, given=zeros_of((1 << 28) + 1), **whole)
    yield Case("listbits, input without end", LISTBITS, TOO_LONG, given=ZEROS, **whole)
    yield Case("listbits, slow input", LISTBITS, DONE, b"gap,0,16\n" + LISTING, given=PIPE, does=rows_come)
    yield Case("stream, slow input", STREAM, DONE, FIVES, given=PIPE, does=blocks_come)
    slow: How = {"lines": acks(12, 24), "changes": {"a.img": AGAIN}, "given": PIPE}
    yield Case("record, slow input", RECORD, DONE, does=acks_come, **slow)


def table_cases() -> Iterator[Case]:
    yield from tables("none.csv", NO_TABLE, "the table isn't there", NO_FILE)
    yield from tables("folder", NO_TABLE, "the table is a folder", A_FOLDER, makes=subfolder)
    yield from tables("/dev/null", NO_FRAME, "the table is /dev/null")
    yield from tables("/dev/zero", TOO_LARGE, "the table is /dev/zero")
    yield from tables("t1.csv", NO_TABLE, "the table may not be read", NO_PERMISSION, makes=mode("t1.csv", 0o000), user=NOBODY)
    refused: dict[str, tuple[str, str, Maker | None]] = {
        "a file as a folder": ("t1.csv/", OTHER_ERROR, None),
        "a link to no file": ("link", NO_FILE, link("none.csv")),
        "a link to itself": ("link", OTHER_ERROR, link("link")),
        "a socket": ("socket", OTHER_ERROR, bound_socket),
        "memory that can't be read": ("/proc/self/mem", OTHER_ERROR, None),
        "a name of 256 bytes": ("t" * 256, OTHER_ERROR, None),
        "a path of 100,000 bytes": ("t/" * 50_000, OTHER_ERROR, None),
        "a name with a line feed": ("t1.csv\n", NO_FILE, None),
    }
    for what, (name, cause, makes) in refused.items():
        yield Case(f"check, the table is {what}", ["check", name], NO_TABLE, lines=[why(name, cause)], makes=makes)
    closed: How = {"makes": closed_subfolder, "user": NOBODY, "lines": [why("folder/t1.csv", NO_PERMISSION)]}
    yield Case("check, the table's folder is closed", ["check", "folder/t1.csv"], NO_TABLE, **closed)
    yield Case("check, the table is a link to one", ["check", "link"], DONE, REPORT, makes=link("t1.csv"))
    yield Case("check, the table is /dev/stdin", ["check", "/dev/stdin"], DONE, REPORT, given=T1)
    slow: How = {"makes": named_pipe, "does": table_comes_slowly}
    yield Case("check, the table is a slow pipe", ["check", "pipe"], DONE, REPORT, **slow)


def image_cases() -> Iterator[Case]:
    yield from images("none.img", TOO_SMALL, "the image isn't there", NO_FILE)
    yield from images("none/a.img", TOO_SMALL, "the image's folder isn't there", NO_FILE, DISK_FAULT)
    yield from images("folder", DISK_FAULT, "the image is a folder", A_FOLDER, DISK_FAULT, makes=subfolder)
    yield from images("/dev/null", DISK_FAULT, "the image is /dev/null", NOT_A_FILE, DISK_FAULT)
    yield from images("/dev/zero", DISK_FAULT, "the image is /dev/zero", NOT_A_FILE, DISK_FAULT)
    yield from images("/dev/full", DISK_FAULT, "the image is /dev/full", NOT_A_FILE, DISK_FAULT)
    yield from images("pipe", DISK_FAULT, "the image is a named pipe", NOT_A_FILE, DISK_FAULT, makes=held_pipe)
    waiting: How = {"makes": named_pipe, "seconds": 5, "lines": [why("pipe", NOT_A_FILE)]}
    yield Case("recover, the image is a named pipe without a writer", ["recover", "pipe"], DISK_FAULT, **waiting)
    yield Case("list, the image is a named pipe without a writer", ["list", "t1.csv", "pipe"], DISK_FAULT, **waiting)
    yield from images("socket", DISK_FAULT, "the image is a socket", NOT_A_FILE, DISK_FAULT, makes=bound_socket)
    yield from images("device", DISK_FAULT, "the image is a block device", NOT_A_FILE, DISK_FAULT, makes=block_device)
    yield from images("link", DISK_FAULT, "the image is a link to no file", NO_FILE, DISK_FAULT, makes=link("none.img"))
    yield from images("link", DISK_FAULT, "the image is a link to itself", OTHER_ERROR, DISK_FAULT, makes=link("link"))
    yield from images("i" * 256, DISK_FAULT, "the image is a name of 256 bytes", OTHER_ERROR, DISK_FAULT)
    yield from images("t1.csv", CLOSED_HEADER, "the image is the table", formatted=NOT_EMPTY)
    unreadable: How = {"makes": mode("a.img", 0o000), "user": NOBODY}
    yield from images("a.img", DISK_FAULT, "the image may not be read", NO_PERMISSION, DISK_FAULT, **unreadable)
    closed: How = {"makes": closed_subfolder, "user": NOBODY}
    yield from images("folder/a.img", DISK_FAULT, "the image's folder is closed", NO_PERMISSION, DISK_FAULT, **closed)
    unwritable: How = {"makes": mode("a.img", 0o444), "user": NOBODY}
    refused: How = {**unwritable, "lines": [why("a.img", NO_PERMISSION)]}
    yield Case("record, the image may not be written", RECORD, DISK_FAULT, given=TRACE, **refused)
    yield Case("drill, the image may not be written", DRILL, DISK_FAULT, **refused)
    yield Case("upgrade, the image may not be written", UPGRADE, DISK_FAULT, **refused)
    yield Case("recover, the image may not be written", RECOVER, DONE, BITS, **unwritable)
    yield Case("list, the image may not be written", LIST, DONE, SESSION + LISTING, **unwritable)
    yield Case("salvage, the image may not be written", SALVAGE, DONE, RUN + SESSION + LISTING, **unwritable)
    closed = {"makes": mode(".", 0o555), "user": NOBODY, "lines": [why("new.img", NO_PERMISSION)]}
    yield Case("format, the folder may not be written", FORMAT, DISK_FAULT, **closed)
    yield Case("format, a name that ends with /", [*FORMAT[:2], "new.img/", *SIZES], DISK_FAULT, lines=[why("new.img/", A_FOLDER)])
    removed: How = {"by": IN_REMOVED, "lines": [why("new.img", NO_FILE)]}
    yield Case("format, in a folder that was removed", ["format", "../t1.csv", *FORMAT[2:]], DISK_FAULT, **removed)
    for mask, bits in (("000", 0o640), ("077", 0o600)):
        made: How = {"by": ["sh", "-c", f'umask {mask}; exec "$0" "$@"'], "does": gets_mode(bits), "changes": {"new.img": EMPTY}}
        yield Case(f"format, with the mask {mask}", FORMAT, DONE, **made)
    yield Case("format, the image is there", [*FORMAT[:2], "a.img", *SIZES], NOT_EMPTY)
    yield Case("format, the image is an empty file", FORMAT, DONE, makes=file("new.img"), changes={"new.img": EMPTY})
    through = all_of(link("new.img"), file("new.img"))
    linked = [*FORMAT[:2], "link", *SIZES]
    yield Case("format, a link to an empty file", linked, DONE, makes=through, changes={"new.img": EMPTY})
    linked = ["record", "t1.csv", "link"]
    recorded: How = {"changes": {"a.img": AGAIN}, "lines": acks(12, 24), "given": TRACE}
    yield Case("record, a link to an image", linked, DONE, makes=link("a.img"), **recorded)
    yield Case("recover, a link to an image", ["recover", "link"], DONE, BITS, makes=link("a.img"))
    yield Case("recover, the image is /dev/stdin", ["recover", "/dev/stdin"], DONE, BITS, given=IMAGE)
    old: How = {"makes": file("a.img", OLD)}
    yield Case("upgrade, the image is of version 1", UPGRADE, DONE, changes={"a.img": NEW}, **old)
    yield Case("upgrade, the image is of version 2", UPGRADE, DONE)
    yield Case("record, the image is of version 1", RECORD, OLD_VERSION, given=TRACE, **old)
    yield Case("drill, the image is of version 1", DRILL, OLD_VERSION, **old)
    yield Case("recover, the image is of version 1", RECOVER, DONE, BITS, **old)
    yield Case("list, the image is of version 1", LIST, DONE, LISTING, **old)
    yield Case("salvage, the image is of version 1", SALVAGE, DONE, RUN + LISTING, **old)
    headless: How = {"makes": file("a.img", bytes(64) + IMAGE[64:])}
    yield Case("salvage, the header is gone", SALVAGE, CLOSED_HEADER, **headless)
    yield Case("salvage, the header is gone, slots and payload given", [*SALVAGE, *SIZES], DONE, RUN + LISTING, **headless)
    new: How = {"makes": file("a.img", NEW)}
    yield Case("list, the image was upgraded", LIST, DONE, b"session,0,0\n" + LISTING, **new)
    twice: How = {"changes": {"a.img": NEW_AGAIN}, "lines": acks(12, 24), "given": TRACE}
    yield Case("record, the image was upgraded", RECORD, DONE, **new, **twice)


def meanwhile_cases() -> Iterator[Case]:
    for what, size in (("shrunk", slot_at(shape_of(BIG_IMAGE), 32)), ("emptied", 0)):
        shrunk: How = {"makes": BIG, "does": shrinks(size), "changes": {"a.img": BIG_IMAGE[:size]}}
        yield Case(f"recover, the image is {what}", RECOVER, DISK_FAULT, Front(BIG_BITS), lines=[why("a.img", SHORTER)], **shrunk)
        yield Case(f"list, the image is {what}", LIST_EVERY, DISK_FAULT, Front(BIG_LISTING), lines=[why("a.img", SHORTER)], **shrunk)
    shrunk = {"changes": {"a.img": recorded(IMAGE, BITS[:384])[:700]}, "does": shrinks_while_recorded_in}
    yield Case("record, the image is shrunk", RECORD, DISK_FAULT, lines=[*acks(12, 18), why("a.img", SHORTER)], given=PIPE, **shrunk)
    whole: How = {"lines": acks(12, 24), "given": PIPE}
    yield Case("record, others come", RECORD, DONE, changes={"a.img": AGAIN}, does=others_come, **whole)
    yield Case("list, others come", LIST_EVERY, DONE, BIG_LISTING, makes=BIG, does=readers_come)
    lost: How = {"given": PIPE, "does": loses_its_reader, "lines": [why("standard output", NO_READER)]}
    yield Case("listbits, its reader goes", LISTBITS, NO_OUTPUT, LISTING[:17], **lost)
    killed: How = {"changes": {"a.img": AGAIN}, "does": is_killed, "given": PIPE}
    yield Case("record, killed, and record", RECORD, KILLED, lines=acks(12, 12), **killed)
    renamed = {"a.img": None, "b.img": AGAIN}
    rename = image_gets(lambda path: path.rename(path.with_name("b.img")))
    yield Case("record, the image is renamed", RECORD, DONE, changes=renamed, does=rename, **whole)
    unlink = image_gets(lambda path: path.unlink())
    yield Case("record, the image's name is removed", RECORD, DONE, changes={"a.img": None}, does=unlink, **whole)


def limit_cases() -> Iterator[Case]:
    five, end_of_five = recorded(EMPTY, BITS[:320]), slot_at(shape_of(EMPTY), 5)
    only: How = {"makes": file("a.img", EMPTY), "changes": {"a.img": five}, "given": TRACE}
    front: How = {"given": BITS, "out": To("shown"), "changes": {"shown": LISTING[:20]}}
    ignored: How = {"ignores": signal.SIGXFSZ}
    # A limit of the size of files ends a run by a signal, where that isn't ignored.
    too_large = [why("new.img", TOO_LARGE_FILE)]
    yield Case("format, at a limit of size", FORMAT, DISK_FAULT, lines=too_large, **size_limit(1000), **ignored)
    to_fill: How = {"makes": file("new.img"), **size_limit(1000), **ignored}
    yield Case("format of an empty file, at a limit of size", FORMAT, DISK_FAULT, lines=too_large, **to_fill)
    at_five = [*acks(0, 5), why("a.img", TOO_LARGE_FILE)]
    yield Case("record, at a limit of size", RECORD, DISK_FAULT, lines=at_five, **only, **size_limit(end_of_five), **ignored)
    at_twenty = [why("standard output", TOO_LARGE_FILE)]
    yield Case("listbits, at a limit of size", LISTBITS, NO_OUTPUT, lines=at_twenty, **front, **size_limit(20), **ignored)
    unfinished = {"new.img": bytes(1000)}
    yield Case("format, ended at a limit of size", FORMAT, PAST_SIZE, changes=unfinished, **size_limit(1000))
    yield Case("record, ended at a limit of size", RECORD, PAST_SIZE, lines=acks(0, 5), **only, **size_limit(end_of_five))
    yield Case("listbits, ended at a limit of size", LISTBITS, PAST_SIZE, **front, **size_limit(20))
    yield Case("check, few descriptors", CHECK, DONE, REPORT, **few_files(4))
    yield Case("check, few descriptors and input closed", CHECK, DONE, REPORT, given=CLOSED, **few_files(4))
    yield Case("record, few descriptors", RECORD, DISK_FAULT, lines=[why("a.img", OTHER_ERROR)], given=TRACE, **few_files(4))
    yield Case("record, few descriptors for its folder", RECORD, DISK_FAULT, lines=[why("a.img", OTHER_ERROR)], given=TRACE, **few_files(5))
    yield Case("record, as few descriptors as it needs", RECORD, DONE, lines=acks(12, 24), changes={"a.img": AGAIN}, given=TRACE, **few_files(6))
    yield Case("list, few descriptors", LIST, DISK_FAULT, lines=[why("a.img", OTHER_ERROR)], **few_files(4))
    yield Case("format, few descriptors", FORMAT, DISK_FAULT, lines=[why("new.img", OTHER_ERROR)], **few_files(4))
    yield Case("format, few descriptors for its folder", FORMAT, DISK_FAULT, lines=[why("new.img", OTHER_ERROR)], **few_files(5))
    yield Case("format, as few descriptors as it needs", FORMAT, DONE, changes={"new.img": EMPTY}, **few_files(6))
    yield Case("format, few descriptors and input closed", FORMAT, DISK_FAULT, lines=[why("new.img", OTHER_ERROR)], given=CLOSED, **few_files(5))


def memory_cases() -> Iterator[Case]:
    wide = recorded(empty_image(16, 64, words=1024), b"")
    report = b"frame,1024,2048,262144\n" + b"".join(b"param,Q%d,32,even\n" % number for number in range(2048))
    with_image: How = {"makes": all_of(LARGEST, WIDE_IMAGE)}
    yield Case("check", ["check", "large.csv"], DONE, report, makes=LARGEST)
    yield Case("stream", ["stream", "large.csv"], DONE, given=end_at(0), makes=LARGEST)
    yield Case("listbits", ["listbits", "large.csv"], DONE, b"gap,0,6144\n", given=BITS, makes=LARGEST)
    new: How = {"changes": {"new.img": wide}, "makes": LARGEST}
    yield Case("format", ["format", "large.csv", "new.img", *SIZES], DONE, **new)
    yield Case("record", ["record", "large.csv", "a.img"], DONE, lines=acks(0, 0), given=end_at(0), **with_image)
    yield Case("list", ["list", "large.csv", "a.img"], DONE, **with_image)
    yield Case("recover", RECOVER, DONE, BITS)
    yield Case("drill", DRILL, DONE, DRILL_LINE, lines=acks(12, 18), changes={"a.img": DRILLED})
    yield Case("upgrade", UPGRADE, DONE, makes=file("a.img", OLD), changes={"a.img": NEW})


def word_cases() -> Iterator[Case]:
    yield Case("no words", [], USAGE)
    yield Case("a command that isn't text", [b"\xff"], USAGE)
    yield Case("a table that isn't text", ["check", b"\xff.csv"], USAGE)
    yield Case("an image that isn't text", ["record", "t1.csv", b"a\xc0\x80.img"], USAGE, given=TRACE)
    yield Case("a word that isn't text among options", [*FORMAT, b"--\xed\xa0\x80"], USAGE)
    yield Case("an empty word", ["check", ""], USAGE)
    yield Case("a hundred thousand words", ["check"] + ["t"] * 100_000, USAGE)
    yield Case("a hundred thousand empty words", [""] * 100_000, USAGE)
    yield Case("a hundred thousand options", ["format"] + ["--s"] * 100_000, USAGE)
    yield Case("a command of 130,000 bytes", ["c" * 130_000, "t1.csv"], USAGE)
    yield Case("an option of 130,000 digits", [*FORMAT[:3], "--slots", "1" * 130_000, "--payload=64"], USAGE)


def unread_cases() -> Iterator[Case]:
    """A recording whose acknowledgements nobody reads waits once their pipe is full, with all of them durable, and goes on."""
    image, trace = empty_image(1024, 64), word_at(0, 5) + end_at(400_000_000)

    def is_read_late(place: Place, run: Run) -> None:
        while held_in(run.child.stderr) < PIPE_SIZE - len("ack 1000\n"):
            if run.child.poll() is not None:
                raise Mismatch("ended before its acknowledgements filled their pipe")
            time.sleep(0.001)
        run.waits()
        time.sleep(0.2)
        if run.child.poll() is not None:
            raise Mismatch("ended though nobody read its acknowledgements")

    frames = [t1_frame(counter, 5) for counter in range(100)]
    whole = recorded(image, b"".join(frames))
    yield Case("record, nobody reads its acknowledgements", RECORD, DONE, makes=file("a.img", image), changes={"a.img": whole}, given=trace, lines=acks(0, 600), does=is_read_late)


LET_GO = ["oflag=nocache", "conv=notrunc,nocreat,fdatasync", "count=0", "status=none"]


class LetsGo:
    """The line that is given after a fault of the disk: the system holds no page of the image after it, and makes no file."""

    name = "dd has the system let go of an image, and makes none"

    def tried(self, place: Place) -> None:
        image, missing = place.room / "a.img", place.room / "b.img"
        image.write_bytes(BIG_IMAGE)
        if not self.held(image):
            raise Skipped("this file system keeps no pages that it could let go of")
        subprocess.run(["dd", f"of={image}", *LET_GO], check=True)
        if self.held(image):
            raise Mismatch(f"the system still holds {self.held(image)} pages")
        if image.read_bytes() != BIG_IMAGE:
            raise Mismatch("the image has changed")
        if subprocess.run(["dd", f"of={missing}", *LET_GO], capture_output=True).returncode == 0 or missing.exists():
            raise Mismatch("it made a file where there was none")

    def held(self, path: pathlib.Path) -> int:
        try:
            told = subprocess.run(["fincore", "--noheadings", "--output", "PAGES", path], capture_output=True, check=True, text=True)
        except (OSError, subprocess.CalledProcessError):
            raise Skipped("fincore is of Debian's util-linux-extra") from None
        return int(told.stdout or 0)


def terminal_cases() -> Iterator[AtATerminal]:
    """What a person reads in front of `fdr: usage`; a pipe gets that line alone, as the other cases show."""
    version = f"fdr {(TOP / 'VERSION').read_text().strip()}"
    forms = [f"       {form}" for form in FORMS]
    forms[0] = f"usage: {FORMS[0]}"
    of_no_command: list[list[str]] = [[], ["--help"], ["--version"], ["lists", "t1.csv", "a.img"]]
    for words in of_no_command:
        yield AtATerminal(f"the words {' '.join(words) or 'none'}", words, 1, [version, *forms, "fdr: usage"])
    wrong = [
        (["list", "a.img"], "list: too few words"),
        (["list", "t1.csv", "a.img", "b.img"], "list: too many words"),
        (["record", "t1.csv", "a.img", "--slots=16"], "record: it has no option --slots"),
        (["--slots", "16", "format", "t1.csv", "new.img"], "format: it needs --payload"),
        (["salvage", "t1.csv", "a.img", "--payload", "64"], "salvage: it needs --slots"),
        (["drill", "t1.csv", "a.img", "--seed", "7", "--frames", "0"], f"drill: {BAD_VALUE}"),
        (["check", ""], f"check: {BAD_VALUE}"),
    ]
    for words, line in wrong:
        form = next(form for form in FORMS if form.split()[1] == line.split(":")[0])
        yield AtATerminal(line, words, 1, [version, f"usage: {form}", line, "fdr: usage"])
    yield AtATerminal("a refused table", ["check", "/dev/null"], 2, ["fdr: table row 0: no frame row"])


def mount_cases() -> Iterator[Case]:
    """Cases on a file system in memory with room for 65,536 bytes, or on one that may only be read."""
    small = mounted(65536)
    inside = all_of(small, file("small/a.img", IMAGE))
    taken = all_of(inside, filled)
    large = ["format", "t1.csv", "small/new.img", *LARGE]
    record = ["record", "t1.csv", "small/a.img"]
    no_room = [why("small/new.img", NO_ROOM)]
    yield Case("format, no room", large, DISK_FAULT, lines=no_room, makes=small)
    yield Case("format of an empty file, no room", large, DISK_FAULT, lines=no_room, makes=all_of(small, file("small/new.img")))
    yield Case("format, no room at all", large, DISK_FAULT, lines=no_room, makes=taken)
    whole: How = {"changes": {"small/a.img": AGAIN}, "lines": acks(12, 24), "given": TRACE}
    yield Case("record, no room is left", record, DONE, makes=taken, **whole)
    # The first write, of a block's head and bytes after its gate, ends where the first page ends.
    image, begin = empty_image(64, 4096), HEADER.size + 1
    torn = {"small/a.img": image[:begin] + recorded(image, FIVES[:4096])[begin:PAGE] + image[PAGE:]}
    lacking: How = {"changes": torn, "lines": [*acks(0, 0), why("small/a.img", NO_ROOM)], "given": word_at(0, 5) + end_at(43_000_000)}
    holes = all_of(small, sparse_image("small/a.img", image), filled)
    yield Case("record, no room for an image with holes", record, DISK_FAULT, makes=holes, **lacking)
    big = all_of(BIG, small)
    front: How = {"changes": {"small/shown": Front(BIG_BITS)}, "out": To("small/shown")}
    no_room = [why("standard output", NO_ROOM)]
    yield Case("recover, no room for its output", RECOVER, NO_OUTPUT, lines=no_room, makes=big, **front)
    front = {"changes": {"small/shown": Front(BIG_LISTING)}, "out": To("small/shown")}
    yield Case("list, no room for its output", LIST_EVERY, NO_OUTPUT, lines=no_room, makes=big, **front)
    untold: How = {"changes": {"a.img": AGAIN, "small/said": b""}, "given": TRACE, "err": To("small/said")}
    yield Case("record, no room for its acknowledgements", RECORD, DONE, makes=taken, **untold)
    read_only = all_of(inside, made_read_only)
    yield Case("format, the file system may only be read", large, DISK_FAULT, lines=[why("small/new.img", READ_ONLY_SYSTEM)], makes=read_only)
    may_not = [why("small/a.img", READ_ONLY_SYSTEM)]
    yield Case("record, the file system may only be read", record, DISK_FAULT, lines=may_not, given=TRACE, makes=read_only)
    yield Case("recover, the file system may only be read", ["recover", "small/a.img"], DONE, BITS, makes=read_only)
    listing = ["list", "t1.csv", "small/a.img"]
    yield Case("list, the file system may only be read", listing, DONE, SESSION + LISTING, makes=read_only)
    yield Case("upgrade, the file system may only be read", ["upgrade", "small/a.img"], DISK_FAULT, lines=may_not, makes=read_only)


def main() -> int:
    words = argparse.ArgumentParser(description=__doc__.splitlines()[0])
    words.add_argument("program", type=pathlib.Path)
    words.add_argument("--seconds", type=float, default=20, help="that a run may take")
    words.add_argument("--only", default="", help="the cases with this in their names")
    given = words.parse_args()
    begin_apart()
    cases: list[Tried] = [*word_cases(), *stream_cases(), *table_cases(), *image_cases(), *meanwhile_cases()]
    cases += [*terminal_cases(), *unread_cases(), LetsGo(), *limit_cases(), *map(InLittleMemory, memory_cases()), *mount_cases()]
    return try_all([case for case in cases if given.only in case.name], {"fdr": given.program}, given.seconds)


if __name__ == "__main__":
    sys.exit(main())
