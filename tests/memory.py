#!/usr/bin/env python3
"""Refuses the built programs their memory, one request at a time, and looks at what they answer and leave.

    tests/memory.py FDR FDRPAIR [--most N] [--only WORD]

Each work is run once to count its requests for memory: the runs of examples/cases, whose output is compared with the
one stored there, some worked out by hand, and some by larger tables. Then it is run again and again. Each time one request is refused, and the
others not; or one and all that follow. Each answer has to be one of two:

- `fdr: no memory` or `fdrpair: no memory`, with status 12, where nothing was written, nothing of the input taken, and all files are as before.
  Only `exceed` takes memory for an input that it has read;
- the answer of the run that was refused nothing, with the same output, text and files.

Of a work with more requests than N the first ones, the last ones and some between are refused. The requests are
counted and refused by refuse.c, which `cc` compiles and which is loaded before the C library: the programs are those
that are built.

It prints a table of counts, and a line for each answer that is neither, and ends with 0 where there is none.
"""

import argparse
import os
import pathlib
import shutil
import struct
import subprocess
import sys
import tempfile
from collections.abc import Iterator, Sequence
from concurrent import futures

sys.dont_write_bytecode = True

from formats import VERSION_1, bus_word, empty_image, end_at, frame, record_at, recorded, with_bit
from inputs import BITS, ORDINARY, T1, TOP, TRACE, largest_table, t1_frame, word_at

SOURCE = TOP / "tests" / "refuse.c"
CASES = TOP / "examples" / "cases"
LIMIT = 60  # seconds that a run has

Files = dict[str, bytes]
Answer = tuple[int, bytes, bytes]  # the status, standard output and standard error
Programs = dict[str, pathlib.Path]


class Work:
    """A command, its input and the files that it finds; and what it has to write, where that is stored."""

    def __init__(self, name: str, words: list[str], given: bytes, files: Files, output: bytes | None = None, most: int = sys.maxsize, program: str = "fdr") -> None:
        self.name, self.words, self.given, self.files = name, words, given, files
        self.output, self.most, self.program = output, most, program
        self.no_memory = (12, b"", f"{program}: no memory\n".encode())


class Ended:
    """What a run answered, left and took, and how many requests for memory it made."""

    def __init__(self, answer: Answer, files: Files, taken: int, requests: int) -> None:
        self.answer, self.files, self.taken, self.requests = answer, files, taken, requests


def run(programs: Programs, library: pathlib.Path, work: Work, first: int = 0, last: int = 0) -> Ended:
    """Runs a work in a folder of its own; the requests from the first to the last are refused."""
    with tempfile.TemporaryDirectory(prefix="fdr_memory_") as top:
        room, refusals = pathlib.Path(top) / "room", pathlib.Path(top) / "refusals"
        room.mkdir()
        for name, data in work.files.items():
            (room / name).write_bytes(data)
        refusals.write_bytes(struct.pack("=QQQ", 0, first, last))
        environ = {**os.environ, "LD_PRELOAD": str(library), "REFUSALS": str(refusals)}
        with tempfile.TemporaryFile() as given:
            given.write(work.given)
            given.seek(0)
            words = [str(programs[work.program]), *work.words]
            ended = subprocess.run(words, stdin=given, capture_output=True, cwd=room, env=environ, timeout=LIMIT)
            taken = os.lseek(given.fileno(), 0, os.SEEK_CUR)
        files = {path.name: path.read_bytes() for path in room.iterdir()}
        answer = (ended.returncode, ended.stdout, ended.stderr)
        return Ended(answer, files, taken, struct.unpack("=QQQ", refusals.read_bytes())[0])


def kind_of(ended: Ended, usual: Ended, work: Work) -> str:
    """Which of the two answers a run gave, or neither."""
    may_take = work.words[:1] == ["exceed"]
    if ended.answer == work.no_memory and ended.files == work.files and (may_take or not ended.taken):
        return "no memory"
    return "as usual" if (ended.answer, ended.files) == (usual.answer, usual.files) else "neither"


def refused_numbers(requests: int, most: int) -> Sequence[int]:
    """The numbers to refuse: all, or the first and last quarter of the most and as many between."""
    if requests <= most:
        return range(1, requests + 1)
    quarter = most // 4
    between = range(quarter, requests - quarter, max(1, (requests - 2 * quarter) // (most - 2 * quarter)))
    return sorted({*range(1, quarter + 1), *between, *range(requests - quarter + 1, requests + 1)})


# --- the works


def stored_works() -> Iterator[Work]:
    """The cases of examples/, which `make demo` runs too."""
    files = {path.name: path.read_bytes() for path in (TOP / "examples").iterdir() if path.suffix in (".csv", ".img")}
    for words in sorted(CASES.glob("*.args")):
        given, output = words.with_suffix("").read_bytes(), words.with_suffix(".stdout").read_bytes()
        yield Work(words.stem.replace("_", " "), words.read_text().split("\n")[:-1], given, files, output)


def turns_table(cycle: int) -> bytes:
    """Two parameters of one bit that take turns in it, or share it, by the cycle of the second."""
    rows = ["F,64,2,1", "P,A,0,1,,11,1,U,1,1,0,0,8", "L,A,1,1,20,0,3,1,0,2", "P,B,0,2,,11,1,U,1,1,0,0,4"]
    return "\n".join([*rows, f"L,B,1,1,20,0,3,1,{cycle},4", ""]).encode()


TWO_PARTS = b"""F,64,2,1
P,POS,1,310,,9,20,U,1,1,0,0,1
L,POS,1,1,20,0,1,12,0,16
L,POS,2,1,20,0,1,8,1,16
P,ALT,0,203,,11,12,U,1,1,0,0,16
L,ALT,1,1,10,0,1,12,0,1
"""


def two_parts_trace() -> bytes:
    """Two frames: the altitude 5, and the position hexadecimal ABCDE, which is another after a second."""
    positions = [(0x8ABCDE13, 0), (0x80000113, 1_000_000)]
    records = [record_at(time, word, bus=1) for word, time in positions]
    return word_at(0, 5) + b"".join(records) + end_at(8_000_000)


def two_parts_bits() -> bytes:
    """What that trace records: the second part of the position is in the second frame."""
    return frame({(1, 10): 5, (1, 20): 0xCDE}) + frame({(1, 2): 1, (1, 10): 5, (1, 20): 0x0AB})


def with_bit_before(bits: bytes, place: int) -> bytes:
    """Bits with a zero bit put in before this one, and seven after the last."""
    return with_bit(int.from_bytes(bits, "little"), place, 0).to_bytes(len(bits) + 1, "little")


def worked_works() -> Iterator[Work]:
    """Works whose output is worked out by hand: parts in turns, a value in two parts, a drill, words as options allow."""
    files = {"t1.csv": T1, "p.csv": TWO_PARTS, "turns.csv": turns_table(1), "shared.csv": turns_table(2)}
    files["e.img"] = empty_image(16, 64)
    files["p.img"] = recorded(empty_image(16, 64), two_parts_bits())
    report = b"frame,64,2,12\nparam,A,8,even\nparam,B,4,even\n"
    listing = b"session,1,0\nrow,0,1,10,ALT,5\nrow,1,1,10,ALT,5\nrow,0,1,20,POS,703710\n"
    files["old.img"] = recorded(empty_image(16, 64, version=VERSION_1), two_parts_bits())
    cut, apart = with_bit_before(two_parts_bits(), 3072), b"row,0,1,10,ALT,5\ngap,3072,1\nrow,1,1,10,ALT,5\ngap,6145,7\n"
    yield Work("check, a bit in turns", ["check", "turns.csv"], b"", files, report)
    yield Work("check, a bit shared", ["check", "shared.csv"], b"", files, b"")
    yield Work("stream, two parts", ["stream", "p.csv"], two_parts_trace(), files, two_parts_bits())
    yield Work("record, two parts", ["record", "p.csv", "e.img"], two_parts_trace(), files, b"")
    yield Work("list, two parts", ["list", "p.csv", "p.img"], b"", files, listing)
    yield Work("list, version 1", ["list", "p.csv", "old.img"], b"", files, listing.partition(b"\n")[2])
    damaged, session, row = bytearray(files["p.img"]), b"session,1,", b"row,0,1,10,ALT,5\n"
    damaged[64 + 8 * 80] = 0
    files["d.img"] = bytes(damaged)
    runs = b"run,0,8\n" + session + b"0\n" + row + b"gap,3072,1024\nrun,9,3\n" + session + b"9\ngap,0,1536\n"
    yield Work("salvage, two runs", ["salvage", "p.csv", "d.img"], b"", files, runs)
    given = ["salvage", "p.csv", "d.img", "--slots=16", "--payload=64"]
    yield Work("salvage, slots and payload given", given, b"", files, runs)
    yield Work("record, version 1", ["record", "p.csv", "old.img"], two_parts_trace(), files, b"")
    yield Work("upgrade", ["upgrade", "old.img"], b"", files, b"")
    yield Work("listbits, two parts apart", ["listbits", "p.csv"], cut, files, apart)
    drill = ["drill", "t1.csv", "e.img", "--seed", "1", "--frames", "1"]
    yield Work("drill, one frame", drill, b"", files, b"drill,6,1,1,1499\n")
    yield Work("format, other spellings", ["format", "t1.csv", "n.img", "--payload=64", "--slots", "016"], b"", files, b"")
    twice = ["format", "t1.csv", "n.img", "--slots", "16", "--slots", "16", "--payload", "64"]
    yield Work("an option twice", twice, b"", files, b"")
    yield Work("an option of another command", ["record", "t1.csv", "e.img", "--seed", "1"], b"", files, b"")
    yield Work("a command alone", ["list"], b"", files, b"")
    yield Work("a dash", ["check", "-"], b"", files, b"")
    yield Work("no words", [], b"", files, b"")


def ordinary_trace(seconds: int) -> bytes:
    """A trace of words of bus 0 and label octal 206, SDI 0, each second; and the end."""
    records = [record_at(second * 1_000_000, bus_word(0o206, second % 4096, lsb=17)) for second in range(seconds)]
    return b"".join(records) + end_at(seconds * 1_000_000)


def further_works() -> Iterator[Work]:
    """Works by larger tables, refusals, and paths that don't fit in a small buffer."""
    files = {"t1.csv": T1, "o.csv": ORDINARY, "o.img": empty_image(64, 512, words=256), "large.csv": largest_table()}
    files["w.img"] = empty_image(16, 64, words=1024)
    files["t.img"] = recorded(empty_image(16, 64), t1_frame(0, 5))
    far = "./" * 400
    trace = ordinary_trace(70)
    yield Work("stream, ordinary table", ["stream", "o.csv"], trace, files)
    yield Work("record, ordinary table", ["record", "o.csv", "o.img"], trace, files)
    yield Work("drill, ordinary table", ["drill", "o.csv", "o.img", "--seed", "7", "--frames", "18"], b"", files)
    yield Work("encode", ["encode"], bytes(5000), files)
    yield Work("decode", ["decode"], b"\x55" * 5000, files)
    yield Work("listbits, ordinary table", ["listbits", "o.csv"], bytes(5000), files)
    yield Work("a refused table", ["check", "t.img"], b"", files)
    yield Work("a refused word", ["format", "t1.csv", "new.img", "--slots=4"], b"", files)
    yield Work("a trace cut short", ["record", "t1.csv", "t.img"], trace[:63], files)
    yield Work("format, the image is there", ["format", "t1.csv", "t.img", "--slots=4", "--payload=64"], b"", files)
    yield Work("check, a long path", ["check", far + "t1.csv"], b"", files)
    yield Work("record, long paths", ["record", far + "t1.csv", far + "t.img"], trace, files)
    yield Work("format, long paths", ["format", far + "t1.csv", far + "n.img", "--slots=4", "--payload=64"], b"", files)
    few = 60
    yield Work("check, largest table", ["check", "large.csv"], b"", files, most=few)
    yield Work("listbits, largest table", ["listbits", "large.csv"], t1_frame(0, 5), files, most=few)
    yield Work("stream, largest table", ["stream", "large.csv"], end_at(4_000_000), files, most=few)
    yield Work("list, largest table", ["list", "large.csv", "w.img"], b"", files, most=few)
    yield Work("salvage, largest table", ["salvage", "large.csv", "w.img"], b"", files, most=few)


def pair_works() -> Iterator[Work]:
    """Recordings in two images, and such as are refused."""
    image, files = recorded(empty_image(16, 64), BITS), {"t1.csv": T1, "o.csv": ORDINARY, "large.csv": largest_table()}
    files |= {"a.img": image, "b.img": image, "behind.img": empty_image(16, 64), "other.img": empty_image(16, 65)}
    files["apart.img"] = recorded(empty_image(16, 64), t1_frame(1, 5))
    for number in (1, 2):
        files |= {f"o{number}.img": empty_image(64, 512, words=256), f"w{number}.img": empty_image(16, 64, words=1024)}
    far = "./" * 400
    for name, words, trace, most in (
        ("the same blocks", ["record", "t1.csv", "a.img", "b.img"], TRACE, sys.maxsize),
        ("the second brought up", ["record", "t1.csv", "a.img", "behind.img"], TRACE, sys.maxsize),
        ("the first brought up", ["record", "t1.csv", "behind.img", "b.img"], TRACE, sys.maxsize),
        ("one missing", ["record", "t1.csv", "a.img", "none.img"], TRACE, sys.maxsize),
        ("headers differ", ["record", "t1.csv", "a.img", "other.img"], TRACE, sys.maxsize),
        ("a block differs", ["record", "t1.csv", "a.img", "apart.img"], TRACE, sys.maxsize),
        ("a trace cut short", ["record", "t1.csv", "a.img", "b.img"], TRACE[:47], sys.maxsize),
        ("a refused table", ["record", "a.img", "a.img", "b.img"], TRACE, sys.maxsize),
        ("a word too few", ["record", "t1.csv", "a.img"], TRACE, sys.maxsize),
        ("long paths", ["record", far + "t1.csv", far + "a.img", far + "b.img"], TRACE, sys.maxsize),
        ("ordinary table", ["record", "o.csv", "o1.img", "o2.img"], ordinary_trace(70), sys.maxsize),
        ("largest table", ["record", "large.csv", "w1.img", "w2.img"], end_at(4_000_000), 60),
    ):
        yield Work(f"in two images, {name}", words, trace, files, b"", most, "fdrpair")


def main() -> int:
    words = argparse.ArgumentParser(description=__doc__.splitlines()[0])
    words.add_argument("fdr", type=pathlib.Path)
    words.add_argument("fdrpair", type=pathlib.Path)
    words.add_argument("--most", type=int, default=600, help="runs of a work in which one request is refused")
    words.add_argument("--only", default="", help="the works with this in their names")
    given = words.parse_args()
    programs = {"fdr": given.fdr.resolve(), "fdrpair": given.fdrpair.resolve()}
    if not shutil.which("cc"):
        print("skipped: there is no C compiler")
        return 0
    tried = unlike = 0
    refused = ["one refused: no memory", "as usual", "and all after it: no memory", "as usual"]
    print("| " + " | ".join(["work", "status", "requests", "tried", *refused]) + " |")
    print("|---|---:|---:|---:|---:|---:|---:|---:|")
    with tempfile.TemporaryDirectory(prefix="fdr_memory_") as top, futures.ThreadPoolExecutor(os.cpu_count()) as pool:
        library = pathlib.Path(top) / "refuse.so"
        subprocess.run(["cc", "-shared", "-fPIC", "-O1", "-o", library, SOURCE], check=True)
        works = [*stored_works(), *worked_works(), *further_works(), *pair_works()]
        for work in (work for work in works if given.only in work.name):
            usual = run(programs, library, work)
            if work.output not in (None, usual.answer[1]):
                print(f"{work.name}: wrote {usual.answer[1][:200]!r} with all its memory")
                unlike += 1
            numbers = refused_numbers(usual.requests, min(work.most, given.most))
            cells: list[int] = []
            for how, most in (("alone", 0), ("and all after", 1 << 62)):
                tries = [pool.submit(run, programs, library, work, number, max(number, most)) for number in numbers]
                tried += len(tries)
                kinds = [kind_of(one.result(), usual, work) for one in tries]
                cells += [kinds.count("no memory"), kinds.count("as usual")]
                for number, one, kind in zip(numbers, tries, kinds):
                    if kind == "neither":
                        status, _, text = one.result().answer
                        print(f"{work.name}, request {number} {how}: status {status}, {text[-200:]!r}")
                        unlike += 1
            print(f"| {work.name} | {usual.answer[0]} | {usual.requests:,} | {len(numbers)} | ", end="")
            print(" | ".join(map(str, cells)), "|", flush=True)
    print(f"{tried:,} runs, {unlike} answers that are neither")
    return 1 if unlike else 0


if __name__ == "__main__":
    sys.exit(main())
