#!/usr/bin/env python3
"""Works out the cases that depend on the order of a command's calls, and those of damaged heads, without the program.

    tests/case_tables.py --check | --write

What is written, and when it is made durable, is in the order of docs/FORMATS.md. An image is opened by its size, its header, the head of
each slot, the heads of its blocks from the last one down, and a look at the gate of the next block's slot, which is closed where it is
open, and a sync. A block comes by its body, a look at the gate after it, which is closed where it is open, a sync, its own gate, and
a sync. It is read by its head and its bytes. What is listed of what is left is had from reader.py. The files are those of
crates/fdr_cases_prog/data/ that say so in their first line.
"""

from __future__ import annotations

import sys
from collections.abc import Callable, Iterator
from typing import NamedTuple

sys.dont_write_bytecode = True

import reader
from cases import PROGRAM, blocks_of, bytes_of, lines_of

TEARS = ("old", "new", "half", "00", "5a", "ff")
READ_FAULT = "[8 fdr: input cannot be read]\n"
DISK_FAULT = "[10 fdr: disk fault]\n"
NO_SUCH_CALL = "[no such call]\n"
OPEN, CLOSED = 0x5A, 0x00


class Call(NamedTuple):
    """A call of the disk, or a pull, and the number that was announced as it began."""

    kind: str  # pass, pull, write, sync or provide
    told: int = 0
    at: int = 0
    data: bytes = b""
    said: str = ""  # what was written as it began


def patched(image: bytes, at: int, data: bytes) -> bytes:
    return image[:at] + data + image[at + len(data) :]


# --- the order of the calls


class Run:
    """A command on a disk that holds these bytes: its calls, and what it leaves, where nothing fails."""

    def __init__(self, image: bytes) -> None:
        self.first, self.image, self.told, self.said = image, image, 0, ""
        self.calls: list[Call] = []

    def call(self, kind: str, at: int = 0, data: bytes = b"") -> None:
        self.calls.append(Call(kind, self.told, at, data, self.said))
        if kind == "write":
            self.image = patched(self.image, at, data)
        if kind == "provide":
            self.image = data

    def reads(self, count: int) -> None:
        for _ in range(count):
            self.call("pass")

    def open_header(self) -> reader.Ring:
        self.reads(2)
        return reader.ring_of(self.image)

    def scan(self, ring: reader.Ring) -> list[reader.Block]:
        """The head of each slot, and from the last block down each that has the number that is wanted, and one that hasn't."""
        run = reader.recovered_run(self.image, ring)
        next_number = run[-1].number + 1 if run else 0
        lowest = max(0, next_number - ring.slots)
        self.reads(ring.slots + len(run) + bool(next_number - len(run) > lowest))
        return run

    def close(self, at: int) -> None:
        self.call("pass")
        if self.image[at] == OPEN:
            self.call("write", at, bytes([CLOSED]))

    def add_block(self, ring: reader.Ring, number: int, session: int, data: bytes) -> None:
        at = ring.slot_of(number)
        head = bytes([0]) + len(data).to_bytes(2, "big") + session.to_bytes(4, "big") + number.to_bytes(8, "big")
        self.call("write", at + 1, head + data)
        self.close(ring.slot_of(number + 1))
        self.call("sync")
        self.call("write", at, bytes([OPEN]))
        self.call("sync")
        self.told = number + 1

    def record(self, stream: bytes, pulls: int) -> None:
        ring = self.open_header()
        run = self.scan(ring)
        number, session = (run[-1].number + 1, run[-1].session + 1) if run else (0, 1)
        self.close(ring.slot_of(number))
        self.call("sync")
        self.told = number
        for _ in range(pulls):
            self.call("pull")
        for at in range(0, len(stream), ring.payload):
            self.add_block(ring, number, session, stream[at : at + ring.payload])
            number += 1

    def read_blocks(self, ring: reader.Ring, line: Callable[[reader.Block, reader.Block | None], str] = lambda block, before: "") -> None:
        """The blocks of the run, in two reads each. Before the next one the line of its session was written."""
        before = None
        for block in self.scan(ring):
            self.reads(2)
            self.said += line(block, before)
            before = block


def formatting(slots: int, payload: int) -> Run:
    run = Run(b"")
    header = bytes([OPEN, 0xA5]) + b"FDR717" + b"".join(value.to_bytes(4, "big") for value in (slots, payload, 64)) + bytes(44)
    run.call("pass")
    run.call("provide", data=bytes(64 + slots * (16 + payload)))
    run.call("write", 1, header[1:])
    run.call("sync")
    run.call("write", 0, bytes([OPEN]))
    run.call("sync")
    return run


def recording(image: bytes, stream: bytes) -> Run:
    run = Run(image)
    run.record(stream, 1)
    return run


def drilling(image: bytes, stream: bytes) -> Run:
    run = Run(image)
    ring = run.open_header()
    run.record(stream, 0)
    run.read_blocks(ring)
    return run


def upgrading(image: bytes) -> Run:
    run = Run(image)
    run.open_header()
    run.call("write", 1, b"\xa5")
    run.call("sync")
    return run


def listing(image: bytes) -> Run:
    """The listing of an image that has no whole frame: a gap is decided at its session's end alone."""
    run = Run(image)
    ring = run.open_header()
    run.read_blocks(ring, lambda block, before: "" if before else f"session,{block.session},{block.number}\n")
    return run


# --- what a stop and a call that fails leave


def torn(image: bytes, call: Call, tear: str) -> bytes:
    """What a stop leaves of the bytes that a call was writing."""
    size = len(call.data)
    if call.kind == "provide":
        return bytes({"old": 0, "half": size // 2}.get(tear, size))
    if call.kind != "write" or tear == "old":
        return image
    data = {"new": call.data, "half": call.data[: size // 2]}.get(tear)
    return patched(image, call.at, bytes.fromhex(tear) * size if data is None else data)


def stopped(run: Run, number: int, tear: str) -> bytes:
    """What a stop within a call leaves: all that was written since the last sync is torn."""
    held = left = run.first
    for call in run.calls[:number]:
        held = call.data if call.kind == "provide" else patched(held, call.at, call.data)
        left = held if call.kind in ("sync", "provide") else torn(left, call, tear)
    return torn(left, run.calls[number], tear)


def failed(run: Run, number: int) -> bytes:
    """What the disk holds where a call fails."""
    held = run.first
    for call in run.calls[:number]:
        held = call.data if call.kind == "provide" else patched(held, call.at, call.data)
    return held


# --- the rings that are recorded in, by the names and tokens of a script

T1 = b"F,64,2,1\nP,ALT,0,203,,11,12,U,1,1,0,0,16\nL,ALT,1,1,10,0,1,12,0,1\n"
SHARED = {
    "zeros": "4702 00*94 b805 00*94 470a 00*94 b80d 00*94",
    "five": "@zeros 108:005",
    "trace": "01000000000014c1 0000000000000000 0200000000000000 00000000003d0900",
}
DRAW, STEP = 6_364_136_223_846_793_005, 1_442_695_040_888_963_407


def drawn(seed: int, frames: int) -> list[int]:
    """The altitudes of a drill's frames: bits 11 to 22 of each fourth word that is drawn, from the first on."""
    state, values = seed, []
    for second in range(4 * frames):
        state = (state * DRAW + STEP) % 2**64
        if second % 4 == 0:
            values.append(state >> 42 & 0xFFF)
    return values


class Base(NamedTuple):
    """A command that records in a ring."""

    shows: str
    words: str
    given: str
    slots: int
    block: int
    began: int
    stream: str  # the tokens of all blocks from number 0 on
    written: str

    def is_drill(self) -> bool:
        return self.words.startswith("drill")

    def blocks(self) -> bytes:
        return bytes_of({"zeros": ZEROS, "five": FIVE}, self.stream)

    def ring(self) -> bytes:
        """The ring before the recording: without blocks, or after one of a frame."""
        fresh = formatting(self.slots, self.block).image
        return recording(fresh, FIVE).image if self.began else fresh

    def run(self) -> Run:
        own = self.blocks()[self.began * self.block :]
        return drilling(self.ring(), own) if self.is_drill() else recording(self.ring(), own)

    def command(self) -> str:
        return f"fdr {self.words}{self.given}"

    def head(self) -> str:
        again = "$ fdr record altitude.csv was < trace > none\n  [ack 6]\n  [was changed]\n" if self.began else ""
        return (
            f"trace = @word_at_0 @end_at_4000000\nstream = {self.stream}\n"
            f"$ fdr format altitude.csv was --slots={self.slots} --payload={self.block}\n  [was changed]\n{again}a.img = @was\nb.img = @was\n"
        )

    def promise(self) -> str:
        return (
            f"keeps held=held after=after stream=stream frame=five known=known then=then "
            f"slots={self.slots} block={self.block} began={self.began}"
        )


ZEROS = bytes_of({}, SHARED["zeros"])
FIVE = bytes_of({"zeros": ZEROS}, SHARED["five"])
RECORD = "record altitude.csv a.img"


def frames_of(values: list[int]) -> str:
    return " ".join(f"@zeros {3072 * at + 12}:{at:03x} {3072 * at + 108}:{value:03x}" for at, value in enumerate(values))


def drill_of(shows: str, seed: int, frames: int, slots: int, block: int) -> Base:
    values = drawn(seed, frames)
    blocks = -(-384 * frames // block)
    # Of blocks that don't all fit, those that are listed have the last frames whole.
    held = min(blocks, slots - 1) * block
    listed = values[-(min(held, 384 * frames) // 384) :]
    written = f"drill,{blocks},{len(listed)},{len(listed)},{sum(listed)}\n"
    words = f"drill altitude.csv a.img --seed={seed} --frames={frames}"
    return Base(shows, words, "", slots, block, 0, frames_of(values), written)


ROUND = Base("six blocks in four slots, which go round", RECORD, " < end_at_4000000", 4, 64, 0, "@zeros", "")
SIXTEEN = Base("six blocks in sixteen slots", RECORD, " < trace", 16, 64, 0, "@five", "")
SECOND = Base("six blocks after six of another recording", RECORD, " < trace", 16, 64, 6, "@five @five", "")
RECORDINGS = [ROUND, SIXTEEN, SECOND]
DRILLS = [
    drill_of("a drill of a frame in sixteen slots", 1, 1, 16, 64),
    drill_of("a drill of ten frames in four slots of 960 bytes, which go round", 1, 10, 4, 960),
    drill_of("a drill of ten frames in one block of a ring of four", 7, 10, 4, 4096),
]


# --- what is said of what is left


def indented(text: str) -> str:
    return "".join(f"  {line}\n" for line in text.splitlines())


def by_reader(words: str, image: bytes, given: bytes = b"") -> reader.Answer:
    return reader.answer_to(words.encode().split(), {"altitude.csv": T1, "a.img": image}, given)


def said(answer: reader.Answer) -> str:
    """What a command gives that isn't a recording."""
    text = answer.errors.decode()
    return answer.output.decode() + (f"[{answer.status} {text.strip()}]\n" if answer.status else "")


def then_said(image: bytes, given: bytes) -> str:
    """What is listed of a ring, and what a recording in it announces."""
    again = by_reader(RECORD, image, given)
    last = again.errors.split()[-1].decode()
    return said(by_reader("list altitude.csv a.img", image)) + f"[ack {last}]\n[a.img changed]\n"


def line(head: str, text: str) -> str:
    return f"$ {head}\n{indented(text)}"


def stops_of(base: Base) -> Iterator[str]:
    run, given = base.run(), bytes_of({}, SHARED["trace"])
    command = f"{base.command()}; fdr list altitude.csv a.img; fdr record altitude.csv a.img < trace"
    yield f"\ncase stops within each call of {base.shows}\n{base.head()}"
    yield "# What each leaves: the number that was announced, what is listed, and what a frame more announces.\n"
    for tear in TEARS:
        blocks = []
        for number, call in enumerate(run.calls):
            ack = f"[ack {call.told}]\n" if call.told else ""
            blocks.append(ack + then_said(stopped(run, number, tear), given))
        yield line(f"N=0..{len(run.calls)} stop=N:{tear} {command}", blocks_of(0, blocks))
    yield "# The same as promises: no call's place counts.\n"
    recover = "fdr recover a.img > held"
    again = "told=then said=note fdr record altitude.csv a.img < trace; fdr recover a.img > after"
    same = f"ring image=a.img was=was block={base.block} began={base.began}"
    for tear in TEARS:
        stop = f"stop=N:{tear} told=known {base.command()}"
        yield line(f"N=0.. {stop}; {same}; {recover}; {again}; {base.promise()}", "[each N]\n")
    step = base.block + 16
    yield "# Where a stop may leave two images, it may leave the one with the gates of the other.\n"
    for tear in TEARS:
        new = f"stop=N:new told=known {base.command().replace('a.img', 'b.img')}"
        old = f"stop=N:{tear} told=known {base.command()}; a.img = @a.img 64/{step}=@b.img"
        yield line(f"N=0.. {new}; {old}; {same}; {recover}; {again}; {base.promise()}", "[each N]\n")


def failure_of(base: Base, run: Run, number: int) -> str:
    """What a command gives as a call fails, and what is listed then; after the last call, what it gives where none fails."""
    if number == len(run.calls):
        return f"{base.written}[ack {run.told}]\n[a.img changed]\n{said(by_reader('list altitude.csv a.img', run.image))}"
    call, image = run.calls[number], failed(run, number)
    text = f"[ack {call.told}]\n" if call.told else ""
    text += "[a.img changed]\n" if image != run.first else ""
    text += READ_FAULT if call.kind == "pull" else DISK_FAULT
    return text + said(by_reader("list altitude.csv a.img", image))


def faults_of(base: Base) -> Iterator[str]:
    run = base.run()
    yield f"\ncase each call fails of {base.shows}\n{base.head()}"
    yield "# The answer, what was announced, and what is listed then. After the last call all is done.\n"
    blocks = [failure_of(base, run, number) for number in range(len(run.calls) + 1)]
    yield line(f"N=0..{len(blocks)} calls=N {base.command()}; fdr list altitude.csv a.img", blocks_of(0, blocks))
    yield "# The call that fails is the last one.\n"
    yield line(f"N=0..{len(run.calls)} calls=N stop=N+1:old {base.command()}", blocks_of(0, [NO_SUCH_CALL] * len(run.calls)))
    yield "# What the disk holds then, and what stops within the failed call leave, as promises.\n"
    recover = "fdr recover a.img > held"
    again = "told=then said=note fdr record altitude.csv a.img < trace; fdr recover a.img > after"
    same = f"ring image=a.img was=was block={base.block} began={base.began}"
    is_there = f"stop=N:old told=known {base.command().replace('a.img', 'b.img')}"
    held = f"calls=N said=note told=known {base.command()}"
    yield line(f"N=0.. {is_there}; {held}; {same}; {recover}; {again}; {base.promise()}", "[each N]\n")
    for tear in TEARS:
        stop = f"calls=N stop=N:{tear} told=known {base.command()}"
        yield line(f"N=0.. {stop}; {same}; {recover}; {again}; {base.promise()}", "[each N]\n")


def stops_of_format() -> Iterator[str]:
    run = formatting(4, 64)
    words = "format altitude.csv a.img --slots=4 --payload=64"
    yield "\ncase stops within each call of format leave no image or a whole one\n"
    yield f"$ fdr {words.replace('a.img', 'whole')}\n  [whole changed]\n"
    for failing, shows in (("", "Nothing fails."), ("calls=N ", "The call fails.")):
        yield f"# {shows} What is recovered of the whole one is nothing.\n"
        for tear in TEARS:
            blocks = [said(by_reader("recover a.img", stopped(run, number, tear))) for number in range(len(run.calls))]
            yield line(f"N=0..{len(blocks)} {failing}stop=N:{tear} fdr {words}; fdr recover a.img", blocks_of(0, blocks))
    yield "# Each call fails, and is the last one.\n"
    blocks = []
    for number in range(len(run.calls)):
        image = failed(run, number)
        blocks.append(("[a.img changed]\n" if image else "") + DISK_FAULT + said(by_reader("recover a.img", image)))
    blocks.append("[a.img changed]\n")
    yield line(f"N=0..{len(blocks)} calls=N fdr {words}; fdr recover a.img", blocks_of(0, blocks))
    yield line(f"N=0..{len(run.calls)} calls=N stop=N+1:old fdr {words}", blocks_of(0, [NO_SUCH_CALL] * len(run.calls)))


def stops_of_upgrade() -> Iterator[str]:
    old = bytearray(recording(formatting(16, 64).image, FIVE).image)
    old[1] = 0
    run = upgrading(bytes(old))
    yield "\ncase stops within each call of upgrade leave one version or the other, and each call fails\nold.img = @five.img 1=00\n"
    for tear in ("old", "new", "17", "a5"):
        blocks = [f"[version {stopped(run, number, tear)[1]:02x}]\n" for number in range(len(run.calls))]
        for number, block in enumerate(blocks):
            version = block[9:11]
            for failing in ("", f"calls={number} "):
                yield f"a.img = @old.img\n$ {failing}stop={number}:{tear} fdr upgrade a.img\na.img is @old.img 1={version}\n"
    blocks = [("[old.img changed]\n" if number > 2 else "") + DISK_FAULT for number in range(len(run.calls))]
    yield line(f"N=0..{len(run.calls) + 1} calls=N fdr upgrade old.img", blocks_of(0, [*blocks, "[old.img changed]\n"]))
    yield line(f"N=0..{len(run.calls)} calls=N stop=N+1:old fdr upgrade old.img", blocks_of(0, [NO_SUCH_CALL] * len(run.calls)))
    yield "# Of version 2 nothing is written: the size, the header and a sync.\n"
    yield line("N=0..4 stop=N:00 fdr upgrade five.img; five.img is @header size=64 @five.img[64..1344]", blocks_of(0, ["", "", "", NO_SUCH_CALL]))


def faults_of_listing() -> Iterator[str]:
    """`list` and `recover` of the ring that went round."""
    image = ROUND.run().image
    yield f"\ncase each call of list and recover fails\n{ROUND.head()}"
    yield "$ fdr record altitude.csv a.img < end_at_4000000\n  [ack 6]\n  [a.img changed]\nold.img = @a.img 1=00\n"
    yield "lines:\n  session,1,3\n  gap,0,1536\ngap:\n  gap,0,1536\n"
    run = listing(image)
    blocks = [call.said + DISK_FAULT for call in run.calls]
    yield line(f"N=0..{len(blocks) + 1} calls=N fdr list altitude.csv a.img", blocks_of(0, [*blocks, "session,1,3\ngap,0,1536\n"]))
    blocks = [DISK_FAULT for _ in run.calls]
    yield line(f"N=0..{len(blocks) + 1} calls=N fdr list altitude.csv old.img", blocks_of(0, [*blocks, "gap,0,1536\n"]))
    recovered = f"[hex {reader.recover(image).output.hex()}]\n"
    yield line(f"N=0..{len(blocks) + 1} calls=N fdr recover a.img", blocks_of(0, [*blocks, recovered]))
    yield "# A front part went out, and less than all.\n"
    for name, lines in (("a.img", "lines"), ("old.img", "gap")):
        yield line(f"N=0..{len(blocks)} calls=N fdr list altitude.csv {name} > got; front got {lines}", blocks_of(0, blocks))


# --- damaged heads

HEADS = """
case what is recovered and listed is what the heads say
# Slots 0 to 3 hold blocks 4, 5, 2 and 3, of two bytes each; the gate of block 2 is closed.
block = 5a000002 00000001 0000000000000000
a.img = 5aa5 4644523731 37 00000004 00000040 00000040 00*44
  @block 4444 00*62 @block 5555 00*62 @block 2222 00*62 @block 3333 00*62
  79=04 159=05 224=00 239=02 319=03
"""


def damaged_heads() -> Iterator[str]:
    yield HEADS
    _, *lines = list(lines_of(HEADS))
    tokens = next(f"{head.partition(' =')[2]} {body}" for head, body in lines if head.startswith("a.img"))
    image = bytes_of({"block": bytes.fromhex("5a000002000000010000000000000000")}, tokens)
    for slot in range(4):
        at = 64 + 80 * slot
        for byte in ("00", "5a", "ff"):
            images = [patched(image, place, bytes.fromhex(byte)) for place in range(at, at + 16)]
            blocks = [f"[hex {out.hex()}]\n" if (out := reader.recover(other).output) else "" for other in images]
            yield line(f"N={at}..{at + 16} b.img = @a.img N={byte}; fdr recover b.img", blocks_of(at, blocks))
            blocks = [said(by_reader("list altitude.csv a.img", other)) for other in images]
            yield line(f"N={at}..{at + 16} b.img = @a.img N={byte}; fdr list altitude.csv b.img", blocks_of(at, blocks))
    yield "# In version 1 all is one, whatever stands where version 2 has sessions.\n"
    old = patched(image, 1, b"\0")
    for slot in range(4):
        at = 64 + 80 * slot
        blocks = [said(by_reader("list altitude.csv a.img", patched(old, place, b"\x5a"))) for place in range(at, at + 16)]
        yield line(f"N={at}..{at + 16} b.img = @a.img 1=00 N=5a; fdr list altitude.csv b.img", blocks_of(at, blocks))


SALVAGED = """
case what is salvaged is what the heads say
# Slots 0 to 3 hold blocks 4, 5, 2 and 3.
block = 5a000040 00000001 00*72
a.img = 5aa5 4644523731 37 00000004 00000040 00000040 00*44
  @block @block @block @block 79=04 159=05 239=02 319=03
"""


def salvaged_heads() -> Iterator[str]:
    yield SALVAGED
    _, *lines = list(lines_of(SALVAGED))
    tokens = next(f"{head.partition(' =')[2]} {body}" for head, body in lines if head.startswith("a.img"))
    image = bytes_of({"block": bytes.fromhex("5a000040000000010000000000000000") + bytes(64)}, tokens)
    for slot in range(4):
        at = 64 + 80 * slot
        for byte in ("00", "5a"):
            images = [patched(image, place, bytes.fromhex(byte)) for place in range(at, at + 16)]
            blocks = [said(by_reader("salvage altitude.csv a.img", other)) for other in images]
            yield line(f"N={at}..{at + 16} b.img = @a.img N={byte}; fdr salvage altitude.csv b.img", blocks_of(at, blocks))


# --- a ring of a thousand slots

LARGE = drill_of("a drill of ten frames in a ring of a thousand slots", 7, 10, 1024, 4096)
FRAMES, SEED = 10_000, 7


def large_rings() -> Iterator[str]:
    """Nearly all calls read heads of slots. Some of these fail, and each at the beginning, at the end and round the block."""
    run = LARGE.run()
    listing_begins = next(number for number, call in enumerate(run.calls) if call.told)
    end = len(run.calls)
    ranges = [(0, 5), (listing_begins // 2, listing_begins // 2 + 1), (listing_begins - 8, listing_begins + 1)]
    ranges += [(listing_begins + listing_begins // 2, listing_begins + listing_begins // 2 + 1), (end - 4, end + 1)]
    yield f"\ncase calls fail of {LARGE.shows}\n{LARGE.head()}"
    for first, last in ranges:
        blocks = [failure_of(LARGE, run, number) for number in range(first, last)]
        same = f"ring image=a.img was=was block={LARGE.block}"
        yield line(f"N={first}..{last} calls=N {LARGE.command()}; fdr list altitude.csv a.img; {same}", blocks_of(first, blocks))
    yield line(f"N={listing_begins - 2}..{listing_begins + 2} calls=N stop=N+1:old {LARGE.command()}", blocks_of(listing_begins - 2, [NO_SUCH_CALL] * 4))
    stream_size = 384 * FRAMES
    told = -(-stream_size // 4096)
    written = f"drill,{told},{FRAMES},{FRAMES},{sum(drawn(SEED, FRAMES))}\n[ack {told}]\n[a.img changed]\n"
    yield "\ncase a drill of ten thousand frames\n$ fdr format altitude.csv a.img --slots 1024 --payload 4096\n  [a.img changed]\n"
    yield f"part = @a.img[0..{64 + 1024 * 4112}]\n$ a.img is @part\n"
    yield line(f"fdr drill altitude.csv a.img --seed {SEED} --frames {FRAMES}", written)


# --- files

HEAD = "# Written by tests/case_tables.py from the order of a command's calls, and not by hand; what is listed is had from tests/reader.py.\n"


TORN = "# What stops within each call leave, torn in six ways: as before, as written, half written, and filled with a byte.\n"


def stops() -> Iterator[str]:
    yield HEAD + TORN
    yield from stops_of_format()
    yield from stops_of_upgrade()
    yield from stops_of(SIXTEEN)


def stops_round() -> Iterator[str]:
    yield HEAD + TORN
    yield from stops_of(ROUND)


def stops_behind() -> Iterator[str]:
    yield HEAD + TORN
    yield from stops_of(SECOND)


def faults() -> Iterator[str]:
    yield HEAD + "# What a call that fails leaves, for each call.\n"
    yield from faults_of_listing()
    for base in [*RECORDINGS, *DRILLS]:
        yield from faults_of(base)


def large() -> Iterator[str]:
    yield HEAD
    yield from large_rings()


def heads() -> Iterator[str]:
    yield "# Written by tests/case_tables.py: what is recovered and listed is had from tests/reader.py.\n"
    yield from damaged_heads()


def salvaged() -> Iterator[str]:
    yield "# Written by tests/case_tables.py: what is salvaged is had from tests/reader.py.\n"
    yield from salvaged_heads()


FILES = {"stops.cases": stops, "stops_round.cases": stops_round, "stops_behind.cases": stops_behind, "faults.cases": faults, "large.cases": large, "heads.cases": heads, "salvaged.cases": salvaged}


def main() -> int:
    is_same = True
    for name, texts in FILES.items():
        path, text = PROGRAM / "data" / name, "".join(texts())
        if sys.argv[1:] == ["--write"]:
            path.write_text(text)
        elif not path.exists() or path.read_text() != text:
            is_same = False
            print(f"{path.name} isn't what tests/case_tables.py writes", file=sys.stderr)
    return 0 if is_same else 1


if __name__ == "__main__":
    sys.exit(main())
