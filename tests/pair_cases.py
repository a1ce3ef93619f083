"""The cases of pair.py: `fdrpair record` on real files, devices and streams, and on what goes wrong with them.

Each has a folder with a table, the images `a.img` and `b.img`, which have the same twelve blocks, and what the case
adds. The lines of standard error are compared in the order in which they come: the acknowledgements, which disk failed,
why, and the answer's text.
"""

import fcntl
import os
import pathlib
import signal
from collections.abc import Callable, Iterable, Iterator
from typing import Any

import places
from formats import HEAD, HEADER, NUMBERS, SESSIONS, VERSION_1, blocks_of, empty_image, end_at, head_of
from formats import next_number, next_session, recorded, recovered, shape_of, slot_at, upgraded, with_blocks
from inputs import BITS, FIVES, T1, TRACE, largest_table, t1_frame, word_at
from places import CLOSED, FOLDER, FULL, GONE, NOBODY, NOTHING, PAGE, PIPE, READ_ONLY, WRITE_ONLY, ZEROS, InLittleMemory, Mismatch
from places import Answer, Doer, How, Maker, Place, Run, Stream, Words
from places import acks, all_of, block_device, bound_socket, closed_subfolder, empty_pipe, few_files, file, filled, held_pipe
from places import is_interrupted, link, made_read_only, mode, mounted, size_limit, sparse_image, subfolder, text_of

EMPTY = empty_image(16, 64)
IMAGE = recorded(EMPTY, BITS)
AGAIN = recorded(IMAGE, BITS)
SIXTH = BITS[:384]  # the first frame, which is six blocks
NINES = b"".join(t1_frame(counter, 9) for counter in range(2, 8))  # six frames with another value
NEXT, AFTER = 12, 24  # the next number of the images, and that after the trace

RECORD = ["record", "t1.csv", "a.img", "b.img"]

# Statuses and texts.
DONE = (0, "")
USAGE = (1, "fdrpair: usage")
NO_FRAME = (2, "fdrpair: table row 0: no frame row")
TOO_LARGE = (2, "fdrpair: table row 0: too large")
TRUNCATED = (3, "fdrpair: trace record 0: truncated")
CUT = (3, "fdrpair: trace record 2: truncated")
BAD_KIND = (3, "fdrpair: trace record 0: kind")
OTHER_WORDS = (6, "fdrpair: image has 128 words, table has 64")
USED_UP = (7, "fdrpair: sequence numbers are used up")
NO_TABLE = (8, "fdrpair: table cannot be read")
NO_INPUT = (8, "fdrpair: input cannot be read")
DISK_FAULT = (10, "fdrpair: disk fault")
NO_MEMORY = (12, "fdrpair: no memory")
OLD_VERSION = (13, "fdrpair: image is version 1")
HEADERS_DIFFER = (15, "fdrpair: headers differ")
KILLED = (-signal.SIGKILL, "")
PAST_SIZE = (-signal.SIGXFSZ, "")
OF_FDR = (10, "fdr: disk fault")

FIRST, SECOND = "fault first", "fault second"

# The causes that are told of faults: that of a disk before the line that says which one failed, the others once a run is over.
HELD = "held by another run"
NOT_READY = "not ready"
NO_PERMISSION = "no permission"
NO_ROOM = "no room"
NO_FILE = "no such file"
A_FOLDER = "is a folder"
NOT_A_FILE = "is no file"
SHORTER = "became shorter"
READ_ONLY_SYSTEM = "read-only file system"
TOO_LARGE_FILE = "file too large"
OTHER_ERROR = "input/output error"

WHOLE = {"a.img": AGAIN, "b.img": AGAIN}


def why(name: str, cause: str) -> str:
    """The line that says why a call on this file or stream failed."""
    return f"fdrpair: {name}: {cause}"


def refused(side: str, fault: str) -> Answer:
    return 4, f"fdrpair: {side} image: {fault}"


def differs(number: int) -> Answer:
    return 16, f"fdrpair: block {number} differs"


def far_behind(side: str) -> Answer:
    return 19, f"fdrpair: {side} image is too far behind"


class Case(places.Case):
    """A run on both images with the trace of two frames, where nothing else is said. None of it is taken before a number
    was acknowledged."""

    files = {"t1.csv": T1, "a.img": IMAGE, "b.img": IMAGE}
    usage, no_memory = USAGE, NO_MEMORY

    def __init__(self, name: str, answer: Answer, lines: Iterable[str] = (), words: Words = RECORD, given: Stream = TRACE, **how: Any) -> None:
        super().__init__(name, words, answer, lines=lines, given=given, **how)

    def may_take(self, said: bytes) -> bool:
        return b"ack" in said or self.how.get("err") is not None


# --- images


def images(first: bytes, second: bytes) -> Maker:
    return all_of(file("a.img", first), file("b.img", second))


def brought(image: bytes, lead: bytes, bits: bytes) -> bytes:
    """The image after it was brought up to the lead, and the bits were recorded on both."""
    missing = [(block.session, block.payload) for block in recovered(lead) if block.number >= next_number(image)]
    session = next_session(lead)
    return with_blocks(image, missing + [(session, block) for block in blocks_of(bits, shape_of(lead).payload)])


def goes_on(name: str, first: bytes, second: bytes, bits: bytes = BITS, **how: Any) -> Case:
    """A recording on both, of which the one that is behind is brought up first."""
    lead = first if next_number(first) >= next_number(second) else second
    number = next_number(lead)
    lines = acks(number, number + len(blocks_of(bits, shape_of(lead).payload)))
    changes = {"a.img": brought(first, lead, bits), "b.img": brought(second, lead, bits)}
    return Case(name, DONE, lines, makes=images(first, second), changes=changes, **how)


def longer(image: bytes, count: int) -> bytes:
    """The image after a recording of so many blocks."""
    return recorded(image, (BITS * 8)[: 64 * count])


def altered(image: bytes, at: int) -> bytes:
    """The image with another byte here."""
    return image[:at] + bytes([image[at] ^ 1]) + image[at + 1 :]


def with_last(number: int, session: int = 1) -> bytes:
    """An image of 16 slots whose only block has this number."""
    at, block = slot_at(shape_of(EMPTY), number), BITS[:64]
    return EMPTY[:at] + head_of(number, len(block), session) + block + EMPTY[at + HEAD.size + len(block) :]


# --- what a case adds to its folder


def locked(how: int, *names: str) -> Maker:
    """Somebody else has the lock of these files."""

    def make(place: Place) -> None:
        for name in names:
            held = place.undo.enter_context(open(place.room / name, "rb"))
            fcntl.flock(held, how)

    return make


def same_file(place: Place) -> None:
    os.link(place.room / "a.img", place.room / "same.img")


def in_other_hands(*modes: tuple[str, int]) -> Maker:
    """Files that everybody may write, and some with these modes."""
    return all_of(*(mode(name, bits) for name, bits in {"a.img": 0o666, "b.img": 0o666, **dict(modes)}.items()))


# --- what happens while the program runs


def shrink(size: int, *names: str) -> Doer:
    """These images are made shorter while the recording waits for more of its input."""

    def act(place: Place, run: Run) -> None:
        run.feed(word_at(0, 5) + word_at(4_000_000, 7))
        run.says(text_of(acks(NEXT, NEXT + 6)))
        for name in names:
            os.truncate(place.room / name, size)
        run.feed(end_at(8_000_000))

    return act


def shrink_in_turn(place: Place, run: Run) -> None:
    """First the second image is made shorter, and later the first."""
    run.feed(word_at(0, 5) + word_at(4_000_000, 7))
    run.says(text_of(acks(NEXT, NEXT + 6)))
    os.truncate(place.room / "b.img", 700)
    run.feed(word_at(8_000_000, 5))
    run.says(text_of([*acks(NEXT, NEXT + 6), why("b.img", SHORTER), SECOND, *acks(NEXT + 7, AFTER)]))
    os.truncate(place.room / "a.img", 700)
    run.feed(end_at(12_000_000))


def others_come(place: Place, run: Run) -> None:
    """While both images are recorded in, all else that opens one is refused."""
    run.says(text_of(acks(NEXT, NEXT)))
    for name in ("a.img", "b.img"):
        for words in (["record", "t1.csv", name], ["recover", name], ["list", "t1.csv", name]):
            place.expect(words, OF_FDR, lines=[f"fdr: {name}: {HELD}"], program=place.beside("fdr"), given=TRACE)
    place.expect(RECORD, DISK_FAULT, lines=[why("a.img", HELD), FIRST, why("b.img", HELD), SECOND], given=TRACE)
    run.feed(TRACE)


def is_killed(place: Place, run: Run) -> None:
    run.says(text_of(acks(NEXT, NEXT)))
    run.child.kill()
    run.child.wait()
    place.expect(RECORD, DONE, lines=acks(NEXT, AFTER), given=TRACE)


def images_get(change: Callable[[pathlib.Path], object]) -> Doer:
    def act(place: Place, run: Run) -> None:
        run.says(text_of(acks(NEXT, NEXT)))
        for name in ("a.img", "b.img"):
            change(place.room / name)
        run.feed(TRACE)

    return act


def acks_come(place: Place, run: Run) -> None:
    """Acknowledgements come while the input stays open, and both images have what was acknowledged."""
    for record, last, bits in ((word_at(0, 5), NEXT, b""), (word_at(4_000_000, 7), NEXT + 6, SIXTH), (end_at(8_000_000), AFTER, BITS)):
        is_interrupted(run)
        run.feed(record)
        run.says(text_of(acks(NEXT, last)))
        for name in ("a.img", "b.img"):
            if (place.room / name).read_bytes() != recorded(IMAGE, bits):
                raise Mismatch(f"{name} hasn't what was acknowledged by ack {last}")


# --- the cases


def one_fails(what: str, name: str, cause: str, **how: Any) -> Iterator[Case]:
    """Either image is this, which is a fault of its disk for this cause: the recording goes on with the other."""
    told = why(name, cause)
    words = ["record", "t1.csv", name, "b.img"]
    yield Case(f"the first image is {what}", DONE, [told, FIRST, *acks(NEXT, AFTER)], words, changes={"b.img": AGAIN}, **how)
    words = ["record", "t1.csv", "a.img", name]
    yield Case(f"the second image is {what}", DONE, [told, SECOND, *acks(NEXT, AFTER)], words, changes={"a.img": AGAIN}, **how)
    words = ["record", "t1.csv", name, name]
    yield Case(f"both images are {what}", DISK_FAULT, [told, FIRST, told, SECOND], words, **how)


def one_is_refused(what: str, fault: str, image: bytes) -> Iterator[Case]:
    """Either image has these bytes, for which it is refused, also where the other disk failed."""
    yield Case(f"the first image is {what}", refused("first", fault), makes=images(image, IMAGE))
    yield Case(f"the second image is {what}", refused("second", fault), makes=images(IMAGE, image))
    yield Case(f"both images are {what}", refused("first", fault), makes=images(image, image))
    words = ["record", "t1.csv", "folder", "b.img"]
    failed = all_of(images(IMAGE, image), subfolder)
    yield Case(f"the second image is {what}, and the first disk failed", refused("second", fault), [why("folder", A_FOLDER), FIRST], words, makes=failed)
    words = ["record", "t1.csv", "a.img", "folder"]
    failed = all_of(images(image, IMAGE), subfolder)
    yield Case(f"the first image is {what}, and the second disk failed", refused("first", fault), [why("folder", A_FOLDER), SECOND], words, makes=failed)


def word_cases() -> Iterator[Case]:
    refused_words: dict[str, Words] = {
        "no words": [],
        "a command alone": ["record"],
        "a word too few": RECORD[:3],
        "a word too many": [*RECORD, "c.img"],
        "another command": ["list", *RECORD[1:]],
        "a command in capitals": ["RECORD", *RECORD[1:]],
        "an empty command": ["", *RECORD[1:]],
        "an empty table": ["record", "", "a.img", "b.img"],
        "an empty first image": ["record", "t1.csv", "", "b.img"],
        "an empty second image": ["record", "t1.csv", "a.img", ""],
        "an option": [*RECORD, "--slots"],
        "an option for the command": ["--help", *RECORD[1:]],
        "an option for the table": ["record", "-t", "a.img", "b.img"],
        "a dash for the first image": ["record", "t1.csv", "-", "b.img"],
        "two dashes for the second image": ["record", "t1.csv", "a.img", "--"],
        "a table that isn't text": ["record", b"\xff.csv", "a.img", "b.img"],
        "an image that isn't text": ["record", "t1.csv", "a.img", b"b\xc0\x80.img"],
        "a hundred thousand words": ["record"] + ["t"] * 100_000,
        "a command of 130,000 bytes": ["r" * 130_000, *RECORD[1:]],
    }
    for what, words in refused_words.items():
        yield Case(what, USAGE, words=words)


def start_cases() -> Iterator[Case]:
    yield goes_on("both are empty rings", EMPTY, EMPTY)
    yield goes_on("both have the same blocks", IMAGE, IMAGE)
    yield goes_on("both went round", AGAIN, AGAIN)
    yield goes_on("the second has no block yet", IMAGE, EMPTY)
    yield goes_on("the first has no block yet", EMPTY, IMAGE)
    yield goes_on("the second is behind by a block", longer(IMAGE, 1), IMAGE)
    yield goes_on("the first is behind by a recording", IMAGE, AGAIN)
    yield goes_on("the second is behind by two sessions", longer(longer(IMAGE, 7), 8), IMAGE)
    yield goes_on("the second is behind by as many as the first has", longer(IMAGE, 15), IMAGE)
    yield goes_on("the first is behind by as many as the second has", IMAGE, longer(IMAGE, 15))
    yield goes_on("the second is behind, and nothing is recorded", AGAIN, IMAGE, b"", given=end_at(0))
    yield goes_on("one session follows the greatest", with_last(20, SESSIONS - 1), with_last(20, SESSIONS - 1))
    cut = altered(IMAGE, slot_at(shape_of(IMAGE), 3))
    yield goes_on("the second lost a block in the middle", IMAGE, cut)
    yield goes_on("the first lost its last block", altered(IMAGE, slot_at(shape_of(IMAGE), NEXT - 1)), IMAGE)
    yield Case("the second is too far behind", far_behind("second"), makes=images(longer(IMAGE, 16), IMAGE))
    yield Case("the first is too far behind", far_behind("first"), makes=images(IMAGE, longer(IMAGE, 16)))
    yield Case("the second is empty, and the first went round", far_behind("second"), makes=images(AGAIN, EMPTY))
    yield Case("the other side is too far behind, and its disk failed", DONE, [why("b.img", HELD), SECOND, *acks(28, 40)],
               makes=all_of(images(longer(IMAGE, 16), IMAGE), locked(fcntl.LOCK_EX, "b.img")), changes={"a.img": recorded(longer(IMAGE, 16), BITS)})
    last = with_last(NUMBERS - 3)
    yield Case("two numbers are left", USED_UP, acks(NUMBERS - 2, NUMBERS), makes=images(last, last),
               changes={"a.img": longer(last, 2), "b.img": longer(last, 2)})
    yield Case("no number is left", USED_UP, acks(NUMBERS, NUMBERS), makes=images(*[with_last(NUMBERS - 1)] * 2))
    yield Case("the trace is cut", CUT, acks(NEXT, NEXT + 6), given=TRACE[:47], changes=dict.fromkeys(WHOLE, recorded(IMAGE, SIXTH)))


def refusal_cases() -> Iterator[Case]:
    yield from one_is_refused("an empty file", "too small", b"")
    yield from one_is_refused("a file of 63 bytes", "too small", IMAGE[:63])
    yield from one_is_refused("shorter than its header says", "shorter than its ring", IMAGE[:-1])
    yield from one_is_refused("without a header", "header closed", bytes(HEADER.size) + IMAGE[HEADER.size :])
    words = ["record", "t1.csv", "none.img", "b.img"]
    yield Case("the first image isn't there", refused("first", "too small"), [why("none.img", NO_FILE)], words)
    words = ["record", "t1.csv", "a.img", "none.img"]
    yield Case("the second image isn't there", refused("second", "too small"), [why("none.img", NO_FILE)], words)
    words = ["record", "t1.csv", "none.img", "none.img"]
    yield Case("neither image is there", refused("first", "too small"), [why("none.img", NO_FILE)] * 2, words)
    words = ["record", "t1.csv", "a.img", "none/b.img"]
    yield Case("the second image's folder isn't there", refused("second", "too small"), [why("none/b.img", NO_FILE)], words)
    words = ["record", "t1.csv", "a.img", "t1.csv"]
    yield Case("the second image is the table", refused("second", "header closed"), words=words)

    for what, other in {
        "slots": empty_image(8, 64),
        "payload": empty_image(16, 65),
        "words": empty_image(16, 64, words=128),
        "version": empty_image(16, 64, version=VERSION_1),
    }.items():
        yield Case(f"they differ in {what}", HEADERS_DIFFER, makes=images(EMPTY, other))
        yield Case(f"they differ in {what}, the other way round", HEADERS_DIFFER, makes=images(other, EMPTY))
    wide = empty_image(16, 64, words=128)
    yield Case("both are for other frames", OTHER_WORDS, makes=images(wide, wide))
    old_and_wide = empty_image(16, 64, words=128, version=VERSION_1)
    yield Case("both are of version 1 and for other frames", OTHER_WORDS, makes=images(old_and_wide, old_and_wide))
    failed: How = {"words": ["record", "t1.csv", "folder", "b.img"], "lines": [why("folder", A_FOLDER), FIRST]}
    yield Case("the second is for other frames, and the first disk failed", OTHER_WORDS, makes=all_of(images(IMAGE, wide), subfolder), **failed)
    old = recorded(empty_image(16, 64, version=VERSION_1), BITS)
    yield Case("both are of version 1", OLD_VERSION, makes=images(old, old))
    yield Case("the second is of version 1, and the first disk failed", OLD_VERSION, makes=all_of(images(IMAGE, old), subfolder), **failed)

    shape = shape_of(IMAGE)
    for number in (0, 5, NEXT - 1):
        changed = altered(IMAGE, slot_at(shape, number) + HEAD.size + 63)
        yield Case(f"block {number} differs in a byte", differs(number), makes=images(IMAGE, changed))
    session = altered(IMAGE, slot_at(shape, 7) + 7)
    yield Case("block 7 differs in its session", differs(7), makes=images(session, IMAGE))
    yield Case("a block differs in its length", differs(NEXT), makes=images(longer(IMAGE, 2), recorded(IMAGE, BITS[:32])))
    yield Case("blocks 3 and 9 differ", differs(3), makes=images(IMAGE, altered(altered(IMAGE, slot_at(shape, 9) + HEAD.size), slot_at(shape, 3) + HEAD.size)))
    yield Case("each was recorded in alone", differs(NEXT), makes=images(longer(IMAGE, 3), recorded(IMAGE, t1_frame(1, 5))))
    # Rings that went round: no block that both still have shows that each side went on alone.
    six, round_once, round_twice = (recorded(IMAGE, bits) for bits in (t1_frame(2, 5), NINES[: 21 * 64], NINES[: 30 * 64]))
    yield goes_on("each was recorded in alone, and the one block that both still have is equal", six, round_once)
    yield Case("each was recorded in alone, and they have no number in common", far_behind("first"), makes=images(six, round_twice))
    yield Case("one was upgraded and the other made anew", differs(0), makes=images(upgraded(old), IMAGE))
    far = altered(longer(IMAGE, 15), slot_at(shape, NEXT) + HEAD.size)
    yield Case("they differ in the last block of one", differs(NEXT), makes=images(far, longer(IMAGE, 1)))


def fault_cases() -> Iterator[Case]:
    yield from one_fails("a folder", "folder", A_FOLDER, makes=subfolder)
    yield from one_fails("/dev/null", "/dev/null", NOT_A_FILE)
    yield from one_fails("/dev/zero", "/dev/zero", NOT_A_FILE)
    yield from one_fails("a named pipe", "pipe", NOT_A_FILE, makes=held_pipe)
    yield from one_fails("a socket", "socket", NOT_A_FILE, makes=bound_socket)
    yield from one_fails("a block device", "device", NOT_A_FILE, makes=block_device)
    yield from one_fails("a link to no file", "link", NO_FILE, makes=link("none.img"))
    yield from one_fails("a link to itself", "link", OTHER_ERROR, makes=link("link"))
    yield from one_fails("a name of 256 bytes", "i" * 256, OTHER_ERROR)
    yield from one_fails("in a closed folder", "folder/a.img", NO_PERMISSION, makes=all_of(in_other_hands(), closed_subfolder), user=NOBODY)

    for bits, what in ((0o000, "may not be read"), (0o444, "may not be written")):
        of_first, of_second = why("a.img", NO_PERMISSION), why("b.img", NO_PERMISSION)
        of_both: How = {"user": NOBODY, "makes": in_other_hands(("a.img", bits))}
        yield Case(f"the first image {what}", DONE, [of_first, FIRST, *acks(NEXT, AFTER)], changes={"b.img": AGAIN}, **of_both)
        of_both = {"user": NOBODY, "makes": in_other_hands(("b.img", bits))}
        yield Case(f"the second image {what}", DONE, [of_second, SECOND, *acks(NEXT, AFTER)], changes={"a.img": AGAIN}, **of_both)
        of_both = {"user": NOBODY, "makes": in_other_hands(("a.img", bits), ("b.img", bits))}
        yield Case(f"both images: {what}", DISK_FAULT, [of_first, FIRST, of_second, SECOND], **of_both)

    for how, what in ((fcntl.LOCK_EX, "recorded in"), (fcntl.LOCK_SH, "read")):
        of_first, of_second = why("a.img", HELD), why("b.img", HELD)
        held: How = {"makes": locked(how, "a.img"), "changes": {"b.img": AGAIN}}
        yield Case(f"the first image is {what} by another", DONE, [of_first, FIRST, *acks(NEXT, AFTER)], **held)
        held = {"makes": locked(how, "b.img"), "changes": {"a.img": AGAIN}}
        yield Case(f"the second image is {what} by another", DONE, [of_second, SECOND, *acks(NEXT, AFTER)], **held)
        both = locked(how, "a.img", "b.img")
        yield Case(f"both images are {what} by another", DISK_FAULT, [of_first, FIRST, of_second, SECOND], makes=both)

    once: dict[str, tuple[str, Maker | None]] = {
        "the same image twice": ("a.img", None),
        "the same image by another path": ("./a.img", None),
        "the same image by a link": ("link", link("a.img")),
        "the same image by another name": ("same.img", same_file),
    }
    for what, (name, makes) in once.items():
        told = [why(name, HELD), SECOND, *acks(NEXT, AFTER)]
        changes = dict.fromkeys(["a.img", "same.img"] if makes is same_file else ["a.img"], AGAIN)
        yield Case(what, DONE, told, ["record", "t1.csv", "a.img", name], makes=makes, changes=changes)
    yield Case("links to both images", DONE, acks(NEXT, AFTER), ["record", "t1.csv", "link", "b.img"], makes=link("a.img"), changes=WHOLE)


def meanwhile_cases() -> Iterator[Case]:
    cut = recorded(IMAGE, SIXTH)[:700]
    lost: How = {"given": PIPE, "does": shrink(700, "b.img"), "changes": {"a.img": AGAIN, "b.img": cut}}
    yield Case("the second image is shrunk", DONE, [*acks(NEXT, NEXT + 6), why("b.img", SHORTER), SECOND, *acks(NEXT + 7, AFTER)], **lost)
    lost = {"given": PIPE, "does": shrink(700, "a.img"), "changes": {"a.img": cut, "b.img": AGAIN}}
    yield Case("the first image is shrunk", DONE, [*acks(NEXT, NEXT + 6), why("a.img", SHORTER), FIRST, *acks(NEXT + 7, AFTER)], **lost)
    lost = {"given": PIPE, "does": shrink(0, "a.img"), "changes": {"a.img": b"", "b.img": AGAIN}}
    yield Case("the first image is emptied", DONE, [*acks(NEXT, NEXT + 6), why("a.img", SHORTER), FIRST, *acks(NEXT + 7, AFTER)], **lost)
    lost = {"given": PIPE, "does": shrink(700, "a.img", "b.img"), "changes": {"a.img": cut, "b.img": cut}}
    of_first, of_second = [why("a.img", SHORTER), FIRST], [why("b.img", SHORTER), SECOND]
    yield Case("both images are shrunk", DISK_FAULT, [*acks(NEXT, NEXT + 6), *of_first, *of_second], **lost)
    lines = [*acks(NEXT, NEXT + 6), *of_second, *acks(NEXT + 7, AFTER), *of_first]
    lost = {"given": PIPE, "does": shrink_in_turn, "changes": {"a.img": AGAIN[:700], "b.img": cut}}
    yield Case("one image is shrunk after the other", DISK_FAULT, lines, **lost)
    whole: How = {"lines": acks(NEXT, AFTER), "given": PIPE}
    yield Case("acknowledgements come", DONE, does=acks_come, changes=WHOLE, **whole)
    yield Case("others come", DONE, does=others_come, changes=WHOLE, **whole)
    yield Case("killed, and recorded again", KILLED, acks(NEXT, NEXT), given=PIPE, does=is_killed, changes=WHOLE)
    rename = images_get(lambda path: path.rename(path.with_name("c" + path.name)))
    renamed = {"a.img": None, "b.img": None, "ca.img": AGAIN, "cb.img": AGAIN}
    yield Case("both images are renamed", DONE, does=rename, changes=renamed, **whole)
    unlink = images_get(lambda path: path.unlink())
    yield Case("the names of both images are removed", DONE, does=unlink, changes={"a.img": None, "b.img": None}, **whole)


def stream_cases() -> Iterator[Case]:
    for stream, how in ((CLOSED, "closed"), (FULL, "full"), (GONE, "without a reader")):
        yield Case(f"standard error {how}", DONE, changes=WHOLE, err=stream)
        words = ["record", "t1.csv", "a.img", "folder"]
        yield Case(f"standard error {how}, and the second disk fails", DONE, words=words, makes=subfolder, changes={"a.img": AGAIN}, err=stream)
        yield Case(f"standard error {how}, and the words are refused", USAGE, words=RECORD[:3], err=stream)
        yield Case(f"standard output {how}", DONE, acks(NEXT, AFTER), changes=WHOLE, out=stream)
    yield Case("standard output open for reading alone", DONE, acks(NEXT, AFTER), changes=WHOLE, out=READ_ONLY)
    inputs: dict[str, tuple[Stream, str]] = {
        "closed": (CLOSED, OTHER_ERROR),
        "open for writing alone": (WRITE_ONLY, OTHER_ERROR),
        "a folder": (FOLDER, A_FOLDER),
        "an empty pipe that doesn't wait": (empty_pipe, NOT_READY),
    }
    for how, (stream, cause) in inputs.items():
        yield Case(f"input {how}", NO_INPUT, [*acks(NEXT, NEXT), why("standard input", cause)], given=stream)
    yield Case("input /dev/null", TRUNCATED, acks(NEXT, NEXT), given=NOTHING)
    yield Case("input without end", BAD_KIND, acks(NEXT, NEXT), given=ZEROS)
    yield Case("all streams closed", NO_INPUT, given=CLOSED, out=CLOSED, err=CLOSED)


def table_cases() -> Iterator[Case]:
    tables: dict[str, tuple[Answer, list[str]]] = {
        "none.csv": (NO_TABLE, [why("none.csv", NO_FILE)]),
        "folder": (NO_TABLE, [why("folder", A_FOLDER)]),
        "/dev/null": (NO_FRAME, []),
        "/dev/zero": (TOO_LARGE, []),
    }
    for name, (answer, told) in tables.items():
        yield Case(f"the table is {name}", answer, told, ["record", name, "a.img", "b.img"], makes=subfolder)
        # The disks weren't asked for anything, so that no fault is said.
        yield Case(f"the table is {name}, and no image is good", answer, told, ["record", name, "folder", "none.img"], makes=subfolder)
    may_not: How = {"makes": all_of(in_other_hands(), mode("t1.csv", 0o000)), "user": NOBODY}
    yield Case("the table may not be read", NO_TABLE, [why("t1.csv", NO_PERMISSION)], **may_not)
    yield Case("the table is /dev/stdin", BAD_KIND, acks(NEXT, NEXT), ["record", "/dev/stdin", "a.img", "b.img"], given=T1)


def limit_cases() -> Iterator[Case]:
    five = dict.fromkeys(WHOLE, recorded(EMPTY, BITS[:320]))
    only: How = {"makes": images(EMPTY, EMPTY), "changes": five, **size_limit(slot_at(shape_of(EMPTY), 5))}
    too_large = [why("a.img", TOO_LARGE_FILE), FIRST, why("b.img", TOO_LARGE_FILE), SECOND]
    # A limit of the size of files ends a run by a signal, where that isn't ignored.
    yield Case("at a limit of size", DISK_FAULT, [*acks(0, 5), *too_large], ignores=signal.SIGXFSZ, **only)
    yield Case("ended at a limit of size", PAST_SIZE, acks(0, 5), **only)
    of_first, of_second = why("a.img", OTHER_ERROR), why("b.img", OTHER_ERROR)
    # Its table and both images take a descriptor each, and so does the folder of each.
    yield Case("as few descriptors as it needs", DONE, acks(NEXT, AFTER), changes=WHOLE, **few_files(8))
    told = [of_second, SECOND, *acks(NEXT, AFTER)]
    yield Case("no descriptor for the second folder", DONE, told, changes={"a.img": AGAIN}, **few_files(7))
    yield Case("no descriptor for a folder", DISK_FAULT, [of_first, FIRST, of_second, SECOND], **few_files(6))
    yield Case("no descriptor for the second image", DISK_FAULT, [of_second, SECOND, of_first, FIRST], **few_files(5))
    yield Case("no descriptor for an image", DISK_FAULT, [of_first, FIRST, of_second, SECOND], **few_files(4))


def memory_cases() -> Iterator[Case]:
    yield Case("on both", DONE, acks(NEXT, AFTER), changes=WHOLE)
    large = all_of(file("large.csv", largest_table()), images(*[empty_image(16, 64, words=1024)] * 2))
    yield Case("by the largest table", DONE, acks(0, 0), ["record", "large.csv", "a.img", "b.img"], makes=large, given=end_at(0))


def mount_cases() -> Iterator[Case]:
    """Cases with an image on a file system in memory with room for 65,536 bytes, or on one that may only be read."""
    small = mounted(65536)
    on_second, on_first = ["record", "t1.csv", "a.img", "small/b.img"], ["record", "t1.csv", "small/b.img", "a.img"]
    both: How = {"changes": {"a.img": AGAIN, "small/b.img": AGAIN}}
    taken = all_of(small, file("small/b.img", IMAGE), filled)
    yield Case("no room is left for the second", DONE, acks(NEXT, AFTER), on_second, makes=taken, **both)
    # The first write, of a block's head and bytes after its gate, ends where the first page ends.
    large, begin = empty_image(64, 4096), HEADER.size + 1
    torn = large[:begin] + recorded(large, FIVES[:4096])[begin:PAGE] + large[PAGE:]
    holes = all_of(file("a.img", large), small, sparse_image("small/b.img", large), filled)
    given = word_at(0, 5) + end_at(43_000_000)
    lacking: How = {"makes": holes, "given": given, "changes": {"a.img": recorded(large, FIVES[:4128]), "small/b.img": torn}}
    no_room = why("small/b.img", NO_ROOM)
    yield Case("no room for the second, with holes", DONE, ["ack 0", no_room, SECOND, *acks(1, 2)], on_second, **lacking)
    yield Case("no room for the first, with holes", DONE, ["ack 0", no_room, FIRST, *acks(1, 2)], on_first, **lacking)
    lead = recorded(large, FIVES[:4128])
    holes = all_of(file("a.img", lead), small, sparse_image("small/b.img", large), filled)
    lacking = {"makes": holes, "given": given, "changes": {"a.img": recorded(lead, FIVES[:4128]), "small/b.img": torn}}
    yield Case("no room to bring up the second", DONE, [no_room, SECOND, *acks(2, 4)], on_second, **lacking)
    yield Case("no room to bring up the first", DONE, [no_room, FIRST, *acks(2, 4)], on_first, **lacking)
    read_only = all_of(small, file("small/b.img", IMAGE), made_read_only)
    one: How = {"makes": read_only, "changes": {"a.img": AGAIN}}
    may_not = why("small/b.img", READ_ONLY_SYSTEM)
    yield Case("the second's file system may only be read", DONE, [may_not, SECOND, *acks(NEXT, AFTER)], on_second, **one)
    yield Case("the first's file system may only be read", DONE, [may_not, FIRST, *acks(NEXT, AFTER)], on_first, **one)


def all_cases() -> Iterator[Case | InLittleMemory]:
    yield from word_cases()
    yield from start_cases()
    yield from refusal_cases()
    yield from fault_cases()
    yield from meanwhile_cases()
    yield from stream_cases()
    yield from table_cases()
    yield from limit_cases()
    yield from map(InLittleMemory, memory_cases())
    yield from mount_cases()
