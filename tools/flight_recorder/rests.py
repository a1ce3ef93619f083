"""What the statements of a report rest on: what is proved of the program, what is only tested, what is trusted."""

from __future__ import annotations

from dataclasses import dataclass

PROVED, TESTED, TRUSTED = "proved of fdr", "only tested", "trusted"


@dataclass(frozen=True)
class Statement:
    """A statement, how it is known, and where that is said."""

    what: str
    by: str
    where: str


COMMON = [
    Statement("check.txt is the report of the table, and no two of its places share a bit", PROVED, "check.text, table.sound"),
    Statement("exceed.txt has the exceedances of the rules in the rows of the newest run, and nothing else", PROVED, "exceed.text"),
    Statement("times, places in bits, what is missing, and the values as tables and curves", TESTED, "FLIGHT_TOOLS.md"),
    Statement("how long each rule was watched", TESTED, "FLIGHT_TOOLS.md"),
    Statement("that the program is the proved one: compare its SHA-256 with that of your own build", TRUSTED, "README.md, Install"),
    Statement("the toolchain, the C library, the system, and what files hold between calls", TRUSTED, "GUARANTEES.md, What is trusted"),
]
OF_IMAGE = [
    Statement("salvage.txt lists every run of blocks of the image, so no valid block is left out", PROVED, "salvage.text; the law salvage_loses_nothing"),
    Statement("listing.txt lists the newest unbroken run of blocks", PROVED, "list.text"),
    Statement("recovered.bin has the bytes of these blocks", PROVED, "recover.all"),
    Statement("fdr salvage, list, recover and exceed only look at the image", PROVED, "salvage.looks, recover.looks, exceed.disk; seen here by sums and times"),
    Statement("ack N says that all blocks below N were durable", PROVED, "record.moments, for the disks of GUARANTEES.md"),
    Statement("the numbers of frames, how the recording ends, why a slot holds no block, and exceedances of runs.img's making", TESTED, "FLIGHT_TOOLS.md"),
]
OF_BITS = [
    Statement("listing.txt is the listing of all bits, and nothing else", PROVED, "listbits.lists.whole"),
    Statement("no row joins parts over a gap or over a counter that doesn't go on by one", PROVED, "the listing clause"),
    Statement("dump.img has the bits, and nothing else", TESTED, "READOUT.md"),
    Statement("the numbers of frames, and how the bits end", TESTED, "FLIGHT_TOOLS.md"),
]
NOT_SAID = (
    "Each promise has its name in GUARANTEES.md or COMMANDS.md. A promise on contents is of the bytes that the program read.",
    "A frame whose four sync words stand is listed, whatever is between them. There is no checksum in an image or in a frame.",
    "Neither an image nor bits say by which table they were recorded: values are promised by the recording's own.",
)


def statements(is_image: bool) -> list[Statement]:
    """The statements of a report."""
    return (OF_IMAGE if is_image else OF_BITS) + COMMON
