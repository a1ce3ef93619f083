"""Images of a recorder, as docs/FORMATS.md has them, made of files of bits that were recorded elsewhere."""

from __future__ import annotations

import contextlib
import hashlib
import struct
from dataclasses import dataclass
from typing import BinaryIO, Sequence

from .faults import Fault
from .lines import Stored, stored

HEADER = struct.Struct(">BB6sIII44x")  # gate, version, letters, slots, payload, words; the rest is zero
HEAD = struct.Struct(">BxHIQ")  # gate, length, session, number
OPEN, VERSION, LETTERS = 0x5A, 0xA5, b"FDR717"
PAYLOAD = 4096
LEAST_SLOTS, MOST_SLOTS = 4, 65_536
MOST_BYTES = PAYLOAD * MOST_SLOTS
EMPTY_SLOT = bytes(HEAD.size + PAYLOAD)


@dataclass(frozen=True)
class Session:
    """A file of bits as a session of an image: its number, its first block, its length and its sum."""

    path: str
    session: int
    first: int
    size: int
    sum: str


def write_image(paths: Sequence[str], words: int, out: BinaryIO) -> list[Session]:
    """Writes an image whose sessions are these files of bits, in their order, and answers what each became."""
    if paths.count("-") > 1:
        raise Fault("standard input can be one session alone")
    with contextlib.ExitStack() as stack:
        files = [stack.enter_context(stored(path)) for path in paths]
        blocks = [-(-file.size // PAYLOAD) for file in files]
        for path, count in zip(paths, blocks):
            if not count:
                raise Fault(f"{path}: it has no bits, and a session has a block")
        if sum(blocks) > MOST_SLOTS:
            size = sum(file.size for file in files)
            raise Fault(
                f"the bits are {size:,} bytes, {sum(blocks):,} blocks of {PAYLOAD:,}, and an image has up to "
                f"{MOST_SLOTS:,} of them, which are {MOST_BYTES:,} bytes; make several images"
            )
        slots = max(LEAST_SLOTS, sum(blocks))
        out.write(HEADER.pack(OPEN, VERSION, LETTERS, slots, PAYLOAD, words))
        sessions, number = [], 0
        for place, (path, file) in enumerate(zip(paths, files)):
            total = _write_session(file, place + 1, number, out)
            sessions.append(Session(path, place + 1, number, file.size, total))
            number += blocks[place]
        out.write(EMPTY_SLOT * (slots - number))
    return sessions


def _write_session(file: Stored, session: int, number: int, out: BinaryIO) -> str:
    """Writes the blocks of a file, and answers its sum."""
    total = hashlib.sha256()
    for at in range(0, file.size, PAYLOAD):
        block = file.read(at, at + PAYLOAD).tobytes()
        total.update(block)
        out.write(HEAD.pack(OPEN, len(block), session, number) + block + bytes(PAYLOAD - len(block)))
        number += 1
    return total.hexdigest()
