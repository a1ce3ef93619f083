"""The formats of docs/FORMATS.md, made and read without the program: bits of frames, traces, and images.

The scripts of tests/, bench/ and examples/ have them from here, so each layout of bytes is in one place.
"""

import struct
from collections.abc import Iterable, Mapping, Sequence
from typing import NamedTuple

SYNCS = [0x247, 0x5B8, 0xA47, 0xDB8]

RECORD = struct.Struct(">BBHIQ")  # kind, bus, zero, the bus word, the time
BUS_WORD, END = 1, 2

HEADER = struct.Struct(">BB6sIII44x")  # gate, version, letters, slots, payload, words; the rest is zero
HEAD = struct.Struct(">BxHIQ")  # gate, length, session, number
OPEN, CLOSED = 0x5A, 0x00
VERSION_1, VERSION_2 = 0x00, 0xA5  # the bytes; any other byte is version 1 too
LETTERS = b"FDR717"
NUMBERS = 1 << 48  # a block's number is below this
SESSIONS = 1 << 32  # a session is below this


class Shape(NamedTuple):
    """What the header of an image says."""

    slots: int
    payload: int
    words: int


class Head(NamedTuple):
    """What the head of a slot says."""

    gate: int
    length: int
    session: int
    number: int


class Block(NamedTuple):
    """A block of an image."""

    number: int
    session: int
    payload: bytes


# --- bits


def bits_of(bytes_given: Iterable[int]) -> list[int]:
    """The bits of bytes, the least significant of each byte first."""
    return [byte >> place & 1 for byte in bytes_given for place in range(8)]


def bytes_of_bits(bits: Sequence[int]) -> bytes:
    """Bits or levels as bytes, eight in each; zeros fill the last one."""
    made = bytearray((len(bits) + 7) // 8)
    for place, bit in enumerate(bits):
        made[place // 8] |= bit << place % 8
    return bytes(made)


def levels_of(bits: Iterable[int]) -> list[int]:
    """The Harvard biphase levels of bits, after a low level: two for each bit."""
    level = 0
    levels: list[int] = []
    for bit in bits:
        begin = 1 - level
        level = 1 - begin if bit else begin
        levels += [begin, level]
    return levels


def packed(words: Sequence[int]) -> bytes:
    """An even number of words of 12 bits as bytes, two in three."""
    pairs = zip(words[0::2], words[1::2])
    return b"".join((first | second << 12).to_bytes(3, "little") for first, second in pairs)


def put_word(line: bytearray, place: int, word: int) -> None:
    """Puts a word in place of a zero one into bytes that begin with a word. Places are counted from 0."""
    at, half = divmod(place * 3, 2)
    both = int.from_bytes(line[at : at + 2], "little") | word << 4 * half
    line[at : at + 2] = both.to_bytes(2, "little")


def with_bit(bits: int, place: int, bit: int) -> int:
    """Bits as a number, whose lowest is the first, with one put in before this place."""
    return bits & (1 << place) - 1 | bit << place | bits >> place << place + 1


def frame(fields: Mapping[tuple[int, int], int]) -> bytes:
    """A frame of 64 words a subframe: the sync words, and these values by subframe and word."""
    line = [0] * 256
    line[::64] = SYNCS
    for (subframe, word), value in fields.items():
        line[(subframe - 1) * 64 + word - 1] = value
    return packed(line)


# --- traces


def with_parity(word: int) -> int:
    """A bus word with the bit 32 that makes the number of ones odd."""
    return word | (bin(word).count("1") + 1) % 2 << 31


def bus_word(label: int, value: int, sdi: int = 0, lsb: int = 11) -> int:
    """The bus word of a label with a value from this bit on. The label's most significant bit is bit 1."""
    return with_parity(value << lsb - 1 | sdi << 8 | int(f"{label:08b}"[::-1], 2))


def record_at(time: int, word: int, bus: int = 0) -> bytes:
    """The record of a bus word."""
    return RECORD.pack(BUS_WORD, bus, 0, word, time)


def end_at(time: int) -> bytes:
    """The record of the end of a trace."""
    return RECORD.pack(END, 0, 0, 0, time)


# --- images


def header_of(shape: Shape, version: int = VERSION_2) -> bytes:
    """The header of an image."""
    return HEADER.pack(OPEN, version, LETTERS, *shape)


def shape_of(image: bytes | bytearray) -> Shape:
    """What the header of an image says."""
    return Shape(*HEADER.unpack_from(image)[3:])


def is_version_2(image: bytes | bytearray) -> bool:
    """Whether the header of an image says version 2."""
    return bool(HEADER.unpack_from(image)[1] == VERSION_2)


def head_of(number: int, length: int, session: int = 1, gate: int = OPEN) -> bytes:
    """The head of a slot that has the block of this number."""
    return HEAD.pack(gate, length, session, number)


def head_at(image: bytes | bytearray, at: int) -> Head:
    """The head that begins at this byte of an image."""
    return Head(*HEAD.unpack_from(image, at))


def size_of_slot(shape: Shape) -> int:
    """The bytes of a slot."""
    return HEAD.size + shape.payload


def slot_at(shape: Shape, number: int) -> int:
    """The first byte of the slot in which the block of this number is."""
    return HEADER.size + number % shape.slots * size_of_slot(shape)


def blocks_of(bits: bytes, payload: int) -> list[bytes]:
    """The blocks that a recording makes of its bits."""
    return [bits[at : at + payload] for at in range(0, len(bits), payload)]


def empty_image(slots: int, payload: int, words: int = 64, version: int = VERSION_2) -> bytes:
    """An image without blocks."""
    shape = Shape(slots, payload, words)
    return header_of(shape, version) + bytes(slots * size_of_slot(shape))


def valid_blocks(image: bytes) -> dict[int, Block]:
    """The blocks of the valid slots, by their numbers. In version 1 their session is 0."""
    shape, has_sessions = shape_of(image), is_version_2(image)
    found: dict[int, Block] = {}
    for slot in range(shape.slots):
        at = slot_at(shape, slot)
        head = head_at(image, at)
        is_here = head.number < NUMBERS and head.number % shape.slots == slot
        if head.gate == OPEN and is_here and 1 <= head.length <= shape.payload:
            payload = image[at + HEAD.size : at + HEAD.size + head.length]
            found[head.number] = Block(head.number, head.session if has_sessions else 0, payload)
    return found


def recovered(image: bytes) -> list[Block]:
    """The recovered run: the blocks with consecutive numbers up to the greatest."""
    found = valid_blocks(image)
    run: list[Block] = []
    number = max(found, default=-1)
    while number in found:
        run.append(found[number])
        number -= 1
    return run[::-1]


def next_number(image: bytes) -> int:
    """One more than the greatest number in a valid slot, or 0."""
    return max(valid_blocks(image), default=-1) + 1


def next_session(image: bytes) -> int:
    """The session of a recording in an image: one more than the last block's, or 1; in version 1 it is written as 0."""
    run = recovered(image)
    return (run[-1].session + 1) % SESSIONS if run and is_version_2(image) else int(is_version_2(image))


def with_blocks(image: bytes, blocks: Iterable[tuple[int, bytes]]) -> bytes:
    """The image after these blocks, each with its session: each in its slot, and the gate of the following slot closed."""
    shape, first = shape_of(image), next_number(image)
    made = bytearray(image)

    def close(at: int) -> None:
        if made[at] == OPEN:
            made[at] = CLOSED

    close(slot_at(shape, first))
    for number, (session, block) in enumerate(blocks, first):
        here = slot_at(shape, number)
        made[here + 1 : here + HEAD.size + len(block)] = head_of(number, len(block), session)[1:] + block
        close(slot_at(shape, number + 1))
        made[here] = OPEN
    return bytes(made)


def recorded(image: bytes, bits: bytes) -> bytes:
    """The image after a recording of these bits."""
    session = next_session(image)
    return with_blocks(image, [(session, block) for block in blocks_of(bits, shape_of(image).payload)])


def upgraded(image: bytes) -> bytes:
    """The image with the version byte of version 2: the same blocks, whose sessions are what stood in their place."""
    return image[:1] + bytes([VERSION_2]) + image[2:]
