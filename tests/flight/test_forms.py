"""`flight pack` on each form of a dump: known bytes, pieces and pipes, forms that no dump has."""

import random

import pytest
from conftest import Tool, Write

PACKED = "473212FF0F00"  # the words 247, 123, FFF and 000


@pytest.mark.parametrize(
    "dump, how",
    [
        ("473212FF0F00", ("--packed", "low-first")),
        ("247123FFF000", ("--packed", "high-first")),
        ("A247123FFF000B", ("--packed", "high-first", "--phase", 4)),
        ("B8CDED00F0FF", ("--packed", "low-first", "--invert")),
        ("E24C48FFF000", ("--packed", "low-first", "--reverse")),
        ("248EC4FF0F00", ("--packed", "high-first", "--reverse")),
        ("3247FF12000F", ("--packed", "low-first", "--swap")),
        ("00F0FF484CE2", ("--packed", "low-first", "--backwards")),
        ("AABB473212FF0F00", ("--packed", "low-first", "--skip", 2)),
        ("AA4732BB12FFCC0F00", ("--packed", "low-first", "--block", 3, "--head", 1)),
        ("AA4732EEBB12FFEECC0F00", ("--packed", "low-first", "--block", 4, "--head", 1, "--tail", 1)),
        ("DDAA4732BB12FFCC0F00", ("--packed", "low-first", "--skip", 1, "--block", 3, "--head", 1)),
        ("FF0F00473212", ("--packed", "low-first", "--rotate", 24)),
        ("F1FF00702423", ("--packed", "low-first", "--rotate", 28)),
        ("FFF000247123", ("--packed", "high-first", "--rotate", 24)),
        ("47022301FF0F0000", ("--order", "little")),
        ("FF0F000047022301", ("--rotate", 32)),
        ("AA47022301FF0F0000", ("--phase", 8)),
        ("B8FDDCFE00F0FFFF", ("--invert",)),
        ("0247F1232FFF3000", ("--order", "big", "--ignore-spare")),
        ("0247F1232FFF300055", ("--order", "big", "--ignore-spare")),
    ],
)
def test_four_words(flight: Tool, write: Write, dump: str, how: tuple[str, ...]) -> None:
    assert flight("pack", write("dump", bytes.fromhex(dump)), *how) == (0, bytes.fromhex(PACKED), "")


UNITS_AND_PACKED = "--packed is of words without bits between them, --order and --align of words in units of 16 bits"
LOW_FIRST_PHASE = "--phase is that of units and of --packed high-first; low-first words are found at any bit"


@pytest.mark.parametrize(
    "how, fault",
    [
        (("--block", 4, "--head", 4), "--block 4 has no bytes beside its head and its tail"),
        (("--head", 4), "--head and --tail are those of a --block"),
        (("--rotate", 4), "--rotate and --phase of units are at whole bytes: multiples of 8"),
        (("--packed", "low-first", "--phase", 4), LOW_FIRST_PHASE),
        (("--packed", "low-first", "--ignore-spare"), "--ignore-spare is of units; packed words have no spare bits"),
        (("--packed", "low-first", "--order", "big"), UNITS_AND_PACKED),
    ],
)
def test_forms_that_no_dump_has(flight: Tool, write: Write, how: tuple[str, ...], fault: str) -> None:
    assert flight("pack", write("dump", b"1234"), *how) == (1, b"", f"flight: {fault}\n")


def test_a_number_below_zero(flight: Tool, write: Write) -> None:
    assert flight("pack", write("dump", b""), "--skip", "-3").status == 2


TURNED = bytes(int(f"{byte:08b}"[::-1], 2) for byte in range(256))
LENGTH = (3 << 19) + 7  # more than one piece


@pytest.fixture(scope="module")
def data() -> bytes:
    """Any bytes."""
    return random.Random(5).randbytes(LENGTH)


def digits(data: bytes) -> str:
    """The bits of bytes, the lowest of each byte first."""
    return f"{int.from_bytes(data, 'little'):0{8 * len(data)}b}"[::-1]


def bytes_of(bits: str) -> bytes:
    """Bytes with these bits."""
    return int(bits[::-1], 2).to_bytes(-(-len(bits) // 8), "little")


def test_a_rotation_over_pieces(flight: Tool, piped: Tool, write: Write, data: bytes) -> None:
    bits = digits(data)
    how = ("--packed", "low-first", "--rotate", 8003)
    wanted = bytes_of(bits[8003:] + bits[:8003])
    assert flight("pack", write("dump", data), *how).out == wanted
    assert piped("pack", "-", *how, given=data).out == wanted


def test_blocks_over_pieces(flight: Tool, write: Write, data: bytes) -> None:
    blocks = b"".join(b"HEAD" + data[at : at + 1001] for at in range(0, len(data), 1001))
    assert flight("pack", write("dump", blocks), "--packed", "low-first", "--block", 1005, "--head", 4).out == data


def test_all_bits_backwards_over_pieces(flight: Tool, write: Write, data: bytes) -> None:
    assert flight("pack", write("dump", data[::-1].translate(TURNED)), "--packed", "low-first", "--backwards").out == data


def test_swapped_pairs_over_pieces(flight: Tool, write: Write, data: bytes) -> None:
    swapped = bytearray(data)
    swapped[0:-1:2], swapped[1::2] = data[1::2], data[0:-1:2]
    assert flight("pack", write("dump", bytes(swapped)), "--packed", "low-first", "--swap").out == data


def test_high_first_words_over_pieces(flight: Tool, write: Write, data: bytes) -> None:
    bits = digits(data)
    words = "".join(bits[at : at + 12][::-1] for at in range(0, len(bits) - 11, 12))
    high = bytes_of("101" + words).translate(TURNED)
    packed = flight("pack", write("dump", high), "--packed", "high-first", "--phase", 3).out
    assert digits(packed)[: len(words)] == bits[: len(words)]
