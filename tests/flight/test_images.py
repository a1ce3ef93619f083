"""`flight image`: what comes of an image is what went into it, by the second reader and by the program."""

import hashlib
import pathlib
import subprocess

import pytest

import encoder
import reader
from conftest import ORDINARY, TOP, Fdr, Tool, Write

RULES = "HIGH,ALT,above,60000,3\nSLOW,IAS,below,900,2\nJUMP,VRTG,change,500,8\n"


@pytest.fixture(scope="module")
def parts() -> list[bytes]:
    """The bits of two recordings by the ordinary table, the second of an odd length and without its end."""
    table = encoder.read_table(ORDINARY)
    made = []
    for frames, seed in ((24, 5), (19, 6)):
        words = encoder.generated(table, frames, seed)
        made.append(encoder.recording_of(table, words, frames * 4 * encoder.MILLION).bits())
    return [made[0], made[1][:-777]]


def image_of(flight: Tool, write: Write, tmp_path: pathlib.Path, parts: list[bytes]) -> tuple[bytes, str]:
    """The image of files of bits, and what is printed."""
    paths = [write(f"{number}.bits", part) for number, part in enumerate(parts)]
    answer = flight("image", *paths, "-o", tmp_path / "x.img", "--words", 256)
    assert (answer.status, answer.error) == (0, "")
    return (tmp_path / "x.img").read_bytes(), answer.out.decode()


def test_the_bytes_of_a_small_image(flight: Tool, write: Write, tmp_path: pathlib.Path) -> None:
    flight("image", write("bits", b"\x47\x02\x01"), "-o", tmp_path / "x.img", "--words", 64)
    image = (tmp_path / "x.img").read_bytes()
    assert len(image) == 64 + 4 * (16 + 4096)
    assert image[:64].hex() == "5aa5464452373137" "00000004" "00001000" "00000040" + "00" * 44
    assert image[64:83].hex() == "5a00" "0003" "00000001" "0000000000000000" "470201"
    assert not any(image[83:])


def test_listings_of_bits_and_image_agree(flight: Tool, write: Write, tmp_path: pathlib.Path, parts: list[bytes]) -> None:
    image, said = image_of(flight, write, tmp_path, parts)
    blocks = [-(-len(part) // 4096) for part in parts]
    wanted = ""
    for number, part in enumerate(parts):
        wanted += f"session,{number + 1},{sum(blocks[:number])}\n"
        wanted += reader.listbits(ORDINARY.read_bytes(), part).output.decode()
    assert reader.list_image(ORDINARY.read_bytes(), image).output.decode() == wanted
    assert reader.recover(image).output == b"".join(parts)
    assert said.splitlines() == [
        f"session {number + 1}, block {sum(blocks[:number])}: {tmp_path / f'{number}.bits'}, {len(part)} bytes, "
        f"sha256 {hashlib.sha256(part).hexdigest()}"
        for number, part in enumerate(parts)
    ]


def test_salvage_of_a_damaged_image(flight: Tool, write: Write, tmp_path: pathlib.Path, parts: list[bytes]) -> None:
    image = bytearray(image_of(flight, write, tmp_path, parts)[0])
    image[64 + 3 * 4112] = 0
    said = reader.salvage(ORDINARY.read_bytes(), bytes(image)).output.decode()
    blocks = sum(-(-len(part) // 4096) for part in parts)
    assert [line for line in said.splitlines() if line.startswith("run,")] == ["run,0,3", f"run,4,{blocks - 4}"]


def test_the_program_reads_it_as_the_second_reader_does(flight: Tool, fdr: Fdr, write: Write, tmp_path: pathlib.Path, parts: list[bytes]) -> None:
    image, _ = image_of(flight, write, tmp_path, parts)
    path = write("copy.img", image)
    table = ORDINARY.read_bytes()
    assert fdr("list", ORDINARY, path) == reader.list_image(table, image).output
    assert fdr("recover", path) == b"".join(parts)
    assert fdr("salvage", ORDINARY, path) == reader.salvage(table, image).output
    exceeded = fdr("exceed", ORDINARY, path, given=RULES.encode())
    assert exceeded == reader.exceed(table, image, RULES.encode()).output
    assert exceeded.count(b"exceed,") > 10
    for number, part in enumerate(parts):
        assert fdr("listbits", ORDINARY, given=part) in fdr("list", ORDINARY, path)


def test_exceedances_of_a_dump(flight: Tool, write: Write, tmp_path: pathlib.Path, parts: list[bytes]) -> None:
    """Events of each part alone are those of its session, by the second reader."""
    image, _ = image_of(flight, write, tmp_path, parts)
    table = ORDINARY.read_bytes()
    together = reader.exceed(table, image, RULES.encode()).output
    each = [
        reader.exceed(table, image_of(flight, write, tmp_path, [part])[0], RULES.encode()).output for part in parts
    ]
    assert together == b"".join(each)
    assert all(events.count(b"exceed,") > 3 for events in each)


def test_a_look_at_an_image_says_what_it_is(flight: Tool, write: Write, tmp_path: pathlib.Path, parts: list[bytes]) -> None:
    path = write("copy.img", image_of(flight, write, tmp_path, parts)[0])
    said = flight("look", path).out.decode()
    assert said.startswith(f"note      it begins as an image of fdr does, which is read by: fdr list TABLE {path}\n")


def test_too_many_bits(flight: Tool, tmp_path: pathlib.Path, write: Write) -> None:
    path = tmp_path / "long.bits"
    with open(path, "wb") as file:
        file.truncate((1 << 28) - 4095)
    answer = flight("image", path, write("one.bits", b"1"), "-o", tmp_path / "x.img", "--words", 64)
    assert (answer.status, answer.out) == (1, b"")
    assert answer.error == (
        "flight: the bits are 268,431,362 bytes, 65,537 blocks of 4,096, and an image has up to 65,536 of them, which are "
        "268,435,456 bytes; make several images\n"
    )
    assert sorted(one.name for one in tmp_path.iterdir()) == ["long.bits", "one.bits"]


def test_a_file_without_bits(flight: Tool, tmp_path: pathlib.Path, write: Write) -> None:
    answer = flight("image", write("one.bits", b"1"), write("none.bits", b""), "-o", tmp_path / "x.img", "--words", 64)
    assert (answer.status, answer.out) == (1, b"")
    assert answer.error == f"flight: {tmp_path / 'none.bits'}: it has no bits, and a session has a block\n"
    assert not (tmp_path / "x.img").exists()


def test_bits_from_a_pipe(tmp_path: pathlib.Path, parts: list[bytes]) -> None:
    path = tmp_path / "x.img"
    words = [str(TOP / "tools" / "flight"), "image", "-", "-o", str(path), "--words", "256"]
    ran = subprocess.run(words, input=parts[0], capture_output=True, timeout=60)
    assert ran.returncode == 0
    assert reader.recover(path.read_bytes()).output == parts[0]
