#!/usr/bin/env python3
"""Makes the images of this folder, without the program, as IMAGES.md says that they come about.

    examples/make_images.py            writes them
    examples/make_images.py --check    compares them with those that are here, and ends with 1 where one differs
"""

import argparse
import pathlib
import sys

HERE = pathlib.Path(__file__).resolve().parent
sys.dont_write_bytecode = True
sys.path.insert(0, str(HERE.parent / "tests"))

from formats import CLOSED, HEAD, SYNCS, VERSION_1, empty_image, recorded, shape_of, slot_at
from inputs import t1_frame

FIRST, SECOND = t1_frame(0, 5), t1_frame(1, 7)
SLOTS, PAYLOAD = 16, 64


def recorded_image():
    """The trace of two frames is recorded: the blocks 0 to 11."""
    return recorded(empty_image(SLOTS, PAYLOAD), FIRST + SECOND)


def cut_image():
    """The trace is recorded again, and the power is cut while block 23 is written in place of block 7.

    Its gate isn't open yet, and its bytes are there up to the sync word that block 7 has."""
    before = recorded_image()
    image = bytearray(recorded(before, FIRST + SECOND))
    begin, end = slot_at(shape_of(image), 23), slot_at(shape_of(image), 24)
    torn = before.index(SYNCS[1].to_bytes(2, "little"), begin + HEAD.size)
    image[begin] = CLOSED
    image[torn:end] = before[torn:end]
    return bytes(image)


def ring_image():
    """A frame is recorded, whose six blocks don't fit in four slots."""
    return recorded(empty_image(4, PAYLOAD), FIRST)


def again_image():
    """The trace is recorded, and then its first frame."""
    return recorded(recorded_image(), FIRST)


def damaged_image():
    """The trace was recorded, and the gate of block 8 is closed."""
    image = bytearray(recorded_image())
    image[slot_at(shape_of(image), 8)] = CLOSED
    return bytes(image)


def headless_image():
    """The same, and the header is zeros."""
    return bytes(64) + damaged_image()[64:]


def old_image():
    """The trace was recorded in an image of version 1."""
    return recorded(empty_image(SLOTS, PAYLOAD, version=VERSION_1), FIRST + SECOND)


IMAGES = {
    "recorded.img": recorded_image,
    "cut.img": cut_image,
    "ring.img": ring_image,
    "again.img": again_image,
    "damaged.img": damaged_image,
    "headless.img": headless_image,
    "old.img": old_image,
}


def differences():
    """The images that aren't here as they are made."""
    for name, make in IMAGES.items():
        path = HERE / name
        if not path.is_file() or path.read_bytes() != make():
            yield f"examples/{name} isn't what examples/make_images.py makes"


def main():
    words = argparse.ArgumentParser(description=__doc__.splitlines()[0])
    words.add_argument("--check", action="store_true", help="compare them, and write nothing")
    if words.parse_args().check:
        found = list(differences())
        print("\n".join(found) or "images: as they are made")
        return 1 if found else 0
    for name, make in IMAGES.items():
        (HERE / name).write_bytes(make())
    return 0


if __name__ == "__main__":
    sys.exit(main())
