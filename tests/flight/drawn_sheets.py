"""Sheets of layouts, drawn so that they are sound: no bit is held twice, and the parts of a parameter are equally often there."""

import random

import sheet_frames

COLUMNS = "name,subframes,word,bits,part,superframe,signed,resolution,range,offset,decimals"
SUBFRAMES = ("all", "all", "1", "2", "1,3", "2-4", "1-2", "4")
FRAMES = ("", "", "", "1 of 2", "3 of 4", "16 of 16", "2/16", "1,5 of 8", "1-3 of 4")
SCALES = (  # resolution, range, offset, decimals
    ("1", "", "", ""),
    ("1/8", "", "", "1"),
    ("0.25", "", "-80", ""),
    ("-0.5", "", "0.5", "4"),
    ("180/2^11", "", "", "9"),
    ("2/3", "", "", "3"),
    ("40", "", "-1000", "0"),
    ("", "-90..90", "", "6"),
    ("", "0..1000", "", "3"),
)


def _row(chance: random.Random, name: str, part: str, words: int) -> list[str]:
    """A row without its meaning."""
    low = chance.randrange(1, 13)
    high = chance.randrange(low, 13)
    word = chance.randrange(2, words + 1)
    step = chance.choice([2, 8, 16, 64])
    where = chance.choice([f"{word}", f"{word}", f"{word}/{step}", f"{word} every {step}", f'"{word},{chance.randrange(2, words + 1)}"'])
    bits = chance.choice([f"{low}-{high}", f"{high}..{low}"]) if high > low else str(low)
    return [name, f'"{chance.choice(SUBFRAMES)}"', where, bits, part, f'"{chance.choice(FRAMES)}"']


def _rows(chance: random.Random, name: str, words: int) -> list[str]:
    """The rows of a parameter, whose parts are in the same frames, subframes and count of words."""
    count = chance.choice([1, 1, 1, 2, 2, 3, 4])
    first = _row(chance, name, "1" if count > 1 else "", words)
    scale = chance.choice(SCALES)
    sign = chance.choice(["", "signed", "S"]) if not scale[1].startswith("-") else "signed"
    rows = [[*first, sign, *scale]]
    for part in range(2, count + 1):
        other = _row(chance, name, str(part), words)
        rows.append([name, first[1], other[2], other[3], str(part), first[5], *[""] * 5])
    chance.shuffle(rows)
    return [",".join(row) for row in rows]


def _bits_of(one: sheet_frames.Quantity) -> list[tuple[int, int, int, int]]:
    return [
        (spot.frame, spot.subframe, spot.word, bit)
        for part in one.parts
        for spot in part
        for bit in range(spot.low, spot.low + spot.width)
    ]


def _is_sound(one: sheet_frames.Quantity) -> bool:
    """Whether its parts are equally often there, and have few enough bits, and enough for a range."""
    return len({len(part) for part in one.parts}) == 1 and 2 <= sum(part[0].width for part in one.parts) <= 32


def drawn_sheet(chance: random.Random) -> str:
    """A sheet."""
    words = chance.choice([64, 128, 256])
    counter = (chance.randrange(2, words + 1), chance.randrange(1, 5))
    head = f"words,{words}\ncounter,{counter[0]},{counter[1]}\n{COLUMNS}\n"
    taken = {(frame, counter[1], counter[0], bit) for frame in range(1, 17) for bit in range(1, 13)}
    kept: list[str] = []
    for number in range(chance.randrange(10, 60)):
        rows = _rows(chance, f"P{number}", words)
        _, _, (one,) = sheet_frames.quantities(head + "\n".join(rows))
        bits = _bits_of(one)
        if _is_sound(one) and len(set(bits)) == len(bits) and taken.isdisjoint(bits):
            taken.update(bits)
            kept += rows
    return head + "\n".join(kept) + "\n"
