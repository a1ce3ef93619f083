"""Inputs drawn by chance for compare.py, good ones and damaged ones: tables, traces, bits, levels, images and words.

Good bytes are made by formats.py. Of reader.py this takes which drawn tables are sound, and when their samples begin, to draw
words and bits that matter by them. What it has wrong there makes other inputs, and no answer right.
"""

from __future__ import annotations

import random
from collections.abc import Callable
from typing import NamedTuple

import reader
from formats import BUS_WORD, CLOSED, HEAD, NUMBERS, OPEN, RECORD, SESSIONS, SYNCS, VERSION_1, VERSION_2, bits_of, bus_word, bytes_of_bits
from formats import empty_image, end_at, head_of, levels_of, recorded, shape_of, slot_at, valid_blocks
from inputs import T1, t1_frame, word_at

Rows = list[list[str]]
BOM = b"\xef\xbb\xbf"
SECOND = 1_000_000
LAST_TIME = 1_440_000_000_000


class Case(NamedTuple):
    """What a run is given: its words, the files of its folder, and standard input."""

    words: list[bytes]
    files: dict[str, bytes]
    given: bytes = b""


# --- tables


def draw_widths(chance: random.Random) -> list[int]:
    widths = [chance.randint(1, 12) for _ in range(chance.choice([1, 1, 1, 2, 2, 3, 4]))]
    while sum(widths) > 32:
        widths.pop()
    return widths


def draw_place(chance: random.Random, words: int, subframes: str, times: int) -> list[str]:
    """A place in so many words of each of these subframes: its fields 3 to 5."""
    step = chance.randint(1, max(1, (words - 1) // times))
    word = words - (times - 1) * step - chance.randrange(step)
    return [subframes, str(word), str(step if times > 1 or chance.random() < 0.2 else 0)]


def draw_part(chance: random.Random, words: int, subframes: int, times: int) -> Rows:
    """The places of a part, fields 3 to 5 of each: one, or one of some subframes and one of the others."""
    drawn = "".join(sorted(chance.sample("1234", subframes)))
    cut = chance.randrange(subframes) if chance.random() < 0.25 else 0
    return [draw_place(chance, words, some, times) for some in (drawn[:cut], drawn[cut:]) if some]


def draw_param(chance: random.Random, words: int, name: str) -> Rows:
    """A `P` row and its `L` rows, which may lie on others."""
    sign = chance.choice("UUSSV")
    widths = [1] if sign == "V" else draw_widths(chance)
    subframes, times, period = chance.randint(1, 4), chance.choice([1, 1, 1, 1, 2, 3, 7]), chance.choice([1, 1, 2, 4, 8, 16])
    places = []
    for part, width in enumerate(widths, 1):
        lsb, cycle = str(chance.randint(1, 13 - width)), str(chance.randrange(period))
        for place in draw_part(chance, words, subframes, times):
            places.append(["L", name, str(part), *place, lsb, str(width), cycle, str(period)])
    source = [str(chance.randint(0, 2)), f"{chance.choice([1, 7, 0o203, 0o377]):o}", chance.choice(["", "", "0", "1", "3"])]
    field = [str(chance.randint(1, 33 - sum(widths))), str(sum(widths)), sign]
    scale = [str(chance.choice([1, 1, 2, -1, -3, 0, 10**9])), str(chance.choice([1, 1, 2, 3, 7, 10**9]))]
    scale += [str(chance.choice([0, 0, 1, -5, 10**15, -(10**15)])), str(chance.choice([0, 0, 1, 2, 9]))]
    param = ["P", name, *source, *field, *scale, str(subframes * times * 16 // period)]
    age = chance.choice([None, None, "", "1", "15625", "1500000", str(chance.randint(1, 5 * SECOND))])
    return [param + ([] if age is None else [age]), *places]


def is_sound(rows: Rows) -> bool:
    try:
        reader.table_of(text_of(rows))
    except reader.Refused:
        return False
    return True


def draw_rows(chance: random.Random) -> Rows:
    """The rows of a sound table."""
    words = chance.choices([64, 128, 256, 512, 1024], [20, 3, 2, 1, 1])[0]
    rows = [["F", str(words), str(chance.randint(2, words)), str(chance.randint(1, 4))]]
    for name in ("A", "ALT", "b.c-d_9", "ABCDEFGHIJKLMNOP", "Z")[: chance.choice([0, 1, 1, 2, 3, 5])]:
        for _ in range(10):
            more = rows + draw_param(chance, words, name)
            if is_sound(more):
                rows = more
                break
    return rows if chance.random() < 0.7 else with_places_last(chance, rows)


def with_places_last(chance: random.Random, rows: Rows) -> Rows:
    places = [row for row in rows if row[0] == "L"]
    chance.shuffle(places)
    return [row for row in rows if row[0] != "L"] + places


def text_of(rows: Rows) -> bytes:
    return "".join(",".join(row) + "\n" for row in rows).encode()


# --- tables written in other ways, and faulty ones

FIELDS = ["", "0", "1", "2", "3", "4", "5", "8", "11", "12", "13", "15", "16", "17", "32", "33", "34", "63", "64", "65", "100", "128"]
FIELDS += ["255", "256", "377", "378", "400", "777", "512", "1000", "1023", "1024", "1025", "2048", "262144", "262145", "64000000"]
FIELDS += ["64000001", "1000000000", "1000000001", "-1000000000", "-1000000001", "1000000000000000", "1000000000000001"]
FIELDS += ["-1000000000000000", "-1000000000000001", "-1", "-0", "-", "--1", "+1", " 1", "1 ", "1.0", "1e3", "0x1", "\u0661", "064", "012"]
FIELDS += ["0" * 18 + "1", "0" * 19 + "1", "0" * 19, "9" * 19, "9" * 20, "-" + "9" * 19, "-" + "0" * 18 + "1", "-" + "0" * 19 + "1"]
FIELDS += ["U", "S", "V", "u", "UV", "F", "P", "L", "f", "A", "ALT", "alt", "A B", "A" * 16, "A" * 17, "\u00e9", "a/b"]
FIELDS += ["1234", "12", "21", "234", "11", "1 2", "24", "12345", "134", '""', '"A"', "\x00"]


NAMES = ["A" * 16, "A" * 17, "", "A B", "\u00e9", "a/b", ".", "-", "_", "a,b", "0"]


def changed_field(chance: random.Random, rows: Rows) -> None:
    row = chance.choice(rows)
    at = chance.randrange(len(row))
    near = str(int(row[at]) + chance.choice([-1, 1])) if row[at].isdecimal() else chance.choice(FIELDS)
    padded = row[at].zfill(chance.choice([18, 19, 20])) if row[at].isdecimal() else chance.choice(FIELDS)
    row[at] = chance.choice([chance.choice(FIELDS), near, padded])


def changed_number(chance: random.Random, rows: Rows) -> None:
    """A number of a place or of a parameter's width or rate, most often within its range."""
    row = chance.choice(rows)
    if row[0] != "F" and len(row) > 9:
        at = chance.choice([2, 3, 4, 5, 6, 7, 8, 9] if row[0] == "L" else [6, 12])
        if at < len(row):
            row[at] = str(chance.choice([1, 1, 2, 2, 3, 4, 8, 12, 16, 64, 65]))


def changed_name(chance: random.Random, rows: Rows) -> None:
    """Another name for a parameter in all of its rows."""
    before, after = chance.choice(rows)[1:2], chance.choice(NAMES)
    for row in rows:
        if row[0] != "F" and row[1:2] == before:
            row[1] = after


def changed_pair(chance: random.Random, rows: Rows) -> None:
    """A sign `V` for any width, a width for any lowest bit, a cycle for any period, a part in place of another."""
    row = chance.choice(rows)
    if row[0] == "P" and len(row) > 12:
        at, choices = chance.choice([(7, ["V"]), (6, ["1", "2", "31", "32", "33"]), (12, ["1", "16", "32", "48", "64", "128"])])
        row[at] = chance.choice(choices)
    elif row[0] == "L" and len(row) == 10:
        row[8] = chance.choice([row[9], row[9], "0", "1", "15", "16"])
        row[9] = chance.choice([row[9], row[9], row[9], "3", "0", "16"])


def changed_part(chance: random.Random, rows: Rows) -> None:
    """Another number for a part in all of its rows."""
    row, after = chance.choice(rows), chance.choice("12345")
    for other in [it for it in rows if it[0] == "L" and it[1:3] == row[1:3] and len(it) > 2]:
        other[2] = after


def changed_count(chance: random.Random, rows: Rows) -> None:
    row = chance.choice(rows)
    if chance.random() < 0.5:
        row.append(chance.choice(["", "0", "1"]))
    else:
        del row[chance.randrange(len(row))]


def copied_row(chance: random.Random, rows: Rows) -> None:
    rows.insert(chance.randrange(len(rows) + 1), list(chance.choice(rows)))


def struck_row(chance: random.Random, rows: Rows) -> None:
    del rows[chance.randrange(len(rows))]


def moved_row(chance: random.Random, rows: Rows) -> None:
    rows.insert(chance.randrange(len(rows)), rows.pop(chance.randrange(len(rows))))


def copied_field(chance: random.Random, rows: Rows) -> None:
    """A field as in another row of its letter: names twice, places on others."""
    row = chance.choice(rows)
    other = chance.choice([it for it in rows if it[:1] == row[:1]])
    if row and other:
        at = chance.randrange(min(len(row), len(other)))
        row[at] = other[at]


def moved_places(chance: random.Random, rows: Rows) -> None:
    """Places moved in one way: with the words or bits of another, on the sync word, by the counter, over many words."""
    places = [row for row in rows if row[0] == "L" and len(row) == 10]
    kind = chance.randrange(5)
    if kind == 4 and len(rows[0]) > 2:
        rows[0][2] = "2"
    for row in chance.sample(places, min(len(places), chance.choice([1, 1, 2]))):
        other = chance.choice(places)
        if kind == 0:
            row[4:7] = other[4:7]
        elif kind == 1:
            row[3:5] = ["1234", chance.choice(["1", rows[0][2] if len(rows[0]) > 2 else "2"])]
        elif kind == 2:
            row[4], row[5] = "2", chance.choice(["1", "2", "3", "7"])
        elif kind == 3:
            row[3], row[4], row[6], row[8:] = other[3], other[4], other[6], other[8:]
        else:
            row[3:6], row[8:] = ["1234", "3", "1"], ["0", "1"]


def changed_counts(chance: random.Random, rows: Rows) -> None:
    """Places that come more or less often, in places of some parts alone."""
    for row in rows:
        if row[0] == "L" and len(row) == 10 and chance.random() < 0.7:
            row[3], row[5] = chance.choice(["1", "12", "234", "1234", row[3]]), chance.choice(["0", "9", row[5]])


ROW_FAULTS = [changed_field] * 4 + [changed_number] * 3 + [changed_pair] * 5 + [moved_places] * 6 + [copied_field] * 2
ROW_FAULTS += [changed_counts, changed_name, changed_part] * 2 + [copied_row, copied_row, struck_row, moved_row, changed_count]


def faulty_rows(chance: random.Random, rows: Rows) -> Rows:
    rows = [list(row) for row in rows]
    for _ in range(chance.choice([1, 1, 1, 2, 3])):
        rows = [row for row in rows if row]
        if rows:
            chance.choice(ROW_FAULTS)(chance, rows)
    return rows


def quoted(chance: random.Random, field: str) -> str:
    """A field in quotes, most often one that reads as it did."""
    front = chance.randrange(len(field) + 1)
    in_quotes = field.replace('"', '""')
    odd = [f'"{field}', f'{field}"', f'"{field}"" ', f'"{field}"x"y', f'"{field}\n"', f'"{field},"', f' "{field}"']
    odd += [f'{field[:front]}"{field[front:]}']
    return chance.choice([f'"{in_quotes}"'] * 4 + [f'"{field[:front]}"{field[front:]}'] * 2 + odd)


def written(chance: random.Random, rows: Rows, share: float) -> bytes:
    """The text of rows, with line ends of all kinds, blank lines and a byte order mark, and with quotes on a share of the fields."""
    ends = chance.choice([["\n"], ["\r\n"], ["\r"], ["\n", "\r\n", "\r", "\n\n", "\r\r\n", "\n\r\n"]])
    text = chance.choice([""] * 6 + ["\n", "\r\n\r"])
    for row in rows:
        text += ",".join(quoted(chance, it) if chance.random() < share else it for it in row) + chance.choice(ends)
        text += chance.choice([" \n", '""\n', "\t\n", ",\n"]) if chance.random() < share / 10 else ""
    text = text if chance.random() < 0.7 else text.rstrip("\r\n")
    return chance.choice([b""] * 8 + [BOM, BOM + BOM, BOM[:2]]) + text.encode()


def altered(chance: random.Random, data: bytes, bytes_put: bytes) -> bytes:
    """Bytes of which some are struck out, changed, doubled or put in, or the end is cut off."""
    for _ in range(chance.choice([1, 1, 2, 4])):
        at, size = chance.randrange(len(data) + 1), chance.choice([1, 1, 1, 2, 3, 16])
        put = bytes(chance.choice(bytes_put) for _ in range(chance.choice([1, 1, 2])))
        kinds = [data[:at] + data[at + size :], data[:at] + put + data[at:], data[:at] + put + data[at + len(put) :]]
        data = chance.choice([*kinds, data[: at + size] + data[at:], data[:at]])
    return data


def draw_text(chance: random.Random) -> bytes:
    """The text of a table, good or faulty, written in some way."""
    rows = draw_rows(chance)
    rows = faulty_rows(chance, rows) if chance.random() < 0.6 else rows
    text = text_of(rows) if chance.random() < 0.5 else written(chance, rows, chance.choice([0.0, 0.01, 0.1]))
    return altered(chance, text, b',,"\r\n FPL0123456789-US\x00\xff') if chance.random() < 0.1 else text


def large_cases() -> list[Case]:
    """Tables at the limits of size, and a recording in which the counter comes round."""
    trace = word_at(0, 5) + word_at(16_379_999_999, 6) + word_at(16_384_000_000, 7) + end_at(16_396_000_000)
    bits = b"".join(t1_frame(counter % 4096, counter % 4096) for counter in range(4094, 4100))
    cases = [Case([b"check", b"t.csv"], {"t.csv": text}) for text in large_texts()]
    cases += [Case([b"listbits", b"t.csv"], {"t.csv": T1}, bits), Case([b"stream", b"t.csv"], {"t.csv": T1}, trace)]
    return cases


def large_texts() -> list[bytes]:
    most = ["F,1024,1024,4"] + [f"P,N{number},0,1,,1,1,U,1,1,0,0,1" for number in range(2048)]
    places = [f"L,N{number // 4},1,1,2,0,1,1,0,16" for number in range(8192)]
    parts = ["F,1024,2,1"] + [f"P,N{it},0,1,,1,1,U,1,1,0,0,65408\nL,N{it},1,1234,3,1,{it + 1},1,0,1" for it in range(5)]
    texts = [[*most, "P,M,0,1,,1,1,U,1,1,0,0,1"], most, [*most, *places], [*most, *places, "L,N0,1,1,2,0,1,1,0,16"], parts, parts[:5]]
    padded = b"F,64,2,1\n" + b"\n" * (1_048_576 - 9)
    return ["\n".join(rows).encode() for rows in texts] + [padded, padded + b"\n", b"X" * 1_048_577, b"X" * 1_048_576, b"", BOM]


# --- traces


class Source(NamedTuple):
    bus: int
    label: int
    sdi: int
    lsb: int
    width: int
    age: int
    slots: list[int]  # in which its samples begin


def sources_of(rows: Rows) -> list[Source]:
    """The sources of a sound table's parameters, and one that none asks for, perhaps."""
    samples = reader.table_of(text_of(rows)).samples
    sources = [Source(0, 0o203, 0, 11, 12, 0, [0])]
    for it in samples:
        slots = [sample.first.slot for sample in samples[it]]
        sources.append(Source(it.bus, it.label, it.sdi or 0, it.lsb, it.width, it.age or 0, slots))
    return sources


def draw_word(chance: random.Random, source: Source) -> bytes:
    """The bus and the word of a record, most often one that its parameter is read from."""
    value = chance.choice([0, (1 << source.width) - 1, chance.getrandbits(source.width)])
    field = value << source.lsb - 1 & 0x7FFFFC00 | (0x20000000 if chance.random() < 0.1 else 0)
    word = bus_word(source.label, field >> 10, chance.choice([source.sdi] * 4 + [0, 1, 2, 3]))
    word ^= 1 << chance.randrange(32) if chance.random() < 0.15 else 0
    word ^= 1 << chance.randrange(32) if chance.random() < 0.1 else 0
    bus = source.bus if chance.random() < 0.9 else chance.randrange(256)
    return bytes([bus, *([0, 0] if chance.random() < 0.8 else chance.randbytes(2))]) + word.to_bytes(4, "big")


def draw_time(chance: random.Random, words: int, source: Source, end: int) -> int:
    """A time up to the end, which is often that of a sample or of one an age later, or a microsecond beside it."""
    slots = [slot for slot in source.slots if slot * SECOND <= end * words]
    if not slots or chance.random() < 0.3:
        return chance.randrange(end + 1)
    time = chance.choice(slots) * SECOND // words + chance.choice([-1, 0, 0, 1]) - chance.choice([0, source.age])
    return min(max(0, time), end)


def draw_end(chance: random.Random, words: int) -> int:
    frames, slots = chance.randrange(1, 4) * 4 * SECOND, chance.randrange(1, 6 * words) * SECOND // words
    superframes = chance.choice([64, 65, 130]) * SECOND if words == 64 else 8 * SECOND
    kinds = [0, chance.randrange(3 * SECOND), frames, frames, frames, slots, superframes, chance.randrange(20 * SECOND)]
    return max(0, chance.choice(kinds) + chance.choice([0, 0, 0, -1, 1]))


def draw_records(chance: random.Random, rows: Rows) -> list[bytes]:
    """The records of a good trace by a sound table."""
    words = int(rows[0][1])
    sources, end = sources_of(rows), draw_end(chance, words)
    records = []
    for _ in range(chance.choice([0, 1, 3, 10, 40, 100])):
        source = chance.choice(sources)
        time = draw_time(chance, words, source, end)
        records.append((time, bytes([BUS_WORD]) + draw_word(chance, source) + time.to_bytes(8, "big")))
    records.sort(key=lambda it: it[0])
    return [record for _, record in records] + [end_at(end)]


def faulty_trace(chance: random.Random, records: list[bytes]) -> bytes:
    trace, at = b"".join(records), chance.randrange(len(records))
    record = records[at]
    changed = bytes([chance.choice([0, 1, 2, 3, 255])]) + record[1:]
    late = record[:8] + chance.choice([LAST_TIME + 1, 1 << 63, (1 << 64) - 1]).to_bytes(8, "big")
    back = record[:8] + chance.choice([0, max(0, RECORD.unpack(record)[4] - 1)]).to_bytes(8, "big")
    records = records[:at] + [chance.choice([changed, late, back, changed[:8] + late[8:]])] + records[at + 1 :]
    kinds = [trace[: chance.randrange(len(trace) + 1)], trace[:-16], trace + chance.randbytes(40), b"".join(records), b"".join(records)]
    return chance.choice([*kinds, altered(chance, trace, bytes(range(256))), b""])


def draw_trace(chance: random.Random, rows: Rows) -> bytes:
    """A trace, good or faulty, whose recording isn't long."""
    records = draw_records(chance, rows)
    trace = faulty_trace(chance, records) if chance.random() < 0.4 else b"".join(records)
    return trace if reader.good_records(trace)[1] <= 150 * SECOND else b"".join(records)


# --- bits

Bits = list[int]


def word_bits(word: int) -> Bits:
    return [word >> place & 1 for place in range(12)]


def draw_frames(chance: random.Random, rows: Rows) -> list[Bits]:
    """Frames with drawn words, whose counters most often go on by one."""
    words, counter_word, counter_subframe = map(int, rows[0][1:])
    counter = chance.choice([0, 0, 4094, chance.randrange(4096)])
    frames = []
    for _ in range(chance.choice([0, 1, 2, 2, 3, 5, 17 if words == 64 else 4])):
        line = [chance.getrandbits(12) if chance.random() < 0.7 else chance.choice([0, 4095]) for _ in range(4 * words)]
        line[::words] = SYNCS
        line[(counter_subframe - 1) * words + counter_word - 1] = counter
        frames.append([bit for word in line for bit in word_bits(word)])
        counter = (counter + chance.choice([1] * 12 + [0, 2, 4095, 16])) % 4096
    return frames


def with_false_frame(chance: random.Random, bits: Bits, words: int) -> Bits:
    """Bits in which four sync words stand somewhere at their distances, or three of them."""
    bits = list(bits)
    at = chance.randrange(len(bits) + 1)
    for place, sync in enumerate(SYNCS[: chance.choice([4, 4, 3])]):
        begin = at + 12 * words * place
        if begin + 12 <= len(bits):
            bits[begin : begin + 12] = word_bits(sync)
    return bits


def damaged_bits(chance: random.Random, bits: Bits, words: int) -> Bits:
    for _ in range(chance.choice([1, 1, 2, 3])):
        at, size = chance.randrange(len(bits) + 1), chance.choice([1, 1, 2, 7, 8, 12, 100, 12 * words, 48 * words])
        turned = [*bits[:at], *(1 - bit for bit in bits[at : at + 1]), *bits[at + 1 :]]
        put = [chance.getrandbits(1) for _ in range(size)]
        kinds = [bits[:at] + bits[at + size :], bits[:at] + put + bits[at:], bits[: at + size] + bits[at:], turned, turned, bits[:at]]
        bits = chance.choice([*kinds, with_false_frame(chance, bits, words), put[: chance.randrange(20)] + bits])
    return bits


def draw_bits(chance: random.Random, rows: Rows) -> bytes:
    """Bits of a recording, or of drawn frames, whole or damaged; a few times any bytes."""
    if chance.random() < 0.05:
        return chance.randbytes(chance.choice([0, 1, 100, 800]))
    share = chance.choice([0, 0, 0.2])
    between = [[chance.getrandbits(1)] * chance.choice([1, 5, 8, 300]) if chance.random() < share else [] for _ in range(20)]
    bits = [bit for frame, gap in zip(draw_frames(chance, rows), between) for bit in frame + gap]
    return bytes_of_bits(damaged_bits(chance, bits, int(rows[0][1])) if chance.random() < 0.5 else bits)


# --- levels


def draw_levels(chance: random.Random) -> bytes:
    """Levels by either phase, turned or not, whole or with missing transitions, or cut."""
    data = chance.choice([b"", b"\xff" * chance.randrange(20), chance.randbytes(chance.randrange(60))])
    levels = levels_of(bits_of(data))
    levels = levels[chance.choice([0, 0, 1, 2, 3]) :]
    levels = [1 - level for level in levels] if chance.random() < 0.3 else levels
    for _ in range(chance.choice([0, 0, 0, 1, 1, 2, 3])):
        at = chance.randrange(len(levels) + 1)
        kinds = [levels[:at] + [1 - level for level in levels[at:]], levels[:at] + levels[at + 1 :], levels[: at + 1] + levels[at:]]
        levels = chance.choice([*kinds, levels[:at], [1 - bit for bit in levels[:at]] + levels[at:]])
    return chance.choice([bytes_of_bits(levels)] * 9 + [chance.randbytes(chance.randrange(8))])


# --- images


def draw_image(chance: random.Random, rows: Rows) -> bytes:
    """An image in which some blocks are, of slots and payloads that are drawn."""
    words = int(rows[0][1])
    slots, payload = chance.choice([4, 5, 8, 17, 33]), chance.choice([64, 65, 100, 384, 500, 6 * words, 4096])
    image = empty_image(slots, payload, words, chance.choice([VERSION_1, 0x17, *[VERSION_2] * 8]))
    for _ in range(chance.choice([0, 1, 1, 2, 3])):
        image = recorded(image, draw_bits(chance, rows))
    return with_numbers_up(chance, image) if chance.random() < 0.1 else image


def with_numbers_up(chance: random.Random, image: bytes) -> bytes:
    """The image with one block alone, whose number is near the last that there is."""
    shape = shape_of(image)
    number = NUMBERS - chance.choice([1, 1, 2, 3, 5, 10])
    block = chance.randbytes(chance.randint(1, shape.payload))
    session = chance.choice([0, 1, SESSIONS - 2, SESSIONS - 1])
    at, image = slot_at(shape, number), bytearray(empty_image(*shape))
    image[at : at + HEAD.size + len(block)] = head_of(number, len(block), session) + block
    return bytes(image)


def with_bytes(image: bytes, at: int, put: bytes) -> bytes:
    return image[:at] + put + image[at + len(put) :]


def with_damaged_head(chance: random.Random, image: bytes) -> bytes:
    """The image with another gate, length, session or number in the head of a slot."""
    shape, found = shape_of(image), [*valid_blocks(image)]
    slot = chance.choice(found) % shape.slots if found and chance.random() < 0.7 else chance.randrange(shape.slots)
    at, here = slot_at(shape, slot), chance.choice([0, 0, 5 * shape.slots, NUMBERS - 2 * shape.slots, NUMBERS + shape.slots, 1 << 63])
    number = here - here % shape.slots + chance.choice([slot, slot, slot, slot + 1])
    length = chance.choice([0, 1, shape.payload, shape.payload + 1, 65_535])
    gate = bytes([chance.choice([OPEN, OPEN, CLOSED, 0x33, 0x5B])])
    session = chance.choice([bytes(4), b"\0\0\0\1", b"\0\0\0\2", b"\xff" * 4, chance.randbytes(4)])
    kinds = [(0, gate), (2, length.to_bytes(2, "big")), (4, session), (4, session), (8, number.to_bytes(8, "big")), (1, chance.randbytes(1))]
    image = with_bytes(image, at + 16, chance.randbytes(8)) if chance.random() < 0.2 else image
    for place, put in chance.sample(kinds, chance.randint(1, 3)):
        image = with_bytes(image, at + place, put)
    return image


def with_damaged_header(chance: random.Random, image: bytes) -> bytes:
    """The image with another field of the header, or short, or with bytes behind it."""
    number = chance.choice([0, 3, 4, 5, 63, 64, 65, 128, 1024, 4096, 4097, 65_536, 65_537, (1 << 32) - 1]).to_bytes(4, "big")
    gate, version = bytes([chance.choice([0, 0x5B, OPEN])]), bytes([chance.choice([0, 1, 0xA4, 0xA5, 0xFF])])
    kinds = [(0, gate), (1, version), (1, version), (2, b"FDR718"), (2, b"fdr717"), (8, number), (12, number), (16, number)]
    kinds += [(20, chance.randbytes(44))]
    for at, put in chance.sample(kinds, chance.choice([1, 1, 1, 2])):
        image = with_bytes(image, at, put)
    cut = chance.choice([0, 1, 63, 64, 65, len(image) - 1, chance.randrange(len(image))])
    return chance.choice([image] * 5 + [image[:cut], image + chance.randbytes(9)])


def damaged_image(chance: random.Random, image: bytes) -> bytes:
    kind = chance.random()
    if kind < 0.4:
        return image
    if kind < 0.75:
        for _ in range(chance.choice([1, 1, 2, 4])):
            image = with_damaged_head(chance, image)
        return image
    return with_damaged_header(chance, image) if kind < 0.9 else altered(chance, image, bytes(range(256)))


# --- words

WORDS = ["check", "stream", "listbits", "encode", "decode", "format", "record", "recover", "list", "salvage", "drill", "upgrade", "Check"]
WORDS += ["help"]
WORDS += ["t.csv", "i.img", "none.csv", "", "-", "--", "--help", "--version", "-h", "--slots", "--payload", "--seed", "--frames"]
WORDS += ["--slots=4", "--payload=64", "--seed=1", "--frames=1", "--slots=", "--slots=+4", "--slot=4", "--slots=4=4", "--=4"]
WORDS += ["4", "64", "0"]
LINES = ["check t.csv", "stream t.csv", "listbits t.csv", "encode", "decode", "format t.csv new.img --slots 4 --payload 64"]
LINES += ["record t.csv i.img", "recover i.img", "list t.csv i.img", "drill --seed=1 t.csv i.img --frames 1", "upgrade i.img"]
LINES += ["salvage t.csv i.img", "salvage t.csv i.img --slots 4 --payload 64"]
VALUES = ["4", "64", "0", "1", "3", "5", "63", "65", "0000000004", "00000000064", "100001", "4294967295", "4294967296"]
VALUES += ["-1", "+4", " 4", "4 ", "", "0x4", "4.0", "9999999999", "\u0664"]


def draw_words(chance: random.Random) -> list[bytes]:
    """Words that are most often wrong: of all kinds, or those of a command with one put in, struck out or changed."""
    drawn = [chance.choice(WORDS) for _ in range(chance.choice([0, 1, 2, 2, 3, 4, 5]))]
    if chance.random() < 0.7:
        drawn, at = chance.choice(LINES).split(), chance.randrange(6)
        drawn[at : at + chance.choice([0, 1, 1])] = [chance.choice(WORDS)] * chance.choice([0, 1, 1])
    words = [word.encode() for word in drawn]
    return words + [chance.choice([b"\xff", b"t.csv\xc3", b"\xed\xa0\x80"])] if chance.random() < 0.05 else words


def with_options(chance: random.Random, words: list[str], values: dict[str, str]) -> list[bytes]:
    """The words with these options among them, in either form; a few times one is wrong, missing or there twice."""
    for name in values:
        value = values[name] if chance.random() < 0.94 else chance.choice(VALUES)
        for _ in range(chance.choices([1, 0, 2], [60, 1, 1])[0]):
            at = chance.choice([len(words), chance.randrange(len(words) + 1)])
            words = words[:at] + chance.choice([[name, value], [f"{name}={value}"]]) + words[at:]
    if chance.random() < 0.08:
        at = chance.randrange(len(words) + 1)
        words = words[:at] + [chance.choice(WORDS)] + words[at + chance.randrange(2) :]
    return [word.encode() for word in words]


# --- cases


def files_for(chance: random.Random, text: bytes, image: bytes | None) -> dict[str, bytes]:
    """The files of a run; a few times one isn't there."""
    files = {"t.csv": text} if chance.random() < 0.98 else {}
    return files | ({} if image is None or chance.random() < 0.02 else {"i.img": image})


def table_for(chance: random.Random) -> tuple[Rows, bytes]:
    """The rows of a sound table and its text, which is that of another one a few times."""
    rows = draw_rows(chance)
    text = written(chance, rows, 0.0) if chance.random() < 0.2 else text_of(rows)
    return rows, draw_text(chance) if chance.random() < 0.05 else text


def case_of_check(chance: random.Random) -> Case:
    return Case([b"check", b"t.csv"], files_for(chance, draw_text(chance), None))


def case_of_stream(chance: random.Random) -> Case:
    rows, text = table_for(chance)
    return Case([b"stream", b"t.csv"], files_for(chance, text, None), draw_trace(chance, rows))


def case_of_listbits(chance: random.Random) -> Case:
    rows, text = table_for(chance)
    return Case([b"listbits", b"t.csv"], files_for(chance, text, None), draw_bits(chance, rows))


def case_of_encode(chance: random.Random) -> Case:
    return Case([b"encode"], {}, chance.randbytes(chance.choice([0, 1, 2, 50, 300])))


def case_of_decode(chance: random.Random) -> Case:
    return Case([b"decode"], {}, draw_levels(chance))


def case_of_format(chance: random.Random) -> Case:
    image = chance.choice([None, None, None, None, b"", b"", b"\0", chance.randbytes(400)])
    values = {"--slots": chance.choice(["4", "5", "016", "33", "1000"]), "--payload": chance.choice(["64", "0065", "4096"])}
    words = with_options(chance, ["format", "t.csv", "i.img"], values)
    return Case(words, files_for(chance, table_for(chance)[1], image))


def case_of_record(chance: random.Random) -> Case:
    rows, text = table_for(chance)
    image = damaged_image(chance, draw_image(chance, rows))
    return Case([b"record", b"t.csv", b"i.img"], files_for(chance, text, image), draw_trace(chance, rows))


def case_of_recover(chance: random.Random) -> Case:
    image = damaged_image(chance, draw_image(chance, draw_rows(chance)))
    return Case([b"recover", b"i.img"], files_for(chance, b"", image))


def case_of_list(chance: random.Random) -> Case:
    rows, text = table_for(chance)
    image = damaged_image(chance, draw_image(chance, rows))
    return Case([b"list", b"t.csv", b"i.img"], files_for(chance, text, image))


def case_of_salvage(chance: random.Random) -> Case:
    rows, text = table_for(chance)
    image = draw_image(chance, rows)
    slots, payload = (int.from_bytes(image[at : at + 4], "big") for at in (8, 12))
    image = damaged_image(chance, image)
    values = {}
    if chance.random() < 0.5:
        values = {"--slots": str(chance.choice([slots, slots, slots + 1, max(4, slots - 1)])), "--payload": str(chance.choice([payload, payload, 64]))}
        image = bytes(64) + image[64:] if chance.random() < 0.3 else image
    return Case(with_options(chance, ["salvage", "t.csv", "i.img"], values), files_for(chance, text, image))


LIMITS = ["0", "1", "5", "-1", "100", "2047", "-2048", "1000000", "-1000000", "9" + "0" * 18, "-9" + "0" * 18]
RULE_FAULTS = ["9" + "0" * 17 + "1", "-", "", "+1", "1.5", "1025", "0001", "ABOVE", "change", "A" * 17, "a b", "ALT", "RULE0", "\u00e9"]


def draw_rule(chance: random.Random, names: list[str], number: int) -> list[str]:
    """The fields of a rule, most often one for a parameter of the table."""
    limit = chance.choice(LIMITS) if chance.random() < 0.5 else str(chance.randint(-3000, 3000))
    count = chance.choice(["1", "1", "1", "2", "2", "3", "5", "17", "1024"])
    return [f"RULE{number}", chance.choice(names), chance.choice(["above", "below", "change"]), limit, count]


def draw_rules(chance: random.Random, rows: Rows) -> bytes:
    """The text of rules for the parameters of a table, a few times with a fault."""
    names = [row[1] for row in rows if row[0] == "P"] or ["ALT"]
    rules = [draw_rule(chance, names, number) for number in range(chance.choice([0, 1, 2, 3, 8, 8, 256, 257]))]
    if rules and chance.random() < 0.3:
        rule = chance.choice(rules)
        rule[chance.randrange(5)] = chance.choice(RULE_FAULTS)
        if chance.random() < 0.2:
            rule.append("")
    text = written(chance, rules, 0.1) if chance.random() < 0.2 else text_of(rules)
    return text + b"\n" * 65_537 if chance.random() < 0.02 else text


def case_of_exceed(chance: random.Random) -> Case:
    rows, text = table_for(chance)
    image = draw_image(chance, rows)
    image = damaged_image(chance, image) if chance.random() < 0.3 else image
    return Case([b"exceed", b"t.csv", b"i.img"], files_for(chance, text, image), draw_rules(chance, rows))


def case_of_drill(chance: random.Random) -> Case:
    rows, text = table_for(chance)
    image = draw_image(chance, rows)
    image = damaged_image(chance, image) if chance.random() < 0.6 else image
    seed = chance.choice([0, 1, chance.getrandbits(32), (1 << 32) - 1])
    values = {"--seed": str(seed), "--frames": chance.choice(["1", "1", "2", "3", "17"])}
    return Case(with_options(chance, ["drill", "t.csv", "i.img"], values), files_for(chance, text, image))


def case_of_upgrade(chance: random.Random) -> Case:
    image = damaged_image(chance, draw_image(chance, draw_rows(chance)))
    image = with_bytes(image, 1, bytes([VERSION_1])) if chance.random() < 0.5 and len(image) > 1 else image
    return Case([b"upgrade", b"i.img"], files_for(chance, b"", image))


def case_of_words(chance: random.Random) -> Case:
    rows = draw_rows(chance)
    return Case(draw_words(chance), files_for(chance, text_of(rows), draw_image(chance, rows)), draw_trace(chance, rows))


DRAWS: dict[str, Callable[[random.Random], Case]] = {
    "check": case_of_check,
    "stream": case_of_stream,
    "listbits": case_of_listbits,
    "encode": case_of_encode,
    "decode": case_of_decode,
    "format": case_of_format,
    "record": case_of_record,
    "recover": case_of_recover,
    "list": case_of_list,
    "salvage": case_of_salvage,
    "exceed": case_of_exceed,
    "drill": case_of_drill,
    "upgrade": case_of_upgrade,
    "words": case_of_words,
}
