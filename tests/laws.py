#!/usr/bin/env python3
"""Tries the laws of docs/GUARANTEES.md that go through the whole, on small cases by the built programs.

    tests/laws.py PROGRAM PAIR

What is sampled comes of tests/flight/encoder.py, a recorder in plain Python that makes no bits of it; what exceeds is worked
out of the sampled values by the rules of tests/reader.py. It prints a line for each law, and ends with 1 where one doesn't
hold.
"""

import pathlib
import random
import subprocess
import sys
import tempfile
from collections.abc import Callable, Iterator
from typing import NamedTuple

sys.dont_write_bytecode = True
TOP = pathlib.Path(__file__).resolve().parent.parent
sys.path[:0] = [str(TOP / "tests" / "flight")]

import encoder
import formats
import reader

TABLE = TOP / "examples" / "ordinary.csv"
FRAMES = 40
SLOTS, PAYLOAD = 512, 512
RULES = b"high,ALT,above,90000,1\nlow,IAS,below,4000,2\nfast,VRTG,change,2500,3\nnever,HDG,above,4095,1\n"


class Made(NamedTuple):
    """A trace, what is sampled of it, and its stream."""

    trace: bytes
    recording: encoder.Recording
    bits: bytes


class Programs(NamedTuple):
    """The built programs, and a folder for their files."""

    fdr: pathlib.Path
    pair: pathlib.Path
    room: pathlib.Path

    def run(self, *words: object, given: bytes = b"") -> bytes:
        """The output of a command that answers Done."""
        program = self.pair if words[0] == "pair" else self.fdr
        rest = [str(word) for word in (words[1:] if words[0] == "pair" else words)]
        ended = subprocess.run([program, *rest], input=given, stdout=subprocess.PIPE, stderr=subprocess.PIPE, timeout=60)
        if ended.returncode:
            raise AssertionError(f"{' '.join(rest)}: status {ended.returncode}: {ended.stderr.decode()}")
        return ended.stdout

    def decoded(self, levels: list[int]) -> bytes:
        """The bits of levels, up to the place where a transition is missing."""
        line = formats.bytes_of_bits(levels)
        return subprocess.run([self.fdr, "decode"], input=line, stdout=subprocess.PIPE, stderr=subprocess.DEVNULL, timeout=60).stdout

    def image(self, name: str) -> pathlib.Path:
        """A new image."""
        path = self.room / name
        path.unlink(missing_ok=True)
        self.run("format", TABLE, path, "--slots", SLOTS, "--payload", PAYLOAD)
        return path


def made(seed: int) -> Made:
    table = encoder.read_table(TABLE)
    words, end = encoder.generated(table, FRAMES, seed), FRAMES * 4_000_000
    recording = encoder.recording_of(table, words, end)
    return Made(encoder.trace_of(words, end), recording, recording.bits())


def sampled_rows(recording: encoder.Recording) -> list[reader.Row]:
    """The rows that a recording samples, in the units of the rules: of the values alone, and of no bits."""
    table = reader.table_of(TABLE.read_bytes())
    rows = []
    for _, counter, subframe, word, name, value in recording.rows():
        param = table.params[name.encode()]
        digits = int(value.replace(".", "").replace("-", "")) * (-1 if value.startswith("-") else 1)
        rows.append(reader.Row(counter, subframe, word, param, digits))
    return rows


def exceedances(rows: list[reader.Row]) -> list[str]:
    """The lines of the rules' exceedances in rows that are one stretch."""
    rules = reader.rules_of(reader.table_of(TABLE.read_bytes()), RULES)
    lines = [(end, place, it) for place, rule in enumerate(rules) for end, it in reader.exceedances_of(rule, rows)]
    return [it.rstrip("\n") for _, _, it in sorted(lines)]


def lines_of(output: bytes) -> list[str]:
    return output.decode().splitlines()


def rows_in(lines: list[str]) -> list[str]:
    return [line for line in lines if line.startswith("row,")]


def sessions_in(lines: list[str]) -> list[list[str]]:
    """The lines of each session of a listing, without its own line."""
    sessions: list[list[str]] = []
    for line in lines:
        if line.startswith("session,"):
            sessions.append([])
        else:
            sessions[-1].append(line)
    return sessions


def exceedances_are_those_of_the_sampled_values(programs: Programs) -> None:
    image, first, last = programs.image("exceed.img"), made(1), made(2)
    programs.run("record", TABLE, image, given=first.trace)
    before = lines_of(programs.run("exceed", TABLE, image, given=RULES))
    assert before == exceedances(sampled_rows(first.recording)), "the exceedances of one recording"
    assert before, "the rules find something"
    programs.run("record", TABLE, image, given=last.trace)
    both = lines_of(programs.run("exceed", TABLE, image, given=RULES))
    assert both == before + exceedances(sampled_rows(last.recording)), "those of the earlier session, and then of the last"


def exceedances_inside_a_surviving_run_are_listed(programs: Programs) -> None:
    drawn, frame = made(3), 48 * 256 // 8
    cut = bytearray(drawn.bits)
    cut[5 * frame : 5 * frame + 2] = b"\0\0"  # the first sync word of frame 5, and of frame 30
    cut[30 * frame : 30 * frame + 2] = b"\0\0"
    rows = [row for row in sampled_rows(drawn.recording) if 16 <= row.counter < 30]
    inside = [line for line in exceedances(rows)[1:-1] if line.startswith("exceed,high,")]
    image = programs.room / "cut.img"
    image.write_bytes(formats.recorded(formats.empty_image(SLOTS, PAYLOAD, 256), bytes(cut)))
    given = lines_of(programs.run("exceed", TABLE, image, given=RULES))
    assert len(inside) > 3 and set(inside) <= set(given), "those inside the run are listed"


def two_disks_list_back(programs: Programs) -> None:
    first, second, drawn, short = programs.image("first.img"), programs.image("second.img"), made(4), made(5)
    programs.run("pair", "record", TABLE, first, second, given=drawn.trace)
    wanted = drawn.recording.listing().splitlines()
    for side in (first, second):
        listed = lines_of(programs.run("list", TABLE, side))
        assert listed == ["session,1,0", *wanted], f"{side.name} lists what was sampled"
    programs.run("record", TABLE, first, given=short.trace)
    programs.run("pair", "record", TABLE, first, second, given=drawn.trace)
    lists = [lines_of(programs.run("list", TABLE, side)) for side in (first, second)]
    assert lists[0] == lists[1], "brought up, it lists the same"
    assert sessions_in(lists[1])[1:] == [short.recording.listing().splitlines(), wanted], "and what was sampled"
    damaged = bytearray(second.read_bytes())
    damaged[formats.slot_at(formats.shape_of(damaged), 30)] = 0
    second.write_bytes(damaged)
    rows = rows_in(lines_of(programs.run("salvage", TABLE, second)))
    assert len(rows) > 100 and set(rows) <= set(rows_in(lists[0])), "what survives on both has the same lines"


def frames_come_through_the_line_code(programs: Programs) -> None:
    drawn, chance = made(6), random.Random(6)
    levels = formats.bits_of(programs.run("encode", given=drawn.bits))
    for struck, turned in ((0, False), (1, True), (2, False), (3, True)):
        received = [level ^ turned for level in levels[struck:]] + [chance.randrange(2) for _ in range(8 * 3)]
        rows = rows_in(lines_of(programs.run("listbits", TABLE, given=programs.decoded(received))))
        sampled = rows_in(drawn.recording.listing().splitlines())
        if not struck:
            assert rows == sampled, "what is encoded comes whole"
        else:  # the first frame's first cell isn't whole
            late = [row for row in sampled if int(row.split(",")[1]) >= 16]
            assert rows[-len(late) :] == late and len(late) > 1000, f"frames whose cells came whole, {struck} levels struck"


def salvage_loses_nothing(programs: Programs) -> None:
    image, chance = programs.image("salvage.img"), random.Random(7)
    for seed in (7, 8):
        programs.run("record", TABLE, image, given=made(seed).trace)
    whole = bytearray(image.read_bytes())
    lost = chance.sample(sorted(formats.valid_blocks(bytes(whole)))[5:-40], 3)
    for number in lost:
        whole[formats.slot_at(formats.shape_of(whole), number)] = 0
    image.write_bytes(whole)
    lines = lines_of(programs.run("salvage", TABLE, image))
    runs = [tuple(map(int, line.split(",")[1:])) for line in lines if line.startswith("run,")]
    numbers = [number for first, blocks in runs for number in range(first, first + blocks)]
    assert sorted(numbers) == sorted(formats.valid_blocks(bytes(whole))), "each block is in one run, and in no other"
    last = max(at for at, line in enumerate(lines) if line.startswith("run,"))
    assert lines[last + 1 :] == lines_of(programs.run("list", TABLE, image)), "list is the last run"


def upgrade_changes_no_row(programs: Programs) -> None:
    image = programs.room / "old.img"
    bits = made(9).bits[: -(256 * 3 // 2)] + made(10).bits
    empty = formats.empty_image(SLOTS, PAYLOAD, 256, version=formats.VERSION_1)
    image.write_bytes(formats.recorded(empty, bits))
    before = lines_of(programs.run("list", TABLE, image))
    programs.run("upgrade", image)
    after = lines_of(programs.run("list", TABLE, image))
    assert after == ["session,0,0", *before] and len(rows_in(before)) > 1000, "one session: the listing after its line"


def the_report_says_what_is_sampled(programs: Programs) -> None:
    uneven = programs.room / "uneven.csv"
    uneven.write_bytes(TABLE.read_bytes() + b"P,ODD,0,301,,11,12,U,1,1,0,0,2\nL,ODD,1,12,201,0,1,12,0,16\n")
    report = lines_of(programs.run("check", uneven))
    said = {line.split(",")[1]: line.split(",")[3] for line in report if line.startswith("param,")}
    table = encoder.read_table(uneven)
    recording = encoder.recording_of(table, encoder.generated(table, 64, 11), 64 * 4_000_000)
    for parameter in table.parameters:
        times = [second for second, *_, name, _ in recording.rows() if name == parameter.name]
        distances = {round(b - a, 6) for a, b in zip(sorted(times), sorted(times)[1:])}
        assert said[parameter.name] == ("even" if len(distances) == 1 else "uneven"), parameter.name
    assert set(said.values()) == {"even", "uneven"}, "both kinds are there"


LAWS: list[Callable[[Programs], None]] = [
    exceedances_are_those_of_the_sampled_values,
    exceedances_inside_a_surviving_run_are_listed,
    two_disks_list_back,
    frames_come_through_the_line_code,
    salvage_loses_nothing,
    upgrade_changes_no_row,
    the_report_says_what_is_sampled,
]


def failures(programs: Programs) -> Iterator[str]:
    for law in LAWS:
        name = law.__name__.replace("_", " ")
        try:
            law(programs)
            print(f"{name}: so it is")
        except AssertionError as failure:
            yield f"{name}: NO: {failure}"


def main(words: list[str]) -> int:
    if len(words) != 2:
        print(__doc__, file=sys.stderr)
        return 2
    fdr, pair = (pathlib.Path(word).resolve() for word in words)
    with tempfile.TemporaryDirectory(prefix="laws-") as room:
        found = list(failures(Programs(fdr, pair, pathlib.Path(room))))
    print("\n".join(found) if found else f"{len(LAWS)} laws, as they are proved")
    return 1 if found else 0


if __name__ == "__main__":
    sys.exit(main(sys.argv[1:]))
