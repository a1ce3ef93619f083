"""`flight report`: its numbers beside what was done to each image, its sums, its inputs, what it says of refusals."""

from __future__ import annotations

import fcntl
import hashlib
import json
import os
import pathlib
import pty
import random
import re
import subprocess
import sys
from typing import Any

import pandas
import pytest

import damaged_images
import encoder
import formats
import inputs
import reader
from conftest import FLIGHT, ORDINARY, T1, TOP, Tool, Write
from test_with_program import damaged

PROGRAM = pathlib.Path(os.environ.get("FDR", TOP / "bin" / "fdr")).resolve()
EXAMPLES = sorted((TOP / "examples").glob("*.img"))
DAMAGED = damaged_images.damaged_images()
DRAWN = int(os.environ.get("FLIGHT_DRAWN", "40")) // 5  # images
RULES = "HIGH,ALT,above,120,3\nLONG,ALT,above,100,12\n"
TIMES = ("begun", "ended", "seconds", "modified", "changed")
pytestmark = pytest.mark.skipif(not PROGRAM.is_file(), reason="no program: FDR names none, and there is no bin/fdr")


def reported(flight: Tool, source: pathlib.Path, folder: pathlib.Path, *words: object, status: int = 0) -> dict[str, Any]:
    """Makes a report, and answers its findings."""
    answer = flight("report", source, "--table", T1, "--fdr", PROGRAM, "-o", folder, *words)
    assert answer.status == status, answer.error
    return dict(json.loads((folder / "findings.json").read_text()))


def text_of(folder: pathlib.Path) -> str:
    """What the page says, without its charts."""
    page = re.sub(r"(?s)<(style|script)[^>]*>.*?</\1>", "", (folder / "report.html").read_text())
    return re.sub(r"&#x27;", "'", re.sub(r"<[^>]+>", " ", page))


def counters_of(run: dict[str, Any], rows: pandas.DataFrame) -> list[int]:
    """The counters of the rows of a run, by its recordings; a frame of the small table has one row."""
    recordings = {number for session in run["sessions"] for number, _, _ in session["recordings"]}
    return [int(counter) for counter in rows[rows["recording"].isin(recordings)]["counter"]]


@pytest.mark.parametrize("one", DAMAGED, ids=[one.name for one in DAMAGED])
def test_the_numbers_are_those_of_what_was_done(
    flight: Tool, write: Write, tmp_path: pathlib.Path, one: damaged_images.Damaged
) -> None:
    source = write("x.img", one.image)
    found = reported(flight, source, tmp_path / "r", status=2 if one.refusal else 0)
    page = text_of(tmp_path / "r")
    if one.refusal:
        status, said = one.refusal
        assert [(each["status"], each["error"]) for each in found["refused"]] == [(status, said)]
        assert said in page and one.hint in page and one.hint in found["refused"][0]["try"]
        return
    assert [(run["first"], run["last"]) for run in found["runs"]] == one.runs
    assert [(hole["first"], hole["first"] + hole["blocks"] - 1) for hole in found["holes"]] == one.holes
    assert [[session["number"] for session in run["sessions"]] for run in found["runs"]] == one.sessions
    assert [run["listed"] for run in found["runs"]] == [False] * (len(one.runs) - 1) + [True]
    assert (found["pending"], found["far"], found["as_salvaged"], found["as_listed"]) == (one.pending, one.far, True, True)
    assert [number for number, run in enumerate(found["runs"]) if run["misnumbered"]] == one.misnumbered
    assert found["frames"] == found["rows"] == sum(map(len, one.counters))
    table = pandas.read_csv(tmp_path / "r" / "values.csv")
    rows = table[table["note"].isna()]
    assert [counters_of(run, rows) for run in found["runs"]] == one.counters
    assert (rows["value"] == rows["counter"] + 100).all()
    assert f"{found['frames']} whole frame" in page
    for first, last in one.holes:
        assert re.search(rf"A hole: blocks? {first} (is|to {last}, {last + 1 - first} in all, are) missing", page)
    left_out = sum(last + 1 - first for first, last in one.runs[:-1])
    assert (f"fdr list leaves out {left_out} valid block" in page) is (left_out > 0)
    assert (tmp_path / "r" / "salvage.txt").read_bytes() == reader.salvage(T1.read_bytes(), one.image).output


def test_drawn_images(flight: Tool, write: Write, tmp_path: pathlib.Path) -> None:
    """Of images with drawn damage the runs are those of the valid slots, and all is told that salvage lists."""
    for seed in range(DRAWN):
        image = damaged_images.drawn_image(seed)
        found = reported(flight, write("x.img", image), tmp_path / f"r{seed}")
        numbers = formats.valid_blocks(image)
        begins = sorted(number for number in numbers if number - 1 not in numbers)
        ends = sorted(number for number in numbers if number + 1 not in numbers)
        assert [(run["first"], run["last"]) for run in found["runs"]] == list(zip(begins, ends))
        lines = reader.salvage(T1.read_bytes(), image).output
        assert (found["as_salvaged"], found["as_listed"], found["rows"]) == (True, True, lines.count(b"row,"))
        assert len([one for one in found["missing"] if one["event"] == "gap"]) == lines.count(b"gap,")


@pytest.mark.parametrize("path", EXAMPLES, ids=[path.stem for path in EXAMPLES])
def test_the_images_of_the_examples(flight: Tool, tmp_path: pathlib.Path, path: pathlib.Path) -> None:
    """What the program wrote stands there word for word, by the second reader; and the input is as it was."""
    before = os.stat(path)
    is_headless = path.stem == "headless"
    found = reported(flight, path, tmp_path / "r", "--rules", TOP / "examples" / "rules.csv", status=2 if is_headless else 0)
    after = os.stat(path)
    assert [getattr(before, name) == getattr(after, name) for name in ("st_size", "st_mtime_ns", "st_ctime_ns", "st_ino")] == [True] * 4
    table, image = T1.read_bytes(), path.read_bytes()
    if is_headless:
        assert found["refused"][0]["try"].endswith("--slots 16 --payload 64")
        return
    folder = tmp_path / "r"
    assert (folder / "salvage.txt").read_bytes() == reader.salvage(table, image).output
    assert (folder / "listing.txt").read_bytes() == reader.list_image(table, image).output
    assert (folder / "recovered.bin").read_bytes() == reader.recover(image).output
    assert (folder / "check.txt").read_bytes() == reader.check(table).output
    rules = (TOP / "examples" / "rules.csv").read_bytes()
    assert (folder / "exceed.txt").read_bytes() == reader.exceed(table, image, rules).output


def test_an_image_whose_header_is_gone(flight: Tool, tmp_path: pathlib.Path) -> None:
    words = ("--slots", 16, "--payload", 64, "--rules", TOP / "examples" / "rules.csv")
    found = reported(flight, TOP / "examples" / "headless.img", tmp_path / "r", *words)
    assert [(run["first"], run["last"]) for run in found["runs"]] == [(0, 7), (9, 11)]
    assert [(one["name"], one["begins"]) for one in found["exceedances"]] == [("ALT_LOW", [{"recording": 1, "time": 0.140625}])]


def test_an_image_that_another_process_has_locked(flight: Tool, write: Write, tmp_path: pathlib.Path) -> None:
    source = write("x.img", damaged_images.whole_image())
    with open(source, "rb") as held:
        fcntl.flock(held, fcntl.LOCK_EX)
        found = reported(flight, source, tmp_path / "r", status=2)
    assert [(one["status"], one["error"].splitlines()[-1]) for one in found["refused"]] == [(10, "fdr: disk fault")]
    assert "copy the image" in text_of(tmp_path / "r")
    with open(source, "rb") as free:
        fcntl.flock(free, fcntl.LOCK_EX | fcntl.LOCK_NB)


def test_the_newest_announcement(flight: Tool, write: Write, tmp_path: pathlib.Path) -> None:
    last = damaged_images.BLOCKS
    image = damaged_images.closed(damaged_images.whole_image(), [last - 1])
    acks = write("acks", "".join(f"ack {number}\n" for number in range(last + 1)) + "fdr: disk fault\n")
    found = reported(flight, write("x.img", image), tmp_path / "r", "--acks", acks)
    assert found["acks"] == {"newest": last, "held": False}
    assert f"ack {last}: block {last - 1} was durable. The image does not hold it. Other lines: fdr: disk fault." in text_of(tmp_path / "r")
    whole = reported(flight, write("y.img", damaged_images.whole_image()), tmp_path / "s", "--acks", acks)
    assert whole["acks"] == {"newest": last, "held": True}


def test_how_a_recording_ends(flight: Tool, write: Write, tmp_path: pathlib.Path) -> None:
    """Two frames, then two subframes and 100 words of the third, whatever is after that in the last block."""
    part = inputs.t1_frame(2, 9)[:192] + inputs.t1_frame(2, 9)[192:254]
    bits = inputs.t1_frame(0, 5) + inputs.t1_frame(1, 7) + part
    image = formats.recorded(formats.empty_image(32, 64), bits)
    found = reported(flight, write("x.img", image), tmp_path / "r")
    ending = found["runs"][-1]["sessions"][-1]["ending"]
    assert ending == {
        "frames": 2, "first_counter": 0, "last_counter": 1, "last_bit": 3072, "subframes": 2, "bits_after": 8 * len(part)
    }
    assert "The last whole frame has counter 1 and begins at bit 3072. After it are 2 whole subframes" in text_of(tmp_path / "r")


def test_bits(flight: Tool, write: Write, tmp_path: pathlib.Path) -> None:
    """Bits with foreign bytes in them: listed by listbits, and events of an image that is made of them."""
    frames = [inputs.t1_frame(counter, 100 + counter) for counter in range(30)]
    bits = b"".join(frames[:10]) + b"\x11" * 40 + b"".join(frames[10:])
    found = reported(flight, write("x.bits", bits), tmp_path / "r", "--rules", write("rules", RULES))
    assert (found["is_image"], found["frames"], found["rows"]) == (False, 30, 30)
    assert [(one["event"], one["bit"], one["bits"]) for one in found["missing"]] == [("gap", 30720, 320)]
    assert (tmp_path / "r" / "listing.txt").read_bytes() == reader.listbits(T1.read_bytes(), bits).output
    assert reader.recover((tmp_path / "r" / "dump.img").read_bytes()).output == bits
    said = [(one["name"], one["counter"], one["length"], one["begins"]) for one in found["exceedances"]]
    assert said == [("HIGH", 21, 9, [{"recording": 1, "time": 84 + 9 / 64}]), ("LONG", 10, 20, [{"recording": 1, "time": 40 + 9 / 64}])]
    assert "made an image by flight image" in text_of(tmp_path / "r")


def test_doubtful_frames_are_named(flight: Tool, write: Write, tmp_path: pathlib.Path) -> None:
    """A byte is put into subframe 4 of a frame, which is listed all the same, since its four sync words stand."""
    frames = [inputs.t1_frame(counter, 100 + counter) for counter in range(20)]
    at = len(frames[7]) * 7 // 8
    frames[7] = frames[7][:at] + b"\x11" + frames[7][at:]
    reported(flight, write("x.bits", b"".join(frames)), tmp_path / "r")
    said = text_of(tmp_path / "r")
    [line] = [line for line in (tmp_path / "r" / "parts.txt").read_text().splitlines() if line.startswith("doubtful,")]
    assert line.split(",")[1:3] == ["7", "4"]
    assert "These frames are doubtful" in said and line.split(",", 6)[6] in said
    assert said.index("What is missing or doubtful") < said.index("These frames are doubtful") < said.index("What this rests on")


@pytest.mark.parametrize("seed", range(4))
def test_bits_with_drawn_damage(flight: Tool, write: Write, tmp_path: pathlib.Path, seed: int) -> None:
    """A second search for the frames finds those of the program, and every gap has its place."""
    table = encoder.read_table(ORDINARY)
    bits = encoder.recording_of(table, encoder.generated(table, 30, 3), 120_000_000).bits()
    data = damaged(bits, 6 * table.words, random.Random(seed))
    answer = flight("report", write("x.bits", data), "--table", ORDINARY, "--fdr", PROGRAM, "-o", tmp_path / "r")
    assert (answer.status, answer.error) == (0, "")
    found = json.loads((tmp_path / "r" / "findings.json").read_text())
    listing = reader.listbits(ORDINARY.read_bytes(), data).output.decode().splitlines()
    gaps = [tuple(map(int, line.split(",")[1:])) for line in listing if line.startswith("gap,")]
    assert [(one["bit"], one["bits"]) for one in found["missing"] if one["event"] == "gap"] == gaps
    assert (found["as_listed"], found["rows"]) == (True, len(listing) - len(gaps))
    assert found["frames"] == (8 * len(data) - sum(size for _, size in gaps)) // (48 * table.words)


def test_how_long_each_rule_was_watched(flight: Tool, write: Write, tmp_path: pathlib.Path) -> None:
    """A byte is put in after every fifth frame, so no rule of twelve values can be seen; one of three is watched all the time."""
    frames = [inputs.t1_frame(counter, 150) for counter in range(40)]
    bits = b"".join(frame + (b"\x11" if number % 5 == 4 else b"") for number, frame in enumerate(frames))
    found = reported(flight, write("x.bits", bits), tmp_path / "r", "--rules", write("rules", RULES))
    watched = {one["rule"]["name"]: (one["stretches"], one["seconds"], one["short"], one["short_seconds"]) for one in found["watched"]}
    assert watched == {"HIGH": (8, 160, 0, 0), "LONG": (0, 0, 8, 160)}
    assert {one["name"] for one in found["exceedances"]} == {"HIGH"}
    assert "Could not be seen at all: LONG." in text_of(tmp_path / "r")


def test_exceedances_of_runs_that_list_leaves_out(flight: Tool, write: Write, tmp_path: pathlib.Path) -> None:
    image = damaged_images.closed(damaged_images.whole_image(), [200])
    found = reported(flight, write("x.img", image), tmp_path / "r", "--rules", write("rules", RULES))
    assert (tmp_path / "r" / "exceed.txt").read_text() == "exceed,HIGH,34,1,10,6,139\n"
    said = [(one["name"], one["counter"], one["length"], one["peak"], len(one["begins"])) for one in found["exceedances"]]
    assert said == [("HIGH", 21, 12, "132", 1), ("LONG", 1, 32, "132", 1), ("HIGH", 34, 6, "139", 1)]


def test_values_that_never_change_or_are_at_an_end(flight: Tool, write: Write, tmp_path: pathlib.Path) -> None:
    table = write("t.csv", T1.read_text() + "P,STILL,0,204,,11,4,S,1,1,0,0,16\nL,STILL,2,1,11,0,1,4,0,1\n".replace("STILL,2,1", "STILL,1,2"))
    frames = b"".join(formats.frame({(1, 2): at, (1, 10): 4095 if at < 3 else 7, (2, 11): 0b1000}) for at in range(10))
    image = formats.recorded(formats.empty_image(64, 64), frames)
    write("t.describe.csv", "unit,ALT,ft,Pressure altitude\n")
    answer = flight("report", write("x.img", image), "--table", table, "--fdr", PROGRAM, "-o", tmp_path / "r")
    assert (answer.status, answer.error) == (0, "")
    assert json.loads((tmp_path / "r" / "manifest.json").read_text())["inputs"]["description"]["path"] == str(tmp_path / "t.describe.csv")
    found = json.loads((tmp_path / "r" / "findings.json").read_text())["parameters"]
    assert (found["ALT"]["at_greatest"], found["STILL"]["at_least"], found["STILL"]["least"], found["STILL"]["greatest"]) == (3, 10, -8, -8)
    page = text_of(tmp_path / "r")
    assert "never changes; 10 values at the least of its range, -8" in page and "3 values at the greatest of its range, 4095" in page
    assert "ALT: Pressure altitude" in page and " ft " in page


def test_the_sums_are_checked_by_sha256sum(flight: Tool, write: Write, tmp_path: pathlib.Path) -> None:
    source = write("x.img", damaged_images.whole_image())
    folder = tmp_path / "r"
    reported(flight, source, folder, "--rules", write("rules", RULES))
    checked = subprocess.run(["sha256sum", "--strict", "-c", "SHA256SUMS"], cwd=folder, capture_output=True, text=True)
    names = sorted(path.name for path in folder.iterdir())
    assert checked.returncode == 0
    assert sorted(line.removesuffix(": OK") for line in checked.stdout.splitlines()) == [one for one in names if one != "SHA256SUMS"]
    manifest = json.loads((folder / "manifest.json").read_text())
    listed = [(one["sha256"], name) for name, one in manifest["outputs"].items()]
    listed += [(one["sha256"], one["path"]) for one in (*manifest["inputs"].values(), manifest["program"])]
    lines = "".join(f"{total}  {name}\n" for total, name in listed)
    again = subprocess.run(["sha256sum", "--strict", "-c"], cwd=folder, input=lines, capture_output=True, text=True)
    assert (again.returncode, again.stdout.count(": OK")) == (0, len(listed))
    assert sorted(manifest["outputs"]) == [one for one in names if one not in ("SHA256SUMS", "manifest.json")]


def without_times(value: Any) -> Any:
    """A value of JSON without its times, and without sums, which times change."""
    if isinstance(value, dict):
        return {name: without_times(one) for name, one in value.items() if name not in (*TIMES, "outputs")}
    return [without_times(one) for one in value] if isinstance(value, list) else value


def test_two_reports_differ_in_times_alone(flight: Tool, write: Write, tmp_path: pathlib.Path) -> None:
    source, rules = write("x.img", damaged_images.closed(damaged_images.whole_image(), [100])), write("rules", RULES)
    for name in ("r", "s"):
        reported(flight, source, tmp_path / name, "--rules", rules, "--start", "2026-05-04T10:00:00Z")
    one, other = tmp_path / "r", tmp_path / "s"
    assert sorted(path.name for path in one.iterdir()) == sorted(path.name for path in other.iterdir())
    with_times = {"manifest.json", "commands.json", "SHA256SUMS", "report.html", "values.h5"}
    for path in one.iterdir():
        if path.name not in with_times:
            assert path.read_bytes() == (other / path.name).read_bytes(), path.name
    for name in ("manifest.json", "commands.json"):
        first, second = (without_times(json.loads((folder / name).read_text())) for folder in (one, other))
        assert first == second
    pages = [re.sub(r"Made at [^.]*\.", "", (folder / "report.html").read_text()) for folder in (one, other)]
    assert pages[0] == pages[1]
    for key in ("samples", "notes"):
        pandas.testing.assert_frame_equal(pandas.read_hdf(one / "values.h5", key), pandas.read_hdf(other / "values.h5", key))


def test_inputs_stay_as_they_are(flight: Tool, write: Write, tmp_path: pathlib.Path) -> None:
    source, rules, acks = write("x.img", damaged_images.whole_image()), write("rules", RULES), write("acks", "ack 0\n")
    paths = [source, rules, acks]
    for path in paths:
        os.chmod(path, 0o444)
    before = [(os.stat(path).st_mtime_ns, os.stat(path).st_ctime_ns, path.read_bytes()) for path in paths]
    reported(flight, source, tmp_path / "r", "--rules", rules, "--acks", acks)
    assert [(os.stat(path).st_mtime_ns, os.stat(path).st_ctime_ns, path.read_bytes()) for path in paths] == before
    assert sorted(path.name for path in tmp_path.iterdir()) == ["acks", "r", "rules", "x.img"]
    with open(source, "rb") as free:
        fcntl.flock(free, fcntl.LOCK_EX | fcntl.LOCK_NB)


def test_a_bar_on_a_terminal_alone(write: Write, tmp_path: pathlib.Path) -> None:
    source = write("x.img", damaged_images.whole_image())
    words = [sys.executable, str(FLIGHT), "report", str(source), "--table", str(T1), "--fdr", str(PROGRAM), "-o"]
    quiet = subprocess.run([*words, tmp_path / "r"], capture_output=True)
    assert (quiet.returncode, quiet.stdout, quiet.stderr) == (0, b"", b"")
    main, other = pty.openpty()
    assert subprocess.run([*words, tmp_path / "s"], stderr=other).returncode == 0
    os.close(other)
    said = os.read(main, 10_000).decode()
    os.close(main)
    steps = re.findall(r"\[(#*) *\] ([a-z ]+?) (?=\r)", said)
    assert [name for _, name in steps] == ["sums", "fdr check", "fdr salvage", "fdr list", "fdr recover", "parts", "values", "page"]
    assert [len(bar) for bar, _ in steps] == sorted(len(bar) for bar, _ in steps)
    assert said.endswith("\r\x1b[K")


def test_a_step_that_fails_leaves_nothing(flight: Tool, write: Write, tmp_path: pathlib.Path) -> None:
    """A program that changes what it is given: there is no report of that."""
    source = write("x.img", damaged_images.whole_image())
    program = write("fdr", f'#!/bin/sh\nprintf x >> {source}\nexec {PROGRAM} "$@"\n')
    os.chmod(program, 0o755)
    answer = flight("report", source, "--table", T1, "--fdr", program, "-o", tmp_path / "r")
    assert answer.status == 1
    assert answer.error == f"flight: {source}: it changed while it was read, so there is no report of it; copy it and read the copy\n"
    assert sorted(path.name for path in tmp_path.iterdir()) == ["fdr", "x.img"]


def test_wrong_words(flight: Tool, write: Write, tmp_path: pathlib.Path) -> None:
    source = write("x.img", damaged_images.whole_image())
    (tmp_path / "there").mkdir()
    write("there/file", "")
    words = ("report", source, "--table", T1, "--fdr", PROGRAM)
    assert "nothing is written over it" in flight(*words, "-o", tmp_path / "there").error
    assert flight(*words, "-o", tmp_path / "r", "--slots", 16).error == "flight: --slots and --payload go together\n"
    assert flight(*words[:-1], tmp_path / "none", "-o", tmp_path / "r").error == f"flight: {tmp_path / 'none'}: no program\n"
    assert flight("report", tmp_path, *words[2:], "-o", tmp_path / "r").error.endswith("a report reads its inputs several times\n")
    assert not (tmp_path / "r").exists()


def test_a_refused_table_and_refused_rules(flight: Tool, write: Write, tmp_path: pathlib.Path) -> None:
    source = write("x.img", damaged_images.whole_image())
    answer = flight("report", source, "--table", write("t", "F,64,2\n"), "--fdr", PROGRAM, "-o", tmp_path / "r")
    assert (answer.status, answer.error) == (2, "flight: fdr check refused: fdr: table row 0: shape; the report says what to try\n")
    found = reported(flight, source, tmp_path / "s", "--rules", write("rules", "A,SPD,above,1,1\n"), status=2)
    assert [(one["command"], one["error"]) for one in found["refused"]] == [("exceed", "fdr: rule row 0: unknown name")]
    assert (found["rows"], found["watched"]) == (40, [])


def test_a_recording_of_two_flights_by_the_ordinary_table(flight: Tool, write: Write, tmp_path: pathlib.Path) -> None:
    """Values, times and dates of a table with several parameters are those that were sampled."""
    table = encoder.read_table(ORDINARY)
    recordings = [encoder.recording_of(table, encoder.generated(table, count, count), count * 4_000_000) for count in (8, 5)]
    image = formats.empty_image(64, 1024, words=256)
    for recording in recordings:
        image = formats.recorded(image, recording.bits())
    answer = flight(
        "report", write("x.img", image), "--table", ORDINARY, "--fdr", PROGRAM, "-o", tmp_path / "r", "--start", "2026-05-04T10:00:00Z"
    )
    assert (answer.status, answer.error) == (0, "")
    rows = pandas.read_csv(tmp_path / "r" / "values.csv", dtype=str)
    rows = rows[rows["note"].isna()]
    sampled = [(str(at), f"{row[0]:.6f}", row[4], row[5]) for at, one in enumerate(recordings, 1) for row in one.rows()]
    assert list(zip(rows["recording"], rows["time"], rows["name"], rows["value"])) == sampled
    assert rows["date"].iloc[0].startswith("2026-05-04T10:00:00") and rows["date"].isna().sum() == len(recordings[1].rows())
    store = pandas.read_hdf(tmp_path / "r" / "values.h5", "samples")
    assert [f"{value:g}" for value in store["value"]] == [f"{float(value):g}" for value in rows["value"]]
    digest = hashlib.sha256((tmp_path / "r" / "salvage.txt").read_bytes()).hexdigest()
    with pandas.HDFStore(tmp_path / "r" / "values.h5", mode="r") as opened:
        assert opened.root._v_attrs["listing_sha256"] == digest
