"""examples/recorder/record.sh and its units: one recording after another, what ends it for good, and one disk of two."""

import contextlib
import fcntl
import os
import pathlib
import re
import shutil
import signal
import subprocess
import threading
import time
from typing import Callable, Iterator

import pytest

from conftest import T1
from feeding import PATIENCE, Fed, lines_of, odd_words, program

RECORDER = pathlib.Path(__file__).resolve().parent.parent.parent / "examples" / "recorder"
SCRIPT = RECORDER / "record.sh"
FIVE, SEVEN = 0x000014C1, 0x80001CC1
Start = Callable[..., Fed]
FAKE = """#!/bin/bash
# A recorder that answers at once.
echo run >> {folder}/runs
echo "ack 0" >&2
fincore --noheadings --output PAGES "$3" >> {folder}/pages 2> /dev/null
echo "fdr: $3: a cause" >&2
echo "fdr: answer {status}" >&2
exit {status}
"""


@pytest.fixture(scope="session")
def built(tmp_path_factory: pytest.TempPathFactory) -> pathlib.Path:
    """The source of source.c."""
    compiler = shutil.which("cc")
    if not compiler:
        pytest.skip("there is no cc")
    made = tmp_path_factory.mktemp("source") / "source"
    subprocess.run([compiler, "-O2", "-o", made, RECORDER / "source.c"], check=True, timeout=PATIENCE)
    return made


@pytest.fixture
def service(tmp_path: pathlib.Path) -> Iterator[Start]:
    """Starts the script, with its acknowledgements in the test's folder."""
    started: list[Fed] = []

    def start(*words: object, fdr: object = None) -> Fed:
        os.environ.update(ACKS=str(tmp_path / "acks"), PAUSE="0.1", LOCK_WAIT="20", FDR=str(fdr or program()))
        os.environ["FDRPAIR"] = str(fdr or os.environ["FDR"] + "pair")
        started.append(Fed([SCRIPT, *map(str, words)]))
        return started[-1]

    before = dict(os.environ)
    yield start
    for one in started:
        one.child.terminate()
        one.let_go()
    os.environ.clear()
    os.environ.update(before)


def image_of(path: pathlib.Path, slots: int = 2048) -> pathlib.Path:
    """A new image, by a table of frames so large that each beat brings 24 blocks, which is put beside it."""
    table = path.parent / "table.csv"
    table.write_text(T1.read_text().replace("F,64,", "F,1024,"))
    words = [program(), "format", table, path, "--slots", str(slots), "--payload", "64"]
    subprocess.run([str(word) for word in words], check=True, timeout=PATIENCE)
    return path


def listed(image: pathlib.Path) -> list[str]:
    """The lines of its listing."""
    words = [str(program()), "list", str(image.parent / "table.csv"), str(image)]
    return subprocess.run(words, capture_output=True, text=True, check=True, timeout=PATIENCE).stdout.splitlines()


def acks(folder: pathlib.Path) -> list[int]:
    """The acknowledged numbers, which all have their times."""
    text = (folder / "acks").read_text() if (folder / "acks").exists() else ""
    lines = [re.fullmatch(r"20\d\d-\d\d-\d\dT\d\d:\d\d:\d\dZ (.*)", line) for line in text.splitlines()]
    return [int(line[1][4:]) for line in lines if line and line[1].startswith("ack ")]


def until(is_so: Callable[[], bool]) -> None:
    """Waits until this is so."""
    last = time.monotonic() + PATIENCE
    while not is_so():
        assert time.monotonic() < last, "it didn't come to be so"
        time.sleep(0.02)


def of_kin(parent: int, name: str) -> list[int]:
    """The children of a process that have this name."""
    found = []
    for one in pathlib.Path(f"/proc/{parent}/task/{parent}/children").read_text().split():
        with contextlib.suppress(FileNotFoundError, ProcessLookupError):  # it has just ended
            if pathlib.Path(f"/proc/{one}/comm").read_text().strip() == name:
                found.append(int(one))
    return found


def test_it_records_until_sigterm(service: Start, built: pathlib.Path, tmp_path: pathlib.Path) -> None:
    image = image_of(tmp_path / "a.img")
    fed = service(image.parent / "table.csv", image, "--", built, "--to", "{}", "0=-")
    fed.give(lines_of([FIVE]))
    until(lambda: len(acks(tmp_path)) > 20)
    fed.child.terminate()
    status, _, error = fed.ended()
    assert status == 0
    assert "the source ended with 0" in error
    assert listed(image)[0] == "session,1,0"


def test_recordings_follow_each_other_and_lose_no_word(
    service: Start, built: pathlib.Path, tmp_path: pathlib.Path
) -> None:
    """What a recorder hadn't read, the source would count as lost, and what found no room as dropped."""
    image = image_of(tmp_path / "a.img")
    fed = service(image.parent / "table.csv", image, "--", built, "--rotate", "300ms", "--to", "{}", "0=-")
    given = 0
    while len(acks(tmp_path)) < 40:
        fed.give(lines_of(odd_words(50, given)))
        given += 50
        time.sleep(0.05)
    time.sleep(0.2)
    fed.child.terminate()
    status, _, error = fed.ended()
    assert status == 0
    assert f"source: {given} words, 0 dropped, 0 lost, 0 bad" in error
    sessions = [line.split(",") for line in listed(image) if line.startswith("session")]
    assert len(sessions) >= 2
    assert [int(one[1]) for one in sessions] == list(range(1, len(sessions) + 1))
    assert acks(tmp_path)[-1] >= int(sessions[-1][2])


def test_killed_ones_are_begun_again(service: Start, built: pathlib.Path, tmp_path: pathlib.Path) -> None:
    image = image_of(tmp_path / "a.img")
    fed = service(image.parent / "table.csv", image, "--", built, "--to", "{}", "0=/dev/ptmx")
    for count in range(1, 3):
        until(lambda: bool(of_kin(fed.child.pid, "source")) and len(set(acks(tmp_path))) > 20 * count)
        killed = {*of_kin(fed.child.pid, "source"), *of_kin(fed.child.pid, program().name)}
        for one in killed:
            os.kill(one, signal.SIGKILL)
        until(lambda: bool(set(of_kin(fed.child.pid, "source")) - killed))
    fed.child.terminate()
    assert fed.ended()[0] == 0
    assert len([line for line in listed(image) if line.startswith("session")]) >= 2


def fake(folder: pathlib.Path, status: int) -> pathlib.Path:
    """A recorder that answers this at once."""
    made = folder / "fake"
    made.write_text(FAKE.format(folder=folder, status=status))
    made.chmod(0o755)
    return made


def runs(folder: pathlib.Path) -> int:
    """How often it was started."""
    return len((folder / "runs").read_text().splitlines()) if (folder / "runs").exists() else 0


@pytest.mark.parametrize("status", [1, 2, 4, 5, 6, 7, 13, 15, 16, 18, 19])
def test_what_ends_it_for_good(service: Start, tmp_path: pathlib.Path, status: int) -> None:
    images = [tmp_path / "a.img", tmp_path / "b.img"]
    for image in images:
        image.write_bytes(b"image")
    fed = service(T1, *images, "--", "sleep", "60", fdr=fake(tmp_path, status))
    ended, _, error = fed.ended()
    assert (ended, runs(tmp_path)) == (status, 1)
    assert f"ALARM: stopped for good, status {status}: fdr: {images[0]}: a cause; fdr: answer {status}; " in error


@pytest.mark.parametrize("status", [0, 3, 8, 10])
def test_what_it_begins_again_after(service: Start, tmp_path: pathlib.Path, status: int) -> None:
    image = tmp_path / "a.img"
    image.write_bytes(b"image")
    fed = service(T1, image, "--", "sleep", "60", fdr=fake(tmp_path, status))
    until(lambda: runs(tmp_path) >= 3)
    fed.child.terminate()
    _, _, error = fed.ended()
    assert "stopped for good" not in error
    told = f"fdr: {image}: a cause; fdr: answer {status}"
    assert (f"the recorder ended with {status}: {told}" in error) == (status != 0)
    assert (f"ALARM: {told}" in error) == (status == 10)


def test_no_memory_is_tried_three_times(service: Start, tmp_path: pathlib.Path) -> None:
    (tmp_path / "a.img").write_bytes(b"image")
    fed = service(T1, tmp_path / "a.img", "--", "sleep", "60", fdr=fake(tmp_path, 12))
    ended, _, error = fed.ended()
    assert (ended, runs(tmp_path)) == (12, 3)
    assert "stopped for good, status 12" in error


def test_a_source_that_never_starts(service: Start, tmp_path: pathlib.Path) -> None:
    image = image_of(tmp_path / "a.img")
    fed = service(tmp_path / "table.csv", image, "--", tmp_path / "none", "--to", "{}")
    ended, _, error = fed.ended()
    assert ended == 1
    assert "stopped for good: the source ended three times as soon as it was started" in error


def test_pages_of_an_image_are_let_go_of(service: Start, tmp_path: pathlib.Path) -> None:
    """What a run before left in the system's memory isn't what the disk has, after a failure."""
    if not shutil.which("fincore"):
        pytest.skip("there is no fincore")
    image = tmp_path / "a.img"
    image.write_bytes(bytes(1 << 20))
    if subprocess.run(["findmnt", "-nT", image, "-o", "FSTYPE"], capture_output=True).stdout.strip() in (b"tmpfs", b"ramfs"):
        pytest.skip("the image is in memory")
    fed = service("--once", T1, image, "--", "sleep", "60", fdr=fake(tmp_path, 0))
    fed.ended()
    assert (tmp_path / "pages").read_text().split() == ["0"]


def test_it_waits_for_the_lock_of_a_reader(service: Start, built: pathlib.Path, tmp_path: pathlib.Path) -> None:
    image = image_of(tmp_path / "a.img")
    with open(image, "rb") as held:
        fcntl.flock(held, fcntl.LOCK_SH)
        fed = service(image.parent / "table.csv", image, "--", built, "--to", "{}", "0=-")
        time.sleep(0.5)
        assert acks(tmp_path) == []
    until(lambda: len(acks(tmp_path)) > 1)
    fed.child.terminate()
    status, _, error = fed.ended()
    assert (status, "the recorder ended with" in error) == (0, False)


def test_one_disk_of_two_is_not_there(service: Start, built: pathlib.Path, tmp_path: pathlib.Path) -> None:
    program("fdrpair")
    first, second = image_of(tmp_path / "a.img"), image_of(tmp_path / "b.img")
    away = second.rename(tmp_path / "away")
    mark = tmp_path / "a.img.alone"

    def record(least: int) -> str:
        before = len(acks(tmp_path))
        fed = service(tmp_path / "table.csv", first, second, "--", built, "--to", "{}", "0=-")
        until(lambda: len(acks(tmp_path)) >= before + least)
        fed.child.terminate()
        status, _, error = fed.ended()
        assert status == 0
        return error

    assert "ALARM: only " in record(20)
    assert mark.exists() and not second.exists()
    away.rename(second)
    assert "ALARM" not in record(20)
    assert not mark.exists()
    assert first.read_bytes() == second.read_bytes()


def test_two_images_that_each_went_on_alone(service: Start, tmp_path: pathlib.Path) -> None:
    images = [tmp_path / "a.img", tmp_path / "b.img"]
    for image in images:
        image.write_bytes(b"image")
        (tmp_path / f"{image.name}.alone").touch()
    fed = service(T1, *images, "--", "sleep", "60", fdr=fake(tmp_path, 0))
    ended, _, error = fed.ended()
    assert (ended, runs(tmp_path)) == (16, 0)
    assert "each of the two images went on alone" in error


def test_a_disk_that_fails_leaves_a_mark_at_the_other(service: Start, tmp_path: pathlib.Path) -> None:
    images = [tmp_path / "a.img", tmp_path / "b.img"]
    for image in images:
        image.write_bytes(b"image")
    made = fake(tmp_path, 0)
    made.write_text(made.read_text().replace('echo "ack 0"', 'echo "fault first" >&2; echo "ack 0"'))
    os.environ["ALARM"] = f"touch {tmp_path}/alarmed"
    fed = service("--once", T1, *images, "--", "sleep", "60", fdr=made)
    fed.ended()
    assert (tmp_path / "b.img.alone").exists() and not (tmp_path / "a.img.alone").exists()
    assert (tmp_path / "alarmed").exists()


@pytest.mark.parametrize("words", [[], ["t"], ["t", "a", "--"], ["t", "--", "s"], ["t", "a", "b", "c", "--", "s"], ["t", "a", "s", "x"]])
def test_wrong_words(words: list[str]) -> None:
    ran = subprocess.run([SCRIPT, *words], capture_output=True, text=True, timeout=PATIENCE)
    assert ran.returncode == 1
    assert ran.stderr.startswith("usage: record.sh ")


def test_units(tmp_path: pathlib.Path) -> None:
    """The units are as systemd wants them, with the script from here in place of the installed one."""
    if not shutil.which("systemd-analyze"):
        pytest.skip("there is no systemd-analyze")
    units = []
    for unit in sorted(RECORDER.glob("*.service")):
        units.append(tmp_path / unit.name)
        units[-1].write_text(unit.read_text().replace("/usr/local/share/doc/fdr/examples/recorder", str(RECORDER)))
    ran = subprocess.run(["systemd-analyze", "verify", *units], capture_output=True, text=True, timeout=PATIENCE)
    assert len(units) == 2
    assert (ran.returncode, ran.stdout, ran.stderr) == (0, "", "")


def test_the_script_is_plain() -> None:
    if not shutil.which("shellcheck"):
        pytest.skip("there is no shellcheck")
    ran = subprocess.run(["shellcheck", SCRIPT], capture_output=True, text=True, timeout=PATIENCE)
    assert (ran.returncode, ran.stdout) == (0, "")
