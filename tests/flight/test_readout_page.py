"""Goes the walk of docs/READOUT.md, line by line, in a folder that is like the top of the repository."""

import pathlib
import re
import subprocess

import drawn_dumps
from conftest import TOP

PAGE = TOP / "docs" / "READOUT.md"


def walk() -> list[tuple[str, str]]:
    """The lines that are typed, and what the page shows below each."""
    steps: list[tuple[str, str]] = []
    for block in re.findall(r"^```\n(.*?)^```$", PAGE.read_text(), re.MULTILINE | re.DOTALL):
        if block.startswith("$ "):
            for step in re.split(r"^\$ ", block, flags=re.MULTILINE)[1:]:
                line, _, shown = step.partition("\n")
                steps.append((line, shown))
    return steps


def test_the_walk_of_the_page(tmp_path: pathlib.Path) -> None:
    steps = walk()
    assert len(steps) == 14
    (tmp_path / "examples").symlink_to(TOP / "examples")
    with drawn_dumps.programs() as environment:
        folder = environment["PATH"].split(":")[0]
        for line, shown in steps:
            ran = subprocess.run(
                ["bash", "-o", "pipefail", "-c", line], cwd=tmp_path, env=environment, capture_output=True, text=True
            )
            said = (ran.stdout + ran.stderr).replace(f"{folder}/flight", "flight")
            said = re.sub(r"sha256 [0-9a-f]{64}", "sha256 SUM", said)
            assert (line, ran.returncode, said) == (line, 0, shown)
    assert (tmp_path / "flight.png").read_bytes().startswith(b"\x89PNG")
