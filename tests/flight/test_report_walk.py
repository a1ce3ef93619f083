"""Goes the walk of examples/DAMAGED.md, line by line, in a copy of its folder."""

from __future__ import annotations

import os
import pathlib
import re
import shutil
import subprocess

import pytest

import drawn_dumps
from conftest import TOP

PAGE = TOP / "examples" / "DAMAGED.md"
PROGRAM = pathlib.Path(os.environ.get("FDR", TOP / "bin" / "fdr")).resolve()


def walk() -> list[tuple[str, str]]:
    """The lines that are typed, and what the page shows below each."""
    steps: list[tuple[str, str]] = []
    for block in re.findall(r"^```\n(.*?)^```$", PAGE.read_text(), re.MULTILINE | re.DOTALL):
        for step in re.split(r"^\$ ", block, flags=re.MULTILINE)[1:]:
            line, _, shown = step.partition("\n")
            steps.append((line, shown))
    return steps


@pytest.mark.skipif(not PROGRAM.is_file(), reason="no program: FDR names none, and there is no bin/fdr")
def test_the_walk_over_a_damaged_image(tmp_path: pathlib.Path, monkeypatch: pytest.MonkeyPatch) -> None:
    steps = walk()
    assert len(steps) == 16
    for name in ("ordinary.csv", "limits.csv", "make_flight.py"):
        shutil.copy(TOP / "examples" / name, tmp_path)
    monkeypatch.setenv("FDR", str(PROGRAM))
    with drawn_dumps.programs() as environment:
        for line, shown in steps:
            ran = subprocess.run(["bash", "-c", line], cwd=tmp_path, env={**environment, "LC_ALL": "C"}, capture_output=True, text=True)
            assert (line, ran.returncode, ran.stdout + ran.stderr) == (line, 0, shown)
