"""The program beside the tools, where it is: what it says of a table."""

import os
import pathlib
import re
import shutil
import subprocess
from dataclasses import dataclass

from .faults import Fault

BUILT = pathlib.Path(__file__).resolve().parents[2] / "bin" / "fdr"


@dataclass(frozen=True)
class TableFault:
    """The first fault of a table: its row, counted from 0, and what is wrong."""

    row: int
    text: str


def fdr() -> str | None:
    """The program: what FDR names, or `fdr` on the path, or the one that is built here."""
    for one in (os.environ.get("FDR"), shutil.which("fdr"), str(BUILT)):
        if one and os.path.isfile(one) and os.access(one, os.X_OK):
            return os.path.abspath(one)
    return None


def first_fault(program: str, table: pathlib.Path) -> TableFault | None:
    """What `fdr check` has against a table."""
    ran = subprocess.run([program, "check", str(table)], stdin=subprocess.DEVNULL, capture_output=True, text=True)
    if ran.returncode == 0:
        return None
    said = ran.stderr.strip().splitlines()[-1:] or [f"status {ran.returncode}"]
    found = re.fullmatch(r"fdr: table row (\d+): (.*)", said[0])
    if not found:
        raise Fault(f"{program} check: {said[0]}")
    return TableFault(int(found.group(1)), found.group(2))
