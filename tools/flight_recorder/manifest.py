"""What a report was made of, by what, and what is in it: manifest.json, and SHA256SUMS for `sha256sum -c`."""

from __future__ import annotations

import datetime
import importlib.metadata
import json
import os
import pathlib
import platform
from typing import Any

from .evidence import Inputs, sum_of
from .running import Program

MANIFEST, SUMS = "manifest.json", "SHA256SUMS"
HERE = pathlib.Path(__file__).resolve().parent
PACKAGES = ("numpy", "pandas", "tables")


def now() -> datetime.datetime:
    """The time."""
    return datetime.datetime.now(datetime.timezone.utc)


def version() -> str:
    """The version of the tools, where its file is beside them."""
    found = [folder / "VERSION" for folder in HERE.parents[:2] if (folder / "VERSION").is_file()]
    return found[0].read_text().split()[0] if found else ""


def write_manifest(folder: pathlib.Path, inputs: Inputs, program: Program, begun: datetime.datetime) -> None:
    """Writes both files, once all others are in the folder."""
    names = sorted(one.name for one in folder.iterdir())
    sums = {name: sum_of(str(folder / name)) for name in names}
    about: dict[str, Any] = {
        "begun": _text(begun),
        "ended": _text(now()),
        "inputs": {role: seen.as_data() for role, seen in inputs.seen.items()},
        "outputs": {name: {"size": (folder / name).stat().st_size, "sha256": sums[name]} for name in names},
        "program": {"path": program.path, "size": program.size, "sha256": program.sha256},
        "tools": tools(),
        "host": host(),
    }
    (folder / MANIFEST).write_text(json.dumps(about, indent=1) + "\n")
    sums[MANIFEST] = sum_of(str(folder / MANIFEST))
    (folder / SUMS).write_text("".join(f"{sums[name]}  {name}\n" for name in sorted(sums)))


def tools() -> dict[str, Any]:
    """The tools: their version, their files, and what they stand on."""
    files = {one.name: sum_of(str(one)) for one in sorted(HERE.iterdir()) if one.suffix in (".py", ".js", ".css")}
    packages = {name: importlib.metadata.version(name) for name in PACKAGES}
    return {"version": version(), "python": platform.python_version(), "packages": packages, "files": files}


def host() -> dict[str, str]:
    """The machine's system and its time zone."""
    system = os.uname()
    zone = datetime.datetime.now().astimezone()
    return {"kernel": " ".join((system.sysname, system.release, system.version, system.machine)), "time_zone": f"{zone:%Z %z}"}


def _text(time: datetime.datetime) -> str:
    return time.strftime("%Y-%m-%dT%H:%M:%SZ")
