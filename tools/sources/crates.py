"""The crates of a checkout and their source files."""

import re
from collections.abc import Iterator
from pathlib import Path


def crate_lines(top: Path) -> Iterator[tuple[str, list[str]]]:
    """The crates in the order of crates.txt, each with what it stands on."""
    for line in (top / "crates.txt").read_text().splitlines():
        line = line.split("#")[0].strip()
        if line:
            name, needs = line.split(":")
            yield name.strip(), needs.split()


def crate_names(top: Path) -> list[str]:
    """The crates in the order of crates.txt."""
    return [name for name, _ in crate_lines(top)]


def source_files(top: Path, crate: str) -> list[Path]:
    """The source files of a crate but its tests, the root file first and then by name."""
    source = top / "crates" / crate / "src"
    files = [path for path in source.rglob("*.rt") if path.name != "tests.rt" and "tests" not in path.parts]
    return sorted(files, key=lambda path: (path.name not in ("lib.rt", "main.rt"), path.as_posix()))


def exported(top: Path, crate: str) -> set[str]:
    """The names that a crate's root file hands out."""
    names: set[str] = set()
    for path in source_files(top, crate)[:1]:
        text = path.read_text()
        for group in re.findall(r"^pub use ([^;]*);", text, re.M):
            names.update(re.findall(r"\w+", group.split("::", 1)[-1]))
        names.update(re.findall(r"^pub (?:const fn|fn|struct|enum|trait) (\w+)", text, re.M))
    return names
