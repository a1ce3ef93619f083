#!/usr/bin/env python3
"""Tries the wrong bodies that the gate leaves out: the check has to refuse each, as it refuses those in must-fail/ of the crates.

    tests/wrong_bodies.py [CRATE ..]

Those of a crate are in the folder of its name below tests/wrong_bodies. They are tried by `rt must-fail` in a copy of the crates, over libraries that
are built here already, or else anew. It prints what the kit says of each, and ends with 1 where one isn't refused. That each
fits its crate, `tools/documents.py check` says.
"""

import argparse
import shutil
import subprocess
import sys
import tempfile
from pathlib import Path

sys.dont_write_bytecode = True

from inputs import TOP

BODIES = TOP / "tests" / "wrong_bodies"
REFUSED = ": refused, as it must be"


def copy_crates(to: Path, crates: list[str]) -> None:
    """Copies the crates without what was built, these with the wrong bodies from here in place of their own."""
    shutil.copytree(TOP / "crates", to / "crates", ignore=shutil.ignore_patterns("out", "must-fail"))
    for name in ("crates.txt", "HANDLES"):
        shutil.copy(TOP / name, to)
    (to / ".git").mkdir()
    for crate in crates:
        shutil.copytree(BODIES / crate, to / "crates" / crate / "must-fail")


def main() -> int:
    words = argparse.ArgumentParser(description=__doc__.splitlines()[0])
    words.add_argument("crates", nargs="*", metavar="CRATE", help="crates in place of all")
    known = sorted(path.name for path in BODIES.iterdir())
    crates = words.parse_args().crates or known
    unknown = sorted(set(crates) - set(known))
    if unknown:
        sys.exit(f"tests/wrong_bodies has none of {', '.join(unknown)}")
    bodies = sum(len(list((BODIES / crate).glob("*.edit"))) for crate in crates)
    with tempfile.TemporaryDirectory() as room:
        copy_crates(Path(room), crates)
        ended = subprocess.run(["rt", "must-fail", *crates], cwd=room, stdout=subprocess.PIPE, text=True, check=False)
    print(ended.stdout, end="")
    refused = ended.stdout.count(REFUSED)
    print(f"wrong bodies: {refused} of {bodies} refused")
    return 0 if ended.returncode == 0 and refused == bodies else 1


if __name__ == "__main__":
    sys.exit(main())
