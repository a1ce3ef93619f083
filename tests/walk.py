#!/usr/bin/env python3
"""Goes the walk of examples/ with the built programs, and compares what they print with what its four pages show.

tests/walk.py FDR FDRPAIR

All blocks of commands, page by page, run one after another in one shell, in a folder with the tables, the rules, the image
of version 1 and the script of the flight alone, as a reader types them. The block after one of commands is what they print.
Where it has no line of an announcement, those lines are left out of the comparison; commands without such a block print
announcements or nothing.
"""
import pathlib
import re
import shutil
import subprocess
import sys
import tempfile
from collections.abc import Iterator

EXAMPLES = pathlib.Path(__file__).resolve().parent.parent / "examples"
PAGES = ("README.md", "IMAGES.md", "EXCEEDANCES.md", "MISHAPS.md")
COMMAND = re.compile(r"(fdr|fdrpair|put|cp|head|cat|printf|mkdir|dd) |\(")
ANNOUNCEMENT = re.compile(r"ack \d+")
Block = tuple[int, list[str]]  # the number of its first line, and its lines
Step = tuple[str, list[str], list[str] | None]  # where it is, its commands, and what the page says they print
MARK = "--- end of a block ---"


def blocks(page: str) -> Iterator[Block]:
    """The fenced blocks of a page, each with the number of its first line."""
    inside, start = False, 0
    lines: list[str] = []
    for number, line in enumerate(page.splitlines(), 1):
        if line.startswith("```"):
            if inside:
                yield start, lines
            inside, start, lines = not inside, number + 1, []
        elif inside:
            lines.append(line)
    if inside:
        raise SystemExit(f"walk: the block at line {start} has no end")


def is_of_commands(lines: list[str]) -> bool:
    return any(COMMAND.match(line) for line in lines)


def steps(name: str) -> Iterator[Step]:
    """Each block of commands of a page, with the lines that the page says they print, or None where it shows none."""
    found = list(blocks((EXAMPLES / name).read_text()))
    following: list[list[str] | None] = [lines for _, lines in found[1:]]
    for (start, lines), after in zip(found, [*following, None]):
        if is_of_commands(lines):
            yield f"examples/{name}:{start}", lines, None if after is None or is_of_commands(after) else after


def printed(programs: dict[str, str], walk: list[Step]) -> list[list[str]]:
    """What each block of commands prints, standard error among it, in one shell that finds these programs by their names."""
    with tempfile.TemporaryDirectory() as room:
        folder = pathlib.Path(room, "examples")
        tools = pathlib.Path(room, "tools")
        folder.mkdir()
        tools.mkdir()
        for given in [*EXAMPLES.glob("*.csv"), EXAMPLES / "old.img", EXAMPLES / "make_flight.py"]:
            shutil.copy(given, folder)
        for name, program in programs.items():
            (tools / name).symlink_to(pathlib.Path(program).resolve())
        script = f"PATH={tools}:$PATH\n" + "".join("\n".join(lines) + f"\necho '{MARK}'\n" for _, lines, _ in walk)
        run = subprocess.run(["bash"], input=script, cwd=folder, stdout=subprocess.PIPE, stderr=subprocess.STDOUT, text=True, timeout=600)
    return [part.strip("\n").splitlines() for part in run.stdout.split(MARK)[:-1]]


def is_shown(lines: list[str], shown: list[str] | None) -> bool:
    """Whether these lines are what the page shows."""
    if shown is None:
        return all(ANNOUNCEMENT.fullmatch(line) for line in lines)
    if not any(ANNOUNCEMENT.fullmatch(line) for line in shown):
        lines = [line for line in lines if not ANNOUNCEMENT.fullmatch(line)]
    return lines == shown


def main() -> None:
    if len(sys.argv) != 3:
        raise SystemExit(__doc__)
    walk = [step for name in PAGES for step in steps(name)]
    outputs = printed(dict(zip(("fdr", "fdrpair"), sys.argv[1:])), walk)
    if len(outputs) != len(walk):
        raise SystemExit(f"walk: {len(outputs)} of {len(walk)} blocks ran")
    wrong = 0
    for (start, _, shown), lines in zip(walk, outputs):
        if not is_shown(lines, shown):
            wrong += 1
            print(f"{start}: the page shows\n  " + "\n  ".join(shown or ["nothing"]) + "\nand the program prints\n  " + "\n  ".join(lines))
    print(f"walk: {len(walk)} blocks of commands, {wrong} with another output than the page shows")
    raise SystemExit(1 if wrong else 0)


if __name__ == "__main__":
    main()
