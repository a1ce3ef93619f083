"""The public definitions of the crates' specs/."""

import functools
import re
from collections.abc import Iterable, Iterator
from pathlib import Path
from typing import NamedTuple

from .crates import crate_names

Key = tuple[str, str, str]  # the crate, the module and the name


class Definition(NamedTuple):
    """A public definition of specs/: where it is, the comment above it, and its lines without comments."""

    crate: str
    module: str
    name: str
    comment: str
    lines: list[str]
    near: dict[str, Key]
    brought: dict[str, Key]

    @property
    def key(self) -> Key:
        return self.crate, self.module, self.name


def begun(line: str) -> str | None:
    """The name of the public definition that a line begins, if it begins one."""
    begins = re.match(r"(?:(?:abbrev|unfoldable) )?pub (?:record |data )?([^\s:{(]+)", line)
    return begins.group(1) if begins and not line.startswith(("pub mod", "pub use")) else None


def goes_on(line: str, name: str) -> bool:
    """Whether a line goes on with the definition of this name: it is indented, one of its equations, or what closes it."""
    return not line or line[0] in " )]}" or bool(re.match(rf"{re.escape(name)}(?![\w'-])|unfolding ", line))


@functools.cache
def module_definitions(top: Path, crate: str, module: str) -> list[Definition]:
    """The public definitions of a module, in its order."""
    text = (top / "crates" / crate / "specs" / f"{module}.antt").read_text()
    found: list[Definition] = []
    comment: list[str] = []
    now: Definition | None = None
    near: dict[str, Key] = {}
    brought = imports(text, "use")
    for line in text.splitlines():
        name = begun(line)
        if name:
            now = Definition(crate, module, name, " ".join(comment), [], near, brought)
            near[name] = now.key
            found.append(now)
        elif now and not goes_on(line, now.name):
            now = None
        comment = [*comment, line.removeprefix("--").strip()] if line.startswith("--") else []
        if now and line.strip() and not line.lstrip().startswith("--"):
            now.lines.append(line)
    return found


@functools.cache
def all_definitions(top: Path, crate: str) -> list[Definition]:
    """The public definitions of a crate's specs/, module by module as its root module has them."""
    folder = top / "crates" / crate / "specs"
    order = re.findall(r"^pub mod (\w+)", (folder / "Lib.antt").read_text(), re.M) if (folder / "Lib.antt").is_file() else []
    modules = sorted((path.stem for path in folder.glob("*.antt")), key=lambda name: (order.index(name) if name in order else -1, name))
    return [definition for module in modules for definition in module_definitions(top, crate, module)]


@functools.cache
def by_key(top: Path) -> dict[Key, Definition]:
    """All public definitions of specs/, by where they are."""
    return {definition.key: definition for crate in crate_names(top) for definition in all_definitions(top, crate)}


def imports(text: str, line: str) -> dict[str, Key]:
    """The names that a file's lines of this kind bring in: each with the crate and module that it comes from."""
    found = {}
    for crate, module, names in re.findall(rf"^{line} Rattle\.(fdr_\w+)\.specs\.(\w+)\.\{{([^}}]*)\}}", text, re.M):
        for name in names.split(","):
            original, _, other = name.strip().partition(" as ")
            found[other or original] = crate, module, original
    return found


def names_in(text: str, near: dict[str, Key], brought: dict[str, Key]) -> Iterator[Key]:
    """The definitions that a text names: those of its own file, and those that are brought in. What follows a point is a field."""
    for word in set(re.findall(r"(?<![\w'.-])[A-Za-z_][\w'-]*", text)):
        if word in near:
            yield near[word]
        elif word in brought:
            yield brought[word]


def reached_from(top: Path, keys: Iterable[Key]) -> set[Key]:
    """These definitions and all that they name, and what those name, and so on."""
    known, waiting = by_key(top), list(keys)
    seen: set[Key] = set()
    while waiting:
        key = waiting.pop()
        if key in known and key not in seen:
            seen.add(key)
            definition = known[key]
            waiting.extend(names_in("\n".join(definition.lines), definition.near, definition.brought))
    return seen


def is_recursive(definition: Definition) -> bool:
    """Whether a definition names itself where it says what it is. Laws that are proved by induction don't count."""
    own = rf"(?<![\w'.-]){re.escape(definition.name)}(?![\w'-])"
    if not definition.lines[0].startswith(("abbrev", "unfoldable")):
        return False
    equations = re.split(rf"^{re.escape(definition.name)}(?![\w'-])", "\n".join(definition.lines[1:]), flags=re.M)
    return any(re.search(own, equation) for equation in equations)
