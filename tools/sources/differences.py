"""What differs in public clauses and definitions between two checkouts.

A clause is named by its call and its name, or by its number among those of its kind without one. A definition is named by
its name, which no other has. What a type or trait has of ghost members counts too, since clauses speak of it. Comments, and
how lines are laid out, don't count.
"""

import collections
import difflib
import io
import shutil
import subprocess
import sys
import tarfile
import tempfile
from collections.abc import Iterator
from pathlib import Path
from typing import NamedTuple

from .contracts import clauses, members, public_calls, signature
from .crates import crate_names
from .definitions import all_definitions


class Said(NamedTuple):
    """A clause, a signature or a definition: its name, where it is, and its words."""

    name: str
    crate: str
    module: str
    text: str

    @property
    def words(self) -> str:
        return " ".join(self.text.split())

    @property
    def place(self) -> str:
        return f"{self.crate} ({self.module})" if self.module else self.crate

    @property
    def key(self) -> tuple[str, str, str]:
        return self.name, self.crate, self.module


class Difference(NamedTuple):
    """What became of something that is said: what was there, and what is there now."""

    before: Said | None
    now: Said | None

    @property
    def crate(self) -> str:
        return self.now.crate if self.now else self.before.crate if self.before else ""

    @property
    def name(self) -> str:
        return self.now.name if self.now else self.before.name if self.before else ""

    def lines(self) -> Iterator[str]:
        """The difference, as it is printed."""
        if self.before is None or self.now is None:
            said = self.now or self.before
            assert said is not None
            yield f"  {'new' if self.now else 'gone':8}{said.name}{f' ({said.module})' if said.module else ''}"
            yield from (f"      {'+' if self.now else '-'} {line}" for line in said.text.splitlines())
            return
        moved, changed = self.before.place != self.now.place, self.before.words != self.now.words
        what = "moved and changed" if moved and changed else "moved" if moved else "changed"
        where = f", from {self.before.place} to {self.now.place}" if moved else ""
        yield f"  {what:8}{' ' * (len(what) > 7)}{self.now.name}{where}"
        if changed:
            lines = difflib.unified_diff(self.before.text.splitlines(), self.now.text.splitlines(), n=0, lineterm="")
            yield from (f"      {line[0]} {line[1:]}" for line in lines if line[:2] not in ("--", "++", "@@"))


def said_in(top: Path) -> list[Said]:
    """All that the public contracts and definitions of a checkout say."""
    found = []
    for crate in crate_names(top):
        for call in public_calls(top, crate):
            if not call.has_clauses:
                continue
            found.append(Said(f"signature of `{call.title}`", crate, "", signature(call.contract)))
            unnamed = dict.fromkeys(("ensures", "requires"), 0)
            for clause in clauses(call.contract):
                unnamed[clause.kind] += not clause.name
                name = clause.name or (f"number {unnamed[clause.kind]} without a name")
                found.append(Said(f"clause of `{call.title}`: {clause.kind} {name}", crate, "", clause.text))
        found += [Said(f"ghost member `{name}`", crate, "", text) for name, text in members(top, crate)]
        for definition in all_definitions(top, crate):
            found.append(Said(f"definition `{definition.name}`", crate, definition.module, "\n".join(definition.lines)))
    return found


def numbered(found: list[Said]) -> Iterator[Said]:
    """The same, where what has a name that is there already is told apart by a number."""
    count: collections.Counter[tuple[str, str, str]] = collections.Counter()
    for said in found:
        count[said.key] += 1
        yield said._replace(name=f"{said.name} ({count[said.key]})") if count[said.key] > 1 else said


def paired(before: list[Said], now: list[Said]) -> Iterator[Difference]:
    """What was said and what is said, each beside the other of the same name: first where neither moved, then of the same
    words, then where only one of the name is left on each side."""
    left = {said.key: said for said in numbered(before)}
    came = {said.key: said for said in numbered(now)}
    for key in left.keys() & came.keys():
        yield Difference(left.pop(key), came.pop(key))
    for said in list(came.values()):
        same = [one for one in left.values() if one.name == said.name and one.words == said.words]
        if same:
            yield Difference(left.pop(same[0].key), came.pop(said.key))
    for said in list(came.values()):
        of_name = [one for one in left.values() if one.name == said.name]
        if len(of_name) == 1 and sum(one.name == said.name for one in came.values()) == 1:
            yield Difference(left.pop(of_name[0].key), came.pop(said.key))
    yield from (Difference(said, None) for said in left.values())
    yield from (Difference(None, said) for said in came.values())


def differs(one: Difference) -> bool:
    return one.before is None or one.now is None or one.before.place != one.now.place or one.before.words != one.now.words


def differences(before: Path, now: Path) -> Iterator[str]:
    """What differs between two checkouts, crate by crate, as lines."""
    told = [one for one in paired(said_in(before), said_in(now)) if differs(one)]
    order = list(dict.fromkeys([*crate_names(now), *crate_names(before)]))
    for crate in order:
        own = [one for one in told if one.crate == crate]
        if own:
            yield crate
        for one in sorted(own, key=lambda one: one.name):
            yield from one.lines()


def differences_from(top: Path, revision: str) -> list[str]:
    """What differs from a revision of the repository."""
    words = ["git", "-C", str(top), "archive", "--format=tar", revision, "crates", "crates.txt"]
    archived = subprocess.run(words, stdout=subprocess.PIPE, check=False) if shutil.which("git") else None
    if archived is None or archived.returncode != 0:
        sys.exit("documents: git can't hand out that revision")
    with tempfile.TemporaryDirectory(prefix="fdr_documents_") as folder, tarfile.open(fileobj=io.BytesIO(archived.stdout)) as files:
        files.extractall(folder)
        return list(differences(Path(folder), top))
