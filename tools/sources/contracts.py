"""The contracts of a crate's functions.

A contract goes from the function's first line to the brace that begins its body, or to the `;` of a trait's function
without one. What stands in brackets ends nothing, and the brace behind `ensures` or `requires` and a name is the
clause's.
"""

import re
import textwrap
from collections.abc import Iterator
from pathlib import Path
from typing import NamedTuple

from .crates import exported, source_files

WORDS = re.compile(r'//[^\n]*|"(?:[^"\\]|\\.)*"|b?\'(?:[^\'\\]|\\.)\'|[^\W\d][\w\']*|[{}()\[\];]')
MEMBER = re.compile(r"^    ghost (\w+)(?=:| =)", re.M)
BEGINS = re.compile(r"^( *)(pub |pub\(crate\) )?(?:const )?fn (\w+)", re.M)
CLAUSE = re.compile(r"^    (ensures|requires)\*?(?: (\w+))? \{", re.M)
PARTS = re.compile(r"^    (?=(?:ensures|requires)\b)", re.M)
COMMENT = re.compile(r"^ *//.*\n?", re.M)


class Call(NamedTuple):
    """A function: the type or trait that it is of, whether it is public where that is, and its signature with its clauses."""

    owner: str | None
    name: str
    public: bool
    contract: str

    @property
    def title(self) -> str:
        return f"{self.owner}::{self.name}" if self.owner else self.name

    @property
    def has_clauses(self) -> bool:
        return CLAUSE.search(self.contract) is not None


class Clause(NamedTuple):
    """A clause of a contract: its kind, its name or none, and its words."""

    kind: str
    name: str
    text: str


def owner_of(line: str) -> tuple[str, bool] | None:
    """The type or trait whose block a line begins, and whether all functions in it are public."""
    trait = re.match(r"pub trait (\w+)", line)
    if trait:
        return trait.group(1), True
    block = re.match(r"impl(?:<[^{]*?>)? (?:(\w+)(?:<[^{]*>)? for )?&?(\w+)", line)
    if block:
        return block.group(2), block.group(1) is not None
    return None


def end_of_contract(text: str, start: int, is_clause: bool = False) -> int:
    """Where the contract of the function that begins here ends, or a ghost member, whose first brace is as a clause's."""
    depth = 0
    for word in WORDS.finditer(text, start):
        said = word.group()
        if said in ("ensures", "requires") and depth == 0:
            is_clause = True
        elif said == ";" and depth == 0 or said == "{" and depth == 0 and not is_clause:
            return word.start()
        elif said in ("{", "(", "["):
            depth, is_clause = depth + 1, is_clause and said != "{"
        elif said in ("}", ")", "]"):
            depth -= 1
    return len(text)


def source_text(path: Path) -> str:
    """A source file without its tests."""
    return re.split(r"^#\[cfg\(test\)\]", path.read_text(), maxsplit=1, flags=re.M)[0]


def with_owners(text: str, begins: re.Pattern[str]) -> Iterator[tuple[re.Match[str], str, bool]]:
    """What begins so in a text: the type or trait in whose block it is, or none, and whether all functions in it are public."""
    owner, all_public, reached = "", False, 0
    for match in begins.finditer(text):
        for line in text[reached : match.start()].splitlines():
            found = owner_of(line)
            if found or line == "}":
                owner, all_public = found or ("", False)
        reached = match.start()
        yield match, owner, all_public


def functions(path: Path) -> Iterator[Call]:
    """The functions of a file."""
    text, ended = source_text(path), 0
    for begins, owner, all_public in with_owners(text, BEGINS):
        if ended <= begins.start():
            ended = end_of_contract(text, begins.start())
            indent, public, name = begins.groups()
            contract = re.sub(rf"^{indent}", "", text[begins.start() : ended], flags=re.M).rstrip()
            yield Call(owner or None, name, public == "pub " or (all_public and not public), contract)


def members(top: Path, crate: str) -> Iterator[tuple[str, str]]:
    """The ghost members of what a crate hands out, each with its words: what a clause sees of a type or trait."""
    names = exported(top, crate)
    for path in source_files(top, crate):
        text = source_text(path)
        for begins, owner, _ in with_owners(text, MEMBER):
            if owner in names:
                yield f"{owner}.{begins[1]}", textwrap.dedent(text[begins.start() : end_of_contract(text, begins.start(), True)])


def public_calls(top: Path, crate: str) -> Iterator[Call]:
    """The functions that a crate hands out."""
    names = exported(top, crate)
    for path in source_files(top, crate):
        yield from (call for call in functions(path) if call.public and (call.owner or call.name) in names)


def clauses(contract: str) -> Iterator[Clause]:
    """The clauses of a contract, without its comments."""
    for part in PARTS.split(COMMENT.sub("", contract))[1:]:
        begins = CLAUSE.match("    " + part)
        if begins:
            yield Clause(begins[1], begins[2] or "", textwrap.dedent("    " + part).rstrip())


def signature(contract: str) -> str:
    """A contract without its clauses."""
    return PARTS.split(COMMENT.sub("", contract))[0].rstrip()


def faults_of_contracts(path: Path) -> Iterator[str]:
    """What is wrong with the contracts that were read of a file: each is balanced, and no clause is left out."""
    found = 0
    for call in functions(path):
        found += len(CLAUSE.findall(call.contract))
        for opening, closing in (("{", "}"), ("(", ")"), ("[", "]")):
            if call.contract.count(opening) != call.contract.count(closing):
                yield f"the contract of `{call.title}` ends within a `{opening}`"
    there = len(re.findall(r"^ *(?:ensures|requires)\b", source_text(path), re.M))
    if found != there:
        yield f"{there} lines begin a clause, and {found} clauses were read"
