"""Expressions over the values of parameters: numbers, names, `+ - * / // % & | << >>`, comparisons and brackets.

They come from strangers, so nothing of them is run: Python's parser reads them, each part has to be on a list of what is
allowed, and numpy works them out. Whole numbers stay whole and exact; beyond 64 bits there is no value.
"""

from __future__ import annotations

import ast
import re
import warnings
from dataclasses import dataclass
from typing import Callable, Iterator, Mapping

import numpy as np

from .arrays import Array

MOST_SIGNS = 500
MOST_NAMED = 40  # of them in a fault
MOST_DEPTH = 60
MOST_PARTS = 2000  # once what is derived stands in it
MOST_EXACT = 1 << 53  # of a whole number that the reader of listings gives
MOST_WHOLE = float(1 << 62)  # half of what 64 bits hold: the check itself is in floating point
MOST_SHIFT = 62
SIGNS = re.compile(r"[A-Za-z0-9_ .+*/%&|<>=!()-]*")
QUOTED = re.compile(r"`([A-Za-z0-9_.-]{1,16}(?: \(scaled\))?)`")
STAND_IN = "quoted_parameter_"  # longer than the name of a parameter can be
ARITHMETIC = (ast.Add, ast.Sub, ast.Mult, ast.Div, ast.FloorDiv, ast.Mod)
BITS = (ast.BitAnd, ast.BitOr, ast.LShift, ast.RShift)
WORKS: dict[type[ast.operator], Callable[[Array, Array], Array]] = {
    ast.Add: np.add,
    ast.Sub: np.subtract,
    ast.Mult: np.multiply,
    ast.BitAnd: np.bitwise_and,
    ast.BitOr: np.bitwise_or,
}
COMPARISONS: dict[type[ast.cmpop], Callable[[Array, Array], Array]] = {
    ast.Lt: np.less,
    ast.LtE: np.less_equal,
    ast.Gt: np.greater,
    ast.GtE: np.greater_equal,
    ast.Eq: np.equal,
    ast.NotEq: np.not_equal,
}


class Refused(ValueError):
    """An expression isn't one that is worked out."""


@dataclass(frozen=True)
class Values:
    """Numbers, whole or not, and where there is one."""

    numbers: Array
    there: Array

    @property
    def are_whole(self) -> bool:
        """Whether they are whole numbers by their kind."""
        return self.numbers.dtype.kind == "i"

    def only(self, which: Array) -> "Values":
        """Some of them."""
        return Values(self.numbers[which], self.there[which])


def whole_values(numbers: Array) -> Values:
    """Values of a parameter without decimals, which the reader of listings gives in floating point."""
    there = np.abs(numbers) <= MOST_EXACT
    return Values(np.where(there, numbers, 0).astype(np.int64), there)


def decimal_values(numbers: Array) -> Values:
    """Other values; there is none that isn't a number."""
    return Values(numbers, np.isfinite(numbers))


@dataclass(frozen=True)
class Expression:
    """An expression, and the names in it in their order: those of parameters, and `NAME (scaled)`."""

    text: str
    tree: ast.expr
    names: tuple[str, ...]

    def worked(self, values: Mapping[str, Values]) -> Values:
        """What it is of these values, which are as many of each name."""
        count = len(values[self.names[0]].numbers)
        with np.errstate(all="ignore"):
            return _worked(self.tree, values, count)


def read(text: str, known: Mapping[str, bool], derived: Mapping[str, Expression] | None = None) -> Expression:
    """An expression over names that are known, each of which has whole numbers or not; what is derived stands in it as its own
    expression does. Refused says what is wrong with it."""
    quoted: list[str] = []
    tree = _parsed(text, quoted)
    _check(tree, 0)
    tree = _Naming(quoted).visit(tree)
    for name in _names(tree):
        if name not in known and name not in (derived or {}):
            raise Refused(f"{name} is no parameter and no derived value of a row above")
    tree = _Deriving(derived or {}).visit(tree)
    if sum(1 for _ in ast.walk(tree)) > MOST_PARTS:
        raise Refused("it is too long, with what is derived in it")
    _check(tree, 0)
    names = tuple(dict.fromkeys(_names(tree)))
    if not names:
        raise Refused("it has no parameter")
    _has_whole(tree, known)
    return Expression(text, tree, names)


def named(name: str, derived: Mapping[str, Expression]) -> Expression:
    """The expression that is a name alone."""
    return derived[name] if name in derived else Expression(name, ast.Name(name), (name,))


def has_whole_numbers(expression: Expression, known: Mapping[str, bool]) -> bool:
    """Whether what it is has whole numbers."""
    return _has_whole(expression.tree, known)


def _parsed(text: str, quoted: list[str]) -> ast.expr:
    """The tree of a text; `quoted` takes the names that stand in backticks."""

    def stand_in(found: re.Match[str]) -> str:
        quoted.append(found.group(1))
        return f" {STAND_IN}{len(quoted) - 1} "

    if len(text) > MOST_SIGNS:
        raise Refused(f"it has {len(text)} signs, and may have {MOST_SIGNS}")
    plain = QUOTED.sub(stand_in, text)
    wrong = SIGNS.match(plain)
    assert wrong is not None
    if wrong.end() < len(plain):
        raise Refused(f"{plain[wrong.end()]!r} isn't part of an expression")
    try:
        with warnings.catch_warnings():
            warnings.simplefilter("ignore")
            return ast.parse(plain.strip(), mode="eval").body
    except (SyntaxError, ValueError, RecursionError, MemoryError):
        raise Refused(f"{text[:MOST_NAMED]!r} can't be read") from None


def _check(node: ast.expr, depth: int) -> None:
    """Wants a tree to have nothing but what is allowed."""
    if depth > MOST_DEPTH:
        raise Refused(f"it is more than {MOST_DEPTH} deep")
    if isinstance(node, ast.Constant):
        if type(node.value) not in (int, float) or not abs(node.value) < MOST_WHOLE:
            raise Refused(f"{repr(node.value)[:MOST_NAMED]} is no number that is taken")
    elif isinstance(node, ast.BinOp):
        if not isinstance(node.op, (*ARITHMETIC, *BITS)):
            raise Refused(f"it has the operator {type(node.op).__name__}, and + - * / // % & | << >> are those that there are")
        _check(node.left, depth + 1)
        _check(node.right, depth + 1)
    elif isinstance(node, ast.UnaryOp) and isinstance(node.op, (ast.UAdd, ast.USub)):
        _check(node.operand, depth + 1)
    elif isinstance(node, ast.Compare) and all(type(op) in COMPARISONS for op in node.ops):
        for side in (node.left, *node.comparators):
            _check(side, depth + 1)
    elif isinstance(node, ast.BoolOp):
        raise Refused("it has `and` or `or`: write & and |, with each side in brackets")
    elif not isinstance(node, ast.Name):
        raise Refused(f"it has a {type(node).__name__}, which no expression has")


class _Naming(ast.NodeTransformer):
    """Puts the names that stood in backticks in their places."""

    def __init__(self, quoted: list[str]) -> None:
        self.quoted = quoted

    def visit_Name(self, node: ast.Name) -> ast.Name:
        """A name."""
        number = node.id.removeprefix(STAND_IN)
        is_quoted = number != node.id and number.isdecimal() and int(number) < len(self.quoted)
        return ast.Name(self.quoted[int(number)]) if is_quoted else ast.Name(node.id)


class _Deriving(ast.NodeTransformer):
    """Puts expressions in the places of the names of what is derived."""

    def __init__(self, derived: Mapping[str, Expression]) -> None:
        self.derived = derived

    def visit_Name(self, node: ast.Name) -> ast.expr:
        """A name."""
        return self.derived[node.id].tree if node.id in self.derived else node


def _names(node: ast.AST) -> Iterator[str]:
    """The names in a tree, from left to right."""
    if isinstance(node, ast.Name):
        yield node.id
    for child in ast.iter_child_nodes(node):
        yield from _names(child)


def _has_whole(node: ast.expr, known: Mapping[str, bool]) -> bool:
    """Whether what a tree is has whole numbers; operators on bits want both sides to."""
    if isinstance(node, ast.Constant):
        return isinstance(node.value, int)
    if isinstance(node, ast.Name):
        return known.get(node.id, False)
    if isinstance(node, ast.UnaryOp):
        return _has_whole(node.operand, known)
    if isinstance(node, ast.Compare):
        for side in (node.left, *node.comparators):
            _has_whole(side, known)
        return True
    assert isinstance(node, ast.BinOp)
    are_whole = [_has_whole(side, known) for side in (node.left, node.right)]
    if isinstance(node.op, BITS) and not all(are_whole):
        raise Refused("& | << >> take whole numbers and comparisons, and a side has decimals: put comparisons in brackets")
    return all(are_whole) and not isinstance(node.op, ast.Div)


def _worked(node: ast.expr, values: Mapping[str, Values], count: int) -> Values:
    if isinstance(node, ast.Constant):
        return Values(np.full(count, node.value), np.ones(count, dtype=bool))
    if isinstance(node, ast.Name):
        return values[node.id]
    if isinstance(node, ast.UnaryOp):
        one = _worked(node.operand, values, count)
        return Values(-one.numbers, one.there) if isinstance(node.op, ast.USub) else one
    if isinstance(node, ast.Compare):
        return _compared(node, values, count)
    assert isinstance(node, ast.BinOp)
    left, right = (_worked(side, values, count) for side in (node.left, node.right))
    there = left.there & right.there
    if isinstance(node.op, (ast.Div, ast.FloorDiv, ast.Mod)):
        return _divided(node.op, left, right, there & (right.numbers != 0))
    if isinstance(node.op, (ast.LShift, ast.RShift)):
        return _shifted(node.op, left, right, there)
    work = WORKS[type(node.op)]
    if left.are_whole and right.are_whole and isinstance(node.op, ARITHMETIC):
        there = there & (np.abs(work(left.numbers.astype(np.float64), right.numbers.astype(np.float64))) < MOST_WHOLE)
    return _sound(work(left.numbers, right.numbers), there)


def _compared(node: ast.Compare, values: Mapping[str, Values], count: int) -> Values:
    """A comparison, or several in a row as `1 < A < 5`: 1 where all are so, else 0."""
    sides = [_worked(side, values, count) for side in (node.left, *node.comparators)]
    is_so, there = np.ones(count, dtype=bool), np.ones(count, dtype=bool)
    for op, left, right in zip(node.ops, sides, sides[1:]):
        is_so &= COMPARISONS[type(op)](left.numbers, right.numbers)
        there = there & left.there & right.there
    return Values(is_so.astype(np.int64), there)


def _divided(op: ast.operator, left: Values, right: Values, there: Array) -> Values:
    """A division; by 0 there is no value."""
    safe = np.where(there, right.numbers, 1)
    if isinstance(op, ast.Div):
        return _sound(left.numbers / safe, there)
    return _sound(np.floor_divide(left.numbers, safe) if isinstance(op, ast.FloorDiv) else np.remainder(left.numbers, safe), there)


def _shifted(op: ast.operator, left: Values, right: Values, there: Array) -> Values:
    """A shift; by less than 0, and out of 64 bits, there is no value."""
    there = there & (right.numbers >= 0)
    if isinstance(op, ast.RShift):
        return Values(left.numbers >> np.clip(right.numbers, 0, 63), there)
    by = np.clip(right.numbers, 0, MOST_SHIFT)
    there = there & (right.numbers <= MOST_SHIFT) & (np.abs(left.numbers.astype(np.float64)) * 2.0**by < MOST_WHOLE)
    return Values(np.where(there, left.numbers, 0) << by, there)


def _sound(numbers: Array, there: Array) -> Values:
    """Numbers, of which those that are none have no value."""
    return Values(numbers, there & np.isfinite(numbers) if numbers.dtype.kind == "f" else there)
