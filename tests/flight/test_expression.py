"""Expressions of descriptions and conditions: what they are of known numbers, and all that is refused, hostile ones too."""

import operator
from typing import Callable

import numpy as np
import pytest

from flight_recorder import expression
from flight_recorder.expression import Expression, Values, decimal_values, whole_values

KNOWN = {"A": True, "B": True, "F": False, "N-1": True, "N1 (scaled)": False}
A, B, F = [7, -7, 0, 4095, 12], [2, 3, 0, -5, 62], [0.5, -1.5, 2.0, 1e9, 0.0]
VALUES = {"A": whole_values(np.array(A, dtype=float)), "B": whole_values(np.array(B, dtype=float)), "F": decimal_values(np.array(F))}
VALUES |= {"N-1": VALUES["A"], "N1 (scaled)": VALUES["F"]}


def worked(text: str) -> list[float | None]:
    values = expression.read(text, KNOWN).worked(VALUES)
    return [number if there else None for number, there in zip(values.numbers.tolist(), values.there.tolist())]


BINARY: dict[str, Callable[[int, int], float]] = {
    "+": operator.add, "-": operator.sub, "*": operator.mul, "/": operator.truediv, "//": operator.floordiv, "%": operator.mod,
    "&": operator.and_, "|": operator.or_, "<": operator.lt, "<=": operator.le, ">": operator.gt, ">=": operator.ge,
    "==": operator.eq, "!=": operator.ne,
}  # fmt: skip


@pytest.mark.parametrize("sign", list(BINARY))
def test_each_operator_is_python_s_and_by_0_there_is_no_value(sign: str) -> None:
    wanted = [None if right == 0 and sign in ("/", "//", "%") else BINARY[sign](left, right) for left, right in zip(A, B)]
    assert worked(f"A {sign} B") == wanted


@pytest.mark.parametrize(
    "text, wanted",
    [
        ("A << B", [28, -56, 0, None, None]),
        ("A >> 2", [1, -2, 0, 1023, 3]),
        ("-A + +B", [-5, 10, 0, -4100, 50]),
        ("(A > 5) & (F < 1)", [1, 0, 0, 0, 1]),
        ("0 < A < 100", [1, 0, 0, 0, 1]),
        ("A * 10 + B % 10", [72, -67, 0, 40955, 122]),
        ("A * F", [3.5, 10.5, 0.0, 4095e9, 0.0]),
        ("`N-1` + 1", [8, -6, 1, 4096, 13]),
        ("`N1 (scaled)` * 2", [1.0, -3.0, 4.0, 2e9, 0.0]),
        ("A / F", [14.0, 7 / 1.5, 0.0, 4095 / 1e9, None]),
        ("0x0F & A", [7, 9, 0, 15, 12]),
    ],
)
def test_known_answers(text: str, wanted: list[float | None]) -> None:
    assert worked(text) == wanted


def test_whole_numbers_are_exact_and_beyond_64_bits_there_is_none() -> None:
    big = whole_values(np.array([2.0**53, 2.0**53 + 2, -(2.0**53)]))
    assert big.there.tolist() == [True, False, True]
    for text, wanted in (("A + 1", 2**53 + 1), ("A * 511 + 1", 2**53 * 511 + 1), ("A << 8", 2**61), ("A * 513", None), ("A << 10", None)):
        values = expression.read(text, KNOWN).worked({"A": Values(np.array([2**53]), np.array([True]))})
        assert (values.numbers.tolist()[0] if values.there[0] else None) == wanted


def test_what_is_no_number_has_no_value() -> None:
    values = expression.read("F * F", KNOWN).worked({"F": decimal_values(np.array([1e300, np.nan, 2.0]))})
    assert values.there.tolist() == [False, False, True]


@pytest.mark.parametrize(
    "text, said",
    [
        ("__import__('os').system('x')", "\"'\" isn't part of an expression"),
        ("__import__(1)", "it has a Call, which no expression has"),
        ("A.real", "it has a Attribute, which no expression has"),
        ("A[0]", "'[' isn't part of an expression"),
        ("A if B else 1", "it has a IfExp, which no expression has"),
        ("lambda: 1", "':' isn't part of an expression"),
        ("(A := 3)", "':' isn't part of an expression"),
        ("A, B", "',' isn't part of an expression"),
        ("{A}", "'{' isn't part of an expression"),
        ("f'{A}'", "\"'\" isn't part of an expression"),
        ("A @ B", "'@' isn't part of an expression"),
        ("A\n+ B", "'\\n' isn't part of an expression"),
        ("A # B", "'#' isn't part of an expression"),
        ("\u0410 + 1", "'\u0410' isn't part of an expression"),
        ("A ** 9999999", "it has the operator Pow, and + - * / // % & | << >> are those that there are"),
        ("A and B", "it has `and` or `or`: write & and |, with each side in brackets"),
        ("not A", "it has a UnaryOp, which no expression has"),
        ("A is B", "it has a Compare, which no expression has"),
        ("9" * 400 + " + A", "it has a"),
        ("1e999 + A", "inf is no number that is taken"),
        ("1j + A", "1j is no number that is taken"),
        ("True & A", "True is no number that is taken"),
        ("A + NOPE", "NOPE is no parameter and no derived value of a row above"),
        ("quoted_parameter_0", "quoted_parameter_0 is no parameter and no derived value of a row above"),
        ("1 + 2", "it has no parameter"),
        ("", "'' can't be read"),
        ("A +", "'A +' can't be read"),
        ("F & 1", "& | << >> take whole numbers and comparisons, and a side has decimals: put comparisons in brackets"),
        ("A / 2 >> 1", "& | << >> take whole numbers and comparisons, and a side has decimals: put comparisons in brackets"),
        ("A" + " + A" * 200, "it has 801 signs, and may have 500"),
        ("-" * 200 + "A", "it is more than 60 deep"),
        ("(" * 240 + "A" + ")" * 240, "can't be read"),
    ],
)
def test_what_is_refused(text: str, said: str) -> None:
    with pytest.raises(expression.Refused) as refused:
        expression.read(text, KNOWN)
    assert said.removeprefix("it has a") in str(refused.value)


def test_what_is_derived_stands_in_another_and_its_size_is_bounded() -> None:
    derived: dict[str, Expression] = {"D": expression.read("A * 10", KNOWN)}
    values = expression.read("D + B", KNOWN, derived).worked(VALUES)
    assert values.numbers.tolist() == [10 * a + b for a, b in zip(A, B)]
    for number in range(40):
        text = "D + D" if number == 0 else f"D{number - 1} + D{number - 1}"
        try:
            derived[f"D{number}"] = expression.read(text, KNOWN, derived)
        except expression.Refused as refused:
            assert "too long" in str(refused)
            break
    assert 5 < len(derived) < 15
