"""The bench examples P1 to P12 of docs/RULE.md, with the answers it gives, those of points where one of the two values loses its degree,
and the transfer function of a filter."""

from typing import NamedTuple

from case_file import Case
from polynomials import add, key, multiply, term_list

X, Y, Z, W, ONE = key(1, 0, 0, 0), key(0, 1, 0, 0), key(0, 0, 1, 0), key(0, 0, 0, 1), key(0, 0, 0, 0)
X3 = 3 * X


class Example(NamedTuple):
    """A case, and the text that the program `candidate` prints for it."""

    name: str
    case: Case
    answer: str


def _example(name, first, second, ys, skeleton, answer, p=17):
    points = [number for y in ys for number in (y, 0, 0)]
    return _at_points(name, first, second, points, skeleton, answer, p)


def _at_points(name, first, second, points, skeleton, answer, p):
    case = Case(p, term_list(first), term_list(second), skeleton, points)
    return Example(name, case, "".join(line + "\n" for line in answer))


def _swapped(example):
    """The same example with its two lists swapped, which changes nothing in the answer."""
    return Example(f"{example.name}_swapped", example.case.swapped(), example.answer)


def _sum(*terms, p=17):
    """A polynomial from pairs of coefficient and key."""
    total = {}
    for coefficient, monomial in terms:
        total = add(total, {monomial: coefficient}, p)
    return total


def _product(left, right, p=17):
    return multiply(left, right, p)


X_MINUS_Y = _sum((1, X), (-1, Y))
X_PLUS_Y_PLUS_1 = _sum((1, X), (1, Y), (1, ONE))
THREE_YX_PLUS_1 = _sum((3, Y + X), (1, ONE))
E = _sum((1, Y + X3), (16, X3), (15, Y))
F = _product(_sum((1, X), (-1, Y), (1, ONE)), E)
H = _product(X_PLUS_Y_PLUS_1, E)
K = _sum((1, Y + X3), (2, X3), (12, 2 * Y), (7, Y))
P2_FIRST = _product(THREE_YX_PLUS_1, X_MINUS_Y)
P2_SECOND = _product(THREE_YX_PLUS_1, X_PLUS_Y_PLUS_1)
P4_FIRST = _sum((7, X), (6, Y))
P4_SECOND = _sum((12, X), (1, Y))
X_PLUS_1 = _sum((1, X), (1, ONE))
TEACHER_FIRST = _product(X_PLUS_1, _sum((1, Y + X), (1, ONE)))
TEACHER_SECOND = _product(X_PLUS_1, _sum((1, X), (2, ONE)))

# At y=0 the x-leading coefficient of the first list alone is 0; in the second example its whole value is.
TEACHER = _example("teacher", TEACHER_FIRST, TEACHER_SECOND, [0], [X, ONE],
                   ["0 0 0 1 0 0 1", "1 1 0 0 0", "1 0 0 0 0"])
ZERO_VALUE = _example("zero_value", _product(X_PLUS_1, {Y: 1}), TEACHER_SECOND, [0, 1], [X, ONE],
                      ["0 0 0 1 0 1 1", "1 1 0 0 0", "1 0 0 0 0"])

# The twin-T notch filter with a follower, modulo 65521: x is s, y the resistor, z the capacitor, w the part of the output that is fed back, and
# u = xyz. Cramer's rule on its three nodes has 2(u+1)(u^2+1) over 2(u+1)(u^2+4(1-w)u+1). At y=0 no x is left; at w=1 the two are equal.
FILTER_P, U = 65521, X + Y + Z
FILTER_SHARED = _sum((2, U), (2, ONE), p=FILTER_P)
FILTER_FIRST = _product(FILTER_SHARED, _sum((1, 2 * U), (1, ONE), p=FILTER_P), FILTER_P)
FILTER_SECOND = _product(FILTER_SHARED, _sum((1, 2 * U), (4, U), (-4, U + W), (1, ONE), p=FILTER_P), FILTER_P)
FILTER = _at_points("filter", FILTER_FIRST, FILTER_SECOND, [0, 3, 5, 2, 3, 1, 2, 3, 5, 7, 4, 9, 10, 6, 2], [U, X + Y, X + Z, ONE],
                    ["0 0 0 1 1 1 3", "1 1 1 1 0", "1 0 0 0 0"], FILTER_P)

EXAMPLES = [
    _example("p1", _sum((1, 2 * X), (-1, ONE)), _sum((1, 2 * X), (2, X), (1, ONE)), [0], [X, ONE],
             ["0 0 0 1 0 0 1", "1 1 0 0 0", "1 0 0 0 0"]),
    _example("p2", P2_FIRST, P2_SECOND, [0], [ONE], ["12 0 0 0 1 0 0"]),
    _example("p3", P2_FIRST, P2_SECOND, [1], [X + Y, ONE],
             ["0 0 0 1 0 0 1", "1 1 1 0 0", "6 0 0 0 0"]),
    _example("p4", P4_FIRST, P4_SECOND, [0], [X], ["15 0 0 1 0 0 1"]),
    _example("p5", P4_FIRST, P4_SECOND, [0, 1], [ONE], ["0 0 0 0 0 1 1", "1 0 0 0 0"]),
    _example("p6", K, K, [1, 2, 3], [X3 + Y, X3, 2 * Y, Y], ["14 0 0 3 0 0 3"]),
    _example("p7", K, K, [1, 2, 3], [X3, Y], ["0 0 0 3 0 0 3", "1 3 0 0 0", "12 0 1 0 0"]),
    _example("p8", K, K, [1, 2], [X3, ONE], ["13 0 0 3 0 0 2"]),
    _example("p9", F, H, [5], [X3 + Y, X3, Y], ["14 0 0 3 0 0 1"]),
    _example("p9b", F, H, [5, 5], [X3 + Y, X3, Y], ["14 0 0 3 0 0 2"]),
    _example("p10", F, H, [1, 0, 5, 2], [X3 + Y, X3, Y],
             ["0 0 0 3 1 1 2", "1 3 1 0 0", "16 3 0 0 0", "15 0 1 0 0"]),
    _example("p11", {X: 1, Y: 1}, {X: 1, Y: 1}, [1], [X, 7 * Y], ["15 0 0 1 0 0 1"], p=7),
    _example("p12", {Y: 3}, {Y: 3}, [2], [Y], ["0 0 0 0 0 0 1", "1 0 1 0 0"]),
    TEACHER, _swapped(TEACHER), ZERO_VALUE, _swapped(ZERO_VALUE), FILTER,
]


def case(name):
    """The case of an example."""
    return next(example.case for example in EXAMPLES if example.name == name)
