#!/usr/bin/env python3
"""Writes the workloads of bench/run and bench/handheld as C arrays on standard output.

Each of the first six is a candidate call whose divisor is known. The first is P10, the second has one point, where the first input loses its degree
in x and the second keeps it; of the others the divisor is planted: the inputs are its products with two polynomials, the skeleton is its monomials
and the points are random. A seed fixes them. The divisor, made monic, is what library, twin and FLINT must all give. The quotient is the first input
over it, the image is at the last point. What is written is the file of the candidate's lists. The sixth is the dearest candidate that is known, and
so the dearest call of the Cancel key, which is given what the candidate is. The seventh is the dearest call of each of the other kinds, and a
candidate that is refused late; the shorter leading part is that of the two inputs. The last two have a skeleton that is wrong: its divisor agrees
with the inputs at the points alone, and is refused after the dearest division that is known, and after the most steps.
"""

import random
import sys
from pathlib import Path

sys.path.insert(0, str(Path(__file__).resolve().parent.parent / "second"))
import bench  # noqa: E402
from candidate import candidate, only_solution  # noqa: E402
from case_file import Case  # noqa: E402
from polynomials import POWERS, add, at_point, key, monic, monomials_at, multiply, remainder, term_list  # noqa: E402

MODULUS = 65521


def random_polynomial(rng, p, count, most, needed=()):
    """`count` monomials with exponents up to those of `most`, the needed ones among them."""
    keys = set(needed)
    while len(keys) < count:
        keys.add(key(*(rng.randint(0, m) for m in most)))
    return {k: rng.randrange(1, p) for k in keys}


def random_points(rng, p, count):
    return [rng.randrange(1, p) for _ in range(3 * count)]


def accepted(name, p, first, second, g, points):
    """A workload: what the candidate is given and its number, what is divided by what, and where the image is taken."""
    g = monic(g, p)
    return name, p, first, second, sorted(g, reverse=True), points, 0, first, g, points[-3:]


def planted(name, seed, keys, cofactor, points):
    """The divisor has `keys` terms, with x^3 and x^0 among them, the two cofactors `cofactor` terms each."""
    rng = random.Random(seed)
    p = MODULUS
    g = random_polynomial(rng, p, keys, (3, 3, 3, 3), (key(3, 1, 0, 0), key(0, 0, 0, 0)))
    first = multiply(g, random_polynomial(rng, p, cofactor, (4, 4, 4, 4), (key(4, 0, 0, 0), key(0, 0, 1, 0))), p)
    second = multiply(g, random_polynomial(rng, p, cofactor, (4, 4, 4, 4), (key(3, 0, 0, 0), key(0, 0, 0, 1))), p)
    return accepted(name, p, first, second, g, random_points(rng, p, points))


def small():
    """P10 of the bench examples."""
    return accepted("small", 17, bench.F, bench.H, bench.E, bench.case("p10").points)


def teacher():
    """At its only point the x-leading coefficient of the first input is 0, that of the second is not."""
    return accepted("teacher", 17, bench.TEACHER_FIRST, bench.TEACHER_SECOND, bench.X_PLUS_1, bench.case("teacher").points)


def multiple(rng, p, g):
    """The multiple of g, a list of numbers, that is x^7 and terms below g's degree; and g = 1 gives eight terms."""
    if len(g) == 1:
        return [rng.randrange(1, p) for _ in range(8)]
    return whole([0] * 7 + [1], g, p)


def whole(f, g, p):
    """f less its remainder by g, both lists of numbers."""
    rest = remainder(f, g, p)
    return [(a - b) % p for a, b in zip(f, rest + [0] * len(f))]


def box(p, factors):
    """The product of four polynomials, in x, y, z and w, each a list of numbers."""
    r = {0: 1}
    for place, f in zip((512, 64, 8, 1), factors):
        r = multiply(r, {place * i: c for i, c in enumerate(f) if c}, p)
    return r


def vanishing(p, f, g, x, monomials, points):
    """f with terms x^`x` times the monomials in y, z, w added, so that at each point the remainder of f by g has no x^`x`."""
    triples = [points[i : i + 3] for i in range(0, len(points), 3)]
    rows = []
    for t in triples:
        rest = remainder(at_point(f, t, p), at_point(g, t, p), p) + [0] * POWERS
        rows.append(monomials_at(monomials, t, p) + [-rest[x] % p])
    return add(f, {512 * x + m: c for m, c in zip(monomials, only_solution(rows, len(monomials), p)) if c}, p)


def long_division(rng, p, sizes):
    """A dividend of few terms and a divisor that is a product of four polynomials of `sizes` terms, with a quotient that is dense."""
    factors = [[rng.randrange(1, p) for _ in range(n)] for n in sizes]
    return box(p, [multiple(rng, p, f) for f in factors]), box(p, factors)


def long_candidate(rng, p, sizes, points):
    """Two inputs and a divisor that the candidate finds at the points, and refuses after a long division.

    The divisor is a product of four polynomials of `sizes` terms, in x, y, z, w, but for its constant term. The first input is a product with it. The
    second begins as x^7 times multiples of the other three factors that have few terms and dense cofactors, so that every cell above the divisor's
    degree in x gives a step. Its terms below are such that at each point, as values, the divisor divides it.
    """
    degree = sizes[0] - 1
    factors = [[rng.randrange(1, p) for _ in range(n)] for n in sizes]
    g = box(p, factors)
    g[0] = (g[0] + 1) % p
    first = {}
    while not 240 <= len(first) <= 256:
        cofactor = random_polynomial(rng, p, 256 // len(g) + 1, (7 - degree, *(8 - n for n in sizes[1:])), (key(7 - degree, 0, 0, 0), 0))
        first = multiply(g, cofactor, p)
    second = box(p, [[0] * 7 + [1]] + [multiple(rng, p, f) for f in factors[1:]])
    low = rng.sample(range(512), 512)
    while len(second) + 32 * degree < 256:
        second[low.pop()] = rng.randrange(1, p)
    for x in range(degree):
        second = vanishing(p, second, g, x, low[:32], points)
    return first, second, g


def long_multiple(rng, p, core, factors, beginnings):
    """The core times five powers of x and a multiple of each factor: what it begins as, and a constant. So it has few terms, and a dense quotient."""
    multiples = [whole(f, g, p) for f, g in zip(beginnings, factors)]
    return multiply(core, box(p, [[rng.randrange(1, p) for _ in range(5)], *multiples]), p)


def long():
    """32 keys, 32 kept points, and inputs of 256 terms with quotients of 1,080 and 900.

    The divisor is the core, x^3 + q (y-b) x^2 + r (z-c) x + s (w-d), times (y+b)(z+c)(w+d). The core times any other factor without x has y, z or w
    where the divisor has 1 and the square alone, so the equations have one solution. The multiples differ so that no more divides both inputs.
    """
    rng = random.Random(7)
    p = MODULUS
    factors = [[rng.randrange(1, p), 1] for _ in range(3)]
    core = {key(3, 0, 0, 0): 1}
    for low, place, (b, _) in zip((1024, 512, 0), (64, 8, 1), factors):
        q = rng.randrange(1, p)
        core |= {low + place: q, low: -q * b % p}
    five, six, both = [0] * 5 + [1], [0] * 6 + [1], [0] * 5 + [rng.randrange(1, p), 1]
    first = long_multiple(rng, p, core, factors, (six, both, six))
    second = long_multiple(rng, p, core, factors, (both, six, five))
    assert len(first) == len(second) == 256, "not the longest inputs"
    return accepted("long", p, first, second, multiply(core, box(p, ([1], *factors)), p), random_points(rng, p, 32))


def worst():
    """A candidate with 32 keys and 32 kept points that is refused late; a quotient of 625 steps with 256 terms each; an image of degree 0; and the
    fullest file."""
    rng = random.Random(4)
    p, points = MODULUS, random_points(rng, MODULUS, 32)
    first, second, g = long_candidate(rng, p, (7, 2, 2, 1), points)
    keys = set(g)
    while len(keys) < 32:
        keys.add(rng.randrange(512))
    dividend, divisor = long_division(rng, p, (4, 4, 4, 4))
    assert len(first) == len(second) == 256, "not the fullest file"
    return "worst", p, first, second, sorted(keys, reverse=True), points, 15, dividend, divisor, random_points(rng, p, 1)


def with_root(rng, p, root, terms):
    """A polynomial of degree 7 with so many terms and this root; where there is none, any with all eight."""
    if root is None:
        return [rng.randrange(1, p) for _ in range(8)]
    f = [0] * 7 + [1]
    for power in rng.sample(range(1, 7), terms - 2):
        f[power] = rng.randrange(1, p)
    f[0] = -sum(c * pow(root, power, p) for power, c in enumerate(f)) % p
    return f


def on_roots(rng, p, roots):
    """Points with one coordinate at its root: so many of each that a polynomial of degree 1 in each of these that is 0 there is their product."""
    places = [place for place, root in enumerate(roots) if root is not None]
    points = []
    for turn, place in enumerate(places):
        for _ in range(2 ** (len(places) - 1 - turn)):
            point = random_points(rng, p, 1)
            point[place] = roots[place]
            points += point
    return points


def refused_late(name, seed, degree, roots, terms, others):
    """A wrong skeleton: its divisor is f, in x alone and of this degree, times y - b, z - c, w - d for the roots, and divides the first input.

    Both inputs are products of four polynomials, in x, y, z, w, that have these roots, few terms and dense quotients; that in x is x^7 less its
    remainder by f, and in the second input f. The second then gets f and terms without x that are 0 at the other points. So there both have f in
    common, and where a coordinate is at its root the first is 0 and the second not a multiple of f: a multiple of f in the skeleton has to be 0
    there, and that fixes the divisor. The second input is divided until nothing of the highest power of x is left but the one term of f.
    """
    rng = random.Random(seed)
    p = MODULUS
    roots = [rng.randrange(1, p) if root else None for root in roots]
    f = [rng.randrange(1, p) for _ in range(degree)] + [1]
    g = box(p, [f] + [[1] if root is None else [-root % p, 1] for root in roots])
    first = box(p, [whole([0] * 7 + [1], f, p)] + [with_root(rng, p, root, terms) for root in roots])
    second = add(box(p, [f] + [with_root(rng, p, root, terms) for root in roots]), box(p, [f]), p)
    points = random_points(rng, p, others)
    low = rng.sample([k for k in sorted(second) if k < 512], others + 1)
    second = vanishing(p, add(second, {low[0]: 1}, p), g, 0, low[1:], points)
    points += on_roots(rng, p, roots)
    skeleton = sorted(g, reverse=True)
    assert len(first) == len(second) == 256, "not the longest inputs"
    assert candidate(Case(p, term_list(first), term_list(second), skeleton, points)).number == 15, "not refused by division"
    return name, p, first, second, skeleton, points, 15, first, g, points[:3]


def late():
    """The dearest division that is known to end in 15: 32 keys, 32 kept points, and 1,715 and 343 steps."""
    return refused_late("late", 8, 3, (True, True, True), 4, 25)


def steps():
    """The most steps that are known to end in 15, 3,136 and 448, of a quick guess: four keys and three points."""
    return refused_late("steps", 9, 1, (True, False, False), 2, 2)


def c_array(kind, name, numbers):
    return f"static const {kind} {name}[] = {{{', '.join(map(str, numbers))}}};"


def written(name, p, first, second, skeleton, points, number, dividend, divisor, at):
    lists = [
        ("uint32_t", "first", term_list(first)),
        ("uint32_t", "second", term_list(second)),
        ("uint16_t", "skeleton", skeleton),
        ("uint16_t", "points", points),
        ("uint32_t", "dividend", term_list(dividend)),
        ("uint32_t", "divisor", term_list(divisor)),
        ("uint16_t", "at", at),
    ]
    for kind, part, numbers in lists:
        print(c_array(kind, f"{name}_{part}", numbers))
    fields = ", ".join(f"{name}_{part}, {len(numbers)}" for _, part, numbers in lists)
    return f'    {{"{name}", {p}, {number}, {fields}}},'


def main():
    workloads = [
        small(),
        teacher(),
        planted("classroom", 1, 6, 7, 6),
        planted("full", 2, 16, 15, 16),
        planted("wide", 6, 32, 7, 32),
        long(),
        worst(),
        late(),
        steps(),
    ]
    print("/* Made by bench/workloads.py. */")
    lines = [written(*workload) for workload in workloads]
    print("static const workload workloads[] = {")
    print("\n".join(lines))
    print("};")


main()
