"""Plans of random cases: planted divisors, skeletons and points, and changes of them."""

from dataclasses import dataclass, field

from case_file import Case
from polynomials import (
    POWERS, add, exponents, greatest_exponents, key, leading_part, multiply, term_list,
)
from refusals import KEYS, MODULI

MOST_EXPONENTS = (7, 7, 7, 7)
DIVISOR_EXPONENTS = (3, 3, 3, 3)
COFACTOR_EXPONENTS = (3, 2, 2, 2)
SMALL_EXPONENTS = (2, 1, 1, 1)
MOST_POINTS = 32
MOST_KEYS = 32
ONE = {0: 1}
VARIABLE_KEYS = (key(1, 0, 0, 0), key(0, 1, 0, 0), key(0, 0, 1, 0), key(0, 0, 0, 1))


@dataclass
class Plan:
    """A = divisor * first_cofactor + first_extra, and B in the same way."""

    p: int
    divisor: dict
    first_cofactor: dict
    second_cofactor: dict
    skeleton: set
    points: list
    first_extra: dict = field(default_factory=dict)
    second_extra: dict = field(default_factory=dict)

    def case(self):
        points = [number for point in self.points for number in point]
        return Case(self.p, self._terms(self.first_cofactor, self.first_extra),
                    self._terms(self.second_cofactor, self.second_extra),
                    sorted(self.skeleton, reverse=True), points)

    def _terms(self, cofactor, extra):
        return term_list(add(multiply(self.divisor, cofactor, self.p), extra, self.p))


# Parts of plans.

def random_key(rng, most):
    return key(*(rng.randint(0, top) for top in most))


def random_coefficient(rng, p):
    return rng.choice((1, p - 1)) if rng.random() < 0.1 else rng.randrange(1, p)


def random_polynomial(rng, p, count, most):
    """A polynomial of at most `count` terms."""
    return {random_key(rng, most): random_coefficient(rng, p) for _ in range(count)}


def random_divisor(rng, p):
    """A divisor with at least two powers of x."""
    divisor = random_polynomial(rng, p, rng.randint(1, 6), DIVISOR_EXPONENTS)
    divisor[key(rng.randint(1, 3), *random_tail(rng, 2))] = random_coefficient(rng, p)
    divisor[key(0, *random_tail(rng, 2))] = random_coefficient(rng, p)
    return divisor


def random_tail(rng, most):
    """Exponents of y, z, w."""
    return [rng.randint(0, most) for _ in range(3)]


def random_cofactor(rng, p):
    return random_polynomial(rng, p, rng.randint(1, 4), COFACTOR_EXPONENTS)


def random_points(rng, p, count):
    return [tuple(random_coordinate(rng, p) for _ in range(3)) for _ in range(count)]


def random_coordinate(rng, p):
    return rng.choice((0, p - 1)) if rng.random() < 0.1 else rng.randrange(p)


def linear(variable, value, p):
    """The polynomial v - value, where v is x, y, z, w for variable 0 to 3."""
    return add({VARIABLE_KEYS[variable]: 1}, {0: -value}, p)


def pinned(points, variable, value):
    """The points with one coordinate of y, z, w (variable 1 to 3) set to a value."""
    return [point[:variable - 1] + (value,) + point[variable:] for point in points]


def random_pin(rng, p):
    return rng.randint(1, 3), random_coordinate(rng, p)


def put_in_points(rng, plan, points):
    """Puts points at random places, as many as there is room for."""
    for point in points[:MOST_POINTS - len(plan.points)]:
        plan.points.insert(rng.randint(0, len(plan.points)), point)


# Makers of plans.

def planted(rng):
    """A divisor with its own keys as skeleton, and about as many points as it needs."""
    p = rng.choice(MODULI)
    divisor = random_divisor(rng, p)
    points = random_points(rng, p, rng.randint(len(divisor) - 1, len(divisor) + 4))
    return Plan(p, divisor, random_cofactor(rng, p), random_cofactor(rng, p), set(divisor), points)


def medium_planted(rng):
    """As `planted`, with more terms and powers of x up to 7; its lists stay below 256 terms."""
    p = rng.choice(MODULI)
    x_degree = rng.randint(1, 6)
    divisor = random_polynomial(rng, p, rng.randint(8, 20), (x_degree, 3, 3, 3))
    cofactors = [random_polynomial(rng, p, rng.randint(4, 10), (7 - x_degree, 4, 4, 4))
                 for _ in range(2)]
    points = random_points(rng, p, rng.randint(len(divisor) // 2, len(divisor) + 4))
    return Plan(p, divisor, *cofactors, set(divisor), points)


def one_key_a_power(rng):
    """A divisor with one key for each power of x, which one point determines."""
    p = rng.choice(MODULI)
    divisor = {key(a, *random_tail(rng, 2)): random_coefficient(rng, p)
               for a in range(rng.randint(2, 4))}
    points = pinned(random_points(rng, p, rng.randint(1, 2)), 1, rng.randrange(1, p))
    return Plan(p, divisor, random_cofactor(rng, p), random_cofactor(rng, p), set(divisor), points)


def without_x(rng):
    """A and B of degree 0 in x; most skeletons are one monomial, some with keys in x beside."""
    p = rng.choice(MODULI)
    monomial = key(0, *random_tail(rng, 2))
    cofactors = [random_polynomial(rng, p, rng.randint(1, 3), (0, 3, 3, 3)) for _ in range(2)]
    skeleton = {rng.choice((monomial, monomial, 0, random_key(rng, (0, 2, 2, 2))))}
    skeleton |= {key(1, 0, 0, 0) + random_key(rng, (2, 2, 2, 2)) for _ in range(rng.randint(0, 2))}
    points = random_points(rng, p, rng.randint(1, 6))
    return Plan(p, {monomial: random_coefficient(rng, p)}, *cofactors, skeleton, points)


def coprime(rng):
    """A and B with no common divisor planted; the skeleton is 1 with or without more keys."""
    p = rng.choice(MODULI)
    first, second = (random_polynomial(rng, p, rng.randint(2, 8), MOST_EXPONENTS) for _ in range(2))
    skeleton = {0} | {random_key(rng, DIVISOR_EXPONENTS) for _ in range(rng.randint(0, 3))}
    return Plan(p, ONE, first, second, skeleton, random_points(rng, p, rng.randint(1, 8)))


def powers_over_linear(rng):
    """A product of v^m - c^m over a product of v - c: few terms, and a quotient of up to 2,401."""
    p = rng.choice(MODULI)
    divisor, cofactor = ONE, ONE
    for variable, variable_key in enumerate(VARIABLE_KEYS):
        c = rng.randrange(1, p)
        m = rng.choice((3, 7, 7, 7))
        row = {variable_key * power: pow(c, m - 1 - power, p) for power in range(m)}
        divisor = multiply(divisor, linear(variable, c, p), p)
        cofactor = multiply(cofactor, row, p)
    points = random_points(rng, p, rng.randint(2, 5))
    return Plan(p, divisor, cofactor, {0: random_coefficient(rng, p)}, {key(1, 0, 0, 0), 0}, points)


def long_quotients(rng):
    """x^7 - c^7 and x - c, each times a polynomial without x: A over x - c has more terms than a list may have."""
    p = rng.choice(MODULI)
    c = rng.randrange(1, p)
    row = {VARIABLE_KEYS[0] * power: pow(c, 6 - power, p) for power in range(7)}
    first, second = (random_polynomial(rng, p, count, (0, 7, 7, 7)) for count in (rng.randint(60, 128), rng.randint(1, 20)))
    divisor = linear(0, c, p)
    return Plan(p, divisor, multiply(row, first, p), second, set(divisor), random_points(rng, p, rng.randint(1, 4)))


def monomial_divisor(rng):
    """B has one term, which divides A."""
    p = rng.choice(MODULI)
    divisor = random_polynomial(rng, p, 1, DIVISOR_EXPONENTS)
    cofactor = random_polynomial(rng, p, rng.randint(1, 30), (4, 4, 4, 4))
    points = random_points(rng, p, rng.randint(1, 3))
    return Plan(p, divisor, cofactor, {0: random_coefficient(rng, p)}, set(divisor), points)


def many_terms_over_few(rng):
    """B has two or three terms and divides A, which has many."""
    p = rng.choice(MODULI)
    divisor = random_polynomial(rng, p, rng.randint(2, 3), DIVISOR_EXPONENTS)
    cofactor = random_polynomial(rng, p, rng.randint(40, 84), (4, 4, 4, 4))
    points = random_points(rng, p, rng.randint(2, 5))
    return Plan(p, divisor, cofactor, {0: random_coefficient(rng, p)}, set(divisor), points)


def full_planted(rng):
    """256 terms in both lists, 32 keys, 32 points: even exponents times exponents 0 and 1."""
    p = rng.choice(MODULI)
    divisor = _random_coefficients(rng, p, rng.sample(_even_keys(), MOST_KEYS))
    cofactors = [_full_cofactor(rng, p, 8) for _ in range(2)]
    return Plan(p, divisor, *cofactors, set(divisor), random_points(rng, p, MOST_POINTS))


def full_divides_one(rng):
    """As `full_planted`, but one of the lists is a multiple of the divisor only where w = value."""
    p = rng.choice(MODULI)
    value = random_coordinate(rng, p)
    without_w = [k for k in _even_keys() if exponents(k)[3] == 0]
    divisor = _random_coefficients(rng, p, rng.sample(without_w, MOST_KEYS))
    extra = multiply(linear(3, value, p), random_polynomial(rng, p, 8, (0, 6, 6, 6)), p)
    points = pinned(random_points(rng, p, MOST_POINTS), 3, value)
    first, second = _full_cofactor(rng, p, 8), _full_cofactor(rng, p, 7)
    if rng.random() < 0.5:
        return Plan(p, divisor, first, second, set(divisor), points, second_extra=extra)
    return Plan(p, divisor, second, first, set(divisor), points, first_extra=extra)


def full_random(rng):
    """256 terms in both lists, 32 keys, 32 points, nothing planted."""
    p = rng.choice(MODULI)
    first, second = (_random_coefficients(rng, p, rng.sample(range(KEYS), 256)) for _ in range(2))
    # At degree 0 more than one key without x leaves more than one solution.
    skeleton = {rng.randrange(512), *rng.sample(range(512, KEYS), MOST_KEYS - 1)}
    return Plan(p, ONE, first, second, skeleton, random_points(rng, p, MOST_POINTS))


def _even_keys():
    return [k for k in range(KEYS) if all(e % 2 == 0 for e in exponents(k))]


def _full_cofactor(rng, p, count):
    """A cofactor whose products with even keys are all different."""
    keys = [k for k in range(KEYS) if max(exponents(k)) <= 1]
    return _random_coefficients(rng, p, rng.sample(keys, count))


def _random_coefficients(rng, p, keys):
    return {k: random_coefficient(rng, p) for k in keys}


# Changes of plans.

def lengthen_skeleton(rng, plan):
    """More keys, whose coefficients are 0 in the solution."""
    most = rng.choice((MOST_EXPONENTS, greatest_exponents(plan.divisor)))
    plan.skeleton |= {random_key(rng, most) for _ in range(rng.randint(1, 6))}
    put_in_points(rng, plan, random_points(rng, plan.p, rng.randint(2, 6)))


def shorten_skeleton(rng, plan):
    plan.skeleton.remove(rng.choice(sorted(plan.skeleton)))


def change_skeleton(rng, plan):
    plan.skeleton.remove(rng.choice(sorted(plan.skeleton)))
    plan.skeleton.add(random_key(rng, DIVISOR_EXPONENTS))


def other_tails(rng, plan):
    """The skeleton keeps its powers of x and takes new exponents of y, z, w."""
    plan.skeleton = {key(exponents(k)[0], *random_tail(rng, 2)) for k in plan.skeleton}


def times_variable(rng, plan):
    """The skeleton times v: its polynomial, and so a multiplier, is 0 at kept points with v = 0."""
    variable = rng.randint(1, 3)
    plan.skeleton = {k + VARIABLE_KEYS[variable] for k in plan.skeleton}
    put_in_points(rng, plan, pinned(random_points(rng, plan.p, rng.randint(0, 2)), variable, 0))


def fill_skeleton(rng, plan):
    while len(plan.skeleton) < MOST_KEYS:
        plan.skeleton.add(random_key(rng, MOST_EXPONENTS))


def fill_points(rng, plan):
    put_in_points(rng, plan, random_points(rng, plan.p, MOST_POINTS))


def few_points(rng, plan):
    plan.points = plan.points[:rng.randint(1, 2)]


def repeat_points(rng, plan):
    put_in_points(rng, plan, rng.choices(plan.points, k=rng.randint(1, 5)))


def one_point_often(rng, plan):
    plan.points = plan.points[:1] * rng.randint(2, 6)


def zero_coordinates(rng, plan):
    plan.points = [tuple(number * rng.randint(0, 1) for number in point) for point in plan.points]


def add_unlucky_points(rng, plan):
    """The second cofactor is the first one times a number wherever v = value."""
    p = plan.p
    variable, value = random_pin(rng, p)
    factor = random_polynomial(rng, p, 2, SMALL_EXPONENTS)
    difference = multiply(linear(variable, value, p), factor, p)
    multiple = multiply(plan.first_cofactor, {0: random_coefficient(rng, p)}, p)
    plan.second_cofactor = add(multiple, difference, p) or ONE
    put_in_points(rng, plan, pinned(random_points(rng, p, rng.randint(1, 4)), variable, value))


def at_more_points(spoil):
    """The change that adds points, all where the plan is spoiled."""
    def change(rng, plan):
        variable, value = spoil(rng, plan)
        put_in_points(rng, plan, pinned(random_points(rng, plan.p, rng.randint(1, 4)), variable, value))
    return change


def at_all_points(spoil):
    """The change that moves every point to where the plan is spoiled."""
    def change(rng, plan):
        plan.points = pinned(plan.points, *spoil(rng, plan))
    return change


# Ways to spoil a plan wherever v = value; each gives the variable and the value.

def first_lead_vanishes(rng, plan):
    """The x-leading coefficient of A is 0 there."""
    return _spoil(rng, plan, first_cofactor=_lead_times)


def second_lead_vanishes(rng, plan):
    """The x-leading coefficient of B is 0 there."""
    return _spoil(rng, plan, second_cofactor=_lead_times)


def both_leads_vanish(rng, plan):
    return _spoil(rng, plan, first_cofactor=_lead_times, second_cofactor=_lead_times)


def first_vanishes(rng, plan):
    """A is 0 there."""
    return _spoil(rng, plan, first_cofactor=multiply)


def second_vanishes(rng, plan):
    """B is 0 there."""
    return _spoil(rng, plan, second_cofactor=multiply)


def both_vanish(rng, plan):
    return _spoil(rng, plan, first_cofactor=multiply, second_cofactor=multiply)


def lead_and_other_vanish(rng, plan):
    """The x-leading coefficient of one of the two is 0 there, and the whole of the other is."""
    lead, whole = rng.sample(("first_cofactor", "second_cofactor"), 2)
    return _spoil(rng, plan, **{lead: _lead_times, whole: multiply})


def _spoil(rng, plan, **products):
    """Takes v - value into the named cofactors, each by the product that is given for it."""
    variable, value = random_pin(rng, plan.p)
    for name, product in products.items():
        setattr(plan, name, product(getattr(plan, name), linear(variable, value, plan.p), plan.p))
    return variable, value


def _lead_times(poly, factor, p):
    """The polynomial with its leading part alone multiplied."""
    leading = leading_part(poly)
    lower = {k: c for k, c in poly.items() if k not in leading}
    return multiply(leading, factor, p) | lower


def only_first_is_divided(rng, plan):
    """B is a multiple of the divisor at every point, but not as a polynomial."""
    plan.second_extra = _extra_that_vanishes(rng, plan)


def only_second_is_divided(rng, plan):
    """A is a multiple of the divisor at every point, but not as a polynomial."""
    plan.first_extra = _extra_that_vanishes(rng, plan)


def _extra_that_vanishes(rng, plan):
    """A polynomial that is 0 at all points, which are pinned for it; it adds no power of x."""
    variable, value = random_pin(rng, plan.p)
    plan.points = pinned(plan.points, variable, value)
    factor = random_polynomial(rng, plan.p, rng.randint(1, 2), (0, 2, 2, 2))
    return multiply(linear(variable, value, plan.p), factor, plan.p)


def agree_as_values(rng, plan):
    """Skeleton keys are changed to others with the same values at all points."""
    variable = rng.randint(1, 3)
    plan.points = pinned(plan.points, variable, rng.randint(0, 1))
    plan.skeleton = {_other_exponent(rng, k, variable) for k in plan.skeleton}


def _other_exponent(rng, monomial, variable):
    """The key with another exponent of the variable, but 0 stays 0."""
    parts = list(exponents(monomial))
    if parts[variable]:
        parts[variable] = rng.randint(1, 7)
    return key(*parts)


def last_point_at_random(rng, plan):
    """A further point after all others, so that it alone can decide."""
    plan.points = [*plan.points[:MOST_POINTS - 1], *random_points(rng, plan.p, 1)]


def seventh_powers(_rng, plan):
    """Modulo 7 a skeleton with v^7 in the place of v: the same values everywhere."""
    plan.p = 7
    for name in ("divisor", "first_cofactor", "second_cofactor"):
        reduced = {k: c % 7 or 1 for k, c in getattr(plan, name).items()}
        setattr(plan, name, reduced)
    plan.points = [tuple(number % 7 for number in point) for point in plan.points]
    plan.skeleton = {key(a, *(7 if e == 1 else e for e in tail))
                     for a, *tail in map(exponents, plan.skeleton)}


def add_content(rng, plan):
    """A further factor of both without x, which no image shows; half the skeletons have it."""
    factor = linear(*random_pin(rng, plan.p), plan.p)
    plan.divisor = multiply(plan.divisor, factor, plan.p)
    if rng.random() < 0.5:
        plan.skeleton = set(plan.divisor)


def second_divides_first(rng, plan):
    plan.second_cofactor = {0: random_coefficient(rng, plan.p)}


def first_divides_second(rng, plan):
    plan.first_cofactor = {0: random_coefficient(rng, plan.p)}


def one_term_off(rng, plan):
    plan.first_extra = random_polynomial(rng, plan.p, 1, SMALL_EXPONENTS)


def raise_exponents(rng, plan):
    """The first cofactor is moved up, so that exponents up to 7 occur."""
    tops = zip(greatest_exponents(plan.divisor), greatest_exponents(plan.first_cofactor))
    monomial = key(*(rng.choice((0, POWERS - 1 - a - b)) for a, b in tops))
    plan.first_cofactor = multiply(plan.first_cofactor, {monomial: 1}, plan.p)
