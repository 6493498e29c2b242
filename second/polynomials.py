"""Polynomials in x, y, z, w modulo p: term lists, images at a point, exact division.

A polynomial is a dictionary from key to coefficient without zero coefficients.
A polynomial in x alone is a list of coefficients, x^0 first, without leading zeros.
"""

from functools import cache

from refusals import COEFFICIENTS, Refusal

POWERS = 8


def key(a, b, c, d):
    """The key of x^a y^b z^c w^d."""
    return 512 * a + 64 * b + 8 * c + d


@cache
def exponents(monomial):
    """The exponents of x, y, z, w in a key."""
    return (monomial // 512, monomial // 64 % 8, monomial // 8 % 8, monomial % 8)


def polynomial(terms):
    """The polynomial of a term list."""
    return {term // COEFFICIENTS: term % COEFFICIENTS for term in terms}


def term_list(poly):
    """The term list of a polynomial, keys falling."""
    return [monomial * COEFFICIENTS + poly[monomial] for monomial in sorted(poly, reverse=True)]


def greatest_exponents(poly):
    """For each variable its greatest exponent in the polynomial."""
    return tuple(map(max, zip(*map(exponents, poly))))


def leading_part(poly):
    """The terms with the polynomial's highest power of x."""
    most = exponents(max(poly))[0]
    return {monomial: coefficient for monomial, coefficient in poly.items()
            if exponents(monomial)[0] == most}


def add(left, right, p):
    total = dict(left)
    for monomial, coefficient in right.items():
        _add_term(total, monomial, coefficient, p)
    return total


def multiply(left, right, p):
    tops = zip(greatest_exponents(left), greatest_exponents(right))
    assert all(a + b < POWERS for a, b in tops), "an exponent of the product is above 7"
    product = {}
    for left_key, left_coefficient in left.items():
        for right_key, right_coefficient in right.items():
            _add_term(product, left_key + right_key, left_coefficient * right_coefficient, p)
    return product


def _add_term(poly, monomial, coefficient, p):
    total = (poly.get(monomial, 0) + coefficient) % p
    if total:
        poly[monomial] = total
    else:
        poly.pop(monomial, None)


def monic(poly, p):
    """The polynomial divided by its leading coefficient."""
    inverse = pow(poly[max(poly)], -1, p)
    return {monomial: coefficient * inverse % p for monomial, coefficient in poly.items()}


def division(dividend, divisor, p):
    """Division by leading terms: each term of the quotient, key and coefficient, when it is due and before it is
    taken off the remainder. A Refusal with 15 at the first look that finds none."""
    leading = max(divisor)
    inverse = pow(divisor[leading], -1, p)
    tops = tuple(map(int.__sub__, greatest_exponents(dividend), greatest_exponents(divisor)))
    remainder = dict(dividend)
    while remainder:
        head = max(remainder)
        shifts = map(int.__sub__, exponents(head), exponents(leading))
        if not all(0 <= shift <= top for shift, top in zip(shifts, tops)):
            raise Refusal(15)
        factor = remainder[head] * inverse % p
        yield head - leading, factor
        for monomial, coefficient in divisor.items():
            _add_term(remainder, monomial + head - leading, -factor * coefficient, p)


def quotient(dividend, divisor, p):
    """The polynomial Q with dividend = divisor * Q, or None where there is none."""
    try:
        return dict(division(dividend, divisor, p))
    except Refusal:
        return None


def monomials_at(monomials, point, p):
    """The value of the y, z, w part of each monomial."""
    y, z, w = point
    return [pow(y, b, p) * pow(z, c, p) * pow(w, d, p) % p for _, b, c, d in map(exponents, monomials)]


def at_point(poly, point, p):
    """The polynomial in x that is left at a point."""
    values = [0] * POWERS
    for monomial, value in zip(poly, monomials_at(poly, point, p)):
        values[exponents(monomial)[0]] += poly[monomial] * value
    return _trimmed([value % p for value in values])


def _trimmed(values):
    while values and values[-1] == 0:
        values.pop()
    return values


def monic_gcd(left, right, p):
    """The monic greatest common divisor in x of two polynomials, not both zero."""
    while right:
        left, right = right, remainder(left, right, p)
    inverse = pow(left[-1], -1, p)
    return [value * inverse % p for value in left]


def remainder(dividend, divisor, p):
    """The remainder of two polynomials in x."""
    rest = list(dividend)
    inverse = pow(divisor[-1], -1, p)
    while len(rest) >= len(divisor):
        factor = rest[-1] * inverse % p
        shift = len(rest) - len(divisor)
        for power, value in enumerate(divisor):
            rest[shift + power] = (rest[shift + power] - factor * value) % p
        _trimmed(rest)
    return rest


def image(first, second, point, p):
    """The image U of the two polynomials at a point, or None if the point is bad."""
    values = at_point(first, point, p), at_point(second, point, p)
    if _loses_degree(first, values[0]) and _loses_degree(second, values[1]):
        return None
    return monic_gcd(*values, p)


def _loses_degree(poly, value):
    """Whether the value has a lower degree in x than the polynomial: its x-leading coefficient is 0 there."""
    return len(value) <= exponents(max(poly))[0]
