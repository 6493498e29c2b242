"""What cases have at their points, in the words of the rule: a comparison counts it, and each kind must occur."""

from candidate import point_triples
from polynomials import at_point, leading_part, polynomial

BAD = "cases with a point where both x-leading coefficients are 0"
ONLY_LEAD = tuple(f"cases with a point where only the x-leading coefficient of {name} is 0" for name in "AB")
ZERO = tuple(f"cases with a good point where {name} is 0" for name in "AB")
KINDS = (BAD, *ONLY_LEAD, *ZERO)


def kinds(case):
    """The kinds of points that a case has, which passes the checks 1 to 9."""
    polys = polynomial(case.first), polynomial(case.second)
    leads = [leading_part(poly) for poly in polys]
    found = set()
    for point in point_triples(case):
        vanishing = [at for at, lead in enumerate(leads) if not at_point(lead, point, case.modulus)]
        if len(vanishing) == 2:
            found.add(BAD)
        elif vanishing:
            [at] = vanishing
            found.add(ONLY_LEAD[at])
            if not at_point(polys[at], point, case.modulus):
                found.add(ZERO[at])
    return found
