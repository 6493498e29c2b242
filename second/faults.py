"""Deliberate faults of the second program, to see that a comparison reports them.

Those of the Cancel key, of short rooms and of the steps, which no program shows, are reported with `--calls`.
"""

import candidate
from polynomials import at_point, leading_part, monic, monic_gcd, term_list
from refusals import SKELETON, Refusal

true_equations = candidate.equations
true_image = candidate.image
true_handed_out = candidate.handed_out
true_trial = candidate.trial
true_check_point_numbers = candidate.check_point_numbers
true_check_rooms = candidate.check_rooms


def multipliers_one(skeleton, kept, p):
    """Every multiplier is fixed at 1: a further equation for each one after the first."""
    width = len(skeleton) + len(kept)
    rows = true_equations(skeleton, kept, p)
    for column in range(len(skeleton), width - 1):
        row = [0] * width
        row[column] = row[-1] = 1
        rows.append(row)
    return rows


def divides_only_first(divisor, dividends, p, ceiling):
    return true_trial(divisor, dividends[:1], p, ceiling)


def unlucky_kept(good, _d):
    return good


def divides_as_values(divisor, dividends, p, _ceiling):
    """Division is tested at one point only."""
    point = (2, 3, 5)
    values = at_point(divisor, point, p)
    divides = bool(values) and all(
        len(monic_gcd(values, at_point(poly, point, p), p)) == len(values)
        for poly in dividends)
    return 0 if divides else 15, []


def steps_looks_counted(divisor, dividends, p, ceiling):
    """The look that ends in "does not divide" is a step too, which the ceiling has to allow."""
    number, steps = true_trial(divisor, dividends, p, ceiling)
    if number == 15 and sum(steps) == ceiling:
        return 18, steps
    return number, [*steps[:-1], steps[-1] + 1] if number == 15 else steps


def steps_ceiling_each(divisor, dividends, p, ceiling):
    """Each of the two divisions may take as many steps as the ceiling."""
    steps = []
    for dividend in dividends:
        number, taken = true_trial(divisor, [dividend], p, ceiling)
        steps += taken
        if number:
            return number, steps
    return 0, steps


def steps_15_for_18(divisor, dividends, p, ceiling):
    """What is not divided within the ceiling is said not to be divided."""
    number, steps = true_trial(divisor, dividends, p, ceiling)
    return 15 if number == 18 else number, steps


def steps_of_first_forgotten(divisor, dividends, p, ceiling):
    """Where B is refused, the steps of B alone are in the record."""
    number, steps = true_trial(divisor, dividends, p, ceiling)
    return number, steps[-1:] if number else steps


def bad_by_first(first, second, point, p):
    """A point is bad if the x-leading coefficient of A is 0 there, whatever that of B is."""
    if not at_point(leading_part(first), point, p):
        return None
    return true_image(first, second, point, p)


def key_numerator_unscaled(numerator, denominator, p):
    """D' is made monic, and N' stays as it is."""
    return numerator, monic(denominator, p)


def key_not_monic(numerator, denominator, _p):
    """N' and D' are the quotients as they are."""
    return numerator, denominator


def key_each_monic(numerator, denominator, p):
    """N' and D' are made monic, each by a number of its own."""
    return monic(numerator, p), monic(denominator, p)


def key_one_output_tested(numerator_room, _denominator_room):
    """The denominator's output may have any length."""
    return numerator_room


def key_written_with_15(record, numerator, denominator, p):
    """Where D alone is divided, D' is handed out beside the refusal."""
    answer = true_handed_out(record, numerator, denominator, p)
    if numerator is None and denominator is not None:
        answer.denominator = term_list(monic(denominator, p))
    return answer


def list_of_points(numbers, modulus, **most):
    """8 and 9 are said to be of the skeleton."""
    try:
        true_check_point_numbers(numbers, modulus, **most)
    except Refusal as refusal:
        raise Refusal(refusal.number, refusal.place, SKELETON) from refusal


def list_without_rooms(*rooms):
    """10 and 11 are said to be of no list."""
    try:
        true_check_rooms(*rooms)
    except Refusal as refusal:
        raise Refusal(refusal.number, refusal.place) from refusal


FAULTS = {
    "multipliers-one": ("equations", multipliers_one),
    "divides-only-first": ("trial", divides_only_first),
    "unlucky-kept": ("kept_images", unlucky_kept),
    "divides-as-values": ("trial", divides_as_values),
    "bad-by-first": ("image", bad_by_first),
    "key-numerator-unscaled": ("scaled", key_numerator_unscaled),
    "key-not-monic": ("scaled", key_not_monic),
    "key-each-monic": ("scaled", key_each_monic),
    "key-one-output-tested": ("least_output", key_one_output_tested),
    "key-written-with-15": ("handed_out", key_written_with_15),
    "list-of-points": ("check_point_numbers", list_of_points),
    "list-without-rooms": ("check_rooms", list_without_rooms),
    "steps-looks-counted": ("trial", steps_looks_counted),
    "steps-ceiling-each": ("trial", steps_ceiling_each),
    "steps-15-for-18": ("trial", steps_15_for_18),
    "steps-of-first-forgotten": ("trial", steps_of_first_forgotten),
}


def put_in(name):
    """Replaces one step of the rule by its faulty form."""
    step, faulty = FAULTS[name]
    setattr(candidate, step, faulty)
