"""The arithmetic services, the list checks, the leading part and the shorter one, as the second program has them."""

from polynomials import leading_part, polynomial
from refusals import ACCEPTED, MODULI, Refusal, check_both_lists, check_list


def arithmetic(service, modulus, value, other_modulus=None, other_value=None):
    """Number, list, place, modulus and value of a sum, difference, product or inverse."""
    try:
        _check_operands(service, modulus, value, other_modulus, other_value)
    except Refusal as refusal:
        return *refusal.numbers(), modulus, 0
    results = {
        "sum": lambda: value + other_value,
        "difference": lambda: value - other_value,
        "product": lambda: value * other_value,
        "inverse": lambda: pow(value, -1, modulus),
    }
    return *ACCEPTED, modulus, results[service]() % modulus


def _check_operands(service, modulus, value, other_modulus, other_value):
    if modulus not in MODULI:
        raise Refusal(1)
    if value >= modulus:
        raise Refusal(17, 0)
    if service == "inverse":
        if value == 0:
            raise Refusal(16)
    elif other_modulus != modulus or other_value >= modulus:
        raise Refusal(17, 1)


def list_check(terms):
    """Number, list and place of the check without a modulus, and the length of the leading part."""
    try:
        check_list(terms)
    except Refusal as refusal:
        return *refusal.numbers(), 0
    return *ACCEPTED, leading_length(terms)


def lists_check(first, second):
    """Number, list and place of the check of both lists without a modulus; the length of the shorter
    leading part, the first list's on a tie, and which list it is the head of, 1 or 2."""
    try:
        check_both_lists(first, second)
    except Refusal as refusal:
        return *refusal.numbers(), 0, 1
    length, which = min((leading_length(first), 1), (leading_length(second), 2))
    return *ACCEPTED, length, which


def leading_length(terms):
    return len(leading_part(polynomial(terms)))
