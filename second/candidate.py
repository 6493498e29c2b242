#!/usr/bin/env python3
"""The rule of the candidate and the Cancel key, and what the programs print for a case file.

Run as a program it takes the name of a program (candidate, cancel, quotient, image,
records, answers), reads standard input and prints what that program should print.
"""

import sys
from dataclasses import dataclass, field

import case_file
from polynomials import (
    POWERS, division, exponents, image, monic, monomials_at, multiply, polynomial, quotient, term_list,
)
from refusals import (
    ACCEPTED, COEFFICIENTS, MOST_SKELETON_KEYS, MOST_STEPS, NO_LIST, QUOTIENT_TERMS, WORK_NUMBERS, Refusal,
    check_modulus_and_lists, check_point_numbers, check_rooms, check_skeleton,
)

FRACTION_BAR = "-----\n"


@dataclass
class Record:
    """The candidate's answer; `at_fault` is the list, `terms` holds the terms themselves, and `steps` has a number for
    each trial division that was begun, A's first: the record's own number is their sum."""

    number: int
    at_fault: int = NO_LIST
    place: int = 0
    d: int = 0
    bad: int = 0
    unlucky: int = 0
    kept: int = 0
    terms: list = field(default_factory=list)
    steps: list = field(default_factory=list)

    def head(self):
        return self.number, self.at_fault, self.place, self.d, self.bad, self.unlucky, self.kept

    def numbers(self):
        """The whole record."""
        return *self.head(), len(self.terms), sum(self.steps)


@dataclass
class Cancelled:
    """The Cancel key's answer: the candidate's record, and the terms of N' and D'."""

    record: Record
    numerator: list = field(default_factory=list)
    denominator: list = field(default_factory=list)

    def numbers(self):
        """The key's own record: both counts of terms in place of one."""
        return *self.record.head(), len(self.numerator), len(self.denominator), sum(self.record.steps)


def candidate(case, ceiling=MOST_STEPS, output_room=MOST_SKELETON_KEYS, work_room=WORK_NUMBERS):
    """The candidate's record for a case whose values are not yet tested."""
    try:
        _check_inputs(case)
        check_rooms(output_room, len(case.skeleton), work_room)
    except Refusal as refusal:
        return Record(*refusal.numbers())
    record, divisor = _by_rule(case, ceiling)
    if record.number == 0:
        record.terms = term_list(divisor)
    return record


def _check_inputs(case):
    """The tests 1 to 9, which candidate and Cancel key share."""
    check_modulus_and_lists(case.modulus, case.first, case.second)
    check_skeleton(case.skeleton)
    check_point_numbers(case.points, case.modulus)


def _by_rule(case, ceiling):
    """The record without its terms, and the divisor that was tried; or 12 to 14 and None."""
    record, divisor = _by_equations(case)
    if divisor is not None:
        dividends = polynomial(case.first), polynomial(case.second)
        record.number, record.steps = trial(divisor, dividends, case.modulus, ceiling)
    return record, divisor


def _by_equations(case):
    """The record and the divisor that the equations fix, not yet tried; or 12 to 14 and None."""
    p = case.modulus
    first, second = polynomial(case.first), polynomial(case.second)
    points = point_triples(case)
    images = [(point, image(first, second, point, p)) for point in points]
    good = [(point, u) for point, u in images if u is not None]
    if not good:
        return Record(12, bad=len(points)), None
    d = min(len(u) - 1 for _, u in good)
    kept = kept_images(good, d)
    record = Record(*ACCEPTED, d, len(points) - len(good), len(good) - len(kept), len(kept))
    try:
        unknowns = len(case.skeleton) + len(kept) - 1
        solution = only_solution(equations(case.skeleton, kept, p), unknowns, p)
    except Refusal as refusal:
        record.number = refusal.number
        return record, None
    return record, monic({k: c for k, c in zip(case.skeleton, solution) if c}, p)


def cancel(case, ceiling=MOST_STEPS, numerator_room=QUOTIENT_TERMS, denominator_room=QUOTIENT_TERMS, work_room=WORK_NUMBERS):
    """The Cancel key's answer for a case: its first list is the numerator, its second the denominator."""
    try:
        _check_inputs(case)
        check_rooms(least_output(numerator_room, denominator_room), QUOTIENT_TERMS, work_room)
    except Refusal as refusal:
        return Cancelled(Record(*refusal.numbers()))
    record, divisor = _by_rule(case, ceiling)
    if divisor is None:
        return Cancelled(record)
    quotients = [quotient(polynomial(terms), divisor, case.modulus) for terms in (case.first, case.second)]
    return handed_out(record, *quotients, case.modulus)


def least_output(numerator_room, denominator_room):
    """The shorter of the two outputs, which has to be long enough."""
    return min(numerator_room, denominator_room)


def handed_out(record, numerator, denominator, p):
    """Both quotients by the divisor, scaled, where the trial accepts it; what does not divide is not handed out."""
    if record.number == 0 and (numerator is None or denominator is None):
        record.number = 15
    if record.number:
        return Cancelled(record)
    return Cancelled(record, *map(term_list, scaled(numerator, denominator, p)))


def scaled(numerator, denominator, p):
    """Both times the number that makes the denominator monic."""
    factor = {0: pow(denominator[max(denominator)], -1, p)}
    return multiply(numerator, factor, p), multiply(denominator, factor, p)


def point_triples(case):
    return [tuple(case.points[i:i + 3]) for i in range(0, len(case.points), 3)]


def kept_images(good, d):
    """The good points with an image of degree d, with these images, in the order lent."""
    return [(point, u) for point, u in good if len(u) - 1 == d]


def equations(skeleton, kept, p):
    """The equations as rows: coefficients, multipliers from the second on, right-hand side."""
    rows = []
    x_powers = [exponents(key)[0] for key in skeleton]
    for index, (point, u) in enumerate(kept):
        values = monomials_at(skeleton, point, p)
        for power in range(POWERS):
            skeleton_part = [value if x_power == power else 0
                             for x_power, value in zip(x_powers, values)]
            image_part = [0] * len(kept)
            image_part[index] = u[power] if power < len(u) else 0
            # The first multiplier is 1, so its part stands on the right-hand side.
            moved = [-value % p for value in image_part[1:]]
            rows.append(skeleton_part + moved + image_part[:1])
    return rows


def only_solution(rows, unknowns, p):
    """The only solution of the rows; a Refusal with 13 for none, 14 for more than one."""
    pivots = {}
    for row in rows:
        row = _reduced(row, pivots, p)
        column = next((i for i, value in enumerate(row) if value), None)
        if column == unknowns:
            raise Refusal(13)
        if column is not None:
            inverse = pow(row[column], -1, p)
            pivots[column] = [value * inverse % p for value in row]
    if len(pivots) < unknowns:
        raise Refusal(14)
    return _back_substituted(pivots, unknowns, p)


def _reduced(row, pivots, p):
    """The row without the columns that have a pivot; a pivot row is 0 before its column."""
    for column in range(len(row) - 1):
        factor = row[column]
        if factor and column in pivots:
            row = [(a - factor * b) % p for a, b in zip(row, pivots[column])]
    return row


def _back_substituted(pivots, unknowns, p):
    solution = [0] * unknowns
    for column in reversed(range(unknowns)):
        row = pivots[column]
        known = sum(row[i] * solution[i] for i in range(column + 1, unknowns))
        solution[column] = (row[unknowns] - known) % p
    return solution


def trial(divisor, dividends, p, ceiling):
    """Trial division of each in turn, under one ceiling on the steps of all: 0, 15 or 18, and the steps of each
    division that was begun. A step is a term of a quotient."""
    steps = []
    try:
        for dividend in dividends:
            steps.append(0)
            for _ in division(dividend, divisor, p):
                if sum(steps) == ceiling:
                    raise Refusal(18)
                steps[-1] += 1
    except Refusal as refusal:
        return refusal.number, steps
    return 0, steps


def quotient_terms(case, output_room=QUOTIENT_TERMS, work_room=WORK_NUMBERS):
    """The terms of A over B for a case, or a Refusal."""
    check_modulus_and_lists(case.modulus, case.first, case.second)
    check_rooms(output_room, QUOTIENT_TERMS, work_room)
    result = quotient(polynomial(case.first), polynomial(case.second), case.modulus)
    if result is None:
        raise Refusal(15)
    return term_list(result)


def image_at(case, point):
    """The image of a case at one point, or a Refusal."""
    check_modulus_and_lists(case.modulus, case.first, case.second)
    check_point_numbers(point, case.modulus, most=3)
    u = image(polynomial(case.first), polynomial(case.second), point, case.modulus)
    if u is None:
        raise Refusal(12)
    return u


def candidate_text(data):
    """What the program `candidate` prints for a case file."""
    try:
        record = candidate(case_file.read(data))
    except Refusal as refusal:
        record = Record(*refusal.numbers())
    return _line(*record.head()) + _term_lines(record.terms)


def cancel_text(data):
    """What the program `cancel` prints for a case file: the record, then numerator over denominator."""
    try:
        answer = cancel(case_file.read(data))
    except Refusal as refusal:
        answer = Cancelled(Record(*refusal.numbers()))
    text = _line(*answer.numbers())
    if answer.record.number:
        return text
    return text + _term_lines(answer.numerator) + FRACTION_BAR + _term_lines(answer.denominator)


def quotient_text(data):
    """What the program `quotient` prints for a case file."""
    try:
        terms = quotient_terms(case_file.read(data))
    except Refusal as refusal:
        return _line(refusal.number, refusal.place)
    return _line(0, 0) + _term_lines(terms)


def image_text(data):
    """What the program `image` prints: one line for each point, or one for an empty point where there is none."""
    try:
        case = case_file.read(data)
    except Refusal as refusal:
        return _line(refusal.number, refusal.place)
    return "".join(_image_line(case, point) for point in point_triples(case) or [()])


def _image_line(case, point):
    try:
        u = image_at(case, point)
    except Refusal as refusal:
        return _line(refusal.number, refusal.place)
    return _line(0, 0, len(u) - 1, *u, *[0] * (POWERS - len(u)))


def records_text(data):
    """What the program `records` prints for a case file: a line for each record."""
    try:
        case = case_file.read(data)
    except Refusal as refusal:
        return _line(refusal.number, refusal.place)
    return "".join(_line(*numbers) for numbers in case_file.record_numbers(case))


def _line(*numbers):
    return " ".join(map(str, numbers)) + "\n"


def _term_lines(terms):
    return "".join(
        _line(term % COEFFICIENTS, *exponents(term // COEFFICIENTS)) for term in terms)


def answers_text(stream):
    """What the program `answers` prints for a stream of case files with their lengths."""
    texts = []
    offset = 0
    while offset < len(stream):
        start = offset + 2
        offset = start + int.from_bytes(stream[offset:start], "little")
        texts.append(candidate_text(stream[start:offset]))
    return "".join(texts)


PROGRAMS = {
    "candidate": candidate_text,
    "cancel": cancel_text,
    "quotient": quotient_text,
    "image": image_text,
    "records": records_text,
    "answers": answers_text,
}


def main():
    if len(sys.argv) != 2 or sys.argv[1] not in PROGRAMS:
        sys.exit(f"usage: candidate.py {'|'.join(PROGRAMS)} < input")
    sys.stdout.write(PROGRAMS[sys.argv[1]](sys.stdin.buffer.read()))


if __name__ == "__main__":
    main()
