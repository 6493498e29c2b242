"""Refusals, and the tests of inputs that give the numbers 1 to 11."""

MODULI = (7, 13, 17, 101, 32003, 65521)
KEYS = 4096
MOST_TERMS = 256
MOST_SKELETON_KEYS = 32
MOST_POINT_NUMBERS = 96
WORK_NUMBERS = 8192
QUOTIENT_TERMS = 4096
MOST_STEPS = 8192  # two divisions never take more
COEFFICIENTS = 65536

# The list at fault, as a record names it.
NO_LIST, FIRST, SECOND, SKELETON, POINTS, OUTPUT, WORK = range(7)
ACCEPTED = (0, NO_LIST, 0)  # what a record without a refusal begins with


class Refusal(Exception):
    """A refusal number, its place and the list at fault, which each test names where it refuses."""

    def __init__(self, number, place=0, at_fault=NO_LIST):
        super().__init__(number, place, at_fault)
        self.number = number
        self.place = place
        self.at_fault = at_fault

    def numbers(self):
        """What a record of it begins with: number, list, place."""
        return self.number, self.at_fault, self.place


def check_modulus(modulus):
    if modulus not in MODULI:
        raise Refusal(1)


def check_list(terms, modulus=COEFFICIENTS, length_number=2, at_fault=FIRST):
    """Tests of a term list; its terms are refused with the number after `length_number`."""
    if not 1 <= len(terms) <= MOST_TERMS:
        raise Refusal(length_number, 0, at_fault)
    before = KEYS  # so a first key above 4095 is refused like a key that does not fall
    for place, term in enumerate(terms):
        key, coefficient = divmod(term, COEFFICIENTS)
        if key >= before or not 1 <= coefficient < modulus:
            raise Refusal(length_number + 1, place, at_fault)
        before = key


def check_both_lists(first, second, modulus=COEFFICIENTS):
    """The tests 2 to 5; without a modulus any coefficient passes but 0."""
    check_list(first, modulus, 2, FIRST)
    check_list(second, modulus, 4, SECOND)


def check_modulus_and_lists(modulus, first, second):
    """The tests 1 to 5, which candidate, quotient and image share."""
    check_modulus(modulus)
    check_both_lists(first, second, modulus)


def check_skeleton(skeleton):
    if not 1 <= len(skeleton) <= MOST_SKELETON_KEYS:
        raise Refusal(6, 0, SKELETON)
    before = KEYS
    for place, key in enumerate(skeleton):
        if key >= before:
            raise Refusal(7, place, SKELETON)
        before = key


def check_point_numbers(numbers, modulus, most=MOST_POINT_NUMBERS):
    if not 1 <= len(numbers) <= most or len(numbers) % 3 != 0:
        raise Refusal(8, 0, POINTS)
    for place, number in enumerate(numbers):
        if number >= modulus:
            raise Refusal(9, place, POINTS)


def check_rooms(output_room, output_needed, work_room):
    if output_room < output_needed:
        raise Refusal(10, 0, OUTPUT)
    if work_room < WORK_NUMBERS:
        raise Refusal(11, 0, WORK)
