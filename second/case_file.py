"""The case file: its reader and its writer."""

from collections import Counter
from dataclasses import dataclass, field, replace

from refusals import ACCEPTED, COEFFICIENTS, Refusal

MODULUS, FIRST_TERM, SECOND_TERM, SKELETON_KEY, POINT, END = range(1, 7)
BODY_LENGTH = {MODULUS: 2, FIRST_TERM: 4, SECOND_TERM: 4, SKELETON_KEY: 2, POINT: 6, END: 0}
MOST_RECORDS = {FIRST_TERM: 256, SECOND_TERM: 256, SKELETON_KEY: 32, POINT: 32}


@dataclass
class Case:
    """What a case file holds: terms and keys as numbers, points flat."""

    modulus: int = 0
    first: list = field(default_factory=list)
    second: list = field(default_factory=list)
    skeleton: list = field(default_factory=list)
    points: list = field(default_factory=list)

    def swapped(self):
        """The same case with its two lists swapped."""
        return replace(self, first=self.second, second=self.first)


def read(data):
    """The case in `data`, or a Refusal with 20 to 25."""
    bodies = {kind: [] for kind in BODY_LENGTH}
    offset = 0
    previous = None
    while previous != END and offset < len(data):
        kind = data[offset]
        body = _body(data, offset, previous)
        if len(bodies[kind]) == MOST_RECORDS.get(kind):
            raise Refusal(25, offset)
        bodies[kind].append(body)
        previous = kind
        offset += 1 + len(body)
    if offset < len(data):
        raise Refusal(23, offset)
    if previous != END:
        raise Refusal(24, len(data))
    return _case(bodies)


def _body(data, offset, previous):
    """The body of the record at `offset`, which follows one of kind `previous`."""
    kind = data[offset]
    if kind not in BODY_LENGTH:
        raise Refusal(20, offset)
    if not _in_order(previous, kind):
        raise Refusal(22, offset)
    body = data[offset + 1:offset + 1 + BODY_LENGTH[kind]]
    if len(body) < BODY_LENGTH[kind]:
        raise Refusal(21, offset)
    return body


def _in_order(previous, kind):
    if previous is None:
        return kind == MODULUS
    return kind != MODULUS and kind >= previous


def _case(bodies):
    [modulus] = bodies[MODULUS]
    coordinates = [body[i:i + 2] for body in bodies[POINT] for i in (0, 2, 4)]
    return Case(_number(modulus), *(
        [_number(body) for body in numbers]
        for numbers in (bodies[FIRST_TERM], bodies[SECOND_TERM], bodies[SKELETON_KEY], coordinates)
    ))


def _number(body):
    return int.from_bytes(body, "little")


def record_numbers(case):
    """The records of a case, each as its kind and its numbers: of a term its coefficient, then its key."""
    return [
        (MODULUS, case.modulus),
        *((FIRST_TERM, term % COEFFICIENTS, term // COEFFICIENTS) for term in case.first),
        *((SECOND_TERM, term % COEFFICIENTS, term // COEFFICIENTS) for term in case.second),
        *((SKELETON_KEY, key) for key in case.skeleton),
        *((POINT, *case.points[i:i + 3]) for i in range(0, len(case.points), 3)),
        (END,),
    ]


def record(kind, *numbers):
    """One record; each of its numbers has two bytes."""
    return bytes([kind]) + b"".join(number.to_bytes(2, "little") for number in numbers)


def records(case):
    """The records of a case, one bytes object each; the values are written as they come."""
    return [record(*numbers) for numbers in record_numbers(case)]


def write(case):
    """The file of any case, without a test."""
    return b"".join(records(case))


def write_into(case, buffer):
    """The writer: its record (number, list, place, length), and the lent buffer afterwards."""
    try:
        _check_counts(case)
        file = write(case)
        if len(buffer) < len(file):
            raise Refusal(27)
    except Refusal as refusal:
        return (*refusal.numbers(), 0), buffer
    return (*ACCEPTED, len(file)), file + buffer[len(file):]


def _check_counts(case):
    """Only how many records of each kind there are is tested, and that each point is whole."""
    kinds = Counter(kind for kind, *_ in record_numbers(case))
    if len(case.points) % 3 or any(kinds[kind] > most for kind, most in MOST_RECORDS.items()):
        raise Refusal(26)
