"""Damage done to random cases: to their values, and to their files."""

import case_file
from refusals import COEFFICIENTS, KEYS, MODULI

LONGEST_FILE = 65535  # the stream of `answers` gives a length in two bytes
MOST_WHOLE_FILE = 2884  # the length of a file with the most records of each kind


# Changes of a case's values, which the tests 1 to 9 refuse.

def unlisted_modulus(rng, case):
    chosen = rng.choice((0, 1, 2, 5, 11, 15, 19, 49, 103, 32001, 65519, rng.randrange(65536)))
    case.modulus = 15 if chosen in MODULI else chosen


def no_first_terms(_rng, case):
    case.first = []


def no_second_terms(_rng, case):
    case.second = []


def no_skeleton_keys(_rng, case):
    case.skeleton = []


def no_points(_rng, case):
    case.points = []


def spoil_first_term(rng, case):
    _spoil_term(rng, case.first, case.modulus)


def spoil_second_term(rng, case):
    _spoil_term(rng, case.second, case.modulus)


def _random_place(rng, values):
    """A place, often the first: only there is a key above 4095 not refused for its order too."""
    return rng.choice((0, rng.randrange(len(values))))


def _spoil_term(rng, terms, p):
    place = _random_place(rng, terms)
    key, coefficient = divmod(terms[place], COEFFICIENTS)
    high_key = rng.choice((KEYS, rng.randrange(KEYS, 65536)))
    high_coefficient = rng.choice((p, rng.randrange(p, COEFFICIENTS)))
    changed = rng.choice((
        [(high_key, coefficient)],
        [(key, 0)],
        [(key, high_coefficient)],
        [(key, coefficient), (key, coefficient)],
        [(key, coefficient), (rng.randrange(key, KEYS), coefficient)],
    ))
    terms[place:place + 1] = [key * COEFFICIENTS + coefficient for key, coefficient in changed]


def spoil_skeleton_key(rng, case):
    place = _random_place(rng, case.skeleton)
    key = case.skeleton[place]
    case.skeleton[place:place + 1] = rng.choice((
        [rng.choice((KEYS, rng.randrange(KEYS, 65536)))],
        [key, key],
        [key, rng.randrange(key, KEYS)],
    ))


def spoil_point_number(rng, case):
    place = rng.randrange(len(case.points))
    case.points[place] = rng.choice((case.modulus, rng.randrange(case.modulus, 65536)))


def several_spoilt(rng, case):
    """Two to four changes, so that the order of the tests is seen."""
    spoilers = (spoil_first_term, spoil_second_term, spoil_skeleton_key, spoil_point_number,
                spoil_point_number, no_second_terms, no_skeleton_keys, no_points, unlisted_modulus)
    # In this order a change that needs a value comes before one that takes it away.
    for place in sorted(rng.sample(range(len(spoilers)), rng.randint(2, 4))):
        spoilers[place](rng, case)


# Changes of a file, given as its records.

def cut(rng, records):
    data = b"".join(records)
    return [data[:rng.randrange(len(data))]]


def without_end(_rng, records):
    return records[:-1]


def bytes_after_end(rng, records):
    after = rng.choice((b"\x06", records[-2], records[0], rng.randbytes(rng.randint(1, 9))))
    return [*records, after]


def end_inside(rng, records):
    place = rng.randrange(1, len(records))
    return [*records[:place], records[-1], *records[place:]]


def unknown_kind(rng, records):
    place = rng.randrange(len(records))
    kind = rng.choice((0, 7, 255, rng.randrange(7, 256)))
    return [*records[:place], bytes([kind]) + records[place][1:], *records[place + 1:]]


def records_swapped(rng, records):
    """Two records of different kinds change places."""
    changed = list(records)
    left, right = rng.sample(range(len(records)), 2)
    while records[left][0] == records[right][0]:
        left, right = rng.sample(range(len(records)), 2)
    changed[left], changed[right] = records[right], records[left]
    return changed


def cut_in_record_out_of_order(rng, records):
    """The last record's kind is too low and its body is cut: the order is tested first."""
    place = rng.randrange(1, len(records))
    low = rng.choice([record for record in records[:place] if record[0] < records[place][0]])
    return [*records[:place + 1], low[:rng.randrange(1, len(low))]]


def second_modulus(rng, records):
    place = rng.randrange(1, len(records))
    return [*records[:place], records[0], *records[place:]]


def without_modulus(_rng, records):
    return records[1:]


def too_many_records(rng, records):
    """A kind with more records than allowed; some files end within the first one too many."""
    kind, most = rng.choice(sorted(case_file.MOST_RECORDS.items()))
    model = next(record for record in records if record[0] == kind)
    before = [record for record in records if record[0] < kind]
    after = [record for record in records if record[0] > kind]
    if rng.random() < 0.25:
        return [*before, *[model] * most, model[:rng.randrange(1, len(model))]]
    return [*before, *[model] * (most + rng.randint(1, 3)), *after]


def empty(_rng, _records):
    return []


def over_long(rng, records):
    """Longer than any whole file: bytes after the end, or the last point again and again."""
    length = rng.choice((LONGEST_FILE, rng.randint(MOST_WHOLE_FILE + 1, 9000)))
    filling = rng.choice((
        [*records, rng.randbytes(length)],
        [*records[:-1], *[records[-2]] * length],
    ))
    return [b"".join(filling)[:length]]


def random_bytes(rng, _records):
    return [rng.choice((b"", b"\x01")), rng.randbytes(rng.randint(1, 30))]


def byte_changed(rng, records):
    data = bytearray(b"".join(records))
    data[rng.randrange(len(data))] = rng.choice((rng.randrange(8), rng.randrange(256)))
    return [bytes(data)]


def second_damage(rng, records):
    """Damage done to a file damaged already: what stands first decides."""
    return rng.choice((cut, byte_changed))(rng, records)
