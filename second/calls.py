"""Calls of the library as lines, also those that no case file can make, with what the second program answers.

`examples/calls.c` says what a line and its answer are.
"""

import random
from dataclasses import replace
from typing import NamedTuple

import bench
import case_file
import cases
import ceilings
import damage
import plans
from arithmetic import arithmetic, leading_length, list_check, lists_check
from candidate import cancel, candidate, image_at, quotient_terms
from polynomials import POWERS, key, term_list
from refusals import (
    ACCEPTED, COEFFICIENTS, KEYS, MODULI, MOST_SKELETON_KEYS, MOST_STEPS, MOST_TERMS, QUOTIENT_TERMS, WORK_NUMBERS, Refusal,
)

NUMBERS = (*range(0, 19), *range(20, 28))
LISTS = range(1, 7)
X, Y, ONE = key(1, 0, 0, 0), key(0, 1, 0, 0), key(0, 0, 0, 0)
X_POWER, Y_POWER = X * COEFFICIENTS, Y * COEFFICIENTS
OPERATIONS = ("sum", "difference", "product")
MARK = b"\x09"  # each byte of a buffer before the call
MOST_READ = 4096  # no byte of a case file after these changes what is read
CANDIDATE_ROOMS = (MOST_SKELETON_KEYS, WORK_NUMBERS)  # an output that is always enough, and the work room
KEY_ROOMS = (QUOTIENT_TERMS, QUOTIENT_TERMS, WORK_NUMBERS)  # what the Cancel key needs: two outputs and the work room


# What the picker of the shorter leading part and the Cancel key meet, and calls whose lists are swapped; each must occur.
TIE, FIRST_SHORTER, SECOND_SHORTER = "picker: a tie", "picker: the first is shorter", "picker: the second is shorter"
REFUSED = tuple(f"picker: refused with {number}" for number in range(2, 6))
SWAPPED = "calls with their lists swapped"
KEY_REFUSED = {number: f"key: refused with {number}" for number in (*range(1, 16), 18)}
KEY_SHORT = {  # whether the numerator's output is short, and whether the denominator's is
    (True, False): "key: the numerator's output alone is short",
    (False, True): "key: the denominator's output alone is short",
    (True, True): "key: both outputs are short",
}
KEY_MONIC, KEY_SCALED = "key: accepted, c is 1", "key: accepted, c is not 1"
KEY_LONGER = tuple(f"key: accepted, the {room} is longer than needed" for room in ("numerator's output", "denominator's output", "work room"))
KEY_MANY = tuple(f"key: accepted, {name} has more than {MOST_TERMS} terms" for name in ("N'", "D'"))
KEY_KINDS = (*KEY_REFUSED.values(), *KEY_SHORT.values(), KEY_MONIC, KEY_SCALED, *KEY_LONGER, *KEY_MANY)
KINDS = (TIE, FIRST_SHORTER, SECOND_SHORTER, *REFUSED, SWAPPED, *KEY_KINDS, *ceilings.KINDS, *ceilings.SWAP_KINDS)


class Call(NamedTuple):
    """A label, the line, the line that answers it, and for some calls their kinds."""

    label: str
    line: str
    answer: str
    kinds: tuple = ()


def _line(*parts):
    """Words, numbers and lists, each list behind its length."""
    words = []
    for part in parts:
        words += [len(part), *part] if isinstance(part, list) else [part]
    return " ".join(map(str, words)) + "\n"


def _rooms(number, work_room, *outputs):
    """The terms in each output, and what is left of the rooms: of each output, a pair of terms and room, what is behind the terms;
    the work room as lent with 1 to 11, else its first 8192 numbers are 0."""
    used = min(work_room, WORK_NUMBERS)
    refused = 1 <= number <= 11
    written = [word for terms, _ in outputs for word in ("|", *terms)]
    left = [room - len(terms) for terms, room in outputs]
    return [*written, "|", *left, used if refused else 0, work_room - used, 0 if refused else used]


def candidate_call(label, case, ceiling=MOST_STEPS, rooms=CANDIDATE_ROOMS):
    return next(candidate_both_ways(label, case, candidate(case), ceiling, rooms))


def candidate_both_ways(label, case, unhindered, ceiling, rooms):
    """The call, and where both lists pass the checks 1 to 5 the call with these swapped. The same answer is wanted, but for a 15 or 18: which of
    the two comes, and after how many steps, is worked anew. `unhindered` is the record under a ceiling that is never reached."""
    record = candidate(case, ceiling, *rooms)
    yield _candidate_call(label, case, ceiling, rooms, record, ceilings.kinds("candidate", ceiling, record, unhindered))
    if record.number in range(1, 6):
        return
    kinds = [SWAPPED]
    if record.number in ceilings.REFUSED:
        other = candidate(case.swapped(), ceiling, *rooms)
        kinds += ceilings.swap_kinds(record, other)
        record = replace(record, number=other.number, steps=other.steps)
    yield _candidate_call(f"{label}, lists swapped", case.swapped(), ceiling, rooms, record, kinds)


def _candidate_call(label, case, ceiling, rooms, record, kinds):
    asked = _line("candidate", case.modulus, case.first, case.second, case.skeleton, case.points, ceiling, *rooms)
    output_room, work_room = rooms
    return Call(label, asked, _line(*record.numbers(), *_rooms(record.number, work_room, (record.terms, output_room))), tuple(kinds))


def cancel_call(label, case, ceiling=MOST_STEPS, rooms=KEY_ROOMS, unhindered=None):
    answer = cancel(case, ceiling, *rooms)
    asked = _line("cancel", case.modulus, case.first, case.second, case.skeleton, case.points, ceiling, *rooms)
    numerator_room, denominator_room, work_room = rooms
    outputs = (answer.numerator, numerator_room), (answer.denominator, denominator_room)
    told = _line(*answer.numbers(), *_rooms(answer.record.number, work_room, *outputs))
    kinds = [*_key_kinds(case, answer, rooms), *ceilings.kinds("key", ceiling, answer.record, unhindered or candidate(case))]
    return Call(label, asked, told, tuple(kinds))


def _key_kinds(case, answer, rooms):
    """What a call of the key meets."""
    number = answer.record.number
    if number:
        yield KEY_REFUSED[number]
    if number == 10:
        yield KEY_SHORT[tuple(room < QUOTIENT_TERMS for room in rooms[:2])]
    if number == 0:
        yield KEY_MONIC if case.second[0] % COEFFICIENTS == 1 else KEY_SCALED
        yield from (kind for kind, room, needed in zip(KEY_LONGER, rooms, KEY_ROOMS) if room > needed)
        yield from (kind for kind, terms in zip(KEY_MANY, (answer.numerator, answer.denominator)) if len(terms) > MOST_TERMS)


def quotient_call(label, case, output_room=QUOTIENT_TERMS, work_room=WORK_NUMBERS):
    head, terms = ACCEPTED, []
    try:
        terms = quotient_terms(case, output_room, work_room)
    except Refusal as refusal:
        head = refusal.numbers()
    asked = _line("quotient", case.modulus, case.first, case.second, output_room, work_room)
    return Call(label, asked, _line(*head, len(terms), *_rooms(head[0], work_room, (terms, output_room))))


def image_call(label, case, point):
    head, u = ACCEPTED, []
    try:
        u = image_at(case, point)
    except Refusal as refusal:
        head = refusal.numbers()
    answer = _line(*head, max(len(u) - 1, 0), "|", *u, *[0] * (POWERS - len(u)))
    return Call(label, _image_line(case, point), answer)


def _image_line(case, point):
    return _line("image", case.modulus, case.first, case.second, list(point))


def _both_ways(call, asked, case, *rest):
    """The call, and where both lists pass the checks 1 to 5 its line with these swapped: the same answer is wanted."""
    yield call
    if int(call.answer.split()[0]) not in range(1, 6):
        yield Call(f"{call.label}, lists swapped", asked(case.swapped(), *rest), call.answer, (SWAPPED,))


def list_call(label, terms):
    *head, length = list_check(terms)
    return Call(label, _line("list", terms), _line(*head, "|", length))


def lists_call(label, first, second):
    number, *rest, length, which = lists_check(first, second)
    kind = REFUSED[number - 2] if number else _picked(leading_length(first), leading_length(second))
    return Call(label, _line("lists", first, second), _line(number, *rest, "|", length, which), (kind,))


def _picked(first_length, second_length):
    if first_length == second_length:
        return TIE
    return FIRST_SHORTER if first_length < second_length else SECOND_SHORTER


def arithmetic_call(label, service, *operands):
    return Call(label, _line(service, *operands), _line(*arithmetic(service, *operands)))


def write_call(label, case, room):
    record, buffer = case_file.write_into(case, MARK * room)
    asked = _line("write", case.modulus, case.first, case.second, case.skeleton, case.points, room)
    return Call(label, asked, _line(*record, "|", *buffer))


def copy_call(label, data, room):
    """A file is read, and what was handed back is written: the same bytes, or after a refusal modulus 0 and no lists."""
    head, case = ACCEPTED, case_file.Case()
    try:
        case = case_file.read(data)
        record, buffer = (*ACCEPTED, len(data)), data + MARK * (room - len(data))
    except Refusal as refusal:
        head = refusal.numbers()
        record, buffer = case_file.write_into(case, MARK * room)
    counts = map(len, (case.first, case.second, case.skeleton, case.points))
    asked = _line("copy", list(data), room)
    return Call(label, asked, _line(*head, case.modulus, *counts, "|", *record, "|", *buffer))


# The lines of the specification that are run only, on the inputs of the crate `bench_examples`.

def falling(count):
    """A skeleton with keys X + count - 2 down to X, then 1."""
    return [X + step for step in reversed(range(count - 1))] + [ONE]


def run_only():
    p1 = bench.case("p1")
    key_4095 = replace(p1, first=[4095 * COEFFICIENTS + 1], second=[4095 * COEFFICIENTS + 1], skeleton=[4095], points=[1, 1, 1])
    changed = {
        "modulus 15": replace(p1, modulus=15),
        "coefficient 17": replace(p1, first=[2 * X_POWER + 1, 17]),
        "coefficient 16": replace(p1, first=[2 * X_POWER + 16, 1]),
        "two equal keys": replace(p1, first=[2 * X_POWER + 1, 2 * X_POWER + 16]),
        "key 4096": replace(p1, first=[4096 * COEFFICIENTS + 1]),
        "key 4095": key_4095,
        "32 keys": replace(p1, skeleton=falling(32)),
        "33 keys": replace(p1, skeleton=falling(33)),
        "95 point numbers": replace(p1, points=[0] * 95),
        "96 point numbers": replace(p1, points=[0] * 96),
        "99 point numbers": replace(p1, points=[0] * 99),
    }
    for label, case in changed.items():
        yield candidate_call(label, case)
    for rooms in ((1, 8191), (1, 8192), (2, 8191), (2, 8192)):
        yield candidate_call("output {}, work {}".format(*rooms), p1, rooms=rooms)
    by_x_plus_1 = replace(p1, second=[X_POWER + 1, 1])
    yield quotient_call("quotient, output 4095", by_x_plus_1, output_room=4095)
    yield quotient_call("quotient, work 8191", by_x_plus_1, work_room=8191)
    yield quotient_call("x^2-1 by x+1", by_x_plus_1)
    yield quotient_call("x^2-1 by x^2+2x+1", p1)
    yield quotient_call("F by E", replace(p1, first=bench.case("p9").first, second=term_list(bench.E)))
    yield from cancelled()
    yield from hindered()
    yield from imaged()
    yield from calculated()
    yield list_call("leading part of F", bench.case("p9").first)
    yield list_call("leading part, two equal keys", changed["two equal keys"].first)
    yield list_call("leading part, no terms", [])
    yield from picked()
    yield from written()


def cancelled():
    """The Cancel key: what it strikes out, each of its refusals, and its rooms at their limits."""
    notch, no_good_point, alone = bench.case("filter"), bench.case("p2"), divided_alone()
    changed = {
        **{name: bench.case(name) for name in ("filter", "p1", "p2", "p3", "p4", "p5", "p6", "p7", "p8", "p10", "p12")},
        "filter upside down": notch.swapped(), "many terms": many_terms(), "many terms upside down": many_terms().swapped(),
        "G divides the denominator alone": alone["x^2+3x+2 divides B alone"], "G divides the numerator alone": alone["x^2+3x+2 divides A alone"],
        "modulus 15": replace(notch, modulus=15), "no numerator": replace(notch, first=[]), "no denominator": replace(notch, second=[]),
        "numerator coefficient 0": replace(notch, first=[X_POWER + 1, 0]), "denominator keys equal": replace(notch, second=[1, 1]),
        "33 keys": replace(notch, skeleton=falling(33)), "key 4096": replace(notch, skeleton=[4096]),
        "95 point numbers": replace(notch, points=[0] * 95), "point number 65521": replace(notch, points=[0, 0, 65521]),
    }
    for label, case in changed.items():
        yield cancel_call(f"cancel, {label}", case)
    for rooms in ((4095, 4096, 8192), (4096, 4095, 8192), (4095, 4095, 8192), (4095, 4096, 8191), (4096, 4096, 8191), (0, 4096, 8192),
                  (4096, 0, 8192), (4096, 4096, 0), (4097, 4096, 8192), (4096, 4097, 8192), (4096, 4096, 8193)):
        yield cancel_call("cancel, rooms {} {} {}".format(*rooms), notch, rooms=rooms)
    yield cancel_call("cancel, point number 65521, short output", changed["point number 65521"], rooms=(4095, 4095, 8192))
    yield cancel_call("cancel, no good point, short output", no_good_point, rooms=(4096, 4095, 8192))
    yield cancel_call("cancel, no good point, short work room", no_good_point, rooms=(4096, 4096, 8191))


def many_terms():
    """128 monomials without x, times x^7 - 1 over 3x - 3: the numerator without x - 1 has 896 terms."""
    numerator = [7 * X_POWER + k * COEFFICIENTS + 1 for k in reversed(range(128))] + [k * COEFFICIENTS + 16 for k in reversed(range(128))]
    return case_file.Case(17, numerator, [X_POWER + 3, 14], [X, ONE], [1, 0, 0])


def hindered():
    """Cases under ceilings around their steps: the candidate both ways, and the key. A short room is refused before a ceiling is met."""
    for name, case in hindered_cases().items():
        unhindered = candidate(case)
        for ceiling in ceilings.around(unhindered):
            yield from candidate_both_ways(f"{name}, ceiling {ceiling}", case, unhindered, ceiling, CANDIDATE_ROOMS)
            yield cancel_call(f"cancel, {name}, ceiling {ceiling}", case, ceiling, unhindered=unhindered)
    yield candidate_call("ceiling 0, work 8191", bench.case("p1"), 0, (2, 8191))
    yield cancel_call("cancel, ceiling 0, rooms 4096 4095 8192", bench.case("p1"), 0, (4096, 4095, 8192))


def hindered_cases():
    """The bench examples, and those where one list alone is divided."""
    return {example.name: example.case for example in bench.EXAMPLES} | divided_alone()


def divided_alone():
    """x + 1 divides (x+1)(x+2), and (x+1)(x+3) + y at y = 0 alone. There y(x+1) is 0, and (x+1)(x+2) divides itself."""
    near = term_list({2 * X: 1, X: 4, Y: 1, ONE: 3})
    first = case_file.Case(17, term_list(bench.TEACHER_SECOND), near, [X, ONE], [0, 0, 0])
    second = replace(bench.case("zero_value"), skeleton=[2 * X, X, ONE], points=[0, 0, 0])
    return {"x+1 divides A alone": first, "x+1 divides B alone": first.swapped(),
            "x^2+3x+2 divides B alone": second, "x^2+3x+2 divides A alone": second.swapped()}


def imaged():
    """The image at points of every kind."""
    p1 = bench.case("p1")
    yield image_call("image at two numbers", p1, [0, 0])
    yield image_call("image at a bad point", bench.case("p2"), [0, 0, 0])
    one_lead, one_value = bench.case("teacher"), bench.case("zero_value")
    only_lead_left = replace(one_lead, second=one_value.first)
    for label, case in {"where one leading coefficient is 0": one_lead, "where one value is 0": one_value,
                        "where one value and the other's leading coefficient are 0": only_lead_left,
                        "where both values are 0": replace(one_value, second=one_value.first)}.items():
        call = image_call(f"image {label}", case, [0, 0, 0])
        yield from _both_ways(call, _image_line, case, [0, 0, 0])


def calculated():
    yield arithmetic_call("5 + 16", "sum", 17, 5, 17, 16)
    yield arithmetic_call("5 - 16", "difference", 17, 5, 17, 16)
    yield arithmetic_call("16 * 16", "product", 17, 16, 17, 16)
    yield arithmetic_call("1 / 3", "inverse", 17, 3)
    yield arithmetic_call("5 modulo 15 + 5", "sum", 15, 5, 17, 5)
    yield arithmetic_call("17 + 5", "sum", 17, 17, 17, 5)
    yield arithmetic_call("5 + 17", "sum", 17, 5, 17, 17)
    yield arithmetic_call("two moduli", "sum", 17, 5, 13, 5)
    yield arithmetic_call("1 / 0", "inverse", 17, 0)


def picked():
    """The shorter leading part: on a tie, of either list, and of lists that are refused."""
    one, other = [2 * X_POWER + 1, 1], [X_POWER + 65535]
    two = [2 * X_POWER + Y_POWER + 3, 2 * X_POWER + 1, X_POWER + 1]
    lists = {
        "a tie": (one, other), "one list twice": (two, two), "the first is shorter": (one, two), "the second is shorter": (two, one),
        "more terms, shorter part": (two, [X_POWER + 1, *(k * COEFFICIENTS + 1 for k in (3, 2, 1, 0))]),
        "no first terms": ([], one), "no second terms": (two, []), "no terms": ([], []),
        "first coefficient 0": ([2 * X_POWER], one), "second coefficient 0": (two, [2 * X_POWER + 1, X_POWER]),
        "both coefficients 0": ([X_POWER + 1, 0], [0]), "first keys equal, no second terms": ([1, 1], []),
        "second keys rise": (one, [1, X_POWER + 1]), "second key 4096": (one, [KEYS * COEFFICIENTS + 1]),
        "257 second terms": (one, [k * COEFFICIENTS + 1 for k in reversed(range(257))]),
        "256 terms twice": tuple([k * COEFFICIENTS + 1 for k in reversed(range(top - 256, top))] for top in (KEYS, X + 100)),
    }
    for label, (first, second) in lists.items():
        yield lists_call(f"picker, {label}", first, second)


def written():
    """The writer at each of its limits, and in buffers about as long as the file."""
    p1 = bench.case("p1")
    for room in (0, 41, 42, 43):
        yield write_call(f"write, buffer {room}", p1, room)
    fullest = case_file.Case(65535, [2**32 - 1] * 256, [2**32 - 1] * 256, [65535] * 32, [65535] * 96)
    changed = {
        "nothing but a modulus": case_file.Case(),
        "all full": fullest,
        "257 first terms": replace(fullest, first=[1] * 257),
        "257 second terms": replace(fullest, second=[1] * 257),
        "33 keys": replace(fullest, skeleton=[1] * 33),
        "97 point numbers": replace(fullest, points=[1] * 97),
        "98 point numbers": replace(fullest, points=[1] * 98),
        "99 point numbers": replace(fullest, points=[1] * 99),
        "95 point numbers": replace(fullest, points=[1] * 95),
        "1 point number": replace(p1, points=[1]),
        "2 point numbers": replace(p1, points=[1] * 2),
    }
    for label, case in changed.items():
        yield write_call(f"write, {label}", case, 3000)
    yield write_call("write, all full, buffer 2883", fullest, 2883)
    yield write_call("write, 33 keys, no buffer", changed["33 keys"], 0)


# Seeded calls: a case of the families of files, lent with any lengths. A maker gives one call, or a call and its swap; of the candidate and the key,
# where they divide, these under several ceilings.

def seeded(seed, count):
    for index in range(count):
        rng = random.Random(f"calls/{seed}/{index}")
        yield from rng.choice(MAKERS)(rng)


def _case(rng):
    name, case = cases.make_values(rng)
    for change in rng.sample(LENGTHS, rng.choice((0, 0, 1))):
        change(rng, case)
    return name, case


def _many_terms(rng, case):
    keys = sorted(rng.sample(range(1, KEYS), rng.choice((256, 257, 300))), reverse=True)
    setattr(case, rng.choice(("first", "first", "second")), [k * COEFFICIENTS + 1 for k in keys])


def _many_keys(rng, case):
    case.skeleton = sorted(rng.sample(range(4096), rng.choice((32, 33, 40))), reverse=True)


def _many_numbers(rng, case):
    case.points = [rng.randrange(7) for _ in range(rng.choice((95, 96, 97, 99, 120)))]


def _one_number_less(_rng, case):
    case.points = case.points[:-1]


LENGTHS = (_many_terms, _many_keys, _many_numbers, _one_number_less)


def _work(rng):
    return rng.choice((WORK_NUMBERS, WORK_NUMBERS + rng.randint(1, 100), WORK_NUMBERS - 1, rng.randint(0, WORK_NUMBERS)))


def _seeded_candidate(rng):
    name, case = _case(rng)
    needed = len(case.skeleton)
    rooms = rng.choice((needed, 40, needed, max(needed - 1, 0))), _work(rng)
    unhindered = candidate(case)
    for ceiling in ceilings.some(rng, candidate(case, MOST_STEPS, *rooms)):
        yield from candidate_both_ways(f"{name}, ceiling {ceiling}", case, unhindered, ceiling, rooms)


def _seeded_cancel(rng):
    """A case, or one with long quotients, either way up; the rooms as needed or longer, in some calls one or two of them short."""
    name, case = ("long quotients", plans.long_quotients(rng).case()) if rng.random() < 0.05 else _case(rng)
    rooms = [needed + rng.choice((0, rng.randint(1, 100))) for needed in KEY_ROOMS]
    for place in rng.sample(range(len(rooms)), rng.choice((0, 0, 0, 0, 1, 2))):
        rooms[place] = rng.choice((KEY_ROOMS[place] - 1, rng.randrange(KEY_ROOMS[place])))
    case = rng.choice((case, case.swapped()))
    unhindered = candidate(case)
    for ceiling in ceilings.some(rng, cancel(case, MOST_STEPS, *rooms).record):
        yield cancel_call(f"cancel, {name}, ceiling {ceiling}", case, ceiling, rooms, unhindered)


def _seeded_quotient(rng):
    name, case = _case(rng)
    yield quotient_call(name, case, rng.choice((QUOTIENT_TERMS, 4200, QUOTIENT_TERMS - 1, 0)), _work(rng))


def _seeded_image(rng):
    name, case = _case(rng)
    point = case.points[:rng.choice((3, 3, 3, 3, 0, 1, 2, 4))]
    yield from _both_ways(image_call(name, case, point), _image_line, case, point)


def _seeded_list(rng):
    name, case = _case(rng)
    yield list_call(name, case.first)


def _any_terms(rng):
    """Terms with falling keys and any coefficients; some have a length that no list has."""
    keys = rng.sample(range(KEYS), rng.choice((0, 1, 2, 3, 9, 60, 255, 256, 257, 290)))
    return [k * COEFFICIENTS + rng.randrange(1, COEFFICIENTS) for k in sorted(keys, reverse=True)]


def _seeded_lists(rng):
    """The lists of a case; or any terms, in some calls the same twice, in some one or two of them spoilt."""
    name, case = _case(rng)
    if rng.random() < 0.7:
        first = _any_terms(rng)
        name, case = "picker", case_file.Case(17, first, rng.choice((first[:], _any_terms(rng), _any_terms(rng))))
        spoilers = [spoil for terms, spoil in ((case.first, damage.spoil_first_term), (case.second, damage.spoil_second_term)) if terms]
        for spoil in rng.sample(spoilers, min(rng.choice((0, 0, 1, 2)), len(spoilers))):
            spoil(rng, case)
    yield lists_call(name, case.first, case.second)


def _operand(rng):
    p = rng.choice((*MODULI, *MODULI, rng.randrange(65536)))
    return p, rng.choice((0, 1, p - 1 if p else 0, p, rng.randrange(p or 1), rng.randrange(65536)))


def _seeded_arithmetic(rng):
    p, a = _operand(rng)
    q, b = rng.choice(((p, rng.randrange(p or 1)), (p, a), _operand(rng)))
    yield arithmetic_call("arithmetic", rng.choice(OPERATIONS), p, a, q, b)


def _seeded_inverse(rng):
    yield arithmetic_call("inverse", "inverse", *_operand(rng))


# Lengths of the four lists that a file has, lengths that none has, and what their numbers are below.
WRITABLE = ((0, 1, 7, 255, 256), (0, 1, 7, 255, 256), (0, 1, 31, 32), (0, 3, 93, 96))
UNWRITABLE = ((257, 300), (257, 300), (33, 40), (1, 2, 95, 97, 98, 99, 120))
WIDTHS = (2**32, 2**32, 2**16, 2**16)


def _seeded_write(rng):
    """Any numbers; in some calls a list or two have a length that no file has."""
    lengths = [rng.choice(choices) for choices in WRITABLE]
    for place in rng.sample(range(len(lengths)), rng.choice((0, 0, 0, 1, 2))):
        lengths[place] = rng.choice(UNWRITABLE[place])
    lists = ([rng.randrange(width) for _ in range(length)] for length, width in zip(lengths, WIDTHS))
    case = case_file.Case(rng.randrange(2**16), *lists)
    needed = len(case_file.write(case))
    yield write_call("write", case, rng.choice((needed, needed + rng.randint(1, 100), needed - 1, rng.randrange(needed), 0)))


MAKERS = (_seeded_candidate, _seeded_candidate, _seeded_cancel, _seeded_cancel, _seeded_quotient, _seeded_image, _seeded_list,
          _seeded_lists, _seeded_arithmetic, _seeded_inverse, _seeded_write)


# Seeded files, whole and damaged, each into a buffer longer than the file.

def copies(seed, count):
    for index in range(count):
        family, data = cases.make_case(seed, index)
        data = data[:MOST_READ]
        yield copy_call(f"copy of case {index} ({family})", data, len(data) + 1 + index % 9)
