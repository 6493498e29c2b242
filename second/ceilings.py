"""Ceilings on the steps of trial division: which are tried, and what a call meets under one; a comparison counts it, and each kind must occur."""

from typing import NamedTuple

from candidate import Record
from refusals import MOST_STEPS

LARGE = (MOST_STEPS, 2**16, 2**32, 2**64 - 1)  # never reached, also where 16 or 32 bits would be 0
REFUSED = (15, 18)  # by division; which of the two comes, and after how many steps, may change where the lists are swapped
SERVICES = ("candidate", "key")


class Under(NamedTuple):
    """A call's record under a ceiling, and its record under one that is never reached."""

    ceiling: int
    record: Record
    unhindered: Record

    def refused(self, number, divisions):
        """Refused with this number in the first or in the second division."""
        return self.record.number == number and len(self.record.steps) == divisions

    def reached(self):
        return sum(self.record.steps) == self.ceiling


# What a call meets that begins a division; what one meets that begins none comes last.
MET = {
    "ceiling 0": lambda u: u.ceiling == 0,
    "ceiling 1": lambda u: u.ceiling == 1,
    "ceiling one less than the steps": lambda u: u.ceiling == sum(u.unhindered.steps) - 1,
    "ceiling the steps": lambda u: u.ceiling == sum(u.unhindered.steps),
    **{f"ceiling {large}": lambda u, large=large: u.ceiling == large for large in LARGE},
    "accepted at the ceiling": lambda u: u.record.number == 0 and u.reached(),
    "accepted below the ceiling": lambda u: u.record.number == 0 and not u.reached(),
    "15 of A after no step, ceiling 0": lambda u: u.refused(15, 1) and u.ceiling == 0,
    "15 of A after steps, at the ceiling": lambda u: u.refused(15, 1) and u.reached() and u.ceiling > 0,
    "15 of A after steps, below the ceiling": lambda u: u.refused(15, 1) and not u.reached() and sum(u.record.steps) > 0,
    "15 of B, the steps of A counted, at the ceiling": lambda u: u.refused(15, 2) and u.reached(),
    "15 of B, the steps of A counted, below the ceiling": lambda u: u.refused(15, 2) and not u.reached(),
    "18 in the division of A": lambda u: u.refused(18, 1),
    "18 in the division of B": lambda u: u.refused(18, 2),
    "18, and 0 under a higher ceiling": lambda u: u.record.number == 18 and u.unhindered.number == 0,
    "18, and 15 under a higher ceiling": lambda u: u.record.number == 18 and u.unhindered.number == 15,
}
NO_DIVISION = "no division is begun, ceiling 0"
KINDS = tuple(f"{service}: {name}" for service in SERVICES for name in (*MET, NO_DIVISION))

OTHER_STEPS, OTHER_NUMBER, BOTH_REACHED = SWAP_KINDS = (
    "lists swapped: 15 after other steps", "lists swapped: 15 and 18", "lists swapped: 18 both ways")


def kinds(service, ceiling, record, unhindered):
    """What a call of the candidate or the key meets under its ceiling; one that is refused with 1 to 11 meets nothing."""
    if record.number in range(1, 12):
        return []
    if unhindered.steps:
        return [f"{service}: {name}" for name, met in MET.items() if met(Under(ceiling, record, unhindered))]
    return [f"{service}: {NO_DIVISION}"] if ceiling == 0 else []


def swap_kinds(record, swapped):
    """What is told apart of two records of a call that is refused by division, the second with its lists swapped."""
    if record.number != swapped.number:
        return [OTHER_NUMBER]
    if record.number == 18:
        return [BOTH_REACHED]
    return [OTHER_STEPS] if sum(record.steps) != sum(swapped.steps) else []


def around(unhindered, large=LARGE):
    """Ceilings around the steps of an answer, by its record under one that is never reached, and large ones."""
    steps = sum(unhindered.steps)
    return sorted({0, 1, max(steps - 1, 0), steps, steps + 1, *large})


def some(rng, unhindered):
    """Where a division is begun, a ceiling of each sort and any one up to the steps; where none is, one ceiling."""
    steps = sum(unhindered.steps)
    if not unhindered.steps:
        return [rng.choice((0, 1, *LARGE))]
    return sorted({0, 1, max(steps - 1, 0), steps, rng.randint(0, steps), rng.choice(LARGE)})
