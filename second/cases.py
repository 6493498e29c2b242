"""Seeded random case files: planted divisors, wrong inputs, damaged files.

A case is made in three stages: a plan (polynomials, skeleton, points), the
plan's case (numbers as a case file holds them), the file (bytes). A family
names the maker of the plan and the changes made at each stage.
"""

import random
from dataclasses import dataclass
from typing import Callable

import case_file
import damage
import plans


@dataclass
class Family:
    """How cases of one sort are made, and how many of them in one round."""

    name: str
    share: int
    maker: Callable
    plan_changes: tuple = ()
    value_changes: tuple = ()
    file_changes: tuple = ()

    def values(self, rng):
        """The case before it is a file."""
        plan = self.maker(rng)
        for change in self.plan_changes:
            change(rng, plan)
        case = plan.case()
        for change in self.value_changes:
            change(rng, case)
        return case

    def file(self, rng):
        records = case_file.records(self.values(rng))
        for change in self.file_changes:
            records = change(rng, records)
        return b"".join(records)


def _planted(name, share, *changes):
    return Family(name, share, plans.planted, changes)


def _values(name, share, change):
    return Family(name, share, plans.planted, value_changes=(change,))


def _files(name, share, *changes):
    return Family(name, share, plans.planted, file_changes=changes)


FAMILIES = (
    _planted("own skeleton", 6),
    _planted("long skeleton", 6, plans.lengthen_skeleton),
    _planted("short skeleton", 3, plans.shorten_skeleton),
    _planted("wrong skeleton", 3, plans.change_skeleton),
    _planted("skeleton times a variable", 3, plans.times_variable),
    _planted("few points", 3, plans.few_points),
    _planted("repeated points", 3, plans.repeat_points),
    _planted("one point often", 2, plans.one_point_often),
    _planted("zero coordinates", 3, plans.zero_coordinates),
    _planted("unlucky points", 6, plans.add_unlucky_points),
    _planted("bad points", 4, plans.at_more_points(plans.both_leads_vanish)),
    _planted("lead of A zero at points", 4, plans.at_more_points(plans.first_lead_vanishes)),
    _planted("lead of A zero at all points", 2, plans.at_all_points(plans.first_lead_vanishes)),
    _planted("lead of B zero at points", 4, plans.at_more_points(plans.second_lead_vanishes)),
    _planted("lead of B zero at all points", 2, plans.at_all_points(plans.second_lead_vanishes)),
    _planted("leads zero at points of their own", 3, plans.at_more_points(plans.first_lead_vanishes),
             plans.at_more_points(plans.second_lead_vanishes)),
    _planted("A zero at points", 3, plans.at_more_points(plans.first_vanishes)),
    _planted("A zero at all points", 2, plans.second_divides_first,
             plans.at_all_points(plans.first_vanishes)),
    _planted("B zero at points", 3, plans.at_more_points(plans.second_vanishes)),
    _planted("B zero at all points", 2, plans.first_divides_second,
             plans.at_all_points(plans.second_vanishes)),
    _planted("A zero, B zero at points of their own", 2, plans.at_more_points(plans.first_vanishes),
             plans.at_more_points(plans.second_vanishes)),
    _planted("one zero, lead of the other zero at points", 2,
             plans.at_more_points(plans.lead_and_other_vanish)),
    _planted("both zero at points", 2, plans.at_more_points(plans.both_vanish)),
    _planted("few points, then unlucky points", 2, plans.few_points, plans.add_unlucky_points),
    _planted("points of every sort", 6, plans.add_unlucky_points,
             plans.at_more_points(plans.both_leads_vanish),
             plans.at_more_points(plans.second_vanishes),
             plans.at_more_points(plans.first_lead_vanishes), plans.repeat_points),
    _planted("points of every sort, long skeleton", 4, plans.add_unlucky_points,
             plans.at_more_points(plans.both_leads_vanish),
             plans.at_more_points(plans.second_lead_vanishes),
             plans.lengthen_skeleton, plans.repeat_points),
    _planted("points of every sort, wrong skeleton", 2, plans.add_unlucky_points,
             plans.at_more_points(plans.both_leads_vanish),
             plans.at_more_points(plans.first_vanishes), plans.change_skeleton),
    _planted("only bad points", 3, plans.at_all_points(plans.both_leads_vanish)),
    _planted("divides A only", 4, plans.only_first_is_divided),
    _planted("divides B only", 3, plans.only_second_is_divided),
    _planted("equal values at the points", 3, plans.agree_as_values),
    _planted("equal values but for the last point", 2, plans.agree_as_values,
             plans.last_point_at_random),
    _planted("content", 3, plans.add_content),
    _planted("B divides A", 3, plans.second_divides_first),
    _planted("B divides A, high exponents", 2, plans.second_divides_first, plans.raise_exponents),
    _planted("A divides B", 1, plans.first_divides_second),
    _planted("A a multiple of B by a number", 1, plans.first_divides_second,
             plans.second_divides_first),
    _planted("one term off", 2, plans.second_divides_first, plans.one_term_off),
    _planted("high exponents", 2, plans.raise_exponents),
    _planted("32 keys", 2, plans.fill_skeleton),
    _planted("32 points", 2, plans.fill_points),
    _planted("32 keys, 32 points", 2, plans.fill_skeleton, plans.fill_points),
    Family("medium", 3, plans.medium_planted),
    Family("medium, wrong skeleton", 1, plans.medium_planted, (plans.change_skeleton,)),
    Family("medium, 32 keys, 32 points", 2, plans.medium_planted,
           (plans.fill_skeleton, plans.fill_points)),
    Family("medium, B divides A", 2, plans.medium_planted, (plans.second_divides_first,)),
    Family("one key a power", 2, plans.one_key_a_power),
    Family("one key a power, unlucky and bad points", 2, plans.one_key_a_power,
           (plans.add_unlucky_points, plans.at_more_points(plans.both_leads_vanish))),
    Family("one key a power, lead of A zero at all points", 2, plans.one_key_a_power,
           (plans.at_all_points(plans.first_lead_vanishes),)),
    Family("one key a power, other tails", 3, plans.one_key_a_power, (plans.other_tails,)),
    Family("seventh powers", 2, plans.one_key_a_power, (plans.seventh_powers,)),
    Family("without x", 4, plans.without_x),
    Family("without x, repeated points", 1, plans.without_x, (plans.repeat_points,)),
    Family("coprime", 3, plans.coprime),
    Family("A a number", 1, plans.coprime, (plans.first_divides_second,)),
    Family("B a number", 2, plans.coprime, (plans.second_divides_first,)),
    Family("monomial divisor", 2, plans.monomial_divisor),
    Family("many terms over few", 2, plans.many_terms_over_few),
    Family("many terms over few, one term off", 1, plans.many_terms_over_few,
           (plans.one_term_off,)),
    Family("powers over linear", 1, plans.powers_over_linear),
    Family("full size", 3, plans.full_planted),
    Family("full size, wrong skeleton", 1, plans.full_planted, (plans.change_skeleton,)),
    Family("full size, B divides A", 1, plans.full_planted, (plans.second_divides_first,)),
    Family("full size, divides one only", 1, plans.full_divides_one),
    Family("full size, nothing planted", 1, plans.full_random),
    _values("unlisted modulus", 2, damage.unlisted_modulus),
    _values("no first terms", 2, damage.no_first_terms),
    _values("first term spoilt", 3, damage.spoil_first_term),
    _values("no second terms", 2, damage.no_second_terms),
    _values("second term spoilt", 3, damage.spoil_second_term),
    _values("no skeleton keys", 2, damage.no_skeleton_keys),
    _values("skeleton key spoilt", 3, damage.spoil_skeleton_key),
    _values("no points", 2, damage.no_points),
    _values("point number spoilt", 2, damage.spoil_point_number),
    _values("several spoilt", 5, damage.several_spoilt),
    _files("cut", 2, damage.cut),
    _files("without end", 1, damage.without_end),
    _files("bytes after the end", 1, damage.bytes_after_end),
    _files("end inside", 1, damage.end_inside),
    _files("unknown kind", 1, damage.unknown_kind),
    _files("unknown kind and more damage", 1, damage.unknown_kind, damage.second_damage),
    _files("records swapped", 1, damage.records_swapped),
    _files("records swapped and more damage", 1, damage.records_swapped, damage.second_damage),
    _files("cut in a record out of order", 1, damage.cut_in_record_out_of_order),
    _files("second modulus", 1, damage.second_modulus),
    _files("without modulus", 1, damage.without_modulus),
    _files("too many records", 2, damage.too_many_records),
    _files("too many records and more damage", 1, damage.too_many_records, damage.second_damage),
    _files("empty", 1, damage.empty),
    _files("over-long", 2, damage.over_long),
    _files("random bytes", 1, damage.random_bytes),
    _files("byte changed", 1, damage.byte_changed),
)

# One of each family comes before the second of any.
ROUND = [family for turn in range(max(family.share for family in FAMILIES))
         for family in FAMILIES if family.share > turn]


def make_case(seed, index):
    """The name of the family and the bytes of one case; the same for the same seed and index."""
    family = ROUND[index % len(ROUND)]
    return family.name, family.file(random.Random(f"{seed}/{index}"))


def make_values(rng):
    """The name of a family and a case of it that is not damaged as a file."""
    family = rng.choice([family for family in ROUND if not family.file_changes])
    return family.name, family.values(rng)
