"""The groups of logs that are compared, each in parts that are made by themselves: a part's logs depend on the seed, the group and the part's number alone.
Of the random groups the sizes go by the number of cases asked for."""
import random
from typing import Callable, NamedTuple

import flight_cases
import list_groups
import oracle_lists
import short_cases

# Logs of a part of a random group.
PART = 500

BARE_THERE = ("--bare",)
HOME_THERE = ("--home",)


class Group(NamedTuple):
    """A name, what the Rust is told, a maker of a part's logs, and how many parts there are: a number, or the group's share of the random cases."""

    name: str
    flags: tuple
    make: Callable
    parts: int | float

    def count(self, cases):
        """How many parts there are for so many random cases."""
        return self.parts if isinstance(self.parts, int) else max(1, round(self.parts * cases / PART))

    def logs(self, seed, part):
        return self.make(random.Random(f"{seed} {self.name} {part}"), part)


def enumerated(name, made):
    """A group that is made of parts already."""
    return Group(name, (), *made)


def random_group(name, share, make, flags=()):
    return Group(name, flags, lambda rng, part: make(rng, PART), share)


def fixed(name, make, flags=()):
    """A group of one part."""
    return Group(name, flags, lambda rng, part: make(rng), 1)


GROUPS = (
    enumerated("up to five of E I P G H S X 00 01, five definitions", short_cases.every_section(short_cases.LETTERS, 5, short_cases.DEFINITIONS)),
    enumerated("up to five of I P G H X 00 01 02 80, three definitions", short_cases.every_section(short_cases.WITHOUT_E_AND_S, 5, short_cases.DEFINITIONS[:3])),
    enumerated("up to four of twelve bytes, four definitions", short_cases.every_section(short_cases.MIXED, 4, short_cases.DEFINITIONS[:4])),
    enumerated("every head of 6, 7 and 8, cut at every length", short_cases.heads(short_cases.FULL)),
    enumerated("every head of short groups, cut at every length", short_cases.heads(short_cases.SHORT)),
    enumerated("every pair of edges, predictors 2 and 3", short_cases.pairs()),
    enumerated("every shape of one to five items", short_cases.shapes()),
    random_group("flights, damaged, cut and spliced, no E and S", 0.30, flight_cases.families),
    random_group("flights with any bytes", 0.08, flight_cases.with_any_bytes),
    random_group("flights with slow lists", 0.06, flight_cases.with_slow_lists),
    random_group("letters and small numbers", 0.12, flight_cases.a_few_bytes),
    random_group("long numbers", 0.03, flight_cases.long_numbers),
    random_group("events", 0.03, flight_cases.events),
    random_group("slow frames", 0.02, flight_cases.slow_frames),
    random_group("S without slow lists", 0.01, flight_cases.no_slow_frames),
    random_group("short groups of 7 and 8", 0.03, flight_cases.short_groups),
    random_group("encoding 9 with predictors 2 and 3", 0.02, flight_cases.straight_9),
    random_group("predictor 7, a GPS home definition there", 0.02, flight_cases.with_home, HOME_THERE),
    random_group("predictor 7 in flights", 0.01, flight_cases.no_home),
    random_group("main lists", 0.20, list_groups.made_by(list_groups.main_lists)),
    random_group("slow lists", 0.03, list_groups.made_by(list_groups.slow_lists)),
    random_group("over 64 rounds", 0.005, list_groups.made_by(list_groups.over_64)),
    random_group("predictor 7 in lists", 0.01, list_groups.made_by(list_groups.with_7)),
    random_group("predictor 7 in lists, a GPS home definition there", 0.01, list_groups.made_by(list_groups.with_7), HOME_THERE),
    fixed("header numbers", list_groups.header_numbers),
    fixed("frame intervals", list_groups.intervals),
    fixed("accSmooth without acc_1G there", list_groups.all_of(oracle_lists.acc_smooth), BARE_THERE),
    fixed("no slow lists there", list_groups.all_of(oracle_lists.no_slow), BARE_THERE),
    fixed("`H Field P` lines", list_groups.all_of(oracle_lists.p_lines)),
    fixed("not ASCII", list_groups.all_of(oracle_lists.not_ascii)),
    fixed("main lists that 8 refuses", list_groups.all_of(oracle_lists.main_8)),
    fixed("closing texts", flight_cases.closing_texts),
    fixed("65,536 bytes", flight_cases.largest),
    fixed("the limits", flight_cases.limits),
    fixed("the logs of the table of walks", flight_cases.of_the_table),
)
