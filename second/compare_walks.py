"""Sets a program that calls the comparison of two walks beside walkers.py, on worked and on made-up pairs.

python3 second/compare_walks.py PROGRAM [--seed N] [--cases N] [--long]

PROGRAM is callers/c/walks.c, built with the library: that file says what it reads
and prints.  Exits 1 with the first difference, and 1 if some two numbers of the two
lists were not seen together, or one of the reasons to hand a list back.
"""
import random
import sys
from array import array
from itertools import product
from typing import NamedTuple

from beside import chosen_options, differs, exit_status, line, shortened
from figures import ACCEPTED, list_call
from madeup_walks import GREATEST_NUMBER, LEAST_NUMBER, large_pairs, random_pair
from walkers import compare_walks
from worked import WALKS

# Numbers of the first list and of the second, each by the list call.
NUMBER_PAIRS = set(product((ACCEPTED, 1, 2), repeat=2))
REASONS = {"the first as the longer", "the second as the longer", "the first on a tie"}
BEHIND = (0, 1, 2_000, 5_000, LEAST_NUMBER)
EDGE_LENGTHS = (0, 1, 2, 4, 5, 6, 7, 8, 2_047, 2_048, 2_049, 2_050, 4_096)
EDGE_VALUES = (-2_001, -2_000, 2_000, 2_001)


class Case(NamedTuple):
    """Two lists, and for each the number that lies behind its end, where the call may not read."""
    name: str
    first: list
    second: list
    behind: tuple


# Cases

def case_of(rng, name, first, second):
    """The case of two lists."""
    return Case(name, first, second, (rng.choice(BEHIND), rng.choice(BEHIND)))


def fixed_pairs():
    """The worked lists, and lists at the limits and past them: each with each.  A walk with one coordinate at its limits
    or past them, in every place, with another."""
    lists = WALKS | {f"{length} numbers": [k % 7 for k in range(length)] for length in EDGE_LENGTHS}
    lists |= {f"{value} throughout": [value] * 6 for value in (*EDGE_VALUES, LEAST_NUMBER, GREATEST_NUMBER)}
    lists["far and odd"] = [5_000] * 7
    for first, second in product(lists, repeat=2):
        yield f"{first} and {second}", lists[first], lists[second]
    for place, value in product(range(8), EDGE_VALUES):
        changed = list(WALKS["rectangle"])
        changed[place] = value
        yield f"{value} in the first", changed, WALKS["other-walk"]
        yield f"{value} in the second", WALKS["other-walk"], changed


def all_pairs(rng, cases, with_long):
    """Every pair of a run."""
    yield from fixed_pairs()
    for _ in range(11 if with_long else 1):
        yield from large_pairs(rng)
    for number in range(cases):
        name, *lists = random_pair(rng)
        yield f"{name}, case {number}", *lists


# What the program reads and prints

def as_bytes(case):
    """The case as the program reads it."""
    lengths = array("Q", [len(case.first), len(case.second)])
    numbers = array("i", [*case.first, case.behind[0], *case.second, case.behind[1]])
    return lengths.tobytes() + numbers.tobytes()


def wanted_line(case):
    """What the program is to print."""
    return line(*compare_walks(case.first, case.second).fields())


# Reporting

def told(case):
    """The two lists in words."""
    return f"{case.name}: {len(case.first)} numbers and {len(case.second)}\n" + "\n".join(
        f"    {name} {shortened(line(*numbers))}" for name, numbers in (("first: ", case.first), ("second:", case.second)))


def reason(case):
    """Which list of an accepted pair is to be handed back, and why."""
    if len(case.first) == len(case.second):
        return "the first on a tie"
    return f"the {'first' if len(case.first) > len(case.second) else 'second'} as the longer"


def main():
    """Run every case; answer the exit status."""
    chosen = chosen_options("Set the comparison of two walks beside the second program.")
    rng = random.Random(chosen.seed)
    cases = [case_of(rng, *pair) for pair in all_pairs(rng, chosen.cases, chosen.long)]
    wanted = [wanted_line(case) for case in cases]
    if differs(chosen.program, b"".join(map(as_bytes, cases)), wanted, lambda place: told(cases[place])):
        return 1
    pairs = [(list_call(case.first)[0], list_call(case.second)[0]) for case in cases]
    reasons = [reason(case) for case, pair in zip(cases, pairs) if pair == (ACCEPTED, ACCEPTED)]
    missing = (NUMBER_PAIRS - set(pairs), REASONS - set(reasons))
    handed_back = ", ".join(f"{reasons.count(each)} {each}" for each in sorted(REASONS))
    numbers = [int(text.split()[0]) for text in wanted]
    return exit_status(f"{len(cases)} pairs of walks, no difference; handed back: {handed_back}; "
                       f"{numbers.count(1)} refused with 1, {numbers.count(2)} with 2", missing)


if __name__ == "__main__":
    sys.exit(main())
