"""Sets a program that calls for third moments beside third_moments.py, on worked and on made-up lists.

python3 second/compare_third_moments.py PROGRAM [--seed N] [--cases N] [--long]

PROGRAM is callers/c/third_moments.c, built with the library: that file says what it
reads and prints.  Every value of the caller's buffer afterwards is compared, and one
behind its end.  A made-up case is 20 lists.  Exits 1 with the first difference, and 1
if some number was not seen, or no list of some kind in which a wrong order would show.
"""
import random
import sys
from array import array
from collections import Counter
from itertools import combinations, product
from typing import NamedTuple

from beside import SHORT_BUFFER, answered, any_buffer, chosen_options, differs, exit_status, line, shortened
from figures import COORDINATE_LIMIT
from inputs import FIGURE_EIGHT, RECTANGLE, SQUARE_WEST, UNIT_SQUARE
from madeup_third_moments import large_lists, random_list
from madeup_walks import GREATEST_NUMBER, LEAST_NUMBER
from moves import walked_backwards
from third_moments import THIRD_LIMIT, third_moments
from worked import numbers_of

NUMBERS = {0, 1, 2, 35, SHORT_BUFFER}
LISTS_OF_A_CASE = 20
ROOM = 4
OTHER_LENGTHS = (0, 1, 2, 3, 5, 9)
LIST_LENGTHS = (0, 1, 2, 4, 5, 6, 7, 8, 2_047, 2_048, 2_049, 2_050, 4_096)
EDGE_VALUES = (499, 500, 501, 1_999, 2_000, 2_001, -499, -500, -501, -1_999, -2_000, -2_001, LEAST_NUMBER, GREATEST_NUMBER)
PAIRED_VALUES = (500, 501, 2_000, 2_001, -501, -2_001, LEAST_NUMBER)
WORKED_PLOTS = (UNIT_SQUARE, RECTANGLE, FIGURE_EIGHT, SQUARE_WEST)
GRID = list(product((-1, 0, 1), repeat=2))


class Case(NamedTuple):
    """A list, the number behind its end, where the call may not read, and the caller's buffer with one value behind its end."""
    name: str
    numbers: list
    behind: int
    buffer: list


# Cases

def with_value(numbers, place, value):
    """The numbers with another value in one place."""
    return [*numbers[:place], value, *numbers[place + 1:]]


def at_the_limits():
    """A triangle with each value at a limit in each place, and with every two such values in every two places."""
    triangle = numbers_of(RECTANGLE[:3])
    for place, value in product(range(6), EDGE_VALUES):
        yield f"{value} in place {place}", with_value(triangle, place, value)
    for (place, other), (value, another) in product(combinations(range(6), 2), product(PAIRED_VALUES, repeat=2)):
        numbers = with_value(with_value(triangle, place, value), other, another)
        yield f"{value} in place {place} and {another} in place {other}", numbers


def fixed_lists():
    """The worked plots both ways round; every triangle on a grid of nine points about the peg; lists of one value, of any
    length; lists at the limits."""
    for plot, change in product(WORKED_PLOTS, (list, walked_backwards)):
        yield "a worked plot", numbers_of(change(plot))
    for corners in product(GRID, repeat=3):
        yield "a small triangle", numbers_of(corners)
    for length, value in product(LIST_LENGTHS, (1, *PAIRED_VALUES)):
        yield f"{length} times {value}", [value] * length
    yield from at_the_limits()


def all_lists(rng, cases, with_long):
    """Every list of a run."""
    yield from fixed_lists()
    for _ in range(11 if with_long else 1):
        yield from large_lists(rng)
    for number in range(cases * LISTS_OF_A_CASE):
        name, numbers = random_list(rng)
        yield f"{name}, list {number}", numbers


def all_cases(rng, cases, with_long):
    """Every list with a buffer that has just the room; one in three once more, with a buffer that is shorter or longer."""
    for name, numbers in all_lists(rng, cases, with_long):
        for length in (ROOM, rng.choice(OTHER_LENGTHS)) if rng.random() < 1 / 3 else (ROOM,):
            yield Case(name, numbers, rng.choice(EDGE_VALUES), any_buffer(rng, length))


# What the program reads and prints

def as_bytes(case):
    """The case as the program reads it."""
    lengths = array("Q", [len(case.numbers), len(case.buffer) - 1])
    return lengths.tobytes() + array("i", [*case.numbers, case.behind]).tobytes() + array("q", case.buffer).tobytes()


def wanted_numbers(case):
    """What the program is to print."""
    return answered(*third_moments(case.numbers), case.buffer)


# Reporting

def told(case):
    """The list and the buffer in words."""
    return (f"{case.name}: {len(case.numbers)} numbers, a buffer of {len(case.buffer) - 1} values\n"
            f"    {shortened(line(*case.numbers))}")


def kinds(numbers, number):
    """The kinds of lists in which a wrong order would show, and whether this list is of each."""
    sizes = list(map(abs, numbers))
    outside = [place for place, size in enumerate(sizes) if size > COORDINATE_LIMIT]
    too_far = [place for place, size in enumerate(sizes) if THIRD_LIMIT < size <= COORDINATE_LIMIT]
    last = len(numbers) - 1
    return {"1 behind what 35 would refuse": number == 1 and min(too_far, default=last) < min(outside),
            "1 before what 35 would refuse": number == 1 and max(too_far, default=0) > max(outside),
            "2 with what 1 would refuse": number == 2 and bool(outside),
            "2 with what 35 would refuse": number == 2 and bool(too_far),
            "1 by the first number": (number, outside) == (1, [0]),
            "1 by the last number": (number, outside) == (1, [last]),
            "35 by the first number": (number, too_far) == (35, [0]),
            "35 by the last number": (number, too_far) == (35, [last])}


def main():
    """Run every case; answer the exit status."""
    chosen = chosen_options("Set third moments beside the second program.")
    rng = random.Random(chosen.seed)
    cases = list(all_cases(rng, chosen.cases, chosen.long))
    wanted = [wanted_numbers(case) for case in cases]
    lines = [line(*numbers) for numbers in wanted]
    if differs(chosen.program, b"".join(map(as_bytes, cases)), lines, lambda place: told(cases[place])):
        return 1
    numbers, seen = Counter(), Counter()
    for case, (number, *_) in zip(cases, wanted):
        numbers[number] += 1
        seen.update(kinds(case.numbers, number))
    missing = (NUMBERS - set(numbers), {kind for kind, times in seen.items() if times == 0})
    of_each_kind = ", ".join(f"{kind}: {times}" for kind, times in seen.items())
    return exit_status(f"{len(cases)} calls for third moments, no difference; {numbers[0]} accepted, "
                       f"{numbers[2]} refused with 2, {numbers[1]} with 1, {numbers[35]} with 35, "
                       f"{numbers[SHORT_BUFFER]} with too short a buffer; {of_each_kind}", missing)


if __name__ == "__main__":
    sys.exit(main())
