"""Sets a program that calls for the points of fixes beside receiver.py, where answers turn and on made-up fixes.

python3 second/compare_receiver.py PROGRAM [--seed N] [--cases N] [--long]

PROGRAM is callers/c/fixes.c, built with the library: that file says what it reads
and prints.  Every value of the caller's buffer afterwards is compared, and one behind
its end.  A made-up case is 500 fixes.  Exits 1 with the first difference, and 1 if some
number was not seen, or some two kinds of floats not together in a fix.
"""
import random
import sys
from collections import Counter
from itertools import product
from struct import pack
from typing import NamedTuple

from beside import SHORT_BUFFER, answered, any_buffer, chosen_options, differs, exit_status, line
from figures import COORDINATE_LIMIT
from floats import INFINITY, SIGN, exact, is_finite
from madeup_receiver import boundaries, random_fix
from receiver import Fix, fix_point, rounded

POINT_VALUES = 2
NUMBERS = {0, 1, 33, SHORT_BUFFER}
FIXES_OF_A_CASE = 500
# Lengths of the buffer: most have room for just the point.
LENGTHS = (0, 1, 2, 2, 2, 2, 2, 2, 3, 5)
KINDS = ("not a number", "infinite", "minus zero", "a half", "a half below zero", "at a limit", "next to a limit", "far out",
         "any other")


class Case(NamedTuple):
    """A fix, and the caller's buffer with one value behind its end."""
    fix: Fix
    buffer: list


# Cases

def case_of(rng, fix, length):
    """The case of a fix and a buffer of this length, with any values."""
    return Case(fix, any_buffer(rng, length))


def fixed_cases(rng):
    """Each with each of the floats where an answer turns; each with itself also with buffers of other lengths."""
    for east, north in product(boundaries(), repeat=2):
        for length in sorted(set(LENGTHS)) if east == north else (POINT_VALUES,):
            yield case_of(rng, Fix(east, north), length)


def made_up_cases(rng, count):
    """So many made-up fixes, with buffers of several lengths."""
    for _ in range(count):
        yield case_of(rng, random_fix(rng), rng.choice(LENGTHS))


# What the program reads and prints

def as_bytes(case):
    """The case as the program reads it."""
    length = len(case.buffer) - 1
    return pack(f"=QII{length + 1}q", length, *case.fix, *case.buffer)


def wanted_numbers(case):
    """What the program is to print: a number, and the buffer afterwards with the value behind its end."""
    number, *place = fix_point(case.fix)
    return answered(number, place, case.buffer)


# Reporting

def kind_of(bits):
    """Which of the kinds a float has: some error would show there and nowhere else."""
    if not is_finite(bits):
        return "infinite" if bits % SIGN == INFINITY else "not a number"
    if bits == SIGN:
        return "minus zero"
    if exact(bits).denominator == 2:
        return "a half" if bits < SIGN else "a half below zero"
    past = abs(rounded(bits)) - COORDINATE_LIMIT
    if past < 0:
        return "any other"
    return "at a limit" if past == 0 else "next to a limit" if past == 1 else "far out"


def told(case):
    """The fix and the buffer in words."""
    east, north = (f"{bits:08X} ({kind_of(bits)})" for bits in case.fix)
    return f"east {east}, north {north}, a buffer of {len(case.buffer) - 1} values"


def main():
    """Run every case; answer the exit status."""
    chosen = chosen_options("Set the points of fixes beside the second program.")
    rng = random.Random(chosen.seed)
    numbers, pairs = Counter(), set()
    for part in range(11 if chosen.long else 1):
        cases = [*(fixed_cases(rng) if part == 0 else ()), *made_up_cases(rng, chosen.cases * FIXES_OF_A_CASE)]
        wanted = [wanted_numbers(case) for case in cases]
        lines = [line(*numbers) for numbers in wanted]
        if differs(chosen.program, b"".join(map(as_bytes, cases)), lines, lambda place: told(cases[place])):
            return 1
        numbers.update(number for number, *_ in wanted)
        pairs.update(tuple(map(kind_of, case.fix)) for case in cases)
    missing = (NUMBERS - set(numbers), set(product(KINDS, repeat=2)) - pairs)
    return exit_status(f"{numbers.total()} fixes, no difference; {numbers[0]} accepted, {numbers[1]} refused with 1, "
                       f"{numbers[33]} with 33, {numbers[SHORT_BUFFER]} with too short a buffer", missing)


if __name__ == "__main__":
    sys.exit(main())
