"""Sets a program that calls the mask calls beside masks.py, on worked and on made-up masks.

python3 second/compare_masks.py PROGRAM [--seed N] [--cases N] [--long]

PROGRAM is callers/c/masks.c, built with the library: that file says what it reads
and prints.  Every record of the caller's list afterwards is compared, and one behind
its end.  Exits 1 with the first difference, and 1 if some number was not seen.
"""
import random
import sys
from array import array
from typing import NamedTuple

from beside import chosen_options, differs, exit_status, line, shortened
from cells import Run
from madeup_masks import large_masks, list_length, random_mask
from masks import mask_runs, mask_totals
from worked import FOUR_RUNS, MOST_MASK_RUNS, ONE_RUN_MORE

TOTALS_NUMBERS = {0, 31}
RUNS_NUMBERS = {0, 8, 31}
WORD_BEHIND = 2 ** 64 - 1    # behind the end of the words, where no call may read
WRONG_LENGTHS = (1, 8, 15, 17, 24, 16_376, 16_383, 16_385, 16_400)


class Case(NamedTuple):
    """A mask, and the caller's list with one record behind its end."""
    name: str
    words: list
    records: list


# Cases

def made_up_records(rng, count):
    """Records of any numbers."""
    return [Run(*(rng.getrandbits(32) for _ in range(3))) for _ in range(count)]


def case_of(rng, name, words, length):
    """The case of a mask and a list of this length."""
    return Case(name, words, made_up_records(rng, length + 1))


def fixed_cases(rng):
    """The worked masks, and no words, with lists of about as many records as they have runs; masks of wrong length."""
    for name, words, runs in (("four runs", FOUR_RUNS, 4), ("4,096 runs", MOST_MASK_RUNS, 4_096),
                              ("4,097 runs", ONE_RUN_MORE, 4_097), ("no words", [], 0)):
        for length in sorted({0, max(0, runs - 1), runs, runs + 1, 4_096, 5_000}):
            yield case_of(rng, name, words, length)
    for length in WRONG_LENGTHS:
        for records in (0, 1_100):
            yield case_of(rng, "wrong length", [WORD_BEHIND] * length, records)


def all_cases(rng, cases, with_long):
    """Every case of a run."""
    yield from fixed_cases(rng)
    for name, words in large_masks(rng):
        yield case_of(rng, name, words, list_length(rng, words))
    for number in range(cases):
        name, words = random_mask(rng)
        yield case_of(rng, f"{name}, case {number}", words, list_length(rng, words))
    for _ in range(10 if with_long else 0):
        for name, words in large_masks(rng):
            yield case_of(rng, name, words, list_length(rng, words))


# What the program reads and prints

def as_bytes(case):
    """The case as the program reads it."""
    lengths = array("Q", [len(case.words), len(case.records) - 1])
    numbers = array("I", [number for record in case.records for number in record])
    return lengths.tobytes() + array("Q", [*case.words, WORD_BEHIND]).tobytes() + numbers.tobytes()


def wanted_lines(case):
    """What the program is to print: a line for the totals, one for the runs."""
    *handed_in, behind = case.records
    number, totals = mask_totals(case.words)
    writer_number, count, afterwards = mask_runs(case.words, handed_in)
    afterwards = [*afterwards, behind]
    return [line(number, *totals), line(writer_number, count, *(number for record in afterwards for number in record))]


# Reporting

def told(case):
    """The mask in words."""
    marked = [f"word {k}: {word:#x}" for k, word in enumerate(case.words) if word != 0]
    return (f"{case.name}: {len(case.words)} words, a list of {len(case.records) - 1} records\n"
            f"    {shortened(', '.join(marked)) or 'no bit is a one'}")


def main():
    """Run every case; answer the exit status."""
    chosen = chosen_options("Set the mask calls beside the second program.")
    cases = list(all_cases(random.Random(chosen.seed), chosen.cases, chosen.long))
    wanted = [text for case in cases for text in wanted_lines(case)]
    if differs(chosen.program, b"".join(map(as_bytes, cases)), wanted, lambda place: told(cases[place // 2])):
        return 1
    numbers = [int(text.split()[0]) for text in wanted]
    missing = (TOTALS_NUMBERS - set(numbers[0::2]), RUNS_NUMBERS - set(numbers[1::2]))
    return exit_status(f"{len(cases)} masks, no difference; {numbers[1::2].count(0)} written, "
                       f"{numbers[1::2].count(8)} refused with 8, {numbers[1::2].count(31)} with 31", missing)


if __name__ == "__main__":
    sys.exit(main())
