"""Sets what the annex's program prints and the constant table of the code beside each other, and beside annex.py.

python3 second/compare_annex.py PROGRAM

PROGRAM is the crate square_annex, built.  It is to print each entry and a newline, and
nothing else.  The file of the constant is to have this one array and comments, in lines of
entries with a comma after each.  Entries are compared as they are written.  By crates.txt the program must
not rest on the crate of the constant, or the two would be one.  Exits 1 with the first difference.
"""
import argparse
import re
import subprocess
import sys
from itertools import zip_longest
from pathlib import Path

from annex import annex
from beside import RUN_SECONDS, shortened

ROOT = Path(__file__).resolve().parent.parent
PROGRAM, TABLE = "square_annex", "square_table"
SOURCE = ROOT / "crates" / TABLE / "src" / "annex.rt"
ONE_ARRAY = re.compile(r"(?://.*\n)*pub\(crate\) const SQUARE_SUMS: \[u32; 1025\] = \[\n((?:    .*,\n)*)\];\n")


# The entries as they are written

def printed_entries(output):
    """Those of the bytes that the program has printed."""
    *entries, rest = output.decode("ascii", "backslashreplace").split("\n")
    if rest:
        raise ValueError(f"the last line that the program prints has no newline: {shortened(rest)}")
    return entries


def table_entries(source):
    """Those of the constant in this text."""
    found = ONE_ARRAY.fullmatch(source)
    if not found:
        raise ValueError("the source is not the one array SQUARE_SUMS: [u32; 1025], a comma after each entry")
    return [entry for line in re.findall(r"    (.*),\n", found[1]) for entry in line.split(", ")]


def summed_entries():
    """Those of annex.py."""
    return [str(entry) for entry in annex()]


# What the program may read

def crates_below(listed, name):
    """The crates that a crate rests on, and those under them, by the text of crates.txt."""
    rests_on = {head.split()[0]: others.split() for head, _, others in (line.partition(":") for line in listed.splitlines()) if head.strip()}
    if name not in rests_on:
        raise ValueError(f"there is no crate {name}")
    found, left = set(), [name]
    while left:
        others = set(rests_on.get(left.pop(), [])) - found
        found |= others
        left += others
    return found


# Comparing

def shown(entry):
    """An entry, so that a space or a zero too many shows; none where there are too few."""
    return "no entry" if entry is None else repr(shortened(entry))


def first_difference(printed, table, summed):
    """The first entry that is not the same in all three, in words; nothing if there is none."""
    for k, (one, two, own) in enumerate(zip_longest(printed, table, summed)):
        if not one == two == own:
            return (f"DIFFERENCE in entry {k}: the program prints {shown(one)}, "
                    f"the constant has {shown(two)}, summed here {shown(own)}")
    return ""


def output_of(program):
    """What the program prints."""
    done = subprocess.run([program], stdin=subprocess.DEVNULL, capture_output=True, timeout=RUN_SECONDS)
    if done.returncode != 0 or done.stderr:
        raise ValueError(f"the program ended with {done.returncode} and told {done.stderr!r}")
    return done.stdout


def main():
    """Compare all entries; answer the exit status."""
    parser = argparse.ArgumentParser(description="Set the annex as printed beside the constant and the second program.")
    parser.add_argument("program")
    chosen = parser.parse_args()
    try:
        if TABLE in crates_below((ROOT / "crates.txt").read_text(), PROGRAM):
            raise ValueError(f"{PROGRAM} rests on {TABLE}, and could print its constant")
        printed = printed_entries(output_of(chosen.program))
        table = table_entries(SOURCE.read_bytes().decode())
    except ValueError as wrong:
        print(wrong)
        return 1
    difference = first_difference(printed, table, summed_entries())
    print(difference or f"{len(printed)} entries of the annex, no difference: as printed, in the constant, summed here")
    return 1 if difference else 0


if __name__ == "__main__":
    sys.exit(main())
