"""Recomputes what the pages say: python3 docs/check.py [--plots PROGRAM]. Prints what is wrong and exits 1.

In NUMBERS.md, CROSSINGS.md, CASES.md, CASES-CELLS.md, TWO-WALKS.md, RECEIVER.md and THIRD-MOMENTS.md every figure must be one
that is recomputed:
- a fenced block `input` (with a file's name, the file's own text) and the block `output` after it: what the program
  and the second program print;
- a code span with =, ≤, < or ≈: its sides, by exact fractions. A decimal after = is exact; one after ≈ is rounded to
  the places that it has. Its names stand for the figures of the line that the last comment `figures:` names, of the
  last block or of an example file, and it does not end in a fraction; a unit that follows is that of its first side; before the first such comment under a heading
  it is a general formula, and is tried on every line of the page and on made-up outlines, rings, regions, bits of masks,
  pairs of walks and fixes. The figures of an O line and of the S line count each ring by its kind; an R line with 32 stands
  for the points of the ring that it refuses, as the call on a whole list answers them;
- a table after a comment `terms`, `map`, `moves`, `edges`, `loops`, `test`, `trial`, `answers`, `ground`, `cells`, `regions` or `mended`,
  or `answer`, `products`, `nearest`, `compared` or `sizes` for two walks, or `fixes`, `entries`, `corners`,
  `refused` or `calls` for a receiver, or `thirds`, `seen`, `spread`, `rings`, `order` or `bounds` for third moments; a block
  `runs`, `mask`, `map`, `walks` or `points`. A block `runs` that follows a block `mask` has the runs that the second program
  writes for it;
- a block of code for the lists of the last block `walks` or `points`, and the block `printed` after it: see page_code.py.
A digit anywhere else is an error. A comment `crosses:`, `plain:` or `same:` says what the outlines of the lines that it
names are, `inside:` that the centre of the first lies inside the second. README.md: its example, its limits and its
command for other units. REFUSALS.md: the numbers. ARCHITECTURE.md: every crate, above all that it rests on. CLAIMS*.md:
see claims.py. The pictures are made again and compared.
"""
import argparse
import re
import subprocess
import sys
from pathlib import Path

sys.dont_write_bytecode = True
DOCS = Path(__file__).resolve().parent
ROOT = DOCS.parent
sys.path.insert(0, str(ROOT / "second"))
import cells  # noqa: E402
import claims  # noqa: E402
import figures  # noqa: E402
import masks  # noqa: E402
import moves  # noqa: E402
import pictures  # noqa: E402
import receiver  # noqa: E402
import text  # noqa: E402
import third_moments  # noqa: E402
from crates import listed_crates  # noqa: E402
from differences import expect, wrong  # noqa: E402
from floats import LARGEST, SIGN, bits_of, outage_refusal  # noqa: E402
from page import Page  # noqa: E402

PRINTED_REFUSALS = [1, 9, 10, *range(21, 27), 32]
OTHER_REFUSALS = [*range(2, 9), 11, 27, 28, 31, 33, 34, 35]
LIMITS = {
    "a coordinate": f"-{figures.COORDINATE_LIMIT:,} to {figures.COORDINATE_LIMIT:,} decimetres: {figures.COORDINATE_LIMIT // 10} m from the peg, east, west, north and south",
    "a coordinate, for third moments": f"-{third_moments.THIRD_LIMIT:,} to {third_moments.THIRD_LIMIT:,} decimetres: {third_moments.THIRD_LIMIT // 10} m from the peg",
    "east and north of a fix": f"from -{figures.COORDINATE_LIMIT:,}.5 on, and below {figures.COORDINATE_LIMIT:,}.5 decimetres",
    "an outage": "0 seconds or more, and finite",
    "points of an outline": f"{figures.LEAST_POINTS} to {figures.MOST_POINTS:,}",
    "outlines of a sheet": f"at most {figures.MOST_OUTLINES}, holes included",
    "each total of a sheet": "-10^18 to 10^18" if figures.TOTAL_LIMIT == 10 ** 18 else "",
    "a map's a, b, g, h": f"-{moves.COEFFICIENT_LIMIT} to {moves.COEFFICIENT_LIMIT}",
    "a map's e, f": f"-{moves.SHIFT_LIMIT:,} to {moves.SHIFT_LIMIT:,}",
    "rows and columns of cells": f"0 to {cells.GRID_SIDE - 1:,}",
    "runs of a region": f"at most {cells.MOST_RUNS:,}",
    "words of a mask": f"a multiple of {masks.WORDS_IN_A_ROW}, at most {masks.MOST_WORDS:,}",
    "lines of the input": f"at most {text.MOST_LINES:,}",
    "bytes of the input": f"at most {text.MOST_BYTES:,}",
}


def table_under(path, heading):
    """The cells of the first table under a heading, its head left out."""
    below = path.read_text().partition(f"\n## {heading}\n")[2].splitlines()
    first = next((i for i, line in enumerate(below) if line.startswith("|")), len(below))
    rows = []
    for line in below[first:]:
        if not line.startswith("|"):
            break
        rows.append([cell.strip() for cell in line.strip("|").split("|")])
    return rows[2:]


def check_readme(plots):
    """The example; the limits, each once and no other; the command for other units."""
    path = ROOT / "README.md"
    page = Page(path, plots)
    for number, line in enumerate(page.lines):
        for span in re.findall(r"`([^`]* = [^`]*)`", line):
            page.relation(number, span, page.blocks[min(page.blocks)]["O 1"])
    limits = {row[0]: row[1] for row in table_under(path, "Limits")}
    expect(limits == LIMITS, "README.md", f"the limits are {LIMITS}")
    least, most = (bits_of(sign * (figures.COORDINATE_LIMIT + 0.5)) for sign in (-1, 1))
    edges = [receiver.fix_point(receiver.Fix(bits, bits))[0] for bits in (least, least + 1, most - 1, most)]
    expect(edges == [0, 1, 0, 1], "README.md", f"the limits of a fix give {edges}")
    edges = [outage_refusal(bits) for bits in (0, SIGN, LARGEST, LARGEST + 1, SIGN + 1)]
    expect(edges == [0, 0, 0, 33, 34], "README.md", f"the limits of an outage give {edges}")
    check_units(re.search(r"```sh units\n(.*?)```", path.read_text(), re.DOTALL)[1])


def check_units(command):
    """The README's command on every centimetre within the limits: to the nearest decimetre, halves up; any other line stays."""
    most = 10 * figures.COORDINATE_LIMIT
    given = [f"{'-' * (n < 0)}{abs(n) // 100}.{abs(n) % 100:02}\t0.74" for n in range(-most, most + 1)]
    wanted = [f"P\t{(n + 5) // 10}\t7" for n in range(-most, most + 1)]
    other = ["B\tH", "east north", "", "E"]
    lines = ["B", *given, *other]
    command = command.replace("< METRES > FILE", "")
    for ending in ("\n", "\r\n"):
        printed = subprocess.run(["sh", "-c", command], input=ending.join(lines).encode(), stdout=subprocess.PIPE, check=True).stdout
        expect(printed.decode().split("\n") == ["B", *wanted, *other, ""], "README.md", "the command for other units gives other lines")


def check_refusals():
    """Every refusal once: first those that the program prints, then the others."""
    for heading, wanted in (("Refusals that `plots` prints", PRINTED_REFUSALS), ("Refusals of other calls", OTHER_REFUSALS)):
        numbers = [int(row[0]) for row in table_under(DOCS / "REFUSALS.md", heading)]
        expect(numbers == wanted, "docs/REFUSALS.md", f"the table under {heading} has {numbers}")


def anchors(path):
    """What a link can name of a page: its headings in small letters, with hyphens for spaces."""
    return {re.sub(r"[^\w -]", "", line.lstrip("# ").lower()).replace(" ", "-") for line in path.read_text().splitlines() if line.startswith("#")}


def check_links(path):
    """Each link to a file of the repository leads to one, and to a heading of it; each label has its link."""
    page = path.read_text()
    label = re.compile(r"(?m)^\[([^\]]+)\]: (\S+)$")
    labels = dict(label.findall(page))
    for target in [*re.findall(r"\]\(([^)#:]+)[^):]*\)", page), *labels.values()]:
        expect((path.parent / target).exists(), path.relative_to(ROOT), f"a link to {target}, which is not there")
    for target, anchor in re.findall(r"\]\(([^)#:]*)#([^)]+)\)", page):
        other = path.parent / target if target else path
        expect(other.exists() and anchor in anchors(other), path.relative_to(ROOT), f"a link to {target}#{anchor}, which is not there")
    used = set(re.findall(r"\[([\w.]+(?:/[\w.]+)+)\](?!\()", label.sub("", page)))
    expect(used == set(labels), path.relative_to(ROOT), f"labels without a link, or links without a label: {used ^ set(labels)}")


def check_crates():
    """The table of crates: every crate once, above all that it rests on."""
    rows = [row[1].strip("`") for row in table_under(DOCS / "ARCHITECTURE.md", "The crates")]
    crates = listed_crates()
    expect(sorted(rows) == sorted(crates), "docs/ARCHITECTURE.md", f"the table and crates.txt differ: {sorted(set(rows) ^ set(crates))}")
    for name, others in crates.items():
        for other in others:
            if {name, other} <= set(rows):
                expect(rows.index(name) < rows.index(other), "docs/ARCHITECTURE.md", f"{name} rests on {other} and does not stand above it")


def check_pictures():
    """The committed pictures are those that the examples give."""
    for name in pictures.PICTURES:
        path = DOCS / f"{name}.svg"
        expect(path.exists() and path.read_text() == pictures.picture(name), f"docs/{name}.svg", "not what docs/pictures.py makes")


def main():
    parser = argparse.ArgumentParser(description="Recomputes what the pages say.")
    parser.add_argument("--plots", type=Path, default=ROOT / "crates" / "plots" / "out" / "plots", help="the program to run")
    plots = parser.parse_args().plots.resolve()
    for name in ("NUMBERS.md", "CROSSINGS.md", "CASES.md", "CASES-CELLS.md", "TWO-WALKS.md", "RECEIVER.md", "THIRD-MOMENTS.md"):
        Page(DOCS / name, plots).check()
    check_readme(plots)
    check_refusals()
    check_crates()
    claims.check()
    check_pictures()
    for path in (ROOT / "README.md", *sorted(DOCS.glob("*.md"))):
        check_links(path)
    for each in wrong:
        print(each, file=sys.stderr)
    if wrong:
        sys.exit(f"docs/check.py: {len(wrong)} wrong")
    print("docs/check.py: the pages say what is recomputed")


if __name__ == "__main__":
    main()
