"""Checks of the annex, run by selfcheck.py: its figures, its rule from entry to entry, the sums of x² of
runs read from it, and that compare_annex.py sees a wrong table.
"""
from annex import annex
from cells import GRID_SIDE, Run, region_totals
from checks import check
from compare_annex import crates_below, first_difference, output_of, printed_entries, summed_entries, table_entries
from selfcheck_cells import cells_of, sums_over

ANNEX = annex()
WRITTEN = summed_entries()
# Runs by first column and length.  Besides these, each first column has a run to the last column.
FIRST_COLUMNS = (0, 1, 2, 5, 63, 64, 511, 512, 1_000, 1_022, 1_023)
LENGTHS = (1, 2, 3, 64, 511, 512, 1_023, 1_024)


def check_entries():
    """The annex's figures, and each entry by the one before it and by the closed formula."""
    check("entries", len(ANNEX), 1_025)
    check("first entries", ANNEX[:6], [0, 0, 1, 5, 14, 30])
    check("last entries", ANNEX[1_023:], [356343295, 357389824])
    for k, entry in enumerate(ANNEX):
        check(f"entry {k}", entry, (k - 1) * k * (2 * k - 1) // 6)
    for k in range(1, len(ANNEX)):
        check(f"step to entry {k}", ANNEX[k] - ANNEX[k - 1], (k - 1) ** 2)


# Runs

def from_table(entries, run):
    """The sum of x² of a run's cells, read from a table."""
    return entries[run.first + run.length] - entries[run.first]


def sample_runs():
    """Runs of row 0, among them those that end at the last column."""
    for first in FIRST_COLUMNS:
        room = GRID_SIDE - first
        for length in sorted({room, *(each for each in LENGTHS if each <= room)}):
            yield Run(0, first, length)


def check_run_sums():
    """The table gives the sum of x² of a run, and with it the run's XX12; a table that is one place off does not."""
    for run in sample_runs():
        sums = sums_over(cells_of([run]))
        xx = from_table(ANNEX, run)
        check(f"sum of x² of {run}", xx, sums.xx)
        check(f"XX12 of {run}", region_totals([run])[2].xx12, 12 * xx + 12 * sums.x + 4 * sums.a)
    west = Run(0, 0, 1)
    check("the cell in column 0", from_table(ANNEX, west), 0)
    check("the cell in column 1,023", from_table(ANNEX, Run(0, 1_023, 1)), 1_023 ** 2)
    check("a whole row", from_table(ANNEX, Run(0, 0, 1_024)), 357389824)
    check("one place off shows", from_table(ANNEX[1:], west), 1)


# The comparison

def as_printed(entries):
    """A page of these entries."""
    return "".join(f"{entry}\n" for entry in entries).encode()


def as_source(entries, row=1):
    """A source file with these entries, so many a line."""
    lines = "".join(f"    {', '.join(entries[k:k + row])},\n" for k in range(0, len(entries), row))
    return f"// A comment.\npub(crate) const SQUARE_SUMS: [u32; 1025] = [\n{lines}];\n"


def with_entry(k, entry):
    """The entries as they are written, but for one."""
    return [*WRITTEN[:k], entry, *WRITTEN[k + 1:]]


# How many entries a line of the source has.
ROWS = (1, 12)
# Wrong tables, each with the entry where that shows.
WRONG_TABLES = ((with_entry(512, "44608257"), 512), (with_entry(2, "01"), 2), (with_entry(700, " 114088450"), 700),
                (with_entry(700, "114_088_450"), 700), (with_entry(3, "5,14"), 3), (with_entry(1_024, ""), 1_024),
                (with_entry(2, "1\r"), 2), (with_entry(2, "1²"), 2),
                (WRITTEN[:-1], 1_024), ([*WRITTEN, "358438400"], 1_025), (WRITTEN[1:], 1),
                (["0", *WRITTEN[:-1]], 2), ([], 0))


def refused(reading, given):
    """Whether nothing is read from what was given."""
    try:
        reading(given)
    except ValueError:
        return True
    return False


def check_comparison():
    """A right page and a right source are read and have no difference; a wrong one of either is seen, or not read."""
    page, source = as_printed(WRITTEN), as_source(WRITTEN)
    for row in ROWS:
        check("no difference", first_difference(printed_entries(page), table_entries(as_source(WRITTEN, row)), WRITTEN), "")
    for wrong, k in WRONG_TABLES:
        for printed, table in ((wrong, WRITTEN), (WRITTEN, wrong), (wrong, wrong)):
            for row in ROWS:
                told = first_difference(printed_entries(as_printed(printed)), table_entries(as_source(table, row)), WRITTEN)
                check(f"a table wrong at {k} shows", told.partition(":")[0], f"DIFFERENCE in entry {k}")
    both = first_difference(printed_entries(as_printed(with_entry(3, "5, 14"))), WRITTEN, WRITTEN)
    check("two entries on a line of the print", both.partition(":")[0], "DIFFERENCE in entry 3")
    check("no last newline", refused(printed_entries, page[:-1]), True)
    for unlike in (source * 2, source + "\n", source.replace("1025", "1024"), source.replace(",\n]", "\n]"),
                   source.replace("SUMS", "SUM"), source.replace("    5,\n", "    5, // 6\n")):
        check("not the one array", refused(table_entries, unlike), True)
    check("a program that fails", refused(output_of, "false"), True)
    check("a program that prints nothing", output_of("true"), b"")
    listed = "a:\nb: a\nc: io b\nd : a\n"
    check("crates below", [sorted(crates_below(listed, name)) for name in "abcd"], [[], ["a"], ["a", "b", "io"], ["a"]])
    check("no such crate", refused(lambda name: crates_below(listed, name), "e"), True)
