"""Checks of this program by itself: the listing and the ✱ rows of document 01,
corner cases of its rules, and its laws on made-up outlines; those of islands and
holes are in selfcheck_rings.py, those of cells and masks in selfcheck_cells.py, those of
two walkers in selfcheck_walkers.py, those of the annex in selfcheck_annex.py, those of
moving twice in selfcheck_moves.py, those of the run that a refusal names in selfcheck_runs.py,
those of a receiver's entries in selfcheck_receiver.py and selfcheck_entries.py, those of third
moments in selfcheck_third_moments.py.

Runnable; prints what fails and exits 1, else prints how many checks passed.
"""
import random
import sys

import text
from checks import check, failed, passed
from figures import CLOSED_WALK, FRESH_ISLAND, NEW_SHEET, OUTLINE_BOUNDS, ZERO_TOTALS
from figures import Kind, Sheet, Totals
from figures import abandon, added, begin, centre_of_totals, closed_totals, edge_terms, end
from figures import list_call, outline_totals, point, within_limits
from floats import PLUS_ZERO
from inputs import FIGURE_EIGHT, LISTING, RECTANGLE, SQUARE_WEST, UNIT_SQUARE, with_tabs
from madeup import random_cuts, random_points
from moves import AffineMap, Cut
from moves import after_cuts, map_call, moved, started_at, walked_backwards
from selfcheck_annex import check_comparison, check_entries, check_run_sums
from selfcheck_cells import check_mask_corners, check_mask_laws, check_region_corners, check_worked_regions
from selfcheck_entries import check_entry_lists, check_entry_rows
from selfcheck_moves import check_formulas, check_move_corners, check_outline_moved_twice, check_shifted_centre
from selfcheck_moves import check_shifted_outline, check_three_calls, check_worked_moves, check_wrong_compositions
from selfcheck_receiver import check_handed_in, check_longest, check_orders, check_refused_ends, check_sweep
from selfcheck_receiver import check_worked_fixes
from selfcheck_rings import check_end_order, check_kinds, check_ring_laws, check_turns, check_worked_rings
from selfcheck_runs import check_fronts, check_worked_lists
from selfcheck_third_moments import check_formula_11, check_integrals, check_made_up_lists, check_third_bounds
from selfcheck_third_moments import check_third_laws, check_worked_third_moments
from selfcheck_walkers import check_refused_pair, check_walker_corners, check_walker_laws, check_worked_walks
from worked import numbers_of, walked

LISTING_OUTPUT = ("O 1 4 80 1200 960 14720 21120 8960 5 4",
                  "R 12 32",
                  "S 1 80 1200 960 14720 21120 8960 5 4")


def check_listing():
    """"The text program": the listing as CR 3 of document 02 has it, with and without its last newline."""
    check("listing", text.output(LISTING + b"\n"), with_tabs(LISTING_OUTPUT))
    check("listing without newline", text.output(LISTING), with_tabs(LISTING_OUTPUT))
    check("no input", text.output(b""), with_tabs(["S 0 0 0 0 0 0 0 - -"]))
    too_long = b"x" * 33_000_001
    check("one long line", text.output(too_long[:-1]), with_tabs(["R 1 9", "S 0 0 0 0 0 0 0 - -"]))
    check("one byte more", text.output(too_long), with_tabs(["R 1 10", "S 0 0 0 0 0 0 0 - -"]))


def check_starred_rows():
    """"Plots worked by hand": the rows marked ✱, but for the run."""
    check("rectangle", list_call(numbers_of(RECTANGLE)),
          (0, (80, 1200, 960, 14720, 21120, 8960)))
    check("rectangle centre", centre_of_totals(outline_totals(RECTANGLE)), (0, 5, 4))
    check("figure eight", list_call(numbers_of(FIGURE_EIGHT)), (0, (0, -8, 0, -32, -32, 0)))
    check("figure eight centre", centre_of_totals(outline_totals(FIGURE_EIGHT)), (27, 0, 0))
    check("unit square", list_call(numbers_of(UNIT_SQUARE)), (0, (2, 3, 3, 4, 6, 4)))
    check("unit square centre", centre_of_totals(outline_totals(UNIT_SQUARE)), (0, 1, 1))
    check("square at -1 centre", centre_of_totals(outline_totals(SQUARE_WEST)), (0, 0, 1))
    shear = AffineMap(a=1, b=1, g=0, h=1, e=1, f=0)
    check("unit square mapped", map_call(shear, outline_totals(UNIT_SQUARE)),
          (0, (2, 12, 3, 50, 26, 4)))
    pieces = after_cuts(RECTANGLE, [Cut(0, RECTANGLE.index((2, 0)), RECTANGLE.index((8, 8)))])
    totals = [outline_totals(piece) for piece in pieces]
    check("rectangle cut", [(each.a2, each.x6) for each in totals], [(40, 800), (40, 400)])
    check("one point three times", list_call([5, 7] * 3), (0, ZERO_TOTALS))
    check("its centre", centre_of_totals(ZERO_TOTALS), (27, 0, 0))


def check_unnoticed_errors():
    """"Errors a surveyor would not notice": plots whose figures change with an error."""
    check("first point repeated", list_call(numbers_of(RECTANGLE + RECTANGLE[:1])),
          (0, (80, 1200, 960, 14720, 21120, 8960)))
    check("odd A2", list_call(numbers_of([(0, 0), (1, 0), (0, 1)])), (0, (1, 1, 1, 1, 1, 1)))
    check("centre at -3/2", centre_of_totals(outline_totals([(-2, 0), (-1, 0), (-1, 1), (-2, 1)])), (0, -1, 1))
    mirror = AffineMap(a=-1, b=0, g=0, h=1, e=0, f=0)
    check("mirror", map_call(mirror, outline_totals(UNIT_SQUARE)), (0, (-2, 3, -3, -4, 6, -4)))


def check_walk_corners():
    """"Walk and sheet" and 28: corner cases."""
    odd_closed = CLOSED_WALK._replace(count=7, totals=ZERO_TOTALS._replace(a2=5))
    full_sheet = Sheet(65, ZERO_TOTALS)
    check("closed, begin", begin(odd_closed, Kind.ISLAND), (0, FRESH_ISLAND))
    check("closed, point", point(odd_closed, (2001, 0)), (21, odd_closed))
    check("closed, abandon", abandon(odd_closed), (21, odd_closed))
    check("closed, end", end(odd_closed, NEW_SHEET), (21, ZERO_TOTALS, PLUS_ZERO, odd_closed, NEW_SHEET))
    check("bad sheet", end(odd_closed, full_sheet), (28, ZERO_TOTALS, PLUS_ZERO, odd_closed, full_sheet))
    no_points = FRESH_ISLAND._replace(first=(99999, -5))
    check("no points, begin", begin(no_points, Kind.ISLAND), (22, no_points))
    check("no points, point", point(no_points, (3, 4)), (0, FRESH_ISLAND._replace(count=1, first=(3, 4), last=(3, 4))))
    check("no points, end", end(no_points, NEW_SHEET), (24, ZERO_TOTALS, PLUS_ZERO, no_points, NEW_SHEET))
    check("no points, abandon", abandon(no_points), (0, CLOSED_WALK))
    bad = no_points._replace(totals=ZERO_TOTALS._replace(a2=1))
    check("no points with area", abandon(bad), (28, bad))
    one = FRESH_ISLAND._replace(count=1, last=(5, 5), totals=ZERO_TOTALS._replace(a2=8_000_000))
    check("one point", abandon(one), (0, CLOSED_WALK))
    for total in range(6):
        most = [0] * 6
        most[total] = -OUTLINE_BOUNDS[total] // 1024
        check("28 at its bound", abandon(one._replace(totals=Totals(*most))), (0, CLOSED_WALK))
        most[total] -= 1
        over = one._replace(totals=Totals(*most))
        check("28 over its bound", abandon(over), (28, over))
    handed_in = FRESH_ISLAND._replace(count=1024, first=(2000, 2000), last=(2000, -2000),
                                      totals=ZERO_TOTALS._replace(a2=8_192_000_000))
    check("end over the outline bounds", end(handed_in, NEW_SHEET)[1].a2, 8_200_000_000)
    check("1,025 points", abandon(handed_in._replace(count=1025))[0], 28)
    check("open edge by 000", edge_terms((2, 0), (10, 4)).x6, 96)


def check_other_corners():
    """Lists, maps and centres: corner cases."""
    for length in (0, 5, 7, 2049, 2050):
        check("list length", list_call([9999] * length), (2, ZERO_TOTALS))
    check("longest list", list_call([2000] * 2048), (0, ZERO_TOTALS))
    check("least number", list_call([-2 ** 31] * 6), (1, ZERO_TOTALS))
    identity = AffineMap(1, 0, 0, 1, 0, 0)
    check("map 3 before 4", map_call(identity._replace(f=2001), Totals(*[10 ** 18] * 6))[0], 3)
    check("map 4", map_call(AffineMap(0, 0, 0, 0, 0, 0), ZERO_TOTALS._replace(a2=8_192_000_001))[0], 4)
    check("map identity", map_call(identity, OUTLINE_BOUNDS), (0, OUTLINE_BOUNDS))
    check("large centre", centre_of_totals(Totals(1, 10 ** 18, 0, 0, 0, 0)), (0, 333333333333333333, 0))
    check("11", centre_of_totals(ZERO_TOTALS._replace(yy12=10 ** 18 + 1)), (11, 0, 0))
    check("reversed square at -1", centre_of_totals(Totals(-2, 3, -3, -4, 3, -4)), (0, 0, 1))
    check("-3/2 goes up", centre_of_totals(Totals(2, -9, 9, 0, 0, 0)), (0, -1, 2))


def check_demand_3(rng, outline):
    """"Cuts, starts and moves" on one outline and a made-up list of cuts."""
    pieces = after_cuts(outline, random_cuts(rng, outline))
    whole = outline_totals(outline)
    affine = AffineMap(*(rng.randint(-2, 2) for _ in range(4)),
                       *(rng.randint(-50, 50) for _ in range(2)))
    forward = backward = under_map = ZERO_TOTALS
    for piece in pieces:
        started = started_at(piece, rng.randrange(len(piece)))
        forward = added(forward, list_call(numbers_of(started))[1])
        backward = added(backward, list_call(numbers_of(walked_backwards(started)))[1])
        under_map = added(under_map, list_call(numbers_of(moved(affine, started)))[1])
    check("cut and started", forward, whole)
    check("backwards", backward, tuple(-total for total in whole))
    if all(within_limits(place) for place in moved(affine, outline)):
        check("moved", (0, under_map), map_call(affine, whole))
    check("walked", closed_totals(walked(outline)), whole)


def check_text_beside_calls(rng):
    """The text program beside begin, point, end and abandon on the same made-up lines."""
    walk, sheet, wanted = CLOSED_WALK, NEW_SHEET, []
    shown = [rng.choice(["B", "B H", "E", "A"] + [f"P {rng.randint(-9, 9)} {rng.choice([-2001, 0, 3, 5])}"] * 6)
             for _ in range(200)]
    for line_number, line in enumerate(shown, 1):
        points = walk.count
        if line.startswith("B"):
            number, walk = begin(walk, Kind.HOLE if line == "B H" else Kind.ISLAND)
        elif line == "A":
            number, walk = abandon(walk)
        elif line == "E":
            number, totals, _, walk, sheet = end(walk, sheet)
            if number == 0:
                centre = centre_of_totals(totals)
                shown_centre = centre[1:] if centre[0] == 0 else ("-", "-")
                wanted.append(" ".join(map(str, ("O", sheet.count, points, *totals, *shown_centre))))
        else:
            number, walk = point(walk, tuple(int(field) for field in line.split()[1:]))
        if number != 0:
            wanted.append(f"R {line_number} {number}")
    got = text.output(with_tabs(shown)).decode().replace("\t", " ").splitlines()
    check("text beside calls", got[:-1], wanted)
    check("last line", got[-1].split()[:8], list(map(str, ("S", sheet.count, *sheet.totals))))


if __name__ == "__main__":
    check_listing()
    check_starred_rows()
    check_unnoticed_errors()
    check_walk_corners()
    check_other_corners()
    check_worked_rings()
    check_kinds()
    check_end_order()
    check_turns()
    check_worked_regions()
    check_region_corners()
    check_mask_corners()
    check_worked_walks()
    check_walker_corners()
    check_entries()
    check_run_sums()
    check_comparison()
    check_worked_moves()
    check_move_corners()
    check_wrong_compositions()
    check_worked_lists()
    check_worked_fixes()
    check_orders()
    check_longest()
    check_refused_ends()
    check_handed_in()
    check_entry_rows()
    check_worked_third_moments()
    check_third_bounds()
    made_up = random.Random(1)
    for _ in range(200):
        reach = made_up.choice([2, 30, 500, 2000])
        outline = random_points(made_up, reach, 3, 12)
        check_demand_3(made_up, outline)
        check_ring_laws(outline)
        check_outline_moved_twice(made_up, outline)
        check_shifted_outline(made_up, outline)
        check_text_beside_calls(made_up)
    for _ in range(100):
        check_mask_laws(made_up)
    for _ in range(200):
        check_walker_laws(made_up)
        check_refused_pair(made_up)
    for _ in range(1000):
        check_formulas(made_up)
        check_three_calls(made_up)
        check_shifted_centre(made_up)
    check_fronts(made_up)
    check_sweep(made_up)
    check_entry_lists(made_up)
    check_formula_11(made_up)
    check_integrals(made_up)
    check_made_up_lists(made_up)
    for _ in range(500):
        check_third_laws(made_up)
    for failure in failed:
        print(failure)
    print(f"{len(passed)} checks passed, {len(failed)} failed")
    sys.exit(1 if failed else 0)
