"""The rings of a page: the figures of the lines that the program prints, of lists of points, and of made-up rings. See check.py."""
from fractions import Fraction

import exact
import figures
import text
from differences import expect
from rings import as_counted, rings_of
from third_moments import third_moments


def printed_figures(given, printed):
    """For each O line, each R line with 32 and the S line, as `O 1`, `R 6` or `S`: the fields and the exact figures, by name.

    A ring counts by its kind. Where 32 has refused one, the figures are what the call on a whole list answers for its points.
    """
    lines = [line.split("\t") for line in printed.splitlines()]
    refusals = {int(line): int(number) for letter, line, number, *_ in lines if letter == "R"}
    rings = rings_of(given, refusals)
    found = {f"R {line}": list_figures(ring.points) for line, ring in rings.items() if line in refusals}
    accepted = [as_counted(ring) for line, ring in rings.items() if line not in refusals]
    for letter, *fields in lines:
        if letter == "R":
            continue
        label = f"O {fields[0]}" if letter == "O" else "S"
        names = ("outline", "points") if letter == "O" else ("outlines",)
        counted = [accepted[int(fields[0]) - 1]] if letter == "O" else accepted
        found[label] = exact.outline_figures(counted) | {"of": counted} | {
            name: Fraction(field) for name, field in zip((*names, *exact.TOTALS, "centre x", "centre y"), fields) if field != "-"}
    return found


def list_figures(points):
    """The exact figures of an outline in the direction of its list, and what the call on a whole list and that for the centre
    answer; where 35 does not refuse it, those of third order too."""
    numbers = [each for point in points for each in point]
    number, totals = figures.list_call(numbers)
    expect(number == 0, "a list", f"{points} is refused")
    refusal, x, y = figures.centre_of_totals(totals)
    centre = {"centre x": x, "centre y": y} if refusal == 0 else {}
    refusal, thirds = third_moments(numbers)
    third_order = exact.third_figures([points]) | dict(zip(exact.THIRD_TOTALS, thirds)) if refusal == 0 else {}
    return exact.outline_figures([points]) | dict(zip(exact.TOTALS, totals)) | centre | third_order | {"of": [points], "points": len(points)}


def ring_input(points, is_hole):
    """The lines that walk a ring of this kind."""
    return "".join(["B\tH\n" if is_hole else "B\n", *(f"P\t{x}\t{y}\n" for x, y in points), "E\n"])


def ring_figures(points, is_hole):
    """The figures of the lines that the second program prints for a ring of this kind and nothing else."""
    given = ring_input(points, is_hole)
    return list(printed_figures(given, text.output(given.encode()).decode()).values())
