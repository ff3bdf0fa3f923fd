"""The moves of a page: each row's map, told by what x and y become, and what an outline so moved has. See check.py."""
import exact
import figures
import moves
from differences import expect

HEADS = ["Move", "x becomes", "y becomes", "a, b, g, h, e, f", *exact.TOTALS, "Centre"]
NAMES = ["as walked", "shifted", "turned", "shifted, then turned", "turned, then shifted"]


def image(formula, x, y):
    """What the formula gives for (x, y), each of its sides."""
    sides = {exact.value(side, {"x": x, "y": y}) for side in formula.strip("`").split(" = ")}
    return sides.pop() if len(sides) == 1 else None


def map_of(u, v):
    """The map that takes (x, y) to what the two formulas give; none where they are those of no map."""
    places = ((0, 0), (1, 0), (0, 1), (7, 11))
    images = [(image(u, x, y), image(v, x, y)) for x, y in places]
    if any(each is None for place in images for each in place):
        return None
    (e, f), (u_of_x, v_of_x), (u_of_y, v_of_y), far = images
    affine = moves.AffineMap(u_of_x - e, u_of_y - e, v_of_x - f, v_of_y - f, e, f)
    return affine if far == moves.moved_point(affine, places[-1]) else None


def maps_of(where, rows):
    """The maps of the rows by their names. Each `A, then B` is the composition of A and B."""
    known = {name: map_of(u, v) for name, u, v, *_ in rows}
    right = [*known] == NAMES and None not in known.values()
    right = right and all(known[name] == moves.composed(*(known[each] for each in name.split(", then "))) for name in NAMES[3:])
    expect(right, where, f"not the maps of {NAMES}: {known}")
    return known if right else {}


def answered(affine, points):
    """The map call's answer for the outline's totals, with the centre, as a row has them."""
    _, totals = moves.map_call(affine, figures.outline_totals(points))
    _, x, y = figures.centre_of_totals(totals)
    return [*map(str, totals), f"({x}, {y})"]


def by_integrals(points):
    """The totals and the centre of points by exact integrals, as a row has them."""
    found = exact.outline_figures([points])
    totals = (multiple * found[name] for multiple, name in zip(exact.MULTIPLES, exact.INTEGRANDS))
    return [*map(str, totals), f"({exact.half_up(found['exact x'])}, {exact.half_up(found['exact y'])})"]


def check(where, rows, points):
    """The rows of the outline moved; yields its points as each row moves them."""
    expect(rows[0] == HEADS, where, f"other heads than {HEADS}")
    known = maps_of(where, rows[2:])
    for name, _, _, numbers, *said in rows[2:] if known else []:
        places = moves.moved(known[name], points)
        expect(numbers == ", ".join(map(str, known[name])), where, f"{name} is {known[name]}")
        expect(said == answered(known[name], points), where, f"{name}: the map call answers {answered(known[name], points)}")
        expect(said == by_integrals(places), where, f"{name}: the integrals give {by_integrals(places)}")
        yield places
