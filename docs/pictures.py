"""The pictures of the pages, from the example files: python3 docs/pictures.py writes docs/NAME.svg for each.

A loop that counts as positive is drawn light, one that counts as negative dark: by the kind of its ring or, where the
ring has no area, by the direction in which the loop is walked. The arrows go as the ring is walked.
"""
import itertools
from fractions import Fraction
from pathlib import Path

from crossings import lies_inside, turn
from rings import as_counted, rings_of

DOCS = Path(__file__).resolve().parent
EXAMPLES = DOCS.parent / "examples"
# By its name, the example file that a picture is of, and which of the file's rings.
PICTURES = {"rectangle": ("rectangle", [0]), "pond": ("pond", [0, 1]), "figure-eight": ("figure-eight", [0]),
            "crossing-twin": ("twins", [0]), "plain-twin": ("twins", [1])}
WIDTH = 400
MARGIN = 76
HALO = 'stroke="#ffffff" stroke-width="3" stroke-opacity="0.7" paint-order="stroke"'
POSITIVE, NEGATIVE, LINE, GRID, TEXT = "#cfe8cf", "#e8b4a8", "#1f3d1f", "#dddddd", "#222222"


def drawn_rings(name, places):
    """Some of the rings of an example file."""
    rings = list(rings_of((EXAMPLES / f"{name}.txt").read_text(), {}).values())
    return [rings[place] for place in places]


def edges_of(points):
    """From each point to the next, the closing edge last."""
    return list(zip(points, points[1:] + points[:1]))


def crossing(a, b, c, d):
    """How far along from a to b, and where, the edge crosses that from c to d; None if it does not, within both."""
    across = (b[0] - a[0]) * (d[1] - c[1]) - (b[1] - a[1]) * (d[0] - c[0])
    if across == 0:
        return None
    along = Fraction((c[0] - a[0]) * (d[1] - c[1]) - (c[1] - a[1]) * (d[0] - c[0]), across)
    other = Fraction((c[0] - a[0]) * (b[1] - a[1]) - (c[1] - a[1]) * (b[0] - a[0]), across)
    if 0 < along < 1 and 0 < other < 1:
        return along, (a[0] + along * (b[0] - a[0]), a[1] + along * (b[1] - a[1]))
    return None


def loops_of(points):
    """The outline taken apart at its crossings: each loop is closed when the walk comes to a crossing again."""
    edges = edges_of(points)
    walk = []
    for a, b in edges:
        walk += [a, *(place for _, place in sorted(filter(None, (crossing(a, b, c, d) for c, d in edges))))]
    loops, path = [], []
    for place in walk:
        if place in path:
            at = path.index(place)
            loops.append(path[at:])
            del path[at:]
        path.append(place)
    return [*loops, path]


def signed_area(points):
    """Half the sum of the cross products."""
    return Fraction(sum(x * q - p * y for (x, y), (p, q) in edges_of(points)), 2)


def roomy_place(loop, holes):
    """Where a label has room: of the mean of the corners and the middles between two, those of holes too, that inside the
    loop, outside its holes and farthest from the edges."""
    edges = [edge for each in (loop, *holes) for edge in edges_of(each)]

    def room(place):
        inside = lies_inside(place, loop) and not any(lies_inside(place, hole) for hole in holes)
        return inside * min(Fraction(turn(a, b, place) ** 2, (b[0] - a[0]) ** 2 + (b[1] - a[1]) ** 2) for a, b in edges)

    groups = [loop, *itertools.combinations(itertools.chain(loop, *holes), 2)]
    return max((tuple(Fraction(sum(place[i] for place in group), len(group)) for i in (0, 1)) for group in groups), key=room)


def picture(name):
    """The picture as SVG text."""
    rings = drawn_rings(*PICTURES[name])
    xs, ys = ([0, *(point[i] for ring in rings for point in ring.points)] for i in (0, 1))
    step = Fraction(WIDTH - 2 * MARGIN, max(max(xs) - min(xs), max(ys) - min(ys)))
    height = float((max(ys) - min(ys)) * step + 2 * MARGIN)

    def at(place):
        return (f"{float((place[0] - min(xs)) * step + MARGIN):.1f}", f"{height - float((place[1] - min(ys)) * step) - MARGIN:.1f}")

    def line(a, b, rest):
        (x1, y1), (x2, y2) = at(a), at(b)
        return f'<line x1="{x1}" y1="{y1}" x2="{x2}" y2="{y2}" {rest}/>'

    def text(place, words, right=0, down=4, size=12):
        anchor = {-1: "end", 0: "middle", 1: "start"}[(right > 0) - (right < 0)]
        x, y = map(float, at(place))
        return f'<text x="{x + right:.1f}" y="{y + down:.1f}" font-size="{size}" text-anchor="{anchor}" {HALO}>{words}</text>'

    drawn = [f'<svg xmlns="http://www.w3.org/2000/svg" width="{WIDTH}" height="{height:.0f}" viewBox="0 0 {WIDTH} {height:.0f}" font-family="sans-serif" fill="{TEXT}">',
             '<defs><marker id="arrow" viewBox="0 0 8 8" refX="6" refY="4" markerWidth="8" markerHeight="8" orient="auto">'
             f'<path d="M0 0 L8 4 L0 8 z" fill="{LINE}"/></marker></defs>',
             f'<rect width="{WIDTH}" height="{height:.0f}" fill="#ffffff"/>']
    for x in range(min(xs), max(xs) + 1):
        drawn.append(line((x, min(ys)), (x, max(ys)), f'stroke="{GRID}"'))
    for y in range(min(ys), max(ys) + 1):
        drawn.append(line((min(xs), y), (max(xs), y), f'stroke="{GRID}"'))
    loops = [loops_of(as_counted(ring)) for ring in rings]
    holes = [loop for ring, of_ring in zip(rings, loops) if ring.is_hole for loop in of_ring]
    for loop in itertools.chain(*loops):
        corners = " ".join(",".join(at(place)) for place in loop)
        drawn.append(f'<polygon points="{corners}" fill="{POSITIVE if signed_area(loop) > 0 else NEGATIVE}"/>')
    for a, b in itertools.chain(*(edges_of(ring.points) for ring in rings)):
        halfway = ((a[0] + b[0]) / Fraction(2), (a[1] + b[1]) / Fraction(2))
        short = tuple(s + (t - s) * Fraction(3, 5) for s, t in zip(a, halfway))
        drawn += [line(a, b, f'stroke="{LINE}" stroke-width="2"'), line(a, short, f'stroke="{LINE}" stroke-width="2" marker-end="url(#arrow)"')]
    for ring, of_ring in zip(rings, loops):
        for loop in of_ring:
            area = signed_area(loop)
            place = roomy_place(loop, [] if ring.is_hole else holes)
            drawn.append(text(place, f"{'+' if area > 0 else '−'}{float(abs(area)):g} dm²"))
    for ring in rings:
        for number, (x, y) in enumerate(ring.points, 1):
            px, py = at((x, y))
            drawn.append(f'<circle cx="{px}" cy="{py}" r="3.5" fill="{LINE}"/>')
            # A point's label stands away from the middle between its neighbours.
            before, after = ring.points[number - 2], ring.points[number % len(ring.points)]
            east, north = ((2 * own > s + t) - (2 * own < s + t) for own, s, t in zip((x, y), before, after))
            # Inside an island there is room for the number alone.
            words, right, up = (f"{number}", 8, 10) if ring.is_hole else (f"{number}: ({x}, {y})", 10, 16)
            drawn.append(text((x, y), words, right * east, 4 - up * north))
    px, py = map(float, at((0, 0)))
    drawn.append(f'<rect x="{px - 7:.1f}" y="{py - 7:.1f}" width="14" height="14" fill="none" stroke="{LINE}"/>')
    drawn.append(text(((max(xs) + min(xs)) / Fraction(2), min(ys)), "x east, y north, in decimetres from the peg (the small square)", 0, 50, 11))
    return "\n".join([*drawn, "</svg>"]) + "\n"


if __name__ == "__main__":
    for each in PICTURES:
        (DOCS / f"{each}.svg").write_text(picture(each))
