"""Exact figures of outlines and of the ground under cells, and the formulas of the pages evaluated on them.

The integrals are taken over triangles, by their midpoints, and not by the edge terms of document 01, so that a
page that says which integral a total is gets checked by another way than the one the total was made by.
"""
import ast
import math
import operator
import re
from fractions import Fraction
from itertools import accumulate

TOTALS = ("A2", "X6", "Y6", "XX12", "XY24", "YY12")
MULTIPLES = (2, 6, 6, 12, 24, 12)    # of the integrals below, in their order
INTEGRANDS = {"area": lambda x, y: 1, "∫x": lambda x, y: x, "∫y": lambda x, y: y,
              "∫x²": lambda x, y: x * x, "∫xy": lambda x, y: x * y, "∫y²": lambda x, y: y * y}
THIRD_TOTALS = ("XXX20", "XXY60", "XYY60", "YYY20")
CUBES = {"∫x³": lambda x, y: x ** 3, "∫x²y": lambda x, y: x * x * y, "∫xy²": lambda x, y: x * y * y, "∫y³": lambda x, y: y ** 3}
PRINTED = ("points", *TOTALS, "centre x", "centre y")
METRES = {"area": " in m²", "∫x": " in m³", "∫y": " in m³", "∫x²": " in m⁴", "∫xy": " in m⁴", "∫y²": " in m⁴"}
CENTRAL = {"Mxx": "∫x²", "Mxy": "∫xy", "Myy": "∫y²"}
CENTRAL_CUBES = {"Mxxx": "∫x³", "Mxxy": "∫x²y", "Mxyy": "∫xy²", "Myyy": "∫y³"}
SKEWNESS = {"skewness in x": ("Mxxx", "Mxx"), "skewness in y": ("Myyy", "Myy")}
SUMS = {"A": "area", "Σx": "∫x", "Σy": "∫y", "Σx²": "∫x²", "Σxy": "∫xy", "Σy²": "∫y²"}
WALKS = (*(f"{which} {name}" for which in ("first", "second") for name in (*TOTALS, *INTEGRANDS)),
         *(f"difference in {name}" for name in TOTALS), "first to second", "second to first")
NAMES = (*TOTALS, *INTEGRANDS, *(name + unit for name, unit in METRES.items()), "area in ha", *CENTRAL,
         *(name + " in m⁴" for name in CENTRAL), *THIRD_TOTALS, *CUBES, *CENTRAL_CUBES,
         *(name + " in m⁵" for name in CENTRAL_CUBES), *SKEWNESS, *SUMS, *WALKS, "outline", "outlines", "points", "exact x", "exact y",
         "mx", "my", "centre x", "centre y", "c", "x", "y", "p", "q", "a", "b", "g", "h", "e", "f", "d", "k", "w", "i",
         "east", "north")


# Integrals

def over_triangle(integrand, a, b, c):
    """The signed integral: signed area times the mean at the midpoints of the sides, exact up to squares."""
    doubled = (b[0] - a[0]) * (c[1] - a[1]) - (c[0] - a[0]) * (b[1] - a[1])
    middles = [((s[0] + t[0]) / Fraction(2), (s[1] + t[1]) / Fraction(2)) for s, t in ((a, b), (b, c), (c, a))]
    return Fraction(doubled) / 2 * sum(Fraction(integrand(x, y)) for x, y in middles) / 3


def cube_over_triangle(integrand, a, b, c):
    """The signed integral by the values at the corners, at the midpoints of the sides and at the centre, exact up to cubes."""
    doubled = (b[0] - a[0]) * (c[1] - a[1]) - (c[0] - a[0]) * (b[1] - a[1])

    def value(*corners):
        return Fraction(integrand(*(sum(values) / Fraction(len(corners)) for values in zip(*corners))))

    mean = (value(a) + value(b) + value(c)) / 20 + 2 * (value(a, b) + value(b, c) + value(c, a)) / 15 + 9 * value(a, b, c) / 20
    return Fraction(doubled) / 2 * mean


def integral(integrand, outlines, triangle=over_triangle):
    """The sum over outlines of the triangles that each edge makes with its outline's first point."""
    return sum((triangle(integrand, points[0], points[i], points[i + 1])
                for points in outlines for i in range(1, len(points) - 1)), Fraction(0))


def outline_figures(outlines):
    """By name, every figure that is defined by an integral; the centre's where the area is not 0."""
    figures = {name: integral(f, outlines) for name, f in INTEGRANDS.items()}
    in_metres, in_hectometres = ([[(Fraction(x, unit), Fraction(y, unit)) for x, y in points] for points in outlines]
                                 for unit in (10, 1000))
    figures |= {name + METRES[name]: integral(f, in_metres) for name, f in INTEGRANDS.items()}
    figures["area in ha"] = integral(INTEGRANDS["area"], in_hectometres)
    if figures["area"] != 0:
        x, y = (figures[name] / figures["area"] for name in ("∫x", "∫y"))
        figures |= {"exact x": x, "exact y": y}
        about = [[(s - x, t - y) for s, t in points] for points in outlines]
        about_in_metres = [[(s / 10, t / 10) for s, t in points] for points in about]
        for name, moment in CENTRAL.items():
            figures[name] = integral(INTEGRANDS[moment], about)
            figures[name + " in m⁴"] = integral(INTEGRANDS[moment], about_in_metres)
    return figures


def third_figures(outlines):
    """By name, the figures of third order; the centre's where the area is not 0, and the skewness where the mean square about
    the centre is above 0."""
    known = outline_figures(outlines)
    figures = {name: integral(f, outlines, cube_over_triangle) for name, f in CUBES.items()}
    if "exact x" in known:
        x, y = (known[name] for name in ("exact x", "exact y"))
        figures |= {"mx": x, "my": y}
        for name, moment in CENTRAL_CUBES.items():
            for unit, written in ((1, ""), (10, " in m⁵")):
                about = [[((s - x) / unit, (t - y) / unit) for s, t in points] for points in outlines]
                figures[name + written] = integral(CUBES[moment], about, cube_over_triangle)
        for name, (third, second) in SKEWNESS.items():
            if known[second] / known["area"] > 0:
                figures[name] = figures[third] / known["area"] / root((known[second] / known["area"]) ** 3)
    return figures


def region_figures(runs):
    """The figures of the ground under runs (row, first column, length), a square for each cell; the six sums of the cells' indices."""
    cells = sorted({(column, row) for row, first, length in runs for column in range(first, first + length)})
    squares = [[(x, y), (x + 1, y), (x + 1, y + 1), (x, y + 1)] for x, y in cells]
    figures = outline_figures(squares) | {"of": squares}
    figures |= {name: Fraction(sum(INTEGRANDS[f](x, y) for x, y in cells)) for name, f in SUMS.items()}
    figures |= {total: multiple * figures[name] for total, multiple, name in zip(TOTALS, MULTIPLES, INTEGRANDS)}
    if cells:
        figures |= {"centre x": half_up(figures["exact x"]), "centre y": half_up(figures["exact y"])}
    return figures


def half_up(quotient):
    """The nearest whole number; a half goes up."""
    return Fraction(math.floor(quotient + Fraction(1, 2)))


# Formulas

FORMULA_NAME = re.compile("|".join(re.escape(name) for name in sorted(NAMES, key=len, reverse=True)) + "|[A-Za-zΣ∫]+")
DECIMAL = re.compile(r"(\d+)\.(\d+)")
ROOT = re.compile(r"√(\d+)")
ENTRY = re.compile(r"entry (\d+)")
ANNEX = tuple(accumulate((j * j for j in range(1_024)), initial=0))
SIGNS = {"−": "-", "×": "*", "^": "**", "²": "**2", "³": "**3", "⁴": "**4", "⌊": "floor(", "⌋": ")"}


class NotAFormula(Exception):
    """The text has a word or a sign that no formula has."""


def root(number):
    """The square root, cut off after twenty places if it is longer."""
    places = 10 ** 20
    return Fraction(math.isqrt(number.numerator * number.denominator * places ** 2), number.denominator * places)


def raised(base, exponent):
    """A power. With a half in the exponent it is a root, and none where the base is not above 0."""
    if exponent.denominator > 2:
        raise NotAFormula(f"^({exponent})")
    if exponent.denominator == 2 and base <= 0:
        raise ZeroDivisionError
    return base ** exponent if exponent.denominator == 1 else root(base ** exponent.numerator)


OPERATORS = {ast.Add: operator.add, ast.Sub: operator.sub, ast.Mult: operator.mul, ast.Div: operator.truediv, ast.Pow: raised}


def annex_entry(match):
    """An entry of the annex, by its index."""
    if int(match[1]) >= len(ANNEX):
        raise NotAFormula(match[0])
    return str(ANNEX[int(match[1])])


def value(text, figures):
    """The value of a formula, in which `entry 5` is that of the annex; KeyError where a name has no figure,
    ZeroDivisionError where there is none."""
    found = []

    def numbered(match):
        if match[0] not in NAMES:
            raise NotAFormula(match[0])
        found.append(match[0])
        return f"({len(found) - 1},)"

    text = re.sub(r"(?<=\d),(?=\d{3})", "", text)
    code = FORMULA_NAME.sub(numbered, ENTRY.sub(annex_entry, text))
    code = DECIMAL.sub(lambda number: f"({int(number[1] + number[2])}/{10 ** len(number[2])})", code)
    code = ROOT.sub(r"root(\1)", code)
    for sign, written in SIGNS.items():
        code = code.replace(sign, written)
    try:
        tree = ast.parse(code.strip(), mode="eval").body
    except SyntaxError as error:
        raise NotAFormula(text) from error
    return evaluated(tree, [figures[name] for name in found])


def evaluated(tree, named):
    """Sums, products, quotients, powers, the whole part, whole numbers and their roots, and names by their place."""
    match tree:
        case ast.Tuple(elts=[ast.Constant(value=place)]):
            return Fraction(named[place])
        case ast.Constant(value=int() as number):
            return Fraction(number)
        case ast.UnaryOp(op=ast.USub(), operand=part):
            return -evaluated(part, named)
        case ast.BinOp(left=left, op=sign, right=right) if type(sign) in OPERATORS:
            return OPERATORS[type(sign)](evaluated(left, named), evaluated(right, named))
        case ast.Call(func=ast.Name(id="floor"), args=[part]):
            return Fraction(math.floor(evaluated(part, named)))
        case ast.Call(func=ast.Name(id="root"), args=[ast.Constant(value=int() as number)]):
            return root(number)
    raise NotAFormula(ast.dump(tree))


RELATION = re.compile("(=|≤|<|≈)")
HOLDS = {"=": operator.eq, "≤": operator.le, "<": operator.lt}


def holds(text, figures):
    """Whether each relation of an equation or a chain of inequalities holds."""
    parts = RELATION.split(text)
    values = [value(part, figures) for part in parts[0::2]]
    return all(rounds_to(values[i], values[i + 1], parts[2 * i + 2]) if sign == "≈" else HOLDS[sign](values[i], values[i + 1])
               for i, sign in enumerate(parts[1::2]))


def rounds_to(number, decimal, written):
    """Whether a decimal is the number rounded to as many places as are written, and not the number itself."""
    places = len(written.strip().partition(".")[2])
    return number != decimal and 2 * abs(number - decimal) * 10 ** places <= 1


def with_decimal(number):
    """A fraction with its decimal: exact after `=` if it ends within three places, else rounded to three after `≈`."""
    rounded = f"{float(number):.3f}".rstrip("0").rstrip(".")
    if number.denominator == 1:
        return str(number)
    return f"{number} {'=' if Fraction(rounded) == number else '≈'} {rounded}"
