"""A receiver's entries on a page: floats as coordinates, a file entry by entry, what a lost corner does, and the calls. See check.py."""
import re
from fractions import Fraction
from itertools import zip_longest
from pathlib import Path

import exact
from differences import expect
from figures import CLOSED_WALK, NEW_SHEET, Kind, begin, end
from floats import INFINITY, NO_NUMBER, bits_of, exact as exact_value, is_finite, value_of
from madeup_receiver import near_a_half, of_any_size, whole_number
from receiver import Fix, Outage, entry, fix_point

ROOT = Path(__file__).resolve().parent.parent
# The floats of the table `fixes`, in its order.
FLOATS = (0x3F000000, 0x3EFFFFFF, 0xBF000000, 0xBF000001, 0xBFC00000, 0x80000000, 0x80000001, 0xC4FA1000, 0xC4FA1001,
          0x44FA0FFF, 0x44FA1000, 0x7F7FFFFF, INFINITY, NO_NUMBER)
WORDS = {INFINITY: "infinite", NO_NUMBER: "not a number"}
RAISED = str.maketrans("-0123456789", "⁻⁰¹²³⁴⁵⁶⁷⁸⁹")
ENTRY = re.compile(r"(fix|outage) `([^`]*)`")
REFUSALS = ("33", "34", "1", "23")
# The rectangle but for its third corner, and what may be recorded there.
CORNERS = ((2, 0), (10, 4), (0, 4))
AT_THE_THIRD = {"a fix": Fix(bits_of(8.0), bits_of(8.0)), "a fix whose north is not a number": Fix(bits_of(8.0), NO_NUMBER),
                "no fix, but an outage of forty seconds": Outage(bits_of(40.0))}
# By the language of a call, the sources that have its words.
SOURCES = {"Rattle": ["crates.txt", *(f"crates/{crate}/src/lib.rt" for crate in ("entries", "fixes", "receiver", "outline_answers")),
                      "crates/outline_calls/src/walk.rt"],
           "Rust": ["callers/rust/Cargo.toml", "callers/rust/src/lib.rs"],
           "C": ["callers/c/mavrihkel.h"],
           "Python": ["second/receiver.py", "second/floats.py"]}


# Floats as a page writes them

def decimal(bits):
    """A finite float to nine digits, which tell it from every other; after ≈ where that is not its exact value."""
    digits, _, power = f"{value_of(bits):.9g}".partition("e")
    whole, dot, places = digits.partition(".")
    written = f"{int(whole):,}" if whole not in ("-0", "0") else whole
    written += dot + places + (f" × 10{str(int(power)).translate(RAISED)}" if power else "")
    return written if Fraction(digits) * Fraction(10) ** int(power or 0) == exact_value(bits) else "≈ " + written


def coordinate(bits):
    """What a float becomes as east and as north: a coordinate, or the refusal."""
    number, x, _ = fix_point(Fix(bits, 0))
    expect(fix_point(Fix(0, bits)) == (number, 0, x), "a fix", f"{bits:08X} is another coordinate as north than as east")
    expect(not is_finite(bits) or number or x == exact.half_up(exact_value(bits)), "a fix", f"{bits:08X} is not rounded half up")
    return str(f"{x:,}" if number == 0 else f"refusal {number}")


def bits_in(text):
    """The bits of a float that a page has as a decimal or in words. A decimal is exact."""
    for bits, word in WORDS.items():
        if text == word:
            return bits
    return bits_of(float(text))


def made_up_fixes(chance, count):
    """By name, made-up fixes within the limits, as exact fractions, and their points; halves are among them."""
    found = []
    for _ in range(count):
        fix = Fix(*(chance.choice((near_a_half, of_any_size, whole_number))(chance) for _ in range(2)))
        number, x, y = fix_point(fix)
        if number == 0:
            found.append({"east": exact_value(fix.east), "north": exact_value(fix.north), "x": x, "y": y})
    halves = [[each for each in found if each[name].denominator == 2] for name in ("east", "north")]
    expect(all(halves), "made-up fixes", "none has a half")
    return found


# The rows that a table has to have, from those that it has

def words(cell):
    """A cell of words, which has no digit."""
    return "" if re.search(r"\d", cell) else cell


def fix_rows(rows, _):
    """Each float, its bits and its coordinate; what it shows is the page's own."""
    shown = [row[-1] for row in rows[2:]]
    return [[WORDS.get(bits) or decimal(bits), f"`{bits:08X}`", coordinate(bits), words(text or "")]
            for bits, text in zip_longest(FLOATS, shown) if bits is not None]


def given(walk, cell):
    """What an entry of the table gives: number, the walk afterwards, and its point if it is an accepted fix."""
    kind, listed = ENTRY.fullmatch(cell).groups()
    floats = [bits_in(each) for each in listed.split(", ")]
    each = Fix(*floats) if kind == "fix" else Outage(*floats)
    number, walk = entry(walk, each)
    return number, walk, str(fix_point(each)[1:]) if kind == "fix" and number == 0 else "—"


def entry_rows(rows, _):
    """Begin, the entries that the page has in turn, and the end: of each the number, the point, and the walk's count and longest outage."""
    first, *cells, last = (row[0] for row in rows[2:])
    number, walk = begin(CLOSED_WALK, Kind.ISLAND)
    expect((first, last) == ("begin", "end"), "a receiver's file", "it has no begin or no end")
    found = [[first, str(number), "—", str(walk.count), decimal(walk.longest_outage)]]
    for cell in cells:
        number, walk, point = given(walk, cell)
        found.append([cell, str(number), point, str(walk.count), decimal(walk.longest_outage)])
    count = walk.count
    number, _, longest, _, _ = end(walk, NEW_SHEET)
    seen = {row[1] for row in found}
    expect(seen == {"0", "33", "34"} and len({row[4] for row in found}) > 2, "a receiver's file", f"it shows only {seen}")
    return [*found, [last, str(number), "—", str(count), decimal(longest)]]


def corner_row(label, third):
    """The rectangle with this at its third corner: the number there, points, A2, area and longest outage."""
    south, east, west = (Fix(*map(bits_of, map(float, corner))) for corner in CORNERS)
    _, walk = begin(CLOSED_WALK, Kind.ISLAND)
    numbers = []
    for each in (south, east, third, west):
        number, walk = entry(walk, each)
        numbers.append(number)
    _, totals, longest, _, _ = end(walk, NEW_SHEET)
    area = exact.outline_figures([[*CORNERS[:2], *([(8, 8)] if walk.count == 4 else []), *CORNERS[2:]]])["area"]
    expect(2 * area == totals.a2 and numbers[3] == 0, "a lost corner", f"its area is {area}")
    return [label, str(numbers[2]), str(walk.count), str(totals.a2), str(area), decimal(longest)]


def refusal_rows(rows, _):
    """The refusals of entries, with their meaning on the page of refusals; what is lost is the page's own."""
    meanings = dict(re.findall(r"(?m)^\| (\d+) \| (.*?) \|", (ROOT / "docs" / "REFUSALS.md").read_text()))
    lost = [row[-1] for row in rows[2:]]
    return [[number, meanings[number], words(text or "")] for number, text in zip_longest(REFUSALS, lost) if number is not None]


def call_rows(rows, _):
    """The rows as they are, if the sources of each language have every word of its call; all languages stand there."""
    for language, call, answer in rows[2:]:
        known = {word for source in SOURCES.get(language, []) for word in re.findall(r"\w+", (ROOT / source).read_text())}
        lacking = {word for span in re.findall(r"`([^`]*)`", call + answer) for word in re.findall(r"\w+", span)} - known
        expect(not lacking, "docs/RECEIVER.md", f"in {language} nothing is called {', '.join(sorted(lacking))}")
    expect({row[0] for row in rows[2:]} == set(SOURCES), "docs/RECEIVER.md", f"the calls are of {set(SOURCES)}")
    return rows[2:]


HEADS = {"fixes": ["The receiver records", "Its bits", "The coordinate", "What it shows"],
         "entries": ["Entry", "Number", "Its point", "Points so far", "Longest outage, s"],
         "corners": ["Recorded at the third corner", "Number", "Points", "A2", "Area, dm²", "Longest outage, s"],
         "refused": ["No.", "Meaning", "What is lost"],
         "calls": ["From", "Call", "Answer"]}


def rows_of(name, found):
    """The rows by their own check, under their heads."""
    def checked(rows, now):
        expect(rows[0] == HEADS[name], f"the table {name}", f"the heads are {HEADS[name]}")
        return found(rows, now)
    return checked


ROWS = {"fixes": rows_of("fixes", fix_rows), "entries": rows_of("entries", entry_rows), "calls": rows_of("calls", call_rows),
        "refused": rows_of("refused", refusal_rows),
        "corners": rows_of("corners", lambda *_: [corner_row(*each) for each in AT_THE_THIRD.items()])}
