"""A page whose every figure is recomputed: its blocks, tables and formulas. See check.py for what a page may have."""
import functools
import random
import re
import subprocess
from pathlib import Path

import crossings
import exact
import figures
import moves
import page_cells
import page_code
import page_masks
import page_moves
import page_receiver
import page_rings
import page_thirds
import page_units
import page_walks
import pictures
import text
from differences import expect

ROOT = Path(__file__).resolve().parent.parent
SEED = 7
MADE_UP = 100
ALLOWED = re.compile(r"\b(A2|X6|Y6|XX12|XY24|YY12|XXX20|XXY60|XYY60|YYY20|[Dd]ocument 0[12]|document 00[01]|formula 11|CR ([2389]|10)"
                     r"|[Rr]efusals? (1|3|4|6|7|8|10|22|23|27|28|31|32|33|34|35))\b")
ROWS = page_cells.ROWS | page_walks.ROWS | page_receiver.ROWS | page_thirds.ROWS
# Of the tables that are recomputed in part: the cells of a row that are read as text.
AS_TEXT = {"test": slice(1, None), "ground": slice(3, None), "regions": slice(1)}


# Figures by name

@functools.cache
def made_up():
    """Figures of made-up outlines, rings, edges, maps, regions, bits, pairs of walks and fixes, by the second program and by exact integrals."""
    chance = random.Random(SEED)
    cases = []
    for _ in range(MADE_UP):
        points = [(chance.randint(-20, 20), chance.randint(-20, 20)) for _ in range(chance.randint(3, 8))]
        cases += [page_rings.list_figures(points), *page_rings.ring_figures(points, chance.random() < 0.5)]
        (x, y), (p, q) = points[:2]
        cases.append({"x": x, "y": y, "p": p, "q": q, "c": 2 * exact.integral(exact.INTEGRANDS["area"], [[(0, 0), (x, y), (p, q)]])})
        a, b, g, h = (chance.randint(-2, 2) for _ in range(4))
        cases.append({"a": a, "b": b, "g": g, "h": h, "d": exact.integral(exact.INTEGRANDS["area"], [[(0, 0), (a, g), (a + b, g + h), (b, h)]])})
        row, first, length = chance.randint(0, 9), chance.randint(0, 9), chance.randint(1, 9)
        cases.append(page_cells.region([(row, first, length), (row + 1, first + 2, length)]))
    return cases + page_masks.made_up_bits(chance, MADE_UP) + page_walks.made_up_pairs(chance, MADE_UP) + page_receiver.made_up_fixes(chance, MADE_UP)


# A page

class Page:
    """A page taken apart: its blocks computed, then its formulas tried."""

    def __init__(self, path, plots):
        self.path, self.plots = path, plots
        self.lines = [*path.read_text().splitlines(), ""]
        self.blocks, self.examples = {}, {}
        self.general = [*made_up()]
        self.terms, self.mask = {}, None
        self.read_blocks()

    def at(self, number):
        return f"{self.path.relative_to(ROOT)}:{number + 1}"

    def read_blocks(self):
        """Computes every fenced block; `self.blocks` has, by its last line, the figures that it gives, and `self.examples` by its file."""
        number, given, affine, example, mask, lists, code = 0, None, None, None, None, None, None
        while number < len(self.lines):
            kind, _, name = self.lines[number].removeprefix("```").partition(" ")
            if not self.lines[number].startswith("```"):
                number += 1
                continue
            last = self.lines.index("```", number + 1)
            body = "".join(line + "\n" for line in self.lines[number + 1:last])
            if kind == "input":
                given, example = body, name
                expect(not name or (ROOT / name).read_text() == body, self.at(number), f"not the text of {name}")
            elif kind == "output":
                self.output(number, given, body)
                self.blocks[last] = self.examples[example] = page_rings.printed_figures(given, body)
                self.general += self.blocks[last].values()
                if affine is not None:
                    self.moved(number, affine, self.blocks[last])
                given = affine = None
            elif kind == "runs":
                runs = [tuple(map(int, line.split("\t"))) for line in body.splitlines()]
                self.blocks[last] = {"region": page_cells.region(runs)}
                self.general += self.blocks[last].values()
                if mask is not None:
                    totals = tuple(self.blocks[last]["region"][name] for name in exact.TOTALS)
                    expect((runs, totals) == page_masks.runs_and_totals(mask), self.at(number), f"the mask has {page_masks.runs_and_totals(mask)}")
                mask = None
            elif kind == "mask":
                mask = self.mask = page_masks.words_of(body)
                expect(body == page_masks.block_of(mask), self.at(number), f"the mask has the words\n{page_masks.block_of(mask)}")
            elif kind == "map":
                (a, b, e), (g, h, f) = (map(int, line.split("\t")) for line in body.splitlines())
                affine = moves.AffineMap(a, b, g, h, e, f)
            elif kind == "walks":
                lists = page_walks.pair(*map(page_walks.points_in, body.splitlines()))
                written = "".join(" ".join(map(str, walk)) + "\n" for walk in lists["walks"])
                expect(body == written, self.at(number), f"the walks are\n{written}")
            elif kind == "points":
                lists = page_thirds.block_figures(self.at(number), body)
            elif kind in page_code.LANGUAGES:
                page_code.check(self.at(number), kind, body, lists)
                code = kind
            elif kind == "printed":
                expect(body == page_code.printed(code, lists), self.at(number), f"not {page_code.printed(code, lists)}")
            if kind in ("walks", "points"):
                self.blocks[last] = {kind: lists}
                self.general.append(lists)
            if kind in ("input", "output", "runs", "mask", "map", "walks", "points", "printed", *page_code.LANGUAGES):
                self.lines[number:last + 1] = [""] * (last + 1 - number)
            number = last + 1

    def output(self, number, given, body):
        """The block is what the program prints, and what the second program prints."""
        printed = subprocess.run([self.plots], input=given.encode(), stdout=subprocess.PIPE, check=True).stdout
        expect(printed == body.encode(), self.at(number), f"{self.plots} prints\n{printed.decode()}")
        expect(text.output(given.encode()) == body.encode(), self.at(number), "the second program prints something else")

    def moved(self, number, affine, found):
        """The second outline is the first one moved, and its totals are the map call's answer."""
        first, second = found["O 1"], found["O 2"]
        expect(moves.moved(affine, first["of"][0]) == second["of"][0], self.at(number), "the second outline is not the first one moved")
        answer = moves.map_call(affine, figures.Totals(*(int(first[name]) for name in exact.TOTALS)))
        expect(answer == (0, figures.Totals(*(second[name] for name in exact.TOTALS))), self.at(number), f"the map call answers {answer}")

    def check(self):
        """Every table and code span in turn, and no digit outside them."""
        block, now, table = {}, None, None
        for number, line in enumerate(self.lines):
            block = self.blocks.get(number, block)
            comment = re.fullmatch(r"<!-- (\w+)(?:: (.*))? -->", line)
            if line.startswith("#"):
                now = table = None
            elif comment and comment[1] == "figures":
                label, _, example = comment[2].partition(" of ")
                now = (self.examples.get(example, {}) if example else block).get(label)
                expect(now is not None, self.at(number), "the block has no such line")
            elif comment and comment[1] in ("crosses", "plain", "same", "inside"):
                self.outlines(number, comment[1], [block[label] for label in comment[2].split(", ")])
            elif comment:
                table = [comment[1]]
            elif table and line.startswith("|"):
                table.append([cell.strip() for cell in line.strip("|").split("|")])
                if not self.lines[number + 1].startswith("|"):
                    self.table(number, table[0], table[1:], now)
                if table[0] in ("edges", "loops", "trial", "answers", "moves", *ROWS):
                    continue
                if table[0] in AS_TEXT:
                    line = "|".join(table[-1][AS_TEXT[table[0]]])
            elif table and len(table) > 1:
                table = None
            self.spans(number, line, now)

    def outlines(self, number, claim, found):
        """The named outlines cross themselves, or are plain, or have the same fields after their number; or the centre of the
        first lies inside the second."""
        kinds = [crossings.kind(each["of"][0]) for each in found]
        fields = [[each.get(name) for name in exact.PRINTED] for each in found]
        if claim == "inside":
            right = crossings.lies_inside((found[0]["exact x"], found[0]["exact y"]), found[1]["of"][0])
        else:
            right = fields.count(fields[0]) == len(fields) if claim == "same" else kinds.count(claim) == len(kinds)
        expect(right, self.at(number), f"not {claim}: {kinds}, {fields}")

    def spans(self, number, line, now):
        """The code spans of a line, and the units after them; what is left of it has no digit."""
        page_units.check(self.at(number), line)
        rest = re.sub(r"\]\([^)]*\)|<!--.*?-->|`[^`]*`", "", line)
        expect(not re.search(r"\d", ALLOWED.sub("", rest)), self.at(number), f"a figure that nothing checks: {line.strip()[:100]}")
        for span in re.findall(r"`([^`]*)`", line):
            if exact.RELATION.search(span):
                self.relation(number, span, now)
                expect(now is None or not re.search(r"/ ?\d", exact.RELATION.split(span)[-1]), self.at(number), f"a fraction without its decimal: {span}")
            elif re.search(r"\d", ALLOWED.sub("", span)):
                expect(any(name in span for name in exact.NAMES), self.at(number), f"a figure that nothing checks: {span}")

    def relation(self, number, span, now):
        """It holds of the named line; or, a general formula, wherever its names have figures, and somewhere they do."""
        tried = 0
        for known in [now] if now else self.general:
            try:
                right = exact.holds(span, known)
            except exact.NotAFormula as error:
                return expect(False, self.at(number), f"no formula: {span} ({error})")
            except (KeyError, ZeroDivisionError):
                continue
            tried += 1
            if not right:
                return expect(False, self.at(number), f"does not hold: {span}")
        return expect(tried, self.at(number), f"nothing to try it on: {span}")

    # Tables

    def table(self, number, name, rows, now):
        """By its name: its own check, or the rows that it has to have."""
        if name not in ROWS:
            return getattr(self, "table_" + name)(number, rows, now)
        expected = ROWS[name](rows, now)
        return expect(rows[2:] == expected, self.at(number), f"the rows are {expected}")

    def table_terms(self, number, rows, _):
        """The terms that the page gives, summed over the edges, are the totals of every outline."""
        self.terms = {row[0]: row[1].strip("`") for row in rows[2:]}
        expect(tuple(self.terms) in (exact.TOTALS, exact.THIRD_TOTALS), self.at(number), "other totals")
        for known in self.general:
            for name, term in self.terms.items():
                if name in known:
                    summed = sum(self.term(name, *edge) for points in known["of"] for edge in zip(points, points[1:] + points[:1]))
                    expect(summed == known[name], self.at(number), f"{term} does not sum to {name} over {known['of']}")

    def term(self, name, start, end):
        (x, y), (p, q) = start, end
        return exact.value(self.terms[name], {"x": x, "y": y, "p": p, "q": q, "c": x * q - p * y})

    def table_map(self, number, rows, _):
        """The formulas give what the map call and the moved points give."""
        chance = random.Random(SEED)
        for known in self.general:
            if "A2" not in known:
                continue
            affine = moves.AffineMap(*(chance.randint(-2, 2) for _ in range(4)), *(chance.randint(-9, 9) for _ in range(2)))
            a, b, g, h, e, f = affine
            names = known | {"a": a, "b": b, "g": g, "h": h, "e": e, "f": f, "d": a * h - b * g}
            totals = figures.Totals(*(int(known[name]) for name in exact.TOTALS))
            moved = [figures.outline_totals(moves.moved(affine, points)) for points in known["of"]]
            by_page = [exact.value(row[1].strip("`"), names) for row in rows[2:]]
            expect([row[0] for row in rows[2:]] == list(exact.TOTALS), self.at(number), "other totals")
            expect(by_page == list(moves.mapped_totals(affine, totals)), self.at(number), f"not the map call's formulas: {affine}")
            expect(by_page == [sum(column) for column in zip(*moved)], self.at(number), f"not the moved outline's totals: {affine}")

    def table_moves(self, number, rows, now):
        """The named outline moved: its maps, what the map call answers, and what the program prints for the moved points."""
        for points in page_moves.check(self.at(number), rows, now["of"][0]):
            given = page_rings.ring_input(points, False)
            self.output(number, given, text.output(given.encode()).decode())

    def table_edges(self, number, rows, now):
        """Edges of the named line's outline in turn, each with the named terms, and their sums."""
        names = [cell.strip("`") for cell in rows[0][1:]]
        points = now["of"][0]
        edges = list(zip(points, points[1:] + points[:1]))
        expected = [[f"`{start} → {end}`", *(f"`{self.term(name, start, end)}`" for name in names)] for start, end in edges]
        expected.append(["Sum", *(f"`{now[name]}`" for name in names)])
        expect(rows[2:] == expected, self.at(number), f"the edges are {expected}")

    def table_loops(self, number, rows, now):
        """Loops, each with its exact figures, which add up to those of the named line."""
        names = [cell.strip("`") for cell in rows[0][1:]]
        loops = [page_walks.points_in(row[0]) for row in rows[2:-1]]
        found = [[exact.outline_figures([loop])[name] for name in names] for loop in loops] + [[now[name] for name in names]]
        written = [[exact.with_decimal(each) for each in row] for row in found]
        expect([[cell.strip("`") for cell in row[1:]] for row in rows[2:]] == written, self.at(number), f"the loops have {written}")
        expect([exact.outline_figures(loops)[name] for name in names] == found[-1], self.at(number), "the loops do not add up")
        drawn = [sorted(loop) for loop in pictures.loops_of(now["of"][0])]
        expect(sorted(map(sorted, loops)) == sorted(drawn), self.at(number), f"the outline's loops are {drawn}")

    def table_test(self, number, rows, _):
        """The page's test warns of an outline where the test of the trial does, of small ones too."""
        formulas = [span for row in rows[2:] for span in re.findall(r"`([^`]*)`", row[0])]
        small = [page_rings.list_figures(points) for points in crossings.walks_on_grid(4, 3)]
        for known in [*self.general, *small]:
            if "A2" in known:
                passed = known["A2"] != 0 and all(exact.holds(formula, known) for formula in formulas)
                expect(passed != crossings.warns([known[name] for name in exact.TOTALS]), self.at(number), f"not the test of the trial, for {known['of']}")

    def table_trial(self, number, rows, _):
        """The counts of the trial."""
        counted = crossings.trial(figures.outline_totals)
        expect(rows[2:] == counted, self.at(number), f"the trial counts {counted}")

    def table_answers(self, number, rows, _):
        """What both calls on masks answer for the last block `mask` and for other masks."""
        answered = [page_masks.answers_row(self.mask, row[0], row[3]) for row in rows[2:]]
        expect(rows[2:] == answered, self.at(number), f"the calls answer {answered}")

    def table_ground(self, number, rows, _):
        """The terms of a cell and the formulas for all cells give the totals of every region."""
        regions = [known for known in self.general if "Σx" in known]
        expect([row[0] for row in rows[2:]] == list(exact.TOTALS), self.at(number), "other totals")
        expect(all(page_cells.is_square(rows[0][1], found) for found in regions), self.at(number), "not the square of a cell")
        for name, term, formula, *_ in rows[2:]:
            right = all(page_cells.gives_ground(name, term.strip("`"), formula.strip("`"), found) for found in regions)
            expect(right, self.at(number), f"not {name} of every region: {term}, {formula}")

    def table_regions(self, number, rows, _):
        """What the call on runs answers for each region, and the centre of its totals."""
        answered = [page_cells.region_row(*row[:2]) for row in rows[2:]]
        expect(rows[2:] == answered, self.at(number), f"the call answers {answered}")
