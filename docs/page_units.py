"""The units on a page: what follows a formula has to be the unit of its first side. See check.py."""
import re
from fractions import Fraction

import exact
from differences import expect

# The power of the decimetre that a name stands for.
POWERS = dict(zip((*exact.TOTALS, *exact.INTEGRANDS), (2, 3, 3, 4, 4, 4) * 2)) | dict.fromkeys(exact.CENTRAL, 4)
POWERS |= dict.fromkeys((*exact.THIRD_TOTALS, *exact.CUBES, *exact.CENTRAL_CUBES), 5)
POWERS |= dict.fromkeys(("exact x", "exact y", "mx", "my", "centre x", "centre y"), 1)
POWERS |= {name: POWERS.get(name.split(" ")[-1], 2) for name in exact.WALKS}
RAISED = {"": 1, "²": 2, "³": 3, "⁴": 4, "⁵": 5}
WITH_UNIT = re.compile(r"`([^`]+)`(?:, in)? (dm|m|ha)([²³⁴⁵]?)(?!\w)")
OTHER_UNIT = re.compile(r" in (m[²³⁴⁵]|ha)$")


def power_of(side):
    """The power of the decimetre in one side of a formula, by what it becomes in lengths twice as long; 0 if it is in none."""
    names = exact.FORMULA_NAME.findall(side)
    once, twice = (exact.value(side, {name: (7 + k) * scale ** POWERS.get(name, 0) for k, name in enumerate(names)}) for scale in (1, 2))
    return next((power for power in RAISED.values() if twice == once * Fraction(2) ** power), 0)


def check(where, line):
    """Each formula that a unit follows begins with a figure in that unit, unless it begins with numbers alone."""
    for span, unit, raised in WITH_UNIT.findall(line):
        side = exact.RELATION.split(span)[0].strip()
        if OTHER_UNIT.search(side):
            expect(side.endswith(f" in {unit}{raised}"), where, f"not in {unit}{raised}: {span}")
        elif exact.FORMULA_NAME.search(side):
            expect((unit, RAISED[raised]) == ("dm", power_of(side)), where, f"not in {unit}{raised}: {span}")
