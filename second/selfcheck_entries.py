"""Checks of lists of calls with a receiver's entries, run by selfcheck.py: document 02, CR 9.  Made-up lists beside a trace of
what was told, and the rows of worked_entries.py.
"""
from collections import Counter

from checks import check
from figures import CLOSED_WALK, NEW_SHEET, ZERO_TOTALS, Kind, begin, end, list_call, negated
from floats import INFINITY, SIGN, bits_of, value_of
from madeup_receiver import random_fix, random_float
from receiver import Outage, entry
from selfcheck_receiver import point_by_fields
from worked import numbers_of
from worked_entries import call_rows, full_rows

MADE_UP_LISTS, CALLS = 100, 120
# Calls with their numbers.
ANSWERS = {("fix", 0), ("fix", 1), ("fix", 21), ("fix", 33), ("outage", 0), ("outage", 21), ("outage", 33), ("outage", 34),
           ("begin", 0), ("begin", 22), ("end", 0), ("end", 21), ("end", 24), ("end", 32)}


class Trace:
    """What calls have told since begin, apart from any walk."""

    def __init__(self):
        self.kind, self.points, self.seconds = None, [], [0.0]

    def begin(self, kind):
        """The number of a begin, and what it leaves."""
        if self.kind is not None:
            return 22
        self.kind, self.points, self.seconds = kind, [], [0.0]
        return 0

    def fix(self, fix):
        """The number of a fix; an accepted one is a point."""
        number, *place = point_by_fields(fix)
        if self.kind is None or number != 0:
            return 21 if self.kind is None else number
        self.points.append(tuple(place))
        return 0

    def outage(self, bits):
        """The number of an outage; an accepted one is kept."""
        if self.kind is None or bits % SIGN >= INFINITY:
            return 21 if self.kind is None else 33
        if bits > SIGN:
            return 34
        self.seconds.append(value_of(bits))
        return 0

    def end(self):
        """Number, totals and longest outage of an end, by the call on a whole list."""
        totals = list_call(numbers_of(self.points))[1]
        number = 21 if self.kind is None else 24 if len(self.points) < 3 else 32 if totals.a2 == 0 else 0
        if number != 0:
            return number, ZERO_TOTALS, 0
        wrong_sign = (totals.a2 > 0) == (self.kind is Kind.HOLE)
        self.kind = None
        return 0, negated(totals) if wrong_sign else totals, bits_of(max(self.seconds))


def check_entry_lists(rng):
    """Made-up lists of calls: numbers, points and the longest outage are those of the trace."""
    met = Counter()
    for _ in range(MADE_UP_LISTS):
        walk, trace = CLOSED_WALK, Trace()
        for call in rng.choices(["fix", "outage", "begin", "end"], [10, 5, 3, 2], k=CALLS):
            if call == "fix":
                fix = random_fix(rng)
                (number, walk), wanted = entry(walk, fix), trace.fix(fix)
            elif call == "outage":
                bits = random_float(rng)
                (number, walk), wanted = entry(walk, Outage(bits)), trace.outage(bits)
            elif call == "begin":
                kind = rng.choice(list(Kind))
                (number, walk), wanted = begin(walk, kind), trace.begin(kind)
            else:
                number, *answered, walk, _ = end(walk, NEW_SHEET)
                wanted, *wanted_answer = trace.end()
                check("answered by end", answered, wanted_answer)
            check(call, (number, walk.is_open), (wanted, trace.kind is not None))
            if walk.is_open:
                check("the greatest of plus zero and these", walk.longest_outage, bits_of(max(trace.seconds)))
                check("points", (walk.count, walk.last), (len(trace.points), (trace.points or [(0, 0)])[-1]))
            met[call, number] += 1
    check("each number met", {answer for answer, times in met.items() if times >= 10} | {("end", 32)}, ANSWERS)


def check_entry_rows():
    """The rows of worked_entries.py have every number that they are for, and ends with several longest outages."""
    rows = list(call_rows())
    check("numbers of the rows", {(row[2], row[3]) for row in rows}, ANSWERS)
    check("several outages", len({row[-1] for row in rows if row[2:4] == ["end", 0]}) >= 5, True)
    check("refused ends of walks with an outage", any(row[2] == "end" and row[3] != 0 and row[5] != 0 for row in rows), True)
    *refused, outage, ended = (row[1:] for row in full_rows())
    check("full, fixes", refused, [["fix", number, 1024, 0] for number in (23, 1, 33)])
    check("full, outage", outage, ["outage", 0, 1024, 0x40A00000])
    check("full, end", ended, ["end", 0, 0, 0, 8192000000, 0, 0, 65536000000000000, 0, 65536000000000000, 0x40A00000])
