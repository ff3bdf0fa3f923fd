"""The text program of documents 01 and 02: all of standard input to all of standard output."""
import re

from figures import ACCEPTED, CLOSED_WALK, NEW_SHEET, Kind
from figures import abandon, begin, centre_of_totals, end, point

MOST_LINES = 1_000_000
MOST_BYTES = 33_000_000

BEGIN_LINES = {b"B": Kind.ISLAND, b"B\tH": Kind.HOLE}
# An optional - and one to four digits, no leading zero but 0 itself, no -0.
NUMBER = rb"(0|-?[1-9][0-9]{0,3})"
POINT_LINE = re.compile(rb"P\t" + NUMBER + rb"\t" + NUMBER)


def lines(data):
    """The lines without their newlines, None in place of the one for 10, which is the last.

    The newline counts as the last byte of its line.  A line is 10 if it is line
    1,000,001 or holds byte 33,000,001; nothing is read after it.
    """
    read = data[:MOST_BYTES + 1]
    found = read.split(b"\n", MOST_LINES)
    if found[-1] == b"":
        found.pop()    # nothing comes after the last newline
    if len(found) > MOST_LINES or len(read) > MOST_BYTES:
        found[-1] = None
    return found


def totals_and_centre(totals):
    """The six totals and the centre as fields; a missing centre is - twice."""
    number, x, y = centre_of_totals(totals)
    return [*totals, x, y] if number == ACCEPTED else [*totals, "-", "-"]


def written(*fields):
    """One output line."""
    return "\t".join(map(str, fields)) + "\n"


class TextProgram:
    """"The text program": its walk, its sheet and what it has printed so far."""

    def __init__(self):
        self.walk = CLOSED_WALK
        self.sheet = NEW_SHEET
        self.printed = []

    def refusal(self, line):
        """Carry out one line; answer its refusal number, 0 if accepted.

        10 before 9, 9 before every other number, then the order of each call.
        """
        if line is None:
            return 10
        if line in BEGIN_LINES:
            number, self.walk = begin(self.walk, BEGIN_LINES[line])
        elif line == b"E":
            number = self.end()
        elif line == b"A":
            number, self.walk = abandon(self.walk)
        elif coordinates := POINT_LINE.fullmatch(line):
            number, self.walk = point(self.walk, (int(coordinates[1]), int(coordinates[2])))
        else:
            number = 9
        return number

    def end(self):
        """An accepted end prints its outline."""
        points = self.walk.count
        number, totals, _, self.walk, self.sheet = end(self.walk, self.sheet)
        if number == ACCEPTED:
            self.printed.append(written("O", self.sheet.count, points, *totals_and_centre(totals)))
        return number


def output(data: bytes) -> bytes:
    """All of standard input to all of standard output."""
    program = TextProgram()
    for number, line in enumerate(lines(data), 1):
        refusal = program.refusal(line)
        if refusal != ACCEPTED:
            program.printed.append(f"R\t{number}\t{refusal}\n")
    sheet = program.sheet
    program.printed.append(written("S", sheet.count, *totals_and_centre(sheet.totals)))
    return "".join(program.printed).encode("ascii")
