"""Lists for third moments from a seeded generator: outlines within 500 decimetres of the peg, and lists that are refused."""
from figures import COORDINATE_LIMIT, LEAST_POINTS, MOST_POINTS
from inputs import swapped
from madeup import random_cuts, random_points
from madeup_walks import OUTSIDE, any_numbers, few_points, many_points, named, odd_length, outside, outside_and_odd
from moves import after_cuts, started_at, walked_backwards
from third_moments import THIRD_LIMIT
from worked import numbers_of

LEAST_PAST = THIRD_LIMIT + 1
# Within 2,000, but not within 500.
TOO_FAR = (LEAST_PAST, -LEAST_PAST, 1_000, COORDINATE_LIMIT, -COORDINATE_LIMIT)
LARGEST_SQUARE = [(500, -500), (500, 500), (-500, 500), (-500, -500)]
# Walked round and round, the first gives XXX20 125·10^12 an edge, the second XXY60 156.25·10^12; no round of up to six points
# on a grid of 250 decimetres gives more.
GREAT_XXX20 = [(500, 500), (-500, -500), (-500, 500), (500, -500)]
GREAT_XXY60 = [(500, 500), (-500, 500), (-500, 0), (500, 0)]
GREAT_ROUNDS = {"largest square": LARGEST_SQUARE,
                "great XXX20": GREAT_XXX20, "great YYY20": swapped(GREAT_XXX20),
                "great XXY60": GREAT_XXY60, "great XYY60": swapped(GREAT_XXY60)}


# Outlines, made from any points

def as_they_are(_, points):
    """In the order in which they come: most cross themselves."""
    return points


def from_another_start(rng, points):
    """From any point on."""
    return started_at(points, rng.randrange(len(points)))


def backwards(rng, points):
    """The other way round, from any point."""
    return walked_backwards(from_another_start(rng, points))


def cut_piece(rng, points):
    """One of the pieces that some cuts leave."""
    return rng.choice(after_cuts(points, random_cuts(rng, points)))


def there_and_back(_, points):
    """Every edge once each way: all four are 0."""
    return points + walked_backwards(points)


def figure_eight(_, points):
    """Two triangles that meet in a point, one of them clockwise."""
    (x, y), (p, q) = points[:2]
    return [(x, y), (p, q), (p, y), (x, q)]


def one_place_all_along(rng, points):
    """As many points, all equal."""
    return [rng.choice(points)] * len(points)


def to_the_corners(_, points):
    """Each coordinate at the limit that is nearer."""
    return [(THIRD_LIMIT if x > 0 else -THIRD_LIMIT, THIRD_LIMIT if y > 0 else -THIRD_LIMIT) for x, y in points]


OUTLINES = (as_they_are, as_they_are, from_another_start, backwards, cut_piece, there_and_back, figure_eight,
            one_place_all_along, to_the_corners)


def accepted_list(rng):
    """A list that is accepted, with a name."""
    points = random_points(rng, rng.choice([1, 3, 40, THIRD_LIMIT]), LEAST_POINTS, rng.choice([3, 4, 9, 60]))
    kind = rng.choice(OUTLINES)
    return named(kind), numbers_of(kind(rng, points))


# Lists that are refused

def with_values(rng, numbers, *values):
    """These values in place of others, each in any place."""
    changed = list(numbers)
    for place, value in zip(rng.sample(range(len(changed)), len(values)), values):
        changed[place] = value
    return changed


def too_far(rng, numbers):
    """One coordinate past 500, or several."""
    return with_values(rng, numbers, *rng.choices(TOO_FAR, k=rng.choice([1, 1, 1, 3])))


def too_far_and_outside(rng, numbers):
    """One coordinate past 500, and one past 2,000 before it or behind it."""
    return with_values(rng, numbers, rng.choice(TOO_FAR), rng.choice(OUTSIDE))


def too_far_and_odd(rng, numbers):
    """A coordinate past 500 in a list of odd length."""
    return odd_length(rng, too_far(rng, numbers))


def too_far_and_many(rng, numbers):
    """Coordinates past 500 in a list of over 1,024 points."""
    return many_points(rng, too_far(rng, numbers))


SPOILED = (too_far, too_far, too_far, too_far_and_outside, too_far_and_outside, too_far_and_odd, too_far_and_many,
           outside, outside_and_odd, odd_length, few_points, many_points, any_numbers)


def random_list(rng):
    """One made-up list with its name, as often refused as not."""
    name, numbers = accepted_list(rng)
    if rng.random() < 0.5:
        return name, numbers
    spoil = rng.choice(SPOILED)
    return f"{name}, {named(spoil)}", spoil(rng, numbers)


# Long lists

def large_lists(rng):
    """Lists of 1,024 points, of one less and of one more, each with its name."""
    for name, points in GREAT_ROUNDS.items():
        rounds = points * (MOST_POINTS // len(points))
        yield f"{name}, 256 rounds", numbers_of(rounds)
        yield f"{name}, 256 rounds backwards", numbers_of(walked_backwards(rounds))
    for change in (as_they_are, to_the_corners, one_place_all_along):
        points = change(rng, random_points(rng, THIRD_LIMIT, MOST_POINTS, MOST_POINTS))
        numbers = numbers_of(points)
        yield f"1,024 points, {named(change)}", numbers
        yield f"1,023 points, {named(change)}", numbers[2:]
        yield f"1,025 points, {named(change)}", numbers + numbers[:2]
        for piece in after_cuts(points, random_cuts(rng, points)):
            yield f"a piece of 1,024 points, {named(change)}", numbers_of(piece)
        for value in (*TOO_FAR, *OUTSIDE):
            yield f"1,024 points, the first number {value}", [value, *numbers[1:]]
            yield f"1,024 points, the last number {value}", [*numbers[:-1], value]
        yield "1,024 points, too far and then outside", [LEAST_PAST, *numbers[1:-1], OUTSIDE[0]]
        yield "1,024 points, outside and then too far", [OUTSIDE[0], *numbers[1:-1], LEAST_PAST]
