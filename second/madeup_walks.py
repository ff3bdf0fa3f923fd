"""Pairs of walks from a seeded generator: one edge walked by two people, in step or not, and lists that are refused."""
from figures import COORDINATE_LIMIT, LEAST_POINTS, MOST_POINTS
from inputs import SQUARE
from madeup import random_points
from moves import started_at, walked_backwards
from worked import numbers_of

LEAST_NUMBER, GREATEST_NUMBER = -2 ** 31, 2 ** 31 - 1
OUTSIDE = (COORDINATE_LIMIT + 1, -COORDINATE_LIMIT - 1, 5_000, -65_536, LEAST_NUMBER, GREATEST_NUMBER)
# Walked round and round, these give XY24 32,000,000,000,000 an edge; no round on a grid of 500 decimetres gives more.
GREAT_XY24 = [(2000, 2000), (0, 2000), (-2000, -2000), (0, -2000)]


def named(kind):
    """The name of a function as words."""
    return kind.__name__.replace("_", " ")


def nearby(rng, place):
    """A point up to three decimetres off in x and in y, within the limits."""
    return tuple(max(-COORDINATE_LIMIT, min(COORDINATE_LIMIT, value + rng.randint(-3, 3))) for value in place)


# The second walk, made from the first

def in_step(rng, points):
    """Point by point with the first."""
    return [nearby(rng, place) for place in points]


def out_of_step(rng, points):
    """From another point on."""
    return started_at(in_step(rng, points), rng.randrange(len(points)))


def backwards(rng, points):
    """The other way round, from any point."""
    return walked_backwards(out_of_step(rng, points))


def left_out(rng, points):
    """Some of the first walk's points, in order."""
    kept = rng.sample(range(len(points)), rng.randint(LEAST_POINTS, len(points)))
    return [points[place] for place in sorted(kept)]


def put_in(rng, points):
    """Points between the first walk's, close to one or anywhere."""
    more = list(points)
    for _ in range(rng.randint(1, 5)):
        place = rng.randrange(len(more) + 1)
        more.insert(place, rng.choice([nearby(rng, more[place - 1]), *random_points(rng, COORDINATE_LIMIT, 1, 1)]))
    return more


def repeated(rng, points):
    """Every point at least once, in any order."""
    every = points + rng.choices(points, k=rng.randint(0, 4))
    return rng.sample(every, len(every))


def the_same(_, points):
    """Number for number the first."""
    return list(points)


def one_place_all_along(rng, points):
    """As many points, all in one place of the first walk or in a corner."""
    return [rng.choice(points + SQUARE)] * len(points)


def elsewhere(rng, points):
    """Any points, about as many or few."""
    most = rng.choice([LEAST_POINTS, len(points), len(points) + 2])
    return random_points(rng, rng.choice([2, 300, COORDINATE_LIMIT]), LEAST_POINTS, most)


SECOND_WALKS = (in_step, out_of_step, backwards, left_out, put_in, repeated, the_same, one_place_all_along, elsewhere)


def accepted_pair(rng):
    """Two lists that are accepted, with a name."""
    reach = rng.choice([1, 3, 40, 500, COORDINATE_LIMIT])
    points = random_points(rng, reach, LEAST_POINTS, rng.choice([3, 4, 9, 60]))
    kind = rng.choice(SECOND_WALKS)
    pair = [points, kind(rng, points)]
    rng.shuffle(pair)
    return named(kind), *map(numbers_of, pair)


# Lists that are refused

def odd_length(rng, numbers):
    """One number too many or too few."""
    return rng.choice([numbers + [rng.randint(-9, 9)], numbers[:-1]])


def few_points(rng, numbers):
    """Up to five numbers."""
    return numbers[:rng.randint(0, 5)]


def many_points(rng, numbers):
    """Over 1,024 points, by few or by many."""
    long_list = numbers * (MOST_POINTS + 1)
    return long_list[:2 * MOST_POINTS + rng.choice([1, 2, 2, 3, 4, 2 * MOST_POINTS])]


def outside(rng, numbers):
    """One coordinate past the limits."""
    changed = list(numbers)
    changed[rng.randrange(len(changed))] = rng.choice(OUTSIDE)
    return changed


def outside_and_odd(rng, numbers):
    """A coordinate past the limits in a list of odd length."""
    return odd_length(rng, numbers) + [rng.choice(OUTSIDE)] * 2


def any_numbers(rng, numbers):
    """As many numbers, of 32 bits."""
    return [rng.randint(LEAST_NUMBER, GREATEST_NUMBER) for _ in numbers]


SPOILED = (odd_length, few_points, many_points, outside, outside, outside, outside_and_odd, any_numbers)


def random_pair(rng):
    """One made-up pair: a name and two lists, of which one or both may be refused."""
    name, *lists = accepted_pair(rng)
    for place in rng.choice([(), (), (), (0,), (1,), (0, 1)]):
        spoil = rng.choice(SPOILED)
        lists[place] = spoil(rng, lists[place])
        name += f", {('first', 'second')[place]} {named(spoil)}"
    return name, *lists


# Long lists

def large_pairs(rng):
    """Pairs with a walk of 1,024 points, each with its name."""
    points = random_points(rng, COORDINATE_LIMIT, MOST_POINTS, MOST_POINTS)
    many = numbers_of(points)
    for kind in (backwards, left_out, put_in):
        yield f"1,024 points, {named(kind)}", many, numbers_of(kind(rng, points))
    few = numbers_of(random_points(rng, COORDINATE_LIMIT, LEAST_POINTS, LEAST_POINTS))
    yield "three points and 1,024", few, many
    yield "1,024 points and three", many, few
    yield "1,023 points and 1,024", many[2:], many
    for name, points in (("square", SQUARE), ("great XY24", GREAT_XY24)):
        rounds = points * (MOST_POINTS // len(points))
        yield f"{name}, both ways round", numbers_of(rounds), numbers_of(walked_backwards(rounds))
    yield "far corners", [COORDINATE_LIMIT] * 2 * MOST_POINTS, [-COORDINATE_LIMIT] * 2 * MOST_POINTS
