"""Floats of a receiver, by their bits: those where an answer turns, and others from a seeded generator."""
from figures import COORDINATE_LIMIT
from floats import INFINITY, LARGEST, NO_NUMBER, SIGN, bits_of
from receiver import Fix

# Zero, the smallest float, the smallest that is normal; halves and whole numbers about the limits; the last half of all;
# where whole numbers of 32 and of 64 bits end; the largest, infinity, and what is not a number.
SIZES = (0, 1, 0x00800000,
         *map(bits_of, (0.5, 1.0, 1.5, 2.5, 1999.5, 2000.0, 2000.5, 2001.0, 2048.0, 8388607.5, 2.0 ** 24)),
         *map(bits_of, (2.0 ** 31, 2.0 ** 32, 2.0 ** 63, 2.0 ** 64)),
         LARGEST, INFINITY, NO_NUMBER, SIGN - 1)


def neighbours(bits):
    """The patterns before and after, and this one; the last is before the first."""
    return [(bits + step) % (2 * SIGN) for step in (-1, 0, 1)]


def boundaries():
    """The floats of these sizes, their neighbours, and all these with the other sign."""
    return sorted({bits ^ sign for size in SIZES for bits in neighbours(size) for sign in (0, SIGN)})


# One float

def either_sign(rng, size):
    """Above zero as often as below."""
    return size + rng.choice([0, SIGN])


def any_pattern(rng):
    """Any 32 bits."""
    return rng.getrandbits(32)


def near_a_limit(rng):
    """Some patterns from 2,000.5, up or down."""
    return either_sign(rng, bits_of(COORDINATE_LIMIT + 0.5) + rng.randint(-300, 300))


def near_a_half(rng):
    """A few patterns from a half, within the limits or little past them."""
    return either_sign(rng, bits_of(rng.randint(0, COORDINATE_LIMIT + 3) + 0.5) + rng.randint(-3, 3))


def whole_number(rng):
    """A whole number, within the limits or little past them."""
    return either_sign(rng, bits_of(float(rng.randint(0, COORDINATE_LIMIT + 3))))


def of_any_size(rng):
    """Within the limits, as often near zero as far from it."""
    return either_sign(rng, rng.randrange(bits_of(float(COORDINATE_LIMIT))))


def infinite_or_no_number(rng):
    """Infinite or not a number, with any of its digits."""
    return either_sign(rng, INFINITY + rng.choice([0, 1, NO_NUMBER - INFINITY, rng.randrange(2 ** 23)]))


FLOATS = (any_pattern, near_a_limit, near_a_half, near_a_half, whole_number, of_any_size)


def random_float(rng):
    """One float: of any kind, but seldom such that 33 alone would answer."""
    return rng.choice(FLOATS if rng.random() < 0.97 else [infinite_or_no_number])(rng)


def random_fix(rng):
    """Two of them."""
    return Fix(random_float(rng), random_float(rng))
