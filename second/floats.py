"""32-bit floats of CR 9 of document 02, each given by its bits, so that plus zero and minus zero differ.

A Python float has 64 bits and holds every such float exactly.
"""
from fractions import Fraction
from math import isfinite
from struct import pack, unpack

SIGN = 2 ** 31    # the bit of what is below zero
PLUS_ZERO = 0
LARGEST = 0x7F7FFFFF
INFINITY = 0x7F800000
NO_NUMBER = 0x7FC00000    # one of many: infinity with any digits


def value_of(bits):
    """The float with these bits."""
    return unpack("<f", pack("<I", bits))[0]


def bits_of(value):
    """The bits of a float, where 32 bits hold it exactly."""
    bits, = unpack("<I", pack("<f", value))
    assert value_of(bits) == value
    return bits


def is_finite(bits):
    """Neither infinite nor not a number, so not turned back by 33."""
    return isfinite(value_of(bits))


def exact(bits):
    """The exact value of a finite float."""
    return Fraction(value_of(bits))


def outage_refusal(seconds):
    """What 33 and 34 have to say of an outage's seconds, in this order; 0 if nothing.  Minus zero is not below zero."""
    if not is_finite(seconds):
        return 33
    return 34 if value_of(seconds) < 0 else 0
