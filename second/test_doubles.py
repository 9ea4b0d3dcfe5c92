"""Checks of Ask 10: rows of doubles."""

import math
import random
import struct
from fractions import Fraction

from amounts import Amount, L
from checks import holds, same
from doubles import export, row_of, worth_of
from refusals import Refusal
from rounding import HALF_EVEN, HALF_UP, rounded
from test_lines import lines

SOURCE = random.Random(10)
INFINITY, NO_NUMBER = 0x7FF0000000000000, 0x7FF8000000000000


def bits_of(number):
    return struct.unpack("<Q", struct.pack("<d", number))[0]


def number_of(bits):
    return struct.unpack("<d", struct.pack("<Q", bits))[0]


def worked_rows():
    """2.675 is less than its decimal, 0.125 a half of the scale's unit."""
    same(row_of(0, 2, HALF_UP, bits_of(2.675), bits_of(0.125)), [267, 13])
    same(row_of(0, 2, HALF_EVEN, bits_of(2.675), bits_of(0.125)), [267, 12])
    same(row_of(20, 3, HALF_EVEN, bits_of(2.675), bits_of(-0.125)), [2675, -125])
    same(row_of(0, 2, 0, bits_of(0.0), bits_of(-0.0)), [0, 0])
    same(row_of(0, 0, 0, 1, 2**63 + 1), [1, -1])
    same(row_of(0, 0, 3, 1, 2**63 + 1), [0, -1])
    same(bits_of(2.675), 0x4005666666666666)
    lines(f"""
row 0 2 4 {0x4005666666666666} {0x3FC0000000000000} -> = 267 13
row 0 2 6 {0x4005666666666666} {0x3FC0000000000000} -> = 267 12
row 0 2 6 0 {2**63} -> = 0 0
row 0 2 6 {2**64} 0 -> ! 16
row 0 2 6 -1 0 -> ! 16
row 0 2 6 0 -> ?
export 0 0 3 -> = {0x4008000000000000}
export 0 1 15 -> = {0x3FF8000000000000}
export 0 2 -10 -> = {0xBFB999999999999A}
export 0 3 0 -> = 0
""")


def rows_of_refusals():
    one, large = bits_of(1.0), bits_of(1e300)
    for asked, number in (
        ((21, 4, 7, NO_NUMBER, large), 1),
        ((21, 4, 6, NO_NUMBER, large), 2),
        ((21, 3, 6, NO_NUMBER, large), 4),
        ((20, 3, 6, NO_NUMBER, large), 13),
        ((20, 3, 6, large, INFINITY), 13),
        ((20, 3, 6, one, large), 13),
        ((20, 3, 6, NO_NUMBER, one), 16),
        ((20, 3, 6, one, INFINITY), 16),
        ((20, 3, 6, 2**63 + INFINITY, INFINITY), 16),
        ((20, 3, 6, one, 2**64 - 1), 16),
    ):
        same(row_of(*asked), Refusal(number))
    same(row_of(20, 3, 6, one, one), [1000, 1000])
    for amount, number in (
        (Amount(21, 4, L + 1), 2),
        (Amount(21, 3, L + 1), 3),
        (Amount(21, 3, -L - 1), 3),
        (Amount(21, 3, L), 4),
    ):
        same(export(amount), Refusal(number))


def rows_about_L():
    for sign in (1, -1):
        same(row_of(0, 0, 4, bits_of(sign * float(L)), 0), [sign * L, 0])
        same(row_of(0, 0, 4, bits_of(sign * (L + 0.25)), 0), [sign * L, 0])
        same(row_of(0, 0, 5, bits_of(sign * (L + 0.5)), 0), [sign * L, 0])
        same(row_of(0, 0, 4, 0, bits_of(sign * (L + 0.5))), Refusal(13))
        same(row_of(0, 0, 1, 0, bits_of(sign * (L + 1.0))), Refusal(13))


def some_bits():
    kind = SOURCE.randrange(4)
    if kind == 0:
        return SOURCE.randrange(2**64)
    worth = SOURCE.choice((SOURCE.random(), SOURCE.randrange(10**9)))
    worth *= SOURCE.choice((1, 0.5, 0.01))
    return bits_of(SOURCE.choice((1, -1)) * worth)


def rows_by_fractions():
    """Against the exact fraction of Python's own doubles."""
    for _ in range(2000):
        scale, mode, bits = SOURCE.randrange(4), SOURCE.randrange(7), some_bits()
        number, found = number_of(bits), row_of(0, scale, mode, bits, 0)
        if not math.isfinite(number):
            same(found, Refusal(16))
            continue
        exact = Fraction(number)
        same(Fraction(*worth_of(bits)), exact)
        at_scale = exact * 10**scale
        expected = rounded(mode, at_scale.numerator, at_scale.denominator)
        same(found, [expected, 0] if abs(expected) <= L else Refusal(13))


def exports():
    """Nearest to the worth, the even one of two; exact at scale 0; and back again."""
    for _ in range(1000):
        scale = SOURCE.randrange(4)
        coefficient = SOURCE.choice((1, -1)) * SOURCE.randrange(10 ** SOURCE.choice((2, 6, 11)))
        bits = export(Amount(0, scale, coefficient))
        exact = Fraction(coefficient, 10**scale)
        distance = abs(Fraction(number_of(bits)) - exact)
        holds(distance == 0 if scale == 0 else True)
        for beside in (bits - 1, bits + 1) if coefficient else ():
            farther = abs(Fraction(number_of(beside)) - exact)
            holds(distance < farther or (distance == farther and bits % 2 == 0))
        same(row_of(0, scale, HALF_EVEN, bits, 0), [coefficient, 0])
    for scale in range(4):
        for coefficient in (L, -L, L - 1):
            bits = export(Amount(0, scale, coefficient))
            same(row_of(0, scale, HALF_UP, bits, bits), [coefficient, coefficient])


def rows_in_texts():
    two = f"{0x4005666666666666} {0x3FC0000000000000}"
    lines(f"""
row EUR 2 4 {two} -> = 2.67 0.13
row EUR 0 4 {two} -> = 3 0
row ITL 3 4 {two} -> = 2.675 0.125
row XXX 3 4 {two} -> ! 4
row EUR 4 4 {two} -> ! 2
export EUR 1.5 -> = {0x3FF8000000000000}
export EUR 1.5000 -> ! 2
export EUR 01.5 -> ! 14
""")


CHECKS = (
    ({10}, worked_rows),
    ({10}, rows_of_refusals),
    ({10}, rows_about_L),
    ({10}, rows_by_fractions),
    ({10}, exports),
    ({1, 10}, rows_in_texts),
)
