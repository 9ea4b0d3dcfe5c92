"""Ask 10: a spreadsheet's row of two doubles as amounts, and a coefficient as a double.

A double is given by its 64 bits. Its worth is a whole number times or over a power of
two; no sum or product of doubles is made.
"""

import struct

from amounts import currency_over_20, over_L
from refusals import answer
from rounding import mode_unknown, rounded

LARGEST_SCALE_OF_ROW = 3
FRACTION_BITS = 52
NO_NUMBER_EXPONENT = 2**11 - 1
# the exponent of two that a fraction's last place has where the exponent's bits say 0 or 1
LEAST_POWER = -1074


def is_no_number(bits):
    """An infinity, or not a number."""
    return (bits >> FRACTION_BITS) % 2**11 == NO_NUMBER_EXPONENT


def worth_of(bits):
    """The exact worth of a double that is a number, as (n, d) with a positive d."""
    fraction, exponent = bits % 2**FRACTION_BITS, (bits >> FRACTION_BITS) % 2**11
    mantissa = fraction if exponent == 0 else fraction + 2**FRACTION_BITS
    power = LEAST_POWER + max(exponent, 1) - 1
    n = -mantissa if bits >> 63 else mantissa
    return (n * 2**power, 1) if power >= 0 else (n, 2**-power)


def coefficient_of(bits, scale, mode):
    """The double's exact worth at the scale, rounded once by the mode."""
    n, d = worth_of(bits)
    return rounded(mode, n * 10**scale, d)


def row_of(currency, scale, mode, net, tax):
    """The coefficients of the net and of the tax, or a refusal; the currency is only asked.

    A column that is too large comes before one that is no number.
    """
    numbers = [bits for bits in (net, tax) if not is_no_number(bits)]
    rows = [
        (1, lambda: mode_unknown(mode)),
        (2, lambda: scale > LARGEST_SCALE_OF_ROW),
        (4, lambda: currency_over_20(currency)),
        (13, lambda: any(over_L(coefficient_of(bits, scale, mode)) for bits in numbers)),
        (16, lambda: is_no_number(net) or is_no_number(tax)),
    ]
    return answer(rows, lambda: [coefficient_of(bits, scale, mode) for bits in (net, tax)])


def double_of(amount):
    """The bits of the double nearest to the amount's worth, the even one of two.

    That is the one division: a coefficient within L and a power of ten are doubles without loss.
    """
    return struct.unpack("<Q", struct.pack("<d", amount.coefficient / 10**amount.scale))[0]


def export(amount):
    """The 64 bits of the amount as a double, or a refusal."""
    rows = [
        (2, lambda: amount.scale > LARGEST_SCALE_OF_ROW),
        (3, lambda: over_L(amount.coefficient)),
        (4, lambda: currency_over_20(amount.currency)),
    ]
    return answer(rows, lambda: double_of(amount))
