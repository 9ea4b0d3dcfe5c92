"""Amounts, the table of currencies, and what is done with amounts alone."""

from typing import NamedTuple

from asks import landed
from refusals import answer
from rounding import mode_unknown, rounded

L = 999_999_999_999_999 if landed(7) else 99_999_999_999
LARGEST_SCALE = 6


class Currency(NamedTuple):
    """K / 10^k old units are one euro; digits is the currency's own scale."""

    code: str
    K: int
    k: int
    digits: int


CURRENCIES = (
    Currency("EUR", 100000, 5, 2),
    Currency("BEF", 403399, 4, 0),
    Currency("DEM", 195583, 5, 2),
    Currency("ESP", 166386, 3, 0),
    Currency("FRF", 655957, 5, 2),
    Currency("IEP", 787564, 6, 2),
    Currency("ITL", 193627, 2, 0),
    Currency("LUF", 403399, 4, 0),
    Currency("NLG", 220371, 5, 2),
    Currency("ATS", 137603, 4, 2),
    Currency("PTE", 200482, 3, 0),
    Currency("FIM", 594573, 5, 2),
    Currency("GRD", 340750, 3, 0),
    Currency("SIT", 239640, 3, 2),
    Currency("CYP", 585274, 6, 2),
    Currency("MTL", 429300, 6, 2),
    Currency("SKK", 301260, 4, 2),
    Currency("EEK", 156466, 4, 2),
    Currency("LVL", 702804, 6, 2),
    Currency("LTL", 345280, 5, 2),
    Currency("HRK", 753450, 5, 2),
)


class Amount(NamedTuple):
    """Worth coefficient / 10^scale in the currency of that number."""

    currency: int
    scale: int
    coefficient: int


def over_L(number):
    """Has the number a magnitude over L?"""
    return abs(number) > L


def scale_over_6(scale):
    return not 0 <= scale <= LARGEST_SCALE


def currency_over_20(currency):
    return not 0 <= currency < len(CURRENCIES)


def not_at_own_digits(amount):
    """Is the amount in a known currency, but not at that currency's own digits?"""
    if currency_over_20(amount.currency):
        return False
    return amount.scale != CURRENCIES[amount.currency].digits


def coefficient_at(amount, scale):
    """The amount's coefficient at a scale that isn't smaller; exact."""
    return amount.coefficient * 10 ** (scale - amount.scale)


def both_at_greater_scale(one, other):
    """The greater of the two scales, and both coefficients at it."""
    scale = max(one.scale, other.scale)
    return scale, coefficient_at(one, scale), coefficient_at(other, scale)


def rows_of_two(one, other):
    """What both calls on two amounts of the same currency refuse."""
    return [
        (2, lambda: scale_over_6(one.scale) or scale_over_6(other.scale)),
        (3, lambda: over_L(one.coefficient) or over_L(other.coefficient)),
        (4, lambda: currency_over_20(one.currency) or currency_over_20(other.currency)),
        (5, lambda: one.currency != other.currency),
    ]


def exact_sum(one, other):
    scale, first, second = both_at_greater_scale(one, other)
    return Amount(one.currency, scale, first + second)


def sum_of(one, other):
    """The exact sum at the greater of the two scales, or a refusal."""
    rows = rows_of_two(one, other) + [
        (13, lambda: over_L(exact_sum(one, other).coefficient)),
    ]
    return answer(rows, lambda: exact_sum(one, other))


def order_by_worth(one, other):
    _, first, second = both_at_greater_scale(one, other)
    if first == second:
        return "equal"
    return "less" if first < second else "greater"


def order_of(one, other):
    """'less', 'equal' or 'greater', by worth, or a refusal."""
    return answer(rows_of_two(one, other), lambda: order_by_worth(one, other))


def negation_of(amount):
    """The amount with the other sign, or a refusal."""
    rows = [
        (2, lambda: scale_over_6(amount.scale)),
        (3, lambda: over_L(amount.coefficient)),
        (4, lambda: currency_over_20(amount.currency)),
    ]
    return answer(rows, lambda: amount._replace(coefficient=-amount.coefficient))


def at_new_scale(amount, scale, mode):
    """Exact to a greater scale, rounded by the mode to a smaller one."""
    if scale >= amount.scale:
        coefficient = coefficient_at(amount, scale)
    else:
        coefficient = rounded(mode, amount.coefficient, 10 ** (amount.scale - scale))
    return Amount(amount.currency, scale, coefficient)


def rescaled(amount, scale, mode):
    """The amount at another scale, or a refusal."""
    rows = [
        (1, lambda: mode_unknown(mode)),
        (2, lambda: scale_over_6(amount.scale) or scale_over_6(scale)),
        (3, lambda: over_L(amount.coefficient)),
        (4, lambda: currency_over_20(amount.currency)),
        (13, lambda: over_L(at_new_scale(amount, scale, mode).coefficient)),
    ]
    return answer(rows, lambda: at_new_scale(amount, scale, mode))
