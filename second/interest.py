"""Simple interest over days."""

from typing import NamedTuple

from amounts import Amount, currency_over_20, over_L, scale_over_6
from dates import BASES, date_exists
from refusals import answer
from rounding import mode_unknown, rounded

LARGEST_RATE = 10_000
LARGEST_DAY_COUNT = 366


class Interest(NamedTuple):
    """The interest, and the days that the basis counts."""

    amount: Amount
    days: int


def rate_or_basis_outside(rate, basis):
    return not 0 <= rate <= LARGEST_RATE or basis not in range(len(BASES))


def span_refused(basis, start, end):
    """Is the end before the start, or the basis's day count over 366?"""
    return end < start or BASES[basis].days(start, end) > LARGEST_DAY_COUNT


def interest_over(principal, rate, basis, start, end, mode):
    """principal x rate x days / (10,000 x year), rounded once at the principal's scale."""
    days = BASES[basis].days(start, end)
    n = principal.coefficient * rate * days
    d = 10_000 * BASES[basis].year
    coefficient = rounded(mode, n, d)
    return Interest(principal._replace(coefficient=coefficient), days)


def interest(principal, rate, basis, start, end, mode):
    """The interest and the days counted, or a refusal."""

    def value():
        return interest_over(principal, rate, basis, start, end, mode)

    rows = [
        (1, lambda: mode_unknown(mode)),
        (2, lambda: scale_over_6(principal.scale)),
        (3, lambda: over_L(principal.coefficient)),
        (4, lambda: currency_over_20(principal.currency)),
        (6, lambda: rate_or_basis_outside(rate, basis)),
        (7, lambda: not date_exists(start), "first"),
        (7, lambda: not date_exists(end), "second"),
        (8, lambda: span_refused(basis, start, end)),
        (13, lambda: over_L(value().amount.coefficient)),
    ]
    return answer(rows, value)
