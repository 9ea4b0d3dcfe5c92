"""Compound tables: a principal and its balances, row by row."""

from amounts import currency_over_20, over_L, scale_over_6
from refusals import first_refusal
from rounding import HALF_EVEN, rounded

LARGEST_RATE = 10_000
MOST_PERIODS = 120


def rows_of_table(principal, rate, periods):
    """The principal first; each row is the row before plus its interest, by HALF_EVEN."""
    balances = [principal.coefficient]
    for _ in range(periods):
        balance = balances[-1]
        balances.append(balance + rounded(HALF_EVEN, balance * rate, 10_000))
    return balances


def compound(principal, rate, periods, lent):
    """Writes the table to the front of the lent list and gives None, or a refusal.

    A refusal leaves the lent list as it stood; places past the rows are untouched.
    """
    rows = [
        (2, lambda: scale_over_6(principal.scale)),
        (3, lambda: over_L(principal.coefficient)),
        (4, lambda: currency_over_20(principal.currency)),
        (6, lambda: not 0 <= rate <= LARGEST_RATE or not 0 <= periods <= MOST_PERIODS),
        (10, lambda: principal.coefficient < 0),
        (11, lambda: len(lent) < periods + 1),
        (13, lambda: any(map(over_L, rows_of_table(principal, rate, periods)))),
    ]
    refusal = first_refusal(rows)
    if refusal is None:
        lent[: periods + 1] = rows_of_table(principal, rate, periods)
    return refusal
