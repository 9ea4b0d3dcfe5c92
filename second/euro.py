"""Fixed-rate conversion by euro steps (Regulation 1103/97, articles 4 and 5)."""

from amounts import (
    CURRENCIES,
    Amount,
    currency_over_20,
    not_at_own_digits,
    over_L,
    scale_over_6,
)
from refusals import answer
from rounding import HALF_UP, rounded

EURO = 0
EURO_DECIMALS = 2
STEP_DECIMALS = 3
MOST_STEP_DECIMALS = 6


def divided_by_rate(amount, decimals):
    """The euros of an old unit's amount: divided by K / 10^k, rounded to the decimals."""
    row = CURRENCIES[amount.currency]
    n = amount.coefficient * 10**row.k * 10**decimals
    d = row.K * 10**amount.scale
    return rounded(HALF_UP, n, d)


def multiplied_by_rate(euros, decimals, target):
    """The target's units for euros at those decimals: multiplied by K / 10^k, rounded."""
    row = CURRENCIES[target]
    n = euros * row.K * 10**row.digits
    d = 10**row.k * 10**decimals
    return rounded(HALF_UP, n, d)


def euro_step(amount, step):
    """The euro step between two old units, at that many decimals."""
    return divided_by_rate(amount, step)


def has_euro_step(amount, target):
    """Only a conversion from one old unit to another has a euro step."""
    return EURO not in (amount.currency, target) and amount.currency != target


def converted(amount, target, step):
    """The amount in the target currency, at the target's own digits."""
    if amount.currency == target:
        return amount
    if target == EURO:
        coefficient = divided_by_rate(amount, EURO_DECIMALS)
    elif amount.currency == EURO:
        coefficient = multiplied_by_rate(amount.coefficient, EURO_DECIMALS, target)
    else:
        coefficient = multiplied_by_rate(euro_step(amount, step), step, target)
    return Amount(target, CURRENCIES[target].digits, coefficient)


def step_or_result_over_L(amount, target, step):
    if has_euro_step(amount, target) and over_L(euro_step(amount, step)):
        return True
    return over_L(converted(amount, target, step).coefficient)


def scale_or_step_refused(amount, step):
    """The step is asked of every conversion, also of one that has none."""
    if not STEP_DECIMALS <= step <= MOST_STEP_DECIMALS:
        return True
    return scale_over_6(amount.scale) or not_at_own_digits(amount)


def convert(amount, target, step=STEP_DECIMALS):
    """The amount in the target currency, by a step of that many decimals, or a refusal."""
    rows = [
        (2, lambda: scale_or_step_refused(amount, step)),
        (3, lambda: over_L(amount.coefficient)),
        (4, lambda: currency_over_20(amount.currency) or currency_over_20(target)),
        (13, lambda: step_or_result_over_L(amount, target, step)),
    ]
    return answer(rows, lambda: converted(amount, target, step))
