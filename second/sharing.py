"""One-off sharing by largest remainder."""

from amounts import currency_over_20, over_L, scale_over_6
from refusals import first_refusal

MOST_WEIGHTS = 64
LARGEST_WEIGHT_SUM = 1_000_000


def weights_break_rule(weights):
    """Weights are 1 to 64, never negative, with a sum from 1 to 1,000,000."""
    if not 1 <= len(weights) <= MOST_WEIGHTS or min(weights) < 0:
        return True
    return not 1 <= sum(weights) <= LARGEST_WEIGHT_SUM


def shares_of_magnitude(m, weights):
    """Each gets m x weight / W rounded down; the units left go to the largest remainders."""
    W = sum(weights)
    shares = [m * weight // W for weight in weights]
    remainders = [m * weight % W for weight in weights]
    units_left = m - sum(shares)
    largest_first = sorted(range(len(weights)), key=lambda place: (-remainders[place], place))
    for place in largest_first[:units_left]:
        shares[place] += 1
    return shares


def shares_of(coefficient, weights):
    """The shares of the magnitude, with the amount's sign put on."""
    sign = -1 if coefficient < 0 else 1
    return [sign * share for share in shares_of_magnitude(abs(coefficient), weights)]


def share(amount, weights, lent):
    """Writes the shares to the front of the lent list and gives None, or a refusal.

    A refusal leaves the lent list as it stood; places past the weights are untouched.
    """
    rows = [
        (2, lambda: scale_over_6(amount.scale)),
        (3, lambda: over_L(amount.coefficient)),
        (4, lambda: currency_over_20(amount.currency)),
        (9, lambda: weights_break_rule(weights)),
        (11, lambda: len(lent) < len(weights)),
    ]
    refusal = first_refusal(rows)
    if refusal is None:
        lent[: len(weights)] = shares_of(amount.coefficient, weights)
    return refusal
