"""Vouchers by highest average, the rule of D'Hondt."""

from refusals import first_refusal
from sharing import weights_break_rule

MOST_VOUCHERS = 10_000


def taker_of_next(weights, held):
    """The place with the greatest weight / (held + 1); ties go to the lower place."""
    taker = 0
    for place in range(1, len(weights)):
        if weights[place] * (held[taker] + 1) > weights[taker] * (held[place] + 1):
            taker = place
    return taker


def held_after(count, weights):
    """What each holds when that many vouchers were given out, one at a time.

    A weight of 0 never gets one, as another weight is greater: their sum is at least 1.
    """
    held = [0] * len(weights)
    for _ in range(count):
        held[taker_of_next(weights, held)] += 1
    return held


def vouchers(count, weights, lent):
    """Writes what each holds to the front of the lent list and gives None, or a refusal.

    A refusal leaves the lent list as it stood; places past the weights are untouched.
    """
    rows = [
        (6, lambda: not 0 <= count <= MOST_VOUCHERS),
        (9, lambda: weights_break_rule(weights)),
        (11, lambda: len(lent) < len(weights)),
    ]
    refusal = first_refusal(rows)
    if refusal is None:
        lent[: len(weights)] = held_after(count, weights)
    return refusal
