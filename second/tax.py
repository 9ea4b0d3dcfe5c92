"""Tax in and out of a price."""

from typing import NamedTuple

from amounts import L, currency_over_20, over_L, scale_over_6
from refusals import answer
from rounding import mode_unknown, rounded

MILLION = 1_000_000
LARGEST_RATE = MILLION


class Split(NamedTuple):
    """The tax, and the gross (from net) or the net (from gross): coefficients."""

    tax: int
    other: int


def rows_of_price(price, rate, mode):
    """What both calls refuse of the price, the rate and the mode."""
    return [
        (1, lambda: mode_unknown(mode)),
        (2, lambda: scale_over_6(price.scale)),
        (3, lambda: over_L(price.coefficient)),
        (4, lambda: currency_over_20(price.currency)),
        (6, lambda: not 0 <= rate <= LARGEST_RATE),
    ]


def split_from_net(net, rate, mode):
    """tax = net x r / 1,000,000 rounded by the mode, gross = net + tax."""
    tax = rounded(mode, net.coefficient * rate, MILLION)
    return Split(tax, net.coefficient + tax)


def split_from_gross(gross, rate, mode):
    """tax = gross x r / (1,000,000 + r) rounded by the mode, net = gross - tax."""
    tax = rounded(mode, gross.coefficient * rate, MILLION + rate)
    return Split(tax, gross.coefficient - tax)


def either_over_L(split):
    return over_L(split.tax) or over_L(split.other)


def tax_from_net(net, rate, mode):
    """The tax and the gross of a net price, or a refusal."""
    rows = rows_of_price(net, rate, mode) + [
        (13, lambda: either_over_L(split_from_net(net, rate, mode))),
    ]
    return answer(rows, lambda: split_from_net(net, rate, mode))


def tax_from_gross(gross, rate, mode):
    """The tax and the net of a gross price, or a refusal."""
    rows = rows_of_price(gross, rate, mode) + [
        (13, lambda: either_over_L(split_from_gross(gross, rate, mode))),
    ]
    return answer(rows, lambda: split_from_gross(gross, rate, mode))


def gross_of(net, rate, mode):
    return split_from_net(net, rate, mode).other


def least_net_reaching(gross, rate, mode):
    """The least net within L whose own gross is at least that gross; L where there is none.

    A greater net has a greater gross, since its tax is never less. So this is the only
    one that can have just that gross.
    """
    low, high = -L, L
    while low < high:
        middle = (low + high) // 2
        if gross_of(gross._replace(coefficient=middle), rate, mode) >= gross.coefficient:
            high = middle
        else:
            low = middle + 1
    return gross._replace(coefficient=low)


def net_for(gross, rate, mode):
    """The net whose own gross is exactly that gross, or a refusal.

    Row 13 can't hold: a net is never farther from zero than its gross.
    """

    def net():
        return least_net_reaching(gross, rate, mode)

    rows = rows_of_price(gross, rate, mode) + [
        (15, lambda: gross_of(net(), rate, mode) != gross.coefficient),
    ]
    return answer(rows, net)
