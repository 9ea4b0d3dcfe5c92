"""Amounts as text: Ask 1's grammar, its reader and its writer."""

import re
from typing import NamedTuple

from amounts import Amount, currency_over_20, over_L, scale_over_6
from refusals import Refusal, answer, first_refusal

LONGEST_TEXT = 20
# an optional minus, digits without leading zeros, and optionally a point with 1 to 6 digits
GRAMMAR = re.compile(rb"(-?)(0|[1-9][0-9]*)(?:\.([0-9]{1,6}))?")


class AmountText(NamedTuple):
    """A text of a currency that is yet to be read."""

    currency: int
    text: bytes


def text_of(scale, coefficient):
    """The one text of a coefficient at a scale."""
    digits = str(abs(coefficient)).rjust(scale + 1, "0")
    minus = "-" if coefficient < 0 else ""
    if scale == 0:
        return minus + digits
    return f"{minus}{digits[:-scale]}.{digits[-scale:]}"


def scale_and_coefficient(text):
    """What a text of the grammar says, or None for any other."""
    found = GRAMMAR.fullmatch(text) if len(text) <= LONGEST_TEXT else None
    if found is None:
        return None
    minus, whole, decimals = found.groups(default=b"")
    magnitude = int(whole + decimals)
    if minus and magnitude == 0:
        return None
    return len(decimals), -magnitude if minus else magnitude


def read_text(currency, text):
    """The amount of a text in a currency, with the text's scale, or a refusal."""
    said = scale_and_coefficient(text)
    rows = [
        (4, lambda: currency_over_20(currency)),
        (14, lambda: said is None),
        (13, lambda: over_L(said[1])),
    ]
    return answer(rows, lambda: Amount(currency, *said))


def write_text(amount, lent):
    """Writes the amount's text to the front of the lent bytes.

    Gives (None, its length), or (a refusal, 0), which leaves the lent bytes as they stood.
    """
    rows = [
        (2, lambda: scale_over_6(amount.scale)),
        (3, lambda: over_L(amount.coefficient)),
        (4, lambda: currency_over_20(amount.currency)),
        (11, lambda: len(lent) < len(text_of(amount.scale, amount.coefficient))),
    ]
    refusal = first_refusal(rows)
    if refusal is not None:
        return refusal, 0
    text = text_of(amount.scale, amount.coefficient).encode("ascii")
    lent[: len(text)] = text
    return None, len(text)


def with_texts_read(values):
    """The values with an amount in each text's place, or the first refusal from the left."""
    read = []
    for value in values:
        if isinstance(value, AmountText):
            value = read_text(*value)
        if isinstance(value, Refusal):
            return value
        read.append(value)
    return read
