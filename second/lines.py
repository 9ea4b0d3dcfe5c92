"""A line: what its words are, and which lines are understood."""

from typing import Callable, NamedTuple, Optional

from asks import LANDED
from words import AMOUNT, BASIS, BITS, COEFFICIENT, CURRENCY, DAY, DIVISOR, FACTOR, HEX, MODE
from words import MONTH, NUMERATOR, PERIODS, PLACE, RATE, REASON, REASON_OF_REFUND, SCALE, START
from words import STEP, TEXT, VOUCHERS, WEIGHT, YEAR, NotUnderstood, Words, lists, room

DATES = (YEAR, MONTH, DAY, YEAR, MONTH, DAY)


def is_copied(line):
    """Empty lines and comments, which ask for nothing."""
    return not line.too_long and (line.content == b"" or line.content.startswith(b"#"))


class Form(NamedTuple):
    """What stands behind a verb, and what any further words are (None: none are taken)."""

    kinds: tuple
    further: Optional[Callable] = None

    def values(self, words):
        """The values of all the words, as the library's types hold them."""
        found = [kind(words) for kind in self.kinds]
        while self.further is not None and not words.are_all_taken():
            found.append(self.further(words))
        if not words.are_all_taken():
            raise NotUnderstood
        return found


# of a verb's forms no two take the same words
FORMS = {
    b"round": [Form((MODE, NUMERATOR, DIVISOR))],
    b"sum": [Form((AMOUNT, AMOUNT))],
    b"order": [Form((AMOUNT, AMOUNT))],
    b"negate": [Form((AMOUNT,))],
    b"rescale": [Form((AMOUNT, SCALE, MODE))],
    b"convert": [Form((AMOUNT, CURRENCY))],
    b"interest": [Form((AMOUNT, RATE, BASIS) + DATES + (MODE,))],
    b"tax-net": [Form((AMOUNT, RATE, MODE))],
    b"tax-gross": [Form((AMOUNT, RATE, MODE))],
    b"share": [Form((AMOUNT,), further=WEIGHT)],
    b"open": [Form((CURRENCY,), further=WEIGHT)],
    b"post": [Form((AMOUNT,))],
    b"refund": [Form((AMOUNT,))],
    b"totals": [Form(())],
}
FORMS_OF_ASKS = {
    1: {
        b"read": [Form((CURRENCY, TEXT))],
        b"write": [Form((AMOUNT, room(64)))],
    },
    3: {
        b"statement": [Form((CURRENCY, START, room(1_500), lists(PLACE, COEFFICIENT)))],
        b"check": [Form((HEX,))],
    },
    5: {b"net-for": [Form((AMOUNT, RATE, MODE))]},
    6: {b"compound": [Form((AMOUNT, RATE, PERIODS, room(128)))]},
    7: {
        b"round": [Form((MODE, FACTOR, FACTOR, DIVISOR))],
        b"convert": [Form((AMOUNT, CURRENCY, STEP))],
    },
    9: {b"card": [Form((), further=WEIGHT)], b"settled": [Form(())]},
    10: {
        b"row": [Form((CURRENCY, SCALE, MODE, BITS, BITS))],
        b"export": [Form((AMOUNT,))],
    },
    11: {b"view": [Form((HEX,))]},
    12: {b"vouchers": [Form((VOUCHERS, room(80)), further=WEIGHT)]},
    13: {
        b"reasons": [Form((CURRENCY, START, room(1_500), lists(PLACE, REASON, COEFFICIENT)))],
        b"check-any": [Form((HEX,))],
        b"view-any": [Form((HEX,))],
        b"refund": [Form((AMOUNT, REASON_OF_REFUND))],
    },
}
for ask in sorted(LANDED):
    for verb, forms in FORMS_OF_ASKS.get(ask, {}).items():
        FORMS[verb] = FORMS.get(verb, []) + forms


class Asked(NamedTuple):
    """What a line that is understood asks; `by_code`: its first currency was a code."""

    verb: bytes
    values: list
    by_code: bool


def words_of(line):
    """Words are separated by spaces alone; a tab is no space."""
    return [word for word in line.content.split(b" ") if word]


def first_word_is(verb, line):
    """Also asked of a line that is too long, whose front has the whole of a verb."""
    return words_of(line)[:1] == [verb]


def understood(line):
    """What the line asks, or None for a line that is not understood."""
    words = words_of(line)
    if line.too_long or not words:
        return None
    for form in FORMS.get(words[0], []):
        behind = Words(words[1:])
        try:
            values = form.values(behind)
        except NotUnderstood:
            continue
        return Asked(words[0], values, bool(behind.by_code))
    return None
