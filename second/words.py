"""The words behind a line's verb: what each may be, and what the library's types hold.

A kind takes one word or more of a line and gives their value. Kinds are named in capitals,
as the words of DESK.md are.
"""

import re

from amounts import CURRENCIES, Amount
from asks import landed
from statements import LARGEST_REASON
from texts import AmountText

WHOLE_NUMBER = re.compile(rb"-?[0-9]+")
NUMBER_OF_CODE = {row.code.encode("ascii"): number for number, row in enumerate(CURRENCIES)}
NO_CURRENCY = 255
HEX_DIGITS = re.compile(rb"(?:[0-9a-fA-F]{2}){1,1500}")


class NotUnderstood(Exception):
    """A word that can't stand where it stands, or one that is missing or superfluous."""


class Words:
    """The words behind the verb, taken from the left.

    `by_code` says whether the first currency among them was a code.
    """

    def __init__(self, words):
        self.words = words
        self.taken = 0
        self.by_code = None

    def are_all_taken(self):
        return self.taken == len(self.words)

    def next(self):
        if self.are_all_taken():
            raise NotUnderstood
        self.taken += 1
        return self.words[self.taken - 1]

    def next_number(self):
        return whole_number(self.next())

    def next_currency(self):
        """(the currency's number, whether it is given by a code)."""
        word = self.next()
        is_code = landed(1) and b"A" <= word[:1] <= b"Z"
        if self.by_code is None:
            self.by_code = is_code
        if is_code:
            return NUMBER_OF_CODE.get(word, NO_CURRENCY), True
        return unsigned(8)(whole_number(word)), False


def whole_number(word):
    if WHOLE_NUMBER.fullmatch(word) is None:
        raise NotUnderstood
    return int(word)


def unsigned(bits):
    """What such a type can't hold is passed as its largest value."""
    largest = 2**bits - 1
    return lambda number: number if 0 <= number <= largest else largest


def signed(bits):
    """What is above such a type is passed as its largest value, what is below as its least."""
    least, largest = -(2 ** (bits - 1)), 2 ** (bits - 1) - 1
    return lambda number: max(least, min(number, largest))


def up_to(limit):
    """The places of a lent list: a number over the limit, or below 0, is passed as the limit."""
    return lambda number: number if 0 <= number <= limit else limit


def number(held):
    """A kind of one word: a whole number, as a type holds it."""
    return lambda words: held(words.next_number())


def room(limit):
    return number(up_to(limit))


def CURRENCY(words):
    """A currency's number, or its code."""
    return words.next_currency()[0]


def AMOUNT(words):
    """CUR SCALE COEF, or CODE TEXT, whose text is read when the whole line is understood."""
    currency, by_code = words.next_currency()
    if by_code:
        return AmountText(currency, words.next())
    return Amount(currency, SCALE(words), COEFFICIENT(words))


def TEXT(words):
    """Any bytes but a space."""
    return words.next()


def HEX(words):
    """Bytes: two digits for each, at most 1,500 of them, or `-` for none."""
    word = words.next()
    if word == b"-":
        return b""
    if HEX_DIGITS.fullmatch(word) is None:
        raise NotUnderstood
    return bytes.fromhex(word.decode("ascii"))


def REASON_OF_REFUND(words):
    """A reason code from 0 to 99; no other number can stand there."""
    reason = words.next_number()
    if not 0 <= reason <= LARGEST_REASON:
        raise NotUnderstood
    return reason


def lists(*kinds):
    """A count for each list but the last, then the lists; the last one has the words left."""

    def taken(words):
        counts = [words.next_number() for _ in kinds[:-1]]
        if min(counts) < 0:
            raise NotUnderstood
        found = [[kind(words) for _ in range(count)] for kind, count in zip(kinds, counts)]
        last = []
        while not words.are_all_taken():
            last.append(kinds[-1](words))
        return found + [last]

    return taken


MODE = SCALE = STEP = BASIS = MONTH = DAY = number(unsigned(8))
YEAR = PLACE = REASON = number(unsigned(16))
RATE = WEIGHT = PERIODS = VOUCHERS = number(unsigned(32))
DIVISOR = BITS = START = number(unsigned(64))
COEFFICIENT = NUMERATOR = FACTOR = number(signed(64))
