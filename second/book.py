"""The share book: a net total shared unit by unit, so that no cent drifts."""

from functools import lru_cache
from typing import NamedTuple, Optional

from amounts import (
    L,
    currency_over_20,
    not_at_own_digits,
    over_L,
    scale_over_6,
)
from refusals import Refusal, answer, first_refusal

PARTNERS = 16
LARGEST_WEIGHT_SUM = 10_000
MOST_CARDS = 1_000
NO_PAYOUTS = (0,) * PARTNERS


class Book(NamedTuple):
    """Sixteen weights, those past the count 0. Their sum W isn't a field.

    The card's number and the sixteen settled totals, which are those of the cards before
    it, move by new cards alone: until Ask 9 lands they are 1 and 0 in every opened book.
    """

    currency: int
    count: int
    weights: tuple
    net: int
    card: int = 1
    settled: tuple = NO_PAYOUTS


class Step(NamedTuple):
    """What a posting, a refund or a new card hands back; no refusal where it is accepted."""

    refusal: Optional[Refusal]
    book: Book
    payouts: tuple


ALL_ZERO_BOOK = Book(0, 0, (0,) * PARTNERS, 0, 0, NO_PAYOUTS)


class Pattern:
    """Who gets units 1, 2, ..., W; worked out unit by unit, as far as it is asked for."""

    def __init__(self, weights):
        self.weights = weights
        self.W = sum(weights)
        self.units = [0] * len(weights)
        self.takers = bytearray()

    def taker_of(self, t):
        """The place that takes unit number t, given the units so far."""
        taker = smallest_due = None
        for place, w in enumerate(self.weights):
            a = self.units[place]
            if a * self.W < t * w:
                due = -(-(a + 1) * self.W // w)
                if smallest_due is None or due < smallest_due:
                    taker, smallest_due = place, due
        return taker

    def first_takers(self, number):
        """The takers of at least that many units from the first on."""
        while len(self.takers) < number:
            taker = self.taker_of(len(self.takers) + 1)
            self.units[taker] += 1
            self.takers.append(taker)
        return self.takers


@lru_cache(maxsize=64)
def pattern_of(weights):
    """The pattern is kept for the weights that were asked for lately."""
    return Pattern(weights)


def running_totals(weights, N):
    """Each partner's units among the first N; the pattern repeats after W units."""
    pattern = pattern_of(weights)
    repetitions, rest = divmod(N, pattern.W)
    takers = pattern.first_takers(rest)
    return tuple(
        repetitions * w + takers.count(place, 0, rest) for place, w in enumerate(weights)
    )


def differences(greater, smaller):
    return tuple(high - low for high, low in zip(greater, smaller))


def book_weights_break_rule(count, weights):
    """A count of 1 to 16, those past it 0, none negative, a sum from 1 to 10,000."""
    if not 1 <= count <= PARTNERS or min(weights) < 0 or any(weights[count:]):
        return True
    return not 1 <= sum(weights) <= LARGEST_WEIGHT_SUM


def sixteen_of(weights):
    """A list within its rule as sixteen weights, those past the count 0."""
    return tuple(weights) + (0,) * (PARTNERS - len(weights))


def open_book(currency, weights):
    """(None, the opened book), or (a refusal, the book whose every field is 0)."""
    count = len(weights)
    rows = [
        (4, lambda: currency_over_20(currency)),
        (9, lambda: book_weights_break_rule(count, weights)),
    ]
    refusal = first_refusal(rows)
    if refusal is not None:
        return refusal, ALL_ZERO_BOOK
    return None, Book(currency, count, sixteen_of(weights), 0)


def all_cards_net(book):
    """The settled totals and N together, as signed numbers."""
    return sum(book.settled) + book.net


def totals_over_L(book):
    """Is N, a settled total, or their sum over L?"""
    return any(map(over_L, (book.net, *book.settled))) or all_cards_net(book) > L


def fields_break_rule(book):
    """Its count and weights, its card's number, the settled totals past its count."""
    if not 1 <= book.card <= MOST_CARDS or any(book.settled[book.count :]):
        return True
    return book_weights_break_rule(book.count, book.weights)


def a_total_is_negative(book):
    return min(book.net, *book.settled) < 0


def rows_of_book_and_amount(book, amount):
    """What a posting and a refund refuse alike, of the given book and of the amount."""
    return [
        (2, lambda: scale_over_6(amount.scale) or not_at_own_digits(amount)),
        (3, lambda: over_L(amount.coefficient) or totals_over_L(book)),
        (4, lambda: currency_over_20(amount.currency) or currency_over_20(book.currency)),
        (5, lambda: amount.currency != book.currency),
        (9, lambda: fields_break_rule(book)),
        (10, lambda: amount.coefficient < 0 or a_total_is_negative(book)),
    ]


def post(book, amount):
    """Pays each partner the difference of its running totals at N + A and N.

    Row 13 asks for the settled totals with the new N, and so for the new N too.
    """
    new_net = book.net + amount.coefficient
    rows = rows_of_book_and_amount(book, amount) + [
        (13, lambda: over_L(all_cards_net(book) + amount.coefficient)),
    ]
    refusal = first_refusal(rows)
    if refusal is not None:
        return Step(refusal, book, NO_PAYOUTS)
    after = running_totals(book.weights, new_net)
    before = running_totals(book.weights, book.net)
    return Step(None, book._replace(net=new_net), differences(after, before))


def refund(book, amount):
    """Takes back the difference of the running totals at N and N - A; N is the card's own.

    Row 13 can't hold where row 12 doesn't: the new net total is then 0 to N.
    """
    new_net = book.net - amount.coefficient
    rows = rows_of_book_and_amount(book, amount) + [
        (12, lambda: amount.coefficient > book.net),
    ]
    refusal = first_refusal(rows)
    if refusal is not None:
        return Step(refusal, book, NO_PAYOUTS)
    before = running_totals(book.weights, book.net)
    after = running_totals(book.weights, new_net)
    return Step(None, book._replace(net=new_net), differences(before, after))


def rows_of_book(book, refused_with_9=lambda: False):
    """What is refused of a given book, and what a call refuses with 9 besides."""
    return [
        (3, lambda: totals_over_L(book)),
        (4, lambda: currency_over_20(book.currency)),
        (9, lambda: fields_break_rule(book) or refused_with_9()),
        (10, lambda: a_total_is_negative(book)),
    ]


def card_refused(book, weights):
    """Another count than the book's, a list that breaks the opening's rule, or no card left."""
    if len(weights) != book.count or book.card == MOST_CARDS:
        return True
    return book_weights_break_rule(len(weights), weights)


def new_card(book, weights):
    """Settles the running totals and goes on from N = 0 by new weights; pays sixteen zeros."""
    refusal = first_refusal(rows_of_book(book, lambda: card_refused(book, weights)))
    if refusal is not None:
        return Step(refusal, book, NO_PAYOUTS)
    running = running_totals(book.weights, book.net)
    successor = book._replace(
        weights=sixteen_of(weights),
        net=0,
        card=book.card + 1,
        settled=tuple(before + now for before, now in zip(book.settled, running)),
    )
    return Step(None, successor, NO_PAYOUTS)


def totals(book):
    """The running totals of all sixteen places at the book's net total, or a refusal."""
    return answer(rows_of_book(book), lambda: running_totals(book.weights, book.net))


def settled(book):
    """The settled totals of all sixteen places, or a refusal."""
    return answer(rows_of_book(book), lambda: book.settled)
