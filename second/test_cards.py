"""Checks of Ask 9: weights that change in mid-quarter."""

import random
from fractions import Fraction

from amounts import Amount, L
from book import ALL_ZERO_BOOK, NO_PAYOUTS, new_card, open_book, post, refund, settled, totals
from checks import holds, same
from command import CHECK_FAILED
from refusals import Refusal
from reports import Cards
from rerun import Rerun
from test_lines import lines, reports

SOURCE = random.Random(9)


def eur(cents):
    return Amount(0, 2, cents)


def sixteen(*totals):
    return totals + (0,) * (16 - len(totals))


def cards_at_the_desk():
    zeros = " 0" * 13
    lines(f"""
settled -> ! 9
card 1 -> ! 9
card -> ! 9
open 0 5 3 2 -> = open
settled -> = 1 0 0 0{zeros}
post 0 2 9 -> = 9 5 3 1{zeros}
card 2 3 5 -> = card 2
settled -> = 2 5 3 1{zeros}
totals -> = 0 0 0 0{zeros}
refund 0 2 1 -> ! 12
post 0 2 4 -> = 4 1 1 2{zeros}
card 5 3 -> ! 9
card 5 3 2 0 -> ! 9
card 0 0 0 -> ! 9
card 5000 5000 1 -> ! 9
settled -> = 2 5 3 1{zeros}
totals -> = 4 1 1 2{zeros}
card 5000 4999 1 -> = card 3
settled -> = 3 6 4 3{zeros}
post 0 2 {L - 12} -> ! 13
settled 3 -> ?
card x -> ?
open 0 1 -> = open
settled -> = 1 0 0 0{zeros}
""")


def given_books_with_cards():
    """Rows 3, 9 and 10 of the longer record, for every call that takes a book."""
    good = new_card(post(open_book(0, (5, 3, 2))[1], eur(10)).book, (1, 1, 2)).book
    same(good, (0, 3, sixteen(1, 1, 2), 0, 2, sixteen(5, 3, 2)))
    same(open_book(0, (5, 3, 2))[1], (0, 3, sixteen(5, 3, 2), 0, 1, sixteen()))
    same(open_book(21, (5, 3, 2))[1], (0, 0, sixteen(), 0, 0, sixteen()))
    for book, number in (
        (good, None),
        (good._replace(card=1_001), 9),
        (good._replace(card=0), 9),
        (good._replace(card=65_535), 9),
        (good._replace(settled=sixteen(5, 3, 2, 1)), 9),
        (good._replace(settled=(0,) * 15 + (1,)), 9),
        (good._replace(settled=sixteen(0, 0, 0, -1)), 9),
        (good._replace(settled=sixteen(5, 3, -1)), 10),
        (good._replace(settled=sixteen(5, 3, -1), card=0), 9),
        (good._replace(settled=sixteen(-L)), 10),
        (good._replace(settled=sixteen(-L - 1)), 3),
        (good._replace(settled=sixteen(-1, L + 1)), 3),
        (good._replace(settled=sixteen(L)), None),
        (good._replace(settled=sixteen(L, 0, 1)), 3),
        (good._replace(settled=sixteen(L), net=1), 3),
        (good._replace(settled=sixteen(L - 1), net=1), None),
        (good._replace(settled=sixteen(L, -1), net=1), 10),
        (good._replace(settled=sixteen(L + 1), currency=21), 3),
        (good._replace(settled=sixteen(5, 3, 2, 1), currency=21), 4),
        (ALL_ZERO_BOOK, 9),
    ):
        refusal = Refusal(number) if number else None
        for found in (totals(book), settled(book)):
            same(found if isinstance(found, Refusal) else None, refusal)
        for step in (post(book, eur(0)), refund(book, eur(0))):
            same(step, (refusal, book, NO_PAYOUTS))
        step = new_card(book, (1,) * max(book.count, 1))
        same((step.refusal, step.payouts), (refusal, NO_PAYOUTS))
        holds(refusal is None or step.book == book)


def limits_of_cards():
    """1,000 cards and no more; settled totals and N together up to L and no farther."""
    book = open_book(0, (1, 1))[1]
    for number in range(2, 1_001):
        book = new_card(book, (1, 2)).book
        same(book.card, number)
    same(new_card(book, (1, 2)), (Refusal(9), book, NO_PAYOUTS))
    same(new_card(book._replace(net=-1), (1, 2)).refusal, Refusal(9))
    same(new_card(book._replace(net=-1, card=999), (1, 2)).refusal, Refusal(10))
    book = new_card(post(book._replace(card=1), eur(L - 5)).book, (1, 2)).book
    same(post(book, eur(6)).refusal, Refusal(13))
    book = post(book, eur(5)).book
    same((book.net, post(book, eur(1)).refusal, post(book, eur(0)).refusal), (5, Refusal(13), None))
    same(refund(book, eur(6)).refusal, Refusal(12))


def some_card(count):
    weights = [SOURCE.randrange(SOURCE.choice((2, 5, 600))) for _ in range(count)]
    weights[SOURCE.randrange(count)] += 1
    return weights


def laws_of_cards():
    """All cards' totals add to all cards' N, and lie less than c units from the exact sums."""
    for _ in range(60):
        count = SOURCE.randrange(1, 17)
        book = open_book(0, some_card(count))[1]
        exact, all_nets = [Fraction(0)] * 16, 0
        for card in range(1, SOURCE.randrange(2, 9)):
            for _ in range(SOURCE.randrange(4)):
                call = SOURCE.choice((post, post, refund))
                book = call(book, eur(SOURCE.randrange(SOURCE.choice((9, 10**6))))).book
            together = [s + t for s, t in zip(settled(book), totals(book))]
            W = sum(book.weights)
            now = [e + Fraction(book.net * w, W) for e, w in zip(exact, book.weights)]
            same((sum(together), book.card), (all_nets + book.net, card))
            holds(all(abs(t - e) < card for t, e in zip(together, now)))
            exact, all_nets = now, all_nets + book.net
            book = new_card(book, some_card(count)).book
            same((list(settled(book)), totals(book)), (together, NO_PAYOUTS))


PARTS = """book none
lines 0 accepted 1 refused 0 not understood
refused 9 times 1 first 1
book 0 weights 5 3
lines 1 accepted 2 refused 1 not understood
not understood first 5
refused 9 times 1 first 6
refused 12 times 1 first 4
posted 9 refunded 0 net 9
partner 0 weight 5 paid 6 taken 0 total 6 least 5 most 6
partner 1 weight 3 paid 3 taken 0 total 3 least 3 most 4
check ok
card 2 weights 1 1
lines 2 accepted 1 refused 0 not understood
refused 9 times 1 first 10
posted 5 refunded 2 net 3
partner 0 weight 1 paid 3 taken 1 total 2 least 1 most 2
partner 1 weight 1 paid 2 taken 1 total 1 least 1 most 2
check ok
card 3 weights 0 1
lines 0 accepted 0 refused 0 not understood
posted 0 refunded 0 net 0
partner 0 weight 0 paid 0 taken 0 total 0 least 0 most 0
partner 1 weight 1 paid 0 taken 0 total 0 least 0 most 0
check ok
settled 0 cards 3 together 8 least 6 most 8
settled 1 cards 3 together 4 least 4 most 6
check ok
book not understood
lines 0 accepted 2 refused 1 not understood
not understood first 12
refused 9 times 2 first 13
end 14 lines
"""


def parts_of_reports():
    quarter = b"""card 1 1
open 0 5 3
post 0 2 9
refund 0 2 10
settled
card 1
card 1 1
post 0 2 5
refund 0 2 2
card 0 0
card 0 1
%s
card 1 1
post 0 2 1
"""
    for line in (b"card x", b"card 1 1 -", b"card" + b" 1" * 2_000, b" " * 5_000 + b"card 1 1"):
        same(reports(quarter % line), PARTS)
    one_card = reports(b"open 0 5 3\ncard 1\npost 0 2 8\n")
    holds("settled" not in one_card and one_card.count("check ok") == 1)
    for line in (b"Card 1 1", b"cards", b"card\t1 1"):
        holds("book not understood" not in reports(quarter % line))


def last_check_of_cards():
    """Each thing that it asks, failing alone; and the status that it gives."""
    cards = Cards()
    cards.number, cards.net, cards.least[:2], cards.most[:2] = 2, 12, [6, 3], [8, 5]
    same(cards.check([8, 4]), "check ok")
    same(cards.check([7, 5]), "check ok")
    for together, partner in (([9, 3], 0), ([5, 7], 0), ([8, 2], 1), ([6, 6], 1), ([8, 5], 1)):
        same(cards.check(together), f"check FAILED {partner}")
    counting = Rerun([])
    counting.write_all = lambda lines: None
    counting.report.book = new_card(open_book(0, (5, 3))[1], (1, 1)).book
    counting.cards = cards
    counting.end_book()
    same(counting.statuses, {CHECK_FAILED})


CHECKS = (
    ({9}, cards_at_the_desk),
    ({9}, given_books_with_cards),
    ({9}, limits_of_cards),
    ({9}, laws_of_cards),
    ({9}, parts_of_reports),
    ({9}, last_check_of_cards),
)
