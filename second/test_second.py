"""Checks of the second program: document 01's cases and the laws; then the lines and reports."""

import datetime
import operator
import random
import subprocess
import sys

import checks
import test_lines
import test_rerun
from amounts import CURRENCIES, Amount, L, negation_of, order_of, rescaled, sum_of
from asks import WRITTEN, landed
from book import ALL_ZERO_BOOK, NO_PAYOUTS, Book, Pattern, open_book, post, refund, running_totals
from book import totals as totals_of
from checks import holds, same
from dates import FIRST_YEAR, LAST_YEAR, Date, date_exists, day_number, european_days
from euro import convert, euro_step
from interest import interest
from refusals import Refusal
from rounding import HALF_EVEN, HALF_UP, MODE_NAMES, FLOOR, round_quotient, rounded
from sharing import share, shares_of
from tax import tax_from_gross, tax_from_net

EUR, DEM, FRF, IEP, ITL = 0, 2, 4, 5, 6
SOURCE = random.Random(1)

MODE_TABLE = """
UP         6  3  2  2  1 -1 -2 -2 -3 -6
DOWN       5  2  1  1  1 -1 -1 -1 -2 -5
CEILING    6  3  2  2  1 -1 -1 -1 -2 -5
FLOOR      5  2  1  1  1 -1 -2 -2 -3 -6
HALF_UP    6  3  2  1  1 -1 -1 -2 -3 -6
HALF_DOWN  5  2  2  1  1 -1 -1 -2 -2 -5
HALF_EVEN  6  2  2  1  1 -1 -1 -2 -2 -6
"""
COLUMNS_IN_TENTHS = (55, 25, 16, 11, 10, -10, -11, -16, -25, -55)


def eur(cents):
    return Amount(EUR, 2, cents)


def mode_table():
    for row in MODE_TABLE.strip().split("\n"):
        name, *expected = row.split()
        mode = MODE_NAMES.index(name)
        for n, value in zip(COLUMNS_IN_TENTHS, expected):
            same(round_quotient(mode, n, 10), int(value))


def worked_cases_of_conversion():
    same(convert(Amount(DEM, 2, 10000), EUR), eur(5113))
    same(convert(Amount(DEM, 2, 10000), FRF), Amount(FRF, 2, 33538))
    same(euro_step(Amount(DEM, 2, 10000), 3), 51129)
    same(convert(Amount(DEM, 2, 100000000), EUR), eur(51129188))
    same(convert(Amount(ITL, 0, 1000000), EUR), eur(51646))
    same(convert(eur(2), IEP), Amount(IEP, 2, 2))
    same(convert(Amount(IEP, 2, 2), EUR), eur(3))


def worked_cases_of_rates():
    start, end = Date(2023, 2, 28), Date(2023, 3, 31)
    european = 3 if landed(2) else 2
    for basis, days, cents in ((0, 31, 431), (1, 31, 425), (european, 32, 444)):
        same(interest(eur(100000), 500, basis, start, end, HALF_UP), (eur(cents), days))
    same(tax_from_gross(eur(100), 200000, HALF_UP), (17, 83))
    same(tax_from_gross(eur(3), 200000, HALF_UP), (1, 2))
    same(tax_from_net(eur(2), 200000, HALF_UP), (0, 2))


def worked_cases_of_sharing():
    same(shares_of(100, (1, 1, 1)), [34, 33, 33])
    same(shares_of(100, (3, 3, 1)), [43, 43, 14])
    same(shares_of(10, (0, 1, 1, 1)), [0, 4, 3, 3])
    same(shares_of(-100, (3, 3, 1)), [-43, -43, -14])
    same(shares_of(10, (6, 6, 2))[2], 2)
    same(shares_of(11, (6, 6, 2))[2], 1)


def worked_cases_of_the_book():
    same(list(Pattern((5, 3, 2)).first_takers(10)), [0, 1, 0, 2, 0, 1, 0, 1, 0, 2])
    # due numbers are rounded up: 8/5, 16/5, 8/3 and 16/3 become 2, 4, 3 and 6
    same(list(Pattern((1, 2, 5)).first_takers(8)), [2, 1, 2, 2, 2, 0, 1, 2])
    same(list(Pattern((1, 3, 4)).first_takers(8)), [2, 1, 2, 1, 2, 0, 1, 2])
    _, book = open_book(EUR, (5, 3, 2))
    for call, cents, paid in ((post, 7, (4, 2, 1)), (post, 5, (2, 2, 1)), (refund, 3, (1, 1, 1))):
        refusal, book, payouts = call(book, eur(cents))
        same((refusal, payouts), (None, paid + (0,) * 13))
    same(totals_of(book), (5, 3, 1) + (0,) * 13)
    same(refund(book, eur(10)), (Refusal(12), book, NO_PAYOUTS))


def worked_cases_of_refusal():
    leap_day_1900 = Date(1900, 2, 29)
    same(round_quotient(HALF_EVEN, -5, 2), -2)
    same(round_quotient(FLOOR, -5, 2), -3)
    same(round_quotient(FLOOR, -5, 0), Refusal(6))
    same(negation_of(eur(L)), eur(-L))
    same(negation_of(eur(L + 1)), Refusal(3))
    full = post(open_book(EUR, (5, 3, 2))[1], eur(L)).book
    same(post(full, eur(1)).refusal, Refusal(13))
    same(open_book(EUR, (5000, 5000))[0], None)
    same(open_book(EUR, (5000, 5001)), (Refusal(9), ALL_ZERO_BOOK))
    same(interest(eur(1), 0, 0, leap_day_1900, leap_day_1900, 0), Refusal(7, "first"))
    same(interest(eur(1), 0, 0, Date(1900, 2, 28), leap_day_1900, 0), Refusal(7, "second"))
    same(rescaled(Amount(21, 2, 1), 1, 7), Refusal(1))


def amounts_alone():
    same(order_of(Amount(EUR, 1, 15), eur(150)), "equal")
    same(sum_of(Amount(EUR, 1, 15), eur(150)), eur(300))
    same(rescaled(eur(250), 0, HALF_EVEN), Amount(EUR, 0, 2))
    same(sum_of(eur(1), Amount(DEM, 2, 1)), Refusal(5))
    same(len(CURRENCIES), 21)
    holds(all(len(str(row.K)) == 6 for row in CURRENCIES))


def given_books():
    """Rows 3, 4, 9 and 10 for books that no opening makes."""
    good = open_book(EUR, (5, 3, 2))[1]
    past_the_count = (5, 3, 2, 1) + (0,) * 12
    for book, number in (
        (good._replace(net=L + 1), 3),
        (good._replace(net=-L - 1), 3),
        (good._replace(currency=21), 4),
        (good._replace(count=0), 9),
        (good._replace(count=17), 9),
        (good._replace(weights=past_the_count), 9),
        (good._replace(weights=(10_001,) + (0,) * 15), 9),
        (good._replace(weights=(0,) * 16), 9),
        (good._replace(net=-1), 10),
        (Book(21, 0, (0,) * 16, -L - 1), 3),
        (ALL_ZERO_BOOK, 9),
    ):
        same(totals_of(book), Refusal(number))
        same(post(book, eur(1)), (Refusal(number), book, NO_PAYOUTS))
        same(refund(book, eur(0)), (Refusal(number), book, NO_PAYOUTS))


def lent_output():
    lent = [7, 7, 7, 7]
    same((share(eur(100), (3, 3, 1), lent), lent), (None, [43, 43, 14, 7]))
    same((share(eur(100), (1,) * 5, lent), lent), (Refusal(11), [43, 43, 14, 7]))
    same((share(eur(100), (0,) * 5, lent), lent), (Refusal(9), [43, 43, 14, 7]))


def mode_rule(name, n, d, value):
    """What document 01 says of a mode's value, by order and distance."""
    if name == "FLOOR":
        return value * d <= n < (value + 1) * d
    if name == "CEILING":
        return (value - 1) * d < n <= value * d
    if name in ("UP", "DOWN"):
        farther = abs(value * d) - abs(n) if name == "UP" else abs(n) - abs(value * d)
        return value * n >= 0 and 0 <= farther < d
    twice_distance = 2 * abs(value * d - n)
    at_half = {
        "HALF_UP": abs(value * d) > abs(n),
        "HALF_DOWN": abs(value * d) < abs(n),
        "HALF_EVEN": value % 2 == 0,
    }
    return twice_distance < d or (twice_distance == d and at_half[name])


def modes_by_order_and_distance():
    numerators = range(-40, 41)
    for d in range(1, 9):
        for mode, name in enumerate(MODE_NAMES):
            values = [rounded(mode, n, d) for n in numerators]
            same(values, sorted(values))
            holds(all(mode_rule(name, n, d, value) for n, value in zip(numerators, values)))


def calendar():
    """The day numbers against the ordinals of Python's own dates, at the first of each month."""
    before_all = datetime.date(FIRST_YEAR, 1, 1).toordinal() - 1
    for year in range(FIRST_YEAR, LAST_YEAR + 1):
        for month in range(1, 13):
            ordinal = datetime.date(year, month, 1).toordinal()
            same(day_number(Date(year, month, 1)), ordinal - before_all)
    for date in (Date(2000, 2, 29), Date(1900, 1, 1), Date(2199, 12, 31)):
        same(date_exists(date), True)
    for date in (Date(1900, 2, 29), Date(1899, 12, 31), Date(2200, 1, 1), Date(2023, 4, 31)):
        same(date_exists(date), False)
    same(european_days(Date(2023, 1, 31), Date(2023, 3, 31)), 60)


def some_weights(largest_sum):
    count = SOURCE.randrange(1, 17)
    weights = [SOURCE.randrange(largest_sum // count + 1) for _ in range(count)]
    weights[SOURCE.randrange(count)] += not any(weights)
    return tuple(weights)


def some_net_totals(W):
    """All over two repetitions of a short pattern; some of any size for a long one."""
    if W <= 100:
        return range(2 * W + 1)
    return sorted(SOURCE.randrange(SOURCE.choice((W, 3 * W, L))) for _ in range(60))


def laws_of_the_running_totals():
    """Within floor and ceiling, adding to N, monotone, and repeating after W units."""
    for largest_sum in [12] * 60 + [100] * 30 + [10_000] * 5:
        weights = some_weights(largest_sum)
        W = sum(weights)
        before = (0,) * len(weights)
        for N in some_net_totals(W):
            now = running_totals(weights, N)
            assert sum(now) == N and min(map(operator.sub, now, before)) >= 0
            assert all(N * w // W <= t <= -(-N * w // W) for t, w in zip(now, weights))
            before = now
        same(tuple(map(Pattern(weights).first_takers(W).count, range(len(weights)))), weights)


def laws_of_the_book():
    """Paid less taken is the running total at N, whatever the calls were."""
    for _ in range(60):
        refusal, book = open_book(EUR, some_weights(SOURCE.choice((12, 100, 10_000))))
        same(refusal, None)
        balance = NO_PAYOUTS
        for _ in range(40):
            call, sign = SOURCE.choice(((post, 1), (post, 1), (refund, -1)))
            step = call(book, eur(SOURCE.randrange(-1, SOURCE.choice((9, 900, 10**9)))))
            assert step.refusal is None or (step.book, step.payouts) == (book, NO_PAYOUTS)
            assert min(step.payouts) >= 0
            balance = tuple(b + sign * p for b, p in zip(balance, step.payouts))
            book = step.book
        same(balance, totals_of(book))
        same(balance, post(book._replace(net=0), eur(book.net)).payouts)


def laws_of_sharing():
    for _ in range(300):
        weights = some_weights(SOURCE.choice((20, 1_000_000)))
        amount = SOURCE.randrange(-10**5, 10**5)
        shares, W = shares_of(amount, weights), sum(weights)
        same(sum(shares), amount)
        holds(all(abs(s * W - amount * w) < W for s, w in zip(shares, weights)))


def checks_of_asks():
    """The asks are checked in programs of their own, in which they have landed: all, each
    alone, and some that meet."""
    command = [sys.executable, str(test_lines.HERE / "test_asks.py")]
    some = [["1", "9"], ["1", "7", "10"], ["3", "11"], ["3", "9", "13"]]
    return sum(
        int(subprocess.run(command + landing, check=True, stdout=subprocess.PIPE).stdout)
        for landing in [[]] + [[str(ask)] for ask in sorted(WRITTEN)] + some
    )


if __name__ == "__main__":
    mode_table()
    worked_cases_of_conversion()
    worked_cases_of_rates()
    worked_cases_of_sharing()
    worked_cases_of_the_book()
    worked_cases_of_refusal()
    amounts_alone()
    given_books()
    lent_output()
    modes_by_order_and_distance()
    calendar()
    laws_of_the_running_totals()
    laws_of_the_book()
    laws_of_sharing()
    test_lines.ends_of_lines()
    test_lines.byte_order_mark()
    test_lines.openings_at_the_desk()
    test_lines.lines_of_asks()
    test_lines.answers_have_the_right_form()
    test_rerun.report_text()
    test_rerun.openings_that_are_not_understood()
    test_rerun.lines_that_are_no_opening()
    test_rerun.lines_before_any_opening()
    test_rerun.ends_of_reports()
    test_rerun.reading_that_fails()
    test_rerun.checks_of_a_report()
    test_rerun.statuses_of_inputs()
    test_rerun.statuses_of_commands()
    print(f"second: {checks.passed + checks_of_asks()} checks passed")
