"""test_asks [ASK ..]: checks of the asks of document 02 as if these had landed, and no other;
where none is given, all that are written here."""

import sys

import asks

# before anything else is imported, since tables are made by what has landed
asks.LANDED = frozenset(map(int, sys.argv[1:])) or asks.WRITTEN

from fractions import Fraction

import checks
import test_cards
import test_doubles
import test_lines
import test_programs
import test_statements
import test_texts
from amounts import Amount, L
from checks import holds, same
from compound import compound
from dates import Date
from euro import convert
from interest import interest
from refusals import Refusal
from rounding import HALF_UP, round_product, round_quotient, rounded
from tax import net_for
from test_lines import HERE, answers, lines
from vouchers import vouchers

EUR = 0


def eur(cents):
    return Amount(EUR, 2, cents)


def american_and_european_months():
    start, end = Date(2023, 2, 28), Date(2023, 3, 31)
    for basis, days, cents in ((0, 31, 431), (1, 31, 425), (2, 33, 458), (3, 32, 444)):
        same(interest(eur(100000), 500, basis, start, end, HALF_UP), (eur(cents), days))
    same(interest(eur(100000), 500, 4, start, end, HALF_UP), Refusal(6))
    for first, second, american, european in (
        (29, 31, 62, 61),
        (30, 31, 60, 60),
        (31, 31, 60, 60),
        (31, 30, 60, 60),
        (31, 29, 59, 59),
        (28, 30, 62, 62),
    ):
        start, end = Date(2023, 1, first), Date(2023, 3, second)
        for basis, days in ((2, american), (3, european)):
            same(interest(eur(0), 0, basis, start, end, HALF_UP), (eur(0), days))
    lines("""
interest 0 2 100000 500 2 2023 2 28 2023 3 31 4 -> = 0 2 458 33
interest 0 2 100000 500 3 2023 2 28 2023 3 31 4 -> = 0 2 444 32
interest 0 2 100000 500 4 2023 2 28 2023 3 31 4 -> ! 6
interest 0 2 100000 500 2 2023 1 24 2024 1 31 4 -> ! 8
interest 0 2 360000 10000 3 2023 1 24 2024 1 31 4 -> = 0 2 366000 366
""")


def nets_of_prices():
    """The only net there is of a gross, found among all that are near; else 15."""
    for mode in range(7):
        for rate in (0, 1, 70_000, 200_000, 333_333, 500_000, 999_999, 1_000_000):
            of_gross = {}
            for net in range(-60, 61):
                gross = net + rounded(mode, net * rate, 1_000_000)
                same(of_gross.setdefault(gross, net), net)
            for gross in range(-60, 61):
                expected = eur(of_gross[gross]) if gross in of_gross else Refusal(15)
                same(net_for(eur(gross), rate, mode), expected)
    lines("""
net-for 0 2 4 200000 4 -> = 0 2 3
net-for 0 2 3 200000 4 -> ! 15
net-for 20 6 -4 200000 4 -> = 20 6 -3
net-for 0 2 99999999999 0 0 -> = 0 2 99999999999
net-for 0 2 -99999999999 1 0 -> = 0 2 -99999899999
net-for 0 2 11 1000000 3 -> ! 15
net-for 0 2 11 1000001 3 -> ! 6
net-for 21 2 11 1000001 3 -> ! 4
""")


def compound_tables():
    """The rows, and the last one against the closed form in whole numbers."""
    lines("""
compound 0 2 10000 500 3 4 -> = 10000 10500 11025 11576
compound 0 2 10000 500 3 6 -> = 10000 10500 11025 11576 -7 -7
compound 0 2 1 5000 1 2 -> = 1 1
compound 0 2 3 5000 1 2 -> = 3 5
compound 0 2 5 5000 1 2 -> = 5 7
compound 0 2 7 500 0 1 -> = 7
compound 0 2 7 500 0 0 -> ! 11
compound 0 2 7 500 3 3 -> ! 11
compound 0 2 7 500 121 128 -> ! 6
compound 0 2 7 10001 3 4 -> ! 6
compound 0 2 -1 500 3 4 -> ! 10
compound 0 2 -1 500 3 3 -> ! 10
compound 21 2 -1 500 3 4 -> ! 4
""")
    lent = [-7] * 8
    same((compound(eur(L), 10_000, 3, lent), lent), (Refusal(13), [-7] * 8))
    tables = ((10**6, 333, 12), (7, 5_000, 20), (12_345, 101, 120), (99, 9_999, 5))
    for coefficient, rate, n in tables:
        lent = [-7] * (n + 2)
        same(compound(eur(coefficient), rate, n, lent), None)
        same((lent[0], lent[-1]), (coefficient, -7))
        exact = coefficient * (10_000 + rate) ** n
        bound = sum((10_000 + rate) ** j * 10_000 ** (n - j) for j in range(n))
        holds(2 * abs(lent[n] * 10_000**n - exact) <= bound)


def products_and_larger_amounts():
    lines("""
round 6 3 5 2 -> = 8
round 3 -3 5 2 -> = -8
round 6 -5 2 -> = -2
round 6 1000000000000000000 -1000000000000000000 1000000000000000000 -> = -1000000000000000000
round 1 1000000000000000000 1000000000000000000 999999999999999999 -> ! 13
round 4 666666666666666667 3 2 -> ! 13
round 5 666666666666666667 3 2 -> = 1000000000000000000
round 6 -666666666666666667 3 2 -> = -1000000000000000000
round 4 0 1000000000000000001 1 -> ! 3
round 4 1000000000000000001 0 0 -> ! 3
round 4 1000000000000000000 1000000000000000000 0 -> ! 6
round 7 1000000000000000001 0 0 -> ! 1
convert 2 2 10000 4 -> = 4 2 33538
convert 2 2 10000 4 3 -> = 4 2 33538
convert 2 2 10000 4 4 -> = 4 2 33539
convert 2 2 10000 4 6 -> = 4 2 33539
convert 2 2 10000 4 2 -> ! 2
convert 2 2 10000 4 7 -> ! 2
convert 0 2 1 0 7 -> ! 2
convert 21 2 1 0 7 -> ! 2
convert 21 2 1 0 6 -> ! 4
negate 0 2 999999999999999 -> = 0 2 -999999999999999
negate 0 2 -1000000000000000 -> ! 3
sum 0 2 999999999999999 0 2 1 -> ! 13
""")
    for step in (3, 4, 5, 6):
        beyond = -(-(10**15 * 195583) // 10 ** (step + 3))
        same(convert(Amount(2, 2, beyond), 14, step), Refusal(13))
    for mode in range(7):
        same(round_product(mode, -5, 1, 2), round_quotient(mode, -5, 2))


def vouchers_by_highest_average():
    lines("""
vouchers 10 3 5 3 2 -> = 5 3 2
vouchers 7 3 53 24 23 -> = 4 2 1
vouchers 4 5 6 12 4 2 -> = 1 3 0 0 77
vouchers 5 4 6 12 4 2 -> = 1 3 1 0
vouchers 1 3 1 1 1 -> = 1 0 0
vouchers 2 3 1 1 1 -> = 1 1 0
vouchers 0 2 5 3 -> = 0 0
vouchers 5 3 6 1 1 -> = 5 0 0
vouchers 10001 1 5 3 -> ! 6
vouchers 10 1 0 0 -> ! 9
vouchers 10 1 -> ! 9
vouchers 10 1 5 3 -> ! 11
vouchers -1 0 -> ! 6
""")
    for weights in ((5, 3, 2), (1, 1, 1), (60,) + (1,) * 39, (0, 7, 0, 7, 3), (999_999, 0, 1)):
        before = [0] * len(weights)
        for count in range(1, 80):
            held = list(before)
            same(vouchers(count, weights, held), None)
            same((sum(held), min(h - b for h, b in zip(held, before))), (count, 0))
            least = min(Fraction(w, h) for w, h in zip(weights, held) if h > 0)
            holds(least >= max(Fraction(w, h + 1) for w, h in zip(weights, held)))
            before = held


def fixed_cases_are_understood():
    """The lines of an ask's fixed cases, but for those that a comment says are not understood."""
    for ask in asks.WRITTEN:
        comment = b""
        cases = (HERE / f"ask{ask}.txt").read_bytes()
        for line, answer in zip(cases.split(b"\n"), answers(cases)):
            if line == b"" or line.startswith(b"#"):
                comment = line
            expected = b"not understood" in comment and line != comment
            same((line, answer == b"?"), (line, expected))


# the asks that must have landed for a check to hold
CHECKS = (
    ({2}, american_and_european_months),
    ({5}, nets_of_prices),
    ({6}, compound_tables),
    ({7}, products_and_larger_amounts),
    ({12}, vouchers_by_highest_average),
    *test_cards.CHECKS,
    *test_texts.CHECKS,
    *test_doubles.CHECKS,
    *test_statements.CHECKS,
    *test_programs.CHECKS,
    (asks.WRITTEN, fixed_cases_are_understood),
    (set(), test_lines.lines_of_asks),
    (set(), lambda: test_lines.answers_have_the_right_form(seeds=1)),
)


if __name__ == "__main__":
    for needed, check in CHECKS:
        if needed <= asks.LANDED:
            check()
    print(checks.passed)
