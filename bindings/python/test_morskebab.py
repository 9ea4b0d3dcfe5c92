"""Document 01's cases ("Two sides of each line") through the Python module, and what is Python's own. Prints how many checks passed."""
import doctest
import mmap
import multiprocessing
import pathlib
import pickle
import re
import subprocess
import sys
import tempfile
from ctypes import c_bool, c_int64, c_uint8, c_uint32, c_uint64
from decimal import Decimal

import morskebab
from morskebab import _statements
from morskebab import (
    DEM, EUR, FRF, HRK, IEP, ITL, CEILING, DOWN, FLOOR, HALF_DOWN, HALF_EVEN, HALF_UP, UP, L, REASONS,
    ACTUAL_360, ACTUAL_365, THIRTY_360_AMERICAN, THIRTY_360_EUROPEAN,
    Amount, AnyStatement, AnyView, Book, Columns, Date, Moved, Payout, Ran, Reasoned, Refused, Split, Statement, View, check_any, check_statement,
    currency_line, currency_of, day_count, plain_quotient, take_row, vouchers, write_reasons, write_statement,
)
from morskebab._c import PARTNERS, CAmount, CBook, library

passed = 0


def same(got, wanted):
    """Field for field: amounts of one worth are `==` at any scale."""
    global passed
    assert got == wanted and repr(got) == repr(wanted), f"{got!r} is not {wanted!r}"
    passed += 1


def refused(number, call, blamed=0):
    try:
        got = call()
    except Refused as refusal:
        same((refusal.number, refusal.blamed), (number, blamed))
        return
    raise AssertionError(f"{got!r} and not refusal {number}")


def named(error, field, call):
    """The call raises the error, which begins with the field's name."""
    try:
        got = call()
    except error as raised:
        same(str(raised)[: len(field)], field)
        return
    raise AssertionError(f"{got!r} and no {error.__name__} of {field}")


def euros(coefficient, scale=2):
    return Amount(EUR, scale, coefficient)


def modes():
    tenths = (55, 25, 16, 11, 10, -10, -11, -16, -25, -55)
    table = {
        UP: (6, 3, 2, 2, 1, -1, -2, -2, -3, -6),
        DOWN: (5, 2, 1, 1, 1, -1, -1, -1, -2, -5),
        CEILING: (6, 3, 2, 2, 1, -1, -1, -1, -2, -5),
        FLOOR: (5, 2, 1, 1, 1, -1, -2, -2, -3, -6),
        HALF_UP: (6, 3, 2, 1, 1, -1, -1, -2, -3, -6),
        HALF_DOWN: (5, 2, 2, 1, 1, -1, -1, -2, -2, -5),
        HALF_EVEN: (6, 2, 2, 1, 1, -1, -1, -2, -2, -6),
    }
    for mode, row in table.items():
        for n, rounded in zip(tenths, row):
            same(plain_quotient(mode, n, 1, 10), rounded)
    same(plain_quotient(HALF_EVEN, -5, 1, 2), -2)
    same(plain_quotient(FLOOR, -5, 1, 2), -3)
    refused(6, lambda: plain_quotient(FLOOR, -5, 1, 0))
    refused(3, lambda: plain_quotient(UP, 10**18 + 1, 1, 0))
    refused(1, lambda: plain_quotient(7, -(2**63), 1, 0))
    same(plain_quotient(HALF_EVEN, -3, -5, 6), 2)
    same(plain_quotient(UP, 10**18, -(10**18), 10**18), -(10**18))
    refused(13, lambda: plain_quotient(UP, 10**18, 10**18, 10**18 - 1))
    refused(3, lambda: plain_quotient(UP, 1, 10**18 + 1, 0))


def amounts():
    same(euros(15, 1).compare(euros(150)), 0)
    same(euros(-15, 1).compare(euros(-149)), -1)
    same(euros(2, 0).compare(euros(150)), 1)
    refused(5, lambda: euros(15).compare(Amount(DEM, 2, 15)))
    same(euros(15, 1) + euros(25), euros(175))
    refused(13, lambda: euros(L) + euros(1))
    same(-euros(L), euros(-L))
    refused(3, lambda: -euros(L + 1))
    refused(2, lambda: -euros(1, 7))
    refused(4, lambda: -Amount(21, 2, 1))
    same(euros(125).rescale(1, HALF_EVEN), euros(12, 1))
    refused(1, lambda: Amount(21, 2, 1).rescale(1, 7))
    same((euros(15, 1) - euros(25), sum([euros(1), euros(25, 1)])), (euros(125), euros(251)))
    refused(13, lambda: euros(-L) - euros(1))
    refused(3, lambda: euros(1) - euros(-(2**63)))
    refused(2, lambda: euros(1, 7) - euros(L + 1))
    refused(5, lambda: euros(1) - Amount(DEM, 2, 1))
    same((euros(15, 1) == euros(150), hash(euros(15, 1)) == hash(euros(150)), euros(1) == Amount(DEM, 2, 1), euros(1) == 1), (True, True, False, False))
    same((euros(15, 1) <= euros(150), euros(15, 1) < euros(150), euros(2, 0) > euros(150), euros(149) >= euros(15, 1)), (True, False, True, False))
    same(sorted([euros(3), euros(1, 0), euros(-2)]), [euros(-2), euros(3), euros(1, 0)])
    refused(5, lambda: euros(1) < Amount(DEM, 2, 1))


def past_limits():
    """A number past its limit is refused with its own number, and not taken for the one that its last bits are."""
    refused(4, lambda: Amount(DEM, 2, 10000).convert(260))
    refused(4, lambda: -Amount(256, 2, 1))
    refused(4, lambda: -Amount(-1, 2, 1))
    refused(2, lambda: -euros(1, 258))
    refused(2, lambda: euros(1).rescale(-1, UP))
    refused(1, lambda: plain_quotient(262, -5, 1, 2))
    refused(6, lambda: plain_quotient(UP, 1, 1, -1))
    refused(6, lambda: euros(1).tax_as_net(2**32 + 500, UP))
    refused(7, lambda: day_count(ACTUAL_360, Date(67559, 1, 1), Date(2023, 1, 1)), blamed=1)
    refused(4, lambda: Book.open(256, [1]))


def texts_and_decimals():
    same((str(euros(-1250)), str(euros(5, 0)), str(Amount(DEM, 6, -1)), str(euros(0))), ("EUR -12.50", "EUR 5", "DEM -0.000001", "EUR 0.00"))
    for text, amount in (("-12.50", euros(-1250)), ("0.00", euros(0)), ("1E+3", euros(1000, 0)), ("0.000001", euros(1, 6)), ("-0", euros(0, 0))):
        same(Amount.from_decimal(EUR, Decimal(text)), amount)
        same(Amount.from_decimal(EUR, amount.as_decimal()), amount)
    same(euros(-1250).as_decimal(), Decimal("-12.50"))
    refused(2, lambda: -Amount.from_decimal(EUR, Decimal("0.0000001")))
    named(ValueError, "value", lambda: Amount.from_decimal(EUR, Decimal("NaN")))
    named(OverflowError, "value", lambda: Amount.from_decimal(EUR, Decimal("1E+999999999")))
    named(OverflowError, "coefficient", lambda: Amount.from_decimal(EUR, Decimal(2**63)))
    named(TypeError, "value", lambda: Amount.from_decimal(EUR, 12.5))


def parsed():
    for text, scale, coefficient in (
        ("-12.50", 2, -1250), ("0", 0, 0), ("0.000000", 6, 0), ("-0.000001", 6, -1), ("7", 0, 7), ("10.0", 1, 100), ("-0.05", 2, -5), (str(L), 0, L),
    ):
        same(Amount.parse(DEM, text), Amount(DEM, scale, coefficient))
        same(Amount(DEM, scale, coefficient).text(), text)
    for text in ("", "-", "+1", "01", "-0", "-0.0", "1.", ".5", "1.0000000", "1.2.3", " 1", "1,5", "1e3", "1\0", "\u0661", "\ud800", "9" * 21):
        refused(14, lambda text=text: Amount.parse(EUR, text))
    for text in (str(L + 1), "9" * 20, str(2**64), "-" + "9" * 19):
        refused(13, lambda text=text: Amount.parse(EUR, text))
    refused(4, lambda: Amount.parse(21, "x"))
    refused(2, Amount(21, 7, L + 1).text)
    refused(3, Amount(21, 2, L + 1).text)
    refused(4, Amount(21, 2, 1).text)
    same((str(Amount(21, 2, 1)), str(euros(L + 1))), (repr(Amount(21, 2, 1)), repr(euros(L + 1))))
    for currency in range(21):
        amount = Amount(currency, 6, -L)
        same((Amount.from_str(str(amount)), Amount.parse(*str(amount).split())), (amount, amount))
    for number, words in (
        (14, ""), (14, "12.50"), (14, "EUR"), (14, "EUR "), (14, "EUR  1"), (14, "EUR 1 "), (14, "EUR 01"),
        (4, "12.50 EUR"), (4, " 1"), (4, "eur 1"), (4, "XXX 01"), (4, "\u20ac 1"), (13, "EUR " + "9" * 20),
    ):
        refused(number, lambda: Amount.from_str(words))
    refused(4, lambda: Amount.parse("XXX", "1"))
    named(TypeError, "words", lambda: Amount.from_str(5))
    named(TypeError, "currency", lambda: Amount.parse(1.5, "1"))
    named(TypeError, "text", lambda: Amount.parse(EUR, b"1"))
    same([currency_of(currency_line(number).code) for number in range(21)], list(range(21)))
    same([currency_of(code) for code in ("", "EU", "EURO", "eur", "XXX")], [None] * 5)


def fields():
    """An error names the field: a wrong type, a number that C can't hold, a collection without order."""
    named(TypeError, "coefficient must be a whole number, not float", lambda: euros(12.5))
    named(TypeError, "scale", lambda: euros(1, "2"))
    named(TypeError, "mode", lambda: euros(1).rescale(1, None))
    named(TypeError, "year", lambda: Date("2023", 1, 1))
    named(TypeError, "start", lambda: day_count(ACTUAL_360, "2023-01-01", Date(2023, 1, 1)))
    named(TypeError, "basis", lambda: day_count(2, Date(2023, 1, 1), Date(2023, 1, 1)))
    named(TypeError, "amount", lambda: Book(EUR, (1,), 0).post(7))
    named(TypeError, "weights[1]", lambda: euros(1).share([1, 0.5]))
    for weights in ({5, 3, 2}, frozenset([1]), {5: 1}, {5: 1}.keys(), "532", b"532", 5, iter([1])):
        named(TypeError, "weights must be", lambda: euros(1).share(weights))
        named(TypeError, "weights must be", lambda: Book.open(EUR, weights))
        named(TypeError, "weights must be", lambda: Book(EUR, weights, 0))
    named(OverflowError, "coefficient: 9223372036854775808 is outside -9223372036854775808 to", lambda: euros(2**63))
    named(OverflowError, "currency", lambda: Amount(2**31, 2, 1))
    named(OverflowError, "rate", lambda: euros(1).tax_as_net(2**64, UP))
    named(OverflowError, "weights[2]: -1 is outside 0 to 4294967295", lambda: euros(1).share([1, 1, -1]))
    named(OverflowError, "weights: 17", lambda: Book(EUR, (1,) * 17, 0))
    same(Book(EUR, [5, 3, 2], 0), Book(EUR, (5, 3, 2), 0))


def lines():
    """Document 01's table of currencies, letter by letter."""
    table = """EUR 100000 5 2  BEF 403399 4 0  DEM 195583 5 2  ESP 166386 3 0  FRF 655957 5 2  IEP 787564 6 2  ITL 193627 2 0
               LUF 403399 4 0  NLG 220371 5 2  ATS 137603 4 2  PTE 200482 3 0  FIM 594573 5 2  GRD 340750 3 0  SIT 239640 3 2
               CYP 585274 6 2  MTL 429300 6 2  SKK 301260 4 2  EEK 156466 4 2  LVL 702804 6 2  LTL 345280 5 2  HRK 753450 5 2""".split()
    for number in range(21):
        code, *numbers = table[4 * number : 4 * number + 4]
        same(tuple(currency_line(number)), (code, *map(int, numbers)))
        same(getattr(morskebab, code), number)
    same([currency_line(number) for number in (21, 255, 256, -1, 2**40)], [None] * 5)


def euro_steps():
    same(Amount(DEM, 2, 10000).convert(EUR), euros(5113))
    same(Amount(DEM, 2, 10000).convert(FRF), Amount(FRF, 2, 33538))
    same(Amount(DEM, 2, 100000000).convert(EUR), euros(51129188))
    same(Amount(ITL, 0, 1000000).convert(EUR), euros(51646))
    same(euros(2).convert(IEP), Amount(IEP, 2, 2))
    same(Amount(IEP, 2, 2).convert(EUR), euros(3))
    refused(2, lambda: Amount(DEM, 3, 7).convert(EUR))
    refused(13, lambda: Amount(IEP, 2, L).convert(DEM))
    same(Amount(DEM, 2, 10000).convert_by(FRF, 3), Amount(FRF, 2, 33538))
    same(Amount(DEM, 2, 10000).convert_by(FRF, 4), Amount(FRF, 2, 33539))
    refused(2, lambda: Amount(DEM, 2, 10000).convert_by(FRF, 2))
    refused(2, lambda: Amount(DEM, 2, 10000).convert_by(DEM, 7))
    refused(13, lambda: Amount(DEM, 2, 10**12).convert_by(FRF, 6))


def days():
    feb, mar, none = Date(2023, 2, 28), Date(2023, 3, 31), Date(1900, 2, 29)
    bases = (ACTUAL_360, 31, 431), (ACTUAL_365, 31, 425), (THIRTY_360_AMERICAN, 33, 458), (THIRTY_360_EUROPEAN, 32, 444)
    for basis, counted, paid in bases:
        same(day_count(basis, feb, mar), counted)
        same(euros(100000).interest(500, basis, feb, mar, HALF_UP), euros(paid))
    same((Date(2000, 2, 29).exists(), none.exists()), (True, False))
    refused(6, lambda: euros(1).interest(10001, ACTUAL_360, none, none, HALF_UP))
    refused(7, lambda: day_count(ACTUAL_360, none, none), blamed=1)
    refused(7, lambda: day_count(ACTUAL_360, feb, none), blamed=2)
    refused(7, lambda: euros(1).interest(500, ACTUAL_360, feb, none, HALF_UP), blamed=2)
    refused(8, lambda: day_count(ACTUAL_360, mar, feb))


def tables():
    same(euros(10000).compound(500, 3), [euros(10000), euros(10500), euros(11025), euros(11576)])
    same(euros(3).compound(5000, 2), [euros(3), euros(5), euros(7)])
    same((euros(10000).compound(500, 0), euros(10000, 3).compound(0, 2)), ([euros(10000)], [euros(10000, 3)] * 3))
    same(euros(L).compound(0, 120), [euros(L)] * 121)
    same(euros(L // 2).compound(10000, 1), [euros(L // 2), euros(L - 1)])
    refused(13, lambda: euros(L // 2).compound(10000, 2))
    for rate, periods in ((0, 121), (0, -1), (0, 2**32), (10001, 0), (-1, 1)):
        refused(6, lambda: euros(-1).compound(rate, periods))
    refused(10, lambda: euros(-1).compound(500, 3))
    refused(3, lambda: euros(-(2**63)).compound(10001, 121))
    refused(2, lambda: euros(1, 7).compound(0, 1))
    refused(4, lambda: Amount(21, 2, 1).compound(0, 1))
    out = (c_int64 * 6)(*[777] * 6)
    for principal, room, number in ((10000, 3, 11), (L, 6, 13), (-1, 6, 10)):
        same((library.mkb_compound(CAmount(EUR, 2, principal), 500, 3, out, room), out[:]), (number, [777] * 6))
    same((library.mkb_compound(CAmount(EUR, 2, 10000), 500, 3, out, 6), out[:]), (0, [10000, 10500, 11025, 11576, 777, 777]))
    named(TypeError, "periods", lambda: euros(1).compound(0, "3"))
    named(OverflowError, "rate", lambda: euros(1).compound(2**64, 3))


def prices():
    same(euros(100).tax_as_gross(200000, HALF_UP), Split(euros(83), euros(17), euros(100)))
    same(euros(3).tax_as_gross(200000, HALF_UP), Split(euros(2), euros(1), euros(3)))
    same(euros(2).tax_as_net(200000, HALF_UP).gross, euros(2))
    refused(6, lambda: euros(2).tax_as_net(1000001, HALF_UP))
    refused(13, lambda: euros(L).tax_as_net(1000000, HALF_UP))
    same(euros(4).net_for(200000, HALF_UP), Split(euros(3), euros(1), euros(4)))
    same(euros(-4).net_for(200000, HALF_UP), Split(euros(-3), euros(-1), euros(-4)))
    refused(15, lambda: euros(3).net_for(200000, HALF_UP))
    refused(6, lambda: euros(3).net_for(1000001, HALF_UP))
    refused(3, lambda: euros(L + 1).net_for(1000001, HALF_UP))


def rows_of_doubles():
    inf, none, least = float("inf"), float("nan"), 5e-324
    same(take_row(2.675, -2.675, EUR, 2, HALF_UP), Columns(euros(267), euros(-267)))
    same(take_row(0.125, 0.375, EUR, 2, HALF_EVEN), Columns(euros(12), euros(38)))
    same(take_row(0.0, -0.0, EUR, 3, UP), Columns(euros(0, 3), euros(0, 3)))
    same(take_row(least, -least, EUR, 0, UP), Columns(euros(1, 0), euros(-1, 0)))
    same(take_row(float(L), float(-L), EUR, 0, UP), Columns(euros(L, 0), euros(-L, 0)))
    refused(13, lambda: take_row(float(L + 1), 0.0, EUR, 0, DOWN))
    refused(13, lambda: take_row(none, 1e300, EUR, 0, DOWN))
    for column in (none, inf, -inf):
        refused(16, lambda: take_row(column, 1.0, EUR, 2, UP))
        refused(16, lambda: take_row(1.0, column, EUR, 2, UP))
    refused(1, lambda: take_row(none, 1e300, 21, 4, 7))
    refused(2, lambda: take_row(none, 1e300, 21, 4, UP))
    refused(4, lambda: take_row(none, 1e300, 21, 3, UP))
    named(TypeError, "tax", lambda: take_row(1.0, 1, EUR, 2, UP))
    named(TypeError, "scale", lambda: take_row(1.0, 1.0, EUR, 2.0, UP))
    for scale in range(4):
        for coefficient in (0, 1, -1, 267, 2675, 10**9 + 7, L, -L):
            same(euros(coefficient, scale).export(), coefficient / 10**scale)
    refused(2, lambda: Amount(21, 4, L + 1).export())
    refused(3, lambda: Amount(21, 3, L + 1).export())
    refused(4, lambda: Amount(21, 3, 1).export())


def shares():
    same(euros(100).share([1, 1, 1]), (34, 33, 33))
    same(euros(100).share([3, 3, 1]), (43, 43, 14))
    same(euros(10).share([0, 1, 1, 1]), (0, 4, 3, 3))
    same(euros(-100).share([3, 3, 1]), (-43, -43, -14))
    refused(9, lambda: euros(100).share([]))
    refused(9, lambda: euros(100).share([0] * 65))


def handed_out():
    four = [100000, 80000, 30000, 20000]
    same(vouchers(8, four), [4, 3, 1, 0])
    same(vouchers(4, (1, 1, 1)), [2, 1, 1])
    same((vouchers(10000, [0, 1]), vouchers(0, four)), ([0, 10000], [0, 0, 0, 0]))
    for count in (10001, -1, 2**32):
        refused(6, lambda: vouchers(count, four))
    for weights in ([], [0] * 65, [0, 0, 0], [1000000, 1]):
        refused(9, lambda: vouchers(8, weights))
    refused(6, lambda: vouchers(10001, []))
    lent, out = (c_uint32 * 4)(*four), (c_uint32 * 6)(*[777] * 6)
    same((library.mkb_vouchers(8, lent, 4, out, 3), out[:]), (11, [777] * 6))
    same((library.mkb_vouchers(8, lent, 4, out, 6), out[:]), (0, [4, 3, 1, 0, 777, 777]))
    named(TypeError, "count", lambda: vouchers(8.0, four))
    named(TypeError, "weights must be", lambda: vouchers(8, {5, 3}))


def books():
    book = Book.open(EUR, [5, 3, 2])
    same(book, Book(EUR, (5, 3, 2), 0))
    for t, taker in enumerate((0, 1, 0, 2, 0, 1, 0, 1, 0, 2)):
        one = tuple(int(i == taker) for i in range(3))
        same(Book(EUR, (5, 3, 2), t).post(euros(1)), Moved(Book(EUR, (5, 3, 2), t + 1), one))
    book, paid = book.post(euros(7))
    same((book.net, paid), (7, (4, 2, 1)))
    book, paid = book.post(euros(5))
    same((book.net, paid), (12, (2, 2, 1)))
    book, taken = book.refund(euros(3))
    same((book.net, taken), (9, (1, 1, 1)))
    same(book.running_totals(), (5, 3, 1))
    refused(12, lambda: book.refund(euros(10)))
    refused(13, lambda: Book(EUR, (5, 3, 2), L).post(euros(1)))
    refused(10, lambda: book.post(euros(-1)))
    refused(5, lambda: book.post(Amount(DEM, 2, 1)))
    same(Book.open(EUR, [9999, 1]).weights, (9999, 1))
    refused(9, lambda: Book.open(EUR, [10000, 1]))
    refused(4, lambda: Book.open(21, []))
    refused(10, lambda: Book(EUR, (5, 3, 2), -1).running_totals())
    none = (0, 0, 0)
    ran = Book.open(EUR, [5, 3, 2]).run([False, False, True, True, False], [7, 5, 3, 10, L])
    same(ran, Ran(Book(EUR, (5, 3, 2), 9), ((4, 2, 1), (2, 2, 1), (1, 1, 1), none, none), (0, 0, 0, 12, 13)))
    same(book.run([], []), Ran(book, (), ()))
    refused(9, lambda: book.run([False, True], [1]))
    named(TypeError, "refunds[1] must be bool, not int", lambda: book.run([False, 2], [1, 1]))
    named(TypeError, "refunds must be", lambda: book.run({True}, [1]))


def cards():
    book = Book(EUR, (5, 3, 2), 9).new_card([1, 1, 1])
    same(book, Book(EUR, (1, 1, 1), 0, 2, (5, 3, 1)))
    refused(12, lambda: book.refund(euros(1)))
    same(book.post(euros(2)), Moved(Book(EUR, (1, 1, 1), 2, 2, (5, 3, 1)), (1, 1, 0)))
    same(book.run([False], [2]).book.settled, (5, 3, 1))
    refused(9, lambda: book.new_card([1, 1]))
    refused(9, lambda: book.new_card([0, 0, 0]))
    refused(9, lambda: book.new_card([10000, 1, 0]))
    same(Book(EUR, (5, 3, 2), 0, 999).new_card([1, 1, 1]).card, 1000)
    refused(9, lambda: Book(EUR, (5, 3, 2), 0, 1000).new_card([1, 1, 1]))
    for card in (0, 1001, 65537, -1):
        refused(9, lambda: Book(EUR, (5, 3, 2), 0, card).running_totals())
    refused(9, lambda: Book(EUR, (5, 3, 2), 0, 1, (0, 0, 0, 1)).post(euros(1)))
    refused(10, lambda: Book(EUR, (5, 3, 2), 0, 1, (0, -1)).post(euros(1)))
    refused(3, lambda: Book(EUR, (5, 3, 2), 0, 1, (0, L + 1)).post(euros(1)))
    refused(3, lambda: Book(EUR, (5, 3, 2), 10, 1, (L - 9,)).new_card([1, 1, 1]))
    same(Book(EUR, (5, 3, 2), 9, 1, (L - 10,)).post(euros(1)).book.net, 10)
    refused(13, lambda: Book(EUR, (5, 3, 2), 9, 1, (L - 10,)).post(euros(2)))
    named(OverflowError, "settled: 17", lambda: Book(EUR, (1,), 0, 1, (0,) * 17))
    named(TypeError, "weights must be", lambda: book.new_card({1}))


def broken_books():
    """A given book that is broken in one field has document 01's number in every call on it, and comes back field for field."""
    whole = (5, 3, 2)
    for number, currency, count, weights, net in (
        (4, 21, 3, whole, 9), (4, 256, 3, whole, 9), (4, -1, 3, whole, 9), (9, EUR, 0, whole, 9), (9, EUR, 17, whole, 9), (9, EUR, 259, whole, 9),
        (9, EUR, 2, whole, 9), (9, EUR, 3, (5,) + (0,) * 14 + (1,), 9), (9, EUR, 3, (), 9), (9, EUR, 3, (9998, 2, 1), 9),
        (10, EUR, 3, whole, -1), (3, EUR, 3, whole, L + 1), (3, EUR, 3, whole, -L - 1),
    ):
        book = CBook(currency, count, (c_uint32 * PARTNERS)(*weights), net, 1)
        for call in (library.mkb_post, library.mkb_refund):
            r = call(book, CAmount(EUR, 2, 1))
            same((r.refusal, r.blamed, bytes(r.book), any(r.payouts)), (number, 0, bytes(book), False))
        r = library.mkb_running_totals(book)
        same((r.refusal, r.blamed, any(r.totals)), (number, 0, False))
        payouts, numbers = (c_uint64 * PARTNERS)(77), (c_uint8 * 1)(77)
        r = library.mkb_run(book, (c_bool * 1)(), 1, (c_int64 * 1)(1), 1, payouts, PARTNERS, numbers, 1)
        same((r.refusal, r.served, bytes(r.book), payouts[0], numbers[0]), (number, 0, bytes(book), 77, 77))
    refused(4, lambda: Book(21, whole, 9).post(euros(1)))
    refused(9, lambda: Book(EUR, (), 9).refund(euros(1)))
    refused(9, lambda: Book(EUR, (10000, 1), 9).running_totals())
    refused(3, lambda: Book(EUR, whole, L + 1).post(euros(1)))
    refused(10, lambda: Book(EUR, whole, -1).run([], []))


ONE = bytes.fromhex("0200000000000000 1EFBFFFFFFFFFFFF 10000000 01000000 1EFBFFFFFFFFFFFF 0100000000000000")


def statements():
    out = bytearray(b"\xa5" * 64)
    same((write_statement(EUR, [2], [-1250], out), bytes(out)), (40, ONE + b"\xa5" * 24))
    same((check_statement(ONE), check_statement(bytes(7) + ONE)), (Statement(0, 1, -1250), Statement(7, 1, -1250)))
    same((write_statement(HRK, [], [], out, 40), check_statement(out), check_statement(memoryview(out)[:40])), (64, Statement(40, 0, 0), Statement(0, 1, -1250)))
    stood = bytes(out)
    for number, currency, places, coefficients, start in (
        (3, 21, [16], [L + 1], 99), (4, 21, [16], [1], 99), (9, EUR, [16], [1], 99), (9, EUR, [1], [], 99), (9, EUR, [], [1], 0),
        (11, EUR, [1], [1], 25), (11, EUR, [1], [1], -1), (11, EUR, [1], [1], 2**63 - 1),
    ):
        refused(number, lambda: write_statement(currency, places, coefficients, out, start))
        same(bytes(out), stood)
    large = bytearray(64024)
    same(write_statement(DEM, [i % 16 for i in range(4000)], [-L] * 4000, large), 64024)
    same(check_statement(large), Statement(0, 4000, -4000 * L))
    refused(11, lambda: write_statement(DEM, [0] * 4001, [0] * 4001, bytearray(70000)))
    refused(11, lambda: write_statement(DEM, [], [], bytearray()))
    for data in (b"", ONE[:-1], ONE[1:], ONE + b"\0", ONE[:32] + b"\3" + ONE[33:], ONE[:32] + b"\2" + ONE[33:39] + b"\1"):
        refused(14, lambda: check_statement(data))
    # a trailer of version 2 is newer, whatever stands before its version
    for data in (ONE[:32] + b"\2" + ONE[33:], b"\xff" * 16 + b"\2" + bytes(7)):
        refused(17, lambda: check_statement(data))
        refused(17, lambda: View(data))
    named(TypeError, "out", lambda: write_statement(EUR, [1], [1], b"1234"))
    named(TypeError, "data", lambda: check_statement("1234"))
    named(OverflowError, "places[0]", lambda: write_statement(EUR, [65536], [1], out))


def views():
    same(list(View(ONE)), [Payout(2, EUR, -1250)])
    places, coefficients = [i % 16 for i in range(4000)], [L - i if i % 3 else 7 * i - L for i in range(4000)]
    large = bytearray(64100)
    end = write_statement(HRK, places, coefficients, large, 76)
    whole_file = bytes(large)
    for data in (large, whole_file, memoryview(large), memoryview(whole_file)):
        view = View(data)
        same(list(view), [Payout(place, HRK, coefficient) for place, coefficient in zip(places, coefficients)])
        # it has ended, and goes on saying so
        same((list(view), next(view, None), next(view, None)), ([], None, None))
    same((end, sum(payout.coefficient for payout in View(large))), (64100, check_statement(large).sum))
    # two views of the same bytes don't disturb each other, and each keeps hold of its bytes
    first, second = View(ONE + b""), View(bytes(7) + ONE)
    same((next(first), next(second), list(first), list(second)), (Payout(2, EUR, -1250), Payout(2, EUR, -1250), [], []))
    empty = bytearray(24)
    write_statement(DEM, [], [], empty)
    same(list(View(empty)), [])
    for data in (b"", bytearray(), ONE[:-1], ONE[1:], ONE + b"\0", ONE[:32] + b"\3" + ONE[33:]):
        refused(14, lambda: View(data))
    # a buffer that a view holds keeps its size, so that no place of it goes away
    held = bytearray(ONE)
    view = View(held)
    named(BufferError, "", held.clear)
    same(list(view), [Payout(2, EUR, -1250)])
    del view
    held.clear()
    for data in ("1234", [1, 2], None, 5):
        named(TypeError, "data", lambda: View(data))
    same([*View(memoryview(bytes(2) + ONE)[2:])], [Payout(2, EUR, -1250)])
    same([*View(memoryview(bytearray(ONE[::-1]))[::-1])], [Payout(2, EUR, -1250)])
    # a file that is mapped is neither read nor copied whole, and may be written so
    with tempfile.TemporaryFile() as file:
        file.truncate(47)
        with mmap.mmap(file.fileno(), 47) as mapped:
            same((write_statement(EUR, [2], [-1250], mapped, 7), bytes(mapped)[7:], [*View(mapped)]), (47, ONE, [Payout(2, EUR, -1250)]))


TWO = bytes.fromhex("0200000000000000 1EFBFFFFFFFFFFFF 0700000000000000 18000000 01000000 1EFBFFFFFFFFFFFF 0200000000000000")


def reasons():
    out = bytearray(b"\xa5" * 64)
    same((write_reasons(EUR, [2], [7], [-1250], out), bytes(out)), (48, TWO + b"\xa5" * 16))
    same((check_any(TWO), check_any(bytes(7) + TWO), check_any(ONE)), (AnyStatement(2, 0, 1, -1250), AnyStatement(2, 7, 1, -1250), AnyStatement(1, 0, 1, -1250)))
    same((list(AnyView(TWO)), list(AnyView(ONE))), ([Reasoned(2, EUR, -1250, 7)], [Reasoned(2, EUR, -1250, 0)]))
    # the old readers say that it is newer, and never give an amount
    refused(17, lambda: check_statement(TWO))
    refused(17, lambda: View(TWO))
    places, codes, coefficients = [i % 16 for i in range(4000)], [i % 100 for i in range(4000)], [L - i if i % 3 else 7 * i - L for i in range(4000)]
    large = bytearray(96100)
    same(write_reasons(HRK, places, codes, coefficients, large, 76), 96100)
    view = AnyView(large)
    same((view.version, list(view)), (2, [Reasoned(place, HRK, coefficient, code) for place, coefficient, code in zip(places, coefficients, codes)]))
    same((list(view), next(view, None), check_any(large)), ([], None, AnyStatement(2, 76, 4000, sum(coefficients))))
    end = write_statement(HRK, places, coefficients, large)
    old = memoryview(large)[:end]
    view = AnyView(old)
    same((view.version, list(view)), (1, [Reasoned(*payout, 0) for payout in View(old)]))
    stood = bytes(out)
    for number, currency, where, why, what, start in (
        (3, 21, [16], [100], [L + 1], 99), (4, 21, [16], [100], [1], 99), (9, EUR, [16], [1], [1], 99), (9, EUR, [1], [100], [1], 99), (9, EUR, [1], [], [1], 0),
        (9, EUR, [1], [1, 2], [1], 0), (9, EUR, [1], [1], [], 0), (11, EUR, [1], [99], [1], 17), (11, EUR, [1], [0], [1], -1), (11, EUR, [0] * 4001, [0] * 4001, [0] * 4001, 0),
    ):
        refused(number, lambda: write_reasons(currency, where, why, what, out, start))
        same(bytes(out), stood)
    for data in (b"", TWO[:-1], TWO[1:], TWO + b"\0", TWO[:16] + b"\x64" + TWO[17:], TWO[:17] + b"\1" + TWO[18:], TWO[:40] + b"\3" + TWO[41:], TWO[:23] + b"\1" + TWO[24:]):
        refused(14, lambda: check_any(data))
        refused(14, lambda: AnyView(data))
    named(OverflowError, "reasons[0]", lambda: write_reasons(EUR, [1], [-1], [1], out))
    named(TypeError, "data", lambda: check_any("1234"))
    named(TypeError, "out", lambda: write_reasons(EUR, [1], [1], [1], b"1234"))


def a_partner_s_statement():
    """The example, over four statements that stand one behind the other: a book's, an empty one, one in another currency and one with reasons."""
    book, records = Book.open(EUR, [5, 3, 2]), []
    for refund, cents in ((False, 7), (False, 1293), (True, 3)):
        book, moved = book.refund(euros(cents)) if refund else book.post(euros(cents))
        records += [(place, -units if refund else units) for place, units in enumerate(moved) if units]
    data, end = bytearray(1000), 0
    for currency, part in ((EUR, records), (EUR, []), (ITL, [(1, 5000), (2, 7)])):
        end = write_statement(currency, [place for place, _ in part], [units for _, units in part], data, end)
    end = write_reasons(EUR, [1, 1], [0, 42], [5, -5], data, end)
    example = pathlib.Path(__file__).parent / "examples" / "partner.py"
    with tempfile.NamedTemporaryFile() as file:
        def said(content, place):
            pathlib.Path(file.name).write_bytes(content)
            return subprocess.run([sys.executable, example, file.name, str(place)], capture_output=True, text=True)

        whole_file = bytes(data[:end])
        same(said(whole_file, 1).stdout, "EUR 0.02\nEUR 3.88\nEUR -0.01\nITL 5000\nEUR 0.05\nEUR -0.05 reason 42\npartner 1: 6 payouts, EUR 3.89, ITL 5000\n")
        same(book.running_totals()[1], 389)
        same((said(whole_file, 15).stdout, said(b"", 0).stdout), ("partner 15: 0 payouts, nothing\n", "partner 0: 0 payouts, nothing\n"))
        same("refusal 14" in said(b"\0" + whole_file, 1).stderr, True)


def negated(coefficient):
    return -euros(coefficient)


def processes():
    """A refusal passes from one process to another."""
    for number in REASONS:
        for blamed in range(3):
            back = pickle.loads(pickle.dumps(Refused(number, blamed)))
            same((type(back), back.number, back.blamed, str(back)), (Refused, number, blamed, str(Refused(number, blamed))))
    with multiprocessing.Pool(2) as pool:
        same(pool.map(negated, [1, L]), [euros(-1), euros(-L)])
        refused(3, lambda: pool.map(negated, [1, L + 1]))


def versions():
    root = pathlib.Path(__file__).resolve().parents[2]
    header = (root / "bindings" / "c" / "morskebab.h").read_text()
    same((morskebab.__version__, morskebab.VERSION), ((root / "VERSION").read_text().strip(), int(re.search(r"#define MKB_VERSION UINT32_C\((\d+)\)", header)[1])))


def main():
    for part in (modes, amounts, past_limits, texts_and_decimals, parsed, fields, lines, euro_steps, days, tables, prices, rows_of_doubles, shares, handed_out, books, cards, broken_books, statements, views, reasons, a_partner_s_statement, processes, versions):
        part()
    tried = 0
    for module in (morskebab, _statements):
        examples = doctest.testmod(module)
        assert not examples.failed
        tried += examples.attempted
    print(f"python: {passed + tried} checks passed")


if __name__ == "__main__":
    main()
