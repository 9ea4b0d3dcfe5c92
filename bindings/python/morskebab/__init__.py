"""Morskebab for Python: money arithmetic whose every function is proved to keep its promise.

An accepted call returns its value; a refused one raises `Refused` with document 01's number and the date that it blames. A value that is no
whole number raises TypeError, and one that its C type can't hold OverflowError; both name the field.

    >>> from morskebab import Amount, Book, DEM, EUR
    >>> Amount(DEM, 2, 10000).convert(EUR)
    Amount(currency=0, scale=2, coefficient=5113)
    >>> book = Book.open(EUR, [5, 3, 2])
    >>> book, payouts = book.post(Amount(EUR, 2, 7))
    >>> payouts
    (4, 2, 1)
    >>> print(sum([Amount(EUR, 2, 150), Amount(EUR, 1, 25)]))
    EUR 4.00
    >>> Amount.parse(EUR, "-12.50")
    Amount(currency=0, scale=2, coefficient=-1250)
    >>> Amount.parse("DEM", "100.00").text()
    '100.00'
    >>> Amount.from_str("DEM 100.00")
    Amount(currency=2, scale=2, coefficient=10000)
"""
from __future__ import annotations

from collections.abc import Sequence
from ctypes import c_bool, c_int32, c_int64, c_uint8, c_uint32, c_uint64
from dataclasses import dataclass
from decimal import Decimal
from enum import IntEnum
from typing import Any, Callable, NamedTuple

from ._c import PARTNERS, VERSION, CAmount, CBook, CColumns, CDate, library
from ._statements import AnyStatement, AnyView, Payout, Reasoned, Statement, View, check_any, check_statement, write_reasons, write_statement
from ._values import REASONS, Refused, accepted, as_bytes, as_list, is_a, whole

__version__ = f"{VERSION // 10000}.{VERSION // 100 % 100}.{VERSION % 100}"

(EUR, BEF, DEM, ESP, FRF, IEP, ITL, LUF, NLG, ATS, PTE, FIM, GRD, SIT, CYP, MTL, SKK, EEK, LVL, LTL, HRK) = range(21)
UP, DOWN, CEILING, FLOOR, HALF_UP, HALF_DOWN, HALF_EVEN = range(7)


class Basis(IntEnum):
    """The day count bases. Of 30/360 the American is the bond basis of ISDA 2006, which loan contracts mean, the European is 30E/360."""

    ACTUAL_360 = 0
    ACTUAL_365 = 1
    THIRTY_360_AMERICAN = 2
    THIRTY_360_EUROPEAN = 3


ACTUAL_360, ACTUAL_365, THIRTY_360_AMERICAN, THIRTY_360_EUROPEAN = Basis

# what `help` tells of and `import *` takes
__all__ = [
    "Amount", "AnyStatement", "AnyView", "Basis", "Book", "Columns", "Date", "Line", "Moved", "Payout", "Ran", "Reasoned", "Refused", "Split", "Statement", "View",
    "check_any", "check_statement", "currency_line", "currency_of", "day_count", "plain_quotient", "take_row", "vouchers", "write_reasons", "write_statement",
    "EUR", "BEF", "DEM", "ESP", "FRF", "IEP", "ITL", "LUF", "NLG", "ATS", "PTE", "FIM", "GRD", "SIT", "CYP", "MTL", "SKK", "EEK", "LVL", "LTL", "HRK",
    "UP", "DOWN", "CEILING", "FLOOR", "HALF_UP", "HALF_DOWN", "HALF_EVEN", "ACTUAL_360", "ACTUAL_365", "THIRTY_360_AMERICAN", "THIRTY_360_EUROPEAN",
    "L", "SCALE", "PERIODS", "TEXT", "REASONS", "VERSION",
]

# the largest magnitude of a coefficient, the largest scale, the most periods of a table, and the most characters of a text
L = 999_999_999_999_999
SCALE = 6
PERIODS = 120
TEXT = 20


def plain_quotient(mode: int, a: int, b: int, d: int) -> int:
    """a x b / d rounded by the mode, the product exact: refusals 1, 3, 6, 13. A quotient n / d is the one of the factors n and 1."""
    factors = whole(c_int64, "a", a), whole(c_int64, "b", b)
    return accepted(library.mkb_round(whole(c_int64, "mode", mode), *factors, whole(c_int64, "d", d))).value


class Line(NamedTuple):
    """One euro is figures / 10^places units; `digits` is the currency's own scale."""

    code: str
    figures: int
    places: int
    digits: int


def currency_line(currency: int) -> Line | None:
    """The table's line of a currency number; None for any number but 0 to 20."""
    line = library.mkb_currency(whole(c_int64, "currency", currency))
    return Line(bytes(line.code).decode(), line.figures, line.places, line.digits) if line.figures else None


def currency_of(code: str) -> int | None:
    """The number of the currency with this code of three capitals; None where the table has none."""
    number = library.mkb_currency_of(*as_bytes("code", code))
    return number if currency_line(number) else None


@dataclass(frozen=True)
class Date:
    year: int
    month: int
    day: int

    def __post_init__(self) -> None:
        for field in ("year", "month", "day"):
            object.__setattr__(self, field, whole(c_int32, field, getattr(self, field)))

    def _c(self) -> CDate:
        return CDate(self.year, self.month, self.day)

    def exists(self) -> bool:
        """Whether the Gregorian calendar has the date, from 1900 to 2199."""
        return library.mkb_date_exists(self._c())


def day_count(basis: Basis, start: Date, end: Date) -> int:
    """The days from the start to the end by the basis: refusals 7, 8."""
    start, end = is_a(Date, "start", start), is_a(Date, "end", end)
    return accepted(library.mkb_day_count(is_a(Basis, "basis", basis), start._c(), end._c())).days


@dataclass(frozen=True, eq=False)
class Amount:
    """Its worth is coefficient / 10^scale. `<` and its sisters go by worth and refuse what `compare` refuses; `==` goes by currency and worth,
    so that 1.5 and 1.50 are equal, and refuses nothing."""

    currency: int
    scale: int
    coefficient: int

    def __post_init__(self) -> None:
        for field, kind in (("currency", c_int32), ("scale", c_int32), ("coefficient", c_int64)):
            object.__setattr__(self, field, whole(kind, field, getattr(self, field)))

    def _c(self) -> CAmount:
        return CAmount(self.currency, self.scale, self.coefficient)

    @classmethod
    def _of(cls, c: Any) -> Amount:
        return cls(c.currency, c.scale, c.coefficient)

    @classmethod
    def parse(cls, currency: int | str, text: str) -> Amount:
        """The amount that a text of a currency, by its number or its code, is: an optional minus, digits, optionally a point with 1 to 6 digits, which
        are the scale; no leading zeros but a single 0 before the point, no minus on zero, at most 20 characters: refusals 4, 14, 13."""
        number = library.mkb_currency_of(*as_bytes("currency", currency)) if isinstance(currency, str) else whole(c_int64, "currency", currency)
        return cls._of(accepted(library.mkb_read(number, *as_bytes("text", text))).amount)

    @classmethod
    def from_str(cls, words: str) -> Amount:
        """What `str` writes: refusal 14 where there is no space, 4 where the table hasn't the code, then those of `parse`."""
        code, space, text = is_a(str, "words", words).partition(" ")
        if not space:
            raise Refused(14)
        return cls.parse(code, text)

    def text(self) -> str:
        """The amount's only text, which `parse` reads: refusals 2, 3, 4."""
        out = (c_uint8 * TEXT)()
        return bytes(out[: accepted(library.mkb_write(self._c(), out, TEXT)).length]).decode()

    @classmethod
    def from_decimal(cls, currency: int, value: Decimal) -> Amount:
        """The exact amount: its scale is the number of the decimal's digits after the point."""
        sign, digits, exponent = is_a(Decimal, "value", value).as_tuple()
        if not isinstance(exponent, int):
            raise ValueError(f"value: {value} is no number")
        if exponent > 18:
            raise OverflowError(f"value: {value} is past every coefficient")
        magnitude = int("".join(map(str, digits))) * 10 ** max(exponent, 0)
        return cls(currency, max(-exponent, 0), -magnitude if sign else magnitude)

    def as_decimal(self) -> Decimal:
        """The worth, with as many digits after the point as the scale says."""
        return Decimal((int(self.coefficient < 0), tuple(map(int, str(abs(self.coefficient)))), -self.scale))

    def __str__(self) -> str:
        """The code, a space and the amount's only text; what is no amount is shown as by `repr`."""
        try:
            return f"{bytes(library.mkb_currency(self.currency).code).decode()} {self.text()}"
        except Refused:
            return repr(self)

    def _key(self) -> tuple:
        """Equal for amounts of one currency and one worth, at any scale that an amount has."""
        if 0 <= self.scale <= SCALE:
            return self.currency, self.coefficient * 10 ** (SCALE - self.scale)
        return self.currency, self.scale, self.coefficient

    def __eq__(self, other: object) -> bool:
        return self._key() == other._key() if isinstance(other, Amount) else NotImplemented

    def __hash__(self) -> int:
        return hash(self._key())

    def compare(self, other: Amount) -> int:
        """-1, 0 or 1 where this is worth less than the other, as much or more: refusals 2, 3, 4, 5."""
        return accepted(library.mkb_order(self._c(), is_a(Amount, "other", other)._c())).order

    def __lt__(self, other: Amount) -> bool:
        return self.compare(other) < 0 if isinstance(other, Amount) else NotImplemented

    def __le__(self, other: Amount) -> bool:
        return self.compare(other) <= 0 if isinstance(other, Amount) else NotImplemented

    def __gt__(self, other: Amount) -> bool:
        return self.compare(other) > 0 if isinstance(other, Amount) else NotImplemented

    def __ge__(self, other: Amount) -> bool:
        return self.compare(other) >= 0 if isinstance(other, Amount) else NotImplemented

    def __add__(self, other: Amount) -> Amount:
        """Exact, at the greater of the two scales: refusals 2, 3, 4, 5, 13."""
        if not isinstance(other, Amount):
            return NotImplemented
        return Amount._of(accepted(library.mkb_sum(self._c(), other._c())).amount)

    def __radd__(self, other: int) -> Amount:
        """The 0 that `sum` starts with."""
        return self if isinstance(other, int) and other == 0 else NotImplemented

    def __neg__(self) -> Amount:
        """Exact: refusals 2, 3, 4."""
        return Amount._of(accepted(library.mkb_negate(self._c())).amount)

    def __sub__(self, other: Amount) -> Amount:
        """The sum with the other's opposite: refusals 2, 3, 4, 5, 13."""
        if not isinstance(other, Amount):
            return NotImplemented
        # a coefficient over L is refused as it stands, so that its opposite, which an int64 may not hold, is not asked for
        opposite = -other.coefficient if abs(other.coefficient) <= L else other.coefficient
        return self + Amount(other.currency, other.scale, opposite)

    def rescale(self, scale: int, mode: int) -> Amount:
        """Exact to a greater scale, rounded by the mode to a smaller one: refusals 1, 2, 3, 4, 13."""
        answer = library.mkb_rescale(self._c(), whole(c_int64, "scale", scale), whole(c_int64, "mode", mode))
        return Amount._of(accepted(answer).amount)

    def convert(self, to: int) -> Amount:
        """In the currency `to`, by Council Regulation (EC) No 1103/97, articles 4 and 5: refusals 2, 3, 4, 13."""
        return Amount._of(accepted(library.mkb_convert(self._c(), whole(c_int64, "to", to))).amount)

    def convert_by(self, to: int, decimals: int) -> Amount:
        """The same by a euro step of 3 to 6 decimals between two old units: refusals 2, 3, 4, 13. A step over L is 13, which at 6 decimals is one
        over 999,999,999.999999 euro."""
        answer = library.mkb_convert_by(self._c(), whole(c_int64, "to", to), whole(c_int64, "decimals", decimals))
        return Amount._of(accepted(answer).amount)

    def interest(self, rate: int, basis: Basis, start: Date, end: Date, mode: int) -> Amount:
        """This x rate x days / (10,000 x year), rounded once: refusals 1, 2, 3, 4, 6, 7, 8, 13."""
        start, end = is_a(Date, "start", start), is_a(Date, "end", end)
        numbers = whole(c_int64, "rate", rate), is_a(Basis, "basis", basis)
        return Amount._of(accepted(library.mkb_interest(self._c(), *numbers, start._c(), end._c(), whole(c_int64, "mode", mode))).amount)

    def compound(self, rate: int, periods: int) -> list[Amount]:
        """This and its balance after each period, each the one before and its interest, rate / 10,000 rounded HALF_EVEN: refusals 2, 3, 4, 6, 10, 13."""
        out = (c_int64 * (PERIODS + 1))()
        number = library.mkb_compound(self._c(), whole(c_int64, "rate", rate), whole(c_int64, "periods", periods), out, PERIODS + 1)
        if number:
            raise Refused(number)
        return [Amount(self.currency, self.scale, balance) for balance in out[: periods + 1]]

    def tax_as_net(self, rate: int, mode: int) -> Split:
        """Tax = net x rate / 1,000,000 rounded by the mode, gross = net + tax: refusals 1, 2, 3, 4, 6, 13."""
        return Split._of(accepted(library.mkb_tax_from_net(self._c(), whole(c_int64, "rate", rate), whole(c_int64, "mode", mode))))

    def tax_as_gross(self, rate: int, mode: int) -> Split:
        """Tax = gross x rate / (1,000,000 + rate) rounded by the mode, net = gross - tax: refusals 1, 2, 3, 4, 6."""
        return Split._of(accepted(library.mkb_tax_from_gross(self._c(), whole(c_int64, "rate", rate), whole(c_int64, "mode", mode))))

    def net_for(self, rate: int, mode: int) -> Split:
        """The price of the only net that has this gross: refusals 1, 2, 3, 4, 6, and 15 where no net has it."""
        return Split._of(accepted(library.mkb_net_for(self._c(), whole(c_int64, "rate", rate), whole(c_int64, "mode", mode))))

    def export(self) -> float:
        """The coefficient as a double, divided once by 10^scale, for a scale of 0 to 3: refusals 2, 3, 4."""
        return accepted(library.mkb_export(self._c())).value

    def share(self, weights: Sequence[int]) -> tuple[int, ...]:
        """The shares' coefficients by largest remainder, one for each weight: refusals 2, 3, 4, 9."""
        lent, count = as_list(c_uint32, "weights", weights)
        out = (c_int64 * (count + 1))()
        number = library.mkb_share(self._c(), lent, count, out, count)
        if number:
            raise Refused(number)
        return tuple(out[:count])


class Columns(NamedTuple):
    """The two columns of a row."""

    net: Amount
    tax: Amount


def take_row(net: float, tax: float, currency: int, scale: int, mode: int) -> Columns:
    """A row of doubles as amounts at the scale, 0 to 3, from the doubles' exact worth, rounded by the mode: refusals 1, 2, 4, 13, 16."""
    numbers = whole(c_int64, "currency", currency), whole(c_int64, "scale", scale), whole(c_int64, "mode", mode)
    answer = accepted(library.mkb_row(CColumns(is_a(float, "net", net), is_a(float, "tax", tax)), *numbers))
    return Columns(Amount._of(answer.net), Amount._of(answer.tax))


def vouchers(count: int, weights: Sequence[int]) -> list[int]:
    """How many of so many whole vouchers each weight gets by highest average: refusals 6, 9."""
    lent, places = as_list(c_uint32, "weights", weights)
    out = (c_uint32 * (places + 1))()
    number = library.mkb_vouchers(whole(c_int64, "count", count), lent, places, out, places)
    if number:
        raise Refused(number)
    return out[:places]


class Split(NamedTuple):
    """A price taken apart."""

    net: Amount
    tax: Amount
    gross: Amount

    @classmethod
    def _of(cls, c: Any) -> Split:
        return cls(Amount._of(c.net), Amount._of(c.tax), Amount._of(c.gross))


class Moved(NamedTuple):
    """The next book, and what each partner is paid, or what a refund takes back from each."""

    book: Book
    payouts: tuple[int, ...]


class Ran(NamedTuple):
    """The book after a run of movements; each call's payouts, zeros where it is refused; and its refusal number, 0 where it is accepted."""

    book: Book
    payouts: tuple[tuple[int, ...], ...]
    numbers: tuple[int, ...]


@dataclass(frozen=True)
class Book:
    """A share book: a currency, the weights of its partners and its net total, its card number, and what each partner had on the cards before.
    Each call answers with the next book."""

    currency: int
    weights: tuple[int, ...]
    net: int
    card: int = 1
    settled: tuple[int, ...] = ()

    def __post_init__(self) -> None:
        lent, count = as_list(c_uint32, "weights", self.weights)
        if count > PARTNERS:
            raise OverflowError(f"weights: {count} of them, and a book has {PARTNERS} places")
        object.__setattr__(self, "currency", whole(c_int32, "currency", self.currency))
        object.__setattr__(self, "weights", tuple(lent[:count]))
        object.__setattr__(self, "net", whole(c_int64, "net", self.net))
        object.__setattr__(self, "card", whole(c_int64, "card", self.card))
        past, places = as_list(c_int64, "settled", self.settled)
        if places > PARTNERS:
            raise OverflowError(f"settled: {places} of them, and a book has {PARTNERS} places")
        # noughts behind them up to the count, so that equal books compare equal
        object.__setattr__(self, "settled", tuple(past[:places]) + (0,) * (count - places))

    def _c(self) -> CBook:
        return CBook(self.currency, len(self.weights), (c_uint32 * PARTNERS)(*self.weights), self.net, self.card, (c_int64 * PARTNERS)(*self.settled))

    @classmethod
    def _of(cls, c: Any) -> Book:
        return cls(c.currency, tuple(c.weights[: c.count]), c.net, c.card, tuple(c.settled[: c.count]))

    @classmethod
    def open(cls, currency: int, weights: Sequence[int]) -> Book:
        """A book with these weights and a net total of 0: refusals 4, 9."""
        lent, count = as_list(c_uint32, "weights", weights)
        return cls._of(accepted(library.mkb_open(whole(c_int64, "currency", currency), lent, count)).book)

    def _moved(self, call: Callable[[CBook, CAmount], Any], amount: Amount) -> Moved:
        answer = accepted(call(self._c(), is_a(Amount, "amount", amount)._c()))
        return Moved(Book._of(answer.book), tuple(answer.payouts[: answer.book.count]))

    def post(self, amount: Amount) -> Moved:
        """Pays each partner the difference of its running totals at N + A and N: refusals 2, 3, 4, 5, 9, 10, 13."""
        return self._moved(library.mkb_post, amount)

    def refund(self, amount: Amount) -> Moved:
        """Takes back the difference of the running totals at N and N - A: refusals 2, 3, 4, 5, 9, 10, 12."""
        return self._moved(library.mkb_refund, amount)

    def new_card(self, weights: Sequence[int]) -> Book:
        """The book on its next card, with these weights for the same count: the running totals are settled and the net total is 0; refusals 3, 4,
        9, 10."""
        lent, count = as_list(c_uint32, "weights", weights)
        return Book._of(accepted(library.mkb_new_card(self._c(), lent, count)).book)

    def running_totals(self) -> tuple[int, ...]:
        """Each partner's running total at the net total: refusals 3, 4, 9, 10."""
        return tuple(accepted(library.mkb_running_totals(self._c())).totals[: len(self.weights)])

    def run(self, refunds: Sequence[bool], coefficients: Sequence[int]) -> Ran:
        """Refunds (True) or posts (False) each coefficient in turn, as `refund` and `post` would: refusals 3, 4, 9, 10 of the book itself, and 9
        for lists of unequal length."""
        lent, calls = as_list(c_bool, "refunds", refunds)
        given, count = as_list(c_int64, "coefficients", coefficients)
        payouts, numbers = (c_uint64 * (PARTNERS * calls + 1))(), (c_uint8 * (calls + 1))()
        answer = library.mkb_run(self._c(), lent, calls, given, count, payouts, PARTNERS * calls, numbers, calls)
        last = Book._of(accepted(answer).book)
        paid = (payouts[PARTNERS * call : PARTNERS * call + len(self.weights)] for call in range(calls))
        return Ran(last, tuple(tuple(places) for places in paid), tuple(numbers[:calls]))
