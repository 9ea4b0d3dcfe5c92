"""A line of the desk as a call of SQL, with what the second program (second/) answers to it."""
from __future__ import annotations

import pathlib
import struct
import sys
from collections.abc import Iterable
from typing import Any, NamedTuple

TOP = pathlib.Path(__file__).resolve().parents[3]
SECOND = TOP / "second"
sys.path[:0] = [str(SECOND)]
sys.path.append(str(TOP / "bindings/python/morskebab"))
import asks  # noqa: E402

# statements are in the library and in SQL, though the desk may have no lines of them yet
asks.LANDED = asks.LANDED | {3, 11, 13}

from amounts import CURRENCIES, Amount, negation_of, order_of, rescaled, sum_of  # noqa: E402
from book import ALL_ZERO_BOOK, Book, new_card, open_book, post, refund, totals  # noqa: E402
from compound import compound  # noqa: E402
from dates import Date  # noqa: E402
from doubles import export, row_of  # noqa: E402
from euro import convert  # noqa: E402
from interest import interest  # noqa: E402
from refusals import Refusal  # noqa: E402
from rounding import round_product, round_quotient  # noqa: E402
from sharing import share  # noqa: E402
from statements import opened_view, read_any, read_statement, records_of, write_reasons, write_statement  # noqa: E402
from tax import net_for, split_from_net, tax_from_gross, tax_from_net  # noqa: E402
from texts import read_text, text_of, write_text  # noqa: E402
from vouchers import vouchers  # noqa: E402

MODES = ("UP", "DOWN", "CEILING", "FLOOR", "HALF_UP", "HALF_DOWN", "HALF_EVEN")
BASES = ("ACTUAL_360", "ACTUAL_365", "THIRTY_360_AMERICAN", "THIRTY_360_EUROPEAN")


class Call(NamedTuple):
    """A call of SQL and its expected answer: a refusal, or the fields of its value; `blames`: its sister says which date is blamed."""

    name: str
    words: list[str]
    answer: Any
    fields: int = 1
    blames: bool = False


class NoCall(Exception):
    """A line that has no call in SQL."""


def quoted(name: str) -> str:
    return "'" + name.replace("'", "''") + "'"


def mode(number: int) -> str:
    return quoted(MODES[number] if number < len(MODES) else f"mode {number}")


def basis(number: int) -> str:
    return quoted(BASES[number] if number < len(BASES) else f"basis {number}")


def currency(number: int) -> str:
    return quoted(CURRENCIES[number].code if number < len(CURRENCIES) else "XXX")


def amount(given: Amount) -> list[str]:
    return [text_of(given.scale, given.coefficient), currency(given.currency)]


def date(given: Date) -> str:
    year, month, day = given
    leap = year % 4 == 0 and (year % 100 != 0 or year % 400 == 0)
    if year == 0 or not 1 <= month <= 12 or not 1 <= day <= (31, 29 if leap else 28, 31, 30, 31, 30, 31, 31, 30, 31, 30, 31)[month - 1]:
        raise NoCall
    return f"make_date({year}, {month}, {day})"


def array(values: Iterable[Any], of: str) -> str:
    return f"'{{{','.join(map(str, values))}}}'::{of}[]"


def listed(scale: int, coefficients: Iterable[int]) -> str:
    return "{" + ",".join(text_of(scale, each) for each in coefficients) + "}"


def one(answer: Any, value: Any) -> Any:
    return answer if isinstance(answer, Refusal) else [value(answer)]


def worth(found: Amount) -> str:
    return text_of(found.scale, found.coefficient)


def double(bits: int) -> str:
    return quoted(repr(struct.unpack("<d", struct.pack("<Q", bits))[0])) + "::double precision"


def filled(refusal: Refusal | None, value: str) -> Any:
    return refusal if refusal is not None else [value]


def price(found: Any, fields: Any) -> Any:
    return found if isinstance(found, Refusal) else fields(found)


def words_of(book: Book) -> tuple[int, list[str]]:
    """The digits of a book's currency, and its words; what a new card settled is no part of a book in SQL."""
    if any(book.settled):
        raise NoCall
    digits = CURRENCIES[book.currency].digits
    return digits, [text_of(digits, book.net), currency(book.currency), array(book.weights[: book.count], "numeric")]


def written(number: int, lists: list[list[int]], lent: bytearray, answer: tuple[Refusal | None, int]) -> Call:
    """A statement from its first byte on, into just enough room."""
    digits = CURRENCIES[number].digits if number < len(CURRENCIES) else 0
    amounts = array((text_of(digits, each) for each in lists[-1]), "numeric")
    return Call("statement", [currency(number), *(array(each, "integer") for each in lists[:-1]), amounts], filled(answer[0], "\\x" + lent.hex()))


def viewed(view: Any, reasoned: bool) -> list[str | None]:
    """The currency, the places, the reasons and the amounts of a statement's records."""
    records = records_of(view)
    line = CURRENCIES[records[0].currency] if records else None
    columns = [listed(0, (each.place for each in records))] + [listed(0, (each.reason for each in records))] * reasoned
    return [line.code if line else None, *columns, listed(line.digits if line else 0, (each.coefficient for each in records))]


class Lines:
    """The call of each line in turn; keeps the current book."""

    def __init__(self) -> None:
        self.book: Book = ALL_ZERO_BOOK

    def call(self, verb: bytes, values: list[Any]) -> Call:
        found = getattr(self, verb.decode().replace("-", "_"), None)
        if found is None:
            raise NoCall
        return found(*values)

    def round(self, number: int, *others: int) -> Call:
        found = (round_quotient if len(others) == 2 else round_product)(number, *others)
        return Call("round", [mode(number), *map(str, others)], one(found, str))

    def sum(self, first: Amount, second: Amount) -> Call:
        return Call("sum", amount(first) + amount(second), one(sum_of(first, second), worth))

    def order(self, first: Amount, second: Amount) -> Call:
        signs = {"less": "-1", "equal": "0", "greater": "1"}
        return Call("order", amount(first) + amount(second), one(order_of(first, second), lambda found: signs[found]))

    def negate(self, given: Amount) -> Call:
        return Call("negate", amount(given), one(negation_of(given), worth))

    def rescale(self, given: Amount, scale: int, number: int) -> Call:
        return Call("rescale", [*amount(given), str(scale), mode(number)], one(rescaled(given, scale, number), worth))

    def convert(self, given: Amount, target: int, *step: int) -> Call:
        return Call("convert", [*amount(given), currency(target), *map(str, step)], one(convert(given, target, *step), worth))

    def interest(self, principal: Amount, rate: int, number: int, *rest: int) -> Call:
        start, end, rule = Date(*rest[:3]), Date(*rest[3:6]), rest[6]
        words = [*amount(principal), str(rate), basis(number), date(start), date(end), mode(rule)]
        return Call("interest", words, one(interest(principal, rate, number, start, end, rule), lambda found: worth(found.amount)), blames=True)

    def compound(self, principal: Amount, rate: int, periods: int, room: int) -> Call:
        lent = [0] * 121
        refusal = compound(principal, rate, periods, lent)
        return Call("compound", [*amount(principal), str(rate), str(periods)], filled(refusal, listed(principal.scale, lent[: periods + 1])))

    def tax_net(self, net: Amount, rate: int, number: int) -> Call:
        found = price(tax_from_net(net, rate, number), lambda split: [text_of(net.scale, each) for each in (net.coefficient, split.tax, split.other)])
        return Call("tax_from_net", [*amount(net), str(rate), mode(number)], found, fields=3)

    def tax_gross(self, gross: Amount, rate: int, number: int) -> Call:
        found = price(tax_from_gross(gross, rate, number), lambda split: [text_of(gross.scale, each) for each in (split.other, split.tax, gross.coefficient)])
        return Call("tax_from_gross", [*amount(gross), str(rate), mode(number)], found, fields=3)

    def net_for(self, gross: Amount, rate: int, number: int) -> Call:
        def fields(net: Amount) -> list[str]:
            return [text_of(gross.scale, each) for each in (net.coefficient, split_from_net(net, rate, number).tax, gross.coefficient)]

        return Call("net_for", [*amount(gross), str(rate), mode(number)], price(net_for(gross, rate, number), fields), fields=3)

    def share(self, given: Amount, *weights: int) -> Call:
        lent = [0] * len(weights)
        refusal = share(given, weights, lent)
        return Call("share", [*amount(given), array(weights, "numeric")], filled(refusal, listed(given.scale, lent)))

    def vouchers(self, count: int, room: int, *weights: int) -> Call:
        lent = [0] * len(weights)
        refusal = vouchers(count, weights, lent)
        return Call("vouchers", [str(count), array(weights, "numeric")], filled(refusal, listed(0, lent)))

    def read(self, number: int, given: bytes) -> Call:
        if b"\0" in given or not given.isascii():
            raise NoCall
        return Call("read", [quoted(given.decode("ascii")), currency(number)], one(read_text(number, given), worth))

    def write(self, given: Amount, room: int) -> Call:
        lent = bytearray(20)
        refusal, length = write_text(given, lent)
        return Call("write", amount(given), filled(refusal, lent[:length].decode()))

    def row(self, number: int, scale: int, rule: int, net: int, tax: int) -> Call:
        found = price(row_of(number, scale, rule, net, tax), lambda columns: [text_of(scale, each) for each in columns])
        return Call("row", [double(net), double(tax), currency(number), str(scale), mode(rule)], found, fields=2)

    def export(self, given: Amount) -> Call:
        return Call("export", amount(given), one(export(given), lambda bits: f"{bits:016x}"))

    def statement(self, number: int, start: int, room: int, lists: list[list[int]]) -> Call:
        lent = bytearray(16 * len(lists[0]) + 24)
        return written(number, lists, lent, write_statement(number, *lists, lent, 0))

    def reasons(self, number: int, start: int, room: int, lists: list[list[int]]) -> Call:
        lent = bytearray(24 * len(lists[0]) + 24)
        return written(number, lists, lent, write_reasons(number, *lists, lent, 0))

    def check(self, data: bytes) -> Call:
        found = price(read_statement(data), lambda file: [str(file.first), str(file.count), str(file.sum)])
        return Call("check_statement", [f"'\\x{data.hex()}'"], found, fields=3)

    def check_any(self, data: bytes) -> Call:
        return Call("check_any", [f"'\\x{data.hex()}'"], price(read_any(data), lambda file: list(map(str, file))), fields=4)

    def view(self, data: bytes) -> Call:
        return Call("payouts", [f"'\\x{data.hex()}'"], price(opened_view(data), lambda view: viewed(view, False)), fields=3)

    def view_any(self, data: bytes) -> Call:
        return Call("any_payouts", [f"'\\x{data.hex()}'"], price(opened_view(data, read_any), lambda view: viewed(view, True)), fields=4)

    def open(self, number: int, *weights: int) -> Call:
        refusal, self.book = open_book(number, weights)
        digits = CURRENCIES[number].digits if number < len(CURRENCIES) else 0
        return Call("totals", [text_of(digits, 0), currency(number), array(weights, "numeric")], filled(refusal, listed(digits, [0] * len(weights))))

    def moved(self, name: str, step: Any, given: Amount) -> Call:
        before, self.book = self.book, step.book
        digits, words = words_of(before)
        return Call(name, words + amount(given), filled(step.refusal, listed(digits, step.payouts[: before.count])))

    def post(self, given: Amount) -> Call:
        return self.moved("post", post(self.book, given), given)

    def refund(self, given: Amount, reason: int = 0) -> Call:
        return self.moved("refund", refund(self.book, given), given)

    def totals(self) -> Call:
        digits, words = words_of(self.book)
        return Call("totals", words, one(totals(self.book), lambda found: listed(digits, found[: self.book.count])))

    def card(self, *weights: int) -> Call:
        self.book = new_card(self.book, weights).book
        raise NoCall

    def settled(self) -> Call:
        raise NoCall


def field(value: str | None) -> str:
    """A field of a row as SQL writes it."""
    if value is None:
        return ""
    return '"' + value.replace("\\", "\\\\") + '"' if set(value) & set('\\, ()"') or not value else value
