"""A quarter again, from CSV: rows in any order of books go in their order to the proved run of calls, a batch for each book.

    from morskebab.rerun import rerun
    quarter = rerun("contracts.csv", "postings.csv")
    quarter.status                              # 0 where every row was understood and accepted and every check is ok
    for book in quarter.books:
        print(book.contract.name, book.parts[-1].net, book.parts[-1].totals)

Memory goes by the books and not by the rows: what is refused is listed in a temporary file.
"""
from __future__ import annotations

import contextlib
import gc
import json
import re
import tempfile
from collections.abc import Callable, Iterator, Mapping
from typing import Any, NamedTuple

from . import REASONS, Amount, Refused, currency_of
from . import contracts as _contracts
from .contracts import day_of, name_of
from .ledger import Amounts, Batch, Counts, Ledger
from .report import ALL_WELL, CHECK_FAILED, NOT_ALL_ACCEPTED, READING_FAILED, check_of_book
from .tables import EMPTY, Block, Table, shown, tidy, undecoded

COLUMNS = ("time", "book", "kind", "amount", "currency", "reference")
KINDS = {"post": False, "posting": False, "refund": True}
# a time of day, in two parts: hours and minutes, and what is behind them
CLOCK = re.compile(r"[T ](?:[01][0-9]|2[0-3]):[0-5][0-9]|")
SECONDS = re.compile(r"(?::(?:[0-5][0-9]|60)(?:[.,][0-9]{1,9})?)?(?: ?Z| ?[+-][0-9]{2}(?::?[0-9]{2})?)?")
KEPT = 1 << 16
# the refusals that a row can have, in words about a row
WHY = {
    2: "the amount has another number of digits behind the point than the currency",
    4: "the currency's code is none of the table's",
    5: "the currency isn't the book's",
    10: "the amount is negative",
    12: "the refund is greater than the card's net total",
    13: "the amount, or the book's total with it, is over the largest amount",
    14: "the amount's text isn't of the form 12.50",
}
# the most of a word that is listed, and the rows of a book that a page shows
WORD = 1000
FIRST = 100


class Met(dict):
    """The texts of a form that were met, each True; KeyError for a text that isn't of it."""

    def __init__(self, form: re.Pattern[str]) -> None:
        super().__init__()
        self._form = form

    def __missing__(self, text: str) -> bool:
        if not self._form.fullmatch(text):
            raise KeyError(text)
        if len(self) >= KEPT:
            self.clear()
        self[text] = True
        return True


class Listed(NamedTuple):
    """A row that was refused (with document 01's number) or not understood (number 0)."""

    line: int
    book: str
    reference: str
    number: int
    reason: str
    words: list[str]


class Quarter:
    """What a rerun has found."""

    def __init__(self, contracts: str, postings: str, ledgers: dict[str, Ledger]) -> None:
        self.contracts, self.postings = contracts, postings
        self.books = list(ledgers.values())
        self.nowhere = Counts()
        self.rows = self.lines = self.listed = 0
        # rows of a later and of an earlier day than the row before them on their book
        self.onward = self.backward = 0
        self.unended = self.unended_contracts = False
        self.failed = ""
        self._spool = tempfile.TemporaryFile("w+", encoding="utf-8", errors="surrogatepass", newline="\n")  # noqa: SIM115
        self.first: dict[str, list[Listed]] = {}

    def note(self, rows: list[Listed], kept: int) -> None:
        """Lists rows, in the order of their lines; the first of each book are kept at hand."""
        for row in sorted(rows):
            self.listed += 1
            self._spool.write(json.dumps(row) + "\n")
            held = self.first.setdefault(row.book, [])
            if len(held) < kept:
                held.append(row)

    def refused(self) -> Iterator[Listed]:
        """Every row that was refused or not understood, in the order of the lines."""
        self._spool.seek(0)
        for line in self._spool:
            yield Listed(*json.loads(line))

    @property
    def status(self) -> int:
        """rerun's exit status."""
        if self.failed:
            return READING_FAILED
        if any(check_of_book(book) != "ok" for book in self.books):
            return CHECK_FAILED
        return NOT_ALL_ACCEPTED if self.listed or self.unended or self.unended_contracts else ALL_WELL


class _Run:
    """The reading of the postings."""

    def __init__(self, table: Table, quarter: Quarter, ledgers: dict[str, Ledger], kinds: Mapping[str, bool]) -> None:
        self.table, self.quarter, self.ledgers = table, quarter, ledgers
        self.batch = Batch()
        self.by_spelling = dict(ledgers)
        self.kinds = {tidy(word): refund for word, refund in kinds.items()}
        self.kind_by_spelling = dict(kinds)
        self.clocks, self.seconds = Met(CLOCK), Met(SECONDS)
        self.listed: list[Listed] = []

    def take(self, block: Block) -> None:
        """The rows of a block. A row that is as the one before it on its book goes straight to those that wait; every other is looked at by `odd`."""
        time, name, kind, amount, currency, _ = self.table.places
        ledgers, kinds, clocks, seconds, width = self.by_spelling, self.kind_by_spelling, self.clocks, self.seconds, self.table.width
        for place, row in enumerate(block.rows):
            try:
                when, ledger, refund = row[time], ledgers[row[name]], kinds[row[kind]]
                coefficient = ledger.amounts[row[amount]]
                clocks[when[10:16]]
                seconds[when[16:]]
            except (KeyError, IndexError):
                self.odd(block, place, row)
                continue
            if when[:10] != ledger.day or row[currency] != ledger.code or len(row) != width:
                self.odd(block, place, row)
                continue
            ledger.refunds.append(refund)
            ledger.coefficients.append(coefficient)
            ledger.at.append(place)
        for ledger in self.ledgers.values():
            if ledger.at:
                self.refuse_all(block, ledger, ledger.flush(self.batch))
        self.faults(block)
        self.quarter.rows += len(block.rows) + len(block.faults)

    def odd(self, block: Block, place: int, row: list[str]) -> None:
        """A row that is unlike the others: it waits too, or is refused, or is not understood."""
        if row in EMPTY:
            self.quarter.rows -= 1
            return
        line = block.lines[place]
        if len(row) != self.table.width:
            self.refuse(line, row, None, 0, f"the row has {len(row)} fields where the header has {self.table.width}")
            return
        when, name, kind, amount, currency, _ = (row[column].strip() for column in self.table.places)
        ledger = self.ledgers.get(name_of(name))
        if ledger is None:
            hint = "; it has bytes that the file's encoding hasn't (--encoding)" if undecoded(name) else ""
            self.refuse(line, row, None, 0, f"no contract has the book {shown(name)!r}{hint}")
            return
        refund = self.kinds.get(tidy(kind))
        if refund is None:
            self.refuse(line, row, ledger, 0, f"{shown(kind)!r} is no kind of row; the kinds are {', '.join(sorted(self.kinds))}")
            return
        day = day_of(when[:10])
        if day is None or not CLOCK.fullmatch(when[10:16]) or not SECONDS.fullmatch(when[16:]):
            self.refuse(line, row, ledger, 0, f"{shown(when)!r} is no time of the form 2023-01-31T23:59:59")
            return
        self.quarter.onward += day > ledger.day
        self.quarter.backward += day < ledger.day
        if day < ledger.part.day:
            self.refuse(line, row, ledger, 0, f"its day is before {ledger.part.day}, from which card {ledger.part.number} of the book holds")
            return
        self.learn(row, ledger, refund)
        self.refuse_all(block, ledger, ledger.turn(day, self.batch))
        number, coefficient, reason = worth(ledger, refund, currency, amount)
        if number:
            self.refuse(line, row, ledger, number, reason)
            return
        ledger.refunds.append(refund)
        ledger.coefficients.append(coefficient)
        ledger.at.append(place)

    def learn(self, row: list[str], ledger: Ledger, refund: bool) -> None:
        """Another spelling of a book or of a kind is known from here on."""
        _, name, kind, *_ = self.table.places
        for known, word, meaning in ((self.by_spelling, row[name], ledger), (self.kind_by_spelling, row[kind], refund)):
            if len(known) < KEPT:
                known[word] = meaning  # type: ignore[index]

    def refuse_all(self, block: Block, ledger: Ledger, refused: list[tuple[int, int]]) -> None:
        """Rows that the library refused."""
        for place, number in refused:
            self.refuse(block.lines[place], block.rows[place], ledger, number, WHY.get(number, REASONS[number]))

    def refuse(self, line: int, row: list[str], ledger: Ledger | None, number: int, reason: str) -> None:
        (ledger.part if ledger else self.quarter.nowhere).refuse(number, line)
        reference = self.table.places[-1]
        self.listed.append(Listed(line, ledger.contract.name if ledger else "", cut(row[reference]) if reference < len(row) else "", number, reason,
                                  [cut(word) for word in row]))

    def faults(self, block: Block) -> None:
        """The lines that are no rows, and then all of the block that is listed."""
        for fault in block.faults:
            self.refuse(fault.line, fault.words, None, 0, fault.reason)
        self.quarter.note(self.listed, FIRST)
        self.listed = []


def cut(word: str) -> str:
    """A word as it is listed: a long one is cut, and bytes that the encoding hasn't are said as \\xe9."""
    short = word if len(word) <= WORD else f"{word[:WORD]}..({len(word)} characters)"
    return short.encode("utf-8", "surrogateescape").decode("utf-8", "backslashreplace") if undecoded(short) else short


def worth(ledger: Ledger, refund: bool, code: str, text: str) -> tuple[int, int, str]:
    """What the library says of an amount on the book: 0 and its coefficient, or the refusal's number and its words."""
    if code == ledger.code:
        with contextlib.suppress(KeyError):
            return 0, ledger.amounts[text], ""
    number = currency_of(code)
    try:
        amount = Amount.parse(255 if number is None else number, text if len(text) < KEPT else text[:KEPT])
        if (amount.currency, amount.scale) == (ledger.contract.currency, ledger.contract.digits) and amount.coefficient >= 0:
            return 0, amount.coefficient, ""
        # any other currency, scale or sign is refused by the book, whatever its net total
        (ledger.book.refund if refund else ledger.book.post)(amount)
    except Refused as refusal:
        reason = WHY.get(refusal.number, REASONS[refusal.number])
        return refusal.number, 0, f"{reason}: {shown(code)!r}" if refusal.number == 4 else f"{reason}: {shown(text)!r}"
    raise AssertionError(f"the book took {amount!r}")


@contextlib.contextmanager
def uncollected() -> Iterator[None]:
    """Rows hold no cycles: looking for some among them takes a fifth of the time."""
    stood = gc.isenabled()
    gc.disable()
    try:
        yield
    finally:
        if stood:
            gc.enable()


def rerun(contracts: str, postings: str, *, columns: Mapping[str, Mapping[str, str]] | None = None, kinds: Mapping[str, bool] | None = None,
          encoding: str | None = None, separator: str | None = None, pictured: bool = False, told: Callable[[Table, Quarter], Any] | None = None) -> Quarter:
    """Runs the postings file on the books of the contracts file. `columns` has what the files call their columns ({"postings": {"amount": "Betrag"}}),
    `kinds` the words for a posting (False) and a refund (True); `told` is called after each block of rows."""
    named = columns or {}
    held = _contracts.read(contracts, named.get("contracts"), encoding, separator)
    amounts: dict[int, Amounts] = {}
    ledgers = {name: Ledger(contract, amounts.setdefault(contract.digits, Amounts(contract.digits)), pictured) for name, contract in held.items()}
    table = Table(postings, {name: named.get("postings", {}).get(name, name) for name in COLUMNS}, encoding, separator)
    quarter = Quarter(contracts, postings, ledgers)
    run = _Run(table, quarter, ledgers, KINDS if kinds is None else kinds)
    with uncollected():
        try:
            for block in table.blocks():
                run.take(block)
                if told:
                    told(table, quarter)
        except (OSError, UnicodeError) as error:
            quarter.failed = str(error)
    for ledger in ledgers.values():
        ledger.end(run.batch)
    quarter.lines, quarter.unended, quarter.unended_contracts = table.lines, table.unended, held.unended
    return quarter
