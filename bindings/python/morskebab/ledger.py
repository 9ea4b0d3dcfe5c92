"""One book of a quarter: its movements go in batches to the library's run of calls, and what comes of them is counted card by card."""
from __future__ import annotations

import re
from array import array
from ctypes import c_bool, c_int64, c_uint8, c_uint64
from dataclasses import dataclass, field
from itertools import compress

from . import Book, Refused
from ._c import PARTNERS, CBook, library
from .contracts import Contract

# the calls of one batch; the amounts whose worth is kept in mind; the points of a picture
CALLS = 8192
KEPT = 1 << 15
POINTS = 400
LAST_DAY = "9999"


class Amounts(dict):
    """The coefficient of an amount's text at a scale of so many digits, for the texts of the plain form, which have no sign and at most 15 digits.
    KeyError for any other: the library's reader says of it what it is."""

    def __init__(self, digits: int) -> None:
        super().__init__()
        fraction = rf"\.[0-9]{{{digits}}}" if digits else ""
        self._plain = re.compile(rf"(?:0|[1-9][0-9]{{0,{14 - digits}}}){fraction}").fullmatch

    def __missing__(self, text: str) -> int:
        if not self._plain(text):
            raise KeyError(text)
        if len(self) >= KEPT:
            self.clear()
        self[text] = coefficient = int(text.replace(".", ""))
        return coefficient


class Batch:
    """The lists that are lent to a run of calls, made once."""

    def __init__(self) -> None:
        self.refunds, self.coefficients = bytearray(CALLS), array("q", bytes(8 * CALLS))
        self.payouts, self.numbers = array("Q", bytes(8 * CALLS * PARTNERS)), bytearray(CALLS)
        self._lent = ((c_bool * CALLS).from_buffer(self.refunds), (c_int64 * CALLS).from_buffer(self.coefficients),
                      (c_uint64 * (CALLS * PARTNERS)).from_buffer(self.payouts), (c_uint8 * CALLS).from_buffer(self.numbers))

    def run(self, book: CBook, refunds: list[bool], coefficients: list[int]) -> CBook:
        """The book after the calls, up to CALLS of them; their payouts and numbers are in the lists."""
        calls = len(refunds)
        self.refunds[:calls] = bytes(refunds)
        memoryview(self.coefficients)[:calls] = array("q", coefficients)
        lent = self._lent
        answer = library.mkb_run(book, lent[0], calls, lent[1], calls, lent[2], PARTNERS * CALLS, lent[3], CALLS)
        if answer.refusal:
            raise Refused(answer.refusal, answer.blamed)
        return answer.book


@dataclass
class Tally:
    """How many rows, and the line of the first."""

    times: int = 0
    first: int = 0

    def add(self, line: int) -> None:
        self.first = min(self.first or line, line)
        self.times += 1


@dataclass
class Counts:
    """The rows of a card, or of no book: how many were accepted, refused by number, and not understood."""

    accepted: int = 0
    refused: dict[int, Tally] = field(default_factory=dict)
    not_understood: Tally = field(default_factory=Tally)

    def refuse(self, number: int, line: int) -> None:
        """Number 0: not understood."""
        (self.refused.setdefault(number, Tally()) if number else self.not_understood).add(line)

    @property
    def refusals(self) -> int:
        return sum(tally.times for tally in self.refused.values())


@dataclass
class Part(Counts):
    """What happened on one card of a book. `totals` are the running totals of the card at its net total."""

    number: int = 1
    day: str = ""
    weights: list[int] = field(default_factory=list)
    posted: int = 0
    refunded: int = 0
    net: int = 0
    paid: list[int] = field(default_factory=lambda: [0] * PARTNERS)
    taken: list[int] = field(default_factory=lambda: [0] * PARTNERS)
    totals: tuple[int, ...] = ()


class Ledger:
    """A book by its contract: `turn` it to a day, `add` movements, `flush` them to the library."""

    def __init__(self, contract: Contract, amounts: Amounts, pictured: bool) -> None:
        self.contract, self.amounts, self.code = contract, amounts, contract.code
        # as C has it, which is how it goes from batch to batch
        self._book: CBook = Book.open(contract.currency, contract.weights(0))._c()
        self.parts: list[Part] = []
        self.points: list[tuple[str, list[float]]] = []
        # the movements that wait, and where each stands among the rows of the block that is read
        self.refunds: list[bool] = []
        self.coefficients: list[int] = []
        self.at: list[int] = []
        self.day = self.first_day = self.last_day = ""
        self._pictured, self._marks, self._behind = pictured, [], [0.0] * len(contract.partners)
        self._begin(0)

    @property
    def book(self) -> Book:
        """The book as it is, without the movements that wait."""
        return Book._of(self._book)

    def _begin(self, card: int) -> None:
        cards = self.contract.cards
        self.part = Part(number=card + 1, day=cards[card].day, weights=self.contract.weights(card))
        self.until = cards[card + 1].day if card + 1 < len(cards) else LAST_DAY

    def turn(self, day: str, batch: Batch) -> list[tuple[int, int]]:
        """The book on the card that holds on the day, which is not before the present card's; what `flush` says of the rows before."""
        if self._pictured and self.day and day != self.day and len(self._marks) < POINTS:
            self._marks.append((len(self.coefficients), self.day))
        self.day = day
        self.first_day, self.last_day = min(self.first_day or day, day), max(self.last_day, day)
        refused: list[tuple[int, int]] = []
        while day >= self.until:
            refused += self.flush(batch)
            self._end()
            self._book = self.book.new_card(self.contract.weights(len(self.parts)))._c()
            self._begin(len(self.parts))
        return refused

    def flush(self, batch: Batch) -> list[tuple[int, int]]:
        """Hands what waits to the library, in its order. Where the refused rows stand among the block's, each with its number."""
        refused: list[tuple[int, int]] = []
        before, moves = self._book.net, []
        for start in range(0, len(self.at), CALLS):
            refunds, coefficients = self.refunds[start : start + CALLS], self.coefficients[start : start + CALLS]
            self._book = batch.run(self._book, refunds, coefficients)
            numbers = batch.numbers[: len(refunds)]
            if any(numbers):
                refused += [(self.at[start + call], number) for call, number in enumerate(numbers) if number]
                coefficients = [0 if number else coefficient for number, coefficient in zip(numbers, coefficients)]
            self._count(batch, refunds, coefficients, numbers.count(0))
            if self._marks:
                moves += [-coefficient if refund else coefficient for refund, coefficient in zip(refunds, coefficients)]
        self._follow(before, moves)
        self.refunds.clear()
        self.coefficients.clear()
        self.at.clear()
        return refused

    def _count(self, batch: Batch, refunds: list[bool], coefficients: list[int], accepted: int) -> None:
        """Adds up what a batch paid and took back; a refused call has noughts."""
        part, end = self.part, PARTNERS * len(refunds)
        part.accepted += accepted
        refunded, some = sum(compress(coefficients, refunds)), any(refunds)
        part.refunded += refunded
        part.posted += sum(coefficients) - refunded
        for place in range(len(self.contract.partners)):
            column = batch.payouts[place:end:PARTNERS]
            taken = sum(compress(column, refunds)) if some else 0
            part.taken[place] += taken
            part.paid[place] += sum(column) - taken

    def _follow(self, net: int, moves: list[int]) -> None:
        """A point of the picture for the end of each day that ended among the movements."""
        start = 0
        for place, day in self._marks:
            net += sum(moves[start:place])
            start = place
            self._point(day, net)
        self._marks.clear()

    def _point(self, day: str, net: int) -> None:
        weights = self.part.weights
        totals = Book(self.contract.currency, tuple(weights), net).running_totals()
        whole = sum(weights)
        self.points.append((day, [behind + (total * whole - net * weight) / whole for behind, total, weight in zip(self._behind, totals, weights)]))
        if len(self.points) > POINTS:
            del self.points[1:-1:2]

    def _end(self) -> None:
        """The card's last figures."""
        part = self.part
        part.net, part.totals = self._book.net, self.book.running_totals()
        whole = sum(part.weights)
        self._behind = [behind + (total * whole - part.net * weight) / whole for behind, total, weight in zip(self._behind, part.totals, part.weights)]
        self.parts.append(part)

    def end(self, batch: Batch) -> list[tuple[int, int]]:
        """The quarter is over: what `flush` says of the last rows, and the last card's figures."""
        refused = self.flush(batch)
        if self._pictured and self.day:
            self._point(self.day, self._book.net)
        self._end()
        return refused
