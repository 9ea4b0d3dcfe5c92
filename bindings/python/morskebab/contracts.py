"""The contracts of a quarter, from a CSV file: of each book its currency, its partners by name, and the weights with the day from which they hold."""
from __future__ import annotations

import re
import unicodedata
from collections.abc import Mapping
from dataclasses import dataclass, field
from functools import lru_cache

from . import Book, Date, Refused, currency_line, currency_of
from ._c import PARTNERS
from .tables import EMPTY, NotATable, Table, shown, undecoded

COLUMNS = ("book", "currency", "from", "partner", "weight")
DAY = re.compile(r"([0-9]{4})-([0-9]{2})-([0-9]{2})")
WEIGHT = re.compile(r"[0-9]{1,9}")


class Unsound(Exception):
    """Contracts that can't be taken: all that is wrong, each with its line. Nothing is run by some of them."""

    def __init__(self, name: str, faults: list[tuple[int, str]]) -> None:
        super().__init__(name, faults)
        self.name = name
        self.faults = sorted(faults)

    def __str__(self) -> str:
        return "\n".join(f"{self.name}: line {line}: {reason}" for line, reason in self.faults)


@dataclass
class Card:
    """The weights that hold from a day on, and the line that the card begins on. A partner that it doesn't name has the weight 0."""

    day: str
    line: int
    weights: dict[str, int] = field(default_factory=dict)


@dataclass
class Contract:
    """A book's contract: its cards in the order of their days, its partners in the order in which they are first named."""

    name: str
    code: str
    line: int
    cards: list[Card] = field(default_factory=list)
    partners: list[str] = field(default_factory=list)

    def __post_init__(self) -> None:
        """The currency's number, 255 where the table has none, and its digits."""
        number = currency_of(self.code)
        self.currency = 255 if number is None else number
        line = currency_line(self.currency)
        self.digits = line.digits if line else 0

    def weights(self, card: int) -> list[int]:
        """By the partners' places."""
        return [self.cards[card].weights.get(partner, 0) for partner in self.partners]


class Contracts(dict[str, Contract]):
    """The contracts by the books' names, in the file's order, and whether the file's last line has no end."""

    unended = False


def name_of(text: str) -> str:
    """A name as it is compared: letters that are composed in two ways are the same, and spaces around it no part of it."""
    return unicodedata.normalize("NFC", text.strip())


@lru_cache(maxsize=1000)
def day_of(text: str) -> str | None:
    """A day that the calendar has, as 2023-01-31; None for any other text."""
    parts = DAY.fullmatch(text)
    return text if parts and Date(*map(int, parts.groups())).exists() else None


class _Reading:
    """What is read so far, and what is wrong with it."""

    def __init__(self) -> None:
        self.contracts = Contracts()
        self.faults: list[tuple[int, str]] = []

    def take(self, line: int, words: list[str]) -> None:
        """One row: a partner's weight on a card."""
        bad = [word for word in words if undecoded(word)]
        if bad:
            return self._wrong(line, f"{shown(bad[0])} has bytes that the file's encoding hasn't; --encoding names another, as windows-1252")
        name, code, day, partner, weight = name_of(words[0]), words[1].strip(), words[2].strip(), name_of(words[3]), words[4].strip()
        if not name or not partner:
            return self._wrong(line, f"the {'partner' if name else 'book'} has no name")
        if day_of(day) is None:
            return self._wrong(line, f"{shown(day)!r} is no day of the form 2023-01-31")
        if not WEIGHT.fullmatch(weight):
            return self._wrong(line, f"{shown(weight)!r} is no weight, which is a whole number of 0 or more")
        contract = self.contracts.setdefault(name, Contract(name, code, line))
        if contract.code != code:
            return self._wrong(line, f"book {shown(name)} is in {shown(contract.code)} by line {contract.line}, and here in {shown(code)}")
        card = next((card for card in contract.cards if card.day == day), None)
        if card is None:
            card = Card(day, line)
            contract.cards.append(card)
        if partner in card.weights:
            return self._wrong(line, f"book {shown(name)} has partner {shown(partner)} from {day} already, on the card that begins on line {card.line}")
        card.weights[partner] = int(weight)
        return None

    def _wrong(self, line: int, reason: str) -> None:
        self.faults.append((line, reason))

    def settle(self, contract: Contract) -> None:
        """Puts the cards in the order of their days, and opens the book and each card once, so that the library refuses what it will refuse."""
        contract.cards.sort(key=lambda card: card.day)
        contract.partners = list(dict.fromkeys(partner for card in contract.cards for partner in card.weights))
        card = contract.cards[0]
        if len(contract.partners) > PARTNERS:
            return self._wrong(contract.line, f"book {shown(contract.name)} has {len(contract.partners)} partners, and a book has {PARTNERS} places")
        try:
            book = Book.open(contract.currency, contract.weights(0))
            for number, card in enumerate(contract.cards[1:], 1):
                book = book.new_card(contract.weights(number))
        except Refused as refusal:
            code = f" ({shown(contract.code)!r})" if refusal.number == 4 else f" (weights {', '.join(map(str, card.weights.values()))})"
            return self._wrong(card.line, f"book {shown(contract.name)} from {card.day}: {refusal}{code}")
        return None


def read(path: str, columns: Mapping[str, str] | None = None, encoding: str | None = None, separator: str | None = None) -> Contracts:
    """The contracts of a file. A row is one partner's weight from a day on; rows of one book and one day are
    a card, and may stand anywhere. Raises Unsound with all that is wrong, and NotATable where the file has no rows at all."""
    table = Table(path, {name: (columns or {}).get(name, name) for name in COLUMNS}, encoding, separator)
    reading = _Reading()
    for block in table.blocks():
        reading.faults += [(fault.line, f"{fault.reason}: {shown(','.join(fault.words))}") for fault in block.faults]
        for line, row in zip(block.lines, block.rows):
            if row in EMPTY:
                continue
            if len(row) != table.width:
                reading.faults.append((line, f"the row has {len(row)} fields where the header has {table.width}"))
            else:
                reading.take(line, [row[place] for place in table.places])
    if not reading.faults:
        for contract in reading.contracts.values():
            reading.settle(contract)
    if reading.faults:
        raise Unsound(table.name, reading.faults)
    if not reading.contracts:
        raise NotATable(f"{table.name}: there is no contract behind the header")
    reading.contracts.unended = table.unended
    return reading.contracts
