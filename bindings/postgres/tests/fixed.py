"""fixed.py FOLDER: the fixed quarters of second/ for two tables, as COPY reads them, and what the second program reports on each of their books.

FOLDER/contracts and FOLDER/postings are as quarter.py's, and FOLDER/expected has the reports, lines counted from each opening on. A new card is
a book of its own, with its weights and a net total of 0. Lines before any opening, and texts that are refused before there is a number, are left out.
"""
from __future__ import annotations

import pathlib
import sys
from collections.abc import Iterator
from typing import Any, NamedTuple

from sql_calls import SECOND, asks, text_of

from amounts import CURRENCIES, Amount
from book import ALL_ZERO_BOOK, open_book
from lines import is_copied
from quarter import CARD, OPEN, asked_of_book, ends_the_book
from reading import Reading
from refusals import Refusal
from reports import Report
from styles import InTexts
from texts import with_texts_read

NOTHING = Amount(0, 2, 0)


class Row(NamedTuple):
    kind: str
    amount: Amount


def code(currency: int) -> str:
    return CURRENCIES[currency].code if currency < len(CURRENCIES) else "XXX"


class Part:
    """A book, or one of its cards: what SQL is given of it, and the report on it."""

    def __init__(self, currency: int, weights: list[int]) -> None:
        self.currency, self.weights = currency, weights
        self.rows: list[Row] = []
        refusal, book = open_book(currency, weights)
        heading = f"book refused {refusal.number}" if refusal else f"book {code(currency)} weights {' '.join(map(str, weights))}"
        self.report = Report(heading, book, InTexts)

    def take(self, kind: bytes, values: Any) -> None:
        """A posting or a refund, or a line that is not understood, which has no values."""
        if isinstance(values, Refusal):
            return
        self.rows.append(Row(kind.decode(), values[0] if values else NOTHING))
        if values:
            self.report.take(kind, values[0], len(self.rows))
        else:
            self.report.not_understood.add(len(self.rows))


def parts(stream: Any) -> Iterator[Part]:
    part: Part | None = None
    for line in Reading(stream):
        asked = None if is_copied(line) else asked_of_book(line)
        if is_copied(line):
            continue
        if asked is None and ends_the_book(line):
            part = None
        elif asked is not None and asked.verb == OPEN:
            part = Part(asked.values[0], asked.values[1:])
            yield part
        elif part is None:
            continue
        elif asked is not None and asked.verb == CARD:
            if part.report.book != ALL_ZERO_BOOK and open_book(part.currency, asked.values)[0] is None and len(asked.values) == len(part.weights):
                part = Part(part.currency, asked.values)
                yield part
        elif asked is None:
            part.take(b"not understood", None)
        else:
            part.take(asked.verb, with_texts_read(asked.values))


def main() -> None:
    folder, line = pathlib.Path(sys.argv[1]), 0
    files = [SECOND / "quarters.txt", *(SECOND / f"ask{ask}-quarters.txt" for ask in sorted(asks.LANDED))]
    found = [part for file in files if file.exists() for part in list(parts(open(file, "rb")))]
    with open(folder / "contracts", "w") as contracts, open(folder / "postings", "w") as postings, open(folder / "expected", "w") as expected:
        for book, part in enumerate(found, 1):
            line += 1
            print(book, line, code(part.currency), "{" + ",".join(map(str, part.weights)) + "}", sep="\t", file=contracts)
            for row in part.rows:
                line += 1
                print(book, line, row.kind, text_of(row.amount.scale, row.amount.coefficient), code(row.amount.currency), sep="\t", file=postings)
            print(*part.report.lines(), sep="\n", file=expected)


if __name__ == "__main__":
    main()
