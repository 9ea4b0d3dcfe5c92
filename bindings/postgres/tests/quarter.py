"""quarter.py SEED BOOKS FOLDER: a generated quarter of so many books, refusals of every kind among them.

FOLDER/quarter.txt is for `./run rerun`; the same rows for two tables, as COPY reads them, are in FOLDER/contracts (a book, the line of its
opening, its currency, its weights) and FOLDER/postings (a book, a line, a kind, an amount and its currency).
"""
from __future__ import annotations

import pathlib
import random
import sys
from collections.abc import Iterator
from typing import NamedTuple

from sql_calls import CURRENCIES

from texts import text_of

L = 10**15 - 1


class Row(NamedTuple):
    kind: str
    currency: int
    scale: int
    coefficient: int


def code(currency: int) -> str:
    return CURRENCIES[currency].code if currency < len(CURRENCIES) else "XXX"


def weights_of(source: random.Random) -> list[int]:
    dice = source.random()
    count = source.choice((1, 2, 3, 4, 8, 16))
    if dice < 0.03:
        return source.choice(([], [0] * count, [10_001], [1] * 17, [9_999, 1, 1], [2**32 + 5, 3]))
    most = source.choice((3, 100, 10_000 // count))
    weights = [source.randint(0, most) for _ in range(count)]
    return weights if any(weights) else [1] * count


def row_of(source: random.Random, currency: int, net: int) -> Row:
    """A posting or a refund of the book, mostly one that is accepted."""
    kind = "refund" if source.random() < 0.3 else "post"
    digits = CURRENCIES[currency].digits if currency < len(CURRENCIES) else 2
    row = Row(kind, currency, digits, source.choice((source.randint(0, 99), source.randint(0, 10_000), source.randint(0, 10**6))))
    dice = source.random()
    if dice < 0.01:
        return row._replace(scale=source.choice((digits + 1, 6, 7, 255)))
    if dice < 0.02:
        return row._replace(currency=source.choice((0, 2, 6, 21)))
    if dice < 0.03:
        return row._replace(coefficient=source.choice((-1, -row.coefficient, L + 1, -L - 1, 2**63 - 1)))
    if dice < 0.04:
        return row._replace(coefficient=source.choice((L, L - 1, L - net)))
    if dice < 0.05:
        return row._replace(kind=source.choice(("pay", "Post", "refunds", "totals")))
    return row._replace(coefficient=net + 1) if kind == "refund" and dice < 0.1 else row


def rows_of(source: random.Random, currency: int, count: int) -> Iterator[Row]:
    """So many rows; about where the net total stands, so that refunds are near it."""
    net = 0
    for _ in range(count):
        row = row_of(source, currency, net)
        after = net + row.coefficient * (1 if row.kind == "post" else -1)
        if row.currency == currency and row.kind in ("post", "refund") and 0 <= after <= L:
            net = after
        yield row


def main() -> None:
    source, books, folder = random.Random(int(sys.argv[1])), int(sys.argv[2]), pathlib.Path(sys.argv[3])
    line = 0
    with open(folder / "quarter.txt", "w") as quarter, open(folder / "contracts", "w") as contracts, open(folder / "postings", "w") as postings:
        for book in range(1, books + 1):
            currency, weights = source.choice((0, 0, 0, 2, 4, 6, 20, 21 if source.random() < 0.2 else 0)), weights_of(source)
            line += 1
            print("open", code(currency), *weights, file=quarter)
            print(book, line, code(currency), "{" + ",".join(map(str, weights)) + "}", sep="\t", file=contracts)
            # now and then a book of more rows than one batch has
            for row in rows_of(source, currency, 20_000 if book % 400 == 0 else source.choice((0, 1, 5, 40, 120))):
                line += 1
                print(row.kind, row.currency, row.scale, row.coefficient, file=quarter)
                print(book, line, row.kind, text_of(row.scale, row.coefficient), code(row.currency), sep="\t", file=postings)


if __name__ == "__main__":
    main()
