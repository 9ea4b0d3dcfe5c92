"""Refusals: an answer is the value or a refusal, never both."""

from typing import NamedTuple


# document 02 says where each of its numbers stands: 17 before 14, 14 before 13, then 15, 16
ORDER = (1, 2, 3, 4, 5, 6, 7, 8, 9, 10, 11, 12, 17, 14, 13, 15, 16)


class Refusal(NamedTuple):
    """A number of the refusal table; number 7 also says which date it blames."""

    number: int
    blames: str = ""


def first_refusal(rows):
    """The refusal of the first row that holds, or None where no row holds.

    A row is (number, holds), or (number, holds, blames) for a date, in the order
    of the table. `holds` is asked only when no row above it held, so a row may
    rely on the rows above it.
    """
    places = [ORDER.index(row[0]) for row in rows]
    assert places == sorted(places), "rows are listed in the table's order"
    for number, holds, *blames in rows:
        if holds():
            return Refusal(number, *blames)
    return None


def answer(rows, value):
    """The refusal of the first row that holds, else the value."""
    refusal = first_refusal(rows)
    return value() if refusal is None else refusal
