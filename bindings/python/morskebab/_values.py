"""What goes in and what is refused: whole numbers and lists as C holds them, each error with the field's name, and `Refused`."""
from __future__ import annotations

import operator
from collections.abc import Mapping
from ctypes import Array, c_bool, c_uint8, sizeof
from typing import Any

REASONS = {
    1: "the mode isn't 0 to 6",
    2: "a scale is over 6, or isn't the currency's own digits, or (doubles) is over 3",
    3: "a given coefficient, net total or settled total is over L, or the settled totals and the net total in sum, or a factor's magnitude over 10^18",
    4: "a currency number is over 20",
    5: "two currencies that must agree differ",
    6: "a divisor, a rate, a number of vouchers or of periods or the basis is outside its limits",
    7: "a date doesn't exist or its year isn't 1900 to 2199",
    8: "the end is before the start, or the day count is over 366",
    9: "weights, a card number or settled totals past the count break their rule, lists differ in length, or a statement's place is over 15 or its reason over 99",
    10: "a posting, a refund, a table's principal, a given net total or a settled total is negative",
    11: "the lent output is too short",
    12: "a refund is greater than the net total",
    13: "the result, the euro step, a row of a table or the new net total, the settled totals added, is over L, or a plain quotient over 10^18",
    14: "a text isn't of its form, or the bytes end in no statement file",
    15: "no net has the gross",
    16: "a double is no number or infinite",
    17: "the bytes end in a statement file's trailer of version 2",
}


class Refused(Exception):
    """A call was refused: `number` is document 01's, `blamed` 1 or 2 for the first or second date with number 7, else 0."""

    def __init__(self, number: int, blamed: int = 0) -> None:
        # the arguments as they are, so that it can be pickled and raised again in another process
        super().__init__(number, blamed)
        self.number = number
        self.blamed = blamed

    def __str__(self) -> str:
        date = {1: " (the first date)", 2: " (the second date)"}.get(self.blamed, "")
        return f"refusal {self.number}: {REASONS[self.number]}{date}"


def accepted(answer: Any) -> Any:
    """An answer, or `Refused` where it is a refusal."""
    if answer.refusal:
        raise Refused(answer.refusal, answer.blamed)
    return answer


def whole(kind: Any, field: str, value: Any) -> int:
    """The value as the C type holds it, a whole number, or a bool; TypeError or OverflowError with the field's name."""
    if kind is c_bool:
        return is_a(bool, field, value)
    try:
        n = operator.index(value)
    except TypeError:
        raise TypeError(f"{field} must be a whole number, not {type(value).__name__}") from None
    if kind(n).value != n:
        most = 2 ** (8 * sizeof(kind) - (kind(-1).value < 0)) - 1
        raise OverflowError(f"{field}: {n} is outside {-most - 1 if kind(-1).value < 0 else 0} to {most}")
    return n


def as_list(kind: Any, field: str, values: Any) -> tuple[Array, int]:
    """The values as a C list, and their number; TypeError where they have no order."""
    if isinstance(values, (Mapping, str, bytes, bytearray)) or not hasattr(values, "__getitem__"):
        raise TypeError(f"{field} must be a list or another sequence, not {type(values).__name__}")
    held = [whole(kind, f"{field}[{place}]", value) for place, value in enumerate(values)]
    # one place more, so that an empty list has an address too
    return (kind * (len(held) + 1))(*held), len(held)


def as_bytes(field: str, text: Any) -> tuple[Array, int]:
    """A str's characters as bytes, and their number; one that ASCII hasn't becomes several bytes, none of them a digit."""
    held = is_a(str, field, text).encode("utf-8", "surrogatepass")
    return (c_uint8 * (len(held) + 1))(*held), len(held)


def is_a(kind: type, field: str, value: Any) -> Any:
    if not isinstance(value, kind):
        raise TypeError(f"{field} must be {kind.__name__}, not {type(value).__name__}")
    return value
