"""Statement files: written, checked, and viewed record by record.

    >>> out = bytearray(56)
    >>> write_statement(0, [2, 0], [-1250, 700], out)
    56
    >>> check_statement(out)
    Statement(first=0, count=2, sum=-550)
    >>> for payout in View(out):
    ...     print(payout)
    Payout(place=2, currency=0, coefficient=-1250)
    Payout(place=0, currency=0, coefficient=700)
    >>> chargeback = bytearray(48)
    >>> write_reasons(0, [2], [7], [-1250], chargeback)
    48
    >>> list(AnyView(chargeback))
    [Reasoned(place=2, currency=0, coefficient=-1250, reason=7)]
"""
from __future__ import annotations

from collections.abc import Sequence
from ctypes import c_int64, c_uint16
from mmap import mmap
from typing import NamedTuple, Union

from ._c import library
from ._memory import Memory
from ._values import accepted, as_list, whole

Bytes = Union[bytes, bytearray, memoryview, mmap]


class Statement(NamedTuple):
    """What a statement file says of itself: its first record's start, the count of its records and the sum of their coefficients."""

    first: int
    count: int
    sum: int


class Payout(NamedTuple):
    """What a record says of one payout: the partner's place, the currency number, and the coefficient at the currency's own digits."""

    place: int
    currency: int
    coefficient: int


class AnyStatement(NamedTuple):
    """What a statement file of either version says of itself: its version, 1 or 2, and the same."""

    version: int
    first: int
    count: int
    sum: int


class Reasoned(NamedTuple):
    """What a record of either version says of one payout; the reason is 0 in version 1."""

    place: int
    currency: int
    coefficient: int
    reason: int


def write_statement(currency: int, places: Sequence[int], coefficients: Sequence[int], out: bytearray | memoryview | mmap, start: int = 0) -> int:
    """A statement file in `out` from the byte `start` on, a record for each payout and a trailer; the file's end. No other byte changes, and none
    where the call is refused: refusals 3, 4, 9, 11."""
    partners, count = as_list(c_uint16, "places", places)
    payouts, others = as_list(c_int64, "coefficients", coefficients)
    lent = Memory("out", out, written=True)
    numbers = whole(c_int64, "currency", currency), whole(c_int64, "start", start)
    return accepted(library.mkb_write_statement(numbers[0], partners, count, payouts, others, lent.first, lent.length, numbers[1])).end


def write_reasons(
    currency: int, places: Sequence[int], reasons: Sequence[int], coefficients: Sequence[int], out: bytearray | memoryview | mmap, start: int = 0
) -> int:
    """The same with a reason code of 0 to 99 beside each payout, as a file of version 2: refusals 3, 4, 9, 11."""
    partners, count = as_list(c_uint16, "places", places)
    codes, given = as_list(c_uint16, "reasons", reasons)
    payouts, others = as_list(c_int64, "coefficients", coefficients)
    lent = Memory("out", out, written=True)
    numbers = whole(c_int64, "currency", currency), whole(c_int64, "start", start)
    lists = partners, count, codes, given, payouts, others
    return accepted(library.mkb_write_reasons(numbers[0], *lists, lent.first, lent.length, numbers[1])).end


def check_statement(data: Bytes) -> Statement:
    """The statement file that the bytes end in: refusal 17 where their trailer is of version 2, else 14 where they end in none."""
    lent = Memory("data", data)
    answer = accepted(library.mkb_check_statement(lent.first, lent.length))
    return Statement(answer.first, answer.count, answer.sum)


def check_any(data: Bytes) -> AnyStatement:
    """The statement file of either version that the bytes end in: refusal 14 where they end in none."""
    lent = Memory("data", data)
    answer = accepted(library.mkb_check_any(lent.first, lent.length))
    return AnyStatement(answer.version, answer.first, answer.count, answer.sum)


class View:
    """An iterator over the payouts of the statement file that the bytes end in, in file order and each once: refusals 17 and 14 as by
    `check_statement`. It keeps hold of the bytes, which nobody should change meanwhile, and of its place among them."""

    def __init__(self, data: Bytes) -> None:
        self._lent = Memory("data", data)
        self._next = accepted(library.mkb_first_payout(self._lent.first, self._lent.length)).first

    def __iter__(self) -> View:
        return self

    def __next__(self) -> Payout:
        step = library.mkb_payout_at(self._lent.first, self._lent.length, self._next)
        self._next = step.next
        if step.ended:
            raise StopIteration
        return Payout(step.place, step.currency, step.coefficient)


class AnyView:
    """The same of a statement file of either version, with the reasons: refusal 14 where the bytes end in none. `version` is 1 or 2."""

    def __init__(self, data: Bytes) -> None:
        self._lent = Memory("data", data)
        said = accepted(library.mkb_check_any(self._lent.first, self._lent.length))
        self.version: int = said.version
        self._next = said.first

    def __iter__(self) -> AnyView:
        return self

    def __next__(self) -> Reasoned:
        step = library.mkb_reasoned_at(self._lent.first, self._lent.length, self.version, self._next)
        self._next = step.next
        if step.ended:
            raise StopIteration
        return Reasoned(step.place, step.currency, step.coefficient, step.reason)
