"""Statements for partners: records and a trailer that points back, written and read.

Version 1 is Ask 3's; version 2 is Ask 13's, whose records have a reason code.
"""

import struct
from typing import NamedTuple

from amounts import currency_over_20, over_L
from asks import landed
from book import PARTNERS
from refusals import Refusal, answer, first_refusal

MOST_RECORDS = 4_000
LARGEST_REASON = 99
# place, currency, four zeros, coefficient; then the reason code and six zeros
RECORDS = {1: struct.Struct("<HH4sq"), 2: struct.Struct("<HH4sqH6s")}
# distance back to the first record, record count, sum of the coefficients, version, six zeros
TRAILER = struct.Struct("<IIqH6s")
ZEROS = (bytes(4), bytes(6))
LONGEST_STATEMENT = MOST_RECORDS * RECORDS[2].size + TRAILER.size


class Record(NamedTuple):
    """The payout of a partner; its reason is 0 in version 1."""

    place: int
    currency: int
    coefficient: int
    reason: int = 0


class Statement(NamedTuple):
    """What a reader answers; `first` is the first record's start, from the first byte given."""

    version: int
    first: int
    count: int
    sum: int


def size_of(version, count):
    return count * RECORDS[version].size + TRAILER.size


def packed(version, record):
    """A record's bytes; version 1 has no place for its reason."""
    reason = (record.reason, ZEROS[1]) if version == 2 else ()
    return RECORDS[version].pack(
        record.place, record.currency, ZEROS[0], record.coefficient, *reason
    )


def trailer_of(version, records):
    total = sum(record.coefficient for record in records)
    distance = len(records) * RECORDS[version].size
    return TRAILER.pack(distance, len(records), total, version, ZEROS[1])


def lists_break_rule(places, coefficients, reasons):
    """Lists of unequal length, a place over 15, or a reason code over 99."""
    if not len(places) == len(coefficients) == len(reasons):
        return True
    return any(place >= PARTNERS for place in places) or any(
        reason > LARGEST_REASON for reason in reasons
    )


def no_room(version, count, lent, start):
    """Over 4,000 records, or too little room after the start."""
    return count > MOST_RECORDS or len(lent) < start + size_of(version, count)


def write(version, currency, places, reasons, coefficients, lent, start):
    """Writes the records and their trailer into the lent bytes from the start on.

    Gives (None, the file's end), or (a refusal, 0), which leaves the lent bytes as they stood.
    """
    rows = [
        (3, lambda: any(map(over_L, coefficients))),
        (4, lambda: currency_over_20(currency)),
        (9, lambda: lists_break_rule(places, coefficients, reasons)),
        (11, lambda: no_room(version, len(places), lent, start)),
    ]
    refusal = first_refusal(rows)
    if refusal is not None:
        return refusal, 0
    records = [
        Record(place, currency, coefficient, reason)
        for place, coefficient, reason in zip(places, coefficients, reasons)
    ]
    end = start
    for part in [packed(version, each) for each in records] + [trailer_of(version, records)]:
        lent[end : end + len(part)] = part
        end += len(part)
    return None, end


def write_statement(currency, places, coefficients, lent, start):
    """Ask 3's run."""
    no_reasons = (0,) * len(places)
    return write(1, currency, places, no_reasons, coefficients, lent, start)


def write_reasons(currency, places, reasons, coefficients, lent, start):
    """Ask 13's run."""
    return write(2, currency, places, reasons, coefficients, lent, start)


def record_at(version, data, start):
    """The record that begins there, or None where its zeros aren't zeros."""
    place, currency, zeros, coefficient, *rest = RECORDS[version].unpack_from(data, start)
    reason, more_zeros = rest or (0, ZEROS[1])
    if (zeros, more_zeros) != ZEROS:
        return None
    return Record(place, currency, coefficient, reason)


def record_of(statement, data, index):
    """The walk, for both sizes: the statement's record of that index, from 0 on."""
    start = statement.first + index * RECORDS[statement.version].size
    return record_at(statement.version, data, start)


def record_is_good(record, currency):
    """Of the one known currency, a place 0 to 15, a code to 99, a coefficient within L."""
    if record is None or record.currency != currency or currency_over_20(currency):
        return False
    within = not over_L(record.coefficient) and record.reason <= LARGEST_REASON
    return within and record.place < PARTNERS


def records_are_good(statement, data):
    """The records of one known currency, and the sum right; an empty statement has none."""
    records = [record_of(statement, data, index) for index in range(statement.count)]
    currency = records[0].currency if records and records[0] else None
    if not all(record_is_good(record, currency) for record in records):
        return False
    return sum(record.coefficient for record in records) == statement.sum


def statement_of(data, versions):
    """The statement of one of these versions that ends where the bytes do, or None."""
    if len(data) < TRAILER.size:
        return None
    distance, count, total, version, zeros = TRAILER.unpack(data[-TRAILER.size :])
    if version not in versions or zeros != ZEROS[1] or count > MOST_RECORDS:
        return None
    first = len(data) - size_of(version, count)
    if distance != count * RECORDS[version].size or first < 0:
        return None
    statement = Statement(version, first, count, total)
    return statement if records_are_good(statement, data) else None


def is_newer(data):
    """Do the last 24 bytes hold version 2 and six zeros? Asked from Ask 13 on."""
    if not landed(13) or len(data) < TRAILER.size:
        return False
    *_, version, zeros = TRAILER.unpack(data[-TRAILER.size :])
    return version == 2 and zeros == ZEROS[1]


def read_statement(data):
    """Ask 3's reader: the statement of version 1 at the bytes' end, or a refusal."""
    found = statement_of(data, (1,))
    return answer([(17, lambda: is_newer(data)), (14, lambda: found is None)], lambda: found)


def read_any(data):
    """Ask 13's reader: the statement of either version at the bytes' end, or a refusal."""
    found = statement_of(data, (1, 2))
    return answer([(14, lambda: found is None)], lambda: found)


class View:
    """Ask 11's reader: it keeps hold of the statement's bytes and its place among them."""

    def __init__(self, statement, data):
        self.statement = statement
        self.data = data
        self.place = 0

    def next(self):
        """The next record in file order; None at the end, and from then on."""
        if self.place == self.statement.count:
            return None
        self.place += 1
        return record_of(self.statement, self.data, self.place - 1)


def opened_view(data, reader=read_statement):
    """A view on exactly the files that the reader accepts, or its refusal."""
    found = reader(data)
    return found if isinstance(found, Refusal) else View(found, data)


def records_of(view):
    """Every record, each once."""
    return list(iter(view.next, None))
