"""Generated statements: lists that are written, and bytes that are read, good and damaged."""

import struct

from amounts import L
from statements import RECORDS, TRAILER, size_of, write

MOST_BYTES = 1_500


def good_lists(source, version):
    """A currency, places, reasons (zeros in version 1) and coefficients that are accepted."""
    count = source.below(source.pick(1, 3, 6, 6, 25))
    places = [source.below(16) for _ in range(count)]
    reasons = [source.below(100) * (version == 2) for _ in range(count)]
    coefficients = [source.pick(1, -1) * source.magnitude() for _ in range(count)]
    coefficients = [each if abs(each) <= L else source.pick(L, -L) for each in coefficients]
    return source.below(21), places, reasons, coefficients


def run_of(source, version):
    """The numbers of a run; on some one of them is at or beside its limit."""
    currency, places, reasons, coefficients = good_lists(source, version)
    start = source.number(source.below(40), (0, 1, MOST_BYTES))
    size = size_of(version, len(places))
    room = source.number(start + size + source.pick(0, 0, 0, 1, 9, -1), (0, 24, MOST_BYTES))
    spoilt = [(places, (15, 16)), (coefficients, (L, -L))] + [(reasons, (99, 100))] * (version == 2)
    numbers, edges = source.pick(*spoilt)
    if numbers and source.chance(25):
        numbers[source.below(len(numbers))] = source.number(source.beside(*edges), edges)
    if source.chance(6):
        source.pick(places, coefficients).append(1)
    counts = [len(places)] + [len(reasons)] * (version == 2)
    if source.chance(4):
        counts[0] = source.number(source.below(9), (0, 5))
    currency = source.number(currency, (20, 21))
    return [currency, start, room] + counts + places + reasons * (version == 2) + coefficients


def with_field(data, start, form, value):
    """The bytes with another value in a field."""
    field = struct.pack(form, value % 256 ** struct.calcsize(form))
    return data[:start] + field + data[start + len(field) :]


def damaged_trailer(source, data):
    """Another distance, count, sum, version or zero."""
    start = len(data) - TRAILER.size
    distance, count, total, version = (0, "<I"), (4, "<I"), (8, "<Q"), (16, "<H")
    zeros = ((18, "<I"), (23, "<B"))
    offset, form = source.pick(distance, count, total, version, version, *zeros)
    found = struct.unpack_from(form, data, start + offset)[0]
    value = found + source.pick(1, -1, 16, 24, 256, 4_000)
    return with_field(data, start + offset, form, source.pick(value, value, 0, 1, 2))


def damaged_record(source, version, data, first, count):
    """Another place, currency, zero, coefficient or reason code, the sum being kept or not."""
    start = first + source.below(count) * RECORDS[version].size
    place = (0, "<H", source.pick(15, 16, 256))
    currency = (2, "<H", source.pick(0, 20, 21, 256))
    zero = (4 + source.below(4), "<B", source.pick(0, 1))
    coefficient = (8, "<Q", source.pick(L, L + 1, -L, -L - 1))
    reason = (16, "<H", source.pick(99, 100, 256))
    last_zero = (18 + source.below(6), "<B", source.pick(0, 1))
    fields = [place, currency, zero, coefficient] + [reason, last_zero] * (version == 2)
    offset, form, value = source.pick(*fields)
    if form == "<Q" and source.chance(70):
        found = struct.unpack_from("<q", data, start + 8)[0]
        total = struct.unpack_from("<q", data, len(data) - 16)[0]
        data = with_field(data, len(data) - 16, "<Q", total - found + value)
    return with_field(data, start + offset, form, value)


def bytes_to_read(source):
    """A statement behind someone else's bytes; on many something is damaged."""
    version = source.pick(1, 1, 2)
    currency, places, reasons, coefficients = good_lists(source, version)
    first = source.below(source.pick(1, 3, 40))
    lent = bytearray(source.below(256) for _ in range(first + size_of(version, len(places))))
    write(version, currency, places, reasons, coefficients, lent, first)
    data, dice = bytes(lent), source.below(100)
    if dice < 25:
        data = damaged_trailer(source, data)
    elif dice < 50 and places:
        data = damaged_record(source, version, data, first, len(places))
    elif dice < 55:
        data = data[source.below(len(data)) :]
    elif dice < 60:
        data = data[: source.below(len(data) + 1)]
    elif dice < 62:
        data += bytes(source.below(3))
    return data


def read_run(source):
    """The hexadecimal digits of such bytes, now and then in capitals."""
    digits = bytes_to_read(source).hex().encode("ascii")
    return [(digits.upper() if source.chance(10) else digits) or b"-"]


def statement(source):
    return run_of(source, 1)


def reasons(source):
    return run_of(source, 2)
