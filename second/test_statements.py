"""Checks of Asks 3, 11 and 13: statements written, read and walked."""

import itertools
import struct

from amounts import L
from asks import landed
from checks import holds, same
from refusals import Refusal
from source import Source
from statement_calls import bytes_to_read
from statements import (
    RECORDS,
    Record,
    Statement,
    opened_view,
    read_any,
    read_statement,
    records_of,
    size_of,
    write,
    write_reasons,
    write_statement,
)
from test_lines import lines

DOCUMENT_02 = bytes.fromhex(
    "02 00 00 00 00 00 00 00 1E FB FF FF FF FF FF FF"
    "10 00 00 00 01 00 00 00 1E FB FF FF FF FF FF FF 01 00 00 00 00 00 00 00"
)
WITH_REASON = bytes.fromhex(
    "02 00 00 00 00 00 00 00 1E FB FF FF FF FF FF FF 07 00 00 00 00 00 00 00"
    "18 00 00 00 01 00 00 00 1E FB FF FF FF FF FF FF 02 00 00 00 00 00 00 00"
)
NEWER = Refusal(17) if landed(13) else Refusal(14)


def written(version, currency, records, before=b""):
    """A file with these (place, reason, coefficient) records behind the bytes before."""
    places, reasons, coefficients = zip(*records) if records else ((), (), ())
    lent = bytearray(before + b"\xa5" * size_of(version, len(places)))
    same(write(version, currency, places, reasons, coefficients, lent, len(before))[0], None)
    return bytes(lent)


def document_02_whole():
    lent = bytearray(b"\xa5" * 60)
    same(write_statement(0, [2], [-1250], lent, 7), (None, 47))
    same(bytes(lent), b"\xa5" * 7 + DOCUMENT_02 + b"\xa5" * 13)
    same(read_statement(bytes(lent[:47])), Statement(1, 7, 1, -1250))
    same(read_statement(DOCUMENT_02), Statement(1, 0, 1, -1250))
    empty = bytes(16) + b"\1" + bytes(7)
    same(written(1, 20, []), empty)
    same(read_statement(b"xyz" + empty), Statement(1, 3, 0, 0))
    hexes = DOCUMENT_02.hex()
    lines(f"""
statement 0 0 40 1 2 -1250 -> = 40 {hexes}
statement 0 1 42 1 2 -1250 -> = 41 a5{hexes}a5
statement 0 1 24 0 -> ! 11
statement 0 0 24 0 -> = 24 {empty.hex()}
statement 0 0 40 2 2 2 -1250 -> ! 9
statement 0 0 40 3 2 2 -> ?
statement 0 0 40 -1 2 2 -> ?
check {hexes} -> = 0 1 -1250
check {hexes.upper()} -> = 0 1 -1250
check ff{empty.hex()} -> = 1 0 0
check - -> ! 14
check {hexes[1:]} -> ?
check {"00" * 1500} -> ! 14
check {"00" * 1501} -> ?
""")


def refusals_of_runs():
    """The rows in order, each from both sides; a refusal leaves the lent bytes as they stood."""
    for currency, places, coefficients, room, start, number in (
        (21, [16], [L + 1], 0, 0, 3),
        (21, [16], [-L - 1], 0, 0, 3),
        (21, [16], [L], 0, 0, 4),
        (20, [16], [L], 0, 0, 9),
        (20, [15, 3], [L], 0, 0, 9),
        (20, [], [L], 0, 0, 9),
        (20, [3], [], 0, 0, 9),
        (20, [15], [L], 39, 0, 11),
        (20, [15], [L], 40, 1, 11),
        (20, [], [], 24, 25, 11),
        (20, [0] * 4_001, [0] * 4_001, 100_000, 0, 11),
    ):
        lent = bytearray(b"\xa5" * room)
        same(write_statement(currency, places, coefficients, lent, start), (Refusal(number), 0))
        same(bytes(lent), b"\xa5" * room)
    lent = bytearray(64_024)
    same(write_statement(20, [0] * 4_000, [-L] * 4_000, lent, 0), (None, 64_024))
    same(read_statement(bytes(lent)), Statement(1, 0, 4_000, -4_000 * L))
    trailer = struct.pack("<IIqHHI", 64_016, 4_001, -1250 * 4_001, 1, 0, 0)
    same(read_statement(DOCUMENT_02[:16] * 4_001 + trailer), Refusal(14))


def statement_by_writing(data, version):
    """The statement that ends the bytes, found by writing what may stand there again."""
    for count in range((len(data) - 24) // RECORDS[version].size + 1):
        first = len(data) - size_of(version, count)
        fields = list(RECORDS[version].iter_unpack(data[first : len(data) - 24]))
        currency = fields[0][1] if fields else 0
        places, coefficients = [each[0] for each in fields], [each[3] for each in fields]
        reasons = [each[4] for each in fields] if version == 2 else [0] * count
        lent = bytearray(data)
        refusal, _ = write(version, currency, places, reasons, coefficients, lent, first)
        if refusal is None and lent == data:
            return Statement(version, first, count, sum(coefficients))
    return None


def exactly_such_files():
    """The readers accept what the writers write, and nothing else."""
    source, found = Source(13), {1: 0, 2: 0, None: 0}
    for _ in range(600):
        data = bytes_to_read(source)
        first, second = (statement_by_writing(data, version) for version in (1, 2))
        newer = len(data) >= 24 and data[-8:] == b"\2" + bytes(7)
        same(read_statement(data), first or (NEWER if newer else Refusal(14)))
        same(read_any(data), first or second or Refusal(14))
        found[1 if first else 2 if second else None] += 1
    holds(min(found.values()) > 60)


def every_byte_counts():
    """A statement with any one byte changed is another statement or none."""
    for data, version in ((DOCUMENT_02, 1), (WITH_REASON, 2)):
        for place, value in itertools.product(range(len(data)), (0, 1, 2, 99, 100, 255)):
            changed = data[:place] + bytes([value]) + data[place + 1 :]
            expected = statement_by_writing(changed, version) or Refusal(14)
            holds(changed == data or read_any(changed) == expected)


def views():
    """Records in file order, each once; then the end, again and again; they add to the sum."""
    records = [(3, 5, 7), (1, 99, -7), (3, 0, 0), (15, 1, L)]
    for version in (1, 2):
        data = written(version, 4, records, before=b"someone else's")
        reader = read_statement if version == 1 else read_any
        view = opened_view(data, reader)
        reasons = [reason * (version == 2) for _, reason, _ in records]
        for (place, _, coefficient), reason in zip(records, reasons):
            same(view.next(), Record(place, 4, coefficient, reason))
        same([view.next() for _ in range(3)], [None] * 3)
        walked = records_of(opened_view(data, reader))
        same(sum(record.coefficient for record in walked), reader(data).sum)
        same(records_of(opened_view(written(version, 0, []), reader)), [])
    same(opened_view(WITH_REASON), NEWER)
    same(opened_view(b""), Refusal(14))


def lines_of_views():
    lines(f"""
view {DOCUMENT_02.hex()} -> = 0 2 -1250
view ff{written(1, 7, [(0, 0, 5), (15, 0, -6)]).hex()} -> = 7 0 5 15 -6
view {written(1, 7, []).hex()} -> =
view {WITH_REASON.hex()} -> ! {NEWER.number}
view 00 -> ! 14
view - -> ! 14
view 0 -> ?
""")


def refusals_of_reasons():
    for currency, places, reasons, coefficients, room, number in (
        (21, [16], [100], [L + 1], 0, 3),
        (21, [16], [100], [L], 0, 4),
        (20, [15], [100], [L], 0, 9),
        (20, [16], [99], [L], 0, 9),
        (20, [15], [], [L], 0, 9),
        (20, [15], [9, 9], [L], 0, 9),
        (20, [15, 1], [9, 9], [L], 0, 9),
        (20, [15], [99], [L], 47, 11),
        (20, [0] * 4_001, [0] * 4_001, [0] * 4_001, 100_000, 11),
    ):
        lent = bytearray(room)
        same(write_reasons(currency, places, reasons, coefficients, lent, 0), (Refusal(number), 0))
    lent = bytearray(b"\xa5" * 50)
    same(write_reasons(0, [2], [7], [-1250], lent, 1), (None, 49))
    same(bytes(lent), b"\xa5" + WITH_REASON + b"\xa5")
    many = written(2, 20, [(0, 99, L)] * 4_000)
    same((len(many), read_any(many)), (96_024, Statement(2, 0, 4_000, 4_000 * L)))


def lines_of_reasons():
    lines(f"""
reasons 0 0 48 1 1 2 7 -1250 -> = 48 {WITH_REASON.hex()}
reasons 0 0 48 1 1 2 100 -1250 -> ! 9
reasons 0 0 48 1 2 2 7 -1250 -> ! 9
reasons 0 0 48 2 2 2 7 -1250 -> ?
check-any {WITH_REASON.hex()} -> = 2 0 1 -1250
check-any ff{DOCUMENT_02.hex()} -> = 1 1 1 -1250
check-any 00 -> ! 14
view-any {WITH_REASON.hex()} -> = 0 2 -1250 7
view-any {DOCUMENT_02.hex()} -> = 0 2 -1250 0
view-any {written(2, 0, []).hex()} -> =
refund 0 2 1 99 -> ! 9
refund 0 2 1 100 -> ?
refund 0 2 1 -1 -> ?
refund 0 2 1 5 5 -> ?
post 0 2 1 5 -> ?
open 0 1 -> = open
post 0 2 5 -> = 5 5{" 0" * 15}
refund 0 2 1 99 -> = 4 1{" 0" * 15}
refund 0 2 1 0 -> = 3 1{" 0" * 15}
""")


def old_readers_and_version_2():
    """17 for version 2 and six zeros in the last 24 bytes, whatever else they hold."""
    for data, expected in (
        (WITH_REASON, Refusal(17)),
        (b"\xff" * 16 + b"\2" + bytes(7), Refusal(17)),
        (b"\xff" * 99 + b"\2" + bytes(7), Refusal(17)),
        (b"\xff" * 15 + b"\2" + bytes(7), Refusal(14)),
        (WITH_REASON[:-1] + b"\1", Refusal(14)),
        (WITH_REASON[:-6] + b"\1" + bytes(5), Refusal(14)),
        (b"\xff" * 16 + b"\2\1" + bytes(6), Refusal(14)),
        (b"\xff" * 16 + b"\3" + bytes(7), Refusal(14)),
        (DOCUMENT_02, Statement(1, 0, 1, -1250)),
    ):
        same(read_statement(data), expected)
        found = opened_view(data)
        same(found if isinstance(found, Refusal) else found.statement, expected)


def statements_with_codes():
    lines(f"""
statement EUR 0 40 1 2 -1250 -> = 40 {DOCUMENT_02.hex()}
statement XXX 0 40 1 2 -1250 -> ! 4
statement eur 0 40 1 2 -1250 -> ?
""")


def reasons_with_codes():
    lines(f"""
reasons EUR 0 48 1 1 2 7 -1250 -> = 48 {WITH_REASON.hex()}
open EUR 1 -> = open
post EUR 0.05 -> = 0.05 0.05{" 0.00" * 15}
refund EUR 0.01 99 -> = 0.04 0.01{" 0.00" * 15}
refund EUR 0.01 100 -> ?
""")


CHECKS = (
    ({3}, document_02_whole),
    ({3}, refusals_of_runs),
    ({3}, exactly_such_files),
    ({3}, every_byte_counts),
    ({11}, views),
    ({11}, lines_of_views),
    ({13}, refusals_of_reasons),
    ({13}, lines_of_reasons),
    ({13}, old_readers_and_version_2),
    ({1, 3}, statements_with_codes),
    ({1, 13}, reasons_with_codes),
)
