"""view FILE: prints the statements of a file, the last one first, and what is before them."""

import os

from asks import landed
from command import (
    ALL_WELL,
    COMMAND_NOT_UNDERSTOOD,
    READING_OR_WRITING_FAILED,
    complain,
    end_with,
    status_of,
)
from refusals import Refusal
from statements import LONGEST_STATEMENT, opened_view, read_any, read_statement

READER = read_any if landed(13) else read_statement


class ReadingFailed(Exception):
    """The file can't be opened, or not be read to its end or from its middle."""


def length_of(file):
    try:
        return file.seek(0, os.SEEK_END)
    except OSError as error:
        raise ReadingFailed from error


def bytes_between(file, start, end):
    try:
        file.seek(start)
        found = file.read(end - start)
    except OSError as error:
        raise ReadingFailed from error
    if len(found) < end - start:
        raise ReadingFailed
    return found


def lines_of(view):
    """A statement's lines; its currency is that of its records, and none where it has none."""
    found, first = view.statement, view.next()
    currency = "-" if first is None else first.currency
    yield (
        f"statement version {found.version} records {found.count} "
        f"sum {found.sum} currency {currency}"
    )
    record = first
    while record is not None:
        yield f"record {record.place} {record.coefficient} {record.reason}"
        record = view.next()


def lines_from_end(file):
    """All lines. No more than the longest statement is held of the file."""
    left = length_of(file)
    while left > 0:
        start = max(0, left - LONGEST_STATEMENT)
        view = opened_view(bytes_between(file, start, left), READER)
        if isinstance(view, Refusal):
            yield f"other {left}"
            return
        yield from lines_of(view)
        left = start + view.statement.first


def write_views(file, output):
    """Gives the status; what was printed before reading failed stands."""
    try:
        for line in lines_from_end(file):
            output.write(line.encode("ascii") + b"\n")
    except ReadingFailed:
        return READING_OR_WRITING_FAILED
    finally:
        output.flush()
    return ALL_WELL


def view(arguments):
    if len(arguments) != 1:
        complain("one argument: the file to walk")
        return COMMAND_NOT_UNDERSTOOD
    return status_of(write_views, [] if arguments == ["-"] else arguments)


if __name__ == "__main__":
    end_with(view)
