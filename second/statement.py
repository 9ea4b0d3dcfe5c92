"""statement FILE OUT: writes the payouts of a quarter's file to OUT, as statements for partners."""

import os

from asks import landed
from book import ALL_ZERO_BOOK, new_card, open_book
from command import (
    ALL_WELL,
    COMMAND_NOT_UNDERSTOOD,
    READING_OR_WRITING_FAILED,
    Unreadable,
    complain,
    end_with,
    opened,
)
from lines import is_copied
from quarter import CARD, OPEN, REFUND, STEPS, asked_of_book, ends_the_book
from reading import Reading
from refusals import Refusal
from statements import MOST_RECORDS, size_of, write
from texts import with_texts_read

VERSION = 2 if landed(13) else 1


class Statements:
    """Closes a statement before a line's records would take it over 4,000, and at the end of
    each book. Where no book is open it is the all-zero one, to which every line is refused."""

    def __init__(self, output):
        self.output = output
        self.book = ALL_ZERO_BOOK
        self.records = []

    def take(self, line):
        """Takes a line that is neither empty nor a comment."""
        asked = asked_of_book(line)
        if asked is None:
            if ends_the_book(line):
                self.begin(ALL_ZERO_BOOK)
        elif asked.verb == OPEN:
            currency, *weights = asked.values
            self.begin(open_book(currency, weights)[1])
        elif asked.verb == CARD:
            self.book = new_card(self.book, asked.values).book
        else:
            self.take_step(asked.verb, with_texts_read(asked.values))

    def take_step(self, verb, values):
        """A posting or a refund; a refused one pays sixteen zeros, and so has no record."""
        if isinstance(values, Refusal):
            return
        amount, reason = (*values, 0)[:2]
        step = STEPS[verb](self.book, amount)
        self.book = step.book
        sign = -1 if verb == REFUND else 1
        payouts = [(place, payout) for place, payout in enumerate(step.payouts) if payout > 0]
        if len(self.records) + len(payouts) > MOST_RECORDS:
            self.close()
        self.records += [(place, reason, sign * payout) for place, payout in payouts]

    def close(self):
        places, reasons, coefficients = zip(*self.records) if self.records else ((), (), ())
        statement = bytearray(size_of(VERSION, len(places)))
        write(VERSION, self.book.currency, places, reasons, coefficients, statement, 0)
        self.output.write(statement)
        self.records = []

    def begin(self, book):
        self.end_book()
        self.book = book

    def end_book(self):
        """A book without a payout has an empty statement."""
        if self.book != ALL_ZERO_BOOK:
            self.close()


def write_statements(stream, output):
    """Reads every line of the stream; gives the status."""
    statements, reading = Statements(output), Reading(stream)
    for line in reading:
        if not is_copied(line):
            statements.take(line)
    statements.end_book()
    return READING_OR_WRITING_FAILED if reading.failed else ALL_WELL


def status_of_writing(stream, output, out):
    try:
        with output:
            return write_statements(stream, output)
    except OSError as error:
        complain(f"{out}: {error.strerror}")
        return READING_OR_WRITING_FAILED


def statement(arguments):
    """Gives the status. An OUT that exists is left alone, none is made for a FILE that can't be
    opened, and none is left where reading or writing failed."""
    if len(arguments) != 2:
        complain("two arguments: the file to read, and a file to write that does not exist")
        return COMMAND_NOT_UNDERSTOOD
    file, out = arguments
    stream = opened([] if file == "-" else [file])
    if isinstance(stream, Unreadable):
        return READING_OR_WRITING_FAILED
    try:
        output = open(out, "xb")
    except OSError as error:
        complain(f"{out}: {error.strerror}")
        return READING_OR_WRITING_FAILED
    status = status_of_writing(stream, output, out)
    if status == READING_OR_WRITING_FAILED:
        os.unlink(out)
    return status


if __name__ == "__main__":
    end_with(statement)
