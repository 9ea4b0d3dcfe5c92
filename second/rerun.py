"""rerun: runs the postings and refunds of each book again and reports on every book."""

from book import new_card, open_book
from command import (
    ALL_WELL,
    CHECK_FAILED,
    NOT_ALL_ACCEPTED,
    READING_OR_WRITING_FAILED,
    run,
)
from lines import is_copied
from quarter import CARD, OPEN, asked_of_book, ends_the_book
from reading import Reading
from refusals import Refusal
from reports import Cards, Report, check_failed
from styles import style_of
from texts import with_texts_read

BOOK_NONE = "book none"


def listed(weights):
    return " ".join(str(weight) for weight in weights)


def report_on_opening(style, currency, weights):
    refusal, book = open_book(currency, weights)
    if refusal is not None:
        return Report(f"book refused {refusal.number}")
    heading = f"book {style.currency(currency)} weights {listed(weights)}"
    return Report(heading, book, style)


class Rerun:
    """Writes each report when its book or card ends, so that only one is held at a time."""

    def __init__(self, output):
        self.output = output
        self.report = Report(BOOK_NONE)
        self.cards = Cards()
        self.statuses = set()

    def take(self, line, line_number):
        """Counts a line that is neither empty nor a comment."""
        asked = asked_of_book(line)
        if asked is None:
            self.take_not_understood(line, line_number)
        elif asked.verb == OPEN:
            currency, *weights = asked.values
            self.begin(report_on_opening(style_of(asked.by_code), currency, weights))
        elif asked.verb == CARD:
            self.take_card(asked.values, line_number)
        else:
            self.take_step(asked.verb, asked.values, line_number)

    def take_not_understood(self, line, line_number):
        if ends_the_book(line):
            self.begin(Report("book not understood"))
        self.report.not_understood.add(line_number)

    def take_step(self, verb, values, line_number):
        """A posting or a refund; a text that is refused counts as refused with its number."""
        read = with_texts_read(values)
        if isinstance(read, Refusal):
            self.report.refuse(read, line_number)
        else:
            self.report.take(verb, read[0], line_number)

    def take_card(self, weights, line_number):
        """An accepted card is counted in no part; a refused one in the part it stands in."""
        step = new_card(self.report.book, weights)
        if step.refusal is not None:
            self.report.refuse(step.refusal, line_number)
            return
        self.write_report()
        heading = f"card {step.book.card} weights {listed(weights)}"
        self.report = Report(heading, step.book, self.report.style)

    def begin(self, report):
        self.end_book()
        self.report = report

    def end_book(self):
        """Writes the last report on a book, and what its cards come to if it has more than one."""
        self.write_report()
        if self.cards.number > 1:
            lines = list(self.cards.lines(self.report))
            self.statuses.add(CHECK_FAILED if check_failed(lines) else ALL_WELL)
            self.write_all(lines)
        self.cards = Cards()

    def write_report(self):
        """Lines before any opening are reported where there are any."""
        if self.report.heading == BOOK_NONE and not self.report.counts_any_line():
            return
        lines = list(self.report.lines())
        self.statuses.add(self.report.status(lines))
        self.write_all(lines)
        if self.report.is_opened:
            self.cards.add(self.report)

    def write_all(self, lines):
        for line in lines:
            self.output.write(line.encode("ascii") + b"\n")

    def end(self, reading):
        """Writes the last report and the last line, and gives the status."""
        self.end_book()
        self.write_all([end_line(reading)])
        self.output.flush()
        if reading.failed:
            return READING_OR_WRITING_FAILED
        if CHECK_FAILED in self.statuses:
            return CHECK_FAILED
        not_all_accepted = NOT_ALL_ACCEPTED in self.statuses or reading.unended
        return NOT_ALL_ACCEPTED if not_all_accepted else ALL_WELL


def end_line(reading):
    if reading.failed:
        return f"end FAILED after {reading.lines} lines"
    return f"end {reading.lines} lines" + ", the last one unended" * reading.unended


def rerun(stream, output):
    """Reads every line of the stream and reports on each book. Gives the status."""
    counting, reading = Rerun(output), Reading(stream)
    for line in reading:
        if not is_copied(line):
            counting.take(line, reading.lines)
    return counting.end(reading)


if __name__ == "__main__":
    run(rerun)
