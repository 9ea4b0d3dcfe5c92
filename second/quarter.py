"""A quarter's file: which of its lines are understood, and which end a book."""

from asks import landed
from book import post, refund
from lines import first_word_is, understood

OPEN, CARD, POST, REFUND = b"open", b"card", b"post", b"refund"
STEPS = {POST: post, REFUND: refund}
# verbs whose line ends the book also where it is not understood
ENDING_VERBS = (OPEN, CARD) if landed(9) else (OPEN,)


def asked_of_book(line):
    """What the line asks of a book, or None for a line that is not understood."""
    asked = understood(line)
    is_of_book = asked is not None and asked.verb in (OPEN, CARD, *STEPS)
    return asked if is_of_book else None


def ends_the_book(line):
    """Is it an `open` or a `card`? Asked of a line that is not understood."""
    return any(first_word_is(verb, line) for verb in ENDING_VERBS)
