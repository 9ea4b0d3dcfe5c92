"""desk: one answer line for each line of the input, in order."""

from amounts import CURRENCIES, negation_of, order_of, rescaled, sum_of
from book import ALL_ZERO_BOOK, new_card, open_book, post, refund, settled, totals
from command import ALL_WELL, READING_OR_WRITING_FAILED, run
from compound import compound
from dates import Date
from doubles import export, row_of
from euro import convert
from interest import interest
from lines import is_copied, understood
from reading import Reading
from refusals import Refusal
from rounding import round_product, round_quotient
from sharing import share
from statements import opened_view, read_any, read_statement, records_of
from statements import write_reasons, write_statement
from styles import InNumbers, style_of
from tax import net_for, tax_from_gross, tax_from_net
from texts import read_text, with_texts_read, write_text
from vouchers import vouchers

NOT_UNDERSTOOD = "?"


def refused(refusal):
    """`! NUMBER`, and for a date which of the two it blames."""
    return f"! {refusal.number} {refusal.blames}".rstrip()


def accepted(values):
    return " ".join(["="] + [str(value) for value in values])


def said(answer, values_of):
    """The answer line: a refusal, or the values that are printed of an accepted answer."""
    if isinstance(answer, Refusal):
        return refused(answer)
    return accepted(values_of(answer))


def filled(refusal, values):
    """The answer line of a call that hands both back: all places of a lent list, a book's
    step; or the refusal."""
    return accepted(values) if refusal is None else refused(refusal)


def one_value(value):
    return [value]


def coefficients(style, scale):
    """How coefficients at the scale are printed in that style."""
    return lambda found: [style.coefficient(scale, each) for each in found]


def records_said(view, with_reasons):
    """The one currency and every record, or nothing for an empty statement."""
    records = records_of(view)
    values = [record.currency for record in records[:1]]
    for record in records:
        values += [record.place, record.coefficient] + [record.reason] * with_reasons
    return values


class Desk:
    """Answers one line after another; keeps the current book, and how that was opened.

    Each verb's method takes the style of the line's answer and the line's values.
    """

    def __init__(self):
        self.book = ALL_ZERO_BOOK
        self.style_of_book = InNumbers

    def answer(self, line):
        """The answer to a line that isn't copied, as text."""
        asked = understood(line)
        if asked is None:
            return NOT_UNDERSTOOD
        values = with_texts_read(asked.values)
        if isinstance(values, Refusal):
            return refused(values)
        return VERBS[asked.verb](self, style_of(asked.by_code), *values)

    def round(self, style, *numbers):
        call = round_quotient if len(numbers) == 3 else round_product
        return said(call(*numbers), one_value)

    def sum(self, style, one, other):
        return said(sum_of(one, other), style.amount)

    def order(self, style, one, other):
        return said(order_of(one, other), one_value)

    def negate(self, style, amount):
        return said(negation_of(amount), style.amount)

    def rescale(self, style, amount, scale, mode):
        return said(rescaled(amount, scale, mode), style.amount)

    def convert(self, style, amount, target, *step):
        return said(convert(amount, target, *step), style.amount)

    def interest(self, style, principal, rate, basis, *rest):
        start, end, mode = Date(*rest[:3]), Date(*rest[3:6]), rest[6]
        answer = interest(principal, rate, basis, start, end, mode)
        return said(answer, lambda found: [*style.amount(found.amount), found.days])

    def tax_net(self, style, net, rate, mode):
        return said(tax_from_net(net, rate, mode), coefficients(style, net.scale))

    def tax_gross(self, style, gross, rate, mode):
        return said(tax_from_gross(gross, rate, mode), coefficients(style, gross.scale))

    def net_for(self, style, gross, rate, mode):
        return said(net_for(gross, rate, mode), style.amount)

    def compound(self, style, principal, rate, periods, room):
        lent = [-7] * room
        refusal = compound(principal, rate, periods, lent)
        return filled(refusal, coefficients(style, principal.scale)(lent))

    def share(self, style, amount, *weights):
        lent = [0] * len(weights)
        refusal = share(amount, weights, lent)
        return filled(refusal, coefficients(style, amount.scale)(lent))

    def vouchers(self, style, count, room, *weights):
        lent = [77] * room
        return filled(vouchers(count, weights, lent), lent)

    def read(self, style, currency, text):
        return said(read_text(currency, text), style.amount)

    def write(self, style, amount, room):
        lent = bytearray(b"_" * room)
        refusal, length = write_text(amount, lent)
        return filled(refusal, [length, lent.decode("ascii")])

    def row(self, style, currency, scale, mode, net, tax):
        return said(row_of(currency, scale, mode, net, tax), coefficients(style, scale))

    def export(self, style, amount):
        return said(export(amount), one_value)

    def statement(self, style, currency, start, room, lists):
        lent = bytearray(b"\xa5" * room)
        refusal, end = write_statement(currency, *lists, lent, start)
        return filled(refusal, [end, lent.hex()])

    def reasons(self, style, currency, start, room, lists):
        lent = bytearray(b"\xa5" * room)
        refusal, end = write_reasons(currency, *lists, lent, start)
        return filled(refusal, [end, lent.hex()])

    def check(self, style, data):
        return said(read_statement(data), lambda found: [found.first, found.count, found.sum])

    def check_any(self, style, data):
        return said(read_any(data), lambda found: found)

    def view(self, style, data):
        return said(opened_view(data), lambda view: records_said(view, with_reasons=False))

    def view_any(self, style, data):
        found = opened_view(data, read_any)
        return said(found, lambda view: records_said(view, with_reasons=True))

    def open(self, style, currency, *weights):
        self.style_of_book = style
        refusal, self.book = open_book(currency, weights)
        return "= open" if refusal is None else refused(refusal)

    def post(self, style, amount):
        return self.step(post(self.book, amount))

    def refund(self, style, amount, reason=0):
        return self.step(refund(self.book, amount))

    def card(self, style, *weights):
        step = new_card(self.book, weights)
        self.book = step.book
        return filled(step.refusal, ["card", step.book.card])

    def step(self, step):
        """The successor is the current book; of a refused step that is the book given."""
        self.book = step.book
        return filled(step.refusal, self.of_book([step.book.net, *step.payouts]))

    def of_book(self, found):
        """Totals and payouts of the current book, in its own style at its currency's digits."""
        return coefficients(self.style_of_book, CURRENCIES[self.book.currency].digits)(found)

    def totals(self, style):
        return said(totals(self.book), lambda found: self.of_book([self.book.net, *found]))

    def settled(self, style):
        return said(settled(self.book), lambda found: [self.book.card, *self.of_book(found)])


VERBS = {
    b"round": Desk.round,
    b"sum": Desk.sum,
    b"order": Desk.order,
    b"negate": Desk.negate,
    b"rescale": Desk.rescale,
    b"convert": Desk.convert,
    b"interest": Desk.interest,
    b"tax-net": Desk.tax_net,
    b"tax-gross": Desk.tax_gross,
    b"net-for": Desk.net_for,
    b"compound": Desk.compound,
    b"share": Desk.share,
    b"vouchers": Desk.vouchers,
    b"read": Desk.read,
    b"write": Desk.write,
    b"row": Desk.row,
    b"export": Desk.export,
    b"statement": Desk.statement,
    b"reasons": Desk.reasons,
    b"check": Desk.check,
    b"check-any": Desk.check_any,
    b"view": Desk.view,
    b"view-any": Desk.view_any,
    b"open": Desk.open,
    b"post": Desk.post,
    b"refund": Desk.refund,
    b"totals": Desk.totals,
    b"card": Desk.card,
    b"settled": Desk.settled,
}


def desk(stream, output):
    """Answers every line of the stream; empty lines and comments are copied. Gives the status."""
    counter, reading = Desk(), Reading(stream)
    for line in reading:
        reply = line.content if is_copied(line) else counter.answer(line).encode("ascii")
        output.write(reply + b"\n")
    output.flush()
    return READING_OR_WRITING_FAILED if reading.failed else ALL_WELL


if __name__ == "__main__":
    run(desk)
