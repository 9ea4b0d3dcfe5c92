"""A report on a book or on one of its cards: what is counted, what is checked."""

from collections import defaultdict

from amounts import CURRENCIES
from book import ALL_ZERO_BOOK, PARTNERS, totals
from command import ALL_WELL, CHECK_FAILED, NOT_ALL_ACCEPTED
from quarter import POST, REFUND, STEPS
from rounding import ceiling_of, floor_of
from styles import InNumbers

CHECK_OK, CHECK_FAILS = "check ok", "check FAILED"


class Tally:
    """How many lines of a kind a report has, and the number of the first."""

    def __init__(self):
        self.times = 0
        self.first = None

    def add(self, line_number):
        if self.times == 0:
            self.first = line_number
        self.times += 1


class Report:
    """What is counted from one opening or new card to the next or to the end.

    Where no book was opened it is the all-zero one, to which every line after is refused.
    """

    def __init__(self, heading, book=ALL_ZERO_BOOK, style=InNumbers):
        self.heading = heading
        self.book = book
        self.style = style
        self.is_opened = book != ALL_ZERO_BOOK
        self.accepted = 0
        self.not_understood = Tally()
        self.refusals = defaultdict(Tally)
        self.sums = {verb: 0 for verb in STEPS}
        self.payouts = {verb: [0] * PARTNERS for verb in STEPS}

    def take(self, verb, amount, line_number):
        """Posts or refunds the amount and counts what comes of it."""
        step = STEPS[verb](self.book, amount)
        self.book = step.book
        if step.refusal is not None:
            self.refuse(step.refusal, line_number)
            return
        self.accepted += 1
        self.sums[verb] += amount.coefficient
        sums = self.payouts[verb]
        for place, payout in enumerate(step.payouts):
            sums[place] += payout

    def refuse(self, refusal, line_number):
        self.refusals[refusal.number].add(line_number)

    def refused(self):
        return sum(tally.times for tally in self.refusals.values())

    def counts_any_line(self):
        return self.accepted + self.refused() + self.not_understood.times > 0

    def lines(self):
        """The report's lines; where no book was opened it ends after the refusals."""
        yield self.heading
        yield (
            f"lines {self.accepted} accepted {self.refused()} refused "
            f"{self.not_understood.times} not understood"
        )
        if self.not_understood.times > 0:
            yield f"not understood first {self.not_understood.first}"
        for number, tally in sorted(self.refusals.items()):
            yield f"refused {number} times {tally.times} first {tally.first}"
        if self.is_opened:
            yield from self.lines_of_totals()

    def lines_of_totals(self):
        posted, refunded = self.sums[POST], self.sums[REFUND]
        sums = map(self.say, (posted, refunded, self.book.net))
        yield "posted {} refunded {} net {}".format(*sums)
        partners = self.partners()
        for partner in partners:
            yield partner.line(self.say)
        yield check(partners, posted - refunded, self.book.net)

    def say(self, coefficient):
        """A coefficient in the style of the book, at its currency's digits."""
        return self.style.coefficient(CURRENCIES[self.book.currency].digits, coefficient)

    def partners(self):
        running = totals(self.book)
        paid, taken = self.payouts[POST], self.payouts[REFUND]
        return [
            Partner(self.book, place, paid[place], taken[place], running[place])
            for place in range(self.book.count)
        ]

    def status(self, lines):
        """Of the exit statuses the one that this report by itself gives, its lines being these."""
        if check_failed(lines):
            return CHECK_FAILED
        all_accepted = self.is_opened and self.refused() + self.not_understood.times == 0
        return ALL_WELL if all_accepted else NOT_ALL_ACCEPTED


class Partner:
    """One partner's line of a report."""

    def __init__(self, book, place, paid, taken, total):
        W = sum(book.weights)
        self.place = place
        self.weight = book.weights[place]
        self.paid = paid
        self.taken = taken
        self.total = total
        self.least = floor_of(book.net * self.weight, W)
        self.most = ceiling_of(book.net * self.weight, W)

    def line(self, say):
        return (
            f"partner {self.place} weight {self.weight} paid {say(self.paid)} "
            f"taken {say(self.taken)} total {say(self.total)} "
            f"least {say(self.least)} most {say(self.most)}"
        )

    def holds(self):
        within = self.least <= self.total <= self.most
        return within and self.paid - self.taken == self.total


def check(partners, posted_less_refunded, net):
    """`check ok`, or FAILED and the first partner that doesn't hold.

    Where only posted less refunded or the sum of the totals fails, the last partner is
    named, at whom the adding up ends.
    """
    for partner in partners:
        if not partner.holds():
            return f"{CHECK_FAILS} {partner.place}"
    if posted_less_refunded != net or sum(partner.total for partner in partners) != net:
        return f"{CHECK_FAILS} {partners[-1].place}"
    return CHECK_OK


def check_failed(lines):
    """A report's lines end with its check, where it has one."""
    return lines[-1].startswith(CHECK_FAILS)


class Cards:
    """What the cards of a book come to: their number, their N together, and each
    partner's shares rounded down and up, added over the cards."""

    def __init__(self):
        self.number = 0
        self.net = 0
        self.least = [0] * PARTNERS
        self.most = [0] * PARTNERS

    def add(self, report):
        """Adds the card on which a report was made."""
        self.number += 1
        self.net += report.book.net
        for partner in report.partners():
            self.least[partner.place] += partner.least
            self.most[partner.place] += partner.most

    def lines(self, last_report):
        """The lines at the end of a book with more than one card, in the book's style."""
        book, say = last_report.book, last_report.say
        running = totals(book)
        together = [book.settled[place] + running[place] for place in range(book.count)]
        for place, total in enumerate(together):
            yield (
                f"settled {place} cards {self.number} together {say(total)} "
                f"least {say(self.least[place])} most {say(self.most[place])}"
            )
        yield self.check(together)

    def check(self, together):
        """`check ok`, or FAILED and the first partner that doesn't lie within its shares;
        where only the adding up fails, the last partner, as in the check of a report."""
        for place, total in enumerate(together):
            if not self.least[place] <= total <= self.most[place]:
                return f"{CHECK_FAILS} {place}"
        if sum(together) != self.net:
            return f"{CHECK_FAILS} {len(together) - 1}"
        return CHECK_OK
