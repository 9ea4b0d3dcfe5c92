"""Generated histories of books: openings of every kind, and the lines after them."""

from amounts import CURRENCIES, L
from asks import landed
from lines import FORMS
from typed import NOT_NUMBERS, code, filled_up, in_codes, line_of
from words import WHOLE_NUMBER

MOST_LINES = 40


def good_opening(source, currency):
    return line_of(source, b"open", [currency] + source.weights(16, 10_000))


def refused_opening(source, currency):
    """Too large a currency, or weights that break their rule in number or in sum."""
    numbers = source.pick(
        [21 + source.below(300), 5, 3, 2],
        [currency],
        [currency] + [1] * (17 + source.below(90)),
        [currency] + [0] * source.below(17),
        [currency, 9_000 + source.below(10_000), 1_001],
    )
    return line_of(source, b"open", numbers)


def mistyped_opening(source, currency):
    """An `open` with nothing behind it, or with a word that is no number."""
    words = good_opening(source, currency).split()
    words[1 + source.below(len(words) - 1)] = source.pick(b"O", b"l0", b"5,", *NOT_NUMBERS)
    gaps = b" " * source.pick(0, 0, 0, 2)
    return gaps + (b"open" + gaps if source.chance(30) else b" ".join(words))


def long_opening(source, currency):
    """About 4,000 bytes that begin with `open` or, on some, with a word like it."""
    start = source.pick(b"open %d 5 3 2" % currency, b"open", b"opens 0 1", b"open\t0 1")
    return filled_up(source, b" " * source.pick(0, 0, 2, 4_100) + start)


def opening(source, currency):
    """Mostly a good one; those that open no book are followed by a book's lines too."""
    dice = source.below(100)
    if dice < 77:
        return good_opening(source, currency)
    if dice < 85:
        return refused_opening(source, currency)
    return mistyped_opening(source, currency) if dice < 97 else long_opening(source, currency)


def coded(source, opening):
    """The opening with a code in its currency's place, where that is a number."""
    currency = opening.split()[1:2]
    if not currency or not WHOLE_NUMBER.fullmatch(currency[0]):
        return opening
    return opening.replace(currency[0], code(source, int(currency[0])), 1)


def card_of_another_kind(source, count):
    """One of another count, one that breaks the rule, a mistyped one, one that is too long."""
    if source.chance(10):
        return filled_up(source, b"card" + b" 1" * count)
    if source.chance(40):
        return b"card " + source.pick(b"O", b"5,", *NOT_NUMBERS) + b" 3" * (count - 1)
    weights = source.pick(
        source.weights(16, 10_000),
        [1] * (count + source.pick(-1, 1)),
        [0] * count,
        [source.beside(10_000)] + [0] * (count - 1),
    )
    return line_of(source, b"card", weights)


class History:
    """One book's lines. What it holds is meant to be what the lines lead to."""

    def __init__(self, source):
        self.source = source
        self.currency = source.number(source.pick(0, 0, 0, source.below(21)), (0, 20, 21))
        self.opening = opening(source, self.currency)
        self.by_code = landed(1) and source.chance(50)
        if self.by_code:
            self.opening = coded(source, self.opening)
        self.count = min(16, max(1, len(self.opening.split()) - 2))
        self.net = 0
        self.settled = 0

    def lines(self):
        """An opening, then postings, refunds, new cards and totals of that book; now and then
        the book ends among them, by an opening that is mistyped or too long."""
        source = self.source
        yield self.opening
        known = self.currency in range(len(CURRENCIES))
        for _ in range(source.below(MOST_LINES if known else 5)):
            yield self.card() if landed(9) and source.chance(15) else self.other_line()

    def other_line(self):
        dice = self.source.below(200)
        if dice < 2:
            call = self.source.pick(*[mistyped_opening] * 3, long_opening)
            return call(self.source, self.currency)
        return line_of(self.source, b"totals", []) if dice < 30 else self.step()

    def step(self):
        """A posting or a refund, mostly one that is accepted."""
        source, net = self.source, self.net
        verb = source.pick(b"post", b"post", b"refund")
        known = self.currency in range(len(CURRENCIES))
        digits = CURRENCIES[self.currency].digits if known else 2
        room = L - self.settled - net if verb == b"post" else net
        usual = min(source.pick(source.below(20), source.magnitude()), room)
        coefficient = source.pick(room, room + 1, -1, 0, L) if source.chance(6) else usual
        numbers = [self.currency, digits, coefficient]
        if source.chance(6):
            numbers = source.own_digits_amount()
        elif 0 <= coefficient <= room:
            self.net += coefficient if verb == b"post" else -coefficient
        if landed(13) and verb == b"refund" and source.chance(40):
            numbers.append(source.number(source.below(100), (0, 99)))
        if landed(1) and source.chance(80 if self.by_code else 20):
            numbers = in_codes(source, FORMS[verb][-1], numbers)
        return line_of(source, verb, numbers)

    def card(self):
        """A new card, mostly one that is accepted; or the settled totals."""
        source, count = self.source, self.count
        if source.chance(40):
            return line_of(source, b"settled", [])
        if source.chance(20):
            return card_of_another_kind(source, count)
        weights = [source.below(source.pick(3, 20, 10_000 // count + 2)) for _ in range(count)]
        if 1 <= sum(weights) <= 10_000:
            self.settled, self.net = self.settled + self.net, 0
        return line_of(source, b"card", weights)
