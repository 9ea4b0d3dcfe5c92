"""Numbers drawn from one seeded source, edges favoured."""

import random

from amounts import CURRENCIES, L

TYPE_LIMITS = (2**8, 2**16, 2**31, 2**32, 2**63, 2**64, 10**18, L)


class Source:
    """Draws the same numbers again for the same seed."""

    def __init__(self, seed):
        self.random = random.Random(seed)

    def chance(self, percent):
        return self.random.randrange(100) < percent

    def pick(self, *choices):
        return self.random.choice(choices)

    def below(self, limit):
        return self.random.randrange(limit)

    def beside(self, *limits):
        """One of the limits, or a number next to it."""
        return self.pick(*limits) + self.pick(-1, 0, 0, 1)

    def beyond_types(self):
        """A number at the limits of the types, or with a great many digits."""
        if self.chance(70):
            return self.pick(1, -1) * self.beside(*TYPE_LIMITS)
        return self.pick(1, -1) * self.below(10 ** self.pick(20, 40, 100, 300))

    def number(self, usual, edges):
        """Mostly a usual number, often an edge, now and then one that no type holds."""
        dice = self.below(100)
        if dice < 82:
            return usual
        return self.beyond_types() if dice >= 97 else self.beside(*edges)

    def mode(self):
        return self.number(self.below(7), (0, 6, 7, 255))

    def scale(self):
        return self.number(self.below(7), (0, 6, 7))

    def currency(self):
        return self.number(self.below(21), (0, 20, 21))

    def magnitude(self):
        return self.below(10 ** self.pick(1, 2, 3, 5, 8, len(str(L))))

    def coefficient(self):
        usual = self.pick(1, 1, -1) * self.magnitude()
        return self.number(usual, (0, L, -L, 2**63 - 1, -(2**63)))

    def amount(self):
        return [self.currency(), self.scale(), self.coefficient()]

    def own_digits_amount(self):
        """Mostly in a known currency and at its own digits, as conversions ask."""
        if self.chance(20):
            return self.amount()
        currency = self.below(len(CURRENCIES))
        return [currency, CURRENCIES[currency].digits, self.coefficient()]

    def two_amounts(self):
        one, other = self.amount(), self.amount()
        if self.chance(85):
            other[0] = one[0]
        if self.chance(15):
            other[1:] = [one[1], self.pick(1, -1) * (L - abs(one[2])) + self.pick(-1, 0, 1)]
        return one + other

    def date(self):
        year = self.number(1900 + self.below(300), (1900, 2199, 2000, 2100))
        month = self.number(1 + self.below(12), (1, 2, 12))
        day = self.number(1 + self.below(28), (1, 28, 29, 30, 31))
        return [year, month, day]

    def two_dates(self):
        """Mostly less than a year apart, in order."""
        first = self.date()
        if self.chance(20):
            return first + self.date()
        year, month, _ = first
        months = month + self.below(12)
        day = self.number(1 + self.below(28), (1, 28, 29, 30, 31))
        return first + [year + (months - 1) // 12, (months - 1) % 12 + 1, day]

    def weights(self, most, largest_sum):
        """A list mostly within its rule, in number and in sum."""
        count = self.number(1 + self.below(self.pick(3, 6, most)), (1, most))
        count = max(0, min(count, 200))
        largest = max(1, self.pick(3, 20, largest_sum) // max(count, 1))
        weights = [self.below(largest + 1) for _ in range(count)]
        if weights and self.chance(15):
            place = self.below(count)
            weights[place] = self.beside(largest_sum) - sum(weights) + weights[place]
        if weights and self.chance(3):
            weights[self.below(count)] = self.beyond_types()
        return weights
