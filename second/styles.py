"""The two ways in which an answer or a report is written: in numbers, or in codes and texts."""

from amounts import CURRENCIES
from texts import text_of


class InNumbers:
    """A currency, a scale and a coefficient as three numbers."""

    @staticmethod
    def currency(currency):
        return currency

    @staticmethod
    def coefficient(scale, coefficient):
        return coefficient

    @staticmethod
    def amount(amount):
        return amount


class InTexts:
    """A currency as its code, a coefficient as its text at the scale."""

    @staticmethod
    def currency(currency):
        return CURRENCIES[currency].code

    @staticmethod
    def coefficient(scale, coefficient):
        return text_of(scale, coefficient)

    @staticmethod
    def amount(amount):
        return CURRENCIES[amount.currency].code, text_of(amount.scale, amount.coefficient)


def style_of(by_code):
    """The style of a line whose first currency was given by a code, or of such a book."""
    return InTexts if by_code else InNumbers
