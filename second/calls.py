"""The numbers of a generated line, for each verb that is a call of its own."""

import struct

from amounts import Amount, L
from asks import landed
from dates import BASES
from source import Source
from statement_calls import read_run, reasons, statement
from tax import split_from_net
from texts import text_of
from typed import text


def numerator_and_divisor(source):
    """Halves and exact quotients among them."""
    divisor = source.number(1 + source.magnitude(), (1, 2, 10**18, 0, 2**64))
    usual = source.pick(1, -1) * source.magnitude()
    if source.chance(40):
        usual = divisor * (2 * source.below(9) - 8) // 2 + source.pick(-1, 0, 0, 1)
    return [source.number(usual, (0, 10**18, -(10**18))), divisor]


def factors_and_divisor(source):
    """Two factors and a divisor: halves, exact quotients, and quotients near 10^18."""
    d, sign = 2 * (1 + source.below(10 ** source.pick(1, 6, 17))), source.pick(1, -1)
    if source.chance(30):
        odd = 2 * source.below(10**18 // d + 1) + 1
        other_odd = 2 * source.below(10 ** source.pick(1, 9)) + 1
        return [d // 2 * odd + source.pick(-1, 0, 0, 1), sign * other_odd, d]
    if source.chance(20):
        return [source.beside(10**18), sign * d + source.pick(-1, 0, 1), d]
    a, b, d = (source.below(10 ** source.pick(1, 9, 18) + 1) for _ in range(3))
    edges = (10**18, -(10**18))
    factors = [source.number(sign * a, edges), source.number(b, edges)]
    return factors + [source.number(d + 1, (1, 10**18, 0, 2**64))]


def rounding(source):
    product = landed(7) and source.chance(60)
    return [source.mode()] + (factors_and_divisor if product else numerator_and_divisor)(source)


def conversion(source):
    numbers = source.own_digits_amount() + [source.currency()]
    if landed(7) and source.chance(60):
        numbers.append(source.number(3 + source.below(4), (3, 6)))
    return numbers


def tax(source):
    rate = source.number(source.pick(200000, 190000, 70000, source.below(10**6)), (0, 1, 10**6))
    return source.amount() + [rate, source.mode()]


def price(source):
    """Mostly one that some net has, at a rate and by a mode."""
    numbers = tax(source)
    net, (rate, mode) = Amount(*numbers[:3]), numbers[3:]
    if abs(net.coefficient) <= L and 0 <= rate <= 10**6 and 0 <= mode <= 6 and source.chance(70):
        numbers[2] = split_from_net(net, rate, mode).other + source.pick(0, 0, 0, 1, -1)
    return numbers


def interest_about_L(source):
    """A principal near L for about a year at the greatest rate: an interest about L."""
    principal = source.pick(1, -1) * (L * 60 // 61 + source.below(3) * L // 180 + source.pick(0, 1))
    year = 1900 + source.below(299)
    end = [year + 1, 1, 1 + source.below(9)]
    basis = source.below(len(BASES))
    return [0, 2, principal, 10_000, basis, year, 1, 1] + end + [source.mode()]


def two_ends_of_months(source):
    """Where the two bases of 30-day months differ: about the last days of months."""
    year, month = 1900 + source.below(299), source.pick(1, 1, 3, 5, 7)
    later = month + source.below(6)
    return [year, month, 28 + source.below(4), year, later, 28 + source.below(4)]


def interest(source):
    if source.chance(10):
        return interest_about_L(source)
    if landed(2) and source.chance(30):
        basis, dates = 2 + source.below(2), two_ends_of_months(source)
        return source.amount() + [source.below(10001), basis] + dates + [source.mode()]
    rate = source.number(source.below(10001), (0, 10000))
    basis = source.number(source.below(len(BASES)), (0, len(BASES) - 1, len(BASES)))
    return source.amount() + [rate, basis] + source.two_dates() + [source.mode()]


def grown_to_L(rate, periods):
    """A principal whose last row is about L."""
    return L * 10_000**periods // (10_000 + rate) ** periods


def compound(source):
    """Tables that come near L among them, and lists that are a place too short."""
    currency, scale, coefficient = source.amount()
    rate = source.number(source.below(source.pick(50, 1_000, 10_001)), (0, 10_000))
    periods = source.number(source.below(source.pick(4, 12, 12, 40)), (0, 120))
    if source.chance(95):
        coefficient = abs(coefficient)
    if 0 <= rate <= 10_000 and 0 <= periods <= 120 and source.chance(20):
        coefficient = grown_to_L(rate, periods) + source.below(9) - 4
    room = source.number(periods + source.pick(0, 1, 1, 1, 2, 3), (0, 1, 120, 128))
    return [currency, scale, coefficient, rate, periods, room]


def vouchers(source):
    """Few vouchers mostly, equal and zero weights among the others."""
    count = source.number(source.below(source.pick(5, 50, 300)), (0, 1))
    if source.chance(2):
        count = source.beside(10_000)
    weights = source.weights(64, 10**6)
    if source.chance(30):
        weights = [source.pick(0, 1, 2, 3, 4, 6, 12) for _ in weights]
    room = source.number(len(weights) + source.pick(0, 0, 0, 1, 2, -1), (0, 64, 80))
    return [count, room] + weights


def text_to_read(source):
    """Texts of up to 20 characters and a little over, about L and far over it among them."""
    coefficient = source.coefficient()
    if source.chance(20):
        coefficient = source.pick(1, -1) * source.below(10 ** source.pick(12, 16, 18, 19, 20, 21))
    return [source.currency(), text(source, source.scale(), coefficient)]


def text_to_write(source):
    """A buffer that mostly has room, or is a place or two too short."""
    currency, scale, coefficient = source.amount()
    length = len(text_of(max(0, min(scale, 6)), coefficient))
    room = source.number(length + source.pick(0, 0, 1, 5, -1, -2), (0, 1, 20, 64))
    return [currency, scale, coefficient, room]


def bits_of(number):
    return struct.unpack("<Q", struct.pack("<d", number))[0]


def double(source, scale):
    """The bits of a double: decimals, halves of the scale's unit, their neighbours, about L,
    the ends of the range, what is no number, and any bits."""
    dice, unit = source.below(100), 10 ** max(0, min(scale, 3))
    if dice < 4:
        return source.number(source.below(2**64), (0, 2**63, 2**64 - 1))
    if dice < 12:
        edges = (0.0, -0.0, 5e-324, 2.0**-1022, 1.7976931348623157e308, float("inf"), float("nan"))
        return bits_of(source.pick(*edges)) + source.pick(0, 0, 1, 2**63)
    if dice < 20:
        worth = (L + source.pick(0, 0.25, 0.5, 0.75, 1)) / unit
    elif dice < 55:
        worth = (2 * source.below(10 ** source.pick(1, 3, 6)) + 1) / (2 * unit)
    elif dice < 70:
        worth = source.below(10**6) / 2 ** source.below(12)
    else:
        worth = source.magnitude() / 10 ** source.below(4)
    neighbour = source.pick(-1, 0, 0, 0, 1) if worth > 0 else 0
    return bits_of(source.pick(1, 1, -1) * worth) + neighbour


def row(source):
    scale = source.number(source.below(4), (0, 3))
    two = [double(source, scale), double(source, scale)]
    return [source.currency(), scale, source.mode()] + two


def exported(source):
    return [source.currency(), source.number(source.below(4), (0, 3)), source.coefficient()]


NUMBERS_OF = {
    b"round": rounding,
    b"sum": Source.two_amounts,
    b"order": Source.two_amounts,
    b"negate": Source.amount,
    b"rescale": lambda source: source.amount() + [source.scale(), source.mode()],
    b"convert": conversion,
    b"interest": interest,
    b"tax-net": tax,
    b"tax-gross": tax,
    b"net-for": price,
    b"compound": compound,
    b"share": lambda source: source.amount() + source.weights(64, 10**6),
    b"vouchers": vouchers,
    b"row": row,
    b"export": exported,
    b"statement": statement,
    b"check": read_run,
    b"view": read_run,
    b"reasons": reasons,
    b"check-any": read_run,
    b"view-any": read_run,
    b"read": text_to_read,
    b"write": text_to_write,
}
