"""How a generated line is typed: its words, the spaces between them, lines filled up."""

from amounts import CURRENCIES
from reading import LONGEST_LINE
from texts import text_of
from words import AMOUNT, CURRENCY

NOT_NUMBERS = (
    *(b"+5", b"-", b"--5", b"5-", b"1.0", b"1e3", b"0x10", b"1_0", b"x"),
    *(b"\t5", b"5\t", b"5\r", b"\x005", b"\xb2", b"\xd9\xa3"),
)
NO_CODES = (b"XXX", b"EURO", b"E", b"EU", b"Eur", b"ZZZ", b"A0", b"EUR,", b"Z\xff")
NO_TEXTS = (
    *(b"-0", b"-0.00", b"00", b"01.50", b"-01", b".5", b"-.5", b"5.", b"+1", b"--1", b"1-"),
    *(b"1,50", b"1.5.0", b"1..5", b"1e3", b"x", b"1.5x", b"\t1", b"1\x00", b"\xd9\xa3", b"-"),
    *(b"0.0000001", b"1.0000000", b"000000000000000000001", b"-0.000000", b"0.-5", b"."),
)


def word(source, number):
    """The number in decimal, now and then with leading zeros or a minus before zero; a word
    that is no number is typed as it is."""
    if isinstance(number, bytes):
        return number
    digits = b"%d" % abs(number)
    if source.chance(2):
        digits = b"0" * source.pick(1, 3, 30) + digits
    minus = number < 0 or (number == 0 and source.chance(3))
    return b"-" + digits if minus else digits


def line_of(source, verb, numbers):
    """The words of a line, now and then with more spaces than needed."""
    words = [verb] + [word(source, number) for number in numbers]
    if source.chance(95):
        return b" ".join(words)
    gaps = [b" " * source.pick(1, 2, 5) for _ in words]
    spaced = b"".join(gap + each for gap, each in zip(gaps, words))
    return spaced + b" " * source.below(3)


def any_bytes(source, length):
    """Any bytes but a newline."""
    return bytes(source.pick(*range(10), *range(11, 256)) for _ in range(length))


def filled_up(source, start):
    """The start, filled up to about 4,000 bytes or, on a few lines, to far more."""
    usual = source.pick(*range(LONGEST_LINE - 2, LONGEST_LINE + 4), 5_000)
    length = max(len(start), 70_000 if source.chance(3) else usual)
    fill = source.pick(b"0", b" ", b" 1", b"9")
    return (start + fill * length)[:length]


def code(source, currency):
    """The currency's code; one that is none for a currency that is none, and now and then."""
    if currency not in range(len(CURRENCIES)) or source.chance(3):
        return source.pick(*NO_CODES)
    return CURRENCIES[currency].code.encode("ascii")


def text(source, scale, coefficient):
    """The text of a coefficient at a scale, mostly; now and then one that is none."""
    if source.chance(8):
        return source.pick(*NO_TEXTS)
    return text_of(max(0, min(scale, 7)), coefficient).encode("ascii")


def in_codes(source, form, numbers):
    """A line's numbers with codes and texts in place of most of its currencies and amounts."""
    words, rest = [], list(numbers)
    for kind in form.kinds:
        by_code = kind in (AMOUNT, CURRENCY) and source.chance(85)
        taken = [rest.pop(0) for _ in range(3 if kind is AMOUNT else 1) if rest]
        if by_code:
            texts = [text(source, *taken[1:])] if kind is AMOUNT else []
            taken = [code(source, taken[0])] + texts
        words += taken
    return words + rest
