"""The seven rounding modes, the plain quotient, and the quotient of a product."""

from refusals import answer

UP, DOWN, CEILING, FLOOR, HALF_UP, HALF_DOWN, HALF_EVEN = range(7)
MODE_NAMES = ("UP", "DOWN", "CEILING", "FLOOR", "HALF_UP", "HALF_DOWN", "HALF_EVEN")

LARGEST_FACTOR = 10**18
LARGEST_DIVISOR = 10**18
LARGEST_QUOTIENT = 10**18


def floor_of(n, d):
    """The greatest integer not above n / d."""
    return n // d


def ceiling_of(n, d):
    """The least integer not below n / d."""
    return -(-n // d)


def down_of(n, d):
    """Toward zero: FLOOR for n at least 0, else CEILING."""
    return floor_of(n, d) if n >= 0 else ceiling_of(n, d)


def up_of(n, d):
    """Away from zero: CEILING for n at least 0, else FLOOR."""
    return ceiling_of(n, d) if n >= 0 else floor_of(n, d)


def even_of(n, d):
    """Of the two integers about n / d, the even one."""
    below = floor_of(n, d)
    return below if below % 2 == 0 else ceiling_of(n, d)


def nearest(n, d, of_two_equally_near):
    """The integer nearest to n / d; of two equally near, the one of the given rule."""
    below, above = floor_of(n, d), ceiling_of(n, d)
    twice_to_below = 2 * (n - below * d)
    twice_to_above = 2 * (above * d - n)
    if twice_to_below < twice_to_above:
        return below
    if twice_to_above < twice_to_below:
        return above
    return of_two_equally_near(n, d)


RULES = {
    UP: up_of,
    DOWN: down_of,
    CEILING: ceiling_of,
    FLOOR: floor_of,
    HALF_UP: lambda n, d: nearest(n, d, up_of),
    HALF_DOWN: lambda n, d: nearest(n, d, down_of),
    HALF_EVEN: lambda n, d: nearest(n, d, even_of),
}


def mode_unknown(mode):
    return mode not in RULES


def rounded(mode, n, d):
    """n / d rounded by a known mode, for a positive d."""
    return RULES[mode](n, d)


def round_product(mode, a, b, d):
    """a x b / d by the mode, or a refusal."""
    rows = [
        (1, lambda: mode_unknown(mode)),
        (3, lambda: abs(a) > LARGEST_FACTOR or abs(b) > LARGEST_FACTOR),
        (6, lambda: not 1 <= d <= LARGEST_DIVISOR),
        (13, lambda: abs(rounded(mode, a * b, d)) > LARGEST_QUOTIENT),
    ]
    return answer(rows, lambda: rounded(mode, a * b, d))


def round_quotient(mode, n, d):
    """The plain quotient n / d by the mode, or a refusal; row 13 can't hold."""
    return round_product(mode, n, 1, d)
