"""Draws drift.svg: how far three ways of sharing lead each partner from its exact share.

One quarter of small postings is shared by the old job's rule, by largest remainder
of the running total and by the share book. Run it to write drift.svg beside it. The
rules are those of the second program; every number here is a whole number.
"""

import pathlib
import random
import sys

HERE = pathlib.Path(__file__).resolve().parent
BESIDE = HERE.parent / "second"
sys.path.insert(0, str(BESIDE if BESIDE.is_dir() else HERE.parent))

from amounts import Amount
from book import open_book, post
from sharing import shares_of

WEIGHTS = (6, 6, 2)
W = sum(WEIGHTS)
PLACES = range(len(WEIGHTS))
EURO, CENTS_SCALE = 0, 2
DAYS = 90
POSTINGS = 1500
SEED = 7

COLOURS = ("#0072b2", "#e69f00", "#009e73")
MARK = "#b2182b"
DASHES = ("none", "9 4", "2 3")
INK, FAINT = "#222222", "#d0d0d0"

WIDTH, HEIGHT = 900, 1096
LEFT, RIGHT = 80, 764
DRIFT_HEIGHT = 210
LANE_HEIGHT = 66
LANE_GAP = 22
DROP_OF_TEXT = 5


def small_postings():
    """A few cents to a few euros each, in cents."""
    source = random.Random(SEED)
    ranges = [(1, 6)] * 5 + [(7, 99)] * 4 + [(100, 499)]
    return [source.randint(*source.choice(ranges)) for _ in range(POSTINGS)]


def totals_shared_afresh(postings):
    """The old job: each posting by largest remainder, by itself."""
    totals = [0] * len(WEIGHTS)
    for cents in postings:
        totals = [total + share for total, share in zip(totals, shares_of(cents, WEIGHTS))]
        yield totals


def totals_by_running_remainder(postings):
    """Largest remainder of the running total."""
    net = 0
    for cents in postings:
        net += cents
        yield shares_of(net, WEIGHTS)


def totals_of_the_book(postings):
    """The sums of the payouts of the share book."""
    _, book = open_book(EURO, WEIGHTS)
    totals = [0] * len(WEIGHTS)
    for cents in postings:
        _, book, payouts = post(book, Amount(EURO, CENTS_SCALE, cents))
        totals = [total + payout for total, payout in zip(totals, payouts)]
        yield totals


def distances(postings, totals):
    """For each posting each partner's total less its exact share, in units of 1/W cent."""
    found, net = [], 0
    for cents, now in zip(postings, totals):
        net += cents
        found.append([now[place] * W - net * WEIGHTS[place] for place in PLACES])
    return found


def taken_back(totals):
    """(number of the posting, place) wherever a partner's total falls."""
    pairs = enumerate(zip(totals, totals[1:]), start=1)
    return [(i, place) for i, (old, new) in pairs for place in PLACES if new[place] < old[place]]


def day_of(i):
    return i * DAYS // POSTINGS


def decimal(numerator, denominator):
    """A quotient with two decimals, for a coordinate, by whole numbers alone."""
    hundredths = (200 * numerator + denominator) // (2 * denominator)
    sign = "-" if hundredths < 0 else ""
    return f"{sign}{abs(hundredths) // 100}.{abs(hundredths) % 100:02}"


def signed(numerator, denominator, decimals):
    """A quotient to so many decimals, with its sign in front, for a label."""
    units = (2 * abs(numerator) * 10**decimals + denominator) // (2 * denominator)
    digits = f"{units:0{decimals + 1}}"
    number = f"{digits[:-decimals]}.{digits[-decimals:]}" if decimals else digits
    if units == 0:
        return number
    return ("+" if numerator > 0 else "−") + number


class Picture:
    """SVG text, element by element."""

    def __init__(self):
        self.parts = []

    def line(self, x1, y1, x2, y2, colour, extra=""):
        ends = f'x1="{x1}" y1="{y1}" x2="{x2}" y2="{y2}"'
        self.parts.append(f'<line {ends} stroke="{colour}" {extra}/>')

    def text(self, x, y, words, extra=""):
        self.parts.append(f'<text x="{x}" y="{y}" {extra}>{words}</text>')

    def bar(self, x, y, width, height, colour):
        size = f'width="{width}" height="{height}"'
        self.parts.append(f'<rect x="{x}" y="{y}" {size} fill="{colour}"/>')

    def path(self, points, extra):
        self.parts.append(f'<polyline points="{" ".join(points)}" fill="none" {extra}/>')

    def mark(self, x, y):
        """A triangle with its point down at x, y."""
        corners = f"{x - 5},{y - 9} {x + 5},{y - 9} {x},{y}"
        self.parts.append(f'<polygon points="{corners}" fill="{MARK}"/>')

    def svg(self):
        head = (
            f'<svg xmlns="http://www.w3.org/2000/svg" width="{WIDTH}" height="{HEIGHT}" '
            f'viewBox="0 0 {WIDTH} {HEIGHT}" font-family="DejaVu Sans, Verdana, sans-serif" '
            f'font-size="13" fill="{INK}">'
        )
        ground = f'<rect width="{WIDTH}" height="{HEIGHT}" fill="#ffffff"/>'
        return "\n".join([head, ground, *self.parts, "</svg>"]) + "\n"


class Plot:
    """Days against cents; the vertical scale runs from -reach to reach cents."""

    def __init__(self, picture, top, height, reach):
        self.picture = picture
        self.top = top
        self.height = height
        self.bottom = top + height
        self.reach = reach

    def y_of(self, distance, lower_by=0):
        """Where a distance in units of 1/W cent stands, or some pixels lower."""
        whole_scale = 2 * W * self.reach
        zero = (2 * (self.top + lower_by) + self.height) * W * self.reach
        return decimal(zero - distance * self.height, whole_scale)

    def cents_axis(self, cents):
        for value in cents:
            y = self.y_of(value * W)
            self.picture.line(LEFT, y, RIGHT, y, INK if value == 0 else FAINT)
            y = self.y_of(value * W, DROP_OF_TEXT)
            self.picture.text(LEFT - 8, y, signed(value, 1, 0), 'text-anchor="end"')
        self.picture.line(LEFT, self.top, LEFT, self.bottom, INK)

    def days_axis(self):
        self.picture.line(LEFT, self.bottom, RIGHT, self.bottom, INK)
        for day in range(0, DAYS + 1, 10):
            x = x_of_day(day)
            self.picture.line(x, self.bottom, x, self.bottom + 5, INK)
            self.picture.text(x, self.bottom + 19, day, 'text-anchor="middle"')
        middle = (LEFT + RIGHT) // 2
        self.picture.text(middle, self.bottom + 37, "day of the quarter", 'text-anchor="middle"')

    def drift_line(self, found, place):
        """One partner's distances posting by posting, the last one written at the end."""
        points = [f"{LEFT},{self.y_of(0)}"]
        for i, at in enumerate(found, start=1):
            x = decimal(LEFT * POSTINGS + (RIGHT - LEFT) * i, POSTINGS)
            points.append(f"{x},{self.y_of(at[place])}")
        style = f'stroke-width="2.5" stroke-dasharray="{DASHES[place]}"'
        self.picture.path(points, f'stroke="{COLOURS[place]}" {style}')
        last = found[-1][place]
        y = self.y_of(last, DROP_OF_TEXT)
        self.picture.text(RIGHT + 10, y, f"{signed(last, W, 2)} cents")

    def daily_ranges(self, found, place):
        """For each day a bar from the day's least distance of a partner to its greatest."""
        for day in range(DAYS):
            values = [at[place] for i, at in enumerate(found) if day_of(i) == day]
            rise = (max(values) - min(values)) * self.height
            x = x_of_day(day)
            width = x_of_day(day + 1) - x - 1
            bar_height = decimal(rise, 2 * W * self.reach)
            self.picture.bar(x + 1, self.y_of(max(values)), width, bar_height, COLOURS[place])

    def range_label(self, found, place):
        values = [at[place] for at in found]
        least, most = signed(min(values), W, 2), signed(max(values), W, 2)
        self.picture.text(RIGHT + 10, self.y_of(0, -4), f"partner {place}")
        self.picture.text(RIGHT + 10, self.y_of(0, 13), f"{least} to {most}")


def x_of_day(day):
    return LEFT + (RIGHT - LEFT) * day // DAYS


def headings(picture, top, title, explanation):
    picture.text(LEFT, top - 34, title, 'font-size="15" font-weight="bold"')
    picture.text(LEFT, top - 14, explanation)


def axis_title(picture, middle):
    turned = f'text-anchor="middle" transform="rotate(-90 22 {middle})"'
    picture.text(22, middle, "cents from exact", turned)


def drift_panel(picture, top, totals, postings):
    """All partners on one scale of 300 cents."""
    plot = Plot(picture, top, DRIFT_HEIGHT, 300)
    plot.cents_axis((-300, -200, -100, 0, 100, 200, 300))
    plot.days_axis()
    axis_title(picture, top + DRIFT_HEIGHT // 2)
    found = distances(postings, totals)
    for place in PLACES:
        plot.drift_line(found, place)


def lanes_panel(picture, top, totals, postings):
    """A lane for each partner, on a scale of 1 cent, with the cents taken back marked."""
    found = distances(postings, totals)
    for place in PLACES:
        plot = Plot(picture, top + place * (LANE_HEIGHT + LANE_GAP), LANE_HEIGHT, 1)
        plot.daily_ranges(found, place)
        plot.cents_axis((-1, 0, 1))
        plot.range_label(found, place)
        for i in (i for i, whose in taken_back(totals) if whose == place):
            picture.mark(x_of_day(day_of(i)) + 4, plot.bottom - 2)
    plot.days_axis()
    axis_title(picture, (top + plot.bottom) // 2)


def heading(picture):
    style = 'font-size="19" font-weight="bold"'
    picture.text(LEFT, 32, "How far from its exact share is each partner?", style)
    words = f"One quarter: {POSTINGS:,} postings of 1 cent to 5 euros, weights 6, 6, 2."
    picture.text(LEFT, 55, words + " All three ways share the same postings.")


def legend(picture, y):
    x = LEFT
    for place in PLACES:
        style = f'stroke-width="4" stroke-dasharray="{DASHES[place]}"'
        picture.line(x, y, x + 36, y, COLOURS[place], style)
        words = f"partner {place}, weight {WEIGHTS[place]}"
        picture.text(x + 44, y + DROP_OF_TEXT, words)
        x += 184
    picture.mark(x + 8, y + 5)
    picture.text(x + 20, y + DROP_OF_TEXT, "a cent taken back")


def draw():
    postings = small_postings()
    afresh = list(totals_shared_afresh(postings))
    running = list(totals_by_running_remainder(postings))
    kept = list(totals_of_the_book(postings))
    picture = Picture()
    heading(picture)
    legend(picture, 80)
    title = "(a) The old job: each posting shared afresh by largest remainder"
    words = "Scale: 300 cents up and down. Ties go to the lower place, and the distance grows."
    headings(picture, 156, title, words)
    drift_panel(picture, 156, afresh, postings)
    scale = "Scale: 1 cent up and down; a bar is the range of one day. "
    words = f"{len(taken_back(running))} postings take a cent back."
    headings(picture, 464, "(b) Largest remainder of the running total", scale + words)
    lanes_panel(picture, 464, running, postings)
    words = f"{len(taken_back(kept)) or 'No'} posting takes a cent back."
    headings(picture, 804, "(c) The share book", scale + words)
    lanes_panel(picture, 804, kept, postings)
    return picture.svg()


if __name__ == "__main__":
    (HERE / "drift.svg").write_text(draw(), encoding="utf-8")
