"""One quarter of card settlements, cut hourly or cut nightly: the same money in other batches; and renegotiated, with new weights from its second month on.

    python3 quarter.py hourly > hourly.txt
    python3 quarter.py nightly > nightly.txt
    python3 quarter.py renegotiated > renegotiated.txt
    python3 quarter.py chargebacks > chargebacks.txt             the nightly cut, with the codes of the refunds' reasons
    python3 quarter.py numbers hourly                the same in numbers, a currency, a scale and a coefficient, in place of codes and texts
    python3 quarter.py long LINES SUM > long.txt     a long file of postings and refunds on one book with that sum of weights
    python3 quarter.py csv contracts > contracts.csv             the contracts of `morskebab rerun`, and (csv renegotiated) with the new weights
    python3 quarter.py csv hourly > hourly.csv                   the same batches as rows, and (csv nightly) a batch a night
    python3 quarter.py csv long LINES SUM > long.csv             the same postings and refunds as the long file's
    python3 quarter.py csv long-contracts SUM > contracts.csv    and its book's contract

The numbers are seeded, so that every run writes the same bytes.
"""

import datetime
import random
import sys

WEIGHTS = (50, 30, 15, 5)
NEW_WEIGHTS, SECOND_MONTH = (45, 30, 15, 10), 32
DAYS, HOURS = 90, 24
SEED = 2023
FIRST_DAY = datetime.date(2023, 1, 1)
NAMES = ("Anna", "Ben", "Café Chloé", "Dora")
BOOK = "Example"
# no reason, and the codes of three
REASONS = ("", " 10", " 13", " 41")
# by its code, with amounts as texts, or by its number
EURO = "EUR"


def hours_of_the_quarter():
    """(day, hour, cents posted, cents refunded) for each hour that has any."""
    source = random.Random(SEED)
    for day in range(1, DAYS + 1):
        for hour in range(HOURS):
            if source.random() < 0.25:
                continue
            posted = source.randint(1, 4000)
            refunded = source.randint(1, 300) if source.random() < 0.1 else 0
            yield day, hour, posted, refunded


def moves(posted, refunded):
    lines = [f"post {euros(posted)}"]
    if refunded:
        lines.append(f"refund {euros(refunded)}")
    return lines


def euros(cents):
    return f"{EURO} 2 {cents}" if EURO == "0" else f"{EURO} {cents // 100}.{cents % 100:02d}"


def hourly():
    yield "# one quarter, a batch an hour"
    yield f"open {EURO} " + " ".join(map(str, WEIGHTS))
    for day, hour, posted, refunded in hours_of_the_quarter():
        yield from moves(posted, refunded)


def nights_of_the_quarter():
    """(day, cents posted, cents refunded)."""
    nights = {}
    for day, hour, posted, refunded in hours_of_the_quarter():
        night = nights.setdefault(day, [0, 0])
        night[0] += posted
        night[1] += refunded
    return [(day, posted, refunded) for day, (posted, refunded) in nights.items()]


def nightly():
    yield "# the same quarter, a batch a night"
    yield f"open {EURO} " + " ".join(map(str, WEIGHTS))
    for day, posted, refunded in nights_of_the_quarter():
        yield from moves(posted, refunded)


def renegotiated():
    yield "# the same nights; the contract is renegotiated, with new weights from the first of the second month on"
    yield f"open {EURO} " + " ".join(map(str, WEIGHTS))
    for day, posted, refunded in nights_of_the_quarter():
        if day == SECOND_MONTH:
            yield "card " + " ".join(map(str, NEW_WEIGHTS))
        yield from moves(posted, refunded)


def chargebacks():
    """A night's refunds of one reason are one refund, which ends in its code."""
    yield "# the same nights; a refund ends in the code of its reason, where it has one"
    yield f"open {EURO} " + " ".join(map(str, WEIGHTS))
    nights = {}
    for day, hour, posted, refunded in hours_of_the_quarter():
        night = nights.setdefault(day, [0] + [0] * len(REASONS))
        night[0] += posted
        night[1 + (day + hour) % len(REASONS)] += refunded
    for posted, *refunds in nights.values():
        yield f"post {euros(posted)}"
        for reason, refunded in zip(REASONS, refunds):
            if refunded:
                yield f"refund {euros(refunded)}{reason}"


def day_of(day):
    return (FIRST_DAY + datetime.timedelta(day - 1)).isoformat()


def contracts(cards):
    """A row for each partner of each card."""
    yield "book,currency,from,partner,weight"
    for day, names, weights in cards:
        for name, weight in zip(names, weights):
            yield f"{BOOK},EUR,{day_of(day)},{name},{weight}"


def rows(batches):
    """A row for each posting and refund of (time, cents posted, cents refunded)."""
    yield "time,book,kind,amount,currency,reference"
    number = 0
    for time, posted, refunded in batches:
        for kind, cents in (("post", posted), ("refund", refunded)):
            if kind == "post" or cents:
                number += 1
                yield f"{time},{BOOK},{kind},{cents // 100}.{cents % 100:02d},EUR,{kind[0].upper()}{number:05d}"


def hourly_rows():
    return rows((f"{day_of(day)}T{hour:02d}:59:59", posted, refunded) for day, hour, posted, refunded in hours_of_the_quarter())


def nightly_rows():
    return rows((f"{day_of(day)}T23:59:59", posted, refunded) for day, posted, refunded in nights_of_the_quarter())


def long_rows(lines, weight_sum):
    """The long file's, spread evenly over the days."""
    yield "time,book,kind,amount,currency,reference"
    for number, line in enumerate(long(lines, weight_sum), -1):
        verb, *words = line.split()
        if verb == "open":
            continue
        seconds, cents = number * DAYS * 86400 // lines, int(words[2])
        time = datetime.datetime.combine(FIRST_DAY, datetime.time()) + datetime.timedelta(seconds=seconds)
        yield f"{time.isoformat()},{BOOK},{verb},{cents // 100}.{cents % 100:02d},EUR,X{number + 1:07d}"


def long_weights(weight_sum):
    """Sixteen of them."""
    source = random.Random(SEED)
    cuts = sorted(source.sample(range(1, weight_sum), 15)) if weight_sum > 16 else list(range(1, min(16, weight_sum)))
    edges = [0] + cuts + [weight_sum]
    return source, [high - low for low, high in zip(edges, edges[1:])]


def long(lines, weight_sum):
    """Sixteen partners; a refund now and then, never more than was posted."""
    source, weights = long_weights(weight_sum)
    yield "open 0 " + " ".join(map(str, weights))
    net = 0
    for _ in range(lines):
        amount = source.randint(0, 9999)
        if source.random() < 0.1 and amount <= net:
            net -= amount
            yield f"refund 0 2 {amount}"
        else:
            net += amount
            yield f"post 0 2 {amount}"


def main(words):
    global EURO
    if words[:1] == ["numbers"]:
        EURO, words = "0", words[1:]
    if words[:1] == ["hourly"]:
        lines = hourly()
    elif words[:1] == ["nightly"]:
        lines = nightly()
    elif words[:1] == ["renegotiated"]:
        lines = renegotiated()
    elif words[:1] == ["chargebacks"]:
        lines = chargebacks()
    elif words[:1] == ["long"] and len(words) == 3:
        lines = long(int(words[1]), int(words[2]))
    elif words[:1] == ["csv"] and len(words) > 1:
        lines = csv(*words[1:])
    else:
        sys.exit(__doc__)
    sys.stdout.reconfigure(encoding="utf-8")
    for line in lines:
        sys.stdout.write(line + "\n")


def csv(name, *numbers):
    """The files of `morskebab rerun`."""
    first = (1, NAMES, WEIGHTS)
    if name == "long-contracts":
        weights = long_weights(int(numbers[0]))[1]
        return contracts([(1, [f"Partner {place}" for place in range(len(weights))], weights)])
    if name == "long":
        return long_rows(*map(int, numbers))
    named = {"contracts": lambda: contracts([first]), "renegotiated": lambda: contracts([first, (SECOND_MONTH, NAMES, NEW_WEIGHTS)]), "hourly": hourly_rows,
             "nightly": nightly_rows}
    return named[name]() if name in named else sys.exit(__doc__)


if __name__ == "__main__":
    main(sys.argv[1:])
