"""Checks of Ask 1: amounts as text, and the lines with codes and texts."""

import itertools

from amounts import CURRENCIES, Amount, L
from checks import holds, same
from refusals import Refusal
from test_lines import answers, lines, reports
from texts import read_text, text_of, write_text

LARGEST_TEXT = f"{L // 100}.{L % 100}"


def is_of_the_grammar(text):
    """Document 02's sentence, letter by letter and apart from the reader."""
    minus, rest = text[:1] == "-", text.removeprefix("-")
    whole, point, decimals = rest.partition(".")
    digits = whole + decimals
    if not digits or any(each not in "0123456789" for each in digits) or not whole:
        return False
    if point and not 1 <= len(decimals) <= 6:
        return False
    if whole[0] == "0" and whole != "0":
        return False
    return not (minus and set(digits) == {"0"}) and len(text) <= 20


def texts_of_the_grammar():
    """Every text of up to five of these characters, read or refused with 14."""
    count = 0
    for length in range(6):
        for letters in itertools.product("-.01x", repeat=length):
            text = "".join(letters)
            found = read_text(0, text.encode("ascii"))
            same(isinstance(found, Amount), is_of_the_grammar(text))
            holds(isinstance(found, Amount) or found == Refusal(14))
            if isinstance(found, Amount):
                count += 1
                same(text_of(found.scale, found.coefficient), text)
    holds(count > 100)


def texts_and_amounts():
    """Each amount has one text, which reads as the amount with its scale."""
    for scale in range(7):
        for coefficient in (0, 1, 5, 9, 10, 99, 100, 10**6, 1234567, L - 1, L):
            for signed in (coefficient, -coefficient):
                amount = Amount(3, scale, signed)
                text = text_of(scale, signed).encode("ascii")
                holds(len(text) <= 20)
                same(read_text(3, text), amount)
                lent = bytearray(b"_" * 24)
                same(write_text(amount, lent), (None, len(text)))
                same(bytes(lent), text.ljust(24, b"_"))
                short = bytearray(b"_" * (len(text) - 1))
                same(write_text(amount, short), (Refusal(11), 0))
                same(bytes(short), b"_" * (len(text) - 1))
        for sign in ("", "-"):
            same(read_text(3, f"{sign}{text_of(scale, L + 1)}".encode("ascii")), Refusal(13))
    for text in (b"9" * 20, b"-" + b"9" * 19, b"9" * 18 + b".9"):
        same(read_text(3, text), Refusal(13))
    for text in (b"9" * 21, b"-" + b"9" * 20, b"9" * 18 + b".99", b"", b"1\n", b"\xb2"):
        same(read_text(3, text), Refusal(14))
        same(read_text(21, text), Refusal(4))


def lines_of_texts():
    lines(f"""
read EUR -12.50 -> = EUR -12.50
read 0 -12.50 -> = 0 2 -1250
read 21 x -> ! 4
read XXX x -> ! 4
read EUR x -> ! 14
read EUR {LARGEST_TEXT} -> = EUR {LARGEST_TEXT}
read EUR {LARGEST_TEXT}9 -> ! 13
read eur 1 -> ?
read EUR -> ?
write 0 2 -1250 8 -> = 6 -12.50__
write EUR -12.50 6 -> = 6 -12.50
write 0 2 -1250 5 -> ! 11
write 0 0 0 1 -> = 1 0
write 0 7 {L + 1} 0 -> ! 2
write 21 6 {L + 1} 0 -> ! 3
write 21 6 {L} 0 -> ! 4
write 0 2 5 65 -> = 4 0.05{"_" * 60}
write 0 2 5 -1 -> = 4 0.05{"_" * 60}
""")


def lines_with_codes():
    lines("""
convert DEM 100.00 FRF -> = FRF 335.38
convert DEM 100.00 4 -> = FRF 335.38
convert 2 2 10000 FRF -> = 4 2 33538
convert DEM 100.0 FRF -> ! 2
convert DEM 100.00 XXX -> ! 4
convert DEM 100.00 frf -> ?
tax-gross EUR 1.00 200000 4 -> = 0.17 0.83
tax-net EUR 0.02 200000 4 -> = 0.00 0.02
sum EUR 01.50 EUR 1 -> ! 14
sum EUR 01 XXX 1 -> ! 14
sum 0 9 1 XXX 01 -> ! 4
sum EUR 1.5 0 2 150 -> = EUR 3.00
sum 0 2 150 EUR 1.5 -> = 0 2 300
sum EUR 1 EUR -> ?
rescale XXX 1.00 9 9 -> ! 4
rescale EUR 1.00 9 9 -> ! 1
rescale EUR -0.40 0 1 -> = EUR 0
order EUR 1.5 0 2 150 -> = equal
negate HRK 0.000001 -> = HRK -0.000001
negate Eur 1 -> ! 4
negate EUR 1 2 -> ?
interest EUR 1000.00 500 0 2023 2 28 2023 3 31 4 -> = EUR 4.31 31
interest EUR 1000.00 500 0 2023 2 29 2023 3 31 4 -> ! 7 first
share EUR -1.00 3 3 1 -> = -0.43 -0.43 -0.14
share ITL 10 0 1 1 1 -> = 0 4 3 3
share EUR 1.00 -> ! 9
""")


def books_with_codes():
    zeros, cents = " 0" * 13, " 0.00" * 13
    lines(f"""
open EUR 5 3 2 -> = open
post EUR 0.07 -> = 0.07 0.04 0.02 0.01{cents}
post 0 2 5 -> = 0.12 0.02 0.02 0.01{cents}
refund EUR 0.03 -> = 0.09 0.01 0.01 0.01{cents}
refund EUR 0.10 -> ! 12
totals -> = 0.09 0.05 0.03 0.01{cents}
post EUR x -> ! 14
post EUR 0.1 -> ! 2
open eur 1 -> ?
totals -> = 0.09 0.05 0.03 0.01{cents}
open 0 5 3 2 -> = open
post EUR 0.07 -> = 7 4 2 1{zeros}
open ITL 5 3 2 -> = open
post ITL 7 -> = 7 4 2 1{zeros}
open XXX 1 -> ! 4
post EUR x -> ! 14
post EUR 0.07 -> ! 9
""")
    for number, row in enumerate(CURRENCIES):
        text = text_of(row.digits, 1)
        asked = f"open {row.code} 1\npost {number} {row.digits} 1".encode("ascii")
        same(answers(asked)[1].split()[1:3], [text.encode("ascii")] * 2)


REPORTS = """book none
lines 0 accepted 1 refused 0 not understood
refused 14 times 1 first 1
book EUR weights 2 1
lines 3 accepted 3 refused 1 not understood
not understood first 9
refused 4 times 1 first 7
refused 13 times 1 first 8
refused 14 times 1 first 6
posted 12.45 refunded 0.05 net 12.40
partner 0 weight 2 paid 8.30 taken 0.03 total 8.27 least 8.26 most 8.27
partner 1 weight 1 paid 4.15 taken 0.02 total 4.13 least 4.13 most 4.14
check ok
book 0 weights 2 1
lines 1 accepted 0 refused 0 not understood
posted 5 refunded 0 net 5
partner 0 weight 2 paid 4 taken 0 total 4 least 3 most 4
partner 1 weight 1 paid 1 taken 0 total 1 least 1 most 2
check ok
book refused 4
lines 0 accepted 1 refused 0 not understood
refused 9 times 1 first 13
end 13 lines
"""


def reports_with_codes():
    quarter = b"""post EUR 01
open EUR 2 1
post EUR 12.34
post 0 2 11
refund EUR 0.05
refund EUR .5
refund XXX .5
post EUR 99999999999999999999
post EUR
open 0 2 1
post EUR 0.05
open XXX 2 1
post EUR 0.05
"""
    same(reports(quarter), REPORTS)


def texts_with_cards():
    zeros = " 0.00" * 14
    lines(f"""
open EUR 5 3 -> = open
post EUR 0.09 -> = 0.09 0.06 0.03{zeros}
card 1 1 -> = card 2
settled -> = 2 0.06 0.03{zeros}
totals -> = 0.00 0.00 0.00{zeros}
""")
    found = reports(b"open EUR 5 3\npost EUR 0.09\ncard 1 1\npost EUR 1.05\n")
    same(found.split("\n")[6:14], [
        "card 2 weights 1 1",
        "lines 1 accepted 0 refused 0 not understood",
        "posted 1.05 refunded 0.00 net 1.05",
        "partner 0 weight 1 paid 0.53 taken 0.00 total 0.53 least 0.52 most 0.53",
        "partner 1 weight 1 paid 0.52 taken 0.00 total 0.52 least 0.52 most 0.53",
        "check ok",
        "settled 0 cards 2 together 0.59 least 0.57 most 0.59",
        "settled 1 cards 2 together 0.55 least 0.55 most 0.57",
    ])


def texts_with_calls_of_asks():
    for ask, line, expected in (
        (2, "interest EUR 1000.00 500 2 2023 2 28 2023 3 31 4", "= EUR 4.58 33"),
        (5, "net-for EUR 0.04 200000 4", "= EUR 0.03"),
        (5, "net-for EUR 0.03 200000 4", "! 15"),
        (6, "compound EUR 100.00 500 2 4", "= 100.00 105.00 110.25 -0.07"),
        (6, "compound ITL 100 500 1 3", "= 100 105 -7"),
        (7, "convert DEM 100.00 FRF 4", "= FRF 335.39"),
        (7, "convert 2 2 10000 FRF 4", "= 4 2 33539"),
        (7, "convert DEM 100.00 XXX 7", "! 2"),
    ):
        yield ask, lambda line=line, expected=expected: lines(f"{line} -> {expected}")


CHECKS = (
    ({1}, texts_of_the_grammar),
    ({1}, texts_and_amounts),
    ({1}, lines_of_texts),
    ({1}, lines_with_codes),
    ({1}, books_with_codes),
    ({1}, reports_with_codes),
    ({1, 9}, texts_with_cards),
    *(({1, ask}, check) for ask, check in texts_with_calls_of_asks()),
)
