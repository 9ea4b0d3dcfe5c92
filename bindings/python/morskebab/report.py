"""The figures of a quarter's report, its checks, and the report as a table, as CSV and as JSON."""
from __future__ import annotations

import csv
import json
import unicodedata
from collections.abc import Iterator
from fractions import Fraction
from math import ceil, floor
from typing import TYPE_CHECKING, Any, NamedTuple, TextIO

from . import __version__
from .ledger import Counts, Ledger, Part
from .tables import shown

if TYPE_CHECKING:
    from .rerun import Listed, Quarter

ALL_WELL, CHECK_FAILED, NOT_UNDERSTOOD, READING_FAILED, NOT_ALL_ACCEPTED = range(5)
SCHEMA = "morskebab-rerun-1"
HEADINGS = ("book", "currency", "card", "from", "net", "partner", "weight", "paid", "taken_back", "total", "least", "most", "exact_units", "exact_rest",
            "exact_of", "distance_rest", "check")


class Figures(NamedTuple):
    """One partner's, in the currency's smallest units. The exact share is a fraction of them; weight None where several cards are added up."""

    name: str
    weight: int | None
    paid: int
    taken: int
    total: int
    exact: Fraction
    least: int
    most: int

    @property
    def distance(self) -> Fraction:
        return self.total - self.exact

    def holds(self) -> bool:
        return self.least <= self.total <= self.most and self.paid - self.taken == self.total


def figures(ledger: Ledger, part: Part) -> list[Figures]:
    """The partners of one card."""
    whole = sum(part.weights)
    shares = [Fraction(part.net * weight, whole) for weight in part.weights]
    return [Figures(name, part.weights[i], part.paid[i], part.taken[i], part.totals[i], shares[i], floor(shares[i]), ceil(shares[i]))
            for i, name in enumerate(ledger.contract.partners)]


def together(ledger: Ledger) -> list[Figures]:
    """The partners over all cards; the total is what the library says is settled and running."""
    parts = [figures(ledger, part) for part in ledger.parts]
    settled, running = ledger.book.settled, ledger.parts[-1].totals
    added = []
    for i, name in enumerate(ledger.contract.partners):
        mine = [part[i] for part in parts]
        added.append(Figures(name, None, sum(f.paid for f in mine), sum(f.taken for f in mine), settled[i] + running[i],
                             sum((f.exact for f in mine), Fraction(0)), sum(f.least for f in mine), sum(f.most for f in mine)))
    return added


def check(lines: list[Figures], posted: int, refunded: int, net: int) -> str:
    """`ok`, or FAILED and the partner: rerun's check."""
    for line in lines:
        if not line.holds():
            return f"FAILED {line.name}"
    if posted - refunded != net or sum(line.total for line in lines) != net:
        return f"FAILED {lines[-1].name}"
    return "ok"


def check_of_part(ledger: Ledger, part: Part) -> str:
    return check(figures(ledger, part), part.posted, part.refunded, part.net)


def check_of_book(ledger: Ledger) -> str:
    """The first check that fails, of a card or of all together; else `ok`."""
    parts = ledger.parts
    sums = sum(part.posted for part in parts), sum(part.refunded for part in parts), sum(part.net for part in parts)
    checks = [*(check_of_part(ledger, part) for part in parts), check(together(ledger), *sums)]
    return next((said for said in checks if said != "ok"), "ok")


def amount(units: int, digits: int) -> str:
    """Units of the smallest kind as an amount's text. Sums of payouts may be past the library's largest amount."""
    sign, whole = "-" if units < 0 else "", f"{abs(units):0{digits + 1}d}"
    return f"{sign}{whole[:-digits]}.{whole[-digits:]}" if digits else sign + whole


def exact(share: Fraction, digits: int) -> str:
    """An exact share: by up to four digits more where they say it all, else with a fraction of the last digit behind it."""
    for more in range(5):
        if 10**more % share.denominator == 0:
            return amount(int(share * 10**more), digits + more)
    return f"{amount(floor(share), digits)} {share - floor(share)}"


def signed(distance: Fraction) -> str:
    return f"+{distance}" if distance > 0 else str(distance)


def not_reached(ledger: Ledger) -> list[str]:
    """The days of the contract's cards that no row came to."""
    return [card.day for card in ledger.contract.cards[len(ledger.parts) :]]


def counted(counts: Counts, rows: str = " rows") -> str:
    return f"{counts.accepted}{rows} accepted, {counts.refusals} refused, {counts.not_understood.times} not understood"


def width(text: str) -> int:
    """The places that a text takes on a screen."""
    return len(text) if text.isascii() else sum((unicodedata.east_asian_width(c) in "WF") + (unicodedata.combining(c) == 0) for c in text)


def laid_out(rows: list[list[str]]) -> Iterator[str]:
    """Columns side by side, the first to the left, the others to the right."""
    widths = [max(map(width, column)) for column in zip(*rows)]
    for row in rows:
        cells = [" " * (wide - width(cell)) + cell for cell, wide in zip(row[1:], widths[1:])]
        yield "  " + "  ".join([row[0] + " " * (widths[0] - width(row[0])), *cells]).rstrip()


def grid(lines: list[Figures], digits: int) -> Iterator[str]:
    rows = [["partner", "weight", "paid", "taken back", "total", "exact share", f"distance in {amount(1, digits)}"]]
    for f in lines:
        rows.append([shown(f.name), "" if f.weight is None else str(f.weight), *(amount(n, digits) for n in (f.paid, f.taken, f.total)),
                     exact(f.exact, digits), signed(f.distance)])
    return laid_out(rows)


def _book(ledger: Ledger) -> Iterator[str]:
    digits = ledger.contract.digits
    yield f"book {shown(ledger.contract.name)}, {ledger.code}"
    for part in ledger.parts:
        yield f"card {part.number} from {part.day}: {counted(part)}"
        for number, tally in sorted(part.refused.items()):
            yield f"  refused {number} times {tally.times} first on line {tally.first}"
        yield f"  posted {amount(part.posted, digits)} refunded {amount(part.refunded, digits)} net {amount(part.net, digits)}"
        yield from grid(figures(ledger, part), digits)
        yield f"  check {shown(check_of_part(ledger, part))}"
    if len(ledger.parts) > 1:
        yield f"all {len(ledger.parts)} cards together"
        yield from grid(together(ledger), digits)
        yield f"  check {shown(check_of_book(ledger))}"
    for day in not_reached(ledger):
        yield f"no row came to the card from {day}"


def joined(words: list[str]) -> str:
    """A row's words as they stand in a CSV file."""
    return ",".join('"' + word.replace('"', '""') + '"' if any(c in word for c in ',"\n') else word for word in words)


def listed(row: Listed) -> Iterator[str]:
    why = f"refusal {row.number}: {row.reason}" if row.number else f"not understood: {row.reason}"
    yield f"line {row.line}, reference {shown(row.reference) or 'none'}, {f'book {shown(row.book)}' if row.book else 'no book'}: {why}"
    yield "    " + shown(joined(row.words))


def end_line(quarter: Quarter) -> str:
    if quarter.failed:
        return f"end FAILED after {quarter.lines} lines: {quarter.failed}"
    return f"end {quarter.lines} lines" + ", the last one unended" * quarter.unended + "; the last line of the contracts is unended" * quarter.unended_contracts


def write_table(quarter: Quarter, out: TextIO) -> None:
    for ledger in quarter.books:
        for line in _book(ledger):
            out.write(line + "\n")
        out.write("\n")
    if quarter.listed:
        out.write(f"{quarter.listed} rows refused or not understood, {quarter.nowhere.not_understood.times} of them of no book\n")
        for row in quarter.refused():
            for line in listed(row):
                out.write(line + "\n")
    out.write(end_line(quarter) + "\n")


def cell(text: str) -> str:
    """A text in a spreadsheet: one that a spreadsheet would run as a formula gets an apostrophe before it."""
    return "'" + text if text[:1] in ("=", "+", "-", "@", "\t", "\r") else text


def write_csv(quarter: Quarter, out: TextIO) -> None:
    """A row for each partner of each card, and for the partners of all cards where there are several."""
    writer = csv.writer(out, lineterminator="\n")
    writer.writerow(HEADINGS)
    for ledger in quarter.books:
        contract = ledger.contract
        for part in ledger.parts:
            _csv_rows(writer, ledger, figures(ledger, part), [str(part.number), part.day], part.net, check_of_part(ledger, part))
        if len(ledger.parts) > 1:
            _csv_rows(writer, ledger, together(ledger), ["all", contract.cards[0].day], sum(part.net for part in ledger.parts), check_of_book(ledger))


def _csv_rows(writer: Any, ledger: Ledger, lines: list[Figures], card: list[str], net: int, said: str) -> None:
    digits = ledger.contract.digits
    for f in lines:
        whole = floor(f.exact)
        writer.writerow([cell(ledger.contract.name), ledger.code, *card, amount(net, digits), cell(f.name), "" if f.weight is None else f.weight,
                         *(amount(n, digits) for n in (f.paid, f.taken, f.total, f.least, f.most, whole)),
                         (f.exact - whole).numerator, f.exact.denominator, f.distance.numerator, said])


def write_refused(quarter: Quarter, out: TextIO) -> None:
    """The rows that were refused or not understood, as CSV."""
    writer = csv.writer(out, lineterminator="\n")
    writer.writerow(["line", "reference", "book", "refusal", "reason", "words"])
    for row in quarter.refused():
        writer.writerow([row.line, cell(row.reference), cell(row.book), row.number or "", row.reason, cell(joined(row.words))])


def _json_partners(lines: list[Figures], digits: int) -> list[dict]:
    return [{"name": f.name, **({} if f.weight is None else {"weight": f.weight}), "paid": amount(f.paid, digits), "taken_back": amount(f.taken, digits),
             "total": amount(f.total, digits), "least": amount(f.least, digits), "most": amount(f.most, digits),
             "exact_share": {"units": amount(floor(f.exact), digits), "numerator": (f.exact - floor(f.exact)).numerator, "denominator": f.exact.denominator},
             "distance": {"numerator": f.distance.numerator, "denominator": f.distance.denominator}} for f in lines]


def _json_counts(counts: Counts) -> dict:
    return {"accepted": counts.accepted, "refused": counts.refusals, "not_understood": counts.not_understood.times,
            "refusals": [{"number": number, "times": tally.times, "first_line": tally.first} for number, tally in sorted(counts.refused.items())]}


def _json_book(ledger: Ledger) -> dict:
    contract, digits = ledger.contract, ledger.contract.digits
    held: dict[str, Any] = {"name": contract.name, "currency": contract.code, "digits": digits, "cards": [
        {"number": part.number, "from": part.day, "rows": _json_counts(part), "posted": amount(part.posted, digits),
         "refunded": amount(part.refunded, digits), "net": amount(part.net, digits), "partners": _json_partners(figures(ledger, part), digits),
         "check": check_of_part(ledger, part)} for part in ledger.parts]}
    held["together"] = {"net": amount(sum(part.net for part in ledger.parts), digits), "partners": _json_partners(together(ledger), digits)}
    return {**held, "not_reached": not_reached(ledger), "check": check_of_book(ledger)}


def write_json(quarter: Quarter, out: TextIO) -> None:
    """One object, by the schema of docs/PACKAGES.md; the refused rows are written as they are read back."""
    head = {"schema": SCHEMA, "version": __version__, "contracts": quarter.contracts, "postings": quarter.postings, "rows": quarter.rows,
            "lines": quarter.lines, "unended": quarter.unended, "unended_contracts": quarter.unended_contracts, "failed": quarter.failed, "status": quarter.status,
            "no_book": _json_counts(quarter.nowhere)}
    out.write(json.dumps(head)[:-1] + ', "books": [')
    for place, ledger in enumerate(quarter.books):
        out.write(("," if place else "") + "\n" + json.dumps(_json_book(ledger)))
    out.write('\n], "refused": [')
    for place, row in enumerate(quarter.refused()):
        out.write(("," if place else "") + "\n" + json.dumps(row._asdict()))
    out.write("\n]}\n")
