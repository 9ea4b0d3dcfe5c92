"""The report of a quarter as one page for an auditor and for partners: nothing in it is fetched, nothing runs, and it reads on a telephone and on paper."""
from __future__ import annotations

import datetime
from collections.abc import Iterator
from html import escape
from typing import TYPE_CHECKING, TextIO

from . import __version__
from .ledger import Ledger, Part
from .report import Figures, amount, check_of_book, check_of_part, counted, end_line, exact, figures, joined, not_reached, signed, together
from .style import STYLE
from .tables import shown

if TYPE_CHECKING:
    from .rerun import Listed, Quarter

# of the drawing of a lane, which is stretched to the room that it has
WIDE, HIGH = 1000, 100
TICKS = 7


def text(said: str) -> str:
    return escape(shown(said), quote=True)


def write_page(quarter: Quarter, out: TextIO) -> None:
    for piece in _page(quarter):
        out.write(piece + "\n")


def _page(quarter: Quarter) -> Iterator[str]:
    days = sorted(day for ledger in quarter.books for day in (ledger.first_day, ledger.last_day) if day)
    when = f"{days[0]} to {days[-1]}" if days else "no rows"
    yield "<!doctype html>"
    yield '<html lang="en"><head><meta charset="utf-8"><meta name="viewport" content="width=device-width, initial-scale=1">'
    yield "<meta http-equiv=\"Content-Security-Policy\" content=\"default-src 'none'; style-src 'unsafe-inline'; img-src data:\">"
    yield f'<link rel="icon" href="data:,"><title>Share books, {when}</title><style>{STYLE}</style></head><body>'
    yield from _head(quarter, when)
    for place, ledger in enumerate(quarter.books):
        yield from _book(place, ledger, quarter.first.get(ledger.contract.name, []))
    if quarter.first.get(""):
        counts = quarter.nowhere
        yield '<section id="no-book"><h2>Rows of no book</h2>'
        yield from _refused(quarter.first[""], counts.not_understood.times + counts.refusals)
        yield "</section>"
    yield from _foot(quarter)


def _head(quarter: Quarter, when: str) -> Iterator[str]:
    books, status = quarter.books, quarter.status
    accepted = sum(part.accepted for ledger in books for part in ledger.parts)
    verdict, mood = {
        0: ("Every row was accepted and every check is ok.", "good"),
        1: ("A check FAILED: see the books below.", "bad"),
        3: (f"The postings could not be read to their end: {text(quarter.failed)}.", "bad"),
    }.get(status, (f"Every check is ok; {quarter.listed} rows were refused or not understood." if quarter.listed
                   else "Every check is ok; the last line of the postings or of the contracts is unended.", "warn"))
    yield f'<header><h1>Share books</h1><p class="when">{when}</p><p class="verdict {mood}">{verdict}</p>'
    yield "<dl>"
    for name, value in (("Contracts", text(quarter.contracts)), ("Postings", text(quarter.postings)), ("Books", f"{len(books)}"),
                        ("Rows", f"{quarter.rows}, of which {accepted} accepted")):
        yield f"<div><dt>{name}</dt><dd>{value}</dd></div>"
    yield "</dl>"
    if len(books) > 1:
        yield "<nav><ul>"
        for place, ledger in enumerate(books):
            mark = "" if check_of_book(ledger) == "ok" else " (check FAILED)"
            yield f'<li><a href="#book-{place}">{text(ledger.contract.name)}</a>{mark}</li>'
        yield "</ul></nav>"
    yield "</header>"


def _book(place: int, ledger: Ledger, refused: list[Listed]) -> Iterator[str]:
    contract, digits = ledger.contract, ledger.contract.digits
    yield f'<section id="book-{place}"><h2>{text(contract.name)} <small>{contract.code}</small></h2>'
    for part in ledger.parts:
        yield from _card(ledger, part)
    if len(ledger.parts) > 1:
        net = amount(sum(part.net for part in ledger.parts), digits)
        yield f"<h3>All {len(ledger.parts)} cards together</h3><dl><div><dt>Net</dt><dd>{net}</dd></div></dl>"
        yield from _grid(together(ledger), digits, _check(check_of_book(ledger)))
    for day in not_reached(ledger):
        yield f"<p>No row came to the card that holds from {day}.</p>"
    yield from _picture(ledger)
    if refused:
        yield "<h3>Rows refused or not understood</h3>"
        yield from _refused(refused, sum(part.refusals + part.not_understood.times for part in ledger.parts))
    yield "</section>"


def _card(ledger: Ledger, part: Part) -> Iterator[str]:
    digits = ledger.contract.digits
    yield f"<h3>Card {part.number}, from {part.day}</h3><dl>"
    for name, value in (("Net", part.net), ("Posted", part.posted), ("Refunded", part.refunded)):
        yield f"<div><dt>{name}</dt><dd>{amount(value, digits)}</dd></div>"
    yield f"<div><dt>Rows</dt><dd>{counted(part, '')}</dd></div></dl>"
    yield from _grid(figures(ledger, part), digits, _check(check_of_part(ledger, part)))


def _check(said: str) -> str:
    return '<p class="check good">check ok</p>' if said == "ok" else f'<p class="check bad">check {text(said)}</p>'


def _grid(lines: list[Figures], digits: int, check: str) -> Iterator[str]:
    """The partners' table; without the weights where several cards are added up."""
    weighed = lines[0].weight is not None
    names = ["Partner", *(["Weight"] if weighed else []), "Paid", "Taken back", "Total", "Exact share", f"Distance in {amount(1, digits)}"]
    yield "<table><thead><tr>" + "".join(f'<th scope="col">{name}</th>' for name in names) + "</tr></thead><tbody>"
    whole = sum(f.weight or 0 for f in lines)
    for f in lines:
        cells = [*([f"{f.weight} of {whole}"] if weighed else []), *(amount(n, digits) for n in (f.paid, f.taken, f.total)), exact(f.exact, digits),
                 signed(f.distance)]
        yield f'<tr><th scope="row">{text(f.name)}</th>' + "".join(f'<td data-name="{name}">{value}</td>' for name, value in zip(names[1:], cells)) + "</tr>"
    yield f"</tbody></table>{check}"


def _ordinal(day: str) -> int:
    return datetime.date.fromisoformat(day).toordinal()


def _picture(ledger: Ledger) -> Iterator[str]:
    """A lane for each partner: its distance at the end of each day, between the lines that it never crosses."""
    points = sorted(ledger.points, key=lambda point: point[0])
    if not points:
        return
    # the last day has its width too
    first, last = _ordinal(points[0][0]), _ordinal(points[-1][0]) + 1
    unit, cards = amount(1, ledger.contract.digits), len(ledger.parts)
    turns = [_place(_ordinal(part.day), first, last) for part in ledger.parts[1:] if first < _ordinal(part.day) < last]
    yield "<h3>Distance from the exact share</h3><figure>"
    ends = [f"{signed(f.distance)}" for f in together(ledger)]
    for place, name in enumerate(ledger.contract.partners):
        yield f'<div class="lane"><div class="who"><b>{text(name)}</b> <span>at the end {ends[place]}</span></div>'
        yield _lane([(_place(_ordinal(day), first, last), distances[place]) for day, distances in points], cards, turns)
        yield "</div>"
    yield f'<div class="axis">{"".join(_ticks(first, last))}</div>'
    upright = " An upright line is the day of a new card." if turns else ""
    bound = f"one unit of {unit} {ledger.code}" if cards == 1 else f"{cards} units of {unit} {ledger.code}, one for each card,"
    yield f"<figcaption>At the end of each day with rows, in units of {unit} {ledger.code}. The dashed lines are {bound} above and below the exact share.{upright}</figcaption></figure>"


def _place(day: int, first: int, last: int) -> int:
    return round(WIDE * (day - first) / (last - first)) if last > first else WIDE


def _lane(points: list[tuple[int, float]], bound: int, turns: list[int]) -> str:
    """Steps, from day to day."""
    def height(distance: float) -> float:
        return round(HIGH / 2 - distance / bound * HIGH * 0.42, 1)

    path = f"M0 {height(points[0][1])}" + "".join(f"H{x}V{height(distance)}" for x, distance in points) + f"H{WIDE}"
    lines = "".join(f'<path class="{kind}" d="M0 {height(y)}H{WIDE}"/>' for kind, y in (("bound", bound), ("nought", 0), ("bound", -bound)))
    upright = "".join(f'<path class="turn" d="M{x} 0V{HIGH}"/>' for x in turns)
    return f'<svg viewBox="0 0 {WIDE} {HIGH}" preserveAspectRatio="none" aria-hidden="true">{lines}{upright}<path class="way" d="{path}"/></svg>'


def _ticks(first: int, last: int) -> Iterator[str]:
    """The first day and the last, and between them the firsts of months, as many as there is room for."""
    months = [day for day in range(first + 1, last) if datetime.date.fromordinal(day).day == 1]
    months = [day for day in months[:: len(months) // TICKS + 1] if WIDE // 5 < _place(day, first, last) < WIDE * 3 // 5]
    for place, day, kind in [(0.0, first, ""), *((_place(day, first, last) / WIDE * 100, day, "") for day in months), (100.0, last - 1, ' class="end"')]:
        if not kind or last - first > 1:
            yield f'<span{kind} style="left:{place:.1f}%">{datetime.date.fromordinal(day).isoformat()}</span>'


def _refused(rows: list[Listed], count: int) -> Iterator[str]:
    yield '<table class="refused"><thead><tr><th>Line</th><th>Reference</th><th>Why</th><th>Row</th></tr></thead><tbody>'
    for row in rows:
        why = f"refusal {row.number}: {row.reason}" if row.number else row.reason
        cells = (("Line", str(row.line)), ("Reference", row.reference), ("Why", why), ("Row", joined(row.words)))
        yield "<tr>" + "".join(f'<td data-name="{name}">{text(value)}</td>' for name, value in cells) + "</tr>"
    yield "</tbody></table>"
    if count > len(rows):
        yield f"<p>These are the first {len(rows)} of {count}; <code>morskebab rerun --refused FILE</code> lists all.</p>"


def _foot(quarter: Quarter) -> Iterator[str]:
    yield "<footer><h2>How to read this page</h2>"
    yield "<p>A partner's <b>exact share</b> is the book's net times its weight, divided by the sum of the weights. A fraction behind it is of the last digit.</p>"
    yield "<p><b>Total</b> is what was paid less what was taken back. Its <b>distance</b> from the exact share, in the currency's smallest unit, is less than one "
    yield "unit on each card, after every row, whatever the batches: this is proved of the library that shares the money. The reading of the files and this page are "
    yield "tested, not proved; the checks compare what they added up with the library's totals.</p>"
    yield "<p><b>check ok</b> says that for every partner paid less taken back is the total, that the total is the exact share rounded down or up, and that the totals add up to the net.</p>"
    yield f"<p>{text(end_line(quarter))}. Morskebab {__version__}.</p></footer></body></html>"
