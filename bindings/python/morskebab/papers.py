"""The commands `statement` and `view`: the partners' statement files, written and read by the library, by name of partner."""
from __future__ import annotations

import argparse
import csv
import json
import os
import re
import sys
from collections.abc import Callable
from typing import Any, NamedTuple

from . import Amount, AnyView, Refused, check_any, currency_line, write_reasons, write_statement
from . import contracts as _contracts
from .contracts import Contract, Unsound, name_of
from .report import ALL_WELL, CHECK_FAILED, NOT_ALL_ACCEPTED, READING_FAILED, amount, cell, check_of_book, end_line, laid_out, together
from .tables import EMPTY, NotATable, Table, shown

# the most bytes that a statement takes
ROOM = 4000 * 24 + 24
CODE = re.compile(r"[0-9]|[1-9][0-9]")


def book_of(contracts: dict[str, Contract], name: str | None, path: str) -> Contract:
    """The contract of the book that is named, or the only one."""
    if name is None and len(contracts) == 1:
        return next(iter(contracts.values()))
    found = contracts.get(name_of(name)) if name is not None else None
    if found is None:
        books = ", ".join(shown(book) for book in contracts)
        raise NotATable(f"{path}: {'--book has to name one' if name is None else f'there is no book {shown(name)!r}'}; the books are: {books}")
    return found


class Paid(NamedTuple):
    """A payout that is to be written: the partner's place, the coefficient, and the reason's code where the file has reasons."""

    place: int
    coefficient: int
    reason: int | None = None


def payouts_of(words: argparse.Namespace, contract: Contract, named: dict[str, str], separator: str | None) -> list[Paid]:
    """The rows of a file of payouts."""
    columns = {name: named.get(name, name) for name in ("partner", "amount")}
    table = Table(words.payouts, columns, words.encoding, separator, perhaps=[named.get("reason", "reason")])
    found: list[Paid] = []
    faults: list[tuple[int, str]] = []
    for block in table.blocks():
        faults += [(fault.line, fault.reason) for fault in block.faults]
        for line, row in zip(block.lines, block.rows):
            if row in EMPTY:
                continue
            if len(row) != table.width:
                faults.append((line, f"the row has {len(row)} fields where the header has {table.width}"))
                continue
            paid = paid_by([row[place].strip() for place in table.places], contract)
            code = "" if table.perhaps[0] is None else row[table.perhaps[0]].strip()
            if isinstance(paid, str):
                faults.append((line, paid))
            elif table.perhaps[0] is not None and not CODE.fullmatch(code):
                faults.append((line, f"{shown(code)!r} is no reason, which is a code of 0 to 99"))
            else:
                found.append(paid if table.perhaps[0] is None else paid._replace(reason=int(code)))
    if faults:
        raise Unsound(table.name, faults)
    return found


def paid_by(words: list[str], contract: Contract) -> Paid | str:
    """A row's payout, or what is wrong with the row."""
    partner, text = words
    if name_of(partner) not in contract.partners:
        return f"book {shown(contract.name)} has no partner {shown(partner)!r}"
    try:
        paid = Amount.parse(contract.currency, text)
    except Refused as refusal:
        return f"{refusal}: {shown(text)!r}"
    if paid.scale != contract.digits:
        return f"{shown(text)!r} has {paid.scale} digits behind the point, and {contract.code} has {contract.digits}"
    return Paid(contract.partners.index(name_of(partner)), paid.coefficient)


def do_statement(words: argparse.Namespace) -> int:
    """Writes a statement: a record for each partner's total over the quarter, or for each row of a file of payouts."""
    from .cli import again, columns_of, separator_of

    status = ALL_WELL
    separator, named = separator_of(words), columns_of(words)[0]
    contract = book_of(_contracts.read(words.contracts, named["contracts"], words.encoding, separator), words.book, words.contracts)
    if words.payouts is not None:
        payouts = payouts_of(words, contract, named["payouts"], separator)
    else:
        quarter = again(words)
        contract = book_of({ledger.contract.name: ledger.contract for ledger in quarter.books}, words.book, words.contracts)
        ledger = next(ledger for ledger in quarter.books if ledger.contract is contract)
        if quarter.failed or check_of_book(ledger) != "ok":
            print(f"morskebab: no statement is written: {end_line(quarter) if quarter.failed else f'check {check_of_book(ledger)}'}", file=sys.stderr)
            return READING_FAILED if quarter.failed else CHECK_FAILED
        if quarter.status:
            status = quarter.status
            print(f"morskebab: {quarter.listed} rows of the quarter were refused or not understood (morskebab rerun lists them)", file=sys.stderr)
        payouts = [Paid(place, line.total) for place, line in enumerate(together(ledger))]
    try:
        put(words.file, contract, payouts, words.append)
    except Refused as refusal:
        print(f"morskebab: {words.file}: no statement is written: {refusal}", file=sys.stderr)
        return NOT_ALL_ACCEPTED
    return status


def put(path: str, contract: Contract, payouts: list[Paid], append: bool) -> None:
    """The statement as the file's bytes, or behind those that it has; of version 2 where the payouts have reasons."""
    before = b""
    if append and os.path.exists(path):
        with open(path, "rb") as file:
            before = file.read()
    out = bytearray(before + bytes(ROOM))
    places, coefficients = [paid.place for paid in payouts], [paid.coefficient for paid in payouts]
    reasons = [paid.reason for paid in payouts if paid.reason is not None]
    if reasons:
        end = write_reasons(contract.currency, places, reasons, coefficients, out, len(before))
    else:
        end = write_statement(contract.currency, places, coefficients, out, len(before))
    beside = f"{path}.part"
    with open(beside, "wb") as file:
        file.write(out[:end])
    os.replace(beside, path)


def do_view(words: argparse.Namespace) -> int:
    """Prints the records of the statement that a file ends in."""
    from .cli import columns_of, separator_of

    with open(words.file, "rb") as file:
        file.seek(max(0, os.fstat(file.fileno()).st_size - ROOM))
        data = file.read()
    try:
        found = check_any(data)
        held = list(AnyView(data))
    except Refused as refusal:
        print(f"morskebab: {words.file}: {refusal}", file=sys.stderr)
        return NOT_ALL_ACCEPTED
    line = currency_line(held[0].currency) if held else None
    code, digits = (line.code, line.digits) if line else ("", 0)
    partners: list[str] = []
    if words.contracts is not None:
        contract = book_of(_contracts.read(words.contracts, columns_of(words)[0]["contracts"], words.encoding, separator_of(words)), words.book, words.contracts)
        if line and contract.code != code:
            print(f"morskebab: {words.file}: the statement is in {code}, and book {shown(contract.name)} in {contract.code}", file=sys.stderr)
            return NOT_ALL_ACCEPTED
        partners = contract.partners
    rows = [Shown(payout.place, partners[payout.place] if payout.place < len(partners) else "", amount(payout.coefficient, digits), payout.reason) for payout in held]
    show(words, found.version, code, amount(found.sum, digits), rows)
    return ALL_WELL


class Shown(NamedTuple):
    """A record as it is shown."""

    place: int
    partner: str
    amount: str
    reason: int


def show(words: argparse.Namespace, version: int, code: str, total: str, rows: list[Shown]) -> None:
    """The records; a file of version 1 has no reasons, and the table says none."""
    if words.json:
        listed = [row._asdict() for row in rows]
        print(json.dumps({"schema": "morskebab-view-1", "version": version, "currency": code, "count": len(rows), "sum": total, "records": listed}))
    elif words.csv:
        writer = csv.writer(sys.stdout, lineterminator="\n")
        writer.writerow(["place", "partner", "currency", "amount", "reason"])
        writer.writerows([row.place, cell(row.partner), code, row.amount, row.reason] for row in rows)
    else:
        lines = [[shown(row.partner) or f"place {row.place}", row.amount, str(row.reason)] for row in rows]
        whole = [["partner", code or "amount", "reason"], *lines, [f"{len(rows)} records", total, ""]]
        for laid in laid_out(whole if version == 2 else [line[:2] for line in whole]):
            print(laid)


def add_commands(commands: Any, add_files: Callable[..., None]) -> None:
    """The two commands beside `rerun`."""
    one = commands.add_parser("statement", help="writes the partners' statement file of a book")
    add_files(one, postings=False)
    given = one.add_mutually_exclusive_group(required=True)
    given.add_argument("--postings", metavar="P.csv", help="a record for each partner's total over the quarter")
    given.add_argument("--payouts", metavar="Q.csv", help="a record for each row: partner, amount, and perhaps reason")
    one.add_argument("--book", metavar="NAME", help="the book, where the contracts have several")
    one.add_argument("--append", action="store_true", help="the statement goes behind the bytes that the file has")
    one.add_argument("file", metavar="FILE", help="the file to write")
    one.set_defaults(do=do_statement)
    two = commands.add_parser("view", help="reads the statement that a file ends in")
    two.add_argument("file", metavar="FILE")
    add_files(two, postings=False, required=False)
    two.add_argument("--book", metavar="NAME", help="the book, where the contracts have several")
    form = two.add_mutually_exclusive_group()
    form.add_argument("--csv", action="store_true", help="a row for each record")
    form.add_argument("--json", action="store_true", help="one object, by the schema of docs/PACKAGES.md")
    two.set_defaults(do=do_view)
