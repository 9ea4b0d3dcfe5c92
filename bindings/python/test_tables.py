"""What the command reads and checks by: CSV cut into blocks at any place, the quick way of an amount's text, both on random files and texts, and that a
report's check fails where a payout, a total or a sum is wrong. Prints how many checks passed."""
from __future__ import annotations

import contextlib
import io
import os
import pathlib
import random
import tempfile

import morskebab
from morskebab import ledger, tables
from morskebab.cli import main as command
from morskebab.report import check_of_book
from morskebab.rerun import rerun

passed = 0


def same(got, wanted):
    global passed
    assert got == wanted, f"{got!r} is not {wanted!r}"
    passed += 1


def blocks():
    """However the file is cut into blocks, the rows, their lines and what is no row are the same, and no line is lost."""
    source = random.Random(29)
    pieces = ["1,2\n", "\n", '"a\nb",c\n', '"a\n\nb""",c\n', '"x"y,z\n', "é,ü\n", '"open,1\n', "1\n", "7" * 90 + ",8\n", ',"\n', '"",""\n', "1,2,3\n"]
    stood = tables.BLOCK, tables.LINE
    for _ in range(150):
        text = "".join(source.choices(pieces, k=source.randint(0, 12))) + source.choice(["", "9,9"])
        pathlib.Path("t.csv").write_bytes(("p,q\n" + text).encode())
        found = []
        for tables.BLOCK in (60, 1, 2, 3, 5, 8, 13, 40):
            tables.LINE = 60
            table = tables.Table("t.csv", {"p": "p", "q": "q"})
            held = list(table.blocks())
            rows = sorted((line, row) for block in held for line, row in zip(block.lines, block.rows) if row not in tables.EMPTY)
            faults = sorted((fault.line, len(fault.words)) for block in held for fault in block.faults)
            found.append((rows, [line for line, _ in faults], table.lines, table.unended))
        tables.BLOCK, tables.LINE = stood
        same([part for part in found if part != found[0]], [])
        covered = [line + more for line, row in found[0][0] for more in range(1 + sum(word.count("\n") for word in row))] + found[0][1]
        wanted = [line for line, held in enumerate(text.split("\n"), 2) if held]
        same([line for line in wanted if line not in covered], [])


def texts():
    """The quick way of an amount's text is the library's, wherever it is taken."""
    source = random.Random(29)
    for digits, currency in ((0, morskebab.ITL), (2, morskebab.EUR)):
        quick = ledger.Amounts(digits)
        taken = 0
        for _ in range(4000):
            text = "".join(source.choices("0123456789..-+ e", k=source.randint(0, 4))) if source.random() < 0.5 else amount_near(source, digits)
            try:
                coefficient = quick[text]
            except KeyError:
                try:
                    by_library = morskebab.Amount.parse(currency, text)
                    assert by_library.scale != digits or by_library.coefficient < 0, text
                except morskebab.Refused:
                    pass
                continue
            same(repr(morskebab.Amount.parse(currency, text)), repr(morskebab.Amount(currency, digits, coefficient)))
            taken += 1
        assert taken > 500, taken


def amount_near(source, digits):
    whole = str(source.randint(0, 10 ** source.randint(0, 17)))
    return whole + ("." + "".join(source.choices("0123456789", k=source.choice([digits, digits, digits, 1, 3, 7]))) if source.random() < 0.9 and digits else "")


def checks():
    """One unit too many in a payout, and a book that counts a row twice, fail the check, and no statement is written of them."""
    pathlib.Path("c.csv").write_text("book,currency,from,partner,weight\nA,EUR,2023-01-01,X,2\nA,EUR,2023-01-01,Y,1\n")
    pathlib.Path("p.csv").write_text("time,book,kind,amount,currency,reference\n2023-01-01,A,post,1.00,EUR,r\n2023-01-02,A,refund,0.10,EUR,r\n")
    stood = ledger.Batch.run

    def one_too_many(batch, book, refunds, coefficients):
        after = stood(batch, book, refunds, coefficients)
        batch.payouts[wrong] += 1
        return after

    def twice(batch, book, refunds, coefficients):
        return stood(batch, stood(batch, book, refunds, coefficients), refunds, coefficients)

    same(rerun("c.csv", "p.csv").status, 0)
    for ledger.Batch.run, wrong, partner in ((one_too_many, 0, "X"), (one_too_many, 1, "Y"), (one_too_many, 17, "Y"), (twice, 0, "X")):
        quarter = rerun("c.csv", "p.csv", pictured=True)
        same((quarter.status, check_of_book(quarter.books[0])), (1, f"FAILED {partner}"))
        with contextlib.redirect_stderr(io.TextIOWrapper(io.BytesIO())):
            same((command(["statement", "--contracts", "c.csv", "--postings", "p.csv", "out.mkb"]), os.path.exists("out.mkb")), (1, False))
    ledger.Batch.run = stood


def main():
    with tempfile.TemporaryDirectory() as folder:
        os.chdir(folder)
        for part in (blocks, texts, checks):
            part()
    print(f"tables: {passed} checks passed")


if __name__ == "__main__":
    main()
