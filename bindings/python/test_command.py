"""The command `morskebab`, from a folder of its own: the example quarter, contracts that change, hostile files, statements. Prints how many checks
passed, and whose package it was."""
from __future__ import annotations

import csv
import io
import json
import os
import pathlib
import sys
import tempfile

import morskebab
from morskebab import tables
from morskebab.cli import main as command

ROOT = pathlib.Path(__file__).resolve().parents[2]
EXAMPLES = ROOT / "examples"
CONTRACTS = "book,currency,from,partner,weight\nA,EUR,2023-01-01,Xaver,2\nA,EUR,2023-01-01,Yvonne,1\nB,DEM,2023-01-01,Zoe,1\n"
HEAD = "time,book,kind,amount,currency,reference\n"
passed = 0


def same(got, wanted):
    global passed
    assert got == wanted, f"{got!r} is not {wanted!r}"
    passed += 1


def has(text, *parts):
    """Each part stands in the text, behind the one before it."""
    global passed
    place = 0
    for part in parts:
        found = text.find(part, place)
        assert found >= 0, f"{part!r} is not in {text[place:place + 3000]!r}"
        place = found + len(part)
    passed += 1


def put(name, held):
    pathlib.Path(name).write_bytes(held if isinstance(held, bytes) else held.encode())
    return name


def run(*words, status=0, given=b""):
    """What the command prints, on standard output and on standard error; an exception ends the test."""
    stood = sys.stdin, sys.stdout, sys.stderr
    streams = [io.TextIOWrapper(io.BufferedRandom(io.BytesIO(held))) for held in (given, b"", b"")]  # type: ignore[arg-type]
    sys.stdin, sys.stdout, sys.stderr = streams
    try:
        ended = command(list(words))
    except SystemExit as end:
        ended = end.code
    finally:
        sys.stdin, sys.stdout, sys.stderr = stood
    out, told = (stream.buffer.seek(0) or stream.buffer.read().decode() for stream in streams[1:] if stream.flush() is None)
    assert ended == status, f"{words} ended with {ended}: {told}{out[-2000:]}"
    return out, told


def rerun(postings, *words, contracts=CONTRACTS, status=0):
    """The report as an object."""
    out, _ = run("rerun", "--contracts", put("c.csv", contracts), "--postings", put("p.csv", postings), "--json", *words, status=status)
    report = json.loads(out)
    same((report["schema"], report["status"]), ("morskebab-rerun-1", status))
    return report


def refused(report):
    """What is listed, and that nothing is lost: every row is accepted or listed."""
    accepted = sum(card["rows"]["accepted"] for book in report["books"] for card in book["cards"])
    same(accepted + len(report["refused"]), report["rows"])
    return [(row["line"], row["reference"], row["book"], row["number"]) for row in report["refused"]]


def examples():
    """The quarter hourly and nightly, equal totals; with the contract that changes in its second month."""
    found = []
    for name in ("hourly", "nightly"):
        out, _ = run("rerun", "--contracts", str(EXAMPLES / "contracts.csv"), "--postings", str(EXAMPLES / f"{name}.csv"), "--json")
        card = json.loads(out)["books"][0]["cards"][0]
        found.append((card["net"], [(p["name"], p["total"]) for p in card["partners"]], card["check"]))
    same(found[0], found[1])
    same(found[0], ("32024.09", [("Anna", "16012.05"), ("Ben", "9607.23"), ("Café Chloé", "4803.61"), ("Dora", "1601.20")], "ok"))
    out, _ = run("rerun", "--contracts", str(EXAMPLES / "contracts-renegotiated.csv"), "--postings", str(EXAMPLES / "nightly.csv"), "--json")
    book = json.loads(out)["books"][0]
    same([(card["number"], card["from"], card["net"], card["rows"]["accepted"]) for card in book["cards"]],
         [(1, "2023-01-01", "10929.02", 57), (2, "2023-02-01", "21095.07", 113)])
    same([p["total"] for p in book["together"]["partners"]], ["14957.30", "9607.23", "4803.61", "2655.95"])


def forms():
    """The table, CSV, the list of what is refused."""
    files = ["rerun", "--contracts", put("c.csv", CONTRACTS), "--postings", put("p.csv", HEAD + "2023-01-01,A,post,1.00,EUR,r1\n2023-01-02,A,refund,2.00,EUR,r2\n")]
    out, _ = run(*files, status=4)
    has(out, "book A, EUR", "card 1 from 2023-01-01: 1 rows accepted, 1 refused, 0 not understood", "posted 1.00 refunded 0.00 net 1.00", "Xaver", "0.67",
        "0.66 2/3", "+1/3", "check ok", "book B, DEM", "line 3, reference r2, book A: refusal 12: ", "2023-01-02,A,refund,2.00,EUR,r2", "end 3 lines")
    out, told = run(*files, "--csv", "--refused", "refused.csv", status=4)
    rows = list(csv.DictReader(io.StringIO(out)))
    same([(row["book"], row["partner"], row["total"], row["exact_units"], row["exact_rest"], row["exact_of"], row["distance_rest"]) for row in rows],
         [("A", "Xaver", "0.67", "0.66", "2", "3", "1"), ("A", "Yvonne", "0.33", "0.33", "1", "3", "-1"), ("B", "Zoe", "0.00", "0.00", "0", "1", "0")])
    has(told, "1 rows were refused")
    same([row["line"] for row in csv.DictReader(io.StringIO(pathlib.Path("refused.csv").read_text()))], ["3"])
    report = rerun(HEAD + "2023-01-01,A,post,1.00,EUR,r1\n2023-01-01,A,post,1.0,EUR,r1\n", status=4)
    same(list(report), "schema version contracts postings rows lines unended unended_contracts failed status no_book books refused".split())
    same(list(report["no_book"]), "accepted refused not_understood refusals".split())
    same(list(report["books"][0]), "name currency digits cards together not_reached check".split())
    same(list(report["books"][0]["cards"][0]), "number from rows posted refunded net partners check".split())
    same(report["refused"], [{"line": 3, "book": "A", "reference": "r1", "number": 2, "reason": report["refused"][0]["reason"], "words": "2023-01-01 A post 1.0 EUR r1".split()}])
    same(report["books"][0]["cards"][0]["partners"][0],
         {"name": "Xaver", "weight": 2, "paid": "0.67", "taken_back": "0.00", "total": "0.67", "least": "0.66", "most": "0.67",
          "exact_share": {"units": "0.66", "numerator": 2, "denominator": 3}, "distance": {"numerator": 1, "denominator": 3}})


def rows():
    """Each way in which a row is refused or not understood, with its line; the rows around it stand."""
    around = "2023-01-01T10:00:00,{},post,3.00,EUR,ok\n"
    cases = [
        ("2023-01-01,A,post,-1.00,EUR,r", 10, ""), ("2023-01-01,A,post,1.5,EUR,r", 2, ""), ("2023-01-01,A,post,1.500,EUR,r", 2, ""),
        ("2023-01-01,A,post,01.50,EUR,r", 14, "'01.50'"), ("2023-01-01,A,post,\"1,50\",EUR,r", 14, "'1,50'"), ("2023-01-01,A,post,,EUR,r", 14, "''"),
        ("2023-01-01,A,post,1e3,EUR,r", 14, ""), ("2023-01-01,A,post,١.٥٠,EUR,r", 14, ""), ("2023-01-01,A,post,1.00,DEM,r", 5, ""),
        ("2023-01-01,A,post,1.00,XXX,r", 4, "'XXX'"), ("2023-01-01,A,post,1.00,eur,r", 4, "'eur'"), ("2023-01-01,A,refund,3.01,EUR,r", 12, ""),
        ("2023-01-01,A,post,9999999999999.99,EUR,r", 13, ""), ("2023-01-01,A,post,99999999999999.99,EUR,r", 13, ""), ("2023-01-01,A,post," + "9" * 200000 + ".00,EUR,r", 14, ""),
        ("2023-01-01,A,chargeback,1.00,EUR,r", 0, "'chargeback' is no kind of row; the kinds are post, posting, refund"), ("2023-01-01,C,post,1.00,EUR,r", 0, "no contract has the book 'C'"),
        ("2023-02-29,A,post,1.00,EUR,r", 0, "'2023-02-29' is no time"), ("01.02.2023,A,post,1.00,EUR,r", 0, "is no time"), ("2023-01-01T24:00,A,post,1.00,EUR,r", 0, "is no time"),
        ("2022-12-31,A,post,1.00,EUR,r", 0, "its day is before 2023-01-01, from which card 1 of the book holds"),
        ("2023-01-01,A,post,1.00,EUR", 0, "the row has 5 fields where the header has 6"), ("2023-01-01,A,post,1,000.00,EUR,r", 0, "the row has 7 fields"),
        ("2023-01-01,A,post,\"1.00\"0,EUR,r", 0, "a field goes on behind its closing quote"), ("2023-01-01,A,post,\"1.00,EUR,r", 0, "a quote is opened and not closed"),
        ("2023-01-01,A\udcff,post,1.00,EUR,r", 0, "bytes that the file's encoding hasn't"), ("2023-01-01,A\0,post,1.00,EUR,r", 0, ""),
    ]
    for row, number, reason in cases:
        report = rerun((HEAD + around.format("A") + row + "\n" + around.format("A")).encode("utf-8", "surrogateescape"), status=4)
        same([(line, number) for line, _, _, number in refused(report)], [(3, number)])
        has(report["refused"][0]["reason"], reason)
        has(",".join(report["refused"][0]["words"]), row.split(",")[0])
        same(report["books"][0]["cards"][0]["net"], "6.00")
    report = rerun(HEAD + around.format("A") + "2023-01-01,A,post,1" + "0" * 10**7 + ".00,EUR,r\n" + around.format("A"), status=4)
    same((refused(report), report["books"][0]["cards"][0]["net"]), ([(3, "", "", 0)], "6.00"))
    has(report["refused"][0]["reason"], "the line has over 1048576 characters")


def spellings():
    """What is the same in other letters, encodings, separators, line ends and columns."""
    plain = [["2023-01-01T09:00:00", "A", "post", "1.00", "EUR", "é"], ["2023-01-02 09:00", "B", "refund", "0.00", "DEM", 'q"'], ["2023-01-03T09:00:00.5+01:00", "A", "refund", "0.50", "EUR", "x"]]
    for separator in ",;\t|":
        for end in ("\n", "\r\n", "\r"):
            held = io.StringIO()
            writer = csv.writer(held, delimiter=separator, lineterminator=end, quoting=csv.QUOTE_ALL if end == "\r\n" else csv.QUOTE_MINIMAL)
            writer.writerows([HEAD.strip().split(","), *plain])
            for encoding in ("utf-8", "utf-8-sig", "utf-16"):
                report = rerun(held.getvalue().encode(encoding))
                same([[card["net"] for card in book["cards"]] for book in report["books"]], [["0.50"], ["0.00"]])
    same(rerun("sep=|\n\n" + HEAD.replace(",", "|") + "2023-01-01|A|post|1.00|EUR|a;b,c\n")["rows"], 1)
    report = rerun((HEAD + "2023-01-01,Caf\u00e9,post,1.00,EUR,r\n").encode("latin-1"), "--encoding", "latin-1", contracts=CONTRACTS.replace("A,", "Cafe\u0301,").encode("utf-8-sig"))
    same(report["books"][0]["cards"][0]["net"], "1.00")
    report = rerun(HEAD + " 2023-01-01 , A , Post , 1.00 , EUR ,r\n\n2023-01-01,A,REFUND,1.00,EUR,\"two\nlines\"\n2023-01-01,C,post,1.00,EUR,r\n", status=4)
    same((refused(report), report["books"][0]["cards"][0]["rows"]["accepted"]), ([(6, "r", "", 0)], 2))
    put("names", "# what our processor calls them\npostings.amount = Betrag\ntime=Zeit\nkind refund = Erstattung\n")
    report = rerun("x,Zeit,book,kind,Betrag,currency,reference\n1,2023-01-01,A,post,1.00,EUR,r\n1,2023-01-01,A,erstattung,0.25,EUR,r\n1,2023-01-01,A,Gebucht,1.00,EUR,r\n",
                   "--columns", "names", "--kind", "post=Gebucht")
    same(report["books"][0]["cards"][0]["net"], "1.75")
    report = rerun(HEAD + "2023-01-01,A,post,1.00,EUR,r", status=4)
    same((report["unended"], report["rows"], report["refused"]), (True, 1, []))
    report = rerun(HEAD, contracts=CONTRACTS.rstrip(), status=4)
    same((report["unended"], report["unended_contracts"], rerun(HEAD)["rows"]), (False, True, 0))


def cards():
    """Cards by their days, however the rows of the contracts stand; who comes and who goes; a row that is late."""
    contracts = "weight,partner,from,currency,book\n1,Y,2023-03-01,EUR,A\n1,X,2023-01-01,EUR,A\n1,Z,2023-02-01,EUR,A\n1,X,2023-02-01,EUR,A\n1,Y,2023-01-01,EUR,A\n1,Z,2024-01-01,EUR,A\n"
    posts = "".join(f"2023-0{month}-15,A,post,1.00,EUR,r{month}\n" for month in (1, 2, 1, 3))
    report = rerun(HEAD + posts, contracts=contracts, status=4)
    book = report["books"][0]
    same(refused(report), [(4, "r1", "A", 0)])
    same([[(p["name"], p["weight"], p["total"]) for p in card["partners"]] for card in book["cards"]],
         [[("X", 1, "0.50"), ("Y", 1, "0.50"), ("Z", 0, "0.00")], [("X", 1, "0.50"), ("Y", 0, "0.00"), ("Z", 1, "0.50")], [("X", 0, "0.00"), ("Y", 1, "1.00"), ("Z", 0, "0.00")]])
    same(([p["total"] for p in book["together"]["partners"]], book["not_reached"], book["check"]), (["1.00", "1.50", "0.50"], ["2024-01-01"], "ok"))
    put("p.csv", HEAD + "".join(f"2023-01-{day:02d},A,post,1.00,EUR,r\n" for day in range(28, 0, -1)))
    has(run("rerun", "--contracts", put("c.csv", CONTRACTS), "--postings", "p.csv")[1], "the oldest first")


def broken():
    raise OSError(5, "a test")


def contracts_and_commands():
    """Nothing is run by contracts that aren't sound; each fault has its line."""
    put("p.csv", HEAD)
    for held, *parts in (
        (CONTRACTS + "A,EUR,2023-01-01,Xaver,3\n", "line 5: book A has partner Xaver from 2023-01-01 already, on the card that begins on line 2"),
        (CONTRACTS + "A,DEM,2023-02-01,Xaver,3\n", "line 5: book A is in EUR by line 2, and here in DEM"),
        (CONTRACTS + "D,EUR,2023-02-30,X,3\nD,EUR,2023-02-01,X,-1\n", "line 5: '2023-02-30'", "line 6: '-1'"),
        (CONTRACTS + "D,XXX,2023-02-01,X,3\n", "line 5: book D", "refusal 4", "'XXX'"), (CONTRACTS + "D,EUR,2023-02-01,X,0\n", "line 5: book D from 2023-02-01: refusal 9"),
        (CONTRACTS + "D,EUR,2023-02-01,X,10001\n", "refusal 9"), (CONTRACTS + "D,EUR\n", "line 5: the row has 2 fields"), (CONTRACTS + "\"D,EUR,2023-02-01,X,1\n", "line 5: a quote is opened"),
        (CONTRACTS + ",EUR,2023-02-01,X,1\n", "line 5: the book has no name"), (CONTRACTS + "".join(f"D,EUR,2023-02-01,P{i},1\n" for i in range(17)), "line 5: book D has 17 partners"),
        (CONTRACTS.encode() + b"D\xe9,EUR,2023-01-01,X,1\n", "line 5: D\\udce9 has bytes"), ("book,currency,from,partner\n", "line 1: there is no column 'weight'"), ("", "line 1: there is no header"),
        ("book,currency,from,partner,weight\n", "there is no contract"), ("book,currency,from,partner,weight,book\n", "line 1: the column 'book' is there 2 times"),
    ):
        out, told = run("rerun", "--contracts", put("c.csv", held), "--postings", "p.csv", status=2)
        same(out, "")
        has(told, "morskebab: c.csv: ", *parts)
    put("c.csv", CONTRACTS)
    for words, status, *parts in (
        ([], 2, "COMMAND"), (["rerun"], 2, "--contracts"), (["rerun", "--contracts", "c.csv", "--postings", "none.csv"], 3, "none.csv: No such file"),
        (["rerun", "--contracts", "c.csv", "--postings", "."], 3, "directory"),
        (["rerun", "--contracts", "c.csv", "--postings", "p.csv", "--encoding", "klingon"], 2, "klingon"),
        (["rerun", "--contracts", "c.csv", "--postings", "p.csv", "--column", "colour=red"], 2, "colour=red"),
        (["rerun", "--contracts", "c.csv", "--postings", "p.csv", "--kind", "sale"], 2, "sale"), (["rerun", "--contracts", "c.csv", "--postings", "p.csv", "--html", "none/x.html"], 3, "No such file"),
        (["rerun", "--contracts", "c.csv", "--postings", "/proc/self/mem"], 3, "/proc/self/mem: Input/output error"),
        (["rerun", "--contracts", "c.csv", "--postings", "p.csv", "--html", "p.csv"], 2, "p.csv is read, and would be written over"),
        (["rerun", "--contracts", "c.csv", "--postings", "c.csv"], 2, "c.csv: line 1: there is no column 'time', 'kind', 'amount', 'reference'; the columns are: book"),
    ):
        _, told = run(*words, status=status)
        has(told, "morskebab: ", *parts)
    out, _ = run("rerun", "--contracts", "c.csv", "--postings", "-", "--json", given=(HEAD + "2023-01-01,A,post,1.00,EUR,r\n").encode())
    same(json.loads(out)["rows"], 1)
    stood = tables.Table._taken
    tables.Table._taken = lambda table, read, most: broken() if table.read > 10**6 else stood(table, read, most)
    report = rerun(HEAD + "2023-01-01,A,post,1.00,EUR,r\n" * 60000, status=3)
    tables.Table._taken = stood
    same((report["failed"], 0 < report["rows"] < 60000, report["rows"]), ("[Errno 5] a test", True, report["books"][0]["cards"][0]["rows"]["accepted"]))
    has(run("--version")[0], "morskebab ")
    has(run("--help")[0], "rerun", "statement", "view", "exit status")


def statements():
    """Written and read by the partners' names."""
    put("c.csv", CONTRACTS)
    put("p.csv", HEAD + "2023-01-01,A,post,1.00,EUR,r\n")
    run("statement", "--contracts", "c.csv", "--postings", "p.csv", "--book", "A", "out.mkb")
    out, _ = run("view", "out.mkb", "--contracts", "c.csv", "--book", "A")
    has(out, "partner", "EUR", "Xaver", "0.67", "Yvonne", "0.33", "2 records", "1.00")
    same(pathlib.Path("out.mkb").stat().st_size, 56)
    has(run("view", "out.mkb")[0], "place 0", "0.67", "place 1")
    run("statement", "--contracts", "c.csv", "--payouts", put("q.csv", "partner,amount\nYvonne,-12.50\nYvonne,1.00\n"), "--book", "A", "--append", "out.mkb")
    same(json.loads(run("view", "out.mkb", "--contracts", "c.csv", "--book", "A", "--json")[0]),
         {"schema": "morskebab-view-1", "version": 1, "currency": "EUR", "count": 2, "sum": "-11.50",
          "records": [{"place": 1, "partner": "Yvonne", "amount": "-12.50", "reason": 0}, {"place": 1, "partner": "Yvonne", "amount": "1.00", "reason": 0}]})
    same(run("view", "out.mkb", "--contracts", "c.csv", "--book", "A", "--csv")[0], "place,partner,currency,amount,reason\n1,Yvonne,EUR,-12.50,0\n1,Yvonne,EUR,1.00,0\n")
    run("statement", "--contracts", "c.csv", "--payouts", put("q.csv", "reason,partner,amount\n7,Xaver,-12.50\n99,Yvonne,1.00\n"), "--book", "A", "two.mkb")
    has(run("view", "two.mkb", "--contracts", "c.csv", "--book", "A")[0], "partner", "EUR", "reason", "Xaver", "-12.50", "7", "Yvonne", "1.00", "99", "2 records", "-11.50")
    same((pathlib.Path("two.mkb").stat().st_size, json.loads(run("view", "two.mkb", "--json")[0])["version"]), (72, 2))
    has(run("statement", "--contracts", "c.csv", "--payouts", put("q.csv", "reason,partner,amount\n100,Xaver,1.00\n,Xaver,1.00\n"), "--book", "A", "two.mkb", status=2)[1],
        "line 2: '100' is no reason", "line 3: ''")
    stood = pathlib.Path("out.mkb").read_bytes()
    has(run("statement", "--contracts", "c.csv", "--payouts", put("q.csv", "partner,amount\nNobody,1.00\nXaver,1.0\nXaver,01.00\n"), "--book", "A", "out.mkb", status=2)[1],
        "q.csv: line 2: book A has no partner 'Nobody'", "line 3: '1.0' has 1 digits", "line 4: refusal 14")
    has(run("statement", "--contracts", "c.csv", "--payouts", put("q.csv", "partner,amount\n" + "Xaver,1.00\n" * 4001), "--book", "A", "out.mkb", status=4)[1], "refusal 11")
    has(run("statement", "--contracts", "c.csv", "--postings", "p.csv", "out.mkb", status=2)[1], "--book has to name one; the books are: A, B")
    has(run("statement", "--contracts", "c.csv", "--postings", "p.csv", "--book", "C", "out.mkb", status=2)[1], "there is no book 'C'")
    same(pathlib.Path("out.mkb").read_bytes(), stood)
    put("q.csv", "wer;wieviel\nXaver;1.00\n")
    run("statement", "--contracts", "c.csv", "--payouts", "q.csv", "--book", "A", "--column", "payouts.partner=wer", "--column", "payouts.amount=wieviel", "other.mkb")
    put("german.csv", CONTRACTS.replace("partner", "wer"))
    has(run("view", "other.mkb", "--contracts", "german.csv", "--column", "partner=wer", "--book", "A")[0], "Xaver", "1.00", "1 records")
    has(run("view", "c.csv", status=4)[1], "c.csv: refusal 14")
    has(run("view", "out.mkb", "--contracts", "c.csv", "--book", "B", status=4)[1], "the statement is in EUR, and book B in DEM")


def pages():
    """The page names no other place, and shows what hostile names and rows hold as text."""
    bad = '<script>alert("1")</script>&'
    held = io.StringIO()
    csv.writer(held).writerows([["book", "currency", "from", "partner", "weight"], [bad, "EUR", "2023-01-01", bad, 1], ["=1+1", "ITL", "2023-01-01", "@X", 1]])
    put("c.csv", held.getvalue())
    put("p.csv", HEAD + "2023-01-01,=1+1,post,100,ITL,=2+2\n2023-01-01,=1+1,post,<b>,ITL,=2+2\n2023-01-01,none,post,<b>,ITL,=2+2\n")
    out, _ = run("rerun", "--contracts", "c.csv", "--postings", "p.csv", "--html", "page.html", "--refused", "r.csv", "--csv", status=4)
    page = pathlib.Path("page.html").read_text()
    same([word in page for word in ("<script", "<b>,", "http:", "https:", "src=", "url(", "@import")], [False] * 7)
    has(page, "&lt;script&gt;alert(&quot;1&quot;)&lt;/script&gt;&amp;", "Rows refused or not understood", "refusal 14", "Rows of no book", "no contract has the book")
    same([row["book"] for row in csv.DictReader(io.StringIO(out))], [bad, "'=1+1"])
    has(pathlib.Path("r.csv").read_text(), "3,'=2+2,'=1+1,14")


def shapes():
    """Pages of no rows, of sixteen partners, of many years, of many refused rows."""
    put("c.csv", "book,currency,from,partner,weight\n" + "".join(f"A,EUR,2000-01-01,P{place},{place}\n" for place in range(1, 17)))
    years = "".join(f"20{year:02d}-0{month}-01,A,post,1.00,EUR,r\n" for year in range(90) for month in (1, 5, 9))
    for name, rows, status in (("none", "", 0), ("one", "2000-01-01,A,post,1.00,EUR,r\n", 0), ("years", years, 0),
                               ("refused", "2000-01-01,A,post,x,EUR,r\n" * 300, 4)):
        run("rerun", "--contracts", "c.csv", "--postings", put("p.csv", HEAD + rows), "--html", f"{name}.html", status=status)
        page = pathlib.Path(f"{name}.html").read_text()
        same((page.count("<section"), page.count("</section>"), page.count('class="lane"')), (1, 1, 0 if name in ("none",) else 16))
    has(page, "These are the first 100 of 300")


def main():
    with tempfile.TemporaryDirectory() as folder:
        os.chdir(folder)
        for part in (examples, forms, rows, spellings, cards, contracts_and_commands, statements, pages, shapes):
            part()
    print(f"command: {passed} checks passed, over {pathlib.Path(morskebab.__file__).parent}")


if __name__ == "__main__":
    main()
