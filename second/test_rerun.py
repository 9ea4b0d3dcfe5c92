"""Checks of rerun's reports, and of the status that both programs end with."""

import io
import re
import subprocess
import sys
import tempfile

from book import open_book
from checks import holds, same
from desk import desk
from reports import Partner, check
from rerun import rerun
from test_lines import HERE, LONG_NUMBER, MARK, reports

BOOK = b"open 0 5 3\npost 0 2 8\n"
BOOK_REPORT = (
    "book 0 weights 5 3\nlines 1 accepted 0 refused 0 not understood\n"
    "posted 8 refunded 0 net 8\n"
    "partner 0 weight 5 paid 5 taken 0 total 5 least 5 most 5\n"
    "partner 1 weight 3 paid 3 taken 0 total 3 least 3 most 3\ncheck ok\n"
)
NOT_UNDERSTOOD = (
    "book not understood\nlines 0 accepted %d refused 1 not understood\nnot understood first %d\n"
)


def report_text():
    report = reports(
        b"totals\npost 0 2 1\npost 0 2 1\n# x\n\nopen 21 1\npost 1 0 1\nsum\n"
        b"open 2 5 03 2\r\npost 2 2 7\npost 2 2 5\nrefund 2 2 3\nrefund 2 2 10\nrefund 2 2 -1\n?\n"
        b"\n#\npost 2 2 -1\n!\n"
    )
    expected = (
        "book none\nlines 0 accepted 2 refused 1 not understood\nnot understood first 1\n"
        "refused 9 times 2 first 2\n"
        "book refused 4\nlines 0 accepted 1 refused 1 not understood\nnot understood first 8\n"
        "refused 5 times 1 first 7\n"
        "book 2 weights 5 3 2\nlines 3 accepted 3 refused 2 not understood\n"
        "not understood first 15\nrefused 10 times 2 first 14\nrefused 12 times 1 first 13\n"
        "posted 12 refunded 3 net 9\n"
        "partner 0 weight 5 paid 6 taken 1 total 5 least 4 most 5\n"
        "partner 1 weight 3 paid 4 taken 1 total 3 least 2 most 3\n"
        "partner 2 weight 2 paid 2 taken 1 total 1 least 1 most 2\ncheck ok\nend 19 lines\n"
    )
    same(report, expected)
    batches = (b"post 0 2 9\npost 0 2 4\n", b"post 0 2 13\n", b"post 0 2 20\nrefund 0 2 7\n")
    ends = [re.findall(r"net \d+|total \d+", reports(b"open 0 6 6 2\n" + cut)) for cut in batches]
    same(ends, [["net 13", "total 6", "total 6", "total 1"]] * 3)


def openings_that_are_not_understood():
    """Such a one ends the book before it, and no later line is credited to that."""
    long_fill = b" 1" * 2_000
    opens = (b"open", b"open x 5", b"open 0 5 O", b"  open  ", b"open 0 5\t3", b"open -")
    opens += (b"open" + long_fill, b" open 0" + long_fill, b" " * 5_000 + b"open 0 1")
    opens += (b" " * 3_998 + b"open 0 1", b" " * 4_100 + b"open", b" " * 70_000 + b"open\r")
    for line in opens:
        after = line + b"\npost 0 2 8\n"
        expected = BOOK_REPORT + NOT_UNDERSTOOD % (1, 3)
        same(reports(BOOK + after), expected + "refused 9 times 1 first 4\nend 4 lines\n")
        expected = NOT_UNDERSTOOD % (0, 1) + NOT_UNDERSTOOD % (1, 2)
        same(reports(line + b"\n" + after), expected + "refused 9 times 1 first 3\nend 3 lines\n")


def lines_that_are_no_opening():
    """The book goes on behind a word like `open`, in a line of any length."""
    counted = "1 not understood\nnot understood first 3\n"
    expected = BOOK_REPORT.replace("0 not understood\n", counted) + "end 3 lines\n"
    for line in (b"Open 0 5", b"opens", b"open\t0", b"open\r\r", b"\x00open 0 1", b"ope"):
        same(reports(BOOK + line + b"\n"), expected)
    for line in (b"#open" + b" 1" * 2_000, b"post 0 2 8" + b" 1" * 2_000, b" " * 5_000):
        same(reports(BOOK + line + b"\n"), expected)
    for line in (b"open" + b"0" * 4_000, b" " * 5_000 + b"open\r\r", b" " * 5_000 + b"opens"):
        same(reports(BOOK + line + b"\n"), expected)


def lines_before_any_opening():
    none = "book none\nlines 0 accepted 0 refused 1 not understood\nnot understood first 1\n"
    same(reports(b"sum\nopen\n"), none + NOT_UNDERSTOOD % (0, 2) + "end 2 lines\n")
    same(reports(b"\nopen\n"), NOT_UNDERSTOOD % (0, 2) + "end 2 lines\n")
    same(reports(b"sum\n"), none + "end 1 lines\n")
    refused = "book none\nlines 0 accepted 1 refused 0 not understood\nrefused 9 times 1 first 2\n"
    same(reports(b"#\npost 0 2 1\n" + BOOK), refused + BOOK_REPORT + "end 4 lines\n")


def ends_of_reports():
    for data, expected in (
        (b"", "end 0 lines\n"),
        (MARK, "end 0 lines\n"),
        (MARK + b"\n", "end 1 lines\n"),
        (b"# only a comment\n\n", "end 2 lines\n"),
        (b"# a comment", "end 1 lines, the last one unended\n"),
        (b"\n\r", "end 2 lines, the last one unended\n"),
        (BOOK + b"\r\n#\r\n", BOOK_REPORT + "end 4 lines\n"),
        (BOOK[:-1], BOOK_REPORT + "end 2 lines, the last one unended\n"),
        (BOOK[:-1] + b"\r", BOOK_REPORT + "end 2 lines, the last one unended\n"),
        (MARK + b"# a\n" + BOOK, BOOK_REPORT + "end 3 lines\n"),
    ):
        same(reports(data), expected)
    for length in (4_001, 4_002, 4_003, 70_000):
        same(reports(b"x" * length).split("\n")[-2], "end 1 lines, the last one unended")
        same(reports(b"x" * length + b"\n").split("\n")[-2], "end 1 lines")


class Failing(io.BytesIO):
    """Bytes behind which reading fails."""

    def readline(self, most):
        piece = super().readline(most)
        if len(piece) < most and not piece.endswith(b"\n"):
            raise OSError(5, "reading failed")
        return piece


def reading_that_fails():
    """What was read of a line before that is no line; the reports are written all the same."""
    for data, expected in (
        (b"", "end FAILED after 0 lines\n"),
        (b"op", "end FAILED after 0 lines\n"),
        (BOOK, BOOK_REPORT + "end FAILED after 2 lines\n"),
        (BOOK + b"post 0 2 8", BOOK_REPORT + "end FAILED after 2 lines\n"),
        (BOOK + b"\n" + b" " * 5_000 + b"open", BOOK_REPORT + "end FAILED after 3 lines\n"),
    ):
        output = io.BytesIO()
        same((rerun(Failing(data), output), output.getvalue().decode("ascii")), (3, expected))
    output = io.BytesIO()
    same((desk(Failing(b"totals\n#\nround 6 5 2"), output), output.getvalue()), (3, b"! 9\n#\n"))


def checks_of_a_report():
    """Each thing that `check` asks, failing alone; 8 units by 5 and 3 are 5 and 3."""
    book = open_book(0, (5, 3))[1]._replace(net=8)
    good = [Partner(book, 0, 6, 1, 5), Partner(book, 1, 3, 0, 3)]
    same(check(good, 8, 8), "check ok")
    same(check(good, 7, 8), "check FAILED 1")
    same(check(good, 7, 7), "check FAILED 1")
    for paid, taken, total in ((6, 0, 5), (5, 1, 5), (4, 0, 4), (6, 0, 6), (6, 2, 5)):
        same(check([Partner(book, 0, paid, taken, total), good[1]], 8, 8), "check FAILED 0")
    same(check([good[0], Partner(book, 1, 3, 1, 3)], 8, 8), "check FAILED 1")
    within = book._replace(net=9)
    same(check([Partner(within, 0, 6, 0, 6), Partner(within, 1, 3, 0, 3)], 9, 9), "check ok")
    same(check([Partner(within, 0, 6, 0, 6), Partner(within, 1, 4, 0, 4)], 9, 9), "check FAILED 1")


def statuses_of_inputs():
    """0 where all went well; for rerun 4 where a line was refused, not understood or unended."""
    for data, status in (
        (b"", 0),
        (MARK + b"# a\n\n" + BOOK, 0),
        (BOOK + BOOK, 0),
        (BOOK[:-1], 4),
        (BOOK + b"#", 4),
        (BOOK + b"totals\n", 4),
        (BOOK + b"post 0 2 -1\n", 4),
        (BOOK + b"open 0 0\n", 4),
        (b"open 0 0\n" + BOOK, 4),
        (BOOK + b"open\n", 4),
        (b"open\n" + BOOK, 4),
        (b"post 0 2 1\n" + BOOK, 4),
        (BOOK + b"#" * 4_001 + b"\n", 4),
    ):
        same(rerun(io.BytesIO(data), io.BytesIO()), status)
        same(desk(io.BytesIO(data), io.BytesIO()), 0)


def ended(program, redirections, arguments="", data=BOOK):
    """The status that a program ends with, what it prints, and the digit of descriptor 3."""
    command = f'exec "$0" "$1/{program}.py" {arguments} {redirections}'
    with tempfile.TemporaryFile() as digit:
        shell = ["sh", "-c", f"{command} 3>&{digit.fileno()}", sys.executable, str(HERE)]
        ran = subprocess.run(
            shell, input=data, capture_output=True, pass_fds=[digit.fileno()]
        )
        digit.seek(0)
        return ran.returncode, ran.stdout.decode("ascii"), digit.read().decode("ascii")


def statuses_of_commands():
    same(ended("rerun", ""), (0, BOOK_REPORT + "end 2 lines\n", "0"))
    same(ended("rerun", "", data=BOOK[:-1])[::2], (4, "4"))
    same(ended("desk", "", data=b"sum"), (0, "?\n", "0"))
    same(ended("desk", "", "one two"), (2, "", "2"))
    same(ended("rerun", "", "one two"), (2, "", "2"))
    same(ended("statement", "", "one"), (2, "", "2"))
    same(ended("view", "", "one two"), (2, "", "2"))
    for redirection, arguments in (("<&-", ""), ("", "/"), ("", "/no/such/file")):
        same(ended("rerun", redirection, arguments), (3, "end FAILED after 0 lines\n", "3"))
        same(ended("desk", redirection, arguments), (3, "", "3"))
    for redirection in (">/dev/full", ">&-"):
        same(ended("rerun", redirection), (3, "", "3"))
        same(ended("desk", redirection), (3, "", "3"))
    same(ended("desk", "", data=MARK + LONG_NUMBER), (0, "= 4\n", "0"))
    without_digit = [sys.executable, str(HERE / "rerun.py"), str(HERE / "quarters.txt")]
    holds(subprocess.run(without_digit, capture_output=True).returncode == 4)
