"""Checks of the lines that the two programs read, and of what the desk prints."""

import io
import pathlib
import re

from asks import landed
from checks import holds, same
from desk import desk
from generate import generated
from rerun import rerun

HERE = pathlib.Path(__file__).resolve().parent
MARK = b"\xef\xbb\xbf"
LONG_NUMBER = b"round 6 7 " + b"0" * 3989 + b"2"


def printed(program, data):
    """What a program prints for these bytes."""
    output = io.BytesIO()
    program(io.BytesIO(data), output)
    return output.getvalue()


def answers(data):
    """What desk prints, as lines."""
    return printed(desk, data).split(b"\n")[:-1]


def lines(text):
    """Each line of the text is a line for one desk, an arrow and its answer."""
    asked, expected = zip(*(line.split(" -> ") for line in text.strip().split("\n")))
    found = answers("\n".join(asked).encode("ascii"))
    for line, got, answer in zip(asked, found, expected, strict=True):
        same((line, got.decode("ascii")), (line, answer))


def reports(data):
    return printed(rerun, data).decode("ascii")


def ends_of_lines():
    same(answers(b""), [])
    same(answers(b"\n\r\n\r"), [b"", b"", b""])
    same(answers(b"# a\r\n#\xff\x00\n #\n"), [b"# a", b"#\xff\x00", b"?"])
    same(answers(b"totals\r\r\ntotals \r\n totals"), [b"?", b"! 9", b"! 9"])
    same(answers(b"a\n\nab\nabc\nabcd"), [b"?", b"", b"?", b"?", b"?"])
    same(len(LONG_NUMBER), 4_000)
    same(answers(LONG_NUMBER), [b"= 4"])
    same(answers(LONG_NUMBER + b"\r\n" + LONG_NUMBER + b"\r"), [b"= 4", b"= 4"])
    same(answers(LONG_NUMBER + b" \n" + LONG_NUMBER + b" \r\n\n"), [b"?", b"?", b""])
    same(answers(b"#" * 4_001 + b"\n" + b"#" * 4_000), [b"?", b"#" * 4_000])
    same(answers(b"#" * 200_000 + b"\ntotals\n" + b" " * 4_003), [b"?", b"! 9", b"?"])
    same(answers(b" " * 65_538 + b"\ntotals\n"), [b"?", b"! 9"])


def byte_order_mark():
    """No part of the first line at the very beginning of the input, and a part anywhere else."""
    same(answers(MARK + b"round 6 5 2\ntotals\n"), [b"= 2", b"! 9"])
    same(answers(MARK + b"# a\n"), [b"# a"])
    same(answers(MARK + b" # a\n"), [b"?"])
    same(answers(MARK), [])
    same(answers(MARK + b"\n"), [b""])
    same(answers(MARK + b"\r"), [b""])
    same(answers(MARK + LONG_NUMBER + b"\r\n"), [b"= 4"])
    same(answers(MARK + LONG_NUMBER + b" \n"), [b"?"])
    same(answers(MARK + b"\n" + MARK + b"totals\n"), [b"", b"?"])
    for no_mark in (MARK * 2, b" " + MARK, MARK[:2], MARK[:1], MARK[::-1], b"\n" + MARK):
        same(answers(no_mark + b"totals")[-1], b"?")
    for cut in (MARK[:2], MARK[:1]):
        same(answers(cut), [b"?"])
        same(answers(cut + b"\n" + MARK[2:]), [b"?", b"?"])
    same(answers(LONG_NUMBER[:3_997] + MARK + b"\n"), [b"?"])


def openings_at_the_desk():
    """One that is not understood changes nothing there; a refused one leaves the all-zero book."""
    opened = b"open 0 5 3\npost 0 2 8\n"
    kept = b"= 8 5 3" + b" 0" * 14
    for line in (b"open", b"open x", b"open 0 5 O", b"open" + b" 1" * 2_000, b"Open 0 1"):
        same(answers(opened + line + b"\ntotals")[2:], [b"?", kept])
    for line in (b"open 0 0", b"open 0"):
        same(answers(opened + line + b"\ntotals")[2:], [b"! 9", b"! 9"])
    same(answers(opened + b"open 21 1\ntotals")[2:], [b"! 4", b"! 9"])


def lines_of_asks():
    """A line of an ask is understood from its landing on, and not before."""
    empty = b"00" * 16 + b"0100" + b"00" * 6
    for ask, line in (
        (3, b"statement 0 0 40 1 2 -1250"),
        (3, b"check " + empty),
        (11, b"view " + empty),
        (13, b"reasons 0 0 48 1 1 2 7 -1250"),
        (13, b"check-any " + empty),
        (13, b"view-any " + empty),
        (13, b"refund 0 2 1 99"),
        (1, b"read 0 -12.50"),
        (1, b"write 0 2 150 9"),
        (1, b"negate EUR 1.50"),
        (1, b"open EUR 5 3 2"),
        (1, b"convert 2 2 10000 FRF"),
        (5, b"net-for 0 2 4 200000 4"),
        (6, b"compound 0 2 100 500 3 4"),
        (7, b"round 6 3 5 2"),
        (7, b"convert 2 2 10000 4 3"),
        (9, b"card 1"),
        (9, b"settled"),
        (10, b"row 0 2 4 0 0"),
        (10, b"export 0 2 150"),
        (12, b"vouchers 10 3 5 3 2"),
    ):
        same(answers(line) != [b"?"], landed(ask))
    for line in (b"round 6 3 5 2 1", b"convert 2 2 10000 4 3 3", b"compound", b"vouchers 10"):
        same(answers(line), [b"?"])
    european_on_3 = b"interest 0 2 100000 500 3 2023 2 28 2023 3 31 4"
    same(answers(european_on_3), [b"= 0 2 444 32" if landed(2) else b"! 6"])
    same(answers(b"negate 0 2 100000000000") == [b"! 3"], not landed(7))


def answers_have_the_right_form(seeds=4):
    """Each fixed and each generated line has one answer of the page's forms; no report fails."""
    words = rb"=( [-.0-9A-Z_a-z]+)*|! (7 (first|second)|\d+)|\?|#.*|"
    form = re.compile(words, re.DOTALL)
    inputs = [b"".join(generated(seed, 1500)) for seed in range(seeds)]
    inputs.append((HERE / "cases.txt").read_bytes())
    for data in inputs:
        found = answers(data)
        lines = data.count(b"\n") + (not data.endswith(b"\n"))
        same(len(found), lines)
        holds(all(form.fullmatch(answer) for answer in found))
        text = reports(data)
        holds("FAILED" not in text)
        same(re.fullmatch(r"end (\d+) lines.*", text.split("\n")[-2])[1], str(lines))
