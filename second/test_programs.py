"""Checks of the programs statement and view."""

import io
import pathlib
import re
import subprocess
import sys
import tempfile

import asks
from asks import landed
from checks import holds, same
from generate import generated
from statement import VERSION, write_statements
from statements import Statement, read_any, read_statement, size_of
from test_lines import HERE, reports
from test_rerun import Failing
from test_statements import written
from view import write_views

READER = read_any if landed(13) else read_statement
SIXTEEN = b"open 0" + b" 1" * 16 + b"\n"


def statements_of(quarter):
    """(the status, what is written) for a quarter's lines."""
    output = io.BytesIO()
    return write_statements(io.BytesIO(quarter), output), output.getvalue()


def views_of(data):
    output = io.BytesIO()
    status = write_views(io.BytesIO(data), output)
    return status, output.getvalue().decode("ascii").split("\n")[:-1]


def file_of(*books):
    """The statements of books: each is a currency and (place, reason, coefficient) records."""
    return b"".join(written(VERSION, currency, records) for currency, records in books)


def counts_of(data):
    """The record counts of a file's statements, the first one first."""
    counts = []
    while data:
        found = READER(data)
        holds(isinstance(found, Statement))
        counts.insert(0, found.count)
        data = data[: found.first]
    return counts


def statements_of_books():
    same(VERSION, 2 if landed(13) else 1)
    first = b"open 0 5 3 2\npost 0 2 7\nrefund 0 2 3\n"
    records = (0, [(0, 0, 4), (1, 0, 2), (2, 0, 1), (0, 0, -2), (1, 0, -1)])
    for quarter, expected in (
        (b"", b""),
        (b"# a\n\npost 0 2 7\ntotals\n?\n", b""),
        (b"open 0 0\npost 0 2 7\nopen\npost 0 2 7\nopen x\n", b""),
        (first, file_of(records)),
        (first[:-1], file_of(records)),
        (first + b"post 0 2 0\nrefund 0 2 5\npost 0 2 -1\nx\npost 1 0 1\n", file_of(records)),
        (b"open 0 5 3\n", file_of((0, []))),
        (b"open 0 5 3\npost 0 2 -1\npost 0 2 0\n" + first, file_of((0, []), records)),
        (first + b"open 3 0 1\npost 3 0 5\n" + first, file_of(records, (3, [(1, 0, 5)]), records)),
        (first + b"open 0 0\npost 0 2 7\n" + first, file_of(records, records)),
        (first + b"open\npost 0 2 7\n", file_of(records)),
        (first + b"open" + b" 1" * 2_000 + b"\npost 0 2 7\n", file_of(records)),
        (first + b"open 21 1\nopen 3 1\n", file_of(records, (3, []))),
    ):
        same(statements_of(quarter), (0, expected))
    output = io.BytesIO()
    same(write_statements(Failing(first + b"post 0 2 7"), output), 3)
    same(output.getvalue(), file_of(records))


def statements_of_4000_records():
    """One is closed before a line's records would take it over 4,000, and not before that."""
    posting = b"post 0 2 16\n"
    for lines, counts in (
        (posting * 250, [4_000]),
        (posting * 250 + b"post 0 2 0\n", [4_000]),
        (posting * 250 + b"post 0 2 1\n", [4_000, 1]),
        (posting * 249 + b"post 0 2 15\n" + posting, [3_999, 16]),
        (posting * 249 + b"post 0 2 15\nrefund 0 2 1\nrefund 0 2 1\n", [4_000, 1]),
        (posting * 251 + b"refund 0 2 16\n" * 250, [4_000, 4_000, 16]),
    ):
        status, data = statements_of(SIXTEEN + lines)
        same((status, counts_of(data)), (0, counts))
        same(len(data), sum(size_of(VERSION, count) for count in counts))
        said = [line for line in views_of(data)[1] if line.startswith("statement")]
        same([int(line.split()[4]) for line in said], counts[::-1])


def statements_with_cards():
    """A card closes nothing; one that is not understood ends the book."""
    first = b"open 0 5 3\npost 0 2 8\ncard 0 1\npost 0 2 2\nrefund 0 2 3\ncard 1\nrefund 0 2 1\n"
    records = (0, [(0, 0, 5), (1, 0, 3), (1, 0, 2), (1, 0, -1)])
    same(statements_of(first), (0, file_of(records)))
    for line in (b"card x\n", b"card" + b" 1" * 2_000 + b"\n"):
        same(statements_of(first + line + b"post 0 2 5\ncard 1 1\n"), (0, file_of(records)))
    same(statements_of(b"card 1\ncard x\n"), (0, b""))


def statements_with_codes():
    quarter = b"open ITL 2 1\npost ITL 3\npost ITL x\npost ITL 1.0\nrefund 6 0 1\nopen XXX 1\n"
    same(statements_of(quarter), (0, file_of((6, [(0, 0, 2), (1, 0, 1), (1, 0, -1)]))))


def statements_with_reasons():
    quarter = b"open 0 2 1\npost 0 2 3\nrefund 0 2 2 99\nrefund 0 2 1 100\nrefund 0 2 1\n"
    records = [(0, 0, 2), (1, 0, 1), (0, 99, -1), (1, 99, -1), (0, 0, -1)]
    same(statements_of(quarter), (0, file_of((0, records))))


def paid_less_taken(report):
    """What rerun's reports say of each place, in all books together, as coefficients."""
    totals = [0] * 16
    found = re.findall(r"^partner (\d+) weight \d+ paid (\S+) taken (\S+)", report, re.MULTILINE)
    for place, paid, taken in found:
        totals[int(place)] += int(paid.replace(".", "")) - int(taken.replace(".", ""))
    return totals


def statements_and_reports():
    """Each book has its statement, and what the records come to is what rerun says was paid."""
    for seed in range(5):
        quarter = b"".join(generated(seed, 1200))
        report, (_, data) = reports(quarter), statements_of(quarter)
        books = len(re.findall(r"^book \S+ weights", report, re.MULTILINE))
        status, lines = views_of(data)
        same((status, len([line for line in lines if line.startswith("statement")])), (0, books))
        totals = [0] * 16
        for line in lines:
            if line.startswith("record"):
                place, coefficient = map(int, line.split()[1:3])
                totals[place] += coefficient
        same(totals, paid_less_taken(report))
        holds(any(totals))


def views_of_files():
    said = "statement version {} records 2 sum -3 currency 7"
    two = written(1, 7, [(15, 0, 4), (0, 0, -7)])
    lines = [said.format(1), "record 15 4 0", "record 0 -7 0"]
    empty = ["statement version 1 records 0 sum 0 currency -"]
    for data, expected in (
        (b"", []),
        (b"x", ["other 1"]),
        (bytes(24), ["other 24"]),
        (b"x" * 200_000, ["other 200000"]),
        (two, lines),
        (b"xyz" + two, lines + ["other 3"]),
        (two + b"x", ["other 57"]),
        (two + written(1, 0, []), empty + lines),
        (written(1, 0, []) * 2 + two, lines + empty * 2),
        (two + b"x" + two, lines + ["other 57"]),
    ):
        same(views_of(data), (0, expected))
    reasons = written(2, 7, [(15, 99, 4), (0, 1, -7)])
    with_reasons = [said.format(2), "record 15 4 99", "record 0 -7 1"]
    other = [f"other {len(two + reasons)}"]
    same(views_of(two + reasons), (0, with_reasons + lines if landed(13) else other))
    same(views_of(reasons + two), (0, lines + (with_reasons if landed(13) else ["other 72"])))


def views_of_long_files():
    """Statements of the greatest length, read one at a time."""
    longest = written(VERSION, 0, [(1, 0, 5)] * 4_000)
    data = b"x" + longest * 3 + written(1, 0, []) + longest
    status, lines = views_of(data)
    heads = [line for line in lines if not line.startswith("record")]
    head = f"statement version {VERSION} records 4000 sum 20000 currency 0"
    empty = "statement version 1 records 0 sum 0 currency -"
    same((status, heads), (0, [head, empty, head, head, head, "other 1"]))
    same(len(lines), 16_000 + len(heads))


class Reread(io.BytesIO):
    """A file that counts what is read of it at once, or can't be read from its middle."""

    def __init__(self, data, fails=False):
        super().__init__(data)
        self.most, self.fails = 0, fails

    def read(self, size):
        if self.fails:
            raise OSError(5, "reading failed")
        self.most = max(self.most, size)
        return super().read(size)


def memory_of_views():
    file = Reread(b"x" * 10**6 + written(1, 0, [(1, 0, 5)]))
    same(write_views(file, io.BytesIO()), 0)
    holds(file.most <= 4_000 * 24 + 24)
    same(write_views(Reread(b"x", fails=True), io.BytesIO()), 3)


def ran(program, *arguments, output=subprocess.PIPE, before=":"):
    """The status and the output of a command, in a program in which these asks have landed;
    before it a shell's command."""
    code = f"import asks, command; asks.LANDED = frozenset({sorted(asks.LANDED)})\n"
    code += f"import {program}; command.end_with({program}.{program})"
    shell = ["sh", "-c", before + '; exec "$0" "$@"', sys.executable, "-B", "-c", code]
    command = shell + [str(argument) for argument in arguments]
    done = subprocess.run(command, cwd=HERE, stdout=output, stderr=subprocess.PIPE)
    return done.returncode, done.stdout


def commands_of_statement():
    with tempfile.TemporaryDirectory() as folder:
        quarter, out = pathlib.Path(folder) / "quarter", pathlib.Path(folder) / "out"
        quarter.write_bytes(b"open 0 2 1\npost 0 2 1\npost 0 2 -1\npost")
        same(ran("statement", quarter, out), (0, b""))
        same(out.read_bytes(), file_of((0, [(0, 0, 1)])))
        no_room = {"before": "ulimit -f 0"}
        full = pathlib.Path(folder) / "full"
        same(ran("statement", quarter, full, **no_room), (3, b""))
        same(ran("statement", "-", full, before="exec <&-"), (3, b""))
        same(ran("statement", "/proc/self/mem", full), (3, b""))
        holds(not full.exists())
        quarter.write_bytes(b"")
        same(ran("statement", quarter, out), (3, b""))
        same(ran("statement", quarter, quarter), (3, b""))
        same(out.read_bytes(), file_of((0, [(0, 0, 1)])))
        out.unlink()
        for arguments in ((), (quarter,), (quarter, out, out)):
            same(ran("statement", *arguments), (2, b""))
        same(ran("statement", folder + "/none", out), (3, b""))
        same(ran("statement", quarter, folder + "/none/out"), (3, b""))
        holds(not out.exists())
        same((ran("statement", quarter, out), out.read_bytes()), ((0, b""), b""))


def commands_of_view():
    with tempfile.NamedTemporaryFile() as file:
        file.write(b"xy" + written(1, 7, [(3, 0, 5)]))
        file.flush()
        said = b"statement version 1 records 1 sum 5 currency 7\nrecord 3 5 0\nother 2\n"
        same(ran("view", file.name), (0, said))
        for arguments in ((), (file.name, file.name)):
            same(ran("view", *arguments), (2, b""))
        same(ran("view", "/no/such/file"), (3, b""))
        same(ran("view", "/"), (3, b""))
        with open("/dev/full", "wb") as full:
            same(ran("view", file.name, output=full)[0], 3)


CHECKS = (
    ({3}, statements_of_books),
    ({3}, statements_of_4000_records),
    ({3}, statements_and_reports),
    ({3, 9}, statements_with_cards),
    ({3, 1}, statements_with_codes),
    ({3, 13}, statements_with_reasons),
    ({11}, views_of_files),
    ({11}, views_of_long_files),
    ({11}, memory_of_views),
    ({3}, commands_of_statement),
    ({11}, commands_of_view),
)
