"""The command `morskebab`: a quarter again from CSV files, and the partners' statement files."""
from __future__ import annotations

import argparse
import contextlib
import os
import sys
import tempfile
import time
from collections.abc import Callable, Iterator
from typing import NoReturn, TextIO

from . import __version__
from . import contracts as _contracts
from . import rerun as _rerun
from .contracts import Unsound
from .report import NOT_UNDERSTOOD, READING_FAILED, write_csv, write_json, write_refused, write_table
from .tables import NotATable, Table

PAYOUTS = ("partner", "amount", "reason")

STATUSES = """exit status: 0 all went well; 1 a check of a report failed; 2 the command, the contracts or a file's columns were not understood; 3 reading or
writing failed; 4 the reports are whole and their checks are ok, but a row was refused or not understood, or the last line is unended."""


class Misspoken(Exception):
    """The command was not understood."""


class Parser(argparse.ArgumentParser):
    def error(self, message: str) -> NoReturn:
        raise Misspoken(f"{message} ({self.prog} --help)")


def said(words: list[str], known: dict[str, tuple[str, ...]]) -> dict[str, dict[str, str]]:
    """`[contracts.|postings.]NAME=COLUMN` as what each file calls its columns."""
    named: dict[str, dict[str, str]] = {file: {} for file in known}
    for word in words:
        name, equals, column = word.partition("=")
        file, point, rest = name.strip().rpartition(".")
        files = [f for f in known if (f == file or not point) and rest in known[f]]
        if not equals or not column.strip() or not files:
            names = "; ".join(f"{f}: {', '.join(known[f])}" for f in known)
            raise Misspoken(f"--column {word!r}: it has to be NAME=COLUMN, NAME being one of {names}")
        for f in files:
            named[f][rest] = column.strip()
    return named


def kinds_of(words: list[str]) -> dict[str, bool]:
    """`post=WORD` and `refund=WORD`, beside those that are known anyway."""
    kinds = dict(_rerun.KINDS)
    for word in words:
        name, equals, kind = word.partition("=")
        if name.strip() not in ("post", "refund") or not kind.strip():
            raise Misspoken(f"--kind {word!r}: it has to be post=WORD or refund=WORD")
        kinds[kind.strip()] = name.strip() == "refund"
    return kinds


def settings(path: str) -> tuple[list[str], list[str]]:
    """The lines of a small file as the words of --column and of --kind: `amount = Betrag`, `kind refund = Erstattung`; # begins a comment."""
    columns, kinds = [], []
    with open(path, encoding="utf-8-sig") as file:
        for number, line in enumerate(file, 1):
            if not line.strip() or line.lstrip().startswith("#"):
                continue
            if "=" not in line:
                raise Misspoken(f"{path}: line {number}: it has to be NAME = COLUMN or kind post = WORD")
            name, column = (part.strip() for part in line.split("=", 1))
            (kinds if name.startswith("kind ") else columns).append(f"{name.removeprefix('kind ').strip()}={column}")
    return columns, kinds


class Progress:
    """A line on standard error while long work goes on: over itself on a terminal, else now and then."""

    def __init__(self, path: str) -> None:
        self._terminal = sys.stderr.isatty()
        self._size = os.path.getsize(path) if path != "-" and os.path.isfile(path) else 0
        self._next = time.monotonic() + (1 if self._terminal else 5)
        self._shown = False

    def __call__(self, table: Table, quarter: _rerun.Quarter) -> None:
        now = time.monotonic()
        if now < self._next:
            return
        self._next = now + (0.5 if self._terminal else 10)
        part = f", {min(99, 100 * table.read // self._size)} %" if self._size else ""
        line = f"morskebab: {quarter.rows:,} rows{part}"
        sys.stderr.write(f"\r{line}\x1b[K" if self._terminal else line + "\n")
        sys.stderr.flush()
        self._shown = True

    def end(self) -> None:
        if self._shown and self._terminal:
            sys.stderr.write("\r\x1b[K")


@contextlib.contextmanager
def written(path: str) -> Iterator[TextIO]:
    """A file that is there whole or not at all."""
    folder = os.path.dirname(os.path.abspath(path))
    handle, beside = tempfile.mkstemp(prefix=".morskebab-", dir=folder)
    try:
        with open(handle, "w", encoding="utf-8", newline="") as out:
            yield out
        mask = os.umask(0)
        os.umask(mask)
        os.chmod(beside, 0o666 & ~mask)
        os.replace(beside, path)
    except BaseException:
        os.unlink(beside)
        raise


def columns_of(words: argparse.Namespace) -> tuple[dict[str, dict[str, str]], dict[str, bool]]:
    """What the command and its small file say that the files call their columns and kinds."""
    columns, kinds = settings(words.columns) if words.columns else ([], [])
    known = {"contracts": _contracts.COLUMNS, "postings": _rerun.COLUMNS, "payouts": PAYOUTS}
    return said(columns + words.column, known), kinds_of(kinds + words.kind)


def separator_of(words: argparse.Namespace) -> str | None:
    given = {"tab": "\t", "\\t": "\t"}.get(words.separator, words.separator)
    if given is not None and (len(given) != 1 or given in '"\n\r'):
        raise Misspoken(f"--separator {words.separator!r}: it has to be one character, or tab")
    return given


def again(words: argparse.Namespace, pictured: bool = False) -> _rerun.Quarter:
    """The quarter of the command's files."""
    if words.contracts == words.postings == "-":
        raise Misspoken("standard input is one file only")
    columns, kinds = columns_of(words)
    progress = Progress(words.postings)
    try:
        return _rerun.rerun(words.contracts, words.postings, columns=columns, kinds=kinds, encoding=words.encoding, separator=separator_of(words),
                            pictured=pictured, told=progress)
    finally:
        progress.end()


def not_over(words: argparse.Namespace) -> None:
    """No file that is read is written over."""
    for path in (words.html, words.refused):
        for read in (words.contracts, words.postings):
            if path is not None and os.path.exists(path) and os.path.exists(read) and os.path.samefile(path, read):
                raise Misspoken(f"{path} is read, and would be written over")


def do_rerun(words: argparse.Namespace) -> int:
    not_over(words)
    quarter = again(words, pictured=words.html is not None)
    if words.html is not None:
        from .page import write_page

        with written(words.html) as out:
            write_page(quarter, out)
    if words.refused is not None:
        with written(words.refused) as out:
            write_refused(quarter, out)
    (write_json if words.json else write_csv if words.csv else write_table)(quarter, sys.stdout)
    sys.stdout.flush()
    if words.csv and quarter.listed:
        where = f"they are in {words.refused}" if words.refused else "--refused FILE lists them"
        tell(f"{quarter.listed} rows were refused or not understood; {where}", 0)
    if quarter.backward > quarter.onward:
        tell("most rows are of an earlier day than the row before them: rows go in the file's order, which should be the oldest first", 0)
    return quarter.status


def add_files(parser: argparse.ArgumentParser, postings: bool = True, required: bool = True) -> None:
    """The options that say what is read."""
    parser.add_argument("--contracts", required=required, metavar="C.csv", help="book, currency, from, partner, weight: a row for each partner of a card")
    if postings:
        parser.add_argument("--postings", required=True, metavar="P.csv", help="time, book, kind, amount, currency, reference; - is standard input")
    parser.add_argument("--column", action="append", default=[], metavar="NAME=COLUMN", help="what the files call a column; contracts.NAME speaks of one file")
    parser.add_argument("--kind", action="append", default=[], metavar="post=WORD", help="another word for a posting, or (refund=WORD) for a refund")
    parser.add_argument("--columns", metavar="FILE", help="a file of such lines: NAME = COLUMN, kind refund = WORD")
    parser.add_argument("--encoding", metavar="NAME", help="of files without a byte order mark (UTF-8)")
    parser.add_argument("--separator", metavar="C", help="between fields (by the header: comma, semicolon, tab or bar)")


def parser_of() -> Parser:
    parser = Parser(prog="morskebab", description="Money arithmetic whose every function is proved to keep its promise.", epilog=STATUSES)
    parser.add_argument("--version", action="version", version=f"morskebab {__version__}")
    commands = parser.add_subparsers(dest="command", metavar="COMMAND", required=True)
    one = commands.add_parser("rerun", help="a quarter's postings and refunds again, and a report on each book", epilog=STATUSES)
    add_files(one)
    form = one.add_mutually_exclusive_group()
    form.add_argument("--csv", action="store_true", help="a row for each partner of each card, in place of the table")
    form.add_argument("--json", action="store_true", help="one object, by the schema of docs/PACKAGES.md")
    one.add_argument("--html", metavar="FILE", help="writes a page for an auditor and for partners too")
    one.add_argument("--refused", metavar="FILE", help="writes the rows that were refused or not understood, as CSV")
    one.set_defaults(do=do_rerun)
    from . import papers

    papers.add_commands(commands, add_files)
    return parser


def guarded(do: Callable[[], int]) -> int:
    """The status of what is done; what goes wrong is said in a line."""
    try:
        return do()
    except (Misspoken, NotATable, Unsound) as error:
        return tell(str(error), NOT_UNDERSTOOD)
    except UnicodeError as error:
        return tell(f"a file is not of its encoding: {error}", NOT_UNDERSTOOD)
    except LookupError as error:
        if "encoding" not in str(error):
            raise
        return tell(str(error), NOT_UNDERSTOOD)
    except BrokenPipeError:
        return leave(READING_FAILED)
    except OSError as error:
        tell(f"{error.filename or 'writing failed'}: {error.strerror}", READING_FAILED)
        return leave(READING_FAILED)
    except KeyboardInterrupt:
        return leave(130)


def tell(said: str, status: int) -> int:
    with contextlib.suppress(OSError):
        print("\n".join(f"morskebab: {line}" for line in said.splitlines()), file=sys.stderr)
    return status


def leave(status: int) -> int:
    """What is still to be written to standard output is dropped, so that the end doesn't fail at it."""
    with contextlib.suppress(OSError, ValueError):
        os.dup2(os.open(os.devnull, os.O_WRONLY), sys.stdout.fileno())
    return status


def main(given: list[str] | None = None) -> int:
    """The command; its exit status."""
    sys.stderr = sys.stderr or open(os.devnull, "w")  # noqa: SIM115
    if sys.stdout is None:
        return tell("standard output is closed", READING_FAILED)
    for stream in (sys.stdout, sys.stderr):
        # what a terminal's encoding hasn't is escaped; a file is UTF-8
        known = {} if stream.isatty() else {"encoding": "utf-8"}
        stream.reconfigure(errors="backslashreplace", **known)  # type: ignore[union-attr]

    def do() -> int:
        words = parser_of().parse_args(given)
        status: int = words.do(words)
        sys.stdout.flush()
        return status

    return guarded(do)
