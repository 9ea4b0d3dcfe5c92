"""CSV as people have it: any usual separator and encoding, read block by block, each row with the line that it begins on, and what is no row said
with its line."""
from __future__ import annotations

import codecs
import csv
import io
import re
import sys
from collections.abc import Callable, Iterator, Mapping, Sequence
from typing import BinaryIO, NamedTuple, TextIO

# characters read at a time, no more than the most of a line; the most lines of a row, whose quotes may hold line ends; the most of a text that is shown
BLOCK = LINE = 1 << 20
SPAN = 200
SHOWN = 200
SEPARATORS = ",;\t|"
MARKS = ((codecs.BOM_UTF8, "utf-8-sig"), (codecs.BOM_UTF32_LE, "utf-32"), (codecs.BOM_UTF32_BE, "utf-32"), (codecs.BOM_UTF16_LE, "utf-16"),
         (codecs.BOM_UTF16_BE, "utf-16"))
EMPTY: tuple[list[str], ...] = ([], [""])
UNCLOSED = "unexpected end of data"
# the line that some spreadsheets put before the header
SAID = re.compile(r'"?sep=(.)"?\n', re.IGNORECASE)
UNDECODED = re.compile("[\udc80-\udcff\ufffd]")


class NotATable(Exception):
    """The file as a whole can't be taken: the message has its name, its line and what is wrong."""


class Fault(NamedTuple):
    """A line that is no row: its number, its words, and why."""

    line: int
    words: list[str]
    reason: str


class Block(NamedTuple):
    """Rows and the line that each begins on; the lines that are none. An empty line is a row without fields, or with one that is empty."""

    rows: list[list[str]]
    lines: Sequence[int]
    faults: list[Fault]


def shown(text: str) -> str:
    """A text that is fit to be printed in one line: what can't be seen is escaped, and a long one cut."""
    more = f"..({len(text)} characters)" if len(text) > SHOWN else ""
    return "".join(c if c.isprintable() else c.encode("unicode_escape", "surrogatepass").decode() for c in text[:SHOWN]) + more


def undecoded(text: str) -> bool:
    """Whether it has bytes that the encoding hasn't."""
    return UNDECODED.search(text) is not None


def opened(path: str, encoding: str | None) -> TextIO:
    """The file as text by its byte order mark, else by the encoding, else UTF-8; `-` is standard input. Bytes that are none stay to be found."""
    raw: BinaryIO = sys.stdin.buffer if path == "-" else open(path, "rb")  # noqa: SIM115
    try:
        first = raw.peek(4)[:4] if isinstance(raw, io.BufferedReader) else b""
    except OSError as error:
        raise OSError(error.errno, error.strerror, path) from None
    marked = next((name for mark, name in MARKS if first.startswith(mark)), None)
    name = marked or encoding or "utf-8"
    wide = name.replace("_", "-").lower().startswith(("utf-16", "utf-32"))
    return io.TextIOWrapper(raw, encoding=name, errors="replace" if wide else "surrogateescape", newline=None)


def said(error: str) -> str:
    """What the csv module's error means for the line."""
    if error == UNCLOSED:
        return f"a quote is opened and not closed within {SPAN} lines or before the file's end"
    if error.startswith("field larger"):
        return f"a field has over {csv.field_size_limit()} characters, or a quote that is opened is not closed"
    if "expected after" in error:
        return "a field goes on behind its closing quote"
    return error


class Table:
    """A CSV file with a header: `blocks` gives its rows. `columns` says of each name that is needed what the header calls it, and `perhaps` has the
    names of columns that may be missing, whose place is then None."""

    def __init__(self, path: str, columns: Mapping[str, str], encoding: str | None = None, separator: str | None = None, perhaps: Sequence[str] = ()) -> None:
        self.name = "standard input" if path == "-" else path
        self._stream = opened(path, encoding)
        self._carry = ""
        self._line = 1
        self.unended = False
        self.read = 0
        header = self._header(columns, separator or SEPARATORS)
        self.width = len(header)
        self.places = [self._place(header, column) for column in columns.values()]
        self.perhaps = [self._place(header, column) if tidy(column) in header else None for column in perhaps]

    def _header(self, columns: Mapping[str, str], separators: str) -> list[str]:
        """The first line that isn't empty, by the separator that shows most of the columns."""
        text = self._taken(self._stream.readline, LINE)
        while text == "\n" or SAID.fullmatch(text):
            said = SAID.fullmatch(text)
            separators = said[1] if said else separators
            self._line += 1
            text = self._taken(self._stream.readline, LINE)
        if not text:
            raise NotATable(f"{self.name}: line {self._line}: there is no header, the file is empty")
        best: list[str] = []
        for separator in separators:
            try:
                header = [tidy(name) for name in next(csv.reader([text], delimiter=separator, strict=True))]
            except csv.Error:
                continue
            if not best or self._missing(header, columns) < self._missing(best, columns):
                best, self._separator = header, separator
        if not best:
            raise NotATable(f"{self.name}: line {self._line}: the header isn't of CSV's form: {shown(text.strip())}")
        lacking = [column for column in columns.values() if tidy(column) not in best]
        if lacking:
            hint = " (is it UTF-16? --encoding utf-16-le)" if "\0" in text else ""
            there = shown(", ".join(name or "(no name)" for name in best))
            raise NotATable(f"{self.name}: line {self._line}: there is no column {', '.join(map(repr, lacking))}; the columns are: {there}{hint}")
        self._line += 1
        return best

    @staticmethod
    def _missing(header: list[str], columns: Mapping[str, str]) -> int:
        return sum(tidy(column) not in header for column in columns.values())

    def _place(self, header: list[str], column: str) -> int:
        if header.count(tidy(column)) > 1:
            raise NotATable(f"{self.name}: line {self._line - 1}: the column {column!r} is there {header.count(tidy(column))} times")
        return header.index(tidy(column))

    @property
    def lines(self) -> int:
        """The lines read so far, the header's too."""
        return self._line - 1

    def blocks(self) -> Iterator[Block]:
        """All rows behind the header."""
        while True:
            text = self._taken(self._stream.read, BLOCK)
            ended, last = not text, self._carry.rfind("\n") + 1
            if self._to_its_end(text) + len(self._carry) - last > LINE:
                # rows that waited for a quote to close are ended by a line that is past every row's length
                if last:
                    yield self._block(self._carry[:last], True)
                fault, text = self._overlong(self._carry[last:], text)
                self._carry = ""
                yield Block([], [], [fault])
            held = self._carry + text
            if ended and held:
                self.unended = not held.endswith("\n")
            cut = len(held) if ended else held.rfind("\n") + 1
            self._carry = held[cut:]
            if cut:
                yield self._block(held[:cut], ended)
            if ended:
                return

    def _taken(self, read: Callable[[int], str], most: int) -> str:
        """What is read; a failure names the file."""
        try:
            text = read(most)
        except OSError as error:
            raise OSError(error.errno, error.strerror, self.name) from None
        self.read += len(text)
        return text

    @staticmethod
    def _to_its_end(text: str) -> int:
        """How much of the line that the text begins in it has."""
        end = text.find("\n")
        return len(text) if end < 0 else end

    def _overlong(self, head: str, text: str) -> tuple[Fault, str]:
        """A line that is past every row's length is read to its end and not kept; what is behind it."""
        words = (head + text)[:LINE].split("\n")[0].split(self._separator)
        length = len(head) + self._to_its_end(text)
        while text and "\n" not in text:
            text = self._taken(self._stream.read, BLOCK)
            length += self._to_its_end(text)
        self.unended = not text
        words[-1] = f"{words[-1][:SHOWN]}..(the line has {length} characters)"
        self._line, line = self._line + 1, self._line
        return Fault(line, words, f"the line has over {LINE} characters"), text[self._to_its_end(text) + 1 :]

    def _block(self, text: str, ended: bool) -> Block:
        """The rows of whole lines. Where there are no quotes a field is what stands between two separators, which is quickly found."""
        first, rows = self._line, []
        if '"' not in text:
            rows = [line.split(self._separator) for line in text.removesuffix("\n").split("\n")]
            self._line += len(rows)
            return Block(rows, range(first, self._line), [])
        reader = csv.reader(io.StringIO(text, newline="\n"), delimiter=self._separator, strict=True)
        try:
            rows.extend(reader)
        except csv.Error:
            return self._line_by_line(text, ended)
        if reader.line_num == len(rows):
            self._line += len(rows)
            return Block(rows, range(first, first + len(rows)), [])
        lines, line = [], first
        for row in rows:
            lines.append(line)
            line += 1 + sum(word.count("\n") for word in row)
            if line - lines[-1] > SPAN:
                return self._line_by_line(text, ended)
        self._line = line
        return Block(rows, lines, [])

    def _line_by_line(self, text: str, ended: bool) -> Block:
        """The same where a line is not of CSV's form: that line is said, and the next is read by itself."""
        rows, lines, faults = [], [], []
        held, place = [*io.StringIO(text, newline="\n")], 0
        while place < len(held):
            reader = csv.reader(held[place : place + SPAN], delimiter=self._separator, strict=True)
            try:
                row, used, reason = next(reader), reader.line_num, ""
            except csv.Error as error:
                row, used, reason = [], 1, str(error)
            if reason == UNCLOSED and not ended and len(held) - place < SPAN and sum(map(len, held[place:])) < LINE:
                self._carry = "".join(held[place:]) + self._carry
                break
            if reason:
                faults.append(Fault(self._line, held[place].rstrip("\n").split(self._separator), said(reason)))
            else:
                rows.append(row)
                lines.append(self._line)
            place += used
            self._line += used
        return Block(rows, lines, faults)


def tidy(name: str) -> str:
    """A column's name, or a word with few values, without regard to spaces around it and to capitals."""
    return name.strip().casefold()
