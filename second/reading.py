"""Reading a stream line by line: where a line ends, how long it may be, and how the input ends."""

from typing import NamedTuple

LONGEST_LINE = 4_000
LONGEST_WITH_END = LONGEST_LINE + len(b"\r\n")
READ_AT_ONCE = 65_536
BYTE_ORDER_MARK = b"\xef\xbb\xbf"
FRONT = 16


class Line(NamedTuple):
    """A line's bytes without its end; of one that is too long only the front."""

    content: bytes
    too_long: bool = False


def without_end(piece):
    """A line ends at a newline or at the end of the input; one carriage return before
    that is no part of it."""
    return piece.removesuffix(b"\n").removesuffix(b"\r")


def front_of_long_line(stream, piece):
    """The front of a line of which a piece was read, and whether the line is ended.

    The spaces before the first word are left out, so that the front tells a line whose
    first word is `open`. However long the line is, little of it is held.
    """
    front = b""
    while piece:
        front = (front + piece).lstrip(b" ")[:FRONT]
        if piece.endswith(b"\n"):
            return front, True
        piece = stream.readline(READ_AT_ONCE)
    return front, False


class Reading:
    """The lines of a stream, and what `end` says of them.

    `lines` is the number of lines read so far; `unended` says that the last of them has
    no newline; `failed` that reading failed. What was read of a line before that is no
    line. The byte order mark at the very beginning is no part of the first line.
    """

    def __init__(self, stream):
        self.stream = stream
        self.lines = 0
        self.unended = False
        self.failed = False

    def __iter__(self):
        try:
            start = self.stream.readline(len(BYTE_ORDER_MARK))
            piece = self.next_piece(b"" if start == BYTE_ORDER_MARK else start)
            while piece:
                yield self.line_of(piece)
                piece = self.next_piece(b"")
        except OSError:
            self.failed = True

    def next_piece(self, start):
        """The next line as far as it may be needed; its start was read before."""
        if start.endswith(b"\n"):
            return start
        return start + self.stream.readline(LONGEST_WITH_END - len(start))

    def line_of(self, piece):
        content, ended = without_end(piece), piece.endswith(b"\n")
        too_long = len(content) > LONGEST_LINE
        if too_long:
            front, ended = front_of_long_line(self.stream, piece)
            content = without_end(front)
        self.lines += 1
        self.unended = not ended
        return Line(content, too_long)
