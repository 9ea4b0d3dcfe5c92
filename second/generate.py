"""generate SEED COUNT: prints COUNT generated lines for both programs, the same for the same seed.

Every verb, edges favoured: values at and beside each limit, numbers that no type
holds, histories of books, openings that are refused or mistyped, lines that are too
long, lines that are not understood, comments, any bytes.
"""

import sys

from asks import landed
from calls import NUMBERS_OF
from histories import History
from lines import FORMS
from reading import BYTE_ORDER_MARK
from source import Source
from typed import NOT_NUMBERS, any_bytes, filled_up, in_codes, line_of

WORDS_OF_DOCUMENT_02 = (
    *(b"read", b"write", b"net-for", b"compound", b"card", b"settled", b"row", b"export"),
    *(b"vouchers", b"statement", b"check", b"view", b"reasons", b"check-any", b"view-any"),
)


def single_call(source):
    verb = source.pick(*(verb for verb in NUMBERS_OF if verb in FORMS))
    numbers = NUMBERS_OF[verb](source)
    if landed(1) and source.chance(50):
        numbers = in_codes(source, FORMS[verb][-1], numbers)
    return line_of(source, verb, numbers)


def not_understood(source):
    """A line that was good until something was done to it."""
    words = single_call(source).split()
    place = source.below(len(words))
    damage = source.pick(
        "missing", "superfluous", "no number", "verb", "tab", "bytes", "spaces", "mark"
    )
    if damage == "missing":
        words.pop(place)
    elif damage == "superfluous":
        words.insert(place, b"7")
    elif damage == "no number":
        words[place] = source.pick(*NOT_NUMBERS)
    elif damage == "verb":
        like_it = (words[0].upper(), words[0] + b"s", b"", b"opens", b"total")
        words[0] = source.pick(*like_it, *FORMS, *WORDS_OF_DOCUMENT_02)
    elif damage == "mark":
        words[0] = BYTE_ORDER_MARK + words[0]
    elif damage == "spaces":
        return b" " * source.below(9)
    elif damage == "bytes":
        return any_bytes(source, source.pick(1, 3, 30))
    return (b"\t" if damage == "tab" else b" ").join(words)


def comment(source):
    return source.pick(b"# a comment", b"#", b" # no comment", b"#" + any_bytes(source, 12))


def long_line(source):
    """A good line, a comment or spaces, filled up."""
    starts = (b"round 6 5 ", b"#", b"totals", b"negate 0 2 -", b"post 0 2 ")
    return filled_up(source, source.pick(*starts))


def some_lines(source):
    """A few lines that belong together; mostly one."""
    dice = source.below(1000)
    if dice < 860:
        return [single_call(source)]
    if dice < 920:
        return History(source).lines()
    if dice < 970:
        return [not_understood(source)]
    if dice < 990:
        return [comment(source)]
    return [b""] if dice < 997 else [long_line(source)]


def line_end(source):
    return source.pick(b"\r\n", b"\r\r\n") if source.chance(6) else b"\n"


def generated(seed, count):
    """The generated input, as pieces of bytes. A mark may stand first, whole, in part or
    twice, and the last line may be unended."""
    source, left = Source(seed), count
    if source.chance(40):
        yield source.pick(*[BYTE_ORDER_MARK] * 2, BYTE_ORDER_MARK[:2], BYTE_ORDER_MARK * 2)
    while left > 0:
        for line in some_lines(source):
            if left == 0:
                return
            left -= 1
            end = line_end(source)
            unended = left == 0 and line and source.chance(50)
            yield line + (end[:-1] if unended else end)


if __name__ == "__main__":
    if len(sys.argv) != 3:
        sys.exit("two arguments: a seed and a count of lines, both whole numbers")
    for piece in generated(int(sys.argv[1]), int(sys.argv[2])):
        sys.stdout.buffer.write(piece)
